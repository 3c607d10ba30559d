//! What is counted and what is said.
use crate::memory::Verdict;
use std::time::{Duration, Instant};

/// The most differences of one routine that are said in full.
const SAID: usize = 3;

#[derive(Default)]
struct Row {
    name: String,
    calls: usize,
    refused: usize,
    words: usize,
    differences: usize,
    said: usize,
}

pub struct Report {
    rows: Vec<Row>,
    tables: usize,
    start: Instant,
    last: Instant,
}

impl Report {
    pub fn new() -> Report {
        Report {
            rows: Vec::new(),
            tables: 0,
            start: Instant::now(),
            last: Instant::now(),
        }
    }

    fn row(&mut self, name: &str) -> &mut Row {
        let place = self.rows.iter().position(|row| row.name == name).unwrap_or_else(|| {
            self.rows.push(Row {
                name: name.to_string(),
                ..Row::default()
            });
            self.rows.len() - 1
        });
        &mut self.rows[place]
    }

    fn totals(&self) -> (usize, usize) {
        self.rows.iter().fold((0, self.tables), |(words, differences), row| {
            (words + row.words, differences + row.differences)
        })
    }

    /// Counts a call. Answers whether there is a difference that is to be said in full.
    pub fn count(&mut self, name: &str, n: usize, refused: bool, verdict: &Verdict) -> bool {
        let row = self.row(name);
        row.calls += 1;
        row.refused += refused as usize;
        row.words += verdict.words;
        row.differences += verdict.differences;
        let full = verdict.differences > 0 && row.said < SAID;
        row.said += full as usize;
        if self.last.elapsed() > Duration::from_secs(2) {
            self.last = Instant::now();
            let (words, differences) = self.totals();
            let seconds = self.start.elapsed().as_secs();
            eprintln!("{seconds} s: {words} words compared, {differences} differences, now {name}, n = {n}");
        }
        full
    }

    /// Counts what differs in rustdct's tables. Their words are no outputs and are not counted.
    pub fn count_table(&mut self, differences: usize) {
        self.tables += differences;
    }

    /// Prints the table and the last line. Answers whether there is no difference, in so many words at least.
    pub fn finish(&self, least: usize) -> bool {
        println!();
        println!("| routine | calls | refused among them | words compared | differences |");
        println!("|---|---:|---:|---:|---:|");
        for row in &self.rows {
            println!(
                "| {} | {} | {} | {} | {} |",
                row.name, row.calls, row.refused, row.words, row.differences
            );
        }
        println!();
        let (words, differences) = self.totals();
        println!("differences: {words} words compared, {differences} differences");
        if words < least {
            println!("differences: at least {least} words were to be compared");
        }
        differences == 0 && words >= least
    }
}
