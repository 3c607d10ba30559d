//! Times the library's routines beside the oracle's and FFTW's. Usage:
//!
//!     speed                       all routines at N = 16, 64, 256 and 1024: markdown tables of times
//!     speed calls ROUTINE N K     K calls of one routine, at most 64, for a program that counts instructions
mod check;
mod fftw;
mod interface;
mod memory;
mod routine;
mod transform;

use routine::{names, Routine, Row, ROWS};
use std::collections::HashMap;
use std::hint::black_box;
use std::process::exit;
use std::time::Instant;

const LENGTHS: [usize; 4] = [16, 64, 256, 1024];

/// Odd, so that the median is a measured time.
const ROUNDS: usize = 51;

/// A batch of calls is timed as one and takes about this long, unless a single call takes longer.
const BATCH_NANOSECONDS: f64 = 500_000.0;

/// The most calls of `speed calls`.
const MOST_CALLS: usize = 64;

/// Nanoseconds per call, each on a refilled buffer. The refill is within the timing.
fn time(routine: &mut Routine, calls: usize) -> f64 {
    let start = Instant::now();
    for _ in 0..calls {
        black_box(&mut *routine).refill();
        routine.run();
    }
    start.elapsed().as_nanos() as f64 / calls as f64
}

fn median(times: &mut [f64]) -> f64 {
    times.sort_by(|x, y| x.total_cmp(y));
    times[times.len() / 2]
}

/// The median times of one run, by length and routine.
struct Times(HashMap<(usize, String), f64>);

impl Times {
    /// Every routine at every length in each round, so that what slows the machine for a while slows all of them.
    fn take() -> Times {
        let mut routines = Vec::new();
        for len in LENGTHS {
            check::check(len);
            for name in names() {
                let mut routine = Routine::new(&name, len).unwrap();
                time(&mut routine, 2);
                let calls = (BATCH_NANOSECONDS / time(&mut routine, 3)).max(1.0) as usize;
                routines.push((len, name, routine, calls, Vec::new()));
            }
        }
        for _ in 0..ROUNDS {
            for (_, _, routine, calls, times) in &mut routines {
                // One call that is not timed brings the routine's memory back into the caches.
                time(routine, 1);
                times.push(time(routine, *calls));
            }
        }
        let medians = routines
            .into_iter()
            .map(|(len, name, _, _, mut times)| ((len, name), median(&mut times)));
        Times(medians.collect())
    }

    fn of(&self, len: usize, row: &Row, whose: &str, way: &str) -> Option<f64> {
        row.routine(whose, way).map(|name| self.0[&(len, name)])
    }
}

fn shown(time: Option<f64>) -> String {
    time.map_or("–".to_string(), |time| format!("{time:.0}"))
}

fn ratio(above: Option<f64>, below: Option<f64>, digits: usize) -> String {
    match (above, below) {
        (Some(above), Some(below)) => format!("{:.*}", digits, above / below),
        _ => "–".to_string(),
    }
}

fn residue_table(times: &Times) {
    println!("| N | transform | residue fast | residue naive | oracle f64 | fast / oracle | naive / fast |");
    println!("|---:|---|---:|---:|---:|---:|---:|");
    for len in LENGTHS {
        for row in ROWS.iter().filter(|row| row.residue) {
            let of = |whose, way| times.of(len, row, whose, way);
            let (fast, naive, oracle) = (of("residue", "fast"), of("residue", "naive"), of("oracle", "fast"));
            println!(
                "| {len} | {} | {} | {} | {} | {} | {} |",
                row.name,
                shown(fast),
                shown(naive),
                shown(oracle),
                ratio(fast, oracle, 2),
                ratio(naive, fast, 1)
            );
        }
    }
}

fn float_table(times: &Times) {
    println!("| N | transform | float fast | oracle fast | fast / oracle | FFTW | fast / FFTW | float naive | oracle naive | naive / oracle |");
    println!("|---:|---|---:|---:|---:|---:|---:|---:|---:|---:|");
    for len in LENGTHS {
        for row in &ROWS {
            let of = |whose, way| times.of(len, row, whose, way);
            let (fast, oracle, fftw) = (of("float", "fast"), of("oracle", "fast"), of("fftw", "fast"));
            let (naive, oracle_naive) = (of("float", "naive"), of("oracle", "naive"));
            println!(
                "| {len} | {} | {} | {} | {} | {} | {} | {} | {} | {} |",
                row.name,
                shown(fast),
                shown(oracle),
                ratio(fast, oracle, 2),
                shown(fftw),
                ratio(fast, fftw, 2),
                shown(naive),
                shown(oracle_naive),
                ratio(naive, oracle_naive, 2)
            );
        }
    }
}

fn tables() {
    let times = Times::take();
    println!("Nanoseconds per call, the median of {ROUNDS} rounds in one run; every round times all routines at all lengths.");
    println!("Every call works on a buffer refilled with the same input, and the refill is within the timing, for all alike. A");
    println!("residue call and a float call include their tests for a refusal and zero their scratch; the oracle tests lengths alone and");
    println!("leaves its scratch as it comes. The oracle is rustdct on f64: fast is its split radix with naive leaves at lengths 1 and 2,");
    println!(
        "with type 4 and the MDCT over it; naive are its sums. FFTW runs in place, with a plan by FFTW_MEASURE. MDCT and IMDCT are"
    );
    println!("under the sine window.");
    println!();
    println!("Residues:");
    println!();
    residue_table(&times);
    println!();
    println!("Floats, whose bits are the oracle's:");
    println!();
    float_table(&times);
}

/// Makes as many routines as there can be calls, whatever `count` is, and runs the first `count` of them once each. So two runs differ
/// by their calls alone, and no refill is counted.
fn calls(name: &str, len: usize, count: usize) -> Option<()> {
    let mut routines = Vec::new();
    for _ in 0..MOST_CALLS {
        routines.push(Routine::new(name, len)?);
    }
    routines.iter_mut().for_each(Routine::refill);
    if count > MOST_CALLS {
        return None;
    }
    for routine in &mut routines[..count] {
        black_box(routine).run();
    }
    Some(())
}

fn main() {
    let arguments: Vec<String> = std::env::args().skip(1).collect();
    let words: Vec<&str> = arguments.iter().map(String::as_str).collect();
    let done = match words[..] {
        [] => Some(tables()),
        ["calls", name, len, count] => match (len.parse(), count.parse()) {
            (Ok(len), Ok(count)) if LENGTHS.contains(&len) => calls(name, len, count),
            _ => None,
        },
        _ => None,
    };
    if done.is_none() {
        let names = names();
        eprintln!("usage: speed, or speed calls ROUTINE N K, where ROUTINE is one of {names:?}, N one of {LENGTHS:?}, K at most {MOST_CALLS}");
        exit(2);
    }
}
