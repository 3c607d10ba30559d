//! The residue routines beside the defining sums.
use crate::interface::{residues, Residue, Sums};
use crate::levels::powers;
use crate::memory::{Memory, Slice, Verdict};
use crate::report::Report;
use crate::shrink::{shown, smallest};
use crate::sums::{Angles, MODULUS};
use crate::Run;
use cases::words::Words;

/// The size, and what a call is lent but for scratch, in the order of the call.
#[derive(Clone)]
pub struct Given {
    pub n: usize,
    pub lent: Vec<Vec<u32>>,
}

/// What is compared, and with what.
pub struct Comparison<'a> {
    angles: Angles,
    pub words: Words,
    memory: Memory<u32>,
    report: &'a mut Report,
}

/// The slices that a call stores to, by their places, and what they are to hold.
type Stored = Vec<(usize, Vec<u32>)>;

impl Comparison<'_> {
    fn stored(&self, call: &Residue, given: &Given) -> Stored {
        let lent = &given.lent;
        match call.sums {
            Sums::FlatWindow => vec![(0, self.angles.flat_window(given.n))],
            Sums::SineWindow => vec![(0, self.angles.sine_window(given.n))],
            Sums::TestWindow => vec![],
            Sums::Mdct => vec![(2, self.angles.mdct(&lent[0], &lent[1], &lent[3]))],
            Sums::Imdct => {
                let [first, second] = self.angles.imdct(&lent[0], &lent[1], &lent[2], &lent[3]);
                vec![(1, first), (2, second)]
            }
            sums => vec![(0, self.angles.in_place(sums, &lent[0]))],
        }
    }

    /// Makes a call with slices of these lengths, which is to give that answer.
    fn make(&mut self, call: &Residue, given: &Given, lengths: &[usize], answer: u32, stored: &Stored) -> Verdict {
        let zeros = vec![0; if answer == 0 { call.scratch * given.n } else { 0 }];
        let named = call.names().iter().zip(&given.lent);
        let mut slices: Vec<Slice<u32>> = named.map(|(name, entries)| Slice::read(name, entries)).collect();
        for (s, entries) in stored {
            slices[*s] = Slice::stored(call.names()[*s], &given.lent[*s], entries);
        }
        if !call.sums.is_window() {
            slices.push(Slice::scratch(0, &zeros));
        }
        for (slice, length) in slices.iter_mut().zip(lengths) {
            slice.length = *length;
        }
        self.memory.call(given.n, &slices, answer, call.call)
    }

    /// Makes a call and compares all there is. What is to be stored is worked out, unless it is given.
    pub fn call(&mut self, call: &Residue, given: &Given, lengths: &[usize], known: Option<&Stored>, kind: &str) {
        let answer = call.answer(given.n, lengths, &given.lent);
        let worked_out = match known {
            None if answer == 0 => self.stored(call, given),
            _ => vec![],
        };
        let stored = known.unwrap_or(&worked_out);
        let verdict = self.make(call, given, lengths, answer, stored);
        if !self.report.count(call.name, given.n, answer != 0, &verdict) {
            return;
        }
        let first = verdict.first.unwrap_or_default();
        println!("{}, n = {}, {kind}, to be answered by {answer}: {first}", call.name, given.n);
        let (inputs, verdict) = smallest(given.lent.clone(), |lent| {
            let given = Given {
                n: given.n,
                lent: lent.to_vec(),
            };
            let answer = call.answer(given.n, lengths, lent);
            let stored = if answer == 0 { self.stored(call, &given) } else { vec![] };
            self.make(call, &given, lengths, answer, &stored)
        });
        println!("    the smallest input found: {}", verdict.first.unwrap_or_default());
        for ((name, input), length) in call.names().iter().zip(&inputs).zip(lengths) {
            println!("        {name}, lent with a length of {length} = {}", shown(input));
        }
    }

    fn residues(&mut self, kind: usize, len: usize) -> (Vec<u32>, &'static str) {
        let place = self.words.below(len);
        let mut below = |bound: u64| (self.words.word() % bound) as u32;
        match kind {
            0 => (vec![0; len], "zeros"),
            1 => (vec![MODULUS as u32 - 1; len], "all p - 1"),
            2 => ((0..len).map(|i| (i == place) as u32).collect(), "a one and zeros"),
            3 => (
                (0..len).map(|_| MODULUS as u32 - 1 - below(3)).collect(),
                "from p - 3 to p - 1",
            ),
            _ => ((0..len).map(|_| below(MODULUS)).collect(), "any residues"),
        }
    }

    fn window(&mut self, kind: usize, n: usize) -> (Vec<u32>, &'static str) {
        match kind {
            0 => (self.angles.flat_window(n), "the flat window"),
            1 => (self.angles.sine_window(n), "the sine window"),
            _ => (self.angles.other_window(n, || self.words.word()), "another accepted window"),
        }
    }

    fn any_words(&mut self, len: usize) -> Vec<u32> {
        (0..len).map(|_| self.words.word() as u32).collect()
    }

    /// An input that is not refused, by its number, and of what kind it is. What is overwritten may hold anything.
    pub fn given(&mut self, call: &Residue, n: usize, number: usize) -> (Given, String) {
        let (first, of_first) = self.residues(number % 5, n);
        let (lent, kind) = match call.sums {
            Sums::FlatWindow | Sums::SineWindow => (vec![self.any_words(2 * n)], "any words".to_string()),
            Sums::TestWindow => {
                let (window, of_window) = self.window(number % 3, n);
                (vec![window], of_window.to_string())
            }
            Sums::Mdct | Sums::Imdct => {
                let (second, of_second) = self.residues((number + number / 5) % 5, n);
                let third = if call.sums == Sums::Mdct {
                    self.any_words(n)
                } else {
                    self.residues(4, n).0
                };
                let (window, of_window) = self.window(number % 3, n);
                (
                    vec![first, second, third, window],
                    format!("{of_first}; {of_second}; {of_window}"),
                )
            }
            _ => (vec![first], of_first.to_string()),
        };
        (Given { n, lent }, kind)
    }

    /// Calls of the same sums, on inputs that are not refused. The sums are worked out once for all of them.
    fn sums(&mut self, calls: &[&Residue], n: usize, count: usize) {
        for number in 0..count {
            let (given, kind) = self.given(calls[0], n, n.ilog2() as usize + number);
            let stored = self.stored(calls[0], &given);
            for call in calls {
                let mut lengths = call.lengths(n);
                if !call.sums.is_window() {
                    *lengths.last_mut().unwrap() += [0, 1, 7, n][self.words.below(4)];
                }
                self.call(call, &given, &lengths, Some(&stored), &kind);
            }
        }
    }
}

/// How many inputs of a size there are. The sums take a time that grows with the square of n.
fn inputs(call: &Residue, n: usize, run: &Run) -> usize {
    match (run.part, call.sums.is_window()) {
        (true, true) => 3,
        (false, true) => 12,
        (true, false) => (60_000 / (n * n)).clamp(1, 10),
        (false, false) => (40_000_000 / (n * n)).clamp(15, 600),
    }
}

/// Every residue call at all its sizes.
pub fn compare(run: &Run, report: &mut Report) {
    let mut words = Words::new(run.seed ^ 2);
    let mut comparison = Comparison {
        angles: Angles::new(),
        memory: Memory::new(words.word()),
        words,
        report,
    };
    let calls = residues();
    for call in &calls {
        // Naive and fast calls of the same sums are compared together, with the first of them.
        let same: Vec<&Residue> = calls.iter().filter(|other| other.sums == call.sums).collect();
        for n in powers(call.sums.least()) {
            if same[0].name == call.name {
                comparison.sums(&same, n, inputs(call, n, run));
            }
            comparison.refusals(call, n);
        }
    }
}
