//! The refusals of the float routines: 1 for each size that is not allowed, 2 for each length that is wrong, and 1 before 2. After each of
//! them nothing lent has changed.
use crate::floats::{sizes, Tested};
use crate::interface;
use crate::memory::{Memory, Slice};
use crate::report::Report;
use crate::Run;
use cases::inputs::{given, KINDS};
use cases::routine::{Routine, GREATEST, ROUTINES};
use cases::words::Words;

struct Refusals<'a> {
    routine: Routine,
    words: Words,
    memory: Memory<u64>,
    report: &'a mut Report,
}

impl Refusals<'_> {
    fn refused(&mut self, n: usize, slices: &[Slice<u64>], answer: u32, what: &str) {
        let name = self.routine.name();
        let verdict = self.memory.call(n, slices, answer, interface::float(self.routine));
        if self.report.count(name, n, true, &verdict) {
            println!(
                "{name}, n = {n}, {what}, to be refused by {answer}: {}",
                verdict.first.unwrap_or_default()
            );
            let lengths: Vec<String> = slices
                .iter()
                .map(|slice| format!("{} {}", slice.name, slice.length))
                .collect();
            println!("    lengths: {}", lengths.join(", "));
        }
    }

    /// What is lent fits n, but the size is another.
    fn sizes(&mut self, n: usize, fitting: &[Slice<u64>]) {
        let around = [n - 1, n + 1, 2 * n, 3 * n, n + GREATEST];
        let always = [0, 3, 5, 1023, 1025, 2048, 4096, 8192];
        let beyond = [1 << 32, (1 << 32) + n, (1 << 62) + n, 1 << 63, usize::MAX - 1, usize::MAX];
        for other in [&around[..], &always, &beyond].concat() {
            if self.routine.allows(other) {
                continue;
            }
            self.refused(other, fitting, 1, "a size that is not allowed");
            // Lengths are wrong as well, one after the other, and all at once.
            for s in 0..fitting.len() {
                let mut lent = fitting.to_vec();
                lent[s].length = self.words.below(lent[s].length + 2);
                self.refused(other, &lent, 1, "a size that is not allowed, and a length");
            }
            let none: Vec<Slice<u64>> = fitting.iter().map(|slice| Slice { length: 0, ..*slice }).collect();
            self.refused(other, &none, 1, "a size that is not allowed, and nothing lent");
        }
    }

    fn lengths(&mut self, n: usize, fitting: &[Slice<u64>]) {
        let scratch = fitting.len() - 1;
        for s in 0..fitting.len() {
            let fits = fitting[s].length;
            for length in [fits.wrapping_sub(1), fits + 1, 0, fits / 2, 2 * fits, fits + n] {
                // No scratch is too long, and none too short where none is needed.
                if length == fits || length == usize::MAX || (s == scratch && length > fits) {
                    continue;
                }
                let mut lent = fitting.to_vec();
                lent[s].length = length;
                self.refused(n, &lent, 2, "a length that is wrong");
                let other = (s + 1 + self.words.below(scratch)) % fitting.len();
                lent[other].length += 1;
                self.refused(n, &lent, 2, "a length that is wrong, and another that is one more");
            }
        }
    }
}

pub fn compare(run: &Run, report: &mut Report) {
    let mut words = Words::new(run.seed ^ 1);
    let mut refusals = Refusals {
        routine: ROUTINES[0],
        memory: Memory::new(words.word()),
        words,
        report,
    };
    for routine in ROUTINES {
        refusals.routine = routine;
        for n in sizes(routine, run) {
            if n > 16 && n < 1000 && !n.is_power_of_two() {
                continue;
            }
            // What is lent would do for n, with input of any bits, and scratch is as long as need be.
            let tested = Tested::new(routine, n);
            let bits = KINDS.len() - 2;
            let given = given(routine, n, bits, &mut refusals.words);
            let outputs = vec![vec![0; n]; 2];
            let fitting = tested.slices(&given.inputs, &outputs, tested.zeros.len());
            refusals.sizes(n, &fitting);
            refusals.lengths(n, &fitting);
        }
    }
}
