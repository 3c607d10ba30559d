//! The float routines beside the oracle: the same inputs, tables taken from rustdct, and every word of output compared.
use crate::interface;
use crate::levels::powers;
use crate::memory::{Memory, Slice, Verdict};
use crate::report::Report;
use crate::shrink::{shown, smallest};
use crate::Run;
use cases::inputs::{given, Given, KINDS};
use cases::routine::{Oracle, Routine, ROUTINES};
use cases::words::Words;

/// Sizes beyond 64 at which the naive routines are run: the powers of two, their neighbours, primes, and others.
const SPREAD: [usize; 33] = [
    65, 67, 71, 96, 97, 100, 127, 128, 129, 191, 200, 255, 256, 257, 333, 383, 400, 509, 511, 512, 513, 600, 641, 701, 768, 811,
    900, 997, 1000, 1009, 1021, 1023, 1024,
];

/// Even ones for the naive MDCT.
const EVEN_SPREAD: [usize; 26] = [
    66, 74, 94, 96, 100, 118, 126, 128, 130, 194, 202, 254, 256, 258, 334, 386, 512, 514, 600, 702, 768, 898, 998, 1000, 1022, 1024,
];

/// Those of the part for the gate, for all naive routines.
const PART_SPREAD: [usize; 6] = [96, 127, 128, 500, 1023, 1024];

/// The sizes of a routine, the least first.
pub fn sizes(routine: Routine, run: &Run) -> Vec<usize> {
    let spread: &[usize] = match (run.part, routine.is_block()) {
        (true, _) => &PART_SPREAD,
        (false, true) => &EVEN_SPREAD,
        (false, false) => &SPREAD,
    };
    let all: Vec<usize> = if routine.is_fast() {
        powers(1).collect()
    } else {
        (1..=64).chain(spread.iter().copied()).collect()
    };
    all.into_iter().filter(|n| routine.allows(*n)).collect()
}

/// How many inputs of a size there are: so many that all kinds come up, and more at small sizes, where a call is short. In the part for
/// the gate a long naive call has a few kinds only.
fn inputs(routine: Routine, n: usize, run: &Run) -> usize {
    let kinds = KINDS.len();
    match (run.part, routine.is_fast()) {
        (true, true) => (6_000 / n).clamp(kinds, 6 * kinds),
        (true, false) => (5_000 * kinds / (n * n)).clamp(2, if n <= 8 { 6 * kinds } else { kinds }),
        (false, true) => (320_000 / n).clamp(2 * kinds, 3_000),
        (false, false) => (4_000_000 / (n * n)).clamp(2 * kinds, 3_000),
    }
}

/// A float routine at a size, with the oracle's tables.
pub struct Tested {
    oracle: Oracle,
    tables: Vec<Vec<u64>>,
    /// What the scratch that is needed holds after a call.
    pub zeros: Vec<u64>,
}

impl Tested {
    pub fn new(routine: Routine, n: usize) -> Tested {
        let oracle = Oracle::new(routine, n);
        Tested {
            tables: oracle.tables(),
            zeros: vec![0; routine.scratch() * n],
            oracle,
        }
    }

    /// What is lent, in the order of the call.
    pub fn slices<'a>(&'a self, inputs: &'a [Vec<u64>], outputs: &'a [Vec<u64>], scratch: usize) -> Vec<Slice<'a, u64>> {
        let routine = self.oracle.routine;
        let mut slices: Vec<Slice<u64>> = match &self.tables[..] {
            [table] => vec![Slice::read("table", table)],
            tables => vec![Slice::read("cosines", &tables[0]), Slice::read("sines", &tables[1])],
        };
        if routine.is_mdct() {
            slices.push(Slice::read("first", &inputs[0]));
            slices.push(Slice::read("second", &inputs[1]));
            slices.push(Slice::stored("output", &[], &outputs[0]));
            slices.push(Slice::read("window", &inputs[2]));
        } else if routine.is_imdct() {
            slices.push(Slice::read("input", &inputs[0]));
            slices.push(Slice::stored("first", &inputs[1], &outputs[0]));
            slices.push(Slice::stored("second", &inputs[2], &outputs[1]));
            slices.push(Slice::read("window", &inputs[3]));
        } else {
            slices.push(Slice::stored("buffer", &inputs[0], &outputs[0]));
        }
        slices.push(Slice::scratch(scratch, &self.zeros));
        slices
    }

    fn call(&self, inputs: &[Vec<u64>], more_scratch: usize, memory: &mut Memory<u64>) -> Verdict {
        let outputs = self.oracle.answer(inputs);
        let slices = self.slices(inputs, &outputs, self.zeros.len() + more_scratch);
        memory.call(self.oracle.n, &slices, 0, interface::float(self.oracle.routine))
    }
}

/// Says a difference in full, with the smallest input found.
fn say(tested: &Tested, given: Given, first: Option<String>, memory: &mut Memory<u64>) {
    let Oracle { routine, n, .. } = tested.oracle;
    println!("{}, n = {n}, {}: {}", routine.name(), given.kind, first.unwrap_or_default());
    let (inputs, verdict) = smallest(given.inputs, |inputs| tested.call(inputs, 0, memory));
    let Some(first) = verdict.first else { return };
    println!("    the smallest input found: {first}");
    for (name, input) in routine.input_names().iter().zip(&inputs) {
        println!("        {name} = {}", shown(input));
    }
}

/// Every routine at all its sizes, on inputs of all kinds.
pub fn compare(run: &Run, report: &mut Report) {
    let mut words = Words::new(run.seed);
    let mut memory = Memory::new(words.word());
    for routine in ROUTINES {
        for n in sizes(routine, run) {
            let tested = Tested::new(routine, n);
            for number in 0..inputs(routine, n, run) {
                // From size to size it begins with another kind.
                let given = given(routine, n, n + number, &mut words);
                let more_scratch = [0, 1, 7, n][words.below(4)];
                let verdict = tested.call(&given.inputs, more_scratch, &mut memory);
                if report.count(routine.name(), n, false, &verdict) {
                    say(&tested, given, verdict.first, &mut memory);
                }
            }
        }
    }
}
