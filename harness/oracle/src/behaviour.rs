//! What the Rust does where Kultygash refuses, or leaves something else: at length 0, with a slice of another length, with scratch that is
//! too short, too long or not zero. Each routine is run, and what is seen is printed.
use crate::numbers;
use oracle::algorithm::Type2And3SplitRadix;
use oracle::mdct::{window_fn, Mdct};
use oracle::{TransformType2And3, TransformType4};
use std::panic::{catch_unwind, AssertUnwindSafe};
use std::sync::Arc;

/// The length at which the routines are run.
const N: usize = 8;

/// What is written, one slice after the other, and scratch.
type Run = fn(usize, &mut [f64], &mut [f64]);

struct Routine {
    name: &'static str,
    /// How many times the length is written, and needed of scratch.
    written: usize,
    scratch: usize,
    run: Run,
}

fn naive(n: usize) -> Arc<dyn TransformType2And3<f64>> {
    oracle::naive(n)
}

/// Split radix at any length, also where it cannot be made.
fn split(n: usize) -> Arc<dyn TransformType2And3<f64>> {
    Arc::new(Type2And3SplitRadix::new(oracle::splitradix(n / 2), oracle::splitradix(n / 4)))
}

fn type4(n: usize) -> Arc<dyn TransformType4<f64>> {
    oracle::type4(n)
}

fn sums(n: usize) -> Arc<dyn Mdct<f64>> {
    oracle::mdct_naive(n, window_fn::mp3_invertible(2 * n))
}

fn folded(n: usize) -> Arc<dyn Mdct<f64>> {
    oracle::mdct_via_dct4(n, window_fn::mp3_invertible(2 * n))
}

fn mdct(made: Arc<dyn Mdct<f64>>, n: usize, output: &mut [f64], scratch: &mut [f64]) {
    let input = numbers(2 * n, 3);
    made.process_mdct_with_scratch(&input[..n], &input[n..], output, scratch);
}

/// An extra entry is the second output's.
fn imdct(made: Arc<dyn Mdct<f64>>, n: usize, outputs: &mut [f64], scratch: &mut [f64]) {
    let (first, second) = outputs.split_at_mut(n);
    made.process_imdct_with_scratch(&numbers(n, 3), first, second, scratch);
}

const ROUTINES: [Routine; 14] = {
    const fn routine(name: &'static str, written: usize, scratch: usize, run: Run) -> Routine {
        Routine { name, written, scratch, run }
    }
    [
        routine("dct2_naive", 1, 1, |n, x, s| naive(n).process_dct2_with_scratch(x, s)),
        routine("dst2_naive", 1, 1, |n, x, s| naive(n).process_dst2_with_scratch(x, s)),
        routine("dct3_naive", 1, 1, |n, x, s| naive(n).process_dct3_with_scratch(x, s)),
        routine("dst3_naive", 1, 1, |n, x, s| naive(n).process_dst3_with_scratch(x, s)),
        routine("dct2_fast", 1, 1, |n, x, s| split(n).process_dct2_with_scratch(x, s)),
        routine("dst2_fast", 1, 1, |n, x, s| split(n).process_dst2_with_scratch(x, s)),
        routine("dct3_fast", 1, 1, |n, x, s| split(n).process_dct3_with_scratch(x, s)),
        routine("dst3_fast", 1, 1, |n, x, s| split(n).process_dst3_with_scratch(x, s)),
        routine("dct4_fast", 1, 1, |n, x, s| type4(n).process_dct4_with_scratch(x, s)),
        routine("dst4_fast", 1, 1, |n, x, s| type4(n).process_dst4_with_scratch(x, s)),
        routine("mdct_naive", 1, 0, |n, x, s| mdct(sums(n), n, x, s)),
        routine("imdct_naive", 2, 0, |n, x, s| imdct(sums(n), n, x, s)),
        routine("mdct_fast", 1, 2, |n, x, s| mdct(folded(n), n, x, s)),
        routine("imdct_fast", 2, 2, |n, x, s| imdct(folded(n), n, x, s)),
    ]
};

/// Whether it panics. Nothing is printed.
fn panics(done: impl FnOnce()) -> bool {
    let hook = std::panic::take_hook();
    std::panic::set_hook(Box::new(|_| {}));
    let result = catch_unwind(AssertUnwindSafe(done));
    std::panic::set_hook(hook);
    result.is_err()
}

/// What a call does, and whether it leaves what it was lent to write as it was.
fn seen(routine: &Routine, n: usize, more: usize, scratch: usize) -> String {
    let before = numbers(routine.written * n + more, 1);
    let (mut lent, mut scratch) = (before.clone(), vec![0.0; scratch]);
    match (panics(|| (routine.run)(n, &mut lent, &mut scratch)), lent == before) {
        (true, true) => "panics".to_string(),
        (true, false) => "panics, altered".to_string(),
        (false, true) if n > 0 => "returns, unaltered".to_string(),
        (false, _) => "returns".to_string(),
    }
}

/// The outputs with a scratch that holds this, and whether that scratch is then zero.
fn with(routine: &Routine, mut scratch: Vec<f64>) -> (Vec<f64>, bool) {
    let mut lent = numbers(routine.written * N, 1);
    (routine.run)(N, &mut lent, &mut scratch);
    (lent, scratch.iter().all(|x| *x == 0.0))
}

pub fn show() {
    println!("| the Rust | length 0 | a slice one longer | scratch one short | scratch one longer | scratch not zero | scratch is left |");
    println!("|---|---|---|---|---|---|---|");
    for routine in &ROUTINES {
        let needed = routine.scratch * N;
        let short = if needed == 0 { "–".to_string() } else { seen(routine, N, 0, needed - 1) };
        let (clean, zero) = with(routine, vec![0.0; needed]);
        let same = if with(routine, numbers(needed, 2)).0 == clean { "the same result" } else { "another result" };
        let left = if needed == 0 { "–" } else if zero { "zero" } else { "not zero" };
        println!(
            "| {} | {} | {} | {} | {} | {} | {} |",
            routine.name,
            seen(routine, 0, 0, 0),
            seen(routine, N, 1, needed),
            short,
            seen(routine, N, 0, needed + 1),
            if needed == 0 { "–" } else { same },
            left,
        );
    }
    println!();
}
