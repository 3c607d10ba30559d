//! Writes a small sample of the oracle's answers to a file, for a program that replays it where no oracle can be built. Usage:
//!
//!     recorded FILE
//!
//! The file is a list of words of 64 bits, the least byte first. A float is its bits. First come the tables of the fast routines, as far
//! as the cases need them: the cosines at k/1024 of a turn, 1,024 of them, and then the sines. The cases follow, each so:
//!
//!     the routine's number, its place in `ROUTINES`
//!     n
//!     if the routine is naive, its table or its two tables of 4n entries, cosines first
//!     what it is given, in the order of the call: the buffer; or first, second, window; or input, first, second, window
//!     what it stores: the buffer; or the output; or first and second
//!
//! A word of all ones, which is no routine's number, ends the file.
use cases::inputs::given;
use cases::routine::{bits, Oracle, Routine, ROUTINES};
use cases::words::Words;
use oracle::tables::{self, TURN};
use std::process::exit;

/// A seed whose sample tells the oracle from every slip that was tried: another order of terms or factors, another sign of a zero, a fused
/// multiplication and addition, an index that is not mirrored.
const SEED: u64 = 6;

/// The entries of a turn that are recorded: enough for split radix up to 256 entries, and for type 4 and the MDCT up to 128.
const RECORDED: usize = 1024;

const END: u64 = u64::MAX;

/// The sizes of a routine's cases. The cases go through the kinds of input in their order, which begins with the plainest: so the longest
/// case is of plain numbers, and the special ones come at small sizes.
fn sizes(routine: Routine) -> Vec<usize> {
    let sizes = match routine {
        _ if routine.is_fast() && (routine.is_block() || routine.is_type4()) => [64, 32, 16, 16, 8, 8, 8, 4, 4, 4, 2, 2, 2],
        _ if routine.is_fast() => [64, 32, 32, 16, 16, 8, 8, 4, 4, 4, 2, 2, 1],
        _ if routine.is_block() => [16, 14, 12, 10, 8, 6, 6, 4, 4, 4, 2, 2, 2],
        _ => [16, 13, 9, 7, 5, 5, 4, 3, 3, 2, 2, 1, 1],
    };
    // A DCT and a DST at the greatest size that the recorded tables serve.
    let more = matches!(routine, Routine::Dct2Fast | Routine::Dst3Fast);
    sizes.into_iter().chain(more.then_some(256)).collect()
}

fn sample() -> Vec<u64> {
    let mut words = Words::new(SEED);
    let mut sample = Vec::new();
    for table in tables::turn() {
        sample.extend(bits(table.into_iter().step_by(TURN / RECORDED).collect()));
    }
    for (place, routine) in ROUTINES.into_iter().enumerate() {
        for (number, n) in sizes(routine).into_iter().enumerate() {
            let oracle = Oracle::new(routine, n);
            let given = given(routine, n, number, &mut words);
            sample.extend([place as u64, n as u64]);
            if !routine.is_fast() {
                sample.extend(oracle.tables().concat());
            }
            sample.extend(given.inputs.concat());
            sample.extend(oracle.answer(&given.inputs).concat());
        }
    }
    sample.push(END);
    sample
}

fn main() {
    let arguments: Vec<String> = std::env::args().skip(1).collect();
    let [file] = &arguments[..] else {
        eprintln!("usage: recorded FILE");
        exit(2);
    };
    let sample = sample();
    let bytes: Vec<u8> = sample.iter().flat_map(|word| word.to_le_bytes()).collect();
    if let Err(error) = std::fs::write(file, bytes) {
        eprintln!("{file}: {error}");
        exit(1);
    }
    let cases: usize = ROUTINES.into_iter().map(|routine| sizes(routine).len()).sum();
    println!(
        "recorded: {cases} cases of {} routines, {} words",
        ROUTINES.len(),
        sample.len()
    );
}
