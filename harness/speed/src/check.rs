//! What is shown before anything is timed, so that no wrong routine is.
use crate::memory::Memory;
use crate::routine::{Routine, ROWS};
use std::process::exit;

const MODULUS: u64 = 998244353;

/// Residues and the oracle: type 3 undoes type 2 and type 4 itself up to N/2, and the IMDCT the MDCT. Float calls: the bits are the
/// oracle's. The oracle's naive routines and FFTW: what the oracle's fast ones give, up to rounding, and FFTW twice that.
pub fn check(len: usize) {
    for (forth, back) in [
        ("residue_dct2_fast", "residue_dct3_fast"),
        ("residue_dct2_naive", "residue_dct3_naive"),
        ("residue_dct4_fast", "residue_dct4_fast"),
        ("residue_mdct_fast", "residue_imdct_fast"),
        ("residue_mdct_naive", "residue_imdct_naive"),
        ("oracle_dct2_fast", "oracle_dct3_fast"),
        ("oracle_dst2_fast", "oracle_dst3_fast"),
        ("oracle_dct4_fast", "oracle_dct4_fast"),
        ("oracle_dst4_fast", "oracle_dst4_fast"),
        ("oracle_mdct_fast", "oracle_imdct_fast"),
    ] {
        let blocks = forth.contains("mdct");
        let undone = match (Routine::new(forth, len).unwrap(), Routine::new(back, len).unwrap()) {
            (Routine::Residue(run, from), Routine::Residue(run_back, to)) => {
                let factor = if blocks { 1 } else { len as u64 / 2 };
                let same = |x: u32, y: u32| x as u64 * factor % MODULUS == y as u64;
                undone(
                    blocks,
                    from,
                    |memory| run(memory) == 0,
                    to,
                    |memory| run_back(memory) == 0,
                    same,
                )
            }
            (Routine::Oracle(transform, from), Routine::Oracle(transform_back, to)) => {
                let factor = if blocks { 1.0 } else { len as f64 / 2.0 };
                let same = |x: f64, y: f64| (x * factor - y).abs() < 1e-9 * factor;
                let run = |transform: &crate::transform::Transform, memory: &mut Memory<f64>| {
                    transform.run(memory);
                    true
                };
                undone(
                    blocks,
                    from,
                    |memory| run(&transform, memory),
                    to,
                    |memory| run(&transform_back, memory),
                    same,
                )
            }
            _ => false,
        };
        hold(undone, len, || format!("{back} does not undo {forth}"));
    }
    for row in &ROWS {
        for way in ["fast", "naive"] {
            let name = |whose: &str| row.routine(whose, way);
            if let (Some(float), Some(oracle)) = (name("float"), name("oracle")) {
                let (x, y) = (output(&float, len), output(&oracle, len));
                let same = x.iter().zip(&y).all(|(x, y)| x.to_bits() == y.to_bits());
                hold(same, len, || {
                    format!("{float} does not have the bits of {oracle}: see harness/differences")
                });
            }
            let fast = row.routine("oracle", "fast").unwrap();
            for (other, factor) in [(name("oracle"), 1.0), (name("fftw"), 2.0)] {
                let Some(other) = other else { continue };
                let (x, y) = (output(&fast, len), output(&other, len));
                let near = x.iter().zip(&y).all(|(x, y)| (x * factor - y).abs() < 1e-12 * len as f64);
                hold(near, len, || format!("{other} is not near {fast}"));
            }
        }
    }
}

fn hold(holds: bool, len: usize, what: impl FnOnce() -> String) {
    if !holds {
        eprintln!("N = {len}: {}", what());
        exit(1);
    }
}

/// All that a routine on f64 may have stored to.
fn output(name: &str, len: usize) -> Vec<f64> {
    let mut routine = Routine::new(name, len).unwrap();
    routine.refill();
    routine.run();
    match routine {
        Routine::Float(_, memory) | Routine::Oracle(_, memory) | Routine::Fftw(_, memory) => {
            [memory.buffer, memory.coefficients].concat()
        }
        Routine::Residue(..) => Vec::new(),
    }
}

/// Whether `run_back`, given what `run` makes of its input, gives that input, times the factor that `same` knows. An MDCT is undone by the
/// IMDCTs of the two blocks that share a segment.
fn undone<T: Copy + Default>(
    blocks: bool,
    mut from: Memory<T>,
    run: impl Fn(&mut Memory<T>) -> bool,
    mut to: Memory<T>,
    run_back: impl Fn(&mut Memory<T>) -> bool,
    same: impl Fn(T, T) -> bool,
) -> bool {
    let mut done = true;
    if blocks {
        for zeros_first in [true, false] {
            from.set_block(zeros_first);
            done &= run(&mut from);
            to.set_coefficients(&from, zeros_first);
            done &= run_back(&mut to);
        }
    } else {
        from.refill();
        done &= run(&mut from);
        from.pass_on(&mut to);
        done &= run_back(&mut to);
    }
    done && from.fresh[..from.len].iter().zip(&to.buffer).all(|(x, y)| same(*x, *y))
}
