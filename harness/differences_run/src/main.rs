//! Compares every call of include/kultygash.h with what it should answer and leave: the float calls with the oracle, which is rustdct
//! itself, bit for bit; the residue calls with the defining sums, worked out here. Usage:
//!
//!     differences [--part] [SEED]      --part is the short run of the gate
mod float_refusals;
mod floats;
mod interface;
mod levels;
mod memory;
mod report;
mod residue_refusals;
mod residue_rules;
mod residues;
mod shrink;
mod sums;
mod word;

use report::Report;
use std::process::exit;

const SEED: u64 = 20_571;

/// Which run it is.
pub struct Run {
    pub part: bool,
    pub seed: u64,
}

fn arguments() -> Option<Run> {
    let mut run = Run { part: false, seed: SEED };
    for argument in std::env::args().skip(1) {
        match argument.as_str() {
            "--part" => run.part = true,
            seed => run.seed = seed.parse().ok()?,
        }
    }
    Some(run)
}

fn main() {
    let Some(run) = arguments() else {
        eprintln!("usage: differences [--part] [SEED], where SEED is a number below 2^64");
        exit(2);
    };
    let name = if run.part { "the part for the gate" } else { "the full run" };
    println!("{name}, seed {}", run.seed);
    let mut report = Report::new();
    levels::compare(&mut report);
    floats::compare(&run, &mut report);
    float_refusals::compare(&run, &mut report);
    residues::compare(&run, &mut report);
    if !report.finish(if run.part { 200_000 } else { 10_000_000 }) {
        exit(1);
    }
}
