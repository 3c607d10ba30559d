//! What is timed: the residue calls and the float calls through the C interface, the oracle's routines on f64, and FFTW's.
use crate::fftw::Plan;
use crate::interface::{self, Call};
use crate::memory::Memory;
use crate::transform::Transform;
use oracle::mdct::window_fn;
use oracle::tables;
use std::sync::{Arc, OnceLock};

const MODULUS: u64 = 998244353;

/// A transform, and which routines of it there are beside the fast float call and the oracle's.
pub struct Row {
    pub name: &'static str,
    pub transform: &'static str,
    pub naive: bool,
    pub residue: bool,
    pub fftw: bool,
}

const fn row(name: &'static str, transform: &'static str, naive: bool, residue: bool, fftw: bool) -> Row {
    Row {
        name,
        transform,
        naive,
        residue,
        fftw,
    }
}

/// Type 4 has no naive call. Of FFTW the three kinds of a DCT are timed.
pub const ROWS: [Row; 8] = [
    row("DCT-II", "dct2", true, true, true),
    row("DST-II", "dst2", true, false, false),
    row("DCT-III", "dct3", true, true, true),
    row("DST-III", "dst3", true, false, false),
    row("DCT-IV", "dct4", false, true, true),
    row("DST-IV", "dst4", false, false, false),
    row("MDCT", "mdct", true, true, false),
    row("IMDCT", "imdct", true, true, false),
];

impl Row {
    /// The name of a routine: whose it is, the transform, and `fast` or `naive`.
    pub fn routine(&self, whose: &str, way: &str) -> Option<String> {
        let there = match whose {
            "residue" => self.residue,
            "fftw" => self.fftw && way == "fast",
            _ => true,
        };
        (there && (way == "fast" || self.naive)).then(|| format!("{whose}_{}_{way}", self.transform))
    }
}

/// All routines, in the order in which each round runs them.
pub fn names() -> Vec<String> {
    let mut names = Vec::new();
    for way in ["fast", "naive"] {
        for whose in ["residue", "float", "oracle", "fftw"] {
            names.extend(ROWS.iter().filter_map(|row| row.routine(whose, way)));
        }
    }
    names
}

/// A routine at a length, with the input that every call gets and the memory it works on.
pub enum Routine {
    Residue(Call<u32>, Memory<u32>),
    Float(Call<f64>, Memory<f64>),
    Oracle(Transform, Memory<f64>),
    Fftw(Plan, Memory<f64>),
}

/// A residue below p.
fn residue(word: u64) -> u32 {
    (word % MODULUS) as u32
}

/// Between -1 and 1, so that no sum comes near an infinity and none is so small that it slows the processor down.
fn float(word: u64) -> f64 {
    word as f64 / (1u64 << 52) as f64 - 1.0
}

/// The tables that a float call is lent. All fast ones share theirs.
fn lent(way: &str, blocks: bool, len: usize) -> [Arc<[f64]>; 2] {
    static TURN: OnceLock<[Arc<[f64]>; 2]> = OnceLock::new();
    match (way, blocks) {
        ("fast", _) => TURN.get_or_init(|| tables::turn().map(Arc::from)).clone(),
        (_, true) => [Arc::from(tables::mdct_naive(len)), Arc::from([])],
        _ => tables::naive(len).map(Arc::from),
    }
}

impl Routine {
    pub fn new(name: &str, len: usize) -> Option<Routine> {
        let (whose, rest) = name.split_once('_')?;
        let (transform, way) = rest.split_once('_')?;
        let blocks = matches!(transform, "mdct" | "imdct");
        if whose == "residue" {
            let mut memory = Memory::new(len, blocks, residue);
            if blocks {
                assert_eq!(interface::residue_sine_window(&mut memory), 0, "a window was refused");
            }
            return Some(Routine::Residue(interface::residue(rest)?, memory));
        }
        let mut memory = Memory::new(len, blocks, float);
        match whose {
            "float" => {
                memory.tables = lent(way, blocks, len);
                if blocks {
                    memory.window = window_fn::mp3_invertible(2 * len);
                }
                Some(Routine::Float(interface::float(rest)?, memory))
            }
            "oracle" => Some(Routine::Oracle(Transform::new(rest, len)?, memory)),
            "fftw" => Some(Routine::Fftw(Plan::new(transform, &mut memory.buffer)?, memory)),
            _ => None,
        }
    }

    /// Puts back into the buffer what it held.
    pub fn refill(&mut self) {
        match self {
            Routine::Residue(_, memory) => memory.refill(),
            Routine::Float(_, memory) | Routine::Oracle(_, memory) | Routine::Fftw(_, memory) => memory.refill(),
        }
    }

    /// Makes one call. For residues and floats this is the whole public call: its tests for a refusal, the transform, the zeroed scratch.
    pub fn run(&mut self) {
        match self {
            Routine::Residue(call, memory) => assert_eq!(call(memory), 0, "a call was refused"),
            Routine::Float(call, memory) => assert_eq!(call(memory), 0, "a call was refused"),
            Routine::Oracle(transform, memory) => transform.run(memory),
            Routine::Fftw(plan, _) => plan.run(),
        }
    }
}
