//! What document 01 says of a residue call before it is done: its sizes, its lengths, and the numbers for no.
use crate::interface::{Residue, Sums};
use crate::sums::{accepts, MODULUS};

const NO_SIZE: u32 = 1;
const NO_LENGTH: u32 = 2;
const NO_RESIDUE: u32 = 3;
const NO_WINDOW: u32 = 4;

impl Sums {
    /// Whether a window is all that is lent.
    pub fn is_window(self) -> bool {
        matches!(self, Sums::FlatWindow | Sums::SineWindow | Sums::TestWindow)
    }

    /// Whether three slices and a window are lent.
    pub fn is_block(self) -> bool {
        matches!(self, Sums::Mdct | Sums::Imdct)
    }

    pub fn least(self) -> usize {
        match self {
            Sums::Dct2 | Sums::Dst2 | Sums::Dct3 | Sums::Dst3 => 1,
            _ => 2,
        }
    }

    pub fn allows(self, n: usize) -> bool {
        n.is_power_of_two() && self.least() <= n && n <= 1024
    }
}

impl Residue {
    /// What is lent but for scratch.
    pub fn names(&self) -> &'static [&'static str] {
        match self.sums {
            Sums::Mdct => &["first", "second", "output", "window"],
            Sums::Imdct => &["input", "first", "second", "window"],
            sums if sums.is_window() => &["window"],
            _ => &["buffer"],
        }
    }

    /// The slices whose entries are to be residues.
    pub fn tested(&self) -> &'static [usize] {
        match self.sums {
            Sums::Mdct => &[0, 1, 3],
            Sums::Imdct => &[0, 1, 2, 3],
            Sums::FlatWindow | Sums::SineWindow => &[],
            _ => &[0],
        }
    }

    /// The place of the window that is to be accepted.
    pub fn window(&self) -> Option<usize> {
        match self.sums {
            Sums::Mdct | Sums::Imdct => Some(3),
            Sums::TestWindow => Some(0),
            _ => None,
        }
    }

    /// How many entries each slice is to have. Scratch comes last, where it is lent, and may have more.
    pub fn lengths(&self, n: usize) -> Vec<usize> {
        match self.sums {
            sums if sums.is_block() => vec![n, n, n, 2 * n, self.scratch * n],
            sums if sums.is_window() => vec![2 * n],
            _ => vec![n, n],
        }
    }

    /// The first number for no that applies, or 0.
    pub fn answer(&self, n: usize, lengths: &[usize], lent: &[Vec<u32>]) -> u32 {
        if !self.sums.allows(n) {
            return NO_SIZE;
        }
        let fits = |(s, (length, fitting)): (usize, (&usize, usize))| {
            let scratch = s == self.names().len();
            *length == fitting || (scratch && *length > fitting)
        };
        if !lengths.iter().zip(self.lengths(n)).enumerate().all(fits) {
            return NO_LENGTH;
        }
        let no_residue = |s: &usize| lent[*s].iter().any(|x| u64::from(*x) >= MODULUS);
        if self.tested().iter().any(no_residue) {
            return NO_RESIDUE;
        }
        match self.window() {
            Some(window) if !accepts(n, &lent[window]) => NO_WINDOW,
            _ => 0,
        }
    }
}
