//! A word of memory, on which the two arithmetics differ.

/// A word of memory: the bits of a float, or a residue. The default is zero.
pub trait Word: Copy + PartialEq + Default {
    type Entry;
    /// A word that is not zero, made of any 64 bits.
    fn mark(bits: u64) -> Self;
    /// Whether an output holds what is wanted.
    fn matches(self, wanted: Self) -> bool;
    /// What may stand for it in a simpler input, the simplest first.
    fn simpler(self) -> Vec<Self>;
    /// The number it stands for.
    fn number(self) -> String;
    fn show(self) -> String;
}

impl Word for u64 {
    type Entry = f64;

    fn mark(bits: u64) -> u64 {
        bits | 1
    }

    /// The same bits; and any NaN matches any NaN.
    fn matches(self, wanted: u64) -> bool {
        self == wanted || (f64::from_bits(self).is_nan() && f64::from_bits(wanted).is_nan())
    }

    /// Of a number that is none of these, the lower half of the fraction may go.
    fn simpler(self) -> Vec<u64> {
        let numbers = [0.0, 1.0, -0.0, -1.0].map(f64::to_bits);
        [&numbers[..], &[self >> 26 << 26]].concat()
    }

    fn number(self) -> String {
        match f64::from_bits(self) {
            x if x.is_nan() => format!("NaN:{self:016x}"),
            x => format!("{x:?}"),
        }
    }

    fn show(self) -> String {
        format!("{self:016x} ({:?})", f64::from_bits(self))
    }
}

impl Word for u32 {
    type Entry = u32;

    fn mark(bits: u64) -> u32 {
        bits as u32 | 1
    }

    fn matches(self, wanted: u32) -> bool {
        self == wanted
    }

    fn simpler(self) -> Vec<u32> {
        vec![0, 1, 2]
    }

    fn number(self) -> String {
        self.to_string()
    }

    fn show(self) -> String {
        self.to_string()
    }
}
