//! The kinds of input: what a slice of floats is filled with.
use crate::routine::Routine;
use crate::words::Words;
use oracle::mdct::window_fn;

#[derive(Clone, Copy, Debug, PartialEq, Eq)]
pub enum Kind {
    /// From -1 to 1.
    Plain,
    /// Near the least normal numbers, so that products vanish or become subnormal.
    Tiny,
    /// Near the greatest numbers, so that sums overflow.
    Huge,
    Subnormal,
    /// 0.0 and -0.0.
    Zeros,
    /// Plain, and every other entry or so is a zero of either sign.
    WithZeros,
    /// Whole numbers from -2 to 2, so that sums cancel to a zero.
    Whole,
    /// One number and its negative, so that sums cancel to a zero.
    Opposite,
    /// Plain, and here and there an infinity.
    WithInfinities,
    /// Plain, and here and there a NaN, quiet or signalling, of either sign.
    WithNans,
    /// Any finite number, every exponent as likely as another.
    Finite,
    /// Any 64 bits.
    Bits,
    /// One entry that is not zero.
    Sparse,
}

pub const KINDS: [Kind; 13] = [
    Kind::Plain,
    Kind::Tiny,
    Kind::Huge,
    Kind::Subnormal,
    Kind::Zeros,
    Kind::WithZeros,
    Kind::Whole,
    Kind::Opposite,
    Kind::WithInfinities,
    Kind::WithNans,
    Kind::Finite,
    Kind::Bits,
    Kind::Sparse,
];

const SIGN: u64 = 1 << 63;
const FRACTION: u64 = (1 << 52) - 1;

/// Makes one entry or more into what `special` gives, one in 32 or so.
fn sprinkle(words: &mut Words, entries: &mut [u64], mut special: impl FnMut(u64) -> u64) {
    let count = 1 + words.below(1 + entries.len() / 16);
    for _ in 0..count {
        let place = words.below(entries.len());
        entries[place] = special(words.word());
    }
}

impl Kind {
    pub fn name(self) -> &'static str {
        match self {
            Kind::Plain => "from -1 to 1",
            Kind::Tiny => "tiny",
            Kind::Huge => "huge",
            Kind::Subnormal => "subnormal",
            Kind::Zeros => "zeros of both signs",
            Kind::WithZeros => "with zeros of both signs",
            Kind::Whole => "whole numbers from -2 to 2",
            Kind::Opposite => "one number and its negative",
            Kind::WithInfinities => "with infinities",
            Kind::WithNans => "with NaNs",
            Kind::Finite => "finite, any exponent",
            Kind::Bits => "any bits",
            Kind::Sparse => "one entry not zero",
        }
    }

    /// The bits of `len` floats.
    pub fn fill(self, words: &mut Words, len: usize) -> Vec<u64> {
        let finite = |word: u64| (word & !(0x7ff << 52)) | ((word >> 1) % 2047) << 52;
        let mut entries: Vec<u64> = (0..len)
            .map(|_| match self {
                Kind::Tiny => (words.unit() * 2f64.powi(-1022 + words.below(60) as i32)).to_bits(),
                Kind::Huge => (words.unit() * 2f64.powi(1023 - words.below(24) as i32)).to_bits(),
                Kind::Subnormal => words.word() & (SIGN | FRACTION),
                Kind::Zeros => words.word() & SIGN,
                Kind::WithZeros if words.below(2) == 0 => words.word() & SIGN,
                Kind::Whole => (words.below(5) as f64 - 2.0).to_bits(),
                Kind::Finite => finite(words.word()),
                Kind::Bits => words.word(),
                _ => words.unit().to_bits(),
            })
            .collect();
        if len == 0 {
            return entries;
        }
        match self {
            Kind::Opposite => {
                let number = entries[0];
                entries.iter_mut().for_each(|entry| *entry = number ^ (words.word() & SIGN));
            }
            Kind::WithInfinities => sprinkle(words, &mut entries, |word| f64::INFINITY.to_bits() | (word & SIGN)),
            // The bit that is set keeps the fraction from being that of an infinity.
            Kind::WithNans => sprinkle(words, &mut entries, |word| word | (0x7ff << 52) | 1),
            Kind::Sparse => {
                let zero = words.word() & SIGN;
                entries.iter_mut().for_each(|entry| *entry = zero);
                let place = words.below(len);
                entries[place] = match words.below(3) {
                    0 => 1f64.to_bits(),
                    1 => words.unit().to_bits(),
                    _ => finite(words.word()) | 1,
                };
            }
            _ => (),
        }
        entries
    }
}

/// What a window is filled with: a rule of rustdct, or numbers of a kind.
#[derive(Clone, Copy, Debug, PartialEq, Eq)]
pub enum Window {
    Mp3Invertible,
    Invertible,
    Of(Kind),
}

pub const WINDOWS: [Window; 9] = [
    Window::Mp3Invertible,
    Window::Of(Kind::Plain),
    Window::Of(Kind::Bits),
    Window::Invertible,
    Window::Of(Kind::Whole),
    Window::Of(Kind::WithZeros),
    Window::Of(Kind::Finite),
    Window::Of(Kind::Subnormal),
    Window::Of(Kind::WithNans),
];

impl Window {
    pub fn name(self) -> &'static str {
        match self {
            Window::Mp3Invertible => "mp3_invertible",
            Window::Invertible => "invertible",
            Window::Of(kind) => kind.name(),
        }
    }

    pub fn fill(self, words: &mut Words, len: usize) -> Vec<u64> {
        let bits = |window: Vec<f64>| window.into_iter().map(f64::to_bits).collect();
        match self {
            Window::Mp3Invertible => bits(window_fn::mp3_invertible(len)),
            Window::Invertible => bits(window_fn::invertible(len)),
            Window::Of(kind) => kind.fill(words, len),
        }
    }
}

/// What a routine is given, in the order of its call, and of what kind that is.
pub struct Given {
    pub inputs: Vec<Vec<u64>>,
    pub kind: String,
}

/// The input with a number: as the number grows, it goes through all kinds and all windows, and for the IMDCT through all kinds of what
/// its outputs hold.
pub fn given(routine: Routine, n: usize, number: usize, words: &mut Words) -> Given {
    let (turn, place) = (number / KINDS.len(), number % KINDS.len());
    let kind = KINDS[place];
    let held = KINDS[(5 * place + turn) % KINDS.len()];
    let window = WINDOWS[(place + turn) % WINDOWS.len()];
    let mut inputs = vec![kind.fill(words, n)];
    let mut name = kind.name().to_string();
    if routine.is_mdct() {
        // The second segment is of the same kind as the first or of another.
        let second = if words.below(2) == 0 { kind } else { held };
        inputs.push(second.fill(words, n));
        if second != kind {
            name = format!("{name}; {}", second.name());
        }
    }
    if routine.is_imdct() {
        inputs.push(held.fill(words, n));
        inputs.push(held.fill(words, n));
        name = format!("{name}; outputs that hold {}", held.name());
    }
    if routine.is_block() {
        inputs.push(window.fill(words, 2 * n));
        name = format!("{name}; window {}", window.name());
    }
    Given { inputs, kind: name }
}
