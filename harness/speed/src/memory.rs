//! What a routine works on at a length N.
use std::sync::Arc;

pub struct Memory<T> {
    pub len: usize,
    /// What the buffer holds before every call.
    pub fresh: Vec<T>,
    /// In place: N entries. MDCT: the two segments. IMDCT: the two outputs, to which it adds.
    pub buffer: Vec<T>,
    /// MDCT: the output. IMDCT: the input.
    pub coefficients: Vec<T>,
    pub window: Vec<T>,
    pub scratch: Vec<T>,
    /// The cosines and the sines that a float call is lent. The naive MDCT has the first alone.
    pub tables: [Arc<[T]>; 2],
}

/// The same pseudo-random words at every run.
fn words(len: usize, seed: usize) -> impl Iterator<Item = u64> {
    let mut state = seed as u64;
    (0..len).map(move |_| {
        state = state.wrapping_mul(6364136223846793005).wrapping_add(1442695040888963407);
        state >> 11
    })
}

impl<T: Copy + Default> Memory<T> {
    /// With numbers made from the words. `blocks` is whether two segments and a window are lent; the window is filled in later, and so
    /// are the tables.
    pub fn new(len: usize, blocks: bool, number: impl Fn(u64) -> T) -> Memory<T> {
        let most = if blocks { 2 * len } else { len };
        Memory {
            len,
            fresh: words(most, len).map(&number).collect(),
            buffer: vec![T::default(); most],
            coefficients: words(if blocks { len } else { 0 }, len + 1).map(&number).collect(),
            window: vec![T::default(); if blocks { most } else { 0 }],
            scratch: vec![T::default(); most],
            tables: [Arc::from([]), Arc::from([])],
        }
    }

    pub fn refill(&mut self) {
        self.buffer.copy_from_slice(&self.fresh);
    }

    /// What a call in place left, for a routine that goes on from there.
    pub fn pass_on(&self, to: &mut Memory<T>) {
        to.buffer.copy_from_slice(&self.buffer);
    }

    /// The block of a middle segment and a segment of zeros, which comes first or second.
    pub fn set_block(&mut self, zeros_first: bool) {
        let len = self.len;
        self.buffer.fill(T::default());
        let place = if zeros_first { len } else { 0 };
        self.buffer[place..place + len].copy_from_slice(&self.fresh[..len]);
    }

    /// The coefficients of such a block, to be added so that the middle segment is always the second output.
    pub fn set_coefficients(&mut self, from: &Memory<T>, zeros_first: bool) {
        let len = self.len;
        self.coefficients.copy_from_slice(&from.coefficients);
        if zeros_first {
            self.buffer.fill(T::default());
        } else {
            // The segment that the first block ended with is the one that the second begins with.
            let (first, second) = self.buffer.split_at_mut(len);
            first.copy_from_slice(second);
            second.fill(T::default());
        }
    }
}
