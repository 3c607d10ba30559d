//! The defining sums of document 01 over residues, with arithmetic of this file's own: every sum is added up as one big whole number and
//! reduced once at its end.
use crate::interface::Sums;

/// p = 119·2^23 + 1.
pub const MODULUS: u64 = 119 * (1 << 23) + 1;

const TURN: usize = 8192;

fn power(base: u64, exponent: u64) -> u64 {
    let (mut result, mut square, mut rest) = (1, base % MODULUS, exponent);
    while rest > 0 {
        if rest % 2 == 1 {
            result = result * square % MODULUS;
        }
        square = square * square % MODULUS;
        rest /= 2;
    }
    result
}

/// p is prime, so x^(p-2) is 1/x.
fn inverse(x: u64) -> u64 {
    power(x, MODULUS - 2)
}

/// The cosines and the sines of a whole turn, and √2.
pub struct Angles {
    cosines: Vec<u128>,
    sines: Vec<u128>,
    root: u64,
}

fn reduced(sum: u128) -> u32 {
    (sum % MODULUS as u128) as u32
}

impl Angles {
    pub fn new() -> Angles {
        let g = power(3, 121856);
        let j = power(g, 2048);
        assert_eq!(power(g, 4096), MODULUS - 1, "the root is not document 01's");
        let powers: Vec<(u64, u64)> = (0..TURN as u64).map(|k| (power(g, k), inverse(power(g, k)))).collect();
        let (half, half_j) = (inverse(2), inverse(2 * j));
        let cosines = powers.iter().map(|(up, down)| (up + down) * half % MODULUS).map(u128::from);
        let sines = powers
            .iter()
            .map(|(up, down)| (up + MODULUS - down) * half_j % MODULUS)
            .map(u128::from);
        Angles {
            cosines: cosines.collect(),
            sines: sines.collect(),
            root: (powers[1024].0 + powers[1024].1) % MODULUS,
        }
    }

    /// cos at a/b of a turn.
    fn cos(&self, a: usize, b: usize) -> u128 {
        self.cosines[a % b * (TURN / b)]
    }

    fn sin(&self, a: usize, b: usize) -> u128 {
        self.sines[a % b * (TURN / b)]
    }

    /// A transform in place. An angle of π·a/(2N) is a/(4N) of a turn, and one of π·a/(4N) is a/(8N) of one.
    pub fn in_place(&self, sums: Sums, x: &[u32]) -> Vec<u32> {
        let n = x.len();
        let half = u128::from(inverse(2));
        let factor = |k: usize, i: usize| match sums {
            Sums::Dct2 => self.cos(k * (2 * i + 1), 4 * n),
            Sums::Dst2 => self.sin((k + 1) * (2 * i + 1), 4 * n),
            Sums::Dct3 if i == 0 => half,
            Sums::Dct3 => self.cos(i * (2 * k + 1), 4 * n),
            Sums::Dst3 if i == n - 1 => half * self.sin(2 * k + 1, 4),
            Sums::Dst3 => self.sin((i + 1) * (2 * k + 1), 4 * n),
            Sums::Dct4 => self.cos((2 * i + 1) * (2 * k + 1), 8 * n),
            Sums::Dst4 => self.sin((2 * i + 1) * (2 * k + 1), 8 * n),
            _ => unreachable!("not in place"),
        };
        let sum = |k: usize| x.iter().enumerate().map(|(i, x)| u128::from(*x) * factor(k, i)).sum();
        (0..n).map(sum).map(reduced).collect()
    }

    fn block(&self, n: usize, i: usize, k: usize) -> u128 {
        self.cos((2 * i + 1 + n) * (2 * k + 1), 8 * n)
    }

    /// The MDCT of two segments under a window.
    pub fn mdct(&self, first: &[u32], second: &[u32], window: &[u32]) -> Vec<u32> {
        let n = first.len();
        let term = |k: usize, i: usize, x: u32| u128::from(window[i]) * u128::from(x) * self.block(n, i, k);
        let sum = |k: usize| first.iter().chain(second).enumerate().map(|(i, x)| term(k, i, *x)).sum();
        (0..n).map(sum).map(reduced).collect()
    }

    /// What the two outputs hold once the IMDCT is added to what they held.
    pub fn imdct(&self, input: &[u32], first: &[u32], second: &[u32], window: &[u32]) -> [Vec<u32>; 2] {
        let n = input.len();
        let term = |i: usize, k: usize| u128::from(window[i]) * u128::from(input[k]) * self.block(n, i, k);
        let entry = |i: usize, held: u32| reduced(u128::from(held) + (0..n).map(|k| term(i, k)).sum::<u128>());
        [
            first.iter().enumerate().map(|(i, held)| entry(i, *held)).collect(),
            second.iter().enumerate().map(|(i, held)| entry(n + i, *held)).collect(),
        ]
    }

    /// (√2)^-m, where n = 2^m.
    fn flat_height(&self, n: usize) -> u64 {
        inverse(power(self.root, n.ilog2() as u64))
    }

    pub fn flat_window(&self, n: usize) -> Vec<u32> {
        vec![self.flat_height(n) as u32; 2 * n]
    }

    /// sin(π(2i+1)/(4N))·(√2)^(1-m).
    pub fn sine_window(&self, n: usize) -> Vec<u32> {
        let height = u128::from(self.root * self.flat_height(n) % MODULUS);
        (0..2 * n).map(|i| reduced(self.sin(2 * i + 1, 8 * n) * height)).collect()
    }

    /// An accepted window of another shape: its pairs are (√2)^(1-m) times points of the circle, one for each of the numbers.
    pub fn other_window(&self, n: usize, mut numbers: impl FnMut() -> u64) -> Vec<u32> {
        let height = self.root * self.flat_height(n) % MODULUS;
        let mut window = vec![0; 2 * n];
        for i in 0..n / 2 {
            let (t, below) = loop {
                let t = numbers() % MODULUS;
                let below = (1 + t * t) % MODULUS;
                if below != 0 {
                    break (t, inverse(below));
                }
            };
            let across = (1 + MODULUS - t * t % MODULUS) % MODULUS * below % MODULUS * height % MODULUS;
            let along = 2 * t % MODULUS * below % MODULUS * height % MODULUS;
            // w_i = w_(2N-1-i), and the pair of w_i is w_(N+i) = w_(N-1-i).
            for (place, value) in [(i, across), (2 * n - 1 - i, across), (n + i, along), (n - 1 - i, along)] {
                window[place] = value as u32;
            }
        }
        window
    }
}

/// Whether a window of residues is accepted: w_i = w_(2N-1-i), and for i below N also N·(w_i² + w_(N+i)²) = 2.
pub fn accepts(n: usize, window: &[u32]) -> bool {
    let square = |i: usize| u128::from(window[i]) * u128::from(window[i]);
    (0..2 * n).all(|i| window[i] == window[2 * n - 1 - i]) && (0..n).all(|i| reduced(n as u128 * (square(i) + square(n + i))) == 2)
}
