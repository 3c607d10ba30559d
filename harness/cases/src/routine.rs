//! The float routines of the port, and what the oracle answers for each.
use oracle::mdct::{Mdct, MdctViaDct4};
use oracle::{tables, TransformType2And3, TransformType4};
use std::sync::Arc;

/// In the order of their numbers in the recorded sample.
#[derive(Clone, Copy, Debug, PartialEq, Eq)]
pub enum Routine {
    Dct2Naive,
    Dst2Naive,
    Dct3Naive,
    Dst3Naive,
    Dct2Fast,
    Dst2Fast,
    Dct3Fast,
    Dst3Fast,
    Dct4Fast,
    Dst4Fast,
    MdctNaive,
    ImdctNaive,
    MdctFast,
    ImdctFast,
}

pub const ROUTINES: [Routine; 14] = [
    Routine::Dct2Naive,
    Routine::Dst2Naive,
    Routine::Dct3Naive,
    Routine::Dst3Naive,
    Routine::Dct2Fast,
    Routine::Dst2Fast,
    Routine::Dct3Fast,
    Routine::Dst3Fast,
    Routine::Dct4Fast,
    Routine::Dst4Fast,
    Routine::MdctNaive,
    Routine::ImdctNaive,
    Routine::MdctFast,
    Routine::ImdctFast,
];

/// The greatest size.
pub const GREATEST: usize = 1024;

impl Routine {
    pub fn name(self) -> &'static str {
        match self {
            Routine::Dct2Naive => "float_dct2_naive",
            Routine::Dst2Naive => "float_dst2_naive",
            Routine::Dct3Naive => "float_dct3_naive",
            Routine::Dst3Naive => "float_dst3_naive",
            Routine::Dct2Fast => "float_dct2_fast",
            Routine::Dst2Fast => "float_dst2_fast",
            Routine::Dct3Fast => "float_dct3_fast",
            Routine::Dst3Fast => "float_dst3_fast",
            Routine::Dct4Fast => "float_dct4_fast",
            Routine::Dst4Fast => "float_dst4_fast",
            Routine::MdctNaive => "float_mdct_naive",
            Routine::ImdctNaive => "float_imdct_naive",
            Routine::MdctFast => "float_mdct_fast",
            Routine::ImdctFast => "float_imdct_fast",
        }
    }

    pub fn is_mdct(self) -> bool {
        matches!(self, Routine::MdctNaive | Routine::MdctFast)
    }

    pub fn is_imdct(self) -> bool {
        matches!(self, Routine::ImdctNaive | Routine::ImdctFast)
    }

    /// Whether three slices and a window are lent. The others work in place.
    pub fn is_block(self) -> bool {
        self.is_mdct() || self.is_imdct()
    }

    pub fn is_type4(self) -> bool {
        matches!(self, Routine::Dct4Fast | Routine::Dst4Fast)
    }

    pub fn is_fast(self) -> bool {
        let naive = matches!(
            self,
            Routine::Dct2Naive
                | Routine::Dst2Naive
                | Routine::Dct3Naive
                | Routine::Dst3Naive
                | Routine::MdctNaive
                | Routine::ImdctNaive
        );
        !naive
    }

    /// The sizes of document 01.
    pub fn allows(self, n: usize) -> bool {
        let least = if self.is_block() || self.is_type4() { 2 } else { 1 };
        let fits = match self {
            _ if self.is_fast() => n.is_power_of_two(),
            _ if self.is_block() => n % 2 == 0,
            _ => true,
        };
        least <= n && n <= GREATEST && fits
    }

    /// How many times n of scratch is needed.
    pub fn scratch(self) -> usize {
        match (self.is_block(), self.is_fast()) {
            (false, _) => 1,
            (true, false) => 0,
            (true, true) => 2,
        }
    }

    /// What the inputs are called, in the order of the call.
    pub fn input_names(self) -> &'static [&'static str] {
        match self {
            _ if self.is_mdct() => &["first", "second", "window"],
            _ if self.is_imdct() => &["input", "first", "second", "window"],
            _ => &["buffer"],
        }
    }
}

enum Transform {
    Type2And3(Arc<dyn TransformType2And3<f64>>),
    Type4(Arc<dyn TransformType4<f64>>),
    MdctNaive,
    MdctFast(Arc<dyn TransformType4<f64>>),
}

/// The oracle's routine at a length.
pub struct Oracle {
    pub routine: Routine,
    pub n: usize,
    transform: Transform,
}

pub fn bits(numbers: Vec<f64>) -> Vec<u64> {
    numbers.into_iter().map(f64::to_bits).collect()
}

fn numbers(bits: &[u64]) -> Vec<f64> {
    bits.iter().map(|bits| f64::from_bits(*bits)).collect()
}

impl Oracle {
    pub fn new(routine: Routine, n: usize) -> Oracle {
        let transform = match routine {
            Routine::MdctNaive | Routine::ImdctNaive => Transform::MdctNaive,
            Routine::MdctFast | Routine::ImdctFast => Transform::MdctFast(oracle::type4(n)),
            _ if routine.is_type4() => Transform::Type4(oracle::type4(n)),
            _ if routine.is_fast() => Transform::Type2And3(oracle::splitradix(n)),
            _ => Transform::Type2And3(oracle::naive(n)),
        };
        Oracle { routine, n, transform }
    }

    /// The tables that the port's call is lent, first of all.
    pub fn tables(&self) -> Vec<Vec<u64>> {
        match self.routine {
            _ if self.routine.is_fast() => tables::turn().map(bits).to_vec(),
            _ if self.routine.is_block() => vec![bits(tables::mdct_naive(self.n))],
            _ => tables::naive(self.n).map(bits).to_vec(),
        }
    }

    fn mdct(&self, window: &[u64]) -> Arc<dyn Mdct<f64>> {
        match &self.transform {
            Transform::MdctFast(type4) => Arc::new(MdctViaDct4::new(type4.clone(), |_| numbers(window))),
            _ => oracle::mdct_naive(self.n, numbers(window)),
        }
    }

    /// What is stored, given the inputs in the order of the call: the buffer, the output of an MDCT, or the two outputs of an IMDCT.
    pub fn answer(&self, inputs: &[Vec<u64>]) -> Vec<Vec<u64>> {
        let mut x: Vec<Vec<f64>> = inputs.iter().map(|input| numbers(input)).collect();
        let mut scratch = vec![0.0; 2 * self.n];
        match (self.routine, &self.transform) {
            (Routine::Dct2Naive | Routine::Dct2Fast, Transform::Type2And3(transform)) => {
                transform.process_dct2_with_scratch(&mut x[0], &mut scratch)
            }
            (Routine::Dst2Naive | Routine::Dst2Fast, Transform::Type2And3(transform)) => {
                transform.process_dst2_with_scratch(&mut x[0], &mut scratch)
            }
            (Routine::Dct3Naive | Routine::Dct3Fast, Transform::Type2And3(transform)) => {
                transform.process_dct3_with_scratch(&mut x[0], &mut scratch)
            }
            (Routine::Dst3Naive | Routine::Dst3Fast, Transform::Type2And3(transform)) => {
                transform.process_dst3_with_scratch(&mut x[0], &mut scratch)
            }
            (Routine::Dct4Fast, Transform::Type4(transform)) => transform.process_dct4_with_scratch(&mut x[0], &mut scratch),
            (Routine::Dst4Fast, Transform::Type4(transform)) => transform.process_dst4_with_scratch(&mut x[0], &mut scratch),
            (routine, _) if routine.is_mdct() => {
                let mut output = vec![0.0; self.n];
                self.mdct(&inputs[2])
                    .process_mdct_with_scratch(&x[0], &x[1], &mut output, &mut scratch);
                return vec![bits(output)];
            }
            _ => {
                let (input, outputs) = x.split_at_mut(1);
                let (first, second) = outputs.split_at_mut(1);
                self.mdct(&inputs[3])
                    .process_imdct_with_scratch(&input[0], &mut first[0], &mut second[0], &mut scratch);
                return x.drain(1..3).map(bits).collect();
            }
        }
        vec![bits(x.swap_remove(0))]
    }
}
