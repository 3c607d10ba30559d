//! The oracle: the Rust of rustdct 0.7.1, unchanged, for every file that Kultygash carries over. The text is included from where
//! build.rs found it: the given source, or the copies in harness/rustdct. Left out are the planner and the files not carried over.
//!
//! Added, beside the included text: `table`, which shows the private table of a transform; `tables`, which hands out tables as the port
//! is lent them; and the functions at the end, which put transforms together as document 01 says, with the naive sums at lengths 1 and 2
//! as leaves of split radix.
pub use rustfft;
pub use rustfft::{num_complex, num_traits, Length};

macro_rules! rustdct {
    ($file: literal) => {
        include!(concat!(env!("RUSTDCT"), $file));
    };
}

#[macro_use]
#[allow(unused_macros)]
mod common {
    rustdct!("/common.rs");
}
pub use common::DctNum;

#[allow(dead_code)]
pub mod twiddles {
    rustdct!("/twiddles.rs");
}

include!(concat!(env!("OUT_DIR"), "/traits.rs"));

pub mod algorithm {
    mod type2and3_naive {
        rustdct!("/algorithm/type2and3_naive.rs");
        impl<T> Type2And3Naive<T> {
            pub fn table(&self) -> &[Complex<T>] {
                &self.twiddles
            }
        }
    }
    mod type2and3_splitradix {
        rustdct!("/algorithm/type2and3_splitradix.rs");
        impl<T> Type2And3SplitRadix<T> {
            pub fn table(&self) -> &[Complex<T>] {
                &self.twiddles
            }
        }
    }
    mod type4_convert_to_type3 {
        rustdct!("/algorithm/type4_convert_to_type3.rs");
        impl<T> Type4ConvertToType3Even<T> {
            pub fn table(&self) -> &[Complex<T>] {
                &self.twiddles
            }
        }
    }
    pub use self::type2and3_naive::Type2And3Naive;
    pub use self::type2and3_splitradix::Type2And3SplitRadix;
    pub use self::type4_convert_to_type3::Type4ConvertToType3Even;
}

pub mod mdct {
    use rustfft::Length;

    mod mdct_naive {
        rustdct!("/mdct/mdct_naive.rs");
        impl<T> MdctNaive<T> {
            pub fn table(&self) -> &[T] {
                &self.twiddles
            }
        }
    }
    mod mdct_via_dct4 {
        rustdct!("/mdct/mdct_via_dct4.rs");
    }
    pub mod window_fn {
        rustdct!("/mdct/window_fn.rs");
    }

    include!(concat!(env!("OUT_DIR"), "/mdct.rs"));
}

pub mod tables;

use algorithm::{Type2And3Naive, Type2And3SplitRadix, Type4ConvertToType3Even};
use mdct::{Mdct, MdctNaive, MdctViaDct4};
use std::sync::Arc;

/// Types 2 and 3 by the defining sums, at any length from 1.
pub fn naive(len: usize) -> Arc<dyn TransformType2And3<f64>> {
    Arc::new(Type2And3Naive::new(len))
}

/// Types 2 and 3 by split radix, at a power of two. Lengths 1 and 2 are naive.
pub fn splitradix(len: usize) -> Arc<dyn TransformType2And3<f64>> {
    if len <= 2 {
        naive(len)
    } else {
        Arc::new(Type2And3SplitRadix::new(splitradix(len / 2), splitradix(len / 4)))
    }
}

/// Type 4 by type 3 of half length, at a power of two from 2.
pub fn type4(len: usize) -> Arc<dyn TransformType4<f64>> {
    Arc::new(Type4ConvertToType3Even::new(splitradix(len / 2)))
}

/// The MDCT by its defining sum, at an even length.
pub fn mdct_naive(len: usize, window: Vec<f64>) -> Arc<dyn Mdct<f64>> {
    Arc::new(MdctNaive::new(len, |_| window))
}

/// The MDCT by type 4, at a power of two from 2.
pub fn mdct_via_dct4(len: usize, window: Vec<f64>) -> Arc<dyn Mdct<f64>> {
    Arc::new(MdctViaDct4::new(type4(len), |_| window))
}
