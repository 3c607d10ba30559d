//! A stand-in for the crate rustfft. The files of rustdct that the oracle builds compute no FFT: they use rustfft only for the names
//! below. No number is computed here.
pub use num_complex;
pub use num_traits;

use num_traits::{FromPrimitive, Signed};
use std::fmt::Debug;

/// A float that rustfft can work on.
pub trait FftNum: Copy + FromPrimitive + Signed + Sync + Send + Debug + 'static {}
impl<T> FftNum for T where T: Copy + FromPrimitive + Signed + Sync + Send + Debug + 'static {}

/// A transform of one length.
pub trait Length {
    fn len(&self) -> usize;
}
