//! The tables that Kultygash is lent, taken from rustdct's own.
use crate::algorithm::Type2And3Naive;
use crate::mdct::MdctNaive;
use crate::twiddles::single_twiddle;

/// The entries of a whole turn.
pub const TURN: usize = 8192;

/// For the fast routines: the cosine and the sine at k/8192 of a turn. rustdct turns clockwise, so its twiddle is conjugated, as split
/// radix and type 4 do.
pub fn turn() -> [Vec<f64>; 2] {
    let twiddles: Vec<_> = (0..TURN).map(|k| single_twiddle::<f64>(k, TURN).conj()).collect();
    [
        twiddles.iter().map(|twiddle| twiddle.re).collect(),
        twiddles.iter().map(|twiddle| twiddle.im).collect(),
    ]
}

/// For the naive routines of types 2 and 3: the cosine and the sine at k/(4N) of a turn. rustdct keeps the negated sine.
pub fn naive(len: usize) -> [Vec<f64>; 2] {
    let transform = Type2And3Naive::new(len);
    [
        transform.table().iter().map(|twiddle| twiddle.re).collect(),
        transform.table().iter().map(|twiddle| -twiddle.im).collect(),
    ]
}

/// For the naive MDCT: the cosine at (2k+1)/(8N) of a turn, for k below 4N.
pub fn mdct_naive(len: usize) -> Vec<f64> {
    MdctNaive::new(len, |len| vec![0.0; len]).table().to_vec()
}
