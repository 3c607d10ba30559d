//! The calls of include/kultygash.h. Each takes n and then what is lent, every slice as a pointer and a length; so a call is here a
//! function of n and a list of slices, in the header's order.
use cases::routine::Routine;

/// Where a slice begins, and how many entries it has.
pub type Lent<E> = (*mut E, usize);

pub type Call<E> = fn(usize, &[Lent<E>]) -> u32;

macro_rules! entries {
    ($entry: ty, $place: literal) => {
        *mut $entry
    };
}

// The function of that name, with as many slices as places are given. Whoever calls it lends slices that lie in memory and do not
// overlap. Pointers to const and others are passed alike.
macro_rules! call {
    ($entry: ty, $name: ident, $($place: literal)*) => {{
        extern "C" {
            fn $name(n: usize, $(_: entries!($entry, $place), _: usize),*) -> u32;
        }
        |n, lent| unsafe { $name(n, $(lent[$place].0, lent[$place].1),*) }
    }};
}

pub fn float(routine: Routine) -> Call<f64> {
    match routine {
        Routine::Dct2Naive => call!(f64, kultygash_float_dct2_naive, 0 1 2 3),
        Routine::Dst2Naive => call!(f64, kultygash_float_dst2_naive, 0 1 2 3),
        Routine::Dct3Naive => call!(f64, kultygash_float_dct3_naive, 0 1 2 3),
        Routine::Dst3Naive => call!(f64, kultygash_float_dst3_naive, 0 1 2 3),
        Routine::Dct2Fast => call!(f64, kultygash_float_dct2_fast, 0 1 2 3),
        Routine::Dst2Fast => call!(f64, kultygash_float_dst2_fast, 0 1 2 3),
        Routine::Dct3Fast => call!(f64, kultygash_float_dct3_fast, 0 1 2 3),
        Routine::Dst3Fast => call!(f64, kultygash_float_dst3_fast, 0 1 2 3),
        Routine::Dct4Fast => call!(f64, kultygash_float_dct4_fast, 0 1 2 3),
        Routine::Dst4Fast => call!(f64, kultygash_float_dst4_fast, 0 1 2 3),
        Routine::MdctNaive => call!(f64, kultygash_float_mdct_naive, 0 1 2 3 4 5),
        Routine::ImdctNaive => call!(f64, kultygash_float_imdct_naive, 0 1 2 3 4 5),
        Routine::MdctFast => call!(f64, kultygash_float_mdct_fast, 0 1 2 3 4 5 6),
        Routine::ImdctFast => call!(f64, kultygash_float_imdct_fast, 0 1 2 3 4 5 6),
    }
}

/// What a residue call computes.
#[derive(Clone, Copy, PartialEq, Eq)]
pub enum Sums {
    Dct2,
    Dst2,
    Dct3,
    Dst3,
    Dct4,
    Dst4,
    FlatWindow,
    SineWindow,
    TestWindow,
    Mdct,
    Imdct,
}

/// A residue call: its name, what it computes, how many times n of scratch it needs, and the call itself.
pub struct Residue {
    pub name: &'static str,
    pub sums: Sums,
    pub scratch: usize,
    pub call: Call<u32>,
}

macro_rules! residue {
    ($name: ident, $sums: ident, $scratch: literal, $($place: literal)*) => {
        Residue {
            name: stringify!($name).split_at("kultygash_".len()).1,
            sums: Sums::$sums,
            scratch: $scratch,
            call: call!(u32, $name, $($place)*),
        }
    };
}

pub fn residues() -> [Residue; 17] {
    [
        residue!(kultygash_residue_dct2_naive, Dct2, 1, 0 1),
        residue!(kultygash_residue_dst2_naive, Dst2, 1, 0 1),
        residue!(kultygash_residue_dct3_naive, Dct3, 1, 0 1),
        residue!(kultygash_residue_dst3_naive, Dst3, 1, 0 1),
        residue!(kultygash_residue_dct2_fast, Dct2, 1, 0 1),
        residue!(kultygash_residue_dst2_fast, Dst2, 1, 0 1),
        residue!(kultygash_residue_dct3_fast, Dct3, 1, 0 1),
        residue!(kultygash_residue_dst3_fast, Dst3, 1, 0 1),
        residue!(kultygash_residue_dct4_fast, Dct4, 1, 0 1),
        residue!(kultygash_residue_dst4_fast, Dst4, 1, 0 1),
        residue!(kultygash_residue_flat_window, FlatWindow, 0, 0),
        residue!(kultygash_residue_sine_window, SineWindow, 0, 0),
        residue!(kultygash_residue_test_window, TestWindow, 0, 0),
        residue!(kultygash_residue_mdct_naive, Mdct, 0, 0 1 2 3 4),
        residue!(kultygash_residue_imdct_naive, Imdct, 0, 0 1 2 3 4),
        residue!(kultygash_residue_mdct_fast, Mdct, 2, 0 1 2 3 4),
        residue!(kultygash_residue_imdct_fast, Imdct, 2, 0 1 2 3 4),
    ]
}
