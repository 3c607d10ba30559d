//! The calls of include/kultygash.h that are timed, each as a function of the memory it works on.
use crate::memory::Memory;

pub type Call<T> = fn(&mut Memory<T>) -> u32;

macro_rules! table {
    ($entry: ty, $place: literal) => {
        *const $entry
    };
}

// In all three, everything lent is a vector or half of one, with its own length, and no two overlap. The places are those of the tables
// that are lent first.

// In place: the buffer, the scratch.
macro_rules! in_place {
    ($entry: ty, $name: ident $(, $place: literal)*) => {{
        extern "C" {
            fn $name(n: usize, $(_: table!($entry, $place), _: usize,)* _: *mut $entry, _: usize, _: *mut $entry, _: usize) -> u32;
        }
        |memory| unsafe {
            $name(
                memory.len,
                $(memory.tables[$place].as_ptr(), memory.tables[$place].len(),)*
                memory.buffer.as_mut_ptr(),
                memory.buffer.len(),
                memory.scratch.as_mut_ptr(),
                memory.scratch.len(),
            )
        }
    }};
}

// MDCT: the two segments, the output, the window, the scratch.
macro_rules! mdct {
    ($entry: ty, $name: ident $(, $place: literal)*) => {{
        extern "C" {
            fn $name(
                n: usize,
                $(_: table!($entry, $place), _: usize,)*
                _: *const $entry,
                _: usize,
                _: *const $entry,
                _: usize,
                _: *mut $entry,
                _: usize,
                _: *const $entry,
                _: usize,
                _: *mut $entry,
                _: usize,
            ) -> u32;
        }
        |memory| {
            let (first, second) = memory.buffer.split_at(memory.len);
            unsafe {
                $name(
                    memory.len,
                    $(memory.tables[$place].as_ptr(), memory.tables[$place].len(),)*
                    first.as_ptr(),
                    first.len(),
                    second.as_ptr(),
                    second.len(),
                    memory.coefficients.as_mut_ptr(),
                    memory.coefficients.len(),
                    memory.window.as_ptr(),
                    memory.window.len(),
                    memory.scratch.as_mut_ptr(),
                    memory.scratch.len(),
                )
            }
        }
    }};
}

// IMDCT: the input, the two outputs, the window, the scratch.
macro_rules! imdct {
    ($entry: ty, $name: ident $(, $place: literal)*) => {{
        extern "C" {
            fn $name(
                n: usize,
                $(_: table!($entry, $place), _: usize,)*
                _: *const $entry,
                _: usize,
                _: *mut $entry,
                _: usize,
                _: *mut $entry,
                _: usize,
                _: *const $entry,
                _: usize,
                _: *mut $entry,
                _: usize,
            ) -> u32;
        }
        |memory| {
            let (first, second) = memory.buffer.split_at_mut(memory.len);
            unsafe {
                $name(
                    memory.len,
                    $(memory.tables[$place].as_ptr(), memory.tables[$place].len(),)*
                    memory.coefficients.as_ptr(),
                    memory.coefficients.len(),
                    first.as_mut_ptr(),
                    first.len(),
                    second.as_mut_ptr(),
                    second.len(),
                    memory.window.as_ptr(),
                    memory.window.len(),
                    memory.scratch.as_mut_ptr(),
                    memory.scratch.len(),
                )
            }
        }
    }};
}

pub fn residue(name: &str) -> Option<Call<u32>> {
    Some(match name {
        "dct2_naive" => in_place!(u32, kultygash_residue_dct2_naive),
        "dct2_fast" => in_place!(u32, kultygash_residue_dct2_fast),
        "dct3_naive" => in_place!(u32, kultygash_residue_dct3_naive),
        "dct3_fast" => in_place!(u32, kultygash_residue_dct3_fast),
        "dct4_fast" => in_place!(u32, kultygash_residue_dct4_fast),
        "mdct_naive" => mdct!(u32, kultygash_residue_mdct_naive),
        "mdct_fast" => mdct!(u32, kultygash_residue_mdct_fast),
        "imdct_naive" => imdct!(u32, kultygash_residue_imdct_naive),
        "imdct_fast" => imdct!(u32, kultygash_residue_imdct_fast),
        _ => return None,
    })
}

pub fn float(name: &str) -> Option<Call<f64>> {
    Some(match name {
        "dct2_naive" => in_place!(f64, kultygash_float_dct2_naive, 0, 1),
        "dct2_fast" => in_place!(f64, kultygash_float_dct2_fast, 0, 1),
        "dst2_naive" => in_place!(f64, kultygash_float_dst2_naive, 0, 1),
        "dst2_fast" => in_place!(f64, kultygash_float_dst2_fast, 0, 1),
        "dct3_naive" => in_place!(f64, kultygash_float_dct3_naive, 0, 1),
        "dct3_fast" => in_place!(f64, kultygash_float_dct3_fast, 0, 1),
        "dst3_naive" => in_place!(f64, kultygash_float_dst3_naive, 0, 1),
        "dst3_fast" => in_place!(f64, kultygash_float_dst3_fast, 0, 1),
        "dct4_fast" => in_place!(f64, kultygash_float_dct4_fast, 0, 1),
        "dst4_fast" => in_place!(f64, kultygash_float_dst4_fast, 0, 1),
        "mdct_naive" => mdct!(f64, kultygash_float_mdct_naive, 0),
        "mdct_fast" => mdct!(f64, kultygash_float_mdct_fast, 0, 1),
        "imdct_naive" => imdct!(f64, kultygash_float_imdct_naive, 0),
        "imdct_fast" => imdct!(f64, kultygash_float_imdct_fast, 0, 1),
        _ => return None,
    })
}

extern "C" {
    fn kultygash_residue_sine_window(n: usize, window: *mut u32, window_length: usize) -> u32;
}

pub fn residue_sine_window(memory: &mut Memory<u32>) -> u32 {
    // The window is a vector, lent with its own length.
    unsafe { kultygash_residue_sine_window(memory.len, memory.window.as_mut_ptr(), memory.window.len()) }
}
