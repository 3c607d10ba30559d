//! The oracle's transforms that are timed.
use crate::memory::Memory;
use oracle::mdct::{window_fn, Mdct};
use oracle::{TransformType2And3, TransformType4};
use std::sync::Arc;

pub enum Transform {
    Dct2(Arc<dyn TransformType2And3<f64>>),
    Dst2(Arc<dyn TransformType2And3<f64>>),
    Dct3(Arc<dyn TransformType2And3<f64>>),
    Dst3(Arc<dyn TransformType2And3<f64>>),
    Dct4(Arc<dyn TransformType4<f64>>),
    Dst4(Arc<dyn TransformType4<f64>>),
    Mdct(Arc<dyn Mdct<f64>>),
    Imdct(Arc<dyn Mdct<f64>>),
}

impl Transform {
    pub fn new(name: &str, len: usize) -> Option<Transform> {
        let window = || window_fn::mp3_invertible(2 * len);
        Some(match name {
            "dct2_fast" => Transform::Dct2(oracle::splitradix(len)),
            "dct2_naive" => Transform::Dct2(oracle::naive(len)),
            "dst2_fast" => Transform::Dst2(oracle::splitradix(len)),
            "dst2_naive" => Transform::Dst2(oracle::naive(len)),
            "dct3_fast" => Transform::Dct3(oracle::splitradix(len)),
            "dct3_naive" => Transform::Dct3(oracle::naive(len)),
            "dst3_fast" => Transform::Dst3(oracle::splitradix(len)),
            "dst3_naive" => Transform::Dst3(oracle::naive(len)),
            "dct4_fast" => Transform::Dct4(oracle::type4(len)),
            "dst4_fast" => Transform::Dst4(oracle::type4(len)),
            "mdct_fast" => Transform::Mdct(oracle::mdct_via_dct4(len, window())),
            "mdct_naive" => Transform::Mdct(oracle::mdct_naive(len, window())),
            "imdct_fast" => Transform::Imdct(oracle::mdct_via_dct4(len, window())),
            "imdct_naive" => Transform::Imdct(oracle::mdct_naive(len, window())),
            _ => return None,
        })
    }

    pub fn run(&self, memory: &mut Memory<f64>) {
        let Memory {
            len,
            buffer,
            coefficients,
            scratch,
            ..
        } = memory;
        match self {
            Transform::Dct2(transform) => transform.process_dct2_with_scratch(buffer, scratch),
            Transform::Dst2(transform) => transform.process_dst2_with_scratch(buffer, scratch),
            Transform::Dct3(transform) => transform.process_dct3_with_scratch(buffer, scratch),
            Transform::Dst3(transform) => transform.process_dst3_with_scratch(buffer, scratch),
            Transform::Dct4(transform) => transform.process_dct4_with_scratch(buffer, scratch),
            Transform::Dst4(transform) => transform.process_dst4_with_scratch(buffer, scratch),
            Transform::Mdct(transform) => {
                let (first, second) = buffer.split_at(*len);
                transform.process_mdct_with_scratch(first, second, coefficients, scratch)
            }
            Transform::Imdct(transform) => {
                let (first, second) = buffer.split_at_mut(*len);
                transform.process_imdct_with_scratch(coefficients, first, second, scratch)
            }
        }
    }
}
