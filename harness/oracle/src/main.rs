//! Says that the oracle is put together rightly: at every power of two up to 1024 its fast routines agree with its naive ones up to
//! rounding, and type 4, which has no naive sum among the carried-over files, is N/2 times the identity when done twice. And shows what
//! it does where Kultygash refuses (`behaviour`).
mod behaviour;

use oracle::mdct::window_fn;
use std::process::exit;

/// Numbers between -1 and 1, the same at every run.
fn numbers(len: usize, seed: u64) -> Vec<f64> {
    let mut state = seed;
    (0..len)
        .map(|_| {
            state = state.wrapping_mul(6364136223846793005).wrapping_add(1442695040888963407);
            (state >> 11) as f64 / (1u64 << 52) as f64 - 1.0
        })
        .collect()
}

/// The greatest difference, for sums of `len` terms of at most 1.
fn apart(x: &[f64], y: &[f64], len: usize) -> f64 {
    x.iter().zip(y).map(|(x, y)| (x - y).abs() / len as f64).fold(0.0, f64::max)
}

fn main() {
    behaviour::show();
    let mut worst = 0.0f64;
    let mut compared = 0;
    let mut compare = |x: &[f64], y: &[f64], len: usize| {
        worst = worst.max(apart(x, y, len));
        compared += x.len();
    };
    let mut len = 1;
    while len <= 1024 {
        let input = numbers(2 * len, len as u64);
        let (fast, naive) = (oracle::splitradix(len), oracle::naive(len));
        let pair = |done: &dyn Fn(&dyn oracle::TransformType2And3<f64>, &mut [f64])| {
            let (mut x, mut y) = (input[..len].to_vec(), input[..len].to_vec());
            done(&*fast, &mut x);
            done(&*naive, &mut y);
            (x, y)
        };
        for (x, y) in vec![
            pair(&|t, x| t.process_dct2(x)),
            pair(&|t, x| t.process_dst2(x)),
            pair(&|t, x| t.process_dct3(x)),
            pair(&|t, x| t.process_dst3(x)),
        ] {
            compare(&x, &y, len);
        }
        if len >= 2 {
            let type4 = oracle::type4(len);
            let wanted: Vec<f64> = input[..len].iter().map(|x| x * len as f64 / 2.0).collect();
            let (mut x, mut y) = (input[..len].to_vec(), input[..len].to_vec());
            type4.process_dct4(&mut x);
            type4.process_dct4(&mut x);
            type4.process_dst4(&mut y);
            type4.process_dst4(&mut y);
            compare(&x, &wanted, len);
            compare(&y, &wanted, len);
            for window in [window_fn::mp3_invertible(2 * len), window_fn::invertible(2 * len)].iter() {
                let fast = oracle::mdct_via_dct4(len, window.clone());
                let naive = oracle::mdct_naive(len, window.clone());
                let mut scratch = vec![0.0; 2 * len];
                let (mut x, mut y) = (vec![0.0; len], vec![0.0; len]);
                let (a, b) = input.split_at(len);
                fast.process_mdct_with_scratch(a, b, &mut x, &mut scratch);
                naive.process_mdct_with_scratch(a, b, &mut y, &mut scratch);
                compare(&x, &y, len);
                let (mut x, mut y) = (input.clone(), input.clone());
                let (xa, xb) = x.split_at_mut(len);
                fast.process_imdct_with_scratch(a, xa, xb, &mut scratch);
                let (ya, yb) = y.split_at_mut(len);
                naive.process_imdct_with_scratch(a, ya, yb, &mut scratch);
                compare(&x, &y, len);
            }
        }
        len *= 2;
    }
    println!(
        "oracle: {} numbers of its fast and naive routines compared at N = 1 to 1024, at most {:.0e}·N apart",
        compared, worst
    );
    // Rounding stays far below this; a wrong term or sign is far above it.
    if !(worst < 1e-11) {
        exit(1);
    }
}
