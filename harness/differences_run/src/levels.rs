//! rustdct makes a table of twiddles for every length. Here each of its entries is compared, by its bits, with the entry of the tables of
//! 8,192 that stands at the same angle. Where all are the same, a routine that reads the tables of 8,192 computes with rustdct's own
//! numbers.
use crate::report::Report;
use oracle::algorithm::{Type2And3SplitRadix, Type4ConvertToType3Even};
use oracle::mdct::window_fn;
use oracle::tables::{self, TURN};
use std::iter::successors;

/// The powers of two from `least` to 1024.
pub fn powers(least: usize) -> impl Iterator<Item = usize> {
    successors(Some(least), |n| Some(2 * n)).take_while(|n| *n <= 1024)
}

/// An entry of a table, the place of its angle in the tables of 8,192, and what is there.
struct Entry {
    what: String,
    place: usize,
    table: f64,
    turn: f64,
}

/// The place of a/b of a turn.
fn place(a: usize, b: usize) -> usize {
    assert!(a < b && TURN % b == 0, "{a}/{b} of a turn is not in the table");
    a * (TURN / b)
}

fn entries(cosines: &[f64], sines: &[f64]) -> Vec<(&'static str, Vec<Entry>)> {
    let entry = |name: &str, n: usize, i: usize, table: f64, turn: &[f64], place: usize| Entry {
        what: format!("{name} {i} at N = {n}"),
        place,
        table,
        turn: turn[place],
    };
    let mut split = Vec::new();
    for n in powers(4) {
        let transform = Type2And3SplitRadix::new(oracle::splitradix(n / 2), oracle::splitradix(n / 4));
        for (i, twiddle) in transform.table().iter().enumerate() {
            split.push(entry("cosine", n, i, twiddle.re, cosines, place(2 * i + 1, 4 * n)));
            split.push(entry("sine", n, i, twiddle.im, sines, place(2 * i + 1, 4 * n)));
        }
    }
    let mut type4 = Vec::new();
    for n in powers(2) {
        let transform = Type4ConvertToType3Even::new(oracle::splitradix(n / 2));
        for (i, twiddle) in transform.table().iter().enumerate() {
            type4.push(entry("cosine", n, i, twiddle.re, cosines, place(2 * i + 1, 8 * n)));
            type4.push(entry("sine", n, i, twiddle.im, sines, place(2 * i + 1, 8 * n)));
        }
    }
    let mut naive = Vec::new();
    for n in powers(1) {
        let [own_cosines, own_sines] = tables::naive(n);
        for i in 0..4 * n {
            naive.push(entry("cosine", n, i, own_cosines[i], cosines, place(i, 4 * n)));
            naive.push(entry("sine", n, i, own_sines[i], sines, place(i, 4 * n)));
        }
    }
    let (mut mdct, mut window) = (Vec::new(), Vec::new());
    for n in powers(2) {
        for (i, cosine) in tables::mdct_naive(n).iter().enumerate() {
            mdct.push(entry("cosine", n, i, *cosine, cosines, place(2 * i + 1, 8 * n)));
        }
        // A window of 2N entries is the sine times the square root of 4/(2N).
        let scale = (4.0 / (2 * n) as f64).sqrt();
        for (i, height) in window_fn::mp3_invertible::<f64>(2 * n).iter().enumerate() {
            let mut entry = entry("height", n, i, *height, sines, place(2 * i + 1, 8 * n));
            entry.turn *= scale;
            window.push(entry);
        }
    }
    vec![
        ("split radix, N = 4 to 1024", split),
        ("type 4, N = 2 to 1024", type4),
        ("naive types 2 and 3, N = 1 to 1024", naive),
        ("naive MDCT, N = 2 to 1024", mdct),
        ("mp3_invertible over its scale, N = 2 to 1024", window),
    ]
}

/// Compares all tables of rustdct with the tables of 8,192.
pub fn compare(report: &mut Report) {
    let [cosines, sines] = tables::turn();
    println!("rustdct's tables at powers of two beside the tables of 8,192:");
    for (name, entries) in entries(&cosines, &sines) {
        let differing: Vec<&Entry> = entries
            .iter()
            .filter(|entry| entry.table.to_bits() != entry.turn.to_bits())
            .collect();
        println!("    {name}: {} words, {} differ", entries.len(), differing.len());
        if let Some(first) = differing.first() {
            println!(
                "        the first: {} is {:016x}, and at {}/8192 of a turn is {:016x}",
                first.what,
                first.table.to_bits(),
                first.place,
                first.turn.to_bits()
            );
        }
        report.count_table(differing.len());
    }
}
