//! The refusals of the residue routines: each that can apply, alone and together with those that come after it. After each of them nothing
//! lent has changed.
use crate::interface::Residue;
use crate::residues::{Comparison, Given};
use crate::sums::MODULUS;

const P: u32 = MODULUS as u32;

/// Words that are no residues.
const NO_RESIDUES: [u32; 5] = [P, P + 1, 2 * P, 1 << 31, u32::MAX];

impl Comparison<'_> {
    pub fn refusals(&mut self, call: &Residue, n: usize) {
        let (given, _) = self.given(call, n, 4);
        self.windows(call, &given);
        self.entries(call, &given);
        self.lengths(call, &given);
        self.sizes(call, &given);
    }

    /// 4: one entry of the window is another, or it and the one that mirrors it are, or the window is all ones.
    fn windows(&mut self, call: &Residue, given: &Given) {
        let (n, fitting) = (given.n, call.lengths(given.n));
        let Some(window) = call.window() else { return };
        for place in [0, n / 2, n - 1, n, 2 * n - 1] {
            let mut changed = given.clone();
            let other = (given.lent[window][place] + 1) % P;
            changed.lent[window][place] = other;
            self.call(call, &changed, &fitting, None, "one entry of the window changed");
            changed.lent[window][2 * n - 1 - place] = other;
            self.call(call, &changed, &fitting, None, "two mirrored entries of the window changed");
        }
        let mut changed = given.clone();
        changed.lent[window] = vec![1; 2 * n];
        self.call(call, &changed, &fitting, None, "a window of ones");
    }

    /// 3, before 4. p - 1 passes, unless the window is then not accepted.
    fn entries(&mut self, call: &Residue, given: &Given) {
        let (n, fitting) = (given.n, call.lengths(given.n));
        for s in call.tested() {
            for place in [0, given.lent[*s].len() / 2, given.lent[*s].len() - 1] {
                for word in NO_RESIDUES {
                    let mut changed = given.clone();
                    changed.lent[*s][place] = word;
                    self.call(call, &changed, &fitting, None, "one entry is p or more");
                    if let Some(window) = call.window() {
                        changed.lent[window][n / 2] ^= 1;
                        self.call(
                            call,
                            &changed,
                            &fitting,
                            None,
                            "one entry is p or more, and the window is changed",
                        );
                    }
                }
                if n <= 64 {
                    let mut changed = given.clone();
                    changed.lent[*s][place] = P - 1;
                    self.call(call, &changed, &fitting, None, "one entry is p - 1");
                }
            }
        }
    }

    /// 2, before 3 and 4.
    fn lengths(&mut self, call: &Residue, given: &Given) {
        let fitting = call.lengths(given.n);
        for (s, fits) in fitting.iter().copied().enumerate() {
            let scratch = s == call.names().len();
            for length in [fits.wrapping_sub(1), fits + 1, 0, fits / 2, 2 * fits] {
                // No scratch is too long, and none too short where none is needed.
                if length == fits || length == usize::MAX || (scratch && length > fits) {
                    continue;
                }
                let mut lengths = fitting.clone();
                lengths[s] = length;
                self.call(call, given, &lengths, None, "a length that is wrong");
                self.call(
                    call,
                    &no_residues(given),
                    &lengths,
                    None,
                    "a length that is wrong, and all entries p",
                );
            }
        }
    }

    /// 1, before all others.
    fn sizes(&mut self, call: &Residue, given: &Given) {
        let (n, fitting) = (given.n, call.lengths(given.n));
        let small = [0, 1, 3, n + 1, 3 * n, 1023, 1025, 2048, 8192];
        let beyond = [1 << 32, (1 << 32) + n, (1 << 62) + n, 1 << 63, usize::MAX];
        for other in [&small[..], &beyond].concat() {
            if call.sums.allows(other) {
                continue;
            }
            let changed = Given {
                n: other,
                ..given.clone()
            };
            self.call(call, &changed, &fitting, None, "a size that is not allowed");
            self.call(
                call,
                &changed,
                &vec![0; fitting.len()],
                None,
                "a size that is not allowed, and nothing lent",
            );
            self.call(
                call,
                &no_residues(&changed),
                &fitting,
                None,
                "a size that is not allowed, and all entries p",
            );
        }
    }
}

/// The same with all entries p.
fn no_residues(given: &Given) -> Given {
    Given {
        n: given.n,
        lent: given.lent.iter().map(|entries| vec![P; entries.len()]).collect(),
    }
}
