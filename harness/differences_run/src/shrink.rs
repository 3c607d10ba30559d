//! The smallest input found that shows a difference.
use crate::memory::Verdict;
use crate::word::Word;

/// Makes entry after entry simpler, as long as the call still differs.
pub fn smallest<W: Word>(mut inputs: Vec<Vec<W>>, mut call: impl FnMut(&[Vec<W>]) -> Verdict) -> (Vec<Vec<W>>, Verdict) {
    let mut verdict = call(&inputs);
    let mut tries = 4_000;
    let mut simplified = verdict.differences > 0;
    while simplified {
        simplified = false;
        for slice in 0..inputs.len() {
            for place in 0..inputs[slice].len() {
                let kept = inputs[slice][place];
                for simpler in kept.simpler() {
                    // What comes after the entry itself is no simpler.
                    if simpler == kept || tries == 0 {
                        break;
                    }
                    tries -= 1;
                    inputs[slice][place] = simpler;
                    let other = call(&inputs);
                    if other.differences > 0 {
                        (verdict, simplified) = (other, true);
                        break;
                    }
                    inputs[slice][place] = kept;
                }
            }
        }
    }
    (inputs, verdict)
}

/// A slice: all entries where they are few, else those that are not zero.
pub fn shown<W: Word>(entries: &[W]) -> String {
    const MOST: usize = 24;
    let zero = W::default();
    if entries.len() <= 16 {
        let all: Vec<String> = entries.iter().map(|entry| entry.number()).collect();
        return format!("[{}]", all.join(", "));
    }
    let others: Vec<String> = entries
        .iter()
        .enumerate()
        .filter(|(_, entry)| **entry != zero)
        .map(|(i, entry)| format!("{i}: {}", entry.number()))
        .collect();
    let more = others.len().saturating_sub(MOST);
    let more = if more > 0 {
        format!(" and {more} others")
    } else {
        String::new()
    };
    let some = others[..others.len().min(MOST)].join(", ");
    format!("[{} entries, zero but for {some}{more}]", entries.len())
}
