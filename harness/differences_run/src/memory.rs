//! One call on marked memory. What is lent lies in one stretch of memory, with marks before, between and after, so that every word that a
//! call should not have changed can be looked at after it.
use crate::interface::{Call, Lent};
use crate::word::Word;
use cases::words::Words;

/// A slice that is lent.
#[derive(Clone, Copy)]
pub struct Slice<'a, W> {
    pub name: &'static str,
    pub length: usize,
    /// What its first entries hold before the call. The rest are marks.
    pub holds: &'a [W],
    /// What its first entries are to hold once the call is done. The rest are to stay as they were.
    pub then: &'a [W],
    /// Whether that is an output of the call, which is counted, and not zeroed scratch.
    pub output: bool,
}

impl<'a, W> Slice<'a, W> {
    /// Lent whole and only read.
    pub fn read(name: &'static str, holds: &'a [W]) -> Slice<'a, W> {
        Slice {
            name,
            length: holds.len(),
            holds,
            then: &[],
            output: false,
        }
    }

    /// Lent whole, and an output.
    pub fn stored(name: &'static str, holds: &'a [W], then: &'a [W]) -> Slice<'a, W> {
        Slice {
            name,
            length: then.len(),
            holds,
            then,
            output: true,
        }
    }

    /// Scratch, of which the first entries are to be zeroed.
    pub fn scratch(length: usize, zeros: &'a [W]) -> Slice<'a, W> {
        Slice {
            name: "scratch",
            length,
            holds: &[],
            then: zeros,
            output: false,
        }
    }
}

/// What came of a call: how many words of output were compared, how many words or answers were not what they should be, and the first of
/// them.
#[derive(Default)]
pub struct Verdict {
    pub words: usize,
    pub differences: usize,
    pub first: Option<String>,
}

impl Verdict {
    fn differs(&mut self, what: impl FnOnce() -> String) {
        self.differences += 1;
        self.first.get_or_insert_with(what);
    }
}

/// The most words between two slices.
const GUARD: usize = 24;

pub struct Memory<W> {
    words: Vec<W>,
    wanted: Vec<W>,
    places: Words,
}

impl<W: Word> Memory<W> {
    pub fn new(seed: u64) -> Memory<W> {
        Memory {
            words: Vec::new(),
            wanted: Vec::new(),
            places: Words::new(seed),
        }
    }

    fn mark(&mut self, count: usize) {
        for _ in 0..count {
            self.words.push(W::mark(self.places.word()));
        }
    }

    /// Makes the call and looks at its answer and at every word of the memory: after a refusal what was there, after a call that was done
    /// what is to be stored.
    pub fn call(&mut self, n: usize, slices: &[Slice<W>], answer: u32, call: Call<W::Entry>) -> Verdict {
        self.words.clear();
        let mut begins = Vec::new();
        for slice in slices {
            // The places change, so that no call can count on more than the alignment of an entry.
            let gap = GUARD / 2 + self.places.below(GUARD / 2);
            self.mark(gap);
            begins.push(self.words.len());
            let held = slice.holds.len().min(slice.length);
            self.words.extend_from_slice(&slice.holds[..held]);
            self.mark(slice.length - held);
        }
        self.mark(GUARD);
        self.wanted.clone_from(&self.words);
        let mut verdict = Verdict::default();
        if answer == 0 {
            for (slice, begin) in slices.iter().zip(&begins) {
                self.wanted[*begin..*begin + slice.then.len()].copy_from_slice(slice.then);
                verdict.words += if slice.output { slice.then.len() } else { 0 };
            }
        }

        let start = self.words.as_mut_ptr();
        let lent: Vec<Lent<W::Entry>> = slices
            .iter()
            .zip(&begins)
            .map(|(slice, begin)| (start.wrapping_add(*begin).cast(), slice.length))
            .collect();
        let given = call(n, &lent);

        if given != answer {
            verdict.differs(|| format!("the answer is {given}, not {answer}"));
        }
        if self.words != self.wanted {
            self.look(slices, &begins, answer, &mut verdict);
        }
        verdict
    }

    /// Finds the words that are not what they should be.
    fn look(&self, slices: &[Slice<W>], begins: &[usize], answer: u32, verdict: &mut Verdict) {
        let mut from = 0;
        for (slice, begin) in slices.iter().zip(begins) {
            self.compare(from..*begin, None, verdict);
            from = begin + slice.length;
            self.compare(*begin..from, Some((slice, answer)), verdict);
        }
        self.compare(from..self.words.len(), None, verdict);
    }

    /// Compares the words of a slice, or of a stretch that was not lent.
    fn compare(&self, range: std::ops::Range<usize>, slice: Option<(&Slice<W>, u32)>, verdict: &mut Verdict) {
        for i in range.clone() {
            let (word, wanted, place) = (self.words[i], self.wanted[i], i - range.start);
            let stored = slice.is_some_and(|(slice, answer)| answer == 0 && slice.output && place < slice.then.len());
            if word == wanted || (stored && word.matches(wanted)) {
                continue;
            }
            verdict.differs(|| {
                let (word, wanted) = (word.show(), wanted.show());
                match slice {
                    Some((slice, _)) => format!("entry {place} of {} is {word}, not {wanted}", slice.name),
                    None => format!("a word that was not lent became {word} from {wanted}"),
                }
            });
        }
    }
}
