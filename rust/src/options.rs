//! What goes with a question beside the record, the pattern and the places: a window of the day for
//! each kind.

/// The seconds of a day. Every line's time is below it, and a window from 0 to it is the whole day.
pub const DAY: u32 = 86_400;

/// How many words the library is lent: open and close of each of the kinds 1 to 15.
const WORDS: usize = 30;

/// Options of a question: a window of the day for each kind.
///
/// A reply with options is that for the record with only those lines that are inside the window of
/// their kind; lines keep their numbers. A window has an opening second, which is in it, and a
/// closing second, which is not, both since midnight. A line without a time is inside exactly if
/// the window is the whole day, 0 to [`DAY`]. Every kind has the whole day until it is given
/// another window.
///
/// ```
/// use chains::{Line, Options, Record};
///
/// let mut day = Record::begin(2)?;
/// let finished = Line { from: 0, kind: 4, class: 2, sail: 150, to: 1 };
/// day.add_timed(finished, 54_000)?;
/// // The finish closes at 15:00, at that second: nobody has finished in time.
/// let limit = Options::new().window(4, 0, 54_000);
/// assert_eq!(day.find_with(&[0x21, 4], 0, 1, &limit)?, None);
/// let later = limit.window(4, 0, 54_001);
/// assert_eq!(day.find_with(&[0x21, 4], 0, 1, &later)?, Some(vec![0]));
/// # Ok::<(), chains::Refusal>(())
/// ```
///
/// A window that does not open before it closes, or closes after [`DAY`], is refused with 27 when
/// the question is asked, whichever kind it is of.
#[derive(Clone, Copy, PartialEq, Eq, Hash, Debug)]
pub struct Options {
    /// As the library is lent them: word 2 × (kind - 1) opens, and the word after it closes.
    words: [u32; WORDS],
}

impl Options {
    /// The whole day for every kind.
    pub fn new() -> Options {
        let mut words = [0; WORDS];
        for close in words.iter_mut().skip(1).step_by(2) {
            *close = DAY;
        }
        Options { words }
    }

    /// These options with another window for a kind, 1 to 15: from `open` on and until just before
    /// `close`.
    ///
    /// # Panics
    ///
    /// Where there is no such kind: no line could be inside or outside of its window.
    #[must_use]
    pub fn window(mut self, kind: u8, open: u32, close: u32) -> Options {
        let at = Options::at(kind);
        self.words[at] = open;
        self.words[at + 1] = close;
        self
    }

    /// The opening and the closing second of a kind's window.
    ///
    /// # Panics
    ///
    /// Where there is no such kind.
    pub fn window_of(&self, kind: u8) -> (u32, u32) {
        let at = Options::at(kind);
        (self.words[at], self.words[at + 1])
    }

    fn at(kind: u8) -> usize {
        assert!((1..=15).contains(&kind), "kind {kind} is not 1 to 15");
        2 * (usize::from(kind) - 1)
    }

    /// The words that the library is lent.
    pub(crate) fn words(&self) -> &[u32] {
        &self.words
    }
}

impl Default for Options {
    fn default() -> Options {
        Options::new()
    }
}

#[cfg(test)]
mod tests {
    use super::*;

    #[test]
    fn words_in_turn() {
        let whole = Options::default();
        assert_eq!(whole.words(), [0, 86_400].repeat(15));
        for kind in 1..=15 {
            let at = 2 * (usize::from(kind) - 1);
            let mut expected = [0, 86_400].repeat(15);
            expected[at..at + 2].copy_from_slice(&[7, 9]);
            let set = whole.window(kind, 7, 9);
            assert_eq!(set.words(), expected);
            assert_eq!(set.window_of(kind), (7, 9));
            assert_eq!(set.window(kind, 0, DAY), whole);
        }
    }

    #[test]
    #[should_panic(expected = "kind 0 is not 1 to 15")]
    fn no_window_of_kind_0() {
        let _ = Options::new().window(0, 0, 1);
    }

    #[test]
    #[should_panic(expected = "kind 16 is not 1 to 15")]
    fn no_window_of_kind_16() {
        Options::new().window_of(16);
    }
}
