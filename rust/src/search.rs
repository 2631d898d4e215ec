//! A search in steps: begun, moved on by amounts and finished, while lines are added to the record.

use crate::lent::{self, BeginReply, FindReply, MoveReply, WordsReply};
use crate::{Options, Question, Refusal};

/// A search that is under way.
///
/// It has the work area that the library wants to be lent, from the beginning to the end, and in it
/// all that it needs of record and pattern. It borrows neither, so lines may be added to the record
/// meanwhile; its reply is that for the record at the beginning, however it was moved on. A clone
/// is the same search once more, and goes its own way.
///
/// ```
/// use chains::{Line, Question, Record, Search};
///
/// let mut day = Record::begin(3)?;
/// let rounded = Line { from: 0, kind: 3, class: 2, sail: 150, to: 1 };
/// day.add(rounded)?;
/// day.add(Line { from: 1, to: 2, ..rounded })?;
/// // Any number of lines of kind 3, from place 0 to place 2.
/// let pattern = [0x26, 0x21, 3];
/// let mut search = Search::begin(&Question::about(&day, &pattern, 0, 2))?;
/// search.moved(1);
/// // The hut writes on: a shorter way.
/// day.add(Line { to: 2, ..rounded })?;
/// while search.moved(1_000) == 1_000 {}
/// assert_eq!(search.finish(), Some(vec![0, 1]));
/// assert_eq!(day.find(&pattern, 0, 2)?, Some(vec![2]));
/// # Ok::<(), chains::Refusal>(())
/// ```
#[derive(Clone, Debug)]
pub struct Search {
    /// As the library's begin and moves left it.
    work: Vec<u32>,
}

/// So many words more than four times the search size a work area has at least.
const BESIDE: usize = 8_192;

impl Search {
    /// Begins a search for the chain that [`Finder::find`](crate::Finder::find) finds. Nothing is
    /// searched yet.
    ///
    /// Refusals: 1 to 16, 22, 24, 25 and 28. Question 17 never fails here, since the work area is as
    /// large as [`lent::search_words`] says.
    pub fn begin(question: &Question) -> Result<Search, Refusal> {
        Search::begin_with(question, &Options::new())
    }

    /// As [`Search::begin`], with options: the search is for the chain that
    /// [`Finder::find_with`](crate::Finder::find_with) finds. It holds the windows too. Refusals:
    /// those of [`Search::begin`], and 27.
    pub fn begin_with(question: &Question, options: &Options) -> Result<Search, Refusal> {
        let Question {
            record,
            pattern,
            from,
            to,
        } = *question;
        // Where no count of words is told, none: begin asks the same questions and refuses, and a
        // place that is not there (15) comes before a search that is too large (16).
        let words = match lent::search_words(record, pattern) {
            WordsReply::Words(words) => words,
            WordsReply::Refused(_) => 0,
        };
        let mut work = vec![0; words];
        match lent::search_begin_with(record, pattern, from, to, options, &mut work) {
            BeginReply::Begun => Ok(Search { work }),
            BeginReply::Refused(refusal) => Err(refusal),
        }
    }

    /// Moves the search on by so many states, each a place, a spot in the pattern and the boats
    /// kept, or by all that remain where those are fewer; and says by how many. Where that is less
    /// than the amount, the search is at its end. Every search reaches it: 2 × search size + 2 moves
    /// of at least 1 are enough.
    ///
    /// ```
    /// use chains::{Line, Question, Record, Search};
    ///
    /// let mut day = Record::begin(2)?;
    /// day.add(Line { from: 0, kind: 1, class: 2, sail: 150, to: 1 })?;
    /// let mut search = Search::begin(&Question::about(&day, &[0x21, 1], 0, 1))?;
    /// assert_eq!(search.moved(0), 0);
    /// // Backward from the end, and forward again along the chain.
    /// assert_eq!((search.moved(1), search.moved(1), search.moved(1)), (1, 1, 0));
    /// assert_eq!(search.finish(), Some(vec![0]));
    /// # Ok::<(), chains::Refusal>(())
    /// ```
    pub fn moved(&mut self, amount: usize) -> usize {
        match lent::search_move(&mut self.work, amount) {
            MoveReply::Moved(count) => count,
            MoveReply::Refused(refusal) => never(refusal),
        }
    }

    /// Finishes the search, whatever remains of it: the shortest accepted chain of the record as it
    /// was at the beginning, as numbers of lines; of several, the one with the lower number at the
    /// first difference. `None` says that no chain, of any length, is accepted.
    pub fn finish(mut self) -> Option<Vec<u16>> {
        // A chain has fewer lines than the search size, so this many entries hold it.
        let mut out = vec![0; (self.work.len() - BESIDE) / 4];
        match lent::search_finish(&mut self.work, &mut out) {
            FindReply::Found(length) => {
                out.truncate(length);
                out.shrink_to_fit();
                Some(out)
            }
            FindReply::NoChain => None,
            FindReply::Refused(refusal) => never(refusal),
        }
    }
}

/// The library refuses no search as it left it (26), and no output that holds every chain (19); and
/// nothing else comes to this area. A refusal must not pass for an answer.
fn never(refusal: Refusal) -> ! {
    unreachable!("a search under way was refused: {refusal}")
}
