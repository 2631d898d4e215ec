//! Finding and checking, with buffers that are kept from one request to the next.

use crate::lent::{self, CheckReply, FindReply, StartsReply, WordsReply};
use crate::{Options, Refusal};

/// What is asked: a record and a pattern, as bytes, and two places.
#[derive(Clone, Copy, PartialEq, Eq, Debug)]
pub struct Question<'a> {
    /// The day's record.
    pub record: &'a [u8],
    /// The pattern.
    pub pattern: &'a [u8],
    /// The place that a chain must lead from.
    pub from: u16,
    /// The place that it must lead to.
    pub to: u16,
}

impl<'a> Question<'a> {
    /// A question about a [`Record`](crate::Record), a [`RecordIn`](crate::RecordIn) or a
    /// record's bytes.
    ///
    /// ```
    /// use chains::{Finder, Question, Record};
    ///
    /// let day = Record::begin(2)?;
    /// let question = Question::about(&day, &[0x21, 1], 0, 1);
    /// assert_eq!(Finder::new().find(&question)?, None);
    /// # Ok::<(), chains::Refusal>(())
    /// ```
    pub fn about<R: AsRef<[u8]> + ?Sized>(
        record: &'a R,
        pattern: &'a [u8],
        from: u16,
        to: u16,
    ) -> Question<'a> {
        Question {
            record: record.as_ref(),
            pattern,
            from,
            to,
        }
    }
}

/// What is asked about many starts: a record and a pattern, as bytes, and the one place that all
/// chains must lead to.
#[derive(Clone, Copy, PartialEq, Eq, Debug)]
pub struct StartsQuestion<'a> {
    /// The day's record.
    pub record: &'a [u8],
    /// The pattern.
    pub pattern: &'a [u8],
    /// The place that a chain must lead to.
    pub to: u16,
}

impl<'a> StartsQuestion<'a> {
    /// A question about a [`Record`](crate::Record), a [`RecordIn`](crate::RecordIn) or a
    /// record's bytes.
    ///
    /// ```
    /// use chains::{Finder, Record, StartsQuestion};
    ///
    /// let day = Record::begin(2)?;
    /// // Any number of lines of kind 1: there are none, but none are enough at the end.
    /// let question = StartsQuestion::about(&day, &[0x26, 0x21, 1], 1);
    /// assert_eq!(Finder::new().starts(&question, &[0, 1])?, [None, Some(0)]);
    /// # Ok::<(), chains::Refusal>(())
    /// ```
    pub fn about<R: AsRef<[u8]> + ?Sized>(
        record: &'a R,
        pattern: &'a [u8],
        to: u16,
    ) -> StartsQuestion<'a> {
        StartsQuestion {
            record: record.as_ref(),
            pattern,
            to,
        }
    }
}

/// Finds and checks chains.
///
/// It has the work area and the outputs that the library wants to be lent. All grow when a
/// request needs more and are kept for the next one, so one `Finder` for many requests
/// allocates seldom. Its replies never depend on the requests before.
///
/// ```
/// use chains::{Finder, Line, Question, Record};
///
/// let mut day = Record::begin(2)?;
/// day.add(Line { from: 0, kind: 1, class: 2, sail: 150, to: 1 })?;
/// // One line of kind 1, from place 0 to place 1.
/// let question = Question::about(&day, &[0x21, 1], 0, 1);
/// let mut finder = Finder::new();
/// assert_eq!(finder.find(&question)?, Some(&[0][..]));
/// assert!(finder.check(&question, &[0])?);
/// # Ok::<(), chains::Refusal>(())
/// ```
#[derive(Clone, Debug, Default)]
pub struct Finder {
    work: Vec<u32>,
    out: Vec<u16>,
    lengths: Vec<u32>,
}

impl Finder {
    /// A finder with no buffers yet.
    pub fn new() -> Finder {
        Finder::default()
    }

    /// The shortest accepted chain from the first place to the second, as numbers of lines; of
    /// several, the one with the lower number at the first difference. `None` says that no
    /// chain, of any length, is accepted.
    ///
    /// Refusals: 1 to 16, 22, 24, 25 and 28. Question 17 never fails here, since the work area is as
    /// large as [`lent::words`] says. Nor does 19: where the output is too short for the chain, it is
    /// made long enough and the library is asked once more. A `Finder` that meets a chain
    /// longer than any before thus searches twice.
    ///
    /// The chain is lent from the finder's own output, until the finder is used again;
    /// [`Finder::find_owned`] gives one to keep.
    pub fn find(&mut self, question: &Question) -> Result<Option<&[u16]>, Refusal> {
        self.find_with(question, &Options::new())
    }

    /// As [`Finder::find`], with options: the chain has no line that is outside the window of its
    /// kind. Refusals: those of [`Finder::find`], and 27.
    ///
    /// ```
    /// use chains::{Finder, Line, Options, Question, Record};
    ///
    /// let mut day = Record::begin(2)?;
    /// let entered = Line { from: 0, kind: 1, class: 2, sail: 150, to: 1 };
    /// day.add_timed(entered, 5)?;
    /// day.add_timed(entered, 6)?;
    /// let question = Question::about(&day, &[0x21, 1], 0, 1);
    /// let mut finder = Finder::new();
    /// // Open until second 6, from it on, and until second 5.
    /// let (early, late) = (Options::new().window(1, 0, 6), Options::new().window(1, 6, 9));
    /// assert_eq!(finder.find_with(&question, &early)?, Some(&[0][..]));
    /// assert_eq!(finder.find_with(&question, &late)?, Some(&[1][..]));
    /// assert_eq!(finder.find_with(&question, &early.window(1, 0, 5))?, None);
    /// # Ok::<(), chains::Refusal>(())
    /// ```
    pub fn find_with(
        &mut self,
        question: &Question,
        options: &Options,
    ) -> Result<Option<&[u16]>, Refusal> {
        let mut reply = self.find_once(question, options);
        if let FindReply::Refused(Refusal::OutputTooSmall { length }) = reply {
            self.out.resize(length, 0);
            reply = self.find_once(question, options);
        }
        match reply {
            FindReply::Found(length) => Ok(Some(&self.out[..length])),
            FindReply::NoChain => Ok(None),
            FindReply::Refused(refusal) => Err(refusal),
        }
    }

    /// As [`Finder::find`], with a chain of the caller's own: it can go to [`Finder::check`] of
    /// the same finder, and be kept while other questions are asked.
    ///
    /// ```
    /// use chains::{Finder, Line, Question, Record};
    ///
    /// let mut day = Record::begin(2)?;
    /// day.add(Line { from: 0, kind: 1, class: 2, sail: 150, to: 1 })?;
    /// let question = Question::about(&day, &[0x21, 1], 0, 1);
    /// let mut finder = Finder::new();
    /// let chain = finder.find_owned(&question)?.expect("line 0");
    /// assert!(finder.check(&question, &chain)?);
    /// # Ok::<(), chains::Refusal>(())
    /// ```
    pub fn find_owned(&mut self, question: &Question) -> Result<Option<Vec<u16>>, Refusal> {
        self.find_owned_with(question, &Options::new())
    }

    /// As [`Finder::find_with`], with a chain of the caller's own.
    pub fn find_owned_with(
        &mut self,
        question: &Question,
        options: &Options,
    ) -> Result<Option<Vec<u16>>, Refusal> {
        Ok(self.find_with(question, options)?.map(<[u16]>::to_vec))
    }

    fn find_once(&mut self, question: &Question, options: &Options) -> FindReply {
        let Question {
            record,
            pattern,
            from,
            to,
        } = *question;
        let work = area(&mut self.work, record, pattern);
        lent::find_with(record, pattern, from, to, options, work, &mut self.out)
    }

    /// Does the chain lead from the first place to the second, and does the pattern accept it?
    ///
    /// Refusals: 1 to 16, 18, 22, 24, 25 and 28.
    pub fn check(&mut self, question: &Question, chain: &[u16]) -> Result<bool, Refusal> {
        self.check_with(question, chain, &Options::new())
    }

    /// As [`Finder::check`], with options: no also where a line of the chain is outside the window of
    /// its kind. Refusals: those of [`Finder::check`], and 27.
    pub fn check_with(
        &mut self,
        question: &Question,
        chain: &[u16],
        options: &Options,
    ) -> Result<bool, Refusal> {
        let Question {
            record,
            pattern,
            from,
            to,
        } = *question;
        let work = area(&mut self.work, record, pattern);
        match lent::check_with(record, pattern, from, to, chain, options, work) {
            CheckReply::Yes => Ok(true),
            CheckReply::No => Ok(false),
            CheckReply::Refused(refusal) => Err(refusal),
        }
    }

    /// For each of the places the length of the shortest accepted chain from it, or `None` where no
    /// chain, of any length, is accepted: what [`Finder::find`] finds for each, out of one search. The
    /// lengths are in the order of the places; a place may come more than once.
    ///
    /// Refusals: 1 to 16, 22, 24, 25 and 28; 15 asks about every one of the places, and about the one
    /// that chains lead to. Questions 17 and 19 never fail here, since the work area and the words
    /// for lengths are as many as are needed.
    ///
    /// ```
    /// use chains::{Finder, Line, Record, StartsQuestion};
    ///
    /// let mut day = Record::begin(3)?;
    /// let rounded = Line { from: 0, kind: 3, class: 2, sail: 150, to: 1 };
    /// day.add(rounded)?;
    /// day.add(Line { from: 1, to: 2, ..rounded })?;
    /// // One line of kind 3 or more, to place 2.
    /// let question = StartsQuestion::about(&day, &[0x25, 0x21, 3, 0x26, 0x21, 3], 2);
    /// let lengths = Finder::new().starts(&question, &[0, 1, 2])?;
    /// assert_eq!(lengths, [Some(2), Some(1), None]);
    /// # Ok::<(), chains::Refusal>(())
    /// ```
    pub fn starts(
        &mut self,
        question: &StartsQuestion,
        places: &[u16],
    ) -> Result<Vec<Option<u32>>, Refusal> {
        self.starts_with(question, places, &Options::new())
    }

    /// As [`Finder::starts`], with options: what [`Finder::find_with`] finds for each place. Refusals:
    /// those of [`Finder::starts`], and 27.
    pub fn starts_with(
        &mut self,
        question: &StartsQuestion,
        places: &[u16],
        options: &Options,
    ) -> Result<Vec<Option<u32>>, Refusal> {
        let StartsQuestion {
            record,
            pattern,
            to,
        } = *question;
        let work = area(&mut self.work, record, pattern);
        if self.lengths.len() < places.len() {
            self.lengths.resize(places.len(), 0);
        }
        let lengths = &mut self.lengths;
        match lent::starts_with(record, pattern, places, to, options, work, lengths) {
            StartsReply::Lengths(count) => Ok(self.lengths[..count].iter().map(known).collect()),
            StartsReply::Refused(refusal) => Err(refusal),
        }
    }
}

/// As many words as the question needs and no more: the library clears all that it is lent.
/// Where it is not told how many, none: it then asks the same questions again and refuses,
/// and a place that is not there (15) comes before a search that is too large (16).
fn area<'a>(work: &'a mut Vec<u32>, record: &[u8], pattern: &[u8]) -> &'a mut [u32] {
    let words = match lent::words(record, pattern) {
        WordsReply::Words(words) => words,
        WordsReply::Refused(_) => 0,
    };
    if work.len() < words {
        work.resize(words, 0);
    }
    &mut work[..words]
}

/// A length that the library wrote; its mark says none.
fn known(length: &u32) -> Option<u32> {
    (*length != lent::NO_CHAIN).then_some(*length)
}
