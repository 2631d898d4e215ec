//! Records: one that grows, and one in a buffer that is given; and counting a record's boats.

use crate::lent::{self, BoatsReply, LineReply, WriteReply};
use crate::{Finder, Options, Question, Refusal, Search, StartsQuestion};
use std::iter::FusedIterator;
use std::{fmt, vec};

/// A line of the day's record, its time left aside.
#[derive(Clone, Copy, PartialEq, Eq, Hash, Debug)]
pub struct Line {
    /// The place that it is from.
    pub from: u16,
    /// 1 to 15: 1 entered, 2 started, 3 rounded, 4 finished, 5 retired are used.
    pub kind: u8,
    /// The boat's class. Class and sail number together are the boat; both are 0 where the
    /// number was not read.
    pub class: u8,
    /// The boat's sail number, below 16,777,216.
    pub sail: u32,
    /// The place that it leads to.
    pub to: u16,
}

impl fmt::Display for Line {
    fn fmt(&self, f: &mut fmt::Formatter<'_>) -> fmt::Result {
        write!(
            f,
            "from {}, kind {}, class {}, sail number {}, to {}",
            self.from, self.kind, self.class, self.sail, self.to
        )
    }
}

/// A line as it is written: with a time, or without.
///
/// A later version may write lines in other ways, so a `match` needs an arm for the rest.
///
/// ```
/// use chains::{Line, Record, Written};
///
/// let mut day = Record::begin(2)?;
/// let finished = Line { from: 0, kind: 4, class: 2, sail: 150, to: 1 };
/// day.add(finished)?;
/// day.add_timed(finished, 53_400)?;
/// assert_eq!(day.written_line(0)?, Written::Untimed(finished));
/// assert_eq!(day.written_line(1)?, Written::Timed(finished, 53_400));
/// assert_eq!(day.written_line(1)?.time(), Some(53_400));
/// assert_eq!(
///     day.written_line(1)?.to_string(),
///     "from 0, kind 4, class 2, sail number 150, to 1, time 53400",
/// );
/// // The line alone is the same of both.
/// assert_eq!(day.line(0)?, day.line(1)?);
/// # Ok::<(), chains::Refusal>(())
/// ```
#[derive(Clone, Copy, PartialEq, Eq, Hash, Debug)]
#[non_exhaustive]
pub enum Written {
    /// A line without a time.
    Untimed(Line),
    /// A line, and its time in seconds since midnight, below 86,400.
    Timed(Line, u32),
}

impl Written {
    /// The line, its time left aside.
    pub fn line(self) -> Line {
        match self {
            Written::Untimed(line) | Written::Timed(line, _) => line,
        }
    }

    /// The time, if there is one.
    pub fn time(self) -> Option<u32> {
        match self {
            Written::Untimed(_) => None,
            Written::Timed(_, time) => Some(time),
        }
    }
}

impl fmt::Display for Written {
    fn fmt(&self, f: &mut fmt::Formatter<'_>) -> fmt::Result {
        self.line().fmt(f)?;
        match self.time() {
            Some(time) => write!(f, ", time {time}"),
            None => Ok(()),
        }
    }
}

/// How many bytes stand before the first line.
const HEAD: usize = 3;
/// How many bytes a line without a time takes.
const LINE: usize = 10;
/// How many bytes a line with a time takes.
const TIMED_LINE: usize = 14;
/// The first byte of a line with a time.
const TIMED: u8 = 3;
/// The byte after the last line.
const END: u8 = 0;
/// How many bytes a record without lines takes.
const EMPTY: usize = 4;
/// A line's number that no record has: a record has 4,096 lines at most.
const NO_LINE: u16 = u16::MAX;

fn written(reply: WriteReply) -> Result<usize, Refusal> {
    match reply {
        WriteReply::Length(length) => Ok(length),
        WriteReply::Refused(refusal) => Err(refusal),
    }
}

fn written_line_of(record: &[u8], number: u16) -> Result<Written, Refusal> {
    match lent::read(record, number) {
        LineReply::Line(line) => Ok(Written::Untimed(line)),
        LineReply::Timed(line, time) => Ok(Written::Timed(line, time)),
        LineReply::Refused(refusal) => Err(refusal),
    }
}

/// The questions about a record, and how many lines it has. Reading a line asks them of the whole
/// record first, so a line that no record has is refused with 18 exactly when they pass.
fn asked_about(record: &[u8]) -> Result<u16, Refusal> {
    match written_line_of(record, NO_LINE) {
        // At most 4,096.
        Ok(_) | Err(Refusal::LineNotThere) => Ok(line_starts(record).count() as u16),
        Err(refusal) => Err(refusal),
    }
}

/// Where the lines begin of a record that has passed the questions about it, in its bytes.
fn line_starts(record: &[u8]) -> impl Iterator<Item = usize> + '_ {
    let mut at = HEAD;
    std::iter::from_fn(move || {
        let start = at;
        at += match record[start] {
            END => return None,
            TIMED => TIMED_LINE,
            _ => LINE,
        };
        Some(start)
    })
}

/// The lines of a record that has passed the questions about it, by its bytes.
fn written_lines_of(record: &[u8]) -> WrittenLines<'_> {
    let starts: Vec<usize> = line_starts(record).collect();
    WrittenLines {
        record,
        starts: starts.into_iter(),
    }
}

/// The line that the bytes from its first on say: `02` or `03`, from, kind, class, sail number, to,
/// and after `03` the time; the high byte first.
fn taken_apart(bytes: &[u8]) -> Written {
    let line = Line {
        from: u16::from_be_bytes([bytes[1], bytes[2]]),
        kind: bytes[3],
        class: bytes[4],
        sail: u32::from_be_bytes([0, bytes[5], bytes[6], bytes[7]]),
        to: u16::from_be_bytes([bytes[8], bytes[9]]),
    };
    if bytes[0] == TIMED {
        let time = u32::from_be_bytes([bytes[10], bytes[11], bytes[12], bytes[13]]);
        Written::Timed(line, time)
    } else {
        Written::Untimed(line)
    }
}

/// The lines of a record in the order written, each with its time if it has one:
/// [`Record::written_lines`], [`RecordIn::written_lines`].
///
/// The library reads a whole record anew to give one line. The record has passed its questions
/// already, so these are taken from the bytes, in Rust, each once. The crate's tests hold them
/// equal to the library's own.
#[derive(Clone, Debug)]
pub struct WrittenLines<'a> {
    record: &'a [u8],
    /// Where the lines that are left begin: lines with a time are longer than others.
    starts: vec::IntoIter<usize>,
}

impl WrittenLines<'_> {
    fn at(&self, start: usize) -> Written {
        taken_apart(&self.record[start..])
    }
}

impl Iterator for WrittenLines<'_> {
    type Item = Written;

    fn next(&mut self) -> Option<Written> {
        self.starts.next().map(|start| self.at(start))
    }

    fn size_hint(&self) -> (usize, Option<usize>) {
        self.starts.size_hint()
    }

    fn nth(&mut self, n: usize) -> Option<Written> {
        self.starts.nth(n).map(|start| self.at(start))
    }
}

impl DoubleEndedIterator for WrittenLines<'_> {
    fn next_back(&mut self) -> Option<Written> {
        self.starts.next_back().map(|start| self.at(start))
    }
}

impl ExactSizeIterator for WrittenLines<'_> {}

impl FusedIterator for WrittenLines<'_> {}

/// The lines of a record in the order written, their times left aside: [`Record::lines`],
/// [`RecordIn::lines`]. They are taken from the bytes, as [`WrittenLines`] are.
#[derive(Clone, Debug)]
pub struct Lines<'a>(WrittenLines<'a>);

impl Iterator for Lines<'_> {
    type Item = Line;

    fn next(&mut self) -> Option<Line> {
        self.0.next().map(Written::line)
    }

    fn size_hint(&self) -> (usize, Option<usize>) {
        self.0.size_hint()
    }

    fn nth(&mut self, n: usize) -> Option<Line> {
        self.0.nth(n).map(Written::line)
    }
}

impl DoubleEndedIterator for Lines<'_> {
    fn next_back(&mut self) -> Option<Line> {
        self.0.next_back().map(Written::line)
    }
}

impl ExactSizeIterator for Lines<'_> {}

impl FusedIterator for Lines<'_> {}

/// How many different boats a record has, and what it took to tell.
#[derive(Clone, Copy, PartialEq, Eq, Hash, Debug)]
#[non_exhaustive]
pub struct BoatCount {
    /// The different boats, 0 to 4,096. All lines whose number was not read are one of them.
    pub boats: u32,
    /// The reads, 0 to 8,386,560: for each line the earlier ones are read, from line 0 on, up to the
    /// first with the same class and sail number, that one too, or all of them where none has the same.
    pub reads: u32,
}

/// Counts the different boats of a record. Refusals: 1 to 7, 22 and 28.
///
/// ```
/// use chains::{count_boats, Line, Record, Refusal};
///
/// let mut day = Record::begin(1)?;
/// for sail in [7, 7, 8, 7] {
///     day.add(Line { from: 0, kind: 1, class: 1, sail, to: 0 })?;
/// }
/// let count = count_boats(day.bytes())?;
/// // Line 1 meets line 0; line 2 meets none of two; line 3 meets line 0.
/// assert_eq!((count.boats, count.reads), (2, 1 + 2 + 1));
/// assert_eq!(count_boats(&[]), Err(Refusal::PlacesOutOfRange));
/// # Ok::<(), Refusal>(())
/// ```
pub fn count_boats(record: &[u8]) -> Result<BoatCount, Refusal> {
    match lent::boats(record) {
        BoatsReply::Count(count) => Ok(count),
        BoatsReply::Refused(refusal) => Err(refusal),
    }
}

/// A day's record that grows with its lines.
///
/// ```
/// use chains::{Line, Record};
///
/// let mut day = Record::begin(2)?;
/// let number = day.add(Line { from: 0, kind: 1, class: 2, sail: 150, to: 1 })?;
/// assert_eq!(number, 0);
/// assert_eq!(day.line(number)?.sail, 150);
/// assert_eq!(day.bytes().len(), 14);
/// // Asked directly: one line of kind 1, from place 0 to place 1.
/// assert_eq!(day.find(&[0x21, 1], 0, 1)?, Some(vec![0]));
/// # Ok::<(), chains::Refusal>(())
/// ```
#[derive(Clone, PartialEq, Eq, Debug)]
pub struct Record {
    /// Passes the questions about a record.
    bytes: Vec<u8>,
    /// How many lines it has.
    count: u16,
}

impl Record {
    /// Begins a record of so many places, 1 to 1,024, with no lines. Refusal: 2.
    pub fn begin(places: u16) -> Result<Record, Refusal> {
        let mut bytes = vec![0; EMPTY];
        written(lent::begin(&mut bytes, places))?;
        Ok(Record { bytes, count: 0 })
    }

    /// A record from its bytes, those of a file for example. Refusals: 1 to 7, 22 and 28.
    pub fn from_bytes(bytes: impl Into<Vec<u8>>) -> Result<Record, Refusal> {
        let bytes = bytes.into();
        let count = asked_about(&bytes)?;
        Ok(Record { bytes, count })
    }

    /// Adds a line without a time and gives its number. Refusals: 5, 6, 21, 22; the record is then as
    /// it was.
    pub fn add(&mut self, line: Line) -> Result<u16, Refusal> {
        self.grown(LINE, |bytes, length| lent::add(bytes, length, line))
    }

    /// Adds a line with a time, in seconds since midnight, and gives its number. Refusals: 5, 6, 28,
    /// 21, 22; the record is then as it was.
    ///
    /// ```
    /// use chains::{Line, Record, Refusal};
    ///
    /// let mut day = Record::begin(2)?;
    /// let line = Line { from: 0, kind: 4, class: 2, sail: 150, to: 1 };
    /// assert_eq!(day.add_timed(line, 53_400), Ok(0));
    /// assert_eq!(day.written_line(0)?.time(), Some(53_400));
    /// assert_eq!(day.add_timed(line, 86_400), Err(Refusal::LineTimeOutOfRange));
    /// # Ok::<(), Refusal>(())
    /// ```
    pub fn add_timed(&mut self, line: Line, time: u32) -> Result<u16, Refusal> {
        self.grown(TIMED_LINE, |bytes, length| {
            lent::add_timed(bytes, length, line, time)
        })
    }

    /// Adds a line of so many bytes, for which there is room then, by a function that is given the
    /// buffer and the record's length in it.
    fn grown(
        &mut self,
        width: usize,
        add: impl FnOnce(&mut [u8], usize) -> WriteReply,
    ) -> Result<u16, Refusal> {
        let length = self.bytes.len();
        self.bytes.resize(length + width, 0);
        if let Err(refusal) = written(add(&mut self.bytes, length)) {
            self.bytes.truncate(length);
            return Err(refusal);
        }
        self.count += 1;
        Ok(self.count - 1)
    }

    /// The line with this number, its time left aside. Refusal: 18.
    pub fn line(&self, number: u16) -> Result<Line, Refusal> {
        self.written_line(number).map(Written::line)
    }

    /// The line with this number, with its time if it has one. Refusal: 18.
    pub fn written_line(&self, number: u16) -> Result<Written, Refusal> {
        written_line_of(&self.bytes, number)
    }

    /// How many lines there are; they are numbered from 0.
    pub fn line_count(&self) -> u16 {
        self.count
    }

    /// The lines in the order written, each read once, their times left aside.
    ///
    /// ```
    /// use chains::{Line, Record};
    ///
    /// let mut day = Record::begin(2)?;
    /// let entered = Line { from: 0, kind: 1, class: 2, sail: 150, to: 1 };
    /// day.add(entered)?;
    /// day.add(Line { kind: 2, ..entered })?;
    /// for (number, line) in (0u16..).zip(day.lines()) {
    ///     println!("line {number}: {line}");
    /// }
    /// assert_eq!(day.lines().len(), 2);
    /// assert_eq!(day.lines().filter(|line| line.kind == 1).count(), 1);
    /// # Ok::<(), chains::Refusal>(())
    /// ```
    pub fn lines(&self) -> Lines<'_> {
        Lines(self.written_lines())
    }

    /// The lines in the order written, each read once, with their times.
    ///
    /// ```
    /// use chains::{Line, Record};
    ///
    /// let mut day = Record::begin(2)?;
    /// let entered = Line { from: 0, kind: 1, class: 2, sail: 150, to: 1 };
    /// day.add(entered)?;
    /// day.add_timed(Line { kind: 2, ..entered }, 36_000)?;
    /// let times: Vec<Option<u32>> = day.written_lines().map(|line| line.time()).collect();
    /// assert_eq!(times, [None, Some(36_000)]);
    /// # Ok::<(), chains::Refusal>(())
    /// ```
    pub fn written_lines(&self) -> WrittenLines<'_> {
        written_lines_of(&self.bytes)
    }

    /// Finds the first shortest chain of lines from the first place to the second that the
    /// pattern accepts, as [`Finder::find`] does. Refusals: 8 to 16, 24, 25.
    ///
    /// For many questions keep a [`Finder`], and with it the work area.
    ///
    /// ```
    /// use chains::{Line, Record};
    ///
    /// let mut day = Record::begin(2)?;
    /// day.add(Line { from: 0, kind: 1, class: 2, sail: 150, to: 1 })?;
    /// assert_eq!(day.find(&[0x21, 1], 0, 1)?, Some(vec![0]));
    /// // No line of kind 2.
    /// assert_eq!(day.find(&[0x21, 2], 0, 1)?, None);
    /// # Ok::<(), chains::Refusal>(())
    /// ```
    pub fn find(&self, pattern: &[u8], from: u16, to: u16) -> Result<Option<Vec<u16>>, Refusal> {
        self.find_with(pattern, from, to, &Options::new())
    }

    /// As [`Record::find`], with options: a window of the day for each kind. Refusals: those of
    /// [`Record::find`], and 27.
    ///
    /// ```
    /// use chains::{Line, Options, Record};
    ///
    /// let mut day = Record::begin(2)?;
    /// let line = Line { from: 0, kind: 4, class: 1, sail: 7, to: 1 };
    /// day.add_timed(line, 54_000)?;
    /// day.add_timed(Line { sail: 9, ..line }, 53_400)?;
    /// assert_eq!(day.find(&[0x21, 4], 0, 1)?, Some(vec![0]));
    /// // The finish closes at 15:00.
    /// let limit = Options::new().window(4, 0, 54_000);
    /// assert_eq!(day.find_with(&[0x21, 4], 0, 1, &limit)?, Some(vec![1]));
    /// assert!(!day.check_with(&[0x21, 4], 0, 1, &[0], &limit)?);
    /// assert_eq!(day.starts_with(&[0x21, 4], &[0, 1], 1, &limit)?, [Some(1), None]);
    /// assert_eq!(day.search_with(&[0x21, 4], 0, 1, &limit)?.finish(), Some(vec![1]));
    /// # Ok::<(), chains::Refusal>(())
    /// ```
    pub fn find_with(
        &self,
        pattern: &[u8],
        from: u16,
        to: u16,
        options: &Options,
    ) -> Result<Option<Vec<u16>>, Refusal> {
        Finder::new().find_owned_with(&Question::about(self, pattern, from, to), options)
    }

    /// Does the chain lead from the first place to the second, and does the pattern accept it?
    /// Refusals: 8 to 16, 18, 24, 25.
    ///
    /// ```
    /// use chains::{Line, Record, Refusal};
    ///
    /// let mut day = Record::begin(2)?;
    /// day.add(Line { from: 0, kind: 1, class: 2, sail: 150, to: 1 })?;
    /// assert!(day.check(&[0x21, 1], 0, 1, &[0])?);
    /// // There is no line 1.
    /// assert_eq!(day.check(&[0x21, 1], 0, 1, &[1]), Err(Refusal::LineNotThere));
    /// # Ok::<(), Refusal>(())
    /// ```
    pub fn check(
        &self,
        pattern: &[u8],
        from: u16,
        to: u16,
        chain: &[u16],
    ) -> Result<bool, Refusal> {
        self.check_with(pattern, from, to, chain, &Options::new())
    }

    /// As [`Record::check`], with options: no also where a line of the chain is outside the window of
    /// its kind. Refusals: those of [`Record::check`], and 27.
    pub fn check_with(
        &self,
        pattern: &[u8],
        from: u16,
        to: u16,
        chain: &[u16],
        options: &Options,
    ) -> Result<bool, Refusal> {
        let question = Question::about(self, pattern, from, to);
        Finder::new().check_with(&question, chain, options)
    }

    /// For each of the places the length of the shortest chain of lines from it that the pattern
    /// accepts, or `None`, as [`Finder::starts`] does: out of one search, however many they are.
    /// Refusals: 8 to 16, 24, 25.
    ///
    /// ```
    /// use chains::{Line, Record};
    ///
    /// let mut day = Record::begin(3)?;
    /// day.add(Line { from: 0, kind: 1, class: 2, sail: 150, to: 2 })?;
    /// // From the places 0, 1 and 0 once more, to place 2.
    /// assert_eq!(day.starts(&[0x21, 1], &[0, 1, 0], 2)?, [Some(1), None, Some(1)]);
    /// # Ok::<(), chains::Refusal>(())
    /// ```
    pub fn starts(
        &self,
        pattern: &[u8],
        places: &[u16],
        to: u16,
    ) -> Result<Vec<Option<u32>>, Refusal> {
        self.starts_with(pattern, places, to, &Options::new())
    }

    /// As [`Record::starts`], with options: what [`Record::find_with`] finds for each place. Refusals:
    /// those of [`Record::starts`], and 27.
    pub fn starts_with(
        &self,
        pattern: &[u8],
        places: &[u16],
        to: u16,
        options: &Options,
    ) -> Result<Vec<Option<u32>>, Refusal> {
        let question = StartsQuestion::about(self, pattern, to);
        Finder::new().starts_with(&question, places, options)
    }

    /// Begins a search in steps for the chain that [`Record::find`] finds. Lines may be added before
    /// it is finished; its reply is that for the record as it is now. Refusals: 8 to 16, 24, 25.
    ///
    /// ```
    /// use chains::{Line, Record};
    ///
    /// let mut day = Record::begin(2)?;
    /// let search = day.search(&[0x21, 1], 0, 1)?;
    /// day.add(Line { from: 0, kind: 1, class: 2, sail: 150, to: 1 })?;
    /// assert_eq!(search.finish(), None);
    /// assert_eq!(day.find(&[0x21, 1], 0, 1)?, Some(vec![0]));
    /// # Ok::<(), chains::Refusal>(())
    /// ```
    pub fn search(&self, pattern: &[u8], from: u16, to: u16) -> Result<Search, Refusal> {
        self.search_with(pattern, from, to, &Options::new())
    }

    /// As [`Record::search`], with options: for the chain that [`Record::find_with`] finds. Refusals:
    /// those of [`Record::search`], and 27.
    pub fn search_with(
        &self,
        pattern: &[u8],
        from: u16,
        to: u16,
        options: &Options,
    ) -> Result<Search, Refusal> {
        Search::begin_with(&Question::about(self, pattern, from, to), options)
    }

    /// The record's bytes.
    pub fn bytes(&self) -> &[u8] {
        &self.bytes
    }

    /// The record's bytes, to keep.
    pub fn into_bytes(self) -> Vec<u8> {
        self.bytes
    }
}

impl AsRef<[u8]> for Record {
    fn as_ref(&self) -> &[u8] {
        &self.bytes
    }
}

/// A day's record at the front of a buffer that is given and does not grow. A line that it
/// has no room for is refused with 23.
///
/// ```
/// use chains::{Line, RecordIn, Refusal};
///
/// let mut buffer = [0; 14];
/// let mut day = RecordIn::begin(&mut buffer, 2)?;
/// let line = Line { from: 0, kind: 1, class: 2, sail: 150, to: 1 };
/// day.add(line)?;
/// assert_eq!(day.add(line), Err(Refusal::BufferTooSmall));
/// # Ok::<(), chains::Refusal>(())
/// ```
#[derive(Debug)]
pub struct RecordIn<'a> {
    buf: &'a mut [u8],
    /// The buffer's first `length` bytes pass the questions about a record.
    length: usize,
    /// How many lines it has.
    count: u16,
}

impl<'a> RecordIn<'a> {
    /// Begins a record of so many places, 1 to 1,024, with no lines. Refusals: 2, 23.
    pub fn begin(buf: &'a mut [u8], places: u16) -> Result<RecordIn<'a>, Refusal> {
        let length = written(lent::begin(buf, places))?;
        let count = 0;
        Ok(RecordIn { buf, length, count })
    }

    /// Goes on with the record that is the first `length` bytes of the buffer. Refusals: 20,
    /// then 1 to 7, 22 and 28.
    pub fn open(buf: &'a mut [u8], length: usize) -> Result<RecordIn<'a>, Refusal> {
        let record = buf.get(..length).ok_or(Refusal::LengthBeyondBuffer)?;
        let count = asked_about(record)?;
        Ok(RecordIn { buf, length, count })
    }

    /// Adds a line without a time and gives its number. Refusals: 5, 6, 21, 22, 23; no byte of the
    /// buffer is altered then.
    pub fn add(&mut self, line: Line) -> Result<u16, Refusal> {
        let reply = lent::add(self.buf, self.length, line);
        self.grown(reply)
    }

    /// Adds a line with a time, in seconds since midnight, and gives its number. Refusals: 5, 6, 28,
    /// 21, 22, 23; no byte of the buffer is altered then.
    pub fn add_timed(&mut self, line: Line, time: u32) -> Result<u16, Refusal> {
        let reply = lent::add_timed(self.buf, self.length, line, time);
        self.grown(reply)
    }

    /// The number of the line that was added, if it was.
    fn grown(&mut self, reply: WriteReply) -> Result<u16, Refusal> {
        self.length = written(reply)?;
        self.count += 1;
        Ok(self.count - 1)
    }

    /// The line with this number, its time left aside. Refusal: 18.
    pub fn line(&self, number: u16) -> Result<Line, Refusal> {
        self.written_line(number).map(Written::line)
    }

    /// The line with this number, with its time if it has one. Refusal: 18.
    pub fn written_line(&self, number: u16) -> Result<Written, Refusal> {
        written_line_of(self.bytes(), number)
    }

    /// How many lines there are; they are numbered from 0.
    pub fn line_count(&self) -> u16 {
        self.count
    }

    /// The lines in the order written, each read once, their times left aside.
    ///
    /// ```
    /// use chains::{Line, RecordIn};
    ///
    /// let mut buffer = [0; 24];
    /// let mut day = RecordIn::begin(&mut buffer, 2)?;
    /// let entered = Line { from: 0, kind: 1, class: 2, sail: 150, to: 1 };
    /// day.add(entered)?;
    /// day.add(Line { kind: 2, ..entered })?;
    /// for (number, line) in (0u16..).zip(day.lines()) {
    ///     println!("line {number}: {line}");
    /// }
    /// assert_eq!(day.lines().len(), 2);
    /// assert_eq!(day.lines().filter(|line| line.kind == 1).count(), 1);
    /// # Ok::<(), chains::Refusal>(())
    /// ```
    pub fn lines(&self) -> Lines<'_> {
        Lines(self.written_lines())
    }

    /// The lines in the order written, each read once, with their times, as
    /// [`Record::written_lines`].
    pub fn written_lines(&self) -> WrittenLines<'_> {
        written_lines_of(self.bytes())
    }

    /// Finds the first shortest chain of lines from the first place to the second that the
    /// pattern accepts, as [`Finder::find`] does. Refusals: 8 to 16, 24, 25.
    ///
    /// For many questions keep a [`Finder`], and with it the work area.
    pub fn find(&self, pattern: &[u8], from: u16, to: u16) -> Result<Option<Vec<u16>>, Refusal> {
        self.find_with(pattern, from, to, &Options::new())
    }

    /// As [`RecordIn::find`], with options, as [`Record::find_with`].
    pub fn find_with(
        &self,
        pattern: &[u8],
        from: u16,
        to: u16,
        options: &Options,
    ) -> Result<Option<Vec<u16>>, Refusal> {
        Finder::new().find_owned_with(&Question::about(self, pattern, from, to), options)
    }

    /// Does the chain lead from the first place to the second, and does the pattern accept it?
    /// Refusals: 8 to 16, 18, 24, 25.
    pub fn check(
        &self,
        pattern: &[u8],
        from: u16,
        to: u16,
        chain: &[u16],
    ) -> Result<bool, Refusal> {
        self.check_with(pattern, from, to, chain, &Options::new())
    }

    /// As [`RecordIn::check`], with options: no also where a line of the chain is outside the window of
    /// its kind. Refusals: those of [`RecordIn::check`], and 27.
    pub fn check_with(
        &self,
        pattern: &[u8],
        from: u16,
        to: u16,
        chain: &[u16],
        options: &Options,
    ) -> Result<bool, Refusal> {
        let question = Question::about(self, pattern, from, to);
        Finder::new().check_with(&question, chain, options)
    }

    /// For each of the places the length of the shortest chain of lines from it that the pattern
    /// accepts, or `None`, as [`Finder::starts`] does. Refusals: 8 to 16, 24, 25.
    pub fn starts(
        &self,
        pattern: &[u8],
        places: &[u16],
        to: u16,
    ) -> Result<Vec<Option<u32>>, Refusal> {
        self.starts_with(pattern, places, to, &Options::new())
    }

    /// As [`RecordIn::starts`], with options: what [`RecordIn::find_with`] finds for each place. Refusals:
    /// those of [`RecordIn::starts`], and 27.
    pub fn starts_with(
        &self,
        pattern: &[u8],
        places: &[u16],
        to: u16,
        options: &Options,
    ) -> Result<Vec<Option<u32>>, Refusal> {
        let question = StartsQuestion::about(self, pattern, to);
        Finder::new().starts_with(&question, places, options)
    }

    /// Begins a search in steps for the chain that [`RecordIn::find`] finds, as [`Record::search`]
    /// does. Refusals: 8 to 16, 24, 25.
    pub fn search(&self, pattern: &[u8], from: u16, to: u16) -> Result<Search, Refusal> {
        self.search_with(pattern, from, to, &Options::new())
    }

    /// As [`RecordIn::search`], with options: for the chain that [`RecordIn::find_with`] finds. Refusals:
    /// those of [`RecordIn::search`], and 27.
    pub fn search_with(
        &self,
        pattern: &[u8],
        from: u16,
        to: u16,
        options: &Options,
    ) -> Result<Search, Refusal> {
        Search::begin_with(&Question::about(self, pattern, from, to), options)
    }

    /// The record's bytes.
    pub fn bytes(&self) -> &[u8] {
        &self.buf[..self.length]
    }
}

impl AsRef<[u8]> for RecordIn<'_> {
    fn as_ref(&self) -> &[u8] {
        self.bytes()
    }
}

#[cfg(test)]
mod tests {
    use super::*;
    use crate::linked::counted;

    /// Going over the lines calls the library for none of them, however many there are.
    #[test]
    fn lines_read_the_record_once() {
        for count in [0, 1, 10, 1_000] {
            let mut day = Record::begin(2).expect("two places");
            for sail in 0..count {
                let line = Line {
                    from: (sail % 2) as u16,
                    kind: 3,
                    class: 7,
                    sail: sail * 16_001,
                    to: 1,
                };
                let added = if sail % 3 == 0 {
                    day.add_timed(line, sail * 86)
                } else {
                    day.add(line)
                };
                added.expect("a good line");
            }
            let before = counted::calls();
            let day = Record::from_bytes(day.into_bytes()).expect("a good record");
            assert_eq!(counted::calls(), before + 1);
            let lines: Vec<Line> = day.lines().collect();
            let written: Vec<Written> = day.written_lines().collect();
            assert_eq!(lines.len(), count as usize);
            assert_eq!(counted::calls(), before + 1);
            // One call of the library for each line that it is asked for.
            let read: Result<Vec<Line>, Refusal> =
                (0..day.line_count()).map(|n| day.line(n)).collect();
            assert_eq!(read, Ok(lines));
            assert_eq!(counted::calls(), before + 1 + count as usize);
            let read: Result<Vec<Written>, Refusal> =
                (0..day.line_count()).map(|n| day.written_line(n)).collect();
            assert_eq!(read, Ok(written));
            assert_eq!(counted::calls(), before + 1 + 2 * count as usize);
        }
    }
}
