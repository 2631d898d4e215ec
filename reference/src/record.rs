//! The day's record: reading it, beginning one, adding a line, reading a line back, counting the
//! different boats.

/// No record is longer than this: as many lines as there can be, each with a time.
pub const LONGEST: usize = 57_348;
/// No record has more lines than this.
pub const MOST_LINES: usize = 4_096;
/// No record has more places than this.
pub const MOST_PLACES: u16 = 1_024;
/// Sail numbers are below this.
pub const SAIL_LIMIT: u32 = 16_777_216;
/// The seconds of a day: times are below this.
pub const DAY: u32 = 86_400;

#[derive(Clone, Copy, PartialEq, Eq, Debug)]
pub struct Line {
    pub from: u16,
    pub kind: u8,
    pub class: u8,
    pub sail: u32,
    pub to: u16,
    /// Seconds since midnight, where the line is timed.
    pub time: Option<u32>,
}

/// Class and sail number together; two boats are the same when both agree.
#[derive(Clone, Copy, PartialEq, Eq, PartialOrd, Ord, Hash, Debug)]
pub struct Boat {
    pub class: u8,
    pub sail: u32,
}

/// Written when the number was not read: it counts as a boat, but no test passes with it.
pub const UNREAD: Boat = Boat { class: 0, sail: 0 };

impl Line {
    pub fn boat(&self) -> Boat {
        Boat {
            class: self.class,
            sail: self.sail,
        }
    }

    /// The same line with a time.
    pub fn at(self, time: u32) -> Line {
        Line {
            time: Some(time),
            ..self
        }
    }

    /// The line's bytes: ten, or with a time fourteen.
    pub fn bytes(&self) -> Vec<u8> {
        let command = if self.time.is_some() { 0x03 } else { 0x02 };
        let mut bytes = vec![command];
        bytes.extend(self.from.to_be_bytes());
        bytes.extend([self.kind, self.class]);
        bytes.extend(&self.sail.to_be_bytes()[1..]);
        bytes.extend(self.to.to_be_bytes());
        bytes.extend(self.time.iter().flat_map(|time| time.to_be_bytes()));
        bytes
    }
}

/// How many bytes a line has that begins with this command; `None` where it begins no line.
pub fn width(command: u8) -> Option<usize> {
    match command {
        0x02 => Some(10),
        0x03 => Some(14),
        _ => None,
    }
}

/// Where the lines of a record begin, as far as one follows the other.
pub fn line_starts(bytes: &[u8]) -> Vec<usize> {
    let mut starts = Vec::new();
    let mut at = 3;
    while let Some(width) = bytes.get(at).and_then(|&command| width(command)) {
        starts.push(at);
        at += width;
    }
    starts
}

/// What a record says.
#[derive(Clone, PartialEq, Eq, Debug)]
pub struct Record {
    pub places: u16,
    pub lines: Vec<Line>,
}

/// The bytes of a record with these places and lines.
pub fn written(places: u16, lines: &[Line]) -> Vec<u8> {
    let mut bytes = vec![0x01];
    bytes.extend(places.to_be_bytes());
    for line in lines {
        bytes.extend(line.bytes());
    }
    bytes.push(0x00);
    bytes
}

/// Questions 1 to 7, 22 and 28, in the order of the walk.
pub fn read_record(bytes: &[u8]) -> Result<Record, u8> {
    if bytes.len() > LONGEST {
        return Err(1);
    }
    if bytes.len() < 3 || bytes[0] != 0x01 {
        return Err(2);
    }
    let places = u16::from_be_bytes([bytes[1], bytes[2]]);
    if !(1..=MOST_PLACES).contains(&places) {
        return Err(2);
    }
    let mut lines = Vec::new();
    let mut at = 3;
    loop {
        let command = *bytes.get(at).ok_or(3)?;
        if command == 0x00 {
            if at + 1 != bytes.len() {
                return Err(7);
            }
            return Ok(Record { places, lines });
        }
        let width = width(command).ok_or(3)?;
        if lines.len() == MOST_LINES {
            return Err(22);
        }
        let line = line_of(bytes.get(at..at + width).ok_or(4)?);
        asked_of_line(&line, places)?;
        lines.push(line);
        at += width;
    }
}

/// The line that these bytes say, of which there are as many as its command wants.
fn line_of(bytes: &[u8]) -> Line {
    let short = |at: usize| u16::from_be_bytes([bytes[at], bytes[at + 1]]);
    let long = |four: &[u8]| u32::from_be_bytes([four[0], four[1], four[2], four[3]]);
    Line {
        from: short(1),
        kind: bytes[3],
        class: bytes[4],
        sail: long(&[0, bytes[5], bytes[6], bytes[7]]),
        to: short(8),
        time: (bytes[0] == 0x03).then(|| long(&bytes[10..])),
    }
}

/// Questions 5, 6 and 28 of a line.
fn asked_of_line(line: &Line, places: u16) -> Result<(), u8> {
    if line.from >= places || line.to >= places {
        return Err(5);
    }
    if !(1..=15).contains(&line.kind) {
        return Err(6);
    }
    if line.time.is_some_and(|time| time >= DAY) {
        return Err(28);
    }
    Ok(())
}

/// Begins a record of so many places: its length and the whole buffer after it.
pub fn begin(buf: &[u8], places: u16) -> Result<(usize, Vec<u8>), u8> {
    if !(1..=MOST_PLACES).contains(&places) {
        return Err(2);
    }
    if buf.len() < 4 {
        return Err(23);
    }
    let mut after = written(places, &[]);
    after.extend(&buf[4..]);
    Ok((4, after))
}

/// Adds a line, timed or not, to the record that is the first `len` bytes of the buffer: the new
/// length and the whole buffer after it.
pub fn add(buf: &[u8], len: usize, line: Line) -> Result<(usize, Vec<u8>), u8> {
    if len > buf.len() {
        return Err(20);
    }
    let record = read_record(&buf[..len])?;
    asked_of_line(&line, record.places)?;
    if line.sail >= SAIL_LIMIT {
        return Err(21);
    }
    if record.lines.len() >= MOST_LINES {
        return Err(22);
    }
    let mut lines = record.lines;
    lines.push(line);
    let mut after = written(record.places, &lines);
    let new_len = after.len();
    if new_len > buf.len() {
        return Err(23);
    }
    after.extend(&buf[new_len..]);
    Ok((new_len, after))
}

/// Reads one line back: the whole record is asked about first, then question 18.
pub fn read_line(bytes: &[u8], number: u16) -> Result<Line, u8> {
    let record = read_record(bytes)?;
    record.lines.get(number as usize).copied().ok_or(18)
}

/// What counting the different boats gives.
#[derive(Clone, Copy, PartialEq, Eq, Debug)]
pub struct Count {
    pub boats: usize,
    /// How many earlier lines were read to tell, those of all lines together.
    pub reads: usize,
}

/// Counts the different boats. For each line the earlier ones are read, from line 0 on, up to the
/// first with the same boat, and that one too; a line that meets none has a boat of its own.
/// Unread numbers agree like any others here, so that together they are one boat.
pub fn count_boats(lines: &[Line]) -> Count {
    let mut count = Count { boats: 0, reads: 0 };
    for (number, line) in lines.iter().enumerate() {
        let mut met = false;
        for earlier in &lines[..number] {
            count.reads += 1;
            if earlier.boat() == line.boat() {
                met = true;
                break;
            }
        }
        if !met {
            count.boats += 1;
        }
    }
    count
}
