//! One round of the random comparison, of each sort. A round gives the replies it saw, to
//! be counted, or says where the two programs differ.

use crate::compare::{self, Searching};
use crate::generator::{
    altered, amount, any_bytes, counted_day, damage_record, dirt, dirty_bytes, dirty_entries,
    list_of_starts, new_line, request, request_of_several, search_len,
};
use crate::library::Library;
use crate::random::Random;
use crate::record::{read_record, written, Line, DAY, LONGEST, MOST_LINES};
use crate::request::{self, fitted, shortest, words, StartsReply};

pub type Replies = Result<Vec<u64>, String>;
pub type Round = fn(&dyn Library, &mut Random) -> Replies;

/// The sorts of rounds, by name.
pub const SORTS: [(&str, Round); 7] = [
    ("bytes", bytes),
    ("writes", writes),
    ("checks", check),
    ("finds", find),
    ("boats", boats),
    ("searches", search),
    ("starts", starts),
];

/// Records and patterns of any bytes: words, one line read back, and the pattern's counts.
pub fn bytes(library: &dyn Library, random: &mut Random) -> Replies {
    let (rec, pat) = any_bytes(random);
    let number = random.pick(&[0, 1, 2, 7, 65_535]);
    let lent = random.pick(&[5, 5, 5, 6, 6, 6, 4, 0, 9]);
    let fields = dirt(random, lent);
    let lent = random.pick(&[2, 2, 1, 0, 3, 5]);
    let counts = dirt(random, lent);
    Ok(vec![
        compare::words(library, &rec, &pat)?,
        compare::read(library, &rec, number, &fields)?,
        compare::pattern(library, &pat, &counts)?,
    ])
}

/// A record begun, lines added to it, and some of them read back.
pub fn writes(library: &dyn Library, random: &mut Random) -> Replies {
    let places = random.pick(&[0, 1, 2, 2, 4, 300, 1_023, 1_024, 1_025, 65_535]);
    let room = random.pick(&[
        0, 3, 4, 5, 13, 14, 15, 17, 18, 19, 24, 28, 32, 33, 34, 44, 60, 64, 74,
    ]);
    let mut buf = dirty_bytes(random, room);
    let reply = compare::begin(library, &buf, places)?;
    let mut replies = vec![reply];
    let mut len = room;
    if reply == 4 {
        buf[..4].copy_from_slice(&written(places, &[]));
        len = 4;
    }
    if random.once_in(100) {
        (buf, len) = nearly_full(random);
    }
    for _ in 0..random.between(1, 6) {
        let line = new_line(random, places.clamp(1, 1_024));
        let claimed = match random.below(10) {
            0 => random.pick(&[len + 1, len.wrapping_sub(1), buf.len(), buf.len() + 1]),
            1 => random.pick(&[usize::MAX, usize::MAX - 9, LONGEST + 1, 3, 0]),
            2 => len.saturating_sub(random.between(1, 15)),
            _ => len,
        };
        if random.once_in(10) {
            damage_record(random, &mut buf);
        }
        let (reply, after) = compare::add(library, &buf, claimed, line)?;
        replies.push(reply);
        buf = after;
        if reply >> 32 == 0 {
            len = reply as usize;
            let lines = read_record(&buf[..len]).map_or(1, |record| record.lines.len());
            let last = lines as u16 - 1;
            let number = random.pick(&[last, last, last.wrapping_sub(1), 0, last + 1]);
            let lent = random.pick(&[5, 5, 6, 6, 8, 4]);
            let fields = dirt(random, lent);
            replies.push(compare::read(library, &buf[..len], number, &fields)?);
        }
    }
    Ok(replies)
}

/// A buffer with a record that is full, or has room for one line, and the record's length. Its lines
/// are untimed, timed, or in turns the one and the other. One in five has a line too many.
fn nearly_full(random: &mut Random) -> (Vec<u8>, usize) {
    let line = Line {
        from: 0,
        kind: 1,
        class: random.byte(),
        sail: random.below(16_777_216) as u32,
        to: 0,
        time: None,
    };
    let timed = line.at(random.below(DAY as usize) as u32);
    let turns = random.pick(&[[line, line], [timed, timed], [line, timed]]);
    let count = MOST_LINES + 1 - random.pick(&[0, 1, 1, 2, 2]);
    let lines: Vec<Line> = turns.into_iter().cycle().take(count).collect();
    let mut buf = written(1, &lines);
    let len = buf.len();
    let more = random.pick(&[0, 9, 10, 11, 13, 14, 15]);
    buf.extend(dirty_bytes(random, more));
    (buf, len)
}

/// One request to the checker.
pub fn check(library: &dyn Library, random: &mut Random) -> Replies {
    let asked = request(random);
    let ask = asked.ask();
    let work = dirt(random, asked.work_len);
    Ok(vec![compare::check(library, ask, &asked.chain, &work)?])
}

/// One request to the finder; a chain that is found is given to the checker too.
pub fn find(library: &dyn Library, random: &mut Random) -> Replies {
    let asked = request(random);
    let ask = asked.ask();
    let first = shortest(ask, asked.work_len);
    let chain = match &first {
        Ok(Some(chain)) => chain.clone(),
        _ => Vec::new(),
    };
    let out = dirty_entries(random, asked.room.entries(chain.len()));
    let work = dirt(random, asked.work_len);
    let expected = fitted(first, out.len());
    let reply = compare::find_against(library, ask, &work, &out, &expected)?;
    if reply >> 32 == 0 && reply == chain.len() as u64 {
        compare::check(library, ask, &chain, &work)?;
    }
    Ok(vec![reply])
}

/// The boats of one record counted; and the words that it needs with a pattern of one keep, which
/// go by the same count.
pub fn boats(library: &dyn Library, random: &mut Random) -> Replies {
    let rec = counted_day(random);
    let lent = random.pick(&[2, 2, 3, 3, 1, 0, 5]);
    let counts = dirt(random, lent);
    Ok(vec![
        compare::boats(library, &rec, &counts)?,
        compare::words(library, &rec, &ONE_KEEP)?,
    ])
}

/// A boat kept, and nothing after it.
const ONE_KEEP: [u8; 4] = [0x27, 1, 0, 0x20];

/// So many moves of 1 at most, before the rest is taken up in one.
const MOST_ONES: usize = 300;

/// A search begun, moved on and finished, with lines added to its record meanwhile; and areas that
/// were altered.
pub fn search(library: &dyn Library, random: &mut Random) -> Replies {
    let asked = request(random);
    let ask = asked.ask();
    let needed = compare::search_words(library, ask.rec, ask.pat)?;
    let finders = words(ask.rec, ask.pat).unwrap_or(0);
    let work_len = match needed >> 32 {
        0 => search_len(random, needed, finders),
        _ => random.below(12_000),
    };
    let work = dirt(random, work_len);
    let (begun, mut search) = Searching::begin(library, ask, &work)?;
    let mut replies = vec![needed, begun];
    if begun != 0 {
        // The area is as it was, and no search is there.
        replies.push(search.altered_move(&work, random.below(9))?);
        return Ok(replies);
    }
    let size = (finders as usize - 8_192) / 4;
    let earlier = search.area().to_vec();
    if random.once_in(5) {
        replies.extend(by_ones(&mut search, size)?);
    }
    for _ in 0..random.below(4) {
        replies.extend(meanwhile(&mut search, random, needed as usize, &earlier)?);
        replies.push(search.moved(amount(random, size))?);
    }
    replies.extend(meanwhile(&mut search, random, needed as usize, &earlier)?);
    let out = dirty_entries(random, asked.room.entries(search.length()));
    replies.push(search.finish(&out)?);
    // Nothing is there any more.
    replies.push(search.finish(&out)?);
    replies.push(search.moved(amount(random, size))?);
    Ok(replies)
}

/// Moves of 1 to the end: of those that take up a state there are at most 2 × size + 2.
fn by_ones(search: &mut Searching, size: usize) -> Replies {
    let mut replies = Vec::new();
    for moves in 0..MOST_ONES {
        let reply = search.moved(1)?;
        replies.push(reply);
        if reply == 0 {
            break;
        }
        if moves >= 2 * size + 2 {
            return Err(search.difference("so many moves of 1 should reach the end"));
        }
    }
    Ok(replies)
}

/// What comes between two calls: nothing; lines that are added; another length of the area, which
/// still has what is needed; and what becomes of a copy that was altered, or that is in part the
/// area as it was earlier.
fn meanwhile(
    search: &mut Searching,
    random: &mut Random,
    needed: usize,
    earlier: &[u32],
) -> Replies {
    let altered = match random.below(16) {
        0 | 1 => {
            let lines = random.between(1, 3);
            return (0..lines)
                .map(|_| search.add(new_line(random, 2)))
                .collect();
        }
        2 => {
            search.lend(needed + random.below(40));
            return Ok(Vec::new());
        }
        3..=6 => altered(random, search.area()),
        7 => {
            let cut = random.below(needed);
            [&search.area()[..cut], &earlier[cut..]].concat()
        }
        _ => return Ok(Vec::new()),
    };
    let amount = random.pick(&[0, 1, 2, 7, usize::MAX]);
    let room = random.pick(&[0, 1, 3, 40]);
    let out = dirty_entries(random, room);
    Ok(vec![
        search.altered_move(&altered, amount)?,
        search.altered_finish(&altered, &out)?,
    ])
}

/// After a list the finder is asked about each place alone, but about one at least, as long as the
/// areas that it is lent have no more words than this in all.
const MOST_LENT: usize = 8_000_000;

/// The lengths from a list of places, asked in one go; and each place alone, put to the finder.
pub fn starts(library: &dyn Library, random: &mut Random) -> Replies {
    let asked = match random.below(2) {
        0 => request(random),
        _ => request_of_several(random),
    };
    let places = read_record(&asked.rec).map_or(4, |record| record.places);
    let starts = list_of_starts(random, places, asked.from);
    let listed = asked.listed(&starts);
    let work = dirt(random, asked.work_len);
    let lengths = dirt(random, asked.room.entries(starts.len()));
    let expected = request::starts(listed, work.len(), lengths.len());
    let mut replies = vec![compare::starts_against(
        library, listed, &work, &lengths, &expected,
    )?];
    if let StartsReply::Lengths(told) = &expected {
        let most = (MOST_LENT / work.len()).max(1);
        replies.extend(compare::starts_alone(library, listed, &work, told, most)?);
    }
    Ok(replies)
}
