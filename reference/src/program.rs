//! The line that the small program prints for its two files.

use crate::request::{find, Ask, FindReply};

/// The program's work area, in words.
pub const WORK: usize = 16_384;
/// The program's output, in entries.
pub const OUT: usize = 2_048;

/// `day` and `ask` are the contents of the two files; a missing file counts as empty.
pub fn answer(day: &[u8], ask: &[u8]) -> String {
    if ask.len() < 4 {
        return "no question".to_string();
    }
    let from = u16::from_be_bytes([ask[0], ask[1]]);
    let to = u16::from_be_bytes([ask[2], ask[3]]);
    let asked = Ask {
        rec: day,
        pat: &ask[4..],
        from,
        to,
        options: None,
    };
    match find(asked, WORK, OUT) {
        FindReply::Found(chain) => {
            let mut text = format!("found {}:", chain.len());
            for number in chain {
                text += &format!(" {number}");
            }
            text
        }
        FindReply::NoChain => "none".to_string(),
        FindReply::Refused(number, _) => format!("refused {number}"),
    }
}
