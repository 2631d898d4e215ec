//! Windows of the day (request Seven): for each kind the seconds in which its lines are usable.

use crate::record::{Line, DAY};

/// So many kinds of lines have a window.
pub const KINDS: usize = 15;
/// So many words say the windows of all kinds.
pub const OPTIONS: usize = 2 * KINDS;

/// From the opening second on, up to the closing one, which is outside.
#[derive(Clone, Copy, PartialEq, Eq, Debug)]
pub struct Window {
    pub open: u32,
    pub close: u32,
}

/// From the first second of the day to the last.
pub const WHOLE_DAY: Window = Window {
    open: 0,
    close: DAY,
};

impl Window {
    /// Question 27 of one window.
    pub fn passes(&self) -> bool {
        self.open < self.close && self.close <= DAY
    }

    /// Is a line with this time inside? One without a time is inside the whole day and no other
    /// window.
    pub fn has(&self, time: Option<u32>) -> bool {
        match time {
            Some(time) => self.open <= time && time < self.close,
            None => *self == WHOLE_DAY,
        }
    }
}

/// The windows of kinds 1 to 15.
#[derive(Clone, Copy, PartialEq, Eq, Debug)]
pub struct Windows([Window; KINDS]);

impl Windows {
    /// By a question's options: the opening and the closing second of each kind in turn. A kind
    /// without both has the whole day, and so has every kind where no options are given.
    pub fn of(options: Option<&[u32]>) -> Windows {
        let mut windows = [WHOLE_DAY; KINDS];
        let pairs = options.unwrap_or(&[]).chunks_exact(2);
        for (window, pair) in windows.iter_mut().zip(pairs) {
            *window = Window {
                open: pair[0],
                close: pair[1],
            };
        }
        Windows(windows)
    }

    /// Question 27, of every kind.
    pub fn pass(&self) -> bool {
        self.0.iter().all(Window::passes)
    }

    /// The window of a kind from 1 to 15.
    pub fn of_kind(&self, kind: u8) -> Window {
        self.0[kind as usize - 1]
    }

    /// For each line: is it inside its kind's window?
    pub fn inside(&self, lines: &[Line]) -> Vec<bool> {
        let inside = |line: &Line| self.of_kind(line.kind).has(line.time);
        lines.iter().map(inside).collect()
    }
}
