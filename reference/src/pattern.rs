//! Patterns: bytes to a tree, or the number of the refused question.

/// A pattern has at most this many commands, as written, and its unfolded count is at most this.
pub const MOST_COMMANDS: usize = 63;
/// Keeps nest at most this deep.
pub const DEEPEST: usize = 3;
/// No highest count of rounds is above this.
pub const MOST_ROUNDS: u8 = 20;

/// The commands that compare a line's boat with a slot's.
#[derive(Clone, Copy, PartialEq, Eq, Debug)]
pub enum Rule {
    /// 22: the slot's boat.
    Same,
    /// 23: another boat.
    Other,
    /// 28: another boat of the slot's class.
    Sister,
    /// 29: a boat of another class.
    Foreign,
}

impl Rule {
    pub fn of(command: u8) -> Option<Rule> {
        match command {
            0x22 => Some(Rule::Same),
            0x23 => Some(Rule::Other),
            0x28 => Some(Rule::Sister),
            0x29 => Some(Rule::Foreign),
            _ => None,
        }
    }
}

#[derive(Clone, PartialEq, Eq, Debug)]
pub enum Node {
    Nothing,
    Line {
        kind: u8,
    },
    Test {
        rule: Rule,
        kind: u8,
        slot: u8,
    },
    Either(Box<Node>, Box<Node>),
    Then(Box<Node>, Box<Node>),
    Repeat(Box<Node>),
    Keep {
        kind: u8,
        slot: u8,
        inner: Box<Node>,
    },
    /// 2A: from so many to so many rounds in a row.
    Counted {
        lowest: u8,
        highest: u8,
        inner: Box<Node>,
    },
}

impl Node {
    /// Its unfolded count: what is counted counts as often as it may come. It can be far above
    /// every number of a machine, and then is the highest one; no rounds of it are still none.
    pub fn unfolded(&self) -> u128 {
        let inside = match self {
            Node::Nothing | Node::Line { .. } | Node::Test { .. } => 0,
            Node::Either(one, two) | Node::Then(one, two) => {
                one.unfolded().saturating_add(two.unfolded())
            }
            Node::Repeat(inner) | Node::Keep { inner, .. } => inner.unfolded(),
            Node::Counted { highest, inner, .. } => {
                inner.unfolded().saturating_mul(*highest as u128)
            }
        };
        inside.saturating_add(1)
    }
}

#[derive(Clone, PartialEq, Eq, Debug)]
pub struct Pattern {
    pub root: Node,
    /// How many commands it has, as written.
    pub commands: usize,
    /// Its unfolded count.
    pub unfolded: usize,
    /// The deepest nesting of keeps.
    pub keeps: usize,
}

/// Questions 8 to 13 and 24 of each command in byte order, then 14 and 25.
pub fn read_pattern(bytes: &[u8]) -> Result<Pattern, u8> {
    let mut reader = Reader {
        bytes,
        at: 0,
        commands: 0,
        keeps: 0,
    };
    let root = reader.node(&[])?;
    if reader.at != bytes.len() {
        return Err(14);
    }
    let unfolded = root.unfolded();
    if unfolded > MOST_COMMANDS as u128 {
        return Err(25);
    }
    Ok(Pattern {
        root,
        commands: reader.commands,
        unfolded: unfolded as usize,
        keeps: reader.keeps,
    })
}

struct Reader<'a> {
    bytes: &'a [u8],
    at: usize,
    commands: usize,
    keeps: usize,
}

impl Reader<'_> {
    /// One pattern, inside keeps of the slots `around`, the outermost first.
    fn node(&mut self, around: &[u8]) -> Result<Node, u8> {
        let Some(&command) = self.bytes.get(self.at) else {
            return Err(8);
        };
        if !(0x20..=0x2A).contains(&command) {
            return Err(8);
        }
        self.commands += 1;
        if self.commands > MOST_COMMANDS {
            return Err(9);
        }
        let width = match command {
            0x21 => 1,
            0x22 | 0x23 | 0x27..=0x2A => 2,
            _ => 0,
        };
        let first = self.at + 1;
        let Some(operands) = self.bytes.get(first..first + width) else {
            return Err(10);
        };
        self.at = first + width;
        if command == 0x2A {
            let (lowest, highest) = (operands[0], operands[1]);
            if lowest > highest || highest > MOST_ROUNDS {
                return Err(24);
            }
            return Ok(Node::Counted {
                lowest,
                highest,
                inner: Box::new(self.node(around)?),
            });
        }
        if width >= 1 && !(1..=15).contains(&operands[0]) {
            return Err(11);
        }
        if width >= 2 && operands[1] > 3 {
            return Err(11);
        }
        if let Some(rule) = Rule::of(command) {
            let (kind, slot) = (operands[0], operands[1]);
            if !around.contains(&slot) {
                return Err(12);
            }
            return Ok(Node::Test { rule, kind, slot });
        }
        match command {
            0x20 => Ok(Node::Nothing),
            0x21 => Ok(Node::Line { kind: operands[0] }),
            0x24 => {
                let one = self.node(around)?;
                let two = self.node(around)?;
                Ok(Node::Either(Box::new(one), Box::new(two)))
            }
            0x25 => {
                let first = self.node(around)?;
                let second = self.node(around)?;
                Ok(Node::Then(Box::new(first), Box::new(second)))
            }
            0x26 => Ok(Node::Repeat(Box::new(self.node(around)?))),
            _ => {
                let (kind, slot) = (operands[0], operands[1]);
                let mut inside = around.to_vec();
                inside.push(slot);
                if inside.len() > DEEPEST {
                    return Err(13);
                }
                self.keeps = self.keeps.max(inside.len());
                let inner = Box::new(self.node(&inside)?);
                Ok(Node::Keep { kind, slot, inner })
            }
        }
    }
}
