//! Entries of the log: their kinds, lengths and the questions they suit.

/// A question by the number that document 01 gives it.
#[derive(Debug, Clone, Copy, PartialEq, Eq)]
pub enum Kind {
    Value = 1,
    Gradient = 2,
    Notice = 3,
}

/// A reply, floats as their bits.
#[derive(Debug, Clone, PartialEq, Eq)]
pub enum Reply {
    Value(u64),
    Gradient(Vec<u64>),
    NotSupplied,
    GoOn,
    Stop,
    Failure,
}

/// A kind of entry: the words behind it, where there are n coordinates, and the
/// reply that these are.
struct Row {
    kind: u64,
    words: fn(usize) -> usize,
    reply: fn(&[u64]) -> Reply,
}

const KINDS: [Row; 6] = [
    Row { kind: 1, words: |_| 1, reply: |words| Reply::Value(words[0]) },
    Row { kind: 2, words: |n| n, reply: |words| Reply::Gradient(words.to_vec()) },
    Row { kind: 3, words: |_| 0, reply: |_| Reply::NotSupplied },
    Row { kind: 4, words: |_| 0, reply: |_| Reply::GoOn },
    Row { kind: 5, words: |_| 0, reply: |_| Reply::Stop },
    Row { kind: 6, words: |_| 0, reply: |_| Reply::Failure },
];

impl Reply {
    /// Reads the entry that `log` begins with, and gives the words after it.
    /// None where it is unknown or cut.
    pub fn read(log: &[u64], n: usize) -> Option<(Self, &[u64])> {
        let (&kind, rest) = log.split_first()?;
        let row = KINDS.iter().find(|row| row.kind == kind)?;
        let (words, rest) = rest.split_at_checked((row.words)(n))?;
        Some(((row.reply)(words), rest))
    }

    /// Appends the reply's entry to a log.
    pub fn write(&self, log: &mut Vec<u64>) {
        match self {
            Self::Value(value) => log.extend([1, *value]),
            Self::Gradient(gradient) => {
                log.push(2);
                log.extend(gradient);
            }
            Self::NotSupplied => log.push(3),
            Self::GoOn => log.push(4),
            Self::Stop => log.push(5),
            Self::Failure => log.push(6),
        }
    }

    pub fn suits(&self, question: Kind) -> bool {
        match self {
            Self::Value(_) => question == Kind::Value,
            Self::Gradient(_) | Self::NotSupplied => question == Kind::Gradient,
            Self::GoOn | Self::Stop => question == Kind::Notice,
            Self::Failure => true,
        }
    }
}
