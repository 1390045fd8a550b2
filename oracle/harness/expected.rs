//! What the entry must answer, by the original.

use oracle::fit::{Fit, Question};
use oracle::refusal::Refusal;

const TOO_SHORT: u64 = 119;

/// The number that the entry returns, and the bytes that it writes.
#[derive(Debug, Clone, PartialEq, Eq)]
pub struct Expected {
    pub number: u64,
    pub point: Vec<u8>,
}

impl Expected {
    /// The answer to a whole record.
    pub fn of(played: &Result<Fit, Refusal>) -> Self {
        match played {
            Err(refusal) => Self { number: 100 + refusal.number, point: Vec::new() },
            Ok(fit) => match (fit.open, fit.questions.last()) {
                (Some(_), Some(question)) => Self::asked(question),
                _ => Self::ended(fit),
            },
        }
    }

    /// The answer where this question is the open one.
    pub fn asked(question: &Question) -> Self {
        Self { number: question.kind as u64, point: bytes(&question.point) }
    }

    /// The held point, and nothing where the objective failed.
    fn ended(fit: &Fit) -> Self {
        Self { number: 0, point: fit.report().map_or(Vec::new(), |report| bytes(&report.point)) }
    }

    /// The answer into an output slice of `room` bytes.
    pub fn within(&self, room: usize) -> Self {
        if self.point.len() <= room {
            return self.clone();
        }
        Self { number: TOO_SHORT, point: Vec::new() }
    }
}

fn bytes(words: &[u64]) -> Vec<u8> {
    words.iter().flat_map(|word| word.to_le_bytes()).collect()
}
