//! The original replaying replies from memory.

use crate::bench_fits::Fit;
use itofin_optimize::{
    Common, Failure, Flow, IterationState, LbfgsbOptions, Objective, Problem, minimize,
};
use oracle::entry::Reply;
use oracle::setup::floats;

enum Answer {
    Value(f64),
    Gradient(Vec<f64>),
    NotSupplied,
    GoOn,
}

/// A fit's replies in the original's types, handed out in sequence.
struct Replies {
    answers: Vec<Answer>,
    next: usize,
}

impl Replies {
    fn next(&mut self) -> &Answer {
        self.next += 1;
        &self.answers[self.next - 1]
    }
}

impl Objective for Replies {
    type Error = Failure;

    fn value(&mut self, _x: &[f64]) -> Result<f64, Failure> {
        let Answer::Value(value) = self.next() else { return Err(Failure::Replied) };
        Ok(*value)
    }

    fn gradient(&mut self, _x: &[f64], out: &mut [f64]) -> Result<bool, Failure> {
        match self.next() {
            Answer::Gradient(gradient) => {
                out.copy_from_slice(gradient);
                Ok(true)
            }
            Answer::NotSupplied => Ok(false),
            _ => Err(Failure::Replied),
        }
    }

    fn callback(&mut self, _state: &IterationState<'_>) -> Result<Flow, Failure> {
        let Answer::GoOn = self.next() else { return Err(Failure::Replied) };
        Ok(Flow::Continue)
    }
}

/// A fit as the original takes it.
pub struct Memory {
    problem: Problem,
    options: LbfgsbOptions,
    common: Common,
    replies: Replies,
}

impl Memory {
    pub fn of(fit: &Fit) -> Self {
        let mut answers = Vec::new();
        let mut left = fit.log.as_slice();
        while let Some((reply, rest)) = Reply::read(left, fit.setup.n()) {
            answers.push(match reply {
                Reply::Value(word) => Answer::Value(f64::from_bits(word)),
                Reply::Gradient(words) => Answer::Gradient(floats(&words)),
                Reply::NotSupplied => Answer::NotSupplied,
                Reply::GoOn => Answer::GoOn,
                other => unreachable!("{other:?} in a complete fit"),
            });
            left = rest;
        }
        Self {
            problem: fit.setup.problem(),
            options: fit.setup.options(),
            common: fit.setup.common(),
            replies: Replies { answers, next: 0 },
        }
    }

    /// Runs the fit to its end and gives the point.
    pub fn run(&mut self) -> Vec<f64> {
        self.replies.next = 0;
        let ended = minimize(&mut self.replies, &self.problem, &self.options, &self.common);
        ended.expect("no reply is a failure").x
    }

    /// Whether the last run used every reply.
    pub fn is_spent(&self) -> bool {
        self.replies.next == self.replies.answers.len()
    }
}
