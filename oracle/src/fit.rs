//! A fit by the original, as questions and replies, and its report.

use crate::entry::{Kind, Reply};
use crate::setup::{ABSENT, Setup};
use itofin_optimize::{
    Converged, Failure, Flow, IterationState, Minimize, Objective, Termination, minimize,
};

/// What comes back to a question.
pub enum Turn {
    Reply(Reply),
    /// There is no reply: the fit stays at this question.
    Open,
    /// The log's next entry is unknown, cut or not due here.
    Refused,
}

/// Whoever replies to the questions.
pub trait Respondent {
    fn reply(&mut self, question: Kind, point: &[f64]) -> Turn;
}

#[derive(Debug, Clone, PartialEq, Eq)]
pub struct Question {
    pub kind: Kind,
    pub point: Vec<u64>,
}

/// A fit as far as its replies took it.
pub struct Fit {
    pub questions: Vec<Question>,
    /// The question left without a reply.
    pub open: Option<Kind>,
    pub refused: bool,
    /// None after a failure or a refusal.
    outcome: Option<Minimize>,
}

#[derive(Debug, Clone, PartialEq, Eq)]
pub struct Report {
    pub status: u64,
    pub nit: u64,
    pub nfev: u64,
    pub njev: u64,
    pub value: u64,
    pub point: Vec<u64>,
}

struct Conversation<'a> {
    respondent: &'a mut dyn Respondent,
    questions: Vec<Question>,
    open: Option<Kind>,
    refused: bool,
}

impl Conversation<'_> {
    /// The reply to a question, or none where it stays open.
    fn ask(&mut self, kind: Kind, x: &[f64]) -> Result<Option<Reply>, Failure> {
        let point = x.iter().map(|xi| xi.to_bits()).collect();
        self.questions.push(Question { kind, point });
        match self.respondent.reply(kind, x) {
            Turn::Reply(Reply::Failure) => Err(Failure::Replied),
            Turn::Reply(reply) => Ok(Some(reply)),
            Turn::Open => {
                self.open = Some(kind);
                Ok(None)
            }
            Turn::Refused => {
                self.refused = true;
                Err(Failure::Replied)
            }
        }
    }
}

/// An open question is closed by what ends the run and moves nothing: a value
/// of NaN, a gradient of NaNs, a stop.
impl Objective for Conversation<'_> {
    type Error = Failure;

    fn value(&mut self, x: &[f64]) -> Result<f64, Failure> {
        match self.ask(Kind::Value, x)? {
            Some(Reply::Value(word)) => Ok(f64::from_bits(word)),
            None => Ok(f64::NAN),
            Some(other) => unreachable!("{other:?} to a value question"),
        }
    }

    fn gradient(&mut self, x: &[f64], out: &mut [f64]) -> Result<bool, Failure> {
        match self.ask(Kind::Gradient, x)? {
            Some(Reply::Gradient(words)) => {
                let replied = words.iter().map(|&word| f64::from_bits(word));
                out.iter_mut().zip(replied).for_each(|(place, entry)| *place = entry);
                Ok(true)
            }
            Some(Reply::NotSupplied) => Ok(false),
            None => {
                out.fill(f64::NAN);
                Ok(true)
            }
            Some(other) => unreachable!("{other:?} to a gradient question"),
        }
    }

    fn callback(&mut self, state: &IterationState<'_>) -> Result<Flow, Failure> {
        match self.ask(Kind::Notice, state.x)? {
            Some(Reply::GoOn) => Ok(Flow::Continue),
            Some(Reply::Stop) | None => Ok(Flow::Stop),
            Some(other) => unreachable!("{other:?} to a notice"),
        }
    }
}

/// Runs the original on a checked setup until its end, a failure, or a
/// question that stays open.
pub fn run(setup: &Setup, respondent: &mut dyn Respondent) -> Fit {
    let mut conversation =
        Conversation { respondent, questions: Vec::new(), open: None, refused: false };
    let ended = minimize(&mut conversation, &setup.problem(), &setup.options(), &setup.common());
    let Conversation { questions, open, refused, .. } = conversation;
    Fit { questions, open, refused, outcome: ended.ok() }
}

impl Fit {
    /// The report, or none where document 01 refuses it by 15.
    pub fn report(&self) -> Option<Report> {
        let outcome = self.outcome.as_ref()?;
        if self.open.is_some() && self.questions.len() == 1 {
            return None;
        }
        let open_gradient = self.open == Some(Kind::Gradient);
        Some(Report {
            status: if self.open.is_some() { 0 } else { status(outcome.status) },
            nit: outcome.nit as u64,
            nfev: outcome.nfev as u64,
            njev: outcome.njev as u64 - u64::from(open_gradient),
            value: one_nan(outcome.fun),
            point: outcome.x.iter().copied().map(one_nan).collect(),
        })
    }
}

fn status(termination: Termination) -> u64 {
    match termination {
        Termination::Converged(Converged::GTol) => 1,
        Termination::Converged(Converged::FTol) => 2,
        Termination::MaxIterations => 3,
        Termination::MaxEvaluations => 4,
        Termination::Cancelled => 5,
        Termination::Nonfinite => 6,
        Termination::LineSearchFailed => 7,
        other => unreachable!("not a status of this method: {other:?}"),
    }
}

/// A float's bits, every NaN as the same one.
fn one_nan(value: f64) -> u64 {
    if value.is_nan() { ABSENT } else { value.to_bits() }
}
