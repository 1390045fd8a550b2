//! A fit's setup: its words in a record, its checks, and the original's types.

use crate::refusal::{Refusal, of_invalid_input};
use itofin_optimize::{Bounds, Common, FiniteDifference, LbfgsbOptions, Method, Problem};

/// The word that stands for an absent tolerance or difference step.
pub const ABSENT: u64 = 0x7FF8_0000_0000_0000;
/// Words of a setup ahead of the start.
pub const HEAD_WORDS: usize = 7;
const MAX_COORDINATES: usize = 64;
const MAX_PAIRS: u8 = 16;
const MAX_BUDGET: u64 = 1_000_000;
const CUT_OR_SPARE: Refusal = Refusal::plain(17);

/// The setup as a record has it, every float as its bits.
#[derive(Debug, Clone, PartialEq, Eq)]
pub struct Setup {
    pub maxcor: u8,
    pub central: bool,
    pub maxiter: u64,
    pub maxfev: u64,
    pub tol: u64,
    pub ftol: u64,
    pub gtol: u64,
    pub eps: u64,
    pub x0: Vec<u64>,
    /// Lower and upper ends, where there is a box.
    pub bounds: Option<[Vec<u64>; 2]>,
}

impl Setup {
    pub fn n(&self) -> usize {
        self.x0.len()
    }

    /// Reads the setup that `words` begin with, and gives the words after it.
    pub fn read(words: &[u64]) -> Result<(Self, &[u64]), Refusal> {
        let first = words.first().ok_or(CUT_OR_SPARE)?;
        let [n, maxcor, flags, spare @ ..] = first.to_le_bytes();
        if flags > 3 || spare != [0; 5] {
            return Err(CUT_OR_SPARE);
        }
        let n = usize::from(n);
        let boxed = flags & 1 == 1;
        let length = HEAD_WORDS + n * if boxed { 3 } else { 1 };
        if words.len() < length {
            return Err(CUT_OR_SPARE);
        }
        let (own, log) = words.split_at(length);
        let part = |k: usize| own[HEAD_WORDS + k * n..HEAD_WORDS + (k + 1) * n].to_vec();
        let setup = Self {
            maxcor,
            central: flags & 2 == 2,
            maxiter: own[1],
            maxfev: own[2],
            tol: own[3],
            ftol: own[4],
            gtol: own[5],
            eps: own[6],
            x0: part(0),
            bounds: boxed.then(|| [part(1), part(2)]),
        };
        Ok((setup, log))
    }

    /// The setup's words, in the order of a record.
    pub fn words(&self) -> Vec<u64> {
        let flags = u64::from(self.bounds.is_some()) | u64::from(self.central) << 1;
        let first = self.n() as u64 | u64::from(self.maxcor) << 8 | flags << 16;
        let head = [first, self.maxiter, self.maxfev, self.tol, self.ftol, self.gtol, self.eps];
        let sides = self.bounds.iter().flatten().flatten();
        head.iter().chain(&self.x0).chain(sides).copied().collect()
    }

    /// The setup rows of document 01: the original's three checks, then 10.
    pub fn check(&self) -> Result<(), Refusal> {
        let problem = self.problem();
        let method = Method::Lbfgsb(self.options());
        problem
            .validate()
            .and_then(|()| self.common().validate())
            .and_then(|()| method.validate(&problem))
            .map_err(of_invalid_input)?;
        let over = [
            self.n() > MAX_COORDINATES,
            self.maxcor > MAX_PAIRS,
            self.maxiter > MAX_BUDGET,
            self.maxfev > MAX_BUDGET,
        ];
        match over.iter().position(|&limit| limit) {
            Some(limit) => Err(Refusal::with(10, limit as u64 + 1)),
            None => Ok(()),
        }
    }

    pub fn problem(&self) -> Problem {
        let bounds = self
            .bounds
            .as_ref()
            .map(|[lower, upper]| Bounds { lower: floats(lower), upper: floats(upper) });
        Problem { x0: floats(&self.x0), bounds }
    }

    pub fn common(&self) -> Common {
        Common { maxiter: count(self.maxiter), maxfev: count(self.maxfev), tol: option(self.tol) }
    }

    pub fn options(&self) -> LbfgsbOptions {
        LbfgsbOptions {
            ftol: option(self.ftol),
            gtol: option(self.gtol),
            maxcor: count(u64::from(self.maxcor)),
            eps: option(self.eps),
            finite_difference: if self.central {
                FiniteDifference::Central
            } else {
                FiniteDifference::Forward
            },
        }
    }
}

pub fn floats(words: &[u64]) -> Vec<f64> {
    words.iter().map(|&word| f64::from_bits(word)).collect()
}

fn count(word: u64) -> Option<usize> {
    (word != 0).then_some(word as usize)
}

fn option(word: u64) -> Option<f64> {
    (word != ABSENT).then_some(f64::from_bits(word))
}
