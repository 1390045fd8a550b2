//! What became of the pairs in a fit, worked out from its replies: the
//! original keeps them to itself. Only where every gradient was supplied.

use crate::entry::{Kind, Reply};
use crate::fit::Fit;
use crate::record::Record;
use crate::setup::floats;
use itofin_optimize::{Bounds, Model};

const DEFAULT_PAIRS: usize = 10;

#[derive(Debug, Default, Clone, PartialEq, Eq)]
pub struct Pairs {
    /// Held where the fit stands now.
    pub held: u64,
    /// Offered and turned down.
    pub turned_down: u64,
    /// Models that failed and were tried again without pairs.
    pub retried: u64,
}

struct Trace {
    model: Model,
    maxcor: usize,
    bounds: Bounds,
    x: Vec<f64>,
    g: Vec<f64>,
    found: Pairs,
}

/// None where a gradient was differenced or a trial had none.
pub fn pairs(record: &Record, fit: &Fit) -> Option<Pairs> {
    let mut trace = Trace::new(record);
    let mut log = record.log.as_slice();
    let mut gradient = Vec::new();
    for question in &fit.questions {
        let x = floats(&question.point);
        if question.kind == Kind::Notice {
            trace.offer(&x, &gradient);
        }
        let Some((reply, left)) = Reply::read(log, x.len()) else {
            break;
        };
        log = left;
        match reply {
            Reply::NotSupplied => return None,
            Reply::Gradient(words) => {
                gradient = floats(&words);
                if trace.x.is_empty() {
                    trace.hold(&x, &gradient);
                }
            }
            Reply::GoOn => trace.hold(&x, &gradient),
            _ => {}
        }
    }
    Some(trace.finish())
}

impl Trace {
    fn new(record: &Record) -> Self {
        let problem = record.setup.problem();
        let n = problem.x0.len();
        let maxcor = record.setup.options().maxcor.unwrap_or(DEFAULT_PAIRS);
        let bounds = problem.bounds.unwrap_or_else(|| Bounds {
            lower: vec![f64::NEG_INFINITY; n],
            upper: vec![f64::INFINITY; n],
        });
        let model = Model::new(n, maxcor);
        Self { model, maxcor, bounds, x: Vec::new(), g: Vec::new(), found: Pairs::default() }
    }

    /// The point moves: its pair is offered to the model.
    fn offer(&mut self, x: &[f64], g: &[f64]) {
        let minus = |new: &[f64], old: &[f64]| new.iter().zip(old).map(|(a, b)| a - b).collect();
        if !self.model.update(minus(x, &self.x), minus(g, &self.g)) {
            self.found.turned_down += 1;
        }
    }

    /// The next iteration starts here: does the model serve?
    fn hold(&mut self, x: &[f64], g: &[f64]) {
        (self.x, self.g) = (x.to_vec(), g.to_vec());
        let cauchy = self.model.cauchy(x, g, &self.bounds);
        let target = cauchy.and_then(|cauchy| self.model.primal(x, g, cauchy, &self.bounds));
        if target.is_none() && !self.model.pairs().is_empty() {
            self.model = Model::new(x.len(), self.maxcor);
            self.found.retried += 1;
        }
    }

    fn finish(self) -> Pairs {
        Pairs { held: self.model.pairs().len() as u64, ..self.found }
    }
}
