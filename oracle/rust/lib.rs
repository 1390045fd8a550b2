//! The root of the crate that holds the Rust optimiser. The modules are the
//! original files, laid out beside this one by the build; `global`, `leaves`
//! (in the place of `lbfgsb/tests_driver.rs`) and `meanings` are the oracle's.

#![allow(dead_code, unused_imports)]

mod counters;
mod error;
mod finite_difference;
mod global;
mod lbfgsb;
pub mod meanings;
mod objective;
mod outcome;
mod problem;

pub use error::{InvalidInput, MinimizeError};
pub use finite_difference::FiniteDifference;
pub use objective::{Flow, IterationState, Objective};
pub use outcome::{Converged, Minimize, Termination};
pub use problem::{Bounds, Common, LbfgsbOptions, Method, Problem};

/// The one way an objective here fails.
#[derive(Debug, thiserror::Error)]
pub enum Failure {
    #[error("the reply was a failure")]
    Replied,
}

/// Private functions of the original, reached from `lbfgsb/tests_driver.rs`.
pub struct Leaves;

/// The original's compact matrix, reached in the same way.
pub struct Model {
    compact: lbfgsb::Compact,
}

/// One correction pair of a model.
pub struct HeldPair {
    pub s: Vec<f64>,
    pub y: Vec<f64>,
    pub sy: f64,
}

/// Any objective behind one concrete type, so that every generic function of
/// the original is compiled in this crate, with this crate's flags.
struct Concrete<'a>(&'a mut dyn Objective<Error = Failure>);

impl Objective for Concrete<'_> {
    type Error = Failure;

    fn value(&mut self, x: &[f64]) -> Result<f64, Failure> {
        self.0.value(x)
    }

    fn gradient(&mut self, x: &[f64], out: &mut [f64]) -> Result<bool, Failure> {
        self.0.gradient(x, out)
    }

    fn callback(&mut self, state: &IterationState<'_>) -> Result<Flow, Failure> {
        self.0.callback(state)
    }
}

/// The original's `minimize`.
pub fn minimize(
    objective: &mut dyn Objective<Error = Failure>,
    problem: &Problem,
    options: &LbfgsbOptions,
    common: &Common,
) -> Result<Minimize, MinimizeError<Failure>> {
    lbfgsb::minimize(&mut Concrete(objective), problem, options, common)
}
