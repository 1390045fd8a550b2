//! Document 01's refusals: a number with two details, 0 where unnamed.

use itofin_optimize::InvalidInput;

#[derive(Debug, Clone, Copy, PartialEq, Eq)]
pub struct Refusal {
    pub number: u64,
    pub details: [u64; 2],
}

impl Refusal {
    pub const fn plain(number: u64) -> Self {
        Self { number, details: [0, 0] }
    }

    pub const fn with(number: u64, detail: u64) -> Self {
        Self { number, details: [detail, 0] }
    }
}

/// The number and details of what the original's `validate` functions reject.
pub fn of_invalid_input(found: InvalidInput) -> Refusal {
    match found {
        InvalidInput::EmptyX0 => Refusal::plain(1),
        InvalidInput::NonfiniteX0 { index } => Refusal::with(2, index as u64),
        InvalidInput::BoundsLength { expected, found } => {
            Refusal { number: 3, details: [expected as u64, found as u64] }
        }
        InvalidInput::NanBound { index } => Refusal::with(4, index as u64),
        InvalidInput::BoundsOrder { index } => Refusal::with(5, index as u64),
        InvalidInput::InfeasibleBound { index } => Refusal::with(6, index as u64),
        InvalidInput::NotPositive { option } => Refusal::with(7, place(option)),
        InvalidInput::NotFinitePositive { option } => Refusal::with(8, place(option)),
        InvalidInput::NotFiniteNonnegative { option } => Refusal::with(9, place(option)),
        other => unreachable!("not a rule of this method: {other:?}"),
    }
}

/// Which of the options a refusal 7, 8 or 9 speaks of.
fn place(option: &str) -> u64 {
    match option {
        "maxiter" | "tol" | "ftol" => 1,
        "maxfev" | "eps" | "gtol" => 2,
        "maxcor" => 3,
        other => unreachable!("not an option of this method: {other}"),
    }
}
