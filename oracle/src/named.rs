//! The cases of document 01 that a record can show, each with the lines that
//! must be printed.

use crate::damage::at_the_input_limit;
use crate::fit::Fit;
use crate::play::{play, question_lines, report_lines};
use crate::random::Random;
use crate::record;
use crate::setup::{ABSENT, Setup};

pub struct Named {
    pub name: &'static str,
    pub input: Vec<u8>,
    pub report: &'static str,
    /// The last question raised, where it matters.
    pub question: Option<&'static str>,
}

impl Named {
    /// Whether the original gives what document 01 says.
    pub fn agrees(&self) -> bool {
        let played = play(&self.input);
        let last = |fit: &Fit| question_lines(fit).lines().last().map(str::to_string);
        let question = played.as_ref().ok().and_then(last);
        report_lines(&played) == self.report
            && (self.question.is_none() || question.as_deref() == self.question)
    }
}

/// A setup with defaults in every option.
pub fn plain(x0: &[f64], bounds: Option<[&[f64]; 2]>) -> Setup {
    let words = |floats: &[f64]| floats.iter().map(|value| value.to_bits()).collect::<Vec<u64>>();
    Setup {
        maxcor: 0,
        central: false,
        maxiter: 0,
        maxfev: 0,
        tol: ABSENT,
        ftol: ABSENT,
        gtol: ABSENT,
        eps: ABSENT,
        x0: words(x0),
        bounds: bounds.map(|[lower, upper]| [words(lower), words(upper)]),
    }
}

pub fn input(setup: &Setup, log: &[u64]) -> Vec<u8> {
    record::write(&[setup.words(), log.to_vec()].concat())
}

/// The parabola's setup and replies: f = x²/2, box -8 to 8, start 4.
pub fn parabola() -> (Setup, Vec<u64>) {
    let word = |value: f64| value.to_bits();
    let log = vec![1, word(8.0), 2, word(4.0), 1, word(0.0), 2, word(0.0), 4];
    (plain(&[4.0], Some([&[-8.0], &[8.0]])), log)
}

pub fn cases() -> Vec<Named> {
    let mut cases = whole_fits();
    cases.extend(refused_setups());
    cases.extend(budget_of_one());
    cases.extend(input_lengths());
    cases
}

fn whole_fits() -> Vec<Named> {
    let (setup, log) = parabola();
    let outside = plain(&[5.0], Some([&[0.0], &[2.0]]));
    vec![
        Named {
            name: "the parabola ends at 0",
            input: input(&setup, &log),
            report: "status 1\nnit 1\nnfev 2\nnjev 2\nfun 0000000000000000\n\
                     x 0000000000000000\n",
            question: Some("3 0000000000000000"),
        },
        Named {
            name: "start 5 in 0 to 2 asks first at 2",
            input: input(&outside, &[]),
            report: "refused 15\n",
            question: Some("1 4000000000000000"),
        },
        Named {
            name: "a first reply of NaN",
            input: input(&outside, &[1, ABSENT]),
            report: "status 6\nnit 0\nnfev 1\nnjev 0\nfun 7ff8000000000000\n\
                     x 4000000000000000\n",
            question: None,
        },
    ]
}

fn refused_setups() -> Vec<Named> {
    let infinite = f64::INFINITY;
    let refused = |name, setup: Setup, report| Named {
        name,
        input: input(&setup, &[]),
        report,
        question: None,
    };
    vec![
        refused("empty x0", plain(&[], None), "refused 1\n"),
        refused("empty x0 with a box", plain(&[], Some([&[], &[]])), "refused 1\n"),
        refused("both bounds +inf", plain(&[0.0], Some([&[infinite], &[infinite]])), "refused 6\n"),
        refused("lower 2, upper 1", plain(&[0.0], Some([&[2.0], &[1.0]])), "refused 5\n"),
        refused("n = 64", plain(&[1.0; 64], None), "refused 15\n"),
        refused("n = 65", plain(&[1.0; 65], None), "refused 10\n"),
    ]
}

fn budget_of_one() -> Vec<Named> {
    let log = [1, 0, 3];
    let once = |bounds| Setup { maxfev: 1, ..plain(&[1.0], bounds) };
    let open = once(Some([&[f64::NEG_INFINITY], &[f64::INFINITY]]));
    let spent = "status 4\nnit 0\nnfev 1\nnjev 0\nfun 0000000000000000\nx 3ff0000000000000\n";
    let fixed = "status 1\nnit 0\nnfev 1\nnjev 1\nfun 0000000000000000\nx 3ff0000000000000\n";
    let case = |name, setup: &Setup, report| Named {
        name,
        input: input(setup, &log),
        report,
        question: Some("2 3ff0000000000000"),
    };
    vec![
        case("maxfev 1 in an open box", &open, spent),
        case("maxfev 1 without a box", &once(None), spent),
        case("maxfev 1 with lower = upper", &once(Some([&[1.0], &[1.0]])), fixed),
    ]
}

fn input_lengths() -> Vec<Named> {
    let (setup, log) = parabola();
    let whole = input(&setup, &log);
    let parabola = "status 1\nnit 1\nnfev 2\nnjev 2\nfun 0000000000000000\n\
                    x 0000000000000000\n";
    let mut random = Random::of_case(0, 0);
    vec![
        Named {
            name: "65,536 bytes",
            input: at_the_input_limit(&mut random, &whole, 0),
            report: parabola,
            question: None,
        },
        Named {
            name: "65,537 bytes",
            input: at_the_input_limit(&mut random, &whole, 1),
            report: "refused 17\n",
            question: None,
        },
    ]
}
