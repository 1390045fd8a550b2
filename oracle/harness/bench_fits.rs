//! Complete fits of real functions, as records.

use oracle::entry::{Kind, Reply};
use oracle::fit::{self, Respondent, Turn};
use oracle::random::Random;
use oracle::record::{self, INPUT_LIMIT};
use oracle::respond::Recorder;
use oracle::setup::{ABSENT, Setup};
use oracle::shapes::Shape;

const TRAILER_WORDS: usize = 4;

/// A fit that ran to its end.
pub struct Fit {
    pub setup: Setup,
    pub log: Vec<u64>,
    pub record: Vec<u8>,
    pub replies: usize,
    pub iterations: usize,
}

/// A function's own replies.
struct Function {
    shape: Shape,
    supplied: bool,
}

impl Respondent for Function {
    fn reply(&mut self, question: Kind, point: &[f64]) -> Turn {
        Turn::Reply(match question {
            Kind::Value => Reply::Value(self.shape.value(point).to_bits()),
            Kind::Gradient if self.supplied => {
                let gradient = self.shape.gradient(point);
                Reply::Gradient(gradient.iter().map(|entry| entry.to_bits()).collect())
            }
            Kind::Gradient => Reply::NotSupplied,
            Kind::Notice => Reply::GoOn,
        })
    }
}

/// The fits of a row: each function without a box and in one, where the pairs
/// fill and the oldest go.
pub fn fits(n: usize, maxcor: u8, supplied: bool) -> Vec<Fit> {
    let mut fits = Vec::new();
    for boxed in [false, true] {
        for (shape, start) in shapes(n) {
            let setup = setup(n, maxcor, start, boxed);
            fits.push(complete(setup, Function { shape, supplied }));
        }
    }
    fits.retain(|fit| fit.iterations > usize::from(maxcor));
    fits
}

/// Functions that take many iterations, with their starts.
fn shapes(n: usize) -> Vec<(Shape, f64)> {
    let mut random = Random::of_case(1, n as u64);
    let mut unit = || random.unit();
    let rows: Vec<Vec<f64>> = (0..n)
        .map(|i| (0..n).map(|j| unit() / 4.0 + if i == j { 1.0 + i as f64 } else { 0.0 }).collect())
        .collect();
    let centre: Vec<f64> = (0..n).map(|_| 2.0 * unit() - 1.0).collect();
    let scale: Vec<f64> = (0..n).map(|i| 1.0 + (i * i) as f64).collect();
    vec![
        (Shape::Valley { steep: 100.0 }, -1.2),
        (Shape::Valley { steep: 10.0 }, -1.2),
        (Shape::Valley { steep: 1e4 }, -1.2),
        (Shape::Dense { rows, centre: centre.clone() }, 1.5),
        (Shape::Quartic { scale: scale.clone(), centre: centre.clone() }, 1.5),
        (Shape::Diagonal { scale, centre }, 1.5),
    ]
}

/// Tight tolerances; in the box every third coordinate ends at a bound.
fn setup(n: usize, maxcor: u8, start: f64, boxed: bool) -> Setup {
    let lower = vec![(-4.0_f64).to_bits(); n];
    let upper = (0..n).map(|i| if i % 3 == 2 { -1.0_f64 } else { 4.0 }.to_bits()).collect();
    Setup {
        maxcor,
        central: false,
        maxiter: 0,
        maxfev: 0,
        tol: ABSENT,
        ftol: 0,
        gtol: 1e-9_f64.to_bits(),
        eps: ABSENT,
        x0: vec![start.to_bits(); n],
        bounds: boxed.then_some([lower, upper]),
    }
}

/// The fit to its end. One that does not end within the longest record is
/// given as many iterations as fit.
fn complete(mut setup: Setup, mut function: Function) -> Fit {
    let room = INPUT_LIMIT / 8 - TRAILER_WORDS - setup.words().len();
    loop {
        let mut recorder = Recorder::new(&mut function, None, room);
        let fit = fit::run(&setup, &mut recorder);
        let (log, replies) = (recorder.log, recorder.starts.len());
        let iterations = fit.report().expect("a value was replied").nit as usize;
        if fit.open.is_none() {
            let record = record::write(&[setup.words(), log.clone()].concat());
            return Fit { setup, log, record, replies, iterations };
        }
        setup.maxiter = iterations as u64;
    }
}
