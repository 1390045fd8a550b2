//! Real functions to minimise. Sums, products, quotients and square roots
//! only, so that a seed gives the same bytes on every machine.

use crate::floats::{magnitude, moderate, positive, power_of_two};
use crate::random::Random;

pub enum Shape {
    /// Half the sum of scale times squared distance.
    Diagonal {
        scale: Vec<f64>,
        centre: Vec<f64>,
    },
    /// Half the squared length of a matrix times the distance.
    Dense {
        rows: Vec<Vec<f64>>,
        centre: Vec<f64>,
    },
    /// Rosenbrock's valley, chained.
    Valley {
        steep: f64,
    },
    /// The sum of scale times distance, with a corner at the centre.
    Absolute {
        scale: Vec<f64>,
        centre: Vec<f64>,
    },
    /// The sum of scale times the fourth power of the distance.
    Quartic {
        scale: Vec<f64>,
        centre: Vec<f64>,
    },
    /// Growth (1 + x/1024)^1024 less a line.
    Exponential {
        rate: Vec<f64>,
    },
    Linear {
        slope: Vec<f64>,
    },
    Constant(f64),
    /// x / (1 + |x|) for each coordinate: ever flatter, with no minimum.
    Flattening {
        sign: Vec<f64>,
    },
    /// The sum of square roots of 1 + squared distance.
    Rounded {
        centre: Vec<f64>,
    },
    /// A quadratic that jumps up past a line.
    Jump {
        slope: Vec<f64>,
        edge: f64,
    },
}

pub fn shape(random: &mut Random, n: usize) -> Shape {
    let scale = |random: &mut Random| (0..n).map(|_| positive(random)).collect::<Vec<f64>>();
    let centre = |random: &mut Random| (0..n).map(|_| moderate(random)).collect::<Vec<f64>>();
    match random.below(20) {
        0 | 1 => Shape::Diagonal { scale: scale(random), centre: centre(random) },
        2 | 3 => Shape::Diagonal { scale: uneven(random, n), centre: centre(random) },
        4..=7 => Shape::Dense { rows: matrix(random, n), centre: centre(random) },
        8..=11 => Shape::Valley { steep: random.pick(&[1.0, 10.0, 100.0]) },
        12 => Shape::Absolute { scale: scale(random), centre: centre(random) },
        13 | 14 => Shape::Quartic { scale: scale(random), centre: centre(random) },
        15 => Shape::Exponential { rate: centre(random) },
        16 => Shape::Linear { slope: centre(random) },
        17 if random.percent(40) => Shape::Constant(moderate(random)),
        17 => Shape::Rounded { centre: centre(random) },
        18 => Shape::Flattening { sign: (0..n).map(|_| random.pick(&[-1.0, 1.0])).collect() },
        _ => Shape::Jump { slope: centre(random), edge: moderate(random) },
    }
}

/// Scales that differ by many powers of two.
fn uneven(random: &mut Random, n: usize) -> Vec<f64> {
    let reach = random.pick(&[10, 20, 40]);
    (0..n).map(|_| magnitude(random, reach)).collect()
}

fn matrix(random: &mut Random, n: usize) -> Vec<Vec<f64>> {
    let dense = random.percent(50);
    let row = |random: &mut Random, i: usize| {
        let entry = |random: &mut Random, j: usize| match i.abs_diff(j) {
            0 => positive(random),
            1 => moderate(random) / 4.0,
            _ if dense => moderate(random) / 16.0,
            _ => 0.0,
        };
        (0..n).map(|j| entry(random, j)).collect()
    };
    (0..n).map(|i| row(random, i)).collect()
}

impl Shape {
    pub fn value(&self, x: &[f64]) -> f64 {
        match self {
            Self::Diagonal { scale, centre } => {
                sum(x.len(), |i| 0.5 * scale[i] * (x[i] - centre[i]) * (x[i] - centre[i]))
            }
            Self::Dense { rows, centre } => sum(x.len(), |i| {
                let image = image(&rows[i], x, centre);
                0.5 * image * image
            }),
            Self::Valley { steep } => sum(x.len(), |i| valley(*steep, x, i)),
            Self::Absolute { scale, centre } => {
                sum(x.len(), |i| scale[i] * (x[i] - centre[i]).abs())
            }
            Self::Quartic { scale, centre } => sum(x.len(), |i| {
                let square = (x[i] - centre[i]) * (x[i] - centre[i]);
                scale[i] * square * square
            }),
            Self::Exponential { rate } => {
                sum(x.len(), |i| growth(rate[i] * x[i]) - 0.5 * rate[i] * x[i])
            }
            Self::Linear { slope } => sum(x.len(), |i| slope[i] * x[i]),
            Self::Constant(value) => *value,
            Self::Flattening { sign } => sum(x.len(), |i| sign[i] * x[i] / (1.0 + x[i].abs())),
            Self::Rounded { centre } => sum(x.len(), |i| root(x[i] - centre[i])),
            Self::Jump { slope, edge } => jump(slope, *edge, x),
        }
    }

    pub fn gradient(&self, x: &[f64]) -> Vec<f64> {
        (0..x.len()).map(|i| self.partial(x, i)).collect()
    }

    fn partial(&self, x: &[f64], i: usize) -> f64 {
        match self {
            Self::Diagonal { scale, centre } => scale[i] * (x[i] - centre[i]),
            Self::Dense { rows, centre } => {
                sum(x.len(), |k| rows[k][i] * image(&rows[k], x, centre))
            }
            Self::Valley { steep } => valley_partial(*steep, x, i),
            Self::Absolute { scale, centre } => {
                let offset = x[i] - centre[i];
                if offset == 0.0 { 0.0 } else { scale[i] * offset.signum() }
            }
            Self::Quartic { scale, centre } => {
                let offset = x[i] - centre[i];
                4.0 * scale[i] * offset * offset * offset
            }
            Self::Exponential { rate } => {
                rate[i] * growth(rate[i] * x[i]) / (1.0 + rate[i] * x[i] / 1024.0) - 0.5 * rate[i]
            }
            Self::Linear { slope } => slope[i],
            Self::Constant(_) => 0.0,
            Self::Flattening { sign } => {
                let flat = 1.0 + x[i].abs();
                sign[i] / (flat * flat)
            }
            Self::Rounded { centre } => (x[i] - centre[i]) / root(x[i] - centre[i]),
            Self::Jump { slope, .. } => slope[i] + power_of_two(-6) * x[i],
        }
    }
}

fn sum(n: usize, term: impl Fn(usize) -> f64) -> f64 {
    (0..n).fold(0.0, |total, i| total + term(i))
}

fn image(row: &[f64], x: &[f64], centre: &[f64]) -> f64 {
    sum(x.len(), |j| row[j] * (x[j] - centre[j]))
}

/// One link of the valley; the last coordinate has only its own part.
fn valley(steep: f64, x: &[f64], i: usize) -> f64 {
    let own = (1.0 - x[i]) * (1.0 - x[i]);
    match x.get(i + 1) {
        Some(next) => own + steep * (next - x[i] * x[i]) * (next - x[i] * x[i]),
        None => own,
    }
}

fn valley_partial(steep: f64, x: &[f64], i: usize) -> f64 {
    let own = -2.0 * (1.0 - x[i]);
    let ahead = x.get(i + 1).map_or(0.0, |next| -4.0 * steep * x[i] * (next - x[i] * x[i]));
    let behind = if i == 0 { 0.0 } else { 2.0 * steep * (x[i] - x[i - 1] * x[i - 1]) };
    own + ahead + behind
}

/// (1 + t/1024)^1024 by ten squarings.
fn growth(t: f64) -> f64 {
    (0..10).fold(1.0 + t / 1024.0, |power, _| power * power)
}

fn root(offset: f64) -> f64 {
    (1.0 + offset * offset).sqrt()
}

fn jump(slope: &[f64], edge: f64, x: &[f64]) -> f64 {
    let smooth = sum(x.len(), |i| slope[i] * x[i] + 0.5 * power_of_two(-6) * x[i] * x[i]);
    if x[0] > edge { smooth + 3.0 } else { smooth }
}
