//! Replies chosen to meet the corners of the step search, the Cauchy point and
//! the pairs. It follows the fit only by its questions.

use crate::entry::{Kind, Reply};
use crate::fit::{Respondent, Turn};
use crate::floats::{
    bits, magnitude, moderate, nonfinite, nudge, odd, odd_finite, positive, power_of_two,
};
use crate::random::Random;
use crate::setup::{Setup, floats};

/// How the value at a trial is chosen.
#[derive(Debug, Clone, Copy)]
enum Value {
    /// The held value and half the predicted change.
    Half,
    /// The held value and the whole predicted change.
    Whole,
    /// The largest value that counts as a decrease, or some steps off it.
    Threshold,
    Held,
    NearHeld,
    /// Above the held value.
    Above,
    FarBelow,
    /// The bowl's own value.
    Bowl,
    /// Below the held value up to the kink, above it after.
    Kink,
    Odd,
}

/// How the gradient at a trial is chosen.
#[derive(Debug, Clone, Copy)]
enum Slope {
    /// That of the held point.
    Same,
    Halved,
    /// 0.9 times that of the held point, or some steps off it.
    Threshold,
    Reversed,
    Zero,
    /// Pointing so that break times are equal, or equal to the minimizer.
    Aimed,
    Bowl,
    /// Up to the kink that of the held point, after it the opposite.
    Kink,
    /// Changed by about 2^-52 of what the step asks for.
    Faint,
    /// What leads an `escape` setup to infinity.
    Escape,
    /// So small that squares vanish.
    Tiny,
    Random,
    Odd,
}

struct Style {
    values: &'static [(usize, Value)],
    slopes: &'static [(usize, Slope)],
    /// The gradient at the start.
    starts: &'static [(usize, Slope)],
}

const ANY_START: &[(usize, Slope)] = &[(50, Slope::Bowl), (20, Slope::Random), (30, Slope::Aimed)];
const BOWL_START: &[(usize, Slope)] = &[(100, Slope::Bowl)];

const BOWL: Style = Style {
    values: &[(95, Value::Bowl), (2, Value::NearHeld), (3, Value::Half)],
    slopes: &[(95, Slope::Bowl), (3, Slope::Halved), (2, Slope::Random)],
    starts: BOWL_START,
};
const RUNAWAY: Style = Style {
    values: &[(70, Value::Half), (25, Value::Whole), (5, Value::FarBelow)],
    slopes: &[(75, Slope::Same), (23, Slope::Halved), (2, Slope::Zero)],
    starts: ANY_START,
};
const KINK: Style = Style {
    values: &[(98, Value::Kink), (1, Value::Half), (1, Value::Held)],
    slopes: &[(98, Slope::Kink), (2, Slope::Halved)],
    starts: ANY_START,
};
const THRESHOLD: Style = Style {
    values: &[(75, Value::Threshold), (10, Value::NearHeld), (10, Value::Half), (5, Value::Held)],
    slopes: &[(50, Slope::Threshold), (30, Slope::Halved), (10, Slope::Bowl), (10, Slope::Faint)],
    starts: ANY_START,
};
const MODEL: Style = Style {
    values: &[(80, Value::Half), (10, Value::FarBelow), (10, Value::Bowl)],
    slopes: &[
        (35, Slope::Random),
        (20, Slope::Halved),
        (15, Slope::Reversed),
        (15, Slope::Faint),
        (12, Slope::Bowl),
        (3, Slope::Tiny),
    ],
    starts: ANY_START,
};
const ESCAPE: Style = Style {
    values: &[(100, Value::Half)],
    slopes: &[(99, Slope::Escape), (1, Slope::Halved)],
    starts: BOWL_START,
};
const TIES: Style = Style {
    values: &[(60, Value::Half), (20, Value::Bowl), (10, Value::Whole), (10, Value::NearHeld)],
    slopes: &[(80, Slope::Aimed), (10, Slope::Halved), (10, Slope::Same)],
    starts: ANY_START,
};
const REFUSING: Style = Style {
    values: &[(90, Value::Above), (8, Value::Held), (2, Value::Half)],
    slopes: &[(60, Slope::Same), (20, Slope::Reversed), (20, Slope::Random)],
    starts: ANY_START,
};
const WILD: Style = Style {
    values: &[
        (20, Value::Odd),
        (20, Value::Half),
        (15, Value::Above),
        (15, Value::NearHeld),
        (15, Value::FarBelow),
        (15, Value::Threshold),
    ],
    slopes: &[
        (15, Slope::Odd),
        (20, Slope::Random),
        (15, Slope::Halved),
        (15, Slope::Reversed),
        (15, Slope::Aimed),
        (10, Slope::Zero),
        (10, Slope::Faint),
    ],
    starts: ANY_START,
};

/// A point with its value and gradient, as far as replied.
#[derive(Clone, Default)]
struct Known {
    x: Vec<f64>,
    f: f64,
    g: Vec<f64>,
}

pub struct Adversary<'a> {
    random: &'a mut Random,
    style: Style,
    setup: &'a Setup,
    held: Known,
    trial: Known,
    /// The first trial of this search.
    first: Option<Vec<f64>>,
    /// Value questions still to come as probes.
    probes: usize,
    centre: Vec<f64>,
    scale: Vec<f64>,
    /// Size of gradients.
    size: f64,
    /// The fraction of the first trial's step where the kink lies.
    kink: f64,
    /// Odd replies in a thousand.
    chaos: usize,
    /// Gradients supplied in a hundred.
    supplied: usize,
    /// Stops in a hundred notices.
    stops: usize,
}

impl<'a> Adversary<'a> {
    /// Replies that lead an `escape` setup's open coordinate to infinity.
    pub fn escaping(random: &'a mut Random, setup: &'a Setup) -> Self {
        let ones = vec![1.0; setup.n()];
        Self {
            scale: ones.clone(),
            centre: ones,
            size: 1.0,
            supplied: random.pick(&[100, 100, 95]),
            chaos: 0,
            stops: 0,
            ..Self::with_style(random, setup, ESCAPE)
        }
    }

    pub fn new(random: &'a mut Random, setup: &'a Setup) -> Self {
        let style = match random.below(16) {
            0..=2 => BOWL,
            3 | 4 => RUNAWAY,
            5 | 6 => KINK,
            7 | 8 => THRESHOLD,
            9 | 10 => MODEL,
            11 | 12 => TIES,
            13 => REFUSING,
            _ => WILD,
        };
        Self::with_style(random, setup, style)
    }

    fn with_style(random: &'a mut Random, setup: &'a Setup, style: Style) -> Self {
        let n = setup.n();
        let some = magnitude(random, 8);
        let far = magnitude(random, 1000);
        let size = random.weighted(&[
            (70, 1.0),
            (10, some),
            (3, power_of_two(-540)),
            (4, power_of_two(-537)),
            (3, power_of_two(-500)),
            (3, power_of_two(500)),
            (4, power_of_two(510)),
            (3, power_of_two(-30)),
            (3, far),
        ]);
        let between = random.unit();
        let kink = random.weighted(&[(30, 1.0), (10, 0.0), (10, 0.5), (10, 3.0), (40, between)]);
        Self {
            style,
            setup,
            held: Known::default(),
            trial: Known::default(),
            first: None,
            probes: 0,
            centre: (0..n).map(|_| moderate(random)).collect(),
            scale: (0..n).map(|_| positive(random)).collect(),
            size,
            kink,
            chaos: random.weighted(&[(50, 0), (30, 10), (20, 60)]),
            supplied: random.weighted(&[(50, 100), (25, 0), (25, 60)]),
            stops: random.weighted(&[(70, 0), (20, 5), (10, 30)]),
            random,
        }
    }

    /// The change that the held gradient predicts at a point.
    fn predicted(&self, x: &[f64]) -> f64 {
        dot(&self.held.g, &difference(x, &self.held.x))
    }

    /// The step as a fraction of the first trial's.
    fn fraction(&self, x: &[f64]) -> f64 {
        match &self.first {
            Some(first) => self.predicted(x) / self.predicted(first),
            None => 1.0,
        }
    }

    fn bowl(&self, x: &[f64]) -> f64 {
        let offset = difference(x, &self.centre);
        let scaled: Vec<f64> = offset.iter().zip(&self.scale).map(|(o, s)| o * s).collect();
        0.5 * self.size * dot(&scaled, &offset)
    }

    fn chaotic(&mut self) -> bool {
        self.random.below(1000) < self.chaos
    }

    fn value(&mut self, x: &[f64]) -> u64 {
        if self.probes > 0 {
            self.probes -= 1;
            return self.probe_value(x);
        }
        let word = if self.chaotic() {
            odd(self.random).to_bits()
        } else if self.held.x.is_empty() {
            bits(self.first_value(x))
        } else {
            let chosen = self.random.weighted(self.style.values);
            bits(self.trial_value(chosen, x))
        };
        self.first.get_or_insert_with(|| x.to_vec());
        self.trial = Known { x: x.to_vec(), f: f64::from_bits(word), g: Vec::new() };
        word
    }

    fn first_value(&mut self, x: &[f64]) -> f64 {
        let bowl = self.bowl(x);
        let some = moderate(self.random);
        let any = odd_finite(self.random);
        self.random.weighted(&[(60, bowl), (25, some), (5, 0.0), (5, -0.0), (5, any)])
    }

    /// A value that makes the difference quotient the chosen gradient's entry.
    fn probe_value(&mut self, x: &[f64]) -> u64 {
        let change = dot(&self.trial.g, &difference(x, &self.trial.x));
        let wanted = self.trial.f + change;
        let near = nudge(self.random, self.trial.f);
        let far = moderate(self.random) * self.size;
        if self.chaotic() {
            return odd(self.random).to_bits();
        }
        bits(self.random.weighted(&[(92, wanted), (4, near), (3, far), (1, f64::MAX)]))
    }

    fn trial_value(&mut self, chosen: Value, x: &[f64]) -> f64 {
        let change = self.predicted(x);
        let held = self.held.f;
        match chosen {
            Value::Half if !change.is_finite() => -0.5 * f64::MAX,
            Value::Half => held + 0.5 * change,
            Value::Whole => held + change,
            Value::Threshold => self.threshold(x),
            Value::Held => held,
            Value::NearHeld => nudge(self.random, held),
            Value::Above => held + change.abs() + magnitude(self.random, 20),
            Value::FarBelow => held - magnitude(self.random, 60) * self.size.max(1.0),
            Value::Bowl => self.bowl(x),
            Value::Kink if self.fraction(x) < self.kink => held + 0.5 * change,
            Value::Kink => held + change.abs() + self.size,
            Value::Odd => odd_finite(self.random),
        }
    }

    fn threshold(&mut self, x: &[f64]) -> f64 {
        let first = self.first.as_deref().unwrap_or(x);
        let bound = self.held.f + 1e-4 * self.fraction(x) * self.predicted(first);
        nudge(self.random, bound)
    }

    fn gradient(&mut self, x: &[f64]) -> Reply {
        let first = self.held.x.is_empty();
        let choices = if first { self.style.starts } else { self.style.slopes };
        let chosen = self.random.weighted(choices);
        let gradient = self.slope(chosen, x);
        self.trial.g = gradient.clone();
        if first {
            self.held = self.trial.clone();
            self.first = None;
        }
        let infinite = x.iter().any(|xi| xi.is_infinite());
        let supplied = if infinite { 50 } else { self.supplied };
        if !self.random.percent(supplied) {
            self.probes = self.expected_probes(x);
            return Reply::NotSupplied;
        }
        let mut words: Vec<u64> = gradient.iter().map(|&entry| bits(entry)).collect();
        if self.chaotic() {
            let place = self.random.below(words.len());
            words[place] = odd(self.random).to_bits();
        }
        Reply::Gradient(words)
    }

    fn slope(&mut self, chosen: Slope, x: &[f64]) -> Vec<f64> {
        let held = self.held.g.clone();
        let times = |factor: f64| held.iter().map(|entry| factor * entry).collect();
        match chosen {
            Slope::Same => held,
            Slope::Halved => times(0.5),
            Slope::Threshold => {
                let factor = self.random.pick(&[0.9, -0.9]);
                held.iter().map(|entry| nudge(self.random, factor * entry)).collect()
            }
            Slope::Reversed => times(-1.0),
            Slope::Zero => vec![0.0; x.len()],
            Slope::Aimed => (0..x.len()).map(|i| self.aimed(x, i)).collect(),
            Slope::Bowl => {
                let offset = difference(x, &self.centre);
                offset.iter().zip(&self.scale).map(|(o, s)| self.size * s * o).collect()
            }
            Slope::Kink if self.fraction(x) < self.kink => held,
            Slope::Kink => times(-1.0),
            Slope::Faint => self.faint(x),
            Slope::Escape => self.escape(x),
            Slope::Tiny => x.iter().map(|_| power_of_two(-540) * moderate(self.random)).collect(),
            Slope::Random => x.iter().map(|_| self.size * moderate(self.random)).collect(),
            Slope::Odd => x.iter().map(|_| odd_finite(self.random)).collect(),
        }
    }

    /// An entry for which the way to a bound takes a power of two of time.
    fn aimed(&mut self, x: &[f64], i: usize) -> f64 {
        let way = match &self.setup.bounds {
            Some([lower, upper]) => {
                let side = if self.random.percent(50) { lower } else { upper };
                x[i] - f64::from_bits(side[i])
            }
            None => moderate(self.random),
        };
        let factor = self.random.pick(&[1.0, 1.0, 0.5, 2.0, 4.0]);
        if way.is_finite() { factor * way } else { self.random.pick(&[-1.0, 0.0, -0.0, 1.0, 2.0]) }
    }

    /// The held gradient and about 2^-52 of the step, so that s·y comes close
    /// to the least that keeps a pair.
    fn faint(&mut self, x: &[f64]) -> Vec<f64> {
        let step = difference(x, &self.held.x);
        let factor = self.random.pick(&[power_of_two(52), power_of_two(51), power_of_two(-50)]);
        let held = &self.held.g;
        held.iter().zip(&step).map(|(entry, si)| entry + factor * si).collect()
    }

    /// While steps grow: a change of one place in the first entry alone, which
    /// makes the next step 2^53 times as long. Once they are long enough: a
    /// change of the second entry alone, so small that theta nearly vanishes.
    /// After that the same gradient, until the point is infinite.
    fn escape(&mut self, x: &[f64]) -> Vec<f64> {
        let mut gradient = self.held.g.clone();
        let way = (x[1] - self.held.x[1]).abs();
        let loaded = gradient[1] > 0.0;
        let first_trial = self.first.as_deref() == Some(x);
        if x.iter().any(|xi| xi.is_infinite()) || !(first_trial || loaded) {
            gradient.iter_mut().for_each(|entry| *entry *= 0.5);
        } else if way < power_of_two(455) {
            gradient[0] = gradient[0].next_up();
            gradient[1] = 0.0;
        } else if !loaded {
            let exponent = (way.to_bits() >> 52) as i32 - 1023;
            let theta = self.random.between(985, 1045) as i32;
            gradient[1] = power_of_two((exponent - theta).max(-536));
        }
        gradient
    }

    /// How many probes a differenced gradient takes, infinite points aside.
    fn expected_probes(&self, x: &[f64]) -> usize {
        let (lower, upper) = match &self.setup.bounds {
            Some([lower, upper]) => (floats(lower), floats(upper)),
            None => return x.len() * if self.setup.central { 2 } else { 1 },
        };
        let probes = |i: usize| {
            let both = x[i] > lower[i] && x[i] < upper[i] && self.setup.central;
            if lower[i] == upper[i] { 0 } else { 1 + usize::from(both) }
        };
        (0..x.len()).map(probes).sum()
    }

    fn notice(&mut self) -> Reply {
        self.held = self.trial.clone();
        self.first = None;
        if self.random.percent(self.stops) { Reply::Stop } else { Reply::GoOn }
    }
}

impl Respondent for Adversary<'_> {
    fn reply(&mut self, question: Kind, point: &[f64]) -> Turn {
        if self.random.below(4000) < self.chaos {
            return Turn::Reply(Reply::Failure);
        }
        if question == Kind::Value && self.random.below(4000) < self.chaos {
            return Turn::Reply(Reply::Value(nonfinite(self.random).to_bits()));
        }
        Turn::Reply(match question {
            Kind::Value => Reply::Value(self.value(point)),
            Kind::Gradient => self.gradient(point),
            Kind::Notice => self.notice(),
        })
    }
}

fn difference(a: &[f64], b: &[f64]) -> Vec<f64> {
    a.iter().zip(b).map(|(ai, bi)| ai - bi).collect()
}

fn dot(a: &[f64], b: &[f64]) -> f64 {
    a.iter().zip(b).fold(0.0, |sum, (ai, bi)| sum + ai * bi)
}
