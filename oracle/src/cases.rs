//! The generator's cases: each an input that holds a record, well or damaged.

use crate::adversary::Adversary;
use crate::damage;
use crate::fit::{self, Respondent};
use crate::play::play;
use crate::random::Random;
use crate::record;
use crate::respond::{Function, Mishap, Recorder};
use crate::setup::Setup;
use crate::setups::{self, Aim, Size};

const MINUS_ZERO: u64 = 1 << 63;

/// A setup with a log of replies to its own questions.
pub struct Case {
    pub setup: Setup,
    pub log: Vec<u64>,
    /// Where each entry starts in the log.
    pub starts: Vec<usize>,
}

impl Case {
    pub fn words(&self) -> Vec<u64> {
        [self.setup.words(), self.log.clone()].concat()
    }

    fn cut(&mut self, entries: usize) {
        if let Some(&end) = self.starts.get(entries) {
            self.log.truncate(end);
            self.starts.truncate(entries);
        }
    }
}

/// Where a case comes from.
#[derive(Debug, Clone, Copy, PartialEq, Eq)]
pub enum Origin {
    Function,
    Adversary,
    Damaged,
}

/// Which cases are drawn: how large, and for each size the most words that a
/// log may have, usually and one time in eight.
#[derive(Debug, Clone, Copy)]
pub struct Mix {
    pub sizes: &'static [(usize, Size)],
    pub log_words: [[usize; 2]; 3],
    /// Cases in a hundred that go to infinity.
    pub escapes: usize,
    /// Inputs in ten thousand that are about as long as an input may be.
    pub long_inputs: usize,
}

impl Mix {
    fn log_words(&self, random: &mut Random, size: Size) -> usize {
        self.log_words[size as usize][usize::from(random.below(8) == 0)]
    }

    /// The same without large cases, to be damaged.
    fn without_large(&self) -> Self {
        if self.sizes.len() == 1 {
            return *self;
        }
        Self { sizes: &[(85, Size::Small), (15, Size::Medium)], ..*self }
    }
}

/// Cases of every size, for long comparisons.
pub const EVERY_SIZE: Mix = Mix {
    sizes: &[(80, Size::Small), (15, Size::Medium), (5, Size::Large)],
    log_words: [[150, 500], [500, 2000], [1500, 7500]],
    escapes: 1,
    long_inputs: 3,
};

/// The case of an index: its origin and its input.
pub fn case(seed: u64, index: u64, mix: &Mix) -> (Origin, Vec<u8>) {
    let mut random = Random::of_case(seed, index);
    loop {
        let drawn = draw(&mut random, mix);
        if in_domain(&drawn.1) {
            return drawn;
        }
    }
}

/// A function's fit of 64 coordinates that drops at least one of 16 pairs.
pub fn full_case(seed: u64, index: u64) -> Vec<u8> {
    const PAIRS: u8 = 16;
    const LOG_WORDS: usize = 2400;
    let mut random = Random::of_case(!seed, index);
    loop {
        let drawn = setups::setup(&mut random, Size::Large, Aim::Long);
        let setup = Setup { maxcor: PAIRS, ..drawn };
        if setup.n() < 64 {
            continue;
        }
        let mut function = Function::new(&mut random, 64);
        let input = record::write(&recorded(&setup, &mut function, None, LOG_WORDS).words());
        let report = play(&input).ok().and_then(|fit| fit.report());
        if report.is_some_and(|report| report.nit > u64::from(PAIRS)) {
            return input;
        }
    }
}

fn draw(random: &mut Random, mix: &Mix) -> (Origin, Vec<u8>) {
    let origin =
        random.weighted(&[(42, Origin::Function), (38, Origin::Adversary), (20, Origin::Damaged)]);
    let input = match origin {
        Origin::Damaged => {
            let base = if random.percent(50) { Origin::Function } else { Origin::Adversary };
            let base = played(random, base, &mix.without_large());
            damage::damaged(random, &base)
        }
        _ => record::write(&played(random, origin, mix).words()),
    };
    (origin, with_bytes_ahead(random, input, mix))
}

/// Some inputs have bytes ahead of their record, a very few as many as fit.
fn with_bytes_ahead(random: &mut Random, input: Vec<u8>, mix: &Mix) -> Vec<u8> {
    if random.below(10_000) < mix.long_inputs {
        let over = random.pick(&[0, 0, 1, 7, 8, 1000]);
        return damage::at_the_input_limit(random, &input, over);
    }
    if random.percent(6) {
        let count = random.between(1, 40);
        return damage::with_bytes_ahead(random, &input, count);
    }
    input
}

/// A case made by replying to the original's questions, whole or cut.
fn played(random: &mut Random, origin: Origin, mix: &Mix) -> Case {
    let mut case = match origin {
        Origin::Adversary if random.percent(mix.escapes) => escaping(random, mix),
        _ => drawn_by_size(random, origin, mix),
    };
    if random.percent(20) {
        case.cut(random.below(case.starts.len() + 1));
    }
    case
}

/// Most fits that end before their first trial are drawn again.
fn drawn_by_size(random: &mut Random, origin: Origin, mix: &Mix) -> Case {
    loop {
        let case = drawn_once(random, origin, mix);
        if case.starts.len() > 3 || random.percent(40) {
            return case;
        }
    }
}

fn drawn_once(random: &mut Random, origin: Origin, mix: &Mix) -> Case {
    let size = random.weighted(mix.sizes);
    let aim = random.weighted(&[
        (38, Aim::Any),
        (35, Aim::Long),
        (17, Aim::Values),
        (10, Aim::Iterations),
    ]);
    let setup = setups::setup(random, size, aim);
    let limit = mix.log_words(random, size);
    let mishap = Mishap::draw(random);
    if origin == Origin::Function {
        recorded(&setup, &mut Function::new(random, setup.n()), mishap, limit)
    } else {
        recorded(&setup, &mut Adversary::new(random, &setup), mishap, limit)
    }
}

fn escaping(random: &mut Random, mix: &Mix) -> Case {
    let setup = setups::escape(random);
    let [_, limit] = mix.log_words[Size::Large as usize];
    recorded(&setup, &mut Adversary::escaping(random, &setup), None, limit)
}

fn recorded(
    setup: &Setup,
    respondent: &mut dyn Respondent,
    mishap: Option<Mishap>,
    limit: usize,
) -> Case {
    let mut recorder = Recorder::new(respondent, mishap, limit);
    fit::run(setup, &mut recorder);
    let Recorder { log, starts, .. } = recorder;
    Case { setup: setup.clone(), log, starts }
}

/// Whether the comparison speaks of this input: no bound of a setup that passes
/// its checks is -0.0.
pub fn in_domain(input: &[u8]) -> bool {
    record::read(input).map_or(true, |record| {
        let mut ends = record.setup.bounds.iter().flatten().flatten();
        ends.all(|&end| end != MINUS_ZERO)
    })
}
