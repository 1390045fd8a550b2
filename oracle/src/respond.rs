//! Replies from a real function, and the log of any respondent's replies.

use crate::entry::{Kind, Reply};
use crate::fit::{Respondent, Turn};
use crate::floats::{bits, nonfinite, odd_finite, power_of_two};
use crate::random::Random;
use crate::shapes::{Shape, shape};

/// Logs the replies of another respondent, up to a number of words.
pub struct Recorder<'a> {
    inner: &'a mut dyn Respondent,
    mishap: Option<Mishap>,
    limit: usize,
    pub log: Vec<u64>,
    /// Where each entry starts in the log.
    pub starts: Vec<usize>,
}

impl<'a> Recorder<'a> {
    pub fn new(inner: &'a mut dyn Respondent, mishap: Option<Mishap>, limit: usize) -> Self {
        Self { inner, mishap, limit, log: Vec::new(), starts: Vec::new() }
    }
}

impl Respondent for Recorder<'_> {
    fn reply(&mut self, question: Kind, point: &[f64]) -> Turn {
        let mut turn = self.inner.reply(question, point);
        if let (Turn::Reply(reply), Some(mishap)) = (&mut turn, &mut self.mishap)
            && mishap.entry == self.starts.len()
        {
            mishap.spoil(reply);
        }
        if let Turn::Reply(reply) = &turn {
            let start = self.log.len();
            reply.write(&mut self.log);
            if self.log.len() > self.limit {
                self.log.truncate(start);
                return Turn::Open;
            }
            self.starts.push(start);
        }
        turn
    }
}

/// One reply gone wrong in an otherwise ordinary fit.
pub struct Mishap {
    random: Random,
    entry: usize,
}

impl Mishap {
    pub fn draw(random: &mut Random) -> Option<Self> {
        let entry = random.between(2, 40);
        random.percent(25).then(|| Self { random: random.fork(), entry })
    }

    fn spoil(&mut self, reply: &mut Reply) {
        match reply {
            Reply::Value(word) => {
                let wrong = nonfinite(&mut self.random);
                let strange = odd_finite(&mut self.random);
                *word = self.random.pick(&[wrong, strange]).to_bits();
            }
            Reply::Gradient(words) => self.spoil_gradient(words),
            Reply::GoOn => {
                *reply = if self.random.percent(70) { Reply::Stop } else { Reply::Failure }
            }
            _ => {}
        }
    }

    fn spoil_gradient(&mut self, words: &mut [u64]) {
        let place = self.random.below(words.len());
        let factor = match self.random.below(6) {
            0 => return words[place] = nonfinite(&mut self.random).to_bits(),
            1 => return words[place] = odd_finite(&mut self.random).to_bits(),
            2 => 0.0,
            3 => power_of_two(-540),
            4 => power_of_two(520),
            _ => -1.0,
        };
        words.iter_mut().for_each(|word| *word = bits(factor * f64::from_bits(*word)));
    }
}

/// Replies by a real function, scaled, with noise.
pub struct Function<'a> {
    random: &'a mut Random,
    shape: Shape,
    scale: f64,
    noise: f64,
    /// Gradients supplied in a hundred.
    supplied: usize,
    /// Stops and failures in a hundred notices.
    stops: usize,
    failures: usize,
}

impl<'a> Function<'a> {
    pub fn new(random: &'a mut Random, n: usize) -> Self {
        let shape = shape(random, n);
        let scale = random.weighted(&[
            (80, 1.0),
            (5, power_of_two(-30)),
            (5, power_of_two(30)),
            (2, power_of_two(-500)),
            (2, power_of_two(500)),
            (3, power_of_two(-540)),
            (3, power_of_two(1000)),
        ]);
        let noise = random.weighted(&[(80, 0.0), (8, 1e-10), (8, 1e-3), (4, 1.0)]);
        let supplied = random.weighted(&[(50, 100), (35, 0), (15, 50)]);
        let stops = random.weighted(&[(90, 0), (10, 20)]);
        let failures = random.weighted(&[(97, 0), (3, 20)]);
        Self { random, shape, scale, noise, supplied, stops, failures }
    }

    fn value(&mut self, x: &[f64]) -> f64 {
        let noise = self.noise * self.random.unit();
        self.scale * self.shape.value(x) + self.scale * noise
    }

    fn gradient(&mut self, x: &[f64]) -> Reply {
        if !self.random.percent(self.supplied) {
            return Reply::NotSupplied;
        }
        let exact = self.shape.gradient(x);
        Reply::Gradient(exact.iter().map(|entry| bits(self.scale * entry)).collect())
    }

    fn notice(&mut self) -> Reply {
        if self.random.percent(self.stops) {
            Reply::Stop
        } else if self.random.percent(self.failures) {
            Reply::Failure
        } else {
            Reply::GoOn
        }
    }
}

impl Respondent for Function<'_> {
    fn reply(&mut self, question: Kind, point: &[f64]) -> Turn {
        Turn::Reply(match question {
            Kind::Value => Reply::Value(bits(self.value(point))),
            Kind::Gradient => self.gradient(point),
            Kind::Notice => self.notice(),
        })
    }
}
