//! Random setups that every check accepts. No bound is -0.0: that lies outside
//! the domain of the comparison.

use crate::floats::{magnitude, moderate, odd_finite, positive, power_of_two};
use crate::random::Random;
use crate::setup::{ABSENT, Setup};

#[derive(Debug, Clone, Copy, PartialEq, Eq)]
pub enum Size {
    Small,
    Medium,
    Large,
}

/// What a setup is drawn for.
#[derive(Debug, Clone, Copy, PartialEq, Eq)]
pub enum Aim {
    /// Anything goes.
    Any,
    /// Tight tolerances and full budgets, for many iterations.
    Long,
    /// No gradient is small enough, so that the values decide.
    Values,
    /// Tight tolerances and few iterations.
    Iterations,
}

pub fn setup(random: &mut Random, size: Size, aim: Aim) -> Setup {
    let n = coordinates(random, size);
    let (x0, bounds) = start_and_box(random, n);
    let any = aim == Aim::Any;
    let [ftol, gtol] = match aim {
        Aim::Any => [optional_tolerance(random), optional_tolerance(random)],
        Aim::Long | Aim::Iterations => [0, tight(random)],
        Aim::Values => [optional_tolerance(random), 0],
    };
    let maxiter = match aim {
        Aim::Any => budget(random),
        Aim::Iterations => random.pick(&[1, 1, 2, 2, 3, 4, 7]),
        Aim::Long | Aim::Values => 0,
    };
    Setup {
        maxcor: pairs(random),
        central: random.percent(45),
        maxiter,
        maxfev: if any { budget(random) } else { 0 },
        tol: if random.percent(75) || !any { ABSENT } else { tolerance(random).to_bits() },
        ftol,
        gtol,
        eps: if random.percent(60) { ABSENT } else { difference_step(random).to_bits() },
        x0: words(&x0),
        bounds,
    }
}

/// Two coordinates open above, among others whose upper ends lie ever farther
/// out: each iteration meets some of these, so that steps can grow by 2^53.
pub fn escape(random: &mut Random) -> Setup {
    let n = random.between(20, 26);
    let gap = 512 / (n as i32 - 4);
    let lower = random.pick(&[f64::NEG_INFINITY, -1.0, f64::MIN]);
    let ends = (1..n as i32 - 3).map(|i| power_of_two(gap * i));
    let near = [f64::INFINITY, f64::INFINITY, 0.5, 4.0];
    let upper: Vec<f64> = near.into_iter().chain(ends).collect();
    Setup {
        maxcor: random.pick(&[1, 1, 2, 3]),
        eps: random.pick(&[ABSENT, 1.0_f64.to_bits(), f64::MAX.to_bits()]),
        bounds: Some([words(&vec![lower; n]), words(&upper)]),
        x0: vec![0; n],
        ..setup(random, Size::Small, Aim::Long)
    }
}

fn words(floats: &[f64]) -> Vec<u64> {
    floats.iter().map(|value| value.to_bits()).collect()
}

fn coordinates(random: &mut Random, size: Size) -> usize {
    match size {
        Size::Small => random.weighted(&[(45, 1), (35, 2), (20, 3)]),
        Size::Medium => random.between(2, 12),
        Size::Large => {
            let between = random.between(13, 63);
            random.weighted(&[(60, 64), (40, between)])
        }
    }
}

/// maxcor, 0 being absent.
fn pairs(random: &mut Random) -> u8 {
    let any = random.between(1, 16) as u8;
    random.weighted(&[(25, 0), (12, 1), (12, 2), (8, 3), (8, 16), (35, any)])
}

/// maxiter or maxfev, 0 being absent.
fn budget(random: &mut Random) -> u64 {
    let few = random.between(1, 3) as u64;
    let tiny = random.between(1, 10) as u64;
    let some = random.between(11, 60) as u64;
    let any = random.between(61, 1_000_000) as u64;
    random.weighted(&[(62, 0), (9, few), (12, tiny), (9, some), (5, any), (3, 1_000_000)])
}

/// A finite tolerance above 0.
fn tolerance(random: &mut Random) -> f64 {
    let any = odd_finite(random).abs().max(f64::from_bits(1));
    let some = magnitude(random, 40);
    random.weighted(&[(25, 1e-5), (25, 1e-9), (20, 1e-3), (10, some), (4, 1e300), (6, any)])
}

/// The bits of ftol or gtol: either zero is allowed.
fn optional_tolerance(random: &mut Random) -> u64 {
    let some = tolerance(random).to_bits();
    random.weighted(&[(50, ABSENT), (22, 0), (8, (-0.0_f64).to_bits()), (20, some)])
}

fn tight(random: &mut Random) -> u64 {
    random.pick(&[0.0_f64, -0.0, 1e-14, 1e-9, f64::from_bits(1)]).to_bits()
}

fn difference_step(random: &mut Random) -> f64 {
    let any = odd_finite(random).abs().max(f64::from_bits(1));
    let some = magnitude(random, 60);
    let usual = random.pick(&[1e-8, 1e-6, 0.5, 1.0, 0.25]);
    random.weighted(&[(40, usual), (15, 1e-300), (10, 1e-17), (20, some), (15, any)])
}

fn start(random: &mut Random) -> f64 {
    let some = moderate(random);
    let far = moderate(random) * magnitude(random, 60);
    let odd = odd_finite(random);
    random.weighted(&[(80, some), (5, -0.0), (4, 0.0), (7, far), (3, odd), (1, f64::MAX)])
}

fn start_and_box(random: &mut Random, n: usize) -> (Vec<f64>, Option<[Vec<u64>; 2]>) {
    let x0: Vec<f64> = (0..n).map(|_| start(random)).collect();
    if random.percent(28) {
        return (x0, None);
    }
    let fixing = if n == 1 { 4 } else { random.pick(&[0, 0, 10, 30]) };
    let mut sides = [Vec::new(), Vec::new()];
    for &xi in &x0 {
        let (lower, upper) =
            if random.percent(fixing) { fixed_side(random, xi) } else { side(random, xi) };
        sides[0].push((lower + 0.0).to_bits());
        sides[1].push((upper + 0.0).to_bits());
    }
    (x0, Some(sides))
}

/// Equal ends, at the start or elsewhere.
fn fixed_side(random: &mut Random, xi: f64) -> (f64, f64) {
    let end = if random.percent(60) { xi } else { moderate(random) };
    (end, end)
}

/// The ends for one coordinate: the start inside, on an end or outside.
fn side(random: &mut Random, xi: f64) -> (f64, f64) {
    let (left, right) = (positive(random), positive(random));
    let (below, above) = ((xi - left).max(f64::MIN), (xi + right).min(f64::MAX));
    let farther = (xi + 16.0 * right).min(f64::MAX);
    random.weighted(&[
        (40, (below, above)),
        (7, (xi, above)),
        (7, (below, xi)),
        (3, (below, xi + 1e10)),
        (6, (above, farther)),
        (6, ((xi - 16.0 * left).max(f64::MIN), below)),
        (8, (f64::NEG_INFINITY, f64::INFINITY)),
        (6, (below, f64::INFINITY)),
        (6, (f64::NEG_INFINITY, above)),
        (2, (f64::MIN, f64::MAX)),
        (2, (xi, xi.next_up().min(f64::MAX))),
        (2, (xi.next_down().max(f64::MIN), xi)),
    ])
}
