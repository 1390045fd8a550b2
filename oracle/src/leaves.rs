//! Cases for the original's private functions, one JSON object a line. The
//! fields stand in README.md.

use crate::floats::{magnitude, moderate, nudge, odd, odd_finite, positive, power_of_two};
use crate::json;
use crate::random::Random;
use crate::setups::{self, Aim, Size};
use itofin_optimize::{Bounds, Leaves, Model};

/// The line of an index.
pub fn line(seed: u64, index: u64) -> String {
    let mut random = Random::of_case(seed, index);
    match random.below(10) {
        0..=2 => solve_line(&mut random),
        3 | 4 => update_line(&mut random),
        5 | 6 => times_line(&mut random),
        _ => geometry_line(&mut random),
    }
}

fn solve_line(random: &mut Random) -> String {
    let any = random.between(1, 12);
    let size = random.weighted(&[(30, 2), (20, 4), (10, 1), (37, any), (3, 32)]);
    let (rows, right) = system(random, size);
    let answer = Leaves::solve(rows.clone(), right.clone());
    format!(
        "{{\"leaf\":\"solve\",\"rows\":{},\"right\":{},\"answer\":{}}}\n",
        json::array(rows.iter().map(|row| json::floats(row))),
        json::floats(&right),
        json::optional_floats(answer.as_deref())
    )
}

fn system(random: &mut Random, size: usize) -> (Vec<Vec<f64>>, Vec<f64>) {
    let temper = random.below(6);
    let entry = |random: &mut Random| match temper {
        0 => random.pick(&[-2.0, -1.0, 1.0, 2.0]),
        1 => random.pick(&[-1.0, 0.0, -0.0, 1.0]),
        2 => magnitude(random, 30) * random.pick(&[-1.0, 1.0]),
        3 if random.percent(8) => odd(random),
        _ => moderate(random),
    };
    let mut rows: Vec<Vec<f64>> =
        (0..size).map(|_| (0..size).map(|_| entry(random)).collect()).collect();
    let mut right: Vec<f64> = (0..size).map(|_| moderate(random)).collect();
    match temper {
        4 => threshold_diagonal(random, &mut rows),
        5 => dependent_rows(random, &mut rows),
        _ => {}
    }
    if random.percent(6) {
        right[random.below(size)] = odd(random);
    }
    (rows, right)
}

/// A triangle with pivots about 2^-46 of the largest entry.
fn threshold_diagonal(random: &mut Random, rows: &mut [Vec<f64>]) {
    let scale = magnitude(random, 10);
    let last = rows.len() - 1;
    for (i, row) in rows.iter_mut().enumerate() {
        for (j, entry) in row.iter_mut().enumerate() {
            *entry = if i == j { scale } else { 0.0 };
        }
        if i == last && i > 0 {
            let pivot = scale * power_of_two(random.pick(&[-46, -46, -45, -47]));
            row[i] = nudge(random, pivot);
        }
    }
    let other = random.below(rows.len());
    rows.swap(0, other);
}

/// Two rows that are equal, or nearly.
fn dependent_rows(random: &mut Random, rows: &mut [Vec<f64>]) {
    let (one, other) = (random.below(rows.len()), random.below(rows.len()));
    let factor = random.pick(&[1.0, -1.0, 0.5, 3.0]);
    rows[other] = rows[one].iter().map(|entry| nudge(random, factor * entry)).collect();
}

/// A step and change of gradient: from a bowl, at the edge of being kept, of
/// extreme size, or any.
fn pair(random: &mut Random, n: usize, bowl: &[f64]) -> (Vec<f64>, Vec<f64>) {
    let size = random.weighted(&[(70, 0), (20, 20), (10, 510)]);
    let scale = magnitude(random, size);
    let s: Vec<f64> = (0..n).map(|_| scale * moderate(random)).collect();
    let y = match random.below(10) {
        0..=5 => s.iter().zip(bowl).map(|(si, bi)| si * bi).collect(),
        6 => {
            let exponent = random.pick(&[52, 51, 52, 53]);
            s.iter().map(|si| nudge(random, si * power_of_two(exponent))).collect()
        }
        7 => s.iter().map(|_| odd(random)).collect(),
        8 => s.iter().map(|_| magnitude(random, 540) * random.pick(&[-1.0, 1.0])).collect(),
        _ => s.iter().map(|_| moderate(random)).collect(),
    };
    (s, y)
}

/// A long step with so faint a change that theta nearly vanishes.
fn flat_pair(random: &mut Random, n: usize) -> (Vec<f64>, Vec<f64>) {
    let long = power_of_two(random.between(300, 505) as i32);
    let faint = power_of_two(-(random.between(300, 530) as i32));
    let way: Vec<f64> = (0..n).map(|_| moderate(random)).collect();
    let s = way.iter().map(|entry| long * entry).collect();
    let y = way.iter().map(|entry| faint * entry * positive(random)).collect();
    (s, y)
}

fn model(random: &mut Random, n: usize) -> (Model, usize) {
    let any = random.between(1, 16);
    let maxcor = random.weighted(&[(20, 1), (20, 2), (20, 3), (40, any)]);
    let mut model = Model::new(n, maxcor);
    if random.percent(10) {
        let (s, y) = flat_pair(random, n);
        model.update(s, y);
        return (model, maxcor);
    }
    let bowl: Vec<f64> = (0..n).map(|_| positive(random)).collect();
    for _ in 0..random.between(0, maxcor + 2) {
        let (s, y) = pair(random, n, &bowl);
        model.update(s, y);
    }
    (model, maxcor)
}

fn model_fields(model: &Model, maxcor: usize) -> String {
    let pairs = model.pairs();
    let pairs = pairs.iter().map(|pair| {
        let sy = json::float(pair.sy);
        format!("{{\"s\":{},\"y\":{},\"sy\":{sy}}}", json::floats(&pair.s), json::floats(&pair.y))
    });
    let theta = json::float(model.theta());
    format!("\"maxcor\":{maxcor},\"theta\":{theta},\"pairs\":{}", json::array(pairs))
}

fn update_line(random: &mut Random) -> String {
    let n = random.between(1, 4);
    let (mut model, maxcor) = model(random, n);
    let before = model_fields(&model, maxcor);
    let bowl = vec![1.0; n];
    let (s, y) = pair(random, n, &bowl);
    let kept = model.update(s.clone(), y.clone());
    let newest = model.pairs().last().map_or("null".to_string(), |pair| json::float(pair.sy));
    format!(
        "{{\"leaf\":\"update\",\"n\":{n},{before},\"s\":{},\"y\":{},\"kept\":{kept},\
         \"theta_after\":{},\"pairs_after\":{},\"newest_sy\":{newest}}}\n",
        json::floats(&s),
        json::floats(&y),
        json::float(model.theta()),
        model.pairs().len()
    )
}

fn times_line(random: &mut Random) -> String {
    let n = random.between(1, 5);
    let (model, maxcor) = model(random, n);
    let v: Vec<f64> = if random.percent(80) {
        (0..n).map(|_| moderate(random)).collect()
    } else {
        (0..n).map(|_| odd(random)).collect()
    };
    let product = model.times(&v);
    format!(
        "{{\"leaf\":\"times\",\"n\":{n},{},\"v\":{},\"product\":{}}}\n",
        model_fields(&model, maxcor),
        json::floats(&v),
        json::optional_floats(product.as_deref())
    )
}

/// The Cauchy point, and where there is one the subspace step from it.
fn geometry_line(random: &mut Random) -> String {
    let size = if random.percent(80) { Size::Small } else { Size::Medium };
    let problem = setups::setup(random, size, Aim::Any).problem();
    let n = problem.x0.len();
    let bounds = problem.bounds.unwrap_or_else(|| Bounds {
        lower: vec![f64::NEG_INFINITY; n],
        upper: vec![f64::INFINITY; n],
    });
    let mut x: Vec<f64> =
        (0..n).map(|i| problem.x0[i].clamp(bounds.lower[i], bounds.upper[i])).collect();
    if random.percent(3) {
        x[0] = bounds.upper[0];
    }
    let g = gradient(random, &x, &bounds);
    let (model, maxcor) = model(random, n);
    let cauchy = model.cauchy(&x, &g, &bounds);
    let target = cauchy.clone().and_then(|cauchy| model.primal(&x, &g, cauchy, &bounds));
    let free = cauchy.iter().flat_map(|(_, free)| free).map(usize::to_string);
    format!(
        "{{\"leaf\":\"geometry\",\"n\":{n},{},\"x\":{},\"g\":{},\"lower\":{},\"upper\":{},\
         \"cauchy\":{},\"free\":{},\"target\":{}}}\n",
        model_fields(&model, maxcor),
        json::floats(&x),
        json::floats(&g),
        json::floats(&bounds.lower),
        json::floats(&bounds.upper),
        json::optional_floats(cauchy.as_ref().map(|(point, _)| point.as_slice())),
        json::array(free),
        json::optional_floats(target.as_deref())
    )
}

/// A finite gradient: any, or one whose break times are equal.
fn gradient(random: &mut Random, x: &[f64], bounds: &Bounds) -> Vec<f64> {
    let temper = random.below(4);
    let entry = |i: usize| {
        let side = if random.percent(50) { bounds.lower[i] } else { bounds.upper[i] };
        let way = (x[i] - side) * random.pick(&[1.0, 1.0, 0.5, 2.0]);
        match temper {
            0 if way.is_finite() => way,
            1 => odd_finite(random),
            _ => moderate(random),
        }
    };
    (0..x.len()).map(entry).collect()
}
