//! What document 01 says the library's operations mean, asked of this build
//! at run time. `black_box` keeps the compiler from answering in advance.

use std::hint::black_box;

/// The nearest double to the cube root of 2^-52 is this times 2^-70.
const ROOT_NUMERATOR: u64 = 7_149_018_786_131_517;

/// Each meaning by name, and whether this build has it.
pub fn check() -> Vec<(&'static str, bool)> {
    let mut found = zeros();
    found.extend(zeros_with_a_constant());
    found.extend(not_a_number());
    found.extend(roots());
    found.extend(sums());
    found.extend(order());
    found.extend(neighbours());
    found
}

fn same(found: f64, wanted: f64) -> bool {
    found.to_bits() == wanted.to_bits()
}

fn zeros() -> Vec<(&'static str, bool)> {
    let (plus, minus) = (black_box(0.0_f64), black_box(-0.0_f64));
    vec![
        ("min(+0, -0) is +0", same(plus.min(minus), 0.0)),
        ("min(-0, +0) is -0", same(minus.min(plus), -0.0)),
        ("max(+0, -0) is +0", same(plus.max(minus), 0.0)),
        ("max(-0, +0) is -0", same(minus.max(plus), -0.0)),
    ]
}

/// The forms of `projected_norm` and `solve`, where one side is written out.
fn zeros_with_a_constant() -> Vec<(&'static str, bool)> {
    let (plus, minus) = (black_box(0.0_f64), black_box(-0.0_f64));
    let folded = black_box([-0.0_f64]).iter().copied().fold(0.0, f64::max);
    vec![
        ("max(-0, constant +0) is -0", same(minus.max(0.0), -0.0)),
        ("max(constant +0, -0) is +0", same(0.0_f64.max(minus), 0.0)),
        ("min(+0, constant -0) is +0", same(plus.min(-0.0), 0.0)),
        ("min(constant -0, +0) is -0", same((-0.0_f64).min(plus), -0.0)),
        ("a fold by max from +0 over -0 is +0", same(folded, 0.0)),
    ]
}

fn not_a_number() -> Vec<(&'static str, bool)> {
    let (nan, one) = (black_box(f64::NAN), black_box(1.0_f64));
    vec![
        ("min passes over a NaN on the left", same(nan.min(one), 1.0)),
        ("min passes over a NaN on the right", same(one.min(nan), 1.0)),
        ("max passes over a NaN on the left", same(nan.max(one), 1.0)),
        ("max passes over a NaN on the right", same(one.max(nan), 1.0)),
        ("max of a NaN and a constant is the constant", same(nan.max(0.0), 0.0)),
        ("clamp keeps a NaN", nan.clamp(one, black_box(2.0)).is_nan()),
    ]
}

fn roots() -> Vec<(&'static str, bool)> {
    let nearest = ROOT_NUMERATOR as f64 * 2.0_f64.powi(-70);
    let below = exceeds_two_to_161(2 * ROOT_NUMERATOR - 1);
    let above = exceeds_two_to_161(2 * ROOT_NUMERATOR + 1);
    vec![
        ("the cubes enclose the root", !below && above),
        ("cbrt(2^-52) is nearest", same(black_box(f64::EPSILON).cbrt(), nearest)),
        ("cbrt of the constant is nearest", same(f64::EPSILON.cbrt(), nearest)),
        ("sqrt(2^-52) is 2^-26", same(black_box(f64::EPSILON).sqrt(), 2.0_f64.powi(-26))),
        ("EPSILON is 2^-52", same(f64::EPSILON, 2.0_f64.powi(-52))),
    ]
}

/// Whether an odd number's cube is above 2^161, by its upper words alone: an
/// odd cube is never a power of two.
fn exceeds_two_to_161(odd: u64) -> bool {
    let square = u128::from(odd) * u128::from(odd);
    let low = (square & u128::from(u64::MAX)) * u128::from(odd);
    let high = (square >> 64) * u128::from(odd) + (low >> 64);
    high >= 1 << 97
}

fn sums() -> Vec<(&'static str, bool)> {
    let nothing: f64 = black_box(Vec::<f64>::new()).iter().sum();
    let lone: f64 = black_box([-0.0_f64]).iter().sum();
    let left: f64 = black_box([1e16, 1.0, -1e16]).iter().sum();
    let third = black_box(1.0_f64) / black_box(3.0);
    let unfused = black_box(3.0_f64) * third - black_box(1.0);
    vec![
        ("an empty sum is -0", same(nothing, -0.0)),
        ("the sum of -0 is -0", same(lone, -0.0)),
        ("sums run from the left", same(left, 0.0)),
        ("a product is rounded before its sum", same(unfused, 0.0)),
    ]
}

fn order() -> Vec<(&'static str, bool)> {
    let (plus, minus) = (black_box(0.0_f64), black_box(-0.0_f64));
    let mut times = black_box([(2.0_f64, 0), (1.0, 1), (1.0, 2), (0.0, 3), (-0.0, 4)]);
    times.sort_by(|a, b| a.0.total_cmp(&b.0));
    let last = (0..black_box(3)).max_by(|_, _| plus.total_cmp(&plus));
    let nan_last = f64::INFINITY.total_cmp(&black_box(f64::NAN)).is_lt();
    vec![
        ("total_cmp puts -0 before +0", minus.total_cmp(&plus).is_lt()),
        ("total_cmp puts a positive NaN last", nan_last),
        ("sort_by is stable", times.map(|entry| entry.1) == [4, 3, 1, 2, 0]),
        ("max_by takes the last of equals", last == Some(2)),
        ("clamp keeps -0 at a lower end of +0", same(minus.clamp(plus, 1.0), -0.0)),
        ("clamp keeps +0 at an upper end of -0", same(plus.clamp(-1.0, minus), 0.0)),
    ]
}

fn neighbours() -> Vec<(&'static str, bool)> {
    let least = f64::from_bits(1);
    let (zero, one) = (black_box(0.0_f64), black_box(1.0_f64));
    let infinite = black_box(f64::INFINITY);
    vec![
        ("up from 1 is 1 + 2^-52", same(one.next_up(), 1.0 + f64::EPSILON)),
        ("up from 0 is 2^-1074", same(zero.next_up(), least)),
        ("up from -2^-1074 is -0", same(black_box(-least).next_up(), -0.0)),
        ("down from 0 is -2^-1074", same(zero.next_down(), -least)),
        ("down from +inf is the largest", same(infinite.next_down(), f64::MAX)),
        ("up from +inf is +inf", same(infinite.next_up(), f64::INFINITY)),
    ]
}
