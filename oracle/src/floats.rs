//! Random floats of several tempers.

use crate::random::Random;

/// Bit patterns at the edges of the format, without their signs.
const EDGES: [u64; 16] = [
    0x0000_0000_0000_0000, // zero
    0x0000_0000_0000_0001, // least subnormal
    0x000F_FFFF_FFFF_FFFF, // largest subnormal
    0x0010_0000_0000_0000, // least normal
    0x3CB0_0000_0000_0000, // 2^-52
    0x3FEF_FFFF_FFFF_FFFF, // below 1
    0x3FF0_0000_0000_0000, // 1
    0x3FF0_0000_0000_0001, // above 1
    0x4202_A05F_2000_0000, // 1e10
    0x5FE0_0000_0000_0000, // square root of the largest power of two
    0x7FE0_0000_0000_0000, // largest power of two
    0x7FEF_FFFF_FFFF_FFFF, // largest
    0x7FF0_0000_0000_0000, // infinity
    0x7FF8_0000_0000_0000, // the NaN that stands for absent
    0x7FF0_0000_0000_0001, // signalling NaN
    0x7FFD_EADB_EEF0_0123, // NaN with a payload
];

const SIGN: u64 = 1 << 63;

/// A float of any kind: the edges, any bits, a random magnitude.
pub fn odd(random: &mut Random) -> f64 {
    let sign = random.word() & SIGN;
    let bits = match random.below(4) {
        0 | 1 => random.pick(&EDGES) | sign,
        2 => random.word(),
        _ => magnitude(random, 1022).to_bits() | sign,
    };
    f64::from_bits(bits)
}

/// A finite float of any kind.
pub fn odd_finite(random: &mut Random) -> f64 {
    loop {
        let value = odd(random);
        if value.is_finite() {
            return value;
        }
    }
}

/// A NaN of any payload, or an infinity.
pub fn nonfinite(random: &mut Random) -> f64 {
    let payload = random.word() & 0x000F_FFFF_FFFF_FFFF;
    let bits = match random.below(4) {
        0 => 0x7FF0_0000_0000_0000,
        1 => 0xFFF0_0000_0000_0000,
        2 => 0x7FF8_0000_0000_0000,
        _ => 0x7FF0_0000_0000_0000 | payload | (random.word() & SIGN),
    };
    f64::from_bits(bits)
}

/// Between -4 and 4: of full length, or a multiple of 1/4 for exact ties.
pub fn moderate(random: &mut Random) -> f64 {
    if random.percent(50) {
        random.between(0, 32) as f64 / 4.0 - 4.0
    } else {
        random.unit() * 8.0 - 4.0
    }
}

/// From 2^-4 to 4, full or a power of two.
pub fn positive(random: &mut Random) -> f64 {
    if random.percent(50) {
        power_of_two(random.between(0, 6) as i32 - 4)
    } else {
        0.0625 + random.unit() * 4.0
    }
}

/// 2^exponent, for a normal exponent.
pub fn power_of_two(exponent: i32) -> f64 {
    f64::from_bits(((exponent + 1023) as u64) << 52)
}

/// A positive float whose exponent lies within `reach` of 0.
pub fn magnitude(random: &mut Random, reach: i32) -> f64 {
    let exponent = random.between(0, 2 * reach as usize) as i32 - reach;
    (1.0 + random.unit()) * power_of_two(exponent)
}

/// A float some steps up or down from this one.
pub fn nudge(random: &mut Random, value: f64) -> f64 {
    let mut moved = value;
    for _ in 0..random.below(4) {
        moved = moved.next_up();
    }
    for _ in 0..random.below(4) {
        moved = moved.next_down();
    }
    moved
}

/// A computed float's bits: which NaN an operation gives differs between
/// machines, so all are written as one.
pub fn bits(computed: f64) -> u64 {
    if computed.is_nan() { 0x7FF8_0000_0000_0000 } else { computed.to_bits() }
}
