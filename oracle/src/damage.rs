//! Records damaged on purpose. Some keep their old sums; in most the sums are
//! made right again, so that a later check is the one met.

use crate::cases::Case;
use crate::entry::Reply;
use crate::floats::{magnitude, nonfinite, odd};
use crate::random::Random;
use crate::record::{self, INPUT_LIMIT};
use crate::setup::{ABSENT, HEAD_WORDS, Setup};

const TRAILER_BYTES: usize = 32;

/// The case's record with damage of a random kind.
pub fn damaged(random: &mut Random, case: &Case) -> Vec<u8> {
    match random.below(20) {
        0..=4 => damaged_bytes(random, record::write(&case.words())),
        5 | 6 => damaged_layout(random, case),
        7..=12 => damaged_setup(random, case),
        13..=17 => damaged_log(random, case),
        18 => {
            let mut words = case.words();
            change_word(random, &mut words);
            record::write(&words)
        }
        _ => {
            let bytes = damaged_setup(random, case);
            damaged_bytes(random, bytes)
        }
    }
}

fn change_word(random: &mut Random, words: &mut [u64]) {
    let place = random.below(words.len());
    words[place] = match random.below(4) {
        0 => words[place] ^ 1 << random.below(64),
        1 => words[place].wrapping_add(1),
        2 => odd(random).to_bits(),
        _ => random.word(),
    };
}

/// Damage to the bytes as they stand, sums left as they were.
fn damaged_bytes(random: &mut Random, mut bytes: Vec<u8>) -> Vec<u8> {
    match random.below(11) {
        0 => bytes.split_off(bytes.len() - random.below(TRAILER_BYTES)),
        1 => bytes.split_off(random.between(1, bytes.len() - TRAILER_BYTES)),
        2 | 3 => replaced(bytes, 1, version(random)),
        4 | 5 => {
            let length = length(random, bytes.len());
            replaced(bytes, 0, length)
        }
        6 => {
            let place = random.pick(&[2, 3]);
            let word = random.word();
            replaced(bytes, place, word)
        }
        7..=9 => {
            let mut words = record::words_of(&bytes);
            let body = words.len() - TRAILER_BYTES / 8;
            if random.percent(70) {
                change_word(random, &mut words[..body]);
            } else {
                words.swap(random.below(body), random.below(body));
            }
            words.iter().flat_map(|word| word.to_le_bytes()).collect()
        }
        _ => {
            let cut = random.below(bytes.len());
            bytes.truncate(cut);
            bytes
        }
    }
}

/// The bytes with the word that many places before the last replaced.
fn replaced(mut bytes: Vec<u8>, place: usize, word: u64) -> Vec<u8> {
    let end = bytes.len() - 8 * place;
    bytes[end - 8..end].copy_from_slice(&word.to_le_bytes());
    bytes
}

fn version(random: &mut Random) -> u64 {
    let any = random.word();
    random.pick(&[0, 2, 3, 4, 0x0100, 1 << 32 | 1, 1 << 56, u64::MAX, any])
}

/// A length that is wrong: too large by one, so large that eight times it
/// wraps round, or too small.
fn length(random: &mut Random, bytes: usize) -> u64 {
    let right = (bytes / 8 - 4) as u64;
    let less = random.below(right as usize + 1) as u64;
    let any = random.word();
    random.pick(&[
        right + 1,
        right + 4,
        right | 1 << 61,
        right | 1 << 62,
        right | 1 << 63,
        1 << 61,
        u64::MAX,
        less,
        any,
    ])
}

/// Damage to the shape of the setup: flags, spare bits, coordinate count.
fn damaged_layout(random: &mut Random, case: &Case) -> Vec<u8> {
    let mut words = case.words();
    match random.below(6) {
        0 | 1 => words[0] |= 1 << random.between(18, 63),
        2 => words.truncate(random.below(case.setup.words().len())),
        3 => words[0] = words[0] & !0xFF | random.below(256) as u64,
        4 => words[0] ^= 1 << 16,
        _ => {
            words[0] &= !0xFF;
            words.drain(HEAD_WORDS..case.setup.words().len());
        }
    }
    record::write(&words)
}

/// One to three rules of the setup broken, or nearly.
fn damaged_setup(random: &mut Random, case: &Case) -> Vec<u8> {
    let mut setup = case.setup.clone();
    for _ in 0..random.pick(&[1, 1, 1, 2, 3]) {
        break_setup(random, &mut setup);
    }
    let mut words = setup.words();
    if setup.n() == case.setup.n() {
        words.extend(&case.log);
    }
    record::write(&words)
}

fn break_setup(random: &mut Random, setup: &mut Setup) {
    match random.below(12) {
        0 => {
            let place = random.below(setup.n());
            setup.x0[place] = nonfinite(random).to_bits();
        }
        1..=4 => break_bounds(random, setup),
        5 => setup.tol = wrong_option(random),
        6 => setup.eps = wrong_option(random),
        7 => setup.ftol = wrong_option(random),
        8 => setup.gtol = wrong_option(random),
        9 => setup.maxcor = random.pick(&[16, 17, 17, 32, 100, 255]),
        10 => {
            let over = random.pick(&[1_000_000, 1_000_001, 1_000_001, 1 << 32, 1 << 63, u64::MAX]);
            let budget = if random.percent(50) { &mut setup.maxiter } else { &mut setup.maxfev };
            *budget = over;
        }
        _ => {
            let n = random.pick(&[64, 65, 65, 65, 66, 100, 128, 255]);
            grow(setup, n);
        }
    }
}

/// Repeats the last coordinate until there are `n`.
fn grow(setup: &mut Setup, n: usize) {
    let sides = setup.bounds.iter_mut().flatten();
    for part in std::iter::once(&mut setup.x0).chain(sides) {
        let last = part[part.len() - 1];
        part.resize(n, last);
    }
}

/// A word at the edge of what tol, ftol, gtol or eps may be.
fn wrong_option(random: &mut Random) -> u64 {
    let some = -magnitude(random, 100);
    let wrong = nonfinite(random).to_bits();
    let any = odd(random).to_bits();
    random.weighted(&[
        (15, 0),
        (10, (-0.0_f64).to_bits()),
        (10, some.to_bits()),
        (25, wrong),
        (10, ABSENT | 1),
        (10, ABSENT | 1 << 63),
        (5, ABSENT),
        (15, any),
    ])
}

/// Breaks the box at one coordinate, giving the setup a box if it has none.
fn break_bounds(random: &mut Random, setup: &mut Setup) {
    let n = setup.n();
    let open = [vec![f64::NEG_INFINITY.to_bits(); n], vec![f64::INFINITY.to_bits(); n]];
    let [lower, upper] = setup.bounds.get_or_insert(open);
    let place = random.below(n);
    let infinite = f64::INFINITY.to_bits();
    let minus_infinite = f64::NEG_INFINITY.to_bits();
    let nan = 0x7FF0_0000_0000_0000 | random.word() & 0x800F_FFFF_FFFF_FFFF | 1;
    match random.below(7) {
        0 => lower[place] = nan,
        1 => upper[place] = nan,
        2 => (lower[place], upper[place]) = (2.0_f64.to_bits(), 1.0_f64.to_bits()),
        3 => (lower[place], upper[place]) = (infinite, infinite),
        4 => (lower[place], upper[place]) = (minus_infinite, minus_infinite),
        5 => (lower[place], upper[place]) = (infinite, minus_infinite),
        _ => {
            let end = f64::from_bits(setup.x0[place]);
            (lower[place], upper[place]) = (end.next_up().to_bits(), end.to_bits());
        }
    }
}

/// Damage to the log's entries, sums made right.
fn damaged_log(random: &mut Random, case: &Case) -> Vec<u8> {
    let mut log = case.log.clone();
    let entry = random.below(case.starts.len().max(1));
    let start = case.starts.get(entry).copied().unwrap_or(0);
    let end = case.starts.get(entry + 1).copied().unwrap_or(log.len());
    match random.below(7) {
        0 => log.splice(start..start, [unknown_kind(random)]).for_each(drop),
        1 => log.truncate(random.below(log.len() + 1)),
        2 => drop(log.drain(start..end)),
        3 => {
            let again = log[start..end].to_vec();
            log.splice(start..start, again).for_each(drop);
        }
        4 if start < end => log[start] = random.between(0, 8) as u64,
        5 => {
            let mut other = Vec::new();
            some_reply(random, case.setup.n()).write(&mut other);
            log.splice(start..end, other).for_each(drop);
        }
        _ => {
            some_reply(random, case.setup.n()).write(&mut log);
            if random.percent(10) {
                log.push(random.word());
            }
        }
    }
    record::write(&[case.setup.words(), log].concat())
}

fn unknown_kind(random: &mut Random) -> u64 {
    let any = random.word();
    random.pick(&[0, 7, 8, 9, 0x0101, 1 << 32 | 1, u64::MAX, any])
}

fn some_reply(random: &mut Random, n: usize) -> Reply {
    match random.below(6) {
        0 => Reply::Value(odd(random).to_bits()),
        1 => Reply::Gradient((0..n).map(|_| odd(random).to_bits()).collect()),
        2 => Reply::NotSupplied,
        3 => Reply::GoOn,
        4 => Reply::Stop,
        _ => Reply::Failure,
    }
}

/// The record with random bytes ahead of it.
pub fn with_bytes_ahead(random: &mut Random, bytes: &[u8], count: usize) -> Vec<u8> {
    let ahead = (0..count).map(|_| random.word() as u8);
    ahead.chain(bytes.iter().copied()).collect()
}

/// The record brought to just the longest input, or one byte over it.
pub fn at_the_input_limit(random: &mut Random, bytes: &[u8], over: usize) -> Vec<u8> {
    with_bytes_ahead(random, bytes, INPUT_LIMIT + over - bytes.len())
}
