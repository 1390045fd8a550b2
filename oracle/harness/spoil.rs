//! Damage to an input's bytes, whatever they hold.

use oracle::cases::{EVERY_SIZE, case, in_domain};
use oracle::floats::odd;
use oracle::random::Random;
use oracle::record::{self, INPUT_LIMIT};

const TRAILER_BYTES: usize = 32;

/// The kinds of damage.
const KINDS: [&str; 11] = [
    "bits flipped",
    "bytes changed",
    "cut",
    "joined",
    "random",
    "words swapped",
    "words changed",
    "words moved",
    "length word",
    "input length",
    "generator's",
];

/// The damaged input of an index, and the kind of its damage.
pub fn spoiled(seed: u64, index: u64) -> (&'static str, Vec<u8>) {
    let mut random = Random::of_case(seed.rotate_left(32), index);
    loop {
        let kind = random.below(KINDS.len());
        let mut bytes = spoil(&mut random, kind);
        if random.percent(40) {
            bytes = with_right_sums(bytes);
        }
        if in_domain(&bytes) {
            return (KINDS[kind], bytes);
        }
    }
}

fn spoil(random: &mut Random, kind: usize) -> Vec<u8> {
    let bytes = drawn(random);
    match kind {
        0 => flipped(random, bytes),
        1 => changed(random, bytes),
        2 => cut(random, bytes),
        3 => joined(random, bytes),
        4 => noise(random),
        5..=7 => with_words(random, &bytes, kind),
        8 => with_length(random, bytes),
        9 => of_length(random, bytes),
        _ => bytes,
    }
}

/// Some case of the generator, damaged or not.
fn drawn(random: &mut Random) -> Vec<u8> {
    case(random.word(), 0, &EVERY_SIZE).1
}

fn flipped(random: &mut Random, mut bytes: Vec<u8>) -> Vec<u8> {
    for _ in 0..random.pick(&[1, 1, 1, 2, 8]) {
        if let Some(place) = place(random, bytes.len()) {
            bytes[place] ^= 1 << random.below(8);
        }
    }
    bytes
}

fn changed(random: &mut Random, mut bytes: Vec<u8>) -> Vec<u8> {
    for _ in 0..random.pick(&[1, 1, 2, 4, 64]) {
        if let Some(place) = place(random, bytes.len()) {
            bytes[place] = random.pick(&[0, 1, 2, 6, 7, 8, 0x7F, 0x80, 0xF0, 0xFF]);
        }
    }
    bytes
}

/// A place of these, near an end as often as elsewhere.
fn place(random: &mut Random, length: usize) -> Option<usize> {
    if length == 0 {
        return None;
    }
    let near = random.below(length.min(40));
    let any = random.below(length);
    Some(random.pick(&[any, any, near, length - 1 - near]))
}

/// Bytes gone at the front, at the back, or in the middle.
fn cut(random: &mut Random, mut bytes: Vec<u8>) -> Vec<u8> {
    let end = random.below(bytes.len() + 1);
    let start = random.below(end + 1);
    match random.below(4) {
        0 => bytes.truncate(end),
        1 => drop(bytes.drain(..start)),
        2 => drop(bytes.drain(start..end)),
        _ => bytes.truncate(bytes.len().saturating_sub(random.between(1, 9))),
    }
    bytes
}

/// Two inputs, or parts of them, one behind the other.
fn joined(random: &mut Random, bytes: Vec<u8>) -> Vec<u8> {
    let other = drawn(random);
    let front = random.below(bytes.len() + 1);
    let back = random.below(other.len() + 1);
    match random.below(4) {
        0 => [bytes, other].concat(),
        1 => [&bytes[..front], &other[back..]].concat(),
        2 => [&bytes[..], &bytes[front..]].concat(),
        _ => [&bytes[front / 8 * 8..], &other[back / 8 * 8..]].concat(),
    }
}

/// Random bytes, or random words with a trailer that fits them.
fn noise(random: &mut Random) -> Vec<u8> {
    let count = random.pick(&[0, 1, 4, 7, 12, 30, 200, 8188]);
    let words: Vec<u64> = (0..count).map(|_| some_word(random)).collect();
    if random.percent(70) {
        return record::write(&words);
    }
    let length = random.below(8 * count + 8);
    (0..length).map(|_| random.word() as u8).collect()
}

/// A word that could stand in a record, or any.
fn some_word(random: &mut Random) -> u64 {
    let small = random.below(9) as u64;
    let shape = random.below(66) as u64 | (random.below(18) as u64) << 8;
    let float = odd(random).to_bits();
    let any = random.word();
    random.pick(&[small, small, shape | (small & 3) << 16, float, any])
}

/// The words swapped, changed, or moved up or down from some place on.
fn with_words(random: &mut Random, bytes: &[u8], kind: usize) -> Vec<u8> {
    let mut words = record::words_of(bytes);
    if words.is_empty() {
        return Vec::new();
    }
    let (first, second) = (random.below(words.len()), random.below(words.len()));
    match kind {
        5 => words.swap(first, second),
        6 => words[first] = some_word(random),
        _ if random.percent(50) => words.insert(first, some_word(random)),
        _ => drop(words.remove(first)),
    }
    words.iter().flat_map(|word| word.to_le_bytes()).collect()
}

/// The last word: about what fits, about where it wraps, or anything.
fn with_length(random: &mut Random, mut bytes: Vec<u8>) -> Vec<u8> {
    if bytes.len() < 8 {
        return bytes;
    }
    let fits = (bytes.len().saturating_sub(TRAILER_BYTES) / 8) as u64;
    let near = random.pick(&[0, 1, 7, 8, fits, fits / 2, 8188, 8192, 1 << 61, 1 << 63]);
    let word = near.wrapping_add(random.below(5) as u64).wrapping_sub(2);
    let last = bytes.len() - 8;
    bytes[last..].copy_from_slice(&word.to_le_bytes());
    bytes
}

/// The whole brought to a length at an edge, with bytes ahead or without some.
fn of_length(random: &mut Random, bytes: Vec<u8>) -> Vec<u8> {
    let over = random.below(20);
    let length = match random.below(4) {
        0 => random.below(TRAILER_BYTES + 9),
        1 => INPUT_LIMIT - 8 + over,
        2 => bytes.len() + over,
        _ => bytes.len().saturating_sub(over),
    };
    match length.checked_sub(bytes.len()) {
        Some(more) => {
            let ahead = (0..more).map(|_| random.word() as u8);
            ahead.chain(bytes.iter().copied()).collect()
        }
        None => bytes[bytes.len() - length..].to_vec(),
    }
}

/// The sums made right for as many words as the trailer tells, if there are.
fn with_right_sums(mut bytes: Vec<u8>) -> Vec<u8> {
    let Some(ahead) = bytes.len().checked_sub(TRAILER_BYTES) else { return bytes };
    let count = record::words_of(&bytes[ahead..])[3];
    if count > (ahead / 8) as u64 {
        return bytes;
    }
    let words = record::words_of(&bytes[ahead - 8 * count as usize..ahead]);
    let [sum, sum_of_sums] = record::sums(&words);
    bytes[ahead..ahead + 8].copy_from_slice(&sum.to_le_bytes());
    bytes[ahead + 8..ahead + 16].copy_from_slice(&sum_of_sums.to_le_bytes());
    bytes
}
