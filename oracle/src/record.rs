//! The record: reading one from the end of an input, writing one of version 1.

use crate::refusal::Refusal;
use crate::setup::Setup;

/// The longest input a program takes.
pub const INPUT_LIMIT: usize = 65_536;
const TRAILER_BYTES: usize = 32;
/// The version that is written.
const VERSION: u64 = 1;
const MALFORMED: Refusal = Refusal::plain(17);
const SUMS: Refusal = Refusal::plain(18);

/// A setup that passed every check, and the log's words, still unread.
#[derive(Debug)]
pub struct Record {
    pub setup: Setup,
    pub log: Vec<u64>,
}

type ReadSetup = fn(&[u64]) -> Result<(Setup, &[u64]), Refusal>;

/// How the setup of a version is read, where the version is known.
fn setup_of(version: u64) -> Option<ReadSetup> {
    match version {
        1 => Some(Setup::read),
        _ => None,
    }
}

/// Document 01's row "record in", up to its entries: those need the fit.
pub fn read(input: &[u8]) -> Result<Record, Refusal> {
    if input.len() > INPUT_LIMIT {
        return Err(MALFORMED);
    }
    let (read_setup, words) = body(input)?;
    let (setup, log) = read_setup(&words)?;
    setup.check()?;
    Ok(Record { setup, log: log.to_vec() })
}

/// The words before the trailer and how their setup is read, with version, length
/// and sums checked.
fn body(input: &[u8]) -> Result<(ReadSetup, Vec<u64>), Refusal> {
    let ahead = input.len().checked_sub(TRAILER_BYTES).ok_or(MALFORMED)?;
    let (before, trailer) = input.split_at(ahead);
    let [sum, sum_of_sums, version, length] = words_of(trailer)[..] else {
        unreachable!("a trailer has four words")
    };
    let read_setup = setup_of(version).ok_or(MALFORMED)?;
    if length > (ahead / 8) as u64 {
        return Err(MALFORMED);
    }
    let words = words_of(&before[ahead - 8 * length as usize..]);
    if sums(&words) != [sum, sum_of_sums] {
        return Err(SUMS);
    }
    Ok((read_setup, words))
}

/// The words' sum and the sum of their running sums, modulo 2^64.
pub fn sums(words: &[u64]) -> [u64; 2] {
    words.iter().fold([0, 0], |[sum, sum_of_sums], &word| {
        let next = u64::wrapping_add(sum, word);
        [next, u64::wrapping_add(sum_of_sums, next)]
    })
}

/// The record whose words before the trailer are these.
pub fn write(words: &[u64]) -> Vec<u8> {
    let [sum, sum_of_sums] = sums(words);
    let trailer = [sum, sum_of_sums, VERSION, words.len() as u64];
    words.iter().chain(&trailer).flat_map(|word| word.to_le_bytes()).collect()
}

pub fn words_of(bytes: &[u8]) -> Vec<u64> {
    bytes
        .chunks_exact(8)
        .map(|chunk| u64::from_le_bytes(chunk.try_into().expect("eight bytes")))
        .collect()
}
