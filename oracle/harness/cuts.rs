//! A record cut after some of its replies and sealed anew.

use oracle::entry::Reply;
use oracle::record::{self, Record};

/// Up to this many replies, a record is cut after each.
const EVERY: usize = 300;
/// Cuts of a longer one: some at equal distances, and the last.
const SPREAD: usize = 60;
const LAST: usize = 20;

pub struct Cuts {
    words: Vec<u64>,
    /// The number of words with that many replies.
    ends: Vec<usize>,
}

impl Cuts {
    pub fn of(record: &Record) -> Self {
        let mut words = record.setup.words();
        let mut ends = vec![words.len()];
        words.extend(&record.log);
        let mut left = record.log.as_slice();
        while let Some((_, rest)) = Reply::read(left, record.setup.n()) {
            left = rest;
            ends.push(words.len() - left.len());
        }
        Self { words, ends }
    }

    pub fn replies(&self) -> usize {
        self.ends.len() - 1
    }

    /// The record with the first `count` replies.
    pub fn cut(&self, count: usize) -> Vec<u8> {
        record::write(&self.words[..self.ends[count]])
    }

    /// The numbers of replies to cut after, at most `most`.
    pub fn chosen(&self, most: usize) -> Vec<usize> {
        if most <= EVERY {
            return (0..=most).collect();
        }
        let last = most - LAST;
        let spread = (0..SPREAD).map(|step| step * last / SPREAD);
        spread.chain(last..=most).collect()
    }
}
