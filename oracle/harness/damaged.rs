//! Damaged inputs through the entry alone.

use crate::call::{Entry, difference};
use crate::expected::Expected;
use crate::spoil::spoiled;
use crate::tally::Tally;
use crate::work;
use oracle::play::play;

/// Compares the entry's reading of damaged inputs with the oracle's.
pub fn compare(entry: &Entry, seed: u64, count: u64) -> Tally {
    work::spread(count, |index, tally| {
        let (kind, bytes) = spoiled(seed, index);
        // An allocation of just this length, so that a checker sees what is read past it.
        let input = bytes.into_boxed_slice();
        tally.count("damage", kind, 1);
        let expected = Expected::of(&play(&input));
        if expected.number > 100 {
            tally.count("refused", expected.number - 100, 1);
        } else {
            tally.count("compared", "accepted", 1);
        }
        let length = expected.point.len();
        let rooms = [length, length.saturating_sub(1), 0, length + 8];
        let how = rooms.iter().find_map(|&room| difference(entry, &input, room, &expected));
        tally.case(index, &input, how);
    })
}
