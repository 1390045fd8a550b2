//! One call of an entry, compared with what it must answer.

use crate::expected::Expected;

/// The archive's entry, or a stand-in for it.
pub type Entry<'a> = dyn Fn(&[u8], &mut [u8]) -> u64 + Sync + 'a;

/// Bytes on both sides of the output slice, which no call may change.
const GUARD: usize = 64;

/// How the entry's answer differs, the output slice being of `room` bytes.
pub fn difference(
    entry: &Entry,
    record: &[u8],
    room: usize,
    expected: &Expected,
) -> Option<String> {
    let wanted = expected.within(room);
    let mut bytes: Vec<u8> = (0..room + 2 * GUARD).map(pattern).collect();
    let number = entry(record, &mut bytes[GUARD..GUARD + room]);
    if number != wanted.number {
        return Some(format!("the entry returns {number}, not {}", wanted.number));
    }
    let point = GUARD..GUARD + wanted.point.len();
    let differs = |place: usize| match point.contains(&place) {
        true => bytes[place] != wanted.point[place - GUARD],
        false => bytes[place] != pattern(place),
    };
    let place = (0..bytes.len()).find(|&place| differs(place))?;
    let place = place as isize - GUARD as isize;
    Some(format!("returning {number} the entry leaves byte {place} of {room} wrong"))
}

/// What stands in the output before the call.
fn pattern(place: usize) -> u8 {
    (place as u8).wrapping_mul(37) ^ 0xA5
}
