//! The entry and the report program against the original, case by case.

use crate::call::{Entry, difference};
use crate::cuts::Cuts;
use crate::expected::Expected;
use crate::tally::Tally;
use crate::work;
use oracle::cases::{EVERY_SIZE, case};
use oracle::fit::Fit;
use oracle::play::{play, report_lines};
use oracle::record;
use oracle::refusal::Refusal;

/// Room behind a point.
const SPARE: usize = 40;
/// One case in so many is also called with slices that are too short.
const SAMPLE: u64 = 16;

/// The report program: what it prints for a record.
pub type Report<'a> = dyn Fn(&[u8]) -> Result<String, String> + Sync + 'a;

/// The two programs under comparison.
pub struct Programs<'a> {
    pub entry: &'a Entry<'a>,
    pub report: &'a Report<'a>,
}

/// Compares the generator's cases.
pub fn compare(programs: &Programs, seed: u64, count: u64) -> Tally {
    work::spread(count, |index, tally| {
        let (origin, input) = case(seed, index, &EVERY_SIZE);
        tally.count("origin", format!("{origin:?}").to_lowercase(), 1);
        let how = one(programs, index, &input, tally);
        tally.case(index, &input, how);
    })
}

/// How an input's answers differ, the first difference met.
fn one(programs: &Programs, index: u64, input: &[u8], tally: &mut Tally) -> Option<String> {
    let played = play(input);
    count_answer(&played, tally);
    let expected = Expected::of(&played);
    let room = expected.point.len() + SPARE;
    difference(programs.entry, input, room, &expected)
        .or_else(|| too_short(programs.entry, index, input, &expected, tally))
        .or_else(|| played.as_ref().ok().and_then(|fit| questions(programs, input, fit, tally)))
        .or_else(|| report(programs.report, input, &played, tally))
}

fn count_answer(played: &Result<Fit, Refusal>, tally: &mut Tally) {
    match played {
        Err(refusal) => tally.count("refused", refusal.number, 1),
        Ok(fit) => match (fit.open, fit.report()) {
            (Some(_), _) => tally.count("status", 0, 1),
            (None, Some(report)) => tally.count("status", report.status, 1),
            (None, None) => tally.count("status", 8, 1),
        },
    }
}

/// Slices one byte too short, empty, and just long enough.
fn too_short(
    entry: &Entry,
    index: u64,
    input: &[u8],
    expected: &Expected,
    tally: &mut Tally,
) -> Option<String> {
    if index % SAMPLE != 0 {
        return None;
    }
    let length = expected.point.len();
    let rooms = [length.saturating_sub(1), 0, length];
    tally.count("compared", "short slices", 2);
    rooms.iter().find_map(|&room| difference(entry, input, room, expected))
}

/// The record cut after some replies: each question in sequence.
fn questions(programs: &Programs, input: &[u8], fit: &Fit, tally: &mut Tally) -> Option<String> {
    let record = record::read(input).expect("an accepted record");
    let cuts = Cuts::of(&record);
    let chosen = cuts.chosen(fit.questions.len() - 1);
    tally.count("compared", "questions", chosen.len() as u64);
    for count in chosen {
        let expected = Expected::asked(&fit.questions[count]);
        let room = expected.point.len();
        if let Some(how) = difference(programs.entry, &cuts.cut(count), room, &expected) {
            return Some(format!("after {count} of {} replies {how}", cuts.replies()));
        }
    }
    None
}

/// The report program's text.
fn report(
    program: &Report,
    input: &[u8],
    played: &Result<Fit, Refusal>,
    tally: &mut Tally,
) -> Option<String> {
    tally.count("compared", "reports", 1);
    match program(input) {
        Err(how) => Some(how),
        Ok(text) if text == report_lines(played) => None,
        Ok(text) => Some(format!("the report is {text:?}, not {:?}", report_lines(played))),
    }
}
