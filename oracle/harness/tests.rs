//! Checks that the harness sees what is wrong: stand-ins for the archive's
//! entry and the report program, each wrong in one thing.

use crate::call::{Entry, difference};
use crate::compare::{Programs, Report, compare};
use crate::cuts::Cuts;
use crate::damaged;
use crate::expected::Expected;
use crate::program;
use oracle::named::{input, parabola};
use oracle::play::{play, report_lines};
use oracle::record;

const SEED: u64 = 1;
const CASES: u64 = 100;

/// What the archive's entry should do, by the original.
fn right(bytes: &[u8], out: &mut [u8]) -> u64 {
    let answer = Expected::of(&play(bytes)).within(out.len());
    out[..answer.point.len()].copy_from_slice(&answer.point);
    answer.number
}

fn right_report(bytes: &[u8]) -> Result<String, String> {
    Ok(report_lines(&play(bytes)))
}

/// Cases that fail with this entry, in both comparisons.
fn failures(entry: &Entry) -> [u64; 2] {
    let programs = Programs { entry, report: &right_report };
    [compare(&programs, SEED, CASES).failed, damaged::compare(entry, SEED, CASES).failed]
}

fn report_failures(report: &Report) -> u64 {
    compare(&Programs { entry: &right, report }, SEED, CASES).failed
}

/// Whether an entry that changes the right one's answer fails in both.
fn is_seen(change: impl Fn(&[u8], &mut [u8], u64) -> u64 + Sync) -> bool {
    let wrong = |bytes: &[u8], out: &mut [u8]| {
        let number = right(bytes, out);
        change(bytes, out, number)
    };
    failures(&wrong).iter().all(|&failed| failed > 0)
}

#[test]
fn the_right_answers_pass() {
    assert_eq!(failures(&right), [0, 0]);
    assert_eq!(report_failures(&right_report), 0);
}

#[test]
fn a_wrong_number_fails() {
    assert!(is_seen(|_, _, number| if number == 1 { 2 } else { number }));
    assert!(is_seen(|_, _, number| if number == 118 { 117 } else { number }));
    assert!(is_seen(|_, _, number| if number == 119 { 1 } else { number }));
}

#[test]
fn a_wrong_bit_fails() {
    assert!(is_seen(|_, out, number| {
        if number < 4 && out.len() >= 8 {
            out[0] ^= 1;
        }
        number
    }));
}

#[test]
fn a_byte_past_the_point_fails() {
    assert!(is_seen(|bytes, out, number| {
        let length = Expected::of(&play(bytes)).point.len();
        if let Some(byte) = out.get_mut(length) {
            *byte ^= 0xFF;
        }
        number
    }));
}

#[test]
fn a_byte_where_the_slice_is_too_short_fails() {
    assert!(is_seen(|_, out, number| {
        if number == 119 && !out.is_empty() {
            out[0] ^= 1;
        }
        number
    }));
}

#[test]
fn a_byte_past_the_slice_is_seen() {
    let (setup, log) = parabola();
    let whole = input(&setup, &log);
    let expected = Expected::of(&play(&whole));
    let past = |bytes: &[u8], out: &mut [u8]| {
        let number = right(bytes, out);
        // SAFETY: the slice stands between guards of 64 bytes.
        unsafe { *out.as_mut_ptr().add(out.len()) ^= 1 };
        number
    };
    assert_eq!(difference(&right, &whole, 8, &expected), None);
    assert!(difference(&past, &whole, 8, &expected).is_some());
    assert!(difference(&past, &whole, 7, &expected).is_some());
}

/// Wrong only where exactly two replies were given.
#[test]
fn a_wrong_question_in_the_midst_fails() {
    let wrong = |bytes: &[u8], out: &mut [u8]| {
        let number = right(bytes, out);
        let asked = play(bytes).map_or(0, |fit| fit.questions.len());
        if asked == 3 && number != 0 { number % 3 + 1 } else { number }
    };
    let cut = compare(&Programs { entry: &wrong, report: &right_report }, SEED, CASES);
    assert!(cut.failed > CASES / 4, "{}", cut.failed);
    assert!(cut.differing().contains("after 2 of"), "{}", cut.differing());
}

#[test]
fn a_wrong_report_fails() {
    let wrong = |bytes: &[u8]| right_report(bytes).map(|text| text.replace("nfev 2", "nfev 3"));
    assert!(report_failures(&wrong) > 0);
    let cut = |bytes: &[u8]| right_report(bytes).map(|text| text[..text.len() - 1].to_string());
    assert_eq!(report_failures(&cut), CASES);
    let gone = |bytes: &[u8]| program::printed("/nonexistent/report", bytes);
    assert_eq!(report_failures(&gone), CASES);
}

#[test]
fn a_program_gets_its_record() {
    let text = "fun fff8000000000001\nx fff8000000000001\n";
    let one = "fun 7ff8000000000000\nx fff8000000000001\n";
    assert_eq!(program::printed("cat", text.as_bytes()), Ok(one.to_string()));
    assert_eq!(program::printed("true", &[0; 65_536 * 2]), Ok(String::new()));
}

#[test]
fn cuts_of_a_record() {
    let (setup, log) = parabola();
    let whole = input(&setup, &log);
    let cuts = Cuts::of(&record::read(&whole).expect("a record"));
    assert_eq!(cuts.replies(), 5);
    assert_eq!(cuts.cut(5), whole);
    assert_eq!(cuts.cut(0), input(&setup, &[]));
    assert_eq!(cuts.chosen(4), [0, 1, 2, 3, 4]);
    let spread = cuts.chosen(1000);
    assert_eq!((spread.len(), spread[0], spread[80]), (81, 0, 1000));
    assert!(spread.is_sorted_by(|first, second| first < second));
}
