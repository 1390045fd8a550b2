//! Checks of the oracle itself: the record reader on each refusal, the cases
//! of document 01, running fits, and the generator.

use crate::cases::{EVERY_SIZE, Origin, case};
use crate::entry::{Kind, Reply};
use crate::fit::Fit;
use crate::named::{self, input, parabola, plain};
use crate::play::{play, report_lines};
use crate::record::{self, Record};
use crate::refusal::Refusal;
use crate::setup::{ABSENT, Setup};
use itofin_optimize::{Leaves, Model};

const INFINITE: f64 = f64::INFINITY;
const NAN: f64 = f64::NAN;

fn refusal(input: &[u8]) -> [u64; 3] {
    let refusal = play(input).err().unwrap_or(Refusal::plain(0));
    [refusal.number, refusal.details[0], refusal.details[1]]
}

fn check_table(table: &[(&str, Vec<u8>, [u64; 3])]) {
    for (name, input, wanted) in table {
        assert_eq!(refusal(input), *wanted, "{name}");
    }
}

/// The parabola's record, with the word that many places before the last one
/// changed and nothing else.
fn with_trailer_word(place: usize, word: u64) -> Vec<u8> {
    let (setup, log) = parabola();
    let mut bytes = input(&setup, &log);
    let end = bytes.len() - 8 * place;
    bytes[end - 8..end].copy_from_slice(&word.to_le_bytes());
    bytes
}

/// The parabola's record with its words changed and its sums made right.
fn with_words(change: impl Fn(&mut Vec<u64>)) -> Vec<u8> {
    let (setup, log) = parabola();
    let mut words = [setup.words(), log].concat();
    change(&mut words);
    record::write(&words)
}

fn with_setup(change: impl Fn(&mut Setup)) -> Vec<u8> {
    let (mut setup, log) = parabola();
    change(&mut setup);
    input(&setup, &log)
}

#[test]
fn refusals_of_the_trailer() {
    let (setup, log) = parabola();
    let whole = input(&setup, &log);
    let length = (whole.len() / 8 - 4) as u64;
    let [sum, sum_of_sums] = record::sums(&[setup.words(), log].concat());
    let mut spoiled = with_trailer_word(1, 2);
    spoiled[0] ^= 1;
    check_table(&[
        ("whole", whole.clone(), [0, 0, 0]),
        ("nothing", Vec::new(), [17, 0, 0]),
        ("31 bytes", whole[whole.len() - 31..].to_vec(), [17, 0, 0]),
        ("a trailer alone", whole[whole.len() - 32..].to_vec(), [17, 0, 0]),
        ("version 0", with_trailer_word(1, 0), [17, 0, 0]),
        ("version 2", with_trailer_word(1, 2), [17, 0, 0]),
        ("version in the upper half", with_trailer_word(1, 1 << 32 | 1), [17, 0, 0]),
        ("version before sums", spoiled, [17, 0, 0]),
        ("one word too many", with_trailer_word(0, length + 1), [17, 0, 0]),
        ("eight times it wraps to the length", with_trailer_word(0, length | 1 << 61), [17, 0, 0]),
        ("eight times it wraps to 0", with_trailer_word(0, 1 << 61), [17, 0, 0]),
        ("the largest length", with_trailer_word(0, u64::MAX), [17, 0, 0]),
        ("one word too few", with_trailer_word(0, length - 1), [18, 0, 0]),
        ("no words", with_trailer_word(0, 0), [18, 0, 0]),
        ("the sum", with_trailer_word(3, sum + 1), [18, 0, 0]),
        ("the sum of sums", with_trailer_word(2, sum_of_sums + 1), [18, 0, 0]),
    ]);
}

#[test]
fn a_change_of_one_word_is_refused() {
    let (setup, log) = parabola();
    let whole = input(&setup, &log);
    for place in 0..whole.len() - 32 {
        for bit in 0..8 {
            let mut bytes = whole.clone();
            bytes[place] ^= 1 << bit;
            assert_eq!(refusal(&bytes), [18, 0, 0], "byte {place}, bit {bit}");
        }
    }
}

#[test]
fn bytes_ahead_are_ignored() {
    let (setup, log) = parabola();
    let whole = input(&setup, &log);
    let wanted = report_lines(&play(&whole));
    for count in 1..=17 {
        let ahead = [vec![0xA5; count], whole.clone()].concat();
        assert_eq!(report_lines(&play(&ahead)), wanted, "{count} bytes ahead");
    }
}

#[test]
fn refusals_of_the_layout() {
    let cut = |count: usize| with_words(|words| words.truncate(count));
    let spare = |bit: u32| with_words(|words| words[0] |= 1 << bit);
    let spare_and_cut = with_words(|words| {
        words[0] |= 1 << 63;
        words.truncate(8);
    });
    let mut table = vec![
        ("no words", cut(0), [17, 0, 0]),
        ("a first word", cut(1), [17, 0, 0]),
        ("one word short", cut(9), [17, 0, 0]),
        ("the setup alone", cut(10), [0, 0, 0]),
        ("spare and cut", spare_and_cut, [17, 0, 0]),
        ("more coordinates than words", with_words(|words| words[0] |= 0xFF), [17, 0, 0]),
    ];
    table.extend((18..64).map(|bit| ("spare bit", spare(bit), [17, 0, 0])));
    check_table(&table);
}

#[test]
fn refusals_of_the_problem() {
    let boxed =
        |x0: &[f64], lower: &[f64], upper: &[f64]| input(&plain(x0, Some([lower, upper])), &[]);
    check_table(&[
        ("empty x0", input(&plain(&[], None), &[]), [1, 0, 0]),
        ("infinite x0", input(&plain(&[0.0, INFINITE], None), &[]), [2, 1, 0]),
        ("x0 before bounds", boxed(&[1.0, NAN], &[NAN, 0.0], &[2.0, 1.0]), [2, 1, 0]),
        ("NaN below", boxed(&[0.0; 2], &[0.0, NAN], &[1.0, 1.0]), [4, 1, 0]),
        ("NaN above", boxed(&[0.0; 2], &[0.0, 0.0], &[NAN, 1.0]), [4, 0, 0]),
        ("below before above", boxed(&[0.0; 2], &[0.0, NAN], &[NAN, 1.0]), [4, 1, 0]),
        ("NaN before order", boxed(&[0.0; 2], &[2.0, 0.0], &[1.0, NAN]), [4, 1, 0]),
        ("order", boxed(&[0.0; 2], &[0.0, 2.0], &[1.0, 1.0]), [5, 1, 0]),
        ("+inf, -inf", boxed(&[0.0], &[INFINITE], &[-INFINITE]), [5, 0, 0]),
        ("+inf, +inf", boxed(&[0.0], &[INFINITE], &[INFINITE]), [6, 0, 0]),
        ("-inf, -inf", boxed(&[0.0], &[-INFINITE], &[-INFINITE]), [6, 0, 0]),
        ("index by index", boxed(&[0.0; 2], &[INFINITE, 2.0], &[INFINITE, 1.0]), [6, 0, 0]),
        ("open", boxed(&[0.0], &[-INFINITE], &[INFINITE]), [0, 0, 0]),
    ]);
}

#[test]
fn refusals_of_the_options() {
    let bits = |value: f64| value.to_bits();
    let with = |place: usize, word: u64| with_words(|words| words[place] = word);
    let several = with_words(|words| (words[3], words[4], words[6]) = (0, ABSENT | 1, 0));
    check_table(&[
        ("tol 0", with(3, 0), [8, 1, 0]),
        ("tol -0", with(3, bits(-0.0)), [8, 1, 0]),
        ("tol below 0", with(3, bits(-1.0)), [8, 1, 0]),
        ("tol infinite", with(3, bits(INFINITE)), [8, 1, 0]),
        ("tol another NaN", with(3, ABSENT | 1), [8, 1, 0]),
        ("tol a negative NaN", with(3, ABSENT | 1 << 63), [8, 1, 0]),
        ("tol least", with(3, 1), [0, 0, 0]),
        ("ftol below 0", with(4, bits(-1e-300)), [9, 1, 0]),
        ("ftol infinite", with(4, bits(INFINITE)), [9, 1, 0]),
        ("ftol another NaN", with(4, ABSENT | 1), [9, 1, 0]),
        ("ftol -0", with(4, bits(-0.0)), [0, 0, 0]),
        ("gtol below 0", with(5, bits(-1.0)), [9, 2, 0]),
        ("gtol another NaN", with(5, u64::MAX), [9, 2, 0]),
        ("gtol -0", with(5, bits(-0.0)), [0, 0, 0]),
        ("eps 0", with(6, 0), [8, 2, 0]),
        ("eps another NaN", with(6, ABSENT | 2), [8, 2, 0]),
        ("tol before ftol before eps", several, [8, 1, 0]),
    ]);
}

#[test]
fn refusals_of_the_added_limits() {
    let many = |n: usize| with_coordinates(n, |_| {});
    check_table(&[
        ("n = 64", many(64), [0, 0, 0]),
        ("n = 65", many(65), [10, 1, 0]),
        ("n = 255", many(255), [10, 1, 0]),
        ("maxcor 16", with_setup(|setup| setup.maxcor = 16), [0, 0, 0]),
        ("maxcor 17", with_setup(|setup| setup.maxcor = 17), [10, 2, 0]),
        ("maxiter 1,000,000", with_setup(|setup| setup.maxiter = 1_000_000), [0, 0, 0]),
        ("maxiter 1,000,001", with_setup(|setup| setup.maxiter = 1_000_001), [10, 3, 0]),
        ("maxiter over 32 bits", with_setup(|setup| setup.maxiter = 1 << 32), [10, 3, 0]),
        ("maxfev 1,000,000", with_setup(|setup| setup.maxfev = 1_000_000), [0, 0, 0]),
        ("maxfev the largest", with_setup(|setup| setup.maxfev = u64::MAX), [10, 4, 0]),
        ("tol before n", with_coordinates(65, |setup| setup.tol = 0), [8, 1, 0]),
        ("n before maxcor", with_coordinates(65, |setup| setup.maxcor = 17), [10, 1, 0]),
        ("x0 before n", with_coordinates(200, |setup| setup.x0[99] = ABSENT), [2, 99, 0]),
    ]);
}

fn with_coordinates(n: usize, change: impl Fn(&mut Setup)) -> Vec<u8> {
    let mut setup = plain(&vec![1.0; n], None);
    change(&mut setup);
    input(&setup, &[])
}

#[test]
fn refusals_at_entries() {
    let (setup, log) = parabola();
    let with_log = |change: &dyn Fn(&mut Vec<u64>)| {
        let mut log = log.clone();
        change(&mut log);
        input(&setup, &log)
    };
    let after_failure = input(&setup, &[6, 1, 0]);
    check_table(&[
        ("unknown 0", with_log(&|log| log[0] = 0), [17, 0, 0]),
        ("unknown 7", with_log(&|log| log[0] = 7), [17, 0, 0]),
        ("kind in the upper half", with_log(&|log| log[0] |= 1 << 32), [17, 0, 0]),
        ("value cut", with_log(&|log| log.truncate(1)), [17, 0, 0]),
        ("gradient cut", with_log(&|log| log.truncate(3)), [17, 0, 0]),
        ("gradient to a value question", with_log(&|log| log[0] = 2), [17, 0, 0]),
        ("notice reply to a value question", with_log(&|log| log.insert(0, 4)), [17, 0, 0]),
        ("value to a gradient question", with_log(&|log| log[2] = 1), [17, 0, 0]),
        ("value to a notice", with_log(&|log| log.splice(8.., [1, 0]).for_each(drop)), [17, 0, 0]),
        ("after the end", with_log(&|log| log.push(4)), [17, 0, 0]),
        ("failure after the end", with_log(&|log| log.push(6)), [17, 0, 0]),
        ("unknown after the end", with_log(&|log| log.push(0)), [17, 0, 0]),
        ("after a failure", after_failure, [17, 0, 0]),
        ("failure", input(&setup, &[6]), [0, 0, 0]),
    ]);
}

#[test]
fn document_01() {
    for case in named::cases() {
        assert!(case.agrees(), "{}", case.name);
    }
}

#[test]
fn document_01_pairs_and_solve() {
    let epsilon = f64::EPSILON;
    let mut model = Model::new(1, 1);
    assert!(!model.update(vec![epsilon], vec![1.0]));
    assert!(model.update(vec![2.0 * epsilon], vec![1.0]));
    assert_eq!(model.theta(), 2.0_f64.powi(51));
    let rows = vec![vec![2.0, 1.0], vec![-2.0, 1.0]];
    assert_eq!(Leaves::solve(rows, vec![0.0, 4.0]), Some(vec![-1.0, 2.0]));
    let diagonal = |small: f64| vec![vec![1.0, 0.0], vec![0.0, small]];
    assert_eq!(Leaves::solve(diagonal(2.0_f64.powi(-46)), vec![1.0, 1.0]), None);
    let solved = Leaves::solve(diagonal(2.0_f64.powi(-45)), vec![1.0, 1.0]);
    assert_eq!(solved, Some(vec![1.0, 2.0_f64.powi(45)]));
    let zero = Leaves::solve(vec![vec![1.0]], vec![-0.0]).expect("one equation");
    assert_eq!(zero[0].to_bits(), 0);
}

/// The record's replies with where each entry ends in the log.
fn entries(record: &Record) -> Vec<(Reply, usize)> {
    let mut left = record.log.as_slice();
    let mut entries = Vec::new();
    while let Some((reply, rest)) = Reply::read(left, record.setup.n()) {
        left = rest;
        entries.push((reply, record.log.len() - rest.len()));
    }
    entries
}

/// What document 01 says of a fit with these questions and replies, where all
/// gradients were supplied.
fn check_counts(fit: &Fit, replies: &[(Reply, usize)]) {
    let Some(report) = fit.report() else { return };
    let raised = |kind: Kind| fit.questions.iter().filter(|q| q.kind == kind).count() as u64;
    let gradients = replies.iter().filter(|(reply, _)| matches!(reply, Reply::Gradient(_)));
    assert_eq!(report.nfev, raised(Kind::Value));
    assert_eq!(report.nit, raised(Kind::Notice));
    assert_eq!(report.njev, gradients.count() as u64);
    let held = fit.questions.iter().rposition(|q| q.kind == Kind::Notice).unwrap_or(0);
    assert_eq!(report.point, fit.questions[held].point);
    let before = replies[..=held.min(replies.len() - 1)].iter().rev();
    let value = before.filter_map(|(reply, _)| match reply {
        Reply::Value(word) => Some(*word),
        _ => None,
    });
    assert_eq!(Some(report.value), value.map(one_nan).next());
}

fn one_nan(word: u64) -> u64 {
    if f64::from_bits(word).is_nan() { ABSENT } else { word }
}

#[test]
fn logs_cut_at_every_entry() {
    let mut checked = 0;
    for index in 0..400 {
        let (_, whole) = case(5, index, &EVERY_SIZE);
        let (Ok(record), Ok(full)) = (record::read(&whole), play(&whole)) else { continue };
        let replies = entries(&record);
        let supplied = !replies.iter().any(|(reply, _)| *reply == Reply::NotSupplied);
        for count in 0..replies.len().min(150) {
            let end = if count == 0 { 0 } else { replies[count - 1].1 };
            let fit = play(&input(&record.setup, &record.log[..end])).expect("a cut log");
            assert_eq!(fit.questions, full.questions[..=count]);
            assert_eq!(fit.open, Some(full.questions[count].kind));
            assert_eq!(fit.report().is_none(), count == 0);
            assert!(fit.report().is_none_or(|report| report.status == 0));
            if supplied && count > 0 {
                check_counts(&fit, &replies[..count]);
                checked += 1;
            }
        }
    }
    assert!(checked > 1000, "{checked}");
}

#[test]
fn the_generator_repeats_itself() {
    for index in 0..200 {
        assert_eq!(case(9, index, &EVERY_SIZE), case(9, index, &EVERY_SIZE));
    }
}

#[test]
fn only_damaged_records_are_refused() {
    for index in 0..3000 {
        let (origin, input) = case(3, index, &EVERY_SIZE);
        let long = input.len() > record::INPUT_LIMIT;
        assert!(origin == Origin::Damaged || long || play(&input).is_ok(), "case {index}");
    }
}

#[test]
fn no_accepted_bound_is_minus_zero() {
    for index in 0..3000 {
        let (_, input) = case(4, index, &EVERY_SIZE);
        let Ok(record) = record::read(&input) else { continue };
        let mut ends = record.setup.bounds.iter().flatten().flatten();
        assert!(ends.all(|&end| end != 1 << 63), "case {index}");
    }
}
