//! The fixed list: cases with the original's answers, as little-endian words.
//! The format stands in list/README.md.

use crate::cases::{EVERY_SIZE, Mix, Origin, case, full_case};
use crate::fit::{Fit, Report};
use crate::named;
use crate::play::play;
use crate::setups::Size;

/// Most cases are small; the log of a large one holds some tens of gradients.
const MIX: Mix = Mix {
    sizes: &[(87, Size::Small), (11, Size::Medium), (2, Size::Large)],
    log_words: [[90, 270], [170, 400], [550, 2400]],
    escapes: 1,
    long_inputs: 0,
};
/// A drawn case that takes more bytes than this in the list is passed over.
const LARGEST: usize = 42_000;
/// Fits with 64 coordinates in which the 16 pairs fill and the oldest go.
const FULL: usize = 4;
/// Cases of `generate` with this seed: for each branch of the original that any
/// accepted one of the first 2,500,000 takes, the one that is smallest here.
const RARE_SEED: u64 = 11;
const RARE: [u64; 77] = [
    78, 311, 340, 1_320, 1_799, 4_269, 4_549, 5_763, 8_776, 9_027, 9_659, 13_678, 18_944, 26_275,
    28_019, 29_621, 32_182, 35_593, 41_245, 52_990, 61_054, 65_655, 72_391, 82_289, 86_743, 93_688,
    106_148, 110_018, 112_606, 119_879, 120_686, 127_658, 130_569, 130_737, 143_984, 152_507,
    155_736, 164_911, 181_112, 211_862, 317_565, 340_389, 364_442, 407_007, 432_869, 473_628,
    502_152, 508_223, 653_666, 682_341, 686_184, 794_363, 816_012, 826_238, 872_141, 893_477,
    1_058_970, 1_211_312, 1_240_704, 1_250_686, 1_275_180, 1_290_984, 1_352_674, 1_365_219,
    1_432_943, 1_462_228, 1_488_978, 1_565_858, 1_745_496, 1_773_734, 1_862_974, 1_971_713,
    2_072_397, 2_223_421, 2_268_036, 2_290_547, 2_354_943,
];
/// Marks a question whose point is that of the question before it.
const SAME_POINT: u64 = 16;

/// The inputs of the list without end: the named cases, the full ones, the
/// rare ones, then drawn ones.
pub fn inputs(seed: u64) -> impl Iterator<Item = (Option<Origin>, Vec<u8>)> {
    let named = named::cases().into_iter().map(|case| (None, case.input));
    let full = (0..).map(move |index| (Origin::Function, full_case(seed, index)));
    let full = full.filter(is_listed).take(FULL);
    let rare = RARE.iter().map(|&index| case(RARE_SEED, index, &EVERY_SIZE));
    let drawn = (0..).map(move |index| case(seed, index, &MIX)).filter(is_listed);
    let others = full.chain(rare).chain(drawn);
    named.chain(others.map(|(origin, input)| (Some(origin), input)))
}

fn is_listed((_, input): &(Origin, Vec<u8>)) -> bool {
    8 * case_words(input).len() <= LARGEST
}

/// The list's bytes.
pub fn bytes(seed: u64, count: usize) -> Vec<u8> {
    let words = inputs(seed).take(count).flat_map(|(_, input)| case_words(&input));
    words.flat_map(u64::to_le_bytes).collect()
}

fn case_words(input: &[u8]) -> Vec<u64> {
    let mut words = vec![input.len() as u64];
    words.extend(input.chunks(8).map(|chunk| {
        let mut padded = [0; 8];
        padded[..chunk.len()].copy_from_slice(chunk);
        u64::from_le_bytes(padded)
    }));
    match play(input) {
        Err(refusal) => words.push(refusal.number),
        Ok(fit) => {
            words.push(0);
            push_report(&mut words, fit.report());
            push_questions(&mut words, &fit);
        }
    }
    words
}

fn push_report(words: &mut Vec<u64>, report: Option<Report>) {
    let Some(report) = report else {
        words.push(15);
        return;
    };
    let Report { status, nit, nfev, njev, value, point } = report;
    words.extend([0, status, nit, nfev, njev, value, point.len() as u64]);
    words.extend(point);
}

fn push_questions(words: &mut Vec<u64>, fit: &Fit) {
    words.push(fit.questions.len() as u64);
    let mut previous: Option<&[u64]> = None;
    for question in &fit.questions {
        let kind = question.kind as u64;
        if previous == Some(&question.point) {
            words.push(kind + SAME_POINT);
        } else {
            words.push(kind);
            words.extend(&question.point);
        }
        previous = Some(&question.point);
    }
}
