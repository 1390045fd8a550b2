//! Small cases with the original's answers, one JSON object a line.

use crate::cases::{Mix, Origin, case};
use crate::fit::{Fit, Question, Report};
use crate::json;
use crate::play::play;
use crate::refusal::Refusal;
use crate::setups::Size;

const MIX: Mix =
    Mix { sizes: &[(100, Size::Small)], log_words: [[66; 2]; 3], escapes: 0, long_inputs: 0 };
/// Bytes of an input.
const LONGEST: usize = 704;
/// Coordinates of an accepted setup.
const MOST_COORDINATES: usize = 3;
const MOST_ITERATIONS: u64 = 6;

/// Small cases without end. Larger ones that the generator draws are passed
/// over.
pub fn inputs(seed: u64) -> impl Iterator<Item = (Option<Origin>, Vec<u8>)> {
    let drawn = (0..).map(move |index| case(seed, index, &MIX));
    drawn.filter(|(_, input)| is_small(input)).map(|(origin, input)| (Some(origin), input))
}

fn is_small(input: &[u8]) -> bool {
    let small_fit = |fit: Fit| {
        let iterations = fit.report().map_or(0, |report| report.nit);
        fit.questions[0].point.len() <= MOST_COORDINATES && iterations <= MOST_ITERATIONS
    };
    input.len() <= LONGEST && play(input).map_or(true, small_fit)
}

pub fn line(input: &[u8]) -> String {
    let record: String = input.iter().map(|byte| format!("{byte:02x}")).collect();
    format!("{{\"record\":\"{record}\",{}}}\n", answer(&play(input)))
}

fn answer(played: &Result<Fit, Refusal>) -> String {
    match played {
        Err(refusal) => format!("\"refused\":{}", refusal.number),
        Ok(fit) => {
            let questions: Vec<String> = fit.questions.iter().map(question).collect();
            format!(
                "\"refused\":0,{},\"questions\":[{}]",
                report(fit.report()),
                questions.join(",")
            )
        }
    }
}

fn report(report: Option<Report>) -> String {
    let Some(report) = report else {
        return "\"report_refused\":15".to_string();
    };
    format!(
        "\"report_refused\":0,\"status\":{},\"nit\":{},\"nfev\":{},\"njev\":{},\
         \"fun\":{},\"x\":[{}]",
        report.status,
        report.nit,
        report.nfev,
        report.njev,
        json::word(report.value),
        json::words(&report.point)
    )
}

fn question(question: &Question) -> String {
    format!("[{},{}]", question.kind as u8, json::words(&question.point))
}
