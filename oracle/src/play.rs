//! A record's replies played to the original.

use crate::entry::{Kind, Reply};
use crate::fit::{self, Fit, Report, Respondent, Turn};
use crate::record;
use crate::refusal::Refusal;
use std::fmt::Write;

const AT_AN_ENTRY: Refusal = Refusal::plain(17);

/// The log's entries, each handed out where it is due.
struct Log<'a> {
    n: usize,
    left: &'a [u64],
}

impl Respondent for Log<'_> {
    fn reply(&mut self, question: Kind, _point: &[f64]) -> Turn {
        if self.left.is_empty() {
            return Turn::Open;
        }
        match Reply::read(self.left, self.n) {
            Some((reply, left)) if reply.suits(question) => {
                self.left = left;
                Turn::Reply(reply)
            }
            _ => Turn::Refused,
        }
    }
}

/// Reads an input's record in and plays it.
pub fn play(input: &[u8]) -> Result<Fit, Refusal> {
    let record = record::read(input)?;
    let mut log = Log { n: record.setup.n(), left: &record.log };
    let fit = fit::run(&record.setup, &mut log);
    if fit.refused || !log.left.is_empty() {
        return Err(AT_AN_ENTRY);
    }
    Ok(fit)
}

/// What the report program prints.
pub fn report_lines(played: &Result<Fit, Refusal>) -> String {
    match played {
        Err(refusal) => format!("refused {}\n", refusal.number),
        Ok(fit) => match fit.report() {
            None => "refused 15\n".to_string(),
            Some(report) => lines(&report),
        },
    }
}

fn lines(report: &Report) -> String {
    let mut text = format!(
        "status {}\nnit {}\nnfev {}\nnjev {}\nfun {:016x}\n",
        report.status, report.nit, report.nfev, report.njev, report.value
    );
    for word in &report.point {
        writeln!(text, "x {word:016x}").expect("a string takes text");
    }
    text
}

/// Every question in sequence, one a line: its kind, then its point's words.
pub fn question_lines(fit: &Fit) -> String {
    let mut text = String::new();
    for question in &fit.questions {
        write!(text, "{}", question.kind as u8).expect("a string takes text");
        for word in &question.point {
            write!(text, " {word:016x}").expect("a string takes text");
        }
        text.push('\n');
    }
    text
}
