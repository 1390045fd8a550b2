//! How many cases meet each origin, refusal, status and size.

use crate::cases::Origin;
use crate::fit::Fit;
use crate::pairs::pairs;
use crate::play::play;
use crate::record;
use std::collections::BTreeMap;

#[derive(Default)]
pub struct Summary {
    rows: BTreeMap<(usize, &'static str), BTreeMap<u64, usize>>,
    cases: usize,
    bytes: usize,
}

const DEFAULT_PAIRS: u64 = 10;

impl Summary {
    pub fn add(&mut self, origin: Option<Origin>, input: &[u8]) {
        self.cases += 1;
        self.bytes += input.len();
        self.count(
            0,
            "origin (0 named, 1 function, 2 adversary, 3 damaged)",
            match origin {
                None => 0,
                Some(origin) => 1 + origin as u64,
            },
        );
        match play(input) {
            Err(refusal) => self.count(1, "refused", refusal.number),
            Ok(fit) => self.add_fit(input, &fit),
        }
    }

    fn count(&mut self, place: usize, row: &'static str, column: u64) {
        *self.rows.entry((place, row)).or_default().entry(column).or_default() += 1;
    }

    fn add_fit(&mut self, input: &[u8], fit: &Fit) {
        let record = record::read(input).expect("an accepted record");
        let setup = &record.setup;
        self.count(4, "n", setup.n() as u64);
        let questions = (fit.questions.len() as u64).next_power_of_two();
        self.count(8, "questions, up to a power of two", questions);
        if let Some(kind) = fit.open {
            self.count(3, "open question", kind as u64);
        }
        let Some(report) = fit.report() else {
            let status = if fit.open.is_some() { 0 } else { 8 };
            self.count(2, "status", status);
            return self.count(1, "refused", 15);
        };
        self.count(2, "status", report.status);
        let maxcor = if setup.maxcor == 0 { DEFAULT_PAIRS } else { u64::from(setup.maxcor) };
        self.count(5, "maxcor in force", maxcor);
        self.count(6, "iterations", report.nit.min(50));
        self.count(7, "iterations past maxcor", report.nit.saturating_sub(maxcor).min(20));
        if let Some(pairs) = pairs(&record, fit) {
            self.count(9, "pairs held at the end, all gradients supplied", pairs.held);
            self.count(10, "pairs turned down, all gradients supplied", pairs.turned_down);
            self.count(11, "models tried again, all gradients supplied", pairs.retried);
        }
    }

    pub fn table(&self) -> String {
        let mut text = format!("{} cases, {} bytes of records\n", self.cases, self.bytes);
        for ((_, row), columns) in &self.rows {
            text += &format!("{row}:\n   ");
            for (column, count) in columns {
                text += &format!(" {column}:{count}");
            }
            text.push('\n');
        }
        text
    }
}
