//! What was compared, counted.

use std::collections::BTreeMap;

/// Differing cases kept to be printed.
const KEPT: usize = 4;
/// The table's rows, in sequence.
const ROWS: [&str; 5] = ["origin", "damage", "refused", "status", "compared"];

/// A case on which the two sides differ.
#[derive(Debug, Clone)]
pub struct Differing {
    pub index: u64,
    pub how: String,
    pub record: Vec<u8>,
}

#[derive(Debug, Default)]
pub struct Tally {
    pub cases: u64,
    pub failed: u64,
    rows: BTreeMap<&'static str, BTreeMap<String, u64>>,
    differing: Vec<Differing>,
}

impl Tally {
    /// Counts `by` more in a column of a row.
    pub fn count(&mut self, row: &'static str, column: impl ToString, by: u64) {
        *self.rows.entry(row).or_default().entry(column.to_string()).or_default() += by;
    }

    pub fn case(&mut self, index: u64, record: &[u8], how: Option<String>) {
        self.cases += 1;
        if let Some(how) = how {
            self.failed += 1;
            self.keep(vec![Differing { index, how, record: record.to_vec() }]);
        }
    }

    pub fn merge(&mut self, other: Self) {
        self.cases += other.cases;
        self.failed += other.failed;
        for (row, columns) in other.rows {
            columns.into_iter().for_each(|(column, count)| self.count(row, column, count));
        }
        self.keep(other.differing);
    }

    fn keep(&mut self, differing: Vec<Differing>) {
        self.differing.extend(differing);
        self.differing.sort_by_key(|case| case.index);
        self.differing.truncate(KEPT);
    }

    /// The rows, one a line.
    pub fn table(&self) -> String {
        let mut text = String::new();
        for row in ROWS {
            let Some(columns) = self.rows.get(row) else { continue };
            let mut columns: Vec<_> = columns.iter().collect();
            columns.sort_by_key(|(column, _)| column.parse().unwrap_or(u64::MAX));
            let columns: Vec<String> =
                columns.iter().map(|(column, count)| format!("{column}:{count}")).collect();
            text += &format!("{row}: {}\n", columns.join(" "));
        }
        text
    }

    /// The first cases that differ, with their records.
    pub fn differing(&self) -> String {
        let mut text = String::new();
        for Differing { index, how, record } in &self.differing {
            let digits: String = record.iter().map(|byte| format!("{byte:02x}")).collect();
            text += &format!("case {index}: {how}\n  {digits}\n");
        }
        text
    }
}
