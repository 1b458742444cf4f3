//! How often each record kind, error kind and refusal occurs in some modules.

use std::collections::BTreeMap;

use crate::{
    answer::{Answer, ERROR_KINDS},
    layout::{self, Module, Record, Refusal},
    model,
};

#[derive(Default)]
pub struct Stats {
    files: usize,
    bytes: usize,
    refusals: BTreeMap<u32, usize>,
    records: BTreeMap<u16, usize>,
    errors: BTreeMap<u32, usize>,
    /// The greatest size, depth, row count and error count of a good module.
    most: [usize; 4],
    without_errors: usize,
    past_rows: usize,
    past_errors: usize,
}

/// Record kinds that document 01 lists.
const KINDS: [std::ops::RangeInclusive<u16>; 5] = [1..=3, 16..=21, 32..=50, 64..=74, 80..=85];

impl Stats {
    pub fn add(&mut self, bytes: &[u8]) {
        match layout::read(bytes) {
            Err(refusal) => self.add_refused(bytes, refusal),
            Ok(module) => self.add_good(bytes, &module, &model::check(&module).answer),
        }
    }

    pub fn add_refused(&mut self, bytes: &[u8], refusal: Refusal) {
        self.files += 1;
        self.bytes += bytes.len();
        *self.refusals.entry(refusal.number).or_default() += 1;
    }

    pub fn add_good(&mut self, bytes: &[u8], module: &Module, answer: &Answer) {
        self.files += 1;
        self.bytes += bytes.len();
        *self.records.entry(1).or_default() += 1;
        let mut depth = 1;
        for record in module.list.iter().chain(&module.items) {
            depth = depth.max(1 + self.count(record));
        }
        self.count_answer(answer);
        for (most, value) in self.most.iter_mut().zip([bytes.len(), depth, answer.rows.count(), answer.errors.len()]) {
            *most = (*most).max(value);
        }
    }

    /// Counts a record and those in it; its levels.
    fn count(&mut self, record: &Record) -> usize {
        *self.records.entry(record.kind).or_default() += 1;
        1 + record.children.iter().map(|child| self.count(child)).max().unwrap_or(0)
    }

    fn count_answer(&mut self, answer: &Answer) {
        for error in &answer.errors {
            *self.errors.entry(error.kind).or_default() += 1;
        }
        self.without_errors += usize::from(answer.errors.is_empty());
        self.past_rows += usize::from(answer.rows.count() > 3_000);
        self.past_errors += usize::from(answer.errors.len() > 2_000);
    }

    /// The record kinds and error kinds that no module had, and the greatest module in each respect.
    pub fn missing(&self) -> String {
        let kinds: Vec<u16> = KINDS.into_iter().flatten().filter(|kind| !self.records.contains_key(kind)).collect();
        let errors: Vec<u32> = (1..=ERROR_KINDS).filter(|kind| !self.errors.contains_key(kind)).collect();
        format!("{}\nnever met: record kinds {kinds:?}, error kinds {errors:?}\n", self.greatest())
    }

    fn greatest(&self) -> String {
        let [size, depth, rows, errors] = self.most;
        format!("most: bytes {size} depth {depth} rows {rows} errors {errors}")
    }

    pub fn text(&self) -> String {
        let refused: usize = self.refusals.values().sum();
        let mut text = format!("files {} bytes {} accepted {}\n", self.files, self.bytes, self.files - refused);
        text += &(self.greatest() + "\n");
        text += &format!(
            "without errors {}, past 3000 rows {}, past 2000 errors {}\n",
            self.without_errors, self.past_rows, self.past_errors
        );
        for number in 1..=4 {
            text += &format!("refused {number}: {}\n", self.refusals.get(&number).unwrap_or(&0));
        }
        for kind in KINDS.into_iter().flatten() {
            text += &format!("record {kind}: {}\n", self.records.get(&kind).unwrap_or(&0));
        }
        for kind in 1..=ERROR_KINDS {
            text += &format!("error {kind}: {}\n", self.errors.get(&kind).unwrap_or(&0));
        }
        text
    }
}
