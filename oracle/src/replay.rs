//! The data of the program `replay`: modules with what is lent for them and what the oracle says of them.
//!
//! A case of a check is thirteen words, least byte first (bytes of the whole case, 0, bytes of the module, bytes lent for the output, words lent for
//! rows, errors and work, number and place of the refusal or 0, rows, errors, slots, names), the module, five words for each
//! row, eight for each error, one for each slot in byte order. The rows are numbered as the oracle numbers them.

use std::collections::HashSet;

use crate::{
    answer::{Answer, ERROR_KINDS, ERROR_WIDTH, Operand},
    compare::{Truth, truth},
    damage, generate, hand,
    layout::{self, Module, Record},
    model, orders,
    product::{Loans, REPORT},
    rows::ROW_WIDTH,
    tree::Random,
};

/// The cases, with their names, and how many of them are accepted.
#[derive(Default)]
pub struct Replay {
    pub bytes: Vec<u8>,
    pub names: Vec<String>,
    pub accepted: usize,
    /// What the accepted modules have in them, and how many of them have each kind of error.
    seen: HashSet<Feature>,
    errors: [usize; ERROR_KINDS as usize + 1],
    modules: HashSet<Vec<u8>>,
    cases: HashSet<(Vec<u8>, Loans)>,
}

/// The words of a case before the module.
pub const HEAD_BYTES: usize = 4 * 13;

/// In how many accepted cases each kind of error stands, at least.
const CASES_OF_AN_ERROR: usize = 40;

/// How many modules are lent each of the loans of `tight`.
const CASES_OF_A_LOAN: usize = 12;

/// Something in a module that a checker can get wrong: what sort it is, a kind, and the kinds that go with it.
type Feature = (u8, u32, [u32; 3]);

/// The words of the answer: rows, errors, slots.
fn answer_words(answer: &Answer) -> Vec<u32> {
    let mut words = answer.rows.row_words();
    words.extend(answer.errors.iter().flat_map(|error| error.words()));
    let mut slots = answer.slots.clone();
    slots.sort();
    words.extend(slots.iter().map(|slot| slot.1));
    words
}

/// One case.
fn case(bytes: &[u8], loans: Loans, truth: &Truth) -> Vec<u8> {
    let (refusal, counts, body) = match (truth.refusal(bytes, loans), &truth.outcome) {
        (None, Ok((module, answer))) => {
            let counts = [answer.rows.count(), answer.errors.len(), answer.slots.len(), module.names.len()];
            ([0, 0], counts, answer_words(answer))
        }
        // Where working words are cleared it is known how many.
        (Some(refusal), Ok((module, _))) if refusal.number > 5 => {
            ([refusal.number as usize, refusal.place], [0, 0, 0, module.names.len()], vec![])
        }
        (refusal, _) => {
            let refusal = refusal.expect("a module that is not accepted");
            ([refusal.number as usize, refusal.place], [0; 4], vec![])
        }
    };
    let total = HEAD_BYTES + bytes.len() + 4 * body.len();
    let head =
        [&[total, 0, bytes.len(), loans.output, loans.rows, loans.errors, loans.work], &refusal[..], &counts].concat();
    let mut out: Vec<u8> = head.iter().flat_map(|&word| (word as u32).to_le_bytes()).collect();
    out.extend(bytes);
    out.extend(body.iter().flat_map(|word| word.to_le_bytes()));
    out
}

/// What a record and those in it have: the kinds of rows that meet there, and the kinds of records.
fn record_features(record: &Record, answer: &Answer, into: &mut HashSet<Feature>) {
    let row = |record: &Record| {
        let slot = answer.slots.iter().find(|slot| slot.0 == record.slot());
        slot.map_or(0, |slot| answer.rows.row(slot.1).kind)
    };
    let of = |i: usize, f: &dyn Fn(&Record) -> u32| record.children.get(i).map_or(0, f);
    let kind = u32::from(record.kind);
    if matches!(record.kind, 16..=20 | 32..=47) {
        let operator = if record.kind == 45 || record.kind == 46 { 100 * record.fields[1] } else { 0 };
        into.insert((1, kind + operator, [row(record), of(0, &row), of(1, &row)]));
    }
    let kind_of = |record: &Record| u32::from(record.kind);
    into.insert((2, kind, [of(0, &kind_of), of(1, &kind_of), of(2, &kind_of)]));
    record.children.iter().for_each(|child| record_features(child, answer, into));
}

fn features(module: &Module, answer: &Answer) -> HashSet<Feature> {
    let mut all = HashSet::new();
    module.items.iter().for_each(|item| record_features(item, answer, &mut all));
    for error in &answer.errors {
        all.insert((
            3,
            error.kind,
            error.operands.map(|operand| match operand {
                Operand::Number(_) => 0,
                Operand::Row(row) => answer.rows.row(row).kind,
            }),
        ));
    }
    all
}

/// Exactly what a module needs.
fn exact(bytes: &[u8], module: &Module, answer: &Answer) -> Loans {
    Loans {
        output: bytes.len(),
        rows: ROW_WIDTH * answer.rows.count(),
        errors: ERROR_WIDTH * answer.errors.len(),
        work: 4 * module.names.len(),
    }
}

/// Exactly what a module needs and words that are no whole row, error or name.
fn odd(exact: Loans, random: &mut Random) -> Loans {
    Loans {
        output: exact.output + random.below(4),
        rows: exact.rows + random.below(ROW_WIDTH),
        errors: exact.errors + random.below(ERROR_WIDTH),
        work: exact.work + random.below(4),
    }
}

/// Loans for a module with errors, with their name: exactly what it needs, and a little more or less of each.
fn tight(exact: Loans, random: &mut Random) -> Vec<(&'static str, Loans)> {
    let Loans { output, rows, errors, work } = exact;
    let mut from = |low, high| random.between(low, high);
    let (few_rows, few_errors) = (from(1, ROW_WIDTH - 1), from(1, ERROR_WIDTH - 1));
    vec![
        ("exact loans", exact),
        ("output to spare", Loans { output: output + from(1, 9), ..exact }),
        ("row words to spare", Loans { rows: rows + few_rows, ..exact }),
        ("error words to spare", Loans { errors: errors + few_errors, ..exact }),
        ("working words to spare", Loans { work: work + from(1, 9), ..exact }),
        ("an output of one byte less", Loans { output: output - 1, ..exact }),
        ("no output", Loans { output: 0, ..exact }),
        ("one working word less", Loans { work: work - 1, ..exact }),
        ("no working words", Loans { work: 0, ..exact }),
        ("too little of all", Loans { output: output - 1, rows: rows - 1, errors: errors - 1, work: work - 1 }),
        ("one row word less", Loans { rows: rows - 1, ..exact }),
        ("no whole last row", Loans { rows: rows - ROW_WIDTH + few_rows, ..exact }),
        ("one row less", Loans { rows: rows - ROW_WIDTH, ..exact }),
        ("six rows and some words", Loans { rows: 6 * ROW_WIDTH + few_rows, ..exact }),
        ("no rows", Loans { rows: 0, ..exact }),
        ("too few rows and errors", Loans { rows: rows - few_rows, errors: errors - few_errors, ..exact }),
        ("one error word less", Loans { errors: errors - 1, ..exact }),
        ("no whole last error", Loans { errors: errors - ERROR_WIDTH + few_errors, ..exact }),
        ("one error less", Loans { errors: errors - ERROR_WIDTH, ..exact }),
        ("no errors lent", Loans { errors: 0, ..exact }),
        ("too few errors, row words to spare", Loans { rows: rows + few_rows, errors: errors - few_errors, ..exact }),
    ]
}

/// The class of generated module for a seed.
fn class_of(seed: u64) -> &'static str {
    ["typed", "tiny", "wild", "aliases", "casts", "statements", "structs", "tiny"][seed as usize % 8]
}

impl Replay {
    /// Adds a case, unless there is one with this module and these loans.
    fn add(&mut self, name: String, bytes: &[u8], loans: Loans, truth: &Truth) {
        if !self.cases.insert((bytes.to_vec(), loans)) {
            return;
        }
        self.modules.insert(bytes.to_vec());
        self.bytes.extend(case(bytes, loans, truth));
        self.names.push(name);
        if let (None, Ok((module, answer))) = (truth.refusal(bytes, loans), &truth.outcome) {
            self.accepted += 1;
            self.seen.extend(features(module, answer));
            let kinds: HashSet<u32> = answer.errors.iter().map(|error| error.kind).collect();
            kinds.into_iter().for_each(|kind| self.errors[kind as usize] += 1);
        }
    }

    /// Adds an accepted module from a seed, with the report program's loans, exact ones or a little more.
    fn add_accepted(&mut self, seed: u64, bytes: &[u8], truth: &Truth) {
        let Ok((module, answer)) = &truth.outcome else { return };
        let exact = exact(bytes, module, answer);
        let (what, loans) = match seed % 3 {
            0 => ("", REPORT),
            1 => (", exact loans", exact),
            _ => (", words to spare", odd(exact, &mut Random::new(seed))),
        };
        self.add(format!("{} {seed}{what}", class_of(seed)), bytes, loans, truth);
    }

    pub fn refused(&self) -> usize {
        self.names.len() - self.accepted
    }

    /// The modules by hand.
    fn by_hand(&mut self) -> Result<(), String> {
        for case in hand::cases() {
            let truth = truth(&case.bytes).map_err(|why| format!("{}: {why}", case.name))?;
            self.add(case.name, &case.bytes, case.loans, &truth);
        }
        Ok(())
    }

    /// Modules from seeds: those of at most `most` bytes that have something new in them, or any if `old`, until so many are accepted.
    fn generated(&mut self, seeds: std::ops::Range<u64>, most: usize, old: bool, enough: usize) -> Result<(), String> {
        for seed in seeds {
            if self.accepted >= enough {
                return Ok(());
            }
            let bytes = generate::module(class_of(seed), seed);
            if bytes.len() > most || self.modules.contains(&bytes) {
                continue;
            }
            let truth = truth(&bytes)?;
            let Ok((module, answer)) = &truth.outcome else { continue };
            let size = bytes.len() + 4 * answer_words(answer).len();
            if size <= most && (old || !features(module, answer).is_subset(&self.seen)) {
                self.add_accepted(seed, &bytes, &truth);
            }
        }
        Ok(())
    }

    /// Modules of at most `most` bytes from seeds until each kind of error stands in enough cases.
    fn errors(&mut self, seeds: std::ops::Range<u64>, most: usize) -> Result<(), String> {
        for seed in seeds {
            if self.errors[1..].iter().all(|&cases| cases >= CASES_OF_AN_ERROR) {
                return Ok(());
            }
            let bytes = generate::module(class_of(seed), seed);
            if bytes.len() > most || self.modules.contains(&bytes) {
                continue;
            }
            let Ok(module) = layout::read(&bytes) else { continue };
            let kinds: Vec<u32> = model::check(&module).answer.errors.iter().map(|error| error.kind).collect();
            if kinds.iter().any(|&kind| self.errors[kind as usize] < CASES_OF_AN_ERROR) {
                self.add_accepted(seed, &bytes, &truth(&bytes)?);
            }
        }
        Err(format!("too few cases of some kind of error: {:?}", self.errors))
    }

    /// Modules of at most `most` bytes, each with one of the loans of `tight`, so many of each.
    fn loans(&mut self, mut seeds: std::ops::Range<u64>, most: usize) -> Result<(), String> {
        let mut left = 0;
        while let Some(seed) = seeds.next() {
            let bytes = generate::module(class_of(seed), seed);
            if bytes.len() > most || self.modules.contains(&bytes) {
                continue;
            }
            let truth = truth(&bytes)?;
            let Ok((module, answer)) = &truth.outcome else { continue };
            // So that each of the loans is short of what it says.
            if module.names.is_empty() || answer.rows.count() < 9 || answer.errors.is_empty() {
                continue;
            }
            let all = tight(exact(&bytes, module, answer), &mut Random::new(seed));
            if left == all.len() * CASES_OF_A_LOAN {
                return Ok(());
            }
            let (what, loans) = all[left % all.len()];
            self.add(format!("{} {seed}, {what}", class_of(seed)), &bytes, loans, &truth);
            left += 1;
        }
        Err("too few modules for the loans".to_owned())
    }

    /// Modules and other orders of them that demand 3 speaks of, at most so large, so many pairs.
    fn orders(&mut self, most: usize, mut pairs: usize) -> Result<(), String> {
        for seed in 0.. {
            if pairs == 0 {
                break;
            }
            let bytes = generate::module("tiny", seed);
            let Some(other) = orders::another_order(&bytes, seed) else { continue };
            let are_new = other != bytes && !self.modules.contains(&bytes) && !self.modules.contains(&other);
            if bytes.len() <= most && are_new {
                self.add(format!("order {seed}"), &bytes, REPORT, &truth(&bytes)?);
                self.add(format!("other order {seed}"), &other, REPORT, &truth(&other)?);
                pairs -= 1;
            }
        }
        Ok(())
    }

    /// Damaged modules of at most so many bytes of which `wanted` is true of the refusal's number, until so many more are refused.
    fn damaged(&mut self, most: usize, wanted: fn(u32) -> bool, more: usize) -> Result<(), String> {
        let enough = self.refused() + more;
        for seed in 0.. {
            if self.refused() >= enough {
                break;
            }
            let bytes = generate::module("tiny", seed);
            let (what, copy) = match seed % 3 {
                0 => ("damaged", damage::damaged(&bytes, seed)),
                _ => ("spoiled", damage::spoiled(&bytes, seed)),
            };
            if copy.len() > most || self.modules.contains(&copy) {
                continue;
            }
            let truth = truth(&copy)?;
            if truth.outcome.as_ref().is_err_and(|refusal| wanted(refusal.number)) {
                let (lent, loans) = match seed % 5 {
                    0 | 1 => ("", REPORT),
                    2 => (", nothing lent", Loans { output: 0, rows: 0, errors: 0, work: 0 }),
                    _ => (", little lent", Loans { output: copy.len(), rows: 39, errors: 20, work: 11 }),
                };
                self.add(format!("{what} {seed}{lent}"), &copy, loans, &truth);
            }
        }
        Ok(())
    }
}

/// The whole replay: at least so many modules that are accepted, and so many that are refused.
pub fn replay(accepted: usize, refused: usize) -> Result<Replay, String> {
    let mut replay = Replay::default();
    replay.by_hand()?;
    replay.orders(450, 60)?;
    replay.loans(700_000..800_000, 500)?;
    replay.errors(800_000..1_000_000, 750)?;
    replay.generated(0..60_000, 750, false, accepted)?;
    replay.generated(60_000..600_000, 380, true, accepted)?;
    replay.damaged(1_500, |number| number == 3, 40)?;
    let more = refused.saturating_sub(replay.refused());
    replay.damaged(280, |_| true, more)?;
    Ok(replay)
}
