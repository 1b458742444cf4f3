//! The cases of messages of the program `replay`: modules, rows and errors, what is lent for their messages, and what has to be told.
//!
//! A case is thirteen words, least byte first (bytes of the whole case, 1, bytes of the module, words of rows, how many rows count, words of errors,
//! how many errors count, bytes of the text for String, working words and bytes of text lent, the number told, the length or the place, bytes
//! of the text), the module, the rows, the errors, the text for String, the text.

use std::collections::HashSet;

use crate::{
    answer::{Answer, ERROR_KINDS, Error},
    ask::{Base, another_text, lend},
    compare::truth,
    damage, generate, hand,
    layout::MOST_BYTES,
    replay::HEAD_BYTES,
    tell::Question,
    tree::Random,
};

/// The cases, with their names, and how many are told each number; 0: accepted.
#[derive(Default)]
pub struct Cases {
    pub bytes: Vec<u8>,
    pub names: Vec<String>,
    pub told: [usize; 10],
    /// In how many accepted cases each kind of error stands.
    kinds: [usize; ERROR_KINDS as usize + 1],
    all: HashSet<Vec<u8>>,
}

/// The most bytes of a module, but for those that are too long, of a generated one, and of a text.
const MOST_MODULE: usize = 20_000;
const MOST_GENERATED: usize = 1_500;
const MOST_TEXT: usize = 60_000;

/// In how many accepted cases each kind of error stands, at least.
const CASES_OF_A_KIND: usize = 5;

/// How many cases there are of each refusal for the module or for what is lent, at least. Modules that are too long are few.
const CASES_OF_A_REFUSAL: usize = 20;
const TOO_LONG_MODULES: usize = 3;

/// One case.
fn case(question: &Question) -> Vec<u8> {
    let told = question.due().told;
    let text = &told.text[..told.length];
    let words = |words: &[u32]| words.iter().flat_map(|word| word.to_le_bytes()).collect::<Vec<u8>>();
    let body =
        [&question.module[..], &words(&question.rows), &words(&question.errors), &question.built_in, text].concat();
    let head = [
        HEAD_BYTES + body.len(),
        1,
        question.module.len(),
        question.rows.len(),
        question.row_count as usize,
        question.errors.len(),
        question.error_count,
        question.built_in.len(),
        question.work,
        question.text,
        told.number as usize,
        if told.number == 0 { told.length } else { told.place },
        told.length,
    ];
    [words(&head.map(|word| word as u32)), body].concat()
}

/// What the program has room for: bytes of module, words of rows and errors, bytes of the text for String, working words, bytes of text, bytes
/// of a case.
const ROOM: [usize; 7] = [70_000, 15_000, 16_000, 1_000, 3_100, 70_000, 250_000];

/// Whether the program has room for a case of so many bytes.
fn is_in_room(question: &Question, bytes: usize) -> bool {
    let Question { module, rows, errors, built_in, work, text, .. } = question;
    let sizes = [module.len(), rows.len(), errors.len(), built_in.len(), *work, *text, bytes];
    sizes.iter().zip(ROOM).all(|(&size, room)| size <= room)
}

/// The question about a module and what is answered to it.
fn question_of(bytes: &[u8], answer: &Answer) -> Question {
    let errors: Vec<u32> = answer.errors.iter().flat_map(Error::words).collect();
    Question::new(bytes, &answer.rows.row_words(), answer.rows.count(), &errors, answer.errors.len())
}

/// The question about a module, if it is good and small.
fn question_about(bytes: &[u8], most: usize) -> Result<Option<Question>, String> {
    let Ok((_, answer)) = truth(bytes)?.outcome else { return Ok(None) };
    Ok(Some(question_of(bytes, &answer)).filter(|question| bytes.len() <= most && question.text <= MOST_TEXT))
}

/// A question by hand, to be changed.
fn base_by_hand() -> Base {
    Base::new(hand::messages::every_sort()).expect("a good module")
}

/// The class of generated module for a seed.
fn class_of(seed: u64) -> &'static str {
    ["tiny", "typed", "structs", "tiny", "statements", "literals", "aliases", "casts"][seed as usize % 8]
}

impl Cases {
    /// Adds a case, unless it is there.
    fn put(&mut self, name: impl Into<String>, question: &Question) {
        let case = case(question);
        assert!(is_in_room(question, case.len()), "more than the program has room for");
        if !self.all.insert(case.clone()) {
            return;
        }
        let due = question.due();
        self.told[due.told.number as usize] += 1;
        let kinds: HashSet<u32> = due.lines.iter().map(|line| line.0).collect();
        kinds.into_iter().for_each(|kind| self.kinds[kind as usize] += 1);
        self.bytes.extend(case);
        self.names.push(name.into());
    }

    /// The modules by hand for what messages print, and errors by hand of each kind.
    fn by_hand(&mut self) -> Result<(), String> {
        for case in hand::messages::cases() {
            if let Some(question) = question_about(&case.bytes, MOST_MODULE)? {
                self.put(case.name, &question);
            }
        }
        let base = base_by_hand();
        let mut random = Random::new(1);
        for kind in 1..=ERROR_KINDS {
            for turn in 1..=CASES_OF_A_KIND {
                let words = base.stock().readable(kind, &mut random).expect("names, rows and literals of each sort");
                self.put(format!("by hand: kind {kind}, {turn}"), &base.of_errors(&[words]));
            }
        }
        Ok(())
    }

    /// The file of no bytes: no errors, errors that name rows alone, and each sentence of test 8 that can be broken there.
    fn no_bytes(&mut self) {
        let base = Base::new(question_of(&[], &Answer::default())).expect("a good module");
        self.put("the empty file", &base.question);
        let uncounted = Question { errors: vec![0; 9], ..base.question.clone() };
        self.put("the empty file, words of errors that do not count", &uncounted);
        let mut random = Random::new(2);
        for kind in 1..=ERROR_KINDS {
            if let Some(words) = base.stock().readable(kind, &mut random) {
                self.put(format!("the empty file: kind {kind}"), &base.of_errors(&[words]));
            }
        }
        for (what, breach) in base.breaches(&mut random) {
            self.put(format!("the empty file: {what}"), &base.broken(&breach, &mut random));
        }
    }

    /// Each sentence of test 8, broken in a question by hand; every fourth with nothing lent, which is tested later.
    fn unsound(&mut self) {
        let base = base_by_hand();
        let mut random = Random::new(8);
        for (i, (what, breach)) in base.breaches(&mut random).into_iter().enumerate() {
            let mut question = base.broken(&breach, &mut random);
            self.put(what.clone(), &question);
            if i % 4 == 0 {
                (question.work, question.text) = (0, 0);
                self.put(format!("{what}, nothing lent"), &question);
            }
        }
    }

    /// Generated modules with their own errors and with errors by hand, until so many are accepted and each kind stands in enough.
    fn generated(&mut self, accepted: usize) -> Result<(), String> {
        for seed in 0.. {
            if self.told[0] >= accepted && self.kinds[1..].iter().all(|&cases| cases >= CASES_OF_A_KIND) {
                break;
            }
            let bytes = generate::module(class_of(seed), seed);
            let Some(question) = question_about(&bytes, MOST_GENERATED)? else { continue };
            let mut random = Random::new(seed);
            let base = Base::new(question).expect("a good module");
            let mut question = if seed % 2 == 0 { base.question.clone() } else { base.with_errors(&mut random) };
            if random.chance(30) {
                question.built_in = another_text(&mut random);
            }
            question.text = question.needed() + [0, 0, 9][random.below(3)];
            question.work += [0, 0, 5][random.below(3)];
            if question.error_count > 0 && question.text <= MOST_TEXT {
                self.put(format!("{} {seed}", class_of(seed)), &question);
            }
        }
        Ok(())
    }

    /// Too few working words or bytes of text, and texts that are too long whatever is lent.
    fn short_loans(&mut self) -> Result<(), String> {
        for seed in 10_000.. {
            if [5, 9].iter().all(|&number| self.told[number] >= CASES_OF_A_REFUSAL) {
                break;
            }
            let bytes = generate::module("tiny", seed);
            let Some(question) = question_about(&bytes, MOST_GENERATED)? else { continue };
            let mut random = Random::new(seed);
            let mut question = Base::new(question).expect("a good module").with_errors(&mut random);
            lend(&mut question, &mut random);
            let number = question.due().told.number as usize;
            if [5, 9].contains(&number) && self.told[number] < CASES_OF_A_REFUSAL && question.text <= MOST_TEXT {
                self.put(format!("tiny {seed}, too little lent"), &question);
            }
        }
        for count in [14, 15, 30] {
            let bytes = hand::messages::doubled(count);
            let Ok((_, answer)) = truth(&bytes)?.outcome else { continue };
            for text in [0, MOST_TEXT] {
                let question = Question { text, ..question_of(&bytes, &answer) };
                self.put(format!("{count} structs, each of the one before twice, {text} bytes lent"), &question);
            }
        }
        Ok(())
    }

    /// Modules that tests 1 to 4 turn back: with rows and errors that are good, and with nothing that is.
    fn turned_back(&mut self) -> Result<(), String> {
        let base = base_by_hand().question;
        for more in 1..=TOO_LONG_MODULES {
            let module = vec![0; MOST_BYTES + more];
            self.put(format!("{} bytes", module.len()), &Question { module, ..base.clone() });
        }
        for seed in 0..CASES_OF_A_REFUSAL as u64 {
            let bytes = generate::module("tiny", seed);
            let Ok((_, answer)) = truth(&bytes)?.outcome else { continue };
            let mut question = question_of(&bytes, &answer);
            for &(place, row) in &answer.slots {
                question.module[place..place + 4].copy_from_slice(&row.to_le_bytes());
            }
            self.put(format!("tiny {seed}, its slots filled"), &question);
        }
        for seed in 0.. {
            if (2..=4).all(|number| self.told[number] >= 2 * CASES_OF_A_REFUSAL) {
                break;
            }
            let bytes = generate::module("tiny", seed);
            let module = if seed % 2 == 0 { damage::damaged(&bytes, seed) } else { damage::spoiled(&bytes, seed) };
            let mut question = Question { module, ..base.clone() };
            if seed % 3 == 0 {
                (question.rows, question.errors, question.work, question.text) = (vec![], vec![], 0, 0);
            }
            let number = question.due().told.number as usize;
            let is_wanted = (2..=4).contains(&number) && self.told[number] < 2 * CASES_OF_A_REFUSAL;
            if is_wanted && question.module.len() <= 2 * MOST_GENERATED {
                self.put(format!("damaged {seed}"), &question);
            }
        }
        Ok(())
    }

    /// How many cases there are by the number told, and of each kind of error.
    pub fn counts(&self) -> String {
        format!("by the number told {:?}, by kind {:?}, {} bytes", self.told, &self.kinds[1..], self.bytes.len())
    }

    pub fn refused(&self) -> usize {
        self.names.len() - self.told[0]
    }
}

/// The cases, at least so many of them accepted.
pub fn cases(accepted: usize) -> Result<Cases, String> {
    let mut cases = Cases::default();
    cases.by_hand()?;
    cases.no_bytes();
    cases.unsound();
    cases.short_loans()?;
    cases.turned_back()?;
    cases.generated(accepted)?;
    Ok(cases)
}
