//! Small modules by hand.
#![allow(dead_code)]

use std::time::Duration;

pub use oracle::hand::*;
use oracle::{
    answer::{Answer, refusal_text, texts},
    compare, layout, model, reference,
    tree::Tree,
};

/// The answer of both checkers, which must agree.
pub fn both(bytes: &[u8]) -> Answer {
    let module = layout::read(bytes).expect("a good module");
    let spoken = reference::check(&module, Duration::from_secs(20)).expect("an answer of the reference");
    assert_eq!(compare::difference(&module, &spoken, &model::check(&module).answer), None);
    spoken.answer
}

/// The kinds of the errors of a module of these items.
pub fn errors(items: Vec<Tree>) -> Vec<u32> {
    both(&module(items)).errors.iter().map(|error| error.kind).collect()
}

/// What is said of a file: refusal or counts.
pub fn verdict(bytes: &[u8]) -> String {
    match layout::read(bytes) {
        Err(refusal) => refusal_text(refusal).trim_end().to_owned(),
        Ok(_) => "accepted".to_owned(),
    }
}

/// The text of the type at a slot's place.
pub fn slot(answer: &Answer, place: usize) -> String {
    let row = answer.slots.iter().find(|slot| slot.0 == place).expect("a slot").1;
    texts(&answer.rows)[row as usize - 1].clone()
}
