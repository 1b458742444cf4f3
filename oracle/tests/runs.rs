//! Modules by the hundred: the reference and the model agree, nothing panics, items in another order keep their meaning.

mod common;

use std::time::Duration;

use oracle::{
    answer::ERROR_KINDS, buffers, compare, damage, generate, hand, layout, model, orders, pairs::Casts, reference,
    relate, rows::ROW_WIDTH, shrink, tables,
};

/// The reference panics where a type has no words.
fn without_panic_messages() {
    let told = std::panic::take_hook();
    std::panic::set_hook(Box::new(move |info| {
        if !info.location().is_some_and(|at| at.file().ends_with("type_check.rs") || at.file().ends_with("ir.rs")) {
            told(info);
        }
    }));
}

/// Compares the two checkers on a file, unless the reference is silent on it.
fn compare_both(bytes: &[u8], label: &str) {
    let Ok(module) = layout::read(bytes) else { return };
    let outcome = model::check(&module);
    if outcome.work > reference::MOST_WORK {
        return;
    }
    match reference::check(&module, Duration::from_secs(60)) {
        Ok(spoken) => assert_eq!(compare::difference(&module, &spoken, &outcome.answer), None, "{label}"),
        Err(silence) => assert_eq!(silence, reference::Silence::Undecodable, "{label}"),
    }
}

#[test]
fn every_class() {
    for (class, _) in generate::CLASSES {
        for seed in 0..40 {
            let bytes = generate::module(class, seed);
            assert!(layout::read(&bytes).is_ok(), "{class} {seed}");
            compare_both(&bytes, &format!("{class} {seed}"));
        }
    }
}

#[test]
fn damaged_copies() {
    for seed in 0..400 {
        let copy = damage::damaged(&generate::module("mixed", seed), seed);
        compare_both(&copy, &format!("{seed}"));
    }
}

#[test]
fn row_tables() {
    without_panic_messages();
    let mut casts = Casts::default();
    for seed in 0..200 {
        if let Some(rows) = buffers::rows(&tables::file_words(seed)) {
            casts.add(relate::related(&rows).unwrap().casts);
        }
    }
    assert_often(casts);
}

/// Each sort of cast is met often, also between more distinct aliases than the reference is asked about.
fn assert_often(casts: Casts) {
    let Casts { first, last, between, none, most, .. } = casts;
    assert!([first, last, between, none].iter().all(|&casts| casts > 1_000) && most > 100, "{}", casts.text());
}

#[test]
fn casts_of_modules() {
    let mut casts = Casts::default();
    for seed in 0..1_000 {
        casts.add(model::check(&layout::read(&generate::module("casts", seed)).unwrap()).casts);
    }
    assert_often(casts);
}

#[test]
fn another_order() {
    let mut compared = 0;
    for seed in 0..1_000 {
        let bytes = generate::module("mixed", seed);
        let Some(other) = orders::another_order(&bytes, seed) else { continue };
        let (one, two) = (layout::read(&bytes).unwrap(), layout::read(&other).unwrap());
        assert!(orders::is_supposed(&two));
        let (first, second) = (model::check(&one).answer, model::check(&two).answer);
        assert_eq!(orders::difference((&bytes, &first), (&other, &second)), None, "{seed}");
        compared += usize::from(other != bytes);
    }
    assert!(compared > 100, "only {compared} modules could be compared");
}

#[test]
fn buffers_are_read_back() {
    for seed in 0..50 {
        let bytes = generate::module("typed", seed);
        let answer = model::check(&layout::read(&bytes).unwrap()).answer;
        let mut output = bytes.clone();
        for &(place, row) in &answer.slots {
            output[place..place + 4].copy_from_slice(&row.to_le_bytes());
        }
        let rows = answer.rows.row_words();
        let errors: Vec<u32> = answer.errors.iter().flat_map(|error| error.words()).collect();
        assert_eq!(buffers::answer(&bytes, &output, &rows, &errors).unwrap().text(), answer.text());
        // A wrong fifth word is told.
        let mut wrong = rows.clone();
        let row = seed as usize % answer.rows.count();
        wrong[ROW_WIDTH * row + 4] += 1;
        let said = buffers::answer(&bytes, &output, &wrong, &errors).unwrap_err();
        assert!(said.starts_with(&format!("row {} has the fifth word", row + 1)), "{said}");
    }
}

#[test]
fn silence() {
    // Fifteen doublings are more than a thousandth of a second's work.
    let bytes = (0..).map(|seed| generate::module("doubling", seed)).find(|bytes| {
        let module = layout::read(bytes).unwrap();
        (15..18).contains(&module.items.len())
    });
    let module = layout::read(&bytes.unwrap()).unwrap();
    assert_eq!(reference::check(&module, Duration::from_micros(1)).unwrap_err(), reference::Silence::Timeout);

    let mut bytes = common::module(vec![]);
    let last = bytes.len() - 1;
    bytes[last] = 0xff;
    let module = layout::read(&bytes).unwrap();
    assert_eq!(reference::check(&module, Duration::from_secs(9)).unwrap_err(), reference::Silence::Undecodable);
    assert_eq!(model::check(&module).answer.report(7, 0), "rows 7 errors 0\n");
}

#[test]
fn modules_by_hand() {
    without_panic_messages();
    let mut kinds = std::collections::BTreeSet::new();
    for case in hand::cases() {
        let truth = compare::truth(&case.bytes).unwrap_or_else(|why| panic!("{}: {why}", case.name));
        if let Ok((_, answer)) = &truth.outcome {
            kinds.extend(answer.errors.iter().map(|error| error.kind));
        }
    }
    assert!(kinds.into_iter().eq(1..=ERROR_KINDS));
}

#[test]
fn shrinking() {
    // A module with error 29 shrinks to a struct compound with a field twice and what must stand around it.
    let has_29 = |bytes: &[u8]| {
        let answer = layout::read(bytes).map(|module| model::check(&module).answer);
        answer.is_ok_and(|answer| answer.errors.iter().any(|error| error.kind == 29))
    };
    let bytes = (0..).map(|seed| generate::module("structs", seed)).find(|bytes| has_29(bytes)).unwrap();
    let small = shrink::smallest(&bytes, &mut { has_29 });
    assert!(has_29(&small) && small.len() < 250, "{} bytes", small.len());
}

#[test]
fn spoiled_copies() {
    let mut refused = 0;
    for seed in 0..300 {
        let copy = damage::spoiled(&generate::module("tiny", seed), seed);
        compare_both(&copy, &format!("{seed}"));
        refused += usize::from(layout::read(&copy).is_err());
    }
    assert!(refused > 150);
}
