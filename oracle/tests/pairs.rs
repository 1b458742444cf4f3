//! Document 02's paper 11: how many pairs a cast tries, and that a number which is not so is noticed.

use oracle::{
    pairs::Casts,
    relate,
    rows::{BOOL, Cast, I16, Rows, STRING, U16},
};

/// The cast by the rules, with which the reference must agree.
fn cast(rows: &Rows, source: u32, target: u32) -> Cast {
    let related = relate::related(rows).unwrap();
    related.pair(related.place(source).unwrap(), related.place(target).unwrap()).1
}

fn yes(pairs: u64) -> Cast {
    Cast { castable: true, pairs }
}

fn no(pairs: u64) -> Cast {
    Cast { castable: false, pairs }
}

/// So many distinct aliases over a type; the last.
fn chain(rows: &mut Rows, aliases: u64, of: u32) -> u32 {
    (0..aliases).fold(of, |of, _| rows.alias(of, 0, true))
}

#[test]
fn chains() {
    for n in [0, 1, 2, 5, 40] {
        for m in [0, 1, 3, 6, 30] {
            let mut rows = Rows::new();
            let [a, b] = [chain(&mut rows, n, BOOL), chain(&mut rows, n, U16)];
            let c = chain(&mut rows, m, I16);
            let all = (n + 1) * (m + 1);
            assert_eq!(cast(&rows, a, c), no(all));
            assert_eq!(cast(&rows, b, c), yes(all));
        }
    }
}

#[test]
fn transparent_over_distinct() {
    let mut rows = Rows::new();
    let inner = rows.alias(BOOL, 0, true);
    let alias = rows.alias(inner, 1, false);
    let (over_alias, over_inner) = (rows.alias(alias, 2, true), rows.alias(inner, 3, true));
    for (source, target, expected) in [
        (alias, inner, yes(1)),
        (inner, alias, yes(1)),
        (alias, BOOL, no(1)),
        (inner, BOOL, yes(2)),
        (STRING, U16, yes(2)),
        (over_alias, BOOL, no(2)),
        (over_alias, over_inner, yes(5)),
        (over_inner, over_alias, yes(4)),
    ] {
        assert_eq!(cast(&rows, source, target), expected, "{source} to {target}");
    }
}

#[test]
fn broken_sentences() {
    let mut casts = Casts::default();
    for (n, m, cast) in [(0, 0, yes(1)), (0, 0, no(1)), (1, 2, yes(1)), (1, 2, yes(5)), (1, 2, yes(6)), (1, 2, no(6))] {
        casts.count(n, m, cast).unwrap();
    }
    assert_eq!(casts, Casts { single: 2, first: 1, last: 1, between: 1, none: 1, most: 6 });
    for (n, m, cast) in [(0, 0, yes(0)), (0, 0, no(2)), (1, 2, yes(7)), (1, 2, no(5)), (1, 2, no(0))] {
        assert!(casts.count(n, m, cast).is_err(), "{n} and {m} aliases, {cast:?}");
    }
}
