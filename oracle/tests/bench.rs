//! The example and the bench sheet of document 01.

mod common;

use common::*;
use oracle::{
    answer::Operand,
    layout::{self, Place},
    rows::{Rows, Words},
    tree::Tree,
};

#[test]
fn example() {
    let mut ty = record(16, &[0, 1], vec![]);
    ty.at = Place { file: 0, line: 3, column: 8 };
    let bytes = Tree::module(&["x", "u17"], vec![record(83, &[0], vec![ty])]).to_bytes();
    assert_eq!(bytes.len(), 112);
    let answer = both(&bytes);
    assert_eq!(answer.report(3_000, 2_000), "rows 7 errors 2\n1 0 3 8\n1 0 3 8\n");
    assert_eq!(answer.slots, [(104, 1)]);
    assert!(answer.errors.iter().all(|error| error.operands[0] == Operand::Number(1)));
    assert_eq!(answer.report(6, 2_000), "refused 6 at 0\n");
    assert_eq!(answer.report(7, 1), "refused 7 at 0\n");
}

fn literal_errors(digits: &str, base: u32) -> Vec<u32> {
    errors(vec![global_with(X, ty(U16), literal(digits, base))])
}

#[test]
fn literals() {
    assert_eq!(literal_errors("65535", 10), []);
    assert_eq!(literal_errors("65536", 10), [23]);
    assert_eq!(literal_errors("ffff", 16), []);
    assert_eq!(literal_errors("FFFF", 16), []);
    assert_eq!(literal_errors("+7", 10), []);
    assert_eq!(literal_errors("+", 10), [23]);
    assert_eq!(literal_errors("", 10), [23]);
    assert_eq!(literal_errors("-0", 10), [23]);
}

#[test]
fn casts_through_aliases() {
    for (flags, expected) in [(0, vec![15]), (1, vec![])] {
        let items = vec![alias(A, flags, ty(U16)), global(X, ty(A)), global_with(Y, ty(I16), cast(id(X), ty(I16)))];
        assert_eq!(errors(items), expected);
    }
}

#[test]
fn decay() {
    let assign = record(67, &[], vec![id(X), id(Y)]);
    let with = |pointee: Tree| {
        vec![
            alias(A, 0, array(4, ty(U16))),
            global(X, pointer(ty(U16))),
            global(Y, pointer(pointee)),
            function(void(), assign.clone()),
        ]
    };
    assert_eq!(errors(with(array(4, ty(U16)))), []);
    assert_eq!(errors(with(ty(A))), [8]);
}

#[test]
fn comparison_of_booleans() {
    let equal = record(46, &[0, 1], vec![truth(), truth()]);
    let answer = both(&module(vec![global_with(X, ty(BOOL), equal)]));
    assert_eq!(answer.errors.len(), 1);
    assert_eq!(answer.errors[0].kind, 24);
    assert_eq!(answer.errors[0].operands, [Operand::Number(9), Operand::Row(3), Operand::Row(3)]);
}

#[test]
fn divergence() {
    let returns = || give(literal("1", 10));
    let breaks = || record(72, &[], vec![]);
    let loops = |body: Tree| record(70, &[], vec![body]);
    let in_function = |body: Tree| errors(vec![function(ty(U16), body)]);
    assert_eq!(in_function(record(71, &[], vec![truth(), block(vec![returns()])])), []);
    assert_eq!(in_function(loops(block(vec![loops(block(vec![breaks()]))]))), [6]);
    let perhaps = record(73, &[], vec![truth(), block(vec![breaks()])]);
    assert_eq!(in_function(loops(block(vec![perhaps.clone(), returns()]))), []);
    assert_eq!(in_function(loops(block(vec![perhaps]))), [6]);
    assert_eq!(in_function(loops(block(vec![]))), []);
}

#[test]
fn words() {
    let mut rows = Rows::new();
    let largest = rows.array(4, 65_535);
    let larger = rows.array(4, 65_536);
    let huge = rows.array(4, 70_000);
    let none = rows.array(huge, 0);
    let words = rows.words();
    let of = |row: u32| words[row as usize - 1];
    assert_eq!(of(largest), Words::Known(65_535));
    assert_eq!(of(larger), Words::TooLarge);
    assert_eq!(of(none), Words::Known(0));
    assert_eq!(of(1), Words::Unknown);
    assert_eq!(of(2), Words::Known(0));
    assert_eq!(of(7), Words::Known(1));
}

#[test]
fn sizes() {
    let filling = |count: usize| {
        let bare = module(vec![]).len() + 16;
        module(vec![Tree::with_bytes(84, Place::default(), &[], &vec![b' '; count - bare])])
    };
    assert_eq!(filling(65_536).len(), 65_536);
    assert_eq!(verdict(&filling(65_536)), "accepted");
    assert_eq!(verdict(&filling(65_537)), "refused 1 at 0");
    both(&filling(65_536));
}

#[test]
fn depths() {
    // The module is 1, the item 2, its type 3 and its value 3; the innermost is the literal.
    let nested = |depth: usize| {
        let mut e = literal("1", 10);
        for _ in 3..depth {
            e = record(42, &[0], vec![e]);
        }
        module(vec![global_with(X, ty(U16), e)])
    };
    assert_eq!(verdict(&nested(64)), "accepted");
    both(&nested(64));
    let deeper = nested(65);
    let innermost = deeper.len() - (16 + 8 + 1);
    assert_eq!(verdict(&deeper), format!("refused 3 at {innermost}"));
    assert!(layout::read(&deeper).is_err());
}
