//! Where the layout's faults are.

mod common;

use common::*;
use oracle::{
    layout::{HEAD, Place},
    tree::Tree,
};

/// The names end here in a module of the common names.
fn items_start() -> usize {
    module(vec![]).len()
}

/// Puts a word into a file.
fn with_word(mut bytes: Vec<u8>, place: usize, value: u32) -> Vec<u8> {
    bytes[place..place + 4].copy_from_slice(&value.to_le_bytes());
    bytes
}

/// A module of one item with bytes after the item's last record, all lengths mended, the module's and the item's.
fn with_tail(item: Tree, tail: &[u8]) -> Vec<u8> {
    let start = items_start();
    let mut bytes = module(vec![item]);
    bytes.extend(tail);
    let length = bytes.len();
    with_word(with_word(bytes, 0, length as u32), start, (length - start) as u32)
}

#[test]
fn no_bytes() {
    // Both checkers take it for the module without items.
    let least = Tree::module::<&str>(&[], vec![]).to_bytes();
    assert_eq!(least.len(), 32);
    assert_eq!(both(&[]).text(), both(&least).text());
    assert_eq!((both(&[]).rows.count(), both(&[]).errors.len()), (7, 0));
}

#[test]
fn no_module() {
    for length in 1..16 {
        assert_eq!(verdict(&module(vec![])[..length]), "refused 2 at 0");
    }
    // A head without names: the names are missing where they should begin.
    assert_eq!(verdict(&record(1, &[], vec![]).to_bytes()), "refused 2 at 16");
    assert_eq!(verdict(&record(2, &[], vec![]).to_bytes()), "refused 2 at 0");
    assert_eq!(verdict(&with_word(module(vec![]), 0, 15)), "refused 2 at 0");
    assert_eq!(verdict(&vec![0; 65_537]), "refused 1 at 0");
}

#[test]
fn module_and_file_length() {
    let good = module(vec![]);
    let mut longer = good.clone();
    longer.push(0);
    assert_eq!(verdict(&longer), format!("refused 2 at {}", good.len()));
    assert_eq!(verdict(&good[..good.len() - 1]), "refused 2 at 0");
    // A fault inside comes before the bytes after the module.
    let mut both = with_word(module(vec![global(X, ty(U16))]), items_start() + 16, 99);
    both.push(0);
    assert_eq!(verdict(&both), format!("refused 2 at {}", items_start() + 16));
}

#[test]
fn least_modules() {
    let none: [&str; 0] = [];
    assert_eq!(verdict(&Tree::module(&none, vec![]).to_bytes()), "accepted");
    assert_eq!(verdict(&Tree::module(&[""], vec![]).to_bytes()), "accepted");
    // With no names every name is bad.
    let bytes = Tree::module(&none, vec![global(0, ty(0))]).to_bytes();
    assert_eq!(verdict(&bytes), "refused 2 at 48");
    let bytes = Tree::module(&none, vec![record(82, &[], vec![]), record(84, &[], vec![])]).to_bytes();
    assert_eq!(verdict(&bytes), "accepted");
}

#[test]
fn names_list() {
    let bytes = Tree::new(1, Place::default(), &[], vec![record(2, &[], vec![record(84, &[], vec![])])]).to_bytes();
    assert_eq!(verdict(&bytes), "refused 2 at 32");
    let twice = Tree::new(1, Place::default(), &[], vec![record(2, &[], vec![]), record(2, &[], vec![])]).to_bytes();
    assert_eq!(verdict(&twice), "refused 2 at 32");
    let item_first = Tree::new(1, Place::default(), &[], vec![record(84, &[], vec![])]).to_bytes();
    assert_eq!(verdict(&item_first), "refused 2 at 16");
}

#[test]
fn equal_names() {
    assert_eq!(verdict(&Tree::module(&["a", "b", "a", "b"], vec![]).to_bytes()), "refused 4 at 66");
    assert_eq!(verdict(&Tree::module(&["", "x", ""], vec![]).to_bytes()), "refused 4 at 65");
    // A layout fault anywhere comes first.
    let bytes = Tree::module(&["a", "a"], vec![global(2, ty(0))]).to_bytes();
    assert_eq!(verdict(&bytes), "refused 2 at 82");
}

#[test]
fn heads() {
    let start = items_start();
    let good = || module(vec![global(X, ty(U16))]);
    let inner = start + HEAD + 4;
    assert_eq!(verdict(&good()), "accepted");
    assert_eq!(verdict(&with_word(good(), inner, 23)), format!("refused 2 at {inner}"));
    assert_eq!(verdict(&with_word(good(), inner, 25)), format!("refused 2 at {inner}"));
    assert_eq!(verdict(&with_word(good(), inner, u32::MAX)), format!("refused 2 at {inner}"));
    assert_eq!(verdict(&with_word(good(), start, 19)), format!("refused 2 at {start}"));
    // A shorter item: its type no longer fits in it.
    assert_eq!(verdict(&with_word(good(), start, 43)), format!("refused 2 at {inner}"));
    for kind in [0, 1, 3, 15, 21, 32, 48, 64, 80, 300] {
        assert_eq!(verdict(&with_word(good(), inner + 4, kind)), format!("refused 2 at {inner}"));
    }
    for kind in [0, 1, 2, 16, 79, 85, 86] {
        assert_eq!(verdict(&with_word(good(), start + 4, kind)), format!("refused 2 at {start}"));
    }
}

#[test]
fn fields() {
    let start = items_start();
    let type_at = start + HEAD + 4;
    // A slot that is not 0, then a name past the list.
    assert_eq!(
        verdict(&module(vec![global(X, record(16, &[1, U16], vec![]))])),
        format!("refused 2 at {}", type_at + 16)
    );
    assert_eq!(
        verdict(&module(vec![global(X, record(16, &[0, NAMES.len() as u32], vec![]))])),
        format!("refused 2 at {}", type_at + 20)
    );
    assert_eq!(verdict(&module(vec![global(NAMES.len() as u32, ty(U16))])), format!("refused 2 at {}", start + 16));
    assert_eq!(verdict(&module(vec![alias(A, 4, ty(U16))])), format!("refused 2 at {}", start + 20));
    assert_eq!(verdict(&module(vec![alias(A, 3, ty(U16))])), "accepted");
    let value_at = type_at + 24;
    let valued = |value: Tree| verdict(&module(vec![global_with(X, ty(U16), value)]));
    let field = format!("refused 2 at {}", value_at + 20);
    assert_eq!(valued(literal("1", 1)), field);
    assert_eq!(valued(literal("1", 37)), field);
    assert_eq!(valued(literal("1", 2)), "accepted");
    assert_eq!(valued(literal("1", 36)), "accepted");
    assert_eq!(valued(record(34, &[0, 2], vec![])), field);
    for (kind, least, most) in [(45, 1, 8), (46, 1, 5)] {
        let operation = |operator| valued(record(kind, &[0, operator], vec![id(X), id(X)]));
        assert_eq!(operation(least - 1), field);
        assert_eq!(operation(least), "accepted");
        assert_eq!(operation(most), "accepted");
        assert_eq!(operation(most + 1), field);
    }
    // Any size will do.
    assert_eq!(verdict(&module(vec![global(X, array(u32::MAX, ty(U16)))])), "accepted");
    let trailing = module(vec![function(void(), record(64, &[2], vec![]))]);
    assert_eq!(verdict(&trailing), format!("refused 2 at {}", start + HEAD + 4 + 20 + 16));
}

#[test]
fn missing_and_left_over() {
    let start = items_start();
    // A global without its type: missing where the item ends.
    assert_eq!(verdict(&module(vec![record(83, &[X], vec![])])), format!("refused 2 at {}", start + 20));
    // An index without its second part.
    let short = module(vec![global_with(X, ty(U16), record(37, &[0], vec![id(X)]))]);
    assert_eq!(verdict(&short), format!("refused 2 at {}", short.len()));
    // Bytes after the last record listed.
    let place = format!("refused 2 at {}", module(vec![global(X, ty(U16))]).len());
    assert_eq!(verdict(&with_tail(global(X, ty(U16)), &[0])), place);
    let valued = global_with(X, ty(U16), id(X));
    let end = module(vec![valued.clone()]).len();
    assert_eq!(verdict(&with_tail(valued.clone(), &[0; 40])), format!("refused 2 at {end}"));
    assert_eq!(verdict(&with_tail(valued, &id(X).to_bytes())), format!("refused 2 at {end}"));
    assert_eq!(verdict(&with_tail(alias(A, 0, ty(U16)), &[0; 15])), format!("refused 2 at {}", start + 24 + 24));
}

#[test]
fn functions() {
    let start = items_start();
    let parameter = |name| record(85, &[name], vec![ty(U16)]);
    let good = |children: Vec<Tree>| verdict(&module(vec![record(80, &[F], children)]));
    assert_eq!(good(vec![void()]), "accepted");
    assert_eq!(good(vec![void(), parameter(X), parameter(X)]), "accepted");
    assert_eq!(good(vec![void(), parameter(X), block(vec![])]), "accepted");
    let returned_end = start + 20 + 20;
    assert_eq!(good(vec![]), format!("refused 2 at {}", start + 20));
    assert_eq!(good(vec![void(), block(vec![]), parameter(X)]), format!("refused 2 at {}", returned_end + 20));
    assert_eq!(good(vec![void(), block(vec![]), block(vec![])]), format!("refused 2 at {}", returned_end + 20));
    assert_eq!(good(vec![void(), id(X)]), format!("refused 2 at {returned_end}"));
    assert_eq!(good(vec![void(), void()]), format!("refused 2 at {returned_end}"));
}

#[test]
fn optional_records() {
    let body = |statement: Tree| verdict(&module(vec![function(void(), statement)]));
    let start = items_start() + 20 + 20;
    assert_eq!(body(record(69, &[], vec![])), "accepted");
    assert_eq!(body(give(id(X))), "accepted");
    assert_eq!(body(record(69, &[], vec![id(X), id(X)])), format!("refused 2 at {}", start + 16 + 24));
    assert_eq!(body(record(69, &[], vec![block(vec![])])), format!("refused 2 at {}", start + 16));
    assert_eq!(body(record(66, &[X], vec![ty(U16)])), "accepted");
    assert_eq!(body(record(66, &[X], vec![ty(U16), record(48, &[], vec![])])), "accepted");
    assert_eq!(body(record(66, &[X], vec![ty(U16), block(vec![])])), format!("refused 2 at {}", start + 20 + 24));
    assert_eq!(body(record(68, &[], vec![id(X), id(X)])), format!("refused 2 at {}", start + 16 + 24));
    assert_eq!(body(record(73, &[], vec![truth()])), format!("refused 2 at {}", start + 16 + 24));
    assert_eq!(body(record(73, &[], vec![truth(), block(vec![]), block(vec![])])), "accepted");
    assert_eq!(body(record(72, &[], vec![])), "accepted");
    let extra = with_tail(function(void(), record(72, &[], vec![])), &[0]);
    assert_eq!(verdict(&extra), format!("refused 2 at {}", start + 16));
}

/// A module whose value holds `inner` bytes at depth 65, or left over at depth 64, as the kind at depth 64 has it.
fn at_the_bottom(kind: u16, fields: &[u32], inner: &[u8]) -> (Vec<u8>, usize) {
    let mut e = Tree::with_bytes(kind, Place::default(), fields, inner);
    for _ in 3..64 {
        e = record(42, &[0], vec![e]);
    }
    let bytes = module(vec![global_with(X, ty(U16), e)]);
    let place = bytes.len() - inner.len();
    (bytes, place)
}

#[test]
fn depth_comes_before_layout() {
    // Due and missing, due and broken, due and good: all are 3 at depth 65.
    for inner in [&[][..], &[0], &[0; 15], &id(X).to_bytes()] {
        let (bytes, place) = at_the_bottom(42, &[0], inner);
        assert_eq!(verdict(&bytes), format!("refused 3 at {place}"));
    }
    // In a list a record is due only if bytes remain; here the first is due in any case.
    let (bytes, place) = at_the_bottom(36, &[0], &[]);
    assert_eq!(verdict(&bytes), format!("refused 3 at {place}"));
    // No record is due in an identifier or a truth value.
    assert_eq!(verdict(&at_the_bottom(32, &[0, X], &[]).0), "accepted");
    let (bytes, place) = at_the_bottom(32, &[0, X], &[0]);
    assert_eq!(verdict(&bytes), format!("refused 2 at {place}"));
    let (bytes, place) = at_the_bottom(34, &[0, 0], &[0; 20]);
    assert_eq!(verdict(&bytes), format!("refused 2 at {place}"));
    // The record at depth 64 is looked at before what stands in it.
    let (bytes, place) = at_the_bottom(42, &[7], &[0]);
    assert_eq!(verdict(&bytes), format!("refused 2 at {}", place - 4));
}

#[test]
fn depth_in_lists() {
    let nested = |mut s: Tree| {
        for _ in 3..64 {
            s = record(70, &[], vec![s]);
        }
        module(vec![function(void(), s)])
    };
    assert_eq!(verdict(&nested(block(vec![]))), "accepted");
    assert_eq!(verdict(&nested(record(69, &[], vec![]))), "accepted");
    let stray = Tree::with_bytes(64, Place::default(), &[0], &[1]);
    let bytes = nested(stray);
    assert_eq!(verdict(&bytes), format!("refused 3 at {}", bytes.len() - 1));
    let bytes = nested(give(id(X)));
    assert_eq!(verdict(&bytes), format!("refused 3 at {}", bytes.len() - 24));
    let bytes = nested(Tree::with_bytes(72, Place::default(), &[], &[1]));
    assert_eq!(verdict(&bytes), format!("refused 2 at {}", bytes.len() - 1));
    // Struct fields are a level of their own: the type at depth 3, the fields at 4, 6, .., 64, their types at 5, 7, ..
    let mut deep = ty(U16);
    for _ in 0..30 {
        deep = structure(vec![(M, deep)]);
    }
    assert_eq!(verdict(&module(vec![global(X, deep.clone())])), "accepted");
    let deeper = module(vec![global(X, structure(vec![(M, deep)]))]);
    assert_eq!(verdict(&deeper), format!("refused 3 at {}", deeper.len() - 24));
}
