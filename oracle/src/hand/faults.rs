//! A small module for each record kind, with every plain fault in a record of that kind.

use super::{
    Case, X, array, block, complete, function, global, global_with, id, literal, pointer, put, record, structure,
    truth, void,
};
use crate::{damage, layout::Place, tree::Tree};

pub fn add(all: &mut Vec<Case>) {
    for kind in [1..=3, 16..=21, 32..=50, 64..=74, 80..=85].into_iter().flatten() {
        for (what, bytes) in damage::each_fault(&module_with(kind), kind) {
            put(all, format!("record {kind}: {what}"), bytes);
        }
    }
}

/// A small module with a record of the kind.
fn module_with(kind: u16) -> Vec<u8> {
    complete(vec![match kind {
        16..=21 => global(X, type_with(kind)),
        32..=47 => global_with(X, void(), expression_with(kind)),
        48 => global_with(X, void(), record(48, &[], vec![id(X)])),
        49 | 50 => global_with(X, void(), record(49, &[], vec![record(50, &[X], vec![id(X)])])),
        64..=74 => function(void(), statement_with(kind)),
        80 | 85 => record(80, &[X], vec![void(), record(85, &[X], vec![void()]), block(vec![])]),
        81 => record(81, &[X, 0], vec![void()]),
        82 | 84 => free(kind, &[]),
        _ => global_with(X, void(), id(X)),
    }])
}

fn free(kind: u16, fields: &[u32]) -> Tree {
    Tree::with_bytes(kind, Place::default(), fields, b"1")
}

fn type_with(kind: u16) -> Tree {
    match kind {
        16 => super::ty(X),
        17 => void(),
        18 => pointer(void()),
        19 => array(3, void()),
        _ => structure(vec![(X, void())]),
    }
}

fn expression_with(kind: u16) -> Tree {
    let of = |fields: &[u32], count: usize| record(kind, fields, vec![id(X); count]);
    match kind {
        32 => id(X),
        33 => literal("1", 10),
        34 => truth(),
        35 => free(35, &[0]),
        38 => record(38, &[0], vec![id(X), void()]),
        39 | 40 | 42 | 43 => of(&[0], 1),
        41 => of(&[0, X], 1),
        45 | 46 => of(&[0, 1], 2),
        47 => record(47, &[0], vec![void()]),
        _ => of(&[0], 2),
    }
}

fn statement_with(kind: u16) -> Tree {
    let stop = || record(72, &[], vec![]);
    let of = |children: Vec<Tree>| record(kind, &[], children);
    match kind {
        64 => block(vec![stop()]),
        65 | 69 => of(vec![id(X)]),
        66 => record(66, &[X], vec![void(), id(X)]),
        67 => of(vec![id(X), id(X)]),
        68 => of(vec![id(X), record(48, &[], vec![])]),
        70 => of(vec![stop()]),
        71 => of(vec![id(X), stop()]),
        72 => stop(),
        73 => of(vec![id(X), stop(), stop()]),
        _ => free(74, &[]),
    }
}
