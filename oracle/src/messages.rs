//! The texts of the reference's errors, by kind, and what each prints.

use crate::answer::{ERROR_KINDS, ERROR_WIDTH};

/// `{}` stands for a piece that is printed.
const TEXTS: [&str; ERROR_KINDS as usize] = [
    "unknown type `{}`",
    "no built-in type exists to match `internal` alias of `{}`",
    "built-in type `{}` ({}) does not match `internal` definition ({})",
    "duplicate type alias `{}`",
    "type alias `{}` conflicts with a built-in type",
    "not all control-flow paths of `{}` return a value",
    "redefinition of local variable `{}`",
    "type `{}` is not assignable to `{}`",
    "must return a value of type `{}`",
    "unknown identifier `{}`",
    "wrong number of arguments - expected {}, got {}",
    "invalid type for argument {} - expected `{}`, got `{}`",
    "cannot call non-function value of type `{}`",
    "cannot use `{}` to index an array",
    "cannot cast `{}` to `{}`",
    "cannot dereference non-pointer type `{}`",
    "cannot access fields on type `{}`",
    "type `{}` has no field named `{}`",
    "operator `~` is not compatible with type `{}`",
    "operator `!` can only be applied to booleans, not `{}`",
    "operator `&&` can only be applied to booleans, but left-hand side is `{}`",
    "operator `&&` can only be applied to booleans, but right-hand side is `{}`",
    "integer literal '{}' out of range",
    "operator `{}` is not compatible with types `{}` and `{}`",
    "compound assignment target has length {}, but array compound has length {}",
    "target of array compound assignment cannot be `{}`",
    "target of struct compound assignment has no field named `{}`",
    "target of struct compound assignment cannot be `{}`",
    "struct compound assigns `{}` more than once",
];

/// What is printed in the place of a `{}`.
#[derive(Clone, Copy, Debug, PartialEq, Eq)]
pub enum Sort {
    Name,
    Type,
    /// In decimal.
    Number,
    Operator,
    /// The built-in type of a name.
    BuiltIn,
    /// The digits of the literal whose record stands at a place.
    Literal,
}

/// A piece of a text: what it is, and the word of the error that says which.
#[derive(Clone, Copy, Debug, PartialEq, Eq)]
pub struct Piece {
    pub sort: Sort,
    pub word: usize,
}

/// The words of an error that messages read: the kind, the operands, the place.
pub const KIND: usize = 0;
const A: usize = 4;
const B: usize = 5;
const C: usize = 6;
const PLACE: usize = ERROR_WIDTH - 1;

/// The pieces of a text, in the order in which they are printed.
pub fn pieces(kind: u32) -> Vec<Piece> {
    use Sort::*;
    let of: &[(Sort, usize)] = match kind {
        1 | 2 | 4..=7 | 10 | 27 | 29 => &[(Name, A)],
        3 => &[(Name, A), (BuiltIn, A), (Type, B)],
        8 => &[(Type, B), (Type, A)],
        9 | 13 | 14 | 16 | 17 | 19..=22 | 26 | 28 => &[(Type, A)],
        11 | 25 => &[(Number, A), (Number, B)],
        12 => &[(Number, A), (Type, B), (Type, C)],
        15 => &[(Type, A), (Type, B)],
        18 => &[(Type, A), (Name, B)],
        23 => &[(Literal, PLACE)],
        24 => &[(Operator, A), (Type, B), (Type, C)],
        _ => unreachable!("no errors of kind {kind}"),
    };
    of.iter().map(|&(sort, word)| Piece { sort, word }).collect()
}

/// The operators by their numbers less 1; the last stands for every comparison.
pub const OPERATORS: [&str; 9] = ["+", "-", "*", "&", "^", "|", "<<", ">>", "=="];

/// What stands around the pieces of a text, one more than there are pieces.
pub fn around(kind: u32) -> impl Iterator<Item = &'static str> {
    TEXTS[kind as usize - 1].split("{}")
}

/// Which operands of an error of the kind are rows.
pub fn row_operands(kind: u32) -> [bool; 3] {
    let pieces = if (1..=ERROR_KINDS).contains(&kind) { pieces(kind) } else { vec![] };
    [A, B, C].map(|word| pieces.contains(&Piece { sort: Sort::Type, word }))
}

/// The message of the kind with these pieces.
pub fn filled(kind: u32, pieces: &[String]) -> String {
    let mut around = around(kind);
    let mut text = around.next().unwrap().to_owned();
    for (piece, after) in pieces.iter().zip(around) {
        text += piece;
        text += after;
    }
    text
}

/// Whether a text begins as messages of the kind do; a cheap test before pieces are printed.
pub fn may_say(text: &str, kind: u32) -> bool {
    text.starts_with(around(kind).next().unwrap())
}
