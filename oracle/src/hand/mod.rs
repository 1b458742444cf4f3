//! Modules by hand: records in few words, and the list of named modules for the replay.

mod chains;
mod expressions;
mod faults;
mod items;
pub mod limits;
pub mod messages;
mod statements;

use crate::{
    layout::{self, Field, Place},
    product::{Loans, REPORT},
    tree::Tree,
};

/// The names of every module here, by their numbers. Those from "C" on are declared by `declaration`.
pub const NAMES: [&str; 37] = [
    "u16", "i16", "bool", "String", "A", "B", "f", "x", "y", "m", "n", "nobody", "C", "D", "E", "R", "S", "V", "Z",
    "u", "i", "b", "s", "p", "a", "t", "c", "d", "e", "r", "w", "z", "h", "j", "k", "g", "o",
];
pub const U16: u32 = 0;
pub const I16: u32 = 1;
pub const BOOL: u32 = 2;
pub const STRING: u32 = 3;
pub const A: u32 = 4;
pub const B: u32 = 5;
pub const F: u32 = 6;
pub const X: u32 = 7;
pub const Y: u32 = 8;
pub const M: u32 = 9;

pub fn record(kind: u16, fields: &[u32], children: Vec<Tree>) -> Tree {
    Tree::new(kind, Place::default(), fields, children)
}

pub fn at(line: u32, mut tree: Tree) -> Tree {
    tree.at.line = line;
    tree
}

pub fn ty(name: u32) -> Tree {
    record(16, &[0, name], vec![])
}

pub fn void() -> Tree {
    record(17, &[0], vec![])
}

pub fn pointer(to: Tree) -> Tree {
    record(18, &[0], vec![to])
}

pub fn array(size: u32, of: Tree) -> Tree {
    record(19, &[0, size], vec![of])
}

pub fn structure(fields: Vec<(u32, Tree)>) -> Tree {
    record(20, &[0], fields.into_iter().map(|(name, ty)| record(21, &[name], vec![ty])).collect())
}

pub fn id(name: u32) -> Tree {
    record(32, &[0, name], vec![])
}

pub fn literal(digits: &str, base: u32) -> Tree {
    Tree::with_bytes(33, Place::default(), &[0, base], digits.as_bytes())
}

pub fn truth() -> Tree {
    record(34, &[0, 1], vec![])
}

pub fn cast(e: Tree, to: Tree) -> Tree {
    record(38, &[0], vec![e, to])
}

pub fn block(members: Vec<Tree>) -> Tree {
    record(64, &[0], members)
}

pub fn give(value: Tree) -> Tree {
    record(69, &[], vec![value])
}

pub fn global(name: u32, ty: Tree) -> Tree {
    record(83, &[name], vec![ty])
}

pub fn global_with(name: u32, ty: Tree, value: Tree) -> Tree {
    record(83, &[name], vec![ty, value])
}

pub fn alias(name: u32, flags: u32, ty: Tree) -> Tree {
    record(81, &[name, flags], vec![ty])
}

pub fn function(returned: Tree, body: Tree) -> Tree {
    record(80, &[F], vec![returned, body])
}

pub fn module(items: Vec<Tree>) -> Vec<u8> {
    Tree::module(&NAMES, items).to_bytes()
}

/// The number of a name.
pub fn name(text: &str) -> u32 {
    NAMES.iter().position(|name| *name == text).expect("a name of the list") as u32
}

/// An identifier by its text.
fn var(text: &str) -> Tree {
    id(name(text))
}

/// A type by its text.
fn named(text: &str) -> Tree {
    ty(name(text))
}

fn number(digits: &str) -> Tree {
    literal(digits, 10)
}

/// A struct with a u16 and a bool.
fn pair() -> Tree {
    structure(vec![(M, ty(U16)), (name("n"), ty(BOOL))])
}

/// What the modules here declare under a name: aliases in capitals, variables and functions of each sort of type.
fn declaration(text: &str) -> Option<Tree> {
    let parameter = |name, ty| record(85, &[name], vec![ty]);
    let number = || name(text);
    let variable = |ty| Some(global(number(), ty));
    match text {
        "C" => Some(alias(number(), 0, ty(U16))),
        "D" => Some(alias(number(), 1, ty(U16))),
        "E" => Some(alias(number(), 0, ty(I16))),
        "R" => Some(alias(number(), 0, array(3, ty(U16)))),
        "S" => Some(alias(number(), 0, pair())),
        "V" => Some(alias(number(), 0, void())),
        "Z" => Some(alias(number(), 1, array(3, ty(U16)))),
        "u" => variable(ty(U16)),
        "i" => variable(ty(I16)),
        "b" => variable(ty(BOOL)),
        "s" => variable(ty(STRING)),
        "p" => variable(pointer(ty(U16))),
        "a" => variable(array(3, ty(U16))),
        "t" => variable(pair()),
        "c" => variable(named("C")),
        "d" => variable(named("D")),
        "e" => variable(named("E")),
        "r" => variable(named("R")),
        "w" => variable(named("S")),
        "z" => variable(named("Z")),
        "h" => variable(pointer(array(3, ty(U16)))),
        "j" => variable(pointer(named("R"))),
        "k" => variable(pointer(pair())),
        "g" => Some(record(80, &[number()], vec![ty(U16), parameter(X, ty(U16)), parameter(Y, ty(BOOL))])),
        "o" => Some(record(80, &[number()], vec![void()])),
        _ => None,
    }
}

/// Adds the names that a record and those in it have.
fn add_names(tree: &Tree, into: &mut Vec<u32>) {
    let fields = layout::shape(tree.kind).0.iter().zip(&tree.fields);
    into.extend(fields.filter(|(kind, _)| **kind == Field::Name).map(|(_, value)| *value));
    tree.children.iter().for_each(|child| add_names(child, into));
}

/// Puts the numbers of the names left in place of those of the whole list.
fn renumber(tree: &mut Tree, names: &[u32]) {
    for (kind, value) in layout::shape(tree.kind).0.iter().zip(&mut tree.fields) {
        if *kind == Field::Name {
            *value = names.binary_search(value).expect("a name in use") as u32;
        }
    }
    tree.children.iter_mut().for_each(|child| renumber(child, names));
}

/// A module of items, after the declarations of what they name, with the names in use only.
pub fn complete(mut items: Vec<Tree>) -> Vec<u8> {
    let mut names = vec![];
    items.iter().for_each(|item| add_names(item, &mut names));
    // Variables name aliases, and these name nothing that is declared: two rounds are enough.
    for _ in 0..2 {
        names.sort();
        names.dedup();
        let there: Vec<u32> =
            items.iter().filter(|item| item.kind != 82 && item.kind != 84).map(|item| item.fields[0]).collect();
        let missing =
            names.iter().filter(|name| !there.contains(name)).filter_map(|&name| declaration(NAMES[name as usize]));
        let mut all: Vec<Tree> = missing.collect();
        all.sort_by_key(|item| item.kind != 81);
        all.iter().for_each(|item| add_names(item, &mut names));
        all.append(&mut items);
        items = all;
    }
    names.sort();
    names.dedup();
    items.iter_mut().for_each(|item| renumber(item, &names));
    let texts: Vec<&str> = names.iter().map(|&name| NAMES[name as usize]).collect();
    Tree::module(&texts, items).to_bytes()
}

/// A module of a function that returns void and has these statements.
fn in_function(members: Vec<Tree>) -> Vec<u8> {
    complete(vec![function(void(), block(members))])
}

/// Expressions as statements, each on a line of its own.
fn evaluated(expressions: Vec<Tree>) -> Vec<u8> {
    let lines = expressions.into_iter().zip(1..);
    in_function(lines.map(|(e, line)| record(65, &[], vec![at(line, e)])).collect())
}

/// A module with a name, and what is lent for it.
pub struct Case {
    pub name: String,
    pub bytes: Vec<u8>,
    pub loans: Loans,
}

/// Every module by hand.
pub fn cases() -> Vec<Case> {
    let mut all = vec![];
    expressions::add(&mut all);
    chains::add(&mut all);
    statements::add(&mut all);
    items::add(&mut all);
    limits::add(&mut all);
    messages::add(&mut all);
    faults::add(&mut all);
    all
}

/// Adds a module for which the report program's loans are lent.
fn put(all: &mut Vec<Case>, name: impl Into<String>, bytes: Vec<u8>) {
    all.push(Case { name: name.into(), bytes, loans: REPORT });
}
