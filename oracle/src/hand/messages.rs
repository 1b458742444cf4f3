//! Modules for what messages print: types of each form, names and literals of any bytes, numbers of each length, texts about the longest.

use std::iter;

use super::{
    A, B, BOOL, Case, F, I16, M, STRING, U16, X, Y, alias, array, block, cast, complete, evaluated, function, global,
    global_with, id, literal, name, named, pair, pointer, put, record, structure, ty, var, void,
};
use crate::{
    layout::{HEAD, MOST_BYTES, Place},
    rows::{self, Rows},
    tell::Question,
    tree::Tree,
};

/// Every module of this file.
pub fn cases() -> Vec<Case> {
    let mut all = vec![];
    add(&mut all);
    all
}

/// A question about a module with names of each sort and literals, over rows of each kind, for two errors.
pub fn every_sort() -> Question {
    let value = record(45, &[0, 1], vec![literal("70000", 10), literal("", 16)]);
    let names = ["u16", "i16", "bool", "String", "A", "x", ""];
    let items = vec![global_with(5, ty(0), value), global_with(4, ty(0), literal("12", 10))];
    let mut rows = Rows::new();
    let array = rows.array(rows::U16, 4);
    let alias = rows.alias(array, 4, false);
    let distinct = rows.alias(alias, 5, true);
    let structure = rows.structure(&[(5, alias), (6, distinct)]);
    let empty = rows.structure(&[]);
    let function = rows.function(structure, &[rows::STRING, empty]);
    rows.pointer(function);
    let errors = [[13, 0, 3, 8, array, 0, 0, 0], [10, 0, 4, 8, 5, 0, 0, 0]];
    Question::new(&Tree::module(&names, items).to_bytes(), &rows.row_words(), rows.count(), &errors.concat(), 2)
}

pub fn add(all: &mut Vec<Case>) {
    types(all);
    built_ins(all);
    names(all);
    literals(all);
    places(all);
    numbers(all);
    for count in [1, 2, 10, 13, 14, 15, 30] {
        put(all, format!("messages: {count} structs, each of the one before twice"), doubled(count));
    }
    for count in [200, 700] {
        put(all, format!("messages: a chain of {count} aliases"), chained(count));
    }
    put(all, "messages: as many names as a file has room for", many_names());
    put(all, "messages: literals at the end of the longest file", last_literals());
}

/// `*e`, an error unless e is a pointer.
fn dereferenced(e: Tree) -> Tree {
    record(40, &[0], vec![e])
}

/// A call, an error unless e is a function.
fn called(e: Tree) -> Tree {
    record(36, &[0], vec![e])
}

fn types(all: &mut Vec<Case>) {
    let of = |t: Tree| complete(vec![global(X, t), global_with(Y, ty(U16), called(id(X)))]);
    let field = |t: Tree| structure(vec![(M, t)]);
    let types = [
        ("void", void()),
        ("Unknown", ty(name("nobody"))),
        ("an empty struct", structure(vec![])),
        ("a struct of an empty struct", field(structure(vec![]))),
        ("a struct of three", structure(vec![(M, ty(U16)), (X, pointer(ty(I16))), (M, array(4, ty(BOOL)))])),
        ("a struct of structs", structure(vec![(X, pair()), (Y, field(pair()))])),
        ("pointers and arrays", pointer(array(3, pointer(array(0, ty(STRING)))))),
        ("an array of a struct", array(65_536, pair())),
        ("aliases of both sorts", structure(vec![(X, named("C")), (Y, named("D")), (M, pointer(named("S")))])),
    ];
    for (what, t) in types {
        put(all, format!("messages: {what}"), of(t));
    }
    let chain = vec![alias(A, 0, ty(U16)), alias(B, 0, ty(A)), global(X, ty(B)), global_with(Y, ty(A), called(id(X)))];
    put(all, "messages: an alias of an alias", complete(chain));
    // Pointers to functions of none, of one and of several arguments, among them a pointer to a struct.
    let functions: [&[Tree]; 3] = [&[], &[named("S")], &[pointer(pair()), ty(STRING), structure(vec![])]];
    for parameters in functions {
        let mut children = vec![pointer(named("D"))];
        children.extend(parameters.iter().map(|t| record(85, &[X], vec![t.clone()])));
        let value = called(record(39, &[0], vec![id(F)]));
        let items = vec![record(80, &[F], children), global_with(Y, ty(U16), value)];
        put(all, format!("messages: a pointer to a function of {}", parameters.len()), complete(items));
    }
}

/// String wherever a type is printed, and internal aliases of each built-in.
fn built_ins(all: &mut Vec<Case>) {
    let text = || Tree::with_bytes(35, Place::default(), &[0], b"text");
    let values = vec![called(text()), cast(text(), pair()), cast(var("t"), ty(STRING)), dereferenced(text())];
    put(all, "messages: String", evaluated(values));
    let assigned = record(67, &[], vec![var("s"), var("u")]);
    let back = record(67, &[], vec![var("u"), var("s")]);
    put(all, "messages: String to u16 and back", complete(vec![function(void(), block(vec![assigned, back]))]));
    for built_in in [U16, I16, BOOL, STRING] {
        let sorts = [ty(U16), ty(STRING), array(2, ty(I16)), pair(), ty(A), ty(B), pointer(ty(B)), structure(vec![])];
        let internal = sorts.into_iter().map(|t| alias(built_in, 2, t));
        let aliases = vec![alias(A, 0, array(2, ty(BOOL))), alias(B, 1, array(2, ty(BOOL)))];
        let items = aliases.into_iter().chain(internal).collect();
        put(all, format!("messages: internal aliases of {}", super::NAMES[built_in as usize]), complete(items));
    }
}

/// A module over some names in which each kind of error that names something names the one of this number.
fn naming(names: &[&[u8]], of: u32) -> Vec<u8> {
    let [u16_name, other] = [0, 1];
    let fields = |t: Tree| record(20, &[0], vec![record(21, &[of], vec![t])]);
    let setting = || record(50, &[of], vec![literal("1", 10)]);
    let members = vec![
        record(65, &[], vec![id(of)]),
        record(66, &[of], vec![ty(u16_name)]),
        record(66, &[of], vec![ty(u16_name)]),
        record(65, &[], vec![record(41, &[0, of], vec![id(other)])]),
        record(68, &[], vec![id(other), record(49, &[], vec![setting(), setting()])]),
        record(65, &[], vec![called(id(other))]),
    ];
    let items = vec![
        global(other, record(20, &[0], vec![])),
        global(of, ty(of)),
        alias(of, 2, ty(u16_name)),
        alias(of, 1, fields(ty(u16_name))),
        alias(of, 0, ty(of)),
        global(other, ty(of)),
        global_with(of, ty(u16_name), called(id(other))),
        global(other, fields(pointer(ty(of)))),
        record(80, &[of], vec![ty(u16_name), block(members)]),
    ];
    Tree::module(names, items).to_bytes()
}

fn names(all: &mut Vec<Case>) {
    let long = [b'n'; 300];
    let texts: [(&str, &[u8]); 8] = [
        ("x", b"x"),
        ("empty", b""),
        ("of 300 bytes", &long),
        ("with a line feed", b"a\nb"),
        ("like a message", b"`unknown type `x`"),
        ("like a piece", b"{}TUV%s"),
        ("with other letters", "\u{e9}\u{4e16}".as_bytes()),
        ("that is no UTF-8", b"\xff\x00\x80"),
    ];
    for (what, text) in texts {
        put(all, format!("messages: a name {what}"), naming(&[b"u16", b"other", text], 2));
    }
    // Distinct aliases without a name, so that a type is printed as nothing.
    let items = vec![alias(1, 1, ty(0)), global(2, ty(1)), global_with(2, pointer(ty(1)), called(id(2)))];
    put(all, "messages: a type without a text", Tree::module(&["u16", "", "x"], items).to_bytes());
}

fn literals(all: &mut Vec<Case>) {
    let digits = [b'9'; 200];
    let texts: [&[u8]; 9] = [b"", b"+", b"-1", &digits, b"'", b"a\nb", b" ", b"\xff", "\u{661}".as_bytes()];
    let values = texts.map(|text| Tree::with_bytes(33, Place::default(), &[0, 10], text));
    put(all, "messages: literals of any bytes", evaluated(values.to_vec()));
}

/// Several literals in one expression, at one place of the source, with the same digits: some out of range in their base, some not.
fn places(all: &mut Vec<Case>) {
    let nine = |base| literal("9", base);
    let sum = |left, right| record(45, &[0, 1], vec![left, right]);
    let value = || sum(sum(nine(9), nine(10)), sum(nine(16), sum(nine(8), nine(9))));
    put(all, "literals alike in a sum", complete(vec![global_with(X, ty(U16), value())]));
    let called = record(36, &[0], vec![var("g"), nine(2), nine(36), nine(9)]);
    let elements = || record(48, &[], vec![nine(9), called.clone(), nine(10), nine(3), value()]);
    put(all, "literals alike in a compound", complete(vec![global_with(X, array(5, ty(U16)), elements())]));
    let one = global_with(X, array(5, ty(U16)), elements());
    let two = function(ty(U16), block(vec![record(69, &[], vec![value()])]));
    put(all, "literals alike in two items", complete(vec![one.clone(), two.clone()]));
    put(all, "literals alike in two items, the other order", complete(vec![two, one]));
}

/// Numbers of each length: sizes of arrays, lengths of compounds, counts and positions of arguments.
fn numbers(all: &mut Vec<Case>) {
    let sizes = [1, 9, 10, 11, 99, 100, 999, 1_000, 65_535, 65_536, 999_999_999, 1_000_000_000, u32::MAX];
    let compounds = sizes.map(|size| global_with(X, array(size, ty(U16)), record(48, &[], vec![])));
    put(all, "messages: lengths", complete(compounds.to_vec()));
    let arrays = sizes.map(|size| record(47, &[0], vec![array(size, ty(U16))]));
    let items = arrays.map(|of| global_with(X, ty(U16), called(cast(id(X), of.children[0].clone()))));
    put(all, "messages: sizes of arrays", complete(items.to_vec()));
    for count in [9, 12, 101] {
        let mut children = vec![void()];
        children.extend((0..count).map(|_| record(85, &[X], vec![pointer(void())])));
        let mut call = vec![id(F)];
        call.extend((0..count).map(|_| id(Y)));
        let calls = [record(36, &[0], call), called(id(F))].map(|call| record(65, &[], vec![call])).to_vec();
        let caller = record(80, &[M], vec![void(), block(calls)]);
        let items = vec![record(80, &[F], children), global(Y, ty(U16)), caller];
        put(all, format!("messages: {count} arguments"), complete(items));
    }
}

/// A variable whose value is the last of as many names as there is room for.
fn many_names() -> Vec<u8> {
    let short = (0..=255).map(|byte| vec![byte]);
    let longer = (0..1 << 16).map(|i: u32| vec![(i >> 8) as u8, i as u8]);
    let mut room = MOST_BYTES - Tree::module::<&str>(&[], vec![global_with(0, void(), id(0))]).size();
    let mut names = vec![];
    for name in iter::once(vec![]).chain(short).chain(longer) {
        if room < HEAD + name.len() {
            break;
        }
        room -= HEAD + name.len();
        names.push(name);
    }
    let value = id(names.len() as u32 - 1);
    Tree::module(&names, vec![global_with(0, void(), value)]).to_bytes()
}

/// Literals without digits, the last of which is the last record that fits.
fn last_literals() -> Vec<u8> {
    let filled = |left: usize| {
        let assembly = Tree::with_bytes(84, Place::default(), &[], &vec![b' '; left]);
        let elements = record(48, &[], vec![literal("", 10); 5]);
        Tree::module(&["x"], vec![assembly, global_with(0, void(), elements)])
    };
    filled(MOST_BYTES - filled(0).size()).to_bytes()
}

/// So many aliases, each of a struct of the one before twice, and a value of the last that is no function.
pub fn doubled(count: u32) -> Vec<u8> {
    let first = ["u16", "f", "g", "x"].map(str::to_owned);
    let names: Vec<String> = first.into_iter().chain((0..count).map(|i| format!("a{i}"))).collect();
    let pair_of = |t: u32| structure(vec![(1, ty(t)), (2, ty(t))]);
    let mut items: Vec<Tree> = (0..count).map(|i| alias(4 + i, 0, pair_of(if i == 0 { 0 } else { 3 + i }))).collect();
    items.extend([global(3, ty(3 + count)), global_with(3, ty(3 + count), called(id(3)))]);
    Tree::module(&names, items).to_bytes()
}

/// So many aliases, each of a pointer to the one before, and a value of the last that is no function.
fn chained(count: u32) -> Vec<u8> {
    let names: Vec<String> =
        ["u16", "x"].map(str::to_owned).into_iter().chain((0..count).map(|i| format!("a{i}"))).collect();
    let inner = |i: u32| pointer(ty(if i == 0 { 0 } else { 1 + i }));
    let mut items: Vec<Tree> = (0..count).map(|i| alias(2 + i, 0, inner(i))).collect();
    items.push(global_with(1, ty(1 + count), called(id(1))));
    Tree::module(&names, items).to_bytes()
}
