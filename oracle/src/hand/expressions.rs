//! Each rule for expressions and compounds, well and badly used.

use super::{
    A, BOOL, Case, F, I16, M, STRING, U16, X, Y, alias, array, block, cast, complete, evaluated, function, global,
    global_with, id, in_function, literal, name, named, pair, pointer, put, record, structure, truth, ty, var, void,
};
use crate::{layout::Place, tree::Tree};

/// Identifiers of each sort of type, an unknown one last.
const OPERANDS: [&str; 19] =
    ["u", "i", "b", "s", "p", "a", "t", "c", "d", "e", "r", "w", "z", "h", "j", "k", "g", "o", "nobody"];
/// Those for tables of pairs.
const FEW: [&str; 12] = ["u", "i", "b", "p", "a", "t", "c", "d", "e", "h", "g", "nobody"];

pub fn add(all: &mut Vec<Case>) {
    literals(all);
    unary(all);
    pairs(all);
    calls(all);
    arguments(all);
    casts(all);
    fields(all);
    lookups(all);
    compounds(all);
}

fn unary(all: &mut Vec<Case>) {
    let each = |form: &dyn Fn(Tree) -> Tree| evaluated(OPERANDS.iter().map(|text| form(var(text))).collect());
    for (kind, what) in [(39, "take pointer"), (40, "dereference"), (42, "~"), (43, "!")] {
        put(all, what, each(&|e| record(kind, &[0], vec![e])));
    }
    put(all, "take pointer, then dereference", each(&|e| record(40, &[0], vec![record(39, &[0], vec![e])])));
    let types = || vec![ty(U16), void(), pair(), array(70_000, ty(U16)), named("C"), named("D"), named("V"), ty(A)];
    put(all, "sizeof", evaluated(types().into_iter().map(|ty| record(47, &[0], vec![ty])).collect()));
    let strings = ["", "text", "\u{e9}"].map(|text| Tree::with_bytes(35, Place::default(), &[0], text.as_bytes()));
    put(all, "strings", evaluated(strings.to_vec()));
    put(all, "booleans", evaluated(vec![truth(), record(34, &[0, 0], vec![])]));
}

/// Every pair of a few operands under each form with two operands; each operator over the integers.
fn pairs(all: &mut Vec<Case>) {
    let forms: [(u16, &[u32], &str); 4] =
        [(37, &[0], "index"), (44, &[0], "&&"), (45, &[0, 1], "+"), (46, &[0, 1], "==")];
    for (kind, fields, what) in forms {
        for lefts in FEW.chunks(4) {
            let couples = lefts.iter().flat_map(|left| FEW.map(|right| vec![var(left), var(right)]));
            let es = couples.map(|couple| record(kind, fields, couple)).collect();
            put(all, format!("{what}: each of {} and each", lefts.join(" ")), evaluated(es));
        }
    }
    for (kind, operators) in [(45, 1..=8), (46, 1..=5)] {
        for operator in operators {
            let couples =
                [("u", "u"), ("i", "i"), ("u", "i"), ("p", "u"), ("p", "i"), ("u", "p"), ("c", "u"), ("d", "d")];
            let es = couples.map(|(left, right)| record(kind, &[0, operator], vec![var(left), var(right)])).to_vec();
            put(all, format!("record {kind}, operator {operator}"), evaluated(es));
        }
    }
}

fn call(target: &str, arguments: &[&str]) -> Tree {
    record(36, &[0], std::iter::once(&target).chain(arguments).map(|text| var(text)).collect())
}

fn calls(all: &mut Vec<Case>) {
    let lists: [&[&str]; 9] = [
        &[],
        &["u"],
        &["u", "b"],
        &["b", "u"],
        &["c", "b"],
        &["d", "b"],
        &["i", "b", "u"],
        &["u", "nobody"],
        &["b", "i", "p"],
    ];
    for arguments in lists {
        put(all, format!("call of a function with {arguments:?}"), evaluated(vec![call("g", arguments)]));
    }
    put(all, "calls of each sort", evaluated(OPERANDS.iter().map(|text| call(text, &["u"])).collect()));
    let parameter = record(85, &[X], vec![pointer(ty(U16))]);
    let decays = record(36, &[0], vec![id(F), var("h")]);
    let items = vec![record(80, &[F], vec![void(), parameter]), global_with(Y, ty(U16), decays)];
    put(all, "an argument that decays", complete(items));
}

/// A call with an operand of each sort as one of its two arguments, and as both.
fn arguments(all: &mut Vec<Case>) {
    for text in OPERANDS {
        put(all, format!("a call, {text} as the first argument"), evaluated(vec![call("g", &[text, "b"])]));
        put(all, format!("a call, {text} as the second argument"), evaluated(vec![call("g", &["u", text])]));
        put(all, format!("a call, {text} as both arguments"), evaluated(vec![call("g", &[text, text])]));
    }
}

/// Types to cast to and to assign to, with a variable of each.
fn types() -> Vec<(&'static str, Tree)> {
    vec![
        ("u", ty(U16)),
        ("i", ty(I16)),
        ("b", ty(BOOL)),
        ("s", ty(STRING)),
        ("p", pointer(ty(U16))),
        ("a", array(3, ty(U16))),
        ("t", pair()),
        ("c", named("C")),
        ("d", named("D")),
        ("e", named("E")),
        ("r", named("R")),
        ("w", named("S")),
        ("z", named("Z")),
        ("h", pointer(array(3, ty(U16)))),
        ("j", pointer(named("R"))),
        ("k", pointer(pair())),
    ]
}

fn casts(all: &mut Vec<Case>) {
    for few in types().chunks(4) {
        let texts: Vec<&str> = few.iter().map(|(text, _)| *text).collect();
        let es = few.iter().flat_map(|(_, to)| OPERANDS.map(|from| cast(var(from), to.clone())));
        put(all, format!("cast of each to the types of {}", texts.join(" ")), evaluated(es.collect()));
        let couples = texts.iter().flat_map(|text| types().into_iter().map(|(from, _)| vec![var(text), var(from)]));
        let assigned = couples.map(|couple| record(67, &[], couple)).collect();
        put(all, format!("assignment of each to {}", texts.join(" ")), in_function(assigned));
    }
    put(all, "cast to void and to an unknown type", evaluated(vec![cast(var("u"), void()), cast(var("u"), ty(A))]));
    for (flags, what) in [(0, "transparent"), (1, "distinct")] {
        let items = vec![alias(A, flags, ty(U16)), global(X, ty(A)), global_with(Y, ty(I16), cast(id(X), ty(I16)))];
        put(all, format!("bench: {what} alias of u16 to i16"), complete(items));
    }
    for (from, what) in [("h", "*[4]u16"), ("j", "*A with A alias of [4]u16")] {
        let assigned = record(67, &[], vec![var("p"), var(from)]);
        put(all, format!("bench: {what} to *u16"), in_function(vec![assigned]));
    }
    let equal = record(46, &[0, 1], vec![truth(), truth()]);
    put(all, "bench: bool == bool", complete(vec![global_with(X, ty(BOOL), equal)]));
}

fn fields(all: &mut Vec<Case>) {
    for (text, what) in [("m", "the first field"), ("n", "the second field"), ("x", "a field that is not there")] {
        let es = OPERANDS.iter().map(|of| record(41, &[0, name(text)], vec![var(of)])).collect();
        put(all, format!("{what} of each"), evaluated(es));
    }
    let twice = structure(vec![(M, ty(U16)), (M, ty(BOOL))]);
    let access = record(41, &[0, M], vec![id(X)]);
    put(all, "a struct with a field twice", complete(vec![global(X, twice), global_with(Y, ty(U16), access)]));
}

/// Locals before arguments before globals.
fn lookups(all: &mut Vec<Case>) {
    let body = |members| record(80, &[F], vec![void(), record(85, &[X], vec![ty(BOOL)]), block(members)]);
    let use_x = || record(65, &[], vec![id(X)]);
    let local = record(66, &[X], vec![ty(I16)]);
    put(all, "an argument before a global", complete(vec![global(X, ty(U16)), body(vec![use_x()])]));
    put(all, "a local before an argument", complete(vec![global(X, ty(U16)), body(vec![use_x(), local, use_x()])]));
    put(all, "a function's own name", complete(vec![function(void(), record(65, &[], vec![id(F)]))]));
}

fn literals(all: &mut Vec<Case>) {
    let texts: [(&str, u32); 28] = [
        ("65535", 10),
        ("65536", 10),
        ("ffff", 16),
        ("FFFF", 16),
        ("fFfF", 16),
        ("10000", 16),
        ("g", 16),
        ("+7", 10),
        ("+", 10),
        ("", 10),
        ("-0", 10),
        ("-", 10),
        ("++1", 10),
        ("1+", 10),
        ("0", 2),
        ("2", 2),
        ("1111111111111111", 2),
        ("10000000000000000", 2),
        ("1ekf", 36),
        ("1EKG", 36),
        ("z", 36),
        ("{", 36),
        ("00000000000000000000065535", 10),
        ("00000000000000000000065536", 10),
        ("99999999999999999999999999", 10),
        ("1_000", 10),
        (" 1", 10),
        ("\u{661}", 10),
    ];
    for (digits, base) in texts {
        let items = vec![global_with(X, ty(U16), literal(digits, base))];
        put(all, format!("literal {digits:?} base {base}"), complete(items));
    }
    let bytes = Tree::with_bytes(33, Place::default(), &[0, 10], &[0xff]);
    put(all, "literal that is no UTF-8", complete(vec![global_with(X, ty(U16), bytes)]));
    digits(all);
}

/// Each base's largest digit and the next one, in both cases of letters, and the bytes on both sides of the digits and letters.
fn digits(all: &mut Vec<Case>) {
    let mut put_text = |text: &[u8], base: u32| {
        let value = Tree::with_bytes(33, Place::default(), &[0, base], text);
        let items = vec![global_with(X, ty(U16), value)];
        put(all, format!("literal {} base {base}", text.escape_ascii()), complete(items));
    };
    for base in 2..=36_u32 {
        for digit in base - 1..=base.min(35) {
            let lower = char::from_digit(digit, 36).unwrap();
            let mut texts = vec![format!("1{lower}"), format!("1{}", lower.to_ascii_uppercase())];
            texts.dedup();
            texts.iter().for_each(|text| put_text(text.as_bytes(), base));
        }
    }
    for byte in [0, 47, 58, 64, 91, 96, 123, 128, 255] {
        put_text(&[byte], 36);
        put_text(&[b'1', byte], 36);
    }
}

/// Compounds for targets of each sort, as a global's value, a local's and in an assignment.
fn compounds(all: &mut Vec<Case>) {
    let texts = ["u", "a", "r", "z", "h", "t", "w", "k"];
    let targets = types().into_iter().filter(|(text, _)| texts.contains(text));
    for (text, ty) in targets.chain([("nobody", ty(A))]) {
        for (what, compound) in array_compounds().into_iter().chain(struct_compounds()) {
            let assigned = record(68, &[], vec![var(text), compound.clone()]);
            let local = record(66, &[X], vec![ty.clone(), compound.clone()]);
            let function = function(void(), block(vec![assigned, local]));
            let items = vec![global_with(Y, ty.clone(), compound), function];
            put(all, format!("{what} for the type of {text}"), complete(items));
        }
    }
}

fn array_compounds() -> Vec<(&'static str, Tree)> {
    let of = |elements: &[&str]| record(48, &[], elements.iter().map(|text| var(text)).collect());
    vec![
        ("no elements", of(&[])),
        ("three elements", of(&["u", "c", "u"])),
        ("two elements, one bad", of(&["b", "u"])),
        ("four elements, bad ones", of(&["u", "d", "nobody", "i"])),
    ]
}

fn struct_compounds() -> Vec<(&'static str, Tree)> {
    let of = |fields: &[(&str, &str)]| {
        record(49, &[], fields.iter().map(|(field, text)| record(50, &[name(field)], vec![var(text)])).collect())
    };
    vec![
        ("no fields", of(&[])),
        ("both fields", of(&[("m", "c"), ("n", "b")])),
        ("a bad field and an absent one", of(&[("n", "u"), ("x", "u")])),
        ("a field three times, another twice", of(&[("m", "u"), ("x", "b"), ("m", "b"), ("x", "u"), ("m", "u")])),
    ]
}
