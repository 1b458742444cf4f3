//! Each statement kind and its errors, and the lines of the bench sheet about divergence.

use super::{
    A, BOOL, Case, F, I16, U16, X, Y, at, block, complete, function, give, global_with, in_function, named, number,
    put, record, truth, ty, var, void,
};
use crate::{layout::Place, tree::Tree};

pub fn add(all: &mut Vec<Case>) {
    plain(all);
    locals(all);
    redefinitions(all);
    conditions(all);
    returns(all);
    divergence(all);
}

fn statement(kind: u16, children: Vec<Tree>) -> Tree {
    record(kind, &[], children)
}

fn local(ty: Tree, value: Tree) -> Tree {
    record(66, &[X], vec![ty, value])
}

fn plain(all: &mut Vec<Case>) {
    put(all, "an empty block", in_function(vec![block(vec![])]));
    put(
        all,
        "a block with a trailing value",
        complete(vec![function(void(), record(64, &[1], vec![statement(65, vec![truth()])]))]),
    );
    put(all, "an expression", in_function(vec![statement(65, vec![var("nobody")])]));
    put(all, "a break outside a loop", in_function(vec![statement(72, vec![])]));
    let assembly = Tree::with_bytes(74, Place::default(), &[], b"mov r0, r1");
    put(all, "assembly", in_function(vec![assembly, Tree::with_bytes(74, Place::default(), &[], &[])]));
    let assign = |to, from| statement(67, vec![var(to), var(from)]);
    put(
        all,
        "assignments to no place",
        in_function(vec![assign("nobody", "u"), assign("u", "nobody"), assign("g", "o")]),
    );
}

fn locals(all: &mut Vec<Case>) {
    let bare = |ty| record(66, &[X], vec![ty]);
    put(all, "a local without a value", in_function(vec![bare(ty(U16))]));
    put(all, "a local of an unknown type", in_function(vec![bare(ty(A))]));
    put(all, "a local with a value", in_function(vec![local(ty(U16), var("c"))]));
    put(all, "a local with a bad value", in_function(vec![local(ty(U16), at(4, var("i")))]));
    put(all, "a local in its own value", in_function(vec![local(ty(U16), var("x"))]));
    let again = local(ty(BOOL), truth());
    let assigned = statement(67, vec![var("x"), truth()]);
    put(all, "a local twice", in_function(vec![bare(ty(U16)), again.clone(), assigned]));
    put(all, "a local twice, a bad value", in_function(vec![bare(ty(U16)), local(ty(BOOL), number("1"))]));
    put(all, "a local in a block, used after it", in_function(vec![block(vec![again]), statement(65, vec![var("x")])]));
    let other = record(80, &[Y], vec![void(), statement(65, vec![var("x")])]);
    put(all, "a local in another function", complete(vec![function(void(), bare(ty(U16))), other]));
    put(all, "a local named as its function", complete(vec![function(void(), record(66, &[F], vec![ty(U16)]))]));
}

/// A local twice, of every pair of a few types, the second with a value of each sort.
fn redefinitions(all: &mut Vec<Case>) {
    let types = ["u16", "bool", "String", "C", "D", "R"];
    for (first, one) in types.into_iter().enumerate() {
        for (second, two) in types.into_iter().enumerate() {
            let value = var(["u", "b", "s", "c", "d", "r", "nobody"][(first + 2 * second) % 7]);
            let members = vec![
                record(66, &[X], vec![named(one)]),
                at(2, local(named(two), value)),
                statement(65, vec![var("x")]),
            ];
            put(all, format!("a local twice, {one} then {two}"), in_function(members));
        }
    }
    let parameter = record(85, &[X], vec![ty(BOOL)]);
    let twice = block(vec![local(ty(U16), number("1")), at(3, local(ty(I16), var("x")))]);
    put(all, "a local twice, named as a parameter", complete(vec![record(80, &[F], vec![void(), parameter, twice])]));
}

fn conditions(all: &mut Vec<Case>) {
    for text in ["b", "u", "d", "nobody"] {
        let loops = statement(71, vec![var(text), block(vec![])]);
        let branch = statement(73, vec![var(text), block(vec![])]);
        let both = statement(73, vec![var(text), block(vec![]), statement(65, vec![var("u")])]);
        put(all, format!("while and if on {text}"), in_function(vec![loops, branch, both]));
    }
    let inner = statement(73, vec![truth(), statement(65, vec![var("nobody")]), statement(65, vec![var("nobody")])]);
    put(all, "errors in a loop", in_function(vec![statement(70, vec![inner])]));
}

fn returns(all: &mut Vec<Case>) {
    let types = [
        ("void", void()),
        ("u16", ty(U16)),
        ("alias of void", named("V")),
        ("alias of u16", named("C")),
        ("unknown", ty(A)),
    ];
    for (what, returned) in types {
        let with = |body: Tree| complete(vec![at(2, function(returned.clone(), body))]);
        put(all, format!("{what}: no return"), with(block(vec![])));
        put(all, format!("{what}: return without a value"), with(statement(69, vec![])));
        put(all, format!("{what}: return of a u16"), with(give(var("u"))));
        put(all, format!("{what}: return of a bool"), with(give(truth())));
        put(all, format!("{what}: return of a call of a void function"), with(give(record(36, &[0], vec![var("o")]))));
        put(all, format!("{what}: return of an unknown value"), with(give(var("nobody"))));
    }
    put(all, "a literal returned as i16", complete(vec![function(ty(I16), give(number("1")))]));
}

/// Bodies of a function that returns a u16; error 6 tells which go on.
fn divergence(all: &mut Vec<Case>) {
    let returned = || give(number("1"));
    let stop = || statement(72, vec![]);
    let endless = |body| statement(70, vec![body]);
    let repeated = |body| statement(71, vec![truth(), body]);
    let when = |yes| statement(73, vec![truth(), yes]);
    let either = |yes, no| statement(73, vec![truth(), yes, no]);
    let nothing = || block(vec![]);
    let bodies = vec![
        ("bench: while c { return 1; }", repeated(block(vec![returned()]))),
        ("bench: loop { loop { break; } }", endless(block(vec![endless(block(vec![stop()]))]))),
        ("bench: loop { if c { break; } return 1; }", endless(block(vec![when(block(vec![stop()])), returned()]))),
        ("loop { if c { break; } }", endless(block(vec![when(block(vec![stop()]))]))),
        ("loop { }", endless(nothing())),
        ("loop { while c { break; } }", endless(repeated(stop()))),
        ("loop { if c { } else { break; } }", endless(either(nothing(), stop()))),
        ("while c { }", repeated(nothing())),
        ("while c { loop { } }", repeated(endless(nothing()))),
        ("if c { return 1; }", when(returned())),
        ("if c { return 1; } else { }", either(returned(), nothing())),
        ("if c { } else { return 1; }", either(nothing(), returned())),
        ("if c { return 1; } else { loop { } }", either(returned(), endless(nothing()))),
        ("a return first", block(vec![returned(), stop()])),
        ("a return in the middle of blocks", block(vec![nothing(), block(vec![nothing(), returned()]), nothing()])),
        ("a break only", stop()),
        ("a value only", statement(65, vec![number("1")])),
    ];
    for (what, body) in bodies {
        put(all, format!("divergence: {what}"), complete(vec![function(ty(U16), body)]));
    }
    let global = global_with(Y, ty(U16), number("1"));
    put(all, "no divergence needed of an extern", complete(vec![record(80, &[F], vec![ty(U16)]), global]));
}
