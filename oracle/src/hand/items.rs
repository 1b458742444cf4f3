//! The two passes over items: aliases of every sort, globals, parameters, joining orders.

use super::{
    A, B, BOOL, Case, F, I16, STRING, U16, X, Y, alias, array, at, complete, function, give, global, global_with, id,
    name, number, pair, pointer, put, record, structure, truth, ty, void,
};
use crate::{layout::Place, tree::Tree};

pub fn add(all: &mut Vec<Case>) {
    example(all);
    aliases(all);
    internal_aliases(all);
    globals(all);
    functions(all);
    words(all);
    orders(all);
    let bytes = |kind, text: &str| Tree::with_bytes(kind, Place::default(), &[], text.as_bytes());
    put(all, "use and assembly", complete(vec![bytes(82, "other"), bytes(84, "nop"), bytes(82, ""), bytes(84, "")]));
    put(all, "no names and no items", complete(vec![]));
}

/// Document 01's module of 112 bytes, in which the type stands on line 3.
pub fn example_module(line: u32) -> Vec<u8> {
    let mut ty = record(16, &[0, 1], vec![]);
    ty.at = Place { file: 0, line, column: 8 };
    Tree::module(&["x", "u17"], vec![record(83, &[0], vec![ty])]).to_bytes()
}

fn example(all: &mut Vec<Case>) {
    put(all, "the example of 112 bytes", example_module(3));
    let empty = Tree::module(&["", "u16"], vec![record(83, &[0], vec![record(16, &[0, 1], vec![])])]).to_bytes();
    put(all, "a variable with the empty name", empty);
}

fn aliases(all: &mut Vec<Case>) {
    let used = |item: Tree| complete(vec![item, global(X, ty(A)), global(Y, pointer(ty(A)))]);
    for (flags, what) in [(0, "transparent"), (1, "distinct")] {
        put(all, format!("a {what} alias of u16"), used(alias(A, flags, ty(U16))));
        put(all, format!("a {what} alias of a struct"), used(alias(A, flags, pair())));
        put(all, format!("a {what} alias of itself"), used(alias(A, flags, ty(A))));
        put(all, format!("a {what} alias of an unknown type"), used(alias(A, flags, ty(B))));
        put(
            all,
            format!("a {what} alias after its uses"),
            complete(vec![global(X, pointer(ty(A))), alias(A, flags, ty(U16))]),
        );
        put(all, format!("a {what} alias of a built-in name"), complete(vec![alias(BOOL, flags, array(3, ty(U16)))]));
        let twice = vec![alias(A, flags, ty(U16)), at(4, alias(A, 1 - flags, array(2, ty(I16)))), global(X, ty(A))];
        put(all, format!("a {what} alias twice"), complete(twice));
    }
    let chain =
        vec![alias(A, 0, ty(U16)), alias(B, 0, ty(A)), global(X, ty(B)), global_with(Y, ty(U16), sum(id(X), id(X)))];
    put(all, "an alias of an alias", complete(chain));
    let cycle = vec![alias(A, 0, pointer(ty(B))), alias(B, 0, pointer(ty(A))), global(X, ty(A)), global(Y, ty(B))];
    put(all, "two aliases of each other", complete(cycle));
}

fn sum(left: Tree, right: Tree) -> Tree {
    record(45, &[0, 1], vec![left, right])
}

fn internal_aliases(all: &mut Vec<Case>) {
    for flags in [2, 3] {
        let sorts = [
            ("u16", alias(U16, flags, ty(U16))),
            ("u16 as i16", alias(U16, flags, ty(I16))),
            ("String as *u16", alias(STRING, flags, pointer(ty(U16)))),
            ("String as String", alias(STRING, flags, ty(STRING))),
            ("no built-in", alias(A, flags, ty(U16))),
            ("an unknown type", alias(BOOL, flags, ty(A))),
        ];
        for (what, item) in sorts {
            put(all, format!("internal alias, flags {flags}: {what}"), complete(vec![at(3, item)]));
        }
        let through = vec![alias(A, 0, ty(BOOL)), alias(B, 1, ty(A)), alias(BOOL, flags, ty(B))];
        put(all, format!("internal alias, flags {flags}: bool through aliases"), complete(through));
    }
}

fn globals(all: &mut Vec<Case>) {
    put(all, "a global's value is not compared", complete(vec![global_with(X, ty(U16), truth())]));
    let replaced = vec![global(X, array(1, ty(U16))), function(ty(BOOL), give(id(X))), global(X, ty(BOOL))];
    put(all, "a later global replaces the earlier", complete(replaced));
    let function_too = vec![global(F, ty(U16)), function(void(), record(65, &[], vec![id(F)]))];
    put(all, "a function replaces a variable", complete(function_too));
    put(all, "a global in its own value", complete(vec![global_with(X, ty(U16), id(X))]));
    put(all, "a later global in an earlier value", complete(vec![global_with(X, ty(U16), id(Y)), global(Y, ty(I16))]));
    put(all, "unknown types in a struct", complete(vec![global(X, structure(vec![(X, ty(A)), (Y, pointer(ty(B)))]))]));
    let sizes = [0, 1, 65_535, 65_536, 70_000, u32::MAX];
    put(all, "array sizes", complete(sizes.map(|size| global(X, array(size, ty(U16)))).to_vec()));
    put(
        all,
        "arrays of arrays of none",
        complete(vec![global(X, array(0, array(70_000, ty(U16)))), global(Y, structure(vec![]))]),
    );
}

fn functions(all: &mut Vec<Case>) {
    let parameter = |name, ty| record(85, &[name], vec![ty]);
    let of = |children: Vec<Tree>| record(80, &[F], children);
    let errors = of(vec![at(1, ty(A)), parameter(X, at(2, ty(B))), parameter(Y, at(3, ty(A)))]);
    put(all, "unknown types of a function in both passes", complete(vec![errors]));
    let same = of(vec![ty(BOOL), parameter(X, ty(U16)), parameter(X, ty(BOOL)), give(id(X))]);
    put(all, "parameters of one name", complete(vec![same]));
    let shared = vec![
        of(vec![void(), parameter(X, ty(U16)), parameter(Y, ty(U16))]),
        record(80, &[X], vec![void(), parameter(X, ty(U16))]),
    ];
    put(all, "functions that share an argument cell", complete(shared));
    put(all, "functions of one type", complete(vec![of(vec![void()]), record(80, &[X], vec![void()])]));
    put(
        all,
        "a function of itself as a value",
        complete(vec![of(vec![void(), record(65, &[], vec![record(39, &[0], vec![id(F)])])])]),
    );
}

/// Types about the limits of words, and with Unknown inside.
fn words(all: &mut Vec<Case>) {
    let of = |size, t: Tree| array(size, t);
    let large = || of(70_000, ty(U16));
    let two = |t: Tree, u: Tree| structure(vec![(X, t), (Y, u)]);
    let takes = |t: Tree| record(80, &[F], vec![void(), record(85, &[X], vec![t])]);
    let unknown = || ty(A);
    let types = [
        ("an array of 65,535 words", of(65_535, ty(U16))),
        ("an array of 65,536 words", of(65_536, ty(U16))),
        ("an array of 256 arrays of 256", of(256, of(256, ty(U16)))),
        ("an array of 257 arrays of 255", of(257, of(255, ty(U16)))),
        ("an array of 2^32 - 1 arrays of 2^32 - 1", of(u32::MAX, of(u32::MAX, ty(U16)))),
        ("an array of 65,537 empty structs", of(65_537, structure(vec![]))),
        ("no arrays of 70,000", of(0, large())),
        ("no Unknown", of(0, unknown())),
        ("an array of 70,000 Unknown", of(70_000, unknown())),
        ("a struct of two arrays of 40,000", two(of(40_000, ty(U16)), of(40_000, ty(U16)))),
        ("a struct of 65,535 words", two(of(40_000, ty(U16)), of(25_535, ty(U16)))),
        ("a struct of 65,536 words", two(of(40_000, ty(U16)), of(25_536, ty(U16)))),
        ("a struct of too many words and Unknown", two(large(), unknown())),
        ("a struct of Unknown and too many words", two(unknown(), large())),
        ("a pointer to too many words", pointer(large())),
        ("a pointer to Unknown", pointer(unknown())),
        ("a struct of a pointer to Unknown", two(pointer(unknown()), ty(U16))),
    ];
    for (what, t) in types {
        put(all, format!("words: {what}"), complete(vec![global(Y, t.clone()), takes(t)]));
    }
    let returns = |t: Tree| record(80, &[F], vec![t, record(85, &[X], vec![ty(U16)])]);
    put(all, "words: a function that returns Unknown", complete(vec![returns(unknown())]));
    put(all, "words: a function that returns too many words", complete(vec![returns(large())]));
    // Each alias is a struct of two of the one before: 2^16 words from the seventeenth on.
    let names: Vec<String> = ["u16".to_owned(), "f".to_owned(), "g".to_owned()]
        .into_iter()
        .chain((0..400).map(|i| format!("a{i}")))
        .collect();
    let pair_of = |t: u32| structure(vec![(1, ty(t)), (2, ty(t))]);
    let aliases = (0..400).map(|i| alias(3 + i, 0, pair_of(if i == 0 { 0 } else { 2 + i }))).collect();
    put(all, "words: 400 aliases, each twice the one before", Tree::module(&names, aliases).to_bytes());
}

/// Two orders of an alias and two variables, 238 bytes each, and orders that demand 3 does not speak of.
fn orders(all: &mut Vec<Case>) {
    let of = |items: [Tree; 3]| Tree::module(&["u16", "A", "x", "y"], items.to_vec()).to_bytes();
    let declared = || record(81, &[1, 0], vec![record(16, &[0, 0], vec![])]);
    let variable = |name| record(83, &[name], vec![record(16, &[0, 1], vec![])]);
    put(all, "joining order: alias, x, y", of([declared(), variable(2), variable(3)]));
    put(all, "joining order: alias, y, x", of([declared(), variable(3), variable(2)]));
    put(all, "joining order: x, alias, y", of([variable(2), declared(), variable(3)]));
    let table = |size: u32| global(X, array(size, ty(U16)));
    let reader = function(ty(U16), give(record(37, &[0], vec![id(X), number("24")])));
    put(all, "a table declared twice, 24 then 25", complete(vec![table(24), table(25), reader.clone()]));
    put(all, "a table declared twice, 25 then 24", complete(vec![table(25), table(24), reader]));
    put(
        all,
        "names of built-in types as variables",
        complete(vec![global(U16, ty(U16)), global_with(name("s"), ty(STRING), id(U16))]),
    );
}
