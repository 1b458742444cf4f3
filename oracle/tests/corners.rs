//! Every kind of error with its place and operands, and the corners that document 01 names.

mod common;

use common::*;
use oracle::{layout, tell, tree::Tree};

/// The error lines of what is said of a module, without the word `error` and the place in the file, which only a literal has.
fn error_lines(bytes: &[u8]) -> Vec<String> {
    let text = both(bytes).text();
    let errors = text.lines().filter_map(|line| line.strip_prefix("error "));
    errors
        .map(|line| {
            let (line, place) = line.rsplit_once(' ').unwrap();
            assert_eq!(place == "0", !line.starts_with("23 "));
            line.to_owned()
        })
        .collect()
}

/// The error lines of a module of these items, without file and column.
fn lines(items: Vec<Tree>) -> Vec<String> {
    error_lines(&module(items))
        .iter()
        .map(|line| {
            let words: Vec<&str> = line.splitn(5, ' ').collect();
            assert_eq!((words[1], words[3]), ("0", "0"));
            format!("{} at {}: {}", words[0], words[2], words[4])
        })
        .collect()
}

fn one_line(items: Vec<Tree>) -> String {
    let lines = lines(items);
    assert_eq!(lines.len(), 1, "{lines:?}");
    lines[0].clone()
}

/// The only error of an expression as a global's value; x is a u16, y an i16, A a transparent alias of u16.
fn of_value(e: Tree) -> String {
    one_line(vec![alias(A, 0, ty(U16)), global(X, ty(A)), global(Y, ty(I16)), global_with(M, ty(U16), at(5, e))])
}

/// The only error of a statement in a function that returns void; y is an i16.
fn of_statement(s: Tree) -> String {
    one_line(vec![global(Y, ty(I16)), function(void(), at(5, s))])
}

fn local(name: u32, ty: Tree, value: Tree) -> Tree {
    record(66, &[name], vec![ty, value])
}

#[test]
fn declared_types() {
    let twice = lines(vec![global(X, at(3, ty(B)))]);
    assert_eq!(twice, ["1 at 3: 5 0 0", "1 at 3: 5 0 0"]);
    // Pass 1 takes the returned type first, pass 2 the parameters.
    let parameter = record(85, &[X], vec![at(2, ty(B))]);
    let both_passes = lines(vec![record(80, &[F], vec![at(1, ty(A)), parameter])]);
    assert_eq!(both_passes, ["1 at 1: 4 0 0", "1 at 2: 5 0 0", "1 at 2: 5 0 0", "1 at 1: 4 0 0"]);
    // An alias after its use is unknown in pass 1 only.
    assert_eq!(lines(vec![global(X, at(3, ty(A))), alias(A, 0, ty(U16))]), ["1 at 3: 4 0 0"]);
}

#[test]
fn aliases() {
    assert_eq!(one_line(vec![at(4, alias(A, 2, ty(U16)))]), "2 at 4: 4 0 0");
    assert_eq!(one_line(vec![alias(A, 0, ty(U16)), at(4, alias(I16, 2, ty(A)))]), "3 at 4: 1 (10 (4) 4) 0");
    assert_eq!(errors(vec![alias(A, 1, ty(I16)), alias(I16, 3, ty(A))]), []);
    assert_eq!(errors(vec![alias(STRING, 2, pointer(ty(U16)))]), []);
    assert_eq!(one_line(vec![alias(A, 0, ty(U16)), at(4, alias(A, 1, ty(I16)))]), "4 at 4: 4 0 0");
    assert_eq!(one_line(vec![at(4, alias(BOOL, 1, ty(BOOL)))]), "5 at 4: 2 0 0");
    // The first alias stays.
    let answer = both(&module(vec![alias(A, 0, ty(U16)), alias(A, 1, ty(I16)), global(X, ty(A))]));
    let (place, _) = *answer.slots.iter().max().unwrap();
    assert_eq!(slot(&answer, place), "(10 (4) 4)");
}

#[test]
fn rows() {
    // A pointer to Unknown in pass 1, then the alias and a pointer to it.
    assert_eq!(both(&module(vec![global(X, pointer(ty(A))), alias(A, 0, ty(U16))])).rows.count(), 10);
    // A refused alias adds only the type inside, an internal one too.
    assert_eq!(both(&module(vec![alias(U16, 0, array(3, ty(U16)))])).rows.count(), 8);
    assert_eq!(both(&module(vec![alias(U16, 2, array(3, ty(U16)))])).rows.count(), 8);
    // A function type and two argument cells, the last shared by the second function.
    let with = |count: usize| {
        let parameters = (0..count).map(|_| record(85, &[X], vec![ty(U16)]));
        record(80, &[F], std::iter::once(void()).chain(parameters).collect())
    };
    assert_eq!(both(&module(vec![with(2)])).rows.count(), 10);
    assert_eq!(both(&module(vec![with(2), with(1)])).rows.count(), 11);
    // Replaced globals count; take pointer makes a row.
    assert_eq!(both(&module(vec![global(X, array(1, ty(U16))), global(X, array(2, ty(U16)))])).rows.count(), 9);
    assert_eq!(both(&module(vec![global_with(X, ty(U16), record(39, &[0], vec![id(Y)]))])).rows.count(), 8);
}

#[test]
fn functions() {
    assert_eq!(one_line(vec![at(4, function(ty(U16), block(vec![])))]), "6 at 4: 6 0 0");
    let returns = |returned: Tree| function(returned, at(5, record(69, &[], vec![])));
    assert_eq!(one_line(vec![returns(ty(U16))]), "9 at 5: (4) 0 0");
    assert_eq!(one_line(vec![alias(A, 0, void()), returns(ty(A))]), "9 at 5: (10 (2) 4) 0 0");
    assert_eq!(one_line(vec![function(ty(U16), at(5, give(truth())))]), "8 at 5: (4) (3) 0");
    // Of equal parameters the last counts.
    let parameters = [ty(U16), ty(BOOL)].map(|ty| record(85, &[X], vec![ty]));
    let [one, two] = parameters;
    assert_eq!(errors(vec![record(80, &[F], vec![ty(BOOL), one, two, give(id(X))])]), []);
}

#[test]
fn statements() {
    let twice = block(vec![record(66, &[X], vec![ty(U16)]), at(7, local(X, ty(BOOL), truth()))]);
    assert_eq!(one_line(vec![function(void(), twice)]), "7 at 7: 7 0 0");
    assert_eq!(of_statement(local(X, ty(BOOL), at(6, id(Y)))), "8 at 6: (3) (5) 0");
    assert_eq!(of_statement(record(67, &[], vec![id(Y), truth()])), "8 at 5: (5) (3) 0");
    assert_eq!(of_statement(record(71, &[], vec![id(Y), block(vec![])])), "8 at 5: (3) (5) 0");
    assert_eq!(of_statement(record(73, &[], vec![id(Y), block(vec![])])), "8 at 5: (3) (5) 0");
    // A redefinition keeps the first type, but its value is compared with the new one.
    let members =
        vec![record(66, &[X], vec![ty(U16)]), local(X, ty(BOOL), truth()), record(67, &[], vec![id(X), truth()])];
    assert_eq!(errors(vec![function(void(), block(members))]), [7, 8]);
    // A local is known in its own value and in the whole function after it.
    let members = vec![block(vec![local(X, ty(U16), id(X))]), record(65, &[], vec![id(X)])];
    assert_eq!(errors(vec![function(void(), block(members))]), []);
}

#[test]
fn expressions() {
    assert_eq!(of_value(id(B)), "10 at 5: 5 0 0");
    assert_eq!(of_value(record(36, &[0], vec![id(X)])), "13 at 5: (10 (4) 4) 0 0");
    assert_eq!(of_value(record(37, &[0], vec![id(X), at(6, id(Y))])), "14 at 6: (5) 0 0");
    assert_eq!(of_value(cast(id(X), ty(I16))), "15 at 5: (10 (4) 4) (5) 0");
    assert_eq!(of_value(record(40, &[0], vec![id(X)])), "16 at 5: (10 (4) 4) 0 0");
    assert_eq!(of_value(record(41, &[0, F], vec![id(X)])), "17 at 5: (10 (4) 4) 0 0");
    assert_eq!(of_value(record(42, &[0], vec![id(X)])), "19 at 5: (10 (4) 4) 0 0");
    assert_eq!(of_value(record(43, &[0], vec![id(Y)])), "20 at 5: (5) 0 0");
    assert_eq!(of_value(record(44, &[0], vec![id(Y), truth()])), "21 at 5: (5) 0 0");
    assert_eq!(of_value(record(44, &[0], vec![truth(), id(X)])), "22 at 5: (10 (4) 4) 0 0");
    assert_eq!(of_value(literal("2", 2)), "23 at 5: 0 0 0");
    for operator in 1..=8 {
        let sum = record(45, &[0, operator], vec![id(X), id(Y)]);
        assert_eq!(of_value(sum), format!("24 at 5: {operator} (4) (5)"));
    }
    for operator in 1..=5 {
        assert_eq!(of_value(record(46, &[0, operator], vec![id(Y), id(X)])), "24 at 5: 9 (5) (4)");
    }
}

#[test]
fn calls() {
    let callee = record(80, &[F], vec![void(), record(85, &[X], vec![ty(U16)]), record(85, &[Y], vec![ty(BOOL)])]);
    let called = |arguments: Vec<Tree>| {
        let children = std::iter::once(id(F)).chain(arguments).collect();
        lines(vec![callee.clone(), global_with(M, ty(U16), at(5, record(36, &[0], children)))])
    };
    assert_eq!(called(vec![literal("1", 10), truth()]), Vec::<String>::new());
    assert_eq!(called(vec![]), ["11 at 5: 2 0 0"]);
    assert_eq!(called(vec![truth(), truth()]), ["12 at 5: 1 (4) (3)"]);
    assert_eq!(called(vec![truth(), truth(), truth()]), ["11 at 5: 2 3 0", "12 at 5: 1 (4) (3)"]);
}

#[test]
fn fields_and_compounds() {
    let structure = || structure(vec![(X, ty(U16)), (Y, ty(BOOL))]);
    let text = "(8 (12 (4) (12 (3) 0 8) 7))";
    let access = |name| record(41, &[0, name], vec![id(F)]);
    let valued = |name| lines(vec![global(F, structure()), global_with(M, ty(U16), at(5, access(name)))]);
    assert_eq!(valued(Y), Vec::<String>::new());
    assert_eq!(valued(A), [format!("18 at 5: {text} 4 0")]);
    let array_compound = |ty: Tree, elements| lines(vec![global_with(M, ty, at(5, record(48, &[], elements)))]);
    assert_eq!(array_compound(array(2, ty(BOOL)), vec![truth()]), ["25 at 5: 2 1 0"]);
    assert_eq!(array_compound(array(1, ty(BOOL)), vec![literal("1", 10)]), ["8 at 5: (3) (4) 0"]);
    assert_eq!(array_compound(ty(U16), vec![]), ["26 at 5: (4) 0 0"]);
    let struct_compound = |ty: Tree, fields: Vec<(u32, Tree)>| {
        let fields = fields.into_iter().map(|(name, e)| at(6, record(50, &[name], vec![e]))).collect();
        lines(vec![global_with(M, ty, at(5, record(49, &[], fields)))])
    };
    assert_eq!(struct_compound(structure(), vec![(Y, truth())]), Vec::<String>::new());
    assert_eq!(struct_compound(structure(), vec![(X, truth())]), ["8 at 6: (4) (3) 0"]);
    assert_eq!(struct_compound(structure(), vec![(A, truth())]), ["27 at 6: 4 0 0"]);
    assert_eq!(struct_compound(ty(U16), vec![]), ["28 at 5: (4) 0 0"]);
    let twice = vec![(Y, truth()), (Y, truth())];
    assert_eq!(struct_compound(structure(), twice.clone()), ["29 at 6: 8 0 0", "29 at 6: 8 0 0"]);
    assert_eq!(struct_compound(ty(U16), twice).len(), 3);
}

#[test]
fn through_aliases_or_not() {
    let base = || vec![alias(A, 0, array(2, ty(U16))), global(X, ty(A))];
    let with = |e: Tree| {
        let mut items = base();
        items.push(global_with(M, ty(U16), e));
        both(&module(items))
    };
    // An index into an alias of an array is Unknown without an error of its own.
    let answer = with(record(37, &[0], vec![id(X), literal("0", 10)]));
    assert!(answer.errors.is_empty());
    assert_eq!(answer.slots.iter().filter(|slot| slot.1 == 1).count(), 1);
    // A global's plain value is not compared, a compound is.
    assert_eq!(errors(vec![global_with(X, ty(U16), truth())]), []);
    assert_eq!(errors(vec![global_with(X, array(1, ty(U16)), record(48, &[], vec![truth()]))]), [8]);
    // A later global of the same name replaces the earlier, for earlier items too.
    let items = vec![global(X, ty(U16)), function(ty(BOOL), give(id(X))), global(X, ty(BOOL))];
    assert_eq!(errors(items), []);
}

/// A distinct alias of bool that is named `*u16` is printed as the pointer is, for which each of these is in order: whose error it is, is not
/// told by its text and place. An alias that is named `void` is no void.
#[test]
fn types_printed_alike() {
    let names = ["u16", "bool", "*u16", "pointer", "alias", "takes", "body", "void"].map(str::to_owned);
    let [u16, bool, star, pointing, aliased, takes, body, void_name] = [0, 1, 2, 3, 4, 5, 6, 7];
    let declared = || {
        let parameter = record(85, &[pointing], vec![pointer(ty(u16))]);
        vec![
            alias(star, 1, ty(bool)),
            alias(void_name, 0, ty(bool)),
            global(pointing, pointer(ty(u16))),
            global(aliased, ty(star)),
            record(80, &[takes], vec![void(), parameter]),
        ]
    };
    let evaluated = |e: Tree| record(65, &[], vec![e]);
    let statements: [(&str, &dyn Fn(u32) -> Tree); 5] = [
        ("16 0 0 0 (11 (3) 2) 0 0", &|x| evaluated(record(40, &[0], vec![id(x)]))),
        ("24 0 0 0 1 (11 (3) 2) (4)", &|x| evaluated(record(45, &[0, 1], vec![id(x), literal("1", 10)]))),
        ("15 0 0 0 (11 (3) 2) (4) 0", &|x| evaluated(cast(id(x), ty(u16)))),
        ("8 0 0 0 (6 (4)) (11 (3) 2) 0", &|x| record(67, &[], vec![id(pointing), id(x)])),
        ("12 0 0 0 1 (6 (4)) (11 (3) 2)", &|x| evaluated(record(36, &[0], vec![id(takes), id(x)]))),
    ];
    let said = |items: Vec<Tree>| error_lines(&Tree::module(&names, items).to_bytes());
    for (expected, statement) in statements {
        let members = vec![statement(pointing), statement(aliased)];
        let mut items = declared();
        items.push(record(80, &[body], vec![void(), block(members)]));
        assert_eq!(said(items), [expected]);
    }
    let mut items = declared();
    for returned in [void(), ty(void_name)] {
        items.push(record(80, &[body], vec![returned, record(69, &[], vec![])]));
    }
    assert_eq!(said(items), ["9 0 0 0 (10 (3) 7) 0 0"]);
}

/// The places of the literals out of range in a module of these items, and of all its literals in byte order.
fn literal_places(items: Vec<Tree>) -> (Vec<u32>, Vec<u32>) {
    let bytes = module(items);
    let bad = both(&bytes).errors.iter().map(|error| error.place).collect();
    let module = layout::read(&bytes).unwrap();
    let mut all: Vec<u32> = tell::literals(&module).into_keys().collect();
    all.sort();
    (bad, all)
}

/// Literals that are printed alike and stand at one place of the source are told apart by their records: those whose base makes them good,
/// and those of two items.
#[test]
fn literals_printed_alike() {
    let sum = |left, right| record(45, &[0, 1], vec![left, right]);
    let nine = |base| literal("9", base);
    let value = sum(sum(nine(9), nine(10)), sum(nine(16), sum(nine(8), nine(9))));
    let (bad, all) = literal_places(vec![global_with(X, ty(U16), value.clone())]);
    assert_eq!(bad, [all[0], all[3], all[4]]);
    let call = record(36, &[0], vec![id(F), nine(36), nine(2), nine(2)]);
    let takes = |name| record(85, &[name], vec![ty(U16)]);
    let called = record(80, &[F], vec![ty(U16), takes(X), takes(Y), takes(M)]);
    let elements = record(48, &[], vec![nine(9), call, nine(10), nine(3)]);
    let of_two = vec![called, global_with(Y, array(4, ty(U16)), elements), global_with(X, ty(U16), value)];
    let (bad, all) = literal_places(of_two);
    assert_eq!(bad, [0, 2, 3, 5, 6, 9, 10].map(|i: usize| all[i]));
}
