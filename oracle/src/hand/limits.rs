//! The limits: bytes, depth, rows, errors and what is lent, each met and passed by one.

use super::{
    A, BOOL, Case, F, M, REPORT, U16, X, Y, alias, array, at, block, complete, global, global_with, id,
    items::example_module, module, name, number, pointer, put, record, structure, ty, void,
};
use crate::{
    answer::ERROR_WIDTH,
    layout::{self, Place},
    model,
    product::Loans,
    rows::ROW_WIDTH,
    tree::Tree,
};

pub fn add(all: &mut Vec<Case>) {
    for size in [65_536, 65_537] {
        let left = size - module(vec![]).len() - 16;
        put(all, format!("{size} bytes"), module(vec![Tree::with_bytes(84, Place::default(), &[], &vec![b' '; left])]));
    }
    depths(all);
    for rows in [3_000, 3_001] {
        put(all, format!("{rows} rows"), with_rows(rows));
    }
    for errors in [2_000, 2_001] {
        put(all, format!("{errors} errors"), with_errors(errors));
    }
    lists(all);
    loans(all);
    no_bytes(all);
    repeated_names(all);
}

/// Lists of fields and of parameters around the multiples of 32 and 64, in which the product converts their members. One type in three is
/// unknown, each on a line of its own, so that the order of conversions shows.
fn lists(all: &mut Vec<Case>) {
    let inner = |i: u32| match i % 3 {
        0 => at(i, ty(name("nobody"))),
        1 => array(i, ty(U16)),
        _ => pointer(ty(BOOL)),
    };
    let fields = |count: u32| -> Vec<(u32, Tree)> { (0..count).map(|i| (X + i % 4, inner(i))).collect() };
    for count in [0, 1, 2, 31, 32, 33, 63, 64, 65, 96, 97, 128, 129] {
        let mut children = vec![void()];
        children.extend((0..count).map(|i| record(85, &[X + i % 4], vec![inner(count + i)])));
        children.push(block(vec![record(66, &[Y], vec![structure(fields(count))])]));
        let items = vec![global(X, structure(fields(count))), record(80, &[F], children)];
        put(all, format!("lists of {count}"), complete(items));
    }
    // Such a list in the last place of a chunk, and behind it.
    for count in [31, 32, 33] {
        let around = |ty, _| structure([fields(count), vec![(M, ty), (M, inner(0))]].concat());
        let nested = (0..3).fold(structure(fields(count)), around);
        put(all, format!("lists in each other, {count} before"), complete(vec![global(X, nested)]));
    }
}

fn depths(all: &mut Vec<Case>) {
    let nested = |depth: usize, inner: Tree, wrap: &dyn Fn(Tree) -> Tree| (3..depth).fold(inner, |tree, _| wrap(tree));
    for depth in [64, 65] {
        let e = nested(depth, number("1"), &|e| record(42, &[0], vec![e]));
        put(all, format!("an expression at depth {depth}"), complete(vec![global_with(X, ty(U16), e)]));
        let t = nested(depth, ty(U16), &pointer);
        put(all, format!("a type at depth {depth}"), complete(vec![global(X, t)]));
        // A field and its type are two levels.
        let (fields, inner) = if depth == 64 { (30, array(1, ty(U16))) } else { (31, ty(U16)) };
        let t = (0..fields).fold(inner, |t, _| structure(vec![(M, t)]));
        put(all, format!("fields and a type at depth {depth}"), complete(vec![global(X, t)]));
        let s = nested(depth, record(72, &[], vec![]), &|s| record(70, &[], vec![s]));
        put(all, format!("a statement at depth {depth}"), complete(vec![super::function(super::void(), s)]));
    }
}

/// What the model says of a module: its rows and its errors.
fn counts(bytes: &[u8]) -> (usize, usize) {
    let answer = model::check(&layout::read(bytes).expect("a good module")).answer;
    (answer.rows.count(), answer.errors.len())
}

/// A module of so many rows: pointers to an alias that is stored after them are two rows a record.
pub fn with_rows(rows: usize) -> Vec<u8> {
    let chain = |size: u32, levels: usize| {
        let inner = array(size, ty(A));
        global(X, (0..levels).fold(inner, |t, _| pointer(t)))
    };
    let of = |items: &[Tree]| complete([items, &[alias(A, 0, ty(U16))]].concat());
    let mut items = vec![];
    while counts(&of(&items)).0 + 120 <= rows {
        items.push(chain(items.len() as u32, 58));
    }
    let left = rows - counts(&of(&items)).0;
    // An array and pointers to it before the alias, then one more row after it if the number left is odd.
    items.push(chain(1_000_000, left / 2 - 1));
    let mut all = [&items[..], &[alias(A, 0, ty(U16))]].concat();
    if left % 2 == 1 {
        all.push(global(Y, array(1_000_001, ty(U16))));
    }
    let bytes = complete(all);
    assert_eq!(counts(&bytes).0, rows);
    bytes
}

/// A module of so many errors: `&&` over unknown identifiers is three for each, less two.
pub fn with_errors(errors: usize) -> Vec<u8> {
    fn conjunction(leaves: usize) -> Tree {
        match leaves {
            1 => id(name("nobody")),
            _ => record(44, &[0], vec![conjunction(leaves / 2), conjunction(leaves - leaves / 2)]),
        }
    }
    let leaves = errors.div_ceil(3);
    let left = errors - (3 * leaves - 2);
    let value = (0..left).fold(conjunction(leaves), |e, _| record(42, &[0], vec![e]));
    // Of what is left, at most two, each is a `~` over it: no integer stands there.
    let bytes = complete(vec![global_with(X, ty(U16), value)]);
    assert_eq!(counts(&bytes).1, errors);
    bytes
}

/// The words of the rows that every table begins with.
const SEVEN_ROWS: usize = 7 * ROW_WIDTH;

/// The words of the example's errors.
const TWO_ERRORS: usize = 2 * ERROR_WIDTH;

/// The example with exactly what it needs lent, and less of each by one. Its type stands on another line each time.
fn loans(all: &mut Vec<Case>) {
    let exact = Loans { output: 112, rows: SEVEN_ROWS, errors: TWO_ERRORS, work: 8 };
    let lent = [
        ("exact loans", exact),
        ("an output of one byte more", Loans { output: 113, ..exact }),
        ("an output of one byte less", Loans { output: 111, ..exact }),
        ("one working word less", Loans { work: 7, ..exact }),
        ("working words to spare", Loans { work: 9, ..exact }),
        ("one row word less", Loans { rows: SEVEN_ROWS - 1, ..exact }),
        ("row words to spare", Loans { rows: SEVEN_ROWS + 4, ..exact }),
        ("one error word less", Loans { errors: TWO_ERRORS - 1, ..exact }),
        ("error words to spare", Loans { errors: TWO_ERRORS + ERROR_WIDTH - 1, ..exact }),
        ("too few rows and errors", Loans { rows: SEVEN_ROWS - 1, errors: TWO_ERRORS - 1, ..exact }),
        ("nothing lent", Loans { output: 0, rows: 0, errors: 0, work: 0 }),
    ];
    for ((what, loans), line) in lent.into_iter().zip(4..) {
        all.push(Case { name: format!("the example at line {line}, {what}"), bytes: example_module(line), loans });
    }
}

/// The file of no bytes with loans around seven rows, the module record without names and items, and files of 1 to 16 bytes.
fn no_bytes(all: &mut Vec<Case>) {
    let none = Loans { output: 0, rows: 0, errors: 0, work: 0 };
    let other = [
        ("nothing else lent", none),
        ("an output", Loans { output: 100, ..none }),
        ("error words", Loans { errors: 20, ..none }),
        ("working words", Loans { work: 11, ..none }),
        ("all lent", Loans { output: 100, rows: 0, errors: 20, work: 11 }),
    ];
    let mut case = |name: String, bytes: &[u8], loans| all.push(Case { name, bytes: bytes.to_vec(), loans });
    for rows in [0, 1, 28, 30, 34, 35, 36, 39, 40, REPORT.rows] {
        for (what, loans) in other {
            case(format!("the empty file, {rows} row words, {what}"), &[], Loans { rows, ..loans });
        }
    }
    case("the empty file".to_owned(), &[], REPORT);
    let least = Tree::module::<&str>(&[], vec![]).to_bytes();
    for (output, rows) in [(10, 35), (31, 35), (32, 34), (32, 35), (33, 36)] {
        let loans = Loans { output, rows, ..none };
        case(format!("a module without names and items, {output} bytes of output, {rows} row words"), &least, loans);
    }
    for length in 1..=16 {
        case(format!("{length} zeros"), &vec![0; length], REPORT);
        case(format!("{length} zeros, nothing lent"), &vec![0; length], none);
        case(format!("{length} bytes of a module"), &least[..length], REPORT);
        // The length says that this is all.
        let mut short = least[..length].to_vec();
        short[0] = length as u8;
        case(format!("a module of {length} bytes"), &short, Loans { output: 16, rows: SEVEN_ROWS, ..none });
    }
}

fn repeated_names(all: &mut Vec<Case>) {
    let lists: [&[&str]; 5] =
        [&["x", "x"], &["x", "y", "x", "y"], &["x", "y", "y", "x"], &["", ""], &["x", "X", "xx", ""]];
    for names in lists {
        put(all, format!("names {names:?}"), Tree::module(names, vec![]).to_bytes());
    }
    let long = vec![b'n'; 300];
    let names = [long.clone(), long[..299].to_vec(), [&long[..299], b"m"].concat(), long];
    all.push(Case {
        name: "long names, the last equal to the first".to_owned(),
        bytes: Tree::module(&names, vec![]).to_bytes(),
        loans: REPORT,
    });
}
