//! Modules that are made against one part of the product each, so that the work for one record may grow with the rest of
//! the file; and lists of fields and parameters, long ones and many short ones.

use oracle::{
    hand::{array, block, id, limits, pointer, record, void},
    layout::MOST_BYTES,
    tree::Tree,
};

use crate::modules::{Row, aliases, hash, named, numbered, over};

/// The last of a row has as near 65,536 bytes as it goes, but for the casts of short chains, whose last is the longest that the reference
/// ends on. In the last two rows all have: the numbers are those of fields or parameters.
pub const ROWS: [Row; 20] = [
    ("repeated fields", repeated_fields, &[204, 408, 817, 1_635]),
    ("paired fields", paired_fields, &[162, 324, 650, 1_300]),
    ("uses of an alias chain", chain_uses, &[61, 122, 245, 490]),
    ("uses of two alias chains", two_chain_uses, &[61, 122, 245, 490]),
    ("decaying elements", decays, &[56, 112, 224, 448]),
    ("calls without arguments", bare_calls, &[97, 194, 388, 777]),
    ("struct compound in order", fields_in_order, &[77, 155, 310, 620]),
    ("struct compound in reverse", fields_in_reverse, &[77, 155, 310, 620]),
    ("absent fields", absent_fields, &[92, 185, 370, 740]),
    ("casts of distinct chains", distinct_casts, &[41, 83, 166, 333]),
    ("few casts of deep chains", few_casts, &[60, 120, 240, 479]),
    ("a cast of short chains", one_cast, &[2, 4, 6, 8, 10]),
    ("internal aliases", internal_aliases, &[61, 122, 245, 490]),
    ("loops around blocks", loops, &[400, 800, 1_600, 3_200]),
    ("rows past the index", limits::with_rows, &[785, 1_570, 3_140, 6_280]),
    ("long names of one hash", long_names, &[255, 511, 1_023, 2_046]),
    ("one struct", one_struct, &[204, 408, 817, 1_635]),
    ("one function", one_function, &[204, 408, 817, 1_635]),
    ("fields a struct", structs, &[1, 2, 8, 32, 33]),
    ("parameters a function", functions, &[0, 1, 2, 8]),
];

/// The names that `numbered` begins with.
const U16: u32 = 0;
const X: u32 = 1;

/// The number of the name ni in `numbered`.
fn n(i: usize) -> u32 {
    i as u32 + 2
}

fn variable(name: u32, ty: Tree) -> Tree {
    record(83, &[name], vec![ty])
}

/// A variable of an array type with so many elements.
fn elements(element: Tree, count: usize, one: Tree) -> Tree {
    record(83, &[U16], vec![array(count as u32, element), record(48, &[], vec![one; count])])
}

/// A variable with a struct compound of fields of these names, the same value for each.
fn compound(ty: Tree, names: impl Iterator<Item = u32>, value: Tree) -> Tree {
    let fields = names.map(|name| record(50, &[name], vec![value.clone()])).collect();
    record(83, &[U16], vec![ty, record(49, &[], fields)])
}

/// A struct of fields of these names and the type void, the shortest.
fn structure(names: impl Iterator<Item = u32>) -> Tree {
    record(20, &[0], names.map(|name| record(21, &[name], vec![void()])).collect())
}

/// A function without a body, with so many parameters of type void.
fn declared(parameters: usize) -> Tree {
    let mut children = vec![void()];
    children.extend((0..parameters).map(|_| record(85, &[X], vec![void()])));
    record(80, &[X], children)
}

/// The empty string, the shortest expression.
fn text() -> Tree {
    record(35, &[0], vec![])
}

/// A struct compound of so many fields of one name.
fn repeated_fields(count: usize) -> Vec<u8> {
    numbered(0, vec![compound(void(), (0..count).map(|_| X), text())])
}

/// A struct compound of so many fields, each name twice.
fn paired_fields(count: usize) -> Vec<u8> {
    numbered(count / 2, vec![compound(void(), (0..count).map(|i| n(i % (count / 2))), text())])
}

/// An array compound whose elements all have the type of its own: the last of so many aliases.
fn chain_uses(count: usize) -> Vec<u8> {
    let mut items = aliases(n(0), count, 0, U16);
    let last = named(n(count - 1));
    items.push(variable(X, last.clone()));
    items.push(elements(last, count * 8 / 3, id(X)));
    numbered(count, items)
}

/// The same for an array of another alias of u16.
fn two_chain_uses(count: usize) -> Vec<u8> {
    let mut items = aliases(n(0), count, 0, U16);
    items.extend(aliases(n(count), 1, 0, U16));
    items.push(variable(X, named(n(count - 1))));
    items.push(elements(named(n(count)), count * 8 / 3, id(X)));
    numbered(count + 1, items)
}

/// Elements of a type of so many pointers to arrays, for an array of as many pointers: 28 levels an alias.
fn decays(count: usize) -> Vec<u8> {
    let blocks = count / 28;
    let mut items = vec![];
    for i in 0..2 * blocks {
        let inner = named(if i % blocks == 0 { U16 } else { n(i - 1) });
        let level = |ty| if i < blocks { pointer(ty) } else { pointer(array(1, ty)) };
        items.push(record(81, &[n(i), 0], vec![(0..28).fold(inner, |ty, _| level(ty))]));
    }
    items.push(variable(X, named(n(2 * blocks - 1))));
    items.push(elements(named(n(blocks - 1)), 3 * count, id(X)));
    numbered(2 * blocks, items)
}

/// A function of so many parameters, and as many calls without arguments.
fn bare_calls(count: usize) -> Vec<u8> {
    numbered(0, vec![declared(count), elements(void(), count, record(36, &[0], vec![id(X)]))])
}

/// A struct of so many fields, and a compound of all of them in the order of the struct.
fn fields_in_order(count: usize) -> Vec<u8> {
    let names = || (0..count).map(n);
    numbered(count, vec![variable(X, void()), compound(structure(names()), names(), id(X))])
}

/// The same in the reverse order.
fn fields_in_reverse(count: usize) -> Vec<u8> {
    let names = || (0..count).map(n);
    numbered(count, vec![variable(X, void()), compound(structure(names()), names().rev(), id(X))])
}

/// A struct of so many fields, and as many accesses of a field that it has not. They are Unknown, as the element type is.
fn absent_fields(count: usize) -> Vec<u8> {
    let access = record(41, &[0, U16], vec![id(X)]);
    numbered(0, vec![variable(X, structure((0..count).map(|_| X))), elements(named(X), count, access)])
}

/// Two chains of so many distinct aliases, over bool and over u16, and so many casts from the one to the other and back: no pair fits.
fn casts_of_chains(count: usize, casts: usize) -> Vec<u8> {
    let lasts = [count as u32 + 2, 2 * count as u32 + 2];
    let mut items = aliases(3, count, 1, 0);
    items.extend(aliases(3 + count as u32, count, 1, 1));
    items.push(variable(2, named(lasts[0])));
    let casts = (0..casts).collect::<Vec<_>>();
    for some in casts.chunks(60) {
        let value = some.iter().fold(id(2), |e, i| record(38, &[0], vec![e, named(lasts[1 - i % 2])]));
        items.push(record(83, &[0], vec![void(), value]));
    }
    over(&["u16", "bool", "x"], 2 * count, items)
}

/// As many casts as the chains are long, and a third more.
fn distinct_casts(count: usize) -> Vec<u8> {
    casts_of_chains(count, count * 4 / 3)
}

/// Four casts of chains that fill the file.
fn few_casts(count: usize) -> Vec<u8> {
    casts_of_chains(count, 4)
}

/// One cast. The reference's search takes some five times as long with each alias more on both sides.
fn one_cast(count: usize) -> Vec<u8> {
    casts_of_chains(count, 1)
}

/// Internal aliases of the last of so many aliases of u16.
fn internal_aliases(count: usize) -> Vec<u8> {
    let mut items = aliases(n(0), count, 0, U16);
    items.extend((0..count * 4 / 3).map(|_| record(81, &[U16, 2], vec![named(n(count - 1))])));
    numbered(count, items)
}

/// Loops around a block of so many blocks with a break at its end, in a function that is to return a value.
fn loops(count: usize) -> Vec<u8> {
    let mut members = vec![block(vec![]); count];
    members.push(record(72, &[], vec![]));
    let body = (0..60).fold(block(members), |inner, _| record(70, &[], vec![inner]));
    numbered(0, vec![record(80, &[X], vec![named(U16), body])])
}

/// Names of 16 bytes that differ in the last three, and that the product's hash of names does not tell apart.
fn long_names(count: usize) -> Vec<u8> {
    let last = |i: u32| [i >> 14, i >> 7 & 127, i & 127].map(|byte| byte as u8);
    let all = (0..1 << 21).map(|i| [&[b'a'; 13][..], &last(i)].concat());
    let names: Vec<Vec<u8>> = all.filter(|name| hash(name) == 0).take(count).collect();
    Tree::module(&names, vec![]).to_bytes()
}

/// One struct of so many fields.
fn one_struct(count: usize) -> Vec<u8> {
    numbered(0, vec![variable(X, structure((0..count).map(|_| X)))])
}

/// One function of so many parameters.
fn one_function(count: usize) -> Vec<u8> {
    numbered(0, vec![declared(count)])
}

/// As many of an item as a file has room for.
fn filled(item: Tree) -> Vec<u8> {
    let room = MOST_BYTES - numbered(0, vec![]).len();
    numbered(0, vec![item.clone(); room / item.size()])
}

/// Structs of so many fields.
fn structs(fields: usize) -> Vec<u8> {
    filled(variable(X, structure((0..fields).map(|_| X))))
}

/// Functions of so many parameters.
fn functions(parameters: usize) -> Vec<u8> {
    filled(declared(parameters))
}
