//! The modules that are measured, by class.

use oracle::{
    generate,
    hand::{U16, X, array, at, cast, global, global_with, id, limits, literal, record, ty},
    layout::{self, MOST_BYTES, Place},
    model,
    reference::MOST_WORK,
    tree::Tree,
};

use crate::slow;

/// Modules of one sort and about one size.
pub struct Class {
    pub name: String,
    pub modules: Vec<Vec<u8>>,
}

/// Classes of one sort: their name, what makes a module of a size, and the sizes.
pub type Row = (&'static str, fn(usize) -> Vec<u8>, &'static [usize]);

/// Whether the reference has at most so much work with a module.
pub fn is_fit(bytes: &[u8], most: u64) -> bool {
    layout::read(bytes).is_ok_and(|module| model::check(&module).work <= most)
}

/// Generated modules of some sizes.
fn generated(class: &str, sizes: std::ops::RangeInclusive<usize>, count: usize) -> Vec<Vec<u8>> {
    let drawn = (0..).map(|seed| generate::module(class, seed));
    drawn.filter(|bytes| sizes.contains(&bytes.len()) && is_fit(bytes, MOST_WORK)).take(count).collect()
}

/// The items of generated modules one after another, each with its own names, up to so many bytes.
fn joined(size: usize, seed: u64) -> Vec<u8> {
    let (mut names, mut items): (Vec<Vec<u8>>, Vec<Tree>) = (vec![], vec![]);
    let mut used = 32;
    for seed in seed.. {
        let part = layout::read(&generate::module("typed", seed)).unwrap();
        let mut numbers = vec![];
        for name in &part.names {
            let number = names.iter().position(|one| one == name).unwrap_or_else(|| {
                names.push(name.clone());
                used += 16 + name.len();
                names.len() - 1
            });
            numbers.push(number as u32);
        }
        for item in &part.items {
            let mut item = Tree::of(item);
            renumber(&mut item, &numbers);
            if used + item.size() + 16 > size {
                let filling = vec![b' '; (size - used).saturating_sub(16)];
                items.push(Tree::with_bytes(84, Place::default(), &[], &filling));
                return Tree::module(&names, items).to_bytes();
            }
            used += item.size();
            items.push(item);
        }
    }
    unreachable!("seeds do not end")
}

fn renumber(tree: &mut Tree, numbers: &[u32]) {
    for (kind, value) in layout::shape(tree.kind).0.iter().zip(&mut tree.fields) {
        if *kind == layout::Field::Name {
            *value = numbers[*value as usize];
        }
    }
    tree.children.iter_mut().for_each(|child| renumber(child, numbers));
}

/// A module over some names and so many of a number each.
pub fn over(first: &[&str], names: usize, items: Vec<Tree>) -> Vec<u8> {
    let mut all: Vec<String> = first.iter().map(|&name| name.to_owned()).collect();
    all.extend((0..names).map(|i| format!("n{i}")));
    Tree::module(&all, items).to_bytes()
}

/// A module over the names u16, x and those of a number each.
pub fn numbered(names: usize, items: Vec<Tree>) -> Vec<u8> {
    over(&["u16", "x"], names, items)
}

/// A type by the number of its name in `numbered`.
pub fn named(name: u32) -> Tree {
    record(16, &[0, name], vec![])
}

/// So many aliases, each of the one before and the first of the type `of`. Their names are numbered from `first` on.
pub fn aliases(first: u32, count: usize, flags: u32, of: u32) -> Vec<Tree> {
    let inner = |i| named(if i == 0 { of } else { first + i - 1 });
    (0..count as u32).map(|i| record(81, &[first + i, flags], vec![inner(i)])).collect()
}

fn chain(count: usize) -> Vec<u8> {
    let mut items = aliases(2, count, 0, 0);
    items.push(record(83, &[1], vec![named(count as u32 + 1), record(32, &[0, 1], vec![])]));
    numbered(count, items)
}

/// Distinct aliases over each other, and one cast between the last and u16.
fn casts(count: usize) -> Vec<u8> {
    let uses = (0..count).map(|_| record(65, &[], vec![cast(id(X), ty(U16))])).collect();
    oracle::hand::complete(vec![
        global(X, ty(U16)),
        oracle::hand::function(oracle::hand::void(), oracle::hand::block(uses)),
    ])
}

/// A table of literals in one base.
fn table(texts: [&str; 8], base: u32, count: usize) -> Vec<u8> {
    let elements = (0..count).map(|i| at(i as u32, literal(texts[i % 8], base))).collect();
    oracle::hand::complete(vec![global_with(X, array(count as u32, ty(U16)), record(48, &[], elements))])
}

fn literals(count: usize) -> Vec<u8> {
    table(["0", "1", "24", "25", "65535", "1000", "7", "300"], 10, count)
}

fn hexadecimals(count: usize) -> Vec<u8> {
    table(["0", "ff", "A5", "7fff", "FFFF", "c0de", "1Bad", "3e8"], 16, count)
}

fn names(count: usize) -> Vec<u8> {
    numbered(count, (0..count as u32).map(|i| record(83, &[i + 2], vec![named(0)])).collect())
}

fn locals(count: usize) -> Vec<u8> {
    let members =
        (0..count as u32).map(|i| record(66, &[i + 2], vec![named(0), record(32, &[0, i + 2], vec![])])).collect();
    let body = record(64, &[0], members);
    numbered(count, vec![record(80, &[1], vec![record(17, &[0], vec![]), body])])
}

fn nested(count: usize) -> Vec<u8> {
    let deep = |i: usize| (0..55).fold(literal("1", 10), |e, _| at(i as u32, record(42, &[0], vec![e])));
    oracle::hand::complete((0..count).map(|i| global_with(X, ty(U16), deep(i))).collect())
}

/// Every class. A name that ends in a number is one of a row of sizes.
pub fn classes() -> Vec<Class> {
    let mut all = vec![];
    let mut put = |name: &str, modules: Vec<Vec<u8>>| all.push(Class { name: name.to_owned(), modules });
    put("no bytes", vec![vec![]]);
    put("no items", vec![Tree::module::<&str>(&[], vec![]).to_bytes()]);
    put("small", generated("tiny", 200..=800, 40));
    put("typical, 4 KB", generated("typed", 3_500..=4_500, 20));
    for size in [1_000, 2_000, 4_000, 8_000, 16_000, 32_000, MOST_BYTES] {
        put(&format!("joined {size}"), (0..4).map(|i| joined(size, 1_000 * i)).collect());
    }
    let rows: [Row; 17] = [
        ("many types", limits::with_rows, &[375, 750, 1_500, 3_000]),
        ("chain of aliases", chain, &[50, 100, 200, 400, 800]),
        ("casts", casts, &[100, 200, 400]),
        ("many errors", limits::with_errors, &[250, 500, 1_000, 2_000]),
        ("many literals", literals, &[250, 500, 1_000, 2_000]),
        ("hexadecimal literals", hexadecimals, &[250, 500, 1_000, 2_000]),
        ("many globals", names, &[150, 300, 600, 1_000]),
        ("many locals", locals, &[100, 200, 400, 650]),
        ("deep expressions", nested, &[5, 10, 20, 50]),
        ("doubled structs", doubled, &[3, 6, 9, 12]),
        ("many sizes", sizes, &[125, 250, 500, 1_000]),
        ("many functions", functions, &[32, 64, 128, 256, 500]),
        ("many names", further_names, &[350, 700, 1_400, 2_800]),
        ("names of one hash", one_hash, &[200, 400, 800, 1_600]),
        ("rows of one bucket", one_bucket, &[125, 250, 500, 1_000]),
        ("compound fields", compound, &[100, 200, 400, 800]),
        ("call arguments", arguments, &[100, 200, 400, 700]),
    ];
    for (name, make, sizes) in rows.into_iter().chain(slow::ROWS) {
        for &size in sizes {
            put(&format!("{name} {size}"), vec![make(size)]);
        }
    }
    all
}

/// Each struct holds the one before twice: the reference copies it as a tree.
fn doubled(count: usize) -> Vec<u8> {
    let mut items: Vec<Tree> = vec![];
    for i in 0..count as u32 {
        let inner = || named(if i == 0 { 0 } else { i + 1 });
        let fields = [0, 1].map(|name| record(21, &[name], vec![inner()])).to_vec();
        items.push(record(81, &[i + 2, 0], vec![record(20, &[0], fields)]));
    }
    items.push(record(83, &[1], vec![named(count as u32 + 1)]));
    numbered(count, items)
}

/// Parameters of arrays that differ only in size.
fn sizes(count: usize) -> Vec<u8> {
    let parameter = |i: usize| record(85, &[1], vec![record(19, &[0, i as u32], vec![record(17, &[0], vec![])])]);
    let mut children = vec![record(17, &[0], vec![])];
    children.extend((0..count).map(parameter));
    numbered(0, vec![record(80, &[1], children)])
}

/// The product's hash of names (crates/names/src/lib.rt).
pub fn hash(name: &[u8]) -> u64 {
    name.iter().fold(0, |h, &byte| (h + u64::from(byte)) * 668_265_263 % (1 << 32)) >> 22
}

/// Names that the product's hash of names does not tell apart.
fn one_hash(count: usize) -> Vec<u8> {
    let all = (0..).map(|i: u32| format!("n{i:07}"));
    let names: Vec<String> = all.filter(|name| hash(name.as_bytes()) == 0).take(count).collect();
    Tree::module(&names, vec![]).to_bytes()
}

/// Parameters of arrays whose rows the product's hash of rows does not tell apart (crates/row_index/src/lib.rt).
fn one_bucket(count: usize) -> Vec<u8> {
    let bucket = |size: &u32| (u64::from(*size) * 228_826_127 + 7 * 268_435_399 + 2 * 165_580_141) / 262_144 % 512;
    let mut sizes = (0..).filter(|size| bucket(size) == 0);
    let parameter = |size: u32| record(85, &[1], vec![record(19, &[0, size], vec![record(17, &[0], vec![])])]);
    let mut children = vec![record(17, &[0], vec![])];
    children.extend(sizes.by_ref().take(count).map(parameter));
    numbered(0, vec![record(80, &[1], children)])
}

/// Empty functions, and two further names for each.
fn functions(count: usize) -> Vec<u8> {
    let one = |i: u32| record(80, &[i + 2], vec![record(17, &[0], vec![]), record(64, &[0], vec![])]);
    numbered(3 * count, (0..count as u32).map(one).collect())
}

/// A function, and so many further names.
fn further_names(count: usize) -> Vec<u8> {
    numbered(count, vec![record(80, &[1], vec![record(17, &[0], vec![]), record(64, &[0], vec![])])])
}

/// A struct compound with so many fields, each once.
fn compound(count: usize) -> Vec<u8> {
    let one = |i: u32| record(50, &[i + 2], vec![literal("1", 10)]);
    let value = record(49, &[], (0..count as u32).map(one).collect());
    numbered(count, vec![record(83, &[1], vec![named(0), value])])
}

/// A call of a function with so many parameters.
fn arguments(count: usize) -> Vec<u8> {
    let mut children = vec![record(17, &[0], vec![])];
    children.extend((0..count).map(|_| record(85, &[0], vec![named(0)])));
    let mut call = vec![record(32, &[0, 1], vec![])];
    call.extend((0..count).map(|_| literal("1", 10)));
    let value = record(83, &[0], vec![named(0), record(36, &[0], call)]);
    numbered(0, vec![record(80, &[1], children), value])
}
