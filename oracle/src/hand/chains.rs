//! Casts between types under aliases of both sorts, each to each. A cast strips distinct aliases alone, and a transparent one at the bottom
//! may stand for a distinct one.

use super::{Case, alias, at, block, cast, global, id, pointer, put, record, structure, ty, void};
use crate::tree::Tree;

/// The flags of an alias.
const TRANSPARENT: u32 = 0;
const DISTINCT: u32 = 1;

/// An alias: its name, its flags and the text of its type.
type Alias<'a> = (&'a str, u32, &'a str);

/// The names of a module.
#[derive(Default)]
struct Names(Vec<String>);

impl Names {
    fn number(&mut self, text: &str) -> u32 {
        let number = self.0.iter().position(|name| name == text).unwrap_or_else(|| {
            self.0.push(text.to_owned());
            self.0.len() - 1
        });
        number as u32
    }

    /// A type by its text: a name, `*` and a type, or `.` and the name of the one field of a struct.
    fn spell(&mut self, text: &str) -> Tree {
        if let Some(to) = text.strip_prefix('*') {
            pointer(self.spell(to))
        } else if let Some(field) = text.strip_prefix('.') {
            let field = self.number(field);
            structure(vec![(field, self.spell("u16"))])
        } else {
            ty(self.number(text))
        }
    }
}

/// A module of aliases, a variable of each of some types, and a cast of each to each of these types, on a line of its own.
fn each_to_each(aliases: &[Alias], types: &[&str]) -> Vec<u8> {
    let mut names = Names::default();
    let mut items = vec![];
    for &(name, flags, of) in aliases {
        let of = names.spell(of);
        items.push(alias(names.number(name), flags, of));
    }
    let mut lines = vec![];
    for from in types {
        let variable = names.number(&format!("x{from}"));
        items.push(global(variable, names.spell(from)));
        for to in types {
            let cast = cast(id(variable), names.spell(to));
            lines.push(record(65, &[], vec![at(lines.len() as u32 + 1, cast)]));
        }
    }
    items.push(record(80, &[names.number("f")], vec![void(), block(lines)]));
    Tree::module(&names.0, items).to_bytes()
}

pub fn add(all: &mut Vec<Case>) {
    let mut case = |what: &str, others: &[&str], aliases: &[Alias]| {
        let types: Vec<&str> = others.iter().copied().chain(aliases.iter().map(|alias| alias.0)).collect();
        put(all, format!("casts: {what}"), each_to_each(aliases, &types));
    };
    let bottom = [("D", DISTINCT, "bool"), ("A", TRANSPARENT, "D")];
    case("a transparent alias of a distinct one", &["bool"], &bottom);
    for (what, more) in over_distinct() {
        case(what, &["bool"], &[&bottom[..], more].concat());
    }
    for (what, others, aliases) in over_others() {
        case(what, others, aliases);
    }
    long_chains(all);
}

type Aliases = &'static [Alias<'static>];

/// Aliases beside D, distinct over bool, and A, transparent over D.
fn over_distinct() -> [(&'static str, Aliases); 5] {
    [
        ("a bottom that is the top of another chain", &[("S", DISTINCT, "A")]),
        ("a bottom that is in the middle of another chain", &[("S", DISTINCT, "A"), ("T", DISTINCT, "D")]),
        (
            "bottoms that are one distinct alias",
            &[("B", TRANSPARENT, "D"), ("S", DISTINCT, "A"), ("T", DISTINCT, "B"), ("U", DISTINCT, "T")],
        ),
        (
            "a bottom behind two transparent aliases",
            &[("B", TRANSPARENT, "A"), ("S", DISTINCT, "B"), ("T", DISTINCT, "D"), ("U", DISTINCT, "T")],
        ),
        (
            "bottoms that differ by name",
            &[("E", DISTINCT, "bool"), ("B", TRANSPARENT, "E"), ("S", DISTINCT, "A"), ("T", DISTINCT, "B")],
        ),
    ]
}

/// Types that are cast beside the aliases, and the aliases.
fn over_others() -> [(&'static str, &'static [&'static str], Aliases); 10] {
    [
        (
            "a common tail",
            &["bool"],
            &[
                ("D", DISTINCT, "bool"),
                ("E", DISTINCT, "D"),
                ("F", DISTINCT, "E"),
                ("G", DISTINCT, "D"),
                ("H", DISTINCT, "G"),
            ],
        ),
        (
            "a common tail over a transparent alias",
            &["bool"],
            &[("A", TRANSPARENT, "bool"), ("D", DISTINCT, "A"), ("E", DISTINCT, "D"), ("F", DISTINCT, "D")],
        ),
        (
            "chains over u16 and i16",
            &["u16", "i16"],
            &[("D", DISTINCT, "u16"), ("E", DISTINCT, "i16"), ("F", DISTINCT, "D")],
        ),
        (
            "chains over transparent aliases of u16 and i16",
            &["u16", "i16"],
            &[("A", TRANSPARENT, "u16"), ("B", TRANSPARENT, "i16"), ("D", DISTINCT, "A"), ("E", DISTINCT, "B")],
        ),
        (
            "chains over u16 and a transparent alias of it",
            &["i16", "*u16"],
            &[("A", TRANSPARENT, "u16"), ("D", DISTINCT, "u16"), ("E", DISTINCT, "A")],
        ),
        (
            "chains over pointers",
            &["u16", "i16", "*u16"],
            &[("D", DISTINCT, "*u16"), ("E", DISTINCT, "*bool"), ("F", DISTINCT, "E")],
        ),
        (
            "chains over transparent aliases of pointers",
            &["u16", "*u16"],
            &[("A", TRANSPARENT, "*u16"), ("B", TRANSPARENT, "*bool"), ("D", DISTINCT, "A"), ("E", DISTINCT, "B")],
        ),
        (
            "chains over String",
            &["u16", "*u16", "String"],
            &[("D", DISTINCT, "String"), ("A", TRANSPARENT, "String"), ("E", DISTINCT, "A")],
        ),
        (
            "chains over structs",
            &[".m", ".n"],
            &[("A", TRANSPARENT, ".m"), ("D", DISTINCT, ".m"), ("E", DISTINCT, "A"), ("F", DISTINCT, ".n")],
        ),
        ("chains over an unknown type", &["bool"], &[("D", DISTINCT, "nobody"), ("E", DISTINCT, "nobody")]),
    ]
}

/// So many distinct aliases over bool and so many over u16: a search tries every pair. The reference is silent on the longest.
fn long_chains(all: &mut Vec<Case>) {
    for (n, m) in [(0, 3), (3, 0), (4, 4), (8, 8), (20, 20)] {
        let links = |letter: &str, base: &str, count: usize| -> Vec<String> {
            let links = (0..count).map(|i| format!("{letter}{i}"));
            std::iter::once(base.to_owned()).chain(links).collect()
        };
        let chains = [links("D", "bool", n), links("E", "u16", m)];
        let aliases: Vec<Alias> =
            chains.iter().flat_map(|chain| chain.windows(2).map(|two| (&*two[1], DISTINCT, &*two[0]))).collect();
        let mut types: Vec<&str> = chains.iter().flat_map(|chain| [&*chain[0], &*chain[chain.len() - 1]]).collect();
        types.dedup();
        put(all, format!("casts: {n} distinct aliases over bool and {m} over u16"), each_to_each(&aliases, &types));
    }
}
