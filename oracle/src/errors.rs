//! Errors by hand over a module and rows: such that their messages can be read, and such that a word that a message reads is wrong.

use crate::{
    answer::{ERROR_KINDS, ERROR_WIDTH},
    layout::{Module, Record},
    messages::{self, KIND, OPERATORS, Sort},
    rows::{Rows, STRING_NAME},
    tell::{self, BUILT_INS},
    tree::Random,
};

/// The words of an error.
pub type Words = [u32; ERROR_WIDTH];

/// What errors may name.
pub struct Stock {
    /// How many names there are, and the numbers of those of built-in types and of the others.
    names: u32,
    built_ins: Vec<u32>,
    other_names: Vec<u32>,
    /// How many rows there are, and the numbers of types and cells.
    rows: u32,
    types: Vec<u32>,
    cells: Vec<u32>,
    /// The places of literals, and of the other records.
    literals: Vec<u32>,
    other_records: Vec<u32>,
    length: u32,
}

fn add_places(record: &Record, into: &mut Vec<u32>) {
    into.push(record.place as u32);
    record.children.iter().for_each(|child| add_places(child, into));
}

impl Stock {
    pub fn new(bytes: &[u8], module: &Module, rows: &Rows) -> Self {
        let (built_ins, other_names) = (0..module.names.len() as u32)
            .partition(|&name| BUILT_INS.contains(&module.names[name as usize].as_slice()));
        let (cells, types) = (1..=rows.count() as u32).partition(|&number| rows.row(number).is_cell());
        let found = tell::literals(module);
        let mut all = vec![];
        module.list.iter().chain(&module.items).for_each(|record| add_places(record, &mut all));
        let (literals, other_records) = all.into_iter().partition(|place| found.contains_key(place));
        Stock {
            names: module.names.len() as u32,
            built_ins,
            other_names,
            rows: rows.count() as u32,
            types,
            cells,
            literals,
            other_records,
            length: bytes.len() as u32,
        }
    }

    /// A word with which a piece of the sort exists, if there is one.
    fn good(&self, sort: Sort, random: &mut Random) -> Option<u32> {
        let numbers = [0, 1, 9, 10, 99, 100, 65_535, 65_536, 999_999_999, 1_000_000_000, u32::MAX];
        let operators: Vec<u32> = (1..=OPERATORS.len() as u32).collect();
        let names: Vec<u32> = (0..self.names).collect();
        let from: &[u32] = match sort {
            Sort::Name => &names,
            Sort::Type => &self.types,
            Sort::Number => &numbers,
            Sort::Operator => &operators,
            Sort::BuiltIn => &self.built_ins,
            Sort::Literal => &self.literals,
        };
        (!from.is_empty()).then(|| *random.pick(from))
    }

    /// Words with which it does not, and what is wrong with each.
    fn bad(&self, sort: Sort, random: &mut Random) -> Vec<(&'static str, u32)> {
        let mut all = vec![];
        match sort {
            Sort::Name => {
                all.extend([("a name one past the list", self.names), ("String's name", STRING_NAME)]);
                all.extend([("a name above 16 bits", 65_536), ("name 4294967295", u32::MAX)]);
            }
            Sort::Type => {
                all.extend([("row 0", 0), ("a row one past the count", self.rows + 1)]);
                all.extend([("a row above 16 bits", 65_536 + 4), ("row 4294967295", u32::MAX)]);
                all.extend((!self.cells.is_empty()).then(|| ("a cell", *random.pick(&self.cells))));
            }
            Sort::Number => {}
            Sort::Operator => {
                all.extend([("operator 0", 0), ("operator 10", 10)]);
                all.extend([("an operator above 8 bits", 257), ("operator 4294967295", u32::MAX)]);
            }
            Sort::BuiltIn if self.other_names.is_empty() => {}
            Sort::BuiltIn => all.push(("a name that is no built-in", *random.pick(&self.other_names))),
            Sort::Literal => all = self.no_literals(random),
        }
        all
    }

    /// Places where no literal's record starts.
    fn no_literals(&self, random: &mut Random) -> Vec<(&'static str, u32)> {
        let mut all = vec![("place 0", 0), ("the file's length", self.length), ("place 4294967295", u32::MAX)];
        if !self.other_records.is_empty() {
            all.push(("the place of another record", *random.pick(&self.other_records)));
        }
        if !self.literals.is_empty() {
            let literal = *random.pick(&self.literals);
            all.extend([("a byte after a literal", literal + 1), ("a byte before a literal", literal - 1)]);
            all.extend([("a literal's digits", literal + 24), ("a place above 16 bits", literal + 65_536)]);
        }
        // Behind a literal without digits there may be another.
        all.retain(|(_, place)| !self.literals.contains(place));
        all
    }

    /// An error of the kind whose message can be read, if the module has what it names. The words that no message reads are any.
    pub fn readable(&self, kind: u32, random: &mut Random) -> Option<Words> {
        let mut words = [0; ERROR_WIDTH].map(|_| any_word(random));
        words[KIND] = kind;
        // A name that is to be a built-in is drawn as one last.
        for piece in messages::pieces(kind) {
            words[piece.word] = self.good(piece.sort, random)?;
        }
        Some(words)
    }

    /// Such errors of drawn kinds, at most so many.
    pub fn some_readable(&self, most: usize, random: &mut Random) -> Vec<Words> {
        let kinds: Vec<u32> = (0..random.between(1, most)).map(|_| some_kind(random)).collect();
        kinds.into_iter().filter_map(|kind| self.readable(kind, random)).collect()
    }

    /// Errors in each of which one word is wrong, and what it is; all sentences of test 8 that speak of one error.
    pub fn unreadable(&self, random: &mut Random) -> Vec<(String, Words)> {
        let mut all = vec![];
        for kind in 1..=ERROR_KINDS {
            let Some(words) = self.readable(kind, random) else { continue };
            for piece in messages::pieces(kind) {
                for (what, word) in self.bad(piece.sort, random) {
                    let mut words = words;
                    words[piece.word] = word;
                    all.push((format!("kind {kind}: {what}"), words));
                }
            }
        }
        // Without names or literals these are wrong whatever they name.
        if self.names == 0 {
            all.push(("kind 1 where there are no names".to_owned(), [1, 0, 0, 0, 0, 0, 0, 0]));
            all.push(("kind 3 where there are no names".to_owned(), [3, 0, 0, 0, 0, 3, 0, 0]));
        }
        if self.literals.is_empty() {
            let other = self.other_records.first().copied().unwrap_or(0);
            all.push(("kind 23 where there are no literals".to_owned(), [23, 0, 0, 0, 0, 0, 0, other]));
        }
        for kind in [0, ERROR_KINDS + 1, 256 + 1, 65_536 + 1, u32::MAX] {
            let words = [KIND; ERROR_WIDTH].map(|_| any_word(random));
            all.push((format!("kind {kind}"), [&[kind], &words[1..]].concat().try_into().unwrap()));
        }
        all
    }

    /// A word that is now and then good in an error, and now and then not.
    pub fn some_word(&self, random: &mut Random) -> u32 {
        let sorts = [Sort::Name, Sort::Type, Sort::Number, Sort::Operator, Sort::BuiltIn, Sort::Literal];
        let sort = *random.pick(&sorts);
        if random.chance(60) {
            return self.good(sort, random).unwrap_or(0);
        }
        let bad = self.bad(sort, random);
        if bad.is_empty() { any_word(random) } else { random.pick(&bad).1 }
    }
}

/// Some kind of error.
pub fn some_kind(random: &mut Random) -> u32 {
    random.between(1, ERROR_KINDS as usize) as u32
}

/// Any word.
pub fn any_word(random: &mut Random) -> u32 {
    let drawn = random.draw() as u32;
    *random.pick(&[0, 1, 4, 7, 33, 65_535, 65_536, u32::MAX, drawn])
}
