//! Type rows as document 01 lays them down: numbered from 1, no two alike, pointing only to lower rows. By document 02's paper 3 each
//! has a fifth word, the words of its type.

use std::collections::HashMap;

pub const UNKNOWN: u32 = 1;
pub const VOID: u32 = 2;
pub const BOOL: u32 = 3;
pub const U16: u32 = 4;
pub const I16: u32 = 5;
pub const POINTER_TO_U16: u32 = 6;
pub const STRING: u32 = 7;

/// The name word of row 7.
pub const STRING_NAME: u32 = 65_535;

/// The kinds of a row that this program builds by name.
pub mod kind {
    pub const POINTER: u32 = 6;
    pub const ARRAY: u32 = 7;
    pub const STRUCT: u32 = 8;
    pub const FUNCTION: u32 = 9;
    pub const ALIAS: u32 = 10;
    pub const DISTINCT: u32 = 11;
    pub const FIELD: u32 = 12;
    pub const ARGUMENT: u32 = 13;
}

/// How many words a row has.
pub const ROW_WIDTH: usize = 5;

/// One row's words, but for the fifth, which follows from them.
#[derive(Clone, Copy, Debug, PartialEq, Eq, Hash)]
pub struct Row {
    pub kind: u32,
    pub first: u32,
    pub second: u32,
    pub name: u32,
}

/// A list of rows, always with the seven fixed ones.
#[derive(Clone, Debug)]
pub struct Rows {
    rows: Vec<Row>,
    numbers: HashMap<Row, u32>,
}

/// Whether a value may be cast, and how many pairs of strips were tried to say so (document 02, paper 11).
#[derive(Clone, Copy, Debug, Default, PartialEq, Eq)]
pub struct Cast {
    pub castable: bool,
    pub pairs: u64,
}

/// The words of a type, or of a cell by paper 3.
#[derive(Clone, Copy, Debug, PartialEq, Eq)]
pub enum Words {
    Known(u32),
    TooLarge,
    Unknown,
}

impl Default for Rows {
    fn default() -> Self {
        Self::new()
    }
}

impl Rows {
    /// The seven rows that are always there.
    pub fn new() -> Self {
        let mut rows = Rows { rows: vec![], numbers: HashMap::new() };
        for kind in 1..=5 {
            rows.put(kind, 0, 0, 0);
        }
        rows.put(kind::POINTER, U16, 0, 0);
        rows.put(kind::DISTINCT, POINTER_TO_U16, 0, STRING_NAME);
        rows
    }

    /// The number of the row with these words, which is added if it is not there yet.
    pub fn put(&mut self, kind: u32, first: u32, second: u32, name: u32) -> u32 {
        let row = Row { kind, first, second, name };
        if let Some(&number) = self.numbers.get(&row) {
            return number;
        }
        self.rows.push(row);
        let number = self.rows.len() as u32;
        self.numbers.insert(row, number);
        number
    }

    pub fn pointer(&mut self, to: u32) -> u32 {
        self.put(kind::POINTER, to, 0, 0)
    }

    pub fn array(&mut self, element: u32, size: u32) -> u32 {
        self.put(kind::ARRAY, element, size, 0)
    }

    /// A struct with the fields (name, type).
    pub fn structure(&mut self, fields: &[(u32, u32)]) -> u32 {
        let mut cell = 0;
        for &(name, ty) in fields.iter().rev() {
            cell = self.put(kind::FIELD, ty, cell, name);
        }
        self.put(kind::STRUCT, cell, 0, 0)
    }

    pub fn function(&mut self, returned: u32, arguments: &[u32]) -> u32 {
        let mut cell = 0;
        for &ty in arguments.iter().rev() {
            cell = self.put(kind::ARGUMENT, ty, cell, 0);
        }
        self.put(kind::FUNCTION, returned, cell, 0)
    }

    pub fn alias(&mut self, of: u32, name: u32, distinct: bool) -> u32 {
        self.put(if distinct { kind::DISTINCT } else { kind::ALIAS }, of, 0, name)
    }

    pub fn row(&self, number: u32) -> Row {
        self.rows[number as usize - 1]
    }

    pub fn count(&self) -> usize {
        self.rows.len()
    }

    /// The members of a cell list, first to last, as (name, type).
    pub fn members(&self, mut cell: u32) -> Vec<(u32, u32)> {
        let mut members = vec![];
        while cell != 0 {
            let row = self.row(cell);
            members.push((row.name, row.first));
            cell = row.second;
        }
        members
    }

    /// A type without the transparent aliases at its top.
    pub fn desugar(&self, mut ty: u32) -> u32 {
        while self.row(ty).kind == kind::ALIAS {
            ty = self.row(ty).first;
        }
        ty
    }

    /// A type without the aliases of both sorts at its top.
    pub fn strip(&self, mut ty: u32) -> u32 {
        while matches!(self.row(ty).kind, kind::ALIAS | kind::DISTINCT) {
            ty = self.row(ty).first;
        }
        ty
    }

    /// Whether a value of the source type may be put where the target type is.
    pub fn assignable(&self, target: u32, source: u32) -> bool {
        let (mut target, mut source) = (target, source);
        loop {
            target = self.desugar(target);
            source = self.desugar(source);
            if target == source {
                return true;
            }
            let (to, from) = (self.row(target), self.row(source));
            if to.kind != kind::POINTER || from.kind != kind::POINTER || self.row(from.first).kind != kind::ARRAY {
                return false;
            }
            (target, source) = (to.first, self.row(from.first).first);
        }
    }

    /// How many distinct aliases a type has at its top.
    pub fn distinct_aliases(&self, mut ty: u32) -> usize {
        let mut count = 0;
        while self.row(ty).kind == kind::DISTINCT {
            ty = self.row(ty).first;
            count += 1;
        }
        count
    }

    /// The type and what is left as distinct aliases are taken from its top, one by one.
    fn strips(&self, ty: u32) -> Vec<u32> {
        let mut strips = vec![ty];
        while let row @ Row { kind: kind::DISTINCT, .. } = self.row(*strips.last().unwrap()) {
            strips.push(row.first);
        }
        strips
    }

    /// Each strip of the source with each strip of the target, in order, up to the first pair that fits.
    pub fn cast(&self, from: u32, to: u32) -> Cast {
        let targets = self.strips(to);
        let mut pairs = 0;
        for a in self.strips(from) {
            for &b in &targets {
                pairs += 1;
                if self.fits(a, b) {
                    return Cast { castable: true, pairs };
                }
            }
        }
        Cast { castable: false, pairs }
    }

    /// Whether a value of one type may be cast to another.
    pub fn castable(&self, from: u32, to: u32) -> bool {
        self.cast(from, to).castable
    }

    /// Whether a pair of strips fits.
    fn fits(&self, a: u32, b: u32) -> bool {
        let integer = |ty| ty == U16 || ty == I16;
        let pointer = |ty| self.row(ty).kind == kind::POINTER;
        (integer(a) && integer(b))
            || (pointer(a) && pointer(b))
            || (pointer(a) && b == U16)
            || (a == U16 && pointer(b))
            || self.desugar(a) == self.desugar(b)
    }

    /// The words of every row, cells included, in row order.
    pub fn words(&self) -> Vec<Words> {
        words_of(&self.rows)
    }

    /// The rows as they stand in a buffer.
    pub fn row_words(&self) -> Vec<u32> {
        row_words(&self.rows)
    }

    /// The number of nodes of each row unfolded, cells included.
    pub fn unfolded_sizes(&self) -> Vec<u64> {
        let mut sizes: Vec<u64> = vec![];
        for row in &self.rows {
            let mut size = 1u64;
            for part in row.parts() {
                size = size.saturating_add(sizes[part as usize - 1]);
            }
            sizes.push(size);
        }
        sizes
    }
}

impl Row {
    /// The row numbers among its words.
    pub fn parts(&self) -> impl Iterator<Item = u32> {
        let second = if matches!(self.kind, kind::FUNCTION | kind::FIELD | kind::ARGUMENT) { self.second } else { 0 };
        [self.first, second].into_iter().filter(|&part| part != 0)
    }

    /// Whether its fourth word is a name.
    pub fn has_name(&self) -> bool {
        matches!(self.kind, kind::ALIAS | kind::DISTINCT | kind::FIELD)
    }

    /// Whether the row is a list cell and so no type.
    pub fn is_cell(&self) -> bool {
        matches!(self.kind, kind::FIELD | kind::ARGUMENT)
    }
}

impl Words {
    /// As the fifth word of a row.
    pub fn word(self) -> u32 {
        match self {
            Words::Known(words) => words,
            Words::TooLarge => TOO_LARGE,
            Words::Unknown => UNKNOWN_INSIDE,
        }
    }
}

/// What stands for the words of a type that has more than 65,535, or Unknown inside.
pub const TOO_LARGE: u32 = 65_536;
pub const UNKNOWN_INSIDE: u32 = 65_537;

/// The words of each of these rows. A part that is no lower row counts for nothing, so that a row that breaks a rule has words too.
pub fn words_of(rows: &[Row]) -> Vec<Words> {
    let mut all: Vec<Words> = vec![];
    for row in rows {
        let of = |number: u32| match number {
            0 => Words::Known(0),
            _ => all.get(number as usize - 1).copied().unwrap_or(Words::Known(0)),
        };
        let unless_unknown = |words: u32| match (of(row.first), of(row.second)) {
            (Words::Unknown, _) | (_, Words::Unknown) => Words::Unknown,
            _ => Words::Known(words),
        };
        let words = match row.kind {
            1 => Words::Unknown,
            3..=6 => Words::Known(1),
            kind::ARRAY => times(row.second, of(row.first)),
            kind::STRUCT | kind::ALIAS | kind::DISTINCT => of(row.first),
            kind::FIELD => plus(of(row.first), of(row.second)),
            kind::FUNCTION => unless_unknown(1),
            kind::ARGUMENT => unless_unknown(0),
            // void, and what is no kind
            _ => Words::Known(0),
        };
        all.push(words);
    }
    all
}

/// These rows as they stand in a buffer.
pub fn row_words(rows: &[Row]) -> Vec<u32> {
    let with_size = |(row, words): (&Row, Words)| [row.kind, row.first, row.second, row.name, words.word()];
    rows.iter().zip(words_of(rows)).flat_map(with_size).collect()
}

fn limited(words: u64) -> Words {
    if words > 65_535 { Words::TooLarge } else { Words::Known(words as u32) }
}

fn times(size: u32, element: Words) -> Words {
    match element {
        Words::Known(words) => limited(u64::from(size) * u64::from(words)),
        Words::TooLarge if size == 0 => Words::Known(0),
        other => other,
    }
}

fn plus(a: Words, b: Words) -> Words {
    match (a, b) {
        (Words::Unknown, _) | (_, Words::Unknown) => Words::Unknown,
        (Words::Known(a), Words::Known(b)) => limited(u64::from(a) + u64::from(b)),
        _ => Words::TooLarge,
    }
}
