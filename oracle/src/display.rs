//! The texts of types as the reference's `Display` prints them, from rows and the bytes of names.

use crate::rows::{Rows, STRING_NAME, kind};

/// What the texts of rows are made of.
pub struct Texts<'a> {
    pub rows: &'a Rows,
    pub names: &'a [Vec<u8>],
    /// What is printed for String.
    pub built_in: &'a [u8],
}

/// A part of a row's text.
#[derive(Clone, Copy)]
enum Part {
    Fixed(&'static str),
    Name(u32),
    /// In decimal.
    Number(u32),
    /// The text of a row; of 0 there is none.
    Row(u32),
}

impl<'a> Texts<'a> {
    /// The bytes of a name.
    pub fn name(&self, number: u32) -> &'a [u8] {
        if number == STRING_NAME { self.built_in } else { &self.names[number as usize] }
    }

    /// The parts of a row's text. That of a cell goes on with the cells after it.
    fn parts(&self, number: u32) -> Vec<Part> {
        use Part::*;
        let row = self.rows.row(number);
        let (name, first, second) = (Name(row.name), Row(row.first), Row(row.second));
        let mut parts = match row.kind {
            1 => vec![Fixed("<unknown>")],
            2 => vec![Fixed("void")],
            3 => vec![Fixed("bool")],
            4 => vec![Fixed("u16")],
            5 => vec![Fixed("i16")],
            kind::POINTER => vec![Fixed("*"), first],
            kind::ARRAY => vec![Fixed("["), Number(row.second), Fixed("]"), first],
            kind::STRUCT => vec![Fixed("struct { "), first, Fixed(" }")],
            kind::FUNCTION => vec![Fixed("fn("), second, Fixed(") -> "), first],
            kind::ALIAS => vec![name, Fixed(" (alias for "), first, Fixed(")")],
            kind::DISTINCT => vec![name],
            kind::FIELD => vec![name, Fixed(": "), first],
            kind::ARGUMENT => vec![first],
            none => unreachable!("no rows of kind {none}"),
        };
        if row.is_cell() && row.second != 0 {
            parts.extend([Fixed(", "), second]);
        }
        parts
    }

    /// The length of each row's text, cells included.
    pub fn lengths(&self) -> Vec<u64> {
        let mut lengths: Vec<u64> = vec![];
        for number in 1..=self.rows.count() as u32 {
            let of = |part| match part {
                Part::Fixed(text) => text.len() as u64,
                Part::Name(name) => self.name(name).len() as u64,
                Part::Number(number) => number.to_string().len() as u64,
                Part::Row(0) => 0,
                Part::Row(row) => lengths[row as usize - 1],
            };
            let length = self.parts(number).into_iter().map(of).fold(0, u64::saturating_add);
            lengths.push(length);
        }
        lengths
    }

    /// Adds a row's text.
    pub fn put(&self, row: u32, into: &mut Vec<u8>) {
        let mut left = vec![Part::Row(row)];
        while let Some(part) = left.pop() {
            match part {
                Part::Fixed(text) => into.extend(text.as_bytes()),
                Part::Name(name) => into.extend(self.name(name)),
                Part::Number(number) => into.extend(number.to_string().as_bytes()),
                Part::Row(0) => {}
                Part::Row(row) => left.extend(self.parts(row).into_iter().rev()),
            }
        }
    }
}
