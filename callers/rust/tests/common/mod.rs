//! The rows of every table, records of a module, and what a question is answered.
#![allow(dead_code)]

use delta_null_type_check::{Cast, ROW_WORDS, Refused};

/// The words of the seven rows of every table.
pub const FIXED: usize = 7 * ROW_WORDS;

/// Rows of theirs.
pub const BOOL: u32 = 3;
pub const U16: u32 = 4;
pub const I16: u32 = 5;
pub const POINTER: u32 = 6;
pub const STRING: u32 = 7;

/// The seven rows of every table and some more.
pub fn with_fixed(more: &[[u32; ROW_WORDS]]) -> Vec<u32> {
    let fixed = [
        [1, 0, 0, 0, 65537],
        [2, 0, 0, 0, 0],
        [3, 0, 0, 0, 1],
        [4, 0, 0, 0, 1],
        [5, 0, 0, 0, 1],
        [6, 4, 0, 0, 1],
        [11, 6, 0, 65535, 1],
    ];
    [fixed.concat(), more.concat()].concat()
}

pub fn refused<T>(number: u32, place: usize) -> Result<T, Refused> {
    Err(Refused { number, place })
}

pub fn cast(castable: bool, pairs: u64) -> Result<Cast, Refused> {
    Ok(Cast { castable, pairs })
}

/// A record of a module at no place of a source: its fields, and the records or bytes in it.
pub fn record(kind: u32, fields: &[u32], inside: &[&[u8]]) -> Vec<u8> {
    let inside = inside.concat();
    let length = 16 + 4 * fields.len() + inside.len();
    let head = [&[length as u32, kind, 0, 0], fields].concat();
    head.iter().flat_map(|word| word.to_le_bytes()).chain(inside).collect()
}

/// A module with these names and items.
pub fn module(names: &[&[u8]], items: &[&[u8]]) -> Vec<u8> {
    let names: Vec<Vec<u8>> = names.iter().map(|name| record(3, &[], &[name])).collect();
    let list = record(2, &[], &[&names.concat()]);
    record(1, &[], &[&list, &items.concat()])
}
