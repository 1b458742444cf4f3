//! Records to be written, and a generator of numbers from a seed.

use crate::layout::{HEAD, Place, Record};

/// A record to be written.
#[derive(Clone, Debug)]
pub struct Tree {
    pub kind: u16,
    pub at: Place,
    pub fields: Vec<u32>,
    pub children: Vec<Tree>,
    pub bytes: Vec<u8>,
}

impl Tree {
    pub fn new(kind: u16, at: Place, fields: &[u32], children: Vec<Tree>) -> Self {
        Tree { kind, at, fields: fields.to_vec(), children, bytes: vec![] }
    }

    pub fn with_bytes(kind: u16, at: Place, fields: &[u32], bytes: &[u8]) -> Self {
        Tree { kind, at, fields: fields.to_vec(), children: vec![], bytes: bytes.to_vec() }
    }

    /// A module with a list of names and items.
    pub fn module<N: AsRef<[u8]>>(names: &[N], items: Vec<Tree>) -> Self {
        let at = Place::default();
        let names = names.iter().map(|name| Tree::with_bytes(3, at, &[], name.as_ref())).collect();
        let mut children = vec![Tree::new(2, at, &[], names)];
        children.extend(items);
        Tree::new(1, at, &[], children)
    }

    /// A record that was read.
    pub fn of(record: &Record) -> Self {
        let children = record.children.iter().map(Tree::of).collect();
        Tree { kind: record.kind, at: record.at, fields: record.fields.clone(), children, bytes: record.bytes.clone() }
    }

    /// The length of the record in bytes.
    pub fn size(&self) -> usize {
        HEAD + 4 * self.fields.len() + self.bytes.len() + self.children.iter().map(Tree::size).sum::<usize>()
    }

    /// The number of levels, this record being 1.
    pub fn levels(&self) -> usize {
        1 + self.children.iter().map(Tree::levels).max().unwrap_or(0)
    }

    /// The record's bytes.
    pub fn to_bytes(&self) -> Vec<u8> {
        let mut bytes = vec![];
        self.write(&mut bytes);
        bytes
    }

    fn write(&self, out: &mut Vec<u8>) {
        let start = out.len();
        out.extend([0; 4]);
        out.extend(self.kind.to_le_bytes());
        out.extend(self.at.file.to_le_bytes());
        out.extend(self.at.line.to_le_bytes());
        out.extend(self.at.column.to_le_bytes());
        for field in &self.fields {
            out.extend(field.to_le_bytes());
        }
        out.extend(&self.bytes);
        for child in &self.children {
            child.write(out);
        }
        let length = (out.len() - start) as u32;
        out[start..start + 4].copy_from_slice(&length.to_le_bytes());
    }
}

/// Numbers from a seed (splitmix64).
#[derive(Clone, Debug)]
pub struct Random(u64);

impl Random {
    pub fn new(seed: u64) -> Self {
        Random(seed)
    }

    pub fn draw(&mut self) -> u64 {
        self.0 = self.0.wrapping_add(0x9e37_79b9_7f4a_7c15);
        let mut z = self.0;
        z = (z ^ (z >> 30)).wrapping_mul(0xbf58_476d_1ce4_e5b9);
        z = (z ^ (z >> 27)).wrapping_mul(0x94d0_49bb_1331_11eb);
        z ^ (z >> 31)
    }

    /// A number below `bound`, which is not 0.
    pub fn below(&mut self, bound: usize) -> usize {
        (self.draw() % bound as u64) as usize
    }

    /// A number from `low` to `high`.
    pub fn between(&mut self, low: usize, high: usize) -> usize {
        low + self.below(high - low + 1)
    }

    /// True so many times of 100.
    pub fn chance(&mut self, percent: usize) -> bool {
        self.below(100) < percent
    }

    pub fn pick<'a, T>(&mut self, from: &'a [T]) -> &'a T {
        &from[self.below(from.len())]
    }

    pub fn shuffle<T>(&mut self, list: &mut [T]) {
        for i in (1..list.len()).rev() {
            list.swap(i, self.below(i + 1));
        }
    }
}
