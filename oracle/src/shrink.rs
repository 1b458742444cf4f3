//! Makes a file smaller as long as something stays true of it.

use crate::{
    layout::{self, Field, HEAD, Rest},
    tree::Tree,
};

/// A record as far as it can be told in a file that may be damaged, with the places of those that hold it.
struct Span {
    place: usize,
    length: usize,
    /// Where what follows its fields begins.
    body: usize,
    has_bytes: bool,
    holders: Vec<usize>,
}

/// Whether some record of the kind is allowed somewhere.
fn is_kind(kind: u16) -> bool {
    matches!(kind, 1..=3 | 16..=21 | 32..=50 | 64..=74 | 80..=85)
}

/// Adds the records that stand one after another from `place` to `end`, as far as they can be told.
fn add_spans(bytes: &[u8], mut place: usize, end: usize, holders: &mut Vec<usize>, into: &mut Vec<Span>) {
    while place + HEAD <= end {
        let length = u32::from_le_bytes(bytes[place..place + 4].try_into().unwrap()) as usize;
        let kind = u16::from_le_bytes(bytes[place + 4..place + 6].try_into().unwrap());
        if length < HEAD || length > end - place || !is_kind(kind) {
            return;
        }
        let (fields, rest) = layout::shape(kind);
        let body = (place + HEAD + 4 * fields.len()).min(place + length);
        let has_bytes = rest == Rest::Bytes;
        into.push(Span { place, length, body, has_bytes, holders: holders.clone() });
        if !has_bytes {
            holders.push(place);
            add_spans(bytes, body, place + length, holders, into);
            holders.pop();
        }
        place += length;
    }
}

/// The records of a file, the longest first.
fn spans(bytes: &[u8]) -> Vec<Span> {
    let mut all = vec![];
    add_spans(bytes, 0, bytes.len(), &mut vec![], &mut all);
    all.sort_by_key(|span| std::cmp::Reverse(span.length));
    all
}

/// The file with other bytes for a part of it, and the lengths of the records that hold the part mended.
fn replaced(bytes: &[u8], holders: &[usize], place: usize, length: usize, new: &[u8]) -> Vec<u8> {
    let mut out = bytes.to_vec();
    out.splice(place..place + length, new.iter().copied());
    for &holder in holders {
        let old = u32::from_le_bytes(out[holder..holder + 4].try_into().unwrap());
        let mended = old.wrapping_add(new.len() as u32).wrapping_sub(length as u32);
        out[holder..holder + 4].copy_from_slice(&mended.to_le_bytes());
    }
    out
}

/// A file under shrinking.
struct Shrink<'a> {
    bytes: Vec<u8>,
    keeps: &'a mut dyn FnMut(&[u8]) -> bool,
    tries: usize,
}

/// The most files that are tried.
const MOST_TRIES: usize = 20_000;

/// A smaller file of which `keeps` is true, as it is of the file given.
pub fn smallest(bytes: &[u8], keeps: &mut dyn FnMut(&[u8]) -> bool) -> Vec<u8> {
    let mut shrink = Shrink { bytes: bytes.to_vec(), keeps, tries: MOST_TRIES };
    loop {
        let before = shrink.bytes.clone();
        shrink.without_records();
        shrink.with_inner_records();
        shrink.without_free_bytes();
        shrink.without_names();
        shrink.without_bytes();
        shrink.with_zeros();
        if shrink.bytes == before || shrink.tries == 0 {
            return shrink.bytes;
        }
    }
}

impl Shrink<'_> {
    /// Takes a file in place of the one at hand if it is another, and what is wanted is true of it.
    fn takes(&mut self, other: Vec<u8>) -> bool {
        if self.tries == 0 || other == self.bytes {
            return false;
        }
        self.tries -= 1;
        let taken = (self.keeps)(&other);
        if taken {
            self.bytes = other;
        }
        taken
    }

    /// Tries what `of` makes of each record, from the longest on, beginning again where the list of records has changed.
    fn at_each(&mut self, of: impl Fn(&[u8], &Span) -> Vec<Vec<u8>>) {
        let mut i = 0;
        let mut all = spans(&self.bytes);
        while i < all.len() && self.tries > 0 {
            let taken = of(&self.bytes, &all[i]).into_iter().any(|other| self.takes(other));
            if taken {
                all = spans(&self.bytes);
            } else {
                i += 1;
            }
        }
    }

    fn without_records(&mut self) {
        self.at_each(|bytes, span| vec![replaced(bytes, &span.holders, span.place, span.length, &[])]);
    }

    fn with_inner_records(&mut self) {
        self.at_each(|bytes, span| {
            let mut inside = vec![];
            if !span.has_bytes {
                add_spans(bytes, span.body, span.place + span.length, &mut vec![], &mut inside);
            }
            let inner = inside.iter().map(|inner| &bytes[inner.place..inner.place + inner.length]);
            inner.map(|inner| replaced(bytes, &span.holders, span.place, span.length, inner)).collect()
        });
    }

    fn without_free_bytes(&mut self) {
        self.at_each(|bytes, span| {
            let count = span.place + span.length - span.body;
            if !span.has_bytes || count == 0 {
                return vec![];
            }
            let within = [&span.holders[..], &[span.place]].concat();
            let fewer = [count, count.div_ceil(2), 1];
            fewer.into_iter().map(|fewer| replaced(bytes, &within, span.body, fewer, &[])).collect()
        });
    }

    /// Leaves bytes out without mending anything.
    fn without_bytes(&mut self) {
        let mut length = self.bytes.len().div_ceil(2);
        while length > 0 && self.tries > 0 {
            let mut place = self.bytes.len();
            while place > 0 {
                let start = place.saturating_sub(length);
                self.takes(replaced(&self.bytes, &[], start, place - start, &[]));
                place = start.min(self.bytes.len());
            }
            length /= 2;
        }
    }

    /// Zeros in the heads of records, after the kind.
    fn with_zeros(&mut self) {
        self.at_each(|bytes, span| {
            let mut out = bytes.to_vec();
            out[span.place + 6..span.place + HEAD].fill(0);
            vec![out]
        });
    }

    /// Leaves names of a good module out, one by one, and counts the later ones down.
    fn without_names(&mut self) {
        let mut number = layout::read(&self.bytes).map_or(0, |module| module.names.len());
        while number > 0 && self.tries > 0 {
            number -= 1;
            if let Some(other) = without_name(&self.bytes, number as u32) {
                self.takes(other);
            }
        }
    }
}

/// A good module without a name that no record has.
fn without_name(bytes: &[u8], number: u32) -> Option<Vec<u8>> {
    let module = layout::read(bytes).ok()?;
    let mut names = module.names;
    names.remove(number as usize);
    let mut items: Vec<Tree> = module.items.iter().map(Tree::of).collect();
    items.iter_mut().all(|item| renumber(item, number)).then(|| Tree::module(&names, items).to_bytes())
}

/// Counts the names after one down in a record and all in it; false if the one itself stands there.
fn renumber(tree: &mut Tree, number: u32) -> bool {
    for (kind, value) in layout::shape(tree.kind).0.iter().zip(&mut tree.fields) {
        if *kind == Field::Name {
            if *value == number {
                return false;
            }
            *value -= u32::from(*value > number);
        }
    }
    tree.children.iter_mut().all(|child| renumber(child, number))
}
