//! A bare walk over the records of a file: tests 1 to 3 and nothing else, without memory of its own. No checker can be faster.

use oracle::layout::{Allowed, Field, HEAD, MOST_BYTES, MOST_DEPTH, Rest, shape};

struct Walk<'a> {
    bytes: &'a [u8],
    names: u32,
}

/// Whether a file passes tests 1 to 3.
pub fn is_good(bytes: &[u8]) -> bool {
    let mut walk = Walk { bytes, names: 0 };
    let mut is_module = || walk.record(0, bytes.len(), 1, Allowed::One(1)) == Some((bytes.len(), 1));
    bytes.is_empty() || bytes.len() <= MOST_BYTES && is_module()
}

impl Walk<'_> {
    fn word(&self, place: usize) -> u32 {
        u32::from_le_bytes(self.bytes[place..place + 4].try_into().unwrap())
    }

    /// The end and the kind of the record due at a place, if it is good.
    fn record(&mut self, place: usize, end: usize, depth: usize, allowed: Allowed) -> Option<(usize, u16)> {
        if depth > MOST_DEPTH || end - place < HEAD {
            return None;
        }
        let length = self.word(place) as usize;
        let kind = self.word(place + 4) as u16;
        if length > end - place || !allowed.has(kind) {
            return None;
        }
        let (fields, rest) = shape(kind);
        let body = HEAD + 4 * fields.len();
        if length < body {
            return None;
        }
        for (i, field) in fields.iter().enumerate() {
            let value = self.word(place + HEAD + 4 * i);
            let good = match *field {
                Field::Slot => value == 0,
                Field::Name => value < self.names,
                Field::Any => true,
                Field::Between(low, high) => low <= value && value <= high,
            };
            if !good {
                return None;
            }
        }
        self.names += u32::from(kind == 3);
        self.rest(place + body, place + length, depth + 1, rest)?;
        Some((place + length, kind))
    }

    fn rest(&mut self, mut place: usize, end: usize, depth: usize, rest: Rest) -> Option<()> {
        let (due, more): (&[Allowed], _) = match rest {
            Rest::Bytes => return Some(()),
            Rest::Records(due) => (due, None),
            Rest::List(due, allowed) => (due, Some((allowed, true))),
            Rest::Perhaps(due, allowed) => (due, Some((allowed, false))),
            Rest::Function => (&[Allowed::Type], Some((Allowed::ParameterOrStatement, true))),
        };
        for &allowed in due {
            place = self.record(place, end, depth, allowed)?.0;
        }
        if let Some((allowed, is_list)) = more {
            let mut going = true;
            while place < end && going {
                let (after, kind) = self.record(place, end, depth, allowed)?;
                place = after;
                going = is_list && !(rest == Rest::Function && kind != 85);
            }
        }
        (place == end).then_some(())
    }
}
