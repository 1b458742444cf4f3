//! Damaged copies of module files.

use crate::{
    layout::{self, Field, HEAD, MOST_BYTES, MOST_DEPTH, Record},
    tree::Random,
};

/// A record of a good file, in byte order, with the places of the records that hold it.
#[derive(Clone)]
struct Flat {
    place: usize,
    length: usize,
    kind: u16,
    fields: usize,
    holders: Vec<usize>,
}

/// A file under damage.
struct Damage {
    bytes: Vec<u8>,
    records: Vec<Flat>,
    random: Random,
}

fn flatten(record: &Record, holders: &mut Vec<usize>, into: &mut Vec<Flat>) {
    into.push(Flat {
        place: record.place,
        length: record.length,
        kind: record.kind,
        fields: record.fields.len(),
        holders: holders.clone(),
    });
    holders.push(record.place);
    for child in &record.children {
        flatten(child, holders, into);
    }
    holders.pop();
}

/// The records of a good file, in byte order.
fn flat_records(bytes: &[u8]) -> Vec<Flat> {
    let Ok(module) = layout::read(bytes) else { return vec![] };
    let Some(list) = &module.list else { return vec![] };
    let mut records = vec![Flat { place: 0, length: bytes.len(), kind: 1, fields: 0, holders: vec![] }];
    for child in std::iter::once(list).chain(&module.items) {
        flatten(child, &mut vec![0], &mut records);
    }
    records
}

/// A damaged copy of a file. A few copies are still good.
pub fn damaged(bytes: &[u8], seed: u64) -> Vec<u8> {
    let mut random = Random::new(seed);
    let twice = random.chance(15);
    let mut damage = Damage { bytes: bytes.to_vec(), records: flat_records(bytes), random };
    damage.once();
    if twice {
        damage.records = flat_records(&damage.bytes);
        damage.once();
    }
    damage.bytes
}

/// A copy of a file with one thing wrong, or just not wrong, in a record of a kind drawn from those in the file: a field at
/// the edge of what it may be, a length, a kind, a record left out, bytes left over.
pub fn spoiled(bytes: &[u8], seed: u64) -> Vec<u8> {
    let mut damage = Damage { bytes: bytes.to_vec(), records: flat_records(bytes), random: Random::new(seed) };
    if !damage.records.is_empty() {
        damage.spoil();
    }
    damage.bytes
}

/// Every plain fault of the first record of a kind in a good file, each with its name: fields at the edges of what they may be,
/// lengths, kinds, the record left out, bytes left over. A few of the files are good.
pub fn each_fault(bytes: &[u8], kind: u16) -> Vec<(String, Vec<u8>)> {
    let records = flat_records(bytes);
    let record = records.iter().find(|record| record.kind == kind).expect("a record of the kind").clone();
    let names = records.iter().filter(|record| record.kind == 3).count() as u32;
    let good = Damage { bytes: bytes.to_vec(), records, random: Random::new(0) };
    let with = |change: &dyn Fn(&mut Damage)| {
        let mut copy = Damage { bytes: good.bytes.clone(), records: vec![], random: Random::new(0) };
        change(&mut copy);
        copy.bytes
    };
    let mut all = vec![];
    for (i, field) in layout::shape(kind).0.iter().enumerate() {
        let values = match *field {
            Field::Slot => vec![1, 1 << 24],
            Field::Name => vec![names, 1 << 16],
            Field::Any => vec![u32::MAX],
            Field::Between(low, high) => vec![low.wrapping_sub(1), low, high, high + 1],
        };
        for value in values {
            all.push((
                format!("field {i} is {value}"),
                with(&|copy| copy.set_word(record.place + HEAD + 4 * i, value)),
            ));
        }
    }
    for length in [0, HEAD - 1, HEAD + 4 * record.fields - 1, record.length - 1, record.length + 1] {
        all.push((format!("length {length}"), with(&|copy| copy.set_word(record.place, length as u32))));
    }
    for other in [0, 4, 15, 22, 31, 48, 51, 63, 75, 79, 86] {
        let place = record.place + 4;
        all.push((format!("kind {other}"), with(&|copy| copy.bytes[place..place + 2].copy_from_slice(&[other, 0]))));
    }
    let within = [&record.holders[..], &[record.place]].concat();
    let end = record.place + record.length;
    all.push(("left out".to_owned(), with(&|copy| copy.splice(&record.holders, record.place, record.length, &[]))));
    all.push((
        "cut after its fields".to_owned(),
        with(&|copy| {
            let body = record.place + HEAD + 4 * record.fields;
            copy.splice(&within, body, end - body, &[]);
        }),
    ));
    all.push(("a byte left over".to_owned(), with(&|copy| copy.splice(&within, end, 0, &[0]))));
    all.push(("a byte after it".to_owned(), with(&|copy| copy.splice(&record.holders, end, 0, &[0]))));
    all.push((
        "twice".to_owned(),
        with(&|copy| {
            let same = copy.bytes[record.place..end].to_vec();
            copy.splice(&record.holders, end, 0, &same);
        }),
    ));
    all
}

impl Damage {
    fn spoil(&mut self) {
        let mut kinds: Vec<u16> = self.records.iter().map(|record| record.kind).collect();
        kinds.sort();
        kinds.dedup();
        let kind = *self.random.pick(&kinds);
        let of_kind: Vec<Flat> = self.records.iter().filter(|record| record.kind == kind).cloned().collect();
        let record = self.random.pick(&of_kind).clone();
        let end = record.place + record.length;
        match self.random.below(8) {
            0..=2 if record.fields > 0 => {
                let field = self.random.below(record.fields);
                let value = self.edge(layout::shape(kind).0[field]);
                self.set_word(record.place + HEAD + 4 * field, value);
            }
            3 => {
                let shortest = HEAD + 4 * record.fields;
                let length =
                    *self.random.pick(&[0, HEAD - 1, shortest - 1, shortest, record.length - 1, record.length + 1]);
                self.set_word(record.place, length as u32);
            }
            4 => {
                let all: Vec<u16> = (0..90).collect();
                let other = *self.random.pick(&all);
                self.bytes[record.place + 4..record.place + 6].copy_from_slice(&other.to_le_bytes());
            }
            5 => self.splice(&record.holders, record.place, record.length, &[]),
            6 => {
                let new = self.some_bytes(17);
                let within = [&record.holders[..], &[record.place]].concat();
                self.splice(&within, end, 0, &new);
            }
            _ => {
                let place = self.random.between(record.place + HEAD, end);
                let within = [&record.holders[..], &[record.place]].concat();
                self.splice(&within, place, end - place, &[]);
            }
        }
    }

    /// A value at the edge of what a field may be, on either side.
    fn edge(&mut self, field: Field) -> u32 {
        let names = self.records.iter().filter(|record| record.kind == 3).count() as u32;
        let far = *self.random.pick(&[1 << 8, 1 << 16, 1 << 24, u32::MAX]);
        match field {
            Field::Slot => *self.random.pick(&[1, far]),
            Field::Name => *self.random.pick(&[names.wrapping_sub(1), names, names + 1, far]),
            Field::Any => far,
            Field::Between(low, high) => {
                *self.random.pick(&[low.wrapping_sub(1), low, high, high + 1, high.wrapping_add(far)])
            }
        }
    }

    fn word(&self, place: usize) -> u32 {
        u32::from_le_bytes(self.bytes[place..place + 4].try_into().unwrap())
    }

    fn set_word(&mut self, place: usize, value: u32) {
        self.bytes[place..place + 4].copy_from_slice(&value.to_le_bytes());
    }

    fn some_record(&mut self) -> Flat {
        self.random.pick(&self.records).clone()
    }

    fn some_bytes(&mut self, most: usize) -> Vec<u8> {
        let count = self.random.between(1, most);
        (0..count).map(|_| if self.random.chance(50) { 0 } else { self.random.draw() as u8 }).collect()
    }

    /// Puts bytes in the place of others and mends the lengths of the records that hold them.
    fn splice(&mut self, holders: &[usize], place: usize, removed: usize, new: &[u8]) {
        self.bytes.splice(place..place + removed, new.iter().copied());
        for &holder in holders {
            let length = self.word(holder).wrapping_add(new.len() as u32).wrapping_sub(removed as u32);
            self.set_word(holder, length);
        }
    }

    fn once(&mut self) {
        if self.records.is_empty() || self.random.chance(2) {
            return self.blindly();
        }
        let record = self.some_record();
        let end = record.place + record.length;
        let within = [&record.holders[..], &[record.place]].concat();
        match self.random.below(20) {
            0 => {
                let length = self.random.below(self.bytes.len() + 1);
                self.bytes.truncate(length);
            }
            1 => self.bytes.truncate(record.place),
            2 => {
                let place = self.random.between(record.place + 4, end);
                self.splice(&within, place, end - place, &[]);
            }
            3 => {
                let more = self.some_bytes(20);
                self.bytes.extend(more);
            }
            4 => {
                let change = *self.random.pick(&[1, u32::MAX, 4, 4u32.wrapping_neg(), 16, 0x8000_0000, 20]);
                self.set_word(record.place, self.word(record.place).wrapping_add(change));
            }
            5 | 6 => self.change_kind(&record),
            7..=9 => self.change_field(&record),
            10 => {
                let place = self.random.below(self.bytes.len() + 1);
                let new = self.some_bytes(8);
                self.splice(&[], place, 0, &new);
            }
            11 | 12 => {
                let new = self.some_bytes(20);
                self.splice(&within, end, 0, &new);
            }
            13 => self.splice(&record.holders, record.place, record.length, &[]),
            14 => {
                let copy = self.bytes[record.place..end].to_vec();
                self.splice(&record.holders, end, 0, &copy);
            }
            15 => {
                let other = self.some_record();
                let copy = self.bytes[other.place..other.place + other.length].to_vec();
                self.splice(&record.holders, record.place, record.length, &copy);
            }
            16 => self.equal_names(),
            17 | 18 => self.deepen(),
            _ => self.resize(),
        }
    }

    /// Damage that looks at no record.
    fn blindly(&mut self) {
        match self.random.below(4) {
            0 => self.bytes.clear(),
            1 => {
                let length = self.random.below(33).min(self.bytes.len());
                self.bytes.truncate(length);
            }
            2 => self.bytes = self.some_bytes(60),
            _ => {
                for _ in 0..self.random.between(1, 4).min(self.bytes.len()) {
                    let place = self.random.below(self.bytes.len());
                    self.bytes[place] ^= 1 << self.random.below(8);
                }
            }
        }
    }

    fn change_kind(&mut self, record: &Flat) {
        let other = self.some_record().kind;
        let near = record.kind.wrapping_add(*self.random.pick(&[1, u16::MAX, 16, 256]));
        let random = self.random.below(90) as u16;
        let kind = *self.random.pick(&[other, near, random]);
        self.bytes[record.place + 4..record.place + 6].copy_from_slice(&kind.to_le_bytes());
    }

    /// Changes a field, or a part of the head that may have any value.
    fn change_field(&mut self, record: &Flat) {
        let field = self.random.below(record.fields + 1);
        if field == record.fields {
            let place = record.place + *self.random.pick(&[6, 8, 12]);
            self.bytes[place] ^= 1 << self.random.below(8);
            return;
        }
        let place = record.place + 16 + 4 * field;
        let old = self.word(place);
        let names = self.records.iter().filter(|record| record.kind == 3).count() as u32;
        let new = *self.random.pick(&[
            old.wrapping_add(1),
            old.wrapping_sub(1),
            names,
            1,
            2,
            37,
            9,
            65_535,
            1 << 24,
            u32::MAX,
        ]);
        self.set_word(place, new);
    }

    fn equal_names(&mut self) {
        let names: Vec<Flat> = self.records.iter().filter(|record| record.kind == 3).cloned().collect();
        if names.len() < 2 {
            return self.blindly();
        }
        let from = self.random.below(names.len() - 1);
        let to = self.random.between(from + 1, names.len() - 1);
        let (from, to) = (&names[from], &names[to]);
        let copy = self.bytes[from.place + 16..from.place + from.length].to_vec();
        let holders = [&to.holders[..], &[to.place]].concat();
        self.splice(&holders, to.place + 16, to.length - 16, &copy);
    }

    /// Wraps an expression or a type until something stands at depth 64, 65 or 66, and perhaps spoils the innermost record.
    fn deepen(&mut self) {
        let nested: Vec<Flat> =
            self.records.iter().filter(|record| matches!(record.kind, 16..=20 | 32..=47)).cloned().collect();
        if nested.is_empty() {
            return self.blindly();
        }
        let record = self.random.pick(&nested).clone();
        let end = record.place + record.length;
        let mut inner = self.bytes[record.place..end].to_vec();
        match self.random.below(8) {
            0 => inner.clear(),
            1 => inner = self.some_bytes(15),
            2 => {
                inner.truncate(16 + 4 * record.fields);
                let length = inner.len() as u32;
                inner[..4].copy_from_slice(&length.to_le_bytes());
            }
            3 => {
                inner.extend(self.some_bytes(18));
                let length = inner.len() as u32;
                inner[..4].copy_from_slice(&length.to_le_bytes());
            }
            _ => {}
        }
        let kind: u16 = if record.kind < 32 { 18 } else { *self.random.pick(&[39, 40, 42, 43, 36]) };
        let depth = record.holders.len() + 1;
        let wanted = MOST_DEPTH + self.random.below(3);
        for _ in depth..wanted {
            let mut wrapped = (inner.len() as u32 + 20).to_le_bytes().to_vec();
            wrapped.extend(kind.to_le_bytes());
            wrapped.extend([0; 14]);
            wrapped.append(&mut inner);
            inner = wrapped;
        }
        self.splice(&record.holders, record.place, record.length, &inner);
    }

    /// Brings the file to 65,535 to 65,537 bytes, within the module or after it.
    fn resize(&mut self) {
        let wanted = MOST_BYTES - 1 + self.random.below(3);
        if self.bytes.len() + 16 > wanted {
            return self.blindly();
        }
        let count = wanted - self.bytes.len();
        let mut item = (count as u32).to_le_bytes().to_vec();
        item.extend(84u16.to_le_bytes());
        item.resize(count, 0);
        let end = self.bytes.len();
        let holders: &[usize] = if self.random.chance(80) { &[0] } else { &[] };
        self.splice(holders, end, 0, &item);
    }
}
