//! Tests 1 to 4 of document 01, with document 02's paper 12, over the bytes of a module file, and the tree of records of a file that
//! passes them.

/// The most bytes a module file may have.
pub const MOST_BYTES: usize = 65_536;
/// The deepest level a record may stand at, the module being 1.
pub const MOST_DEPTH: usize = 64;
/// The bytes of a record before its fields.
pub const HEAD: usize = 16;
/// The kind of the records of integer literals.
pub const LITERAL: u16 = 33;

/// Why a module is turned back: the number of document 01's table and the place returned with it.
#[derive(Clone, Copy, Debug, PartialEq, Eq)]
pub struct Refusal {
    pub number: u32,
    pub place: usize,
}

/// A record of a module file that passed the tests.
#[derive(Clone, Debug)]
pub struct Record {
    /// Place of its first byte in the file.
    pub place: usize,
    pub length: usize,
    pub kind: u16,
    pub at: Place,
    pub fields: Vec<u32>,
    pub children: Vec<Record>,
    /// The free bytes of a kind that has them.
    pub bytes: Vec<u8>,
}

/// Where a record stands in the source text.
#[derive(Clone, Copy, Debug, Default, PartialEq, Eq)]
pub struct Place {
    pub file: u16,
    pub line: u32,
    pub column: u32,
}

/// A module file that passed tests 1 to 4.
#[derive(Clone, Debug, Default)]
pub struct Module {
    pub names: Vec<Vec<u8>>,
    pub items: Vec<Record>,
    /// The record of names; a file of no bytes has none.
    pub list: Option<Record>,
}

impl Module {
    /// Where the items start.
    pub fn items_start(&self) -> usize {
        self.list.as_ref().map_or(0, |list| list.place + list.length)
    }
}

impl Record {
    /// Place of the slot of a type or expression record.
    pub fn slot(&self) -> usize {
        self.place + HEAD
    }
}

/// A set of record kinds that may stand at one place.
#[derive(Clone, Copy, Debug, PartialEq, Eq)]
pub enum Allowed {
    One(u16),
    Type,
    Expression,
    Statement,
    Compound,
    ExpressionOrCompound,
    ParameterOrStatement,
    Item,
}

impl Allowed {
    /// Whether a record of the kind is one of them.
    pub fn has(self, kind: u16) -> bool {
        match self {
            Allowed::One(only) => kind == only,
            Allowed::Type => (16..=20).contains(&kind),
            Allowed::Expression => (32..=47).contains(&kind),
            Allowed::Statement => (64..=74).contains(&kind),
            Allowed::Compound => kind == 48 || kind == 49,
            Allowed::ExpressionOrCompound => Allowed::Expression.has(kind) || Allowed::Compound.has(kind),
            Allowed::ParameterOrStatement => kind == 85 || Allowed::Statement.has(kind),
            Allowed::Item => (80..=84).contains(&kind),
        }
    }
}

/// What values a field takes.
#[derive(Clone, Copy, Debug, PartialEq, Eq)]
pub enum Field {
    Slot,
    Name,
    Any,
    Between(u32, u32),
}

/// What follows a record's fields.
#[derive(Clone, Copy, Debug, PartialEq, Eq)]
pub enum Rest {
    /// The listed records, all due.
    Records(&'static [Allowed]),
    /// The listed records, all due, then any number of the last.
    List(&'static [Allowed], Allowed),
    /// The listed records, all due, then perhaps the last.
    Perhaps(&'static [Allowed], Allowed),
    /// A returned type, parameters, then perhaps a statement.
    Function,
    Bytes,
}

/// The fields of a record of the kind and what follows them.
pub fn shape(kind: u16) -> (&'static [Field], Rest) {
    use Allowed::*;
    use Field::{Any, Between, Name, Slot};
    match kind {
        1 => (&[], Rest::List(&[One(2)], Item)),
        2 => (&[], Rest::List(&[], One(3))),
        3 | 74 | 82 | 84 => (&[], Rest::Bytes),
        16 | 32 => (&[Slot, Name], Rest::Records(&[])),
        17 => (&[Slot], Rest::Records(&[])),
        18 | 47 => (&[Slot], Rest::Records(&[Type])),
        19 => (&[Slot, Any], Rest::Records(&[Type])),
        20 => (&[Slot], Rest::List(&[], One(21))),
        21 | 85 => (&[Name], Rest::Records(&[Type])),
        33 => (&[Slot, Between(2, 36)], Rest::Bytes),
        34 => (&[Slot, Between(0, 1)], Rest::Records(&[])),
        35 => (&[Slot], Rest::Bytes),
        36 => (&[Slot], Rest::List(&[Expression], Expression)),
        37 | 44 => (&[Slot], Rest::Records(&[Expression, Expression])),
        38 => (&[Slot], Rest::Records(&[Expression, Type])),
        39 | 40 | 42 | 43 => (&[Slot], Rest::Records(&[Expression])),
        41 => (&[Slot, Name], Rest::Records(&[Expression])),
        45 => (&[Slot, Between(1, 8)], Rest::Records(&[Expression, Expression])),
        46 => (&[Slot, Between(1, 5)], Rest::Records(&[Expression, Expression])),
        48 => (&[], Rest::List(&[], Expression)),
        49 => (&[], Rest::List(&[], One(50))),
        50 => (&[Name], Rest::Records(&[Expression])),
        64 => (&[Between(0, 1)], Rest::List(&[], Statement)),
        65 => (&[], Rest::Records(&[Expression])),
        66 | 83 => (&[Name], Rest::Perhaps(&[Type], ExpressionOrCompound)),
        67 => (&[], Rest::Records(&[Expression, Expression])),
        68 => (&[], Rest::Records(&[Expression, Compound])),
        69 => (&[], Rest::Perhaps(&[], Expression)),
        70 => (&[], Rest::Records(&[Statement])),
        71 => (&[], Rest::Records(&[Expression, Statement])),
        72 => (&[], Rest::Records(&[])),
        73 => (&[], Rest::Perhaps(&[Expression, Statement], Statement)),
        80 => (&[Name], Rest::Function),
        81 => (&[Name, Between(0, 3)], Rest::Records(&[Type])),
        _ => unreachable!("no record of kind {kind} is allowed anywhere"),
    }
}

/// The walk over the bytes of one file.
struct Walk<'a> {
    bytes: &'a [u8],
    names: u32,
}

fn fault<T>(place: usize) -> Result<T, Refusal> {
    Err(Refusal { number: 2, place })
}

impl Walk<'_> {
    fn word(&self, place: usize) -> u32 {
        u32::from_le_bytes(self.bytes[place..place + 4].try_into().unwrap())
    }

    fn half(&self, place: usize) -> u16 {
        u16::from_le_bytes(self.bytes[place..place + 2].try_into().unwrap())
    }

    /// The record due at `place` in a holder that ends at `end`.
    fn record(&mut self, place: usize, end: usize, depth: usize, allowed: Allowed) -> Result<Record, Refusal> {
        if depth > MOST_DEPTH {
            return Err(Refusal { number: 3, place });
        }
        if end - place < HEAD {
            return fault(place);
        }
        let length = self.word(place) as usize;
        let kind = self.half(place + 4);
        if length > end - place || !allowed.has(kind) {
            return fault(place);
        }
        let (kinds, rest) = shape(kind);
        if length < HEAD + 4 * kinds.len() {
            return fault(place);
        }
        let at = Place { file: self.half(place + 6), line: self.word(place + 8), column: self.word(place + 12) };
        let fields = self.fields(place + HEAD, kinds)?;
        let mut record = Record { place, length, kind, at, fields, children: vec![], bytes: vec![] };
        self.rest(&mut record, place + HEAD + 4 * kinds.len(), depth + 1, rest)?;
        if kind == 3 {
            self.names += 1;
        }
        Ok(record)
    }

    fn fields(&self, place: usize, kinds: &[Field]) -> Result<Vec<u32>, Refusal> {
        let mut fields = vec![];
        for (i, kind) in kinds.iter().enumerate() {
            let value = self.word(place + 4 * i);
            let good = match *kind {
                Field::Slot => value == 0,
                Field::Name => value < self.names,
                Field::Any => true,
                Field::Between(low, high) => low <= value && value <= high,
            };
            if !good {
                return fault(place + 4 * i);
            }
            fields.push(value);
        }
        Ok(fields)
    }

    /// Reads what follows the fields of `record`, from `place` to the record's end.
    fn rest(&mut self, record: &mut Record, mut place: usize, depth: usize, rest: Rest) -> Result<(), Refusal> {
        let end = record.place + record.length;
        let due: &[Allowed] = match rest {
            Rest::Bytes => {
                record.bytes = self.bytes[place..end].to_vec();
                return Ok(());
            }
            Rest::Records(due) | Rest::List(due, _) | Rest::Perhaps(due, _) => due,
            Rest::Function => &[Allowed::Type],
        };
        for &allowed in due {
            place = self.child(record, place, end, depth, allowed)?;
        }
        match rest {
            Rest::List(_, allowed) => {
                while place < end {
                    place = self.child(record, place, end, depth, allowed)?;
                }
            }
            Rest::Perhaps(_, allowed) if place < end => place = self.child(record, place, end, depth, allowed)?,
            Rest::Function => {
                let has_body = |record: &Record| Allowed::Statement.has(record.children.last().unwrap().kind);
                while place < end && !has_body(record) {
                    place = self.child(record, place, end, depth, Allowed::ParameterOrStatement)?;
                }
            }
            _ => {}
        }
        if place < end { fault(place) } else { Ok(()) }
    }

    /// Adds one child record; the place after it.
    fn child(
        &mut self,
        to: &mut Record,
        place: usize,
        end: usize,
        depth: usize,
        allowed: Allowed,
    ) -> Result<usize, Refusal> {
        let child = self.record(place, end, depth, allowed)?;
        let after = place + child.length;
        to.children.push(child);
        Ok(after)
    }
}

/// Tests 1 to 4 over a file. A file of no bytes is the module without names and items (document 02, paper 12).
pub fn read(bytes: &[u8]) -> Result<Module, Refusal> {
    if bytes.is_empty() {
        return Ok(Module::default());
    }
    if bytes.len() > MOST_BYTES {
        return Err(Refusal { number: 1, place: 0 });
    }
    let mut walk = Walk { bytes, names: 0 };
    let module = walk.record(0, bytes.len(), 1, Allowed::One(1))?;
    if module.length < bytes.len() {
        return fault(module.length);
    }
    let mut children = module.children.into_iter();
    let list = children.next().unwrap();
    let mut seen = std::collections::HashSet::new();
    for name in &list.children {
        if !seen.insert(&name.bytes) {
            return Err(Refusal { number: 4, place: name.place });
        }
    }
    let names = list.children.iter().map(|name| name.bytes.clone()).collect();
    Ok(Module { names, items: children.collect(), list: Some(list) })
}
