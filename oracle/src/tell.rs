//! What `delta_null_messages` has to answer (document 02, paper 1): the tests in their order, the text, and the working words.

use std::collections::HashMap;

use crate::{
    answer::{ERROR_KINDS, ERROR_WIDTH},
    buffers,
    display::Texts,
    layout::{self, Module, Record, Refusal},
    messages::{self, KIND, OPERATORS, Piece, Sort},
    product::FILL,
    rows::{ROW_WIDTH, Rows},
};

/// What is asked: the messages of errors of a module over some rows, with so much lent.
#[derive(Clone, Debug, PartialEq, Eq)]
pub struct Question {
    pub module: Vec<u8>,
    pub rows: Vec<u32>,
    pub row_count: u32,
    pub errors: Vec<u32>,
    pub error_count: usize,
    /// What is printed for String.
    pub built_in: Vec<u8>,
    /// Working words lent.
    pub work: usize,
    /// Bytes lent for the text.
    pub text: usize,
}

/// What is told: 0, the length and 0, or the number of the refusal, 0 and its place; and what is left in what was lent.
#[derive(Clone, Debug, PartialEq, Eq)]
pub struct Told {
    pub number: u32,
    pub length: usize,
    pub place: usize,
    pub work: Vec<u32>,
    pub text: Vec<u8>,
}

/// The most bytes of a text. A longer one is counted as of one more.
pub const LONGEST: u64 = 1_048_576;

/// What all our callers lend as the text for String.
pub const STRING: &[u8] = b"String";

/// The names of built-in types.
pub const BUILT_INS: [&[u8]; 4] = [b"u16", b"i16", b"bool", STRING];

/// What messages read: the names and literals of a module, and rows that keep the rules.
struct Source<'a> {
    texts: Texts<'a>,
    lengths: Vec<u64>,
    literals: HashMap<u32, &'a [u8]>,
}

/// The digits of the literals in a record, by the places of their records.
fn add_literals<'a>(record: &'a Record, into: &mut HashMap<u32, &'a [u8]>) {
    if record.kind == layout::LITERAL {
        into.insert(record.place as u32, &record.bytes);
    }
    record.children.iter().for_each(|child| add_literals(child, into));
}

/// The digits of the literals of a module, by the places of their records.
pub fn literals(module: &Module) -> HashMap<u32, &[u8]> {
    let mut all = HashMap::new();
    module.items.iter().for_each(|item| add_literals(item, &mut all));
    all
}

impl<'a> Source<'a> {
    fn new(module: &'a Module, rows: &'a Rows, built_in: &'a [u8]) -> Self {
        let texts = Texts { rows, names: &module.names, built_in };
        Source { lengths: texts.lengths(), texts, literals: literals(module) }
    }

    fn is_name(&self, word: u32) -> bool {
        (word as usize) < self.texts.names.len()
    }

    /// Whether what a piece prints exists.
    fn exists(&self, piece: Piece, words: &[u32]) -> bool {
        let word = words[piece.word];
        match piece.sort {
            Sort::Name => self.is_name(word),
            Sort::Type => is_type(self.texts.rows, word),
            Sort::Number => true,
            Sort::Operator => (1..=OPERATORS.len() as u32).contains(&word),
            Sort::BuiltIn => self.is_name(word) && BUILT_INS.contains(&self.texts.name(word)),
            Sort::Literal => self.literals.contains_key(&word),
        }
    }

    /// Whether an error is one of the table, and what its message reads exists.
    fn is_readable(&self, words: &[u32]) -> bool {
        let kind = words[KIND];
        (1..=ERROR_KINDS).contains(&kind) && messages::pieces(kind).iter().all(|&piece| self.exists(piece, words))
    }

    /// The length of what a piece prints.
    fn length(&self, piece: Piece, words: &[u32]) -> u64 {
        if piece.sort == Sort::Type {
            return self.lengths[words[piece.word] as usize - 1];
        }
        let mut text = vec![];
        self.put(piece, words, &mut text);
        text.len() as u64
    }

    /// Adds what a piece prints.
    fn put(&self, piece: Piece, words: &[u32], into: &mut Vec<u8>) {
        let word = words[piece.word];
        match piece.sort {
            Sort::Name => into.extend(self.texts.name(word)),
            Sort::Type => self.texts.put(word, into),
            Sort::Number => into.extend(word.to_string().as_bytes()),
            Sort::Operator => into.extend(OPERATORS[word as usize - 1].as_bytes()),
            Sort::BuiltIn => match self.texts.name(word) {
                STRING => into.extend(self.texts.built_in),
                name => into.extend(name),
            },
            Sort::Literal => into.extend(self.literals[&word]),
        }
    }

    /// The length of an error's line, its last byte included.
    fn line_length(&self, words: &[u32]) -> u64 {
        let around: u64 = messages::around(words[KIND]).map(|text| text.len() as u64).sum();
        let pieces = messages::pieces(words[KIND]);
        pieces.iter().map(|&piece| self.length(piece, words)).fold(around + 1, u64::saturating_add)
    }

    /// Puts the lengths of the rows' texts into working words.
    fn fill_lengths(&self, work: &mut [u32]) {
        for (word, &length) in work.iter_mut().zip(&self.lengths) {
            *word = length.min(LONGEST + 1) as u32;
        }
    }

    /// The length of the text of a question's errors, at most one more than the longest.
    fn needed(&self, question: &Question) -> u64 {
        let errors = question.counted_errors().expect("errors that are lent");
        let lengths = errors.chunks(ERROR_WIDTH).map(|words| self.line_length(words));
        lengths.fold(0, u64::saturating_add).min(LONGEST + 1)
    }

    /// The line of an error.
    fn line(&self, words: &[u32]) -> Vec<u8> {
        let mut line = vec![];
        let mut pieces = messages::pieces(words[KIND]).into_iter();
        for fixed in messages::around(words[KIND]) {
            line.extend(fixed.as_bytes());
            if let Some(piece) = pieces.next() {
                self.put(piece, words, &mut line);
            }
        }
        line.push(b'\n');
        line
    }
}

/// Whether a number is a type row's.
fn is_type(rows: &Rows, number: u32) -> bool {
    1 <= number && number as usize <= rows.count() && !rows.row(number).is_cell()
}

/// The lines of readable errors, given by their words.
pub fn lines(module: &Module, rows: &Rows, errors: &[[u32; ERROR_WIDTH]]) -> Vec<Vec<u8>> {
    let source = Source::new(module, rows, STRING);
    errors.iter().map(|words| source.line(words)).collect()
}

/// Test 8's refusal, and what stands for none.
const UNSOUND: Refusal = Refusal { number: 8, place: 0 };
const ACCEPTED: Refusal = Refusal { number: 0, place: 0 };

/// What has to be told, and of an accepted question each line with the kind of its error.
pub struct Due {
    pub told: Told,
    pub lines: Vec<(u32, Vec<u8>)>,
}

impl Question {
    /// Rows and errors as they are, the first of each counting; as much lent as is needed.
    pub fn new(module: &[u8], rows: &[u32], row_count: usize, errors: &[u32], error_count: usize) -> Self {
        let mut question = Question {
            module: module.to_vec(),
            rows: rows.to_vec(),
            row_count: row_count as u32,
            errors: errors.to_vec(),
            error_count,
            built_in: STRING.to_vec(),
            work: row_count,
            text: 0,
        };
        question.text = question.needed();
        question
    }

    /// How many bytes its text needs, at most one more than the longest; 0 if it is refused before.
    pub fn needed(&self) -> usize {
        self.read().map_or(0, |(module, rows)| Source::new(&module, &rows, &self.built_in).needed(self) as usize)
    }

    /// The words of the errors that count, if all of them are lent.
    fn counted_errors(&self) -> Option<&[u32]> {
        self.errors.get(..self.error_count.checked_mul(ERROR_WIDTH)?)
    }

    /// The rows that count, if all of them are lent, keep the rules and name nothing past the module's list.
    fn counted_rows(&self, module: &Module) -> Option<Rows> {
        let words = self.rows.get(..usize::try_from(self.row_count).ok()?.checked_mul(ROW_WIDTH)?)?;
        let rows = buffers::rows(words)?;
        let fixed = Rows::new().count() as u32;
        let named = (fixed + 1..=self.row_count).map(|number| rows.row(number)).filter(|row| row.has_name());
        named.into_iter().all(|row| (row.name as usize) < module.names.len()).then_some(rows)
    }

    /// What is told if nothing is written but the number and the place.
    fn untouched(&self, refusal: Refusal) -> Told {
        let Refusal { number, place } = refusal;
        Told { number, length: 0, place, work: vec![FILL; self.work], text: vec![FILL as u8; self.text] }
    }

    /// The module and the rows, or why tests 1 to 4 and then 8 turn them back.
    fn read(&self) -> Result<(Module, Rows), Refusal> {
        let module = layout::read(&self.module)?;
        let rows = self.counted_rows(&module).ok_or(UNSOUND)?;
        let errors = self.counted_errors().ok_or(UNSOUND)?;
        let source = Source::new(&module, &rows, &self.built_in);
        if errors.chunks(ERROR_WIDTH).all(|words| source.is_readable(words)) {
            Ok((module, rows))
        } else {
            Err(UNSOUND)
        }
    }

    /// What has to be told: after those tests 5, then 9.
    pub fn due(&self) -> Due {
        let refused = |refusal| Due { told: self.untouched(refusal), lines: vec![] };
        let (module, rows) = match self.read() {
            Err(refusal) => return refused(refusal),
            Ok(read) => read,
        };
        if self.work < rows.count() {
            return refused(Refusal { number: 5, place: 0 });
        }
        let source = Source::new(&module, &rows, &self.built_in);
        let needed = source.needed(self);
        let is_long = needed > LONGEST || needed > self.text as u64;
        let refusal = if is_long { Refusal { number: 9, place: needed as usize } } else { ACCEPTED };
        let mut due = refused(refusal);
        source.fill_lengths(&mut due.told.work);
        if !is_long {
            let errors = self.counted_errors().unwrap();
            due.lines = errors.chunks(ERROR_WIDTH).map(|words| (words[KIND], source.line(words))).collect();
            let text: Vec<u8> = due.lines.iter().flat_map(|line| &line.1).copied().collect();
            assert_eq!(text.len() as u64, needed, "as long as was counted");
            due.told.length = text.len();
            due.told.text[..text.len()].copy_from_slice(&text);
        }
        due
    }
}

/// What differs between what has to be told and what is.
pub fn difference(due: &Told, said: &Told) -> Option<String> {
    let head = |told: &Told| (told.number, told.length, told.place);
    if head(due) != head(said) {
        let text = |told: &Told| format!("number {} length {} place {}", told.number, told.length, told.place);
        return Some(format!("oracle {}; product {}", text(due), text(said)));
    }
    if let Some(i) = (0..due.text.len()).find(|&i| due.text[i] != said.text[i]) {
        let line = |text: &[u8]| {
            let start = text[..i].iter().rposition(|&byte| byte == b'\n').map_or(0, |end| end + 1);
            let end = text[i..].iter().position(|&byte| byte == b'\n').map_or(text.len(), |end| i + end);
            String::from_utf8_lossy(&text[start..end.min(start + 300)]).into_owned()
        };
        return Some(format!("byte {i} of the text: oracle {:?}; product {:?}", line(&due.text), line(&said.text)));
    }
    let i = (0..due.work.len()).find(|&i| due.work[i] != said.work[i])?;
    Some(format!("working word {i}: oracle {}; product {}", due.work[i], said.work[i]))
}
