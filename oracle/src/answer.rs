//! What a checker says of a module, and its canonical text.

use crate::{
    layout::{Place, Refusal},
    rows::{Rows, kind},
};

/// How many words an error has.
pub const ERROR_WIDTH: usize = 8;

/// How many kinds of errors there are; they are numbered from 1.
pub const ERROR_KINDS: u32 = 29;

/// The kind of the errors that literals are.
pub const LITERAL_ERROR: u32 = 23;

/// One error: kind, place in the source text, three operands, place in the file.
#[derive(Clone, Copy, Debug, PartialEq, Eq)]
pub struct Error {
    pub kind: u32,
    pub at: Place,
    pub operands: [Operand; 3],
    /// The first byte of the literal's record, from the start of the file; 0 of the other kinds (document 02, paper 1).
    pub place: u32,
}

/// An operand of an error.
#[derive(Clone, Copy, Debug, PartialEq, Eq)]
pub enum Operand {
    /// A name, a count, a position or an operator; 0 where there is no operand.
    Number(u32),
    /// A type row.
    Row(u32),
}

/// What is said of an accepted module: its rows, the row of each slot by the slot's place, and the errors in order.
#[derive(Clone, Debug, Default)]
pub struct Answer {
    pub rows: Rows,
    pub slots: Vec<(usize, u32)>,
    pub errors: Vec<Error>,
}

/// A type longer than this, written out, is written as a digest.
const LONGEST: usize = 1_000;

/// The texts of all rows, by row number less 1.
pub fn texts(rows: &Rows) -> Vec<String> {
    let mut texts: Vec<String> = vec![];
    for number in 1..=rows.count() as u32 {
        let row = rows.row(number);
        let of = |part: u32| if part == 0 { "0".to_owned() } else { texts[part as usize - 1].clone() };
        let text = match row.kind {
            kind::POINTER | kind::STRUCT => format!("({} {})", row.kind, of(row.first)),
            kind::ARRAY => format!("(7 {} {})", of(row.first), row.second),
            kind::FUNCTION | kind::ARGUMENT => format!("({} {} {})", row.kind, of(row.first), of(row.second)),
            kind::ALIAS | kind::DISTINCT => format!("({} {} {})", row.kind, of(row.first), row.name),
            kind::FIELD => format!("(12 {} {} {})", of(row.first), of(row.second), row.name),
            plain => format!("({plain})"),
        };
        texts.push(if text.len() > LONGEST { digest(&text) } else { text });
    }
    texts
}

/// `#` and two 64-bit FNV-1a sums of a text, the second from another start.
fn digest(text: &str) -> String {
    let sum = |start: u64| text.bytes().fold(start, |sum, byte| (sum ^ u64::from(byte)).wrapping_mul(0x0100_0000_01b3));
    format!("#{:016x}{:016x}", sum(0xcbf2_9ce4_8422_2325), sum(0x6c62_272e_07bb_0142))
}

impl Answer {
    /// The canonical text: counts, type rows sorted, slots in byte order, errors in order.
    pub fn text(&self) -> String {
        let texts = texts(&self.rows);
        let of = |number: u32| &texts[number as usize - 1];
        let mut lines = vec![self.counts()];
        let mut types: Vec<&String> = texts.iter().collect();
        types.sort();
        lines.extend(types.iter().map(|text| format!("type {text}")));
        let mut slots = self.slots.clone();
        slots.sort();
        lines.extend(slots.iter().map(|&(place, row)| format!("slot {place} {}", of(row))));
        for error in &self.errors {
            let mut line = format!("error {}", error.place_text());
            for operand in error.operands {
                line += " ";
                match operand {
                    Operand::Number(number) => line += &number.to_string(),
                    Operand::Row(row) => line += of(row),
                }
            }
            lines.push(format!("{line} {}", error.place));
        }
        lines.join("\n") + "\n"
    }

    /// What the report program prints when it lends so many rows and errors.
    pub fn report(&self, rows: usize, errors: usize) -> String {
        if self.rows.count() > rows {
            return refusal_text(Refusal { number: 6, place: 0 });
        }
        if self.errors.len() > errors {
            return refusal_text(Refusal { number: 7, place: 0 });
        }
        let mut text = self.counts() + "\n";
        for error in &self.errors {
            text += &(error.place_text() + "\n");
        }
        text
    }

    fn counts(&self) -> String {
        format!("rows {} errors {}", self.rows.count(), self.errors.len())
    }
}

impl Error {
    /// The error's words.
    pub fn words(&self) -> [u32; ERROR_WIDTH] {
        let [a, b, c] = self.operands.map(|operand| match operand {
            Operand::Number(word) | Operand::Row(word) => word,
        });
        [self.kind, u32::from(self.at.file), self.at.line, self.at.column, a, b, c, self.place]
    }

    fn place_text(&self) -> String {
        format!("{} {} {} {}", self.kind, self.at.file, self.at.line, self.at.column)
    }
}

/// The text for a module that is turned back.
pub fn refusal_text(refusal: Refusal) -> String {
    format!("refused {} at {}\n", refusal.number, refusal.place)
}
