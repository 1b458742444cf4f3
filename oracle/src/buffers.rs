//! Buffers that a checker filled, as an answer; and whether rows keep the rules.

use crate::{
    answer::{Answer, ERROR_WIDTH, Error, Operand},
    layout::{self, Place, Record},
    messages::row_operands,
    rows::{ROW_WIDTH, Row, Rows, STRING_NAME, kind},
};

/// The little-endian words of a file.
pub fn words(bytes: &[u8]) -> Result<Vec<u32>, String> {
    if !bytes.len().is_multiple_of(4) {
        return Err("not a whole number of words".to_owned());
    }
    Ok(bytes.chunks(4).map(|word| u32::from_le_bytes(word.try_into().unwrap())).collect())
}

/// The rows of a table, if it keeps every rule for rows that test 8 covers, that for the fifth word included.
pub fn rows(words: &[u32]) -> Option<Rows> {
    rows_but_sizes(words).filter(|rows| rows.row_words() == words)
}

/// The rows of a table, if it keeps every rule for the first four words of its rows.
fn rows_but_sizes(words: &[u32]) -> Option<Rows> {
    let fixed = Rows::new();
    let mut rows = Rows::new();
    if !words.len().is_multiple_of(ROW_WIDTH) || words.len() < ROW_WIDTH * fixed.count() {
        return None;
    }
    for (i, words) in words.chunks(ROW_WIDTH).enumerate() {
        let number = i as u32 + 1;
        let row = Row { kind: words[0], first: words[1], second: words[2], name: words[3] };
        if i < fixed.count() {
            if row != fixed.row(number) {
                return None;
            }
        } else if !is_sound(&rows, row) || rows.put(row.kind, row.first, row.second, row.name) != number {
            return None;
        }
    }
    Some(rows)
}

/// Whether a row may follow those there: parts of the right sort, unused words 0, the name of row 7 not used.
fn is_sound(rows: &Rows, row: Row) -> bool {
    let there = |number: u32| 1 <= number && number as usize <= rows.count();
    let ty = |number: u32| there(number) && !rows.row(number).is_cell();
    let cells = |number: u32, kind: u32| number == 0 || there(number) && rows.row(number).kind == kind;
    match row.kind {
        kind::POINTER => ty(row.first) && row.second == 0 && row.name == 0,
        kind::ARRAY => ty(row.first) && row.name == 0,
        kind::STRUCT => cells(row.first, kind::FIELD) && row.second == 0 && row.name == 0,
        kind::FUNCTION | kind::ARGUMENT => ty(row.first) && cells(row.second, kind::ARGUMENT) && row.name == 0,
        kind::ALIAS | kind::DISTINCT => ty(row.first) && row.second == 0 && row.name != STRING_NAME,
        kind::FIELD => ty(row.first) && cells(row.second, kind::FIELD) && row.name != STRING_NAME,
        _ => false,
    }
}

/// What a checker said that was given `input` and left `output`, row words and error words in use.
pub fn answer(input: &[u8], output: &[u8], row_words: &[u32], error_words: &[u32]) -> Result<Answer, String> {
    let module = layout::read(input).map_err(|refusal| format!("the input is turned back: {refusal:?}"))?;
    let rows = rows_but_sizes(row_words).ok_or("the rows break a rule")?;
    if let Some(place) = rows.row_words().iter().zip(row_words).position(|(a, b)| a != b) {
        return Err(format!("row {} has the fifth word {}", place / ROW_WIDTH + 1, row_words[place]));
    }
    let ty = |number: u32| match number {
        n if n == 0 || n as usize > rows.count() || rows.row(n).is_cell() => Err(format!("no type row: {n}")),
        n => Ok(n),
    };
    let mut places = vec![];
    module.items.iter().for_each(|item| slots(item, &mut places));
    if output.len() < input.len() {
        return Err("the output is shorter than the input".to_owned());
    }
    let mut cleared = output[..input.len()].to_vec();
    let mut filled = vec![];
    for place in places {
        let word = &mut cleared[place..place + 4];
        filled.push((place, ty(u32::from_le_bytes((&*word).try_into().unwrap()))?));
        word.fill(0);
    }
    if let Some(place) = cleared.iter().zip(input).position(|(a, b)| a != b) {
        return Err(format!("the output differs outside the slots, at {place}"));
    }
    if !error_words.len().is_multiple_of(ERROR_WIDTH) {
        return Err("not a whole number of errors".to_owned());
    }
    let mut errors = vec![];
    for words in error_words.chunks(ERROR_WIDTH) {
        let at = Place { file: u16::try_from(words[1]).map_err(|e| e.to_string())?, line: words[2], column: words[3] };
        let mut operands = [Operand::Number(0); 3];
        for (i, is_row) in row_operands(words[0]).into_iter().enumerate() {
            let word = words[4 + i];
            operands[i] = if is_row { Operand::Row(ty(word)?) } else { Operand::Number(word) };
        }
        errors.push(Error { kind: words[0], at, operands, place: words[7] });
    }
    Ok(Answer { rows, slots: filled, errors })
}

/// The places of the slots in a record.
fn slots(record: &Record, into: &mut Vec<usize>) {
    if matches!(record.kind, 16..=20 | 32..=47) {
        into.push(record.slot());
    }
    record.children.iter().for_each(|child| slots(child, into));
}
