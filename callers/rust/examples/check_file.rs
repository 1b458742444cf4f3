//! Checks a module file and prints as the report program does: the counts, then kind, file, line and column of each error; turned back,
//! the number and the place. Then the errors as messages, a line each. Last come two answers about rows, which any table has: what the
//! other three functions say of them.
use std::env;
use std::error::Error;
use std::fs;
use std::io::{self, Write};
use std::process::ExitCode;

use delta_null_type_check::{ERROR_WORDS, LONGEST_TEXT, ROW_WORDS, Refused, WordSize};
use delta_null_type_check::{assignable, castable, messages, type_check_module, word_size};

const ROWS: usize = 3000;
const ERRORS: usize = 2000;
const WORK_WORDS: usize = 16376;

/// Rows that every table begins with.
const VOID: u32 = 2;
const U16: u32 = 4;
const I16: u32 = 5;

fn check(input: &[u8]) -> Result<(), Refused> {
    let mut output = vec![0; input.len()];
    let mut rows = vec![0; ROW_WORDS * ROWS];
    let mut errors = vec![0; ERROR_WORDS * ERRORS];
    let mut work = vec![0; WORK_WORDS];
    let counts = type_check_module(input, &mut output, &mut rows, &mut errors, &mut work)?;
    println!("rows {} errors {}", counts.rows, counts.errors);
    for e in errors.chunks_exact(ERROR_WORDS).take(counts.errors) {
        println!("{} {} {} {}", e[0], e[1], e[2], e[3]);
    }
    let mut text = vec![0; LONGEST_TEXT];
    let length = messages(input, &rows, &errors, counts, b"String", &mut work, &mut text)?;
    // Names may be any bytes.
    io::stdout().write_all(&text[..length]).expect("standard output takes them");
    let assignable = assignable(&rows, counts.rows, U16, I16)?;
    let cast = castable(&rows, counts.rows, I16, U16)?;
    let words = match word_size(&rows, counts.rows, VOID)? {
        WordSize::Words(words) => words.to_string(),
        WordSize::TooLarge => "too large".to_string(),
        WordSize::Unknown => "unknown".to_string(),
    };
    let (assignable, castable) = (assignable as u32, cast.castable as u32);
    println!("i16 to u16: assignable {assignable} castable {castable} pairs {}; void: words {words}", cast.pairs);
    Ok(())
}

fn main() -> Result<ExitCode, Box<dyn Error>> {
    let path = env::args().nth(1).ok_or("usage: check_file FILE")?;
    match check(&fs::read(path)?) {
        Ok(()) => Ok(ExitCode::SUCCESS),
        Err(refused) => {
            println!("{refused}");
            Ok(ExitCode::FAILURE)
        }
    }
}
