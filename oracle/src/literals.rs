//! The cases of the program `literal_cases`: literals in every base, and what `u16::from_str_radix` of the standard library
//! says of each.
//!
//! The program first reads every text of one byte in every base up to 38, and prints a line for each base: the base, and
//! `BYTE=VALUE` for each byte that has a value. Then each line `BASE TEXT` of its standard input is a case, which it answers
//! with the value, with `invalid` or, if the line has not this form, with `not a case`.

use std::{collections::HashSet, str};

use crate::tree::Random;

/// What the program is given, what it has to print, and how many lines it is given.
#[derive(Default)]
pub struct Cases {
    pub input: Vec<u8>,
    pub output: String,
    pub count: usize,
}

const SEED: u64 = 20_261_116;

/// The last base in which each byte is read.
const LAST_BASE: u32 = 38;

/// How many texts are drawn for each base.
const DRAWN: usize = 10;

/// Bases that there are not. The Rust panics on them.
const OTHER_BASES: [u32; 6] = [0, 1, 37, 38, 256, u32::MAX];

/// Texts that are tried in every base.
const TEXTS: [&str; 14] = ["", "0", "00", "+0", "+", "-0", "-1", "++1", "1+", " 1", "1 ", "1_0", "0x1", "\u{ff11}"];

/// Bytes beside the digits and the letters, and bytes that are no text by themselves.
const BESIDE: [u8; 8] = [b'/', b':', b'@', b'[', b'`', b'{', 128, 255];

/// What stands in a drawn text in place of a digit.
const NEAR: &[u8] = b"/:@[`{+-_ .";

/// Lines that have not the form of a case. The last base does not fit 32 bits.
const NO_CASES: [&str; 8] = ["", " ", "10", "10\t1", " 10 1", "x 1", "1x 1", "4294967296 1"];

/// The value of a text. Where the Rust panics on the base there is none, nor where the text is no UTF-8, of which the Rust
/// cannot be asked.
fn value(base: u32, text: &[u8]) -> Option<u16> {
    if !(2..=36).contains(&base) {
        return None;
    }
    u16::from_str_radix(str::from_utf8(text).ok()?, base).ok()
}

/// The digit of this worth, a small letter from 10 on. What follows `z` follows it here too.
fn digit(worth: u32) -> u8 {
    if worth < 10 { b'0' + worth as u8 } else { b'a' + (worth - 10) as u8 }
}

/// The same with a capital letter.
fn capital(worth: u32) -> u8 {
    if worth < 10 { b'0' + worth as u8 } else { b'A' + (worth - 10) as u8 }
}

/// A number in a base.
fn spelled(number: u32, base: u32, digit: fn(u32) -> u8) -> Vec<u8> {
    let mut text = if number < base { vec![] } else { spelled(number / base, base, digit) };
    text.push(digit(number % base));
    text
}

/// Around the largest value: as it is, with a sign, with zeros before it.
fn largest_values(base: u32) -> Vec<Vec<u8>> {
    let mut texts = vec![];
    for number in [65_535, 65_536] {
        let text = spelled(number, base, digit);
        texts.push([&b"+"[..], &text].concat());
        texts.push([&[b'0'; 40], &text[..]].concat());
        texts.push(text);
        texts.push(spelled(number, base, capital));
    }
    texts
}

/// The largest digit and the next one, which is none, alone and behind others; 300 digits.
fn digits(base: u32) -> Vec<Vec<u8>> {
    let mut texts = vec![];
    for worth in [base - 1, base] {
        for last in [digit(worth), capital(worth)] {
            texts.push(vec![last]);
            texts.push(vec![b'1', b'0', last]);
        }
    }
    texts.push([&[b'0'; 299], &[digit(base - 1)][..]].concat());
    texts.push((0..300).map(|i| digit((i + 1) % base)).collect());
    texts
}

/// A byte that is no digit, before and behind one.
fn beside() -> Vec<Vec<u8>> {
    BESIDE.iter().flat_map(|&byte| [vec![b'1', byte], vec![byte, b'1']]).collect()
}

/// About as many digits as the largest value has, now and then a sign before them or another byte among them.
fn drawn(random: &mut Random, base: u32) -> Vec<u8> {
    let most = spelled(65_535, base, digit).len();
    let mut text = if random.chance(20) { vec![b'+'] } else { vec![] };
    for _ in 0..random.between(1, most + 1) {
        let worth = random.below(base as usize) as u32;
        text.push(match random.below(25) {
            0 => *random.pick(NEAR),
            1 => digit(base),
            n if n % 2 == 0 => digit(worth),
            _ => capital(worth),
        });
    }
    text
}

/// The texts for a base, each once.
fn texts(random: &mut Random, base: u32) -> Vec<Vec<u8>> {
    let mut all: Vec<Vec<u8>> = TEXTS.iter().map(|text| text.as_bytes().to_vec()).collect();
    all.extend(beside());
    all.extend(largest_values(base));
    all.extend(digits(base));
    all.extend((0..DRAWN).map(|_| drawn(random, base)));
    let mut seen = HashSet::new();
    all.retain(|text| seen.insert(text.clone()));
    all
}

impl Cases {
    /// The line of a base: its digits.
    fn put_base(&mut self, base: u32) {
        self.output += &base.to_string();
        for byte in 0..=255 {
            if let Some(value) = value(base, &[byte]) {
                self.output += &format!(" {byte}={value}");
            }
        }
        self.output += "\n";
    }

    fn put_line(&mut self, line: &[u8], answer: &str) {
        self.input.extend([line, b"\n"].concat());
        self.output += &format!("{answer}\n");
        self.count += 1;
    }

    fn put_case(&mut self, base: u32, text: &[u8]) {
        let answer = value(base, text).map_or("invalid".to_owned(), |value| value.to_string());
        self.put_line(&[format!("{base} ").as_bytes(), text].concat(), &answer);
    }
}

pub fn cases() -> Cases {
    let mut cases = Cases::default();
    (0..=LAST_BASE).for_each(|base| cases.put_base(base));
    let mut random = Random::new(SEED);
    for base in 2..=36 {
        texts(&mut random, base).iter().for_each(|text| cases.put_case(base, text));
    }
    for base in OTHER_BASES {
        ["", "0", "1", "+1", "10"].iter().for_each(|text| cases.put_case(base, text.as_bytes()));
    }
    NO_CASES.iter().for_each(|line| cases.put_line(line.as_bytes(), "not a case"));
    cases
}

#[cfg(test)]
mod tests {
    use super::*;

    #[test]
    fn a_line_for_each_base_and_case() {
        let Cases { input, output, count } = cases();
        assert_eq!(input.iter().filter(|&&byte| byte == b'\n').count(), count);
        assert_eq!(output.lines().count(), 1 + LAST_BASE as usize + count);
        assert_eq!(output.lines().nth(2), Some("2 48=0 49=1"));
    }
}
