//! The product's messages against the reference's own texts, and against what has to be told to changed questions.

use std::fmt::Write;

use super::Truth;
use crate::{
    answer::{ERROR_KINDS, ERROR_WIDTH},
    ask::{Base, lend},
    product::{Product, Said},
    rows::ROW_WIDTH,
    tell::{self, Due, Question, Told},
    tree::Random,
};

/// How many questions are drawn for each module.
const DRAWN: usize = 4;

/// A number for each kind of error, and for 0.
type ByKind = [usize; ERROR_KINDS as usize + 1];

/// What was compared.
#[derive(Clone, Copy, Debug, Default)]
pub struct Messages {
    /// Questions by the number told; 0: accepted.
    told: [usize; 10],
    /// Lines by the kind of the error, and those of them that were held to the reference's own text.
    lines: ByKind,
    spoken: ByKind,
    bytes: usize,
}

impl Messages {
    pub fn add(&mut self, other: &Messages) {
        let pairs = self.told.iter_mut().zip(&other.told);
        let lines = self.lines.iter_mut().zip(&other.lines);
        let spoken = self.spoken.iter_mut().zip(&other.spoken);
        pairs.chain(lines).chain(spoken).for_each(|(sum, more)| *sum += more);
        self.bytes += other.bytes;
    }

    fn count(&mut self, due: &Due) {
        self.told[due.told.number as usize] += 1;
        self.bytes += due.told.length;
        due.lines.iter().for_each(|line| self.lines[line.0 as usize] += 1);
    }

    pub fn text(&self) -> String {
        let [accepted, refused @ ..] = self.told;
        let numbers = |counts: &[usize], first: usize| {
            let all = counts.iter().enumerate().map(|(i, count)| format!("{}: {count}", i + first));
            all.collect::<Vec<_>>().join(", ")
        };
        let mut text = String::new();
        let asked: usize = self.told.iter().sum();
        let _ = writeln!(text, "messages asked {asked} times: accepted {accepted}, bytes of text {}", self.bytes);
        let _ = writeln!(text, "messages refused {}", numbers(&refused, 1));
        let sum = |counts: &ByKind| counts.iter().sum::<usize>();
        let _ = writeln!(text, "lines {} by kind: {}", sum(&self.lines), numbers(&self.lines[1..], 1));
        let _ = writeln!(text, "of these by the reference {}: {}", sum(&self.spoken), numbers(&self.spoken[1..], 1));
        text
    }
}

/// The words that count, some behind them or all that were lent.
fn lent(words: &[u32], used: usize, random: &mut Random) -> Vec<u32> {
    let end = if random.chance(20) { words.len() } else { (used + random.below(4)).min(words.len()) };
    words[..end].to_vec()
}

/// The question about what the product left of a module.
fn own_question(bytes: &[u8], said: &Said, random: &mut Random) -> Question {
    let [rows, errors] = said.values.map(|count| count as usize);
    let row_words = lent(&said.rows, ROW_WIDTH * rows, random);
    let error_words = lent(&said.errors, ERROR_WIDTH * errors, random);
    Question::new(bytes, &row_words, rows, &error_words, errors)
}

/// What of the text told for a module's own errors is not the reference's.
fn unlike_reference(messages: &[String], told: &Told) -> Option<String> {
    let mut rest = &told.text[..told.length];
    for (i, message) in messages.iter().enumerate() {
        match rest.strip_prefix(format!("{message}\n").as_bytes()) {
            Some(after) => rest = after,
            None => {
                let said = String::from_utf8_lossy(rest.split(|&byte| byte == b'\n').next().unwrap());
                return Some(format!("message {}: reference {message:?}, product {said:?}", i + 1));
            }
        }
    }
    (!rest.is_empty()).then(|| format!("{} bytes behind the messages", rest.len()))
}

/// What a question is, in few words.
fn told_of(question: &Question) -> String {
    let Question { row_count, errors, error_count, work, text, .. } = question;
    let used = errors.len().min(ERROR_WIDTH * (*error_count).min(4));
    format!("rows {row_count}, errors {error_count} {:?}, lent {work} words and {text} bytes", &errors[..used])
}

/// Compares on a module that was accepted as it should be, and on questions drawn from that.
pub fn compare(product: &mut Product, bytes: &[u8], truth: &Truth, said: &Said, seed: u64) -> Result<Messages, String> {
    let mut random = Random::new(seed);
    let own = own_question(bytes, said, &mut random);
    let (mut roomy, mut tight) = (own.clone(), own.clone());
    roomy.text += [0, 0, 7][random.below(3)];
    roomy.work += [0, 0, 3][random.below(3)];
    lend(&mut tight, &mut random);
    let mut questions = vec![roomy, tight];
    // The module with its slots filled is not the input.
    if random.chance(10) {
        questions.push(Question { module: said.output[..bytes.len()].to_vec(), ..own.clone() });
    }
    let base = Base::new(own).ok_or("rows that break a rule")?;
    questions.extend((0..DRAWN).map(|_| base.drawn(&mut random)));

    let told = product.told(&questions)?;
    let mut counts = Messages::default();
    for (question, said) in questions.iter().zip(&told) {
        let due = question.due();
        if let Some(why) = tell::difference(&due.told, said) {
            return Err(format!("messages of {}: {why}", told_of(question)));
        }
        counts.count(&due);
    }
    if let (Some(messages), 0) = (&truth.messages, told[0].number) {
        if let Some(why) = unlike_reference(messages, &told[0]) {
            return Err(why);
        }
        let (_, answer) = truth.outcome.as_ref().expect("an accepted module");
        answer.errors.iter().for_each(|error| counts.spoken[error.kind as usize] += 1);
    }
    Ok(counts)
}
