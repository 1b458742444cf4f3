//! The product's answers about rows, assignable, castable and the words of a type, against the reference and the rules: every
//! value and every refusal, on tables by the thousand, good ones and ones in which a rule is broken.

use std::{
    fmt::Write,
    fs,
    path::{Path, PathBuf},
};

use crate::{
    buffers,
    footprint::Footprint,
    pairs::Casts,
    product::{Product, Question, Reply},
    relate::{self, Related},
    rows::{Cast, ROW_WIDTH, TOO_LARGE, UNKNOWN_INSIDE},
    tables::{self, Breach, Table},
    tree::Random,
};

/// What is true of a table: none if the rows break a rule, or the count is past them.
struct Truth(Option<Related>);

/// The words of the rows that count, if they are all lent.
fn counted(table: &Table) -> Option<&[u32]> {
    let end = usize::try_from(ROW_WIDTH as u64 * u64::from(table.count)).ok()?;
    table.words.get(..end)
}

/// What the reference and the rules say of a table. Where both speak they must agree.
fn truth(table: &Table) -> Result<Truth, String> {
    let Some(rows) = counted(table).and_then(buffers::rows) else { return Ok(Truth(None)) };
    Ok(Truth(Some(relate::related(&rows)?)))
}

impl Truth {
    /// What has to be said to a question: 8 if the rows break a rule or a number is no type row.
    fn reply(&self, question: Question) -> Reply {
        let said = self.0.as_ref().and_then(|related| match question {
            Question::Assignable { target, source } => {
                let (assignable, _) = related.pair(related.place(target)?, related.place(source)?);
                Some((u32::from(assignable), 0))
            }
            Question::Castable { source, target } => {
                let (_, Cast { castable, pairs }) = related.pair(related.place(source)?, related.place(target)?);
                Some((u32::from(castable), pairs))
            }
            Question::WordSize { n } => {
                related.place(n)?;
                Some((related.words[n as usize - 1].word(), 0))
            }
        });
        match said {
            Some((value, pairs)) => Reply { number: 0, value, pairs },
            None => Reply { number: 8, value: 0, pairs: 0 },
        }
    }
}

/// Every pair of type rows and the words of each; then numbers that are no type rows.
fn questions_of(related: &Related, count: u32, random: &mut Random) -> Vec<Question> {
    let mut all = vec![];
    for &a in &related.types {
        for &b in &related.types {
            all.extend([Question::Assignable { target: a, source: b }, Question::Castable { source: a, target: b }]);
        }
        all.push(Question::WordSize { n: a });
    }
    let cells = (1..=count).filter(|&number| related.place(number).is_none());
    let none: Vec<u32> = cells.chain([0, count + 1, count + 2, 1 << 16, 1 << 31, u32::MAX]).collect();
    for &n in &none {
        let (one, other) = (*random.pick(&related.types), *random.pick(&none));
        for (a, b) in [(n, one), (one, n), (n, n), (n, other)] {
            all.extend([Question::Assignable { target: a, source: b }, Question::Castable { source: a, target: b }]);
        }
        all.push(Question::WordSize { n });
    }
    all
}

/// Some questions about a table that breaks a rule: good numbers and others.
fn questions_past(table: &Table, random: &mut Random) -> Vec<Question> {
    let mut all = vec![];
    let rows = table.count.min((table.words.len() / ROW_WIDTH) as u32 + 1);
    let numbers = [0, 1, 4, 5, 6, 7, rows, rows + 1, u32::MAX];
    for _ in 0..12 {
        let (a, b) = (*random.pick(&numbers), *random.pick(&numbers));
        all.extend([Question::Assignable { target: a, source: b }, Question::Castable { source: a, target: b }]);
        all.push(Question::WordSize { n: a });
    }
    all
}

/// The course of a comparison.
struct Compare<'a> {
    product: Product,
    folder: &'a Path,
    tables: [usize; 2],
    /// How often each breach was tried.
    breaches: Vec<usize>,
    /// Assignable, castable, words.
    questions: [usize; 3],
    /// Of assignable and castable: no, yes. Of words: a number, too large, unknown.
    answers: [[usize; 3]; 3],
    refused: usize,
    asked: [usize; 2],
    alone: [usize; 2],
    footprint: Footprint,
    casts: Casts,
    differences: usize,
}

/// The most differences that are made small and written.
const MOST_WRITTEN: usize = 20;

/// Which of the three functions a question is for.
fn function(question: Question) -> usize {
    match question {
        Question::Assignable { .. } => 0,
        Question::Castable { .. } => 1,
        Question::WordSize { .. } => 2,
    }
}

impl Compare<'_> {
    /// Asks the questions about a table and compares.
    fn one(&mut self, table: &Table, label: &str, seed: u64) {
        let mut random = Random::new(seed);
        let truth = match truth(table) {
            Ok(truth) => truth,
            Err(why) => return self.differ(table, None, label, &why),
        };
        let questions = match &truth.0 {
            Some(related) => questions_of(related, table.count, &mut random),
            None => questions_past(table, &mut random),
        };
        self.count_table(&truth);
        let replies = match self.product.replies(&table.words, table.count, &questions) {
            Ok(replies) => replies,
            Err(why) => return self.differ(table, None, label, &why),
        };
        let mut differs = None;
        for (&question, said) in questions.iter().zip(&replies) {
            let expected = truth.reply(question);
            self.count_reply(question, expected);
            if *said != expected && differs.is_none() {
                differs = Some((question, why(expected, *said)));
            }
        }
        if let Some((question, why)) = differs {
            self.differ(table, Some(question), label, &why);
        }
    }

    fn count_table(&mut self, truth: &Truth) {
        self.tables[usize::from(truth.0.is_none())] += 1;
        if let Some(related) = &truth.0 {
            self.footprint.add(related.footprint);
            self.casts.add(related.casts);
            let all = [related.types.len(), related.pairs.len()];
            for (i, all) in all.into_iter().enumerate() {
                self.asked[i] += related.asked[i];
                self.alone[i] += all - related.asked[i];
            }
        }
    }

    fn count_reply(&mut self, question: Question, expected: Reply) {
        let which = function(question);
        self.questions[which] += 1;
        self.refused += usize::from(expected.number == 8);
        if expected.number == 0 {
            let answer = match expected.value {
                value if which < 2 => value as usize,
                TOO_LARGE => 1,
                UNKNOWN_INSIDE => 2,
                _ => 0,
            };
            self.answers[which][answer] += 1;
        }
    }

    /// Says that the two differ, and writes a table as small as can be found on which they do, with the question.
    fn differ(&mut self, table: &Table, question: Option<Question>, label: &str, why: &str) {
        self.differences += 1;
        println!("{label}: {question:?}: {why}");
        if self.differences > MOST_WRITTEN {
            return;
        }
        let (mut table, mut question) = (table.clone(), question);
        if let Some(question) = &mut question {
            make_small(&mut self.product, &mut table, question);
        }
        let now = question.and_then(|question| difference(&mut self.product, &table, question));
        let text = table_text(&table, question, now.as_deref().unwrap_or(why));
        match self.write(&text) {
            Ok(file) => println!("  {} rows: {}", table.count, file.display()),
            Err(why) => println!("  {why}"),
        }
    }

    fn write(&self, text: &str) -> Result<PathBuf, String> {
        let file = self.folder.join(format!("relation-{:02}", self.differences));
        fs::create_dir_all(self.folder).and_then(|()| fs::write(&file, text)).map_err(|e| e.to_string())?;
        Ok(file)
    }

    fn text(&self, breaches: &[Breach]) -> String {
        let [good, broken] = self.tables;
        let mut text = format!("tables {}: good {good}, broken {broken}", good + broken);
        let _ = writeln!(text, ", by each of {} breaches of a rule", breaches.len());
        let never: Vec<&str> = breaches.iter().zip(&self.breaches).filter(|b| *b.1 == 0).map(|b| &*b.0.name).collect();
        let _ = writeln!(text, "breaches never met: {never:?}");
        let ([assignable, castable, words], [a, c, w]) = (self.questions, self.answers);
        let _ = writeln!(text, "assignable {assignable}: yes {}, no {}", a[1], a[0]);
        let _ = writeln!(text, "castable {castable}: yes {}, no {}", c[1], c[0]);
        text += &self.casts.text();
        let _ = writeln!(text, "words {words}: a number {}, too large {}, unknown {}", w[0], w[1], w[2]);
        let _ = writeln!(text, "refused with 8: {}", self.refused);
        let [types, pairs] = self.alone;
        let _ = writeln!(text, "the reference asked: types {}, pairs {}", self.asked[0], self.asked[1]);
        let _ = writeln!(text, "the model alone: types {types}, pairs {pairs}");
        let _ = write!(text, "of the reference's answers, by paper 5:\n{}", self.footprint.text());
        let _ = writeln!(text, "differences {}", self.differences);
        text
    }
}

/// In what two replies differ.
fn why(expected: Reply, said: Reply) -> String {
    let text = |reply: Reply| format!("{} with {}, pairs {}", reply.number, reply.value, reply.pairs);
    format!("oracle {}; product {}", text(expected), text(said))
}

/// What differs in the product's reply to one question.
fn difference(product: &mut Product, table: &Table, question: Question) -> Option<String> {
    let expected = match truth(table) {
        Ok(truth) => truth.reply(question),
        Err(why) => return Some(why),
    };
    match product.replies(&table.words, table.count, &[question]) {
        Ok(said) => (said[0] != expected).then(|| why(expected, said[0])),
        Err(why) => Some(why),
    }
}

/// Leaves words and rows out as long as the two differ.
fn make_small(product: &mut Product, table: &mut Table, question: &mut Question) {
    let mut tries = |smaller: (Table, Question), table: &mut Table, question: &mut Question| {
        if difference(product, &smaller.0, smaller.1).is_some() {
            (*table, *question) = smaller;
        }
    };
    if let Some(words) = counted(table).map(<[u32]>::to_vec) {
        tries((Table { words, count: table.count }, *question), table, question);
    }
    for number in (8..=(table.words.len() / ROW_WIDTH) as u32).rev() {
        tries((without(table, number), question_without(*question, number)), table, question);
    }
}

/// The table without a row, the later ones counted down.
fn without(table: &Table, number: u32) -> Table {
    let down = |part: u32| if part > number { part - 1 } else { part };
    let mut words = table.words.clone();
    words.drain(ROW_WIDTH * (number as usize - 1)..ROW_WIDTH * number as usize);
    for row in words.chunks_exact_mut(ROW_WIDTH) {
        let [first, second] = tables::parts_of(row[0]);
        row[1] = if first { down(row[1]) } else { row[1] };
        row[2] = if second { down(row[2]) } else { row[2] };
    }
    let fits = number <= table.count && ROW_WIDTH as u64 * (u64::from(table.count) - 1) <= table.words.len() as u64;
    Table { words, count: table.count - u32::from(fits) }
}

fn question_without(question: Question, number: u32) -> Question {
    let down = |n: u32| if n > number { n - 1 } else { n };
    match question {
        Question::Assignable { target, source } => Question::Assignable { target: down(target), source: down(source) },
        Question::Castable { source, target } => Question::Castable { source: down(source), target: down(target) },
        Question::WordSize { n } => Question::WordSize { n: down(n) },
    }
}

/// The question, what differs, and the rows.
fn table_text(table: &Table, question: Option<Question>, why: &str) -> String {
    let mut text = format!("{question:?}, count {}, words lent {}\n{why}\n", table.count, table.words.len());
    for (row, number) in table.words.chunks(ROW_WIDTH).zip(1..) {
        let words: Vec<String> = row.iter().map(u32::to_string).collect();
        let _ = writeln!(text, "row {number}: {}", words.join(" "));
    }
    text
}

/// Compares on `count` tables from a seed: in turn good ones, ones in which a rule is broken, and damaged ones. How many
/// differences there are, and a text of what was met.
pub fn compare(seed: u64, count: usize, program: &Path, folder: &Path) -> Result<(usize, String), String> {
    let breaches = tables::breaches();
    let mut compare = Compare {
        product: Product::start(program)?,
        folder,
        tables: [0; 2],
        breaches: vec![0; breaches.len()],
        questions: [0; 3],
        answers: [[0; 3]; 3],
        refused: 0,
        asked: [0; 2],
        alone: [0; 2],
        footprint: Footprint::default(),
        casts: Casts::default(),
        differences: 0,
    };
    for i in 0..count {
        let seed = seed.wrapping_mul(1_000_003).wrapping_add(i as u64);
        match i % 9 {
            0 | 2 | 4 | 6 => compare.one(&tables::good(seed), &format!("table {seed}"), seed),
            8 => compare.one(&tables::damaged(seed), &format!("damaged table {seed}"), seed),
            _ => {
                let which = (i / 9 * 4 + i % 9 / 2) % breaches.len();
                let breach = &breaches[which];
                compare.breaches[which] += 1;
                compare.one(&tables::broken(seed, breach), &format!("{}, table {seed}", breach.name), seed);
            }
        }
    }
    Ok((compare.differences, compare.text(&breaches)))
}
