//! Questions for messages: what they are changed into, from one about a module that was accepted.

use crate::{
    answer::ERROR_WIDTH,
    buffers, damage,
    errors::{Stock, Words, any_word},
    layout::{self, Module},
    rows::{ROW_WIDTH, STRING_NAME, U16, kind},
    tell::{LONGEST, Question},
    tree::Random,
};

/// A breach of test 8.
#[derive(Clone, Debug, PartialEq, Eq)]
pub enum Breach {
    /// An error among the others.
    Error(Words),
    /// This count of errors.
    ErrorCount(usize),
    /// The last word of the errors is not lent.
    ErrorsCut,
    /// This count of rows.
    RowCount(u32),
    /// The last word of the rows is not lent.
    RowsCut,
    /// A word of a row, counted from the start, is another.
    RowWord(usize, u32),
    /// A row more.
    Row([u32; ROW_WIDTH]),
}

/// A question about a module that was accepted, and what it is about.
pub struct Base {
    pub question: Question,
    stock: Stock,
    module: Module,
}

impl Base {
    /// None if the question's module or rows are refused.
    pub fn new(question: Question) -> Option<Self> {
        let module = layout::read(&question.module).ok()?;
        let rows = buffers::rows(question.rows.get(..ROW_WIDTH * question.row_count as usize)?)?;
        let stock = Stock::new(&question.module, &module, &rows);
        Some(Base { question, stock, module })
    }

    /// What errors about the module may name.
    pub fn stock(&self) -> &Stock {
        &self.stock
    }

    /// Each sentence of test 8, broken.
    pub fn breaches(&self, random: &mut Random) -> Vec<(String, Breach)> {
        let errors = self.stock.unreadable(random).into_iter().map(|(what, words)| (what, Breach::Error(words)));
        let mut all: Vec<(String, Breach)> = errors.collect();
        let mut put = |what: &str, breach| all.push((what.to_owned(), breach));
        let whole = self.question.errors.len() / ERROR_WIDTH;
        put("more errors than are lent", Breach::ErrorCount(whole + 1));
        put("4294967295 errors", Breach::ErrorCount(u32::MAX as usize));
        if self.question.error_count > 0 {
            put("the last error is not whole", Breach::ErrorsCut);
        }
        let (count, names) = (self.question.row_count, self.module.names.len() as u32);
        put("more rows than are lent", Breach::RowCount((self.question.rows.len() / ROW_WIDTH) as u32 + 1));
        put("4294967295 rows", Breach::RowCount(u32::MAX));
        // 5 times that is one less than 2^32.
        put("rows whose words fit modulo 2^32", Breach::RowCount(count.wrapping_add(858_993_459)));
        put("six rows", Breach::RowCount(6));
        put("no rows", Breach::RowCount(0));
        put("the last row is not whole", Breach::RowsCut);
        let size = |row: u32| ROW_WIDTH * row as usize - 1;
        for row in [1, U16, count, random.between(1, count as usize) as u32] {
            let word = self.question.rows[size(row)];
            put("a wrong fifth word", Breach::RowWord(size(row), word.wrapping_add(1)));
        }
        let twin = random.below(count as usize) * ROW_WIDTH;
        put("two rows alike", Breach::Row(self.question.rows[twin..twin + ROW_WIDTH].try_into().unwrap()));
        for (what, name) in [("one past the list", names), ("of String", STRING_NAME), ("above 16 bits", 65_536)] {
            for kind in [kind::ALIAS, kind::DISTINCT, kind::FIELD] {
                put(&format!("a row of kind {kind}: a name {what}"), Breach::Row([kind, U16, 0, name, 1]));
            }
        }
        all
    }

    /// The question with a breach.
    pub fn broken(&self, breach: &Breach, random: &mut Random) -> Question {
        let mut question = self.question.clone();
        match *breach {
            Breach::Error(words) => {
                let place = random.below(question.error_count + 1);
                self.insert(&mut question, words, place);
            }
            Breach::ErrorCount(count) => question.error_count = count,
            Breach::ErrorsCut => question.errors.truncate(ERROR_WIDTH * question.error_count - 1),
            Breach::RowCount(count) => question.row_count = count,
            Breach::RowsCut => question.rows.truncate(ROW_WIDTH * question.row_count as usize - 1),
            Breach::RowWord(place, word) => question.rows[place] = word,
            Breach::Row(row) => {
                question.rows.truncate(ROW_WIDTH * question.row_count as usize);
                question.rows.extend(row);
                question.row_count += 1;
                question.work += 1;
            }
        }
        question
    }

    fn insert(&self, question: &mut Question, words: Words, place: usize) {
        let place = ERROR_WIDTH * place;
        question.errors.splice(place..place, words);
        question.error_count += 1;
    }

    /// The question with these errors in the place of its own.
    pub fn of_errors(&self, errors: &[Words]) -> Question {
        let mut question = Question { errors: errors.concat(), error_count: errors.len(), ..self.question.clone() };
        question.text = question.needed();
        question
    }

    /// The question with errors by hand among the others, or in their place.
    pub fn with_errors(&self, random: &mut Random) -> Question {
        let mut question = self.question.clone();
        if random.chance(50) {
            (question.errors, question.error_count) = (vec![], 0);
        }
        for words in self.stock.some_readable(6, random) {
            let place = random.below(question.error_count + 1);
            self.insert(&mut question, words, place);
        }
        question
    }

    /// The question with some word changed, which may break test 8 or not: of an error, mostly.
    fn with_a_word(&self, random: &mut Random) -> Question {
        let mut question = self.with_errors(random);
        if question.error_count > 0 && random.chance(80) {
            let place = random.below(ERROR_WIDTH * question.error_count);
            question.errors[place] = if random.chance(80) { self.stock.some_word(random) } else { any_word(random) };
        } else {
            let place = random.below(question.rows.len());
            let word = question.rows[place];
            question.rows[place] = *random.pick(&[0, 1, word.wrapping_add(1), word.wrapping_sub(1), u32::MAX]);
        }
        question
    }

    /// The question with another count, which may still be good.
    fn with_a_count(&self, random: &mut Random) -> Question {
        let mut question = self.question.clone();
        if random.chance(50) {
            question.error_count = random.below(question.error_count + 2);
        } else {
            question.row_count = random.between(6, question.row_count as usize + 1) as u32;
        }
        question
    }

    /// The question about another module: cut, damaged, a byte another, its items in another order.
    fn with_a_module(&self, random: &mut Random) -> Question {
        let mut question = self.question.clone();
        let bytes = &mut question.module;
        match random.below(5) {
            0 => bytes.truncate(random.below(bytes.len() + 1)),
            3 if !self.module.items.is_empty() => *bytes = damage::damaged(bytes, random.draw()),
            1 if !self.module.items.is_empty() => {
                let item = random.pick(&self.module.items);
                let place = random.between(item.place, item.place + item.length - 1);
                bytes[place] ^= 1 << random.below(8);
            }
            2 if !self.module.items.is_empty() => {
                let mut items = self.module.items.clone();
                random.shuffle(&mut items);
                let old = bytes.clone();
                bytes.truncate(self.module.items_start());
                items.iter().for_each(|item| bytes.extend(&old[item.place..item.place + item.length]));
            }
            _ if bytes.is_empty() => bytes.push(random.draw() as u8),
            _ => {
                let place = random.below(bytes.len());
                bytes[place] = bytes[place].wrapping_add(1);
            }
        }
        question
    }

    /// A question drawn from this one. What is lent for it is drawn too.
    pub fn drawn(&self, random: &mut Random) -> Question {
        let mut question = match random.below(9) {
            0 => self.question.clone(),
            1..=3 => self.with_errors(random),
            4 | 5 => {
                let breaches = self.breaches(random);
                let (_, breach) = random.pick(&breaches);
                self.broken(breach, random)
            }
            6 => self.with_a_word(random),
            7 => self.with_a_count(random),
            _ => self.with_a_module(random),
        };
        if random.chance(15) {
            question.built_in = another_text(random);
        }
        lend(&mut question, random);
        question
    }
}

/// Another text for String than all our callers lend.
pub fn another_text(random: &mut Random) -> Vec<u8> {
    let texts: [&[u8]; 5] = [b"", b"S", b"string of the board", b"*u16\n", b"\xff\x00"];
    random.pick(&texts).to_vec()
}

/// Lends about what a question needs: at times exactly that, at times one less.
pub fn lend(question: &mut Question, random: &mut Random) {
    let needed = question.needed();
    let less = |need: usize, few: usize| [need.saturating_sub(1), 0, need / 2][few];
    question.text = match random.below(10) {
        0..=3 => needed,
        4..=6 => less(needed, random.below(3)),
        7 if random.chance(3) => LONGEST as usize + random.below(9),
        _ => needed + random.between(1, 40),
    };
    let rows = (question.row_count as usize).min(question.rows.len());
    question.work = match random.below(12) {
        0 => less(rows, random.below(3)),
        1..=5 => rows,
        _ => rows + random.between(1, 9),
    };
}
