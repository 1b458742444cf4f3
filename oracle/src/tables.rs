//! Tables of rows: good ones from a seed, and tables in which one rule of document 01 is broken.

use crate::{
    rows::{
        self, BOOL, I16, POINTER_TO_U16, ROW_WIDTH, Row, Rows, STRING, STRING_NAME, TOO_LARGE, U16, UNKNOWN,
        UNKNOWN_INSIDE, kind,
    },
    tree::Random,
};

/// Words that are lent as rows, and how many rows of them are to count.
#[derive(Clone, Debug, PartialEq, Eq)]
pub struct Table {
    pub words: Vec<u32>,
    pub count: u32,
}

/// Names that no drawn row has.
const FRESH: u32 = 60_000;

/// Rows from a seed that keep the rules.
fn drawn_rows(random: &mut Random) -> Rows {
    let mut rows = Rows::new();
    for _ in 0..random.below(50) {
        add_row(random, &mut rows);
    }
    rows
}

fn add_row(random: &mut Random, rows: &mut Rows) {
    let of = |wanted: fn(Row) -> bool| -> Vec<u32> {
        (1..=rows.count() as u32).filter(|&number| wanted(rows.row(number))).collect()
    };
    let types = of(|row| !row.is_cell());
    let fields = [vec![0], of(|row| row.kind == kind::FIELD)].concat();
    let arguments = [vec![0], of(|row| row.kind == kind::ARGUMENT)].concat();
    let recent = types.len().saturating_sub(4);
    let ty = if random.chance(60) { *random.pick(&types[recent..]) } else { *random.pick(&types) };
    let name = random.below(5) as u32;
    let size = *random.pick(&[0, 1, 2, 3, 4, 16, 255, 256, 257, 65_535, 65_536, u32::MAX]);
    match random.below(14) {
        0 | 1 => rows.pointer(ty),
        2 | 3 => rows.array(ty, size),
        4 => rows.put(kind::STRUCT, *random.pick(&fields), 0, 0),
        5 => rows.put(kind::FUNCTION, ty, *random.pick(&arguments), 0),
        6 | 7 => rows.alias(ty, name, false),
        8 | 9 => rows.alias(ty, name, true),
        10 => rows.put(kind::FIELD, ty, *random.pick(&fields), name),
        11 => rows.put(kind::ARGUMENT, ty, *random.pick(&arguments), 0),
        12 => add_decay(random, rows, ty, size),
        _ => add_chains(random, rows, ty),
    };
}

/// A pointer to a type and a pointer to an array of it, which decays to the first; up to three levels of both, each now and then behind an
/// alias. The number of the second.
fn add_decay(random: &mut Random, rows: &mut Rows, ty: u32, size: u32) -> u32 {
    let (mut target, mut source) = (ty, ty);
    for _ in 0..random.between(1, 3) {
        let array = rows.array(source, size);
        (target, source) = (rows.pointer(target), rows.pointer(array));
        for side in [&mut target, &mut source] {
            if random.chance(35) {
                *side = rows.alias(*side, random.below(5) as u32, random.chance(25));
            }
        }
    }
    source
}

/// A chain of aliases, a longer one over it, and another over the same or over a type of its own. The number of the last.
fn add_chains(random: &mut Random, rows: &mut Rows, ty: u32) -> u32 {
    let base = chain_base(random, rows, ty);
    let tail = add_chain(random, rows, base);
    let other = if random.chance(50) { tail } else { chain_base(random, rows, ty) };
    add_chain(random, rows, tail);
    add_chain(random, rows, other)
}

/// A type to begin a chain with, now and then behind a transparent alias.
fn chain_base(random: &mut Random, rows: &mut Rows, ty: u32) -> u32 {
    let structure = rows.structure(&[(0, U16)]);
    let pointer = rows.pointer(BOOL);
    let base = *random.pick(&[BOOL, U16, I16, POINTER_TO_U16, STRING, pointer, structure, ty]);
    if random.chance(30) { rows.alias(base, random.below(5) as u32, false) } else { base }
}

/// Aliases over a type, all of them distinct or most: a few, and now and then more than the reference is asked about. The number of the
/// last.
fn add_chain(random: &mut Random, rows: &mut Rows, ty: u32) -> u32 {
    let length = if random.chance(4) { random.between(9, 24) } else { random.between(0, 5) };
    let distinct = *random.pick(&[100, 100, 75]);
    (0..length).fold(ty, |ty, _| rows.alias(ty, random.below(3) as u32, random.chance(distinct)))
}

fn all_rows(rows: &Rows) -> Vec<Row> {
    (1..=rows.count() as u32).map(|number| rows.row(number)).collect()
}

/// A table that keeps the rules. Now and then its last rows are not counted, and words that mean nothing follow.
pub fn good(seed: u64) -> Table {
    let mut random = Random::new(seed);
    let rows = drawn_rows(&mut random);
    let mut words = rows.row_words();
    let count = if random.chance(20) { random.between(7, rows.count()) } else { rows.count() };
    for _ in 0..random.below(10) {
        words.push(*random.pick(&[0, 1, 7, 65_535, u32::MAX]));
    }
    Table { words, count: count as u32 }
}

/// A table with some word changed, a row twice, two rows exchanged or the end missing. It may still keep the rules.
pub fn damaged(seed: u64) -> Table {
    let mut random = Random::new(seed);
    let rows = drawn_rows(&mut random);
    let mut words = rows.row_words();
    match random.below(5) {
        0 => {
            let length = random.below(words.len());
            words.truncate(length);
        }
        1 => {
            let row = random.below(rows.count()) * ROW_WIDTH;
            words.extend_from_within(row..row + ROW_WIDTH);
        }
        2 => {
            let place = random.below(words.len());
            words[place] =
                *random.pick(&[0, 1, words[place].wrapping_add(1), words[place].wrapping_sub(1), 65_535, u32::MAX]);
        }
        // Two rows, or their fifth words alone.
        way => {
            let last = words.len() / ROW_WIDTH - 1;
            let (a, b) = (random.between(5, last), random.between(5, last));
            let from = if way == 3 { 0 } else { SIZE };
            (from..ROW_WIDTH).for_each(|i| words.swap(ROW_WIDTH * a + i, ROW_WIDTH * b + i));
        }
    }
    let count = words.len().div_ceil(ROW_WIDTH) as u32;
    Table { words, count }
}

/// Words for a file of rows; about a third of the files break a rule.
pub fn file_words(seed: u64) -> Vec<u32> {
    if seed.is_multiple_of(5) || seed % 5 == 1 {
        return damaged(seed).words;
    }
    let Table { mut words, count } = good(seed);
    words.truncate(ROW_WIDTH * count as usize);
    words
}

/// A rule for rows, broken in one way.
pub struct Breach {
    pub name: String,
    how: How,
}

/// The rows that break a rule, from the number of the first of them on.
type Block = Box<dyn Fn(u32) -> Vec<Row>>;

/// What changes the fifth words of rows.
type Wrong = Box<dyn Fn(&mut [u32])>;

enum How {
    /// This count in place of the right one, which is given.
    Count(fn(u32) -> u32),
    /// The last word is not lent.
    Cut,
    /// A word of a fixed row is another.
    Fixed { row: usize, word: usize },
    /// Rows among the others.
    Rows(Block),
    /// Rows behind the others, the last of which is not counted.
    Uncounted(Block),
    /// Rows among the others that keep the rules but for their fifth words, which are changed from the right ones.
    Sizes(Block, Wrong),
}

fn row(kind: u32, first: u32, second: u32, name: u32) -> Row {
    Row { kind, first, second, name }
}

/// Four rows that keep the rules and that no drawn table has, the first of which has the number `at`: two types, a field cell and an
/// argument cell.
fn foundation(at: u32) -> Vec<Row> {
    vec![
        row(kind::ALIAS, U16, 0, FRESH),
        row(kind::FIELD, at, 0, FRESH + 1),
        row(kind::ARGUMENT, at, 0, 0),
        row(kind::DISTINCT, at, 0, FRESH + 2),
    ]
}

/// Where the rows of a foundation stand behind its first.
const FIELD_CELL: u32 = 1;
const ARGUMENT_CELL: u32 = 2;
const OTHER_TYPE: u32 = 3;
const BEHIND: u32 = 4;

/// A row of a kind from 6 on that keeps the rules behind the foundation at `at`.
fn sound(kind: u32, at: u32) -> Row {
    let (fields, arguments) = (at + FIELD_CELL, at + ARGUMENT_CELL);
    match kind {
        kind::ARRAY => row(kind, at, 3, 0),
        kind::STRUCT => row(kind, fields, 0, 0),
        kind::FUNCTION | kind::ARGUMENT => row(kind, at, arguments, 0),
        kind::ALIAS | kind::DISTINCT => row(kind, at, 0, FRESH + 3),
        kind::FIELD => row(kind, at, fields, FRESH + 3),
        _ => row(kind, at, 0, 0),
    }
}

/// What is due in a word of a row.
#[derive(Clone, Copy, PartialEq, Eq)]
enum Due {
    Unused,
    Type,
    Fields,
    Arguments,
    /// A size or a name.
    Number,
}

/// What is due in the words after the kind.
fn due(kind: u32) -> [Due; 3] {
    use Due::*;
    match kind {
        kind::POINTER => [Type, Unused, Unused],
        kind::ARRAY => [Type, Number, Unused],
        kind::STRUCT => [Fields, Unused, Unused],
        kind::FUNCTION | kind::ARGUMENT => [Type, Arguments, Unused],
        kind::ALIAS | kind::DISTINCT => [Type, Unused, Number],
        kind::FIELD => [Type, Fields, Number],
        _ => [Unused; 3],
    }
}

/// Whether the first and the second word of a row of the kind are rows.
pub fn parts_of(kind: u32) -> [bool; 2] {
    let [first, second, _] = due(kind).map(|due| !matches!(due, Due::Unused | Due::Number));
    [first, second]
}

const WORDS: [&str; ROW_WIDTH] = ["kind", "first", "second", "name", "size"];

/// The place of the fifth word.
const SIZE: usize = 4;

fn with_word(mut row: Row, word: usize, value: u32) -> Row {
    *[&mut row.kind, &mut row.first, &mut row.second, &mut row.name][word] = value;
    row
}

/// The list of breaches.
#[derive(Default)]
struct Breaches(Vec<Breach>);

impl Breaches {
    fn put(&mut self, name: impl Into<String>, how: How) {
        self.0.push(Breach { name: name.into(), how });
    }

    /// A row behind a foundation, and perhaps rows behind that.
    fn put_rows(&mut self, name: String, last: impl Fn(u32) -> Vec<Row> + 'static) {
        self.put(name, How::Rows(Box::new(move |at| [foundation(at), last(at)].concat())));
    }

    fn counts(&mut self) {
        self.put("the count is one past the rows lent", How::Count(|count| count + 1));
        self.put("the count is 4294967295", How::Count(|_| u32::MAX));
        // 5 times that is one less than 2^32.
        self.put("the count in words fits modulo 2^32", How::Count(|count| count + 858_993_459));
        self.put("the last row is not whole", How::Cut);
        let few: [fn(u32) -> u32; 7] = [|_| 0, |_| 1, |_| 2, |_| 3, |_| 4, |_| 5, |_| 6];
        for (count, how) in few.into_iter().enumerate() {
            self.put(format!("the count is {count}"), How::Count(how));
        }
    }

    fn fixed(&mut self) {
        for number in 1..=7 {
            for (word, what) in WORDS.into_iter().enumerate() {
                self.put(format!("row {number}: another {what}"), How::Fixed { row: number, word });
            }
        }
    }

    fn kinds(&mut self) {
        for kind in [0, 14, 15, 255, 256 + 6, 65_536 + 6, u32::MAX] {
            self.put_rows(format!("kind {kind}"), move |at| vec![row(kind, at, 0, 0)]);
        }
    }

    /// Words that the kind does not use; a name where there is none is one of them.
    fn unused(&mut self) {
        for kind in 1..=13 {
            for word in (1..=3).filter(|word| due(kind)[word - 1] == Due::Unused) {
                for value in [1, u32::MAX] {
                    let name = format!("kind {kind}: {} is {value}, and is not used", WORDS[word]);
                    self.put_rows(name, move |at| vec![with_word(sound_of(kind, at), word, value)]);
                }
            }
        }
    }

    /// Parts that are not lower, or of another sort than is due.
    fn parts(&mut self) {
        for kind in kind::POINTER..=kind::ARGUMENT {
            for word in 1..=3 {
                let due = due(kind)[word - 1];
                if !matches!(due, Due::Unused | Due::Number) {
                    self.part(kind, word, due);
                }
            }
        }
    }

    fn part(&mut self, kind: u32, word: usize, due: Due) {
        let what = format!("kind {kind}: {}", WORDS[word]);
        let with = move |at, value| with_word(sound(kind, at), word, value);
        // A row that would do if it were lower.
        let higher = move |at| match due {
            Due::Fields => row(kind::FIELD, at, 0, FRESH + 4),
            Due::Arguments => row(kind::ARGUMENT, at + OTHER_TYPE, 0, 0),
            _ => row(kind::ALIAS, at, 0, FRESH + 4),
        };
        self.put_rows(format!("{what} is the row itself"), move |at| vec![with(at, at + BEHIND)]);
        self.put_rows(format!("{what} is the next row"), move |at| vec![with(at, at + BEHIND + 1), higher(at)]);
        self.put(
            format!("{what} is a row past the count"),
            How::Uncounted(Box::new(move |at| [foundation(at), vec![with(at, at + BEHIND + 1), higher(at)]].concat())),
        );
        self.put_rows(format!("{what} is 4294967295"), move |at| vec![with(at, u32::MAX)]);
        let mut wrong = vec![("a field cell", FIELD_CELL), ("an argument cell", ARGUMENT_CELL), ("a type", OTHER_TYPE)];
        match due {
            Due::Fields => drop(wrong.remove(0)),
            Due::Arguments => drop(wrong.remove(1)),
            _ => {
                wrong.truncate(2);
                self.put_rows(format!("{what} is 0"), move |at| vec![with(at, 0)]);
            }
        }
        for (sort, behind) in wrong {
            self.put_rows(format!("{what} is {sort}"), move |at| vec![with(at, at + behind)]);
        }
    }

    fn names(&mut self) {
        for kind in [kind::ALIAS, kind::DISTINCT, kind::FIELD] {
            self.put_rows(format!("kind {kind}: the name of String"), move |at| {
                vec![with_word(sound(kind, at), 3, STRING_NAME)]
            });
        }
    }

    /// Rows behind a foundation that are good but for their fifth words, which `wrong` changes: it is given those of the foundation too.
    fn put_sizes(
        &mut self,
        name: String,
        rows: impl Fn(u32) -> Vec<Row> + 'static,
        wrong: impl Fn(&mut [u32]) + 'static,
    ) {
        let block = move |at| [foundation(at), rows(at)].concat();
        self.put(name, How::Sizes(Box::new(block), Box::new(wrong)));
    }

    /// Fifth words that are not the row's own.
    fn sizes(&mut self) {
        for kind in kind::POINTER..=kind::ARGUMENT {
            let rows = move |at| vec![sound(kind, at)];
            for (what, more) in [("one more", 1), ("one less", u32::MAX)] {
                self.put_sizes(format!("kind {kind}: the size is {what}"), rows, move |sizes| {
                    *last(sizes) = last(sizes).wrapping_add(more);
                });
            }
            for size in [TOO_LARGE, UNKNOWN_INSIDE, u32::MAX] {
                self.put_sizes(format!("kind {kind}: the size is {size}"), rows, move |sizes| *last(sizes) = size);
            }
        }
        self.sizes_about_the_limits();
        let arrays = |at| vec![row(kind::ARRAY, at, 3, 0), row(kind::ARRAY, at, 5, 0)];
        self.put_sizes("two sizes exchanged".to_owned(), arrays, |sizes| {
            let end = sizes.len();
            sizes.swap(end - 1, end - 2);
        });
        for kind in [kind::FIELD, kind::ARGUMENT] {
            self.put_sizes(
                format!("kind {kind}: the size of its type alone"),
                move |at| vec![sound(kind, at)],
                |sizes| *last(sizes) = sizes[0],
            );
        }
    }

    /// Rows of about 65,535 words and with Unknown inside, with another of the words that may stand there.
    fn sizes_about_the_limits(&mut self) {
        // The first part: the alias of u16, one of Unknown, an array of 70,000 words.
        const ONE: u32 = 0;
        const NONE_KNOWN: u32 = BEHIND;
        const LARGE: u32 = BEHIND + 1;
        let told = [
            ("65,535 words as too many", kind::ARRAY, ONE, 65_535, TOO_LARGE),
            ("65,536 words as 65,535", kind::ARRAY, ONE, 65_536, 65_535),
            ("65,536 words as none", kind::ARRAY, ONE, 65_536, 0),
            ("too many words as Unknown", kind::ARRAY, ONE, 65_537, UNKNOWN_INSIDE),
            ("no arrays of too many words as too many", kind::ARRAY, LARGE, 0, TOO_LARGE),
            ("no Unknown as no words", kind::ARRAY, NONE_KNOWN, 0, 0),
            ("many Unknown as too many words", kind::ARRAY, NONE_KNOWN, 70_000, TOO_LARGE),
            ("an alias of Unknown as no words", kind::DISTINCT, NONE_KNOWN, 0, 0),
            ("a pointer to Unknown as Unknown", kind::POINTER, NONE_KNOWN, 0, UNKNOWN_INSIDE),
            ("a function that returns Unknown as one word", kind::FUNCTION, NONE_KNOWN, 0, 1),
            ("a function that returns too many words as too many", kind::FUNCTION, LARGE, 0, TOO_LARGE),
            ("an argument of too many words as too many", kind::ARGUMENT, LARGE, 0, TOO_LARGE),
            ("an argument of Unknown as no words", kind::ARGUMENT, NONE_KNOWN, 0, 0),
            ("a field of Unknown as no words", kind::FIELD, NONE_KNOWN, 0, 0),
        ];
        for (what, kind, part, second, wrong) in told {
            let name = if due(kind)[2] == Due::Number { FRESH + 7 } else { 0 };
            let rows = move |at| {
                vec![
                    row(kind::ALIAS, UNKNOWN, 0, FRESH + 6),
                    row(kind::ARRAY, at, 70_000, 0),
                    row(kind, at + part, second, name),
                ]
            };
            self.put_sizes(format!("the size of {what}"), rows, move |sizes| *last(sizes) = wrong);
        }
    }

    fn alike(&mut self) {
        for number in 1..=7 {
            self.put_rows(format!("row {number} twice"), move |_| vec![Rows::new().row(number)]);
        }
        for kind in kind::POINTER..=kind::ARGUMENT {
            self.put_rows(format!("kind {kind}: twice, one behind the other"), move |at| vec![sound(kind, at); 2]);
            self.put_rows(format!("kind {kind}: twice, a row between"), move |at| {
                vec![sound(kind, at), row(kind::ALIAS, at, 0, FRESH + 5), sound(kind, at)]
            });
        }
    }
}

fn last(sizes: &mut [u32]) -> &mut u32 {
    sizes.last_mut().expect("a row")
}

/// A row of the kind: its fixed one for the kinds 1 to 5, which would be there twice if no word were changed.
fn sound_of(kind: u32, at: u32) -> Row {
    if kind < kind::POINTER { row(kind, 0, 0, 0) } else { sound(kind, at) }
}

/// Every rule for rows, broken in every way that is tried.
pub fn breaches() -> Vec<Breach> {
    let mut all = Breaches::default();
    all.counts();
    all.fixed();
    all.kinds();
    all.unused();
    all.parts();
    all.names();
    all.sizes();
    all.alike();
    all.0
}

/// The rows with others put in behind the first `before`, and every part counted on.
fn inserted(rows: &[Row], before: usize, block: Vec<Row>) -> Vec<Row> {
    let more = block.len() as u32;
    let on = |part: u32| if part as usize > before { part + more } else { part };
    let moved = rows[before..].iter().map(|&row| {
        let [first, second] = parts_of(row.kind);
        let first = if first { on(row.first) } else { row.first };
        let second = if second { on(row.second) } else { row.second };
        Row { first, second, ..row }
    });
    rows[..before].iter().copied().chain(block).chain(moved).collect()
}

/// A table from a seed in which one rule is broken.
pub fn broken(seed: u64, breach: &Breach) -> Table {
    let mut random = Random::new(seed);
    let rows = all_rows(&drawn_rows(&mut random));
    let table_of = |rows: &[Row]| Table { words: rows::row_words(rows), count: rows.len() as u32 };
    let among = |block: &Block, random: &mut Random| {
        let before = random.between(7, rows.len());
        (before, inserted(&rows, before, block(before as u32 + 1)))
    };
    let mut table = table_of(&rows);
    match &breach.how {
        How::Count(how) => table.count = how(table.count),
        How::Cut => drop(table.words.pop()),
        How::Fixed { row, word } => {
            let word = &mut table.words[ROW_WIDTH * (row - 1) + word];
            let others = [word.wrapping_add(1), word.wrapping_sub(1), 14, u32::MAX];
            *word = *random.pick(&others);
        }
        How::Rows(block) => table = table_of(&among(block, &mut random).1),
        How::Uncounted(block) => {
            table = table_of(&[&rows[..], &block(rows.len() as u32 + 1)].concat());
            table.count -= 1;
        }
        How::Sizes(block, wrong) => {
            let (before, all) = among(block, &mut random);
            table = table_of(&all);
            let more = all.len() - rows.len();
            let places: Vec<usize> = (before..before + more).map(|row| ROW_WIDTH * row + SIZE).collect();
            let mut sizes: Vec<u32> = places.iter().map(|&place| table.words[place]).collect();
            wrong(&mut sizes);
            places.into_iter().zip(sizes).for_each(|(place, size)| table.words[place] = size);
        }
    }
    table
}

#[cfg(test)]
mod tests {
    use super::*;
    use crate::buffers;

    fn is_good(table: &Table) -> bool {
        let end = ROW_WIDTH * table.count as usize;
        end <= table.words.len() && buffers::rows(&table.words[..end]).is_some()
    }

    #[test]
    fn good_tables_are_good() {
        assert!((0..300).all(|seed| is_good(&good(seed))));
    }

    #[test]
    fn broken_tables_break_one_rule() {
        for breach in breaches() {
            assert!((0..20).all(|seed| !is_good(&broken(seed, &breach))), "{}", breach.name);
        }
        // The rows around the broken one are good.
        for kind in kind::POINTER..=kind::ARGUMENT {
            let around = Breach {
                name: String::new(),
                how: How::Rows(Box::new(move |at| [foundation(at), vec![sound(kind, at)]].concat())),
            };
            assert!((0..20).all(|seed| is_good(&broken(seed, &around))), "kind {kind}");
        }
    }
}
