//! Each function, each of its refusals, and what each leaves in the parts lent.
mod common;

use common::{FIXED, cast, refused, with_fixed};
use delta_null_type_check::{Counts, ERROR_WORDS, ROW_WORDS, Refused, WordSize};
use delta_null_type_check::{assignable, castable, type_check_module, word_size};

const MODULE: &[u8] = include_bytes!("../../example.module");

/// The working words of its two names, the words of its two errors, and the place of its one slot.
const WORK: usize = 8;
const TWO_ERRORS: usize = 2 * ERROR_WORDS;
const SLOT: usize = 104;

struct Lent {
    output: Vec<u8>,
    rows: Vec<u32>,
    errors: Vec<u32>,
    work: Vec<u32>,
}

fn lend(output: usize, rows: usize, errors: usize, work: usize) -> Lent {
    Lent { output: vec![9; output], rows: vec![9; rows], errors: vec![9; errors], work: vec![9; work] }
}

fn check(input: &[u8], lent: &mut Lent) -> Result<Counts, Refused> {
    type_check_module(input, &mut lent.output, &mut lent.rows, &mut lent.errors, &mut lent.work)
}

fn untouched(lent: &Lent) -> bool {
    lent.output.iter().all(|&b| b == 9)
        && [&lent.rows, &lent.errors, &lent.work].iter().all(|p| p.iter().all(|&w| w == 9))
}

#[test]
fn module_accepted() {
    let mut lent = lend(MODULE.len() + 1, FIXED + 1, TWO_ERRORS + 1, WORK + 1);
    assert_eq!(check(MODULE, &mut lent), Ok(Counts { rows: 7, errors: 2 }));
    let mut output = MODULE.to_vec();
    output[SLOT] = 1;
    output.push(9);
    assert_eq!(lent.output, output);
    assert_eq!(lent.rows[25..], [6, 4, 0, 0, 1, 11, 6, 0, 65535, 1, 9]);
    assert_eq!(lent.errors, [1, 0, 3, 8, 1, 0, 0, 0, 1, 0, 3, 8, 1, 0, 0, 0, 9]);
    assert_eq!(lent.work, [0, 0, 0, 0, 0, 0, 0, 0, 9]);
}

/// A file of no bytes is the module without names and items, with no more than seven rows lent.
#[test]
fn no_bytes() {
    for (output, errors, work) in [(0, 0, 0), (1, ERROR_WORDS, 4)] {
        let mut lent = lend(output, FIXED + 1, errors, work);
        assert_eq!(check(&[], &mut lent), Ok(Counts { rows: 7, errors: 0 }));
        assert_eq!(lent.rows[25..], [6, 4, 0, 0, 1, 11, 6, 0, 65535, 1, 9]);
        lent.rows.fill(9);
        assert!(untouched(&lent));
        for rows in [0, FIXED - 1] {
            let mut lent = lend(output, rows, errors, work);
            assert_eq!(check(&[], &mut lent), refused(6, 0));
            assert!(lent.rows.iter().chain(&lent.errors).all(|&w| w == 0));
            lent.rows.fill(9);
            lent.errors.fill(9);
            assert!(untouched(&lent));
        }
    }
}

#[test]
fn module_refused_untouched() {
    let mut twice = Vec::new();
    for (length, kind) in [(64, 1), (48, 2), (16, 3), (16, 3)] {
        twice.extend([length, 0, 0, 0, kind, 0, 0, 0, 0, 0, 0, 0, 0, 0, 0, 0]);
    }
    let (all, one_short) = (MODULE.len(), MODULE.len() - 1);
    for (input, output, work, number, place) in [
        (&[0; 65537][..], 65537, WORK, 1, 0),
        (&[16], 0, 0, 2, 0),
        (&[0; 15], 15, WORK, 2, 0),
        (&MODULE[..one_short], all, WORK, 2, 0),
        (&twice, all, WORK, 4, 48),
        (MODULE, one_short, WORK, 5, 0),
        (MODULE, all, WORK - 1, 5, 0),
    ] {
        let mut lent = lend(output, FIXED, TWO_ERRORS, work);
        assert_eq!(check(input, &mut lent), refused(number, place));
        assert!(untouched(&lent));
    }
}

#[test]
fn module_refused_emptied() {
    for (rows, errors, number) in [(FIXED - 1, TWO_ERRORS, 6), (0, 0, 6), (FIXED, TWO_ERRORS - 1, 7)] {
        let mut lent = lend(MODULE.len() + 1, rows, errors, WORK + 1);
        assert_eq!(check(MODULE, &mut lent), refused(number, 0));
        let (last, first) = lent.output.split_last().unwrap();
        assert!(*last == 9 && first.iter().all(|&b| b == 0));
        assert!(lent.rows.iter().chain(&lent.errors).all(|&w| w == 0));
        assert_eq!(lent.work, [0, 0, 0, 0, 0, 0, 0, 0, 9]);
    }
}

/// The seven rows of every table, then `[4]u16`, `*[4]u16`, `[65536]u16` and an alias of u16 with name 0.
const COUNT: u32 = 11;

fn table() -> Vec<u32> {
    with_fixed(&[[7, 4, 4, 0, 4], [6, 8, 0, 0, 1], [7, 4, 65536, 0, 65536], [10, 4, 0, 0, 1]])
}

#[test]
fn relations() {
    let rows = table();
    // `*[4]u16` to `*u16`, and back.
    assert_eq!(assignable(&rows, COUNT, 6, 9), Ok(true));
    assert_eq!(assignable(&rows, COUNT, 9, 6), Ok(false));
    // A transparent alias of u16 to i16: neither.
    assert_eq!(assignable(&rows, COUNT, 5, 11), Ok(false));
    assert_eq!(castable(&rows, COUNT, 11, 5), cast(false, 1));
    assert_eq!(castable(&rows, COUNT, 4, 5), cast(true, 1));
    // String to u16, through its pointer.
    assert_eq!(castable(&rows, COUNT, 7, 4), cast(true, 2));
    for bad in [0, COUNT + 1] {
        assert_eq!(assignable(&rows, COUNT, 4, bad), refused(8, 0));
        assert_eq!(castable(&rows, COUNT, bad, 4), refused(8, 0));
    }
    assert_eq!(assignable(&rows, COUNT + 1, 4, 4), refused(8, 0));
    assert_eq!(castable(&[], 0, 1, 1), refused(8, 0));
}

/// The rows of crates/relations/specs/Decay.antt: behind the seven an alias of `*u16`, `[4]u16`, `*[4]u16` and an alias of that pointer.
fn decay_table() -> Vec<u32> {
    with_fixed(&[[10, 6, 0, 0, 1], [7, 4, 4, 0, 4], [6, 9, 0, 0, 1], [10, 10, 0, 1, 1]])
}

/// A pointer behind a transparent alias decays and cannot be cast; of all pairs, a cast keeps the words, and what is assignable can be
/// cast unless one of the two is such an alias.
#[test]
fn casts_keep_words() {
    let rows = decay_table();
    for (source, target, yes) in [(10, 6, true), (11, 6, false), (10, 8, false)] {
        assert_eq!(assignable(&rows, COUNT, target, source), Ok(true));
        assert_eq!(castable(&rows, COUNT, source, target), cast(yes, 1));
    }
    let is_alias = |row: u32| rows[ROW_WORDS * (row as usize - 1)] == 10;
    for source in 1..=COUNT {
        for target in 1..=COUNT {
            let castable = castable(&rows, COUNT, source, target).unwrap().castable;
            if castable {
                assert_eq!(word_size(&rows, COUNT, source), word_size(&rows, COUNT, target));
            }
            if assignable(&rows, COUNT, target, source).unwrap() && !is_alias(source) && !is_alias(target) {
                assert!(castable, "{source} to {target}");
            }
        }
    }
}

/// A table with so many rows, `[size]u16` of different sizes, whose rows share one bucket of the index of rows or not.
fn array_table(count: usize, one_bucket: bool) -> Vec<u32> {
    let bucket = |size: u64| (7 * 268435399 + 4 * 165580141 + size * 228826127) / 262144 % 512;
    let sizes = (0..).filter(|&size| !one_bucket || bucket(size) == 0);
    let mut rows = with_fixed(&[]);
    rows.extend(sizes.take(count - 7).flat_map(|size| [7, 4, size as u32, 0, size.min(65536) as u32]));
    rows
}

/// No two rows are alike, wherever in a long table the two stand: in the index of rows (the first 3,584), past it, or far down a bucket.
#[test]
fn twins() {
    for (count, one_bucket) in
        [(8, false), (600, false), (3584, false), (3585, false), (5000, false), (40, true), (3700, true)]
    {
        let mut rows = array_table(count, one_bucket);
        assert_eq!(assignable(&rows, count as u32, 4, 4), Ok(true));
        for number in [8, 9, 24, 26, 40, 3584, 3585, 3586, count - 1, count] {
            if number <= count {
                let twin = rows[(number - 1) * ROW_WORDS..][..ROW_WORDS].to_vec();
                rows.extend(twin);
                assert_eq!(
                    assignable(&rows, count as u32 + 1, 4, 4),
                    refused(8, 0),
                    "{count} rows and row {number} again"
                );
                rows.truncate(count * ROW_WORDS);
            }
        }
    }
}

#[test]
fn sizes() {
    let rows = table();
    for (n, size) in
        [(1, WordSize::Unknown), (2, WordSize::Words(0)), (8, WordSize::Words(4)), (10, WordSize::TooLarge)]
    {
        assert_eq!(word_size(&rows, COUNT, n), Ok(size));
    }
    for bad in [0, COUNT + 1] {
        assert_eq!(word_size(&rows, COUNT, bad), refused(8, 0));
    }
    assert_eq!(word_size(&rows, COUNT + 1, 4), refused(8, 0));
}

/// A row of each of the 13 kinds, with its size: rows 1 to 7, `[3]u16`, two field cells of it, their struct, an argument cell, a function
/// and an alias.
fn every_kind() -> Vec<u32> {
    with_fixed(&[
        [7, 4, 3, 0, 3],
        [12, 4, 0, 1, 1],
        [12, 8, 9, 2, 4],
        [8, 10, 0, 0, 4],
        [13, 8, 0, 0, 0],
        [9, 1, 12, 0, 65537],
        [10, 11, 0, 3, 4],
    ])
}

/// All three questions are refused with 8 if the fifth word of one row is wrong, though they are not about that row.
#[test]
fn wrong_sizes() {
    let rows = every_kind();
    let count = (rows.len() / ROW_WORDS) as u32;
    let said = |rows: &[u32]| {
        [
            word_size(rows, count, 4).map(|_| ()),
            assignable(rows, count, 4, 4).map(|_| ()),
            castable(rows, count, 4, 4).map(|_| ()),
        ]
    };
    assert_eq!(said(&rows), [Ok(()); 3]);
    for row in 0..count as usize {
        let place = ROW_WORDS * row + 4;
        let right = rows[place];
        for wrong in [right.wrapping_add(1), right.wrapping_sub(1), 65535, 65536, 65537, u32::MAX] {
            if wrong != right {
                let mut rows = rows.clone();
                rows[place] = wrong;
                assert_eq!(said(&rows), [refused(8, 0); 3], "row {}: {wrong} for {right}", row + 1);
            }
        }
    }
    // Two sizes exchanged; a field cell with its type's alone; an argument cell with its type's.
    for (a, b) in [(8, 11), (9, 10), (2, 3), (12, 13)] {
        let mut rows = rows.clone();
        rows.swap(ROW_WORDS * (a - 1) + 4, ROW_WORDS * (b - 1) + 4);
        assert_eq!(said(&rows), [refused(8, 0); 3], "rows {a} and {b}");
    }
    for (row, wrong) in [(10, 3), (12, 3)] {
        let mut rows = rows.clone();
        rows[ROW_WORDS * (row - 1) + 4] = wrong;
        assert_eq!(said(&rows), [refused(8, 0); 3], "row {row}");
    }
    // A row past the count may have any fifth word.
    let mut rows = rows.clone();
    *rows.last_mut().unwrap() = 9;
    assert_eq!(word_size(&rows, count - 1, 11), Ok(WordSize::Words(4)));
}
