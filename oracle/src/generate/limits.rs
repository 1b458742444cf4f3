//! Modules at the edge of what the report program lends: 3,000 rows and 2,000 errors, one less and one more.

use super::{maker::Maker, typed};
use crate::{answer::Answer, layout, model, tree::Tree};

/// What the model says of a module in the making.
fn answer(maker: &Maker) -> Answer {
    let bytes = Tree::module(maker.names(), maker.items.clone()).to_bytes();
    model::check(&layout::read(&bytes).expect("a generated module")).answer
}

/// One of the counts around a limit, mostly the limit or its neighbours.
fn near(maker: &mut Maker, limit: usize) -> usize {
    match maker.random.below(4) {
        0 => limit - 1,
        1 => limit,
        2 => limit + 1,
        _ => maker.random.between(limit - 30, limit + 30),
    }
}

/// Adds globals of arrays under pointers until the module has exactly so many rows.
fn pad_rows(maker: &mut Maker, rows: usize) {
    let mut size = 100_000;
    loop {
        let have = answer(maker).rows.count();
        if have >= rows {
            return;
        }
        // An array of a size of its own, then one pointer for each further row.
        let mut ty = maker.named("u16");
        ty = maker.tree(19, &[0, size], vec![ty]);
        size += 1;
        for _ in 0..(rows - have - 1).min(56) {
            ty = maker.tree(18, &[0], vec![ty]);
        }
        let name = maker.name("x");
        let item = maker.tree(83, &[name], vec![ty]);
        maker.items.push(item);
    }
}

/// Adds a global whose value brings the module to exactly so many errors.
fn pad_errors(maker: &mut Maker, errors: usize, dense: bool) {
    let have = answer(maker).errors.len();
    if have >= errors {
        return;
    }
    let left = errors - have;
    let (mut value, mut made) =
        if dense { conjunction(maker, left.div_ceil(3)) } else { call(maker, left.div_ceil(2)) };
    // A call of Unknown is one error and those of its arguments, `~` of Unknown one.
    while made < left {
        if left - made > 40 {
            let (more, count) = call(maker, left - made - 40);
            value = maker.tree(36, &[0], vec![value, more]);
            made += count + 1;
        } else {
            value = maker.tree(42, &[0], vec![value]);
            made += 1;
        }
    }
    let ty = maker.named("u16");
    let name = maker.name("y");
    let item = maker.tree(83, &[name], vec![ty, value]);
    maker.items.push(item);
}

/// A call of Unknown with unknown arguments, at most so many errors but at least one; and how many errors it has.
fn call(maker: &mut Maker, errors: usize) -> (Tree, usize) {
    let nobody = maker.name("nobody");
    if errors < 2 {
        return (maker.tree(32, &[0, nobody], vec![]), 1);
    }
    let children = (1..errors).map(|_| maker.tree(32, &[0, nobody], vec![])).collect();
    (maker.tree(36, &[0], children), errors)
}

/// A tree of `&&` over so many unknown identifiers, the most errors for its bytes; and how many errors it has.
fn conjunction(maker: &mut Maker, leaves: usize) -> (Tree, usize) {
    if leaves < 2 {
        return call(maker, 1);
    }
    let (left, a) = conjunction(maker, leaves / 2);
    let (right, b) = conjunction(maker, leaves - leaves / 2);
    (maker.tree(44, &[0], vec![left, right]), a + b + 2)
}

/// A small typed module whose items come before the padding.
fn beginning(maker: &mut Maker) {
    typed(maker, 5, 3);
    // Seven rows of padding an item at most are lost to what stands here.
    while maker.size() > 1_500 {
        maker.items.pop();
    }
}

/// Around 3,000 rows, now and then with many errors as well.
pub fn rows(mut maker: Maker) -> Tree {
    beginning(&mut maker);
    let rows = near(&mut maker, 3_000);
    pad_rows(&mut maker, rows);
    maker.finish()
}

/// Around 2,000 errors, now and then with too many rows as well.
pub fn errors(mut maker: Maker) -> Tree {
    beginning(&mut maker);
    let errors = near(&mut maker, 2_000);
    let rows_too = maker.random.chance(20);
    if rows_too {
        early_uses(&mut maker, 3_010);
    }
    let dense = rows_too || maker.random.chance(50);
    pad_errors(&mut maker, errors, dense);
    maker.finish()
}

/// Globals before the alias that they name: each of their types is two rows, one of each pass.
fn early_uses(maker: &mut Maker, rows: usize) {
    let alias = maker.name("Late");
    let mut made = 0;
    let mut size = 300_000;
    while made + 2 < rows && maker.size() < 40_000 {
        let mut ty = maker.tree(16, &[0, alias], vec![]);
        ty = maker.tree(19, &[0, size], vec![ty]);
        size += 1;
        for _ in 0..56 {
            ty = maker.tree(18, &[0], vec![ty]);
        }
        let name = maker.name("x");
        let item = maker.tree(83, &[name], vec![ty]);
        maker.items.push(item);
        made += 114;
    }
    let ty = maker.named("u16");
    let item = maker.tree(81, &[alias, 0], vec![ty]);
    maker.items.push(item);
}

/// Very many names, the most that fit among them.
pub fn names(maker: &mut Maker) {
    match maker.random.below(3) {
        0 => {
            // One-byte, two-byte and empty names.
            maker.name("");
            for i in 0..maker.random.between(0, 600) as u32 {
                maker.name(char::from_u32(0x21 + i).unwrap_or('x').to_string());
            }
        }
        1 => {
            for i in 0..maker.random.between(500, 2_500) {
                maker.name(format!("n{i}"));
            }
        }
        _ => {
            let length = maker.random.between(100, 20_000);
            maker.name(vec![b'n'; length]);
            maker.name(vec![b'n'; length - 1]);
        }
    }
    typed(maker, 5, 5);
    while maker.size() > layout::MOST_BYTES {
        maker.items.pop();
    }
}
