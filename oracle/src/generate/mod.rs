//! Modules from a seed. Every class aims at some part of document 01; `mixed` takes one of the others.

mod expression;
mod limits;
mod maker;
mod special;
mod statement;

use crate::{
    layout::{MOST_BYTES, MOST_DEPTH},
    tree::{Random, Tree},
};
use maker::Maker;

/// The classes and how often `mixed` takes each.
pub const CLASSES: [(&str, usize); 16] = [
    ("typed", 40),
    ("tiny", 10),
    ("wild", 12),
    ("deep", 8),
    ("aliases", 10),
    ("casts", 10),
    ("literals", 3),
    ("statements", 6),
    ("big", 2),
    ("names", 1),
    ("doubling", 1),
    ("chain", 1),
    ("structs", 6),
    ("bytes", 1),
    ("rows", 1),
    ("errors", 1),
];

/// The module of a class and seed, as bytes.
pub fn module(class: &str, seed: u64) -> Vec<u8> {
    let mut tree = if class == "mixed" {
        let mut random = Random::new(seed ^ 0x006d_6978_6564);
        let mut at = random.below(CLASSES.iter().map(|class| class.1).sum());
        let class = CLASSES.iter().find(|class| {
            let found = at < class.1;
            at = at.saturating_sub(class.1);
            found
        });
        of_class(class.unwrap().0, seed)
    } else {
        of_class(class, seed)
    };
    while tree.size() > MOST_BYTES {
        tree.children.pop();
    }
    tree.to_bytes()
}

fn of_class(class: &str, seed: u64) -> Tree {
    let mut maker = Maker::new(seed);
    match class {
        "typed" => typed(&mut maker, 8, 10),
        "tiny" => typed(&mut maker, 5, 3),
        "wild" => {
            maker.wrong = 60;
            typed(&mut maker, 7, 8);
        }
        "statements" => special::statements(&mut maker),
        "deep" => deep(&mut maker),
        "big" => big(&mut maker),
        "aliases" => special::aliases(&mut maker),
        "casts" => special::casts(&mut maker),
        "literals" => special::literals(&mut maker),
        "names" => limits::names(&mut maker),
        "chain" => special::chain(&mut maker),
        "structs" => special::structs(&mut maker),
        "doubling" => special::doubling(&mut maker),
        "bytes" => special::bytes(&mut maker),
        "rows" => return limits::rows(maker),
        "errors" => return limits::errors(maker),
        other => panic!("no class {other}"),
    }
    maker.finish()
}

/// A module of aliases, then other items, sometimes put in another order.
fn typed(maker: &mut Maker, levels: usize, items: usize) {
    maker.budget = 60 * items as i64;
    for _ in 0..maker.random.below(items) {
        let alias = maker.alias(levels);
        maker.items.push(alias);
    }
    for _ in 0..maker.random.below(items + 1) {
        maker.item(levels, false);
    }
    if maker.wrong > 0 && maker.random.chance(25) {
        let mut items = std::mem::take(&mut maker.items);
        maker.random.shuffle(&mut items);
        maker.items = items;
    }
}

/// A module with records at depth 64 or a little less.
fn deep(maker: &mut Maker) {
    maker.wrong = maker.wrong.min(3);
    typed(maker, 6, 3);
    let levels = MOST_DEPTH - 1 - [0, 0, 0, 1, 2, 20][maker.random.below(6)];
    maker.budget = 200;
    for _ in 0..maker.random.between(1, 3) {
        if maker.random.chance(20) {
            special::deep_type(maker, levels);
        } else {
            let function = maker.function(levels, true);
            maker.items.push(function);
        }
    }
}

/// A module of many thousand bytes, often exactly the most.
fn big(maker: &mut Maker) {
    let size = maker.random.between(20_000, MOST_BYTES);
    while maker.size() < size {
        maker.budget = 300;
        maker.item(10, false);
    }
    while maker.size() > MOST_BYTES {
        maker.items.pop();
    }
    if maker.random.chance(60) && maker.size() + 16 <= MOST_BYTES {
        let filling = vec![b'x'; MOST_BYTES - maker.size() - 16];
        let tree = maker.bytes(84, &[], &filling);
        maker.items.push(tree);
    }
}
