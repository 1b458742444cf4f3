//! Demand 3: the orders of a module's items that it speaks of, and whether two runs agree as it says.

use std::collections::HashSet;

use crate::{
    answer::{Answer, Error, LITERAL_ERROR, Operand, texts},
    layout::{self, Module, Record},
    tree::Random,
};

/// An alias that is not internal.
fn is_stored_alias(item: &Record) -> bool {
    item.kind == 81 && item.fields[1] < 2
}

/// The names in a declared type or a parameter.
fn names_in(record: &Record, into: &mut HashSet<u32>) {
    match record.kind {
        16 => {
            into.insert(record.fields[1]);
        }
        18..=21 | 85 => record.children.iter().for_each(|child| names_in(child, into)),
        _ => {}
    }
}

/// The names of such aliases that an item's declared types name.
fn needs(item: &Record, aliases: &HashSet<u32>) -> HashSet<u32> {
    let mut named = HashSet::new();
    item.children.iter().for_each(|child| names_in(child, &mut named));
    named.retain(|name| aliases.contains(name));
    named
}

fn alias_names(module: &Module) -> HashSet<u32> {
    module.items.iter().filter(|item| is_stored_alias(item)).map(|item| item.fields[0]).collect()
}

/// Whether demand 3 speaks of a module in its order: no name declared twice, aliases before the items that name them.
pub fn is_supposed(module: &Module) -> bool {
    let all = alias_names(module);
    let (mut globals, mut aliases) = (HashSet::new(), HashSet::new());
    for item in &module.items {
        if needs(item, &all).iter().any(|name| !aliases.contains(name)) {
            return false;
        }
        let fresh = match item.kind {
            80 | 83 => globals.insert(item.fields[0]),
            81 if is_stored_alias(item) => aliases.insert(item.fields[0]),
            _ => true,
        };
        if !fresh {
            return false;
        }
    }
    true
}

/// Another order of the items that demand 3 speaks of, drawn from a seed; none if it does not speak of the module.
pub fn another_order(bytes: &[u8], seed: u64) -> Option<Vec<u8>> {
    let module = layout::read(bytes).ok().filter(is_supposed)?;
    let all = alias_names(&module);
    let mut left: Vec<(&Record, HashSet<u32>)> = module.items.iter().map(|item| (item, needs(item, &all))).collect();
    let mut random = Random::new(seed);
    let mut placed = HashSet::new();
    let mut out = bytes[..module.items_start()].to_vec();
    while !left.is_empty() {
        let ready: Vec<usize> = (0..left.len()).filter(|&i| left[i].1.is_subset(&placed)).collect();
        let (item, _) = left.remove(*random.pick(&ready));
        out.extend(&bytes[item.place..item.place + item.length]);
        if is_stored_alias(item) {
            placed.insert(item.fields[0]);
        }
    }
    Some(out)
}

/// The place of an error in its file, that of a literal counted from the start of its item (document 02, paper 1).
fn place_in_item(module: &Module, error: &Error) -> usize {
    let place = error.place as usize;
    let holds = |item: &&Record| item.place <= place && place < item.place + item.length;
    match module.items.iter().find(holds) {
        Some(item) if error.kind == LITERAL_ERROR => place - item.place,
        _ => place,
    }
}

/// The errors with their types unfolded and their places counted from the start of their items, sorted.
fn error_texts(bytes: &[u8], answer: &Answer) -> Vec<String> {
    let module = layout::read(bytes).expect("an accepted module");
    let texts = texts(&answer.rows);
    let operand = |operand: Operand| match operand {
        Operand::Number(number) => number.to_string(),
        Operand::Row(row) => texts[row as usize - 1].clone(),
    };
    let mut all: Vec<String> = answer
        .errors
        .iter()
        .map(|error| {
            let operands = error.operands.map(operand).join(" ");
            format!("{} {:?} {operands} {}", error.kind, error.at, place_in_item(&module, error))
        })
        .collect();
    all.sort();
    all
}

/// An item's bytes with the types of its slots, unfolded, by their places in the item.
type ItemText = (Vec<u8>, Vec<(usize, String)>);

/// The items of a module, sorted.
fn item_texts(bytes: &[u8], answer: &Answer) -> Vec<ItemText> {
    let module = layout::read(bytes).expect("an accepted module");
    let texts = texts(&answer.rows);
    let mut slots = answer.slots.clone();
    slots.sort();
    let mut all = vec![];
    for item in &module.items {
        let within = item.place..item.place + item.length;
        let from = slots.partition_point(|slot| slot.0 < within.start);
        let inside = slots[from..].iter().take_while(|slot| slot.0 < within.end);
        let inside = inside.map(|&(place, row)| (place - item.place, texts[row as usize - 1].clone())).collect();
        all.push((bytes[within].to_vec(), inside));
    }
    all.sort();
    all
}

/// What differs, against demand 3, between the answers to a module and to another order of it.
pub fn difference(one: (&[u8], &Answer), two: (&[u8], &Answer)) -> Option<&'static str> {
    if one.1.rows.count() != two.1.rows.count() {
        Some("the counts of rows")
    } else if error_texts(one.0, one.1) != error_texts(two.0, two.1) {
        Some("the errors")
    } else if item_texts(one.0, one.1) != item_texts(two.0, two.1) {
        Some("an item's tree")
    } else {
        None
    }
}
