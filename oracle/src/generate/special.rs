//! Modules that aim at one thing: aliases, casts, literals, divergence, shared types, bytes that are no text.

use super::{maker::Maker, typed};
use crate::rows::{BOOL, I16, POINTER_TO_U16, STRING, U16, VOID};

/// Aliases of all sorts over few names, before and after their uses.
pub fn aliases(maker: &mut Maker) {
    let names = ["A0", "A1", "A2", "A3", "A4", "u16", "i16", "bool", "String", "void"];
    for _ in 0..maker.random.between(1, 14) {
        let target = *maker.random.pick(&names);
        let mut ty = match maker.random.below(10) {
            0 => maker.spell(VOID),
            1 => maker.spell(POINTER_TO_U16),
            _ => maker.named(target),
        };
        for _ in 0..maker.random.below(3) {
            ty = match maker.random.below(3) {
                0 => maker.tree(18, &[0], vec![ty]),
                1 => maker.tree(19, &[0, 3], vec![ty]),
                _ => {
                    let name = maker.name("m0");
                    let field = maker.tree(21, &[name], vec![ty]);
                    maker.tree(20, &[0], vec![field])
                }
            };
        }
        let name = *maker.random.pick(&names);
        let name = maker.name(name);
        let item = match maker.random.below(4) {
            0 => maker.tree(83, &[name], vec![ty]),
            1 => {
                let parameter = maker.tree(85, &[name], vec![ty.clone()]);
                maker.tree(80, &[name], vec![ty, parameter])
            }
            _ => {
                let flags = *maker.random.pick(&[0, 0, 1, 1, 2, 3]);
                maker.tree(81, &[name, flags], vec![ty])
            }
        };
        maker.items.push(item);
    }
    // Uses of everything that was declared.
    let mut members = vec![];
    for _ in 0..maker.random.below(8) {
        let e = maker.wild(3, false);
        members.push(maker.tree(65, &[], vec![e]));
    }
    let body = maker.tree(64, &[0], members);
    let returned = maker.spell(VOID);
    let name = maker.name("f");
    let function = maker.tree(80, &[name], vec![returned, body]);
    maker.items.push(function);
}

/// Casts and assignments between pairs of types that are alike but for aliases, arrays and pointers.
pub fn casts(maker: &mut Maker) {
    let types = match maker.random.below(4) {
        0 => layered_types(maker),
        1 => decaying_types(maker),
        _ => chained_types(maker),
    };
    let mut globals = vec![];
    for (i, &ty) in types.iter().enumerate() {
        let name = maker.name(format!("x{i}"));
        let tree = maker.spell(ty);
        let item = maker.tree(83, &[name], vec![tree]);
        maker.items.push(item);
        globals.push(name);
    }
    let mut members = vec![];
    for _ in 0..maker.random.between(5, 120) {
        let from = *maker.random.pick(&globals);
        let value = maker.tree(32, &[0, from], vec![]);
        if maker.random.chance(50) {
            let to = *maker.random.pick(&types);
            let tree = maker.spell(to);
            let cast = maker.tree(38, &[0], vec![value, tree]);
            members.push(maker.tree(65, &[], vec![cast]));
        } else {
            let to = *maker.random.pick(&globals);
            let target = maker.tree(32, &[0, to], vec![]);
            members.push(maker.tree(67, &[], vec![target, value]));
        }
    }
    let returned = maker.spell(VOID);
    let body = maker.tree(64, &[0], members);
    let name = maker.name("f");
    let function = maker.tree(80, &[name], vec![returned, body]);
    maker.items.push(function);
}

/// Declares an alias of a type; its row.
fn declare(maker: &mut Maker, name: &str, of: u32, distinct: bool) -> u32 {
    let name = maker.name(name);
    let tree = maker.spell(of);
    let item = maker.tree(81, &[name, u32::from(distinct)], vec![tree]);
    maker.items.push(item);
    maker.rows.alias(of, name, distinct)
}

/// Types under layers of aliases of both sorts, and pointers to them.
fn layered_types(maker: &mut Maker) -> Vec<u32> {
    let mut bases = vec![VOID, BOOL, U16, I16, STRING, POINTER_TO_U16];
    let array = maker.rows.array(U16, 4);
    let field = maker.name("m");
    let structure = maker.rows.structure(&[(field, U16)]);
    bases.extend([array, structure]);
    maker.random.shuffle(&mut bases);
    bases.truncate(maker.random.between(2, 8));
    let mut types = vec![];
    for chain in 0..maker.random.between(2, 5) {
        let mut ty = *maker.random.pick(&bases);
        types.push(ty);
        for layer in 0..maker.random.below(6) {
            let distinct = maker.random.chance(75);
            ty = declare(maker, &format!("D{chain}_{layer}"), ty, distinct);
            let pointer = maker.rows.pointer(ty);
            types.extend([ty, pointer]);
            if maker.random.chance(20) {
                ty = pointer;
            }
        }
    }
    types
}

/// Chains of aliases, all of them distinct or most, each over a type of some sort or over a link of those before: a common tail.
fn chained_types(maker: &mut Maker) -> Vec<u32> {
    let field = maker.name("m");
    let structure = maker.rows.structure(&[(field, U16)]);
    let pointer = maker.rows.pointer(BOOL);
    let mut types = vec![BOOL, U16, I16, POINTER_TO_U16, pointer, STRING, structure];
    maker.random.shuffle(&mut types);
    types.truncate(maker.random.between(1, 4));
    for chain in 0..maker.random.between(2, 5) {
        let mut ty = *maker.random.pick(&types);
        let distinct = *maker.random.pick(&[100, 80, 60]);
        let most = *maker.random.pick(&[2, 3, 4, 4, 5, 14]);
        for link in 0..maker.random.between(1, most) {
            let distinct = maker.random.chance(distinct);
            ty = declare(maker, &format!("D{chain}_{link}"), ty, distinct);
            types.push(ty);
        }
    }
    types
}

/// Pointers to arrays and to aliases of arrays, so that they decay or almost do.
fn decaying_types(maker: &mut Maker) -> Vec<u32> {
    let element = declare(maker, "E", U16, false);
    let mut types = vec![U16, element];
    for level in 0..maker.random.between(1, 2) {
        for (i, ty) in types.clone().into_iter().enumerate() {
            let array = maker.rows.array(ty, 4);
            let same = declare(maker, &format!("R{level}_{i}"), array, false);
            let distinct = declare(maker, &format!("D{level}_{i}"), array, true);
            types.extend([array, same, distinct].map(|pointee| maker.rows.pointer(pointee)));
            types.push(maker.rows.pointer(ty));
        }
        maker.random.shuffle(&mut types);
        types.truncate(8);
    }
    types
}

/// Literals near the edges, in every base.
pub fn literals(maker: &mut Maker) {
    let elements = (0..maker.random.between(1, 40))
        .map(|_| {
            if maker.random.chance(80) {
                return maker.odd_literal();
            }
            let base = maker.random.between(2, 36);
            let mut value = maker.random.between(65_530, 65_540);
            let mut digits = vec![];
            while value > 0 {
                let digit = char::from_digit((value % base) as u32, base as u32).unwrap() as u8;
                digits.insert(0, if maker.random.chance(50) { digit.to_ascii_uppercase() } else { digit });
                value /= base;
            }
            maker.bytes(33, &[0, base as u32], &digits)
        })
        .collect::<Vec<_>>();
    let element = maker.named("u16");
    let ty = maker.tree(19, &[0, elements.len() as u32], vec![element]);
    let compound = maker.tree(48, &[], elements);
    let name = maker.name("x");
    let item = maker.tree(83, &[name], vec![ty, compound]);
    maker.items.push(item);
}

/// Functions whose bodies are nothing but control flow.
pub fn statements(maker: &mut Maker) {
    for (name, flags) in [("V", 0), ("W", 1)] {
        let name = maker.name(name);
        let ty = maker.spell(VOID);
        let alias = maker.tree(81, &[name, flags], vec![ty]);
        maker.items.push(alias);
    }
    for number in 0..maker.random.between(1, 12) {
        let returned = match maker.random.below(6) {
            0 => maker.spell(VOID),
            1 => maker.named("V"),
            2 => maker.named("W"),
            _ => maker.named("u16"),
        };
        let body = flow(maker, 6);
        let name = maker.name(format!("f{number}"));
        let function = maker.tree(80, &[name], vec![returned, body]);
        maker.items.push(function);
    }
}

fn flow(maker: &mut Maker, levels: usize) -> crate::tree::Tree {
    let choice = if levels == 1 { maker.random.below(4) } else { maker.random.below(14) };
    match choice {
        0 => maker.tree(72, &[], vec![]),
        1 if levels > 1 => {
            let value = maker.literal();
            maker.tree(69, &[], vec![value])
        }
        1 | 2 => maker.tree(69, &[], vec![]),
        3 => maker.bytes(74, &[], b""),
        4 | 5 => {
            let members = (0..maker.random.below(4)).map(|_| flow(maker, levels - 1)).collect();
            maker.tree(64, &[0], members)
        }
        6 | 10..=12 => {
            let body = flow(maker, levels - 1);
            maker.tree(70, &[], vec![body])
        }
        7 => {
            let condition = maker.tree(34, &[0, 1], vec![]);
            let body = flow(maker, levels - 1);
            maker.tree(71, &[], vec![condition, body])
        }
        _ => {
            let condition = maker.tree(34, &[0, 0], vec![]);
            let sides = maker.random.between(1, 2);
            let mut children = vec![condition];
            for _ in 0..sides {
                children.push(flow(maker, levels - 1));
            }
            maker.tree(73, &[], children)
        }
    }
}

/// Aliases of structs that hold the alias before twice, so that the types unfold to very many.
pub fn doubling(maker: &mut Maker) {
    let count = if maker.random.chance(70) { maker.random.between(2, 10) } else { maker.random.between(11, 60) };
    let (a, b) = (maker.name("a"), maker.name("b"));
    let mut inner = maker.name("u16");
    for i in 0..count {
        let mut fields = vec![];
        for name in [a, b] {
            let ty = maker.tree(16, &[0, inner], vec![]);
            fields.push(maker.tree(21, &[name], vec![ty]));
        }
        let structure = maker.tree(20, &[0], fields);
        inner = maker.name(format!("A{i}"));
        let flags = maker.random.below(2) as u32;
        let item = maker.tree(81, &[inner, flags], vec![structure]);
        maker.items.push(item);
    }
    let ty = maker.tree(16, &[0, inner], vec![]);
    let x = maker.name("x");
    let target = maker.tree(32, &[0, x], vec![]);
    let value = maker.tree(41, &[0, a], vec![target]);
    let item = maker.tree(83, &[x], vec![ty, value]);
    maker.items.push(item);
}

/// A long chain of aliases, each of the one before or of a pointer to it, or two, the second over bool or over a link of the first.
pub fn chain(maker: &mut Maker) {
    let count = maker.random.between(3, 700);
    let distinct = *maker.random.pick(&[0, 2, 100]);
    let mut inner = maker.name("u16");
    let second = maker.random.below(2 * count);
    for i in 0..count {
        if i == second {
            inner = if maker.random.chance(50) { maker.name("bool") } else { maker.random.below(i + 1) as u32 };
        }
        let mut ty = maker.tree(16, &[0, inner], vec![]);
        if maker.random.chance(5) {
            ty = maker.tree(18, &[0], vec![ty]);
        }
        inner = maker.name(format!("C{i}"));
        let flags = u32::from(maker.random.chance(distinct));
        let item = maker.tree(81, &[inner, flags], vec![ty]);
        maker.items.push(item);
    }
    for _ in 0..maker.random.between(1, 4) {
        let names: Vec<u32> = (0..2).map(|_| maker.random.below(maker.names().len()) as u32).collect();
        let x = maker.name("x");
        let ty = maker.tree(16, &[0, names[0]], vec![]);
        let value = maker.tree(32, &[0, x], vec![]);
        let to = maker.tree(16, &[0, names[1]], vec![]);
        let value = maker.tree(38, &[0], vec![value, to]);
        let item = maker.tree(83, &[x], vec![ty, value]);
        maker.items.push(item);
    }
}

/// Structs behind aliases, their fields read and written by right and wrong names.
pub fn structs(maker: &mut Maker) {
    let mut types = vec![];
    for i in 0..maker.random.between(1, 4) {
        let count = maker.random.below(5);
        let fields: Vec<(u32, u32)> = (0..count).map(|_| (maker.some_name("m", 6), maker.some_type(3))).collect();
        let structure = maker.rows.structure(&fields);
        let name = maker.name(format!("S{i}"));
        let distinct = maker.random.chance(25);
        let tree = maker.spell(structure);
        let item = maker.tree(81, &[name, u32::from(distinct)], vec![tree]);
        maker.items.push(item);
        let alias = maker.rows.alias(structure, name, distinct);
        maker.aliases.push((name, alias));
        types.extend([structure, alias]);
    }
    for i in 0..maker.random.between(1, 6) {
        let ty = *maker.random.pick(&types);
        let tree = maker.spell(ty);
        let name = maker.name(format!("g{i}"));
        let mut children = vec![tree];
        if maker.random.chance(50) {
            children.push(maker.compound(ty, 5));
        }
        let item = maker.tree(83, &[name], children);
        maker.items.push(item);
        maker.globals.push((name, ty));
    }
    let mut members = vec![];
    for _ in 0..maker.random.below(12) {
        let (name, ty) = *maker.random.pick(&maker.globals);
        let target = maker.tree(32, &[0, name], vec![]);
        if maker.random.chance(40) {
            let compound = maker.compound(ty, 5);
            members.push(maker.tree(68, &[], vec![target, compound]));
        } else {
            let field = maker.some_name("m", 6);
            let access = maker.tree(41, &[0, field], vec![target]);
            let value = maker.expression(U16, 4, false);
            members.push(maker.tree(67, &[], vec![access, value]));
        }
    }
    let returned = maker.spell(VOID);
    let body = maker.tree(64, &[0], members);
    let name = maker.name("f");
    let function = maker.tree(80, &[name], vec![returned, body]);
    maker.items.push(function);
}

/// A typed module in which some names and literals are no UTF-8.
pub fn bytes(maker: &mut Maker) {
    for i in 0..4u8 {
        maker.name([0xff, i]);
    }
    maker.name([0xc3]);
    typed(maker, 6, 6);
    for digits in [&[0xb2u8][..], &[b'1', 0xff], &[0xc3, 0xa9]] {
        let literal = maker.bytes(33, &[0, 10], digits);
        let ty = maker.named("u16");
        let name = maker.any_name();
        let item = maker.tree(83, &[name], vec![ty, literal]);
        maker.items.push(item);
    }
}

/// A global whose declared type has so many levels, less the item's own.
pub fn deep_type(maker: &mut Maker, levels: usize) {
    let name = *maker.random.pick(&["u16", "bool", "nowhere"]);
    let mut ty = maker.named(if maker.wrong == 0 { "i16" } else { name });
    let mut made = 1;
    while made + 2 < levels {
        match maker.random.below(3) {
            0 if made + 3 < levels => {
                let name = maker.name("m");
                let field = maker.tree(21, &[name], vec![ty]);
                ty = maker.tree(20, &[0], vec![field]);
                made += 2;
            }
            1 => {
                ty = maker.tree(19, &[0, 1], vec![ty]);
                made += 1;
            }
            _ => {
                ty = maker.tree(18, &[0], vec![ty]);
                made += 1;
            }
        }
    }
    if made + 1 < levels {
        ty = maker.tree(18, &[0], vec![ty]);
    }
    let name = maker.name("x");
    let item = maker.tree(83, &[name], vec![ty]);
    maker.items.push(item);
}
