//! Document 02's paper 5 on the reference: the pointer behind an alias, and that a sentence which is not so is noticed.

use oracle::{
    footprint::{Asked, Footprint},
    ir::{IntegerSize, Type as Direct},
    relate,
    rows::{BOOL, POINTER_TO_U16, Rows, U16},
    type_check::Type,
};

fn u16_type() -> Type {
    Type::Direct(Direct::UnsignedInteger(IntegerSize::Bits16))
}

fn array(ty: Type) -> Type {
    Type::Array(Box::new(ty), 2)
}

fn alias(ty: Type) -> Type {
    Type::Aliased(Box::new(ty), "A".to_owned())
}

/// The sentence that is broken by a target and a source of which this is said.
fn broken(target: Type, source: Type, assignable: bool, castable: bool) -> Option<String> {
    Footprint::default().count(&Asked::new(target), &Asked::new(source), assignable, castable).err()
}

/// The rows of crates/relations/specs/Decay.antt: 8 an alias of the pointer to u16, 10 a pointer to an array of u16, 11 an alias of it.
#[test]
fn pointers_behind_aliases() {
    let mut rows = Rows::new();
    assert_eq!(rows.alias(POINTER_TO_U16, 0, false), 8);
    let array = rows.array(U16, 4);
    assert_eq!(rows.pointer(array), 10);
    assert_eq!(rows.alias(10, 1, false), 11);
    let related = relate::related(&rows).unwrap();
    let assignable = |target, source| related.pair(related.place(target).unwrap(), related.place(source).unwrap()).0;
    let castable =
        |source, target| related.pair(related.place(source).unwrap(), related.place(target).unwrap()).1.castable;
    assert!(assignable(6, 10) && castable(10, 6));
    assert!(assignable(6, 11) && !castable(11, 6));
    assert!(assignable(8, 10) && !castable(10, 8));
    // Each row and itself; rows 6 and 8, 10 and 11 both ways; a decay to 6 or 8 from 10 or 11, which cannot be cast with an alias on a side.
    // Castable from 2, 3 and 9 one row each, from 5 and 11 two, from 8 three, from 4, 6, 7 and 10 five.
    let expected = Footprint {
        same_backend: 11 - 1 + 4 + 4,
        both_unknown: 1,
        same_words: 30,
        castable: 9 + 1,
        alias_castable: 2 + 4,
        alias_not_castable: 3,
    };
    assert_eq!(related.footprint, expected);
}

#[test]
fn unknown_behind_a_pointer() {
    let mut rows = Rows::new();
    let pointer = rows.pointer(1);
    rows.structure(&[(0, BOOL), (1, pointer)]);
    rows.structure(&[(0, BOOL), (1, 1)]);
    let related = relate::related(&rows).unwrap();
    assert_eq!(related.footprint.both_unknown, 2);
}

#[test]
fn broken_sentences() {
    let (one, two) = (u16_type, || array(u16_type()));
    assert_eq!(broken(one(), one(), true, true), None);
    assert_eq!(broken(one(), two(), false, false), None);
    assert_eq!(broken(alias(one()), one(), true, false), None);
    assert_eq!(broken(Type::Unknown, Type::Unknown, true, true), None);
    assert!(broken(one(), two(), true, false).unwrap().contains("backend"));
    assert!(broken(one(), Type::Unknown, true, true).unwrap().contains("backend"));
    assert!(broken(one(), two(), false, true).unwrap().contains("2 words"));
    assert!(broken(Type::Unknown, one(), false, true).unwrap().contains("1 words"));
    assert!(broken(one(), one(), true, false).unwrap().contains("not castable"));
}
