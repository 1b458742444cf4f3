//! What `messages` has to answer: the texts of each kind by hand, test 8 sentence by sentence, the order of the tests, what is left.

mod common;

use common::*;
use oracle::{
    answer::{ERROR_KINDS, ERROR_WIDTH},
    ask::Base,
    compare, generate, message_cases,
    messages::{self, pieces},
    product::FILL,
    rows::{ROW_WIDTH, Rows, kind},
    tell::{LONGEST, Question},
    tree::{Random, Tree},
};

/// The names of the module by hand, and its literals: one that is not out of range too.
const NAMES: [&str; 7] = ["u16", "i16", "bool", "String", "A", "x", ""];
const DIGITS: [&str; 2] = ["70000", ""];

fn module_by_hand() -> Vec<u8> {
    let value = record(45, &[0, 1], vec![literal(DIGITS[0], 10), literal(DIGITS[1], 16)]);
    Tree::module(&NAMES, vec![global_with(5, ty(0), value)]).to_bytes()
}

/// Where its literals stand.
const LITERALS: [u32; 2] = [230, 259];

/// Rows behind the seven: `[4]u16`, A for it, a distinct alias x of A, a struct of both, the empty one, a function that takes two, the alias
/// without a name.
fn rows_by_hand() -> Rows {
    let mut rows = Rows::new();
    let array = rows.array(4, 4);
    let alias = rows.alias(array, 4, false);
    let distinct = rows.alias(alias, 5, true);
    let structure = rows.structure(&[(5, alias), (6, distinct)]);
    let empty = rows.structure(&[]);
    rows.function(structure, &[7, empty]);
    rows.alias(empty, 6, true);
    rows
}

const ARRAY: u32 = 8;
const ALIAS: u32 = 9;
const DISTINCT: u32 = 10;
const FIELD: u32 = 11;
const STRUCT: u32 = 13;
const EMPTY: u32 = 14;
const FUNCTION: u32 = 17;
const NAMELESS: u32 = 18;

fn question(errors: &[[u32; ERROR_WIDTH]]) -> Question {
    let rows = rows_by_hand();
    Question::new(&module_by_hand(), &rows.row_words(), rows.count(), &errors.concat(), errors.len())
}

/// The number that is told, or the text.
fn told(question: &Question) -> Result<String, (u32, usize)> {
    let told = question.due().told;
    match told.number {
        0 => Ok(String::from_utf8(told.text[..told.length].to_vec()).unwrap()),
        number => Err((number, told.place)),
    }
}

/// An error of these operands, with words that no message reads.
fn error(kind: u32, [a, b, c]: [u32; 3]) -> [u32; ERROR_WIDTH] {
    [kind, 7, 8, 9, a, b, c, 12]
}

#[test]
fn the_rows_by_hand() {
    let rows = rows_by_hand();
    let kinds = [ARRAY, ALIAS, DISTINCT, FIELD, STRUCT, EMPTY, FUNCTION, NAMELESS].map(|number| rows.row(number).kind);
    assert_eq!(
        kinds,
        [
            kind::ARRAY,
            kind::ALIAS,
            kind::DISTINCT,
            kind::FIELD,
            kind::STRUCT,
            kind::STRUCT,
            kind::FUNCTION,
            kind::DISTINCT
        ]
    );
    assert_eq!(rows.count(), NAMELESS as usize);
    let module = oracle::layout::read(&module_by_hand()).unwrap();
    let mut places: Vec<u32> = oracle::tell::literals(&module).into_keys().collect();
    places.sort();
    assert_eq!(places, LITERALS);
}

#[test]
fn texts_of_types() {
    let alias = "A (alias for [4]u16)";
    let structure = format!("struct {{ x: {alias}, : x }}");
    let function = format!("fn(String, struct {{  }}) -> {structure}");
    let texts = [
        (1, "<unknown>"),
        (2, "void"),
        (3, "bool"),
        (4, "u16"),
        (5, "i16"),
        (6, "*u16"),
        (7, "String"),
        (ARRAY, "[4]u16"),
        (ALIAS, alias),
        (DISTINCT, "x"),
        (STRUCT, &structure),
        (EMPTY, "struct {  }"),
        (FUNCTION, &function),
        (NAMELESS, ""),
    ];
    for (row, text) in texts {
        let asked = question(&[error(13, [row, 0, 0])]);
        assert_eq!(told(&asked), Ok(format!("cannot call non-function value of type `{text}`\n")));
        assert_eq!(asked.due().told.work[row as usize - 1] as usize, text.len());
    }
    // A cell's text is that of its member and of those that follow.
    let work = question(&[]).due().told.work;
    assert_eq!(work[FIELD as usize - 1] as usize, ": x".len());
    assert_eq!(work[FIELD as usize] as usize, format!("x: {alias}, : x").len());
}

#[test]
fn texts_of_each_kind() {
    let texts = [
        (1, [5, 0, 0], "unknown type `x`"),
        (2, [0, 0, 0], "no built-in type exists to match `internal` alias of `u16`"),
        (
            3,
            [1, STRUCT, 0],
            "built-in type `i16` (i16) does not match `internal` definition (struct { x: A (alias for [4]u16), : x })",
        ),
        (3, [3, DISTINCT, 0], "built-in type `String` (String) does not match `internal` definition (x)"),
        (4, [6, 0, 0], "duplicate type alias ``"),
        (5, [2, 0, 0], "type alias `bool` conflicts with a built-in type"),
        (6, [5, 0, 0], "not all control-flow paths of `x` return a value"),
        (7, [4, 0, 0], "redefinition of local variable `A`"),
        (8, [4, 5, 0], "type `i16` is not assignable to `u16`"),
        (9, [7, 0, 0], "must return a value of type `String`"),
        (10, [5, 0, 0], "unknown identifier `x`"),
        (11, [0, u32::MAX, 0], "wrong number of arguments - expected 0, got 4294967295"),
        (12, [10, 4, 5], "invalid type for argument 10 - expected `u16`, got `i16`"),
        (13, [EMPTY, 0, 0], "cannot call non-function value of type `struct {  }`"),
        (14, [3, 0, 0], "cannot use `bool` to index an array"),
        (15, [4, 5, 0], "cannot cast `u16` to `i16`"),
        (16, [1, 0, 0], "cannot dereference non-pointer type `<unknown>`"),
        (17, [ALIAS, 0, 0], "cannot access fields on type `A (alias for [4]u16)`"),
        (18, [EMPTY, 6, 0], "type `struct {  }` has no field named ``"),
        (19, [2, 0, 0], "operator `~` is not compatible with type `void`"),
        (20, [6, 0, 0], "operator `!` can only be applied to booleans, not `*u16`"),
        (21, [4, 0, 0], "operator `&&` can only be applied to booleans, but left-hand side is `u16`"),
        (22, [5, 0, 0], "operator `&&` can only be applied to booleans, but right-hand side is `i16`"),
        (24, [1, 4, 5], "operator `+` is not compatible with types `u16` and `i16`"),
        (24, [6, 4, 5], "operator `|` is not compatible with types `u16` and `i16`"),
        (24, [7, 4, ALIAS], "operator `<<` is not compatible with types `u16` and `A (alias for [4]u16)`"),
        (24, [8, 4, 5], "operator `>>` is not compatible with types `u16` and `i16`"),
        (24, [9, 5, 4], "operator `==` is not compatible with types `i16` and `u16`"),
        (25, [1, 20, 0], "compound assignment target has length 1, but array compound has length 20"),
        (26, [NAMELESS, 0, 0], "target of array compound assignment cannot be ``"),
        (27, [5, 0, 0], "target of struct compound assignment has no field named `x`"),
        (28, [3, 0, 0], "target of struct compound assignment cannot be `bool`"),
        (29, [5, 0, 0], "struct compound assigns `x` more than once"),
    ];
    for (kind, operands, text) in texts {
        assert_eq!(told(&question(&[error(kind, operands)])), Ok(format!("{text}\n")), "kind {kind}");
    }
    for (place, digits) in LITERALS.into_iter().zip(DIGITS) {
        let mut words = error(23, [0; 3]);
        words[7] = place;
        assert_eq!(told(&question(&[words])), Ok(format!("integer literal '{digits}' out of range\n")));
    }
    let three = question(&[error(14, [3, 0, 0]), error(4, [0, 0, 0]), error(14, [4, 0, 0])]);
    let lines = "cannot use `bool` to index an array\nduplicate type alias `u16`\ncannot use `u16` to index an array\n";
    assert_eq!(told(&three), Ok(lines.to_owned()));
}

/// String is printed as the lent text, wherever it is a type; the names are the module's.
#[test]
fn another_text_for_string() {
    let mut asked = question(&[error(3, [3, 7, 0]), error(1, [3, 0, 0]), error(8, [4, 7, 0])]);
    asked.built_in = b"Text".to_vec();
    asked.text = 1_000;
    let lines = "built-in type `String` (Text) does not match `internal` definition (Text)\nunknown type `String`\ntype `Text` is not assignable to `u16`\n";
    assert_eq!(told(&asked), Ok(lines.to_owned()));
}

/// Each sentence of test 8 is refused, and the same word is taken where no message reads it.
#[test]
fn test_8() {
    let mut random = Random::new(8);
    let base = Base::new(question(&[error(13, [4, 0, 0]), error(10, [5, 0, 0])])).unwrap();
    let breaches = base.breaches(&mut random);
    assert!(breaches.len() > 150, "{}", breaches.len());
    for (what, breach) in breaches {
        assert_eq!(told(&base.broken(&breach, &mut random)), Err((8, 0)), "{what}");
    }
    for kind in 1..=ERROR_KINDS {
        let mut words = base.stock().readable(kind, &mut random).unwrap();
        let read: Vec<usize> = pieces(kind).iter().map(|piece| piece.word).collect();
        let text = told(&question(&[words]));
        assert!(text.is_ok(), "kind {kind}");
        for word in (0..ERROR_WIDTH).filter(|word| *word != messages::KIND && !read.contains(word)) {
            for value in [0, 1, 10, 65_535, 65_536, u32::MAX] {
                words[word] = value;
                assert_eq!(told(&question(&[words])), text, "kind {kind}, word {word}");
            }
        }
    }
}

#[test]
fn order_of_the_tests() {
    // Everything is wrong: the module's slot, the rows, the errors, the working words, the text.
    let mut asked = question(&[error(13, [4, 0, 0])]);
    let needed = asked.text;
    let slot = LITERALS[0] as usize + 16;
    asked.module[slot] = 4;
    asked.rows[4] += 1;
    asked.work = 0;
    asked.text = needed - 1;
    assert_eq!(told(&asked), Err((2, slot)));
    asked.module[slot] = 0;
    assert_eq!(told(&asked), Err((8, 0)));
    asked.rows[4] -= 1;
    assert_eq!(told(&asked), Err((5, 0)));
    asked.work = asked.row_count as usize - 1;
    assert_eq!(told(&asked), Err((5, 0)));
    asked.work += 1;
    assert_eq!(told(&asked), Err((9, needed)));
    asked.text += 1;
    assert_eq!(told(&asked).map(|text| text.len()), Ok(needed));
}

/// What is left: working words of rows alone where lengths are worked out, nothing else if the text is not written.
#[test]
fn what_is_left() {
    let mut asked = question(&[error(13, [4, 0, 0])]);
    let needed = asked.text;
    let rows = asked.row_count as usize;
    asked.work += 2;
    asked.text += 3;
    let accepted = asked.due().told;
    assert_eq!((accepted.number, accepted.length, accepted.place), (0, needed, 0));
    assert_eq!(accepted.text[needed..], [FILL as u8; 3]);
    assert_eq!(accepted.work[rows..], [FILL; 2]);
    asked.text = needed - 1;
    let refused = asked.due().told;
    assert_eq!((refused.number, refused.length, refused.place), (9, 0, needed));
    assert_eq!(refused.work, accepted.work);
    assert!(refused.text.iter().all(|&byte| byte == FILL as u8));
    asked.work = rows - 1;
    let refused = asked.due().told;
    assert_eq!((refused.number, refused.length, refused.place), (5, 0, 0));
    assert!(refused.work.iter().all(|&word| word == FILL) && refused.text.iter().all(|&byte| byte == FILL as u8));
}

#[test]
fn the_empty_file() {
    let rows = Rows::new();
    let ask =
        |errors: &[[u32; ERROR_WIDTH]]| told(&Question::new(&[], &rows.row_words(), 7, &errors.concat(), errors.len()));
    assert_eq!(ask(&[]), Ok(String::new()));
    assert_eq!(ask(&[error(13, [3, 0, 0])]), Ok("cannot call non-function value of type `bool`\n".to_owned()));
    for wrong in [error(1, [0; 3]), [23, 0, 0, 0, 0, 0, 0, 0], error(3, [0, 4, 0])] {
        assert_eq!(ask(&[wrong]), Err((8, 0)));
    }
    let mut words = rows.row_words();
    words.extend([kind::ALIAS, 4, 0, 0, 1]);
    assert_eq!(told(&Question::new(&[], &words, 8, &[], 0)), Err((8, 0)));
    assert_eq!(told(&Question::new(&[], &words, 7, &[], 0)), Ok(String::new()));
}

/// Each struct has the one before twice: the lengths double, and are counted no further than one past the longest.
#[test]
fn shared_parts() {
    let mut rows = Rows::new();
    let mut lengths = vec![3u64];
    let mut last = 4;
    for _ in 0..400 {
        last = rows.structure(&[(4, last), (5, last)]);
        lengths.push((2 * lengths.last().unwrap() + "struct { A: , x:  }".len() as u64).min(LONGEST + 1));
    }
    let ask = |row: u32, errors: usize| {
        let errors = vec![error(26, [row, 0, 0]); errors];
        Question::new(&module_by_hand(), &rows.row_words(), rows.count(), &errors.concat(), errors.len())
    };
    let around = "target of array compound assignment cannot be ``\n".len();
    for (number, &length) in lengths.iter().enumerate().skip(1) {
        let row = rows
            .row_words()
            .chunks(ROW_WIDTH)
            .enumerate()
            .filter(|(_, row)| row[0] == kind::STRUCT)
            .nth(number - 1)
            .unwrap()
            .0 as u32
            + 1;
        let asked = ask(row, 1);
        let needed = (length + around as u64).min(LONGEST + 1) as usize;
        assert_eq!(asked.text, needed);
        assert_eq!(
            told(&asked).map(|text| text.len()),
            if needed > LONGEST as usize { Err((9, needed)) } else { Ok(needed) }
        );
        assert_eq!(u64::from(asked.due().told.work[row as usize - 1]), length);
    }
    assert_eq!(told(&ask(last, 0)), Ok(String::new()));
}

/// Questions drawn from modules: each number that can be told is, and most kinds are printed.
#[test]
fn drawn_questions() {
    let mut counts = [0; 10];
    let mut kinds = [0; ERROR_KINDS as usize + 1];
    for seed in 0..400 {
        let bytes = generate::module("mixed", seed);
        let Ok((_, answer)) = compare::truth(&bytes).unwrap().outcome else { continue };
        let errors: Vec<u32> = answer.errors.iter().flat_map(|error| error.words()).collect();
        let asked = Question::new(&bytes, &answer.rows.row_words(), answer.rows.count(), &errors, answer.errors.len());
        let base = Base::new(asked).unwrap();
        let mut random = Random::new(seed);
        for _ in 0..10 {
            let due = base.drawn(&mut random).due();
            counts[due.told.number as usize] += 1;
            due.lines.iter().for_each(|line| kinds[line.0 as usize] += 1);
        }
    }
    assert!([0, 2, 5, 8, 9].iter().all(|&number| counts[number] > 50), "{counts:?}");
    assert!(kinds[1..].iter().all(|&lines| lines > 10), "{kinds:?}");
}

/// The cases of messages in `replay` are of the form that docs/REPLAY.md has, and enough of each sort.
#[test]
fn cases_of_the_program() {
    let cases = message_cases::cases(200).unwrap();
    let word = |place: usize| u32::from_le_bytes(cases.bytes[place..place + 4].try_into().unwrap()) as usize;
    let (mut place, mut count, mut told) = (0, 0, [0; 10]);
    while place < cases.bytes.len() {
        let head: Vec<usize> = (0..13).map(|i| word(place + 4 * i)).collect();
        let [total, 1, module, rows, _, errors, _, built_in, _, lent, number, length, text] = head[..] else { panic!() };
        assert_eq!(total, 52 + module + 4 * rows + 4 * errors + built_in + text);
        assert!(text <= lent && if number == 0 { text == length } else { text == 0 });
        told[number] += 1;
        place += total;
        count += 1;
    }
    assert_eq!((place, count, told), (cases.bytes.len(), cases.names.len(), cases.told));
    assert!(told[0] >= 200 && told[8] >= 100 && told[1] > 0, "{told:?}");
    assert!([2, 3, 4, 5, 9].iter().all(|&number| told[number] >= 20), "{told:?}");
}
