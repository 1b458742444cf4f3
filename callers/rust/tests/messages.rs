//! Messages: the texts of rows and errors by hand, test 8 sentence by sentence, what is lent exactly and one short, the longest text.
mod common;

use std::time::{Duration, Instant};

use common::{BOOL, FIXED, I16, STRING, U16, module, record, refused, with_fixed};
use delta_null_type_check::{Counts, ERROR_WORDS, LONGEST_TEXT, ROW_WORDS, Refused};
use delta_null_type_check::{messages, type_check_module};

type Row = [u32; ROW_WORDS];
type Error = [u32; ERROR_WORDS];

/// The names of the module, by their numbers.
const NAMES: [&[u8]; 7] = [b"u16", b"i16", b"bool", b"String", b"A", b"x", b""];
const A: u32 = 4;
const X: u32 = 5;
const EMPTY: u32 = 6;

/// The kinds of rows that have a name.
const NAMED: [u32; 3] = [10, 11, 12];

/// What stands in every lent word and byte before a call.
const FILL: u8 = 9;

/// A type record by its name, a literal, and a variable of type u16 with a value.
fn named_type(name: u32) -> Vec<u8> {
    record(16, &[0, name], &[])
}

fn literal(digits: &[u8]) -> Vec<u8> {
    record(33, &[0, 10], &[digits])
}

fn variable(name: u32, value: &[u8]) -> Vec<u8> {
    record(83, &[name], &[&named_type(0), value])
}

/// The module: `x: u16 = 70000`; the literal is its last record.
fn input() -> Vec<u8> {
    module(&NAMES, &[&variable(X, &literal(b"70000"))])
}

fn literal_place() -> u32 {
    (input().len() - literal(b"70000").len()) as u32
}

/// The rows behind the seven: `[4]u16`, an alias A of it, a distinct alias x of A, the cells of the struct of both and the struct, the
/// empty struct, the cells of the function that takes String and the empty struct, and the function, which returns the struct.
const ROWS: [Row; 10] = [
    [7, 4, 4, 0, 4],
    [10, 8, 0, A, 4],
    [11, 9, 0, X, 4],
    [12, 10, 0, EMPTY, 4],
    [12, 9, 11, X, 8],
    [8, 12, 0, 0, 8],
    [8, 0, 0, 0, 0],
    [13, 14, 0, 0, 0],
    [13, 7, 15, 0, 0],
    [9, 13, 16, 0, 1],
];
const ARRAY: u32 = 8;
const ALIAS: u32 = 9;
const DISTINCT: u32 = 10;
const FIELD: u32 = 11;
const STRUCT: u32 = 13;
const NO_FIELDS: u32 = 14;
const ARGUMENT: u32 = 15;
const FUNCTION: u32 = 17;
const COUNT: u32 = 17;

/// What is asked: the messages of errors over a module and rows, with so much lent. All rows and errors count.
#[derive(Clone)]
struct Question {
    input: Vec<u8>,
    rows: Vec<u32>,
    errors: Vec<u32>,
    counts: Counts,
    built_in: Vec<u8>,
    work: usize,
    text: usize,
}

fn ask(input: &[u8], rows: &[u32], errors: &[Error]) -> Question {
    let rows_lent = rows.len() / ROW_WORDS;
    Question {
        input: input.to_vec(),
        rows: rows.to_vec(),
        errors: errors.concat(),
        counts: Counts { rows: rows_lent as u32, errors: errors.len() },
        built_in: b"String".to_vec(),
        work: rows_lent,
        text: 1000,
    }
}

/// The same of the module and rows above.
fn of(errors: &[Error]) -> Question {
    ask(&input(), &with_fixed(&ROWS), errors)
}

/// What a call leaves.
struct Told {
    answer: Result<usize, Refused>,
    work: Vec<u32>,
    text: Vec<u8>,
}

impl Question {
    fn tell(&self) -> Told {
        let (mut work, mut text) = (vec![FILL as u32; self.work], vec![FILL; self.text]);
        let answer = messages(&self.input, &self.rows, &self.errors, self.counts, &self.built_in, &mut work, &mut text);
        Told { answer, work, text }
    }

    /// The text, where the question is accepted.
    fn text(&self) -> Result<String, Refused> {
        let told = self.tell();
        told.answer.map(|length| String::from_utf8(told.text[..length].to_vec()).unwrap())
    }

    /// The number and the place of the refusal, by which everything lent is as it was.
    fn refused_untouched(&self, number: u32, place: usize, what: &str) {
        let told = self.tell();
        assert_eq!(told.answer, refused(number, place), "{what}");
        assert!(told.work.iter().all(|&w| w == FILL as u32) && told.text.iter().all(|&b| b == FILL), "{what}");
    }

    fn unsound(&self, what: &str) {
        self.refused_untouched(8, 0, what);
    }
}

/// An error of a kind and its operands; the words that its message does not read are any.
fn error(kind: u32, [a, b, c]: [u32; 3]) -> Error {
    [kind, 70000, u32::MAX, 8, a, b, c, 65535]
}

/// An error of a literal at a place.
fn literal_error(place: u32) -> Error {
    [23, 0, 0, 0, u32::MAX, 65535, 30, place]
}

/// The texts of every sort of type, each between the same words, and their lengths as the working words have them.
#[test]
fn types() {
    let alias = "A (alias for [4]u16)";
    let fields = format!("x: {alias}, : x");
    let structure = format!("struct {{ {fields} }}");
    let function = format!("fn(String, struct {{  }}) -> {structure}");
    let texts = [
        (1, "<unknown>"),
        (2, "void"),
        (3, "bool"),
        (4, "u16"),
        (5, "i16"),
        (6, "*u16"),
        (7, "String"),
        (ARRAY, "[4]u16"),
        (ALIAS, alias),
        (DISTINCT, "x"),
        (STRUCT, &structure),
        (NO_FIELDS, "struct {  }"),
        (FUNCTION, &function),
    ];
    for (row, text) in texts {
        let expected = format!("cannot call non-function value of type `{text}`\n");
        assert_eq!(of(&[error(13, [row, 0, 0])]).text(), Ok(expected));
    }
    let cells =
        [(FIELD, ": x"), (FIELD + 1, &fields), (ARGUMENT, "struct {  }"), (ARGUMENT + 1, "String, struct {  }")];
    let work = of(&[]).tell().work;
    for (row, text) in texts.iter().chain(&cells) {
        assert_eq!(work[*row as usize - 1], text.len() as u32, "{text}");
    }
}

/// A message of each kind, in one text.
#[test]
fn kinds() {
    let texts = [
        (error(1, [X, 0, 0]), "unknown type `x`"),
        (error(2, [A, 0, 0]), "no built-in type exists to match `internal` alias of `A`"),
        (
            error(3, [1, ALIAS, 0]),
            "built-in type `i16` (i16) does not match `internal` definition (A (alias for [4]u16))",
        ),
        (error(4, [EMPTY, 0, 0]), "duplicate type alias ``"),
        (error(5, [2, 0, 0]), "type alias `bool` conflicts with a built-in type"),
        (error(6, [X, 0, 0]), "not all control-flow paths of `x` return a value"),
        (error(7, [X, 0, 0]), "redefinition of local variable `x`"),
        (error(8, [U16, I16, 0]), "type `i16` is not assignable to `u16`"),
        (error(9, [STRING, 0, 0]), "must return a value of type `String`"),
        (error(10, [X, 0, 0]), "unknown identifier `x`"),
        (error(11, [0, u32::MAX, 0]), "wrong number of arguments - expected 0, got 4294967295"),
        (error(12, [10, U16, BOOL]), "invalid type for argument 10 - expected `u16`, got `bool`"),
        (error(13, [NO_FIELDS, 0, 0]), "cannot call non-function value of type `struct {  }`"),
        (error(14, [BOOL, 0, 0]), "cannot use `bool` to index an array"),
        (error(15, [DISTINCT, ARRAY, 0]), "cannot cast `x` to `[4]u16`"),
        (error(16, [1, 0, 0]), "cannot dereference non-pointer type `<unknown>`"),
        (error(17, [ALIAS, 0, 0]), "cannot access fields on type `A (alias for [4]u16)`"),
        (error(18, [NO_FIELDS, X, 0]), "type `struct {  }` has no field named `x`"),
        (error(19, [2, 0, 0]), "operator `~` is not compatible with type `void`"),
        (error(20, [6, 0, 0]), "operator `!` can only be applied to booleans, not `*u16`"),
        (error(21, [U16, 0, 0]), "operator `&&` can only be applied to booleans, but left-hand side is `u16`"),
        (error(22, [I16, 0, 0]), "operator `&&` can only be applied to booleans, but right-hand side is `i16`"),
        (literal_error(literal_place()), "integer literal '70000' out of range"),
        (error(24, [1, U16, I16]), "operator `+` is not compatible with types `u16` and `i16`"),
        (error(25, [1, 20, 0]), "compound assignment target has length 1, but array compound has length 20"),
        (error(26, [U16, 0, 0]), "target of array compound assignment cannot be `u16`"),
        (error(27, [X, 0, 0]), "target of struct compound assignment has no field named `x`"),
        (error(28, [BOOL, 0, 0]), "target of struct compound assignment cannot be `bool`"),
        (error(29, [X, 0, 0]), "struct compound assigns `x` more than once"),
    ];
    let errors: Vec<Error> = texts.iter().map(|text| text.0).collect();
    assert!(errors.iter().map(|error| error[0]).eq(1..=29));
    let lines: String = texts.iter().map(|text| format!("{}\n", text.1)).collect();
    let question = Question { text: 4000, ..of(&errors) };
    assert_eq!(question.text(), Ok(lines));
    for (number, operator) in (1..).zip(["+", "-", "*", "&", "^", "|", "<<", ">>", "=="]) {
        let line = format!("operator `{operator}` is not compatible with types `u16` and `bool`\n");
        assert_eq!(of(&[error(24, [number, U16, BOOL])]).text(), Ok(line));
    }
}

/// Kind 3 of each built-in name over an alias, a distinct alias and a struct; kind 2 of every name. No check makes them of this module.
#[test]
fn internal_aliases() {
    let types = [(ALIAS, "A (alias for [4]u16)"), (DISTINCT, "x"), (NO_FIELDS, "struct {  }"), (STRING, "String")];
    for (name, built_in) in (0..).zip(["u16", "i16", "bool", "String"]) {
        for (row, text) in types {
            let line =
                format!("built-in type `{built_in}` ({built_in}) does not match `internal` definition ({text})\n");
            assert_eq!(of(&[error(3, [name, row, 0])]).text(), Ok(line));
        }
    }
    for (name, text) in (0..).zip(["u16", "i16", "bool", "String", "A", "x", ""]) {
        let line = format!("no built-in type exists to match `internal` alias of `{text}`\n");
        assert_eq!(of(&[error(2, [name, 0, 0])]).text(), Ok(line));
    }
    // The name is the module's, the type's text the one that is lent.
    let other = Question { built_in: b"Text".to_vec(), ..of(&[error(3, [3, STRING, 0])]) };
    let line = "built-in type `String` (Text) does not match `internal` definition (Text)\n";
    assert_eq!(other.text(), Ok(line.to_string()));
}

/// Names and digits are copied whatever they are.
#[test]
fn any_bytes() {
    let names: [&[u8]; 2] = [b"u16", b"a\n\xff"];
    let input = module(&names, &[&variable(1, &literal(b"'\n\0"))]);
    let place = (input.len() - literal(b"'\n\0").len()) as u32;
    let told = ask(&input, &with_fixed(&[]), &[error(10, [1, 0, 0]), literal_error(place)]).tell();
    let text = b"unknown identifier `a\n\xff`\ninteger literal ''\n\0' out of range\n";
    assert_eq!(told.answer, Ok(text.len()));
    assert_eq!(told.text[..text.len()], text[..]);
}

/// The words of an error that its message reads: names, type rows, numbers, the operator, the place.
fn read_words(kind: u32) -> Vec<(usize, char)> {
    let words: &[(usize, char)] = match kind {
        1 | 2 | 4..=7 | 10 | 27 | 29 => &[(4, 'n')],
        3 => &[(4, 'b'), (5, 't')],
        8 | 15 => &[(4, 't'), (5, 't')],
        11 | 25 => &[(4, 'd'), (5, 'd')],
        12 => &[(4, 'd'), (5, 't'), (6, 't')],
        18 => &[(4, 't'), (5, 'n')],
        23 => &[(7, 'l')],
        24 => &[(4, 'o'), (5, 't'), (6, 't')],
        _ => &[(4, 't')],
    };
    words.to_vec()
}

/// An error of the kind whose message can be read.
fn readable(kind: u32) -> Error {
    let mut words = [kind, 0, 0, 0, 0, 0, 0, 0];
    for (word, sort) in read_words(kind) {
        words[word] = match sort {
            'n' => X,
            'b' => 0,
            'l' => literal_place(),
            'd' => 7,
            _ => U16,
        };
    }
    words
}

/// In each kind each word that its message reads, with numbers of nothing: refused. Each word that it does not read, with the same
/// numbers: the same text.
#[test]
fn errors_that_name_nothing() {
    let names = NAMES.len() as u32;
    let no_names = [names, 65535, 65536, u32::MAX];
    let no_types = [0, COUNT + 1, FIELD, ARGUMENT, 65536 + U16, u32::MAX];
    let no_operators = [0, 10, 257, u32::MAX];
    let place = literal_place();
    let no_literals = [0, 16, place - 1, place + 1, place + 24, place + 65536, input().len() as u32, u32::MAX];
    for kind in 1..=29 {
        let words = readable(kind);
        let text = of(&[words]).text();
        assert!(text.is_ok(), "kind {kind}");
        let read = read_words(kind);
        for &(word, sort) in &read {
            let wrong = match sort {
                'n' => no_names.to_vec(),
                'b' => [&no_names[..], &[A, X, EMPTY]].concat(),
                't' => no_types.to_vec(),
                'o' => no_operators.to_vec(),
                'l' => no_literals.to_vec(),
                _ => vec![],
            };
            for value in wrong {
                let mut words = words;
                words[word] = value;
                of(&[words]).unsound(&format!("kind {kind}, word {word}: {value}"));
                // Behind an error that is good, and past the count.
                let mut question = of(&[readable(13), words]);
                question.unsound("the second");
                question.counts.errors = 1;
                assert!(question.text().is_ok());
            }
        }
        for word in (1..ERROR_WORDS).filter(|word| read.iter().all(|(read, _)| read != word)) {
            for value in no_names.iter().chain(&no_types).chain(&no_operators).chain(&no_literals) {
                let mut words = words;
                words[word] = *value;
                assert_eq!(of(&[words]).text(), text, "kind {kind}, word {word}: {value}");
            }
        }
    }
    for kind in [0, 30, 33, 257, 65537, u32::MAX] {
        of(&[error(kind, [U16, U16, U16])]).unsound(&format!("kind {kind}"));
    }
}

#[test]
fn error_counts() {
    let two = of(&[readable(13), readable(10)]);
    for errors in [0, 1, 2] {
        let question = Question { counts: Counts { rows: COUNT, errors }, ..two.clone() };
        assert_eq!(question.text().map(|text| text.lines().count()), Ok(errors));
    }
    // 8 times 2^61 is 0 modulo 2^64.
    for errors in [3, 1 << 32, 1 << 61, (1 << 61) + 1, usize::MAX] {
        Question { counts: Counts { rows: COUNT, errors }, ..two.clone() }.unsound(&format!("{errors} errors"));
    }
    let mut cut = two;
    cut.errors.pop();
    cut.unsound("the last error is not whole");
}

/// The rows, with no error listed.
#[test]
fn bad_rows() {
    let good = of(&[]);
    assert_eq!(good.text(), Ok(String::new()));
    let count = |rows| Question { counts: Counts { rows, errors: 0 }, work: 100, ..good.clone() };
    // 5 times 858993459 is one less than 2^32.
    for rows in [0, 6, COUNT + 1, COUNT + 858993459, u32::MAX] {
        count(rows).unsound(&format!("{rows} rows"));
    }
    assert_eq!(count(7).text(), Ok(String::new()));
    let mut cut = good.clone();
    cut.rows.pop();
    cut.unsound("the last row is not whole");
    for row in 0..COUNT as usize {
        let mut question = good.clone();
        question.rows[ROW_WORDS * row + 4] += 1;
        question.unsound(&format!("the fifth word of row {}", row + 1));
        let mut question = Question { work: 100, ..good.clone() };
        question.rows.extend_from_within(ROW_WORDS * row..ROW_WORDS * (row + 1));
        assert_eq!(question.text(), Ok(String::new()));
        question.counts.rows += 1;
        question.unsound(&format!("row {} twice", row + 1));
    }
}

/// A row with a name past the list that no listed error prints is refused too; where it does not count it is not read.
#[test]
fn names_of_rows() {
    for kind in NAMED {
        for (name, is_good) in [(X, true), (NAMES.len() as u32, false), (65534, false), (65535, false), (65536, false)]
        {
            let mut question = Question { work: 100, ..of(&[readable(13)]) };
            let text = question.text();
            question.rows.extend([kind, U16, 0, name, 1]);
            assert_eq!(question.text(), text);
            question.counts.rows += 1;
            if is_good {
                assert_eq!(question.text(), text);
            } else {
                question.unsound(&format!("kind {kind}, name {name}"));
            }
        }
    }
}

/// Exactly as many bytes and words as are needed, and one less of each.
#[test]
fn loans() {
    let roomy = of(&[readable(13), readable(23)]).tell();
    let needed = roomy.answer.unwrap();
    let exact = Question { text: needed, ..of(&[readable(13), readable(23)]) };
    let told = exact.tell();
    assert_eq!(told.answer, Ok(needed));
    assert_eq!(told.text[..], roomy.text[..needed]);
    assert!(roomy.text[needed..].iter().all(|&b| b == FILL));
    for text in [0, 1, needed - 1] {
        let short = Question { text, work: COUNT as usize + 2, ..exact.clone() }.tell();
        assert_eq!(short.answer, refused(9, needed));
        assert!(short.text.iter().all(|&b| b == FILL));
        // The lengths are there, and nothing past them.
        assert_eq!(short.work[..COUNT as usize], told.work[..]);
        assert_eq!(short.work[COUNT as usize..], [FILL as u32; 2]);
    }
    // Too few working words come before too little text.
    for work in [0, COUNT as usize - 1] {
        for text in [0, needed] {
            Question { work, text, ..exact.clone() }.refused_untouched(5, 0, "too few working words");
        }
    }
    let none = Question { text: 0, ..of(&[]) };
    assert_eq!(none.text(), Ok(String::new()));
    assert_eq!(none.tell().work, told.work);
}

/// Tests 1 to 4 come first, whatever else is wrong; a module that was checked is not the input.
#[test]
fn modules() {
    let deep = (0..64).fold(Vec::new(), |inside, _| record(70, &[], &[&inside]));
    let too_deep = module(&NAMES, &[&record(80, &[X], &[&record(17, &[0], &[]), &deep])]);
    let twice = module(&[b"x", b"", b"x"], &[]);
    let cut = &input()[..20];
    let depth_65 = too_deep.len() - 2 * 16;
    for (input, number, place) in
        [(&[0; 65537][..], 1, 0), (&[0; 15], 2, 0), (cut, 2, 0), (&too_deep, 3, depth_65), (&twice, 4, 32 + 17 + 16)]
    {
        for errors in [vec![], vec![readable(13)], vec![error(0, [0; 3])]] {
            Question { input: input.to_vec(), ..of(&errors) }.refused_untouched(number, place, "the module");
        }
        let none = Question { rows: vec![], work: 0, text: 0, ..of(&[]) };
        Question { input: input.to_vec(), ..none }.refused_untouched(number, place, "the module, nothing lent");
    }

    let input = input();
    let (mut output, mut rows) = (vec![0; input.len()], vec![0; FIXED]);
    let (mut errors, mut work) = (vec![0; ERROR_WORDS], vec![0; 4 * NAMES.len()]);
    let counts = type_check_module(&input, &mut output, &mut rows, &mut errors, &mut work).unwrap();
    assert_eq!((counts, errors[ERROR_WORDS - 1]), (Counts { rows: 7, errors: 1 }, literal_place()));
    let mut question = ask(&input, &rows, &[errors[..].try_into().unwrap()]);
    assert_eq!(question.text(), Ok("integer literal '70000' out of range\n".to_string()));
    question.input = output;
    let slot = literal_place() as usize - 8;
    question.refused_untouched(2, slot, "the output of the check");
}

#[test]
fn empty_file() {
    let fixed = with_fixed(&[]);
    let of = |errors: &[Error]| ask(&[], &fixed, errors);
    assert_eq!(of(&[]).text(), Ok(String::new()));
    assert_eq!(Question { text: 0, ..of(&[]) }.text(), Ok(String::new()));
    let line = "cannot call non-function value of type `bool`\n";
    assert_eq!(of(&[error(13, [BOOL, 0, 0])]).text(), Ok(line.to_string()));
    of(&[error(1, [0; 3])]).unsound("kind 1, name 0");
    of(&[literal_error(0)]).unsound("kind 23, place 0");
    of(&[error(3, [0, U16, 0])]).unsound("kind 3, name 0");
    for kind in NAMED {
        ask(&[], &with_fixed(&[[kind, U16, 0, 0, 1]]), &[]).unsound("an eighth row with a name");
    }
    assert_eq!(ask(&[], &with_fixed(&[[7, U16, 3, 0, 3]]), &[]).text(), Ok(String::new()));
}

/// Bad literals in two items, in both orders: their places differ, and counted from the start of their items they are the same.
#[test]
fn two_orders() {
    let sum = record(45, &[0, 1], &[&literal(b"70000"), &literal(b"99999")]);
    let items = [variable(X, &sum), variable(A, &literal(b"+"))];
    let start = module(&NAMES, &[]).len();
    let mut seen = Vec::new();
    for [first, second] in [[0, 1], [1, 0]] {
        let input = module(&NAMES, &[&items[first], &items[second]]);
        let (mut output, mut rows) = (vec![0; input.len()], vec![0; FIXED]);
        let (mut errors, mut work) = (vec![0; 3 * ERROR_WORDS], vec![0; 4 * NAMES.len()]);
        let counts = type_check_module(&input, &mut output, &mut rows, &mut errors, &mut work).unwrap();
        assert_eq!(counts, Counts { rows: 7, errors: 3 });
        let errors: Vec<Error> = errors.chunks_exact(ERROR_WORDS).map(|e| e.try_into().unwrap()).collect();
        let places: Vec<usize> = errors.iter().map(|error| error[ERROR_WORDS - 1] as usize).collect();
        let second_start = start + items[first].len();
        let from_item = |place: &usize| if *place < second_start { place - start } else { place - second_start };
        let mut from_items: Vec<usize> = places.iter().map(from_item).collect();
        from_items.sort();
        let text = ask(&input, &rows, &errors).text().unwrap();
        let mut lines: Vec<String> = text.lines().map(str::to_string).collect();
        lines.sort();
        seen.push((places, from_items, lines));
    }
    assert_ne!(seen[0].0, seen[1].0);
    assert_eq!(seen[0].1, seen[1].1);
    assert_eq!(seen[0].2, seen[1].2);
    assert_eq!(seen[0].2[0], "integer literal '+' out of range");
}

/// So many structs behind the seven rows, each of the one before twice.
fn doubled(count: u32) -> Vec<u32> {
    let mut rows = Vec::new();
    let (mut inner, mut size) = (U16, 1u32);
    for i in 0..count {
        let both = (2 * size).min(65536);
        let first = 8 + 3 * i;
        rows.extend([[12, inner, 0, X, size], [12, inner, first, A, both], [8, first + 1, 0, 0, both]]);
        (inner, size) = (first + 2, both);
    }
    with_fixed(&rows)
}

/// Shared parts are measured once: a text of more bytes than there are atoms is refused at once.
#[test]
fn shared_parts() {
    for count in [30, 400] {
        let rows = doubled(count);
        let last = (rows.len() / ROW_WORDS) as u32;
        let question = ask(&input(), &rows, &[error(26, [last, 0, 0])]);
        let start = Instant::now();
        let told = question.tell();
        assert!(start.elapsed() < Duration::from_secs(1));
        assert_eq!(told.answer, refused(9, LONGEST_TEXT + 1));
        assert!(told.text.iter().all(|&b| b == FILL));
        let lengths: Vec<u32> = (0..count as usize).map(|i| told.work[9 + 3 * i]).collect();
        let around = "struct { A: , x:  }".len() as u32;
        let mut length = 3;
        for said in lengths {
            length = (2 * length + around).min(LONGEST_TEXT as u32 + 1);
            assert_eq!(said, length);
        }
        // No error prints one: there is nothing to write.
        assert_eq!(ask(&input(), &rows, &[]).text(), Ok(String::new()));
    }
    // The largest that can be written: each half is written after the other.
    let rows = doubled(15);
    let last = (rows.len() / ROW_WORDS) as u32;
    let mut text = "u16".to_string();
    for _ in 0..15 {
        text = format!("struct {{ A: {text}, x: {text} }}");
    }
    let question = Question { text: LONGEST_TEXT, ..ask(&input(), &rows, &[error(26, [last, 0, 0])]) };
    assert!(question.text() == Ok(format!("target of array compound assignment cannot be `{text}`\n")));
}

/// A text of exactly 1,048,576 bytes, and one of one byte more, which is refused whatever is lent.
#[test]
fn longest_text() {
    let line = "unknown identifier ``\n".len();
    let (even, odd) = (vec![b'n'; 512 - line], vec![b'm'; 513 - line]);
    let input = module(&[&even, &odd], &[]);
    let mut errors = vec![error(10, [0, 0, 0]); LONGEST_TEXT / 512];
    let expected = format!("unknown identifier `{}`\n", "n".repeat(512 - line)).repeat(errors.len());
    let question = Question { text: LONGEST_TEXT, ..ask(&input, &with_fixed(&[]), &errors) };
    assert!(question.text() == Ok(expected));
    let short = Question { text: LONGEST_TEXT - 1, ..question };
    assert_eq!(short.tell().answer, refused(9, LONGEST_TEXT));
    *errors.last_mut().unwrap() = error(10, [1, 0, 0]);
    for text in [0, LONGEST_TEXT, LONGEST_TEXT + 1, LONGEST_TEXT + 1000] {
        let told = Question { text, ..ask(&input, &with_fixed(&[]), &errors) }.tell();
        assert_eq!(told.answer, refused(9, LONGEST_TEXT + 1), "{text} bytes");
        assert!(told.text.iter().all(|&b| b == FILL));
    }
}

unsafe extern "C" {
    fn delta_null_messages(
        input: *const u8,
        input_length: usize,
        rows: *const u32,
        rows_length: usize,
        row_count: u32,
        errors: *const u32,
        errors_length: usize,
        error_count: usize,
        built_in: *const u8,
        built_in_length: usize,
        work: *mut u32,
        work_length: usize,
        text: *mut u8,
        text_length: usize,
        length: *mut usize,
        place: *mut usize,
    ) -> u32;
}

/// The number, the length and the place are written whatever stood there.
#[test]
fn values_written() {
    let good = of(&[readable(10)]);
    let needed = good.text().unwrap().len();
    let bad = of(&[error(0, [0; 3])]);
    for (question, written) in [
        (good.clone(), (0, needed, 0)),
        (of(&[]), (0, 0, 0)),
        (bad.clone(), (8, 0, 0)),
        (Question { work: 0, ..good.clone() }, (5, 0, 0)),
        (Question { text: 3, ..good.clone() }, (9, 0, needed)),
        (Question { input: vec![0; 17], ..bad }, (2, 0, 0)),
    ] {
        for before in [0, 1, usize::MAX] {
            let (mut work, mut text) = (vec![0; question.work], vec![0; question.text]);
            let (mut length, mut place) = (before, before);
            // SAFETY: each pointer and length is of one slice, and the two numbers are this function's own.
            let number = unsafe {
                delta_null_messages(
                    question.input.as_ptr(),
                    question.input.len(),
                    question.rows.as_ptr(),
                    question.rows.len(),
                    question.counts.rows,
                    question.errors.as_ptr(),
                    question.errors.len(),
                    question.counts.errors,
                    question.built_in.as_ptr(),
                    question.built_in.len(),
                    work.as_mut_ptr(),
                    work.len(),
                    text.as_mut_ptr(),
                    text.len(),
                    &mut length,
                    &mut place,
                )
            };
            assert_eq!((number, length, place), written);
        }
    }
}
