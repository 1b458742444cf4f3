//! Modules of 2,000 errors whose messages are measured: names and types, literals, and types of some hundred bytes.

use oracle::{
    answer::ERROR_WIDTH,
    hand::{U16, X, Y, array, complete, global, global_with, id, limits, literal, record, structure, ty},
    product::{Product, ROOMY},
    rows::ROW_WIDTH,
    tell::Question,
    tree::Tree,
};

/// How many errors each has.
const ERRORS: usize = 2_000;

/// An array compound of this value so often.
fn elements(value: Tree) -> Tree {
    global_with(Y, array(ERRORS as u32, ty(U16)), record(48, &[], vec![value; ERRORS]))
}

/// The modules with their names.
fn modules() -> Vec<(&'static str, Vec<u8>)> {
    let three = |inner: &dyn Fn() -> Tree| structure((X..X + 3).map(|name| (name, inner())).collect());
    let nested = three(&|| three(&|| three(&|| ty(U16))));
    vec![
        ("names and short types", limits::with_errors(ERRORS)),
        ("literals", complete(vec![elements(literal("65536", 10))])),
        ("types of some hundred bytes", complete(vec![global(X, nested), elements(id(X))])),
    ]
}

/// What is asked about each module: the messages of all its errors, as the product found them.
pub fn questions(product: &mut Product) -> Result<Vec<(&'static str, Question)>, String> {
    let mut all = vec![];
    for (name, bytes) in modules() {
        let said = product.check(&bytes, ROOMY)?;
        let [rows, errors] = said.values.map(|count| count as usize);
        assert_eq!((said.number, errors), (0, ERRORS));
        let (row_words, error_words) = (&said.rows[..ROW_WIDTH * rows], &said.errors[..ERROR_WIDTH * errors]);
        all.push((name, Question::new(&bytes, row_words, rows, error_words, errors)));
    }
    Ok(all)
}
