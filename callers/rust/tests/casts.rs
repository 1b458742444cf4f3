//! How many pairs a cast tries: the dearest casts, those that fit at their last pair, aliases of both sorts in each other, and every pair
//! of a table against a count of the test's own.
mod common;

use common::{BOOL, I16, POINTER, STRING, U16, cast, with_fixed};
use delta_null_type_check::{Cast, ROW_WORDS, Refused, castable};

const POINTER_KIND: u32 = 6;
const TRANSPARENT: u32 = 10;
const DISTINCT: u32 = 11;

/// A table to which types of one word each are added.
struct Table(Vec<u32>);

impl Table {
    fn new() -> Self {
        Table(with_fixed(&[]))
    }

    fn count(&self) -> u32 {
        (self.0.len() / ROW_WORDS) as u32
    }

    /// The kind of a row, and its first word.
    fn row(&self, number: u32) -> [u32; 2] {
        let place = ROW_WORDS * (number as usize - 1);
        [self.0[place], self.0[place + 1]]
    }

    /// Adds an alias of a type, or a pointer to it, whose name is 0; its number.
    fn add(&mut self, kind: u32, of: u32, name: u32) -> u32 {
        self.0.extend([kind, of, 0, name, 1]);
        self.count()
    }

    /// Adds so many distinct aliases over a type; the number of the last.
    fn chain(&mut self, aliases: u64, of: u32) -> u32 {
        (0..aliases).fold(of, |of, _| self.add(DISTINCT, of, 0))
    }

    fn cast(&self, source: u32, target: u32) -> Result<Cast, Refused> {
        castable(&self.0, self.count(), source, target)
    }

    fn strips(&self, number: u32) -> Vec<u32> {
        let mut all = vec![number];
        while let [DISTINCT, inner] = self.row(all[all.len() - 1]) {
            all.push(inner);
        }
        all
    }

    fn desugar(&self, number: u32) -> u32 {
        match self.row(number) {
            [TRANSPARENT, inner] => self.desugar(inner),
            _ => number,
        }
    }

    /// Whether two strips fit.
    fn fits(&self, source: u32, target: u32) -> bool {
        let is_pointer = |number| self.row(number)[0] == POINTER_KIND;
        let kinds = match (source, target) {
            (U16 | I16, U16 | I16) => true,
            (U16, other) | (other, U16) => is_pointer(other),
            _ => is_pointer(source) && is_pointer(target),
        };
        kinds || self.desugar(source) == self.desugar(target)
    }

    /// Every pair of strips in order, up to the first that fits.
    fn counted(&self, source: u32, target: u32) -> Cast {
        let targets = self.strips(target);
        let pairs = self.strips(source).into_iter().flat_map(|a| targets.iter().map(move |&b| (a, b)));
        let before = pairs.clone().take_while(|&(a, b)| !self.fits(a, b)).count();
        let castable = before < pairs.count();
        Cast { castable, pairs: before as u64 + u64::from(castable) }
    }
}

/// Chains of so many aliases over one type cast to chains over another: whether they fit, and always at the last pair.
fn family(source: u32, target: u32, castable: bool) {
    let lengths = [0, 1, 2, 3, 10, 1000];
    for n in lengths {
        for m in lengths {
            let mut table = Table::new();
            let (from, to) = (table.chain(n, source), table.chain(m, target));
            assert_eq!(table.cast(from, to), cast(castable, (n + 1) * (m + 1)), "{n} and {m} aliases");
        }
    }
}

/// Nothing is dearer than distinct aliases over bool cast to ones over u16.
#[test]
fn dearest() {
    family(BOOL, U16, false);
}

#[test]
fn at_the_last_pair() {
    family(U16, I16, true);
}

#[test]
fn few_aliases() {
    let mut table = Table::new();
    let distinct = table.chain(1, BOOL);
    for (source, target, pairs) in
        [(U16, U16, 1), (distinct, distinct, 1), (distinct, BOOL, 2), (BOOL, distinct, 2), (STRING, U16, 2)]
    {
        assert_eq!(table.cast(source, target), cast(true, pairs), "{source} to {target}");
    }
}

/// A transparent alias ends the strips, and is what it stands for: the distinct one, not that one's type.
#[test]
fn transparent_over_distinct() {
    let mut table = Table::new();
    let inner = table.add(DISTINCT, BOOL, 0);
    let alias = table.add(TRANSPARENT, inner, 0);
    let over_alias = table.add(DISTINCT, alias, 0);
    let over_inner = table.add(DISTINCT, inner, 0);
    for (source, target, expected) in [
        (alias, inner, cast(true, 1)),
        (inner, alias, cast(true, 1)),
        (alias, BOOL, cast(false, 1)),
        (BOOL, alias, cast(false, 1)),
        (over_alias, BOOL, cast(false, 2)),
        (over_alias, inner, cast(true, 3)),
        (inner, over_alias, cast(true, 2)),
        // The last strip of the one fits the middle strip of the other alone.
        (over_alias, over_inner, cast(true, 5)),
        (over_inner, over_alias, cast(true, 4)),
    ] {
        assert_eq!(table.cast(source, target), expected, "{source} to {target}");
    }
}

/// Chains over six types and transparent aliases of them, chains over transparent aliases of chains, and chains with a common tail.
#[test]
fn every_pair() {
    let mut table = Table::new();
    let other_pointer = table.add(POINTER_KIND, BOOL, 0);
    for base in [BOOL, U16, I16, POINTER, other_pointer, STRING] {
        let chain = table.chain(2, base);
        let alias = table.add(TRANSPARENT, chain, 1);
        table.chain(1, alias);
        let behind = table.add(TRANSPARENT, base, 2);
        table.chain(3, behind);
        let branch = table.add(DISTINCT, chain, 3);
        table.chain(1, branch);
    }
    let mut met = [0; 2];
    for source in 1..=table.count() {
        for target in 1..=table.count() {
            let expected = table.counted(source, target);
            assert_eq!(table.cast(source, target), Ok(expected), "{source} to {target}");
            met[usize::from(expected.castable)] += 1;
        }
    }
    assert!(met.iter().all(|&casts| casts > 500), "no and yes: {met:?}");
}

unsafe extern "C" {
    fn delta_null_castable(
        rows: *const u32,
        rows_length: usize,
        count: u32,
        source: u32,
        target: u32,
        answer: *mut u32,
        pairs: *mut u64,
    ) -> u32;
}

/// The number, the answer and the pairs are written whatever stood there: 0 for both values if the call is refused.
#[test]
fn values_written() {
    let mut table = Table::new();
    let (source, target) = (table.chain(1, BOOL), table.chain(2, U16));
    let (rows, count) = (&table.0[..], table.count());
    let mut wrong = rows.to_vec();
    *wrong.last_mut().unwrap() = 2;
    for (rows, count, source, target, written) in [
        (rows, count, source, target, (0, 0, 6)),
        (rows, count, target, I16, (0, 1, 3)),
        (rows, count, 0, target, (8, 0, 0)),
        (rows, count, source, count + 1, (8, 0, 0)),
        (rows, count + 1, source, target, (8, 0, 0)),
        (&wrong, count, source, source, (8, 0, 0)),
        (&[], 0, 1, 1, (8, 0, 0)),
    ] {
        for before in [1, u64::MAX] {
            let (mut answer, mut pairs) = (before as u32, before);
            // SAFETY: the pointer and the length are of one slice, and the two numbers are this function's own.
            let number = unsafe {
                delta_null_castable(rows.as_ptr(), rows.len(), count, source, target, &mut answer, &mut pairs)
            };
            assert_eq!((number, answer, pairs), written, "{source} to {target} of {count} rows");
        }
    }
}
