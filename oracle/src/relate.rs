//! Words, assignable and castable over a table of rows, as the reference says and as the rules say.

use crate::{
    footprint::{Asked, Footprint},
    ir::{IntegerSize, Type as Direct},
    pairs::Casts,
    rows::{Cast, Rows, STRING_NAME, Words, kind},
    type_check::{Type, types_are_assignable},
};

/// The most nodes of a type, unfolded, for which the reference is asked.
const MOST_NODES: u64 = 2_000;
/// The most nodes of the types of a module together.
const MOST_NODES_OF_A_MODULE: u64 = 20_000;
/// The most distinct aliases at the top of a type for which the reference is asked.
const MOST_ALIASES: usize = 8;

/// The reference's type for a row.
fn reference_type(rows: &Rows, number: u32) -> Type {
    let row = rows.row(number);
    let inner = || Box::new(reference_type(rows, row.first));
    let name = |name: u32| if name == STRING_NAME { "String".to_owned() } else { format!("n{name}") };
    match row.kind {
        1 => Type::Unknown,
        2 => Type::Direct(Direct::Void),
        3 => Type::Direct(Direct::Boolean),
        4 => Type::Direct(Direct::UnsignedInteger(IntegerSize::Bits16)),
        5 => Type::Direct(Direct::SignedInteger(IntegerSize::Bits16)),
        kind::POINTER => Type::Pointer(inner()),
        kind::ARRAY => Type::Array(inner(), row.second as usize),
        kind::STRUCT => {
            let members = rows.members(row.first);
            Type::Struct(members.iter().map(|&(field, ty)| (name(field), reference_type(rows, ty))).collect())
        }
        kind::FUNCTION => Type::FunctionReference {
            argument_types: rows.members(row.second).iter().map(|&(_, ty)| reference_type(rows, ty)).collect(),
            return_type: inner(),
        },
        kind::ALIAS => Type::Aliased(inner(), name(row.name)),
        kind::DISTINCT => Type::DistinctAliased(inner(), name(row.name)),
        cell => unreachable!("a cell of kind {cell} is no type"),
    }
}

/// What is true of a table that keeps the rules.
pub struct Related {
    /// The words of every row, cells included.
    pub words: Vec<Words>,
    /// The type rows.
    pub types: Vec<u32>,
    /// For every pair of type rows, in order: whether the second is assignable to the first, and the cast of the first to
    /// the second.
    pub pairs: Vec<(bool, Cast)>,
    /// How many words of types, and how many pairs, the reference was asked for.
    pub asked: [usize; 2],
    /// What those pairs show of paper 5's sentences.
    pub footprint: Footprint,
    /// What all pairs show of paper 11's.
    pub casts: Casts,
}

/// The type rows of a table.
fn types_of(rows: &Rows) -> Vec<u32> {
    (1..=rows.count() as u32).filter(|&number| !rows.row(number).is_cell()).collect()
}

/// Whether the reference can be asked for the words of a type, which the rules say are so many; where the two differ, that is the error.
fn agree(number: u32, asked: &Asked, said: Words) -> Result<bool, String> {
    match asked.words {
        None => Ok(false),
        Some(words) if words == said => Ok(true),
        Some(words) => Err(format!("words of row {number}: the reference says {words:?}, the rules {said:?}")),
    }
}

/// Asks the reference for the words of the types of a table, as many as are not too much for it; for how many it was asked.
pub fn ask_words(rows: &Rows) -> Result<usize, String> {
    let (sizes, words) = (rows.unfolded_sizes(), rows.words());
    let (mut nodes, mut asked) = (0, 0);
    for number in types_of(rows) {
        let size = sizes[number as usize - 1];
        if size > MOST_NODES_OF_A_MODULE - nodes {
            continue;
        }
        nodes += size;
        asked += usize::from(agree(number, &Asked::new(reference_type(rows, number)), words[number as usize - 1])?);
    }
    Ok(asked)
}

/// What the rules say of a table. The reference is asked wherever it can answer; where it and the rules differ, its answers are not
/// as paper 5 says, or a cast tries not as many pairs as paper 11 says, that is the error.
pub fn related(rows: &Rows) -> Result<Related, String> {
    let sizes = rows.unfolded_sizes();
    let small = |number: u32| sizes[number as usize - 1] <= MOST_NODES && rows.distinct_aliases(number) <= MOST_ALIASES;
    let mut related = Related {
        words: rows.words(),
        types: types_of(rows),
        pairs: vec![],
        asked: [0; 2],
        footprint: Footprint::default(),
        casts: Casts::default(),
    };
    let references: Vec<Option<Asked>> =
        related.types.iter().map(|&number| small(number).then(|| Asked::new(reference_type(rows, number)))).collect();
    for (&number, asked) in related.types.iter().zip(&references) {
        if let Some(asked) = asked {
            related.asked[0] += usize::from(agree(number, asked, related.words[number as usize - 1])?);
        }
    }
    for (&a, a_asked) in related.types.iter().zip(&references) {
        for (&b, b_asked) in related.types.iter().zip(&references) {
            let (assignable, cast) = (rows.assignable(a, b), rows.cast(a, b));
            if let (Some(x), Some(y)) = (a_asked, b_asked) {
                if (types_are_assignable(&x.ty, &y.ty), x.ty.is_castable_to(&y.ty)) != (assignable, cast.castable) {
                    return Err(format!("rows {a} and {b}: the reference and the rules differ"));
                }
                related.asked[1] += 1;
            }
            let counted = related.casts.count(rows.distinct_aliases(a), rows.distinct_aliases(b), cast);
            counted.map_err(|why| format!("rows {a} and {b}: {why}"))?;
            related.pairs.push((assignable, cast));
        }
    }
    related.count_footprint(&references)?;
    Ok(related)
}

impl Related {
    /// Holds every pair that the reference was asked for to paper 5's sentences, each type as the target and as the source.
    fn count_footprint(&mut self, references: &[Option<Asked>]) -> Result<(), String> {
        for (i, target) in references.iter().enumerate() {
            for (j, source) in references.iter().enumerate() {
                let (Some(target), Some(source)) = (target, source) else { continue };
                let (assignable, castable) = (self.pair(i, j).0, self.pair(j, i).1.castable);
                let counted = self.footprint.count(target, source, assignable, castable);
                counted.map_err(|why| format!("target {}, source {}: {why}", self.types[i], self.types[j]))?;
            }
        }
        Ok(())
    }

    /// The place of a type row among the type rows; none for another number.
    pub fn place(&self, number: u32) -> Option<usize> {
        self.types.binary_search(&number).ok()
    }

    /// Whether the second of two type rows, by their places, is assignable to the first, and the cast of the first to the second.
    pub fn pair(&self, a: usize, b: usize) -> (bool, Cast) {
        self.pairs[a * self.types.len() + b]
    }

    /// The words of every type row, then by row number every assignable pair, and every castable one with the pairs of strips tried. One
    /// that is not castable is there if it tries several.
    pub fn text(&self) -> String {
        let mut text = String::new();
        for &number in &self.types {
            text += &match self.words[number as usize - 1] {
                Words::Known(words) => format!("words {number} {words}\n"),
                Words::TooLarge => format!("words {number} too large\n"),
                Words::Unknown => format!("words {number} unknown\n"),
            };
        }
        for (i, a) in self.types.iter().enumerate() {
            for (j, b) in self.types.iter().enumerate() {
                let (assignable, Cast { castable, pairs }) = self.pair(i, j);
                if assignable {
                    text += &format!("assignable {a} {b}\n");
                }
                if castable {
                    text += &format!("castable {a} {b} pairs {pairs}\n");
                } else if pairs > 1 {
                    text += &format!("not castable {a} {b} pairs {pairs}\n");
                }
            }
        }
        text
    }
}
