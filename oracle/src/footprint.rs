//! What document 02's paper 5 says of assignable and castable types, counted over the reference's own answers.

use std::{
    fmt::Write,
    panic::{self, AssertUnwindSafe},
};

use crate::{ir, rows::Words, type_check::Type};

/// A type of the reference, and what the reference says of it.
pub struct Asked {
    pub ty: Type,
    /// `to_ir_type`; none where it panics.
    backend: Option<ir::Type>,
    /// `word_size`; none where its numbers overflow.
    pub words: Option<Words>,
}

impl Asked {
    pub fn new(ty: Type) -> Self {
        let backend = panic::catch_unwind(AssertUnwindSafe(|| ty.to_ir_type())).ok();
        let words = match &backend {
            None => Some(Words::Unknown),
            Some(backend) => match panic::catch_unwind(AssertUnwindSafe(|| backend.word_size())) {
                Err(_) => None,
                Ok(words) if words > 65_535 => Some(Words::TooLarge),
                Ok(words) => Some(Words::Known(words as u32)),
            },
        };
        Asked { ty, backend, words }
    }

    fn is_alias(&self) -> bool {
        matches!(self.ty, Type::Aliased(..))
    }
}

/// Whether an Unknown is in a type, anywhere but behind a pointer.
fn contains_unknown(ty: &Type) -> bool {
    match ty {
        Type::Unknown => true,
        Type::Direct(_) | Type::Pointer(_) => false,
        Type::FunctionReference { argument_types, return_type } => {
            contains_unknown(return_type) || argument_types.iter().any(contains_unknown)
        }
        Type::Struct(fields) => fields.iter().any(|(_, ty)| contains_unknown(ty)),
        Type::Array(ty, _) | Type::Aliased(ty, _) | Type::DistinctAliased(ty, _) => contains_unknown(ty),
    }
}

/// How often each sentence was met.
#[derive(Clone, Copy, Debug, Default, PartialEq, Eq)]
pub struct Footprint {
    /// A source assignable to a target: both have the same backend type.
    pub same_backend: usize,
    /// A source assignable to a target: both contain an Unknown that prevents one.
    pub both_unknown: usize,
    /// A source castable to a target, its words known and not too large: the target's are the same number.
    pub same_words: usize,
    /// A source assignable to a target, neither a transparent alias at its top: castable.
    pub castable: usize,
    /// The same with a transparent alias at a top: castable, and not castable.
    pub alias_castable: usize,
    pub alias_not_castable: usize,
}

impl Footprint {
    /// Counts a source and a target, and whether the one is assignable and castable to the other; or the sentence that is not so.
    pub fn count(&mut self, target: &Asked, source: &Asked, assignable: bool, castable: bool) -> Result<(), String> {
        for asked in [target, source] {
            if contains_unknown(&asked.ty) == asked.backend.is_some() {
                return Err("an Unknown is contained, or prevents a backend type, and not both".to_owned());
            }
        }
        if assignable {
            self.count_assignable(target, source, castable)?;
        }
        if let (true, Some(Words::Known(words))) = (castable, source.words) {
            if target.words != Some(Words::Known(words)) {
                return Err(format!("castable, the source of {words} words, the target's {:?}", target.words));
            }
            self.same_words += 1;
        }
        Ok(())
    }

    fn count_assignable(&mut self, target: &Asked, source: &Asked, castable: bool) -> Result<(), String> {
        match (&target.backend, &source.backend) {
            (Some(one), Some(other)) if one == other => self.same_backend += 1,
            (None, None) => self.both_unknown += 1,
            _ => return Err("assignable, and not of one backend type".to_owned()),
        }
        match (target.is_alias() || source.is_alias(), castable) {
            (false, true) => self.castable += 1,
            (false, false) => return Err("assignable and not castable, no alias at a top".to_owned()),
            (true, true) => self.alias_castable += 1,
            (true, false) => self.alias_not_castable += 1,
        }
        Ok(())
    }

    pub fn add(&mut self, other: Footprint) {
        self.same_backend += other.same_backend;
        self.both_unknown += other.both_unknown;
        self.same_words += other.same_words;
        self.castable += other.castable;
        self.alias_castable += other.alias_castable;
        self.alias_not_castable += other.alias_not_castable;
    }

    pub fn text(&self) -> String {
        let mut text = String::new();
        let (same, unknown) = (self.same_backend, self.both_unknown);
        let _ = writeln!(text, "assignable: the same backend type {same}, both with an Unknown {unknown}");
        let _ = writeln!(text, "castable with known words: the same number {}", self.same_words);
        let (yes, no) = (self.alias_castable, self.alias_not_castable);
        let _ = write!(text, "assignable: castable without an alias at a top {}", self.castable);
        let _ = writeln!(text, "; with one castable {yes}, not castable {no}");
        text
    }
}
