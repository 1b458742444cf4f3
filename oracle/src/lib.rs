//! The oracle: the reference's type checker behind document 01's module file format, an independent model of document
//! 01's rules, and tools that make, damage and compare modules. README.md says how to use it.

#![feature(box_patterns, never_type, try_trait_v2, type_changing_struct_update)]
#![allow(macro_expanded_macro_exports_accessed_by_absolute_paths)]

// The reference names two crates; both names stand for this one, which has what the reference takes from them.
extern crate self as delta_null_lang_backend;
extern crate self as maplit;

/// A set of the listed values.
#[macro_export]
macro_rules! hashset {
    ($($value:expr),* $(,)?) => { std::collections::HashSet::from([$($value),*]) };
}

// The modules of the reference: fallible, ir, node, source, type_check, util.
include!(concat!(env!("OUT_DIR"), "/modules.rs"));

pub mod answer;
pub mod ask;
pub mod attribute;
pub mod buffers;
pub mod compare;
pub mod damage;
pub mod decode;
pub mod display;
pub mod errors;
pub mod footprint;
pub mod generate;
pub mod hand;
pub mod layout;
pub mod literals;
pub mod message_cases;
pub mod messages;
pub mod model;
pub mod orders;
pub mod pairs;
pub mod product;
pub mod reference;
pub mod relate;
pub mod relations;
pub mod replay;
pub mod rows;
pub mod shrink;
pub mod shuffle;
pub mod stats;
pub mod tables;
pub mod tell;
pub mod tree;
