//! A window into the reference's type checker. The build declares this file as a child module of the checker, so that it
//! may call the private conversion and read the private parts of an error. It decides nothing of its own.

use std::collections::HashMap;

use super::{ModuleContext, Type, TypeError, convert_node_type};
use crate::{node, source::SourceLocation};

/// The module-level names during pass 1.
pub struct Names(ModuleContext);

impl Names {
    /// No names at all.
    pub fn new() -> Self {
        Names(ModuleContext { globals: HashMap::new(), type_aliases: HashMap::new() })
    }

    /// Stores an alias.
    pub fn store(&mut self, name: &str, ty: Type) {
        self.0.type_aliases.insert(name.to_owned(), ty);
    }

    /// What the reference makes of a declared type with the aliases stored so far.
    pub fn convert(&self, ty: &node::Type) -> Type {
        convert_node_type(ty, &self.0).ignore_errors()
    }
}

impl Default for Names {
    fn default() -> Self {
        Names::new()
    }
}

/// An error's text and place.
pub fn parts(error: &TypeError) -> (&str, &SourceLocation) {
    (&error.description, &error.loc)
}
