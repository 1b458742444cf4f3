// Stands for the backend's printer: the names that the other files mention.

use std::collections::HashMap;

use super::VariableId;

#[derive(Default)]
pub struct PrintOptions {
    pub additional_variable_info: Option<HashMap<VariableId, String>>,
}

pub trait PrintIR {
    fn print_ir(&self, options: &PrintOptions) -> String;
}
