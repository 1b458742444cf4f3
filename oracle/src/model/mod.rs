//! Document 01's typing rules over the records of a module, without the reference. Names are numbers, types are rows.
//!
//! It also answers where the reference is silent: free bytes that are no UTF-8, and modules on which the reference would
//! not finish.

mod expression;
mod literal;
mod statement;

use std::collections::HashMap;

use crate::{
    answer::{Answer, Error, Operand},
    layout::{Module, Place, Record},
    pairs::Casts,
    rows::{BOOL, I16, STRING, U16, UNKNOWN, VOID},
};

pub use literal::fits_u16;

/// The flags of an alias.
const DISTINCT: u32 = 1;
const INTERNAL: u32 = 2;

/// The answer to a module, and how much work the reference would have with it.
pub struct Outcome {
    pub answer: Answer,
    /// A bound on the type nodes that the reference copies, compares or prints, up to a small factor.
    pub work: u64,
    /// The casts in the module.
    pub casts: Casts,
}

/// Checks a module.
pub fn check(module: &Module) -> Outcome {
    let mut model = Model::new(module);
    for item in &module.items {
        model.declare(item);
    }
    for item in &module.items {
        model.check_item(item);
    }
    let sizes = model.answer.rows.unfolded_sizes();
    let mut work = model.cast_work;
    for &row in model.touched.iter().chain(model.answer.slots.iter().map(|(_, row)| row)) {
        work = work.saturating_add(sizes[row as usize - 1]);
    }
    Outcome { answer: model.answer, work, casts: model.casts }
}

struct Model {
    /// The built-in types that a name of the module stands for.
    built_in: HashMap<u32, u32>,
    /// Aliases stored so far, by name.
    aliases: HashMap<u32, u32>,
    globals: HashMap<u32, u32>,
    answer: Answer,
    /// Types met in pass 1 and the operands of errors.
    touched: Vec<u32>,
    cast_work: u64,
    casts: Casts,
}

/// The names of one function, and the type that it returns.
struct Scope {
    locals: HashMap<u32, u32>,
    arguments: HashMap<u32, u32>,
    returned: u32,
}

impl Model {
    fn new(module: &Module) -> Self {
        let mut built_in = HashMap::new();
        for (number, name) in module.names.iter().enumerate() {
            let row = match name.as_slice() {
                b"u16" => U16,
                b"i16" => I16,
                b"bool" => BOOL,
                b"String" => STRING,
                _ => continue,
            };
            built_in.insert(number as u32, row);
        }
        Model {
            built_in,
            aliases: HashMap::new(),
            globals: HashMap::new(),
            answer: Answer::default(),
            touched: vec![],
            cast_work: 0,
            casts: Casts::default(),
        }
    }

    fn error(&mut self, kind: u32, at: Place, operands: &[Operand]) {
        self.error_at(kind, at, operands, 0);
    }

    /// An error that has a place in the file.
    fn error_at(&mut self, kind: u32, at: Place, operands: &[Operand], place: u32) {
        let mut all = [Operand::Number(0); 3];
        all[..operands.len()].copy_from_slice(operands);
        for operand in operands {
            if let Operand::Row(row) = *operand {
                self.touched.push(row);
            }
        }
        self.answer.errors.push(Error { kind, at, operands: all, place });
    }

    fn name_error(&mut self, kind: u32, at: Place, name: u32) {
        self.error(kind, at, &[Operand::Number(name)]);
    }

    fn row_error(&mut self, kind: u32, at: Place, row: u32) {
        self.error(kind, at, &[Operand::Row(row)]);
    }

    /// Kind 8 at a place unless the source may be put where the target is.
    fn expect_assignable(&mut self, target: u32, source: u32, at: Place) {
        if !self.answer.rows.assignable(target, source) {
            self.error(8, at, &[Operand::Row(target), Operand::Row(source)]);
        }
    }

    /// The row of a type record in pass 1, where no slot is filled.
    fn convert_early(&mut self, record: &Record) -> u32 {
        let filled = self.answer.slots.len();
        let row = self.convert(record);
        self.answer.slots.truncate(filled);
        self.touched.push(row);
        row
    }

    /// The row of a type record, with the aliases stored so far; fills the slots of it and of the types in it.
    fn convert(&mut self, record: &Record) -> u32 {
        let row = match record.kind {
            16 => self.named_type(record),
            17 => VOID,
            18 => {
                let inner = self.convert(&record.children[0]);
                self.answer.rows.pointer(inner)
            }
            19 => {
                let element = self.convert(&record.children[0]);
                self.answer.rows.array(element, record.fields[1])
            }
            _ => {
                let fields: Vec<(u32, u32)> =
                    record.children.iter().map(|field| (field.fields[0], self.convert(&field.children[0]))).collect();
                self.answer.rows.structure(&fields)
            }
        };
        self.answer.slots.push((record.slot(), row));
        row
    }

    fn named_type(&mut self, record: &Record) -> u32 {
        let name = record.fields[1];
        if let Some(&row) = self.aliases.get(&name).or(self.built_in.get(&name)) {
            return row;
        }
        self.name_error(1, record.at, name);
        UNKNOWN
    }

    /// Pass 1 over one item.
    fn declare(&mut self, item: &Record) {
        match item.kind {
            80 => {
                let returned = self.convert_early(&item.children[0]);
                let arguments: Vec<u32> =
                    parameters(item).map(|parameter| self.convert_early(&parameter.children[0])).collect();
                let function = self.answer.rows.function(returned, &arguments);
                self.touched.push(function);
                self.globals.insert(item.fields[0], function);
            }
            81 => self.declare_alias(item),
            83 => {
                let ty = self.convert_early(&item.children[0]);
                self.globals.insert(item.fields[0], ty);
            }
            _ => {}
        }
    }

    fn declare_alias(&mut self, item: &Record) {
        let (name, flags) = (item.fields[0], item.fields[1]);
        let ty = self.convert_early(&item.children[0]);
        let built_in = self.built_in.get(&name).copied();
        if flags & INTERNAL != 0 {
            match built_in {
                None => self.name_error(2, item.at, name),
                Some(expected) => {
                    if self.answer.rows.strip(expected) != self.answer.rows.strip(ty) {
                        self.error(3, item.at, &[Operand::Number(name), Operand::Row(ty)]);
                    }
                }
            }
        } else if self.aliases.contains_key(&name) {
            self.name_error(4, item.at, name);
        } else if built_in.is_some() {
            self.name_error(5, item.at, name);
        } else {
            let alias = self.answer.rows.alias(ty, name, flags & DISTINCT != 0);
            self.touched.push(alias);
            self.aliases.insert(name, alias);
        }
    }

    /// Pass 2 over one item.
    fn check_item(&mut self, item: &Record) {
        match item.kind {
            80 => self.check_function(item),
            81 => {
                self.convert(&item.children[0]);
            }
            83 => {
                let ty = self.convert(&item.children[0]);
                let scope = Scope { locals: HashMap::new(), arguments: HashMap::new(), returned: VOID };
                match item.children.get(1) {
                    Some(value) if is_compound(value) => self.compound(ty, value, &scope),
                    Some(value) => {
                        self.expression(value, &scope);
                    }
                    None => {}
                }
            }
            _ => {}
        }
    }

    fn check_function(&mut self, item: &Record) {
        let mut arguments = HashMap::new();
        for parameter in parameters(item) {
            let ty = self.convert(&parameter.children[0]);
            arguments.insert(parameter.fields[0], ty);
        }
        let returned = self.convert(&item.children[0]);
        let Some(body) = item.children.last().filter(|last| (64..=74).contains(&last.kind)) else { return };
        let mut scope = Scope { locals: HashMap::new(), arguments, returned };
        self.statement(body, &mut scope);
        if returned != VOID && !statement::diverges(body) {
            self.name_error(6, item.at, item.fields[0]);
        }
    }
}

/// The parameters of a function item.
fn parameters(item: &Record) -> impl Iterator<Item = &Record> {
    item.children.iter().filter(|child| child.kind == 85)
}

fn is_compound(record: &Record) -> bool {
    record.kind == 48 || record.kind == 49
}
