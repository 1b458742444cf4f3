//! Reads the reference's output. The typed tree gives each slot its type. The errors are plain texts; they are told apart
//! by walking the tree in the reference's order: at each point where an error may be raised, the next text is compared
//! with the message that would stand there, its operands printed by the reference itself. So each operand is a type of the
//! reference and not a text. An error that fits nowhere makes the whole reading fail.
//!
//! Pass 1 leaves no types behind; they are asked again from the reference's own conversion.

use std::collections::HashMap;

use crate::{
    answer::{Answer, Error, LITERAL_ERROR, Operand},
    decode::{Decoder, location},
    fallible::Fallible,
    ir,
    layout::{Module, Place, Record},
    messages,
    node::{self, *},
    rows::{self, Rows},
    type_check::{Type, TypeError, inside, types_are_assignable},
};

/// An operand as a message prints it.
enum Said<'t> {
    Name(u32),
    Count(usize),
    Type(&'t Type),
    /// A type printed for programmers.
    Debug(&'t Type),
    /// The same of a type that is no operand of the error record.
    BuiltIn(&'t Type),
    /// An operator's number and text.
    Operator(u32, String),
    /// The digits of a literal, its base and the place of its record.
    Literal(&'t str, u32, usize),
}

impl Said<'_> {
    /// As `Display` prints it.
    fn shown(&self, decoder: &Decoder) -> String {
        match self {
            Said::Name(number) => decoder.name(*number),
            Said::Count(number) => number.to_string(),
            Said::Type(ty) | Said::Debug(ty) | Said::BuiltIn(ty) => ty.to_string(),
            Said::Operator(_, text) => text.clone(),
            Said::Literal(digits, ..) => (*digits).to_owned(),
        }
    }

    /// As the reference's message prints it.
    fn printed(&self, decoder: &Decoder) -> String {
        match self {
            Said::Debug(ty) | Said::BuiltIn(ty) => format!("{ty:?}"),
            other => other.shown(decoder),
        }
    }

    /// As an operand of the error record, if it is one.
    fn kept(&self) -> Option<Kept> {
        match self {
            Said::Name(number) | Said::Operator(number, _) => Some(Kept::Number(*number)),
            Said::Count(number) => Some(Kept::Number(*number as u32)),
            Said::Type(ty) | Said::Debug(ty) => Some(Kept::Type((*ty).clone())),
            Said::BuiltIn(_) | Said::Literal(..) => None,
        }
    }
}

/// An operand of an error that is attributed.
enum Kept {
    Number(u32),
    Type(Type),
}

/// An error that is attributed, its operands not in rows yet.
struct Found {
    kind: u32,
    at: Place,
    operands: Vec<Kept>,
    /// That of a literal's record.
    place: u32,
    message: String,
}

/// What the reference says of a module.
#[derive(Clone, Debug)]
pub struct Spoken {
    pub answer: Answer,
    /// The text of each error in order: its description, but that types of kind 3 are there as `Display` prints them (document 02, paper 1).
    pub messages: Vec<String>,
}

struct Attribution<'a> {
    decoder: &'a Decoder,
    numbers: HashMap<&'a str, u32>,
    errors: &'a [TypeError],
    /// Errors attributed so far.
    found: Vec<Found>,
    rows: Rows,
    slots: Vec<(usize, u32)>,
}

type Typed<T> = Result<T, String>;

fn unlike<T>(record: &Record) -> Typed<T> {
    Err(format!("the typed tree is not like the record at {}", record.place))
}

/// What the reference's output says.
pub fn attribute(
    module: &Module,
    decoder: &Decoder,
    checked: Fallible<node::Module<Type, Type>, TypeError>,
) -> Result<Spoken, String> {
    let errors = checked.errors().to_vec();
    let typed = checked.ignore_errors();
    let numbers = decoder.names.iter().enumerate().map(|(i, name)| (name.as_str(), i as u32)).collect();
    let mut reading =
        Attribution { decoder, numbers, errors: &errors, found: vec![], rows: Rows::new(), slots: vec![] };
    reading.pass_1(module)?;
    if typed.items.len() != module.items.len() {
        return Err("the typed tree has another number of items".to_owned());
    }
    for (record, item) in module.items.iter().zip(&typed.items) {
        reading.item(record, &item.kind)?;
    }
    reading.finish()
}

/// Whether the reference raises an error of such operands. Types may be printed alike, as a pointer and an alias that is named `*u16`, and
/// so may literals of two bases, of which one is in order and the other is not.
fn is_raised(kind: u32, said: &[Said]) -> bool {
    match (kind, said) {
        (8, [Said::Type(source), Said::Type(target)]) => !types_are_assignable(target, source),
        (9, [Said::Type(returned)]) => !returned.is_void(),
        (12, [_, Said::Type(expected), Said::Type(got)]) => !types_are_assignable(expected, got),
        (15, [Said::Type(from), Said::Type(to)]) => !from.is_castable_to(to),
        (16, [Said::Type(ty)]) => !matches!(ty, Type::Pointer(_)),
        (17, [Said::Type(ty)]) => !matches!(ty.desugar(), Type::Struct(_)),
        (LITERAL_ERROR, [Said::Literal(digits, base, _)]) => u16::from_str_radix(digits, *base).is_err(),
        (24, [_, Said::Type(Type::Pointer(_)), Said::Type(Type::Direct(right))]) => !right.is_integral(),
        _ => true,
    }
}

impl Attribution<'_> {
    /// Takes the next error if it is this one.
    fn may(&mut self, kind: u32, at: Place, said: &[Said]) -> bool {
        let Some(error) = self.errors.get(self.found.len()) else { return false };
        let (text, place) = inside::parts(error);
        if !messages::may_say(text, kind) || *place != location(at) {
            return false;
        }
        let printed: Vec<String> = said.iter().map(|said| said.printed(self.decoder)).collect();
        if messages::filled(kind, &printed) != *text || !is_raised(kind, said) {
            return false;
        }
        let mut operands: Vec<Kept> = said.iter().filter_map(Said::kept).collect();
        if kind == 8 {
            // The message says the source first, the record the target.
            operands.reverse();
        }
        let place = match said {
            [Said::Literal(.., place)] => *place as u32,
            _ => 0,
        };
        let message = match kind {
            3 => messages::filled(kind, &said.iter().map(|said| said.shown(self.decoder)).collect::<Vec<_>>()),
            _ => text.to_owned(),
        };
        self.found.push(Found { kind, at, operands, place, message });
        true
    }

    /// What is said, once the whole tree is walked.
    fn finish(mut self) -> Result<Spoken, String> {
        if let Some(error) = self.errors.get(self.found.len()) {
            return Err(format!("error {} fits nowhere: {error}", self.found.len() + 1));
        }
        let demanded = self.rows.count();
        let (mut errors, mut messages) = (vec![], vec![]);
        for found in std::mem::take(&mut self.found) {
            let mut operands = [Operand::Number(0); 3];
            for (operand, kept) in operands.iter_mut().zip(found.operands) {
                *operand = match kept {
                    Kept::Number(number) => Operand::Number(number),
                    Kept::Type(ty) => Operand::Row(self.row(&ty)?),
                };
            }
            errors.push(Error { kind: found.kind, at: found.at, operands, place: found.place });
            messages.push(found.message);
        }
        if self.rows.count() > demanded {
            return Err("an error's type is not among the demanded rows".to_owned());
        }
        Ok(Spoken { answer: Answer { rows: self.rows, slots: self.slots, errors }, messages })
    }

    /// The row of one of the reference's types, added with its parts and cells if it is not there yet.
    fn row(&mut self, ty: &Type) -> Typed<u32> {
        Ok(match ty {
            Type::Unknown => rows::UNKNOWN,
            Type::Direct(ir::Type::Void) => rows::VOID,
            Type::Direct(ir::Type::Boolean) => rows::BOOL,
            Type::Direct(ir::Type::UnsignedInteger(_)) => rows::U16,
            Type::Direct(ir::Type::SignedInteger(_)) => rows::I16,
            Type::Direct(other) => return Err(format!("a type that no row stands for: {other}")),
            Type::Pointer(inner) => {
                let inner = self.row(inner)?;
                self.rows.pointer(inner)
            }
            Type::Array(element, size) => {
                let element = self.row(element)?;
                self.rows.array(element, u32::try_from(*size).map_err(|e| e.to_string())?)
            }
            Type::Struct(fields) => {
                let fields = fields
                    .iter()
                    .map(|(name, ty)| Ok((self.numbers[name.as_str()], self.row(ty)?)))
                    .collect::<Typed<Vec<_>>>()?;
                self.rows.structure(&fields)
            }
            Type::FunctionReference { argument_types, return_type } => {
                let returned = self.row(return_type)?;
                let arguments = argument_types.iter().map(|ty| self.row(ty)).collect::<Typed<Vec<_>>>()?;
                self.rows.function(returned, &arguments)
            }
            // No alias of that name is ever stored, so this is the built-in one.
            Type::DistinctAliased(inner, name) if name == "String" => {
                if self.row(inner)? != rows::POINTER_TO_U16 {
                    return Err("another String".to_owned());
                }
                rows::STRING
            }
            Type::Aliased(inner, name) | Type::DistinctAliased(inner, name) => {
                let of = self.row(inner)?;
                self.rows.alias(of, self.numbers[name.as_str()], matches!(ty, Type::DistinctAliased(..)))
            }
        })
    }

    fn pass_1(&mut self, module: &Module) -> Typed<()> {
        let mut names = inside::Names::new();
        let mut stored = std::collections::HashSet::new();
        for item in &module.items {
            match item.kind {
                80 => {
                    let return_type = Box::new(self.early(&item.children[0], &names)?);
                    let parameters = item.children.iter().filter(|child| child.kind == 85);
                    let argument_types =
                        parameters.map(|p| self.early(&p.children[0], &names)).collect::<Typed<Vec<_>>>()?;
                    self.row(&Type::FunctionReference { argument_types, return_type })?;
                }
                81 => {
                    let name = item.fields[0];
                    let ty = self.early(&item.children[0], &names)?;
                    if self.may_store(item, &ty, stored.contains(&name)) {
                        let text = self.decoder.name(name);
                        let inner = Box::new(ty);
                        let alias = match item.fields[1] {
                            1 => Type::DistinctAliased(inner, text.clone()),
                            _ => Type::Aliased(inner, text.clone()),
                        };
                        self.row(&alias)?;
                        names.store(&text, alias);
                        stored.insert(name);
                    }
                }
                83 => {
                    self.early(&item.children[0], &names)?;
                }
                _ => {}
            }
        }
        Ok(())
    }

    /// A declared type as pass 1 converts it.
    fn early(&mut self, record: &Record, names: &inside::Names) -> Typed<Type> {
        self.unknown_names(record);
        let ty = names.convert(&self.decoder.ty(record));
        self.row(&ty)?;
        Ok(ty)
    }

    /// The errors of a declared type, in the order of the names in it.
    fn unknown_names(&mut self, record: &Record) {
        if record.kind == 16 {
            self.may(1, record.at, &[Said::Name(record.fields[1])]);
        }
        for child in &record.children {
            self.unknown_names(child);
        }
    }

    /// The errors of an alias of a type; whether it is stored.
    fn may_store(&mut self, item: &Record, ty: &Type, duplicate: bool) -> bool {
        let said = Said::Name(item.fields[0]);
        let name = node::Type::new(TypeKind::Name(self.decoder.name(item.fields[0])), location(item.at));
        let built_in = inside::Names::new().convert(&name);
        if item.fields[1] >= 2 {
            if built_in == Type::Unknown {
                self.may(2, item.at, &[said]);
            } else {
                self.may(3, item.at, &[said, Said::BuiltIn(&built_in), Said::Debug(ty)]);
            }
            false
        } else if duplicate {
            self.may(4, item.at, &[said]);
            false
        } else {
            !(built_in != Type::Unknown && self.may(5, item.at, &[said]))
        }
    }

    fn item(&mut self, record: &Record, item: &TopLevelItemKind<Type, Type>) -> Typed<()> {
        match item {
            TopLevelItemKind::FunctionDefinition { parameters, return_type, body, .. } if record.kind == 80 => {
                let records = record.children.iter().filter(|child| child.kind == 85);
                for (record, parameter) in records.zip(parameters) {
                    self.declared(&record.children[0], &parameter.ty)?;
                }
                self.declared(&record.children[0], return_type)?;
                if let FunctionBody::Statement(body) = body {
                    self.statement(record.children.last().unwrap(), body, return_type)?;
                    self.may(6, record.at, &[Said::Name(record.fields[0])]);
                }
                Ok(())
            }
            TopLevelItemKind::TypeAlias { ty, .. } if record.kind == 81 => self.declared(&record.children[0], ty),
            TopLevelItemKind::VariableDeclaration { ty, value, .. } if record.kind == 83 => {
                self.declared(&record.children[0], ty)?;
                self.initial_value(record, ty, value, false)
            }
            TopLevelItemKind::Use { .. } if record.kind == 82 => Ok(()),
            TopLevelItemKind::InlineAssembly(_) if record.kind == 84 => Ok(()),
            _ => unlike(record),
        }
    }

    /// A declared type as pass 2 converts it.
    fn declared(&mut self, record: &Record, ty: &Type) -> Typed<()> {
        self.unknown_names(record);
        self.type_slots(record, ty)
    }

    fn type_slots(&mut self, record: &Record, ty: &Type) -> Typed<()> {
        let row = self.row(ty)?;
        self.slots.push((record.slot(), row));
        match (record.kind, ty) {
            (16, _) | (17, Type::Direct(ir::Type::Void)) => Ok(()),
            (18, Type::Pointer(inner)) => self.type_slots(&record.children[0], inner),
            (19, Type::Array(inner, size)) if *size == record.fields[1] as usize => {
                self.type_slots(&record.children[0], inner)
            }
            (20, Type::Struct(fields)) if fields.len() == record.children.len() => {
                for (record, (_, ty)) in record.children.iter().zip(fields) {
                    self.type_slots(&record.children[0], ty)?;
                }
                Ok(())
            }
            _ => unlike(record),
        }
    }
}

mod body;
