//! Statements, compounds, and which statements diverge.

use std::collections::hash_map::Entry;

use super::{Model, Scope, is_compound};
use crate::{
    answer::Operand,
    layout::Record,
    rows::{BOOL, VOID, kind},
};

impl Model {
    pub(super) fn statement(&mut self, record: &Record, scope: &mut Scope) {
        match record.kind {
            64 | 70 => {
                for member in &record.children {
                    self.statement(member, scope);
                }
            }
            65 => {
                self.expression(&record.children[0], scope);
            }
            66 => self.local(record, scope),
            67 => {
                let target = self.expression(&record.children[0], scope);
                let value = self.expression(&record.children[1], scope);
                self.expect_assignable(target, value, record.at);
            }
            68 => {
                let target = self.expression(&record.children[0], scope);
                self.compound(target, &record.children[1], scope);
            }
            69 => self.return_statement(record, scope),
            71 | 73 => {
                let condition = self.expression(&record.children[0], scope);
                self.expect_assignable(BOOL, condition, record.at);
                for body in &record.children[1..] {
                    self.statement(body, scope);
                }
            }
            _ => {}
        }
    }

    fn local(&mut self, record: &Record, scope: &mut Scope) {
        let name = record.fields[0];
        let ty = self.convert(&record.children[0]);
        match scope.locals.entry(name) {
            Entry::Occupied(_) => self.name_error(7, record.at, name),
            Entry::Vacant(new) => {
                new.insert(ty);
            }
        }
        match record.children.get(1) {
            Some(value) if is_compound(value) => self.compound(ty, value, scope),
            Some(value) => {
                let given = self.expression(value, scope);
                self.expect_assignable(ty, given, value.at);
            }
            None => {}
        }
    }

    fn return_statement(&mut self, record: &Record, scope: &Scope) {
        match record.children.first() {
            Some(value) => {
                let given = self.expression(value, scope);
                self.expect_assignable(scope.returned, given, record.at);
            }
            None if scope.returned != VOID => self.row_error(9, record.at, scope.returned),
            None => {}
        }
    }

    /// A compound put where the target type is.
    pub(super) fn compound(&mut self, target: u32, record: &Record, scope: &Scope) {
        if record.kind == 48 {
            self.array_compound(target, record, scope);
        } else {
            self.struct_compound(target, record, scope);
        }
    }

    fn array_compound(&mut self, target: u32, record: &Record, scope: &Scope) {
        let given: Vec<u32> = record.children.iter().map(|element| self.expression(element, scope)).collect();
        let array = self.answer.rows.row(self.answer.rows.desugar(target));
        if array.kind != kind::ARRAY {
            self.row_error(26, record.at, target);
            return;
        }
        if array.second as usize != given.len() {
            self.error(25, record.at, &[Operand::Number(array.second), Operand::Number(given.len() as u32)]);
        }
        for ty in given {
            self.expect_assignable(array.first, ty, record.at);
        }
    }

    fn struct_compound(&mut self, target: u32, record: &Record, scope: &Scope) {
        let given: Vec<u32> = record.children.iter().map(|field| self.expression(&field.children[0], scope)).collect();
        let structure = self.answer.rows.row(self.answer.rows.desugar(target));
        if structure.kind == kind::STRUCT {
            let members = self.answer.rows.members(structure.first);
            for (field, &ty) in record.children.iter().zip(&given) {
                match members.iter().find(|member| member.0 == field.fields[0]) {
                    Some(&(_, expected)) => self.expect_assignable(expected, ty, field.at),
                    None => self.name_error(27, field.at, field.fields[0]),
                }
            }
        } else {
            self.row_error(28, record.at, target);
        }
        for field in &record.children {
            let name = field.fields[0];
            if record.children.iter().filter(|other| other.fields[0] == name).count() > 1 {
                self.name_error(29, field.at, name);
            }
        }
    }
}

/// Whether every path through a statement leaves its function or never ends.
pub(super) fn diverges(record: &Record) -> bool {
    match record.kind {
        69 => true,
        64 => record.children.iter().any(diverges),
        73 => record.children.len() == 3 && record.children[1..].iter().all(diverges),
        71 => diverges(&record.children[1]),
        70 => !has_break(&record.children[0]) || diverges(&record.children[0]),
        _ => false,
    }
}

/// Whether a statement is or holds a break at any depth, those of inner loops included.
fn has_break(record: &Record) -> bool {
    match record.kind {
        72 => true,
        64 | 70 => record.children.iter().any(has_break),
        71 | 73 => record.children[1..].iter().any(has_break),
        _ => false,
    }
}
