//! The types of expressions.

use super::{Model, Scope, fits_u16};
use crate::{
    answer::{LITERAL_ERROR, Operand},
    layout::Record,
    rows::{BOOL, I16, STRING, U16, UNKNOWN, kind},
};

/// The operator word of kind 24 for every comparison.
const COMPARISON: u32 = 9;

impl Model {
    /// The type of an expression; fills its slot.
    pub(super) fn expression(&mut self, record: &Record, scope: &Scope) -> u32 {
        let row = match record.kind {
            32 => self.identifier(record, scope),
            33 => {
                if !fits_u16(&record.bytes, record.fields[1]) {
                    self.error_at(LITERAL_ERROR, record.at, &[], record.place as u32);
                }
                U16
            }
            34 => BOOL,
            35 => STRING,
            36 => self.call(record, scope),
            37 => self.index(record, scope),
            38 => self.cast(record, scope),
            39 => {
                let target = self.expression(&record.children[0], scope);
                self.answer.rows.pointer(target)
            }
            40 => self.dereference(record, scope),
            41 => self.field_access(record, scope),
            42 => {
                let ty = self.expression(&record.children[0], scope);
                if ty != U16 && ty != I16 {
                    self.row_error(19, record.at, ty);
                }
                ty
            }
            43 => {
                let ty = self.expression(&record.children[0], scope);
                if ty != BOOL {
                    self.row_error(20, record.at, ty);
                }
                ty
            }
            44 => self.boolean_and(record, scope),
            45 => self.operation(record, record.fields[1], scope),
            46 => {
                self.operation(record, COMPARISON, scope);
                BOOL
            }
            _ => {
                self.convert(&record.children[0]);
                U16
            }
        };
        self.answer.slots.push((record.slot(), row));
        row
    }

    fn identifier(&mut self, record: &Record, scope: &Scope) -> u32 {
        let name = record.fields[1];
        for names in [&scope.locals, &scope.arguments, &self.globals] {
            if let Some(&ty) = names.get(&name) {
                return ty;
            }
        }
        self.name_error(10, record.at, name);
        UNKNOWN
    }

    fn call(&mut self, record: &Record, scope: &Scope) -> u32 {
        let types: Vec<u32> = record.children.iter().map(|child| self.expression(child, scope)).collect();
        let (target, given) = (types[0], &types[1..]);
        let function = self.answer.rows.row(target);
        if function.kind != kind::FUNCTION {
            self.row_error(13, record.at, target);
            return UNKNOWN;
        }
        let expected = self.answer.rows.members(function.second);
        if expected.len() != given.len() {
            self.error(11, record.at, &[Operand::Number(expected.len() as u32), Operand::Number(given.len() as u32)]);
        }
        for (i, (&(_, expected), &given)) in expected.iter().zip(given).enumerate() {
            if !self.answer.rows.assignable(expected, given) {
                let position = Operand::Number(i as u32 + 1);
                self.error(12, record.at, &[position, Operand::Row(expected), Operand::Row(given)]);
            }
        }
        function.first
    }

    fn index(&mut self, record: &Record, scope: &Scope) -> u32 {
        let target = self.expression(&record.children[0], scope);
        let index = self.expression(&record.children[1], scope);
        if index != U16 {
            self.row_error(14, record.children[1].at, index);
        }
        let target = self.answer.rows.row(target);
        if target.kind == kind::ARRAY { target.first } else { UNKNOWN }
    }

    fn cast(&mut self, record: &Record, scope: &Scope) -> u32 {
        let from = self.expression(&record.children[0], scope);
        let to = self.convert(&record.children[1]);
        let cast = self.answer.rows.cast(from, to);
        if !cast.castable {
            self.error(15, record.at, &[Operand::Row(from), Operand::Row(to)]);
        }
        let [source, target] = [from, to].map(|ty| self.answer.rows.distinct_aliases(ty));
        self.casts.count(source, target, cast).expect("as many pairs as paper 11 says");
        self.cast_work = self.cast_work.saturating_add(tries(source, target));
        to
    }

    fn dereference(&mut self, record: &Record, scope: &Scope) -> u32 {
        let ty = self.expression(&record.children[0], scope);
        let pointer = self.answer.rows.row(ty);
        if pointer.kind == kind::POINTER {
            return pointer.first;
        }
        self.row_error(16, record.at, ty);
        UNKNOWN
    }

    fn field_access(&mut self, record: &Record, scope: &Scope) -> u32 {
        let ty = self.expression(&record.children[0], scope);
        let target = self.answer.rows.row(self.answer.rows.desugar(ty));
        if target.kind != kind::STRUCT {
            self.row_error(17, record.at, ty);
            return UNKNOWN;
        }
        let name = record.fields[1];
        match self.answer.rows.members(target.first).iter().find(|member| member.0 == name) {
            Some(&(_, field)) => field,
            None => {
                self.error(18, record.at, &[Operand::Row(ty), Operand::Number(name)]);
                UNKNOWN
            }
        }
    }

    fn boolean_and(&mut self, record: &Record, scope: &Scope) -> u32 {
        let left = self.expression(&record.children[0], scope);
        let right = self.expression(&record.children[1], scope);
        for (kind, side) in [(21, left), (22, right)] {
            if side != BOOL {
                self.row_error(kind, record.at, side);
            }
        }
        left
    }

    /// Arithmetic or a comparison: the left side's type, desugared.
    fn operation(&mut self, record: &Record, operator: u32, scope: &Scope) -> u32 {
        let left = self.expression(&record.children[0], scope);
        let right = self.expression(&record.children[1], scope);
        let (left, right) = (self.answer.rows.desugar(left), self.answer.rows.desugar(right));
        let integer = |ty| ty == U16 || ty == I16;
        let equal_integers = integer(left) && left == right;
        let pointer_and_integer = self.answer.rows.row(left).kind == kind::POINTER && integer(right);
        if !equal_integers && !pointer_and_integer {
            self.error(24, record.at, &[Operand::Number(operator), Operand::Row(left), Operand::Row(right)]);
        }
        left
    }
}

/// The pairs that the reference's cast search tries at most, with so many distinct aliases on top of the two types.
fn tries(from: usize, to: usize) -> u64 {
    let (few, many) = (from.min(to), from.max(to));
    if few > 40 {
        return u64::MAX;
    }
    // `line[j]` is the number for so many of the one side as are counted and j of the other.
    let mut line: Vec<u64> = (1..=few as u64 + 1).collect();
    for i in 1..=many as u64 {
        let mut corner = std::mem::replace(&mut line[0], i + 1);
        for j in 1..=few {
            let sum = line[j - 1].saturating_add(line[j]).saturating_add(corner).saturating_add(1);
            corner = std::mem::replace(&mut line[j], sum);
        }
    }
    line[few]
}
