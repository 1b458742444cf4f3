//! Function bodies, initial values and expressions of the reference's output.

use super::{Attribution, Said, Typed, unlike};
use crate::{answer::LITERAL_ERROR, decode::ARITHMETIC, layout::Record, node::*, type_check::Type};

type TypedExpression = Expression<Type, Type>;

impl Attribution<'_> {
    /// The initial value of a variable; only a local's plain value is compared with the declared type.
    pub(super) fn initial_value(
        &mut self,
        record: &Record,
        ty: &Type,
        value: &DeclarationInitialValue<Type, Type>,
        compared: bool,
    ) -> Typed<()> {
        match (value, record.children.get(1)) {
            (DeclarationInitialValue::None, None) => {}
            (DeclarationInitialValue::Assignment(value), Some(record)) => {
                self.expression(record, value)?;
                if compared {
                    self.may(8, record.at, &[Said::Type(&value.data), Said::Type(ty)]);
                }
            }
            (DeclarationInitialValue::CompoundAssignment(value), Some(record)) => self.compound(record, ty, value)?,
            _ => return unlike(record),
        }
        Ok(())
    }

    fn compound(&mut self, record: &Record, target: &Type, compound: &Compound<Type, Type>) -> Typed<()> {
        match &compound.kind {
            CompoundKind::Array(elements) if record.kind == 48 && elements.len() == record.children.len() => {
                for (record, element) in record.children.iter().zip(elements) {
                    self.expression(record, element)?;
                }
                if let Type::Array(inner, size) = target.desugar() {
                    self.may(25, record.at, &[Said::Count(*size), Said::Count(elements.len())]);
                    for element in elements {
                        self.may(8, record.at, &[Said::Type(&element.data), Said::Type(inner)]);
                    }
                } else {
                    self.may(26, record.at, &[Said::Type(target)]);
                }
                Ok(())
            }
            CompoundKind::Struct(fields) if record.kind == 49 && fields.len() == record.children.len() => {
                self.struct_compound(record, target, fields)
            }
            _ => unlike(record),
        }
    }

    fn struct_compound(&mut self, record: &Record, target: &Type, fields: &[CompoundField<Type, Type>]) -> Typed<()> {
        for (record, field) in record.children.iter().zip(fields) {
            self.expression(&record.children[0], &field.value)?;
        }
        if let Type::Struct(members) = target.desugar() {
            for (record, field) in record.children.iter().zip(fields) {
                match members.iter().find(|(name, _)| *name == field.name) {
                    Some((_, ty)) => self.may(8, record.at, &[Said::Type(&field.value.data), Said::Type(ty)]),
                    None => self.may(27, record.at, &[Said::Name(record.fields[0])]),
                };
            }
        } else {
            self.may(28, record.at, &[Said::Type(target)]);
        }
        for record in &record.children {
            self.may(29, record.at, &[Said::Name(record.fields[0])]);
        }
        Ok(())
    }

    /// A statement of a function that returns `returned`.
    pub(super) fn statement(
        &mut self,
        record: &Record,
        statement: &Statement<Type, Type>,
        returned: &Type,
    ) -> Typed<()> {
        let children = &record.children;
        match (record.kind, &statement.kind) {
            (64, StatementKind::Block { body, .. }) if body.len() == children.len() => {
                for (record, member) in children.iter().zip(body) {
                    self.statement(record, member, returned)?;
                }
            }
            (65, StatementKind::Expression(e)) => self.expression(&children[0], e)?,
            (66, StatementKind::VariableDeclaration { ty, value, .. }) => {
                self.declared(&children[0], ty)?;
                self.may(7, record.at, &[Said::Name(record.fields[0])]);
                self.initial_value(record, ty, value, true)?;
            }
            (67, StatementKind::Assignment { target, value }) => {
                self.expression(&children[0], target)?;
                self.expression(&children[1], value)?;
                self.may(8, record.at, &[Said::Type(&value.data), Said::Type(&target.data)]);
            }
            (68, StatementKind::CompoundAssignment { target, value }) => {
                self.expression(&children[0], target)?;
                self.compound(&children[1], &target.data, value)?;
            }
            (69, StatementKind::Return(Some(value))) if children.len() == 1 => {
                self.expression(&children[0], value)?;
                self.may(8, record.at, &[Said::Type(&value.data), Said::Type(returned)]);
            }
            (69, StatementKind::Return(None)) if children.is_empty() => {
                self.may(9, record.at, &[Said::Type(returned)]);
            }
            (70, StatementKind::Loop(body)) => self.statement(&children[0], body, returned)?,
            (71, StatementKind::While { condition, body }) => {
                self.condition(record, condition)?;
                self.statement(&children[1], body, returned)?;
            }
            (72, StatementKind::Break) | (74, StatementKind::InlineAssembly(_)) => {}
            (73, StatementKind::If { condition, true_body, false_body }) => {
                self.condition(record, condition)?;
                self.statement(&children[1], true_body, returned)?;
                match (children.get(2), false_body) {
                    (Some(record), Some(body)) => self.statement(record, body, returned)?,
                    (None, None) => {}
                    _ => return unlike(record),
                }
            }
            _ => return unlike(record),
        }
        Ok(())
    }

    fn condition(&mut self, record: &Record, condition: &TypedExpression) -> Typed<()> {
        self.expression(&record.children[0], condition)?;
        let boolean = Type::Direct(crate::ir::Type::Boolean);
        self.may(8, record.at, &[Said::Type(&condition.data), Said::Type(&boolean)]);
        Ok(())
    }

    fn expression(&mut self, record: &Record, e: &TypedExpression) -> Typed<()> {
        let row = self.row(&e.data)?;
        self.slots.push((record.slot(), row));
        let children = &record.children;
        match (record.kind, &e.kind) {
            (32, ExpressionKind::Identifier(_)) => {
                self.may(10, record.at, &[Said::Name(record.fields[1])]);
            }
            (33, ExpressionKind::Integer(digits, base)) => {
                self.may(LITERAL_ERROR, record.at, &[Said::Literal(digits, *base, record.place)]);
            }
            (34, ExpressionKind::Boolean(_)) | (35, ExpressionKind::String(_)) => {}
            (36, ExpressionKind::Call { target, arguments }) if arguments.len() + 1 == children.len() => {
                self.call(record, target, arguments)?
            }
            (37, ExpressionKind::Index { target, index }) => {
                self.expression(&children[0], target)?;
                self.expression(&children[1], index)?;
                self.may(14, children[1].at, &[Said::Type(&index.data)]);
            }
            (38, ExpressionKind::Cast(value, ty)) => {
                self.expression(&children[0], value)?;
                self.declared(&children[1], ty)?;
                self.may(15, record.at, &[Said::Type(&value.data), Said::Type(ty)]);
            }
            (39, ExpressionKind::PointerTake(inner)) => self.expression(&children[0], inner)?,
            (40, ExpressionKind::PointerDereference(inner)) => self.one_sided(record, inner, 16)?,
            (42, ExpressionKind::BitwiseNot(inner)) => self.one_sided(record, inner, 19)?,
            (43, ExpressionKind::BooleanNot(inner)) => self.one_sided(record, inner, 20)?,
            (41, ExpressionKind::FieldAccess { target, .. }) => {
                self.one_sided(record, target, 17)?;
                self.may(18, record.at, &[Said::Type(&target.data), Said::Name(record.fields[1])]);
            }
            (44, ExpressionKind::BooleanAnd(left, right)) => {
                self.expression(&children[0], left)?;
                self.expression(&children[1], right)?;
                self.may(21, record.at, &[Said::Type(&left.data)]);
                self.may(22, record.at, &[Said::Type(&right.data)]);
            }
            (45, ExpressionKind::ArithmeticBinOp(_, left, right)) => {
                let number = record.fields[1];
                let operator = ARITHMETIC[number as usize - 1].to_string();
                self.two_sided(record, left, right, Said::Operator(number, operator))?;
            }
            (46, ExpressionKind::ComparisonBinOp(_, left, right)) => {
                self.two_sided(record, left, right, Said::Operator(9, "==".to_owned()))?
            }
            (47, ExpressionKind::Sizeof(ty)) => self.declared(&children[0], ty)?,
            _ => return unlike(record),
        }
        Ok(())
    }

    fn one_sided(&mut self, record: &Record, inner: &TypedExpression, kind: u32) -> Typed<()> {
        self.expression(&record.children[0], inner)?;
        self.may(kind, record.at, &[Said::Type(&inner.data)]);
        Ok(())
    }

    fn two_sided(
        &mut self,
        record: &Record,
        left: &TypedExpression,
        right: &TypedExpression,
        operator: Said,
    ) -> Typed<()> {
        self.expression(&record.children[0], left)?;
        self.expression(&record.children[1], right)?;
        let (left, right) = (left.data.desugar(), right.data.desugar());
        self.may(24, record.at, &[operator, Said::Type(left), Said::Type(right)]);
        Ok(())
    }

    fn call(&mut self, record: &Record, target: &TypedExpression, arguments: &[TypedExpression]) -> Typed<()> {
        self.expression(&record.children[0], target)?;
        for (record, argument) in record.children[1..].iter().zip(arguments) {
            self.expression(record, argument)?;
        }
        if let Type::FunctionReference { argument_types, .. } = &target.data {
            self.may(11, record.at, &[Said::Count(argument_types.len()), Said::Count(arguments.len())]);
            for (i, (ty, argument)) in argument_types.iter().zip(arguments).enumerate() {
                self.may(12, record.at, &[Said::Count(i + 1), Said::Type(ty), Said::Type(&argument.data)]);
            }
        } else {
            self.may(13, record.at, &[Said::Type(&target.data)]);
        }
        Ok(())
    }
}
