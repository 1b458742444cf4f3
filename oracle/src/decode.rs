//! The records of a module as the reference's syntax tree.

use std::path::PathBuf;

use crate::{
    layout::{Module, Place, Record},
    node::{self, *},
    source::{SourceInputType, SourceLocation},
};

/// Some free bytes are no UTF-8.
#[derive(Debug)]
pub struct Undecodable;

type Decoded<T> = Result<T, Undecodable>;

/// The names of a module as texts.
pub struct Decoder {
    pub names: Vec<String>,
    /// Whether a place has its file, which costs the reference a copy of a path wherever it copies a place.
    pub with_files: bool,
}

fn text(bytes: &[u8]) -> Decoded<String> {
    String::from_utf8(bytes.to_vec()).map_err(|_| Undecodable)
}

/// A record's place; the file's number is its path.
pub fn location(at: Place) -> SourceLocation {
    let file = PathBuf::from(at.file.to_string());
    SourceLocation::new(SourceInputType::File(file), at.line as usize, at.column as usize)
}

impl Decoder {
    pub fn new(module: &Module) -> Decoded<Self> {
        Ok(Decoder { names: module.names.iter().map(|name| text(name)).collect::<Decoded<_>>()?, with_files: true })
    }

    fn location(&self, at: Place) -> SourceLocation {
        if self.with_files {
            return location(at);
        }
        SourceLocation::new(SourceInputType::buffer(), at.line as usize, at.column as usize)
    }

    pub fn module(&self, module: &Module) -> Decoded<node::Module> {
        let mut decoded = node::Module::new(SourceInputType::buffer());
        decoded.items = module.items.iter().map(|item| self.item(item)).collect::<Decoded<_>>()?;
        Ok(decoded)
    }

    pub fn name(&self, number: u32) -> String {
        self.names[number as usize].clone()
    }

    fn item(&self, record: &Record) -> Decoded<TopLevelItem> {
        let kind = match record.kind {
            80 => self.function(record)?,
            81 => TopLevelItemKind::TypeAlias {
                name: self.name(record.fields[0]),
                ty: self.ty(&record.children[0]),
                distinct: record.fields[1] % 2 == 1,
                internal: record.fields[1] >= 2,
            },
            82 => TopLevelItemKind::Use { path: text(&record.bytes)? },
            83 => TopLevelItemKind::VariableDeclaration {
                name: self.name(record.fields[0]),
                ty: self.ty(&record.children[0]),
                value: self.initial_value(record)?,
            },
            _ => TopLevelItemKind::InlineAssembly(text(&record.bytes)?),
        };
        Ok(TopLevelItem::new(kind, self.location(record.at)))
    }

    fn function(&self, record: &Record) -> Decoded<TopLevelItemKind<(), node::Type>> {
        let mut parameters = vec![];
        let mut body = FunctionBody::Extern;
        for child in &record.children[1..] {
            if child.kind == 85 {
                let name = self.name(child.fields[0]);
                parameters.push(FunctionParameter { name, ty: self.ty(&child.children[0]) });
            } else {
                body = FunctionBody::Statement(self.statement(child)?);
            }
        }
        let name = self.name(record.fields[0]);
        Ok(TopLevelItemKind::FunctionDefinition { name, parameters, return_type: self.ty(&record.children[0]), body })
    }

    pub fn ty(&self, record: &Record) -> node::Type {
        let inner = || Box::new(self.ty(&record.children[0]));
        let kind = match record.kind {
            16 => TypeKind::Name(self.name(record.fields[1])),
            17 => TypeKind::Void,
            18 => TypeKind::Pointer(inner()),
            19 => TypeKind::Array(inner(), record.fields[1] as usize),
            _ => TypeKind::Struct(
                record.children.iter().map(|field| (self.name(field.fields[0]), self.ty(&field.children[0]))).collect(),
            ),
        };
        node::Type::new(kind, self.location(record.at))
    }

    fn initial_value(&self, record: &Record) -> Decoded<DeclarationInitialValue> {
        Ok(match record.children.get(1) {
            None => DeclarationInitialValue::None,
            Some(value) if value.kind == 48 || value.kind == 49 => {
                DeclarationInitialValue::CompoundAssignment(self.compound(value)?)
            }
            Some(value) => DeclarationInitialValue::Assignment(self.expression(value)?),
        })
    }

    fn compound(&self, record: &Record) -> Decoded<Compound> {
        let kind = if record.kind == 48 {
            CompoundKind::Array(record.children.iter().map(|e| self.expression(e)).collect::<Decoded<_>>()?)
        } else {
            let field = |field: &Record| {
                let value = self.expression(&field.children[0])?;
                Ok(CompoundField::new(self.name(field.fields[0]), value, self.location(field.at)))
            };
            CompoundKind::Struct(record.children.iter().map(field).collect::<Decoded<_>>()?)
        };
        Ok(Compound::new(kind, self.location(record.at)))
    }

    fn statement(&self, record: &Record) -> Decoded<Statement> {
        let expression = |i: usize| self.expression(&record.children[i]);
        let statement = |i: usize| Ok(Box::new(self.statement(&record.children[i])?));
        let kind = match record.kind {
            64 => StatementKind::Block {
                body: record.children.iter().map(|s| self.statement(s)).collect::<Decoded<_>>()?,
                trailing_return: record.fields[0] == 1,
            },
            65 => StatementKind::Expression(expression(0)?),
            66 => StatementKind::VariableDeclaration {
                name: self.name(record.fields[0]),
                ty: self.ty(&record.children[0]),
                value: self.initial_value(record)?,
            },
            67 => StatementKind::Assignment { target: expression(0)?, value: expression(1)? },
            68 => {
                StatementKind::CompoundAssignment { target: expression(0)?, value: self.compound(&record.children[1])? }
            }
            69 => StatementKind::Return(record.children.first().map(|e| self.expression(e)).transpose()?),
            70 => StatementKind::Loop(statement(0)?),
            71 => StatementKind::While { condition: expression(0)?, body: statement(1)? },
            72 => StatementKind::Break,
            73 => StatementKind::If {
                condition: expression(0)?,
                true_body: statement(1)?,
                false_body: record.children.get(2).map(|_| statement(2)).transpose()?,
            },
            _ => StatementKind::InlineAssembly(text(&record.bytes)?),
        };
        Ok(Statement::new(kind, self.location(record.at)))
    }

    fn expression(&self, record: &Record) -> Decoded<Expression> {
        let inner = |i: usize| Ok(Box::new(self.expression(&record.children[i])?));
        let kind = match record.kind {
            32 => ExpressionKind::Identifier(self.name(record.fields[1])),
            33 => ExpressionKind::Integer(text(&record.bytes)?, record.fields[1]),
            34 => ExpressionKind::Boolean(record.fields[1] == 1),
            35 => ExpressionKind::String(text(&record.bytes)?),
            36 => ExpressionKind::Call {
                target: inner(0)?,
                arguments: record.children[1..].iter().map(|e| self.expression(e)).collect::<Decoded<_>>()?,
            },
            37 => ExpressionKind::Index { target: inner(0)?, index: inner(1)? },
            38 => ExpressionKind::Cast(inner(0)?, self.ty(&record.children[1])),
            39 => ExpressionKind::PointerTake(inner(0)?),
            40 => ExpressionKind::PointerDereference(inner(0)?),
            41 => ExpressionKind::FieldAccess { target: inner(0)?, field: self.name(record.fields[1]) },
            42 => ExpressionKind::BitwiseNot(inner(0)?),
            43 => ExpressionKind::BooleanNot(inner(0)?),
            44 => ExpressionKind::BooleanAnd(inner(0)?, inner(1)?),
            45 => ExpressionKind::ArithmeticBinOp(ARITHMETIC[record.fields[1] as usize - 1], inner(0)?, inner(1)?),
            46 => ExpressionKind::ComparisonBinOp(COMPARISON[record.fields[1] as usize - 1], inner(0)?, inner(1)?),
            _ => ExpressionKind::Sizeof(self.ty(&record.children[0])),
        };
        Ok(Expression::new(kind, self.location(record.at)))
    }
}

/// The operators by their numbers less 1.
pub const ARITHMETIC: [ArithmeticBinOp; 8] = [
    ArithmeticBinOp::Add,
    ArithmeticBinOp::Subtract,
    ArithmeticBinOp::Multiply,
    ArithmeticBinOp::BitwiseAnd,
    ArithmeticBinOp::BitwiseXor,
    ArithmeticBinOp::BitwiseOr,
    ArithmeticBinOp::LeftShift,
    ArithmeticBinOp::RightShift,
];
const COMPARISON: [ComparisonBinOp; 5] = [
    ComparisonBinOp::Equals,
    ComparisonBinOp::GreaterThan,
    ComparisonBinOp::GreaterThanOrEquals,
    ComparisonBinOp::LessThan,
    ComparisonBinOp::LessThanOrEquals,
];
