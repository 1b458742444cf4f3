//! Statements, compounds and items.

use super::maker::Maker;
use crate::{
    rows::{BOOL, POINTER_TO_U16, U16, VOID, kind},
    tree::Tree,
};

impl Maker {
    /// A statement of at most `levels` levels, exactly so many if `deep`.
    pub fn statement(&mut self, levels: usize, deep: bool) -> Tree {
        self.budget -= 1;
        if levels <= 1 {
            return match self.random.below(6) {
                0 => self.tree(72, &[], vec![]),
                1 => self.bytes(74, &[], b"nop"),
                2 => self.tree(64, &[1], vec![]),
                3 if self.returned == VOID || self.goes_wrong() => self.tree(69, &[], vec![]),
                _ => self.tree(64, &[0], vec![]),
            };
        }
        match self.random.below(16) {
            0 | 1 => self.block(levels, deep),
            2 => {
                let ty = self.fitting_type(levels - 1);
                let e = self.expression(ty, levels - 1, deep);
                self.tree(65, &[], vec![e])
            }
            3..=5 => self.variable(66, levels, deep),
            6 | 7 => self.assignment(levels, deep),
            8 if levels > if deep { 8 } else { 2 } => self.compound_assignment(levels, deep),
            9 => self.return_statement(levels, deep),
            10 => {
                let body = self.statement(levels - 1, deep);
                self.tree(70, &[], vec![body])
            }
            11 | 12 => self.conditional(71, levels, deep),
            13 | 14 => self.conditional(73, levels, deep),
            _ if deep => self.block(levels, deep),
            _ => self.statement(1, false),
        }
    }

    fn block(&mut self, levels: usize, deep: bool) -> Tree {
        let count = if deep { 1 + self.random.below(2) } else { self.random.below(5) };
        let mut members = vec![];
        for i in 0..count {
            let main = deep && i + 1 == count;
            let short = if deep { (levels - 1).min(3) } else { levels - 1 };
            members.push(if main { self.statement(levels - 1, true) } else { self.statement(short, false) });
        }
        let trailing = self.random.below(2) as u32;
        self.tree(64, &[trailing], members)
    }

    /// A local or global variable; the name joins those known.
    pub fn variable(&mut self, kind: u16, levels: usize, deep: bool) -> Tree {
        let (mut ty, mut row) = self.declared((levels - 1).min(4));
        if deep && !self.fits(row, levels - 1) {
            (ty, row) = (self.spell(U16), U16);
        }
        // A local may hide an argument or a global.
        let prefix = *self.random.pick(&["x", "x", "x", "x", if kind == 66 { "p" } else { "x" }, "f"]);
        let taken = if kind == 66 { self.locals.clone() } else { self.globals.clone() };
        let name = self.fresh_name(prefix, 12, &taken);
        let known = if kind == 66 { &mut self.locals } else { &mut self.globals };
        match known.iter().position(|one| one.0 == name) {
            // The first local counts, but the last global.
            Some(_) if kind == 66 => {}
            Some(i) => known[i].1 = row,
            None => known.push((name, row)),
        }
        let mut children = vec![ty];
        let choice = self.random.below(10);
        let compound = self.takes_compound(row, levels - 2);
        if compound && choice < 5 && levels > 3 && !deep {
            let value = self.compound(row, levels - 1);
            children.push(value);
        } else if deep || choice < 8 && (self.fits(row, levels - 1) || self.goes_wrong()) {
            let value = self.value(row, levels - 1, deep);
            children.push(value);
        } else if choice == 8 && levels > 3 && self.goes_wrong() {
            let value = self.compound(row, levels - 1);
            children.push(value);
        }
        self.tree(kind, &[name], children)
    }

    /// Whether a compound for the type has few members, each of at most so many levels.
    fn takes_compound(&self, ty: u32, levels: usize) -> bool {
        let row = self.rows.row(self.rows.desugar(ty));
        match row.kind {
            kind::ARRAY => row.second <= 4 && self.fits(row.first, levels),
            kind::STRUCT => {
                let members = self.rows.members(row.first);
                let twice = |name: u32| members.iter().filter(|member| member.0 == name).count() > 1;
                levels > 1 && members.iter().all(|&(name, ty)| self.fits(ty, levels - 1) && !twice(name))
            }
            _ => false,
        }
    }

    /// An expression that may stand left of an assignment, and its type.
    fn target(&mut self, levels: usize) -> (Tree, u32) {
        let known: Vec<(u32, u32)> = self.locals.iter().chain(&self.globals).copied().collect();
        if known.is_empty() || self.goes_wrong() {
            let ty = self.fitting_type(levels);
            return (self.expression(ty, levels, false), ty);
        }
        let (name, _) = *self.random.pick(&known);
        // The first of the name is the one that is found.
        let (_, ty) = *known.iter().find(|one| one.0 == name).unwrap();
        (self.tree(32, &[0, name], vec![]), ty)
    }

    fn assignment(&mut self, levels: usize, deep: bool) -> Tree {
        let (target, ty) = self.target(levels - 1);
        if !self.fits(ty, levels - 1) && !self.goes_wrong() {
            let e = if deep { self.expression(U16, levels - 1, true) } else { target };
            return self.tree(65, &[], vec![e]);
        }
        let value = self.value(ty, levels - 1, deep);
        self.tree(67, &[], vec![target, value])
    }

    fn compound_assignment(&mut self, levels: usize, deep: bool) -> Tree {
        if deep {
            let value = self.expression(U16, levels - 2, true);
            let array = self.rows.array(U16, 1);
            let target = self.expression(array, (levels - 1).min(5), false);
            let compound = self.tree(48, &[], vec![value]);
            return self.tree(68, &[], vec![target, compound]);
        }
        let (target, ty) = self.target(levels - 1);
        if !self.takes_compound(ty, levels - 2) && !self.goes_wrong() {
            return self.tree(65, &[], vec![target]);
        }
        let compound = self.compound(ty, levels - 1);
        self.tree(68, &[], vec![target, compound])
    }

    fn return_statement(&mut self, levels: usize, deep: bool) -> Tree {
        if !deep && (self.returned == VOID) != self.goes_wrong() {
            return self.tree(69, &[], vec![]);
        }
        if !self.fits(self.returned, levels - 1) {
            return if deep { self.block(levels, true) } else { self.tree(64, &[0], vec![]) };
        }
        let value = self.value(self.returned, levels - 1, deep);
        self.tree(69, &[], vec![value])
    }

    fn conditional(&mut self, kind: u16, levels: usize, deep: bool) -> Tree {
        let condition = self.expression(BOOL, (levels - 1).min(4), false);
        let body = self.statement(levels - 1, deep);
        let mut children = vec![condition, body];
        if kind == 73 && self.random.chance(60) {
            let short = if deep { (levels - 1).min(3) } else { levels - 1 };
            let other = self.statement(short, false);
            children.push(other);
        }
        self.tree(kind, &[], children)
    }

    /// A compound for a type, of at least two levels.
    pub fn compound(&mut self, target: u32, levels: usize) -> Tree {
        let row = self.rows.row(self.rows.desugar(target));
        let wrong = self.goes_wrong();
        let as_struct = if wrong { self.random.chance(50) } else { row.kind == kind::STRUCT };
        if as_struct && levels > 2 {
            let mut members = if row.kind == kind::STRUCT { self.rows.members(row.first) } else { vec![] };
            self.random.shuffle(&mut members);
            if self.goes_wrong() || wrong {
                let name = self.some_name("m", 9);
                members.push((name, U16));
                if self.random.chance(40) {
                    members.push(members[0]);
                }
            }
            let mut fields = vec![];
            for (name, ty) in members {
                let value = self.value(ty, levels - 2, false);
                fields.push(self.tree(50, &[name], vec![value]));
            }
            return self.tree(49, &[], fields);
        }
        let (element, size) = if row.kind == kind::ARRAY { (row.first, row.second) } else { (U16, 2) };
        let mut count = size.min(4) as usize;
        if wrong || self.wrong > 0 && self.random.chance(5) {
            count += 1;
        }
        let elements = (0..count).map(|_| self.value(element, levels - 1, false)).collect();
        self.tree(48, &[], elements)
    }

    /// Adds an item of any kind; records in it have at most `levels` levels.
    pub fn item(&mut self, levels: usize, deep: bool) {
        let tree = match self.random.below(12) {
            0 => self.bytes(82, &[], b"lib/base.dn"),
            1 => self.bytes(84, &[], b"  .const 1"),
            2..=4 => {
                self.locals.clear();
                self.arguments.clear();
                self.variable(83, levels, deep)
            }
            5 | 6 => self.alias(levels),
            _ => self.function(levels, deep),
        };
        self.items.push(tree);
    }

    /// An alias of any sort.
    pub fn alias(&mut self, levels: usize) -> Tree {
        let (mut ty, row) =
            if self.random.chance(4) { (self.spell(VOID), VOID) } else { self.declared((levels - 1).min(5)) };
        let built_in = ["u16", "i16", "bool", "String"].map(|name| (self.name(name), 0));
        let taken = [&self.aliases[..], &built_in].concat();
        let mut name = self.fresh_name("A", 12, &taken);
        let mut flags = *self.random.pick(&[0, 0, 0, 1, 1]);
        if self.random.chance(2 * self.wrong) {
            flags = self.random.below(4) as u32;
            if self.random.chance(50) {
                let built_in = *self.random.pick(&["u16", "i16", "bool", "String"]);
                name = self.name(built_in);
                if self.random.chance(50) {
                    ty = if built_in == "String" { self.spell(POINTER_TO_U16) } else { self.named(built_in) };
                }
            }
        }
        let stored = !self.aliases.iter().any(|alias| alias.0 == name);
        if flags < 2 && stored && !["u16", "i16", "bool", "String"].iter().any(|built_in| self.name(built_in) == name) {
            let alias = self.rows.alias(row, name, flags == 1);
            self.aliases.push((name, alias));
        }
        self.tree(81, &[name, flags], vec![ty])
    }

    /// A function with a body, or extern.
    pub fn function(&mut self, levels: usize, deep: bool) -> Tree {
        let (returned_tree, returned) = if self.random.chance(25) {
            (self.tree(17, &[0], vec![]), VOID)
        } else {
            self.declared((levels - 1).min(4))
        };
        self.returned = returned;
        self.locals.clear();
        self.arguments.clear();
        let mut children = vec![returned_tree];
        let mut types = vec![];
        for _ in 0..self.random.below(4) {
            let (tree, ty) = self.declared((levels - 2).min(4));
            let prefix = *self.random.pick(&["p", "p", "p", "x"]);
            let name = self.some_name(prefix, 6);
            types.push(ty);
            self.arguments.retain(|argument| argument.0 != name);
            self.arguments.push((name, ty));
            children.push(self.tree(85, &[name], vec![tree]));
        }
        let taken = self.globals.clone();
        let name = self.fresh_name("f", 12, &taken);
        let function = self.rows.function(returned, &types);
        self.globals.retain(|global| global.0 != name);
        self.globals.push((name, function));
        let answers = returned == VOID || self.fits(returned, (levels - 3).min(6)) || self.goes_wrong();
        if deep || answers && self.random.chance(85) {
            let body = self.body(levels - 1, deep);
            children.push(body);
        }
        self.tree(80, &[name], children)
    }

    fn body(&mut self, levels: usize, deep: bool) -> Tree {
        if self.random.chance(20) && (self.returned == VOID || self.goes_wrong()) {
            return self.statement(levels, deep);
        }
        let mut members = vec![];
        for _ in 0..self.random.below(6) {
            members.push(self.statement((levels - 1).min(8), false));
        }
        if deep {
            members.push(self.statement(levels - 1, true));
        }
        if self.returned != VOID && !self.goes_wrong() && levels > 2 {
            let value = self.value(self.returned, (levels - 2).min(6), false);
            members.push(self.tree(69, &[], vec![value]));
        }
        self.tree(64, &[0], members)
    }
}
