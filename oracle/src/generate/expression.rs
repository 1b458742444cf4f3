//! Expressions of a wanted type, right or wrong.

use std::collections::HashSet;

use super::maker::Maker;
use crate::{
    rows::{BOOL, I16, STRING, U16, kind},
    tree::Tree,
};

impl Maker {
    /// An expression of at most `levels` levels, exactly so many if `deep`, of the type unless it goes wrong.
    pub fn expression(&mut self, want: u32, levels: usize, deep: bool) -> Tree {
        self.budget -= 1;
        if levels <= 1 || !deep && (self.budget < 0 || self.random.chance(25)) {
            return self.leaf(want, levels);
        }
        if self.goes_wrong() {
            if self.random.chance(50) {
                return self.wild(levels, deep);
            }
            let other = self.some_type(3);
            return self.expression(other, levels, deep);
        }
        if deep && self.spelled_levels(want).is_some_and(|spelled| spelled + 6 > levels) {
            return self.deepest(want, levels);
        }
        for _ in 0..8 {
            let form = self.random.below(14);
            if let Some(tree) = self.form(form, want, levels, deep) {
                return tree;
            }
        }
        if deep { self.deepest(want, levels) } else { self.leaf(want, levels) }
    }

    /// An expression whose type is assignable to the target: of the type itself, without its transparent alias, a pointer
    /// that decays, or a name.
    pub fn value(&mut self, target: u32, levels: usize, deep: bool) -> Tree {
        let names = self.identifiers(target, false);
        if !deep && !names.is_empty() && self.random.chance(20) {
            let name = *self.random.pick(&names);
            return self.tree(32, &[0, name], vec![]);
        }
        let row = self.rows.row(target);
        let mut want = target;
        if row.kind == kind::ALIAS && self.random.chance(40) {
            want = self.rows.desugar(target);
        } else if row.kind == kind::POINTER && self.random.chance(10) {
            let array = self.rows.array(row.first, 4);
            want = self.rows.pointer(array);
        }
        if !self.fits(want, levels) {
            want = target;
        }
        self.expression(want, levels, deep)
    }

    /// An expression of exactly so many levels where few forms are left: a chain over u16 or bool, cast to the type.
    fn deepest(&mut self, want: u32, levels: usize) -> Tree {
        let spelled = self.spelled_levels(want).unwrap_or(usize::MAX - 3);
        match want {
            U16 | BOOL => {
                let inner = self.expression(want, levels - 1, true);
                self.tree(if want == U16 { 42 } else { 43 }, &[0], vec![inner])
            }
            _ if self.rows.castable(U16, want) && spelled < levels => {
                let inner = self.expression(U16, levels - 1, true);
                let ty = self.spell(want);
                self.tree(38, &[0], vec![inner, ty])
            }
            _ if spelled + 3 <= levels => {
                let pointer = self.rows.pointer(want);
                let inner = self.expression(U16, levels - 2, true);
                let ty = self.spell(pointer);
                let cast = self.tree(38, &[0], vec![inner, ty]);
                self.tree(40, &[0], vec![cast])
            }
            _ => self.wild(levels, true),
        }
    }

    /// The identifiers whose type is the wanted one or, if not `exactly`, is assignable to it.
    fn identifiers(&self, want: u32, exactly: bool) -> Vec<u32> {
        let mut names = vec![];
        let mut hidden = HashSet::new();
        for &(name, ty) in self.locals.iter().chain(&self.arguments).chain(&self.globals) {
            if hidden.insert(name) && (ty == want || !exactly && self.rows.assignable(want, ty)) {
                names.push(name);
            }
        }
        names
    }

    /// The fewest levels of an expression of the type; none if there is no such expression at hand.
    fn least_levels(&self, ty: u32) -> Option<usize> {
        if matches!(self.rows.desugar(ty), U16 | BOOL | STRING) || !self.identifiers(ty, true).is_empty() {
            return Some(1);
        }
        let spelled = self.spelled_levels(ty)?;
        Some(if self.rows.castable(U16, ty) { spelled + 1 } else { spelled + 3 })
    }

    /// Whether there is an expression of the type with at most so many levels.
    pub fn fits(&self, ty: u32, levels: usize) -> bool {
        self.least_levels(ty).is_some_and(|least| least <= levels)
    }

    /// A type of which there is an expression with at most so many levels, unless it goes wrong.
    pub fn fitting_type(&mut self, levels: usize) -> u32 {
        for _ in 0..5 {
            let ty = self.some_type(3);
            if self.fits(ty, levels) || self.goes_wrong() {
                return ty;
            }
        }
        U16
    }

    /// An expression of as few levels as can be.
    fn leaf(&mut self, want: u32, levels: usize) -> Tree {
        let names = self.identifiers(want, true);
        if !names.is_empty() && !self.random.chance(20) {
            let name = *self.random.pick(&names);
            return self.tree(32, &[0, name], vec![]);
        }
        match self.rows.desugar(want) {
            U16 => self.literal(),
            BOOL => {
                let value = self.random.below(2) as u32;
                self.tree(34, &[0, value], vec![])
            }
            STRING => self.bytes(35, &[0], b"text"),
            _ => match (self.conjured(want, levels), names.first()) {
                (Some(tree), _) => tree,
                (None, Some(&name)) => self.tree(32, &[0, name], vec![]),
                (None, None) => self.wild(1, false),
            },
        }
    }

    /// A value of any type that can be spelled: a literal cast to it, or what a literal cast to a pointer points to.
    fn conjured(&mut self, want: u32, levels: usize) -> Option<Tree> {
        let spelled = self.spelled_levels(want)?;
        if self.rows.castable(U16, want) {
            if spelled + 1 > levels {
                return None;
            }
            let literal = self.literal();
            let ty = self.spell(want);
            return Some(self.tree(38, &[0], vec![literal, ty]));
        }
        if spelled + 3 > levels {
            return None;
        }
        let pointer = self.rows.pointer(want);
        let literal = self.literal();
        let ty = self.spell(pointer);
        let cast = self.tree(38, &[0], vec![literal, ty]);
        Some(self.tree(40, &[0], vec![cast]))
    }

    /// An integer literal, seldom out of range.
    pub fn literal(&mut self) -> Tree {
        if self.goes_wrong() {
            return self.odd_literal();
        }
        let value = self.random.below(65_536);
        let (base, text) = match self.random.below(6) {
            0 => (16, format!("{value:x}")),
            1 => (16, format!("{value:X}")),
            2 => (2, format!("{value:b}")),
            3 => (8, format!("+{value:o}")),
            _ => (10, value.to_string()),
        };
        self.bytes(33, &[0, base], text.as_bytes())
    }

    /// A literal near the edges of what is taken.
    pub fn odd_literal(&mut self) -> Tree {
        let text = *self.random.pick(&[
            "",
            "+",
            "-",
            "+7",
            "-7",
            "++7",
            "65535",
            "65536",
            "065535",
            "0000000000000000000065535",
            "70000",
            "ffff",
            "FFFF",
            "10000",
            "fffff",
            "zz",
            "ZZ",
            "1z",
            "g",
            "_",
            "1_0",
            " 1",
            "1 ",
            "9",
            "2",
            "1111111111111111",
            "10000000000000000",
            "+0",
            "-0",
            "٣",
            "99999999999999999999999999999999",
            "1ekf",
            "1EKG",
            "1ekg",
            "+ffff",
            "a",
            "A",
            "@",
            "[",
            "`",
            "{",
            "/",
            ":",
            "0",
            "00000",
        ]);
        let base = match self.random.below(3) {
            0 => *self.random.pick(&[2, 8, 10, 16, 36]),
            1 => 10,
            _ => self.random.between(2, 36) as u32,
        };
        self.bytes(33, &[0, base], text.as_bytes())
    }

    /// A child of a node: the main one goes as deep as the node, under a deep node the others stay short.
    fn child(&mut self, want: u32, levels: usize, deep: bool, main: bool) -> Tree {
        if deep && main {
            return self.expression(want, levels - 1, true);
        }
        let short = self.least_levels(want).unwrap_or(4).max(4);
        self.expression(want, if deep { (levels - 1).min(short) } else { levels - 1 }, false)
    }

    /// Two expressions under one node.
    fn pair(&mut self, left: u32, right: u32, levels: usize, deep: bool) -> Vec<Tree> {
        let main = self.random.below(2) == 0;
        let left = self.child(left, levels, deep, main);
        let right = self.child(right, levels, deep, !main);
        vec![left, right]
    }

    /// One form of expression of the wanted type, if it applies.
    fn form(&mut self, form: usize, want: u32, levels: usize, deep: bool) -> Option<Tree> {
        let row = self.rows.row(want);
        match form {
            0 | 1 => self.cast_form(want, levels, deep),
            2 => {
                let pointer = self.rows.pointer(want);
                if !self.fits(pointer, levels - 1) {
                    return None;
                }
                let inner = self.child(pointer, levels, deep, true);
                Some(self.tree(40, &[0], vec![inner]))
            }
            3 => self.call_form(want, levels, deep),
            4 => {
                let size = self.random.below(5) as u32;
                let array = self.rows.array(want, size);
                if !self.fits(array, levels - 1) {
                    return None;
                }
                let children = self.pair(array, U16, levels, deep);
                Some(self.tree(37, &[0], children))
            }
            5 => self.field_form(want, levels, deep),
            6 if row.kind == kind::POINTER && self.fits(row.first, levels - 1) => {
                let inner = self.child(row.first, levels, deep, true);
                Some(self.tree(39, &[0], vec![inner]))
            }
            7 | 8 if want == U16 || want == I16 || row.kind == kind::POINTER => {
                let operator = self.random.between(1, 8) as u32;
                let integer = *self.random.pick(&[U16, I16]);
                let right = if row.kind == kind::POINTER { integer } else { want };
                if !self.fits(want, levels - 1) || !self.fits(right, levels - 1) {
                    return None;
                }
                let children = self.pair(want, right, levels, deep);
                Some(self.tree(45, &[0, operator], children))
            }
            9 if (want == U16 || want == I16) && self.fits(want, levels - 1) => {
                let inner = self.child(want, levels, deep, true);
                Some(self.tree(42, &[0], vec![inner]))
            }
            9 if want == BOOL => {
                let inner = self.child(BOOL, levels, deep, true);
                Some(self.tree(43, &[0], vec![inner]))
            }
            10 | 11 if want == BOOL => {
                let integer = *self.random.pick(&[U16, U16, I16]);
                if !self.fits(integer, levels - 1) {
                    return None;
                }
                let operator = self.random.between(1, 5) as u32;
                let children = self.pair(integer, integer, levels, deep);
                Some(self.tree(46, &[0, operator], children))
            }
            12 if want == BOOL => {
                let children = self.pair(BOOL, BOOL, levels, deep);
                Some(self.tree(44, &[0], children))
            }
            13 if want == U16 && !deep => {
                let (ty, _) = self.declared((levels - 1).min(4));
                Some(self.tree(47, &[0], vec![ty]))
            }
            _ => None,
        }
    }

    fn cast_form(&mut self, want: u32, levels: usize, deep: bool) -> Option<Tree> {
        if self.spelled_levels(want)? + 1 > levels {
            return None;
        }
        let mut bare = want;
        while self.rows.row(bare).kind == kind::DISTINCT && self.random.chance(70) {
            bare = self.rows.row(bare).first;
        }
        let from = match bare {
            U16 => *self.random.pick(&[I16, U16, STRING]),
            I16 => *self.random.pick(&[I16, U16]),
            _ if self.rows.row(bare).kind == kind::POINTER => {
                let other = self.some_type(2);
                let pointer = self.rows.pointer(other);
                *self.random.pick(&[U16, pointer, STRING])
            }
            other => other,
        };
        if !self.fits(from, levels - 1) {
            return None;
        }
        let value = self.child(from, levels, deep, true);
        let spelled = self.spell(want);
        Some(self.tree(38, &[0], vec![value, spelled]))
    }

    fn call_form(&mut self, want: u32, levels: usize, deep: bool) -> Option<Tree> {
        let mut functions = vec![];
        for &(name, ty) in &self.globals {
            let row = self.rows.row(ty);
            if row.kind == kind::FUNCTION && row.first == want {
                functions.push((name, row.second));
            }
        }
        if functions.is_empty() {
            return None;
        }
        let (name, cell) = *self.random.pick(&functions);
        let expected = self.rows.members(cell);
        let fitting = expected.iter().all(|&(_, ty)| self.fits(ty, (levels - 1).min(4)));
        if deep && expected.is_empty() || !fitting || !self.identifiers(self.global(name), true).contains(&name) {
            return None;
        }
        let mut children = vec![self.tree(32, &[0, name], vec![])];
        for (i, (_, ty)) in expected.iter().enumerate() {
            let argument = if deep && i == 0 {
                self.value(*ty, levels - 1, true)
            } else {
                self.value(*ty, (levels - 1).min(4), false)
            };
            children.push(argument);
        }
        if self.goes_wrong() {
            if self.random.chance(50) && children.len() > 1 {
                children.pop();
            } else {
                let more = self.leaf(U16, 1);
                children.push(more);
            }
        }
        Some(self.tree(36, &[0], children))
    }

    fn field_form(&mut self, want: u32, levels: usize, deep: bool) -> Option<Tree> {
        let mut candidates = vec![];
        for &(_, ty) in self.locals.iter().chain(&self.arguments).chain(&self.globals).chain(&self.aliases) {
            let row = self.rows.row(self.rows.desugar(ty));
            if row.kind == kind::STRUCT {
                let members = self.rows.members(row.first);
                candidates.extend(members.iter().filter(|member| member.1 == want).map(|member| (ty, member.0)));
            }
        }
        if candidates.is_empty() {
            return None;
        }
        let (ty, mut name) = *self.random.pick(&candidates);
        if self.goes_wrong() {
            name = self.some_name("m", 7);
        }
        if !self.fits(ty, levels - 1) {
            return None;
        }
        let target = self.child(ty, levels, deep, true);
        Some(self.tree(41, &[0, name], vec![target]))
    }

    /// An expression of any kind, its parts of any type.
    pub fn wild(&mut self, levels: usize, deep: bool) -> Tree {
        self.budget -= 1;
        if levels <= 1 {
            return match self.random.below(6) {
                0 => self.literal(),
                1 => self.odd_literal(),
                2 => self.tree(34, &[0, 0], vec![]),
                3 => self.bytes(35, &[0], b""),
                _ => {
                    let name = self.any_name();
                    self.tree(32, &[0, name], vec![])
                }
            };
        }
        // Aliases are wanted here: most operations look at the type itself and not through them.
        let types: Vec<u32> = (0..2)
            .map(|_| match self.aliases.len() {
                0 => self.some_type(3),
                count if self.random.chance(40) => self.aliases[self.random.below(count)].1,
                _ => self.some_type(3),
            })
            .collect();
        let one = |maker: &mut Self| vec![maker.child(types[0], levels, deep, true)];
        match self.random.between(36, 47) as u16 {
            36 => {
                let mut children = one(self);
                for _ in 0..self.random.below(3) {
                    let ty = self.some_type(2);
                    children.push(self.child(ty, levels, deep, false));
                }
                self.tree(36, &[0], children)
            }
            38 => {
                let mut children = one(self);
                let (ty, _) = self.declared((levels - 1).min(4));
                children.push(ty);
                self.tree(38, &[0], children)
            }
            41 => {
                let name = self.any_name();
                let children = one(self);
                self.tree(41, &[0, name], children)
            }
            47 if !deep => {
                let (ty, _) = self.declared((levels - 1).min(4));
                self.tree(47, &[0], vec![ty])
            }
            kind @ (37 | 44) => {
                let children = self.pair(types[0], types[1], levels, deep);
                self.tree(kind, &[0], children)
            }
            kind @ (45 | 46) => {
                let operator = self.random.between(1, if kind == 45 { 8 } else { 5 }) as u32;
                let children = self.pair(types[0], types[1], levels, deep);
                self.tree(kind, &[0, operator], children)
            }
            kind => {
                let children = one(self);
                self.tree(if kind == 47 { 39 } else { kind }, &[0], children)
            }
        }
    }
}
