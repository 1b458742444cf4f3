//! The state of a module in the making: names, types known, places, and how often to go wrong.

use std::collections::HashMap;

use crate::{
    layout::Place,
    rows::{BOOL, I16, Rows, STRING, U16, UNKNOWN, VOID, kind},
    tree::{Random, Tree},
};

/// How records are placed in the source text.
#[derive(Clone, Copy, PartialEq, Eq)]
pub enum Places {
    Zero,
    Counted,
    Random,
}

pub struct Maker {
    pub random: Random,
    names: Vec<Vec<u8>>,
    numbers: HashMap<Vec<u8>, u32>,
    /// Types as they are once every alias is stored.
    pub rows: Rows,
    pub aliases: Vec<(u32, u32)>,
    pub globals: Vec<(u32, u32)>,
    pub arguments: Vec<(u32, u32)>,
    pub locals: Vec<(u32, u32)>,
    pub returned: u32,
    /// Wrong choices of 100.
    pub wrong: usize,
    /// Records still to be made before expressions get short.
    pub budget: i64,
    pub places: Places,
    line: u32,
    pub items: Vec<Tree>,
}

impl Maker {
    pub fn new(seed: u64) -> Self {
        let mut random = Random::new(seed);
        let wrong = *random.pick(&[0, 1, 3, 10, 30]);
        let places = *random.pick(&[Places::Counted, Places::Counted, Places::Counted, Places::Zero, Places::Random]);
        Maker {
            random,
            names: vec![],
            numbers: HashMap::new(),
            rows: Rows::new(),
            aliases: vec![],
            globals: vec![],
            arguments: vec![],
            locals: vec![],
            returned: VOID,
            wrong,
            budget: 200,
            places,
            line: 0,
            items: vec![],
        }
    }

    /// The number of a name, which is added to the list if it is new.
    pub fn name(&mut self, name: impl AsRef<[u8]>) -> u32 {
        let name = name.as_ref();
        if let Some(&number) = self.numbers.get(name) {
            return number;
        }
        let number = self.names.len() as u32;
        self.names.push(name.to_vec());
        self.numbers.insert(name.to_vec(), number);
        number
    }

    pub fn names(&self) -> &[Vec<u8>] {
        &self.names
    }

    /// A name out of a few.
    pub fn some_name(&mut self, prefix: &str, of: usize) -> u32 {
        let number = self.random.below(of);
        if self.random.chance(2) {
            let odd = *self.random.pick(&["", "void", "u16", "String", "*u16", "é", "a`b", "bool ", "u17"]);
            return self.name(odd);
        }
        self.name(format!("{prefix}{number}"))
    }

    /// A name out of a few that is none of those taken, unless it goes wrong.
    pub fn fresh_name(&mut self, prefix: &str, of: usize, taken: &[(u32, u32)]) -> u32 {
        let any = self.wrong > 0 && self.random.chance(20);
        for _ in 0..20 {
            let name = self.some_name(prefix, of);
            if any || !taken.iter().any(|one| one.0 == name) {
                return name;
            }
        }
        self.name(format!("{prefix}_{}", taken.len()))
    }

    /// The type of a global.
    pub fn global(&self, name: u32) -> u32 {
        self.globals.iter().find(|global| global.0 == name).map_or(UNKNOWN, |global| global.1)
    }

    /// A name of any sort, used or not.
    pub fn any_name(&mut self) -> u32 {
        if self.names.is_empty() || self.random.chance(10) {
            let prefix = *self.random.pick(&["x", "f", "A", "m"]);
            return self.some_name(prefix, 12);
        }
        self.random.below(self.names.len()) as u32
    }

    /// The next record's place.
    pub fn at(&mut self) -> Place {
        match self.places {
            Places::Zero => Place::default(),
            Places::Counted => {
                self.line += 1;
                Place { file: (self.line / 50) as u16, line: self.line, column: self.random.below(80) as u32 }
            }
            Places::Random => Place {
                file: self.random.draw() as u16,
                line: self.random.draw() as u32,
                column: self.random.draw() as u32,
            },
        }
    }

    pub fn tree(&mut self, kind: u16, fields: &[u32], children: Vec<Tree>) -> Tree {
        let at = self.at();
        Tree::new(kind, at, fields, children)
    }

    pub fn bytes(&mut self, kind: u16, fields: &[u32], bytes: &[u8]) -> Tree {
        let at = self.at();
        Tree::with_bytes(kind, at, fields, bytes)
    }

    pub fn goes_wrong(&mut self) -> bool {
        self.random.chance(self.wrong)
    }

    /// The module made.
    pub fn finish(self) -> Tree {
        Tree::module(&self.names, self.items)
    }

    /// The size of the module made so far.
    pub fn size(&self) -> usize {
        32 + self.names.iter().map(|name| 16 + name.len()).sum::<usize>()
            + self.items.iter().map(Tree::size).sum::<usize>()
    }

    /// A type record that names a type.
    pub fn named(&mut self, name: impl AsRef<[u8]>) -> Tree {
        let number = self.name(name);
        self.tree(16, &[0, number], vec![])
    }

    /// The levels of a type record that spells the row; none for a function or a row with one in it.
    pub fn spelled_levels(&self, ty: u32) -> Option<usize> {
        let row = self.rows.row(ty);
        match row.kind {
            kind::FUNCTION => None,
            kind::POINTER | kind::ARRAY => Some(1 + self.spelled_levels(row.first)?),
            kind::STRUCT => {
                let mut most = 1;
                for (_, member) in self.rows.members(row.first) {
                    most = most.max(2 + self.spelled_levels(member)?);
                }
                Some(most)
            }
            _ => Some(1),
        }
    }

    /// A type record that spells a row; the row has levels.
    pub fn spell(&mut self, ty: u32) -> Tree {
        let row = self.rows.row(ty);
        match ty {
            UNKNOWN => return self.named("nowhere"),
            VOID => return self.tree(17, &[0], vec![]),
            BOOL => return self.named("bool"),
            U16 => return self.named("u16"),
            I16 => return self.named("i16"),
            STRING => return self.named("String"),
            _ => {}
        }
        match row.kind {
            kind::POINTER => {
                let inner = self.spell(row.first);
                self.tree(18, &[0], vec![inner])
            }
            kind::ARRAY => {
                let inner = self.spell(row.first);
                self.tree(19, &[0, row.second], vec![inner])
            }
            kind::STRUCT => {
                let members = self.rows.members(row.first);
                let fields = members
                    .into_iter()
                    .map(|(name, ty)| {
                        let ty = self.spell(ty);
                        self.tree(21, &[name], vec![ty])
                    })
                    .collect();
                self.tree(20, &[0], fields)
            }
            _ => self.tree(16, &[0, row.name], vec![]),
        }
    }

    /// A type of at most so many levels.
    pub fn some_type(&mut self, levels: usize) -> u32 {
        let choice = self.random.below(if levels > 1 { 14 } else { 7 });
        match choice {
            0 | 1 => U16,
            2 => I16,
            3 => BOOL,
            4 => *self.random.pick(&[STRING, U16, BOOL]),
            5 | 6 | 12 | 13 if !self.aliases.is_empty() => self.random.pick(&self.aliases).1,
            7 | 8 => {
                let inner = self.some_type(levels - 1);
                self.rows.pointer(inner)
            }
            9 | 10 => {
                let element = self.some_type(levels - 1);
                let size = *self.random.pick(&[0, 1, 2, 3, 3, 4, 5, 8, 70_000, u32::MAX]);
                self.rows.array(element, size)
            }
            11 if levels > 2 => {
                let count = self.random.below(4);
                let fields: Vec<(u32, u32)> =
                    (0..count).map(|_| (self.some_name("m", 5), self.some_type(levels - 2))).collect();
                self.rows.structure(&fields)
            }
            _ if self.random.chance(self.wrong) => *self.random.pick(&[UNKNOWN, VOID]),
            _ => U16,
        }
    }

    /// A type record, the row it will have in pass 2.
    pub fn declared(&mut self, levels: usize) -> (Tree, u32) {
        let ty = self.some_type(levels);
        (self.spell(ty), ty)
    }
}
