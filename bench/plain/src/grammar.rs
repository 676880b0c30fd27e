//! A grammar in the form that a run wants: templates as the cells that they make, and for each nonterminal the alternatives that normalizing leaves it.

/// A part of a template, in 32 bits: a value that is known, a variable, or a cell, by its number among those of the same templates. A result may be a row of
/// the texts instead (document 02, C-14).
#[derive(Clone, Copy, Default, PartialEq, Eq)]
pub struct Source(pub u32);

/// The two high bits of a source.
pub const VARIABLE: u32 = 1 << 30;
pub const CELL: u32 = 2 << 30;
const TEXT_ROW: u32 = 3 << 30;

/// What a keyword gives: no name has this class.
pub const UNIT_VALUE: u32 = 4 << 24;

impl Source {
    pub fn at_text_row(row: usize) -> Source {
        Source(TEXT_ROW | row as u32)
    }

    /// The number without the two high bits, if these are the ones given.
    #[inline(always)]
    fn number_of(self, high: u32) -> Option<usize> {
        (self.0 & TEXT_ROW == high).then_some((self.0 & !TEXT_ROW) as usize)
    }

    pub fn variable(self) -> Option<usize> {
        self.number_of(VARIABLE)
    }

    #[inline(always)]
    pub fn cell(self) -> Option<usize> {
        self.number_of(CELL)
    }

    #[inline(always)]
    pub fn text_row(self) -> Option<usize> {
        self.number_of(TEXT_ROW)
    }

    /// The value, with the variables of the call and the row of the first cell of the templates.
    #[inline(always)]
    pub fn value(self, variables: &[u32], base: u32) -> u32 {
        match self.0 >> 30 {
            0 => self.0,
            1 => variables[(self.0 & 15) as usize],
            _ => base + (self.0 & !CELL),
        }
    }
}

/// A cell that a template makes.
#[derive(Clone, Copy)]
pub struct Make {
    pub code: u8,
    pub arguments: [Source; 3],
}

/// A table of 16,384 bytes has fewer items and arguments than that, and fewer cells with those of its short texts.
#[derive(Clone, Copy, Default)]
pub struct Span {
    pub from: u16,
    pub to: u16,
}

impl Span {
    #[inline(always)]
    pub fn of<'a, T>(&self, all: &'a [T]) -> &'a [T] {
        &all[usize::from(self.from)..usize::from(self.to)]
    }
}

#[derive(Clone, Copy)]
pub enum Item {
    Keyword(u8),
    Var,
    Binder,
    Label,
    Number,
    Local,
    /// The nonterminal, the cells of its arguments, and the arguments.
    Call { nonterminal: u8, cells: Span, arguments: Span },
    /// A pattern place of a sort: only a text's variable meets it.
    Place(u8),
}

#[derive(Clone, Copy)]
pub struct Alternative {
    pub items: Span,
    pub cells: Span,
    pub result: Source,
    /// The next alternative of the same nonterminal, plus one; 0 if there is none.
    next: u16,
}

impl Alternative {
    pub fn new(items: Span, cells: Span, result: Source) -> Alternative {
        Alternative { items, cells, result, next: 0 }
    }
}

#[derive(Clone, Copy, Default)]
struct List {
    first: u16,
    last: u16,
}

/// What some blocks define: the nonterminals, a bit each, and the alternatives that normalizing leaves them.
#[derive(Clone, Copy)]
pub struct Scope {
    pub defined: u64,
    lists: [List; 64],
}

impl Default for Scope {
    fn default() -> Scope {
        Scope { defined: 0, lists: [List::default(); 64] }
    }
}

#[derive(Default)]
pub struct Grammar {
    pub root: u8,
    pub alternatives: Vec<Alternative>,
    pub items: Vec<Item>,
    pub makes: Vec<Make>,
    pub arguments: Vec<Source>,
    /// What all blocks so far define, and those before the present one.
    pub scope: Scope,
    pub before: Scope,
}

impl Grammar {
    /// The numbers of a nonterminal's alternatives, in table order.
    pub fn of<'a>(&'a self, scope: &Scope, nonterminal: u8) -> impl Iterator<Item = usize> + 'a {
        let List { first, last } = scope.lists[usize::from(nonterminal)];
        let mut at = first;
        std::iter::from_fn(move || {
            let number = usize::from(at).checked_sub(1)?;
            // What later blocks add stands behind the last one.
            at = if at == last { 0 } else { self.alternatives[number].next };
            Some(number)
        })
    }

    pub fn items_of(&self, alternative: usize) -> &[Item] {
        self.alternatives[alternative].items.of(&self.items)
    }

    pub fn clear(&mut self) {
        self.alternatives.clear();
        self.items.clear();
        self.makes.clear();
        self.arguments.clear();
        self.scope = Scope::default();
    }

    /// Another block begins.
    pub fn begin_block(&mut self) {
        self.before = self.scope;
    }

    /// Takes a nonterminal's alternatives away: an update gives it others.
    pub fn replace(&mut self, nonterminal: u8) {
        self.scope.lists[usize::from(nonterminal)] = List::default();
    }

    pub fn append(&mut self, nonterminal: u8, alternative: Alternative) {
        self.alternatives.push(alternative);
        let number = self.alternatives.len() as u16;
        let list = &mut self.scope.lists[usize::from(nonterminal)];
        if list.first == 0 {
            list.first = number;
        } else {
            self.alternatives[usize::from(list.last) - 1].next = number;
        }
        list.last = number;
    }
}
