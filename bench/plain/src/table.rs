//! The fields of a table, and refusals 1 to 6 and 10.

use crate::words::{Place, Words, FORMULA_WORDS};
use crate::{refusal, Level, Refusal, TEXTS};

pub const KEYWORD: u8 = 1;
pub const NAME: u8 = 2;
pub const BLOCK: u8 = 3;
pub const DEFINITION: u8 = 4;
pub const ALTERNATIVE: u8 = 5;
pub const ITEM: u8 = 6;
pub const RESULT: u8 = 7;
pub const ROOT: u8 = 8;
pub const TEXT: u8 = 9;

pub const ITEM_KEYWORD: u8 = 0;
pub const ITEM_IDE: u8 = 1;
pub const ITEM_NUMBER: u8 = 2;
pub const ITEM_LOCAL: u8 = 3;
pub const ITEM_CALL: u8 = 4;
pub const ITEM_PLACE: u8 = 5;

pub const UNIT: u8 = 0;
pub const VAR: u8 = 1;
pub const BINDER: u8 = 2;
pub const LABEL: u8 = 3;
pub const TERM: u8 = 4;
pub const FIELDS: u8 = 5;
pub const NUM: u8 = 6;

/// The argument sorts of the constructors 20 to 27.
pub const ARGUMENTS: [&[u8]; 8] = [&[1], &[2, 4], &[4, 4], &[5], &[4, 3], &[], &[3, 4, 5], &[6]];

/// Whether a value of the sort given may stand where a sort is asked.
pub fn fits(given: u8, asked: u8) -> bool {
    given == asked || given == BINDER && asked == VAR
}

/// Kinds of tokens: a word, a number, keyword k as k + 2; 64 is what fits nothing; a text's variable is 65 and its sort.
pub const WORD: u8 = 0;
pub const NUMBER: u8 = 1;
pub const FIRST_KEYWORD: u8 = 2;
pub const NO_KIND: u8 = 64;
pub const FIRST_VARIABLE: u8 = 65;
pub const KINDS: usize = 72;

/// A field behind the outside names: its tag, and where its value stands.
#[derive(Clone, Copy)]
pub struct Noted {
    pub tag: u8,
    pub from: u16,
    pub to: u16,
}

impl Noted {
    pub fn value(self, table: &[u8]) -> &[u8] {
        &table[usize::from(self.from)..usize::from(self.to)]
    }

    pub fn place(self) -> usize {
        usize::from(self.from) - 3
    }
}

/// A table as its layout gives it: the words and symbols that have a meaning, and the fields from the first block on.
#[derive(Default)]
pub struct Table {
    pub keywords: usize,
    pub names: usize,
    pub symbols: Symbols,
    pub words: Words,
    pub fields: Vec<Noted>,
    /// The definitions of all blocks, and for each block how many there are up to its end.
    pub heads: Vec<Noted>,
    pub blocks: Vec<u16>,
}

/// The kind of each symbol.
pub struct Symbols([u8; 128]);

impl Default for Symbols {
    fn default() -> Symbols {
        Symbols([NO_KIND; 128])
    }
}

impl std::ops::Index<usize> for Symbols {
    type Output = u8;
    fn index(&self, at: usize) -> &u8 {
        &self.0[at]
    }
}

#[derive(Clone, Copy)]
pub struct Field<'a> {
    pub place: usize,
    pub tag: u8,
    pub value: &'a [u8],
}

/// The field at `place`; none if it runs past the end.
pub fn field_at(table: &[u8], place: usize) -> Option<Field<'_>> {
    let head = table.get(place..place + 3)?;
    let length = usize::from(u16::from_be_bytes([head[1], head[2]]));
    let value = table.get(place + 3..place + 3 + length)?;
    Some(Field { place, tag: head[0], value })
}

impl Field<'_> {
    pub fn end(&self) -> usize {
        self.place + 3 + self.value.len()
    }
}

/// Bytes by class: separators, letters (and digits, underscore inside a word), digits, symbols.
#[derive(Clone, Copy, PartialEq, Eq)]
pub enum Class {
    Bad,
    Separator,
    Letter,
    Digit,
    Symbol,
}

pub const CLASSES: [Class; 256] = {
    let mut classes = [Class::Bad; 256];
    let mut byte = 0;
    while byte < 256 {
        classes[byte] = match byte as u8 {
            9 | 10 | 13 | 32 => Class::Separator,
            b'a'..=b'z' | b'A'..=b'Z' => Class::Letter,
            b'0'..=b'9' => Class::Digit,
            33..=126 => Class::Symbol,
            _ => Class::Bad,
        };
        byte += 1;
    }
    classes
};

pub fn class(byte: u8) -> Class {
    CLASSES[usize::from(byte)]
}

pub fn goes_on(byte: u8) -> bool {
    matches!(class(byte), Class::Letter | Class::Digit) || byte == b'_'
}

fn is_word(spelling: &[u8]) -> bool {
    let long = spelling.len() > 31;
    !long && spelling.first().is_some_and(|&b| class(b) == Class::Letter) && spelling.iter().all(|&b| goes_on(b))
}

fn is_symbol(spelling: &[u8]) -> bool {
    matches!(spelling, &[byte] if class(byte) == Class::Symbol)
}

/// Where the reader stands: what may come next depends on it.
#[derive(Clone, Copy, PartialEq, Eq)]
enum Stage {
    Keywords,
    Names,
    Block,
    /// After a definition, before its first alternative.
    Definition,
    /// Inside an alternative, with so many items.
    Alternative(usize),
    /// After a whole alternative.
    Alternatives,
    Root,
}

impl Table {
    /// Reads the whole table: 1, then field by field 2, 3, 4, 5, 6, 10, then what is missing at the end.
    pub fn read(&mut self, table: &[u8], level: Level) -> Result<(), Refusal> {
        if table.len() > 16_384 {
            return Err(refusal(1, 0));
        }
        (self.keywords, self.names) = (0, 0);
        self.symbols = Symbols::default();
        self.words.clear();
        self.fields.clear();
        self.heads.clear();
        self.blocks.clear();
        let mut alternatives = 0;
        let mut stage = Stage::Keywords;
        let mut place = 0;
        while place < table.len() {
            let Some(field) = field_at(table, place) else { return Err(refusal(2, place)) };
            if !known(&field, level) {
                return Err(refusal(3, place));
            }
            let Some(next) = step(stage, field.tag) else { return Err(refusal(4, place)) };
            stage = next;
            let noted = Noted { tag: field.tag, from: place as u16 + 3, to: field.end() as u16 };
            match field.tag {
                KEYWORD => self.keyword(table, &field)?,
                NAME => self.name(table, &field)?,
                BLOCK => {
                    if self.blocks.len() == 16 {
                        return Err(refusal(6, place));
                    }
                    self.blocks.push(0);
                }
                DEFINITION => self.heads.push(noted),
                ALTERNATIVE => counted(&mut alternatives, 256, place)?,
                ITEM => {
                    if matches!(stage, Stage::Alternative(items) if items > 12) {
                        return Err(refusal(6, place));
                    }
                    if field.value[0] == ITEM_CALL && whole_templates(&field.value[2..]).is_none() {
                        return Err(refusal(10, place));
                    }
                }
                RESULT if whole_templates(field.value) != Some(1) => return Err(refusal(10, place)),
                _ => {}
            }
            if field.tag > NAME {
                self.fields.push(noted);
                if let Some(heads) = self.blocks.last_mut() {
                    *heads = self.heads.len() as u16;
                }
            }
            place = field.end();
        }
        if stage != Stage::Root {
            return Err(refusal(4, place));
        }
        self.words.spelled.resize(FORMULA_WORDS, Place::default());
        Ok(())
    }

    fn keyword(&mut self, table: &[u8], field: &Field) -> Result<(), Refusal> {
        let kind = FIRST_KEYWORD + self.keywords as u8;
        let is_new = if is_symbol(field.value) {
            let slot = &mut self.symbols.0[usize::from(field.value[0])];
            std::mem::replace(slot, kind) == NO_KIND
        } else {
            is_word(field.value) && self.words.keyword(table, spelled_at(field), kind)
        };
        if !is_new {
            return Err(refusal(5, field.place));
        }
        counted(&mut self.keywords, 62, field.place)
    }

    /// Gives back the keywords whose kinds are not among those reached: their words are ordinary ones, their symbols have no kind.
    pub fn give_back(&mut self, table: &[u8], reached: u64) {
        let all = (1u64 << self.keywords) - 1;
        let mut given_back = all & !(reached >> FIRST_KEYWORD);
        let mut place = 0;
        while given_back != 0 {
            let Some(field) = field_at(table, place) else { return };
            if given_back & 1 != 0 {
                match field.value {
                    &[byte] if class(byte) == Class::Symbol => self.symbols.0[usize::from(byte)] = NO_KIND,
                    _ => self.words.give_back(table, spelled_at(&field), WORD),
                }
            }
            given_back >>= 1;
            place = field.end();
        }
    }

    fn name(&mut self, table: &[u8], field: &Field) -> Result<(), Refusal> {
        if !is_word(field.value) || !self.words.name(table, spelled_at(field), WORD) {
            return Err(refusal(5, field.place));
        }
        counted(&mut self.names, 64, field.place)
    }
}

fn spelled_at(field: &Field) -> Place {
    Place { at: field.place as u16 + 3, length: field.value.len() as u8, in_formula: false }
}

/// Whether tag, length and values are known (3).
fn known(field: &Field, level: Level) -> bool {
    match (field.tag, field.value) {
        (KEYWORD | NAME | RESULT, _) => true,
        (BLOCK | ALTERNATIVE, []) => true,
        (DEFINITION, [nonterminal, mode, sorts @ ..]) => {
            *nonterminal < 64 && *mode < 3 && (1..=5).contains(&sorts.len()) && sorts.iter().all(|&s| s < 7)
        }
        (ITEM, [ITEM_KEYWORD, _]) => true,
        (ITEM, [ITEM_IDE, sort]) => (1..=3).contains(sort),
        (ITEM, [ITEM_NUMBER | ITEM_LOCAL, operand]) => *operand == 0,
        (ITEM, [ITEM_CALL, nonterminal, ..]) => *nonterminal < 64,
        (ITEM, [ITEM_PLACE, sort]) => *sort < 7 && level >= TEXTS,
        (ROOT, [nonterminal]) => *nonterminal < 64,
        (TEXT, [nonterminal, ..]) => *nonterminal < 64 && level >= TEXTS,
        _ => false,
    }
}

/// Where the reader stands after a field; none if the field is out of order (4).
fn step(stage: Stage, tag: u8) -> Option<Stage> {
    use Stage::*;
    match (tag, stage) {
        (KEYWORD, Keywords) => Some(Keywords),
        (NAME, Keywords | Names) => Some(Names),
        (BLOCK, Keywords | Names | Block | Alternatives) => Some(Block),
        (DEFINITION, Block | Alternatives) => Some(Definition),
        (ALTERNATIVE, Definition | Alternatives) => Some(Alternative(0)),
        (ITEM, Alternative(items)) => Some(Alternative(items + 1)),
        (RESULT | TEXT, Alternative(_)) => Some(Alternatives),
        (ROOT, Keywords | Names | Block | Alternatives) => Some(Root),
        _ => None,
    }
}

fn counted(count: &mut usize, most: usize, place: usize) -> Result<(), Refusal> {
    *count += 1;
    if *count > most { Err(refusal(6, place)) } else { Ok(()) }
}

/// How many templates the bytes are; none if a byte is unknown or the last template is cut.
fn whole_templates(bytes: &[u8]) -> Option<usize> {
    let (mut templates, mut owed, mut at) = (0, 0, 0);
    while let Some(&byte) = bytes.get(at) {
        if owed == 0 {
            templates += 1;
            owed = 1;
        }
        at += 1;
        owed -= 1;
        match byte {
            0x00..=0x0f => {}
            0x10 | 0x11 => at += 1,
            0x20..=0x27 => owed += ARGUMENTS[usize::from(byte - 0x20)].len(),
            _ => return None,
        }
    }
    if owed == 0 && at == bytes.len() { Some(templates) } else { None }
}
