//! Definitions block by block, sorts of bodies, and refusals 7, 8, 9 and 11; results that are texts are read on the way. What passes is kept as a grammar.

use crate::grammar::{Alternative, Grammar, Item, Make, Source, Span, CELL, VARIABLE};
use crate::table::*;
use crate::texts::{Text, Texts};
use crate::{refusal, Reader, Refusal};

/// A class with its number: a name as it lies in a cell.
pub fn name(class: u32, number: u32) -> u32 {
    class << 24 | number
}

/// A constructor of which so many arguments are whole.
#[derive(Clone, Copy)]
struct Open {
    code: u8,
    taken: u8,
    arity: u8,
    asked: [u8; 3],
}

/// Each constructor as its code opens it.
const OPENED: [Open; 8] = {
    let mut opened = [Open { code: 0, taken: 0, arity: 0, asked: [0; 3] }; 8];
    let mut code = 0;
    while code < 8 {
        let arguments = ARGUMENTS[code];
        opened[code].code = 0x20 + code as u8;
        opened[code].arity = arguments.len() as u8;
        let mut at = 0;
        while at < arguments.len() {
            opened[code].asked[at] = arguments[at];
            at += 1;
        }
        code += 1;
    }
    opened
};

pub struct Checker {
    /// Where the result sort and the parameter sorts of each nonterminal stand, for those defined up to the present block.
    signatures: [(u16, u16); 64],
    /// The sorts of the variables numbered so far in the present alternative.
    variables: Vec<u8>,
    /// The constructors whose arguments are not complete, the innermost last.
    open: Vec<Open>,
    /// The parts that are whole and stand in no cell yet.
    parts: Vec<Source>,
}

impl Default for Checker {
    fn default() -> Checker {
        Checker { signatures: [(0, 0); 64], variables: Vec::new(), open: Vec::new(), parts: Vec::new() }
    }
}

fn ide(sort: u8) -> Item {
    match sort {
        VAR => Item::Var,
        BINDER => Item::Binder,
        _ => Item::Label,
    }
}

impl Checker {
    /// Checks a table that `read` has passed.
    pub fn check(&mut self, table: &[u8], read: &Table, grammar: &mut Grammar, reader: &mut Reader, texts: &mut Texts) -> Result<(), Refusal> {
        grammar.clear();
        texts.clear();
        let (mut block, mut heads) = (0, 0);
        let mut nonterminal = 0;
        let mut signature: &[u8] = &[];
        let mut items_from = 0;
        for &field in &read.fields {
            let value = field.value(table);
            match field.tag {
                BLOCK => {
                    let to = usize::from(read.blocks[block]);
                    grammar.begin_block();
                    texts.begin_block();
                    self.define(table, &read.heads[heads..to], grammar)?;
                    (block, heads) = (block + 1, to);
                }
                DEFINITION => {
                    nonterminal = value[0];
                    signature = &value[2..];
                    if value[1] == 2 {
                        grammar.replace(nonterminal);
                    }
                }
                ALTERNATIVE => {
                    self.variables.clear();
                    self.variables.extend_from_slice(&signature[1..]);
                    items_from = grammar.items.len() as u16;
                }
                ITEM => self.item(table, value, field.place(), read, grammar)?,
                RESULT => {
                    let items = Span { from: items_from, to: grammar.items.len() as u16 };
                    let cells = self.templates(value, &signature[..1], field.place(), read.names, grammar)?;
                    grammar.append(nonterminal, Alternative::new(items, cells, self.parts[0]));
                }
                TEXT => {
                    let items = Span { from: items_from, to: grammar.items.len() as u16 };
                    let text = self.text(table, read, field, signature[0], grammar)?;
                    let (cells, result) = texts.read(&text, grammar, reader)?;
                    grammar.append(nonterminal, Alternative::new(items, cells, result));
                }
                _ => self.root(table, field, grammar)?,
            }
        }
        Ok(())
    }

    /// The root: 9, then 11.
    fn root(&self, table: &[u8], field: Noted, grammar: &mut Grammar) -> Result<(), Refusal> {
        grammar.root = field.value(table)[0];
        if grammar.scope.defined & 1 << grammar.root == 0 {
            return Err(refusal(9, field.place()));
        }
        if self.signature(table, grammar.root.into()) != [TERM] {
            return Err(refusal(11, field.place()));
        }
        Ok(())
    }

    /// A text whose nonterminal the blocks before its own define: 9.
    fn text<'a>(&'a self, table: &'a [u8], read: &'a Table, field: Noted, asked: u8, grammar: &Grammar) -> Result<Text<'a>, Refusal> {
        let (place, value) = (field.place(), field.value(table));
        let nonterminal = value[0];
        if grammar.before.defined & 1 << nonterminal == 0 {
            return Err(refusal(9, place));
        }
        let signature = self.signature(table, nonterminal.into());
        Ok(Text { table, read, place, nonterminal, bytes: &value[1..], variables: &self.variables, signature, asked })
    }

    fn signature<'a>(&self, table: &'a [u8], nonterminal: usize) -> &'a [u8] {
        let (from, to) = self.signatures[nonterminal];
        &table[usize::from(from)..usize::from(to)]
    }

    /// The definitions of a block: 7 and 8.
    fn define(&mut self, table: &[u8], heads: &[Noted], grammar: &mut Grammar) -> Result<(), Refusal> {
        let earlier = grammar.scope.defined;
        let mut here = 0u64;
        for &head in heads {
            let value = head.value(table);
            let (nonterminal, mode, signature) = (usize::from(value[0]), value[1], &value[2..]);
            let bit = 1 << nonterminal;
            if mode == 0 {
                if grammar.scope.defined & bit != 0 {
                    return Err(refusal(7, head.place()));
                }
                self.signatures[nonterminal] = (head.from + 2, head.to);
                grammar.scope.defined |= bit;
            } else if earlier & bit == 0 || here & bit != 0 || self.signature(table, nonterminal) != signature {
                return Err(refusal(8, head.place()));
            }
            here |= bit;
        }
        Ok(())
    }

    /// One item: its 9 before its 11; then its variable is numbered.
    fn item(&mut self, table: &[u8], value: &[u8], place: usize, read: &Table, grammar: &mut Grammar) -> Result<(), Refusal> {
        let operand = value[1];
        let (item, sort) = match value[0] {
            ITEM_KEYWORD if usize::from(operand) >= read.keywords => return Err(refusal(9, place)),
            ITEM_KEYWORD => (Item::Keyword(FIRST_KEYWORD + operand), UNIT),
            ITEM_IDE => (ide(operand), operand),
            ITEM_NUMBER => (Item::Number, NUM),
            ITEM_LOCAL => (Item::Local, BINDER),
            ITEM_PLACE => (Item::Place(operand), operand),
            _ => {
                if grammar.scope.defined & 1 << operand == 0 {
                    return Err(refusal(9, place));
                }
                let signature = self.signature(table, usize::from(operand));
                let cells = self.templates(&value[2..], &signature[1..], place, read.names, grammar)?;
                let from = grammar.arguments.len() as u16;
                grammar.arguments.extend_from_slice(&self.parts);
                let arguments = Span { from, to: grammar.arguments.len() as u16 };
                (Item::Call { nonterminal: operand, cells, arguments }, signature[0])
            }
        };
        grammar.items.push(item);
        self.variables.push(sort);
        Ok(())
    }

    /// Templates that must have the sorts asked, one each: all their 9 before any 11. The cells that they make are put together on the way, and
    /// `parts` are the templates' own values afterwards.
    fn templates(&mut self, bytes: &[u8], sorts: &[u8], place: usize, names: usize, grammar: &mut Grammar) -> Result<Span, Refusal> {
        let from = grammar.makes.len();
        self.open.clear();
        self.parts.clear();
        let (mut whole, mut sorts_fit) = (0, true);
        let mut bytes = bytes.iter();
        while let Some(&byte) = bytes.next() {
            // Where there are more templates than sorts, nothing is asked.
            let asked = match self.open.last() {
                Some(open) => open.asked[usize::from(open.taken)],
                None => sorts.get(whole).copied().unwrap_or(u8::MAX),
            };
            let given = match byte {
                0x10 | 0x11 => {
                    let number = bytes.next().copied().unwrap_or(u8::MAX);
                    if usize::from(number) >= names {
                        return Err(refusal(9, place));
                    }
                    let (class, sort) = if byte == 0x10 { (3, VAR) } else { (0, LABEL) };
                    self.parts.push(Source(name(class, number.into())));
                    sort
                }
                0x20.. => {
                    self.open.push(OPENED[usize::from(byte & 7)]);
                    if byte == 0x25 || byte == 0x26 { FIELDS } else { TERM }
                }
                _ => {
                    let Some(&sort) = self.variables.get(usize::from(byte)) else { return Err(refusal(9, place)) };
                    self.parts.push(Source(VARIABLE | u32::from(byte)));
                    sort
                }
            };
            sorts_fit &= fits(given, asked);
            if byte < 0x20 || byte == 0x25 {
                whole += usize::from(self.close(byte < 0x20, from, grammar));
            }
        }
        if !sorts_fit || whole != sorts.len() {
            return Err(refusal(11, place));
        }
        Ok(Span { from: from as u16, to: grammar.makes.len() as u16 })
    }

    /// A part is whole, or a constructor without arguments is open: constructors whose arguments are complete become cells. Whether no constructor is
    /// open any more.
    #[inline(always)]
    fn close(&mut self, mut is_part: bool, from: usize, grammar: &mut Grammar) -> bool {
        while let Some(open) = self.open.last_mut() {
            open.taken += u8::from(is_part);
            if open.taken < open.arity {
                return false;
            }
            let (code, behind) = (open.code, self.parts.len() - usize::from(open.arity));
            let none = Source::default();
            let arguments = match self.parts[behind..] {
                [a] => [a, none, none],
                [a, b] => [a, b, none],
                [a, b, c] => [a, b, c],
                _ => [none; 3],
            };
            self.parts.truncate(behind);
            self.parts.push(Source(CELL | (grammar.makes.len() - from) as u32));
            grammar.makes.push(Make { code, arguments });
            self.open.pop();
            is_part = true;
        }
        true
    }
}
