//! Results written as texts (document 02, C-14): a text is read under the blocks before its own, and what it gives is kept as rows whose parts are those of a
//! template. Refusals 26 to 28, and 9, 11, 12 and 13 at a text.

use crate::grammar::{Grammar, Make, Source, Span, CELL, UNIT_VALUE};
use crate::reach::Reach;
use crate::run::{run, Ran, Start, MOST_ROWS};
use crate::scan::Lexicon;
use crate::table::*;
use crate::{refusal, Reader, Refusal};

/// A field 09, with what its alternative and its nonterminal declare.
pub struct Text<'a> {
    pub table: &'a [u8],
    pub read: &'a Table,
    pub place: usize,
    pub nonterminal: u8,
    pub bytes: &'a [u8],
    /// The sorts of the alternative's variables.
    pub variables: &'a [u8],
    /// The result and the parameters of the text's nonterminal.
    pub signature: &'a [u8],
    /// The result of the definition.
    pub asked: u8,
}

/// The most constructors of a tree.
const MOST_CONSTRUCTORS: u32 = 16_384;

/// A template of so many constructors is laid out as one that is given in bytes; a larger one, which may be large by sharing alone, is copied from its rows
/// wherever it is used. 256 of them and those of 16,384 bytes are numbered in 16 bits.
const SHORT: u32 = 128;

/// The texts of a table.
#[derive(Default)]
pub struct Texts {
    /// What all texts read so far have made, four numbers a row, and how many rows it is.
    pub rows: Vec<u32>,
    used: usize,
    /// The constructors of the tree at each row of the present text.
    sizes: Vec<u32>,
    /// The place of each text, and what it gives.
    templates: Vec<(usize, Source)>,
    /// What the texts of the present block have in common: keywords that count, and whether 12 and 13 are tested and the choices known.
    reach: Option<Reach>,
    chosen: bool,
}

impl Texts {
    /// Forgets all texts: a table comes.
    pub fn clear(&mut self) {
        self.used = 0;
        self.templates.clear();
    }

    /// Another block begins: other blocks are before it.
    pub fn begin_block(&mut self) {
        self.reach = None;
        self.chosen = false;
    }

    /// Reads a text; the cells that its template makes, and its result.
    pub fn read(&mut self, text: &Text, grammar: &mut Grammar, reader: &mut Reader) -> Result<(Span, Source), Refusal> {
        let refused = |number| refusal(number, text.place);
        let reach = self.reach.get_or_insert_with(|| Reach::of(grammar, &grammar.before));
        let keywords = reach.keywords_from(text.nonterminal);
        let lexicon = Lexicon { table: text.table, read: text.read, keywords, variables: text.variables };
        let is_whole = reader.tokens.scan_text(text.bytes, &lexicon).map_err(|_| refused(9))?;
        if text.signature.len() > 1 {
            return Err(refused(11));
        }
        self.choose(grammar, reader)?;
        if !is_whole {
            return Err(refused(26));
        }
        let ran = self.run(text.nonterminal, grammar, reader).map_err(|_| refused(26))?;
        let (root, size) = (Source(ran.root), self.size(&ran));
        if size > MOST_CONSTRUCTORS {
            return Err(refused(26));
        }
        fault(&ran, text).map_or(Ok(()), |number| Err(refused(number)))?;
        self.used = ran.made;
        self.templates.push((text.place, root));
        Ok(self.laid_out(root, size, grammar))
    }

    /// The blocks before the present one: 12, 13 and the choices, once a block.
    fn choose(&mut self, grammar: &Grammar, reader: &mut Reader) -> Result<(), Refusal> {
        if !self.chosen {
            reader.firsts.check(grammar, &grammar.before)?;
            reader.firsts.choose_for_texts(grammar, &grammar.before);
            self.chosen = true;
        }
        Ok(())
    }

    fn run(&mut self, nonterminal: u8, grammar: &Grammar, reader: &mut Reader) -> Result<Ran, Refusal> {
        self.rows.resize(4 * MOST_ROWS, 0);
        let start = Start { nonterminal, made: self.used, texts: &[] };
        run::<true>(grammar, &reader.firsts, &reader.tokens.all, start, &mut self.rows, &mut reader.machine)
    }

    fn row(&self, at: usize) -> (u8, [Source; 3]) {
        let row = &self.rows[4 * at..][..4];
        (row[0] as u8, [1, 2, 3].map(|part| Source(row[part])))
    }

    /// The constructors of the tree that was read, at most one more than is allowed. Rows hold rows before them only.
    fn size(&mut self, ran: &Ran) -> u32 {
        let Some(root) = Source(ran.root).cell() else { return 0 };
        self.sizes.clear();
        for at in self.used..=root {
            let (_, parts) = self.row(at);
            let inner: u32 = parts.iter().filter_map(|part| part.cell()).map(|row| self.sizes[row - self.used]).sum();
            self.sizes.push((1 + inner).min(MOST_CONSTRUCTORS + 1));
        }
        self.sizes[root - self.used]
    }

    fn laid_out(&self, root: Source, size: u32, grammar: &mut Grammar) -> (Span, Source) {
        let from = grammar.makes.len();
        let result = match root.cell() {
            Some(row) if size > SHORT => Source::at_text_row(row),
            _ => self.lay_out(root, from, &mut grammar.makes),
        };
        (Span { from: from as u16, to: grammar.makes.len() as u16 }, result)
    }

    /// The cells of a part, which begin at `from`: a constructor's behind those of its arguments.
    fn lay_out(&self, part: Source, from: usize, makes: &mut Vec<Make>) -> Source {
        let Some(row) = part.cell() else { return part };
        let (code, parts) = self.row(row);
        let arguments = parts.map(|part| self.lay_out(part, from, makes));
        makes.push(Make { code, arguments });
        Source(CELL | (makes.len() - 1 - from) as u32)
    }

    /// The place of each text and its template in prefix form, with FF for a Unit that was read.
    pub fn templates(&self) -> Vec<(usize, Vec<u8>)> {
        self.templates.iter().map(|&(place, root)| (place, self.prefix(root))).collect()
    }

    fn prefix(&self, root: Source) -> Vec<u8> {
        let (mut bytes, mut ahead) = (Vec::new(), vec![root]);
        while let Some(part) = ahead.pop() {
            if let Some(row) = part.cell() {
                let (code, parts) = self.row(row);
                bytes.push(code);
                ahead.extend(parts[..ARGUMENTS[usize::from(code - 0x20)].len()].iter().rev());
            } else if let Some(number) = part.variable() {
                bytes.push(number as u8);
            } else if part.0 == UNIT_VALUE {
                bytes.push(0xff);
            } else {
                bytes.extend([if part.0 >> 24 == 3 { 0x10 } else { 0x11 }, part.0 as u8]);
            }
        }
        bytes
    }
}

/// The first of 27, 28, 9 and 11 that a text which can be read gets.
fn fault(ran: &Ran, text: &Text) -> Option<u8> {
    let faults = [(ran.bound_word, 27), (ran.fresh > 0, 28), (ran.unknown_word, 9), (!fits(text.signature[0], text.asked), 11)];
    faults.iter().find(|(is_met, _)| *is_met).map(|&(_, number)| number)
}
