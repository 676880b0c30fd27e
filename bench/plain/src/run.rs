//! The expansion: items from left to right, calls, cells, and refusals 17 to 21. A text is read by the same run (document 02, C-14): its values are parts of a
//! template in place of those of a term, and what it refuses is 26.

use crate::firsts::Firsts;
use crate::grammar::{Grammar, Item, Source, Span, CELL, UNIT_VALUE};
use crate::scan::Token;
use crate::sorts::name;
use crate::table::*;
use crate::words::NO_SPELLING;
use crate::{refusal, Answer, Refusal};

/// What a run leaves: the cells made, the value of the whole, how many fresh names were given; of a text also whether a word stood at a Binder, and whether
/// one that is no outside name stood at a Var or a Label.
pub struct Ran {
    pub made: usize,
    pub root: u32,
    pub fresh: u32,
    pub bound_word: bool,
    pub unknown_word: bool,
}

pub const MOST_ROWS: usize = 16_384;

/// Open calls, and the variables of all of them: each has 16 at the most.
const MOST_OPEN: usize = 1_024;
const MOST_VALUES: usize = MOST_OPEN * 16;

/// An open call: the items that are still to be met, the cells and the value of its result, and where its variables begin.
#[derive(Clone, Copy, Default)]
struct Frame {
    items: Span,
    cells: Span,
    result: Source,
    variables: u32,
}

/// A row of a text that is made once more: those of its parts before a place are made.
struct Copied {
    row: [u32; 4],
    at: usize,
}

/// The open calls round the innermost one, and the variables of all of them, those of the innermost last; the rows of a text that are open.
pub struct Stacks {
    open: Box<[Frame; MOST_OPEN]>,
    values: Box<[u32; MOST_VALUES]>,
    copied: Vec<Copied>,
}

impl Default for Stacks {
    fn default() -> Stacks {
        Stacks { open: Box::new([Frame::default(); MOST_OPEN]), values: Box::new([0; MOST_VALUES]), copied: Vec::new() }
    }
}

/// What is counted on the way.
#[derive(Default)]
struct Counts {
    made: usize,
    next: usize,
    fresh: u32,
    calls: usize,
    /// Of a text: a word stood at a Binder, an unknown one at a Var or a Label.
    bound_word: bool,
    unknown_word: bool,
    /// Open calls round the innermost one, and variables of all open calls.
    open: usize,
    top: usize,
}

/// The token does not fit: 17.
#[cold]
fn unfit(next: usize, openings: u64) -> Refusal {
    Answer { number: 17, a: next as u64, b: openings, c: openings.count_ones().into() }
}

/// How a run begins: the nonterminal that the whole is, how many rows are there already, and the rows of the texts; a text has them where its own are made.
pub struct Start<'a> {
    pub nonterminal: u8,
    pub made: usize,
    pub texts: &'a [u32],
}

/// What a run reads: the tokens of a formula, or of a text.
#[derive(Clone, Copy)]
struct Given<'a, const TEXT: bool> {
    grammar: &'a Grammar,
    firsts: &'a Firsts,
    tokens: &'a [Token],
    texts: &'a [u32],
}

fn row(rows: &[u32], at: usize) -> [u32; 4] {
    [0, 1, 2, 3].map(|part| rows[4 * at + part])
}

impl<const TEXT: bool> Given<'_, TEXT> {
    /// Takes a token of the kind.
    #[inline(always)]
    fn take(&self, counts: &mut Counts, kind: u8) -> Result<u32, Refusal> {
        match self.tokens.get(counts.next) {
            Some(token) if token.kind == kind => {
                counts.next += 1;
                Ok(token.value)
            }
            _ => Err(unfit(counts.next, 1 << kind)),
        }
    }

    /// An ide: in a formula a word; in a text also a variable whose sort fits, and a word is an outside name.
    #[inline(always)]
    fn ide(&self, counts: &mut Counts, sort: u8) -> Result<u32, Refusal> {
        let class = if sort == LABEL { 0 } else { 1 };
        if !TEXT {
            return Ok(name(class, self.take(counts, WORD)?));
        }
        match self.tokens.get(counts.next) {
            Some(token) if token.kind >= FIRST_VARIABLE && fits(token.kind - FIRST_VARIABLE, sort) => {
                counts.next += 1;
                Ok(token.value)
            }
            _ => {
                let number = self.take(counts, WORD)?;
                counts.bound_word |= sort == BINDER;
                counts.unknown_word |= number == NO_SPELLING;
                Ok(if number == NO_SPELLING { 0 } else { name(3 * class, number) })
            }
        }
    }

    /// A pattern place: no formula meets it.
    #[inline(always)]
    fn place(&self, counts: &mut Counts, sort: u8) -> Result<u32, Refusal> {
        match self.tokens.get(counts.next) {
            Some(token) if TEXT && token.kind == FIRST_VARIABLE + sort => {
                counts.next += 1;
                Ok(token.value)
            }
            _ => Err(unfit(counts.next, 0)),
        }
    }

    /// Opens a call whose arguments are the last values, inside so many open ones.
    #[inline(always)]
    fn call(&self, counts: &mut Counts, nonterminal: u8, arguments: usize, open: usize) -> Result<Frame, Refusal> {
        if open == MOST_OPEN {
            return Err(refusal(19, counts.next));
        }
        if counts.calls == 65_536 {
            return Err(refusal(20, counts.next));
        }
        let kind = self.tokens.get(counts.next).map_or(NO_KIND, |token| token.kind);
        let chosen = self.firsts.choice[usize::from(nonterminal)][usize::from(kind)];
        let Some(number) = usize::from(chosen).checked_sub(1) else {
            return Err(unfit(counts.next, self.firsts.openings(nonterminal)));
        };
        counts.calls += 1;
        let alternative = &self.grammar.alternatives[number];
        Ok(Frame { items: alternative.items, cells: alternative.cells, result: alternative.result, variables: (counts.top - arguments) as u32 })
    }

    /// A row as a value.
    #[inline(always)]
    fn at_row(&self, row: usize) -> u32 {
        if TEXT { CELL | row as u32 } else { row as u32 }
    }

    /// Makes the cells of templates.
    #[inline(always)]
    fn make(&self, counts: &mut Counts, span: Span, variables: &[u32], cells: &mut [u32]) -> Result<(), Refusal> {
        if span.from == span.to {
            return Ok(());
        }
        let base = self.at_row(counts.made);
        for make in span.of(&self.grammar.makes) {
            let [a, b, c] = make.arguments.map(|argument| argument.value(variables, base));
            make_cell(counts.made, counts.next, [make.code.into(), a, b, c], cells)?;
            counts.made += 1;
        }
        Ok(())
    }

    /// Makes the cells of a text's template, which is kept as rows: those of a shared part at each of its places. The value, and the cells made then.
    fn copy(
        &self,
        mut made: usize,
        next: usize,
        root: usize,
        variables: &[u32],
        cells: &mut [u32],
        open: &mut Vec<Copied>,
    ) -> Result<(u32, usize), Refusal> {
        let opened = |cells: &[u32], at: usize| Copied { row: row(if TEXT { cells } else { self.texts }, at), at: 1 };
        open.clear();
        open.push(opened(cells, root));
        while let Some(innermost) = open.last_mut() {
            let part = innermost.row.get(innermost.at).map(|&part| Source(part));
            match (part, part.and_then(Source::cell)) {
                (_, Some(inner)) => open.push(opened(cells, inner)),
                (Some(part), None) => innermost.made(part.value(variables, 0)),
                (None, None) => {
                    make_cell(made, next, innermost.row, cells)?;
                    open.pop();
                    if let Some(outer) = open.last_mut() {
                        outer.made(self.at_row(made));
                    }
                    made += 1;
                }
            }
        }
        Ok((self.at_row(made - 1), made))
    }
}

/// Makes a cell behind so many; 21 at a token if there is no row for it.
#[inline(always)]
fn make_cell(made: usize, next: usize, cell: [u32; 4], cells: &mut [u32]) -> Result<(), Refusal> {
    let Some(room) = cells.get_mut(4 * made..4 * made + 4) else { return Err(refusal(21, next)) };
    room.copy_from_slice(&cell);
    Ok(())
}

impl Copied {
    /// The next part is made.
    fn made(&mut self, value: u32) {
        self.row[self.at] = value;
        self.at += 1;
    }
}

/// Items of the innermost call, until no call is open. The arguments of a call are its first variables where they stand, and its result takes their
/// place as the caller's next variable.
// By itself, what it reads is known not to change with what it writes, and stays in registers.
#[inline(never)]
pub fn run<const TEXT: bool>(
    grammar: &Grammar,
    firsts: &Firsts,
    tokens: &[Token],
    start: Start,
    cells: &mut [u32],
    stacks: &mut Stacks,
) -> Result<Ran, Refusal> {
    let given = Given::<TEXT> { grammar, firsts, tokens, texts: start.texts };
    let Stacks { open, values, copied } = stacks;
    let lent = cells.len().min(4 * MOST_ROWS);
    let cells = &mut cells[..lent];
    let mut counts = Counts { made: start.made, ..Counts::default() };
    let mut frame = given.call(&mut counts, start.nonterminal, 0, 0)?;
    loop {
        let variables = frame.variables as usize;
        let base = given.at_row(counts.made);
        let value = if frame.items.from == frame.items.to {
            let value = if let Some(row) = frame.result.text_row() {
                let (value, made) = given.copy(counts.made, counts.next, row, &values[variables..], cells, copied)?;
                counts.made = made;
                value
            } else {
                given.make(&mut counts, frame.cells, &values[variables..], cells)?;
                frame.result.value(&values[variables..], base)
            };
            counts.top = variables;
            if counts.open == 0 {
                if counts.next < tokens.len() {
                    return Err(refusal(18, counts.next));
                }
                let Counts { made, fresh, bound_word, unknown_word, .. } = counts;
                return Ok(Ran { made, root: value, fresh, bound_word, unknown_word });
            }
            counts.open -= 1;
            frame = open[counts.open];
            value
        } else {
            let item = grammar.items[usize::from(frame.items.from)];
            frame.items.from += 1;
            match item {
                Item::Keyword(kind) => given.take(&mut counts, kind).map(|_| UNIT_VALUE)?,
                Item::Var => given.ide(&mut counts, VAR)?,
                Item::Binder => given.ide(&mut counts, BINDER)?,
                Item::Label => given.ide(&mut counts, LABEL)?,
                Item::Number => given.take(&mut counts, NUMBER)?,
                Item::Local => {
                    counts.fresh += 1;
                    name(2, counts.fresh)
                }
                Item::Place(sort) => given.place(&mut counts, sort)?,
                Item::Call { nonterminal, cells: span, arguments } => {
                    given.make(&mut counts, span, &values[variables..], cells)?;
                    for argument in arguments.of(&grammar.arguments) {
                        values[counts.top] = argument.value(&values[variables..], base);
                        counts.top += 1;
                    }
                    let (passed, opened) = (usize::from(arguments.to - arguments.from), counts.open + 1);
                    let inner = given.call(&mut counts, nonterminal, passed, opened)?;
                    open[counts.open] = frame;
                    counts.open = opened;
                    frame = inner;
                    continue;
                }
            }
        };
        values[counts.top] = value;
        counts.top += 1;
    }
}
