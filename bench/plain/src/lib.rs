//! The phrase expander of document 01, and C-11 to C-14 of document 02, in plain safe Rust, written from the documents alone and for speed. It is what the
//! proved archive is compared with, answer by answer, cell by cell and byte by byte, and measured against. Nothing here is shared with the proved code.
//!
//! A call goes `table` (1 to 6, 10), `sorts` (7, 8, 9, 11), which has `texts` read (26 to 28), `firsts` (12, 13), `reach` (which keywords count), `scan` (14 to
//! 16), `run` (17 to 21), `print` (22 to 24). What a call needs is kept for the next one on the same thread, so that a call allocates only where its input is
//! larger than all before it.
#![forbid(unsafe_code)]

mod firsts;
mod grammar;
mod print;
mod reach;
mod run;
mod scan;
mod sorts;
mod table;
mod texts;
mod words;

use std::cell::RefCell;

/// Document 01's number, 0 on acceptance, and its three values.
#[derive(Clone, Copy, Debug, PartialEq, Eq)]
pub struct Answer {
    pub number: u8,
    pub a: u64,
    pub b: u64,
    pub c: u64,
}

type Refusal = Answer;

fn refusal(number: u8, a: usize) -> Refusal {
    Answer { number, a: a as u64, b: 0, c: 0 }
}

/// How many requests of document 02 count: those up to C-14 at level 14.
#[derive(Clone, Copy, Debug, PartialEq, Eq, PartialOrd, Ord)]
pub struct Level(pub u8);

/// The level of the archive.
pub const PRESENT: Level = Level(13);

/// Results as texts, and pattern places.
pub const TEXTS: Level = Level(14);

/// What formulas and texts are read with.
#[derive(Default)]
struct Reader {
    firsts: firsts::Firsts,
    tokens: scan::Tokens,
    machine: run::Stacks,
}

/// What calls on one thread write into, each from the front again.
#[derive(Default)]
struct Workspace {
    table: table::Table,
    grammar: grammar::Grammar,
    checker: sorts::Checker,
    texts: texts::Texts,
    reader: Reader,
    printer: print::Rooms,
}

thread_local! {
    static WORKSPACE: RefCell<Workspace> = RefCell::default();
}

impl Level {
    /// Checks a phrase table: number 0, or a refusal 1 to 13 or 26 to 28.
    pub fn check(self, table: &[u8]) -> Answer {
        WORKSPACE.with_borrow_mut(|space| match space.check(table, self) {
            Ok(()) => refusal(0, 0),
            Err(refused) => refused,
        })
    }

    /// Checks the table, expands the formula into `cells`, four numbers a row, and prints the term into `text`.
    pub fn expand(self, table: &[u8], formula: &[u8], cells: &mut [u32], text: &mut [u8]) -> Answer {
        WORKSPACE.with_borrow_mut(|space| {
            let checked = space.prepare(table, self);
            let found = checked.and_then(|_| space.expand(table, formula, cells, text));
            found.unwrap_or_else(|refused| refused)
        })
    }

    /// Expands many formulas under one table, which is checked once: formula `i` is `formulas` from `ends[i - 1]`, or 0, to `ends[i]`, as far as there is any.
    /// All are lent `cells`, and each the text behind the texts before it. An answer for each end.
    pub fn expand_each(self, table: &[u8], formulas: &[u8], ends: &[usize], cells: &mut [u32], text: &mut [u8], answers: &mut [Answer]) {
        WORKSPACE.with_borrow_mut(|space| {
            let checked = space.prepare(table, self);
            let (mut from, mut used) = (0, 0);
            for (&end, answer) in ends.iter().zip(answers) {
                let formula = formulas.get(from..end.min(formulas.len())).unwrap_or(&[]);
                let found = checked.and_then(|_| {
                    space.table.words.next_formula();
                    space.expand(table, formula, cells, &mut text[used..])
                });
                *answer = found.unwrap_or_else(|refused| refused);
                used += if answer.number == 0 { answer.c as usize } else { 0 };
                from = end;
            }
        })
    }

    /// Expands the formula as `expand` does and lists, in place of its text, each number of the term for another count of portions: the number, the whole
    /// grams, the remainder.
    pub fn portions(self, table: &[u8], formula: &[u8], written: u64, wanted: u64, cells: &mut [u32], list: &mut [u64]) -> Answer {
        if [written, wanted].iter().any(|&count| count == 0 || count > 10_000) {
            return refusal(25, 0);
        }
        WORKSPACE.with_borrow_mut(|space| {
            let checked = space.prepare(table, self);
            let found = checked.and_then(|_| space.portions(table, formula, [written, wanted], cells, list));
            found.unwrap_or_else(|refused| refused)
        })
    }

    /// The keywords of a table that count in formulas, bit k for keyword k; or its refusal.
    pub fn keywords(self, table: &[u8]) -> Result<u64, Answer> {
        WORKSPACE.with_borrow_mut(|space| Ok(space.prepare(table, self)? >> table::FIRST_KEYWORD))
    }

    /// For each text of a table the place of its field and the template that it stands for, in prefix form, with FF for a Unit that was read; or its refusal.
    pub fn templates(self, table: &[u8]) -> Result<Vec<(usize, Vec<u8>)>, Answer> {
        WORKSPACE.with_borrow_mut(|space| space.check(table, self).map(|()| space.texts.templates()))
    }
}

/// Whether two runs of bytes are equal, and how many comparisons it took.
#[derive(Clone, Copy, Debug, PartialEq, Eq)]
pub struct Comparison {
    pub equal: bool,
    pub count: u64,
}

/// Compares two runs of bytes: no comparison if the lengths differ, else eight bytes at a time as one number, then the tail byte by byte, up to the first that
/// fails.
pub fn compare(a: &[u8], b: &[u8]) -> Comparison {
    if a.len() != b.len() {
        return Comparison { equal: false, count: 0 };
    }
    let ((a_words, a_tail), (b_words, b_tail)) = (a.as_chunks::<8>(), b.as_chunks::<8>());
    let word = a_words.iter().zip(b_words).position(|(a, b)| u64::from_ne_bytes(*a) != u64::from_ne_bytes(*b));
    let byte = || a_tail.iter().zip(b_tail).position(|(a, b)| a != b).map(|at| a_words.len() + at);
    match word.or_else(byte) {
        Some(at) => Comparison { equal: false, count: at as u64 + 1 },
        None => Comparison { equal: true, count: (a_words.len() + a_tail.len()) as u64 },
    }
}

impl Workspace {
    fn check(&mut self, table: &[u8], level: Level) -> Result<(), Refusal> {
        self.table.read(table, level)?;
        self.checker.check(table, &self.table, &mut self.grammar, &mut self.reader, &mut self.texts)?;
        self.reader.firsts.check(&self.grammar, &self.grammar.scope)
    }

    /// Checks a table and makes it ready for formulas: the choices of alternatives, and the words and symbols that are keywords. The kinds of these.
    fn prepare(&mut self, table: &[u8], level: Level) -> Result<u64, Refusal> {
        self.check(table, level)?;
        let Workspace { grammar, reader, .. } = self;
        reader.firsts.choose(grammar, &grammar.scope);
        let kinds = reach::Reach::of(grammar, &grammar.scope).keywords_from(grammar.root);
        self.table.give_back(table, kinds);
        Ok(kinds)
    }

    /// Scans a formula and expands it.
    fn run(&mut self, table: &[u8], formula: &[u8], cells: &mut [u32]) -> Result<run::Ran, Refusal> {
        let Workspace { grammar, reader, texts, .. } = self;
        reader.tokens.scan(table, formula, &mut self.table)?;
        let start = run::Start { nonterminal: grammar.root, made: 0, texts: &texts.rows };
        run::run::<false>(grammar, &reader.firsts, &reader.tokens.all, start, cells, &mut reader.machine)
    }

    fn expand(&mut self, table: &[u8], formula: &[u8], cells: &mut [u32], text: &mut [u8]) -> Result<Answer, Refusal> {
        let ran = self.run(table, formula, cells)?;
        let spelled = print::Spelled { table, formula, words: &self.table.words };
        let (constructors, length) = print::print(cells, &ran, &spelled, text, &mut self.printer)?;
        Ok(Answer { number: 0, a: ran.made as u64, b: constructors as u64, c: length as u64 })
    }

    /// The numbers of a formula's term for the portions wanted in place of those written.
    fn portions(&mut self, table: &[u8], formula: &[u8], counts: [u64; 2], cells: &mut [u32], list: &mut [u64]) -> Result<Answer, Refusal> {
        let ran = self.run(table, formula, cells)?;
        let spelled = print::Spelled { table, formula, words: &self.table.words };
        let (constructors, numbers) = print::numbers(cells, &ran, &spelled, &mut self.printer)?;
        let Some(room) = list.get_mut(..3 * numbers.len()) else { return Err(refusal(24, 3 * numbers.len())) };
        for (entry, number) in room.chunks_exact_mut(3).zip(&numbers) {
            let whole = number * counts[1];
            entry.copy_from_slice(&[*number, whole / counts[0], whole % counts[0]]);
        }
        Ok(Answer { number: 0, a: ran.made as u64, b: constructors as u64, c: room.len() as u64 })
    }
}
