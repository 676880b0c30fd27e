//! The size of the term, whose name is whose, the printed text, and refusals 22 to 24.

use crate::run::Ran;
use crate::words::{Place, Words};
use crate::{refusal, Refusal};

const VAR: u32 = 0x20;
const FUN: u32 = 0x21;
const APP: u32 = 0x22;
const RCD: u32 = 0x23;
const DOT: u32 = 0x24;
const NIL: u32 = 0x25;
const CONS: u32 = 0x26;

const MOST: u32 = 16_384;

/// As many bytes as a constructor has at the most without its parts: mkFieldCons with a label of 31 bytes.
const LONGEST: usize = 46;

/// What is known of the part of the term at a row: its constructors (at most `MOST` + 1), the outside names among its variables, whether a name of it
/// may be new, and the length of its text if none is.
#[derive(Clone, Copy, Default)]
struct Part {
    size: u32,
    length: u32,
    outside: u64,
    renames: bool,
}

/// Where words stand, by spelling number.
pub struct Spelled<'a> {
    pub table: &'a [u8],
    pub formula: &'a [u8],
    pub words: &'a Words,
}

impl Spelled<'_> {
    fn place(&self, number: u32) -> Place {
        self.words.spelled[number as usize]
    }

    fn length(&self, number: u32) -> u32 {
        self.place(number).length.into()
    }
}

/// What is still to be done, last first.
#[derive(Clone, Copy)]
enum Task {
    /// A part, after a space.
    Next(u32),
    /// A label after a space, and the end of its constructor.
    Label(u32),
    Close,
    /// The end of a function: its binder's name means again what it meant outside.
    Unbind { slot: u32, outer: u32 },
}

/// What printing needs beside the text.
#[derive(Default)]
pub struct Rooms {
    parts: Vec<Part>,
    renamed: Vec<u32>,
    tasks: Vec<Task>,
    text: Vec<u8>,
}

fn digits(value: u32) -> u32 {
    value.checked_ilog10().unwrap_or(0) + 1
}

fn class(name: u32) -> u32 {
    name >> 24
}

fn number(name: u32) -> u32 {
    name & 0xff_ffff
}

impl Rooms {
    /// Rows hold rows before them only, so one pass knows every part, shared ones too.
    fn measure(&mut self, cells: &[u32], root: usize, spelled: &Spelled) {
        self.parts.clear();
        for row in cells.chunks_exact(4).take(root + 1) {
            let (first, second, third) = (row[1], row[2], row[3]);
            let inner = |at: u32| self.parts[at as usize];
            let one = |length: u32| Part { size: 1, length, outside: 0, renames: false };
            let part = match row[0] {
                VAR => Part {
                    outside: if class(first) == 3 { 1 << (first & 63) } else { 0 },
                    renames: class(first) == 2,
                    ..one(11 + if class(first) == 2 { 0 } else { spelled.length(number(first)) })
                },
                FUN => {
                    let (body, is_fresh) = (inner(second), class(first) == 2);
                    let captures = !is_fresh && number(first) < 64 && body.outside & 1 << number(first) != 0;
                    let own = Part { renames: is_fresh || captures, ..one(12 + if is_fresh { 0 } else { spelled.length(number(first)) }) };
                    own.with(body)
                }
                APP => one(12).with(inner(first)).with(inner(second)),
                RCD => one(11).with(inner(first)),
                DOT => one(12 + spelled.length(second)).with(inner(first)),
                NIL => one(12),
                CONS => one(15 + spelled.length(first)).with(inner(second)).with(inner(third)),
                _ => one(11 + digits(first)),
            };
            self.parts.push(part);
        }
    }
}

impl Part {
    fn with(self, inner: Part) -> Part {
        Part {
            size: (self.size + inner.size).min(MOST + 1),
            length: self.length.saturating_add(inner.length),
            outside: self.outside | inner.outside,
            renames: self.renames | inner.renames,
        }
    }
}

/// Writes the text of the term to the front of `text`; the number of constructors and of bytes.
pub fn print(cells: &[u32], ran: &Ran, spelled: &Spelled, text: &mut [u8], rooms: &mut Rooms) -> Result<(usize, usize), Refusal> {
    rooms.measure(cells, ran.root as usize, spelled);
    let Part { size, length, renames, .. } = rooms.parts[ran.root as usize];
    if size > MOST {
        return Err(refusal(22, ran.made));
    }
    let Rooms { parts, renamed, tasks, text: scratch } = rooms;
    tasks.clear();
    if !renames {
        let Some(out) = text.get_mut(..length as usize) else { return Err(refusal(24, length as usize)) };
        let mut printer = Printer { cells, parts, spelled, renamed, new: 0, tasks, out, at: 0 };
        printer.term::<false>(ran.root)?;
        return Ok((size as usize, length as usize));
    }
    renamed.clear();
    renamed.resize(spelled.words.spelled.len() + ran.fresh as usize + 1, 0);
    if scratch.len() < LONGEST * size as usize {
        scratch.resize(LONGEST * size as usize, 0);
    }
    let mut printer = Printer { cells, parts, spelled, renamed, new: 0, tasks, out: scratch, at: 0 };
    printer.term::<true>(ran.root)?;
    let length = printer.at;
    match text.get_mut(..length) {
        Some(room) => room.copy_from_slice(&scratch[..length]),
        None => return Err(refusal(24, length)),
    }
    Ok((size as usize, length))
}

/// The constructors of the term and its numbers from the left, those of a shared part at each of its places. The term is printed too, for refusals 22 and 23.
pub fn numbers(cells: &[u32], ran: &Ran, spelled: &Spelled, rooms: &mut Rooms) -> Result<(usize, Vec<u64>), Refusal> {
    let mut text = vec![0; LONGEST * MOST as usize];
    let (constructors, _) = print(cells, ran, spelled, &mut text, rooms)?;
    let (mut found, mut ahead) = (Vec::new(), vec![ran.root]);
    while let Some(at) = ahead.pop() {
        let row = &cells[4 * at as usize..][..4];
        match row[0] {
            VAR | NIL => (),
            FUN => ahead.push(row[2]),
            APP => ahead.extend([row[2], row[1]]),
            RCD | DOT => ahead.push(row[1]),
            CONS => ahead.extend([row[3], row[2]]),
            _ => found.push(row[1].into()),
        }
    }
    Ok((constructors, found))
}

struct Printer<'a> {
    cells: &'a [u32],
    parts: &'a [Part],
    spelled: &'a Spelled<'a>,
    /// The new name of the innermost binder around: for each spelling, then for each fresh name. 0 is none, or a binder that keeps its spelling.
    renamed: &'a mut [u32],
    /// New names given so far.
    new: u32,
    tasks: &'a mut Vec<Task>,
    /// Long enough for the whole text.
    out: &'a mut [u8],
    at: usize,
}

impl Printer<'_> {
    /// The whole text; names are looked up only where some are new.
    fn term<const RENAMES: bool>(&mut self, root: u32) -> Result<(), Refusal> {
        let mut constructors = 0;
        let mut part = root;
        loop {
            part = match self.constructor::<RENAMES>(part, constructors)? {
                Some(inner) => inner,
                None => match self.tasks() {
                    Some(next) => next,
                    None => return Ok(()),
                },
            };
            constructors += 1;
        }
    }

    #[inline(always)]
    fn bytes<const N: usize>(&mut self, bytes: &[u8; N]) {
        self.out[self.at..self.at + N].copy_from_slice(bytes);
        self.at += N;
    }

    #[inline(always)]
    fn spell(&mut self, number: u32) {
        let word = self.spelled.place(number).of(self.spelled.table, self.spelled.formula);
        self.out[self.at..self.at + word.len()].copy_from_slice(word);
        self.at += word.len();
    }

    /// Prints a constructor up to its first inner part, which is returned; whole if it has none.
    #[inline(always)]
    fn constructor<const RENAMES: bool>(&mut self, part: u32, place: usize) -> Result<Option<u32>, Refusal> {
        let row = &self.cells[4 * part as usize..][..4];
        let (first, second, third) = (row[1], row[2], row[3]);
        let inner = match row[0] {
            VAR => {
                self.bytes(b"mkTermVar(");
                self.variable::<RENAMES>(first, place)?;
                self.bytes(b")");
                None
            }
            FUN => {
                self.bytes(b"mkTermFun(");
                self.bind::<RENAMES>(first, second);
                self.bytes(b" ");
                Some(second)
            }
            APP => {
                self.bytes(b"mkTermApp(");
                self.tasks.push(Task::Close);
                self.tasks.push(Task::Next(second));
                Some(first)
            }
            RCD => {
                self.bytes(b"mkTermRcd(");
                self.tasks.push(Task::Close);
                Some(first)
            }
            DOT => {
                self.bytes(b"mkTermDot(");
                self.tasks.push(Task::Label(second));
                Some(first)
            }
            NIL => {
                self.bytes(b"mkFieldNil()");
                None
            }
            CONS => {
                self.bytes(b"mkFieldCons(");
                self.spell(first);
                self.bytes(b" ");
                self.tasks.push(Task::Close);
                self.tasks.push(Task::Next(third));
                Some(second)
            }
            _ => {
                self.bytes(b"mkTermNum(");
                self.number(first);
                self.bytes(b")");
                None
            }
        };
        Ok(inner)
    }

    /// Does what follows a whole part; the next part, if there is one.
    #[inline(always)]
    fn tasks(&mut self) -> Option<u32> {
        while let Some(task) = self.tasks.pop() {
            match task {
                Task::Next(part) => {
                    self.bytes(b" ");
                    return Some(part);
                }
                Task::Label(label) => {
                    self.bytes(b" ");
                    self.spell(label);
                    self.bytes(b")");
                }
                Task::Close => self.bytes(b")"),
                Task::Unbind { slot, outer } => {
                    self.renamed[slot as usize] = outer;
                    self.bytes(b")");
                }
            }
        }
        None
    }

    /// Where the present meaning of a formula's or a fresh name stands.
    fn slot(&self, name: u32) -> usize {
        let number = number(name) as usize;
        if class(name) == 1 { number } else { self.spelled.words.spelled.len() + number }
    }

    /// Prints a binder. It is renamed if it is fresh, or if its body holds an outside name of its spelling as a variable.
    #[inline(always)]
    fn bind<const RENAMES: bool>(&mut self, binder: u32, body: u32) {
        if !RENAMES {
            self.spell(number(binder));
            return self.tasks.push(Task::Close);
        }
        let slot = self.slot(binder);
        let captures = slot < 64 && self.parts[body as usize].outside & 1 << slot != 0;
        let mut now = 0;
        if class(binder) == 2 || captures {
            self.new += 1;
            now = self.new;
            self.new_name(now);
        } else {
            self.spell(number(binder));
        }
        let outer = std::mem::replace(&mut self.renamed[slot], now);
        self.tasks.push(Task::Unbind { slot: slot as u32, outer });
    }

    #[inline(always)]
    fn variable<const RENAMES: bool>(&mut self, name: u32, place: usize) -> Result<(), Refusal> {
        if !RENAMES || class(name) == 3 {
            self.spell(number(name));
            return Ok(());
        }
        match self.renamed[self.slot(name)] {
            0 if class(name) == 2 => return Err(refusal(23, place)),
            0 => self.spell(number(name)),
            new => self.new_name(new),
        }
        Ok(())
    }

    fn new_name(&mut self, number: u32) {
        self.bytes(b"_");
        self.number(number);
    }

    fn number(&mut self, mut value: u32) {
        let end = self.at + digits(value) as usize;
        for digit in self.out[self.at..end].iter_mut().rev() {
            *digit = b'0' + (value % 10) as u8;
            value /= 10;
        }
        self.at = end;
    }
}
