//! Both implementations on one input: answer, every cell and every byte of text.

use crate::cases::Case;
use crate::sides::{Many, Side};
use plain::Answer;

/// Counts inputs and those that differ; the first few that do are shown, in the line format of the conformance cases.
#[derive(Default)]
pub struct Comparison {
    pub inputs: usize,
    pub differ: usize,
    /// How often each number was answered.
    pub numbers: [usize; 29],
}

pub struct Found {
    pub answer: Answer,
    pub cells: Vec<u32>,
    pub text: Vec<u8>,
}

fn run(side: Side, table: &[u8], formula: &[u8], cells: usize, text: usize) -> Found {
    let (mut cells, mut text) = (vec![0xaaaa_aaaa; cells], vec![0xee; text]);
    let answer = side.expand(table, formula, &mut cells, &mut text);
    Found { answer, cells, text }
}

fn hex(bytes: &[u8]) -> String {
    if bytes.is_empty() { "-".into() } else { bytes.iter().map(|byte| format!("{byte:02x}")).collect() }
}

impl Comparison {
    /// One input with so many cells and bytes of text lent.
    pub fn input(&mut self, label: &str, table: &[u8], formula: &[u8], cells: usize, text: usize) -> Found {
        let plain = run(Side::Plain, table, formula, cells, text);
        let archive = run(Side::Archive, table, formula, cells, text);
        let checks = (Side::Archive.check(table), Side::Plain.check(table));
        let same = archive.answer == plain.answer && archive.cells == plain.cells && archive.text == plain.text && checks.0 == checks.1;
        self.inputs += 1;
        self.numbers[usize::from(plain.answer.number)] += 1;
        if !same {
            self.differ += 1;
            if self.differ <= 10 {
                println!("DIFFERS: {label} {} {} {cells} {text}", hex(table), hex(formula));
                Self::report(&archive, &plain, checks);
            }
        }
        plain
    }

    /// A formula under a table with texts, and under the table with their templates in place of them: the archive on the first, the plain implementation on
    /// the second.
    pub fn as_given(&mut self, label: &str, tables: [&[u8]; 2], formula: &[u8], cells: usize, text: usize) {
        let texts = run(Side::Archive, tables[0], formula, cells, text);
        let templates = run(Side::Plain, tables[1], formula, cells, text);
        self.inputs += 1;
        if texts.answer != templates.answer || texts.cells != templates.cells || texts.text != templates.text {
            self.differ += 1;
            println!("DIFFERS: {label} with texts {} {} {cells} {text}, with templates {}", hex(tables[0]), hex(formula), hex(tables[1]));
        }
    }

    /// Many formulas under one table: the archive's and the plain implementation's one check for all, and the plain expansion of each by itself.
    pub fn many(&mut self, label: &str, table: &[u8], many: &Many, cells: usize, text: usize) {
        let lent = || (vec![0xaaaa_aaaa; cells], vec![0xee; text]);
        let [archive, plain] = [Side::Archive, Side::Plain].map(|side| {
            let (mut cells, mut text) = lent();
            (side.expand_each(table, many, &mut cells, &mut text), cells, text)
        });
        let (mut cells, mut text) = lent();
        let (mut answers, mut from, mut used) = (Vec::new(), 0, 0);
        for &end in &many.ends {
            let formula = many.formulas.get(from..end.min(many.formulas.len())).unwrap_or(&[]);
            let answer = Side::Plain.expand(table, formula, &mut cells, &mut text[used..]);
            used += if answer.number == 0 { answer.c as usize } else { 0 };
            answers.push(answer);
            from = end;
        }
        self.inputs += 1;
        if archive != plain || plain != (answers, cells, text) {
            self.differ += 1;
            println!("DIFFERS: {label} with ends {:?}, table {}, formulas {}", many.ends, hex(table), hex(&many.formulas));
        }
    }

    /// A formula's numbers for another count of portions: answer, every cell and every number of the list.
    pub fn portions(&mut self, label: &str, table: &[u8], formula: &[u8], counts: [u64; 2], cells: usize, list: usize) {
        let [archive, plain] = [Side::Archive, Side::Plain].map(|side| {
            let (mut cells, mut list) = (vec![0xaaaa_aaaa; cells], vec![0xeeee_eeee_eeee_eeee; list]);
            (side.portions(table, formula, counts, &mut cells, &mut list), cells, list)
        });
        self.inputs += 1;
        self.numbers[usize::from(plain.0.number)] += 1;
        if archive != plain {
            self.differ += 1;
            println!("DIFFERS: {label} for {counts:?} portions, {cells} cells, a list of {list}, table {}, formula {}", hex(table), hex(formula));
            println!("  archive {:?}\n  plain   {:?}", archive.0, plain.0);
        }
    }

    /// Two runs of bytes: whether they are equal, and how many comparisons it took. A 0 is counted for runs that are equal, a 1 for those that differ
    /// in a byte, a 2 for those that differ in length.
    pub fn runs(&mut self, label: &str, a: &[u8], b: &[u8]) {
        let [archive, plain] = [Side::Archive, Side::Plain].map(|side| side.compare(a, b));
        self.inputs += 1;
        self.numbers[if plain.equal { 0 } else { 1 + usize::from(a.len() != b.len()) }] += 1;
        if archive != plain {
            self.differ += 1;
            if self.differ <= 10 {
                println!("DIFFERS: {label} compare {} {}\n  archive {archive:?}\n  plain   {plain:?}", hex(a), hex(b));
            }
        }
    }

    fn report(archive: &Found, plain: &Found, checks: (Answer, Answer)) {
        println!("  archive {:?}, check {:?}", archive.answer, checks.0);
        println!("  plain   {:?}, check {:?}", plain.answer, checks.1);
        if let Some(at) = (0..plain.cells.len()).find(|&i| archive.cells[i] != plain.cells[i]) {
            println!("  cell {at}: archive {:x}, plain {:x}", archive.cells[at], plain.cells[at]);
        }
        if let Some(at) = (0..plain.text.len()).find(|&i| archive.text[i] != plain.text[i]) {
            println!("  byte {at} of the text: archive {:02x}, plain {:02x}", archive.text[at], plain.text[at]);
        }
    }

    /// A conformance case: both sides, and the stored answer.
    pub fn case(&mut self, label: &str, case: &Case) {
        let found = self.input(label, &case.table, &case.formula, case.cells_lent, case.text_lent);
        let (mut cells, mut text) = (vec![0xaaaa_aaaa; case.cells_lent], vec![0xee; case.text_lent]);
        cells[..case.cells.len()].copy_from_slice(&case.cells);
        text[..case.text.len()].copy_from_slice(&case.text);
        if found.answer != case.answer || found.cells != cells || found.text != text {
            self.differ += 1;
            println!("DIFFERS: the stored answer of {label} is {:?}, found {:?}", case.answer, found.answer);
        }
    }

    /// How often each number was answered, in one line.
    pub fn answered(&self) -> String {
        let each = self.numbers.iter().enumerate().filter(|(_, &count)| count > 0);
        each.map(|(number, count)| format!("{number}: {count}")).collect::<Vec<_>>().join(", ")
    }
}
