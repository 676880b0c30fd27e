//! The two implementations behind one face.

use plain::{Answer, Comparison};

/// Formulas one behind the other, and where each ends.
pub struct Many {
    pub formulas: Vec<u8>,
    pub ends: Vec<usize>,
}

impl Many {
    pub fn repeated(formula: &[u8], count: usize) -> Many {
        Many { formulas: formula.repeat(count), ends: (1..=count).map(|number| number * formula.len()).collect() }
    }
}

#[derive(Clone, Copy, PartialEq, Eq)]
pub enum Side {
    Archive,
    Plain,
}

impl Side {
    #[inline]
    pub fn expand(self, table: &[u8], formula: &[u8], cells: &mut [u32], text: &mut [u8]) -> Answer {
        match self {
            Side::Plain => plain::PRESENT.expand(table, formula, cells, text),
            Side::Archive => answered(vegzump::expand(table, formula, cells, text)),
        }
    }

    /// Many formulas under one table, with an answer for each end.
    pub fn expand_each(self, table: &[u8], many: &Many, cells: &mut [u32], text: &mut [u8]) -> Vec<Answer> {
        match self {
            Side::Plain => {
                let mut answers = vec![Answer { number: 0, a: 0, b: 0, c: 0 }; many.ends.len()];
                plain::PRESENT.expand_each(table, &many.formulas, &many.ends, cells, text, &mut answers);
                answers
            }
            Side::Archive => vegzump::expand_each(table, &many.formulas, &many.ends, cells, text).into_iter().map(answered).collect(),
        }
    }

    /// The numbers of a formula for another count of portions, written and wanted.
    pub fn portions(self, table: &[u8], formula: &[u8], [written, wanted]: [u64; 2], cells: &mut [u32], list: &mut [u64]) -> Answer {
        match self {
            Side::Plain => plain::PRESENT.portions(table, formula, written, wanted, cells, list),
            Side::Archive => answered(vegzump::portions(table, formula, written, wanted, cells, list)),
        }
    }

    /// Two runs of bytes: whether they are equal, and how many comparisons it took.
    #[inline]
    pub fn compare(self, a: &[u8], b: &[u8]) -> Comparison {
        match self {
            Side::Plain => plain::compare(a, b),
            Side::Archive => {
                let found = vegzump::compare(a, b);
                Comparison { equal: found.equal, count: found.count }
            }
        }
    }

    pub fn check(self, table: &[u8]) -> Answer {
        match self {
            Side::Plain => plain::PRESENT.check(table),
            Side::Archive => match vegzump::check(table) {
                Ok(()) => Answer { number: 0, a: 0, b: 0, c: 0 },
                Err(refusal) => answer(refusal),
            },
        }
    }
}

fn answered(found: vegzump::Answer<vegzump::Accepted>) -> Answer {
    match found {
        Ok(found) => Answer { number: 0, a: found.cells as u64, b: found.constructors as u64, c: found.text as u64 },
        Err(refusal) => answer(refusal),
    }
}

fn answer(refusal: vegzump::Refusal) -> Answer {
    let (number, [a, b, c]) = refusal.numbered();
    Answer { number, a, b, c }
}
