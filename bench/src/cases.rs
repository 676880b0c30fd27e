//! The conformance cases, from cases.bin; the tables of a request's cases.

use plain::Answer;

pub struct Case {
    pub table: Vec<u8>,
    pub formula: Vec<u8>,
    pub cells_lent: usize,
    pub text_lent: usize,
    pub answer: Answer,
    pub cells: Vec<u32>,
    pub text: Vec<u8>,
}

struct Reader<'a>(&'a [u8]);

impl<'a> Reader<'a> {
    fn bytes(&mut self, n: usize) -> &'a [u8] {
        let (part, rest) = self.0.split_at(n);
        self.0 = rest;
        part
    }
    fn number(&mut self, n: usize) -> u64 {
        self.bytes(n).iter().fold(0, |value, &byte| value << 8 | u64::from(byte))
    }
    fn part(&mut self) -> Vec<u8> {
        let n = self.number(4) as usize;
        self.bytes(n).to_vec()
    }
}

pub fn read(path: &str) -> std::io::Result<Vec<Case>> {
    let bytes = std::fs::read(path)?;
    let mut reader = Reader(&bytes);
    let mut cases = Vec::new();
    while !reader.0.is_empty() {
        let (table, formula) = (reader.part(), reader.part());
        let (cells_lent, text_lent) = (reader.number(4) as usize, reader.number(4) as usize);
        let number = reader.number(4) as u8;
        let answer = Answer { number, a: reader.number(8), b: reader.number(8), c: reader.number(8) };
        let made = reader.number(4) as usize;
        let cells = (0..made).map(|_| reader.number(4) as u32).collect();
        cases.push(Case { table, formula, cells_lent, text_lent, answer, cells, text: reader.part() });
    }
    Ok(cases)
}

/// The tables of the cases of a request, in line form: those of `check`, `expand` and `templates`.
pub fn tables(path: &str) -> std::io::Result<Vec<Vec<u8>>> {
    let lines = std::fs::read_to_string(path)?;
    let table = |line: &str| {
        let words: Vec<&str> = line.split(' ').collect();
        let hex = words.get(3).filter(|_| ["check", "expand", "templates"].contains(&words[1]))?;
        (0..hex.len() / 2).map(|at| u8::from_str_radix(&hex[2 * at..2 * at + 2], 16).ok()).collect()
    };
    Ok(lines.lines().filter_map(table).collect())
}
