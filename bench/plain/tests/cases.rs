//! The conformance cases: number, values, every cell and every byte of text.

use plain::{Answer, PRESENT, TEXTS};

struct Reader<'a>(&'a [u8]);

impl<'a> Reader<'a> {
    fn bytes(&mut self, n: usize) -> &'a [u8] {
        let (part, rest) = self.0.split_at(n);
        self.0 = rest;
        part
    }
    fn number(&mut self, n: usize) -> u64 {
        self.bytes(n).iter().fold(0, |value, &byte| value << 8 | u64::from(byte))
    }
    fn part(&mut self) -> &'a [u8] {
        let n = self.number(4) as usize;
        self.bytes(n)
    }
}

#[test]
fn every_case() {
    let path = std::env::var("VEGZUMP_CASES")
        .unwrap_or_else(|_| concat!(env!("CARGO_MANIFEST_DIR"), "/../../crates/conformance/data/cases.bin").into());
    let bytes = std::fs::read(path).unwrap();
    let mut reader = Reader(&bytes);
    let mut cases = 0;
    while !reader.0.is_empty() {
        let (table, formula) = (reader.part(), reader.part());
        let (rows_lent, text_lent) = (reader.number(4) as usize, reader.number(4) as usize);
        let expected =
            Answer { number: reader.number(4) as u8, a: reader.number(8), b: reader.number(8), c: reader.number(8) };
        let (mut cells_owed, mut text_owed) = (vec![0xaaaa_aaaa; rows_lent], vec![0xee; text_lent]);
        for cell in 0..reader.number(4) as usize {
            cells_owed[cell] = reader.number(4) as u32;
        }
        let written = reader.part();
        text_owed[..written.len()].copy_from_slice(written);
        for level in [PRESENT, TEXTS] {
            let (mut cells, mut text) = (vec![0xaaaa_aaaa; rows_lent], vec![0xee; text_lent]);
            let found = level.expand(table, formula, &mut cells, &mut text);
            assert_eq!(found, expected, "case {cases}");
            assert!(cells == cells_owed, "cells of case {cases}");
            assert!(text == text_owed, "text of case {cases}");
            let verdict = level.check(table);
            if (1..=13).contains(&expected.number) {
                assert_eq!(verdict, expected, "check of case {cases}");
            } else {
                assert_eq!(verdict.number, 0, "check of case {cases}");
            }
        }
        cases += 1;
    }
    assert!(cases > 0);
    println!("{cases} cases");
}
