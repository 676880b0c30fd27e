//! The archive from Rust: the conformance cases, lengths round every limit, nothing at all, many formulas in one call beside one by one, runs that differ at each
//! place, several threads.

use std::{env, fs, thread};
use vegzump::{check, compare, expand, expand_each, expand_texts, expand_whole, portions, portions_whole};
use vegzump::{Answer, Comparison, Portion, Refusal, FORMULA_BYTES, ROWS, ROW_CELLS, STACK, TABLE_BYTES};

/// Runs on a thread with the stack that the header states; what else runs there has a megabyte.
fn with_stack<T: Send + 'static>(test: impl FnOnce() -> T + Send + 'static) -> thread::JoinHandle<T> {
    thread::Builder::new().stack_size(STACK + (1 << 20)).spawn(test).unwrap()
}

struct Reader<'a>(&'a [u8]);

impl<'a> Reader<'a> {
    fn bytes(&mut self, n: usize) -> &'a [u8] {
        let (part, rest) = self.0.split_at(n);
        self.0 = rest;
        part
    }
    fn number(&mut self, n: usize) -> u64 {
        self.bytes(n).iter().fold(0, |value, &byte| value << 8 | u64::from(byte))
    }
    fn part(&mut self) -> &'a [u8] {
        let n = self.number(4) as usize;
        self.bytes(n)
    }
}

/// The number and the values of an answer as document 01 has them.
fn numbered(table: &[u8], formula: &[u8], cells: &mut [u32], text: &mut [u8]) -> (u8, [u64; 3]) {
    match expand(table, formula, cells, text) {
        Ok(accepted) => (0, [accepted.cells as u64, accepted.constructors as u64, accepted.text as u64]),
        Err(refusal) => refusal.numbered(),
    }
}

fn cases_path() -> String {
    let default = concat!(env!("CARGO_MANIFEST_DIR"), "/../../crates/conformance/data/cases.bin");
    env::var("VEGZUMP_CASES").unwrap_or_else(|_| default.into())
}

/// Every case of cases.bin: answer, every cell and every byte of text.
fn every_case() -> usize {
    let bytes = fs::read(cases_path()).unwrap();
    let mut reader = Reader(&bytes);
    let mut cases = 0;
    while !reader.0.is_empty() {
        let (table, formula) = (reader.part(), reader.part());
        let (cells_lent, text_lent) = (reader.number(4) as usize, reader.number(4) as usize);
        let owed = (reader.number(4) as u8, [reader.number(8), reader.number(8), reader.number(8)]);
        let (mut cells_owed, mut text_owed) = (vec![0xaaaa_aaaa; cells_lent], vec![0xee; text_lent]);
        for cell in 0..reader.number(4) as usize {
            cells_owed[cell] = reader.number(4) as u32;
        }
        let written = reader.part();
        text_owed[..written.len()].copy_from_slice(written);
        let (mut cells, mut text) = (vec![0xaaaa_aaaa; cells_lent], vec![0xee; text_lent]);
        assert_eq!(numbered(table, formula, &mut cells, &mut text), owed, "case {cases}");
        assert!(cells == cells_owed, "cells of case {cases}");
        assert!(text == text_owed, "text of case {cases}");
        match check(table) {
            Ok(()) => assert!(!(1..=13).contains(&owed.0), "check of case {cases}"),
            Err(refusal) => assert_eq!(refusal.numbered(), owed, "check of case {cases}"),
        }
        cases += 1;
    }
    cases
}

/// The numbers of the crate are those of the header.
#[test]
fn as_the_header_says() {
    let header = fs::read_to_string(concat!(env!("CARGO_MANIFEST_DIR"), "/../../include/vegzump.h")).unwrap();
    let stated = |name: &str| -> usize {
        let line = header.lines().find(|line| line.starts_with(&format!("#define {name} "))).unwrap();
        line.split_whitespace().nth(2).unwrap().trim_end_matches('u').parse().unwrap()
    };
    let names = ["STACK", "TABLE_BYTES", "FORMULA_BYTES", "ROWS", "ROW_CELLS"];
    let found = names.map(|name| stated(&format!("VEGZUMP_{name}")));
    assert_eq!(found, [STACK, TABLE_BYTES, FORMULA_BYTES, ROWS, ROW_CELLS]);
}

#[test]
fn conformance_cases() {
    let cases = with_stack(every_case).join().unwrap();
    assert!(cases > 0);
}

#[test]
fn several_threads() {
    let threads: Vec<_> = (0..4).map(|_| with_stack(every_case)).collect();
    let counts: Vec<_> = threads.into_iter().map(|thread| thread.join().unwrap()).collect();
    assert!(counts.iter().all(|&count| count == counts[0] && count > 0));
}

fn field(table: &mut Vec<u8>, tag: u8, value: &[u8]) {
    table.push(tag);
    table.extend_from_slice(&(value.len() as u16).to_be_bytes());
    table.extend_from_slice(value);
}

/// A table of so many bytes: a word `x` gives applications nested to the left, `levels` deep, with mkTermVar(x) at every end.
fn table_of_length(length: usize) -> (Vec<u8>, usize) {
    let levels = (length - 30) / 3;
    let spare = length - 30 - 3 * levels;
    let mut template = vec![0x22; levels];
    template.extend([0x20, 0].repeat(levels + 1));
    let mut table = Vec::new();
    field(&mut table, 2, &b"abc"[..1 + spare]);
    field(&mut table, 3, &[]);
    field(&mut table, 4, &[0, 0, 4]);
    field(&mut table, 5, &[]);
    field(&mut table, 6, &[1, 1]);
    field(&mut table, 7, &template);
    field(&mut table, 8, &[0]);
    assert_eq!(table.len(), length);
    (table, levels)
}

/// A table whose formulas are any number of words, eight at a time; the term is a lone outside name.
fn table_of_words() -> Vec<u8> {
    let mut table = Vec::new();
    field(&mut table, 2, b"T");
    field(&mut table, 3, &[]);
    field(&mut table, 4, &[0, 0, 4]);
    field(&mut table, 5, &[]);
    for _ in 0..8 {
        field(&mut table, 6, &[1, 1]);
    }
    field(&mut table, 6, &[4, 0]);
    field(&mut table, 7, &[8]);
    field(&mut table, 5, &[]);
    field(&mut table, 7, &[0x20, 0x10, 0]);
    field(&mut table, 8, &[0]);
    table
}

#[test]
fn table_lengths() {
    with_stack(|| {
        for length in [TABLE_BYTES - 2, TABLE_BYTES - 1, TABLE_BYTES] {
            let (table, levels) = table_of_length(length);
            assert_eq!(check(&table), Ok(()));
            let expansion = expand_whole(&table, b"x").unwrap();
            let made = 2 * levels + 1;
            assert_eq!((expansion.rows.len(), expansion.constructors, expansion.text.len()), (made, made, 12 * made));
        }
        for length in [TABLE_BYTES + 1, TABLE_BYTES + 2, 2 * TABLE_BYTES, 65_536, 100_000] {
            let mut table = table_of_length(TABLE_BYTES).0;
            table.resize(length, 0);
            assert_eq!(check(&table), Err(Refusal::TableTooLong));
            assert_eq!(expand(&table, b"x", &mut [], &mut []), Err(Refusal::TableTooLong));
        }
    })
    .join()
    .unwrap();
}

#[test]
fn formula_lengths() {
    let (table, text) = (table_of_words(), b"mkTermVar(T)");
    for length in [FORMULA_BYTES - 1, FORMULA_BYTES, FORMULA_BYTES + 1, FORMULA_BYTES + 2, 200_000] {
        let (mut cells, mut room) = ([7; 8], [7; 16]);
        let found = numbered(&table, &vec![b' '; length], &mut cells, &mut room);
        if length > FORMULA_BYTES {
            assert_eq!((found, cells, room), ((14, [0; 3]), [7; 8], [7; 16]));
        } else {
            assert_eq!((found, &room[..12], &room[12..]), ((0, [1, 1, 12]), &text[..], &[7; 4][..]));
            assert_eq!(cells, [0x20, 3 << 24, 0, 0, 7, 7, 7, 7]);
        }
    }
}

#[test]
fn token_counts() {
    let table = table_of_words();
    for count in [4_088, 4_095, 4_096, 4_097, 4_098] {
        let (mut cells, mut room) = ([7; 4], [7; 12]);
        let found = numbered(&table, &b"a ".repeat(count), &mut cells, &mut room);
        let owed = match count {
            4_088 | 4_096 => (0, [1, 1, 12]),
            4_095 => (17, [4_095, 1, 1]),
            _ => (16, [0; 3]),
        };
        assert_eq!(found, owed, "{count} tokens");
    }
}

#[test]
fn rows_and_text_too_small() {
    with_stack(|| {
        let (table, levels) = table_of_length(TABLE_BYTES);
        let made = 2 * levels + 1;
        let (mut cells, mut text) = (vec![7; made * ROW_CELLS], vec![7; 12 * made]);
        let whole = numbered(&table, b"x", &mut cells, &mut text);
        assert_eq!(whole, (0, [made as u64, made as u64, 12 * made as u64]));
        let (all_cells, all_text) = (cells.clone(), text.clone());
        // Three spare numbers are no row.
        for spare in 0..4 {
            let lent = (made - 1) * ROW_CELLS + spare;
            let (mut cells, mut text) = (vec![7; lent], vec![7; 12 * made]);
            assert_eq!(numbered(&table, b"x", &mut cells, &mut text), (21, [1, 0, 0]));
            assert_eq!(cells[..(made - 1) * ROW_CELLS], all_cells[..(made - 1) * ROW_CELLS]);
            assert!(cells[(made - 1) * ROW_CELLS..].iter().all(|&cell| cell == 7) && text.iter().all(|&byte| byte == 7));
        }
        for short in [1, 2, 12 * made] {
            let (mut cells, mut text) = (vec![7; made * ROW_CELLS], vec![7; 12 * made - short]);
            assert_eq!(numbered(&table, b"x", &mut cells, &mut text), (24, [12 * made as u64, 0, 0]));
            assert!(cells == all_cells && text.iter().all(|&byte| byte == 7));
        }
        // More room than is ever used.
        let (mut cells, mut text) = (vec![7; (ROWS + 9) * ROW_CELLS], vec![7; 12 * made + 9]);
        assert_eq!(numbered(&table, b"x", &mut cells, &mut text), whole);
        assert!(cells[..all_cells.len()] == all_cells && cells[all_cells.len()..].iter().all(|&cell| cell == 7));
        assert!(text[..all_text.len()] == all_text && text[all_text.len()..].iter().all(|&byte| byte == 7));
    })
    .join()
    .unwrap();
}

/// The tables and formulas of the cases, those whose table stands behind each other together.
fn cases_by_table() -> Vec<(Vec<u8>, Vec<Vec<u8>>)> {
    let bytes = fs::read(cases_path()).unwrap();
    let mut reader = Reader(&bytes);
    let mut tables: Vec<(Vec<u8>, Vec<Vec<u8>>)> = Vec::new();
    while !reader.0.is_empty() {
        let (table, formula) = (reader.part().to_vec(), reader.part().to_vec());
        reader.bytes(36);
        let made = reader.number(4) as usize;
        reader.bytes(4 * made);
        reader.part();
        match tables.iter_mut().find(|(other, _)| *other == table) {
            Some((_, formulas)) => formulas.push(formula),
            None => tables.push((table, vec![formula])),
        }
    }
    tables
}

/// One call for many formulas answers, and leaves cells and text, as one call for each does.
#[test]
fn many_formulas() {
    with_stack(|| {
        for (table, formulas) in cases_by_table() {
            let (bytes, mut ends) = (formulas.concat(), Vec::new());
            formulas.iter().fold(0, |end, formula| {
                ends.push(end + formula.len());
                end + formula.len()
            });
            for text_lent in [0, 100, 1 << 16] {
                let (mut cells, mut text) = (vec![0xaaaa_aaaa; 2_000], vec![0xee; text_lent]);
                let (mut cells_owed, mut text_owed) = (cells.clone(), text.clone());
                let mut at = 0;
                let owed: Vec<Answer<_>> = formulas
                    .iter()
                    .map(|formula| {
                        let answer = expand(&table, formula, &mut cells_owed, &mut text_owed[at..]);
                        at += answer.as_ref().map_or(0, |accepted| accepted.text);
                        answer
                    })
                    .collect();
                assert_eq!(expand_each(&table, &bytes, &ends, &mut cells, &mut text), owed);
                assert!(cells == cells_owed && text == text_owed);
            }
            let texts = expand_texts(&table, &formulas);
            let owed: Vec<_> = formulas.iter().map(|formula| expand_whole(&table, formula).map(|whole| whole.text)).collect();
            assert_eq!(texts, owed);
        }
    })
    .join()
    .unwrap();
}

/// Ends that go backward or lie behind the buffer, and texts that do not fit behind those before.
#[test]
fn ends_of_any_kind() {
    let table = table_of_words();
    let expanded = |ends: &[usize], text: usize| {
        let mut room = vec![b'.'; text];
        let answers = expand_each(&table, b"abcdefgh 8", ends, &mut [0; 4], &mut room);
        (answers.iter().map(|answer| answer.as_ref().map_or(24, |_| 0)).collect::<Vec<_>>(), String::from_utf8(room).unwrap())
    };
    let (none, long) = (usize::MAX, "mkTermVar(T)");
    assert_eq!(expanded(&[], 3), (vec![], "...".into()));
    assert_eq!(expanded(&[0], 13), (vec![0], format!("{long}.")));
    assert_eq!(expanded(&[0, 0, 0], 25), (vec![0, 0, 24], format!("{long}{long}.")));
    assert_eq!(expanded(&[none, 0, none - 1, none], 48), (vec![24, 0, 24, 0], format!("{long}{long}{}", ".".repeat(24))));
}

#[test]
fn nothing_at_all() {
    assert_eq!(check(&[]), Err(Refusal::FieldOutOfOrder { place: 0 }));
    assert_eq!(expand(&[], &[], &mut [], &mut []), Err(Refusal::FieldOutOfOrder { place: 0 }));
    let table = table_of_words();
    assert_eq!(expand(&table, &[], &mut [], &mut []), Err(Refusal::NoRow { token: 0 }));
    assert_eq!(expand(&table, &[], &mut [0; 4], &mut []), Err(Refusal::TextTooLong { needed: 12 }));
}

/// A formula's numbers for another count of portions, with a list that is enough, too short or longer than they are, and with counts at their limits.
#[test]
fn portions_of_a_formula() {
    let bytes = fs::read(cases_path()).unwrap();
    let table = Reader(&bytes).part();
    let formula = b"{oats=80 milk=207}";
    let owed = [Portion { number: 80, grams: 120, remainder: 0 }, Portion { number: 207, grams: 310, remainder: 2 }];
    assert_eq!(portions_whole(table, formula, 4, 6), Ok(owed.to_vec()));
    for lent in 0..9 {
        let (mut cells, mut list) = (vec![0; 64], vec![7; lent]);
        let found = portions(table, formula, 4, 6, &mut cells, &mut list);
        if lent < 6 {
            assert_eq!(found, Err(Refusal::TextTooLong { needed: 6 }));
            assert_eq!(list, vec![7; lent]);
        } else {
            assert_eq!(found.map(|accepted| accepted.text), Ok(6));
            assert_eq!(list[..6], [80, 120, 0, 207, 310, 2]);
            assert_eq!(list[6..], vec![7; lent - 6]);
        }
    }
    for (written, wanted) in [(0, 1), (1, 0), (10_001, 1), (1, 10_001), (u64::MAX, u64::MAX)] {
        assert_eq!(portions_whole(table, formula, written, wanted), Err(Refusal::BadPortions));
        assert_eq!(portions_whole(&[], formula, written, wanted), Err(Refusal::BadPortions));
    }
    let most = portions_whole(table, b"999999999", 10_000, 9_999).unwrap();
    assert_eq!(most, [Portion { number: 999_999_999, grams: 999_899_999, remainder: 1 }]);
}

/// Every length up to four words and a tail: equal, one byte more, and another byte at each place.
#[test]
fn runs_that_differ_at_each_place() {
    for length in 0..40 {
        let (words, tail) = (length / 8, length % 8);
        let run: Vec<u8> = (0..length).map(|at| (37 * at + length) as u8).collect();
        let longer = [&run[..], &[0]].concat();
        assert_eq!(compare(&run, &run.clone()), Comparison { equal: true, count: (words + tail) as u64 }, "{length} bytes");
        assert_eq!(compare(&run, &longer), Comparison { equal: false, count: 0 }, "{length} bytes and one more");
        assert_eq!(compare(&longer, &run), Comparison { equal: false, count: 0 }, "{length} bytes and one more");
        for at in 0..length {
            let mut other = run.clone();
            other[at] ^= 128;
            let owed = if at < 8 * words { at / 8 + 1 } else { words + at - 8 * words + 1 };
            assert_eq!(compare(&run, &other), Comparison { equal: false, count: owed as u64 }, "{length} bytes, another at {at}");
        }
    }
    assert_eq!(compare(b"north_ward_oats", b"north_ward_milk"), Comparison { equal: false, count: 5 });
}
