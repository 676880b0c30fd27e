//! Results as texts (document 02, C-14) where the cases of the request do not tell two readings apart: what a text's own block defines, the count of tokens,
//! a place behind other items, numbers of many digits, and large templates, which are made again at each use.

#[allow(dead_code)]
#[path = "../../src/tables.rs"]
mod tables;

use plain::{Answer, TEXTS};
use tables::{Table, BINDER, TERM, VAR};

const OPEN: usize = 0;
const CLOSE: usize = 1;
const K: usize = 2;
const M: usize = 3;
const TWICE: usize = 4;

/// One nonterminal: a variable, `( term )`, `twice term`, or a pattern place; `k` and `x` are outside names.
fn first_block() -> Table {
    Table::new()
        .keywords(["(", ")", "k", "m", "twice"])
        .names(["k", "x"])
        .block()
        .add(0, TERM, &[])
        .alternative()
        .ide(VAR)
        .result(&[0x20, 0])
        .alternative()
        .keyword(OPEN)
        .call(0, &[])
        .keyword(CLOSE)
        .result(&[1])
        .alternative()
        .keyword(TWICE)
        .call(0, &[])
        .result(&[0x22, 1, 1])
        .alternative()
        .place(TERM)
        .result(&[0])
}

fn extended(table: Table) -> Table {
    table.block().definition(0, 1, TERM, &[])
}

fn refused(number: u8, place: usize) -> Answer {
    Answer { number, a: place as u64, b: 0, c: 0 }
}

#[test]
fn keywords_of_the_own_block_are_words() {
    let table = extended(first_block()).alternative().keyword(K).result(&[0x20, 0x10, 1]).alternative().keyword(M);
    let place = table.bytes.len();
    let table = table.text(0, b"k").root(0);
    assert_eq!(TEXTS.templates(&table), Ok(vec![(place, vec![0x20, 0x10, 0])]));
}

#[test]
fn alternatives_of_the_own_block_are_not_there() {
    let with_k = first_block().alternative().keyword(M).keyword(K).result(&[0x23, 0x25]);
    let table = extended(with_k).alternative().keyword(K).result(&[0x20, 0x10, 1]);
    let table = table.add(1, TERM, &[]).alternative();
    let place = table.bytes.len();
    assert_eq!(TEXTS.check(&table.text(0, b"k").root(0)), refused(26, place));
}

#[test]
fn clashes_of_the_own_block_come_at_the_end() {
    let table = extended(first_block()).alternative().keyword(OPEN).result(&[0x23, 0x25]).alternative().keyword(M);
    let place = table.bytes.len();
    assert_eq!(TEXTS.check(&table.clone().text(0, b"7").root(0)), refused(26, place));
    assert_eq!(TEXTS.check(&table.text(0, b"x").root(0)), Answer { number: 13, a: 0, b: 2, c: 0 });
}

#[test]
fn a_text_has_4096_tokens() {
    let template: Vec<u8> = (0..8).flat_map(|word| [0x22, 0x20, word]).chain([8]).collect();
    let eights = Table::new().keywords(["m"]).names(["x"]).block().add(0, TERM, &[]);
    let eights = eights.alternative().times(8, |table, _| table.ide(VAR)).call(0, &[]).result(&template);
    let eights = eights.alternative().keyword(0).result(&[0x23, 0x25]).alternative().result(&[0x23, 0x25]);
    let table = eights.block().add(1, TERM, &[]).alternative();
    let place = table.bytes.len();
    let of = |text: String| TEXTS.check(&table.clone().text(0, text.as_bytes()).root(0));
    assert_eq!(of("x ".repeat(4_096)), refused(0, 0));
    assert_eq!(of("x ".repeat(4_096) + "m"), refused(26, place));
}

#[test]
fn a_place_behind_a_keyword_takes_its_sort_alone() {
    let table = first_block().alternative().keyword(M).place(VAR).result(&[0x20, 1]).block().add(1, TERM, &[]).alternative();
    let of = |sort: u8| {
        let table = table.clone().keyword(K).ide(sort);
        (table.bytes.len(), table.text(0, b"m $1").root(0))
    };
    let ((place, with_var), (_, with_binder)) = (of(VAR), of(BINDER));
    assert_eq!(TEXTS.templates(&with_var), Ok(vec![(place, vec![0x20, 1])]));
    assert_eq!(TEXTS.check(&with_binder), refused(26, place));
}

#[test]
fn a_variable_has_any_number_of_digits() {
    let table = first_block().block().add(1, TERM, &[]).alternative().call(0, &[]);
    let place = table.bytes.len();
    let of = |text: &str| TEXTS.check(&table.clone().text(0, text.as_bytes()).root(0));
    assert_eq!(of(&format!("${}", "0".repeat(100))), refused(0, 0));
    for past in ["$1", "$256", "$65536", "$4294967296", "$18446744073709551616", "$340282366920938463463374607431768211456"] {
        assert_eq!(of(past), refused(9, place), "{past}");
    }
}

fn expanded(table: &[u8], formula: &str) -> (Answer, Vec<u32>, Vec<u8>) {
    let (mut cells, mut text) = (vec![0; 4 * 16_384], vec![0; 1 << 20]);
    (TEXTS.expand(table, formula.as_bytes(), &mut cells, &mut text), cells, text)
}

#[test]
fn large_templates_are_made_at_each_use() {
    let table = |of_k: &dyn Fn(Table) -> Table, of_m: &dyn Fn(Table) -> Table| {
        let with_k = of_k(extended(first_block()).alternative().keyword(K).call(0, &[]));
        of_m(extended(with_k).alternative().keyword(M).call(0, &[])).root(0)
    };
    let texts = table(&|table| table.text(0, b"twice twice twice twice twice twice twice twice $1"), &|table| table.text(0, b"twice k ($1)"));
    let templates = TEXTS.templates(&texts).unwrap();
    let given = table(&|table| table.result(&templates[0].1), &|table| table.result(&templates[1].1));
    for formula in ["k x", "m x", "twice k twice x", "( m k"] {
        assert_eq!(expanded(&texts, formula), expanded(&given, formula));
    }
    assert_eq!(expanded(&texts, "k x").0.b, 511);
}
