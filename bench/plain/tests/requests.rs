//! The cases of document 02 (tests/cases/c-NN.txt, in the form that tests/cases/README.md has) at each level that this implementation knows: every answer,
//! number and byte.

use plain::{compare, Answer, Level, PRESENT, TEXTS};

/// A line: one call with its inputs and outputs, and the levels at which it holds.
struct Case<'a> {
    label: &'a str,
    call: &'a str,
    levels: [u8; 2],
    given: Vec<&'a str>,
    wanted: Vec<&'a str>,
}

fn case(line: &str) -> Option<Case<'_>> {
    let (inputs, outputs) = line.split_once(" = ")?;
    let mut words = inputs.split(' ');
    let (label, call) = (words.next()?, words.next()?);
    let (first, last) = words.next()?.split_once('-')?;
    let levels = [first.parse().ok()?, last.parse().ok()?];
    Some(Case { label, call, levels, given: words.collect(), wanted: outputs.split(' ').collect() })
}

fn bytes(word: &str) -> Vec<u8> {
    let digits = if word == "-" { "" } else { word };
    (0..digits.len()).step_by(2).map(|at| u8::from_str_radix(&digits[at..at + 2], 16).expect("hex")).collect()
}

fn number(word: &str) -> u64 {
    word.parse().expect("a number")
}

fn fnv(bytes: &[u8]) -> u64 {
    bytes.iter().fold(0xcbf2_9ce4_8422_2325, |state, &byte| (state ^ u64::from(byte)).wrapping_mul(0x100_0000_01b3))
}

/// Numbers of a width, in bytes with the low one first, in the form of the word that is wanted: all digits, or their count and a hash.
fn shown(all: &[u8], width: usize, wanted: &str) -> String {
    if wanted.contains('/') {
        return format!("{}/{:016x}", all.len() / width, fnv(all));
    }
    let digits: String = all.chunks(width).flat_map(|number| number.iter().rev()).map(|byte| format!("{byte:02x}")).collect();
    if digits.is_empty() { "-".into() } else { digits }
}

/// What was lent, up to the last number that is not as it was set.
fn left<T: Copy + PartialEq, const N: usize>(room: &[T], set: T, low_first: impl Fn(T) -> [u8; N], wanted: &str) -> String {
    let end = room.iter().rposition(|&number| number != set).map_or(0, |last| last + 1);
    let all: Vec<u8> = room[..end].iter().flat_map(|&number| low_first(number)).collect();
    shown(&all, N, wanted)
}

fn answered(answer: Answer) -> Vec<String> {
    let Answer { number, a, b, c } = answer;
    [number.into(), a, b, c].map(|value: u64| value.to_string()).to_vec()
}

const PASSED: Answer = Answer { number: 0, a: 0, b: 0, c: 0 };
const CELL: u32 = 0xaaaa_aaaa;
const BYTE: u8 = 0xee;
const ENTRY: u64 = 0xeeee_eeee_eeee_eeee;

fn expand(level: Level, given: &[&str], wanted: &[&str]) -> Vec<String> {
    let (mut cells, mut text) = (vec![CELL; number(given[2]) as usize], vec![BYTE; number(given[3]) as usize]);
    let answer = level.expand(&bytes(given[0]), &bytes(given[1]), &mut cells, &mut text);
    let lent = [left(&text, BYTE, u8::to_le_bytes, wanted[4]), left(&cells, CELL, u32::to_le_bytes, wanted[5])];
    [answered(answer), lent.to_vec()].concat()
}

fn portions(level: Level, given: &[&str], wanted: &[&str]) -> Vec<String> {
    let (mut cells, mut list) = (vec![CELL; number(given[4]) as usize], vec![ENTRY; number(given[5]) as usize]);
    let answer = level.portions(&bytes(given[0]), &bytes(given[1]), number(given[2]), number(given[3]), &mut cells, &mut list);
    let lent = [left(&list, ENTRY, u64::to_le_bytes, wanted[4]), left(&cells, CELL, u32::to_le_bytes, wanted[5])];
    [answered(answer), lent.to_vec()].concat()
}

fn templates(level: Level, given: &[&str], wanted: &[&str]) -> Vec<String> {
    let found = match level.templates(&bytes(given[0])) {
        Ok(found) => found,
        Err(refused) => return answered(refused),
    };
    let template = |(at, (place, bytes)): (usize, &(usize, Vec<u8>))| {
        let form = wanted.get(4 + at).copied().unwrap_or_default();
        format!("{place}:{}", shown(bytes, 1, form))
    };
    answered(PASSED).into_iter().chain(found.iter().enumerate().map(template)).collect()
}

fn found(level: Level, case: &Case) -> Vec<String> {
    let Case { given, wanted, .. } = case;
    match case.call {
        "check" => answered(level.check(&bytes(given[0]))),
        "expand" => expand(level, given, wanted),
        "portions" => portions(level, given, wanted),
        "compare" => {
            let found = compare(&bytes(given[0]), &bytes(given[1]));
            vec![u8::from(found.equal).to_string(), found.count.to_string()]
        }
        "keywords" => {
            let (answer, mask) = level.keywords(&bytes(given[0])).map_or_else(|refused| (refused, 0), |mask| (PASSED, mask));
            answered(answer).into_iter().chain([format!("{mask:x}")]).collect()
        }
        "templates" => templates(level, given, wanted),
        call => panic!("{}: no call {call}", case.label),
    }
}

/// Runs the cases of a request at a level; how many there are.
fn run(request: u8, level: Level) -> usize {
    let path = format!("{}/../../tests/cases/c-{request}.txt", env!("CARGO_MANIFEST_DIR"));
    let lines = std::fs::read_to_string(path).expect("the cases of the request");
    let mut count = 0;
    for line in lines.lines() {
        let case = case(line).expect(line);
        if case.levels[0] <= level.0 && level.0 <= case.levels[1] {
            assert_eq!(found(level, &case), case.wanted, "{} at level {}", case.label, level.0);
            count += 1;
        }
    }
    count
}

#[test]
fn the_present_level_is_that_of_the_archive() {
    assert_eq!(include_str!("../../../level.txt").trim(), PRESENT.0.to_string());
}

#[test]
fn every_case_at_the_present_level() {
    for request in 11..=PRESENT.0 {
        assert!(run(request, PRESENT) > 0);
    }
}

#[test]
fn every_case_with_texts() {
    for request in 11..=TEXTS.0 {
        assert!(run(request, TEXTS) > 0);
    }
}
