//! The proved archive beside the plain implementation: the same answers, cells and text on every input, the times of both, and how they grow.
//! `bench/run` builds and runs it.

mod cases;
mod collide;
mod compare;
mod draw;
mod inputs;
mod sides;
mod tables;
mod texts;
mod times;

use compare::Comparison;
use draw::Draws;
use inputs::Input;
use sides::Side;
use std::path::PathBuf;
use std::process::{Command, ExitCode};
use std::time::{Duration, Instant};
use times::{shown, Room};

const USAGE: &str = "\
usage: bench/run [compare] [times] [growth] [many] [portions] [spellings] [counts] [--draws N] [--seed N] [--cases FILE] [--budget MS] [--hash MULTIPLIER]
  compare   the conformance cases, the inputs that are measured, and N drawn inputs (100,000; seed 1)
  times     best times of both, archive over plain, for each input; MS milliseconds (300) for each; and instructions, where valgrind is installed
  growth    times at one, two, four and eight times a size
  many      times of a formula among many of one table: one check for all, and a check for each
  portions  times of a record's numbers for another count of portions, at one, two, four and eight times a size
  spellings times of comparing two equal runs of bytes; and instructions, where valgrind is installed
  counts    instructions of both, by valgrind's callgrind
Without a word: all but counts. --hash is the multiplier (31) of the polynomial hash for which colliding words are made.";

struct Options {
    parts: Vec<String>,
    draws: usize,
    seed: u64,
    cases: String,
    budget: Duration,
    hash: u32,
    /// One call, for callgrind.
    once: Option<Once>,
}

/// A call on a side that callgrind counts.
enum Once {
    /// An expansion, with the files that have table and formula.
    Expansion(Side, String, String),
    /// A comparison of two equal runs of so many bytes.
    Runs(Side, usize),
}

fn side(word: &str) -> Side {
    if word == "archive" { Side::Archive } else { Side::Plain }
}

fn options() -> Option<Options> {
    let mut options = Options {
        parts: Vec::new(),
        draws: 100_000,
        seed: 1,
        cases: concat!(env!("CARGO_MANIFEST_DIR"), "/../crates/conformance/data/cases.bin").into(),
        budget: Duration::from_millis(300),
        hash: 31,
        once: None,
    };
    let mut words = std::env::args().skip(1);
    while let Some(word) = words.next() {
        match word.as_str() {
            "compare" | "times" | "growth" | "many" | "portions" | "spellings" | "counts" => options.parts.push(word),
            "--draws" => options.draws = words.next()?.replace(',', "").parse().ok()?,
            "--seed" => options.seed = words.next()?.parse().ok()?,
            "--cases" => options.cases = words.next()?,
            "--budget" => options.budget = Duration::from_millis(words.next()?.parse().ok()?),
            "--hash" => options.hash = words.next()?.parse().ok()?,
            "--once" => options.once = Some(Once::Expansion(side(&words.next()?), words.next()?, words.next()?)),
            "--once-runs" => options.once = Some(Once::Runs(side(&words.next()?), words.next()?.parse().ok()?)),
            _ => return None,
        }
    }
    if options.parts.is_empty() {
        options.parts = ["compare", "times", "growth", "many", "portions", "spellings"].map(String::from).to_vec();
    }
    Some(options)
}

fn main() -> ExitCode {
    let Some(options) = options() else {
        eprintln!("{USAGE}");
        return ExitCode::from(2);
    };
    // The archive's own stack, and as much again for what runs here.
    let all = std::thread::Builder::new().stack_size(2 * vegzump::STACK).spawn(move || run(&options));
    all.ok().and_then(|thread| thread.join().ok()).unwrap_or(ExitCode::FAILURE)
}

fn run(options: &Options) -> ExitCode {
    if let Some(call) = &options.once {
        return once(call).map_or(ExitCode::FAILURE, |_| ExitCode::SUCCESS);
    }
    let list = inputs::list(options.hash);
    let mut well = true;
    for part in &options.parts {
        match part.as_str() {
            "compare" => well &= compare(options, &list),
            "times" => times(options, &list),
            "growth" => growth(options),
            "many" => many(options, &list),
            "portions" => portions(options),
            "spellings" => spellings(options),
            _ => well &= counts(&list),
        }
        println!();
    }
    if well { ExitCode::SUCCESS } else { ExitCode::FAILURE }
}

// ---- equal answers ----

/// Tables with texts are drawn from these cases too.
const TEXT_CASES: &str = concat!(env!("CARGO_MANIFEST_DIR"), "/../tests/cases/c-14.txt");

fn compare(options: &Options, list: &[Input]) -> bool {
    let start = Instant::now();
    let Ok(cases) = cases::read(&options.cases) else {
        println!("no conformance cases at {}", options.cases);
        return false;
    };
    let mut of_cases = Comparison::default();
    for (number, case) in cases.iter().enumerate() {
        of_cases.case(&format!("case-{number}"), case);
    }
    println!("conformance cases: {} compared, {} differ", of_cases.inputs, of_cases.differ);

    let mut of_inputs = Comparison::default();
    let series = inputs::growth(options.hash);
    for input in list.iter().chain(series.iter().flat_map(|series| series.inputs.iter().map(|(_, input)| input))) {
        let found = of_inputs.input("input", &input.table, &input.formula, 4 * vegzump::ROWS, input.text);
        if found.answer.number != input.number {
            of_inputs.differ += 1;
            println!("DIFFERS: {} is answered {:?}", input.name, found.answer);
        }
    }
    println!("measured inputs: {} compared, {} differ", of_inputs.inputs, of_inputs.differ);

    let mut of_runs = Comparison::default();
    each_place(&mut of_runs);
    println!("runs of bytes that differ at each place: {} compared, {} differ", of_runs.inputs, of_runs.differ);

    let (mut of_draws, mut of_many, mut of_portions) = (Comparison::default(), Comparison::default(), Comparison::default());
    let (mut of_drawn_runs, mut of_texts) = (Comparison::default(), Comparison::default());
    let mut passing: Vec<Vec<u8>> = cases.iter().map(|case| case.table.clone()).collect();
    if plain::PRESENT >= plain::TEXTS {
        passing.extend(cases::tables(TEXT_CASES).unwrap_or_default());
    }
    passing.retain(|table| plain::PRESENT.check(table).number == 0);
    passing.sort();
    passing.dedup();
    let mut draws = Draws::new(options.seed);
    let mut room = Room::new();
    let (mut with_given_back, mut written, mut with_texts) = (0, 0, 0);
    for number in 0..options.draws {
        let drawn = draw::draw(&mut draws, &passing);
        let (has_some, has_written) = draw::given_back(&drawn);
        (with_given_back, written) = (with_given_back + usize::from(has_some), written + usize::from(has_written));
        let (cells, text) = lent(&mut draws, &drawn, &mut room);
        let label = format!("drawn-{}-{number}", options.seed);
        of_draws.input(&label, &drawn.table, &drawn.formula, cells, text);
        let (counts, list) = drawn_portions(&mut draws, &drawn, &mut room);
        of_portions.portions(&label, &drawn.table, &drawn.formula, counts, cells, list);
        let [a, b] = draw::runs(&mut draws);
        of_drawn_runs.runs(&label, a.bytes(), b.bytes());
        with_texts += usize::from(texts::count(&drawn.table) > 0);
        if let Some(given) = with_templates(&drawn.table) {
            of_texts.as_given(&label, [&drawn.table, &given], &drawn.formula, cells, text);
        }
        if number % 8 == 0 {
            of_many.many(&label, &drawn.table, &draw::many(&mut draws, &drawn.formula), cells, 2 * text);
        }
    }
    println!("drawn inputs, seed {}: {} compared, {} differ", options.seed, of_draws.inputs, of_draws.differ);
    println!("  answers by number: {}", of_draws.answered());
    println!("  tables with keywords given back: {with_given_back}, formulas that have one of them: {written}");
    if plain::PRESENT >= plain::TEXTS {
        println!("  tables with texts: {with_texts}; beside the same with templates: {} compared, {} differ", of_texts.inputs, of_texts.differ);
    }
    println!("drawn lists of formulas, seed {}: {} compared, {} differ", options.seed, of_many.inputs, of_many.differ);
    println!("drawn portions, seed {}: {} compared, {} differ", options.seed, of_portions.inputs, of_portions.differ);
    println!("  answers by number: {}", of_portions.answered());
    println!("drawn runs of bytes, seed {}: {} compared, {} differ", options.seed, of_drawn_runs.inputs, of_drawn_runs.differ);
    let [equal, byte, length, ..] = of_drawn_runs.numbers;
    println!("  equal: {equal}, a byte differs: {byte}, the lengths differ: {length}");
    println!("  {:.1} s", start.elapsed().as_secs_f64());
    let all = [of_cases, of_inputs, of_runs, of_draws, of_texts, of_many, of_portions, of_drawn_runs];
    all.iter().all(|comparison| comparison.differ == 0)
}

/// A table that has texts with their templates in place of them.
fn with_templates(table: &[u8]) -> Option<Vec<u8>> {
    if texts::count(table) > 0 { texts::as_given(table) } else { None }
}

/// Runs of every length up to eight words and a tail, each beside itself, beside itself with another byte at each place, and beside each shorter one, at every
/// distance from a word of memory.
fn each_place(comparison: &mut Comparison) {
    for length in 0..72 {
        let bytes: Vec<u8> = (0..length).map(|at| (31 * at + length) as u8).collect();
        let run = draw::Run::new(length % 8, &bytes);
        for from in 0..8 {
            let mut beside = |other: &[u8]| comparison.runs("each-place", run.bytes(), draw::Run::new(from, other).bytes());
            beside(&bytes);
            for at in 0..length {
                let mut other = bytes.clone();
                other[at] ^= 1 << ((at + from) % 8);
                beside(&other);
                beside(&bytes[..at]);
            }
        }
    }
}

/// Counts of portions, at their limits, outside them and any, and how long a list is lent: enough, just enough, too short or none.
fn drawn_portions(draws: &mut Draws, drawn: &draw::Drawn, room: &mut Room) -> ([u64; 2], usize) {
    let counts = [(); 2].map(|()| match draws.below(24) {
        0 => 0,
        1 => 10_001,
        2 => 10_000,
        3 | 4 => 1,
        5..=13 => 1 + draws.below(10) as u64,
        _ => 1 + draws.below(10_000) as u64,
    });
    let mut list = vec![0; 3 * vegzump::ROWS];
    let whole = plain::PRESENT.portions(&drawn.table, &drawn.formula, 1, 1, &mut room.cells, &mut list);
    let length = if whole.number == 0 { whole.c as usize } else { 0 };
    let list = match draws.below(12) {
        0 => 0,
        1 | 2 => length.saturating_sub(1),
        3 => draws.below(length + 2),
        4..=6 => length + 1 + draws.below(9),
        _ => length,
    };
    (counts, list)
}

/// How many cells and bytes of text are lent: enough, just enough, too little or none.
fn lent(draws: &mut Draws, drawn: &draw::Drawn, room: &mut Room) -> (usize, usize) {
    room.cells.fill(0);
    let whole = plain::PRESENT.expand(&drawn.table, &drawn.formula, &mut room.cells, &mut room.text);
    let (made, length) = match whole.number {
        0 => (whole.a as usize, whole.c as usize),
        22 => (whole.a as usize, 0),
        // The rows made by what refuses later are those with a code.
        _ => (room.cells.chunks_exact(4).position(|row| row[0] == 0).unwrap_or(vegzump::ROWS), 0),
    };
    let cells = match draws.below(20) {
        0 => 0,
        1 => (4 * made).saturating_sub(1),
        2 => 4 * made.saturating_sub(1),
        3 => draws.below(4 * made + 8),
        4 => 4 * made + 3,
        5 if draws.percent(2) => 4 * (vegzump::ROWS + draws.below(3)) - 1,
        6..=9 => 4 * made + 4 + draws.below(20),
        _ => 4 * made,
    };
    let text = match draws.below(20) {
        0 => 0,
        1 | 2 => length.saturating_sub(1),
        3 => draws.below(length + 2),
        4..=8 => length + 1 + draws.below(9),
        _ => length,
    };
    (cells, text)
}

// ---- times ----

fn tokens(input: &Input) -> usize {
    // Runs of letters, digits and underscores are one token in these formulas, every other byte that is no space is one of its own.
    let in_word = |byte: u8| byte.is_ascii_alphanumeric() || byte == b'_';
    let starts = |at: usize| !in_word(input.formula[at]) || at == 0 || !in_word(input.formula[at - 1]);
    (0..input.formula.len()).filter(|&at| input.formula[at] != b' ' && starts(at)).count()
}

fn times(options: &Options, list: &[Input]) {
    let mut room = Room::new();
    println!("| Input | table bytes | tokens | archive, µs | plain Rust, µs | ratio | archive, K instructions | plain Rust | ratio |");
    println!("|---|---|---|---|---|---|---|---|---|");
    let (mut worst, mut worst_long) = ((0.0f64, ""), (0.0f64, ""));
    for input in list {
        let [archive, plain] = times::best(input, &mut room, options.budget);
        let (bytes, tokens, ratio) = (input.table.len(), tokens(input), archive / plain);
        let counted = match (collected("archive", input), collected("plain", input)) {
            (Some(archive), Some(plain)) => {
                format!("{:.1} | {:.1} | {:.2}", archive as f64 / 1e3, plain as f64 / 1e3, archive as f64 / plain as f64)
            }
            _ => "- | - | -".to_string(),
        };
        println!("| {} | {bytes} | {tokens} | {} | {} | {ratio:.2} | {counted} |", input.name, shown(archive), shown(plain));
        if worst.0 < ratio {
            worst = (ratio, &input.name);
        }
        if tokens > 1_000 && worst_long.0 < ratio {
            worst_long = (ratio, &input.name);
        }
    }
    println!("\nThe largest ratio of times is {:.2} ({}), and {:.2} of inputs over 1,000 tokens ({}).", worst.0, worst.1, worst_long.0, worst_long.1);
}

fn growth(options: &Options) {
    let mut room = Room::new();
    println!("| Growing | sizes | archive, µs | plain Rust, µs | archive, 8 times | plain, 8 times |\n|---|---|---|---|---|---|");
    for series in inputs::growth(options.hash) {
        let all = series.inputs.each_ref().map(|(_, input)| times::best(input, &mut room, options.budget / 2));
        let sizes = series.inputs.each_ref().map(|(size, _)| size.to_string()).join(", ");
        let side = |side: usize| all.map(|times| shown(times[side])).join(", ");
        let factor = |side: usize| all[3][side] / all[0][side];
        println!("| {} | {sizes} | {} | {} | {:.1} | {:.1} |", series.name, side(0), side(1), factor(0), factor(1));
    }
}

/// How many formulas a table is given.
const MANY: usize = 200;

fn many(options: &Options, list: &[Input]) {
    let mut room = Room::new();
    println!("| {MANY} formulas | archive, one check, µs each | plain Rust, one check | ratio | archive, a check each | one check is faster by |");
    println!("|---|---|---|---|---|---|");
    for input in list.iter().filter(|input| input.formula.len() < 64 && !input.formula.is_empty()) {
        let [archive, plain, each] = times::best_of_many(input, MANY, &mut room, options.budget);
        let (ratio, gain) = (archive / plain, each / archive);
        println!("| {} | {} | {} | {ratio:.2} | {} | {gain:.1} |", input.name, shown(archive), shown(plain), shown(each));
    }
}

fn portions(options: &Options) {
    let (mut room, series) = (Room::new(), inputs::numbers());
    println!("| {} | archive, µs | plain Rust | ratio |", series.name);
    println!("|---|---|---|---|");
    for (size, input) in &series.inputs {
        let [archive, plain] = times::best_of_portions(input, &mut room, options.budget);
        println!("| {size} | {} | {} | {:.2} |", shown(archive), shown(plain), archive / plain);
    }
}

fn spellings(options: &Options) {
    println!("| bytes, equal runs | comparisons | archive, ns | plain Rust, ns | ratio | archive, instructions | plain Rust |");
    println!("|---|---|---|---|---|---|---|");
    for length in [3, 8, 31, 64, 255, 65_536] {
        let [archive, plain] = times::best_of_runs(length, options.budget);
        let counted = ["archive", "plain"].map(|side| match collected_of_runs(side, length) {
            Some(count) => count.to_string(),
            None => "-".to_string(),
        });
        let count = length / 8 + length % 8;
        println!("| {length} | {count} | {} | {} | {:.2} | {} |", shown(archive), shown(plain), archive / plain, counted.join(" | "));
    }
}

// ---- instructions ----

/// One call that is counted, after one that is not.
fn once(call: &Once) -> std::io::Result<()> {
    match call {
        Once::Expansion(side, table, formula) => {
            let (table, formula, mut room) = (std::fs::read(table)?, std::fs::read(formula)?, Room::new());
            side.expand(&table, &formula, &mut room.cells, &mut room.text);
            measured(*side, &table, &formula, &mut room);
        }
        Once::Runs(side, length) => {
            let (a, b) = (vec![b'a'; *length], vec![b'a'; *length]);
            side.compare(&a, &b);
            std::hint::black_box(measured_runs(*side, &a, &b));
        }
    }
    Ok(())
}

/// What callgrind counts.
#[no_mangle]
#[inline(never)]
extern "Rust" fn measured(side: Side, table: &[u8], formula: &[u8], room: &mut Room) -> plain::Answer {
    side.expand(table, formula, &mut room.cells, &mut room.text)
}

/// What callgrind counts of a comparison.
#[no_mangle]
#[inline(never)]
extern "Rust" fn measured_runs(side: Side, a: &[u8], b: &[u8]) -> plain::Comparison {
    side.compare(a, b)
}

fn scratch(part: &str) -> PathBuf {
    std::env::temp_dir().join(format!("vegzump-bench-{}-{part}", std::process::id()))
}

/// The instructions of an expansion.
fn collected(side: &str, input: &Input) -> Option<u64> {
    let files = ["table", "formula"].map(scratch);
    std::fs::write(&files[0], &input.table).ok()?;
    std::fs::write(&files[1], &input.formula).ok()?;
    let counted = collected_in("measured", &["--once", side, files[0].to_str()?, files[1].to_str()?]);
    files.iter().for_each(|file| drop(std::fs::remove_file(file)));
    counted
}

/// The instructions of a comparison of two equal runs of so many bytes.
fn collected_of_runs(side: &str, length: usize) -> Option<u64> {
    collected_in("measured_runs", &["--once-runs", side, &length.to_string()])
}

/// The instructions in a function of this program, run with some words, without those of `memset`: it zeroes rooms by one instruction that is counted once for
/// each byte.
fn collected_in(function: &str, words: &[&str]) -> Option<u64> {
    let file = scratch("counts");
    let ran = Command::new("valgrind")
        .args(["--tool=callgrind", &format!("--toggle-collect={function}")])
        .arg(format!("--callgrind-out-file={}", file.display()))
        .arg(std::env::current_exe().ok()?)
        .args(words)
        .output();
    let counts = std::fs::read_to_string(&file);
    drop(std::fs::remove_file(&file));
    ran.ok()?;
    Some(own_counts(&counts.ok()?))
}

/// The sum of what callgrind counted in each function by itself, without `memset`. A line that begins with `fn=(N)` begins function N, `cfn=(N)` has it as a
/// callee, and the name stands where the number comes first; a line of numbers is a place and its count; the one behind `calls=` is what the callee took.
fn own_counts(out: &str) -> u64 {
    let (mut zeroing, mut total, mut skip, mut zeroes) = (std::collections::HashSet::new(), 0, false, false);
    for line in out.lines() {
        if let Some(function) = line.strip_prefix("fn=").or(line.strip_prefix("cfn=")) {
            let number = function.split(' ').next().unwrap_or("");
            if function.contains("memset") {
                zeroing.insert(number.to_string());
            }
            zeroes = if line.starts_with("fn=") { zeroing.contains(number) } else { zeroes };
        } else if line.starts_with("calls=") {
            skip = true;
        } else if line.starts_with(|c: char| c.is_ascii_digit() || c == '+' || c == '-' || c == '*') {
            let count: u64 = line.split(' ').nth(1).and_then(|n| n.parse().ok()).unwrap_or(0);
            total += if skip || zeroes { 0 } else { count };
            skip = false;
        }
    }
    total
}

fn counts(list: &[Input]) -> bool {
    println!("| Input | archive, instructions | plain Rust, instructions | ratio |\n|---|---|---|---|");
    for input in list {
        let (Some(archive), Some(plain)) = (collected("archive", input), collected("plain", input)) else {
            println!("valgrind is not installed, or gave no count");
            return false;
        };
        println!("| {} | {archive} | {plain} | {:.2} |", input.name, archive as f64 / plain as f64);
    }
    true
}
