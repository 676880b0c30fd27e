//! The inputs that are measured: a list, and series of growing ones.

use crate::collide::{self, Hash};
use crate::tables::{self, Extra, Table, TERM, VAR};
use crate::texts;

pub struct Input {
    pub name: String,
    pub table: Vec<u8>,
    pub formula: Vec<u8>,
    /// The number of the answer: what an input is for is lost if it is refused early.
    pub number: u8,
    /// Bytes of text that are lent.
    pub text: usize,
}

/// As many bytes as the longest text has, and more.
pub const ENOUGH: usize = 1 << 21;

impl Input {
    fn new(name: impl Into<String>, table: Vec<u8>, formula: impl Into<Vec<u8>>) -> Input {
        Input { name: name.into(), table, formula: formula.into(), number: 0, text: ENOUGH }
    }
}

fn parentheses(count: usize) -> String {
    format!("{}q{}", "(".repeat(count), ")".repeat(count))
}

fn record(fields: usize) -> String {
    let fields: String = (0..fields).map(|n| format!("f{n}=x ")).collect();
    format!("{{{fields}}}")
}

fn different(count: usize) -> String {
    (0..count).map(|n| format!("w{n} ")).collect()
}

fn twice(count: usize) -> String {
    "twice ".repeat(count) + "q"
}

/// Functions of fresh names in each other: 48 an `x`, one a `y`, and one outermost.
fn functions(count: usize) -> String {
    format!("w {}{}", "x ".repeat((count - 1) / 48), "y ".repeat((count - 1) % 48))
}

/// So many variables of the outermost of so many binders.
fn outermost(variables: usize, binders: usize) -> String {
    format!("w {}{}", "v ".repeat(variables / 8), "x ".repeat(binders / 48))
}

pub const WORDS: usize = 4_092;

/// The inputs of the list. `multiplier` is that of the polynomial hash for which words are made that collide.
pub fn list(multiplier: u32) -> Vec<Input> {
    let house = tables::house(&[]);
    let words = tables::words(&[], &[]);
    let colliding = |hash: Hash| collide::words(hash, WORDS).join(" ");
    let all_spellings = tables::words(&tables::spellings("key", 62), &tables::spellings("name", 64));
    let long_words: String = (0..2_035).map(|n| format!("{}{n:04} ", "w".repeat(27))).collect();
    let long_spellings = tables::words(&tables::long_spellings("k", 62), &tables::long_spellings("k", 126)[62..]);
    let long_names = tables::long_spellings("n", 64);
    let of_long_names: String = (0..2_035).map(|n| format!("{} ", long_names[n % 64])).collect();
    let given_back = tables::long_spellings("k", 62);
    let of_given_back: String = (0..2_035).map(|n| format!("{} ", given_back[n % 62])).collect();
    let mut list = vec![
        Input::new("`peter`, house table", house.clone(), "peter"),
        Input::new("`(T(fun(T)T(true)))*x`", tables::house(&[Extra::Compose, Extra::True]), "(T(fun(T)T(true)))*x"),
        Input::new("511 parentheses", house.clone(), parentheses(511)),
        Input::new("1,022 `.a`", house.clone(), "q".to_string() + &".a".repeat(1_022)),
        Input::new("record of 1,000 fields", house, record(1_000)),
        Input::new("64 nonterminals of 4 alternatives, 4,092 tokens", tables::fours(64), tables::fours_formula(64, 1_023)),
        Input::new("15.9 KB of table, 9 tokens", tables::large(62, 6, Some(15_900)), "a key0 b key3 c key6 d key9 e"),
        Input::new("4,092 different words", words.clone(), different(WORDS)),
        Input::new("2,035 words of 31 bytes, one beginning", words.clone(), long_words),
        Input::new("4,092 different words, 126 keywords and names in the table", all_spellings, different(WORDS)),
        Input::new("126 keywords and names of 31 bytes, one beginning", long_spellings, ""),
        Input::new("64 outside names of 31 bytes, one beginning, 2,035 times", tables::words(&[], &long_names), of_long_names),
        Input::new("62 keywords of 31 bytes given back, 2,035 times", tables::words(&given_back, &[]), of_given_back),
        Input::new(format!("4,092 words of one hash, h·{multiplier} + b"), words.clone(), colliding(Hash::Polynomial { multiplier })),
        Input::new("4,092 words of one tree of the scanner", words, colliding(Hash::Folded)),
        Input::new("65,535 calls, 256 productions", tables::levels(16, 240, 0), ""),
        Input::new("32,767 calls, half of 63 alternatives", tables::levels(15, 0, 62), ""),
        Input::new("chain of 64 nullable nonterminals", tables::chain(64, true), ""),
        Input::new("the same, called downward", tables::chain(64, false), ""),
        Input::new("64 nonterminals of 12 nullable calls", tables::dense(64), ""),
        Input::new("16,383 nested functions of fresh names", tables::nested(), functions(16_383)),
        Input::new("4,096 variables of the outermost of 8,160 binders", tables::nested(), outermost(4_096, 8_160)),
        Input::new("16,254 nested binders of an outside name's spelling", tables::nested(), "T ".to_string() + &"c ".repeat(126)),
        Input::new("13 `twice`", tables::house(&[Extra::Twice]), twice(13)),
        Input { number: 22, ..Input::new("500 `twice`, refused with 22", tables::house(&[Extra::Twice]), twice(500)) },
    ];
    if plain::PRESENT >= plain::TEXTS {
        list.extend([
            Input::new("`x*y`, the house with two texts", texts::house_with_texts(), "x*y"),
            Input::new("a text of 16,383 constructors by sharing, used once", texts::shared(13), "big"),
        ]);
    }
    list
}

/// Inputs of one, two, four and eight times a size.
pub struct Series {
    pub name: &'static str,
    pub inputs: [(usize, Input); 4],
}

fn series(name: &'static str, sizes: [usize; 4], input: impl Fn(usize) -> (Vec<u8>, String)) -> Series {
    let inputs = sizes.map(|size| {
        let (table, formula) = input(size);
        (size, Input::new(format!("{name}: {size}"), table, formula))
    });
    Series { name, inputs }
}

impl Series {
    /// The same inputs with so much text lent, and the number that they are answered with.
    fn answered(mut self, number: u8, text: usize) -> Series {
        self.inputs.iter_mut().for_each(|(_, input)| (input.number, input.text) = (number, text));
        self
    }
}

/// Records of numbers.
pub fn numbers() -> Series {
    series("portions of so many numbers", [125, 250, 500, 1_000], |size| {
        let fields: String = (0..size).map(|n| format!("l{n}={n} ")).collect();
        (tables::house(&[]), format!("{{{fields}}}"))
    })
}

/// One series for each thing that an input can have more of, and for each shape that an enemy could try.
pub fn growth(multiplier: u32) -> Vec<Series> {
    let of_one_hash = collide::words(Hash::Polynomial { multiplier }, WORDS);
    let of_one_tree = collide::words(Hash::Folded, WORDS);
    let of_one_fold = collide::words(Hash::FoldedWhole, 3_850);
    let halves = |size: usize| (tables::long_spellings("k", size / 2), tables::long_spellings("n", size - size / 2));
    let mut all = vec![
        series("table bytes", [2_040, 4_080, 8_160, 16_320], |size| {
            (tables::large(4, 1, Some(size)), "a key0 b".to_string())
        }),
        series("names of the table", [15, 31, 62, 124], |size| {
            let (keywords, names) = halves(size);
            (tables::words(&keywords, &names), String::new())
        }),
        series("names of the table, 1,023 words", [15, 31, 62, 124], |size| {
            let (keywords, names) = halves(size);
            (tables::words(&keywords, &names), different(1_023))
        }),
        series("tokens", [511, 1_023, 2_046, 4_092], |size| {
            (tables::fours(16), tables::fours_formula(16, size / 4))
        }),
        series("different words", [506, 1_023, 2_046, 4_092], |size| (tables::words(&[], &[]), different(size))),
        series("words of one hash", [506, 1_023, 2_046, 4_092], |size| {
            (tables::words(&[], &[]), of_one_hash[..size].join(" "))
        }),
        series("words of one tree of the scanner", [506, 1_023, 2_046, 4_092], |size| {
            (tables::words(&[], &[]), of_one_tree[..size].join(" "))
        }),
        series("words of one 64-bit hash of the scanner", [473, 957, 1_925, 3_850], |size| {
            (tables::words(&[], &[]), of_one_fold[..size].join(" "))
        }),
        series("calls", [13, 14, 15, 16], |size| (tables::levels(size, 240, 0), String::new())),
        series("productions", [32, 64, 128, 256], |size| (tables::levels(2, size - 2, 0), String::new())),
        series("chain of nullable nonterminals", [8, 16, 32, 64], |size| (tables::chain(size, true), String::new())),
        series("nested functions of fresh names", [2_047, 4_095, 8_191, 16_383], |size| {
            (tables::nested(), functions(size))
        }),
        series("variables of the outermost binder, 2 binders each", [512, 1_024, 2_048, 4_096], |size| {
            (tables::nested(), outermost(size, 2 * size))
        }),
        series("nested binders of an outside name's spelling", [2_064, 4_128, 8_256, 16_254], |size| {
            (tables::nested(), "T ".to_string() + &"c ".repeat(size / 129))
        }),
        series("constructors, shared parts", [10, 11, 12, 13], |size| (tables::house(&[Extra::Twice]), twice(size))),
        series("constructors, a record", [125, 250, 500, 1_000], |size| (tables::house(&[]), record(size))),
        series("alternatives that clash, refused with 13", [32, 64, 128, 255], |size| (tables::clashing(size), String::new())).answered(13, ENOUGH),
        series("calls of the last production", [12, 13, 14, 15], |size| (tables::levels(size, 178, 62), String::new())),
        series("calls with 12 locals each", [12, 13, 14, 15], |size| (tables::locals(size), String::new())),
        series("shared parts, nothing of the text fits", [10, 11, 12, 13], |size| (tables::house(&[Extra::Twice]), twice(size))).answered(24, 0),
        series("functions of fresh names, nothing of the text fits", [2_047, 4_095, 8_191, 16_383], |size| (tables::nested(), functions(size)))
            .answered(24, 0),
        series("zeros before a digit", [8_125, 16_250, 32_500, 65_000], |size| (tables::house(&[]), "0".repeat(size) + "1")),
        series("blanks", [8_125, 16_250, 32_500, 65_000], |size| (tables::house(&[]), " ".repeat(size) + "q")),
    ];
    if plain::PRESENT >= plain::TEXTS {
        all.extend([
            series("texts", [30, 60, 120, 240], |size| (texts::many(size), "k0 q".to_string())),
            series("tokens of a text", [506, 1_023, 2_046, 4_092], |size| (texts::of_words(size), "t".to_string())),
            series("rows of a text", [2_002, 4_002, 8_002, 16_002], |size| (texts::of_rows(size / 40), "t".to_string())),
        ]);
    }
    all
}

/// How many kinds of input near a limit there are.
pub const LIMITS: usize = 16;

/// An input near a limit, by its kind and two numbers that are drawn.
pub fn near_a_limit(kind: usize, size: usize, other: usize) -> (Vec<u8>, String) {
    let empty_record = |table: Table| table.alternative().result(&[0x23, 0x25]);
    match kind {
        0 => (tables::house(&[]), parentheses(505 + size % 12)),
        1 => (tables::house(&[]), "q".to_string() + &".a".repeat(1_016 + size % 12)),
        2 => (tables::house(&[]), record(1_014 + size % 12)),
        3 => (tables::house(&[Extra::Compose, Extra::Twice]), twice(9 + size % 7) + "*x"),
        4 => (tables::levels(13 + size % 5, other % 241, size % 63), String::new()),
        5 => (tables::words(&[], &[]), different(4_080 + size % 24)),
        6 => (tables::fours(1 + other % 64), tables::fours_formula(1 + other % 64, 1_016 + size % 12)),
        7 => (tables::nested(), functions(16_330 + size % 100)),
        8 => (tables::nested(), outermost(8 * (size % 700), 48 * (other % 300))),
        9 => (tables::nested(), "T ".to_string() + &"c ".repeat(size % 140) + &"v ".repeat(other % 200)),
        10 => (tables::large(1 + size % 62, other % 8, None), "a key0 b key3 c".to_string()),
        11 => (tables::house(&[]), " ".repeat(65_530 + size % 10) + "q"),
        12 => {
            let (keywords, names) = (tables::spellings("k", 59 + size % 5), tables::spellings("n", 61 + other % 5));
            (empty_record(Table::new().keywords(keywords).names(names).block().add(0, TERM, &[])).root(0), "n1 k1".to_string())
        }
        13 => {
            let table = empty_record(Table::new().block().add(0, TERM, &[]));
            (table.times(13 + size % 4, |table, _| table.block()).root(0), String::new())
        }
        14 => (tables::levels(2, 250 + size % 8, 0), String::new()),
        _ => {
            let count = 10 + size % 4;
            let table = Table::new().block().add(0, TERM, &[]).alternative().times(count, |table, _| table.ide(VAR));
            (table.result(&[0x20, (other % 14) as u8]).root(0), different(count))
        }
    }
}
