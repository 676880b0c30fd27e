//! Phrase tables, written field by field, and those that the inputs use.

pub const UNIT: u8 = 0;
pub const VAR: u8 = 1;
pub const BINDER: u8 = 2;
pub const LABEL: u8 = 3;
pub const TERM: u8 = 4;
pub const FIELDS: u8 = 5;
pub const NUM: u8 = 6;

/// A table under construction. The methods append a field each and can be chained.
#[derive(Clone, Default)]
pub struct Table {
    pub bytes: Vec<u8>,
}

impl Table {
    pub fn new() -> Table {
        Table::default()
    }
    pub fn field(mut self, tag: u8, value: &[u8]) -> Table {
        self.bytes.push(tag);
        self.bytes.extend_from_slice(&(value.len() as u16).to_be_bytes());
        self.bytes.extend_from_slice(value);
        self
    }
    pub fn keywords<T: AsRef<str>>(self, spellings: impl IntoIterator<Item = T>) -> Table {
        spellings.into_iter().fold(self, |table, spelling| table.field(1, spelling.as_ref().as_bytes()))
    }
    pub fn names<T: AsRef<str>>(self, spellings: impl IntoIterator<Item = T>) -> Table {
        spellings.into_iter().fold(self, |table, spelling| table.field(2, spelling.as_ref().as_bytes()))
    }
    pub fn block(self) -> Table {
        self.field(3, &[])
    }
    pub fn add(self, nonterminal: usize, result: u8, parameters: &[u8]) -> Table {
        self.definition(nonterminal, 0, result, parameters)
    }
    pub fn definition(self, nonterminal: usize, mode: u8, result: u8, parameters: &[u8]) -> Table {
        let mut value = vec![nonterminal as u8, mode, result];
        value.extend_from_slice(parameters);
        self.field(4, &value)
    }
    pub fn alternative(self) -> Table {
        self.field(5, &[])
    }
    pub fn keyword(self, number: usize) -> Table {
        self.field(6, &[0, number as u8])
    }
    pub fn ide(self, sort: u8) -> Table {
        self.field(6, &[1, sort])
    }
    pub fn number(self) -> Table {
        self.field(6, &[2, 0])
    }
    pub fn local(self) -> Table {
        self.field(6, &[3, 0])
    }
    pub fn call(self, nonterminal: usize, arguments: &[u8]) -> Table {
        let mut value = vec![4, nonterminal as u8];
        value.extend_from_slice(arguments);
        self.field(6, &value)
    }
    pub fn place(self, sort: u8) -> Table {
        self.field(6, &[5, sort])
    }
    pub fn result(self, template: &[u8]) -> Table {
        self.field(7, template)
    }
    pub fn text(self, nonterminal: usize, text: &[u8]) -> Table {
        self.field(9, &[&[nonterminal as u8], text].concat())
    }
    pub fn root(self, nonterminal: usize) -> Vec<u8> {
        self.field(8, &[nonterminal as u8]).bytes
    }
    pub fn times(self, count: usize, part: impl Fn(Table, usize) -> Table) -> Table {
        (0..count).fold(self, part)
    }
}

const SIMPLE: usize = 0;
const FIELD_LIST: usize = 1;
const WHOLE: usize = 2;
const ITER: usize = 3;

/// The blocks that document 01 uses with the house table.
#[derive(Clone, Copy, PartialEq, Eq)]
pub enum Extra {
    Compose,
    True,
    Twice,
}

/// The house table with these blocks: Figure 2 of 001 without pIde, plus a number alternative.
pub fn house(extras: &[Extra]) -> Vec<u8> {
    let words = extras.iter().map(|extra| match extra {
        Extra::Compose => "*",
        Extra::True => "true",
        Extra::Twice => "twice",
    });
    let mut table = Table::new().keywords(["(", ")", "fun", "{", "}", "=", "."].into_iter().chain(words));
    if extras.contains(&Extra::True) {
        table = table.names(["T"]);
    }
    table = table.block();
    table = table.add(SIMPLE, TERM, &[]);
    table = table.alternative().ide(VAR).result(&[0x20, 0]);
    table = table.alternative().keyword(0).call(WHOLE, &[]).keyword(1).result(&[1]);
    table = table.alternative().keyword(2).keyword(0).ide(BINDER).keyword(1).call(WHOLE, &[]).result(&[0x21, 2, 4]);
    table = table.alternative().keyword(3).call(FIELD_LIST, &[]).keyword(4).result(&[0x23, 1]);
    table = table.alternative().number().result(&[0x27, 0]);
    table = table.add(FIELD_LIST, FIELDS, &[]);
    table = table.alternative().ide(LABEL).keyword(5).call(WHOLE, &[]).call(FIELD_LIST, &[]).result(&[0x26, 0, 2, 3]);
    table = table.alternative().result(&[0x25]);
    table = table.add(WHOLE, TERM, &[]);
    table = table.alternative().call(SIMPLE, &[]).call(ITER, &[0]).result(&[1]);
    table = table.add(ITER, TERM, &[TERM]);
    table = table.alternative().keyword(0).call(WHOLE, &[]).keyword(1).call(ITER, &[0x22, 0, 2]).result(&[4]);
    table = table.alternative().keyword(6).ide(LABEL).call(ITER, &[0x24, 0, 2]).result(&[3]);
    table = table.alternative().result(&[0]);
    for (number, extra) in (7..).zip(extras) {
        table = table.block();
        table = match extra {
            Extra::Compose => table
                .definition(ITER, 1, TERM, &[TERM])
                .alternative()
                .keyword(number)
                .call(WHOLE, &[])
                .local()
                .call(ITER, &[0x21, 3, 0x22, 0, 0x22, 2, 0x20, 3])
                .result(&[4]),
            Extra::True => table.definition(SIMPLE, 1, TERM, &[]).alternative().keyword(number).result(&[0x20, 0x10, 0]),
            Extra::Twice => {
                table.definition(SIMPLE, 1, TERM, &[]).alternative().keyword(number).call(WHOLE, &[]).result(&[0x22, 1, 1])
            }
        };
    }
    table.root(WHOLE)
}

/// Spellings of a letter and a number.
pub fn spellings(letter: &str, count: usize) -> Vec<String> {
    (0..count).map(|n| format!("{letter}{n}")).collect()
}

/// Spellings of 31 bytes that differ at the end only.
pub fn long_spellings(letter: &str, count: usize) -> Vec<String> {
    (0..count).map(|n| format!("{}{n:03}", letter.repeat(28))).collect()
}

/// Any multiple of eleven words, each a variable of one term.
pub fn words(keywords: &[String], names: &[String]) -> Vec<u8> {
    let template: Vec<u8> = (0..11).flat_map(|word| [0x22, 0x20, word]).chain([11]).collect();
    Table::new()
        .keywords(keywords)
        .names(names)
        .block()
        .add(0, TERM, &[])
        .alternative()
        .times(11, |table, _| table.ide(VAR))
        .call(0, &[])
        .result(&template)
        .alternative()
        .result(&[0x23, 0x25])
        .root(0)
}

/// `count` nonterminals of four alternatives: three read a keyword four times and call the next nonterminal, one ends.
pub fn fours(count: usize) -> Vec<u8> {
    Table::new()
        .keywords(spellings("k", 62))
        .names(["T"])
        .block()
        .times(count, |table, n| {
            table
                .add(n, TERM, &[])
                .times(3, |table, j| {
                    let keyword = (3 * n + j) % 62;
                    let table = table.alternative().times(4, |table, _| table.keyword(keyword));
                    table.call((n + 1) % count, &[]).result(&[0x22, 4, 0x20, 0x10, 0])
                })
                .alternative()
                .result(&[0x20, 0x10, 0])
        })
        .root(0)
}

/// A formula of so many calls for `fours`, four tokens each.
pub fn fours_formula(count: usize, calls: usize) -> String {
    (0..calls).map(|call| format!("k{} ", (3 * (call % count) + call % 3) % 62).repeat(4)).collect()
}

/// A table that uses everything: 62 keywords, 64 outside names, `count` nonterminals of four alternatives with a parameter, templates of `pad`
/// applications, and one more definition that makes it `length` bytes long where that is given.
pub fn large(count: usize, pad: usize, length: Option<usize>) -> Vec<u8> {
    let body = |table: Table, n: usize| {
        table
            .add(n, TERM, &[TERM])
            .times(3, |table, j| {
                let mut result = vec![0x22; pad];
                result.push(3);
                (0..pad).for_each(|i| result.extend([0x20, 0x10, (i % 64) as u8]));
                table
                    .alternative()
                    .keyword((3 * n + j) % 62)
                    .ide(VAR)
                    .call((n + 1) % count, &[0x22, 0, 0x20, 2])
                    .result(&result)
            })
            .alternative()
            .result(&[0])
    };
    let whole = |filler: usize| {
        let mut table = Table::new().keywords(spellings("key", 62)).names(spellings("name", 64)).block().times(count, body);
        if length.is_some() {
            let mut template = vec![0x22; filler / 3];
            (0..=filler / 3).for_each(|_| template.extend([0x20, 0]));
            table = table.block().definition(0, 1, TERM, &[TERM]).alternative().number().ide(VAR).result(&[0x22, 0, 0x20, 2]);
            table = table.add(63, TERM, &[]).alternative().ide(VAR).result(&template);
        }
        table.add(62, TERM, &[]).alternative().ide(VAR).call(0, &[0x20, 0]).result(&[1]).root(62)
    };
    let least = whole(0).len();
    whole(length.map_or(0, |length| length - least))
}

/// So many levels of nonterminals, each calling the next twice with nothing read, the last returning a local; before them so many other
/// productions, and so many alternatives of the last level that need a keyword.
pub fn levels(count: usize, others: usize, of_last: usize) -> Vec<u8> {
    let first = 64 - count;
    let mut table = Table::new().keywords(spellings("k", 62)).block();
    let (mut nonterminal, mut left) = (0, others);
    while left > 0 {
        let here = left.min(others.div_ceil(first));
        table = table.add(nonterminal, TERM, &[]).times(here, |table, j| {
            table.alternative().keyword((nonterminal + j) % 62).result(&[0x23, 0x25])
        });
        nonterminal += 1;
        left -= here;
    }
    for n in first..64 {
        table = table.add(n, if n == first { TERM } else { BINDER }, &[]);
        if n == 63 {
            table = table.times(of_last, |table, j| table.alternative().keyword(j).local().result(&[1]));
        }
        table = table.alternative();
        table = if n < 63 { table.call(n + 1, &[]).call(n + 1, &[]) } else { table.local() };
        table = if n == first { table.result(&[0x21, 0, 0x20, 0]) } else { table.result(&[0]) };
    }
    table.root(first)
}

/// So many alternatives of one nonterminal that begin with 31 keywords in turn, so that those from the 32nd on clash with earlier ones.
pub fn clashing(count: usize) -> Vec<u8> {
    let table = Table::new().keywords(spellings("k", 62)).block().add(0, TERM, &[]);
    table.times(count, |table, n| table.alternative().keyword(n % 31).result(&[0x23, 0x25])).root(0)
}

/// Levels of nonterminals that call the next twice, with twelve locals in the last.
pub fn locals(count: usize) -> Vec<u8> {
    let mut table = Table::new().block();
    for n in 0..count {
        table = table.add(n, if n == 0 { TERM } else { BINDER }, &[]).alternative();
        table = if n + 1 < count { table.call(n + 1, &[]).call(n + 1, &[]) } else { table.times(12, |table, _| table.local()) };
        table = if n == 0 { table.result(&[0x21, 0, 0x20, 0]) } else { table.result(&[0]) };
    }
    table.root(0)
}

/// A chain of nullable nonterminals, each calling the next (or the one before).
pub fn chain(count: usize, upward: bool) -> Vec<u8> {
    let (root, last) = if upward { (0, count - 1) } else { (count - 1, 0) };
    Table::new()
        .names(["T"])
        .block()
        .times(count, |table, n| {
            let table = table.add(n, TERM, &[]).alternative();
            if n == last {
                table.result(&[0x20, 0x10, 0])
            } else {
                table.call(if upward { n + 1 } else { n - 1 }, &[]).result(&[0])
            }
        })
        .root(root)
}

/// So many nullable nonterminals, each calling the next twelve; the root is the last, which calls none.
pub fn dense(count: usize) -> Vec<u8> {
    Table::new()
        .names(["T"])
        .block()
        .times(count, |table, n| {
            let calls = (count - 1 - n).min(12);
            table.add(n, TERM, &[]).alternative().times(calls, |table, i| table.call(n + 1 + i, &[])).result(&[0x20, 0x10, 0])
        })
        .root(count - 1)
}

/// Terms built from the inside: each `x` puts 48 functions of fresh names round what there is, `y` one, `v` eight variables of the outermost binder
/// beside it, `c` 129 functions of the word that the formula begins with.
pub fn nested() -> Vec<u8> {
    let twelve: Vec<u8> = (1..=12).flat_map(|local| [0x21, local]).chain([0]).collect();
    let variables: Vec<u8> = [0, 1].into_iter().chain([0x22; 8]).chain([2]).chain([0x20, 0].repeat(8)).collect();
    let captures: Vec<u8> = [0, 1].into_iter().chain([0x21, 1].repeat(129)).chain([2]).collect();
    const ROOT: usize = 0;
    const ROUND: usize = 1;
    const TWELVE: usize = 2;
    Table::new()
        .keywords(["x", "y", "v", "c"])
        .names(["T"])
        .block()
        // The outermost binder, fresh; the word at the beginning; the innermost part, an outside name.
        .add(ROOT, TERM, &[])
        .alternative()
        .local()
        .ide(BINDER)
        .call(ROUND, &[0, 1, 0x20, 0x10, 0])
        .result(&[0x21, 0, 2])
        .add(ROUND, TERM, &[BINDER, BINDER, TERM])
        .alternative()
        .keyword(0)
        .call(TWELVE, &[2])
        .call(TWELVE, &[4])
        .call(TWELVE, &[5])
        .call(TWELVE, &[6])
        .call(ROUND, &[0, 1, 7])
        .result(&[8])
        .alternative()
        .keyword(1)
        .local()
        .call(ROUND, &[0, 1, 0x21, 4, 2])
        .result(&[5])
        .alternative()
        .keyword(2)
        .call(ROUND, &variables)
        .result(&[4])
        .alternative()
        .keyword(3)
        .call(ROUND, &captures)
        .result(&[4])
        .alternative()
        .result(&[2])
        .add(TWELVE, TERM, &[TERM])
        .alternative()
        .times(12, |table, _| table.local())
        .result(&twelve)
        .root(ROOT)
}
