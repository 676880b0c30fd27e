//! Tables with pattern places and with results as texts (document 02, C-14), drawn: blocks behind those of a table that passes. Most texts are derived from the
//! blocks before them, with the variables of their alternatives; some are damaged, and some are near a limit.

use crate::draw::{damage_bytes, grammar, join, places, Draws, Grammar, Item, Signature};
use crate::tables::*;

/// A table made of one that is given: mostly with blocks that have texts.
pub fn with_texts(draws: &mut Draws, table: Vec<u8>) -> Vec<u8> {
    if draws.below(150) == 0 {
        return near_a_limit(draws);
    }
    if draws.percent(30) {
        return table;
    }
    let Some(mut book) = Book::of(draws, &table) else { return table };
    if book.draws.percent(80) {
        book.block(Draw::Patterns);
    }
    for _ in 0..1 + book.draws.below(3) {
        book.block(Draw::Texts);
    }
    book.whole()
}

/// How many of the fields 09 a table has.
pub fn count(table: &[u8]) -> usize {
    places(table).iter().filter(|&&(from, _)| table[from] == 9).count()
}

/// The table with each text's template in its place, if all of them can be written: none is a Unit that was read, and the table is not too long.
pub fn as_given(table: &[u8]) -> Option<Vec<u8>> {
    let templates = plain::PRESENT.templates(table).ok()?;
    let mut given = Table::new();
    let mut next = templates.iter();
    for (from, to) in places(table) {
        given = match table[from] {
            9 => given.field(7, &next.next()?.1),
            tag => given.field(tag, &table[from + 3..to]),
        };
    }
    let is_written = templates.iter().all(|(_, template)| template.len() < 1 << 16) && given.bytes.len() <= 16_384;
    (is_written && plain::PRESENT.check(&given.bytes).number == 0).then_some(given.bytes)
}

// ---- blocks ----

/// What a block is drawn for.
#[derive(Clone, Copy, PartialEq, Eq)]
enum Draw {
    /// Alternatives that open with a pattern place.
    Patterns,
    /// Alternatives whose results are texts.
    Texts,
}

const KEYWORDS: [&[u8]; 8] = [b"let", b"in", b"with", b"of", b";", b"!", b"$", b"?"];
const NAMES: [&[u8]; 3] = [b"x", b"T", b"salt"];
const SORTS: [u8; 10] = [TERM, TERM, TERM, TERM, FIELDS, VAR, BINDER, LABEL, NUM, UNIT];

/// A table under construction: its fields up to the root, the root, and the keywords that no alternative of its own has yet.
struct Book<'a> {
    draws: &'a mut Draws,
    table: Table,
    root: usize,
    new: Vec<usize>,
}

/// A list with more behind it, those that it has not, up to a count.
fn more(of: Vec<&[u8]>, others: &[&'static [u8]], most: usize) -> Vec<Vec<u8>> {
    let new = others.iter().filter(|other| !of.contains(other)).copied();
    of.iter().copied().chain(new).take(most.max(of.len())).map(<[u8]>::to_vec).collect()
}

impl<'a> Book<'a> {
    /// A whole table with a few keywords and outside names more.
    fn of(draws: &'a mut Draws, table: &[u8]) -> Option<Book<'a>> {
        let fields = places(table);
        let value = |&(from, to): &(usize, usize)| &table[from + 3..to];
        let tagged = |tag: u8| fields.iter().filter(move |&&(from, _)| table[from] == tag).map(value).collect::<Vec<_>>();
        let root = *tagged(8).first()?.first()?;
        let first_new = tagged(1).len();
        let (keywords, names) = (more(tagged(1), &KEYWORDS, 62), more(tagged(2), &NAMES, 64));
        let new = (first_new..keywords.len()).collect();
        let mut made = keywords.iter().fold(Table::new(), |table, keyword| table.field(1, keyword));
        made = names.iter().fold(made, |table, name| table.field(2, name));
        for field in fields.iter().filter(|&&(from, _)| !matches!(table[from], 1 | 2 | 8)) {
            made = made.field(table[field.0], value(field));
        }
        Some(Book { draws, table: made, root: root.into(), new })
    }

    fn whole(self) -> Vec<u8> {
        self.table.root(self.root)
    }

    fn put(&mut self, step: impl FnOnce(Table) -> Table) {
        self.table = step(std::mem::take(&mut self.table));
    }

    /// One block more, if the table passes up to here.
    fn block(&mut self, draw: Draw) {
        let Some(before) = grammar(&self.table.clone().root(self.root)) else { return };
        self.put(Table::block);
        let mut defined = Vec::new();
        for _ in 0..1 + self.draws.below(3) {
            let (nonterminal, mode, signature) = self.head(&before, draw);
            if defined.contains(&nonterminal) || draw == Draw::Texts && self.new.is_empty() && self.draws.percent(95) {
                continue;
            }
            defined.push(nonterminal);
            self.put(|table| table.definition(nonterminal, mode, signature.result, &signature.parameters));
            match draw {
                Draw::Patterns => self.pattern(&signature),
                Draw::Texts => self.with_text(&before, &signature),
            }
            if self.draws.percent(10) {
                self.with_text(&before, &signature);
            }
        }
    }

    /// A nonterminal, the mode of its definition and its signature: mostly one that there is.
    fn head(&mut self, before: &Grammar, draw: Draw) -> (usize, u8, Signature) {
        let there: Vec<usize> = (0..64).filter(|&n| before.signatures[n].is_some()).collect();
        let nonterminal = self.draws.one(&there);
        match &before.signatures[nonterminal] {
            Some(signature) if draw == Draw::Patterns || self.draws.percent(75) => {
                (nonterminal, if self.draws.percent(10) { 2 } else { 1 }, signature.clone())
            }
            _ => {
                let count = self.draws.one(&[0, 0, 0, 1, 2]);
                let parameters = (0..count).map(|_| self.draws.one(&SORTS)).collect();
                (self.draws.below(64), 0, Signature { result: self.draws.one(&SORTS), parameters })
            }
        }
    }

    /// An alternative that opens with a pattern place, mostly of the nonterminal's own sort.
    fn pattern(&mut self, signature: &Signature) {
        let sort = if self.draws.percent(85) { signature.result } else { self.draws.below(7) as u8 };
        let mut variables = signature.parameters.clone();
        self.put(Table::alternative);
        self.place(&mut variables, sort);
        if self.draws.percent(15) {
            self.item(&mut variables, None);
        }
        self.supply(&mut variables, signature.result);
        let template = self.template(&variables, signature.result);
        self.put(|table| table.result(&template));
    }

    /// An alternative that opens with a new keyword, if there is one left, and whose result is a text.
    fn with_text(&mut self, before: &Grammar, signature: &Signature) {
        let mut variables = signature.parameters.clone();
        self.put(Table::alternative);
        if !self.new.is_empty() && self.draws.percent(95) {
            let keyword = self.new.swap_remove(self.draws.below(self.new.len()));
            variables.push(UNIT);
            self.put(|table| table.keyword(keyword));
        }
        for _ in 0..self.draws.below(6) {
            self.item(&mut variables, Some(before));
        }
        self.supply(&mut variables, signature.result);
        match self.text(before, &variables, signature.result) {
            Some((nonterminal, text)) => self.put(|table| table.text(nonterminal, &text)),
            None => {
                let template = self.template(&variables, signature.result);
                self.put(|table| table.result(&template));
            }
        }
    }

    fn place(&mut self, variables: &mut Vec<u8>, sort: u8) {
        variables.push(sort);
        self.put(|table| table.place(sort));
    }

    /// Any item; a call only of nonterminals without parameters.
    fn item(&mut self, variables: &mut Vec<u8>, before: Option<&Grammar>) {
        let called = before.and_then(|before| before.drawn(self.draws, |signature| signature.parameters.is_empty()));
        match (self.draws.below(12), called) {
            (0 | 1, _) => {
                let sort = 1 + self.draws.below(3) as u8;
                variables.push(sort);
                self.put(|table| table.ide(sort));
            }
            (2, _) => {
                variables.push(NUM);
                self.put(Table::number);
            }
            (3, _) => {
                variables.push(BINDER);
                self.put(Table::local);
            }
            (4, _) => {
                let sort = self.draws.below(7) as u8;
                self.place(variables, sort);
            }
            (_, Some((called, signature))) => {
                variables.push(signature.result);
                self.put(|table| table.call(called, &[]));
            }
            _ => {}
        }
    }

    /// An item that gives the sort, where neither a variable nor a template does.
    fn supply(&mut self, variables: &mut Vec<u8>, sort: u8) {
        if variables.iter().any(|&given| fits(given, sort)) {
            return;
        }
        match sort {
            BINDER => self.put(Table::local),
            NUM => self.put(Table::number),
            UNIT => self.put(|table| table.keyword(0)),
            _ => return,
        }
        variables.push(sort);
    }

    /// A simple template of a sort; a wrong one if there is none.
    fn template(&mut self, variables: &[u8], sort: u8) -> Vec<u8> {
        let fitting: Vec<u8> = (0..variables.len()).filter(|&v| fits(variables[v], sort)).map(|v| v as u8).collect();
        match sort {
            _ if !fitting.is_empty() && self.draws.percent(90) => vec![self.draws.one(&fitting)],
            TERM => vec![0x23, 0x25],
            FIELDS => vec![0x25],
            VAR => vec![0x10, 0],
            LABEL => vec![0x11, 0],
            _ => vec![fitting.first().copied().unwrap_or(0)],
        }
    }

    /// A nonterminal and a text that can be derived from it, now and then damaged; none if no nonterminal gives the sort.
    fn text(&mut self, before: &Grammar, variables: &[u8], sort: u8) -> Option<(usize, Vec<u8>)> {
        let writer = Writer::new(before, variables);
        let fitting = |n: &usize| matches!(&before.signatures[*n], Some(signature) if signature.parameters.is_empty() && fits(signature.result, sort));
        let readable: Vec<usize> = (0..64).filter(|n| fitting(n) && writer.heights[*n] < usize::MAX).collect();
        let nonterminal = match readable.is_empty() {
            false if self.draws.percent(96) => self.draws.one(&readable),
            true if self.draws.percent(80) => return None,
            _ if self.draws.percent(20) => self.draws.below(64),
            _ => before.drawn(self.draws, |_| true)?.0,
        };
        let enough = self.draws.one(&[2, 4, 4, 8, 8, 20, 60]);
        let mut tokens = Vec::new();
        writer.derive(self.draws, nonterminal, enough, 0, &mut tokens);
        let mut text = join(self.draws, &tokens);
        if self.draws.percent(12) {
            damage_text(self.draws, &mut text);
        }
        text.truncate(4_000);
        Some((nonterminal, text))
    }
}

fn fits(given: u8, asked: u8) -> bool {
    given == asked || given == BINDER && asked == VAR
}

// ---- texts ----

/// Writes texts with the variables of an alternative.
struct Writer<'a> {
    grammar: &'a Grammar,
    variables: &'a [u8],
    /// How deep the calls of the shallowest text of each nonterminal are.
    heights: Vec<usize>,
}

impl Writer<'_> {
    fn new<'a>(grammar: &'a Grammar, variables: &'a [u8]) -> Writer<'a> {
        let mut writer = Writer { grammar, variables, heights: vec![usize::MAX; 64] };
        for _ in 0..8 {
            for n in 0..64 {
                let least = grammar.alternatives[n].iter().map(|alternative| writer.height(alternative)).min();
                writer.heights[n] = least.unwrap_or(usize::MAX);
            }
        }
        writer
    }

    fn height(&self, alternative: &[Item]) -> usize {
        let heights = alternative.iter().map(|item| match *item {
            Item::Keyword(_) => 0,
            Item::Call(called) => self.heights[called].saturating_add(1),
            Item::Number | Item::Local => usize::MAX,
            Item::Ide(BINDER) if !self.variables.contains(&BINDER) => 1_000,
            Item::Place(sort) if !self.variables.contains(&sort) => usize::MAX,
            Item::Ide(_) | Item::Place(_) => 0,
        });
        heights.max().unwrap_or(0)
    }

    /// Derives from a nonterminal, mostly by alternatives that a text can have; the shallowest way once there is enough.
    fn derive(&self, draws: &mut Draws, nonterminal: usize, enough: usize, open: usize, tokens: &mut Vec<Vec<u8>>) {
        let alternatives = &self.grammar.alternatives[nonterminal];
        if open > 200 || tokens.len() > 500 || alternatives.is_empty() {
            return;
        }
        let shallowest = (0..alternatives.len()).min_by_key(|&n| self.height(&alternatives[n])).unwrap_or(0);
        let drawn = draws.below(alternatives.len());
        let is_written = self.height(&alternatives[drawn]) < usize::MAX || draws.percent(2);
        let chosen = if tokens.len() >= enough || open > enough + 10 || !is_written { shallowest } else { drawn };
        for item in &alternatives[chosen] {
            match *item {
                Item::Keyword(number) => tokens.push(self.grammar.keywords[number].clone()),
                Item::Ide(sort) => tokens.push(self.name(draws, sort)),
                Item::Place(sort) => {
                    let lax = draws.percent(4);
                    tokens.push(self.variable(draws, |given| given == sort || lax && fits(given, sort)));
                }
                Item::Number => tokens.push(b"7".to_vec()),
                Item::Local => {}
                Item::Call(called) => self.derive(draws, called, enough, open + 1, tokens),
            }
        }
    }

    /// A variable that meets a test, if there is one; now and then with zeros in front.
    fn variable(&self, draws: &mut Draws, meets: impl Fn(u8) -> bool) -> Vec<u8> {
        let fitting: Vec<usize> = (0..self.variables.len()).filter(|&v| meets(self.variables[v])).collect();
        let number = if fitting.is_empty() { draws.below(self.variables.len() + 1) } else { draws.one(&fitting) };
        if draws.below(30) == 0 { format!("$00{number}") } else { format!("${number}") }.into_bytes()
    }

    /// A variable that fits, or an outside name; seldom a word that is none, or any variable.
    fn name(&self, draws: &mut Draws, sort: u8) -> Vec<u8> {
        let has_variable = self.variables.iter().any(|&given| fits(given, sort));
        let names: Vec<&Vec<u8>> = self.grammar.names.iter().collect();
        match draws.below(100) {
            0 => b"unknown".to_vec(),
            1 => self.variable(draws, |_| true),
            2..=59 if has_variable => self.variable(draws, |given| fits(given, sort)),
            60..=63 if !names.is_empty() => names[0].clone(),
            _ if sort == BINDER => self.variable(draws, |given| given == BINDER),
            _ if names.is_empty() => b"x".to_vec(),
            _ => names[draws.below(names.len())].clone(),
        }
    }
}

fn damage_text(draws: &mut Draws, text: &mut Vec<u8>) {
    let at = draws.below(text.len() + 1);
    let part: &[u8] = match draws.below(11) {
        0 => b" 5 ",
        1 => b" unknown ",
        2 => b" $16 ",
        3 => b"\x07 $77777777777777777777777",
        4 => b" x ",
        5 => b" $0",
        6 => return text.truncate(at),
        7 => b" $",
        8 => draws.one(&[b" $4294967296" as &[u8], b" $18446744073709551616"]),
        _ => return damage_bytes(draws, text),
    };
    text.splice(at..at, part.iter().copied());
}

// ---- inputs that are measured ----

/// The fields of a table between its keywords and outside names and its root, which has one byte.
fn body(table: &[u8]) -> &[u8] {
    let from = places(table).iter().map(|&(from, _)| from).find(|&from| table[from] > 2);
    &table[from.unwrap_or(0)..table.len() - 4]
}

/// A table's body with other keywords and outside names, those that it has first.
fn with_words(table: &[u8], keywords: &[&str], names: &[&str]) -> Table {
    let mut made = Table::new().keywords(keywords).names(names);
    made.bytes.extend_from_slice(body(table));
    made
}

const SIMPLE: usize = 0;
const WHOLE: usize = 2;
const ITER: usize = 3;

/// The house with `*` and `let`, whose results are texts (examples/compose.grammar and let.grammar have them as templates).
pub fn house_with_texts() -> Vec<u8> {
    let composed = 4;
    with_words(&house(&[]), &["(", ")", "fun", "{", "}", "=", ".", "*", "let", "in"], &[])
        .block()
        .definition(SIMPLE, 1, TERM, &[])
        .alternative()
        .place(TERM)
        .result(&[0])
        .block()
        .definition(SIMPLE, 1, TERM, &[])
        .alternative()
        .keyword(8)
        .ide(BINDER)
        .keyword(5)
        .call(WHOLE, &[])
        .keyword(9)
        .call(WHOLE, &[])
        .text(WHOLE, b"(fun($1) $5)($3)")
        .add(composed, TERM, &[TERM, TERM])
        .alternative()
        .local()
        .text(WHOLE, b"fun($2) $0($1($2))")
        .definition(ITER, 1, TERM, &[TERM])
        .alternative()
        .keyword(7)
        .call(WHOLE, &[])
        .call(composed, &[0, 2])
        .call(ITER, &[3])
        .result(&[4])
        .root(WHOLE)
}

/// The house with a phrase `big` of a variable in so many `twice`.
pub fn shared(count: usize) -> Vec<u8> {
    with_words(&house(&[Extra::Twice]), &["(", ")", "fun", "{", "}", "=", ".", "twice", "big"], &["x"])
        .block()
        .definition(SIMPLE, 1, TERM, &[])
        .alternative()
        .keyword(8)
        .text(WHOLE, ("twice ".repeat(count) + "x").as_bytes())
        .root(WHOLE)
}

/// So many texts, four a nonterminal.
pub fn many(count: usize) -> Vec<u8> {
    let first = Table::new().keywords(spellings("k", 4)).block().add(0, TERM, &[]).alternative().ide(VAR).result(&[0x20, 0]);
    let alternative = |table: Table, n: usize| {
        let table = if n.is_multiple_of(4) { table.add(1 + n / 4, TERM, &[]) } else { table };
        table.alternative().keyword(n % 4).ide(VAR).text(0, b"$1")
    };
    first.block().times(count, alternative).root(1)
}

/// A phrase `t` behind a block, with a text that is read as nonterminal 0.
fn one_text(table: &[u8], keywords: &[&str], text: &str) -> Vec<u8> {
    let table = with_words(table, keywords, &["x"]).block().add(1, TERM, &[]).alternative();
    table.keyword(keywords.len() - 1).text(0, text.as_bytes()).root(1)
}

/// A text of so many words, a multiple of eleven.
pub fn of_words(count: usize) -> Vec<u8> {
    one_text(&words(&[], &[]), &["t"], &"x ".repeat(count))
}

/// A text that makes forty rows so many times, and two.
pub fn of_rows(count: usize) -> Vec<u8> {
    one_text(&forties(), &["m", "t"], &"m ".repeat(count))
}

// ---- limits ----

/// A table whose texts are near a limit of 26: constructors, open calls, tokens, rows of all texts, calls.
fn near_a_limit(draws: &mut Draws) -> Vec<u8> {
    let size = draws.below(10_000);
    let repeated = |part: &str, count: usize| part.repeat(count).into_bytes();
    match draws.below(5) {
        0 => texts(draws, &house(&[Extra::Twice]), 2, &[[repeated("twice ", 12 + size % 4), b"x".to_vec()].concat()]),
        1 => {
            let count = 508 + size % 7;
            texts(draws, &house(&[]), 2, &[[repeated("(", count), b"x".to_vec(), repeated(")", count)].concat()])
        }
        2 => texts(draws, &words(&[], &[]), 0, &[repeated("x ", 4_089 + size % 10)]),
        3 => {
            let mut all = vec![repeated("m ", 200), repeated("m ", 208 + size % 4)];
            all.resize(2 + size / 4 % 14, Vec::new());
            texts(draws, &forties(), 0, &all)
        }
        _ => texts(draws, &doubled(14 + size % 4), 0, &[Vec::new()]),
    }
}

/// A table with a block more that adds a nonterminal for each text, and extends the root by them.
fn texts(draws: &mut Draws, table: &[u8], nonterminal: usize, texts: &[Vec<u8>]) -> Vec<u8> {
    let Some(mut book) = Book::of(draws, table) else { return table.to_vec() };
    book.put(Table::block);
    for (number, text) in (30..).zip(texts) {
        book.put(|table| table.add(number, TERM, &[]).alternative().text(nonterminal, text));
    }
    let (root, parameters, new) = (book.root, Vec::new(), book.new.clone());
    book.put(|table| table.definition(root, 1, TERM, &parameters));
    for (number, keyword) in (30..30 + texts.len()).zip(new) {
        book.put(|table| table.alternative().keyword(keyword).call(number, &[]).result(&[1]));
    }
    book.whole()
}

/// Forty cells for each keyword `m`, two at the end.
fn forties() -> Vec<u8> {
    let template: Vec<u8> = [0x22; 20].into_iter().chain([1]).chain([0x20, 0x10, 0].repeat(20)).collect();
    let table = Table::new().keywords(["m"]).names(["T"]).block().add(0, TERM, &[]);
    table.alternative().keyword(0).call(0, &[]).result(&template).alternative().result(&[0x23, 0x25]).root(0)
}

/// So many nonterminals, each calling the next twice with nothing read.
fn doubled(count: usize) -> Vec<u8> {
    let last = |table: Table| table.result(&[0x20, 0x10, 0]);
    let table = Table::new().names(["T"]).block();
    let of = |table: Table, n: usize| {
        let table = table.add(n, TERM, &[]).alternative();
        if n + 1 < count { table.call(n + 1, &[]).call(n + 1, &[]).result(&[1]) } else { last(table) }
    };
    table.times(count, of).root(0)
}
