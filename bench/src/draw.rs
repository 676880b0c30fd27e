//! Inputs drawn at random: tables of the conformance cases and tables made up, whole and damaged; formulas derived from the table's grammar, whole and
//! damaged; room that is enough, just enough, too little or none.

use crate::inputs;
use crate::sides::Many;
use crate::tables::*;
use crate::texts;

/// SplitMix64: the same seed gives the same inputs everywhere.
pub struct Draws(u64);

impl Draws {
    pub fn new(seed: u64) -> Draws {
        Draws(seed)
    }
    fn next(&mut self) -> u64 {
        self.0 = self.0.wrapping_add(0x9e37_79b9_7f4a_7c15);
        let mut z = self.0;
        z = (z ^ z >> 30).wrapping_mul(0xbf58_476d_1ce4_e5b9);
        z = (z ^ z >> 27).wrapping_mul(0x94d0_49bb_1331_11eb);
        z ^ z >> 31
    }
    /// A number below a bound.
    pub fn below(&mut self, bound: usize) -> usize {
        (self.next() % bound.max(1) as u64) as usize
    }
    /// True so many times in a hundred.
    pub fn percent(&mut self, chance: usize) -> bool {
        self.below(100) < chance
    }
    pub fn one<T: Copy>(&mut self, of: &[T]) -> T {
        of[self.below(of.len())]
    }
}

pub struct Drawn {
    pub table: Vec<u8>,
    pub formula: Vec<u8>,
}

pub fn draw(draws: &mut Draws, passing: &[Vec<u8>]) -> Drawn {
    if draws.below(200) == 0 {
        let (kind, size, other) = (draws.below(inputs::LIMITS), draws.below(10_000), draws.below(10_000));
        let (table, formula) = inputs::near_a_limit(kind, size, other);
        return Drawn { table, formula: formula.into_bytes() };
    }
    let mut table = if draws.percent(60) || passing.is_empty() { made_up(draws) } else { passing[draws.below(passing.len())].clone() };
    if plain::PRESENT >= plain::TEXTS {
        table = texts::with_texts(draws, table);
    }
    let grammar = grammar(&table);
    if draws.percent(20) {
        for _ in 0..1 + draws.below(3) {
            damage_table(draws, &mut table, passing);
        }
    }
    let mut formula = formula(draws, grammar.as_ref());
    if draws.percent(10) {
        damage_bytes(draws, &mut formula);
    }
    if draws.below(2_000) == 0 {
        formula.resize(65_530 + draws.below(10), b' ');
    }
    Drawn { table, formula }
}

/// Whether a table passes and has keywords that are given back, and whether the formula has one of their spellings.
pub fn given_back(drawn: &Drawn) -> (bool, bool) {
    let Some(grammar) = grammar(&drawn.table) else { return (false, false) };
    let is_given_back = |token: &[u8]| grammar.given_back.iter().any(|keyword| keyword == token);
    (!grammar.given_back.is_empty(), split(&drawn.formula).any(is_given_back))
}

/// The words of a formula, and its other bytes one by one.
fn split(formula: &[u8]) -> impl Iterator<Item = &[u8]> {
    let mut rest = formula;
    std::iter::from_fn(move || {
        let goes_on = |byte: &u8| byte.is_ascii_alphanumeric() || *byte == b'_';
        let length = if rest.first()?.is_ascii_alphabetic() { rest.iter().position(|byte| !goes_on(byte)).unwrap_or(rest.len()) } else { 1 };
        let (token, behind) = rest.split_at(length);
        rest = behind;
        Some(token)
    })
}

/// Some formulas: a formula, parts of it, and ends that are past the bytes or before the end of another.
pub fn many(draws: &mut Draws, formula: &[u8]) -> Many {
    let formulas = formula.repeat(1 + draws.below(3));
    let ends = (1..=draws.below(7)).map(|number| match draws.below(6) {
        0 => draws.below(formulas.len() + 3),
        _ => number * formula.len(),
    });
    Many { ends: ends.collect(), formulas }
}

/// Two runs of bytes, equal or damaged: another byte or two at any place, another length, or nothing in common. Each begins anywhere in a word of memory.
pub fn runs(draws: &mut Draws) -> [Run; 2] {
    let length = match draws.below(200) {
        0 => 65_530 + draws.below(12),
        1..=9 => draws.below(600),
        10..=79 => 24 + draws.below(16),
        _ => draws.below(24),
    };
    let few = draws.percent(50);
    let bytes: Vec<u8> = (0..length).map(|_| if few { draws.one(&[0, b'a', b'b', 0xff]) } else { draws.next() as u8 }).collect();
    let mut other = bytes.clone();
    match draws.below(10) {
        0..=2 => (),
        3..=7 => (0..1 + draws.below(2)).for_each(|_| change(draws, &mut other)),
        8 => match draws.below(4) {
            0 => other.truncate(draws.below(length + 1)),
            1 => drop(other.pop()),
            2 => other.insert(draws.below(length + 1), 0),
            _ => other.extend_from_slice(&bytes),
        },
        _ => other.iter_mut().for_each(|byte| *byte = draws.next() as u8),
    }
    [bytes, other].map(|bytes| Run::new(draws.below(8), &bytes))
}

/// Another byte at some place: any, or one with one bit changed.
fn change(draws: &mut Draws, bytes: &mut [u8]) {
    let at = draws.below(bytes.len());
    if let Some(byte) = bytes.get_mut(at) {
        *byte = if draws.percent(50) { *byte ^ 1 << draws.below(8) } else { draws.next() as u8 };
    }
}

/// Bytes behind some others.
pub struct Run {
    held: Vec<u8>,
    from: usize,
}

impl Run {
    pub fn new(from: usize, bytes: &[u8]) -> Run {
        Run { held: [&vec![0xee; from], bytes].concat(), from }
    }
    pub fn bytes(&self) -> &[u8] {
        &self.held[self.from..]
    }
}

// ---- tables ----

// Some have a beginning in common: one word of eight bytes, less, or all but the last byte.
const WORDS: [&str; 19] = [
    "a", "b", "c", "x", "y", "T", "U", "if", "then", "fun", "a_1", "aA0", "protein", "abcdefgh", "abcdefgi", "abcdefgh1", "abcdefgh2",
    "abcdefghijklmnopqrstuvwxyz01234", "abcdefghijklmnopqrstuvwxyz01235",
];
const SYMBOLS: [&str; 10] = ["(", ")", "{", "}", "=", ".", "*", ",", "_", "~"];

fn some(draws: &mut Draws, from: &[&'static str], most: usize) -> Vec<&'static str> {
    let mut found: Vec<&str> = Vec::new();
    for _ in 0..draws.below(most + 1) {
        let one = draws.one(from);
        if !found.contains(&one) || draws.below(500) == 0 {
            found.push(one);
        }
    }
    found
}

#[derive(Clone)]
pub struct Signature {
    pub result: u8,
    pub parameters: Vec<u8>,
}

struct Maker<'a> {
    draws: &'a mut Draws,
    signatures: Vec<Signature>,
    names: usize,
    /// The sorts of the present alternative's variables.
    variables: Vec<u8>,
}

/// A table of a few nonterminals whose sorts are right and whose openings are often disjoint. Often some of its keywords are used nowhere, only in alternatives
/// that a later block replaces, or only by nonterminals that the root does not call.
fn made_up(draws: &mut Draws) -> Vec<u8> {
    let mut keywords = some(draws, &SYMBOLS, 8);
    keywords.extend(some(draws, &WORDS, 5));
    let names = some(draws, &WORDS, 4);
    let count = 1 + draws.below(6);
    let sorts = [TERM, TERM, TERM, TERM, TERM, FIELDS, VAR, BINDER, LABEL, NUM, UNIT];
    let mut signatures = Vec::new();
    for n in 0..count {
        let parameters = if n == 0 { 0 } else { draws.one(&[0, 0, 0, 1, 1, 2, 4]) };
        let result = if n == 0 { TERM } else { draws.one(&sorts) };
        signatures.push(Signature { result, parameters: (0..parameters).map(|_| draws.one(&sorts)).collect() });
    }
    let mut maker = Maker { names: names.len(), draws, signatures, variables: Vec::new() };
    let mut table = Table::new().keywords(&keywords).names(&names).block();
    let mut used = vec![Vec::new(); count];
    for n in 0..count {
        let signature = &maker.signatures[n];
        table = table.add(n, signature.result, &signature.parameters);
        table = maker.alternatives(table, n, keywords.len(), &mut used[n]);
    }
    while maker.draws.percent(35) {
        table = table.block();
        let n = maker.draws.below(count);
        let mode = if maker.draws.percent(4) { 0 } else { 1 + maker.draws.below(2) as u8 };
        if mode == 2 {
            used[n].clear();
        }
        let result = if maker.draws.percent(3) { maker.draws.one(&sorts) } else { maker.signatures[n].result };
        table = table.definition(n, mode, result, &maker.signatures[n].parameters);
        table = maker.alternatives(table, n, keywords.len(), &mut used[n]);
    }
    table.root(0)
}

impl Maker<'_> {
    /// One to four alternatives that open differently from those in `used` (a number for each thing that can open).
    fn alternatives(&mut self, mut table: Table, nonterminal: usize, keywords: usize, used: &mut Vec<usize>) -> Table {
        let mut made = 0;
        for _ in 0..1 + self.draws.below(4) {
            let opening = self.draws.below(keywords + 4);
            if used.contains(&opening) && !self.draws.percent(3) {
                continue;
            }
            used.push(opening);
            table = self.alternative(table, nonterminal, keywords, opening);
            made += 1;
        }
        if made == 0 {
            table = self.alternative(table, nonterminal, keywords, keywords + 3);
        }
        table
    }

    fn alternative(&mut self, mut table: Table, nonterminal: usize, keywords: usize, opening: usize) -> Table {
        self.variables = self.signatures[nonterminal].parameters.clone();
        table = table.alternative();
        let mut items = 0;
        if opening < keywords {
            (table, items) = (self.keyword(table, opening), 1);
        } else if opening == keywords {
            (table, items) = (self.ide(table), 1);
        } else if opening == keywords + 1 {
            (table, items) = (self.number(table), 1);
        } else if opening == keywords + 2 && nonterminal + 1 < self.signatures.len() {
            let called = nonterminal + 1 + self.draws.below(self.signatures.len() - nonterminal - 1);
            (table, items) = (self.call(table, called), 1);
        }
        // What opens with nothing stays nullable now and then.
        let most = if items == 0 && self.draws.percent(70) { 0 } else { self.draws.below(5) };
        for _ in 0..most {
            table = match self.draws.below(6) {
                0 if keywords > 0 => {
                    let keyword = self.draws.below(keywords);
                    self.keyword(table, keyword)
                }
                1 => self.ide(table),
                2 => self.number(table),
                3 => self.local(table),
                _ => {
                    let called = self.draws.below(self.signatures.len());
                    self.call(table, called)
                }
            };
        }
        let result = self.signatures[nonterminal].result;
        table = self.supply(table, result, keywords);
        let template = self.template(result, 0).unwrap_or(vec![0]);
        table.result(&template)
    }

    /// An item that gives the sort, where no template can.
    fn supply(&mut self, table: Table, sort: u8, keywords: usize) -> Table {
        if self.template(sort, 0).is_some() {
            return table;
        }
        match sort {
            NUM => self.number(table),
            BINDER | VAR => self.local(table),
            UNIT if keywords > 0 => {
                let keyword = self.draws.below(keywords);
                self.keyword(table, keyword)
            }
            _ => {
                self.variables.push(sort);
                table.ide(sort.clamp(1, 3))
            }
        }
    }

    fn keyword(&mut self, table: Table, number: usize) -> Table {
        self.variables.push(UNIT);
        table.keyword(number)
    }
    fn ide(&mut self, table: Table) -> Table {
        let sort = 1 + self.draws.below(3) as u8;
        self.variables.push(sort);
        table.ide(sort)
    }
    fn number(&mut self, table: Table) -> Table {
        self.variables.push(NUM);
        table.number()
    }
    fn local(&mut self, table: Table) -> Table {
        self.variables.push(BINDER);
        table.local()
    }
    /// A call, if arguments of the right sorts can be had.
    fn call(&mut self, table: Table, called: usize) -> Table {
        let mut arguments = Vec::new();
        for sort in self.signatures[called].parameters.clone() {
            match self.template(sort, 0) {
                Some(template) => arguments.extend(template),
                None => return table,
            }
        }
        self.variables.push(self.signatures[called].result);
        table.call(called, &arguments)
    }

    /// A template of the sort, if there is one.
    fn template(&mut self, sort: u8, depth: usize) -> Option<Vec<u8>> {
        let fitting: Vec<u8> = (0..self.variables.len().min(16))
            .filter(|&v| self.variables[v] == sort || self.variables[v] == BINDER && sort == VAR)
            .map(|v| v as u8)
            .collect();
        if !fitting.is_empty() && self.draws.percent(60) {
            return Some(vec![self.draws.one(&fitting)]);
        }
        let name = |draws: &mut Draws, names: usize| draws.below(names) as u8;
        match sort {
            VAR if self.names > 0 => return Some(vec![0x10, name(self.draws, self.names)]),
            LABEL if self.names > 0 => return Some(vec![0x11, name(self.draws, self.names)]),
            TERM => {
                let code = if depth > 4 { 0x23 } else { self.draws.one(&[0x20, 0x21, 0x22, 0x23, 0x24, 0x27]) };
                return self.constructor(code, depth).or(Some(vec![0x23, 0x25]));
            }
            FIELDS => {
                let code = if depth > 4 { 0x25 } else { self.draws.one(&[0x25, 0x26]) };
                return self.constructor(code, depth).or(Some(vec![0x25]));
            }
            _ => {}
        }
        if fitting.is_empty() { None } else { Some(vec![self.draws.one(&fitting)]) }
    }

    fn constructor(&mut self, code: u8, depth: usize) -> Option<Vec<u8>> {
        let arguments: &[u8] = [&[VAR][..], &[BINDER, TERM], &[TERM, TERM], &[FIELDS], &[TERM, LABEL], &[], &[LABEL, TERM, FIELDS], &[NUM]]
            [usize::from(code - 0x20)];
        let mut template = vec![code];
        for &sort in arguments {
            template.extend(self.template(sort, depth + 1)?);
        }
        Some(template)
    }
}

// ---- damage ----

/// The places of a table's fields, as far as they are whole.
pub fn places(table: &[u8]) -> Vec<(usize, usize)> {
    let (mut places, mut at) = (Vec::new(), 0);
    while at + 3 <= table.len() {
        let end = at + 3 + usize::from(u16::from_be_bytes([table[at + 1], table[at + 2]]));
        if end > table.len() {
            break;
        }
        places.push((at, end));
        at = end;
    }
    places
}

fn damage_table(draws: &mut Draws, table: &mut Vec<u8>, passing: &[Vec<u8>]) {
    let fields = places(table);
    if fields.is_empty() || table.is_empty() {
        return;
    }
    let (from, to) = fields[draws.below(fields.len())];
    match draws.below(12) {
        // A value near the one that stood there, or any.
        0..=3 if to > from + 3 => {
            let at = from + 3 + draws.below(to - from - 3);
            table[at] = match draws.below(4) {
                0 => table[at].wrapping_add(1),
                1 => table[at].wrapping_sub(1),
                2 => draws.below(40) as u8,
                _ => draws.below(256) as u8,
            };
        }
        4 => drop(table.drain(from..to)),
        5 => {
            let copy = table[from..to].to_vec();
            let (at, _) = fields[draws.below(fields.len())];
            table.splice(at..at, copy);
        }
        6 => {
            let at = from + draws.below(3);
            table[at] = draws.below(12) as u8;
        }
        7 => {
            // A field with one byte more or fewer.
            if to > from + 3 && draws.percent(50) {
                table.remove(to - 1);
                table[from + 2] = table[from + 2].wrapping_sub(1);
            } else {
                table.insert(to, draws.below(48) as u8);
                table[from + 2] = table[from + 2].wrapping_add(1);
            }
        }
        8 if draws.percent(40) => table.truncate(draws.below(table.len())),
        8 => table.extend((0..1 + draws.below(4)).map(|_| 3u8)),
        9 if !passing.is_empty() => {
            let other = &passing[draws.below(passing.len())];
            let of_other = places(other);
            let (other_from, other_to) = of_other[draws.below(of_other.len())];
            table.splice(from..to, other[other_from..other_to].to_vec());
        }
        10 if draws.percent(2) => table.resize(16_380 + draws.below(10), 0),
        10 => {
            // Two fields change places.
            let (second, end) = fields[draws.below(fields.len())];
            if to <= second {
                let mut both = table[second..end].to_vec();
                both.extend_from_slice(&table[to..second]);
                both.extend_from_slice(&table[from..to]);
                table.splice(from..end, both);
            }
        }
        _ => {
            let at = draws.below(table.len());
            table[at] = draws.below(256) as u8;
        }
    }
}

pub fn damage_bytes(draws: &mut Draws, bytes: &mut Vec<u8>) {
    for _ in 0..1 + draws.below(2) {
        let at = draws.below(bytes.len() + 1);
        match draws.below(3) {
            0 => bytes.insert(at, draws.below(256) as u8),
            1 if at < bytes.len() => drop(bytes.remove(at)),
            _ if at < bytes.len() => bytes[at] = draws.below(128) as u8,
            _ => {}
        }
    }
}

// ---- formulas ----

pub enum Item {
    Keyword(usize),
    /// An ide of a sort.
    Ide(u8),
    Number,
    Local,
    Call(usize),
    /// A pattern place of a sort.
    Place(u8),
}

pub struct Grammar {
    pub keywords: Vec<Vec<u8>>,
    pub names: Vec<Vec<u8>>,
    /// The signature of each nonterminal that is defined.
    pub signatures: Vec<Option<Signature>>,
    /// The alternatives of each nonterminal after normalizing.
    pub alternatives: Vec<Vec<Vec<Item>>>,
    root: usize,
    /// How deep the calls of the shallowest derivation are.
    heights: Vec<usize>,
    /// The keywords that the root does not reach.
    given_back: Vec<Vec<u8>>,
}

/// The grammar of a table that passes; none of another one.
pub fn grammar(table: &[u8]) -> Option<Grammar> {
    if plain::PRESENT.check(table).number != 0 {
        return None;
    }
    let mut grammar = Grammar {
        keywords: Vec::new(),
        names: Vec::new(),
        signatures: vec![None; 64],
        alternatives: (0..64).map(|_| Vec::new()).collect(),
        root: 0,
        heights: vec![usize::MAX; 64],
        given_back: Vec::new(),
    };
    let mut nonterminal = 0;
    for (from, to) in places(table) {
        let value = &table[from + 3..to];
        match table[from] {
            1 => grammar.keywords.push(value.to_vec()),
            2 => grammar.names.push(value.to_vec()),
            4 => {
                nonterminal = usize::from(value[0]);
                grammar.signatures[nonterminal] = Some(Signature { result: value[2], parameters: value[3..].to_vec() });
                if value[1] == 2 {
                    grammar.alternatives[nonterminal].clear();
                }
            }
            5 => grammar.alternatives[nonterminal].push(Vec::new()),
            6 => {
                let (operand, sort) = (usize::from(value[1]), value[1]);
                let item = [Item::Keyword(operand), Item::Ide(sort), Item::Number, Item::Local, Item::Call(operand), Item::Place(sort)];
                let kind = usize::from(value[0]);
                grammar.alternatives[nonterminal].last_mut()?.extend(item.into_iter().nth(kind));
            }
            8 => grammar.root = usize::from(value[0]),
            _ => {}
        }
    }
    for _ in 0..64 {
        for n in 0..64 {
            let least = grammar.alternatives[n].iter().map(|alternative| grammar.height(alternative)).min();
            grammar.heights[n] = least.unwrap_or(usize::MAX);
        }
    }
    grammar.given_back = grammar.unreached();
    Some(grammar)
}

impl Grammar {
    /// The keywords that no alternative reached from the root has.
    fn unreached(&self) -> Vec<Vec<u8>> {
        let (mut reached, mut counts) = (vec![self.root], vec![false; self.keywords.len()]);
        let mut at = 0;
        while let Some(&nonterminal) = reached.get(at) {
            at += 1;
            for item in self.alternatives[nonterminal].iter().flatten() {
                match *item {
                    Item::Keyword(number) => counts[number] = true,
                    Item::Call(called) if !reached.contains(&called) => reached.push(called),
                    _ => {}
                }
            }
        }
        self.keywords.iter().zip(counts).filter(|(_, counts)| !counts).map(|(keyword, _)| keyword.clone()).collect()
    }

    fn height(&self, alternative: &[Item]) -> usize {
        let heights = alternative.iter().map(|item| match *item {
            Item::Call(called) => self.heights[called].saturating_add(1),
            // No formula meets it.
            Item::Place(_) => usize::MAX,
            _ => 0,
        });
        heights.max().unwrap_or(0)
    }

    /// A nonterminal whose signature meets a test, if there is one.
    pub fn drawn(&self, draws: &mut Draws, meets: impl Fn(&Signature) -> bool) -> Option<(usize, &Signature)> {
        let all = self.signatures.iter().enumerate().filter_map(|(n, signature)| Some((n, signature.as_ref()?)));
        let meeting: Vec<_> = all.filter(|(_, signature)| meets(signature)).collect();
        if meeting.is_empty() { None } else { Some(draws.one(&meeting)) }
    }

    /// Derives from a nonterminal; the shallowest way once there are enough tokens or open calls.
    fn derive(&self, draws: &mut Draws, nonterminal: usize, enough: usize, open: usize, tokens: &mut Vec<Vec<u8>>) {
        let alternatives = &self.alternatives[nonterminal];
        if open > 1_100 || tokens.len() > 4_200 || alternatives.is_empty() {
            return;
        }
        let has_place = |n: usize| alternatives[n].iter().any(|item| matches!(item, Item::Place(_)));
        let mut chosen = if tokens.len() >= enough || open > enough + 40 { usize::MAX } else { draws.below(alternatives.len()) };
        if chosen == usize::MAX || has_place(chosen) {
            chosen = (0..alternatives.len()).min_by_key(|&n| self.height(&alternatives[n])).unwrap_or(0);
        }
        for item in &alternatives[chosen] {
            match *item {
                Item::Keyword(number) => tokens.push(self.keywords[number].clone()),
                // No formula meets a place; a word in its stead makes the formula longer, so that it ends.
                Item::Ide(_) | Item::Place(_) => tokens.push(self.word(draws)),
                Item::Number => tokens.push(number(draws)),
                Item::Local => {}
                Item::Call(called) => self.derive(draws, called, enough, open + 1, tokens),
            }
        }
    }

    fn word(&self, draws: &mut Draws) -> Vec<u8> {
        if draws.percent(25) && !self.names.is_empty() {
            return self.names[draws.below(self.names.len())].clone();
        }
        let words: Vec<&Vec<u8>> = self.given_back.iter().filter(|keyword| keyword[0].is_ascii_alphabetic()).collect();
        if draws.percent(30) && !words.is_empty() {
            return words[draws.below(words.len())].clone();
        }
        word(draws)
    }
}

fn word(draws: &mut Draws) -> Vec<u8> {
    match draws.below(60) {
        0 => "w".repeat(31 + draws.below(2)).into_bytes(),
        1..=12 => format!("w{}", draws.below(40)).into_bytes(),
        _ => draws.one(&WORDS).as_bytes().to_vec(),
    }
}

fn number(draws: &mut Draws) -> Vec<u8> {
    match draws.below(8) {
        0 => draws.one(&["0", "007", "999999999", "0000000000000000000000001", "1000000000", "99999999999999999999999"]).as_bytes().to_vec(),
        _ => draws.below(2_000).to_string().into_bytes(),
    }
}

fn token(draws: &mut Draws, grammar: Option<&Grammar>) -> Vec<u8> {
    match (draws.below(5), grammar) {
        (0 | 1, Some(grammar)) if !grammar.keywords.is_empty() => grammar.keywords[draws.below(grammar.keywords.len())].clone(),
        (2, _) => number(draws),
        (3, _) => draws.one(&SYMBOLS).as_bytes().to_vec(),
        _ => word(draws),
    }
}

fn formula(draws: &mut Draws, grammar: Option<&Grammar>) -> Vec<u8> {
    let mut tokens = Vec::new();
    match grammar {
        Some(grammar) if draws.percent(90) => {
            let enough = match draws.below(300) {
                0 => 4_100,
                1..=6 => 300,
                7..=100 => 25,
                _ => 8,
            };
            grammar.derive(draws, grammar.root, enough, 0, &mut tokens);
        }
        _ => (0..draws.below(12)).for_each(|_| tokens.push(token(draws, grammar))),
    }
    if draws.percent(25) {
        let at = draws.below(tokens.len() + 1);
        match draws.below(4) {
            0 => tokens.insert(at, token(draws, grammar)),
            1 if at < tokens.len() => drop(tokens.remove(at)),
            2 if at < tokens.len() => tokens[at] = token(draws, grammar),
            _ => tokens.truncate(at),
        }
    }
    join(draws, &tokens)
}

/// Tokens with separators between them, where they would run together at least.
pub fn join(draws: &mut Draws, tokens: &[Vec<u8>]) -> Vec<u8> {
    let in_word = |byte: Option<&u8>| byte.is_some_and(|&b| b.is_ascii_alphanumeric() || b == b'_');
    let sparse = draws.percent(50);
    let mut formula = Vec::new();
    for token in tokens {
        if in_word(formula.last()) && in_word(token.first()) || !sparse {
            formula.push(draws.one(b"   \t\n\r"));
        }
        formula.extend_from_slice(token);
    }
    formula
}
