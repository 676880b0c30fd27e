//! Nullable nonterminals, openings (first sets) and refusals 12 and 13; the choice of an alternative by the next token.

use crate::grammar::{Grammar, Item, Scope};
use crate::table::*;
use crate::{Answer, Refusal};

/// What an alternative may begin with: the kinds 0 to 63 of document 01's openings; for a pattern place, 65 and its sort; for an ide, each sort of a variable
/// that fits it, from 72 on (document 02, C-14).
type Openings = u128;

const FIRST_PLACE: u32 = 65;
const FIRST_FITTING: u32 = 72;

/// What alternatives that are both nullable share, if nothing else is.
const NOTHING_SHARED: u32 = 64;

/// Seven bits, one for each sort, from a bit on.
fn sorts(openings: Openings, first: u32) -> impl Iterator<Item = u8> {
    bits((openings >> first) as u64 & 0x7f)
}

pub struct Firsts {
    /// The openings of each nonterminal and of each alternative.
    of_nonterminal: [Openings; 64],
    of_alternative: Vec<Openings>,
    /// The nullable alternative of each nonterminal, plus one; 0 if there is none.
    nullable: [u16; 64],
    /// For each nonterminal and kind of the next token the alternative to take, plus one; 0 if nothing fits.
    pub choice: Vec<[u16; KINDS]>,
    each: Vec<Begins>,
    waiting: Vec<Waiting>,
    links: Vec<(u32, u32)>,
    new: Vec<u8>,
}

impl Default for Firsts {
    fn default() -> Firsts {
        let (of_alternative, choice, each) = (Vec::new(), Vec::new(), Vec::new());
        let (waiting, links, new) = (Vec::new(), Vec::new(), Vec::new());
        Firsts { of_nonterminal: [0; 64], of_alternative, nullable: [0; 64], choice, each, waiting, links, new }
    }
}

/// An alternative that is empty once so many nonterminals are.
struct Waiting {
    nonterminal: u8,
    calls: u32,
}

/// The bits of a set, the lowest first.
pub fn bits(mut set: u64) -> impl Iterator<Item = u8> {
    std::iter::from_fn(move || {
        let bit = (set != 0).then(|| set.trailing_zeros() as u8);
        set &= set.wrapping_sub(1);
        bit
    })
}

impl Firsts {
    /// The nonterminals that derive nothing. An alternative waits for those that it calls; each nonterminal found wakes the alternatives that
    /// wait for it, so every call is looked at twice.
    fn nullables(&mut self, grammar: &Grammar, scope: &Scope) -> u64 {
        self.waiting.clear();
        self.links.clear();
        // For each nonterminal a list, through `links`, of the alternatives that wait for it.
        let mut heads = [0u32; 64];
        let mut found = 0u64;
        for nonterminal in bits(scope.defined) {
            for number in grammar.of(scope, nonterminal) {
                let mut calls = 0u64;
                let only_calls = grammar.items_of(number).iter().all(|item| match item {
                    Item::Call { nonterminal, .. } => {
                        calls |= 1 << nonterminal;
                        true
                    }
                    Item::Local => true,
                    _ => false,
                });
                if !only_calls {
                    continue;
                }
                if calls == 0 && found & 1 << nonterminal == 0 {
                    found |= 1 << nonterminal;
                    self.new.push(nonterminal);
                }
                for called in bits(calls) {
                    self.links.push((self.waiting.len() as u32, heads[usize::from(called)]));
                    heads[usize::from(called)] = self.links.len() as u32;
                }
                self.waiting.push(Waiting { nonterminal, calls: calls.count_ones() });
            }
        }
        while let Some(nonterminal) = self.new.pop() {
            let mut link = heads[usize::from(nonterminal)];
            while link != 0 {
                let (number, next) = self.links[link as usize - 1];
                let woken = &mut self.waiting[number as usize];
                woken.calls -= 1;
                if woken.calls == 0 && found & 1 << woken.nonterminal == 0 {
                    found |= 1 << woken.nonterminal;
                    self.new.push(woken.nonterminal);
                }
                link = next;
            }
        }
        found
    }
}

/// What an alternative may begin with: kinds of its own and nonterminals called, up to the first item that is not nullable.
#[derive(Clone, Copy, Default)]
struct Begins {
    own: Openings,
    calls: u64,
    nullable: bool,
}

fn begins(items: &[Item], nullable: u64) -> Begins {
    let mut begins = Begins::default();
    for item in items {
        match *item {
            Item::Local => {}
            Item::Call { nonterminal, .. } => {
                begins.calls |= 1 << nonterminal;
                if nullable & 1 << nonterminal == 0 {
                    return begins;
                }
            }
            _ => {
                begins.own |= own(item);
                return begins;
            }
        }
    }
    begins.nullable = true;
    begins
}

/// What an item opens with that is neither a local nor a call.
fn own(item: &Item) -> Openings {
    let ide = |fitting: u64| 1 << WORD | Openings::from(fitting) << FIRST_FITTING;
    match *item {
        Item::Keyword(kind) => (1u64 << kind).into(),
        Item::Number => 1 << NUMBER,
        Item::Var => ide(1 << VAR | 1 << BINDER),
        Item::Binder => ide(1 << BINDER),
        Item::Label => ide(1 << LABEL),
        Item::Place(sort) => 1 << (FIRST_PLACE + u32::from(sort)),
        Item::Local | Item::Call { .. } => 0,
    }
}

/// Openings along the left calls, deepest first.
struct Search<'a> {
    calls: &'a [u64; 64],
    begun: u64,
    done: u64,
    openings: [Openings; 64],
}

impl Search<'_> {
    /// Whether no cycle was met below the nonterminal.
    fn visit(&mut self, nonterminal: u8) -> bool {
        let at = usize::from(nonterminal);
        self.begun |= 1 << nonterminal;
        for called in bits(self.calls[at]) {
            if self.done & 1 << called == 0 && (self.begun & 1 << called != 0 || !self.visit(called)) {
                return false;
            }
            self.openings[at] |= self.openings[usize::from(called)];
        }
        self.done |= 1 << nonterminal;
        true
    }
}

/// The lowest nonterminal that reaches itself, where one does.
fn lowest_recursive(mut reaches: [u64; 64]) -> u64 {
    for middle in 0..64 {
        for from in 0..64 {
            if reaches[from] & 1 << middle != 0 {
                reaches[from] |= reaches[middle];
            }
        }
    }
    (0..64).find(|&n| reaches[n] & 1 << n != 0).unwrap_or(64) as u64
}

impl Firsts {
    /// Document 01's openings of a nonterminal.
    pub fn openings(&self, nonterminal: u8) -> u64 {
        self.of_nonterminal[usize::from(nonterminal)] as u64
    }

    /// 12, then 13.
    pub fn check(&mut self, grammar: &Grammar, scope: &Scope) -> Result<(), Refusal> {
        let nullable = self.nullables(grammar, scope);
        self.each.clear();
        self.each.resize(grammar.alternatives.len(), Begins::default());
        let (mut own, mut calls) = ([0; 64], [0u64; 64]);
        for nonterminal in bits(scope.defined) {
            for number in grammar.of(scope, nonterminal) {
                self.each[number] = begins(grammar.items_of(number), nullable);
                own[usize::from(nonterminal)] |= self.each[number].own;
                calls[usize::from(nonterminal)] |= self.each[number].calls;
            }
        }
        let mut search = Search { calls: &calls, begun: 0, done: 0, openings: own };
        for nonterminal in bits(scope.defined) {
            if search.done & 1 << nonterminal == 0 && !search.visit(nonterminal) {
                return Err(Answer { number: 12, a: lowest_recursive(calls), b: 0, c: 0 });
            }
        }
        self.of_nonterminal = search.openings;
        self.nullable = [0; 64];
        self.of_alternative.clear();
        self.of_alternative.resize(self.each.len(), 0);
        bits(scope.defined).try_for_each(|nonterminal| self.alternatives(grammar, scope, nonterminal))
    }

    /// The openings of a nonterminal's alternatives, and 13.
    fn alternatives(&mut self, grammar: &Grammar, scope: &Scope, nonterminal: u8) -> Result<(), Refusal> {
        let (mut all, mut shared, mut nullables) = (0, 0, 0);
        for number in grammar.of(scope, nonterminal) {
            let begins = self.each[number];
            let openings = bits(begins.calls).fold(begins.own, |set, called| set | self.of_nonterminal[usize::from(called)]);
            self.of_alternative[number] = openings;
            shared |= all & openings;
            all |= openings;
            if begins.nullable {
                nullables += 1;
                self.nullable[usize::from(nonterminal)] = number as u16 + 1;
            }
        }
        if shared == 0 && nullables < 2 {
            return Ok(());
        }
        let lowest = if shared == 0 { NOTHING_SHARED } else { shared.trailing_zeros() };
        Err(Answer { number: 13, a: nonterminal.into(), b: lowest.into(), c: 0 })
    }

    /// The alternative whose openings hold the kind; else the nullable one.
    pub fn choose(&mut self, grammar: &Grammar, scope: &Scope) {
        let highest = 64 - scope.defined.leading_zeros() as usize;
        self.choice.clear();
        self.choice.extend(self.nullable[..highest].iter().map(|&nullable| [nullable; KINDS]));
        for nonterminal in bits(scope.defined) {
            let choice = &mut self.choice[usize::from(nonterminal)];
            for number in grammar.of(scope, nonterminal) {
                for kind in bits(self.of_alternative[number] as u64) {
                    choice[usize::from(kind)] = number as u16 + 1;
                }
            }
        }
    }

    /// The same for the variables of texts: the alternative that opens with an ide that fits; else the one with the place; else the nullable one.
    pub fn choose_for_texts(&mut self, grammar: &Grammar, scope: &Scope) {
        self.choose(grammar, scope);
        for nonterminal in bits(scope.defined) {
            let variables = &mut self.choice[usize::from(nonterminal)][usize::from(FIRST_VARIABLE)..];
            for first in [FIRST_PLACE, FIRST_FITTING] {
                for number in grammar.of(scope, nonterminal) {
                    for sort in sorts(self.of_alternative[number], first) {
                        variables[usize::from(sort)] = number as u16 + 1;
                    }
                }
            }
        }
    }
}
