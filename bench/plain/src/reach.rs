//! The keywords that count (document 02, C-13): those of alternatives that a nonterminal reaches by calls. Others are given back.

use crate::firsts::bits;
use crate::grammar::{Grammar, Item, Scope};

/// The kinds of the keywords that are items of each nonterminal, wherever in an alternative they stand, and the nonterminals that it calls.
pub struct Reach {
    keywords: [u64; 64],
    calls: [u64; 64],
}

impl Reach {
    pub fn of(grammar: &Grammar, scope: &Scope) -> Reach {
        let mut reach = Reach { keywords: [0; 64], calls: [0; 64] };
        for nonterminal in bits(scope.defined) {
            let (keywords, calls) = (&mut reach.keywords[usize::from(nonterminal)], &mut reach.calls[usize::from(nonterminal)]);
            for item in grammar.of(scope, nonterminal).flat_map(|number| grammar.items_of(number)) {
                match *item {
                    Item::Keyword(kind) => *keywords |= 1 << kind,
                    Item::Call { nonterminal, .. } => *calls |= 1 << nonterminal,
                    _ => {}
                }
            }
        }
        reach
    }

    /// The kinds of the keywords that count in what is read from a nonterminal.
    pub fn keywords_from(&self, nonterminal: u8) -> u64 {
        let (mut reached, mut done, mut kinds) = (1u64 << nonterminal, 0u64, 0u64);
        while let Some(nonterminal) = bits(reached & !done).next() {
            done |= 1 << nonterminal;
            kinds |= self.keywords[usize::from(nonterminal)];
            reached |= self.calls[usize::from(nonterminal)];
        }
        kinds
    }
}
