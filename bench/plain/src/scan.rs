//! Tokens, and refusals 14 to 16; tokens of a text, and its variables that are not numbered (document 02, C-14).

use crate::grammar::VARIABLE;
use crate::table::*;
use crate::words::{Place, NO_SPELLING};
use crate::{refusal, Refusal};

/// A kind, and a word's spelling number or a number's value. In a text: a word's number among the outside names, or a variable as it stands in a template.
#[derive(Clone, Copy)]
pub struct Token {
    pub kind: u8,
    pub value: u32,
}

const MOST_TOKENS: usize = 4_096;
const LONGEST_WORD: usize = 31;
const LARGEST: u64 = 999_999_999;

#[derive(Default)]
pub struct Tokens {
    pub all: Vec<Token>,
}

/// The value of the digits from a place on, at most one more than is allowed; the place is moved behind them.
#[inline(always)]
fn digits(bytes: &[u8], at: &mut usize) -> u64 {
    let mut value = 0;
    while let Some(&digit @ b'0'..=b'9') = bytes.get(*at) {
        value = (value * 10 + u64::from(digit - b'0')).min(LARGEST + 1);
        *at += 1;
    }
    value
}

/// Where a word ends that goes on at a place.
#[inline(always)]
fn word_end(bytes: &[u8], mut at: usize) -> usize {
    while bytes.get(at).is_some_and(|&byte| goes_on(byte)) {
        at += 1;
    }
    at
}

impl Tokens {
    /// The tokens of a formula. Words that are new get the next spelling number, from 64.
    // By itself, as `run` is.
    #[inline(never)]
    pub fn scan(&mut self, table: &[u8], formula: &[u8], read: &mut Table) -> Result<(), Refusal> {
        if formula.len() > 65_535 {
            return Err(refusal(14, 0));
        }
        self.all.clear();
        let mut at = 0;
        while let Some(&byte) = formula.get(at) {
            let start = at;
            at += 1;
            let token = match class(byte) {
                Class::Separator => continue,
                Class::Bad => return Err(refusal(15, start)),
                Class::Symbol => Token { kind: read.symbols[usize::from(byte)], value: 0 },
                Class::Digit => {
                    at = start;
                    let value = digits(formula, &mut at);
                    if value > LARGEST {
                        return Err(refusal(15, start));
                    }
                    Token { kind: NUMBER, value: value as u32 }
                }
                Class::Letter => {
                    at = word_end(formula, at);
                    if at - start > LONGEST_WORD {
                        return Err(refusal(15, start));
                    }
                    let place = Place { at: start as u16, length: (at - start) as u8, in_formula: true };
                    let meaning = read.words.meaning(table, formula, place, WORD);
                    Token { kind: meaning.kind, value: meaning.spelling }
                }
            };
            if self.all.len() == MOST_TOKENS {
                return Err(refusal(16, 0));
            }
            self.all.push(token);
        }
        Ok(())
    }
}

/// What the tokens of a text depend on: the table, the kinds of the keywords that count, and the sorts of the alternative's variables.
pub struct Lexicon<'a> {
    pub table: &'a [u8],
    pub read: &'a Table,
    pub keywords: u64,
    pub variables: &'a [u8],
}

/// The text has a variable that the alternative has not.
pub struct Unnumbered;

impl Tokens {
    /// The tokens of a text, in one pass. Whether they are all there: if not, the text has a number, or a fault of 15 or 16. Variables behind a fault are
    /// looked at too.
    pub fn scan_text(&mut self, text: &[u8], lexicon: &Lexicon) -> Result<bool, Unnumbered> {
        self.all.clear();
        let (mut at, mut whole) = (0, true);
        while let Some(&byte) = text.get(at) {
            let start = at;
            at += 1;
            let token = if byte == b'$' && matches!(text.get(at), Some(b'0'..=b'9')) {
                Some(lexicon.variable(digits(text, &mut at))?)
            } else if class(byte) == Class::Separator {
                continue;
            } else {
                at = if class(byte) == Class::Letter { word_end(text, at) } else { at };
                lexicon.token(&text[start..at])
            };
            match token {
                Some(token) if whole && self.all.len() < MOST_TOKENS => self.all.push(token),
                _ => whole = false,
            }
        }
        Ok(whole)
    }
}

impl Lexicon<'_> {
    fn variable(&self, number: u64) -> Result<Token, Unnumbered> {
        let sort = self.variables.get(number as usize).ok_or(Unnumbered)?;
        Ok(Token { kind: FIRST_VARIABLE + sort, value: VARIABLE | number as u32 })
    }

    /// A word or a symbol; none of a word that is too long, a digit or a bad byte.
    fn token(&self, spelling: &[u8]) -> Option<Token> {
        match class(spelling[0]) {
            Class::Letter if spelling.len() <= LONGEST_WORD => Some(self.word(spelling)),
            // The kind of a keyword that does not count meets nothing that can be read.
            Class::Symbol => Some(Token { kind: self.read.symbols[usize::from(spelling[0])], value: 0 }),
            _ => None,
        }
    }

    fn word(&self, spelling: &[u8]) -> Token {
        match self.read.words.find(self.table, spelling) {
            Some(meaning) if self.keywords & 1 << meaning.kind != 0 => Token { kind: meaning.kind, value: 0 },
            Some(meaning) => Token { kind: WORD, value: meaning.spelling },
            None => Token { kind: WORD, value: NO_SPELLING },
        }
    }
}
