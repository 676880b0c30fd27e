//! The causes of refusal, written by tests/causes from causes.txt.

use std::fmt;

/// Why a table or a formula is refused: the 25 causes in the order of their numbers. A `place` is the offset of a field's tag in the table, or the
/// table's length if something is missing at its end. A `token` is an index from 0; at the end of the formula it is the token count.
#[derive(Clone, Copy, Debug, PartialEq, Eq)]
pub enum Refusal {
    /// 1: the table has more than 16,384 bytes.
    TableTooLong,
    /// 2: a field of the table runs past its end; a place.
    FieldPastEnd { place: u64 },
    /// 3: a tag, a length or a value that is not known; a place.
    UnknownField { place: u64 },
    /// 4: a field is out of order, or missing; a place.
    FieldOutOfOrder { place: u64 },
    /// 5: a keyword or outside name is badly spelled, or stands twice; a place.
    BadSpelling { place: u64 },
    /// 6: more keywords, names, blocks, alternatives or items than allowed; a place.
    TooMany { place: u64 },
    /// 7: a nonterminal is added that is defined already; a place.
    NumberInUse { place: u64 },
    /// 8: nothing to extend or update: defined in this block, not defined earlier, or with another signature; a place.
    BadExtension { place: u64 },
    /// 9: something is used that is not defined: nonterminal, keyword, name, variable; a place.
    Undefined { place: u64 },
    /// 10: a template is cut, has bytes left over or an unknown byte; a place.
    BadTemplate { place: u64 },
    /// 11: a sort or a count of arguments is wrong; the root has parameters or is no Term; a place.
    WrongSort { place: u64 },
    /// 12: left recursion: a nonterminal reaches itself before any token is read; a lowest such nonterminal.
    LeftRecursion { nonterminal: u64 },
    /// 13: two alternatives share a token that they can begin with, or both can be empty; a nonterminal, b lowest shared bit (64: both empty).
    Ambiguous { nonterminal: u64, bit: u64 },
    /// 14: the formula has more than 65,535 bytes.
    FormulaTooLong,
    /// 15: a byte that may not stand in a formula, a word over 31 bytes, a number over 999,999,999; a offset of its start.
    BadToken { offset: u64 },
    /// 16: more than 4,096 tokens.
    TooManyTokens,
    /// 17: a token does not fit; a token, b what would have fitted at the item where the run stopped (bit 0 a word, bit 1 a number, bit k + 2 keyword
    /// k), c how many kinds that is.
    TokenDoesNotFit { token: u64, openings: u64, kinds: u64 },
    /// 18: a token is left over behind a whole formula; a token.
    TokenLeftOver { token: u64 },
    /// 19: nested too deeply: a call when 1,024 are open; a token.
    TooManyOpenCalls { token: u64 },
    /// 20: more than 65,536 calls; a token.
    TooManyCalls { token: u64 },
    /// 21: no row is left for the next cell, or 16,384 are made; a token.
    NoRow { token: u64 },
    /// 22: the term has more than 16,384 constructors; a cells made.
    TermTooLarge { cells: u64 },
    /// 23: a fresh name is a variable under no binder made with it; a its place among the constructors, from the left, from 0.
    LooseFreshVariable { constructor: u64 },
    /// 24: the text, or the list in its place, is longer than its buffer; a length needed.
    TextTooLong { needed: u64 },
    /// 25: a count of portions is 0 or over 10,000.
    BadPortions,
}

impl Refusal {
    /// The cause's number, 1 to 25, and its three values.
    pub fn numbered(&self) -> (u8, [u64; 3]) {
        use Refusal::*;
        match *self {
            TableTooLong => (1, [0, 0, 0]),
            FieldPastEnd { place } => (2, [place, 0, 0]),
            UnknownField { place } => (3, [place, 0, 0]),
            FieldOutOfOrder { place } => (4, [place, 0, 0]),
            BadSpelling { place } => (5, [place, 0, 0]),
            TooMany { place } => (6, [place, 0, 0]),
            NumberInUse { place } => (7, [place, 0, 0]),
            BadExtension { place } => (8, [place, 0, 0]),
            Undefined { place } => (9, [place, 0, 0]),
            BadTemplate { place } => (10, [place, 0, 0]),
            WrongSort { place } => (11, [place, 0, 0]),
            LeftRecursion { nonterminal } => (12, [nonterminal, 0, 0]),
            Ambiguous { nonterminal, bit } => (13, [nonterminal, bit, 0]),
            FormulaTooLong => (14, [0, 0, 0]),
            BadToken { offset } => (15, [offset, 0, 0]),
            TooManyTokens => (16, [0, 0, 0]),
            TokenDoesNotFit { token, openings, kinds } => (17, [token, openings, kinds]),
            TokenLeftOver { token } => (18, [token, 0, 0]),
            TooManyOpenCalls { token } => (19, [token, 0, 0]),
            TooManyCalls { token } => (20, [token, 0, 0]),
            NoRow { token } => (21, [token, 0, 0]),
            TermTooLarge { cells } => (22, [cells, 0, 0]),
            LooseFreshVariable { constructor } => (23, [constructor, 0, 0]),
            TextTooLong { needed } => (24, [needed, 0, 0]),
            BadPortions => (25, [0, 0, 0]),
        }
    }

    /// The cause with a number and three values.
    pub(crate) fn of(number: u8, a: u64, b: u64, c: u64) -> Refusal {
        use Refusal::*;
        match number {
            1 => TableTooLong,
            2 => FieldPastEnd { place: a },
            3 => UnknownField { place: a },
            4 => FieldOutOfOrder { place: a },
            5 => BadSpelling { place: a },
            6 => TooMany { place: a },
            7 => NumberInUse { place: a },
            8 => BadExtension { place: a },
            9 => Undefined { place: a },
            10 => BadTemplate { place: a },
            11 => WrongSort { place: a },
            12 => LeftRecursion { nonterminal: a },
            13 => Ambiguous { nonterminal: a, bit: b },
            14 => FormulaTooLong,
            15 => BadToken { offset: a },
            16 => TooManyTokens,
            17 => TokenDoesNotFit { token: a, openings: b, kinds: c },
            18 => TokenLeftOver { token: a },
            19 => TooManyOpenCalls { token: a },
            20 => TooManyCalls { token: a },
            21 => NoRow { token: a },
            22 => TermTooLarge { cells: a },
            23 => LooseFreshVariable { constructor: a },
            24 => TextTooLong { needed: a },
            25 => BadPortions,
            _ => panic!("the archive answered with the unknown number {number}"),
        }
    }
}

impl fmt::Display for Refusal {
    fn fmt(&self, f: &mut fmt::Formatter<'_>) -> fmt::Result {
        use Refusal::*;
        match *self {
            TableTooLong => write!(f, "the table is longer than 16,384 bytes"),
            FieldPastEnd { place } => write!(f, "the field at byte {place} of the table runs past its end"),
            UnknownField { place } => write!(f, "the field at byte {place} of the table has an unknown tag, length or value"),
            FieldOutOfOrder { place } => write!(f, "a field is missing or out of order at byte {place} of the table"),
            BadSpelling { place } => write!(f, "the spelling at byte {place} of the table is bad or repeated"),
            TooMany { place } => write!(f, "the field at byte {place} of the table is one too many"),
            NumberInUse { place } => write!(f, "the definition at byte {place} of the table adds a nonterminal in use"),
            BadExtension { place } => write!(f, "the definition at byte {place} of the table extends or updates no earlier one of its signature"),
            Undefined { place } => write!(f, "the field at byte {place} of the table uses something undefined"),
            BadTemplate { place } => write!(f, "the template at byte {place} of the table is cut, too long or has an unknown byte"),
            WrongSort { place } => write!(f, "the field at byte {place} of the table has a wrong sort or count of arguments"),
            LeftRecursion { nonterminal } => write!(f, "nonterminal {nonterminal} is left recursive"),
            Ambiguous { nonterminal, bit } => write!(f, "two alternatives of nonterminal {nonterminal} share opening {bit} (64: both can be empty)"),
            FormulaTooLong => write!(f, "the formula is longer than 65,535 bytes"),
            BadToken { offset } => write!(f, "a bad byte, long word or large number at byte {offset} of the formula"),
            TooManyTokens => write!(f, "the formula has more than 4,096 tokens"),
            TokenDoesNotFit { token, kinds, .. } => write!(f, "token {token} does not fit; {kinds} kinds would"),
            TokenLeftOver { token } => write!(f, "token {token} is left over"),
            TooManyOpenCalls { token } => write!(f, "more than 1,024 open calls at token {token}"),
            TooManyCalls { token } => write!(f, "more than 65,536 calls at token {token}"),
            NoRow { token } => write!(f, "no row is left for the next cell at token {token}"),
            TermTooLarge { cells } => write!(f, "the term of {cells} cells has more than 16,384 constructors"),
            LooseFreshVariable { constructor } => write!(f, "constructor {constructor} is a fresh variable under no binder of its own"),
            TextTooLong { needed } => write!(f, "the text needs {needed} bytes, or the list {needed} numbers"),
            BadPortions => write!(f, "a count of portions is 0 or over 10,000"),
        }
    }
}

impl std::error::Error for Refusal {}
