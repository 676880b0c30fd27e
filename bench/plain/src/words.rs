//! Words by what they mean: a table with open addressing. The hash begins with numbers drawn once a thread, so that no input is made for it, and a
//! slot is empty unless it has the stamp of the present table or formula, so that nothing is cleared between calls.

use std::collections::hash_map::RandomState;
use std::hash::BuildHasher;

/// More than twice as many slots as a call has words: 62 keywords, 64 outside names and 4,096 words of a formula.
const SLOTS: usize = 16_384;

/// Words of a formula are numbered from here, wherever the outside names end.
pub const FORMULA_WORDS: usize = 64;

/// What a word means: its kind, and its spelling number where it has one.
#[derive(Clone, Copy)]
pub struct Meaning {
    pub kind: u8,
    pub spelling: u32,
}

/// A keyword that is no outside name has no spelling number.
pub const NO_SPELLING: u32 = u32::MAX;

/// Where a word stands: in the table or in the formula.
#[derive(Clone, Copy, Default)]
pub struct Place {
    pub at: u16,
    pub length: u8,
    pub in_formula: bool,
}

impl Place {
    pub fn of<'a>(self, table: &'a [u8], formula: &'a [u8]) -> &'a [u8] {
        let bytes = if self.in_formula { formula } else { table };
        &bytes[usize::from(self.at)..][..usize::from(self.length)]
    }
}

#[derive(Clone, Copy, Default)]
struct Slot {
    stamp: u32,
    hash: u32,
    place: Place,
    kind: u8,
    spelling: u32,
}

pub struct Words {
    slots: Vec<Slot>,
    /// The stamp of the table's words, and that of the formula's.
    table_stamp: u32,
    stamp: u32,
    seeds: [u64; 2],
    /// The words by spelling number: outside names from 0, words of the formula from 64.
    pub spelled: Vec<Place>,
}

impl Default for Words {
    fn default() -> Words {
        let state = RandomState::new();
        Words { slots: vec![Slot::default(); SLOTS], table_stamp: 0, stamp: 0, seeds: [state.hash_one(1), state.hash_one(2) | 1], spelled: Vec::new() }
    }
}

/// The halves of a product, put together.
fn folded(a: u64, b: u64) -> u64 {
    let product = u128::from(a) * u128::from(b);
    (product as u64) ^ (product >> 64) as u64
}

impl Words {
    /// Forgets all words: a table comes.
    pub fn clear(&mut self) {
        self.spelled.clear();
        if self.stamp > u32::MAX / 2 {
            self.slots.fill(Slot::default());
            self.stamp = 0;
        }
        self.stamp += 1;
        self.table_stamp = self.stamp;
    }

    /// Forgets the words of the formula before: another comes under the same table.
    pub fn next_formula(&mut self) {
        self.spelled.truncate(FORMULA_WORDS);
        self.stamp += 1;
    }

    fn is_empty(&self, slot: &Slot) -> bool {
        slot.stamp != self.stamp && slot.stamp != self.table_stamp
    }

    fn hash(&self, word: &[u8]) -> u64 {
        let mut state = self.seeds[0] ^ word.len() as u64;
        let mut parts = word.chunks_exact(8);
        for part in &mut parts {
            state = folded(state ^ u64::from_le_bytes([part[0], part[1], part[2], part[3], part[4], part[5], part[6], part[7]]), self.seeds[1]);
        }
        let rest = parts.remainder().iter().rev().fold(0u64, |sum, &byte| sum << 8 | u64::from(byte));
        folded(state ^ rest, self.seeds[1])
    }

    /// The slot of a word, or the empty one where it would go.
    fn slot(&self, word: &[u8], hash: u64, table: &[u8], formula: &[u8]) -> usize {
        let mut at = hash as usize % SLOTS;
        loop {
            let slot = &self.slots[at];
            if self.is_empty(slot) || slot.hash == (hash >> 32) as u32 && slot.place.of(table, formula) == word {
                return at;
            }
            at = (at + 1) % SLOTS;
        }
    }

    /// Enters a keyword of the table; whether it is new.
    pub fn keyword(&mut self, table: &[u8], place: Place, kind: u8) -> bool {
        let word = place.of(table, &[]);
        let hash = self.hash(word);
        let at = self.slot(word, hash, table, &[]);
        if !self.is_empty(&self.slots[at]) {
            return false;
        }
        self.slots[at] = Slot { stamp: self.stamp, hash: (hash >> 32) as u32, place, kind, spelling: NO_SPELLING };
        true
    }

    /// Enters an outside name; whether it is new. A keyword may be an outside name as well, once.
    pub fn name(&mut self, table: &[u8], place: Place, kind: u8) -> bool {
        let word = place.of(table, &[]);
        let hash = self.hash(word);
        let at = self.slot(word, hash, table, &[]);
        let spelling = self.spelled.len() as u32;
        let empty = self.is_empty(&self.slots[at]);
        let slot = &mut self.slots[at];
        if empty {
            *slot = Slot { stamp: self.stamp, hash: (hash >> 32) as u32, place, kind, spelling };
        } else if slot.spelling == NO_SPELLING {
            slot.spelling = spelling;
        } else {
            return false;
        }
        self.spelled.push(place);
        true
    }

    /// Gives back a keyword: its slot is the outside name's so spelled, or no word's any more, and what stands behind it is found as before.
    pub fn give_back(&mut self, table: &[u8], place: Place, kind: u8) {
        let word = place.of(table, &[]);
        let at = self.slot(word, self.hash(word), table, &[]);
        let slot = &mut self.slots[at];
        if slot.spelling == NO_SPELLING {
            slot.place = Place::default();
        } else {
            slot.kind = kind;
        }
    }

    /// The meaning that the table gives a word of its own, at some place in it; none if it is neither a keyword nor an outside name.
    pub fn find(&self, table: &[u8], word: &[u8]) -> Option<Meaning> {
        let slot = &self.slots[self.slot(word, self.hash(word), table, &[])];
        (!self.is_empty(slot)).then_some(Meaning { kind: slot.kind, spelling: slot.spelling })
    }

    /// The meaning of a word of the formula; a new one gets the next spelling number.
    pub fn meaning(&mut self, table: &[u8], formula: &[u8], place: Place, kind: u8) -> Meaning {
        let word = place.of(table, formula);
        let hash = self.hash(word);
        let at = self.slot(word, hash, table, formula);
        let empty = self.is_empty(&self.slots[at]);
        let slot = &mut self.slots[at];
        if empty {
            *slot = Slot { stamp: self.stamp, hash: (hash >> 32) as u32, place, kind, spelling: self.spelled.len() as u32 };
            self.spelled.push(place);
        }
        Meaning { kind: slot.kind, spelling: slot.spelling }
    }
}
