//! Words that collide in a hash: hostile to whoever finds words by it.

use std::collections::HashMap;

#[derive(Clone, Copy)]
pub enum Hash {
    /// Each byte b takes h to h * multiplier + b, modulo 2^32.
    Polynomial { multiplier: u32 },
    /// The scanner's (crates/lexicon/src/trees.rt): eight bytes at a time, two products and a fold of a state of 64 bits. The low bits of the hash
    /// choose a tree, further bits a branch at each node. These words share the tree alone.
    Folded,
    /// The same hash, for words that share all of its 64 bits.
    FoldedWhole,
}

/// So many words of at most 16 bytes that collide; 4,096 at most.
pub fn words(hash: Hash, count: usize) -> Vec<String> {
    assert!(count <= 4_096);
    match hash {
        Hash::Polynomial { multiplier } => of_one_polynomial(multiplier, count),
        Hash::Folded => of_one_tree(count),
        Hash::FoldedWhole => of_one_fold(count),
    }
}

/// Letters and digits by number; the first is a letter.
fn spelled<const N: usize>(mut number: usize) -> [u8; N] {
    const LETTERS: &[u8; 62] = b"abcdefghijklmnopqrstuvwxyzABCDEFGHIJKLMNOPQRSTUVWXYZ0123456789";
    let mut letters = 52;
    [0; N].map(|_| {
        let letter = LETTERS[number % letters];
        number /= letters;
        letters = 62;
        letter
    })
}

fn text(bytes: &[u8]) -> String {
    String::from_utf8_lossy(bytes).into_owned()
}

fn polynomial(multiplier: u32, word: &[u8]) -> u32 {
    word.iter().fold(0, |hash: u32, &byte| hash.wrapping_mul(multiplier).wrapping_add(byte.into()))
}

/// Words that are equal in the whole hash, so that they share a bucket and every further bit, whatever the hash begins with: two parts, each one of 64
/// blocks of seven bytes that have one hash. A block is found by meeting in the middle: the hash that its last three bytes must have is looked
/// up for each of its first four.
fn of_one_polynomial(multiplier: u32, count: usize) -> Vec<String> {
    let mut ends: HashMap<u32, [u8; 3]> = HashMap::new();
    for number in 0..52 * 62 * 62 {
        let end = spelled::<3>(number);
        ends.entry(polynomial(multiplier, &end)).or_insert(end);
    }
    let power = multiplier.wrapping_pow(3);
    let target = polynomial(multiplier, b"collide");
    let blocks: Vec<String> = (0..52 * 62 * 62 * 62)
        .filter_map(|number| {
            let begin = spelled::<4>(number);
            let end = ends.get(&target.wrapping_sub(polynomial(multiplier, &begin).wrapping_mul(power)))?;
            Some(text(&[&begin[..], end].concat()))
        })
        .take(64)
        .collect();
    assert_eq!(blocks.len(), 64, "too few blocks of one hash");
    (0..count).map(|n| blocks[n / 64].clone() + &blocks[n % 64]).collect()
}

fn fold(state: u64) -> u64 {
    ((state & 0xffff_ffff) * 2_654_435_761) ^ ((state >> 32) * 2_246_822_519).rotate_left(32)
}

/// Bytes as a number, the first the lowest.
fn number(bytes: &[u8]) -> u64 {
    bytes.iter().rev().fold(0, |number, &byte| number << 8 | u64::from(byte))
}

fn folded(word: &[u8]) -> u64 {
    let size = word.len();
    let start = 11_400_714_819_323_198_485 ^ size as u64;
    let (front, last) = match size {
        0 => (start, 0),
        1..=3 => (start, number(&[word[0], word[size / 2], 0, 0, word[size - 1]])),
        4..=7 => (start, number(&word[..4]) | number(&word[size - 4..]) << 32),
        _ => (word[..size - 1].chunks_exact(8).fold(start, |state, eight| fold(state ^ number(eight))), number(&word[size - 8..])),
    };
    fold(fold(front ^ last))
}

/// Words whose hashes share the eleven bits that choose a tree. The hash has no structure that is of use here: one word in 2,048 fits.
fn of_one_tree(count: usize) -> Vec<String> {
    let words = (0..).map(spelled::<6>).filter(|word| folded(word) & 2_047 == 5);
    words.take(count).map(|word| text(&word)).collect()
}

/// The two highest bits of each byte. In all letters and in the underscore they are 01, and five numbers of six with these bits are one.
fn high_bits(bytes: u64) -> u64 {
    bytes & 0xc0c0_c0c0_c0c0_c0c0
}

/// Words of 16 bytes that are equal in the whole hash: the second eight bytes undo what the first made of the state. The state after the first eight
/// is a product of four of them, xor one of the other four, so that the fours that fit each other are looked up by the highest bits that the second
/// eight bytes must have.
fn of_one_fold(count: usize) -> Vec<String> {
    let start = 11_400_714_819_323_198_485 ^ 16;
    let target = fold(start ^ number(b"aaaaaaaa")) ^ number(b"collides");
    let mut ends: HashMap<u64, Vec<(u64, [u8; 4])>> = HashMap::new();
    for end in (0..200_000).map(spelled::<4>) {
        let made = fold((start ^ number(&end) << 32) & 0xffff_ffff_0000_0000);
        ends.entry(high_bits(made)).or_default().push((made, end));
    }
    let words = (0..).map(spelled::<4>).flat_map(|begin| {
        let made = target ^ fold((start ^ number(&begin)) & 0xffff_ffff);
        let fitting = ends.get(&high_bits(made ^ 0x4040_4040_4040_4040)).into_iter().flatten();
        fitting.map(|(other, end)| [&begin[..], end, &(made ^ other).to_le_bytes()].concat()).collect::<Vec<_>>()
    });
    words.filter(|word| word.iter().all(|&byte| byte.is_ascii_alphanumeric() || byte == b'_')).take(count).map(|word| text(&word)).collect()
}

#[cfg(test)]
mod tests {
    use super::*;

    #[test]
    fn words_collide() {
        for multiplier in [31, 16_777_619] {
            let words = words(Hash::Polynomial { multiplier }, 4_096);
            let hashes: Vec<u32> = words.iter().map(|word| polynomial(multiplier, word.as_bytes())).collect();
            assert!(hashes.iter().all(|&hash| hash == hashes[0]));
            let different: std::collections::HashSet<_> = words.iter().collect();
            assert_eq!(different.len(), 4_096);
        }
        let whole = words(Hash::FoldedWhole, 3_850);
        assert!(whole.iter().all(|word| folded(word.as_bytes()) == folded(whole[0].as_bytes())));
        assert_eq!(whole.iter().collect::<std::collections::HashSet<_>>().len(), 3_850);
        assert!(words(Hash::Folded, 100).iter().all(|word| folded(word.as_bytes()) % 2_048 == 5));
    }
}
