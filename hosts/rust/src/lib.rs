//! Safe calls of the proved phrase expander.
//!
//! A phrase table and a formula go in; a core term comes out, as rows of cells and as text, with every variable belonging to the binder that its
//! origin calls for. What the calls answer and write is proved for every input; that the declarations below fit the archive is tested.
//!
//! ```no_run
//! let table = std::fs::read("phrases.tab").unwrap();
//! match vegzump::expand_whole(&table, b"fun(p)p(b)") {
//!     Ok(expansion) => println!("{}", expansion.text),
//!     Err(refusal) => println!("refused: {refusal}"),
//! }
//! ```
//!
//! The calls keep nothing between them and may run on several threads at once. They use up to [`STACK`] bytes of stack at the worst, more than a
//! spawned thread has by default: give such a thread that much with `std::thread::Builder::stack_size`.

mod causes;

pub use causes::Refusal;

/// Bytes of stack that a call takes at the worst.
pub const STACK: usize = 3_670_016;

/// The longest table and formula that are not refused for their length.
pub const TABLE_BYTES: usize = 16_384;
pub const FORMULA_BYTES: usize = 65_535;

/// The most rows that an expansion makes, and the numbers in a row.
pub const ROWS: usize = 16_384;
pub const ROW_CELLS: usize = 4;

/// What an accepted formula gave.
#[derive(Clone, Copy, Debug, PartialEq, Eq)]
pub struct Accepted {
    /// Rows of cells made, unused ones too.
    pub cells: usize,
    /// Constructors of the term, those of a shared part at each of its places.
    pub constructors: usize,
    /// Bytes of text; for [`portions`], 64-bit numbers of the list.
    pub text: usize,
}

/// What a call answers.
pub type Answer<T> = Result<T, Refusal>;

mod sys {
    #[repr(C)]
    pub struct Answer {
        pub number: u8,
        pub a: u64,
        pub b: u64,
        pub c: u64,
    }

    #[repr(C)]
    pub struct Comparison {
        pub equal: u8,
        pub count: u64,
    }

    extern "C" {
        pub fn vegzump_check(table: *const u8, table_len: usize) -> Answer;
        pub fn vegzump_expand(
            table: *const u8,
            table_len: usize,
            formula: *const u8,
            formula_len: usize,
            cells: *mut u32,
            cells_len: usize,
            text: *mut u8,
            text_len: usize,
        ) -> Answer;
        pub fn vegzump_portions(
            table: *const u8,
            table_len: usize,
            formula: *const u8,
            formula_len: usize,
            written: u64,
            wanted: u64,
            cells: *mut u32,
            cells_len: usize,
            list: *mut u64,
            list_len: usize,
        ) -> Answer;
        pub fn vegzump_expand_each(
            table: *const u8,
            table_len: usize,
            formulas: *const u8,
            formulas_len: usize,
            ends: *const usize,
            ends_len: usize,
            answers: *mut u64,
            answers_len: usize,
            cells: *mut u32,
            cells_len: usize,
            text: *mut u8,
            text_len: usize,
        ) -> usize;
        pub fn vegzump_compare(a: *const u8, a_len: usize, b: *const u8, b_len: usize) -> Comparison;
    }
}

/// An expansion's number and values as an answer.
fn answer(number: u8, [a, b, c]: [u64; 3]) -> Answer<Accepted> {
    match number {
        0 => Ok(Accepted { cells: a as usize, constructors: b as usize, text: c as usize }),
        number => Err(Refusal::of(number, a, b, c)),
    }
}

/// Checks a phrase table. A refusal has one of the numbers 1 to 13.
pub fn check(table: &[u8]) -> Answer<()> {
    // SAFETY: the slice is valid for its length.
    let found = unsafe { sys::vegzump_check(table.as_ptr(), table.len()) };
    match found.number {
        0 => Ok(()),
        number => Err(Refusal::of(number, found.a, found.b, found.c)),
    }
}

/// Checks the table, expands the formula into `cells`, [`ROW_CELLS`] numbers a row, and prints its term into `text`.
///
/// Rows are written from the front, and those made stay when a later step refuses. The text is written on acceptance only. All that lies past what
/// is written is as it was.
pub fn expand(table: &[u8], formula: &[u8], cells: &mut [u32], text: &mut [u8]) -> Answer<Accepted> {
    // SAFETY: each slice is valid for its length, and the two that are written are borrowed alone.
    let found = unsafe {
        sys::vegzump_expand(
            table.as_ptr(),
            table.len(),
            formula.as_ptr(),
            formula.len(),
            cells.as_mut_ptr(),
            cells.len(),
            text.as_mut_ptr(),
            text.len(),
        )
    };
    answer(found.number, [found.a, found.b, found.c])
}

/// Expands many formulas under one table, which is checked once. Each answers and writes what [`expand`] gives with what it is lent here.
///
/// Formula `i` is the bytes of `formulas` from `ends[i - 1]`, or 0 for the first, to `ends[i]`, as far as there are any. All are lent `cells`, each as the one
/// before left them, and each the part of `text` behind the texts of those accepted before it, which lie one behind the other from the front. A text longer
/// than what is left is refused and takes no room. There are as many answers as ends.
pub fn expand_each(table: &[u8], formulas: &[u8], ends: &[usize], cells: &mut [u32], text: &mut [u8]) -> Vec<Answer<Accepted>> {
    let mut answers = vec![[0u64; 4]; ends.len()];
    // SAFETY: each slice is valid for its length, and those that are written are borrowed alone; an array of four numbers is four numbers.
    let count = unsafe {
        sys::vegzump_expand_each(
            table.as_ptr(),
            table.len(),
            formulas.as_ptr(),
            formulas.len(),
            ends.as_ptr(),
            ends.len(),
            answers.as_mut_ptr().cast(),
            4 * answers.len(),
            cells.as_mut_ptr(),
            cells.len(),
            text.as_mut_ptr(),
            text.len(),
        )
    };
    answers[..count].iter().map(|&[number, a, b, c]| answer(number as u8, [a, b, c])).collect()
}

/// Expands the formula as [`expand`] does, and writes into `list`, in place of its text, the numbers of its term for another count of portions: three for each
/// number of the term, from the left and at each of its places.
///
/// The list is written on acceptance only; [`Refusal::TextTooLong`] tells how many 64-bit numbers it needs, and a count of portions that is 0 or over 10,000 is
/// [`Refusal::BadPortions`], before the table is looked at.
pub fn portions(table: &[u8], formula: &[u8], written: u64, wanted: u64, cells: &mut [u32], list: &mut [u64]) -> Answer<Accepted> {
    // SAFETY: each slice is valid for its length, and the two that are written are borrowed alone.
    let found = unsafe {
        sys::vegzump_portions(
            table.as_ptr(),
            table.len(),
            formula.as_ptr(),
            formula.len(),
            written,
            wanted,
            cells.as_mut_ptr(),
            cells.len(),
            list.as_mut_ptr(),
            list.len(),
        )
    };
    answer(found.number, [found.a, found.b, found.c])
}

/// A number of a formula's term for another count of portions: `grams * written + remainder == number * wanted`, and `remainder < written`.
#[derive(Clone, Copy, Debug, PartialEq, Eq)]
pub struct Portion {
    pub number: u64,
    pub grams: u64,
    pub remainder: u64,
}

/// All numbers of a formula's term for another count of portions, with as much room as the formula needs.
///
/// ```no_run
/// let table = std::fs::read("phrases.tab").unwrap();
/// for portion in vegzump::portions_whole(&table, b"{oats=80 milk=200}", 4, 120).unwrap() {
///     println!("{} g, {} of 4 over", portion.grams, portion.remainder);
/// }
/// ```
pub fn portions_whole(table: &[u8], formula: &[u8], written: u64, wanted: u64) -> Answer<Vec<Portion>> {
    let mut cells = vec![0; ROWS * ROW_CELLS];
    let mut list = vec![0; 3 * 64];
    let mut answer = portions(table, formula, written, wanted, &mut cells, &mut list);
    if let Err(Refusal::TextTooLong { needed }) = answer {
        list.resize(needed as usize, 0);
        answer = portions(table, formula, written, wanted, &mut cells, &mut list);
    }
    let entries = list[..answer?.text].chunks_exact(3);
    Ok(entries.map(|entry| Portion { number: entry[0], grams: entry[1], remainder: entry[2] }).collect())
}

/// Whether two runs of bytes are equal, and how many comparisons it took to tell.
#[derive(Clone, Copy, Debug, PartialEq, Eq)]
pub struct Comparison {
    pub equal: bool,
    pub count: u64,
}

/// Compares two runs of any bytes as spellings are compared: words of eight bytes from the front, then the tail of fewer than eight byte by byte. Each is one
/// comparison. If the lengths differ there is none, else `count` has all up to and with the first that fails.
///
/// ```no_run
/// let found = vegzump::compare(b"north_ward_oats", b"north_ward_milk");
/// assert_eq!(found, vegzump::Comparison { equal: false, count: 5 }); // `north_wa`, and `rd_o` byte by byte
/// ```
pub fn compare(a: &[u8], b: &[u8]) -> Comparison {
    // SAFETY: each slice is valid for its length.
    let found = unsafe { sys::vegzump_compare(a.as_ptr(), a.len(), b.as_ptr(), b.len()) };
    Comparison { equal: found.equal != 0, count: found.count }
}

/// As many formulas as one call of the archive is handed.
const AT_ONCE: usize = 256;

/// The texts of many formulas under one table, in their order, with as much room as each needs: [`Refusal::TextTooLong`] is never among them, and
/// [`Refusal::NoRow`] only past [`ROWS`]. The table is checked once for many of them.
///
/// ```no_run
/// let table = std::fs::read("phrases.tab").unwrap();
/// for answer in vegzump::expand_texts(&table, ["x*y", "fun(p)p(b)"]) {
///     match answer {
///         Ok(text) => println!("{text}"),
///         Err(refusal) => println!("refused: {refusal}"),
///     }
/// }
/// ```
pub fn expand_texts<F: AsRef<[u8]>>(table: &[u8], formulas: impl IntoIterator<Item = F>) -> Vec<Answer<String>> {
    let (mut bytes, mut ends) = (Vec::new(), Vec::new());
    for formula in formulas {
        bytes.extend_from_slice(formula.as_ref());
        ends.push(bytes.len());
    }
    let (mut cells, mut text) = (vec![0; ROWS * ROW_CELLS], vec![0; 1 << 16]);
    let mut texts = Vec::with_capacity(ends.len());
    while texts.len() < ends.len() {
        let from = if texts.is_empty() { 0 } else { ends[texts.len() - 1] };
        let ahead: Vec<usize> = ends[texts.len()..].iter().take(AT_ONCE).map(|end| end - from).collect();
        let mut at = 0;
        for answer in expand_each(table, &bytes[from..], &ahead, &mut cells, &mut text) {
            match answer {
                Ok(accepted) => {
                    let own = text[at..at + accepted.text].to_vec();
                    texts.push(Ok(String::from_utf8(own).expect("words, digits and parentheses are ASCII")));
                    at += accepted.text;
                }
                // The formula is the first of the next call, with more room.
                Err(Refusal::TextTooLong { needed }) => {
                    text.resize((needed as usize).max(2 * text.len()), 0);
                    break;
                }
                Err(refusal) => texts.push(Err(refusal)),
            }
        }
    }
    texts
}

/// A whole expansion in memory of its own.
#[derive(Clone, Debug, PartialEq, Eq)]
pub struct Expansion {
    pub rows: Vec<[u32; ROW_CELLS]>,
    pub constructors: usize,
    pub text: String,
}

/// Expands with as much room as the formula needs, so that no refusal is for want of room ([`Refusal::TextTooLong`] never, [`Refusal::NoRow`] only
/// past [`ROWS`]).
pub fn expand_whole(table: &[u8], formula: &[u8]) -> Answer<Expansion> {
    let mut cells = vec![0; ROWS * ROW_CELLS];
    let mut text = vec![0; 4_096];
    let mut answer = expand(table, formula, &mut cells, &mut text);
    if let Err(Refusal::TextTooLong { needed }) = answer {
        text.resize(needed as usize, 0);
        answer = expand(table, formula, &mut cells, &mut text);
    }
    let accepted = answer?;
    text.truncate(accepted.text);
    let rows = cells.chunks_exact(ROW_CELLS).take(accepted.cells).map(|row| [row[0], row[1], row[2], row[3]]).collect();
    let text = String::from_utf8(text).expect("words, digits and parentheses are ASCII");
    Ok(Expansion { rows, constructors: accepted.constructors, text })
}
