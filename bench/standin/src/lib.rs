//! The archive's C names over the plain implementation. `bench/standin/build DIR` makes `DIR/libvegzump.a` of it. It proves nothing: the host
//! tests and the benchmark can be tried on it where the archive is not built.

use std::slice;

#[repr(C)]
pub struct Answer {
    number: u8,
    a: u64,
    b: u64,
    c: u64,
}

fn answer(found: plain::Answer) -> Answer {
    Answer { number: found.number, a: found.a, b: found.b, c: found.c }
}

/// # Safety
/// `from` is valid for `length` bytes, or the length is 0.
unsafe fn bytes<'a>(from: *const u8, length: usize) -> &'a [u8] {
    // A length past all memory is refused before a byte is read, so the slice may be shorter.
    if length == 0 { &[] } else { slice::from_raw_parts(from, length.min(1 << 17)) }
}

/// # Safety
/// `from` is valid for `length` bytes, or the length is 0.
unsafe fn run<'a>(from: *const u8, length: usize) -> &'a [u8] {
    if length == 0 { &[] } else { slice::from_raw_parts(from, length) }
}

/// # Safety
/// `from` is valid for `length` parts, or the length is 0.
unsafe fn room<'a, T>(from: *mut T, length: usize) -> &'a mut [T] {
    if length == 0 { &mut [] } else { slice::from_raw_parts_mut(from, length) }
}

/// # Safety
/// As the header asks.
#[no_mangle]
pub unsafe extern "C" fn vegzump_check(table: *const u8, table_len: usize) -> Answer {
    answer(plain::PRESENT.check(bytes(table, table_len)))
}

/// # Safety
/// As the header asks.
#[no_mangle]
pub unsafe extern "C" fn vegzump_expand(
    table: *const u8,
    table_len: usize,
    formula: *const u8,
    formula_len: usize,
    cells: *mut u32,
    cells_len: usize,
    text: *mut u8,
    text_len: usize,
) -> Answer {
    let (cells, text) = (room(cells, cells_len), room(text, text_len));
    let found = plain::PRESENT.expand(bytes(table, table_len), bytes(formula, formula_len), cells, text);
    #[cfg(feature = "wrong")]
    if found.number == 0 && found.a == 3 {
        text[0] = b'X';
    }
    answer(found)
}

/// # Safety
/// As the header asks.
#[no_mangle]
pub unsafe extern "C" fn vegzump_portions(
    table: *const u8,
    table_len: usize,
    formula: *const u8,
    formula_len: usize,
    written: u64,
    wanted: u64,
    cells: *mut u32,
    cells_len: usize,
    list: *mut u64,
    list_len: usize,
) -> Answer {
    let (cells, list) = (room(cells, cells_len), room(list, list_len));
    answer(plain::PRESENT.portions(bytes(table, table_len), bytes(formula, formula_len), written, wanted, cells, list))
}

#[repr(C)]
pub struct Comparison {
    equal: u8,
    count: u64,
}

/// # Safety
/// As the header asks.
#[no_mangle]
pub unsafe extern "C" fn vegzump_compare(a: *const u8, a_len: usize, b: *const u8, b_len: usize) -> Comparison {
    // Where the lengths differ no byte is read, and a length may be past all memory: any two runs of different lengths stand for these.
    let found = if a_len == b_len { plain::compare(run(a, a_len), run(b, b_len)) } else { plain::compare(&[0], &[]) };
    #[cfg(feature = "wrong")]
    let found = plain::Comparison { count: found.count - u64::from(found.count == 5 && !found.equal), ..found };
    Comparison { equal: u8::from(found.equal), count: found.count }
}

/// # Safety
/// As the header asks.
#[no_mangle]
pub unsafe extern "C" fn vegzump_expand_each(
    table: *const u8,
    table_len: usize,
    formulas: *const u8,
    formulas_len: usize,
    ends: *const usize,
    ends_len: usize,
    answers: *mut u64,
    answers_len: usize,
    cells: *mut u32,
    cells_len: usize,
    text: *mut u8,
    text_len: usize,
) -> usize {
    let count = ends_len.min(answers_len / 4);
    let (ends, answers) = (room(ends.cast_mut(), count), room(answers, 4 * count));
    let formulas = run(formulas, formulas_len);
    let mut found = vec![plain::Answer { number: 0, a: 0, b: 0, c: 0 }; count];
    plain::PRESENT.expand_each(bytes(table, table_len), formulas, ends, room(cells, cells_len), room(text, text_len), &mut found);
    for (numbers, found) in answers.chunks_exact_mut(4).zip(found) {
        numbers.copy_from_slice(&[u64::from(found.number), found.a, found.b, found.c]);
    }
    count
}
