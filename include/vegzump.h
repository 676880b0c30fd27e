/* Vegzump for C and C++: a phrase expander, proved. Link target/staticlib/libvegzump.a (`tools/make archive`), x86-64 Linux, or what hosts/install
   puts under a prefix; hosts/README.md has other targets.

   What each call answers and writes is proved for every input. What no proof covers: this header and the compiler's back end (both tested by
   hosts/c/test.c), and what the caller has to see to:

   - A pointer is valid for the length given with it. With length 0 it may be anything, NULL too.
   - `cells`, `text`, `answers` and `list`, which are written, overlap neither each other nor what is only read. What is only read may overlap.
   - The thread has stack enough: VEGZUMP_STACK at the worst, VEGZUMP_STACK_ORDINARY for formulas of ordinary size (tests/stack measures both).

   Any bytes of any length are a right input. The calls have no global state, allocate nothing, read no file and never block or fail otherwise than
   by the answer, so they may run on several threads at once, each with cells and text of its own. */
#ifndef VEGZUMP_H
#define VEGZUMP_H

#include <stddef.h>
#include <stdint.h>

#ifdef __cplusplus
extern "C" {
#endif

/* Bytes of stack: at every limit of the language, and for the formulas of a kitchen's day. As tests/stack measures them. */
#define VEGZUMP_STACK 3670016u
#define VEGZUMP_STACK_ORDINARY 196608u

/* As much as a call ever reads or makes. Longer tables and formulas are refused; more cells or text may be lent, and are left as they were. */
#define VEGZUMP_TABLE_BYTES 16384u
#define VEGZUMP_FORMULA_BYTES 65535u
#define VEGZUMP_ROWS 16384u    /* of four cells each */
#define VEGZUMP_ROW_CELLS 4u

/* number is 0 on acceptance, else the cause of a refusal; values that are not listed are 0. A place is the offset of a field's tag in the table, or the
   table's length if something is missing at its end; a token is an index, from 0, at the end of the formula the count of tokens.

     0  accepted  [a cells made, b constructors of the term, c length of the text; all 0 for vegzump_check]
   Of the table:
     1  the table has more than 16,384 bytes
     2  a field of the table runs past its end  [a place]
     3  a tag, a length or a value that is not known  [a place]
     4  a field is out of order, or missing  [a place]
     5  a keyword or outside name is badly spelled, or stands twice  [a place]
     6  more keywords, names, blocks, alternatives or items than allowed  [a place]
     7  a nonterminal is added that is defined already  [a place]
     8  nothing to extend or update: defined in this block, not defined earlier, or with another signature  [a place]
     9  something is used that is not defined: nonterminal, keyword, name, variable  [a place]
    10  a template is cut, has bytes left over or an unknown byte  [a place]
    11  a sort or a count of arguments is wrong; the root has parameters or is no Term  [a place]
    12  left recursion: a nonterminal reaches itself before any token is read  [a lowest such nonterminal]
    13  two alternatives share a token that they can begin with, or both can be empty  [a nonterminal, b lowest shared bit (64: both empty)]
   Of the formula:
    14  the formula has more than 65,535 bytes
    15  a byte that may not stand in a formula, a word over 31 bytes, a number over 999,999,999  [a offset of its start]
    16  more than 4,096 tokens
    17  a token does not fit  [a token, b what would have fitted at the item where the run stopped (bit 0 a word, bit 1 a number, bit k + 2 keyword
        k), c how many kinds that is]
    18  a token is left over behind a whole formula  [a token]
    19  nested too deeply: a call when 1,024 are open  [a token]
    20  more than 65,536 calls  [a token]
    21  no row is left for the next cell, or 16,384 are made  [a token]
   Of the term and what is written of it:
    22  the term has more than 16,384 constructors  [a cells made]
    23  a fresh name is a variable under no binder made with it  [a its place among the constructors, from the left, from 0]
    24  the text, or the list in its place, is longer than its buffer  [a length needed]
   Of portions:
    25  a count of portions is 0 or over 10,000 */
typedef struct vegzump_answer {
    uint8_t number;
    uint64_t a, b, c;
} vegzump_answer;

/* Checks a phrase table: number 0, or a refusal 1 to 13. */
vegzump_answer vegzump_check(const uint8_t *table, size_t table_len);

/* Checks the table, expands the formula and prints its term.

   cells_len counts 32-bit numbers, four a row. Each constructor made is a row: its code, then its arguments, spare ones 0; an argument is a row
   (from 0), a name (class x 2^24 + number; class 1 a word of the formula, 2 fresh, 3 an outside name), a label's spelling number or a number's
   value. Rows are written from the front, and rows made stay when a later step refuses. The text is written from the front on acceptance only,
   without a closing 0. All that lies past what is written is as it was. */
vegzump_answer vegzump_expand(const uint8_t *table, size_t table_len, const uint8_t *formula, size_t formula_len,
                              uint32_t *cells, size_t cells_len, uint8_t *text, size_t text_len);

/* Expands many formulas under one table, which is checked once. Each formula answers and writes what vegzump_expand gives with what it is lent here; a short
   one takes half of its time or less.

   Formula i is the bytes of `formulas` from ends[i - 1], or 0 for the first, to ends[i], as far as there are any: none if it does not end behind the one before.
   As many are expanded as have an end and four places in `answers`, and the call returns how many. answers_len counts 64-bit numbers; the four of an answer are
   number, a, b and c of a vegzump_answer, and they lie in order.

   `cells` is lent to each formula, as the one before left it. `text` is lent to each from behind the texts of those accepted before it: the text of an accepted
   formula begins where the lengths c of those before it add up to. A text that is longer than what is left is refused (24) and takes no room; give
   such a formula a call of its own, or begin the next call with it. All that lies past what is written is as it was. */
size_t vegzump_expand_each(const uint8_t *table, size_t table_len, const uint8_t *formulas, size_t formulas_len,
                           const size_t *ends, size_t ends_len, uint64_t *answers, size_t answers_len,
                           uint32_t *cells, size_t cells_len, uint8_t *text, size_t text_len);

/* Expands the formula as vegzump_expand does, and writes, in place of its text, the numbers of its term for another count of portions. For each number of the
   term, from the left and at each of its places, `list` has three: the number, the whole grams and the remainder, with
   grams x written + remainder = number x wanted and the remainder below written.

   list_len counts 64-bit numbers, three an entry, and so do c of an acceptance and a of 24. A count of portions that is 0 or over 10,000 is refused with 25
   before the table is looked at, and leaves all as it was. The list is written from the front on acceptance only; what lies past it is as it was. */
vegzump_answer vegzump_portions(const uint8_t *table, size_t table_len, const uint8_t *formula, size_t formula_len,
                                uint64_t written, uint64_t wanted, uint32_t *cells, size_t cells_len, uint64_t *list, size_t list_len);

/* equal is 1 if two runs of bytes are equal, else 0; count is how many comparisons it took to tell. */
typedef struct vegzump_comparison {
    uint8_t equal;
    uint64_t count;
} vegzump_comparison;

/* Compares two runs of any bytes as the library compares spellings: eight bytes at a time from the front, each eight as one 64-bit number, then the tail of fewer
   than eight byte by byte. Each is one comparison. If the lengths differ there is none, and no byte is looked at; else count has all up to and with the
   first that fails, for equal runs of n bytes n / 8 + n % 8. Nothing is refused, and nothing is written. */
vegzump_comparison vegzump_compare(const uint8_t *a, size_t a_len, const uint8_t *b, size_t b_len);

/* The version of the library, as "0.1.0". Only the shared object has it; the version of its symbols is VEGZUMP_0. */
extern const char vegzump_version[];

#ifdef __cplusplus
}
#endif
#endif
