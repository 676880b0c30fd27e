/* The archive from C: the conformance cases (cases.bin), lengths round every limit, nothing at all, many formulas in one call beside one by one, runs that
   differ at each place, several threads. Each part that is passed lies in a heap block of exactly its size, so that a memory checker sees any byte read or written outside.

   Usage: test CASES [THREADS]. The last line is `CASES cases, N failures`. */
#include "vegzump.h"
#include <inttypes.h>
#include <pthread.h>
#include <stdio.h>
#include <stdlib.h>
#include <string.h>

/* A host's stack for a call: what the header states and a little for the test itself. */
#define STACK (VEGZUMP_STACK + (1u << 20))

static pthread_mutex_t lock = PTHREAD_MUTEX_INITIALIZER;
static int failures;

static void fail(const char *what, long n) {
    pthread_mutex_lock(&lock);
    failures++;
    printf("%s %ld\n", what, n);
    pthread_mutex_unlock(&lock);
}

static void expect(const char *what, long n, vegzump_answer found, unsigned number, uint64_t a, uint64_t b, uint64_t c) {
    if (found.number == number && found.a == a && found.b == b && found.c == c) return;
    pthread_mutex_lock(&lock);
    failures++;
    printf("%s %ld: expected %u %" PRIu64 " %" PRIu64 " %" PRIu64 ", found %u %" PRIu64 " %" PRIu64 " %" PRIu64 "\n", what, n, number, a, b, c,
           found.number, found.a, found.b, found.c);
    pthread_mutex_unlock(&lock);
}

static void *block(size_t bytes, int fill) {
    void *p = malloc(bytes);
    if (bytes && !p) exit(2);
    if (bytes) memset(p, fill, bytes);
    return p;
}

static int holds(const void *p, size_t bytes, int fill) {
    for (size_t i = 0; i < bytes; i++)
        if (((const uint8_t *)p)[i] != fill) return 0;
    return 1;
}

/* ---- the conformance cases ---- */

static uint8_t *cases;
static size_t cases_size;

typedef struct {
    size_t at;
} reader;

static uint64_t number(reader *r, int bytes) {
    uint64_t v = 0;
    while (bytes--) v = v << 8 | (r->at < cases_size ? cases[r->at++] : 0);
    return v;
}

static uint8_t *part(reader *r, size_t *size) {
    *size = number(r, 4);
    if (*size > cases_size - r->at) exit(2);
    uint8_t *p = block(*size, 0);
    if (*size) memcpy(p, cases + r->at, *size);
    r->at += *size;
    return p;
}

static long every_case(void) {
    reader r = {0};
    long n = 0;
    for (; r.at < cases_size; n++) {
        size_t table_len, formula_len, written_len;
        uint8_t *table = part(&r, &table_len), *formula = part(&r, &formula_len);
        size_t cells_len = number(&r, 4), text_len = number(&r, 4);
        unsigned owed = number(&r, 4);
        uint64_t a = number(&r, 8), b = number(&r, 8), c = number(&r, 8);
        uint32_t *cells = block(4 * cells_len, 0xAA), *cells_owed = block(4 * cells_len, 0xAA);
        uint8_t *text = block(text_len, 0xEE), *text_owed = block(text_len, 0xEE);
        size_t made = number(&r, 4);
        for (size_t i = 0; i < made; i++) cells_owed[i] = number(&r, 4);
        uint8_t *written = part(&r, &written_len);
        if (written_len) memcpy(text_owed, written, written_len);

        expect("case", n, vegzump_expand(table, table_len, formula, formula_len, cells, cells_len, text, text_len), owed, a, b, c);
        if (cells_len && memcmp(cells, cells_owed, 4 * cells_len)) fail("cells of case", n);
        if (text_len && memcmp(text, text_owed, text_len)) fail("text of case", n);
        if (owed >= 1 && owed <= 13)
            expect("check of case", n, vegzump_check(table, table_len), owed, a, b, c);
        else
            expect("check of case", n, vegzump_check(table, table_len), 0, 0, 0, 0);
        free(table), free(formula), free(cells), free(cells_owed), free(text), free(text_owed), free(written);
    }
    return n;
}

/* ---- tables ---- */

static size_t field(uint8_t *table, size_t at, uint8_t tag, const void *value, size_t size) {
    table[at] = tag;
    table[at + 1] = size >> 8;
    table[at + 2] = size & 255;
    memcpy(table + at + 3, value, size);
    return at + 3 + size;
}

/* A table of `length` bytes: a word gives applications nested to the left, `levels` deep, with a variable at every end. */
static uint8_t *table_of_length(size_t length, size_t *levels) {
    *levels = (length - 30) / 3;
    size_t spare = length - 30 - 3 * *levels, size = 3 * *levels + 2;
    uint8_t *table = block(length, 0), *template = block(size, 0x22);
    for (size_t i = *levels; i < size; i += 2) template[i] = 0x20, template[i + 1] = 0;
    size_t at = field(table, 0, 2, "abc", 1 + spare);
    at = field(table, at, 3, "", 0);
    at = field(table, at, 4, "\0\0\4", 3);
    at = field(table, at, 5, "", 0);
    at = field(table, at, 6, "\1\1", 2);
    at = field(table, at, 7, template, size);
    at = field(table, at, 8, "\0", 1);
    if (at != length) exit(2);
    free(template);
    return table;
}

/* Any number of words, eight at a time; the term is a lone outside name. */
static size_t table_of_words(uint8_t table[200]) {
    size_t at = field(table, 0, 2, "T", 1);
    at = field(table, at, 3, "", 0);
    at = field(table, at, 4, "\0\0\4", 3);
    at = field(table, at, 5, "", 0);
    for (int i = 0; i < 8; i++) at = field(table, at, 6, "\1\1", 2);
    at = field(table, at, 6, "\4\0", 2);
    at = field(table, at, 7, "\10", 1);
    at = field(table, at, 5, "", 0);
    at = field(table, at, 7, "\x20\x10\0", 3);
    return field(table, at, 8, "\0", 1);
}

/* ---- lengths round the limits ---- */

static void table_lengths(void) {
    for (size_t length = VEGZUMP_TABLE_BYTES - 2; length <= VEGZUMP_TABLE_BYTES + 2; length++) {
        size_t levels;
        uint8_t *table = table_of_length(length, &levels);
        int is_long = length > VEGZUMP_TABLE_BYTES;
        size_t made = 2 * levels + 1, cells_len = 4 * made, text_len = 12 * made;
        uint32_t *cells = block(4 * cells_len, 7);
        uint8_t *text = block(text_len, 7);
        expect("check of a table of", length, vegzump_check(table, length), is_long, 0, 0, 0);
        vegzump_answer found = vegzump_expand(table, length, (const uint8_t *)"x", 1, cells, cells_len, text, text_len);
        if (is_long) {
            expect("table of", length, found, 1, 0, 0, 0);
            if (!holds(cells, 4 * cells_len, 7) || !holds(text, text_len, 7)) fail("room at a table of", length);
        } else {
            expect("table of", length, found, 0, made, made, text_len);
            if (memcmp(text + text_len - 13, "mkTermVar(x))", 13)) fail("text of a table of", length);
        }
        free(table), free(cells), free(text);
    }
    /* The length is looked at before any byte. */
    uint8_t one = 0;
    expect("huge table", 0, vegzump_check(&one, SIZE_MAX / 2), 1, 0, 0, 0);
    expect("huge table", 1, vegzump_expand(&one, SIZE_MAX / 2, NULL, 0, NULL, 0, NULL, 0), 1, 0, 0, 0);
}

static void formula_lengths(void) {
    uint8_t table[200];
    size_t table_len = table_of_words(table);
    for (size_t length = VEGZUMP_FORMULA_BYTES - 2; length <= VEGZUMP_FORMULA_BYTES + 2; length++) {
        uint8_t *formula = block(length, ' '), *text = block(16, 7);
        uint32_t *cells = block(32, 7);
        vegzump_answer found = vegzump_expand(table, table_len, formula, length, cells, 8, text, 16);
        if (length > VEGZUMP_FORMULA_BYTES) {
            expect("formula of", length, found, 14, 0, 0, 0);
            if (!holds(cells, 32, 7) || !holds(text, 16, 7)) fail("room at a formula of", length);
        } else {
            expect("formula of", length, found, 0, 1, 1, 12);
            if (cells[0] != 0x20 || cells[1] != 3u << 24 || cells[2] || cells[3] || !holds(cells + 4, 16, 7)) fail("cells at a formula of", length);
            if (memcmp(text, "mkTermVar(T)", 12) || !holds(text + 12, 4, 7)) fail("text at a formula of", length);
        }
        free(formula), free(text), free(cells);
    }
    for (size_t tokens = 4095; tokens <= 4098; tokens++) {
        uint8_t *formula = block(2 * tokens, ' ');
        for (size_t i = 0; i < tokens; i++) formula[2 * i] = 'a' + i % 26;
        uint32_t cells[4];
        uint8_t text[12];
        vegzump_answer found = vegzump_expand(table, table_len, formula, 2 * tokens, cells, 4, text, 12);
        if (tokens == 4095) expect("tokens", tokens, found, 17, 4095, 1, 1);
        else if (tokens == 4096) expect("tokens", tokens, found, 0, 1, 1, 12);
        else expect("tokens", tokens, found, 16, 0, 0, 0);
        free(formula);
    }
    uint8_t one = 0;
    expect("huge formula", 0, vegzump_expand(table, table_len, &one, SIZE_MAX / 2, NULL, 0, NULL, 0), 14, 0, 0, 0);
}

static void rooms(void) {
    size_t length = VEGZUMP_TABLE_BYTES, levels;
    uint8_t *table = table_of_length(length, &levels);
    const uint8_t *x = (const uint8_t *)"x";
    size_t made = 2 * levels + 1, cells_len = 4 * made, text_len = 12 * made;
    for (size_t spare = 0; spare < 4; spare++) { /* three spare numbers are no row */
        size_t lent = cells_len - 4 + spare;
        uint32_t *cells = block(4 * lent, 7);
        uint8_t *text = block(text_len, 7);
        expect("rows", lent, vegzump_expand(table, length, x, 1, cells, lent, text, text_len), 21, 1, 0, 0);
        if (!holds(cells + cells_len - 4, 4 * spare, 7) || !holds(text, text_len, 7)) fail("room at rows", lent);
        free(cells), free(text);
    }
    for (size_t lent = text_len - 2; lent <= text_len + 1; lent++) {
        uint32_t *cells = block(4 * cells_len, 7);
        uint8_t *text = block(lent, 7);
        vegzump_answer found = vegzump_expand(table, length, x, 1, cells, cells_len, text, lent);
        if (lent < text_len) {
            expect("text", lent, found, 24, text_len, 0, 0);
            if (!holds(text, lent, 7)) fail("room at text", lent);
        } else {
            expect("text", lent, found, 0, made, made, text_len);
            if (!holds(text + text_len, lent - text_len, 7)) fail("room at text", lent);
        }
        free(cells), free(text);
    }
    /* More rows than are ever made. */
    size_t most = 4 * (VEGZUMP_ROWS + 9);
    uint32_t *cells = block(4 * most, 7);
    uint8_t *text = block(text_len, 7);
    expect("many rows", most, vegzump_expand(table, length, x, 1, cells, most, text, text_len), 0, made, made, text_len);
    if (!holds(cells + cells_len, 4 * (most - cells_len), 7)) fail("room at many rows", most);
    free(cells), free(text), free(table);
}

/* ---- portions ---- */

/* A number, or two with a `+` between them, which give an application of the first to itself. */
static size_t table_of_numbers(uint8_t table[100]) {
    size_t at = field(table, 0, 1, "+", 1);
    at = field(table, at, 3, "", 0);
    at = field(table, at, 4, "\0\0\4", 3);
    at = field(table, at, 5, "", 0);
    at = field(table, at, 6, "\2\0", 2);
    at = field(table, at, 7, "\x27\0", 2);
    at = field(table, at, 5, "", 0);
    at = field(table, at, 6, "\0\0", 2);
    at = field(table, at, 6, "\2\0", 2);
    at = field(table, at, 7, "\x22\x27\1\x27\1", 5);
    return field(table, at, 8, "\0", 1);
}

static void portions(void) {
    uint8_t table[100];
    size_t table_len = table_of_numbers(table);
    for (size_t lent = 0; lent <= 8; lent++) {
        uint32_t *cells = block(4 * 12, 7);
        uint64_t *list = block(8 * lent, 7);
        vegzump_answer found = vegzump_portions(table, table_len, (const uint8_t *)"+999999999", 10, 9999, 10000, cells, 12, list, lent);
        if (lent < 6) {
            expect("list", lent, found, 24, 6, 0, 0);
            if (!holds(list, 8 * lent, 7)) fail("room at list", lent);
        } else {
            expect("list", lent, found, 0, 3, 3, 6);
            for (size_t i = 0; i < 6; i++) {
                uint64_t rest = list[i / 3 * 3] * 10000 - list[i / 3 * 3 + 1] * 9999;
                if (i % 3 == 0 ? list[i] != 999999999 : i % 3 == 1 ? rest >= 9999 : list[i] != rest) fail("entry at list", lent);
            }
            if (!holds(list + 6, 8 * (lent - 6), 7)) fail("room at list", lent);
        }
        free(cells), free(list);
    }
    /* The counts are looked at before the table, and nothing is written. */
    static const uint64_t counts[][2] = {{0, 1}, {1, 0}, {10001, 1}, {1, 10001}, {UINT64_MAX, 1}, {1, UINT64_MAX}};
    for (size_t i = 0; i < sizeof counts / sizeof *counts; i++) {
        uint32_t *cells = block(16, 7);
        uint64_t *list = block(24, 7);
        uint8_t one = 0;
        expect("counts", i, vegzump_portions(table, table_len, (const uint8_t *)"7", 1, counts[i][0], counts[i][1], cells, 4, list, 3), 25, 0, 0, 0);
        expect("counts and a huge table", i, vegzump_portions(&one, SIZE_MAX / 2, NULL, 0, counts[i][0], counts[i][1], cells, 4, list, 3), 25, 0, 0, 0);
        if (!holds(cells, 16, 7) || !holds(list, 24, 7)) fail("room at counts", i);
        free(cells), free(list);
    }
    expect("nothing", 2, vegzump_portions(NULL, 0, NULL, 0, 1, 1, NULL, 0, NULL, 0), 4, 0, 0, 0);
}

/* ---- comparisons ---- */

static void expect_comparison(const char *what, long n, vegzump_comparison found, unsigned equal, uint64_t count) {
    if (found.equal == equal && found.count == count) return;
    pthread_mutex_lock(&lock);
    failures++;
    printf("%s %ld: expected %u %" PRIu64 ", found %u %" PRIu64 "\n", what, n, equal, count, found.equal, found.count);
    pthread_mutex_unlock(&lock);
}

/* Every length up to four words and a tail: equal, one byte shorter or longer, and another byte at each place, in its highest and in its lowest bit. */
static void comparisons(void) {
    for (size_t length = 0; length < 40; length++) {
        size_t words = length / 8;
        uint8_t *a = block(length, 0), *b = block(length, 0), *longer = block(length + 1, 0);
        for (size_t i = 0; i < length; i++) a[i] = b[i] = longer[i] = 37 * i + length;
        expect_comparison("equal runs of", length, vegzump_compare(a, length, b, length), 1, words + length % 8);
        expect_comparison("a run with itself of", length, vegzump_compare(a, length, a, length), 1, words + length % 8);
        expect_comparison("one byte more than", length, vegzump_compare(a, length, longer, length + 1), 0, 0);
        expect_comparison("one byte less than one more than", length, vegzump_compare(longer, length + 1, a, length), 0, 0);
        for (size_t i = 0; i < length; i++)
            for (int bit = 1; bit <= 128; bit += 127) {
                b[i] ^= bit;
                uint64_t owed = i < 8 * words ? i / 8 + 1 : words + i - 8 * words + 1;
                expect_comparison("another byte in runs of", length, vegzump_compare(a, length, b, length), 0, owed);
                expect_comparison("another byte in runs, the other way, of", length, vegzump_compare(b, length, a, length), 0, owed);
                b[i] ^= bit;
            }
        free(a), free(b), free(longer);
    }
    size_t length = 1 << 20;
    uint8_t *a = block(length, 0xFF), *b = block(length, 0xFF);
    expect_comparison("equal runs of", length, vegzump_compare(a, length, b, length), 1, length / 8);
    b[length - 1] = 0;
    expect_comparison("another last byte in runs of", length, vegzump_compare(a, length, b, length), 0, length / 8);
    free(a), free(b);
    /* The lengths are looked at before any byte, and an empty run may be anywhere. */
    uint8_t one = 0;
    expect_comparison("huge run", 0, vegzump_compare(&one, SIZE_MAX / 2, &one, 1), 0, 0);
    expect_comparison("huge run", 1, vegzump_compare(NULL, 0, &one, SIZE_MAX / 2), 0, 0);
    expect_comparison("empty runs", 0, vegzump_compare(NULL, 0, NULL, 0), 1, 0);
    expect_comparison("empty runs", 1, vegzump_compare(&one, 0, NULL, 0), 1, 0);
}

/* ---- many formulas in one call, beside one by one ---- */

typedef struct {
    uint64_t state;
} draws;

static size_t draw(draws *d, size_t below) {
    d->state = d->state * 6364136223846793005u + 1442695040888963407u;
    return (size_t)(d->state >> 33) % below;
}

/* Words of formulas of the house, and bytes that may not stand in one. */
static size_t drawn_formula(draws *d, uint8_t *formula) {
    static const char *const parts[] = {"p", "q", "age", "fun", "(", ")", ".", "{", "}", "=", "7", "fun(p)", " ", "p", "q.age", "\x80", "p(q)", "true", "*"};
    size_t size = 0;
    for (size_t left = draw(d, 9); left; left--) {
        const char *part = parts[draw(d, sizeof parts / sizeof *parts - (draw(d, 8) != 0) * 3)];
        memcpy(formula + size, part, strlen(part));
        size += strlen(part);
    }
    return size;
}

/* An end that may lie before the one before, or behind the buffer. */
static size_t drawn_end(draws *d, size_t own, size_t all) {
    switch (draw(d, 12)) {
    case 0: return draw(d, all + 1);
    case 1: return all + draw(d, 3);
    case 2: return draw(d, 2) ? SIZE_MAX - draw(d, 2) : 0;
    default: return own;
    }
}

static void one_round(draws *d, long round, const uint8_t *table, size_t table_len) {
    uint8_t bytes[16 * 64];
    size_t all = 0, count = draw(d, 16), own[16], spare = draw(d, 5) ? 4 * count : draw(d, 70);
    for (size_t i = 0; i < count; i++) all += drawn_formula(d, bytes + all), own[i] = all;
    uint8_t *formulas = block(all, 0);
    if (all) memcpy(formulas, bytes, all);
    size_t *ends = block(count * sizeof *ends, 0);
    for (size_t i = 0; i < count; i++) ends[i] = drawn_end(d, own[i], all);
    size_t cells_len = draw(d, 3) ? 400 : draw(d, 60), text_len = draw(d, 3) ? 4000 : draw(d, 300);
    uint64_t *answers = block(8 * spare, 0xBB), *answers_owed = block(8 * spare, 0xBB);
    uint32_t *cells = block(4 * cells_len, 0xAA), *cells_owed = block(4 * cells_len, 0xAA);
    uint8_t *text = block(text_len, 0xEE), *text_owed = block(text_len, 0xEE);

    size_t expanded = count < spare / 4 ? count : spare / 4, from = 0, at = 0;
    for (size_t i = 0; i < expanded; from = ends[i], i++) {
        size_t last = ends[i] < all ? ends[i] : all, first = from < last ? from : last;
        vegzump_answer r = vegzump_expand(table, table_len, formulas + first, last - first, cells_owed, cells_len, text_owed + at, text_len - at);
        answers_owed[4 * i] = r.number, answers_owed[4 * i + 1] = r.a, answers_owed[4 * i + 2] = r.b, answers_owed[4 * i + 3] = r.c;
        if (!r.number) at += r.c;
    }
    size_t found = vegzump_expand_each(table, table_len, formulas, all, ends, count, answers, spare, cells, cells_len, text, text_len);
    if (found != expanded) fail("count of round", round);
    if (spare && memcmp(answers, answers_owed, 8 * spare)) fail("answers of round", round);
    if (cells_len && memcmp(cells, cells_owed, 4 * cells_len)) fail("cells of round", round);
    if (text_len && memcmp(text, text_owed, text_len)) fail("text of round", round);
    free(formulas), free(ends), free(answers), free(answers_owed), free(cells), free(cells_owed), free(text), free(text_owed);
}

/* The tables of cases that are not too long, those that do not pass too. */
static void many_formulas(void) {
    draws d = {1};
    reader r = {0};
    for (long n = 0; r.at < cases_size; n++) {
        size_t table_len, skipped;
        uint8_t *table = part(&r, &table_len);
        free(part(&r, &skipped));
        number(&r, 8), number(&r, 4), number(&r, 8), number(&r, 8), number(&r, 8);
        size_t made = number(&r, 4);
        r.at += 4 * made;
        free(part(&r, &skipped));
        if (table_len < 1000)
            for (long round = 0; round < 2; round++) one_round(&d, 2 * n + round, table, table_len);
        free(table);
    }
    uint8_t table[200];
    uint64_t answers[4];
    size_t table_len = table_of_words(table), end = 0;
    if (vegzump_expand_each(table, table_len, NULL, 0, NULL, 0, NULL, 0, NULL, 0, NULL, 0)) fail("no formulas", 0);
    if (vegzump_expand_each(table, table_len, NULL, 0, &end, 1, NULL, 0, NULL, 0, NULL, 0)) fail("no room for answers", 0);
    if (vegzump_expand_each(NULL, 0, NULL, 0, &end, 1, answers, 4, NULL, 0, NULL, 0) != 1 || answers[0] != 4) fail("no table", 0);
}

static void nothing_at_all(void) {
    uint8_t one = 0, table[200];
    uint32_t cells[4];
    size_t table_len = table_of_words(table);
    expect("empty", 0, vegzump_check(&one, 0), 4, 0, 0, 0);
    expect("empty", 1, vegzump_check(NULL, 0), 4, 0, 0, 0);
    expect("empty", 2, vegzump_expand(NULL, 0, NULL, 0, NULL, 0, NULL, 0), 4, 0, 0, 0);
    expect("empty", 3, vegzump_expand(table, table_len, NULL, 0, NULL, 0, NULL, 0), 21, 0, 0, 0);
    expect("empty", 4, vegzump_expand(table, table_len, NULL, 0, cells, 4, NULL, 0), 24, 12, 0, 0);
}

static void *all(void *count) {
    *(long *)count = every_case();
    table_lengths();
    formula_lengths();
    rooms();
    portions();
    comparisons();
    many_formulas();
    nothing_at_all();
    return NULL;
}

int main(int argc, char **argv) {
    int threads = argc > 2 ? atoi(argv[2]) : 4;
    FILE *f = fopen(argc > 1 ? argv[1] : "crates/conformance/data/cases.bin", "rb");
    if (!f || threads < 1 || threads > 64) return puts("usage: test CASES [THREADS]"), 2;
    fseek(f, 0, SEEK_END);
    cases_size = ftell(f);
    rewind(f);
    cases = block(cases_size, 0);
    if (!cases_size || fread(cases, 1, cases_size, f) != cases_size) return puts("no cases"), 2;
    fclose(f);
    if (sizeof(vegzump_answer) != 32 || offsetof(vegzump_answer, a) != 8) fail("layout of the answer", sizeof(vegzump_answer));
    if (sizeof(vegzump_comparison) != 16 || offsetof(vegzump_comparison, count) != 8) fail("layout of a comparison", sizeof(vegzump_comparison));

    pthread_attr_t attr;
    pthread_t id[64];
    long count[64];
    pthread_attr_init(&attr);
    if (pthread_attr_setstacksize(&attr, STACK)) return puts("no stack"), 2;
    for (int i = 0; i < threads; i++)
        if (pthread_create(&id[i], &attr, all, &count[i])) return puts("no thread"), 2;
    for (int i = 0; i < threads; i++) pthread_join(id[i], NULL);
    free(cases);
    printf("%ld cases on %d threads, %d failures\n", count[0], threads, failures);
    return failures != 0;
}
