/* The numbers of a formula for another count of portions.

       gcc -Iinclude hosts/c/portions.c target/staticlib/libvegzump.a -o portions
       ./portions phrases.tab 4 120 <formula

   Prints `ok`, the cells, the constructors and the 64-bit numbers of the list; then the term; then a line for each of its numbers: the number, the whole grams
   and the remainder. A refusal is one line, `refused` with its number and values; include/vegzump.h says what they are. */
#include "vegzump.h"
#include <errno.h>
#include <inttypes.h>
#include <stdio.h>
#include <stdlib.h>

#define ENTRIES VEGZUMP_ROWS /* a term has at most 16,384 constructors, as many as rows may be made */

static uint8_t table[VEGZUMP_TABLE_BYTES + 1], formula[VEGZUMP_FORMULA_BYTES + 1]; /* one more byte each: what is too long is seen to be */
static uint32_t cells[VEGZUMP_ROWS * VEGZUMP_ROW_CELLS];
static uint64_t list[3 * ENTRIES];
static uint8_t text[46 * ENTRIES]; /* no constructor takes more bytes */

/* A count of portions; what is no number of 64 bits is 0, and is refused as such. */
static uint64_t count(const char *word) {
    char *end;
    errno = 0;
    uint64_t n = strtoull(word, &end, 10);
    return errno || *end || *word < '0' || *word > '9' ? 0 : n;
}

int main(int argc, char **argv) {
    FILE *file = argc == 4 ? fopen(argv[1], "rb") : NULL;
    if (!file) return fputs("usage: portions TABLE WRITTEN WANTED <FORMULA\n", stderr), 2;
    size_t table_len = fread(table, 1, sizeof table, file), formula_len = fread(formula, 1, sizeof formula, stdin);
    fclose(file);
    vegzump_answer found = vegzump_portions(table, table_len, formula, formula_len, count(argv[2]), count(argv[3]), cells, sizeof cells / sizeof *cells,
                                            list, sizeof list / sizeof *list);
    if (found.number) return printf("refused %u %" PRIu64 " %" PRIu64 " %" PRIu64 "\n", found.number, found.a, found.b, found.c), 0;
    vegzump_answer term = vegzump_expand(table, table_len, formula, formula_len, cells, sizeof cells / sizeof *cells, text, sizeof text);
    printf("ok %" PRIu64 " %" PRIu64 " %" PRIu64 "\n%.*s\n", found.a, found.b, found.c, (int)term.c, (const char *)text);
    for (uint64_t at = 0; at < found.c; at += 3) printf("%" PRIu64 " %" PRIu64 " %" PRIu64 "\n", list[at], list[at + 1], list[at + 2]);
    return 0;
}
