/* Expands a formula under a phrase table and prints the core term.

       gcc -Iinclude hosts/c/example.c target/staticlib/libvegzump.a -o expand-example
       ./expand-example phrases.tab 'fun(p)p(b)'

   A refusal is printed by its number and values; include/vegzump.h says what they are. */
#include "vegzump.h"
#include <inttypes.h>
#include <stdio.h>
#include <stdlib.h>
#include <string.h>

static uint8_t table[VEGZUMP_TABLE_BYTES + 1]; /* one more byte, so that a table that is too long is seen to be */
static uint32_t cells[VEGZUMP_ROWS * VEGZUMP_ROW_CELLS];
static uint8_t text[1 << 20];

int main(int argc, char **argv) {
    FILE *file = argc == 3 ? fopen(argv[1], "rb") : NULL;
    if (!file) return fputs("usage: expand-example TABLE FORMULA\n", stderr), 2;
    size_t table_len = fread(table, 1, sizeof table, file);
    fclose(file);
    vegzump_answer answer = vegzump_expand(table, table_len, (const uint8_t *)argv[2], strlen(argv[2]), cells,
                                           sizeof cells / sizeof *cells, text, sizeof text);
    if (answer.number != 0) {
        printf("refused %u %" PRIu64 " %" PRIu64 " %" PRIu64 "\n", answer.number, answer.a, answer.b, answer.c);
        return 1;
    }
    printf("%.*s\n", (int)answer.c, (const char *)text);
    return 0;
}
