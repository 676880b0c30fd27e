/* The least stack that a call of the archive runs in: for ordinary formulas and at each limit of the language. Each try is a process of its own that makes
   the call on a thread with so much stack, and a wide forbidden range below it; halving finds the least that does not fault, to a page.

   Usage: stack WORST ORDINARY     (the bounds, in bytes). Prints a table; the exit status is 1 if a bound is passed or an answer is wrong. */
#include "vegzump.h"
#include <limits.h>
#include <pthread.h>
#include <stdio.h>
#include <stdlib.h>
#include <string.h>
#include <sys/mman.h>
#include <sys/resource.h>
#include <sys/wait.h>
#include <unistd.h>

#define PAGE 4096ul
#define MOST (64ul << 20)
#define FORBIDDEN (64ul << 20)

/* ---- tables, field by field ---- */

static uint8_t table[20000];
static size_t table_len;

static void field(uint8_t tag, const void *value, size_t size) {
    if (table_len + 3 + size > sizeof table) exit(2);
    table[table_len++] = tag;
    table[table_len++] = size >> 8;
    table[table_len++] = size & 255;
    memcpy(table + table_len, value, size);
    table_len += size;
}
static void keyword(const char *spelling) { field(1, spelling, strlen(spelling)); }
static void name(const char *spelling) { field(2, spelling, strlen(spelling)); }
static void grammar(void) { field(3, "", 0); }
static void definition(int nonterminal, int mode, int result, int parameter) { /* no parameter: -1 */
    uint8_t value[] = {nonterminal, mode, result, parameter};
    field(4, value, parameter < 0 ? 3 : 4);
}
static void alternative(void) { field(5, "", 0); }
static void item(int kind, int operand) {
    uint8_t value[] = {kind, operand};
    field(6, value, 2);
}
enum { KEYWORD, IDE, NUMBER, LOCAL, CALL };
enum { UNIT, VAR, BINDER, LABEL, TERM, FIELDS };

/* A template: `outer` so many times, then `inner`, then `after` as many times. */
static size_t nested(uint8_t *to, size_t times, const char *outer, size_t outer_size, const char *inner, size_t inner_size, const char *after,
                     size_t after_size) {
    size_t at = 0;
    for (size_t i = 0; i < times; i++, at += outer_size) memcpy(to + at, outer, outer_size);
    memcpy(to + at, inner, inner_size), at += inner_size;
    for (size_t i = 0; i < times; i++, at += after_size) memcpy(to + at, after, after_size);
    return at;
}
static void call(int nonterminal, const uint8_t *arguments, size_t size) {
    uint8_t value[20000] = {CALL, nonterminal};
    memcpy(value + 2, arguments, size);
    field(6, value, size + 2);
}

/* The house table of document 01; with the blocks compose and true. */
static void house(int more) {
    static const char *keywords[] = {"(", ")", "fun", "{", "}", "=", "."};
    table_len = 0;
    for (int i = 0; i < 7; i++) keyword(keywords[i]);
    if (more) keyword("*"), keyword("true"), name("T");
    enum { SIMPLE, FIELD_LIST, WHOLE, ITER };
    grammar();
    definition(SIMPLE, 0, TERM, -1);
    alternative(), item(IDE, VAR), field(7, "\x20\0", 2);
    alternative(), item(KEYWORD, 0), item(CALL, WHOLE), item(KEYWORD, 1), field(7, "\1", 1);
    alternative(), item(KEYWORD, 2), item(KEYWORD, 0), item(IDE, BINDER), item(KEYWORD, 1), item(CALL, WHOLE), field(7, "\x21\2\4", 3);
    alternative(), item(KEYWORD, 3), item(CALL, FIELD_LIST), item(KEYWORD, 4), field(7, "\x23\1", 2);
    alternative(), item(NUMBER, 0), field(7, "\x27\0", 2);
    definition(FIELD_LIST, 0, FIELDS, -1);
    alternative(), item(IDE, LABEL), item(KEYWORD, 5), item(CALL, WHOLE), item(CALL, FIELD_LIST), field(7, "\x26\0\2\3", 4);
    alternative(), field(7, "\x25", 1);
    definition(WHOLE, 0, TERM, -1);
    alternative(), item(CALL, SIMPLE), call(ITER, (const uint8_t *)"\0", 1), field(7, "\1", 1);
    definition(ITER, 0, TERM, TERM);
    alternative(), item(KEYWORD, 0), item(CALL, WHOLE), item(KEYWORD, 1), call(ITER, (const uint8_t *)"\x22\0\2", 3), field(7, "\4", 1);
    alternative(), item(KEYWORD, 6), item(IDE, LABEL), call(ITER, (const uint8_t *)"\x24\0\2", 3), field(7, "\3", 1);
    alternative(), field(7, "\0", 1);
    if (more) {
        grammar();
        definition(ITER, 1, TERM, TERM);
        alternative(), item(KEYWORD, 7), item(CALL, WHOLE), item(LOCAL, 0);
        call(ITER, (const uint8_t *)"\x21\3\x22\0\x22\2\x20\3", 8), field(7, "\4", 1);
        grammar();
        definition(SIMPLE, 1, TERM, -1);
        alternative(), item(KEYWORD, 8), field(7, "\x20\x10\0", 3);
    }
    field(8, "\2", 1);
}

/* Each `x` of a formula puts `times` constructors round what there is; at first that is an outside name, or no field (then the end makes the record). */
static void rounds(size_t times, int sort, const char *outer, size_t outer_size, const char *after, size_t after_size) {
    uint8_t template[20000];
    table_len = 0;
    keyword("x"), name("T");
    grammar();
    definition(0, 0, TERM, -1);
    alternative(), call(1, (const uint8_t *)(sort == TERM ? "\x20\x10\0" : "\x25"), sort == TERM ? 3 : 1), field(7, "\0", 1);
    definition(1, 0, TERM, sort);
    alternative(), item(KEYWORD, 0), item(LOCAL, 0);
    call(1, template, nested(template, times, outer, outer_size, "\0", 1, after, after_size)), field(7, "\3", 1);
    alternative();
    sort == TERM ? field(7, "\0", 1) : field(7, "\x23\0", 2);
    field(8, "\0", 1);
}

/* An `x` opens one more call; a word ends with one template, `times` constructors deep. */
static void deep_template(size_t times, const char *outer, size_t outer_size, const char *inner, size_t inner_size, const char *after,
                          size_t after_size) {
    uint8_t template[20000];
    table_len = 0;
    keyword("x"), name("T");
    grammar();
    definition(0, 0, TERM, -1);
    alternative(), item(KEYWORD, 0), item(CALL, 0), field(7, "\1", 1);
    alternative(), item(IDE, BINDER), field(7, template, nested(template, times, outer, outer_size, inner, inner_size, after, after_size));
    field(8, "\0", 1);
}

/* So many levels of nonterminals, each calling the next twice with nothing read, the last returning a local; the first makes a function of it. */
static void levels(int count) {
    table_len = 0;
    grammar();
    for (int n = 0; n < count; n++) {
        definition(n, 0, n ? BINDER : TERM, -1), alternative();
        if (n + 1 < count) item(CALL, n + 1), item(CALL, n + 1);
        else item(LOCAL, 0);
        n ? field(7, "\0", 1) : field(7, "\x21\0\x20\0", 4);
    }
    field(8, "\0", 1);
}

/* ---- formulas ---- */

static char formula[70000];
static void repeated(const char *before, const char *part, size_t times, const char *middle, const char *after_part) {
    strcpy(formula, before);
    for (size_t i = 0; i < times; i++) strcat(formula, part);
    strcat(formula, middle);
    for (size_t i = 0; i < times; i++) strcat(formula, after_part);
}

/* ---- one call on a thread with so much stack ---- */

static uint32_t *cells;
static uint8_t *text;
static const size_t cells_len = 4 * VEGZUMP_ROWS, text_len = 2 << 20;
static vegzump_answer answer;

static void *expand(void *unused) {
    answer = vegzump_expand(table, table_len, (const uint8_t *)formula, strlen(formula), cells, cells_len, text, text_len);
    return unused;
}

/* 0: it faulted. Otherwise the number of the answer plus one. */
static int tried(size_t stack) {
    pid_t child = fork();
    if (child < 0) exit(2);
    if (child == 0) {
        struct rlimit none = {0, 0};
        setrlimit(RLIMIT_CORE, &none);
        char *below = mmap(NULL, FORBIDDEN + stack, PROT_NONE, MAP_PRIVATE | MAP_ANONYMOUS | MAP_NORESERVE, -1, 0);
        pthread_attr_t attr;
        pthread_t id;
        if (below == MAP_FAILED || mprotect(below + FORBIDDEN, stack, PROT_READ | PROT_WRITE) || pthread_attr_init(&attr) ||
            pthread_attr_setstack(&attr, below + FORBIDDEN, stack) || pthread_create(&id, &attr, expand, NULL))
            _exit(200);
        pthread_join(id, NULL);
        _exit(answer.number + 1);
    }
    int status;
    if (waitpid(child, &status, 0) != child) exit(2);
    if (WIFSIGNALED(status)) return 0;
    if (WEXITSTATUS(status) == 200) exit(2);
    return WEXITSTATUS(status);
}

static int over;
static void measure(const char *what, unsigned number, size_t bound) {
    size_t least = PTHREAD_STACK_MIN, most = MOST;
    int found = tried(most);
    if (found != (int)number + 1) {
        printf("| %s | | answer %d, expected %u |\n", what, found - 1, number);
        over = 1;
        return;
    }
    while (least < most) { /* `most` is enough, what is below `least` is not */
        size_t middle = (least + most) / 2 / PAGE * PAGE;
        if (tried(middle)) most = middle;
        else least = middle + PAGE;
    }
    printf("| %s | %zu KB | %s%zu KB |\n", what, most / 1024, most > bound ? "OVER " : "", bound / 1024);
    fflush(stdout);
    over |= most > bound;
}

int main(int argc, char **argv) {
    if (argc < 3) return puts("usage: stack WORST ORDINARY"), 2;
    size_t worst = strtoul(argv[1], NULL, 10), ordinary = strtoul(argv[2], NULL, 10);
    cells = malloc(4 * cells_len), text = malloc(text_len);
    if (!cells || !text) return 2;
    puts("| Formula | Least stack | Bound |\n|---|---|---|");

    house(1);
    strcpy(formula, "peter");
    measure("`peter`", 0, ordinary);
    strcpy(formula, "(T(fun(T)T(true)))*x");
    measure("`(T(fun(T)T(true)))*x`", 0, ordinary);
    repeated("{", "protein=oats.grams(12) ", 20, "}", "");
    measure("a record of 20 fields, 142 tokens", 0, ordinary);
    repeated("", "fun(a)", 20, "a(b)(c).d", "");
    measure("20 functions in each other", 0, ordinary);

    house(0);
    repeated("", "(", 511, "q", ")");
    measure("511 parentheses", 0, worst);
    repeated("", "(", 512, "q", ")");
    measure("512 parentheses (refused)", 19, worst);
    repeated("q", ".a", 1022, "", "");
    measure("1,022 `.a`", 0, worst);
    repeated("", "fun(a)", 511, "a", "");
    measure("511 functions in each other", 0, worst);
    repeated("{", "a=b ", 1000, "}", "");
    measure("a record of 1,000 fields", 0, worst);

    repeated("", "x ", 127, "", "");
    rounds(129, TERM, "\x21\2", 2, "", 0);
    measure("16,383 functions in each other", 0, worst);
    rounds(129, TERM, "\x24", 1, "\x11\0", 2);
    measure("16,383 selections in each other", 0, worst);
    rounds(43, TERM, "\x23\x26\x11\0", 4, "\x25", 1);
    measure("5,461 records in each other, 16,384 constructors", 0, worst);
    repeated("", "x ", 126, "", "");
    rounds(65, TERM, "\x22", 1, "\x20\x10\0", 3);
    measure("8,190 applications in each other, at the left", 0, worst);
    rounds(65, TERM, "\x22\x20\x10\0", 4, "", 0);
    measure("8,190 applications in each other, at the right", 0, worst);
    rounds(65, FIELDS, "\x26\x11\0\x20\x10\0", 6, "", 0);
    measure("a record of 8,190 fields", 0, worst);

    repeated("", "x ", 1023, "q", "");
    deep_template(5400, "\x22", 1, "\x20\0", 2, "\x20\0", 2);
    measure("1,024 open calls, then a template of applications, 5,400 deep", 0, worst);
    deep_template(8100, "\x21\0", 2, "\x20\0", 2, "", 0);
    measure("1,024 open calls, then a template of functions, 8,100 deep", 0, worst);
    deep_template(5400, "\x24", 1, "\x20\0", 2, "\x11\0", 2);
    measure("1,024 open calls, then a template of selections, 5,400 deep", 0, worst);
    deep_template(3200, "\x23\x26\x11\0", 4, "\x20\0", 2, "\x25", 1);
    measure("1,024 open calls, then a template of records, 3,200 deep", 0, worst);

    strcpy(formula, "");
    levels(16);
    measure("65,535 calls", 0, worst);
    levels(17);
    measure("65,537 calls (refused)", 20, worst);
    return over;
}
