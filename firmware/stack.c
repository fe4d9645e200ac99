/* How deep the machine stack goes in each call: a stack of its own is painted, the call made on it, and the paint that is left counted. Prints a line for each call, its
 * name and bytes; status 1 if a call was refused, and so went less deep. Needs ucontext, which POSIX systems have; a bare machine paints below its stack pointer instead. */
#include "fetsguin.h"

#include <stdio.h>
#include <string.h>
#include <ucontext.h>

enum { C = FETSGUIN_WORKSPACE_MOST, PAINTED = 512 << 10, PAINT = 0xa5 };

static _Alignas(16) unsigned char stack[PAINTED];
static ucontext_t here, there;

static uint32_t left[C], right[C], scratch[C], table[FETSGUIN_TABLE_MOST], session[FETSGUIN_SESSION_WORDS], answer[FETSGUIN_ANSWER_WORDS];
static uint8_t bytes[FETSGUIN_TABLE_MOST];
static uint64_t left_length, right_length, count, c;
static uint32_t refused;

static void measure(const char *name, void (*call)(void)) {
    memset(stack, PAINT, sizeof stack);
    getcontext(&there);
    there.uc_stack.ss_sp = stack;
    there.uc_stack.ss_size = sizeof stack;
    there.uc_link = &here;
    makecontext(&there, call, 0);
    swapcontext(&here, &there);
    size_t unused = 0;
    while (unused < sizeof stack && stack[unused] == PAINT) {
        unused++;
    }
    printf("%s %zu\n", name, sizeof stack - unused);
}

static void load(void) {
    refused |= fetsguin_load(table, FETSGUIN_TABLE_WORDS(table[1]), left, c, &left_length);
}

static void press(void) {
    fetsguin_fresh(session);
    refused |= fetsguin_press(left, C, right, C, scratch, C, left_length, right_length, 1000, session, answer);
}

static void write_table(void) {
    refused |= fetsguin_write(left, C, left_length, table, FETSGUIN_TABLE_WORDS(left_length), &count);
}

static void show(void) {
    fetsguin_show(left, C, right, C, left_length, right_length, &count);
    refused |= count == 0;
}

static void read_line(void) {
    refused |= fetsguin_read_line(bytes, FETSGUIN_LINE_MOST, left, C, &count);
}

static void export(void) {
    refused |= fetsguin_export(left, C, left_length, bytes, sizeof bytes, &count);
}

static void import(void) {
    refused |= fetsguin_import(bytes, (count + 7) / 8, count, left, C, &left_length);
}

/* A chain of abstractions as a table of so many records, the deepest that a term of so many words has. */
static void chain(uint32_t records) {
    c = records;
    memset(table, 0, sizeof table);
    table[0] = 1;
    table[1] = records;
    table[2] = 1;
    for (uint32_t i = 1; i < records; i++) {
        table[4 * i] = 1;
        table[4 * i + 2] = i + 1;
    }
}

/* Words of both sides' terms. */
static void set(const uint32_t *words, uint64_t words_count, uint32_t other) {
    memcpy(left, words, words_count * sizeof *words);
    left_length = words_count;
    right[0] = other;
    right_length = 1;
}

int main(void) {
    chain(FETSGUIN_WORKSPACE_LEAST);
    measure("load-16", load);
    chain(256);
    measure("load-256", load);
    chain(C);
    measure("load-2048", load);
    memcpy(right, left, sizeof left);
    right[C - 1] = 8;
    right_length = left_length;
    measure("press-normal", press);
    measure("show", show);
    measure("write", write_table);
    measure("export", export);
    measure("import", import);
    /* (\0 0 .. 0) f1 and a numeral applied, both against f0. */
    static uint32_t beta[1004] = {2, 1};
    for (int i = 0; i < 500; i++) {
        beta[2 + 2 * i] = 2;
    }
    beta[1003] = 8;
    set(beta, 1004, 0);
    measure("press-beta", press);
    set((const uint32_t[]){2, 2, 254, 1, 0, 8}, 6, 0);
    measure("press-numeral", press);
    memset(bytes, '\\', FETSGUIN_LINE_MOST - 1);
    bytes[FETSGUIN_LINE_MOST - 1] = '0';
    measure("read_line", read_line);
    return refused != FETSGUIN_OK;
}
