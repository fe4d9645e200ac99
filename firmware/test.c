/* The calls through the header: the bench pairs of docs/RULES.md, and each call with each of its refusals, in their order, and a neighbour that passes. What every call
 * leaves in all that was lent, and in a word behind it, is compared. Silent if all is as the rules say; otherwise a line for each check that fails, and status 1. */
#include "fetsguin.h"

#include <stdbool.h>
#include <stdio.h>
#include <string.h>

enum { C = FETSGUIN_WORKSPACE_LEAST, ROOM = FETSGUIN_WORKSPACE_MOST + 2, TABLE = FETSGUIN_TABLE_MOST + 5, BYTES = FETSGUIN_LINE_MOST + 8, KEPT = 77 };

/* Words that a test hands in or expects. */
typedef struct {
    const uint32_t *words;
    uint64_t count;
} list;
#define LIST(...) ((list){(const uint32_t[]){__VA_ARGS__}, sizeof((const uint32_t[]){__VA_ARGS__}) / sizeof(uint32_t)})
#define NONE ((list){0})

/* All that is lent, each with words behind what a test lends of it. */
typedef struct {
    uint32_t left[ROOM], right[ROOM], scratch[ROOM], table[TABLE], session[FETSGUIN_SESSION_WORDS], answer[FETSGUIN_ANSWER_WORDS];
    uint64_t number;
    uint8_t bytes[BYTES];
} memory;
_Static_assert(sizeof(memory) == (3 * ROOM + TABLE + FETSGUIN_SESSION_WORDS + FETSGUIN_ANSWER_WORDS) * sizeof(uint32_t) + sizeof(uint64_t) + BYTES, "no padding is compared");

static memory now, before;
static int failed;

static void check(const char *what, bool holds) {
    if (!holds) {
        failed = 1;
        printf("failed: %s\n", what);
    }
}

static void fill(uint32_t *words, uint64_t count, list start) {
    for (uint64_t i = 0; i < count; i++) {
        words[i] = i < start.count ? start.words[i] : KEPT;
    }
}

/* Everything holds something that no call leaves by chance; a fresh session. */
static void set(list left, list right) {
    fill(now.left, ROOM, left);
    fill(now.right, ROOM, right);
    fill(now.scratch, ROOM, NONE);
    fill(now.table, TABLE, NONE);
    fill(now.answer, FETSGUIN_ANSWER_WORDS, NONE);
    fetsguin_fresh(now.session);
    memset(now.bytes, KEPT, sizeof now.bytes);
    now.number = KEPT;
}

static void keep(void) {
    memcpy(&before, &now, sizeof now);
}

static bool unchanged(void) {
    return memcmp(&now, &before, sizeof now) == 0;
}

/* The words, zeros after them up to c, and behind them what was there. */
static bool holds(const uint32_t *words, list start, uint64_t c) {
    for (uint64_t i = 0; i < c; i++) {
        if (words[i] != (i < start.count ? start.words[i] : 0)) {
            return false;
        }
    }
    return words[c] == KEPT;
}

static void refuses(const char *what, uint32_t refusal, uint32_t number) {
    check(what, refusal == number && unchanged());
}

/* A press on a fresh session, and what it leaves. */
typedef struct {
    list left, right;
    uint64_t c;
    uint32_t budget, verdict, spent;
    list left_after, right_after;
    uint32_t position;
} pair;

static uint32_t press_in(uint64_t c, uint64_t left_length, uint64_t right_length, uint32_t budget) {
    return fetsguin_press(now.left, c, now.right, c, now.scratch, c, left_length, right_length, budget, now.session, now.answer);
}

static void presses(const char *what, pair p) {
    set(p.left, p.right);
    uint32_t refusal = press_in(p.c, p.left.count, p.right.count, p.budget);
    uint32_t left = (uint32_t)p.left_after.count, right = (uint32_t)p.right_after.count;
    list session = LIST(p.spent, left, right, p.verdict), answer = LIST(p.verdict, p.spent, left, right, p.position);
    check(what, refusal == FETSGUIN_OK && holds(now.left, p.left_after, p.c) && holds(now.right, p.right_after, p.c) && holds(now.scratch, NONE, p.c)
                    && memcmp(now.session, session.words, sizeof now.session) == 0 && memcmp(now.answer, answer.words, sizeof now.answer) == 0);
}

#define F0 LIST(0)
#define F1 LIST(8)
#define LOOP LIST(2, 1, 2, 0, 0, 1, 2, 0, 0)
#define WW LIST(2, 1, 2, 2, 0, 0, 0, 1, 2, 2, 0, 0, 0)
#define FIRST LIST(2, 2, 1, 1, 8, 0, 8)

static void bench_pairs(void) {
    presses("one contraction", (pair){LIST(2, 1, 0, 24), LIST(24), C, 1, FETSGUIN_VERDICT_SAME, 1, LIST(24), LIST(24), 0});
    presses("the first of two", (pair){FIRST, LIST(16), C, 1, FETSGUIN_VERDICT_BUDGET, 1, LIST(2, 1, 8, 8), LIST(16), 0});
    presses("two contractions", (pair){FIRST, F0, C, 2, FETSGUIN_VERDICT_SAME, 2, F0, F0, 0});
    presses("budget 10", (pair){FIRST, F0, C, 10, FETSGUIN_VERDICT_SAME, 2, F0, F0, 0});
    presses("budget 1", (pair){FIRST, F0, C, 1, FETSGUIN_VERDICT_BUDGET, 1, LIST(2, 1, 8, 8), F0, 0});
    presses("against f1", (pair){FIRST, F1, C, 10, FETSGUIN_VERDICT_DIFFERENT, 2, F0, F1, 0});
    presses("f0 against f1", (pair){F0, F1, C, 0, FETSGUIN_VERDICT_DIFFERENT, 0, F0, F1, 0});
    presses("Loop against itself", (pair){LOOP, LOOP, C, 0, FETSGUIN_VERDICT_SAME, 0, LOOP, LOOP, 0});
    presses("Loop against f0", (pair){LOOP, F0, C, 5, FETSGUIN_VERDICT_BUDGET, 5, LOOP, F0, 0});
    presses("Loop thrown away", (pair){LIST(2, 2, 1, 1, 8, 0, 2, 1, 2, 0, 0, 1, 2, 0, 0), F0, C, 2, FETSGUIN_VERDICT_SAME, 2, F0, F0, 0});
    presses("an argument raised", (pair){LIST(1, 2, 1, 1, 8, 0), LIST(1, 1, 8), C, 1, FETSGUIN_VERDICT_SAME, 1, LIST(1, 1, 8), LIST(1, 1, 8), 0});
    presses("no eta", (pair){LIST(1, 2, 8, 0), F0, C, 0, FETSGUIN_VERDICT_DIFFERENT, 0, LIST(1, 2, 8, 0), F0, 0});
    presses("a case", (pair){LIST(20, 267, 40, 133, 0, 269, 0), LIST(40), C, 1, FETSGUIN_VERDICT_SAME, 1, LIST(40), LIST(40), 0});
    presses("the last argument", (pair){LIST(12, 147, 0, 8, 149, 0), F1, C, 1, FETSGUIN_VERDICT_SAME, 1, F1, F1, 0});
    presses("a stuck case", (pair){LIST(12, 139, 0, 133, 0), F0, C, 1, FETSGUIN_VERDICT_DIFFERENT, 0, LIST(12, 139, 0, 133, 0), F0, 0});
    presses("a default", (pair){LIST(12, 131, 5, 8), F1, C, 1, FETSGUIN_VERDICT_SAME, 1, F1, F1, 0});
    presses("a numeral", (pair){LIST(14), LIST(1, 1, 2, 8, 0), C, 1, FETSGUIN_VERDICT_SAME, 1, LIST(1, 1, 2, 8, 0), LIST(1, 1, 2, 8, 0), 0});
    presses("a position", (pair){LIST(1, 1, 0), LIST(1, 1, 8), C, 0, FETSGUIN_VERDICT_DIFFERENT, 0, LIST(1, 1, 0), LIST(1, 1, 8), 2});
    presses("W W, C 16", (pair){WW, F0, C, 1, FETSGUIN_VERDICT_FULL, 0, WW, F0, 0});
    presses("W W, budget 0", (pair){WW, F0, C, 0, FETSGUIN_VERDICT_BUDGET, 0, WW, F0, 0});
    presses("W W, C 20", (pair){WW, F0, 20, 1, FETSGUIN_VERDICT_BUDGET, 1, LIST(2, 2, 1, 2, 2, 0, 0, 0, 1, 2, 2, 0, 0, 0, 1, 2, 2, 0, 0, 0), F0, 0});
    presses("C 2,048", (pair){F0, F0, FETSGUIN_WORKSPACE_MOST, FETSGUIN_BUDGET_MOST, FETSGUIN_VERDICT_SAME, 0, F0, F0, 0});
}

/* Each refusal, with the one behind it met too. */
static void press_refusals(void) {
    set(F0, F0);
    keep();
    refuses("press 7: C 15", press_in(C - 1, 1, 1, FETSGUIN_BUDGET_MOST + 1), FETSGUIN_WRONG_WORKSPACE);
    refuses("press 7: C 2,049", press_in(FETSGUIN_WORKSPACE_MOST + 1, 1, 1, 0), FETSGUIN_WRONG_WORKSPACE);
    refuses("press 7: right longer", fetsguin_press(now.left, C, now.right, C + 1, now.scratch, C, 1, 1, 0, now.session, now.answer), FETSGUIN_WRONG_WORKSPACE);
    refuses("press 7: right shorter", fetsguin_press(now.left, C + 1, now.right, C, now.scratch, C + 1, 1, 1, FETSGUIN_BUDGET_MOST + 1, now.session, now.answer), FETSGUIN_WRONG_WORKSPACE);
    refuses("press 7: scratch longer", fetsguin_press(now.left, C, now.right, C, now.scratch, C + 1, 1, 1, 0, now.session, now.answer), FETSGUIN_WRONG_WORKSPACE);
    refuses("press 9: budget", press_in(C, 0, 0, FETSGUIN_BUDGET_MOST + 1), FETSGUIN_OVER_BUDGET);
    refuses("press 10: left length 0", press_in(C, 0, 1, 0), FETSGUIN_NO_TERM);
    refuses("press 10: right length 17", press_in(C, 1, C + 1, 0), FETSGUIN_NO_TERM);
    refuses("press 10: no term", press_in(C, 2, 1, 0), FETSGUIN_NO_TERM);
    /* Any words are a session: a refused press leaves them, and one that is not reads the total alone. */
    memcpy(now.session, LIST(FETSGUIN_TOTAL_MOST - 1, 9, 9, 9).words, sizeof now.session);
    keep();
    refuses("press 9: total", press_in(C, 1, 1, 2), FETSGUIN_OVER_BUDGET);
    check("the largest total", press_in(C, 1, 1, 1) == FETSGUIN_OK && now.session[FETSGUIN_SESSION_TOTAL] == FETSGUIN_TOTAL_MOST - 1);
    check("the session renewed", memcmp(&now.session[1], LIST(1, 1, FETSGUIN_VERDICT_SAME).words, 3 * sizeof(uint32_t)) == 0);
}

/* A press in portions of at least 2, between which a watchdog may be served: it ends as one press with the whole budget does, whose spent is the rise of the total. What a
 * portion leaves of itself stays in the budget, and the last one gets what is left. */
static uint32_t press_in_portions(uint64_t c, uint64_t left_length, uint64_t right_length, uint32_t budget, uint32_t portion) {
    for (;;) {
        uint32_t part = budget < portion ? budget : portion;
        uint32_t refusal = press_in(c, left_length, right_length, part);
        if (refusal != FETSGUIN_OK || now.answer[FETSGUIN_ANSWER_VERDICT] != FETSGUIN_VERDICT_BUDGET || part == budget) {
            return refusal;
        }
        budget -= now.answer[FETSGUIN_ANSWER_SPENT];
        left_length = now.answer[FETSGUIN_ANSWER_LEFT];
        right_length = now.answer[FETSGUIN_ANSWER_RIGHT];
    }
}

/* Both sides move, so a portion of 3 makes two contractions and keeps one. */
#define THREE(last) LIST(2, 1, 0, 2, 1, 0, 2, 1, 0, last)

static void portions(void) {
    for (uint32_t budget = 0; budget < 9; budget++) {
        for (uint32_t portion = 2; portion < 9; portion++) {
            set(THREE(0), THREE(8));
            press_in(C, 10, 10, budget);
            keep();
            set(THREE(0), THREE(8));
            uint32_t refusal = press_in_portions(C, 10, 10, budget, portion);
            now.answer[FETSGUIN_ANSWER_SPENT] = now.session[FETSGUIN_SESSION_TOTAL];
            check("portions", refusal == FETSGUIN_OK && unchanged());
        }
    }
    check("three contractions a side", now.session[FETSGUIN_SESSION_TOTAL] == 6 && now.answer[FETSGUIN_ANSWER_VERDICT] == FETSGUIN_VERDICT_DIFFERENT);
}

/* Whether these words in a workspace of 16 are what a call brought in. */
static void brings(const char *what, uint32_t refusal, list term) {
    check(what, refusal == FETSGUIN_OK && now.number == term.count && holds(now.left, term, C));
}

static uint32_t load(list table, uint64_t c) {
    set(NONE, NONE);
    keep();
    return fetsguin_load(table.words, table.count, now.left, c, &now.number);
}

static void loads(void) {
    brings("load", load(LIST(1, 2, 1, 0, 1, 0, 2, 0, 0, 0, 0, 0), C), LIST(1, 0));
    refuses("load 7", load(LIST(1), C - 1), FETSGUIN_WRONG_WORKSPACE);
    refuses("load 7: C 2,049", load(LIST(1), FETSGUIN_WORKSPACE_MOST + 1), FETSGUIN_WRONG_WORKSPACE);
    refuses("load 1", load(LIST(2, 2, 1, 0), C), FETSGUIN_WRONG_TABLE_LENGTH);
    refuses("load 2", load(LIST(2, 1, 1, 0, 9, 0, 0, 0), C), FETSGUIN_WRONG_HEADER);
    refuses("load 3", load(LIST(1, 1, 1, 0, 7, 0, 1, 0), C), FETSGUIN_WRONG_VALUE);
    refuses("load 4", load(LIST(1, 1, 1, 0, 1, 0, 1, 0), C), FETSGUIN_WRONG_LINK);
    refuses("load 5", load(LIST(1, 1, 1, 0, 1, 0, 0, 0), C), FETSGUIN_WRONG_CHILDREN);
    refuses("load 6", load(LIST(1, 1, 1, 0, 0, 256, 0, 0), C), FETSGUIN_WRONG_FREE);
    brings("load of f255", load(LIST(1, 1, 1, 0, 0, 255, 0, 0), C), LIST(2040));
    /* A chain of 17 records, too long for 16 words. */
    static uint32_t chain[FETSGUIN_TABLE_WORDS(C + 1)] = {1, C + 1, 1, 0};
    for (uint32_t i = 1; i <= C; i++) {
        chain[4 * i] = 1;
        chain[4 * i + 2] = i + 1;
    }
    chain[0] = 2;
    refuses("load 2 before 8", load((list){chain, FETSGUIN_TABLE_WORDS(C + 1)}, C), FETSGUIN_WRONG_HEADER);
    chain[0] = 1;
    chain[4] = 7;
    refuses("load 8 before 3", load((list){chain, FETSGUIN_TABLE_WORDS(C + 1)}, C), FETSGUIN_TOO_LONG);
    chain[4] = 1;
    refuses("load 8", load((list){chain, FETSGUIN_TABLE_WORDS(C + 1)}, C), FETSGUIN_TOO_LONG);
    check("load of 17 words", load((list){chain, FETSGUIN_TABLE_WORDS(C + 1)}, C + 1) == FETSGUIN_OK && now.number == C + 1);
}

static uint32_t read(const char *line, uint64_t bytes, uint64_t c) {
    set(NONE, NONE);
    keep();
    return fetsguin_read_line((const uint8_t *)line, bytes, now.left, c, &now.number);
}

static void reads(void) {
    brings("read", read("\\0 1", 4, C), LIST(1, 2, 0, 8));
    refuses("read 7", read("", 0, C - 1), FETSGUIN_WRONG_WORKSPACE);
    refuses("read 11: no bytes", read("", 0, C), FETSGUIN_WRONG_LINE);
    refuses("read 11", read("0  256", 6, C), FETSGUIN_WRONG_LINE);
    refuses("read 6", read("\\\\\\\\\\\\\\\\\\\\\\\\\\\\\\\\272", 19, C), FETSGUIN_WRONG_FREE);
    refuses("read 8", read("\\\\\\\\\\\\\\\\\\\\\\\\\\\\\\\\0", 17, C), FETSGUIN_TOO_LONG);
    static char line[FETSGUIN_LINE_MOST + 1];
    memset(line, '\\', sizeof line);
    line[FETSGUIN_LINE_MOST - 1] = line[FETSGUIN_LINE_MOST] = '0';
    check("a line of 1,024 bytes", read(line, FETSGUIN_LINE_MOST, FETSGUIN_WORKSPACE_MOST) == FETSGUIN_OK && now.number == FETSGUIN_LINE_MOST);
    refuses("read 11: 1,025 bytes", read(line, FETSGUIN_LINE_MOST + 1, FETSGUIN_WORKSPACE_MOST), FETSGUIN_WRONG_LINE);
}

static uint32_t import(list bytes, uint64_t bits, uint64_t c) {
    set(NONE, NONE);
    for (uint64_t i = 0; i < bytes.count; i++) {
        now.bytes[i] = (uint8_t)bytes.words[i];
    }
    keep();
    return fetsguin_import(now.bytes, bytes.count, bits, now.left, c, &now.number);
}

static void imports(void) {
    brings("import", import(LIST(32), 4, C), LIST(1, 0));
    refuses("import 7", import(LIST(32), 3, C - 1), FETSGUIN_WRONG_WORKSPACE);
    refuses("import 12: early end", import(LIST(32), 3, C), FETSGUIN_WRONG_BITS);
    refuses("import 12: padding", import(LIST(33), 4, C), FETSGUIN_WRONG_BITS);
    refuses("import 12: past the bytes", import(LIST(32), UINT64_MAX, C), FETSGUIN_WRONG_BITS);
    refuses("import 8", import(LIST(0, 0, 0, 0, 248, 0), 38, C), FETSGUIN_TOO_LONG);
    refuses("import 8 before 13", import(LIST(0, 0, 0, 0, 255, 255, 192), 51, C), FETSGUIN_TOO_LONG);
    refuses("import 13", import(LIST(128), 2, C), FETSGUIN_NO_COMBINATOR);
}

static uint32_t write_out(list term, uint64_t length, uint64_t c, uint64_t words) {
    set(term, NONE);
    keep();
    return fetsguin_write(now.left, c, length, now.table, words, &now.number);
}

static void writes(void) {
    check("write", write_out(LIST(1, 0), 2, C, 12) == FETSGUIN_OK && now.number == 2 && holds(now.table, LIST(1, 2, 1, 0, 1, 0, 2, 0, 0, 0, 0, 0), 12));
    check("write leaves the workspace", memcmp(now.left, before.left, sizeof now.left) == 0);
    refuses("write 7", write_out(LIST(1, 0), 0, C - 1, 12), FETSGUIN_WRONG_WORKSPACE);
    refuses("write 10", write_out(LIST(1, 0), 1, C, 13), FETSGUIN_NO_TERM);
    refuses("write 1: a word more", write_out(LIST(1, 0), 2, C, 13), FETSGUIN_WRONG_TABLE_LENGTH);
    refuses("write 1: a word less", write_out(LIST(1, 0), 2, C, 11), FETSGUIN_WRONG_TABLE_LENGTH);
}

static uint32_t export_to(list term, uint64_t length, uint64_t c, uint64_t bytes) {
    set(term, NONE);
    keep();
    return fetsguin_export(now.left, c, length, now.bytes, bytes, &now.number);
}

static void exports(void) {
    check("export", export_to(LIST(1, 0), 2, C, 2) == FETSGUIN_OK && now.number == 4 && now.bytes[0] == 32 && now.bytes[1] == 0 && now.bytes[2] == KEPT);
    check("export leaves the workspace", memcmp(now.left, before.left, sizeof now.left) == 0);
    refuses("export 7", export_to(LIST(1, 0), 0, C - 1, 0), FETSGUIN_WRONG_WORKSPACE);
    refuses("export 10", export_to(LIST(1, 8), 1, C, 0), FETSGUIN_NO_TERM);
    refuses("export 13", export_to(LIST(1, 8), 2, C, 0), FETSGUIN_NO_COMBINATOR);
    refuses("export 8", export_to(LIST(1, 0), 2, C, 0), FETSGUIN_TOO_LONG);
}

/* 1,025 abstractions around 512 variables, all bound by the first: no term of 2,048 words has more bits. */
static void longest_encoding(void) {
    enum { ABSTRACTIONS = 1025, VARIABLES = 512 };
    static uint32_t term[FETSGUIN_WORKSPACE_MOST];
    static uint8_t encoding[FETSGUIN_ENCODING_MOST];
    uint64_t bits = 0;
    for (uint32_t i = 0; i < FETSGUIN_WORKSPACE_MOST; i++) {
        term[i] = i < ABSTRACTIONS ? FETSGUIN_KIND_ABSTRACTION
            : i < ABSTRACTIONS + VARIABLES - 1 ? FETSGUIN_KIND_APPLICATION
            : (ABSTRACTIONS - 1) * 8 + FETSGUIN_KIND_VARIABLE;
    }
    check("the longest encoding, a byte short",
          fetsguin_export(term, FETSGUIN_WORKSPACE_MOST, FETSGUIN_WORKSPACE_MOST, encoding, FETSGUIN_ENCODING_MOST - 1, &bits) == FETSGUIN_TOO_LONG);
    check("the longest encoding",
          fetsguin_export(term, FETSGUIN_WORKSPACE_MOST, FETSGUIN_WORKSPACE_MOST, encoding, FETSGUIN_ENCODING_MOST, &bits) == FETSGUIN_OK
              && bits == 8 * FETSGUIN_ENCODING_MOST && FETSGUIN_ENCODING_BYTES(FETSGUIN_WORKSPACE_MOST) == FETSGUIN_ENCODING_MOST);
}

/* A case on a constructor of one argument, with a default and a branch, taken apart by the header: each record's kind and value stand in its word. */
static void words(void) {
    enum { RECORDS = 8 };
    static const uint32_t table[FETSGUIN_TABLE_WORDS(RECORDS)] = {1, RECORDS, 1, 0,                                /* the header */
                                                                  4, 0, 2, 0,  3, 7, 3, 4,  6, 31, 0, 0,           /* a case on constructor 7 of numeral 31 */
                                                                  5, 0, 5, 6,  0, 9, 0, 0,                         /* the default, of index 9 */
                                                                  5, 7 * 16 + 1, 7, 0,  1, 0, 8, 0,  0, 1, 0, 0}; /* a branch for tag 7 and one variable, of an abstraction */
    static const uint32_t kinds[RECORDS] = {FETSGUIN_KIND_CASE,   FETSGUIN_KIND_CONSTRUCTOR, FETSGUIN_KIND_NUMERAL,     FETSGUIN_KIND_BRANCH,
                                            FETSGUIN_KIND_VARIABLE, FETSGUIN_KIND_BRANCH,    FETSGUIN_KIND_ABSTRACTION, FETSGUIN_KIND_VARIABLE};
    static const uint32_t payloads[RECORDS] = {2, 7 * 16 + 1, 31, 0, 9, 7 * 16 + 1, 0, 1};
    check("a case", load((list){table, FETSGUIN_TABLE_WORDS(RECORDS)}, C) == FETSGUIN_OK && now.number == RECORDS);
    for (int i = 0; i < RECORDS; i++) {
        check("kind and payload", FETSGUIN_KIND(now.left[i]) == kinds[i] && FETSGUIN_PAYLOAD(now.left[i]) == payloads[i]);
    }
    check("tag and count", FETSGUIN_TAG(now.left[5]) == 7 && FETSGUIN_COUNT(now.left[5]) == 1);
    brings("an application", read("0 1", 3, C), LIST(FETSGUIN_KIND_APPLICATION, 0, 8));
}

static void shows(const char *what, list left, list right, uint64_t c, uint64_t left_length, uint64_t right_length, uint32_t side, uint64_t count) {
    set(left, right);
    keep();
    before.number = count;
    uint32_t shown = fetsguin_show(now.left, c, now.right, c, left_length, right_length, &now.number);
    check(what, shown == side && unchanged());
}

static void showings(void) {
    shows("show the left form", F0, LIST(1, 0), C, 1, 2, FETSGUIN_SIDE_LEFT, 1);
    shows("show the right form", LIST(1, 0), F0, C, 2, 1, FETSGUIN_SIDE_RIGHT, 1);
    shows("show at equal lengths", F0, F0, C, 1, 1, FETSGUIN_SIDE_RIGHT, 1);
    shows("show, C 15", F0, F0, C - 1, 1, 1, FETSGUIN_SIDE_LEFT, 0);
    shows("show, no left term", LIST(1, 0), F0, C, 1, 1, FETSGUIN_SIDE_LEFT, 0);
    shows("show, no right term", LIST(1, 0), F0, C, 2, 2, FETSGUIN_SIDE_LEFT, 0);
}

static void fresh(void) {
    uint32_t session[FETSGUIN_SESSION_WORDS + 1];
    fill(session, FETSGUIN_SESSION_WORDS + 1, NONE);
    fetsguin_fresh(session);
    check("a fresh session", memcmp(session, LIST(0, 0, 0, FETSGUIN_VERDICT_BUDGET, KEPT).words, sizeof session) == 0);
}

int main(void) {
    bench_pairs();
    press_refusals();
    portions();
    loads();
    words();
    reads();
    imports();
    writes();
    exports();
    longest_encoding();
    showings();
    fresh();
    return failed;
}
