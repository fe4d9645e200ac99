/* Replays scripts of calls (docs/RULES.md, "A program that replays calls"): little-endian words on standard input, and a line for each call on standard output. It knows
 * what a script says and how an answer is printed; what a call does is the archive's matter. */
#include "fetsguin.h"

#include <inttypes.h>
#include <stdbool.h>
#include <stdio.h>
#include <stdlib.h>

enum {
    /* One word more than a workspace may have stands for every larger one. */
    LENT_MOST = FETSGUIN_WORKSPACE_MOST + 1,
    COUNT_MOST = FETSGUIN_TABLE_MOST,
    /* What a scratch, a table and bytes hold that a call is to write. */
    FILLING = 7
};

static uint32_t workspaces[2][LENT_MOST];
static uint64_t lent[2];
static uint32_t session[FETSGUIN_SESSION_WORDS];
static uint32_t scratch[COUNT_MOST];
static uint64_t scratch_words;
static uint32_t table[COUNT_MOST];
static uint8_t encoding[COUNT_MOST];

static const char *const verdicts[] = {"Same", "Different", "Budget", "Full"};

/* The next word, if the script has one more. */
static bool word(uint32_t *read) {
    uint8_t bytes[4];
    if (fread(bytes, 1, sizeof bytes, stdin) < sizeof bytes) {
        return false;
    }
    *read = (uint32_t)bytes[0] | (uint32_t)bytes[1] << 8 | (uint32_t)bytes[2] << 16 | (uint32_t)bytes[3] << 24;
    return true;
}

/* The same, if it is at most so large. */
static bool word_to(uint32_t most, uint32_t *read) {
    return word(read) && *read <= most;
}

static bool side(uint32_t *read) {
    return word_to(FETSGUIN_SIDE_RIGHT, read);
}

static bool count(uint32_t *read) {
    return word_to(COUNT_MOST, read);
}

/* A count, and so many words, or so many bytes, a word each. */
static bool counted_words(uint32_t *counted) {
    if (!count(counted)) {
        return false;
    }
    for (uint32_t i = 0; i < *counted; i++) {
        if (!word(&table[i])) {
            return false;
        }
    }
    return true;
}

static bool counted_bytes(uint32_t *counted) {
    if (!counted_words(counted)) {
        return false;
    }
    for (uint32_t i = 0; i < *counted; i++) {
        if (table[i] > UINT8_MAX) {
            return false;
        }
        encoding[i] = (uint8_t)table[i];
    }
    return true;
}

static void print_words(const uint32_t *words, uint64_t number) {
    for (uint64_t i = 0; i < number; i++) {
        printf(" %" PRIu32, words[i]);
    }
    putchar('\n');
}

/* What a call answers that returns a number beside the refusal. */
static void print_returned(const char *call, uint32_t refusal, uint64_t returned) {
    if (refusal != FETSGUIN_OK) {
        printf("refused %" PRIu32, refusal);
    } else {
        printf("%s %" PRIu64, call, returned);
    }
}

static void print_brought(const char *call, uint32_t refusal, uint64_t returned) {
    print_returned(call, refusal, returned);
    putchar('\n');
}

/* The operations: each reads its words, makes its call and prints its line; false where the script is broken. */
static bool load(void) {
    uint32_t at, words;
    if (!side(&at) || !counted_words(&words)) {
        return false;
    }
    uint64_t length = 0;
    uint32_t refusal = fetsguin_load(table, words, workspaces[at], lent[at], &length);
    print_brought("load", refusal, length);
    return true;
}

static bool press(void) {
    uint32_t words, left_length, right_length, budget;
    if (!count(&words) || !word(&left_length) || !word(&right_length) || !word(&budget)) {
        return false;
    }
    scratch_words = words;
    for (uint32_t i = 0; i < words; i++) {
        scratch[i] = FILLING;
    }
    uint32_t answer[FETSGUIN_ANSWER_WORDS] = {0};
    uint32_t refusal = fetsguin_press(workspaces[FETSGUIN_SIDE_LEFT], lent[FETSGUIN_SIDE_LEFT], workspaces[FETSGUIN_SIDE_RIGHT], lent[FETSGUIN_SIDE_RIGHT], scratch, scratch_words,
                                      left_length, right_length, budget, session, answer);
    if (refusal != FETSGUIN_OK) {
        printf("refused %" PRIu32 "\n", refusal);
        return true;
    }
    fputs(verdicts[answer[FETSGUIN_ANSWER_VERDICT]], stdout);
    print_words(&answer[FETSGUIN_ANSWER_SPENT], FETSGUIN_ANSWER_WORDS - FETSGUIN_ANSWER_SPENT);
    return true;
}

static bool show(void) {
    uint32_t left_length, right_length;
    if (!word(&left_length) || !word(&right_length)) {
        return false;
    }
    uint64_t words = 0;
    uint32_t at = fetsguin_show(workspaces[FETSGUIN_SIDE_LEFT], lent[FETSGUIN_SIDE_LEFT], workspaces[FETSGUIN_SIDE_RIGHT], lent[FETSGUIN_SIDE_RIGHT], left_length, right_length, &words);
    printf("show %" PRIu32, at);
    print_words(workspaces[at], words);
    return true;
}

static bool write_table(void) {
    uint32_t at, length, words;
    if (!side(&at) || !word(&length) || !count(&words)) {
        return false;
    }
    for (uint32_t i = 0; i < words; i++) {
        table[i] = FILLING;
    }
    uint64_t records = 0;
    uint32_t refusal = fetsguin_write(workspaces[at], lent[at], length, table, words, &records);
    print_returned("write", refusal, records);
    print_words(table, words);
    return true;
}

static bool set_session(void) {
    for (int i = 0; i < FETSGUIN_SESSION_VERDICT; i++) {
        if (!word(&session[i])) {
            return false;
        }
    }
    if (!word_to(FETSGUIN_VERDICT_FULL, &session[FETSGUIN_SESSION_VERDICT])) {
        return false;
    }
    puts("session");
    return true;
}

static bool store(void) {
    uint32_t at, place, stored;
    if (!side(&at) || !word(&place) || !word(&stored)) {
        return false;
    }
    if (place < lent[at]) {
        workspaces[at][place] = stored;
    }
    puts("store");
    return true;
}

static bool print(void) {
    fputs("left", stdout);
    print_words(workspaces[FETSGUIN_SIDE_LEFT], lent[FETSGUIN_SIDE_LEFT]);
    fputs("right", stdout);
    print_words(workspaces[FETSGUIN_SIDE_RIGHT], lent[FETSGUIN_SIDE_RIGHT]);
    fputs("scratch", stdout);
    print_words(scratch, scratch_words);
    printf("session %" PRIu32 " %" PRIu32 " %" PRIu32 " %s\n", session[FETSGUIN_SESSION_TOTAL], session[FETSGUIN_SESSION_LEFT], session[FETSGUIN_SESSION_RIGHT],
           verdicts[session[FETSGUIN_SESSION_VERDICT]]);
    return true;
}

static bool read_line(void) {
    uint32_t at, bytes;
    if (!side(&at) || !counted_bytes(&bytes)) {
        return false;
    }
    uint64_t length = 0;
    uint32_t refusal = fetsguin_read_line(encoding, bytes, workspaces[at], lent[at], &length);
    print_brought("line", refusal, length);
    return true;
}

static bool import(void) {
    uint32_t at, bits, bytes;
    if (!side(&at) || !word(&bits) || !counted_bytes(&bytes)) {
        return false;
    }
    uint64_t length = 0;
    uint32_t refusal = fetsguin_import(encoding, bytes, bits, workspaces[at], lent[at], &length);
    print_brought("import", refusal, length);
    return true;
}

static bool export(void) {
    uint32_t at, length, bytes;
    if (!side(&at) || !word(&length) || !count(&bytes)) {
        return false;
    }
    for (uint32_t i = 0; i < bytes; i++) {
        encoding[i] = FILLING;
    }
    uint64_t bits = 0;
    uint32_t refusal = fetsguin_export(workspaces[at], lent[at], length, encoding, bytes, &bits);
    print_returned("export", refusal, bits);
    for (uint32_t i = 0; i < bytes; i++) {
        table[i] = encoding[i];
    }
    print_words(table, bytes);
    return true;
}

/* By their numbers; there is no operation 0. */
static bool (*const operations[])(void) = {NULL, load, press, show, write_table, set_session, store, print, read_line, import, export};

/* Whether the script has no further byte. */
static bool at_end(void) {
    int byte = getchar();
    if (byte == EOF) {
        return true;
    }
    ungetc(byte, stdin);
    return false;
}

/* False where the input is no script, from the first word that shows it. */
static bool replay(void) {
    for (int i = FETSGUIN_SIDE_LEFT; i <= FETSGUIN_SIDE_RIGHT; i++) {
        uint32_t c;
        if (!word(&c)) {
            return false;
        }
        lent[i] = c < LENT_MOST ? c : LENT_MOST;
    }
    fetsguin_fresh(session);
    while (!at_end()) {
        uint32_t number;
        if (!word_to(sizeof operations / sizeof operations[0] - 1, &number) || number == 0 || !operations[number]()) {
            return false;
        }
    }
    return true;
}

int main(void) {
    if (!replay()) {
        puts("Script");
    }
    return ferror(stdin) || fflush(stdout) || ferror(stdout) ? EXIT_FAILURE : EXIT_SUCCESS;
}
