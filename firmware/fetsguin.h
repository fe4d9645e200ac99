/* Fetsguin, the sealed convertibility calculator: the calls of its archive, for C11 and C++11. docs/RULES.md says what each does, whole and exact;
 * crates/firmware has each as an equation, and these are proved. docs/FIRMWARE.md is the page for who links them.
 *
 * What a caller owes, since nothing checks C:
 * - A slice is a pointer and the number of elements that are there: table_words, bytes, c, left_c, right_c, scratch_c. These numbers are true. Behind session stand
 *   FETSGUIN_SESSION_WORDS words, behind answer FETSGUIN_ANSWER_WORDS.
 * - No pointer is null, not even with a count of 0, and each is aligned to what it points to.
 * - What a call may write overlaps nothing else that is lent to it. Nobody else writes what is lent, or reads what may be written, until the call returns.
 * Everything else may be handed in: any elements, any length, left_length, right_length, bits and budget are answered, or refused by a number.
 *
 * What a caller gets:
 * - A call that returns the number of a refusal has changed nothing that was lent. FETSGUIN_OK is no refusal.
 * - Nothing is kept between calls: no data of the archive is written and no memory is taken, so calls on different memory may run at the same time.
 * - Only numbers and pointers are passed. A length is 64 bits wide on every processor; in a session and in an answer it is a word, which has room for each. */
#ifndef FETSGUIN_H
#define FETSGUIN_H

#include <stdint.h>

#ifdef __cplusplus
extern "C" {
#endif

/* The number behind the point is that of the last change of docs/changes. The one before it changes where a program that was right for the header no longer is. */
#define FETSGUIN_VERSION "1.7"

/* Words of a workspace and of a scratch, which are all of one length, C. */
#define FETSGUIN_WORKSPACE_LEAST 16
#define FETSGUIN_WORKSPACE_MOST 2048

/* Words of the table of a term of so many words, and of the longest. */
#define FETSGUIN_TABLE_WORDS(length) (4 * ((length) + 1))
#define FETSGUIN_TABLE_MOST 8196

/* Bytes that are enough for the binary encoding of any term of so many words, and of the longest. */
#define FETSGUIN_ENCODING_BYTES(length) (((length) * ((length) + 16) + 63) / 64)
#define FETSGUIN_ENCODING_MOST 66048

/* Bytes of a line. */
#define FETSGUIN_LINE_MOST 1024

/* A press's budget, and with it the session's total. */
#define FETSGUIN_BUDGET_MOST 1000000
#define FETSGUIN_TOTAL_MOST 1000000000

/* A word of a term is its kind and its payload. The payload is an index, a number of branches or a numeral; of a constructor and of a branch it is a tag and a count, of
 * arguments or of variables that it binds, and both are 0 in a branch that is the default; of an abstraction and of an application it is 0. */
#define FETSGUIN_KIND(word) ((word) % 8)
#define FETSGUIN_PAYLOAD(word) ((word) / 8)
#define FETSGUIN_TAG(word) ((word) / 128)
#define FETSGUIN_COUNT(word) ((word) / 8 % 16)

enum fetsguin_kind {
    FETSGUIN_KIND_VARIABLE = 0,
    FETSGUIN_KIND_ABSTRACTION = 1,
    FETSGUIN_KIND_APPLICATION = 2,
    FETSGUIN_KIND_CONSTRUCTOR = 3,
    FETSGUIN_KIND_CASE = 4,
    FETSGUIN_KIND_BRANCH = 5,
    FETSGUIN_KIND_NUMERAL = 6
};

enum fetsguin_verdict { FETSGUIN_VERDICT_SAME = 0, FETSGUIN_VERDICT_DIFFERENT = 1, FETSGUIN_VERDICT_BUDGET = 2, FETSGUIN_VERDICT_FULL = 3 };

enum fetsguin_side { FETSGUIN_SIDE_LEFT = 0, FETSGUIN_SIDE_RIGHT = 1 };

/* What a call returns, but fetsguin_show: the number of its refusal, by what is wrong. */
enum fetsguin_refusal {
    FETSGUIN_OK = 0,
    FETSGUIN_WRONG_TABLE_LENGTH = 1,
    FETSGUIN_WRONG_HEADER = 2,    /* a table's header */
    FETSGUIN_WRONG_VALUE = 3,     /* a record's kind or value */
    FETSGUIN_WRONG_LINK = 4,      /* a link, or a record that none names or several do */
    FETSGUIN_WRONG_CHILDREN = 5,  /* a record's children, or the root */
    FETSGUIN_WRONG_FREE = 6,      /* a free number, above 255 */
    FETSGUIN_WRONG_WORKSPACE = 7, /* the length of a workspace or of the scratch, or these are not of one length */
    FETSGUIN_TOO_LONG = 8,        /* a term for its workspace, or a term's bits for the bytes */
    FETSGUIN_OVER_BUDGET = 9,     /* the budget, alone or with the total */
    FETSGUIN_NO_TERM = 10,        /* a workspace's first words, as many as the length says: they are not exactly one whole term */
    FETSGUIN_WRONG_LINE = 11,     /* a line outside the grammar, or its length */
    FETSGUIN_WRONG_BITS = 12,     /* bits that end early, are left over or break the padding */
    FETSGUIN_NO_COMBINATOR = 13   /* a term that is not closed, or has another word than variables, abstractions and applications */
};

/* The words of a session. Of the one that is handed in a press reads only the total. */
enum fetsguin_session {
    FETSGUIN_SESSION_TOTAL = 0,
    FETSGUIN_SESSION_LEFT = 1,
    FETSGUIN_SESSION_RIGHT = 2,
    FETSGUIN_SESSION_VERDICT = 3,
    FETSGUIN_SESSION_WORDS = 4
};

/* The words of a press's answer: the verdict, the contractions made, both lengths and the position. With Different the position is that of the first word where the two
 * terms differ, counted from 0; otherwise it is 0. */
enum fetsguin_answer {
    FETSGUIN_ANSWER_VERDICT = 0,
    FETSGUIN_ANSWER_SPENT = 1,
    FETSGUIN_ANSWER_LEFT = 2,
    FETSGUIN_ANSWER_RIGHT = 3,
    FETSGUIN_ANSWER_POSITION = 4,
    FETSGUIN_ANSWER_WORDS = 5
};

/* Bring a term in. The workspace then holds the term's words with zeros after them, and *length is their number. */

/* From a table. Checks 7, 1, 2, 8, 3, 4, 5, 6, in this order. */
uint32_t fetsguin_load(const uint32_t *table, uint64_t table_words, uint32_t *workspace, uint64_t c, uint64_t *length);

/* From a line. Checks 7, 11, 6, 8. */
uint32_t fetsguin_read_line(const uint8_t *line, uint64_t bytes, uint32_t *workspace, uint64_t c, uint64_t *length);

/* From a binary encoding, of so many bits in so many bytes. Checks 7, 12, 8, 13. */
uint32_t fetsguin_import(const uint8_t *encoding, uint64_t bytes, uint64_t bits, uint32_t *workspace, uint64_t c, uint64_t *length);

/* Hand out the term of the given length that a workspace starts with. The workspace is only read. */

/* As a table, of exactly FETSGUIN_TABLE_WORDS(length) words. It then holds the header and the term's records in prefix order; *records is their number, the length.
 * Checks 7, 10, 1. */
uint32_t fetsguin_write(const uint32_t *workspace, uint64_t c, uint64_t length, uint32_t *table, uint64_t table_words, uint64_t *records);

/* As a binary encoding, in at least as many bytes as its bits need. They then hold the bits with zeros after them; *bits is their number. Checks 7, 10, 13, 8. */
uint32_t fetsguin_export(const uint32_t *workspace, uint64_t c, uint64_t length, uint8_t *encoding, uint64_t bytes, uint64_t *bits);

/* A fresh session: total 0, both lengths 0, last verdict Budget. */
void fetsguin_fresh(uint32_t session[FETSGUIN_SESSION_WORDS]);

/* A press: rounds of leftmost outermost contractions on the terms of the given lengths, up to a verdict, which stands in the answer and is not what is returned. Both
 * workspaces then hold the current terms with zeros after them, the scratch is all zeros, and session and answer are renewed. Checks 7, 9, 10 on the left, 10 on the
 * right. */
uint32_t fetsguin_press(uint32_t *left, uint64_t left_c, uint32_t *right, uint64_t right_c, uint32_t *scratch, uint64_t scratch_c, uint64_t left_length,
                        uint64_t right_length, uint32_t budget, uint32_t session[FETSGUIN_SESSION_WORDS], uint32_t answer[FETSGUIN_ANSWER_WORDS]);

/* The shorter current form, the right one at equal lengths: the first *count words of the workspace on the side that is returned. A showing that is refused, by 7, 10 on
 * the left or 10 on the right, hands back nothing: the left side and a *count of 0, which no term has. Both workspaces are only read, and may be the same. */
uint32_t fetsguin_show(const uint32_t *left, uint64_t left_c, const uint32_t *right, uint64_t right_c, uint64_t left_length, uint64_t right_length, uint64_t *count);

#ifdef __cplusplus
}
#endif

#endif
