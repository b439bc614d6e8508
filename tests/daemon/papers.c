/* The scope paper's own examples, and one call for each refusal that a call can give before it reads a journal. */
#include "job.h"

#include <stdio.h>
#include <string.h>

#include "dewgoblin.h"

static uint8_t none[1];

static struct job two_modes(void)
{
    struct job job = {.modes = 2};
    put_row(&job, (const uint8_t[]){0, 1}, 2);
    put_row(&job, (const uint8_t[]){2, 3}, 2);
    put_row(&job, (const uint8_t[]){0, 1, 2, 3}, 4);
    return job;
}

/* The whole of what a call left: its four numbers, its rows and its new lines. */
static void expect(const char *what, const struct job *job, const char *read, const uint64_t numbers[4], const uint8_t *rows, const char *lines)
{
    struct left left = resume(job, (const uint8_t *)read, strlen(read));
    bool right = whole(job, &left);
    for (int i = 0; i < 4; i++) right = right && number(&left, i) == numbers[i];
    right = right && memcmp(left.rows, rows, DEWGOBLIN_ROWS(job->modes)) == 0;
    right = right && memcmp(left.journal, lines, strlen(lines)) == 0;
    if (!right) wrong(what);
}

/* A call that is refused returns its number and place, and leaves every byte. */
static void refused(const char *what, const struct job *job, const char *read, uint64_t code, uint64_t place)
{
    struct left left = resume(job, (const uint8_t *)read, strlen(read));
    struct left untouched;
    memset(&untouched, 0xA5, sizeof untouched);
    bool same = memcmp(left.rows, untouched.rows, sizeof left.rows) == 0
             && memcmp(left.journal, untouched.journal, sizeof left.journal) == 0
             && memcmp(left.answer, untouched.answer, sizeof left.answer) == 0;
    if (DEWGOBLIN_NUMBER(left.result) != code || DEWGOBLIN_PLACE(left.result) != place || !same) wrong(what);
}

/* P3's tree assigned with these terms: the weight and the table, or the refusal with every byte left. */
static void assigned(const char *what, const uint8_t *terms, size_t terms_bytes, uint64_t heuristic, uint64_t result, uint8_t weight, const uint8_t *codes)
{
    static const uint8_t tree[] = {2, 0, 3, 0, 4, 0, 0, 0, 5, 0, 255, 255};
    uint8_t table[DEWGOBLIN_TABLE(2)], answer[DEWGOBLIN_ASSIGN_ANSWER];
    memset(table, 0xA5, sizeof table);
    memset(answer, 0xA5, sizeof answer);
    uint8_t left_table[sizeof table], left_answer[sizeof answer] = {weight};
    if (result == 0) {
        memcpy(left_table, codes, sizeof table);
    } else {
        memcpy(left_table, table, sizeof table);
        memcpy(left_answer, answer, sizeof answer);
    }
    uint64_t said = dewgoblin_assign(2, tree, sizeof tree, heuristic, terms, terms_bytes, table, sizeof table, answer, sizeof answer);
    if (said != result || memcmp(table, left_table, sizeof table) != 0 || memcmp(answer, left_answer, sizeof answer) != 0) wrong(what);
}

static void check_assigned(void)
{
    static const uint8_t row[16] = {1, 0, 1, 0};
    struct job two = two_modes();
    assigned("P8", row, sizeof row, 0, 0, 0, (const uint8_t[]){4, 0, 5, 0, 2, 0, 0, 0, 3, 0, 255, 255});
    assigned("P9", two.bytes, 16 * two.terms, 0, 0, 2, (const uint8_t[]){2, 0, 3, 0, 4, 0, 0, 0, 5, 0, 255, 255});
    assigned("no heuristic", row, 15, 3, (uint64_t)DEWGOBLIN_HEURISTIC << 16, 0, none);
    assigned("not in 16s", row, 15, 2, (uint64_t)DEWGOBLIN_TERM_NUMBERS << 16, 0, none);
}

void check_papers(void)
{
    check_assigned();
    struct job one = {.modes = 1};
    put_row(&one, (const uint8_t[]){0, 1}, 2);
    expect("P1", &one, "", (const uint64_t[]){1, 2, 0, 21}, (const uint8_t[]){0, 0, 1, 0, 2, 0, 255, 255}, "hatt\t1\t1\t1\n0\t0\t1\t2\t1\n");
    struct job two = two_modes();
    expect("P3", &two, "", (const uint64_t[]){4, 14, 0, 31}, (const uint8_t[]){1, 0, 0, 0, 5, 0, 255, 255, 0, 0, 2, 0, 3, 0, 4, 0},
           "hatt\t1\t2\t3\n0\t0\t1\t2\t2\n1\t5\t3\t4\t2\n");
    expect("P5", &two, "hatt\t1\t2\t3\n0\t0\t1\t4\t2\n", (const uint64_t[]){4, 2, 21, 10},
           (const uint8_t[]){1, 0, 4, 0, 5, 0, 0, 0, 0, 0, 2, 0, 3, 0, 255, 255}, "1\t2\t3\t5\t2\n");
    refused("P6", &two, "hatt\t1\t2\t3\n0\t0\t1\t4\t1\n", DEWGOBLIN_WEIGHT_UNTRUE, 1);
    refused("P7", &two, "hatt\t1\t2\t3\n1\t5\t3\t4\t2\n0\t0\t1\t2\t2\n", DEWGOBLIN_STEP_NOT_NEXT, 1);
    refused("another header", &two, "hatt\t1\t2\t4\n", DEWGOBLIN_HEADER, 0);
    refused("no header", &two, "hatt\n", DEWGOBLIN_LINE_FORM, 0);
    refused("one line more", &one, "hatt\t1\t1\t1\n0\t0\t1\t2\t1\n\n", DEWGOBLIN_LINE_AFTER_LAST, 2);
}

/* P1's HATT call with these counts of bytes: refused, and every byte left. */
static void miscounted(const char *what, size_t terms, size_t answer, uint64_t result)
{
    struct job job = {.modes = 1};
    struct left left, untouched;
    put_row(&job, (const uint8_t[]){0, 1}, 2);
    memset(&left, 0xA5, sizeof left);
    memset(&untouched, 0xA5, sizeof untouched);
    uint64_t said = dewgoblin_hatt(1, job.bytes, terms, left.rows, 8, left.journal, 37, left.answer, answer);
    if (said != result || memcmp(&left, &untouched, sizeof left) != 0) wrong(what);
}

/* A HATT call of two modes with these counts of bytes; the slices hold more. */
static void counts(const char *what, uint64_t modes, size_t terms, size_t rows, size_t journal, size_t answer, uint64_t result)
{
    static struct job job;
    static struct left left;
    job = two_modes();
    job.modes = modes;
    /* good rows beyond the three, so that only the counts can refuse */
    while (job.terms < MOST_TERMS + 1) put_row(&job, (const uint8_t[]){0}, 1);
    if (dewgoblin_hatt(modes, job.bytes, terms, left.rows, rows, left.journal, journal, left.answer, answer) != result) wrong(what);
}

void check_refusals(void)
{
    miscounted("P1's terms and a byte", 17, 32, 131072);
    miscounted("an answer of 31 bytes", 16, 31, 327680);
    counts("two modes", 2, 48, 16, 58, 32, 0);
    counts("no modes", 0, 48, 16, 58, 32, DEWGOBLIN_MODES << 16);
    counts("257 modes", 257, 48, 16, 58, 32, DEWGOBLIN_MODES << 16);
    counts("more modes than a word of 32 bits", 1ull << 32 | 2, 48, 16, 58, 32, DEWGOBLIN_MODES << 16);
    counts("the most modes of 64 bits", UINT64_MAX, 48, 16, 58, 32, DEWGOBLIN_MODES << 16);
    counts("a byte too many", 2, 49, 16, 58, 32, DEWGOBLIN_TERM_NUMBERS << 16);
    counts("half a row", 2, 40, 16, 58, 32, DEWGOBLIN_TERM_NUMBERS << 16);
    counts("2048 rows", 2, 16 * 2048, 16, 58, 32, 0);
    counts("2049 rows", 2, 16 * 2049, 16, 58, 32, DEWGOBLIN_TOO_MANY_TERMS << 16);
    counts("a byte short of 2049 rows", 2, 16 * 2049 - 1, 16, 58, 32, DEWGOBLIN_TERM_NUMBERS << 16);
    counts("an index too large for one mode", 1, 48, 8, 37, 32, DEWGOBLIN_BAD_ROW << 16 | 1);
    counts("a byte short of rows", 2, 48, 15, 58, 32, DEWGOBLIN_ROOM << 16);
    counts("a byte short of journal", 2, 48, 16, 57, 32, DEWGOBLIN_ROOM << 16);
    counts("a byte short of answer", 2, 48, 16, 58, 31, DEWGOBLIN_ROOM << 16);
    counts("a bad row before a short answer", 1, 48, 8, 37, 0, DEWGOBLIN_BAD_ROW << 16 | 1);
    counts("no terms", 2, 0, 16, 58, 32, 0);
    struct job bad = two_modes();
    bad.bytes[16 * 2 + 15] = 1;
    refused("a number behind a row's indices, in its high byte", &bad, "", DEWGOBLIN_BAD_ROW, 2);
    struct left left;
    if (dewgoblin_resume(1, none, 0, none, 0, left.rows, 8, left.journal, 37, left.answer, 32) != 0) wrong("one mode and no terms");
}
