/* A job of the queue: its terms, and what a call leaves of it. */
#ifndef JOB_H
#define JOB_H

#include <stdbool.h>
#include <stdint.h>
#include <stddef.h>

enum { MOST_MODES = 256, MOST_TERMS = 2048, MOST_ROWS = 8 * 256, MOST_JOURNAL = 16 + 21 * 256, SPARE = 40 };

struct job {
    uint64_t modes;
    size_t terms;
    uint8_t bytes[16 * (MOST_TERMS + 1)];
};

/* The result of a call and every byte that was lent to it; SPARE bytes of each slice stand behind its room. */
struct left {
    uint64_t result;
    uint8_t rows[MOST_ROWS + SPARE];
    uint8_t journal[MOST_JOURNAL + SPARE];
    uint8_t answer[32 + SPARE];
};

/* The numbers of an answer. */
enum { WEIGHT, TRIALS, KEPT, NEW };

uint64_t draw(uint64_t below);
void seed(uint64_t from);

void draw_job(struct job *job);
void put_row(struct job *job, const uint8_t *indices, size_t count);
struct left resume(const struct job *job, const uint8_t *read, size_t bytes);
uint64_t number(const struct left *left, int which);

/* Whether a call was done and left every byte behind its fronts alone. */
bool whole(const struct job *job, const struct left *left);

/* Each says what is wrong and counts it. */
void wrong(const char *what);
uint64_t wrongs(void);

void check_papers(void);
void check_refusals(void);
void check_stack(void);

#endif
