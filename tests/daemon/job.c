/* Jobs drawn from a seed, and the call that resumes one. */
#include "job.h"

#include <stdio.h>
#include <string.h>

#include "dewgoblin.h"

enum { MARK = 0xA5 };

static uint64_t state = 1;
static uint64_t wrong_count = 0;

void seed(uint64_t from) { state = from * 2654435769u | 1; }

uint64_t draw(uint64_t below)
{
    state ^= state << 13;
    state ^= state >> 7;
    state ^= state << 17;
    return (state >> 11) % below;
}

void wrong(const char *what)
{
    wrong_count++;
    fprintf(stderr, "wrong: %s\n", what);
}

uint64_t wrongs(void) { return wrong_count; }

void put_row(struct job *job, const uint8_t *indices, size_t count)
{
    uint8_t *row = job->bytes + 16 * job->terms++;
    memset(row, 0, 16);
    row[0] = (uint8_t)count;
    for (size_t i = 0; i < count; i++) row[2 + 2 * i] = indices[i];
}

/* A row of one to seven indices that never descend; two bytes each, for an index may be above 255. */
static void draw_row(struct job *job)
{
    uint64_t indices[7];
    size_t count = 1 + draw(7);
    for (size_t i = 0; i < count; i++) {
        uint64_t index = draw(2 * job->modes);
        size_t at = i;
        for (; at > 0 && indices[at - 1] > index; at--) indices[at] = indices[at - 1];
        indices[at] = index;
    }
    uint8_t *row = job->bytes + 16 * job->terms++;
    memset(row, 0, 16);
    row[0] = (uint8_t)count;
    for (size_t i = 0; i < count; i++) {
        row[2 + 2 * i] = (uint8_t)(indices[i] % 256);
        row[3 + 2 * i] = (uint8_t)(indices[i] / 256);
    }
}

void draw_job(struct job *job)
{
    /* one job in fifty has more than 128 modes, so that indices and codes need their high byte */
    bool large = draw(50) == 0;
    job->modes = large ? 129 + draw(20) : 1 + draw(24);
    size_t terms = large ? draw(6) : draw(80);
    job->terms = 0;
    for (size_t i = 0; i < terms; i++) draw_row(job);
}

struct left resume(const struct job *job, const uint8_t *read, size_t bytes)
{
    struct left left;
    memset(&left, MARK, sizeof left);
    size_t spare = SPARE;
    left.result = dewgoblin_resume(job->modes, job->bytes, 16 * job->terms, read, bytes,
                                   left.rows, DEWGOBLIN_ROWS(job->modes) + spare,
                                   left.journal, DEWGOBLIN_JOURNAL(job->modes) + spare,
                                   left.answer, DEWGOBLIN_ANSWER + spare);
    return left;
}

uint64_t number(const struct left *left, int which)
{
    uint64_t value = 0;
    for (int i = 7; i >= 0; i--) value = value * 256 + left->answer[8 * which + i];
    return value;
}

static bool marked(const uint8_t *bytes, size_t from, size_t end)
{
    for (size_t i = from; i < end; i++)
        if (bytes[i] != MARK) return false;
    return true;
}

bool whole(const struct job *job, const struct left *left)
{
    if (left->result != 0) return false;
    return marked(left->rows, DEWGOBLIN_ROWS(job->modes), sizeof left->rows)
        && marked(left->journal, number(left, NEW), sizeof left->journal)
        && marked(left->answer, DEWGOBLIN_ANSWER, sizeof left->answer);
}
