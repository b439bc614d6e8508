/* A queue in small: one job, whose journal is kept in a file. Killed at any moment and started again with the same terms, it
 * goes on from what the file holds, and ends in the tree and the journal of a run that was never killed.
 *
 *     cc queue.c $(pkg-config --cflags --libs dewgoblin) -o queue
 *     ./queue JOURNAL < hubbard-2x13.txt
 */
#define _POSIX_C_SOURCE 200809L
#include <dewgoblin.h>
#include <fcntl.h>
#include <inttypes.h>
#include <stdio.h>
#include <stdlib.h>
#include <string.h>
#include <unistd.h>

enum { MOST_MODES = 256, MOST_TERMS = 2048, MOST_JOURNAL = DEWGOBLIN_JOURNAL(MOST_MODES) };

/* One term and one byte more than any good job has, so that what is too long is seen and not cut. */
static uint8_t terms[16 * (MOST_TERMS + 1)], held[MOST_JOURNAL + 1];
static uint8_t rows[DEWGOBLIN_ROWS(MOST_MODES)], fresh[MOST_JOURNAL], answer[DEWGOBLIN_ANSWER];

static void stop(int status, const char *why)
{
    fprintf(stderr, "queue: %s\n", why);
    exit(status);
}

/* A term's row: how many indices, and each as two bytes. An eighth has no room; the call refuses a row that counts it. */
static void put_term(uint8_t *row, char *indices)
{
    for (char *index = strtok(indices, "\t\n"); index != NULL; index = strtok(NULL, "\t\n")) {
        unsigned long value = strtoul(index, NULL, 10);
        if (++row[0] > 7) continue;
        row[2 * row[0]] = (uint8_t)(value % 256);
        row[2 * row[0] + 1] = (uint8_t)(value / 256);
    }
}

/* The terms of hatt's text: `modes` and a number, then lines of `term` and its indices. */
static size_t read_terms(FILE *from, uint64_t *modes)
{
    char line[256];
    size_t count = 0;
    if (fgets(line, sizeof line, from) == NULL || sscanf(line, "modes\t%" SCNu64, modes) != 1) stop(65, "no modes in the terms");
    while (count <= MOST_TERMS && fgets(line, sizeof line, from) != NULL) {
        if (strncmp(line, "term\t", 5) != 0 || strchr(line, '\n') == NULL) stop(65, "a line of the terms is malformed");
        put_term(terms + 16 * count++, line + 5);
    }
    return count;
}

/* A number of the answer: eight bytes, the low byte first. */
static uint64_t number(int which)
{
    uint64_t value = 0;
    for (int i = 7; i >= 0; i--) value = value * 256 + answer[8 * which + i];
    return value;
}

static size_t read_journal(int file)
{
    size_t count = 0;
    ssize_t got;
    while ((got = read(file, held + count, sizeof held - count)) > 0) count += (size_t)got;
    if (got < 0) stop(66, "the journal can't be read");
    if (count == sizeof held) stop(65, "the file is too long to be a journal");
    return count;
}

/* The file is cut to the bytes that were kept and the new ones are appended, each line on the disk before the next. */
static void write_journal(int file, size_t kept, size_t new)
{
    if (ftruncate(file, (off_t)kept) != 0 || lseek(file, 0, SEEK_END) < 0) stop(74, "the journal can't be cut");
    for (size_t at = 0, end; at < new; at = end) {
        end = (size_t)((uint8_t *)memchr(fresh + at, '\n', new - at) - fresh) + 1;
        if (write(file, fresh + at, end - at) != (ssize_t)(end - at) || fsync(file) != 0) stop(74, "the journal can't be written");
    }
}

/* The weight and the nodes, as the program hatt prints them. */
static void print_tree(uint64_t modes)
{
    printf("weight\t%" PRIu64 "\n", number(0));
    for (const uint8_t *row = rows; row < rows + DEWGOBLIN_ROWS(modes); row += 8) {
        printf("node\t%d", row[0] + 256 * row[1]);
        for (int child = 1; child <= 3; child++) {
            int code = row[2 * child] + 256 * row[2 * child + 1];
            if (code == 65535) printf("\t-");
            else printf("\t%d", code);
        }
        printf("\n");
    }
}

int main(int count, char **words)
{
    uint64_t modes;
    if (count != 2) stop(64, "usage: queue JOURNAL < TERMS");
    size_t term_count = read_terms(stdin, &modes);
    int file = open(words[1], O_RDWR | O_CREAT, 0600);
    if (file < 0) stop(66, "the journal can't be opened");
    uint64_t result = dewgoblin_resume(modes, terms, 16 * term_count, held, read_journal(file), rows, sizeof rows,
                                       fresh, sizeof fresh, answer, sizeof answer);
    if (result != 0) {
        /* a refused call has written nothing, and neither do we: whoever looks at the journal finds it as it was */
        fprintf(stderr, "queue: refused by %" PRIu64 " at %" PRIu64 "\n", DEWGOBLIN_NUMBER(result), DEWGOBLIN_PLACE(result));
        return 65;
    }
    write_journal(file, number(2), number(3));
    print_tree(modes);
    return 0;
}
