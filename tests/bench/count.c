/* One call of the library on terms made from a seed, for whoever counts its instructions: hatt, resume from the whole journal, or assign on a tree that is one z-chain.
   usage: count hatt|resume MODES TERMS, or count assign MODES TERMS HEURISTIC; what the call wrote is printed as one number. */
#include <stdint.h>
#include <stdio.h>
#include <stdlib.h>
#include <string.h>

#include "dewgoblin.h"

enum { MOST_MODES = 256, MOST_TERMS = 2048 };

static uint8_t terms[16 * MOST_TERMS], rows[8 * MOST_MODES], tree[6 * MOST_MODES], table[6 * MOST_MODES];
static uint8_t journal[16 + 21 * MOST_MODES], more[16 + 21 * MOST_MODES], answer[32];

static uint64_t next_number(void) {
    static uint64_t seed = 88172645463325252u;
    seed ^= seed << 13;
    seed ^= seed >> 7;
    return seed ^= seed << 17;
}

static int by_number(const void *a, const void *b) {
    return *(const uint16_t *)a - *(const uint16_t *)b;
}

static void make_terms(int modes, int count) {
    for (int place = 0; place < count; place++) {
        uint16_t row[8] = {0};
        row[0] = 2 + 2 * (next_number() % 3);
        for (int at = 1; at <= row[0]; at++) row[at] = next_number() % (2 * modes);
        qsort(row + 1, row[0], sizeof row[0], by_number);
        memcpy(terms + 16 * place, row, sizeof row);
    }
}

static void make_tree(int modes) {
    for (int node = 0; node < modes; node++) {
        uint16_t children[3] = {modes + 2 * node, modes + 2 * node + 1, node ? node - 1 : 65535};
        memcpy(tree + 6 * node, children, sizeof children);
    }
}

static uint64_t digest(const uint8_t *bytes, size_t count) {
    uint64_t sum = 0;
    while (count--) sum = 31 * sum + *bytes++;
    return sum;
}

int main(int words, char **word) {
    if (words < 4) return 2;
    int modes = atoi(word[2]), count = atoi(word[3]);
    size_t lines = 16 + 21 * modes;
    uint64_t said, new;
    make_terms(modes, count);
    if (strcmp(word[1], "assign") == 0) {
        make_tree(modes);
        said = dewgoblin_assign(modes, tree, 6 * modes, words > 4 ? atoi(word[4]) : 0, terms, 16 * count, table, 6 * modes, answer, 8);
        printf("%llu %llx\n", (unsigned long long)said, (unsigned long long)digest(table, 6 * modes));
        return 0;
    }
    said = dewgoblin_hatt(modes, terms, 16 * count, rows, 8 * modes, journal, lines, answer, 32);
    memcpy(&new, answer + 24, sizeof new);
    if (strcmp(word[1], "resume") == 0)
        said = dewgoblin_resume(modes, terms, 16 * count, journal, new, rows, 8 * modes, more, lines, answer, 32);
    printf("%llu %llx %llx\n", (unsigned long long)said, (unsigned long long)digest(rows, 8 * modes), (unsigned long long)digest(journal, new));
    return 0;
}
