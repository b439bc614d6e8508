/* The calls of Dewgoblin for C: a Hamiltonian's Majorana terms to a ternary tree, with a journal that a restart reads back.
 *
 * Every slice is a pointer to bytes and their count. A 16-bit number is two bytes, the low byte first, on every machine;
 * the numbers of an answer are eight bytes each, the low byte first.
 *
 * What the caller must keep to, for it is all that the calls cannot check:
 *   - no pointer is NULL, not even one whose count is 0, and as many bytes as the count says may be read (or written);
 *   - a slice that is written overlaps no other slice of the same call;
 *   - 256 KiB of stack are free (the calls use 217000 bytes on x86-64, as tests/daemon/run measures).
 * Any other input is either taken or refused by a number. No call keeps anything from one call to the next, allocates,
 * or reads a file, so calls may run at the same time in several threads on slices of their own.
 *
 * THE RESULT of each call is 0 on success. Any other result is a refusal: its number is DEWGOBLIN_NUMBER(result), and
 * DEWGOBLIN_PLACE(result) says where. A refused call has written nothing at all. A call that succeeds writes the front of
 * each slice that it writes, as told below; the bytes behind that front stay as they were.
 *
 * MODES are 1 to 256; n below.
 *
 * TERMS are rows of 16 bytes, at most 2048, and may be none. A row is eight numbers: how many indices (1 to 7), the indices,
 * each below 2n and none below the one before it, then zeros.
 *
 * ENTITIES are the numbers that merges speak of. 0 to 2n are leaves: 0 to 2n-1 are the Majorana indices, and 2n is one leaf
 * more, whose place in the finished tree stays empty. 2n+1+i is the parent that step i makes; steps count from 0, and after
 * step n-1 the last parent is the root. An entity is open until a merge takes it as a child.
 *
 * A MERGE joins three different open entities x, y and z under a new parent, as its X, Y and Z child. It is lawful where
 * the z-end of x is an even number 2k below 2n and the z-end of y is 2k+1. The z-end of a leaf is the leaf itself; that of
 * a parent is the z-end of its Z child. Any open third entity may be z.
 * Its weight counts rows: 1 for each row in which one or two of x, y and z (not none, not all three) occur an odd number
 * of times. Behind the merge each of the three becomes the parent's number in every row, rows with no other number than the
 * parent's are dropped, and equal rows become one. So a weight is counted on the rows that the merges before have left.
 * HATT takes the lightest lawful merge at each step; on a tie the one that the least (a, z) names, a being x or y.
 *
 * A JOURNAL is text. Its lines end in a line feed, its fields are parted by one tab, and its numbers are decimal, one to
 * five digits, at most 65535, without leading zeros. Its first line, line 0, is the header:
 *     hatt  1  n  terms                 the word hatt, the number 1, the modes and the count of rows
 * (Journals of the keeping rule, which these calls don't have, say keep instead of hatt and are refused by 7.)
 * Each line behind it is one merge:
 *     step  x  y  z  weight             the step's number from 0, the three entities, the weight
 * A journal is protected line by line: a line is obeyed only where its step is the next one, its merge lawful and its weight
 * true; there is no other seal. It does not name its terms: keep them together, for with other terms of the same count
 * it is obeyed as far as every weight happens to be true there. A call returns all its lines at its end: what is killed
 * within a call has lost that call's work, and no more.
 *
 * CODES. A child of a node is a number: 0 to n-1 is a node, n to 3n-1 is the leaf of that number less n, and 65535 is the
 * one child that is absent.
 *
 * A TREE TABLE has the codes of the X, Y and Z children of node 0, then of node 1, to n-1. The rows that HATT leaves become
 * one by their labels: for each row of 8 bytes, memcpy(tree + 6 * label, row + 2, 6), label being its first number.
 */
#ifndef DEWGOBLIN_H
#define DEWGOBLIN_H

#include <stddef.h>
#include <stdint.h>

#ifdef __cplusplus
extern "C" {
#endif

/* The version, as text and as numbers that can be compared. */
#define DEWGOBLIN_VERSION "0.1.0"
#define DEWGOBLIN_VERSION_MAJOR 0
#define DEWGOBLIN_VERSION_MINOR 1
#define DEWGOBLIN_VERSION_PATCH 0

/* Rooms in bytes, for n modes. */
#define DEWGOBLIN_ROWS(n) (8 * (size_t)(n))
#define DEWGOBLIN_JOURNAL(n) (16 + 21 * (size_t)(n))
#define DEWGOBLIN_ANSWER 32
#define DEWGOBLIN_TREE(n) (6 * (size_t)(n))
#define DEWGOBLIN_TABLE(n) (6 * (size_t)(n))
#define DEWGOBLIN_ASSIGN_ANSWER 8

/* A refusal's number, and its place, which is always below 65536. */
#define DEWGOBLIN_NUMBER(result) ((result) >> 16)
#define DEWGOBLIN_PLACE(result) ((result) & 65535)

/* The refusals; the place is 0 where none is told. docs/USING.md has for each what brings it about and what to do. */
enum {
    DEWGOBLIN_MODES = 1,           /* modes are 0 or above 256 */
    DEWGOBLIN_TERM_NUMBERS = 2,    /* the terms' bytes don't come in 16s */
    DEWGOBLIN_TOO_MANY_TERMS = 3,  /* more than 2048 rows */
    DEWGOBLIN_BAD_ROW = 4,         /* the first bad row; its place is that row, counted from 0 */
    DEWGOBLIN_ROOM = 5,            /* a slice that is written is below its room */
    DEWGOBLIN_LINE_FORM = 6,       /* a journal line breaks the form; for 6 to 12 the place is the line, counted from 0 */
    DEWGOBLIN_HEADER = 7,          /* the journal's header says other modes, another count of terms or the word keep; place 0 */
    DEWGOBLIN_STEP_NOT_NEXT = 8,   /* the line's step isn't the next one */
    DEWGOBLIN_CHILD_NOT_OPEN = 9,  /* a child of the line isn't open */
    DEWGOBLIN_NOT_LAWFUL = 10,     /* the line's merge isn't lawful; also where two of its open children are one */
    DEWGOBLIN_WEIGHT_UNTRUE = 11,  /* the line's weight is untrue */
    DEWGOBLIN_LINE_AFTER_LAST = 12,/* a complete line after the last merge */
    DEWGOBLIN_TREE_LENGTH = 13,    /* the tree's bytes aren't 6n */
    DEWGOBLIN_CHILD_CODE = 14,     /* a code neither below 3n nor 65535; the place is its index in the tree's numbers */
    DEWGOBLIN_NOT_ONE_TREE = 15,   /* not one tree with each part once: one root, from which every node is reached; each other
                                      node and each leaf is a child exactly once; and one child is absent */
    DEWGOBLIN_WRONG_PAIR = 16,     /* the least k whose leaves 2k and 2k+1 stand wrong; the place is k. They stand right where
                                      for one node the way from its X child down the Z children ends in 2k, and the way
                                      from its Y child ends in 2k+1 */
    DEWGOBLIN_HEURISTIC = 17       /* the heuristic isn't 0, 1 or 2 */
};

/* HATT, an unbroken run.
 *
 * Rooms: rows DEWGOBLIN_ROWS(n), journal DEWGOBLIN_JOURNAL(n), answer DEWGOBLIN_ANSWER; more is allowed.
 * Refuses 1 to 5, the lowest number that applies.
 * Leaves, on success:
 *   rows     n rows of four numbers: a node's label (the step that made it) and the codes of its X, Y and Z children;
 *            breadth first from the root;
 *   journal  the journal of the run, its header first;
 *   answer   four numbers of eight bytes: the greedy weight (the sum of the weights of the merges), the trials made (how
 *            many ordered pairs (a, z) were weighed), 0 (bytes kept of a journal), and how many bytes of the journal
 *            were written.
 */
uint64_t dewgoblin_hatt(uint64_t modes,
                        const uint8_t *terms, size_t terms_bytes,
                        uint8_t *rows, size_t rows_bytes,
                        uint8_t *journal, size_t journal_bytes,
                        uint8_t *answer, size_t answer_bytes);

/* Resuming: the lines of a journal are obeyed in their order and the run goes on from there. From no bytes it is HATT.
 *
 * `read` is the journal as it was found, cut anywhere: what stands behind its last line feed is dropped. Rooms as for
 * dewgoblin_hatt; `journal` is lent apart from `read` and takes the new lines only.
 * Refuses 1 to 5 as dewgoblin_hatt, and then the first bad line of the journal. On that line 12 comes first, then 6; in the
 * header 7 follows, in a merge line 8, 9, 10 and 11 in this order.
 * Leaves what dewgoblin_hatt leaves, but: the answer's third number is how many bytes of `read` are kept (through its last
 * line feed), the fourth how many new bytes stand at the front of `journal`, and the trials are those of the new steps.
 *
 * Where `read` is the journal of an unbroken run with the same modes and terms, cut before or after any byte, the call ends in
 * the rows and the weight of that run, and the kept bytes followed by the new ones are its journal. So a caller who
 * keeps the journal in a file cuts the file to the kept bytes and appends the new ones, in pieces of any size: killed at
 * any moment, the file resumes to what an unbroken run ends in.
 * Where it is any other journal that is not refused (one that was begun by hand), its merges are made in their order, and
 * HATT's rule goes on from there.
 */
uint64_t dewgoblin_resume(uint64_t modes,
                          const uint8_t *terms, size_t terms_bytes,
                          const uint8_t *read, size_t read_bytes,
                          uint8_t *rows, size_t rows_bytes,
                          uint8_t *journal, size_t journal_bytes,
                          uint8_t *answer, size_t answer_bytes);

/* TOPP-HATT: the leaves of a given tree assigned anew. The nodes stay where they are; each pair of leaves 2k and 2k+1 is given
 * a mode, round by round, the nodes farthest from the root first.
 *
 * `tree` is a tree table. The heuristic says which of the farthest nodes that are left a round looks at: 0 (min_weight) all of
 * them, one of those whose slots are alike, and takes the lightest choice of any; 1 (x_first) the one of the lowest number;
 * 2 (z_first) the one of the highest. Of choices of one weight that with the largest z is taken, then y, then x.
 * Rooms: table DEWGOBLIN_TABLE(n), answer DEWGOBLIN_ASSIGN_ANSWER.
 * Refuses 1, 13, 14, 15, 16, 17, 2, 3, 4, 5, the first of these that applies.
 * Leaves, on success: in table the codes of each node's children, as `tree` has them; in answer one number of eight bytes, the
 * sum of the weights that the rounds' choices had on the rows as the rounds before had left them. A node that has no leaf
 * left to fix has no round and adds nothing, so this is not the weight of the finished tree.
 */
uint64_t dewgoblin_assign(uint64_t modes,
                          const uint8_t *tree, size_t tree_bytes,
                          uint64_t heuristic,
                          const uint8_t *terms, size_t terms_bytes,
                          uint8_t *table, size_t table_bytes,
                          uint8_t *answer, size_t answer_bytes);

#ifdef __cplusplus
}
#endif

#endif
