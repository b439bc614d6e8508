/* How much stack the calls use: a thread with a painted stack makes them, and what is no longer paint was used. */
#define _GNU_SOURCE
#include "job.h"

#include <pthread.h>
#include <stdio.h>
#include <string.h>
#include <sys/mman.h>

#include "dewgoblin.h"

/* What the header promises to suffice, and a page below it that nobody may write. */
enum { PROMISED = 256 * 1024, GUARD = 64 * 1024, PAINT = 0xC3 };

/* Frames hold arrays of the most modes and terms, whatever a call is given; so few modes show what many use. */
static void *make_calls(void *unused)
{
    static struct job job;
    static struct left left;
    static uint8_t table[DEWGOBLIN_TABLE(2)], answer[DEWGOBLIN_ASSIGN_ANSWER];
    static const uint8_t tree[] = {2, 0, 3, 0, 4, 0, 0, 0, 5, 0, 255, 255};
    static const char read[] = "hatt\t1\t2\t2048\n";
    job.modes = 2;
    job.terms = 0;
    while (job.terms < MOST_TERMS) put_row(&job, (const uint8_t[]){0, 1, 2, 3}, 4);
    if (dewgoblin_hatt(2, job.bytes, 16 * job.terms, left.rows, 16, left.journal, 58, left.answer, 32) != 0) wrong("hatt in a thread");
    if (dewgoblin_resume(2, job.bytes, 16 * job.terms, (const uint8_t *)read, strlen(read), left.rows, 16, left.journal, 58, left.answer, 32) != 0)
        wrong("resume in a thread");
    if (dewgoblin_assign(2, tree, sizeof tree, 0, job.bytes, 16 * job.terms, table, sizeof table, answer, sizeof answer) != 0)
        wrong("assign in a thread");
    return unused;
}

void check_stack(void)
{
    uint8_t *low = mmap(NULL, GUARD + PROMISED, PROT_READ | PROT_WRITE, MAP_PRIVATE | MAP_ANONYMOUS, -1, 0);
    if (low == MAP_FAILED || mprotect(low, GUARD, PROT_NONE) != 0) return wrong("no memory for a stack");
    uint8_t *stack = low + GUARD;
    memset(stack, PAINT, PROMISED);
    pthread_attr_t attributes;
    pthread_t thread;
    if (pthread_attr_init(&attributes) != 0 || pthread_attr_setstack(&attributes, stack, PROMISED) != 0
        || pthread_create(&thread, &attributes, make_calls, NULL) != 0)
        return wrong("no thread");
    pthread_join(thread, NULL);
    pthread_attr_destroy(&attributes);
    size_t left = 0;
    while (left < PROMISED && stack[left] == PAINT) left++;
    printf("stack: %zu of %d bytes used\n", PROMISED - left, (int)PROMISED);
    munmap(low, GUARD + PROMISED);
}
