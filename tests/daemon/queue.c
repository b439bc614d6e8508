/* The queue daemon in small: each job's journal is kept in a file, the daemon is killed at random moments, and a restart
 * resumes from what the file holds. A job must end with the bytes of an unbroken run. Arguments: the seed, the count of jobs. */
#define _GNU_SOURCE
#include "job.h"

#include <fcntl.h>
#include <signal.h>
#include <stdio.h>
#include <stdlib.h>
#include <string.h>
#include <sys/wait.h>
#include <unistd.h>

#include "dewgoblin.h"

static struct { uint64_t jobs, merges, kills, in_line, no_line, restarts; } tally;

static char folder[4096];
static char file[4200];

static size_t read_file(uint8_t *bytes, size_t room)
{
    int handle = open(file, O_RDONLY);
    if (handle < 0) return 0;
    size_t count = 0;
    for (ssize_t got; (got = read(handle, bytes + count, room - count)) > 0;) count += (size_t)got;
    close(handle);
    return count;
}

/* One life of the daemon: resume, cut the file to what is kept, append the new lines in small pieces. */
static int live(const struct job *job, uint64_t pause)
{
    static uint8_t held[MOST_JOURNAL];
    size_t count = read_file(held, sizeof held);
    struct left left = resume(job, held, count);
    if (!whole(job, &left)) return 2;
    int handle = open(file, O_WRONLY | O_CREAT, 0600);
    if (handle < 0 || ftruncate(handle, (off_t)number(&left, KEPT)) != 0) return 3;
    lseek(handle, 0, SEEK_END);
    size_t end = number(&left, NEW);
    for (size_t at = 0; at < end;) {
        size_t piece = 1 + draw(9);
        if (piece > end - at) piece = end - at;
        if (write(handle, left.journal + at, piece) != (ssize_t)piece) return 3;
        at += piece;
        if (pause > 0) usleep((useconds_t)draw(pause));
    }
    close(handle);
    return 0;
}

/* Whether the daemon lived to the end of the job; else it was killed. */
static bool lived(const struct job *job, uint64_t tries)
{
    fflush(NULL);
    seed(draw(UINT64_MAX / 4096));
    pid_t child = fork();
    if (child == 0) _exit(live(job, 60));
    /* twice as long every third try, so that every job ends */
    usleep((useconds_t)draw(1500ull << (tries < 30 ? tries / 3 : 10)));
    kill(child, SIGKILL);
    int status = 0;
    waitpid(child, &status, 0);
    if (WIFSIGNALED(status)) return false;
    if (WEXITSTATUS(status) != 0) wrong("the daemon stopped by itself");
    return true;
}

/* What a file holds leads to the rows, the weight and the journal of the unbroken run, and to fewer trials. */
static void check_cut(const struct job *job, const struct left *unbroken, const uint8_t *held, size_t count)
{
    size_t all = number(unbroken, NEW);
    struct left left = resume(job, held, count);
    size_t kept = number(&left, KEPT);
    size_t new = number(&left, NEW);
    if (!whole(job, &left)) return wrong("a cut journal is refused, or bytes behind a front were altered");
    if (kept + new != all || kept > count) return wrong("kept and new bytes");
    if (memcmp(held, unbroken->journal, kept) != 0) wrong("the bytes kept");
    if (memcmp(left.journal, unbroken->journal + kept, new) != 0) wrong("the bytes that are new");
    if (memcmp(left.rows, unbroken->rows, DEWGOBLIN_ROWS(job->modes)) != 0) wrong("the rows");
    if (number(&left, WEIGHT) != number(unbroken, WEIGHT)) wrong("the weight");
    if (number(&left, TRIALS) > number(unbroken, TRIALS)) wrong("the trials");
    if (kept == all && number(&left, TRIALS) != 0) wrong("trials of a run that was whole");
}

static void run_job(const struct job *job)
{
    static uint8_t held[MOST_JOURNAL];
    struct left unbroken;
    memset(&unbroken, 0xA5, sizeof unbroken);
    size_t spare = SPARE;
    unbroken.result = dewgoblin_hatt(job->modes, job->bytes, 16 * job->terms, unbroken.rows, DEWGOBLIN_ROWS(job->modes) + spare,
                                     unbroken.journal, DEWGOBLIN_JOURNAL(job->modes) + spare, unbroken.answer, DEWGOBLIN_ANSWER + spare);
    if (!whole(job, &unbroken)) wrong("an unbroken run");
    unlink(file);
    bool ended = false;
    for (uint64_t tries = 0; !ended; tries++) {
        ended = lived(job, tries);
        size_t count = read_file(held, sizeof held);
        check_cut(job, &unbroken, held, count);
        tally.restarts += tries > 0;
        tally.kills += !ended;
        tally.in_line += !ended && count > 0 && held[count - 1] != '\n';
        tally.no_line += !ended && count == 0;
    }
    size_t count = read_file(held, sizeof held);
    if (count != number(&unbroken, NEW) || memcmp(held, unbroken.journal, count) != 0) wrong("the journal at the end");
    tally.jobs++;
    tally.merges += job->modes;
}

int main(int arguments, char **words)
{
    static struct job job;
    uint64_t from = arguments > 1 ? strtoull(words[1], NULL, 10) : 1;
    uint64_t jobs = arguments > 2 ? strtoull(words[2], NULL, 10) : 300;
    const char *temporary = getenv("TMPDIR");
    snprintf(folder, sizeof folder, "%s/dewgoblin.XXXXXX", temporary ? temporary : "/tmp");
    if (mkdtemp(folder) == NULL) return perror("mkdtemp"), 1;
    snprintf(file, sizeof file, "%s/journal", folder);
    seed(from);
    check_papers();
    check_refusals();
    check_stack();
    for (uint64_t i = 0; i < jobs; i++) {
        draw_job(&job);
        run_job(&job);
    }
    unlink(file);
    rmdir(folder);
    printf("seed %llu: %llu jobs, %llu merges, %llu restarts, %llu kills (%llu within a line, %llu before the first byte), %llu wrong\n",
           (unsigned long long)from, (unsigned long long)tally.jobs, (unsigned long long)tally.merges, (unsigned long long)tally.restarts,
           (unsigned long long)tally.kills, (unsigned long long)tally.in_line, (unsigned long long)tally.no_line, (unsigned long long)wrongs());
    return wrongs() > 0;
}
