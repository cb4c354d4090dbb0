/* What names that all fall in one bucket cost: adds 4,096 jobs with b = 8, through the library.
 *
 * usage: one_bucket one|spread LIST [ROUNDS]
 *
 * Names: all in one bucket, or spread over all. LIST is how many of the oldest jobs each job needs, 0 to 8: the
 * oldest stand at the end of their bucket. Prints the calls, and two times of this process in nanoseconds, each the
 * best of the rounds: of adding all jobs, and of 32 look-ups of the oldest names afterwards. scripts/one-bucket runs
 * it, and counts instructions. */
#define _POSIX_C_SOURCE 200809L
#include "taskgraph.h"

#include <stdio.h>
#include <stdlib.h>
#include <string.h>
#include <time.h>

enum { JOBS = TG_MAX_JOBS, BITS = TG_MAX_BITS, MOST_LIST = 8 };

static const tg_sizes sizes = {JOBS, TG_MAX_ARCS, BITS, 1};
static uint32_t jobs[5 + TG_CLASSES + 10 * JOBS], arcs[1 + 2 * TG_MAX_ARCS], buckets[1 << BITS], queue[2 + 3 * JOBS];
static uint32_t workers[43];
#define LEN(table) (sizeof(table) / sizeof *(table))
#define TABLES jobs, LEN(jobs), arcs, LEN(arcs), buckets, LEN(buckets), queue, LEN(queue), workers, LEN(workers)

static tg_entry entries[JOBS];

static void expect(int holds, const char *what)
{
    if (!holds) {
        fprintf(stderr, "one_bucket: %s\n", what);
        exit(1);
    }
}

/* 340573321 times 2654435769 is 1 in 32 bits, so name i has the product i, whose top bits are 0. */
static uint32_t name_of(uint32_t i, int spread)
{
    return spread ? i : i * UINT32_C(340573321);
}

/* All names are in bucket 0, or 15 to 17 in each. */
static void expect_lengths(int spread)
{
    uint32_t length[1 << BITS] = {0};
    for (uint32_t i = 0; i < JOBS; i++)
        length[tg_bucket(entries[i].name, BITS)]++;
    expect(spread || length[0] == JOBS, "a name is in another bucket");
    for (uint32_t i = 0; spread && i < LEN(length); i++)
        expect(15 <= length[i] && length[i] <= 17, "a bucket has another length");
}

static void make_entries(int spread, uint32_t list)
{
    for (uint32_t i = 0; i < JOBS; i++) {
        entries[i] = (tg_entry){.name = name_of(i, spread), .count = i < list ? i : list};
        for (uint32_t k = 0; k < entries[i].count; k++)
            entries[i].names[k] = entries[k].name;
    }
    expect_lengths(spread);
}

/* Adds every job; the number of calls. Callgrind finds this function by its name. */
__attribute__((noinline)) size_t add_all(void)
{
    size_t calls = 0;
    for (uint32_t i = 0; i < JOBS; i++) {
        tg_answer answer = tg_post_add(sizes, TABLES, 0, entries[i]);
        for (calls++; answer.kind == TG_POSTED || answer.kind == TG_GOING_ON; calls++)
            answer = tg_step(sizes, TABLES, 0);
        expect(answer.kind == TG_ENDED, "an add was refused");
    }
    return calls;
}

/* Looks up the oldest names; the number of look-ups. */
__attribute__((noinline)) size_t look_up_all(void)
{
    size_t calls = 0;
    for (; calls < TG_MAX_NAMES; calls++)
        expect(tg_step(sizes, TABLES, 0).kind == TG_GOING_ON, "an old name was not found");
    return calls;
}

/* Posts an add whose list is the oldest names. */
static void post_oldest(void)
{
    tg_entry last = {.name = UINT32_MAX, .count = TG_MAX_NAMES};
    for (uint32_t k = 0; k < TG_MAX_NAMES; k++)
        last.names[k] = entries[k].name;
    expect(tg_post_add(sizes, TABLES, 0, last).kind == TG_POSTED, "a post was refused");
}

static double nanoseconds(void)
{
    struct timespec now;
    clock_gettime(CLOCK_PROCESS_CPUTIME_ID, &now);
    return 1e9 * (double)now.tv_sec + (double)now.tv_nsec;
}

/* Runs a part, and keeps its time if it is the least so far; its calls. */
static size_t timed(size_t (*part)(void), double *least)
{
    double start = nanoseconds();
    size_t calls = part();
    double taken = nanoseconds() - start;
    if (taken < *least) *least = taken;
    return calls;
}

int main(int argc, char **argv)
{
    int spread = argc > 1 && strcmp(argv[1], "spread") == 0;
    uint32_t list = argc > 2 ? (uint32_t)strtoul(argv[2], NULL, 10) : 0;
    unsigned long rounds = argc > 3 ? strtoul(argv[3], NULL, 10) : 1;
    if (argc < 3 || argc > 4 || (!spread && strcmp(argv[1], "one")) || list > MOST_LIST || !rounds) {
        fputs("usage: one_bucket one|spread LIST [ROUNDS]\n", stderr);
        return 2;
    }
    make_entries(spread, list);
    double adding = 1e18, looking = 1e18;
    size_t adds = 0, looks = 0;
    while (rounds--) {
        expect(tg_lay_out(sizes, TABLES).kind == TG_LAID_OUT, "the tables are too short");
        adds = timed(add_all, &adding);
        post_oldest();
        looks = timed(look_up_all, &looking);
    }
    printf("%zu %.0f %zu %.0f\n", adds, adding, looks, looking);
    return 0;
}
