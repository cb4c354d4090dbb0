/* A host in C whose gauges may give nothing: four gauges, and five shares that rest on them. A worker takes the jobs
 * one after another. A gauge that gave nothing ends as failed, and the library tells of each share that rests on it,
 * however far down, that it is spoiled; the others stay good. Trying to end a spoiled share as good is turned away.
 *
 * usage: gauge [GAUGE..]      the gauges that gave nothing today, of 1 to 4 */
#include <inttypes.h>
#include <stdio.h>
#include <stdlib.h>
#include <string.h>
#include "taskgraph.h"

enum { GAUGES = 4, SHARES = 5, JOBS = GAUGES + SHARES };

/* Gauges 1 to 4, then the shares, each with what it rests on. */
static const tg_entry entries[JOBS] = {
    {.name = 1}, {.name = 2}, {.name = 3}, {.name = 4}, {.name = 11, .count = 1, .names = {1}},
    {.name = 12, .count = 2, .names = {2, 3}}, {.name = 13, .count = 1, .names = {4}},
    {.name = 14, .count = 2, .names = {12, 13}}, {.name = 15, .count = 2, .names = {11, 13}}};

/* What the host keeps of the day: which gauges gave nothing, and which jobs ended as failed. */
static int silent[GAUGES], failed[JOBS];

static const tg_sizes sizes = {JOBS, 16, 2, 1};
static uint32_t *jobs, *arcs, *buckets, *queue, *workers;
static tg_need need;

/* The five tables, as every call takes them. */
#define TABLES jobs, need.jobs, arcs, need.arcs, buckets, need.buckets, queue, need.queue, workers, need.workers

static uint32_t *table(size_t words) {
    uint32_t *memory = calloc(words, sizeof *memory);
    if (!memory) {
        fputs("out of memory\n", stderr);
        exit(1);
    }
    return memory;
}

/* A number other than 0 ends the program. */
static void accept(const char *what, uint32_t refusal) {
    if (refusal) {
        fprintf(stderr, "%s: %s\n", what, tg_message(refusal));
        exit(1);
    }
}

/* Takes a gauge of the command line: one digit, 1 to 4. */
static void take_silent(const char *word) {
    if (strlen(word) != 1 || word[0] < '1' || word[0] > '0' + GAUGES) {
        fprintf(stderr, "There is no gauge %s.\n", word);
        exit(1);
    }
    silent[word[0] - '1'] = 1;
}

static int job_of(uint32_t name) {
    for (int job = 0; job < JOBS; job++)
        if (entries[job].name == name) return job;
    return -1;
}

/* Says what a spoiled share rests on, by the host's own records of what failed. */
static void print_spoiled(const tg_entry *share) {
    printf("Share %" PRIu32 " rests on", share->name);
    const char *and = "";
    for (uint32_t i = 0; i < share->count; i++) {
        int job = job_of(share->names[i]);
        if (!failed[job]) continue;
        printf("%s %s %" PRIu32, and, job < GAUGES ? "gauge" : "share", share->names[i]);
        and = " and";
    }
    puts(" and is not to be relied on.");
}

/* Works on a job, and answers how it ends. */
static uint32_t work_on(tg_answer held) {
    if (held.job < GAUGES) {
        printf("Gauge %" PRIu32 "%s\n", held.name, silent[held.job] ? " gave nothing today." : " was read.");
        return silent[held.job] ? TG_FAILED : TG_GOOD;
    }
    if (!held.spoiled) {
        printf("Share %" PRIu32 " is good.\n", held.name);
        return TG_GOOD;
    }
    print_spoiled(&entries[held.job]);
    tg_answer answer = tg_finish(sizes, TABLES, 0, held.name, TG_GOOD);
    printf("Share %" PRIu32 " as good? No: %s.\n", held.name, tg_message(answer.number));
    return TG_FAILED;
}

static void print_shares(const char *what, int of_failed) {
    printf("%s:", what);
    for (int job = GAUGES; job < JOBS; job++)
        if (failed[job] == of_failed) printf(" %" PRIu32, entries[job].name);
    puts("");
}

int main(int argc, char **argv) {
    for (int i = 1; i < argc; i++)
        take_silent(argv[i]);
    need = tg_words_needed(sizes);
    jobs = table(need.jobs);
    arcs = table(need.arcs);
    buckets = table(need.buckets);
    queue = table(need.queue);
    workers = table(need.workers);
    accept("laying out", tg_lay_out(sizes, TABLES).number);
    for (int job = 0; job < JOBS; job++)
        accept("an add", tg_add(sizes, TABLES, 0, entries[job]).number);
    for (;;) {
        tg_answer held = tg_get(sizes, TABLES, 0);
        accept("a get", held.number);
        if (held.kind != TG_HANDED_OUT) break;
        uint32_t outcome = work_on(held);
        accept("a finish", tg_finish(sizes, TABLES, 0, held.name, outcome).number);
        failed[held.job] = outcome == TG_FAILED;
    }
    print_shares("Good shares", 0);
    print_shares("Not to be relied on", 1);
    return 0;
}
