/* A host in C: reads a grower's job sheet, adds its jobs, up to 64 in one call, and lets two workers take and finish
 * them in turn. It prints what the day list prints.
 *
 * usage: day [SHEET]      (without SHEET, the sheet of docs/RULES.md)
 *
 * A sheet is judged before the graph is touched: one that cannot be read, has an entry that no fresh graph accepts, or
 * needs more room than there is, is refused as a whole. Exit status: 0 the day was run, 1 the sheet is refused, 2 the
 * file cannot be read or the usage is wrong. */
#include <errno.h>
#include <inttypes.h>
#include <stdio.h>
#include <stdlib.h>
#include <string.h>
#include "taskgraph.h"

static const tg_sizes sizes = {256, 1024, 4, 2};
static uint32_t *jobs, *arcs, *buckets, *queue, *workers;
static tg_need need;

/* The five tables, as every call takes them. */
#define TABLES jobs, need.jobs, arcs, need.arcs, buckets, need.buckets, queue, need.queue, workers, need.workers

static void *memory_of(void *memory) {
    if (!memory) {
        fputs("out of memory\n", stderr);
        exit(2);
    }
    return memory;
}

static uint32_t *table(size_t words) {
    return memory_of(calloc(words, sizeof(uint32_t)));
}

/* The bytes of a file, and in `len` how many there are; a file that cannot be read ends the program. */
static uint8_t *read_file(const char *file, size_t *len) {
    FILE *bytes = fopen(file, "rb");
    size_t room = 4096;
    uint8_t *read = memory_of(malloc(room));
    *len = 0;
    while (bytes && !feof(bytes) && !ferror(bytes)) {
        if (*len == room) read = memory_of(realloc(read, room *= 2));
        *len += fread(read + *len, 1, room - *len, bytes);
    }
    if (!bytes || ferror(bytes)) {
        fprintf(stderr, "%s: %s\n", file, strerror(errno));
        exit(2);
    }
    fclose(bytes);
    return read;
}

/* What a sheet needs. One that a fresh graph of these sizes would not accept whole ends the program, before any table
 * is touched. */
static tg_room judge(const char *file, const uint8_t *sheet, size_t len) {
    tg_room room = tg_room_of_sheet(sheet, len);
    const char *why = tg_message(room.number);
    if (room.number == TG_ACCEPTED && room.jobs <= sizes.jobs && room.arcs <= sizes.arcs) return room;
    if (room.number == TG_ACCEPTED)
        fprintf(stderr, "%s: it needs room for %" PRIu32 " jobs and %" PRIu32 " arcs; there is room for %" PRIu32
                " and %" PRIu32 "\n", file, room.jobs, room.arcs, sizes.jobs, sizes.arcs);
    else if (room.number == TG_CUT || room.number == TG_MAP || room.number == TG_VALUE)
        fprintf(stderr, "%s: %s (byte %zu)\n", file, why, room.at);
    else if (room.number == TG_UNKNOWN_NAME)
        fprintf(stderr, "%s: entry %" PRIu32 ": %s (place %" PRIu32 " of the list)\n", file, room.entry, why,
                room.place);
    else
        fprintf(stderr, "%s: entry %" PRIu32 ": %s\n", file, room.entry, why);
    exit(1);
}

/* Adds the entries of all rows, as many in one call as it takes; how many entered. A host with several processes takes
 * its lock round each call of tg_add_sheet. */
static unsigned add_rows(uint32_t worker, const uint32_t *rows, size_t entries) {
    unsigned added = 0;
    for (size_t from = 0, part; from < entries; from += part) {
        part = entries - from < TG_MAX_ENTRIES ? entries - from : TG_MAX_ENTRIES;
        tg_sheet_added answer =
            tg_add_sheet(sizes, TABLES, worker, rows + from * TG_ENTRY_WORDS, part * TG_ENTRY_WORDS);
        for (size_t i = 0; i < part; i++) {
            uint32_t number = answer.number ? answer.number : answer.numbers[i];
            if (number) printf("refused %zu %u\n", from + i, number);
            added += !number;
        }
    }
    return added;
}

int main(int count, char **words) {
    static const uint8_t four_jobs[] = {1, 1, 0, 0, 0, 1, 2, 0, 0, 0, 1, 3, 0, 0, 0,
                                        3, 4, 0, 0, 0, 2, 1, 0, 0, 0, 2, 0, 0, 0};
    if (count > 2) {
        fputs("usage: day [SHEET]\n", stderr);
        return 2;
    }
    size_t len = sizeof four_jobs;
    const uint8_t *sheet = count == 2 ? read_file(words[1], &len) : four_jobs;
    tg_room room = judge(count == 2 ? words[1] : "the sheet", sheet, len);
    uint32_t *rows = table((size_t)room.jobs * TG_ENTRY_WORDS + 1);
    tg_read_sheet(sheet, len, rows, (size_t)room.jobs * TG_ENTRY_WORDS);

    need = tg_words_needed(sizes);
    jobs = table(need.jobs);
    arcs = table(need.arcs);
    buckets = table(need.buckets);
    queue = table(need.queue);
    workers = table(need.workers);
    if (tg_lay_out(sizes, TABLES).kind != TG_LAID_OUT) {
        fputs("the tables cannot be laid out\n", stderr);
        return 2;
    }

    unsigned added = add_rows(0, rows, room.jobs);
    printf("jobs %u workers %u\n", added, sizes.workers);

    unsigned handed = 0, finished = 0;
    for (;;) {
        tg_answer held[2];
        unsigned any = 0;
        for (uint32_t w = 0; w < 2; w++) {
            held[w] = tg_get(sizes, TABLES, w);
            if (held[w].kind != TG_HANDED_OUT) continue;
            printf("%u %u %u\n", handed++, held[w].name, w);
            any = 1;
        }
        if (!any) break;
        for (uint32_t w = 0; w < 2; w++)
            if (held[w].kind == TG_HANDED_OUT)
                finished += tg_finish(sizes, TABLES, w, held[w].name, TG_GOOD).kind == TG_ENDED;
    }
    printf("left %u\n", added - finished);
    return 0;
}
