/* The C interface of the proved library: job sheets, buckets, minutes, totals, the task graph and the day
 * list.
 *
 * Every function answers for all arguments; nothing is left to the caller but that a pointer with a
 * length points to that many elements, and that no elements which are written are lent twice in one
 * call. A slice of length 0 still wants a pointer that is not null.
 * No function keeps a pointer, allocates, or reads or writes anything but its arguments and constants.
 * All are proved but tg_message and tg_version, which are C (lib/message.c).
 */
#ifndef TASKGRAPH_H
#define TASKGRAPH_H

#include <stddef.h>
#include <stdint.h>

#ifdef __cplusplus
extern "C" {
#endif

#define TG_VERSION_MAJOR 5
#define TG_VERSION_MINOR 1
#define TG_VERSION_PATCH 0
#define TG_VERSION "5.1.0"

/* The numbers of the refusals (docs/RULES.md, "Turned-away calls"), as they stand in a `number`. docs/NUMBERS.md
 * says what a host does about each. */
enum {
    TG_ACCEPTED = 0,          /* not refused */
    TG_SIZE = 1,              /* a size off its limits or not the one laid out, or a table too short */
    TG_WORKER = 2,            /* no such worker */
    TG_HALF_DONE = 3,         /* a post, get, whole call or sheet while the worker's call is half done */
    TG_IDLE = 4,              /* a step while the worker is idle */
    TG_ARGUMENTS = 5,         /* an add with wrong arguments */
    TG_UNKNOWN_NAME = 6,      /* a look-up finds no such name */
    TG_NAME_PRESENT = 7,      /* entering finds the name present */
    TG_FULL = 8,              /* entering finds no room for the job or its arcs */
    TG_DAMAGED = 9,           /* damaged words */
    TG_HOLDING = 10,          /* a get while holding a job */
    TG_NOT_HELD = 11,         /* a finish of a name that the worker does not hold */
    TG_CUT = 12,              /* the sheet ends inside an entry */
    TG_MAP = 13,              /* a wrong map byte */
    TG_VALUE = 14,            /* a field's value off its limits */
    TG_NO_ROOM = 15,          /* the output lacks room */
    TG_ENTRIES = 16,          /* more entries than one call takes */
    TG_MINUTES = 17,          /* minute values that do not rise strictly or leave 1 to 1,440 */
    TG_ENTERED = 18,          /* a load after a job has entered */
    TG_GOOD_FOR_SPOILED = 19  /* a finish as good of a job with a prerequisite that failed */
};

/* The limits. */
enum {
    TG_MAX_JOBS = 4096,        /* R is 1 to this */
    TG_MAX_ARCS = 32768,       /* A is 0 to this */
    TG_MAX_BITS = 8,           /* b is 1 to this */
    TG_MAX_WORKERS = 16,       /* P is 1 to this */
    TG_MAX_NAMES = 32,         /* the longest list of prerequisites */
    TG_MAX_CLASS = 15,         /* a class is 0 to this */
    TG_CLASSES = 16,           /* the minute values of a load, one for each class */
    TG_MAX_MINUTES = 1440,     /* minutes that are loaded are 1 to this */
    TG_MAX_GROWER = 65535,     /* a grower is 0 to this */
    TG_MAX_RECORDS = 4096,     /* the longest row that the totals take */
    TG_ENTRY_WORDS = 36,       /* the 32-bit words of a tg_entry, which is a row of tg_read_sheet */
    TG_MAX_ENTRY_BYTES = 137,  /* the longest entry of a sheet */
    TG_MAX_ENTRIES = 64,       /* the entries that tg_add_sheet takes */
    TG_MAX_DAY_SHEET = 32768,  /* the longest sheet that the day list reads, in bytes */
    TG_MAX_DAY_LIST = 97979,   /* the longest day list of two workers, in bytes */
    TG_DAY_JOBS = 256,         /* R of the day list */
    TG_DAY_ARCS = 1024,        /* A of the day list */
    TG_DAY_BITS = 4            /* b of the day list */
};

/* No place. */
#define TG_NONE UINT32_C(4294967295)

/* A constant text for each of the numbers above, and "unknown number" for any other. */
const char *tg_message(uint32_t number);

/* TG_VERSION, as the library was built. */
const char *tg_version(void);

/* ---- Job sheets (docs/SHEETS.md) ---- */

/* A job: its name, the first `count` of `names` as its prerequisites, its class and its grower.
 * On reading, names past the count are 0. On writing, they are ignored. */
typedef struct {
    uint32_t name, count, class_, grower;
    uint32_t names[TG_MAX_NAMES];
} tg_entry;

/* number 0, found 1: the entry, and `at` is the offset past it.
 * number 0, found 0: the sheet ends at or before the offset asked, which `at` repeats.
 * number 12, 13 or 14: `at` is the offset of the field from the sheet's start; found is 0.
 * Without an entry found, all of `entry` is 0. */
typedef struct {
    uint32_t number;
    uint32_t found;
    size_t at;
    tg_entry entry;
} tg_reading;

/* The entry at offset `at` of a sheet of `sheet_len` bytes. */
tg_reading tg_read_entry(const uint8_t *sheet, size_t sheet_len, size_t at);

/* number 0: `at` is the offset past the entry.
 * number 14: `at` is the offset of the first field off its limits, from the entry's start.
 * number 15: `at` is 0. */
typedef struct {
    uint32_t number;
    size_t at;
} tg_written;

/* Writes an entry at offset `at` of an output of `out_len` bytes. 14 comes before 15, and an `at`
 * beyond the output is 15. A refusal leaves the output unchanged; bytes outside the entry are never
 * touched. */
tg_written tg_write_entry(uint8_t *out, size_t out_len, size_t at, tg_entry entry);

/* number 0: how many entries the sheet has; `at` is 0.
 * number 12, 13 or 14: `at` is the offset of the field from the sheet's start; entries is 0.
 * number 15: the rows are too short for all entries; entries and `at` are 0. */
typedef struct {
    uint32_t number;
    size_t entries;
    size_t at;
} tg_sheet;

/* Judges a whole sheet and counts its entries; never 15. */
tg_sheet tg_scan_sheet(const uint8_t *sheet, size_t sheet_len);

/* Reads a whole sheet into rows of TG_ENTRY_WORDS words, each laid out as a tg_entry; `rows_len`
 * counts words. A fault of the sheet comes before 15. A refusal leaves the rows unchanged; words past
 * the last entry are never touched. */
tg_sheet tg_read_sheet(const uint8_t *sheet, size_t sheet_len, uint32_t *rows, size_t rows_len);

/* number 0: `entry` entries were written, in `at` bytes.
 * number 1: rows_len is no multiple of TG_ENTRY_WORDS; entry and `at` are 0.
 * number 14: `entry` is the number, from 0, of the first entry with a field off its limits, and `at`
 *            the offset of its first such field from that entry's start.
 * number 15: entry and `at` are 0. */
typedef struct {
    uint32_t number;
    size_t entry;
    size_t at;
} tg_sheet_written;

/* Writes the entries of all rows, one after another, to the front of the output. 1 comes before all
 * else, and a 14 in any entry before 15. A refusal leaves the output unchanged; bytes past the sheet
 * are never touched. */
tg_sheet_written tg_write_sheet(const uint32_t *rows, size_t rows_len, uint8_t *out, size_t out_len);

/* ---- The room of a sheet (docs/RULES.md, "The room of a sheet") ---- */

/* number 0: on a fresh graph of greatest size (TG_MAX_JOBS, TG_MAX_ARCS) all adds of the sheet, in order,
 *           would be accepted. It needs `jobs` jobs and `arcs` arcs: a fresh graph with at least as many
 *           accepts them all (a graph has at least 1 job, so lay out 1 for the empty sheet). `steps` are
 *           those of a full run: all adds end before the first get, and every job is handed out and
 *           finished; posts and gets that hand nothing out are not counted.
 * number 5, 6, 7 or 8: `entry` is the number, from 0, of the first entry whose add would be refused, and
 *           for 6 `place` is the place in its list.
 * number 12, 13 or 14: the sheet cannot be read, whatever its earlier entries are; `at` is the offset of
 *           the field from the sheet's start.
 * Fields that a case does not name are 0. */
typedef struct {
    uint32_t number;
    uint32_t entry;
    uint32_t place;
    uint32_t jobs;
    uint32_t arcs;
    uint32_t steps;
    size_t at;
} tg_room;

/* What a sheet comes to, before it touches a graph. It takes some 33 KB of the thread's stack. */
tg_room tg_room_of_sheet(const uint8_t *sheet, size_t sheet_len);

/* ---- Buckets and minutes (docs/RULES.md, "Tables and their measures") ---- */

/* The bucket of a name: the top `bits` bits of its product with 2654435769, kept to 32 bits. With no
 * bits it is 0, with 32 and more the whole product. */
uint32_t tg_bucket(uint32_t name, uint32_t bits);

/* The fixed minutes of a class from 0 to 15; 0 for any other. */
uint32_t tg_minutes(uint32_t class_);

/* ---- The board of totals (docs/RULES.md, "The board and the day list") ---- */

/* A job as the board reads it: label 0 unexecuted, 1 executing, 2 finished; class 0 to 15. */
typedef struct {
    uint32_t label, class_;
} tg_job_record;

/* number 0: the jobs under each label, and the sums of their minutes.
 * number 1: more than TG_MAX_RECORDS records, or words that make no whole records.
 * number 17: a district's minutes that do not rise strictly or leave 1 to TG_MAX_MINUTES, or are not TG_CLASSES.
 * number 9: a wrong label or class.
 * On a refusal all else is 0. */
typedef struct {
    uint32_t number;
    uint32_t jobs[3];
    uint32_t minutes[3];
} tg_totals;

/* The totals of records given as words, by the fixed minutes, whatever was loaded: label, class, label, class and so on. */
tg_totals tg_totals_of_words(const uint32_t *words, size_t words_len);

/* The totals of a row of records, by the fixed minutes, whatever was loaded. Of a graph with a district's minutes a host
 * that keeps a row of its own calls tg_totals_by_minutes with the minutes of tg_minutes_of_graph: for the graph's own row
 * these are the totals of tg_totals_of_graph. */
tg_totals tg_totals_of_records(const tg_job_record *records, size_t records_len);

/* The totals of a row of records, by a district's minutes: TG_CLASSES of them, class 0 first, which rise strictly from
 * class to class, each from 1 to TG_MAX_MINUTES. Refused with 1, 17 for minutes that are not so, or 9. */
tg_totals tg_totals_by_minutes(const tg_job_record *records, size_t records_len, const uint32_t *minutes,
                               size_t minutes_len);

/* ---- The task graph (docs/RULES.md, "Tables and their measures", "A district's minutes" and "Steps") ---- */

/* Sizes R, A, b and P: jobs 1 to 4,096; arcs 0 to 32,768; bucket bits 1 to 8; workers 1 to 16. They come
 * with each call. Laying out keeps them, and a later call must bring the same. */
typedef struct {
    uint32_t jobs, arcs, bits, workers;
} tg_sizes;

/* What an answer says. */
enum {
    TG_REFUSED = 0,     /* `number`, and for number 6 `place`, the place in the list from 0 */
    TG_LAID_OUT = 1,
    TG_POSTED = 2,
    TG_GOING_ON = 3,
    TG_ENDED = 4,
    TG_NONE_READY = 5,
    TG_HANDED_OUT = 6,  /* `job` and `name`, and in `spoiled` 1 where a prerequisite of the job failed, else 0 */
    TG_LOADED = 7,
    TG_STOPPED = 8      /* of tg_add and tg_finish: damaged words stopped the call half done; `number` is 9 */
};

/* The kind of an answer, and the fields that belong to it; all others are 0. */
typedef struct {
    uint32_t kind, number, place, job, name, spoiled;
} tg_answer;

/* The outcome that a finish brings. Any number but TG_GOOD counts as failed. */
enum {
    TG_GOOD = 0,
    TG_FAILED = 1
};

/* The five lent tables, which hold no addresses and may lie in memory that several processes map. They
 * may be longer than needed; words past the need are never touched. "None" as a place is 4294967295.
 *   jobs     the sizes jobs, arcs, bits, workers; the jobs made; the minutes of each class, 16 words; then 10 words a
 *            job: name, label, count, class, grower, first arc, last arc, next job in its bucket, outcome (1 where it
 *            failed, else 0), spoiled (1 where it is, else 0)
 *   arcs     the arcs reserved; then 2 words an arc: dependent, next arc
 *   buckets  2 to the power b heads
 *   queue    taken, put; then 3 words for each of R places: its cell, which has the job that waits there; a slot
 *            of the index, which has the place of a waiting job; its position, which is the slot that has it
 *   workers  43 words a worker: phase, held job, name, list count, class, grower, tally, list place, job,
 *            arc, note (1 where an add has linked to a failed job or a finish brings failed, else 0), 32 names */
#define TG_TABLES                                                                                       \
    uint32_t *jobs, size_t jobs_len, uint32_t *arcs, size_t arcs_len, uint32_t *buckets,                \
        size_t buckets_len, uint32_t *queue, size_t queue_len, uint32_t *workers, size_t workers_len

/* number 0: the words that each table needs for these sizes.
 * number 1: a size is off its limits; all else is 0. */
typedef struct {
    uint32_t number;
    size_t jobs, arcs, buckets, queue, workers;
} tg_need;

tg_need tg_words_needed(tg_sizes sizes);

/* Makes a fresh graph, with the fixed minutes: laid out, or refused with 1. */
tg_answer tg_lay_out(tg_sizes sizes, TG_TABLES);

/* Loads a district's minutes in place of those that stand in the graph, before the first job enters: TG_CLASSES of
 * them, class 0 first, which rise strictly from class to class, each from 1 to TG_MAX_MINUTES. Loaded, or refused with
 * 1, 17 for minutes that are not so, 9, or 18 where a job has entered; a refusal changes nothing. Hand-outs and the
 * totals of the graph follow them until it is laid out anew. No worker is needed; an add that is posted and has not
 * entered does not hinder a load, and there may be several. */
tg_answer tg_load_minutes(tg_sizes sizes, TG_TABLES, const uint32_t *minutes, size_t minutes_len);

/* Posts an add: posted, or refused with 1, 2, 9, 3 or 5. Names past the count are ignored. */
tg_answer tg_post_add(tg_sizes sizes, TG_TABLES, uint32_t worker, tg_entry entry);

/* Posts a finish of the held job with its outcome, TG_GOOD or TG_FAILED: posted, or refused with 1, 2, 9, 3, 11, or 19
 * for TG_GOOD where the job is spoiled. */
tg_answer tg_post_finish(tg_sizes sizes, TG_TABLES, uint32_t worker, uint32_t name, uint32_t outcome);

/* One step of the worker's call: going on, ended, or refused with 1, 2, 9, 4, 6, 7 or 8. */
tg_answer tg_step(tg_sizes sizes, TG_TABLES, uint32_t worker);

/* Takes the waiting job with the most minutes, of equal minutes the one that entered the queue first: handed out,
 * none ready, or refused with 1, 2, 9, 3 or 10. A spoiled job, one with a prerequisite that failed, is handed out like
 * the others, and told by `spoiled`; its finish must bring TG_FAILED. */
tg_answer tg_get(tg_sizes sizes, TG_TABLES, uint32_t worker);

/* An add run whole: posted, and stepped to its end with no other call between. Ended, or refused with 1, 2, 9,
 * 3, 5, 6, 7 or 8, or stopped. A refusal with 9 changed nothing. Only damaged tables give TG_STOPPED, number 9 in its
 * middle: then the steps before it stay made, so the tables have changed, and the worker, idle before, has the call
 * half done, which tg_held tells where no damaged word refuses that too. */
tg_answer tg_add(tg_sizes sizes, TG_TABLES, uint32_t worker, tg_entry entry);

/* A finish run whole, with its outcome as for tg_post_finish: ended, or refused with 1, 2, 9, 3, 11 or 19. Only
 * damaged tables give TG_STOPPED, as with tg_add, or, where a list of arcs runs in a circle, going on after
 * arcs + 1 steps; tg_step goes on with it. */
tg_answer tg_finish(tg_sizes sizes, TG_TABLES, uint32_t worker, uint32_t name, uint32_t outcome);

/* number 0: `numbers` and `places` have for each entry what tg_add would answer: 0 and 0 where it was accepted, else
 * its number, and for number 6 the place in the list. Past the last entry they are 0. `stopped` is 1 more than the
 * number, from 0, of the entry for which tg_add would answer TG_STOPPED, or 0 where there is none: damaged words stopped
 * its add half done, its number is 9, and each later entry has 3. Any other entry with 9 changed nothing.
 * number 1, 2, 9, 3 or 16: the sheet was turned away before any entry, nothing was changed, and `numbers`, `places` and
 * `stopped`, which are 0, say nothing. */
typedef struct {
    uint32_t number;
    uint32_t numbers[TG_MAX_ENTRIES], places[TG_MAX_ENTRIES];
    uint32_t stopped;
} tg_sheet_added;

/* Adds the entries of all rows, each run whole, in order, as so many calls of tg_add would; a refused entry does
 * not stop the next. The rows are those of tg_read_sheet, or a row of tg_entry, TG_ENTRY_WORDS words each;
 * `rows_len` counts words: TG_ENTRY_WORDS for each entry that was read, and not all that a larger buffer has, whose
 * blank rows would be jobs of the name 0. Words that make no whole rows are 1, more than TG_MAX_ENTRIES entries 16,
 * after 3. */
tg_sheet_added tg_add_sheet(tg_sizes sizes, TG_TABLES, uint32_t worker, const uint32_t *rows, size_t rows_len);

/* The same tables, only read. */
#define TG_TABLES_READ                                                                                  \
    const uint32_t *jobs, size_t jobs_len, const uint32_t *arcs, size_t arcs_len,                       \
        const uint32_t *buckets, size_t buckets_len, const uint32_t *queue, size_t queue_len,           \
        const uint32_t *workers, size_t workers_len

/* The call that a worker has half done. */
enum {
    TG_CALL_NONE = 0,
    TG_CALL_ADD = 1,
    TG_CALL_FINISH = 2
};

/* number 0, holds 1: the worker holds `job`, whose name is `name`; `spoiled` is 1 where it is spoiled, else 0.
 * number 0, holds 0: it holds none; job, name and spoiled are 0.
 * With number 0 `call` says which call is half done; tg_step goes on with it. Of an add half done `adds` is
 * the name of the job that it adds, else 0. A finish frees the hold with its first step, its mark: from then
 * on the job and its name are not told.
 * number 1, 2 or 9: all else is 0. */
typedef struct {
    uint32_t number, holds, job, name, call, adds, spoiled;
} tg_holding;

/* What a worker holds, and whether its call is half done: for a worker that restarts. */
tg_holding tg_held(tg_sizes sizes, TG_TABLES_READ, uint32_t worker);

/* number 0: drained is 1 where the queue is empty and every worker is idle and without a job, else 0.
 * number 1: a size off its limits or not the one laid out, or a table too short; drained is 0.
 * number 9: damaged words, of any worker, the counters or the queue's; drained is 0. */
typedef struct {
    uint32_t number, drained;
} tg_drained_answer;

/* Whether the queue is empty and every worker idle and without a job: for a host that wants to stop. In
 * tables that were laid out, and since written by these functions alone, drained 1 means too that every job
 * that entered is finished. */
tg_drained_answer tg_drained(tg_sizes sizes, TG_TABLES_READ);

/* The totals of the jobs made, by the minutes that stand in the graph.
 * number 1: a size off its limits or not the one laid out, or the table too short.
 * number 9: a wrong label or class among the jobs made, more jobs made than R, or minutes that do not rise strictly or
 *           leave 1 to TG_MAX_MINUTES. */
tg_totals tg_totals_of_graph(tg_sizes sizes, const uint32_t *jobs, size_t jobs_len);

/* number 0: the minutes of each class, 0 to 15.
 * number 1: a size off its limits or not the one laid out, or the table too short.
 * number 9: minutes that do not rise strictly or leave 1 to TG_MAX_MINUTES.
 * On a refusal all minutes are 0. */
typedef struct {
    uint32_t number;
    uint32_t minutes[TG_CLASSES];
} tg_graph_minutes;

/* The minutes that stand in the graph: the fixed ones, or those loaded since it was laid out. */
tg_graph_minutes tg_minutes_of_graph(tg_sizes sizes, const uint32_t *jobs, size_t jobs_len);

/* ---- The day list (docs/RULES.md, "The board and the day list") ---- */

/* number 0: the lines take `bytes` bytes of the output.
 * number 1: the number of workers is not 1 to 16.
 * number 15: the output is too short.
 * On a refusal `bytes` is 0. */
typedef struct {
    uint32_t number;
    size_t bytes;
} tg_day;

/* What the day list prints of a sheet, with so many workers. A refusal leaves the output unchanged; bytes
 * past the lines are never touched. */
tg_day tg_day_list(const uint8_t *sheet, size_t sheet_len, uint32_t workers, uint8_t *out, size_t out_len);

#ifdef __cplusplus
}
#endif

#endif
