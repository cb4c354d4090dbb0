/* Calls every function of the C interface on the examples of docs/RULES.md and on its limits.
 * The last line is `N passed, M failed`; the exit status is 0 only where M is 0. */
#include "taskgraph.h"

#include <inttypes.h>
#include <stdio.h>
#include <string.h>

_Static_assert(sizeof(tg_entry) == 4 * TG_ENTRY_WORDS, "an entry is a row of 36 words");
_Static_assert(offsetof(tg_entry, count) == 4, "tg_entry.count");
_Static_assert(offsetof(tg_entry, class_) == 8, "tg_entry.class_");
_Static_assert(offsetof(tg_entry, grower) == 12, "tg_entry.grower");
_Static_assert(offsetof(tg_entry, names) == 16, "tg_entry.names");
_Static_assert(sizeof(tg_reading) == 16 + sizeof(tg_entry), "tg_reading");
_Static_assert(offsetof(tg_reading, found) == 4, "tg_reading.found");
_Static_assert(offsetof(tg_reading, at) == 8, "tg_reading.at");
_Static_assert(offsetof(tg_reading, entry) == 16, "tg_reading.entry");
_Static_assert(sizeof(tg_written) == 16, "tg_written");
_Static_assert(offsetof(tg_written, at) == 8, "tg_written.at");
_Static_assert(sizeof(tg_sheet) == 24, "tg_sheet");
_Static_assert(offsetof(tg_sheet, entries) == 8, "tg_sheet.entries");
_Static_assert(offsetof(tg_sheet, at) == 16, "tg_sheet.at");
_Static_assert(sizeof(tg_sheet_written) == 24, "tg_sheet_written");
_Static_assert(offsetof(tg_sheet_written, entry) == 8, "tg_sheet_written.entry");
_Static_assert(offsetof(tg_sheet_written, at) == 16, "tg_sheet_written.at");
_Static_assert(sizeof(tg_room) == 32, "tg_room");
_Static_assert(offsetof(tg_room, entry) == 4, "tg_room.entry");
_Static_assert(offsetof(tg_room, place) == 8, "tg_room.place");
_Static_assert(offsetof(tg_room, jobs) == 12, "tg_room.jobs");
_Static_assert(offsetof(tg_room, arcs) == 16, "tg_room.arcs");
_Static_assert(offsetof(tg_room, steps) == 20, "tg_room.steps");
_Static_assert(offsetof(tg_room, at) == 24, "tg_room.at");
_Static_assert(sizeof(tg_job_record) == 8, "tg_job_record");
_Static_assert(offsetof(tg_job_record, class_) == 4, "tg_job_record.class_");
_Static_assert(sizeof(tg_totals) == 28, "tg_totals");
_Static_assert(offsetof(tg_totals, jobs) == 4, "tg_totals.jobs");
_Static_assert(offsetof(tg_totals, minutes) == 16, "tg_totals.minutes");

_Static_assert(sizeof(tg_sizes) == 16, "tg_sizes");
_Static_assert(sizeof(tg_answer) == 24, "tg_answer");
_Static_assert(offsetof(tg_answer, number) == 4, "tg_answer.number");
_Static_assert(offsetof(tg_answer, place) == 8, "tg_answer.place");
_Static_assert(offsetof(tg_answer, job) == 12, "tg_answer.job");
_Static_assert(offsetof(tg_answer, name) == 16, "tg_answer.name");
_Static_assert(offsetof(tg_answer, spoiled) == 20, "tg_answer.spoiled");
_Static_assert(TG_GOOD == 0 && TG_FAILED == 1, "the outcomes");
_Static_assert(sizeof(tg_graph_minutes) == 4 * (1 + TG_CLASSES), "tg_graph_minutes");
_Static_assert(offsetof(tg_graph_minutes, minutes) == 4, "tg_graph_minutes.minutes");
_Static_assert(TG_CLASSES == TG_MAX_CLASS + 1, "a minute value for each class");
_Static_assert(sizeof(tg_need) == 48, "tg_need");
_Static_assert(sizeof(tg_sheet_added) == 4 * (2 + 2 * TG_MAX_ENTRIES), "tg_sheet_added");
_Static_assert(offsetof(tg_sheet_added, numbers) == 4, "tg_sheet_added.numbers");
_Static_assert(offsetof(tg_sheet_added, places) == 4 + 4 * TG_MAX_ENTRIES, "tg_sheet_added.places");
_Static_assert(offsetof(tg_sheet_added, stopped) == 4 + 8 * TG_MAX_ENTRIES, "tg_sheet_added.stopped");
_Static_assert(TG_MAX_ENTRIES == 64, "64 entries in one call");
_Static_assert(sizeof(tg_holding) == 28, "tg_holding");
_Static_assert(offsetof(tg_holding, holds) == 4, "tg_holding.holds");
_Static_assert(offsetof(tg_holding, job) == 8, "tg_holding.job");
_Static_assert(offsetof(tg_holding, name) == 12, "tg_holding.name");
_Static_assert(offsetof(tg_holding, call) == 16, "tg_holding.call");
_Static_assert(offsetof(tg_holding, adds) == 20, "tg_holding.adds");
_Static_assert(offsetof(tg_holding, spoiled) == 24, "tg_holding.spoiled");
_Static_assert(sizeof(tg_drained_answer) == 8, "tg_drained_answer");
_Static_assert(offsetof(tg_drained_answer, drained) == 4, "tg_drained_answer.drained");
_Static_assert(sizeof(tg_day) == 16, "tg_day");
_Static_assert(offsetof(tg_day, bytes) == 8, "tg_day.bytes");

static unsigned passed, failed;

/* Counts one check, and says what was answered where it is not what was wanted. */
static void same(const char *what, uint64_t answered, uint64_t wanted)
{
    if (answered == wanted) {
        passed++;
    } else {
        failed++;
        printf("%s: answered %" PRIu64 ", wanted %" PRIu64 "\n", what, answered, wanted);
    }
}

/* Compares bytes; of a struct only where it has no padding, which an answer leaves as it was. */
static void same_bytes(const char *what, const void *answered, const void *wanted, size_t len)
{
    same(what, memcmp(answered, wanted, len) == 0, 1);
}

/* Jobs 1, 2, 3 and 4 needing 1 and 2 ("The board and the day list"). */
static const uint8_t four_jobs[29] = {1, 1, 0, 0, 0, 1, 2, 0, 0, 0, 1, 3, 0, 0, 0,
                                      3, 4, 0, 0, 0, 2, 1, 0, 0, 0, 2, 0, 0, 0};

/* An entry with every field, and its bytes. */
static const tg_entry full_entry = {
    .name = 0x04030201, .count = 1, .class_ = 9, .grower = 0x0b0a, .names = {0x08070605}};
static const uint8_t full_bytes[13] = {0x0f, 1, 2, 3, 4, 1, 5, 6, 7, 8, 9, 0x0a, 0x0b};

static const tg_entry no_entry;

static void read_refused(const char *what, const uint8_t *sheet, size_t len, uint32_t number, size_t at)
{
    tg_reading reading = tg_read_entry(sheet, len, 0);
    same(what, reading.number, number);
    same(what, reading.at, at);
    same(what, reading.found, 0);
    same_bytes(what, &reading.entry, &no_entry, sizeof no_entry);
}

static void check_read_entry(void)
{
    tg_reading fourth = tg_read_entry(four_jobs, sizeof four_jobs, 15);
    tg_entry wanted = {.name = 4, .count = 2, .names = {1, 2}};
    same("tg_read_entry, job 4: number", fourth.number, TG_ACCEPTED);
    same("tg_read_entry, job 4: found", fourth.found, 1);
    same("tg_read_entry, job 4: at", fourth.at, 29);
    same_bytes("tg_read_entry, job 4: entry", &fourth.entry, &wanted, sizeof wanted);

    tg_reading full = tg_read_entry(full_bytes, sizeof full_bytes, 0);
    same("tg_read_entry, every field: at", full.at, sizeof full_bytes);
    same_bytes("tg_read_entry, every field: entry", &full.entry, &full_entry, sizeof full_entry);

    size_t ends[] = {29, 30, SIZE_MAX};
    for (size_t i = 0; i < sizeof ends / sizeof *ends; i++) {
        tg_reading end = tg_read_entry(four_jobs, sizeof four_jobs, ends[i]);
        same("tg_read_entry, at the end and beyond: number", end.number, TG_ACCEPTED);
        same("tg_read_entry, at the end and beyond: found", end.found, 0);
        same("tg_read_entry, at the end and beyond: at", end.at, ends[i]);
        same_bytes("tg_read_entry, at the end and beyond: entry", &end.entry, &no_entry, sizeof no_entry);
    }
}

static void check_read_refusals(void)
{
    read_refused("case 8, map byte 02", (const uint8_t[]){2}, 1, TG_MAP, 0);
    read_refused("case 8, class byte 0", (const uint8_t[]){5, 7, 0, 0, 0, 0}, 6, TG_VALUE, 5);
    read_refused("case 8, map byte 01 alone", (const uint8_t[]){1}, 1, TG_CUT, 1);
    read_refused("map byte with bit 4", (const uint8_t[]){0x11, 7, 0, 0, 0}, 5, TG_MAP, 0);
    read_refused("33 names", (const uint8_t[]){3, 7, 0, 0, 0, 33}, 6, TG_VALUE, 5);
    read_refused("names cut", (const uint8_t[]){3, 7, 0, 0, 0, 1, 2, 0, 0}, 9, TG_CUT, 5);
    read_refused("grower 0", (const uint8_t[]){9, 7, 0, 0, 0, 0, 0}, 7, TG_VALUE, 5);
}

static void check_write_entry(void)
{
    uint8_t out[20], untouched[20], wanted[20];
    memset(out, 7, sizeof out);
    memset(untouched, 7, sizeof untouched);
    memset(wanted, 7, sizeof wanted);
    memcpy(wanted + 3, full_bytes, sizeof full_bytes);

    tg_entry bad = full_entry;
    bad.class_ = 16;
    tg_written refused = tg_write_entry(out, 0, 99, bad);
    same("tg_write_entry, class 16: number", refused.number, TG_VALUE);
    same("tg_write_entry, class 16: at", refused.at, 10);
    bad.count = 33;
    refused = tg_write_entry(out, sizeof out, 3, bad);
    same("tg_write_entry, 33 names: number", refused.number, TG_VALUE);
    same("tg_write_entry, 33 names: at", refused.at, 5);
    refused = tg_write_entry(out, 15, 3, full_entry);
    same("tg_write_entry, a byte too short: number", refused.number, TG_NO_ROOM);
    same("tg_write_entry, a byte too short: at", refused.at, 0);
    refused = tg_write_entry(out, sizeof out, SIZE_MAX, full_entry);
    same("tg_write_entry, offset beyond: number", refused.number, TG_NO_ROOM);
    same_bytes("tg_write_entry, refused: output", out, untouched, sizeof out);

    tg_entry tailed = full_entry;
    tailed.names[1] = 99;
    tg_written written = tg_write_entry(out, 16, 3, tailed);
    same("tg_write_entry, every field: number", written.number, TG_ACCEPTED);
    same("tg_write_entry, every field: at", written.at, 16);
    same_bytes("tg_write_entry, every field: output", out, wanted, sizeof out);
}

static void check_scan_sheet(void)
{
    tg_sheet sheet = tg_scan_sheet(four_jobs, sizeof four_jobs);
    same("tg_scan_sheet, four jobs: number", sheet.number, TG_ACCEPTED);
    same("tg_scan_sheet, four jobs: entries", sheet.entries, 4);
    same("tg_scan_sheet, four jobs: at", sheet.at, 0);
    sheet = tg_scan_sheet(four_jobs, 0);
    same("tg_scan_sheet, empty: number", sheet.number, TG_ACCEPTED);
    same("tg_scan_sheet, empty: entries", sheet.entries, 0);
    sheet = tg_scan_sheet(four_jobs, 28);
    same("tg_scan_sheet, cut: number", sheet.number, TG_CUT);
    same("tg_scan_sheet, cut: entries", sheet.entries, 0);
    same("tg_scan_sheet, cut: at", sheet.at, 20);
}

static void check_read_and_write_sheet(void)
{
    uint32_t rows[5 * TG_ENTRY_WORDS], untouched[5 * TG_ENTRY_WORDS];
    memset(rows, 7, sizeof rows);
    memset(untouched, 7, sizeof untouched);
    tg_sheet read = tg_read_sheet(four_jobs, 28, rows, 0);
    same("tg_read_sheet, cut before too short: number", read.number, TG_CUT);
    same("tg_read_sheet, cut before too short: at", read.at, 20);
    read = tg_read_sheet(four_jobs, sizeof four_jobs, rows, 4 * TG_ENTRY_WORDS - 1);
    same("tg_read_sheet, a word too short: number", read.number, TG_NO_ROOM);
    same("tg_read_sheet, a word too short: entries", read.entries, 0);
    same_bytes("tg_read_sheet, refused: rows", rows, untouched, sizeof rows);

    read = tg_read_sheet(four_jobs, sizeof four_jobs, rows, 5 * TG_ENTRY_WORDS);
    same("tg_read_sheet, four jobs: number", read.number, TG_ACCEPTED);
    same("tg_read_sheet, four jobs: entries", read.entries, 4);
    tg_entry jobs[4] = {{.name = 1}, {.name = 2}, {.name = 3}, {.name = 4, .count = 2, .names = {1, 2}}};
    same_bytes("tg_read_sheet, four jobs: rows", rows, jobs, sizeof jobs);
    same_bytes("tg_read_sheet, four jobs: the row behind", rows + 4 * TG_ENTRY_WORDS, untouched, sizeof(tg_entry));

    uint8_t out[30], no_output[30];
    memset(out, 7, sizeof out);
    memset(no_output, 7, sizeof no_output);
    tg_sheet_written written = tg_write_sheet(rows, 4 * TG_ENTRY_WORDS + 1, out, sizeof out);
    same("tg_write_sheet, an odd word: number", written.number, TG_SIZE);
    rows[3 * TG_ENTRY_WORDS + 3] = 65536;
    written = tg_write_sheet(rows, 4 * TG_ENTRY_WORDS, out, 0);
    same("tg_write_sheet, grower 65536: number", written.number, TG_VALUE);
    same("tg_write_sheet, grower 65536: entry", written.entry, 3);
    same("tg_write_sheet, grower 65536: at", written.at, 14);
    rows[3 * TG_ENTRY_WORDS + 3] = 0;
    written = tg_write_sheet(rows, 4 * TG_ENTRY_WORDS, out, 28);
    same("tg_write_sheet, a byte too short: number", written.number, TG_NO_ROOM);
    same_bytes("tg_write_sheet, refused: output", out, no_output, sizeof out);
    written = tg_write_sheet(rows, 4 * TG_ENTRY_WORDS, out, sizeof out);
    same("tg_write_sheet, four jobs: number", written.number, TG_ACCEPTED);
    same("tg_write_sheet, four jobs: entry", written.entry, 4);
    same("tg_write_sheet, four jobs: at", written.at, 29);
    same_bytes("tg_write_sheet, four jobs: output", out, four_jobs, sizeof four_jobs);
    same("tg_write_sheet, four jobs: the byte behind", out[29], 7);
}

/* ---- the room of a sheet ---- */

/* A sheet that is written here entry by entry, with room for 1,057 of the longest. */
static uint8_t written[1057 * TG_MAX_ENTRY_BYTES];
static size_t written_len;

static void put_word(uint32_t word)
{
    for (int byte = 0; byte < 4; byte++)
        written[written_len++] = (uint8_t)(word >> 8 * byte);
}

/* An entry whose list is the names `first`, `first` + 1 and so on. */
static void put_entry(uint32_t name, uint8_t count, uint32_t first)
{
    written[written_len++] = count ? 3 : 1;
    put_word(name);
    if (!count) return;
    written[written_len++] = count;
    for (uint32_t place = 0; place < count; place++)
        put_word(first + place);
}

/* All fields, so that those which the case does not name are 0. */
static void has_room(const char *what, const uint8_t *sheet, size_t len, tg_room wanted)
{
    tg_room room = tg_room_of_sheet(sheet, len);
    same(what, room.number, wanted.number);
    same(what, room.entry, wanted.entry);
    same(what, room.place, wanted.place);
    same(what, room.jobs, wanted.jobs);
    same(what, room.arcs, wanted.arcs);
    same(what, room.steps, wanted.steps);
    same(what, room.at, wanted.at);
}

static void written_has_room(const char *what, tg_room wanted)
{
    has_room(what, written, written_len, wanted);
}

/* Another entry behind what was written, for one answer. */
static void with_entry(const char *what, uint32_t name, uint8_t count, uint32_t first, tg_room wanted)
{
    size_t len = written_len;
    put_entry(name, count, first);
    written_has_room(what, wanted);
    written_len = len;
}

static void check_room(void)
{
    has_room("tg_room_of_sheet, empty", four_jobs, 0, (tg_room){0});
    has_room("tg_room_of_sheet, one job", four_jobs, 5, (tg_room){.jobs = 1, .steps = 4});
    has_room("tg_room_of_sheet, four jobs", four_jobs, sizeof four_jobs, (tg_room){.jobs = 4, .arcs = 2, .steps = 22});
    has_room("tg_room_of_sheet, every field", full_bytes, sizeof full_bytes, (tg_room){.number = TG_UNKNOWN_NAME});

    /* A job of 32 names beside the 32 that it needs: 33 jobs, 32 arcs, 4 times 33 and 3 times 32 steps. */
    written_len = 0;
    for (uint32_t name = 0; name < 32; name++)
        put_entry(name, 0, 0);
    put_entry(UINT32_MAX, 32, 0);
    written_has_room("tg_room_of_sheet, 32 names", (tg_room){.jobs = 33, .arcs = 32, .steps = 228});
}

/* Each number by which an add is refused; of an entry only the first number is told, and of a sheet the first entry. */
static void check_room_turned_away(void)
{
    written_len = 0;
    with_entry("tg_room_of_sheet, its own name, in the first entry", 7, 1, 7, (tg_room){.number = TG_ARGUMENTS});
    with_entry("tg_room_of_sheet, an unknown name, in the first entry", 7, 2, 8, (tg_room){.number = TG_UNKNOWN_NAME});

    put_entry(1, 0, 0);
    put_entry(2, 1, 1);
    written_has_room("tg_room_of_sheet, two jobs", (tg_room){.jobs = 2, .arcs = 1, .steps = 11});
    with_entry("tg_room_of_sheet, its own name", 3, 3, 1, (tg_room){.number = TG_ARGUMENTS, .entry = 2});
    with_entry("tg_room_of_sheet, an unknown name", 9, 3, 1,
               (tg_room){.number = TG_UNKNOWN_NAME, .entry = 2, .place = 2});
    with_entry("tg_room_of_sheet, a name once more", 1, 0, 0, (tg_room){.number = TG_NAME_PRESENT, .entry = 2});
    with_entry("tg_room_of_sheet, a name once more, with a list", 2, 1, 1,
               (tg_room){.number = TG_NAME_PRESENT, .entry = 2});
    with_entry("tg_room_of_sheet, 5 before 7", 2, 2, 1, (tg_room){.number = TG_ARGUMENTS, .entry = 2});
    with_entry("tg_room_of_sheet, 6 before 7", 1, 2, 2, (tg_room){.number = TG_UNKNOWN_NAME, .entry = 2, .place = 1});

    size_t len = written_len;
    put_entry(3, 2, 1);
    written[written_len - 4] = 1;
    written_has_room("tg_room_of_sheet, a name twice", (tg_room){.number = TG_ARGUMENTS, .entry = 2});
    put_entry(1, 0, 0);
    written_has_room("tg_room_of_sheet, the first of two", (tg_room){.number = TG_ARGUMENTS, .entry = 2});
    written_len = len;
    put_entry(9, 3, 1);
    written[written_len - 4] = 1;
    written_has_room("tg_room_of_sheet, a name twice, with another between",
                     (tg_room){.number = TG_ARGUMENTS, .entry = 2});

    written_len = len;
    put_entry(3, 3, 2);
    put_entry(4, 0, 0);
    written_has_room("tg_room_of_sheet, its own name and one that comes later",
                     (tg_room){.number = TG_ARGUMENTS, .entry = 2});
    written_len = len;
    put_entry(9, 2, 2);
    put_entry(3, 0, 0);
    written_has_room("tg_room_of_sheet, a name that comes later",
                     (tg_room){.number = TG_UNKNOWN_NAME, .entry = 2, .place = 1});
}

/* Number 8: the 4,097th job, and the first arc past 32,768; 5, 6 and 7 come before it. */
static void check_room_full(void)
{
    const tg_room full = {.number = TG_FULL, .entry = TG_MAX_JOBS};
    written_len = 0;
    for (uint32_t name = 0; name < TG_MAX_JOBS; name++)
        put_entry(name, 0, 0);
    written_has_room("tg_room_of_sheet, 4,096 jobs", (tg_room){.jobs = 4096, .steps = 16384});
    with_entry("tg_room_of_sheet, 4,097 jobs", 4096, 0, 0, full);
    with_entry("tg_room_of_sheet, 4,097 jobs, the last with a list", 4096, 1, 0, full);
    with_entry("tg_room_of_sheet, 4,097 jobs and 5", 4096, 1, 4096, (tg_room){.number = TG_ARGUMENTS, .entry = 4096});
    with_entry("tg_room_of_sheet, 4,097 jobs and 6", 4097, 2, 4095,
               (tg_room){.number = TG_UNKNOWN_NAME, .entry = 4096, .place = 1});
    with_entry("tg_room_of_sheet, 4,097 jobs and 7", 4095, 0, 0, (tg_room){.number = TG_NAME_PRESENT, .entry = 4096});

    /* 32 jobs without a list, and 1,023 of 32 names: 32 arcs are left. */
    written_len = 0;
    for (uint32_t name = 0; name < 1055; name++)
        put_entry(name, name < 32 ? 0 : 32, 0);
    written_has_room("tg_room_of_sheet, 32,736 arcs", (tg_room){.jobs = 1055, .arcs = 32736, .steps = 102428});
    size_t len = written_len;
    put_entry(1055, 32, 0);
    written_has_room("tg_room_of_sheet, 32,768 arcs", (tg_room){.jobs = 1056, .arcs = 32768, .steps = 102528});
    with_entry("tg_room_of_sheet, 32,769 arcs", 1056, 1, 0, (tg_room){.number = TG_FULL, .entry = 1056});
    with_entry("tg_room_of_sheet, 32,769 arcs and 7", 1055, 1, 0, (tg_room){.number = TG_NAME_PRESENT, .entry = 1056});
    with_entry("tg_room_of_sheet, no list when all arcs are taken", 1056, 0, 0,
               (tg_room){.jobs = 1057, .arcs = 32768, .steps = 102532});
    written_len = len;
    put_entry(1055, 1, 0);
    with_entry("tg_room_of_sheet, 32 names with 31 arcs left", 1056, 32, 0,
               (tg_room){.number = TG_FULL, .entry = 1056});
    with_entry("tg_room_of_sheet, 31 names with 31 arcs left", 1056, 31, 0,
               (tg_room){.jobs = 1057, .arcs = 32768, .steps = 102532});
}

/* What cannot be read is told, with its offset, even behind an entry that would be refused. */
static void check_room_unreadable(void)
{
    has_room("tg_room_of_sheet, cut", four_jobs, 28, (tg_room){.number = TG_CUT, .at = 20});
    has_room("tg_room_of_sheet, a fault in the first byte", (const uint8_t[]){2}, 1, (tg_room){.number = TG_MAP});
    has_room("tg_room_of_sheet, cut in the first entry", four_jobs, 4, (tg_room){.number = TG_CUT, .at = 1});
    has_room("tg_room_of_sheet, a wrong value in the first entry", (const uint8_t[]){5, 7, 0, 0, 0, 16}, 6,
             (tg_room){.number = TG_VALUE, .at = 5});

    written_len = 0;
    put_entry(7, 1, 7);
    written_has_room("tg_room_of_sheet, a refused entry", (tg_room){.number = TG_ARGUMENTS});
    const size_t len = written_len;
    put_entry(1, 1, 2);
    written_len--;
    written_has_room("tg_room_of_sheet, a refused entry and a cut", (tg_room){.number = TG_CUT, .at = 15});
    written[len] = 0x11;
    written_has_room("tg_room_of_sheet, a refused entry and a wrong map byte", (tg_room){.number = TG_MAP, .at = 10});
    written[len] = 3;
    written[len + 5] = 33;
    written_has_room("tg_room_of_sheet, a refused entry and a wrong count", (tg_room){.number = TG_VALUE, .at = 15});
}

static const uint32_t fixed_minutes[TG_CLASSES] = {1, 2, 3, 5, 8, 10, 15, 20, 30, 45, 60, 90, 120, 180, 240, 480};

/* A district's minutes, and values of which each is wrong in one way. */
static const uint32_t district[TG_CLASSES] = {2, 3, 4, 6, 9, 12, 18, 25, 35, 50, 70, 100, 150, 200, 300, 1440};
static const uint32_t wrong_minutes[][TG_CLASSES] = {
    {0, 3, 4, 6, 9, 12, 18, 25, 35, 50, 70, 100, 150, 200, 300, 1440},
    {3, 3, 4, 6, 9, 12, 18, 25, 35, 50, 70, 100, 150, 200, 300, 1440},
    {2, 3, 4, 6, 9, 12, 18, 35, 25, 50, 70, 100, 150, 200, 300, 1440},
    {2, 3, 4, 6, 9, 12, 18, 25, 35, 50, 70, 100, 150, 200, 1440, 1440},
    {2, 3, 4, 6, 9, 12, 18, 25, 35, 50, 70, 100, 150, 200, 300, 1441},
    {2, 3, 4, 6, 9, 12, 18, 25, 35, 50, 70, 100, 150, 200, 300, UINT32_MAX},
    {2, 3, 4, 6, 9, 12, 18, UINT32_MAX, 35, 50, 70, 100, 150, 200, 300, 1440}};

static void check_buckets_and_minutes(void)
{
    const uint32_t buckets[5] = {2, 0, 3, 1, 0};
    for (uint32_t name = 1; name <= 5; name++)
        same("case 7, tg_bucket of names 1 to 5", tg_bucket(name, 2), buckets[name - 1]);
    same("tg_bucket, no bits", tg_bucket(1, 0), 0);
    same("tg_bucket, 32 bits", tg_bucket(1, 32), 2654435769u);
    same("tg_bucket, more bits", tg_bucket(1, UINT32_MAX), 2654435769u);

    for (uint32_t class_ = 0; class_ < 16; class_++)
        same("tg_minutes of classes 0 to 15", tg_minutes(class_), fixed_minutes[class_]);
    same("tg_minutes, class 16", tg_minutes(16), 0);
    same("tg_minutes, the highest number", tg_minutes(UINT32_MAX), 0);
}

static void check_totals(void)
{
    static const tg_job_record records[TG_MAX_RECORDS + 1] = {{0, 0}, {2, 15}, {1, 3}, {2, 15}, {0, 9}};
    const uint32_t *words = (const uint32_t *)records;
    const tg_totals five = {0, {2, 1, 2}, {46, 5, 960}};
    const tg_totals refused_size = {.number = TG_SIZE}, refused_damaged = {.number = TG_DAMAGED};

    tg_totals totals = tg_totals_of_words(words, 10);
    same_bytes("tg_totals_of_words, five records", &totals, &five, sizeof totals);
    totals = tg_totals_of_records(records, 5);
    same_bytes("tg_totals_of_records, five records", &totals, &five, sizeof totals);
    totals = tg_totals_of_words(words, 9);
    same_bytes("tg_totals_of_words, an odd word", &totals, &refused_size, sizeof totals);
    totals = tg_totals_of_words(words, 2 * TG_MAX_RECORDS);
    same("tg_totals_of_words, 4,096 records: jobs", totals.jobs[0], TG_MAX_RECORDS - 3);
    totals = tg_totals_of_words(words, 2 * TG_MAX_RECORDS + 2);
    same_bytes("tg_totals_of_words, 4,097 records", &totals, &refused_size, sizeof totals);
    totals = tg_totals_of_records(records, TG_MAX_RECORDS);
    same("tg_totals_of_records, 4,096 records: jobs", totals.jobs[0], TG_MAX_RECORDS - 3);
    totals = tg_totals_of_records(records, TG_MAX_RECORDS + 1);
    same_bytes("tg_totals_of_records, 4,097 records", &totals, &refused_size, sizeof totals);

    const tg_job_record wrong_label[2] = {{2, 1}, {3, 0}}, wrong_class[2] = {{2, 1}, {0, 16}};
    totals = tg_totals_of_records(wrong_label, 2);
    same_bytes("tg_totals_of_records, label 3", &totals, &refused_damaged, sizeof totals);
    totals = tg_totals_of_words((const uint32_t *)wrong_class, 4);
    same_bytes("tg_totals_of_words, class 16", &totals, &refused_damaged, sizeof totals);
}

/* The board over a lent row by a district's minutes; the order of 1, 17 and 9. */
static void check_totals_by_minutes(void)
{
    static const tg_job_record records[TG_MAX_RECORDS + 1] = {{0, 0}, {2, 15}, {1, 3}, {2, 15}, {0, 9}};
    const tg_job_record wrong_label[1] = {{3, 0}}, wrong_class[1] = {{0, 16}};
    const tg_totals five = {0, {2, 1, 2}, {52, 6, 2880}};
    const tg_totals refused_size = {.number = TG_SIZE}, refused_minutes = {.number = TG_MINUTES},
                    refused_damaged = {.number = TG_DAMAGED};

    tg_totals totals = tg_totals_by_minutes(records, 5, district, TG_CLASSES);
    same_bytes("tg_totals_by_minutes, five records", &totals, &five, sizeof totals);
    totals = tg_totals_by_minutes(records, 5, fixed_minutes, TG_CLASSES);
    const tg_totals by_fixed = tg_totals_of_records(records, 5);
    same_bytes("tg_totals_by_minutes, the fixed ones", &totals, &by_fixed, sizeof totals);
    totals = tg_totals_by_minutes(records, TG_MAX_RECORDS, district, TG_CLASSES);
    same("tg_totals_by_minutes, 4,096 records: jobs", totals.jobs[0], TG_MAX_RECORDS - 3);
    same("tg_totals_by_minutes, 4,096 records: minutes", totals.minutes[0], 2 * (TG_MAX_RECORDS - 4) + 50);
    totals = tg_totals_by_minutes(records, TG_MAX_RECORDS + 1, district, 0);
    same_bytes("tg_totals_by_minutes, 4,097 records", &totals, &refused_size, sizeof totals);
    const size_t lens[3] = {0, TG_CLASSES - 1, TG_CLASSES + 1};
    const uint32_t more[TG_CLASSES + 1] = {1, 2, 3, 4, 5, 6, 7, 8, 9, 10, 11, 12, 13, 14, 15, 16, 17};
    for (size_t i = 0; i < 3; i++) {
        totals = tg_totals_by_minutes(wrong_label, 1, more, lens[i]);
        same_bytes("tg_totals_by_minutes, not sixteen", &totals, &refused_minutes, sizeof totals);
    }
    for (size_t i = 0; i < sizeof wrong_minutes / sizeof *wrong_minutes; i++) {
        totals = tg_totals_by_minutes(wrong_class, 1, wrong_minutes[i], TG_CLASSES);
        same_bytes("tg_totals_by_minutes, wrong minutes", &totals, &refused_minutes, sizeof totals);
    }
    totals = tg_totals_by_minutes(wrong_label, 1, district, TG_CLASSES);
    same_bytes("tg_totals_by_minutes, label 3", &totals, &refused_damaged, sizeof totals);
    totals = tg_totals_by_minutes(wrong_class, 1, district, TG_CLASSES);
    same_bytes("tg_totals_by_minutes, class 16", &totals, &refused_damaged, sizeof totals);
}

/* ---- the task graph ---- */

/* The minutes of the classes, and the first job, among the words of the jobs table; the words of a job and a worker. */
enum { MINUTES_AT = 5, JOBS_AT = MINUTES_AT + TG_CLASSES, JOB_WORDS = 10, WORKER_WORDS = 43 };

/* Fields of a job, and of a worker. */
enum { NAME = 0, LABEL = 1, COUNT = 2, CLASS = 3, NEXT = 7, OUTCOME = 8, MARK = 9 };
enum { PHASE = 0, HELD = 1, NOTE = 10 };

/* Tables for up to 8 jobs, 8 arcs, 4 buckets and 2 workers. */
static uint32_t jobs[JOBS_AT + JOB_WORDS * 8], arcs[1 + 2 * 8], buckets[4], queue[2 + 3 * 8], workers[WORKER_WORDS * 2];

static uint32_t *of_job(uint32_t job, uint32_t field)
{
    return jobs + JOBS_AT + JOB_WORDS * job + field;
}

static uint32_t *of_worker(uint32_t worker, uint32_t field)
{
    return workers + WORKER_WORDS * worker + field;
}

#define LEN(table) (sizeof table / sizeof *table)
#define LENT jobs, LEN(jobs), arcs, LEN(arcs), buckets, LEN(buckets), queue, LEN(queue), workers, LEN(workers)

static const tg_sizes sizes = {.jobs = 8, .arcs = 8, .bits = 2, .workers = 2};

/* An answer is of a kind, with these fields and all others 0. */
static void answers(const char *what, tg_answer answer, tg_answer wanted)
{
    same(what, answer.kind, wanted.kind);
    same(what, answer.number, wanted.number);
    same(what, answer.place, wanted.place);
    same(what, answer.job, wanted.job);
    same(what, answer.name, wanted.name);
    same(what, answer.spoiled, wanted.spoiled);
}

static const tg_answer laid_out = {.kind = TG_LAID_OUT}, posted = {.kind = TG_POSTED}, going_on = {.kind = TG_GOING_ON},
                       ended = {.kind = TG_ENDED}, none_ready = {.kind = TG_NONE_READY}, loaded = {.kind = TG_LOADED},
                       stopped = {.kind = TG_STOPPED, .number = TG_DAMAGED};

static tg_answer refused(uint32_t number, uint32_t place)
{
    return (tg_answer){.kind = TG_REFUSED, .number = number, .place = place};
}

static tg_answer handed_out(uint32_t job, uint32_t name)
{
    return (tg_answer){.kind = TG_HANDED_OUT, .job = job, .name = name};
}

static tg_answer handed_out_spoiled(uint32_t job, uint32_t name)
{
    return (tg_answer){.kind = TG_HANDED_OUT, .job = job, .name = name, .spoiled = 1};
}

/* Steps to the answer that ends the call; the number of steps must be as given. */
static tg_answer run_whole(const char *what, uint32_t worker, unsigned steps)
{
    unsigned taken = 1;
    tg_answer answer = tg_step(sizes, LENT, worker);
    for (; answer.kind == TG_GOING_ON; taken++)
        answer = tg_step(sizes, LENT, worker);
    same(what, taken, steps);
    return answer;
}

static void check_words_needed(void)
{
    tg_need need = tg_words_needed(sizes);
    same("tg_words_needed: number", need.number, TG_ACCEPTED);
    same("tg_words_needed: jobs", need.jobs, LEN(jobs));
    same("tg_words_needed: arcs", need.arcs, LEN(arcs));
    same("tg_words_needed: buckets", need.buckets, LEN(buckets));
    same("tg_words_needed: queue", need.queue, LEN(queue));
    same("tg_words_needed: workers", need.workers, LEN(workers));
    const tg_sizes wrong[] = {{0, 0, 1, 1}, {4097, 0, 1, 1}, {1, 32769, 1, 1}, {1, 0, 0, 1},
                              {1, 0, 9, 1}, {1, 0, 1, 0},    {1, 0, 1, 17},    {UINT32_MAX, 0, 1, 1}};
    for (size_t i = 0; i < LEN(wrong); i++) {
        need = tg_words_needed(wrong[i]);
        same("tg_words_needed, off the limits: number", need.number, TG_SIZE);
        same("tg_words_needed, off the limits: words",
             need.jobs | need.arcs | need.buckets | need.queue | need.workers, 0);
        answers("tg_lay_out, off the limits", tg_lay_out(wrong[i], LENT), refused(TG_SIZE, 0));
    }
}

/* The words of a fresh graph, and of a table that is too short. */
static void check_lay_out(void)
{
    memset(queue, 7, sizeof queue);
    answers("tg_lay_out, a table too short", tg_lay_out(sizes, jobs, LEN(jobs), arcs, LEN(arcs) - 1, buckets,
                                                        LEN(buckets), queue, LEN(queue), workers, LEN(workers)),
            refused(TG_SIZE, 0));
    const size_t too_short[2] = {2 + 8, LEN(queue) - 1};
    for (size_t i = 0; i < LEN(too_short); i++)
        answers("tg_lay_out, a queue without a whole index",
                tg_lay_out(sizes, jobs, LEN(jobs), arcs, LEN(arcs), buckets, LEN(buckets), queue, too_short[i], workers,
                           LEN(workers)),
                refused(TG_SIZE, 0));
    same("tg_lay_out, refused: the queue", queue[0], 0x07070707);
    answers("tg_lay_out", tg_lay_out(sizes, LENT), laid_out);
    same_bytes("tg_lay_out: the sizes", jobs, &sizes, sizeof sizes);
    same("tg_lay_out: jobs made", jobs[4], 0);
    same_bytes("tg_lay_out: the fixed minutes", jobs + MINUTES_AT, fixed_minutes, sizeof fixed_minutes);
    const uint32_t none = UINT32_MAX, fresh_job[JOB_WORDS] = {0, 0, 0, 0, 0, none, none, none, 0, 0};
    same_bytes("tg_lay_out: first job", of_job(0, NAME), fresh_job, sizeof fresh_job);
    same_bytes("tg_lay_out: last job", of_job(7, NAME), fresh_job, sizeof fresh_job);
    same("tg_lay_out: arcs reserved", arcs[0], 0);
    same("tg_lay_out: last arc", arcs[LEN(arcs) - 1], UINT32_MAX);
    same("tg_lay_out: last bucket", buckets[3], UINT32_MAX);
    same("tg_lay_out: put", queue[1], 0);
    same("tg_lay_out: last cell", queue[LEN(queue) - 3], UINT32_MAX);
    same("tg_lay_out: last slot", queue[LEN(queue) - 2], UINT32_MAX);
    same("tg_lay_out: last position", queue[LEN(queue) - 1], UINT32_MAX);
    same("tg_lay_out: worker 1, held", *of_worker(1, HELD), UINT32_MAX);
    same("tg_lay_out: worker 1, note", *of_worker(1, NOTE), 0);
    same("tg_lay_out: worker 1, last name", *of_worker(1, WORKER_WORDS - 1), 0);
}

/* Jobs 1, 2, 3 and 4 needing 1 and 2, added by worker 0 and worked by both. */
static void check_graph(void)
{
    answers("tg_lay_out", tg_lay_out(sizes, LENT), laid_out);
    for (uint32_t name = 1; name <= 3; name++) {
        answers("tg_post_add", tg_post_add(sizes, LENT, 0, (tg_entry){.name = name}), posted);
        answers("tg_step, an add without a list", run_whole("two steps", 0, 2), ended);
    }
    const tg_entry fourth = {.name = 4, .count = 2, .class_ = 15, .grower = 9, .names = {1, 2}};
    answers("tg_post_add, job 4", tg_post_add(sizes, LENT, 0, fourth), posted);
    answers("tg_post_add, half done", tg_post_add(sizes, LENT, 0, fourth), refused(TG_HALF_DONE, 0));
    answers("tg_step, a look-up", tg_step(sizes, LENT, 0), going_on);
    answers("tg_step, job 4", run_whole("2d + 2 steps, one taken", 0, 5), ended);
    const uint32_t words[JOB_WORDS] = {4, 0, 2, 15, 9, UINT32_MAX, UINT32_MAX, UINT32_MAX, 0, 0};
    same_bytes("the words of job 4", of_job(3, NAME), words, sizeof words);

    for (uint32_t name = 1; name <= 2; name++)
        answers("tg_get", tg_get(sizes, LENT, name - 1), handed_out(name - 1, name));
    answers("tg_get, holding", tg_get(sizes, LENT, 0), refused(TG_HOLDING, 0));
    answers("tg_post_finish, not held", tg_post_finish(sizes, LENT, 0, 2, TG_GOOD), refused(TG_NOT_HELD, 0));
    const tg_totals totals = tg_totals_of_graph(sizes, jobs, LEN(jobs)), wanted = {0, {2, 2, 0}, {481, 2, 0}};
    same_bytes("tg_totals_of_graph", &totals, &wanted, sizeof totals);
    for (uint32_t name = 1; name <= 2; name++) {
        answers("tg_post_finish", tg_post_finish(sizes, LENT, name - 1, name, TG_GOOD), posted);
        answers("tg_step, a finish", run_whole("a mark and an arc", name - 1, 2), ended);
    }
    answers("tg_get, the most minutes", tg_get(sizes, LENT, 1), handed_out(3, 4));
    answers("tg_get, the next", tg_get(sizes, LENT, 0), handed_out(2, 3));
    answers("tg_step, idle", tg_step(sizes, LENT, 0), refused(TG_IDLE, 0));
}

/* Gets a job and finishes it. */
static void works_on(const char *what, uint32_t job, uint32_t name)
{
    answers(what, tg_get(sizes, LENT, 0), handed_out(job, name));
    answers(what, tg_finish(sizes, LENT, 0, name, TG_GOOD), ended);
}

/* A place of the queue: its cell, the slot of its number, its position. */
enum { CELL = 0, SLOT = 1, POSITION = 2 };

static uint32_t *of_place(uint32_t place, uint32_t field)
{
    return queue + 2 + 3 * place + field;
}

/* The counters, the places that were put, and those that were not. */
static void queue_is(const char *what, uint32_t taken, uint32_t put, const uint32_t (*places)[3])
{
    const uint32_t none = UINT32_MAX, blank[3] = {none, none, none};
    same(what, queue[0], taken);
    same(what, queue[1], put);
    for (uint32_t place = 0; place < sizes.jobs; place++)
        same_bytes(what, of_place(place, CELL), places && place < put ? places[place] : blank, sizeof blank);
}

/* Long jobs first, equal minutes by entry, and the words of the queue and of the index beside it. */
static void check_order(void)
{
    answers("tg_lay_out", tg_lay_out(sizes, LENT), laid_out);
    const uint32_t classes[5] = {3, 0, 3, 15, 0};
    for (uint32_t i = 0; i < LEN(classes); i++)
        answers("tg_add", tg_add(sizes, LENT, 0, (tg_entry){.name = 10 + i, .class_ = classes[i]}), ended);
    const uint32_t none = UINT32_MAX;
    const uint32_t five[5][3] = {{0, 3, 1}, {1, 0, 3}, {2, 2, 2}, {3, 1, 0}, {4, 4, 4}};
    queue_is("the queue, five jobs", 0, 5, five);
    works_on("tg_get, the heaviest", 3, 13);
    const uint32_t four[5][3] = {{0, 0, 0}, {1, 1, 1}, {2, 2, 2}, {none, 4, none}, {4, none, 3}};
    queue_is("the queue, the heaviest taken", 1, 5, four);
    works_on("tg_get, of equal minutes the first", 0, 10);
    answers("tg_add, heavier", tg_add(sizes, LENT, 0, (tg_entry){.name = 15, .class_ = 4}), ended);
    answers("tg_add, lighter", tg_add(sizes, LENT, 0, (tg_entry){.name = 16, .class_ = 1}), ended);
    works_on("tg_get, a heavier one that entered later", 5, 15);
    works_on("tg_get, of equal minutes the second", 2, 12);
    works_on("tg_get, before the lightest", 6, 16);
    works_on("tg_get, of the lightest the first", 1, 11);
    works_on("tg_get, the last", 4, 14);
    answers("tg_get, none left", tg_get(sizes, LENT, 0), none_ready);
    queue_is("the queue, all taken", 7, 7, NULL);
}

static void check_graph_refusals(void)
{
    answers("tg_lay_out", tg_lay_out(sizes, LENT), laid_out);
    const tg_sizes other = {.jobs = 8, .arcs = 8, .bits = 2, .workers = 1};
    answers("tg_get, other sizes", tg_get(other, LENT, 0), refused(TG_SIZE, 0));
    answers("tg_get, worker 2", tg_get(sizes, LENT, 2), refused(TG_WORKER, 0));
    answers("tg_get, none ready", tg_get(sizes, LENT, 1), none_ready);
    answers("tg_post_add, class 16", tg_post_add(sizes, LENT, 0, (tg_entry){.class_ = 16}), refused(TG_ARGUMENTS, 0));
    answers("tg_post_add, 33 names", tg_post_add(sizes, LENT, 0, (tg_entry){.count = 33}), refused(TG_ARGUMENTS, 0));
    const tg_entry first = {.name = 1}, unknown = {.name = 2, .count = 2, .names = {1, 9}};
    answers("tg_post_add", tg_post_add(sizes, LENT, 0, first), posted);
    answers("tg_step", run_whole("two steps", 0, 2), ended);
    answers("tg_post_add, unknown name", tg_post_add(sizes, LENT, 0, unknown), posted);
    answers("tg_step, unknown name", run_whole("two look-ups", 0, 2), refused(TG_UNKNOWN_NAME, 1));
    answers("tg_post_add, present name", tg_post_add(sizes, LENT, 0, first), posted);
    answers("tg_step, present name", run_whole("entering", 0, 1), refused(TG_NAME_PRESENT, 0));

    tg_totals totals = tg_totals_of_graph(sizes, jobs, LEN(jobs) - 1);
    same("tg_totals_of_graph, too short", totals.number, TG_SIZE);
    totals = tg_totals_of_graph(other, jobs, LEN(jobs));
    same("tg_totals_of_graph, other sizes", totals.number, TG_SIZE);
    *of_job(0, LABEL) = 3;
    totals = tg_totals_of_graph(sizes, jobs, LEN(jobs));
    same("tg_totals_of_graph, label 3", totals.number, TG_DAMAGED);
    answers("tg_get, label 3", tg_get(sizes, LENT, 0), refused(TG_DAMAGED, 0));
}

/* A copy of the five tables, to be compared after a call that changes nothing. */
static uint32_t kept[LEN(jobs) + LEN(arcs) + LEN(buckets) + LEN(queue) + LEN(workers)];

static void copy_tables(uint32_t *copy)
{
    memcpy(copy, jobs, sizeof jobs), copy += LEN(jobs);
    memcpy(copy, arcs, sizeof arcs), copy += LEN(arcs);
    memcpy(copy, buckets, sizeof buckets), copy += LEN(buckets);
    memcpy(copy, queue, sizeof queue), copy += LEN(queue);
    memcpy(copy, workers, sizeof workers);
}

static void unchanged(const char *what)
{
    static uint32_t now[LEN(kept)];
    copy_tables(now);
    same_bytes(what, now, kept, sizeof kept);
}

/* Sets a word to a wrong value, under which a get changes nothing, and puts it right. */
static void get_is_damaged(const char *what, uint32_t *word, uint32_t wrong)
{
    const uint32_t right = *word;
    *word = wrong;
    copy_tables(kept);
    answers(what, tg_get(sizes, LENT, 0), refused(TG_DAMAGED, 0));
    unchanged(what);
    *word = right;
}

/* A slot that does not hold the place of a waiting job is damage for the calls that read it, and for no others. Four jobs
 * of one class: place i is in slot i. */
static void check_index_damaged(void)
{
    answers("tg_lay_out", tg_lay_out(sizes, LENT), laid_out);
    for (uint32_t name = 1; name <= 4; name++)
        answers("tg_add", tg_add(sizes, LENT, 0, (tg_entry){.name = name}), ended);
    for (uint32_t slot = 0; slot < 4; slot++) {
        get_is_damaged("tg_get, a slot with none", of_place(slot, SLOT), UINT32_MAX);
        get_is_damaged("tg_get, a slot with a place that was not put", of_place(slot, SLOT), 4);
        get_is_damaged("tg_get, a slot with the place of another", of_place(slot, SLOT), 3 - slot);
        get_is_damaged("tg_get, the position of a place is another slot", of_place(slot, POSITION), 3 - slot);
        get_is_damaged("tg_get, the position of a place is none", of_place(slot, POSITION), UINT32_MAX);
        get_is_damaged("tg_get, a cell with a job that was not made", of_place(slot, CELL), 4);
        get_is_damaged("tg_get, a job of class 16", of_job(slot, CLASS), 16);
    }
    *of_place(1, SLOT) = 7;
    answers("tg_add, a wrong slot on its way", tg_add(sizes, LENT, 0, (tg_entry){.name = 5}), stopped);
    *of_place(1, SLOT) = 1, *of_place(1, POSITION) = 0;
    answers("tg_step, a wrong position on its way", tg_step(sizes, LENT, 0), refused(TG_DAMAGED, 0));
    *of_place(1, POSITION) = 1, *of_place(2, SLOT) = 7;
    answers("tg_step, a wrong slot that it does not pass", tg_step(sizes, LENT, 0), ended);
    *of_place(0, SLOT) = 2, *of_place(2, POSITION) = 0;
    *of_place(2, SLOT) = 0, *of_place(0, POSITION) = 2;
    answers("tg_get, the index's first", tg_get(sizes, LENT, 0), handed_out(2, 3));
}

static void holds(const char *what, uint32_t worker, tg_holding wanted)
{
    const tg_holding holding = tg_held(sizes, LENT, worker);
    same_bytes(what, &holding, &wanted, sizeof holding);
}

static void drained(const char *what, uint32_t number, uint32_t wanted)
{
    const tg_drained_answer answer = tg_drained(sizes, LENT);
    same(what, answer.number, number);
    same(what, answer.drained, wanted);
}

/* Jobs 1 and 2 needing 1: added, worked and finished by whole calls. */
static void check_whole_calls(void)
{
    answers("tg_lay_out", tg_lay_out(sizes, LENT), laid_out);
    const tg_entry first = {.name = 1}, second = {.name = 2, .count = 1, .class_ = 3, .grower = 9, .names = {1}};
    answers("tg_add", tg_add(sizes, LENT, 0, first), ended);
    answers("tg_add, job 2", tg_add(sizes, LENT, 0, second), ended);
    const uint32_t words[JOB_WORDS] = {2, 0, 1, 3, 9, UINT32_MAX, UINT32_MAX, UINT32_MAX, 0, 0};
    same_bytes("tg_add: the words of job 2", of_job(1, NAME), words, sizeof words);
    answers("tg_get", tg_get(sizes, LENT, 1), handed_out(0, 1));
    answers("tg_finish", tg_finish(sizes, LENT, 1, 1, TG_GOOD), ended);
    answers("tg_get, the dependent", tg_get(sizes, LENT, 0), handed_out(1, 2));
    answers("tg_add, by a holder", tg_add(sizes, LENT, 0, (tg_entry){.name = 3}), ended);
    answers("tg_finish, without an arc", tg_finish(sizes, LENT, 0, 2, TG_GOOD), ended);
    answers("tg_get, added by a holder", tg_get(sizes, LENT, 0), handed_out(2, 3));
}

static void check_whole_refusals(void)
{
    answers("tg_lay_out", tg_lay_out(sizes, LENT), laid_out);
    const tg_sizes other = {.jobs = 8, .arcs = 8, .bits = 2, .workers = 1};
    const tg_entry first = {.name = 1}, unknown = {.name = 2, .count = 2, .names = {1, 9}};
    answers("tg_add", tg_add(sizes, LENT, 0, first), ended);
    answers("tg_get", tg_get(sizes, LENT, 1), handed_out(0, 1));
    copy_tables(kept);
    answers("tg_add, other sizes", tg_add(other, LENT, 0, first), refused(TG_SIZE, 0));
    answers("tg_add, worker 2", tg_add(sizes, LENT, 2, first), refused(TG_WORKER, 0));
    answers("tg_add, 33 names", tg_add(sizes, LENT, 0, (tg_entry){.count = 33}), refused(TG_ARGUMENTS, 0));
    answers("tg_add, unknown name", tg_add(sizes, LENT, 0, unknown), refused(TG_UNKNOWN_NAME, 1));
    answers("tg_add, present name", tg_add(sizes, LENT, 0, first), refused(TG_NAME_PRESENT, 0));
    answers("tg_finish, other sizes", tg_finish(other, LENT, 0, 1, TG_GOOD), refused(TG_SIZE, 0));
    answers("tg_finish, worker 2", tg_finish(sizes, LENT, 2, 1, TG_GOOD), refused(TG_WORKER, 0));
    answers("tg_finish, by another worker", tg_finish(sizes, LENT, 0, 1, TG_GOOD), refused(TG_NOT_HELD, 0));
    answers("tg_finish, another name", tg_finish(sizes, LENT, 1, 2, TG_GOOD), refused(TG_NOT_HELD, 0));
    unchanged("tg_add and tg_finish, refused: the tables");

    arcs[0] = 8;
    answers("tg_add, no arcs left", tg_add(sizes, LENT, 0, (tg_entry){.name = 2, .count = 1, .names = {1}}),
            refused(TG_FULL, 0));
    arcs[0] = 9;
    answers("tg_add, more arcs reserved than there are", tg_add(sizes, LENT, 0, first), refused(TG_DAMAGED, 0));
    answers("tg_finish, more arcs reserved than there are", tg_finish(sizes, LENT, 1, 1, TG_GOOD),
            refused(TG_DAMAGED, 0));
    arcs[0] = 0;
    unchanged("tg_add and tg_finish, full or damaged: the tables");
    answers("tg_post_finish", tg_post_finish(sizes, LENT, 1, 1, TG_GOOD), posted);
    answers("tg_add, half done", tg_add(sizes, LENT, 1, first), refused(TG_HALF_DONE, 0));
    answers("tg_finish, half done", tg_finish(sizes, LENT, 1, 1, TG_GOOD), refused(TG_HALF_DONE, 0));
    answers("tg_step, after these", tg_step(sizes, LENT, 1), ended);
}

/* Damage in the middle: an add stays half done and is told as stopped, and a finish whose only arc is followed by itself
 * uses up its steps. */
static void check_whole_damaged(void)
{
    answers("tg_lay_out", tg_lay_out(sizes, LENT), laid_out);
    answers("tg_add", tg_add(sizes, LENT, 0, (tg_entry){.name = 1}), ended);
    *of_job(0, LABEL) = 3;
    const tg_entry second = {.name = 2, .count = 1, .names = {1}};
    answers("tg_add, label 3 in its middle", tg_add(sizes, LENT, 0, second), stopped);
    answers("tg_add, after it", tg_add(sizes, LENT, 0, second), refused(TG_HALF_DONE, 0));
    *of_job(0, LABEL) = 0;
    answers("tg_step, put right", run_whole("a link and settling", 0, 2), ended);

    arcs[1 + 1] = 0;
    *of_job(1, COUNT) = 32;
    answers("tg_get", tg_get(sizes, LENT, 0), handed_out(0, 1));
    *of_job(0, LABEL) = 0;
    answers("tg_finish, failed, label 0", tg_finish(sizes, LENT, 0, 1, TG_FAILED), stopped);
    same("tg_finish, failed, label 0: the note is kept", *of_worker(0, NOTE), 1);
    holds("tg_held, a finish that has not marked", 0,
          (tg_holding){.holds = 1, .job = 0, .name = 1, .call = TG_CALL_FINISH});
    *of_job(0, LABEL) = 1;
    *of_worker(0, PHASE) = 0;
    answers("tg_finish, arcs in a circle", tg_finish(sizes, LENT, 0, 1, TG_FAILED), going_on);
    same("tg_finish: a mark, and a step for each of 8 arcs", *of_job(1, COUNT), 32 - 8);
    same("tg_finish, arcs in a circle: the note is kept", *of_worker(0, NOTE), 1);
    same("tg_finish, arcs in a circle: the outcome", *of_job(0, OUTCOME), 1);
    *of_job(1, MARK) = 0;
    arcs[1 + 1] = UINT32_MAX;
    answers("tg_step, put right", tg_step(sizes, LENT, 0), ended);
    same("tg_step, put right: by the note", *of_job(1, MARK), 1);
}

/* What a sheet answers: its number, each entry's number and place, and where one was stopped, 1 more than its number; all
 * others are 0. */
static void adds_but(const char *what, tg_sheet_added added, uint32_t number, const uint32_t (*wanted)[2],
                     size_t entries, uint32_t stopped_at)
{
    tg_sheet_added all = {.number = number, .stopped = stopped_at};
    for (size_t i = 0; i < entries; i++)
        all.numbers[i] = wanted[i][0], all.places[i] = wanted[i][1];
    same_bytes(what, &added, &all, sizeof all);
}

static void adds(const char *what, tg_sheet_added added, uint32_t number, const uint32_t (*wanted)[2], size_t entries)
{
    adds_but(what, added, number, wanted, entries, 0);
}

static tg_entry sheet[TG_MAX_ENTRIES + 1];

#define ROWS(entries) (const uint32_t *)sheet, (entries) * TG_ENTRY_WORDS

/* The entries of a sheet that was read, and refused ones of each kind among others. */
static void check_add_sheet(void)
{
    answers("tg_lay_out", tg_lay_out(sizes, LENT), laid_out);
    uint32_t rows[4 * TG_ENTRY_WORDS];
    same("tg_read_sheet", tg_read_sheet(four_jobs, sizeof four_jobs, rows, LEN(rows)).entries, 4);
    adds("tg_add_sheet, four jobs", tg_add_sheet(sizes, LENT, 0, rows, LEN(rows)), 0, NULL, 0);
    same("tg_add_sheet, four jobs: made", jobs[4], 4);
    same("tg_add_sheet, four jobs: put", queue[1], 3);
    answers("tg_get", tg_get(sizes, LENT, 0), handed_out(0, 1));

    const tg_entry mixed[8] = {
        {.name = 5},  {.name = 6, .class_ = 16}, {.name = 6, .count = 2, .names = {5, 9}}, {.name = 5},
        {.name = 6, .count = 6, .names = {1, 2, 3, 4, 5, 7}}, {.name = 6, .count = 5, .names = {1, 2, 3, 4, 5}},
        {.name = 7, .count = 2, .names = {5, 6}}, {.name = 7, .count = 1, .names = {6}}};
    const uint32_t wanted[8][2] = {{0, 0}, {5, 0}, {6, 1}, {7, 0}, {6, 5}, {0, 0}, {8, 0}, {0, 0}};
    memcpy(sheet, mixed, sizeof mixed);
    adds("tg_add_sheet, by a holder, with refused entries", tg_add_sheet(sizes, LENT, 0, ROWS(8)), 0, wanted, 8);
    same("tg_add_sheet, with refused entries: made", jobs[4], 7);
    same("tg_add_sheet, with refused entries: reserved", arcs[0], 8);
    copy_tables(kept);
    adds("tg_add_sheet, no entries", tg_add_sheet(sizes, LENT, 0, ROWS(0)), 0, NULL, 0);
    unchanged("tg_add_sheet, no entries: the tables");
}

static void check_sheet_refusals(void)
{
    answers("tg_lay_out", tg_lay_out(sizes, LENT), laid_out);
    const tg_sizes other = {.jobs = 8, .arcs = 8, .bits = 2, .workers = 1};
    for (uint32_t i = 0; i <= TG_MAX_ENTRIES; i++)
        sheet[i] = (tg_entry){.name = i};
    answers("tg_post_add", tg_post_add(sizes, LENT, 1, (tg_entry){.name = 99}), posted);
    copy_tables(kept);
    adds("tg_add_sheet, no whole rows", tg_add_sheet(sizes, LENT, 2, ROWS(65) - 1), TG_SIZE, NULL, 0);
    adds("tg_add_sheet, other sizes", tg_add_sheet(other, LENT, 2, ROWS(65)), TG_SIZE, NULL, 0);
    adds("tg_add_sheet, worker 2", tg_add_sheet(sizes, LENT, 2, ROWS(65)), TG_WORKER, NULL, 0);
    adds("tg_add_sheet, half done", tg_add_sheet(sizes, LENT, 1, ROWS(65)), TG_HALF_DONE, NULL, 0);
    adds("tg_add_sheet, half done, no entries", tg_add_sheet(sizes, LENT, 1, ROWS(0)), TG_HALF_DONE, NULL, 0);
    adds("tg_add_sheet, 65 entries", tg_add_sheet(sizes, LENT, 0, ROWS(65)), TG_ENTRIES, NULL, 0);
    unchanged("tg_add_sheet, turned away: the tables");
    workers[0] = 5;
    adds("tg_add_sheet, phase 5", tg_add_sheet(sizes, LENT, 0, ROWS(65)), TG_DAMAGED, NULL, 0);
    workers[0] = 0;
    unchanged("tg_add_sheet, phase 5: the tables");
    answers("tg_step, after these", run_whole("two steps", 1, 2), ended);

    uint32_t full[TG_MAX_ENTRIES][2] = {{0}};
    for (size_t i = 7; i < TG_MAX_ENTRIES; i++)
        full[i][0] = TG_FULL;
    adds("tg_add_sheet, 64 entries, room for 7", tg_add_sheet(sizes, LENT, 0, ROWS(64)), 0, full, 64);
    same("tg_add_sheet, 64 entries: made", jobs[4], 8);
}

/* Damage that stops the second entry's add half done: each later entry gets what its post would get, 3. */
static void check_sheet_damaged(void)
{
    answers("tg_lay_out", tg_lay_out(sizes, LENT), laid_out);
    answers("tg_add", tg_add(sizes, LENT, 0, (tg_entry){.name = 1}), ended);
    *of_job(0, LABEL) = 3;
    const tg_entry four[4] = {
        {.name = 2}, {.name = 3, .count = 1, .names = {1}}, {.name = 4}, {.name = 5, .class_ = 16}};
    const uint32_t wanted[4][2] = {{0, 0}, {9, 0}, {3, 0}, {3, 0}};
    memcpy(sheet, four, sizeof four);
    adds_but("tg_add_sheet, label 3 in its middle", tg_add_sheet(sizes, LENT, 0, ROWS(4)), 0, wanted, 4, 2);
    same("tg_add_sheet, label 3 in its middle: made", jobs[4], 3);
    *of_job(0, LABEL) = 0;
    answers("tg_step, put right", run_whole("a link and settling", 0, 2), ended);

    /* More arcs reserved than there are: each add is turned away by 9, and none is stopped. */
    const uint32_t reserved = arcs[0], turned_away[2][2] = {{9, 0}, {9, 0}};
    arcs[0] = sizes.arcs + 1;
    copy_tables(kept);
    adds("tg_add_sheet, more arcs reserved than there are", tg_add_sheet(sizes, LENT, 0, ROWS(2)), 0, turned_away, 2);
    unchanged("tg_add_sheet, more arcs reserved than there are: the tables");
    arcs[0] = reserved;
}

static tg_answer load(const uint32_t *minutes, size_t len)
{
    return tg_load_minutes(sizes, LENT, minutes, len);
}

/* The minutes that stand in the graph, or the number by which they are refused. */
static void graph_has(const char *what, uint32_t number, const uint32_t *minutes)
{
    tg_graph_minutes wanted = {.number = number};
    if (minutes)
        memcpy(wanted.minutes, minutes, sizeof wanted.minutes);
    const tg_graph_minutes answer = tg_minutes_of_graph(sizes, jobs, LEN(jobs));
    same_bytes(what, &answer, &wanted, sizeof answer);
}

/* A district's minutes: loaded before the first job enters, counted by the board, and gone when the graph is laid out
 * anew. Jobs of classes 0, 15 and 7. */
static void check_load(void)
{
    answers("tg_lay_out", tg_lay_out(sizes, LENT), laid_out);
    graph_has("tg_minutes_of_graph, a fresh graph", 0, fixed_minutes);
    copy_tables(kept);
    answers("tg_load_minutes", load(district, TG_CLASSES), loaded);
    graph_has("tg_minutes_of_graph, loaded", 0, district);
    same_bytes("tg_load_minutes: the words", jobs + MINUTES_AT, district, sizeof district);
    memcpy(jobs + MINUTES_AT, fixed_minutes, sizeof fixed_minutes);
    unchanged("tg_load_minutes: all other words");
    answers("tg_post_add", tg_post_add(sizes, LENT, 0, (tg_entry){.name = 1}), posted);
    answers("tg_load_minutes, an add has not entered", load(district, TG_CLASSES), loaded);
    answers("tg_load_minutes, again", load(district, TG_CLASSES), loaded);
    answers("tg_step, entering", tg_step(sizes, LENT, 0), going_on);
    copy_tables(kept);
    answers("tg_load_minutes, entered", load(fixed_minutes, TG_CLASSES), refused(TG_ENTERED, 0));
    unchanged("tg_load_minutes, entered: the tables");
    answers("tg_step, settling", tg_step(sizes, LENT, 0), ended);
    answers("tg_add, class 15", tg_add(sizes, LENT, 0, (tg_entry){.name = 2, .class_ = 15}), ended);
    answers("tg_add, class 7", tg_add(sizes, LENT, 0, (tg_entry){.name = 3, .class_ = 7}), ended);
    works_on("tg_get, 1,440 minutes", 1, 2);
    answers("tg_get, 25 minutes", tg_get(sizes, LENT, 1), handed_out(2, 3));
    const tg_totals totals = tg_totals_of_graph(sizes, jobs, LEN(jobs)), wanted = {0, {1, 1, 1}, {2, 25, 1440}};
    same_bytes("tg_totals_of_graph, by what was loaded", &totals, &wanted, sizeof totals);
    answers("tg_finish", tg_finish(sizes, LENT, 1, 3, TG_GOOD), ended);
    works_on("tg_get, 2 minutes", 0, 1);
    answers("tg_load_minutes, all finished", load(fixed_minutes, TG_CLASSES), refused(TG_ENTERED, 0));
    answers("tg_lay_out", tg_lay_out(sizes, LENT), laid_out);
    graph_has("tg_minutes_of_graph, laid out anew", 0, fixed_minutes);
}

/* The order of 1, 17, 9 and 18, with nothing changed. */
static void check_load_refusals(void)
{
    answers("tg_lay_out", tg_lay_out(sizes, LENT), laid_out);
    const tg_sizes other = {.jobs = 8, .arcs = 8, .bits = 2, .workers = 1};
    const uint32_t more[TG_CLASSES + 1] = {1, 2, 3, 4, 5, 6, 7, 8, 9, 10, 11, 12, 13, 14, 15, 16, 17};
    const size_t lens[3] = {0, TG_CLASSES - 1, TG_CLASSES + 1};
    for (uint32_t made = 0; made <= 9; made += made ? 8 : 1) {
        jobs[4] = made;
        copy_tables(kept);
        answers("tg_load_minutes, other sizes", tg_load_minutes(other, LENT, more, 0), refused(TG_SIZE, 0));
        answers("tg_load_minutes, a table too short",
                tg_load_minutes(sizes, jobs, LEN(jobs), arcs, LEN(arcs), buckets, LEN(buckets), queue, LEN(queue),
                                workers, LEN(workers) - 1, more, 0),
                refused(TG_SIZE, 0));
        for (size_t i = 0; i < 3; i++)
            answers("tg_load_minutes, not sixteen", load(more, lens[i]), refused(TG_MINUTES, 0));
        for (size_t i = 0; i < LEN(wrong_minutes); i++)
            answers("tg_load_minutes, wrong minutes", load(wrong_minutes[i], TG_CLASSES), refused(TG_MINUTES, 0));
        if (made)
            answers("tg_load_minutes, jobs made", load(district, TG_CLASSES),
                    refused(made > sizes.jobs ? TG_DAMAGED : TG_ENTERED, 0));
        unchanged("tg_load_minutes, refused: the tables");
    }
    jobs[4] = sizes.jobs;
    answers("tg_load_minutes, R jobs made", load(district, TG_CLASSES), refused(TG_ENTERED, 0));
    jobs[4] = 0;
    workers[0] = 5, arcs[0] = 9, queue[0] = 9, jobs[MINUTES_AT] = 0;
    answers("tg_load_minutes reads none of these", load(district, TG_CLASSES), loaded);
}

/* Minutes that do not rise or leave their limits are damage to the board and to a question, and to no other call. */
static void check_minutes_damaged(void)
{
    answers("tg_lay_out", tg_lay_out(sizes, LENT), laid_out);
    const tg_sizes other = {.jobs = 8, .arcs = 8, .bits = 2, .workers = 1};
    const tg_totals refused_damaged = {.number = TG_DAMAGED};
    same("tg_minutes_of_graph, other sizes", tg_minutes_of_graph(other, jobs, LEN(jobs)).number, TG_SIZE);
    const tg_graph_minutes too_short = tg_minutes_of_graph(sizes, jobs, LEN(jobs) - 1), nothing = {.number = TG_SIZE};
    same_bytes("tg_minutes_of_graph, too short", &too_short, &nothing, sizeof nothing);
    for (size_t i = 0; i < LEN(wrong_minutes); i++) {
        memcpy(jobs + MINUTES_AT, wrong_minutes[i], sizeof wrong_minutes[i]);
        graph_has("tg_minutes_of_graph, wrong minutes", TG_DAMAGED, NULL);
        const tg_totals totals = tg_totals_of_graph(sizes, jobs, LEN(jobs));
        same_bytes("tg_totals_of_graph, wrong minutes", &totals, &refused_damaged, sizeof totals);
        answers("tg_add, wrong minutes", tg_add(sizes, LENT, 0, (tg_entry){.name = (uint32_t)i}), ended);
        works_on("tg_get, wrong minutes", (uint32_t)i, (uint32_t)i);
    }
}

/* Job 7 from its add to its finish, by worker 1: what it holds, its call, and whether anything is left. */
static void check_state(void)
{
    answers("tg_lay_out", tg_lay_out(sizes, LENT), laid_out);
    drained("tg_drained, a fresh graph", 0, 1);
    holds("tg_held, a fresh graph", 1, (tg_holding){0});
    answers("tg_post_add", tg_post_add(sizes, LENT, 1, (tg_entry){.name = 7}), posted);
    holds("tg_held, an add to enter", 1, (tg_holding){.call = TG_CALL_ADD, .adds = 7});
    holds("tg_held, the other worker", 0, (tg_holding){.call = TG_CALL_NONE});
    drained("tg_drained, an add half done", 0, 0);
    answers("tg_step", tg_step(sizes, LENT, 1), going_on);
    holds("tg_held, an add to settle", 1, (tg_holding){.call = TG_CALL_ADD, .adds = 7});
    answers("tg_step", tg_step(sizes, LENT, 1), ended);
    drained("tg_drained, a job waits", 0, 0);
    answers("tg_get", tg_get(sizes, LENT, 1), handed_out(0, 7));
    holds("tg_held, a job", 1, (tg_holding){.holds = 1, .job = 0, .name = 7});
    drained("tg_drained, a job is held", 0, 0);
    answers("tg_post_finish", tg_post_finish(sizes, LENT, 1, 7, TG_GOOD), posted);
    holds("tg_held, a finish half done", 1, (tg_holding){.holds = 1, .job = 0, .name = 7, .call = TG_CALL_FINISH});
    answers("tg_step", tg_step(sizes, LENT, 1), ended);
    holds("tg_held, after the finish", 1, (tg_holding){0});
    drained("tg_drained, all finished", 0, 1);

    const tg_sizes other = {.jobs = 8, .arcs = 8, .bits = 2, .workers = 1};
    same("tg_held, other sizes", tg_held(other, LENT, 0).number, TG_SIZE);
    same("tg_drained, other sizes", tg_drained(other, LENT).number, TG_SIZE);
    holds("tg_held, worker 2", 2, (tg_holding){.number = TG_WORKER});
    *of_worker(1, PHASE) = 5;
    holds("tg_held, phase 5", 1, (tg_holding){.number = TG_DAMAGED});
    holds("tg_held, phase 5 of the other worker", 0, (tg_holding){0});
    drained("tg_drained, phase 5", TG_DAMAGED, 0);
    *of_worker(1, PHASE) = 0;
    arcs[0] = 9;
    holds("tg_held, more arcs reserved than there are", 1, (tg_holding){.number = TG_DAMAGED});
    arcs[0] = 0;
    queue[0] = 2;
    holds("tg_held, more taken than put", 1, (tg_holding){0});
    drained("tg_drained, more taken than put", TG_DAMAGED, 0);
}

/* Jobs 1 and 2, 3 needing both, 4 needing 3 and 5 needing 2: job 1 fails by steps, and what rests on it is spoiled. */
static void check_outcomes(void)
{
    answers("tg_lay_out", tg_lay_out(sizes, LENT), laid_out);
    const tg_entry five[5] = {{.name = 1}, {.name = 2}, {.name = 3, .count = 2, .names = {1, 2}},
                              {.name = 4, .count = 1, .names = {3}}, {.name = 5, .count = 1, .names = {2}}};
    for (size_t i = 0; i < LEN(five); i++)
        answers("tg_add", tg_add(sizes, LENT, 0, five[i]), ended);
    answers("tg_get", tg_get(sizes, LENT, 0), handed_out(0, 1));
    answers("tg_post_finish, failed", tg_post_finish(sizes, LENT, 0, 1, TG_FAILED), posted);
    same("tg_post_finish, failed: the note", *of_worker(0, NOTE), 1);
    same("tg_post_finish, failed: no outcome yet", *of_job(0, OUTCOME), 0);
    answers("tg_step, the mark", tg_step(sizes, LENT, 0), going_on);
    same("tg_step, the mark: the outcome", *of_job(0, OUTCOME), 1);
    same("tg_step, the mark: the dependent is not spoiled yet", *of_job(2, MARK), 0);
    answers("tg_step, the arc", tg_step(sizes, LENT, 0), ended);
    same("tg_step, the arc: the dependent is spoiled", *of_job(2, MARK), 1);
    same("tg_step, the arc: the note", *of_worker(0, NOTE), 0);
    answers("tg_get, a job that is not spoiled", tg_get(sizes, LENT, 0), handed_out(1, 2));
    answers("tg_finish, good", tg_finish(sizes, LENT, 0, 2, TG_GOOD), ended);
    same("tg_finish, good: the outcome", *of_job(1, OUTCOME), 0);

    answers("tg_get, a spoiled job", tg_get(sizes, LENT, 1), handed_out_spoiled(2, 3));
    holds("tg_held, a spoiled job", 1, (tg_holding){.holds = 1, .job = 2, .name = 3, .spoiled = 1});
    copy_tables(kept);
    answers("tg_post_finish, good for a spoiled job", tg_post_finish(sizes, LENT, 1, 3, TG_GOOD),
            refused(TG_GOOD_FOR_SPOILED, 0));
    answers("tg_finish, good for a spoiled job", tg_finish(sizes, LENT, 1, 3, TG_GOOD),
            refused(TG_GOOD_FOR_SPOILED, 0));
    unchanged("good for a spoiled job: the tables");
    same("the dependent of a spoiled job that has not ended", *of_job(3, MARK), 0);
    answers("tg_finish, any other number is failed", tg_finish(sizes, LENT, 1, 3, 2), ended);
    same("tg_finish, any other number: the outcome", *of_job(2, OUTCOME), 1);
    same("tg_finish, any other number: the dependent", *of_job(3, MARK), 1);
    works_on("tg_get, what rests on a good job", 4, 5);
    answers("tg_get, along the chain", tg_get(sizes, LENT, 0), handed_out_spoiled(3, 4));
    answers("tg_finish, the greatest number", tg_finish(sizes, LENT, 0, 4, UINT32_MAX), ended);
    const uint32_t last[JOB_WORDS] = {4, 2, 0, 0, 0, UINT32_MAX, UINT32_MAX, *of_job(3, NEXT), 1, 1};
    same_bytes("the words of job 4, failed and spoiled", of_job(3, NAME), last, sizeof last);
    drained("tg_drained, all finished", 0, 1);
    const tg_totals totals = tg_totals_of_graph(sizes, jobs, LEN(jobs)), wanted = {0, {0, 0, 5}, {0, 0, 5}};
    same_bytes("tg_totals_of_graph, failed jobs are finished", &totals, &wanted, sizeof totals);
}

/* Links to a failed job: noted beside the tally, and settling spoils; by steps, in an add run whole and in a sheet. */
static void check_links_to_failed(void)
{
    answers("tg_lay_out", tg_lay_out(sizes, LENT), laid_out);
    answers("tg_add", tg_add(sizes, LENT, 0, (tg_entry){.name = 1}), ended);
    answers("tg_add", tg_add(sizes, LENT, 0, (tg_entry){.name = 2}), ended);
    answers("tg_get", tg_get(sizes, LENT, 0), handed_out(0, 1));
    answers("tg_finish, failed", tg_finish(sizes, LENT, 0, 1, TG_FAILED), ended);
    answers("tg_get", tg_get(sizes, LENT, 0), handed_out(1, 2));
    answers("tg_post_add", tg_post_add(sizes, LENT, 1, (tg_entry){.name = 3, .count = 2, .names = {1, 2}}), posted);
    for (int step = 0; step < 3; step++)
        answers("tg_step, look-ups and entering", tg_step(sizes, LENT, 1), going_on);
    same("no note before the link", *of_worker(1, NOTE), 0);
    answers("tg_step, a link to a failed job", tg_step(sizes, LENT, 1), going_on);
    same("a link to a failed job: the note", *of_worker(1, NOTE), 1);
    answers("tg_step, a link to another", tg_step(sizes, LENT, 1), going_on);
    same("a link to another: the note stays", *of_worker(1, NOTE), 1);
    same("linked: no mark yet", *of_job(2, MARK), 0);
    answers("tg_finish, good", tg_finish(sizes, LENT, 0, 2, TG_GOOD), ended);
    answers("tg_get, not settled", tg_get(sizes, LENT, 0), none_ready);
    answers("tg_step, settling", tg_step(sizes, LENT, 1), ended);
    same("settling: the mark", *of_job(2, MARK), 1);
    same("settling: the note", *of_worker(1, NOTE), 0);
    answers("tg_get, spoiled by a link", tg_get(sizes, LENT, 0), handed_out_spoiled(2, 3));

    answers("tg_add, needing a failed job", tg_add(sizes, LENT, 1, (tg_entry){.name = 4, .count = 1, .names = {1}}),
            ended);
    sheet[0] = (tg_entry){.name = 5, .count = 2, .names = {2, 1}};
    sheet[1] = (tg_entry){.name = 6, .count = 1, .names = {2}};
    adds("tg_add_sheet, needing a failed job", tg_add_sheet(sizes, LENT, 1, ROWS(2)), 0, NULL, 0);
    answers("tg_get, spoiled by an add run whole", tg_get(sizes, LENT, 1), handed_out_spoiled(3, 4));
    answers("tg_finish", tg_finish(sizes, LENT, 1, 4, TG_FAILED), ended);
    answers("tg_get, spoiled by a sheet", tg_get(sizes, LENT, 1), handed_out_spoiled(4, 5));
    answers("tg_finish", tg_finish(sizes, LENT, 1, 5, TG_FAILED), ended);
    answers("tg_get, needing a good job", tg_get(sizes, LENT, 1), handed_out(5, 6));
    answers("tg_post_add", tg_post_add(sizes, LENT, 1, (tg_entry){.name = 7, .count = 2, .names = {1, 2}}), posted);
    for (int step = 0; step < 5; step++)
        answers("tg_step, look-ups, entering and links", tg_step(sizes, LENT, 1), going_on);
    same("a link to a good job after a failed one: the note stays", *of_worker(1, NOTE), 1);
    answers("tg_step, settling", tg_step(sizes, LENT, 1), ended);
    same("settling, a failed and a good job: the mark", *of_job(6, MARK), 1);
}

/* Both ways to finish a job as good, refused alike with nothing changed. */
static void good_is_refused(const char *what, tg_sizes brought, uint32_t worker, uint32_t name, uint32_t number)
{
    copy_tables(kept);
    answers(what, tg_post_finish(brought, LENT, worker, name, TG_GOOD), refused(number, 0));
    answers(what, tg_finish(brought, LENT, worker, name, TG_GOOD), refused(number, 0));
    unchanged(what);
}

/* The order 1, 2, 9 for the worker's own words, 3, 11, 9 for the words that are read, 19. Worker 1 holds job 2, which
 * is spoiled. */
static void check_good_for_spoiled(void)
{
    answers("tg_lay_out", tg_lay_out(sizes, LENT), laid_out);
    answers("tg_add", tg_add(sizes, LENT, 0, (tg_entry){.name = 1}), ended);
    answers("tg_add", tg_add(sizes, LENT, 0, (tg_entry){.name = 2, .count = 1, .names = {1}}), ended);
    answers("tg_get", tg_get(sizes, LENT, 0), handed_out(0, 1));
    answers("tg_finish", tg_finish(sizes, LENT, 0, 1, TG_FAILED), ended);
    answers("tg_get", tg_get(sizes, LENT, 1), handed_out_spoiled(1, 2));
    const tg_sizes other = {.jobs = 8, .arcs = 8, .bits = 2, .workers = 1};
    good_is_refused("good, other sizes", other, 1, 2, TG_SIZE);
    good_is_refused("good, worker 2", sizes, 2, 2, TG_WORKER);
    good_is_refused("good, another name", sizes, 1, 1, TG_NOT_HELD);
    good_is_refused("good, by another worker", sizes, 0, 2, TG_NOT_HELD);
    good_is_refused("good for a spoiled job", sizes, 1, 2, TG_GOOD_FOR_SPOILED);
    *of_worker(1, NOTE) = 2;
    good_is_refused("good, a wrong note", sizes, 1, 1, TG_DAMAGED);
    *of_worker(1, NOTE) = 0;
    arcs[0] = 9;
    good_is_refused("good, more arcs reserved than there are", sizes, 1, 2, TG_DAMAGED);
    good_is_refused("good, another name and more arcs reserved", sizes, 1, 1, TG_NOT_HELD);
    arcs[0] = 1;
    *of_job(1, MARK) = 2;
    good_is_refused("good, a wrong mark", sizes, 1, 2, TG_DAMAGED);
    good_is_refused("good, another name and a wrong mark", sizes, 1, 1, TG_NOT_HELD);
    answers("tg_finish, failed, a wrong mark", tg_finish(sizes, LENT, 1, 2, TG_FAILED), refused(TG_DAMAGED, 0));
    answers("tg_post_finish, failed, a wrong mark", tg_post_finish(sizes, LENT, 1, 2, TG_FAILED),
            refused(TG_DAMAGED, 0));
    holds("tg_held, a wrong mark", 1, (tg_holding){.number = TG_DAMAGED});
    holds("tg_held, a wrong mark of a job that another worker holds", 0, (tg_holding){0});
    *of_job(1, MARK) = 1;
    answers("tg_post_add", tg_post_add(sizes, LENT, 1, (tg_entry){.name = 3}), posted);
    good_is_refused("good, half done", sizes, 1, 2, TG_HALF_DONE);
    answers("tg_step, after these", run_whole("two steps", 1, 2), ended);
    answers("tg_post_finish, failed", tg_post_finish(sizes, LENT, 1, 2, TG_FAILED), posted);
    answers("tg_step, the mark", tg_step(sizes, LENT, 1), ended);
}

/* Outcomes, marks and notes that are not 0 or 1 are damage to the calls that read them, and to no others. */
static void check_flags_damaged(void)
{
    const uint32_t wrong[3] = {2, 3, UINT32_MAX};
    answers("tg_lay_out", tg_lay_out(sizes, LENT), laid_out);
    answers("tg_add", tg_add(sizes, LENT, 0, (tg_entry){.name = 1}), ended);
    for (size_t i = 0; i < LEN(wrong); i++)
        get_is_damaged("tg_get, a wrong mark", of_job(0, MARK), wrong[i]);
    *of_job(0, OUTCOME) = 2;
    answers("tg_add, a wrong outcome of a job that has not ended",
            tg_add(sizes, LENT, 0, (tg_entry){.name = 2, .count = 1, .names = {1}}), ended);
    answers("tg_post_add", tg_post_add(sizes, LENT, 0, (tg_entry){.name = 9, .count = 1, .names = {1}}), posted);
    answers("tg_step, a wrong outcome of a job that has not ended", run_whole("four steps", 0, 4), ended);
    answers("tg_get, a wrong outcome", tg_get(sizes, LENT, 0), handed_out(0, 1));
    *of_job(1, MARK) = 7;
    answers("tg_finish, failed: outcome and mark are stored unread", tg_finish(sizes, LENT, 0, 1, TG_FAILED), ended);
    same("tg_finish, failed: the outcome", *of_job(0, OUTCOME), 1);
    same("tg_finish, failed: the dependent's mark", *of_job(1, MARK), 1);

    const tg_entry third = {.name = 3, .count = 1, .names = {1}};
    for (size_t i = 0; i < LEN(wrong); i++) {
        *of_job(0, OUTCOME) = wrong[i];
        answers("tg_add, a link to a wrong outcome", i ? tg_step(sizes, LENT, 1) : tg_add(sizes, LENT, 1, third),
                i ? refused(TG_DAMAGED, 0) : stopped);
        same("tg_add, a link to a wrong outcome: the note", *of_worker(1, NOTE), 0);
    }
    *of_job(0, OUTCOME) = 0;
    answers("tg_step, put right", tg_step(sizes, LENT, 1), going_on);
    *of_job(3, MARK) = 7;
    answers("tg_step, settling without a note", tg_step(sizes, LENT, 1), ended);
    same("settling without a note: the mark", *of_job(3, MARK), 7);
    *of_job(3, MARK) = 0;

    for (size_t i = 0; i < LEN(wrong); i++) {
        *of_worker(1, NOTE) = wrong[i];
        copy_tables(kept);
        answers("tg_get, a wrong note", tg_get(sizes, LENT, 1), refused(TG_DAMAGED, 0));
        answers("tg_step, a wrong note", tg_step(sizes, LENT, 1), refused(TG_DAMAGED, 0));
        answers("tg_post_add, a wrong note", tg_post_add(sizes, LENT, 1, third), refused(TG_DAMAGED, 0));
        answers("tg_add, a wrong note", tg_add(sizes, LENT, 1, third), refused(TG_DAMAGED, 0));
        adds("tg_add_sheet, a wrong note", tg_add_sheet(sizes, LENT, 1, ROWS(0)), TG_DAMAGED, NULL, 0);
        holds("tg_held, a wrong note", 1, (tg_holding){.number = TG_DAMAGED});
        holds("tg_held, a wrong note of another worker", 0, (tg_holding){0});
        drained("tg_drained, a wrong note", TG_DAMAGED, 0);
        unchanged("a wrong note: the tables");
    }
    *of_worker(1, NOTE) = 1;
    answers("tg_get, an idle worker's note in its range", tg_get(sizes, LENT, 1), handed_out_spoiled(1, 2));
    answers("tg_finish, by its outcome and not the note before", tg_finish(sizes, LENT, 1, 2, TG_FAILED), ended);
    same("a call that ends puts the note back", *of_worker(1, NOTE), 0);
}

static void check_day_list(void)
{
    static const char lines[] = "jobs 4 workers 2\n0 1 0\n1 2 1\n2 3 0\n3 4 1\nleft 0\n";
    const size_t len = sizeof lines - 1;
    uint8_t out[64], untouched[64];
    memset(out, 7, sizeof out);
    memset(untouched, 7, sizeof untouched);
    tg_day day = tg_day_list(four_jobs, sizeof four_jobs, 2, out, len - 1);
    same("tg_day_list, a byte too short: number", day.number, TG_NO_ROOM);
    same("tg_day_list, a byte too short: bytes", day.bytes, 0);
    day = tg_day_list(four_jobs, sizeof four_jobs, 17, out, sizeof out);
    same("tg_day_list, 17 workers: number", day.number, TG_SIZE);
    same_bytes("tg_day_list, refused: output", out, untouched, sizeof out);
    day = tg_day_list(four_jobs, sizeof four_jobs, 2, out, sizeof out);
    same("tg_day_list, four jobs: number", day.number, TG_ACCEPTED);
    same("tg_day_list, four jobs: bytes", day.bytes, len);
    same_bytes("tg_day_list, four jobs: lines", out, lines, len);
    same("tg_day_list, four jobs: the byte behind", out[len], 7);
    day = tg_day_list(four_jobs, 28, 2, out, sizeof out);
    same("tg_day_list, cut: bytes", day.bytes, 13);
    same_bytes("tg_day_list, cut: line", out, "broken 20 12\n", 13);
}

static void same_text(const char *what, const char *answered, const char *wanted)
{
    same(what, strcmp(answered, wanted) == 0, 1);
}

static void check_texts(void)
{
    same_text("tg_version", tg_version(), TG_VERSION);
    same_text("tg_message, 0", tg_message(TG_ACCEPTED), "accepted");
    same_text("tg_message, 15", tg_message(TG_NO_ROOM), "the output lacks room");
    same_text("tg_message, 16", tg_message(TG_ENTRIES), "more entries than one call takes");
    same_text("tg_message, 17", tg_message(TG_MINUTES), "minutes that do not rise or are out of range");
    same_text("tg_message, 18", tg_message(TG_ENTERED), "a job has entered");
    same_text("tg_message, 19", tg_message(TG_GOOD_FOR_SPOILED), "a job that rests on a failed one cannot end as good");
    same_text("tg_message, 20", tg_message(TG_GOOD_FOR_SPOILED + 1), "unknown number");
    same_text("tg_message, the greatest", tg_message(UINT32_MAX), "unknown number");
}

int main(void)
{
    check_texts();
    check_read_entry();
    check_read_refusals();
    check_write_entry();
    check_scan_sheet();
    check_read_and_write_sheet();
    check_room();
    check_room_turned_away();
    check_room_full();
    check_room_unreadable();
    check_buckets_and_minutes();
    check_totals();
    check_totals_by_minutes();
    check_words_needed();
    check_lay_out();
    check_graph();
    check_order();
    check_graph_refusals();
    check_index_damaged();
    check_whole_calls();
    check_whole_refusals();
    check_whole_damaged();
    check_add_sheet();
    check_sheet_refusals();
    check_sheet_damaged();
    check_load();
    check_load_refusals();
    check_minutes_damaged();
    check_state();
    check_outcomes();
    check_links_to_failed();
    check_good_for_spoiled();
    check_flags_damaged();
    check_day_list();
    printf("%u passed, %u failed\n", passed, failed);
    return failed != 0;
}
