/* A host in C that loads a district's minutes: reads them from a file such as examples/district.minutes, adds five
 * jobs, and lets a worker take and finish them. Prints the board before and after, and for each hand-out its number, the
 * job's name and its minutes.
 *
 * usage: district FILE
 *
 * A line that cannot be used is told with the file and its number; exit status 1. */
#define _POSIX_C_SOURCE 200809L
#include <errno.h>
#include <inttypes.h>
#include <stdio.h>
#include <stdlib.h>
#include <string.h>
#include "taskgraph.h"

static const tg_sizes sizes = {16, 16, 2, 1};
static uint32_t *jobs, *arcs, *buckets, *queue, *workers;
static tg_need need;

/* The five tables, as every call takes them. */
#define TABLES jobs, need.jobs, arcs, need.arcs, buckets, need.buckets, queue, need.queue, workers, need.workers

static uint32_t *table(size_t words) {
    uint32_t *memory = calloc(words, sizeof *memory);
    if (!memory) {
        fputs("out of memory\n", stderr);
        exit(1);
    }
    return memory;
}

/* Minutes by class, and the line on which each stands, 0 where none does. */
struct district {
    uint32_t minutes[TG_CLASSES];
    unsigned long line[TG_CLASSES];
};

static void refuse(const char *file, unsigned long line, const char *reason) {
    fprintf(stderr, "%s:%lu: %s\n", file, line, reason);
    exit(1);
}

/* Reads a number of decimal digits, at most 4294967295, and takes the text past it. 0 where there is none. */
static int number(char **text, uint32_t *value) {
    *text += strspn(*text, " \t");
    size_t digits = strspn(*text, "0123456789");
    if (digits == 0) return 0;
    errno = 0;
    unsigned long long read = strtoull(*text, NULL, 10);
    if (errno || read > UINT32_MAX) return 0;
    *value = (uint32_t)read;
    *text += digits;
    return 1;
}

/* Takes a line, which says the minutes of a class or nothing. */
static void take_line(struct district *district, const char *file, unsigned long line, char *text) {
    char reason[64];
    uint32_t class_, minutes;
    text[strcspn(text, "#\r\n")] = '\0';
    if (text[strspn(text, " \t")] == '\0') return;
    int read = number(&text, &class_) && strspn(text, " \t") > 0 && number(&text, &minutes);
    if (!read || text[strspn(text, " \t")] != '\0') refuse(file, line, "not a class and its minutes");
    snprintf(reason, sizeof reason, "class %" PRIu32 " is above %d", class_, TG_MAX_CLASS);
    if (class_ > TG_MAX_CLASS) refuse(file, line, reason);
    snprintf(reason, sizeof reason, "class %" PRIu32 " stands twice", class_);
    if (district->line[class_]) refuse(file, line, reason);
    snprintf(reason, sizeof reason, "%" PRIu32 " minutes are not 1 to %d", minutes, TG_MAX_MINUTES);
    if (minutes < 1 || minutes > TG_MAX_MINUTES) refuse(file, line, reason);
    district->minutes[class_] = minutes;
    district->line[class_] = line;
}

static struct district read_district(const char *file) {
    struct district district = {{0}, {0}};
    FILE *lines = fopen(file, "r");
    char *text = NULL, reason[64];
    size_t room = 0;
    if (!lines) {
        fprintf(stderr, "%s: %s\n", file, strerror(errno));
        exit(1);
    }
    ssize_t length;
    for (unsigned long line = 1; (length = getline(&text, &room, lines)) > 0; line++) {
        /* A NUL byte does not end a line; it is a byte that no number has. */
        for (char *nul; (nul = memchr(text, '\0', (size_t)length));) *nul = '?';
        take_line(&district, file, line, text);
    }
    if (ferror(lines)) {
        fprintf(stderr, "%s: %s\n", file, strerror(errno));
        exit(1);
    }
    free(text);
    fclose(lines);
    for (uint32_t class_ = 0; class_ < TG_CLASSES; class_++) {
        if (!district.line[class_]) {
            fprintf(stderr, "%s: class %" PRIu32 " is missing\n", file, class_);
            exit(1);
        }
        snprintf(reason, sizeof reason, "class %" PRIu32 " has no more minutes than the class below", class_);
        if (class_ > 0 && district.minutes[class_] <= district.minutes[class_ - 1])
            refuse(file, district.line[class_], reason);
    }
    return district;
}

/* A number other than 0 ends the program. */
static void accept(const char *what, uint32_t refusal) {
    if (refusal) {
        fprintf(stderr, "%s: %s\n", what, tg_message(refusal));
        exit(1);
    }
}

static void print_board(void) {
    static const char *const labels[3] = {"unexecuted", "executing", "finished"};
    tg_totals totals = tg_totals_of_graph(sizes, jobs, need.jobs);
    accept("the board", totals.number);
    for (int label = 0; label < 3; label++)
        printf("%s %" PRIu32 " %" PRIu32 "%c", labels[label], totals.jobs[label], totals.minutes[label],
               label < 2 ? ' ' : '\n');
}

int main(int argc, char **argv) {
    static const tg_entry entries[] = {
        {.name = 1}, {.name = 2, .class_ = 15}, {.name = 3, .class_ = 7}, {.name = 4, .class_ = 3},
        {.name = 5, .class_ = 7, .count = 1, .names = {2}}};
    if (argc != 2) {
        fputs("usage: district FILE\n", stderr);
        return 2;
    }
    struct district district = read_district(argv[1]);
    need = tg_words_needed(sizes);
    jobs = table(need.jobs);
    arcs = table(need.arcs);
    buckets = table(need.buckets);
    queue = table(need.queue);
    workers = table(need.workers);
    accept("laying out", tg_lay_out(sizes, TABLES).number);
    accept("the minutes", tg_load_minutes(sizes, TABLES, district.minutes, TG_CLASSES).number);
    for (size_t i = 0; i < sizeof entries / sizeof *entries; i++)
        accept("an add", tg_add(sizes, TABLES, 0, entries[i]).number);
    print_board();
    for (unsigned handed = 0;; handed++) {
        tg_answer held = tg_get(sizes, TABLES, 0);
        accept("a get", held.number);
        if (held.kind != TG_HANDED_OUT) break;
        printf("%u %" PRIu32 " %" PRIu32 "\n", handed, held.name, district.minutes[entries[held.job].class_]);
        accept("a finish", tg_finish(sizes, TABLES, 0, held.name, TG_GOOD).number);
    }
    print_board();
    return 0;
}
