/* The texts of the numbers, and the version. This file is not proved: it is two look-ups of constants, and
 * tests/test_numbers.py compares every text with docs/NUMBERS.md. */
#include "taskgraph.h"

static const char *const texts[] = {
    [TG_ACCEPTED] = "accepted",
    [TG_SIZE] = "a size out of range or not the one laid out, or a table too short",
    [TG_WORKER] = "no such worker",
    [TG_HALF_DONE] = "the worker's call is half done",
    [TG_IDLE] = "the worker has no call to step",
    [TG_ARGUMENTS] = "wrong class, grower or list",
    [TG_UNKNOWN_NAME] = "a listed name has no job",
    [TG_NAME_PRESENT] = "the name has a job already",
    [TG_FULL] = "no room for the job or its arcs",
    [TG_DAMAGED] = "damaged words",
    [TG_HOLDING] = "the worker holds a job",
    [TG_NOT_HELD] = "the worker holds no job of that name",
    [TG_CUT] = "the sheet ends inside an entry",
    [TG_MAP] = "wrong map byte",
    [TG_VALUE] = "a field's value is out of range",
    [TG_NO_ROOM] = "the output lacks room",
    [TG_ENTRIES] = "more entries than one call takes",
    [TG_MINUTES] = "minutes that do not rise or are out of range",
    [TG_ENTERED] = "a job has entered",
    [TG_GOOD_FOR_SPOILED] = "a job that rests on a failed one cannot end as good",
};

const char *tg_message(uint32_t number)
{
    return number < sizeof texts / sizeof *texts ? texts[number] : "unknown number";
}

const char *tg_version(void)
{
    return TG_VERSION;
}
