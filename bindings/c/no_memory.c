/*
 * no_memory FILE
 *
 * Lets each allocation of a call fail in turn, by a `malloc` of its own (the linker's `--wrap=malloc`): the call returns
 * 255 and keeps all that it is handed to write to, until none fails. Status 0 says that it was so.
 */
#include "counter_ties.h"

#include <stdbool.h>
#include <stdio.h>
#include <string.h>

#define MORE_THAN_ANY_CALL_TAKES 16

/* So many allocations are left before all fail. */
static size_t left = MORE_THAN_ANY_CALL_TAKES;

void *__real_malloc(size_t size);

void *__wrap_malloc(size_t size)
{
    if (left == 0) {
        return NULL;
    }
    left--;
    return __real_malloc(size);
}

/* All that calls write to. */
struct answers {
    struct counter_ties_summary summary;
    uint32_t list[COUNTER_TIES_SHEET_NUMBERS];
    struct counter_ties_spot spot;
    uint16_t free_digits;
};

typedef uint8_t call(const uint8_t *file, size_t length, struct answers *out);

static uint8_t call_report(const uint8_t *file, size_t length, struct answers *out)
{
    return counter_ties_report(file, length, &out->summary);
}

static uint8_t call_sheet(const uint8_t *file, size_t length, struct answers *out)
{
    return counter_ties_sheet(file, length, out->list, COUNTER_TIES_SHEET_NUMBERS, &out->free_digits);
}

static uint8_t call_multipliers(const uint8_t *file, size_t length, struct answers *out)
{
    return counter_ties_multipliers(file, length, out->list, COUNTER_TIES_SHEET_NUMBERS, &out->spot);
}

/* Whether the call keeps everything until it has memory enough, and wants some. */
static bool keeps(call *made, const uint8_t *file, size_t length)
{
    for (size_t allocations = 0; allocations < MORE_THAN_ANY_CALL_TAKES; allocations++) {
        static struct answers before, after;
        memset(&before, 7, sizeof before);
        memset(&after, 7, sizeof after);
        left = allocations;
        uint8_t status = made(file, length, &after);
        left = MORE_THAN_ANY_CALL_TAKES;
        if (status != COUNTER_TIES_NO_MEMORY) {
            return allocations > 0;
        }
        if (memcmp(&before, &after, sizeof after) != 0) {
            return false;
        }
    }
    return false;
}

int main(int argc, char **argv)
{
    static uint8_t file[COUNTER_TIES_MOST_BYTES];
    FILE *stream = argc == 2 ? fopen(argv[1], "rb") : NULL;
    if (stream == NULL) {
        return 1;
    }
    size_t length = fread(file, 1, sizeof file, stream);
    fclose(stream);
    bool kept = keeps(call_report, file, length) && keeps(call_sheet, file, length) && keeps(call_multipliers, file, length);
    return kept ? 0 : 1;
}
