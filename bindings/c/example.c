/*
 * example FILE
 *
 * Prints the report on a tie file as `tie_report` does, then the sheet of the ties that stand, and, where a tie
 * contradicts the others, the multipliers by which that shows and what the check of multipliers says to them.
 */
#include "counter_ties.h"

#include <stdbool.h>
#include <stdio.h>

/* One byte more tells that a file is too long. */
static uint8_t file[COUNTER_TIES_MOST_BYTES + 1];
static size_t file_length;

static bool read_file(const char *path)
{
    FILE *stream = fopen(path, "rb");
    if (stream == NULL) {
        return false;
    }
    file_length = fread(file, 1, sizeof file, stream);
    bool whole = ferror(stream) == 0;
    return fclose(stream) == 0 && whole;
}

static void print_row(const char *name, const uint32_t *row, size_t length)
{
    printf("%s", name);
    for (size_t i = 0; i < length; i++) {
        printf(" %u", (unsigned)row[i]);
    }
    printf("\n");
}

static void print_summary(const struct counter_ties_summary *summary)
{
    printf("standing %zu free %u\n", summary->standing, (unsigned)summary->free);
    if (summary->stopped != COUNTER_TIES_DONE) {
        printf("stopped %zu %u\n", summary->stopped_at.tie, (unsigned)summary->stopped);
    }
    for (size_t i = 0; i < (size_t)summary->heads * summary->counters; i++) {
        printf("%zu %zu %u\n", i / summary->counters, i % summary->counters, (unsigned)summary->settled[i]);
    }
}

/* Prints the sheet of a file with so many counters on all heads. */
static uint8_t print_sheet(size_t places)
{
    uint32_t sheet[COUNTER_TIES_SHEET_NUMBERS] = {0};
    uint16_t free_digits = 0;
    uint8_t status = counter_ties_sheet(file, file_length, sheet, COUNTER_TIES_SHEET_NUMBERS, &free_digits);
    if (status != COUNTER_TIES_DONE) {
        return status;
    }
    printf("sheet of %u free digits\n", (unsigned)free_digits);
    print_row("point", sheet, places);
    for (size_t i = 0; i < places; i++) {
        print_row("generator", sheet + places * (i + 1), places);
    }
    return COUNTER_TIES_DONE;
}

/* Prints the multipliers of a contradiction, where there is one, and whether they show it. */
static uint8_t print_contradiction(void)
{
    uint32_t multipliers[COUNTER_TIES_MULTIPLIERS] = {0};
    struct counter_ties_spot spot = {0, 0};
    uint8_t status = counter_ties_multipliers(file, file_length, multipliers, COUNTER_TIES_MULTIPLIERS, &spot);
    if (status != COUNTER_TIES_CONTRADICTION) {
        return status;
    }
    printf("contradiction at tie %zu\n", spot.tie);
    print_row("multipliers", multipliers, spot.tie + 1);
    uint8_t yes = 0;
    status = counter_ties_check(file, file_length, multipliers, COUNTER_TIES_MULTIPLIERS, &yes, &spot);
    if (status == COUNTER_TIES_DONE) {
        printf("check %s\n", yes == 1 ? "yes" : "no");
    }
    return status;
}

int main(int argc, char **argv)
{
    if (argc != 2 || !read_file(argv[1])) {
        fprintf(stderr, "example: a tie file is wanted that can be read\n");
        return 1;
    }
    struct counter_ties_summary summary = {0};
    uint8_t status = counter_ties_report(file, file_length, &summary);
    if (status == COUNTER_TIES_DONE) {
        print_summary(&summary);
        status = print_sheet((size_t)summary.heads * summary.counters);
    }
    if (status == COUNTER_TIES_DONE) {
        status = print_contradiction();
    }
    if (status != COUNTER_TIES_DONE) {
        printf("refused %u\n", (unsigned)status);
    }
    return 0;
}
