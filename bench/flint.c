/* The same systems by FLINT: the raised ties with their right sides, brought into Howell's form. */
#include <flint/nmod_mat.h>
#include <stddef.h>
#include <stdint.h>
#include <string.h>

static uint32_t little(const uint8_t *bytes) {
    return (uint32_t)bytes[0] | (uint32_t)bytes[1] << 8 | (uint32_t)bytes[2] << 16 | (uint32_t)bytes[3] << 24;
}

static unsigned level(mp_limb_t number, mp_limb_t base, unsigned length) {
    unsigned found = 0;
    if (number == 0) return length;
    for (; number % base == 0; number /= base) found++;
    return found;
}

/* The free digits of a file whose counters all have the full width, found so many times. */
uint32_t flint_whole(const uint8_t *file, size_t file_length, uint32_t times) {
    (void)file_length;
    unsigned ties = file[0] - 1u;
    const uint8_t *layout = file + 1 + 5 * (ties + 1);
    mp_limb_t base = layout[1];
    unsigned length = layout[2], places = layout[3] * layout[4];
    const uint8_t *bodies = layout + 5 + layout[4];
    mp_limb_t size = 1;
    for (unsigned i = 0; i < length; i++) size *= base;
    nmod_mat_t read, rows;
    nmod_mat_init(read, ties, places + 1, size);
    nmod_mat_init(rows, ties, places + 1, size);
    for (unsigned tie = 0; tie < ties; tie++) {
        nmod_mat_entry(read, tie, places) = little(bodies + 1);
        unsigned terms = (unsigned)(file[1 + 5 * (tie + 1) + 3] | file[1 + 5 * (tie + 1) + 4] << 8) / 6;
        for (unsigned term = 0; term < terms; term++) {
            const uint8_t *at = bodies + 5 + 6 * term;
            nmod_mat_entry(read, tie, at[0] * layout[4] + at[1]) = little(at + 2);
        }
        bodies += 5 + 6 * terms;
    }
    uint32_t free = UINT32_MAX;
    for (uint32_t turn = 0; turn < times; turn++) {
        nmod_mat_set(rows, read);
        slong rank = nmod_mat_howell_form(rows);
        free = places * length;
        for (slong row = 0; row < rank; row++) {
            unsigned place = 0;
            while (place < places && nmod_mat_entry(rows, row, place) == 0) place++;
            free -= length - (place < places ? level(nmod_mat_entry(rows, row, place), base, length) : length);
        }
    }
    nmod_mat_clear(read);
    nmod_mat_clear(rows);
    return free;
}
