/* A cubic table of two nodes: estimates its records and prints the dose half way between them, and
 * whether anything was rounded off. */
#include "lukhtari.h"

#include <inttypes.h>
#include <stdio.h>

/* Prints a refusal. */
static int refused(const char *call, uint32_t number, uint64_t place) {
    printf("%s refused %" PRIu32 ", place %" PRIu64 "\n", call, number, place);
    return 1;
}

int main(void) {
    /* axes, degree, node counts, steps a cell, edition two */
    lukhtari_shape shape = {1, 3, {2, 1, 1}, {256, 1, 1}, false};
    int32_t samples[2] = {0, 100};
    int32_t records[LUKHTARI_ENTRIES(1, 3, 2)];
    size_t entries = sizeof records / sizeof records[0];
    lukhtari_done done =
        lukhtari_estimate(LUKHTARI_COLOURIST, shape, samples, 2, records, entries);
    if (done.number != LUKHTARI_NOT_REFUSED) {
        return refused("estimate", done.number, done.place);
    }
    lukhtari_position position = {{128, 0, 0}}; /* 256 steps a cell */
    lukhtari_marked dose = lukhtari_dose(LUKHTARI_OPERATOR, shape, records, entries, position);
    if (dose.number != LUKHTARI_NOT_REFUSED) {
        return refused("dose", dose.number, dose.place);
    }
    printf("dose at step 128: %" PRId32 ", %s\n", dose.value, dose.exact ? "exact" : "rounded");
    return 0;
}
