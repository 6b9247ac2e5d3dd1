/* A ramp of seven doses along one axis, in one call. */
#include "lukhtari.h"

#include <inttypes.h>
#include <stdio.h>

enum { DOSES = 7 };

int main(void) {
    /* axes, degree, node counts, steps a cell, edition two */
    lukhtari_shape shape = {1, 3, {3, 1, 1}, {256, 1, 1}, false};
    int32_t samples[3] = {0, 100, 200};
    int32_t records[LUKHTARI_ENTRIES(1, 3, 3)];
    size_t entries = sizeof records / sizeof records[0];
    lukhtari_done done =
        lukhtari_estimate(LUKHTARI_COLOURIST, shape, samples, 3, records, entries);
    if (done.number != LUKHTARI_NOT_REFUSED) {
        printf("estimate refused %" PRIu32 ", place %" PRIu64 "\n", done.number, done.place);
        return 1;
    }
    /* Three numbers for each position: x, and 0 on the unused axes. */
    int32_t positions[3 * DOSES] = {0, 0, 0, 64, 0, 0, 128, 0, 0, 192, 0, 0,
                                    256, 0, 0, 384, 0, 0, 512, 0, 0};
    int32_t doses[DOSES];
    lukhtari_ramped ramped =
        lukhtari_ramp(LUKHTARI_OPERATOR, shape, records, entries, positions, 3 * DOSES, doses,
                      DOSES);
    if (ramped.number != LUKHTARI_NOT_REFUSED) {
        printf("ramp refused %" PRIu32 ", position %" PRIu64 "\n", ramped.number, ramped.place);
        return 1;
    }
    for (int i = 0; i < DOSES; i++) {
        printf("%" PRId32 "%s", doses[i], i < DOSES - 1 ? " " : "\n");
    }
    printf("%" PRIu64 " fetches\n", ramped.fetches);
    return 0;
}
