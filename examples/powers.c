/* The coefficients of powers of x and y of a cell, each times 4: a row for each power of y. */
#include "lukhtari.h"

#include <inttypes.h>
#include <stdio.h>

int main(void) {
    /* axes, degree, node counts, steps a cell, edition two */
    lukhtari_shape shape = {2, 3, {3, 2, 1}, {256, 256, 1}, false};
    int32_t samples[LUKHTARI_NODES(3, 2, 1)] = {0, 100, 400, 0, 100, 200};
    int32_t records[LUKHTARI_ENTRIES(2, 3, LUKHTARI_NODES(3, 2, 1))];
    size_t entries = sizeof records / sizeof records[0];
    lukhtari_done done =
        lukhtari_estimate(LUKHTARI_COLOURIST, shape, samples, 6, records, entries);
    if (done.number != LUKHTARI_NOT_REFUSED) {
        printf("estimate refused %" PRIu32 ", place %" PRIu64 "\n", done.number, done.place);
        return 1;
    }
    lukhtari_index cell = {{1, 0, 0}};
    int32_t powers[LUKHTARI_POWER_COEFFICIENTS];
    done = lukhtari_powers(LUKHTARI_SERVICE, shape, records, entries, cell, powers,
                           LUKHTARI_POWER_COEFFICIENTS);
    if (done.number != LUKHTARI_NOT_REFUSED) {
        printf("powers refused %" PRIu32 ", place %" PRIu64 "\n", done.number, done.place);
        return 1;
    }
    for (int i = 0; i < LUKHTARI_POWER_COEFFICIENTS; i++) {
        printf("%" PRId32 "%s", powers[i], i % 4 < 3 ? " " : "\n");
    }
    return 0;
}
