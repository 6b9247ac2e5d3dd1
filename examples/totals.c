/* The integral of the dose over each cell and over the table, in units times cells. */
#include "lukhtari.h"

#include <inttypes.h>
#include <stdio.h>

int main(void) {
    /* axes, degree, node counts, steps a cell, edition two */
    lukhtari_shape shape = {1, 5, {4, 1, 1}, {256, 1, 1}, false};
    int32_t samples[] = {0, 100, 400, 500};
    int32_t records[LUKHTARI_ENTRIES(1, 5, 4)];
    size_t entries = sizeof records / sizeof records[0];
    lukhtari_done done =
        lukhtari_estimate(LUKHTARI_COLOURIST, shape, samples, 4, records, entries);
    if (done.number != LUKHTARI_NOT_REFUSED) {
        printf("estimate refused %" PRIu32 ", place %" PRIu64 "\n", done.number, done.place);
        return 1;
    }
    double divisor = (double)LUKHTARI_TOTAL_DIVISOR(1, 5);
    lukhtari_index first = {{0, 0, 0}}, last = {{2, 0, 0}};
    for (lukhtari_index cell = first; cell.at[0] <= last.at[0]; cell.at[0]++) {
        lukhtari_total one = lukhtari_cell_total(LUKHTARI_SERVICE, shape, records, entries, cell);
        printf("%" PRId64 " %.3f\n", one.numerator, (double)one.numerator / divisor);
    }
    lukhtari_total whole =
        lukhtari_box_total(LUKHTARI_SERVICE, shape, records, entries, first, last);
    if (whole.number != LUKHTARI_NOT_REFUSED) {
        printf("total refused %" PRIu32 ", place %" PRIu64 "\n", whole.number, whole.place);
        return 1;
    }
    printf("%" PRId64 " %.3f\n", whole.numerator, (double)whole.numerator / divisor);
    return 0;
}
