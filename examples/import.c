/* The text of a table of 3 by 3 nodes: prints its samples in units, or where it is refused. */
#include "lukhtari.h"

#include <inttypes.h>
#include <stdio.h>
#include <string.h>

int main(void) {
    /* axes, degree, node counts, steps a cell, edition two */
    lukhtari_shape shape = {2, 3, {3, 3, 1}, {256, 256, 1}, false};
    const char *text = "0      1      2.50\n"
                       "-5e-1  0.40   18e-1\n"
                       "-1.2   -0.10  0.9\n";
    int32_t samples[LUKHTARI_NODES(3, 3, 1)];
    size_t nodes = sizeof samples / sizeof samples[0];
    lukhtari_done done =
        lukhtari_import(LUKHTARI_COLOURIST, shape, (const uint8_t *)text, strlen(text), samples,
                        nodes);
    if (done.number != LUKHTARI_NOT_REFUSED) {
        printf("refused %" PRIu32 ", place %" PRIu64 "\n", done.number, done.place);
        return 1;
    }
    for (size_t node = 0; node < nodes; node++) {
        printf("%" PRId32 "%c", samples[node], node % 3 == 2 ? '\n' : ' ');
    }
    return 0;
}
