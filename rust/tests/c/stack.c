/* The stack that each call uses: it runs on painted memory, and what it painted over is counted,
 * with the frame that makes the call. Prints the call's name, its bytes and its limit. */
#define _XOPEN_SOURCE 700
#include "lukhtari.h"

#include <stdio.h>
#include <string.h>
#include <ucontext.h>

enum { STACK = 65536, PAINT = 0xA5, X = 64, NODES = X * 3 * 3 };

static unsigned char stack[STACK];
static unsigned char *top;
static ucontext_t here, there;
static void (*call)(void);

/* What the calls are lent. */
enum { KEY = LUKHTARI_SERVICE };

static lukhtari_shape shape;
static lukhtari_position position;
static lukhtari_float_position float_position;
static lukhtari_index cell, last, u, counts, steps;
static uint32_t slope_axis;
static int32_t samples[NODES], pooled[NODES], records[NODES * LUKHTARI_RECORD_ENTRIES_MAX];
static int32_t coefficients[LUKHTARI_COEFFICIENTS_MAX], corners[LUKHTARI_COEFFICIENTS_MAX];
static uint8_t file[LUKHTARI_FILE_BYTES(3, NODES, true)];
static char text[NODES * (LUKHTARI_TOKEN_BYTES_MAX + 2)];
static int32_t positions[3 * LUKHTARI_RAMP_MAX], answers[LUKHTARI_RAMP_MAX];
static size_t nodes, entries, cell_numbers, bytes, letters;
static uint32_t number;

static void estimate(void) {
    number = lukhtari_estimate(KEY, shape, samples, nodes, records, entries).number;
}

static void forward(void) {
    number = lukhtari_coefficients(KEY, shape, records, entries, cell, coefficients, cell_numbers)
                 .number;
}

static void back(void) {
    number = lukhtari_corners(KEY, shape.axes, shape.degree, coefficients, cell_numbers, corners,
                              cell_numbers)
                 .number;
}

static void powers(void) {
    size_t room = LUKHTARI_POWER_COEFFICIENTS;
    number = lukhtari_powers(KEY, shape, records, entries, cell, corners, room).number;
}

static void dose(void) { number = lukhtari_dose(KEY, shape, records, entries, position).number; }

static void slope(void) {
    number = lukhtari_slope(KEY, shape, records, entries, position, slope_axis).number;
}

static void dose_in_cell(void) {
    number = lukhtari_dose_in_cell(KEY, shape, records, entries, cell, u).number;
}

static void slope_in_cell(void) {
    number = lukhtari_slope_in_cell(KEY, shape, records, entries, cell, u, slope_axis).number;
}

static void curvature(void) {
    number = lukhtari_curvature(KEY, shape, records, entries, position, slope_axis).number;
}

static void curvature_in_cell(void) {
    number = lukhtari_curvature_in_cell(KEY, shape, records, entries, cell, u, slope_axis).number;
}

static void dose_float(void) {
    number = lukhtari_dose_float(KEY, shape, records, entries, float_position).number;
}

static void slope_float(void) {
    number = lukhtari_slope_float(KEY, shape, records, entries, float_position, slope_axis).number;
}

static void write_file(void) {
    bool edition = shape.second_edition;
    number = lukhtari_write(KEY, shape.axes, counts, steps, edition, samples, nodes, file,
                            sizeof file)
                 .number;
}

static void read_file(void) { number = lukhtari_read(KEY, file, bytes, samples, NODES).number; }

static void import(void) {
    number = lukhtari_import(KEY, shape, (const uint8_t *)text, letters, samples, nodes).number;
}

static void ramp(void) {
    number = lukhtari_ramp(KEY, shape, records, entries, positions, 3 * LUKHTARI_RAMP_MAX, answers,
                           LUKHTARI_RAMP_MAX)
                 .number;
}

static void pool(void) {
    number = lukhtari_pool(KEY, shape, samples, nodes, 7, shape, samples, nodes, 3, pooled, nodes)
                 .number;
}

static void cell_total(void) {
    number = lukhtari_cell_total(KEY, shape, records, entries, cell).number;
}

static void box_total(void) {
    number = lukhtari_box_total(KEY, shape, records, entries, cell, last).number;
}

enum {
    ESTIMATE,
    COEFFICIENTS,
    CORNERS,
    POWERS,
    DOSE,
    SLOPE,
    DOSE_IN_CELL,
    SLOPE_IN_CELL,
    CURVATURE,
    CURVATURE_IN_CELL,
    DOSE_FLOAT,
    SLOPE_FLOAT,
    WRITE,
    READ,
    IMPORT,
    RAMP,
    POOL,
    CELL_TOTAL,
    BOX_TOTAL,
    CALLS
};

static const struct {
    const char *name;
    void (*call)(void);
    size_t limit;
} calls[CALLS] = {
    {"estimate", estimate, LUKHTARI_STACK_ESTIMATE},
    {"coefficients", forward, LUKHTARI_STACK_CONVERSION},
    {"corners", back, LUKHTARI_STACK_CONVERSION},
    {"powers", powers, LUKHTARI_STACK_CONVERSION},
    {"dose", dose, LUKHTARI_STACK_QUERY},
    {"slope", slope, LUKHTARI_STACK_QUERY},
    {"dose_in_cell", dose_in_cell, LUKHTARI_STACK_QUERY},
    {"slope_in_cell", slope_in_cell, LUKHTARI_STACK_QUERY},
    {"curvature", curvature, LUKHTARI_STACK_QUERY},
    {"curvature_in_cell", curvature_in_cell, LUKHTARI_STACK_QUERY},
    {"dose_float", dose_float, LUKHTARI_STACK_QUERY},
    {"slope_float", slope_float, LUKHTARI_STACK_QUERY},
    {"write", write_file, LUKHTARI_STACK_FILE},
    {"read", read_file, LUKHTARI_STACK_FILE},
    {"import", import, LUKHTARI_STACK_IMPORT},
    {"ramp", ramp, LUKHTARI_STACK_RAMP},
    {"pool", pool, LUKHTARI_STACK_POOL},
    {"cell_total", cell_total, LUKHTARI_STACK_TOTAL},
    {"box_total", box_total, LUKHTARI_STACK_TOTAL},
};

static size_t most[CALLS];

static void on_stack(void) {
    top = __builtin_frame_address(0);
    call();
}

/* Makes one call on the painted stack, keeps the most bytes, and returns whether its number is the
 * expected one. */
static int measure(int which, uint32_t expected) {
    memset(stack, PAINT, sizeof stack);
    call = calls[which].call;
    getcontext(&there);
    there.uc_stack.ss_sp = stack;
    there.uc_stack.ss_size = sizeof stack;
    there.uc_link = &here;
    makecontext(&there, on_stack, 0);
    swapcontext(&here, &there);
    size_t first = 0;
    while (stack[first] == PAINT) {
        first++;
    }
    size_t used = (size_t)(top - &stack[first]);
    most[which] = used > most[which] ? used : most[which];
    return number == expected;
}

/* Types the samples as text, with another token in place of the last. */
static void type(const char *last) {
    letters = 0;
    for (size_t i = 0; i + 1 < nodes; i++) {
        letters += (size_t)sprintf(&text[letters], "%d.00e-2\n", (int)samples[i]);
    }
    letters += (size_t)sprintf(&text[letters], "%s", last);
}

/* Sets everything for a table of so many steps on each axis. */
static void prepare(uint32_t axes, uint32_t degree, uint32_t fine, bool second_edition) {
    lukhtari_shape wanted = {axes,
                             degree,
                             {X, axes > 1 ? 3 : 1, axes > 2 ? 3 : 1},
                             {fine, axes > 1 ? fine : 1, axes > 2 ? fine : 1},
                             second_edition};
    shape = wanted;
    memcpy(counts.at, shape.counts, sizeof counts.at);
    memcpy(steps.at, shape.steps, sizeof steps.at);
    nodes = LUKHTARI_NODES(shape.counts[0], shape.counts[1], shape.counts[2]);
    entries = LUKHTARI_ENTRIES(axes, degree, nodes);
    cell_numbers = LUKHTARI_COEFFICIENTS(axes, degree);
    bytes = LUKHTARI_FILE_BYTES(axes, nodes, second_edition);
    for (size_t i = 0; i < nodes; i++) {
        samples[i] = (int32_t)(i * 7919 % 8000) - 4000;
    }
    type("-1.50");
    for (uint32_t axis = 0; axis < axes; axis++) {
        last.at[axis] = shape.counts[axis] - 2;
        position.at[axis] = (int32_t)(77 * fine / LUKHTARI_STEPS_MAX);
        u.at[axis] = 77 * fine / LUKHTARI_STEPS_MAX;
    }
    /* From the first cell to the second along all axes. */
    for (int32_t i = 0; i < LUKHTARI_RAMP_MAX; i++) {
        for (uint32_t axis = 0; axis < axes; axis++) {
            positions[3 * i + (int32_t)axis] = 2 * i * (int32_t)fine / LUKHTARI_STEPS_MAX;
        }
    }
    float_position.x = 0.3f;
    float_position.y = axes > 1 ? 0.3f : 0;
    float_position.z = axes > 2 ? 0.3f : 0;
}

/* A cubic table has no curvature, and only a two-axis cubic one has power coefficients, whatever
 * else is to be expected. */
static uint32_t due(int which, uint32_t otherwise) {
    int curvature = which == CURVATURE || which == CURVATURE_IN_CELL;
    if (curvature && shape.degree == 3) {
        return LUKHTARI_REFUSED_CURVATURE_DEGREE;
    }
    if (which == POWERS && (shape.axes != 2 || shape.degree != 3)) {
        return LUKHTARI_REFUSED_POWERS_SHAPE;
    }
    return otherwise;
}

/* Every call on a table: with its full result, then refused for a number that it reads. */
static int measure_table(uint32_t axes, uint32_t degree, uint32_t fine, bool second_edition) {
    int right = 1;
    prepare(axes, degree, fine, second_edition);
    for (int which = 0; which < CALLS; which++) {
        for (slope_axis = 0; slope_axis < axes; slope_axis++) {
            right &= measure(which, due(which, LUKHTARI_NOT_REFUSED));
        }
    }
    slope_axis = axes - 1;
    records[0] = LUKHTARI_SAMPLE_LIMIT + 1;
    for (int which = POWERS; which <= SLOPE_FLOAT; which++) {
        right &= measure(which, due(which, LUKHTARI_REFUSED_BEYOND_LIMIT));
    }
    right &= measure(COEFFICIENTS, LUKHTARI_REFUSED_BEYOND_LIMIT);
    right &= measure(RAMP, LUKHTARI_REFUSED_BEYOND_LIMIT);
    right &= measure(CELL_TOTAL, LUKHTARI_REFUSED_BEYOND_LIMIT);
    right &= measure(BOX_TOTAL, LUKHTARI_REFUSED_BEYOND_LIMIT);
    coefficients[0] = 1;
    right &= measure(CORNERS, LUKHTARI_REFUSED_NO_CORNER_RECORDS);
    type("1234567890123456789012345678901234567890123456789012345678901234.5");
    right &= measure(IMPORT, LUKHTARI_REFUSED_TOKEN_TOO_LONG);
    type("1e");
    right &= measure(IMPORT, LUKHTARI_REFUSED_TOKEN_GRAMMAR);
    type("1e-999999999999");
    right &= measure(IMPORT, LUKHTARI_REFUSED_TOKEN_NOT_WHOLE);
    type("327.69");
    right &= measure(IMPORT, LUKHTARI_REFUSED_BEYOND_LIMIT);
    file[bytes - 1] = 1;
    right &= measure(READ, second_edition ? LUKHTARI_REFUSED_FILE_EDITION
                                          : LUKHTARI_REFUSED_BEYOND_LIMIT);
    samples[nodes - 1] = LUKHTARI_SAMPLE_LIMIT + 1;
    right &= measure(ESTIMATE, LUKHTARI_REFUSED_BEYOND_ESTIMATE_LIMIT);
    right &= measure(WRITE, LUKHTARI_REFUSED_BEYOND_LIMIT);
    right &= measure(POOL, LUKHTARI_REFUSED_BEYOND_LIMIT);
    return right;
}

int main(void) {
    int right = 1;
    for (uint32_t axes = 1; axes <= 3; axes++) {
        for (uint32_t degree = 3; degree <= 5; degree += 2) {
            for (uint32_t fine = LUKHTARI_STEPS_MIN; fine <= LUKHTARI_STEPS_MAX; fine *= 2) {
                right &= measure_table(axes, degree, fine, false);
                right &= measure_table(axes, degree, fine, true);
            }
        }
    }
    for (int which = 0; which < CALLS; which++) {
        printf("%s %zu %zu\n", calls[which].name, most[which], calls[which].limit);
        right &= most[which] > 0 && most[which] <= calls[which].limit;
    }
    return !right;
}
