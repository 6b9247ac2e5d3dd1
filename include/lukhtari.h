/* Hermite interpolation on lattices of one to three axes, cubic or quintic, in whole numbers.
 *
 * A table is a shape with one sample for each node; lukhtari_pool makes one of two by weight.
 * lukhtari_estimate makes each node's record from the samples; doses and slopes are then asked for
 * by table position, by cell or by float, doses also by a list of positions, a ramp, and curvatures
 * of quintic tables by table position or by cell. A cell's polynomial is given by its coefficients,
 * of two-axis cubic tables also by those of powers of x and y. The integral of the dose over a cell
 * or over a box of cells is its total.
 *
 * Nodes, cells and positions. Axes are x, y, z in this order, numbered 0, 1, 2; a shape uses the
 * first 1, 2 or 3. With cx and cy the node counts of x and y, node (i, j, k) has number
 * i + cx * (j + cy * k). Cell (i, j, k) lies between node (i, j, k) and the next one on each used
 * axis; the last cell of an axis has the index count - 2. Each used axis has its own step
 * number N, the number of steps of a cell along it: 16, 32, 64, 128 or 256, a part of the shape. A
 * position counts steps: node i stands at position N * i. Within a cell a step u runs from 0 to N.
 * A node between two cells is read in the upper one, the last node in the last cell. Indices,
 * positions and steps u are 0 on unused axes, node counts and step numbers 1.
 *
 * Samples and records. A sample is a dose in units; samples stand in order of node numbers. Let m
 * be 2 for degree 3 and 3 for degree 5. A node's record has m^axes entries. The entry of orders
 * (a, b, c), each from 0 to m - 1 and 0 on an unused axis, has number a + m * (b + m * c) and
 * stands at index node * m^axes + number of the records. Along an axis order 0 is the value, order
 * 1 twice the slope per cell, order 2 the second derivative per cell squared; an entry with orders
 * on several axes is so derived along each of them. A sample lies within +-32768, an entry within
 * +-32768 * 2^(a + b + c).
 *
 * Estimation. Along an axis, with l and r the neighbours of f, order 1 is r - l and order 2 is
 * l - 2 * f + r. A neighbour missing at a border continues the line: l = 2 * f - r at the first
 * node, r = 2 * f - l at the last one. So there order 1 is twice the difference of the two nodes
 * and order 2 is 0. The rule is applied along each used axis. To leave room for it, samples given
 * for estimation lie within +-32768 / 2^axes: 16384, 8192, 4096 on 1, 2, 3 axes.
 *
 * Coefficients. Coefficient (a, b, c) of a cell, each index from 0 to degree and 0 on an unused
 * axis, has number a + s * (b + s * c) with s = degree + 1, and lies within +-2^30. It is held
 * doubled once for each used axis. With t = u / N on each axis the exact dose is the sum over all
 * coefficients, divided by 2^axes, of the coefficient times t^a * (1 - t)^(degree - a) along x and
 * alike with b along y and c along z. A cell's corner records are those of the nodes at its 2^axes
 * corners, x fastest; together they have as many entries as the cell has coefficients.
 *
 * Power coefficients. In a cell of a two-axis cubic table the exact dose is also a sum of
 * coefficients times powers of x and y, which run from 0 to 1 in the cell: x = u / N along x, y
 * alike. lukhtari_powers exports them, each times 4, so that it is whole: the number at index
 * i + 4 * j is that of x^i * y^j, i and j from 0 to 3, and lies within +-10616832.
 *
 * Totals. The integral of the exact dose over a cell, which has the length 1 along each axis, is a
 * sum of its coefficients times 3, 1, 1, 3 along each axis, over 24^axes, for degree 3, and times
 * 10, 2, 1, 1, 2, 10, over 120^axes, for degree 5. lukhtari_cell_total gives the numerator, which
 * is exact. A box is the cells from a first to a last index on each axis, and its total is the sum
 * of theirs. A box cut by a plane between cells has the sum of its two parts.
 *
 * Answers. A dose is in units, a slope, its derivative along an axis, in units per cell, a
 * curvature, the second derivative along an axis, in units per cell squared. Quintic tables alone
 * have curvatures: cubic ones are not smooth to the second derivative. Axes are worked off one by
 * one, in the order x, y, z, the axis of a slope or curvature last; each but the last rounds to an
 * eighth of a unit, the last to a unit, to the nearest; halves go by the edition. Answers lie below
 * 2^24 in size. With estimated records a dose is within 1/2, 37/64, 173/256 of the exact dose on 1,
 * 2, 3 axes, a slope within 1/2, 13/16, 77/64 of its derivative, a curvature within 1/2, 3/2, 11/4
 * of its second derivative. Where the samples are a sum of a constant and multiples of x, y, z, xy,
 * xz, yz and xyz, these being the node indices, the exact dose is that sum everywhere in the table,
 * and the exact curvature is 0.
 *
 * Step numbers. An answer at step u of an axis with step number N is the one at step u * 256 / N
 * where the axis has 256, the mark included; on a coarser axis fewer points can be asked for. The
 * distances hold for every choice. Records, coefficients, totals, samples and files do not depend
 * on it.
 *
 * Editions. A table is of edition one or of edition two, which is a part of its shape. In edition
 * one every stage rounds halves up, in edition two to the even number. Nothing else depends on it:
 * not the estimates, coefficients, totals and positions, not the step of a float and not pooled
 * samples, whose halves go up, and no refusal but those of the file and 27. The distances hold for
 * both.
 *
 * The mark. A dose by position or by cell is marked, exact is true, if and only if no stage dropped
 * anything: each number that a stage makes, also one that a later stage gives the weight 0, is a
 * whole number of eighths, the dose a whole number of units, before it is rounded. A marked dose
 * equals the exact dose. One that is not marked may equal it by luck. Both editions mark the same
 * doses. Cells that share a point may differ in the mark; a position is read in the upper one.
 * Slopes, curvatures, floats and ramps carry no mark.
 *
 * Pooling. Two lattices of one shape are pooled by weight. With a and b their samples and v and w
 * their weights, numbers from 0 to LUKHTARI_WEIGHT_MAX that are not both 0, a pooled sample is
 * (a * v + b * w) / (v + w), rounded to the nearest, halves up in both editions. It is within 1/2
 * of the exact mean and between a and b. A weight of 0 gives the other lattice.
 *
 * A ramp. A list of at most LUKHTARI_RAMP_MAX positions stands in one slice, three numbers each, x
 * first. lukhtari_ramp writes one dose for each, the one that lukhtari_dose gives. The corner
 * records are fetched only where the cell differs from that of the position before: the number of
 * fetches is 0 for an empty list, else one more than the number of neighbouring pairs of positions
 * with different cells.
 *
 * The table file. Numbers of 4 bytes, lowest byte first, unsigned but for the samples, which are in
 * two's complement. n is the number of axes:
 *
 *    byte 0              n
 *    byte 4              n node counts, x first
 *    byte 4 + 4 * n      number of samples, the product of the node counts
 *    byte 8 + 4 * n      the samples in order of node numbers
 *
 * With them a file of edition one ends. One of edition two has a third section behind them: the
 * count 1 and the number 2, 8 bytes. Nothing follows. A file holds no step numbers: a table that is
 * read has 256 on each used axis.
 *
 * The text of a table. One token for each sample, in order of node numbers. Space, tab, line feed
 * and carriage return separate tokens, one or more of them; they may also lead and end the text. A
 * token is a longest run of other bytes, whatever they are. It is a number as in RFC 8259, section
 * 6, of at most LUKHTARI_TOKEN_BYTES_MAX bytes:
 *
 *    number = [ - ] int [ . digits ] [ (e or E) [ + or - ] digits ]
 *    int    = 0, or digits of which the first is not 0
 *    digits = one or more of 0 to 9
 *
 * Its exact decimal value, in grams per kilogram, times 100 is the sample: 0.5 and 5e-1 are 50
 * units, -0 and 0e99 are 0. It has to be a whole number; nothing is rounded.
 *
 * Keys. Every call names a key of enum lukhtari_key as its first parameter. The operator may take
 * doses and slopes, by position, by cell and by float, and ramps. The colourist may also read and
 * write files, import, estimate and pool. Service may do everything: coefficients and corner
 * records, power coefficients, curvatures and totals too. For the same call two keys that both hold
 * the right get the same result, and the same is written. Without the right a call is refused 30,
 * place 0, before every other test: nothing is read or written, and the result depends on no other
 * argument.
 *
 * Slices. A slice is a pointer and its number of elements. The pointer is aligned and valid for so
 * many elements until the call returns. Slices lent to one call do not overlap where one of them
 * is written. With length 0 the pointer may be NULL: it is not used. Every call but lukhtari_ramp,
 * whose list may be empty, needs elements in each slice and is then refused. What a buffer holds
 * before a call has no effect on the call.
 *
 * Results. Every result has a number and a place. Number 0 means not refused, and then place is 0.
 * Any other number is a refusal, one of enum lukhtari_refusal: no buffer is written, value, axes,
 * counts, steps, length, fetches and numerator are 0, and exact and second_edition are false. Place
 * is the first offending index as said there, else 0. A buffer longer than needed keeps its tail.
 *
 * Refusals come before reading. Every call but lukhtari_read, lukhtari_import and lukhtari_ramp
 * gives each refusal but 5, 13 and 19 by the numbers and lengths handed over, before it reads an
 * element of a slice. lukhtari_ramp gives 30, 1, 2, 3, 26, 20, 4 and 9 so, and then reads no record
 * beyond those of the cells of its positions, up to the first position that is refused.
 * lukhtari_read gives 30 before it reads a byte; it reads the numbers before and behind the samples
 * one by one, none beyond the bytes lent, and gives each refusal but 5 before it reads a sample.
 * lukhtari_import gives 30, 1, 2, 3 and 26 before it reads a byte of the text. Neither reads the
 * slice that it fills.
 *
 * Surroundings. The archive is for x86-64 Linux. It needs memcpy and memset and nothing else, uses
 * no heap and has no data that changes: calls may run at the same time, in threads and in signal
 * handlers, as long as no slice that one of them writes is lent to another. The stack of a call is
 * at most LUKHTARI_STACK_.. bytes, as measured; on top comes what memcpy and memset use, and the
 * dynamic linker where it binds them at their first call.
 */
#ifndef LUKHTARI_H
#define LUKHTARI_H

#include <stdbool.h>
#include <stddef.h>
#include <stdint.h>

#ifdef __cplusplus
extern "C" {
#endif

/* The number of this interface; another number means other structs, calls or names. */
#define LUKHTARI_INTERFACE 12

/* Least and largest step number of a used axis; 32, 64 and 128 are the others. */
#define LUKHTARI_STEPS_MIN 16
#define LUKHTARI_STEPS_MAX 256

/* Least and largest node count of a used axis, and the most nodes of a table. */
#define LUKHTARI_COUNT_MIN 2
#define LUKHTARI_COUNT_MAX 64
#define LUKHTARI_NODES_MAX 262144

/* The largest size of a sample, of a sample given for estimation on a number of axes (1 to 3), of
 * an entry whose orders add up to a number (0 to 6), and of a coefficient. */
#define LUKHTARI_SAMPLE_LIMIT 32768
#define LUKHTARI_ESTIMATE_LIMIT(axes) (LUKHTARI_SAMPLE_LIMIT / (1 << (axes)))
#define LUKHTARI_ENTRY_LIMIT(orders) (LUKHTARI_SAMPLE_LIMIT * (1 << (orders)))
#define LUKHTARI_COEFFICIENT_LIMIT 1073741824

/* The numbers of an export of power coefficients, and the largest size of such a number. */
#define LUKHTARI_POWER_COEFFICIENTS 16
#define LUKHTARI_POWER_COEFFICIENT_LIMIT 10616832

/* Totals are not larger than this in size. */
#define LUKHTARI_TOTAL_LIMIT 1152921504606846976

/* Doses, slopes and curvatures are smaller than this in size. */
#define LUKHTARI_ANSWER_LIMIT 16777216

/* The most bytes of a token. */
#define LUKHTARI_TOKEN_BYTES_MAX 64

/* The most positions of a ramp. */
#define LUKHTARI_RAMP_MAX 256

/* The largest weight of a lattice that is pooled. */
#define LUKHTARI_WEIGHT_MAX 10000

/* The largest sizes of buffers: entries of one record and of all records of a table; coefficients
 * of a cell, which are as many as the entries of its corner records; bytes of a table file. */
#define LUKHTARI_RECORD_ENTRIES_MAX 27
#define LUKHTARI_ENTRIES_MAX 7077888
#define LUKHTARI_COEFFICIENTS_MAX 216
#define LUKHTARI_FILE_BYTES_MAX 1048604

/* The same sizes for the axes, degree, nodes and edition of an accepted shape; for other numbers
 * they mean nothing. Constant where the arguments are, which may be evaluated more than once. */
#define LUKHTARI_POWER(base, axes)                                                                 \
    ((size_t)(base) * ((axes) > 1 ? (size_t)(base) : 1) * ((axes) > 2 ? (size_t)(base) : 1))
#define LUKHTARI_NODES(x, y, z) ((size_t)(x) * (size_t)(y) * (size_t)(z))
#define LUKHTARI_RECORD_ENTRIES(axes, degree) LUKHTARI_POWER(((degree) + 1) / 2, axes)
#define LUKHTARI_ENTRIES(axes, degree, nodes)                                                      \
    ((size_t)(nodes) * LUKHTARI_RECORD_ENTRIES(axes, degree))
#define LUKHTARI_COEFFICIENTS(axes, degree) LUKHTARI_POWER((degree) + 1, axes)
#define LUKHTARI_FILE_BYTES(axes, nodes, second_edition)                                           \
    (4 * (2 + (size_t)(axes) + (size_t)(nodes) + ((second_edition) ? 2 : 0)))

/* The divisor of the totals of a table: a signed number, as they are. */
#define LUKHTARI_TOTAL_DIVISOR(axes, degree)                                                       \
    ((int64_t)LUKHTARI_POWER((degree) == 3 ? 24 : 120, axes))

/* Bytes of stack, at most: of lukhtari_estimate; of lukhtari_coefficients, lukhtari_corners and
 * lukhtari_powers; of each dose, slope and curvature; of lukhtari_read and lukhtari_write; of
 * lukhtari_import; of lukhtari_ramp; of lukhtari_pool; of lukhtari_cell_total and
 * lukhtari_box_total. */
#define LUKHTARI_STACK_ESTIMATE 8192
#define LUKHTARI_STACK_CONVERSION 4096
#define LUKHTARI_STACK_QUERY 2048
#define LUKHTARI_STACK_FILE 1024
#define LUKHTARI_STACK_IMPORT 1024
#define LUKHTARI_STACK_RAMP 9216
#define LUKHTARI_STACK_POOL 1024
#define LUKHTARI_STACK_TOTAL 2048

/* The numbers of refusals. */
enum lukhtari_refusal {
    /* The call gave its full result. */
    LUKHTARI_NOT_REFUSED = 0,
    /* The number of axes is not 1, 2 or 3. */
    LUKHTARI_REFUSED_AXES = 1,
    /* The degree is neither 3 nor 5. */
    LUKHTARI_REFUSED_DEGREE = 2,
    /* A node count is not allowed; place: the axis. */
    LUKHTARI_REFUSED_NODE_COUNT = 3,
    /* The samples or records lent, or the tokens of a text, are not exactly as many as the shape
     * has. */
    LUKHTARI_REFUSED_LENGTH = 4,
    /* A sample of a file, of a text or to be pooled, or an entry, is beyond its limit; place: its
     * index in the slice.
     * Queries, lukhtari_coefficients, lukhtari_powers and lukhtari_cell_total look at the corner
     * records of their cell alone, in corner order, lukhtari_box_total at the records of all nodes
     * of its cells, by index. For lukhtari_ramp the place is the index of the position in the
     * list. */
    LUKHTARI_REFUSED_BEYOND_LIMIT = 5,
    /* The file's bytes end early, also within a third section; place: the number of bytes lent. */
    LUKHTARI_REFUSED_FILE_ENDS_EARLY = 6,
    /* The file has bytes left over; place: the index of the first. */
    LUKHTARI_REFUSED_FILE_LEFT_OVER = 7,
    /* The file's number of samples is not the product of its node counts. */
    LUKHTARI_REFUSED_FILE_SAMPLE_COUNT = 8,
    /* A buffer to be written is shorter than needed. */
    LUKHTARI_REFUSED_BUFFER_TOO_SHORT = 9,
    /* A float is NaN or infinite; place: the axis. */
    LUKHTARI_REFUSED_NOT_FINITE = 10,
    /* A position is beyond the last node, or an in-cell step above the axis's step number; place:
     * the axis, and for lukhtari_ramp the index of the position in the list. The cure is a smaller
     * one. */
    LUKHTARI_REFUSED_POSITION_BEYOND = 11,
    /* The axis of a slope or curvature is not used. */
    LUKHTARI_REFUSED_SLOPE_AXIS = 12,
    /* No permitted corner records have these coefficients. */
    LUKHTARI_REFUSED_NO_CORNER_RECORDS = 13,
    /* A cell index is above the axis's node count less 2, or not 0 on an unused axis; place: the
     * axis. */
    LUKHTARI_REFUSED_CELL = 14,
    /* The coefficients lent are not exactly (degree + 1)^axes. */
    LUKHTARI_REFUSED_COEFFICIENT_COUNT = 15,
    /* A token is longer than 64 bytes; place: the index in the text of its first byte. */
    LUKHTARI_REFUSED_TOKEN_TOO_LONG = 16,
    /* A token does not fit the grammar; place: the same. */
    LUKHTARI_REFUSED_TOKEN_GRAMMAR = 17,
    /* A token is not a whole number of units; place: the same. */
    LUKHTARI_REFUSED_TOKEN_NOT_WHOLE = 18,
    /* A sample given for estimation is beyond 32768 / 2^axes; place: its index. */
    LUKHTARI_REFUSED_BEYOND_ESTIMATE_LIMIT = 19,
    /* A ramp has more than 256 positions, or their numbers are not three for each. */
    LUKHTARI_REFUSED_RAMP_LENGTH = 20,
    /* A curvature is asked for in degree 3. */
    LUKHTARI_REFUSED_CURVATURE_DEGREE = 21,
    /* A position is below 0; place: as for 11. The cure is 0 or more. In-cell steps have no sign
     * and are never refused so. */
    LUKHTARI_REFUSED_POSITION_BELOW_ZERO = 22,
    /* A position or in-cell step is not 0 on an unused axis; place: as for 11. The cure is 0
     * there. */
    LUKHTARI_REFUSED_POSITION_UNUSED_AXIS = 23,
    /* Power coefficients are asked for of a table that is not two-axis cubic. */
    LUKHTARI_REFUSED_POWERS_SHAPE = 24,
    /* The count of the file's third section is not 1, or its number is not 2. */
    LUKHTARI_REFUSED_FILE_EDITION = 25,
    /* The step number of a used axis is not 16, 32, 64, 128 or 256, or that of an unused one not
     * 1; place: the axis. */
    LUKHTARI_REFUSED_STEP_NUMBER = 26,
    /* The shapes of two lattices that are to be pooled differ, be it in their degree or edition. */
    LUKHTARI_REFUSED_SHAPES_DIFFER = 27,
    /* A weight is above LUKHTARI_WEIGHT_MAX, or both weights are 0. */
    LUKHTARI_REFUSED_WEIGHTS = 28,
    /* A box of cells has a first index above its last on an axis, or a last index above the axis's
     * node count less 2, above 0 on an unused axis; place: the axis. */
    LUKHTARI_REFUSED_BOX = 29,
    /* The key is none of enum lukhtari_key, or lacks the right to make the call. */
    LUKHTARI_REFUSED_KEY = 30
};

/* Keys, the first parameter of every call. */
enum lukhtari_key {
    /* Doses and slopes, ramps included. */
    LUKHTARI_OPERATOR = 1,
    /* Also reading and writing files, import, estimation and pooling. */
    LUKHTARI_COLOURIST = 2,
    /* Everything. */
    LUKHTARI_SERVICE = 3
};

/* A table's number of axes (1 to 3), degree (3 or 5), node counts, 2 to 64 on each used axis and 1
 * on an unused one, step numbers, 16, 32, 64, 128 or 256 on each used axis and 1 on an unused one,
 * and whether it is of edition two. */
typedef struct lukhtari_shape {
    uint32_t axes;
    uint32_t degree;
    uint32_t counts[3];
    uint32_t steps[3];
    bool second_edition;
} lukhtari_shape;

/* A cell's indices, in-cell steps, node counts, or step numbers. */
typedef struct lukhtari_index {
    uint32_t at[3];
} lukhtari_index;

/* A table position in steps. */
typedef struct lukhtari_position {
    int32_t at[3];
} lukhtari_position;

/* A table position in cells. */
typedef struct lukhtari_float_position {
    float x;
    float y;
    float z;
} lukhtari_float_position;

/* The result of a call that fills a buffer. */
typedef struct lukhtari_done {
    uint32_t number;
    uint64_t place;
} lukhtari_done;

/* A slope in units per cell, or a curvature in units per cell squared. */
typedef struct lukhtari_whole {
    uint32_t number;
    uint64_t place;
    int32_t value;
} lukhtari_whole;

/* A dose in units, and whether no stage dropped anything: then it equals the exact dose. */
typedef struct lukhtari_marked {
    uint32_t number;
    uint64_t place;
    int32_t value;
    bool exact;
} lukhtari_marked;

/* A dose or slope as a float, which equals the whole number exactly. */
typedef struct lukhtari_real {
    uint32_t number;
    uint64_t place;
    float value;
} lukhtari_real;

/* The number of axes and the node counts of a file that was read, the step number 256 on each used
 * axis, 1 for both on unused axes, and whether it is of edition two. */
typedef struct lukhtari_table {
    uint32_t number;
    uint64_t place;
    uint32_t axes;
    uint32_t counts[3];
    uint32_t steps[3];
    bool second_edition;
} lukhtari_table;

/* The number of bytes that were written. */
typedef struct lukhtari_written {
    uint32_t number;
    uint64_t place;
    uint64_t length;
} lukhtari_written;

/* How often the corner records of a cell were fetched. */
typedef struct lukhtari_ramped {
    uint32_t number;
    uint64_t place;
    uint64_t fetches;
} lukhtari_ramped;

/* A total: the numerator over LUKHTARI_TOTAL_DIVISOR. */
typedef struct lukhtari_total {
    uint32_t number;
    uint64_t place;
    int64_t numerator;
} lukhtari_total;

/* The structs are laid out as the archive was built for. */
#if defined(__cplusplus) && __cplusplus >= 201103L
#define LUKHTARI_SIZE(type, size) static_assert(sizeof(type) == (size), #type)
#elif !defined(__cplusplus) && defined(__STDC_VERSION__) && __STDC_VERSION__ >= 201112L
#define LUKHTARI_SIZE(type, size) _Static_assert(sizeof(type) == (size), #type)
#endif
#ifdef LUKHTARI_SIZE
LUKHTARI_SIZE(size_t, 8);
LUKHTARI_SIZE(lukhtari_shape, 36);
LUKHTARI_SIZE(lukhtari_index, 12);
LUKHTARI_SIZE(lukhtari_position, 12);
LUKHTARI_SIZE(lukhtari_float_position, 12);
LUKHTARI_SIZE(lukhtari_done, 16);
LUKHTARI_SIZE(lukhtari_whole, 24);
LUKHTARI_SIZE(lukhtari_marked, 24);
LUKHTARI_SIZE(lukhtari_real, 24);
LUKHTARI_SIZE(lukhtari_table, 48);
LUKHTARI_SIZE(lukhtari_written, 24);
LUKHTARI_SIZE(lukhtari_ramped, 24);
LUKHTARI_SIZE(lukhtari_total, 24);
#undef LUKHTARI_SIZE
#endif

/* Writes the records of all nodes, estimated from the samples. A record has 2^axes entries for
 * degree 3 and 3^axes for degree 5. Samples lie within +-32768 / 2^axes. At a border the estimate
 * continues the line.
 * Refusals in order: 30, 1, 2, 3, 26, 4, 9, 19. */
lukhtari_done lukhtari_estimate(uint32_t key, lukhtari_shape shape, const int32_t *samples,
                                size_t samples_len, int32_t *records, size_t records_len);

/* Writes the (degree + 1)^axes coefficients of a cell, doubled once for each used axis.
 * Refusals in order: 30, 1, 2, 3, 26, 4, 9, 14 (each axis), 5 (the cell's corners in order). */
lukhtari_done lukhtari_coefficients(uint32_t key, lukhtari_shape shape, const int32_t *records,
                                    size_t records_len, lukhtari_index cell, int32_t *out,
                                    size_t out_len);

/* Writes the 2^axes corner records that have these coefficients, corners with x fastest.
 * Refusals in order: 30, 1, 2, 15, 9, 13. */
lukhtari_done lukhtari_corners(uint32_t key, uint32_t axes, uint32_t degree,
                               const int32_t *coefficients, size_t coefficients_len, int32_t *out,
                               size_t out_len);

/* Writes the 16 coefficients of powers of x and y of a cell of a two-axis cubic table, each times
 * 4.
 * Refusals in order: 30, 1, 2, 3, 26, 24, 4, 9, 14 (each axis), 5 (the cell's corners in order). */
lukhtari_done lukhtari_powers(uint32_t key, lukhtari_shape shape, const int32_t *records,
                              size_t records_len, lukhtari_index cell, int32_t *out,
                              size_t out_len);

/* Dose at a table position, with its mark.
 * Refusals in order: 30, 1, 2, 3, 26, 4, on each axis 23, 22 and then 11, 5 (the cell's corners in
 * order). */
lukhtari_marked lukhtari_dose(uint32_t key, lukhtari_shape shape, const int32_t *records,
                              size_t records_len, lukhtari_position position);

/* Slope along an axis (0 for x, 1 for y, 2 for z) at a table position.
 * Refusals in order: 30, 1, 2, 3, 26, 4, 12, on each axis 23, 22 and then 11, 5 (the cell's corners
 * in order). */
lukhtari_whole lukhtari_slope(uint32_t key, lukhtari_shape shape, const int32_t *records,
                              size_t records_len, lukhtari_position position, uint32_t axis);

/* Dose at the steps u (0 to the axis's step number) within a cell, with its mark.
 * Refusals in order: 30, 1, 2, 3, 26, 4, 14 (each axis), on each axis 23 and then 11, 5 (the cell's
 * corners in order). */
lukhtari_marked lukhtari_dose_in_cell(uint32_t key, lukhtari_shape shape, const int32_t *records,
                                      size_t records_len, lukhtari_index cell, lukhtari_index u);

/* Slope along an axis at the steps u (0 to the axis's step number) within a cell.
 * Refusals in order: 30, 1, 2, 3, 26, 4, 12, 14 (each axis), on each axis 23 and then 11, 5 (the
 * cell's corners in order). */
lukhtari_whole lukhtari_slope_in_cell(uint32_t key, lukhtari_shape shape, const int32_t *records,
                                      size_t records_len, lukhtari_index cell, lukhtari_index u,
                                      uint32_t axis);

/* Curvature along an axis (0 for x, 1 for y, 2 for z) at a table position.
 * Refusals in order: 30, 1, 2, 3, 26, 4, 12, 21, on each axis 23, 22 and then 11, 5 (the cell's
 * corners in order). */
lukhtari_whole lukhtari_curvature(uint32_t key, lukhtari_shape shape, const int32_t *records,
                                  size_t records_len, lukhtari_position position, uint32_t axis);

/* Curvature along an axis at the steps u (0 to the axis's step number) within a cell.
 * Refusals in order: 30, 1, 2, 3, 26, 4, 12, 21, 14 (each axis), on each axis 23 and then 11, 5
 * (the cell's corners in order). */
lukhtari_whole lukhtari_curvature_in_cell(uint32_t key, lukhtari_shape shape,
                                          const int32_t *records, size_t records_len,
                                          lukhtari_index cell, lukhtari_index u, uint32_t axis);

/* Dose at the step nearest to a position in cells, halves up: the float times the axis's step
 * number, on an unused axis times 256. 23, 22 and 11 look at the step: -0.001 is step 0, which is
 * taken.
 * Refusals in order: 30, 1, 2, 3, 26, 4, on each axis 10, 23, 22 and then 11, 5 (the cell's corners
 * in order). */
lukhtari_real lukhtari_dose_float(uint32_t key, lukhtari_shape shape, const int32_t *records,
                                  size_t records_len, lukhtari_float_position position);

/* Slope along an axis at the step nearest to a position in cells, halves up.
 * Refusals in order: 30, 1, 2, 3, 26, 4, 12, on each axis 10, 23, 22 and then 11, 5 (the cell's
 * corners in order). */
lukhtari_real lukhtari_slope_float(uint32_t key, lukhtari_shape shape, const int32_t *records,
                                   size_t records_len, lukhtari_float_position position,
                                   uint32_t axis);

/* Reads a table file and writes its samples.
 * Refusals: 30; in byte order 6 where a number is incomplete, 1, 3, 8, 6 for the samples; where
 * bytes follow the samples 6 for the third section, 25, 7; then 9, 5. */
lukhtari_table lukhtari_read(uint32_t key, const uint8_t *bytes, size_t bytes_len, int32_t *samples,
                             size_t samples_len);

/* Writes the table file of a number of axes, node counts, an edition and samples:
 * 4 * (2 + axes + samples) bytes, 8 more in edition two. The step numbers are tested and left out.
 * Refusals in order: 30, 1, 3, 26, 4, 9, 5. */
lukhtari_written lukhtari_write(uint32_t key, uint32_t axes, lukhtari_index counts,
                                lukhtari_index steps, bool second_edition, const int32_t *samples,
                                size_t samples_len, uint8_t *bytes, size_t bytes_len);

/* Reads the text of a table of this shape and writes its samples.
 * Refusals in order: 30, 1, 2, 3, 26, 4 (the number of tokens), 9, then token by token 16, 17, 18,
 * 5. */
lukhtari_done lukhtari_import(uint32_t key, lukhtari_shape shape, const uint8_t *text,
                              size_t text_len, int32_t *samples, size_t samples_len);

/* Pools two lattices by weight and writes the pooled samples.
 * Refusals in order: 30, 1, 2, 3, 26, each of the first lattice and then of the second; 27, 28; 4
 * of the first and then of the second, 9; 5 of the first and then of the second. The place does not
 * say which lattice. */
lukhtari_done lukhtari_pool(uint32_t key, lukhtari_shape shape_a, const int32_t *samples_a,
                            size_t samples_a_len, uint32_t weight_a, lukhtari_shape shape_b,
                            const int32_t *samples_b, size_t samples_b_len, uint32_t weight_b,
                            int32_t *out, size_t out_len);

/* Writes the doses at a list of table positions, three numbers each, one answer for each position.
 * Refusals in order, also for an empty list: 30, 1, 2, 3, 26, 20, 4, 9; then position by position
 * what lukhtari_dose refuses it for, 23, 22, 11 or 5, with the index of the position in the list as
 * place. */
lukhtari_ramped lukhtari_ramp(uint32_t key, lukhtari_shape shape, const int32_t *records,
                              size_t records_len, const int32_t *positions, size_t positions_len,
                              int32_t *answers, size_t answers_len);

/* The integral of the dose over a cell: the numerator over LUKHTARI_TOTAL_DIVISOR(axes, degree).
 * Refusals in order: 30, 1, 2, 3, 26, 4, 14 (each axis), 5 (the cell's corners in order). */
lukhtari_total lukhtari_cell_total(uint32_t key, lukhtari_shape shape, const int32_t *records,
                                   size_t records_len, lukhtari_index cell);

/* The sum of the totals of the cells from index first to index last on each axis.
 * Refusals in order: 30, 1, 2, 3, 26, 4, 29 (each axis), 5 (the records of all nodes of these
 * cells, by index). */
lukhtari_total lukhtari_box_total(uint32_t key, lukhtari_shape shape, const int32_t *records,
                                  size_t records_len, lukhtari_index first, lukhtari_index last);

#ifdef __cplusplus
}
#endif

#endif
