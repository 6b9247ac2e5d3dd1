/* The dose at a table position by hand: the whole call but for the mark, with a copy of the code for each degree, number
 * of axes and edition, and the table folded into the weights. */
#include "lukhtari.h"

#define INLINE static inline __attribute__((always_inline))

#define L(q) (32768 << (q))

/* The limits of the entries of a record, by their total order. */
static const int32_t cubic_limits[8] = {L(0), L(1), L(1), L(2), L(1), L(2), L(2), L(3)};
static const int32_t quintic_limits[27] = {L(0), L(1), L(2), L(1), L(2), L(3), L(2), L(3), L(4),
                                           L(1), L(2), L(3), L(2), L(3), L(4), L(3), L(4), L(5),
                                           L(2), L(3), L(4), L(3), L(4), L(5), L(4), L(5), L(6)};

INLINE lukhtari_whole refused(uint32_t number, uint64_t place) {
    lukhtari_whole answer = {number, place, 0};
    return answer;
}

/* What a stage takes of the numbers of an end at distance b, the other end being at distance a. */
INLINE void end_basis(unsigned m, int64_t a, int64_t b, int64_t high, int64_t *out) {
    int64_t c = a * a;
    if (m == 2) {
        out[0] = 2 * c * a + 6 * c * b;
        out[1] = high * c * b;
    } else {
        out[0] = 2 * c * c * a + 10 * c * c * b + 20 * c * a * b * b;
        out[1] = high * (c * c * b + 4 * c * a * b * b);
        out[2] = c * a * b * b;
    }
}

/* x / 2^k to the nearest: halves up, or to the even number. */
INLINE int64_t rounded(int64_t x, unsigned k, bool even) {
    int64_t half = (int64_t)1 << (k - 1);
    return even ? (x + half - 1 + (x >> k & 1)) >> k : (x + half) >> k;
}

/* The sum of 2m numbers, which stand `near` apart at each of two ends `far` apart, by their basis. */
INLINE int64_t stage(unsigned m, const int64_t *basis, const int32_t *at, size_t near, size_t far) {
    int64_t sum = 0;
#pragma GCC unroll 6
    for (unsigned t = 0; t < 2 * m; t++) {
        sum += basis[t] * at[t / m * far + t % m * near];
    }
    return sum;
}

INLINE lukhtari_whole dose(unsigned m, unsigned n, bool even, lukhtari_shape s, const int32_t *records, size_t length,
                           lukhtari_position p) {
    size_t entries = n == 1 ? m : n == 2 ? m * m : m * m * m;
    size_t far[3], near[3], base = 0, stride = entries;
    const int32_t *limits = m == 2 ? cubic_limits : quintic_limits;
    int64_t basis[3][6];
    for (unsigned a = 0; a < 3; a++) {
        if (a < n ? s.counts[a] < 2 || s.counts[a] > 64 : s.counts[a] != 1) {
            return refused(3, a);
        }
    }
    for (unsigned a = 0; a < 3; a++) {
        uint32_t steps = s.steps[a];
        if (a < n ? steps < 16 || steps > 256 || (steps & (steps - 1)) != 0 : steps != 1) {
            return refused(26, a);
        }
    }
    if (length != (size_t)s.counts[0] * s.counts[1] * s.counts[2] * entries) {
        return refused(4, 0);
    }
    for (unsigned a = 0; a < 3; a++) {
        if (p.at[a] < 0 || p.at[a] > (int32_t)(s.steps[a] * (s.counts[a] - 1))) {
            return refused(a >= n ? 23 : p.at[a] < 0 ? 22 : 11, a);
        }
    }
    for (unsigned a = 0; a < n; a++) {
        unsigned bits = (unsigned)__builtin_ctz(s.steps[a]);
        uint32_t last = s.counts[a] - 2, c = (uint32_t)p.at[a] >> bits, cell = c < last ? c : last;
        int64_t u = (int64_t)((uint32_t)p.at[a] - (cell << bits)) << (8 - bits);
        end_basis(m, 256 - u, u, 1, basis[a]);
        end_basis(m, u, 256 - u, -1, basis[a] + m);
        far[a] = stride;
        near[a] = a == 0 ? 1 : a == 1 ? m : m * m;
        base += stride * cell;
        stride *= s.counts[a];
    }
    for (unsigned corner = 0; corner < 1u << n; corner++) {
        size_t at = base;
        for (unsigned a = 0; a < n; a++) {
            at += (corner >> a & 1) * far[a];
        }
        int beyond = 0;
        for (unsigned e = 0; e < entries; e++) {
            beyond |= records[at + e] < -limits[e] || records[at + e] > limits[e];
        }
        for (unsigned e = 0; beyond; e++) {
            if (records[at + e] < -limits[e] || records[at + e] > limits[e]) {
                return refused(5, at + e);
            }
        }
    }
    const unsigned k = 8 * (2 * m - 1) + 1;
    lukhtari_whole answer = {0, 0, 0};
    int64_t sum = 0;
    if (n == 1) {
        answer.value = (int32_t)rounded(stage(m, basis[0], records + base, near[0], far[0]), k, even);
        return answer;
    }
    for (unsigned t = 0; t < 2 * m; t++) {
        size_t last = base + t / m * far[n - 1] + t % m * near[n - 1];
        if (n == 2) {
            sum += basis[1][t] * rounded(stage(m, basis[0], records + last, near[0], far[0]), k - 3, even);
            continue;
        }
        int64_t inner = 0;
        for (unsigned v = 0; v < 2 * m; v++) {
            size_t at = last + v / m * far[1] + v % m * near[1];
            inner += basis[1][v] * rounded(stage(m, basis[0], records + at, near[0], far[0]), k - 3, even);
        }
        sum += basis[2][t] * rounded(inner, k, even);
    }
    answer.value = (int32_t)rounded(sum, k + 3, even);
    return answer;
}

INLINE lukhtari_whole by_edition(unsigned m, unsigned n, lukhtari_shape s, const int32_t *records, size_t length,
                                 lukhtari_position p) {
    return s.second_edition ? dose(m, n, true, s, records, length, p) : dose(m, n, false, s, records, length, p);
}

lukhtari_whole dose_by_hand(lukhtari_shape s, const int32_t *records, size_t length, lukhtari_position p) {
    if (s.axes < 1 || s.axes > 3) {
        return refused(1, 0);
    }
    if (s.degree == 3) {
        return s.axes == 1   ? by_edition(2, 1, s, records, length, p)
               : s.axes == 2 ? by_edition(2, 2, s, records, length, p)
                             : by_edition(2, 3, s, records, length, p);
    }
    if (s.degree == 5) {
        return s.axes == 1   ? by_edition(3, 1, s, records, length, p)
               : s.axes == 2 ? by_edition(3, 2, s, records, length, p)
                             : by_edition(3, 3, s, records, length, p);
    }
    return refused(2, 0);
}
