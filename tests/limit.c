/* The limit to measure against: Lorenz with K = 3 in plain C, its dimension fixed, timed beside the
 * library in one process. Both must give the same bits. Usage: limit [WINDOWS] */
#include <inttypes.h>
#include <math.h>
#include <stdint.h>
#include <stdio.h>
#include <stdlib.h>
#include <string.h>
#include <time.h>

#include "lyapunov.h"

enum { D = 3, TURNS = 41 };
static const double SIGMA = 10, RHO = 28, BETA = 8.0 / 3, H = 0.01;

static double float_of(uint64_t bits) {
    double x;
    memcpy(&x, &bits, sizeof x);
    return x;
}

/* Document 01's logarithm of a positive normal value. */
static double logarithm(double z) {
    uint64_t bits;
    memcpy(&bits, &z, sizeof bits);
    uint64_t moved = bits + UINT64_C(0x00095f6200000000);
    double k = (double)((int)(moved >> 52) - 1023);
    double m = float_of((moved & UINT64_C(0x000fffffffffffff)) + UINT64_C(0x3fe6a09e00000000));
    double f = m - 1, q = 0.5 * f * f, s = f / (2 + f), z2 = s * s, w = z2 * z2;
    double l1 = float_of(UINT64_C(0x3fe5555555555593)), l2 = float_of(UINT64_C(0x3fd999999997fa04));
    double l3 = float_of(UINT64_C(0x3fd2492494229359)), l4 = float_of(UINT64_C(0x3fcc71c51d8e78af));
    double l5 = float_of(UINT64_C(0x3fc7466496cb03de)), l6 = float_of(UINT64_C(0x3fc39a09d078c69f));
    double l7 = float_of(UINT64_C(0x3fc2f112df3e5244));
    double t1 = w * (l2 + w * (l4 + w * l6)), t2 = z2 * (l1 + w * (l3 + w * (l5 + w * l7)));
    double high = float_of(UINT64_C(0x3fe62e42fee00000)), low = float_of(UINT64_C(0x3dea39ef35793c76));
    return (((s * (q + (t2 + t1)) + k * low) - q) + f) + k * high;
}

static double draw(uint64_t *state) {
    uint64_t v = *state += UINT64_C(0x9e3779b97f4a7c15);
    v = (v ^ (v >> 30)) * UINT64_C(0xbf58476d1ce4e5b9);
    v = (v ^ (v >> 27)) * UINT64_C(0x94d049bb133111eb);
    v ^= v >> 31;
    return ((double)(v >> 11) - 0x1p52) / 0x1p52;
}

static void field(const double p[D], double k[D]) {
    k[0] = SIGMA * (p[1] - p[0]);
    k[1] = p[0] * (RHO - p[2]) - p[1];
    k[2] = p[0] * p[1] - BETA * p[2];
}

static void tangent(const double p[D], const double t[D], double k[D]) {
    k[0] = SIGMA * (t[1] - t[0]);
    k[1] = ((RHO - p[2]) * t[0] - t[1]) - p[0] * t[2];
    k[2] = (p[1] * t[0] + p[0] * t[1]) - BETA * t[2];
}

static void point(const double base[D], const double k[D], double scale, double out[D]) {
    for (int i = 0; i < D; i++) out[i] = base[i] + scale * k[i];
}

static void update(double v[D], double k[4][D]) {
    for (int i = 0; i < D; i++)
        v[i] = v[i] + (H / 6) * (((k[0][i] + 2 * k[1][i]) + 2 * k[2][i]) + k[3][i]);
}

static void step(double x[D], double t[D][D]) {
    static const double scale[3] = {0.5, 0.5, 1};
    double p[4][D], k[4][D], q[D];
    memcpy(p[0], x, sizeof p[0]);
    for (int s = 0; s < 4; s++) {
        if (s > 0) point(x, k[s - 1], scale[s - 1] * H, p[s]);
        field(p[s], k[s]);
    }
    update(x, k);
    for (int v = 0; v < D; v++) {
        memcpy(q, t[v], sizeof q);
        for (int s = 0; s < 4; s++) {
            if (s > 0) point(t[v], k[s - 1], scale[s - 1] * H, q);
            tangent(p[s], q, k[s]);
        }
        update(t[v], k);
    }
}

static double dot(const double a[D], const double b[D]) {
    double s = -0.0;
    for (int i = 0; i < D; i++) s += a[i] * b[i];
    return s;
}

static void orthonormalise(double t[D][D], double logs[D]) {
    for (int v = 0; v < D; v++) {
        for (int pass = 0; pass < 2; pass++)
            for (int u = 0; u < v; u++) {
                double c = dot(t[v], t[u]);
                for (int i = 0; i < D; i++) t[v][i] -= c * t[u][i];
            }
        double norm = sqrt(dot(t[v], t[v]));
        logs[v] = logarithm(norm);
        for (int i = 0; i < D; i++) t[v][i] /= norm;
    }
}

/* The exponents, of a start that no test refuses. */
static void plain(uint64_t windows, uint64_t steps, double exponents[D]) {
    double x[D] = {1, 1, 1}, t[D][D], logs[D], sums[D] = {0, 0, 0};
    uint64_t seed = LYAPUNOV_DEFAULT_SEED;
    for (int v = 0; v < D; v++)
        for (int i = 0; i < D; i++) t[v][i] = draw(&seed);
    orthonormalise(t, logs);
    for (uint64_t w = 0; w < windows; w++) {
        for (uint64_t s = 0; s < steps; s++) step(x, t);
        orthonormalise(t, logs);
        for (int v = 0; v < D; v++) sums[v] += logs[v];
    }
    for (int v = 0; v < D; v++) exponents[v] = sums[v] / ((H * (double)steps) * (double)windows);
}

static void library(uint64_t windows, uint64_t steps, double exponents[D], double *rows) {
    double x[D] = {1, 1, 1}, final[D], times[2];
    uint64_t counts[19];
    lyapunov_estimate_spectrum_at(0, SIGMA, RHO, BETA, 0, NULL, 0, 0, x, D, D, H, steps, windows, 0,
                                  LYAPUNOV_DEFAULT_SEED, rows, windows * (1 + 2 * D), exponents, D,
                                  final, D, counts, times);
}

static double seconds(void) {
    struct timespec t;
    clock_gettime(CLOCK_MONOTONIC, &t);
    return (double)t.tv_sec + 1e-9 * (double)t.tv_nsec;
}

static int compare(uint64_t windows, uint64_t steps, double *rows) {
    double mine[D], plains[D], least[2] = {1e9, 1e9};
    for (int turn = 0; turn < TURNS; turn++) {
        double a = seconds();
        library(windows, steps, mine, rows);
        double b = seconds();
        plain(windows, steps, plains);
        double c = seconds();
        if (b - a < least[0]) least[0] = b - a;
        if (c - b < least[1]) least[1] = c - b;
    }
    if (memcmp(mine, plains, sizeof mine) != 0) {
        printf("the exponents differ\n");
        return 1;
    }
    double made = (double)(windows * steps);
    printf("Lorenz K=3, %" PRIu64 " steps a window: library %.1f ns a step, plain C %.1f, ratio %.2f\n",
           steps, 1e9 * least[0] / made, 1e9 * least[1] / made, least[0] / least[1]);
    return 0;
}

int main(int count, char **words) {
    uint64_t windows = count > 1 ? strtoull(words[1], NULL, 10) : 2000;
    double *rows = malloc(windows * (1 + 2 * D) * sizeof *rows);
    if (rows == NULL || windows == 0) return 2;
    int off = compare(windows, 10, rows) | compare(windows, 1, rows);
    free(rows);
    return off;
}
