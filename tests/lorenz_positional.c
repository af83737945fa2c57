/*
 * The spectrum of the Lorenz system: a run, the numbers that are read off it, and some refusals.
 * Exit status 0, or 1 where something is not as it is known to be.
 */
#include "lyapunov.h"

#include <inttypes.h>
#include <stdio.h>
#include <stdlib.h>

enum { K = 3, WINDOWS = 10000 };

static const double SIGMA = 10.0, RHO = 28.0, BETA = 8.0 / 3.0;
static const double START[3] = {1.0, 1.0, 1.0};

/* Lent where a system has no matrix: a pointer must not be NULL. */
static const double NO_MATRIX[1] = {0.0};

struct run {
    double *rows;
    double exponents[K];
    double final_state[3];
    uint64_t counts[LYAPUNOV_COUNTS];
    double times[LYAPUNOV_TIMES];
};

static int failures = 0;

static void check(int holds, const char *what)
{
    if (!holds) {
        fprintf(stderr, "not so: %s\n", what);
        failures += 1;
    }
}

static int within(double x, double low, double high)
{
    return low <= x && x <= high;
}

/* A Lorenz run of 10 steps of 0.01 a window, with the first rows_len floats of the rows. */
static uint64_t lorenz(struct run *run, const double *state, uint64_t windows, size_t rows_len)
{
    return lyapunov_estimate_spectrum_at(
        LYAPUNOV_LORENZ, SIGMA, RHO, BETA, 0, NO_MATRIX, 0,
        0.0, state, 3,
        K, 0.01, 10, windows, 100, LYAPUNOV_DEFAULT_SEED,
        run->rows, rows_len, run->exponents, K, run->final_state, 3,
        run->counts, run->times);
}

static void spectrum(struct run *run)
{
    double dimension = 0.0, entropy = 0.0, sum = 0.0;
    uint64_t place;
    uint64_t refused = lorenz(run, START, WINDOWS, LYAPUNOV_ROWS_LENGTH(K, WINDOWS));
    const double *last = run->rows + LYAPUNOV_ROWS_LENGTH(K, WINDOWS - 1);

    check(refused == 0, "the run is not refused");
    check(run->counts[LYAPUNOV_FINISHED] == WINDOWS, "all windows are finished");
    check(run->counts[LYAPUNOV_STEPS] == 10 * (WINDOWS + 100), "so many steps were made");
    for (int i = 0; i < K; i++) {
        uint64_t faint = run->counts[LYAPUNOV_FAINT + i];
        printf("rate %d: %10.5f    faint windows: %" PRIu64 "\n", i, run->exponents[i], faint);
        check(faint == 0, "no window is faint");
        check(last[1 + K + i] == run->exponents[i], "the last running rates are the rates");
        sum += run->exponents[i];
    }
    check(last[0] == run->times[LYAPUNOV_FINAL_TIME], "the last row ends at the final time");
    check(within(run->exponents[0], 0.8, 1.0), "the first rate is near 0.906");
    check(within(run->exponents[1], -0.02, 0.02), "the second rate is near 0");
    check(within(sum, -(SIGMA + 1.0 + BETA) - 0.01, -(SIGMA + 1.0 + BETA) + 0.01),
          "the rates add up to the rate at which volumes shrink");

    refused = lyapunov_kaplan_yorke_dimension(run->exponents, K, &dimension, &place);
    check(refused == 0 && within(dimension, 2.05, 2.07), "the dimension is near 2.06");
    refused = lyapunov_kolmogorov_sinai_entropy(run->exponents, K, &entropy, &place);
    check(refused == 0 && within(entropy, 0.8, 1.0), "the entropy is near 0.906");
    printf("dimension: %.5f\nentropy: %.5f\n", dimension, entropy);
    printf("measured time: %g\n", run->times[LYAPUNOV_MEASURED_TIME]);
}

static void refusals(struct run *run)
{
    const double not_finite[3] = {1.0, 1.0, run->exponents[0] / 0.0};
    size_t rows_len = LYAPUNOV_ROWS_LENGTH(K, WINDOWS);
    uint64_t place = 77;
    double out = 77.0;

    run->rows[0] = 77.0;
    check(lorenz(run, START, 0, rows_len) == 4, "no windows are refused by 4");
    check(lorenz(run, START, LYAPUNOV_MAX_COUNT + UINT64_C(1), rows_len) == 5
              && run->counts[LYAPUNOV_PLACE] == 1, "too many windows are refused by 5 at 1");
    check(lorenz(run, not_finite, WINDOWS, rows_len) == 11
              && run->counts[LYAPUNOV_PLACE] == 2, "an infinite start is refused by 11 at 2");
    check(lorenz(run, START, WINDOWS, rows_len - 1) == 13
              && run->counts[LYAPUNOV_PLACE] == 0, "rows one float short are refused by 13 at 0");
    check(run->counts[LYAPUNOV_STEPS] == 0, "a refused run has made no steps");
    check(run->times[LYAPUNOV_FINAL_TIME] == 0.0, "a refused run has no final time");
    check(run->rows[0] == 77.0, "a refused run has written no rows");

    check(lyapunov_build_config(0, 0.01, 10, 1, &place) == 1 && place == 0, "no rates: 1");
    check(lyapunov_build_config(3, -0.0, 10, 1, &place) == 2 && place == 0, "no step size: 2");
    check(lyapunov_kaplan_yorke_dimension(not_finite, 3, &out, &place) == 22 && place == 2,
          "a rate that is not finite is refused by 22 at 2");
    check(lyapunov_ln(0.0, &out) == 24 && out == 77.0, "zero has no logarithm: 24");
}

/* The functions that a run is made of. */
static void parts(void)
{
    const double matrix[1] = {1.0};
    double state[1] = {1.0}, tangents[4] = {2.0, 0.0, 2.0, 3.0}, numbers[4], out = 0.0;
    uint64_t place = 77;

    check(lyapunov_step(LYAPUNOV_LINEAR, 0.0, 0.0, 0.0, 1, matrix, 1, 0.0, state, 1, tangents, 0, 0,
                        6.0, &place) == 0 && place == 0 && state[0] == 115.0,
          "x' = x steps by 6 from 1 to 115");
    check(lyapunov_step(7, 0.0, 0.0, 0.0, 1, matrix, 1, 0.0, state, 1, tangents, 0, 0, 6.0, &place)
              == 7, "a kind that does not exist is refused by 7");
    check(lyapunov_modified_gram_schmidt(tangents, 4, 2, numbers, 4, &place) == 0
              && tangents[0] == 1.0 && tangents[1] == 0.0 && tangents[2] == 0.0
              && tangents[3] == 1.0 && numbers[2] == 4.0 && numbers[3] == 9.0,
          "(2,0), (2,3) become (1,0), (0,1)");
    check(lyapunov_sqrt(4.0) == 2.0, "the root of 4 is 2");
    check(lyapunov_ln(1.0, &out) == 0 && out == 0.0, "the logarithm of 1 is 0");
    check(lyapunov_splitmix64_value(lyapunov_splitmix64_next(1234567))
              == UINT64_C(6457827717110365317), "the published first output of seed 1234567");
    check(lyapunov_splitmix64_symmetric_unit(0) == -1.0, "the lowest draw is -1");
}

int main(void)
{
    struct run run;

    run.rows = malloc(LYAPUNOV_ROWS_LENGTH(K, WINDOWS) * sizeof *run.rows);
    if (run.rows == NULL) {
        fprintf(stderr, "no memory for the rows\n");
        return 1;
    }
    spectrum(&run);
    refusals(&run);
    parts();
    free(run.rows);
    return failures == 0 ? 0 : 1;
}
