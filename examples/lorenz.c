/*
 * The spectrum of the Lorenz system: a run, the numbers that are read off it, and some refusals.
 * Exit status 0, or 1 where something is not as it is known to be.
 */
#include "lyapunov.h"

#include <inttypes.h>
#include <stdio.h>
#include <stdlib.h>

enum { K = 3, WINDOWS = 10000 };

static const double START[3] = {1.0, 1.0, 1.0};

struct memory {
    double *rows;
    double exponents[K];
    double final_state[3];
};

static int failures = 0;

static void check(int holds, const char *what)
{
    if (!holds) {
        fprintf(stderr, "not so: %s\n", what);
        failures += 1;
    }
}

static int within(double x, double low, double high)
{
    return low <= x && x <= high;
}

/* Windows of 10 steps of 0.01. */
static struct lyapunov_built settings(uint64_t windows)
{
    const struct lyapunov_required_settings required = {
        .top_k = K, .step_size = 0.01, .steps_per_window = 10, .windows = windows};
    struct lyapunov_built built = lyapunov_build_settings(&required);

    built.settings = lyapunov_with_transient_windows(built.settings, 100);
    return built;
}

static struct lyapunov_outputs lent(struct memory *memory, size_t rows_length)
{
    struct lyapunov_outputs outputs = lyapunov_no_outputs();

    outputs.rows = lyapunov_lent(memory->rows, rows_length);
    outputs.exponents = lyapunov_lent(memory->exponents, K);
    outputs.final_state = lyapunov_lent(memory->final_state, 3);
    return outputs;
}

/* A Lorenz run with the first rows_length floats of the rows. */
static struct lyapunov_estimate lorenz(
    struct memory *memory, const double *state, uint64_t windows, size_t rows_length)
{
    const struct lyapunov_system system = lyapunov_lorenz(10.0, 28.0, 8.0 / 3.0);
    const struct lyapunov_built built = settings(windows);
    const struct lyapunov_outputs outputs = lent(memory, rows_length);

    return lyapunov_spectrum(&system, lyapunov_lent_const(state, 3), &built.settings, &outputs);
}

static void spectrum(struct memory *memory)
{
    double dimension = 0.0, entropy = 0.0, sum = 0.0;
    uint64_t place, refused;
    const struct lyapunov_built built = settings(WINDOWS);
    const size_t length = lyapunov_rows_length(&built.settings);
    const struct lyapunov_outputs outputs = lent(memory, length);
    const struct lyapunov_estimate estimate = lorenz(memory, START, WINDOWS, length);
    const struct lyapunov_row last = lyapunov_row_at(&built.settings, &outputs, WINDOWS - 1);

    check(built.refusal.number == 0, "the settings are not refused");
    check(estimate.refusal.number == 0, lyapunov_refusal_text(estimate.refusal.number));
    check(estimate.finished_windows == WINDOWS, "all windows are finished");
    check(estimate.steps == 10 * (WINDOWS + 100), "so many steps were made");
    for (int i = 0; i < K; i++) {
        uint64_t faint = estimate.faint_counts[i];
        printf("rate %d: %10.5f    faint windows: %" PRIu64 "\n", i, memory->exponents[i], faint);
        check(faint == 0, "no window is faint");
        check(last.running_exponents[i] == memory->exponents[i],
              "the last running rates are the rates");
        sum += memory->exponents[i];
    }
    check(last.end_time == estimate.final_time, "the last row ends at the final time");
    check(within(memory->exponents[0], 0.8, 1.0), "the first rate is near 0.906");
    check(within(memory->exponents[1], -0.02, 0.02), "the second rate is near 0");
    check(within(sum, -41.0 / 3.0 - 0.01, -41.0 / 3.0 + 0.01),
          "the rates add up to the rate at which volumes shrink, -(sigma + 1 + beta)");

    refused = lyapunov_kaplan_yorke_dimension(memory->exponents, K, &dimension, &place);
    check(refused == 0 && within(dimension, 2.05, 2.07), "the dimension is near 2.06");
    refused = lyapunov_kolmogorov_sinai_entropy(memory->exponents, K, &entropy, &place);
    check(refused == 0 && within(entropy, 0.8, 1.0), "the entropy is near 0.906");
    printf("dimension: %.5f\nentropy: %.5f\n", dimension, entropy);
    printf("measured time: %g\n", estimate.measured_time);
}

static int is(struct lyapunov_refusal refusal, uint64_t number, uint64_t place)
{
    return refusal.number == number && refusal.place == place;
}

static void refusals(struct memory *memory)
{
    const double not_finite[3] = {1.0, 1.0, memory->exponents[0] / 0.0};
    const size_t length = LYAPUNOV_ROWS_LENGTH(K, WINDOWS);
    const uint64_t too_many = LYAPUNOV_MAX_COUNT + UINT64_C(1);
    struct lyapunov_estimate refused;
    uint64_t place;
    double out = 77.0;

    memory->rows[0] = 77.0;
    check(is(settings(0).refusal, 4, 0), "settings with no windows are refused by 4");
    check(is(lorenz(memory, START, 0, length).refusal, 4, 0), "and so is a run with them");
    check(is(lorenz(memory, START, too_many, length).refusal, 5, 1), "too many windows: 5 at 1");
    check(is(lorenz(memory, not_finite, WINDOWS, length).refusal, 11, 2),
          "an infinite start is refused by 11 at 2");
    refused = lorenz(memory, START, WINDOWS, length - 1);
    check(is(refused.refusal, 13, 0), "rows one float short are refused by 13 at 0");
    check(refused.steps == 0, "a refused run has made no steps");
    check(refused.final_time == 0.0, "a refused run has no final time");
    check(memory->rows[0] == 77.0, "a refused run has written no rows");
    check(lyapunov_kaplan_yorke_dimension(not_finite, 3, &out, &place) == 22 && place == 2
              && out == 77.0, "a rate that is not finite is refused by 22 at 2");
}

int main(void)
{
    struct memory memory;

    memory.rows = malloc(LYAPUNOV_ROWS_LENGTH(K, WINDOWS) * sizeof *memory.rows);
    if (memory.rows == NULL) {
        fprintf(stderr, "no memory for the rows\n");
        return 1;
    }
    spectrum(&memory);
    refusals(&memory);
    free(memory.rows);
    return failures == 0 ? 0 : 1;
}
