/*
 * Three continuations of one settled orbit: a Lorenz run is kept after 2000 windows, and its rates
 * after three counts of windows more are printed side by side.
 * Exit status 0, or 1 where something is not as it is known to be.
 */
#include "lyapunov.h"

#include <stdio.h>
#include <stdlib.h>
#include <string.h>

enum { K = 3, KEPT = 2000, CONTINUATIONS = 3, MOST = 20000, NUMBER = 7 };

static const uint64_t MORE[CONTINUATIONS] = {500, 3000, 20000};
static const double START[3] = {1.0, 1.0, 1.0};

/* What a call leaves. The rows have room for every call here. */
struct memory {
    double *rows;
    double exponents[K];
    double final_state[3];
};

static int failures = 0;

static void check(int holds, const char *what)
{
    if (!holds) {
        fprintf(stderr, "not so: %s\n", what);
        failures += 1;
    }
}

/* Windows of 10 steps of 0.01, after 100 in which the orbit settles. */
static struct lyapunov_settings settings(uint64_t windows)
{
    const struct lyapunov_required_settings required = {
        .top_k = K, .step_size = 0.01, .steps_per_window = 10, .windows = windows};
    const struct lyapunov_built built = lyapunov_build_settings(&required);

    check(built.refusal.number == 0, lyapunov_refusal_text(built.refusal.number));
    return lyapunov_with_transient_windows(built.settings, 100);
}

static struct lyapunov_outputs lent(struct memory *memory)
{
    struct lyapunov_outputs outputs = lyapunov_no_outputs();

    outputs.rows = lyapunov_lent(memory->rows, LYAPUNOV_ROWS_LENGTH(K, MOST));
    outputs.exponents = lyapunov_lent(memory->exponents, K);
    outputs.final_state = lyapunov_lent(memory->final_state, 3);
    return outputs;
}

/* The run of so many windows, kept. */
static struct lyapunov_estimate keep(
    struct lyapunov_store *store, struct memory *memory, uint64_t windows)
{
    const struct lyapunov_system system = lyapunov_lorenz(10.0, 28.0, 8.0 / 3.0);
    const struct lyapunov_settings all = settings(windows);
    const struct lyapunov_outputs outputs = lent(memory);

    return lyapunov_store_keep(
        store, NUMBER, &system, 0.0, lyapunov_lent_const(START, 3), &all, &outputs);
}

/* So many windows more. All else is what the keeping was handed. */
static struct lyapunov_estimate go_on(
    const struct lyapunov_store *store, struct memory *memory, uint64_t more)
{
    const struct lyapunov_system system = lyapunov_lorenz(10.0, 28.0, 8.0 / 3.0);
    const struct lyapunov_settings later = lyapunov_with_windows(settings(KEPT), more);
    const struct lyapunov_outputs outputs = lent(memory);

    return lyapunov_store_go_on(
        store, NUMBER, &system, 0.0, lyapunov_lent_const(START, 3), &later, &outputs);
}

static void continuation(
    const struct lyapunov_store *store, struct memory *memory, uint64_t more, double rates[K])
{
    const struct lyapunov_estimate estimate = go_on(store, memory, more);
    const struct lyapunov_settings later = lyapunov_with_windows(settings(KEPT), more);
    const struct lyapunov_outputs outputs = lent(memory);
    const struct lyapunov_row last = lyapunov_row_at(&later, &outputs, (size_t)more - 1);

    check(estimate.refusal.number == 0, lyapunov_refusal_text(estimate.refusal.number));
    check(estimate.finished_windows == KEPT + more, "the kept windows are among the finished");
    check(estimate.steps == 10 * (100 + KEPT + more), "and among the steps");
    check(last.end_time == estimate.final_time, "the last row ends at the final time");
    check(memcmp(last.running_exponents, memory->exponents, sizeof memory->exponents) == 0,
          "its running rates are those of all windows");
    memcpy(rates, memory->exponents, sizeof memory->exponents);
}

static void print(const double kept[K], double rates[CONTINUATIONS][K])
{
    printf("windows %12d", KEPT);
    for (int c = 0; c < CONTINUATIONS; c++)
        printf("  %+12d", (int)MORE[c]);
    for (int i = 0; i < K; i++) {
        printf("\nrate %d  %12.5f", i, kept[i]);
        for (int c = 0; c < CONTINUATIONS; c++)
            printf("  %12.5f", rates[c][i]);
    }
    printf("\n");
}

/* What is kept stays: it gives the first continuation again, and the run in one go ends like it. */
static void kept_as_it_was(
    struct lyapunov_store *store, const struct lyapunov_store *before, struct memory *memory,
    const double first[K])
{
    check(memcmp(store, before, sizeof *store) == 0, "going on leaves the store as it is");
    go_on(store, memory, MORE[0]);
    check(memcmp(memory->exponents, first, sizeof memory->exponents) == 0,
          "the first continuation comes again, to the bit");
    keep(store, memory, KEPT + MORE[0]);
    check(memcmp(memory->exponents, first, sizeof memory->exponents) == 0,
          "so it does from a run that is not stopped");
    check(lyapunov_store_forget(store, NUMBER).number == 0, "the number is forgotten");
    check(go_on(store, memory, MORE[0]).refusal.number == 26, "then nothing is kept under it");
}

static void continuations(struct lyapunov_store *store, struct memory *memory)
{
    struct lyapunov_store before;
    struct lyapunov_estimate estimate;
    double kept[K], rates[CONTINUATIONS][K];

    lyapunov_store_empty(store);
    estimate = keep(store, memory, KEPT);
    check(estimate.refusal.number == 0, lyapunov_refusal_text(estimate.refusal.number));
    check(estimate.finished_windows == KEPT, "a keep is a run of its own");
    memcpy(kept, memory->exponents, sizeof kept);
    before = *store;
    for (int c = 0; c < CONTINUATIONS; c++)
        continuation(store, memory, MORE[c], rates[c]);
    print(kept, rates);
    check(rates[2][0] > 0.85 && rates[2][0] < 0.95, "the first rate comes near 0.906");
    kept_as_it_was(store, &before, memory, rates[0]);
}

int main(void)
{
    static struct lyapunov_store store;
    struct memory memory;

    memory.rows = malloc(LYAPUNOV_ROWS_LENGTH(K, MOST) * sizeof *memory.rows);
    if (memory.rows == NULL) {
        fprintf(stderr, "no memory for the rows\n");
        return 1;
    }
    continuations(&store, &memory);
    free(memory.rows);
    return failures == 0 ? 0 : 1;
}
