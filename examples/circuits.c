/*
 * Three circuits side by side: a Lorenz system, a van der Pol oscillator and a damped resonator get
 * turns of one window each until all are over, and each is printed as it ends. Then each is run
 * alone, which must give the same bits.
 * Exit status 0, or 1 where something is not as it is known to be.
 */
#include "lyapunov.h"

#include <inttypes.h>
#include <stdio.h>
#include <string.h>

enum { CIRCUITS = 3, MOST = 3, MOST_WINDOWS = 4000 };

/* What a run leaves. It has room for every run here. */
struct memory {
    double rows[LYAPUNOV_ROWS_LENGTH(MOST, MOST_WINDOWS)];
    double exponents[MOST];
    double final_state[MOST];
    struct lyapunov_estimate estimate;
};

/* A circuit, with memory of its own that is lent with each of its turns. */
struct circuit {
    const char *label;
    struct lyapunov_system system;
    double start[MOST];
    struct lyapunov_settings settings;
    struct memory memory;
};

static int failures = 0;

static void check(int holds, const char *what)
{
    if (!holds) {
        fprintf(stderr, "not so: %s\n", what);
        failures += 1;
    }
}

static int within(double x, double low, double high)
{
    return low <= x && x <= high;
}

/* A circuit with all its exponents asked for, in windows of 10 steps of 0.01, after 100 in which it
 * settles. It starts at 1 in every entry. */
static void make(
    struct circuit *circuit, const char *label, struct lyapunov_system system, uint64_t windows)
{
    const struct lyapunov_required_settings required = {
        .top_k = system.dimension, .step_size = 0.01, .steps_per_window = 10, .windows = windows};
    const struct lyapunov_built built = lyapunov_build_settings(&required);

    check(built.refusal.number == 0, lyapunov_refusal_text(built.refusal.number));
    circuit->label = label;
    circuit->system = system;
    circuit->settings = lyapunov_with_transient_windows(built.settings, 100);
    for (size_t i = 0; i < MOST; i++)
        circuit->start[i] = 1.0;
}

static struct lyapunov_const_slice start_of(const struct circuit *circuit)
{
    return lyapunov_lent_const(circuit->start, circuit->system.dimension);
}

static struct lyapunov_outputs lent(const struct circuit *circuit, struct memory *memory)
{
    struct lyapunov_outputs outputs = lyapunov_no_outputs();

    outputs.rows = lyapunov_lent(memory->rows, lyapunov_rows_length(&circuit->settings));
    outputs.exponents = lyapunov_lent(memory->exponents, circuit->settings.required.top_k);
    outputs.final_state = lyapunov_lent(memory->final_state, circuit->system.dimension);
    return outputs;
}

static void print(const struct circuit *circuit, uint64_t turns)
{
    printf("after %5" PRIu64 " turns  %-12s", turns, circuit->label);
    for (size_t i = 0; i < circuit->settings.required.top_k; i++)
        printf("  %9.5f", circuit->memory.exponents[i]);
    printf("\n");
}

/* Turns until nobody is next; answers how many were spent. */
static uint64_t run_all(
    struct lyapunov_dispatcher *dispatcher, struct circuit *named[LYAPUNOV_DISPATCHER_RUNS])
{
    uint64_t name, turns = 0;

    while ((name = lyapunov_dispatcher_next(dispatcher)) != LYAPUNOV_NOBODY) {
        struct circuit *circuit = named[name];
        const struct lyapunov_outputs outputs = lent(circuit, &circuit->memory);
        const struct lyapunov_turn_taken turn =
            lyapunov_dispatcher_turn(dispatcher, &circuit->system, &outputs);

        check(turn.refusal.number == 0, lyapunov_refusal_text(turn.refusal.number));
        /* After a turn that is not spent the same run would be next for ever. */
        if (turn.stage < LYAPUNOV_STAGE_UNDER_WAY)
            break;
        turns += 1;
        if (turn.stage == LYAPUNOV_STAGE_OVER) {
            circuit->memory.estimate = turn.estimate;
            print(circuit, turns);
        }
    }
    return turns;
}

/* The same run alone, with other memory: rows, rates, final state, counts and times. */
static void same_as_alone(const struct circuit *circuit)
{
    static struct memory alone;
    struct lyapunov_outputs outputs;

    memset(&alone, 0, sizeof alone);
    outputs = lent(circuit, &alone);
    alone.estimate = lyapunov_spectrum_at(
        &circuit->system, 0.0, start_of(circuit), &circuit->settings, &outputs);
    check(alone.estimate.refusal.number == 0, "the run alone is not refused");
    check(memcmp(&alone, &circuit->memory, sizeof alone) == 0,
          "a circuit among others has the bits that it has alone");
}

int main(void)
{
    static const double damped[4] = {0.0, 1.0, -4.0, -0.5};
    static struct circuit circuits[CIRCUITS];
    static struct lyapunov_dispatcher dispatcher;
    struct circuit *named[LYAPUNOV_DISPATCHER_RUNS] = {NULL};
    uint64_t turns = 0;

    make(&circuits[0], "Lorenz", lyapunov_lorenz(10.0, 28.0, 8.0 / 3.0), 4000);
    make(&circuits[1], "van der Pol", lyapunov_van_der_pol(1.0), 2000);
    make(&circuits[2], "resonator", lyapunov_linear(2, lyapunov_lent_const(damped, 4)), 500);
    lyapunov_dispatcher_empty(&dispatcher);
    for (int c = 0; c < CIRCUITS; c++) {
        const struct lyapunov_admission admission = lyapunov_dispatcher_hand_in(
            &dispatcher, &circuits[c].system, 0.0, start_of(&circuits[c]), &circuits[c].settings);
        check(admission.refusal.number == 0, lyapunov_refusal_text(admission.refusal.number));
        if (admission.refusal.number == 0)
            named[admission.name] = &circuits[c];
        turns += 100 + circuits[c].settings.required.windows;
    }
    check(run_all(&dispatcher, named) == turns, "a turn is spent for each window");
    for (int c = 0; c < CIRCUITS; c++)
        same_as_alone(&circuits[c]);
    check(within(circuits[0].memory.exponents[0], 0.8, 1.0), "Lorenz: the first is near 0.906");
    check(within(circuits[1].memory.exponents[0], -0.02, 0.02), "van der Pol: it is near 0");
    check(within(circuits[2].memory.exponents[0] + circuits[2].memory.exponents[1], -0.501, -0.499),
          "resonator: the rates add up to the trace, -0.5");
    return failures == 0 ? 0 : 1;
}
