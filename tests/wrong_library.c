/* A wrong library, for tests/planted.sh: linked by --wrap around the functions of the header, it
 * calls the right one and then spoils what the variable WRONG names. "NAME before" and
 * "NAME behind" write there, "NAME changed" writes an entry, and "NAME kept" undoes what was
 * written. */
#define lyapunov_ln __real_lyapunov_ln
#define lyapunov_modified_gram_schmidt __real_lyapunov_modified_gram_schmidt
#define lyapunov_step __real_lyapunov_step
#define lyapunov_build_config __real_lyapunov_build_config
#define lyapunov_validate __real_lyapunov_validate
#define lyapunov_estimate_spectrum_at __real_lyapunov_estimate_spectrum_at
#define lyapunov_estimate_spectrum __real_lyapunov_estimate_spectrum
#define lyapunov_estimate_largest __real_lyapunov_estimate_largest
#define lyapunov_empty_store __real_lyapunov_empty_store
#define lyapunov_keep __real_lyapunov_keep
#define lyapunov_go_on __real_lyapunov_go_on
#define lyapunov_forget __real_lyapunov_forget
#define lyapunov_empty_dispatcher __real_lyapunov_empty_dispatcher
#define lyapunov_hand_in __real_lyapunov_hand_in
#define lyapunov_next __real_lyapunov_next
#define lyapunov_turn __real_lyapunov_turn
#define lyapunov_validate_with_options __real_lyapunov_validate_with_options
#define lyapunov_estimate_spectrum_at_with_options __real_lyapunov_estimate_spectrum_at_with_options
#define lyapunov_keep_with_options __real_lyapunov_keep_with_options
#define lyapunov_go_on_with_options __real_lyapunov_go_on_with_options
#define lyapunov_hand_in_with_options __real_lyapunov_hand_in_with_options
#define lyapunov_kaplan_yorke_dimension __real_lyapunov_kaplan_yorke_dimension
#define lyapunov_kolmogorov_sinai_entropy __real_lyapunov_kolmogorov_sinai_entropy
#include "lyapunov.h"

#include <stdio.h>
#include <stdlib.h>
#include <string.h>

enum { MOST_SLICES = 12, MOST_ENTRIES = LYAPUNOV_STORE_FLOATS };

static struct {
    const char *name;
    unsigned char *at;
    size_t length;
    unsigned char before[8 * MOST_ENTRIES];
} slices[MOST_SLICES];
static size_t slice_count;

static int is_wrong(const char *name, const char *how) {
    char text[64];
    const char *wrong = getenv("WRONG");
    snprintf(text, sizeof text, "%s %s", name, how);
    return wrong != NULL && strcmp(wrong, text) == 0;
}

static void undo(size_t i) {
    memcpy(slices[i].at, slices[i].before, 8 * slices[i].length);
}

static void handed(const char *name, const void *at, size_t length) {
    if (slice_count == MOST_SLICES || length > MOST_ENTRIES) abort();
    slices[slice_count].name = name;
    slices[slice_count].at = (unsigned char *)(uintptr_t)at;
    slices[slice_count].length = length;
    memcpy(slices[slice_count].before, at, 8 * length);
    slice_count++;
}

/* Spoils what was handed over; hands the number on. */
static uint64_t spoiled(uint64_t number) {
    const uint64_t one = 1;
    for (; slice_count > 0; slice_count--) {
        size_t i = slice_count - 1, bytes = 8 * slices[i].length;
        unsigned char *at = slices[i].at;
        if (is_wrong(slices[i].name, "before")) memcpy(at - 8, &one, 8);
        if (is_wrong(slices[i].name, "behind")) memcpy(at + bytes, &one, 8);
        if (is_wrong(slices[i].name, "changed")) memcpy(at, &one, 8);
        if (is_wrong(slices[i].name, "kept")) undo(i);
    }
    return number;
}

/* A ring that is taken for another system. */
static uint64_t taken(uint64_t kind) {
    if (kind != LYAPUNOV_LORENZ96) return kind;
    if (is_wrong("ring as", "Lorenz")) return LYAPUNOV_LORENZ;
    if (is_wrong("ring as", "linear")) return LYAPUNOV_LINEAR;
    return is_wrong("ring", "unknown") ? kind + 1 : kind;
}

/* A refusal 25 that is left out, or that comes after 10. */
static uint64_t of_cells(uint64_t number, size_t dimension, size_t state_len) {
    if (number != 25) return number;
    if (is_wrong("cells", "accepted")) return 0;
    return state_len != dimension && is_wrong("state before", "cells") ? 10 : number;
}

/* A refusal 5 at the next count that is over too, or at the last, in place of the first. */
static void put_later(const char *function, uint64_t number, uint64_t *place, uint64_t steps,
                      uint64_t windows, uint64_t warm_up) {
    const uint64_t counts[] = {steps, windows, warm_up};
    int last = is_wrong(function, "at the last");
    if (number != 5 || (!last && !is_wrong(function, "at the next"))) return;
    for (uint64_t i = *place + 1; i < 3; i++) {
        if (counts[i] <= LYAPUNOV_MAX_COUNT) continue;
        *place = i;
        if (!last) return;
    }
}

/* Turns each vector around, so that a cell's neighbours change sides. */
static void turn(double *at, size_t length, size_t dimension) {
    if (dimension == 0 || !is_wrong("neighbours", "turned")) return;
    for (; length >= dimension; at += dimension, length -= dimension)
        for (size_t i = 0; i < dimension / 2; i++) {
            double x = at[i];
            at[i] = at[dimension - 1 - i];
            at[dimension - 1 - i] = x;
        }
}

/* Sums that start at the other zero: a zero has the other sign than it should have. */
static void turn_zeros(const char *sum, double *at, size_t length) {
    if (!is_wrong(sum, "from the other zero")) return;
    for (size_t i = 0; i < length; i++)
        if (at[i] == 0) at[i] = -at[i];
}

uint64_t __wrap_lyapunov_ln(double x, double *out) {
    handed("out", out, 1);
    return spoiled(lyapunov_ln(x, out));
}

uint64_t __wrap_lyapunov_modified_gram_schmidt(
    double *tangents, size_t tangents_len, size_t dimension, double *numbers, size_t numbers_len,
    uint64_t *place) {
    handed("tangents", tangents, tangents_len);
    handed("numbers", numbers, numbers_len);
    handed("place", place, 1);
    uint64_t n = lyapunov_modified_gram_schmidt(tangents, tangents_len, dimension, numbers,
                                                numbers_len, place);
    turn_zeros("dot product", tangents, tangents_len);
    return spoiled(n);
}

uint64_t __wrap_lyapunov_step(
    uint64_t kind, double p0, double p1, double p2, size_t dimension, const double *matrix,
    size_t matrix_len, double time, double *state, size_t state_len, double *tangents,
    size_t tangents_len, size_t count, double step_size, uint64_t *place) {
    handed("matrix", matrix, matrix_len);
    handed("state", state, state_len);
    handed("tangents", tangents, tangents_len);
    handed("place", place, 1);
    if (is_wrong("forcing", "second")) p0 = p1;
    turn(state, state_len, dimension);
    turn(tangents, tangents_len, dimension);
    uint64_t n = lyapunov_step(taken(kind), p0, p1, p2, dimension, matrix, matrix_len, time, state,
                               state_len, tangents, tangents_len, count, step_size, place);
    turn(state, state_len, dimension);
    turn(tangents, tangents_len, dimension);
    turn_zeros("row", state, state_len);
    return spoiled(of_cells(n, dimension, state_len));
}

uint64_t __wrap_lyapunov_build_config(
    size_t top_k, double step_size, uint64_t steps_per_window, uint64_t windows, uint64_t *place) {
    handed("place", place, 1);
    uint64_t n = lyapunov_build_config(top_k, step_size, steps_per_window, windows, place);
    if (n == 5 && top_k == 17 && is_wrong("builder's place", "by K")) *place = 1;
    if (is_wrong("builder", "accepts")) n = *place = 0;
    put_later("build_config", n, place, steps_per_window, windows, 0);
    return spoiled(n);
}

uint64_t __wrap_lyapunov_validate(
    uint64_t kind, double p0, double p1, double p2, size_t dimension, const double *matrix,
    size_t matrix_len, double time, const double *state, size_t state_len, size_t top_k,
    double step_size, uint64_t steps_per_window, uint64_t windows, uint64_t transient_windows,
    uint64_t *place) {
    handed("matrix", matrix, matrix_len);
    handed("state", state, state_len);
    handed("place", place, 1);
    uint64_t n = lyapunov_validate(kind, p0, p1, p2, dimension, matrix, matrix_len, time, state,
                                   state_len, top_k, step_size, steps_per_window, windows,
                                   transient_windows, place);
    if (is_wrong("input", "accepted")) n = *place = 0;
    if (is_wrong("outputs", "tested") && n == 0) n = 13;
    put_later("validate", n, place, steps_per_window, windows, transient_windows);
    return spoiled(n);
}

/* The parameters of a run, and the same as arguments, with so many windows. */
#define SYSTEM_PARAMETERS uint64_t kind, double p0, double p1, double p2, size_t dimension
#define MATRIX_PARAMETERS const double *matrix, size_t matrix_len
#define START_PARAMETERS \
    double time, const double *state, size_t state_len, size_t top_k, double step_size, \
        uint64_t steps_per_window, uint64_t windows, uint64_t transient_windows, uint64_t seed
#define SLICE_PARAMETERS \
    double *rows, size_t rows_len, double *exponents, size_t exponents_len, \
        double *final_state, size_t final_state_len
#define RUN_PARAMETERS \
    SYSTEM_PARAMETERS, MATRIX_PARAMETERS, START_PARAMETERS, SLICE_PARAMETERS, uint64_t *counts, \
        double *times
#define INPUTS_FOR(windows) \
    kind, p0, p1, p2, dimension, matrix, matrix_len, START_FOR(windows)
#define START_FOR(windows) \
    time, state, state_len, top_k, step_size, steps_per_window, windows, transient_windows, seed
#define SLICES rows, rows_len, exponents, exponents_len, final_state, final_state_len
#define OUTPUTS SLICES, counts, times

/* In this order, behind the two arrays of a store where there is one. */
enum { STORE_FLOATS, STORE_COUNTS, ROWS = 4 };
#define HANDED_RUN() \
    do { \
        handed("matrix", matrix, matrix_len); \
        handed("state", state, state_len); \
        HANDED_OUTPUTS(); \
    } while (0)
#define HANDED_OUTPUTS() \
    do { \
        handed("rows", rows, rows_len); \
        handed("exponents", exponents, exponents_len); \
        handed("final_state", final_state, final_state_len); \
        handed("counts", counts, LYAPUNOV_COUNTS); \
        handed("times", times, LYAPUNOV_TIMES); \
    } while (0)

uint64_t __wrap_lyapunov_estimate_spectrum_at(RUN_PARAMETERS) {
    HANDED_RUN();
    kind = taken(kind);
    uint64_t n = lyapunov_estimate_spectrum_at(INPUTS_FOR(windows), OUTPUTS);
    if (n == 5 && top_k == 17 && is_wrong("place", "by K")) counts[LYAPUNOV_PLACE] = 2;
    if (n == 5 && rows_len == 600 && is_wrong("place", "by outputs")) counts[LYAPUNOV_PLACE] = 2;
    put_later("estimate_spectrum_at", n, counts + LYAPUNOV_PLACE, steps_per_window, windows,
              transient_windows);
    return spoiled(of_cells(n, dimension, state_len));
}

uint64_t __wrap_lyapunov_estimate_spectrum(
    uint64_t kind, double p0, double p1, double p2, size_t dimension, const double *matrix,
    size_t matrix_len, const double *state, size_t state_len, size_t top_k, double step_size,
    uint64_t steps_per_window, uint64_t windows, uint64_t transient_windows, uint64_t seed,
    double *rows, size_t rows_len, double *exponents, size_t exponents_len, double *final_state,
    size_t final_state_len, uint64_t *counts, double *times) {
    double time = is_wrong("from time", "one") ? 1.0 : 0.0;
    uint64_t n = lyapunov_estimate_spectrum_at(
        kind, p0, p1, p2, dimension, matrix, matrix_len, time, state, state_len, top_k, step_size,
        steps_per_window, windows, transient_windows, seed, rows, rows_len, exponents,
        exponents_len, final_state, final_state_len, counts, times);
    put_later("estimate_spectrum", n, counts + LYAPUNOV_PLACE, steps_per_window, windows,
              transient_windows);
    return n;
}

uint64_t __wrap_lyapunov_estimate_largest(
    uint64_t kind, double p0, double p1, double p2, size_t dimension, const double *matrix,
    size_t matrix_len, const double *state, size_t state_len, double step_size,
    uint64_t steps_per_window, uint64_t windows, double *rows, size_t rows_len, double *exponents,
    size_t exponents_len, double *final_state, size_t final_state_len, uint64_t *counts,
    double *times) {
    uint64_t seed = is_wrong("another", "seed") ? 1 : LYAPUNOV_DEFAULT_SEED;
    uint64_t n = lyapunov_estimate_spectrum(
        kind, p0, p1, p2, dimension, matrix, matrix_len, state, state_len, 1, step_size,
        steps_per_window, windows, is_wrong("one", "warm-up"), seed, rows, rows_len, exponents,
        exponents_len, final_state, final_state_len, counts, times);
    put_later("estimate_largest", n, counts + LYAPUNOV_PLACE, steps_per_window, windows, 0);
    return n;
}

/* The windows after which each number is kept, 0 where it is not; and those that ever were. */
static uint64_t kept_after[256];
static int ever_kept[256];

/* Outputs of a run that nobody sees. */
static struct {
    double rows[1 << 16], exponents[16], final_state[16], times[LYAPUNOV_TIMES];
    uint64_t counts[LYAPUNOV_COUNTS], event[LYAPUNOV_EVENTS];
} unseen;
#define UNSEEN_SLICES \
    unseen.rows, sizeof unseen.rows / sizeof *unseen.rows, unseen.exponents, 16, \
        unseen.final_state, 16
#define UNSEEN UNSEEN_SLICES, unseen.counts, unseen.times

static size_t kept_numbers(void) {
    size_t kept = 0;
    for (size_t i = 0; i < 256; i++) kept += kept_after[i] > 0;
    return kept;
}

static size_t numbers_ever_kept(void) {
    size_t kept = 0;
    for (size_t i = 0; i < 256; i++) kept += (size_t)ever_kept[i];
    return kept;
}

static uint8_t read_number(uint8_t number) {
    return is_wrong("number of", "7 bits") ? number & 127 : number;
}

/* Refuses before anything is written. */
static uint64_t refuse(uint64_t number, uint64_t place, uint64_t *counts, double *times) {
    memset(counts, 0, LYAPUNOV_COUNTS * sizeof *counts);
    counts[LYAPUNOV_PLACE] = place;
    times[LYAPUNOV_FINAL_TIME] = times[LYAPUNOV_MEASURED_TIME] = 0.0;
    return number;
}

void __wrap_lyapunov_empty_store(uint64_t *store_counts) {
    handed("store_counts", store_counts, LYAPUNOV_STORE_COUNTS);
    lyapunov_empty_store(store_counts);
    memset(kept_after, 0, sizeof kept_after);
    memset(ever_kept, 0, sizeof ever_kept);
    spoiled(0);
}

uint64_t __wrap_lyapunov_forget(const double *store_floats, uint64_t *store_counts,
                                uint8_t number) {
    handed("store_floats", store_floats, LYAPUNOV_STORE_FLOATS);
    handed("store_counts", store_counts, LYAPUNOV_STORE_COUNTS);
    uint64_t n = lyapunov_forget(store_floats, store_counts, read_number(number));
    if (n == 0) kept_after[number] = 0;
    if (n == 0 && is_wrong("slot", "left")) undo(STORE_COUNTS);
    if (n == 0 && is_wrong("all", "forgotten")) lyapunov_empty_store(store_counts);
    if (n == 26 && is_wrong("forgetting", "accepted")) n = 0;
    if (n == 26 && is_wrong("forgetting", "empties")) lyapunov_empty_store(store_counts);
    return spoiled(n);
}

/* A refusal 27 that is due to the number itself or to a forgotten one. */
static int refused_by_27(uint8_t number) {
    if (is_wrong("27 by", "itself")) return kept_numbers() == LYAPUNOV_STORE_STATES;
    if (!is_wrong("27 by", "forgotten") || kept_after[number] > 0) return 0;
    return numbers_ever_kept() >= LYAPUNOV_STORE_STATES;
}

uint64_t __wrap_lyapunov_keep(double *store_floats, uint64_t *store_counts, uint8_t number,
                              RUN_PARAMETERS) {
    handed("store_floats", store_floats, LYAPUNOV_STORE_FLOATS);
    handed("store_counts", store_counts, LYAPUNOV_STORE_COUNTS);
    HANDED_RUN();
    uint8_t under = read_number(number);
    uint64_t place, n;
    if (refused_by_27(number)) return spoiled(refuse(27, 0, counts, times));
    n = lyapunov_keep(store_floats, store_counts, under, INPUTS_FOR(windows), OUTPUTS);
    uint64_t test = lyapunov_build_config(top_k, step_size, steps_per_window, windows, &place);
    if (n == 27 && test != 0 && is_wrong("27 after", "settings"))
        n = refuse(test, place, counts, times);
    if (n == 27 && is_wrong("27", "left out"))
        n = lyapunov_estimate_spectrum_at(INPUTS_FOR(windows), OUTPUTS);
    if (n == 0 && kept_after[number] > 0 && is_wrong("first keep", "stays")) {
        undo(STORE_FLOATS);
        undo(STORE_COUNTS);
    }
    if (n != 0 && n != 27 && is_wrong("refused keep", "forgets"))
        lyapunov_forget(store_floats, store_counts, under);
    if (n != 0 && n != 27 && is_wrong("refused keep", "replaces"))
        lyapunov_keep(store_floats, store_counts, under,
                      INPUTS_FOR(counts[LYAPUNOV_FINISHED]), UNSEEN);
    if (n == 0) kept_after[number] = windows;
    if (n == 0) ever_kept[number] = 1;
    return spoiled(n);
}

/* What a going on leaves, for the functions that spoil it. */
struct gone_on {
    uint64_t before, later, steps;
    size_t width, rows_len;
    double *rows, *exponents, *times;
    uint64_t *counts;
};

/* Rows where they stand in the one run, as far as there is room. */
static void put_rows_at_their_place(const struct gone_on *g) {
    size_t skipped = (size_t)g->before * g->width, all = (size_t)g->later * g->width;
    size_t i = all + skipped < g->rows_len ? all + skipped : g->rows_len;
    for (; i > skipped; i--) g->rows[i - 1] = g->rows[i - 1 - skipped];
    for (i = 0; i < skipped && i < g->rows_len; i++)
        memset(&g->rows[i], 0x5a, sizeof *g->rows);
}

/* Answers of the later windows alone. */
static void leave_out_the_kept(const struct gone_on *g) {
    size_t top_k = (g->width - 1) / 2;
    if (is_wrong("rows at", "their place")) put_rows_at_their_place(g);
    if (is_wrong("finished", "of the later")) g->counts[LYAPUNOV_FINISHED] -= g->before;
    if (is_wrong("steps", "of the later")) g->counts[LYAPUNOV_STEPS] -= g->before * g->steps;
    if (is_wrong("time", "of the later"))
        g->times[LYAPUNOV_MEASURED_TIME] *= (double)g->later / (double)(g->before + g->later);
    if (!is_wrong("exponents", "of the later")) return;
    for (size_t i = 0; i < top_k; i++) {
        double sum = 0.0;
        for (size_t w = 0; w < g->later; w++) sum += g->rows[w * g->width + 1 + i];
        g->exponents[i] = sum / (double)g->later;
    }
}

/* Counts that are tested otherwise: b for a + b, a + b for b. */
static uint64_t tested_otherwise(uint64_t n, const struct gone_on *g) {
    int within = g->later <= LYAPUNOV_MAX_COUNT, wraps = g->before + g->later < g->before;
    if (n == 4 && is_wrong("4 by", "the sum")) n = 0;
    if (n == 5 && g->counts[LYAPUNOV_PLACE] == 1) {
        if (within && is_wrong("5 by", "the later")) n = 0;
        if (wraps && is_wrong("5 by", "a wrapped sum")) n = 0;
    }
    if (n == 0 && g->rows_len < g->width * (g->before + g->later) && is_wrong("13 by", "the sum"))
        n = refuse(13, 0, g->counts, g->times);
    return n;
}

uint64_t __wrap_lyapunov_go_on(const double *store_floats, const uint64_t *store_counts,
                               uint8_t number, RUN_PARAMETERS) {
    double *floats = (double *)(uintptr_t)store_floats;
    uint64_t *slots = (uint64_t *)(uintptr_t)store_counts, place, n;
    uint8_t under = read_number(number);
    struct gone_on g = {kept_after[number], windows, steps_per_window, 1 + 2 * top_k, rows_len,
                        rows, exponents, times, counts};
    handed("store_floats", floats, LYAPUNOV_STORE_FLOATS);
    handed("store_counts", slots, LYAPUNOV_STORE_COUNTS);
    HANDED_RUN();
    n = lyapunov_go_on(floats, slots, under, INPUTS_FOR(windows), OUTPUTS);
    uint64_t test = lyapunov_build_config(top_k, step_size, steps_per_window, windows, &place);
    if (n == 26 && test != 0 && is_wrong("26 after", "settings"))
        n = refuse(test, place, counts, times);
    if (n == 26 && is_wrong("26", "left out"))
        n = lyapunov_estimate_spectrum_at(INPUTS_FOR(windows), OUTPUTS);
    n = tested_otherwise(n, &g);
    if (n == 0) leave_out_the_kept(&g);
    if (n == 0 && is_wrong("rows of", "the first")) {
        lyapunov_estimate_spectrum_at(INPUTS_FOR(windows), UNSEEN);
        memcpy(rows, unseen.rows, windows * g.width * sizeof *rows);
    }
    if (n == 0 && is_wrong("going on", "keeps"))
        lyapunov_keep(floats, slots, under, INPUTS_FOR(g.before + windows), UNSEEN);
    if (n == 0 && is_wrong("going on", "forgets")) lyapunov_forget(floats, slots, under);
    if (n > 13 && n < 19 && is_wrong("refused rows", "left out")) undo(ROWS);
    return spoiled(n);
}

/* The runs of the dispatcher by their names, how many are unfinished, how many were ever taken, and
 * the one that is put in front although it is not. */
static struct {
    size_t dimension, top_k;
} runs[LYAPUNOV_DISPATCHER_RUNS];
static uint64_t unfinished, ever_taken, put_in_front = LYAPUNOV_NOBODY;

#define DISPATCHER run_floats, run_counts, run_settings, queue
/* In this order, in front of all else. */
enum { RUN_FLOATS, RUN_COUNTS, RUN_SETTINGS, QUEUE, ARRAYS };
#define HANDED_DISPATCHER() \
    do { \
        handed("run_floats", run_floats, LYAPUNOV_DISPATCHER_FLOATS); \
        handed("run_counts", run_counts, LYAPUNOV_DISPATCHER_COUNTS); \
        handed("run_settings", run_settings, LYAPUNOV_DISPATCHER_SETTINGS); \
        handed("queue", queue, LYAPUNOV_DISPATCHER_QUEUE); \
    } while (0)

/* A call that must leave the dispatcher as it is, and changes an array. */
static void change_an_array(const char *call) {
    for (size_t i = 0; i < slice_count && i < ARRAYS; i++)
        if (is_wrong(call, slices[i].name)) slices[i].at[8 * slices[i].length - 1] ^= 1;
}

void __wrap_lyapunov_empty_dispatcher(uint64_t *queue) {
    handed("queue", queue, LYAPUNOV_DISPATCHER_QUEUE);
    lyapunov_empty_dispatcher(queue);
    unfinished = ever_taken = 0;
    put_in_front = LYAPUNOV_NOBODY;
    spoiled(0);
}

uint64_t __wrap_lyapunov_next(const uint64_t *queue) {
    handed("queue", queue, LYAPUNOV_DISPATCHER_QUEUE);
    uint64_t name = lyapunov_next(queue);
    change_an_array("next changes");
    if (name == LYAPUNOV_NOBODY && is_wrong("nobody", "as 0")) name = 0;
    return spoiled(put_in_front == LYAPUNOV_NOBODY ? name : put_in_front);
}

/* Tests of a hand-in that are left out, made too early or made too late. */
static uint64_t admitted_otherwise(uint64_t n, uint64_t kind, uint64_t test, uint64_t test_place,
                                   uint64_t *name, uint64_t *place) {
    if (n == 28 && test != 0 && is_wrong("28 after", "settings")) {
        *place = test_place;
        return test;
    }
    if (n == 28 && is_wrong("28", "left out")) return *name = 0;
    if (n != 0 || kind != LYAPUNOV_LINEAR || !is_wrong("9 on", "handing in")) return n;
    for (size_t i = 0; i < ARRAYS; i++) undo(i);
    *name = LYAPUNOV_NOBODY;
    return 9;
}

/* Takes notice of a run that is taken, and spoils its name. */
static void note_hand_in(uint64_t n, uint64_t *name, size_t dimension, size_t top_k) {
    if (n != 0) {
        change_an_array("refused hand-in changes");
        return;
    }
    runs[*name].dimension = dimension;
    runs[*name].top_k = top_k;
    if (is_wrong("new run", "in front")) put_in_front = *name;
    if (is_wrong("name by", "count")) *name = unfinished;
    if (is_wrong("finished run", "keeps its name")) *name = ever_taken;
    unfinished++;
    ever_taken++;
}

uint64_t __wrap_lyapunov_hand_in(double *run_floats, uint64_t *run_counts, double *run_settings,
                                 uint64_t *queue, SYSTEM_PARAMETERS, START_PARAMETERS,
                                 uint64_t *name, uint64_t *place) {
    HANDED_DISPATCHER();
    handed("state", state, state_len);
    handed("name", name, 1);
    handed("place", place, 1);
    uint64_t test_place, n = lyapunov_hand_in(DISPATCHER, kind, p0, p1, p2, dimension,
                                              START_FOR(windows), name, place);
    note_hand_in(n, name, state_len, top_k);
    uint64_t test = lyapunov_build_config(top_k, step_size, steps_per_window, windows, &test_place);
    return spoiled(admitted_otherwise(n, kind, test, test_place, name, place));
}

/* Spends the turn of the run in front on outputs that nobody sees; 0 where it is not spent. */
static int spend_unseen(double *run_floats, uint64_t *run_counts, const double *run_settings,
                        uint64_t *queue) {
    static const double matrix[16 * 16];
    size_t dimension = runs[lyapunov_next(queue)].dimension;
    lyapunov_turn(DISPATCHER, matrix, dimension * dimension, UNSEEN_SLICES, unseen.event,
                  unseen.counts, unseen.times);
    return unseen.event[LYAPUNOV_EVENT_STAGE] >= LYAPUNOV_STAGE_UNDER_WAY;
}

/* A turn's row at place 0, whichever window it is of: it begins where the first entry changed. */
static void put_row_first(double *rows, size_t rows_len, size_t width) {
    double row[1 + 2 * LYAPUNOV_MAX_DIMENSION];
    size_t at = 0;
    while (at < rows_len && memcmp(rows + at, slices[ROWS].before + 8 * at, 8) == 0) at++;
    if (at == rows_len) return;
    memcpy(row, rows + at, width * sizeof *row);
    undo(ROWS);
    memcpy(rows, row, width * sizeof *row);
}

/* What is told or written of a run before it is over. */
static void tell_early(uint64_t *event, double *exponents, double *final_state, uint64_t *counts,
                       double *times) {
    if (is_wrong("counts", "while under way")) memset(counts, 0, LYAPUNOV_COUNTS * sizeof *counts);
    if (is_wrong("times", "while under way")) memset(times, 0, LYAPUNOV_TIMES * sizeof *times);
    if (is_wrong("exponents", "while under way")) exponents[0] = 0.0;
    if (is_wrong("final_state", "while under way")) final_state[0] = 0.0;
    if (is_wrong("turn goes", "to the front")) put_in_front = event[LYAPUNOV_EVENT_NAME];
}

uint64_t __wrap_lyapunov_turn(double *run_floats, uint64_t *run_counts, const double *run_settings,
                              uint64_t *queue, MATRIX_PARAMETERS, SLICE_PARAMETERS,
                              uint64_t *event, uint64_t *counts, double *times) {
    HANDED_DISPATCHER();
    HANDED_OUTPUTS();
    handed("matrix", matrix, matrix_len);
    handed("event", event, LYAPUNOV_EVENTS);
    while (put_in_front != LYAPUNOV_NOBODY && lyapunov_next(queue) != put_in_front &&
           spend_unseen(DISPATCHER))
        continue;
    uint64_t n = lyapunov_turn(DISPATCHER, matrix, matrix_len, SLICES, event, counts, times);
    uint64_t stage = event[LYAPUNOV_EVENT_STAGE];
    if (stage == LYAPUNOV_STAGE_NOBODY) change_an_array("nobody's turn changes");
    if (stage == LYAPUNOV_STAGE_UNFIT) change_an_array("unfit turn changes");
    if (stage == LYAPUNOV_STAGE_UNFIT && is_wrong("unfit turn", "is spent"))
        spend_unseen(DISPATCHER);
    if (stage == LYAPUNOV_STAGE_UNDER_WAY) tell_early(event, exponents, final_state, counts, times);
    if (stage == LYAPUNOV_STAGE_OVER) {
        unfinished--;
        put_in_front = LYAPUNOV_NOBODY;
        if (is_wrong("place of an end", "in the event")) event[LYAPUNOV_EVENT_PLACE] = 1;
        if (n != 0 && is_wrong("refused run", "ends all")) lyapunov_empty_dispatcher(queue);
    }
    if (stage >= LYAPUNOV_STAGE_UNDER_WAY && is_wrong("row", "at place 0"))
        put_row_first(rows, rows_len, 1 + 2 * runs[event[LYAPUNOV_EVENT_NAME]].top_k);
    if (is_wrong("begun", "one less")) event[LYAPUNOV_EVENT_BEGUN] -= 1;
    return spoiled(n);
}

#define OPTION_PARAMETERS const uint64_t *options, size_t options_len
#define OPTIONS_READ options, options_read(options_len)
#define HANDED_OPTIONS() handed("options", options, options_len)

/* How many options are read: none where they are ignored. */
static size_t options_read(size_t options_len) {
    return is_wrong("options", "ignored") ? 0 : options_len;
}

/* Tests of the steps of a warm-up window that are left out, made too early or made too late:
 * `without` is what the run is refused by with equal steps. */
static uint64_t tested_at_another_turn(uint64_t n, uint64_t *place, OPTION_PARAMETERS,
                                       uint64_t without, uint64_t place_without) {
    int has_no_steps = options_len > 0 && options[0] == 0;
    if (n == 4 && has_no_steps && is_wrong("29 before", "4")) return 29;
    if (n == 5 && *place == 3 && is_wrong("place 2", "for 3")) *place = 2;
    if (n == 5 && *place == 3 && is_wrong("5 of warm-up steps", "left out")) n = without;
    if (n != 29) return n;
    if (is_wrong("29", "left out") || (without == 5 && is_wrong("29 after", "5"))) {
        *place = place_without;
        return without;
    }
    return n;
}

uint64_t __wrap_lyapunov_validate_with_options(
    uint64_t kind, double p0, double p1, double p2, size_t dimension, MATRIX_PARAMETERS,
    double time, const double *state, size_t state_len, size_t top_k, double step_size,
    uint64_t steps_per_window, uint64_t windows, uint64_t transient_windows, OPTION_PARAMETERS,
    uint64_t *place) {
    uint64_t without, place_without, n;
    handed("matrix", matrix, matrix_len);
    handed("state", state, state_len);
    HANDED_OPTIONS();
    handed("place", place, 1);
    n = lyapunov_validate_with_options(
        kind, p0, p1, p2, dimension, matrix, matrix_len, time, state, state_len, top_k, step_size,
        steps_per_window, windows, transient_windows, OPTIONS_READ, place);
    without = lyapunov_validate(
        kind, p0, p1, p2, dimension, matrix, matrix_len, time, state, state_len, top_k, step_size,
        steps_per_window, windows, transient_windows, &place_without);
    return spoiled(
        tested_at_another_turn(n, place, options, options_len, without, place_without));
}

/* A run of which every window has the steps of the other sort: the other way round. */
static uint64_t exchanged(SYSTEM_PARAMETERS, MATRIX_PARAMETERS, START_PARAMETERS,
                          OPTION_PARAMETERS, SLICE_PARAMETERS, uint64_t *counts, double *times) {
    uint64_t other = steps_per_window;
    if (options_len == 0) return lyapunov_estimate_spectrum_at(INPUTS_FOR(windows), OUTPUTS);
    steps_per_window = options[0];
    return lyapunov_estimate_spectrum_at_with_options(INPUTS_FOR(windows), &other, 1, OUTPUTS);
}

uint64_t __wrap_lyapunov_estimate_spectrum_at_with_options(
    SYSTEM_PARAMETERS, MATRIX_PARAMETERS, START_PARAMETERS, OPTION_PARAMETERS, SLICE_PARAMETERS,
    uint64_t *counts, double *times) {
    uint64_t without, n;
    HANDED_RUN();
    HANDED_OPTIONS();
    if (is_wrong("steps", "exchanged"))
        return spoiled(exchanged(INPUTS_FOR(windows), options, options_len, OUTPUTS));
    n = lyapunov_estimate_spectrum_at_with_options(INPUTS_FOR(windows), OPTIONS_READ, OUTPUTS);
    if (n == 4 || n == 5 || n == 29) {
        without = lyapunov_estimate_spectrum_at(INPUTS_FOR(windows), UNSEEN);
        n = tested_at_another_turn(n, counts + LYAPUNOV_PLACE, options, options_len, without,
                                   unseen.counts[LYAPUNOV_PLACE]);
    }
    if (n == 0 && is_wrong("faint counts", "without the warm-up")) {
        lyapunov_estimate_spectrum_at(
            kind, p0, p1, p2, dimension, matrix, matrix_len, time, state, state_len, top_k,
            step_size, steps_per_window, windows, 0, seed, UNSEEN);
        memcpy(counts + LYAPUNOV_FAINT, unseen.counts + LYAPUNOV_FAINT, 16 * sizeof *counts);
    }
    if (n == 0 && is_wrong("steps", "without the warm-up"))
        counts[LYAPUNOV_STEPS] = windows * steps_per_window;
    if (n == 0 && options_len > 0 && is_wrong("D from", "the warm-up steps"))
        times[LYAPUNOV_MEASURED_TIME] = step_size * (double)options[0] * (double)windows;
    return spoiled(n);
}

uint64_t __wrap_lyapunov_keep_with_options(
    double *store_floats, uint64_t *store_counts, uint8_t number, SYSTEM_PARAMETERS,
    MATRIX_PARAMETERS, START_PARAMETERS, OPTION_PARAMETERS, SLICE_PARAMETERS, uint64_t *counts,
    double *times) {
    handed("store_floats", store_floats, LYAPUNOV_STORE_FLOATS);
    handed("store_counts", store_counts, LYAPUNOV_STORE_COUNTS);
    HANDED_RUN();
    HANDED_OPTIONS();
    return spoiled(lyapunov_keep_with_options(store_floats, store_counts, number,
                                              INPUTS_FOR(windows), OPTIONS_READ, OUTPUTS));
}

uint64_t __wrap_lyapunov_go_on_with_options(
    const double *store_floats, const uint64_t *store_counts, uint8_t number, SYSTEM_PARAMETERS,
    MATRIX_PARAMETERS, START_PARAMETERS, OPTION_PARAMETERS, SLICE_PARAMETERS, uint64_t *counts,
    double *times) {
    handed("store_floats", store_floats, LYAPUNOV_STORE_FLOATS);
    handed("store_counts", store_counts, LYAPUNOV_STORE_COUNTS);
    HANDED_RUN();
    HANDED_OPTIONS();
    return spoiled(lyapunov_go_on_with_options(store_floats, store_counts, number,
                                               INPUTS_FOR(windows), OPTIONS_READ, OUTPUTS));
}

uint64_t __wrap_lyapunov_hand_in_with_options(
    double *run_floats, uint64_t *run_counts, double *run_settings, uint64_t *queue,
    SYSTEM_PARAMETERS, START_PARAMETERS, OPTION_PARAMETERS, uint64_t *name, uint64_t *place) {
    HANDED_DISPATCHER();
    handed("state", state, state_len);
    HANDED_OPTIONS();
    handed("name", name, 1);
    handed("place", place, 1);
    uint64_t n = lyapunov_hand_in_with_options(DISPATCHER, kind, p0, p1, p2, dimension,
                                               START_FOR(windows), OPTIONS_READ, name, place);
    note_hand_in(n, name, state_len, top_k);
    return spoiled(n);
}

uint64_t __wrap_lyapunov_kaplan_yorke_dimension(
    const double *exponents, size_t exponents_len, double *out, uint64_t *place) {
    handed("rates", exponents, exponents_len);
    handed("out", out, 1);
    handed("place", place, 1);
    return spoiled(lyapunov_kaplan_yorke_dimension(exponents, exponents_len, out, place));
}

uint64_t __wrap_lyapunov_kolmogorov_sinai_entropy(
    const double *exponents, size_t exponents_len, double *out, uint64_t *place) {
    if (is_wrong("dimension for", "entropy"))
        return lyapunov_kaplan_yorke_dimension(exponents, exponents_len, out, place);
    uint64_t n = lyapunov_kolmogorov_sinai_entropy(exponents, exponents_len, out, place);
    turn_zeros("entropy", out, 1);
    return n;
}
