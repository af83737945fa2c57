/*
 * The stack that calls use, arguments and return addresses among them: it is painted before a call
 * and searched after it. Fails where a call uses more than LIMIT bytes. Usage: stack LIMIT
 */
#include "lyapunov.h"

#include <stdio.h>
#include <stdlib.h>
#include <string.h>
#include <ucontext.h>

enum { STACK = 1 << 16, PAINT = 0xa5, WINDOWS = 4, RATES = LYAPUNOV_MAX_EXPONENTS };

static _Alignas(64) unsigned char stack[STACK];
static double rows[LYAPUNOV_ROWS_LENGTH(LYAPUNOV_MAX_DIMENSION, WINDOWS)];
static double exponents[LYAPUNOV_MAX_DIMENSION], end[LYAPUNOV_MAX_DIMENSION], times[LYAPUNOV_TIMES];
static double start[LYAPUNOV_MAX_DIMENSION], rates[RATES], dimension;
static struct lyapunov_store store;
static struct lyapunov_dispatcher dispatcher;
static struct lyapunov_system of;
static size_t top_k;
static uint64_t counts[LYAPUNOV_COUNTS], event[LYAPUNOV_EVENTS], refused, name, place;

#define SYSTEM of.kind, of.p0, of.p1, of.p2, of.dimension
#define MATRIX of.matrix.at, of.matrix.length
#define START 0.0, start, of.dimension, top_k, 0.01, 3, WINDOWS, 2, LYAPUNOV_DEFAULT_SEED
#define SLICES \
    rows, sizeof rows / sizeof *rows, exponents, LYAPUNOV_MAX_DIMENSION, end, LYAPUNOV_MAX_DIMENSION
#define RUN SYSTEM, MATRIX, START, SLICES, counts, times
#define DISPATCHER \
    dispatcher.floats, dispatcher.counts, dispatcher.settings, dispatcher.queue

static void run(void) { refused = lyapunov_estimate_spectrum_at(RUN); }
static void keep(void) { refused = lyapunov_keep(store.floats, store.counts, 7, RUN); }
static void go_on(void) { refused = lyapunov_go_on(store.floats, store.counts, 7, RUN); }
static void hand_in(void) { refused = lyapunov_hand_in(DISPATCHER, SYSTEM, START, &name, &place); }
/* All turns of the run that was handed in, so that its end is among them. */
static void turns(void)
{
    while (lyapunov_next(dispatcher.queue) != LYAPUNOV_NOBODY)
        refused = lyapunov_turn(DISPATCHER, MATRIX, SLICES, event, counts, times);
}
static void rank(void)
{
    refused = lyapunov_kaplan_yorke_dimension(rates, RATES, &dimension, &place);
}

struct call {
    const char *name;
    void (*make)(void);
    size_t most;
};
static struct call calls[] = {
    {"a run", run, 0}, {"a keep", keep, 0}, {"a going on", go_on, 0},
    {"a hand-in", hand_in, 0}, {"a turn", turns, 0}, {"the dimension of 256 rates", rank, 0},
};
enum { CALLS = sizeof calls / sizeof *calls };

static struct call *under_way;
static const unsigned char *top;

static void make(void)
{
    top = __builtin_frame_address(0);
    under_way->make();
}

/* The bytes below the frame of `make` that the call wrote. */
static size_t used(struct call *call)
{
    ucontext_t here, there;
    const unsigned char *lowest = stack;
    under_way = call;
    memset(stack, PAINT, sizeof stack);
    getcontext(&there);
    there.uc_stack.ss_sp = stack;
    there.uc_stack.ss_size = sizeof stack;
    there.uc_link = &here;
    makecontext(&there, make, 0);
    swapcontext(&here, &there);
    while (*lowest == PAINT)
        lowest++;
    return (size_t)(top - lowest);
}

/* Rates in order, rising and then falling, or mixed: how much the sort needs depends on it. */
static void fill(size_t shape)
{
    for (size_t i = 0; i < RATES; i++) {
        size_t folded = i < RATES / 2 ? 2 * i : 2 * (RATES - 1 - i) + 1;
        size_t at = shape == 0 ? i : shape == 1 ? folded : i * 37 % RATES;
        rates[i] = 0.5 - 0.004 * (double)at;
    }
}

/* All calls, of a system with every number of directions. */
static void measure(struct lyapunov_system system)
{
    of = system;
    of.matrix = lyapunov_handed_const(system.matrix, rates);
    for (top_k = 1; top_k <= of.dimension; top_k++) {
        fill(top_k % 3);
        for (size_t i = 0; i < CALLS; i++) {
            size_t bytes = used(&calls[i]);
            if (refused != 0) {
                fprintf(stderr, "%s: refused by %d\n", calls[i].name, (int)refused);
                exit(1);
            }
            calls[i].most = bytes > calls[i].most ? bytes : calls[i].most;
        }
    }
}

int main(int argc, char **argv)
{
    static double matrix[LYAPUNOV_MAX_DIMENSION * LYAPUNOV_MAX_DIMENSION];
    size_t d, i, limit = argc == 2 ? strtoul(argv[1], NULL, 10) : 0;
    int over = 0;
    for (i = 0; i < LYAPUNOV_MAX_DIMENSION; i++)
        start[i] = 1.0 + 0.1 * (double)i;
    for (i = 0; i < sizeof matrix / sizeof *matrix; i++)
        matrix[i] = 0.02 * ((double)(i * 7 % 11) - 5.0);
    lyapunov_store_empty(&store);
    lyapunov_dispatcher_empty(&dispatcher);
    measure(lyapunov_lorenz(10.0, 28.0, 8.0 / 3.0));
    measure(lyapunov_rossler(0.2, 0.2, 5.7));
    measure(lyapunov_van_der_pol(1.0));
    for (d = 1; d <= LYAPUNOV_MAX_DIMENSION; d++)
        measure(lyapunov_linear(d, lyapunov_lent_const(matrix, d * d)));
    for (d = 4; d <= LYAPUNOV_MAX_DIMENSION; d++)
        measure(lyapunov_lorenz96(d, 8.0));
    for (i = 0; i < CALLS; i++) {
        printf("stack of %s: %zu bytes\n", calls[i].name, calls[i].most);
        over |= calls[i].most > limit;
    }
    return over;
}
