/*
 * lyapunov.h - Lyapunov exponents by Benettin's method.
 *
 * The C interface of the static library liblyapunov.a. C99 or later, or C++11 or later.
 *
 * HOW TO USE IT
 *
 * A run takes a system, settings, a start state and memory for what it finds:
 *
 *     struct lyapunov_system lorenz = lyapunov_lorenz(10.0, 28.0, 8.0 / 3.0);
 *     struct lyapunov_required_settings required;
 *     required.top_k = 3;
 *     required.step_size = 0.01;
 *     required.steps_per_window = 10;
 *     required.windows = 1000;
 *     struct lyapunov_built built = lyapunov_build_settings(&required);
 *     if (built.refusal.number != 0) puts(lyapunov_refusal_text(built.refusal.number));
 *     built.settings = lyapunov_with_transient_windows(built.settings, 100);
 *
 *     double start[3] = {1.0, 1.0, 1.0}, rows[7000], exponents[3], end[3];
 *     struct lyapunov_outputs outputs = lyapunov_no_outputs();
 *     outputs.rows = lyapunov_lent(rows, 7000);
 *     outputs.exponents = lyapunov_lent(exponents, 3);
 *     outputs.final_state = lyapunov_lent(end, 3);
 *     struct lyapunov_estimate estimate = lyapunov_spectrum(
 *         &lorenz, lyapunov_lent_const(start, 3), &built.settings, &outputs);
 *
 * examples/lorenz.c is a whole program, examples/continuations.c one that goes on from a kept
 * state, see KEEPING A STATE, and examples/circuits.c one that runs several circuits side by side,
 * see SEVERAL CIRCUITS. The structs and the functions that take them stand at the end of this
 * header; they are `static inline`, over the exported functions that come before them. Those take
 * numbers and pointers alone, for other languages and for programs that call them already.
 *
 * LATER VERSIONS keep what this one has: exported functions keep their arguments and their meaning.
 * Structs may get more fields. A program that makes them by the functions here, and sets and reads
 * fields by name, compiles and means the same: a new setting starts as what a run does today, and a
 * new output as one that is not lent. A store of kept states and a dispatcher are for the archive
 * of this header: another version may need longer arrays, and reads none that this one filled.
 * Names that begin with lyapunov_ and LYAPUNOV_ belong to this header.
 *
 * WHAT A CALL ANSWERS
 *
 * A function that can refuse returns the number of the refusal, and 0 where it did what it was
 * asked to do. The refusals are listed below. A refusal may have a place: an index, a direction, a
 * count or an output. It is written to *place, to counts[0] by a run, and by an unfit turn to
 * event[3]. It is written by every call that takes it: 0 where the refusal has no place, and 0
 * where nothing is refused.
 *
 * Any number, infinity or NaN may be handed in: no value leads to anything but an answer or a
 * refusal, and every call ends. A float that is computed or left in a slice equals the one that
 * the operations of the method give in their stated order, to the bit; of a NaN only that it is a
 * NaN.
 *
 * WHAT IS LENT
 *
 * A slice is a pointer and, straight after it, its length in entries (not bytes). The caller owns
 * all memory, and the library keeps no pointer after the call. Four things are the caller's duty,
 * since no call can test them:
 *   - no pointer is NULL; where a length is 0, any other pointer will do, and nothing is read;
 *   - as many entries as the length says may be read, and written where the pointer is not const;
 *   - pointers are aligned for their type, as C demands of every double* and uint64_t*;
 *   - the memory of an argument that is written overlaps no other argument's.
 * Memory is read and written inside the stated lengths only. What is not stated as written stays
 * as it is. Entries of an output past the part that is needed are not touched.
 *
 * THREADS, MEMORY, STACK
 *
 * There is no global state: no variable outlives a call, so every function is reentrant and may run
 * in any number of threads at once, on different memory. Nothing is allocated, no file, clock or
 * environment is read, no signal is raised, and errno is left alone. Floating point must be in the
 * mode that C starts in: rounding to nearest, subnormals kept. Stack use is bounded, since nothing
 * is recursive: a keep was measured at 12,136 bytes on x86-64, its arguments among them, and no
 * function uses more. The archive needs memcpy and memset of the C library, and no libm.
 *
 * REFUSALS
 *
 * Whoever sets the run:
 *    1  top_k is 0
 *    2  step_size is not finite, or not above 0
 *    3  steps_per_window is 0
 *    4  windows is 0
 *   29  the steps of a warm-up window are 0; it is tested straight after 4
 *    5  a count is above LYAPUNOV_MAX_COUNT; place: the first that is, in the order
 *       0 steps_per_window, 1 windows, 2 transient_windows, 3 the steps of a warm-up window
 *    6  the (start) time is not finite
 *   12  top_k is above the dimension
 *   15  the duration of a window, step_size * steps_per_window, is not finite
 * Whoever picks the system:
 *    7  the dimension is 0, or the kind is none of the five
 *    8  the dimension is above LYAPUNOV_MAX_DIMENSION
 *   25  a ring has 1 to 3 cells; it is tested straight after 8
 *    9  matrix_len is not dimension * dimension (linear systems only)
 * Whoever lends slices:
 *   10  state_len is not the dimension
 *   11  an entry of the start state is not finite; place: the first such index
 *   13  an output is too short; place: the first short one (0 rows, 1 exponents, 2 final_state);
 *       the orthonormaliser's norms have place 0
 *   19  a step's tangents_len is not dimension * count, or count is above LYAPUNOV_MAX_DIMENSION
 * The circuit:
 *   14  a direction collapsed: its squared length is 0 or not finite; place: the direction, from 0
 *   16  an entry of the state became not finite; place: the first such index
 *   17  an entry of the directions became not finite; place: the first such index, so that the
 *       direction is place / dimension
 *   18  the time became not finite
 * Whoever keeps states, before all other tests:
 *   26  nothing is kept under the number; on going on and forgetting
 *   27  eight other numbers are kept; on keeping
 * Whoever hands runs in, before all other tests:
 *   28  eight runs are unfinished; on handing in
 * Whoever reads rates:
 *   20  there are no exponents
 *   21  there are more than LYAPUNOV_MAX_EXPONENTS exponents
 *   22  an exponent is not finite; place: the first such index
 *   23  the number of bytes is not a multiple of 8; only the program `spectrum` refuses by it, and
 *       no function of this header
 *   24  the logarithm of anything that is not positive, normal and finite
 */
#ifndef LYAPUNOV_H
#define LYAPUNOV_H

#include <stddef.h>
#include <stdint.h>

#ifdef __cplusplus
extern "C" {
#endif

/* The largest dimension, and the largest count of directions of a step. */
#define LYAPUNOV_MAX_DIMENSION 16
/* The largest steps_per_window, windows, transient_windows and steps of a warm-up window, each. */
#define LYAPUNOV_MAX_COUNT 16777216
/* The most exponents of a dimension or an entropy. */
#define LYAPUNOV_MAX_EXPONENTS 256
/* The most states that are kept, and the lengths of the two arrays that hold them. */
#define LYAPUNOV_STORE_STATES 8
#define LYAPUNOV_STORE_FLOATS 2568
#define LYAPUNOV_STORE_COUNTS 152
/* The most unfinished runs of a dispatcher, the lengths of its four arrays, and the name of no
 * run. */
#define LYAPUNOV_DISPATCHER_RUNS 8
#define LYAPUNOV_DISPATCHER_FLOATS 2568
#define LYAPUNOV_DISPATCHER_COUNTS 152
#define LYAPUNOV_DISPATCHER_SETTINGS 32
#define LYAPUNOV_DISPATCHER_QUEUE 73
#define LYAPUNOV_NOBODY UINT64_C(8)
/* The seed to take where there is no reason for another. */
#define LYAPUNOV_DEFAULT_SEED UINT64_C(0x4c594150554e4f56)

/*
 * THE SYSTEM is chosen by six arguments: kind, p0, p1, p2, dimension and the matrix. The parameters
 * may be any floats; one that is not finite shows as a refusal 16 or 17 once it is used.
 *
 *   LYAPUNOV_LORENZ       dimension 3; p0 sigma, p1 rho, p2 beta:
 *                         x' = sigma (y - x), y' = x (rho - z) - y, z' = x y - beta z
 *   LYAPUNOV_ROSSLER      dimension 3; p0 a, p1 b, p2 c:
 *                         x' = -y - z, y' = x + a y, z' = b + z (x - c)
 *   LYAPUNOV_VAN_DER_POL  dimension 2; p0 mu:
 *                         x' = y, y' = mu (1 - x x) y - x
 *   LYAPUNOV_LINEAR       x' = A x, with A of dimension rows and columns in `matrix`, row by row:
 *                         the entry of row i and column j is matrix[i * dimension + j]
 *   LYAPUNOV_LORENZ96     a ring of `dimension` equal cells, 4 to 16; p0 the forcing F:
 *                         x[i]' = (x[i+1] - x[i-2]) x[i-1] - x[i] + F, indices modulo dimension
 *   any other kind        a system of dimension 0, which is refused by 7
 *
 * What a system does not use is not read or tested: p1 and p2 of van der Pol and of a ring, all
 * three of a linear system, `dimension` of Lorenz, Rossler and van der Pol, and the matrix of the
 * systems that are not linear.
 */
#define LYAPUNOV_LORENZ UINT64_C(0)
#define LYAPUNOV_ROSSLER UINT64_C(1)
#define LYAPUNOV_VAN_DER_POL UINT64_C(2)
#define LYAPUNOV_LINEAR UINT64_C(3)
#define LYAPUNOV_LORENZ96 UINT64_C(4)

/* Places in counts, which a run writes. */
enum lyapunov_counts {
    LYAPUNOV_PLACE = 0,    /* the place of the refusal, 0 where it has none or nothing is refused */
    LYAPUNOV_FINISHED = 1, /* finished measured windows: so many rows are written, and by a going on
                            * so many without the kept ones */
    LYAPUNOV_STEPS = 2,    /* steps that passed every test, warm-up included */
    LYAPUNOV_FAINT = 3,    /* the faint count of direction i is at LYAPUNOV_FAINT + i, i below 16 */
    LYAPUNOV_COUNTS = 19   /* the length of counts */
};

/* Places in times, which a run writes. */
enum lyapunov_times {
    LYAPUNOV_FINAL_TIME = 0,    /* the time at the end of the last window */
    LYAPUNOV_MEASURED_TIME = 1, /* windows times the duration of a window; it may be infinite */
    LYAPUNOV_TIMES = 2          /* the length of times */
};

/* The length that a run's rows must have, where top_k and windows are within their limits. */
#define LYAPUNOV_ROWS_LENGTH(top_k, windows) ((size_t)(windows) * (1 + 2 * (size_t)(top_k)))

/*
 * A RUN: top_k exponents of a system from a start state, with rows that say how they came about.
 *
 *   kind .. matrix_len   the system, see above
 *   time                 the time at the start; it only counts up, as no system here reads it
 *   state                the start state, of the system's dimension
 *   top_k                how many exponents, 1 up to the dimension
 *   step_size            of a Runge-Kutta step of fourth order
 *   steps_per_window     steps between two orthonormalisations of the directions; a warm-up window
 *                        has as many, unless an option says otherwise, see OPTIONS
 *   windows              measured windows
 *   transient_windows    warm-up windows before them, which no row or exponent reports; may be 0
 *   seed                 of the directions at the start; any value
 *   rows                 at least LYAPUNOV_ROWS_LENGTH(top_k, windows) floats, see below
 *   exponents            at least top_k floats: the exponents, in natural logarithms a unit of time
 *   final_state          at least dimension floats: the state at the end
 *   counts, times        19 numbers and 2 floats, see the enums above
 *
 * Row w, for measured window w from 0, stands at rows[w * (1 + 2 * top_k)]: the time at its end,
 * then top_k local exponents (of this window alone), then top_k running ones (of all measured
 * windows up to this one). The running exponents of the last row are the exponents.
 *
 * FAINT COUNTS. The faint count of a direction is the number of windows, warm-up included, at whose
 * end its squared length was below 2^-960; it is 0 for directions from top_k on. Where it is 0, the
 * lengths were long enough for their squares to be exact enough. Where it is not, the direction's
 * rate, and those of the directions after it, may be wrong although they look like rates: run again
 * with shorter windows, which means fewer steps a window or a smaller step_size. Where warm-up
 * windows have more steps than measured ones, they may be those that are too long. A count speaks
 * of squares alone: directions whose lengths come to differ by more than the 53 bits of a double
 * within one window can lose their rates although it is 0.
 *
 * ORDER OF TESTS. 1, 2, 3, 4, 29, 5, 6, 7, 8, 25, 9, 10, 11, 12, 13; then the directions are drawn
 * (14) and 15 is tested; then each step tests 16, 17, 18, and each window's end 14.
 *
 * REFUSED. All of counts and times are written by every call. A refused run has faint counts of 0
 * and times of +0.0. Refused by 1 to 13, 25, 29, 15, or by 14 at the draw, it has written nothing
 * else, and finished and steps are 0. Refused later, it has written the rows of its finished
 * measured windows: counts[LYAPUNOV_FINISHED] rows, and no exponents and no final state.
 *
 * MORE EXPONENTS. A run for k exponents and one for more, all else equal, agree to the bit in all
 * that both report, unless the larger one is refused at a direction numbered k or above.
 */
uint64_t lyapunov_estimate_spectrum_at(
    uint64_t kind, double p0, double p1, double p2,
    size_t dimension, const double *matrix, size_t matrix_len,
    double time, const double *state, size_t state_len,
    size_t top_k, double step_size, uint64_t steps_per_window, uint64_t windows,
    uint64_t transient_windows, uint64_t seed,
    double *rows, size_t rows_len,
    double *exponents, size_t exponents_len,
    double *final_state, size_t final_state_len,
    uint64_t *counts, double *times);

/* The same run from time 0. */
uint64_t lyapunov_estimate_spectrum(
    uint64_t kind, double p0, double p1, double p2,
    size_t dimension, const double *matrix, size_t matrix_len,
    const double *state, size_t state_len,
    size_t top_k, double step_size, uint64_t steps_per_window, uint64_t windows,
    uint64_t transient_windows, uint64_t seed,
    double *rows, size_t rows_len,
    double *exponents, size_t exponents_len,
    double *final_state, size_t final_state_len,
    uint64_t *counts, double *times);

/*
 * The same run from time 0 for the largest exponent: top_k is 1, there are no warm-up windows, and
 * the seed is LYAPUNOV_DEFAULT_SEED.
 */
uint64_t lyapunov_estimate_largest(
    uint64_t kind, double p0, double p1, double p2,
    size_t dimension, const double *matrix, size_t matrix_len,
    const double *state, size_t state_len,
    double step_size, uint64_t steps_per_window, uint64_t windows,
    double *rows, size_t rows_len,
    double *exponents, size_t exponents_len,
    double *final_state, size_t final_state_len,
    uint64_t *counts, double *times);

/*
 * KEEPING A STATE: a run is stopped after some measured windows and kept under a number from 0 to
 * 255. Any number of continuations may start from there, so that several of one settled orbit
 * settle it once.
 *
 *   store_floats   LYAPUNOV_STORE_FLOATS floats, and
 *   store_counts   LYAPUNOV_STORE_COUNTS numbers: the store; struct lyapunov_store has both
 *   number         0 to 255; C turns any other into one of these, modulo 256
 *   kind .. times  as in A RUN
 *
 * THE STORE is the caller's memory, and there may be any number of stores. Each keeps up to
 * LYAPUNOV_STORE_STATES states under as many numbers. What its entries mean is not said. A copy of
 * it as a whole, both arrays by memcpy, keeps the same states. It may hold anything, random bytes
 * too: every call ends then as well, and touches nothing else, but what such a store keeps is not
 * said until lyapunov_empty_store has emptied it.
 *
 * KEEPING answers and writes what lyapunov_estimate_spectrum_at does with the same arguments. Where
 * that run is not refused, its end is kept under the number, in place of what was kept under it. A
 * refused run keeps and replaces nothing: the store stays as it is.
 *
 * GOING ON for b = `windows` from a run that was kept after a windows gives the end of the one run
 * of a + b windows: its answer, counts, times, exponents and final state. Of its rows the later
 * ones are written, from place 0 on: row w of a going on is row a + w of the one run, and rows has
 * at least LYAPUNOV_ROWS_LENGTH(top_k, b) floats. The store is only read, so what is kept stays as
 * it is, and threads may go on from one store at the same time.
 *
 * WHAT MUST BE BROUGHT to a going on is what was brought to the keeping, apart from `windows` and
 * the outputs: the same system, a linear one with the same matrix, and the same time, state, top_k,
 * step_size, steps_per_window, transient_windows, seed and options. Whether it is the same is not
 * tested.
 * Where it is not, any answer may come, with any floats in the outputs; the call still ends, and
 * touches nothing else.
 *
 * FORGETTING makes the number one that is not kept, and its place free for another. It writes
 * store_counts alone.
 *
 * ORDER OF TESTS. 27 on keeping, 26 on going on and forgetting, both with place 0; then those of a
 * run. On going on 4 tests b, 5 at place 1 tests a + b, which does not overflow, and 13 counts b
 * rows.
 *
 * REFUSED. By 26 or 27 finished, steps and faint counts are 0 and the times +0.0, and nothing else
 * is written. By another number it is as in A RUN. A going on that is refused in a window has
 * finished the a kept windows too, and has written counts[LYAPUNOV_FINISHED] - a rows. A refused
 * forgetting leaves the store as it is.
 */

/* Makes a store with nothing kept. Of the floats nothing need be set. */
void lyapunov_empty_store(uint64_t *store_counts);

/* A run of `windows` measured windows, kept under the number. */
uint64_t lyapunov_keep(
    double *store_floats, uint64_t *store_counts, uint8_t number,
    uint64_t kind, double p0, double p1, double p2,
    size_t dimension, const double *matrix, size_t matrix_len,
    double time, const double *state, size_t state_len,
    size_t top_k, double step_size, uint64_t steps_per_window, uint64_t windows,
    uint64_t transient_windows, uint64_t seed,
    double *rows, size_t rows_len,
    double *exponents, size_t exponents_len,
    double *final_state, size_t final_state_len,
    uint64_t *counts, double *times);

/* Goes on for `windows` measured windows from what is kept under the number. */
uint64_t lyapunov_go_on(
    const double *store_floats, const uint64_t *store_counts, uint8_t number,
    uint64_t kind, double p0, double p1, double p2,
    size_t dimension, const double *matrix, size_t matrix_len,
    double time, const double *state, size_t state_len,
    size_t top_k, double step_size, uint64_t steps_per_window, uint64_t windows,
    uint64_t transient_windows, uint64_t seed,
    double *rows, size_t rows_len,
    double *exponents, size_t exponents_len,
    double *final_state, size_t final_state_len,
    uint64_t *counts, double *times);

/* Forgets what is kept under the number. */
uint64_t lyapunov_forget(const double *store_floats, uint64_t *store_counts, uint8_t number);

/*
 * SEVERAL CIRCUITS: up to eight runs side by side. Each is handed in to a dispatcher once, which
 * names it by a number from 0 to 7. Then turns are taken: each makes one window, warm-up or
 * measured, of the run in front of a queue.
 *
 *   run_floats     LYAPUNOV_DISPATCHER_FLOATS floats,
 *   run_counts     LYAPUNOV_DISPATCHER_COUNTS numbers,
 *   run_settings   LYAPUNOV_DISPATCHER_SETTINGS floats, and
 *   queue          LYAPUNOV_DISPATCHER_QUEUE numbers: the dispatcher; struct lyapunov_dispatcher
 *                  has all four
 *   name           the name of the run, LYAPUNOV_NOBODY where it is refused
 *   event          LYAPUNOV_EVENTS numbers that tell what the turn was, see the enums below
 *   all others     as in A RUN; its matrix and its outputs are lent with the turns
 *
 * THE DISPATCHER is the caller's memory, and what is said of THE STORE holds for its four arrays:
 * any number of them, copies, and any content. In memory that no call has made, lyapunov_next may
 * name a run whose turn then changes nothing, as if nobody were next.
 *
 * HANDING IN tests the run and draws its directions. The run is named by the least number from 0
 * that no other unfinished run has, and goes to the back of the queue. A refused run is not taken:
 * the dispatcher stays as it is.
 *
 * A TURN belongs to the run in front, which lyapunov_next names. It is spent on one window of that
 * run, which then goes to the back, unless it is over. So among any eight spent turns in a row each
 * run that is unfinished throughout them has at least one. Where nobody is next, a turn writes
 * nothing but event, and 0 is returned.
 *
 * WHAT MUST BE LENT with a turn is what the run in front needs when it runs alone: the matrix of a
 * linear system, and the three outputs in their full lengths. Each run has slices of its own, the
 * same at each of its turns, and nobody else writes them in between. Whether they are the same is
 * not tested; where they are not, it is as with WHAT MUST BE BROUGHT above. Between turns rows
 * holds the rows of the measured windows so far, each at its place, and all else is as it was.
 *
 * AN UNFIT TURN is one that 9 or 13 refuses; they are tested each time. It is not spent: the run
 * stays in front, and nothing but event is written. A loop over turns must see to that.
 *
 * OVER. A run is over with the turn in which it ends or is refused by 14, 16, 17 or 18. Then, and
 * not before, its number, counts, times, exponents and final state are answered. With them and with
 * its rows it has what lyapunov_estimate_spectrum_at answers and writes for the same run alone, to
 * the bit, whatever the other runs do. Its name is free at once for the next run that is handed in.
 *
 * ORDER OF TESTS. On handing in 28, with place 0; then those of a run up to 12 without 9; then the
 * directions are drawn (14) and 15 is tested. On a turn 9 and 13; then those of a run's window.
 */

/* What a turn was. */
enum lyapunov_stages {
    LYAPUNOV_STAGE_NOBODY = 0,    /* nobody is next */
    LYAPUNOV_STAGE_UNFIT = 1,     /* refused by 9 or 13, and not spent */
    LYAPUNOV_STAGE_UNDER_WAY = 2, /* a window was made, and more are left */
    LYAPUNOV_STAGE_OVER = 3       /* the run ended or was refused in its window */
};

/* Places in event, which every turn writes. */
enum lyapunov_events {
    LYAPUNOV_EVENT_STAGE = 0, /* one of the stages */
    LYAPUNOV_EVENT_NAME = 1,  /* of the run in front, LYAPUNOV_NOBODY for nobody */
    LYAPUNOV_EVENT_BEGUN = 2, /* windows of that run that have been begun, warm-up and this turn's
                               * included; 0 for nobody */
    LYAPUNOV_EVENT_PLACE = 3, /* the place of the refusal of an unfit turn, else 0 */
    LYAPUNOV_EVENTS = 4       /* the length of event */
};

/* Makes a dispatcher without runs. Of its other arrays nothing need be set. */
void lyapunov_empty_dispatcher(uint64_t *queue);

/* Hands a run in. *name and *place are always written. */
uint64_t lyapunov_hand_in(
    double *run_floats, uint64_t *run_counts, double *run_settings, uint64_t *queue,
    uint64_t kind, double p0, double p1, double p2,
    size_t dimension,
    double time, const double *state, size_t state_len,
    size_t top_k, double step_size, uint64_t steps_per_window, uint64_t windows,
    uint64_t transient_windows, uint64_t seed,
    uint64_t *name, uint64_t *place);

/* Whose turn is next: the name of a run, or LYAPUNOV_NOBODY. */
uint64_t lyapunov_next(const uint64_t *queue);

/* Makes a window of the run whose turn it is. */
uint64_t lyapunov_turn(
    double *run_floats, uint64_t *run_counts, const double *run_settings, uint64_t *queue,
    const double *matrix, size_t matrix_len,
    double *rows, size_t rows_len,
    double *exponents, size_t exponents_len,
    double *final_state, size_t final_state_len,
    uint64_t *event, uint64_t *counts, double *times);

/*
 * Tests the settings of a run without running: 1 to 5, with no warm-up windows and no options, so
 * that 29 is never answered. A run tests them again. Only *place is written.
 */
uint64_t lyapunov_build_config(
    size_t top_k, double step_size, uint64_t steps_per_window, uint64_t windows,
    uint64_t *place);

/*
 * Tests what a run is handed, apart from its outputs, without running: 1 to 12, in this order, with
 * 29 after 4 and 25 after 8. The arguments are those of a run, which tests them again. Only *place
 * is written.
 */
uint64_t lyapunov_validate(
    uint64_t kind, double p0, double p1, double p2,
    size_t dimension, const double *matrix, size_t matrix_len,
    double time, const double *state, size_t state_len,
    size_t top_k, double step_size, uint64_t steps_per_window, uint64_t windows,
    uint64_t transient_windows, uint64_t *place);

/*
 * OPTIONS: settings of a run that came after the arguments above. They are a slice of numbers, in
 * which each has its place, behind the seed, or behind transient_windows where there is no seed:
 *
 *   options[LYAPUNOV_STEPS_PER_TRANSIENT_WINDOW]
 *       the steps of each warm-up window. Left out it is steps_per_window; given as that number it
 *       is the same setting. It is tested by 29 and 5 also where there are no warm-up windows
 *
 * An option that is left out, since options_len is not above its place, has the value that it had
 * before there was such an option: with options_len 0 the five functions below are those of the
 * same name without _with_options, and the functions that take no options are these with none.
 * What stands behind the last place is not read.
 *
 * WHEN TO SET THEM. A circuit that settles slowly, as a power supply does, is settled in few long
 * windows and then measured in many short ones: so many steps, times step_size, times
 * transient_windows are the time that it is left to settle. Exponents, rows and the measured time
 * are of the measured windows and their steps alone. Faint counts and counts[LYAPUNOV_STEPS] cover
 * both sorts of windows.
 */
enum lyapunov_options {
    LYAPUNOV_STEPS_PER_TRANSIENT_WINDOW = 0,
    LYAPUNOV_OPTIONS = 1 /* how many options there are */
};

uint64_t lyapunov_estimate_spectrum_at_with_options(
    uint64_t kind, double p0, double p1, double p2,
    size_t dimension, const double *matrix, size_t matrix_len,
    double time, const double *state, size_t state_len,
    size_t top_k, double step_size, uint64_t steps_per_window, uint64_t windows,
    uint64_t transient_windows, uint64_t seed,
    const uint64_t *options, size_t options_len,
    double *rows, size_t rows_len,
    double *exponents, size_t exponents_len,
    double *final_state, size_t final_state_len,
    uint64_t *counts, double *times);

uint64_t lyapunov_keep_with_options(
    double *store_floats, uint64_t *store_counts, uint8_t number,
    uint64_t kind, double p0, double p1, double p2,
    size_t dimension, const double *matrix, size_t matrix_len,
    double time, const double *state, size_t state_len,
    size_t top_k, double step_size, uint64_t steps_per_window, uint64_t windows,
    uint64_t transient_windows, uint64_t seed,
    const uint64_t *options, size_t options_len,
    double *rows, size_t rows_len,
    double *exponents, size_t exponents_len,
    double *final_state, size_t final_state_len,
    uint64_t *counts, double *times);

uint64_t lyapunov_go_on_with_options(
    const double *store_floats, const uint64_t *store_counts, uint8_t number,
    uint64_t kind, double p0, double p1, double p2,
    size_t dimension, const double *matrix, size_t matrix_len,
    double time, const double *state, size_t state_len,
    size_t top_k, double step_size, uint64_t steps_per_window, uint64_t windows,
    uint64_t transient_windows, uint64_t seed,
    const uint64_t *options, size_t options_len,
    double *rows, size_t rows_len,
    double *exponents, size_t exponents_len,
    double *final_state, size_t final_state_len,
    uint64_t *counts, double *times);

uint64_t lyapunov_hand_in_with_options(
    double *run_floats, uint64_t *run_counts, double *run_settings, uint64_t *queue,
    uint64_t kind, double p0, double p1, double p2,
    size_t dimension,
    double time, const double *state, size_t state_len,
    size_t top_k, double step_size, uint64_t steps_per_window, uint64_t windows,
    uint64_t transient_windows, uint64_t seed,
    const uint64_t *options, size_t options_len,
    uint64_t *name, uint64_t *place);

uint64_t lyapunov_validate_with_options(
    uint64_t kind, double p0, double p1, double p2,
    size_t dimension, const double *matrix, size_t matrix_len,
    double time, const double *state, size_t state_len,
    size_t top_k, double step_size, uint64_t steps_per_window, uint64_t windows,
    uint64_t transient_windows,
    const uint64_t *options, size_t options_len, uint64_t *place);

/*
 * One Runge-Kutta step of fourth order: moves the state, and `count` directions along with it.
 *
 *   kind .. matrix_len   the system, see above
 *   time                 must be finite, and is not used otherwise
 *   state                of the system's dimension; read, then overwritten
 *   tangents             count directions one after the other, of dimension floats each; read, then
 *                        overwritten
 *   count                0 to 16; it may be above the dimension
 *   step_size            finite and above 0
 *
 * Tests in this order: 7, 8, 25, 9, 10, 19, 6, 2; refused by one of these, only *place is written.
 * After the move 16 and 17 are tested; refused by one of them, both slices hold the new values.
 */
uint64_t lyapunov_step(
    uint64_t kind, double p0, double p1, double p2,
    size_t dimension, const double *matrix, size_t matrix_len,
    double time, double *state, size_t state_len,
    double *tangents, size_t tangents_len, size_t count,
    double step_size, uint64_t *place);

/*
 * Modified Gram-Schmidt, with each direction cleared of the earlier ones twice. Dot products and
 * squared lengths are sums in index order from -0.0.
 *
 *   tangents    count = tangents_len / dimension directions one after the other; leftover entries
 *               are not touched
 *   dimension   any number above 0, also above 16 and above tangents_len
 *   norms       at least 2 * count floats. Written are count logarithms of the lengths, then count
 *               squared lengths, each taken after clearing and before the division by the length
 *
 * Tests 7, then 13; refused by one of these, only *place is written. Refused by 14 at direction v:
 * each direction i below v is finished, with its norms at i and count + i; direction v is cleared
 * and not divided; all else in both slices is as it was.
 */
uint64_t lyapunov_modified_gram_schmidt(
    double *tangents, size_t tangents_len, size_t dimension,
    double *norms, size_t norms_len, uint64_t *place);

/*
 * The Kaplan-Yorke dimension of a spectrum of 1 to 256 finite exponents in any order, to *out. It
 * lies between 0 and exponents_len. Tests 20, 21, 22; refused, *out is not touched.
 */
uint64_t lyapunov_kaplan_yorke_dimension(
    const double *exponents, size_t exponents_len, double *out, uint64_t *place);

/*
 * The sum of the exponents above 0, in index order, to *out: the spectrum's side of Pesin's
 * identity. The sum starts at -0.0, which is the answer where none is above 0; it may be infinite.
 * Tests 20, 21, 22; refused, *out is not touched.
 */
uint64_t lyapunov_kolmogorov_sinai_entropy(
    const double *exponents, size_t exponents_len, double *out, uint64_t *place);

/*
 * The square root of IEEE 754, rounded to nearest: a NaN for a NaN and for a negative number; for
 * either zero and for +infinity the number itself. Never refused.
 */
double lyapunov_sqrt(double x);

/*
 * The natural logarithm that a run uses, to *out. Refused by 24 unless x is positive, normal and
 * finite; *out is then not touched.
 *
 * Root and logarithm hold no table. A program that calls only them, linked with --gc-sections, has
 * at most 128 bytes of read-only data of theirs. A linker that does not take constants one by one,
 * as GNU ld does not, keeps those of the whole library beside them.
 */
uint64_t lyapunov_ln(double x, double *out);

/*
 * The generator SplitMix64 that draws the directions, in three parts that are never refused: the
 * state after `state`; the output of a state; the draw of an output, at least -1 and below 1. The
 * first draw of a seed is
 *   lyapunov_splitmix64_symmetric_unit(lyapunov_splitmix64_value(lyapunov_splitmix64_next(seed))).
 */
uint64_t lyapunov_splitmix64_next(uint64_t state);
uint64_t lyapunov_splitmix64_value(uint64_t state);
double lyapunov_splitmix64_symmetric_unit(uint64_t value);

/*
 * STRUCTS OVER THE FUNCTIONS ABOVE
 */

/* A refusal: its number, 0 for none, and its place. */
struct lyapunov_refusal {
    uint64_t number;
    uint64_t place;
};

/* A slice that is lent for writing, and one that is lent for reading: a pointer and a length in
 * entries. To the functions below a slice at NULL is an empty one, whatever its length says. */
struct lyapunov_slice {
    double *at;
    size_t length;
};
struct lyapunov_const_slice {
    const double *at;
    size_t length;
};

static inline struct lyapunov_slice lyapunov_lent(double *at, size_t length)
{
    struct lyapunov_slice slice;
    slice.at = at;
    slice.length = at == NULL ? 0 : length;
    return slice;
}

static inline struct lyapunov_const_slice lyapunov_lent_const(const double *at, size_t length)
{
    struct lyapunov_const_slice slice;
    slice.at = at;
    slice.length = at == NULL ? 0 : length;
    return slice;
}

/* A system with its parameters, see THE SYSTEM above. Make it by one of the five functions. */
struct lyapunov_system {
    uint64_t kind;
    double p0, p1, p2;
    size_t dimension;
    struct lyapunov_const_slice matrix;
};

static inline struct lyapunov_system lyapunov_lorenz(double sigma, double rho, double beta)
{
    struct lyapunov_system system;
    system.kind = LYAPUNOV_LORENZ;
    system.p0 = sigma;
    system.p1 = rho;
    system.p2 = beta;
    system.dimension = 3;
    system.matrix = lyapunov_lent_const(NULL, 0);
    return system;
}

static inline struct lyapunov_system lyapunov_rossler(double a, double b, double c)
{
    struct lyapunov_system system = lyapunov_lorenz(a, b, c);
    system.kind = LYAPUNOV_ROSSLER;
    return system;
}

static inline struct lyapunov_system lyapunov_van_der_pol(double mu)
{
    struct lyapunov_system system = lyapunov_lorenz(mu, 0.0, 0.0);
    system.kind = LYAPUNOV_VAN_DER_POL;
    system.dimension = 2;
    return system;
}

/* The matrix has dimension * dimension entries, row by row. It is read by every call, so it must
 * live as long as the system is used. */
static inline struct lyapunov_system lyapunov_linear(
    size_t dimension, struct lyapunov_const_slice matrix)
{
    struct lyapunov_system system = lyapunov_lorenz(0.0, 0.0, 0.0);
    system.kind = LYAPUNOV_LINEAR;
    system.dimension = dimension;
    system.matrix = matrix;
    return system;
}

/* A ring of 4 to 16 cells. */
static inline struct lyapunov_system lyapunov_lorenz96(size_t cells, double forcing)
{
    struct lyapunov_system system = lyapunov_lorenz(forcing, 0.0, 0.0);
    system.kind = LYAPUNOV_LORENZ96;
    system.dimension = cells;
    return system;
}

/* The settings that have no default, see A RUN above. Set each of them by its name; later versions
 * have no others. */
struct lyapunov_required_settings {
    size_t top_k;
    double step_size;
    uint64_t steps_per_window;
    uint64_t windows;
};

/* The settings of a run. Make them by lyapunov_build_settings, which knows all defaults, and change
 * a default by the functions below it. */
struct lyapunov_settings {
    struct lyapunov_required_settings required;
    uint64_t transient_windows; /* default 0 */
    uint64_t seed;              /* default LYAPUNOV_DEFAULT_SEED */
    uint64_t options[LYAPUNOV_OPTIONS]; /* see OPTIONS above */
    size_t options_given;               /* how many of them are given: default 0 */
};

/* Settings, and what lyapunov_build_config says of them: refused by 1 to 5, or not. */
struct lyapunov_built {
    struct lyapunov_refusal refusal;
    struct lyapunov_settings settings;
};

static inline struct lyapunov_built lyapunov_build_settings(
    const struct lyapunov_required_settings *required)
{
    struct lyapunov_built built;
    built.refusal.number = lyapunov_build_config(
        required->top_k, required->step_size, required->steps_per_window, required->windows,
        &built.refusal.place);
    built.settings.required = *required;
    built.settings.transient_windows = 0;
    built.settings.seed = LYAPUNOV_DEFAULT_SEED;
    built.settings.options[LYAPUNOV_STEPS_PER_TRANSIENT_WINDOW] = required->steps_per_window;
    built.settings.options_given = 0;
    return built;
}

/* The same settings with so many warm-up windows, with so many steps in each of these, with another
 * seed, or with so many measured windows, as a going on takes them. The run tests them. */
static inline struct lyapunov_settings lyapunov_with_transient_windows(
    struct lyapunov_settings settings, uint64_t transient_windows)
{
    settings.transient_windows = transient_windows;
    return settings;
}

static inline struct lyapunov_settings lyapunov_with_steps_per_transient_window(
    struct lyapunov_settings settings, uint64_t steps)
{
    settings.options[LYAPUNOV_STEPS_PER_TRANSIENT_WINDOW] = steps;
    settings.options_given = LYAPUNOV_STEPS_PER_TRANSIENT_WINDOW + 1;
    return settings;
}

static inline struct lyapunov_settings lyapunov_with_seed(
    struct lyapunov_settings settings, uint64_t seed)
{
    settings.seed = seed;
    return settings;
}

static inline struct lyapunov_settings lyapunov_with_windows(
    struct lyapunov_settings settings, uint64_t windows)
{
    settings.required.windows = windows;
    return settings;
}

/* The length that a run's rows must have, where the settings are not refused. */
static inline size_t lyapunov_rows_length(const struct lyapunov_settings *settings)
{
    return LYAPUNOV_ROWS_LENGTH(settings->required.top_k, settings->required.windows);
}

/* Where a run writes, see A RUN above. Make it by lyapunov_no_outputs, and lend each by name. */
struct lyapunov_outputs {
    struct lyapunov_slice rows;
    struct lyapunov_slice exponents;
    struct lyapunov_slice final_state;
};

static inline struct lyapunov_outputs lyapunov_no_outputs(void)
{
    struct lyapunov_outputs outputs;
    outputs.rows = outputs.exponents = outputs.final_state = lyapunov_lent(NULL, 0);
    return outputs;
}

/* What a run answers beside its outputs. */
struct lyapunov_estimate {
    struct lyapunov_refusal refusal;
    uint64_t finished_windows; /* measured ones: so many rows are written, but see GOING ON */
    uint64_t steps;            /* that passed every test, warm-up included */
    uint64_t faint_counts[LYAPUNOV_MAX_DIMENSION]; /* see FAINT COUNTS above */
    double final_time;
    double measured_time;
};

/* Where states are kept, see KEEPING A STATE above; it has 21,760 bytes. Empty it by
 * lyapunov_store_empty first. It may be copied as any struct.
 *
 *     lyapunov_store_empty(&store);
 *     lyapunov_store_keep(&store, 7, &system, 0.0, start, &settings, &outputs);
 *     settings = lyapunov_with_windows(settings, 500);
 *     lyapunov_store_go_on(&store, 7, &system, 0.0, start, &settings, &outputs);
 */
struct lyapunov_store {
    double floats[LYAPUNOV_STORE_FLOATS];
    uint64_t counts[LYAPUNOV_STORE_COUNTS];
};

/* Where runs are under way side by side, see SEVERAL CIRCUITS above; it has 22,600 bytes. Empty it
 * by lyapunov_dispatcher_empty first. It may be copied as any struct.
 *
 *     lyapunov_dispatcher_empty(&dispatcher);
 *     admission = lyapunov_dispatcher_hand_in(&dispatcher, &system, 0.0, start, &settings);
 *     while ((name = lyapunov_dispatcher_next(&dispatcher)) != LYAPUNOV_NOBODY) {
 *         turn = lyapunov_dispatcher_turn(&dispatcher, &systems[name], &outputs[name]);
 *         if (turn.stage < LYAPUNOV_STAGE_UNDER_WAY) break;
 *     }
 */
struct lyapunov_dispatcher {
    double floats[LYAPUNOV_DISPATCHER_FLOATS];
    uint64_t counts[LYAPUNOV_DISPATCHER_COUNTS];
    double settings[LYAPUNOV_DISPATCHER_SETTINGS];
    uint64_t queue[LYAPUNOV_DISPATCHER_QUEUE];
};

/* What a hand-in answers. */
struct lyapunov_admission {
    struct lyapunov_refusal refusal;
    uint64_t name; /* LYAPUNOV_NOBODY where the run is refused */
};

/* What a turn answers beside its outputs. */
struct lyapunov_turn_taken {
    uint64_t stage; /* one of enum lyapunov_stages */
    uint64_t name;  /* of the run in front, LYAPUNOV_NOBODY for nobody */
    uint64_t begun; /* its windows that have been begun, warm-up and this turn's included */
    struct lyapunov_refusal refusal;   /* of an unfit turn, or of the run that is over */
    struct lyapunov_estimate estimate; /* of the run that is over; else all zero */
};

/* A row of a finished measured window. Each of the two lists has top_k exponents. */
struct lyapunov_row {
    double end_time;
    const double *local_exponents;
    const double *running_exponents;
};

/* Row `window`, from 0, of a run or of a going on with these settings. It must be one that is
 * written. */
static inline struct lyapunov_row lyapunov_row_at(
    const struct lyapunov_settings *settings, const struct lyapunov_outputs *outputs, size_t window)
{
    size_t top_k = settings->required.top_k;
    const double *at = outputs->rows.at + LYAPUNOV_ROWS_LENGTH(top_k, window);
    struct lyapunov_row row;
    row.end_time = at[0];
    row.local_exponents = at + 1;
    row.running_exponents = at + 1 + top_k;
    return row;
}

/* For the functions below: a slice as an exported function takes it, with a pointer that is not
 * NULL. `nothing` stands in, and is neither read nor written. */
static inline struct lyapunov_slice lyapunov_handed(struct lyapunov_slice slice, double *nothing)
{
    return slice.at == NULL ? lyapunov_lent(nothing, 0) : slice;
}

static inline struct lyapunov_const_slice lyapunov_handed_const(
    struct lyapunov_const_slice slice, const double *nothing)
{
    return slice.at == NULL ? lyapunov_lent_const(nothing, 0) : slice;
}

/* For the functions below: what a run is handed as pointers, and its counts and times. These start
 * as zeros, since a turn may leave them as they are. */
struct lyapunov_run {
    double nothing;
    struct lyapunov_const_slice matrix, state;
    struct lyapunov_slice rows, exponents, final_state;
    uint64_t counts[LYAPUNOV_COUNTS];
    double times[LYAPUNOV_TIMES];
};

static inline void lyapunov_begin_run(
    struct lyapunov_run *run, const struct lyapunov_system *system,
    struct lyapunov_const_slice state, const struct lyapunov_outputs *outputs)
{
    size_t i;
    run->nothing = 0.0;
    run->matrix = lyapunov_handed_const(system->matrix, &run->nothing);
    run->state = lyapunov_handed_const(state, &run->nothing);
    run->rows = lyapunov_handed(outputs->rows, &run->nothing);
    run->exponents = lyapunov_handed(outputs->exponents, &run->nothing);
    run->final_state = lyapunov_handed(outputs->final_state, &run->nothing);
    for (i = 0; i < LYAPUNOV_COUNTS; i++)
        run->counts[i] = 0;
    for (i = 0; i < LYAPUNOV_TIMES; i++)
        run->times[i] = 0.0;
}

static inline struct lyapunov_estimate lyapunov_end_run(
    const struct lyapunov_run *run, uint64_t number)
{
    struct lyapunov_estimate estimate;
    size_t i;
    estimate.refusal.number = number;
    estimate.refusal.place = run->counts[LYAPUNOV_PLACE];
    estimate.finished_windows = run->counts[LYAPUNOV_FINISHED];
    estimate.steps = run->counts[LYAPUNOV_STEPS];
    for (i = 0; i < LYAPUNOV_MAX_DIMENSION; i++)
        estimate.faint_counts[i] = run->counts[LYAPUNOV_FAINT + i];
    estimate.final_time = run->times[LYAPUNOV_FINAL_TIME];
    estimate.measured_time = run->times[LYAPUNOV_MEASURED_TIME];
    return estimate;
}

/* Tests what a run is handed, apart from its outputs, without running:
 * lyapunov_validate_with_options. */
static inline struct lyapunov_refusal lyapunov_validate_run(
    const struct lyapunov_system *system, double time, struct lyapunov_const_slice state,
    const struct lyapunov_settings *settings)
{
    double nothing = 0.0;
    struct lyapunov_const_slice matrix = lyapunov_handed_const(system->matrix, &nothing);
    struct lyapunov_const_slice start = lyapunov_handed_const(state, &nothing);
    struct lyapunov_refusal refusal;

    refusal.number = lyapunov_validate_with_options(
        system->kind, system->p0, system->p1, system->p2, system->dimension,
        matrix.at, matrix.length, time, start.at, start.length,
        settings->required.top_k, settings->required.step_size,
        settings->required.steps_per_window, settings->required.windows,
        settings->transient_windows, settings->options, settings->options_given,
        &refusal.place);
    return refusal;
}

/* For the functions below: the arguments of a run up to its matrix, and from its state on, with
 * their parts. */
#define LYAPUNOV_SYSTEM_ARGUMENTS(system, run) \
    LYAPUNOV_KIND_ARGUMENTS(system), (run).matrix.at, (run).matrix.length
#define LYAPUNOV_KIND_ARGUMENTS(system) \
    (system)->kind, (system)->p0, (system)->p1, (system)->p2, (system)->dimension
#define LYAPUNOV_RUN_ARGUMENTS(settings, run) \
    LYAPUNOV_START_ARGUMENTS(settings, run), LYAPUNOV_OUTPUT_ARGUMENTS(run)
#define LYAPUNOV_START_ARGUMENTS(settings, run) \
    (run).state.at, (run).state.length, \
        (settings)->required.top_k, (settings)->required.step_size, \
        (settings)->required.steps_per_window, (settings)->required.windows, \
        (settings)->transient_windows, (settings)->seed, \
        (settings)->options, (settings)->options_given
#define LYAPUNOV_OUTPUT_ARGUMENTS(run) LYAPUNOV_SLICE_ARGUMENTS(run), (run).counts, (run).times
#define LYAPUNOV_SLICE_ARGUMENTS(run) \
    (run).rows.at, (run).rows.length, (run).exponents.at, (run).exponents.length, \
        (run).final_state.at, (run).final_state.length

/* A run from a start time: lyapunov_estimate_spectrum_at_with_options. */
static inline struct lyapunov_estimate lyapunov_spectrum_at(
    const struct lyapunov_system *system, double time, struct lyapunov_const_slice state,
    const struct lyapunov_settings *settings, const struct lyapunov_outputs *outputs)
{
    struct lyapunov_run run;
    lyapunov_begin_run(&run, system, state, outputs);
    return lyapunov_end_run(&run, lyapunov_estimate_spectrum_at_with_options(
        LYAPUNOV_SYSTEM_ARGUMENTS(system, run), time, LYAPUNOV_RUN_ARGUMENTS(settings, run)));
}

/* The same run from time 0. */
static inline struct lyapunov_estimate lyapunov_spectrum(
    const struct lyapunov_system *system, struct lyapunov_const_slice state,
    const struct lyapunov_settings *settings, const struct lyapunov_outputs *outputs)
{
    return lyapunov_spectrum_at(system, 0.0, state, settings, outputs);
}

/* A run from time 0 for the largest exponent, with the defaults: lyapunov_estimate_largest. The
 * top_k of `required` is not read: it is 1. */
static inline struct lyapunov_estimate lyapunov_largest(
    const struct lyapunov_system *system, struct lyapunov_const_slice state,
    const struct lyapunov_required_settings *required, const struct lyapunov_outputs *outputs)
{
    struct lyapunov_run run;
    lyapunov_begin_run(&run, system, state, outputs);
    return lyapunov_end_run(&run, lyapunov_estimate_largest(
        LYAPUNOV_SYSTEM_ARGUMENTS(system, run), run.state.at, run.state.length,
        required->step_size, required->steps_per_window, required->windows,
        LYAPUNOV_OUTPUT_ARGUMENTS(run)));
}

/* Makes a store with nothing kept: lyapunov_empty_store. */
static inline void lyapunov_store_empty(struct lyapunov_store *store)
{
    lyapunov_empty_store(store->counts);
}

/* A run from a start time, kept under a number: lyapunov_keep_with_options. */
static inline struct lyapunov_estimate lyapunov_store_keep(
    struct lyapunov_store *store, uint8_t number,
    const struct lyapunov_system *system, double time, struct lyapunov_const_slice state,
    const struct lyapunov_settings *settings, const struct lyapunov_outputs *outputs)
{
    struct lyapunov_run run;
    lyapunov_begin_run(&run, system, state, outputs);
    return lyapunov_end_run(&run, lyapunov_keep_with_options(
        store->floats, store->counts, number,
        LYAPUNOV_SYSTEM_ARGUMENTS(system, run), time, LYAPUNOV_RUN_ARGUMENTS(settings, run)));
}

/* Goes on from what is kept under a number: lyapunov_go_on_with_options. Bring what was brought to
 * the keeping, apart from the windows, which lyapunov_with_windows sets, and the outputs. */
static inline struct lyapunov_estimate lyapunov_store_go_on(
    const struct lyapunov_store *store, uint8_t number,
    const struct lyapunov_system *system, double time, struct lyapunov_const_slice state,
    const struct lyapunov_settings *settings, const struct lyapunov_outputs *outputs)
{
    struct lyapunov_run run;
    lyapunov_begin_run(&run, system, state, outputs);
    return lyapunov_end_run(&run, lyapunov_go_on_with_options(
        store->floats, store->counts, number,
        LYAPUNOV_SYSTEM_ARGUMENTS(system, run), time, LYAPUNOV_RUN_ARGUMENTS(settings, run)));
}

/* Forgets what is kept under a number: lyapunov_forget. */
static inline struct lyapunov_refusal lyapunov_store_forget(
    struct lyapunov_store *store, uint8_t number)
{
    struct lyapunov_refusal refusal;
    refusal.number = lyapunov_forget(store->floats, store->counts, number);
    refusal.place = 0;
    return refusal;
}

/* Makes a dispatcher without runs: lyapunov_empty_dispatcher. */
static inline void lyapunov_dispatcher_empty(struct lyapunov_dispatcher *dispatcher)
{
    lyapunov_empty_dispatcher(dispatcher->queue);
}

/* Whose turn is next: lyapunov_next. */
static inline uint64_t lyapunov_dispatcher_next(const struct lyapunov_dispatcher *dispatcher)
{
    return lyapunov_next(dispatcher->queue);
}

/* Hands a run in from a start time: lyapunov_hand_in_with_options. The matrix of the system is not
 * read. */
static inline struct lyapunov_admission lyapunov_dispatcher_hand_in(
    struct lyapunov_dispatcher *dispatcher,
    const struct lyapunov_system *system, double time, struct lyapunov_const_slice state,
    const struct lyapunov_settings *settings)
{
    const struct lyapunov_outputs none = lyapunov_no_outputs();
    struct lyapunov_run run;
    struct lyapunov_admission admission;
    lyapunov_begin_run(&run, system, state, &none);
    admission.refusal.number = lyapunov_hand_in_with_options(
        dispatcher->floats, dispatcher->counts, dispatcher->settings, dispatcher->queue,
        LYAPUNOV_KIND_ARGUMENTS(system), time, LYAPUNOV_START_ARGUMENTS(settings, run),
        &admission.name, &admission.refusal.place);
    return admission;
}

/* Makes a window of the run whose turn it is: lyapunov_turn. Of its system only the matrix is
 * lent. */
static inline struct lyapunov_turn_taken lyapunov_dispatcher_turn(
    struct lyapunov_dispatcher *dispatcher, const struct lyapunov_system *system,
    const struct lyapunov_outputs *outputs)
{
    struct lyapunov_run run;
    struct lyapunov_turn_taken turn;
    uint64_t event[LYAPUNOV_EVENTS];
    int over;
    lyapunov_begin_run(&run, system, lyapunov_lent_const(NULL, 0), outputs);
    turn.refusal.number = lyapunov_turn(
        dispatcher->floats, dispatcher->counts, dispatcher->settings, dispatcher->queue,
        run.matrix.at, run.matrix.length, LYAPUNOV_SLICE_ARGUMENTS(run), event,
        run.counts, run.times);
    turn.stage = event[LYAPUNOV_EVENT_STAGE];
    turn.name = event[LYAPUNOV_EVENT_NAME];
    turn.begun = event[LYAPUNOV_EVENT_BEGUN];
    over = turn.stage == LYAPUNOV_STAGE_OVER;
    turn.estimate = lyapunov_end_run(&run, over ? turn.refusal.number : 0);
    turn.refusal.place = over ? turn.estimate.refusal.place : event[LYAPUNOV_EVENT_PLACE];
    return turn;
}

#undef LYAPUNOV_SYSTEM_ARGUMENTS
#undef LYAPUNOV_KIND_ARGUMENTS
#undef LYAPUNOV_RUN_ARGUMENTS
#undef LYAPUNOV_START_ARGUMENTS
#undef LYAPUNOV_OUTPUT_ARGUMENTS
#undef LYAPUNOV_SLICE_ARGUMENTS

/* One step of the state and of `count` directions: lyapunov_step. */
static inline struct lyapunov_refusal lyapunov_step_system(
    const struct lyapunov_system *system, double time, struct lyapunov_slice state,
    struct lyapunov_slice tangents, size_t count, double step_size)
{
    double nothing = 0.0;
    struct lyapunov_const_slice matrix = lyapunov_handed_const(system->matrix, &nothing);
    struct lyapunov_slice moved = lyapunov_handed(state, &nothing);
    struct lyapunov_slice directions = lyapunov_handed(tangents, &nothing);
    struct lyapunov_refusal refusal;

    refusal.number = lyapunov_step(
        system->kind, system->p0, system->p1, system->p2, system->dimension,
        matrix.at, matrix.length, time, moved.at, moved.length,
        directions.at, directions.length, count, step_size, &refusal.place);
    return refusal;
}

/* What a number means, in a sentence that lives as long as the program. */
static inline const char *lyapunov_refusal_text(uint64_t number)
{
    static const char *const texts[] = {
        "Nothing is refused.",
        "No exponents are asked for.",
        "The step size is not finite or not above 0.",
        "A window has no steps.",
        "There are no measured windows.",
        "A count of windows, or of steps in a window, is more than 16777216.",
        "The time is not finite.",
        "The system has dimension 0 or is of no known kind.",
        "The dimension is above 16.",
        "The matrix does not have dimension times dimension entries.",
        "The state does not have as many entries as the dimension.",
        "An entry of the start state is not finite.",
        "More exponents are asked for than the system has dimensions.",
        "An output is too short.",
        "A direction collapsed: its squared length is 0 or not finite.",
        "The duration of a window is not finite.",
        "The state became not finite.",
        "A direction became not finite.",
        "The time became not finite.",
        "The directions are more than 16 or do not fill their slice.",
        "There are no exponents.",
        "There are more than 256 exponents.",
        "An exponent is not finite.",
        "The number of bytes is not a multiple of 8.",
        "The logarithm is of a number that is not positive, normal and finite.",
        "The ring has fewer than 4 cells.",
        "No state is kept under the number.",
        "Eight other numbers are kept.",
        "Eight runs are unfinished.",
        "A warm-up window has no steps.",
    };
    const uint64_t known = sizeof texts / sizeof *texts;
    return number < known ? texts[number] : "No refusal has this number.";
}

#ifdef __cplusplus
}
#endif

#endif
