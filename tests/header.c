/*
 * The structs of the header: what they answer equals what the exported functions answer, to the
 * bit, on several systems; the builder's defaults and refusals; slices at NULL; kept states; runs
 * side by side; every refusal's text. It is compiled as C99 and as C++11. Exit status 0, or 1 where
 * something differs.
 */
#include "lyapunov.h"

#include <stdio.h>
#include <string.h>

enum { MOST = 16, WINDOWS = 4, MOST_TRANSIENT = 5, MOST_ROWS = WINDOWS * (1 + 2 * MOST) };

static size_t checks = 0, failures = 0;

static void check(int holds, const char *what, const char *which)
{
    checks += 1;
    if (!holds) {
        failures += 1;
        printf("not so, %s: %s\n", which, what);
    }
}

/* What a run leaves. All of it starts as the same bytes. */
struct left {
    double rows[MOST_ROWS], exponents[MOST], final_state[MOST], times[LYAPUNOV_TIMES];
    uint64_t counts[LYAPUNOV_COUNTS], number;
};

/* A system as a struct, and its flat arguments. Warm-up steps of 0 stand for an option left out. */
struct trial {
    const char *name;
    struct lyapunov_system system;
    uint64_t kind;
    double p[3];
    const double *matrix;
    size_t matrix_len;
    double state[MOST];
    size_t dimension;
    uint64_t steps, transient_windows, seed, warm_up_steps;
};

static struct lyapunov_required_settings required(size_t top_k, double step_size, uint64_t steps)
{
    struct lyapunov_required_settings settings;
    settings.top_k = top_k;
    settings.step_size = step_size;
    settings.steps_per_window = steps;
    settings.windows = WINDOWS;
    return settings;
}

static struct lyapunov_settings settings_of(const struct trial *trial)
{
    struct lyapunov_required_settings needed = required(trial->dimension, 0.0625, trial->steps);
    struct lyapunov_built built = lyapunov_build_settings(&needed);
    built.settings =
        lyapunov_with_transient_windows(built.settings, trial->transient_windows);
    if (trial->warm_up_steps > 0)
        built.settings = lyapunov_with_steps_per_transient_window(
            built.settings, trial->warm_up_steps);
    return lyapunov_with_seed(built.settings, trial->seed);
}

static struct lyapunov_outputs lent(struct left *left, size_t top_k, size_t dimension)
{
    struct lyapunov_outputs outputs = lyapunov_no_outputs();
    memset(left, 0x5a, sizeof *left);
    outputs.rows = lyapunov_lent(left->rows, LYAPUNOV_ROWS_LENGTH(top_k, WINDOWS));
    outputs.exponents = lyapunov_lent(left->exponents, top_k);
    outputs.final_state = lyapunov_lent(left->final_state, dimension);
    return outputs;
}

static void note(struct left *left, struct lyapunov_estimate estimate)
{
    left->number = estimate.refusal.number;
    left->counts[LYAPUNOV_PLACE] = estimate.refusal.place;
    left->counts[LYAPUNOV_FINISHED] = estimate.finished_windows;
    left->counts[LYAPUNOV_STEPS] = estimate.steps;
    memcpy(left->counts + LYAPUNOV_FAINT, estimate.faint_counts, sizeof estimate.faint_counts);
    left->times[LYAPUNOV_FINAL_TIME] = estimate.final_time;
    left->times[LYAPUNOV_MEASURED_TIME] = estimate.measured_time;
}

/* The arguments of a trial's system, settings and outputs, one after the other. */
#define SYSTEM_OF(t) KIND_OF(t), MATRIX_OF(t)
#define KIND_OF(t) (t)->kind, (t)->p[0], (t)->p[1], (t)->p[2], (t)->dimension
#define MATRIX_OF(t) (t)->matrix, (t)->matrix_len
#define SETTINGS_OF(t, windows) \
    (t)->dimension, 0.0625, (t)->steps, (windows), (t)->transient_windows, (t)->seed
#define OPTIONS_OF(t) &(t)->warm_up_steps, (size_t)((t)->warm_up_steps > 0)
#define OUTPUTS_OF(l, k, d) SLICES_OF(l, k, d), (l)->counts, (l)->times
#define SLICES_OF(l, k, d) \
    (l)->rows, LYAPUNOV_ROWS_LENGTH(k, WINDOWS), (l)->exponents, (k), (l)->final_state, (d)

static void same(const struct left *a, const struct left *b, const char *what, const char *which)
{
    check(memcmp(a, b, sizeof *a) == 0, what, which);
}

/* A run is the same without options where none is given, and with surplus ones, which are not
 * read. */
static void options(const struct trial *t, const struct left *by_struct)
{
    const size_t d = t->dimension;
    const uint64_t surplus[3] = {t->warm_up_steps > 0 ? t->warm_up_steps : t->steps, 0, 99};
    struct left flat;

    lent(&flat, d, d);
    flat.number = lyapunov_estimate_spectrum_at_with_options(
        SYSTEM_OF(t), 2.5, t->state, d, SETTINGS_OF(t, WINDOWS), surplus, 3,
        OUTPUTS_OF(&flat, d, d));
    same(by_struct, &flat, "surplus options", t->name);
    if (t->warm_up_steps > 0) return;
    lent(&flat, d, d);
    flat.number = lyapunov_estimate_spectrum_at(
        SYSTEM_OF(t), 2.5, t->state, d, SETTINGS_OF(t, WINDOWS), OUTPUTS_OF(&flat, d, d));
    same(by_struct, &flat, "without options", t->name);
}

/* The three runs by structs and by flat arguments. */
static void runs(const struct trial *t)
{
    struct left by_struct, flat;
    const size_t d = t->dimension;
    const uint64_t warm_up_steps = t->warm_up_steps > 0 ? t->warm_up_steps : t->steps;
    const struct lyapunov_settings settings = settings_of(t);
    const struct lyapunov_const_slice start = lyapunov_lent_const(t->state, d);
    struct lyapunov_outputs outputs = lent(&by_struct, d, d);

    note(&by_struct, lyapunov_spectrum_at(&t->system, 2.5, start, &settings, &outputs));
    lent(&flat, d, d);
    flat.number = lyapunov_estimate_spectrum_at_with_options(
        SYSTEM_OF(t), 2.5, t->state, d, SETTINGS_OF(t, WINDOWS), OPTIONS_OF(t),
        OUTPUTS_OF(&flat, d, d));
    check(flat.number == 0, "a run that is not refused", t->name);
    check((flat.counts[LYAPUNOV_FAINT] > 0) == (t->steps == 270), "faint windows", t->name);
    check(flat.counts[LYAPUNOV_STEPS]
              == WINDOWS * t->steps + t->transient_windows * warm_up_steps, "steps", t->name);
    same(&by_struct, &flat, "lyapunov_spectrum_at", t->name);
    options(t, &by_struct);

    outputs = lent(&by_struct, d, d);
    note(&by_struct, lyapunov_spectrum(&t->system, start, &settings, &outputs));
    lent(&flat, d, d);
    flat.number = t->warm_up_steps > 0
        ? lyapunov_estimate_spectrum_at_with_options(
            SYSTEM_OF(t), 0.0, t->state, d, SETTINGS_OF(t, WINDOWS), OPTIONS_OF(t),
            OUTPUTS_OF(&flat, d, d))
        : lyapunov_estimate_spectrum(
            SYSTEM_OF(t), t->state, d, SETTINGS_OF(t, WINDOWS), OUTPUTS_OF(&flat, d, d));
    same(&by_struct, &flat, "lyapunov_spectrum", t->name);

    outputs = lent(&by_struct, 1, d);
    note(&by_struct, lyapunov_largest(&t->system, start, &settings.required, &outputs));
    lent(&flat, 1, d);
    flat.number = lyapunov_estimate_largest(
        SYSTEM_OF(t), t->state, d, 0.0625, t->steps, WINDOWS, OUTPUTS_OF(&flat, 1, d));
    same(&by_struct, &flat, "lyapunov_largest", t->name);
}

static void rows(const struct trial *t)
{
    struct left left;
    const size_t d = t->dimension;
    const struct lyapunov_settings settings = settings_of(t);
    const struct lyapunov_outputs outputs = lent(&left, d, d);
    const struct lyapunov_estimate estimate = lyapunov_spectrum(
        &t->system, lyapunov_lent_const(t->state, d), &settings, &outputs);
    struct lyapunov_row row;
    size_t w;

    check(lyapunov_rows_length(&settings) == WINDOWS * (1 + 2 * d), "length of rows", t->name);
    check(estimate.finished_windows == WINDOWS, "all windows are finished", t->name);
    for (w = 0; w < WINDOWS; w++) {
        row = lyapunov_row_at(&settings, &outputs, w);
        check(row.end_time == left.rows[w * (1 + 2 * d)], "end time", t->name);
        check(row.local_exponents == left.rows + w * (1 + 2 * d) + 1, "locals", t->name);
        check(row.running_exponents == left.rows + w * (1 + 2 * d) + 1 + d, "runnings", t->name);
    }
    check(memcmp(row.running_exponents, left.exponents, d * sizeof(double)) == 0,
          "the last running exponents are the exponents", t->name);
}

static void steps(const struct trial *t)
{
    double state[2][MOST], tangents[2][MOST];
    struct lyapunov_refusal refusal;
    uint64_t number, place = 77;
    const size_t d = t->dimension;
    size_t i;

    for (i = 0; i < 2; i++) {
        memcpy(state[i], t->state, sizeof state[i]);
        memcpy(tangents[i], t->state, sizeof tangents[i]);
    }
    refusal = lyapunov_step_system(&t->system, 0.0, lyapunov_lent(state[0], d),
                                   lyapunov_lent(tangents[0], d), 1, 0.25);
    number = lyapunov_step(SYSTEM_OF(t), 0.0, state[1], d, tangents[1], d, 1, 0.25, &place);
    check(number == 0 && refusal.number == number && refusal.place == place, "step", t->name);
    check(memcmp(state[0], state[1], sizeof state[0]) == 0, "the state of a step", t->name);
    check(memcmp(tangents[0], tangents[1], sizeof tangents[0]) == 0, "its direction", t->name);
    refusal = lyapunov_step_system(&t->system, 0.0, lyapunov_lent(NULL, d),
                                   lyapunov_lent(NULL, d), 0, 0.25);
    check(refusal.number == 10 && refusal.place == 0, "no state to step", t->name);
}

/* All forms of the tests 1 to 12, 25 and 29 answer so. */
static void validated(const struct trial *t, double time, const double *state, size_t state_len,
                      const struct lyapunov_settings *s, uint64_t number, uint64_t place)
{
    const struct lyapunov_refusal refusal = lyapunov_validate_run(
        &t->system, time, lyapunov_lent_const(state, state_len), s);
    uint64_t at = 77;
    uint64_t flat = lyapunov_validate_with_options(
        SYSTEM_OF(t), time, state, state_len, s->required.top_k, s->required.step_size,
        s->required.steps_per_window, s->required.windows, s->transient_windows, s->options,
        s->options_given, &at);

    check(refusal.number == number && refusal.place == place, "tests by structs", t->name);
    check(flat == number && at == place, "tests by flat arguments", t->name);
    if (s->options_given > 0) return;
    flat = lyapunov_validate(
        SYSTEM_OF(t), time, state, state_len, s->required.top_k, s->required.step_size,
        s->required.steps_per_window, s->required.windows, s->transient_windows, &at);
    check(flat == number && at == place, "tests without options", t->name);
}

static void validation(const struct trial *t)
{
    const double endless = 1e308 * 10.0;
    const size_t d = t->dimension;
    double state[MOST];
    struct lyapunov_settings settings = settings_of(t);

    memcpy(state, t->state, sizeof state);
    validated(t, 2.5, state, d, &settings, 0, 0);
    validated(t, endless, state, d, &settings, 6, 0);
    validated(t, 2.5, state, d - 1, &settings, 10, 0);
    state[d - 1] = endless;
    validated(t, 2.5, state, d, &settings, 11, d - 1);
    settings.required.top_k = d + 1;
    validated(t, 2.5, t->state, d, &settings, 12, 0);
    settings =
        lyapunov_with_steps_per_transient_window(settings, LYAPUNOV_MAX_COUNT + UINT64_C(1));
    validated(t, 2.5, t->state, d, &settings, 5, 3);
    settings.transient_windows = LYAPUNOV_MAX_COUNT + UINT64_C(1);
    validated(t, 2.5, t->state, d, &settings, 5, 2);
    settings = lyapunov_with_steps_per_transient_window(settings, 0);
    validated(t, 2.5, t->state, d, &settings, 29, 0);
    settings = lyapunov_with_steps_per_transient_window(settings, t->steps);
    validated(t, 2.5, t->state, d, &settings, 5, 2);
    settings.required.windows = LYAPUNOV_MAX_COUNT + UINT64_C(1);
    validated(t, 2.5, t->state, d, &settings, 5, 1);
    settings.required.steps_per_window = LYAPUNOV_MAX_COUNT + UINT64_C(1);
    validated(t, 2.5, t->state, d, &settings, 5, 0);
    settings = lyapunov_with_steps_per_transient_window(settings, 0);
    validated(t, 2.5, t->state, d, &settings, 29, 0);
    settings.required.windows = 0;
    validated(t, 2.5, t->state, d, &settings, 4, 0);
    settings.required.steps_per_window = 0;
    validated(t, 2.5, t->state, d, &settings, 3, 0);
    settings.required.step_size = -1.0;
    validated(t, 2.5, t->state, d, &settings, 2, 0);
    settings.required.top_k = 0;
    validated(t, 2.5, t->state, d, &settings, 1, 0);
}

/* Slices at NULL are empty ones. */
static void empty(const struct trial *t)
{
    const struct lyapunov_settings settings = settings_of(t);
    const struct lyapunov_const_slice start = lyapunov_lent_const(t->state, t->dimension);
    struct left left;
    struct lyapunov_outputs outputs = lent(&left, t->dimension, t->dimension);
    struct lyapunov_outputs none = lyapunov_no_outputs();
    struct lyapunov_refusal refusal;

    refusal = lyapunov_validate_run(&t->system, 0.0, lyapunov_lent_const(NULL, 99), &settings);
    check(refusal.number == 10 && refusal.place == 0, "no state to test", t->name);
    refusal = lyapunov_spectrum(&t->system, start, &settings, &none).refusal;
    check(refusal.number == 13 && refusal.place == 0, "no outputs", t->name);
    refusal = lyapunov_spectrum(&t->system, lyapunov_lent_const(NULL, t->dimension), &settings,
                                &outputs).refusal;
    check(refusal.number == 10 && refusal.place == 0, "no start state", t->name);
    outputs.final_state.at = NULL;
    refusal = lyapunov_spectrum(&t->system, start, &settings, &outputs).refusal;
    check(refusal.number == 13 && refusal.place == 2, "no final state", t->name);
    outputs.exponents = lyapunov_lent(NULL, 99);
    refusal = lyapunov_spectrum_at(&t->system, 0.0, start, &settings, &outputs).refusal;
    check(refusal.number == 13 && refusal.place == 1, "no exponents", t->name);
    outputs.rows = lyapunov_lent(NULL, 99);
    refusal = lyapunov_largest(&t->system, start, &settings.required, &outputs).refusal;
    check(refusal.number == 13 && refusal.place == 0, "no rows", t->name);
}

/* A store and a dispatcher with memory around them, which no call may write. */
struct guarded {
    uint64_t before[2];
    struct lyapunov_store store;
    uint64_t between[2];
    struct lyapunov_dispatcher dispatcher;
    uint64_t behind[2];
};

static void emptied(struct guarded *guarded)
{
    memset(guarded, 0x5a, sizeof *guarded);
    lyapunov_store_empty(&guarded->store);
    lyapunov_dispatcher_empty(&guarded->dispatcher);
}

static void guards(const struct guarded *guarded, const char *which)
{
    uint64_t around[2];
    memset(around, 0x5a, sizeof around);
    check(memcmp(guarded->before, around, sizeof around) == 0, "before the store", which);
    check(memcmp(guarded->between, around, sizeof around) == 0, "behind the store", which);
    check(memcmp(guarded->behind, around, sizeof around) == 0, "behind the dispatcher", which);
}

/* A keep of the first window, by structs and by flat arguments. */
static void kept(const struct trial *t, struct guarded *by_struct, struct guarded *flat)
{
    const size_t d = t->dimension;
    const struct lyapunov_settings settings = lyapunov_with_windows(settings_of(t), 1);
    struct left left[2];
    const struct lyapunov_outputs outputs = lent(&left[0], d, d);

    lent(&left[1], d, d);
    emptied(by_struct);
    emptied(flat);
    note(&left[0], lyapunov_store_keep(&by_struct->store, 200, &t->system, 2.5,
                                       lyapunov_lent_const(t->state, d), &settings, &outputs));
    left[1].number = lyapunov_keep_with_options(
        flat->store.floats, flat->store.counts, 200, SYSTEM_OF(t), 2.5, t->state, d,
        SETTINGS_OF(t, 1), OPTIONS_OF(t), OUTPUTS_OF(&left[1], d, d));
    check(left[1].number == 0, "a keep that is not refused", t->name);
    same(&left[0], &left[1], "lyapunov_store_keep", t->name);
    left[1].number = lyapunov_estimate_spectrum_at_with_options(
        SYSTEM_OF(t), 2.5, t->state, d, SETTINGS_OF(t, 1), OPTIONS_OF(t),
        OUTPUTS_OF(&left[1], d, d));
    same(&left[0], &left[1], "a keep is the run", t->name);
    check(memcmp(by_struct, flat, sizeof *flat) == 0, "what is kept", t->name);
    if (t->warm_up_steps == 0) {
        lyapunov_keep(
            flat->store.floats, flat->store.counts, 200, SYSTEM_OF(t), 2.5, t->state, d,
            SETTINGS_OF(t, 1), OUTPUTS_OF(&left[1], d, d));
        check(memcmp(by_struct, flat, sizeof *flat) == 0, "kept without options", t->name);
    }
    guards(by_struct, t->name);
}

/* The other windows, in both ways, and the one run with its later rows from place 0. */
static void gone_on(const struct trial *t)
{
    static struct guarded by_struct, flat;
    const size_t d = t->dimension, width = LYAPUNOV_ROWS_LENGTH(d, 1);
    const struct lyapunov_settings settings = lyapunov_with_windows(settings_of(t), WINDOWS - 1);
    struct left left[3];
    struct lyapunov_outputs outputs = lent(&left[0], d, d);

    kept(t, &by_struct, &flat);
    outputs.rows = lyapunov_lent(left[0].rows, lyapunov_rows_length(&settings));
    note(&left[0], lyapunov_store_go_on(&by_struct.store, 200, &t->system, 2.5,
                                        lyapunov_lent_const(t->state, d), &settings, &outputs));
    lent(&left[1], d, d);
    left[1].number = lyapunov_go_on_with_options(
        flat.store.floats, flat.store.counts, 200, SYSTEM_OF(t), 2.5, t->state, d,
        SETTINGS_OF(t, WINDOWS - 1), OPTIONS_OF(t), OUTPUTS_OF(&left[1], d, d));
    check(left[1].number == 0, "a going on that is not refused", t->name);
    same(&left[0], &left[1], "lyapunov_store_go_on", t->name);
    if (t->warm_up_steps == 0) {
        lent(&left[1], d, d);
        left[1].number = lyapunov_go_on(
            flat.store.floats, flat.store.counts, 200, SYSTEM_OF(t), 2.5, t->state, d,
            SETTINGS_OF(t, WINDOWS - 1), OUTPUTS_OF(&left[1], d, d));
        same(&left[0], &left[1], "gone on without options", t->name);
    }
    lent(&left[2], d, d);
    left[2].number = lyapunov_estimate_spectrum_at_with_options(
        SYSTEM_OF(t), 2.5, t->state, d, SETTINGS_OF(t, WINDOWS), OPTIONS_OF(t),
        OUTPUTS_OF(&left[2], d, d));
    memmove(left[2].rows, left[2].rows + width, (WINDOWS - 1) * width * sizeof(double));
    memset(left[2].rows + (WINDOWS - 1) * width, 0x5a, width * sizeof(double));
    same(&left[0], &left[2], "a going on is the end of the one run", t->name);
    check(memcmp(&by_struct, &flat, sizeof flat) == 0, "the store stays", t->name);

    outputs.rows.length -= 1;
    note(&left[0], lyapunov_store_go_on(&by_struct.store, 200, &t->system, 2.5,
                                        lyapunov_lent_const(t->state, d), &settings, &outputs));
    check(left[0].number == 13 && left[0].counts[LYAPUNOV_PLACE] == 0, "a short row", t->name);
}

/* Trials side by side, by their names, in both ways. */
struct beside {
    const struct trial *trial;
    struct left left[2];
    struct lyapunov_outputs outputs;
    uint64_t turns;
};

#define DISPATCHER_OF(g) \
    (g)->dispatcher.floats, (g)->dispatcher.counts, (g)->dispatcher.settings, (g)->dispatcher.queue

static void handed_in(const struct trial *t, uint64_t name, struct guarded *by_struct,
                      struct guarded *flat)
{
    const struct lyapunov_settings settings = settings_of(t);
    const struct lyapunov_admission admission = lyapunov_dispatcher_hand_in(
        &by_struct->dispatcher, &t->system, 2.5, lyapunov_lent_const(t->state, t->dimension),
        &settings);
    uint64_t named = 77, place = 77;
    const uint64_t number = t->warm_up_steps > 0
        ? lyapunov_hand_in_with_options(
            DISPATCHER_OF(flat), KIND_OF(t), 2.5, t->state, t->dimension,
            SETTINGS_OF(t, WINDOWS), OPTIONS_OF(t), &named, &place)
        : lyapunov_hand_in(
            DISPATCHER_OF(flat), KIND_OF(t), 2.5, t->state, t->dimension,
            SETTINGS_OF(t, WINDOWS), &named, &place);

    check(number == 0 && place == 0 && named == name, "handed in by flat arguments", t->name);
    check(admission.refusal.number == 0 && admission.refusal.place == 0
              && admission.name == name, "handed in by structs", t->name);
}

/* Nothing is told of a run that is not over. */
static void nothing_told(struct lyapunov_estimate estimate, const char *which)
{
    struct left told, nothing;
    memset(&told, 0, sizeof told);
    memset(&nothing, 0, sizeof nothing);
    note(&told, estimate);
    same(&told, &nothing, "an estimate of zeros", which);
}

/* The run has what it has alone, once it is over. */
static void same_as_alone(const struct trial *t, struct left left[2])
{
    const size_t d = t->dimension;
    struct left alone;
    lent(&alone, d, d);
    alone.number = lyapunov_estimate_spectrum_at_with_options(
        SYSTEM_OF(t), 2.5, t->state, d, SETTINGS_OF(t, WINDOWS), OPTIONS_OF(t),
        OUTPUTS_OF(&alone, d, d));
    same(&left[0], &alone, "turns by structs", t->name);
    same(&left[1], &alone, "turns by flat arguments", t->name);
}

/* A turn in both ways; 1 where its run is over. */
static int taken(struct beside *run, uint64_t name, struct guarded *by_struct, struct guarded *flat)
{
    const struct trial *t = run->trial;
    const struct lyapunov_turn_taken turn = lyapunov_dispatcher_turn(
        &by_struct->dispatcher, &t->system, &run->outputs);
    const int over = turn.stage == LYAPUNOV_STAGE_OVER;
    struct left before = run->left[1];
    uint64_t event[LYAPUNOV_EVENTS];
    const uint64_t number = lyapunov_turn(
        DISPATCHER_OF(flat), MATRIX_OF(t), SLICES_OF(&run->left[1], t->dimension, t->dimension),
        event, run->left[1].counts, run->left[1].times);

    run->turns += 1;
    check(turn.name == name && event[LYAPUNOV_EVENT_NAME] == name, "whose turn it is", t->name);
    check(turn.begun == run->turns && event[LYAPUNOV_EVENT_BEGUN] == run->turns, "begun", t->name);
    check(event[LYAPUNOV_EVENT_STAGE] == turn.stage, "the stage", t->name);
    check(number == 0 && event[LYAPUNOV_EVENT_PLACE] == 0, "a turn that is not refused", t->name);
    check(turn.refusal.number == 0 && turn.refusal.place == 0, "nor by structs", t->name);
    if (over) {
        note(&run->left[0], turn.estimate);
        run->left[1].number = number;
        same_as_alone(t, run->left);
        return 1;
    }
    check(turn.stage == LYAPUNOV_STAGE_UNDER_WAY, "under way", t->name);
    nothing_told(turn.estimate, t->name);
    memcpy(before.rows, run->left[1].rows, sizeof before.rows);
    same(&run->left[1], &before, "rows alone are written while under way", t->name);
    return 0;
}

/* All trials, round by round, until each has made its windows and is over. */
static void side_by_side(const struct trial *trials, size_t count)
{
    static struct guarded by_struct, flat;
    static struct beside runs[LYAPUNOV_DISPATCHER_RUNS];
    uint64_t name, round;
    size_t i, d, left = count;

    emptied(&by_struct);
    emptied(&flat);
    for (i = 0; i < count; i++) {
        d = trials[i].dimension;
        runs[i].trial = &trials[i];
        runs[i].turns = 0;
        lent(&runs[i].left[1], d, d);
        runs[i].outputs = lent(&runs[i].left[0], d, d);
        handed_in(&trials[i], i, &by_struct, &flat);
    }
    for (round = 1; round <= MOST_TRANSIENT + WINDOWS; round++)
        for (i = 0; i < count; i++) {
            if (round > trials[i].transient_windows + WINDOWS) continue;
            name = lyapunov_dispatcher_next(&by_struct.dispatcher);
            check(name == i && lyapunov_next(flat.dispatcher.queue) == i, "next", trials[i].name);
            left -= (size_t)taken(&runs[i], i, &by_struct, &flat);
            check(runs[i].turns == round, "one turn a round", trials[i].name);
        }
    check(left == 0, "each is over", "turns");
    check(lyapunov_dispatcher_next(&by_struct.dispatcher) == LYAPUNOV_NOBODY, "nobody", "turns");
    check(memcmp(&by_struct, &flat, sizeof flat) == 0, "the same dispatcher", "turns");
    guards(&by_struct, "turns");
}

static void systems(void)
{
    static const double turning[9] = {-0.5, 1.0, 0.0, -1.0, 0.25, 0.125, 0.0, -2.0, 0.75};
    /* A step shrinks it the most, so that 270 of them make it faint. */
    static const double shrinking[1] = {-1.596 / 0.0625};
    const double none[1] = {0.0};
    const struct trial trials[] = {
        {"Lorenz", lyapunov_lorenz(10.0, 28.0, 8.0 / 3.0),
         LYAPUNOV_LORENZ, {10.0, 28.0, 8.0 / 3.0}, none, 0, {1.0, 1.0, 1.0}, 3, 3, 2, 7, 8},
        {"Rossler", lyapunov_rossler(0.2, 0.25, 5.7),
         LYAPUNOV_ROSSLER, {0.2, 0.25, 5.7}, none, 0, {1.0, 2.0, 0.5}, 3, 5, 0, 0, 4},
        {"van der Pol", lyapunov_van_der_pol(1.5),
         LYAPUNOV_VAN_DER_POL, {1.5, 3.0, 3.0}, none, 0, {2.0, 0.25}, 2, 3, 1, UINT64_MAX, 0},
        {"linear", lyapunov_linear(3, lyapunov_lent_const(turning, 9)),
         LYAPUNOV_LINEAR, {1.0, 2.0, 3.0}, turning, 9, {1.0, -1.0, 0.5}, 3, 2, 5, 1, 1},
        {"faint", lyapunov_linear(1, lyapunov_lent_const(shrinking, 1)),
         LYAPUNOV_LINEAR, {0.0, 0.0, 0.0}, shrinking, 1, {1.0}, 1, 270, 1, 1, 0},
        /* The flat arguments lend it a matrix, which it does not read. */
        {"ring", lyapunov_lorenz96(5, 8.0),
         LYAPUNOV_LORENZ96, {8.0, 3.0, 3.0}, turning, 9, {8.0, 8.5, 7.0, 8.0, 9.0}, 5, 3, 2, 7, 3},
    };
    size_t i;
    for (i = 0; i < sizeof trials / sizeof *trials; i++) {
        runs(&trials[i]);
        rows(&trials[i]);
        steps(&trials[i]);
        validation(&trials[i]);
        empty(&trials[i]);
        gone_on(&trials[i]);
    }
    side_by_side(trials, i);
}

/* Keeps a Lorenz run of one window, or goes on from it, with these settings. */
static struct lyapunov_estimate lorenz_in(struct lyapunov_store *store, uint8_t number,
                                          int keeps, struct lyapunov_settings settings)
{
    static const double start[3] = {1.0, 1.0, 1.0};
    const struct lyapunov_system system = lyapunov_lorenz(10.0, 28.0, 8.0 / 3.0);
    const struct lyapunov_const_slice state = lyapunov_lent_const(start, 3);
    struct left left;
    const struct lyapunov_outputs outputs = lent(&left, 3, 3);

    settings.required.windows = 1;
    return keeps ? lyapunov_store_keep(store, number, &system, 0.0, state, &settings, &outputs)
                 : lyapunov_store_go_on(store, number, &system, 0.0, state, &settings, &outputs);
}

static void refused_by(struct lyapunov_estimate estimate, uint64_t number, const char *what)
{
    const uint64_t none[LYAPUNOV_MAX_DIMENSION] = {0};
    check(estimate.refusal.number == number && estimate.refusal.place == 0, what, "store");
    check(estimate.finished_windows == 0 && estimate.steps == 0, "no windows or steps", "store");
    check(memcmp(estimate.faint_counts, none, sizeof none) == 0, "no faint counts", "store");
    check(estimate.final_time == 0.0 && estimate.measured_time == 0.0, "no times", "store");
}

static int forgets(struct lyapunov_store *store, uint8_t number, uint64_t refusal)
{
    const struct lyapunov_refusal answer = lyapunov_store_forget(store, number);
    return answer.number == refusal && answer.place == 0;
}

/* Eight numbers are kept; settings that a run refuses are tested after the number. */
static void filled(struct guarded *guarded, struct lyapunov_settings settings,
                   struct lyapunov_settings unfit)
{
    static const uint8_t numbers[8] = {0, 255, 7, 128, 3, 127, 200, 1};
    struct lyapunov_store *store = &guarded->store;
    struct lyapunov_store before;
    size_t i;

    emptied(guarded);
    for (i = 0; i < 256; i++)
        check(forgets(store, (uint8_t)i, 26), "nothing to forget", "store");
    for (i = 0; i < 8; i++) {
        refused_by(lorenz_in(store, numbers[i], 0, unfit), 26, "nothing to go on from");
        refused_by(lorenz_in(store, numbers[i], 1, unfit), 1, "a keep that is refused");
        check(lorenz_in(store, numbers[i], 1, settings).steps == 10, "a keep", "store");
        check(lorenz_in(store, numbers[i], 0, settings).steps == 20, "a going on", "store");
    }
    before = *store;
    refused_by(lorenz_in(store, 2, 1, unfit), 27, "a ninth number");
    refused_by(lorenz_in(store, 2, 0, unfit), 26, "a number that is not kept");
    refused_by(lorenz_in(store, 7, 1, unfit), 1, "a refused keep of a kept number");
    check(memcmp(&before, store, sizeof before) == 0, "refusals leave the store", "store");
}

/* Whatever the store holds, every call ends and writes nothing around it. */
static void any_content(struct lyapunov_settings settings)
{
    static const unsigned char bytes[] = {0x00, 0x01, 0x40, 0x7f, 0xff};
    static struct guarded guarded;
    size_t i, number;

    for (i = 0; i < sizeof bytes; i++) {
        emptied(&guarded);
        check(lorenz_in(&guarded.store, 7, 1, settings).steps == 10, "a keep", "store");
        memset(guarded.store.floats, bytes[i], sizeof guarded.store.floats);
        check(lorenz_in(&guarded.store, 7, 0, settings).refusal.number <= 27, "floats", "store");
        memset(&guarded.store, bytes[i], sizeof guarded.store);
        for (number = 0; number < 256; number++) {
            const uint8_t under = (uint8_t)number;
            check(lorenz_in(&guarded.store, under, 0, settings).refusal.number <= 27
                      && lorenz_in(&guarded.store, under, 1, settings).refusal.number <= 27
                      && lyapunov_store_forget(&guarded.store, under).number <= 27,
                  "any content", "store");
        }
        guards(&guarded, "any content");
    }
}

static void stores(void)
{
    static struct guarded guarded;
    struct lyapunov_store *store = &guarded.store, copy;
    struct lyapunov_required_settings needed = required(3, 0.0625, 10);
    const struct lyapunov_settings settings = lyapunov_build_settings(&needed).settings;
    struct lyapunov_settings unfit = settings;

    check(LYAPUNOV_STORE_STATES == 8, "eight states", "store");
    check(sizeof copy.floats == 2568 * sizeof(double), "length of the floats", "store");
    check(sizeof copy.counts == 152 * sizeof(uint64_t), "length of the counts", "store");
    unfit.required.top_k = 0;
    filled(&guarded, settings, unfit);
    copy = *store;
    check(lorenz_in(store, 7, 1, settings).refusal.number == 0, "a kept number again", "store");
    check(forgets(store, 128, 0) && forgets(store, 128, 26), "forgotten once", "store");
    refused_by(lorenz_in(store, 128, 0, settings), 26, "a forgotten number");
    check(lorenz_in(store, 2, 1, settings).refusal.number == 0, "a place used again", "store");
    refused_by(lorenz_in(store, 128, 1, settings), 27, "eight numbers again");
    check(lorenz_in(store, 200, 0, settings).steps == 20, "the others stay", "store");
    check(lorenz_in(&copy, 128, 0, settings).steps == 20, "a copy keeps its own", "store");
    lyapunov_store_empty(store);
    refused_by(lorenz_in(store, 2, 0, settings), 26, "an emptied store");
    guards(&guarded, "store");
    any_content(settings);
}

/* Hands in a linear run of two windows, of dimension 2, with so many directions. */
static struct lyapunov_admission linear_in(struct lyapunov_dispatcher *dispatcher, size_t top_k)
{
    static const double start[2] = {0.0, 1e275};
    struct lyapunov_required_settings needed = required(top_k, 0.0625, 1);
    const struct lyapunov_system system = lyapunov_linear(2, lyapunov_lent_const(NULL, 0));
    struct lyapunov_settings settings;

    needed.windows = 2;
    settings = lyapunov_build_settings(&needed).settings;
    return lyapunov_dispatcher_hand_in(
        dispatcher, &system, 0.0, lyapunov_lent_const(start, 2), &settings);
}

static int admits(struct lyapunov_dispatcher *dispatcher, uint64_t name)
{
    const struct lyapunov_admission admission = linear_in(dispatcher, 2);
    return admission.refusal.number == 0 && admission.refusal.place == 0 && admission.name == name;
}

static int denies(struct lyapunov_dispatcher *dispatcher, size_t top_k, uint64_t number)
{
    const struct lyapunov_admission admission = linear_in(dispatcher, top_k);
    return admission.refusal.number == number && admission.refusal.place == 0
           && admission.name == LYAPUNOV_NOBODY;
}

/* A turn of the run in front with a matrix of so many entries and so many exponents, in which the
 * second entry of the state grows by the rate. It becomes infinite, and it alone, by 1e10. */
static struct lyapunov_turn_taken linear_turn(struct lyapunov_dispatcher *dispatcher,
                                              size_t matrix_len, size_t exponents_len, double rate)
{
    const double matrix[4] = {0.0, 0.0, 0.0, rate};
    const struct lyapunov_system system =
        lyapunov_linear(2, lyapunov_lent_const(matrix, matrix_len));
    struct left left;
    struct lyapunov_outputs outputs = lent(&left, 2, 2);

    outputs.exponents.length = exponents_len;
    return lyapunov_dispatcher_turn(dispatcher, &system, &outputs);
}

/* Whether a turn is not spent, and changes nothing. */
static int is_idle(struct lyapunov_dispatcher *dispatcher, size_t matrix_len, size_t exponents_len,
                   uint64_t stage, uint64_t name, uint64_t begun, uint64_t number, uint64_t place)
{
    const struct lyapunov_dispatcher before = *dispatcher;
    const struct lyapunov_turn_taken turn =
        linear_turn(dispatcher, matrix_len, exponents_len, 1.0);
    nothing_told(turn.estimate, "dispatcher");
    return turn.stage == stage && turn.name == name && turn.begun == begun
           && turn.refusal.number == number && turn.refusal.place == place
           && memcmp(&before, dispatcher, sizeof before) == 0;
}

/* Whether a turn is that of the run of this name, over after so many windows and refused so. */
static int ends(struct lyapunov_dispatcher *dispatcher, uint64_t name, double rate, uint64_t begun,
                uint64_t number, uint64_t place)
{
    const struct lyapunov_turn_taken turn = linear_turn(dispatcher, 4, 2, rate);
    return turn.stage == LYAPUNOV_STAGE_OVER && turn.name == name && turn.begun == begun
           && turn.refusal.number == number && turn.refusal.place == place
           && turn.estimate.refusal.number == number && turn.estimate.refusal.place == place
           && turn.estimate.finished_windows == (number == 0 ? begun : begun - 1);
}

/* Eight runs, of which the second is refused in its first window and its name given again. */
static void eight_runs(struct lyapunov_dispatcher *dispatcher)
{
    struct lyapunov_dispatcher copy;
    uint64_t i;

    check(is_idle(dispatcher, 4, 2, LYAPUNOV_STAGE_NOBODY, LYAPUNOV_NOBODY, 0, 0, 0),
          "a turn of nobody", "dispatcher");
    for (i = 0; i < 8; i++)
        check(admits(dispatcher, i) && lyapunov_dispatcher_next(dispatcher) == 0, "a run",
              "dispatcher");
    copy = *dispatcher;
    check(denies(dispatcher, 0, 28) && denies(dispatcher, 2, 28), "a ninth run", "dispatcher");
    check(memcmp(&copy, dispatcher, sizeof copy) == 0, "it is not taken", "dispatcher");
    check(is_idle(dispatcher, 0, 0, LYAPUNOV_STAGE_UNFIT, 0, 0, 9, 0), "no matrix", "dispatcher");
    check(is_idle(dispatcher, 4, 1, LYAPUNOV_STAGE_UNFIT, 0, 0, 13, 1), "13", "dispatcher");
    check(linear_turn(dispatcher, 4, 2, 1.0).stage == LYAPUNOV_STAGE_UNDER_WAY, "a turn",
          "dispatcher");
    check(ends(dispatcher, 1, 1e10, 1, 16, 1), "refused in its window", "dispatcher");
    check(denies(dispatcher, 0, 1) && denies(dispatcher, 3, 12), "refused", "dispatcher");
    check(admits(dispatcher, 1), "the free name", "dispatcher");
    for (i = 2; i < 8; i++)
        check(linear_turn(dispatcher, 4, 2, 1.0).name == i, "the others", "dispatcher");
    check(is_idle(dispatcher, 4, 0, LYAPUNOV_STAGE_UNFIT, 0, 1, 13, 1), "13 later", "dispatcher");
    check(ends(dispatcher, 0, 1.0, 2, 0, 0), "the end of the first", "dispatcher");
    check(linear_turn(dispatcher, 4, 2, 1.0).name == 1, "the new one", "dispatcher");
    for (i = 2; i < 8; i++)
        check(ends(dispatcher, i, 1.0, 2, 0, 0), "the ends of the others", "dispatcher");
    check(ends(dispatcher, 1, 1.0, 2, 0, 0), "the end of the new one", "dispatcher");
    check(linear_turn(&copy, 4, 2, 1.0).name == 0 && linear_turn(&copy, 4, 2, 1.0).name == 1,
          "a copy has its own runs", "dispatcher");
}

/* Whatever the dispatcher holds, every call ends and writes nothing around it. */
static void any_dispatcher(void)
{
    static const unsigned char bytes[] = {0x00, 0x01, 0x40, 0x7f, 0xff};
    static struct guarded guarded;
    struct lyapunov_dispatcher *dispatcher = &guarded.dispatcher;
    size_t i, turns;

    for (i = 0; i < 2 * sizeof bytes; i++) {
        emptied(&guarded);
        check(admits(dispatcher, 0), "a run", "any content");
        memset(dispatcher->floats, bytes[i / 2], sizeof dispatcher->floats);
        memset(dispatcher->counts, bytes[i / 2], sizeof dispatcher->counts);
        memset(dispatcher->settings, bytes[i / 2], sizeof dispatcher->settings);
        if (i % 2 == 1) memset(dispatcher->queue, bytes[i / 2], sizeof dispatcher->queue);
        for (turns = 0; turns < 20; turns++) {
            check(lyapunov_dispatcher_next(dispatcher) <= LYAPUNOV_NOBODY, "a name", "any content");
            check(linear_turn(dispatcher, 4, 2, 1.0).stage <= LYAPUNOV_STAGE_OVER, "a stage",
                  "any content");
            check(linear_in(dispatcher, 2).name <= LYAPUNOV_NOBODY, "a run", "any content");
        }
        guards(&guarded, "any content");
    }
}

static void dispatchers(void)
{
    static struct guarded guarded;
    struct lyapunov_dispatcher *dispatcher = &guarded.dispatcher;
    const struct lyapunov_system lorenz = lyapunov_lorenz(10.0, 28.0, 8.0 / 3.0);
    const struct lyapunov_required_settings needed = required(3, 0.0625, 1);
    const struct lyapunov_settings settings = lyapunov_build_settings(&needed).settings;
    struct lyapunov_refusal refusal;

    check(LYAPUNOV_DISPATCHER_RUNS == 8 && LYAPUNOV_NOBODY == 8, "eight runs", "dispatcher");
    check(sizeof dispatcher->floats == 2568 * sizeof(double), "floats", "dispatcher");
    check(sizeof dispatcher->counts == 152 * sizeof(uint64_t), "counts", "dispatcher");
    check(sizeof dispatcher->settings == 32 * sizeof(double), "settings", "dispatcher");
    check(sizeof dispatcher->queue == 73 * sizeof(uint64_t), "queue", "dispatcher");
    emptied(&guarded);
    refusal = lyapunov_dispatcher_hand_in(
        dispatcher, &lorenz, 0.0, lyapunov_lent_const(NULL, 3), &settings).refusal;
    check(refusal.number == 10 && refusal.place == 0, "no start state", "dispatcher");
    eight_runs(dispatcher);
    check(admits(dispatcher, 0), "a run", "dispatcher");
    lyapunov_dispatcher_empty(dispatcher);
    check(lyapunov_dispatcher_next(dispatcher) == LYAPUNOV_NOBODY, "emptied", "dispatcher");
    guards(&guarded, "dispatcher");
    any_dispatcher();
}

/* The number of cells is tested before the state, which fits no ring. */
static void cells_refused(size_t cells, uint64_t number)
{
    const double none[1] = {0.0};
    const struct trial t = {"cells", lyapunov_lorenz96(cells, 8.0), LYAPUNOV_LORENZ96,
                            {8.0, 0.0, 0.0}, none, 0, {1.0, 2.0}, cells, 3, 0, 1, 0};
    struct lyapunov_settings settings = settings_of(&t);
    double state[2] = {1.0, 2.0};
    struct lyapunov_refusal refusal;

    settings.required.top_k = 1;
    validated(&t, 2.5, state, 2, &settings, number, 0);
    refusal = lyapunov_step_system(&t.system, 0.0, lyapunov_lent(state, 2),
                                   lyapunov_lent(NULL, 0), 0, 0.25);
    check(refusal.number == number && refusal.place == 0, "a step", t.name);
}

static void cells(void)
{
    size_t few;
    cells_refused(0, 7);
    for (few = 1; few < 4; few++)
        cells_refused(few, 25);
    cells_refused(4, 10);
    cells_refused(16, 10);
    cells_refused(17, 8);
    cells_refused(SIZE_MAX, 8);
}

static void builder(void)
{
    struct lyapunov_required_settings needed = required(3, 0.01, 10);
    struct lyapunov_built built = lyapunov_build_settings(&needed);
    struct lyapunov_settings changed;

    check(built.refusal.number == 0 && built.refusal.place == 0, "accepted", "builder");
    check(memcmp(&built.settings.required, &needed, sizeof needed) == 0, "as given", "builder");
    check(built.settings.transient_windows == 0, "no warm-up windows", "builder");
    check(built.settings.options_given == 0, "no options", "builder");
    check(built.settings.seed == LYAPUNOV_DEFAULT_SEED, "the default seed", "builder");
    changed = lyapunov_with_transient_windows(built.settings, 9);
    check(changed.transient_windows == 9 && changed.seed == LYAPUNOV_DEFAULT_SEED
              && memcmp(&changed.required, &needed, sizeof needed) == 0, "warm-up", "builder");
    changed = lyapunov_with_steps_per_transient_window(built.settings, 9);
    check(changed.options_given == 1 && changed.options[0] == 9 && changed.transient_windows == 0
              && memcmp(&changed.required, &needed, sizeof needed) == 0, "their steps", "builder");
    changed = lyapunov_with_seed(built.settings, 9);
    check(changed.seed == 9 && changed.transient_windows == 0
              && memcmp(&changed.required, &needed, sizeof needed) == 0, "seed", "builder");
    changed = lyapunov_with_windows(built.settings, 9);
    needed.windows = 9;
    check(changed.seed == LYAPUNOV_DEFAULT_SEED && changed.transient_windows == 0
              && memcmp(&changed.required, &needed, sizeof needed) == 0, "windows", "builder");
}

static void refused(struct lyapunov_required_settings needed, uint64_t number, uint64_t place)
{
    const struct lyapunov_built built = lyapunov_build_settings(&needed);
    check(built.refusal.number == number && built.refusal.place == place,
          lyapunov_refusal_text(number), "builder");
}

static void refused_settings(void)
{
    struct lyapunov_required_settings needed = required(0, 0.01, 10);
    refused(needed, 1, 0);
    refused(required(1, -0.0, 10), 2, 0);
    needed = required(1, 0.01, 10);
    needed.steps_per_window = 0;
    refused(needed, 3, 0);
    needed.steps_per_window = LYAPUNOV_MAX_COUNT + UINT64_C(1);
    refused(needed, 5, 0);
    needed.steps_per_window = LYAPUNOV_MAX_COUNT;
    refused(needed, 0, 0);
    needed.windows = 0;
    refused(needed, 4, 0);
    needed.windows = LYAPUNOV_MAX_COUNT + UINT64_C(1);
    refused(needed, 5, 1);
    needed.steps_per_window = LYAPUNOV_MAX_COUNT + UINT64_C(1);
    refused(needed, 5, 0);
}

/* Each number has a sentence of its own. */
static void texts(void)
{
    const char *unknown = lyapunov_refusal_text(30);
    uint64_t i, j;
    for (i = 0; i <= 29; i++) {
        const char *text = lyapunov_refusal_text(i);
        check(strlen(text) > 10 && text[strlen(text) - 1] == '.', text, "a sentence");
        check(strcmp(text, unknown) != 0, text, "a known number");
        for (j = 0; j < i; j++)
            check(strcmp(text, lyapunov_refusal_text(j)) != 0, text, "another text");
    }
    check(strcmp(unknown, "No refusal has this number.") == 0, unknown, "30");
    check(lyapunov_refusal_text(UINT64_MAX) == unknown, unknown, "the largest number");
    check(strstr(lyapunov_refusal_text(14), "collapsed") != NULL, "collapse", "14");
    check(strstr(lyapunov_refusal_text(21), "256") != NULL, "rates", "21");
    check(strstr(lyapunov_refusal_text(24), "logarithm") != NULL, "logarithm", "24");
    check(strstr(lyapunov_refusal_text(25), "cells") != NULL, "cells", "25");
    check(strstr(lyapunov_refusal_text(26), "No state") != NULL, "no such number", "26");
    check(strstr(lyapunov_refusal_text(27), "Eight other") != NULL, "eight others", "27");
    check(strstr(lyapunov_refusal_text(28), "unfinished") != NULL, "eight runs", "28");
    check(strstr(lyapunov_refusal_text(29), "warm-up") != NULL, "no steps", "29");
}

int main(void)
{
    systems();
    cells();
    stores();
    dispatchers();
    builder();
    refused_settings();
    texts();
    printf("%lu checks of the header's structs, %lu failed\n", (unsigned long)checks,
           (unsigned long)failures);
    return failures > 0;
}
