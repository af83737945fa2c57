/* Replays a list of inputs and answers against the static library: replay LIST SPECTRUM.
 * SPECTRUM is the program of that name, for the cases that are its input. The list says how its
 * lines read. A run from time 0 is asked of lyapunov_estimate_spectrum too, and of
 * lyapunov_estimate_largest where its settings are those that this sets. A line that gives the steps
 * of a warm-up window is asked of the functions with options, and any other of those without; of
 * the others a run, its tests and a going on are asked of both, with no options and with equal steps. A
 * list has one store of kept states and one dispatcher, which its lines change in their order.
 * Exit status: 0 every answer is met, 1 one is not, 2 the list or the usage is wrong. */
#include <signal.h>
#include <stdarg.h>
#include <sys/wait.h>
#include <unistd.h>

#include "lent.h"
#include "line.h"
#include "lyapunov.h"

static const char *spectrum;
static const char *asked = "";
static char reason[300];
static size_t by_spectrum, by_largest;

/* Notes what differs; answers 0. */
__attribute__((format(printf, 1, 2))) static int differs(const char *format, ...) {
    va_list arguments;
    int n = snprintf(reason, sizeof reason, "%s: ", asked);
    va_start(arguments, format);
    vsnprintf(reason + n, sizeof reason - (size_t)n, format, arguments);
    va_end(arguments);
    return 0;
}

static double float_of(uint64_t word) {
    double x;
    memcpy(&x, &word, sizeof x);
    return x;
}

static uint64_t bits_of(double x) {
    uint64_t word;
    memcpy(&word, &x, sizeof word);
    return word;
}

static double number(const char *text) {
    return float_of(bits(text));
}

/* Equal bits, or two NaNs. */
static int same(uint64_t x, uint64_t y) {
    double a = float_of(x), b = float_of(y);
    return a != a ? b != b : x == y;
}

static lent *lend_list(const char *name, enum role role) {
    const char *at = given(name);
    lent *l = lend(name, role, list_length(at));
    for (size_t i = 0; i < l->length; i++) {
        to_entry(&at, i);
        set_entry(l, i, read_bits(&at));
    }
    return l;
}

static int memory_kept(void) {
    const char *fault = memory_fault();
    return fault == NULL ? 1 : differs("%s", fault);
}

static int length_is(const char *name, size_t length) {
    size_t listed = list_length(answered(name));
    return listed == length ? 1 : differs("%s: %zu entries, listed %zu", name, length, listed);
}

static int number_is(const char *name, size_t i, uint64_t x, uint64_t listed) {
    if (x == listed) return 1;
    return differs("%s, entry %zu: %llu, listed %llu", name, i, (unsigned long long)x,
                   (unsigned long long)listed);
}

static int float_is(const char *name, size_t i, uint64_t x, uint64_t listed) {
    if (same(x, listed)) return 1;
    return differs("%s, entry %zu: %016llx, listed %016llx", name, i, (unsigned long long)x,
                   (unsigned long long)listed);
}

/* Whether a slice holds what the answer says; `.` is an entry that keeps what it held. */
static int holds(const lent *l, const char *name) {
    const char *at = answered(name);
    if (!length_is(name, l->length)) return 0;
    for (size_t i = 0; i < l->length; i++) {
        to_entry(&at, i);
        if (*at != '.') {
            if (!float_is(name, i, entry(l, i), read_bits(&at))) return 0;
            continue;
        }
        at++;
        if (l->role != OUTPUT) malformed("a slice that is read is listed in full", name);
        if (entry(l, i) != FILLING) return differs("%s, entry %zu: written", name, i);
    }
    return 1;
}

/* A value, or `-` where none was written. */
static int value_is(const lent *l, const char *name) {
    const char *text = answered(name);
    if (strcmp(text, "-") != 0) return float_is(name, 0, entry(l, 0), bits(text));
    return entry(l, 0) == FILLING ? 1 : differs("%s: written", name);
}

/* A list from before document 02's request b may have several places of a 5, parted by `/`: the
 * first is the place, and the rest is passed over. */
static uint64_t listed_place(void) {
    const char *at = answered("place");
    return read_decimal(&at, "/");
}

static int place_is(uint64_t place) {
    uint64_t listed = listed_place();
    if (place == listed) return 1;
    return differs("place: %llu, listed %llu", (unsigned long long)place,
                   (unsigned long long)listed);
}

static int refused_as(uint64_t num, uint64_t place) {
    return number_is("num", 0, num, decimal(answered("num"))) && place_is(place);
}

typedef struct {
    uint64_t kind;
    double p[3];
    size_t dimension;
    const lent *matrix;
} circuit;

/* A circuit without its matrix. A system's name ends in a colon where its dimension follows. */
static circuit read_circuit(void) {
    static const struct { const char *name; size_t parameters; } kinds[] = {
        {"lorenz", 3}, {"rossler", 3}, {"vdp", 1}, {"linear:", 0}, {"lorenz96:", 1}};
    const char *name = given("sys"), *at = given("par"), *colon = strchr(name, ':');
    circuit c = {0, {0, 0, 0}, 0, NULL};
    size_t length = colon == NULL ? strlen(name) : (size_t)(colon + 1 - name);
    while (strlen(kinds[c.kind].name) != length || strncmp(name, kinds[c.kind].name, length) != 0)
        if (++c.kind == sizeof kinds / sizeof *kinds) malformed("unknown system", name);
    if (colon != NULL) c.dimension = decimal(colon + 1);
    if (list_length(at) != kinds[c.kind].parameters) malformed("so many parameters", at);
    for (size_t i = 0; i < kinds[c.kind].parameters; i++) {
        to_entry(&at, i);
        c.p[i] = float_of(read_bits(&at));
    }
    return c;
}

/* The arguments of a circuit, of a run from its start on, and of its outputs, with their parts. */
#define CIRCUIT_OF(c) KIND_OF(c), SLICE_OF((c).matrix)
#define KIND_OF(c) (c).kind, (c).p[0], (c).p[1], (c).p[2], (c).dimension
#define RUN_OF(r, o) START_OF(r), OUTPUTS_OF(o)
#define RUN_WITH_OPTIONS_OF(r, o) START_OF(r), OPTIONS_OF(r), OUTPUTS_OF(o)
#define START_OF(r) \
    SLICE_OF((r)->start), (r)->top_k, (r)->step_size, (r)->steps, (r)->windows, (r)->warm_up, \
        (r)->seed
#define OPTIONS_OF(r) words((r)->options), (r)->options->length
#define OUTPUTS_OF(o) SLICES_OF(o), words((o)->counts), doubles((o)->times)
#define SLICES_OF(o) SLICE_OF((o)->rows), SLICE_OF((o)->exponents), SLICE_OF((o)->state)
#define SLICE_OF(l) doubles(l), (l)->length

static int replay_root(void) {
    asked = "lyapunov_sqrt";
    return float_is("y", 0, bits_of(lyapunov_sqrt(number(given("x")))), bits(answered("y")));
}

static int replay_log(void) {
    const lent *y = lend("out", OUTPUT, 1);
    asked = "lyapunov_ln";
    uint64_t num = lyapunov_ln(number(given("x")), doubles(y));
    return memory_kept() && refused_as(num, 0) && value_is(y, "y");
}

static int replay_draw(void) {
    uint64_t state = bits(given("state")), n = decimal(given("n"));
    const char *states = answered("states"), *outs = answered("outs");
    const char *values = answered("values");
    asked = "lyapunov_splitmix64";
    if (!length_is("states", n) || !length_is("outs", n) || !length_is("values", n)) return 0;
    for (uint64_t i = 0; i < n; i++) {
        state = lyapunov_splitmix64_next(state);
        uint64_t out = lyapunov_splitmix64_value(state);
        uint64_t unit = bits_of(lyapunov_splitmix64_symmetric_unit(out));
        to_entry(&states, i);
        to_entry(&outs, i);
        to_entry(&values, i);
        if (!number_is("states", i, state, read_bits(&states))) return 0;
        if (!number_is("outs", i, out, read_bits(&outs))) return 0;
        if (!float_is("values", i, unit, read_bits(&values))) return 0;
    }
    return 1;
}

static int replay_orth(void) {
    const lent *directions = lend_list("dirs", BOTH), *place = lend("place", OUTPUT, 1);
    const lent *numbers = lend("numbers", OUTPUT, decimal(given("numbers")));
    asked = "lyapunov_modified_gram_schmidt";
    uint64_t num = lyapunov_modified_gram_schmidt(
        SLICE_OF(directions), decimal(given("d")), SLICE_OF(numbers), words(place));
    return memory_kept() && refused_as(num, entry(place, 0)) && holds(directions, "dirs") &&
           holds(numbers, "numbers");
}

static int replay_step(void) {
    circuit c = read_circuit();
    c.matrix = lend_list("mat", INPUT);
    const lent *state = lend_list("state", BOTH), *directions = lend_list("dirs", BOTH);
    const lent *place = lend("place", OUTPUT, 1);
    asked = "lyapunov_step";
    uint64_t num = lyapunov_step(
        CIRCUIT_OF(c), number(given("t")), SLICE_OF(state), SLICE_OF(directions),
        decimal(given("count")), number(given("h")), words(place));
    return memory_kept() && refused_as(num, entry(place, 0)) && holds(state, "state") &&
           holds(directions, "dirs");
}

/* The store of a call, and the number under which it keeps. */
typedef struct {
    const lent *floats, *counts;
    uint8_t number;
} store;

typedef struct {
    circuit circuit;
    double time;
    const lent *start;
    size_t top_k;
    double step_size;
    uint64_t steps, windows, warm_up, seed;
    const lent *options; /* NULL for the functions without options */
    store store;
} run;

typedef struct {
    const lent *rows, *exponents, *state, *counts, *times;
} outputs;

static const lent *lend_options(uint64_t warm_up_steps) {
    lent *options = lend("options", INPUT, LYAPUNOV_OPTIONS);
    set_entry(options, LYAPUNOV_STEPS_PER_TRANSIENT_WINDOW, warm_up_steps);
    return options;
}

static void read_settings(run *r) {
    const char *warm_up_steps = given_or_null("warmupsteps");
    r->top_k = decimal(given("K"));
    r->step_size = number(given("h"));
    r->steps = decimal(given("steps"));
    r->windows = decimal(given("windows"));
    r->warm_up = decimal(given("warmup"));
    r->seed = bits(given("seed"));
    if (warm_up_steps != NULL) r->options = lend_options(decimal(warm_up_steps));
}

static outputs lend_outputs(size_t rows, size_t exponents, size_t state) {
    return (outputs){lend("rows", OUTPUT, rows), lend("exponents", OUTPUT, exponents),
                     lend("final_state", OUTPUT, state), lend("counts", OUTPUT, LYAPUNOV_COUNTS),
                     lend("times", OUTPUT, LYAPUNOV_TIMES)};
}

static outputs given_outputs(void) {
    return lend_outputs(decimal(given("rowslen")), decimal(given("expslen")),
                        decimal(given("finallen")));
}

static uint64_t spectrum_at(const run *r, const outputs *o) {
    if (r->options == NULL) {
        asked = "lyapunov_estimate_spectrum_at";
        return lyapunov_estimate_spectrum_at(CIRCUIT_OF(r->circuit), r->time, RUN_OF(r, o));
    }
    asked = "lyapunov_estimate_spectrum_at_with_options";
    return lyapunov_estimate_spectrum_at_with_options(CIRCUIT_OF(r->circuit), r->time,
                                                      RUN_WITH_OPTIONS_OF(r, o));
}

static uint64_t spectrum_from_zero(const run *r, const outputs *o) {
    asked = "lyapunov_estimate_spectrum";
    by_spectrum++;
    return lyapunov_estimate_spectrum(CIRCUIT_OF(r->circuit), RUN_OF(r, o));
}

static uint64_t largest(const run *r, const outputs *o) {
    asked = "lyapunov_estimate_largest";
    by_largest++;
    return lyapunov_estimate_largest(
        CIRCUIT_OF(r->circuit), SLICE_OF(r->start), r->step_size, r->steps, r->windows,
        OUTPUTS_OF(o));
}

#define STORE_OF(s) doubles((s).floats), words((s).counts), (s).number

static uint64_t keep(const run *r, const outputs *o) {
    if (r->options == NULL) {
        asked = "lyapunov_keep";
        return lyapunov_keep(STORE_OF(r->store), CIRCUIT_OF(r->circuit), r->time, RUN_OF(r, o));
    }
    asked = "lyapunov_keep_with_options";
    return lyapunov_keep_with_options(STORE_OF(r->store), CIRCUIT_OF(r->circuit), r->time,
                                      RUN_WITH_OPTIONS_OF(r, o));
}

static uint64_t go_on(const run *r, const outputs *o) {
    if (r->options == NULL) {
        asked = "lyapunov_go_on";
        return lyapunov_go_on(STORE_OF(r->store), CIRCUIT_OF(r->circuit), r->time, RUN_OF(r, o));
    }
    asked = "lyapunov_go_on_with_options";
    return lyapunov_go_on_with_options(STORE_OF(r->store), CIRCUIT_OF(r->circuit), r->time,
                                       RUN_WITH_OPTIONS_OF(r, o));
}

/* Refusal 5 has the same place for other K and other lengths of the outputs. */
static int place_is_fixed(const run *r, uint64_t place) {
    static const size_t others[][4] = {
        {1, 0, 0, 0}, {2, 7, 2, 3}, {16, 600, 16, 16}, {17, 1, 0, 1}, {SIZE_MAX, 3, 1, 1}};
    for (size_t i = 0; i < sizeof others / sizeof *others; i++) {
        outputs o = lend_outputs(others[i][1], others[i][2], others[i][3]);
        run other = *r;
        other.top_k = others[i][0];
        uint64_t num = spectrum_at(&other, &o), there = entry(o.counts, LYAPUNOV_PLACE);
        if (num != 5 || there != place)
            return differs("refused by 5 at %llu, but with K %zu and rows of %zu by %llu at %llu",
                           (unsigned long long)place, other.top_k, others[i][1],
                           (unsigned long long)num, (unsigned long long)there);
    }
    return memory_kept();
}

static uint64_t build(const run *r, const lent *place) {
    asked = "lyapunov_build_config";
    return lyapunov_build_config(r->top_k, r->step_size, r->steps, r->windows, words(place));
}

/* Whether the builder, which knows of no warm-up, answers as it must where that is what the listed
 * refusal is about: by 5 at the first of the other counts that is over, if one is. */
static int built_without_warm_up(const run *r, uint64_t num, uint64_t place) {
    uint64_t first = r->steps > LYAPUNOV_MAX_COUNT ? 0 : 1;
    int over = r->steps > LYAPUNOV_MAX_COUNT || r->windows > LYAPUNOV_MAX_COUNT;
    return number_is("num", 0, num, over ? 5 : 0) && number_is("place", 0, place, over ? first : 0);
}

static int replay_builder(const run *r) {
    const lent *place = lend("place", OUTPUT, 1), *again = lend("place", OUTPUT, 1);
    uint64_t num = build(r, place), listed = decimal(answered("num"));
    run other = *r;
    if (!memory_kept()) return 0;
    if (listed == 29 || (listed == 5 && listed_place() > 1))
        return built_without_warm_up(r, num, entry(place, 0));
    if (!refused_as(num, entry(place, 0))) return 0;
    if (num != 5) return 1;
    other.top_k = 17;
    return number_is("num with K 17", 0, build(&other, again), 5) &&
           number_is("place with K 17", 0, entry(again, 0), entry(place, 0));
}

/* A run whose start time is not finite makes the tests 1 to 5, which 6 follows. */
static int replay_build(void) {
    run r = {.circuit.matrix = lend("mat", INPUT, 0), .start = lend("x0", INPUT, 0)};
    outputs o = lend_outputs(0, 0, 0);
    r.time = float_of(AROUND);
    read_settings(&r);
    uint64_t num = spectrum_at(&r, &o), place = entry(o.counts, LYAPUNOV_PLACE);
    if (!memory_kept() || !refused_as(num == 6 ? 0 : num, place)) return 0;
    if (num == 5 && !place_is_fixed(&r, place)) return 0;
    return replay_builder(&r);
}

static int counts_are(const lent *counts) {
    const char *at = answered("faint");
    if (!length_is("faint", 16)) return 0;
    for (size_t i = 0; i < 16; i++) {
        to_entry(&at, i);
        uint64_t faint = entry(counts, LYAPUNOV_FAINT + i);
        if (!number_is("faint", i, faint, read_decimal(&at, ","))) return 0;
    }
    uint64_t finished = entry(counts, LYAPUNOV_FINISHED), made = entry(counts, LYAPUNOV_STEPS);
    return number_is("finished", 0, finished, decimal(answered("finished"))) &&
           number_is("made", 0, made, decimal(answered("made")));
}

/* The times of a refused run are +0.0. */
static int time_is(uint64_t x, const char *name) {
    const char *text = answered(name);
    return float_is(name, 0, x, strcmp(text, "-") == 0 ? 0 : bits(text));
}

static int slices_are(const outputs *o) {
    return holds(o->rows, "rows") && holds(o->exponents, "exps") && holds(o->state, "final");
}

static int outputs_are(const outputs *o) {
    return counts_are(o->counts) && time_is(entry(o->times, LYAPUNOV_FINAL_TIME), "ftime") &&
           time_is(entry(o->times, LYAPUNOV_MEASURED_TIME), "mtime") && slices_are(o);
}

static int run_is(const run *r, uint64_t (*call)(const run *, const outputs *)) {
    outputs o = given_outputs();
    uint64_t num = call(r, &o), place = entry(o.counts, LYAPUNOV_PLACE);
    return memory_kept() && refused_as(num, place) && outputs_are(&o);
}

#define INPUT_OF(r) \
    CIRCUIT_OF((r)->circuit), (r)->time, SLICE_OF((r)->start), (r)->top_k, (r)->step_size, \
        (r)->steps, (r)->windows, (r)->warm_up

static uint64_t validate(const run *r, const lent *place) {
    if (r->options == NULL) {
        asked = "lyapunov_validate";
        return lyapunov_validate(INPUT_OF(r), words(place));
    }
    asked = "lyapunov_validate_with_options";
    return lyapunov_validate_with_options(INPUT_OF(r), OPTIONS_OF(r), words(place));
}

/* The tests 1 to 12, 25 and 29 alone: they pass what is refused by a later one, or by none. */
static int input_is(const run *r) {
    const lent *place = lend("place", OUTPUT, 1);
    uint64_t num = validate(r, place);
    if (!memory_kept()) return 0;
    uint64_t listed = decimal(answered("num"));
    if (listed <= 12 || listed == 25 || listed == 29) return refused_as(num, entry(place, 0));
    return number_is("num", 0, num, 0) && number_is("place", 0, entry(place, 0), 0);
}

/* A run without its matrix, as it is handed in. */
static run read_handed_in(void) {
    run r = {.circuit = read_circuit(), .start = lend_list("x0", INPUT)};
    r.time = number(given("t0"));
    read_settings(&r);
    return r;
}

static run read_run(void) {
    run r = read_handed_in();
    r.circuit.matrix = lend_list("mat", INPUT);
    return r;
}

/* Where no steps are given: no options, and equal steps, are answered as listed too. */
static int same_with_options(const run *r, int (*is)(const run *)) {
    if (r->options != NULL) return 1;
    run other = *r;
    other.options = lend("options", INPUT, 0);
    if (!is(&other)) return 0;
    other.options = lend_options(r->steps);
    return is(&other);
}

static int run_at_is(const run *r) {
    return run_is(r, spectrum_at);
}

static int replay_validate(void) {
    run r = read_run();
    return input_is(&r) && same_with_options(&r, input_is);
}

static int replay_run(void) {
    run r = read_run();
    if (!run_at_is(&r) || !input_is(&r)) return 0;
    if (!same_with_options(&r, run_at_is) || !same_with_options(&r, input_is)) return 0;
    if (decimal(answered("num")) == 5 && !place_is_fixed(&r, listed_place())) return 0;
    if (bits_of(r.time) != 0 || r.options != NULL) return 1;
    if (!run_is(&r, spectrum_from_zero)) return 0;
    if (r.top_k != 1 || r.warm_up != 0 || r.seed != LYAPUNOV_DEFAULT_SEED) return 1;
    return run_is(&r, largest);
}

/* Memory that outlives a line. Each call is lent a copy of what the last one left, at a place of
 * its own; `left` is NULL before the first. */
typedef struct {
    const char *name;
    size_t length;
    uint64_t *left;
} lasting;

static void put_what_was_left(const lasting *m, const lent *l) {
    for (size_t i = 0; i < m->length; i++) set_entry(l, i, m->left[i]);
}

static const lent *lend_lasting(const lasting *m, enum role role) {
    const lent *l = lend(m->name, role, m->length);
    if (m->left != NULL) put_what_was_left(m, l);
    return l;
}

/* What a call left is what the next one is lent. */
static void take_back(lasting *m, const lent *l) {
    *m = (lasting){l->name, l->length, realloc(m->left, 8 * (l->length + 1))};
    if (m->left == NULL) abort();
    for (size_t i = 0; i < l->length; i++) m->left[i] = entry(l, i);
}

static lasting store_floats = {"store_floats", LYAPUNOV_STORE_FLOATS, NULL};
static lasting store_counts = {"store_counts", LYAPUNOV_STORE_COUNTS, NULL};

static store lend_store(enum role floats, enum role counts, uint8_t number) {
    return (store){lend_lasting(&store_floats, floats), lend_lasting(&store_counts, counts),
                   number};
}

static store given_store(enum role floats, enum role counts) {
    uint64_t number = decimal(given("number"));
    if (store_counts.left == NULL) malformed("no empty store before", given("id"));
    if (number > UINT8_MAX) malformed("no number of a state", given("number"));
    return lend_store(floats, counts, (uint8_t)number);
}

static void take_store_back(const store *s) {
    take_back(&store_floats, s->floats);
    take_back(&store_counts, s->counts);
}

static int stays(const lent *l) {
    for (size_t i = 0; i < l->length; i++)
        if (entry(l, i) != entry_before(l, i))
            return differs("%s, entry %zu: changed, and must stay", l->name, i);
    return 1;
}

static int all_zero(const lent *l) {
    for (size_t i = 0; i < l->length; i++)
        if (!number_is(l->name, i, entry(l, i), 0)) return 0;
    return 1;
}

/* No number is kept in an empty store. */
static int replay_empty(void) {
    store s = lend_store(INPUT, BOTH, 0);
    asked = "lyapunov_empty_store";
    lyapunov_empty_store(words(s.counts));
    take_store_back(&s);
    if (!memory_kept() || !all_zero(s.counts)) return 0;
    asked = "lyapunov_forget";
    for (unsigned n = 0; n <= UINT8_MAX; n++) {
        uint64_t num = lyapunov_forget(doubles(s.floats), words(s.counts), (uint8_t)n);
        if (!number_is("num of an empty store", n, num, 26)) return 0;
    }
    return memory_kept() && all_zero(s.counts);
}

/* It answers what the run does, unless it is refused by 27. */
static int replay_keep(void) {
    run r = read_run();
    r.store = given_store(BOTH, BOTH);
    int met = run_is(&r, keep);
    uint64_t num = decimal(answered("num"));
    take_store_back(&r.store);
    if (!met || (num != 0 && (!stays(r.store.floats) || !stays(r.store.counts)))) return 0;
    return num == 27 || run_at_is(&r);
}

static int going_on_is(const run *r) {
    return run_is(r, go_on);
}

static int replay_go_on(void) {
    run r = read_run();
    r.store = given_store(INPUT, INPUT);
    return going_on_is(&r) && same_with_options(&r, going_on_is);
}

/* A going on from it is refused by 26, with settings and slices that the other tests refuse too. */
static int is_not_kept(uint8_t number) {
    run r = {.circuit.matrix = lend("mat", INPUT, 0), .start = lend("x0", INPUT, 0)};
    outputs o = lend_outputs(0, 0, 0);
    r.store = lend_store(INPUT, INPUT, number);
    uint64_t num = go_on(&r, &o);
    return memory_kept() && number_is("num once forgotten", 0, num, 26) && all_zero(o.counts) &&
           all_zero(o.times);
}

static int replay_forget(void) {
    store s = given_store(INPUT, BOTH);
    asked = "lyapunov_forget";
    uint64_t num = lyapunov_forget(doubles(s.floats), words(s.counts), s.number);
    take_store_back(&s);
    return memory_kept() && refused_as(num, 0) && (num == 0 || stays(s.counts)) &&
           is_not_kept(s.number);
}

/* The four arrays of the dispatcher. */
enum { FLOATS, COUNTS, SETTINGS, QUEUE, ARRAYS };
static lasting dispatcher[ARRAYS] = {{"run_floats", LYAPUNOV_DISPATCHER_FLOATS, NULL},
                                     {"run_counts", LYAPUNOV_DISPATCHER_COUNTS, NULL},
                                     {"run_settings", LYAPUNOV_DISPATCHER_SETTINGS, NULL},
                                     {"queue", LYAPUNOV_DISPATCHER_QUEUE, NULL}};

typedef struct {
    const lent *of[ARRAYS];
} arrays;
#define ARRAYS_OF(a) \
    doubles((a).of[FLOATS]), words((a).of[COUNTS]), doubles((a).of[SETTINGS]), words((a).of[QUEUE])

static arrays given_dispatcher(enum role settings) {
    arrays a;
    if (dispatcher[QUEUE].left == NULL) malformed("no empty dispatcher before", given("id"));
    for (size_t i = 0; i < ARRAYS; i++)
        a.of[i] = lend_lasting(&dispatcher[i], i == SETTINGS ? settings : BOTH);
    return a;
}

static void take_dispatcher_back(const arrays *a) {
    for (size_t i = 0; i < ARRAYS; i++) take_back(&dispatcher[i], a->of[i]);
}

static int dispatcher_stays(const arrays *a) {
    for (size_t i = 0; i < ARRAYS; i++)
        if (!stays(a->of[i])) return 0;
    return 1;
}

static int next_is(const lent *queue, uint64_t name) {
    asked = "lyapunov_next";
    return number_is("name", 0, lyapunov_next(words(queue)), name) && memory_kept();
}

static int replay_dispatcher(void) {
    const lent *queue = lend_lasting(&dispatcher[QUEUE], BOTH);
    asked = "lyapunov_empty_dispatcher";
    lyapunov_empty_dispatcher(words(queue));
    take_back(&dispatcher[QUEUE], queue);
    return memory_kept() && all_zero(queue) && next_is(queue, LYAPUNOV_NOBODY);
}

static int replay_next(void) {
    arrays a = given_dispatcher(BOTH);
    return next_is(a.of[QUEUE], decimal(answered("name"))) && dispatcher_stays(&a);
}

static uint64_t hand_in(const run *r, const arrays *a, const lent *name, const lent *place) {
    if (r->options == NULL) {
        asked = "lyapunov_hand_in";
        return lyapunov_hand_in(ARRAYS_OF(*a), KIND_OF(r->circuit), r->time, START_OF(r),
                                words(name), words(place));
    }
    asked = "lyapunov_hand_in_with_options";
    return lyapunov_hand_in_with_options(ARRAYS_OF(*a), KIND_OF(r->circuit), r->time, START_OF(r),
                                         OPTIONS_OF(r), words(name), words(place));
}

static int replay_hand_in(void) {
    run r = read_handed_in();
    arrays a = given_dispatcher(BOTH);
    const lent *name = lend("name", OUTPUT, 1), *place = lend("place", OUTPUT, 1);
    uint64_t num = hand_in(&r, &a, name, place);
    take_dispatcher_back(&a);
    return memory_kept() && refused_as(num, entry(place, 0)) &&
           number_is("name", 0, entry(name, 0), decimal(answered("name"))) &&
           (num == 0 || dispatcher_stays(&a));
}

/* Sets of outputs that turns are lent again and again. */
enum { SETS = 16, SLICES = 3 };
static lasting sets[SETS][SLICES];

/* A set that is made anew, or as the last turn left it. */
static outputs lend_set(const lasting set[SLICES]) {
    uint64_t fresh = decimal(given("fresh"));
    outputs o = given_outputs();
    const lent *slices[SLICES] = {o.rows, o.exponents, o.state};
    if (fresh > 1) malformed("neither 0 nor 1", given("fresh"));
    for (size_t i = 0; fresh == 0 && i < SLICES; i++) {
        if (set[i].left == NULL || set[i].length != slices[i]->length)
            malformed("no such set of outputs", given("set"));
        put_what_was_left(&set[i], slices[i]);
    }
    return o;
}

static uint64_t listed_stage(void) {
    static const char *const stages[] = {"nobody", "unfit", "under-way", "over"};
    const char *stage = answered("stage");
    uint64_t n = 0;
    while (strcmp(stage, stages[n]) != 0)
        if (++n == sizeof stages / sizeof *stages) malformed("unknown stage", stage);
    return n;
}

/* Of a run that is not over nothing is told. */
static int nothing_is_told(const outputs *o) {
    static const char *const names[] = {"finished", "made", "faint", "ftime", "mtime"};
    for (size_t i = 0; i < sizeof names / sizeof *names; i++)
        if (strcmp(answered(names[i]), "-") != 0)
            return differs("%s: not told, listed %s", names[i], answered(names[i]));
    return stays(o->counts) && stays(o->times) && slices_are(o);
}

/* What a turn answers. An event has the place of an unfit turn, and counts that of a run. */
static int turn_is(uint64_t num, const lent *event, const outputs *o) {
    uint64_t stage = entry(event, LYAPUNOV_EVENT_STAGE), place = entry(event, LYAPUNOV_EVENT_PLACE);
    if (!number_is("stage", 0, stage, listed_stage())) return 0;
    if (!number_is("name", 0, entry(event, LYAPUNOV_EVENT_NAME), decimal(answered("name"))) ||
        !number_is("begun", 0, entry(event, LYAPUNOV_EVENT_BEGUN), decimal(answered("begun"))))
        return 0;
    if (stage != LYAPUNOV_STAGE_OVER) return refused_as(num, place) && nothing_is_told(o);
    return number_is("place of the event", 0, place, 0) &&
           refused_as(num, entry(o->counts, LYAPUNOV_PLACE)) && outputs_are(o);
}

static int replay_turn(void) {
    uint64_t n = decimal(given("set"));
    if (n >= SETS) malformed("no number of a set", given("set"));
    arrays a = given_dispatcher(INPUT);
    outputs o = lend_set(sets[n]);
    const lent *matrix = lend_list("mat", INPUT), *event = lend("event", OUTPUT, LYAPUNOV_EVENTS);
    asked = "lyapunov_turn";
    uint64_t num = lyapunov_turn(ARRAYS_OF(a), SLICE_OF(matrix), SLICES_OF(&o), words(event),
                                 words(o.counts), doubles(o.times));
    take_dispatcher_back(&a);
    take_back(&sets[n][0], o.rows);
    take_back(&sets[n][1], o.exponents);
    take_back(&sets[n][2], o.state);
    int spent = entry(event, LYAPUNOV_EVENT_STAGE) >= LYAPUNOV_STAGE_UNDER_WAY;
    return memory_kept() && turn_is(num, event, &o) && (spent || dispatcher_stays(&a));
}

static int replay_rates(void) {
    const lent *rates = lend_list("rates", INPUT);
    const lent *dimension = lend("out", OUTPUT, 1), *entropy = lend("out", OUTPUT, 1);
    const lent *p = lend("place", OUTPUT, 1), *q = lend("place", OUTPUT, 1);
    asked = "lyapunov_kaplan_yorke_dimension";
    uint64_t num = lyapunov_kaplan_yorke_dimension(SLICE_OF(rates), doubles(dimension), words(p));
    if (!memory_kept() || !refused_as(num, entry(p, 0)) || !value_is(dimension, "dim")) return 0;
    asked = "lyapunov_kolmogorov_sinai_entropy";
    num = lyapunov_kolmogorov_sinai_entropy(SLICE_OF(rates), doubles(entropy), words(q));
    return memory_kept() && refused_as(num, entry(q, 0)) && value_is(entropy, "ent");
}

/* Writes the bytes, given in hexadecimal, to a descriptor, one at a time. The program need not
 * read all of them: it is then a write that fails, since the signal for it is ignored. */
static void write_bytes(int to, const char *digits) {
    size_t length = strcmp(digits, "-") == 0 ? 0 : strlen(digits);
    if (length % 2 != 0 || (length > 0 && strspn(digits, "0123456789abcdef") != length))
        malformed("no bytes in hexadecimal", digits);
    for (size_t i = 0; i < length; i += 2) {
        char pair[3] = {digits[i], digits[i + 1], 0};
        unsigned char byte = (unsigned char)strtoul(pair, NULL, 16);
        if (write(to, &byte, 1) != 1) return;
    }
}

/* The program's process, with pipes to its input and from its output. */
static pid_t start_program(int *to, int *from) {
    int in[2], out[2];
    if (pipe(in) != 0 || pipe(out) != 0) abort();
    pid_t child = fork();
    if (child < 0) abort();
    if (child == 0) {
        dup2(in[0], 0);
        dup2(out[1], 1);
        close(in[1]);
        close(out[0]);
        signal(SIGPIPE, SIG_DFL);
        execl(spectrum, spectrum, (char *)NULL);
        _exit(127);
    }
    close(in[0]);
    close(out[1]);
    *to = in[1];
    *from = out[0];
    return child;
}

static int replay_program(void) {
    int to, from, status;
    char text[128];
    size_t length = 0;
    ssize_t n;
    pid_t child = start_program(&to, &from);
    asked = "spectrum";
    write_bytes(to, given("bytes"));
    close(to);
    while (length + 1 < sizeof text &&
           (n = read(from, text + length, sizeof text - 1 - length)) > 0)
        length += (size_t)n;
    close(from);
    if (waitpid(child, &status, 0) != child) abort();
    if (!WIFEXITED(status)) return differs("ended by signal %d", WTERMSIG(status));
    if (WEXITSTATUS(status) != 0) return differs("exit status %d", WEXITSTATUS(status));
    if (length == 0 || text[length - 1] != '\n') return differs("prints no whole line");
    /* In the list a line's end is `|`, but for the last, and a space is `_`. */
    text[--length] = '\0';
    for (size_t i = 0; i < length; i++)
        text[i] = text[i] == '\n' ? '|' : text[i] == ' ' ? '_' : text[i];
    if (strcmp(text, answered("out")) == 0) return 1;
    return differs("prints %s, listed %s", text, answered("out"));
}

/* Whether the answer of a line is met. */
static int replay(char *line) {
    static const struct { const char *name; int (*replay)(void); } kinds[] = {
        {"root", replay_root}, {"log", replay_log},     {"draw", replay_draw},
        {"orth", replay_orth}, {"step", replay_step},   {"build", replay_build},
        {"run", replay_run},   {"rates", replay_rates}, {"prog", replay_program},
        {"validate", replay_validate}, {"empty", replay_empty}, {"keep", replay_keep},
        {"go-on", replay_go_on}, {"forget", replay_forget}, {"dispatcher", replay_dispatcher},
        {"hand-in", replay_hand_in}, {"next", replay_next}, {"turn", replay_turn}};
    const char *kind = read_line(line), *id = given("id");
    for (size_t i = 0; i < sizeof kinds / sizeof *kinds; i++) {
        if (strcmp(kind, kinds[i].name) != 0) continue;
        int met = kinds[i].replay();
        if (met) every_field_was_used();
        else printf("differs: %s, %s\n", id, reason);
        end_all_lent();
        return met;
    }
    malformed("unknown kind", kind);
    return 0;
}

/* Lines that are neither empty nor a remark, counted by their first characters alone. */
static size_t count_cases(FILE *file) {
    size_t cases = 0;
    for (int before = '\n', c; (c = getc(file)) != EOF; before = c)
        cases += before == '\n' && c != '\n' && c != '#';
    rewind(file);
    return cases;
}

int main(int count, char **arguments) {
    FILE *file = count == 3 ? fopen(arguments[1], "r") : NULL;
    char *line = NULL;
    size_t room = 0, replayed = 0, differ = 0, cases = file == NULL ? 0 : count_cases(file);
    if (file == NULL) {
        fprintf(stderr, "usage: replay LIST SPECTRUM\n");
        return 2;
    }
    spectrum = arguments[2];
    signal(SIGPIPE, SIG_IGN);
    for (ssize_t n; (n = getline(&line, &room, file)) > 0;) {
        line_number++;
        if (line[n - 1] != '\n') malformed("no end", line);
        line[n - 1] = '\0';
        if (strlen(line) != (size_t)n - 1) malformed("a zero byte", line);
        if (*line == '#' || *line == '\0') continue;
        differ += !replay(line);
        replayed++;
    }
    free(line);
    fclose(file);
    printf("%zu of %zu cases replayed, %zu differ (runs from time 0 too: %zu, for the largest: %zu)\n",
           replayed, cases, differ, by_spectrum, by_largest);
    return differ > 0 || cases == 0 || replayed != cases;
}
