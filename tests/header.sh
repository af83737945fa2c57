#!/usr/bin/env bash
# The header: its structs in C99 and in C++11, a program that takes none of them, and a later version
# with more fields. Usage: tests/header.sh ARCHIVE
set -euo pipefail
archive=$(realpath "$1")
cd "$(dirname "${BASH_SOURCE[0]}")/.."
work=$(mktemp -d)
trap 'rm -rf "$work"' EXIT
strict="-pedantic -Wall -Wextra -Werror -O2"

c99() { # INCLUDE SOURCE PROGRAM [OPTION...]
    ${CC:-cc} -std=c99 $strict -I "$1" "$2" "${@:4}" "$archive" -o "$work/$3"
}

cpp11() { # INCLUDE SOURCE PROGRAM
    ${CXX:-c++} -std=c++11 $strict -I "$1" -x c++ "$2" -x none "$archive" -o "$work/$3"
}

structs() { # INCLUDE: the structs in both languages
    c99 "$1" tests/header.c in_c && "$work/in_c"
    cpp11 "$1" tests/header.c in_cpp && "$work/in_cpp"
}

lorenz() { # INCLUDE SOURCE: what a Lorenz program prints, with the bits of its rates
    c99 "$1" "$2" lorenz tests/print_rates.c -Wl,--wrap=lyapunov_kaplan_yorke_dimension
    "$work/lorenz"
}

structs include
lorenz include tests/lorenz_positional.c >"$work/positional"
lorenz include examples/lorenz.c >"$work/structs"
diff "$work/positional" "$work/structs"
[ "$(grep -c '^rate [0-9a-f]\{16\}$' "$work/structs")" -eq 6 ]
echo "the Lorenz programs with and without structs print the same bits"

others() { # INCLUDE: what the other examples print
    local example
    for example in continuations circuits; do
        c99 "$1" examples/$example.c $example
        "$work/$example"
    done
}
others include >"$work/others"

# A later version: a setting, an output, a count, a parameter, an entry of the store and of the
# dispatcher, and a field of what this one answers more, in front of the others.
mkdir "$work/later"
sed -e 's/^struct lyapunov_settings {/&\n    double later;/' \
    -e 's/^    built.settings.required = .*/&\n    built.settings.later = 1.0;/' \
    -e 's/^struct lyapunov_outputs {/&\n    struct lyapunov_slice later;/' \
    -e 's/^    outputs.rows = /    outputs.later = outputs.rows = /' \
    -e 's/^struct lyapunov_estimate {/&\n    uint64_t later;/' \
    -e 's/^    estimate.refusal.number = .*/&\n    estimate.later = 1;/' \
    -e 's/^struct lyapunov_system {/&\n    double later;/' \
    -e 's/^struct lyapunov_\(store\|dispatcher\) {/&\n    double later;/' \
    -e 's/^struct lyapunov_\(admission\|turn_taken\) {/&\n    uint64_t later;/' \
    -e 's/^    admission.refusal.number = /    admission.later = 1;\n&/' \
    -e 's/^    turn.refusal.number = /    turn.later = 1;\n&/' \
    -e 's/^    system.p2 = .*/&\n    system.later = 1.0;/' include/lyapunov.h >"$work/later/lyapunov.h"
[ "$(grep -c later "$work/later/lyapunov.h")" -eq "$(($(grep -c later include/lyapunov.h) + 14))" ]
structs "$work/later"
lorenz "$work/later" examples/lorenz.c | diff "$work/structs" -
lorenz "$work/later" tests/lorenz_positional.c | diff "$work/structs" -
others "$work/later" | diff "$work/others" -
echo "so they do with a later header, which has more fields"

# Wrong headers, each of which tests/header.c must notice.
noticed=0
wrong() { # EDIT
    mkdir -p "$work/wrong"
    sed -E -e "$1" include/lyapunov.h >"$work/wrong/lyapunov.h"
    ! cmp -s include/lyapunov.h "$work/wrong/lyapunov.h" || { echo "nothing to plant by $1"; exit 1; }
    c99 "$work/wrong" tests/header.c wrong_header -O0
    ! "$work/wrong_header" >"$work/out" || { echo "NOT NOTICED: $1"; exit 1; }
    noticed=$((noticed + 1))
}
wrong 's/(settings\)->required\.)steps_per_window, \(settings\)->required\.windows/\1windows, (settings)->required.steps_per_window/'
wrong 's/required->steps_per_window, required->windows,$/required->windows, required->steps_per_window,/'
wrong 's/(\(settings\)->)transient_windows, \(settings\)->seed/\1seed, (settings)->transient_windows/'
wrong 's/settings->transient_windows, settings->options/settings->required.windows, settings->options/'
wrong 's/^    settings\.seed = seed/    settings.transient_windows = seed/'
wrong 's/^    system\.p1 = rho/    system.p1 = beta/; s/^    system\.p2 = beta/    system.p2 = rho/'
wrong 's/^    system\.kind = LYAPUNOV_ROSSLER/    system.kind = LYAPUNOV_LORENZ/'
wrong 's/^    estimate\.final_time = run->times\[LYAPUNOV_FINAL_TIME/    estimate.final_time = run->times[LYAPUNOV_MEASURED_TIME/'
wrong 's/^    estimate\.steps = run->counts\[LYAPUNOV_STEPS/    estimate.steps = run->counts[LYAPUNOV_FINISHED/'
wrong 's/^    row\.running_exponents = at \+ 1 \+ top_k/    row.running_exponents = at + top_k/'
wrong 's/^    built\.settings\.transient_windows = 0/    built.settings.transient_windows = 1/'
wrong 's/^    system\.kind = LYAPUNOV_VAN_DER_POL/    system.kind = LYAPUNOV_LORENZ/'
wrong 's/^    system\.matrix = matrix/    system.matrix = lyapunov_lent_const(matrix.at, 0)/'
wrong 's/^    built\.settings\.seed = LYAPUNOV_DEFAULT_SEED/    built.settings.seed = 0/'
wrong 's/lyapunov_lent\(nothing, 0\) : slice/lyapunov_lent(nothing, slice.length) : slice/'
wrong 's/estimate\.faint_counts\[i\] = run->counts\[LYAPUNOV_FAINT \+ i\]/estimate.faint_counts[i] = 0/'
wrong 's/"The time is not finite\."/"The time became not finite."/'
wrong 's/lyapunov_lorenz\(forcing, /lyapunov_lorenz((double)cells, /; s/^    system\.dimension = cells/    system.dimension = (size_t)forcing/'
wrong 's/^    system\.dimension = cells/    system.dimension = cells + 1/'
wrong 's/^    system\.kind = LYAPUNOV_LORENZ96/    system.kind = LYAPUNOV_LORENZ/'
wrong 's/^(#define LYAPUNOV_LORENZ96 UINT64_C)\(4\)/\1(5)/'
wrong 's/^(#define LYAPUNOV_LORENZ96 UINT64_C)\(4\)/\1(3)/'
for name in STATES FLOATS COUNTS; do
    for off in '+ 1' '- 1'; do wrong "s/^(#define LYAPUNOV_STORE_$name) ([0-9]+)/\1 (\2 $off)/"; done
done
kept='store->floats, store->counts'
for call in keep go_on; do
    in_call="/&run, lyapunov_${call}_with_options\\($/,/;$/"
    wrong "$in_call{s/$kept, number,/$kept, (uint8_t)time,/; s/ time, / number, /}"
    wrong "$in_call s/$kept, number,/$kept, (uint8_t)(number \& 127),/"
done
wrong "s/lyapunov_forget\($kept, number\)/lyapunov_forget($kept, (uint8_t)(number + 1))/"
wrong "s/lyapunov_forget\($kept, number\)/lyapunov_forget($kept, number) * 0/"
wrong 's/^    return lyapunov_end_run\(&run, lyapunov_keep_with/    return lyapunov_end_run(\&run, lyapunov_go_on_with/'
wrong 's/^    lyapunov_empty_store\(store->counts\)/    store->counts[0] = 0/'
wrong 's/^    settings\.required\.windows = windows/    settings.transient_windows = windows/'
wrong 's/\(run\)\.rows\.length/(run).rows.length + 1/'
wrong 's/^    refusal\.place = 0;/    refusal.place = number;/'
wrong 's/"No state is kept under the number\."/"Eight other numbers are kept."/'
wrong 's/^ *"Eight other numbers are kept\.",//'
for name in RUNS FLOATS COUNTS SETTINGS QUEUE; do
    for off in '+ 1' '- 1'; do wrong "s/^(#define LYAPUNOV_DISPATCHER_$name) ([0-9]+)/\1 (\2 $off)/"; done
done
for number in 7 9; do wrong "s/^(#define LYAPUNOV_NOBODY UINT64_C)\(8\)/\1($number)/"; done
swapped() { # ENUMERATOR ENUMERATOR: each with the value of the other
    wrong "s/^    $1 = ([0-9])/    swapped = \1/; s/^    $2 = ([0-9])/    $1 = \1/; s/^    swapped/    $2/"
}
for stages in 'NOBODY UNFIT' 'UNFIT UNDER_WAY' 'UNDER_WAY OVER'; do
    swapped "LYAPUNOV_STAGE_${stages% *}" "LYAPUNOV_STAGE_${stages#* }"
done
for places in 'STAGE NAME' 'NAME BEGUN' 'BEGUN PLACE'; do
    swapped "LYAPUNOV_EVENT_${places% *}" "LYAPUNOV_EVENT_${places#* }"
done
wrong 's/^    lyapunov_empty_dispatcher\(dispatcher->queue\)/    dispatcher->queue[0] = 0/'
wrong 's/^    return lyapunov_next\(dispatcher->queue\)/& % LYAPUNOV_NOBODY/'
wrong 's/LYAPUNOV_KIND_ARGUMENTS\(system\), time/LYAPUNOV_KIND_ARGUMENTS(system), time + 1.0/'
wrong 's/&admission\.name, &admission\.refusal\.place/\&admission.refusal.place, \&admission.name/'
wrong 's/run\.matrix\.at, run\.matrix\.length, LYAPUNOV_SLICE/run.matrix.at, 0, LYAPUNOV_SLICE/'
wrong 's/^    turn\.begun = .*/    turn.begun = turn.name;/'
wrong 's/over \? turn\.refusal\.number : 0/turn.refusal.number/'
wrong 's/over \? turn\.refusal\.number : 0/0/'
wrong 's/over \? turn\.estimate\.refusal\.place : //'
wrong 's/(over \? turn\.estimate\.refusal\.place : ).*;/\10;/'
for name in counts times; do wrong "s/^        run->$name\[i\] = 0/        run->${name}[i] = 1/"; done
wrong 's/"Eight runs are unfinished\."/"Eight other numbers are kept."/'
wrong 's/^ *"Eight runs are unfinished\.",//'
wrong 's/\(settings\)->options, \(settings\)->options_given/(settings)->options, 0/'
wrong 's/\(settings\)->options, \(settings\)->options_given/\&(settings)->required.windows, (settings)->options_given/'
wrong 's/settings->options, settings->options_given/settings->options, 0/'
wrong 's/^(    settings\.options\[.*\]) = steps/\1 = steps + 1/'
wrong 's/^    settings\.options\[.*\] = steps/    settings.transient_windows = steps/'
wrong 's/^    settings\.options_given = .*/    settings.options_given = 0;/'
wrong 's/^    built\.settings\.options_given = 0/    built.settings.options_given = 1/'
wrong 's/^    (LYAPUNOV_STEPS_PER_TRANSIENT_WINDOW) = 0/    \1 = 1/; s/^    (LYAPUNOV_OPTIONS) = 1/    \1 = 2/'
wrong 's/"A warm-up window has no steps\."/"A window has no steps."/'
wrong 's/^ *"A warm-up window has no steps\.",//'
echo "$noticed wrong headers, each noticed"
