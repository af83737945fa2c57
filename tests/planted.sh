#!/usr/bin/env bash
# Wrong lists, wrong libraries and wrong programs: tests/replay.c must notice each, and say what is
# wrong with it. Usage: tests/planted.sh ARCHIVE SPECTRUM
set -euo pipefail
archive=$(realpath "$1") right_program=$(realpath "$2")
cd "$(dirname "${BASH_SOURCE[0]}")/.."
work=$(mktemp -d)
trap 'rm -rf "$work"' EXIT
list=$work/list program=$right_program noticed=0

compile="cc -std=gnu11 -Wall -Wextra -Werror -O2 -I include"
$compile tests/replay.c "$archive" -o "$work/replay"
wraps=$(sed -n 's/^#define \(lyapunov_[a-z_0-9]*\) .*/-Wl,--wrap=\1/p' tests/wrong_library.c)
# shellcheck disable=SC2086 # one option a word
$compile tests/replay.c tests/wrong_library.c "$archive" $wraps -o "$work/wrong"
replay=$work/replay

fail() {
    echo "planted: $*" >&2
    exit 1
}

met() { # NAME: what is planted is the only fault
    "$replay" "$list" "$program" >"$work/out" 2>&1 || fail "$1: not met without it: $(cat "$work/out")"
}

must_notice() { # NAME MESSAGE
    local status=0
    "$replay" "$list" "$program" >"$work/out" 2>&1 || status=$?
    [ $status -eq 1 ] || [ $status -eq 2 ] || fail "$1: NOT NOTICED (status $status)"
    grep -qF -- "$2" "$work/out" || fail "$1: noticed as $(cat "$work/out"), not as $2"
    noticed=$((noticed + 1))
}

first() { # PATTERN: the first case of the list that matches
    grep -m1 -E -- "$1" tests/answers.txt || fail "no case matches $1"
}

edited() { # CASE EDIT MESSAGE: the case with one token changed
    local changed
    changed=$(sed -E -- "$2" <<<"$1")
    [ "$changed" != "$1" ] || fail "nothing to plant by $2"
    printf '%s\n' "$1" >"$list" && met "$2"
    printf '%s\n' "$changed" >"$list" && must_notice "$2" "$3"
}

answer() { # PATTERN EDIT MESSAGE
    edited "$(first "$1")" "$2" "$3"
}

wrong() { # CASE WRONG MESSAGE: the case with the wrong library
    replay=$work/wrong
    printf '%s\n' "$1" >"$list" && met "$2"
    WRONG=$2 must_notice "$2" "$3"
    replay=$work/replay
}

over() { # KIND STEPS WINDOWS WARM-UP: a refusal 5, by the last digits: 6 at the limit, 7 one above it
    first "^$1 .*steps=1677721$2 windows=1677721$3 warmup=1677721$4 .*num=5 "
}

ended='^run .*num=0 .* rows=[0-9a-f]{16}.* exps=[0-9a-f]{16},.* final=[0-9a-f]{16},'
refused='^run .*num=1[123] .* rows=\.,.* exps=\..* final=\.'
late='^run .*num=1[4678] .* finished=[1-9].* rows=[0-9a-f]{16}.*,\.'
orth='^orth .*num=0 .*dirs=[0-9a-f]{16},.*numbers=[0-9a-f]{16},'
step='^step .*sys=linear.*num=0 .*state=[0-9a-f]{16},.*dirs=[0-9a-f]{16},'
ring='^step .*sys=lorenz96:[0-9]+ par=4.*num=0 .*state=[0-9a-f]{16},.*dirs=[0-9a-f]{16},'
few_cells='^step .*sys=lorenz96:[123] .*num=25 '
x='[0-9a-f]{16}'

# Answered lists: an entry changed, kept in place of written and the reverse, one more, one less.
for name in rows exps final; do
    answer "$ended" "s/( $name=[0-9a-f]{15})[0-9a-e]/\1f/; t; s/( $name=[0-9a-f]{15})f/\10/" "$name, entry 0: "
    answer "$ended" "s/( $name=)$x/\1./" "$name, entry 0: written"
    answer "$ended" "s/( $name=)$x/\17ff8000000000000/" "$name, entry 0: "
    answer "$refused" "s/( $name=)\./\17ff8000000000000/" "$name, entry 0: 5a5a5a5a5a5a5a5a, listed 7ff8"
    answer "$refused" "s/( $name=)\./\10000000000000000/" "$name, entry 0: 5a5a5a5a5a5a5a5a, listed 0000"
    answer "$ended" "s/( $name=)/\10000000000000000,/" "$name: "
    answer "$ended" "s/( $name=)$x,/\1/" "$name: "
    answer "$refused" "s/( $name=[.,]*\.)/\1,./" "$name: "
done
answer "$late" "s/( rows=$x)/\1,./" "rows: "
answer "$late" "s/( rows=.*),\. exps/\1,0000000000000000 exps/" "5a5a5a5a5a5a5a5a, listed 0000"
for name in dirs numbers; do
    answer "$orth" "s/(-> .* $name=)$x/\17ff8000000000000/" "$name, entry 0: "
    answer "$orth" "s/(-> .* $name=)/\10000000000000000,/" "$name: "
    answer "$orth" "s/(-> .* $name=)$x,/\1/" "$name: "
done
answer '^orth .*numbers=[^ ]*\.' 's/(-> .* numbers=[^.]*)\./\17ff8000000000000/' 'numbers, entry '
answer '^orth .*-> .*dirs=[^ ]*7ff8' 's/(-> .* dirs=[^ ]*)7ff8000000000000/\13ff0000000000000/' 'dirs, entry '
answer '^orth .*-> .*dirs=[^ ]*7ff8' 's/(-> .* dirs=[^ ]*)7ff8000000000000/\1./' 'malformed line 1: a slice that is read'
for name in state dirs; do
    answer "$step" "s/(-> .* $name=)$x/\17ff8000000000000/" "$name, entry 0: "
    answer "$step" "s/(-> .* $name=)/\10000000000000000,/" "$name: "
    answer "$step" "s/(-> .* $name=)$x,/\1/" "$name: "
done
for name in states outs values; do
    answer '^draw' "s/( $name=)$x/\10123456789abcdef/" "$name, entry 0: "
    answer '^draw' "s/( $name=)$x,/\1/" "$name: "
    answer '^draw' "s/( $name=)/\10000000000000000,/" "$name: "
done
answer '^run' 's/( faint=)0/\17/' 'faint, entry 0: '
answer '^run' 's/( faint=)0,/\1/' 'faint: 16 entries, listed 15'
answer '^run' 's/( faint=)/\10,/' 'faint: 16 entries, listed 17'

# Answered numbers, places, counts, times and values.
for name in num place finished made; do
    answer "$ended" "s/( $name=)([0-9]*)/\1\20/; s/( $name=)00/\19/" "$name"
    answer "$late" "s/( $name=)([0-9]*)/\19\2/" "$name"
done
for name in ftime mtime; do
    answer "$ended" "s/( $name=)$x/\1-/" "$name, entry 0: "
    answer "$ended" "s/( $name=)$x/\17ff8000000000000/" "$name, entry 0: "
    answer "$late" "s/( $name=)-/\13ff0000000000000/" "$name, entry 0: "
done
for kind in build validate step orth rates; do
    answer "^$kind .*num=[1-9]" 's/(-> num=)[0-9]*/\10/' 'num, entry 0: '
    answer "^$kind .*num=0" 's/(-> num=)0/\17/' 'num, entry 0: '
    answer "^$kind .*num=0" 's/(-> .*place=)0/\11/' 'place: 0, listed 1'
done
answer '^root' "s/( y=)$x/\17ff8000000000000/" 'y, entry 0: '
answer '^root .*y=7ff8' 's/( y=)7ff8000000000000/\10000000000000000/' 'y, entry 0: '
answer '^log .*num=0' "s/( y=)$x/\1-/" 'y: written'
answer '^log .*num=24' 's/( y=)-/\17ff8000000000000/' 'y, entry 0: 5a5a'
for name in dim ent; do
    answer '^rates .*num=0' "s/( $name=)$x/\1-/" "$name: written"
    answer '^rates .*num=0' "s/( $name=)$x/\17ff8000000000000/" "$name, entry 0: "
    answer '^rates .*num=22' "s/( $name=)-/\17ff8000000000000/" "$name, entry 0: 5a5a"
done
answer '^prog .*out=4' 's/(out=4)0/\11/' 'spectrum: prints 4'
answer '^prog .*out=4' 's/(out=[0-9a-f]*)[|].*/\1/' 'spectrum: prints 4'
answer '^prog .*out=refused_21_0' 's/21_0/21_1/' 'prints refused_21_0, listed refused_21_1'
answer '^prog .*out=refused_20_0' 's/20_0/20_0|/' 'prints refused_20_0, listed refused_20_0|'

# Rings of other cells or another forcing, and another answer to few cells.
answer "$ring" 's/(sys=lorenz96:)[0-9]*/\13/' 'num, entry 0: 25, listed 0'
answer "$ring" 's/(sys=lorenz96:)[0-9]*/\117/' 'num, entry 0: 8, listed 0'
answer "$ring" "s/( par=)$x/\17ff8000000000000/" 'num, entry 0: 16, listed 0'
answer "$few_cells" 's/num=25/num=10/' 'num, entry 0: 25, listed 10'
answer "$few_cells" 's/(-> .*place=)0/\11/' 'place: 0, listed 1'
answer '^run .*num=25 ' 's/num=25/num=7/' 'num, entry 0: 25, listed 7'

# Refusal 5 at a later count that is over too, in place of the first, in the list and in each function.
later() { # STEPS WINDOWS WARM-UP FIRST LATER NEXT-OR-LAST
    local kind call asked
    for kind in build validate run; do
        edited "$(over "$kind" "$1" "$2" "$3")" "s/place=$4/place=$5/" "place: $4, listed $5"
    done
    for call in build:estimate_spectrum_at validate:validate \
        run:estimate_spectrum_at run:estimate_spectrum run:validate; do
        asked=${call#*:}
        wrong "$(over "${call%:*}" "$1" "$2" "$3")" "$asked at the $6" \
            "lyapunov_$asked: place: $5, listed $4"
    done
}
later 7 7 6 0 1 next
later 7 6 7 0 2 next
later 6 7 7 1 2 next
later 7 7 7 0 1 next
later 7 7 7 0 2 last
for warm_up in 6 7; do
    wrong "$(over build 7 7 $warm_up)" 'build_config at the next' 'lyapunov_build_config: place: 1, listed 0'
done
no_warm_up=$(first '^run .*steps=16777217 windows=16777217 warmup=0 ')
wrong "$no_warm_up" 'estimate_largest at the next' 'lyapunov_estimate_largest: place: 1, listed 0'

# A count that is not over, and the several places of an older list, of which the first is the place.
edited "$(over build 6 7 7)" 's/place=1/place=0/' 'place: 1, listed 0'
all_over=$(over build 7 7 7)
sed 's/place=0/place=0\/1\/2/' <<<"$all_over" >"$list" && met 'several places'
edited "$all_over" 's/place=0/place=1\/0\/2/' 'place: 0, listed 1'
edited "$all_over" 's/place=0/place=\/0/' 'malformed line 1: no decimal number: /0'
edited "$all_over" 's/place=0/place=0,1/' 'malformed line 1: no decimal number: 0,1'

# Lines and lists that do not read.
answer '^run' 's/ -> / /' 'malformed line 1: no answer'
answer '^run' 's/ K=/ -> K=/' 'malformed line 1: two arrows'
answer '^run' 's/^run/runs/' 'malformed line 1: unknown kind: runs'
answer '^run' 's/ K=[0-9]*//' 'malformed line 1: field missing: K'
answer '^run' 's/ K=/ K=1 K=/' 'malformed line 1: field twice: K'
answer '^run' 's/ K=/ Q=1 K=/' 'malformed line 1: unknown field: Q'
answer '^run' 's/ -> / -> Q=1 /' 'malformed line 1: unknown field: Q'
answer '^run' 's/ K=[0-9]*/ K=x/' 'malformed line 1: no decimal number: x'
answer '^run' 's/ h=[0-9a-f]/ h=/' 'malformed line 1: no 16 hexadecimal digits'
answer '^run' 's/ K=/ K/' 'malformed line 1: no field: K'
answer '^run .*sys=linear' 's/sys=linear/sys=duffing/' 'malformed line 1: unknown system'
answer '^run .*sys=linear' 's/par=-/par=3ff0000000000000/' 'malformed line 1: so many parameters'
answer "$ring" 's/sys=lorenz96:/sys=lorenz96/' 'malformed line 1: unknown system'
answer "$ring" 's/sys=lorenz96:[0-9]*/sys=lorenz96:/' 'malformed line 1: no decimal number'
answer "$ring" 's/sys=lorenz96:/sys=lorenz:/' 'malformed line 1: unknown system'
answer "$ring" "s/( par=)$x/\1-/" 'malformed line 1: so many parameters'
answer '^prog .*bytes=0' 's/bytes=0/bytes=/' 'malformed line 1: no bytes'
answer '^validate' 's/ -> / rowslen=3 -> /' 'malformed line 1: unknown field: rowslen'
printf '# a remark\n\n' >"$list" && must_notice 'a list of no cases' '0 of 0 cases replayed'
first '^root' | tr -d '\n' >"$list" && must_notice 'a list that ends inside a line' 'line 1: no end'
first '^root' | sed 's/$/\x00 more/' >"$list" && must_notice 'a zero byte' 'line 1: a zero byte'

# Libraries that write beside a slice, write what is lent for reading, or leave a number unwritten.
a_run=$(first "$ended") a_step=$(first "$step") accepted=$(first '^validate .*num=0')
for where in before behind; do
    for slice in rows exponents final_state counts times; do
        wrong "$a_run" "$slice $where" "memory $where $slice was written"
    done
    wrong "$a_run" "matrix $where" "memory $where mat was written"
    wrong "$a_run" "state $where" "memory $where x0 was written"
    wrong "$accepted" "matrix $where" "memory $where mat was written"
    wrong "$accepted" "state $where" "memory $where x0 was written"
    wrong "$a_step" "matrix $where" "memory $where mat was written"
    wrong "$a_step" "state $where" "memory $where state was written"
    wrong "$a_step" "tangents $where" "memory $where dirs was written"
    wrong "$(first "$orth")" "tangents $where" "memory $where dirs was written"
    wrong "$(first "$orth")" "numbers $where" "memory $where numbers was written"
    wrong "$(first '^log')" "out $where" "memory $where out was written"
    wrong "$(first '^rates')" "rates $where" "memory $where rates was written"
    wrong "$(first '^rates')" "out $where" "memory $where out was written"
    for kind in build validate run step orth rates; do
        wrong "$(first "^$kind")" "place $where" "memory $where place was written"
    done
done
wrong "$(first '^run .*sys=linear.*num=0')" 'matrix changed' 'memory of the input mat was written'
wrong "$a_run" 'state changed' 'memory of the input x0 was written'
wrong "$accepted" 'matrix changed' 'memory of the input mat was written'
wrong "$accepted" 'state changed' 'memory of the input x0 was written'
wrong "$(first '^rates .*num=0')" 'rates changed' 'memory of the input rates was written'
wrong "$a_run" 'counts kept' 'place: '
wrong "$a_run" 'times kept' 'ftime, entry 0: '
for kind in build validate run step orth rates; do
    wrong "$(first "^$kind")" 'place kept' 'place: '
done
for slice in rows:rows exponents:exps final_state:final; do
    wrong "$a_run" "${slice%:*} kept" "${slice#*:}, entry 0: 5a5a5a5a5a5a5a5a"
done

# Libraries that refuse or run otherwise.
two_over=$(over build 6 7 7)
wrong "$two_over" 'place by K' 'refused by 5 at 1, but with K 17'
wrong "$two_over" 'place by outputs' 'refused by 5 at 1, but with K 16 and rows of 600'
wrong "$all_over" "builder's place by K" 'place with K 17, entry 0: 1, listed 0'
wrong "$two_over" 'builder accepts' 'lyapunov_build_config: num, entry 0: 0, listed 5'
wrong "$accepted" 'outputs tested' 'lyapunov_validate: num, entry 0: 13, listed 0'
wrong "$(first '^validate .*num=6 ')" 'input accepted' 'lyapunov_validate: num, entry 0: 0, listed 6'
wrong "$(first '^run .*num=11 ')" 'input accepted' 'lyapunov_validate: num, entry 0: 0, listed 11'
wrong "$(first '^run .*num=13 ')" 'outputs tested' 'lyapunov_validate: num, entry 0: 13, listed 0'
from_zero=$(first '^run .*sys=rossler .*K=1 h=3.* warmup=0 seed=4c594150554e4f56 t0=0000000000000000 .*num=0')
wrong "$from_zero" 'from time one' 'lyapunov_estimate_spectrum: ftime'
wrong "$from_zero" 'another seed' 'lyapunov_estimate_largest: '
wrong "$from_zero" 'one warm-up' 'lyapunov_estimate_largest: made'
wrong "$(first '^rates .*num=0')" 'dimension for entropy' 'lyapunov_kolmogorov_sinai_entropy: ent'

# Zeros with the sign of sums from the other zero, in the list and in each function that has one.
turned=$(first '^orth .* by sums from \+0\.0') none_positive=$(first '^rates .* ent=8000000000000000 ')
a_row=$(first "^step .*a row's sum starts at \+0\.0")
edited "$turned" 's/(-> .* dirs=.*),0{16} /\1,8000000000000000 /' 'dirs, entry 5: 0000000000000000, listed 8000'
edited "$none_positive" 's/ent=8/ent=0/' 'ent, entry 0: 8000000000000000, listed 0000'
edited "$a_row" 's/(-> .* state=)0/\18/' 'state, entry 0: 0000000000000000, listed 8000'
answer '^prog .*\|8000000000000000 ' 's/\|8/|0/' 'prints 0000000000000000|8000000000000000, listed 0000'
wrong "$turned" 'dot product from the other zero' 'dirs, entry 5: 8000000000000000, listed 0000'
wrong "$none_positive" 'entropy from the other zero' 'ent, entry 0: 0000000000000000, listed 8000'
wrong "$a_row" 'row from the other zero' 'state, entry 0: 8000000000000000, listed 0000'

# Libraries that take a ring otherwise. A ring reads no matrix: one of NaNs that a linear system would
# accept is lent to it.
a_ring=$(first "$ring")
cells=$(sed -E 's/.*sys=lorenz96:([0-9]+) .*/\1/' <<<"$a_ring")
matrix=$(seq $((cells * cells)) | sed 's/.*/7ff8000000000000/' | paste -sd,)
with_matrix=$(sed -E "s/ mat=[^ ]*/ mat=$matrix/" <<<"$a_ring")
no_state=$(first "$few_cells" | sed -E 's/ state=[^ ]*/ state=-/g')
wrong "$a_ring" 'ring as Lorenz' 'num, entry 0: 10, listed 0'
wrong "$with_matrix" 'ring as linear' 'num, entry 0: 16, listed 0'
wrong "$a_ring" 'ring unknown' 'num, entry 0: 7, listed 0'
wrong "$a_ring" 'forcing second' 'state, entry 0: '
wrong "$a_ring" 'neighbours turned' 'state, entry 0: '
wrong "$(first "$few_cells")" 'cells accepted' 'num, entry 0: 0, listed 25'
wrong "$no_state" 'state before cells' 'num, entry 0: 10, listed 25'
wrong "$(first '^run .*sys=lorenz96:.*num=0 ')" 'ring unknown' 'num, entry 0: 7, listed 0'
wrong "$(first '^run .*num=25 ')" 'cells accepted' 'lyapunov_estimate_spectrum_at: num, entry 0: 0'
wrong "$(first '^run .*num=25 ')" 'input accepted' 'lyapunov_validate: num, entry 0: 0, listed 25'

# States that are kept. A keep of the list and a going on from it stay right under any number, a keep is
# what a run is, and what is refused before a run answers nothing else.
lines() { # LINE...
    printf '%s\n' "$@"
}

under() { # NUMBER LINE
    sed -E "s/ number=[0-9]+ / number=$1 /" <<<"$2"
}

with() { # NAME VALUE LINE: another value handed in
    sed -E "s/ $1=[^ ]* (.*->)/ $1=$2 \1/" <<<"$3"
}

as_keep() { # NUMBER RUN
    sed -E "s/^run (id=[^ ]*) /keep \1 number=$1 /" <<<"$2"
}

refused_early() { # NUM PLACE LINE
    local answer="num=$1 place=$2 finished=0 made=0 faint=0,0,0,0,0,0,0,0,0,0,0,0,0,0,0,0 ftime=- mtime=-"
    sed -E -e "s/-> .* rows=/-> $answer rows=/" \
        -e ":again; s/( (rows|exps|final)=[.,]*)$x/\1./; t again" <<<"$3"
}

forgotten() { # NUMBER NUM
    echo "forget id=planted number=$1 -> num=$2 place=0"
}

a_keep_of() { # LINE: the last keep that it goes on from
    local found
    found=$(sed "/^${1%% sys=*} /q" tests/answers.txt | grep '^keep .* num=0 ' \
        | grep -F " $(grep -o 'number=[0-9]*' <<<"$1") " | tail -1) || true
    [ -n "$found" ] || fail "no keep before $1"
    echo "$found"
}

emptied='empty id=planted ->'
a_going_on=$(first "^go-on .* sys=(lorenz|rossler|vdp).* num=0 .* rows=[0-9a-f,]+ exps=$x")
a_keep=$(under 7 "$(a_keep_of "$a_going_on")") a_going_on=$(under 7 "$a_going_on")
refused_later=$(first "^go-on .*num=1[4678] .* finished=[1-9].* rows=$x")
from_kept=$(lines "$emptied" "$a_keep" "$a_going_on")
and_forgotten=$(lines "$from_kept" "$(forgotten 7 0)")
full=$(echo "$emptied" && for number in 0 1 2 3 4 5 6 7; do under $number "$a_keep"; done)

# Answers, numbers and lines that are not those of the store.
for name in rows exps final; do
    edited "$from_kept" "\$ s/( $name=)$x/\17ff8000000000000/" "lyapunov_go_on: $name, entry 0: "
    edited "$from_kept" "\$ s/( $name=)$x/\1./" "lyapunov_go_on: $name, entry 0: written"
    edited "$from_kept" "2 s/( $name=)$x/\17ff8000000000000/" "lyapunov_keep: $name, entry 0: "
done
for name in num place finished made faint; do
    edited "$from_kept" "\$ s/( $name=)([0-9]*)/\19\2/" "lyapunov_go_on: $name"
    edited "$from_kept" "2 s/( $name=)([0-9]*)/\19\2/" "lyapunov_keep: $name"
done
for name in ftime mtime; do
    edited "$from_kept" "\$ s/( $name=)$x/\1-/" "lyapunov_go_on: $name, entry 0: "
done
edited "$and_forgotten" '$ s/num=0/num=26/' 'lyapunov_forget: num, entry 0: 0, listed 26'
edited "$and_forgotten" '$ s/place=0/place=1/' 'lyapunov_forget: place: 0, listed 1'
edited "$and_forgotten" '$ s/number=7/number=8/' 'lyapunov_forget: num, entry 0: 26, listed 0'
edited "$from_kept" '$ s/number=7/number=8/' 'lyapunov_go_on: num, entry 0: 26, listed 0'
edited "$from_kept" '/^keep/ d' 'lyapunov_go_on: num, entry 0: 26, listed 0'
edited "$from_kept" '/^keep/ { p; s/.*/empty id=again ->/ }' 'lyapunov_go_on: num, entry 0: 26, listed 0'
edited "$from_kept" '/^empty/ d' 'malformed line 1: no empty store before: '
edited "$from_kept" '$ s/ number=7//' 'malformed line 3: field missing: number'
edited "$from_kept" 's/number=7/number=256/' 'malformed line 2: no number of a state: 256'
edited "$from_kept" 's/number=7/number=-1/' 'malformed line 2: no decimal number: -1'
edited "$from_kept" '1 s/ ->/ number=7 ->/' 'malformed line 1: unknown field: number'
edited "$and_forgotten" '$ s/ ->/ K=1 ->/' 'malformed line 4: unknown field: K'

# Libraries that go on otherwise, or change what is kept.
wrong "$from_kept" 'rows at their place' 'lyapunov_go_on: rows, entry 0: 5a5a5a5a5a5a5a5a'
wrong "$from_kept" 'rows of the first' 'lyapunov_go_on: rows, entry 0: '
wrong "$from_kept" 'exponents of the later' 'lyapunov_go_on: exps, entry 0: '
wrong "$from_kept" 'finished of the later' 'lyapunov_go_on: finished, entry 0: '
wrong "$from_kept" 'steps of the later' 'lyapunov_go_on: made, entry 0: '
wrong "$from_kept" 'time of the later' 'lyapunov_go_on: mtime, entry 0: '
wrong "$from_kept" 'going on keeps' 'lyapunov_go_on: memory of the input store_'
wrong "$from_kept" 'going on forgets' 'lyapunov_go_on: memory of the input store_counts was written'
wrong "$from_kept" 'store_floats kept' 'lyapunov_go_on: '
wrong "$(lines "$emptied" "$(a_keep_of "$refused_later")" "$refused_later")" \
    'refused rows left out' 'lyapunov_go_on: rows, entry 0: 5a5a5a5a5a5a5a5a'
a_refused_keep=$(lines "$emptied" "$a_keep" "$(as_keep 7 "$(first "$late")")" "$a_going_on")
for wrong_end in replaces forgets; do
    wrong "$a_refused_keep" "refused keep $wrong_end" 'lyapunov_keep: store_'
    wrong "$a_refused_keep" "refused keep $wrong_end" 'lyapunov_go_on: '
done
wrong "$(lines "$emptied" "$(as_keep 7 "$a_run")" "$a_keep" "$a_going_on")" 'first keep stays' 'lyapunov_go_on: '
wrong "$(lines "$emptied" "$(under 200 "$a_keep")" "$(forgotten 72 26)")" \
    'number of 7 bits' 'lyapunov_forget: num, entry 0: 0, listed 26'

# Libraries that refuse otherwise, or forget otherwise.
no_windows=$(refused_early 4 0 "$(with windows 0 "$a_going_on")")
wrong "$(lines "$emptied" "$a_keep" "$no_windows")" '4 by the sum' 'lyapunov_go_on: num, entry 0: 0, listed 4'
for windows in '16777216 the later' '18446744073709551615 a wrapped sum'; do
    too_many=$(refused_early 5 1 "$(with windows "${windows%% *}" "$a_going_on")")
    wrong "$(lines "$emptied" "$a_keep" "$too_many")" "5 by ${windows#* }" 'lyapunov_go_on: num, entry 0: 0, listed 5'
done
wrong "$from_kept" '13 by the sum' 'lyapunov_go_on: num, entry 0: 13, listed 0'
none_kept=$(refused_early 26 0 "$a_going_on")
wrong "$(lines "$emptied" "$none_kept")" '26 left out' 'lyapunov_go_on: num, entry 0: 0, listed 26'
wrong "$(lines "$emptied" "$(with K 0 "$none_kept")")" '26 after settings' 'lyapunov_go_on: num, entry 0: 1, listed 26'
ninth=$(refused_early 27 0 "$(under 8 "$a_keep")")
wrong "$(lines "$full" "$ninth")" '27 left out' 'lyapunov_keep: num, entry 0: 0, listed 27'
wrong "$(lines "$full" "$(with K 0 "$ninth")")" '27 after settings' 'lyapunov_keep: num, entry 0: 1, listed 27'
wrong "$(lines "$full" "$a_keep")" '27 by itself' 'lyapunov_keep: num, entry 0: 27, listed 0'
wrong "$(lines "$full" "$(forgotten 7 0)" "$(under 8 "$a_keep")")" \
    '27 by forgotten' 'lyapunov_keep: num, entry 0: 27, listed 0'
wrong "$and_forgotten" 'slot left' 'lyapunov_go_on: num once forgotten, entry 0: '
wrong "$(lines "$full" "$(forgotten 0 0)" "$a_going_on")" 'all forgotten' 'lyapunov_go_on: num, entry 0: 26, listed 0'
wrong "$(lines "$from_kept" "$(forgotten 8 26)")" 'forgetting accepted' 'lyapunov_forget: num, entry 0: 0, listed 26'
wrong "$(lines "$from_kept" "$(forgotten 8 26)")" 'forgetting empties' 'lyapunov_forget: store_counts, entry '

# Libraries that write beside the store, or beside what a kept run is lent.
for where in before behind; do
    wrong "$emptied" "store_counts $where" "lyapunov_empty_store: memory $where store_counts was written"
    for call in keep go_on forget; do
        wrong "$and_forgotten" "store_floats $where" "lyapunov_$call: memory $where store_floats was written"
        wrong "$and_forgotten" "store_counts $where" "lyapunov_$call: memory $where store_counts was written"
    done
    for slice in rows exponents final_state counts times; do
        wrong "$from_kept" "$slice $where" "lyapunov_keep: memory $where $slice was written"
        wrong "$from_kept" "$slice $where" "lyapunov_go_on: memory $where $slice was written"
    done
done
wrong "$emptied" 'store_counts kept' 'lyapunov_empty_store: store_counts, entry 0: '
wrong "$and_forgotten" 'store_floats changed' 'lyapunov_forget: memory of the input store_floats was written'
wrong "$from_kept" 'state changed' 'lyapunov_go_on: memory of the input x0 was written'
wrong "$from_kept" 'counts kept' 'lyapunov_go_on: place: '
wrong "$from_kept" 'times kept' 'lyapunov_go_on: ftime, entry 0: '

# Several circuits: all calls of the list's dispatcher, one of them changed, or with a wrong library.
dispatched=$(grep -E '^(dispatcher|hand-in|next|turn) ' tests/answers.txt) || fail 'no dispatcher'

called() { # PATTERN EDIT MESSAGE: the first call that matches, changed
    edited "$dispatched" "0,/$1/ { /$1/ $2 }" "$3"
}

mistaken() { # WRONG MESSAGE
    wrong "$dispatched" "$1" "$2"
}

taken='^hand-in .*num=0 ' not_taken='^hand-in .*num=[1-9]'
nobody='^turn .*stage=nobody ' unfit='^turn .*stage=unfit '
under_way="^turn .*stage=under-way .* rows=$x.*,\\. exps=\\." over='^turn .*stage=over '
ended="$over.*num=0 " broken="$over.*num=1[4678] "

# Answers.
for name in num place name; do
    called "$taken" "s/(-> .*$name=)([0-9]+)/\19\2/" "lyapunov_hand_in: $name"
    called "$not_taken" "s/(-> .*$name=)([0-9]+)/\19\2/" "lyapunov_hand_in: $name"
done
called '^next .*name=[0-7]' 's/name=[0-7]/name=8/' 'lyapunov_next: name, entry 0: '
called '^next .*name=8' 's/name=8/name=0/' 'lyapunov_next: name, entry 0: 8, listed 0'
called "$nobody" 's/stage=nobody/stage=unfit/' 'lyapunov_turn: stage, entry 0: 0, listed 1'
called "$unfit" 's/stage=unfit/stage=nobody/' 'lyapunov_turn: stage, entry 0: 1, listed 0'
called "$unfit" 's/stage=unfit/stage=under-way/' 'lyapunov_turn: stage, entry 0: 1, listed 2'
called "$under_way" 's/stage=under-way/stage=over/' 'lyapunov_turn: stage, entry 0: 2, listed 3'
called "$over" 's/stage=over/stage=under-way/' 'lyapunov_turn: stage, entry 0: 3, listed 2'
for stage in "$nobody" "$unfit" "$under_way" "$ended" "$broken"; do
    for name in name begun num place; do
        called "$stage" "s/( $name=)([0-9]+)/\19\2/" "lyapunov_turn: $name"
    done
done
for name in finished made faint; do
    called "$ended" "s/( $name=)([0-9]+)/\19\2/" "lyapunov_turn: $name, entry 0: "
    called "$broken" "s/( $name=)([0-9]+)/\19\2/" "lyapunov_turn: $name, entry 0: "
done
for name in finished made faint ftime mtime; do
    for stage in "$nobody" "$unfit" "$under_way"; do
        called "$stage" "s/( $name=)-/\10000000000000000/" "lyapunov_turn: $name: not told, listed 0000"
    done
done
for name in ftime mtime; do
    called "$ended" "s/( $name=)$x/\1-/" "lyapunov_turn: $name, entry 0: "
    called "$broken" "s/( $name=)-/\13ff0000000000000/" "lyapunov_turn: $name, entry 0: 0000"
done
for name in rows exps final; do
    called "$ended" "s/( $name=)$x/\17ff8000000000000/" "lyapunov_turn: $name, entry 0: "
    called "$ended" "s/( $name=)$x/\1./" "lyapunov_turn: $name, entry 0: written"
    called "$ended" "s/( $name=)/\10000000000000000,/" "lyapunov_turn: $name: "
done
for name in exps final; do
    called "$under_way" "s/( $name=)\./\10000000000000000/" "lyapunov_turn: $name, entry 0: 5a5a5a5a5a5a5a5a"
done
called "$under_way" "s/( rows=)$x/\1./" 'lyapunov_turn: rows, entry 0: written'
called "$under_way" 's/( rows=.*),\. exps/\1,0000000000000000 exps/' '5a5a5a5a5a5a5a5a, listed 0000'

# Calls that do not read.
called '^dispatcher' d 'malformed line 1: no empty dispatcher before: '
edited "$dispatched" '/^(dispatcher|hand-in|turn)/ d' 'malformed line 1: no empty dispatcher before: '
called '^dispatcher' 's/ ->/ set=1 ->/' 'malformed line 1: unknown field: set'
called "$taken" 's/ K=[0-9]+//' ': field missing: K'
called "$taken" 's/ ->/ mat=- ->/' ': unknown field: mat'
called '^next' 's/ ->/ set=1 ->/' ': unknown field: set'
called "$over" 's/stage=over/stage=done/' ': unknown stage: done'
called '^turn' 's/ set=[0-9]+/ set=16/' ': no number of a set: 16'
called '^turn' 's/ fresh=1/ fresh=2/' ': neither 0 nor 1: 2'
called '^turn' 's/ fresh=1/ fresh=0/' ': no such set of outputs: '
for name in rowslen expslen finallen; do
    called '^turn .*fresh=0' "s/ ($name)=([0-9]+)/ \1=9\2/" ': no such set of outputs: '
done

# Libraries that take turns or name runs otherwise.
mistaken 'turn goes to the front' 'lyapunov_next: name, entry 0: '
mistaken 'turn goes to the front' 'lyapunov_turn: name, entry 0: '
mistaken 'new run in front' 'lyapunov_next: name, entry 0: '
mistaken 'new run in front' 'lyapunov_turn: name, entry 0: '
mistaken 'nobody as 0' 'lyapunov_next: name, entry 0: 0, listed 8'
mistaken 'unfit turn is spent' 'lyapunov_turn: run_'
mistaken 'name by count' 'lyapunov_hand_in: name, entry 0: '
mistaken 'finished run keeps its name' 'lyapunov_hand_in: name, entry 0: '
mistaken 'refused run ends all' 'lyapunov_turn: stage, entry 0: 0, listed '
mistaken '28 after settings' ', listed 28'
mistaken '28 left out' 'lyapunov_hand_in: num, entry 0: 0, listed 28'
mistaken '9 on handing in' 'lyapunov_hand_in: num, entry 0: 9, listed 0'

# Libraries that tell or write otherwise.
mistaken 'begun one less' 'lyapunov_turn: begun, entry 0: 0, listed 1'
mistaken 'row at place 0' 'lyapunov_turn: rows, entry 0: '
mistaken 'place of an end in the event' 'lyapunov_turn: place of the event, entry 0: 1, listed 0'
for name in counts times; do
    mistaken "$name while under way" "lyapunov_turn: $name, entry 0: changed, and must stay"
done
mistaken 'exponents while under way' 'lyapunov_turn: exps, entry 0: written'
mistaken 'final_state while under way' 'lyapunov_turn: final, entry 0: written'
for name in run_floats run_counts run_settings queue; do
    mistaken "refused hand-in changes $name" "lyapunov_hand_in: $name, entry "
    mistaken "$name kept" 'lyapunov_turn: '
done
for name in run_floats run_counts queue; do
    mistaken "unfit turn changes $name" "lyapunov_turn: $name, entry "
    mistaken "nobody's turn changes $name" "lyapunov_turn: $name, entry "
done
mistaken 'run_settings changed' 'lyapunov_turn: memory of the input run_settings was written'
mistaken 'next changes queue' 'lyapunov_next: queue, entry '
mistaken 'queue kept' 'lyapunov_empty_dispatcher: queue, entry 0: '
mistaken 'state changed' 'lyapunov_hand_in: memory of the input x0 was written'
mistaken 'matrix changed' 'lyapunov_turn: memory of the input mat was written'
mistaken 'name kept' 'lyapunov_hand_in: name, entry 0: '
mistaken 'place kept' 'lyapunov_hand_in: place: '
mistaken 'event kept' 'lyapunov_turn: stage, entry 0: '
mistaken 'counts kept' 'lyapunov_turn: place: '
mistaken 'times kept' 'lyapunov_turn: ftime, entry 0: '
for slice in rows:rows exponents:exps final_state:final; do
    mistaken "${slice%:*} kept" "lyapunov_turn: ${slice#*:}, entry 0: 5a5a5a5a5a5a5a5a"
done
for where in before behind; do
    mistaken "queue $where" "lyapunov_empty_dispatcher: memory $where queue was written"
    mistaken "queue $where" "lyapunov_next: memory $where queue was written"
    for name in run_floats run_counts run_settings queue name place state:x0; do
        mistaken "${name%:*} $where" "lyapunov_hand_in: memory $where ${name#*:} was written"
    done
    for name in run_floats run_counts run_settings queue matrix:mat rows exponents final_state event counts times; do
        mistaken "${name%:*} $where" "lyapunov_turn: memory $where ${name#*:} was written"
    done
done

# Steps of warm-up windows: in the list, and in libraries that test them or make them otherwise.
with_options=lyapunov_estimate_spectrum_at_with_options
settled=$(first '^run .*sys=lorenz .*warmup=2 warmupsteps=25 .*num=0 ')
in_warm_up=$(first '^run .* faint in the warm-up alone')
edited "$settled" 's/ warmupsteps=25//' 'lyapunov_estimate_spectrum_at: made, entry 0: 50, listed 80'
edited "$settled" 's/warmupsteps=25/warmupsteps=24/' "$with_options: made, entry 0: 78, listed 80"
edited "$settled" 's/steps=10/steps=25/; s/warmupsteps=25/warmupsteps=10/' "$with_options: made, entry 0: 95, listed 80"
edited "$settled" 's/warmupsteps=25/warmupsteps=x/' 'malformed line 1: no decimal number: x'
edited "$settled" 's/ warmupsteps=25/& warmupsteps=25/' 'malformed line 1: field twice: warmupsteps'
wrong "$settled" 'options ignored' "$with_options: made, entry 0: 50, listed 80"
wrong "$settled" 'steps exchanged' "$with_options: made, entry 0: 95, listed 80"
wrong "$settled" 'steps without the warm-up' "$with_options: made, entry 0: 30, listed 80"
wrong "$settled" 'D from the warm-up steps' "$with_options: mtime, entry 0: "
wrong "$in_warm_up" 'faint counts without the warm-up' "$with_options: faint, entry 0: 0, listed 1"
for kind in run validate build; do
    without=$(first "^$kind .*num=29 .* 29 without warm-up windows")
    call=$([ $kind = validate ] && echo lyapunov_validate_with_options || echo $with_options)
    edited "$without" 's/num=29/num=3/' 'num, entry 0: 29, listed 3'
    edited "$without" 's/(-> .*place=)0/\13/' 'place: 0, listed 3'
    wrong "$without" '29 left out' "$call: num, entry 0: 0, listed 29"
    wrong "$(first "^$kind .* 4 before 29")" '29 before 4' "$call: num, entry 0: 29, listed 4"
    for count in steps windows warm-up; do
        wrong "$(first "^$kind .* 29 before 5 at the $count\$")" '29 after 5' "$call: num, entry 0: 5, listed 29"
    done
    over_alone=$(first "^$kind .*num=5 place=3 ")
    edited "$over_alone" 's/place=3/place=2/' 'place: 3, listed 2'
    wrong "$over_alone" 'place 2 for 3' "$call: place: 2, listed 3"
    wrong "$over_alone" "5 of warm-up steps left out" "$call: num, entry 0: "
done

# The same in a store and in a dispatcher.
kept_so=$(first '^keep .*warmupsteps=25 ') no_steps=$(first '^go-on .*num=29 ')
from_settled=$(lines "$emptied" "$kept_so" "$(first '^go-on .*warmupsteps=25 .*num=0 ')")
edited "$from_settled" '2 s/ warmupsteps=25//' 'lyapunov_keep: made, entry 0: 40, listed 70'
edited "$from_settled" '3 s/( made=)[0-9]*/\160/' 'lyapunov_go_on_with_options: made, entry 0: 100, listed 60'
wrong "$from_settled" 'options ignored' 'lyapunov_keep_with_options: made, entry 0: 40, listed 70'
wrong "$(lines "$emptied" "$kept_so" "$no_steps")" 'options ignored' 'lyapunov_go_on_with_options: num, entry 0: 0, listed 29'
handed_in=$(lines 'dispatcher id=planted ->' "$(first '^hand-in .*num=29 ')")
edited "$handed_in" '2 s/warmupsteps=0/warmupsteps=1/' 'lyapunov_hand_in_with_options: num, entry 0: 0, listed 29'
wrong "$handed_in" 'options ignored' 'lyapunov_hand_in_with_options: num, entry 0: 0, listed 29'
mistaken 'options ignored' 'lyapunov_turn: '
for where in before behind changed; do
    memory=$([ $where = changed ] && echo 'memory of the input' || echo "memory $where")
    wrong "$settled" "options $where" "$with_options: $memory options was written"
    wrong "$(first '^validate .*warmupsteps=')" "options $where" "lyapunov_validate_with_options: $memory options was written"
    wrong "$from_settled" "options $where" "lyapunov_keep_with_options: $memory options was written"
    wrong "$from_settled" "options $where" "lyapunov_go_on_with_options: $memory options was written"
    wrong "$handed_in" "options $where" "lyapunov_hand_in_with_options: $memory options was written"
done

# Programs: the right answer and then something else.
stand_in() { # COMMAND MESSAGE: a program that runs the right one and then the command
    first '^prog .*out=refused_21' >"$list"
    program=$right_program && met "$1"
    program=$work/program
    printf '#!/bin/sh\n"%s"\n%s\n' "$right_program" "$1" >"$program" && chmod +x "$program"
    must_notice "$1" "$2"
    program=$right_program
}
stand_in 'exit 3' 'spectrum: exit status 3'
stand_in 'kill -9 $$' 'spectrum: ended by signal 9'
stand_in 'echo more' 'prints refused_21_0|more'
stand_in 'printf more' 'prints no whole line'
stand_in 'exec cat /dev/zero' 'spectrum: '
program=/nonexistent && must_notice 'no program' 'spectrum: exit status 127'

echo "$noticed planted faults, each noticed"
