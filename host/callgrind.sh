#!/usr/bin/env bash
# Counts the instructions of the example's runs, which a busy machine does not change.
# Usage: host/callgrind.sh ARCHIVE
set -euo pipefail

if [ $# -ne 1 ] || [ ! -f "$1" ]; then
    echo "usage: $0 ARCHIVE, the path of liblyapunov.a" >&2
    exit 2
fi
if ! command -v valgrind >/dev/null; then
    echo "valgrind is not on this machine: nothing is counted"
    exit 0
fi
archive=$(realpath "$1")
root=$(cd "$(dirname "${BASH_SOURCE[0]}")/.." && pwd)
work=$(mktemp -d)
trap 'rm -rf "$work"' EXIT
"${CC:-cc}" -std=c99 -O2 -I "$root/include" "$root/examples/lorenz.c" "$archive" -o "$work/lorenz"
valgrind --tool=callgrind --callgrind-out-file="$work/out" \
    --toggle-collect='lyapunov_estimate_spectrum*' "$work/lorenz" 2>"$work/log" || { cat "$work/log"; exit 1; }
grep Collected "$work/log" | sed 's/.*Collected/instructions of every run/'
