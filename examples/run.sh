#!/usr/bin/env bash
# Compiles the examples with the header and the archive, and runs them. Usage: examples/run.sh ARCHIVE
set -euo pipefail

if [ $# -ne 1 ] || [ ! -f "$1" ]; then
    echo "usage: $0 ARCHIVE, the path of liblyapunov.a" >&2
    exit 2
fi
archive=$1
root=$(cd "$(dirname "${BASH_SOURCE[0]}")/.." && pwd)
work=$(mktemp -d)
trap 'rm -rf "$work"' EXIT

cc=${CC:-cc}
for example in lorenz continuations circuits; do
    "$cc" -std=c99 -pedantic -Wall -Wextra -Werror -O2 -I "$root/include" \
        "$root/examples/$example.c" "$archive" -o "$work/$example"
    "$work/$example"
done
