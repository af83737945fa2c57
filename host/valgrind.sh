#!/usr/bin/env bash
# Runs some calls of random bytes under valgrind, which notices reads and writes of memory
# that was not lent. Usage: host/valgrind.sh [CALLS] [SEED]
set -euo pipefail

if ! command -v valgrind >/dev/null; then
    echo "valgrind is not on this machine; nothing was run"
    exit 0
fi
cd "$(dirname "${BASH_SOURCE[0]}")"
cargo build --release -p compare
target=${CARGO_TARGET_DIR:-target}
valgrind --error-exitcode=1 --leak-check=no --quiet \
    "$target/release/compare" fuzz --seconds 120 --calls "${1:-800}" --seed "${2:-1}"
