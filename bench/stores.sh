#!/bin/sh
# What a write costs in each store, at 64 and at 4096 cells, and what the other calls of a transactional
# store cost. The times of begin, commit and rollback have one reading of the clock in them.
#
#     bench/stores.sh [ROUNDS]
#
# ROUNDS times 256 writes are made of each store, 20000 if not said. STORE_BENCH may name another program
# than crates/store_bench/out/store_bench, which `rt run` builds in the folder crates/store_bench.
set -eu

bench=${STORE_BENCH:-$(cd "$(dirname "$0")" && pwd)/../crates/store_bench/out/store_bench}
if [ ! -x "$bench" ]; then
    echo "there is no $bench: build it with rt run in crates/store_bench" >&2
    exit 2
fi
exec "$bench" "${1:-20000}"
