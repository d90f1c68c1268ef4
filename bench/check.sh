#!/bin/sh
# What the check costs a row, in a model of full size and in one of a quarter of each size.
#
#     bench/check.sh [RUNS]
#
# RUNS is how often each command is run, 200 if not said. The ratio of the two costs should stay below 1.5;
# a check that went through the earlier rows again at each row would show one near 4. Ends with status 1 if
# the ratio is above, and with 2 if nothing could be measured. LANE may name another program than
# crates/lane/out/lane, which `rt run` builds in the folder crates/lane.
set -eu

runs=${1:-200}
here=$(cd "$(dirname "$0")" && pwd)
lane=${LANE:-$here/../crates/lane/out/lane}

if [ ! -x "$lane" ]; then
    echo "there is no $lane: build it with rt run in crates/lane" >&2
    exit 2
fi

work=$(mktemp -d)
trap 'rm -rf "$work"' EXIT
for part in 1 4; do
    case $part in 1) name="full size" ;; *) name="a quarter" ;; esac
    model=$work/model-$part.txt
    python3 "$here/model.py" "$part" > "$model"
    # the same text without its last word: it is read, and refused for its length before any row is judged
    sed '$s/ [^ ]*$//' "$model" > "$work/short-$part.txt"
    verdict=$("$lane" check "$model") || true
    case $verdict in
        accepted*) echo "$name: $verdict" ;;
        *) echo "$name is not accepted: $verdict" >&2; exit 2 ;;
    esac
    verdict=$("$lane" check "$work/short-$part.txt" 2>&1) || true
    case $verdict in
        *"refused 1"*) ;;
        *) echo "$name, a word short, is not refused by 1: $verdict" >&2; exit 2 ;;
    esac
done

python3 "$here/timing.py" "$lane" "$work" "$runs"
