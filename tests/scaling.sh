#!/usr/bin/env bash
# scaling.sh KEY_PROGRAM [RUNS]
#
# How the cost of an event grows with the number of threads and timeslices: files of about 65,536 bytes from oracle/grow.rs, timed as
# in bench.sh, beside oracle/straight.rs. Not part of any timed test. Stops after 20 seconds for each of RUNS.
set -euo pipefail
export LC_ALL=C
[ $# -ge 1 ] || { echo "scaling.sh KEY_PROGRAM [RUNS]" >&2; exit 2; }
here=$(dirname "$(readlink -f "${BASH_SOURCE[0]}")")
program=$(realpath -e "$1")
runs=${2:-15}
work=$(mktemp -d)
trap 'rm -rf "$work"' EXIT

for name in straight grow timer; do
    rustc --edition 2021 -O -o "$work/$name" "$here/oracle/$name.rs"
done
files=()
for n in 2 8 32 64 128; do
    "$work/grow" $n > "$work/threads$n"
    files+=("$work/threads$n")
done
timeout $((20 * runs)) "$work/timer" "$runs" "$program" "$work/straight" "${files[@]}"
