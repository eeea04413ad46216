#!/usr/bin/env bash
# bench.sh KEY_PROGRAM [RUNS [BEFORE]]
#
# The time of KEY_PROGRAM against oracle/straight.rs and oracle/key.rs, and of plain_key, which stands beside it, against KEY_PROGRAM:
# same machine, same files, best of RUNS (default 15) runs that take turns. Times are of whole processes, start, reading and printing
# included; nothing is subtracted. Not part of any timed test. Stops after 20 seconds for each of RUNS.
# With BEFORE, an earlier key program, the time is against that one, on files in which no timeslice is depleted, so that BEFORE may be
# from before request [2]; but for the last two, ranks and refills, which need a program from request [4] on.
set -euo pipefail
export LC_ALL=C
[ $# -ge 1 ] || { echo "bench.sh KEY_PROGRAM [RUNS [BEFORE]]" >&2; exit 2; }
here=$(dirname "$(readlink -f "${BASH_SOURCE[0]}")")
program=$(realpath -e "$1")
runs=${2:-15}
before=${3:+$(realpath -e "$3")}
work=$(mktemp -d)
trap 'rm -rf "$work"' EXIT

for name in key straight make timer; do
    rustc --edition 2021 -O -o "$work/$name" "$here/oracle/$name.rs"
done
files=()
for kind in full small chain16 chain64 chain127; do
    kind+=${before:+-undepleted}
    "$work/make" 1 1 "$work/in" "$kind"
    files+=("$work/in/$kind-00000")
done
for kind in ranks refills; do
    "$work/make" 1 1 "$work/in" "$kind"
    files+=("$work/in/$kind-00000")
done
against() { # NAME OPPONENT [PROGRAM instead of KEY_PROGRAM]
    local by=${3:-$program}
    echo "${by##*/} against $1"
    timeout $((20 * runs)) "$work/timer" "$runs" "$by" "$2" "${files[@]}"
}
if [ -n "$before" ]; then
    against "$before" "$before"
else
    plain=$(realpath -e "$(dirname "$program")/plain_key")
    for opponent in straight key; do against "oracle/$opponent.rs" "$work/$opponent"; done
    against "${program##*/}" "$program" "$plain"
fi
echo "Whole processes, best of $runs runs, nothing subtracted; ratio = program / opponent."
