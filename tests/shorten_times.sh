#!/usr/bin/env bash
# shorten_times.sh KEY_PROGRAM [-NAME...]
#
# The time of the program shorten, which stands beside KEY_PROGRAM, on lists of 300 events and on files of 65,536 bytes. oracle/shorten.rs
# makes them and checks that the last event alone is refused with the number. -NAME leaves that one out; -list prints the names. Times are
# of whole processes, in seconds; below 5 seconds the best of three. A run has TIMES_SECONDS, default 900. Not part of any timed test.
#
#   300-lively, lively    6 threads; shortens to a few events
#   300-many, many        60 and 128 threads with timeslices, which call, help, block, wake, charge, refill, abort, remove, rank
#   chain                 127 links; aborts, calls of a helper, depletions, blocks
#   replies               as many events as a file can have, each refused
#   300-pairs, blocks     blocks and wakes (and depletions and refills): the last wake goes in the second pass only
#   refills, removes      depletions and refills; removes, creates and gives
#   300-spent, spent      charges that the first pass must all keep, and the second leaves out
#   300-whole, whole      charges, and nothing can be left out
#   whole-127             the same with 127 threads and 126 timeslices, which are all needed too
#   300-passes, passes    75 and 4 passes; most events are needed
#   passes-122            485 events, 122 passes
#
# Exit status: 0, 1 an answer differs from oracle/shorten.rs or a run fails, 2 wrong use.
set -euo pipefail
export LC_ALL=C
[ $# -ge 1 ] || { echo "shorten_times.sh KEY_PROGRAM [-NAME...]" >&2; exit 2; }
here=$(dirname "$(readlink -f "${BASH_SOURCE[0]}")")
program=$(realpath -e "$(dirname "$(realpath -e "$1")")/shorten")
shift
each=${TIMES_SECONDS:-900}
work=$(mktemp -d)
trap 'rm -rf "$work"' EXIT
cd "$work"
mkdir in want
rustc --edition 2021 -O -o shorten.run "$here/oracle/shorten.rs"
all=$(./shorten.run -t)
for word; do
    [ "$word" != -list ] || { echo "$all"; exit 0; }
    grep -qx -- "${word#-}" <<<"$all" && [ "$word" != "${word#-}" ] || { echo "there is no $word; -list prints the names" >&2; exit 2; }
done

# Microseconds of one run; its answer goes to got.
run() { # NAME
    local start=${EPOCHREALTIME/./} ended=0
    timeout -k 1 "$each" "$program" <"in/$1" >got || ended=$?
    taken=$((${EPOCHREALTIME/./} - start))
    [ $ended -ne 124 ] && [ $ended -ne 137 ] || return 2
    [ $ended -eq 0 ] && cmp -s got "want/$1" || { echo "$1: ended with $ended, or the answer differs from oracle/shorten.rs"; exit 1; }
}
measured() { # NAME: the seconds of the best run
    local best i
    run "$1" || { echo "over $each"; return; }
    best=$taken
    for ((i = 1; i < 3 && best < 5000000; i++)); do
        run "$1" || break
        [ $taken -ge $best ] || best=$taken
    done
    printf '%d.%02d\n' $(((best + 5000) / 1000000)) $(((best + 5000) / 10000 % 100))
}
row='%-12s %7s %7s %7s %7s %7s %9s\n'
# shellcheck disable=SC2059
printf "$row" name bytes events number left passes seconds
for name in $all; do
    [[ " $* " != *" -$name "* ]] || continue
    ./shorten.run -t in want "$name" >said
    read -r -a said <said
    seconds=$(measured "$name") || { echo "$seconds"; exit 1; }
    # shellcheck disable=SC2059
    printf "$row" "${said[@]}" "$seconds"
    rm -f in/* want/*
done
echo "left: events left; passes: the last, which leaves out none, is counted."
