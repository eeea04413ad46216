#!/usr/bin/env bash
# wakes.sh KEY_PROGRAM [SEED] [COUNT]
#
# Request [14]. Makes event files, and from them pairs of event files that differ in one thing: two wakes or more, one after the other, of
# Blocked threads and in some pairs of others too, or of one twice, stand in two orders. KEY_PROGRAM's keys of a pair must be equal byte for
# byte before the wakes and after them; every wake leaves what runs alone and follows no link, or makes the woken thread run; wakes of the
# same threads are accepted, of each thread the first; the running thread, timeslice and count after the last wake are the same. Each key
# must also be that of oracle/key.rs, byte for byte; and after the wakes that program's own machines must be the same, places included.
# COUNT is the number of lively files; the other kinds go with it. The same seed gives the same files. Each run has 10 seconds.
# Every case that oracle/wakes.rs names must occur in the pairs; with a COUNT below the default that is only said.
#
# Exit status: 0 all equal, 1 a difference or something that never occurs, 2 wrong use or no time left (WAKES_SECONDS, default 120).
set -euo pipefail
export LC_ALL=C
[ $# -ge 1 ] || { echo "wakes.sh KEY_PROGRAM [SEED] [COUNT]" >&2; exit 2; }
here=$(dirname "$(readlink -f "${BASH_SOURCE[0]}")")
program=$(realpath -e "$1")
. "$here/program.sh"
seed=${2:-20261115}
whole=150
count=${3:-$whole}
limit=${WAKES_SECONDS:-120}
work=$(mktemp -d)
trap 'rm -rf "$work"' EXIT
cd "$work"
mkdir files in want got

for name in key make wakes; do
    rustc --edition 2021 -O -o "$work/$name.run" "$here/oracle/$name.rs"
done
./make.run "$seed" "$count" files lively
./make.run "$seed" $((count / 5 + 1)) files chain
for kind in full small; do
    ./make.run "$seed" 1 files $kind
done
find files -type f -print0 | sort -z | xargs -0 ./wakes.run -n "$seed" in
find in -type f -print0 | sort -z | xargs -0 ./key.run -o want
names=(in/*)
names=("${names[@]#in/}")
total=${#names[@]}
[ -f "in/${names[0]}" ] || { echo "no pair was made"; exit 1; }

# Keeps the event files of a pair that does not hold what the request says.
holds() { # WORDS of wakes.run that ask
    local said kept
    if ! said=$(./wakes.run "$@"); then
        kept=$(mktemp -d "${TMPDIR:-/tmp}/differs.XXXXXX")
        cp "in/${said%%: *}".* "$kept"
        echo "$said (seed $seed); the two event files are kept in $kept"
        return 1
    fi
}
{ holds -m in && holds -p in want; } || { echo "so says the outside program: a question about the documents"; exit 1; }

# A case that no pair brings about is compared with nothing.
lacks=
./wakes.run -c in >counted || lacks=1
sed '$d' counted
[ -z "$lacks" ] || [ "$count" -lt $whole ] || exit 1

# Shows the first line that differs; keeps the event file.
differ() { # NAME
    local kept
    kept=$(mktemp "${TMPDIR:-/tmp}/differs.XXXXXX")
    cp "in/$1" "$kept"
    echo "$1 (seed $seed) differs; the event file is kept as $kept"
    diff -u --label "$1, by oracle/key.rs" --label "$1, by ${program##*/}" "want/$1" "got/$1" | head -n 30 || true
    exit 1
}
compared=0
for f in "${names[@]}"; do
    if [ $SECONDS -ge "$limit" ]; then
        echo "$compared of $total keys printed by ${program##*/}, none compared, and no time left after $SECONDS s"
        exit 2
    fi
    key_to "got/$f" <"in/$f" || differ "$f"
    compared=$((compared + 1))
done

# The request comes before the outside keys: it is asked of these keys by themselves, and says what is wrong in its own words.
holds -p in got || exit 1
for f in "${names[@]}"; do
    cmp -s "got/$f" "want/$f" || differ "$f"
done
echo "$(tail -n 1 counted); $compared files compared by ${program##*/}, 0 differ"
