#!/usr/bin/env bash
# compare.sh KEY_PROGRAM [SEED] [COUNT]
#
# Makes event files of every kind and compares, byte for byte, the key that KEY_PROGRAM prints with that of oracle/key.rs; what
# plain_key, which stands beside it, prints with what oracle/plain.rs does; and oracle/plain.rs with oracle/key.rs without its last
# column. COUNT is the number of lively files; the other kinds go with it. The same seed gives the same files. Each run of a program
# has 10 seconds.
# Every kind of event must have every answer that it can have, and refill, remove and rank every effect that oracle/count.rs names;
# with a COUNT below the default that is only said.
#
# Exit status: 0 all equal, 1 a difference or something that never occurs, 2 wrong use or no time left (COMPARE_SECONDS, default 180).
set -euo pipefail
export LC_ALL=C
[ $# -ge 1 ] || { echo "compare.sh KEY_PROGRAM [SEED] [COUNT]" >&2; exit 2; }
here=$(dirname "$(readlink -f "${BASH_SOURCE[0]}")")
program=$(realpath -e "$1")
plain=$(realpath -e "$(dirname "$program")/plain_key")
. "$here/program.sh"
seed=${2:-20261115}
whole=900
count=${3:-$whole}
limit=${COMPARE_SECONDS:-180}
work=$(mktemp -d)
trap 'rm -rf "$work"' EXIT
cd "$work"
mkdir in want plain short got

for name in key plain make count; do
    rustc --edition 2021 -O -o "$work/$name.run" "$here/oracle/$name.rs"
done
./make.run "$seed" "$count" in lively
./make.run "$seed" $((count / 5 + 1)) in chain
./make.run "$seed" $((count / 5 + 30)) in damaged
for kind in full small chain16 chain64 chain127; do
    ./make.run "$seed" 1 in $kind
done

# A good file of exactly 65,536 bytes, and the same with more behind it: bytes that its length field does not count.
size=$(stat -c %s in/full-00000)
[ "$size" -eq 65536 ] || { echo "full-00000 has $size bytes, not 65,536"; exit 1; }
for more in 1 100000; do
    { cat in/full-00000; head -c "$more" /dev/zero; } >"in/full-and-$more"
done

# The two outside programs against each other. The plain machine does not define the last column.
find in -type f -print0 | sort -z | xargs -0 ./key.run -o want
find in -type f -print0 | sort -z | xargs -0 ./plain.run -o plain
cp want/* short/
find short -type f -print0 | xargs -0 sed -i -s '/^file /!s/ [0-9]*$//'

# Shows the first line that differs in two keys, and the keys up to there; keeps the event file.
differ() {
    local file=$1 one=$2 other=$3 one_name=$4 other_name=$5 line from kept
    kept=$(mktemp "${TMPDIR:-/tmp}/differs.XXXXXX")
    cp "in/$file" "$kept"
    line=$({ cmp "$one" "$other" 2>&1 || true; } | sed -n 's/.*line \([0-9]*\)$/\1/p')
    line=${line:-1}
    from=$((line > 20 ? line - 20 : 1))
    echo "$file (seed $seed) differs first in line $line; the event file is kept as $kept"
    echo "$one_name, lines $from to $((line + 1)):"
    sed -n "$from,$((line + 1))p" "$one"
    echo "$other_name, lines $from to $((line + 1)):"
    sed -n "$from,$((line + 1))p" "$other"
}

names=(in/*)
names=("${names[@]#in/}")
total=${#names[@]}
made=$((count + (count / 5 + 1) + (count / 5 + 30) + 5 + 2))
[ "$total" -eq "$made" ] || { echo "$total event files are there, not $made"; exit 1; }
for f in "${names[@]}"; do
    if ! cmp -s "short/$f" "plain/$f"; then
        echo "the two outside programs disagree: a question about the documents"
        differ "$f" "short/$f" "plain/$f" "key.rs without links" "plain.rs"
        exit 1
    fi
done

# An answer or effect that no file brings about is compared with nothing.
./count.run in want || [ "$count" -lt $whole ] || exit 1

try() { # NAME PROGRAM FOLDER ORACLE, with NAME's file on standard input; the key that is wanted is in FOLDER, from ORACLE
    local ended=0
    key_to "got/$1" "$2" || ended=$?
    if [ $ended -ne 0 ] || ! cmp -s "got/$1" "$3/$1"; then
        differ "$1" "got/$1" "$3/$1" "$2" "$4"
        exit 1
    fi
}
tally=
all() { # PROGRAM FOLDER ORACLE
    local f more compared=0
    for f in "${names[@]}"; do
        if [ $SECONDS -ge "$limit" ]; then
            echo "$tally$compared of $total files compared by ${1##*/}, 0 differ, but no time left after $SECONDS s"
            exit 2
        fi
        try "$f" "$@" <"in/$f"
        compared=$((compared + 1))
    done
    for more in 1 100000; do
        [ "$(cat "got/full-and-$more")" = "file 14" ] ||
            { echo "${1##*/}: $more bytes behind a file of 65,536 did not give 'file 14'"; exit 1; }
    done
    [ "$(wc -l <got/full-00000)" -gt 20000 ] || { echo "${1##*/}: a file of 65,536 bytes has no whole key"; exit 1; }

    # Standard input may come in pieces: 2 bytes, 200 bytes, the rest.
    for f in full-00000 full-and-1 lively-00000 chain-00000; do
        try "$f" "$@" < <(head -c 2 "in/$f"; sleep 0.1; head -c 202 "in/$f" | tail -c +3; sleep 0.1; tail -c +203 "in/$f")
    done
    tally+="$compared files compared by ${1##*/}, "
}
all "$program" want key.rs
all "$plain" plain plain.rs
echo "${tally}0 differ"
