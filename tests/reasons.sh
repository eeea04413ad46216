#!/usr/bin/env bash
# reasons.sh KEY_PROGRAM [SEED] [COUNT]
#
# Makes event files of every kind, puts several event numbers before each, and compares, byte for byte, what the program reason, which
# stands beside KEY_PROGRAM, prints with what oracle/reason.rs does. COUNT is the number of lively files; the other kinds go with it. The
# same seed gives the same inputs. Each run of the program has 10 seconds.
# Every case that oracle/reason.rs names must occur in the inputs and its answers; with a COUNT below the default that is only said.
#
# Exit status: 0 all equal, 1 a difference or something that never occurs, 2 wrong use or no time left (REASONS_SECONDS, default 120).
set -euo pipefail
export LC_ALL=C
[ $# -ge 1 ] || { echo "reasons.sh KEY_PROGRAM [SEED] [COUNT]" >&2; exit 2; }
here=$(dirname "$(readlink -f "${BASH_SOURCE[0]}")")
key=$(realpath -e "$1")
program=$(realpath -e "$(dirname "$key")/reason")
. "$here/program.sh"
seed=${2:-20261115}
whole=120
count=${3:-$whole}
limit=${REASONS_SECONDS:-120}
work=$(mktemp -d)
trap 'rm -rf "$work"' EXIT
cd "$work"
mkdir files in want got

for name in make reason; do
    rustc --edition 2021 -O -o "$work/$name.run" "$here/oracle/$name.rs"
done
./make.run "$seed" "$count" files lively
./make.run "$seed" $((count / 5 + 1)) files chain
./make.run "$seed" $((count / 5 + 30)) files damaged
for kind in full small chain16 chain64 chain127; do
    ./make.run "$seed" 1 files $kind
done

# A good file of exactly 65,536 bytes: a number before it does not count. And the same with more behind it, which does.
size=$(stat -c %s files/full-00000)
[ "$size" -eq 65536 ] || { echo "full-00000 has $size bytes, not 65,536"; exit 1; }
for more in 1 100000; do
    { cat files/full-00000; head -c "$more" /dev/zero; } >"files/full-and-$more"
done

# The longest answers: a program may keep its answer in a buffer.
bytes() { # BYTE..
    local all
    printf -v all '\\x%02x' "$@"
    # shellcheck disable=SC2059
    printf "$all"
}
event_file() { # NAME, with its records on standard input
    local length
    cat >records
    length=$(($(stat -c %s records) + 1))
    { bytes 0 0 $((length / 256)) $((length % 256)) 1; cat records; } >"files/$1"
}
# Each of 127 clients calls server 127, which blocks: 128 timeslices wait for it.
{
    for ((t = 0; t < 127; t++)); do bytes 3 1 $t 0; done
    bytes 3 1 127 1
    for ((t = 0; t < 127; t++)); do
        bytes 6 2 $t $t 10 0 100 2 3 127
        [ $t -gt 0 ] || bytes 1 5
    done
    bytes 6 2 127 127 10 0 100
} | event_file all-wait
# Client 0 calls 1, which calls 2, and so on to 127; each server's own timeslice stands above the client's, and is Spent.
all_spent() {
    bytes 3 1 0 0
    for ((t = 1; t < 128; t++)); do bytes 3 1 $t 1; done
    bytes 6 2 0 0 10 0 100
    for ((t = 1; t < 128; t++)); do bytes 2 3 $t; done
    for ((t = 1; t < 128; t++)); do bytes 6 2 $t $t 20 0 1 3 7 0 1; done
}
all_spent | event_file all-spent
{ all_spent; bytes 2 3 1; } | event_file all-spent-in-a-loop
{ all_spent; bytes 1 5; } | event_file all-spent-and-blocked

made=$((count + (count / 5 + 1) + (count / 5 + 30) + 5 + 2 + 4))
[ "$(find files -type f | wc -l)" -eq $made ] || { echo "there are not $made event files"; exit 1; }
find files -type f -print0 | sort -z | xargs -0 ./reason.run -n "$seed" in

# Too short for a number; a number alone; a number and the beginning of a file.
for ((n = 0; n < 8; n++)); do
    head -c $n /dev/zero >in/zeros-$n
    head -c $n in/all-wait+384 >in/first-$n
done

# The answers of the outside program. A case that no input brings about is compared with nothing.
find in -type f -print0 | sort -z | xargs -0 ./reason.run -o want
./reason.run -c in want || [ "$count" -lt $whole ] || exit 1

# Shows the two answers; keeps the input.
differ() { # NAME
    local kept
    kept=$(mktemp "${TMPDIR:-/tmp}/differs.XXXXXX")
    cp "in/$1" "$kept"
    echo "$1$pieces (seed $seed) differs; the input, the number behind the + and a file, is kept as $kept"
    diff -u --label "$1, by oracle/reason.rs" --label "$1, by reason" "want/$1" "got/$1" | head -n 60 || true
    exit 1
}
pieces=
try() { # NAME, with its input on standard input
    key_to "got/$1" && cmp -s "got/$1" "want/$1" || differ "$1"
}
names=(in/*)
names=("${names[@]#in/}")
total=${#names[@]}
compared=0
for f in "${names[@]}"; do
    if [ $SECONDS -ge "$limit" ]; then
        echo "$compared of $total inputs compared by reason, 0 differ, but no time left after $SECONDS s"
        exit 2
    fi
    try "$f" <"in/$f"
    compared=$((compared + 1))
done
for f in zeros-{0,1,2,3,4,7} full-and-{1,100000}+1; do
    [ "$(cat "got/$f")" = "file 14" ] || { echo "$f did not give 'file 14'"; exit 1; }
done
[ "$(cat got/full-00000+1)" = - ] || { echo "a file of 65,536 bytes behind a number is not read"; exit 1; }

# Standard input may come in pieces: 2 bytes, 3 bytes, the rest.
pieces=", in pieces,"
for f in full-00000+1 full-and-1+1 all-wait+384 all-spent+510 zeros-3; do
    try "$f" < <(head -c 2 "in/$f"; sleep 0.1; head -c 5 "in/$f" | tail -c +3; sleep 0.1; tail -c +6 "in/$f")
done
echo "$compared inputs compared by reason, 0 differ"
