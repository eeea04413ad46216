#!/usr/bin/env bash
# shares.sh KEY_PROGRAM [SEED] [COUNT]
#
# Makes event files of every kind and compares, byte for byte, what the program shares, which stands beside KEY_PROGRAM, prints with what
# oracle/shares.rs does. Some files are made here, the largest that there can be among them; a few have an answer that was worked out by
# hand. COUNT is the number of lively files; the other kinds go with it. The same seed gives the same files. Each run of the program has
# 10 seconds.
# Every case that oracle/shares.rs names must occur in the files and its answers; with a COUNT below the default that is only said.
#
# Exit status: 0 all equal, 1 a difference or something that never occurs, 2 wrong use or no time left (SHARES_SECONDS, default 120).
set -euo pipefail
export LC_ALL=C
[ $# -ge 1 ] || { echo "shares.sh KEY_PROGRAM [SEED] [COUNT]" >&2; exit 2; }
here=$(dirname "$(readlink -f "${BASH_SOURCE[0]}")")
key=$(realpath -e "$1")
program=$(realpath -e "$(dirname "$key")/shares")
. "$here/program.sh"
seed=${2:-20261115}
whole=120
count=${3:-$whole}
limit=${SHARES_SECONDS:-120}
work=$(mktemp -d)
trap 'rm -rf "$work"' EXIT
cd "$work"
mkdir in hand want got

for name in make shares; do
    rustc --edition 2021 -O -o "$work/$name.run" "$here/oracle/$name.rs"
done
./make.run "$seed" "$count" in lively
./make.run "$seed" $((count / 5 + 1)) in chain
./make.run "$seed" $((count / 5 + 30)) in damaged
for kind in full small chain16 chain64 chain127; do
    ./make.run "$seed" 1 in $kind
done
./shares.run -n "$seed" $((count * 4)) in

bytes() { # BYTE..
    local all
    printf -v all '\\x%02x' "$@"
    # shellcheck disable=SC2059
    printf "$all"
}
times() { # N BYTE..
    local all many n=$1
    shift
    printf -v all '\\x%02x' "$@"
    printf -v many "%${n}s" ''
    # shellcheck disable=SC2059
    printf "${many// /$all}"
}
event_file() { # NAME, with its records on standard input
    local length
    cat >records
    length=$(($(stat -c %s records) + 1))
    { bytes 0 0 $((length / 256)) $((length % 256)) 1; cat records; } >"in/$1"
}
client() { bytes 3 1 "$1" 0; }
server() { bytes 3 1 "$1" 1; }
give() { bytes 6 2 "$1" "$2" "$3" $(($4 / 256)) $(($4 % 256)); } # TIMESLICE THREAD PRIORITY QUANTUM
call() { bytes 2 3 "$1"; }
charge() { bytes 3 7 $(($1 / 256)) $(($1 % 256)); }
remove() { bytes 2 10 "$1"; }

# By hand. Document 01's K1; three equal shares; a total of 65,536, almost all of it paid by one.
{ client 0; server 1; give 5 0 10 100; call 1; charge 30; bytes 1 4 1 4; } | event_file hand-k1
echo "5 30 1000 0" >hand/hand-k1
for t in 100 9 10; do client $t; give $t $t $t 1; charge 1; done | event_file hand-thirds
printf '%s\n' "9 1 333 1" "10 1 333 1" "100 1 333 1" >hand/hand-thirds
{ client 0; client 1; give 127 0 9 65535; give 0 1 8 1; charge 65535; charge 1; } | event_file hand-999
printf '%s\n' "0 1 0 1000" "127 65535 999 64536" >hand/hand-999
# Timeslice 3 pays 4; its owner goes; another gets the number, and pays 3 (8 were too many). Timeslice 2 pays 5 of the 12, and goes.
{
    client 0; give 3 0 10 10; charge 4; remove 0; client 1; give 3 1 10 10; charge 3; charge 8; charge 0
    client 2; give 2 2 20 5; charge 5; charge 8; remove 2
} | event_file hand-again
printf '%s\n' "2 5 416 8" "3 7 583 4" >hand/hand-again
# Server 1 runs for client 0, then for client 2, which helps; its own timeslice, below both, pays for nothing.
{
    client 0; server 1; give 0 0 10 100; give 1 1 5 100; call 1; charge 30; client 2; give 2 2 20 100; call 1; charge 50
} | event_file hand-served
printf '%s\n' "0 30 375 0" "2 50 625 0" >hand/hand-served
# The same server, called, but its own timeslice stands above the client's: it pays until nothing is left of it.
{ client 0; server 1; give 0 0 10 100; give 1 1 15 20; call 1; charge 20; charge 30; } | event_file hand-server
printf '%s\n' "0 30 600 0" "1 20 400 0" >hand/hand-server
# Charges, and all are refused: nothing runs, 0, too much.
{ charge 1; client 0; charge 1; give 0 0 10 100; charge 0; charge 101; bytes 1 5; charge 1; } | event_file hand-refused
: >hand/hand-refused
bytes 0 0 0 1 1 >in/hand-empty
: >hand/hand-empty

# The largest total. A charge of 65,535 has 4 bytes and a refill 3, and 16 bytes stand before them: 65,536 bytes.
{ client 0; give 127 0 10 65535; times 9360 3 7 255 255 2 9 127; } | event_file largest
echo "127 613407600 1000 0" >hand/largest
# The same with more behind it: bytes that its length field does not count, and an event that it does.
for more in 1 100000; do
    { cat in/largest; head -c $more /dev/zero; } >in/largest-and-$more
    echo "file 14" >hand/largest-and-$more
done
{ tail -c +6 in/largest; bytes 1 5; } | event_file largest-and-event
echo "file 14" >hand/largest-and-event

# A program may keep its answer in a buffer. Each of these timeslices is depleted as often as said, and stays Spent.
payers() { # TIMES NUMBER..
    local n=$1 t
    shift
    for t; do
        client $((127 - t))
        give "$t" $((127 - t)) 10 65535
        charge 65535
        times $((n - 1)) 2 9 "$t" 3 7 255 255
    done
}
# The longest answer: 128 lines, all remainders have 9 digits. There is room for 9,215 charges: 153 give units of 8 digits and parts of 2,
# 16 give units of 7 digits. The last to pay comes first.
{ payers 16 {127..52}; payers 153 {51..0}; } | event_file longest
# The longest lines: a number and parts of 3 digits, units and a remainder of 9.
for t in {127..122}; do payers $((1526 + t - 122)) "$t"; done | event_file longest-lines
# All 128, of one unit each: every line has the same parts.
for t in {0..127}; do client "$t"; give "$t" "$t" "$t" 1; charge 1; done | event_file ones
for t in {0..127}; do echo "$t 1 7 104"; done >hand/ones

# Files of up to 7 bytes.
for ((n = 0; n < 8; n++)); do
    head -c $n /dev/zero >in/zeros-$n
    head -c $n in/largest >in/first-$n
    echo "file 14" | tee hand/zeros-$n >hand/first-$n
done

for f in full-00000 largest; do
    size=$(stat -c %s in/$f)
    [ "$size" -eq 65536 ] || { echo "$f has $size bytes, not 65,536"; exit 1; }
done
made=$((count + (count / 5 + 1) + (count / 5 + 30) + 5 + count * 4 + 8 + 4 + 3 + 16))
[ "$(find in -type f | wc -l)" -eq $made ] || { echo "there are not $made event files"; exit 1; }

# The answers of the outside program. A case that no file brings about is compared with nothing.
find in -type f -print0 | sort -z | xargs -0 ./shares.run -o want
for f in hand/*; do
    f=${f#hand/}
    cmp -s "hand/$f" "want/$f" || { echo "$f: the outside program differs from what was worked out by hand"; exit 1; }
done
./shares.run -c in want || [ "$count" -lt $whole ] || exit 1

# Shows the two answers; keeps the file.
differ() { # NAME
    local kept
    kept=$(mktemp "${TMPDIR:-/tmp}/differs.XXXXXX")
    cp "in/$1" "$kept"
    echo "$1$pieces (seed $seed) differs; the event file is kept as $kept"
    diff -u --label "$1, by oracle/shares.rs" --label "$1, by shares" "want/$1" "got/$1" | head -n 60 || true
    exit 1
}
pieces=
try() { # NAME, with its file on standard input
    key_to "got/$1" && cmp -s "got/$1" "want/$1" || differ "$1"
}
names=(in/*)
names=("${names[@]#in/}")
total=${#names[@]}
compared=0
for f in "${names[@]}"; do
    if [ $SECONDS -ge "$limit" ]; then
        echo "$compared of $total files compared by shares, 0 differ, but no time left after $SECONDS s"
        exit 2
    fi
    try "$f" <"in/$f"
    compared=$((compared + 1))
done

# Standard input may come in pieces: 2 bytes, 3 bytes, the rest.
pieces=", in pieces,"
for f in largest largest-and-1 longest full-00000 hand-again hand-empty zeros-3; do
    try "$f" < <(head -c 2 "in/$f"; sleep 0.1; head -c 5 "in/$f" | tail -c +3; sleep 0.1; tail -c +6 "in/$f")
done
echo "$compared files compared by shares, 0 differ"
