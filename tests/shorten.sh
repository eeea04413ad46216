#!/usr/bin/env bash
# shorten.sh KEY_PROGRAM [SEED] [COUNT]
#
# Makes inputs of every kind, a refusal number and an event file each, and compares, byte for byte, what the program shorten, which stands
# beside KEY_PROGRAM, writes with what oracle/shorten.rs does. Some inputs are made here, with the largest files that there can be among
# them; most of these have an answer that was worked out by hand. COUNT is the number of inputs that oracle/shorten.rs makes. The same seed
# gives the same inputs. Each run of the program has 10 seconds.
# Every case that oracle/shorten.rs names must occur in the inputs and its answers; with a COUNT below the default that is only said.
#
# Exit status: 0 all equal, 1 a difference or something that never occurs, 2 wrong use or no time left (SHORTEN_SECONDS, default 120).
set -euo pipefail
export LC_ALL=C
[ $# -ge 1 ] || { echo "shorten.sh KEY_PROGRAM [SEED] [COUNT]" >&2; exit 2; }
here=$(dirname "$(readlink -f "${BASH_SOURCE[0]}")")
key=$(realpath -e "$1")
program=$(realpath -e "$(dirname "$key")/shorten")
. "$here/program.sh"
seed=${2:-20261115}
whole=640
count=${3:-$whole}
limit=${SHORTEN_SECONDS:-120}
work=$(mktemp -d)
trap 'rm -rf "$work"' EXIT
cd "$work"
mkdir in hand lists want got

rustc --edition 2021 -O -o shorten.run "$here/oracle/shorten.rs"
./shorten.run -n "$seed" "$count" in
# Lists of 300 events, one of them with 75 passes.
lists=(300-lively 300-many 300-pairs 300-spent 300-whole 300-passes)
./shorten.run -t in lists "${lists[@]}" >/dev/null

bytes() { # BYTE..
    local all
    printf -v all '\\x%02x' "$@"
    # shellcheck disable=SC2059
    printf "$all"
}
times() { # N BYTE..
    local all many n=$1
    shift
    printf -v all '\\x%02x' "$@"
    printf -v many "%${n}s" ''
    # shellcheck disable=SC2059
    printf "${many// /$all}"
}
event_file() { # with its records on standard input
    local length
    cat >records
    length=$(($(stat -c %s records) + 1))
    bytes 0 0 $((length / 256)) $((length % 256)) 1
    cat records
}
asked() { { bytes "$2"; event_file; } >"in/$1"; }         # NAME NUMBER, with the list's records on standard input
left() { event_file >"hand/$1"; }                         # NAME, with the records that are left on standard input
all_left() { tail -c +2 "in/$1" >"hand/$1"; }             # NAME: nothing can be left out
refused() { echo "file $2" >"hand/$1"; }                  # NAME NUMBER
client() { bytes 3 1 "$1" 0; }
server() { bytes 3 1 "$1" 1; }
give() { bytes 6 2 "$1" "$2" "$3" $(($4 / 256)) $(($4 % 256)); } # TIMESLICE THREAD PRIORITY QUANTUM
call() { bytes 2 3 "$1"; }
reply() { bytes 1 4; }
block() { bytes 1 5; }
wake() { bytes 2 6 "$1"; }
charge() { bytes 3 7 $(($1 / 256)) $(($1 % 256)); }
abort() { bytes 2 8 "$1"; }
refill() { bytes 2 9 "$1"; }
rank() { bytes 3 11 "$1" "$2"; }

# By hand. Document 01's K1, asked for 8. The last reply stays, and the one before it: without that, server 1 could reply. The charge goes;
# the call too, for then the first reply is refused with 8; then server 1. In the second pass the last reply goes.
k1() { client 0; server 1; give 5 0 10 100; call 1; charge 30; reply; reply; }
k1 | asked hand-k1 8
{ client 0; give 5 0 10 100; reply; } | left hand-k1
# No event of K1 is refused with another number; 0 is no refusal.
for n in 0 1 5 18 26 255; do
    k1 | asked hand-k1-$n $n
    refused hand-k1-$n 26
done
# Timeslice 0 must stand above 1 at the block; then 1 has too little for the charge. One rank is enough, and the later is tried first.
ranks() { client 0; client 1; give 0 0 10 100; give 1 1 20 5; }
{ ranks; rank 0 50; rank 0 60; block; charge 6; } | asked hand-last-first 11
{ ranks; rank 0 50; block; charge 6; } | left hand-last-first
# The same with 1 ranked between the two. The later rank of 0 stays when it is tried; then that of 1 goes, and in the same pass the earlier
# one of 0. Now the later one is needed. (A pass that began anew after the rank of 1 would keep the earlier one.)
{ ranks; rank 0 50; rank 1 55; rank 0 60; block; charge 6; } | asked hand-same-pass 11
{ ranks; rank 0 60; block; charge 6; } | left hand-same-pass
# Server 9 runs for timeslice 1, when 2 is depleted, and calls itself. 0 is ranked above 1, so 1 must be above 2's first priority, so 2
# above that. Where one is in the way, its owner calls 9, as a helper. First pass: the rank of 0 goes, and with it timeslice 0 and thread
# 0. Second pass: the rank of 1. Third: the rank of 2. The fourth leaves out none.
{
    server 9; client 1; give 1 1 2 10; call 9; client 0; give 0 0 0 10; client 2; give 2 2 4 10; rank 0 3; rank 1 5; rank 2 6
    charge 10; call 9
} | asked hand-four-passes 7
{ server 9; client 1; give 1 1 2 10; call 9; client 2; give 2 2 4 10; charge 10; call 9; } | left hand-four-passes
# There is no server 9. But without the client there is no thread 0 either, when it is given a timeslice: in the second pass the call goes.
{ client 0; give 0 0 10 5; call 9; } | asked hand-another 4
{ give 0 0 10 5; } | left hand-another
# All charges are needed for nothing to run at the block, until the give has gone; then the first of them is enough.
{ client 0; give 0 0 10 3; charge 1; charge 1; charge 1; block; } | asked hand-spent 5
{ charge 1; } | left hand-spent
# Thread 3 is Blocked at the first wake, and not at the second. Without the block the first is refused, and the second goes.
{ client 3; give 3 3 10 5; block; wake 3; wake 3; } | asked hand-wake 9
{ client 3; wake 3; } | left hand-wake
# The same of a refill, and of an abort.
{ client 0; give 0 0 10 5; charge 5; refill 0; refill 0; } | asked hand-refill 18
{ client 0; give 0 0 10 5; refill 0; } | left hand-refill
{ client 0; server 1; give 0 0 10 5; call 1; abort 0; abort 0; } | asked hand-abort 10
{ client 0; abort 0; } | left hand-abort
# Two units are left, and 3 are too many; nothing can go.
{ client 0; give 0 0 10 3; charge 1; charge 3; } | asked hand-whole 11
all_left hand-whole
# Server 1, called by 0, calls 2, which replies; 1 runs, and calls itself. Without the reply it is 2 that calls 1. Without the call of 2 it
# is 1 that replies, and then 0 calls 1. Nothing can go.
{ client 0; server 1; server 2; give 0 0 10 5; call 1; call 2; reply; call 1; } | asked hand-whole-reply 7
all_left hand-whole-reply
# Several are refused with the number: the first stays. Others are refused with other numbers (9, 2; 8), and one comes behind.
{ reply; block; reply; charge 7; } | asked hand-first 5
{ reply; } | left hand-first
{ client 0; wake 0; wake 200; server 0; client 1; give 0 1 10 5; reply; give 0 1 10 5; charge 1; } | asked hand-not-last 3
{ client 0; server 0; } | left hand-not-last
# The shortest questions for the other numbers. For 6 the call of server 1 goes: 6 comes before 7, so client 0 may call itself.
{ client 0; wake 255; client 128; give 0 0 10 5; call 200; } | asked hand-2 2
{ wake 255; } | left hand-2
{ client 0; server 1; give 0 0 10 5; call 1; call 0; } | asked hand-6 6
{ client 0; give 0 0 10 5; call 0; } | left hand-6
{ client 0; server 1; give 0 0 10 5; call 1; charge 2; call 1; reply; } | asked hand-7 7
{ client 0; server 1; give 0 0 10 5; call 1; call 1; } | left hand-7
{ client 127; give 127 127 0 0; wake 127; give 127 127 0 1; charge 1; } | asked hand-12 12
{ client 127; give 127 127 0 0; } | left hand-12
{ client 0; client 1; give 0 0 10 5; charge 2; give 1 0 10 5; give 1 1 10 5; } | asked hand-13 13
{ client 0; give 0 0 10 5; give 1 0 10 5; } | left hand-13
# The file is refused before the number is looked at: a byte too many, the version, an unknown kind, a role.
{ k1 | event_file; bytes 0; } >longer
for n in 0 8; do
    { bytes $n; cat longer; } >in/hand-14-$n
    { bytes $n; head -c 4 longer; bytes 2; tail -c +6 longer | head -c -1; } >in/hand-15-$n
    { k1; bytes 1 12; } | asked hand-16-$n $n
    { bytes 3 1 7 2; k1; } | asked hand-16-role-$n $n
    refused hand-14-$n 14
    refused hand-15-$n 15
    refused hand-16-$n 16
    refused hand-16-role-$n 16
done
# No event; one; the input's first byte is no part of the file.
for n in 0 5; do
    : | asked hand-no-event-$n $n
    refused hand-no-event-$n 26
done
reply | asked hand-one 5
all_left hand-one
reply | asked hand-one-other 8
refused hand-one-other 26
k1 | event_file >in/hand-without-number
refused hand-without-number 14

# The largest file, 65,536 bytes, behind the number. The last event alone is refused with 8: the charges are accepted, the gives are
# refused with 3, the wakes with 4.
{
    client 0; give 0 0 10 65535; times 1000 3 7 0 1; times 8787 6 2 0 0 10 0 1; times 3 2 6 9; reply
} | asked largest 8
{ client 0; give 0 0 10 65535; reply; } | left largest
# The same with more behind it: bytes that its length field does not count, and an event that it does.
for more in 1 100000; do
    { cat in/largest; head -c $more /dev/zero; } >in/largest-and-$more
    refused largest-and-$more 14
done
{ tail -c +7 in/largest; block; } | asked largest-and-event 8
refused largest-and-event 14
# As many events as a file can have. All but one are refused with 5; the first stays.
{ times 32764 1 4; wake 9; } | asked most-events 5
{ reply; } | left most-events
# A long answer: all charges are needed.
{ client 0; give 0 0 10 2501; times 2500 3 7 0 1; charge 2; } | asked long-answer 11
all_left long-answer
for f in largest most-events; do
    size=$(stat -c %s in/$f)
    [ "$size" -eq 65537 ] || { echo "$f has $size bytes, not 65,537"; exit 1; }
done

# Inputs of up to 8 bytes.
for ((n = 0; n < 9; n++)); do
    head -c $n /dev/zero >in/zeros-$n
    head -c $n in/largest >in/first-$n
    echo "file 14" | tee hand/zeros-$n >hand/first-$n
done

made=$((count + ${#lists[@]} + (1 + 6 + 12 + 5 + 8 + 5) + (4 + 2) + 18))
[ "$(find in -type f | wc -l)" -eq $made ] || { echo "there are not $made inputs"; exit 1; }

# The answers of the outside program. A case that no input brings about is compared with nothing.
find in -type f -print0 | sort -z | xargs -0 ./shorten.run -o want
for f in hand/*; do
    f=${f#hand/}
    cmp -s "hand/$f" "want/$f" || { echo "$f: the outside program differs from what was worked out by hand"; exit 1; }
done
./shorten.run -c in want >cases || [ "$count" -lt $whole ] || { grep "^it never" cases; tail -n 1 cases; exit 1; }
grep "^it never" cases || true
tail -n 1 cases

# Shows the two answers, a file in hexadecimal; keeps the input.
shown() { if head -c 4 "$1" | grep -q ^file; then cat "$1"; else od -An -v -tx1 -w24 "$1"; fi; }
differ() { # NAME
    local kept
    kept=$(mktemp "${TMPDIR:-/tmp}/differs.XXXXXX")
    cp "in/$1" "$kept"
    echo "$1$pieces (seed $seed) differs; the input, a number and a file, is kept as $kept"
    diff -u --label "$1, by oracle/shorten.rs" --label "$1, by shorten" <(shown "want/$1") <(shown "got/$1") | head -n 60 || true
    exit 1
}
pieces=
try() { # NAME, with its input on standard input
    key_to "got/$1" && cmp -s "got/$1" "want/$1" || differ "$1"
}
# Those with an answer by hand first: a difference is easiest to see there.
names=(hand/*)
for f in in/*; do [ -e "hand/${f#in/}" ] || names+=("$f"); done
names=("${names[@]#*/}")
total=${#names[@]}
compared=0
for f in "${names[@]}"; do
    if [ $SECONDS -ge "$limit" ]; then
        echo "$compared of $total inputs compared by shorten, 0 differ, but no time left after $SECONDS s"
        exit 2
    fi
    try "$f" <"in/$f"
    compared=$((compared + 1))
done

# Standard input may come in pieces: the number, 3 bytes, the rest.
pieces=", in pieces,"
for f in largest largest-and-1 most-events hand-k1 hand-no-event-5 zeros-3; do
    try "$f" < <(head -c 1 "in/$f"; sleep 0.1; head -c 4 "in/$f" | tail -c +2; sleep 0.1; tail -c +5 "in/$f")
done
echo "$compared inputs compared by shorten, 0 differ"
