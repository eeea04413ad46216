#!/usr/bin/env bash
# ranking.sh KEY_PROGRAM [SEED] [COUNT]
#
# Makes inputs of every kind, a ranking table and intervals to be looked up each, and compares, byte for byte, what the program ranking,
# which stands beside KEY_PROGRAM, prints with what oracle/ranking.rs does. Some inputs are made here, with the largest that there can be
# among them; these have an answer that was worked out by hand. COUNT is the number of inputs that oracle/ranking.rs makes. The same seed
# gives the same inputs. Each run of the program has 10 seconds.
# Every case that oracle/ranking.rs names must occur in the inputs and its answers; with a COUNT below the default that is only said.
#
# Exit status: 0 all equal, 1 a difference or something that never occurs, 2 wrong use or no time left (RANKING_SECONDS, default 120).
set -euo pipefail
export LC_ALL=C
[ $# -ge 1 ] || { echo "ranking.sh KEY_PROGRAM [SEED] [COUNT]" >&2; exit 2; }
here=$(dirname "$(readlink -f "${BASH_SOURCE[0]}")")
key=$(realpath -e "$1")
program=$(realpath -e "$(dirname "$key")/ranking")
. "$here/program.sh"
seed=${2:-20261115}
# Eight of each kind.
whole=400
count=${3:-$whole}
limit=${RANKING_SECONDS:-120}
work=$(mktemp -d)
trap 'rm -rf "$work"' EXIT
cd "$work"
mkdir in hand want got

rustc --edition 2021 -O -o ranking.run "$here/oracle/ranking.rs"
./ranking.run -n "$seed" "$count" in

bytes() { # BYTE..
    local all
    printf -v all '\\x%02x' "$@"
    # shellcheck disable=SC2059
    printf "$all"
}
times() { # N BYTE..
    local all many n=$1
    shift
    printf -v all '\\x%02x' "$@"
    printf -v many "%${n}s" ''
    # shellcheck disable=SC2059
    printf "${many// /$all}"
}
rows() { # FIRST LAST PRIORITY ..: their number, and the rows
    local all=($(($# / 3)))
    while [ $# -gt 0 ]; do
        all+=($(($1 / 256)) $(($1 % 256)) $(($2 / 256)) $(($2 % 256)) "$3")
        shift 3
    done
    bytes "${all[@]}"
}
ask() { # INTERVAL..
    local all=() i
    for i; do all+=($((i / 256)) $((i % 256))); done
    bytes "${all[@]}"
}
says() { # NAME LINE..
    local name=$1
    shift
    printf '%s\n' "$@" >"hand/$name"
}
says_times() { # NAME N LINE
    local all
    printf -v all "%${2}s" ''
    printf '%s' "${all// /$3$'\n'}" >"hand/$1"
}
says_nothing() { : >"hand/$1"; } # NAME
# A bad table says the same of every interval, also of one that is outside 1 to 60,000 and of one that is in exactly one row.
bad() { # NAME LINE FIRST LAST PRIORITY..
    local name=$1 line=$2
    shift 2
    { rows "$@"; ask 0 1 2 500 30000 59999 60000 60001 65535; } >"in/$name"
    says_times "$name" 9 "$line"
}

# By hand. One row; the smallest and the largest interval, and those beside them.
{ rows 1 60000 7; ask 0 1 2 30000 59999 60000 60001 65535 1; } >in/hand-one-row
says hand-one-row "23 0 0" "0 7 0" "0 7 0" "0 7 0" "0 7 0" "0 7 0" "23 0 0" "23 0 0" "0 7 0"
# Rows of 1 alone and of 60,000 alone, in no order; both ends of each row.
{ rows 101 59999 0 1 1 255 60000 60000 9 2 100 128; ask 100 101 1 2 99 60000 59999; } >in/hand-any-order
says hand-any-order "0 128 0" "0 0 0" "0 255 0" "0 128 0" "0 128 0" "0 9 0" "0 0 0"
# 256 is the bytes 1 and 0; 1 is 0 and 1; 512 is 2 and 0. Rows that touch.
{ rows 1 256 1 257 60000 2; ask 256 1 257 512 2; } >in/hand-bytes
says hand-bytes "0 1 0" "0 1 0" "0 2 0" "0 2 0" "0 1 0"
{ rows 30001 60000 2 1 30000 1; ask 30000 30001 29999 30002; } >in/hand-touch
says hand-touch "0 1 0" "0 2 0" "0 1 0" "0 2 0"
# 64 rows, the last first: 937 intervals each, and 969 in the last. Row k has priority 3k; the first and last of each are asked.
table=() asked=() lines=()
for ((k = 64; k >= 1; k--)); do
    last=$((k < 64 ? 937 * k : 60000))
    table+=($((937 * k - 936)) "$last" $((3 * k)))
    asked+=($((937 * k - 936)) "$last")
    lines+=("0 $((3 * k)) 0" "0 $((3 * k)) 0")
done
{ rows "${table[@]}"; ask "${asked[@]}" 0 60001; } >in/hand-64-rows
says hand-64-rows "${lines[@]}" "23 0 0" "23 0 0"
# 65 rows: the one with 60,000 is cut in two; the first 64 are good; a gap at 59,999. 64 rows: the last in the table, that of 1 to 937, is
# one too short, one too long, or begins at 0.
bad hand-65-rows "23 0 0" 59032 59999 192 "${table[@]:3}" 60000 60000 1
bad hand-65-first-good "23 0 0" "${table[@]}" 500 600 1
bad hand-65-gap "23 0 0" 59032 59998 192 "${table[@]:3}" 60000 60000 1
bad hand-64-gap "25 0 937" "${table[@]:0:189}" 1 936 3
bad hand-64-overlap "24 0 938" "${table[@]:0:189}" 1 938 3
bad hand-64-bad "23 0 0" "${table[@]:0:189}" 0 937 3
# Overlaps. By one; one row in another, both ways round; a row twice; all in two; at 1 and at 60,000 alone.
bad hand-overlap "24 0 30000" 1 30000 1 30000 60000 2
bad hand-nested "24 0 500" 1 60000 1 500 600 2
bad hand-nested-first "24 0 500" 500 600 2 1 60000 1
bad hand-twice "24 0 30001" 1 30000 1 30001 60000 2 30001 60000 2
bad hand-all-twice "24 0 1" 1 60000 2 1 60000 3
bad hand-overlap-1 "24 0 1" 1 60000 2 1 1 3
bad hand-overlap-60000 "24 0 60000" 60000 60000 3 1 60000 2
# Two overlaps, the larger first in row order. 50 is in two rows, 90 in three.
bad hand-two-overlaps "24 0 20" 40000 50000 1 50000 60000 2 1 20 3 20 39999 4
bad hand-in-three "24 0 50" 90 95 3 1 100 1 50 60000 2
# Gaps. Of one; at either end; three, the smallest not the first in row order; one row of a single interval.
bad hand-gap "25 0 30000" 1 29999 1 30001 60000 2
bad hand-gap-1 "25 0 1" 2 60000 1
bad hand-gap-60000 "25 0 60000" 1 59999 1
bad hand-three-gaps "25 0 501" 30002 59999 1 1 500 2 503 30000 3
bad hand-one-single "25 0 1" 500 500 1
# Both, the gaps below and above; and the rows' lengths add up to 60,000.
bad hand-both "24 0 100" 2 100 1 100 59999 2
bad hand-both-sum "24 0 60000" 60000 60000 3 2 30000 1 30001 60000 2
# Bad rows. Each is the only fault where that can be: the other row is good, or there is no other.
bad hand-row-0 "23 0 0" 0 60000 1
bad hand-row-60001 "23 0 0" 1 60001 1
bad hand-row-65535 "23 0 0" 1 65535 1
bad hand-row-0-0 "23 0 0" 0 0 2 1 60000 1
bad hand-row-above "23 0 0" 1 60000 1 60001 60001 2
bad hand-row-turned "23 0 0" 1 60000 1 501 500 2
bad hand-row-turned-round "23 0 0" 60000 1 1
# With a bad row as well: an overlap, a gap, both.
bad hand-23-24 "23 0 0" 1 30000 1 30000 60000 2 7 6 3
bad hand-23-25 "23 0 0" 7 6 3 2 60000 1
bad hand-23-24-25 "23 0 0" 5 20 1 60001 60001 2 1 10 3
# No row.
bad hand-no-row "25 0 1"

# No interval: nothing is printed, also where the table is bad. One.
rows 1 60000 7 >in/hand-none
rows 2 60000 7 >in/hand-none-gap
rows 1 60000 7 0 1 7 >in/hand-none-bad
bytes 0 >in/hand-none-no-row
for f in none none-gap none-bad none-no-row; do says_nothing hand-$f; done
{ rows 1 60000 255; ask 60000; } >in/hand-one-interval
says hand-one-interval "0 255 0"

# The largest input, 65,536 bytes, and more. The longest answer is that of largest-overlap: the lines have 11 bytes.
{ rows 1 60000 255; times 32765 234 96; } >in/largest
says_times largest 32765 "0 255 0"
{ rows 1 30000 1 60000 60000 3 30001 60000 2; times 32760 0 1; } >in/largest-overlap
says_times largest-overlap 32760 "24 0 60000"
for f in largest largest-overlap; do
    size=$(stat -c %s in/$f)
    [ "$size" -eq 65536 ] || { echo "$f has $size bytes, not 65,536"; exit 1; }
    for more in 1 2 100000; do
        { cat in/$f; head -c $more /dev/zero; } >in/$f-and-$more
        says $f-and-$more "file 14"
    done
done
# As many intervals as there can be, without a row; 65,537 bytes, all intervals whole, with no row and with 64.
{ bytes 0; times 32767 0 1; } >in/most-intervals
says_times most-intervals 32767 "25 0 1"
{ bytes 0; times 32768 0 1; } >in/too-many-intervals
{ rows "${table[@]}"; times 32608 0 1; } >in/too-many-intervals-64
for f in too-many-intervals too-many-intervals-64; do
    size=$(stat -c %s in/$f)
    [ "$size" -eq 65537 ] || { echo "$f has $size bytes, not 65,537"; exit 1; }
    says $f "file 14"
done

# Inputs of up to 9 bytes: one row and its intervals 0 and 1; no row and intervals 0.
for ((n = 0; n < 10; n++)); do
    head -c $n in/hand-one-row >in/first-$n
    head -c $n /dev/zero >in/zeros-$n
    says first-$n "file 14"
    says zeros-$n "file 14"
done
says_nothing first-6
says first-8 "23 0 0"
for n in 1 3 5 7 9; do says_times zeros-$n $((n / 2)) "25 0 1"; done
# Cut short in row 64; in row 65, with 64 good ones before it; where row 65 would begin. Half an interval behind the 64 good rows.
head -c 320 in/hand-64-rows >in/cut-64
head -c 325 in/hand-65-first-good >in/cut-65
head -c 321 in/hand-65-first-good >in/cut-65-whole
head -c 322 in/hand-64-rows >in/half-64
{ bytes 255; times 254 0 1 234 96 7; } >in/cut-255
for f in cut-64 cut-65 cut-65-whole half-64 cut-255; do says $f "file 14"; done
# All of 255 rows.
{ bytes 255; times 255 0 1 234 96 7; ask 1; } >in/all-255
says all-255 "23 0 0"

by_hand=$((5 + 6 + 9 + 5 + 2 + 7 + 3 + 1 + 5 + 8 + 3 + 20 + 6))
[ "$(find hand -type f | wc -l)" -eq $by_hand ] || { echo "there are not $by_hand answers by hand"; exit 1; }
[ "$(find in -type f | wc -l)" -eq $((count + by_hand)) ] || { echo "there are not $((count + by_hand)) inputs"; exit 1; }

# The answers of the outside program. A case that no input brings about is compared with nothing.
find in -type f -print0 | sort -z | xargs -0 ./ranking.run -o want
for f in hand/*; do
    f=${f#hand/}
    cmp -s "hand/$f" "want/$f" || { echo "$f: the outside program differs from what was worked out by hand"; exit 1; }
done
./ranking.run -c in want >cases || [ "$count" -lt $whole ] || { grep "^it never" cases; tail -n 1 cases; exit 1; }
grep "^it never" cases || true
tail -n 1 cases

# Shows the two answers; keeps the input.
differ() { # NAME
    local kept
    kept=$(mktemp "${TMPDIR:-/tmp}/differs.XXXXXX")
    cp "in/$1" "$kept"
    echo "$1$pieces (seed $seed) differs; the input, a table and intervals, is kept as $kept"
    diff -u --label "$1, by oracle/ranking.rs" --label "$1, by ranking" "want/$1" "got/$1" | head -n 60 || true
    exit 1
}
pieces=
try() { # NAME, with its input on standard input
    key_to "got/$1" && cmp -s "got/$1" "want/$1" || differ "$1"
}
# Those with an answer by hand first: a difference is easiest to see there.
names=(hand/*)
for f in in/*; do [ -e "hand/${f#in/}" ] || names+=("$f"); done
names=("${names[@]#*/}")
total=${#names[@]}
compared=0
for f in "${names[@]}"; do
    if [ $SECONDS -ge "$limit" ]; then
        echo "$compared of $total inputs compared by ranking, 0 differ, but no time left after $SECONDS s"
        exit 2
    fi
    try "$f" <"in/$f"
    compared=$((compared + 1))
done

# Standard input may come in pieces: the number and half a row, up to the middle of an interval, the rest.
pieces=", in pieces,"
for f in largest largest-overlap-and-1 hand-one-row first-7 zeros-3; do
    try "$f" < <(head -c 3 "in/$f"; sleep 0.05; head -c 7 "in/$f" | tail -c +4; sleep 0.05; tail -c +8 "in/$f")
done
echo "$compared inputs compared by ranking, 0 differ"
