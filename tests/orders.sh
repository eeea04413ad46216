#!/usr/bin/env bash
# orders.sh KEY_PROGRAM [SEED] [COUNT]
#
# Makes inputs of every kind, commands and an event file each, and compares, byte for byte, what the program orders, which stands beside
# KEY_PROGRAM, prints with what oracle/orders.rs does. Some inputs are made here, with the largest that there can be among them; these have
# an answer that was worked out by hand. COUNT is the number of inputs that oracle/orders.rs makes. The same seed gives the same inputs.
# Each run of the program has 10 seconds.
# Every case that oracle/orders.rs names must occur in the inputs and its answers; with a COUNT below the default that is only said.
# The answers must also follow from the keys that KEY_PROGRAM prints of the same events in a list, the aborts of the takes among them.
#
# Exit status: 0 all equal, 1 a difference or something that never occurs, 2 wrong use or no time left (ORDERS_SECONDS, default 120).
set -euo pipefail
export LC_ALL=C
[ $# -ge 1 ] || { echo "orders.sh KEY_PROGRAM [SEED] [COUNT]" >&2; exit 2; }
here=$(dirname "$(readlink -f "${BASH_SOURCE[0]}")")
key=$(realpath -e "$1")
program=$(realpath -e "$(dirname "$key")/orders")
. "$here/program.sh"
seed=${2:-20261115}
# Twelve of each kind.
whole=288
count=${3:-$whole}
limit=${ORDERS_SECONDS:-120}
work=$(mktemp -d)
trap 'rm -rf "$work"' EXIT
cd "$work"
mkdir in hand want got lists keys

# The inputs by hand are made meanwhile.
rustc --edition 2021 -O -o orders.run "$here/oracle/orders.rs" &
compiler=$!
trap 'kill $compiler 2>/dev/null; rm -rf "$work"' EXIT

bytes() { # BYTE..
    local all
    printf -v all '\\x%02x' "$@"
    # shellcheck disable=SC2059
    printf "$all"
}
times() { # N BYTE..
    local all many n=$1
    shift
    printf -v all '\\x%02x' "$@"
    printf -v many "%${n}s" ''
    # shellcheck disable=SC2059
    printf "${many// /$all}"
}
event_file() { # with its records on standard input
    local length
    cat >records
    length=$(($(stat -c %s records) + 1))
    bytes $((length / 16777216)) $((length / 65536 % 256)) $((length / 256 % 256)) $((length % 256)) 1
    cat records
}
client() { bytes 3 1 "$1" 0; }
server() { bytes 3 1 "$1" 1; }
give() { bytes 6 2 "$1" "$2" "$3" $(($4 / 256)) $(($4 % 256)); } # TIMESLICE THREAD PRIORITY QUANTUM
call() { bytes 2 3 "$1"; }
reply() { bytes 1 4; }
block() { bytes 1 5; }
wake() { bytes 2 6 "$1"; }
charge() { bytes 3 7 $(($1 / 256)) $(($1 % 256)); }
refill() { bytes 2 9 "$1"; }
remove() { bytes 2 10 "$1"; }
commands() { # COMMAND..: their number, and the commands. Behind op stand its number, its thread and its order number.
    local all=() op thread number
    while [ $# -gt 0 ]; do
        case $1 in
        abort) op=0 thread=$2 number=$3; shift 3 ;;
        withdraw) op=1 thread=$2 number=$3; shift 3 ;;
        take) op=2 thread=0 number=0; shift ;;
        run) op=3 thread=$2 number=0; shift 2 ;;
        op) op=$2 thread=$3 number=$4; shift 4 ;;
        *) echo "there is no command $1" >&2; return 1 ;;
        esac
        all+=("$op" "$thread" $((number >> 24)) $((number >> 16 & 255)) $((number >> 8 & 255)) $((number & 255)))
    done
    bytes $((${#all[@]} / 6)) "${all[@]}"
}
asked() { # NAME COMMAND.., with the records on standard input
    local name=$1
    shift
    { commands "$@"; event_file; } >"in/$name"
}
says() { # NAME LINE..: of each command, without its number
    local name=$1 number=1
    shift
    while [ $# -gt 0 ]; do
        echo "$number $1"
        number=$((number + 1))
        shift
    done >"hand/$name"
}
says_nothing() { : >"hand/$1"; }         # NAME
refused() { echo "file $2" >"hand/$1"; } # NAME NUMBER
most=4294967295

# By hand. 0 calls server 1, which runs on 0's timeslice. An abort order takes 0 out of the call; then there is nothing to take.
caller() { client 0; server 1; give 0 0 10 100; call 1; }
caller | asked hand-take run 4 abort 0 5 take take
says hand-take "ok 0 1 0 1 0" "ok 0 1 0 1 0" "ok 0 0 0 0 0" "ok 0 0 0 0 0"
# The same with the ignored bytes set, and with ops above 3, which run events as 3 does.
caller | asked hand-ignored op 3 1 9 op 4 1 $most op 255 2 1 op 0 0 5 op 2 200 77 op 2 128 $most op 128 0 7 op 254 9 9
says hand-ignored \
    "ok 0 - - 0 0" "ok 0 - - 0 0" "ok 0 1 0 1 0" "ok 0 1 0 1 0" "ok 0 0 0 0 0" "ok 0 0 0 0 0" "ok 0 0 0 0 0" "ok 0 0 0 0 0"
# Document 01's K1, an event a command: the key's columns. The last event is refused, and its command is not.
{ client 0; server 1; give 5 0 10 100; call 1; charge 30; reply; reply; } | asked hand-k1 run 1 run 1 run 1 run 1 run 1 run 1 run 1
says hand-k1 "ok 0 - - 0 0" "ok 0 - - 0 0" "ok 0 0 5 0 0" "ok 0 1 5 1 0" "ok 0 1 5 1 0" "ok 0 0 5 0 0" "ok 0 0 5 0 0"
# K2 to K6, and the abort of 2 in K6 is an order.
{
    client 0; server 1; client 2; give 0 0 10 100; call 1; give 2 2 20 100; call 1; reply; block; call 1; wake 1; block
} | asked hand-k6 run 7 run 1 run 2 run 1 abort 2 1 take run 1
says hand-k6 "ok 0 1 2 0 1" "ok 0 1 2 1 2" "ok 0 - - 0 2" "ok 0 1 2 1 1" "ok 0 1 2 1 0" "ok 0 2 2 0 0" "ok 0 1 0 0 1"
# K7 and K8, a loop: 2, which was Helping 1, runs and replies to it.
looped() { client 0; server 1; server 2; give 0 0 10 100; call 1; call 2; call 1; }
{ looped; reply; } | asked hand-k8 run 7 abort 2 0 take run 1
says hand-k8 "ok 0 - - 0 3" "ok 0 - - 0 0" "ok 0 2 0 2 0" "ok 0 1 0 1 0"
# Both servers of the loop, either way round: 1 runs.
for first in 1 2; do
    looped | asked hand-loop-$first run 7 abort 1 $first abort 2 $((3 - first)) take
    says hand-loop-$first "ok 0 - - 0 3" "ok 0 - - 0 0" "ok 0 - - 0 0" "ok 0 1 0 1 0"
done
# A chain: 0 calls 1, which calls 2. Both callers are aborted, either way round; or one of them.
two() { client 0; server 1; server 2; give 0 0 10 100; call 1; call 2; }
for first in 1 2; do
    two | asked hand-chain-$first run 6 abort 0 $first abort 1 $((3 - first)) take
    says hand-chain-$first "ok 0 2 0 2 0" "ok 0 2 0 2 0" "ok 0 2 0 2 0" "ok 0 0 0 0 0"
done
two | asked hand-chain-inner run 6 abort 1 1 take
says hand-chain-inner "ok 0 2 0 2 0" "ok 0 2 0 2 0" "ok 0 1 0 1 0"
# 1 helps server 2, which then replies to 0 and is Idle; 0 runs, above 1. The abort of 1 ends its walk there. 0 blocks: 1 runs, or, where
# it is not aborted, its retry succeeds: a link twice.
helper() {
    client 0; client 1; server 2; give 0 0 20 5; call 2; charge 5; give 1 1 10 100; call 2; refill 0; reply; block
}
helper | asked hand-idle-end run 10 abort 1 3 take run 1
says hand-idle-end "ok 0 0 0 0 2" "ok 0 0 0 0 0" "ok 0 0 0 0 0" "ok 0 1 1 0 0"
helper | asked hand-idle-end-withdrawn run 10 withdraw 1 3 take run 1
says hand-idle-end-withdrawn "ok 0 0 0 0 2" "ok 0 0 0 0 0" "ok 0 0 0 0 0" "ok 0 2 1 1 2"
# 0's timeslice is Spent: the take lets nothing run. When it is refilled, 0 runs and not 1.
{ client 0; server 1; give 0 0 10 5; call 1; charge 5; refill 0; } | asked hand-spent run 5 abort 0 1 take run 1
says hand-spent "ok 0 - - 0 0" "ok 0 - - 0 0" "ok 0 - - 0 0" "ok 0 0 0 0 0"

# Refusals. The same number, and all below it, are 27, whichever of the two is held. There is no thread 5: its abort is counted.
yes="ok 0 - - 0 0" late="no 27 - - 0 0" none="no 2 - - 0 0" one="ok 0 - - 0 1"
: | asked hand-27 abort 5 10 abort 5 10 abort 5 9 abort 5 0 abort 5 11 withdraw 5 11 withdraw 5 10 withdraw 5 12 withdraw 5 12 abort 5 12 \
    abort 5 11 abort 5 13 take
says hand-27 "$yes" "$late" "$late" "$late" "$yes" "$late" "$late" "$yes" "$late" "$late" "$late" "$yes" "$one"
# Threads above 127, also 127 and 128.
: | asked hand-2 abort 128 0 withdraw 128 0 abort 255 $most withdraw 200 5 abort 127 1 withdraw 127 1 abort 255 0 abort 255 1 \
    withdraw 255 2 abort 255 2 take
says hand-2 "$none" "$none" "$none" "$none" "$yes" "$late" "$none" "$none" "$none" "$none" "$one"
# Nothing is held: nothing to take, and every number is taken, for each thread.
: | asked hand-nothing-held take take abort 0 0 abort 1 $most abort 2 1 withdraw 3 0 withdraw 4 $most take take
says hand-nothing-held "$yes" "$yes" "$yes" "$yes" "$yes" "$yes" "$yes" "ok 0 - - 0 3" "$yes"
# From 0 up to the largest: each is above the one before, which then is refused, as the same is.
edges=(0 1 2 255 256 257 32767 32768 65535 65536 8388608 16777215 16777216 2147483647 2147483648 2147483649 4278190080 4294967294 "$most")
last='' all=() lines=()
for n in "${edges[@]}"; do
    all+=(abort 9 "$n" withdraw 9 "$n")
    lines+=("$yes" "$late")
    if [ -n "$last" ]; then
        all+=(abort 9 "$last")
        lines+=("$late")
    fi
    last=$n
done
: | asked hand-edges "${all[@]}" abort 9 0 abort 9 2147483647 take
says hand-edges "${lines[@]}" "$late" "$late" "$one"
# Each of them where nothing is held, again and again: from the largest down.
all=() lines=()
for ((i = ${#edges[@]} - 1; i >= 0; i--)); do
    all+=(abort 9 "${edges[i]}" take withdraw 9 "${edges[i]}" take)
    lines+=("$yes" "$one" "$yes" "$yes")
done
: | asked hand-edges-down "${all[@]}"
says hand-edges-down "${lines[@]}"
# A refused order changes nothing: 10 stays, and an abort.
caller | asked hand-refused-order run 4 abort 0 10 withdraw 0 3 abort 0 7 withdraw 0 10 take
no="no 27 1 0 1 0"
says hand-refused-order "ok 0 1 0 1 0" "ok 0 1 0 1 0" "$no" "$no" "$no" "ok 0 0 0 0 0"

# An order does not look at the machine. It is given before there is such a thread; and before it calls.
caller | asked hand-not-there-yet abort 0 3 run 4 take
says hand-not-there-yet "$yes" "ok 0 1 0 1 0" "ok 0 0 0 0 0"
caller | asked hand-not-calling-yet run 3 abort 0 3 run 1 take
says hand-not-calling-yet "ok 0 0 0 0 0" "ok 0 0 0 0 0" "ok 0 1 0 1 0" "ok 0 0 0 0 0"
# It has its reply before the take, is taken off the bridge, or is there again: 10, 4, 10.
{ caller; reply; } | asked hand-replied run 4 abort 0 3 run 1 take
says hand-replied "ok 0 1 0 1 0" "ok 0 1 0 1 0" "ok 0 0 0 0 0" "ok 0 0 0 0 1"
{ caller; remove 0; } | asked hand-gone run 4 abort 0 3 run 1 take
says hand-gone "ok 0 1 0 1 0" "ok 0 1 0 1 0" "ok 0 - - 0 1" "ok 0 - - 0 1"
{ caller; remove 0; client 0; } | asked hand-there-again run 4 abort 0 3 run 2 take
says hand-there-again "ok 0 1 0 1 0" "ok 0 1 0 1 0" "ok 0 - - 0 1" "ok 0 - - 0 1"
# Threads Calling (0), Helping (1), Blocked (2 and 3), Idle (4), Ready (5) and running (6), and one that is not there (7).
holds() {
    client 0; client 1; client 2; server 3; server 4; client 5; client 6
    give 0 0 10 100; call 3; block; give 1 1 20 100; call 3; give 2 2 5 100; block; give 6 6 1 100
}
for thread in 2 3 4 5 6 7; do
    holds | asked hand-hold-$thread run 15 abort $thread 1 take
    says hand-hold-$thread "ok 0 6 6 0 2" "ok 0 6 6 0 0" "ok 0 6 6 0 1"
done
for thread in 0 1; do
    holds | asked hand-hold-$thread run 15 abort $thread 1 take
    says hand-hold-$thread "ok 0 6 6 0 2" "ok 0 6 6 0 0" "ok 0 $thread $thread 0 0"
done
# All at once, with rising numbers and with falling ones.
same="ok 0 6 6 0 0"
holds | asked hand-holds-rising run 15 abort 0 0 abort 1 1 abort 2 2 abort 3 3 abort 4 4 abort 5 5 abort 6 6 abort 7 7 take
says hand-holds-rising "ok 0 6 6 0 2" "$same" "$same" "$same" "$same" "$same" "$same" "$same" "$same" "ok 0 1 1 0 6"
holds | asked hand-holds-falling run 15 abort 0 9 abort 1 8 abort 2 7 abort 3 6 abort 4 5 abort 5 4 abort 6 3 abort 7 2 take
says hand-holds-falling "ok 0 6 6 0 2" "$same" "$same" "$same" "$same" "$same" "$same" "$same" "$same" "ok 0 1 1 0 6"

# A withdraw supersedes the abort: 0 is still Calling, and gets its reply.
stays="ok 0 1 0 1 0"
{ caller; reply; } | asked hand-withdraw run 4 abort 0 5 withdraw 0 6 take run 1
says hand-withdraw "$stays" "$stays" "$stays" "$stays" "ok 0 0 0 0 0"
# One that comes too late does not.
caller | asked hand-withdraw-late run 4 abort 0 5 withdraw 0 5 withdraw 0 4 withdraw 0 0 take
says hand-withdraw-late "$stays" "$stays" "$no" "$no" "$no" "ok 0 0 0 0 0"
# Where nothing is held it is held, with its number. The take clears it.
caller | asked hand-withdraw-first run 4 withdraw 0 5 abort 0 4 abort 0 5 take abort 0 4 take
says hand-withdraw-first "$stays" "$stays" "$no" "$no" "$stays" "$stays" "ok 0 0 0 0 0"
caller | asked hand-withdraw-cleared run 4 withdraw 0 $most take withdraw 0 0 take abort 0 0 take
says hand-withdraw-cleared "$stays" "$stays" "$stays" "$stays" "$stays" "$stays" "ok 0 0 0 0 0"
# A later abort supersedes the withdraw.
caller | asked hand-abort-again run 4 abort 0 5 withdraw 0 6 abort 0 5 abort 0 6 abort 0 7 take
says hand-abort-again "$stays" "$stays" "$stays" "$no" "$no" "$stays" "ok 0 0 0 0 0"
caller | asked hand-abort-after-withdraw run 4 withdraw 0 1 abort 0 2 take
says hand-abort-after-withdraw "$stays" "$stays" "$stays" "ok 0 0 0 0 0"
# Withdraws are not counted, whether the thread is there (0 Calling, 1 Ready) or not (9).
caller | asked hand-withdraws-not-counted run 4 withdraw 0 1 withdraw 1 1 withdraw 9 1 abort 8 1 take
says hand-withdraws-not-counted "$stays" "$stays" "$stays" "$stays" "$stays" "ok 0 1 0 1 1"
# One of two is withdrawn: 1 is aborted, and 0 gets its reply from it.
{ two; reply; } | asked hand-one-withdrawn run 6 abort 0 1 abort 1 2 withdraw 0 3 take run 1
says hand-one-withdrawn "ok 0 2 0 2 0" "ok 0 2 0 2 0" "ok 0 2 0 2 0" "ok 0 2 0 2 0" "ok 0 1 0 1 0" "ok 0 0 0 0 0"

# Several takes: each has its own count, and its numbers are taken again.
: | asked hand-counts abort 7 1 abort 8 1 take take abort 7 1 take abort 7 0 abort 8 0 abort 9 0 take
says hand-counts "$yes" "$yes" "ok 0 - - 0 2" "$yes" "$yes" "$one" "$yes" "$yes" "$yes" "ok 0 - - 0 3"
# 0 is aborted twice. Its second call helps 1, whose request is unfinished: one link.
{ caller; call 1; } | asked hand-twice run 4 abort 0 $most take run 1 abort 0 $most abort 0 0 take
says hand-twice "$stays" "$stays" "ok 0 0 0 0 0" "ok 0 1 0 0 1" "ok 0 1 0 0 0" "no 27 1 0 0 0" "ok 0 0 0 0 0"
# What was aborted is not held: the next take does not break the second call, whether a number is given for another thread or not.
{ caller; call 1; } | asked hand-not-held run 4 abort 0 1 take run 1 take abort 9 2 take
says hand-not-held "$stays" "$stays" "ok 0 0 0 0 0" "ok 0 1 0 0 1" "ok 0 1 0 0 0" "ok 0 1 0 0 0" "ok 0 1 0 0 1"
# An order for each thread, with falling numbers, and two more; 255 commands in all. The machine is empty.
all=() lines=()
for ((i = 0; i < 128; i++)); do
    all+=(abort "$i" $((127 - i)))
    lines+=("$yes")
done
: | asked hand-all-threads "${all[@]}" abort 127 1 abort 0 127 take "${all[@]:0:369}" take
says hand-all-threads "${lines[@]}" "$yes" "$late" "ok 0 - - 0 128" "${lines[@]:0:123}" "ok 0 - - 0 123"

# In which order: what shows it is the links of a later event. LOW's timeslice and UPPER's, which stands above it, wait for 120; HIGH's, the
# topmost, waits for 121. If HIGH is aborted first, the abort of LOW puts UPPER's into Queue, where no choice looks at it before HIGH
# blocks: one link. If LOW is, UPPER's is looked at at once and goes back to 120, and HIGH's block follows no link.
pair() { # LOW HIGH
    client "$1"; client 50; client "$2"; server 120; server 121
    give 0 "$1" 10 100; call 120; block; give 1 50 20 100; call 120; give 2 "$2" 30 100; call 121; block
}
{ pair 3 90; block; block; } | event_file >pair-3-90
{ pair 90 3; block; block; } | event_file >pair-90-3
paired() { # NAME LOW HIGH LINKS ORDER..
    local name=$1 low=$2 high=$3 links=$4 lines=() i
    shift 4
    { commands run 13 "$@" take run 1 run 1; cat "pair-$low-$high"; } >"in/$name"
    for ((i = 0; i < $#; i += 3)); do
        case " ${refusals:-} " in *" $((i / 3 + 1)) "*) lines+=("$late") ;; *) lines+=("$yes") ;; esac
    done
    says "$name" "ok 0 - - 0 3" "${lines[@]}" "ok 0 $high 2 0 0" "ok 0 $low 0 0 $links" "ok 0 - - 0 0"
}
# The smaller number is LOW's, then HIGH's; LOW's thread is the smaller, then the larger; and either is given first.
for two_numbers in 1,2 0,4294967295 255,256 1,256 65535,65536 1,65536 65537,131072 16777215,16777216 1,16777216 2147483647,2147483648 \
    1,4294967295 4294967294,4294967295 131071,196608; do
    small=${two_numbers%,*} large=${two_numbers#*,}
    for threads in "3 90" "90 3"; do
        read -r low high <<<"$threads"
        paired "hand-order-low-$small-$large-$low" "$low" "$high" 0 abort "$high" "$large" abort "$low" "$small"
        paired "hand-order-high-$small-$large-$low" "$low" "$high" 1 abort "$low" "$large" abort "$high" "$small"
    done
done
for threads in "3 90" "90 3"; do
    read -r low high <<<"$threads"
    paired "hand-order-given-low-$low" "$low" "$high" 0 abort "$low" 1 abort "$high" 2
    paired "hand-order-given-high-$low" "$low" "$high" 1 abort "$high" 1 abort "$low" 2
    # Equal numbers: the smaller thread is LOW's, then HIGH's.
    for n in 0 7 2147483648 4294967295; do
        paired "hand-order-equal-$n-$low" "$low" "$high" $((low > high)) abort "$low" $n abort "$high" $n
        paired "hand-order-equal-$n-$low-given" "$low" "$high" $((low > high)) abort "$high" $n abort "$low" $n
    done
    # The last number counts, not the first.
    paired "hand-order-last-high-$low" "$low" "$high" 1 abort "$low" 1 abort "$high" 2 abort "$low" 3
    paired "hand-order-last-low-$low" "$low" "$high" 0 abort "$high" 1 abort "$low" 2 abort "$high" 3
    paired "hand-order-last-equal-$low" "$low" "$high" $((low > high)) abort "$low" 1 abort "$high" 2 abort "$low" 2
    # And that of the abort behind a withdraw.
    paired "hand-order-withdraw-$low" "$low" "$high" 1 abort "$low" 1 abort "$high" 5 withdraw "$low" 6 abort "$low" 7
    # Refused orders do not count: the third and the fourth.
    refusals="3 4"
    paired "hand-order-refused-high-$low" "$low" "$high" 1 abort "$low" 5 abort "$high" 3 abort "$low" 2 withdraw "$low" 4
    paired "hand-order-refused-low-$low" "$low" "$high" 0 abort "$low" 5 abort "$high" 7 abort "$high" 4 abort "$high" 7
    refusals=
done
# A thread that stands above both runs all the while: no choice looks at UPPER's in either case, until all above it have blocked.
for numbers in "1 2" "2 1" "1 1"; do
    read -r n1 n2 <<<"$numbers"
    {
        pair 3 90; client 110; give 9 110 200 100; block; block; block
    } | asked "hand-order-below-$n1-$n2" run 15 abort 3 "$n1" abort 90 "$n2" take run 1 run 1 run 1
    says "hand-order-below-$n1-$n2" \
        "ok 0 110 9 0 3" "ok 0 110 9 0 0" "ok 0 110 9 0 0" "ok 0 110 9 0 0" "ok 0 90 2 0 0" "ok 0 3 0 0 1" "ok 0 - - 0 0"
done
# Three of them. RUNG 1 (thread 20), 2 (thread 10) and 3 (thread 30); 1 and 2 have a timeslice of another client above their own, which is
# looked at at once if no higher rung is free yet: then the block of the rung above follows no link.
ladder() {
    client 20; client 10; client 30; client 60; client 61; server 101; server 102; server 103
    give 0 20 10 100; call 101; block; give 1 60 20 100; call 101
    give 2 10 30 100; call 102; block; give 3 61 40 100; call 102
    give 4 30 50 100; call 103; block
    block; block; block
}
while read -r n1 n2 n3 links3 links2; do
    ladder | asked "hand-ladder-$n1-$n2-$n3" run 21 abort 30 "$n3" abort 20 "$n1" abort 10 "$n2" take run 1 run 1 run 1
    says "hand-ladder-$n1-$n2-$n3" "ok 0 - - 0 5" "$yes" "$yes" "$yes" "ok 0 30 4 0 0" "ok 0 10 2 0 $links3" "ok 0 20 0 0 $links2" "$yes"
done <<'END'
1 2 3 0 0
1 3 2 1 0
2 1 3 0 1
3 1 2 0 1
2 3 1 1 1
3 2 1 1 1
7 7 7 0 1
1 1 0 1 1
5 9 5 1 0
4 4 9 0 1
END
# The lower two wait in a loop: 120 calls 122, which calls 120. UPPER's walk follows 6 links, as many as there are threads.
for numbers in "1 2 0" "2 1 6" "8 8 0"; do
    read -r n1 n2 links <<<"$numbers"
    {
        client 3; client 50; client 90; server 120; server 121; server 122; give 0 3 10 100; call 120; call 122; call 120
        give 1 50 20 100; call 120; give 2 90 30 100; call 121; block; block
    } | asked "hand-order-loop-$n1-$n2" run 15 abort 90 "$n2" abort 3 "$n1" take run 1
    says "hand-order-loop-$n1-$n2" "ok 0 - - 0 13" "$yes" "$yes" "ok 0 90 2 0 0" "ok 0 3 0 0 $links"
done

# Runs of none, of some, past the end, and behind it.
{ client 5; give 3 5 10 100; block; wake 5; } | asked hand-runs run 0 run 2 run 0 run 1 run 2 run 255 run 0 run 1
says hand-runs \
    "ok 0 - - 0 0" "ok 0 5 3 0 0" "ok 0 5 3 0 0" "ok 0 - - 0 0" "ok 0 5 3 0 0" "ok 0 5 3 0 0" "ok 0 5 3 0 0" "ok 0 5 3 0 0"
# Links in all: five times a wake and a block, of two links each; the wakes between them that are refused follow none.
{ two; block; for i in 1 2 3 4 5; do wake 2; wake 2; block; done; } | asked hand-links-in-all run 7 run 15 run 1
says hand-links-in-all "ok 0 - - 0 2" "ok 0 - - 0 20" "ok 0 - - 0 0"
# Refused events are run too: a wake (4); behind two others a reply (8); two wakes (9 and 4).
{ wake 5; client 5; give 3 5 10 100; reply; block; wake 5; wake 5; wake 6; block; } | asked hand-refused-events run 1 run 3 run 4 run 1
says hand-refused-events "ok 0 - - 0 0" "ok 0 5 3 0 0" "ok 0 5 3 0 0" "ok 0 - - 0 0"
# A file without events. Events that are left over: 0 does not call.
: | asked hand-no-event run 9 abort 0 0 take run 9
says hand-no-event "$yes" "$yes" "$one" "$yes"
caller | asked hand-left-over run 3 take
says hand-left-over "ok 0 0 0 0 0" "ok 0 0 0 0 0"
# One command, and two, that run no event: the machine is empty.
caller | asked hand-one-command take
says hand-one-command "$yes"
caller | asked hand-two-commands abort 0 1 take
says hand-two-commands "$yes" "$one"
# Takes alone, and orders alone.
caller | asked hand-takes-alone take run 4 take
says hand-takes-alone "$yes" "$stays" "$stays"
caller | asked hand-orders-alone run 4 abort 0 1 withdraw 1 1
says hand-orders-alone "$stays" "$stays" "$stays"

# No command: nothing is printed.
caller | asked hand-no-command
: | asked hand-no-command-no-event
says_nothing hand-no-command
says_nothing hand-no-command-no-event
# A command more than there are, or one fewer: what is then the file has another length.
commands run 4 abort 0 5 take take >before
for k in 3 5; do
    { bytes $k; tail -c +2 before; caller | event_file; } >in/hand-$k-of-4
    refused hand-$k-of-4 14
done
# The file is refused before a command is done, wherever its fault is: a byte too many, the version, an unknown kind, a role, a record cut
# short; with commands that do not come to it, and with none.
for k in 4 0; do
    if [ $k -eq 4 ]; then commands abort 0 5 run 1 take abort 200 1; else commands; fi >before
    { cat before; caller | event_file; bytes 0; } >in/hand-14-$k
    { cat before; bytes 0 0 0 2 2 1; } >in/hand-15-$k
    { cat before; { caller; bytes 1 12; } | event_file; } >in/hand-16-$k
    { cat before; { caller; bytes 3 1 9 2; } | event_file; } >in/hand-16-role-$k
    { cat before; { caller; bytes 2 6; } | event_file; } >in/hand-16-cut-$k
    refused hand-14-$k 14
    refused hand-15-$k 15
    refused hand-16-$k 16
    refused hand-16-role-$k 16
    refused hand-16-cut-$k 16
done

# The largest file, 65,536 bytes: the charges are accepted, the gives are refused with 3, the wakes with 4, the reply with 8. With the most
# commands, and with none. The 9,793 events are run in 39 commands. Then each thread gets an abort, of which all are refused, thread 0's
# with 10 and the others with 4; and what is left of the commands are orders for no thread.
full() { client 0; give 0 0 10 65535; times 1000 3 7 0 1; times 8787 6 2 0 0 10 0 1; }
full_file() { { full; times 3 2 6 9; reply; } | event_file; }
{
    bytes 255
    times 39 255 255 255 255 255 255
    for ((i = 127; i >= 0; i--)); do bytes 0 $i 255 255 255 $i; done
    bytes 2 255 255 255 255 255
    times 87 1 255 255 255 255 255
    full_file
} >in/largest
{
    for ((i = 1; i <= 167; i++)); do echo "$i ok 0 0 0 0 0"; done
    echo "168 ok 0 0 0 0 128"
    for ((i = 169; i <= 255; i++)); do echo "$i no 2 0 0 0 0"; done
} >hand/largest
{ bytes 0; full_file; } >in/largest-file
says_nothing largest-file
# More: bytes that the length field does not count; a file of 65,537 bytes, and one of as many as make the input as large as the largest, or
# larger by one.
for more in 1 100000; do
    { cat in/largest; head -c $more /dev/zero; } >in/largest-and-$more
    { cat in/largest-file; head -c $more /dev/zero; } >in/largest-file-and-$more
    refused largest-and-$more 14
    refused largest-file-and-$more 14
done
{ head -c 1531 in/largest; { full; times 2 2 6 9; times 3 1 4; } | event_file; } >in/too-large
{ bytes 0; { full; times 2 2 6 9; times 3 1 4; } | event_file; } >in/too-large-file
{ bytes 0; { full; times 513 2 6 9; reply; } | event_file; } >in/too-large-67067
{ bytes 0; { full; times 514 2 6 9; } | event_file; } >in/too-large-67068
for f in too-large too-large-file too-large-67067 too-large-67068; do refused $f 14; done

# About the longest answer: five and seven digits of links. 0 calls server 1, which calls 2, and so on to 127; each has a timeslice. When
# 127 calls 1 all chains are loops: 128 timeslices, 128 links each. Its abort follows 128, and 127 in the choice. These two are a pair, of
# 16,639 links.
longest() {
    local i
    client 0
    for ((i = 1; i < 128; i++)); do server $i; done
    give 127 0 255 9
    for ((i = 1; i < 128; i++)); do give $((i - 1)) $i 0 9; done
    for ((i = 1; i < 128; i++)); do call $i; done
}
# 383 events before the pairs; then a pair a command, and 61 in each of the last 3. What is left of the file is not run.
{
    bytes 255 3 255 0 0 0 0 3 128 0 0 0 0
    times 250 3 2 255 255 255 255
    times 3 255 122 255 255 255 255
    { longest; times 433 2 3 1 2 8 127; times 15286 3 1 0 0; } | event_file
} >in/longest
{
    printf '%s\n' "1 ok 0 0 127 0 0" "2 ok 0 127 127 127 0"
    for ((i = 3; i <= 255; i++)); do echo "$i ok 0 127 127 127 $((16639 * (i < 253 ? 1 : 61)))"; done
} >hand/longest
# The calls alone are in the file, and orders break the loop each time. The number is the largest; each take lets it be taken again.
{
    bytes 255 3 255 0 0 0 0 3 128 0 0 0 0
    times 84 3 1 0 0 0 0 0 127 255 255 255 255 2 0 0 0 0 0
    bytes 2 0 0 0 0 0
    { longest; times 84 2 3 1; times 15872 3 1 0 0; reply; } | event_file
} >in/longest-takes
{
    printf '%s\n' "1 ok 0 0 127 0 0" "2 ok 0 127 127 127 0"
    for ((i = 3; i <= 252; i += 3)); do
        printf '%s\n' "$i ok 0 - - 0 16384" "$((i + 1)) ok 0 - - 0 0" "$((i + 2)) ok 0 127 127 127 0"
    done
    echo "255 ok 0 127 127 127 0"
} >hand/longest-takes
for f in largest longest longest-takes too-large-67067; do
    size=$(stat -c %s in/$f)
    [ "$size" -eq 67067 ] || { echo "$f has $size bytes, not 67,067"; exit 1; }
done

# Inputs of up to 9 bytes; and all that hand-take begins with.
for ((n = 0; n < 10; n++)); do
    head -c $n /dev/zero >in/zeros-$n
    refused zeros-$n 14
done
size=$(stat -c %s in/hand-take)
for ((n = 1; n < size; n++)); do
    head -c $n in/hand-take >in/first-$n
    refused first-$n 14
done

wait $compiler
trap 'rm -rf "$work"' EXIT
./orders.run -n "$seed" "$count" in
by_hand=$((5 + 8 + 6 + 5 + 10 + 8 + 4 + 52 + 32 + 16 + 9 + 4 + 10 + 12 + 10 + 47))
[ "$(find hand -type f | wc -l)" -eq $by_hand ] || { echo "there are not $by_hand answers by hand"; exit 1; }
[ "$(find in -type f | wc -l)" -eq $((count + by_hand)) ] || { echo "there are not $((count + by_hand)) inputs"; exit 1; }

# The answers of the outside program. A case that no input brings about is compared with nothing.
find in -type f -print0 | sort -z | xargs -0 ./orders.run -o want
for f in hand/*; do
    f=${f#hand/}
    cmp -s "hand/$f" "want/$f" || { echo "$f: the outside program differs from what was worked out by hand"; exit 1; }
done
./orders.run -c in want >cases || [ "$count" -lt $whole ] || { grep "^it never" cases; tail -n 1 cases; exit 1; }
grep "^it never" cases || true
tail -n 1 cases

# Shows the two answers; keeps the input.
differ() { # NAME
    local kept
    kept=$(mktemp "${TMPDIR:-/tmp}/differs.XXXXXX")
    cp "in/$1" "$kept"
    echo "$1$pieces (seed $seed) differs; the input, commands and a file, is kept as $kept"
    diff -u --label "$1, by oracle/orders.rs" --label "$1, by orders" "want/$1" "got/$1" | head -n 60 || true
    exit 1
}
pieces=
try() { # NAME, with its input on standard input
    key_to "got/$1" && cmp -s "got/$1" "want/$1" || differ "$1"
}
out_of_time() {
    [ $SECONDS -ge "$limit" ] || return 0
    echo "$compared of $total inputs compared by orders, 0 differ, but no time left after $SECONDS s"
    exit 2
}
# Those with an answer by hand first: a difference is easiest to see there.
names=(hand/*)
for f in in/*; do [ -e "hand/${f#in/}" ] || names+=("$f"); done
names=("${names[@]#*/}")
total=${#names[@]}
compared=0
for f in "${names[@]}"; do
    out_of_time
    try "$f" <"in/$f"
    compared=$((compared + 1))
done

# Standard input may come in pieces: the number and half a command, up to the middle of a command, up to the middle of the file's head, the
# rest.
pieces=", in pieces,"
for f in largest largest-and-1 hand-take first-20; do
    try "$f" < <(
        head -c 4 "in/$f"; sleep 0.05; head -c 15 "in/$f" | tail -c +5; sleep 0.05; head -c 27 "in/$f" | tail -c +16; sleep 0.05
        tail -c +28 "in/$f"
    )
done

# "Machine and count must equal those of the same abort events written in a list": the lists, and their keys by KEY_PROGRAM.
find in -type f -print0 | xargs -0 ./orders.run -l lists
for f in lists/*; do
    out_of_time
    key_to "keys/${f#lists/}" "$key" <"$f" || exit 1
done
./orders.run -k in got keys >follow || { cat follow; exit 1; }
cat follow
echo "$compared inputs compared by orders, 0 differ"
