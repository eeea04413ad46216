#!/usr/bin/env bash
# card.sh KEY_PROGRAM [SEED] [COUNT]
#
# Makes inputs of every kind, a register block, commands and an event file each, and compares, byte for byte, what the program card, which
# stands beside KEY_PROGRAM, prints with what oracle/card.rs does. Some inputs are made here, with the largest that there can be among
# them; these have an answer that was worked out by hand. COUNT is the number of inputs that oracle/card.rs makes. The same seed gives the
# same inputs. Each run of the program has 10 seconds.
# Every case that oracle/card.rs names must occur in the inputs and its answers; with a COUNT below the default that is only said.
#
# Exit status: 0 all equal, 1 a difference or something that never occurs, 2 wrong use or no time left (CARD_SECONDS, default 120).
set -euo pipefail
export LC_ALL=C
[ $# -ge 1 ] || { echo "card.sh KEY_PROGRAM [SEED] [COUNT]" >&2; exit 2; }
here=$(dirname "$(readlink -f "${BASH_SOURCE[0]}")")
key=$(realpath -e "$1")
program=$(realpath -e "$(dirname "$key")/card")
. "$here/program.sh"
seed=${2:-20261115}
# Twenty of each kind.
whole=400
count=${3:-$whole}
limit=${CARD_SECONDS:-120}
work=$(mktemp -d)
trap 'rm -rf "$work"' EXIT
cd "$work"
mkdir in hand want got

# The inputs by hand are made meanwhile.
rustc --edition 2021 -O -o card.run "$here/oracle/card.rs" &
compiler=$!
trap 'kill $compiler 2>/dev/null; rm -rf "$work"' EXIT

bytes() { # BYTE..
    local all
    printf -v all '\\x%02x' "$@"
    # shellcheck disable=SC2059
    printf "$all"
}
times() { # N BYTE..
    local all many n=$1
    shift
    printf -v all '\\x%02x' "$@"
    printf -v many "%${n}s" ''
    # shellcheck disable=SC2059
    printf "${many// /$all}"
}
event_file() { # with its records on standard input
    local length
    cat >records
    length=$(($(stat -c %s records) + 1))
    bytes $((length / 16777216)) $((length / 65536 % 256)) $((length / 256 % 256)) $((length % 256)) 1
    cat records
}
client() { bytes 3 1 "$1" 0; }
server() { bytes 3 1 "$1" 1; }
give() { bytes 6 2 "$1" "$2" "$3" $(($4 / 256)) $(($4 % 256)); } # TIMESLICE THREAD PRIORITY QUANTUM
call() { bytes 2 3 "$1"; }
reply() { bytes 1 4; }
block() { bytes 1 5; }
wake() { bytes 2 6 "$1"; }
charge() { bytes 3 7 $(($1 / 256)) $(($1 % 256)); }
abort() { bytes 2 8 "$1"; }
remove() { bytes 2 10 "$1"; }
commands() { # COMMAND..: their number, and the commands. Behind op stand its number and its two bytes.
    local all=()
    while [ $# -gt 0 ]; do
        case $1 in
        read) all+=(0 "$2" 0); shift 2 ;;
        write) all+=(1 "$2" "$3"); shift 3 ;;
        raise) all+=(2 "$2" 0); shift 2 ;;
        poll) all+=(3 0 0); shift ;;
        run) all+=(4 "$2" 0); shift 2 ;;
        op) all+=("$2" "$3" "$4"); shift 4 ;;
        *) echo "there is no command $1" >&2; return 1 ;;
        esac
    done
    bytes $((${#all[@]} / 3)) "${all[@]}"
}
lent() { bytes $# "$@"; } # BYTE..: their number, and the block
asked() { # NAME BLOCK COMMAND.., with the records on standard input
    local name=$1 block
    read -ra block <<<"$2"
    shift 2
    { lent ${block[@]+"${block[@]}"}; commands "$@"; event_file; } >"in/$name"
}
says() { # NAME (LINE LINE)..: the lines of each command, the first without its number
    local name=$1 number=1
    shift
    while [ $# -gt 0 ]; do
        printf '%s\n' "$number $1" "$2"
        number=$((number + 1))
        shift 2
    done >"hand/$name"
}
says_nothing() { : >"hand/$1"; }         # NAME
refused() { echo "file $2" >"hand/$1"; } # NAME NUMBER

# By hand. Thread 5 is Blocked after three events, and nothing runs. Its line is raised and taken; then there is none.
sounder() { client 5; give 3 5 10 100; block; }
t="5 0 0 0 0 0 0 0"
sounder | asked hand-take "1 0 1 0 $t" run 3 raise 0 poll poll
says hand-take \
    "ok 0 - - 0 0" "0 1 0 1 0 $t" \
    "ok 0 - - 0 0" "0 1 1 1 0 $t" \
    "ok 0 5 3 0 0" "0 1 0 1 0 $t" \
    "no 22 5 3 0 0" "0 1 0 1 0 $t"
# The same with the ignored bytes set, and with ops above 4, which run events as 4 does, one by one.
sounder | asked hand-ignored "1 0 1 0 $t" op 4 1 9 op 5 1 255 op 255 1 1 op 2 0 255 op 0 1 200 op 3 200 100 op 128 0 7 op 254 9 9
says hand-ignored \
    "ok 0 - - 0 0" "0 1 0 1 0 $t" \
    "ok 0 5 3 0 0" "0 1 0 1 0 $t" \
    "ok 0 - - 0 0" "0 1 0 1 0 $t" \
    "ok 0 - - 0 0" "0 1 1 1 0 $t" \
    "ok 0 - - 0 0" "1 1 1 1 0 $t" \
    "ok 0 5 3 0 0" "0 1 0 1 0 $t" \
    "ok 0 5 3 0 0" "0 1 0 1 0 $t" \
    "ok 0 5 3 0 0" "0 1 0 1 0 $t"
# Document 01's K1, an event a command: the key's columns. The last event is refused, and its command is not.
{ client 0; server 1; give 5 0 10 100; call 1; charge 30; reply; reply; } | asked hand-k1 "" run 1 run 1 run 1 run 1 run 1 run 1 run 1
says hand-k1 "ok 0 - - 0 0" 0 "ok 0 - - 0 0" 0 "ok 0 0 5 0 0" 0 "ok 0 1 5 1 0" 0 "ok 0 1 5 1 0" 0 "ok 0 0 5 0 0" 0 "ok 0 0 5 0 0" 0

# Chains. 0 calls server 1, which blocks: one link, when it blocks and when it is woken. Its caller's timeslice pays.
{ client 0; server 1; give 0 0 10 100; call 1; block; } | asked hand-one-link "1 8 8 0 9 9 9 1 9 9 9 9" run 5 poll
says hand-one-link "ok 0 - - 0 1" "0 1 8 8 0 9 9 9 1 9 9 9 9" "ok 0 1 0 1 1" "0 1 0 8 0 9 9 9 1 9 9 9 9"
# 1 calls 2, which blocks.
two() { client 0; server 1; server 2; give 0 0 10 100; call 1; call 2; block; }
two | asked hand-two-links "1 8 8 0 9 9 9 2 9 9 9 9" run 7 poll
says hand-two-links "ok 0 - - 0 2" "0 1 8 8 0 9 9 9 2 9 9 9 9" "ok 0 2 0 2 2" "0 1 0 8 0 9 9 9 2 9 9 9 9"
# 0 calls server 1; client 2, which stands above, helps it: one link. It blocks: both timeslices follow their link to it. It is woken: that
# of 2 runs it, and the donation of 0 is not in its chain.
{
    client 0; server 1; give 0 0 10 100; call 1; client 2; give 2 2 20 100; call 1; block
} | asked hand-helping "255 128 128 0 9 9 9 9 9 9 9 1" run 7 run 1 poll
says hand-helping \
    "ok 0 1 2 0 1" "0 255 128 128 0 9 9 9 9 9 9 9 1" \
    "ok 0 - - 0 2" "0 255 128 128 0 9 9 9 9 9 9 9 1" \
    "ok 0 1 2 0 1" "0 255 0 128 0 9 9 9 9 9 9 9 1"
# Links in all: five times a wake and a block, of two links each; the wakes between them that are refused follow none.
{ two; for i in 1 2 3 4 5; do wake 2; wake 2; block; done; } | asked hand-links-in-all "0" run 7 run 15 run 1
says hand-links-in-all "ok 0 - - 0 2" "0 0" "ok 0 - - 0 20" "0 0" "ok 0 - - 0 0" "0 0"
# 0 leaves the call that 1 was Blocked in, and blocks itself. To wake 1 lets nothing run; to wake 0 does.
{
    client 0; server 1; give 0 0 10 100; call 1; block; abort 0; block
} | asked hand-nothing-runs "1 3 3 0 1 0 9 9 9 9 9 9" run 7 poll poll
says hand-nothing-runs \
    "ok 0 - - 0 2" "0 1 3 3 0 1 0 9 9 9 9 9 9" \
    "ok 0 - - 0 0" "0 1 2 3 0 1 0 9 9 9 9 9 9" \
    "ok 0 0 0 0 0" "0 1 0 3 0 1 0 9 9 9 9 9 9"

# Eight clients, the next above the one before; all are Blocked. All lines are taken, the lowest first, and each changes what runs.
crowd() { # MANY
    local i
    for ((i = 0; i < $1; i++)); do client $i; give $((100 + i)) $i $((10 + i)) 100; block; done
}
t="0 1 2 3 4 5 6 7"
crowd 8 | asked hand-all-lines "1 255 255 0 $t" run 24 poll poll poll poll poll poll poll poll poll
says hand-all-lines \
    "ok 0 - - 0 0" "0 1 255 255 0 $t" \
    "ok 0 0 100 0 0" "0 1 254 255 0 $t" \
    "ok 0 1 101 0 0" "0 1 252 255 0 $t" \
    "ok 0 2 102 0 0" "0 1 248 255 0 $t" \
    "ok 0 3 103 0 0" "0 1 240 255 0 $t" \
    "ok 0 4 104 0 0" "0 1 224 255 0 $t" \
    "ok 0 5 105 0 0" "0 1 192 255 0 $t" \
    "ok 0 6 106 0 0" "0 1 128 255 0 $t" \
    "ok 0 7 107 0 0" "0 1 0 255 0 $t" \
    "no 22 7 107 0 0" "0 1 0 255 0 $t"
# The other way round: the first stands above all others, so they change nothing of what runs. It blocks, and the one before runs.
t="7 6 5 4 3 2 1 0"
{ crowd 8; block; } | asked hand-topmost-first "1 255 255 0 $t" run 24 poll poll poll run 1 poll
says hand-topmost-first \
    "ok 0 - - 0 0" "0 1 255 255 0 $t" \
    "ok 0 7 107 0 0" "0 1 254 255 0 $t" \
    "ok 0 7 107 0 0" "0 1 252 255 0 $t" \
    "ok 0 7 107 0 0" "0 1 248 255 0 $t" \
    "ok 0 6 106 0 0" "0 1 248 255 0 $t" \
    "ok 0 6 106 0 0" "0 1 240 255 0 $t"
# The lowest is neither the first raised nor the last, and its thread stands below the others.
t="9 9 0 9 1 9 2 9"
crowd 3 | asked hand-lowest "1 0 255 0 $t" run 9 raise 4 raise 2 raise 6 poll poll poll
says hand-lowest \
    "ok 0 - - 0 0" "0 1 0 255 0 $t" \
    "ok 0 - - 0 0" "0 1 16 255 0 $t" \
    "ok 0 - - 0 0" "0 1 20 255 0 $t" \
    "ok 0 - - 0 0" "0 1 84 255 0 $t" \
    "ok 0 0 100 0 0" "0 1 80 255 0 $t" \
    "ok 0 1 101 0 0" "0 1 64 255 0 $t" \
    "ok 0 2 102 0 0" "0 1 0 255 0 $t"
# All lines are pending, one is enabled: it alone is taken. The wakes of the others would be refused, or not.
for ((line = 0; line < 8; line++)); do
    for other in 200 5; do
        read -ra threads <<<"$other $other $other $other $other $other $other $other"
        threads[line]=5
        t="${threads[*]}" one=$((1 << line))
        sounder | asked hand-line-$line-$other "129 255 $one 3 $t" run 3 poll poll
        says hand-line-$line-$other \
            "ok 0 - - 0 0" "0 129 255 $one 3 $t" \
            "ok 0 5 3 0 0" "0 129 $((255 - one)) $one 3 $t" \
            "no 22 5 3 0 0" "0 129 $((255 - one)) $one 3 $t"
    done
done

# A line whose wake is refused stays pending and holds back those above it. There is no thread 9; line 0 is cleared.
t="9 5 9 9 9 9 9 9"
sounder | asked hand-held-cleared "1 0 255 0 $t" run 3 raise 1 raise 0 poll poll write 1 1 poll poll
says hand-held-cleared \
    "ok 0 - - 0 0" "0 1 0 255 0 $t" \
    "ok 0 - - 0 0" "0 1 2 255 0 $t" \
    "ok 0 - - 0 0" "0 1 3 255 0 $t" \
    "no 4 - - 0 0" "0 1 3 255 0 $t" \
    "no 4 - - 0 0" "0 1 3 255 0 $t" \
    "ok 0 - - 0 0" "0 1 2 255 0 $t" \
    "ok 0 5 3 0 0" "0 1 0 255 0 $t" \
    "no 22 5 3 0 0" "0 1 0 255 0 $t"
# Thread 128 is none; line 2 is disabled, then enabled again.
t="9 9 128 9 9 9 5 9"
sounder | asked hand-held-disabled "1 68 255 0 $t" run 3 poll write 2 251 poll poll write 2 255 poll
says hand-held-disabled \
    "ok 0 - - 0 0" "0 1 68 255 0 $t" \
    "no 2 - - 0 0" "0 1 68 255 0 $t" \
    "ok 0 - - 0 0" "0 1 68 251 0 $t" \
    "ok 0 5 3 0 0" "0 1 4 251 0 $t" \
    "no 22 5 3 0 0" "0 1 4 251 0 $t" \
    "ok 0 5 3 0 0" "0 1 4 255 0 $t" \
    "no 2 5 3 0 0" "0 1 4 255 0 $t"
# Client 1 is Ready. To switch the card off and on, also by control with other bits, does not free line 5; to clear line 0 does.
t="1 9 9 9 9 5 9 9"
{ sounder; client 1; } | asked hand-held-off-on "1 33 255 0 $t" \
    run 4 poll write 0 0 poll write 0 1 poll write 0 254 poll write 0 255 poll write 1 1 poll
says hand-held-off-on \
    "ok 0 - - 0 0" "0 1 33 255 0 $t" \
    "no 9 - - 0 0" "0 1 33 255 0 $t" \
    "ok 0 - - 0 0" "0 0 33 255 0 $t" \
    "no 22 - - 0 0" "0 0 33 255 0 $t" \
    "ok 0 - - 0 0" "0 1 33 255 0 $t" \
    "no 9 - - 0 0" "0 1 33 255 0 $t" \
    "ok 0 - - 0 0" "0 254 33 255 0 $t" \
    "no 22 - - 0 0" "0 254 33 255 0 $t" \
    "ok 0 - - 0 0" "0 255 33 255 0 $t" \
    "no 9 - - 0 0" "0 255 33 255 0 $t" \
    "ok 0 - - 0 0" "0 255 32 255 0 $t" \
    "ok 0 5 3 0 0" "0 255 0 255 0 $t"
# Client 1 runs, and then blocks: now line 0 is taken, and line 7 after it.
t="1 9 9 9 9 9 9 5"
{ sounder; client 1; give 1 1 20 100; block; } | asked hand-held-blocks "1 129 255 0 $t" run 5 poll run 1 poll poll
says hand-held-blocks \
    "ok 0 1 1 0 0" "0 1 129 255 0 $t" \
    "no 9 1 1 0 0" "0 1 129 255 0 $t" \
    "ok 0 - - 0 0" "0 1 129 255 0 $t" \
    "ok 0 1 1 0 0" "0 1 128 255 0 $t" \
    "ok 0 1 1 0 0" "0 1 0 255 0 $t"
# Line 3 gets another thread: both are taken.
crowd 2 | asked hand-held-thread "1 24 255 0 9 9 9 255 0 9 9 9" run 6 poll write 7 1 poll poll
says hand-held-thread \
    "ok 0 - - 0 0" "0 1 24 255 0 9 9 9 255 0 9 9 9" \
    "no 2 - - 0 0" "0 1 24 255 0 9 9 9 255 0 9 9 9" \
    "ok 0 - - 0 0" "0 1 24 255 0 9 9 9 1 0 9 9 9" \
    "ok 0 1 101 0 0" "0 1 16 255 0 9 9 9 1 0 9 9 9" \
    "ok 0 1 101 0 0" "0 1 0 255 0 9 9 9 1 0 9 9 9"
# Three lines with one thread: the first wakes it, the next cannot until it has blocked again.
t="9 5 9 9 5 9 9 5"
{ sounder; block; } | asked hand-one-thread "1 146 255 0 $t" run 3 poll poll run 1 poll poll write 1 255 poll
says hand-one-thread \
    "ok 0 - - 0 0" "0 1 146 255 0 $t" \
    "ok 0 5 3 0 0" "0 1 144 255 0 $t" \
    "no 9 5 3 0 0" "0 1 144 255 0 $t" \
    "ok 0 - - 0 0" "0 1 144 255 0 $t" \
    "ok 0 5 3 0 0" "0 1 128 255 0 $t" \
    "no 9 5 3 0 0" "0 1 128 255 0 $t" \
    "ok 0 5 3 0 0" "0 1 0 255 0 $t" \
    "no 22 5 3 0 0" "0 1 0 255 0 $t"
# Raised again after it was taken: taken again.
t="5 9 9 9 9 9 9 9"
{ sounder; block; } | asked hand-again "1 0 1 0 $t" run 3 raise 0 poll run 1 raise 0 poll
says hand-again \
    "ok 0 - - 0 0" "0 1 0 1 0 $t" \
    "ok 0 - - 0 0" "0 1 1 1 0 $t" \
    "ok 0 5 3 0 0" "0 1 0 1 0 $t" \
    "ok 0 - - 0 0" "0 1 0 1 0 $t" \
    "ok 0 - - 0 0" "0 1 1 1 0 $t" \
    "ok 0 5 3 0 0" "0 1 0 1 0 $t"
# An event wakes the thread before the poll; and one takes it off the bridge.
{ sounder; wake 5; remove 5; } | asked hand-woken "1 1 1 0 $t" run 4 poll run 1 poll
says hand-woken \
    "ok 0 5 3 0 0" "0 1 1 1 0 $t" \
    "no 9 5 3 0 0" "0 1 1 1 0 $t" \
    "ok 0 - - 0 0" "0 1 1 1 0 $t" \
    "no 4 - - 0 0" "0 1 1 1 0 $t"
# The machine begins empty: there is no thread 0.
sounder | asked hand-empty-machine "1 255 255 0 0 0 0 0 0 0 0 0" poll
says hand-empty-machine "no 4 - - 0 0" "0 1 255 255 0 0 0 0 0 0 0 0 0"
# Threads Idle (1), Calling (0), Helping (2) and running (3), of lines 0 to 3: 0 calls 3, and 2, which stands above, helps it.
t="1 0 2 3 9 9 9 9"
{
    client 0; server 1; client 2; server 3; give 0 0 10 100; call 3; give 2 2 20 100; call 3
} | asked hand-not-blocked "1 15 255 0 $t" run 8 poll write 1 1 poll write 1 2 poll write 1 4 poll
says hand-not-blocked \
    "ok 0 3 2 0 1" "0 1 15 255 0 $t" \
    "no 9 3 2 0 0" "0 1 15 255 0 $t" \
    "ok 0 3 2 0 0" "0 1 14 255 0 $t" \
    "no 9 3 2 0 0" "0 1 14 255 0 $t" \
    "ok 0 3 2 0 0" "0 1 12 255 0 $t" \
    "no 9 3 2 0 0" "0 1 12 255 0 $t" \
    "ok 0 3 2 0 0" "0 1 8 255 0 $t" \
    "no 9 3 2 0 0" "0 1 8 255 0 $t"

# 22 comes before the refusals of the wake: 2, 4 and 9, each with the card off and on. Thread 7 is Ready.
client 7 | asked hand-22-first "2 16 16 0 9 9 9 9 255 9 9 9" \
    run 1 poll write 0 3 poll write 8 0 poll write 0 2 poll write 8 7 poll write 0 1 poll
says hand-22-first \
    "ok 0 - - 0 0" "0 2 16 16 0 9 9 9 9 255 9 9 9" \
    "no 22 - - 0 0" "0 2 16 16 0 9 9 9 9 255 9 9 9" \
    "ok 0 - - 0 0" "0 3 16 16 0 9 9 9 9 255 9 9 9" \
    "no 2 - - 0 0" "0 3 16 16 0 9 9 9 9 255 9 9 9" \
    "ok 0 - - 0 0" "0 3 16 16 0 9 9 9 9 0 9 9 9" \
    "no 4 - - 0 0" "0 3 16 16 0 9 9 9 9 0 9 9 9" \
    "ok 0 - - 0 0" "0 2 16 16 0 9 9 9 9 0 9 9 9" \
    "no 22 - - 0 0" "0 2 16 16 0 9 9 9 9 0 9 9 9" \
    "ok 0 - - 0 0" "0 2 16 16 0 9 9 9 9 7 9 9 9" \
    "no 22 - - 0 0" "0 2 16 16 0 9 9 9 9 7 9 9 9" \
    "ok 0 - - 0 0" "0 1 16 16 0 9 9 9 9 7 9 9 9" \
    "no 9 - - 0 0" "0 1 16 16 0 9 9 9 9 7 9 9 9"
# No line to take: pending and enabled have nothing in common; nothing is enabled; nothing is pending. Every line could wake thread 5, and
# the first that is both does.
t="5 5 5 5 5 5 5 5"
sounder | asked hand-none "1 85 170 0 $t" run 3 poll write 2 0 poll write 2 255 write 1 255 poll raise 7 poll
says hand-none \
    "ok 0 - - 0 0" "0 1 85 170 0 $t" \
    "no 22 - - 0 0" "0 1 85 170 0 $t" \
    "ok 0 - - 0 0" "0 1 85 0 0 $t" \
    "no 22 - - 0 0" "0 1 85 0 0 $t" \
    "ok 0 - - 0 0" "0 1 85 255 0 $t" \
    "ok 0 - - 0 0" "0 1 0 255 0 $t" \
    "no 22 - - 0 0" "0 1 0 255 0 $t" \
    "ok 0 - - 0 0" "0 1 128 255 0 $t" \
    "ok 0 5 3 0 0" "0 1 0 255 0 $t"
# All is 0.
: | asked hand-zeros "0 0 0 0 0 0 0 0 0 0 0 0" poll read 0 run 1 poll
says hand-zeros \
    "no 22 - - 0 0" "0 0 0 0 0 0 0 0 0 0 0 0 0" "ok 0 - - 0 0" "0 0 0 0 0 0 0 0 0 0 0 0 0" \
    "ok 0 - - 0 0" "0 0 0 0 0 0 0 0 0 0 0 0 0" "no 22 - - 0 0" "0 0 0 0 0 0 0 0 0 0 0 0 0"

# Control: bit 0 alone switches the card on; the others are stored, and read.
t="0 1 2 3 9 9 9 9"
crowd 4 | asked hand-control "0 15 255 0 $t" \
    run 12 write 0 254 poll read 0 write 0 129 poll read 0 write 0 2 poll write 0 255 poll write 0 1 poll
says hand-control \
    "ok 0 - - 0 0" "0 0 15 255 0 $t" \
    "ok 0 - - 0 0" "0 254 15 255 0 $t" \
    "no 22 - - 0 0" "0 254 15 255 0 $t" \
    "ok 0 - - 0 0" "254 254 15 255 0 $t" \
    "ok 0 - - 0 0" "0 129 15 255 0 $t" \
    "ok 0 0 100 0 0" "0 129 14 255 0 $t" \
    "ok 0 0 100 0 0" "129 129 14 255 0 $t" \
    "ok 0 0 100 0 0" "0 2 14 255 0 $t" \
    "no 22 0 100 0 0" "0 2 14 255 0 $t" \
    "ok 0 0 100 0 0" "0 255 14 255 0 $t" \
    "ok 0 1 101 0 0" "0 255 12 255 0 $t" \
    "ok 0 1 101 0 0" "0 1 12 255 0 $t" \
    "ok 0 2 102 0 0" "0 1 8 255 0 $t"
# Raises set their bits, with the card off and the lines disabled; one that is set stays set.
t="1 2 3 4 5 6 7 8"
: | asked hand-raises "0 0 0 7 $t" raise 7 raise 0 raise 3 raise 3 raise 6 raise 1 raise 5 raise 2 raise 4 raise 0 read 1
says hand-raises \
    "ok 0 - - 0 0" "0 0 128 0 7 $t" \
    "ok 0 - - 0 0" "0 0 129 0 7 $t" \
    "ok 0 - - 0 0" "0 0 137 0 7 $t" \
    "ok 0 - - 0 0" "0 0 137 0 7 $t" \
    "ok 0 - - 0 0" "0 0 201 0 7 $t" \
    "ok 0 - - 0 0" "0 0 203 0 7 $t" \
    "ok 0 - - 0 0" "0 0 235 0 7 $t" \
    "ok 0 - - 0 0" "0 0 239 0 7 $t" \
    "ok 0 - - 0 0" "0 0 255 0 7 $t" \
    "ok 0 - - 0 0" "0 0 255 0 7 $t" \
    "ok 0 - - 0 0" "255 0 255 0 7 $t"
# Raised with the card off and the line disabled; taken when it is neither.
t="9 9 9 9 5 9 9 9"
sounder | asked hand-raised-off "0 0 0 0 $t" run 3 raise 4 poll write 0 1 poll write 2 16 poll
says hand-raised-off \
    "ok 0 - - 0 0" "0 0 0 0 0 $t" \
    "ok 0 - - 0 0" "0 0 16 0 0 $t" \
    "no 22 - - 0 0" "0 0 16 0 0 $t" \
    "ok 0 - - 0 0" "0 1 16 0 0 $t" \
    "no 22 - - 0 0" "0 1 16 0 0 $t" \
    "ok 0 - - 0 0" "0 1 16 16 0 $t" \
    "ok 0 5 3 0 0" "0 1 0 16 0 $t"
# Lines 1, 3, 5 and 7 are pending. Of 15 bits 1 and 3 count; 0 clears none; 85 has bits of others; 32 is line 5.
t="1 2 3 4 5 6 7 8"
: | asked hand-pending "0 170 0 0 $t" write 1 15 read 1 write 1 0 write 1 85 write 1 32 write 1 255 write 1 255 read 1
says hand-pending \
    "ok 0 - - 0 0" "0 0 160 0 0 $t" \
    "ok 0 - - 0 0" "160 0 160 0 0 $t" \
    "ok 0 - - 0 0" "0 0 160 0 0 $t" \
    "ok 0 - - 0 0" "0 0 160 0 0 $t" \
    "ok 0 - - 0 0" "0 0 128 0 0 $t" \
    "ok 0 - - 0 0" "0 0 0 0 0 $t" \
    "ok 0 - - 0 0" "0 0 0 0 0 $t" \
    "ok 0 - - 0 0" "0 0 0 0 0 $t"
# What is stored, written to byte 1, clears it all.
: | asked hand-pending-stored "1 102 255 0 $t" write 1 102
says hand-pending-stored "ok 0 - - 0 0" "0 1 0 255 0 $t"
# Byte 3 reads 0, whatever is stored there, and is not written, not even with that.
: | asked hand-byte-3 "1 2 3 77 $t" read 3 write 3 77 write 3 0 write 3 255 read 3
says hand-byte-3 \
    "ok 0 - - 0 0" "0 1 2 3 77 $t" "no 21 - - 0 0" "0 1 2 3 77 $t" "no 21 - - 0 0" "0 1 2 3 77 $t" "no 21 - - 0 0" "0 1 2 3 77 $t" \
    "ok 0 - - 0 0" "0 1 2 3 77 $t"
# Each register is read; 12 and above are none.
stored="200 201 202 203 204 205 206 207 208 209 210 211" reads=() lines=()
for ((i = 0; i < 12; i++)); do
    reads+=(read "$i")
    lines+=("ok 0 - - 0 0" "$((i == 3 ? 0 : 200 + i)) $stored")
done
: | asked hand-reads "$stored" "${reads[@]}" read 12 read 13 read 128 read 255
says hand-reads "${lines[@]}" \
    "no 21 - - 0 0" "0 $stored" "no 21 - - 0 0" "0 $stored" "no 21 - - 0 0" "0 $stored" "no 21 - - 0 0" "0 $stored"
# Each register is written, 1 with 170, of which lines 1 and 3 were pending, beside line 0.
: | asked hand-writes "0 11 0 9 0 0 0 0 0 0 0 0" write 0 16 write 1 170 write 2 20 write 3 30 write 4 40 write 5 50 write 6 60 write 7 70 \
    write 8 80 write 9 90 write 10 100 write 11 255 write 12 1 write 13 1 write 128 1 write 255 1 read 11
last="16 1 20 9 40 50 60 70 80 90 100 255"
says hand-writes \
    "ok 0 - - 0 0" "0 16 11 0 9 0 0 0 0 0 0 0 0" \
    "ok 0 - - 0 0" "0 16 1 0 9 0 0 0 0 0 0 0 0" \
    "ok 0 - - 0 0" "0 16 1 20 9 0 0 0 0 0 0 0 0" \
    "no 21 - - 0 0" "0 16 1 20 9 0 0 0 0 0 0 0 0" \
    "ok 0 - - 0 0" "0 16 1 20 9 40 0 0 0 0 0 0 0" \
    "ok 0 - - 0 0" "0 16 1 20 9 40 50 0 0 0 0 0 0" \
    "ok 0 - - 0 0" "0 16 1 20 9 40 50 60 0 0 0 0 0" \
    "ok 0 - - 0 0" "0 16 1 20 9 40 50 60 70 0 0 0 0" \
    "ok 0 - - 0 0" "0 16 1 20 9 40 50 60 70 80 0 0 0" \
    "ok 0 - - 0 0" "0 16 1 20 9 40 50 60 70 80 90 0 0" \
    "ok 0 - - 0 0" "0 16 1 20 9 40 50 60 70 80 90 100 0" \
    "ok 0 - - 0 0" "0 $last" \
    "no 21 - - 0 0" "0 $last" "no 21 - - 0 0" "0 $last" "no 21 - - 0 0" "0 $last" "no 21 - - 0 0" "0 $last" \
    "ok 0 - - 0 0" "255 $last"
# Lines above 7.
: | asked hand-lines "1 0 255 0 $t" raise 8 raise 9 raise 11 raise 12 raise 128 raise 255 raise 7
no="no 21 - - 0 0" lines=()
for i in 8 9 11 12 128 255; do lines+=("$no" "0 1 0 255 0 $t"); done
says hand-lines "${lines[@]}" "ok 0 - - 0 0" "0 1 128 255 0 $t"
# A refusal keeps what runs: server 1, on timeslice 0, count 1.
t="1 9 9 9 9 9 9 9"
{
    client 0; server 1; give 0 0 10 100; call 1
} | asked hand-refused-keeps "1 1 1 8 $t" run 4 read 12 write 3 0 write 255 9 raise 8 poll write 0 0 poll
no="1 0 1 0"
says hand-refused-keeps \
    "ok 0 $no" "0 1 1 1 8 $t" \
    "no 21 $no" "0 1 1 1 8 $t" "no 21 $no" "0 1 1 1 8 $t" "no 21 $no" "0 1 1 1 8 $t" "no 21 $no" "0 1 1 1 8 $t" "no 9 $no" "0 1 1 1 8 $t" \
    "ok 0 $no" "0 0 1 1 8 $t" \
    "no 22 $no" "0 0 1 1 8 $t"

# Blocks that are not of 12 bytes: 20 comes before 21 and 22. Events are run all the same. In the larger ones the first 12 bytes are a good
# block, with line 1 to be taken.
for n in 0 1 11 13 24 255; do
    block=(1 254 255 7)
    for ((i = 4; i < n; i++)); do block+=(5); done
    block=("${block[@]:0:n}")
    line="0${block[*]+ ${block[*]}}" no="no 20 - - 0 0"
    refusals=()
    for i in 1 2 3 4 5 6 7 8 9 10 11; do refusals+=("$no" "$line"); done
    sounder | asked hand-length-$n "${block[*]}" \
        poll run 3 poll read 0 read 3 read 12 read 255 write 0 9 write 1 255 write 3 1 write 12 1 raise 0 raise 8 run 1
    says hand-length-$n "$no" "$line" "ok 0 - - 0 0" "$line" "${refusals[@]}" "ok 0 - - 0 0" "$line"
done
# The same where something runs; the first 12 bytes are a card that is off.
t="5 5 5 5 5 5 5 5 5"
{ client 5; give 3 5 10 100; } | asked hand-length-runs "0 0 255 7 $t" run 2 poll raise 9 op 255 9 9
says hand-length-runs \
    "ok 0 5 3 0 0" "0 0 0 255 7 $t" "no 20 5 3 0 0" "0 0 0 255 7 $t" "no 20 5 3 0 0" "0 0 0 255 7 $t" "ok 0 5 3 0 0" "0 0 0 255 7 $t"

# Runs of none, of some, past the end, and behind it.
{ sounder; wake 5; } | asked hand-runs "9" run 0 run 2 run 0 run 1 run 2 run 255 run 0 run 1
says hand-runs \
    "ok 0 - - 0 0" "0 9" "ok 0 5 3 0 0" "0 9" "ok 0 5 3 0 0" "0 9" "ok 0 - - 0 0" "0 9" \
    "ok 0 5 3 0 0" "0 9" "ok 0 5 3 0 0" "0 9" "ok 0 5 3 0 0" "0 9" "ok 0 5 3 0 0" "0 9"
# A file without events. Events that are left over: thread 5 does not block.
: | asked hand-no-event "9" run 9
says hand-no-event "ok 0 - - 0 0" "0 9"
sounder | asked hand-left-over "9" run 2
says hand-left-over "ok 0 5 3 0 0" "0 9"
# Refused events are run too: a wake (4); behind two others a reply (8); two wakes (9 and 4).
{ wake 5; client 5; give 3 5 10 100; reply; block; wake 5; wake 5; wake 6; block; } | asked hand-refused-events "9" run 1 run 3 run 4 run 1
says hand-refused-events "ok 0 - - 0 0" "0 9" "ok 0 5 3 0 0" "0 9" "ok 0 5 3 0 0" "0 9" "ok 0 - - 0 0" "0 9"

# No command: nothing is printed.
for n in 0 12 255; do
    { bytes $n; head -c $n /dev/zero; bytes 0; sounder | event_file; } >in/hand-no-command-$n
    says_nothing hand-no-command-$n
done
# The file is refused before a command is done, wherever its fault is: a byte too many, the version, an unknown kind, a role, a record cut
# short; with commands that do not come to it, with none, and with a block of 3 bytes.
for n in 3 12 0; do
    case $n in
    3) lent 1 1 1; commands run 3 ;;
    12) lent 1 1 255 0 0 0 0 0 0 0 0 0; commands raise 1 run 1 ;;
    0) lent; commands ;;
    esac >before
    { cat before; sounder | event_file; bytes 0; } >in/hand-14-$n
    { cat before; bytes 0 0 0 2 2 1; } >in/hand-15-$n
    { cat before; { sounder; bytes 1 12; } | event_file; } >in/hand-16-$n
    { cat before; { sounder; bytes 3 1 9 2; } | event_file; } >in/hand-16-role-$n
    { cat before; { sounder; bytes 2 6; } | event_file; } >in/hand-16-cut-$n
    refused hand-14-$n 14
    refused hand-15-$n 15
    refused hand-16-$n 16
    refused hand-16-role-$n 16
    refused hand-16-cut-$n 16
done

# The largest file, 65,536 bytes: the charges are accepted, the gives are refused with 3, the wakes with 4, the reply with 8. With the
# largest block and the most commands, and with none. The 9,793 events are run in 39 commands.
full() { client 0; give 0 0 10 65535; times 1000 3 7 0 1; times 8787 6 2 0 0 10 0 1; }
full_file() { { full; times 3 2 6 9; reply; } | event_file; }
bytes_255=$(printf ' 255%.0s' {1..255})
{ times 257 255; times 255 4 255 0; full_file; } >in/largest
{ for ((i = 1; i <= 255; i++)); do echo "$i ok 0 0 0 0 0"; echo "0$bytes_255"; done; } >hand/largest
{ bytes 0 0; full_file; } >in/largest-file
says_nothing largest-file
# More: bytes that the length field does not count; a file of 65,537 bytes, and one of as many as make the input as large as the largest, or
# larger by one.
for more in 1 100000; do
    { cat in/largest; head -c $more /dev/zero; } >in/largest-and-$more
    { cat in/largest-file; head -c $more /dev/zero; } >in/largest-file-and-$more
    refused largest-and-$more 14
    refused largest-file-and-$more 14
done
{ times 257 255; times 255 4 255 0; { full; times 2 2 6 9; times 3 1 4; } | event_file; } >in/too-large
{ bytes 0 0; { full; times 2 2 6 9; times 3 1 4; } | event_file; } >in/too-large-file
{ bytes 0 0; { full; times 343 2 6 9; reply; } | event_file; } >in/too-large-66558
{ bytes 0 0; { full; times 342 2 6 9; times 3 1 4; } | event_file; } >in/too-large-66559
for f in too-large too-large-file too-large-66558 too-large-66559; do refused $f 14; done

# About the longest answer: five and seven digits of links. 0 calls server 1, which calls 2, and so on to 127; each has a timeslice. When
# 127 calls 1 all chains are loops: 128 timeslices, 128 links each. Its abort follows 128, and 127 in the choice. These two are a pair, of
# 16,639 links.
longest() {
    local i
    client 0
    for ((i = 1; i < 128; i++)); do server $i; done
    give 127 0 255 9
    for ((i = 1; i < 128; i++)); do give $((i - 1)) $i 0 9; done
    for ((i = 1; i < 128; i++)); do call $i; done
    times 433 2 3 1 2 8 127
}
# 383 events before the pairs; then a pair a command, and 61 in each of the last 3. What is left of the file is not run.
{
    times 257 255
    bytes 4 255 0 4 128 0
    times 250 4 2 0
    times 3 255 122 0
    { longest; times 15286 3 1 0 0; } | event_file
} >in/longest
{
    printf '%s\n' "1 ok 0 0 127 0 0" "0$bytes_255" "2 ok 0 127 127 127 0" "0$bytes_255"
    for ((i = 3; i <= 255; i++)); do echo "$i ok 0 127 127 127 $((16639 * (i < 253 ? 1 : 61)))"; echo "0$bytes_255"; done
} >hand/longest
for f in largest longest; do
    size=$(stat -c %s in/$f)
    [ "$size" -eq 66558 ] || { echo "$f has $size bytes, not 66,558"; exit 1; }
done

# Inputs of up to 9 bytes; and all that hand-take begins with.
for ((n = 0; n < 10; n++)); do
    head -c $n /dev/zero >in/zeros-$n
    refused zeros-$n 14
done
size=$(stat -c %s in/hand-take)
for ((n = 1; n < size; n++)); do
    head -c $n in/hand-take >in/first-$n
    refused first-$n 14
done

wait $compiler
trap 'rm -rf "$work"' EXIT
./card.run -n "$seed" "$count" in
by_hand=$((3 + 5 + 3 + 16 + 10 + 3 + 10 + 7 + 4 + 3 + 15 + 2 + 4 + 4 + 1 + 10 + 43))
[ "$(find hand -type f | wc -l)" -eq $by_hand ] || { echo "there are not $by_hand answers by hand"; exit 1; }
[ "$(find in -type f | wc -l)" -eq $((count + by_hand)) ] || { echo "there are not $((count + by_hand)) inputs"; exit 1; }

# The answers of the outside program. A case that no input brings about is compared with nothing.
find in -type f -print0 | sort -z | xargs -0 ./card.run -o want
for f in hand/*; do
    f=${f#hand/}
    cmp -s "hand/$f" "want/$f" || { echo "$f: the outside program differs from what was worked out by hand"; exit 1; }
done
./card.run -c in want >cases || [ "$count" -lt $whole ] || { grep "^it never" cases; tail -n 1 cases; exit 1; }
grep "^it never" cases || true
tail -n 1 cases

# Shows the two answers; keeps the input.
differ() { # NAME
    local kept
    kept=$(mktemp "${TMPDIR:-/tmp}/differs.XXXXXX")
    cp "in/$1" "$kept"
    echo "$1$pieces (seed $seed) differs; the input, a block, commands and a file, is kept as $kept"
    diff -u --label "$1, by oracle/card.rs" --label "$1, by card" "want/$1" "got/$1" | head -n 60 || true
    exit 1
}
pieces=
try() { # NAME, with its input on standard input
    key_to "got/$1" && cmp -s "got/$1" "want/$1" || differ "$1"
}
# Those with an answer by hand first: a difference is easiest to see there.
names=(hand/*)
for f in in/*; do [ -e "hand/${f#in/}" ] || names+=("$f"); done
names=("${names[@]#*/}")
total=${#names[@]}
compared=0
for f in "${names[@]}"; do
    if [ $SECONDS -ge "$limit" ]; then
        echo "$compared of $total inputs compared by card, 0 differ, but no time left after $SECONDS s"
        exit 2
    fi
    try "$f" <"in/$f"
    compared=$((compared + 1))
done

# Standard input may come in pieces: the length and half a block, up to the middle of a command, up to the middle of the file's head, the
# rest.
pieces=", in pieces,"
for f in largest largest-and-1 hand-take first-20; do
    try "$f" < <(
        head -c 7 "in/$f"; sleep 0.05; head -c 19 "in/$f" | tail -c +8; sleep 0.05; head -c 28 "in/$f" | tail -c +20; sleep 0.05
        tail -c +29 "in/$f"
    )
done
echo "$compared inputs compared by card, 0 differ"
