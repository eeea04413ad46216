#!/usr/bin/env bash
# cards.sh KEY_PROGRAM [NAME...]
#
# Runs the program card, which stands beside KEY_PROGRAM, on each card list in cards/ and compares with the answers worked out by hand.
# NAME.card has the block and the commands in words, NAME.events the events of the file, NAME.answers what card prints. Each list is run
# twice: with 0 for the bytes that are ignored and 4 for a run, and with 255 for them and 5 and above for a run. Without a NAME, some
# inputs that no list stands for are run too.
# NAME.md is the page with the working; what it shows stands between backticks. Its first table has the events in the order in which they
# happen: those of NAME.events, with the number of the command that runs each, or `-` if none does; and the wakes of the polls that have a
# line to take, with `poll` and the command's number. KEY_PROGRAM prints their key. Its second table has the lines of NAME.card and
# NAME.answers. By the first, each command's key line there has the thread, the timeslice and the count after its last event, or after the
# command before it, the links of its events in all, and for a poll the answer of its wake; which thread that wakes, the block before says.
# Every list has its events, its answers and its page, and each of these its list.
set -euo pipefail
export LC_ALL=C
[ $# -ge 1 ] || { echo "cards.sh KEY_PROGRAM [NAME...]" >&2; exit 2; }
here=$(dirname "$(readlink -f "${BASH_SOURCE[0]}")")
program=$(realpath -e "$1")
shift
. "$here/program.sh"
work=$(mktemp -d)
trap 'rm -rf "$work"' EXIT
card=$(realpath -e "$(dirname "$program")/card")
encoder=$(realpath -e "$(dirname "$program")/list_to_file")
cd "$here/cards"
bad=0 right=0 asked=0 answered=0 inputs=0 kept=0 all=
if [ $# -eq 0 ]; then
    shopt -s nullglob
    lists=(*.card) others=(*.events *.answers *.md) all=1
    [ ${#lists[@]} -gt 0 ] || { echo "there is no card list in $PWD"; exit 1; }
    for other in "${others[@]}"; do
        [ -f "${other%.*}.card" ] || { echo "$other: there is no such list"; bad=$((bad + 1)); }
    done
    set -- "${lists[@]%.card}"
fi

plain_lines() { sed 's/#.*//; s/[ \t]\{1,\}/ /g; s/^ //; s/ $//; /^$/d' "$1"; } # FILE

# Whether the lines are a block and commands with numbers that a byte holds.
has_commands() { # NAME LINES
    awk '
        { for (k = 2; k <= NF; k++) if ($k !~ /^[0-9]+$/ || length($k) > 3 || $k + 0 > 255 || $k ~ /^0./) bad = 1 }
        NR == 1 { if ($1 != "block" || NF > 256) bad = 1; next }
        !($1 ~ /^(read|raise|run)$/ && NF == 2 || $1 == "write" && NF == 3 || $1 == "poll" && NF == 1) { bad = 1 }
        END { exit bad || NR < 1 || NR > 256 }' "$2" || { echo "$1.card: not a block and up to 255 commands"; return 1; }
}

# What the program reads before the file, as printf's %b does.
input_of() { # LINES IGNORED
    awk -v commands=$(($(wc -l <"$1") - 1)) -v ignored="$2" '
        function byte(number) { printf "\\0%03o", number }
        function command(op, a, b) { byte(op); byte(a); byte(b) }
        NR == 1 { byte(NF - 1); for (k = 2; k <= NF; k++) byte($k); byte(commands) }
        $1 == "read" { command(0, $2, ignored) }
        $1 == "write" { command(1, $2, $3) }
        $1 == "raise" { command(2, $2, ignored) }
        $1 == "poll" { command(3, ignored, ignored) }
        $1 == "run" { command(ignored ? 5 + NR * 50 % 251 : 4, $2, ignored) }' "$1"
}

# The event file of a list in words.
file_of() { # LIST FILE
    timeout -k 1 10 "$encoder" <"$1" >"$2" 2>"$work/said" && [ ! -s "$work/said" ] ||
        { echo "$1: list_to_file did not end well: $(cat "$work/said")"; return 1; }
}

# One list against its answers.
agrees() { # NAME
    local ignored
    [ -f "$1.card" ] && [ -f "$1.events" ] && [ -s "$1.answers" ] && [ -f "$1.md" ] ||
        { echo "$1: not all of .card, .events, .answers and .md are there"; return 1; }
    plain_lines "$1.card" >"$work/lines"
    has_commands "$1" "$work/lines" && file_of "$1.events" "$work/file" || return 1
    asked=$((asked + $(wc -l <"$work/lines") - 1))
    for ignored in 0 255; do
        { printf %b "$(input_of "$work/lines" $ignored)"; cat "$work/file"; } >"$work/input"
        key_to "$work/printed.$ignored" "$card" <"$work/input" || { echo "$1: no answers"; return 1; }
    done
    answered=$((answered + $(awk 'NR == FNR { wanted[NR] = $0; next } { same = (FNR % 2 || same) && $0 == wanted[FNR] }
        FNR % 2 == 0 && same { both += 1 } END { print both + 0 }' "$1.answers" "$work/printed.0")))
    diff -u --label "$1, by hand" --label "$1, printed" "$1.answers" "$work/printed.0" &&
        diff -u --label "$1, printed" --label "$1, printed with 255 where a byte is ignored" "$work/printed.0" "$work/printed.255"
}

# What the page of one list shows, against its three files and the key of the events as they happen.
shown() { # NAME
    local part
    for part in list key events commands answers; do : >"$work/$part"; done
    awk -F'|' -v folder="$work/" '
        function fault(sentence) { print FILENAME ", line " FNR ": " sentence; bad = 1 }
        function quoted(cell) { # with nothing beside the backticks
            if (cell !~ /^ `[^`]+` $/) fault("not between backticks:" cell)
            return substr(cell, 3, length(cell) - 4)
        }
        function event(    by, columns) {
            if ($4 == " - ") {
                if ($2 != " - " || $6 != " ") fault("an event that is not run has no number and no key line")
                print quoted($3) > (folder "events")
                left = 1
                return
            }
            rows += 1
            if ($2 != " " rows " ") fault("event " rows " has the number" $2)
            by = $4
            polled = sub(/^ poll /, " ", by)
            if (by !~ /^ [1-9][0-9]* $/ || by + 0 < last) { fault("run by no command, or by one before:" $4); return }
            last = by + 0
            print quoted($3) > (folder "list")
            print quoted($6) > (folder "key")
            split(quoted($6), columns, " ")
            after[last] = columns[4] " " columns[5] " " columns[6]
            links[last] += columns[7]
            if (polled) {
                if (last in wake) fault("a second wake of one poll")
                wake[last] = quoted($3)
                answer[last] = columns[2] " " columns[3]
                return
            }
            if (left) fault("run behind one that is not")
            print quoted($3) > (folder "events")
            runs[last] += 1
            events += 1
        }
        # by the block before the command; none if it is not 12 bytes
        function wake_due(    line) {
            for (line = 0; bytes == 12 && line < 8; line++)
                if (held[1] % 2 && int(held[2] / 2 ^ line) % 2 && int(held[3] / 2 ^ line) % 2) return "wake " held[5 + line]
            return ""
        }
        function command(    words, n, columns, wanted, due) {
            print quoted($3) > (folder "commands")
            n = split(quoted($3), words, " ")
            if (words[1] == "block") {
                if (count || $2 != " " || $5 != " " || $6 != " ") fault("the block has no number and no answer, and comes first")
                bytes = n - 1
                for (n = 1; n <= bytes; n++) held[n] = words[n + 1]
                return
            }
            count += 1
            if ($2 != " " count " ") fault("command " count " has the number" $2)
            print quoted($5) "\n" quoted($6) > (folder "answers")
            split(quoted($5), columns, " ")
            wanted = columns[2] " " columns[3]
            taken += runs[count]
            due = words[1] == "poll" ? wake_due() : ""
            if (wake[count] != due) fault("by the block before it, its wake would be: " (due == "" ? "none" : due))
            if (words[1] == "run") {
                wanted = "ok 0"
                if (runs[count] > words[2]) fault("more events than it runs")
                if (runs[count] < words[2] && (taken < events || left)) fault("fewer events than it runs")
            } else if (runs[count]) fault("it runs no event")
            else if (due != "") wanted = answer[count]
            else if (words[1] == "poll") wanted = bytes == 12 ? "no 22" : "no 20"
            else if (wanted !~ /^(ok 0|no 2[01])$/) fault("it cannot have this answer")
            if (count in after) state = after[count]
            wanted = count " " wanted " " state " " links[count] + 0
            if (quoted($5) != wanted) fault("by the events it would be " wanted)
            if (split(quoted($6), columns, " ") != bytes + 1) fault("not a byte read and " bytes " bytes of the block")
            for (n = 1; n <= bytes; n++) held[n] = columns[n + 1]
        }
        BEGIN { state = "- - 0" }
        !/^\|/ { kind = ""; next }
        /^\|---/ { next }
        kind == "" { kind = $3 == " event " && $4 == " command " ? "event" : $3 == " command " ? "command" : "other"; next }
        kind == "other" { next }
        NF != 7 { fault("not five columns"); next }
        kind == "event" { if (count) fault("an event behind the commands"); event(); next }
        { command() }
        END { if (last > count) fault("there is no command " last); exit bad }' "$1.md" || return 1
    plain_lines "$1.card" >"$work/lines"
    plain_lines "$1.events" >"$work/words"
    diff -u --label "$1.card" --label "$1.md, commands" "$work/lines" "$work/commands" &&
        diff -u --label "$1.events" --label "$1.md, events" "$work/words" "$work/events" &&
        diff -u --label "$1.answers" --label "$1.md, answers" "$1.answers" "$work/answers" || return 1
    file_of "$work/list" "$work/file" && key_to "$work/printed" <"$work/file" || { echo "$1: no key"; return 1; }
    diff -u --label "$1.md, key lines" --label "the key of its events" "$work/key" "$work/printed"
}
for name in "$@"; do
    if agrees "$name" && shown "$name"; then right=$((right + 1)); else bad=$((bad + 1)); fi
done

# Standard input to the program, and what it prints.
prints() { # WHAT LINES
    inputs=$((inputs + 1))
    cat >"$work/input"
    if key_to "$work/printed" "$card" <"$work/input" &&
        printf %b "$2" | diff -u --label "$1, by hand" --label "$1, printed" - "$work/printed"; then
        kept=$((kept + 1))
    else
        bad=$((bad + 1))
    fi
}
# 255 bytes of block, 255 commands and a file of 65,536 bytes: a call and 32,764 replies, each refused.
longest() {
    printf '\377'
    head -c 255 /dev/zero
    printf '\377'
    printf '\4\377\0%.0s' {1..255}
    printf '\0\0\377\374\1\2\3\0'
    printf '\1\4%.0s' {1..32764}
}
# shellcheck disable=SC2059 # bytes as printf's format has them
if [ -n "$all" ]; then
    eleven='\1\0\377\0\0\0\0\0\0\0\0' none='\0\0\0\1\1' zeros=$(printf ' 0%.0s' {1..255})
    prints "nothing" 'file 14\n' </dev/null
    prints "a block cut short" 'file 14\n' < <(printf "\14$eleven")
    prints "no number of commands" 'file 14\n' < <(printf "\14$eleven\0")
    prints "a command cut short" 'file 14\n' < <(printf "\14$eleven\0\1\0\0")
    prints "the second command cut short" 'file 14\n' < <(printf "\14$eleven\0\2\0\0\0\3\0")
    prints "no file" 'file 14\n' < <(printf "\14$eleven\0\1\0\0\0")
    prints "no byte, no command and no file" 'file 14\n' < <(printf '\0\0')
    prints "no byte, no command, a file without records" '' < <(printf "\0\0$none")
    prints "no command" '' < <(printf "\14$eleven\0\0"; cat ../../samples/k1)
    prints "a byte too many" 'file 14\n' < <(printf "\14$eleven\0\1\0\0\0$none\0")
    prints "version 2" 'file 15\n' < <(printf "\14$eleven\0\1\0\0\0\0\0\0\1\2")
    prints "a bad record behind a good one, and a run before it" 'file 16\n' \
        < <(printf "\14$eleven\0\1\4\1\0\0\0\0\11\1\3\1\0\0\3\1\0\2")
    prints "a bad file and a bad block" 'file 16\n' < <(printf '\1\0\1\0\0\0\0\0\0\2\1\1')
    prints "the longest input" "$(printf "%s ok 0 - - 0 0\\\\n0$zeros\\\\n" {1..255})" < <(longest)
    prints "a byte more" 'file 14\n' < <(longest; printf '\1')
fi
echo "$right of $# card lists, $answered of their $asked commands and $kept of $inputs other inputs are right, by card, $bad differ"
[ $bad -eq 0 ]
