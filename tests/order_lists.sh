#!/usr/bin/env bash
# order_lists.sh KEY_PROGRAM [NAME...]
#
# Runs the program orders, which stands beside KEY_PROGRAM, on each order list in order_lists/ and compares with the answers worked out by
# hand. NAME.orders has the commands in words, NAME.events the events of the file, NAME.answers what orders prints. Each list is run twice:
# with 0 for the bytes that are ignored and 3 for a run, and with 255 for them and 4 and above for a run. Without a NAME, some inputs that
# no list stands for are run too.
# NAME.md is the page with the working; what it shows stands between backticks. Its first table has the events in the order in which they
# happen: those of NAME.events, with the number of the command that runs each, or `-` if none does; and the aborts of the takes, with `take`
# and the command's number. KEY_PROGRAM prints their key. Its second table has the lines of NAME.orders and NAME.answers. By the first, each
# command there has the thread, the timeslice and the count after its last event, or after the command before it; a run has the links of
# its events in all, and a take the number of its aborts that are refused; which aborts these are, and in which order, say the orders that
# were accepted before.
# Every list has its events, its answers and its page, and each of these its list.
set -euo pipefail
export LC_ALL=C
[ $# -ge 1 ] || { echo "order_lists.sh KEY_PROGRAM [NAME...]" >&2; exit 2; }
here=$(dirname "$(readlink -f "${BASH_SOURCE[0]}")")
program=$(realpath -e "$1")
shift
. "$here/program.sh"
work=$(mktemp -d)
trap 'rm -rf "$work"' EXIT
orders=$(realpath -e "$(dirname "$program")/orders")
encoder=$(realpath -e "$(dirname "$program")/list_to_file")
cd "$here/order_lists"
bad=0 right=0 asked=0 answered=0 inputs=0 kept=0 all=
if [ $# -eq 0 ]; then
    shopt -s nullglob
    lists=(*.orders) others=(*.events *.answers *.md) all=1
    [ ${#lists[@]} -gt 0 ] || { echo "there is no order list in $PWD"; exit 1; }
    for other in "${others[@]}"; do
        [ -f "${other%.*}.orders" ] || { echo "$other: there is no such list"; bad=$((bad + 1)); }
    done
    set -- "${lists[@]%.orders}"
fi

plain_lines() { sed 's/#.*//; s/[ \t]\{1,\}/ /g; s/^ //; s/ $//; /^$/d' "$1"; } # FILE

# Whether the lines are commands with a thread or number of events that a byte holds, and an order number that four bytes hold.
has_commands() { # NAME LINES
    awk '
        function number(word, most) { return word ~ /^(0|[1-9][0-9]*)$/ && length(word) <= 10 && word + 0 <= most }
        $1 ~ /^(abort|withdraw)$/ && NF == 3 && number($2, 255) && number($3, 4294967295) { next }
        $1 == "take" && NF == 1 { next }
        $1 == "run" && NF == 2 && number($2, 255) { next }
        { bad = 1 }
        END { exit bad || NR > 255 }' "$2" || { echo "$1.orders: not up to 255 commands"; return 1; }
}

# What the program reads before the file, as printf's %b does.
input_of() { # LINES IGNORED
    awk -v commands="$(wc -l <"$1")" -v ignored="$2" '
        function byte(number) { printf "\\0%03o", number % 256 }
        function command(op, thread, number,    k) {
            byte(op)
            byte(thread)
            for (k = 3; k >= 0; k--) byte(int(number / 256 ^ k))
        }
        BEGIN { others = ignored * (256 ^ 3 + 256 ^ 2 + 256 + 1); byte(commands) }
        $1 == "abort" { command(0, $2, $3) }
        $1 == "withdraw" { command(1, $2, $3) }
        $1 == "take" { command(2, ignored, others) }
        $1 == "run" { command(ignored ? 4 + NR * 50 % 252 : 3, $2, others) }' "$1"
}

# The event file of a list in words.
file_of() { # LIST FILE
    timeout -k 1 10 "$encoder" <"$1" >"$2" 2>"$work/said" && [ ! -s "$work/said" ] ||
        { echo "$1: list_to_file did not end well: $(cat "$work/said")"; return 1; }
}

# One list against its answers.
agrees() { # NAME
    local ignored
    [ -f "$1.orders" ] && [ -f "$1.events" ] && [ -f "$1.answers" ] && [ -f "$1.md" ] ||
        { echo "$1: not all of .orders, .events, .answers and .md are there"; return 1; }
    plain_lines "$1.orders" >"$work/lines"
    has_commands "$1" "$work/lines" && file_of "$1.events" "$work/file" || return 1
    asked=$((asked + $(wc -l <"$work/lines")))
    for ignored in 0 255; do
        { printf %b "$(input_of "$work/lines" $ignored)"; cat "$work/file"; } >"$work/input"
        key_to "$work/printed.$ignored" "$orders" <"$work/input" || { echo "$1: no answers"; return 1; }
    done
    answered=$((answered + $(awk -v answers="$1.answers" 'BEGIN { while ((getline line < answers) > 0) wanted[++n] = line }
        $0 == wanted[NR] { same += 1 } END { print same + 0 }' "$work/printed.0")))
    diff -u --label "$1, by hand" --label "$1, printed" "$1.answers" "$work/printed.0" &&
        diff -u --label "$1, printed" --label "$1, printed with 255 where a byte is ignored" "$work/printed.0" "$work/printed.255"
}

# What the page of one list shows, against its three files and the key of the events as they happen.
shown() { # NAME
    local part
    for part in list key events commands answers; do : >"$work/$part"; done
    awk -F'|' -v folder="$work/" '
        function fault(sentence) { print FILENAME ", line " FNR ": " sentence; bad = 1 }
        function quoted(cell) { # with nothing beside the backticks
            if (cell !~ /^ `[^`]+` $/) fault("not between backticks:" cell)
            return substr(cell, 3, length(cell) - 4)
        }
        function event(    by, columns) {
            if ($4 == " - ") {
                if ($2 != " - " || $6 != " ") fault("an event that is not run has no number and no key line")
                print quoted($3) > (folder "events")
                left = 1
                return
            }
            rows += 1
            if ($2 != " " rows " ") fault("event " rows " has the number" $2)
            by = $4
            taken = sub(/^ take /, " ", by)
            if (by !~ /^ [1-9][0-9]* $/ || by + 0 < last) { fault("run by no command, or by one before:" $4); return }
            last = by + 0
            print quoted($3) > (folder "list")
            print quoted($6) > (folder "key")
            split(quoted($6), columns, " ")
            after[last] = columns[4] " " columns[5] " " columns[6]
            links[last] += columns[7]
            if (taken) {
                aborts[last] = aborts[last] ", " quoted($3)
                refused[last] += columns[2] == "no"
                return
            }
            if (left) fault("run behind one that is not")
            print quoted($3) > (folder "events")
            runs[last] += 1
            events += 1
        }
        # by the orders accepted before: from the smallest number up, of equal ones the smaller thread first; clears the store
        function aborts_due(    due, thread, next_one) {
            due = ""
            for (;;) {
                next_one = ""
                for (thread = 0; thread < 256; thread++)
                    if (kind_held[thread] == "abort" && (next_one == "" || number_held[thread] < number_held[next_one])) next_one = thread
                if (next_one == "") break
                due = due ", abort " next_one
                kind_held[next_one] = ""
            }
            for (thread = 0; thread < 256; thread++) kind_held[thread] = ""
            return due
        }
        function command(    words, columns, wanted, due, figure) {
            print quoted($3) > (folder "commands")
            split(quoted($3), words, " ")
            count += 1
            if ($2 != " " count " ") fault("command " count " has the number" $2)
            print quoted($5) > (folder "answers")
            split(quoted($5), columns, " ")
            wanted = "ok 0"
            figure = 0
            begun += runs[count]
            due = words[1] == "take" ? aborts_due() : ""
            if (aborts[count] != due) fault("by the orders before it, its aborts would be: " (due == "" ? "none" : substr(due, 3)))
            if (words[1] == "take") figure = refused[count] + 0
            if (words[1] == "run") {
                figure = links[count] + 0
                if (runs[count] > words[2]) fault("more events than it runs")
                if (runs[count] < words[2] && (begun < events || left)) fault("fewer events than it runs")
            } else if (runs[count]) fault("it runs no event")
            if (words[1] ~ /^(abort|withdraw)$/) {
                if (columns[2] " " columns[3] ~ /^no (2|27)$/) wanted = columns[2] " " columns[3]
                else { kind_held[words[2] + 0] = words[1]; number_held[words[2] + 0] = words[3] + 0 }
            }
            if (count in after) state = after[count]
            wanted = count " " wanted " " state " " figure
            if (quoted($5) != wanted) fault("by the events it would be " wanted)
        }
        BEGIN { state = "- - 0" }
        !/^\|/ { kind = ""; next }
        /^\|---/ { next }
        kind == "" { kind = $3 == " event " && $4 == " command " ? "event" : $3 == " command " ? "command" : "other"; next }
        kind == "event" && NF != 7 { fault("not five columns"); next }
        kind == "event" { if (count) fault("an event behind the commands"); event() }
        kind == "command" && NF != 6 { fault("not four columns"); next }
        kind == "command" { command() }
        END { if (last > count) fault("there is no command " last); exit bad }' "$1.md" || return 1
    plain_lines "$1.orders" >"$work/lines"
    plain_lines "$1.events" >"$work/words"
    diff -u --label "$1.orders" --label "$1.md, commands" "$work/lines" "$work/commands" &&
        diff -u --label "$1.events" --label "$1.md, events" "$work/words" "$work/events" &&
        diff -u --label "$1.answers" --label "$1.md, answers" "$1.answers" "$work/answers" || return 1
    file_of "$work/list" "$work/file" && key_to "$work/printed" <"$work/file" || { echo "$1: no key"; return 1; }
    diff -u --label "$1.md, key lines" --label "the key of its events" "$work/key" "$work/printed"
}
for name in "$@"; do
    if agrees "$name" && shown "$name"; then right=$((right + 1)); else bad=$((bad + 1)); fi
done

# Standard input to the program, and what it prints.
prints() { # WHAT LINES
    inputs=$((inputs + 1))
    cat >"$work/input"
    if key_to "$work/printed" "$orders" <"$work/input" &&
        printf %b "$2" | diff -u --label "$1, by hand" --label "$1, printed" - "$work/printed"; then
        kept=$((kept + 1))
    else
        bad=$((bad + 1))
    fi
}
# 255 commands and a file of 65,536 bytes: a call and 32,764 replies, each refused.
longest() {
    printf '\377'
    printf '\3\377\0\0\0\0%.0s' {1..255}
    printf '\0\0\377\374\1\2\3\0'
    printf '\1\4%.0s' {1..32764}
}
# An order for each thread, all with number 7, a take, and a second one.
every_thread() {
    printf %b '\0202' "$(printf '\\0000\\0%03o\\0000\\0000\\0000\\0007' {0..127})"
    printf '\2\0\0\0\0\0\2\0\0\0\0\0\0\0\0\1\1'
}
# shellcheck disable=SC2059 # bytes as printf's format has them
if [ -n "$all" ]; then
    none='\0\0\0\1\1' take='\2\0\0\0\0\0' high='\0\200\0\0\0\1'
    prints "nothing" 'file 14\n' </dev/null
    prints "a command cut short" 'file 14\n' < <(printf '\1\2\0\0\0\0')
    prints "the second command cut short" 'file 14\n' < <(printf "\2$take\2\0\0\0\0")
    prints "no second command, but a file" 'file 14\n' < <(printf "\2$take$none")
    prints "no file" 'file 14\n' < <(printf "\1$take")
    prints "three bytes of a file" 'file 14\n' < <(printf "\1$take\0\0\0")
    prints "no command and no file" 'file 14\n' < <(printf '\0')
    prints "no command, a file without records" '' < <(printf "\0$none")
    prints "no command, a file with records" '' < <(printf '\0'; cat ../../samples/k1)
    prints "no command, a bad file" 'file 16\n' < <(printf '\0\0\0\0\2\1\1')
    prints "a byte too many" 'file 14\n' < <(printf "\1$take$none\0")
    prints "version 2" 'file 15\n' < <(printf "\1$take\0\0\0\1\2")
    prints "a bad record behind a good one, and a run before it" 'file 16\n' < <(printf '\1\3\1\0\0\0\0\0\0\0\11\1\3\1\0\0\3\1\0\2')
    prints "an order that is refused" '1 no 2 - - 0 0\n' < <(printf "\1$high$none")
    prints "the same, and a bad file" 'file 16\n' < <(printf "\1$high\0\0\0\2\1\1")
    prints "an order for each thread" "$(printf '%s ok 0 - - 0 0\\n' {1..128})129 ok 0 - - 0 128\n130 ok 0 - - 0 0\n" < <(every_thread)
    prints "the longest input" "$(printf '%s ok 0 - - 0 0\\n' {1..255})" < <(longest)
    prints "a byte more" 'file 14\n' < <(longest; printf '\1')
fi
echo "$right of $# order lists, $answered of their $asked commands and $kept of $inputs other inputs are right, by orders, $bad differ"
[ $bad -eq 0 ]
