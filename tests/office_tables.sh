#!/usr/bin/env bash
# office_tables.sh KEY_PROGRAM [NAME...]
#
# Runs the program ranking, which stands beside KEY_PROGRAM, on each ranking table in office_tables/ and compares with the answers worked
# out by hand. NAME.table has the rows in words, `first last priority`; a line of NAME.answers has the interval looked up and behind it the
# line that ranking prints for it. NAME.md is the page with the working. It shows, between backticks, the rows of NAME.table in a column
# `row`, and the lines of NAME.answers in columns `interval` and `answer`.
# Every table has its answers and its page, and each of these its table.
set -euo pipefail
export LC_ALL=C
[ $# -ge 1 ] || { echo "office_tables.sh KEY_PROGRAM [NAME...]" >&2; exit 2; }
here=$(dirname "$(readlink -f "${BASH_SOURCE[0]}")")
program=$(realpath -e "$1")
shift
. "$here/program.sh"
work=$(mktemp -d)
trap 'rm -rf "$work"' EXIT
ranking=$(realpath -e "$(dirname "$program")/ranking")
cd "$here/office_tables"
bad=0 right=0 asked=0 answered=0
if [ $# -eq 0 ]; then
    shopt -s nullglob
    tables=(*.table) others=(*.answers *.md)
    [ ${#tables[@]} -gt 0 ] || { echo "there is no table in $PWD"; exit 1; }
    for other in "${others[@]}"; do
        [ -f "${other%.*}.table" ] || { echo "$other: there is no such table"; bad=$((bad + 1)); }
    done
    set -- "${tables[@]%.table}"
fi

# Whether each line of a file has so many plain numbers up to 65,535, with single spaces, and a line feed.
has_numbers() { # FILE HOW_MANY
    awk -v many="$2" '
        NF != many || /^ | $|  |[^0-9 ]/ { bad = 1 }
        { for (k = 1; k <= NF; k++) if (length($k) > 5 || $k + 0 > 65535 || $k ~ /^0./) bad = 1 }
        END { exit bad }' "$1" && [ -z "$(tail -c 1 "$1")" ] || { echo "$1: not $2 plain numbers in each line"; return 1; }
}

# What the program reads, as printf's %b does: the number of rows, the rows, the intervals.
input_of() { # NAME
    awk -v rows="$(wc -l <"$1.table")" '
        function byte(number) { printf "\\0%03o", number }
        function two(number) { byte(int(number / 256)); byte(number % 256) }
        BEGIN { byte(rows) }
        FILENAME ~ /table$/ { two($1); two($2); byte($3); next }
        { two($1) }' "$1.table" "$1.answers"
}

# One table against its answers.
agrees() { # NAME
    local rows
    [ -f "$1.table" ] && [ -s "$1.answers" ] && [ -f "$1.md" ] || { echo "$1: not all of .table, .answers and .md are there"; return 1; }
    asked=$((asked + $(wc -l <"$1.answers")))
    has_numbers "$1.table" 3 && has_numbers "$1.answers" 4 || return 1
    rows=$(wc -l <"$1.table")
    [ "$rows" -le 255 ] && awk '$3 > 255 { exit 1 }' "$1.table" ||
        { echo "$1.table: more than a byte holds: a priority, or $rows rows"; return 1; }
    printf %b "$(input_of "$1")" >"$work/input"
    key_to "$work/printed" "$ranking" <"$work/input" || { echo "$1: no answers"; return 1; }
    # beside each line printed its interval, so that a difference shows it
    cut -d ' ' -f 1 "$1.answers" | paste -d ' ' - "$work/printed" >"$work/answers"
    answered=$((answered + $(awk 'NR == FNR { wanted[NR] = $0; next } $0 == wanted[FNR] { same += 1 } END { print same + 0 }' \
        "$1.answers" "$work/answers")))
    diff -u --label "$1, by hand" --label "$1, printed" "$1.answers" "$work/answers"
}

# What the page of one table shows, against its two files.
shown() { # NAME
    : >"$work/rows"
    : >"$work/lines"
    awk -F'|' -v rows="$work/rows" -v lines="$work/lines" '
        function fault(sentence) { print FILENAME ", line " FNR ": " sentence; bad = 1 }
        function quoted(cell) { # between backticks, with nothing beside them
            if (cell !~ /^ `[0-9 ]+` $/) fault("no numbers between backticks:" cell)
            return substr(cell, 3, length(cell) - 4)
        }
        !/^\|/ { kind = ""; next }
        /^\|---/ { next }
        kind == "" { kind = $3 == " row " ? "row" : $2 == " interval " && $4 == " answer " ? "answer" : "other"; next }
        kind == "other" { next }
        NF != 5 { fault("not three columns"); next }
        kind == "row" { count += 1; if ($2 + 0 != count) fault("row " count " has the number" $2); print quoted($3) > rows; next }
        { print quoted($2) " " quoted($4) > lines }
        END { exit bad }' "$1.md" || return 1
    diff -u --label "$1.table" --label "$1.md, rows" "$1.table" "$work/rows" &&
        diff -u --label "$1.answers" --label "$1.md, answers" "$1.answers" "$work/lines"
}
for name in "$@"; do
    if agrees "$name" && shown "$name"; then right=$((right + 1)); else bad=$((bad + 1)); fi
done
echo "$right of $# ranking tables and $answered of their $asked answers are right, by ranking, $bad differ"
[ $bad -eq 0 ]
