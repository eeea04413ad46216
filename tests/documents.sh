#!/usr/bin/env bash
# documents.sh KEY_PROGRAM
#
# What the documents show is what KEY_PROGRAM prints: README's worked example is the key of samples/bridge, the examples in docs/FORMAT.md
# print the keys below them, samples/k1 is K1, and each table in sequences/NAME.md has the events of NAME.events and the lines of NAME.key.
# Under its headings 'Reason after event N' stand, between backticks and in order, the lines of NAME.reason, but for those too long to show;
# under its heading 'Shares' likewise all lines of NAME.shares, none if it is empty; under its headings 'Shortened, number N' those of the
# blocks of NAME.shorter.
set -euo pipefail
export LC_ALL=C
[ $# -eq 1 ] || { echo "documents.sh KEY_PROGRAM" >&2; exit 2; }
here=$(dirname "$(readlink -f "${BASH_SOURCE[0]}")")
program=$(realpath -e "$1")
. "$here/program.sh"
work=$(mktemp -d)
trap 'rm -rf "$work"' EXIT
rustc --edition 2021 -O -o "$work/encode" "$here/oracle/encode.rs"
cd "$here/.."
bad=0

# Counts a difference between two files; the first must not be empty.
same() { # NAME OTHER FILE OTHER_FILE
    if [ ! -s "$3" ]; then
        echo "$1: nothing found"
    elif diff -u --label "$1" --label "$2" "$3" "$4"; then
        return 0
    fi
    bad=$((bad + 1))
}

# README: seven columns, then the reason.
sed -n '/^## A worked example/,/^## Who/p' README.md |
    awk '/^    [0-9]+ (ok|no) / { print $1, $2, $3, $4, $5, $6, $7 }' >"$work/shown"
if key_to "$work/key" <samples/bridge; then same README.md "the key of samples/bridge" "$work/shown" "$work/key"; else bad=$((bad + 1)); fi

"$work/encode" <tests/sequences/marked-k1.events >"$work/file"
if ! cmp samples/k1 "$work/file"; then bad=$((bad + 1)); fi

# FORMAT.md: an indented line of hexadecimal bytes, and indented below it the key.
awk -v folder="$work" '
    /^    [0-9A-F][0-9A-F ]*$/ { n += 1; gsub(/ /, ""); print > (folder "/example" n); next }
    n && /^    ([0-9]+ (ok|no)|file) / { sub(/^ */, ""); print > (folder "/example" n ".shown") }' docs/FORMAT.md
examples=0
while [ -f "$work/example$((examples + 1))" ]; do
    examples=$((examples + 1))
    one=$work/example$examples
    touch "$one.shown"
    # shellcheck disable=SC2059
    printf "$(sed 's/../\\x&/g' "$one")" >"$one.file"
    if key_to "$one.key" <"$one.file"; then
        same "docs/FORMAT.md, example $examples" "its key" "$one.shown" "$one.key"
    else
        bad=$((bad + 1))
    fi
done
if [ $examples -lt 2 ]; then
    echo "docs/FORMAT.md: $examples examples found, not 2 or more"
    bad=$((bad + 1))
fi

# A table has the columns number, event, working, key line. In chain-of-128.md a row may stand for a run: its number is
# '129 + k, k = 1 to 127' or 'n = 2 to 128', and its event and its key line are computed for each k.
written_out() { # TABLE EVENTS KEY
    awk -F'|' -v events="$2" -v key="$3" '
        function fault(sentence) { print FILENAME ", line " NR ": " sentence; bad = 1 }
        function plain(cell) { gsub(/`/, "", cell); sub(/^ +/, "", cell); sub(/ +$/, "", cell); gsub(/−/, "~", cell); return cell }
        # sums are computed: a + b, a − b, in brackets or not
        function computed(text, letter, value,    words, n, k, out, part) {
            if (letter != "") {
                gsub(/[()]/, " & ", text)
                n = split(text, words, " ")
                out = ""
                for (k = 1; k <= n; k++) out = out (k > 1 ? " " : "") (words[k] == letter ? value : words[k])
                text = out
                while (match(text, /(\( )?[0-9]+ [+~] [0-9]+( \))?/)) {
                    part = substr(text, RSTART, RLENGTH)
                    gsub(/[()]/, "", part)
                    split(part, words, " ")
                    part = words[2] == "+" ? words[1] + words[3] : words[1] - words[3]
                    text = substr(text, 1, RSTART - 1) part substr(text, RSTART + RLENGTH)
                }
            }
            return text
        }
        !/^\|/ { begun = 0; next }
        /^\|---/ { begun = 1; next }
        !begun { next }
        NF != 6 { fault("not four columns"); next }
        {
            number = plain($2); from = 1; to = 1; letter = ""
            if (match(number, /[a-z] = [0-9]+ to [0-9]+$/)) {
                split(substr(number, RSTART), run, " ")
                letter = run[1]; from = run[3]; to = run[5]
                number = RSTART > 1 ? substr(number, 1, RSTART - 3) : letter
            }
            for (k = from + 0; k <= to + 0; k++) {
                rows += 1
                if (computed(number, letter, k) != rows "") fault("row " rows " has the number " computed(number, letter, k))
                print computed(plain($3), letter, k) > events
                print computed(plain($5), letter, k) > key
            }
        }
        END { if (!rows) fault("no table"); exit bad }' "$1"
}

# Of a page, what stands between backticks under the headings that begin with TITLE, a line each, and first the heading, WORD for TITLE.
quoted() { # TITLE WORD
    awk -v title="^## $1" -v word="$2" '
        /^#/ { inside = sub(title, word); if (inside) print; next }
        inside { while (match($0, /`[^`]*`/)) { print substr($0, RSTART + 1, RLENGTH - 2); $0 = substr($0, RSTART + RLENGTH) } }'
}
shopt -s nullglob
tables=(tests/sequences/*.md) blocks=0 sheets=0 asked=0
for table in "${tables[@]}"; do
    name=${table%.md}
    if ! [ -f "$name.events" ] || ! [ -f "$name.key" ]; then
        echo "$table: not both .events and .key are there"
        bad=$((bad + 1))
    elif ! written_out "$table" "$work/events" "$work/key"; then
        bad=$((bad + 1))
    else
        sed 's/#.*//; s/[ \t]*$//; /^$/d' "$name.events" >"$work/list"
        same "$table, events" "$name.events" "$work/events" "$work/list"
        same "$table, key" "$name.key" "$work/key" "$name.key"
    fi
    quoted 'Reason after event ' 'after ' <"$table" >"$work/shown"
    if [ -f "$name.reason" ] || [ -s "$work/shown" ]; then
        awk 'length <= 100' "$name.reason" >"$work/reason" || true
        same "$table, reasons" "$name.reason" "$work/shown" "$work/reason"
        blocks=$((blocks + $(grep -c '^after ' "$work/shown" || true)))
    fi
    quoted 'Shares' 'shares' <"$table" >"$work/shown"
    if [ -f "$name.shares" ]; then
        { echo shares; cat "$name.shares"; } >"$work/shares"
        same "$table, shares" "$name.shares" "$work/shown" "$work/shares"
        sheets=$((sheets + 1))
    elif [ -s "$work/shown" ]; then
        echo "$table: it has shares, and there is no $name.shares"
        bad=$((bad + 1))
    fi
    quoted 'Shortened, number ' 'number ' <"$table" >"$work/shown"
    if [ -f "$name.shorter" ]; then
        same "$table, shorter lists" "$name.shorter" "$work/shown" "$name.shorter"
        asked=$((asked + $(grep -c '^number ' "$work/shown" || true)))
    elif [ -s "$work/shown" ]; then
        echo "$table: it has shorter lists, and there is no $name.shorter"
        bad=$((bad + 1))
    fi
done
for list in tests/sequences/*.events; do
    [ -f "${list%.events}.md" ] || { echo "$list: no table"; bad=$((bad + 1)); }
done
if [ ${#tables[@]} -eq 0 ]; then
    echo "there is no table in tests/sequences"
    bad=$((bad + 1))
fi
echo "README's example, $examples of FORMAT.md, ${#tables[@]} tables, $blocks reasons, the shares of $sheets and the" \
    "shorter lists for $asked numbers, $bad differ"
[ $bad -eq 0 ]
