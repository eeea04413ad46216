#!/usr/bin/env bash
# sequences.sh KEY_PROGRAM [NAME...]
#
# Runs list_to_file, which stands beside it, and KEY_PROGRAM on each list in sequences/ and compares with the key worked out by hand; and
# plain_key, beside it too, with that key without its last column. K10 is no list: empty input gives 14.
# Every list has an event, and its key a line for each.
# Where there is a NAME.reason, the program reason, beside it too, is run for each of its blocks: a line `after N`, N an event of the list,
# and below it the lines worked out by hand for the machine after that event.
# Where there is a NAME.shares, the program shares, beside it too, is run on the list's event file: NAME.shares is what it prints, worked
# out by hand, and empty where it prints nothing.
# Where there is a NAME.shorter, the program shorten, beside it too, is run for each of its blocks: a line `number N`, and below it the
# shortened list in words, worked out by hand, or the line `file 26`. Its answer is turned into words by file_to_list, beside it too. Of its
# key the last line is `no N` and every other line `ok`. The line `file 26` stands where no line of NAME.key is `no N`, and only there.
# Every NAME.reason, NAME.shares and NAME.shorter has its list.
set -euo pipefail
export LC_ALL=C
[ $# -ge 1 ] || { echo "sequences.sh KEY_PROGRAM [NAME...]" >&2; exit 2; }
here=$(dirname "$(readlink -f "${BASH_SOURCE[0]}")")
program=$(realpath -e "$1")
shift
. "$here/program.sh"
work=$(mktemp -d)
trap 'rm -rf "$work"' EXIT
encoder=$(dirname "$program")/list_to_file
decoder=$(realpath -e "$(dirname "$program")/file_to_list")
plain=$(realpath -e "$(dirname "$program")/plain_key")
reason=$(realpath -e "$(dirname "$program")/reason")
shares=$(realpath -e "$(dirname "$program")/shares")
shorten=$(realpath -e "$(dirname "$program")/shorten")
cd "$here/sequences"
bad=0 blocks=0 sheets=0 asked=0
if [ $# -eq 0 ]; then
    shopt -s nullglob
    lists=(*.events) reasons=(*.reason) divided=(*.shares) shortened=(*.shorter)
    [ ${#lists[@]} -gt 0 ] && [ ${#reasons[@]} -gt 0 ] && [ ${#divided[@]} -gt 0 ] && [ ${#shortened[@]} -gt 0 ] ||
        { echo "there is no list, or no reason, or no shares, or no shorter list, in $PWD"; exit 1; }
    for other in "${reasons[@]}" "${divided[@]}" "${shortened[@]}"; do
        [ -f "${other%.*}.events" ] || { echo "$other: there is no such list"; bad=$((bad + 1)); }
    done
    set -- "${lists[@]%.events}"
fi

# One list against its key.
agrees() { # NAME
    [ -f "$1.events" ] && [ -f "$1.key" ] || { echo "$1: not both .events and .key are there"; return 1; }
    timeout -k 1 10 "$encoder" <"$1.events" >"$work/file" 2>"$work/said" || { echo "$1: list_to_file did not end well"; return 1; }
    [ ! -s "$work/said" ] || { echo "$1: $(cat "$work/said")"; return 1; }
    local events lines
    events=$(sed 's/#.*//' "$1.events" | grep -c '[^[:space:]]' || true)
    lines=$(wc -l <"$1.key")
    [ "$events" -gt 0 ] && [ "$events" -eq "$lines" ] || { echo "$1: $events events, and $lines lines in its key"; return 1; }
    key_to "$work/key" <"$work/file" && key_to "$work/plain" "$plain" <"$work/file" || { echo "$1: no key"; return 1; }
    diff -u --label "$1, by hand" --label "$1, printed" "$1.key" "$work/key" &&
        sed 's/ [0-9]*$//' "$1.key" | diff -u --label "$1, by hand, no last column" --label "$1, printed by plain_key" - "$work/plain"
}

# The blocks of one list's reasons, if it has any; its event file is there.
reasons_agree() { # NAME
    [ -f "$1.reason" ] || return 0
    local numbers number events ended=0
    events=$(wc -l <"$1.key")
    [[ $(head -n 1 "$1.reason") == "after "* ]] || { echo "$1.reason: it does not begin with a block"; return 1; }
    mapfile -t numbers < <(sed -n 's/^after //p' "$1.reason")
    for number in "${numbers[@]}"; do
        blocks=$((blocks + 1))
        [[ $number =~ ^[1-9][0-9]{0,4}$ ]] && [ "$number" -le "$events" ] ||
            { echo "$1.reason: 'after $number', and $1 has $events events"; return 1; }
        awk -v block="after $number" '/^after / { inside = $0 == block; next } inside' "$1.reason" >"$work/wanted"
        [ -s "$work/wanted" ] || { echo "$1.reason: nothing is below 'after $number'"; return 1; }
        # the number in 4 bytes, big-endian
        # shellcheck disable=SC2059
        { printf "$(printf '\\0\\0\\x%02x\\x%02x' $((number / 256)) $((number % 256)))"; cat "$work/file"; } >"$work/input"
        key_to "$work/reason" "$reason" <"$work/input" || { echo "$1: no reason after event $number"; return 1; }
        diff -u --label "$1, the reason after event $number, by hand" --label "$1, printed" "$work/wanted" "$work/reason" || ended=1
    done
    return $ended
}

# The shares of one list, if they were worked out; its event file is there.
shares_agree() { # NAME
    [ -f "$1.shares" ] || return 0
    sheets=$((sheets + 1))
    key_to "$work/shares" "$shares" <"$work/file" || { echo "$1: no shares"; return 1; }
    diff -u --label "$1, the shares, by hand" --label "$1, printed" "$1.shares" "$work/shares"
}

# The blocks of one list's shorter lists, if it has any; its event file is there.
shorter_agrees() { # NAME
    [ -f "$1.shorter" ] || return 0
    local numbers number wanted ended=0
    [[ $(head -n 1 "$1.shorter") == "number "* ]] || { echo "$1.shorter: it does not begin with a block"; return 1; }
    mapfile -t numbers < <(sed -n 's/^number //p' "$1.shorter")
    for number in "${numbers[@]}"; do
        asked=$((asked + 1))
        [[ $number =~ ^(0|[1-9][0-9]{0,2})$ ]] && [ "$number" -le 255 ] ||
            { echo "$1.shorter: 'number $number', and a number is one byte"; return 1; }
        awk -v block="number $number" '/^number / { inside = $0 == block; next } inside' "$1.shorter" >"$work/wanted"
        [ -s "$work/wanted" ] || { echo "$1.shorter: nothing is below 'number $number'"; return 1; }
        wanted=list
        if [ "$(cat "$work/wanted")" = "file 26" ]; then wanted=26; fi
        if awk -v number="$number" '$2 == "no" && $3 == number { found = 1 } END { exit !found }' "$1.key"; then
            [ $wanted = list ] || { echo "$1.shorter: 26 below 'number $number', and an event is refused with it"; return 1; }
        else
            [ $wanted = 26 ] || { echo "$1.shorter: a list below 'number $number', and no event is refused with it"; return 1; }
        fi
        # the number in one byte
        # shellcheck disable=SC2059
        { printf "$(printf '\\x%02x' "$number")"; cat "$work/file"; } >"$work/input"
        key_to "$work/shorter" "$shorten" <"$work/input" || { echo "$1: no shorter list for number $number"; return 1; }
        if printf 'file ' | cmp -s -n 5 - "$work/shorter"; then
            cp "$work/shorter" "$work/words"
        else
            key_to "$work/words" "$decoder" <"$work/shorter" || { echo "$1: no words of the list for number $number"; return 1; }
        fi
        diff -u --label "$1, shortened for number $number, by hand" --label "$1, printed" "$work/wanted" "$work/words" ||
            { ended=1; continue; }
        [ $wanted = list ] || continue
        key_to "$work/key" <"$work/shorter" || { echo "$1: no key of the list for number $number"; return 1; }
        awk -v number="$number" '{ refused += $2 != "ok"; last = $2 " " $3 } END { exit !(refused == 1 && last == "no " number) }' \
            "$work/key" || { echo "$1: shortened for number $number, not the last event alone is refused, or not with it"; ended=1; }
    done
    return $ended
}
for name in "$@"; do
    agrees "$name" && reasons_agree "$name" && shares_agree "$name" && shorter_agrees "$name" || bad=$((bad + 1))
done
for by in "$program" "$plain" "$reason" "$shares" "$shorten"; do
    if ! key_to "$work/key" "$by" </dev/null || [ "$(cat "$work/key")" != "file 14" ]; then
        echo "K10: empty input did not give 'file 14' from ${by##*/}"
        bad=$((bad + 1))
    fi
done
echo "$# sequences and K10, by ${program##*/} and plain_key, $blocks reasons, by reason, the shares of $sheets, by shares, and the" \
    "shorter lists for $asked numbers, by shorten, $bad differ"
[ $bad -eq 0 ]
