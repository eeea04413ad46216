#!/usr/bin/env bash
# command.sh KEY_PROGRAM
#
# The commands ./key and ./check themselves, in a copy with an rt that proves nothing: it "builds" by copying KEY_PROGRAM or a program that
# stands beside it, and its `ci` says what it is told.
set -euo pipefail
export LC_ALL=C
[ $# -eq 1 ] || { echo "command.sh KEY_PROGRAM" >&2; exit 2; }
here=$(dirname "$(readlink -f "${BASH_SOURCE[0]}")")
program=$(realpath -e "$1")
work=$(mktemp -d)
trap 'rm -rf "$work"' EXIT
repository="$work/the repository"
outside="$work/another folder"
mkdir -p "$repository/tests" "$outside/samples" "$work/bin" "$work/few" "$work/more" "$work/built"
cp -r "$here/../key" "$here/../check" "$here/../crates.txt" "$here/../samples" "$here/../tools" "$repository"
cp -r "$here/office_tables" "$here/cards" "$here/order_lists" "$repository/tests"
ln -s "$repository/key" "$work/bin/first"
ln -s first "$work/bin/key"
ln -s "$repository/check" "$work/bin/check"
cp "$here/../samples/bridge" "$outside/samples/k1" # the name of another file in the repository
cp "$here/../samples/k1" "$outside/a file"
for tool in bash env dirname readlink cat mktemp rm; do ln -s "$(command -v $tool)" "$work/few/$tool"; done
for tool in head tr wc sed; do ln -s "$(command -v $tool)" "$work/more/$tool"; done

# The programs that rt "builds" are in $work/built; while $work/slow is there, `rt run` does not end.
originals() {
    cp "$program" "$work/built/key"
    cp "$(dirname "$program")"/{list_to_file,plain_key,reason,file_to_list,shares,shorten,ranking,card,orders} "$work/built"
}
originals
for name in $(sed -n 's/^\([a-z_]*\):.*/\1/p' "$here/../crates.txt"); do
    mkdir -p "$repository/crates/$name/src"
    echo "// $name" >"$repository/crates/$name/src/lib.rt"
done
cat >"$work/bin/rt" <<END
#!/bin/sh
if [ "\$1" = version ]; then echo "a kit"; exit; fi
if [ "\$1" = ci ]; then
    for name in \$(ls crates); do
        mkdir -p "crates/\$name/out"
        rm -f "crates/\$name/out/\$name"
        cp "$work/built/\$name" "crates/\$name/out" 2>/dev/null
    done
    cat "$work/ci"
    exit "\$(cat "$work/ci.status")"
fi
name=\$(basename "\$PWD")
[ ! -f "$work/refuse" ] || { echo "rt: \$name NOT PROVED"; exit 1; }
echo "rt: chose --jobs 2 for \$name"
if [ -f "$work/slow" ]; then (exec sleep 1000) & echo \$! >"$work/prover"; wait; fi
mkdir -p out
cp "$work/built/\$name" out
END
chmod +x "$work/bin/rt"
export PATH="$work/bin:$PATH"
cd "$outside"

tried=0 bad=0
wrong() { # SENTENCE
    echo "$what: $1"
    bad=$((bad + 1))
}
# Runs a command, 20 seconds at most, and compares its exit status.
run() { # WHAT STATUS COMMAND..
    local expected=$2 ended=0
    what=$1
    shift 2
    tried=$((tried + 1))
    timeout -k 1 20 "$@" >"$work/out" 2>"$work/err" || ended=$?
    [ $ended -eq "$expected" ] || wrong "status $ended, not $expected; it said: $(cat "$work/out" "$work/err")"
}
prints() { cmp -s "$work/out" "$1" || wrong "it printed $(head -c 300 "$work/out")"; } # FILE
prints_lines() { printf '%s\n' "$@" >"$work/lines"; prints "$work/lines"; } # LINE..
says() { grep -q -- "$1" "$work/err" || wrong "it did not say '$1' but '$(cat "$work/err")'"; }
says_only() { [ "$(cat "$work/err")" = "$1" ] || wrong "it did not say '$1' but '$(cat "$work/err")'"; }
says_nothing() { [ ! -s "$work/err" ] || wrong "it said $(cat "$work/err")"; }
prints_part() { grep -Fq -- "$1" "$work/out" || wrong "it did not print '$1'"; } # WORDS
ends_in() { [[ $(tail -n 1 "$work/out") =~ $1 ]] || wrong "its last line is '$(tail -n 1 "$work/out")'"; } # PATTERN
ends_not_in() { [[ ! $(tail -n 1 "$work/out") =~ $1 ]] || wrong "its last line is '$(tail -n 1 "$work/out")'"; }

timeout 10 "$program" <"$here/../samples/k1" >"$work/k1.key"
timeout 10 "$program" <"$here/../samples/bridge" >"$work/bridge.key"
{ echo "a file"; cat "$work/k1.key"; } >"$work/under-its-name"
{ cat "$work/under-its-name"; echo samples/k1; cat "$work/bridge.key"; } >"$work/two-under-their-names"
echo "file 14" >"$work/file14"

run "first use, through two links, from another folder" 0 key "a file"; prints "$work/k1.key"
run "unchanged" 0 "$repository/key" "a file"; prints "$work/k1.key"; says_nothing
run "the caller's file, not the repository's of that name" 0 key samples/k1; prints "$work/bridge.key"
run "standard input" 0 key - <"a file"; prints "$work/k1.key"
run "a refused file has a key" 0 key - </dev/null; prints "$work/file14"
run "a missing file among others" 1 key none "a file" .; prints "$work/under-its-name"; says "none: no such file"; says "is a folder"
run "samples" 0 key; [ "$(grep -c '^samples/' "$work/out")" -eq "$(ls "$repository/samples" | wc -l)" ] || wrong "not every sample"
run "a list in words" 0 key "$repository/samples/bridge.txt"; prints "$work/bridge.key"
run "a list in words from standard input" 0 key - <"$repository/samples/bridge.txt"; prints "$work/bridge.key"
printf 'create 0 client\n\nfrob 3\n' >"wrong list"
run "a list that cannot be read" 1 key "wrong list"; prints /dev/null; says "wrong list: line 3: no such event"
printf 'reply\001\n' >"no list"
run "a file with a control byte is no list" 0 key "no list"; prints "$work/file14"
run "a closed standard input" 1 bash -c 'key - <&-'
run "a full device" 1 bash -c 'key "a file" >/dev/full'
run "a closed standard output" 1 bash -c 'key "a file" >&-'
run "wrong use" 2 key --none
run "wrong use with --both" 2 key --both --none
for name in plain_key reason file_to_list shares shorten ranking card orders; do
    [ ! -e "$repository/target/bin/$name" ] || wrong "$name is built although nobody asked for it"
done
run "help without rt" 0 env PATH="$work/few" "$repository/key" --help
run "help, whatever stands before it" 0 env PATH="$work/few" "$repository/key" --both --help
run "no rt" 1 env PATH="$work/few" "$repository/key" "a file"; says "rt"; [ "$(wc -l <"$work/err")" -eq 1 ] || wrong "not one sentence"

head -c 1000 "$program" >"$repository/target/bin/key"
run "a cut-off program" 0 key "a file"; prints "$work/k1.key"; says "building it again"
rm "$repository/target/bin/key"
run "a missing program" 0 key "a file"; prints "$work/k1.key"
: >"$work/refuse"
run "what it is made of is unchanged" 0 key "a file"; prints "$work/k1.key"; says_nothing
echo "// a change" >>"$repository/crates/rules/src/lib.rt"
run "not proved" 1 key "a file"; prints /dev/null; says "NOT PROVED"
rm "$work/refuse"
run "proved, what it is made of has changed" 0 key "a file"; prints "$work/k1.key"
run "and is unchanged again" 0 key "a file"; prints "$work/k1.key"; says_nothing

# Both engines.
run "both engines, an event file, first use of the second" 0 key --both "a file"; prints "$work/k1.key"
says "^key: a file: both engines agree$"
run "both engines, unchanged" 0 key "a file" --both; prints "$work/k1.key"; says_only "key: a file: both engines agree"
run "both engines, a list in words" 0 key --both "$repository/samples/bridge.txt"; prints "$work/bridge.key"
says_only "key: $repository/samples/bridge.txt: both engines agree"
run "both engines, standard input" 0 key --both - <samples/k1; prints "$work/bridge.key"; says_only "key: -: both engines agree"
run "both engines, a refused file" 0 key --both - </dev/null; prints "$work/file14"; says_only "key: -: both engines agree"
run "both engines, several files" 0 key --both "a file" samples/k1; prints "$work/two-under-their-names"
says_only "key: a file: both engines agree
key: samples/k1: both engines agree"
run "samples without --both" 0 key; cp "$work/out" "$work/samples"; says_nothing
run "both engines, samples" 0 key --both; prints "$work/samples"
[ "$(grep -c ': both engines agree$' "$work/err")" -eq "$(ls "$repository/samples" | wc -l)" ] || wrong "it said $(cat "$work/err")"
run "both engines, a list that cannot be read" 1 key --both "wrong list"; prints /dev/null
says_only "key: wrong list: line 3: no such event"
run "both engines, a full device" 1 bash -c 'key --both "a file" >/dev/full'; says "a write failed"
run "no option behind --" 1 key -- --both; says "^key: --both: no such file$"
head -c 1000 "$program" >"$repository/target/bin/plain_key"
run "a cut-off plain_key, not asked for" 0 key "a file"; prints "$work/k1.key"; says_nothing
run "a cut-off plain_key" 0 key --both "a file"; prints "$work/k1.key"; says "building it again"

# The reason. Here samples/k1 is the bridge, whose timeslice 0 stands above timeslice 1 while thread 0 is blocked.
why=("8 call 10" "1 10" "0 thread 0")
rm -rf "$repository/target"
run "a reason, an event file, first use" 0 key --why 8 samples/k1; prints_lines "${why[@]}"
[ ! -e "$repository/target/bin/key" ] || wrong "key is built although nobody asked for it"
run "a reason, unchanged" 0 key samples/k1 --why 8; prints_lines "${why[@]}"; says_nothing
run "a reason, a list in words" 0 key --why 8 "$repository/samples/bridge.txt"; prints_lines "${why[@]}"; says_nothing
run "a reason, standard input" 0 key --why 8 - <samples/k1; prints_lines "${why[@]}"; says_nothing
run "a reason, words on standard input" 0 key --why 8 - <"$repository/samples/bridge.txt"; prints_lines "${why[@]}"; says_nothing
printf '# line 1\n\ncreate 0 client\n  give  007 0 40 0100 # line 4, and event 2\n' >"loose list"
run "a reason, events are counted, not lines" 0 key --why 2 "loose list"; prints_lines "2 give 7 0 40 100" 0
run "a reason, of the first event" 0 key --why 1 samples/k1; prints_lines "1 create 0 client" -
run "a reason, of the last event" 0 key --why 16 samples/k1; prints_lines "16 block" 1 "0 thread 0"
for number in 0 17 264 65544 16777224 4294967295; do # four of them end in the byte 8
    run "a reason, no event $number" 0 key --why $number samples/k1; prints_lines "file 19"; says_nothing
done
run "a reason, several files, one without that event" 0 key --why 8 "a file" samples/k1
prints_lines "a file" "file 19" samples/k1 "${why[@]}"; says_nothing
run "a reason, a missing file among others" 1 key --why 8 none samples/k1; prints_lines samples/k1 "${why[@]}"
says_only "key: none: no such file"
# README's example: the command, and indented below it what it prints.
readme() { # OPTION
    mapfile -t example < <(awk -v line="^    [.]/key $1 " '
        $0 ~ line { on = 1 } /^[^ ]/ { on = 0 } on && NF { sub(/^ */, ""); print }' "$here/../README.md")
    run "README's example of $1" 0 env -C "$repository" bash -c "${example[0]-false}"; prints_lines "${example[@]:1}"
}
readme --why
run "a reason, samples" 0 key --why 1
[ "$(grep -A 1 '^samples/' "$work/out" | grep -c '^1 create ')" -eq "$(ls "$repository/samples" | wc -l)" ] || wrong "not every sample"
{ printf '\0\0\377\374\1\2\3\0'; printf '\1\4%.0s' {1..32764}; } >longest
{ cat longest; printf '\1'; } >"too long"
{ cat longest; head -c 2000000 /dev/zero; } >"far too long"
run "a reason, the longest file" 0 key --why 32765 longest; prints_lines "32765 reply" -
for file in "too long" "far too long" /dev/null; do
    run "a reason, $file" 0 key --why 1 "$file"; prints_lines "file 14"; says_nothing
done
printf '\0\0\0\1\2' >"version 2"
printf '\0\0\0\5\1\3\1\0\2' >"role 2"
run "a reason, a damaged file" 0 key --why 1 "role 2"; prints_lines "file 16"; says_nothing
run "a reason, a damaged file, and no event either" 0 key --why 0 "version 2"; prints_lines "file 15"; says_nothing
run "a reason, a list that cannot be read" 1 key --why 1 "wrong list"; prints /dev/null
says_only "key: wrong list: line 3: no such event"
run "a reason, a full device" 1 bash -c 'key --why 8 samples/k1 >/dev/full'; says "a write failed"
run "a reason, a closed standard input" 1 bash -c 'key --why 8 - <&-'; says "^key: -: is closed$"
run "a reason, a closed standard error" 0 bash -c 'key --why 8 samples/k1 2>&-'; prints_lines "${why[@]}"
run "a reason, help behind it" 0 env PATH="$work/few" "$repository/key" --why 8 --help
run "no --why behind --" 1 key -- --why; says_only "key: --why: no such file"
misused() { # SENTENCE WORDS..
    local sentence=$1
    shift
    run "wrong use, $(printf "'%s' " "$@")" 2 key "$@"; prints /dev/null; says_only "key: $sentence (./key --help)"
}
misused "--why: the number of an event is missing" samples/k1 --why
for number in '' 08 00 -1 +1 ' 1' 1. 0x1 $'1\n' 4294967296 10000000000 18446744073709551617 -- --both samples/k1; do
    misused "--why: '$number' is no number from 0 to 4,294,967,295 without leading zeros" --why "$number" samples/k1
done
misused "--why is there twice" --why 8 samples/k1 --why 8
misused "--both and --why do not go together" --both --why 8 samples/k1
misused "--both and --why do not go together" --why 0 --both samples/k1
misused "no option --why=8" --why=8 samples/k1
run "a key after the reasons" 0 key "a file"; prints "$work/k1.key"
for name in reason file_to_list list_to_file; do
    printf '#!/bin/sh\necho 0\n' >"$repository/target/bin/$name"
    run "a reason, $name changed" 0 key --why 8 samples/k1; prints_lines "${why[@]}"; says "building it again"
done
echo >>"$repository/target/bin/reason"
run "a changed reason, not asked for" 0 key "a file"; prints "$work/k1.key"; says_nothing

# The shares. Of the bridge, here samples/k1, one charge is accepted.
shares=("0 30 1000 0")
rm -rf "$repository/target"
run "shares, an event file, first use" 0 key --shares samples/k1; prints_lines "${shares[@]}"
[ ! -e "$repository/target/bin/key" ] || wrong "key is built although nobody asked for it"
run "shares, unchanged" 0 key samples/k1 --shares; prints_lines "${shares[@]}"; says_nothing
run "shares, a list in words" 0 key --shares "$repository/samples/bridge.txt"; prints_lines "${shares[@]}"; says_nothing
run "shares, standard input" 0 key --shares - <samples/k1; prints_lines "${shares[@]}"; says_nothing
run "shares, twice asked for" 0 key --shares --shares samples/k1; prints_lines "${shares[@]}"; says_nothing
readme --shares
run "shares, several files, one without a charge" 0 key --shares "loose list" samples/k1
prints_lines "loose list" samples/k1 "${shares[@]}"; says_nothing
run "shares, no charge" 0 key --shares "loose list"; prints /dev/null; says_nothing
run "shares, samples" 0 key --shares
[ "$(grep -A 1 '^samples/' "$work/out" | grep -c '^[0-9]* [0-9]* [0-9]* [0-9]*$')" -eq "$(ls "$repository/samples" | wc -l)" ] ||
    wrong "not every sample"
for file in "too long" "far too long" /dev/null; do
    run "shares, $file" 0 key --shares "$file"; prints_lines "file 14"; says_nothing
done
run "shares, a damaged file" 0 key --shares "role 2"; prints_lines "file 16"; says_nothing
run "shares, a list that cannot be read" 1 key --shares "wrong list"; prints /dev/null; says_only "key: wrong list: line 3: no such event"
run "shares, a missing file among others" 1 key --shares none samples/k1; prints_lines samples/k1 "${shares[@]}"
says_only "key: none: no such file"
run "shares, a full device" 1 bash -c 'key --shares samples/k1 >/dev/full'; says "a write failed"
run "no --shares behind --" 1 key -- --shares; says_only "key: --shares: no such file"
misused "--both and --shares do not go together" --both --shares samples/k1
misused "--why and --shares do not go together" --shares --why 8 samples/k1
misused "no option --shares=1" --shares=1 samples/k1
printf '#!/bin/sh\necho 0\n' >"$repository/target/bin/shares"
run "shares, the program changed" 0 key --shares samples/k1; prints_lines "${shares[@]}"; says "building it again"
echo >>"$repository/target/bin/shares"
run "a changed shares, not asked for" 0 key "a file"; prints "$work/k1.key"

# The shorter list. Of the longest file every event is refused with 5, the first too, which is a call.
printf 'create 0 client\ngive 7 0 10 100\nblock\nwake 0\nreply\n' >"a question"
shorter=("create 0 client" "give 7 0 10 100" "reply")
rm -rf "$repository/target"
run "shorten, a list in words, first use" 0 key --shorten 8 "a question"; prints_lines "${shorter[@]}"
[ ! -e "$repository/target/bin/key" ] || wrong "key is built although nobody asked for it"
run "shorten, unchanged" 0 key "a question" --shorten 8; prints_lines "${shorter[@]}"; says_nothing
run "shorten, standard input" 0 key --shorten 8 - <"a question"; prints_lines "${shorter[@]}"; says_nothing
run "shorten, an event file" 0 key --shorten 5 longest; prints_lines "call 0"; says_nothing
readme --shorten
run "shorten, what is printed is a list" 0 bash -c 'key --shorten 8 "a question" | key -'
[ "$(tail -n 1 "$work/out")" = "3 no 8 0 7 0 0" ] || wrong "the key of the shorter list ends in $(tail -n 1 "$work/out")"
for number in 0 1 9 26 255; do
    run "shorten, none refused with $number" 0 key --shorten $number "a question"; prints_lines "file 26"; says_nothing
done
run "shorten, several files, one without that refusal" 0 key --shorten 8 "loose list" "a question"
prints_lines "loose list" "file 26" "a question" "${shorter[@]}"; says_nothing
run "shorten, samples" 0 key --shorten 8
[ "$(grep -c '^samples/' "$work/out")" -eq "$(ls "$repository/samples" | wc -l)" ] || wrong "not every sample"
for file in "too long" "far too long" /dev/null; do
    run "shorten, $file" 0 key --shorten 5 "$file"; prints_lines "file 14"; says_nothing
done
run "shorten, a damaged file" 0 key --shorten 5 "role 2"; prints_lines "file 16"; says_nothing
run "shorten, another version" 0 key --shorten 5 "version 2"; prints_lines "file 15"; says_nothing
run "shorten, a list that cannot be read" 1 key --shorten 5 "wrong list"; prints /dev/null
says_only "key: wrong list: line 3: no such event"
run "shorten, a missing file among others" 1 key --shorten 8 none "a question"; prints_lines "a question" "${shorter[@]}"
says_only "key: none: no such file"
run "shorten, a full device" 1 bash -c 'key --shorten 8 "a question" >/dev/full'; says "a write failed"
run "shorten, a closed standard error" 0 bash -c 'key --shorten 8 "a question" 2>&-'; prints_lines "${shorter[@]}"
run "no --shorten behind --" 1 key -- --shorten; says_only "key: --shorten: no such file"
misused "--shorten: the number of a refusal is missing" "a question" --shorten
for number in '' 08 00 -1 +1 ' 1' 0x1 256 1000 4294967304 --both "a question"; do
    misused "--shorten: '$number' is no number from 0 to 255 without leading zeros" --shorten "$number" "a question"
done
misused "--shorten is there twice" --shorten 8 "a question" --shorten 8
misused "--both and --shorten do not go together" --shorten 8 --both "a question"
misused "--why and --shorten do not go together" --shorten 8 --why 8 "a question"
misused "--shares and --shorten do not go together" --shorten 0 --shares "a question"
misused "no option --shorten=8" --shorten=8 "a question"
for name in shorten file_to_list list_to_file; do
    printf '#!/bin/sh\necho 0\n' >"$repository/target/bin/$name"
    run "shorten, $name changed" 0 key --shorten 8 "a question"; prints_lines "${shorter[@]}"; says "building it again"
done
echo >>"$repository/target/bin/shorten"
run "a changed shorten, not asked for" 0 key "a file"; prints "$work/k1.key"

# A ranking table. Rows in falling order, a gap at 201, and the same rows as loose as they may be written.
printf '2001 60000 40\n201 2000 120\n1 200 200\n' >"a table"
printf '1 200 200\n202 60000 40\n' >"a gap"
printf '# rows of an office\r\n\r\n  2001\t60000   40 \t# pump \374\200log\r\n201 2000 120#fix\r\n\t\r\n#\r\n1 200 200\r' >"loose table"
rm -rf "$repository/target"
run "interval, first use" 0 key --interval 1000 "a table"; prints_lines "0 120 0"
[ "$(ls "$repository/target/bin")" = ranking ] || wrong "built are $(ls "$repository/target/bin"), and nobody asked for others"
run "interval, unchanged" 0 key "a table" --interval 1000; prints_lines "0 120 0"; says_nothing
run "interval, standard input" 0 key --interval 1000 - <"a table"; prints_lines "0 120 0"; says_nothing
run "interval, several in their order" 0 key --interval 2001 --interval 0 "a table" --interval 200 --interval 2001 --interval 65535
prints_lines "0 40 0" "23 0 0" "0 200 0" "0 40 0" "23 0 0"; says_nothing
run "interval, several tables" 0 key --interval 200 --interval 201 "a table" "a gap" - </dev/null
prints_lines "a table" "0 200 0" "0 120 0" "a gap" "25 0 201" "25 0 201" - "25 0 1" "25 0 1"; says_nothing
for locale in C C.UTF-8; do
    run "interval, a loose table, $locale" 0 env LC_ALL=$locale key --interval 200 --interval 201 --interval 2001 "loose table"
    prints_lines "0 200 0" "0 120 0" "0 40 0"; says_nothing
done
readme --interval
shown=${example[0]-}
while read -r row; do
    grep -Fqx -- "    $row" "$here/../README.md" || wrong "README does not show the row '$row' of that table"
done <"$repository/${shown##* }"
run "interval, no row" 0 key --interval 1 /dev/null; prints_lines "25 0 1"; says_nothing
run "interval, comments alone, no line feed" 0 key --interval 1 - < <(printf '# nothing\n\n#'); prints_lines "25 0 1"; says_nothing
run "interval, no line feed" 0 key --interval 60000 - < <(printf '1 60000 77'); prints_lines "0 77 0"; says_nothing
run "interval, the largest numbers" 0 key --interval 65535 - < <(printf '65535 65535 255\n0 0 0\n'); prints_lines "23 0 0"; says_nothing
printf '1 60000 77\n%1048565s' '' >"longest table"
run "interval, the longest table" 0 key --interval 1 "longest table"; prints_lines "0 77 0"; says_nothing
echo >>"longest table"
run "interval, a table that is too long" 1 key --interval 1 "longest table"; prints /dev/null
says_only "key: longest table: too long, a table in words has up to 1,048,576 bytes"
# Tables with a wrong row, and what is said of each; one run for all.
wrong_tables=() sentences=()
faulty() { # WRONG ROW
    wrong_tables+=("wrong table, $2")
    printf '# line 1\r\n\n1 200 200\n%s\n201 60000 40\nx\n' "$2" >"wrong table, $2"
    sentences+=("key: wrong table, $2: line 4: $1")
}
for word in x 01 00 -1 +1 1.5 1,000 0x1 1e3 '*' '\1' '"1"' '1;' 65536 99999999999999999999 18446744073709551617; do
    faulty "'$word' is no number from 0 to 65,535 without leading zeros" "$word 200 200"
    faulty "'$word' is no number from 0 to 65,535 without leading zeros" "1 $word 200"
    faulty "'$word' is no number from 0 to 255 without leading zeros" "1 200 $word"
done
faulty "'256' is no number from 0 to 255 without leading zeros" "1 200 256"
faulty "'x' is no number from 0 to 65,535 without leading zeros" "1 x 256 4"
faulty "\$'\\357\\273\\2771' is no number from 0 to 65,535 without leading zeros" $'\357\273\2771 200 200' # Windows' mark
faulty "\$'200\\r1' is no number from 0 to 255 without leading zeros" $'1 200 200\r1 300 1'
for row in 1 "1 " "1 200" "1 200 # 200" "1 200 #200"; do faulty "a number is missing" "$row"; done
for row in "1 200 200 4" "1 200 200 x" "1 200 200 01" "1 200 200 201 300 1"; do faulty "one too many" "$row"; done
run "interval, wrong tables, each with its sentence" 1 key --interval 1 "${wrong_tables[@]}"
prints_lines "${wrong_tables[@]}"; says_only "$(printf '%s\n' "${sentences[@]}")"
run "interval, a wrong table alone, on standard input" 1 key --interval 200 - < <(printf '1 60000 77\n2'); prints /dev/null
says_only "key: -: line 2: a number is missing"
run "interval, wrong and missing tables among others" 1 key --interval 200 "wrong table, 1" "a table" none "a gap"
prints_lines "wrong table, 1" "a table" "0 200 0" "a gap" "25 0 201"
says_only "key: none: no such file
key: wrong table, 1: line 4: a number is missing"
printf '1 60000 77\n\0' >"zero byte"
for file in "a file" "zero byte" "no list"; do
    run "interval, $file" 1 key --interval 1 "$file"; prints /dev/null; says_only "key: $file: is no table in words, it has a control byte"
done
run "interval, a folder" 1 key --interval 1 .; prints /dev/null; says_only "key: .: is a folder"
run "interval, a full device" 1 bash -c 'key --interval 1 "a table" >/dev/full'; says "a write failed"
run "interval, a closed standard input" 1 bash -c 'key --interval 1 - <&-'; says_only "key: -: is closed"
run "interval, a closed standard error" 0 bash -c 'key --interval 1 "a table" 2>&-'; prints_lines "0 200 0"
run "interval, help behind it" 0 env PATH="$work/few" "$repository/key" --interval 1 --help; prints_part "--interval N TABLE"
run "no --interval behind --" 1 key -- --interval; says_only "key: --interval: no such file"
misused "--interval: the ranking table is missing" --interval 1000
misused "--interval: the number of milliseconds is missing" "a table" --interval
for number in '' 08 00 -1 +1 ' 1' 1. 0x1 $'1\n' 65536 100000 4294967297 --both "a table"; do
    misused "--interval: '$number' is no number from 0 to 65,535 without leading zeros" --interval 1 --interval "$number" "a table"
done
misused "--both and --interval do not go together" --interval 0 --both "a table"
misused "--both and --interval do not go together" --both --interval 1
misused "--why and --interval do not go together" --interval 8 --why 8 "a table"
misused "--shares and --interval do not go together" --interval 8 "a table" --shares
misused "--shorten and --interval do not go together" --shorten 8 --interval 8 "a table"
misused "no option --interval=8" --interval=8 "a table"
printf '#!/bin/sh\necho 0\n' >"$repository/target/bin/ranking"
run "interval, the program changed" 0 key --interval 1000 "a table"; prints_lines "0 120 0"; says "building it again"
echo >>"$repository/target/bin/ranking"
run "a changed ranking, not asked for" 0 key "a file"; prints "$work/k1.key"

# The interrupt card. Of the bridge, here samples/k1, the first seven events let thread 0 block and thread 1 run.
printf 'block 1 0 1 0 0 0 0 0 0 0 0 0\nrun 7\nraise 0\npoll\nread 2\n' >"a card"
card=("1 ok 0 1 1 0 0" "0 1 0 1 0 0 0 0 0 0 0 0 0" "2 ok 0 1 1 0 0" "0 1 1 1 0 0 0 0 0 0 0 0 0"
    "3 ok 0 0 0 0 0" "0 1 0 1 0 0 0 0 0 0 0 0 0" "4 ok 0 0 0 0 0" "1 1 0 1 0 0 0 0 0 0 0 0 0")
{
    printf '# the sounder\r\n\r\n  block 1 0 1\t0 0   0 0 0 0 0 0 0 \t# its \374\200line\r\nrun 7#events\r\n\t\r\n'
    printf '#\r\nraise\t0\r\n   poll\r\n \tread 2\r'
} >"loose card"
rm -rf "$repository/target"
run "card, an event file, first use" 0 key --card "a card" samples/k1; prints_lines "${card[@]}"
[ "$(ls "$repository/target/bin" | tr '\n' ' ')" = "card list_to_file " ] || wrong "built are $(ls "$repository/target/bin")"
run "card, unchanged" 0 key samples/k1 --card "a card"; prints_lines "${card[@]}"; says_nothing
run "card, a list in words" 0 key --card "a card" "$repository/samples/bridge.txt"; prints_lines "${card[@]}"; says_nothing
run "card, standard input" 0 key --card "a card" - <samples/k1; prints_lines "${card[@]}"; says_nothing
run "card, words on standard input" 0 key --card "a card" - <"$repository/samples/bridge.txt"; prints_lines "${card[@]}"; says_nothing
run "card, a list that can be read once" 0 bash -c 'key --card <(cat "a card") samples/k1 "a file"'
[ "$(sed -n 2,9p "$work/out")" = "$(printf '%s\n' "${card[@]}")" ] && [ "$(wc -l <"$work/out")" -eq 18 ] ||
    wrong "it printed $(cat "$work/out")"
for locale in C C.UTF-8; do
    run "card, a loose list, $locale" 0 env LC_ALL=$locale key --card "loose card" samples/k1; prints_lines "${card[@]}"; says_nothing
done
readme --card
shown=${example[0]-}
shown=${shown#* --card }
awk '/^    block / { on = 1 } !NF { on = 0 } on { sub(/^ */, ""); print }' "$here/../README.md" >"$work/lines"
cmp -s "$work/lines" "$repository/${shown%% *}" || wrong "README shows the card list $(cat "$work/lines")"
run "card, samples, its list in the caller's folder" 0 key --card "a card"
[ "$(grep -A 1 '^samples/' "$work/out" | grep -c '^1 ok ')" -eq "$(ls "$repository/samples" | wc -l)" ] || wrong "not every sample"
echo block >"no command"
run "card, no command" 0 key --card "no command" samples/k1; prints /dev/null; says_nothing
run "card, no command, a refused file" 0 key --card "no command" - </dev/null; prints "$work/file14"; says_nothing
run "card, several files, some of them refused" 0 key --card "a card" "role 2" samples/k1 "version 2"
prints_lines "role 2" "file 16" samples/k1 "${card[@]}" "version 2" "file 15"; says_nothing
for file in "too long" "far too long" /dev/null; do
    run "card, $file" 0 key --card "a card" "$file"; prints_lines "file 14"; says_nothing
done
run "card, a list of events that cannot be read" 1 key --card "a card" "wrong list"; prints /dev/null
says_only "key: wrong list: line 3: no such event"
run "card, a missing file among others" 1 key --card "a card" none samples/k1; prints_lines samples/k1 "${card[@]}"
says_only "key: none: no such file"
printf 'block 1 0 1 0 0 0 0 0 0 0 0 0\nrun 7\nraise 0\npoll\nread 2\n%1048520s' '' >"longest card"
run "card, the longest list" 0 key --card "longest card" samples/k1; prints_lines "${card[@]}"; says_nothing
# Before anything is proved: what is wrong with a card list.
rm -rf "$repository/target"
wrong_commands() { # OPTION SENTENCE LIST
    run "$1, $3: $2" 1 key "$1" "$3" samples/k1; prints /dev/null; says_only "key: $3: $2"
}
wrong_card() { wrong_commands --card "$1" "${2:-wrong card}"; } # SENTENCE [CARD]
faulty_card() { # WRONG LINE
    printf '# line 1\r\n\nblock 1 0 255 0 0 0 0 0 0 0 0 0\n%s\npoll\nfrob\n' "$2" >"wrong card"
    wrong_card "line 4: $1"
}
echo >>"longest card"
wrong_card "too long, a card list in words has up to 1,048,576 bytes" "longest card"
for line in frob Read POLL 4 '*' 'create 0 client' $'\357\273\277poll' $'poll\rpoll' 'polls 1'; do
    faulty_card "no such command" "$line"
done
for line in block "block 1" "block x"; do faulty_card "a second block" "$line"; done
for word in x 01 00 -1 +1 1.5 0x1 1e3 '*' '\1' '"1"' '1;' 256 1000 4294967296 99999999999999999999 18446744073709551617; do
    faulty_card "'$word' is no number from 0 to 255 without leading zeros" "read $word"
done
for line in "read 256 4" "write 256 x" "write 0 256" "write 0 256 1" "raise 256" "run 256"; do
    faulty_card "'256' is no number from 0 to 255 without leading zeros" "$line"
done
for line in read write "write 0" raise run "read # 4" "write 0 #1"; do faulty_card "a number is missing" "$line"; done
for line in "read 4 0" "write 0 1 2" "raise 0 x" "poll 0" "poll x" "run 6 01"; do faulty_card "one too many" "$line"; done
printf '# no block\n\nread 4\nblock\n' >"wrong card"; wrong_card "line 3: the block is missing"
printf 'poll' >"wrong card"; wrong_card "line 1: the block is missing"
printf 'frob\nblock\n' >"wrong card"; wrong_card "line 1: no such command"
printf '\nblock 1 0 256 x\n' >"wrong card"; wrong_card "line 2: '256' is no number from 0 to 255 without leading zeros"
printf '# nothing\n\n#' >"wrong card"; wrong_card "the block is missing"
: >"wrong card"; wrong_card "the block is missing"
printf 'block\n\0' >"wrong card"; wrong_card "is no card list in words, it has a control byte"
wrong_card "is no card list in words, it has a control byte" "a file"
wrong_card "line 1: no such command" "$repository/samples/bridge.txt"
wrong_card "no such file" none
wrong_card "is a folder" .
[ ! -e "$repository/target" ] || wrong "something is proved for a wrong list"
run "card, a full device" 1 bash -c 'key --card "a card" samples/k1 >/dev/full'; says "a write failed"
run "card, a closed standard input" 1 bash -c 'key --card "a card" - <&-'; says_only "key: -: is closed"
run "card, a closed standard error" 0 bash -c 'key --card "a card" samples/k1 2>&-'; prints_lines "${card[@]}"
run "card, help behind it" 0 env PATH="$work/few" "$repository/key" --card "a card" --help; prints_part "--card CARD [FILE..]"
run "card, no rt" 1 env PATH="$work/few:$work/more" "$repository/key" --card "a card" samples/k1
says_only "key: needs the Rattle kit: there is no rt on the PATH"
run "no --card behind --" 1 key -- --card; says_only "key: --card: no such file"
misused "--card: the card list is missing" samples/k1 --card
misused "--card: the card list is missing" --card "" samples/k1
misused "--card: a card list is a file, standard input is for FILE" --card - samples/k1
misused "--card is there twice" --card "a card" --card "a card" samples/k1
misused "--both and --card do not go together" --card "a card" --both
misused "--why and --card do not go together" --card none --why 8 samples/k1
misused "--shares and --card do not go together" --shares --card "a card"
misused "--shorten and --card do not go together" --card "a card" --shorten 8 samples/k1
misused "--interval and --card do not go together" --interval 8 --card "a card" "a table"
misused "no option --card=a" --card=a samples/k1
for name in card list_to_file; do
    printf '#!/bin/sh\necho 0\n' >"$repository/target/bin/$name"
    run "card, $name changed" 0 key --card "a card" samples/k1; prints_lines "${card[@]}"; says "building it again"
done
echo >>"$repository/target/bin/card"
run "a changed card, not asked for" 0 key "a file"; prints "$work/k1.key"

# Abort orders. Of the bridge, here samples/k1, the first nine events let thread 11 run for thread 1, whose call the take breaks.
printf 'run 9\nabort 1 7\nwithdraw 1 7\ntake\n' >"some orders"
orders=("1 ok 0 11 1 2 0" "2 ok 0 11 1 2 0" "3 no 27 11 1 2 0" "4 ok 0 1 1 0 0")
{
    printf '# the second processor\r\n\r\n  run 9 \t# of the \374\200bridge\r\nabort\t1   7#pump log\r\n\t\r\n'
    printf '#\r\nwithdraw 1\t7\r\n \ttake\r'
} >"loose orders"
rm -rf "$repository/target"
run "orders, an event file, first use" 0 key --orders "some orders" samples/k1; prints_lines "${orders[@]}"
[ "$(ls "$repository/target/bin" | tr '\n' ' ')" = "list_to_file orders " ] || wrong "built are $(ls "$repository/target/bin")"
run "orders, unchanged" 0 key samples/k1 --orders "some orders"; prints_lines "${orders[@]}"; says_nothing
run "orders, a list in words" 0 key --orders "some orders" "$repository/samples/bridge.txt"; prints_lines "${orders[@]}"; says_nothing
run "orders, standard input" 0 key --orders "some orders" - <samples/k1; prints_lines "${orders[@]}"; says_nothing
run "orders, words on standard input" 0 key --orders "some orders" - <"$repository/samples/bridge.txt"; prints_lines "${orders[@]}"
says_nothing
run "orders, a list that can be read once" 0 bash -c 'key --orders <(cat "some orders") samples/k1 "a file"'
[ "$(sed -n 2,5p "$work/out")" = "$(printf '%s\n' "${orders[@]}")" ] && [ "$(wc -l <"$work/out")" -eq 10 ] ||
    wrong "it printed $(cat "$work/out")"
for locale in C C.UTF-8; do
    run "orders, a loose list, $locale" 0 env LC_ALL=$locale key --orders "loose orders" samples/k1; prints_lines "${orders[@]}"
    says_nothing
done
readme --orders
shown=${example[0]-}
shown=${shown#* --orders }
awk '/^## / { inside = $0 == "## Abort orders" } inside && /^    / { on = 1; sub(/^ */, ""); print } on && !NF { exit }' \
    "$here/../README.md" >"$work/lines"
cmp -s "$work/lines" "$repository/${shown%% *}" || wrong "README shows the order list $(cat "$work/lines")"
run "orders, samples, their list in the caller's folder" 0 key --orders "some orders"
[ "$(grep -A 1 '^samples/' "$work/out" | grep -c '^1 ok ')" -eq "$(ls "$repository/samples" | wc -l)" ] || wrong "not every sample"
for list in /dev/null "no orders"; do
    printf '# nothing\n\n#' >"no orders"
    run "orders, no command, $list" 0 key --orders "$list" samples/k1; prints /dev/null; says_nothing
    run "orders, no command, $list, a refused file" 0 key --orders "$list" - </dev/null; prints "$work/file14"; says_nothing
done
run "orders, several files, some of them refused" 0 key --orders "some orders" "role 2" samples/k1 "version 2"
prints_lines "role 2" "file 16" samples/k1 "${orders[@]}" "version 2" "file 15"; says_nothing
for file in "too long" "far too long" /dev/null; do
    run "orders, $file" 0 key --orders "some orders" "$file"; prints_lines "file 14"; says_nothing
done
run "orders, a list of events that cannot be read" 1 key --orders "some orders" "wrong list"; prints /dev/null
says_only "key: wrong list: line 3: no such event"
run "orders, a missing file among others" 1 key --orders "some orders" none samples/k1; prints_lines samples/k1 "${orders[@]}"
says_only "key: none: no such file"
{ cat "some orders"; printf '%1048542s' ''; } >"longest orders"
run "orders, the longest list" 0 key --orders "longest orders" samples/k1; prints_lines "${orders[@]}"; says_nothing
# Before anything is proved: what is wrong with an order list.
rm -rf "$repository/target"
wrong_orders() { wrong_commands --orders "$1" "${2:-wrong orders}"; } # SENTENCE [ORDERS]
faulty_orders() { # WRONG LINE
    printf '# line 1\r\n\nrun 9\n%s\ntake\nfrob\n' "$2" >"wrong orders"
    wrong_orders "line 4: $1"
}
echo >>"longest orders"
wrong_orders "too long, an order list in words has up to 1,048,576 bytes" "longest orders"
for line in frob Abort TAKE 4 '*' 'create 0 client' 'block 1' poll $'\357\273\277take' $'take\rtake' 'takes 1'; do
    faulty_orders "no such command" "$line"
done
for word in x 01 00 -1 1.5 0x1 '*' '\1' '1;' 256 4294967296 18446744073709551617; do
    faulty_orders "'$word' is no number from 0 to 255 without leading zeros" "abort $word x 1"
done
for word in x 01 00 -1 1,000 0x1 '*' 4294967296 10000000000 18446744073709551617; do
    faulty_orders "'$word' is no number from 0 to 4,294,967,295 without leading zeros" "withdraw 255 $word 1"
done
for line in "abort 256" "withdraw 256 7" "run 256"; do
    faulty_orders "'256' is no number from 0 to 255 without leading zeros" "$line"
done
for line in abort "abort 1" withdraw "withdraw 1" run "abort 1 # 7" "run #9"; do faulty_orders "a number is missing" "$line"; done
for line in "abort 1 7 0" "withdraw 1 4294967295 x" "take 0" "take x" "run 9 01"; do faulty_orders "one too many" "$line"; done
printf 'abort 1 7\ntake\nabort 1' >"wrong orders"; wrong_orders "line 3: a number is missing"
printf 'take\n\0' >"wrong orders"; wrong_orders "is no order list in words, it has a control byte"
wrong_orders "is no order list in words, it has a control byte" "a file"
wrong_orders "line 1: no such command" "$repository/samples/bridge.txt"
wrong_orders "line 1: no such command" "a card"
wrong_orders "no such file" none
wrong_orders "is a folder" .
[ ! -e "$repository/target" ] || wrong "something is proved for a wrong list"
run "orders, a full device" 1 bash -c 'key --orders "some orders" samples/k1 >/dev/full'; says "a write failed"
run "orders, a closed standard input" 1 bash -c 'key --orders "some orders" - <&-'; says_only "key: -: is closed"
run "orders, a closed standard error" 0 bash -c 'key --orders "some orders" samples/k1 2>&-'; prints_lines "${orders[@]}"
run "orders, help behind it" 0 env PATH="$work/few" "$repository/key" --orders "some orders" --help
prints_part "--orders ORDERS [FILE..]"
run "orders, no rt" 1 env PATH="$work/few:$work/more" "$repository/key" --orders "some orders" samples/k1
says_only "key: needs the Rattle kit: there is no rt on the PATH"
run "no --orders behind --" 1 key -- --orders; says_only "key: --orders: no such file"
misused "--orders: the order list is missing" samples/k1 --orders
misused "--orders: the order list is missing" --orders "" samples/k1
misused "--orders: an order list is a file, standard input is for FILE" --orders - samples/k1
misused "--orders is there twice" --orders "some orders" --orders "some orders" samples/k1
misused "--both and --orders do not go together" --orders "some orders" --both
misused "--why and --orders do not go together" --orders none --why 8 samples/k1
misused "--shares and --orders do not go together" --shares --orders "some orders"
misused "--shorten and --orders do not go together" --orders "some orders" --shorten 8 samples/k1
misused "--interval and --orders do not go together" --interval 8 --orders "some orders" "a table"
misused "--card and --orders do not go together" --orders "some orders" --card "a card" samples/k1
misused "no option --orders=a" --orders=a samples/k1
for name in orders list_to_file; do
    printf '#!/bin/sh\necho 0\n' >"$repository/target/bin/$name"
    run "orders, $name changed" 0 key --orders "some orders" samples/k1; prints_lines "${orders[@]}"; says "building it again"
done
echo >>"$repository/target/bin/orders"
run "a changed orders, not asked for" 0 key "a file"; prints "$work/k1.key"

# Instead of NAME a program that runs it, with more behind that.
replace() { # NAME MORE
    originals
    printf '#!/bin/sh\n"%s/%s" %s\n' "$(dirname "$program")" "$1" "$2" >"$work/built/$1"
    rm -rf "$repository/target"
}
replace key '; echo "cannot be written" >&2'
run "a program that says something on standard error" 1 key "a file"; says "cannot be written"
run "the same, with both engines" 1 key --both "a file"; prints /dev/null; says "a file: the program key ended with: cannot be written"
replace key '; kill -SEGV $$'
run "a program that crashes after printing" 1 key "a file"; says "status 139"
replace plain_key '; echo "cannot be written" >&2'
run "a plain_key that says something" 1 key --both "a file"; prints /dev/null
says "a file: the program plain_key ended with: cannot be written"
run "the same, not asked for" 0 key "a file"; prints "$work/k1.key"; says_nothing
replace plain_key '| sed "12s/0 1\$/0 2/"'
run "a plain_key wrong in one line" 1 key --both samples/k1; prints /dev/null
says_only "key: samples/k1: the engines differ, first in line 12, so no key is printed;\
 its last column apart, key has '12 ok 0 11 0 1', plain_key '12 ok 0 11 0 2'"
run "the same and a file that has no such line" 1 key --both samples/k1 "a file"
{ echo samples/k1; cat "$work/under-its-name"; } >"$work/one-of-two"; prints "$work/one-of-two"; says "a file: both engines agree"
replace plain_key '| sed \$d'
run "a plain_key with one line too few" 1 key --both samples/k1; prints /dev/null; says "samples/k1: the engines differ, first in line 16,"
run "the same, a refused file" 1 key --both - </dev/null; prints /dev/null; says "first in line 1,.* key has 'file 14'"
replace plain_key '; echo 17 ok 0 0 0 0'
run "a plain_key with one line too many" 1 key --both samples/k1; prints /dev/null; says "samples/k1: the engines differ, first in line 17,"
replace plain_key '| head -c -1'
run "a plain_key without its last byte" 1 key --both samples/k1; prints /dev/null; says "samples/k1: the engines differ, first in line 16,"
for name in reason file_to_list; do
    replace $name '; echo "cannot be written" >&2'
    run "a $name that says something" 1 key --why 8 samples/k1; prints /dev/null
    says "^key: samples/k1: the program $name ended with: cannot be written$"
    replace $name '; kill -SEGV $$'
    run "a $name that crashes after printing" 1 key --why 8 samples/k1; prints /dev/null; says "the program $name ended with: .*status 139"
done
replace shares '; echo "cannot be written" >&2'
run "a shares that says something" 1 key --shares samples/k1; says "^key: samples/k1: the program shares ended with: cannot be written$"
replace shares '; kill -SEGV $$'
run "a shares that crashes after printing" 1 key --shares samples/k1; says "the program shares ended with: .*status 139"
for name in shorten file_to_list; do
    replace $name '; echo "cannot be written" >&2'
    run "a $name that says something, of a shorter list" 1 key --shorten 8 "a question"
    says "^key: a question: the program $name ended with: cannot be written$"
    replace $name '; kill -SEGV $$'
    run "a $name that crashes after printing a shorter list" 1 key --shorten 8 "a question"
    says "the program $name ended with: .*status 139"
done
replace ranking '; echo "cannot be written" >&2'
run "a ranking that says something" 1 key --interval 1 "a table"; says "^key: a table: the program ranking ended with: cannot be written$"
replace ranking '; kill -SEGV $$'
run "a ranking that crashes after printing" 1 key --interval 1 "a table"; says "the program ranking ended with: .*status 139"
# One that prints the bytes that it gets: the number of rows, the rows and the intervals.
printf '#!/bin/sh\nod -An -v -tu1 -w9999 | tr -s " "\n' >"$work/built/ranking"
rm -rf "$repository/target"
run "interval, the bytes" 0 key --interval 1000 --interval 65535 --interval 0 --interval 256 "loose table"
prints_lines " 3 7 209 234 96 40 0 201 7 208 120 0 1 0 200 200 3 232 255 255 0 0 1 0"
for rows in 0 1 64 65 254 255 256 257 512; do
    seq "$rows" | sed 's/.*/& 1& 7/' >"$rows.rows"
    echo "$rows.rows"
    head -n 255 "$rows.rows" | awk -v rows=$((rows < 255 ? rows : 255)) 'BEGIN { printf " " rows }
        { printf " %d %d %d %d %d", $1 / 256, $1 % 256, $2 / 256, $2 % 256, $3 } END { print " 2 1" }'
done >"$work/bytes"
run "interval, the bytes of many rows" 0 key --interval 513 {0,1,64,65,254,255,256,257,512}.rows; prints "$work/bytes"; says_nothing
echo x >>512.rows
run "interval, a wrong line behind 512 rows" 1 key --interval 513 512.rows; prints /dev/null
says_only "key: 512.rows: line 513: 'x' is no number from 0 to 65,535 without leading zeros"
replace card '; echo "cannot be written" >&2'
run "a card that says something" 1 key --card "a card" samples/k1; says "^key: samples/k1: the program card ended with: cannot be written$"
replace card '; kill -SEGV $$'
run "a card that crashes after printing" 1 key --card "a card" samples/k1; says "the program card ended with: .*status 139"
# One that prints the bytes that it gets: the block, the commands and the file.
printf '#!/bin/sh\nod -An -v -tu1 -w9999 | tr -s " "\n' >"$work/built/card"
rm -rf "$repository/target"
printf 'block 1 2 255\npoll\nrun 7\nwrite 8 9\nraise 10\nread 0\nread 255\n' >"bytes card"
printf '\0\0\0\1\1' >"no event"
run "card, the bytes" 0 key --card "bytes card" "no event" - < <(echo reply)
bytes=" 3 1 2 255 6 3 0 0 4 7 0 1 8 9 2 10 0 0 0 0 0 255 0"
prints_lines "no event" "$bytes 0 0 0 1 1" - "$bytes 0 0 0 3 1 1 4"
for many in 0 1 12 255; do
    { echo "block $(seq -s ' ' "$many")"; seq "$many" | sed 's/^/read /'; } >many
    run "card, $many bytes and $many commands" 0 key --card many "no event"
    prints_lines "$(awk -v many="$many" 'BEGIN {
        printf " %d", many
        for (k = 1; k <= many; k++) printf " %d", k
        printf " %d", many
        for (k = 1; k <= many; k++) printf " 0 %d 0", k
        print " 0 0 0 1 1"
    }')"; says_nothing
done
echo poll >>many
wrong_card "line 257: more than 255 commands" many
{ echo; echo "block $(seq -s ' ' 255) 0"; } >many
wrong_card "line 2: a block of more than 255 bytes" many
replace orders '; echo "cannot be written" >&2'
run "an orders that says something" 1 key --orders "some orders" samples/k1
says "^key: samples/k1: the program orders ended with: cannot be written$"
replace orders '; kill -SEGV $$'
run "an orders that crashes after printing" 1 key --orders "some orders" samples/k1; says "the program orders ended with: .*status 139"
# One that prints the bytes that it gets: the commands and the file.
printf '#!/bin/sh\nod -An -v -tu1 -w9999 | tr -s " "\n' >"$work/built/orders"
rm -rf "$repository/target"
printf 'take\nrun 7\nabort 8 9\nwithdraw 255 4294967295\nabort 0 0\nwithdraw 1 16909060\n' >"bytes orders"
run "orders, the bytes" 0 key --orders "bytes orders" "no event" - < <(echo reply)
bytes=" 6 2 0 0 0 0 0 3 7 0 0 0 0 0 8 0 0 0 9 1 255 255 255 255 255 0 0 0 0 0 0 1 1 1 2 3 4"
prints_lines "no event" "$bytes 0 0 0 1 1" - "$bytes 0 0 0 3 1 1 4"
for many in 0 1 255; do
    seq "$many" | sed 's/.*/abort & 6500&/' >many
    run "orders, $many commands" 0 key --orders many "no event"
    prints_lines "$(awk -v many="$many" 'BEGIN { printf " %d", many }
        { printf " 0 %d 0 %d %d %d", $2, $3 / 65536, $3 / 256 % 256, $3 % 256 } END { print " 0 0 0 1 1" }' many)"; says_nothing
done
echo take >>many
wrong_orders "line 256: more than 255 commands" many
replace shorten '; sleep 1.5'
key --shorten 8 "a question" >/dev/null 2>&1 # builds it
run "a shorten that takes longer than a second" 0 key --shorten 8 "a question"; prints_lines "${shorter[@]}"
says_only "key: a question: still shortening (a long list can take minutes)"
replace shorten '; sleep 0.3'
key --shorten 8 "a question" >/dev/null 2>&1
run "a shorten that does not" 0 key --shorten 8 "a question"; prints_lines "${shorter[@]}"; says_nothing
originals
rm -rf "$repository/target"

# TERM while it proves; rt's own job must be gone.
: >"$work/slow"
what="interrupted while it proves"
tried=$((tried + 1))
key "a file" >"$work/out" 2>"$work/err" &
for ((k = 0; k < 100; k++)); do
    if grep -q proving "$work/err"; then break; fi
    sleep 0.1
done
ended=0
kill -TERM $! || true
wait $! || ended=$?
[ $ended -eq 143 ] || wrong "status $ended"
says "proving key"
rm "$work/slow"
prover=$(cat "$work/prover")
# one that has ended may still wait for its parent to notice
if kill -0 "$prover" 2>/dev/null && ! grep -q '^State:.*Z' "/proc/$prover/status"; then
    wrong "the prover still runs"
    kill "$prover"
fi
run "after an interruption" 0 key "a file"; prints "$work/k1.key"

# ./check: rt ci says the words given and ends with the status given; the outside tests end as told.
ci() { printf '%s\n' "$2" >"$work/ci"; echo "$1" >"$work/ci.status"; } # STATUS WORDS
names="sequences compare command complaints wakes reasons shares shorten office_tables ranking cards card order_lists orders words"
names+=" documents sentences"
tests() { # [NAME of the one that fails]
    local one
    for one in $names; do echo 'echo "given: $*"' >"$repository/tests/$one.sh"; done
    [ $# -eq 0 ] || echo "exit 1" >"$repository/tests/$1.sh"
}
tests
rm -rf "$repository/target"
ci 0 "rt: ok
7 passed, 0 failed"
run "check" 0 check; ends_in '^7 passed, 0 failed$'; [ "$(grep -c passed "$work/out")" -eq 1 ] || wrong "the tally is not printed once"
run "check, then key" 0 key "a file"; says_nothing
run "check, then key --both" 0 key --both "a file"; says_only "key: a file: both engines agree"
run "check, then key --why" 0 key --why 8 samples/k1; says_nothing
run "check, then key --shares" 0 key --shares samples/k1; says_nothing
run "check, then key --shorten" 0 key --shorten 8 "a question"; says_nothing
run "check, then key --interval" 0 key --interval 1000 "a table"; says_nothing
run "check, then key --card" 0 key --card "a card" samples/k1; says_nothing
run "check, then key --orders" 0 key --orders "some orders" samples/k1; says_nothing
run "check, its tests and what they are given" 0 check 5 6
{
    echo "rt: ok"
    for name in $names; do
        echo "tests/$name.sh"
        case $name in
        sentences) echo "given: " ;;
        compare) echo "given: $repository/target/bin/key 5 6" ;;
        *) echo "given: $repository/target/bin/key" ;;
        esac
    done
    echo "7 passed, 0 failed"
} >"$work/wanted"
prints "$work/wanted"
for name in $names; do
    tests "$name"
    run "check with tests/$name.sh failing" 1 check; ends_not_in '0 failed$'; ends_in "tests/$name.sh"
done
tests
ci 1 "10 passed, 10 failed"
run "check with rt ci failing" 1 check; ends_not_in '0 failed$'
ci 1 "7 passed, 0 failed"
run "check with rt ci ending badly" 1 check; ends_not_in '0 failed$'
ci 0 "rt: no tally"
run "check without a tally" 1 check; ends_not_in '0 failed$'
ci 0 "0 passed, 0 failed"
run "check with nothing passed" 1 check; ends_not_in '0 failed$'
ci 0 "rt: ok; must-fail edits: 155 refused, 1 bad
7 passed, 0 failed"
run "check with a bad edit" 1 check; ends_not_in '0 failed$'
ci 0 "7 passed, 0 failed"
for name in key list_to_file plain_key reason file_to_list shares shorten ranking card orders; do
    originals
    rm "$work/built/$name" "$repository/target/bin/$name"
    run "check with $name missing" 1 check; ends_in "left no crates/$name/out/$name\$"
done
run "check, wrong use" 2 check many
run "check without rt" 1 env PATH="$work/few" "$repository/check"; ends_in 'rt'
ln -s "$work/bin/rt" "$work/few/rt"
run "check without rustc" 1 env PATH="$work/few" "$repository/check"; ends_in 'rustc'

echo "$tried runs of ./key and ./check, $bad wrong"
[ $bad -eq 0 ]
