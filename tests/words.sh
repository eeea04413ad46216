#!/usr/bin/env bash
# words.sh KEY_PROGRAM [SEED] [COUNT]
#
# Lists in words: list_to_file and file_to_list, which stand beside KEY_PROGRAM. Every list in sequences/ becomes the file that
# oracle/encode.rs makes of it; every accepted file of COUNT random ones comes back byte for byte from words, and a refused one prints the
# key program's line; samples/NAME.txt is samples/NAME in words; and each fault has its sentence, with nothing on standard output.
set -euo pipefail
export LC_ALL=C
[ $# -ge 1 ] || { echo "words.sh KEY_PROGRAM [SEED] [COUNT]" >&2; exit 2; }
here=$(dirname "$(readlink -f "${BASH_SOURCE[0]}")")
folder=$(dirname "$(realpath -e "$1")")
key=$folder/key encoder=$folder/list_to_file printer=$folder/file_to_list
seed=${2:-20261115} count=${3:-60}
work=$(mktemp -d)
trap 'rm -rf "$work"' EXIT
for name in encode make; do rustc --edition 2021 -O -o "$work/$name" "$here/oracle/$name.rs"; done
tried=0 bad=0
wrong() { # SENTENCE
    echo "$1"
    bad=$((bad + 1))
}
run() { timeout -k 1 10 "$1" <"$2" >"$3" 2>"$4" || echo "status $?" >>"$4"; } # PROGRAM IN OUT ERR

# FILE in words and back.
there_and_back() { # FILE
    run "$printer" "$1" "$work/text" "$work/said"
    [ ! -s "$work/said" ] || wrong "$1: file_to_list said $(cat "$work/said")"
    run "$encoder" "$work/text" "$work/back" "$work/said"
    [ ! -s "$work/said" ] || wrong "$1: list_to_file said $(cat "$work/said")"
    cmp "$1" "$work/back" || wrong "$1 does not come back from words"
    "$work/encode" <"$work/text" | cmp - "$1" || wrong "$1: encode.rs makes another file of its words"
}

cd "$here/.."
shopt -s nullglob
for list in tests/sequences/*.events; do
    tried=$((tried + 1))
    "$work/encode" <"$list" >"$work/wanted"
    run "$encoder" "$list" "$work/file" "$work/said"
    [ ! -s "$work/said" ] || wrong "$list: $(cat "$work/said")"
    cmp "$work/wanted" "$work/file" || wrong "$list: another file than that of encode.rs"
done
[ $tried -gt 0 ] || wrong "there is no list in tests/sequences"
for sample in samples/*.txt; do
    tried=$((tried + 1))
    there_and_back "${sample%.txt}"
    cmp "$work/text" "$sample" || wrong "$sample is not the list of ${sample%.txt}"
done

mkdir "$work/in"
for kind in lively chain damaged; do "$work/make" "$seed" "$count" "$work/in" $kind; done
"$work/make" "$seed" 1 "$work/in" full
accepted=0 refused=0
for file in "$work"/in/*; do
    tried=$((tried + 1))
    run "$key" "$file" "$work/key" "$work/said"
    case $(head -n 1 "$work/key") in
    file*)
        refused=$((refused + 1))
        run "$printer" "$file" "$work/text" "$work/said"
        cmp "$work/key" "$work/text" || wrong "$file: file_to_list prints another line than key"
        ;;
    *)
        accepted=$((accepted + 1))
        there_and_back "$file"
        ;;
    esac
done
[ $accepted -gt 0 ] && [ $refused -gt 0 ] || wrong "$accepted files accepted and $refused refused: not both kinds"

# A list that is read although it is not in the written form.
printf '# a bridge\r\n\n  create\t007 client # the sounder\n give 0 7 40 00100 \nreply' >"$work/list"
printf 'create 7 client\ngive 0 7 40 100\nreply\n' >"$work/wanted"
run "$encoder" "$work/list" "$work/file" "$work/said"
run "$printer" "$work/file" "$work/text" "$work/said"
cmp "$work/wanted" "$work/text" || wrong "blanks, comments and leading zeros are not read"

# Every fault: the list, and what is said.
fault() { # SENTENCE LIST
    tried=$((tried + 1))
    printf "$2" >"$work/list"
    run "$encoder" "$work/list" "$work/file" "$work/said"
    [ "$(cat "$work/said")" = "$1" ] || wrong "$2: it said '$(head -c 200 "$work/said")', not '$1'"
    [ ! -s "$work/file" ] || wrong "$2: something is on standard output"
}
fault 'line 1: no such event' 'frob 3\n'
fault 'line 2: no such event' 'reply\nReply\n'
fault 'line 3: a number is missing' '# three\n\ngive 0 1 2\n'
fault 'line 1: a number is missing' 'wake -1\n'
fault 'line 1: a number is missing' 'refill\n'
fault 'line 1: a number is missing' 'remove\n'
fault 'line 1: a number is missing' 'rank\n'
fault 'line 1: a number is missing' 'rank 3\n'
fault 'line 1: one too many' 'reply 3\n'
fault 'line 1: one too many' 'create 1 client 2\n'
fault 'line 1: one too many' 'rank 3 40 5\n'
fault 'line 1: above 255' 'call 256\n'
fault 'line 1: above 255' 'refill 256\n'
fault 'line 1: above 255' 'remove 256\n'
fault 'line 1: above 255' 'rank 256 1\n'
fault 'line 1: above 255' 'rank 1 256\n'
fault 'line 2: above 255' 'block\ngive 0 0 1000000000000000000000 1'
fault 'line 1: above 65,535' 'charge 65536\n'
fault 'line 1: above 65,535' 'give 0 0 0 99999999999\n'
fault 'line 1: neither client nor server' 'create 3 klient\n'
fault 'line 32766: too long' "$(printf 'reply\\n%.0s' $(seq 32765))block\\n"
echo "$tried lists and files in words, $accepted accepted files and $refused refused, $bad wrong"
[ $bad -eq 0 ]
