#!/usr/bin/env bash
# complaints.sh KEY_PROGRAM
#
# The programs, which stand beside KEY_PROGRAM, where they cannot read or write: each says so in one line on standard error, and ends with
# status 0; where it cannot read, in one write (oracle/packets.rs), so that no other program's words stand within it.
set -euo pipefail
export LC_ALL=C
[ $# -eq 1 ] || { echo "complaints.sh KEY_PROGRAM" >&2; exit 2; }
here=$(dirname "$(readlink -f "${BASH_SOURCE[0]}")")
folder=$(dirname "$(realpath -e "$1")")
work=$(mktemp -d)
trap 'rm -rf "$work"' EXIT
rustc --edition 2021 -O -o "$work/packets" "$here/oracle/packets.rs"

# Each prints something of this: a file that is refused, or a list of one event; of a ranking table without rows a line follows.
printf 'x' >"$work/file"
printf 'reply\n' >"$work/list_to_file"
tried=0 bad=0
same() { # PROGRAM WHAT SHOWN WANTED
    tried=$((tried + 1))
    [ "$3" = "$4" ] || { echo "$1, $2: printed $3, and not $4"; bad=$((bad + 1)); }
}
for name in key plain_key reason shares shorten card orders ranking list_to_file file_to_list; do
    same "$name" "standard input is a folder" "$(timeout -k 1 10 "$work/packets" "$folder/$name")" \
        "$(printf '"%s: standard input cannot be read\\n"\nexit status: 0' "$name")"
    input=$work/$name
    [ -e "$input" ] || input=$work/file
    said=$(timeout -k 1 10 "$folder/$name" <"$input" 2>&1 >/dev/full; echo "status $?")
    same "$name" "standard output is full" "$said" "$(printf '%s: standard output cannot be written\nstatus 0' "$name")"
done
echo "$tried complaints of 10 programs, $bad wrong"
[ "$bad" = 0 ]
