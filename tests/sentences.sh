#!/usr/bin/env bash
# sentences.sh [PAGE..]
#
# What the pages name is in the tree: docs/DOCUMENT-*.md and docs/THEOREMS.md, or the PAGEs given. A name in backticks is defined: in a .antt
# file by its signature, as a constructor, a field or a module; in a .rt file as a function, type, constant, variant, field, module or byte string;
# or it is a must-fail edit, a crate or a file. Where a file follows ("`walk`, `loop`, Walk"), the names before it are defined in that file. Every
# path leads to a file or folder. Comments define nothing; what stands between quotation marks is document 01's; outside tables a name of one or
# two letters is a variable; `rt ..` is a command. A page has a table with a name in it.
set -euo pipefail
export LC_ALL=C
here=$(dirname "$(readlink -f "${BASH_SOURCE[0]}")")
if [ $# -gt 0 ]; then
    pages=()
    for page in "$@"; do pages+=("$(realpath "$page")"); done
else
    pages=("$here"/../docs/DOCUMENT-*.md "$here/../docs/THEOREMS.md")
fi
work=$(mktemp -d)
trap 'rm -rf "$work"' EXIT
cd "$here/.."

# NAME<tab>FILE for every definition.
{
    find crates -name '*.antt' -print0 | xargs -0 awk '
        { sub(/(^|[ \t])--.*/, "") }
        {
            text = $0
            sub(/^ */, "", text)
            while (sub(/^(pub|abbrev|unfoldable|opaque) +/, "", text)) {}
            n = split(text, words, /[ \t]+/)
            if (words[1] == "data" || words[1] == "record" || words[1] == "mod") print words[2] "\t" FILENAME
            else if (n > 1 && words[2] == ":") print words[1] "\t" FILENAME
        }'
    find crates -name '*.rt' -print0 | xargs -0 awk '
        FNR == 1 { depth = 0; inside = 0 }
        {
            sub(/\/\/.*/, "")
            rest = $0
            while (match(rest, /b"[^"]*"/)) {
                print substr(rest, RSTART + 2, RLENGTH - 3) "\t" FILENAME
                rest = substr(rest, RSTART + RLENGTH)
            }
            text = $0
            sub(/^ */, "", text)
            sub(/^pub(\([a-z]+\))? +/, "", text)
            n = split(text, words, /[^A-Za-z0-9_]+/)
            if (words[1] ~ /^(fn|struct|enum|const|mod|type)$/) print words[2] "\t" FILENAME
            else if (inside && n > 1) print words[1] "\t" FILENAME
            if (words[1] ~ /^(struct|enum)$/ && /\{/) inside = 1
            depth += gsub(/\{/, "{") - gsub(/\}/, "}")
            if (depth <= 0) inside = 0
        }'
    find crates -name '*.edit' | sed 's#.*/\([^/]*\)\.edit$#\1\t&#'
    find crates -name '*.antt' -o -name '*.rt' | sed -n 's#.*/\([^/]*\)\.[a-z]*$#\1\t&#p'
    find crates -mindepth 1 -maxdepth 1 -type d | sed 's#.*/##; s#.*#&\tcrates/&/#'
    printf '%s\t\n' u8 u16 usize bool requires ensures
} >"$work/defined"
find . \( -path ./target -o -path ./.git \) -prune -o -type f -print | sed 's#^\./##' >"$work/files"

# PLACE, NAME, FILE and whether in a table, with tabs between: FILE is empty where none follows the name, NAME for a path.
named() { # PAGE
    awk -v page="${1##*/}" '
        function put(name, file) { print page ":" NR "\t" name "\t" file "\t" tabled }
        # the names of one cell or line; a name that follows another after a comma belongs to its group
        function cell(text,    span, between, file, n, group) {
            gsub(/"[^"]*"/, "\"\"", text)
            n = 0
            while (match(text, /`[^`]*`/)) {
                between = substr(text, 1, RSTART - 1)
                span = substr(text, RSTART + 1, RLENGTH - 2)
                text = substr(text, RSTART + RLENGTH)
                if (between != ", ") { flush(group, n, ""); n = 0 }
                paths(between)
                group[++n] = span
                if (match(text, /^, ([a-z_]+\/)*[A-Z][a-z][A-Za-z0-9]*($|[;:. )|])/) || match(text, /^, [A-Za-z_\/]+\.(rt|antt)/)) {
                    file = substr(text, 3, RLENGTH - 2)
                    sub(/[;:. )|]$/, "", file)
                    flush(group, n, file)
                    n = 0
                    text = substr(text, 3 + length(file))
                    put("", file)
                }
            }
            flush(group, n, "")
            paths(text)
        }
        function flush(group, n, file,    k) {
            for (k = 1; k <= n; k++) {
                sub(/^\.\//, "", group[k])
                if (group[k] ~ /^rt /) continue
                if (group[k] ~ /\// || group[k] ~ /\.(antt|rt|rs|sh|md|txt)$/) { if (group[k] !~ /[ *]/) put("", group[k]) }
                else expression(group[k], file)
            }
        }
        # of an application the function, of a projection the field, of a path A::B both
        function expression(text, file,    words, n, k, parts, m, j) {
            sub(/\(\)$/, "", text)
            n = split(text, words, " ")
            for (k = 1; k <= n; k++) {
                if (k > 1 && words[k] !~ /^[(.]/) continue
                gsub(/[()]/, "", words[k])
                sub(/^\./, "", words[k])
                m = split(words[k], parts, "::")
                for (j = 1; j <= m; j++) if (length(parts[j]) > (tabled ? 0 : 2)) put(parts[j], k == 1 && j == m ? file : "")
            }
        }
        function paths(text) {
            while (match(text, /[A-Za-z0-9_.-]+(\/[A-Za-z0-9_.-]+)+\/?|[A-Za-z0-9_-]+\.(antt|rt|rs|sh)|[a-z_]+\//)) {
                path = substr(text, RSTART, RLENGTH)
                text = substr(text, RSTART + RLENGTH)
                sub(/\.$/, "", path)
                put("", path)
            }
        }
        /^\|[-| ]*$/ { next }
        /^\|/ {
            tabled = 1
            count = split($0, cells, "|")
            for (at = 2; at < count; at++) cell(cells[at])
            next
        }
        { tabled = 0; cell($0) }' "$1"
}

bad=0
for page in "${pages[@]}"; do
    if [ ! -f "$page" ]; then
        echo "there is no page $page"
        bad=$((bad + 1))
        continue
    fi
    named "$page" >"$work/named"
    if ! awk -F'\t' '$2 != "" && $4 { found = 1 } END { exit !found }' "$work/named"; then
        echo "$page: no table with a name in it"
        bad=$((bad + 1))
        continue
    fi
    # A file is meant by the end of its path, with its extension or without, or by a folder on its path.
    awk -F'\t' -v page="${page##*/}" '
        function means(path, file,    slashed) {
            slashed = "/" path
            if (file ~ /\/$/) return index(slashed, "/" file) > 0
            return ends(slashed, "/" file) || ends(slashed, "/" file ".antt") || ends(slashed, "/" file ".rt") || index(slashed, "/" file "/") > 0
        }
        function ends(text, end) { return length(text) >= length(end) && substr(text, length(text) - length(end) + 1) == end }
        FILENAME == ARGV[1] { at[$1] = at[$1] "\t" $2; next }
        FILENAME == ARGV[2] { file[++files] = $0; next }
        {
            if ($2 == "") {
                checked_files += !($3 in tried)
                tried[$3] = 1
                for (k = 1; k <= files; k++) if (means(file[k], $3)) next
                print $1 ": there is no file " $3
                bad = 1
                next
            }
            checked += !($2 in names)
            names[$2] = 1
            if (!($2 in at)) { print $1 ": nothing defines " $2; bad = 1; next }
            if ($3 == "") next
            n = split(substr(at[$2], 2), places, "\t")
            for (k = 1; k <= n; k++) if (means(places[k], $3)) next
            print $1 ": " $2 " is not defined in " $3
            bad = 1
        }
        END {
            if (!bad) print page ": " checked " names are defined, " checked_files " files and folders are there"
            exit bad
        }' "$work/defined" "$work/files" "$work/named" || bad=$((bad + 1))
done
[ $bad -eq 0 ]
