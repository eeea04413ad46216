# shellcheck shell=bash
# Read by ../key and ../check. Runs rt so that an interruption ends the prover too, and lets one of them prove at a time.

group=

# Ends the process group that in_group started, after 2 seconds for certain, and then this script.
interrupted() { # SIGNAL
    local tries=20
    trap - "$1"
    if [ -n "$group" ] && kill -TERM -- "-$group" 2>/dev/null; then
        while kill -0 -- "-$group" 2>/dev/null && [ $((tries -= 1)) -gt 0 ]; do sleep 0.1; done
        kill -KILL -- "-$group" 2>/dev/null || true
    fi
    kill -s "$1" $$
}

trap 'interrupted INT' INT
trap 'interrupted TERM' TERM
trap 'interrupted HUP' HUP

# Runs a command in a process group of its own: rt's jobs do not hear Ctrl-C (a shell's background jobs ignore it).
in_group() { # COMMAND..
    local ended=0
    set -m
    (set +m; trap '' TTOU; "$@") </dev/null &
    group=$!
    set +m
    wait "$group" || ended=$?
    group=
    return "$ended"
}

# Two provers in one checkout would wait for each other at every crate. The lock is on the folder itself.
lock() { # FOLDER
    exec 9<"$1"
    if command -v flock >/dev/null && ! flock -n 9; then
        echo "waiting: another ./key or ./check is proving here" >&2
        in_group flock 9
    fi
}
unlock() { exec 9<&-; }

# The crates that the programs are made of.
crates() { # PROGRAM..
    awk -F: -v programs="$*" '
        function visit(name,    parts, k, n) {
            if (!(name in needs) || seen[name]++) return
            n = split(needs[name], parts, " ")
            for (k = 1; k <= n; k++) visit(parts[k])
            print name
        }
        { sub(/#.*/, "") }
        NF == 2 { gsub(/[ \t]/, "", $1); needs[$1] = $2 }
        END { n = split(programs, names, " "); for (k = 1; k <= n; k++) visit(names[k]) }' "$root/crates.txt"
}

# One sum of all that a program is made of: the kit, by its program rt, and each file that a proof of its crates reads.
made_of() { # PROGRAM
    local folders
    mapfile -t folders < <(crates "$1" | sed "s#^#$root/crates/#")
    {
        stat -L -c '%s %y' "$(command -v rt)"
        find "${folders[@]}" -name out -prune -o -type f \( -name '*.rt' -o -name '*.antt' \) -print0 | sort -z | xargs -0 sha256sum
    } | sha256sum
}

# Takes a program that rt built: it stands in target/bin then, beside the sums of it and of what it is made of.
take() { # PROGRAM [SUM]
    mkdir -p "$root/target/bin" "$root/target/stamp"
    cp "$root/crates/$1/out/$1" "$root/target/bin/$1" || return 1
    sha256sum <"$root/target/bin/$1" >"$root/target/$1.sum"
    echo "${2-$(made_of "$1")}" >"$root/target/stamp/$1"
}

# Proves and builds a program where what it is made of has changed, and says so. rt builds it to run it, here on nothing.
build() { # PROGRAM
    local sum
    sum=$(made_of "$1")
    [ "$sum" != "$(cat "$root/target/stamp/$1" 2>/dev/null)" ] || return 0
    echo "proving $1"
    (cd "$root/crates/$1" && rt run) </dev/null && take "$1" "$sum"
}
