# shellcheck shell=bash disable=SC2154
# Read by the tests that run KEY_PROGRAM, here $program.

# The key of standard input, in OUT. Fails with a sentence where the program takes 10 seconds, does not end well (it has no exit
# status of its own: a signal is meant) or says anything on standard error.
key_to() { # OUT [PROGRAM instead of KEY_PROGRAM]
    local ended=0 by=${2:-$program}
    timeout -k 1 10 "$by" >"$1" 2>"$1.said" || ended=$?
    by=${by##*/}
    case $ended in
    0) [ -s "$1.said" ] || return 0 ;;
    124 | 137) echo "the program $by took more than 10 seconds" ;;
    *) echo "the program $by ended with status $ended" ;;
    esac
    sed "s/^/the program $by said: /" "$1.said"
    return 1
}
