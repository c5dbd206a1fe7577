# shellcheck shell=bash
# Functions that count checks, each with a title; the scripts in tests/doors source this file.
# If CASE is set in the environment, only the checks run whose titles contain it; preparations and
# everything else in a script run as usual. CASE=? lists the titles.

checks=0 wrong=0

# count TITLE COMMAND..: runs a check. Its output goes to the file $said, and is shown if it fails.
count() {
    case $1 in
    *"${CASE:-}"*) prepare "$@" ;;
    *) [ "$CASE" != '?' ] || echo "$1" ;;
    esac
}

# prepare TITLE COMMAND..: the same for a command that later checks depend on, so it always runs.
prepare() {
    local title=$1
    shift
    checks=$((checks + 1))
    "$@" > "${said:=said}" 2>&1 && return
    wrong=$((wrong + 1))
    echo "$title:"
    head -n 40 "$said"
}

# tell NAME: prints the number of checks and of failures; fails if there were any.
tell() {
    echo "$1: $checks checks, $wrong wrong"
    [ "$wrong" = 0 ]
}
