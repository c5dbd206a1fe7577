#!/usr/bin/env bash
# Tests ctfd-front, through which many clients use one service, with a built ctfd.
# usage: tests/doors/front/run.sh PROGRAM [--whole]
# PROGRAM is the ctfd to compare with. The front is the one that CTFD_FRONT names, by default the
# one that scripts/rust.py builds with the library. Needs Linux and pytest; some tests need Debian's
# python3-prometheus-client, nginx with libnginx-mod-stream, haproxy, openssl or valgrind.
#
# Isolation, seen from outside (test_isolation.py): 200 clients send 100,000 lines, valid and
# hostile, and each gets the replies that a service of its own gives. Attacks on a session's number,
# and on other clients' time and memory (test_attacks.py). Shares of the service's time, and limits
# for each user (test_shares.py). The cost of a line (test_costs.py), also in instructions
# (test_instructions.py). Starts, ends, and processes killed in the middle of a load (test_ends.py);
# ends at random moments while clients come and leave (test_departures.py). 100,000 lines while
# sockets are cut, files run out and memory is refused (test_faults.py). The front behind nginx and
# haproxy, with TLS (test_network.py). Several services in one front (test_rooms.py). The operator's
# view (test_told.py). Types by build-id from a store (test_builds.py). The client over a socket
# (test_client.py). The units of docs/SERVING.md, if systemd-analyze is installed (test_units.py).
# Random lines with a session number in them, and turns with a simulated clock, are tested in the
# crate clients/rust/ctfd-front.
# --whole tries isolation with other seeds and a million lines, more faults, 1,000 ends, and shares
# beside the most expensive known requests. Two test files run at a time; run pytest for a single
# file or case. PATIENCE in the environment is the number of seconds that a test waits for anything,
# by default 60.
# Prints errors; the status is 1 if there was an error.
set -eu
program=$(realpath "$1")
whole=("${@:2}")
top=$(realpath "$(dirname "$0")/../../..")
compiled=${CARGO_TARGET_DIR:-$top/clients/rust/target}/release
CTFD_FRONT=$(realpath "${CTFD_FRONT:-$compiled/ctfd-front}")
export CTFD_FRONT
[ -x "$CTFD_FRONT" ] || { echo "skipped: ctfd-front is not compiled (scripts/rust.py)"; exit 0; }
cd "$(dirname "$0")"
python=
for one in python3 /usr/bin/python3; do
    "$one" -c 'import pytest' 2> /dev/null && { python=$one; break; }
done
[ -n "$python" ] || { echo "skipped: no Python with pytest here"; exit 0; }
work=$(mktemp -d)
trap 'rm -r "$work"' EXIT
failed=0

# tried NAME..: runs test files one after the other, and keeps their output and a failing status.
tried() {
    local name
    for name; do
        "$python" -m pytest "test_$name.py" -q -rs -W ignore -p no:cacheprovider \
            --program "$program" "${whole[@]}" > "$work/$name" 2>&1 ||
            echo "$name: status $?" >> "$work/failed"
    done
}

tried isolation client rooms builds told attacks units &
tried ends faults departures shares
wait
tried network
# Under valgrind everything takes fifty times as long.
PATIENCE=600 tried instructions
tried costs
if [ ${#whole[@]} != 0 ]; then
    mv "$work/shares" "$work/first_shares"
    UNIONS=8000 tried shares
fi
for log in "$work"/*; do cat "$log"; done
[ ! -e "$work/failed" ] || failed=1
exit $failed
