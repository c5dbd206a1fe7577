#!/usr/bin/env bash
# Compares what ctfd-show prints about another project's program with what gdb prints with the
# compiler's debug information.
# usage: tests/doors/show/others.sh PROGRAM [WORD]..
# PROGRAM has debug information, and with the WORDs it waits for its input or for clients. Its types
# are converted to CTF, and the debug information is removed; it runs in a temporary folder, and is
# stopped, so that nothing changes between two answers. gdb is asked for each variable and its parts
# (ask.py), and so is ctfd-show, for the process and for a core file (beside.py). With RAW=1 the
# program keeps its debug information, and ctfd-show converts it. A server must not end by itself,
# nor become a daemon:
#   tests/doors/show/others.sh redis-server --port 0 --unixsocket redis.sock
#   tests/doors/show/others.sh nginx -p . -e stderr -c /tmp/nginx.conf
# with this /tmp/nginx.conf:
#   daemon off; master_process off; pid nginx.pid; error_log stderr;
#   events {} http { access_log off; server { listen unix:nginx.sock; } }
set -eu
export LC_ALL=C
tests=$(realpath "$(dirname "$0")")
compiled=${CARGO_TARGET_DIR:-$(realpath "$tests/../../../clients/rust/target")}/release
program=$(realpath "$1")
shift
work=$(mktemp -d)
pids=
trap 'kill -CONT $pids 2> /dev/null; kill $pids 2> /dev/null; rm -r "$work"' EXIT
cd "$work"
if [ -n "${RAW:-}" ]; then
    cp "$program" runs
else
    "$compiled/ctfd-convert" --lossy --section "$program" with.ctf 2> /dev/null
    objcopy --strip-debug with.ctf runs
fi
mkfifo input
sleep 1000 > input &
pids=$!
./runs "$@" < input > output 2>&1 &
pids="$! $pids"
sleep 3
kill -STOP $! || { echo "$program ended, so there is nothing to ask:"; tail output; exit 1; }
OUT=asked gdb -batch -nx -iex 'set debug-file-directory /none' \
    -iex 'set auto-load python-scripts off' -p $! -x "$tests/ask.py" \
    -ex 'generate-core-file core' "$program" > log 2>&1 || { cat log; exit 1; }
echo "the process:"
"$tests/beside.py" "$compiled/ctfd-show" asked --pid $!
echo "its core file:"
"$tests/beside.py" "$compiled/ctfd-show" asked --core core | tail -n 1
