#!/bin/bash
# run.sh PROGRAM: proves and builds crates/PROGRAM where it has changed, and runs it (or runs the file PROGRAM). Programs are for x86-64 Linux.
set -eu
program=$1
if [ ! -f "$program" ]; then
    crate=$(cd "$(dirname "$0")/.." && pwd)/crates/$1
    [ -f "$crate/src/main.rt" ] || { echo "run.sh: no program $1" >&2; exit 2; }
    program=$crate/out/$1
    [ -f "$program" ] || echo "run.sh: proves and builds $1, which takes a while" >&2
    log=$(mktemp)
    # `rt run` runs the program too: here over no input
    (cd "$crate" && rt run) </dev/null >"$log" 2>&1 || { cat "$log" >&2; rm -f "$log"; exit 2; }
    rm -f "$log"
fi
exec "$program"
