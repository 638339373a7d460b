#!/bin/bash
# archive.sh NAME: proves the crate NAME_c, which exports the calls of the library NAME to C, and makes target/staticlib/libNAME.a, for x86-64.
# NAME is calf, bench_leaves, bench_pull or bench_entries. What goes wrong is printed; else nothing is.
set -eu
top=$(cd "$(dirname "$0")/.." && pwd); crate=$top/crates/$1_c
[ -d "$crate" ] || { echo "archive.sh: no crate $1_c" >&2; exit 2; }
log=$(mktemp)
trap 'rm -f "$log"' EXIT
(cd "$crate" && rt lib) >"$log" 2>&1 || { cat "$log" >&2; exit 1; }
mkdir -p "$top/target/staticlib"
cp "$crate/out/lib$1_c.a" "$top/target/staticlib/lib$1.a"
