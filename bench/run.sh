#!/bin/bash
# run.sh: compares all answers with the peers', then prints the table of counts: x86-64 instructions a byte, counted exactly, of the proved library and of its peers.
# Where a count of the library is more than 2% above the stored table, table.txt, it says so and fails. To store a table: ./run.sh >table.txt
# run.sh time [REPS]: the times of the same calls on this processor, the best of REPS (200), and their ratios in the same run; for a machine with nothing else to do.
# run.sh hot INPUT WHO: the functions where one call spends its instructions; ./hot.py work/bench work/hot FUNCTION then shows one (on aarch64 with OBJDUMP=./objdump).
set -eu
cd "$(dirname "$0")"; W=$PWD/work; M=$(uname -m)
counted() { LD_LIBRARY_PATH=root/usr/lib/$M-linux-gnu root/usr/bin/qemu-x86_64 -plugin "$W/icount.so,out=$W/counts${HOT:+,hot=$HOT}" "$W/bench" "$W/data" count "$@"; }
case ${1:-} in
time)
    "$W/native/bench" "$W/data" "${2:-200}" >"$W/times"
    ./table.py times "$W/times"
    ;;
hot)
    HOT=$W/hot counted "$2" "$3"
    [ "$M" = x86_64 ] || export OBJDUMP=$PWD/objdump
    ./hot.py "$W/bench" "$W/hot" | head -n 12
    ;;
*)
    counted >"$W/rows"
    paste "$W/rows" "$W/counts" >"$W/both"
    ./table.py counts "$W/both" >"$W/table"
    cat "$W/table"
    [ ! -s table.txt ] || ./table.py grown table.txt "$W/table" >&2
    ;;
esac
