#!/bin/bash
# limits.sh: the size limit itself, through the C interface of the proved x86-64 library: limits.c at 2,147,483,647 and 2,147,483,648 bytes. After build.sh.
# It is not a part of the bench or of the gate: it asks for some gigabytes of memory.
set -eu
cd "$(dirname "$0")"; P=$PWD; R=$P/root; M=$(uname -m)
export LD_LIBRARY_PATH=$R/usr/lib/$M-linux-gnu
X=; [ "$M" = x86_64 ] || X=$R/usr/bin/x86_64-linux-gnu-
"${X}gcc${X:+-12}" -O2 -static -no-pie -o work/limits limits.c ../target/staticlib/libcalf.a
if [ "$M" = x86_64 ]; then work/limits; else "$R/usr/bin/qemu-x86_64" work/limits; fi
