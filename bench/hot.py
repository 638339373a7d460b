#!/usr/bin/env python3
"""hot.py PROGRAM HOTFILE [FUNCTION]: instructions executed in each function; with FUNCTION, its disassembly with the count at each instruction.

HOTFILE is what icount.c writes for hot=FILE: HOT=work/hot ./run.sh CASE, or one run of the program under the emulator. OBJDUMP names the disassembler.
"""
import collections
import os
import re
import subprocess
import sys

counts = {int(a, 16): int(n) for a, n in (line.split() for line in open(sys.argv[2]))}
dump = subprocess.run([os.environ.get("OBJDUMP", "objdump"), "-d", "--no-show-raw-insn", "-C", sys.argv[1]], capture_output=True, text=True, check=True).stdout
name, total = None, collections.Counter()
for line in dump.split("\n"):
    head = re.match(r"[0-9a-f]+ <(.*)>:$", line)
    if head:
        name = head.group(1)
    body = re.match(r" *([0-9a-f]+):\t", line)
    if body:
        n = counts.get(int(body.group(1), 16), 0)
        total[name] += n
        if len(sys.argv) > 3 and name == sys.argv[3] and n:
            print("%10d %s" % (n, line.strip()))
if len(sys.argv) == 3:
    for name, n in total.most_common(25):
        print("%12d %s" % (n, name))
