#!/usr/bin/env python3
"""table.py counts FILE | times FILE | grown OLD NEW: what run.sh prints.

A line of FILE is: input, call, who, bytes, nanoseconds and, for counts, instructions. A row of the table is a call on an input: what the library takes a byte, that
divided by what its main peer takes (the crate, or Rust's standard library for utf8), and what each peer takes a byte of its own output or of the input. 'grown' says which of the library's counts
are more than 2% above the old table, and fails.
"""
import sys

WHO = ["crate", "std", "generated", "dynamic", "prost", "protobuf-c", "c++", "arena"]


def rows(path, column):
    table = {}
    for line in open(path):
        f = line.rstrip("\n").split("\t")
        table.setdefault((f[1], f[0]), {})[f[2]] = (int(f[column]), int(f[3]))
    return table


def show(path, column, what):
    print("%-9s %-11s %8s %10s %8s %6s" % ("call", "input", "bytes", what, "calf", "ratio"), *["%10s" % w for w in WHO])
    for (call, name), by in rows(path, column).items():
        if "calf" not in by:
            continue
        each = {who: value / size for who, (value, size) in by.items()}
        peer = each.get("crate", each.get("std"))
        ratio = "%6.2f" % (each["calf"] / peer) if peer else "     -"
        print("%-9s %-11s %8d %10d %8.2f %s" % (call, name, by["calf"][1], by["calf"][0], each["calf"], ratio), *["%10.2f" % each[w] if w in each else "%10s" % "-" for w in WHO])


def grown(old, new):
    def counts(path):
        return {tuple(f[:2]): int(f[3]) for f in (line.split() for line in open(path).read().splitlines()[1:])}

    before, bad = counts(old), False
    for key, count in counts(new).items():
        if key in before and count > before[key] * 1.02:
            print("GREW", *key, before[key], "to", count)
            bad = True
    sys.exit(bad)


if sys.argv[1] == "grown":
    grown(sys.argv[2], sys.argv[3])
show(sys.argv[2], 5 if sys.argv[1] == "counts" else 4, "count" if sys.argv[1] == "counts" else "ns")
