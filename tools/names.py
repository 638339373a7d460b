#!/usr/bin/env python3
"""names.py [--write] [FILE ..]: finds kinds, wire types, refusals, columns and strides that stand in definitions, promises and proofs as bare numbers.

Without --write it prints each and exits with status 1 where there is one. With --write it puts the names of crates/spec/specs/Names.antt in their places and brings the
names in by a `use` line: so a draft that was written with numbers is taken over. Without FILE: all .antt and .rt files below crates/. Lists of cases keep their numbers.
"""
import pathlib
import re
import subprocess
import sys

REFUSALS = "ends_early bad_varint bad_tag no_group_open out_of_range not_utf8 too_deep no_room invalid_schema invalid_list too_large output_short bad_mark other_version".split()
KINDS = ("double_kind float_kind int64_kind uint64_kind int32_kind fixed64_kind fixed32_kind bool_kind string_kind group_kind message_kind bytes_kind uint32_kind enum_kind "
         "sfixed32_kind sfixed64_kind sint32_kind sint64_kind - packed_head unknown_varint unknown_fixed64 unknown_bytes unknown_fixed32 group_start group_end").split()
WIRES = "varint_wire fixed64_wire delimited_wire start_group_wire end_group_wire fixed32_wire - no_wire".split()
refusal = {str(i + 1): n for i, n in enumerate(REFUSALS)}
kind = {str(i + 1): n for i, n in enumerate(KINDS) if n != "-"}
wire = {str(i): n for i, n in enumerate(WIRES) if n != "-"}
column = {"1": "number_column", "2": "kind_column", "3": "value_column", "4": "start_column", "5": "stop_column", "6": "tag_column"}
recorded = {"25": "record_kinds"}
level = {"100": "most_levels"}
largest = {"536870911": "largest_number", "0x1fff_ffff": "largest_number"}
sized = {"2147483647": "limit", "0x7fff_ffff": "limit"}
stride = {"7": "stride"}

# what a number stands for where the text around it is this; the number is the group n
RULES = [
    (refusal, r"\b(?:No|Fault|Refused|Failed|Faulty|require|refused|faulty) (?P<n>\d+)(?= |\)|$|,|;|\n)"),
    (refusal, r"\bthen (?P<n>6|7|10) else\b"),
    (refusal, r"\b(?:record_fault|rest_fault|range_fault)\b[^→≡=\n]*[=≡] (?P<n>\d+)(?= |$|\n|\))"),
    (kind, r"\.kind\) (?P<n>\d+)\b"),
    (kind, r"\b(?:eqb|eq-eqb|ne-eqb|eqb-true|eqb-false) (?:k|kind) (?P<n>\d+)\b"),
    (kind, r"(?:(?<!wire r)(?<!wire q)\.kind|(?<!wire )(?<!\.)\bkind) ≡ (?P<n>\d+)\b"),
    (kind, r"\bdiffer \w+ k (?P<n>\d+)\b"),
    (kind, r"\bshape (?P<n>\d+)\b"),
    (kind, r"\brow \w+ \w+ (?P<n>11|20) 0\b"),
    (wire, r"% 8\) (?P<n>[0-57])(?= |\)|$|\n)"),
    (wire, r"\b[tvgbc] % 8 (?:≡|≤) (?P<n>[0-5])\b"),
    (wire, r"\b(?:eqb|eq-eqb|ne-eqb|eqb-true|eqb-false) w (?P<n>[0-57])\b"),
    (wire, r"(?<!size )(?<!number )\bw ≡ (?P<n>[0-57])\b"),
    (wire, r"\b(?:w|wire \w+) (?:≤|<) (?P<n>5)\b"),
    (wire, r"\b(?:leb|ltb|le-leb|lt-leb|leb-true) w (?P<n>[0-57])\b"),
    (wire, r"\bIsTag \w+ (?P<n>[34])\b"),
    (kind, r"\bfield-kind (?P<n>\d+)\b"),
    (kind, r"\(t / 8\) (?P<n>\d+) (?:0|v|n)\b"),
    (kind, r"\br\.number (?P<n>11|20) 0\b"),
    (kind, r"\bkind_of \w+ (?:\w+|\(t % 8\)) ≡ (?P<n>\d+)\b"),
    (kind, r"(?<!wire [\w])\.kind (?:≤|<|≢) (?P<n>\d+)\b"),
    (kind, r"\bbetween (?P<n>1|21) (?:18|24|sint64_kind|unknown_fixed32) \w+\.kind"),
    (kind, r"\bbetween \w+ (?P<n>18|24) \w+\.kind"),
    (wire, r"\bunknown-is (?P<n>[0-5])\b"),
    (wire, r"\bkind_of \w+ (?P<n>2)\b"),
    (wire, r"\b(?:plain|skip_field group level) (?P<n>[0-5]) s\b"),
    (wire, r"\b(?:taken_tag s t n e|no_value) (?P<n>[34])\b"),
    (wire, r"\bwire \w+\.kind (?:≡|≤) (?P<n>[0-5])\b"),
    (wire, r"\bget_or (?:ws|wires) \w+ (?P<n>7)\b"),
    (refusal, r"\bnumber w (?:≢|≡) (?P<n>12)\b"),
    (refusal, r"\bnumber = (?P<n>\d+);"),
    (kind, r"\b(?:packed_size|field_size) (?P<n>\d+)\b"),
    (kind, r"(?:(?<!wire r)(?<!wire q)\.kind|(?<!wire )(?<!\.)\bkind) ≢ (?P<n>\d+)\b"),
    (refusal, r"(?:\.Bad|\bStop|\bshut_at|\bopened_as) (?P<n>[1-9]\d*)\b"),
    (column, r"\bget_or list \([^()]*\+ (?P<n>[1-6])\) 0"),
    (recorded, r"\btake (?P<n>25) wires\b"),
    (level, r"(?:\b(?:leb|ltb|le-leb|lt-leb|Run) |[≤<] )(?P<n>100)\b"),
    (level, r"(?<![\w.])(?P<n>100) (?:≤|<|-)"),
    (largest, r"\b(?P<n>536870911|0x1fff_ffff)\b"),
    (sized, r"(?<!limit = )\b(?P<n>2147483647|0x7fff_ffff)\b"),
]
# in these crates' proofs a seven is the stride of a record, but where bytes are copied one by one
STRIDED = re.compile(r"crates/(?:list|read|sizes|trip|write)/(?!.*[Cc]op)")
STRIDES = [(stride, r"(?:[+*/%-]) (?P<n>7)\b"), (stride, r"(?<![\w.^-])(?P<n>7) (?:[*+≤<])")]
HOME = {"limit": "Base", "stride": "Record", "entry_stride": "Schema"}
# lists of cases: bytes and the records that they read as, as the rules list them
CASES = re.compile(r"Cases\.antt$")


# where a number of the rules stands bare in code; the names to write are in crates/spec/src/
CODE = [
    r"\bRefused\([1-9]", r"\bBad\([1-9]", r"\bnumber: [1-9]", r"\b(?:faulty|refused|shut)\([1-9]", r"\breturn (?:6|7|9|1[0-2]);",
    r"\bkind (?:==|!=|<|<=) [1-9]", r"(?<![\w.])[1-9]\d* <=? kind\b", r"^\s*(?:[3-9]|\d\d+|\d+ \| \d+)(?: \| \d+)* => ",
    r"\bw (?:==|!=|<) \d", r"% 8 (?:==|!=|<) \d", r"\blist\[[a-z]+ [+-] \d\]", r"\broom\[to \+ \d\]", r"\bnumbers\[[^\]]*\+ \d\]",
    r"(?:\+=|-=|/|\*|<=?|\+ 7 <=) 7\b", r"(?<![\w.])7 (?:<=?|\*)", r"\[(?:512|768) \+", r"\b(?:536870911|72057594037927936|4294967296)\b", r"\b0x7fff_ffff\b",
    r"(?<![\w.])(?:99|100) <=? \w", r"\b(?:== |\* )255\b",
]


# a promise or what a function asks, in code
CLAUSE = r"\b(?:requires|ensures)\b[^{\n]*\{(?:[^{}]|\{[^{}]*\})*\}"


def parts(text, code):
    """The text in pieces, and of each whether it is a definition, a promise or a proof: no comment, no `use` and no code."""
    if code:
        return [(p, i % 2 == 1) for i, p in enumerate(re.split(f"({CLAUSE})", text))]
    rule = r"(?m)(^\s*(?:pub )?use .*$|(?<!\S)--.*$)"
    return [(p, i % 2 == 0) for i, p in enumerate(re.split(rule, text))]


def named(text, path):
    """The text with names for its numbers."""
    for table, rule in RULES + (STRIDES if STRIDED.search(str(path)) else []):
        def put(m):
            name = table.get(m["n"])
            if not name:
                return m[0]
            a, e = m.start("n") - m.start(), m.end("n") - m.start()
            return m[0][:a] + name + m[0][e:]
        before = None
        while before != text:
            before, text = text, re.sub(rule, put, text)
    return text


def module(home):
    """What a file calls a module of spec's definitions."""
    return f"Rattle.spec.specs.{home}"


def bring(lines, path, names, code):
    """The lines with a `use` of each name."""
    end, lead = (";", "ghost use") if code else ("", "use")
    for home in sorted({HOME.get(n, "Names") for n in names}):
        wanted = {n for n in names if HOME.get(n, "Names") == home}
        where = module(home)
        if path.name == home + ".antt":
            continue
        for i, line in enumerate(lines):
            m = re.match(re.escape(f"{lead} {where}.{{") + r"(.*)\}" + end + "$", line)
            if m:
                have = m[1].split(", ")
                lines[i] = f"{lead} {where}.{{{', '.join(have + sorted(wanted - set(have)))}}}{end}"
                break
        else:
            at = [i for i, line in enumerate(lines) if line.startswith(lead + " ")]
            after = [i for i in at if "Rattle.spec" in lines[i]]
            i = min(after) if after else (max(at) + 1 if at else 0)
            lines.insert(i, f"{lead} {where}.{{{', '.join(sorted(wanted))}}}{end}")
    return lines


def main():
    write = "--write" in sys.argv
    files = [pathlib.Path(a).resolve() for a in sys.argv[1:] if a != "--write"]
    top = pathlib.Path(__file__).resolve().parent.parent
    if not files:
        listed = subprocess.run(["git", "ls-files", "crates"], cwd=top, capture_output=True, text=True, check=True).stdout.split()
        files = [top / f for f in listed if f.endswith((".antt", ".rt"))]
    bare = 0
    for path in files:
        if CASES.search(path.name) or path.name == "Names.antt" or not path.exists():
            continue
        code = path.suffix == ".rt"
        text = path.read_text()
        new = "".join(named(p, path) if ours else p for p, ours in parts(text, code))
        found = [(i, a) for i, (a, b) in enumerate(zip(text.split("\n"), new.split("\n")), 1) if a != b]
        if write and found:
            names = set(re.findall(r"[\w-]+", new)) - set(re.findall(r"[\w-]+", text))
            path.write_text("\n".join(bring(new.split("\n"), path, names, code)))
        elif not write and code:
            bared_text = re.sub(CLAUSE, lambda m: "\n" * m[0].count("\n"), text)
            for i, line in enumerate(bared_text.split("\n"), 1):
                bared = re.sub(r"//.*", "", line)
                if not re.match(r"\s*(?:pub )?const ", bared) and any(re.search(rule, bared) for rule in CODE):
                    found.append((i, line))
        bare += len(found)
        if not write:
            for i, line in found:
                print(f"{path.relative_to(top)}:{i}: {line.strip()}")
    print(f"{bare} lines with bare numbers{' named' if write else ''}")
    return 1 if bare and not write else 0


if __name__ == "__main__":
    sys.exit(main())
