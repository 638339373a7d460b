#!/usr/bin/env python3
"""respell.py: run once, at the top, after the kit's port.py: brings the names of definitions, lemmas and fields of specs/ and proofs/ to the library's spelling.

A word of the logic is in snake case: `validPrefix` is `valid_prefix`, `tells-letter` is `tells_letter`. Types, modules and constructors with a capital stay; so do functions, exported names,
variables and whatever Rattle names itself (a goal, a step and its fields). It changes ghost text of .rt files, .antt files, texts of edits, and names in README.md and docs/ that stand in
backticks. It says which names would fall together, and then writes nothing. --map prints each name with its new spelling.
"""

import os
import re
import sys

# Names that would fall together with another one that is in use where they stand, with the spelling that they get. A lemma that would get the name of what it is about gets `_lem` after
# it, as in the library.
OTHER = {
    "isMessage": "special_message",
    "isString": "special_string",
    "is-scalar": "is_scalar_lem",
    "key-at": "key_at_lem",
    "place-of": "place_of_lem",
    "first_entry": "first_entry_lem",
    "room_after": "room_after_lem",
}
# Constructors that stand together in one line, which `own_names` does not see.
TOGETHER = {"startGroup": "start_group", "endGroup": "end_group"}
# The same as OTHER, in one file alone.
IN_FILE = {"crates/write/proofs/InnerLaws.antt": {"is-packed": "is_packed_lem"}}

TOKEN = re.compile(r"[^\s\x01(){}\[\],;.:|\"`…]+(?:\.\.)?")
HEAD = re.compile(r"^(?:abbrev |unfoldable |pub |data |record )*([^\s:(){}\[\],;|]+)(?= [({:]| *$)")
KEYWORDS = {"use", "module", "mutual", "infix", "infixl", "infixr", "where", "open", "ruleset", "deriving", "unfolding", "--", "mod", "abbrev", "unfoldable", "pub", "data", "record", "let", "in"}


def files(*ends):
    for folder, dirs, names in os.walk("crates"):
        dirs[:] = sorted(d for d in dirs if d != "out")
        for name in sorted(names):
            if name.endswith(ends):
                yield os.path.join(folder, name)


def text_of(path):
    with open(path, encoding="utf-8") as f:
        return f.read()


def is_answer(path):
    """Whether a file answers goals: its names are Rattle's, but for lemmas of its own."""
    return os.path.basename(path) in ("Proof.antt", "Answers.antt", "Invariants.antt")


def own_names():
    """The names that .antt files declare: definitions and lemmas, also within a module or a record; and apart the fields of records."""
    names, fields = set(), set()
    for path in files(".antt"):
        record = None
        for line in text_of(path).split("\n"):
            bare = line.strip()
            if not bare or bare.startswith("--"):
                continue
            depth = len(line) - len(line.lstrip())
            if record is not None and depth <= record:
                record = None
            m = HEAD.match(bare)
            if not m or m.group(1) in KEYWORDS:
                continue
            if re.match(r"(?:abbrev |unfoldable |pub )*(data|record) ", bare):
                record = depth if " record " in " " + bare else None
                names.add(m.group(1))
                continue
            declares = re.match(r"(?:abbrev |unfoldable |pub )*\S+(?: [({].*)? :(?: |$)", bare)
            if declares and not (is_answer(path) and re.search(r"\btie\.|statement|\bgoal\.", bare)):
                names.add(m.group(1))
                if record is not None:
                    fields.add(m.group(1))
    return names, fields


def snake(word):
    word = re.sub(r"(?<=[a-z0-9])([A-Z])", lambda m: "_" + m.group(1).lower(), word) if word[:1].islower() else word
    return re.sub(r"(?<=[\w'′])-(?=[\w'′])", "_", word).replace("′", "'")


def new_name(name):
    if name in OTHER:
        return OTHER[name]
    return "◌".join(snake(p) for p in name.split("◌"))


def spelled(text, mapping, fields, antt):
    """The text with each own name in its new spelling. After a dot only a field, or a name of a module, is one."""
    modules = set(re.findall(r"\bas ([a-z][\w-]*)", text))
    out, at = [], 0
    for m in TOKEN.finditer(text):
        word = m.group(0)
        if word not in mapping:
            continue
        if m.start() and text[m.start() - 1] == ".":
            before = re.search(r"([^\s(){}\[\],;.:|\"`]+)\.$", text[max(0, m.start() - 200) : m.start()])
            head = before.group(1) if before else ""
            if word not in fields and not head[:1].isupper() and head not in modules and head not in ("specs", "proofs"):
                continue
        out += [text[at : m.start()], mapping[word]]
        at = m.end()
    return "".join(out) + text[at:]


def comments_apart(text, mark):
    """Pieces of a text: (whether it is a comment, the piece)."""
    for line in text.splitlines(keepends=True):
        at = line.find(mark)
        while at >= 0 and mark == "--" and not re.match(r"--(\s|$|-)", line[at:]):
            at = line.find(mark, at + 2)
        if at < 0:
            yield False, line
        else:
            yield False, line[:at]
            yield True, line[at:]


def in_prose(text, mapping):
    """Names in a comment or a page: in backticks, after a module's name, or in camel case."""

    def one(m):
        word = m.group(0)
        before = text[m.start() - 1 : m.start()]
        named = before == "." and re.search(r"[A-Z]\w*\.$", text[: m.start()])
        return mapping[word] if word in mapping and (named or before == "`" or re.search("[a-z][A-Z]", word)) else word

    return TOKEN.sub(one, text)


def main():
    tops, fields = own_names()
    mapping = {n: new_name(n) for n in tops | fields if new_name(n) != n}
    camel = {new for old, new in mapping.items() if re.search("[a-z0-9][A-Z]", old)}
    mapping |= TOGETHER
    mapping |= {old: new + "_lem" for old, new in mapping.items() if new in camel and "-" in old and old not in OTHER}
    for n in [n for n in mapping if "◌" in n]:
        for old, new in zip(n.split("◌"), mapping[n].split("◌")):
            if old and old != new:
                mapping[old] = new
    if "--map" in sys.argv:
        print("\n".join(f"{a} {b}" for a, b in sorted(mapping.items())))
        return 0
    clashes = []
    seen = {}
    for old, new in mapping.items():
        if seen.setdefault(new, old) != old:
            clashes.append(f"{old} and {seen[new]} are both {new}")
    whole_map = mapping
    for path in files(".antt", ".rt"):
        mapping = whole_map | IN_FILE.get(path, {})
        text = "".join(p for c, p in comments_apart(text_of(path), "--" if path.endswith(".antt") else "//") if not c)
        words = {m.group(0) for m in TOKEN.finditer(text) if text[m.start() - 1 : m.start()] != "."}
        if path.endswith(".rt"):
            words = words & set(mapping) | set(re.findall(r"\b(\w+): ", text)) | set(re.findall(r"\blet (?:mut )?(\w+)", text)) | set(re.findall(r"\bconst (\w+)", text))
        for word in words & set(mapping):
            if mapping[word] in words and mapping[word] not in mapping:
                clashes.append(f"{path}: {word} would be {mapping[word]}, which stands there")
    if clashes:
        print("\n".join(clashes))
        return 1
    for path in files(".antt", ".rt"):
        mapping = whole_map | IN_FILE.get(path, {})
        mark = "--" if path.endswith(".antt") else "//"
        old = text_of(path)
        code = "".join("\1" if c else p for c, p in comments_apart(old, mark))
        code = spelled(code, mapping, fields, mark == "--")
        notes = iter([p for p in (in_prose(p, mapping) for c, p in comments_apart(old, mark) if c)])
        new = re.sub("\1", lambda _: next(notes), code)
        if new != old:
            with open(path, "w", encoding="utf-8") as f:
                f.write(new)
    mapping = whole_map
    for path in files(".edit"):
        of_logic, lines = False, []
        for line in text_of(path).splitlines(keepends=True):
            if line.startswith("file: "):
                of_logic = line.strip().endswith(".antt")
            elif line.startswith(("old: ", "new: ")) and of_logic:
                line = line[:5] + spelled(line[5:], mapping, fields, True)
            lines.append(line)
        with open(path, "w", encoding="utf-8") as f:
            f.write("".join(lines))
    pages = ["README.md"] + [os.path.join("docs", p) for p in sorted(os.listdir("docs")) if p.endswith(".md")] + [os.path.join(d, "README.md") for d in ("tools", "oracle")]
    for path in pages:
        old = text_of(path)
        new = in_prose(old, mapping)
        if new != old:
            with open(path, "w", encoding="utf-8") as f:
                f.write(new)
    print(f"respell: {len(mapping)} names")
    return 0


if __name__ == "__main__":
    raise SystemExit(main())
