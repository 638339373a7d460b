#!/usr/bin/env python3
"""gen.py FOLDER: writes the inputs of the bench, about 20 kB each, the same in every run (a linear congruential generator).

Messages of bench.proto: ints, intmix: int32 fields of one byte; mostly short, some negative. packed: 20 packed fields of 500 deltas. nested: messages up to four deep.
strings: short texts, mostly ASCII. station: all of these. letters: texts of two to four bytes a letter. deep, flat: the same 99 messages of 70 fields each inside the
other, and side by side; deep100: 100 levels. tiny: one message of 21 bytes; many: 1,000 messages of 20 bytes, each with its length in one byte before it.
cut: station without its last byte; bad: strings whose last byte is no UTF-8. spans: fields of all sorts, half of which reading drops: empty packed fields, and groups of no
field, of some and of many, also inside messages. Each NAME.1M is its input as often as makes 1 MB.
intmix100k, packed100k: 100,000 values like those of intmix and packed. A processor learns which branches 10,000 values take that come again and again; these are too many for that.

v1, vmix, v10: varints of one byte; mostly one and two bytes, some of four and ten; of ten bytes
ascii, german, russian, mixed: words; a letter of two bytes in a third of them; words of two-byte letters; words of one to four bytes a letter
twos, threes, fours: any letters of so many bytes; chinese, hindi: letters of three bytes of one script, hindi with spaces
fields: varints, strings, fixed values and groups nested ten deep, which end under any number; groups: the same sorts, in which each group ends under its own; f-*: fields of one sort
seg20, segstation, seg1k: segments of 1,000 messages of 20 bytes, of station messages, of 1,024 bytes; seg20k: of 50 messages of 20,000 bytes; seglong: seg20 with lengths of five bytes
"""
import pathlib
import struct
import sys

folder = pathlib.Path(sys.argv[1])
state = 12345


def rnd(n):
    global state
    state = (state * 6364136223846793005 + 1442695040888963407) % 2**64
    return (state >> 33) % n


def pick(xs):
    return xs[rnd(len(xs))]


def varint(x):
    o = bytearray()
    while x > 127:
        o.append(x & 127 | 128)
        x >>= 7
    o.append(x)
    return bytes(o)


def some(n):
    return bytes(rnd(256) for _ in range(n))


def put(name, one, n=20000):
    b = b""
    while len(b) < n:
        b += one()
    (folder / name).write_bytes(b)


# varints
def value():
    r = rnd(100)
    if r < 60:
        return rnd(128)
    if r < 85:
        return 128 + rnd(16256)
    if r < 95:
        return 16384 + rnd(2**28)
    return 2**64 - 1 - rnd(1000)


for name, number, one in (("v1", 20000, lambda: rnd(128)), ("vmix", 10000, value), ("v10", 2000, lambda: 2**64 - 1 - rnd(1000))):
    (folder / name).write_bytes(b"".join(varint(one()) for _ in range(number)))

# messages: the sequence continues after the varints, and the texts continue there too
behind_varints = state


def tag_of(number, w):
    return varint(number * 8 + w)


def zigzag(x):
    return x * 2 if x >= 0 else -x * 2 - 1


def delimited(number, b):
    return tag_of(number, 2) + varint(len(b)) + b


def times(n, one):
    return b"".join(one() for _ in range(n))


def int32():
    r = rnd(100)
    if r < 60:
        return rnd(128)
    if r < 90:
        return rnd(100000)
    return -rnd(100000) % 2**64


def delta():
    return varint(zigzag(rnd(200) - 100))


def inner(levels):
    b = tag_of(1, 0) + varint(rnd(5000)) + delimited(2, bytes(rnd(256) for _ in range(rnd(12))))
    if levels and rnd(2):
        b += delimited(3, inner(levels - 1))
    return b


NAMES = ["station", "north", "ridge", "Ångström", "sensor", "Zürich", "b7", "deep", "水位", "gauge"]


def text():
    return " ".join(NAMES[rnd(len(NAMES) if rnd(4) == 0 else 3)] for _ in range(2 + rnd(5))).encode()


def station():
    b = tag_of(1, 0) + varint(rnd(100000)) + delimited(2, text()) + delimited(3, inner(2)) + delimited(4, times(40, delta))
    return b + tag_of(5, 5) + struct.pack("<f", rnd(10000) / 16) + tag_of(7, 0) + varint(rnd(2))


def level():
    return times(70, lambda: tag_of(1, 0) + varint(rnd(200)))


def chain(levels):
    b = b""
    for one in reversed(levels):
        b = delimited(3, one + b)
    return b


def cyrillic():
    return "".join(chr(0x430 + rnd(32)) if rnd(9) else "水位\U0001f600 "[rnd(4)] for _ in range(4 + rnd(20))).encode()


def small():
    return tag_of(1, 0) + varint(128 + rnd(10000)) + delimited(2, b"OK") + delimited(3, tag_of(1, 0) + varint(128 + rnd(10000))) + delimited(4, times(4, lambda: varint(rnd(128)))) + tag_of(7, 0) + b"\1"


messages = {
    "ints": times(10000, lambda: tag_of(1, 0) + varint(rnd(128))),
    "intmix": times(10000, lambda: tag_of(1, 0) + varint(int32())),
    "packed": times(20, lambda: delimited(4, times(500, delta))),
    "nested": times(1000, lambda: delimited(3, inner(3))),
    "strings": times(1000, lambda: delimited(2, text())),
    "station": times(200, station),
    "letters": times(600, lambda: delimited(2, cyrillic())),
}
levels = [level() for _ in range(100)]
alone = {
    "deep": chain(levels[:99]),
    "flat": b"".join(delimited(3, x) for x in levels[:99]),
    "deep100": chain(levels),
    "tiny": bytes.fromhex("08960112024f4b1a04080512002204010280013801"),
    "many": times(1000, lambda: (lambda b: bytes([len(b)]) + b)(small())),
    "cut": messages["station"][:-1],
    "bad": messages["strings"][:-1] + b"\xff",
    "intmix100k": times(100000, lambda: tag_of(1, 0) + varint(int32())),
    "packed100k": times(200, lambda: delimited(4, times(500, delta))),
}
for name, b in messages.items():
    (folder / name).write_bytes(b)
    (folder / (name + ".1M")).write_bytes(b * (2**20 // len(b) + 1))
for name, b in alone.items():
    (folder / name).write_bytes(b)
state = behind_varints

# texts
WORDS = "the station sends a message with several readings and the gateway keeps them for later use".split()
LETTERS = ["éüфпαא\u07ff\u0080", "中文€\u0800\uffff\ud7ff\ue000", "\U0001f600\U00010348\U0010ffff\U00010000\U00040000"]


def letters(k, low, high):
    return "".join(pick(LETTERS[k]) for _ in range(low + rnd(high - low + 1)))


def word():
    r = rnd(100)
    if r < 45:
        return pick(WORDS)
    if r < 85:
        return letters(0, 2, 9)
    if r < 94:
        return letters(1, 1, 5)
    return letters(2, 1, 2)


put("ascii", lambda: (pick(WORDS) + " ").encode())
put("german", lambda: (pick(WORDS) + ("ünde " if rnd(3) == 0 else " ")).encode())
put("russian", lambda: ("".join(chr(0x430 + rnd(32)) for _ in range(2 + rnd(8))) + " ").encode())
put("mixed", lambda: (word() + " ").encode())


# fields
def tag(w):
    return varint((1 + rnd(15) if rnd(10) else 16 + rnd(1985)) * 8 + w)


def number():
    r = rnd(100)
    if r < 40:
        return rnd(2**7)
    if r < 70:
        return rnd(2**14)
    if r < 92:
        return rnd(2**21)
    return (rnd(2**31) << 33 | rnd(2**31) << 2) >> rnd(42)


def string_of(b):
    return varint(len(b)) + b


def string(n):
    return string_of(some(n))


def field(depth, end):
    """A field; a group of fields ends with what `end` makes of its start tag."""
    r = rnd(100)
    if r < 50 or r >= 91 and depth == 10:
        return tag(0) + varint(number())
    if r < 75:
        return tag(2) + string(5 + rnd(36))
    if r < 83:
        return tag(5) + some(4)
    if r < 91:
        return tag(1) + some(8)
    start = tag(3)
    return start + b"".join(field(depth + 1, end) for _ in range(1 + rnd(9))) + end(start)


put("fields", lambda: field(1, lambda start: tag(4)))
put("f-varint1", lambda: b"\x08" + bytes([rnd(128)]))
put("f-varint10", lambda: b"\x08" + varint(2**64 - 1 - rnd(1000)))
put("f-string", lambda: b"\x12" + string(3))
put("f-fixed", lambda: b"\x0d" + some(4) + b"\x09" + some(8))
put("f-group", lambda: b"\x0b" * 10 + b"\x0c" * 10)
put("f-tag2", lambda: varint(50 * 8) + b"\x05")


# segments: 1,000 messages of 20 bytes, of station messages, and of 1,024 bytes; 50 of 20,000
def segment(n, one):
    return b"WFM\1\0" + times(n, lambda: string_of(one()))


for name, n, one in (("seg20", 1000, lambda: some(20)), ("segstation", 1000, station), ("seg1k", 1000, lambda: some(1024)), ("seg20k", 50, lambda: some(20000))):
    (folder / name).write_bytes(segment(n, one))
# as seg20, with each length in five bytes, which are more than it needs
(folder / "seglong").write_bytes(b"WFM\1\0" + times(1000, lambda: b"\x94\x80\x80\x80\0" + some(20)))

# after all others, which it must not change: the wire type of an end tag is one more than the start's
def own_end(start):
    return bytes([start[0] + 1]) + start[1:]


put("groups", lambda: field(1, own_end))

# letters of two, three and four bytes; those of three without the surrogates, which are none
def three():
    c = 0x800 + rnd(0xf000)
    return chr(c if c < 0xd800 else c + 0x800).encode()


put("twos", lambda: chr(0x80 + rnd(0x780)).encode())
put("threes", three)
put("fours", lambda: chr(0x10000 + rnd(0x100000)).encode())
put("chinese", lambda: chr(0x4e00 + rnd(0x5200)).encode())
put("hindi", lambda: (chr(0x904 + rnd(74)) if rnd(6) else " ").encode())


# what reading drops: the numbers of the groups are none of bench.proto's, and one in three has a tag of two bytes
def group(n):
    start = tag_of(8 + rnd(8) if rnd(3) else 16 + rnd(2000), 3)
    return start + times(n, lambda: field(1, own_end)) + own_end(start)


def dropped():
    r = rnd(8)
    return delimited(4, b"") if r < 2 else group(0 if r < 4 else 1 + rnd(3) if r < 7 else 4 + rnd(9))


def kept():
    r = rnd(5)
    if r == 0:
        return tag_of(1, 0) + varint(int32())
    if r == 1:
        return delimited(2, text())
    if r == 2:
        return delimited(3, tag_of(1, 0) + varint(rnd(5000)) + group(rnd(3)) + delimited(2, some(rnd(12))))
    if r == 3:
        return delimited(4, times(1 + rnd(20), delta))
    return tag_of(7, 0) + varint(rnd(2))


put("spans", lambda: kept() if rnd(2) else dropped())
