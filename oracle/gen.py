#!/usr/bin/env python3
"""gen.py LINES SEED [GROUP]: writes so many case lines. First short inputs, all of them where LINES is 1,000,000 or more (else every so-many-th); then lines of every
verb, valid, damaged and adversarial, by a seeded random choice. GROUP is `segments` for the lines of segment files, `documents` for those of groups that end under
their own number or another, `letters` for those of texts, `spans` for those of dropped spans, `messages` for all others; without it there are lines of each."""
import itertools
import random
import sys

A = '2|0,1,5,0,0;0,2,9,0,0;0,3,11,0,1;0,4,17,1,0;0,5,2,0,0;0,7,8,0,0;1,1,13,0,0;1,2,12,0,0;1,3,11,0,1'
B = '2|0,1,5,0,0;0,2,9,0,0;0,3,11,0,1;1,1,13,0,0;1,3,11,0,1'
KINDS = [1, 2, 3, 4, 5, 6, 7, 8, 9, 11, 12, 13, 14, 15, 16, 17, 18]
NUMBERS = [k for k in KINDS if k not in (9, 11, 12)]
WIRE = {1: 1, 2: 5, 3: 0, 4: 0, 5: 0, 6: 1, 7: 5, 8: 0, 9: 2, 11: 2, 12: 2, 13: 0, 14: 0, 15: 5, 16: 1, 17: 0, 18: 0}
STEPS = 'int32 int64 uint32 uint64 sint32 sint64 fixed32 fixed64 sfixed32 sfixed64 float double bool enum'.split()
NAME = {1: 'double', 2: 'float', 3: 'int64', 4: 'uint64', 5: 'int32', 6: 'fixed64', 7: 'fixed32', 8: 'bool', 9: 'string', 11: 'enter', 12: 'bytes',
        13: 'uint32', 14: 'enum', 15: 'sfixed32', 16: 'sfixed64', 17: 'sint32', 18: 'sint64'}
U32, U64 = (1 << 32) - 1, (1 << 64) - 1
MAX_NUMBER = 536870911
# broken UTF-8 in each way of RFC 3629, and the strings at the borders of what is right
BROKEN = ['80', 'bf', 'c0', 'c080', 'c1bf', 'c2', 'c241', 'c2c0', 'df7f', 'e0', 'e080', 'e09f80', 'e0a0', 'e0a041', 'e180', 'e18041', 'e1c080', 'ec7f80', 'eda080',
          'edbfbf', 'ee80c0', 'efbf', 'f0', 'f08080', 'f08f8080', 'f0908041', 'f09080', 'f18080', 'f1808041', 'f180c080', 'f37fbfbf', 'f4908080', 'f48fbf', 'f5808080',
          'f8888080', 'fe', 'ff', '41ff42', 'e282', 'f09f98']
GOOD = ['', '41', '7f', 'c280', 'dfbf', 'e0a080', 'e0bfbf', 'e18080', 'ecbfbf', 'ed8080', 'ed9fbf', 'ee8080', 'efbfbf', 'f0908080', 'f0bfbfbf', 'f1808080', 'f3bfbfbf',
        'f4808080', 'f48fbfbf', '00']


def varint(v):
    out = bytearray()
    while v > 127:
        out.append(v & 127 | 128)
        v >>= 7
    out.append(v)
    return bytes(out)


def longer(v, size):
    """v in so many bytes, more than are needed."""
    out = bytearray(v >> 7 * i & 127 | 128 for i in range(size))
    out[-1] &= 127
    return bytes(out)


def tag(number, wire):
    return varint(number * 8 + wire)


def counted(content):
    return varint(len(content)) + bytes(content)


def hexed(b):
    return bytes(b).hex() or '-'


def nested(levels, number, inner=b''):
    for _ in range(levels):
        inner = tag(number, 2) + counted(inner)
    return inner


def schema_word(types, entries):
    return '%d|%s' % (types, ';'.join(','.join(map(str, e)) for e in entries) or '-')


# ---- values and messages

class Maker:
    """Random values, schemas, messages and lists."""

    def __init__(self, seed):
        self.r = random.Random(seed)

    def pattern(self, bits=64):
        """A number at a border, or any."""
        r = self.r
        top = (1 << bits) - 1
        w = r.randrange(6)
        if w == 0:
            return r.randrange(4)
        if w == 1:
            return max(0, min(top, (1 << r.randrange(bits + 1)) + r.randrange(-2, 3)))
        if w == 2:
            return top - r.randrange(3)
        if w == 3:
            return r.randrange(300)
        return r.getrandbits(r.randrange(1, bits + 1))

    def value(self, kind):
        """One of the kind's values."""
        if kind in (5, 14, 15, 17):
            v = self.pattern(32)
            return v | (U64 ^ U32) if v >> 31 else v
        if kind in (2, 7, 13, 24):
            return self.pattern(32)
        if kind == 8:
            return self.r.randrange(2)
        return self.pattern()

    def text(self):
        r = self.r
        return bytes.fromhex(''.join(r.choice(GOOD) for _ in range(r.randrange(4))))

    def content(self):
        return bytes(self.r.randrange(256) for _ in range(self.r.choice([0, 1, 2, 3, 5, 20])))

    def number(self):
        r = self.r
        return r.choice([1, 2, 3, 4, 5, 7, 15, 16, 17, 100, 2047, 2048, 18999, 262143, 262144, MAX_NUMBER - 1, MAX_NUMBER, r.randrange(1, MAX_NUMBER + 1)])

    def schema(self):
        """A valid schema of a few types; mostly small numbers, so that messages meet them."""
        r = self.r
        types = r.choice([1, 1, 2, 2, 3, 4, 32])
        entries = []
        for owner in range(min(types, 4)):
            numbers = sorted(set(r.randrange(1, 9) if r.random() < .8 else self.number() for _ in range(r.randrange(7))))
            for n in numbers:
                kind = r.choice(KINDS + [11, 11, 14, 17])
                entries.append((owner, n, kind, r.randrange(2), r.randrange(types) if kind == 11 else 0))
        return types, entries

    def encoded(self, kind, v):
        if WIRE[kind] == 1:
            return v.to_bytes(8, 'little')
        if WIRE[kind] == 5:
            return (v & U32).to_bytes(4, 'little')
        if kind in (17, 18):
            s = v - (1 << 64) if v >> 63 else v
            v = 2 * s if s >= 0 else -2 * s - 1
        if kind == 8 and self.r.random() < .1:
            v = self.pattern()
        b = varint(v)
        most = 5 if kind in (13, 17) else 10
        if len(b) < most and self.r.random() < .05:
            return longer(v, self.r.randrange(len(b), most + 1))
        return b

    def group(self, deep):
        r = self.r
        out = tag(self.number(), 3)
        for _ in range(r.randrange(3)):
            out += self.group(deep - 1) if deep and r.random() < .4 else self.unknown(r.choice([0, 1, 2, 5]), self.number())
        return out + tag(self.number(), 4)

    def unknown(self, wire, n):
        if wire == 3:
            return self.group(2)
        body = {0: lambda: varint(self.pattern()), 1: lambda: self.r.randbytes(8), 2: lambda: counted(self.content()), 5: lambda: self.r.randbytes(4)}[wire]()
        return tag(n, wire) + body

    def field(self, entries, entry, deep):
        """A field that the schema has, as it says."""
        r = self.r
        _, n, kind, repeated, child = entry
        if repeated and WIRE[kind] != 2 and r.random() < .6:
            return tag(n, 2) + counted(b''.join(self.encoded(kind, self.value(kind)) for _ in range(r.choice([0, 1, 2, 3, 6]))))
        if kind == 9:
            return tag(n, 2) + counted(self.text())
        if kind == 12:
            return tag(n, 2) + counted(self.content())
        if kind == 11:
            return tag(n, 2) + counted(self.message(entries, child, deep - 1))
        return tag(n, WIRE[kind]) + self.encoded(kind, self.value(kind))

    def message(self, entries, of_type, deep):
        """A good message: known fields, and a few unknown ones."""
        r = self.r
        mine = [e for e in entries if e[0] == of_type]
        out = bytearray()
        for _ in range(r.randrange(4) if deep > 0 else 0):
            if mine and r.random() < .75:
                out += self.field(entries, r.choice(mine), deep)
            else:
                n = r.choice(mine)[1] if mine and r.random() < .5 else self.number()
                out += self.unknown(r.choice([0, 1, 2, 3, 5]), n)
        return bytes(out)

    def damaged(self, b):
        """One fault of some way in good bytes."""
        r = self.r
        b = bytearray(b)
        way = r.randrange(9)
        i = r.randrange(len(b) + 1)
        if way == 0:
            return b[:i]
        if way == 1 and b:
            b[r.randrange(len(b))] ^= 1 << r.randrange(8)
        elif way == 2 and b:
            b[r.randrange(len(b))] = r.randrange(256)
        elif way == 3:
            b[i:i] = r.choice([b'\xff' * 9 + b'\x01', b'\xff' * 9 + b'\x02', b'\x80' * 10, b'\xff\xff\xff\xff\x0f', b'\xff\xff\xff\xff\x10', b'\x80\x80\x80\x80\x80\x00'])
        elif way == 4:
            b[i:i] = bytes([r.choice([0, 6, 7, 0x0b, 0x0c, 0x0e, 0x0f, 0x80])])
        elif way == 5:
            b[i:i] = tag(r.randrange(1, 9), 2) + r.choice([varint((1 << 63) - 1), varint(1 << 63), varint(U64), varint(U32), varint(1 << 32), varint(1 << 31), varint(U64 - 12), b'\x7f'])
        elif way == 6:
            b += bytes.fromhex(r.choice(['08', '0a', '0a05', '80', '0d', '09', '1a80', 'ff']))
        elif way == 7 and b:
            del b[r.randrange(len(b))]
        else:
            b[i:i] = r.randbytes(r.randrange(1, 4))
        return bytes(b)

    # ---- lists

    def records(self, entries, payload):
        """A valid list of records; contents lie in the payload, which grows."""
        out = []
        self.run(entries, payload, out, 0, 0, self.r.randrange(5))
        return out

    def put_content(self, payload, content):
        at = len(payload)
        payload += content
        return at, len(payload)

    def run(self, entries, payload, out, of_type, depth, count):
        r = self.r
        mine = [e for e in entries if e[0] == of_type]
        for _ in range(count):
            if mine and r.random() < .8:
                self.known(entries, payload, out, r.choice(mine), depth)
            else:
                self.stranger(mine, payload, out, depth)

    def stranger(self, mine, payload, out, depth):
        """A record of an unknown kind."""
        r = self.r
        kind = r.choice([21, 22, 23, 24])
        wire = {21: 0, 22: 1, 23: 2, 24: 5}[kind]
        n = self.number()
        taken = {e[1]: e for e in mine}
        if n in taken and (WIRE[taken[n][2]] == wire or (wire == 2 and taken[n][3])):
            return
        s = e = r.randrange(5)
        if kind == 23:
            s, e = self.put_content(payload, self.content())
        out.append((depth, n, kind, 0 if kind == 23 else self.value(kind) if kind == 24 else self.pattern(), s, e))

    def known(self, entries, payload, out, entry, depth):
        r = self.r
        _, n, kind, repeated, child = entry
        s = e = r.randrange(5)
        if kind == 9:
            s, e = self.put_content(payload, self.text())
        if kind == 12:
            s, e = self.put_content(payload, self.content())
        if repeated and WIRE[kind] != 2 and r.random() < .6:
            out.append((depth, n, 20, 0, s, e))
            out += [(depth + 1, n, kind, self.value(kind), s, e) for _ in range(r.choice([1, 1, 2, 3, 8]))]
            return
        out.append((depth, n, kind, 0 if kind in (9, 11, 12) else self.value(kind), s, e))
        if kind == 11 and depth < 6:
            self.run(entries, payload, out, child, depth + 1, r.randrange(3))

    def spoilt(self, records, payload, entries):
        """One fault of some way in a valid list."""
        r = self.r
        out = [list(x) for x in records]
        if not out:
            return [(r.choice([0, 1, 2, U64]), r.choice([0, 1, MAX_NUMBER + 1]), r.choice([0, 10, 19, 20, 25, 26, 5]), 0, 0, 0)]
        i = r.randrange(len(out))
        x = out[i]
        way = r.randrange(12)
        if way == 0:
            x[0] += r.choice([1, 2, 99, 100, U64 - x[0]])
        elif way == 1:
            x[1] = r.choice([0, MAX_NUMBER + 1, x[1] + 1, U32, U64, 1 << 32 | x[1]])
        elif way == 2:
            x[2] = r.choice([0, 10, 19, 20, 25, 26, 27, U64, r.randrange(30)])
        elif way == 3:
            x[3] = r.choice([1, 2, 1 << 31, U32, 1 << 32, U64, U64 ^ U32, (1 << 63) - 1, U64 - (1 << 31), U64 + 1 - (1 << 31)])
        elif way == 4:
            x[4], x[5] = r.choice([(1, 0), (0, len(payload) + 1), (len(payload) + 1, len(payload) + 1), (U64, U64), (0, U64), (len(payload), len(payload))])
        elif way == 5:
            heads = [j for j, y in enumerate(out) if y[2] == 20]
            if heads:
                j = r.choice(heads)
                del out[j + 1:r.choice([j + 2, len(out)])]
        elif way == 6:
            packed = [j for j in range(1, len(out)) if out[j - 1][2] == 20]
            if packed:
                y = out[r.choice(packed)]
                y[r.choice([1, 2])] = r.choice([1, 2, 3, 5, 13, 17, y[1]])
        elif way == 7:
            del out[i]
        elif way == 8:
            out.insert(i, list(r.choice(out)))
        elif way == 9:
            s, e = self.put_content(payload, bytes.fromhex(r.choice(BROKEN)))
            texts = [y for y in out if y[2] == 9]
            if texts:
                y = r.choice(texts)
                y[4], y[5] = s, e
        elif way == 10:
            x[0] = max(0, x[0] - 1)
        else:
            r.shuffle(out)
        return [tuple(y) for y in out]


# ---- lines

PLACES = random.Random()  # of tags: a generator of its own, so that these take nothing from the others


def place(short):
    """A tag's place, which writing ignores: any number."""
    return PLACES.randrange(10) if short else PLACES.choice([0, 1, PLACES.randrange(100), PLACES.randrange(100), 1 << 31, U32, 1 << 63, U64, PLACES.getrandbits(64)])


def list_word(records):
    """A list, each record with some place of its tag; in a long list they are short, so that it fits a line."""
    return ';'.join(','.join(map(str, (*x, place(len(records) > 200)))) for x in records) or '-'


class Lines(Maker):
    """Each method gives a few lines of one family; the families of segment files are in Segments."""

    def leaf(self):
        r = self.r
        v, v32, kind, n = self.pattern(), self.pattern(32), r.choice(KINDS), r.choice([self.number(), self.number(), 0, MAX_NUMBER + 1, U32])
        lines = ['encode %d' % v, 'vsize %d' % v, 'tagsize %d' % n, 'zdec32 %d' % v32, 'zdec64 %d' % v, 'zenc64 %d' % v, 'zenc32 %d' % self.value(17),
                 'tag %d' % self.pattern(32), 'tag %d' % r.randrange(70), 'maketag %d %d' % (n, r.randrange(8)), 'wire %d' % r.choice([r.randrange(30), U32, v32]),
                 'msgsize %d' % r.choice([v, 2147483647, 2147483648, 2147483646]),
                 'fieldsize %d %d %d' % ((kind, n, self.value(kind)) if kind in NUMBERS else (9 if kind == 9 else 12, n, r.choice([r.randrange(300), self.pattern(20), self.pattern(20), r.choice([self.pattern(), 2147483630 + r.randrange(30)])]))),
                 'packedsize %d %d %s' % (self.packed_values(r.choice(NUMBERS)))]
        lines += ['varint%d %s' % (bits, self.varint_bytes().hex() or '-') for bits in (32, 64)]
        return lines

    def packed_values(self, kind):
        r = self.r
        return kind, self.number(), ','.join(str(self.value(kind)) for _ in range(r.choice([0, 1, 2, 3, 10, 40]))) or '-'

    def varint_bytes(self):
        r = self.r
        w = r.randrange(4)
        if w == 0:
            b = varint(self.pattern())
        elif w == 1:
            b = longer(self.pattern(), r.randrange(1, 12))
        elif w == 2:
            b = bytes(r.choice([0x80, 0xff, r.randrange(128, 256)]) for _ in range(r.choice([3, 4, 5, 8, 9, 10]))) + bytes([r.choice([0, 1, 2, 0x0f, 0x10, 0x7f, 0x80])])
        else:
            b = r.randbytes(r.randrange(12))
        return b[:r.randrange(len(b) + 1)] if r.random() < .2 else b + r.randbytes(r.randrange(3))

    def utf8(self):
        r = self.r
        b = bytes.fromhex(''.join(r.choice(GOOD) for _ in range(r.randrange(5))))
        lines = ['utf8 ' + hexed(b), 'utf8 ' + hexed(self.damaged(b))]
        i = r.randrange(len(b) + 1)
        lines.append('utf8 ' + hexed(b[:i] + bytes.fromhex(r.choice(BROKEN)) + b[i:]))
        lines.append('utf8 ' + hexed(bytes(r.choice([0x41, 0x7f, 0x80, 0x8f, 0x90, 0x9f, 0xa0, 0xbf, 0xc1, 0xc2, 0xdf, 0xe0, 0xed, 0xef, 0xf0, 0xf4, 0xf5]) for _ in range(4))))
        return lines

    def groups(self):
        """Skips and the document check over nested groups, at levels around 100."""
        r = self.r
        level = r.choice([0, 0, 0, 1, 50, 98, 99, 100, 101, 250, U32])
        t = r.choice([11, 11, 11, 8, 9, 10, 13, 12, 14, 15, 0, 3, self.number() * 8 + r.randrange(8)])
        b = r.choice([self.group(3), self.group(1)[1:], self.message([], 0, 2)])
        b = self.damaged(b) if r.random() < .5 else b
        many, more = r.choice([1, 2, 98, 99, 100, 101, 102]), r.choice([-1, 0, 0, 0, 1])
        near = b'\x0b' * many + (b'\x08\x01' if r.random() < .2 else b'') + b'\x0c' * max(0, many + more)
        lines = ['%s %d %d %s' % (v, level, t, hexed(b)) for v in ('skip', 'group')]
        lines += ['%s %d %d %s' % (v, r.choice([0, 0, 0, 1, 99, 100]), 11, hexed(near)) for v in ('skip', 'group')]
        return lines + ['document ' + hexed(near), 'document ' + hexed(b)]

    def schemas(self):
        """A valid schema, one fault in it, and searches."""
        r = self.r
        types, entries = self.schema()
        bad = [list(e) for e in entries]
        bad_types = types
        way = r.randrange(13)
        if way == 0 or not bad:
            bad_types = r.choice([0, 33, 34, U32, types])
        else:
            e = r.choice(bad)
            if way == 1:
                e[0] = r.choice([types, types + 1, U32])
            elif way == 2:
                e[1] = r.choice([0, MAX_NUMBER + 1, U32])
            elif way == 3:
                e[2] = r.choice([0, 10, 19, 20, 25, U32])
            elif way == 4:
                e[3] = 2
            elif way == 5:
                e[4] = r.choice([types, types + 1, 1, U32])
            elif way == 6:
                r.shuffle(bad)
            elif way == 7:
                bad.insert(r.randrange(len(bad)), list(e))
            elif way == 8:
                bad = [[0, i + 1, 4, 0, 0] for i in range(r.choice([255, 256, 257, 300]))]
            elif way == 9:
                e[2], e[4] = 11, r.choice([types - 1, types])
        lines = ['schema ' + schema_word(types, entries), 'schema ' + schema_word(bad_types, bad)]
        for _ in range(2):
            e = r.choice(entries) if entries else (0, 1)
            lines.append('lookup %s %d %d' % (schema_word(types, entries), e[0] if r.random() < .8 else r.randrange(4), e[1] if r.random() < .7 else self.number()))
        lines.append('lookup %s %d %d' % (schema_word(bad_types, bad), r.randrange(3), r.randrange(9)))
        if r.random() < .3:
            lines.append('read %s 5 %s' % (schema_word(bad_types, bad), hexed(self.message(entries, 0, 2))))
            lines.append('size %s %s -' % (schema_word(bad_types, bad), list_word(self.records(entries, bytearray()))))
        return lines

    def reads(self):
        r = self.r
        types, entries = self.schema()
        word = schema_word(types, entries)
        b = self.message(entries, 0, 4)
        lines = ['read %s %d %s' % (word, r.choice([100, 100, 4096]), hexed(b))]
        lines += ['read %s 100 %s' % (word, hexed(self.damaged(b))) for _ in range(5)]
        lines += ['read %s %d %s' % (word, r.randrange(6), hexed(b)), 'read %s %d %s' % (word, r.randrange(4), hexed(self.damaged(b)))]
        lines.append('records %s %s' % (word, hexed(b if r.random() < .4 else self.damaged(b))))
        return lines

    def cuts(self):
        """Every cut of a good message."""
        types, entries = self.schema()
        word = schema_word(types, entries)
        b = self.message(entries, 0, 4)[:60]
        return ['read %s 100 %s' % (word, hexed(b[:i])) for i in range(len(b) + 1)]

    def rooms(self):
        """A message with room for all its records, for one fewer, for one and for none. The count is not known here: all rooms up to one of them are tried."""
        types, entries = self.schema()
        word = schema_word(types, entries)
        b = self.message(entries, 0, 3)[:40]
        return ['read %s %d %s' % (word, room, hexed(b)) for room in range(min(len(b), 8) + 1)]

    def packed(self):
        """A packed field of each kind whose last element is bad."""
        r = self.r
        kind = r.choice(NUMBERS)
        word = schema_word(1, [(0, 1, kind, 1, 0)])
        good = b''.join(self.encoded(kind, self.value(kind)) for _ in range(r.randrange(4)))
        bad = r.choice([b'\x80', b'\xff' * 4 + b'\x10', b'\xff' * 5, b'\xff' * 9 + b'\x02', b'\x80' * 10, b'\x80\x80\x80\x80\x08', b'\xff\xff\xff\xff\x0f', b'\x01\x02\x03', b'\x01'])
        body = good + bad
        field = tag(1, 2) + counted(body)
        lines = ['read %s 9 %s' % (word, hexed(field)), 'read %s 9 %s' % (word, hexed(field[:r.randrange(len(field) + 1)])), 'read %s %d %s' % (word, r.randrange(5), hexed(field))]
        return lines + ['read %s 9 %s' % (word, hexed(tag(1, 2) + varint(len(body) + r.choice([-1, 1, 2, 100, U32, 1 << 62])) + body))]

    def deep(self):
        """Messages, groups and lists around the deepest that there may be."""
        r = self.r
        levels = r.choice([98, 99, 100, 101, 102])
        s = '1|0,1,11,0,0;0,2,17,1,0;0,3,9,1,0'
        inner = r.choice([b'', b'\x10\x01', b'\x12\x02\x01\x02', b'\x0a', b'\x0a\xff', b'\x0b\x0c', b'\x0b\x13\x0c\x0c', b'\x0b', b'\x08', b'\x0a\x00', b'\x1a\x01\xff', b'\x0b\x13\x13\x0c\x0c\x0c'])
        b = nested(levels, 1, inner)
        lines = ['read %s %d %s' % (s, r.choice([200, 99, 100, 101, 102]), hexed(b))]
        head = [(d, 1, 11, 0, 0, 0) for d in range(levels)]
        tail = r.choice([[], [(levels, 2, 17, 5, 0, 0)], [(levels, 2, 20, 0, 0, 0), (levels + 1, 2, 17, 5, 0, 0)], [(levels, 3, 9, 0, 0, 1)], [(levels + 1, 2, 17, 5, 0, 0)], [(levels, 1, 11, 1, 0, 0)]])
        payload = r.choice(['41', 'ff'])
        lines += ['size %s %s %s' % (s, list_word(head + tail), payload), 'write %s %s %s 700' % (s, list_word(head + tail), payload)]
        if r.random() < .05:
            lines += self.long()
        level = r.choice([98, 99, 100])
        return lines + ['pull %d enter,tag,enter,tag,skip:11,leave %s' % (level, hexed(counted(b'\x0a' + counted(b'\x0b' + b'\x0b\x0c\x0c'))))]

    def long(self):
        """Lines, rooms and answers about as long as they may be."""
        r = self.r
        count = r.choice([4094, 4095, 4096, 4097])
        lines = ['utf8 ' + 'c3a4' * ((65536 - 5) // 4 + r.randrange(2)), 'read %s %d %s' % (A, r.choice([4095, 4096]), '0801' * count), 'records %s %s' % (A, '0801' * r.choice([1023, 1024, 1025]))]
        lines.append('write %s %s - %d' % (A, list_word([(0, 4, 20, 0, 0, 0)] + [(1, 4, 17, 1, 0, 0)] * count), count + r.choice([2, 3, 4])))
        content, times = r.choice([20000, 21000]), r.randrange(1, 5)
        return lines + ['write 1|0,1,12,1,0 %s %s 65536' % (list_word([(0, 1, 12, 0, 0, content)] * times), '00' * content)]

    def lists(self):
        r = self.r
        types, entries = self.schema()
        word = schema_word(types, entries)
        payload = bytearray()
        records = self.records(entries, payload)
        if r.random() < .3:
            payload += b'zz'
        lines = ['size %s %s %s' % (word, list_word(records), hexed(payload)), 'write %s %s %s 4000' % (word, list_word(records), hexed(payload))]
        for room in r.sample(range(40), 3):
            lines.append('write %s %s %s %d' % (word, list_word(records), hexed(payload), room))
        for verb in ('size', 'write', 'write'):
            more = bytearray(payload)
            bad = self.spoilt(records, more, entries)
            lines.append('%s %s %s %s%s' % (verb, word, list_word(bad), hexed(more), ' 4000' if verb == 'write' else ''))
        return lines

    def exact(self):
        """A short list with every room up to more than it needs."""
        types, entries = self.schema()
        payload = bytearray()
        records = self.records(entries, payload)[:3]
        if records and records[-1][2] == 20:
            records = records[:-1]
        return ['write %s %s %s %d' % (schema_word(types, entries), list_word(records), hexed(payload), room) for room in range(14)]

    def pulls(self):
        r = self.r
        types, entries = self.schema()
        out, steps = bytearray(), []
        self.walk(entries, 0, out, steps, 3)
        b = bytes(out)
        lines = []
        for damage in (False, False, True):
            if damage:
                b = self.damaged(b)
            mixed = [s if r.random() > .15 else r.choice(STEPS + ['tag', 'bytes', 'string', 'enter', 'leave', 'skip:%d' % r.choice([8, 9, 10, 11, 12, 13, 14, 0, self.pattern(32)])]) for s in steps]
            for some in (steps, mixed):
                lines.append('pull %d %s %s' % (r.choice([0, 0, 0, 97, 98, 99, 100]), ','.join(some[:60]) or 'tag', hexed(b)))
        return lines

    def walk(self, entries, of_type, out, steps, deep):
        """A message, and the steps that read it."""
        r = self.r
        mine = [e for e in entries if e[0] == of_type]
        for _ in range(r.randrange(1, 4)):
            if not mine or r.random() < .2:
                n, wire = self.number(), r.choice([0, 1, 2, 3, 5])
                out += self.unknown(wire, n)
                steps += ['tag', 'skip:%d' % (n * 8 + wire)]
                continue
            e = r.choice(mine)
            steps.append('tag')
            if e[2] != 11:
                out += self.field(entries, (e[0], e[1], e[2], 0, 0), deep)
                steps.append(NAME[e[2]])
                continue
            inner = bytearray()
            steps.append('enter')
            if deep:
                self.walk(entries, e[4], inner, steps, deep - 1)
            steps.append('leave')
            out += tag(e[1], 2) + counted(inner)
        if r.random() < .5:
            steps.append('tag')

    def no_case(self):
        """Lines that are no case."""
        r = self.r
        good = r.choice([self.leaf()[0], self.leaf()[-1], 'read %s 5 0801' % A, 'write %s - - 5' % A, 'size %s - -' % A, 'pull 0 tag 08', 'skip 0 8 01', 'schema ' + A, 'lookup %s 0 1' % A, 'utf8 41'])
        words = good.split(' ')
        return [r.choice(['', 'what 1', ' '.join(words[:-1]), good + ' 1', good + 'x', good[:-1] + 'G', 'varint64 0', 'varint64 0A', 'encode 18446744073709551616', 'tag 4294967296', 'encode -1', 'encode',
                          'utf8 ', 'read %s 4097 -' % A, 'write %s - - 65537' % A, 'pull 101 tag 08', 'pull 0 tagg 08', 'pull 0 skip: 08', 'schema 1', 'schema 1|0,1,5,0', 'schema x|-', 'read 1|- 5',
                          'size %s 0,1,5,1,0,0 -' % A, 'zdec32 4294967296', 'wire x', 'READ', 'varint64 8'])]


FRONT = b'WFM\x01\x00'
# lengths that no segment of a line can hold, up to the largest of 32 bits
HUGE = [1 << 14, 1 << 16, (1 << 21) - 1, 1 << 21, 1 << 24, (1 << 28) - 1, 1 << 28, (1 << 31) - 6, (1 << 31) - 1, 1 << 31, (1 << 31) + 1, U32 - 5, U32 - 1, U32]
# lengths of more than 32 bits, lengths that do not end, and cut ones
BAD_LENGTHS = ['ffffffff10', '8080808010', 'ffffffff7f', '808080808000', 'ffffffffff01', '8080808080', 'ffffffffffffffffff01', '80808080808080808080', '80', 'ff', '8080', 'ffff', '808080',
               'ffffff', '80808080', 'ffffffff']


class Segments(Maker):
    """Lines of segment files. A segment is made as pieces, the front and each message after its length, so that a fault can be put where a length is."""

    def length(self, n):
        """A length, now and then in more bytes than are needed."""
        least = len(varint(n))
        return longer(n, self.r.randrange(least, 6)) if self.r.random() < .1 else varint(n)

    def sizes(self):
        r = self.r
        out = [r.choice([0, 0, 1, 2, 3, 5, 19, 40, 126, 127, 128, 129, r.randrange(40), r.randrange(300)]) for _ in range(r.choice([0, 1, 1, 2, 2, 3, 4, 8]))]
        if r.random() < .02:
            out.insert(r.randrange(len(out) + 1), r.choice([16383, 16384, 16385]))
        return out

    def pieces(self):
        return [FRONT] + [self.length(n) + self.r.randbytes(n) for n in self.sizes()]

    def fronts(self, b):
        """A front that is wrong, or cut."""
        r = self.r
        front = bytearray(FRONT)
        way = r.randrange(6)
        if way == 0:
            return b[:r.randrange(5)]
        if way == 1:
            front[r.randrange(3)] ^= 1 << r.randrange(8)
        elif way == 2:
            front[3:5] = r.choice([b'\x00\x00', b'\x02\x00', b'\x00\x01', b'\x01\x01', b'\xff\xff', b'\x01\x80', b'\x81\x00'])
        elif way == 3:
            front[3 + r.randrange(2)] ^= 1 << r.randrange(8)
        elif way == 4:
            front[:3] = r.choice([b'wfm', b'MFW', b'WFN', b'WMF', b'\x00\x00\x00', b'FM\x01'])
        else:
            front = bytearray(r.randbytes(5))
        return bytes(front) + b[5:]

    def spoilt(self, pieces):
        """One fault of some way in a good segment."""
        r = self.r
        pieces = list(pieces)
        b = b''.join(pieces)
        i = r.randrange(1, len(pieces) + 1)
        way = r.randrange(9)
        if way == 0:
            return self.fronts(b)
        if way == 1:
            return b[:r.randrange(len(b) + 1)]
        if way == 2:
            pieces.insert(i, bytes.fromhex(r.choice(BAD_LENGTHS)))
        elif way == 3:
            pieces.insert(i, varint(r.choice(HUGE)))
        elif way == 4:
            rest = sum(map(len, pieces[i:]))
            pieces.insert(i, self.length(rest + r.choice([0, 1, 1, 2, 127, 128])))
        elif way == 5:
            pieces.append(bytes.fromhex(r.choice(BAD_LENGTHS + ['00', '01', '05', '7f', '8001'])))
        elif way == 6 and len(b) > 5:
            at = r.randrange(5, len(b))
            return b[:at] + bytes([b[at] ^ 1 << r.randrange(8)]) + b[at + 1:]
        elif way == 7 and len(b) > 5:
            at = r.randrange(5, len(b))
            return b[:at] + b[at + 1:]
        else:
            return b[:5] + r.randbytes(r.randrange(12))
        return b''.join(pieces)

    def reads(self):
        r = self.r
        pieces = self.pieces()
        count = len(pieces) - 1
        lines = ['segread %d %s' % (room, hexed(b''.join(pieces))) for room in {count, max(0, count - 1), r.choice([0, 1, count + 1, 4096])}]
        for _ in range(6):
            room = r.choice([count, count, count + 1, max(0, count - 1), r.randrange(count + 1), 100])
            lines.append('segread %d %s' % (room, hexed(self.spoilt(pieces))))
        return lines

    def cuts(self):
        """Every cut of a good segment."""
        pieces = self.pieces()
        b = b''.join(pieces)[:70]
        return ['segread %d %s' % (len(pieces), hexed(b[:i])) for i in range(len(b) + 1)]

    def ranges(self, payload):
        """Ranges in the payload: in order or not, that overlap, that are empty, or the whole."""
        r, n = self.r, len(payload)
        out = []
        for _ in range(r.choice([0, 1, 1, 2, 2, 3, 5, 8])):
            start = r.choice([0, n, r.randrange(n + 1), out[-1][1] if out else 0])
            out.append((start, r.choice([start, n, r.randrange(start, n + 1), r.randrange(start, n + 1)])))
        return out

    def outside(self, ranges, payload):
        """Ranges of which one, or a second one too, is not in the payload."""
        r, n = self.r, len(payload)
        out = list(ranges)
        for _ in range(r.choice([1, 1, 2])):
            inside = r.randrange(n + 1)
            bad = r.choice([(inside + 1, inside), (n, n - 1) if n else (1, 0), (0, n + 1), (inside, n + 1), (n + 1, n + 1), (n + 1, n), (n + 2, n + 9), (0, U64), (U64, U64), (U64, 0), (U64, n), (U64 - 1, U64),
                            (1 << 63, 1 << 63), (0, 1 << 32), (1 << 32, 1 << 32), (1 << 32, (1 << 32) + n), ((1 << 32) + inside, inside), (1 << 31, 1 << 31), (0, self.pattern() + n + 1 & U64 or U64)])
            out.insert(r.randrange(len(out) + 1), bad)
        return out

    def writes(self):
        r = self.r
        payload = r.randbytes(r.choice([0, 1, 5, 19, 60, 127, 128, 129, 200, 300, r.randrange(400)]))
        if r.random() < .01:
            payload = r.randbytes(r.choice([16383, 16384, 16385]))
        ranges = self.ranges(payload)
        size = 5 + sum(len(varint(e - s)) + e - s for s, e in ranges)
        bad = self.outside(ranges, payload)
        line = lambda some, room: 'segwrite %s %s %d' % (range_word(some), hexed(payload), min(room, 65536))
        rooms = [size, size - 1, size + 1, 4000, 65536, 0, 4, 5, r.randrange(size)]
        return [line(ranges, size), line(ranges, size - 1), line(ranges, r.choice(rooms)), line(bad, r.choice(rooms)), line(bad, 65536)]

    def no_case(self):
        """Lines that are no case."""
        good = self.r.choice(['segread 5 57464d0100', 'segwrite 0-1;1-2 0102 20', 'segwrite - - 5'])
        words = good.split(' ')
        return [self.r.choice([' '.join(words[:-1]), good + ' 1', good + 'x', good.replace('w', 'W'), 'segread', 'segread 4097 57464d0100', 'segread 5 57464d010', 'segread 5 57464D0100',
                               'segread 4294967296 -', 'segread -1 -', 'segread  57464d0100', 'segwrite 0-1 01 65537', 'segwrite 0-1; 01 9', 'segwrite ;0-1 01 9', 'segwrite 0,1 01 9', 'segwrite 0 01 9',
                               'segwrite 0-1-1 01 9', 'segwrite 0-1;1 01 9', 'segwrite -0 01 9', 'segwrite 0- 01 9', 'segwrite -1 01 9', 'segwrite 0--1 01 9', 'segwrite 0-18446744073709551616 01 9',
                               'segwrite 18446744073709551616-0 01 9', 'segwrite 0-1 1 9', 'segwrite  01 9', 'segwrite 0-1 01', 'segwrite 0-1 01 -1', 'segwrite 0-1;-0-1 01 9'])]

    def long(self):
        """Lines, rooms and answers about as long as they may be."""
        r = self.r
        count = r.choice([4094, 4095, 4096, 4097])
        content, times = r.choice([20000, 21000, 21840]), r.randrange(1, 5)
        return ['segread %d %s' % (r.choice([4095, 4096]), hexed(FRONT + b'\x00' * count)), 'segwrite %s 41 %d' % (range_word([(0, 1)] * count), 5 + 2 * count - r.randrange(2)),
                'segwrite %s %s 65536' % (range_word([(0, content)] * times), '5a' * content), 'segread 9 ' + hexed(FRONT + b'\xff\xff\x01' + b'\x00' * r.choice([32750, 32740]))]


def range_word(ranges):
    return ';'.join('%d-%d' % x for x in ranges) or '-'


class Documents(Maker):
    """Lines of groups that end under their own number or another: what the document check says, and that reading and both skips do not look. A run of fields is a
    list of pieces: a start or end tag as (number, wire type), any other field as its bytes."""

    def near(self, n):
        """Another number: next to n, or one bit away."""
        r = self.r
        other = r.choice([n + 1, n - 1, n ^ 1 << r.randrange(29), n ^ 1 << r.choice([4, 8, 16, 24, 28]), self.number()])
        return other if 0 < other <= MAX_NUMBER and other != n else n % MAX_NUMBER + 1

    def fields(self, deep):
        """Fields and groups, in which every group ends under its own number."""
        r, out = self.r, []
        for _ in range(r.choice([0, 1, 1, 2, 3])):
            n = self.number()
            out += [(n, 3)] + self.fields(deep - 1) + [(n, 4)] if deep and r.random() < .7 else [self.unknown(r.choice([0, 1, 2, 5]), n)]
        return out

    def spelled(self, pieces):
        """The bytes of the pieces, tags now and then longer than needed."""
        out = b''
        for x in pieces:
            b = x if isinstance(x, bytes) else tag(*x)
            out += longer(x[0] * 8 + x[1], self.r.randrange(len(b), 6)) if not isinstance(x, bytes) and self.r.random() < .1 else b
        return out

    def spoilt(self, pieces):
        """One end tag of another number, two of them exchanged, one left out, or one too many."""
        r, out = self.r, list(pieces)
        ends = [i for i, x in enumerate(out) if not isinstance(x, bytes) and x[1] == 4]
        if not ends:
            return out + [(self.number(), 4)]
        i, j = r.choice(ends), r.choice(ends)
        way = r.randrange(6)
        if way < 3:
            out[i] = (self.near(out[i][0]), 4)
        elif way == 3:
            out[i], out[j] = out[j], out[i]
        elif way == 4:
            del out[i]
        else:
            out.insert(i, out[j])
        return out

    def asked(self, pieces):
        """The check of these pieces; and, where a group is first, reading it and both skips from its tag on."""
        b = self.spelled(pieces)
        lines = ['document ' + hexed(b)]
        if pieces and not isinstance(pieces[0], bytes):
            rest = self.spelled(pieces[1:])
            lines += ['%s %d %d %s' % (v, self.r.choice([0, 0, 1, 98, 99, 100]), pieces[0][0] * 8 + pieces[0][1], hexed(rest)) for v in ('skip', 'group')]
            lines.append('read %s 9 %s' % (A, hexed(b)))
        return lines

    def nests(self):
        pieces = self.fields(4)
        return self.asked(pieces) + self.asked(self.spoilt(pieces)) + self.asked(self.spoilt(pieces))

    def cuts(self):
        """Every cut of a document."""
        b = self.spelled(self.fields(3))[:60]
        return ['document ' + hexed(b[:i]) for i in range(len(b) + 1)]

    def depths(self):
        """About 100 groups, one in the other, of different numbers: ended right, one of them under another number, and in the order in which they began."""
        r = self.r
        numbers = [self.number() for _ in range(r.choice([1, 2, 3, 98, 99, 100, 100, 101, 102]))]
        starts, ends = [(n, 3) for n in numbers], [(n, 4) for n in reversed(numbers)]
        i = r.choice([0, len(ends) - 1, r.randrange(len(ends))])
        other = ends[:i] + [(self.near(ends[i][0]), 4)] + ends[i + 1:]
        return [line for some in (ends, other, ends[::-1]) for line in self.asked(starts + some)]


# the rows of RFC 3629's table: the first and last lead byte, the lowest and highest first follower, and how many follow that one; ASCII has no follower
ROWS = [(0x00, 0x7f, 0, 0, -1), (0xc2, 0xdf, 0x80, 0xbf, 0), (0xe0, 0xe0, 0xa0, 0xbf, 1), (0xe1, 0xec, 0x80, 0xbf, 1), (0xed, 0xed, 0x80, 0x9f, 1),
        (0xee, 0xef, 0x80, 0xbf, 1), (0xf0, 0xf0, 0x90, 0xbf, 2), (0xf1, 0xf3, 0x80, 0xbf, 2), (0xf4, 0xf4, 0x80, 0x8f, 2)]


class Letters(Maker):
    """Lines of texts that have letters of every row of the table, in runs of one row, and of the same texts with a byte that is wrong, missing or too many."""

    def letter(self, row):
        """A letter of the row, most often at its bounds."""
        first, last, low, high, more = row
        between = lambda a, b: self.r.choice([a, b, self.r.randrange(a, b + 1)])
        return bytes([between(first, last)] + [between(low, high)] * (more >= 0) + [between(0x80, 0xbf) for _ in range(more)])

    def text(self):
        """Runs of letters, as long as makes a run end at and around eight and sixteen bytes."""
        r = self.r
        runs = [(r.choice(ROWS), r.choice([0, 1, 1, 2, 3, 4, 5, 7, 8, 9, 15, 16, 17])) for _ in range(r.choice([1, 1, 2, 3, 4]))]
        return b''.join(self.letter(row) for row, n in runs for _ in range(n))

    def spoilt(self, b):
        """One byte of another value, next to it or at a bound, one left out, or one too many."""
        r = self.r
        if not b:
            return bytes([r.choice(LEADS)])
        i = r.randrange(len(b))
        other = r.choice([b[i] + 1, b[i] - 1, b[i] ^ 1 << r.randrange(8), r.choice(LEADS)]) % 256
        return r.choice([b[:i] + bytes([other]) + b[i + 1:], b[:i] + bytes([other]) + b[i + 1:], b[:i] + b[i + 1:], b[:i] + bytes([other]) + b[i:]])

    def inside(self, b):
        """A message that has this text as a string some messages deep, other fields before and after it, tags and lengths now and then longer than needed."""
        r = self.r
        others = lambda: b''.join(self.unknown(r.choice([0, 1, 2, 5]), r.choice([1, 16, 2048])) for _ in range(r.randrange(3)))
        number = lambda v: longer(v, r.randrange(len(varint(v)), 6)) if r.random() < .2 else varint(v)
        field = lambda n, content: others() + number(n * 8 + 2) + number(len(content)) + content + others()
        out = field(2, b)
        for _ in range(r.choice([99, 100, 101]) if r.random() < .02 else r.choice([0, 1, 1, 2, 2, 3])):
            out = field(3, out)
        return out

    def asked(self, b):
        """The check and the longest valid front; now and then reading, writing and pulling a string of these bytes."""
        lines = ['utf8 ' + hexed(b), 'utf8prefix ' + hexed(b)]
        if self.r.random() < .3:
            content = varint(len(b)) + b
            lines += ['read %s %d %s' % (NEST, self.r.choice([400, 400, 2]), hexed(self.inside(b))), 'records %s %s' % (NEST, hexed(self.inside(b)))]
            lines += ['read %s 9 %s' % (A, hexed(tag(2, 2) + content)), 'write %s %s %s %d' % (A, list_word([(0, 2, 9, 0, 0, len(b))]), hexed(b), len(b) + 9), 'pull 0 string,tag ' + hexed(content)]
        return lines

    def texts(self):
        b = self.text()
        return [line for some in (b, self.spoilt(b), self.spoilt(b)) for line in self.asked(some)]

    def cuts(self):
        """Every cut of a text, from its front and from its end."""
        b = self.text()[:40]
        return [verb + hexed(some) for i in range(len(b) + 1) for some in (b[:i], b[i:]) for verb in ('utf8 ', 'utf8prefix ')]


class Spans(Maker):
    """Lines of what reading drops: groups and empty packed fields, at every depth, and faults in groups. A message is made as its bytes and, in order, whether each
    of its records is a dropped span, so that rooms can end just before one and just after it."""

    def spelled(self, v, most):
        """A varint, now and then of more bytes than are needed."""
        b = varint(v)
        return longer(v, self.r.randrange(len(b), most + 1)) if self.r.random() < .15 else b

    def tagged(self, n, wire):
        return self.spelled(n * 8 + wire, 5)

    def group(self, deep):
        """A group, mostly ended under its own number."""
        r, n = self.r, self.number()
        out = self.tagged(n, 3)
        for _ in range(r.choice([0, 0, 1, 1, 2, 3])):
            out += self.group(deep - 1) if deep and r.random() < .5 else self.unknown(r.choice([0, 1, 2, 5]), self.number())
        return out + self.tagged(n if r.random() < .7 else self.number(), 4)

    def empty(self, n):
        """An empty packed field: its length is a varint64."""
        return self.tagged(n, 2) + (longer(0, self.r.randrange(1, 11)) if self.r.random() < .4 else b'\x00')

    def schema(self):
        """Types with a packed field and a message each, so that there is something to drop at every depth."""
        r, types = self.r, self.r.choice([1, 2, 3])
        entries = []
        for owner in range(types):
            numbers = sorted(r.sample(range(1, 20), 5) + [MAX_NUMBER] * (r.random() < .1))
            kinds = [r.choice(NUMBERS), r.choice(NUMBERS), 11, r.choice([9, 12]), r.choice(NUMBERS), r.choice(NUMBERS)]
            entries += [(owner, n, k, 1 if i < 2 else r.randrange(2), r.randrange(types) if k == 11 else 0) for i, (n, k) in enumerate(zip(numbers, kinds))]
        return types, entries

    def piece(self, entries, of_type, deep):
        """A field, and its records: yes for a dropped span."""
        r = self.r
        mine = [e for e in entries if e[0] == of_type]
        way = r.randrange(10)
        if way < 3:
            return self.group(r.choice([0, 1, 2, 3])), [True]
        e = r.choice(mine)
        _, n, kind, repeated, child = e
        if way < 5 and repeated and WIRE[kind] != 2:
            return self.empty(n), [True]
        if kind == 11 and deep:
            b, spans = self.pieces(entries, child, deep - 1)
            return self.tagged(n, 2) + self.spelled(len(b), 10) + b, [False] + spans
        if repeated and WIRE[kind] != 2 and r.random() < .5:
            values = [self.encoded(kind, self.value(kind)) for _ in range(r.choice([1, 1, 2, 3]))]
            return self.tagged(n, 2) + counted(b''.join(values)), [False] * (len(values) + 1)
        return self.field(entries, (e[0], n, kind, 0, child), 0), [False]

    def pieces(self, entries, of_type, deep):
        out, spans = b'', []
        for _ in range(self.r.choice([0, 1, 1, 2, 3, 4])):
            b, more = self.piece(entries, of_type, deep)
            out, spans = out + b, spans + more
        return out, spans

    def asked(self, word, room, b):
        """With dropped spans, and now and then without."""
        lines = ['readdropped %s %d %s' % (word, room, hexed(b))]
        return lines + (['read %s %d %s' % (word, room, hexed(b))] if self.r.random() < .2 else [])

    def reads(self):
        """A message with room for all, with room that ends before and after a dropped span, and with faults."""
        r = self.r
        types, entries = self.schema()
        word = schema_word(types, entries)
        b, spans = self.pieces(entries, 0, r.choice([1, 2, 3, 4]))
        rooms = [100, len(spans), max(0, len(spans) - 1)]
        at = [i for i, x in enumerate(spans) if x]
        if at:
            i = r.choice(at)
            rooms += [i, i + 1]
        lines = [line for room in rooms for line in self.asked(word, room, b)]
        return lines + [line for _ in range(4) for line in self.asked(word, r.choice([100, 100, len(spans), r.randrange(len(spans) + 1)]), self.damaged(b))]

    def cuts(self):
        """Every cut of a good message."""
        types, entries = self.schema()
        b, spans = self.pieces(entries, 0, 3)
        b = b[:60]
        return ['readdropped %s %d %s' % (schema_word(types, entries), self.r.choice([100, len(spans)]), hexed(b[:i])) for i in range(len(b) + 1)]

    def faults(self):
        """A fault in a group, outermost or not, some messages deep, after something else that is dropped."""
        r = self.r
        bad = r.choice([b'\x00', b'\x06', b'\x0e', b'\x0f', b'\x07', b'\x80', b'\xff\xff\xff\xff\x10', b'\x08', b'\x08\x80', b'\x08' + b'\xff' * 9 + b'\x02', b'\x09\x01', b'\x0d\x01',
                        b'\x0a\x7f', b'\x0a\x80\x80\x80\x80\x10', b'\x0a\x80\x80\x80\x80\x80\x00', b'\x12\x01\xff', b''])
        inner = b''.join(self.tagged(self.number(), 3) for _ in range(r.choice([1, 1, 2, 3]))) + b''.join(self.unknown(r.choice([0, 2]), self.number()) for _ in range(r.randrange(2))) + bad
        inner += r.choice([b'', b'', b'\x0c', b'\x0c\x0c'])
        before = r.choice([b'', b'', self.group(1), self.empty(1), b'\x08\x01'])
        out, levels = before + inner, r.choice([0, 0, 1, 2, 3])
        for _ in range(levels):
            out = r.choice([b'', b'\x0b\x0c', b'\x0a\x00']) + tag(3, 2) + counted(out) + r.choice([b'', b'\x0c', b'\x0b\x0c'])
        return [line for room in (99, r.randrange(levels + 3)) for line in self.asked(DEEP, room, out)]

    def deep(self):
        """Groups and empty packed fields in messages in messages, to and beyond the deepest; about 100 groups that are open at once."""
        r = self.r
        levels = r.choice([1, 2, 50, 98, 99, 100, 101])
        open_groups = r.choice([1, 1, 2, 3, 100 - min(levels, 99), 101 - levels if levels < 101 else 1, max(1, 102 - levels)])
        inner = r.choice([b'\x0b' * open_groups + b'\x0c' * open_groups, b'\x0a\x00', b'\x0a\x80\x00', b'\x0b\x13\x0c\x14', b'\x0b\x0c\x0a\x00', b'\x1a\x00', b'\x0b' * open_groups])
        between = r.choice([b'', b'', b'\x0b\x0c', b'\x0a\x00'])
        out = inner
        for _ in range(levels):
            out = between + tag(3, 2) + counted(out)
        rooms = [400, levels, levels + 1, 2 * levels, 2 * levels + 1]
        return [line for room in r.sample(rooms, 2) for line in self.asked(DEEP, room, out)]

    def empties(self):
        """A field of length 0 of each kind, repeated or not: empty and packed, or a record of its own; its length of up to eleven bytes."""
        r = self.r
        kind, repeated = r.choice(KINDS), r.randrange(4) > 0
        word = schema_word(1, [(0, 2, kind, int(repeated), 0)])
        field = self.tagged(2, 2) + r.choice([b'\x00', longer(0, r.randrange(1, 12)), b'\x80' * r.randrange(1, 11), b'\x01', b'\x80\x80\x80\x80\x10'])
        out = r.choice([b'', b'', b'\x0b\x0c', self.empty(2)]) + field + r.choice([b'', b'', b'\x0b\x0c', b'\x08\x01', self.empty(2)])
        return [line for room in (9, r.randrange(4)) for line in self.asked(word, room, out)]

    def lists(self):
        """Valid lists, and the same with a record of kind 25 in some place: 10 there, or at a packed head before it."""
        r = self.r
        types, entries = r.choice([self.schema, super().schema])()
        word, payload = schema_word(types, entries), bytearray()
        records = self.records(entries, payload)
        i = r.randrange(len(records) + 1)
        depth = r.choice([records[i - 1][0], records[i - 1][0] + 1, 0]) if i else r.choice([0, 0, 1])
        span = (depth, r.choice([1, 2, 3, self.number()] + [e[1] for e in entries]), 25, r.choice([0, 0, 0, 1, U64]), *r.choice([(0, 0), (0, 2), (0, len(payload)), (3, 1), (U64, U64)]))
        bad = records[:i] + [span] + records[i:]
        if records and r.random() < .3:
            bad = list(records)
            j = r.randrange(len(bad))
            bad[j] = (*bad[j][:2], 25, *bad[j][3:])
        if r.random() < .1:
            bad.insert(r.randrange(len(bad) + 1), (0, 1, 26, 0, 0, 0))
        return ['%s %s %s %s%s' % (verb, word, list_word(some), hexed(payload), ' 4000' if verb == 'write' else '') for verb in ('size', 'write') for some in (records, bad)]

    def no_case(self):
        """Lines that are no case: records of six and of eight numbers, and the verb in other forms."""
        return [self.r.choice(['size %s 0,1,5,1,0,0 -' % A, 'write %s 0,1,5,1,0,0 - 9' % A, 'size %s 0,1,5,1,0,0,0,0 -' % A, 'write %s 0,1,5,1,0,0,0;0,1,5,1,0,0 - 9' % A, 'size %s 0,1,5,1,0,0, -' % A,
                               'size %s 0,1,5,1,0,0,18446744073709551616 -' % A, 'size %s 0,1,5,1,0,0,-1 -' % A, 'readdropped', 'readdropped %s 9' % A, 'readdropped %s 9 0b0' % A, 'readdropped %s 9 0b0c 1' % A,
                               'readdropped %s 4097 0b0c' % A, 'readdropped %s -1 0b0c' % A, 'readdropped 1 9 0b0c', 'readDropped %s 9 0b0c' % A, 'readdroppe %s 9 0b0c' % A, 'readdroppedx %s 9 0b0c' % A,
                               'readdropped  %s 9 0b0c' % A, 'readdropped %s 0b0c' % A, 'readdropped %s 9 0B0C' % A])]

    def long(self):
        """Rooms and answers about as long as they may be: as many spans as there is room for."""
        r = self.r
        count = r.choice([4095, 4096, 4097])
        return ['readdropped %s %d %s' % (DEEP, r.choice([4095, 4096]), r.choice(['0b0c', '0a00']) * count), 'readdropped %s 4096 %s' % (DEEP, 'fbffffff0ffcffffff0f' * 3200),
                'readdropped %s 4096 %s' % (DEEP, hexed(tag(3, 2) + longer(32000, 3) + b'\x0b\x0c' * 16000))]


# the families of each group, each as often as it says
SPANS = [('reads', 400), ('cuts', 30), ('faults', 250), ('deep', 60), ('empties', 120), ('lists', 120), ('no_case', 10), ('long', 1)]
LETTERS = [('texts', 20), ('cuts', 1)]
DOCUMENTS = [('nests', 90), ('cuts', 5), ('depths', 5)]
SEGMENTS = [('reads', 300), ('cuts', 20), ('writes', 400), ('no_case', 40), ('long', 1)]
FAMILIES = [('leaf', 6), ('utf8', 5), ('groups', 8), ('schemas', 6), ('reads', 22), ('cuts', 3), ('rooms', 4), ('packed', 8), ('deep', 2), ('lists', 18), ('exact', 3), ('pulls', 14), ('no_case', 1)]
MATTER = bytes.fromhex('00 01 02 05 06 07 08 09 0a 0b 0c 0d 0e 0f 10 12 13 1a 1c 20 22 24 25 2d 38 7f 80 81 ff')
LEADS = bytes.fromhex('00 7f 80 8f 90 9f a0 bf c0 c1 c2 df e0 e1 ec ed ee ef f0 f1 f3 f4 f5 ff')
P = '1|0,1,5,1,0;0,4,13,1,0;0,5,7,1,0'
NEST = '1|0,2,9,0,0;0,3,11,0,0'  # a string, and a message of the same type
DEEP = '1|0,1,17,1,0;0,3,11,0,0'  # packed sint32, and a message of the same type


def short():
    """Every input of up to two bytes, and of three over the bytes that matter."""
    two = [b''] + [bytes([a]) for a in range(256)] + [bytes([a, b]) for a in range(256) for b in range(256)]
    for b in two:
        h = hexed(b)
        yield from ('read %s 9 %s' % (A, h), 'document ' + h, 'skip 0 11 ' + h, 'group 0 11 ' + h, 'utf8 ' + h)
    for b in two[:257]:
        h = hexed(b)
        yield from ('varint32 ' + h, 'varint64 ' + h)
    three = [bytes([a, b, c]) for a in MATTER for b in MATTER for c in MATTER]
    for b in three:
        h = hexed(b)
        yield from ('read %s 9 %s' % (A, h), 'read %s 9 %s' % (P, h), 'skip 0 11 ' + h, 'group 0 11 ' + h, 'document ' + h)
    for b in (bytes([a, b, c]) for a in LEADS for b in LEADS for c in LEADS):
        yield 'utf8 ' + hexed(b)


def short_segments():
    """Every front that differs in one byte, and every input of up to two bytes after the front."""
    for i in range(5):
        yield from ('segread 1 ' + hexed(FRONT[:i] + bytes([b]) + FRONT[i + 1:] + b'\x01A') for b in range(256))
    for b in [b''] + [bytes([a]) for a in range(256)] + [bytes([a, b]) for a in range(256) for b in range(256)]:
        yield 'segread 2 ' + hexed(FRONT + b)


def short_documents():
    """Every run of up to six start and end tags of three numbers."""
    tags = [tag(n, wire) for n in (1, 2, 16) for wire in (3, 4)]
    for count in range(7):
        yield from ('document ' + hexed(b''.join(some)) for some in itertools.product(tags, repeat=count))


def short_letters():
    """Every lead byte with every first follower, and after these up to two that any lead byte may have: the longest valid front, which answers the check too."""
    for more in range(3):
        yield from ('utf8prefix ' + hexed(bytes([a, b]) + b'\x80' * more) for a in range(256) for b in range(256))


def short_spans():
    """Every input of up to three bytes that matter after a start-group tag; every run of up to four of some fields, with room for all and for one record."""
    for count in range(4):
        yield from ('readdropped %s 9 %s' % (A, hexed(b'\x0b' + bytes(some))) for some in itertools.product(MATTER, repeat=count))
    fields = ['0b', '0c', '13', '14', '2200', '228000', '1a020b0c', '1a00', '0801']
    for count in range(5):
        yield from ('readdropped %s %d %s' % (A, room, ''.join(some) or '-') for some in itertools.product(fields, repeat=count) for room in (9, 1))


def families(make, weights):
    """One family after the other, by the choice of the maker's own random numbers."""
    names = [n for n, w in weights for _ in range(w)]
    while True:
        yield getattr(make, make.r.choice(names))()


def main():
    count, seed = int(sys.argv[1]), int(sys.argv[2])
    group = sys.argv[3] if len(sys.argv) > 3 else ''
    out = sys.stdout
    PLACES.seed(seed)
    every = 1 if count >= 1000000 else 1000000 // max(count, 1) + 1
    given = 0
    starts = {'messages': [short()], 'segments': [short_segments()], 'documents': [short_documents()], 'letters': [short_letters()], 'spans': [short_spans()]}
    starts[''] = [start for some in starts.values() for start in some]
    for i, line in enumerate(line for start in starts[group] for line in start):
        if i % every == seed % every:
            out.write(line + '\n')
            given += 1
    groups = {'messages': families(Lines(seed), FAMILIES), 'segments': families(Segments(seed), SEGMENTS), 'documents': families(Documents(seed), DOCUMENTS), 'letters': families(Letters(seed), LETTERS),
              'spans': families(Spans(seed), SPANS)}
    which = random.Random(seed)
    mixed = ['segments'] * 3 + ['documents'] + ['letters'] + ['spans'] * 2 + ['messages'] * 15
    while given < count:
        lines = next(groups[group or which.choice(mixed)])
        for line in lines[:count - given]:
            out.write(line + '\n')
        given += min(len(lines), count - given)


if __name__ == '__main__':
    main()
