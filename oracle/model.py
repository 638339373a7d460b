#!/usr/bin/env python3
"""A model of the rules, independent of the crate and of this library's code: it answers every case line from the rules alone. It stands in where the crate
has no answer (the places of refusals other than 6, refusals 8 to 10 and 12, the document check, schemas). Reads case lines, writes one answer for each."""
import sys

LIMIT = 2147483647  # of inputs and of sizes
U32, U64 = (1 << 32) - 1, (1 << 64) - 1
MAX_NUMBER = 536870911
MAX_DEPTH = 100
WIRE = {1: 1, 2: 5, 3: 0, 4: 0, 5: 0, 6: 1, 7: 5, 8: 0, 9: 2, 11: 2, 12: 2, 13: 0, 14: 0, 15: 5, 16: 1, 17: 0, 18: 0}
UNKNOWN = {0: 21, 1: 22, 2: 23, 5: 24}
UNKNOWN_WIRE = {21: 0, 22: 1, 23: 2, 24: 5}
NAMES = {'double': 1, 'float': 2, 'int64': 3, 'uint64': 4, 'int32': 5, 'fixed64': 6, 'fixed32': 7, 'bool': 8, 'uint32': 13, 'enum': 14,
         'sfixed32': 15, 'sfixed64': 16, 'sint32': 17, 'sint64': 18}


class Bad(Exception):
    """The line is no case."""


class Refused(Exception):
    """A refusal: its number, and its place where the rule gives one."""

    def __init__(self, number, place=0):
        self.number, self.place = number, place


# ---- words

def number(word, largest=U64):
    if not (word.isascii() and word.isdigit()) or len(word) > 20 or int(word) > largest:
        raise Bad
    return int(word)


def data(word):
    if word == '-':
        return b''
    if not word or len(word) % 2 or word.strip('0123456789abcdef'):
        raise Bad
    return bytes.fromhex(word)


def rows(word, width, largest, joined=','):
    """Rows of so many numbers, with ';' between rows, and ',' or another character within them."""
    if word == '-':
        return []
    out = []
    for row in word.split(';'):
        cells = row.split(joined)
        if len(cells) != width:
            raise Bad
        out.append(tuple(number(c, largest) for c in cells))
    return out


def schema_word(word):
    types, bar, entries = word.partition('|')
    if not bar:
        raise Bad
    return number(types, U32), rows(entries, 5, U32)


def show(records, joined=','):
    return ';'.join(joined.join(map(str, r)) for r in records) or '-'


# ---- varints, zigzag, tags

def varint(b, at, end, most, last):
    """The value and the place behind it: at most `most` bytes, of which the last possible one is at most `last`."""
    value = 0
    for i in range(most):
        if at + i >= end:
            raise Refused(1)
        byte = b[at + i]
        if i == most - 1 and byte > last:
            raise Refused(2)
        value |= (byte & 127) << (7 * i)
        if byte < 128:
            return value, at + i + 1
    raise Refused(2)


def varint64(b, at, end):
    if at < end and b[at] < 128:
        return b[at], at + 1
    return varint(b, at, end, 10, 1)


def varint32(b, at, end):
    if at < end and b[at] < 128:
        return b[at], at + 1
    return varint(b, at, end, 5, 15)


def encode(v):
    out = bytearray()
    while v > 127:
        out.append(v & 127 | 128)
        v >>= 7
    out.append(v)
    return bytes(out)


def vsize(v):
    return (max(v.bit_length(), 1) + 6) // 7


def unzigzag(n):
    return (n >> 1 if n % 2 == 0 else -(n + 1 >> 1)) & U64


def signed(pattern):
    return pattern - (1 << 64) if pattern >> 63 else pattern


def zigzag(pattern):
    v = signed(pattern)
    return 2 * v if v >= 0 else -2 * v - 1


def judged(tag):
    """A tag's number and wire type."""
    if tag % 8 > 5 or tag < 8:
        raise Refused(3)
    return tag // 8, tag % 8


def int32_fits(v):
    return -(1 << 31) <= signed(v) < 1 << 31


def fits(kind, v):
    if kind in (5, 14, 15, 17):
        return int32_fits(v)
    if kind in (2, 7, 13, 24):
        return v <= U32
    if kind == 8:
        return v <= 1
    if kind in (9, 11, 12, 20, 23):
        return v == 0
    return True


# ---- UTF-8

def utf8_prefix(b):
    """The length of the longest front that is whole letters: where the first broken letter begins, or all."""
    i = 0
    while i < len(b):
        lead = b[i]
        low, high = 0x80, 0xbf
        if lead <= 0x7f:
            more = 0
        elif 0xc2 <= lead <= 0xdf:
            more = 1
        elif 0xe0 <= lead <= 0xef:
            more = 2
            low, high = {0xe0: (0xa0, 0xbf), 0xed: (0x80, 0x9f)}.get(lead, (low, high))
        elif 0xf0 <= lead <= 0xf4:
            more = 3
            low, high = {0xf0: (0x90, 0xbf), 0xf4: (0x80, 0x8f)}.get(lead, (low, high))
        else:
            return i
        if i + more >= len(b):
            return i
        for j in range(1, more + 1):
            if not low <= b[i + j] <= high:
                return i
            low, high = 0x80, 0xbf
        i += more + 1
    return i


def utf8(b):
    return utf8_prefix(b) == len(b)


# ---- skipping

def fixed(b, at, end, size):
    if end - at < size:
        raise Refused(1)
    return int.from_bytes(b[at:at + size], 'little'), at + size


def content(b, at, end, read_length):
    """Where the content begins and ends."""
    n, at = read_length(b, at, end)
    if n > end - at:
        raise Refused(1)
    return at, at + n


def past(b, at, end, wire):
    """The place behind a value that is no group."""
    if wire == 0:
        return varint64(b, at, end)[1]
    if wire == 1:
        return fixed(b, at, end, 8)[1]
    if wire == 5:
        return fixed(b, at, end, 4)[1]
    if wire == 2:
        return content(b, at, end, varint32)[1]
    raise Refused(4)


def skip_groups(b, at, end, level, counted):
    """Behind a start-group tag. Counted, the outermost group is one against the level, and the end of the bytes closes all; else it must be closed."""
    if counted and level >= MAX_DEPTH:
        raise Refused(7)
    opened, level = 1, level + 1 if counted else level
    while opened:
        if at == end and counted:
            return at
        tag, at = varint32(b, at, end)
        wire = judged(tag)[1]
        if wire == 4:
            opened -= 1
            level -= 1
        elif wire == 3:
            if level >= MAX_DEPTH:
                raise Refused(7)
            opened += 1
            level += 1
        else:
            at = past(b, at, end, wire)
    return at


def skip(b, at, end, level, tag, counted):
    wire = judged(tag)[1]
    return skip_groups(b, at, end, level, counted) if wire == 3 else past(b, at, end, wire)


def document(b):
    at, opened = 0, []  # the numbers of the groups that are open, the innermost last
    try:
        while at < len(b):
            tag, at = varint32(b, at, len(b))
            num, wire = judged(tag)
            if wire == 3:
                opened.append(num)
                if len(opened) > 100:
                    return False
            elif wire == 4:
                if not opened or opened.pop() != num:
                    return False
            else:
                at = past(b, at, len(b), wire)
    except Refused:
        return False
    return not opened


# ---- schemas

def check_schema(types, entries):
    if not 1 <= types <= 32 or len(entries) > 256:
        raise Refused(9, 0)
    before = None
    for i, (owner, num, kind, repeated, child) in enumerate(entries):
        good = owner < types and 1 <= num <= MAX_NUMBER and kind in WIRE and repeated <= 1 and (child < types if kind == 11 else child == 0)
        if not good or (before is not None and before >= (owner, num)):
            raise Refused(9, i)
        before = (owner, num)


def read_as(entry, wire):
    """The kind that a field of this wire type is read as; entry is none for a number that the schema does not have."""
    if entry:
        kind = entry[2]
        if WIRE[kind] == wire:
            return kind
        if entry[3] and wire == 2 and WIRE[kind] != 2:
            return 20
    return UNKNOWN.get(wire)


# ---- reading

def value(b, at, end, kind):
    """A number's value and the place behind it."""
    wire = WIRE[kind]
    if wire == 1:
        return fixed(b, at, end, 8)
    if wire == 5:
        v, at = fixed(b, at, end, 4)
        return (v | (U64 ^ U32) if kind == 15 and v >> 31 else v), at
    if kind in (13, 17):
        v, at = varint32(b, at, end)
        return (unzigzag(v) if kind == 17 else v), at
    v, at = varint64(b, at, end)
    if kind in (5, 14) and not int32_fits(v):
        raise Refused(5)
    if kind == 8:
        v = min(v, 1)
    return (unzigzag(v) if kind == 18 else v), at


class Reading:
    def __init__(self, entries, room, b, dropped):
        self.table = {}
        for e in entries:
            self.table.setdefault(e[:2], e)
        self.room, self.b, self.dropped, self.records, self.place = room, b, dropped, [], 0

    def put(self, depth, num, kind, v, start, end, tag):
        """One record; its last number is the place of the first byte of its field's tag."""
        if len(self.records) == self.room:
            raise Refused(8)
        self.records.append((depth, num, kind, v, start, end, tag))

    def drop(self, depth, num, tag, end):
        """A skipped group or an empty packed field: where the caller asks for dropped spans, a record of kind 25, from its tag to the first byte after it."""
        if self.dropped:
            self.put(depth, num, 25, 0, tag, end, tag)

    def message(self, at, end, of_type, depth):
        b = self.b
        while at < end:
            here = self.place = at
            tag, at = varint32(b, at, end)
            num, wire = judged(tag)
            entry = self.table.get((of_type, num))
            kind = read_as(entry, wire)
            if kind is None:
                if wire == 4:
                    raise Refused(4)
                at = skip_groups(b, at, end, depth, False)
                self.drop(depth, num, here, at)
            elif kind == 11:
                at = self.nested(at, end, num, entry[4], depth, here)
            elif kind == 20:
                at = self.packed(at, end, num, entry[2], depth, here)
            else:
                at = self.single(at, end, num, kind, depth, here)

    def nested(self, at, end, num, child, depth, tag):
        if depth == MAX_DEPTH:
            raise Refused(7)
        start, stop = content(self.b, at, end, varint64)
        self.put(depth, num, 11, 0, start, stop, tag)
        self.message(start, stop, child, depth + 1)
        return stop

    def packed(self, at, end, num, kind, depth, tag):
        start, stop = content(self.b, at, end, varint64)
        if start < stop:
            self.put(depth, num, 20, 0, start, stop, tag)
        else:
            self.drop(depth, num, tag, stop)
        at = start
        while at < stop:
            v, then = value(self.b, at, stop, kind)
            self.put(depth + 1, num, kind, v, at, then, tag)
            at = then
        return stop

    def single(self, at, end, num, kind, depth, tag):
        b = self.b
        if kind in (9, 12, 23):
            start, stop = content(b, at, end, varint32)
            if kind == 9 and not utf8(b[start:stop]):
                self.place = start + utf8_prefix(b[start:stop])
                raise Refused(6)
            self.put(depth, num, kind, 0, start, stop, tag)
            return stop
        as_kind = {21: 4, 22: 6, 24: 7}.get(kind, kind)
        v, then = value(b, at, end, as_kind)
        self.put(depth, num, kind, v, at, then, tag)
        return then


def read(types, entries, room, b, dropped=False):
    """The refusal number, its place, and the records; with dropped spans where they are asked for."""
    try:
        check_schema(types, entries)
    except Refused as r:
        return 9, r.place, []
    r = Reading(entries, room, b, dropped)
    try:
        r.message(0, len(b), 0, 0)
    except Refused as fault:
        return fault.number, r.place, r.records
    return 0, 0, r.records


# ---- writing

def check_list(entries, records, payload):
    """Raises the first fault of a list, with its index. The places of tags are ignored."""
    table = {}
    for e in entries:
        table.setdefault(e[:2], e)
    inside = [('message', 0, 0)]  # what the records of each depth stand in: message and its type, or packed, its number and kind
    for i, (depth, num, kind, v, start, end, _) in enumerate(records):
        if depth >= len(inside):
            raise Refused(10, i)
        del inside[depth + 1:]
        what, of, element = inside[depth]
        if what == 'packed':
            if (num, kind) != (of, element):
                raise Refused(10, i)
            entry = None
        else:
            entry = table.get((of, num))
            if not 1 <= num <= MAX_NUMBER or not expected(entry, kind):
                raise Refused(10, i)
        if not fits(kind, v) or (kind in (9, 12, 23) and not start <= end <= len(payload)):
            raise Refused(10, i)
        if kind == 20 and (i + 1 == len(records) or records[i + 1][0] != depth + 1):
            raise Refused(10, i)
        if kind == 11 and depth >= MAX_DEPTH:
            raise Refused(7, i)
        if kind == 9 and not utf8(payload[start:end]):
            raise Refused(6, i)
        if kind == 11:
            inside.append(('message', entry[4], 0))
        if kind == 20:
            inside.append(('packed', num, entry[2]))


def expected(entry, kind):
    """Whether reading could give this kind for the number of this entry."""
    if kind in UNKNOWN_WIRE:
        return read_as(entry, UNKNOWN_WIRE[kind]) == kind
    if kind == 20:
        return read_as(entry, 2) == 20
    return entry is not None and entry[2] == kind


def value_bytes(kind, v):
    wire = WIRE[kind]
    if wire == 1:
        return v.to_bytes(8, 'little')
    if wire == 5:
        return (v & U32).to_bytes(4, 'little')
    return encode(zigzag(v) if kind in (17, 18) else v)


def tag_bytes(num, wire):
    return encode(num * 8 + wire)


def written(records, payload):
    """The bytes of a valid list, forward: a head's content is gathered before its length."""
    top, heads = bytearray(), []  # what the innermost open head has so far; of each open head its depth, number, kind, and what was before it
    for depth, num, kind, v, start, end, _ in records + [(0, 0, 0, 0, 0, 0, 0)]:
        while heads and heads[-1][0] >= depth:
            _, head, _, outer = heads.pop()
            outer += tag_bytes(head, 2) + encode(len(top)) + top
            top = outer
        if kind in (11, 20):
            heads.append((depth, num, kind, top))
            top = bytearray()
        elif kind in (9, 12, 23):
            top += tag_bytes(num, 2) + encode(end - start) + payload[start:end]
        elif kind in UNKNOWN_WIRE:
            top += tag_bytes(num, UNKNOWN_WIRE[kind]) + value_bytes({21: 4, 22: 6, 24: 7}[kind], v)
        elif kind:
            if not (heads and heads[-1][2] == 20):
                top += tag_bytes(num, WIRE[kind])
            top += value_bytes(kind, v)
    return bytes(top)


def write(types, entries, records, payload):
    """Number, size, index and bytes, with all the room that is needed."""
    try:
        check_schema(types, entries)
        check_list(entries, records, payload)
    except Refused as r:
        return r.number, 0, r.place, b''
    out = written(records, payload)
    if len(out) > LIMIT:
        return 11, 0, 0, b''
    return 0, len(out), 0, out


# ---- segments

MARK = b'WFM'
VERSION = 1


def check_front(b):
    """The mark and a 16-bit little-endian version."""
    if len(b) < 5 or b[:3] != MARK:
        raise Refused(13)
    if int.from_bytes(b[3:5], 'little') != VERSION:
        raise Refused(14)
    if len(b) > LIMIT:
        raise Refused(11)


def read_segment(room, b):
    """The refusal number, its place, and the ranges of the messages before it. The place is the first byte of the length that is at fault."""
    ranges, place = [], 0
    try:
        check_front(b)
        at = 5
        while at < len(b):
            place = at
            start, stop = content(b, at, len(b), varint32)
            if len(ranges) == room:
                raise Refused(8)
            ranges.append((start, stop))
            at = stop
    except Refused as fault:
        return fault.number, place, ranges
    return 0, 0, ranges


def write_segment(ranges, payload, room):
    """Number, size, index and bytes."""
    for i, (start, stop) in enumerate(ranges):
        if not start <= stop <= len(payload):
            return 10, 0, i, b''
    size = 5 + sum(vsize(stop - start) + stop - start for start, stop in ranges)
    if size > LIMIT:
        return 11, 0, 0, b''
    if size > room:
        return 12, size, 0, b''
    out = MARK + VERSION.to_bytes(2, 'little') + b''.join(encode(stop - start) + payload[start:stop] for start, stop in ranges)
    return 0, size, 0, out


# ---- the pull reader

class Pull:
    def __init__(self, level, b):
        self.b, self.level, self.readers = b, level, [[0, len(b), 0]]  # each: its slice, from and to, and where it is

    def step(self, word):
        start, end, at = self.readers[-1]
        level = self.level + len(self.readers) - 1
        try:
            said, at = self.moved(word, at, end, level, start)
            if said is None:
                return self.leave()
        except Refused as r:
            return 'r%d@%d' % (r.number, at - start)
        self.readers[-1][2] = at
        if word == 'enter':
            self.readers.append([self.inner[0], self.inner[1], self.inner[0]])
        return '%s@%d' % (said, at - start)

    def moved(self, word, at, end, level, base):
        """What the step says, and where it leads; nothing for leaving."""
        b = self.b
        if word in NAMES:
            return value(b, at, end, NAMES[word])
        if word == 'tag':
            return varint32(b, at, end) if at < end else ('end', at)
        if word in ('bytes', 'string'):
            start, stop = content(b, at, end, varint32)
            if word == 'string' and not utf8(b[start:stop]):
                raise Refused(6)
            return '%d-%d' % (start - base, stop - base), stop
        if word == 'enter':
            if level >= MAX_DEPTH:
                raise Refused(7)
            self.inner = content(b, at, end, varint64)
            return '%d-%d' % (self.inner[0] - base, self.inner[1] - base), self.inner[1]
        if word == 'leave':
            return None, at
        then = skip(b, at, end, level, number(word[5:], U32), True)
        return then - at, then

    def leave(self):
        outer = len(self.readers) > 1
        if outer:
            self.readers.pop()
        start, _, at = self.readers[-1]
        return '%s@%d' % ('left' if outer else 'none', at - start)


def pull(level, steps, b):
    for s in steps:
        if s not in NAMES and s not in ('tag', 'bytes', 'string', 'enter', 'leave'):
            if not s.startswith('skip:'):
                raise Bad
            number(s[5:], U32)
    p = Pull(level, b)
    return ','.join(p.step(s) for s in steps)


# ---- verbs

def said(f, ok):
    try:
        return ok(f())
    except Refused as r:
        return 'refused %d' % r.number


def numeric(kind, v):
    if kind not in NAMES.values() or not fits(kind, v):
        raise Bad


def limited(size):
    return str(size) if size <= LIMIT else 'refused 11'


def value_size(kind, v):
    return {0: lambda: vsize(zigzag(v) if kind in (17, 18) else v), 1: lambda: 8, 5: lambda: 4}[WIRE[kind]]()


def field_size(kind, num, v):
    if kind in (9, 11, 12):
        return limited(vsize(num * 8) + vsize(v) + v)
    numeric(kind, v)
    return limited(vsize(num * 8) + value_size(kind, v))


def packed_size(kind, num, values):
    numeric(kind, 0)
    for v in values:
        numeric(kind, v)
    inner = sum(value_size(kind, v) for v in values)
    return limited(vsize(num * 8) + vsize(inner) + inner) if values else '0'


def make_tag(num, wire):
    return 'ok %d' % (num * 8 + wire) if 1 <= num <= MAX_NUMBER and wire <= 5 else 'refused 3'


def zenc(v, bits32):
    if bits32 and not int32_fits(v):
        raise Bad
    return str(zigzag(v))


def skip_verb(level, tag, b, counted):
    try:
        return '0 %d' % skip(b, 0, len(b), level, tag, counted)
    except Refused as r:
        return '%d 0' % r.number


def schema_verb(types, entries):
    try:
        check_schema(types, entries)
    except Refused as r:
        return 'refused 9 at %d' % r.place
    return 'ok'


def lookup(entries, owner, num):
    for i, e in enumerate(entries):
        if e[:2] == (owner, num):
            return str(i)
    return 'none'


def read_verb(schema, room, b, dropped):
    no, place, records = read(*schema, room, b, dropped)
    return '%d %d %d %s' % (no, len(records), place, show(records))


def records_verb(schema, b):
    no, place, records = read(*schema, 1024, b)
    lines = ['depth number kind value start end tag'] + [' '.join(map(str, r)) for r in records]
    return '/'.join(lines + ['refused %d at %d' % (no, place) if no else 'ok %d' % len(records)])


def write_verb(schema, records, payload, room):
    no, size, index, out = write(*schema, records, payload)
    if no == 0 and size > room:
        no, out = 12, b''
    return '%d %d %d %s' % (no, size, index, out.hex() or '-')


def size_verb(schema, records, payload):
    return '%d %d %d' % write(*schema, records, payload)[:3]


def segread_verb(room, b):
    no, place, ranges = read_segment(room, b)
    return '%d %d %d %s' % (no, len(ranges), place, show(ranges, '-'))


def segwrite_verb(ranges, payload, room):
    no, size, index, out = write_segment(ranges, payload, room)
    return '%d %d %d %s' % (no, size, index, out.hex() or '-')


VERBS = {
    'varint64': (1, lambda h: said(lambda: varint64(data(h), 0, len(data(h))), lambda r: 'ok %d %d' % r)),
    'varint32': (1, lambda h: said(lambda: varint32(data(h), 0, len(data(h))), lambda r: 'ok %d %d' % r)),
    'encode': (1, lambda v: encode(number(v)).hex()),
    'vsize': (1, lambda v: str(vsize(number(v)))),
    'tagsize': (1, lambda n: str(vsize(number(n, U32) * 8))),
    'zdec32': (1, lambda n: str(unzigzag(number(n, U32)))),
    'zdec64': (1, lambda n: str(unzigzag(number(n)))),
    'zenc32': (1, lambda v: zenc(number(v), True)),
    'zenc64': (1, lambda v: zenc(number(v), False)),
    'tag': (1, lambda v: said(lambda: judged(number(v, U32)), lambda r: 'ok %d %d' % r)),
    'maketag': (2, lambda n, w: make_tag(number(n, U32), number(w, U32))),
    'msgsize': (1, lambda n: 'ok' if number(n) <= LIMIT else 'refused 11'),
    'fieldsize': (3, lambda k, n, v: field_size(number(k, U32), number(n, U32), number(v))),
    'packedsize': (3, lambda k, n, vs: packed_size(number(k, U32), number(n, U32), [number(v) for v in vs.split(',')] if vs != '-' else [])),
    'wire': (1, lambda k: str(WIRE.get(number(k, U32), 'none'))),
    'utf8': (1, lambda h: 'ok' if utf8(data(h)) else 'refused 6'),
    'utf8prefix': (1, lambda h: str(utf8_prefix(data(h)))),
    'skip': (3, lambda l, t, h: skip_verb(number(l, U32), number(t, U32), data(h), True)),
    'group': (3, lambda l, t, h: skip_verb(number(l, U32), number(t, U32), data(h), False)),
    'document': (1, lambda h: 'yes' if document(data(h)) else 'no'),
    'schema': (1, lambda s: schema_verb(*schema_word(s))),
    'lookup': (3, lambda s, o, n: lookup(schema_word(s)[1], number(o, U32), number(n, U32))),
    'read': (3, lambda s, r, h: read_verb(schema_word(s), number(r, 4096), data(h), False)),
    'readdropped': (3, lambda s, r, h: read_verb(schema_word(s), number(r, 4096), data(h), True)),
    'size': (3, lambda s, l, h: size_verb(schema_word(s), rows(l, 7, U64), data(h))),
    'write': (4, lambda s, l, h, r: write_verb(schema_word(s), rows(l, 7, U64), data(h), number(r, 65536))),
    'pull': (3, lambda l, s, h: pull(number(l, 100), s.split(','), data(h))),
    'records': (2, lambda s, h: records_verb(schema_word(s), data(h))),
    'segread': (2, lambda r, h: segread_verb(number(r, 4096), data(h))),
    'segwrite': (3, lambda l, h, r: segwrite_verb(rows(l, 2, U64, '-'), data(h), number(r, 65536))),
}


def answer(line):
    try:
        words = line.split(' ')
        count, call = VERBS.get(words[0], (None, None))
        if len(line) > 65536 or count != len(words) - 1:
            raise Bad
        return call(*words[1:])
    except Bad:
        return 'bad line'


def main():
    sys.setrecursionlimit(10000)
    out = sys.stdout
    for line in sys.stdin:
        out.write(answer(line.rstrip('\n')) + '\n')


if __name__ == '__main__':
    main()
