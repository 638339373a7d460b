#!/usr/bin/env python3
"""mutants.py: puts one fault after another into the model, and shows that the recorded lines alone find each: some answer differs from the recorded one.
Exit status 1 where one is not found. A fault is a piece of text of model.py, which stands there exactly once, and what is put in its place. The faults in the
entries of single lead bytes are many, and printed only where they are missed."""
import sys

SAID = 'if i + more >= len(b):'  # before this the table has said what the lead byte needs
FAULTS = [
    ('a varint64 of eleven bytes', 'return varint(b, at, end, 10, 1)', 'return varint(b, at, end, 11, 1)'),
    ('the tenth byte not judged', 'return varint(b, at, end, 10, 1)', 'return varint(b, at, end, 10, 127)'),
    ('the fifth byte not judged', 'return varint(b, at, end, 5, 15)', 'return varint(b, at, end, 5, 127)'),
    ('a varint32 of ten bytes', 'return varint(b, at, end, 5, 15)', 'return varint(b, at, end, 10, 1)'),
    ('a cut varint is bad', 'if at + i >= end:\n            raise Refused(1)', 'if at + i >= end:\n            raise Refused(2)'),
    ('size of 0 is 0', 'return (max(v.bit_length(), 1) + 6) // 7', 'return (v.bit_length() + 6) // 7'),
    ('size rounded otherwise', 'return (max(v.bit_length(), 1) + 6) // 7', 'return max(v.bit_length(), 1) // 7 + 1'),
    ('zigzag of the minimum', 'return 2 * v if v >= 0 else -2 * v - 1', 'return (2 * v if v >= 0 else -2 * v - 1) & (U64 - 1) if v == -1 << 63 else (2 * v if v >= 0 else -2 * v - 1)'),
    ('zigzag undone with the wrong sign', '-(n + 1 >> 1)', '-(n - 1 >> 1)'),
    ('wire type 6 taken', 'if tag % 8 > 5 or tag < 8:', 'if tag % 8 > 6 or tag < 8:'),
    ('number 0 taken', 'if tag % 8 > 5 or tag < 8:', 'if tag % 8 > 5:'),
    ('int32 truncated, not refused', 'if kind in (5, 14) and not int32_fits(v):', 'if kind in (5,) and not int32_fits(v):'),
    ('sfixed32 not sign-extended', '(v | (U64 ^ U32) if kind == 15 and v >> 31 else v), at', 'v, at'),
    ('a bool above 1 kept', 'v = min(v, 1)', 'v = v'),
    ('zigzag undone on an unknown varint', "as_kind = {21: 4, 22: 6, 24: 7}", "as_kind = {21: 18, 22: 6, 24: 7}"),
    ('UTF-8 asked of bytes', 'if kind == 9 and not utf8(b[start:stop]):', 'if kind in (9, 12) and not utf8(b[start:stop]):'),
    ('UTF-8 asked of unknown content', 'if kind == 9 and not utf8(b[start:stop]):', 'if kind in (9, 23) and not utf8(b[start:stop]):'),
    ('UTF-8 not asked of a string', 'if kind == 9 and not utf8(b[start:stop]):', 'if False:'),
    ('overlong c1', 'elif 0xc2 <= lead <= 0xdf:', 'elif 0xc1 <= lead <= 0xdf:'),
    ('overlong e0', '{0xe0: (0xa0, 0xbf), 0xed', '{0xed'),
    ('surrogates', '0xed: (0x80, 0x9f)', '0xed: (0x80, 0xbf)'),
    ('overlong f0', '{0xf0: (0x90, 0xbf), 0xf4', '{0xf4'),
    ('above 10ffff', '0xf4: (0x80, 0x8f)', '0xf4: (0x80, 0xbf)'),
    ('f5 taken', 'elif 0xf0 <= lead <= 0xf4:', 'elif 0xf0 <= lead <= 0xf5:'),
    ('f4 not taken', 'elif 0xf0 <= lead <= 0xf4:', 'elif 0xf0 <= lead <= 0xf3:'),
    ('df not taken', 'elif 0xc2 <= lead <= 0xdf:', 'elif 0xc2 <= lead <= 0xde:'),
    ('9f after e0', '0xe0: (0xa0, 0xbf)', '0xe0: (0x9f, 0xbf)'),
    ('no a0 after e0', '0xe0: (0xa0, 0xbf)', '0xe0: (0xa1, 0xbf)'),
    ('a0 after ed', '0xed: (0x80, 0x9f)', '0xed: (0x80, 0xa0)'),
    ('no 9f after ed', '0xed: (0x80, 0x9f)', '0xed: (0x80, 0x9e)'),
    ('8f after f0', '0xf0: (0x90, 0xbf)', '0xf0: (0x8f, 0xbf)'),
    ('no 90 after f0', '0xf0: (0x90, 0xbf)', '0xf0: (0x91, 0xbf)'),
    ('90 after f4', '0xf4: (0x80, 0x8f)', '0xf4: (0x80, 0x90)'),
    ('no 8f after f4', '0xf4: (0x80, 0x8f)', '0xf4: (0x80, 0x8e)'),
    ('one follower of ec', 'low, high = {0xe0', 'more -= lead == 0xec\n            low, high = {0xe0'),
    ('two followers of f3', 'low, high = {0xf0', 'more -= lead == 0xf3\n            low, high = {0xf0'),
    ('two followers of d9', 'more = 1\n', 'more = 1 + (lead == 0xd9)\n'),
    ('6 at the tag', 'self.place = start + utf8_prefix(b[start:stop])', 'pass'),
    ('6 at a place counted in the content', 'self.place = start + utf8_prefix(b[start:stop])', 'self.place = utf8_prefix(b[start:stop])'),
    ('6 at a place counted in the message', 'self.message(start, stop, child, depth + 1)\n        return stop', 'try:\n            self.message(start, stop, child, depth + 1)\n        except Refused as r:\n            self.place -= start * (r.number == 6)\n            raise\n        return stop'),
    ('6 at the first byte of the content', 'self.place = start + utf8_prefix(b[start:stop])', 'self.place = start'),
    ('6 after the broken letter\'s lead byte', 'self.place = start + utf8_prefix(b[start:stop])', 'self.place = start + utf8_prefix(b[start:stop]) + 1'),
    ('6 at the byte that is no follower', 'if not low <= b[i + j] <= high:\n                return i', 'if not low <= b[i + j] <= high:\n                return i + j'),
    ('6 at the last byte of a letter that is cut', SAID + '\n            return i', SAID + '\n            return len(b) - 1'),
    ('a string length as wide as a message length', 'start, stop = content(b, at, end, varint32)\n            if kind == 9', 'start, stop = content(b, at, end, varint64)\n            if kind == 9'),
    ('a message length as narrow as a string length', 'start, stop = content(self.b, at, end, varint64)\n        self.put(depth, num, 11', 'start, stop = content(self.b, at, end, varint32)\n        self.put(depth, num, 11'),
    ('a packed length as narrow as a string length', 'start, stop = content(self.b, at, end, varint64)\n        if start < stop', 'start, stop = content(self.b, at, end, varint32)\n        if start < stop'),
    ('a packed head counts as a level', 'self.put(depth, num, 20, 0, start, stop, tag)', 'self.put(depth, num, 20, 0, start, stop, tag)\n            if depth >= MAX_DEPTH:\n                raise Refused(7)'),
    ('an empty packed field recorded', 'if start < stop:\n            self.put', 'if True:\n            self.put'),
    ('an element\'s own place as its tag\'s', 'self.put(depth + 1, num, kind, v, at, then, tag)', 'self.put(depth + 1, num, kind, v, at, then, at)'),
    ('the content\'s start as the tag of an element', 'self.put(depth + 1, num, kind, v, at, then, tag)', 'self.put(depth + 1, num, kind, v, at, then, start)'),
    ('the content\'s start as the tag of a packed head', 'self.put(depth, num, 20, 0, start, stop, tag)', 'self.put(depth, num, 20, 0, start, stop, start)'),
    ('the content\'s start as the tag of a message', 'self.put(depth, num, 11, 0, start, stop, tag)', 'self.put(depth, num, 11, 0, start, stop, start)'),
    ('the length\'s place as the tag of a string', 'self.put(depth, num, kind, 0, start, stop, tag)', 'self.put(depth, num, kind, 0, start, stop, at)'),
    ('a tag of one byte before the value', 'self.put(depth, num, kind, v, at, then, tag)\n        return then', 'self.put(depth, num, kind, v, at, then, at - 1)\n        return then'),
    ('a tag as long as it need be', 'self.put(depth, num, kind, v, at, then, tag)\n        return then', 'self.put(depth, num, kind, v, at, then, at - vsize(num * 8))\n        return then'),
    ('a tag\'s place counted in its message', 'def put(self, depth, num, kind, v, start, end, tag):', 'def put(self, depth, num, kind, v, start, end, tag):\n        tag -= max([x[4] for x in self.records if x[2] == 11 and x[4] <= tag < x[5]], default=0)'),
    ('kind 25 when nobody asked', 'if self.dropped:', 'if True:'),
    ('kind 25 never', 'if self.dropped:', 'if False:'),
    ('kind 25 of groups alone', 'else:\n            self.drop(depth, num, tag, stop)', 'else:\n            pass'),
    ('kind 25 of empty packed fields alone', 'self.drop(depth, num, here, at)', 'pass'),
    ('kind 25 in the root message alone', 'if self.dropped:', 'if self.dropped and depth == 0:'),
    ('8 does not count kind 25', 'if len(self.records) == self.room:', 'if kind != 25 and len([x for x in self.records if x[2] != 25]) == self.room:'),
    ('no 8 for kind 25 itself', 'if len(self.records) == self.room:', 'if kind != 25 and len(self.records) >= self.room:'),
    ('kind 25 left out where it has no room', 'if self.dropped:', 'if self.dropped and len(self.records) < self.room:'),
    ('8 of a span before the faults in its group', 'at = skip_groups(b, at, end, depth, False)\n', 'if self.dropped and len(self.records) == self.room:\n                    raise Refused(8)\n                at = skip_groups(b, at, end, depth, False)\n'),
    ('8 of an empty packed field before its length', 'start, stop = content(self.b, at, end, varint64)\n        if start < stop', 'if self.dropped and len(self.records) == self.room:\n            raise Refused(8)\n        start, stop = content(self.b, at, end, varint64)\n        if start < stop'),
    ('8 of a span at its end', 'self.drop(depth, num, here, at)', 'self.place = at\n                self.drop(depth, num, here, at)'),
    ('a span without its end tag', 'self.drop(depth, num, here, at)', 'self.drop(depth, num, here, at - 1)'),
    ('a span without its start tag', 'self.put(depth, num, 25, 0, tag, end, tag)', 'self.put(depth, num, 25, 0, min(tag + vsize(num * 8), end), end, tag)'),
    ('a span up to its tag\'s end', 'self.drop(depth, num, here, at)', 'self.drop(depth, num, here, here + vsize(num * 8))'),
    ('an empty packed field without its length', 'self.drop(depth, num, tag, stop)', 'self.drop(depth, num, tag, at)'),
    ('an empty packed field\'s length of one byte', 'self.drop(depth, num, tag, stop)', 'self.drop(depth, num, tag, at + 1)'),
    ('a span one deeper', 'self.put(depth, num, 25, 0, tag, end, tag)', 'self.put(depth + 1, num, 25, 0, tag, end, tag)'),
    ('a span with number 0', 'self.put(depth, num, 25, 0, tag, end, tag)', 'self.put(depth, 0, 25, 0, tag, end, tag)'),
    ('a span with its length as its value', 'self.put(depth, num, 25, 0, tag, end, tag)', 'self.put(depth, num, 25, end - tag, tag, end, tag)'),
    ('a span for each group in a group', 'at = skip_groups(b, at, end, depth, False)\n', 'at = skip_groups(b, at, end, depth, False)\n                inner = b[here + vsize(num * 8):at]\n                if inner and inner[0] % 8 == 3:\n                    self.drop(depth + 1, inner[0] // 8, here + vsize(num * 8), at)\n'),
    ('an empty string or message dropped', 'self.put(depth, num, kind, 0, start, stop, tag)', 'self.put(depth, num, kind, 0, start, stop, tag) if start < stop or not self.dropped else self.drop(depth, num, tag, stop)'),
    ('kind 25 in the listing', 'no, place, records = read(*schema, 1024, b)', 'no, place, records = read(*schema, 1024, b, True)'),
    ('the listing without its last column', "[' '.join(map(str, r)) for r in records]", "[' '.join(map(str, r[:6])) for r in records]"),
    ('a length may end one byte behind', 'if n > end - at:', 'if n > end - at + 1:'),
    ('99 levels of messages', 'if depth == MAX_DEPTH:', 'if depth == MAX_DEPTH - 1:'),
    ('101 levels of messages', 'if depth == MAX_DEPTH:', 'if depth == MAX_DEPTH + 1:'),
    ('a head recorded after its content', 'self.put(depth, num, 11, 0, start, stop, tag)\n        self.message(start, stop, child, depth + 1)', 'self.message(start, stop, child, depth + 1)\n        self.put(depth, num, 11, 0, start, stop, tag)'),
    ('7 judged after the length', 'if depth == MAX_DEPTH:\n            raise Refused(7)\n        start, stop = content(self.b, at, end, varint64)', 'start, stop = content(self.b, at, end, varint64)\n        if depth == MAX_DEPTH:\n            raise Refused(7)'),
    ('the outermost group of the loop counted', 'at = skip_groups(b, at, end, depth, False)', 'at = skip_groups(b, at, end, depth, True)'),
    ('the loop\'s level always 0', 'at = skip_groups(b, at, end, depth, False)', 'at = skip_groups(b, at, end, 0, False)'),
    ('the end of the bytes never closes groups', 'if at == end and counted:\n            return at', 'if False:\n            return at'),
    ('an end-group tag taken as a field', 'if wire == 4:\n                    raise Refused(4)', 'if wire == 4:\n                    continue'),
    ('room of one more', 'if len(self.records) == self.room:', 'if len(self.records) == self.room + 1:'),
    ('place of a nested fault is the outer tag', 'self.message(start, stop, child, depth + 1)\n        return stop', 'mine = self.place\n        try:\n            self.message(start, stop, child, depth + 1)\n        except Refused:\n            self.place = mine\n            raise\n        return stop'),
    ('packed without repeated', 'if entry[3] and wire == 2 and WIRE[kind] != 2:', 'if wire == 2 and WIRE[kind] != 2:'),
    ('33 types', 'if not 1 <= types <= 32', 'if not 1 <= types <= 33'),
    ('257 entries', 'len(entries) > 256', 'len(entries) > 257'),
    ('equal entries taken', 'before >= (owner, num)', 'before > (owner, num)'),
    ('the place of the earlier of two not rising', 'raise Refused(9, i)', 'raise Refused(9, i if not good else i - 1)'),
    ('number 536,870,912 in a schema', 'owner < types and 1 <= num <= MAX_NUMBER and', 'owner < types and 1 <= num <= MAX_NUMBER + 1 and'),
    ('kind 10 in a schema', 'kind in WIRE and repeated', '(kind in WIRE or kind == 10) and repeated'),
    ('a child with a number', '(child < types if kind == 11 else child == 0)', 'child < types'),
    ('a list may jump', 'if depth >= len(inside):\n            raise Refused(10, i)', 'depth = min(depth, len(inside) - 1)'),
    ('a packed head alone', 'if kind == 20 and (i + 1 == len(records) or', 'if kind == 20 and i + 1 < len(records) and ('),
    ('an element of another kind', 'if (num, kind) != (of, element):', 'if num != of:'),
    ('an element of another number', 'if (num, kind) != (of, element):', 'if kind != element:'),
    ('a reversed range', 'not start <= end <= len(payload)', 'not end <= len(payload)'),
    ('an empty range behind the payload', 'not start <= end <= len(payload)', 'start != end and not start <= end <= len(payload)'),
    ('7 before 10', "if not fits(kind, v) or (kind in", "if kind == 11 and depth >= MAX_DEPTH:\n            raise Refused(7, i)\n        if not fits(kind, v) or (kind in"),
    ('6 not asked of a list', 'if kind == 9 and not utf8(payload[start:end]):', 'if False:'),
    ('message heads at depth 100 in a list', 'if kind == 11 and depth >= MAX_DEPTH:\n            raise Refused(7, i)', 'if kind == 11 and depth > MAX_DEPTH:\n            raise Refused(7, i)'),
    ('kind 25 taken in a list', 'if not 1 <= num <= MAX_NUMBER or not expected(entry, kind):', 'if kind != 25 and (not 1 <= num <= MAX_NUMBER or not expected(entry, kind)):'),
    ('kind 25 passed over in a list', 'for i, (depth, num, kind, v, start, end, _) in enumerate(records):', 'for i, (depth, num, kind, v, start, end, _) in enumerate(records):\n        if kind == 25:\n            continue'),
    ('a tag\'s place that must be in the payload', 'for i, (depth, num, kind, v, start, end, _) in enumerate(records):', 'for i, (depth, num, kind, v, start, end, _) in enumerate(records):\n        if _ > len(payload):\n            raise Refused(10, i)'),
    ('tags\' places that must rise', 'for i, (depth, num, kind, v, start, end, _) in enumerate(records):', 'for i, (depth, num, kind, v, start, end, _) in enumerate(records):\n        if i and _ < records[i - 1][6]:\n            raise Refused(10, i)'),
    ('an element\'s tag that must be its head\'s', 'if (num, kind) != (of, element):', 'if (num, kind) != (of, element) or _ != records[i - 1][6]:'),
    ('kind 23 for a packable entry', 'return read_as(entry, UNKNOWN_WIRE[kind]) == kind', 'return read_as(entry, UNKNOWN_WIRE[kind]) in (kind, 20)'),
    ('a negative enum in five bytes', 'return encode(zigzag(v) if kind in (17, 18) else v)', 'return encode(zigzag(v) if kind in (17, 18) else v & U32 if kind == 14 else v)'),
    ('size of a negative enum five', 'vsize(zigzag(v) if kind in (17, 18) else v), 1:', 'vsize(zigzag(v) if kind in (17, 18) else v & U32 if kind == 14 else v), 1:'),
    ('12 without the size', 'no, out = 12, b\'\'', 'no, size, out = 12, 0, b\'\''),
    ('12 with room enough', 'if no == 0 and size > room:', 'if no == 0 and size >= room:'),
    ('a pull reader that enters at level 100', 'if level >= MAX_DEPTH:\n                raise Refused(7)\n            self.inner', 'if level > MAX_DEPTH:\n                raise Refused(7)\n            self.inner'),
    ('a pull reader that moves on a refusal', "return 'r%d@%d' % (r.number, at - start)", "self.readers[-1][2] = min(at + 1, end)\n            return 'r%d@%d' % (r.number, at - start)"),
    ('the document check takes 101 groups', 'if len(opened) > 100:', 'if len(opened) > 101:'),
    ('the document check refuses 100 groups', 'if len(opened) > 100:', 'if len(opened) > 99:'),
    ('the document check takes open groups', 'return not opened', 'return True'),
    ('an end-group tag\'s number not compared', 'opened.pop() != num:', 'opened.pop() < 0:'),
    ('the number of the outermost group alone compared', 'opened.pop() != num:', 'opened.pop() != num and not opened:'),
    ('numbers compared with the outermost group\'s', 'opened.pop() != num:', '(opened[0], opened.pop())[0] != num:'),
    ('a skip that asks for number 1 at a group\'s end', 'if wire == 4:\n            opened -= 1', 'if wire == 4:\n            if tag != 12:\n                raise Refused(4)\n            opened -= 1'),
    ('groups closed in the order of opening', 'opened.pop() != num:', 'opened.pop(0) != num:'),
    ('the low byte of the numbers compared', 'opened.pop() != num:', '(opened.pop() - num) % 256:'),
    ('the low 16 bits of the numbers compared', 'opened.pop() != num:', '(opened.pop() - num) % 65536:'),
    ('the low 28 bits of the numbers compared', 'opened.pop() != num:', '(opened.pop() - num) % (1 << 28):'),
    ('a segment of four bytes', 'if len(b) < 5 or b[:3] != MARK:', 'if len(b) < 4 or b[:3] != MARK:'),
    ('the third letter not judged', 'b[:3] != MARK:', 'b[:2] != MARK[:2]:'),
    ('13 and 14 in the other order', 'if len(b) < 5 or b[:3] != MARK:\n        raise Refused(13)\n    if', 'if len(b) >= 5 and int.from_bytes(b[3:5], "little") != VERSION:\n        raise Refused(14)\n    if len(b) < 5 or b[:3] != MARK:\n        raise Refused(13)\n    if'),
    ('the version\'s high byte first', "if int.from_bytes(b[3:5], 'little') != VERSION:", "if int.from_bytes(b[3:5], 'big') != VERSION:"),
    ('the version\'s high byte not judged', "if int.from_bytes(b[3:5], 'little') != VERSION:", 'if b[3] != VERSION:'),
    ('a segment\'s lengths as wide as a message\'s', 'start, stop = content(b, at, len(b), varint32)\n            if len(ranges)', 'start, stop = content(b, at, len(b), varint64)\n            if len(ranges)'),
    ('a segment\'s room of one more', 'if len(ranges) == room:', 'if len(ranges) == room + 1:'),
    ('8 before 1 and 2 of the length', 'start, stop = content(b, at, len(b), varint32)\n            if len(ranges) == room:\n                raise Refused(8)', 'if len(ranges) == room:\n                raise Refused(8)\n            start, stop = content(b, at, len(b), varint32)'),
    ('a full room refused with nothing left to read', '        while at < len(b):\n            place = at\n            start', '        while at < len(b) or len(ranges) == room:\n            place = at\n            if len(ranges) == room:\n                raise Refused(8)\n            start'),
    ('the place is after the length\'s first byte', 'place = at\n            start, stop = content(b, at, len(b), varint32)\n            if', 'place = at + 1\n            start, stop = content(b, at, len(b), varint32)\n            if'),
    ('the place is the end of the front', 'place = at\n            start, stop = content(b, at, len(b), varint32)\n            if', 'place = 5\n            start, stop = content(b, at, len(b), varint32)\n            if'),
    ('ranges before a fault lost', 'return fault.number, place, ranges', 'return fault.number, place, []'),
    ('an empty message gives no range', 'ranges.append((start, stop))\n            at', 'ranges += [(start, stop)] if start < stop else []\n            at'),
    ('a range with its length', 'ranges.append((start, stop))\n            at', 'ranges.append((place, stop))\n            at'),
    ('a reversed range written', 'if not start <= stop <= len(payload):', 'if not stop <= len(payload):'),
    ('an empty range after the payload written', 'if not start <= stop <= len(payload):', 'if start != stop and not start <= stop <= len(payload):'),
    ('a range up to the payload\'s end refused', 'if not start <= stop <= len(payload):', 'if not start <= stop < len(payload):'),
    ('10 with another index', 'return 10, 0, i, b\'\'', 'return 10, 0, 0, b\'\''),
    ('10 with a size', 'return 10, 0, i, b\'\'', 'return 10, 5, i, b\'\''),
    ('10 after 12', 'for i, (start, stop) in enumerate(ranges):\n        if not', 'need = 5 + sum(vsize(abs(e - s)) + abs(e - s) for s, e in ranges)\n    if need > room:\n        return 12, need, 0, b\'\'\n    for i, (start, stop) in enumerate(ranges):\n        if not'),
    ('a written length of one byte', 'encode(stop - start) + payload[start:stop]', 'bytes([stop - start & 255]) + payload[start:stop]'),
    ('12 of a segment with room enough', 'if size > room:\n        return 12', 'if size >= room:\n        return 12'),
    ('12 of a segment without the size', 'return 12, size, 0, b\'\'', 'return 12, 0, 0, b\'\''),
    ('an empty segment of no bytes', 'out = MARK + VERSION.to_bytes(2, \'little\') +', 'out = (MARK + VERSION.to_bytes(2, \'little\') if ranges else b\'\') +'),
    ('a search gives the last of equal entries', 'for i, e in enumerate(entries):\n        if e[:2] == (owner, num):', 'for i, e in reversed(list(enumerate(entries))):\n        if e[:2] == (owner, num):'),
]
# each rung of the ladder of sizes one too high, alone
RULE = 'return (max(v.bit_length(), 1) + 6) // 7'
FAULTS += [('128 ^ %d takes one byte less' % k, RULE, '%s - (v == 128**%d)' % (RULE, k)) for k in range(1, 10)]

# what the table of RFC 3629 says of one lead byte, wrong in one number; and a byte that begins no letter, taken with so many followers
ENTRIES = [('%s of %02x %+d' % (name, lead, by), SAID, '%s += %d * (lead == %d)\n        %s' % (name, by, lead, SAID))
           for lead in range(0xc2, 0xf5) for name in ('more', 'low', 'high') for by in (-1, 1)]
NONE = 'else:\n            return i\n        ' + SAID
ENTRIES += [('%02x with %d followers' % (lead, more), NONE, 'elif lead == %d:\n            more = %d\n        %s' % (lead, more, NONE))
            for lead in [*range(0x80, 0xc2), *range(0xf5, 0x100)] for more in range(4)]


def found(source, lines, answers):
    """The first recorded line that the faulty model answers otherwise; none where there is no such line."""
    module = {'__name__': 'mutant'}
    exec(compile(source, 'mutant', 'exec'), module)
    for line, recorded in zip(lines, answers):
        try:
            if module['answer'](line) == recorded:
                continue
        except Exception as wrong:  # a fault may also break the model
            return line, type(wrong).__name__
        return line, 'another answer'
    return None


def main():
    sys.setrecursionlimit(10000)
    folder = sys.argv[1] if len(sys.argv) > 1 else '../crates/replay'
    lines, answers = (open('%s/%s' % (folder, n), encoding='ascii').read().split('\n')[:-1] for n in ('stdin', 'stdout'))
    source = open('model.py', encoding='utf-8').read()
    missed = 0
    assert found(source, lines, answers) is None, 'the model itself differs from what is recorded'
    for name, old, new in FAULTS + ENTRIES:
        assert source.count(old) == 1, '%s: its text stands %d times in the model' % (name, source.count(old))
        by = found(source.replace(old, new), lines, answers)
        missed += by is None
        if by is None or (name, old, new) in FAULTS:
            print('%-48s %s' % (name, 'MISSED' if by is None else 'found by: ' + by[0][-70:] + ('' if by[1] == 'another answer' else ' (%s)' % by[1])))
    print('%d faults, and %d in the entry of one lead byte: %d missed' % (len(FAULTS), len(ENTRIES), missed))
    sys.exit(1 if missed else 0)


if __name__ == '__main__':
    main()
