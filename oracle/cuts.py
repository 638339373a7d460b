#!/usr/bin/env python3
"""cuts.py: writes case lines of three segments: a `segwrite` line that writes the segment, and a `segread` line for each length that it can be cut to, none and the
whole included, with room for all its ranges. record.sh records them. It also holds the model to the request's own sentence on cuts."""
import random

import model
from gen import hexed, range_word

# the sizes of each segment's messages; the length of one of 128 bytes has two bytes
SIZES = [[19, 0, 2, 11, 4], [0, 1, 0, 2, 3, 5, 8, 13, 1], [3, 128, 0, 5]]
ROOM = 4096


def written(sizes, seed):
    """The `segwrite` line of messages of these sizes, and the segment that it writes. In the payload they are in another order, and some with other bytes between."""
    r = random.Random(seed)
    payload, ranges = bytearray(), [(0, 0)] * len(sizes)
    for i in r.sample(range(len(sizes)), len(sizes)):
        payload += r.randbytes(r.randrange(3))
        ranges[i] = (len(payload), len(payload) + sizes[i])
        payload += r.randbytes(sizes[i])
    line = 'segwrite %s %s %d' % (range_word(ranges), hexed(payload), ROOM)
    return line, bytes.fromhex(model.answer(line).split(' ')[3])


def expected(sizes, cut):
    """What the request says of a segment that is cut at a length of at least five bytes: the messages that end at or before the cut, then 1 if bytes remain, else success."""
    ends, at = [], 5
    for n in sizes:
        at += model.vsize(n) + n
        ends.append((at - n, at))
    whole = [x for x in ends if x[1] <= cut]
    last = whole[-1][1] if whole else 5
    return '%d %d %d %s' % (1 if last < cut else 0, len(whole), last if last < cut else 0, range_word(whole))


def main():
    for seed, sizes in enumerate(SIZES):
        line, segment = written(sizes, seed)
        print(line)
        for cut in range(len(segment) + 1):
            line = 'segread %d %s' % (len(sizes), hexed(segment[:cut]))
            assert model.answer(line) == (expected(sizes, cut) if cut >= 5 else '13 0 0 -'), line
            print(line)


if __name__ == '__main__':
    main()
