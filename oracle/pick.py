#!/usr/bin/env python3
"""pick.py LINES ORACLE MODEL COUNT STDIN STDOUT: of generated lines with their answers, picks up to COUNT that cover much: a few of every verb, refusal, kind and
way of answering; shorter ones first. Adds them to STDIN, after the lines that are there, and their answers to STDOUT: the crate's, and where it has
none (or not all of it) the model's."""
import re
import sys
from collections import Counter

KEEP = 7  # lines of one signature


def kinds(text):
    """The kinds of records, and of schema entries, that a word has."""
    return tuple(sorted(set(re.findall(r'(?:^|[ ;/|])\d+,\d+,(\d+),', text))))[:4]


def steps(answer):
    """How the steps of a pull ended: each refusal, and the words."""
    return tuple(sorted(set(re.findall(r'r\d+|end|left|none', answer))))[:3]


def signature(line, crate, model):
    words = line.split(' ')
    verb, first = words[0], model.split(' ', 1)[0]
    if verb in ('read', 'readdropped', 'size', 'write'):
        return verb, first, kinds(model if verb.startswith('read') else words[2])
    if verb == 'records':
        return verb, model.rsplit('/', 1)[-1].split(' ')[:2][-1] if '/refused' in model else 'ok'
    if verb == 'segread':
        return verb, first, min(int(model.split(' ')[1]), 2), words[1] == model.split(' ')[1]
    if verb == 'segwrite':
        return verb, first, min(words[1].count('-'), 3), len(model.split(' ')[1]), model.split(' ')[2][:1]
    if verb == 'pull':
        return verb, words[1].split(',')[0], steps(model)
    if verb in ('fieldsize', 'packedsize', 'maketag', 'wire'):
        return (verb, *words[1:2], first)
    if verb in ('skip', 'group'):
        return verb, words[1], int(words[2]) % 8, first
    if verb == 'tag':
        return verb, int(words[1]) % 8, len(words[1]) // 3
    if verb.startswith('varint'):
        return verb, first, model.split(' ')[-1], len(words[1]) // 2
    if verb == 'utf8prefix':
        return verb, words[1][2 * int(first):][:1], min(int(first), 9)
    if verb in ('utf8', 'document'):
        return verb, first, words[1][:1], len(words[1]) // 4
    return verb, first if verb not in ('encode', 'zdec64', 'zenc64', 'zdec32', 'zenc32', 'lookup') else len(first), len(words[-1]) // 4


def main():
    lines, crate, model = (open(n, encoding='ascii').read().split('\n')[:-1] for n in sys.argv[1:4])
    seen, picked = Counter(), []
    for at in sorted(range(len(lines)), key=lambda i: (len(lines[i]), i)):
        sign = signature(lines[at], crate[at], model[at]) if model[at] != 'bad line' else ('bad line', lines[at])
        if seen[sign] < KEEP and len(lines[at]) < 2500 and not lines[at].startswith('lookup') or seen[sign] < 2:
            seen[sign] += 1
            picked.append((seen[sign], at))
    # first one of every signature, then a second of each, until there are enough
    chosen = sorted(at for _, at in sorted(picked)[:int(sys.argv[4])])
    with open(sys.argv[5], 'a', encoding='ascii') as asked, open(sys.argv[6], 'a', encoding='ascii') as said:
        for at in chosen:
            asked.write(lines[at] + '\n')
            said.write(model[at] + '\n')
    print('%d lines of %d signatures' % (len(chosen), len(seen)))


if __name__ == '__main__':
    main()
