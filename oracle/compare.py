#!/usr/bin/env python3
"""compare.py LINES ORACLE MODEL OURS: compares the answers, line by line, and says how many lines of each verb were compared, and which were left out and why.
Ours must be the model's answer to every line, and the crate's wherever the crate has one. Exit status 1 where there is a difference.
The rules by which a line, or a word of an answer, is not compared with the crate are RULES; docs/DIFFERENCES.md explains each."""
import sys
from collections import Counter, defaultdict

RULES = {
    'own': 'the crate has no such call (document, schema, lookup)',
    'schema': '9: the crate has no schema',
    'list': '6, 7, 10 of the writers: the crate writes objects, not lists or ranges',
    'front': '13, 14: the crate knows no segments, and is asked only where the front is right',
    'room': '8: the crate has no room; the records, or ranges, before it are compared',
    'place': 'the place of a refused reading, other than that of 6; all else of the answer is compared',
    'enum': 'a packed negative enum, which the crate counts as five bytes',
    'long': 'the size of a content of more than 1,048,576 bytes: the crate asks for the bytes themselves, and judges no limit',
    'group': 'kind 10, which the crate gives the wire type of a message',
    'bad line': 'a line that is no case',
    'past': 'bare stream: a message or packed length runs past the slice; the limited stream is compared',
}
LEFT = {
    'left out: the crate has no such call': 'own',
    'left out: a packed negative enum': 'enum',
    'left out: a long content': 'long',
    'left out: the wire type of groups': 'group',
    'left out: bad line': 'bad line',
}


def rule(verb, crate, model):
    """Why the whole line is not compared with the crate; none where it is."""
    number = model.split(' ', 1)[0]
    if model == 'bad line':
        return 'bad line'
    if crate in LEFT:
        return LEFT[crate]
    if verb in ('read', 'readdropped', 'size', 'write') and number == '9' or verb == 'records' and '/refused 9 ' in model:
        return 'schema'
    if verb in ('size', 'write') and number in ('6', '7', '10') or verb == 'segwrite' and number == '10':
        return 'list'
    if verb == 'segread' and number in ('13', '14'):
        return 'front'
    return None


def agrees(crate, answer):
    """Word for word, where ? stands for any; and how the words were left out."""
    said, words = crate.split(' '), answer.split(' ')
    if len(said) != len(words) or any(s != w and s != '?' for s, w in zip(said, words)):
        return False, None
    if '?' not in said:
        return True, None
    full = said[0] == '?' or '? at ?' in crate
    return not full or answer.startswith('8 ') or '/refused 8 at ' in answer, 'room' if full else 'place'


class Tally:
    def __init__(self):
        self.lines, self.crate, self.left = Counter(), Counter(), defaultdict(Counter)
        self.bad, self.shown = Counter(), []

    def differs(self, kind, line, *answers):
        self.bad[kind] += 1
        if self.bad[kind] <= 20:
            self.shown.append('%s\n    line  %s\n' % (kind, line[:400]) + '\n'.join('    says  %s' % a[:400] for a in answers))

    def take(self, line, crate, model, ours):
        verb = line.split(' ', 1)[0]
        verb = 'no case' if model == 'bad line' else verb
        self.lines[verb] += 1
        if ours != model:
            self.differs('ours and the model', line, ours, model)
        crate, _, bare = crate.partition('\t')
        if bare:
            self.left[verb]['past'] += 1
        why = rule(verb, crate, model)
        if why:
            self.left[verb][why] += 1
            return
        same, words = agrees(crate, ours)
        if words:
            self.left[verb][words] += 1
        if same:
            self.crate[verb] += 1
        else:
            self.differs('ours and the crate', line, ours, crate)

    def show(self):
        for text in self.shown:
            print(text)
        print('%-11s %10s %22s  %s' % ('verb', 'lines', 'compared with crate', 'left out of that, by rule'))
        for verb in sorted(self.lines):
            left = ', '.join('%s %d' % (k, n) for k, n in sorted(self.left[verb].items()))
            print('%-11s %10d %22d  %s' % (verb, self.lines[verb], self.crate[verb], left))
        total = Counter()
        for verb in self.left:
            total.update(self.left[verb])
        print('%-11s %10d %22d' % ('all', sum(self.lines.values()), sum(self.crate.values())))
        for name in RULES:
            print('  %-9s %9d  %s' % (name, total[name], RULES[name]))
        print('differences: %d with the model, %d with the crate' % (self.bad['ours and the model'], self.bad['ours and the crate']))


def main():
    tally = Tally()
    files = [open(name, encoding='ascii', newline='\n') for name in sys.argv[1:5]]
    for row in zip(*files, strict=True):
        tally.take(*(text.rstrip('\n') for text in row))
    tally.show()
    sys.exit(1 if tally.bad else 0)


if __name__ == '__main__':
    main()
