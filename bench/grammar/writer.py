#!/usr/bin/env python3
"""Holds T-13's programs against second.py: the writer, and a program that reads the second edition's lines.
usage: writer.py compare WRITER READER [NUMBER [SEED]]    so many random constraints, written and read back; so many lines near plain ones,
                                                          read, and written again; with `-` for READER second.py reads alone
       writer.py back SESSION WRITER [NUMBER [SEED]]      so many constraints that lines can say, added in layouts, shown and written: their lines
       writer.py record FOLDER [NUMBER [SEED]]            writes stdin and stdout of FOLDER: what the program is held to"""
import random
import struct
import subprocess
import sys
from second import GROUPS, NUMBER, REQUIRED, SecondReader, VARIABLE, answer, given, numbers, plain, written

SHOWN = 5

# docs/DECISIONS.md, T-13, in its order; then lines that are no constraint
WRITTEN = [
    'eq req 1 0 17 ' + ' '.join('%d 1' % v for v in range(1, 18)), 'eq req 1 0 1 1 0', 'eq req 1 0 1 1 0x3fe0000000000000', 'eq req 1 0 1 1 1048577',
    'eq req 1 -1048577 1 1 1', 'eq req 1 1048576 1 1 -1048576', 'eq 0x3fe0000000000000 1 0 0', 'eq -1 1 0 0', 'eq 1001001001 1 0 0', 'eq 1001001000 1 0 0',
    'eq req 0 0 0', 'eq nan 1 0 0', 'eq req 1 nan 0', 'eq req 1 0 1 1 nan', 'eq req 1 inf 0', 'eq req 1 0 2 2 1 1 1', 'eq req 1 0 2 1 1 1 1',
    'eq 0x8000000000000000 1 0x8000000000000000 0', 'eq req 1 0 1 1 0x8000000000000000', 'eq req 1 0 0', 'le req 1 -5 0', 'le req 65535 0 1 4294967295 1',
    'ge req 65536 0 0', 'eq req 1 0 1 4294967296 1', 'eq req 1 0', 'eq  req 1 0 0', 'lt req 1 0 0', 'eq req 1 0 1 1', 'eq req 1 0 1 1 1 ', '', 'v1=0',
    'ge 1 2 -3 16 ' + ' '.join('%d %d' % (VARIABLE - 16 + v, (-1) ** v * 1048576) for v in range(16)), 'ge 1 2 -3 16 ' + ' '.join('%d -1' % v for v in range(16)),
]


def bits(x):
    return '0x' + struct.pack('>d', x).hex()


class Maker:
    def __init__(self, seed):
        self.random = random.Random(seed)

    def figure(self, most):
        """A whole number of at most that size, near its bounds often; as a number or as bits."""
        r = self.random
        n = r.choice((0, 1, 1, 2, 9, 10, 11, r.randrange(100), r.randrange(most + 1), most - 1, most)) * r.choice((1, -1))
        return n if r.random() < 0.9 else bits(float(n))

    def odd(self, most):
        """What no line can say."""
        r = self.random
        return r.choice((most + 1, -most - 1, 'nan', 'inf', '-inf', bits(r.random()), bits(0.5 + r.randrange(most)), bits(5e-324), 2 ** 53, -2 ** 53))

    def constraint(self):
        r = self.random
        odd = r.random() < 0.15
        count = r.choice((0, 1, 1, 2, 3, r.randrange(17), 16) + ((17, 18) if odd else ()))
        large = r.random() < 0.1
        names = sorted(set(r.choice((r.randrange(32), r.randrange(32), r.randrange(VARIABLE + 1), VARIABLE)) if not large else VARIABLE - r.randrange(999) for _ in range(count)))
        if odd and r.random() < 0.3:
            r.shuffle(names)
        if odd and names and r.random() < 0.1:
            names.append(r.choice(names))
        terms = [(v, (self.figure(NUMBER) or 1) if not large else r.randrange(1, NUMBER + 1)) for v in names]
        terms = [(v, 1 if k in (bits(0.0), bits(-0.0)) else k) for v, k in terms]
        strength = r.choice(('req', REQUIRED, 0, 1, 1000, 1000000, r.randrange(REQUIRED + 1), REQUIRED - 1))
        group = r.choice((1, 1, 1, 2, r.randrange(1, GROUPS + 1), GROUPS))
        constant = self.figure(NUMBER)
        if odd:
            where = r.randrange(4)
            strength = self.odd(REQUIRED) if where == 0 else strength
            group = 0 if where == 1 else group
            constant = self.odd(NUMBER) if where == 2 else constant
            if where == 3 and terms:
                i = r.randrange(len(terms))
                terms[i] = (terms[i][0], r.choice((0, bits(-0.0), self.odd(NUMBER))))
        return ' '.join(str(word) for word in numbers((r.choice(('le', 'eq', 'ge')), strength, group, constant, terms)))

    def near(self, line):
        """The line with a few bytes changed, a leading `1*` or zeros, spaces, or an ending that could be left out."""
        r, line = self.random, bytearray(line.encode())
        for _ in range(r.choice((0, 1, 1, 1, 2, 3))):
            kind, at = r.randrange(8), r.randrange(len(line) + 1)
            if kind == 0:
                line[at:at + 1] = b''
            elif kind == 1:
                line[at:at] = bytes([r.choice(b'0123456789v+-*<=>@, ()')])
            elif kind == 2:
                line[at:at + 1] = bytes([r.choice(b'0123456789v+-*<=>@, ()')])
            elif kind == 3:
                line[at:at] = b' '
            elif kind == 4:
                line = bytearray(bytes(line).replace(b'v', b'1*v', 1))
            elif kind == 5 and b'@' not in line:
                line += b'@%d,%d' % (r.choice((REQUIRED, REQUIRED, REQUIRED + 1, 7)), r.choice((1, 1, 0, 65536, 65535)))
            elif kind == 6:
                line[at:at] = b'0'
            else:
                i = line.find(b',')
                line[i + 1:i + 1] = b'0' * r.randrange(9) if i >= 0 else b''
        return bytes(line)


def ask(program, lines):
    given = subprocess.run([program], input=b'\n'.join(lines) + b'\n', stdout=subprocess.PIPE, check=True).stdout.decode('latin-1').split('\n')[:-1]
    if len(given) != len(lines):
        sys.exit('%d lines, %d answers' % (len(lines), len(given)))
    return given


class Differences:
    def __init__(self):
        self.count = 0

    def check(self, asked, expected, got):
        if expected != got:
            self.count += 1
            if self.count <= SHOWN:
                print('%r\n    expected %s\n    answered %s' % (asked, expected, got))

    def check_all(self, asked, expected, got):
        for triple in zip(asked, expected, got):
            self.check(*triple)


def as_whole(constraint):
    relation, strength, group, constant, terms = constraint
    return (relation, int(strength), group, int(constant), [(v, int(k)) for v, k in terms])


def compare(writer, reader, number=200000, seed=1):
    maker, differences, model = Maker(seed), Differences(), SecondReader()
    read = (lambda lines: ask(reader, lines)) if reader != '-' else (lambda lines: [answer(model.read(line)) for line in lines])
    # "Reading what is written gives the constraint back as numbers"
    asked = WRITTEN + [maker.constraint() for _ in range(number)]
    lines = ask(writer, [line.encode() for line in asked])
    differences.check_all(asked, [written(line) for line in asked], lines)
    pairs = [(a, line) for a, line in zip(asked, lines) if line != '?' and not line.startswith('no ')]
    back = [('ok ' + ' '.join(str(word) for word in numbers(as_whole(given(a)))), line.encode()) for a, line in pairs]
    differences.check_all([line for _, line in back], [words for words, _ in back], read([line for _, line in back]))
    refused = [line for line in lines if line.startswith('no ')]
    print('%d constraints, %d of them written and read back, %d refused by 36 and %d by 32' % (len(asked), len(pairs), refused.count('no 36'), refused.count('no 32')))
    # "writing what was read from a plain line gives that line", and no other line
    near = [maker.near(maker.random.choice(pairs)[1]) for _ in range(number)]
    answers = read(near)
    if reader != '-':
        differences.check_all(near, [answer(model.read(line)) if len(line) <= 200 else 'no 32' for line in near], answers)
    taken = [(line, words[3:]) for line, words in zip(near, answers) if words.startswith('ok ')]
    again = ask(writer, [words.encode() for _, words in taken])
    differences.check_all([words for _, words in taken], [written(words) for _, words in taken], again)
    plain_ones = sum(line == word.encode() for (line, _), word in zip(taken, again))
    print('%d lines near plain ones, %d of them read, %d of those plain' % (len(near), len(taken), plain_ones))
    print('differences: %d' % differences.count)
    return differences.count == 0


def layouts(maker, number):
    """Layouts of a few constraints that lines can say: for each its number, the constraint and its line."""
    out, made = [], 0
    while made < number:
        layout = []
        for c in maker.random.sample(range(60), maker.random.randrange(1, 16)):
            words = maker.constraint()
            line = written(words)
            if line != '?' and not line.startswith('no '):
                layout.append((c, words.split(), line))
        out.append(layout)
        made += len(layout)
    return out


def back(session, writer, number=20000, seed=1):
    """A layout that came as lines is read back: each constraint that stands is shown, and written as the line that it came as."""
    differences, asked, expected = Differences(), [], []
    for layout in layouts(Maker(seed), number):
        asked.append('reset')
        for c, w, line in layout:
            asked.append(' '.join(['addg', w[2], str(c), '65535', w[0], w[1], w[3]] + w[4:]))
            expected.append((c, line))
        asked += ['show %d' % c for c, _, _ in layout]
    answers = ask(session, [line.encode() for line in asked])
    added = [a.split()[0] == '0' for line, a in zip(asked, answers) if line.startswith('addg ')]
    shown = [a for line, a in zip(asked, answers) if line.startswith('show ')]
    standing = [(a, line) for ok, a, (_, line) in zip(added, shown, expected) if ok]
    differences.check_all(asked, ['no 5'] * added.count(False), [a for ok, a in zip(added, shown) if not ok])
    lines = ask(writer, [a.encode() for a, _ in standing])
    differences.check_all([a for a, _ in standing], [line for _, line in standing], lines)
    print('%d constraints added in %d layouts, %d of them accepted, shown and written; %d refused, and not shown' % (len(added), asked.count('reset'), len(standing), added.count(False)))
    print('differences: %d' % differences.count)
    return differences.count == 0


def record(folder, number=3000, seed=7):
    maker = Maker(seed)
    asked = WRITTEN + [maker.constraint() for _ in range(number)] + ['eq req 1 0 1 1 1']
    with open(folder + '/stdin', 'w', encoding='ascii') as f:
        f.write('\n'.join(asked))       # the last line has no newline
    with open(folder + '/stdout', 'w', encoding='ascii') as f:
        f.writelines(written(line) + '\n' for line in asked)
    print('%d lines' % len(asked))
    return True


def main():
    if sys.argv[1:2] == ['compare'] and len(sys.argv) >= 4:
        sys.exit(0 if compare(*sys.argv[2:4], *map(int, sys.argv[4:])) else 1)
    if sys.argv[1:2] == ['back'] and len(sys.argv) >= 4:
        sys.exit(0 if back(*sys.argv[2:4], *map(int, sys.argv[4:])) else 1)
    if sys.argv[1:2] == ['record'] and len(sys.argv) >= 3:
        sys.exit(0 if record(sys.argv[2], *map(int, sys.argv[3:])) else 1)
    sys.exit(__doc__)


main()
