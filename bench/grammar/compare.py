#!/usr/bin/env python3
"""Holds a program that reads T-01's lines against the reader of this folder.
usage: compare.py lines PROGRAM [RANDOM [SEED [SHORT]]]    every short prefix with every byte after it, and random lines
       compare.py rules PROGRAM                            the reader with one rule changed at a time: each must be seen
       compare.py record FOLDER [RANDOM [SEED]]            writes stdin and stdout of FOLDER: what the program is held to"""
import subprocess
import sys
from cases import Maker, WRITTEN, prefixes
from reader import CLASS, Reader, Rules, answer

SHOWN = 5
PIECE = 200000      # lines in one run of the program

CHANGED = [
    {'longest': 4095}, {'longest': 4097}, {'deepest': 15}, {'deepest': 17}, {'number': 1048575}, {'number': 1048577}, {'variable': 4294967294},
    {'variable': 4294967296}, {'summed': 1048575}, {'summed': 1048577}, {'terms': 15}, {'terms': 17}, {'ends_free': True}, {'after_v': True},
    {'through_brackets': False}, {'zeros_dropped': False}, {'right_minus': False}, {'minus_negates': False}, {'product_at_mark': False},
]


class Comparison:
    def __init__(self, program):
        self.program, self.lines, self.expected = program, [], []
        self.count = self.differences = self.answered = 0

    def add(self, line, expected):
        self.lines.append(line)
        self.expected.append(expected)
        if len(self.lines) == PIECE:
            self.run()

    def run(self):
        """What is waiting is put to the program."""
        asked, wanted = b'\n'.join(self.lines) + b'\n', '\n'.join(self.expected) + '\n'
        given = subprocess.run([self.program], input=asked, stdout=subprocess.PIPE, check=True).stdout.decode('latin-1') if self.lines else ''
        if self.lines and given != wanted:
            answers = given.split('\n')[:-1]
            if len(answers) != len(self.lines):
                print('%d lines, %d answers' % (len(self.lines), len(answers)))
                self.differences += 1
            for line, expected, got in zip(self.lines, self.expected, answers):
                if expected != got:
                    self.differences += 1
                    if self.differences <= SHOWN:
                        print('%r\n    expected %s\n    answered %s' % (line, expected, got))
        self.count += len(self.lines)
        self.answered += sum(e.startswith('ok') for e in self.expected)
        self.lines, self.expected = [], []


def random_lines(number, seed):
    maker = Maker(seed)
    return [maker.any() for _ in range(number)]


def lines(program, number=100000, seed=1, short=6):
    reader, comparison, count = Reader(), Comparison(program), 0
    for prefix, wanted in prefixes(reader, short):
        count += 1
        refused = answer(reader.refused(prefix))
        comparison.add(prefix, answer(reader.read(prefix)))
        for b in range(256):
            if b != 10:
                line = prefix + bytes([b])
                comparison.add(line, answer(reader.read(line)) if CLASS.get(b) in wanted else refused)
    comparison.run()
    print('%d prefixes of at most %d bytes, each with every byte after it: %d lines, %d of them read' % (count, short, comparison.count, comparison.answered))
    before = comparison.count, comparison.answered
    for line in WRITTEN + random_lines(number, seed):
        comparison.add(line, answer(reader.read(line)))
    comparison.run()
    print('%d longer lines, %d of them read' % (comparison.count - before[0], comparison.answered - before[1]))
    print('differences: %d' % comparison.differences)
    return comparison.differences == 0


def rules(program, number=3000, seed=1):
    asked, unseen = WRITTEN + random_lines(number, seed), 0
    given = subprocess.run([program], input=b'\n'.join(asked) + b'\n', stdout=subprocess.PIPE, check=True).stdout.decode().split('\n')
    for changed in [{}] + CHANGED:
        reader = Reader(Rules(**changed))
        differences = sum(answer(reader.read(line)) != got for line, got in zip(asked, given))
        print('%-28s differences: %d' % (' '.join('%s=%s' % c for c in changed.items()) or 'as document 02', differences))
        unseen += (differences == 0) != (not changed)
    print('unseen: %d' % unseen)
    return unseen == 0


def record(folder, number=3000, seed=7):
    reader = Reader()
    asked = WRITTEN + random_lines(number, seed) + [b'v1=0']
    with open(folder + '/stdin', 'wb') as f:
        f.write(b'\n'.join(asked))      # the last line has no newline
    with open(folder + '/stdout', 'w', encoding='ascii') as f:
        f.writelines(answer(reader.read(line)) + '\n' for line in asked)
    print('%d lines' % len(asked))
    return True


def main():
    commands = {'lines': lines, 'rules': rules, 'record': record}
    if len(sys.argv) < 3 or sys.argv[1] not in commands:
        sys.exit(__doc__)
    sys.exit(0 if commands[sys.argv[1]](sys.argv[2], *map(int, sys.argv[3:])) else 1)


main()
