#!/usr/bin/env python3
"""usage: differ.py SESSIONS EXPECTED ANSWERS    counts the calls whose answers differ, and shows the first session's that do."""
import sys

SHOWN = 5


def main():
    lines, expected, answers = ([l.rstrip('\n') for l in open(f)] for f in sys.argv[1:4])
    if not len(lines) == len(expected) == len(answers):
        print('%d calls, %d answers expected, %d given' % (len(lines), len(expected), len(answers)))
    starts = [i for i, l in enumerate(lines) if l == 'reset'] + [len(lines)]
    differ = []
    for a, b in zip(starts, starts[1:]):
        first = next((i for i in range(a, b) if expected[i:i + 1] != answers[i:i + 1]), None)
        if first is not None:
            differ.append((a, first))
    for a, first in differ[:SHOWN]:
        print('session at line %d differs at line %d: %s' % (a + 1, first + 1, lines[first]))
        print('    expected %s\n    answered %s' % (expected[first], ''.join(answers[first:first + 1])))
        for i in range(a, first + 1):
            print('        %s   -> %s' % (lines[i], expected[i]))
    print('%d sessions, %d calls' % (len(starts) - 1, len(lines)))
    print('differences: %d sessions' % len(differ))
    sys.exit(1 if differ or len(lines) != len(answers) else 0)


main()
