#!/usr/bin/env python3
"""Whole runs do not see the cutoff: replays each session from a reset with each of six cutoffs, and compares the answers.

usage: cutoffs.py SESSIONS PROGRAM

A run is compared call by call for as long as it is whole, that is up to the first changing call, refused or not, that answers no;
this must be the same call at every cutoff. Coefficients of adds have to be whole, of refused ones too (docs/DECISIONS.md, T-02), so
sessions are of kinds that have no others. How many sessions go on differently from there is told too: there the cutoff is seen.
"""
import collections
import struct
import subprocess
import sys

CUTOFFS = (5e-324, 1e-300, 1e-16, 1e-8, 5e-7, 1e-6)
CHANGING = ('add', 'addg', 'remove', 'drop', 'addedit', 'removeedit', 'suggest')
SHOWN = 5


def replayed(program, lines, cutoff):
    text = 'reset 0x%s' % struct.pack('>d', cutoff).hex()
    script = [text if line == 'reset' else line for line in lines]
    return subprocess.run([program], input='\n'.join(script) + '\n', capture_output=True, text=True, check=True).stdout.splitlines()


def whole_part(lines, answers, a, b):
    """where the run from a on is whole no longer, or b"""
    return next((i for i in range(a, b) if lines[i].split(' ')[0] in CHANGING and answers[i].split(' ')[2:] == ['0']), b)


def main():
    lines = [l.rstrip('\n') for l in open(sys.argv[1])]
    runs = [replayed(sys.argv[2], lines, c) for c in CUTOFFS]
    starts = [i for i, l in enumerate(lines) if l == 'reset'] + [len(lines)]
    seen, told = [], collections.Counter()
    for a, b in zip(starts, starts[1:]):
        ends = [whole_part(lines, r, a, b) for r in runs]
        first = next((i for i in range(a, min(ends)) if len({r[i] for r in runs}) > 1), None)
        if first is None and len(set(ends)) > 1:
            first = min(ends)
        if first is not None:
            seen.append((a, first))
        told['calls'] += min(ends) - a
        told['whole to the end'] += min(ends) == b
        told['differ later'] += any(r[a:b] != runs[0][a:b] for r in runs)
    for a, first in seen[:SHOWN]:
        print('session at line %d, call at line %d: %s' % (a + 1, first + 1, lines[first]))
        for c, r in zip(CUTOFFS, runs):
            print('    reset %-8g %s' % (c, r[first]))
    print('%d sessions at %d cutoffs, %d calls of whole runs compared; %d sessions are whole to the end' % (len(starts) - 1, len(CUTOFFS), told['calls'], told['whole to the end']))
    print('sessions that go on differently when they are whole no longer: %d' % (told['differ later'] - len(seen)))
    print('differences: %d sessions' % len(seen))
    sys.exit(1 if seen else 0)


main()
