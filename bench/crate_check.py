#!/usr/bin/env python3
"""Where the crate, its maps ordered, the row of a dual pass chosen as in document 02's T-11 and nothing else changed, first
answers otherwise than the patched crate, by cause.

usage: crate_check.py SESSIONS ORDERED PATCHED

Budgets are made ample, pivots, marks and what a fetch lists as gone (11) left out, and a fetch's list is sorted, since the crate has none of
these; nor does it show a constraint, and calls that ask for one are left out.
A session is compared up to its first difference. The numbers in brackets are those of docs/DIFFERENCES.md.
"""
import collections
import re
import subprocess
import sys

CHANGING = ('add', 'addg', 'remove', 'drop', 'addedit', 'removeedit', 'suggest')
SIGNALLING = re.compile(r'0x[7f]ff[0-7]')
SHOWN = 3


def ample(line):
    w = line.split(' ')
    if w[0] in ('add', 'remove', 'drop', 'removeedit') and len(w) > 2:
        w[2] = '65535'
    elif w[0] in ('addedit', 'suggest', 'addg') and len(w) > 3:
        w[3] = '65535'
    return ' '.join(w)


def answers(program, lines):
    return subprocess.run([program], input='\n'.join(lines) + '\n', capture_output=True, text=True).stdout.splitlines()


def bare(line, answer):
    op = line.split(' ')[0]
    if op in CHANGING + ('reset',):
        return answer.split()[0]
    if op == 'fetch':
        return ' '.join(sorted(entry for entry in answer.split()[1:] if not entry.endswith(':gone')))
    return answer


def cause(line, crate, ours, seen):
    if line.startswith('reset '):
        return 'a reset with another cutoff than 1E-8, which the crate does not take (21)'
    if line.startswith('drop ') or ours == '26':
        return 'a group, which the crate does not have (22)'
    if line.split(' ')[0] in ('clip', 'addedit') and SIGNALLING.search(line):
        return 'a signalling NaN clipped, by `min` and `max` of the machine (18)'
    if ours in ('1', '2', '3', '9', '10', '11', '13') and line.split(' ')[0] in CHANGING:
        return 'refused for its numbers or sizes by ours alone (3, 4, 13, 15)'
    if 'refusal' in seen:
        return 'after a refusal of 12 to 17, which ours undoes (2, 10)'
    if crate == '!':
        return 'a panic (7, 10)'
    if 'removal' in seen and line == 'fetch':
        return 'a fetch after a removal: a variable that went and came back (11), or as below'
    if 'removal' in seen or line.split(' ')[0] in ('remove', 'removeedit'):
        return 'at or after a removal (5, 6, 7)'
    return 'OTHER'


def first_difference(session, crate, ours):
    seen = set()
    for line, a, b in zip(session, crate, ours):
        a, b = bare(line, a), bare(line, b)
        if a != b:
            return cause(line, a, b, seen), '%s   crate %s, ours %s' % (line, a, b)
        op = line.split(' ')[0]
        if op in CHANGING and a != '?' and int(a) >= 12:
            seen.add('refusal')
        if op in ('remove', 'removeedit') and a == '0':
            seen.add('removal')
    return 'equal to the end', None


def main():
    sessions = []
    for line in open(sys.argv[1]):
        if line.strip() == 'reset':
            sessions.append([])
        if not line.startswith('show '):
            sessions[-1].append(ample(line.rstrip('\n')))
    causes, others = collections.Counter(), []
    for s in sessions:
        why, where = first_difference(s, answers(sys.argv[2], s), answers(sys.argv[3], s))
        causes[why] += 1
        if why == 'OTHER':
            others.append((s, where))
    print('%d sessions, %d calls' % (len(sessions), sum(len(s) for s in sessions)))
    for why, n in causes.most_common():
        print('%7d  %s' % (n, why))
    for s, where in others[:SHOWN]:
        print('at: %s' % where)
        print('\n'.join('    ' + line for line in s))
    print('differences that no entry explains: %d' % len(others))
    sys.exit(1 if others else 0)


main()
