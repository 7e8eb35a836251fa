#!/usr/bin/env python3
"""A drop is its removals, one after the other, all or none: for each drop of a session, the session up to it with the group's constraints
removed one by one instead, by ascending number, each with what is left of the budget.

usage: drops.py SESSIONS PROGRAM [ARGUMENT ...]

Accepted: the same pivots in all, the same mark, the same state (dump). Refused by 12 to 17: by the same number at some removal, with the
same pivots up to there and the same mark, and the state (dump) is that before the drop.
"""
import subprocess
import sys

SHOWN = 5


def answers(program, lines):
    return subprocess.run(program, input='\n'.join(lines) + '\n', capture_output=True, text=True, check=True).stdout.splitlines()


def groups_before(session, given):
    """before each call, the live constraints' groups by their numbers"""
    live, out = {}, []
    for line, a in zip(session, given):
        out.append(dict(live))
        w = line.split()
        if a.split()[:1] != ['0']:
            continue
        if w[0] == 'reset':
            live = {}
        elif w[0] == 'add':
            live[int(w[1])] = 1
        elif w[0] == 'addg':
            live[int(w[2])] = int(w[1])
        elif w[0] == 'remove':
            del live[int(w[1])]
        elif w[0] == 'drop':
            live = {c: g for c, g in live.items() if g != int(w[1])}
    return out


def one_by_one(program, before, numbers, budget):
    """the answer of the removals together, the state after them, and at which one they were refused"""
    done, pivots, mark = [], 0, None
    for place, c in enumerate(numbers):
        done.append('remove %d %d' % (c, budget - pivots))
        refusal, more, mark = answers(program, before + done)[-1].split()
        pivots += int(more)
        if refusal != '0':
            return '%s %d %s' % (refusal, pivots, mark), answers(program, before + ['dump'])[-1], place + 1
    return '0 %d %s' % (pivots, mark), answers(program, before + done + ['dump'])[-1], 0


def main():
    program = sys.argv[2:]
    sessions = []
    for line in open(sys.argv[1]):
        if line.strip() == 'reset':
            sessions.append([])
        sessions[-1].append(line.strip())
    drops = removals = refused = later = differ = 0
    for s in sessions:
        given = answers(program, s)
        for i, (line, live) in enumerate(zip(s, groups_before(s, given))):
            w = line.split()
            numbers = sorted(c for c, g in live.items() if w[0] == 'drop' and g == int(w[1]))
            if not numbers or w[1] == '0':
                continue
            want, state, place = one_by_one(program, s[:i], numbers, int(w[2]))
            got = [given[i], answers(program, s[:i + 1] + ['dump'])[-1]]
            drops, removals, refused, later = drops + 1, removals + len(numbers), refused + (place > 0), later + (place > 1)
            if got != [want, state]:
                differ += 1
                if differ <= SHOWN:
                    print('%s   answers %s, its removals %s' % (line, given[i], want))
                    print('\n'.join('    ' + l for l in s[:i]))
    print('%d drops of %d constraints; %d refused in the steps, %d of them behind the first removal' % (drops, removals, refused, later))
    print('differences: %d' % differ)
    sys.exit(1 if differ else 0)


main()
