#!/usr/bin/env python3
"""usage: pivots.py SESSIONS ANSWERS    the largest number of pivots in one accepted call, for each kind of call"""
import collections
import sys


def main():
    lines, answers = ([l.rstrip('\n') for l in open(f)] for f in sys.argv[1:3])
    calls, total, most, rows = (collections.Counter() for _ in range(4))
    whole = collections.Counter()
    live, edits = {}, set()
    for line, a in zip(lines, answers):
        w = line.split()
        if w[0] == 'reset' and a.split()[0] == '0':
            live, edits = {}, set()
        w = ['add'] + w[2:] + [w[1]] if w[0] == 'addg' else w + ['1']
        if w[0] not in ('add', 'remove', 'drop', 'addedit', 'removeedit', 'suggest') or a.split()[0] != '0':
            continue
        if w[0] == 'add':
            live[w[1]] = w[-1]
        elif w[0] == 'remove':
            del live[w[1]]
        elif w[0] == 'drop':
            live = {c: g for c, g in live.items() if g != w[1]}
        elif w[0] != 'suggest':
            (edits.add if w[0] == 'addedit' else edits.discard)(w[1])
        pivots, mark = int(a.split()[1]), a.split()[2]
        for what in (w[0],) + ((w[0] + ', whole',) if mark == '1' else ()):
            calls[what] += 1
            total[what] += pivots
            most[what] = max(most[what], pivots)
            rows[what] = max(rows[what], len(live) + len(edits))
    for what in sorted(calls):
        print('%-18s %8d accepted calls, %5.2f pivots on average, at most %d (up to %d constraints live)' % (what, calls[what], total[what] / calls[what], most[what], rows[what]))


main()
