#!/usr/bin/env python3
"""Holds the definitions of crates/steps against a program of the text format: the checker computes every reply of a
session by the definitions and compares it with the program's answer.

usage: spec_check.py SCRIPT PROGRAM ARGUMENT ...

A session starts at each `reset` line without a cutoff and is one theorem, so the checker's step limit (a declaration's) holds for a
session. Of a session that differs, a second run has a theorem for each prefix and says at which call it first differs. A `setgone` is no call of
the definitions: the state is given these gone entries there, and the session goes on. What a `show` answers is compared with what the
definitions show of the state there. Sessions with `setcell` are left out.
BATCH is how many sessions stand in one file (40), SHOW how many differing ones are narrowed down (10).
"""
import os
import re
import shutil
import struct
import subprocess
import sys
import tempfile
import time

ROOT = os.path.dirname(os.path.dirname(os.path.abspath(__file__)))
CRATE = 'steps'

HEAD = """use Rattle.std.specs.Prelude.{ℕ, Bool, true, false, List, [], ◌∷◌, T, Float}
use Rattle.std.proofs.Math.Option.{Option, none, some}
use Rattle.std.specs.Float.{binary64}
use Rattle.std.specs.Float.Ieee.{of_bits}
use Rattle.steps.specs.Number.{usual_cutoff}
use Rattle.steps.specs.State.{Term, State, at_most, equal, at_least}
use Rattle.steps.specs.Changes.{Change}
use Rattle.steps.specs.Calls.{empty}
use Rattle.steps.specs.Session.{resets, adds, removes, drops, adds_edit, removes_edit, suggests, value_of, fetches, has_constraints, has_edits, creates, clips, reads, dumps, sets_next, answer, is, list, says, numbers, Expected, ◌gives◌, Turn, turn, reply_numbers, same_numbers}
use Rattle.steps.specs.Shown.{Given, shown}
use Rattle.steps.specs.ReadBack.{given_numbers, open_read_back}

data Item : Type 0 where
  -- a call with its reply
  calls : Expected → Item
  -- a number, and the constraint that is shown for it
  shows : ℕ → Option Given → Item
  -- the numbers whose gone entries wait from here on
  sets : List ℕ → Item

unfoldable waits : List ℕ → State → State
waits ns s =
    record {
      tableau = s.tableau;
      changes = record { variables = s.changes.variables; gone = ns; should_clear = s.changes.should_clear };
      constraints = s.constraints;
      edits = s.edits;
      whole = s.whole;
    }

unfoldable holds : State → List Item → Bool
holds s [] = true
holds s (calls e ∷ xs) =
    let t : Turn = turn e.call s in
    elim (same_numbers (reply_numbers t.reply) (reply_numbers e.reply)) [ true ↦ holds t.state xs | false ↦ false ]
holds s (shows n g ∷ xs) = elim (same_numbers (given_numbers (shown n s)) (given_numbers g)) [ true ↦ holds s xs | false ↦ false ]
holds s (sets ns ∷ xs) = holds (waits ns s) xs
"""
RELATION = {'le': 'at_most', 'eq': 'equal', 'ge': 'at_least'}
USUAL_CUTOFF = '1e-8'
KIND = {'x': '1', 's': '2', 'e': '3', 'd': '4'}


# ---- a call and its reply, in the definitions' words

def number(text):
    if text == 'req':
        text = '1001001000'
    if text.startswith('0x'):
        bits = int(text, 16)
    else:
        bits = struct.unpack('>Q', struct.pack('>d', float(text)))[0]
    return '(of_bits binary64 0x%016x)' % bits


def listed(items):
    return '(' + ' ∷ '.join(items + ['[]']) + ')'


def adds(group, w):
    terms = ['record { variable = %s; coefficient = %s }' % (w[7 + 2 * i], number(w[8 + 2 * i])) for i in range(int(w[6]))]
    return 'adds %s %s %s %s (%s %s) %s' % (group, w[1], listed(terms), number(w[5]), RELATION[w[3]], number(w[4]), w[2])


def call(w):
    op = w[0]
    if op == 'addg':
        return adds(w[1], w[1:])
    if op == 'add':
        return adds('1', w)
    if op in ('addedit', 'suggest'):
        return '%s %s %s %s' % ({'addedit': 'adds_edit', 'suggest': 'suggests'}[op], w[1], number(w[2]), w[3])
    if op in ('reset', 'create', 'clip'):
        w = w if len(w) > 1 else w + [USUAL_CUTOFF]
        return ' '.join([{'reset': 'resets', 'create': 'creates', 'clip': 'clips'}[op]] + [number(x) for x in w[1:]])
    return ' '.join([PLAIN[op]] + w[1:])


PLAIN = {'remove': 'removes', 'drop': 'drops', 'removeedit': 'removes_edit', 'value': 'value_of', 'fetch': 'fetches',
         'hascon': 'has_constraints', 'hasedit': 'has_edits', 'check': 'reads', 'dump': 'dumps', 'setnext': 'sets_next'}


def symbol(text):
    return ['0', '0'] if text == '-' else [text[1:], KIND[text[0]]]


def cells(words):
    return [x for w in words for x in (w.split('=')[0][1:], '0x' + w.split('=')[1])]


def dump(text):
    """a dump line as the numbers of specs/Dump.antt"""
    parts = [p.split() for p in text.split(' ; ')]
    changed = next(p[1:] for p in parts if p[0] == 'chg')
    out = []
    for p in parts:
        if p[0] == 'next':
            out += [p[1], p[3]]
        elif p[0] == 'var':
            out += [p[1]] + symbol(p[2]) + ['0x' + p[4], p[6], '1' if p[1] in changed else '0']
        elif p[0] == 'con':
            out += [p[1]] + symbol(p[2]) + symbol(p[3])
        elif p[0] == 'edit':
            out += [p[1]] + symbol(p[2]) + symbol(p[3]) + ['0x' + p[5]]
        elif p[0] == 'row':
            out += symbol(p[1]) + ['0x' + p[2]] + cells(p[4:])
        elif p[0] == 'obj':
            out += cells(p[1:])
        elif p[0] == 'gone':
            out += p[1:]
    return out


def change(entry):
    """an entry of a fetch's list, `V:BITS` or `V:gone`"""
    v, x = entry.split(':')
    gone = x == 'gone'
    return 'record { variable = %s; new = %s; gone = %s }' % (v, number('0' if gone else '0x' + x), 'true' if gone else 'false')


def reply(op, a):
    if op in ('value', 'create', 'clip'):
        return 'is ' + number('0x' + a)
    if op == 'fetch':
        return 'list ' + listed([change(entry) for entry in a.split()[1:]])
    if op in ('hascon', 'hasedit', 'check'):
        return 'says ' + ('true' if a in ('1', 'reads') else 'false')
    if op == 'setnext':
        return 'numbers []'
    if op == 'dump':
        return 'numbers ' + listed(dump(a))
    refusal, pivots, mark = a.split()
    return 'answer %s %s %s' % (refusal, pivots, 'true' if mark == '1' else 'false')


def given(a):
    """what a show answers"""
    w = a.split()
    if w[0] == 'no':
        return 'none'
    terms = ['record { variable = %s; coefficient = %s }' % (w[5 + 2 * i], number(w[6 + 2 * i])) for i in range(int(w[4]))]
    return '(some (record { group = %s; terms = %s; constant = %s; relation = %s %s }))' % (w[2], listed(terms), number(w[3]), RELATION[w[0]], number(w[1]))


def item(line, a):
    w = line.split()
    if w[0] == 'setgone':
        return 'sets %s' % listed([str(n) for n in range(int(w[1]), int(w[2]) + 1)])
    if w[0] == 'show':
        return 'shows %s %s' % (w[1], given(a))
    return 'calls (%s gives %s)' % (call(w), reply(w[0], a))


def theorem(name, session):
    items = '\n    ∷ '.join([item(line, a) for line, a in session] + ['[]'])
    return '%s-items : List Item\n%s-items =\n    %s\n\n%s-passes : T (holds (empty usual_cutoff) %s-items)\nunfolding open_read_back waits holds %s-items\n%s-passes = tt\n' % (name, name, items, name, name, name, name)


# ---- a copy of the definitions, with the theorems in a module of their own

class Repository:
    def __init__(self):
        self.dir = tempfile.mkdtemp(prefix='spec-check-')
        lines = [l.strip() for l in open(ROOT + '/crates.txt') if ':' in l and not l.startswith('#')]
        needs = {l.split(':')[0]: l.split(':')[1].split() for l in lines}
        wanted, todo = set(), [CRATE]
        while todo:
            c = todo.pop()
            wanted.add(c)
            todo += [d for d in needs[c] if d not in wanted]
        with open(self.dir + '/crates.txt', 'w') as f:
            f.write(''.join(l + '\n' for l in lines if l.split(':')[0] in wanted))
        for c in wanted:
            shutil.copytree('%s/crates/%s' % (ROOT, c), '%s/crates/%s' % (self.dir, c), ignore=shutil.ignore_patterns('out', 'must-fail'))
        self.specs = '%s/crates/%s/specs' % (self.dir, CRATE)
        with open(self.specs + '/Lib.antt', 'a') as f:
            f.write('pub mod Run\n')

    def run(self, theorems):
        """the names that the checker refuses, those that ran out of steps, and the seconds it took"""
        with open(self.specs + '/Run.antt', 'w') as f:
            f.write(HEAD + '\n' + '\n'.join(theorems))
        t = time.time()
        p = subprocess.run(['rt', 'check', '--jobs', '1'], cwd=os.path.dirname(self.specs), capture_output=True, text=True)
        out = p.stdout + p.stderr
        bad, steps = set(), set()
        for m in re.finditer(r'Run\.antt:\d+:\d+: error: `(\S+)-passes`(.*)', out):
            (steps if 'step limit' in m.group(2) else bad).add(m.group(1))
        if not bad and not steps and (p.returncode or 'Run.antt' in out):
            sys.exit(out[:3000])
        return bad, steps, time.time() - t


def compare(sessions):
    repository = Repository()
    repository.run([])    # the definitions themselves
    batch = int(os.environ.get('BATCH', '40'))
    total, differ, outof = 0.0, [], []
    for i in range(0, len(sessions), batch):
        part = sessions[i:i + batch]
        bad, steps, t = repository.run([theorem('s%d' % (i + j), s) for j, s in enumerate(part)])
        total += t
        differ += sorted(int(b[1:]) for b in bad)
        outof += sorted(int(b[1:]) for b in steps)
        print('%d of %d sessions, %.0f s' % (min(i + batch, len(sessions)), len(sessions), total), file=sys.stderr)
    calls = sum(len(s) for s in sessions)
    dumps = sum(1 for s in sessions for line, _ in s if line == 'dump')
    print('definitions: %d sessions, %d calls (%d dumps of the whole state), %.0f s, %.0f calls a second' % (len(sessions), calls, dumps, total, calls / max(total, 0.001)))
    for k in outof:
        print('session %d: out of the checker\'s steps, not compared (%d calls)' % (k, len(sessions[k])))
    for k in differ[:int(os.environ.get('SHOW', '10'))]:
        s = sessions[k]
        bad, _, _ = repository.run([theorem('p%d' % j, s[:j]) for j in range(1, len(s) + 1)])
        first = min(int(b[1:]) for b in bad)
        print('session %d differs at call %d: %s   the program answers %s' % (k, first, s[first - 1][0], s[first - 1][1]))
        for line, a in s[:first]:
            print('    %s   -> %s' % (line, a))
    shutil.rmtree(repository.dir)
    print('differences: %d' % len(differ))
    return 1 if differ or outof else 0


def main():
    if len(sys.argv) < 3:
        sys.exit(__doc__)
    lines = [l.split('#')[0].strip() for l in open(sys.argv[1])]
    lines = [l for l in lines if l]
    r = subprocess.run(sys.argv[2:], input='\n'.join(lines) + '\n', capture_output=True, text=True, check=True)
    answers = r.stdout.splitlines()
    if len(answers) != len(lines):
        sys.exit('%d calls, %d answers' % (len(lines), len(answers)))
    sessions = []
    for line, a in zip(lines, answers):
        if line == 'reset' or not sessions:
            sessions.append([])
        sessions[-1].append((line, a))
    sys.exit(compare([s for s in sessions if not any(line.startswith('setcell ') for line, _ in s)]))


main()
