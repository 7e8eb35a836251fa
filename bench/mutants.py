#!/usr/bin/env python3
"""usage: mutants.py OUT CALLS ANSWERS ...    changes the patched crate rule by rule (mutants.txt), replays the recorded calls by each
changed crate, and says how many recorded answers alter. Fails if a change alters none, unless it is marked as one that none can tell.

CALLS and ANSWERS are the recorded files, pair by pair."""
import os
import shutil
import subprocess
import sys

HERE = os.path.dirname(os.path.abspath(__file__))
# without -O: a changed crate is built for some thousand calls
RUSTC = ['rustc', '-A', 'warnings']


def mutants(path):
    """A list of (name, told, edits): `## name` or `## name (none can tell: why)`, then for each edit `@ file`, the old lines by `-`,
    the new by `+`."""
    out = []
    for line in open(path).read().splitlines():
        if line.startswith('## '):
            out.append((line[3:], '(none can tell' not in line, []))
        elif line.startswith('@ '):
            out[-1][2].append([line[2:], [], []])
        elif line[:1] in ('-', '+'):
            out[-1][2][-1][1 if line[0] == '-' else 2].append(line[1:])
    return out


def changed(source, old, new, name):
    old, new = '\n'.join(old) + '\n', '\n'.join(new) + '\n' if new else ''
    if source.count(old) != 1:
        sys.exit('%s: stands %d times in the patched crate:\n%s' % (name, source.count(old), old))
    return source.replace(old, new)


def build(out, name, edits):
    shutil.rmtree(out, ignore_errors=True)
    shutil.copytree(os.path.join(HERE, 'patched'), os.path.join(out, 'patched'))
    shutil.copy(os.path.join(HERE, 'format.rs'), out)
    for path, old, new in edits:
        path = os.path.join(out, 'patched', path)
        text = changed(open(path).read(), old, new, name)
        open(path, 'w').write(text)
    subprocess.check_call(RUSTC + ['--edition', '2015', '--crate-type', 'rlib', '--crate-name', 'cassowary_patched', '--out-dir', out, out + '/patched/lib.rs'])
    subprocess.check_call(RUSTC + ['--edition', '2021', '-o', out + '/patched/model', '--extern', 'cassowary_patched=%s/libcassowary_patched.rlib' % out, out + '/patched/main.rs'])
    return out + '/patched/model'


def altered(model, calls, answers):
    given = subprocess.run([model] + (['-d'] if calls.endswith('lent.txt') else []), stdin=open(calls), stdout=subprocess.PIPE, timeout=600).stdout
    return sum(a != b for a, b in zip(given.splitlines(), open(answers, 'rb').read().splitlines()))


def main():
    out, pairs = sys.argv[1], list(zip(sys.argv[2::2], sys.argv[3::2]))
    survived = 0
    print('%-100s %s' % ('rule changed', ' '.join('%12s' % os.path.basename(c) for c, _ in pairs)))
    for name, told, edits in mutants(os.path.join(HERE, 'mutants.txt')):
        model = build(out, name, edits)
        counts = [altered(model, c, a) for c, a in pairs]
        if told and not sum(counts):
            survived += 1
        print('%-100s %s' % (name, ' '.join('%12d' % n for n in counts)), flush=True)
        if not told and sum(counts):
            sys.exit('this one is told after all')
    print('changes that alter no recorded answer: %d' % survived)
    sys.exit(1 if survived else 0)


main()
