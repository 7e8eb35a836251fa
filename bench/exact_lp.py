#!/usr/bin/env python3
"""Holds whole runs of a program of the text format against an exact solver over fractions, written apart from it.

usage: exact_lp.py SESSIONS PROGRAM [--glpk EVERY]

After each changing call of a run that is still whole the values of the live variables are asked for, and it is checked that
  - every value is a whole number, and the required constraints are met exactly;
  - the weighted error of the rest is the least that fractions allow (linear programming, all numbers whole);
  - 12 is answered only if the required constraints, the new one among them, can't be met by fractions;
  - 13, 15, 16 and 17 are never answered.
Of a drop all this holds at its end.
With --glpk, every EVERY-th problem is also put to `glpsol --exact`, and the two least errors compared.
"""
import os
import struct
import subprocess
import sys
import tempfile

REQUIRED = 1001001000
CHANGING = ('add', 'remove', 'drop', 'addedit', 'removeedit', 'suggest', 'reset')


# ---- linear programming over the whole numbers: a tableau of integers over one common denominator (Bareiss)

class Tableau:
    """minimise the last row; columns are variables at or above 0, the last column is the right side"""

    def __init__(self, rows, basis):
        self.rows, self.basis, self.unit = rows, basis, 1

    def pivot(self, r, c):
        p = self.rows[r][c]
        if p < 0:
            self.rows[r] = [-x for x in self.rows[r]]
            p = -p
        row = self.rows[r]
        for i, other in enumerate(self.rows):
            if i != r:
                k = other[c]
                self.rows[i] = [(x * p - k * y) // self.unit for x, y in zip(other, row)]
        self.unit = p
        self.basis[r] = c

    def minimise(self, allowed):
        """Bland's rule; False if there is no least value"""
        while True:
            goal = self.rows[-1]
            c = next((j for j in allowed if goal[j] < 0), None)
            if c is None:
                return True
            best = None
            for r in range(len(self.basis)):
                a, b = self.rows[r][c], self.rows[r][-1]
                if a > 0:
                    if best is None or b * best[1] < best[0] * a or (b * best[1] == best[0] * a and self.basis[r] < self.basis[best[2]]):
                        best = (b, a, r)
            if best is None:
                return False
            self.pivot(best[2], c)


def equations(constraints, variables):
    """rows at a right side of 0 or more and the cost of each column: x = x+ - x-, then two columns a constraint, e = p - q"""
    place = {v: i for i, v in enumerate(sorted(variables))}
    n = 2 * len(place)
    width = n + 2 * len(constraints)
    rows, cost = [], [0] * width
    for i, (terms, constant, relation, strength) in enumerate(constraints):
        row = [0] * width
        for v, k in terms:
            row[2 * place[v]] += k
            row[2 * place[v] + 1] -= k
        p, q = n + 2 * i, n + 2 * i + 1
        required = strength >= REQUIRED
        if not (required and relation in ('le', 'eq')):
            row[p] = -1
            cost[p] = 0 if required or relation == 'ge' else strength
        if not (required and relation in ('ge', 'eq')):
            row[q] = 1
            cost[q] = 0 if required or relation == 'le' else strength
        right = -constant
        rows.append([-x for x in row] + [-right] if right < 0 else row + [right])
    return rows, cost


def feasible(rows, width):
    """a tableau at a point where all equations hold, or None; redundant rows are left out"""
    m = len(rows)
    full = [row[:-1] + [1 if j == i else 0 for j in range(m)] + [row[-1]] for i, row in enumerate(rows)]
    goal = [-sum(r[j] for r in full) for j in range(width)] + [0] * m + [-sum(r[-1] for r in full)]
    t = Tableau(full + [goal], list(range(width, width + m)))
    t.minimise(range(width))
    if t.rows[-1][-1] != 0:
        return None
    for r in range(m):
        if t.basis[r] >= width:
            c = next((j for j in range(width) if t.rows[r][j] != 0), None)
            if c is not None:
                t.pivot(r, c)
    kept = [r for r in range(m) if t.basis[r] < width]
    out = Tableau([t.rows[r] for r in kept], [t.basis[r] for r in kept])
    out.unit = t.unit
    return out


def least(constraints, variables):
    """(feasible, numerator, denominator) of the least weighted error; a constraint is (terms, constant, relation, strength)"""
    rows, cost = equations(constraints, variables)
    t = feasible(rows, len(cost))
    if t is None:
        return False, 0, 1
    goal = [x * t.unit for x in cost] + [0] * (len(rows) + 1)
    for row, column in zip(t.rows, t.basis):
        if cost[column]:
            goal = [x - cost[column] * y for x, y in zip(goal, row)]
    t.rows.append(goal)
    if not t.minimise(range(len(cost))):
        raise ArithmeticError('an error below zero')
    return True, -t.rows[-1][-1], t.unit


def by_glpk(constraints, variables):
    """the least weighted error by glpsol --exact, or None if there is none"""
    def side(pairs):
        return ' '.join('%+d %s' % p for p in pairs) or '0 z'
    cost, lines, bounds = [], [], []
    for i, (terms, constant, relation, strength) in enumerate(constraints):
        total = {}
        for v, k in terms:
            total[v] = total.get(v, 0) + k
        left = [(k, 'x%d' % v) for v, k in total.items() if k]
        if strength >= REQUIRED:
            lines.append('c%d: %s %s %d' % (i, side(left), {'le': '<=', 'eq': '=', 'ge': '>='}[relation], -constant))
        else:
            lines.append('c%d: %s = %d' % (i, side(left + [(-1, 'p%d' % i), (1, 'q%d' % i)]), -constant))
            if relation != 'ge':
                cost.append((strength, 'p%d' % i))
            if relation != 'le':
                cost.append((strength, 'q%d' % i))
    bounds = ['x%d free' % v for v in sorted(variables)]
    text = 'Minimize\n obj: %s\nSubject To\n %s\nBounds\n %s\nEnd\n' % (side(cost), '\n '.join(lines), '\n '.join(bounds))
    with tempfile.TemporaryDirectory() as d:
        with open(d + '/p.lp', 'w') as f:
            f.write(text)
        out = subprocess.run(['glpsol', '--exact', '--nopresol', '--lp', d + '/p.lp', '-w', d + '/s'], capture_output=True, text=True).stdout
        if not os.path.exists(d + '/s'):
            sys.exit(out + text)
        for line in open(d + '/s'):
            w = line.split()
            if w[0] == 's':
                return float(w[-1]) if w[4] == 'f' else None
    sys.exit(out)


# ---- the runs

def whole(word):
    if word == 'req':
        return REQUIRED
    if word.startswith('0x'):
        return int(struct.unpack('>d', bytes.fromhex(word[2:]))[0])
    return int(word)


def words(line):
    """a call's words; of an add also its group, behind the others"""
    w = line.split()
    if w[0] == 'addg':
        return ['add'] + w[2:] + [w[1]]
    return w + ['1'] if w[0] == 'add' else w


class Run:
    def __init__(self):
        self.constraints, self.edits, self.groups = {}, {}, {}

    def problem(self):
        out = list(self.constraints.values())
        out += [([(v, 1)], -at, 'eq', strength) for v, (strength, at) in self.edits.items()]
        return out

    def new(self, w):
        terms = [(int(w[7 + 2 * i]), whole(w[8 + 2 * i])) for i in range(int(w[6]))]
        return [t for t in terms if t[1]], whole(w[5]), w[3], whole(w[4])

    def accepted(self, w):
        if w[0] == 'add':
            self.constraints[w[1]], self.groups[w[1]] = self.new(w), w[-1]
        elif w[0] == 'reset':
            self.__init__()
        elif w[0] == 'remove':
            del self.constraints[w[1]]
        elif w[0] == 'drop':
            self.constraints = {c: x for c, x in self.constraints.items() if self.groups[c] != w[1]}
        elif w[0] == 'addedit':
            self.edits[int(w[1])] = (max(whole_strength(w[2]), 0), 0)
        elif w[0] == 'removeedit':
            del self.edits[int(w[1])]
        elif w[0] == 'suggest':
            self.edits[int(w[1])] = (self.edits[int(w[1])][0], whole(w[2]))

    def live(self):
        return {v for terms, _, _, _ in self.problem() for v, _ in terms}


def whole_strength(word):
    if word.startswith('0x') and struct.unpack('>d', bytes.fromhex(word[2:]))[0] < 0:
        return 0    # clipped
    return whole(word)


def error(constraint, values):
    terms, constant, relation, _ = constraint
    e = sum(k * values.get(v, 0) for v, k in terms) + constant
    return {'le': max(0, e), 'ge': max(0, -e), 'eq': abs(e)}[relation]


class Check:
    def __init__(self, glpk):
        self.runs = self.states = self.refusals12 = self.by_glpk = self.bad = 0
        self.glpk = glpk

    def wrong(self, session, i, what):
        self.bad += 1
        print('after call %d: %s' % (i, what))
        for line in session[:i + 1]:
            print('    ' + line)

    def problem(self, constraints, variables):
        answer = least(constraints, variables)
        if self.glpk and constraints and (self.states + self.refusals12) % self.glpk == 0:
            other = by_glpk(constraints, variables)
            self.by_glpk += 1
            same = other is None if not answer[0] else other is not None and abs(other * answer[2] - answer[1]) <= 1e-6 * max(answer[2], answer[1])
            if not same:
                self.bad += 1
                print('glpsol: %s, here %s, on %s' % (other, answer, constraints))
        return answer

    def state(self, session, i, run, values):
        self.states += 1
        if any(v != int(v) for v in values.values()):
            return self.wrong(session, i, 'a value is not whole: %s' % values)
        values = {k: int(v) for k, v in values.items()}
        constraints = run.problem()
        for c in constraints:
            if c[3] >= REQUIRED and error(c, values):
                return self.wrong(session, i, 'a required constraint is not met: %s by %s' % (c, values))
        total = sum(c[3] * error(c, values) for c in constraints if c[3] < REQUIRED)
        feasible, numerator, denominator = self.problem(constraints, run.live())
        if not feasible or total * denominator != numerator:
            self.wrong(session, i, 'error %s, the least is %s / %s' % (total, numerator, denominator))

    def session(self, session, ask):
        run, whole, checked = Run(), True, False
        answers = ask(session)
        for i, line in enumerate(session):
            w = words(line)
            if w[0] not in CHANGING:
                continue
            refusal, _, mark = answers[i][0].split()
            # a run starts at a reset that is accepted, whatever its cutoff
            whole = mark == '1' and (whole or (w[0] == 'reset' and refusal == '0'))
            if not whole:
                continue
            checked = True
            if refusal == '12':
                self.refusals12 += 1
                constraints = run.problem() + [run.new(w)]
                if self.problem([c for c in constraints if c[3] >= REQUIRED], {v for c in constraints for v, _ in c[0]})[0]:
                    self.wrong(session, i, '12, although the required constraints can be met')
            elif refusal in ('13', '15', '16', '17'):
                self.wrong(session, i, 'refusal %s in a whole run' % refusal)
            elif refusal == '0':
                run.accepted(w)
                self.state(session, i, run, answers[i][1])
        self.runs += checked


def asker(program):
    """answers of a session, each changing call's with the values of all variables after it"""
    def ask(session):
        variables = set()
        for line in session:
            w = words(line)
            variables |= {int(v) for v in w[7:-1:2]} if w[0] == 'add' else {int(w[1])} if w[0] in ('addedit', 'suggest') else set()
        variables = sorted(variables)
        script = []
        for line in session:
            script += [line] + (['value %d' % v for v in variables] if words(line)[0] in CHANGING else [])
        out = subprocess.run([program], input='\n'.join(script) + '\n', capture_output=True, text=True).stdout.split('\n')
        answers, k = [], 0
        for line in session:
            n = len(variables) if words(line)[0] in CHANGING else 0
            values = {v: struct.unpack('>d', bytes.fromhex(a))[0] for v, a in zip(variables, out[k + 1:k + 1 + n])}
            answers.append((out[k], values))
            k += 1 + n
        return answers
    return ask


def main():
    glpk = int(sys.argv[sys.argv.index('--glpk') + 1]) if '--glpk' in sys.argv else 0
    sessions = []
    for line in open(sys.argv[1]):
        if line.strip() == 'reset':    # one that names a cutoff is a call of its session
            sessions.append([])
        sessions[-1].append(line.strip())
    check, ask = Check(glpk), asker(os.path.abspath(sys.argv[2]))
    for s in sessions:
        check.session(s, ask)
    print('%d whole runs, %d states checked, %d refusals 12 checked, %d problems by glpsol too' % (check.runs, check.states, check.refusals12, check.by_glpk))
    print('differences: %d' % check.bad)
    sys.exit(1 if check.bad else 0)


main()
