"""Times kiwi on the layouts that it is told, by its Python module: one number a question, nanoseconds of one operation without what the calls
cost in Python. That is measured by calls of the same shape that have next to nothing to do, in a loop of the same form: a query and an update
of a solver that holds nothing, for calls of one argument and of none; and for calls of a variable and a number the suggestion of the value
that stands, to a solver that holds one edit alone. These have a little work of their own, so that what is left is rather too little than too
much. Constraints are made beforehand and not timed."""
import statistics
import sys
import time

import kiwisolver
from kiwisolver import Solver, Variable

REQUIRED = 1001001000.0
EMPTY, ALONE, GRIP = Solver(), Solver(), Variable("grip")
ALONE.addEditVariable(GRIP, "weak")
ALONE.suggestValue(GRIP, 1.0)
clock = time.thread_time_ns


class Layout:
    def __init__(self):
        self.variables, self.demands, self.pairs, self.extra = {}, [], {"edit": [], "start": [], "drag": []}, None

    def variable(self, number):
        return self.variables.setdefault(number, Variable(f"v{number}"))

    def constraint(self, words):
        relation, power, constant, *terms = words
        total = float(constant)
        for term in terms:
            number, k = term.split(":")
            total = self.variable(int(number)) * float(k) + total
        made = total <= 0 if relation == "<=" else total >= 0 if relation == ">=" else total == 0
        return made | float(power)

    def solver(self):
        s = Solver()
        for c in self.demands:
            s.addConstraint(c)
        for v, x in self.pairs["edit"]:
            s.addEditVariable(v, x)
        for v, x in self.pairs["start"]:
            s.suggestValue(v, x)
        s.updateVariables()
        return s


def timed(loop, empty):
    """Five of each in turn: the median of either, and their difference."""
    pairs = [(loop(), empty()) for _ in range(5)]
    return statistics.median(p[0] for p in pairs) - statistics.median(p[1] for p in pairs)


def drag(layout, turns):
    solver = layout.solver()
    suggest, update, same, none = solver.suggestValue, solver.updateVariables, ALONE.suggestValue, EMPTY.updateVariables
    grip, stands = GRIP, 1.0
    drags = (layout.pairs["drag"] * (turns // len(layout.pairs["drag"]) + 1))[:turns]

    def loop():
        start = clock()
        for v, x in drags:
            suggest(v, x)
            update()
        return clock() - start

    def empty():
        start = clock()
        for v, x in drags:
            same(grip, stands)
            none()
        return clock() - start

    spent = timed(loop, empty) / turns
    met(layout)
    return spent


def add_remove(layout, turns):
    solver = layout.solver()
    add, remove, none, c, v = solver.addConstraint, solver.removeConstraint, EMPTY.hasEditVariable, layout.extra, GRIP

    def loop():
        start = clock()
        for _ in range(turns):
            add(c)
            remove(c)
        return clock() - start

    def empty():
        start = clock()
        for _ in range(turns):
            none(v)
            none(v)
        return clock() - start

    return timed(loop, empty) / turns


def build(layout, turns):
    none, same, grip, stands = EMPTY.hasEditVariable, ALONE.suggestValue, GRIP, 1.0
    demands, edits, starts = layout.demands, layout.pairs["edit"], layout.pairs["start"]

    def loop():
        start = clock()
        for _ in range(turns):
            s = Solver()
            add, add_edit, suggest = s.addConstraint, s.addEditVariable, s.suggestValue
            for c in demands:
                add(c)
            for w, y in edits:
                add_edit(w, y)
            for w, y in starts:
                suggest(w, y)
        return clock() - start

    def empty():
        start = clock()
        for _ in range(turns):
            for _c in demands:
                none(grip)
            for _w, _y in edits:
                same(grip, stands)
            for _w, _y in starts:
                same(grip, stands)
        return clock() - start

    return timed(loop, empty) / turns


def met(layout):
    """What is required of the values is met."""
    for c in layout.demands:
        if c.strength() == REQUIRED:
            e = c.expression()
            off = e.constant() + sum(t.coefficient() * t.variable().value() for t in e.terms())
            wrong = {"<=": off > 1e-6, ">=": off < -1e-6, "==": abs(off) > 1e-6}[c.op()]
            assert not wrong, f"{c} is off by {off}"


def main():
    print(f"kiwi {kiwisolver.__kiwi_version__}", flush=True)
    layouts, layout = {}, None
    for line in sys.stdin:
        word, *words = line.split()
        if word == "end":
            return
        if word == "layout":
            layout = layouts[words[0]] = Layout()
        elif word == "demand":
            layout.demands.append(layout.constraint(words))
        elif word == "extra":
            layout.extra = layout.constraint(words)
        elif word == "time":
            name, case, turns = words
            print({"drag": drag, "add": add_remove, "build": build}[case](layouts[name], int(turns)), flush=True)
        else:
            layout.pairs[word].append((layout.variable(int(words[0])), float(words[1])))


main()
