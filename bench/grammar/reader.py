"""T-01's lines read a second time, by other means than the program: from the bottom up by tables made from the grammar (lr.py), then
depth, numbers, products and sums from the tree. Document 02's sentences are quoted beside what says them."""
from lr import Automaton, END

CLASS = {ord(c): c for c in ' v+-*()<=>'}
CLASS.update({ord(c): 'd' for c in '0123456789'})
SYMBOLS = sorted(set(CLASS.values())) + [END]


class Rules:
    """What document 02 fixes. bench/run lines-rules changes one at a time, and must then see differences."""
    longest = 4096          # "one line of at most 4,096 bytes"
    deepest = 16            # "21 deeper than 16"
    number = 1048576        # "22 a number, or a product of multipliers over a part, above 1,048,576"
    variable = 4294967295   # "or a variable number above 4,294,967,295"
    summed = 1048576        # "22 a summed coefficient or constant above 1,048,576 in size"
    terms = 16              # "23 more than 16 variables"
    ends_free = False       # "Spaces are free around marks": at a line's ends only where a mark stands there
    after_v = False         # "never after `v`"
    through_brackets = True     # the product of all multipliers that stand over the part
    zeros_dropped = True    # "zero ones dropped"
    right_minus = True      # "the left side minus the right"
    minus_negates = True    # `-` a part
    product_at_mark = True  # met at the `*` that makes the number a multiplier, not behind it

    def __init__(self, **changed):
        for name in changed:
            getattr(self, name)
        self.__dict__.update(changed)


# The symbols: `sum` and `part` take the spaces behind them, `last` and `final` are those at the line's end, where a number or a
# variable takes none, and `marked` and `opening` are those that begin with a mark. sp is spaces, free where it stands.
def grammar(rules):
    """"a sum, one of `<=`, `=`, `>=`, a sum. A sum is parts joined by `+` or `-`. A part is a whole number, a variable `v` with digits,
    a number `*` a part, `-` a part, or a sum in brackets" """
    out = [('start', ('line',))]

    def rule(head, *words):
        for word in words:
            out.append((head, tuple(word.split())))

    end = ' sp' if rules.ends_free else ''
    if rules.ends_free:
        rule('line', 'sp sum related last')
    else:
        rule('line', 'sum related last', 'sp1 marked related last')
    rule('related', '< = sp', '= sp', '> = sp')
    rule('joint', '+ sp', '- sp')
    rule('sum', 'part', 'sum joint part')
    rule('marked', 'opening', 'marked joint part')
    rule('last', 'final', 'sum joint final')
    rule('part', 'number sp', 'variable sp', 'number sp * sp part', '- sp part', '( sp sum ) sp')
    rule('opening', '- sp part', '( sp sum ) sp')
    rule('final', 'number' + end, 'variable' + end, 'number sp * sp final', '- sp final', '( sp sum ) sp')
    rule('number', 'd', 'number d')
    rule('variable', 'v sp d' if rules.after_v else 'v d', 'variable d')
    rule('sp', '', 'sp _')
    rule('sp1', '_', 'sp1 _')
    return [(head, tuple(' ' if s == '_' else s for s in body)) for head, body in out]


class Reader:
    classes = CLASS
    grammar = staticmethod(grammar)
    # the symbols that complete a line
    ends = ')=d-'

    def __init__(self, rules=None):
        self.rules = rules or Rules()
        self.automaton = Automaton(self.grammar(self.rules))

    def follow(self, line):
        """The tree, None if the line is not in the grammar, and the length of the longest prefix of a line of the grammar."""
        a = self.automaton
        states, nodes, at = [0], [], 0
        symbols = [self.classes.get(b, '?') for b in line]
        symbols.append(END)
        while True:
            state = states[-1]
            symbol = symbols[at]
            target = a.shift[state].get(symbol)
            if target is not None:
                states.append(target)
                nodes.append(at)
                at += 1
                continue
            rule = a.reduce[state].get(symbol)
            if rule is None:
                return None, at
            if rule == 0:
                return nodes[-1], at
            head, body = a.rules[rule]
            n = len(body)
            node = build(head, body, nodes[len(nodes) - n:] if n else [], line)
            if n:
                del states[-n:]
                del nodes[-n:]
            states.append(a.goto[states[-1]][head])
            nodes.append(node)

    def states_after(self, prefix):
        """The states after a prefix of a line of the grammar, with nothing decided on what follows."""
        states = [0]
        for b in prefix:
            self.push(states, self.classes[b])
        return states

    def push(self, states, symbol):
        """Goes on by the symbol; False where no line of the grammar does."""
        a = self.automaton
        while symbol not in a.shift[states[-1]]:
            rule = a.reduce[states[-1]].get(symbol)
            if not rule:
                return rule == 0
            head, body = a.rules[rule]
            if body:
                del states[-len(body):]
            states.append(a.goto[states[-1]][head])
        states.append(a.shift[states[-1]][symbol])
        return True

    def wanted(self, states):
        """The symbols that may stand next, END among them after a line of the grammar."""
        return {s for s in SYMBOLS if self.push(states[:], s)}

    def completed(self, prefix):
        """A line of the grammar that begins with the prefix."""
        states, line = self.states_after(prefix), bytearray(prefix)
        while not self.push(states[:], END):
            symbol = next(s for s in self.ends if self.push(states[:], s))
            self.push(states, symbol)
            line += b'0' if symbol == 'd' else symbol.encode()
        return bytes(line)

    def read(self, line):
        """('ok', relation, constant, [(variable, coefficient)]), ('no', number) or ('no', 20, offset)"""
        r = self.rules
        if len(line) > r.longest:
            return ('no', 19)
        tree, at = self.follow(line)
        if tree is None:
            return self.refused(line[:at])
        met = first_refused(tree, r, len(line))
        return ('no', met) if met else self.summed(tree)

    def refused(self, prefix):
        """The answer where no line of the grammar goes on after the prefix."""
        met = first_refused(self.follow(self.completed(prefix))[0], self.rules, len(prefix))
        return ('no', met) if met else ('no', 20, len(prefix))

    def summed(self, tree):
        r = self.rules
        _, left, relation, right = tree
        constant, terms = value(left, r)
        other, others = value(right, r)
        sign = -1 if r.right_minus else 1
        constant += sign * other
        terms = dict(terms)
        for v, k in others.items():
            terms[v] = terms.get(v, 0) + sign * k
        if r.zeros_dropped:
            terms = {v: k for v, k in terms.items() if k}
        if max([abs(constant)] + [abs(k) for k in terms.values()]) > r.summed:
            return ('no', 22)
        if len(terms) > r.terms:
            return ('no', 23)
        return ('ok', relation, constant, sorted(terms.items()))


def build(head, body, parts, line):
    """A node of the tree: ('number', digits' start, end), ('variable', start, end), ('times', number, place of *, part),
    ('minus', part), ('sum', [(sign, part)]), ('brackets', place of (, sum), ('line', left, relation, right)."""
    if head in ('sp', 'sp1'):
        return None
    if head == 'number':
        return ('number', parts[0] if len(body) == 1 else parts[0][1], parts[-1] + 1, line)
    if head == 'variable':
        return ('variable', parts[-1] if body[0] == 'v' else parts[0][1], parts[-1] + 1, line)
    if head in ('part', 'final', 'opening'):
        if '*' not in body and body[0] in ('number', 'variable'):
            return parts[0]
        if body[0] == 'number':
            return ('times', parts[0], parts[2], parts[4], line)
        return ('minus', parts[2]) if body[0] == '-' else ('brackets', parts[0], parts[2])
    if head in ('sum', 'marked', 'last'):
        if len(body) == 1:
            return ('sum', [(1, parts[0])])
        # a sum's list is shared with no other sum: its shorter sum is gone from the stack
        parts[0][1].append((parts[1], parts[2]))
        return parts[0]
    if head == 'joint':
        return 1 if body[0] == '+' else -1
    if head == 'related':
        return {'<': 'le', '=': 'eq', '>': 'ge'}[body[0]]
    if head == 'figure':
        return parts[0] * 10 + line[parts[1]] - 48 if len(body) == 2 else line[parts[0]] - 48
    if head == 'line':
        ending = body.index('@') if '@' in body else len(body)
        return ('line',) + tuple(parts[ending - 3:ending]) + tuple(p for p, s in zip(parts, body) if s == 'figure')
    raise ValueError(head)


def too_big(line, start, end, most):
    """The place of the digit at which the number passes the bound, if one does."""
    n = 0
    for i in range(start, end):
        n = n * 10 + line[i] - 48
        if n > most:
            return i
    return None


def first_refused(tree, r, upto):
    """21 or 22, whichever is met first from the left before the place upto; None if neither is."""
    met = []
    todo = [(tree[1], 0, 1), (tree[3], 0, 1)]
    while todo:
        node, depth, product = todo.pop()
        kind = node[0]
        if kind == 'sum':
            todo += [(part, depth, product) for _, part in node[1]]
        elif kind == 'minus':
            todo.append((node[1], depth, product))
        elif kind == 'brackets':
            if depth == r.deepest:
                met.append((node[1], 21))
            else:
                todo.append((node[2], depth + 1, product if r.through_brackets else 1))
        elif kind in ('number', 'variable'):
            place = too_big(node[3], node[1], node[2], r.number if kind == 'number' else r.variable)
            if place is not None:
                met.append((place, 22))
        elif kind == 'times':
            _, number, mark, part, line = node
            place = too_big(line, number[1], number[2], r.number)
            if place is not None:
                met.append((place, 22))
                continue
            product *= int(line[number[1]:number[2]])
            if product > r.number:
                met.append((mark if r.product_at_mark else mark + 1, 22))
            else:
                todo.append((part, depth, product))
    met = [m for m in met if m[0] < upto]
    return min(met)[1] if met else None


def value(tree, r):
    """The constant and the terms of a sum, from the parts up."""
    work, done = [(tree, False)], []
    while work:
        node, ready = work.pop()
        kind = node[0]
        if kind == 'number':
            done.append((int(node[3][node[1]:node[2]]), {}))
        elif kind == 'variable':
            done.append((0, {int(node[3][node[1]:node[2]]): 1}))
        elif kind == 'brackets':
            work.append((node[2], False))
        elif not ready:
            work.append((node, True))
            if kind == 'sum':
                work += [(part, False) for _, part in node[1]]
            else:
                work.append((node[1] if kind == 'minus' else node[3], False))
        elif kind == 'sum':
            constant, terms = 0, {}
            # the last part's value was found last: the first part's stands on top
            for sign, _ in node[1]:
                k, others = done.pop()
                constant += sign * k
                for v, c in others.items():
                    terms[v] = terms.get(v, 0) + sign * c
            done.append((constant, terms))
        else:
            factor = (-1 if r.minus_negates else 1) if kind == 'minus' else int(node[4][node[1][1]:node[1][2]])
            k, terms = done.pop()
            done.append((factor * k, {v: factor * c for v, c in terms.items()}))
    return done[0]


STRENGTH, GROUP = 1001001000, 1


def answer(found):
    """The answer's line, without its newline."""
    if found[0] == 'no':
        return ' '.join(str(word) for word in found)
    _, relation, constant, terms = found
    words = ['ok', relation, STRENGTH, GROUP, constant, len(terms)]
    for v, k in terms:
        words += [v, k]
    return ' '.join(str(word) for word in words)
