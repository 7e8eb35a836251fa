"""A canonical LR(1) automaton made from a grammar. It has a conflict if a line could be read in two ways that it must choose between,
so that it can be made at all says that each line has one tree. It never shifts a symbol after which no line goes on: where it stops,
the bytes shifted are the longest prefix of a line of the grammar."""

END = '$'


def first_sets(rules):
    """For each symbol on a left side: what its words begin with; None among them for the empty word."""
    first = {head: set() for head, _ in rules}
    grown = True
    while grown:
        grown = False
        for head, body in rules:
            found = first_of(body, first)
            if not found <= first[head]:
                first[head] |= found
                grown = True
    return first


def first_of(body, first):
    found = set()
    for symbol in body:
        if symbol not in first:
            return found | {symbol}
        found |= first[symbol] - {None}
        if None not in first[symbol]:
            return found
    return found | {None}


class Automaton:
    """Tables: shift[state][terminal] = state, reduce[state][terminal] = rule, goto[state][left side] = state."""

    def __init__(self, rules):
        self.rules = rules
        self.first = first_sets(rules)
        self.by_head = {}
        for number, (head, _) in enumerate(rules):
            self.by_head.setdefault(head, []).append(number)
        start = self.closure({(0, 0, END)})
        self.states, self.shift, self.reduce, self.goto = {start: 0}, [], [], []
        todo = [start]
        for items in todo:
            self.add_state(items, todo)

    def closure(self, items):
        items, todo = set(items), list(items)
        while todo:
            rule, dot, ahead = todo.pop()
            body = self.rules[rule][1]
            if dot < len(body) and body[dot] in self.by_head:
                for after in first_of(body[dot + 1:] + (ahead,), self.first):
                    for number in self.by_head[body[dot]]:
                        item = (number, 0, after)
                        if item not in items:
                            items.add(item)
                            todo.append(item)
        return frozenset(items)

    def add_state(self, items, todo):
        shift, reduce, goto, moves = {}, {}, {}, {}
        for rule, dot, ahead in items:
            body = self.rules[rule][1]
            if dot < len(body):
                moves.setdefault(body[dot], set()).add((rule, dot + 1, ahead))
            elif reduce.setdefault(ahead, rule) != rule:
                raise ValueError('two rules end here: %r, %r' % (self.rules[rule], self.rules[reduce[ahead]]))
        for symbol, kernel in moves.items():
            target = self.closure(kernel)
            if target not in self.states:
                self.states[target] = len(self.states)
                todo.append(target)
            (goto if symbol in self.by_head else shift)[symbol] = self.states[target]
        clash = set(shift) & set(reduce)
        if clash:
            raise ValueError('to go on or to end a rule at %r' % clash)
        self.shift.append(shift)
        self.reduce.append(reduce)
        self.goto.append(goto)
