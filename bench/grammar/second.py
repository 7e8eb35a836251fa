"""T-13's second edition by other means than the program's: lines read by tables made from the grammar with the ending, and constraints
written in the plain form. Document 02's sentences are quoted beside what says them."""
import math
import re
import struct
from reader import CLASS, Reader, first_refused, grammar

REQUIRED = 1001001000   # "a whole strength up to 1,001,001,000 (required)"
GROUPS = 65535          # "a group from 1 to 65,535"
ROOM = 200              # "Its lent buffer is 200 bytes"
NUMBER = 1048576
VARIABLE = 4294967295
TERMS = 16


def second(rules):
    """"A line may end in `@`, a whole strength .., a comma and a group": spaces are free around both marks."""
    ending = ' @ sp figure sp , sp figure'
    lines = ['sum related sum' + ending, 'sp1 marked related sum' + ending]
    figures = [('figure', ('d',)), ('figure', ('figure', 'd'))]
    return grammar(rules) + [('line', tuple(line.split())) for line in lines] + figures


class SecondReader(Reader):
    classes = {**CLASS, ord('@'): '@', ord(','): ','}
    grammar = staticmethod(second)
    # the comma first: a strength takes digits without end
    ends = ')=,d-'

    def read(self, line):
        """('ok', relation, strength, group, constant, [(variable, coefficient)]), ('no', number) or ('no', 20, offset)"""
        if len(line) > self.rules.longest:
            return ('no', 19)
        tree, at = self.follow(line)
        if tree is None:
            return self.refused(line[:at])
        met = first_refused(tree, self.rules, len(line))
        found = ('no', met) if met else self.summed(tree[:4])
        if found[0] == 'no':
            return found
        # "without it the constraint is required and in group 1"
        strength, group = tree[4:] or (REQUIRED, 1)
        # "after T-01's, 34 strength out of range, then 35 group out of range"
        if strength > REQUIRED:
            return ('no', 34)
        if not 1 <= group <= GROUPS:
            return ('no', 35)
        return found[:2] + (strength, group) + found[2:]


def answer(found):
    """The answer's line, without its newline."""
    if found[0] == 'no':
        return ' '.join(str(word) for word in found)
    return 'ok ' + ' '.join(str(word) for word in numbers(found[1:]))


def numbers(constraint):
    """`REL STRENGTH GROUP CONSTANT N V1 K1 ..`"""
    relation, strength, group, constant, terms = constraint
    return [relation, strength, group, constant, len(terms)] + [word for term in terms for word in term]


# ---- the writer

MARK = {'le': '<=', 'eq': '=', 'ge': '>='}


def whole(x, most):
    return not (math.isnan(x) or math.isinf(x)) and x == int(x) and abs(x) <= most


def plain(constraint):
    """The plain line, or the number of the refusal."""
    relation, strength, group, constant, terms = constraint
    # "36 for terms not ascending or anything a line can't say"
    said = whole(strength, REQUIRED) and strength >= 0 and 1 <= group <= GROUPS and whole(constant, NUMBER) and len(terms) <= TERMS
    said = said and all(whole(k, NUMBER) and k != 0 and v <= VARIABLE for v, k in terms)
    if not said or any(a[0] >= b[0] for a, b in zip(terms, terms[1:])):
        return 36
    # "no spaces or brackets, terms ascending by variable, then the constant unless it is zero and terms stand"
    pieces = []
    for v, k in terms:
        # "In a coefficient a size of 1 is left out."
        pieces.append('%+d*v%d' % (k, v) if abs(k) != 1 else '%sv%d' % ('-' if k < 0 else '+', v))
    if constant or not terms:
        pieces.append('%+d' % constant)
    line = ''.join(pieces).removeprefix('+') + MARK[relation] + '0'
    # "the ending unless it is required and group 1"
    if (strength, group) != (REQUIRED, 1):
        line += '@%d,%d' % (strength, group)
    return line if len(line) <= ROOM else 32


# ---- its input, in the text format

def real(word):
    """A number of the text format, None if it is none."""
    named = {'inf': math.inf, '-inf': -math.inf, 'nan': math.nan, 'req': float(REQUIRED)}
    if word in named:
        return named[word]
    if re.fullmatch('0x[0-9a-f]{16}', word):
        return struct.unpack('>d', bytes.fromhex(word[2:]))[0]
    if re.fullmatch('-?[0-9]+', word) and abs(int(word)) <= 2 ** 53:
        return -0.0 if word[0] == '-' and int(word) == 0 else float(int(word))
    return None


def natural(word, most):
    return int(word) if re.fullmatch('[0-9]+', word) and int(word) <= most else None


def given(line):
    """The constraint that a line of the text format gives, None if it gives none."""
    words = line.split(' ')
    if len(words) < 5 or words[0] not in MARK:
        return None
    count = natural(words[4], VARIABLE)
    if count is None or 2 * count != len(words) - 5:
        return None
    terms = [(natural(v, VARIABLE), real(k)) for v, k in zip(words[5::2], words[6::2])]
    constraint = (words[0], real(words[1]), natural(words[2], GROUPS), real(words[3]), terms)
    if None in constraint[:4] or any(None in term for term in terms):
        return None
    return constraint


def written(line):
    """What the program `writer` answers a line."""
    constraint = given(line)
    if constraint is None:
        return '?'
    found = plain(constraint)
    return found if isinstance(found, str) else 'no %d' % found
