"""Lines to compare on: the readings' examples, every short prefix of a line, and random longer ones, good and damaged."""
import random
from reader import CLASS

# docs/DECISIONS.md, T-01, in its order; then document 02's own example.
WRITTEN = [
    b'v1=0 ', b' v1=0', b' -v1=0', b'v1=(0) ', b'v1<0', b'v 1=0', b'', b'1048576*(2*v1)-1048576*(2*v1)=0', b'0*(1048576*1048576*v1)=0',
    b'1048576*2=1048576*2', b'1048576*2x', b'1048576*2*x', b'1048576*2*0*v1=0', b'0*1048576*2*v1=0', b'1048577x', b'01048576=v1',
    b'+'.join(b'v%d' % i for i in range(1, 18)) + b'=v17', b'+'.join(b'v%d' % i for i in range(1, 18)) + b'=0', b'(' * 17,
    b'(' * 16 + b'v1' + b')' * 16 + b'=0', b'-' * 4092 + b'v1=0', b'-' * 4093 + b'v1=0', b'+v1=0', b'(2)*v1=0', b'v1*2=0', b'2v1=0', b'2*-v1=0',
    b'--v1=0', b'v1--v2=0', b'v0=0', b'v1=0\r', b'v1=0\t', b'v1=\x000', b'V1=0', b'v1=\xc3\xa4', b'1025*v1=0', b'2*(v1 + 3) <= v2',
    b'v4294967295=0', b'v4294967296=0', b'v00000000001=0', b'0=0', b'-5<=0', b'1048576=-1', b'1048576=0', b'v1*', b'v1>=', b'v1> =0', b'v1=>0',
    b'v1=0' + b' ' * 4093, b'(0)=(0)' + b' ' * 4089, b'v1=0@1,1',
]

# the same, T-13: with an ending
ENDED = [
    b'v1=0@' + b'1' * 195, b'1048576*v1=-1048576*v1@1,1', b'+'.join(b'v%d' % i for i in range(1, 18)) + b'=0@1,1', b'v1=0@1001001000,1', b'v1=0 @ 5 , 6', b'v1=0@5,6 ', b'v1 =0 @5,6',
    b'v1=0@000000000001001001000,00000065535', b'v1=0@1001001001,1', b'v1=0@1001001001,65536', b'v1=0@1,65536', b'v1=0@18446744073709551617,1', b'v1=0@1,18446744073709551617',
    b'v1=0@1001001001,x', b'v1=0@-1,1', b'v1=0@1', b'v1=0@1,', b'v1=0@,1', b'v1=0@', b'v1=0@1,1@1,1', b'v1=0@0,1', b'v1=0@1,0', b'v1=0@0,0', b'@1,1', b'v1@1,1', b'v1=@1,1', b'v1=(0@1,1)', b'v1=0@1.5,1',
    b'(' * 17 + b'@', b'v1=0@1 1,1', b'1048577=v1@1001001001,0',
]

SHORT = b'v01+-*()<=> '


def prefixes(reader, longest):
    """Every prefix of a line of the grammar of at most that many bytes of SHORT, each with the symbols that go on from it."""
    found = [b'']
    for n in range(longest + 1):
        longer = []
        for prefix in found:
            wanted = reader.wanted(reader.states_after(prefix))
            yield prefix, wanted
            longer += [prefix + bytes([b]) for b in SHORT if CLASS[b] in wanted]
        found = longer


class Maker:
    """Random lines."""

    def __init__(self, seed):
        self.random = random.Random(seed)

    def one_of(self, *words):
        return self.random.choice(words)

    def spaces(self):
        return b' ' * self.random.choice((0, 0, 0, 0, 1, 1, 3))

    def zeros(self):
        return b'0' * self.random.choice((0, 0, 0, 0, 0, 1, 7))

    def number(self):
        r = self.random
        n = r.choice((0, 1, 2, 3, r.randrange(20), r.randrange(1025), r.randrange(1048577), 1048575, 1048576, 524288, 1048577 if r.random() < 0.1 else 7))
        return self.zeros() + b'%d' % n

    def small(self):
        """A multiplier: products stay below the bound often, and meet it at times."""
        return self.zeros() + b'%d' % self.random.choice((0, 1, 2, 2, 3, 4, 10, 16, 31, 32, 1024, 1023, 1048576) + (2, 3, 5, 7) * 4)

    def variable(self, most):
        r = self.random
        n = r.choice((r.randrange(most), r.randrange(most), r.randrange(most), 4294967295, 4294967294)) if r.random() < 0.1 else r.randrange(most)
        if r.random() < 0.003:
            n = 4294967296
        return b'v' + self.zeros() + b'%d' % n

    def part(self, depth, most):
        r = self.random.random()
        if r < 0.45:
            return self.variable(most)
        if r < 0.6:
            return self.number()
        if r < 0.78:
            return self.small() + self.spaces() + b'*' + self.spaces() + self.part(depth, most)
        if r < 0.88:
            return b'-' + self.spaces() + self.part(depth, most)
        if depth == 0:
            return self.variable(most)
        return b'(' + self.spaces() + self.sum(depth - 1, most, 3) + self.spaces() + b')'

    def sum(self, depth, most, longest):
        out = self.part(depth, most)
        for _ in range(self.random.randrange(longest)):
            out += self.spaces() + self.one_of(b'+', b'-') + self.spaces() + self.part(depth, most)
        return out

    def line(self):
        """A line of the grammar."""
        most = self.one_of(2, 4, 10, 20, 40, 5000000000)
        longest = self.one_of(2, 3, 6, 12, 24)
        depth = self.one_of(1, 2, 4)
        left, right = self.sum(depth, most, longest), self.sum(depth, most, self.one_of(1, 2, longest))
        return left + self.spaces() + self.one_of(b'<=', b'=', b'>=') + self.spaces() + right

    def deep(self):
        """Brackets around the 16th."""
        n, inner = self.one_of(14, 15, 16, 16, 17, 18), self.part(0, 9)
        out = inner
        for _ in range(n):
            out = self.one_of(b'', b'', b'-', b'2*', b'0*', b'v3+', b'1 - ') + b'(' + self.spaces() + out + self.spaces() + b')' + self.one_of(b'', b'', b'+v2')
        return self.one_of(out + b'=' + self.part(0, 9), self.part(2, 9) + b'<=' + out)

    def products(self):
        """Products around the bound, through brackets and minus signs, with zeros before and after."""
        out = self.one_of(b'v1', b'3', b'v2-v1', b'1048576')
        for _ in range(self.random.randrange(1, 7)):
            factor = b'%d' % self.one_of(0, 1, 2, 2, 4, 16, 32, 1024, 1024, 32768, 524288, 1048576)
            out = factor + b'*' + self.one_of(b'', b'-', b'--') + (b'(' + out + b')' if self.random.random() < 0.5 or b'-' in out else out)
        return out + self.one_of(b'=0', b'=' + out, b'>=' + out + b'-v1', b'', b'x', b'*', b'*x')

    def many(self):
        """16 or 17 variables and some that cancel, or hundreds."""
        r = self.random
        n = r.choice((15, 16, 16, 17, 17, 18, 40, 300, 700))
        numbers = r.sample(range(1000) if n < 100 else range(10000), n)
        gone = r.sample(numbers, r.choice((0, 1, 2, max(0, n - 16), max(0, n - 17))))
        k = r.choice((b'', b'2*', b'1048576*'))
        left = b''.join(r.choice((b'+', b'-')) + k + b'v%d' % v for v in numbers).lstrip(b'+')
        right = b'0'
        for v in gone:
            sign = b'-' if b'-' + k + b'v%d' % v in left.replace(b'+', b' +').replace(b'-', b' -').split() else b'+'
            right += sign + k + b'v%d' % v
        return left + b'=' + right

    def long(self):
        """Lines of 4,095 to 4,097 bytes: minus signs, spaces, zeros, brackets, sums."""
        n = self.one_of(4095, 4096, 4097, 5000)
        tail = self.one_of(b'v1=0', b'v1=0 ', b'v1=(0)', b'7<=v2', b'x')
        kind = self.random.randrange(6)
        if kind == 0:
            return b'-' * (n - len(tail)) + tail
        if kind == 1:
            return b'v1=(0)' + b' ' * (n - 6)
        if kind == 2:
            return b'0' * (n - 4) + b'7=v1'
        if kind == 3:
            return b'1*' * ((n - len(tail)) // 2) + tail
        if kind == 4:
            return b'(' + b' ' * (n - 6) + b'v1)=0'
        out = self.line()
        while len(out) < n:
            out += self.one_of(b'+', b'-') + self.part(2, 30)
        return out[:n]

    def damaged(self, line):
        """A byte put in, taken out or changed, or the line cut short, once or twice."""
        r = self.random
        for _ in range(r.choice((1, 1, 2))):
            at = r.randrange(len(line) + 1)
            kind = r.randrange(5)
            byte = bytes([r.choice(b'v0123456789+-*()<=> ')]) if r.random() < 0.8 else bytes([r.choice([b for b in range(256) if b != 10])])
            if kind == 0:
                line = line[:at] + byte + line[at:]
            elif kind == 1:
                line = line[:at] + line[at + 1:]
            elif kind == 2:
                line = line[:at] + byte + line[at + 1:]
            elif kind == 3:
                line = line[:at]
            else:
                line = line[:at] + b' ' + line[at:]
        return line

    def any(self):
        r = self.random.random()
        if r < 0.7:
            line = self.line()
        elif r < 0.8:
            line = self.deep()
        elif r < 0.9:
            line = self.products()
        elif r < 0.985:
            line = self.many() if self.random.random() < 0.15 else self.line()
        else:
            line = self.long() if self.random.random() < 0.4 else self.line()
        return self.damaged(line) if self.random.random() < 0.5 else line
