#!/usr/bin/env python3
"""Holds the program that reads T-12's stream, in the second edition since T-13, against the reader of this folder.
usage: cable.py cuts PROGRAM [STREAMS [SEED]]    random streams, each cut in five ways: equal answers, and those of this folder's reader
       cable.py wait PROGRAM [LINES [SEED]]      one byte at a time: each answer is there before the next line is sent
       cable.py record FOLDER [LINES [SEED]]     writes stdin and stdout of FOLDER: what the program is held to"""
import os
import random
import select
import subprocess
import sys
from cases import ENDED, Maker, WRITTEN
from second import GROUPS, REQUIRED, SecondReader, answer

LIMIT = 200         # "A line holds 200 bytes at most, newline apart."
PACKET = 4096       # bytes that one read of the program takes at most
TOGETHER = 100      # streams in one run of the program: each but the last ends in a newline, the last is closed
WAIT = 20.0         # seconds until an answer counts as missing


class Model:
    """What a stream is answered, from the whole of it."""

    def __init__(self):
        self.reader, self.known = SecondReader(), {}

    def line(self, line):
        if len(line) > LIMIT:
            return 'no 32'      # "32 line too long, at its newline, before all of T-01's"
        if line not in self.known:
            self.known[line] = answer(self.reader.read(line))
        return self.known[line]

    def stream(self, stream):
        lines = stream.split(b'\n')
        unended = lines.pop()
        # "33 unended at close, too long or not"
        return [self.line(line) for line in lines] + (['no 33'] if unended else [])


class Streams:
    """Random lines around the limit, and the ways to cut a stream."""

    def __init__(self, seed):
        self.random, self.maker = random.Random(seed), Maker(seed)

    def line(self):
        r = self.random
        kind = r.random()
        if kind < 0.05:
            return b''
        if kind < 0.1:
            return r.choice((b'v1=0\r', b'\r', b' ', b'v1<=0', b'v1 >= 2', b'<=', b'v', b'='))
        if kind < 0.2:
            # around the limit: minus signs, digits, spaces, and a line that would read behind the limit
            n = r.choice((198, 199, 200, 201, 202, 255, 256, 257, 400, 999)) - 5
            return r.choice((b'-' * n + b'v1<=0', b'0' * n + b'1<=v2', b'v1=(0' + b' ' * (n - 1) + b')', b'x' * n + b'v1<=0', b'-' * n + b'v1<=x'))
        line = self.maker.any() if kind < 0.6 else self.ended()
        return line if len(line) <= LIMIT or kind < 0.3 else line[:r.randrange(LIMIT + 10)]

    def ended(self):
        """A line with an ending: good numbers and bad ones, spaces around the marks and where none may stand, damage."""
        r, m = self.random, self.maker
        strength = b'%d' % r.choice((0, 1, 1000, 1000000, r.randrange(REQUIRED + 1), REQUIRED - 1, REQUIRED, REQUIRED, REQUIRED + 1, 10 ** 20))
        group = b'%d' % r.choice((0, 1, 1, 2, r.randrange(GROUPS + 1), GROUPS, GROUPS + 1, 2 ** 32 + 1, 10 ** 25))
        head = r.choice((m.line, m.any))() if r.random() < 0.5 else r.choice((b'v1=0', b'v1=(0)', b'v1-v2>=3', b'v1=', b'', b'v1', b'1048577*v1=0'))
        ending = m.spaces() + b'@' + m.spaces() + m.zeros() + strength + m.spaces() + b',' + m.spaces() + m.zeros() + group
        kind = r.random()
        if kind < 0.1:
            ending += r.choice((b' ', b'@1,1', b',1', b'-', b'v', b'\r', b'+v1'))
        if kind < 0.75:
            return head + ending
        return head + r.choice((m.damaged(ending), ending[:r.randrange(len(ending))]))

    def stream(self):
        return b''.join(self.line() + b'\n' for _ in range(self.random.choice((0, 1, 1, 2, 3, 5)))) or b'\n'

    def cuts(self, stream):
        """The stream in pieces, in five ways: as few as reads take, one byte each, short, long, and with a cut behind every `<`, `>`, `@` and newline."""
        r = self.random
        yield [stream[i:i + PACKET] for i in range(0, len(stream), PACKET)]
        yield [stream[i:i + 1] for i in range(len(stream))]
        for longest in (7, 500):
            pieces, at = [], 0
            while at < len(stream):
                n = r.randrange(1, longest)
                pieces.append(stream[at:at + n])
                at += n
            yield pieces
        marked = stream.replace(b'<', b'<\0').replace(b'>', b'>\0').replace(b'@', b'@\0').replace(b'\n', b'\n\0')
        yield [part[i:i + PACKET] for part in marked.split(b'\0') for i in range(0, len(part), PACKET)]


def fed(program, pieces):
    """The program's answers: a pipe of packets, so that each read of the program takes one piece."""
    theirs, ours = os.pipe2(os.O_DIRECT | os.O_CLOEXEC)
    with subprocess.Popen([program], stdin=theirs, stdout=subprocess.PIPE) as run:
        os.close(theirs)
        out = []
        os.set_blocking(ours, False)
        while pieces or ours is not None:
            ready, writable, _ = select.select([run.stdout], [ours] if ours is not None else [], [], WAIT)
            if not ready and not writable:
                run.kill()
                raise TimeoutError('the program neither reads nor writes')
            if ready:
                data = os.read(run.stdout.fileno(), 65536)
                if not data:
                    raise ChildProcessError('the program ended before its input')
                out.append(data)
            if writable:
                ours = sent(ours, pieces)
        out.append(run.stdout.read())
    return b''.join(out).decode('ascii').split('\n')[:-1]


def sent(pipe, pieces):
    """Sends what the pipe takes, from the list's end; closes it behind the last piece."""
    while pieces:
        try:
            os.write(pipe, pieces[-1])
        except BlockingIOError:
            return pipe
        pieces.pop()
    os.close(pipe)
    return None


def cuts(program, number=50000, seed=1):
    model, source = Model(), Streams(seed)
    differences = streams = answers = 0
    while streams < number:
        together = [source.stream() for _ in range(min(TOGETHER, number - streams))]
        if source.random.random() < 0.8:
            together[-1] = together[-1][:-1]        # the last line has no newline
        whole = b''.join(together).replace(b'\0', b'\1')
        expected = model.stream(whole)
        for pieces in source.cuts(whole):
            differences += fed(program, pieces[::-1]) != expected
        streams += len(together)
        answers += len(expected)
    print('%d streams, each cut in five ways, %d answers' % (streams, answers))
    print('differences: %d' % differences)
    return differences == 0


def wait(program, number=300, seed=1):
    """A next line is sent only after the answer of the one before it."""
    model, source, differences = Model(), Streams(seed), 0
    with subprocess.Popen([program], stdin=subprocess.PIPE, stdout=subprocess.PIPE, bufsize=0) as run:
        for _ in range(number):
            line = source.line()
            for b in line:
                os.write(run.stdin.fileno(), bytes([b]))
            if select.select([run.stdout], [], [], 0)[0]:
                print('an answer before the newline of %r' % line)
                differences += 1
            os.write(run.stdin.fileno(), b'\n')
            given = b''
            while not given.endswith(b'\n'):
                if not select.select([run.stdout], [], [], WAIT)[0]:
                    run.kill()
                    print('no answer within %d s to %r' % (WAIT, line))
                    return False
                given += os.read(run.stdout.fileno(), 65536)
            differences += given.decode('ascii') != model.line(line) + '\n'
        run.stdin.close()
        differences += run.stdout.read() != b''
    print('%d lines, one byte at a time, each answered before the next' % number)
    print('differences: %d' % differences)
    return differences == 0


def record(folder, number=1200, seed=7):
    source = Streams(seed)
    stream = b'\n'.join(WRITTEN + ENDED + [source.line() for _ in range(number)] + [b'v1=0\n\nv1=0'])
    with open(folder + '/stdin', 'wb') as f:
        f.write(stream)         # the last line has no newline
    with open(folder + '/stdout', 'w', encoding='ascii') as f:
        f.writelines(line + '\n' for line in Model().stream(stream))
    print('%d bytes' % len(stream))
    return True


def main():
    commands = {'cuts': cuts, 'wait': wait, 'record': record}
    if len(sys.argv) < 3 or sys.argv[1] not in commands:
        sys.exit(__doc__)
    sys.exit(0 if commands[sys.argv[1]](sys.argv[2], *map(int, sys.argv[3:])) else 1)


main()
