#!/usr/bin/env python3
"""Document 01 once more, in Python, apart from bench/plain: the second source of the expected results.

  check.py                 compares every result that is written down with its own: each .listing of crates/night/data, each .out of
                           bench/data, what the gate's programs (night, console, tour, guide) are to write, and the answers in README
                           and docs/
  check.py night [FILE]    writes the listing of a run file
  check.py console [FILE]  writes the console's lines out
  check.py tour            writes the tour's lines
"""
import pathlib
import re
import subprocess
import sys

READERS = range(1, 17)
NODES = [*READERS, 32]
TABLE = {4: 'r', 5: 'r', 6: 'r', 7: 'r', 8: 'r', 0x0D: 'r', 0x54: 'r',
         0x11: 'g', 0x21: 'g', 0x60: 'g', 0x61: 'g', 0x79: 'g'}


class Refused(Exception):
    """args[0] is the refusal number."""


def need(truth, number):
    if not truth:
        raise Refused(number)


def halves(n):
    return n // 2 + n % 2


def judge_stamp(s):
    month, day, hour, minute, second = s
    thirty = (4, 6, 9, 11)
    last = 29 if month == 2 else 30 if month in thirty else 31
    need(1 <= month <= 12 and 1 <= day <= last and hour < 24 and minute < 60 and second < 60, 3)


def read_command(words, framed):
    """(command, node, word 04, word 05, word 06, data bytes with the pad byte)"""
    need(len(words) >= 6 + framed, 4)
    front, w = (words[0], words[1:]) if framed else (None, words)
    need(w[0] == len(w), 4)
    need(not framed or front >> 8 == 0xFF, 5)
    need(w[1] >> 8 == 0xAA and w[2] >> 8 == 0, 5)
    need(not framed or front & 255 == w[2] & 255, 6)
    cmd, node, t, start, size = w[1] & 255, w[2] & 255, w[3], w[4], w[5]
    data = b''.join(x.to_bytes(2, 'big') for x in w[6:])
    need(node in NODES, 7)
    need(TABLE.get(cmd) == ('g' if node == 32 else 'r'), 8)
    need(len(w) == {4: 7, 6: 6 + halves(size), 0x21: 6 + halves(size)}.get(cmd, 6), 9)
    if cmd in (4, 5, 6, 7, 8):
        need(1 <= t <= 65534, 10)
    if cmd in (4, 5, 6):
        need(1 <= size <= (1024 if cmd == 4 else 255), 10)
    if cmd == 0x0D:
        need(t <= 60 and size <= 255 and start + size <= 1024, 10)
        need(size or not (start or t), 10)
    if cmd == 0x21:
        need(1 <= size <= 64, 10)
    uses_t = cmd in (4, 5, 6, 7, 8, 0x0D)
    uses_start = cmd in (4, 5, 6, 0x0D)
    uses_size = cmd in (4, 5, 6, 0x0D, 0x21)
    need((uses_t or t == 0) and (uses_start or start == 0) and (uses_size or size == 0), 11)
    carried = 1 if cmd == 4 else size if cmd in (6, 0x21) else 0
    need(not any(data[carried:]), 11)
    return cmd, node, t, start, size, data[:carried]


class Gateway:
    def __init__(self):
        self.pending = {n: [] for n in NODES}
        self.count = dict.fromkeys(NODES, 0)
        self.number = dict.fromkeys(NODES, 1)
        self.plaque = dict.fromkeys(READERS)             # (ID, bytearray) or None
        self.reading = dict.fromkeys(READERS)            # (delay, start, size) or None
        self.last = dict.fromkeys(READERS)               # (ID, clock) or None
        self.name = b''

    def held(self, node):
        return sum(a[0] for a in self.pending[node])

    def has_room(self, node, words):
        after = {n: self.held(n) + (words if n == node else 0) for n in NODES}
        return after[node] <= 804 and sum(max(134, h) for h in after.values()) <= 4096

    def answer(self, node, stamp, word02, data=b''):
        words = 6 + halves(len(data))
        need(self.has_room(node, words), 13)
        month, day, hour, minute, second = stamp
        padded = data + b'\0' * (len(data) % 2)
        self.pending[node].append(
            [words, word02, self.count[node] << 8 | node, month << 8 | day, hour << 8 | minute,
             second << 8 | len(data)]
            + [int.from_bytes(padded[i:i + 2], 'big') for i in range(0, len(padded), 2)])
        self.count[node] = (self.count[node] + 1) % 256

    def move_on(self, node):
        self.number[node] = self.number[node] % 65535 + 1

    def command(self, stamp, words, framed):
        judge_stamp(stamp)
        cmd, node, t, start, size, data = read_command(words, framed)
        echo = 0xAA00 + cmd
        if cmd in (0x61, 0x79):
            for n in NODES:
                if self.pending[n]:
                    self.move_on(n)
                self.pending[n] = []
            if cmd == 0x61:
                self.count = dict.fromkeys(NODES, 0)
        if cmd in (4, 5, 6, 7, 8):
            if self.plaque[node] is None:
                return self.answer(node, stamp, 0xFFFF, b'\x07')
            ident, memory = self.plaque[node]
            need(cmd > 6 or start + size <= len(memory), 12)
            found = {5: bytes(memory[start:start + size]), 7: ident}.get(cmd, b'')
            self.answer(node, stamp, echo, found)
            if cmd in (4, 6):
                memory[start:start + size] = data * size if cmd == 4 else data
            return None
        self.answer(node, stamp, echo, self.name if cmd == 0x11 else b'')
        if cmd in (0x0D, 0x54):
            self.reading[node] = (t, start, size) if size else None
            self.last[node] = None
        if cmd in (0x21, 0x60):
            self.name = data
        return None

    def check(self, node, stamp, clock):
        """True if a report was queued, False if quiet."""
        judge_stamp(stamp)
        need(node in READERS, 7)
        if self.reading[node] is None or self.plaque[node] is None:
            return False
        delay, start, size = self.reading[node]
        ident, memory = self.plaque[node]
        if self.last[node] and self.last[node][0] == ident \
                and (clock - self.last[node][1]) % 2**32 < 1000 * delay:
            return False
        need(start + size <= len(memory), 12)
        self.answer(node, stamp, 0xAA0D, bytes(memory[start:start + size]))
        self.last[node] = (ident, clock)
        return True

    def arrive(self, node, ident, content):
        need(node in READERS, 7)
        need(len(ident) == 8, 9)
        need(1 <= len(content) <= 1024, 10)
        self.plaque[node] = (ident, bytearray(content))

    def leave(self, node):
        need(node in READERS, 7)
        need(self.plaque[node], 14)
        self.plaque[node] = None

    def collect(self, node, framed):
        need(node in NODES, 7)
        need(self.pending[node], 14)
        front = [0xFF00 + node] if framed and node != 1 else []
        return self.number[node], front + self.pending[node][0]

    def acknowledge(self, node, number):
        need(node in NODES, 7)
        need(self.pending[node], 14)
        need(number == self.number[node], 15)
        self.pending[node].pop(0)
        self.move_on(node)

    def store(self):
        """Document 02, E8: the answers of all nodes one behind the other, and then zeros."""
        words = [word for node in NODES for answer in self.pending[node] for word in answer]
        return words + [0] * (4096 - len(words))


def hexed(words):
    return ' '.join('%04X' % w for w in words)


class Broken(Exception):
    pass


def night(file):
    lines, at = [], 0

    def take(n):
        nonlocal at
        if at + n > len(file):
            raise Broken
        at += n
        return file[at - n:at]

    def take_pair():
        return int.from_bytes(take(2), 'big')

    g = Gateway()
    try:
        if len(file) > 65536:
            raise Broken
        for _ in range(take_pair()):
            node, length, ident = take(1)[0], take_pair(), take(8)
            content = take(length)
            try:
                g.arrive(node, ident, content)
            except Refused:
                raise Broken from None
        commands = take_pair()
        lines.append('commands %d' % commands)
        for _ in range(commands):
            stamp, length = tuple(take(5)), take_pair()
            if not 6 <= length <= 134:
                raise Broken
            words = [length] + [take_pair() for _ in range(length - 1)]
            try:
                g.command(stamp, words, False)
                node = words[2] & 255
                number, answer = g.collect(node, False)
                g.acknowledge(node, number)
                lines.append(hexed(answer))
            except Refused as no:
                lines.append('refused %d' % no.args[0])
        if at != len(file):
            raise Broken
    except Broken:
        lines.append('broken')
    return ''.join(line + '\n' for line in lines).encode()


NUMBER = rb'([0-9]{1,10})'
HEXES = rb'(-|(?:[0-9A-Fa-f]{2})+)'
FIVE = b' '.join([NUMBER] * 5)
FORM = rb'(framed|register)'
CALLS = {
    'command': re.compile(rb'command ' + FIVE + b' ' + FORM + rb'((?: [0-9A-Fa-f]{4}){0,256})'),
    'check': re.compile(rb'check ' + NUMBER + b' ' + FIVE + b' ' + NUMBER),
    'arrive': re.compile(rb'arrive ' + NUMBER + b' ' + HEXES + b' ' + HEXES),
    'leave': re.compile(rb'leave ' + NUMBER),
    'collect': re.compile(rb'collect ' + NUMBER + b' ' + FORM),
    'acknowledge': re.compile(rb'acknowledge ' + NUMBER + b' ' + NUMBER),
    'store': re.compile(rb'store ' + NUMBER + b' ' + NUMBER),
}


def number(text, most):
    if int(text) > most:
        raise ValueError
    return int(text)


def content(text, most):
    value = b'' if text == b'-' else bytes.fromhex(text.decode())
    if len(value) > most:
        raise ValueError
    return value


def call(g, line):
    for name, form in CALLS.items():
        found = form.fullmatch(line)
        if found:
            break
    else:
        raise ValueError
    f = found.groups()
    if name == 'command':
        stamp = tuple(number(x, 255) for x in f[:5])
        g.command(stamp, [int(w, 16) for w in f[6].split()], f[5] == b'framed')
        return 'queued'
    if name == 'store':
        first, count = number(f[0], 4095), number(f[1], 128)
        if count == 0 or first + count > 4096:
            raise ValueError
        return 'store ' + hexed(g.store()[first:first + count])
    node = number(f[0], 255)
    if name == 'check':
        stamp, clock = tuple(number(x, 255) for x in f[1:6]), number(f[6], 2**32 - 1)
        return 'queued' if g.check(node, stamp, clock) else 'quiet'
    if name == 'arrive':
        g.arrive(node, content(f[1], 16), content(f[2], 2047))
    elif name == 'leave':
        g.leave(node)
    elif name == 'collect':
        return 'collected %d %s' % (lambda n, words: (n, hexed(words)))(*g.collect(node, f[1] == b'framed'))
    else:
        g.acknowledge(node, number(f[1], 65535))
    return 'done'


def talk(text):
    """The gateway after a conversation, and its lines out."""
    g, out = Gateway(), []
    lines = text.split(b'\n')
    if lines[-1] == b'':
        lines.pop()
    for line in lines:
        if len(line) <= 4400 and (line == b'' or line[:1] == b'#'):
            continue
        try:
            if len(line) > 4400:
                raise ValueError
            out.append(call(g, line))
        except ValueError:
            out.append('unreadable')
        except Refused as no:
            out.append('refused %d' % no.args[0])
    return g, out


def console(text):
    return ''.join(line + '\n' for line in talk(text)[1]).encode()


TOUR_STAMP = (3, 19, 10, 11, 36)


def tour():
    """At each reader a plaque arrives and three of its bytes are read; the gateway's name is asked for; each answer is handed over. Then,
    on a fresh gateway, 79 is sent until the handover number has gone around."""
    g, lines = Gateway(), []
    for node in NODES:
        if node == 32:
            packet = [6, 0xAA11, node, 0, 0, 0]
        else:
            g.arrive(node, bytes.fromhex('E0040100002E16AD'), bytes([node, 0x22, 0x33, 0x44]))
            packet = [6, 0xAA05, node, 2000, 0, 3]
        g.command(TOUR_STAMP, packet, False)
        handover, answer = g.collect(node, True)
        g.acknowledge(node, handover)
        lines.append(hexed(answer))
    g = Gateway()
    for sent in range(1, 65537):
        g.command(TOUR_STAMP, [6, 0xAA79, 32, 0, 0, 0], False)
        if sent >= 65535:
            handover, answer = g.collect(32, True)
            lines.append('collected %d %s' % (handover, hexed(answer)))
    return ''.join(line + '\n' for line in lines).encode()


def guide(root):
    """The worked packets' own column, by tools/guide_expected.py."""
    with open(root / 'crates' / 'guide' / 'stdin', 'rb') as packets:
        return subprocess.run([sys.executable, root / 'tools' / 'guide_expected.py'], stdin=packets, capture_output=True, check=True).stdout


def gate_night(crate):
    """The files that the gate names, - for its standard input."""
    names = (crate / 'args').read_text().split()
    return b''.join(night((crate / 'stdin' if name == '-' else crate / 'data' / name).read_bytes()) for name in names)


def blocks(path):
    return re.findall('\n```\n(.*?)```', path.read_text(), re.S)


def hour(path):
    """What was typed and what came back in docs/CONSOLE.md."""
    shown = [line for block in blocks(path) for line in block.splitlines()]
    typed = ''.join(line[2:] + '\n' for line in shown if line.startswith('> '))
    return typed.encode(), ''.join(line + '\n' for line in shown if not line.startswith('> ')).encode()


def comparisons(root):
    """Each with its name, our result, and the one that is written down."""
    crates = root / 'crates'
    for folder, source, wanted, play in [(crates / 'night' / 'data', '*.run', '.listing', night),
                                         (root / 'bench' / 'data', '*.in', '.out', console)]:
        for path in sorted(folder.glob(source)):
            yield path.name, play(path.read_bytes()), path.with_suffix(wanted).read_bytes()
    for name, ours in [('night', gate_night(crates / 'night')), ('console', console((crates / 'console' / 'stdin').read_bytes())),
                       ('tour', tour()), ('guide', guide(root))]:
        yield 'crates/%s/stdout' % name, ours, (crates / name / 'stdout').read_bytes()
    listing = blocks(root / 'docs' / 'NIGHT.md')[-1]
    yield 'docs/NIGHT.md', night((crates / 'night' / 'data' / 'sample.run').read_bytes()), listing.encode()
    typed, shown = hour(root / 'docs' / 'CONSOLE.md')
    yield 'docs/CONSOLE.md', console(typed), shown
    typed, shown = blocks(root / 'README.md')[:2]
    yield 'README.md', console(typed.encode()), shown.encode()


def check_all(root):
    done = wrong = 0
    for name, ours, written in comparisons(root):
        done += 1
        if ours != written:
            print('%s: what is written down is not what document 01 gives' % name)
            wrong += 1
    print('%d compared, %d differ' % (done, wrong))
    return 1 if wrong else 0


def main(args):
    if not args:
        return check_all(pathlib.Path(__file__).resolve().parent.parent)
    if args[0] == 'tour':
        sys.stdout.buffer.write(tour())
        return 0
    text = pathlib.Path(args[1]).read_bytes() if len(args) > 1 else sys.stdin.buffer.read()
    sys.stdout.buffer.write({'night': night, 'console': console}[args[0]](text))
    return 0


if __name__ == '__main__':
    sys.exit(main(sys.argv[1:]))
