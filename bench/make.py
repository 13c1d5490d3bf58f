#!/usr/bin/env python3
"""Makes run files with their listings (crates/night/data, and what `night` writes for all of them and its standard input in the gate), and
conversations with the console's lines out (bench/data, and all of them as one in the gate: crates/console), all by bench/plain.

  make.py FOLDER     FOLDER has plain-night and plain-console (target/bench after bench/run)

The sample is the one of docs/NIGHT.md; wrap.sh and wrap.tail are made by hand. check.py compares all of it with a second source.
"""
import pathlib
import re
import subprocess
import sys

import check

ROOT = pathlib.Path(__file__).resolve().parent.parent
NIGHT = ROOT / 'crates' / 'night'
CONSOLE = ROOT / 'crates' / 'console'
TALKS = ROOT / 'bench' / 'data'
STAMP = '03130A0B24'


def pack(*parts):
    return bytes.fromhex(''.join(parts).replace(' ', ''))


def words(*values):
    return ''.join('%04X' % v for v in values)


def command(byte, node, w4=0, w5=0, w6=0, data=b'', stamp=STAMP):
    data += b'\0' * (len(data) % 2)
    return stamp + words(6 + len(data) // 2, 0xAA00 + byte, node, w4, w5, w6) + data.hex()


def plaque(node, content, ident='E0040100002E16AD'):
    return '%02X%04X' % (node, len(content)) + ident + content.hex()


def run_file(plaques, commands):
    return pack(words(len(plaques)), *plaques, words(len(commands)), *commands)


# ---- run files

EXAMPLE = ('0001 02 0004 E0040100002E16AD 11223344 0002 03130A0B24 0006 AA05 0002 07D0 0000 0003 '
           '03130A0B25 0006 AA09 0002 0000 0000 0000')


def all_of_it():
    readers = range(1, 17)
    plaques = [plaque(n, bytes((16 * n + i) % 256 for i in range(8 * n)), 'E0040100000000%02X' % n)
               for n in readers]
    c = []
    for n in readers:
        c += [command(5, n, 2000, 0, min(8 * n, 255)),
              command(4, n, 1, 0, 4, bytes([0xF0 + n - 1])),
              command(6, n, 65534, 4, 3, b'abc'),
              command(5, n, 2000, 0, 8),
              command(7, n, 2000), command(8, n, 2000),
              command(0x0D, n, 60, 1020, 4), command(0x54, n), command(0x0D, n)]
    c += [command(0x11, 32), command(0x21, 32, 0, 0, 11, b'HUB IND HUB'), command(0x11, 32),
          command(0x60, 32), command(0x11, 32), command(0x21, 32, 0, 0, 64, bytes(range(64))),
          command(0x11, 32), command(0x79, 32), command(8, 1, 1), command(0x61, 32),
          command(8, 1, 1), command(0x11, 32)]
    return plaques, c + refusals()


def refusals():
    """Every number that a listing can show, lowest first."""
    return [
        # 3: no such stamp, also over other faults
        command(8, 1, 1, stamp='021E0A0B24'), command(8, 1, 1, stamp='000A0A0B24'),
        command(8, 1, 1, stamp='0D010A0B24'), command(8, 1, 1, stamp='04 1F 0A0B24'),
        command(8, 1, 1, stamp='0313180B24'), command(8, 1, 1, stamp='03130A3C24'),
        command(8, 1, 1, stamp='03130A0B3C'), command(9, 99, 0, stamp='03000A0B24'),
        command(8, 1, 1, stamp='021D173B3B'),                               # this one is a stamp
        # 5: AA of word 02, 00 of word 03
        STAMP + words(6, 0xAB08, 1, 1, 0, 0), STAMP + words(6, 0xAA08, 0x101, 1, 0, 0),
        STAMP + words(6, 0xFF08, 99, 1, 0, 0),
        # 7: nodes 0, 17, 31, 33 and 255, also with no command of the table
        command(8, 0, 1), command(8, 17, 1), command(0x11, 31), command(0x11, 33), command(9, 255),
        # 8: not in the table, not for this node
        command(9, 1, 1), command(0x1A, 32), command(8, 32, 1), command(0x61, 1),
        # 9: Overall Length
        command(8, 1, 1, 0, 0, b'\0\0'), command(5, 1, 1, 0, 1, b'\0\0'), command(4, 1, 1, 0, 1),
        command(6, 1, 1, 0, 5, b'abcd'), command(6, 1, 1, 0, 4, b'abcdef'),
        command(6, 1, 1, 0, 300, bytes(256)), command(0x21, 32, 0, 0, 0x103, b'ABC'),
        command(6, 1, 1, 0, 0, b'\0\0'),
        # 10: limits
        command(5, 1, 2000, 0, 0), command(5, 1, 2000, 0, 256), command(5, 1, 0, 0, 1),
        command(5, 1, 65535, 0, 1), command(4, 1, 1, 0, 0, b'A'), command(4, 1, 1, 0, 1025, b'A'),
        command(6, 1, 1, 0, 0), command(6, 1, 1, 0, 256, bytes(256)), command(8, 1, 0, 0, 0xFFFF),
        command(0x0D, 1, 61, 0, 1), command(0x0D, 1, 0x105, 0, 1), command(0x0D, 1, 2, 0, 0),
        command(0x0D, 1, 0, 1, 0), command(0x0D, 1, 0, 1024, 1), command(0x0D, 1, 0, 0, 256),
        command(0x21, 32, 0, 0, 0), command(0x21, 32, 0, 0, 65, bytes(65)),
        # 11: unused words and bytes
        command(7, 1, 1, 1), command(8, 1, 1, 0, 0xFFFF), command(4, 1, 1, 0, 1, b'A\1'),
        command(6, 1, 1, 0, 3, b'abcd'), command(0x54, 1, 2000), command(0x11, 32, 0, 0, 1),
        command(0x21, 32, 1, 0, 1, b'A'), command(0x21, 32, 0, 0, 1, b'AB'), command(0x60, 32, 1),
        command(0x61, 32, 0, 1), command(0x79, 32, 0, 0, 1),
        # 12: past the plaque, and what just fits
        command(5, 1, 1, 0, 9), command(5, 1, 1, 8, 1), command(5, 1, 1, 0xFFFF, 255),
        command(4, 16, 1, 127, 2, b'A'), command(6, 16, 1, 126, 3, b'abc'),
        command(5, 16, 1, 127, 1), command(5, 16, 1, 0, 128)]


def broken_files():
    p, c = [plaque(2, b'\x11\x22\x33\x44')], [command(5, 2, 2000, 0, 3), command(8, 3, 2000)]
    whole = run_file(p, c)
    start = 2 + len(pack(*p))
    first, second = start + 2, start + 2 + 17

    def patched(at, value, size=2):
        return whole[:at] + value.to_bytes(size, 'big') + whole[at + size:]

    return {
        'empty': b'',
        'plaque-count': whole[:1],
        'plaque-record-head': whole[:7],
        'plaque-record-bytes': whole[:start - 1],
        'plaque-count-2': patched(0, 2),
        'plaque-node-0': patched(2, 0, 1),
        'plaque-node-17': patched(2, 17, 1),
        'plaque-node-32': patched(2, 32, 1),
        'plaque-length-0': run_file([plaque(2, b'')], c),
        'plaque-length-1025': run_file([plaque(2, bytes(1025))], c),
        'command-count-missing': whole[:start],
        'command-count': whole[:start + 1],
        'command-stamp': whole[:second + 3],
        'command-length': whole[:second + 6],
        'command-words': whole[:-1],
        'overall-5': patched(second + 5, 5),
        'overall-135': patched(second + 5, 135),
        'overall-135-whole': run_file(p, [c[0], STAMP + words(135, 0xAA06, 2, 1, 0, 258) + '00' * 258]),
        'overall-0': patched(second + 5, 0),
        'overall-65535': patched(second + 5, 65535),
        'overall-5-month-13': patched(second, 13, 1)[:second + 5] + b'\0\5' + whole[second + 7:],
        'byte-left': whole + b'\0',
        'count-2': patched(start, 2)[:second],
        'count-0': patched(start, 0),
        'first-command': patched(first + 5, 5),
    }


def of_length(length):
    """A sound run file of that many bytes: large plaques and one command, so that its listing is short."""
    left = length - 2 - 2 - 17
    plaques = []
    while left:
        size = min(left - 11, 1024)
        # no rest that is shorter than a plaque of one byte
        size -= 12 if 0 < left - 11 - size < 12 else 0
        plaques.append(plaque(len(plaques) % 16 + 1, bytes([len(plaques) % 256]) * size))
        left -= 11 + size
    return run_file(plaques, [command(5, 2, 2000, 0, 3)])


def limit_files():
    """Around the most bytes that a file may have. Each is sound but for its length, so that only the limit makes it broken."""
    return {'limit-%d' % n: of_length(n) for n in (65535, 65536, 65537, 200000)}


# a byte more than the most: without it the file would be sound
TOO_LONG = of_length(65536) + b'\0'


# ---- conversations

FIRST = 'command 3 19 10 11 36 register '


def say(byte, node, w4=0, w5=0, w6=0, data=''):
    tail = ' ' + ' '.join(re.findall('....', data)) if data else ''
    return FIRST + '%04X AA%02X %04X %04X %04X %04X%s' % (6 + len(data) // 4, byte, node, w4, w5, w6, tail)


def read(node, words_wanted):
    """A read whose answer has that many words."""
    return say(5, node, 2000, 0, 255 if words_wanted == 134 else 2 * (words_wanted - 6))


def search(node):
    return say(8, node, 2000)


def arrive(node, length=255):
    return 'arrive %d E0040100000000%02X %s' % (node, node, ('%02X' % node) * length)


def rooms():
    others = [n for n in range(1, 17) if n not in (3, 4, 5)]
    yield '# Nodes 3 and 4 to 804 held words, node 5 to 612; the other fourteen keep their 134 each.'
    yield from (arrive(n) for n in range(1, 17))
    for node, wanted in (3, [134] * 6), (4, [134] * 6), (5, [134] * 4 + [76]):
        yield '# node %d: %s' % (node, ' '.join(map(str, wanted)))
        yield from (read(node, w) for w in wanted)
        yield '# the shortest answer has no room any more'
        yield search(node)
    yield '# the others: 134 at once, and then nothing more'
    for node in others:
        yield read(node, 134)
        yield search(node)
    yield '# node 32: 6 + 38 + 15 * 6 = 134'
    yield say(0x21, 32, 0, 0, 64, '4C' * 64)
    yield say(0x11, 32)
    yield from [say(0x60, 32)] * 15
    yield say(0x60, 32)
    yield '# all 4,096 words are held; a range past the plaque is still 12, an answer is 13'
    yield say(5, 3, 2000, 255, 1)
    yield search(3)
    yield '# one answer less at node 3 is room for 134 words anywhere: here at node 5, to 746'
    yield 'collect 3 framed'
    yield 'acknowledge 3 1'
    yield read(5, 134)
    yield search(5)
    yield search(7)
    yield '# a small answer gone at node 32, under its share of 134, frees no room for others'
    yield 'acknowledge 32 1'
    yield search(5)
    yield say(0x60, 32)
    yield say(0x60, 32)
    yield '# node 4 emptied; then 798 held: an answer of 7 (no plaque) has no room, one of 6 has'
    yield from ('acknowledge 4 %d' % k for k in range(1, 7))
    yield from (read(4, w) for w in [134] * 5 + [128])
    yield 'leave 4'
    yield search(4)
    yield arrive(4, 3)
    yield search(4)
    yield search(4)
    yield '# 79 empties all lists; its own answer is there, each number has moved on once'
    yield say(0x79, 32)
    yield from ('collect %d register' % n for n in (3, 4, 5, 32))
    yield from (read(3, 134) for _ in range(7))
    yield 'collect 3 framed'


def seven():
    def served(k):
        yield say(5, 7, 2000, 0, 7)
        yield 'collect 7 framed'
        yield 'acknowledge 7 %d' % k

    yield '# Reader three reads continuously with delay 0 and nobody collects there; reader seven is served.'
    yield arrive(3)
    yield 'arrive 7 E004010000000007 4C4556454C2037'
    yield say(0x0D, 3, 0, 0, 255)
    for k in range(1, 13):
        yield 'check 3 3 19 10 11 %d %d' % (36 + k, 1000 * k)
        yield from served(k)
    yield '# Three is full: one answer of 6 words and five reports of 134. Its older answers are as they were.'
    yield 'collect 3 framed'
    yield search(3)
    yield '# The first answer was short: without it there is no room for a report yet.'
    yield 'acknowledge 3 1'
    yield 'check 3 3 19 10 12 0 20000'
    yield '# Without the oldest report there is, for one.'
    yield 'acknowledge 3 2'
    yield 'check 3 3 19 10 12 1 21000'
    yield 'check 3 3 19 10 12 2 22000'
    yield from served(13)


def wraps():
    yield '# The instance count: 255 is followed by 0.'
    yield 'arrive 1 E0040100002E16AD 11'
    yield say(0x0D, 1, 0, 0, 1)
    yield 'acknowledge 1 1'
    for k in range(1, 259):
        yield 'check 1 1 1 0 0 0 0'
        if k in (1, 254, 255, 256, 257, 258):
            yield 'collect 1 framed'
        yield 'acknowledge 1 %d' % (k + 1)
    yield '# 61: counts are 0 again, the handover number is not'
    yield 'check 1 1 1 0 0 0 0'
    yield say(0x61, 32)
    yield 'check 1 1 1 0 0 0 0'
    yield 'collect 1 register'
    yield 'collect 32 register'
    yield '# The clock, modulo 2^32, with delay 1: quiet up to 998, reported at 999'
    yield say(0x0D, 1, 1, 0, 1)
    yield from ('check 1 1 1 0 0 0 %d' % c for c in (4294967295, 4294967295, 0, 998, 999))
    yield '# from the last report, not the last check; one less is 2^32 - 1 later'
    yield from ('check 1 1 1 0 0 0 %d' % c for c in (1000, 1998, 1999, 1998))
    yield '# delay 60, a report 1 ms before the wrap'
    yield say(0x0D, 1, 60, 0, 1)
    yield from ('check 1 1 1 0 0 0 %d' % c for c in (4294967294, 0, 59997, 59998, 59999, 2147543646))


def unreadable():
    zeros = ' 0000' * 251
    packet = '0006 AA08 0002 0001 0000 0000'
    lines = [
        'x', 'Collect 2 register', 'collec 2 register', 'collects 2 register', 'collect', 'collect ',
        'collect 2', 'collect 2 ', 'collect 2 registe', 'collect 2 registers', 'collect 2 Register',
        'collect 2 register ', 'collect  2 register', 'collect 2  register', ' collect 2 register',
        'collect 2 register\r', 'collect 2 register\t', 'collect\t2 register', 'collect 2 register register',
        'collect 256 register', 'collect -2 register', 'collect +2 register', 'collect 0x2 register',
        'collect 00000000002 register', 'collect 4294967298 register', 'collect 2,register',
        'acknowledge 2', 'acknowledge 2 65536', 'acknowledge 2 1 1', 'acknowledge 2 00000000001',
        'acknowledge 2 4294967297', 'acknowledge 258 1', 'acknowledge 2 1 ', 'acknowledge 2 1#',
        'leave', 'leave 2 2', 'leave 258', 'leave two', 'leave 2 ',
        'check 2 3 19 10 11 36', 'check 2 3 19 10 11 36 0 0', 'check 2 3 19 10 11 36 4294967296',
        'check 2 3 19 10 11 256 0', 'check 2 259 19 10 11 36 0', 'check 2 3 19 10 11 36 -1',
        'command', 'command 3 19 10 11 36', 'command 3 19 10 11 register ' + packet,
        'command 3 19 10 11 36 ' + packet, 'command 3 19 10 11 36 register ',
        'command 3 19 10 11 292 register ' + packet, 'command 3 19 10 11 36 raw ' + packet,
        FIRST + '006 AA08 0002 0001 0000 0000', FIRST + '00006 AA08 0002 0001 0000 0000',
        FIRST + '0006 AA08 0002 0001 0000 000G', FIRST + '0006 AA08 0002 0001 0000  0000',
        FIRST + '0006AA08 0002 0001 0000 0000', FIRST + packet + ' ', FIRST + packet + '\r',
        FIRST + packet[:-1], FIRST + '0101 AA08 0002 0001 0000 0000' + zeros,
        'arrive 2', 'arrive 2 E0040100002E16AD', 'arrive 2 E0040100002E16AD ',
        'arrive 2 E0040100002E16AD 1', 'arrive 2 E0040100002E16A 11', 'arrive 2 E0040100002E16AD 11 22',
        'arrive 2 E0040100002E16AD 1G', 'arrive 2  11', 'arrive 2 E0040100002E16AD --',
        'arrive 2 -11 11', 'arrive 2 ' + '00' * 17 + ' 11', 'arrive 2 E0040100002E16AD ' + '11' * 2048,
        'arrive 258 E0040100002E16AD 11', 'collect 2 register\0', '\0', 'collect 2\0register',
        'collect 2\xa0register', '\xef\xbb\xbfcollect 2 register', '\xff', ' ', '\r', ' # no comment',
        '#' * 4401, 'x' * 4401, '#' + ' ' * 5000]
    yield '# Each line that is none is followed by one that shows that nothing has changed.'
    yield 'arrive 2 E0040100002E16AD 11223344'
    yield say(5, 2, 2000, 0, 3)
    for line in lines:
        yield line
        yield 'collect 2 register'
    yield '# These are passed over with no line out: empty, # alone, # up to 4,400 bytes.'
    yield from ['', '#', '#' * 4400, '#\r', '# \0']
    yield '# And these are calls, though the paper refuses some of them.'
    yield from ['collect 0000000002 framed', 'collect 255 framed', 'collect 0 framed',
                'command 3 19 10 11 36 register', 'command 0 0 255 255 255 framed',
                FIRST + packet.lower(), FIRST + '0100 AA08 0002 0001 0000 0000' + zeros[5:],
                'arrive 2 - -', 'arrive 2 ' + '00' * 16 + ' -', 'arrive 2 e0040100002e16ad -',
                'arrive 2 E0040100002E16AD ' + '11' * 1025, 'arrive 2 E0040100002E16AD ' + '11' * 2047,
                'arrive 32 - -', 'leave 32', 'leave 3', 'check 255 3 19 10 11 36 0',
                'check 2 2 30 0 0 0 4294967295', 'check 2 3 19 10 11 36 0004294967',
                'acknowledge 2 0', 'acknowledge 2 65535', 'acknowledge 2 0000000001',
                'acknowledge 2 2', 'acknowledge 2 3']
    yield '# the last line has no line feed'


def layout():
    def whole(words):
        yield from ('store %d %d' % (at, min(128, words - at)) for at in range(0, words, 128))

    yield '# Fresh: zeros, to the last word. The words asked for end with the store, and are 1 to 128.'
    yield from ['store 0 1', 'store 0 128', 'store 3968 128', 'store 4095 1', 'store 0000000000 0000000001']
    yield '# No line of the table: past the store, no word, too many, one number, three, another word.'
    yield from ['store 4096 1', 'store 4095 2', 'store 3969 128', 'store 0 0', 'store 0 129', 'store 0', 'store',
                'store 0 1 1', 'store -1 1', 'store 0 1 ', 'stores 0 1', 'store 00000000000 1']
    yield '# By node and not by making: 11 at node 32, then 54 at node 1, then a read at node 16, then 07 at node 2.'
    yield say(0x11, 32)
    yield say(0x54, 1)
    yield arrive(16)
    yield read(16, 8)
    yield arrive(2)
    yield say(7, 2, 2000)
    yield 'store 0 32'
    yield '# behind the last of its node: at the front, in the middle, at the end'
    yield say(0x54, 1)
    yield say(7, 2, 2000)
    yield say(0x60, 32)
    yield 'store 0 56'
    yield '# the oldest leaves: at the front, in the middle, at the end; the freed words are 0'
    yield from ['acknowledge 1 1', 'store 0 56', 'acknowledge 16 1', 'store 0 56', 'acknowledge 32 1', 'store 0 56']
    yield 'acknowledge 2 2'
    yield 'store 0 56'
    yield '# a refusal for room changes no word: node 16 to 804, and one more'
    yield from (read(16, 134) for _ in range(6))
    yield search(16)
    yield from whole(900)
    yield '# every node an answer, the last one first'
    yield from (arrive(n) for n in range(1, 17))
    yield from (search(n) for n in range(15, 0, -1))
    yield from whole(1000)
    yield '# 61 leaves zeros but for its own six words; 79 too'
    yield say(0x61, 32)
    yield from whole(1000)
    yield search(9)
    yield say(0x79, 32)
    yield 'store 0 14'
    yield 'store 4032 64'


def pairs():
    def rising(size):
        """So many bytes, no two neighbours alike, the odd last word filled with 00."""
        return ''.join('%02X' % (k % 255 + 1) for k in range(size)) + '00' * (size % 2)

    def handed(node, answers, first):
        for k in range(answers):
            yield 'collect %d framed' % node
            yield 'acknowledge %d %d' % (node, first + k)

    yield '# A plaque of 258 bytes, all 07. What is written is read back, with the byte before it and the one behind.'
    yield 'arrive 5 E004010000000005 ' + '07' * 258
    number = 1
    for size in 1, 2, 3, 4, 5, 253:
        for start in 1, 2:
            yield '# %d bytes from %d on' % (size, start)
            yield say(4, 5, 2000, 0, 258, '0700')
            yield say(6, 5, 2000, start, size, rising(size))
            yield say(5, 5, 2000, start - 1, size + 2)
            yield from handed(5, 3, number)
            number += 3
    yield '# 254 and 255 bytes, at either end of the plaque'
    for size in 254, 255:
        for start in 0, 258 - size:
            yield say(4, 5, 2000, 0, 258, '0700')
            yield say(6, 5, 2000, start, size, rising(size))
            yield say(5, 5, 2000, 0, size)
            yield say(5, 5, 2000, 258 - size, size)
            yield from handed(5, 4, number)
            number += 4
    yield '# Names: what was behind a longer one is not heard again.'
    number = 1
    for size in 64, 63, 1, 2, 3:
        yield say(0x21, 32, 0, 0, size, rising(size))
        yield say(0x11, 32)
        yield from handed(32, 2, number)
        number += 2
    yield '# A report of an odd number of bytes.'
    yield say(0x0D, 5, 0, 1, 3)
    yield 'check 5 3 19 10 11 36 0'
    yield 'collect 5 register'


def conversation(lines, last=''):
    return ''.join(line + '\n' for line in lines).encode('latin-1') + last.encode()


EXAMPLE_TALK = ['arrive 2 E0040100002E16AD 11223344',
                'command 3 19 10 11 36 register 0006 AA05 0002 07D0 0000 0003', 'collect 2 framed',
                'acknowledge 2 7', 'acknowledge 2 1', 'collect 2 register']


def later(lines, number):
    """A story that began with all handover numbers 1, told when they have moved on."""
    for line in lines:
        found = re.fullmatch(r'acknowledge (\d+) (\d{1,10})', line)
        if found and int(found[1]) in number and 0 < int(found[2]) < 60000:
            moved = int(found[2]) + number[int(found[1])] - 1
            line = 'acknowledge %s %s' % (found[1], str(moved).zfill(len(found[2])))
        yield line


def cleared(text):
    """The conversation so far, and then nothing is pending, no plaque is there, no reader reads, counts are 0."""
    text += conversation('leave %d' % n for n in range(1, 17))
    text += conversation(say(0x54, n) for n in range(1, 17))
    text += conversation([say(0x60, 32), say(0x61, 32)])
    return text + conversation(['acknowledge 32 %d' % check.talk(text)[0].number[32]])


def all_talks():
    """All conversations as one, for the gate."""
    text = conversation(EXAMPLE_TALK)
    for name, story in [('rooms', rooms), ('reader seven', seven), ('wraps', wraps), ('the store', layout),
                        ('pairs', pairs), ('unreadable lines', unreadable)]:
        text = cleared(text + conversation(['', '# ---- ' + name]))
        text += conversation(later(story(), check.talk(text)[0].number))
    return text + b'collect 2 register'


def sample():
    text = (ROOT / 'docs' / 'NIGHT.md').read_text()
    return bytes.fromhex(''.join(re.sub('#.*', '', text[text.index('\n0003 '):].split('```')[0]).split()))


def played(folder, program, content):
    command = str(pathlib.Path(folder).resolve() / program)
    return subprocess.run([command], input=content, capture_output=True, check=True).stdout


def make_files(folder):
    files = {'sample': sample(), 'example': pack(EXAMPLE), 'all': run_file(*all_of_it())}
    files.update(limit_files())
    files.update(('broken-%s' % name, file) for name, file in broken_files().items())
    listings = {name: played(folder, 'plain-night', content) for name, content in files.items()}
    for name, content in files.items():
        (NIGHT / 'data' / (name + '.run')).write_bytes(content)
        (NIGHT / 'data' / (name + '.listing')).write_bytes(listings[name])
    (NIGHT / 'stdin').write_bytes(TOO_LONG)
    (NIGHT / 'args').write_text('-\n' + ''.join(name + '.run\n' for name in files))
    (NIGHT / 'stdout').write_bytes(played(folder, 'plain-night', TOO_LONG) + b''.join(listings.values()))


def make_talks(folder):
    talks = {'example': conversation(EXAMPLE_TALK), 'rooms': conversation(rooms()), 'seven': conversation(seven()),
             'wraps': conversation(wraps()), 'store': conversation(layout()), 'pairs': conversation(pairs()),
             'unreadable': conversation(unreadable(), 'collect 2 register')}
    for name, content in talks.items():
        (TALKS / (name + '.in')).write_bytes(content)
        (TALKS / (name + '.out')).write_bytes(played(folder, 'plain-console', content))
    (CONSOLE / 'stdin').write_bytes(all_talks())
    (CONSOLE / 'stdout').write_bytes(played(folder, 'plain-console', all_talks()))


if __name__ == '__main__':
    make_files(sys.argv[1])
    make_talks(sys.argv[1])
