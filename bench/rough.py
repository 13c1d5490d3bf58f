#!/usr/bin/env python3
"""The programs in a rough hand, which no gate can try: outputs that are full, closed or slow, inputs that fail, and ./play's status.

  rough.py        plays the proved programs of crates/NAME/out (by ./play, which proves them first where that is needed)
"""
import fcntl
import os
import pathlib
import subprocess
import sys
import tempfile
import time

import check
import make

ROOT = pathlib.Path(__file__).resolve().parent.parent
DATA = ROOT / 'crates' / 'night' / 'data'
SAMPLE = str(DATA / 'sample.run')
LISTING = (DATA / 'sample.listing').read_bytes()
TALK = (ROOT / 'bench' / 'data' / 'wraps.in').read_bytes()
wrong = 0


def expect(what, truth):
    global wrong
    if not truth:
        print('wrong:', what)
        wrong += 1


def program(name):
    return [str(ROOT / 'tools' / 'x86'), str(ROOT / 'crates' / name / 'out' / name)]


def ran(command, content=b'', **more):
    return subprocess.run(command, input=content, stderr=subprocess.PIPE, **{'stdout': subprocess.PIPE, **more})


def non_blocking():
    """A small pipe, of which neither end waits."""
    ends = os.pipe()
    for end in ends:
        fcntl.fcntl(end, fcntl.F_SETFL, fcntl.fcntl(end, fcntl.F_GETFL) | os.O_NONBLOCK)
    fcntl.fcntl(ends[1], fcntl.F_SETPIPE_SZ, 4096)
    return ends


def slowly_read(command, content):
    """All that comes through a pipe that does not wait, to a reader that is slow."""
    out, end = non_blocking()
    os.set_blocking(out, True)
    with tempfile.TemporaryFile() as file:
        file.write(content)
        file.seek(0)
        with subprocess.Popen(command, stdin=file, stdout=end):
            os.close(end)
            time.sleep(0.3)
            came = b''
            while piece := os.read(out, 3000):
                came += piece
                time.sleep(0.002 if len(came) < 200000 else 0)
    return came


def slowly_written(command, content):
    """What is answered to a writer that is slow, through a pipe that does not wait."""
    end, into = non_blocking()
    os.set_blocking(into, True)
    with subprocess.Popen(command, stdin=end, stdout=subprocess.PIPE) as playing:
        os.close(end)
        for at in range(0, len(content), 7):
            os.write(into, content[at:at + 7])
            time.sleep(0.01)
        os.close(into)
        return playing.stdout.read()


def outputs():
    for name, content in ('night', (DATA / 'all.run').read_bytes()), ('console', TALK):
        with open('/dev/full', 'wb') as full:
            said = ran(program(name), content, stdout=full).stderr
        expect(name + ' on a full disk', said == b'standard output: No space left on device\n')
        said = ran(['sh', '-c', 'exec "$@" >&-', 'sh'] + program(name), content).stderr
        expect(name + ' with its output closed', said == b'standard output: Bad file descriptor\n')
    long = make.run_file([make.plaque(1, bytes(range(255)))], [make.command(5, 1, 2000, 0, 255)] * 3700)
    expect('night to a slow reader', slowly_read(program('night'), long) == check.night(long))
    expect('console to a slow reader', slowly_read(program('console'), TALK * 20) == check.console(TALK * 20))


def inputs():
    few = b''.join(TALK.splitlines(True)[:6])
    expect('console from a slow writer', slowly_written(program('console'), few) == check.console(few))
    expect('console of a folder', ran(['sh', '-c', 'exec "$@" <"$0"', str(DATA)] + program('console')).stderr
           == b'standard input: Is a directory\n')
    here = ran(program('night') + ['nowhere', str(DATA), '', SAMPLE])
    expect('night of what cannot be read', here.stdout == LISTING and len(here.stderr.splitlines()) == 3)
    expect('night of an option', ran(program('night') + ['-x', SAMPLE]).stdout == b'')
    expect('night of -', ran(program('night') + ['-'], pathlib.Path(SAMPLE).read_bytes()).stdout == LISTING)


def statuses():
    play = str(ROOT / 'play')
    for arguments, status in [([SAMPLE], 0), (['nowhere', SAMPLE], 1), (['-x'], 1), (['-p'], 2), (['-p', 'units'], 2)]:
        expect('the status of play %s' % ' '.join(arguments), ran([play] + arguments).returncode == status)
    with open('/dev/full', 'wb') as full:
        expect('the status of play on a full disk', ran([play, SAMPLE], stdout=full).returncode == 1)


if __name__ == '__main__':
    for one in 'night', 'console':
        said = ran([str(ROOT / 'play'), '-p', one, '--help'])
        expect('./play -p ' + one, b'usage: ' + one.encode() in said.stdout + said.stderr)
    outputs()
    inputs()
    statuses()
    print('%d wrong' % wrong)
    sys.exit(1 if wrong else 0)
