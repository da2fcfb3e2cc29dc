"""The small program against the model of model.py: streams of records made here, and all that the program does on them.

    python3 check/streams.py [--seed 1] [--case GROUP[:NUMBER]] PROGRAM...

PROGRAM is the command that starts the program, as one or more words (`tools/x86-run target/bin/collector`). For each
stream every line of standard output, all of standard error and the exit status are compared. README.md says which
streams there are and how a difference is read. Linux is needed.
"""

import argparse
import collections
import errno
import fcntl
import functools
import os
import random
import resource
import select
import signal
import socket
import struct
import subprocess
import sys
import tempfile
import termios
import time

import model
from model import Lent

TOP = 2 ** 32
RECORD = 15                                  # bytes
ANNOUNCE, WITHDRAW, RE_HOME = 1, 2, 3

# "A small program has territory 10.16.0.0/12, 16 segments and 64 rule words"
BASE, BASE_LENGTH = 0x0A100000, 12
BLOCKS = 2 ** (24 - BASE_LENGTH)
SEGMENTS = 16
RULES = 64

# No run takes nearly as long as this many seconds; one that does is ended and differs.
LIMIT = 60


class Difference(Exception):
    """Program and model disagree."""


# What a run gives: all of standard output, all of standard error, and the exit status, or in words why there is none.
Outcome = collections.namedtuple("Outcome", "out err status")


# ---------------------------------------------------------------------------------------------------------------------
# What is right, by the model
# ---------------------------------------------------------------------------------------------------------------------

def cleared():
    return Lent([0] * BLOCKS, [0] * (256 * SEGMENTS), [0] * SEGMENTS, [0] * RULES)


def read_stream(data):
    """(the updates read, the reading refusal that stopped the stream or 0)"""
    updates = []
    expected = 0
    for at in range(0, len(data), RECORD):
        code, (kind, serial, address, length, hop) = model.read_record(data[at:at + RECORD], expected)
        if code != 0:
            return updates, code
        updates.append((kind, address, length, hop))
        expected = model.next_serial(serial)
    return updates, 0


def update(lent, kind, address, length, hop):
    """(refusal number, cells changed)"""
    if kind == ANNOUNCE:
        return model.announce(lent, BASE, BASE_LENGTH, address, length, hop)
    if kind == WITHDRAW:
        return model.withdraw(lent, BASE, BASE_LENGTH, address, length)
    return model.re_home(lent, BASE, BASE_LENGTH, address, length, hop)


@functools.lru_cache(maxsize=None)
def answers(updates):
    """The (code, cells) of each of these updates, from cleared memory on, and the lent memory after them. Kept, since
    many streams have the same updates and differ in how they are cut or spoiled."""
    lent = cleared()
    return [update(lent, *one) for one in updates], lent


def lines_of(updates, round_size):
    """The header and a line for each update, and the lent memory after them. With a round size the updates come in
    rounds of that size that leave the memory cleared, as they found it, so a round has the same answers each time: the
    model, which is slow, gives them once."""
    size = round_size or max(len(updates), 1)
    codes = []
    lent = cleared()
    for begin in range(0, len(updates), size):
        assert lent.same_as(cleared())
        answered, lent = answers(tuple(updates[begin:begin + size]))
        codes += answered
    # the first serial is 0 and each accepted record has the next one, so the place of an update is its serial
    lines = ["%d %d %d" % (serial % TOP, code, cells) for serial, (code, cells) in enumerate(codes)]
    return ["serial code cells"] + lines, lent


def text_of(lines):
    return "".join(line + "\n" for line in lines).encode()


@functools.lru_cache(maxsize=4)
def right(data, round_size=None):
    """The outcome of a stream where no read and no write fails."""
    updates, number = read_stream(data)
    lines, lent = lines_of(updates, round_size)
    live = len(model.live_list(lent.rules))
    open_segments = len([owner for owner in lent.owners if owner != 0])
    lines.append("end %d live %d open %d" % (number, live, open_segments))
    return Outcome(text_of(lines), b"", 0 if number == 0 else 1)


def complaint(stream, error):
    return ("collector: standard %s: %s\n" % (stream, os.strerror(error))).encode()


def after_failed_read(data, error):
    """The outcome where these bytes come and then a read fails: each whole record has its line, and no end is said."""
    updates, number = read_stream(data[:len(data) - len(data) % RECORD])
    assert number == 0
    return Outcome(text_of(lines_of(updates, None)[0]), complaint("input", error), 2)


def after_failed_write(data, error, room):
    """The outcome where standard output takes so many bytes and then a write fails."""
    return Outcome(right(data).out[:room], complaint("output", error), 2)


# ---------------------------------------------------------------------------------------------------------------------
# Ways to run the program. A way takes the command and the bytes, and answers the outcome.
# ---------------------------------------------------------------------------------------------------------------------

def start(command, stdin, stdout, preparation=None):
    # the texts of the system are wanted in its own words, not in those of the user's language
    return subprocess.Popen(command, stdin=stdin, stdout=stdout, stderr=subprocess.PIPE, preexec_fn=preparation,
                            env=dict(os.environ, LC_ALL="C"))


def end_of(process, data=None, printed=b"", file=None, problem=None):
    """Waits for the end. The output is what was printed so far and what still comes, or what is in the file."""
    try:
        if problem is not None:
            process.kill()
        out, err = process.communicate(data, timeout=LIMIT)
    except subprocess.TimeoutExpired:
        problem = "none: it did not end within %d seconds" % LIMIT
        process.kill()
        out, err = process.communicate()
    if file is not None:
        file.seek(0)
        out = file.read()
    return Outcome(printed + (out or b""), err, problem or process.returncode)


def by_pipe(command, data):
    return end_of(start(command, subprocess.PIPE, subprocess.PIPE), data)


def by_file(command, data):
    with tempfile.TemporaryFile() as stdin:
        stdin.write(data)
        stdin.seek(0)
        return with_input(command, stdin)


def with_input(command, stdin, preparation=None):
    with tempfile.TemporaryFile() as stdout:
        return end_of(start(command, stdin, stdout, preparation), file=stdout)


# -- input in pieces

def hand_on(process, pipe, piece):
    """Writes a piece and waits until the program has taken it, so that no read sees two pieces. Is there any use in
    writing more?"""
    try:
        os.write(pipe, piece)
    except BrokenPipeError:
        return False
    give_up = time.monotonic() + LIMIT
    while struct.unpack("i", fcntl.ioctl(pipe, termios.FIONREAD, bytes(4)))[0] != 0:
        if process.poll() is not None or time.monotonic() > give_up:
            return False
        time.sleep(0.00005)
    return True


def in_pieces(sizes, blocking=True):
    """Pieces of these sizes, over and over, until the bytes are out."""
    def way(command, data):
        with tempfile.TemporaryFile() as stdout:
            stdin, pipe = os.pipe()
            os.set_blocking(stdin, blocking)
            process = start(command, stdin, stdout)
            os.close(stdin)
            at = turn = 0
            while at < len(data):
                size = sizes[turn % len(sizes)]
                if not hand_on(process, pipe, data[at:at + size]):
                    break
                at += size
                turn += 1
            os.close(pipe)
            return end_of(process, file=stdout)
    return way


def with_pauses(pieces, blocking, stop=False):
    """A pause before each piece, as (seconds, size), and then the rest; in the pauses the program may be stopped and
    continued, which can interrupt its waiting."""
    def way(command, data):
        with tempfile.TemporaryFile() as stdout:
            stdin, pipe = os.pipe()
            os.set_blocking(stdin, blocking)
            process = start(command, stdin, stdout)
            os.close(stdin)
            at = 0
            for seconds, size in pieces + [(0, len(data))]:
                time.sleep(seconds)
                if stop:
                    process.send_signal(signal.SIGSTOP)
                    time.sleep(0.05)
                    process.send_signal(signal.SIGCONT)
                    time.sleep(0.05)
                try:
                    os.write(pipe, data[at:at + size])
                except BrokenPipeError:
                    break
                at += size
            os.close(pipe)
            return end_of(process, file=stdout)
    return way


def record_by_record(closes):
    """A record is written only when the line of the one before has come; where the last one is refused by reading, the
    input can stay open, and the program is to end all the same."""
    def way(command, data):
        stdin, pipe = os.pipe()
        process = start(command, stdin, subprocess.PIPE)
        os.close(stdin)
        printed = b""
        problem = None
        for number in range(len(data) // RECORD):
            try:
                os.write(pipe, data[number * RECORD:(number + 1) * RECORD])
            except BrokenPipeError:
                break
            if closes or number < len(data) // RECORD - 1:
                printed = wait_for_lines(process, printed, number + 2)
                if printed.count(b"\n") < number + 2:
                    problem = "none: it did not answer record %d while the input stayed open" % number
                    break
        if closes:
            os.close(pipe)
        outcome = end_of(process, printed=printed, problem=problem)
        if not closes:
            os.close(pipe)
        return outcome
    return way


def wait_for_lines(process, printed, how_many):
    """All that is printed once there are so many lines, or the output ends, or it takes too long."""
    while printed.count(b"\n") < how_many:
        ready, _, _ = select.select([process.stdout], [], [], LIMIT)
        more = os.read(process.stdout.fileno(), 65536) if ready else b""
        if not more:
            break
        printed += more
    return printed


# -- input that fails

def from_directory(command, data):
    stdin = os.open("/", os.O_RDONLY | os.O_DIRECTORY)
    outcome = with_input(command, stdin)
    os.close(stdin)
    return outcome


def from_closed(command, data):
    return with_input(command, subprocess.DEVNULL, lambda: os.close(0))


def from_write_only(command, data):
    with tempfile.NamedTemporaryFile() as file:
        file.write(data)
        file.flush()
        stdin = os.open(file.name, os.O_WRONLY)
        outcome = with_input(command, stdin)
        os.close(stdin)
        return outcome


def from_broken_socket(command, data):
    """A pair of sockets of which one closes and never took what the other had sent: the other can read what is there,
    and then its read fails with "connection reset"."""
    here, stdin = socket.socketpair()
    stdin.send(b"never taken")
    here.sendall(data)
    here.close()
    with stdin:
        return with_input(command, stdin)


# -- output that fails, or is slow

def to_full(command, data):
    with open("/dev/full", "wb") as stdout:
        return end_of(start(command, subprocess.PIPE, stdout), data)


def to_closed(command, data):
    return end_of(start(command, subprocess.PIPE, subprocess.DEVNULL, lambda: os.close(1)), data)


def to_no_reader(command, data):
    """A pipe that nobody reads any more."""
    reading, stdout = os.pipe()
    os.close(reading)
    with open(stdout, "wb") as stdout:
        return end_of(start(command, subprocess.PIPE, stdout), data)


def to_small_file(room):
    """A file that cannot grow beyond so many bytes."""
    def prepare():
        signal.signal(signal.SIGXFSZ, signal.SIG_IGN)
        resource.setrlimit(resource.RLIMIT_FSIZE, (room, room))

    def way(command, data):
        with tempfile.TemporaryFile() as stdout:
            return end_of(start(command, subprocess.PIPE, stdout, prepare), data, file=stdout)
    return way


def to_slow_reader(command, data):
    """A non-blocking pipe that is small, and full nearly all the time."""
    reading, stdout = os.pipe()
    fcntl.fcntl(stdout, fcntl.F_SETPIPE_SZ, 4096)
    os.set_blocking(stdout, False)
    with tempfile.TemporaryFile() as stdin:
        stdin.write(data)
        stdin.seek(0)
        process = start(command, stdin, stdout)
        os.close(stdout)
        printed = []
        problem = None
        time.sleep(0.3)
        while problem is None:
            ready, _, _ = select.select([reading], [], [], LIMIT)
            if not ready:
                problem = "none: it printed nothing for %d seconds" % LIMIT
            else:
                printed.append(os.read(reading, 4096))
                if not printed[-1]:
                    break
                time.sleep(0.001)
        os.close(reading)
        return end_of(process, printed=b"".join(printed), problem=problem)


# ---------------------------------------------------------------------------------------------------------------------
# Making streams
# ---------------------------------------------------------------------------------------------------------------------

def record(serial, kind, address, length, hop, size=13, version=1):
    return struct.pack(">HBBIIBH", size, version, kind, serial % TOP, address, length, hop)


def stream_of(updates):
    return b"".join(record(serial, *one) for serial, one in enumerate(updates))


# The updates of the paper's figures, and what it says is printed, "whole".
EIGHT = [(ANNOUNCE, 0x0A100000, 12, 5), (ANNOUNCE, 0x0A100300, 24, 7), (ANNOUNCE, 0x0A100380, 25, 9),
         (ANNOUNCE, 0x0A100300, 24, 8), (WITHDRAW, 0x0A100300, 24, 0), (WITHDRAW, 0x0A100380, 25, 0),
         (WITHDRAW, 0x0A100380, 25, 0), (ANNOUNCE, 0x0A200000, 16, 5)]
PRINTED = b"""serial code cells
0 0 4096
1 0 1
2 0 257
3 0 128
4 0 128
5 0 257
6 5 0
7 3 0
end 0 live 1 open 0
"""


class Draws:
    """Draws updates around a few blocks, so that prefixes nest, meet in one block and come again."""

    def __init__(self, rng, blocks, wrong, gone):
        """Shares of 1: updates that are wrong in themselves (refused with 2 or 3), and withdraws among the others."""
        self.rng, self.wrong, self.gone = rng, wrong, gone
        self.blocks = rng.sample(range(BLOCKS), blocks)
        if rng.random() < 0.5:
            self.blocks[0] = rng.choice([0, BLOCKS - 1])
        self.known = []                      # prefixes announced, and perhaps live

    def updates(self, how_many):
        return [self.update() for _ in range(how_many)]

    def update(self):
        rng = self.rng
        if rng.random() < self.wrong:
            return self.wrong_update()
        known = self.known and rng.random() < 0.85
        if rng.random() < self.gone:
            address, length = rng.choice(self.known) if known else self.prefix()
            if (address, length) in self.known and rng.random() < 0.8:
                self.known.remove((address, length))          # else it is likely to be withdrawn twice
            return WITHDRAW, address, length, 0
        if rng.random() < 0.2:
            return (RE_HOME, *(rng.choice(self.known) if known else self.prefix()), self.hop())
        prefix = rng.choice(self.known) if known and rng.random() < 0.15 else self.prefix()
        if prefix not in self.known:
            self.known.append(prefix)
        return (ANNOUNCE, *prefix, self.hop())

    def prefix(self):
        """(address, length) inside the territory. Few are wide: these are slow in the model."""
        rng = self.rng
        length = rng.choices([rng.randint(25, 32), 24, rng.randint(16, 23), rng.randint(12, 15)], [70, 13, 16, 1])[0]
        address = model.block_start(BASE, rng.choice(self.blocks)) + rng.randrange(256)
        return address - model.bits_after(address, length), length

    def hop(self):
        return self.rng.choice([1, 2, 3, 255, 256, 32767, self.rng.randrange(1, 32768)])

    def wrong_update(self):
        rng = self.rng
        kind = rng.choice([ANNOUNCE, WITHDRAW, RE_HOME])
        address, length = self.prefix()
        hop = 0 if kind == WITHDRAW else self.hop()
        what = rng.randrange(5)
        if what == 0:
            length = rng.choice([33, 34, 63, 64, 128, 255])
        elif what == 1 and length < 32:
            address += 2 ** rng.randrange(32 - length)
        elif what == 2 and kind != WITHDRAW:
            hop = rng.choice([0, 32768, 65535])
        elif what == 3:                      # shorter than the territory
            length = rng.randrange(BASE_LENGTH)
            address = BASE - model.bits_after(BASE, length)
        else:                                # outside, most often just so
            off = rng.choice([-1, 1, rng.randrange(1, 2 ** BASE_LENGTH)])
            address = (address + off * model.size_of_prefix(BASE_LENGTH)) % TOP
        return kind, address, length, hop

    def round(self, size):
        """So many updates that leave nothing live: the second half withdraws all that the first half announced."""
        first_half = self.updates(size // 2)
        announced = sorted({(address, length) for kind, address, length, hop in first_half if kind == ANNOUNCE})
        withdraws = [(WITHDRAW, *prefix, 0) for prefix in announced]
        between = [self.wrong_update() for _ in range(size - len(first_half) - len(withdraws))]
        return first_half + between + withdraws


# ---------------------------------------------------------------------------------------------------------------------
# The groups of streams. Each yields its cases in a fixed order for a seed.
# ---------------------------------------------------------------------------------------------------------------------

class Case:
    def __init__(self, text, data, way=by_pipe, wanted=None):
        self.text, self.data, self.way = text, data, way
        self.wanted = wanted or (lambda: right(data))


def figures(rng):
    """The paper's eight records, as made here and as made of their text."""
    examples = os.path.join(os.path.dirname(os.path.abspath(__file__)), os.pardir, "examples")
    with open(os.path.join(examples, "records.txt"), "rb") as text:
        made = subprocess.run([sys.executable, os.path.join(examples, "make-records")], stdin=text, check=True,
                              stdout=subprocess.PIPE).stdout
    if made != stream_of(EIGHT) or right(made).out != PRINTED:
        sys.exit("streams: examples/make-records, the records made here, the model and the paper do not agree")
    for name, data in (("made here", stream_of(EIGHT)), ("of examples/make-records", made)):
        for way in (by_pipe, by_file):
            yield Case("the paper's eight records, " + name, data, way, lambda: Outcome(PRINTED, b"", 0))


def cuts(rng):
    """The same, cut after each byte."""
    data = stream_of(EIGHT)
    for size in range(len(data) + 1):
        for way in (by_pipe, by_file):
            yield Case("the paper's eight records, cut after %d bytes" % size, data[:size], way)


# Some updates that reading lets pass and the model answers fast.
GOOD = [(ANNOUNCE, BASE + 256, 25, 1), (RE_HOME, BASE + 256, 25, 2), (WITHDRAW, BASE, 24, 0), (ANNOUNCE, BASE, 24, 3),
        (ANNOUNCE, BASE + 300, 32, 4), (WITHDRAW, BASE + 256, 25, 0), (ANNOUNCE, BASE, 33, 5), (WITHDRAW, BASE, 24, 0)]


def spoiled(serial):
    """(text, record) for records that are refused by reading where this serial is expected."""
    right_one = dict(kind=ANNOUNCE, address=BASE, length=24, hop=7)

    def one(text, **wrong):
        return text, record(**{"serial": serial, **right_one, **wrong})

    for size in (0, 12, 14, 15, 255, 256 + 13, 13 * 256, 65535):
        yield one("length field %d" % size, size=size)
    for version in (0, 2, 128 + 1, 255):
        yield one("version %d" % version, version=version)
    for kind in (0, 4, 128 + 1, 255):
        yield one("kind %d" % kind, kind=kind)
    for off in (1, 256, 65536, 2 ** 24, 2 ** 31):
        yield one("serial too high by %d" % off, serial=serial + off)
        yield one("serial too low by %d" % off, serial=serial - off)
    for hop in (1, 255, 256, 32768, 65535):
        yield one("withdraw with hop %d" % hop, kind=WITHDRAW, hop=hop)
    # several at once: the first number in the order of the checks is given
    faults = [("length field", dict(size=14)), ("version", dict(version=0)), ("kind", dict(kind=9)),
              ("serial", dict(serial=serial + 1)), ("hop", dict(kind=WITHDRAW, hop=1))]
    for chosen in range(2 ** len(faults)):
        some = [faults[i] for i in range(len(faults)) if chosen >> i & 1]
        if len(some) >= 2:
            # the kind that is no kind goes last, so that the hop's does not put it right
            wrong = {key: value for _, fault in reversed(some) for key, value in fault.items()}
            yield one("wrong at once: " + ", ".join(name for name, _ in some), **wrong)


def refusals(rng):
    """Each way to be refused by reading, at the first record, in the middle and at the last, with and without more."""
    for place in (0, 4, 7):
        before = stream_of(GOOD[:place])
        rest = stream_of(GOOD)[(place + 1) * RECORD:]
        for text, refused in spoiled(place):
            for after, more in (("nothing", b""), ("junk", rng.randbytes(rng.randint(1, 40))), ("good records", rest)):
                yield Case("record %d: %s, then %s" % (place, text, after), before + refused + more)
        for size in range(1, RECORD):
            yield Case("record %d: only %d bytes" % (place, size), before + record(place, *GOOD[place])[:size])
            wrong = record(place, *GOOD[place], size=rng.choice([0, 12, 14, 256 + 13, 65535]))[:size]
            yield Case("record %d: only %d bytes and a wrong length field" % (place, size), before + wrong)
            junk = rng.randbytes(size)
            yield Case("record %d: only %d bytes of junk" % (place, size), before + junk)


ROUND = 500
MANY = 70000                                 # more than 16 bits can count


def many_updates(rng, how_many):
    """A few rounds in any order."""
    rounds = [Draws(rng, blocks, 0.2, 0.3).round(ROUND) for blocks in (2, 8, 40)]
    updates = []
    while len(updates) < how_many:
        updates += rng.choice(rounds)
    return updates[:how_many]


def in_rounds(text, data, way):
    return Case(text, data, way, lambda: right(data, ROUND))


def long_streams(rng):
    """Past the serials 255 and 65,535."""
    updates = many_updates(rng, MANY)
    for how_many in (300, MANY):
        for way in (by_pipe, by_file):
            yield in_rounds("%d records" % how_many, stream_of(updates[:how_many]), way)
    for place, serial in ((256, 0), (256, 255), (256, 257), (65536, 0)):
        data = (stream_of(updates[:place]) + record(serial, *updates[place])
                + stream_of(updates[:place + 20])[(place + 1) * RECORD:])
        yield in_rounds("record %d carries serial %d" % (place, serial), data, by_file)


SHORT_ONES = 400


def random_streams(rng):
    """Updates of all kinds; among the longer ones some where the rule words, the segments or both run out."""
    for _ in range(SHORT_ONES):
        draws = Draws(rng, rng.choice([1, 2, 4, 20, 40]), rng.choice([0, 0.1, 0.3]), rng.choice([0.1, 0.3, 0.5]))
        updates = draws.updates(min(rng.randint(1, 60), rng.randint(1, 60)))
        yield Case("%d updates in %d blocks" % (len(updates), len(draws.blocks)), stream_of(updates),
                   rng.choice([by_pipe, by_file]))
    for blocks in (3, 16, 17, 40):
        for gone in (0.05, 0.3):
            updates = Draws(rng, blocks, 0.1, gone).updates(240)
            yield Case("240 updates in %d blocks, %.2f of them withdraws" % (blocks, gone), stream_of(updates))


def pieces(rng):
    """Input that comes in pieces, and answers that are waited for."""
    eight = stream_of(EIGHT)
    others = [stream_of(Draws(rng, 3, 0.2, 0.3).updates(20)) for _ in range(10)]
    for data in (eight, eight[:113], others[0], others[1][:7]):
        yield Case("%d bytes, one at a time" % len(data), data, in_pieces([1]))
    for size in (7, 14, 15, 16, 29, 31):
        for data in (eight, eight[:rng.randrange(120)], others[2], others[2][:rng.randrange(300)]):
            yield Case("%d bytes in pieces of %d" % (len(data), size), data, in_pieces([size]))
    for data in others:
        for end in (len(data), rng.randrange(len(data))):
            sizes = [rng.randint(1, 40) for _ in range(20)]
            yield Case("%d bytes in pieces of %s" % (end, sizes), data[:end], in_pieces(sizes))
    for data in (eight, others[3]):
        yield Case("%d records, each answered before the next" % (len(data) // RECORD), data, record_by_record(True))
    for place in (0, 7):
        for text, refused in spoiled(place):
            if text in ("length field 14", "version 2", "kind 4", "serial too low by 1", "withdraw with hop 1"):
                yield Case("record %d: %s, and the input stays open" % (place, text), eight[:place * RECORD] + refused,
                           record_by_record(False))


def inputs(rng):
    """Input that is not ready or cannot be read."""
    eight = stream_of(EIGHT)
    other = stream_of(Draws(rng, 3, 0.2, 0.3).updates(20))
    for text, way, error in (("a directory", from_directory, errno.EISDIR), ("closed", from_closed, errno.EBADF),
                             ("open for writing only", from_write_only, errno.EBADF)):
        yield Case("standard input is " + text, b"", way, lambda error=error: after_failed_read(b"", error))
    for data in (b"", eight[:RECORD], eight, other, other[:-8], other[:1]):
        yield Case("a read fails after %d bytes" % len(data), data, from_broken_socket,
                   lambda data=data: after_failed_read(data, errno.ECONNRESET))
    for data in (eight, other, other[:-8], b""):
        yield Case("%d bytes by a non-blocking pipe, with pauses" % len(data), data,
                   with_pauses([(0.3, 7), (0.2, 8 + 30 + 4), (0.1, 11)], False))
    for data in (eight, other[:-1]):
        yield Case("%d bytes by a non-blocking pipe, in pieces of 7" % len(data), data, in_pieces([7], False))
    for blocking in (True, False):
        yield Case("stopped and continued while it waits, %s" % ("blocking" if blocking else "non-blocking"), eight,
                   with_pauses([(0.2, 7), (0.1, 20)], blocking, stop=True))


def outputs(rng):
    """Output that cannot be written or is slow."""
    eight = stream_of(EIGHT)
    refused = eight + eight
    ways = [("closed", to_closed, errno.EBADF), ("a pipe that nobody reads any more", to_no_reader, errno.EPIPE)]
    if os.path.exists("/dev/full"):
        ways.append(("/dev/full", to_full, errno.ENOSPC))
    else:
        print("output: there is no /dev/full here; its streams are left out")
    for text, way, error in ways:
        for data in (eight, b"", refused):
            yield Case("%d bytes, and standard output is %s" % (len(data), text), data, way,
                       lambda data=data, error=error: after_failed_write(data, error, 0))
    for data in (eight, b"", refused):
        size = len(right(data).out)
        for room in sorted({0, 1, 17, 18, min(40, size - 1), size - 1}):
            yield Case("%d bytes, and standard output takes %d" % (len(data), room), data, to_small_file(room),
                       lambda data=data, room=room: after_failed_write(data, errno.EFBIG, room))
    yield Case("8 records, and a file that takes just what is printed", eight, to_small_file(len(right(eight).out)))
    data = stream_of(many_updates(rng, MANY))
    yield in_rounds("%d records to a non-blocking pipe that is read slowly" % MANY, data, to_slow_reader)


def empty(rng):
    """No bytes at all."""
    for way in (by_pipe, by_file, in_pieces([1]), in_pieces([1], False)):
        yield Case("no bytes", b"", way, lambda: Outcome(b"serial code cells\nend 0 live 0 open 0\n", b"", 0))


GROUPS = {"figures": figures, "cuts": cuts, "refusals": refusals, "long": long_streams, "random": random_streams,
          "pieces": pieces, "input": inputs, "output": outputs, "empty": empty}

# The codes that the tables can give to a stream from cleared memory: none gives 1 or 4.
CODES_TO_SEE = {"0", "2", "3", "5", "6", "7"}


# ---------------------------------------------------------------------------------------------------------------------
# The comparison, and the print of a difference
# ---------------------------------------------------------------------------------------------------------------------

def compare(case, got):
    """The number of lines compared."""
    wanted = case.wanted()
    if got == wanted:
        return wanted.out.count(b"\n")
    text = ["the stream, %d bytes:" % len(case.data)]
    wanted_lines, got_lines = wanted.out.splitlines(True), got.out.splitlines(True)
    place = 0
    while wanted_lines[place:place + 1] == got_lines[place:place + 1] and place < len(wanted_lines):
        place += 1
    text += stream_text(case.data, place - 1)
    if wanted.out != got.out:
        text.append("standard output, around line %d, the first that differs:" % (place + 1))
        for who, lines in (("model", wanted_lines), ("program", got_lines)):
            for number in range(max(place - 3, 0), min(place + 4, len(lines))):
                text.append("  %-8s %6d%s %s" % (who, number + 1, ":>"[number == place], shown(lines[number])))
            if place >= len(lines):
                text.append("  %-8s %6d> (nothing)" % (who, place + 1))
    if wanted.err != got.err:
        text.append("standard error: model %s, program %s" % (shown(wanted.err), shown(got.err)))
    if wanted.status != got.status:
        text.append("exit status: model %s, program %s" % (wanted.status, got.status))
    raise Difference("\n".join(text))


def shown(some_bytes):
    text = repr(some_bytes.decode("ascii", "backslashreplace"))
    return text if len(text) <= 200 else text[:200] + "..."


def stream_text(data, place):
    """The records of a stream in hex, a space between the fields: the first ones, those around a place, the last."""
    last = (len(data) - 1) // RECORD
    text = []
    left_out = False
    for number in range(last + 1):
        if number < 2 or abs(number - place) <= 2 or number == last:
            one = data[number * RECORD:(number + 1) * RECORD]
            fields = [one[start:end].hex() for start, end in
                      ((0, 2), (2, 3), (3, 4), (4, 8), (8, 12), (12, 13), (13, 15))]
            text.append("  record %5d  %s" % (number, " ".join(field for field in fields if field)))
            left_out = False
        elif not left_out:
            text.append("  ...")
            left_out = True
    return text


# ---------------------------------------------------------------------------------------------------------------------
# The run
# ---------------------------------------------------------------------------------------------------------------------

class Counts:
    def __init__(self):
        self.streams = self.lines = 0
        self.codes = collections.Counter()           # of the tables, in the lines
        self.ends = collections.Counter()            # of reading, in the last lines

    def add(self, out, lines):
        self.streams += 1
        self.lines += lines
        for line in out.decode().split("\n")[1:-1]:          # whole lines only: a failed write can cut one
            words = line.split()
            (self.ends if words[0] == "end" else self.codes)[words[1]] += 1


def run_group(arguments, name, only):
    """The counts of a group, or of the one case of it."""
    counts = Counts()
    number = 0
    try:
        for number, case in enumerate(GROUPS[name](random.Random("%d/%s" % (arguments.seed, name)))):
            if only is None or number == only:
                got = case.way(arguments.program, case.data)
                counts.add(got.out, compare(case, got))
    except Difference as difference:
        print("DIFFERENCE in stream %s:%d of seed %d: %s" % (name, number, arguments.seed, case.text))
        print("again with: check/streams.py --seed %d --case %s:%d %s"
              % (arguments.seed, name, number, " ".join(arguments.program)))
        print(difference)
        print("streams: differs")
        sys.exit(1)
    if counts.streams == 0:
        sys.exit("streams: there is no stream %s:%d; the last is %s:%d" % (name, only, name, number))
    return counts


def numbers_text(counter):
    return " ".join("%s:%d" % (number, counter[number]) for number in sorted(counter, key=int)) or "none"


def main():
    parser = argparse.ArgumentParser(description="Compares the small program with the model, stream by stream.")
    parser.add_argument("--seed", type=int, default=1)
    parser.add_argument("--case", help="run this one stream again, as GROUP:NUMBER, or this one group")
    parser.add_argument("program", nargs=argparse.REMAINDER, help="the command that starts the program")
    arguments = parser.parse_args()
    if not arguments.program:
        parser.error("the command that starts the program is missing")
    group, _, number = (arguments.case or "").partition(":")
    if group and group not in GROUPS:
        parser.error("there is no group %s; the groups are %s" % (group, ", ".join(GROUPS)))
    only = int(number) if number else None
    streams = lines = 0
    for name in [group] if group else GROUPS:
        counts = run_group(arguments, name, only)
        print("%-9s %5d streams %7d lines  (codes %s; ends %s)" % (
            name, counts.streams, counts.lines, numbers_text(counts.codes), numbers_text(counts.ends)), flush=True)
        unseen = CODES_TO_SEE - set(counts.codes)
        if name == "random" and only is None and unseen:
            print("streams: the random streams never had code %s" % ", ".join(sorted(unseen)))
            sys.exit(1)
        streams += counts.streams
        lines += counts.lines
    print("streams: {:,} streams, {:,} lines compared, 0 differ".format(streams, lines))


if __name__ == "__main__":
    main()
