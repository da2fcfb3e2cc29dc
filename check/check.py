"""The independent check of librakmolthi.a: the library and the model of model.py get the same calls on the same lent
memory, and after every call everything is compared.

    python3 check/check.py [--seed 1] [--seconds 60] [--case KIND:NUMBER] [--kinds abc] DRIVER...

DRIVER is the command that starts the driver, as one or more words (`build/driver`, or `qemu-x86_64 build/driver`).
README.md says how the driver is built and how a difference is read.
"""

import argparse
import array
import random
import signal
import struct
import subprocess
import sys
import time

import model
from model import Lent, rule_word

TOP = 2 ** 32
POINTER = 2 ** 31
MOST = 2 ** 53
WORD_TOP = 2 ** 64


class Difference(Exception):
    """Library and model disagree, or the library broke a promise of the paper."""


# ---------------------------------------------------------------------------------------------------------------------
# Talking to the driver. The commands are described at the head of driver.c.
# ---------------------------------------------------------------------------------------------------------------------

class Driver:
    def __init__(self, command):
        self.process = subprocess.Popen(command, stdin=subprocess.PIPE, stdout=subprocess.PIPE)

    def send(self, *parts):
        try:
            for part in parts:
                self.process.stdin.write(part)
        except BrokenPipeError:
            self.ended()

    def receive(self, size):
        try:
            self.process.stdin.flush()
        except BrokenPipeError:
            self.ended()
        signal.alarm(120)
        answer = self.process.stdout.read(size)
        signal.alarm(0)
        if len(answer) != size:
            self.ended()
        return answer

    def ended(self):
        raise Difference("the driver ended in the middle of a call, with status %s" % self.process.wait())

    def lend(self, which, contents, shift):
        self.send(struct.pack("<cBBQ", b"M", which, shift, len(contents)), contents)

    def update(self, letter, numbers, sizes, dump):
        """(code, cells, guards, differing elements of each slice, contents of each slice or None)"""
        self.send(letter, struct.pack("<%dIB" % len(numbers), *numbers, dump))
        return self.update_answer(sizes, dump)

    def update_of_a_record(self, base, base_length, update, sizes, dump):
        """The same of the call that an update asks for"""
        self.send(struct.pack("<cIIBIIBHB", b"u", base, base_length, *update, dump))
        return self.update_answer(sizes, dump)

    def update_answer(self, sizes, dump):
        answer = struct.unpack("<IIH7I", self.receive(38))
        contents = [self.receive(size) for size in sizes] if dump else None
        return answer[0], answer[1], answer[2], answer[3:], contents

    def look_up(self, base, base_length, addresses, on_tables):
        """(guards, changed, for each address (number, code, length, hop, prefix) as the header takes the number apart)"""
        count = len(addresses)
        self.send(struct.pack("<c3I%dI" % count, b"l" if on_tables else b"L", base, base_length, count, *addresses))
        answer = struct.unpack("<HH", self.receive(4))
        return answer[0], answer[1], list(struct.iter_unpack("<5I", self.receive(20 * count)))

    def look_up_all(self, base, base_length, addresses, room, on_tables):
        """(guards, changed, what was returned, the same for each place of the room)"""
        count = len(addresses)
        self.send(struct.pack("<c4I%dI" % count, b"v" if on_tables else b"V", base, base_length, count, room, *addresses))
        answer = struct.unpack("<HHI", self.receive(8))
        return answer[0], answer[1], answer[2], list(struct.iter_unpack("<5I", self.receive(20 * room)))

    def read_record(self, record, expected):
        """(guards, changed, code, update)"""
        self.send(struct.pack("<cII", b"R", expected, len(record)), record)
        answer = struct.unpack("<HHIBIIBH", self.receive(20))
        return answer[0], answer[1], answer[2], answer[3:]

    def write_record(self, room, update):
        """(guards, changed, code, the room afterwards)"""
        self.send(struct.pack("<cBIIBHI", b"P", *update, len(room)), room)
        guards, changed, code = struct.unpack("<HHI", self.receive(8))
        return guards, changed, code, self.receive(len(room))

    def contents(self, which, size):
        self.send(struct.pack("<cB", b"D", which))
        return self.receive(size)

    def octets_answer(self):
        """(guards, changed, code, the words of octets that changed as (place, word))"""
        guards, changed, code, count = struct.unpack("<HHII", self.receive(12))
        return guards, changed, code, list(struct.iter_unpack("<IQ", self.receive(12 * count)))

    def clear_octets(self):
        self.send(b"Z")
        return self.octets_answer()

    def book(self, base, base_length, address, amount, on_tables):
        self.send(struct.pack("<c3IQ", b"b" if on_tables else b"B", base, base_length, address, amount))
        return self.octets_answer()

    def book_all(self, base, base_length, addresses, amounts, room, shifts, on_tables):
        """The same of the whole call, and the codes of the records"""
        self.send(struct.pack("<cII3B3I", b"k" if on_tables else b"K", base, base_length, *shifts, len(addresses),
                              len(amounts), room), little_endian("I", addresses), little_endian("Q", amounts))
        return self.octets_answer() + (numbers_of("I", self.receive(4 * room)),)

    def cost_lines(self, hops):
        """(guards, changed, for each hop (code, traffic, the bytes of the rate))"""
        self.send(struct.pack("<cI", b"I", len(hops)), little_endian("I", hops))
        guards, changed = struct.unpack("<HH", self.receive(4))
        return guards, changed, list(struct.iter_unpack("<II8s", self.receive(16 * len(hops))))

    def cost_sheet(self, room):
        """(guards, changed, code, the room afterwards)"""
        self.send(b"S")
        guards, changed, code = struct.unpack("<HHI", self.receive(8))
        return guards, changed, code, numbers_of("I", self.receive(4 * room))

    def end(self):
        self.send(b"Q")
        self.process.stdin.close()
        return self.process.wait()


# ---------------------------------------------------------------------------------------------------------------------
# Printing
# ---------------------------------------------------------------------------------------------------------------------

def ip(address):
    return "%d.%d.%d.%d" % (address >> 24, address >> 16 & 255, address >> 8 & 255, address & 255)


def runs(words):
    """A list of numbers in a form that can be read and typed in again: [3]=0x1c0 x 5 is five such words from word 3 on."""
    text = []
    start = 0
    for i in range(1, len(words) + 1):
        if i == len(words) or words[i] != words[start]:
            count = "" if i - start == 1 else " x %d" % (i - start)
            text.append("[%d]=%#x%s" % (start, words[start], count))
            start = i
    return " ".join(text) if text else "(none)"


def lent_text(lent):
    return ("  first  (%d) %s\n  long   (%d) %s\n  owners (%d) %s\n  rules  (%d) %s"
            % (len(lent.first), runs(lent.first), len(lent.long), runs(lent.long),
               len(lent.owners), runs(lent.owners), len(lent.rules), runs(lent.rules)))


def some_runs(words):
    """The same of many words, cut short: the command that runs the case again has them all."""
    text = runs(words)
    return text if len(text) < 4000 else text[:4000].rsplit(" ", 1)[0] + " ..."


def slices_text(mask):
    return ", ".join(name for k, name in enumerate(NAMES) if mask >> k & 1)


def little_endian(kind, numbers):
    words = array.array(kind, numbers)
    if sys.byteorder == "big":
        words.byteswap()
    return words.tobytes()


def numbers_of(kind, contents):
    words = array.array(kind)
    words.frombytes(contents)
    if sys.byteorder == "big":
        words.byteswap()
    return words.tolist()


assert array.array("I").itemsize == 4 and array.array("Q").itemsize == 8

NAMES = ("first", "long", "owners", "rules", "octets", "cents", "hops", "what came first", "second", "third")
FORMS = ("I", "I", "I", "Q", "Q", "Q", "I")
TABLES = NAMES[:4]
MONEY = NAMES[4:7]

LETTERS = {"clear": b"C", "announce": b"A", "withdraw": b"W", "re_home": b"H"}
KIND_OF = {"announce": 1, "withdraw": 2, "re_home": 3}


def packed(code, length, hop):
    """Look up's answer in C, request [1]: "code x 2^22 + length x 2^16 + hop"."""
    return code * 2 ** 22 + length * 2 ** 16 + hop


def parts(number):
    """(code, length, hop)"""
    return number // 2 ** 22, number // 2 ** 16 % 64, number % 2 ** 16


def update_for(name, address=0, length=0, hop=0):
    """The update that asks for this call; None where its fields are too narrow, or where no update does."""
    fits = name in KIND_OF and length < 256 and hop < 65536
    return (KIND_OF[name], 7, address, length, hop) if fits else None


# ---------------------------------------------------------------------------------------------------------------------
# One call to both, and the comparison
# ---------------------------------------------------------------------------------------------------------------------

class Both:
    """The library (in the driver) and the model, kept side by side."""

    def __init__(self, driver):
        self.driver = driver
        self.lent = Lent([], [], [], [])
        self.octets, self.cents, self.hops = [], [], []
        self.lent_at_start = None        # what was lent last, and the calls since then, for the print of a difference
        self.lent_as_bytes = None
        self.words_at_start = {}
        self.log = []
        self.call = ""                   # the call that is being made
        self.compared = 0
        self.codes = {}
        self.first_turn = 0
        self.turns = {}
        self.on_tables = {}              # (call, code): how often, of all calls on an rk_tables

    def take_turns(self, number):
        """The ways to make a call take turns, from this one on: those of a case are the same when it is run again."""
        self.first_turn = number
        self.turns = {}

    def turn(self, call, ways=2):
        turn = self.turns.get(call, self.first_turn)
        self.turns[call] = turn + 1
        return turn % ways

    def count_on_tables(self, call, code):
        self.on_tables[(call, code)] = self.on_tables.get((call, code), 0) + 1

    def start_case(self):
        if self.octets or self.cents or self.hops:
            self.lend_words([], [], [])
        self.lent_at_start = None
        self.lent_as_bytes = None
        self.words_at_start = {}
        self.log = []
        self.call = ""

    def lend(self, lent, shifts=(0, 0, 0, 0)):
        """Both get this memory. The shifts move the slices off the multiples of 16 where malloc puts them."""
        self.lent = lent.copy()
        self.lent_at_start = lent.copy()
        self.lent_as_bytes = None
        self.log = []
        for which, words in enumerate((lent.first, lent.long, lent.owners, lent.rules)):
            self.driver.lend(which, little_endian(FORMS[which], words), shifts[which])
        self.words_from_here()

    def lend_words(self, octets=None, cents=None, hops=None, shifts=(0, 0, 0)):
        """Both get these words; those that are not named stay as they are, and so do the tables."""
        for which, words in enumerate((octets, cents, hops)):
            if words is not None:
                setattr(self, MONEY[which], list(words))
                self.driver.lend(4 + which, little_endian(FORMS[4 + which], words), shifts[which])
        if self.lent_at_start is not None:
            self.lent_at_start = self.lent.copy()
        self.words_from_here()
        self.log = []

    def words_from_here(self):
        self.words_at_start = {name: list(getattr(self, name)) for name in MONEY if getattr(self, name)}

    def count(self, group, code, calls=1):
        """With 0 calls it is one that was counted already, seen in another way."""
        self.compared += calls
        self.codes[(group, code)] = self.codes.get((group, code), 0) + max(calls, 1)

    # -- updates and clear

    def sizes(self):
        return [4 * len(self.lent.first), 4 * len(self.lent.long), 4 * len(self.lent.owners), 8 * len(self.lent.rules)]

    def make_update(self, name, territory, numbers, sizes, dump):
        """One of the library's calls that write the tables, or the same on an rk_tables, or what an update asks for: each in
        its turn, the last where the update's fields are wide enough. Answers what the driver answers."""
        update = update_for(name, *numbers)
        way = self.turn(name, 3 if update else 2)
        called = (name, "tables_" + name, "tables_update to " + name)[way]
        self.call = "%s(%s/%d%s)" % (called, ip(territory[0]), territory[1], "".join(
            [", %s" % ip(n) if i == 0 else ", %d" % n for i, n in enumerate(numbers)]))
        if way == 2:
            answer = self.driver.update_of_a_record(*territory, update, sizes, dump)
        else:
            letter = LETTERS[name].lower() if way else LETTERS[name]
            answer = self.driver.update(letter, territory + numbers, sizes, dump)
        if way:
            self.count_on_tables(name if way == 1 else "update", answer[0])
        return answer

    def update(self, name, call, territory, numbers):
        answer = self.make_update(name, territory, numbers, self.sizes(), 1)
        return self.compare_update(answer, call, *territory, *numbers)

    def apply(self, base, base_length, update):
        """What an update asks for, also where no record carries it: that is refused as its record is."""
        kind, serial, address, length, hop = update
        self.call = "tables_update(%s/%d, %r)" % (ip(base), base_length, update)
        answer = self.driver.update_of_a_record(base, base_length, update, self.sizes(), 1)
        self.count_on_tables("update", answer[0])
        refused = model.write_record(bytes(15), update)[0]
        if refused:
            return self.compare_update(answer, lambda lent: (refused, 0))
        if kind == 2:
            return self.compare_update(answer, model.withdraw, base, base_length, address, length)
        call = {1: model.announce, 3: model.re_home}[kind]
        return self.compare_update(answer, call, base, base_length, address, length, hop)

    def compare_update(self, answer, call, *numbers):
        """The driver's answer, with what the model's call answers and leaves."""
        code, cells, guards, differing, contents = answer
        before = self.lent.copy()
        wanted_code, wanted_cells = call(self.lent, *numbers)
        wrong = []
        if code != wanted_code:
            wrong.append("code: library %d, model %d" % (code, wanted_code))
        if cells != wanted_cells:
            wrong.append("cells: library %d, model %d" % (cells, wanted_cells))
        if guards != 0:
            wrong.append("bytes outside the lent slices were written: %s" % slices_text(guards))
        if any(differing[4:]):
            wrong.append("words of the cost sheet were written: %r" % (differing[4:],))
        for which, words in enumerate((self.lent.first, self.lent.long, self.lent.owners, self.lent.rules)):
            if contents[which] != little_endian(FORMS[which], words):
                got = numbers_of(FORMS[which], contents[which])
                old = (before.first, before.long, before.owners, before.rules)[which]
                places = [i for i in range(len(words)) if got[i] != words[i]]
                wrong.append("%s: %d words differ" % (NAMES[which], len(places)))
                for i in places[:40]:
                    wrong.append("    %s[%d]: before %#x, library %#x, model %#x"
                                 % (NAMES[which], i, old[i], got[i], words[i]))
        if wanted_code != 0 and not before.same_as(self.lent):
            wrong.append("the model itself wrote on a refusal")
        if wrong:
            raise Difference("\n  ".join(wrong))
        self.log.append("%s -> code %d, cells %d" % (self.call, code, cells))
        self.count("updates", code)
        return code, cells

    def clear(self, base, base_length):
        return self.update("clear", lambda *a: (model.clear(*a), 0), (base, base_length), ())[0]

    def announce(self, base, base_length, address, length, hop):
        return self.update("announce", model.announce, (base, base_length), (address, length, hop))

    def withdraw(self, base, base_length, address, length):
        return self.update("withdraw", model.withdraw, (base, base_length), (address, length))

    def re_home(self, base, base_length, address, length, hop):
        return self.update("re_home", model.re_home, (base, base_length), (address, length, hop))

    def any_update(self, name, base, base_length, address, length, hop):
        if name == "withdraw":
            return self.withdraw(base, base_length, address, length)
        return getattr(self, name)(base, base_length, address, length, hop)

    # -- look up

    def look_up(self, base, base_length, addresses):
        """Each address by look up (on bytes), and all of them by look up all. Answers the model's (code, length, hop) of each."""
        wanted = [model.look_up(self.lent.first, self.lent.long, base, base_length, address) for address in addresses]
        self.compare_look_ups(base, base_length, addresses, [packed(*answer) for answer in wanted])
        return wanted

    def compare_look_ups(self, base, base_length, addresses, wanted):
        """One of the two calls is the library's and the other is on an rk_tables, by turns."""
        where = "(%s/%d, %s)" % (ip(base), base_length, " ".join(ip(address) for address in addresses))
        on_tables = self.turn("look_up") == 1
        self.call = ("tables_look_up" if on_tables else "look_up") + where
        guards, changed, answers = self.driver.look_up(base, base_length, addresses, on_tables)
        self.compare_answers(addresses, wanted, guards, changed, answers)
        self.call = ("look_up_all" if on_tables else "tables_look_up_all") + where
        self.compare_look_up_all(base, base_length, addresses, len(addresses), wanted, not on_tables)
        self.compare_look_up_all(base, base_length, addresses, len(addresses) + 1, wanted, not on_tables)
        for answer in wanted:
            self.count("look ups", parts(answer)[0], 2)
            if on_tables:
                self.count_on_tables("look_up", parts(answer)[0])

    def compare_look_up_all(self, base, base_length, addresses, room, wanted, on_tables):
        """1 and nothing written where look up answers 1 or the counts differ; else 0 and look up's answers."""
        guards, changed, returned, answers = self.driver.look_up_all(base, base_length, addresses, room, on_tables)
        if on_tables:
            self.count_on_tables("look_up_all", returned)
        refused = room != len(addresses) or any(parts(answer)[0] == 1 for answer in wanted)
        self.compare_answers(addresses, [UNTOUCHED] * room if refused else wanted, guards, changed, answers)
        if addresses and returned != (1 if refused else 0):
            raise Difference("look_up_all returned %d" % returned)

    def compare_answers(self, addresses, wanted, guards, changed, answers):
        wrong = []
        if guards or changed:
            wrong.append("a look up wrote memory: guards %#x, slices changed %#x" % (guards, changed))
        for address, (got, code, length, hop, prefix), right in zip(addresses, answers, wanted):
            if got != right:
                wrong.append("%s: library code %d length %d hop %d, model code %d length %d hop %d"
                             % (ip(address), *parts(got), *parts(right)))
            elif (code, length, hop) != parts(right):
                wrong.append("%s: the header takes %d for code %d length %d hop %d, it is code %d length %d hop %d"
                             % (ip(address), got, code, length, hop, *parts(right)))
            elif code == 0 and prefix != address - address % 2 ** (32 - length):
                wrong.append("%s: the header cuts it to %s/%d" % (ip(address), ip(prefix), length))
        if wrong:
            raise Difference("\n  ".join(wrong[:40]))

    def look_up_bytes(self, first, long, shifts, base, base_length, addresses):
        """Look up on tables given as bytes, of any lengths and at any place."""
        self.lent_as_bytes = (first, long)
        self.log = []
        self.call = "look_up(%s/%d, %s) on bytes at shifts %d and %d" % (
            ip(base), base_length, " ".join(ip(address) for address in addresses), *shifts)
        self.driver.lend(0, first, shifts[0])
        self.driver.lend(1, long, shifts[1])
        guards, changed, answers = self.driver.look_up(base, base_length, addresses, False)
        wanted = [model.look_up_bytes(first, long, base, base_length, address) for address in addresses]
        self.compare_answers(addresses, wanted, guards, changed, answers)
        for answer in wanted:
            self.count("look ups", parts(answer)[0])

    # -- records

    def read_record(self, record, expected):
        self.call = "read_record(%d bytes: %s, expected %d)" % (len(record), record.hex(" "), expected)
        guards, changed, code, update = self.driver.read_record(record, expected)
        wanted_code, wanted_update = model.read_record(record, expected)
        if guards or changed or code != wanted_code or update != wanted_update:
            raise Difference("library code %d, update %r\n  model   code %d, update %r\n"
                             "  memory written: guards %#x, record or lent memory %#x"
                             % (code, update, wanted_code, wanted_update, guards, changed))
        self.count("records", code)
        return code, update

    def write_record(self, room, update):
        self.call = "write_record(%d bytes: %s, %r)" % (len(room), room.hex(" "), update)
        guards, changed, code, after = self.driver.write_record(room, update)
        wanted_code, wanted_after = model.write_record(room, update)
        if guards or changed or code != wanted_code or after != wanted_after:
            raise Difference("library code %d, room %s\n  model   code %d, room %s\n"
                             "  bytes written outside: guards %#x, lent memory %#x"
                             % (code, after.hex(" "), wanted_code, wanted_after.hex(" "), guards, changed))
        self.count("records", code)
        return code, after

    # -- the cost sheet

    def written(self, guards, changed):
        """What a call wrote that it may not write, as lines for a difference."""
        return (["bytes outside were written: before or after %s" % slices_text(guards)] if guards else []) + (
            ["what is only read was written: %s" % slices_text(changed)] if changed else [])

    def compare_octets(self, before, guards, changed, code, wanted_code, changes, more=()):
        """Code and words of a call on the octets: `before` are the words that both had, `changes` what the library wrote;
        the model has written in self.octets."""
        wrong = self.written(guards, changed) + list(more)
        if code != wanted_code:
            wrong.append("code: library %d, model %d" % (code, wanted_code))
        got = list(before)
        for place, word in changes:
            got[place] = word
        if got != self.octets:
            places = [place for place in range(len(got)) if got[place] != self.octets[place]]
            wrong.append("octets: %d words differ" % len(places))
            for place in places[:40]:
                wrong.append("    octets[%d]: before %d, library %d, model %d"
                             % (place, before[place], got[place], self.octets[place]))
        if wrong:
            raise Difference("\n  ".join(wrong))
        self.log.append("%s -> code %d" % (self.call, code))

    def compare_all_octets(self):
        """Every word, as it stands in the library's memory."""
        self.call = "the words of octets"
        if self.driver.contents(4, 8 * len(self.octets)) != little_endian("Q", self.octets):
            raise Difference("they differ from the model's")

    def clear_octets(self):
        self.call = "clear_octets(%d words)" % len(self.octets)
        before = list(self.octets)
        guards, changed, code, changes = self.driver.clear_octets()
        self.compare_octets(before, guards, changed, code, model.clear_octets(self.octets), changes)
        self.count("clears", code)
        return code

    def book(self, base, base_length, address, amount):
        on_tables = self.turn("book") == 1
        self.call = "%s(%s/%d, %s, %d)" % ("tables_book" if on_tables else "book", ip(base), base_length, ip(address), amount)
        before = list(self.octets)
        guards, changed, code, changes = self.driver.book(base, base_length, address, amount, on_tables)
        if on_tables:
            self.count_on_tables("book", code)
        wanted = model.book(self.lent.first, self.lent.long, self.octets, base, base_length, address, amount)
        self.compare_octets(before, guards, changed, code, wanted, changes)
        self.count("bookings", code)
        if code not in (0, 30) and amount > MOST:        # so another refusal came before 30
            self.count("not 30 but", code, 0)
        return code

    def book_all(self, base, base_length, addresses, amounts, room, shifts=(0, 0, 0)):
        """(the number of the whole, the room for codes afterwards)"""
        on_tables = self.turn("book_all") == 1
        self.call = "%s(%s/%d, %d: %s; %d: %s; room for %d)" % (
            "tables_book_all" if on_tables else "book_all", ip(base), base_length, len(addresses),
            " ".join(ip(address) for address in addresses), len(amounts), " ".join("%d" % amount for amount in amounts), room)
        before = list(self.octets)
        guards, changed, code, changes, codes = self.driver.book_all(base, base_length, addresses, amounts, room,
                                                                     shifts, on_tables)
        if on_tables:
            self.count_on_tables("book_all", code)
        wanted_codes = [UNTOUCHED] * room
        wanted = model.book_all(self.lent.first, self.lent.long, self.octets, base, base_length, addresses, amounts,
                                wanted_codes)
        self.compare_octets(before, guards, changed, code, wanted, changes,
                            ["record %d: library %d, model %d" % (i, codes[i], wanted_codes[i])
                             for i in range(room) if codes[i] != wanted_codes[i]][:40])
        self.count("whole", code)
        if code == 0:
            for one in codes:
                self.count("together", one)
        return code, codes

    def cost_lines(self, hops):
        """The line of each of these hops."""
        guards, changed, lines = self.driver.cost_lines(hops)
        for hop, (code, traffic, rate) in zip(hops, lines):
            self.call = "cost_line(%d)" % hop
            wanted_code, wanted = model.cost_line(self.octets, self.cents, hop)
            has_rate = wanted_code == 0 and wanted != model.NO_TRAFFIC
            wanted_bytes = struct.pack("<d", wanted if has_rate else 0.0)
            if (code, traffic, rate) != (wanted_code, 1 if has_rate else 0, wanted_bytes):
                raise Difference("library code %d, traffic %d, rate %r (%s)\n  model   code %d, traffic %d, rate %r (%s)%s"
                                 % (code, traffic, *struct.unpack("<d", rate), rate[::-1].hex(), wanted_code,
                                    1 if has_rate else 0, *struct.unpack("<d", wanted_bytes), wanted_bytes[::-1].hex(),
                                    self.two_words(hop)))
            if has_rate:
                self.count("rates", 0)
            else:
                self.count("lines without", code)
        wrong = self.written(guards, changed)
        if wrong:
            raise Difference("\n  ".join(wrong))

    def two_words(self, hop):
        if hop < len(self.octets) and hop < len(self.cents):
            return "\n  the words of the hop: %d octets, %d cents" % (self.octets[hop], self.cents[hop])
        return ""

    def cost_sheet(self):
        self.call = "cost_sheet(%d octets, %d cents, %d hops)" % (len(self.octets), len(self.cents), len(self.hops))
        guards, changed, code, sheet = self.driver.cost_sheet(len(self.hops))
        wanted = model.cost_sheet(self.octets, self.cents, self.hops)
        wrong = self.written(guards, changed)
        if code != wanted:
            wrong.append("code: library %d, model %d" % (code, wanted))
        if sheet != self.hops:
            places = [place for place in range(len(sheet)) if sheet[place] != self.hops[place]]
            wrong.append("%d places differ" % len(places))
            for place in places[:10]:
                wrong.append("    place %d: library hop %d, model hop %d" % (place, sheet[place], self.hops[place]))
                for hop in (sheet[place], self.hops[place]):
                    if 1 <= hop < min(len(self.octets), len(self.cents)):
                        wrong.append("        hop %d: %d octets, %d cents, ranked by %r" % (
                            hop, self.octets[hop], self.cents[hop], model.rank(self.octets, self.cents, hop)))
        if wrong:
            raise Difference("\n  ".join(wrong))
        self.log.append("%s -> code %d" % (self.call, code))
        self.count("sheets", code)
        return code


# What the driver puts into the room for answers before the call.
UNTOUCHED = 0xEEEEEEEE


# ---------------------------------------------------------------------------------------------------------------------
# Drawing territories and prefixes
# ---------------------------------------------------------------------------------------------------------------------

def draw_base(rng, base_length):
    """The territory at the bottom of the address space, at its top, or anywhere."""
    if base_length == 0:
        return 0
    where = rng.randrange(4)
    if where == 0:
        return 0
    if where == 1:
        return TOP - 2 ** (32 - base_length)
    return rng.randrange(2 ** base_length) * 2 ** (32 - base_length)


def draw_shifts(rng):
    return rng.choice([0, 4, 8, 12]), rng.choice([0, 4, 8, 12]), rng.choice([0, 4, 8, 12]), rng.choice([0, 8])


def draw_hop(rng):
    return rng.choice([1, 2, 3, 4, 5, 6, 7, 32767, rng.randrange(1, 32768)])


WRONG_LENGTHS = (33, 34, 40, 56, 63, 64, 65, 255, 256, 256 + 24, 256 + 32, 65536 + 25, 2 ** 31, TOP - 1, TOP - 7)
WRONG_HOPS = (0, 32768, 32769, 65535, 65536, 65537, 2 ** 31 + 1, TOP - 1)


class Prefixes:
    """Draws prefixes of a territory around a few spots, so that they nest, meet in one block, and come again."""

    def __init__(self, rng, base, base_length):
        self.rng, self.base, self.base_length = rng, base, base_length
        size = 2 ** (32 - base_length)
        self.spots = []
        for _ in range(rng.choice([1, 2, 3, 6, 12])):
            if self.spots and rng.random() < 0.3:      # a near neighbour of another spot
                spot = (rng.choice(self.spots) - base + rng.choice([-256, -1, 1, 17, 256])) % size + base
            else:
                spot = base + rng.choice([0, size - 1, rng.randrange(size)])
            self.spots.append(spot)
        self.long_share = rng.choice([0.1, 0.4, 0.7])
        self.known = []

    def right(self):
        """(address, length) inside the territory."""
        rng = self.rng
        if self.known and rng.random() < 0.4:
            return rng.choice(self.known)
        spot = rng.choice(self.spots)
        if rng.random() < 0.3:
            spot = spot - spot % 256 + rng.randrange(256)
        if rng.random() < self.long_share:
            length = rng.randint(25, 32)
        elif rng.random() < 0.3:
            length = rng.choice([self.base_length, 24])
        else:
            length = rng.randint(self.base_length, 24)
        prefix = (spot - model.bits_after(spot, length), length)
        self.known.append(prefix)
        return prefix

    def wrong(self):
        """(address, length, hop) with something wrong, or perhaps two things."""
        rng = self.rng
        address, length = self.right()
        hop = draw_hop(rng)
        for _ in range(rng.choice([1, 1, 1, 2, 3])):
            what = rng.randrange(6)
            if what == 0:
                length = rng.choice(WRONG_LENGTHS)
            elif what == 1 and length < 32:
                address = address + 2 ** rng.randrange(32 - length)
            elif what == 2:
                hop = rng.choice(WRONG_HOPS)
            elif what == 3 and self.base_length > 0:                # outside the territory
                address = (address + rng.choice([-1, 1]) * 2 ** (32 - self.base_length)) % TOP
            elif what == 4 and self.base_length > 0:                # shorter than the territory
                length = rng.randrange(self.base_length)
                address = self.base - model.bits_after(self.base, length)
            elif what == 5:                                         # anything at all
                address = rng.randrange(TOP)
        return address % TOP, length, hop

    def addresses(self, address, length, how_many):
        """Addresses at the edges of a prefix, at the spots, in the territory, and a few that are outside."""
        rng = self.rng
        size = 2 ** (32 - min(length, 32))
        territory = 2 ** (32 - self.base_length)
        some = [address, address + size - 1, address - 1, address + size, rng.choice(self.spots)]
        while len(some) < how_many:
            some.append(rng.choice([rng.choice(self.spots), self.base + rng.randrange(territory),
                                    address - address % 256 + rng.randrange(256), address + rng.randrange(size)]))
        some.append(rng.choice([self.base - 1, self.base + territory, rng.randrange(TOP)]))
        return [a % TOP for a in some]


def whole_block(address):
    return list(range(address - address % 256, address - address % 256 + 256))


# ---------------------------------------------------------------------------------------------------------------------
# (a) Histories from clear
# ---------------------------------------------------------------------------------------------------------------------

HISTORY_LENGTHS = (24, 23, 20, 24, 16, 23, 20, 24, 23, 20, 16, 12)


def histories(both, rng, number):
    base_length = HISTORY_LENGTHS[number % len(HISTORY_LENGTHS)]
    base = draw_base(rng, base_length)
    segments = rng.choice([0, 1, 1, 2, 2, 3, 4, 5, 6, 7, 8])
    room = rng.choice([0, 1, 2, 3, 5, 8, 12, 20, 30, 40])
    prefixes = Prefixes(rng, base, base_length)
    garbage = Lent([rng.randrange(TOP) for _ in range(2 ** (24 - base_length))],
                   [rng.randrange(TOP) for _ in range(256 * segments)],
                   [rng.randrange(TOP) for _ in range(segments)], [rng.randrange(TOP * TOP) for _ in range(room)])
    both.lend(garbage, draw_shifts(rng))
    if both.clear(base, base_length) != 0:
        raise Difference("clear was refused")
    live = {}                                            # (address, length): hop, from the accepted calls alone

    def live_now():
        return [(address, length, hop) for (address, length), hop in live.items()]

    def check_answers(addresses):
        """The answers are the longest match of the live list."""
        here = live_now()
        for address, answer in zip(addresses, both.look_up(base, base_length, addresses)):
            if not model.in_prefix(address, base, base_length):
                right = (3, 0, 0)
            else:
                found = model.longest_match(here, address)
                right = (8, 0, 0) if found is None else (0, *found[1:])
            if answer != right:
                raise Difference("look up of %s answers %r, the longest match of the live list is %r"
                                 % (ip(address), answer, right))

    def step(name, address, length, hop):
        before = live_now()
        code, cells = both.any_update(name, base, base_length, address, length, hop)
        if code == 4:
            raise Difference("%s answers 4 along a history from clear" % name)
        if code == 0:
            if name == "withdraw":
                del live[(address, length)]
            else:
                live[(address, length)] = hop
            price = model.price(before, live_now(), base, base_length)
            if cells != price:
                raise Difference("it reports %d cells, the price is %d" % (cells, price))
            most = model.bound(before, base, base_length, address, length)
            if cells > most:
                raise Difference("it reports %d cells, above the bound of %d" % (cells, most))
        elif (name, code) not in ALLOWED:
            raise Difference("%s may not answer %d" % (name, code))
        check_answers(prefixes.addresses(address, length, 8))

    growing = True
    for _ in range(rng.randint(8, 15) if base_length == 12 else rng.randint(15, 70)):
        if rng.random() < 0.08:
            growing = not growing
        roll = rng.random()
        if roll < 0.08:
            address, length, hop = prefixes.wrong()
            step(rng.choice(["announce", "withdraw", "re_home"]), address, length, hop)
        elif roll < 0.2 and (live or rng.random() < 0.2):
            name = rng.choice(["announce", "re_home"])   # a live prefix mostly, with the same hop now and then
            address, length = rng.choice(list(live) or [prefixes.right()])
            step(name, address, length, rng.choice([draw_hop(rng), live.get((address, length), 1)]))
        elif roll < (0.8 if growing else 0.35):
            address, length = prefixes.right()
            step("announce", address, length, draw_hop(rng))
        else:
            address, length = rng.choice(list(live) or [prefixes.right()])
            if rng.random() < 0.05:
                address, length = prefixes.right()
            step("withdraw", address, length, 0)
            growing = growing or not live
        if base_length == 24 and rng.random() < 0.1:
            check_answers(whole_block(base))
        if base_length == 23 and rng.random() < 0.05:
            check_answers(whole_block(base) + whole_block(base + 256))
    # at the end a look at much of the territory: all of it if it is small, else a block and one address of every block
    if base_length >= 20 and rng.random() < (1 if base_length >= 23 else 0.3):
        check_answers(list(range(base, base + 2 ** (32 - base_length))))
    else:
        check_answers(whole_block(rng.choice(prefixes.spots)))
        if base_length >= 16:
            check_answers([base + 256 * block + rng.randrange(256) for block in range(2 ** (24 - base_length))])
    # and often everything is withdrawn again, after which all is as clear left it
    if rng.random() < 0.4 and base_length > 12:
        for address, length in rng.sample(sorted(live), len(live)):
            step("withdraw", address, length, 0)
        if any(both.lent.first + both.lent.long + both.lent.owners + both.lent.rules):
            raise Difference("with nothing live, some lent word is not 0")


ALLOWED = {("announce", 2), ("announce", 3), ("announce", 6), ("announce", 7), ("withdraw", 2), ("withdraw", 3),
           ("withdraw", 5), ("re_home", 2), ("re_home", 3), ("re_home", 5)}


# ---------------------------------------------------------------------------------------------------------------------
# (b) Undamaged memory that no history wrote
# ---------------------------------------------------------------------------------------------------------------------

class Strange:
    """Rule words of right form, and tables that are not damaged for the blocks an update touches but say other things
    than the rule words. `blocks_damaged` is the share of the other blocks that hold garbage; `full` asks for some
    segments and some live prefixes, with room for a few more."""

    def __init__(self, rng, blocks_damaged, full=False):
        self.rng = rng
        self.base_length = rng.choice([24, 24, 23, 23, 22, 21, 20, 20, 18, 16])
        self.base = draw_base(rng, self.base_length)
        self.blocks = 2 ** (24 - self.base_length)
        self.segments = rng.randint(1 if full else 0, 8)
        self.room = rng.choice([5, 8, 12, 20, 40] if full else [0, 1, 2, 3, 5, 8, 12, 20, 40])
        self.prefixes = Prefixes(rng, self.base, self.base_length)

        # the live list; prefixes longer than 24 only as far as there are segments
        self.live = {}
        open_blocks = []
        for _ in range(self.room - 2 if full else rng.choice([self.room, rng.randint(0, self.room)])):
            address, length = self.prefixes.right()
            block = (address - self.base) // 256
            if length > 24 and block not in open_blocks:
                if len(open_blocks) == self.segments:
                    continue
                open_blocks.append(block)
            self.live[(address, length)] = draw_hop(rng)
        live = sorted((address, length, hop) for (address, length), hop in self.live.items())
        rules = [rule_word(*prefix) for prefix in live] + [0] * (self.room - len(live))

        # the update to come
        self.name = rng.choice(["announce", "withdraw", "re_home"])
        if self.live and rng.random() < (0.5 if self.name == "announce" else 0.9):
            self.address, self.length = rng.choice(sorted(self.live))
        else:
            self.address, self.length = self.prefixes.right()
        self.hop = draw_hop(rng)
        self.lengths = [length for (address, length) in self.live] + [self.length] * 4 + [0, 24, 32]
        self.hops = list(self.live.values()) + [self.hop, 1, 32767]

        # the tables
        first = []
        pool = [self.garbage() for _ in range(20)]
        long = rng.choices(pool, k=256 * self.segments)
        owners = [rng.choice([0, 0, 0, rng.randrange(1, TOP), rng.randint(1, self.blocks)])
                  for _ in range(self.segments)]
        free = rng.sample(range(self.segments), self.segments)
        for block in range(self.blocks):
            start = self.base + 256 * block
            if block in open_blocks:
                segment = free.pop()
                owners[segment] = block + 1
                first.append(POINTER + segment)
                near = model.live_and_touching(live, self.base, block)
                for last_byte in range(256):
                    long[256 * segment + last_byte] = self.cell(32, near, start + last_byte, start + last_byte)
            else:
                first.append(self.cell(24, live, start, start + 255))
        for segment in free:                             # free ones: sometimes zeros, or the very cell they will take
            start = 256 * segment
            fill = rng.randrange(3)
            if fill == 0:
                long[start:start + 256] = [0] * 256
            elif fill == 1:
                cell = first[(self.address - self.base) // 256]
                long[start:start + 256] = rng.choices([cell, cell, cell, self.garbage()], k=256)
        for block in range(self.blocks):
            if not self.touches(block) and rng.random() < blocks_damaged:
                first[block] = rng.choice([self.garbage(), POINTER + rng.randint(0, 9)])
        self.lent = Lent(first, long, owners, rules)
        self.open_blocks = open_blocks
        self.free = free

    def touches(self, block):
        start = self.base + 256 * block
        return start <= self.address + 2 ** (32 - self.length) - 1 and self.address <= start + 255

    def cell(self, longest, live, start, end):
        """0, or a direct cell: the right one, or of a live hop and length, or of any hop and length."""
        rng = self.rng
        roll = rng.random()
        if roll < 0.2:
            return 0
        if roll < 0.4:
            return model.cell_for(model.longest_over(live, start, end))
        length = rng.choice(self.lengths)
        if roll < 0.5 or length > longest:
            length = rng.randint(0, longest)
        return model.direct(rng.choice(self.hops) if roll < 0.9 else rng.randint(1, 32767), length)

    def garbage(self):
        """Any word: right and wrong ones."""
        rng = self.rng
        return rng.choice([0, rng.randrange(TOP), POINTER + rng.randrange(9), rng.randrange(64),
                           model.direct(rng.randint(1, 32767), rng.randrange(64)), 2 ** 21 + rng.randrange(2 ** 21)])

    def next_update(self):
        """Another update: (name, address, length, hop), on a prefix that is live more often than not."""
        rng = self.rng
        name = rng.choice(["announce", "withdraw", "re_home"])
        if self.live and rng.random() < (0.3 if name == "announce" else 0.8):
            address, length = rng.choice(sorted(self.live))
        else:
            address, length = self.prefixes.right()
        return name, address, length, draw_hop(rng)


def undamaged(both, rng, number):
    case = Strange(rng, blocks_damaged=rng.choice([0, 0.1, 1]))
    both.lend(case.lent, draw_shifts(rng))
    both.look_up(case.base, case.base_length, case.prefixes.addresses(case.address, case.length, 8))
    code, cells = both.any_update(case.name, case.base, case.base_length, case.address, case.length, case.hop)
    if code == 4:
        raise Difference("the case was meant to be undamaged")
    for _ in range(rng.choice([0, 1, 4, 8])):
        name, address, length, hop = case.next_update()
        both.any_update(name, case.base, case.base_length, address, length, hop)
        both.look_up(case.base, case.base_length, case.prefixes.addresses(address, length, 3))


# ---------------------------------------------------------------------------------------------------------------------
# (c) Damaged memory, of each kind that the paper names
# ---------------------------------------------------------------------------------------------------------------------

def rules_out_of_order(rng, case, words, n):
    if n >= 2:
        i = rng.randrange(n - 1)
        words[i], words[i + 1] = words[i + 1], words[i]


def rules_twice(rng, case, words, n):
    if n >= 2:
        i = rng.randrange(n - 1)
        words[i + 1] = words[i]


def rules_twice_with_two_hops(rng, case, words, n):
    if n >= 2:
        i = rng.randrange(n - 1)
        words[i + 1] = words[i] - words[i] % 65536 + draw_hop(rng)


def rules_with_a_hole(rng, case, words, n):
    if n >= 2:
        words[rng.randrange(n - 1)] = 0


def rules_after_the_end(rng, case, words, n):
    if len(words) >= n + 2:
        top = rule_word(case.base + 2 ** (32 - case.base_length) - 1, 32, 1)     # the last rule of all, by itself right
        words[rng.randrange(n + 1, len(words))] = rng.choice([top, 1, rng.randrange(1, TOP * TOP)])


def rules_hop(rng, case, words, n):
    if n:
        i = rng.randrange(n)
        words[i] = words[i] - words[i] % 65536 + rng.choice([0, 32768, 65535])


def rules_length(rng, case, words, n):
    if n:
        i = rng.randrange(n)
        address, length, hop = model.rule_parts(words[i])
        words[i] = rule_word(address, rng.choice([33, 34, 63, 64, 255, 256, 256 + length, 32768 + length, 65535]), hop)


def rules_bits(rng, case, words, n):
    if n:
        i = rng.randrange(n)
        address, length, hop = model.rule_parts(words[i])
        if length < 32:
            words[i] = rule_word(address + 2 ** rng.randrange(32 - length), length, hop)


def rules_outside(rng, case, words, n):
    """One more rule, outside the territory, at its right place in the order."""
    if n < len(words) and case.base_length > 0:
        size = 2 ** (32 - case.base_length)
        length = rng.randint(case.base_length, 32)
        address = rng.choice([case.base - 1, case.base + size, rng.randrange(TOP)]) % TOP
        insert(words, rule_word(address - model.bits_after(address, length), length, draw_hop(rng)))


def rules_shorter(rng, case, words, n):
    """One more rule, shorter than T, that holds the territory; often with the very address of the territory."""
    if n < len(words) and case.base_length > 0:
        same_address = [length for length in range(case.base_length) if model.bits_after(case.base, length) == 0]
        length = rng.choice(same_address or range(case.base_length))
        insert(words, rule_word(case.base - model.bits_after(case.base, length), length, draw_hop(rng)))


def rules_any_word(rng, case, words, n):
    if words:
        words[rng.randrange(len(words))] = rng.randrange(TOP * TOP)


def insert(words, word):
    live = sorted([w for w in words if w] + [word])
    words[:] = live + [0] * (len(words) - len(live))


def block_for_damage(rng, case, want_open):
    """A block that the update touches, or another one; open or closed."""
    touched = rng.random() < 0.6
    some = [block for block in range(case.blocks)
            if case.touches(block) == touched and (block in case.open_blocks) == want_open]
    if not some:
        some = [block for block in range(case.blocks) if (block in case.open_blocks) == want_open]
    return rng.choice(some) if some else None


def first_cell_hop_0(rng, case, lent):
    spoil_first(rng, case, lent, rng.randint(1, 63))


def first_cell_length(rng, case, lent):
    spoil_first(rng, case, lent, model.direct(draw_hop(rng), rng.choice([25, 26, 32, 33, 63, rng.randint(25, 63)])))


def first_cell_above(rng, case, lent):
    spoil_first(rng, case, lent, rng.choice([2 ** 21, 2 ** 21 + 24, 2 ** 31 - 1, 2 ** 22 + 64, 2 ** 30 + 64 + 24]))


def spoil_first(rng, case, lent, word):
    block = block_for_damage(rng, case, rng.random() < 0.2)
    if block is not None:
        lent.first[block] = word


def pointer_not_lent(rng, case, lent):
    block = block_for_damage(rng, case, rng.random() < 0.8)
    if block is not None:
        lent.first[block] = rng.choice([POINTER + case.segments, POINTER + case.segments + 1, TOP - 1, POINTER + 32768,
                                        POINTER + 65536, POINTER + 2 ** 24, POINTER + 2 ** 30])


def pointer_to_another(rng, case, lent):
    block = block_for_damage(rng, case, True)
    if block is not None:
        lent.first[block] = POINTER + rng.randrange(case.segments)


def owner_wrong(rng, case, lent):
    block = block_for_damage(rng, case, True)
    if block is not None:
        lent.owners[lent.first[block] % POINTER % case.segments] = rng.choice(
            [0, block, block + 2, block + 257, block + 1 + 65536, block + 1 + 2 ** 24, block + 1 + POINTER, TOP - 1])


def segment_cell(rng, case, lent):
    block = block_for_damage(rng, case, True)
    if block is not None:
        segment = lent.first[block] % POINTER % case.segments
        place = rng.choice([0, 1, 127, 128, 254, 255, case.address % 256, rng.randrange(256)])
        lent.long[256 * segment + place] = rng.choice(
            [1, 32, 33, 63, model.direct(1, 33), model.direct(32767, 63), model.direct(5, 40), 2 ** 21, 2 ** 21 + 32,
             2 ** 31 - 1, POINTER, POINTER + segment, TOP - 1])


def pointer_and_nothing_long(rng, case, lent):
    """A closed block gets a segment that is right in every other way, or an open one loses its long prefixes."""
    if rng.random() < 0.5:
        block = block_for_damage(rng, case, False)
        if block is not None and case.free:
            segment = rng.choice(case.free)
            lent.first[block] = POINTER + segment
            lent.owners[segment] = block + 1
            lent.long[256 * segment:256 * segment + 256] = rng.choices([0, 64, model.direct(7, 24)], k=256)
    else:
        block = block_for_damage(rng, case, True)
        if block is not None:
            start = case.base + 256 * block
            kept = [w for w in lent.rules
                    if w and not (model.rule_parts(w)[1] > 24 and start <= w // TOP <= start + 255)]
            lent.rules = kept + [0] * (len(lent.rules) - len(kept))


def something_long_and_no_pointer(rng, case, lent):
    block = block_for_damage(rng, case, True)
    if block is not None:
        lent.first[block] = rng.choice([0, model.direct(draw_hop(rng), rng.randint(0, 24))])


RULE_DAMAGE = (rules_out_of_order, rules_twice, rules_twice_with_two_hops, rules_with_a_hole, rules_after_the_end,
               rules_hop, rules_length, rules_bits, rules_outside, rules_shorter, rules_any_word)
TABLE_DAMAGE = (first_cell_hop_0, first_cell_length, first_cell_above, pointer_not_lent, pointer_to_another,
                owner_wrong, segment_cell, pointer_and_nothing_long, something_long_and_no_pointer)


def spoil(rng, case, lent, chosen):
    for kind in chosen:
        if kind in RULE_DAMAGE:
            live = len([word for word in lent.rules if word])
            kind(rng, case, lent.rules, live)
        else:
            kind(rng, case, lent)


def damage_memory(both, rng, number):
    case = Strange(rng, blocks_damaged=0, full=rng.random() < 0.9)
    lent = case.lent.copy()
    kinds = RULE_DAMAGE + TABLE_DAMAGE + TABLE_DAMAGE
    chosen = [kinds[number % len(kinds)]]
    for _ in range(rng.choice([0, 0, 0, 0, 1, 2])):
        chosen.append(rng.choice(kinds))
    spoil(rng, case, lent, chosen)
    both.lend(lent, draw_shifts(rng))
    both.log.append("# damage: " + ", ".join(kind.__name__ for kind in chosen))
    both.look_up(case.base, case.base_length, case.prefixes.addresses(case.address, case.length, 12))
    if case.blocks <= 16:
        both.look_up(case.base, case.base_length, [case.base + 256 * block + rng.randrange(256)
                                                   for block in range(case.blocks)])
    both.any_update(case.name, case.base, case.base_length, case.address, case.length, case.hop)
    for _ in range(rng.choice([0, 1, 2, 4])):
        name, address, length, hop = case.next_update()
        if rng.random() < 0.1:
            address, length, hop = case.prefixes.wrong()
        both.any_update(name, case.base, case.base_length, address, length, hop)
    if rng.random() < 0.1:
        both.clear(case.base, case.base_length)          # clear minds no damage


# ---------------------------------------------------------------------------------------------------------------------
# (d) Wrong sizes and numbers
# ---------------------------------------------------------------------------------------------------------------------

def resized(words, size, fill):
    return words[:size] + [fill] * (size - len(words))


def all_calls(both, rng, base, base_length, address, length, hop):
    """Every table call once on the memory that is lent, clear last."""
    both.look_up(base, base_length, [address])
    for name in rng.sample(["announce", "withdraw", "re_home"], 3):
        both.any_update(name, base, base_length, address, length, hop)
    both.clear(base, base_length)


def sizes_and_numbers(both, rng, number):
    base_length = (24, 23, 20, 16, 22, 13)[number % 6]
    base = draw_base(rng, base_length)
    segments = rng.choice([1, 2, 3, 8])
    prefixes = Prefixes(rng, base, base_length)
    right = Lent([0] * 2 ** (24 - base_length), [0] * (256 * segments), [0] * segments, [0] * 12)
    for _ in range(10):
        address, length = prefixes.right()
        model.announce(right, base, base_length, address, length, draw_hop(rng))
    address, length, hop = rng.choice(model.live_list(right.rules))

    # each size off, the others right
    for name in TABLES:
        words = getattr(right, name)
        n = len(words)
        for size in sorted({0, 1, 255, 256, n - 256, n - 1, n, n + 1, n + 255, n + 256, n // 2, 2 * n}):
            if size < 0:
                continue
            lent = right.copy()
            setattr(lent, name, resized(words, size, rng.choice([0, 0, 64])))
            both.lend(lent, draw_shifts(rng))
            all_calls(both, rng, base, base_length, address, length, hop)
    # long table and owner words off together, by whole segments: right
    for more in (-1, 1, 2):
        lent = right.copy()
        lent.owners = resized(lent.owners, segments + more, 0)
        lent.long = resized(lent.long, 256 * (segments + more), 0)
        both.lend(lent, draw_shifts(rng))
        all_calls(both, rng, base, base_length, address, length, hop)
    # the territory's length, with the table that is there and with other sizes
    for wrong in (25, 26, 31, 32, 33, 56, 63, 64, 255, 256, 65536, POINTER, TOP - 1, base_length - 1, base_length + 1,
                  base_length + 32, base_length + 64, base_length + 256, base_length + 65536):
        lent = right.copy()
        if rng.random() < 0.5:
            lent.first = resized(lent.first, rng.choice([0, 1, 2, 256]), 0)
        both.lend(lent, draw_shifts(rng))
        all_calls(both, rng, rng.choice([base, 0]), wrong, address, length, hop)
    # the territory's address: each bit after T
    for bit in range(32 - base_length):
        both.lend(right, draw_shifts(rng))
        all_calls(both, rng, base + 2 ** bit, base_length, address, length, hop)
    # the prefix and the hop, on right and on damaged memory
    for wrong_hop in WRONG_HOPS + (1, 32767):
        both.lend(right, draw_shifts(rng))
        all_calls(both, rng, base, base_length, address, length, wrong_hop)
    for wrong_length in WRONG_LENGTHS + tuple(range(33)):
        lent = right.copy()
        if rng.random() < 0.3:
            lent.first[rng.randrange(len(lent.first))] = 63
        both.lend(lent, draw_shifts(rng))
        both.announce(base, base_length, address, wrong_length, hop)
        both.re_home(base, base_length, address, wrong_length, hop)
        both.withdraw(base, base_length, address, wrong_length)
    # every order of two or more things wrong at once
    for _ in range(20):
        lent = right.copy()
        a, l, h = address, length, hop
        b, t = base, base_length
        for what in rng.sample(range(7), rng.randint(2, 4)):
            if what == 0:
                lent.rules = resized(lent.rules, len(model.live_list(lent.rules)), 0)    # full
            elif what == 1:
                t = rng.choice([25, 255, TOP - 1])
            elif what == 2:
                a, l, h = prefixes.wrong()
            elif what == 3:
                lent.first[rng.randrange(len(lent.first))] = rng.choice([63, 2 ** 21, TOP - 1])
            elif what == 4:
                lent.owners.append(0)
            elif what == 5:
                a, l = prefixes.right()
            elif what == 6 and lent.rules and lent.rules[0]:
                lent.rules[0] += 32768
        both.lend(lent, draw_shifts(rng))
        all_calls(both, rng, b, t, a, l, h)
    # updates that no record carries, and others: 23 and 25 come before 1, and before all else
    for kind in (0, 4, 5, 129, 255, 1, 2, 2, 2, 2, 3):
        lent = right.copy()
        if rng.random() < 0.5:
            lent.owners.append(0)
        both.lend(lent, draw_shifts(rng))
        both.apply(base, base_length, (kind, rng.randrange(TOP), address, rng.choice([length, length, 33, 255]),
                                       rng.choice([0, 0, 1, 256, hop, 32768, 65535])))


def big_sizes(both, rng):
    """The largest sizes that are right, and the smallest that are too large."""
    # 65,536 rule words, and one more
    base, base_length = 10 * 2 ** 24, 16
    for count in (65536, 65537):
        both.lend(Lent([0] * 256, [0] * 256, [0], [0] * count))
        both.announce(base, base_length, base, 24, 7)
        both.announce(base, base_length, base + 128, 25, 7)
        all_calls(both, rng, base, base_length, base, 24, 5)
    # a list of 65,536 live prefixes, full
    base, base_length = 10 * 2 ** 24, 8
    live = [(base + 256 * block, 24, 1 + block % 32767) for block in range(65536)]
    both.lend(Lent([model.direct(hop, 24) for address, length, hop in live], [0] * 256, [0],
                   [rule_word(*prefix) for prefix in live]))
    for call in [lambda: both.announce(base, base_length, base + 128, 25, 1),
                 lambda: both.announce(base, base_length, base + 2 ** 24 - 256, 24, 9),
                 lambda: both.withdraw(base, base_length, base, 24),
                 lambda: both.announce(base, base_length, base + 2 ** 24 - 1, 32, 1),
                 lambda: both.announce(base, base_length, base, 24, 1),
                 lambda: both.withdraw(base, base_length, base + 2 ** 24 - 1, 32),
                 lambda: both.announce(base, base_length, base, 24, 3)]:
        call()
    both.look_up(base, base_length, [base, base + 2 ** 24 - 1, base + 2 ** 24])
    # 32,768 segments of which only the last is free, and 32,769
    base, base_length = TOP - 256, 24
    for segments in (32768, 32769):
        both.lend(Lent([model.direct(5, 24)], [0] * (256 * segments), [77] * (segments - 1) + [0],
                       [rule_word(base, 24, 5), 0]))
        both.announce(base, base_length, base + 255, 32, 6)
        both.look_up(base, base_length, [base, base + 255])
        both.lend_words(octets=[0] * 32768)
        both.book(base, base_length, base + 255, MOST)
        both.book_all(base, base_length, [base, base + 255, base - 1], [5, 1, 1], 3)
        both.lend_words(octets=[])
        both.withdraw(base, base_length, base + 255, 32)
        both.clear(base, base_length)


# ---------------------------------------------------------------------------------------------------------------------
# (e) Records
# ---------------------------------------------------------------------------------------------------------------------

def records(both, rng, number):
    serial = rng.choice([0, 1, 7, 255, 256, 65536, POINTER, TOP - 2, TOP - 1, rng.randrange(TOP)])
    kind = rng.choice([1, 2, 3])
    hop = 0 if kind == 2 else rng.choice([0, 1, 255, 256, 32767, 32768, 65535, rng.randrange(65536)])
    update = (kind, serial, rng.choice([0, TOP - 1, rng.randrange(TOP)]), rng.choice([0, 24, 32, 33, 255]), hop)

    # round trips, into rooms of every size
    code, record = both.write_record(bytes(15), update)
    if code != 0:
        raise Difference("a right update was not written")
    code, back = both.read_record(record, serial)
    if (code, back) != (0, update):
        raise Difference("round trip of %r gives code %d, %r" % (update, code, back))
    both.read_record(record, (serial + 1) % TOP)
    both.read_record(record, (serial - 1) % TOP)
    for size in range(21):
        room = bytes(rng.randrange(256) for _ in range(size))
        both.write_record(room, update)
        both.write_record(room, (rng.choice([0, 4, 255]),) + update[1:])
        both.write_record(room, (2,) + update[1:4] + (rng.choice([1, 256, 32768, 65535]),))
        both.write_record(room, (rng.randrange(256), rng.randrange(TOP), rng.randrange(TOP), rng.randrange(256),
                                 rng.randrange(65536)))
    # whole, cut short, and longer
    for size in range(21):
        longer = record + bytes(rng.randrange(256) for _ in range(6))
        both.read_record(longer[:size], serial)
        both.read_record(bytes(rng.randrange(256) for _ in range(size)), serial)
        both.read_record((b"\0\x0d" + bytes(rng.randrange(256) for _ in range(19)))[:size], serial)
    # each field wrong, and every two, whole and cut
    def version(r): r[2] = rng.choice([0, 2, 3, 255])
    def wrong_kind(r): r[3] = rng.choice([0, 4, 5, 129, 255])
    def wrong_serial(r): r[rng.randint(4, 7)] ^= 1 << rng.randrange(8)
    def wrong_hop(r): r[3], r[rng.choice([13, 14])] = 2, rng.choice([1, 128, 255])
    def low_length(r): r[1] = rng.choice([0, 12, 14, 15, 255, 13 ^ 1 << rng.randrange(8)])
    def high_length(r): r[0] = rng.choice([1, 13, 128, 255])
    def other_fields(r): r[rng.randint(8, 12)] = rng.randrange(256)
    wrongs = [version, wrong_kind, wrong_serial, wrong_hop, low_length, high_length, other_fields]
    for one in wrongs:
        for two in wrongs:
            spoiled = bytearray(record)
            one(spoiled)
            two(spoiled)
            both.read_record(bytes(spoiled), serial)
            both.read_record(bytes(spoiled) + b"\1\2\3", serial)
            both.read_record(bytes(spoiled)[:rng.randint(0, 14)], serial)
    # a stream over the end of the serials
    expected = rng.choice([TOP - 3, TOP - 1, 0])
    for _ in range(5):
        code, record = both.write_record(bytes(15), (1, expected, 0, 0, 0))
        code, back = both.read_record(record, expected)
        if code != 0:
            raise Difference("the stream stopped at serial %d" % expected)
        expected = model.next_serial(expected)


# ---------------------------------------------------------------------------------------------------------------------
# (f) Look up on bytes
# ---------------------------------------------------------------------------------------------------------------------

def bytes_tables(both, rng, number):
    base_length = (24, 23, 24, 20, 24, 22, 16, 24, 21, 19, 17, 18)[number % 12]
    base = draw_base(rng, base_length)
    segments = rng.choice([0, 1, 2, 3])
    blocks = 2 ** (24 - base_length)

    def cell(longest):
        good = model.direct(rng.choice([1, 2, 255, 256, 32767, rng.randint(1, 32767)]), rng.randint(0, longest))
        return rng.choice([good, good, good, 0, POINTER + rng.choice([0, 0, 1, segments, segments + 1, POINTER - 1]),
                           model.direct(1, longest + 1), rng.randrange(64), model.direct(rng.randint(1, 32767),
                           rng.randrange(64)), 2 ** 21, 2 ** 21 + 64, POINTER - 1, rng.randrange(TOP)])

    def addresses(how_many):
        inside = [base + rng.randrange(2 ** (32 - base_length)) for _ in range(how_many)]
        return inside + [base, base + 256 * blocks - 1, (base - 1) % TOP, (base + 256 * blocks) % TOP,
                         rng.randrange(TOP)]

    first = [cell(24) for _ in range(blocks)]
    if segments and rng.random() < 0.6:
        for _ in range(3):
            first[rng.randrange(blocks)] = POINTER + rng.randrange(segments)
    long = [cell(32) for _ in range(256 * segments)]
    # tables of right length, many addresses, at every place in memory
    both.lend(Lent(first, long, [], []), draw_shifts(rng))
    both.look_up(base, base_length, addresses(300))
    first, long = little_endian("I", first), little_endian("I", long)
    for shifts in [(0, 0), (1, 0), (2, 3), (3, 2), (0, 1), (5, 7)]:
        both.look_up_bytes(first, long, shifts, base, base_length, addresses(1 if blocks > 64 else 3))
    # tables of other lengths
    for _ in range(60 if blocks <= 16 else 10):
        a, b = len(first), len(long)
        if rng.random() < 0.7:
            a = max(0, a + rng.choice([-1024, -5, -4, -3, -2, -1, 1, 2, 3, 4, 5, 1024, -a, a]))
        if rng.random() < 0.5:
            b = max(0, b + rng.choice([-1024, -5, -4, -3, -2, -1, 1, 2, 3, 4, 5, 512, 1024, 2048, -b]))
        both.look_up_bytes((first + bytes(4096 + len(first)))[:a], (long + bytes(4096))[:b],
                           (rng.randrange(16), rng.randrange(16)), base, base_length, addresses(0)[:2])
    # wrong territories
    for wrong in (25, 32, 33, 56, 255, 256 + base_length, 32 + base_length, TOP - 1):
        both.look_up_bytes(first, long, (0, 0), base, wrong, [base])
    for bit in range(32 - base_length):
        both.look_up_bytes(first[:64], long[:1024], (0, 0), base + 2 ** bit, base_length, [base])


# ---------------------------------------------------------------------------------------------------------------------
# (g) The paper's figures, and T = 0, with all 16,777,216 cells
# ---------------------------------------------------------------------------------------------------------------------

def dotted(text):
    a, b, c, d = text.split(".")
    return int(a) * 2 ** 24 + int(b) * 2 ** 16 + int(c) * 2 ** 8 + int(d)


def figures(both, rng, number):
    """Run once. The model is too slow for 2^24 cells, so what is right at T = 0 is written here, from the paper."""
    # the small program
    base = dotted("10.16.0.0")
    both.lend(Lent([5] * 4096, [6] * 4096, [7] * 16, [8] * 64))
    both.clear(base, 12)
    stream = [(1, "10.16.0.0", 12, 5, 0, 4096), (1, "10.16.3.0", 24, 7, 0, 1), (1, "10.16.3.128", 25, 9, 0, 257),
              (1, "10.16.3.0", 24, 8, 0, 128), (2, "10.16.3.0", 24, 0, 0, 128), (2, "10.16.3.128", 25, 0, 0, 257),
              (2, "10.16.3.128", 25, 0, 5, 0), (1, "10.32.0.0", 16, 5, 3, 0)]
    for serial, (kind, address, length, hop, code, cells) in enumerate(stream):
        written, record = both.write_record(bytes(15), (kind, serial, dotted(address), length, hop))
        read, update = both.read_record(record, serial)
        name = {1: "announce", 2: "withdraw"}[update[0]]
        got = both.any_update(name, base, 12, update[2], update[3], update[4])
        if (written, read, got) != (0, 0, (code, cells)):
            raise Difference("the small program prints %r for serial %d, the paper %r" % (got, serial, (code, cells)))

    driver = both.driver
    cells = 2 ** 24
    word = lambda cell: struct.pack("<I", cell)

    def whole(first, long, owners, rules):
        both.start_case()
        for which, contents in enumerate((first, long, owners, rules)):
            driver.lend(which, contents, 0)
        return [len(first), len(long), len(owners), len(rules)]

    def call(name, numbers, sizes, wanted, after=None):
        """One update at T = 0. `after` holds what the four slices must be; without it the driver counts what differs."""
        code, count, guards, differing, contents = both.make_update(name, (0, 0), numbers, sizes, 1 if after else 0)
        if (code, count) != wanted or guards or (name != "clear" and differing[0] + differing[1] != wanted[1]):
            raise Difference("library code %d, cells %d (guards %#x, words that differ %r), right are code %d, cells %d"
                             % (code, count, guards, differing, *wanted))
        if after:
            for which in range(4):
                if contents[which] != after[which]:
                    place = [a == b for a, b in zip(contents[which], after[which])].index(False)
                    raise Difference("%s differs from what is right, first at byte %d" % (NAMES[which], place))
        both.log.append("%s -> code %d, cells %d" % (both.call, code, count))
        both.count("updates", code)

    def answers(wanted):
        both.compare_look_ups(0, 0, [address for address, answer in wanted], [answer for address, answer in wanted])

    # the eight lookups
    sizes = whole(word(99) * cells, word(98) * 256, word(97), bytes(8 * 8))
    call("clear", (), sizes, (0, 0), [bytes(size) for size in sizes])
    for address, length, hop in [("224.0.0.0", 3, 1), ("128.0.0.0", 2, 2), ("160.0.0.0", 4, 3), ("168.0.0.0", 5, 4)]:
        call("announce", (dotted(address), length, hop), sizes, (0, 2 ** (24 - length)))
    unrouted = packed(8, 0, 0)
    eight = [("168.0.0.1", packed(0, 5, 4)), ("175.255.255.255", packed(0, 5, 4)), ("167.255.255.255", packed(0, 4, 3)),
             ("176.0.0.0", packed(0, 2, 2)), ("224.0.0.0", packed(0, 3, 1)),
             ("192.0.0.0", unrouted), ("223.255.255.255", unrouted), ("0.0.0.0", unrouted)]
    answers([(dotted(address), answer) for address, answer in eight])
    # a /0 under all of them, changed and gone again: it fills exactly what had no route
    empty = cells - 2 ** 21 - 2 ** 22
    call("announce", (0, 0, 6), sizes, (0, empty))
    answers([(dotted(address), packed(0, 0, 6) if answer == unrouted else answer) for address, answer in eight])
    call("announce", (TOP - 1, 32, 10), sizes, (0, 257))
    answers([(TOP - 1, packed(0, 32, 10)), (TOP - 2, packed(0, 3, 1))])
    call("re_home", (0, 0, 7), sizes, (0, empty))
    answers([(dotted(address), packed(0, 0, 7) if answer == unrouted else answer) for address, answer in eight])
    call("withdraw", (0, 0), sizes, (0, empty))
    answers([(dotted(address), answer) for address, answer in eight])
    call("withdraw", (TOP - 1, 32), sizes, (0, 257))
    call("withdraw", (0, 0), sizes, (5, 0))

    # cells of length 0 beside cells 0, as no history leaves them: the tables hold, over and over, no route, a /0 cell of
    # the live hop, a /0 cell of another hop, a cell of length 8 and one of length 24; live are 0.0.0.0/0 and 1.0.0.0/8
    a, b, c, d, e = 0, model.direct(7, 0), model.direct(9, 0), model.direct(3, 8), model.direct(3, 24)
    rules = [(0, 0, 7), (2 ** 24, 8, 5)]
    def table(*five):
        return (b"".join(word(cell) for cell in five) * (cells // 5 + 1))[:4 * cells]
    def words(*live):
        return b"".join(struct.pack("<Q", rule_word(*rule)) for rule in live) + bytes(8 * (4 - len(live)))
    def how_many(start, end, *places):
        return sum(len(range(start + (place - start) % 5, end, 5)) for place in places)
    before = table(a, b, c, d, e)
    sizes = whole(before, b"", b"", words(*rules))
    # withdrawn: cells of length 0 become the /8 inside it and 0 outside; a cell 0 is no route, has no length and stays
    inside = model.direct(5, 8)
    outer, inner = table(a, 0, 0, d, e), table(a, inside, inside, d, e)
    after = outer[:4 * 65536] + inner[4 * 65536:8 * 65536] + outer[8 * 65536:]
    call("withdraw", (0, 0), sizes, (0, how_many(0, cells, 1, 2)), [after, b"", b"", words((2 ** 24, 8, 5))])
    # re-homed: cells 0 and cells of length 0 are replaced
    sizes = whole(before, b"", b"", words(*rules))
    new = model.direct(9, 0)
    call("re_home", (0, 0, 9), sizes, (0, how_many(0, cells, 0, 1)),
         [table(new, new, new, d, e), b"", b"", words((0, 0, 9), (2 ** 24, 8, 5))])
    # a new /8 over cells 0 and cells of length 0
    sizes = whole(before, b"", b"", words((0, 0, 7)))
    new = model.direct(4, 8)
    painted = table(new, new, new, new, e)
    call("announce", (255 * 2 ** 24, 8, 4), sizes, (0, how_many(255 * 65536, cells, 0, 1, 2, 3)),
         [before[:4 * 255 * 65536] + painted[4 * 255 * 65536:], b"", b"", words((0, 0, 7), (255 * 2 ** 24, 8, 4))])
    # the same withdraw with one block open, 1.0.5.0: there too cells of length 0 go and cells 0 stay
    block = 65536 + 5
    at = 4 * block
    rules = [(0, 0, 7), (2 ** 24, 8, 5), (256 * block, 25, 6)]
    f = model.direct(6, 25)
    segment = b"".join(word(cell) for cell in (a, b, c, f)) * 64
    sizes = whole(before[:at] + word(POINTER) + before[at + 4:], segment, word(block + 1), words(*rules))
    segment = (b"".join(word(cell) for cell in (a, f, f, f)) * 32
               + b"".join(word(cell) for cell in (a, inside, inside, f)) * 32)
    call("withdraw", (0, 0), sizes, (0, how_many(0, cells, 1, 2) - (1 if block % 5 in (1, 2) else 0) + 128),
         [after[:at] + word(POINTER) + after[at + 4:], segment, word(block + 1), words(*rules[1:])])
    # then the /25 is re-homed and withdrawn, and its block closes to the /8
    segment = word(model.direct(9, 25)) * 128 + segment[512:]
    after = after[:at] + word(POINTER) + after[at + 4:]
    call("re_home", (256 * block, 25, 9), sizes, (0, 128),
         [after, segment, word(block + 1), words(rules[1], (256 * block, 25, 9))])
    after = after[:at] + word(inside) + after[at + 4:]
    call("withdraw", (256 * block, 25), sizes, (0, 1 + 128 + 96), [after, bytes(1024), word(0), words(rules[1])])
    whole(b"", b"", b"", b"")


# ---------------------------------------------------------------------------------------------------------------------
# (h) Bookings along histories of updates
# ---------------------------------------------------------------------------------------------------------------------

EDGES = (0, 1, 2, MOST - 2, MOST - 1, MOST, MOST + 1, MOST + 2, WORD_TOP - MOST, WORD_TOP - 1, TOP, POINTER)


def over_and_over(rng, words, count):
    """So many of these words, in no order for 997 of them and then again: quicker than to draw each."""
    return (rng.choices(words, k=997) * (count // 997 + 1))[:count]


def draw_word_shifts(rng):
    return rng.choice([0, 8]), rng.choice([0, 8]), rng.choice([0, 4, 8, 12])


def draw_record_shifts(rng):
    return rng.choice([0, 4, 8, 12]), rng.choice([0, 8]), rng.choice([0, 4, 8, 12])


def draw_amount(rng, word):
    """Octets for this word: those that bring it to 2^53 and just above, those that wrap, and others."""
    rest = max(MOST - word, 0)
    return rng.choice([0, 1, rest, rest + 1, max(rest - 1, 0), rest // 2, MOST, MOST + 1, MOST - 1, WORD_TOP - 1,
                       min(WORD_TOP - word, WORD_TOP - 1), min(WORD_TOP - word + 1, WORD_TOP - 1), WORD_TOP - MOST,
                       rng.randrange(1500), rng.randrange(10 ** 12), rng.randrange(MOST), rng.randrange(WORD_TOP)])


def booking_histories(both, rng, number):
    base_length = (24, 23, 20, 24, 22, 16)[number % 6]
    base = draw_base(rng, base_length)
    segments = rng.choice([0, 1, 2, 4])
    room = rng.choice([3, 8, 20])
    prefixes = Prefixes(rng, base, base_length)
    both.lend(Lent([rng.randrange(TOP) for _ in range(2 ** (24 - base_length))], [9] * (256 * segments), [9] * segments,
                   [9] * room), draw_shifts(rng))
    both.lend_words(octets=over_and_over(rng, EDGES, 32768), shifts=draw_word_shifts(rng))
    if both.clear(base, base_length) != 0 or both.clear_octets() != 0:
        raise Difference("clear was refused")
    live = {}                # (address, length): hop, from the accepted updates alone
    carried = {}             # hop: octets of the accepted records, by the longest match of the live list at that time

    def amount_for(address):
        if rng.random() < 0.7:
            return rng.choice([rng.randrange(1500), rng.randrange(10 ** 12)])
        return draw_amount(rng, carried.get(hop_of(address), 0))

    def hop_of(address):
        found = model.longest_match([(a, l, hop) for (a, l), hop in live.items()], address)
        return 0 if found is None else found[2]

    def account(address, amount, code):
        """What this record must answer, from the live list and the accepted records alone; its octets are carried."""
        hop = hop_of(address)
        if not model.in_prefix(address, base, base_length):
            right = 3
        elif carried.get(hop, 0) + amount > MOST:
            right = 30
        else:
            right = 0
            carried[hop] = carried.get(hop, 0) + amount
        if code != right:
            raise Difference("the record (%s, %d) is answered with %d; by the longest match of the live list and the "
                             "records accepted before it is %d" % (ip(address), amount, code, right))

    def compare_with_records():
        for hop, octets in carried.items():
            if both.octets[hop] != octets:
                raise Difference("word %d is %d, the accepted records of this hop have %d octets"
                                 % (hop, both.octets[hop], octets))
        if sum(both.octets) != sum(carried.values()):
            raise Difference("the words sum to %d, the accepted records have %d octets"
                             % (sum(both.octets), sum(carried.values())))

    def records(address, length, how_many):
        """Addresses at the edges of the last update and elsewhere; or one of them many times."""
        some = prefixes.addresses(address, length, 8)
        some = [rng.choice(some) for _ in range(how_many)]
        return some if rng.random() < 0.7 else [rng.choice(some or [base])] * how_many

    for _ in range(rng.randint(10, 30)):
        name = rng.choice(["announce", "announce", "announce", "withdraw", "re_home"])
        address, length = prefixes.right()
        if name != "announce" and live:
            address, length = rng.choice(list(live))
        hop = draw_hop(rng)
        code, cells = both.any_update(name, base, base_length, address, length, hop)
        if code == 0 and name == "withdraw":
            del live[(address, length)]
        elif code == 0:
            live[(address, length)] = hop
        for one in records(address, length, rng.randint(1, 5)):
            amount = amount_for(one)
            account(one, amount, both.book(base, base_length, one, amount))
        if rng.random() < 0.5:
            many = records(address, length, rng.choice([0, 1, 5, 16, 40]))
            amounts = [amount_for(one) for one in many]
            if many and rng.random() < 0.3:
                amounts = [max(MOST - carried.get(hop_of(many[0]), 0), 0) // 3] * len(many)    # 30 starts in this call
            code, codes = both.book_all(base, base_length, many, amounts, len(many), draw_record_shifts(rng))
            if code != 0:
                raise Difference("book_all answers %d along a history from clear" % code)
            for one, amount, code in zip(many, amounts, codes):
                account(one, amount, code)
        compare_with_records()
        if rng.random() < 0.05:
            both.clear_octets()                          # the next month
            carried.clear()
    both.compare_all_octets()


# ---------------------------------------------------------------------------------------------------------------------
# (i) Bookings on any memory, in any number of words
# ---------------------------------------------------------------------------------------------------------------------

COUNTS_OF_WORDS = (0, 1, 32767, 32769, 2, 255, 16384, 65536)


def draw_words(rng):
    """32,768 words: all 0, all one edge, edges, or anything up to 2^53."""
    how = rng.randrange(5)
    if how == 0:
        return [0] * 32768
    if how == 1:
        return [rng.choice(EDGES)] * 32768
    if how == 2:
        return over_and_over(rng, EDGES, 32768)
    some = [rng.randrange(MOST + 1) for _ in range(50)] + [rng.randrange(10 ** 12) for _ in range(50)]
    return over_and_over(rng, some, 32768)


def any_bookings(both, rng, number):
    case = Strange(rng, blocks_damaged=rng.choice([0, 0, 0.5]), full=rng.random() < 0.8)
    lent = case.lent.copy()
    chosen = [TABLE_DAMAGE[number % len(TABLE_DAMAGE)]] if number % 10 else []
    for _ in range(rng.choice([0, 0, 1, 2])):
        chosen.append(rng.choice(RULE_DAMAGE + TABLE_DAMAGE))
    spoil(rng, case, lent, chosen)
    base, base_length = case.base, case.base_length
    both.lend(lent, draw_shifts(rng))
    both.lend_words(octets=draw_words(rng), shifts=draw_word_shifts(rng))
    both.log.append("# damage: " + ", ".join(kind.__name__ for kind in chosen))

    def amount_for(address):
        code, length, hop = model.look_up(both.lent.first, both.lent.long, base, base_length, address)
        return draw_amount(rng, both.octets[hop]) if hop < len(both.octets) else rng.randrange(WORD_TOP)

    addresses = case.prefixes.addresses(case.address, case.length, 8)
    addresses += [base + 256 * rng.randrange(case.blocks) + rng.randrange(256) for _ in range(6)]
    # the blocks that were spoiled or are open: there is the damage
    strange = [block for block in range(case.blocks) if lent.first[block] != case.lent.first[block]] + case.open_blocks
    addresses += [base + 256 * block + rng.randrange(256) for block in rng.sample(strange, min(4, len(strange)))]
    for address in addresses:
        both.book(base, base_length, address, amount_for(address))
    for amount in (0, WORD_TOP - 1):                     # too much together with all else
        both.book(base, base_length, rng.choice(addresses), amount)

    # many at once
    for how_many in (0, 1, rng.choice([2, 7, 30, 100, 100, 1025])):
        many = [rng.choice(addresses) for _ in range(how_many)]
        both.book_all(base, base_length, many, [amount_for(address) for address in many], how_many,
                      draw_record_shifts(rng))
    # one hop many times: 30 starts in the middle, and a small record fits after it
    routed = [address for address in addresses
              if model.look_up(lent.first, lent.long, base, base_length, address)[0] in (0, 8)]
    one = rng.choice(routed or addresses)
    rest = max(MOST - both.octets[model.look_up(lent.first, lent.long, base, base_length, one)[2]], 0)
    amounts = [rest // 5] * 8 + [rest - 5 * (rest // 5), 0, 1, WORD_TOP - 1]
    many = [one] * len(amounts)
    many[rng.randrange(len(many))] = rng.choice(addresses)
    both.book_all(base, base_length, many, amounts, len(amounts), draw_record_shifts(rng))
    # counts that differ, in each of the ways, by one and by all
    n = rng.choice([1, 2, 5])
    many = [rng.choice(addresses) for _ in range(n + 1)]
    amounts = [amount_for(address) for address in many]
    for a, m, c in ((n - 1, n, n), (n, n - 1, n), (n, n, n - 1), (n + 1, n, n), (n, n + 1, n), (n, n, n + 1), (0, n, n),
                    (n, 0, n), (n, n, 0), (n - 1, n, n + 1), (0, 0, n)):
        both.book_all(base, base_length, many[:a], amounts[:m], c, draw_record_shifts(rng))
    both.compare_all_octets()

    # tables and territories that are wrong, with right and with wrong numbers of words; 1 comes first
    def all_refused(b, t):
        for address in rng.sample(addresses, 2) + [(base - 1) % TOP]:
            both.book(b, t, address, rng.choice([0, 1, WORD_TOP - 1]))
        both.book_all(b, t, many, amounts, len(many), draw_record_shifts(rng))
        both.book_all(b, t, [], [], 0)
        both.book_all(b, t, many, amounts, len(many) + rng.choice([-1, 1]), draw_record_shifts(rng))

    wrong = rng.choice([25, 26, 31, 32, 33, 56, 255, 256 + base_length, base_length + 1, base_length + 32, TOP - 1])
    all_refused(rng.choice([base, 0]), wrong)
    all_refused(base + 2 ** rng.randrange(32 - base_length), base_length)
    tables = lent.copy()
    if rng.random() < 0.5:
        n = len(tables.first)
        tables.first = resized(tables.first, max(0, n + rng.choice([-n, -1, 1, n, 256, -n // 2])), 0)
    else:
        n = len(tables.long)
        tables.long = resized(tables.long, max(0, n + rng.choice([-1, 1, 255, 257, 128, -128, 256, -256])), 0)
    both.lend(tables, draw_shifts(rng))
    all_refused(base, base_length)
    both.clear_octets()
    if rng.random() < 0.5:
        both.lend(lent, draw_shifts(rng))                # else the tables stay wrong too
    count = COUNTS_OF_WORDS[number % len(COUNTS_OF_WORDS)]
    both.lend_words(octets=over_and_over(rng, EDGES, count), shifts=draw_word_shifts(rng))
    all_refused(base, base_length)
    both.clear_octets()
    both.compare_all_octets()


# ---------------------------------------------------------------------------------------------------------------------
# (j) Lines
# ---------------------------------------------------------------------------------------------------------------------

WRONG_LINES = (0, 32768, 32769, 65535, 65536, 65537, 98303, POINTER, POINTER + 1, TOP - 32767, TOP - 1)


def draw_rate_words(rng):
    """(octets, cents) of one line, both at most 2^53."""
    how = rng.randrange(9)
    if how == 0:
        return rng.choice([0, 1, 2, 3, MOST - 1, MOST]), rng.choice([0, 1, 2, 3, MOST - 1, MOST])
    if how == 1:                                         # near 1: not the same fraction, perhaps the same double
        return MOST - rng.randrange(6), MOST - rng.randrange(6)
    if how == 2:                                         # any sizes
        return rng.randrange(2 ** rng.randint(1, 53)), rng.randrange(2 ** rng.randint(1, 53))
    if how == 3:                                         # a quotient and one just beside it, with larger terms
        octets, cents, times = rng.randint(1, 2 ** 26), rng.randint(1, 2 ** 26), rng.randint(1, 2 ** 26)
        return octets * times + rng.choice([-1, 0, 0, 1]), cents * times + rng.choice([-1, 0, 0, 1])
    if how == 4:                                         # whole quotients, and ones beside them
        octets = rng.randint(1, 2 ** 26)
        return octets, max(octets * rng.randint(0, 2 ** 26) + rng.choice([-1, 0, 0, 1]), 0)
    if how == 5:
        return rng.choice([1, 3, 7, 10, 49]), rng.randint(MOST - 1000, MOST)
    if how == 6:
        return rng.randint(MOST - 1000, MOST), rng.randint(0, 50)
    if how == 7:                                         # as finance has them
        return rng.randrange(10 ** 15), rng.randrange(10 ** 8)
    return rng.randint(2 ** 52, MOST), rng.randint(2 ** 52, MOST)


def lines(both, rng, number):
    octets, cents = [rng.choice(EDGES)], [rng.choice(EDGES)]
    while len(octets) < 1200:
        octet_word, cent_word = draw_rate_words(rng)
        octets.append(octet_word)
        cents.append(cent_word)
    # words at the edges, and above 2^53: 30, 31 or both
    for octet_word in EDGES:
        for cent_word in EDGES:
            octets.append(octet_word)
            cents.append(cent_word)
    hops = list(range(1, len(octets))) + [32767, 32766, 2000]
    octets += [0] * (32768 - len(octets))
    cents += [0] * (32768 - len(cents))
    for hop in (32767, 32766, 2000):
        octets[hop], cents[hop] = rng.choice([draw_rate_words(rng), (rng.choice(EDGES), rng.choice(EDGES))])
    both.lend_words(octets, cents, [], draw_word_shifts(rng))
    both.cost_lines(hops + list(WRONG_LINES) + [rng.randrange(32768, TOP)])
    # the sizes come first
    which = number % 2
    count = COUNTS_OF_WORDS[number // 2 % len(COUNTS_OF_WORDS)]
    few = resized((octets, cents)[which], count, 7)
    if which == 0:
        both.lend_words(octets=few, shifts=draw_word_shifts(rng))
    else:
        both.lend_words(cents=few, shifts=draw_word_shifts(rng))
    both.cost_lines([1, 2, 32767, 1300, 1340] + list(WRONG_LINES))
    both.lend_words(resized(octets, count, 7), resized(cents, count, 7), shifts=draw_word_shifts(rng))
    both.cost_lines([1, 32767, 0, 32768])


# ---------------------------------------------------------------------------------------------------------------------
# (k) Sheets
# ---------------------------------------------------------------------------------------------------------------------

def equal_lines(rng):
    octets, cents = rng.choice([(7, 3), (1, MOST), (MOST, 1), (5, 0), (0, 5), (0, 0)])
    return [octets] * 32768, [cents] * 32768


def distinct_lines(rng):
    return [1000] * 32768, rng.sample(range(10 ** 6), 32768)


def in_order(rng):
    return [1000] * 32768, list(range(40000, 40000 - 32768, -1))


def in_opposite_order(rng):
    return [1000] * 32768, list(range(32768))


def many_ties(rng):
    return rng.choices(range(1, 9), k=32768), rng.choices(range(8), k=32768)


def ties_of_fractions(rng):
    """Different fractions of which many are the same double."""
    near = [MOST - i for i in range(200)]
    return rng.choices(near, k=32768), rng.choices(near, k=32768)


def cost_alone(rng):
    return [0] * 32768, rng.sample(range(1, 10 ** 6), 32768)


def cost_alone_with_ties(rng):
    return [0] * 32768, rng.choices([0, 1, 2, MOST - 1, MOST, 77], k=32768)


def the_three_kinds(rng):
    return ([rng.choice([0, 0, 1, 2, 3, rng.randrange(10 ** 12)]) for _ in range(32768)],
            [rng.choice([0, 0, 1, 2, 3, rng.randrange(10 ** 8)]) for _ in range(32768)])


def any_lines(rng):
    words = [draw_rate_words(rng) for _ in range(32768)]
    return [octets for octets, cents in words], [cents for octets, cents in words]


def edges_alone(rng):
    words = [word for word in EDGES if word <= MOST]
    return rng.choices(words, k=32768), rng.choices(words, k=32768)


def few_lines(rng):
    octets, cents = [0] * 32768, [0] * 32768
    for _ in range(rng.choice([1, 2, 3, 20])):
        hop = rng.choice([1, 2, 32766, 32767, rng.randint(1, 32767)])
        octets[hop], cents[hop] = draw_rate_words(rng)
    return octets, cents


SHEETS = (equal_lines, distinct_lines, many_ties, ties_of_fractions, the_three_kinds, cost_alone, cost_alone_with_ties,
          any_lines, edges_alone, few_lines, in_order, in_opposite_order)


def sheets(both, rng, number):
    family = SHEETS[number % len(SHEETS)]
    octets, cents = family(rng)
    octets[0] = rng.choice([0, 1, MOST])
    cents[0] = rng.choice(EDGES)                         # unread, so anything
    room = [rng.randrange(TOP)] * 32767
    both.lend_words(octets, cents, room, draw_word_shifts(rng))
    both.log.append("# " + family.__name__)
    if both.cost_sheet() != 0:
        raise Difference("the sheet was meant to be made")
    # the lines at both ends of it, and some others
    both.cost_lines(both.hops[:20] + both.hops[-20:] + [rng.randint(1, 32767) for _ in range(20)])

    # refusals: each size, words that passed 2^53 at both ends and elsewhere, and some of these together
    def refused(what, octets_now, cents_now, room_now):
        both.lend_words(octets_now, cents_now, room_now, draw_word_shifts(rng))
        both.log.append("# " + what)
        both.cost_sheet()

    def spoiled(words, place):
        words = list(words)
        words[place] = rng.choice([MOST + 1, MOST + 1, MOST + 2, 2 ** 63, WORD_TOP - 1])
        return words

    place = (0, 1, 32767, rng.randrange(32768))[number % 4]
    other = rng.choice([1, 32767, rng.randrange(1, 32768)])
    count = COUNTS_OF_WORDS[number // 2 % len(COUNTS_OF_WORDS)]
    refused("octets, word %d" % place, spoiled(octets, place), None, room)
    refused("and cents, word %d" % other, None, spoiled(cents, other), None)
    refused("cents alone", octets, None, None)
    if place != other:
        refused("cents, word %d" % place, None, spoiled(cents, place), None)
    refused("%d words of octets, too" % count, resized(octets, count, MOST + 1), None, None)
    refused("%d words of cents" % count, octets, resized(cents, count, 0), None)
    few = rng.choice([0, 1, 32766, 32768, 32769, 16384])
    refused("room for %d" % few, rng.choice([octets, spoiled(octets, place)]), cents, resized(room, few, 77))
    refused("room for %d, %d words" % (few, count), resized(octets, count, 0), resized(cents, count, 0), None)


# ---------------------------------------------------------------------------------------------------------------------
# The run
# ---------------------------------------------------------------------------------------------------------------------

def sizes_with_big_ones(both, rng, number):
    if number == 0:
        big_sizes(both, rng)
    sizes_and_numbers(both, rng, number)


# letter: (what it is, the function, cases in a round)
KINDS = {
    "a": ("histories from clear", histories, 14),
    "b": ("undamaged memory that disagrees", undamaged, 150),
    "c": ("damaged memory", damage_memory, 150),
    "d": ("wrong sizes and numbers", sizes_with_big_ones, 1),
    "e": ("records", records, 3),
    "f": ("look up on bytes", bytes_tables, 3),
    "g": ("the paper's figures and T = 0", figures, 0),
    "h": ("bookings along histories", booking_histories, 2),
    "i": ("bookings on any memory", any_bookings, 6),
    "j": ("lines", lines, 2),
    "k": ("sheets", sheets, 2),
}
ROUNDS = 20

# The codes that a run of all rounds must have seen, by group: without them the cases are not what they are meant to be.
TO_SEE = {
    "h": {"updates": (0,), "clears": (0,), "bookings": (0, 3, 30), "whole": (0,), "together": (0, 3, 30)},
    "i": {"clears": (0, 1), "bookings": (0, 1, 3, 4, 30), "not 30 but": (1, 3, 4), "whole": (0, 1),
          "together": (0, 3, 4, 30)},
    "j": {"rates": (0,), "lines without": (0, 1, 2, 30, 31)},
    "k": {"sheets": (0, 1, 30, 31), "rates": (0,), "lines without": (0,)},
}


# The codes that a run of all rounds of all kinds must have seen from each call on an rk_tables.
TO_SEE_ON_TABLES = {
    "clear": (0, 1), "announce": (0, 1, 2, 3, 4, 6, 7), "withdraw": (0, 1, 2, 3, 4, 5), "re_home": (0, 1, 2, 3, 4, 5),
    "update": (0, 1, 2, 3, 4, 5, 6, 7, 23, 25), "look_up": (0, 1, 3, 4, 8), "look_up_all": (0, 1),
    "book": (0, 1, 3, 4, 30), "book_all": (0, 1),
}


def too_slow(signal_number, frame):
    raise Difference("the library did not answer for two minutes")


def main():
    parser = argparse.ArgumentParser(description="Compares librakmolthi.a with the model, call by call.")
    parser.add_argument("--seed", type=int, default=1)
    parser.add_argument("--seconds", type=float, help="run about this long, instead of a fixed amount of work")
    parser.add_argument("--case", help="run this one case again, as KIND:NUMBER")
    parser.add_argument("--kinds", default="".join(KINDS), help="run only these kinds, as %s" % "".join(KINDS))
    parser.add_argument("driver", nargs=argparse.REMAINDER, help="the command that starts the driver")
    arguments = parser.parse_args()
    if not arguments.driver:
        parser.error("the command that starts the driver is missing")
    signal.signal(signal.SIGALRM, too_slow)
    both = Both(Driver(arguments.driver))
    calls = {letter: [0, 0, {}] for letter in KINDS}          # cases, calls, codes
    started = time.time()

    def run(letter, number):
        both.start_case()
        both.take_turns(number)
        both.compared, both.codes = 0, {}
        try:
            KINDS[letter][1](both, random.Random("%d/%s/%d" % (arguments.seed, letter, number)), number)
        except Difference as difference:
            print_difference(both, arguments, letter, number, difference)
            sys.exit(1)
        calls[letter][0] += 1
        calls[letter][1] += both.compared
        for code, how_often in both.codes.items():
            calls[letter][2][code] = calls[letter][2].get(code, 0) + how_often

    def time_left():
        return arguments.seconds is None or time.time() - started < arguments.seconds

    rounds = 0
    if arguments.case:
        letter, number = arguments.case.split(":")
        run(letter, int(number))
    else:
        if "g" in arguments.kinds:
            run("g", 0)
        while time_left() if arguments.seconds is not None else rounds < ROUNDS:
            for letter, (what, function, cases) in KINDS.items():
                if letter in arguments.kinds and time_left():
                    for number in range(rounds * cases, rounds * cases + cases):
                        if time_left():
                            run(letter, number)
            rounds += 1
    status = both.driver.end()
    for letter, (cases, compared, codes) in calls.items():
        if cases:
            print("%s %-32s %6d cases %8d calls compared  (%s)" % (letter, KINDS[letter][0], cases, compared, "; ".join(
                group + " " + " ".join("%d:%d" % (code, codes[(g, code)]) for g, code in sorted(codes) if g == group)
                for group in sorted({g for g, code in codes}, reverse=True))))
    if both.on_tables:
        print("on an rk_tables: %s" % "; ".join(
            call + " " + " ".join("%d:%d" % (code, both.on_tables[(call, code)]) for c, code in sorted(both.on_tables)
                                  if c == call) for call in sorted({call for call, code in both.on_tables})))
    if status != 0:
        print("the driver ended with status %d" % status)
        sys.exit(1)
    unseen = ["%s: %s %d" % (letter, group, code) for letter in TO_SEE if letter in arguments.kinds and rounds >= ROUNDS
              for group, codes in TO_SEE[letter].items() for code in codes if (group, code) not in calls[letter][2]]
    if rounds >= ROUNDS and set(KINDS) <= set(arguments.kinds):
        unseen += ["tables_%s %d" % (call, code) for call, codes in TO_SEE_ON_TABLES.items() for code in codes
                   if (call, code) not in both.on_tables]
    if unseen:
        print("check: these were never seen: %s" % ", ".join(unseen))
        sys.exit(1)
    print("check: %d calls compared, 0 differ" % sum(compared for cases, compared, codes in calls.values()))


def print_difference(both, arguments, letter, number, difference):
    print("DIFFERENCE in case %s:%d (%s) of seed %d" % (letter, number, KINDS[letter][0], arguments.seed))
    print("again with: check.py --seed %d --case %s:%d %s" % (arguments.seed, letter, number, " ".join(arguments.driver)))
    if both.lent_at_start is not None:
        print("lent at first:")
        print(lent_text(both.lent_at_start))
    if both.words_at_start:
        if both.lent_at_start is None:
            print("lent at first:")
        for name, words in both.words_at_start.items():
            print("  %-6s (%d) %s" % (name, len(words), some_runs(words)))
    if both.lent_as_bytes is not None:
        print("lent as bytes: first %d bytes %s" % (len(both.lent_as_bytes[0]), both.lent_as_bytes[0].hex()))
        print("               long  %d bytes %s" % (len(both.lent_as_bytes[1]), both.lent_as_bytes[1].hex()))
    if both.log:
        print("calls since:")
        for line in both.log:
            print("  " + line)
    print("the call that differs:")
    print("  " + both.call)
    print("  " + str(difference))
    print("check: differs")


if __name__ == "__main__":
    main()
