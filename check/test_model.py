"""The model against the paper's own figures: python3 check/test_model.py [--whole]

No library is needed. Every figure below is copied from the paper or worked out by hand from its sentences.
"""

import sys
from fractions import Fraction

import model
from model import Lent, NO_TRAFFIC

failures = 0
tests = 0


def same(what, got, wanted):
    global failures, tests
    tests += 1
    if got != wanted:
        failures += 1
        print("WRONG  %s\n  got    %r\n  wanted %r" % (what, got, wanted))


def ip(text):
    a, b, c, d = text.split(".")
    return int(a) * 2 ** 24 + int(b) * 2 ** 16 + int(c) * 2 ** 8 + int(d)


def zeros(base_length, segments, rules):
    """Cleared memory."""
    return Lent([0] * 2 ** (24 - base_length), [0] * (256 * segments), [0] * segments, [0] * rules)


def answer_to(lent, base, base_length, address):
    return model.look_up(lent.first, lent.long, base, base_length, address)


# ---------------------------------------------------------------------------------------------------------------------
# The eight lookups
# ---------------------------------------------------------------------------------------------------------------------

def eight_lookups():
    live = [(ip("224.0.0.0"), 3, 1), (ip("128.0.0.0"), 2, 2), (ip("160.0.0.0"), 4, 3), (ip("168.0.0.0"), 5, 4)]
    wanted = [("168.0.0.1", 4), ("175.255.255.255", 4), ("167.255.255.255", 3), ("176.0.0.0", 2), ("224.0.0.0", 1),
              ("192.0.0.0", None), ("223.255.255.255", None), ("0.0.0.0", None)]
    lengths = {1: 3, 2: 2, 3: 4, 4: 5}       # of the prefix that each hop has
    for text, hop in wanted:
        found = model.longest_match(live, ip(text))
        same("longest match of " + text, found and found[1:], hop and (lengths[hop], hop))
    # the same through the tables, at T = 0 with all 16,777,216 cells: half a minute, so only on demand
    if "--whole" not in sys.argv:
        return
    lent = zeros(0, 0, 8)
    for (address, length, hop), blocks in zip(live, [2 ** 21, 2 ** 22, 2 ** 20, 2 ** 19]):
        same("announce /%d" % length, model.announce(lent, 0, 0, address, length, hop), (0, blocks))
    for text, hop in wanted:
        same("look up " + text, answer_to(lent, 0, 0, ip(text)), (0, lengths[hop], hop) if hop else (8, 0, 0))


# ---------------------------------------------------------------------------------------------------------------------
# The small program
# ---------------------------------------------------------------------------------------------------------------------

PRINTED = """serial code cells
0 0 4096
1 0 1
2 0 257
3 0 128
4 0 128
5 0 257
6 5 0
7 3 0
end 0 live 1 open 0
"""

RECORDS = [(1, 0, "10.16.0.0", 12, 5), (1, 1, "10.16.3.0", 24, 7), (1, 2, "10.16.3.128", 25, 9),
           (1, 3, "10.16.3.0", 24, 8), (2, 4, "10.16.3.0", 24, 0), (2, 5, "10.16.3.128", 25, 0),
           (2, 6, "10.16.3.128", 25, 0), (1, 7, "10.32.0.0", 16, 5)]


def small_program():
    base, base_length = ip("10.16.0.0"), 12
    lent = zeros(base_length, 16, 64)
    lent.first[3] = 77                       # clear must take this away
    same("clear", model.clear(lent, base, base_length), 0)
    same("clear leaves 0 everywhere", lent.same_as(zeros(base_length, 16, 64)), True)
    out = "serial code cells\n"
    expected = 0
    for kind, serial, address, length, hop in RECORDS:
        code, record = model.write_record(bytes(15), (kind, serial, ip(address), length, hop))
        same("write a record", code, 0)
        code, update = model.read_record(record, expected)
        same("read it back", (code, update), (0, (kind, serial, ip(address), length, hop)))
        expected = model.next_serial(expected)
        kind, serial, address, length, hop = update
        before = model.live_list(lent.rules)
        if kind == 1:
            code, cells = model.announce(lent, base, base_length, address, length, hop)
        elif kind == 2:
            code, cells = model.withdraw(lent, base, base_length, address, length)
        else:
            code, cells = model.re_home(lent, base, base_length, address, length, hop)
        after = model.live_list(lent.rules)
        out += "%d %d %d\n" % (serial, code, cells)
        same("price of serial %d" % serial, model.price(before, after, base, base_length), cells)
        same("bound of serial %d" % serial, cells <= model.bound(before, base, base_length, address, length), True)
    live = model.live_list(lent.rules)
    out += "end 0 live %d open %d\n" % (len(live), len([owner for owner in lent.owners if owner != 0]))
    same("the small program prints", out, PRINTED)
    # the prices of serials 0 to 5 from the live lists alone, no table looked at
    twelve = (base, 12, 5)
    b3 = ip("10.16.3.0")
    lists = [[], [twelve], [twelve, (b3, 24, 7)], [twelve, (b3, 24, 7), (b3 + 128, 25, 9)],
             [twelve, (b3, 24, 8), (b3 + 128, 25, 9)], [twelve, (b3 + 128, 25, 9)], [twelve]]
    same("the six prices", [model.price(lists[i], lists[i + 1], base, base_length) for i in range(6)],
         [4096, 1, 257, 128, 128, 257])


# ---------------------------------------------------------------------------------------------------------------------
# Edges, and the errors that come easily
# ---------------------------------------------------------------------------------------------------------------------

def edges():
    b = ip("255.255.255.0")
    lent = zeros(24, 0, 4)
    same("T = 24, one block", model.announce(lent, b, 24, b, 24, 32767), (0, 1))
    same("S = 0, a /25", model.announce(lent, b, 24, b, 25, 1), (7, 0))
    lent = zeros(24, 4, 0)
    same("R = 0, a /25", model.announce(lent, b, 24, b, 25, 1), (6, 0))
    same("R = 0, S = 0: 6 before 7", model.announce(zeros(24, 0, 0), b, 24, b, 25, 1), (6, 0))
    lent = zeros(24, 0, 1)
    model.announce(lent, b, 24, b, 24, 1)
    same("full list and no segment: 6", model.announce(lent, b, 24, b, 25, 1), (6, 0))
    same("full list takes a re-announce", model.announce(lent, b, 24, b, 24, 2), (0, 1))
    same("same hop costs 0", model.announce(lent, b, 24, b, 24, 2), (0, 0))
    same("withdraw what is not live", model.withdraw(lent, b, 24, b + 4, 30), (5, 0))
    same("re-home what is not live", model.re_home(lent, b, 24, b + 4, 30, 1), (5, 0))
    same("T 25", model.announce(lent, b, 25, b, 33, 0), (1, 0))
    same("length 33", model.announce(lent, b, 24, 0, 33, 1), (2, 0))
    same("hop 0", model.announce(lent, b, 24, 0, 32, 0), (2, 0))
    same("hop 32768", model.re_home(lent, b, 24, 0, 32, 32768), (2, 0))
    same("bits after the length", model.withdraw(lent, b, 24, b + 1, 31), (2, 0))
    same("shorter than T", model.withdraw(lent, b, 24, ip("255.255.254.0"), 23), (3, 0))
    same("outside", model.withdraw(lent, b, 24, b - 1, 32), (3, 0))
    lent.rules = [0]
    lent.first = [5]
    same("a first cell with hop 0", model.announce(lent, b, 24, b, 24, 1), (4, 0))
    same("and its look up", model.look_up(lent.first, lent.long, b, 24, b), (4, 0, 0))
    same("3 before 4", model.look_up(lent.first, lent.long, b, 24, b - 1), (3, 0, 0))
    same("1 before 3", model.look_up(lent.first + [0], lent.long, b, 24, b - 1), (1, 0, 0))
    same("bytes, no multiple of 4", model.look_up_bytes(bytes(5), b"", b, 24, b), 2 ** 22)
    same("bytes, no route", model.look_up_bytes(bytes(4), b"", b, 24, b), 8 * 2 ** 22)
    same("bytes, lowest first", model.look_up_bytes(bytes([0x58, 0x01, 0, 0]), b"", b, 24, b), 24 * 2 ** 16 + 5)


def easy_errors():
    base, t = ip("10.0.0.0"), 8
    lent = zeros(t, 2, 8)
    same("a /16", model.announce(lent, base, t, ip("10.1.0.0"), 16, 6), (0, 256))
    same("a new /8 leaves the /16 inside", model.announce(lent, base, t, base, 8, 8), (0, 65536 - 256))
    same("a /26 opens", model.announce(lent, base, t, ip("10.1.2.64"), 26, 26), (0, 257))
    same("it opens with the block's former cell", answer_to(lent, base, t, ip("10.1.2.63")), (0, 16, 6))
    same("and answers itself", answer_to(lent, base, t, ip("10.1.2.64")), (0, 26, 26))
    same("the /16 re-homed", model.re_home(lent, base, t, ip("10.1.0.0"), 16, 7), (0, 255 + 192))
    same("also in the open segment", answer_to(lent, base, t, ip("10.1.2.128")), (0, 16, 7))
    same("the /16 withdrawn", model.withdraw(lent, base, t, ip("10.1.0.0"), 16), (0, 255 + 192))
    same("shows the /8 again", answer_to(lent, base, t, ip("10.1.9.9")), (0, 8, 8))
    same("in the segment too", answer_to(lent, base, t, ip("10.1.2.128")), (0, 8, 8))
    # the /0 route is not "no route": no territory but T = 0 takes a /0, so the cells are set by hand
    cells = [model.direct(9, 0)] + [0] * 255
    same("a /0 route", model.look_up(cells, [], ip("1.2.0.0"), 16, ip("1.2.0.1")), (0, 0, 9))
    same("no route", model.look_up(cells, [], ip("1.2.0.0"), 16, ip("1.2.1.0")), (8, 0, 0))


# ---------------------------------------------------------------------------------------------------------------------
# Memory that no history wrote and that is not damaged
# ---------------------------------------------------------------------------------------------------------------------

def disagreeing():
    b = ip("10.0.0.0")
    r = model.rule_word

    # a cell of length L whose address has a longer live prefix takes that longer one at the withdraw
    lent = Lent([model.direct(5, 22)] * 4, [], [], [r(b, 22, 5), r(b, 23, 6), 0])
    same("withdraw the /22", model.withdraw(lent, b, 22, b, 22), (0, 4))
    same("the /23 comes up", lent.first, [model.direct(6, 23)] * 2 + [0] * 2)
    same("the rule words", lent.rules, [r(b, 23, 6), 0, 0])

    # a cell of another hop and the same length goes too, one of another length stays
    lent = Lent([model.direct(9, 22), model.direct(9, 21), 0, model.direct(9, 24)], [], [], [r(b, 22, 5)])
    same("withdraw over strange cells", model.withdraw(lent, b, 22, b, 22), (0, 1))
    same("only length 22 went", lent.first, [0, model.direct(9, 21), 0, model.direct(9, 24)])

    # announce paints 0 and lengths up to its own
    lent = Lent([model.direct(9, 22), model.direct(9, 23), 0, model.direct(5, 22)], [], [], [0])
    same("announce over strange cells", model.announce(lent, b, 22, b, 22, 5), (0, 2))
    same("painted", lent.first, [model.direct(5, 22), model.direct(9, 23), model.direct(5, 22), model.direct(5, 22)])

    # the lowest of two free segments is opened, whatever garbage is in it; the count is the cells that differ
    lent = Lent([model.direct(3, 24)], [1] * 256 + [2] * 100 + [model.direct(3, 24)] * 156 + [3] * 256,
                [9, 0, 0], [r(b, 24, 3), 0])
    same("open over garbage", model.announce(lent, b, 24, b + 255, 32, 4), (0, 1 + 100 + 1))
    same("owner words", lent.owners, [9, 1, 0])
    same("pointer", lent.first, [2 ** 31 + 1])
    same("segment 0 is left", lent.long[:256], [1] * 256)
    same("segment 1", lent.long[256:512], [model.direct(3, 24)] * 255 + [model.direct(4, 32)])
    same("segment 2 is left", lent.long[512:], [3] * 256)
    same("close", model.withdraw(lent, b, 24, b + 255, 32), (0, 257))
    same("the first cell is the longest over the block", lent.first, [model.direct(3, 24)])
    same("the segment is 0", lent.long[256:512], [0] * 256)
    same("and free", lent.owners, [9, 0, 0])

    # a cell 0 is "no route" and has no length: a withdrawn /0 leaves it, though a longer live prefix holds it.
    # Only T = 0 has a /0, so this is one call on the tables' rule alone.
    lent = Lent([0, model.direct(7, 0), model.direct(7, 1)], [], [], [r(0, 1, 6)])
    model.unpaint(lent, 0, 0, 0)
    same("withdraw a /0", lent.first, [0, model.direct(6, 1), model.direct(7, 1)])

    # damage is looked for in touched blocks only
    lent = Lent([0, 5], [], [], [0])
    same("damage elsewhere", model.announce(lent, b, 23, b, 24, 1), (0, 1))
    same("damage here", model.announce(lent, b, 23, b, 23, 1), (4, 0))
    lent = Lent([2 ** 31, 0], [0] * 256, [1], [r(b, 25, 1)])
    same("a right pointer", model.re_home(lent, b, 23, b, 25, 2), (0, 128))
    lent.owners = [2]
    same("a wrong owner", model.re_home(lent, b, 23, b, 25, 2), (4, 0))
    lent.owners = [1]
    lent.long[255] = 33 + 64
    same("a wrong cell outside the prefix", model.re_home(lent, b, 23, b, 25, 2), (4, 0))
    lent.long[255] = 32 + 64
    same("a right one", model.re_home(lent, b, 23, b, 25, 2), (0, 0))
    lent.rules = [r(b, 24, 2)]
    same("a pointer and no long prefix", model.re_home(lent, b, 23, b, 24, 2), (4, 0))
    lent.rules = [r(b + 256, 25, 2)]
    same("a long prefix and no pointer", model.re_home(lent, b, 23, b + 256, 25, 2), (4, 0))
    for name, words in [("order", [r(b, 24, 1), r(b, 23, 1)]), ("twice", [r(b, 24, 1), r(b, 24, 2)]),
                        ("gap", [0, r(b, 24, 1)]), ("hop 0", [r(b, 24, 0), 0]), ("hop 32768", [r(b, 24, 32768), 0]),
                        ("length 33", [r(b, 33, 1), 0]), ("bits", [r(b + 1, 24, 1), 0]),
                        ("outside", [r(b + 512, 24, 1), 0]), ("shorter than T", [r(b, 22, 1), 0])]:
        lent = Lent([0, 0], [], [], words)
        same("rule words: " + name, model.announce(lent, b, 23, b, 24, 1), (4, 0))


# ---------------------------------------------------------------------------------------------------------------------
# Records
# ---------------------------------------------------------------------------------------------------------------------

def records():
    good = bytes([0, 13, 1, 1, 0, 0, 0, 7, 10, 16, 0, 0, 12, 0, 5])
    same("read", model.read_record(good, 7), (0, (1, 7, ip("10.16.0.0"), 12, 5)))
    same("more bytes are not looked at", model.read_record(good + b"more", 7), (0, (1, 7, ip("10.16.0.0"), 12, 5)))
    for length in range(15):
        same("cut at %d" % length, model.read_record(good[:length], 7), (20, model.NO_UPDATE))
    same("21 before 20", model.read_record(bytes([0, 14]), 7), (21, model.NO_UPDATE))
    wrong = bytes([0, 13, 2, 4, 0, 0, 0, 8, 0, 0, 0, 0, 0, 0, 1])
    same("22 first", model.read_record(wrong, 7), (22, model.NO_UPDATE))
    same("then 23", model.read_record(wrong[:2] + b"\1" + wrong[3:], 7), (23, model.NO_UPDATE))
    same("then 24", model.read_record(wrong[:2] + b"\1\2" + wrong[4:], 7), (24, model.NO_UPDATE))
    same("then 25", model.read_record(wrong[:2] + b"\1\2" + wrong[4:], 8), (25, model.NO_UPDATE))
    same("write", model.write_record(b"x" * 17, (1, 7, ip("10.16.0.0"), 12, 5)), (0, good + b"xx"))
    same("26", model.write_record(b"x" * 14, (9, 7, 0, 12, 5)), (26, b"x" * 14))
    same("23", model.write_record(b"x" * 15, (0, 7, 0, 12, 5)), (23, b"x" * 15))
    same("25", model.write_record(b"x" * 15, (2, 7, 0, 12, 5)), (25, b"x" * 15))
    same("the serial after 4294967295", model.next_serial(4294967295), 0)


# ---------------------------------------------------------------------------------------------------------------------
# The cost sheet
# ---------------------------------------------------------------------------------------------------------------------

MOST = 2 ** 53


def words(**given):
    """32,768 words, 0 but for those given: words(h7=5)."""
    made = [0] * 32768
    for name, word in given.items():
        made[int(name[1:])] = word
    return made


def bookings():
    b = ip("10.0.0.0")
    # 10.0.0.0/24 goes to hop 5, 10.0.1.0 to hop 32767 and the rest of 10.0.1.0/24 nowhere; 10.0.2.0/24 is damaged, and
    # 10.0.3.0/24 points to a segment that is not lent
    first = [model.direct(5, 24), 2 ** 31, 63, 2 ** 31 + 1]
    long = [model.direct(32767, 32)] + [0] * 255
    octets = [9] * 32768
    same("clear the octets", (model.clear_octets(octets), octets), (0, words()))
    for size in (0, 1, 32767, 32769):
        octets = [9] * size
        same("clear %d words" % size, (model.clear_octets(octets), octets), (1, [9] * size))

    octets = words()
    def book(text, amount):
        return model.book(first, long, octets, b, 22, ip(text), amount)
    same("to a hop", (book("10.0.0.77", 1000), octets), (0, words(h5=1000)))
    same("no route", (book("10.0.1.255", 7), octets), (0, words(h5=1000, h0=7)))
    same("to the last hop", (book("10.0.1.0", 1), octets), (0, words(h5=1000, h0=7, h32767=1)))
    same("once more", (book("10.0.0.255", 24), octets), (0, words(h5=1024, h0=7, h32767=1)))
    same("nothing", (book("10.0.0.0", 0), octets), (0, words(h5=1024, h0=7, h32767=1)))
    same("outside", (book("10.0.4.0", 5), octets), (3, words(h5=1024, h0=7, h32767=1)))
    same("just before", book("9.255.255.255", 5), 3)
    same("damaged", (book("10.0.2.0", 5), octets), (4, words(h5=1024, h0=7, h32767=1)))
    same("not lent", book("10.0.3.0", 5), 4)
    same("one too much", (book("10.0.0.0", MOST - 1023), octets), (30, words(h5=1024, h0=7, h32767=1)))
    same("just enough", (book("10.0.0.0", MOST - 1024), octets), (0, words(h5=MOST, h0=7, h32767=1)))
    same("full, and nothing more", book("10.0.0.0", 0), 0)
    same("full, and one more", book("10.0.0.0", 1), 30)
    same("no wrapping", book("10.0.0.0", 2 ** 64 - 1), 30)
    same("no wrapping to 0", book("10.0.1.0", 2 ** 64 - 1), 30)
    same("no route, one too much", book("10.0.1.1", MOST - 6), 30)
    same("no route, just enough", (book("10.0.1.1", MOST - 7), octets), (0, words(h5=MOST, h0=MOST, h32767=1)))
    octets = words(h5=MOST + 1, h0=2 ** 64 - 1, h6=MOST + 1)
    same("passed already", book("10.0.0.0", 0), 30)
    same("passed already, no route", book("10.0.1.1", 0), 30)
    same("other words are not looked at", book("10.0.1.0", MOST), 0)
    same("nothing else changed", octets, words(h5=MOST + 1, h0=2 ** 64 - 1, h6=MOST + 1, h32767=MOST))
    # the order: 1, 3, 4, 30
    same("3 before 30", book("10.0.4.0", 2 ** 64 - 1), 3)
    same("4 before 30", book("10.0.2.0", 2 ** 64 - 1), 4)
    for size in (0, 1, 32767, 32769):
        octets = [MOST] * size
        same("%d words, outside and too much" % size, book("10.0.4.0", 2 ** 64 - 1), 1)
        same("%d words, damaged" % size, book("10.0.2.0", 0), 1)
        same("%d words, nothing else wrong" % size, (book("10.0.0.0", 0), octets), (1, [MOST] * size))
    octets = words()
    same("a table too short", model.book(first[:3], long, octets, b, 22, ip("10.0.4.0"), MOST + 1), 1)
    same("a segment cut", model.book(first, long[:255], octets, b, 22, b, 1), 1)
    same("a wrong territory", model.book(first, long, octets, b + 256, 22, b, 1), 1)
    same("nothing was written", octets, words())

    # many: the third and fourth record bring hop 5 above 2^53, the last does not
    addresses = [ip(text) for text in ("10.0.0.0", "10.0.4.0", "10.0.0.1", "10.0.0.2", "10.0.1.9", "10.0.2.0",
                                       "10.0.0.3")]
    amounts = [MOST - 10, 1, 11, 2 ** 64 - 1, 3, 1, 10]
    codes = [77] * 7
    same("many", (model.book_all(first, long, octets, b, 22, addresses, amounts, codes), codes, octets),
         (0, [0, 3, 30, 30, 0, 4, 0], words(h5=MOST, h0=3)))
    for a, m, c in ((6, 7, 7), (7, 6, 7), (7, 7, 6), (6, 6, 7), (7, 7, 8), (0, 7, 7), (7, 7, 0), (0, 0, 1), (0, 1, 0)):
        octets, codes = words(h5=1), [77] * c
        made = model.book_all(first, long, octets, b, 22, addresses[:a], amounts[:m], codes)
        same("many, counts %d %d %d" % (a, m, c), (made, codes, octets), (1, [77] * c, words(h5=1)))
    same("none", model.book_all(first, long, octets, b, 22, [], [], []), 0)
    same("none, into too few words", model.book_all(first, long, octets[1:], b, 22, [], [], []), 1)
    codes = [77]
    same("many, a wrong territory", (model.book_all(first, long, octets, b, 25, [b], [1], codes), codes), (1, [77]))


def lines():
    def line(octets, cents):
        return model.cost_line(words(h3=octets), words(h3=cents), 3)
    for octets, cents, wanted in [(4, 1, 0.25), (1, 4, 4.0), (7, 0, 0.0), (0, 0, NO_TRAFFIC), (0, 5, NO_TRAFFIC),
                                  (1, MOST, 2.0 ** 53), (MOST, 1, 2.0 ** -53), (MOST, MOST, 1.0), (0, MOST, NO_TRAFFIC),
                                  (MOST, 0, 0.0), (10, 1, 0.1), (3, 1, 6004799503160661 / 2 ** 54),
                                  (MOST - 1, MOST, 1 + 2.0 ** -52), (MOST, MOST - 1, 1 - 2.0 ** -53)]:
        same("the line %d / %d" % (cents, octets), line(octets, cents), (0, wanted))
    same("not the same fractions", Fraction(MOST - 1, MOST) == Fraction(MOST - 2, MOST - 1), False)
    same("but the same double", line(MOST, MOST - 1), line(MOST - 1, MOST - 2))
    # the division: no double lies nearer to the fraction, seen without any rounding. From 2^e to 2^(e+1) the doubles
    # are the multiples of 2^(e-52), so one of them that is at most half of that away is the nearest
    some_octets = (1, 2, 3, 5, 6, 7, 10, 49, 1000, 1001, 2 ** 24 + 1, 2 ** 32 - 1, 10 ** 12 + 39, 2 ** 52 + 1,
                   MOST - 1, MOST)
    some_cents = (1, 2, 3, 5, 9, 11, 97, 999, 2 ** 24 + 3, 2 ** 32 + 1, 10 ** 9 + 7, 2 ** 52 - 1, MOST - 3,
                  MOST - 1, MOST)
    for octets in some_octets:
        for cents in some_cents:
            fraction, rate = Fraction(cents, octets), Fraction(model.rate_of(octets, cents))
            step = Fraction(1, 2 ** 120)                 # far too small, and doubled until it is 2^(e-52)
            while 2 ** 53 * step <= fraction:
                step *= 2
            same("%d / %d is a double" % (cents, octets), rate % step, 0)
            same("%d / %d is the nearest" % (cents, octets), abs(rate - fraction) <= step / 2, True)
            same("%d / %d keeps its bounds" % (cents, octets), 0 < rate <= MOST, True)
    # refusals, in their order
    octets, cents = words(h1=MOST + 1, h2=MOST + 1, h4=MOST), words(h1=MOST + 1, h3=2 ** 64 - 1, h4=MOST)
    for hop, wanted in [(0, 2), (32768, 2), (2 ** 32 - 1, 2), (65537, 2), (1, 30), (2, 30), (3, 31)]:
        same("the line of hop %d" % hop, model.cost_line(octets, cents, hop), (wanted, None))
    same("the edges pass", model.cost_line(octets, cents, 4), (0, 1.0))
    same("the words of other hops are not looked at", model.cost_line(octets, cents, 5), (0, NO_TRAFFIC))
    same("the last hop", model.cost_line(words(h32767=2), words(h32767=1), 32767), (0, 0.5))
    for size in (0, 1, 32767, 32769):
        same("%d words of octets" % size, model.cost_line([2 ** 64 - 1] * size, cents, 0), (1, None))
        same("%d words of cents" % size, model.cost_line(octets, [2 ** 64 - 1] * size, 1), (1, None))


def sheets():
    def sheet(octets, cents):
        hops = [77] * 32767
        return model.cost_sheet(octets, cents, hops), hops
    def rest(*hops):
        """These first, then all others in order."""
        return 0, list(hops) + [hop for hop in range(1, 32768) if hop not in hops]
    same("nothing at all", sheet(words(), words()), rest())
    same("all lines equal", sheet([3] * 32768, [2] * 32768), rest())
    same("word 0 is no line", sheet(words(h0=5), words(h0=2 ** 64 - 1)), rest())
    # hop 9: 100 cents and no traffic; hops 2 and 40: 7 cents and none; hop 32767: 2^53 an octet; hop 5: 1/2; hops 4 and
    # 6: 1/3, and 2/6; hop 3: 0 cents for 8 octets; all others have neither, and hop 1 is the first of them
    octets = words(h32767=1, h5=2, h4=3, h6=6, h3=8)
    cents = words(h9=100, h2=7, h40=7, h32767=MOST, h5=1, h4=1, h6=2)
    same("the three kinds", sheet(octets, cents), rest(9, 2, 40, 32767, 5, 4, 6, 3))
    # rates that are not the same fraction but the same double tie, and go to the lower hop
    same("the same double", sheet(words(h7=MOST - 1, h8=MOST), words(h7=MOST - 2, h8=MOST - 1)), rest(7, 8))
    same("though it is the smaller fraction", Fraction(MOST - 2, MOST - 1) < Fraction(MOST - 1, MOST), True)
    same("another double", sheet(words(h7=MOST, h8=MOST - 1), words(h7=MOST - 1, h8=MOST - 1)), rest(8, 7))
    same("1 cent for nothing before 2^53 for one", sheet(words(h1=1), words(h1=MOST, h2=1)), rest(2, 1))
    same("0 cents for traffic before neither", sheet(words(h9=1), words()), rest(9))
    same("dearer and dearer", sheet([1] * 32768, list(range(32768))), (0, list(range(32767, 0, -1))))
    same("cheaper and cheaper", sheet([0] * 32768, list(range(32768, 0, -1))), rest())
    # refusals, in their order: what was lent stays
    left = [77] * 32767
    for hop in (0, 1, 32767):
        name = "h%d" % hop
        same("octets, word %d" % hop, sheet(words(**{name: MOST + 1}), words(h5=MOST + 1)), (30, left))
        same("octets, word %d just not" % hop, sheet(words(**{name: MOST}), words())[0], 0)
        same("cents, word %d" % hop, sheet(words(), words(**{name: MOST + 1}))[0], 31 if hop else 0)
        same("cents, word %d just not" % hop, sheet(words(), words(**{name: MOST}))[0], 0)
    for size in (0, 1, 32767, 32769):
        same("%d words of octets" % size, sheet([MOST + 1] * size, words()), (1, left))
        same("%d words of cents" % size, sheet(words(h0=MOST + 1), [MOST + 1] * size), (1, left))
    for size in (0, 1, 32766, 32768):
        hops = [77] * size
        same("room for %d" % size, (model.cost_sheet(words(h1=MOST + 1), words(), hops), hops), (1, [77] * size))


eight_lookups()
small_program()
edges()
easy_errors()
disagreeing()
records()
bookings()
lines()
sheets()
print("test_model: %d figures, %d wrong" % (tests, failures))
raise SystemExit(1 if failures else 0)
