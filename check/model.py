"""A naive model of Rakmolthi, written from the scope paper alone.

Nothing here is clever. The lent memory is four plain lists of numbers, every question is answered by looking at
everything, and the text follows the paper from top to bottom, so that the two can be read side by side. The words in
quotation marks are the paper's own.

    Lent.first    the first table, one number for each block
    Lent.long     the long table, 256 numbers for each segment
    Lent.owners   the owner words, one for each segment
    Lent.rules    the rule words

A live list is a list of (address, length, hop).

The cost sheet came later, in a request of its own; its part says so.
"""


# ---------------------------------------------------------------------------------------------------------------------
# Territory and lent memory
# ---------------------------------------------------------------------------------------------------------------------

class Lent:
    """The memory that the caller lends."""

    def __init__(self, first, long, owners, rules):
        self.first = list(first)
        self.long = list(long)
        self.owners = list(owners)
        self.rules = list(rules)

    def copy(self):
        return Lent(self.first, self.long, self.owners, self.rules)

    def same_as(self, other):
        return (self.first == other.first and self.long == other.long
                and self.owners == other.owners and self.rules == other.rules)


def size_of_prefix(length):
    """How many addresses a prefix of this length holds: a /24 holds 256, a /32 holds 1, a /0 holds all."""
    return 2 ** (32 - length)


def bits_after(address, length):
    """The bits of the address after the first `length`, as a number."""
    return address % size_of_prefix(length)


def in_prefix(address, prefix_address, prefix_length):
    """Does the prefix hold this one address?"""
    return prefix_address <= address < prefix_address + size_of_prefix(prefix_length)


def covers(prefix_address, prefix_length, first_address, last_address):
    """Does the prefix hold every address from the first to the last?"""
    return (in_prefix(first_address, prefix_address, prefix_length)
            and in_prefix(last_address, prefix_address, prefix_length))


def block_start(base, block):
    """The first of the 256 addresses of a block. "Blocks are numbered from 0 within the territory"."""
    return base + 256 * block


def block_end(base, block):
    """The last of the 256 addresses of a block."""
    return base + 256 * block + 255


# ---------------------------------------------------------------------------------------------------------------------
# Cell contents and rule words
# ---------------------------------------------------------------------------------------------------------------------

def direct(hop, length):
    """"A direct cell is hop x 64 + length"."""
    return hop * 64 + length


def cell_hop(cell):
    return cell // 64


def cell_length(cell):
    return cell % 64


def is_direct(cell, longest):
    """"hop 1 to 32,767, length 0 to 24 in the first table and 0 to 32 in the long table": longest is 24 or 32."""
    return 1 <= cell_hop(cell) <= 32767 and 0 <= cell_length(cell) <= longest


def is_pointer(cell):
    """"A pointer is 2^31 + segment number, any word from 2^31 up." Asked only of the first table."""
    return cell >= 2 ** 31


def segment_of(pointer):
    return pointer - 2 ** 31


def rule_word(address, length, hop):
    """"A rule word is address x 2^32 + length x 2^16 + hop"."""
    return address * 2 ** 32 + length * 2 ** 16 + hop


def rule_parts(word):
    """The (address, length, hop) of a rule word: the upper 32 bits, the next 16, the last 16."""
    return word // 2 ** 32, word // 2 ** 16 % 2 ** 16, word % 2 ** 16


def live_list(rules):
    """"Live rules come first": the live list that undamaged rule words say."""
    live = []
    for word in rules:
        if word == 0:
            break
        live.append(rule_parts(word))
    return live


# ---------------------------------------------------------------------------------------------------------------------
# Longest match, by looking at every live prefix
# ---------------------------------------------------------------------------------------------------------------------

def longest_match(live, address):
    """The longest live prefix that holds the address, or None."""
    return longest_over(live, address, address)


def longest_over(live, first_address, last_address):
    """The longest live prefix that holds every address from the first to the last, or None."""
    best = None
    for prefix in live:
        address, length, hop = prefix
        if covers(address, length, first_address, last_address):
            if best is None or length > best[1]:
                best = prefix
    return best


def cell_for(prefix):
    """The direct cell of a prefix, or 0, "no route", for None."""
    if prefix is None:
        return 0
    address, length, hop = prefix
    return direct(hop, length)


def live_and_touching(live, base, block):
    """The live prefixes that share at least one address with the block."""
    return [(address, length, hop) for (address, length, hop) in live
            if address <= block_end(base, block)
            and address + size_of_prefix(length) - 1 >= block_start(base, block)]


def is_open(live, base, block):
    """"A block is open if a live prefix longer than 24 lies in it"."""
    for (address, length, hop) in live:
        if length > 24 and block_start(base, block) <= address <= block_end(base, block):
            return True
    return False


# ---------------------------------------------------------------------------------------------------------------------
# Refusals 1, 2, 3 and 4
# ---------------------------------------------------------------------------------------------------------------------

def wrong_territory(base, base_length):
    """"T above 24, B has bits after T"."""
    return base_length > 24 or bits_after(base, base_length) != 0


def wrong_sizes_of_tables(first, long, base_length):
    """What look up can test: the first table has 2^(24-T) cells, "the long table is a multiple of 256, at most 32,768
    segments"."""
    return (len(first) != 2 ** (24 - base_length)
            or len(long) % 256 != 0
            or len(long) // 256 > 32768)


def wrong_sizes(lent, base_length):
    """What clear and the updates test: 2^(24-T) cells, 256 S cells, S owner words with S up to 32,768, and up to
    65,536 rule words."""
    return (len(lent.first) != 2 ** (24 - base_length)
            or len(lent.long) != 256 * len(lent.owners)
            or len(lent.owners) > 32768
            or len(lent.rules) > 65536)


def wrong_prefix(address, length):
    """Number 2 without the hop: "length above 32, address bits set after the length"."""
    return length > 32 or bits_after(address, length) != 0


def wrong_hop(hop):
    """The hop of number 2: "hop outside 1 to 32,767"."""
    return not 1 <= hop <= 32767


def prefix_outside(base, base_length, address, length):
    """Number 3 for a prefix: "prefix shorter than T or not inside it"."""
    return length < base_length or not in_prefix(address, base, base_length)


def rules_damaged(rules, base, base_length):
    """"the rule words break their order or form, or one lies outside the territory"."""
    a_zero_was_seen = False
    previous = None
    for word in rules:
        if word == 0:
            a_zero_was_seen = True
            continue
        if a_zero_was_seen:
            return True                      # "all words after them are 0"
        address, length, hop = rule_parts(word)
        if wrong_prefix(address, length) or wrong_hop(hop):
            return True                      # "of a prefix and hop that number 2 below lets pass"
        if prefix_outside(base, base_length, address, length):
            return True                      # "or one lies outside the territory"
        if previous is not None and not previous < (address, length):
            return True                      # "in ascending order of (address, length), each prefix at most once"
        previous = (address, length)
    return False


def touched_blocks(lent, base, address, length):
    """The blocks that share at least one address with the prefix."""
    prefix_start = address
    prefix_end = address + size_of_prefix(length) - 1
    return [block for block in range(len(lent.first))
            if prefix_start <= block_end(base, block) and block_start(base, block) <= prefix_end]


def block_damaged(lent, base, block, live):
    """The second half of the damage of an update, for one block."""
    cell = lent.first[block]
    if is_pointer(cell):
        segment = segment_of(cell)
        if segment >= len(lent.owners):
            return True                      # "a pointer's segment is not lent"
        if lent.owners[segment] != block + 1:
            return True                      # "or its owner word is not that block's number + 1"
        for place in range(256 * segment, 256 * segment + 256):
            if lent.long[place] != 0 and not is_direct(lent.long[place], 32):
                return True                  # "or its segment has a cell neither 0 nor direct"
        return not is_open(live, base, block)    # "a pointer and no live prefix longer than 24 lies in the block"
    if cell != 0 and not is_direct(cell, 24):
        return True                          # "the first cell is not 0, direct or a pointer"
    return is_open(live, base, block)        # "or the reverse"


def damaged(lent, base, base_length, address, length):
    """Number 4 for an update of this prefix."""
    if rules_damaged(lent.rules, base, base_length):
        return True
    live = live_list(lent.rules)
    for block in touched_blocks(lent, base, address, length):
        if block_damaged(lent, base, block, live):
            return True
    return False


# ---------------------------------------------------------------------------------------------------------------------
# The public calls: clear and look up
# ---------------------------------------------------------------------------------------------------------------------

def clear(lent, base, base_length):
    """The refusal number, or 0. "Clear sets all lent memory to 0"."""
    if wrong_territory(base, base_length) or wrong_sizes(lent, base_length):
        return 1
    lent.first = [0] * len(lent.first)
    lent.long = [0] * len(lent.long)
    lent.owners = [0] * len(lent.owners)
    lent.rules = [0] * len(lent.rules)
    return 0


def look_up(first, long, base, base_length, address):
    """(refusal number, length, hop). Request [1]: "Look up shall answer the matched prefix length too", and "With any
    refusal the length is 0"."""
    if wrong_territory(base, base_length) or wrong_sizes_of_tables(first, long, base_length):
        return 1, 0, 0
    if not in_prefix(address, base, base_length):
        return 3, 0, 0
    block = (address - base) // 256
    cell = first[block]
    longest = 24
    if is_pointer(cell):
        segment = segment_of(cell)
        if segment >= len(long) // 256:
            return 4, 0, 0                   # "a pointer to a segment that isn't lent"
        cell = long[256 * segment + address % 256]
        longest = 32
    if cell == 0:
        return 8, 0, 0                       # "the deciding cell is 0"
    if not is_direct(cell, longest):
        return 4, 0, 0                       # "the deciding cell is neither 0 nor direct"
    return 0, cell_length(cell), cell_hop(cell)


def cells_of_bytes(table):
    """"four bytes to a cell, lowest first"."""
    return [table[i] + 256 * table[i + 1] + 65536 * table[i + 2] + 16777216 * table[i + 3]
            for i in range(0, len(table), 4)]


def look_up_bytes(first, long, base, base_length, address):
    """Look up as C calls it, request [1]: "the number becomes code x 2^22 + length x 2^16 + hop"."""
    if len(first) % 4 != 0 or len(long) % 4 != 0:
        return 1 * 2 ** 22
    code, length, hop = look_up(cells_of_bytes(first), cells_of_bytes(long), base, base_length, address)
    return code * 2 ** 22 + length * 2 ** 16 + hop


# ---------------------------------------------------------------------------------------------------------------------
# The public calls: updates
# ---------------------------------------------------------------------------------------------------------------------

def announce(lent, base, base_length, address, length, hop):
    """(refusal number, cells changed)."""
    if wrong_territory(base, base_length) or wrong_sizes(lent, base_length):
        return 1, 0
    if wrong_prefix(address, length) or wrong_hop(hop):
        return 2, 0
    if prefix_outside(base, base_length, address, length):
        return 3, 0
    if damaged(lent, base, base_length, address, length):
        return 4, 0
    if not is_live(lent, address, length) and 0 not in lent.rules:
        return 6, 0
    if length >= 25 and not has_segment(lent, base, address) and 0 not in lent.owners:
        return 7, 0
    before = lent.copy()
    set_rule(lent, address, length, hop)
    paint(lent, base, address, length, hop)
    return 0, cells_changed(before, lent)


def re_home(lent, base, base_length, address, length, hop):
    """(refusal number, cells changed)."""
    if wrong_territory(base, base_length) or wrong_sizes(lent, base_length):
        return 1, 0
    if wrong_prefix(address, length) or wrong_hop(hop):
        return 2, 0
    if prefix_outside(base, base_length, address, length):
        return 3, 0
    if damaged(lent, base, base_length, address, length):
        return 4, 0
    if not is_live(lent, address, length):
        return 5, 0
    before = lent.copy()
    set_rule(lent, address, length, hop)
    paint(lent, base, address, length, hop)
    return 0, cells_changed(before, lent)


def withdraw(lent, base, base_length, address, length):
    """(refusal number, cells changed)."""
    if wrong_territory(base, base_length) or wrong_sizes(lent, base_length):
        return 1, 0
    if wrong_prefix(address, length):
        return 2, 0
    if prefix_outside(base, base_length, address, length):
        return 3, 0
    if damaged(lent, base, base_length, address, length):
        return 4, 0
    if not is_live(lent, address, length):
        return 5, 0
    before = lent.copy()
    remove_rule(lent, address, length)
    unpaint(lent, base, address, length)
    return 0, cells_changed(before, lent)


def is_live(lent, address, length):
    for (live_address, live_length, hop) in live_list(lent.rules):
        if (live_address, live_length) == (address, length):
            return True
    return False


def has_segment(lent, base, address):
    """Has the block that holds this address a segment?"""
    return is_pointer(lent.first[(address - base) // 256])


def set_rule(lent, address, length, hop):
    """The prefix becomes live with this hop, or its hop is replaced. The list stays in ascending order."""
    live = [(a, l, h) for (a, l, h) in live_list(lent.rules) if (a, l) != (address, length)]
    live.append((address, length, hop))
    write_rules(lent, live)


def remove_rule(lent, address, length):
    live = [(a, l, h) for (a, l, h) in live_list(lent.rules) if (a, l) != (address, length)]
    write_rules(lent, live)


def write_rules(lent, live):
    """Live rules first, in ascending order of (address, length), then 0."""
    words = [rule_word(address, length, hop) for (address, length, hop) in sorted(live)]
    lent.rules = words + [0] * (len(lent.rules) - len(words))


def paint(lent, base, address, length, hop):
    """"Announce or re-home", on the tables."""
    if length >= 25:
        # "For L from 25: if the block has no segment, the lowest free one is opened, all 256 cells take the old first
        # cell, the owner word and pointer are set"
        block = (address - base) // 256
        if not is_pointer(lent.first[block]):
            segment = lent.owners.index(0)
            for place in range(256 * segment, 256 * segment + 256):
                lent.long[place] = lent.first[block]
            lent.owners[segment] = block + 1
            lent.first[block] = 2 ** 31 + segment
    # "each cell in the prefix, direct or in an open segment, is replaced if it is 0 or its length is at most L"
    for block in touched_blocks(lent, base, address, length):
        if is_pointer(lent.first[block]):
            segment = segment_of(lent.first[block])
            for last_byte in range(256):
                place = 256 * segment + last_byte
                if in_prefix(block_start(base, block) + last_byte, address, length):
                    if lent.long[place] == 0 or cell_length(lent.long[place]) <= length:
                        lent.long[place] = direct(hop, length)
        else:
            if lent.first[block] == 0 or cell_length(lent.first[block]) <= length:
                lent.first[block] = direct(hop, length)


def unpaint(lent, base, address, length):
    """"Withdraw", on the tables. The prefix is out of the rule words already, so every live prefix is another one."""
    others = live_list(lent.rules)
    for block in touched_blocks(lent, base, address, length):
        if is_pointer(lent.first[block]):
            # "each cell in the prefix with length exactly L takes the longest other live prefix containing it, or 0";
            # a cell 0 is "no route" and has no length, so withdrawing a /0 does not mean it
            segment = segment_of(lent.first[block])
            near = live_and_touching(others, base, block)
            for last_byte in range(256):
                place = 256 * segment + last_byte
                here = block_start(base, block) + last_byte
                if in_prefix(here, address, length):
                    if lent.long[place] != 0 and cell_length(lent.long[place]) == length:
                        lent.long[place] = cell_for(longest_match(near, here))
            # "If no live prefix longer than 24 is left in the block, the segment closes: the first cell takes the
            # longest live prefix over the block or 0, all 256 cells and the owner word become 0"
            if not is_open(others, base, block):
                lent.first[block] = cell_for(longest_over(others, block_start(base, block), block_end(base, block)))
                for last_byte in range(256):
                    lent.long[256 * segment + last_byte] = 0
                lent.owners[segment] = 0
        else:
            if lent.first[block] != 0 and cell_length(lent.first[block]) == length:
                lent.first[block] = cell_for(longest_over(others, block_start(base, block), block_end(base, block)))


def cells_changed(before, after):
    """"cells of the first and long tables whose content differs. Owner and rule words don't count"."""
    count = 0
    for old, new in zip(before.first, after.first):
        if old != new:
            count += 1
    for old, new in zip(before.long, after.long):
        if old != new:
            count += 1
    return count


# ---------------------------------------------------------------------------------------------------------------------
# The price, and the bounds on it
# ---------------------------------------------------------------------------------------------------------------------

def best(live, address):
    """The best (hop, length) of an address, or None."""
    prefix = longest_match(live, address)
    if prefix is None:
        return None
    return prefix[2], prefix[1]


def price(before, after, base, base_length):
    """The price of an update, "taken from the live lists before and after": no table is looked at."""
    total = 0
    for block in range(2 ** (24 - base_length)):
        start = block_start(base, block)
        near_before = live_and_touching(before, base, block)
        near_after = live_and_touching(after, base, block)
        open_before = is_open(near_before, base, block)
        open_after = is_open(near_after, base, block)
        if not open_before and not open_after:
            # no prefix ends inside the block, so the best of the block is the best of any of its addresses
            if best(near_before, start) != best(near_after, start):
                total += 1
        elif open_before and open_after:
            for address in range(start, start + 256):
                if best(near_before, address) != best(near_after, address):
                    total += 1
        elif open_after:
            total += 1
            for address in range(start, start + 256):
                if best(near_after, address) is not None:
                    total += 1
        else:
            total += 1
            for address in range(start, start + 256):
                if best(near_before, address) is not None:
                    total += 1
    return total


def bound(before, base, base_length, address, length):
    """The most cells an update of this prefix may change: 257 for a prefix longer than 24, else its blocks and 255 more
    for each open one."""
    if length > 24:
        return 257
    total = 0
    for block in range(2 ** (24 - base_length)):
        if in_prefix(block_start(base, block), address, length):
            total += 1
            if is_open(before, base, block):
                total += 255
    return total


# ---------------------------------------------------------------------------------------------------------------------
# The cost sheet: octets and cents are lists of numbers, one for each hop, and the sheet is a list of hops. The words in
# quotation marks are those of the request for it
# ---------------------------------------------------------------------------------------------------------------------

NO_TRAFFIC = "no traffic"


def wrong_count_of_words(words):
    """"32,768 lent 64-bit words, one per hop": 1 to 32,767, and word 0."""
    return len(words) != 32768


def passed(word):
    """Has this word passed 2^53? 2^53 itself has not."""
    return word > 2 ** 53


def clear_octets(octets):
    """The refusal number, or 0. "one per hop and cleared first"."""
    if wrong_count_of_words(octets):
        return 1
    for hop in range(32768):
        octets[hop] = 0
    return 0


def wrong_for_records(first, long, octets, base, base_length):
    """Number 1 of look up, "1 also for another number of words"."""
    return (wrong_territory(base, base_length) or wrong_sizes_of_tables(first, long, base_length)
            or wrong_count_of_words(octets))


def book(first, long, octets, base, base_length, address, amount):
    """The refusal number, or 0. A refused record leaves all words as they are."""
    if wrong_for_records(first, long, octets, base, base_length):
        return 1
    code, length, hop = look_up(first, long, base, base_length, address)
    if code != 0 and code != 8:
        return code                          # "those of look up except 8"
    if code == 8:
        hop = 0                              # "word 0 takes "no route""
    if passed(octets[hop] + amount):         # Python's numbers have no end, so this sum never wraps
        return 30                            # "then 30 if a word would pass 2^53"
    octets[hop] = octets[hop] + amount       # "looked up and added"
    return 0


def book_all(first, long, octets, base, base_length, addresses, amounts, codes):
    """The refusal number of the whole, with nothing written, or 0 and each record's own number in `codes`."""
    if wrong_for_records(first, long, octets, base, base_length):
        return 1
    if len(addresses) != len(amounts) or len(addresses) != len(codes):
        return 1
    for i in range(len(addresses)):
        codes[i] = book(first, long, octets, base, base_length, addresses[i], amounts[i])
    return 0


def rate_of(octets, cents):
    """"one rounded division of cents by octets, both converted without loss". Python divides two integers as the exact
    fraction and rounds once, to the nearest double (ties to even); test_model.py looks at that with fractions alone."""
    return cents / octets


def cost_line(octets, cents, hop):
    """(refusal number, rate or NO_TRAFFIC or None): "either a rate in double precision or the words "no traffic"". The
    line looks at the two words of its own hop."""
    if wrong_count_of_words(octets) or wrong_count_of_words(cents):
        return 1, None                       # "1 for sizes"
    if not 1 <= hop <= 32767:
        return 2, None                       # "2 for a line's hop outside 1 to 32,767"
    if passed(octets[hop]):
        return 30, None                      # "30 if a word has passed it"
    if passed(cents[hop]):
        return 31, None                      # "31 if cents have"
    if octets[hop] == 0:
        return 0, NO_TRAFFIC
    return 0, rate_of(octets[hop], cents[hop])


def rank(octets, cents, hop):
    """What is sorted by, the smallest first, which is "dearest first"."""
    if octets[hop] == 0 and cents[hop] != 0:
        return 0, -cents[hop], hop           # "A line with cost and no traffic ranks above every rate, by cents"
    if octets[hop] != 0:
        return 1, -rate_of(octets[hop], cents[hop]), hop
    return 2, 0, hop                         # "one with neither below every rate"; "ties go to the lower hop"


def cost_sheet(octets, cents, hops):
    """The refusal number, or 0 and the sheet in `hops`."""
    if wrong_count_of_words(octets) or wrong_count_of_words(cents) or len(hops) != 32767:
        return 1                             # "32,767 lent hop numbers"
    for hop in range(32768):
        if passed(octets[hop]):
            return 30                        # any of the words, word 0 too
    for hop in range(1, 32768):
        if passed(cents[hop]):
            return 31                        # "word 0 unread"
    hops[:] = sorted(range(1, 32768), key=lambda hop: rank(octets, cents, hop))
    return 0


# ---------------------------------------------------------------------------------------------------------------------
# Update records
# ---------------------------------------------------------------------------------------------------------------------

NO_UPDATE = (0, 0, 0, 0, 0)                  # kind, serial, address, length, hop: "an all-zero update"


def read_record(record, expected):
    """(refusal number, (kind, serial, address, length, hop))."""
    if len(record) < 2:
        return 20, NO_UPDATE
    if big_endian(record[0:2]) != 13:
        return 21, NO_UPDATE
    if len(record) < 15:
        return 20, NO_UPDATE                 # "with the 15-byte test of 20 after 21"
    version = record[2]
    kind = record[3]
    serial = big_endian(record[4:8])
    address = big_endian(record[8:12])
    length = record[12]
    hop = big_endian(record[13:15])
    if version != 1:
        return 22, NO_UPDATE
    if kind not in (1, 2, 3):
        return 23, NO_UPDATE
    if serial != expected:
        return 24, NO_UPDATE
    if kind == 2 and hop != 0:
        return 25, NO_UPDATE
    return 0, (kind, serial, address, length, hop)


def write_record(room, update):
    """(refusal number, the room afterwards). The first 15 bytes are filled and no other."""
    kind, serial, address, length, hop = update
    if len(room) < 15:
        return 26, bytes(room)
    if kind not in (1, 2, 3):
        return 23, bytes(room)
    if kind == 2 and hop != 0:
        return 25, bytes(room)
    record = (in_bytes(13, 2) + in_bytes(1, 1) + in_bytes(kind, 1) + in_bytes(serial, 4)
              + in_bytes(address, 4) + in_bytes(length, 1) + in_bytes(hop, 2))
    return 0, record + bytes(room[15:])


def big_endian(some_bytes):
    number = 0
    for byte in some_bytes:
        number = number * 256 + byte
    return number


def in_bytes(number, how_many):
    digits = []
    for _ in range(how_many):
        digits.insert(0, number % 256)
        number = number // 256
    return bytes(digits)


def next_serial(serial):
    """"the serial after 4294967295 is 0"."""
    return (serial + 1) % 2 ** 32
