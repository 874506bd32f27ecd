#!/usr/bin/env python3
"""Print one random script.

Usage: scripts.py SEED [--letters OCFARNSW] [--lines N] [--pools LEAVES,N4,N16,N48,N256] [--kind KIND]

The same seed and options always give the same script. Each line is played on an index of oracle.py while the script
is written. So the generator knows which seats are busy, where an operation stands, and which keys would disturb it.
"""

import argparse
import random
import sys

import oracle

ALL_LETTERS = "OCFARNSW"
PRINTABLE = bytes(range(0x21, 0x7F))


class Full(Exception):
    """The script has no room for a further line."""


class Writer:
    """Writes a script line by line and plays each line at once."""

    def __init__(self, rng, coding, latch, letters, most_lines, pools):
        self.rng = rng
        self.is_number = coding == b"n"
        self.letters = letters
        self.most_lines = most_lines
        self.tries_left = 20 * most_lines
        self.lines = [b"= %s %s" % (coding, latch)]
        self.size = len(self.lines[0]) + 1
        self.player = oracle.Player(oracle.CODINGS[coding], oracle.LATCHES[latch], pools)
        self.index = self.player.index
        self.tree = self.index.tree
        self.keys = []

    def line(self, line):
        """Append a line, unless it is a call outside the letters, and return its outcome."""
        self.tries_left -= 1
        if self.tries_left < 0:
            raise Full
        if not self.may_write(line):
            return None
        if len(self.lines) >= self.most_lines or self.size + len(line) + 1 > oracle.LONGEST_SCRIPT:
            raise Full
        self.lines.append(line)
        self.size += len(line) + 1
        return self.player.play_line(line)

    def may_write(self, line):
        """Say whether a line is faulty or a call with one of the letters."""
        try:
            return oracle.read_call(line, self.player.coding).letter in self.letters
        except oracle.Refused:
            return True

    def key_word(self, key):
        """Return a key as a script has it."""
        return oracle.show_key(key)

    # Calls

    def open(self, seat):
        """Open a seat."""
        return self.line(b"O %d" % seat)

    def close(self, seat):
        """Close a seat."""
        return self.line(b"C %d" % seat)

    def sweep(self):
        """Sweep."""
        return self.line(b"W")

    def step(self, seat):
        """Do one step and say whether the seat is still busy."""
        self.line(b"S %d" % seat)
        return self.operation(seat) is not None

    def steps(self, seat, number):
        """Do up to so many steps of a seat, while it is busy."""
        while number > 0 and self.operation(seat) is not None and "S" in self.letters:
            self.step(seat)
            number -= 1

    def run(self, seat, most=70, restarts=2):
        """Step a seat until it answers, or has done or restarted too much."""
        while most > 0 and self.operation(seat) is not None and "S" in self.letters:
            outcome = self.line(b"S %d" % seat)
            most -= 1
            if outcome[0] == "again":
                restarts -= 1
                if restarts < 0:
                    return

    def run_all(self):
        """Step the busy seats one after another until they answer."""
        for _ in range(3):
            seats = self.busy_seats()
            self.rng.shuffle(seats)
            for seat in seats:
                self.run(seat)

    def begin(self, letter, seat, key):
        """Begin an operation."""
        value = b" %d" % self.value() if letter == "A" else b""
        return self.line(b"%s %d %s%s" % (letter.encode(), seat, self.key_word(key), value))

    def value(self):
        """Return a value, mostly a short one."""
        return self.rng.choice((0, 1, self.rng.randrange(10), self.rng.randrange(1000), oracle.LARGEST_VALUE))

    # Seats

    def operation(self, seat):
        """Return the operation of a seat, or None."""
        return self.index.seats[seat].operation

    def locks_root(self, seat):
        """Say whether the operation of a seat has the root locked, so that all others must wait."""
        operation = self.operation(seat)
        return operation is not None and any(h.node == oracle.ROOT and h.is_lock for h in operation.holdings)

    def busy_seats(self):
        """Return the busy seats."""
        return [s for s, seat in enumerate(self.index.seats) if seat.operation is not None]

    def idle_seats(self):
        """Return the idle seats."""
        return [s for s, seat in enumerate(self.index.seats) if seat.is_open and seat.operation is None]

    def closed_seats(self):
        """Return the closed seats."""
        return [s for s, seat in enumerate(self.index.seats) if not seat.is_open]

    def idle_seat(self):
        """Return an idle seat, open one for it, or let a busy one finish."""
        if self.idle_seats():
            return self.rng.choice(self.idle_seats())
        if self.closed_seats() and "O" in self.letters:
            seat = self.rng.choice(self.closed_seats())
            self.open(seat)
            return seat
        seat = self.rng.randrange(oracle.SEATS)
        self.run(seat)
        return seat

    def begin_letter(self, among="FARNAR"):
        """Return the letter of some begin."""
        letters = [letter for letter in among if letter in self.letters]
        return self.rng.choice(letters or ["F"])

    # Keys

    def any_key(self):
        """Return a key of the script's keys, sometimes one that stands in the tree or next to it."""
        if self.rng.random() < 0.2 and self.linked_leaves():
            code = self.tree.leaves[self.rng.choice(self.linked_leaves())].code
            return self.key_near(code[: self.rng.randrange(len(code) + 1)])
        return self.rng.choice(self.keys)

    def linked_leaves(self):
        """Return the leaves in the tree."""
        return [slot for slot in self.paths() if slot.kind == oracle.LEAF]

    def paths(self):
        """Return, for every linked slot, the bytes before its prefix."""
        paths = {oracle.ROOT: b""}
        waiting = [oracle.ROOT]
        while waiting:
            slot = waiting.pop()
            node = self.tree.nodes[slot]
            for byte, child in node.children.items():
                paths[child] = paths[slot] + node.prefix + bytes([byte])
                if child.kind != oracle.LEAF:
                    waiting.append(child)
        return paths

    def key_near(self, beginning):
        """Return a key whose code has this beginning as far as it can."""
        rng = self.rng
        if self.is_number:
            tail = bytes(rng.choice((0, 0, 1, 255, rng.randrange(256))) for _ in range(4))
            return self.player.coding.decode((beginning + tail)[:4])
        text = beginning.split(b"\x00")[0]
        alphabet = rng.choice((PRINTABLE, b"ab", b"abc"))
        tail = bytes(rng.choice(alphabet) for _ in range(rng.choice((0, 1, 1, 2, 15))))
        return (text + tail)[:15]

    def other_byte(self, bytes_taken):
        """Return a byte that a code may have, not among the ones taken if possible."""
        allowed = range(256) if self.is_number else [0, *PRINTABLE]
        free = [byte for byte in allowed if byte not in bytes_taken]
        return self.rng.choice(free or list(allowed))

    def key_past(self, slot, path):
        """Return a key that a next follows to this node and then back, if it can be."""
        node = self.tree.nodes[slot]
        allowed = range(256) if self.is_number else PRINTABLE
        larger = [byte for byte in allowed if byte > max(node.children, default=-1)]
        beginning = path + node.prefix + bytes([self.rng.choice((larger[:1] or [allowed[-1]]) + [allowed[-1]])])
        if self.is_number:
            return self.player.coding.decode((beginning + b"\xff\xff\xff\xff")[:4])
        return (beginning + b"~")[: self.rng.choice((15, len(beginning)))][:15]

    def key_to_pause(self, letter):
        """Return a key for an operation that is to wait on its way."""
        rng = self.rng
        paths = self.paths()
        nodes = [slot for slot in paths if slot.kind != oracle.LEAF]
        leaves = [slot for slot in paths if slot.kind == oracle.LEAF]
        roll = rng.random()
        if letter == "N" and roll < 0.6:
            slot = rng.choice(nodes)
            return self.key_past(slot, paths[slot])
        if letter == "A" and roll < 0.5:
            slot = rng.choice(nodes)
            node = self.tree.nodes[slot]
            return self.key_near(paths[slot] + node.prefix + bytes([self.other_byte(node.children)]))
        if letter != "A" and leaves and roll < 0.8:
            return self.player.coding.decode(self.tree.leaves[rng.choice(leaves)].code)
        return self.any_key()

    def key_just_above(self, operation):
        """Return the key of an operation or one that comes soon after it."""
        key = self.player.coding.decode(operation.k)
        if self.is_number:
            return min(key + self.rng.choice((0, 1, 2, 200)), oracle.NumberCoding.largest)
        return (key + self.rng.choice((b"", b"!", b"a")))[:15]

    def disturbance(self, operation):
        """Return a letter and a key that are likely to touch a node that the operation works on."""
        rng = self.rng
        if operation.request == "next" and rng.random() < 0.3:
            return "A", self.key_just_above(operation)
        paths = self.paths()
        nodes = [operation.reached[0]] + [holding.node for holding in operation.holdings]
        if operation.choice and operation.choice.left_child:
            nodes.append(operation.choice.left_child)
        nodes = [slot for slot in nodes if slot in paths and slot.kind != oracle.LEAF]
        if rng.random() < 0.8:
            nodes = [slot for slot in nodes if slot != oracle.ROOT] or nodes
        if not nodes:
            return self.begin_letter(), self.any_key()
        slot = rng.choice(nodes)
        node = self.tree.nodes[slot]
        path = paths[slot]
        ways = ["insert", "insert", "miss", "split", "look"]
        if "R" in self.letters:
            ways += ["remove", "remove above", "remove above", "remove above"]
        way = rng.choice(ways)
        if way == "remove above" and slot != oracle.ROOT:
            node = self.tree.nodes[self.parent(slot)]
        leaves = [child for child in node.children.values() if child.kind == oracle.LEAF]
        if way in ("remove", "remove above") and leaves:
            code = self.tree.leaves[rng.choice(leaves)].code
            return "R", self.player.coding.decode(code)
        if way == "miss" and node.prefix:
            i = rng.randrange(len(node.prefix))
            byte = self.other_byte(node.prefix[i : i + 1])
            return "A", self.key_near(path + node.prefix[:i] + bytes([byte]))
        if way == "split" and leaves:
            code = self.tree.leaves[rng.choice(leaves)].code
            return "A", self.key_near(code[:-1])
        if way == "look":
            return rng.choice("FN" if "N" in self.letters else "F"), self.key_near(path + node.prefix)
        byte = self.other_byte(node.children)
        return "A", self.key_near(path + node.prefix + bytes([byte]))

    def parent(self, slot):
        """Return the parent of a linked slot."""
        [parent] = [node for node in self.paths() if node.kind != oracle.LEAF and slot in self.children(node)]
        return parent

    def children(self, slot):
        """Return the children of a node."""
        return self.tree.nodes[slot].children.values()


# ---------------------------------------------------------------------------
# Keys of a script


def number_keys(rng):
    """Return a family of number keys."""
    way = rng.choice(("narrow", "narrow", "grid", "chain", "chain", "ends", "spread"))
    if way == "narrow":
        size = rng.choice((3, 6, 18, 60, 300))
        start = rng.choice((0, -size // 2, -(2**31), 2**31 - size, 250, -10))
        return [start + i for i in range(size)]
    if way == "grid":
        return grid_keys(rng, True, rng.choice((2, 5, 20)), rng.choice((2, 5, 18, 50)))
    if way == "chain":
        return chain_keys(rng)
    if way == "ends":
        return [-(2**31), -(2**31) + 1, -1, 0, 1, 2**31 - 2, 2**31 - 1, 255, 256, -256, 65535, 65536]
    return [rng.randrange(-(2**31), 2**31) for _ in range(rng.choice((5, 50, 400)))]


def chain_keys(rng):
    """Return number keys whose codes have few different bytes, so that nodes stand under nodes."""
    few = rng.choice(((0, 1), (0, 1, 2), (0, 1, 255)))
    size = rng.choice((4, 6, 8, 10, 60))
    codes = [bytes([rng.choice((0x80, 0x80, 0x7F))] + [rng.choice(few) for _ in range(3)]) for _ in range(size)]
    return [oracle.NumberCoding().decode(code) for code in codes]


def comb_keys(rng):
    """Return text keys that leave one long text at some of its places, so that nodes stand under nodes."""
    alphabet = rng.choice((b"ab", b"abc", b"!~'"))
    base = bytes(rng.choice(alphabet) for _ in range(15))
    keys = [base, base[:14] + b"$"]
    for place in rng.sample(range(14), rng.choice((2, 3, 4, 7))):
        keys.append(base[:place] + bytes([rng.choice(b"#$~")]) + base[: rng.randrange(15 - place)])
    return keys


def text_keys(rng):
    """Return a family of text keys."""
    way = rng.choice(("short", "short", "single", "grid", "ladder", "comb", "comb", "deep", "deep"))
    alphabet = rng.choice((b"ab", b"abc", b"!~'", b"0123456789"))
    base = bytes(rng.choice(alphabet) for _ in range(15))
    if way == "short":
        return [bytes(rng.choice(alphabet) for _ in range(rng.randrange(5))) for _ in range(60)]
    if way == "single":
        return [bytes([byte]) for byte in PRINTABLE] + [b""]
    if way == "grid":
        return grid_keys(rng, False, rng.choice((2, 5, 20)), rng.choice((2, 5, 18, 50)))
    if way == "ladder":
        return [base[:i] for i in range(16)] + [base[:i] + b"~" for i in range(15)]
    if way == "comb":
        return comb_keys(rng)
    start = rng.choice((0, 5, 9, 11, 12))
    keys = [base]
    for _ in range(rng.choice((6, 12, 40))):
        place = rng.randrange(start, 16)
        key = base[:place] + bytes(rng.choice(alphabet) for _ in range(15 - place))
        keys.append(key if rng.random() < 0.8 else key[: rng.randrange(place, 16)])
    return keys


def grid_keys(rng, is_number, groups, each):
    """Return keys in so many groups, each with so many keys that differ in one byte."""
    keys = []
    outer, inner = rng.choice(((24, 16), (24, 0), (16, 8), (8, 0)))
    filler = rng.choice((b"", b"", b"_", b"______"))
    for i in range(groups):
        for j in range(each):
            if is_number:
                number = (i << outer) | (j << inner)
                keys.append(number if number < 2**31 else number - 2**32)
            else:
                group = PRINTABLE[i % 94 : i % 94 + 1] + (PRINTABLE[i // 94 : i // 94 + 1] if groups > 94 else b"")
                keys.append(group + filler + PRINTABLE[j % 94 : j % 94 + 1] + (b"+" if j >= 94 else b""))
    return keys


def some_keys(rng, is_number):
    """Return the keys that a script works on."""
    keys = number_keys(rng) if is_number else text_keys(rng)
    if rng.random() < 0.2:
        keys += number_keys(rng) if is_number else text_keys(rng)
    keys = list(dict.fromkeys(keys))
    most = rng.choice((3, 6, 12, 30, 600))
    return rng.sample(keys, most) if len(keys) > most else keys


# ---------------------------------------------------------------------------
# Faulty and refused lines


NUMBERS_TO_TRY = (
    b"-0", b"00", b"01", b"-01", b"+1", b"--1", b"-", b"1e1", b"0x1", b"1.", b"",
    b"2147483647", b"2147483648", b"-2147483648", b"-2147483649", b"99999999999999999999",
)
TEXTS_TO_TRY = (
    b"'a b", b"'\x7f", b"'\x1f", b"'\xe4", b"'a\x00", b"'a\t", b"", b"a", b"\"a",
    b"'" + b"q" * 15, b"'" + b"q" * 16, b"'" * 16, b"'" * 17, b"'" + b"z" * 59, b"'" + b"z" * 60,
)
VALUES_TO_TRY = (
    b"4294967295", b"4294967296", b"99999999999", b"-1", b"-0", b"01", b"00", b"+1", b"", b"1 1", b"x",
)
ENDS_TO_TRY = (b"", b" ", b" 10", b" 00", b" -1", b" x", b"0", b" 0 ")


def faulty_line(writer):
    """Return a line that does not fit the grammar, or nearly does not."""
    rng = writer.rng
    seat = b"%d" % rng.randrange(10)
    key = writer.key_word(rng.choice(writer.keys))
    other = rng.choice((b"'5", b"'", b"''", b"abc")) if writer.is_number else rng.choice((b"5", b"-1", b"0", b"a'"))
    word = rng.choice(NUMBERS_TO_TRY if writer.is_number else TEXTS_TO_TRY)
    value = rng.choice(VALUES_TO_TRY)
    letter = rng.choice([c.encode() for c in "FARN" if c in writer.letters] or [b"X"])
    tail = b" 1" if letter == b"A" else b""
    right = rng.choice((b"O " + seat, b"C " + seat, b"S " + seat, b"W", b"F " + seat + b" " + key,
                        b"A " + seat + b" " + key + b" 7", letter + b" " + seat + b" " + key + tail))
    ways = (
        lambda: rng.choice((b"", b" ", b"  ", b"\t", b"\r", b"'", b"=", b"#", b"\x00", b"\xff\xfe", b"-")),
        lambda: rng.choice((b"= n o", b"= t c", b"= n c", b"= t o")),
        lambda: b" " + right,
        lambda: right + b" ",
        lambda: right.replace(b" ", b"  ", 1),
        lambda: right.replace(b" ", b"\t", 1),
        lambda: right + b"\r",
        lambda: right + b" 0",
        lambda: right.rsplit(b" ", 1)[0],
        lambda: right.lower(),
        lambda: right[:1] + right,
        lambda: right + b" " * (64 - len(right)),
        lambda: right + b"x" * (65 - len(right)),
        lambda: rng.choice((b"O", b"C", b"S", b"F", b"A")) + rng.choice(ENDS_TO_TRY),
        lambda: rng.choice((b"X", b"w", b"WW", b"OO", b"Q")) + b" " + seat,
        lambda: letter + b" " + seat + b" " + other + tail,
        lambda: letter + b" " + seat + b" " + word + tail,
        lambda: letter + b" " + seat + b" " + word + tail,
        lambda: b"A " + seat + b" " + key + b" " + value,
        lambda: b"A " + seat + b" " + key + b" " + value,
        lambda: changed_line(rng, right),
        lambda: changed_line(rng, right),
        lambda: bytes(rng.choice((rng.randrange(11, 256), 0x20, 0x41)) for _ in range(rng.randrange(70))),
    )
    return rng.choice(ways)()


def changed_line(rng, line):
    """Return a line with one byte taken out, put in or replaced."""
    place = rng.randrange(len(line) + 1)
    byte = bytes([rng.choice((0x20, 0x27, 0x2D, 0x30, 0x39, 0x09, 0x00, 0x7F, 0xC3, rng.randrange(11, 256)))])
    return rng.choice((line[:place] + line[place + 1 :], line[:place] + byte + line[place:],
                       line[:place] + byte + line[place + 1 :]))


def refused_line(writer):
    """Return a line that the index is likely to refuse."""
    rng = writer.rng
    seat = rng.choice((8, 9, rng.randrange(8)))
    busy, idle, closed = writer.busy_seats(), writer.idle_seats(), writer.closed_seats()
    key = rng.choice(writer.keys)
    if not writer.is_number and rng.random() < 0.5:
        key = b"L" * rng.choice((16, 17, 30, 40))
    key = writer.key_word(key)
    letters = [c for c in "OCFARNS" if c in writer.letters] or ["S"]
    letter = rng.choice(letters)
    if letter == "O" and busy + idle and rng.random() < 0.7:
        seat = rng.choice(busy + idle)
    if letter in "CFARN" and busy and rng.random() < 0.5:
        seat = rng.choice(busy)
    if letter in "CFARNS" and closed and rng.random() < 0.3:
        seat = rng.choice(closed)
    if letter == "S" and idle and rng.random() < 0.5:
        seat = rng.choice(idle)
    words = {"F": b" " + key, "R": b" " + key, "N": b" " + key, "A": b" " + key + b" 3"}.get(letter, b"")
    return letter.encode() + b" %d" % seat + words


# ---------------------------------------------------------------------------
# Parts of a script


def open_seats(writer):
    """Open some or all seats."""
    for seat in writer.rng.sample(range(8), writer.rng.choice((1, 2, 3, 4, 8))):
        writer.open(seat)


def mix(writer, turns):
    """Let the seats do anything in any order."""
    rng = writer.rng
    longest_burst = rng.choice((1, 2, 6, 15))
    for _ in range(turns):
        roll = rng.random()
        busy = writer.busy_seats()
        if roll < 0.72 and busy:
            writer.steps(rng.choice(busy), rng.randint(1, longest_burst))
        elif roll < 0.90 and writer.idle_seats():
            writer.begin(writer.begin_letter(), rng.choice(writer.idle_seats()), writer.any_key())
        elif roll < 0.92:
            writer.sweep()
        elif roll < 0.94 and writer.closed_seats():
            writer.open(rng.choice(writer.closed_seats()))
        elif roll < 0.95 and len(writer.idle_seats()) > 1:
            writer.close(rng.choice(writer.idle_seats()))
        elif roll < 0.97:
            writer.line(refused_line(writer))
        elif roll < 0.98:
            writer.line(faulty_line(writer))
        elif busy:
            writer.run(rng.choice(busy))


PAUSES = (
    "Take", "Check p", "Look", "Look", "Check n", "Lock p", "Lock n", "Lock m", "Draw", "Write n", "Write p",
    "Unlock p",
)
PAUSES_OF_NEXT = ("Take", "Check p", "Look", "Look, Back", "Look, Down", "Final check", "Final check")


def pauses_at(operation, pause):
    """Say whether the operation is about to do the item that a pause names."""
    return pause in (operation.stage, f"{operation.stage}, {operation.mode}")


def race(writer):
    """Let one operation wait somewhere, disturb it with others, and let it go on."""
    rng = writer.rng
    seat = writer.idle_seat()
    letter = writer.begin_letter()
    writer.begin(letter, seat, writer.key_to_pause(letter))
    if rng.random() < 0.3:
        writer.steps(seat, rng.randrange(1, 25))
    else:
        pause, passes = rng.choice(PAUSES_OF_NEXT if letter == "N" else PAUSES), rng.randrange(4)
        for _ in range(60):
            operation = writer.operation(seat)
            if operation is None or "S" not in writer.letters:
                break
            if pauses_at(operation, pause):
                passes -= 1
                if passes < 0:
                    break
            writer.step(seat)
    if writer.locks_root(seat) and rng.random() < 0.8:
        writer.run(seat)
    for _ in range(rng.choice((1, 1, 2, 3, 6))):
        operation = writer.operation(seat)
        other = writer.idle_seat()
        if operation is None or other == seat:
            break
        letter, key = writer.disturbance(operation)
        writer.begin(letter, other, key)
        if rng.random() < 0.6:
            writer.run(other)
        else:
            writer.steps(other, rng.randrange(1, 16))
            if writer.locks_root(other) and rng.random() < 0.7:
                writer.run(other)
        if rng.random() < 0.1:
            writer.sweep()
        if rng.random() < 0.2:
            writer.steps(seat, 1)
    writer.steps(seat, rng.randrange(1, 8))
    if rng.random() < 0.6:
        writer.run_all()


def scene(writer):
    """Let an operation wait at a node m or at its parent n, change these nodes, and let it go on."""
    rng = writer.rng
    pair = parent_and_node(writer)
    if pair is None:
        return
    n, m = pair
    seat = operation_that_waits(writer, n, m)
    changes = []
    for _ in range(rng.choice((1, 1, 1, 2, 3))):
        change = change_of(writer, n, m, writer.operation(seat))
        other = writer.idle_seat()
        if change is None or other == seat:
            break
        writer.begin(change[0], other, change[1])
        changes.append(change)
        roll = rng.random()
        if roll < 0.6:
            writer.run(other)
        elif roll < 0.8:
            wait_near(writer, other, rng.choice(("Lock n", "Lock n", "Lock m", "Write p", "Unlock p")), (n, m))
        else:
            writer.steps(other, rng.randrange(6, 20))
    busy = writer.busy_seats()
    rng.shuffle(busy)
    for other in busy:
        writer.steps(other, rng.choice((0, 1, 2, 5)))
    finish_scene(writer, seat, changes)


def scene_of_three(writer):
    """Let an operation wait while another one locks n, cannot lock m, and restarts."""
    rng = writer.rng
    pair = parent_and_node(writer)
    if pair is None:
        return
    n, m = pair
    seat = operation_that_waits(writer, n, m)
    changes = []
    for pause in ("Lock p", None):
        change = change_of(writer, n, m)
        other = writer.idle_seat()
        if change is None or other == seat:
            break
        writer.begin(change[0], other, change[1])
        changes.append(change)
        if pause:
            waiting = other
            wait_near(writer, other, pause, (n, m))
        else:
            writer.run(other)
            writer.steps(waiting, rng.choice((2, 2, 2, 3)))
    finish_scene(writer, seat, changes)


def scene_of_collapse(writer):
    """Let an operation wait for its Look at m while the parent n collapses into m."""
    rng = writer.rng
    pair = parent_and_node(writer)
    if pair is None or not collapses_into(writer, *pair):
        return
    n, m = pair
    [leaf] = [child for child in writer.children(n) if child != m]
    key = writer.player.coding.decode(writer.tree.leaves[leaf].code)
    seat = operation_that_waits(writer, n, m, rng.choice(("Look", "Look", "Look, Back", "Look, Down")))
    other = writer.idle_seat()
    if other != seat:
        writer.begin("R", other, key)
        writer.run(other)
        finish_scene(writer, seat, [("R", key)])


def parent_and_node(writer):
    """Return a node m and its parent n, mostly not the root; if there are none, add keys."""
    rng = writer.rng
    nodes = [slot for slot in writer.paths() if slot.kind != oracle.LEAF]
    pairs = [(n, m) for n in nodes for m in writer.children(n) if m.kind != oracle.LEAF]
    if not pairs:
        add_all(writer, rng.sample(writer.keys, min(len(writer.keys), 8)))
        return None
    if rng.random() < 0.8:
        pairs = [(n, m) for n, m in pairs if n != oracle.ROOT] or pairs
    if rng.random() < 0.5:
        pairs = [(n, m) for n, m in pairs if collapses_into(writer, n, m)] or pairs
    return rng.choice(pairs)


def operation_that_waits(writer, n, m, pause=None):
    """Begin an operation, let it wait at m, or near m if no pause is given, and return its seat."""
    nodes = (n, m) if pause is None else (m,)
    letter = writer.begin_letter("N" if pause in ("Look, Back", "Look, Down") else "FARNN")
    if pause is None:
        pause = writer.rng.choice(PAUSES_OF_NEXT if letter == "N" else PAUSES)
    seat = writer.idle_seat()
    writer.begin(letter, seat, key_through(writer, letter, pause, n, m))
    wait_near(writer, seat, pause, nodes)
    return seat


def finish_scene(writer, seat, changes):
    """Let the operation that waited go on, then all others, and mostly undo the changes."""
    rng = writer.rng
    writer.steps(seat, rng.randrange(1, 10))
    writer.run_all()
    if rng.random() < 0.8:
        undo(writer, changes)
    if rng.random() < 0.1:
        writer.sweep()


def collapses_into(writer, n, m):
    """Say whether one removal makes n collapse into its child m."""
    others = [child for child in writer.children(n) if child != m]
    return n != oracle.ROOT and len(others) == 1 and others[0].kind == oracle.LEAF


def key_through(writer, letter, pause, n, m):
    """Return a key whose operation comes to m, and perhaps back to it."""
    rng = writer.rng
    paths = writer.paths()
    to_m = paths[m]
    prefix = writer.tree.nodes[m].prefix
    after_collapse = writer.tree.nodes[n].prefix + to_m[-1:] + prefix
    keys = [
        writer.key_near(to_m + prefix),
        writer.key_near(to_m + after_collapse),
        writer.key_near(to_m + after_collapse[: rng.randrange(len(after_collapse))]),
    ]
    if letter != "N":
        leaves = [child for child in writer.children(m) if child.kind == oracle.LEAF]
        return rng.choice(keys + [writer.player.coding.decode(writer.tree.leaves[leaf].code) for leaf in leaves])
    below = [child for child in writer.children(m) if child.kind != oracle.LEAF]
    smaller = [byte for byte in writer.tree.nodes[n].children if byte < to_m[-1]]
    if pause == "Look, Back":
        keys = [writer.key_past(child, paths[child]) for child in below] or [writer.key_past(m, to_m)]
    if pause == "Look, Down" and smaller:
        past = b"\xff\xff\xff" if writer.is_number else b"~~"
        keys = [writer.key_near(to_m[:-1] + bytes([max(smaller)]) + past)]
    return rng.choice([*keys, writer.key_past(m, to_m)])


def wait_near(writer, seat, pause, nodes):
    """Step a seat until its operation is about to do what the pause names at one of the nodes."""
    for _ in range(70):
        operation = writer.operation(seat)
        if operation is None or "S" not in writer.letters:
            return
        node = operation.reached[0] if operation.stage == "Take" or operation.n is None else operation.n.node
        if pauses_at(operation, pause) and node in nodes and (node == nodes[-1] or writer.rng.random() < 0.4):
            return
        writer.step(seat)


def change_of(writer, n, m, operation=None):
    """Return a letter and a key that change m or its parent n, or what a waiting next has read, or None."""
    rng = writer.rng
    paths = writer.paths()
    if n not in paths or m not in paths:
        return None
    if operation is not None and operation.request == "next" and rng.random() < 0.2:
        return "A", writer.key_just_above(operation)
    if n != oracle.ROOT and rng.random() < 0.2:
        n, m = writer.parent(n), n
    node = writer.tree.nodes[m]
    leaves_above = [child for child in writer.children(n) if child.kind == oracle.LEAF]
    leaves = [child for child in writer.children(m) if child.kind == oracle.LEAF]
    ways = ["insert", "insert", "insert above"]
    ways += ["miss", "miss"] if node.prefix else []
    ways += ["remove above"] * (10 if collapses_into(writer, n, m) else 1) if leaves_above else []
    ways += ["remove", "split"] if leaves else []
    way = rng.choice(ways)
    if way == "insert above":
        m, node = n, writer.tree.nodes[n]
    if way == "miss":
        i = rng.randrange(len(node.prefix))
        byte = writer.other_byte(node.prefix[i : i + 1])
        return "A", writer.key_near(paths[m] + node.prefix[:i] + bytes([byte]))
    if way in ("remove", "remove above"):
        leaf = rng.choice(leaves if way == "remove" else leaves_above)
        return "R", writer.player.coding.decode(writer.tree.leaves[leaf].code)
    if way == "split":
        return "A", writer.key_near(writer.tree.leaves[rng.choice(leaves)].code[:-1])
    byte = writer.other_byte(node.children)
    return "A", writer.key_near(paths[m] + node.prefix + bytes([byte]))


def undo(writer, changes):
    """Add what was removed and remove what was added."""
    for letter, key in changes:
        seat = writer.idle_seat()
        writer.begin("R" if letter == "A" else "A", seat, key)
        writer.run(seat)


def add_all(writer, keys):
    """Add keys one after another."""
    for key in keys:
        seat = writer.idle_seat()
        writer.begin("A", seat, key)
        writer.run(seat)


def remove_some(writer):
    """Remove keys that stand in the tree, one after another, and sweep now and then."""
    rng = writer.rng
    leaves = [writer.tree.leaves[slot].code for slot in writer.linked_leaves()]
    rng.shuffle(leaves)
    for code in leaves[: rng.choice((2, 5, 20, 100))]:
        seat = writer.idle_seat()
        writer.begin("R", seat, writer.player.coding.decode(code))
        writer.run(seat)
        if rng.random() < 0.15:
            writer.sweep()


# ---------------------------------------------------------------------------
# Kinds of script


def script_of_mixing(writer):
    """Mostly short operations in any order."""
    open_seats(writer)
    mix(writer, writer.rng.choice((10, 40, 120, 300)))
    writer.run_all()


def script_of_races(writer):
    """One paused operation after another."""
    rng = writer.rng
    open_seats(writer)
    if rng.random() < 0.8:
        add_all(writer, writer.keys[: rng.choice((2, 5, 12, 40))])
    for _ in range(rng.choice((2, 5, 15, 30))):
        race(writer)
        if rng.random() < 0.1:
            mix(writer, 10)
        if rng.random() < 0.1:
            writer.sweep()
        if rng.random() < 0.5:
            add_all(writer, rng.sample(writer.keys, min(len(writer.keys), rng.choice((1, 2, 8)))))
    writer.run_all()


def script_of_scenes(writer):
    """One scene after another, in a tree where nodes stand under nodes."""
    rng = writer.rng
    open_seats(writer)
    if rng.random() < 0.8:
        writer.keys = list(dict.fromkeys(chain_keys(rng) if writer.is_number else comb_keys(rng)))
    add_all(writer, writer.keys[:60])
    for _ in range(rng.choice((3, 10, 25))):
        rng.choice((scene, scene, scene_of_three, scene_of_collapse, scene_of_collapse))(writer)
    writer.run_all()


def script_of_growing(writer):
    """Nodes grow through all kinds, with races in between."""
    rng = writer.rng
    open_seats(writer)
    writer.keys = grid_keys(rng, writer.is_number, rng.choice((1, 2, 4)), rng.choice((5, 17, 49, 52)))
    if rng.random() < 0.5:
        rng.shuffle(writer.keys)
    rest = list(writer.keys)
    while rest:
        some = rng.choice((1, 3, 3, 12, 40))
        add_all(writer, rest[:some])
        rest = rest[some:]
        race(writer)
    remove_some(writer)
    for _ in range(5):
        race(writer)
    writer.run_all()


def script_of_filling(writer):
    """A pool runs out; then slots are freed and drawn again."""
    rng = writer.rng
    open_seats(writer)
    groups, each = rng.choice(((134, 2), (36, 5), (19, 17), (10, 49), (3, 188), (8, 66)))
    writer.keys = grid_keys(rng, writer.is_number, groups, each)
    norooms = 0
    for key in writer.keys:
        seat = writer.idle_seat()
        writer.begin("A", seat, key)
        while writer.operation(seat) is not None and "S" in writer.letters:
            norooms += writer.line(b"S %d" % seat)[0] == "noroom"
        if norooms > 3:
            break
    for _ in range(10):
        for _ in range(3):
            race(writer)
        writer.run_all()
        remove_some(writer)
        writer.sweep()
        add_all(writer, [writer.any_key() for _ in range(5)])
    writer.run_all()


def script_of_faults(writer):
    """Many faulty and refused lines."""
    rng = writer.rng
    open_seats(writer)
    for _ in range(rng.choice((20, 100, 250))):
        roll = rng.random()
        if roll < 0.45:
            writer.line(faulty_line(writer))
        elif roll < 0.7:
            writer.line(refused_line(writer))
        else:
            mix(writer, 3)


def script_faulty_as_a_whole(rng, letters):
    """Return a script that is empty, too long, just not too long, or has a wrong line 1."""
    letter = "S" if "S" in letters else "X"
    rest = b"".join(b"%s %d\n" % (letter.encode(), rng.randrange(8)) for _ in range(rng.choice((0, 1, 5))))
    length = rng.choice((oracle.LONGEST_SCRIPT, oracle.LONGEST_SCRIPT + 1, oracle.LONGEST_SCRIPT + 1000))
    first = rng.choice((b"= n o", b"= t c"))
    wrong = rng.choice((
        b"", b"=", b"= n", b"= n o ", b" = n o", b"=  n o", b"= n  o", b"= n o\r", b"= n\to", b"= o n", b"= N O",
        b"= n x", b"= x o", b"== n o", b"= n o 1", b"O 0", b"= nn o", b"= n oo", b"= n o" + b" " * 70, b"\x00",
        b"\xef\xbb\xbf= n o",
    ))
    return rng.choice((
        lambda: b"",
        lambda: b"\n",
        lambda: b"\n\n",
        lambda: b"\n= n o\n",
        lambda: first,
        lambda: first + b"\n",
        lambda: first + b"\n\n",
        lambda: wrong,
        lambda: wrong + b"\n" + rest,
        lambda: wrong + b"\n" + rest,
        lambda: (first + b"\n" + rest + (b"x" * 63 + b"\n") * 1000)[:length],
        lambda: (wrong + b"\n" + rest + (b"x" * 90 + b"\n") * 1000)[:length],
        lambda: b"\n" * length,
        lambda: bytes(rng.randrange(256) for _ in range(rng.randrange(200))),
    ))()


KINDS = {
    "mixing": (script_of_mixing, 25),
    "races": (script_of_races, 30),
    "scenes": (script_of_scenes, 25),
    "growing": (script_of_growing, 10),
    "filling": (script_of_filling, 6),
    "faults": (script_of_faults, 8),
    "faulty": (None, 4),
}


def generate(seed, letters=ALL_LETTERS, lines=None, pools=oracle.POOLS, kind=None):
    """Return the script of a seed; with lines given, it has so many lines if they fit."""
    rng = random.Random(seed)
    if kind is None:
        [kind] = rng.choices(list(KINDS), [weight for _, weight in KINDS.values()])
    if kind == "faulty":
        return script_faulty_as_a_whole(rng, letters)
    coding = rng.choice((b"n", b"t"))
    latch = rng.choice((b"o", b"o", b"c"))
    writer = Writer(rng, coding, latch, letters, lines or oracle.LONGEST_SCRIPT, pools)
    writer.keys = some_keys(rng, writer.is_number)
    write, _ = KINDS[kind]
    try:
        write(writer)
        while lines is not None:
            mix(writer, 50)
    except Full:
        pass
    end = rng.choice((b"\n", b"\n", b"\n", b"\n", b"", b"\n\n") if lines is None else (b"\n", b""))
    return (b"\n".join(writer.lines) + end)[: oracle.LONGEST_SCRIPT]


def main():
    """Print the script of a seed."""
    parser = argparse.ArgumentParser(description="Print one random script.")
    parser.add_argument("seed", type=int)
    parser.add_argument("--letters", default=ALL_LETTERS, help="the letters of the calls to use")
    parser.add_argument("--lines", type=int, help="how many lines the script is to have")
    parser.add_argument("--pools", type=oracle.read_pools, default=oracle.POOLS, help="LEAVES,N4,N16,N48,N256")
    parser.add_argument("--kind", choices=KINDS, help="the kind of script; else the seed decides")
    options = parser.parse_args()
    sys.stdout.buffer.write(generate(options.seed, options.letters, options.lines, options.pools, options.kind))


if __name__ == "__main__":
    main()
