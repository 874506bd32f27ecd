#!/usr/bin/env python3
"""Play a script by the rules of docs/RULES.md and print its history.

Usage: oracle.py [--pools LEAVES,N4,N16,N48,N256] [--check] < script

The section numbers below are those of docs/RULES.md, and so are the names.
"""

import argparse
import copy
import sys
from collections import deque
from typing import NamedTuple


class Refused(Exception):
    """A call or a line is refused with a number of section 12."""

    def __init__(self, number):
        super().__init__(number)
        self.number = number


# ---------------------------------------------------------------------------
# Section 3: key codings


class NumberCoding:
    """Signed 32-bit integers in numeric order."""

    smallest = -(2**31)
    largest = 2**31 - 1

    def encode(self, key):
        """Return four bytes, the highest first, with the highest bit inverted."""
        if not self.smallest <= key <= self.largest:
            raise Refused(6)
        code = bytearray(key.to_bytes(4, "big", signed=True))
        code[0] ^= 0x80
        return bytes(code)

    def decode(self, code):
        """Return the key that has this code."""
        if len(code) != 4:
            raise Refused(6)
        inverted = bytes([code[0] ^ 0x80]) + code[1:]
        return int.from_bytes(inverted, "big", signed=True)


class TextCoding:
    """Strings of 0 to 15 bytes without the byte 00, in byte order."""

    longest_text = 15

    def encode(self, key):
        """Return the bytes of the text, then 00."""
        if len(key) > self.longest_text or 0 in key:
            raise Refused(6)
        return key + b"\x00"

    def decode(self, code):
        """Return the key that has this code."""
        if code[-1:] != b"\x00" or self.encode(code[:-1]) != code:
            raise Refused(6)
        return code[:-1]


# ---------------------------------------------------------------------------
# Section 4: latches

NOT_REFUSED = 0
GONE = 1
LOCKED = 2
CHANGED = 3
SHARED = 4


class Word(NamedTuple):
    """What a latch word means."""

    locked: bool = False
    gone: bool = False
    shares: int = 0
    count: int = 0


class Latch(NamedTuple):
    """The calls on a latch word; a permit is the count that it noted."""

    weight: int
    limit: int

    def take(self, word):
        """Return the cause, the permit and the new word."""
        if word.gone:
            return GONE, None, word
        if word.locked:
            return LOCKED, None, word
        if word.shares == self.limit:
            return SHARED, None, word
        return NOT_REFUSED, word.count, word._replace(shares=word.shares + self.weight)

    def check(self, word, permit):
        """Return the cause; the word stays as it is."""
        if word.gone:
            return GONE
        if word.locked:
            return LOCKED
        if word.count != permit:
            return CHANGED
        return NOT_REFUSED

    def lock(self, word, permit):
        """Return the cause and the new word; the permit is used up."""
        if word.gone:
            return GONE, word
        if word.locked:
            return LOCKED, word
        if word.count != permit:
            return CHANGED, word
        if word.shares > self.weight:
            return SHARED, word
        return NOT_REFUSED, word._replace(locked=True, shares=0)

    def give_back(self, word):
        """Return the word with its shares sunk by the weight."""
        return word._replace(shares=max(0, word.shares - self.weight))

    def unlock(self, word):
        """Return the word not locked, with its count raised."""
        return word._replace(locked=False, count=word.count + 1)

    def unlock_as_gone(self, word):
        """Return the word not locked and gone, with its count raised."""
        return word._replace(locked=False, gone=True, count=word.count + 1)

    def revive(self, word):
        """Return a gone word not gone and with its count raised, any other word as it is."""
        if word.gone:
            return word._replace(gone=False, count=word.count + 1)
        return word


OPTIMISTIC = Latch(weight=0, limit=1)
COUPLING = Latch(weight=1, limit=512)


# ---------------------------------------------------------------------------
# Section 5: tree and pools

LEAF = 1
NODE4 = 4
NODE16 = 16
NODE48 = 48
NODE256 = 256

LEAVES = 512
NODE4S = 128
NODE16S = 32
NODE48S = 16
NODE256S = 8
POOLS = (LEAVES, NODE4S, NODE16S, NODE48S, NODE256S)

NEXT_LARGER_KIND = {NODE4: NODE16, NODE16: NODE48, NODE48: NODE256}


class Slot(NamedTuple):
    """A kind and the number of one of its slots."""

    kind: int
    number: int


ROOT = Slot(NODE256, 0)


class Leaf(NamedTuple):
    """The code of one key and its value."""

    code: bytes
    value: int


class Node:
    """A prefix, and children by their bytes."""

    def __init__(self, prefix=b"", children=()):
        self.prefix = prefix
        self.children = dict(children)

    def smallest_child(self, above=-1):
        """Return the slot of the smallest child under a byte larger than above, or None."""
        larger = [byte for byte in self.children if byte > above]
        return self.children[min(larger)] if larger else None


class Record(NamedTuple):
    """A retired slot and the epoch in which it was retired."""

    slot: Slot
    epoch: int


class Tree:
    """Latch words, nodes and leaves, queues of spare slots, and the queue of retired slots."""

    def __init__(self, latch, pools=POOLS):
        leaves, node4s, node16s, node48s, node256s = pools
        self.latch = latch
        self.spare = {
            LEAF: deque(range(leaves)),
            NODE4: deque(range(node4s)),
            NODE16: deque(range(node16s)),
            NODE48: deque(range(node48s)),
            NODE256: deque(range(1, node256s + 1)),
        }
        self.pool_slots = [Slot(kind, number) for kind in self.spare for number in self.spare[kind]]
        self.words = {slot: Word() for slot in self.pool_slots if slot.kind != LEAF}
        self.words[ROOT] = Word()
        self.nodes = {ROOT: Node()}
        self.leaves = {}
        self.retired = deque()
        self.epoch = 0

    def draw(self, kind):
        """Take the slot at the head of the queue of spare slots."""
        return Slot(kind, self.spare[kind].popleft())

    def make_spare(self, slot):
        """Put a slot at the tail of the queue of its pool."""
        self.spare[slot.kind].append(slot.number)

    # Section 8: retiring and sweeping

    def retire(self, slot):
        """Put a record of the slot and the present epoch at the tail of the queue."""
        self.retired.append(Record(slot, self.epoch))

    def sweep(self, noted_epochs):
        """Raise the epoch, free what no open operation may still read, and return how many."""
        self.epoch += 1
        staying = deque()
        freed = 0
        for record in self.retired:
            if all(record.epoch < noted for noted in noted_epochs):
                self.make_spare(record.slot)
                freed += 1
            else:
                staying.append(record)
        self.retired = staying
        return freed

    def copy(self):
        """Return a tree of its own with the same contents."""
        other = copy.copy(self)
        other.spare = {kind: deque(queue) for kind, queue in self.spare.items()}
        other.words = dict(self.words)
        other.nodes = {slot: Node(node.prefix, node.children) for slot, node in self.nodes.items()}
        other.leaves = dict(self.leaves)
        other.retired = deque(self.retired)
        return other


# ---------------------------------------------------------------------------
# Section 6: seats and calls

SEATS = 8
CALL_LIMIT = 2**50


class Seat:
    """One user: closed, idle (open, no operation) or busy (open, one operation)."""

    def __init__(self):
        self.is_open = False
        self.operation = None


class Index:
    """The five calls; each refuses in the order that section 6 gives."""

    def __init__(self, coding, latch, pools=POOLS):
        self.coding = coding
        self.tree = Tree(latch, pools)
        self.seats = [Seat() for _ in range(SEATS)]
        self.accepted = 0

    def open(self, s):
        """Open a seat: refusals 1, 3, 7."""
        seat = self.existing_seat(s)
        if seat.is_open:
            raise Refused(3)
        self.accept()
        seat.is_open = True
        return ("ok",)

    def close(self, s):
        """Close a seat: refusals 1, 2, 4, 7."""
        seat = self.open_seat(s)
        if seat.operation is not None:
            raise Refused(4)
        self.accept()
        seat.is_open = False
        return ("ok",)

    def begin(self, request, s, key, value=None):
        """Begin a find, add, remove or next: refusals 1, 2, 4, 6, 7."""
        seat = self.open_seat(s)
        if seat.operation is not None:
            raise Refused(4)
        k = self.coding.encode(key)
        self.accept()
        seat.operation = Operation(request, k, value, self.tree.epoch)
        return ("ok",)

    def step(self, s):
        """Do one step of the seat's operation: refusals 1, 2, 5, 7."""
        seat = self.open_seat(s)
        if seat.operation is None:
            raise Refused(5)
        self.accept()
        outcome = seat.operation.step(self.tree)
        if seat.operation.has_answered:
            seat.operation = None
        if outcome[0] == "next":
            _, code, value = outcome
            return ("next", self.coding.decode(code), value)
        return outcome

    def sweep(self):
        """Sweep: refusal 7."""
        self.accept()
        return ("swept", self.tree.sweep([operation.epoch for operation in self.open_operations()]))

    def existing_seat(self, s):
        """Return the seat, or refuse with 1."""
        if s >= SEATS:
            raise Refused(1)
        return self.seats[s]

    def open_seat(self, s):
        """Return the seat if it is open, or refuse with 1 or 2."""
        seat = self.existing_seat(s)
        if not seat.is_open:
            raise Refused(2)
        return seat

    def accept(self):
        """Count an accepted call, or refuse it with 7."""
        if self.accepted >= CALL_LIMIT:
            raise Refused(7)
        self.accepted += 1

    def open_operations(self):
        """Return the operations of the busy seats."""
        return [seat.operation for seat in self.seats if seat.operation is not None]


# ---------------------------------------------------------------------------
# Section 7: operations

LONGEST_CODE = 16

GO = ("go",)

COURSES = {
    # Section 7.4: courses of add
    "Insert": ("Lock n", "Draw", "Write n", "Unlock n"),
    "Split": ("Lock n", "Draw", "Write n", "Unlock n"),
    "Grow": ("Lock p", "Lock n", "Draw", "Write p", "Unlock n as gone", "Unlock p"),
    "Miss": ("Lock p", "Lock n", "Draw", "Write n", "Write p", "Unlock n", "Unlock p"),
    # Section 7.5: courses of remove
    "InPlace": ("Lock n", "Write n", "Unlock n"),
    "Collapse, leaf left": ("Lock p", "Lock n", "Write p", "Unlock n as gone", "Unlock p"),
    "Collapse, m left": (
        "Lock p", "Lock n", "Lock m", "Write m", "Write p", "Unlock m", "Unlock n as gone", "Unlock p",
    ),
}


class Holding:
    """A node, the depth noted when it was reached, and a permit or a lock (no permit) on it."""

    def __init__(self, node, depth, permit):
        self.node = node
        self.depth = depth
        self.permit = permit

    @property
    def is_lock(self):
        """Say whether this is a lock."""
        return self.permit is None


class Choice(NamedTuple):
    """A course and what Look fixed for it."""

    course: str
    answer: tuple
    leaf: Slot | None = None  # Split: the other leaf. Remove: the leaf with the key.
    place: int | None = None  # Miss: i.
    left_byte: int | None = None  # Collapse: the byte of the child left in n.
    left_child: Slot | None = None  # Collapse: the child left in n.


class Operation:
    """An open operation; the methods listed in ITEMS are its steps."""

    def __init__(self, request, k, value, epoch):
        self.request = request  # find, add, remove or next
        self.k = k
        self.value = value
        self.epoch = epoch
        self.has_answered = False
        self.start_attempt()

    def start_attempt(self):
        """Hold nothing; Take on the root is the next step."""
        self.holdings = []
        self.stage = "Take"  # the item that the next step does
        self.reached = (ROOT, 0)  # the node to take, and its depth
        self.n = None  # the holding of the node at work
        self.p = None  # the holding of its parent
        self.m = None  # the holding of the node left, in a collapse
        self.answer_in_hand = None  # what Check n or the last final check answers
        self.choice = None  # the course that is under way
        self.place = 0  # the place in the course, or in the holdings at the final checks
        self.drawn = []  # slots drawn and not yet linked
        self.mode = "By key"  # the mode of the next Look of a next
        self.byte_taken = None  # mode Back: the byte taken at n on the way of the key

    def step(self, tree):
        """Do one step and return its outcome."""
        return self.ITEMS[self.stage](self, tree)

    # Section 7.1: n, d, P, at, b and a

    def prefix(self, tree):
        """Return P, the prefix of n as it stands now."""
        return tree.nodes[self.n.node].prefix

    def at(self, tree):
        """Return at = d + |P|."""
        return self.n.depth + len(self.prefix(tree))

    def b(self, tree):
        """Return the key's byte in n."""
        return self.k[self.at(tree)]

    def a(self):
        """Return the byte under which p leads to n."""
        return self.k[self.n.depth - 1]

    # Section 7.2: the walk

    def take(self, tree):
        """Take: take a permit on the node that was reached."""
        node, depth = self.reached
        cause, permit, word = tree.latch.take(tree.words[node])
        if cause:
            return self.restart(tree, cause, node, depth)
        tree.words[node] = word
        self.n = Holding(node, depth, permit)
        self.holdings.append(self.n)
        self.stage = "Look" if node == ROOT else "Check p"
        return GO

    def check_p(self, tree):
        """Check p: check p's permit, and let go of the node above p unless this is a next."""
        cause = tree.latch.check(tree.words[self.p.node], self.p.permit)
        if cause:
            return self.restart(tree, cause, self.p.node, self.p.depth)
        if self.request != "next":
            for above in self.holdings[:-2]:
                self.let_go(tree, above)
        self.stage = "Look"
        return GO

    def look(self, tree):
        """Look: read n, and the child it comes to if that is a leaf."""
        if self.at(tree) >= LONGEST_CODE:
            return self.restart_look(tree)
        if self.request != "next":
            return self.look_for_key(tree)
        if self.mode == "By key":
            return self.look_by_key(tree)
        if self.mode == "Back":
            return self.look_back(tree)
        return self.look_down(tree)

    def reach(self, node, depth):
        """Make a child of n the node to take; the present n becomes p."""
        self.p = self.n
        self.reached = (node, depth)
        self.stage = "Take"
        return GO

    def restart_look(self, tree):
        """Restart from a Look, with cause 3, naming the node looked at."""
        return self.restart(tree, CHANGED, self.n.node, self.n.depth)

    def first_difference(self, tree):
        """Return the first i with P[i] not k[d + i], as far as both go, or None."""
        d = self.n.depth
        for i, byte in enumerate(self.prefix(tree)):
            if d + i >= len(self.k):
                return None
            if byte != self.k[d + i]:
                return i
        return None

    # Section 7.3: Look for find, add and remove

    def look_for_key(self, tree):
        """Look of a find, add or remove, after the test of at."""
        i = self.first_difference(tree)
        if i is not None:
            return self.look_came_to_miss(i)
        if len(self.k) <= self.at(tree):
            return self.restart_look(tree)
        node = tree.nodes[self.n.node]
        child = node.children.get(self.b(tree))
        if child is None:
            return self.look_came_to_none(node)
        if child.kind != LEAF:
            return self.reach(child, self.at(tree) + 1)
        if tree.leaves[child].code == self.k:
            return self.look_came_to_same(tree, child)
        return self.look_came_to_other(child)

    def look_came_to_miss(self, i):
        """Outcome miss at i."""
        if self.request == "add":
            return self.start_course(Choice("Miss", ("added",), place=i))
        return self.check_n_is_to_answer(("absent",))

    def look_came_to_none(self, node):
        """Outcome none."""
        if self.request == "add":
            is_full = len(node.children) == self.n.node.kind
            return self.start_course(Choice("Grow" if is_full else "Insert", ("added",)))
        return self.check_n_is_to_answer(("absent",))

    def look_came_to_other(self, leaf):
        """Outcome other."""
        if self.request == "add":
            return self.start_course(Choice("Split", ("added",), leaf=leaf))
        return self.check_n_is_to_answer(("absent",))

    def look_came_to_same(self, tree, leaf):
        """Outcome same."""
        value = tree.leaves[leaf].value
        if self.request == "find":
            return self.check_n_is_to_answer(("found", value))
        if self.request == "add":
            return self.check_n_is_to_answer(("present", value))
        return self.start_course(self.course_of_remove(tree, leaf, value))

    def check_n_is_to_answer(self, answer):
        """Make Check n the next step."""
        self.answer_in_hand = answer
        self.stage = "Check n"
        return GO

    def check_n(self, tree):
        """Check n: check n's permit and answer."""
        cause = tree.latch.check(tree.words[self.n.node], self.n.permit)
        if cause:
            return self.restart(tree, cause, self.n.node, self.n.depth)
        return self.answer(tree, self.answer_in_hand)

    # Sections 7.4 and 7.5: courses

    def start_course(self, choice):
        """Make the first step of the course the next step."""
        self.choice = choice
        self.place = 0
        self.stage = COURSES[choice.course][0]
        return GO

    def go_on(self, tree):
        """Go on to the next step of the course; after the last one, answer."""
        self.place += 1
        steps = COURSES[self.choice.course]
        if self.place == len(steps):
            return self.answer(tree, self.choice.answer)
        self.stage = steps[self.place]
        return GO

    def course_of_remove(self, tree, leaf, value):
        """Choose InPlace or a form of Collapse."""
        answer = ("removed", value)
        b = self.b(tree)
        left = [(byte, child) for byte, child in tree.nodes[self.n.node].children.items() if byte != b]
        if self.n.node == ROOT or len(left) >= 2:
            return Choice("InPlace", answer, leaf=leaf)
        [(left_byte, left_child)] = left
        form = "Collapse, leaf left" if left_child.kind == LEAF else "Collapse, m left"
        return Choice(form, answer, leaf=leaf, left_byte=left_byte, left_child=left_child)

    def lock(self, tree, x):
        """Lock x: lock the node of a holding with its permit."""
        cause, word = tree.latch.lock(tree.words[x.node], x.permit)
        if cause:
            return self.restart(tree, cause, x.node, x.depth)
        tree.words[x.node] = word
        x.permit = None
        return self.go_on(tree)

    def lock_p(self, tree):
        """Lock p."""
        return self.lock(tree, self.p)

    def lock_n(self, tree):
        """Lock n."""
        return self.lock(tree, self.n)

    def lock_m(self, tree):
        """Lock m: Take on m and Lock of m with that permit."""
        node, depth = self.choice.left_child, self.at(tree) + 1
        cause, permit, word = tree.latch.take(tree.words[node])
        if cause:
            return self.restart(tree, cause, node, depth)
        tree.words[node] = word
        self.m = Holding(node, depth, permit)
        self.holdings.append(self.m)
        return self.lock(tree, self.m)

    def draw(self, tree):
        """Draw: take a leaf and, if the course needs one, a node, and fill them in."""
        if not tree.spare[LEAF]:
            return self.answer(tree, ("noroom", LEAF))
        leaf = tree.draw(LEAF)
        kind = self.kind_of_new_node()
        if kind is not None and not tree.spare[kind]:
            tree.make_spare(leaf)
            return self.answer(tree, ("noroom", kind))
        tree.leaves[leaf] = Leaf(self.k, self.value)
        self.drawn = [leaf]
        if kind is not None:
            node = tree.draw(kind)
            tree.words[node] = tree.latch.revive(tree.words[node])
            tree.nodes[node] = self.new_node(tree, leaf)
            self.drawn = [leaf, node]
        return self.go_on(tree)

    def kind_of_new_node(self):
        """Return the kind of the node that the course needs, or None."""
        if self.choice.course == "Insert":
            return None
        if self.choice.course == "Grow":
            return NEXT_LARGER_KIND[self.n.node.kind]
        return NODE4

    def new_node(self, tree, leaf):
        """Return the new node of a Split, Grow or Miss, with the new leaf in it."""
        k, d, at, P = self.k, self.n.depth, self.at(tree), self.prefix(tree)
        if self.choice.course == "Split":
            x = tree.leaves[self.choice.leaf].code
            q = at + 1
            while k[q] == x[q]:
                q += 1
            return Node(k[at + 1 : q], {x[q]: self.choice.leaf, k[q]: leaf})
        if self.choice.course == "Grow":
            node = Node(P, tree.nodes[self.n.node].children)
            node.children[self.b(tree)] = leaf
            return node
        i = self.choice.place
        return Node(P[:i], {P[i]: self.n.node, k[d + i]: leaf})

    def write_n(self, tree):
        """Write n, in Insert, Split, Miss and InPlace."""
        node = tree.nodes[self.n.node]
        if self.choice.course == "Insert":
            [leaf] = self.drawn
            node.children[self.b(tree)] = leaf
            self.drawn = []
        elif self.choice.course == "Split":
            [_, new_node] = self.drawn
            node.children[self.b(tree)] = new_node
            self.drawn = []
        elif self.choice.course == "Miss":
            node.prefix = node.prefix[self.choice.place + 1 :]
        else:
            del node.children[self.b(tree)]
            tree.retire(self.choice.leaf)
        return self.go_on(tree)

    def write_p(self, tree):
        """Write p, in Grow, Miss and Collapse."""
        parent = tree.nodes[self.p.node]
        if self.choice.course == "Grow":
            [_, new_node] = self.drawn
            parent.children[self.a()] = new_node
            self.drawn = []
            tree.retire(self.n.node)
        elif self.choice.course == "Miss":
            [_, new_node] = self.drawn
            parent.children[self.a()] = new_node
            self.drawn = []
        else:
            parent.children[self.a()] = self.choice.left_child
            tree.retire(self.choice.leaf)
            tree.retire(self.n.node)
        return self.go_on(tree)

    def write_m(self, tree):
        """Write m: its prefix becomes P + the byte of m in n + the old prefix of m."""
        node = tree.nodes[self.m.node]
        node.prefix = self.prefix(tree) + bytes([self.choice.left_byte]) + node.prefix
        return self.go_on(tree)

    def unlock(self, tree, x):
        """Unlock x: end the lock plainly, and the holding goes."""
        self.let_go(tree, x)
        return self.go_on(tree)

    def unlock_p(self, tree):
        """Unlock p."""
        return self.unlock(tree, self.p)

    def unlock_n(self, tree):
        """Unlock n."""
        return self.unlock(tree, self.n)

    def unlock_m(self, tree):
        """Unlock m."""
        return self.unlock(tree, self.m)

    def unlock_n_as_gone(self, tree):
        """Unlock n as gone."""
        tree.words[self.n.node] = tree.latch.unlock_as_gone(tree.words[self.n.node])
        self.holdings.remove(self.n)
        return self.go_on(tree)

    # Section 7.6: next

    def look_by_key(self, tree):
        """Look of a next in mode By key, after the test of at."""
        node = tree.nodes[self.n.node]
        i = self.first_difference(tree)
        if i is not None and node.prefix[i] > self.k[self.n.depth + i]:
            return self.pick_or_restart(tree, node.smallest_child())
        if i is not None:
            return self.go_back(tree)
        if len(self.k) <= self.at(tree):
            return self.restart_look(tree)
        b = self.b(tree)
        child = node.children.get(b)
        if child is not None and (child.kind != LEAF or tree.leaves[child].code >= self.k):
            return self.pick(tree, child, "By key")
        return self.pick_or_go_back(tree, node.smallest_child(above=b))

    def look_back(self, tree):
        """Look of a next in mode Back, after the test of at."""
        node = tree.nodes[self.n.node]
        return self.pick_or_go_back(tree, node.smallest_child(above=self.byte_taken))

    def look_down(self, tree):
        """Look of a next in mode Down, after the test of at."""
        return self.pick_or_restart(tree, tree.nodes[self.n.node].smallest_child())

    def pick(self, tree, child, mode):
        """Pick a leaf or a node; the mode is for the Look at the node."""
        if child.kind == LEAF:
            leaf = tree.leaves[child]
            return self.final_checks_follow(("next", leaf.code, leaf.value))
        self.mode = mode
        return self.reach(child, self.at(tree) + 1)

    def pick_or_restart(self, tree, child):
        """Pick the child, in mode Down from now on; if there is none, restart."""
        if child is None:
            return self.restart_look(tree)
        return self.pick(tree, child, "Down")

    def pick_or_go_back(self, tree, child):
        """Pick the child, in mode Down from now on; if there is none, go back."""
        if child is None:
            return self.go_back(tree)
        return self.pick(tree, child, "Down")

    def go_back(self, tree):
        """Go back to the node above n on the way of the key; from the root, none is in hand."""
        if self.n.node == ROOT:
            return self.final_checks_follow(("none",))
        self.byte_taken = self.k[self.n.depth - 1]
        self.n = self.holdings[self.holdings.index(self.n) - 1]
        self.mode = "Back"
        self.stage = "Look"
        return GO

    def final_checks_follow(self, answer):
        """Make the final check of the first permit the next step."""
        self.answer_in_hand = answer
        self.place = 0
        self.stage = "Final check"
        return GO

    def final_check(self, tree):
        """Final check: check one permit; the last one answers."""
        holding = self.holdings[self.place]
        cause = tree.latch.check(tree.words[holding.node], holding.permit)
        if cause:
            return self.restart(tree, cause, holding.node, holding.depth)
        self.place += 1
        if self.place == len(self.holdings):
            return self.answer(tree, self.answer_in_hand)
        return GO

    # Section 7.7: restarts and answers

    def restart(self, tree, cause, node, depth):
        """Let go of everything and begin a new attempt."""
        self.let_go_of_all(tree)
        self.start_attempt()
        return ("again", cause, node.kind, node.number, depth)

    def answer(self, tree, outcome):
        """Let go of everything and answer."""
        self.let_go_of_all(tree)
        self.has_answered = True
        return outcome

    def let_go(self, tree, holding):
        """Unlock a lock plainly, or give back a permit; the holding goes."""
        word = tree.words[holding.node]
        tree.words[holding.node] = tree.latch.unlock(word) if holding.is_lock else tree.latch.give_back(word)
        self.holdings.remove(holding)

    def let_go_of_all(self, tree):
        """Let go of every holding."""
        for holding in list(self.holdings):
            self.let_go(tree, holding)

    ITEMS = {
        "Take": take,
        "Check p": check_p,
        "Look": look,
        "Check n": check_n,
        "Lock p": lock_p,
        "Lock n": lock_n,
        "Lock m": lock_m,
        "Draw": draw,
        "Write n": write_n,
        "Write p": write_p,
        "Write m": write_m,
        "Unlock n": unlock_n,
        "Unlock n as gone": unlock_n_as_gone,
        "Unlock p": unlock_p,
        "Unlock m": unlock_m,
        "Final check": final_check,
    }


# ---------------------------------------------------------------------------
# Section 13: script

LONGEST_SCRIPT = 32768
LONGEST_LINE = 64
LARGEST_VALUE = 2**32 - 1

CODINGS = {b"n": NumberCoding(), b"t": TextCoding()}
LATCHES = {b"o": OPTIMISTIC, b"c": COUPLING}

WORDS_AFTER_LETTER = {
    b"O": ("seat",),
    b"C": ("seat",),
    b"F": ("seat", "key"),
    b"A": ("seat", "key", "value"),
    b"R": ("seat", "key"),
    b"N": ("seat", "key"),
    b"S": ("seat",),
    b"W": (),
}

REQUESTS = {"F": "find", "A": "add", "R": "remove", "N": "next"}


class Call(NamedTuple):
    """A call as a line of the script gives it."""

    letter: str
    seat: int | None = None
    key: int | bytes | None = None
    value: int | None = None


def script_lines(script):
    """Return the lines of a script without their 0A."""
    lines = script.split(b"\n")
    if lines[-1] == b"":
        lines.pop()
    return lines


def read_header(line):
    """Return the coding and the latch that line 1 names, or refuse it with 9."""
    words = line.split(b" ")
    if len(words) != 3 or words[0] != b"=" or words[1] not in CODINGS or words[2] not in LATCHES:
        raise Refused(9)
    return CODINGS[words[1]], LATCHES[words[2]]


def read_call(line, coding):
    """Return the call of a later line, or refuse it with 9."""
    if len(line) > LONGEST_LINE:
        raise Refused(9)
    letter, *words = line.split(b" ")
    if letter not in WORDS_AFTER_LETTER or len(words) != len(WORDS_AFTER_LETTER[letter]):
        raise Refused(9)
    parts = {}
    for name, word in zip(WORDS_AFTER_LETTER[letter], words):
        if name == "seat":
            parts[name] = read_seat(word)
        elif name == "key" and isinstance(coding, NumberCoding):
            parts[name] = read_number(word)
        elif name == "key":
            parts[name] = read_text(word)
        else:
            parts[name] = read_value(word)
    return Call(letter.decode("ascii"), **parts)


def read_digits(word):
    """Return the number of digits without a leading zero."""
    if word == b"" or any(byte not in b"0123456789" for byte in word):
        raise Refused(9)
    if len(word) > 1 and word[:1] == b"0":
        raise Refused(9)
    return int(word)


def read_seat(word):
    """Return the seat that one digit names."""
    if len(word) != 1:
        raise Refused(9)
    return read_digits(word)


def read_number(word):
    """Return a number key."""
    if word[:1] == b"-":
        number = -read_digits(word[1:])
        if number == 0:
            raise Refused(9)
    else:
        number = read_digits(word)
    if not NumberCoding.smallest <= number <= NumberCoding.largest:
        raise Refused(9)
    return number


def read_value(word):
    """Return a value."""
    value = read_digits(word)
    if value > LARGEST_VALUE:
        raise Refused(9)
    return value


def read_text(word):
    """Return a text key."""
    if word[:1] != b"'" or any(not 0x21 <= byte <= 0x7E for byte in word):
        raise Refused(9)
    return word[1:]


def make_call(index, call):
    """Make the call on the index and return its outcome."""
    if call.letter == "O":
        return index.open(call.seat)
    if call.letter == "C":
        return index.close(call.seat)
    if call.letter == "S":
        return index.step(call.seat)
    if call.letter == "W":
        return index.sweep()
    return index.begin(REQUESTS[call.letter], call.seat, call.key, call.value)


# ---------------------------------------------------------------------------
# Section 14: history


class Observer:
    """Is told of every call; does nothing."""

    def before_call(self, index, call):
        """Look at the index before a call."""

    def after_call(self, index, call, outcome):
        """Look at the index after a call that had this outcome."""


class Player:
    """Plays the lines after line 1 on a just made index."""

    def __init__(self, coding, latch, pools=POOLS, observer=None):
        self.coding = coding
        self.index = Index(coding, latch, pools)
        self.observer = observer or Observer()

    def play_line(self, line):
        """Make the call of a line and return the outcome."""
        try:
            call = read_call(line, self.coding)
        except Refused as refused:
            return ("no", refused.number)
        self.observer.before_call(self.index, call)
        try:
            outcome = make_call(self.index, call)
        except Refused as refused:
            outcome = ("no", refused.number)
        self.observer.after_call(self.index, call, outcome)
        return outcome


def show_key(key):
    """Return a key as it stands in a script."""
    return b"'" + key if isinstance(key, bytes) else b"%d" % key


def history_line(number, outcome):
    """Return an output line with its 0A."""
    words = [b"%d" % number, outcome[0].encode("ascii")]
    if outcome[0] == "next":
        _, key, value = outcome
        words += [show_key(key), b"%d" % value]
    else:
        words += [b"%d" % part for part in outcome[1:]]
    return b" ".join(words) + b"\n"


def history_lines(script, pools=POOLS, observer=None):
    """Play a script and give its output lines, one after another."""
    if len(script) > LONGEST_SCRIPT:
        yield history_line(1, ("no", 10))
        return
    lines = script_lines(script)
    try:
        coding, latch = read_header(lines[0] if lines else b"")
    except Refused as refused:
        yield history_line(1, ("no", refused.number))
        return
    yield history_line(1, ("ok",))
    player = Player(coding, latch, pools, observer)
    for number, line in enumerate(lines[1:], start=2):
        yield history_line(number, player.play_line(line))


def history(script, pools=POOLS, observer=None):
    """Return the whole history of a script."""
    return b"".join(history_lines(script, pools, observer))


# ---------------------------------------------------------------------------
# Sections 9 to 11, checked by brute force after every call

STEPS_ALONE = 300


class Violation(Exception):
    """The index did what sections 9 to 11 rule out."""


class OrderedMap:
    """The ordered map of section 10; number keys are compared as numbers, texts as texts."""

    def __init__(self):
        self.pairs = {}

    def answer(self, request, key, value):
        """Take one operation and return its answer."""
        if request == "next":
            keys = [held for held in self.pairs if held >= key]
            return ("next", min(keys), self.pairs[min(keys)]) if keys else ("none",)
        if request == "find":
            return ("found", self.pairs[key]) if key in self.pairs else ("absent",)
        if request == "remove":
            return ("removed", self.pairs.pop(key)) if key in self.pairs else ("absent",)
        if key in self.pairs:
            return ("present", self.pairs[key])
        self.pairs[key] = value
        return ("added",)


class Named:
    """What the checker knows of an operation: its request, own steps and named step."""

    def __init__(self, call):
        self.request = REQUESTS[call.letter]
        self.key = call.key
        self.value = call.value
        self.own_steps = []
        self.named_step = None
        self.answer_of_map = None
        self.first_final_check = None  # next: step and answer of the map, while not yet named
        self.steps_alone = 0

    def name(self, step, answer_of_map):
        """Give the operation its named step, which is an own step and is never given again."""
        if self.named_step is not None:
            raise Violation(f"{self.request} {self.key} has a named step already")
        if step not in self.own_steps:
            raise Violation(f"{self.request} {self.key} is named at a step that is not its own")
        self.named_step = step
        self.answer_of_map = answer_of_map


class Checker(Observer):
    """Checks sections 9, 10 and 11 after every call."""

    LAST_WRITE = {
        "Insert": "Write n",
        "Split": "Write n",
        "InPlace": "Write n",
        "Grow": "Write p",
        "Miss": "Write p",
        "Collapse, leaf left": "Write p",
        "Collapse, m left": "Write p",
    }

    def __init__(self):
        self.map = OrderedMap()
        self.calls = 0
        self.operations = {}  # by seat
        self.item = None  # the item that the present step does
        self.course = None  # the course it belongs to
        self.place = None  # its place in the course or in the final checks
        self.alone = None  # the operation that is open alone

    def before_call(self, index, call):
        """Note which item a step is about to do."""
        self.calls += 1
        self.item = self.course = self.place = None
        if call.letter == "S" and call.seat < SEATS and index.seats[call.seat].operation is not None:
            operation = index.seats[call.seat].operation
            self.item = operation.stage
            self.course = operation.choice.course if operation.choice else None
            self.place = operation.place

    def after_call(self, index, call, outcome):
        """Check all three sections."""
        if call.letter in REQUESTS and outcome == ("ok",):
            self.operations[call.seat] = Named(call)
        if self.item is not None:
            self.check_step(call.seat, outcome)
        self.check_open_operations(index)
        self.check_slots(index)
        self.check_alone(index, call)

    # Section 10

    def check_step(self, seat, outcome):
        """Name the operation at its step, and compare its answer with the one of the map."""
        operation = self.operations[seat]
        operation.own_steps.append(self.calls)
        answers = outcome[0] not in ("go", "again")
        if self.course is not None and self.item == self.LAST_WRITE[self.course]:
            operation.name(self.calls, self.ask_map(operation))
        if self.item == "Final check" and self.place == 0:
            operation.first_final_check = (self.calls, self.ask_map(operation))
        if not answers:
            return
        if outcome[0] in ("next", "none"):
            operation.name(*operation.first_final_check)
        elif outcome[0] in ("found", "absent", "present"):
            operation.name(self.calls, self.ask_map(operation))
        elif outcome[0] == "noroom":
            operation.name(self.calls, outcome)
        if operation.named_step is None:
            raise Violation(f"{operation.request} {operation.key} of seat {seat} answered without a named step")
        if outcome != operation.answer_of_map:
            raise Violation(
                f"{operation.request} {operation.key} of seat {seat} answered {outcome}, "
                f"but the map answers {operation.answer_of_map} at step {operation.named_step}"
            )
        del self.operations[seat]

    def ask_map(self, operation):
        """Let the map take the operation."""
        return self.map.answer(operation.request, operation.key, operation.value)

    def check_open_operations(self, index):
        """Check that the busy seats are those whose operations have not answered."""
        busy = {s for s, seat in enumerate(index.seats) if seat.operation is not None}
        if busy != set(self.operations):
            raise Violation(f"seats {sorted(busy)} are busy, but {sorted(self.operations)} have open operations")

    # Section 9

    def check_slots(self, index):
        """Check that every slot is in exactly one state."""
        tree = index.tree
        states = {}
        waiting = [ROOT]
        while waiting:
            slot = waiting.pop()
            self.note_state(states, slot, "linked")
            if slot.kind != LEAF:
                waiting.extend(tree.nodes[slot].children.values())
        for kind, queue in tree.spare.items():
            for number in queue:
                self.note_state(states, Slot(kind, number), "spare")
        for operation in index.open_operations():
            for slot in operation.drawn:
                self.note_state(states, slot, "drawn")
        for record in tree.retired:
            self.note_state(states, record.slot, "retired")
        for slot in tree.pool_slots:
            if slot not in states:
                raise Violation(f"slot {slot.kind}/{slot.number} is in no state")
        if len(states) != len(tree.pool_slots) + 1:
            raise Violation("there are slots that belong to no pool")

    @staticmethod
    def note_state(states, slot, state):
        """Note the state of a slot that has none yet."""
        if slot in states:
            raise Violation(f"slot {slot.kind}/{slot.number} is {states[slot]} and {state}")
        states[slot] = state

    # Section 11

    def check_alone(self, index, call):
        """Check that an operation that is open alone answers soon."""
        alone = list(self.operations.values())[0] if len(self.operations) == 1 else None
        if alone is not self.alone:
            self.alone = alone
            if alone is not None:
                alone.steps_alone = 0
                self.run_ahead(index, alone)
        elif alone is not None and self.item is not None:
            alone.steps_alone += 1
            if alone.steps_alone >= STEPS_ALONE:
                raise Violation(f"{alone.request} {alone.key} did not answer within {STEPS_ALONE} steps alone")

    @staticmethod
    def run_ahead(index, alone):
        """Step a copy of the operation on a copy of the tree until it answers."""
        [operation] = index.open_operations()
        tree, operation = index.tree.copy(), copy.deepcopy(operation)
        for _ in range(STEPS_ALONE):
            operation.step(tree)
            if operation.has_answered:
                return
        raise Violation(f"{alone.request} {alone.key} would not answer within {STEPS_ALONE} steps alone")


# ---------------------------------------------------------------------------


def read_pools(text):
    """Return the five pool sizes of the option --pools."""
    sizes = tuple(int(word) for word in text.split(","))
    if len(sizes) != len(POOLS) or min(sizes) < 0:
        raise argparse.ArgumentTypeError("five sizes are wanted: LEAVES,N4,N16,N48,N256")
    return sizes


def main():
    """Read a script from standard input and print its history."""
    parser = argparse.ArgumentParser(description="Print the history of the script on standard input.")
    parser.add_argument("--pools", type=read_pools, default=POOLS, help="LEAVES,N4,N16,N48,N256")
    parser.add_argument("--check", action="store_true", help="check sections 9 to 11 after every call")
    options = parser.parse_args()
    script = sys.stdin.buffer.read()
    number = 0
    try:
        for line in history_lines(script, options.pools, Checker() if options.check else None):
            number += 1
            sys.stdout.buffer.write(line)
    except Violation as violation:
        sys.stdout.buffer.flush()
        print(f"line {number + 1}: {violation}", file=sys.stderr)
        return 1
    sys.stdout.buffer.flush()
    return 0


if __name__ == "__main__":
    sys.exit(main())
