#!/usr/bin/env python3
"""Tests of the oracle, the generator and the comparison.

Run: python3 -m unittest -v test_oracle   (in this directory)
"""

import contextlib
import io
import os
import stat
import sys
import tempfile
import unittest
from collections import Counter
from unittest import mock

import compare
import oracle
import scripts
import tally
from oracle import ROOT, Refused, Slot, Violation, Word

# The script of nineteen lines and its history, as docs/RULES.md has them.
WORKED_SCRIPT = """\
= n o
O 0
O 1
A 0 5 70
S 0
F 1 5
S 1
S 0
S 0
S 1
S 1
S 0
S 0
S 0
S 1
S 1
S 1
S 2
W
"""
WORKED_HISTORY = """\
1 ok
2 ok
3 ok
4 ok
5 go
6 ok
7 go
8 go
9 go
10 go
11 again 2 256 0 0
12 go
13 go
14 added
15 go
16 go
17 found 70
18 no 2
19 swept 0
"""


def play(script):
    """Return the history of a script, checked."""
    return oracle.history(script, observer=oracle.Checker())


def last_outcome(script):
    """Return the outcome on the last line of a history."""
    return play(script).split(b"\n")[-2].split(b" ", 1)[1]


class WorkedExamples(unittest.TestCase):
    """Section 16."""

    def test_script_of_nineteen_lines(self):
        self.assertEqual(play(WORKED_SCRIPT.encode()).decode(), WORKED_HISTORY)

    def test_codes(self):
        number, text = oracle.NumberCoding(), oracle.TextCoding()
        self.assertEqual(number.encode(-1), bytes.fromhex("7FFFFFFF"))
        self.assertEqual(number.encode(1), bytes.fromhex("80000001"))
        self.assertEqual(number.encode(2), bytes.fromhex("80000002"))
        self.assertEqual(number.encode(256), bytes.fromhex("80000100"))
        self.assertEqual(text.encode(b""), bytes.fromhex("00"))
        self.assertEqual(text.encode(b"a"), bytes.fromhex("6100"))
        self.assertEqual(text.encode(b"x" * 15), b"x" * 15 + b"\x00")
        for coding, key in ((text, b"x" * 16), (text, b"a\x00"), (number, 2**31), (number, -(2**31) - 1)):
            with self.assertRaises(Refused) as caught:
                coding.encode(key)
            self.assertEqual(caught.exception.number, 6)
        no_codes = ((text, b""), (text, b"a"), (text, b"a\x00\x00"), (text, b"x" * 16 + b"\x00"), (number, b"abc"))
        for coding, code in no_codes:
            with self.assertRaises(Refused) as caught:
                coding.decode(code)
            self.assertEqual(caught.exception.number, 6)
        for key in (-(2**31), -1, 0, 1, 2**31 - 1):
            self.assertEqual(number.decode(number.encode(key)), key)

    def test_operations_one_after_another(self):
        for latch in (oracle.OPTIMISTIC, oracle.COUPLING):
            index = oracle.Index(oracle.NumberCoding(), latch)
            index.open(0)
            node = index.tree.nodes
            leaf = [Slot(1, number) for number in range(3)]
            node4 = [Slot(4, number) for number in range(2)]

            self.assertEqual(self.run_alone(index, "add", 1, 10), (6, ("added",)))
            self.assertEqual(node[ROOT].children, {0x80: leaf[0]})

            self.assertEqual(self.run_alone(index, "add", 2, 20), (6, ("added",)))
            self.assertEqual(node[ROOT].children, {0x80: node4[0]})
            self.assertEqual(node[node4[0]].prefix, bytes.fromhex("0000"))
            self.assertEqual(node[node4[0]].children, {0x01: leaf[0], 0x02: leaf[1]})

            self.assertEqual(self.run_alone(index, "add", 256, 30), (12, ("added",)))
            self.assertEqual(node[ROOT].children, {0x80: node4[1]})
            self.assertEqual(node[node4[1]].prefix, bytes.fromhex("00"))
            self.assertEqual(node[node4[1]].children, {0x00: node4[0], 0x01: leaf[2]})
            self.assertEqual(node[node4[0]].prefix, b"")
            self.assertEqual(node[node4[0]].children, {0x01: leaf[0], 0x02: leaf[1]})

            self.assertEqual(self.run_alone(index, "next", 3), (12, ("next", 256, 30)))
            self.assertEqual(self.run_alone(index, "next", 257), (8, ("none",)))

            self.assertEqual(self.run_alone(index, "remove", 256), (13, ("removed", 30)))
            self.assertEqual(node[ROOT].children, {0x80: node4[0]})
            self.assertEqual(node[node4[0]].prefix, bytes.fromhex("0000"))
            self.assertEqual(node[node4[0]].children, {0x01: leaf[0], 0x02: leaf[1]})
            self.assertEqual([record.slot for record in index.tree.retired], [leaf[2], node4[1]])

            index.begin("find", 0, 1)
            self.assertEqual(index.sweep(), ("swept", 0))
            while index.step(0) == ("go",):
                pass
            self.assertEqual(index.sweep(), ("swept", 2))
            self.assertEqual(index.tree.spare[1][-1], 2)
            self.assertEqual(index.tree.spare[4][-1], 1)
            self.assertTrue(all(word.shares == 0 and not word.locked for word in index.tree.words.values()))

    def run_alone(self, index, request, key, value=None):
        """Run one operation on seat 0 and return its number of steps and its answer."""
        self.assertEqual(index.begin(request, 0, key, value), ("ok",))
        steps = 1
        outcome = index.step(0)
        while outcome == ("go",):
            steps += 1
            outcome = index.step(0)
        return steps, outcome

    def test_sweep_frees_at_once_if_nothing_is_open(self):
        script = "= n o\nO 0\nA 0 1 1\n" + "S 0\n" * 6 + "R 0 1\n" + "S 0\n" * 5 + "W\nW\n"
        self.assertEqual(play(script.encode()).split(b"\n")[-4:], [b"15 removed 1", b"16 swept 1", b"17 swept 0", b""])


class Latches(unittest.TestCase):
    """Section 4."""

    def test_smallest_cause(self):
        latch = oracle.COUPLING
        self.assertEqual(latch.take(Word(locked=True, gone=True, shares=512))[0], 1)
        self.assertEqual(latch.take(Word(locked=True, shares=512))[0], 2)
        self.assertEqual(latch.take(Word(shares=512))[0], 4)
        self.assertEqual(latch.take(Word(shares=511, count=7)), (0, 7, Word(shares=512, count=7)))
        self.assertEqual(latch.check(Word(locked=True, gone=True, count=1), 0), 1)
        self.assertEqual(latch.check(Word(locked=True, count=1), 0), 2)
        self.assertEqual(latch.check(Word(count=1), 0), 3)
        self.assertEqual(latch.check(Word(count=1), 1), 0)
        self.assertEqual(latch.lock(Word(shares=2, count=1), 0)[0], 3)
        self.assertEqual(latch.lock(Word(shares=2, count=1), 1)[0], 4)
        self.assertEqual(latch.lock(Word(shares=1, count=1), 1), (0, Word(locked=True, count=1)))

    def test_calls_without_causes(self):
        latch = oracle.COUPLING
        self.assertEqual(latch.give_back(Word(shares=2)), Word(shares=1))
        self.assertEqual(latch.give_back(Word()), Word())
        self.assertEqual(oracle.OPTIMISTIC.give_back(Word()), Word())
        self.assertEqual(latch.unlock(Word(locked=True, count=3)), Word(count=4))
        self.assertEqual(latch.unlock_as_gone(Word(locked=True, count=3)), Word(gone=True, count=4))
        self.assertEqual(latch.revive(Word(gone=True, count=3)), Word(count=4))
        self.assertEqual(latch.revive(Word(count=3)), Word(count=3))


class Script(unittest.TestCase):
    """Sections 12 to 14."""

    def check_lines(self, header, cases):
        """Check the outcome of single lines on an index whose seat 0 is idle."""
        for line, outcome in cases.items():
            with self.subTest(line=line):
                self.assertEqual(last_outcome(header + b"\nO 0\n" + line + b"\n"), outcome)

    def test_seats(self):
        self.check_lines(b"= n o", {
            b"O 7": b"ok", b"O 8": b"no 1", b"O 9": b"no 1", b"O 10": b"no 9", b"O -1": b"no 9", b"O 00": b"no 9",
            b"C 8": b"no 1", b"S 9": b"no 1", b"F 8 1": b"no 1", b"A 9 1 1": b"no 1", b"R 8 1": b"no 1",
            b"N 9 1": b"no 1", b"O x": b"no 9", b"O": b"no 9", b"O ": b"no 9",
        })

    def test_refusals_of_the_index(self):
        self.check_lines(b"= n o", {
            b"O 0": b"no 3", b"C 1": b"no 2", b"F 1 1": b"no 2", b"S 1": b"no 2", b"S 0": b"no 5", b"C 0": b"ok",
            b"F 0 1\nF 0 1": b"no 4", b"F 0 1\nC 0": b"no 4", b"F 0 1\nO 0": b"no 3", b"C 0\nC 0": b"no 2",
        })

    def test_number_keys(self):
        self.check_lines(b"= n o", {
            b"F 0 -2147483648": b"ok", b"F 0 -2147483649": b"no 9",
            b"F 0 2147483647": b"ok", b"F 0 2147483648": b"no 9",
            b"F 0 0": b"ok", b"F 0 -0": b"no 9", b"F 0 01": b"no 9", b"F 0 00": b"no 9", b"F 0 -01": b"no 9",
            b"F 0 +1": b"no 9", b"F 0 -": b"no 9", b"F 0 --1": b"no 9", b"F 0 -1": b"ok", b"F 0 '1": b"no 9",
            b"F 0 99999999999999999999999999": b"no 9", b"F 0 1_0": b"no 9", b"F 0 \xb2": b"no 9",
        })

    def test_values(self):
        self.check_lines(b"= n o", {
            b"A 0 1 4294967295": b"ok", b"A 0 1 4294967296": b"no 9", b"A 0 1 0": b"ok", b"A 0 1 -0": b"no 9",
            b"A 0 1 01": b"no 9", b"A 0 1 -1": b"no 9", b"A 0 1 +1": b"no 9", b"A 0 1": b"no 9", b"A 0 1 1 1": b"no 9",
        })

    def test_text_keys(self):
        self.check_lines(b"= t o", {
            b"F 0 '": b"ok", b"F 0 ''": b"ok", b"F 0 '" + b"x" * 15: b"ok", b"F 0 '" + b"x" * 16: b"no 6",
            b"F 1 '" + b"x" * 16: b"no 2", b"F 8 '" + b"x" * 16: b"no 1", b"F 0 'a\nF 0 '" + b"x" * 16: b"no 4",
            b"A 0 '" + b"x" * 16 + b" 4294967296": b"no 9", b"F 0 5": b"no 9", b"F 0 a": b"no 9", b"F 0 ": b"no 9",
            b"F 0 'a b": b"no 9", b"F 0 '!~": b"ok", b"F 0 '\x7f": b"no 9", b"F 0 '\x1f": b"no 9",
            b"F 0 '\xe4": b"no 9", b"F 0 '\x00": b"no 9",
        })

    def test_length_of_a_line(self):
        longest = b"F 0 '" + b"x" * 59
        self.assertEqual(len(longest), 64)
        self.check_lines(b"= t o", {longest: b"no 6", longest + b"x": b"no 9"})

    def test_bytes_out_of_place(self):
        self.check_lines(b"= n o", {
            b"F  0 1": b"no 9", b"F 0  1": b"no 9", b" F 0 1": b"no 9", b"F 0 1 ": b"no 9", b"F\t0 1": b"no 9",
            b"F 0 1\r": b"no 9", b"W\r": b"no 9", b"W ": b"no 9", b" W": b"no 9", b"W 0": b"no 9", b"W": b"swept 0",
            b"": b"no 9", b"= n o": b"no 9", b"o 0": b"no 9", b"OO 0": b"no 9", b"X 0": b"no 9", b"\x00": b"no 9",
            b"\xff": b"no 9", b"F 0 1\x0b": b"no 9", b"F 0 1 1": b"no 9", b"F 0": b"no 9", b"O0": b"no 9",
        })

    def test_first_line(self):
        for line in (b"= n o", b"= n c", b"= t o", b"= t c"):
            self.assertEqual(play(line), b"1 ok\n")
        wrong = (
            b"", b"=", b"= n", b"= n o ", b" = n o", b"=  n o", b"= n o\r", b"= o n", b"= N o", b"O 0", b"= n o 1",
            b"== n o",
        )
        for line in wrong:
            self.assertEqual(play(line + b"\nO 0\n"), b"1 no 9\n", line)

    def test_ends_of_lines(self):
        self.assertEqual(play(b""), b"1 no 9\n")
        self.assertEqual(play(b"\n"), b"1 no 9\n")
        self.assertEqual(play(b"\n= n o\n"), b"1 no 9\n")
        self.assertEqual(play(b"= n o\nW"), b"1 ok\n2 swept 0\n")
        self.assertEqual(play(b"= n o\nW\n"), b"1 ok\n2 swept 0\n")
        self.assertEqual(play(b"= n o\nW\n\n"), b"1 ok\n2 swept 0\n3 no 9\n")
        self.assertEqual(play(b"= n o\n\nW\n"), b"1 ok\n2 no 9\n3 swept 0\n")

    def test_length_of_a_script(self):
        start = b"= n o\nO 0\n"
        longest = start + b"\n" * (32768 - len(start))
        history = play(longest)
        self.assertTrue(history.startswith(b"1 ok\n2 ok\n3 no 9\n"))
        self.assertEqual(history.count(b"\n"), 32760)
        self.assertEqual(play(longest + b"\n"), b"1 no 10\n")
        self.assertEqual(play(b"\x00" * 32768), b"1 no 9\n")
        self.assertEqual(play(b"\x00" * 32769), b"1 no 10\n")

    def test_keys_in_the_history(self):
        add = b"O 0\nA 0 %s 4294967295\n" + b"S 0\n" * 6 + b"N 0 %s\n" + b"S 0\n" * 3
        for key in (b"-2147483648", b"0", b"2147483647"):
            self.assertEqual(last_outcome(b"= n c\n" + add % (key, key)), b"next " + key + b" 4294967295")
        for key in (b"'", b"''", b"'fifteen-bytes!!"):
            self.assertEqual(last_outcome(b"= t c\n" + add % (key, key)), b"next " + key + b" 4294967295")

    def test_call_limit(self):
        index = oracle.Index(oracle.NumberCoding(), oracle.OPTIMISTIC)
        index.open(0)
        index.open(1)
        index.begin("find", 1, 1)
        index.accepted = 2**50
        calls = {
            7: (
                lambda: index.open(2), lambda: index.close(0), lambda: index.begin("find", 0, 1), lambda: index.step(1),
                lambda: index.sweep(),
            ),
            6: (lambda: index.begin("find", 0, 2**31),),
            5: (lambda: index.step(0),),
            4: (lambda: index.close(1), lambda: index.begin("add", 1, 2**31, 0)),
            3: (lambda: index.open(0),),
            2: (lambda: index.step(2), lambda: index.close(2), lambda: index.begin("add", 2, 1, 0)),
            1: (lambda: index.open(8), lambda: index.step(8)),
        }
        for number, group in calls.items():
            for call in group:
                with self.assertRaises(Refused) as caught:
                    call()
                self.assertEqual(caught.exception.number, number)
        self.assertEqual(index.accepted, 2**50)


OUTCOMES = {
    "ok", "go", "again", "found", "absent", "added", "present", "removed", "none", "next", "noroom", "swept", "no",
}

# Every cause that can occur at each kind of step. Take is never refused with 4, as eight seats cannot have 512 permits
# on a node. Lock m is never refused with 1, as m stands in n, which is locked and has not changed.
RESTARTS = {
    "Take": {1, 2},
    "Check p": {1, 2, 3},
    "Check n": {1, 2, 3},
    "Lock p": {1, 2, 3, 4},
    "Lock n": {1, 2, 3, 4},
    "Lock m": {2, 4},
    "Look": {3},
    "Final check": {1, 2, 3},
}

REFUSALS = {
    "O": {1, 3},
    "C": {1, 2, 4},
    "F": {1, 2, 4, 6},
    "A": {1, 2, 4, 6},
    "R": {1, 2, 4, 6},
    "N": {1, 2, 4, 6},
    "S": {1, 2, 5},
}

# With few slots, checking a script by brute force is quick, and pools run out often.
FEW_SLOTS = (60, 14, 6, 3, 2)
FEW_LARGE_NODES = (150, 14, 4, 2, 1)

# How many scripts of each kind are played and checked.
SCRIPTS_WITH_FEW_SLOTS = {
    "mixing": 40, "races": 60, "scenes": 400, "growing": 10, "filling": 8, "faults": 30, "faulty": 60,
}
SCRIPTS_WITH_FEW_LARGE_NODES = {"growing": 20, "filling": 6}
SCRIPTS_WITH_ALL_SLOTS = {"scenes": 6, "races": 4}
SCRIPTS_THAT_FILL_POOLS = 12


class RandomScripts(unittest.TestCase):
    """What random scripts reach, and that nothing is violated on the way."""

    @classmethod
    def setUpClass(cls):
        cls.counts = Counter()
        for kind, number in SCRIPTS_WITH_FEW_SLOTS.items():
            cls.counts += tally.count(range(number), pools=FEW_SLOTS, kind=kind, check=True)
        for kind, number in SCRIPTS_WITH_FEW_LARGE_NODES.items():
            cls.counts += tally.count(range(number), pools=FEW_LARGE_NODES, kind=kind, check=True)
        for kind, number in SCRIPTS_WITH_ALL_SLOTS.items():
            cls.counts += tally.count(range(number), kind=kind, check=True)
        cls.full = tally.count(range(SCRIPTS_THAT_FILL_POOLS), kind="filling")

    def seen(self, *beginning):
        """Return what was counted under a beginning."""
        return {what[len(beginning)] for what in self.counts if what[: len(beginning)] == beginning}

    def test_outcomes(self):
        self.assertEqual(self.seen("outcome"), OUTCOMES)

    def test_restarts(self):
        for item, causes in RESTARTS.items():
            self.assertEqual(self.seen("restart", item), causes, item)
        self.assertEqual(self.seen("restart"), set(RESTARTS))
        self.assertEqual(self.seen("restart named"), {4, 16, 48, 256})

    def test_restarts_of_look(self):
        self.assertEqual(self.seen("Look restart"), {
            "find: at >= 16", "add: at >= 16", "remove: at >= 16",
            "find: key ended", "add: key ended", "remove: key ended",
            "next, By key: at >= 16", "next, Back: at >= 16", "next, Down: at >= 16", "next, By key: key ended",
        })

    def test_noroom(self):
        self.assertEqual(self.seen("noroom"), {1, 4, 16, 48, 256})

    def test_noroom_with_full_pools(self):
        self.assertEqual({what[1] for what in self.full if what[0] == "noroom"}, {1, 4, 16, 48, 256})

    def test_courses(self):
        self.assertEqual(self.seen("course"), set(oracle.COURSES))
        self.assertEqual(self.seen("grown to"), {16, 48, 256})
        self.assertGreater(len(self.seen("miss at")), 8)

    def test_next(self):
        self.assertGreater(max(self.seen("final checks", "next")), 7)
        self.assertGreater(max(self.seen("final checks", "none")), 3)
        self.assertIn(("Look of next", "Back", "Back", "Look"), self.counts)
        self.assertIn(("Look of next", "Back", "Down", "Take"), self.counts)
        self.assertIn(("Look of next", "By key", "Down", "Take"), self.counts)
        self.assertIn(("Look of next", "Down", "Down", "Take"), self.counts)

    def test_refusals(self):
        for letter, numbers in REFUSALS.items():
            self.assertEqual(self.seen("refusal", letter), numbers, letter)
        self.assertGreater(self.counts["line outside the grammar",], 0)
        self.assertGreater(self.counts["too long script",], 0)

    def test_sweeps(self):
        self.assertGreater(self.counts["sweep that frees",], 0)
        self.assertGreater(self.counts["sweep that leaves records",], 0)

    def test_letters(self):
        for seed in range(60):
            script = scripts.generate(seed, "OCFASW", pools=(512, 0, 0, 0, 0))
            lines = oracle.script_lines(script)
            try:
                coding, _ = oracle.read_header(lines[0] if lines else b"")
            except Refused:
                continue
            for line in lines[1:]:
                with contextlib.suppress(Refused):
                    self.assertIn(oracle.read_call(line, coding).letter, "OCFASW")

    def test_lines(self):
        for seed in (1, 2, 3, 5):
            self.assertLessEqual(len(oracle.script_lines(scripts.generate(seed, lines=100))), 100)


# ---------------------------------------------------------------------------
# The three wrong programs of section 16


def take_without_check_p(operation, tree):
    """Take, but then Look comes next at every node."""
    outcome = oracle.Operation.take(operation, tree)
    if operation.stage == "Check p":
        if operation.request != "next":
            for above in operation.holdings[:-2]:
                operation.let_go(tree, above)
        operation.stage = "Look"
    return outcome


def restart_without_raising_counts(operation, tree, cause, node, depth):
    """Restart, but a node that was locked keeps its count."""
    for holding in list(operation.holdings):
        if holding.is_lock:
            tree.words[holding.node] = tree.words[holding.node]._replace(locked=False)
            operation.holdings.remove(holding)
        else:
            operation.let_go(tree, holding)
    operation.start_attempt()
    return ("again", cause, node.kind, node.number, depth)


def go_back_giving_back(operation, tree):
    """Go back, but the permit on the node that is left is given back."""
    left = operation.n
    outcome = go_back(operation, tree)
    if operation.n is not left:
        operation.let_go(tree, left)
    return outcome


go_back = oracle.Operation.go_back


class WrongPrograms(unittest.TestCase):
    """Random scripts tell the three wrong programs from the oracle, and the checks find two of them."""

    @classmethod
    def setUpClass(cls):
        cls.scripts = []
        for kind in ("scenes", "races"):
            for seed in range(100):
                script = scripts.generate(seed, pools=FEW_SLOTS, kind=kind)
                cls.scripts.append((script, oracle.history(script, FEW_SLOTS)))

    def history(self, script, observer=None):
        """Return the history of a wrong program, or the fault that it runs into."""
        try:
            return oracle.history(script, FEW_SLOTS, observer)
        except (Violation, LookupError, ValueError) as fault:
            return fault

    def differs(self):
        """Say whether some script has another history."""
        return any(self.history(script) != history for script, history in self.scripts)

    def is_found_by_the_checks(self):
        """Say whether the map answers otherwise on some script."""
        faults = (self.history(script, oracle.Checker()) for script, _ in self.scripts)
        return any(isinstance(fault, Violation) and "but the map answers" in str(fault) for fault in faults)

    def test_no_check_p(self):
        with mock.patch.dict(oracle.Operation.ITEMS, {"Take": take_without_check_p}):
            self.assertTrue(self.differs())
            self.assertTrue(self.is_found_by_the_checks())

    def test_count_not_raised(self):
        with mock.patch.object(oracle.Operation, "restart", restart_without_raising_counts):
            self.assertTrue(self.differs())

    def test_permits_given_back_on_the_way_back(self):
        with mock.patch.object(oracle.Operation, "go_back", go_back_giving_back):
            self.assertTrue(self.differs())
            self.assertTrue(self.is_found_by_the_checks())


class Checks(unittest.TestCase):
    """The option --check finds slots in no state or in two, and operations that do not answer."""

    def run_main(self, script, *arguments):
        """Run oracle.py and return its exit status, its output and its messages."""
        standard_input = io.TextIOWrapper(io.BytesIO(script))
        output, messages = io.TextIOWrapper(io.BytesIO()), io.StringIO()
        with (
            mock.patch.object(sys, "argv", ["oracle.py", *arguments]),
            mock.patch.object(sys, "stdin", standard_input),
            contextlib.redirect_stdout(output),
            contextlib.redirect_stderr(messages),
        ):
            status = oracle.main()
        output.flush()
        return status, output.buffer.getvalue(), messages.getvalue()

    ADD_AND_REMOVE = b"= n o\nO 0\nA 0 1 1\n" + b"S 0\n" * 6 + b"R 0 1\n" + b"S 0\n" * 5 + b"W\n"

    def test_nothing_violated(self):
        status, output, messages = self.run_main(self.ADD_AND_REMOVE, "--check")
        self.assertEqual((status, messages), (0, ""))
        self.assertEqual(output, self.run_main(self.ADD_AND_REMOVE)[1])
        self.assertTrue(output.endswith(b"16 swept 1\n"))

    def test_pools(self):
        script = b"= n o\nO 0\nA 0 1 1\n" + b"S 0\n" * 6 + b"A 0 2 1\n" + b"S 0\n" * 4
        self.assertTrue(self.run_main(script, "--check", "--pools", "2,0,0,0,0")[1].endswith(b"14 noroom 4\n"))
        self.assertTrue(self.run_main(script, "--check", "--pools", "1,1,0,0,0")[1].endswith(b"14 noroom 1\n"))

    def test_slot_in_no_state(self):
        with mock.patch.object(oracle.Tree, "make_spare", lambda tree, slot: None):
            status, output, messages = self.run_main(self.ADD_AND_REMOVE, "--check")
        self.assertEqual((status, messages), (1, "line 16: slot 1/0 is in no state\n"))
        self.assertTrue(output.endswith(b"15 removed 1\n"))

    def test_slot_in_two_states(self):
        with mock.patch.object(oracle.Tree, "draw", lambda tree, kind: Slot(kind, tree.spare[kind][0])):
            status, _, messages = self.run_main(self.ADD_AND_REMOVE, "--check")
        self.assertEqual((status, messages), (1, "line 7: slot 1/0 is spare and drawn\n"))

    def test_no_answer(self):
        with mock.patch.dict(oracle.Operation.ITEMS, {"Look": lambda operation, tree: operation.restart_look(tree)}):
            status, _, messages = self.run_main(self.ADD_AND_REMOVE, "--check")
        self.assertEqual((status, messages), (1, "line 3: add 1 would not answer within 300 steps alone\n"))


class Comparison(unittest.TestCase):
    """compare.py finds a difference and shrinks the script."""

    def run_compare(self, change):
        """Compare with a runner that is the oracle with its output changed."""
        here = os.path.dirname(os.path.abspath(oracle.__file__))
        with tempfile.TemporaryDirectory() as directory:
            runner = os.path.join(directory, "runner")
            with open(runner, "w", encoding="ascii") as file:
                file.write(f"#!{sys.executable}\nimport sys\nsys.path.insert(0, {here!r})\nimport oracle\n")
                file.write(f"history = oracle.history(sys.stdin.buffer.read()){change}\n")
                file.write("sys.stdout.buffer.write(history)\n")
            os.chmod(runner, os.stat(runner).st_mode | stat.S_IXUSR)
            arguments = ["compare.py", runner, "--seeds", "0", "12", "--lines", "60"]
            output = io.TextIOWrapper(io.BytesIO(), encoding="latin-1")
            with mock.patch.object(sys, "argv", arguments), contextlib.redirect_stdout(output):
                status = compare.main()
            output.flush()
            return status, output.buffer.getvalue().decode("latin-1")

    def test_no_difference(self):
        status, output = self.run_compare("")
        self.assertEqual(status, 0)
        self.assertRegex(output, r"^12 scripts with \d+ output lines agree\n$")

    def test_difference(self):
        status, output = self.run_compare(".replace(b'absent', b'found 1')")
        self.assertEqual(status, 1)
        script = output.split("---")[1].split("\n")[1:-1]
        self.assertEqual(len(script), 6)
        self.assertRegex(output, r"oracle: b'6 absent'\nrunner: b'6 found 1'\n$")


if __name__ == "__main__":
    unittest.main()
