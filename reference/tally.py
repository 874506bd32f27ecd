#!/usr/bin/env python3
"""Count what random scripts reach.

Usage: tally.py [--seeds A B] [--letters ..] [--lines N] [--pools ..] [--kind ..] [--check]
"""

import argparse
from collections import Counter

import oracle
import scripts


class Tally(oracle.Observer):
    """Counts outcomes, restarts by step and cause, courses answered, and Looks of next."""

    def __init__(self, checker=None):
        self.counts = Counter()
        self.checker = checker
        self.item = None
        self.operation = None
        self.latch = None

    def before_call(self, index, call):
        """Note what a step is about to do."""
        if self.checker:
            self.checker.before_call(index, call)
        self.item = self.operation = None
        if call.letter == "S" and call.seat < oracle.SEATS and index.seats[call.seat].operation is not None:
            self.operation = index.seats[call.seat].operation
            self.item = self.operation.stage
            self.look = self.describe_look(index.tree) if self.item == "Look" else None
            self.mode = self.operation.mode
            self.choice = self.operation.choice
            self.levels = len(self.operation.holdings)
            self.new_kind = self.operation.kind_of_new_node() if self.item == "Draw" else None

    def describe_look(self, tree):
        """Say who looks, in which mode, and why the Look may restart."""
        operation = self.operation
        who = f"next, {operation.mode}" if operation.request == "next" else operation.request
        return f"{who}: {'at >= 16' if operation.at(tree) >= oracle.LONGEST_CODE else 'key ended'}"

    def after_call(self, index, call, outcome):
        """Count the outcome."""
        counts = self.counts
        word = outcome[0]
        counts["outcome", word] += 1
        if word == "no":
            counts["refusal", call.letter, outcome[1]] += 1
        if word == "noroom":
            counts["noroom", outcome[1]] += 1
        if word == "again":
            counts["restart", self.item, outcome[1]] += 1
            counts["restart named", outcome[2]] += 1
            if self.item == "Look":
                counts["Look restart", self.look] += 1
        if word in ("added", "removed"):
            counts["course", self.choice.course] += 1
            if self.choice.course == "Miss":
                counts["miss at", self.choice.place] += 1
        if self.item == "Draw" and word == "go" and self.choice.course == "Grow":
            counts["grown to", self.new_kind] += 1
        if self.item == "Look" and self.operation.request == "next" and word == "go":
            counts["Look of next", self.mode, self.operation.mode, self.operation.stage] += 1
        if word in ("next", "none"):
            counts["final checks", word, self.levels] += 1
        if word == "swept" and outcome[1] > 0:
            counts["sweep that frees",] += 1
        if word == "swept" and index.tree.retired:
            counts["sweep that leaves records",] += 1
        if self.checker:
            self.checker.after_call(index, call, outcome)


def count(seeds, letters=scripts.ALL_LETTERS, lines=None, pools=oracle.POOLS, kind=None, check=False):
    """Play the scripts of all seeds and return the counts."""
    counts = Counter()
    for seed in seeds:
        tally = Tally(oracle.Checker() if check else None)
        script = scripts.generate(seed, letters, lines, pools, kind)
        history = oracle.history(script, pools, tally)
        counts += tally.counts
        counts["scripts",] += 1
        counts["lines",] += history.count(b"\n")
        counts["line outside the grammar",] += history.count(b" no 9\n")
        counts["too long script",] += history == b"1 no 10\n"
    return counts


def main():
    """Print the counts."""
    parser = argparse.ArgumentParser(description="Count what random scripts reach.")
    parser.add_argument("--seeds", type=int, nargs=2, default=(0, 500), metavar=("A", "B"))
    parser.add_argument("--letters", default=scripts.ALL_LETTERS)
    parser.add_argument("--lines", type=int)
    parser.add_argument("--pools", type=oracle.read_pools, default=oracle.POOLS)
    parser.add_argument("--kind", choices=scripts.KINDS)
    parser.add_argument("--check", action="store_true")
    options = parser.parse_args()
    counts = count(range(*options.seeds), options.letters, options.lines, options.pools, options.kind, options.check)
    for what in sorted(counts, key=lambda what: [f"{part:6}" if isinstance(part, int) else part for part in what]):
        print(f"{counts[what]:9}  {', '.join(str(part) for part in what)}")


if __name__ == "__main__":
    main()
