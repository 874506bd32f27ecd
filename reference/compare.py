#!/usr/bin/env python3
"""Compare a runner with the oracle on random scripts.

Usage: compare.py RUNNER [--seeds A B] [--letters ..] [--lines N] [--pools ..] [--kind ..] [--script FILE ..]

Stops at the first difference, shrinks the script by removing lines, and prints it with both histories. Then the exit
status is 1. If there is no difference, it prints how many scripts and lines agreed.
"""

import argparse
import subprocess
import sys

import oracle
import scripts

SECONDS_FOR_A_SCRIPT = 20


def history_of_runner(runner, script):
    """Return what the runner prints, with a remark if it does not end by itself."""
    try:
        done = subprocess.run([runner], input=script, stdout=subprocess.PIPE, timeout=SECONDS_FOR_A_SCRIPT)
    except subprocess.TimeoutExpired as late:
        return (late.stdout or b"") + b"(the runner did not end)\n"
    if done.returncode < 0:
        return done.stdout + b"(the runner was ended by signal %d)\n" % -done.returncode
    return done.stdout


def differ(runner, script, pools):
    """Say whether the runner and the oracle print different histories."""
    return history_of_runner(runner, script) != oracle.history(script, pools)


def shrink(runner, script, pools):
    """Remove lines, many at a time and then fewer, as long as the difference stays."""
    lines = lines_with_ends(script)
    some = max(1, len(lines) // 2)
    while True:
        removed = False
        place = 0
        while place < len(lines):
            fewer = lines[:place] + lines[place + some :]
            if differ(runner, b"".join(fewer), pools):
                lines = fewer
                removed = True
            else:
                place += some
        if some == 1 and not removed:
            return b"".join(lines)
        if not removed or some > len(lines):
            some = max(1, some // 2)


def lines_with_ends(script):
    """Return the lines of a script, each with its 0A; the last may lack it."""
    *lines, rest = script.split(b"\n")
    return [line + b"\n" for line in lines] + ([rest] if rest else [])


def first_difference(mine, theirs):
    """Return the number of the first line that differs, and both lines."""
    my_lines, their_lines = mine.split(b"\n"), theirs.split(b"\n")
    for number in range(max(len(my_lines), len(their_lines))):
        my_line = my_lines[number] if number < len(my_lines) else None
        their_line = their_lines[number] if number < len(their_lines) else None
        if my_line != their_line:
            return number + 1, my_line, their_line
    return None


def show(title, text):
    """Print some bytes under a title."""
    sys.stdout.buffer.write(b"--- " + title.encode() + b"\n" + text + (b"" if text.endswith(b"\n") else b"\n"))


def report(runner, script, pools, origin):
    """Print the shrunk script, both histories and the first line that differs."""
    script = shrink(runner, script, pools)
    mine, theirs = oracle.history(script, pools), history_of_runner(runner, script)
    show(f"script, shrunk from {origin}", script)
    show("history of the oracle", mine)
    show("history of the runner", theirs)
    difference = first_difference(mine, theirs)
    if difference is None:
        print("--- the difference does not show every time")
        return
    number, my_line, their_line = difference
    show(f"first difference, output line {number}", b"oracle: %a\nrunner: %a\n" % (my_line, their_line))


def main():
    """Compare the histories of all seeds."""
    parser = argparse.ArgumentParser(description="Compare a runner with the oracle on random scripts.")
    parser.add_argument("runner")
    parser.add_argument("--seeds", type=int, nargs=2, default=(0, 1000), metavar=("A", "B"))
    parser.add_argument("--letters", default=scripts.ALL_LETTERS, help="the letters of the calls to use")
    parser.add_argument("--lines", type=int, help="how many lines each script is to have")
    parser.add_argument("--pools", type=oracle.read_pools, default=oracle.POOLS, help="LEAVES,N4,N16,N48,N256")
    parser.add_argument("--kind", choices=scripts.KINDS, help="the kind of the scripts; else each seed decides")
    parser.add_argument("--script", nargs="+", metavar="FILE", help="compare on these scripts instead")
    options = parser.parse_args()
    number_of_scripts = number_of_lines = 0
    for origin, script in scripts_to_play(options):
        mine = oracle.history(script, options.pools)
        if history_of_runner(options.runner, script) != mine:
            report(options.runner, script, options.pools, origin)
            sys.stdout.flush()
            return 1
        number_of_scripts += 1
        number_of_lines += mine.count(b"\n")
    print(f"{number_of_scripts} scripts with {number_of_lines} output lines agree")
    return 0


def scripts_to_play(options):
    """Give the scripts to play, each with a word on where it comes from."""
    if options.script:
        for name in options.script:
            with open(name, "rb") as file:
                yield name, file.read()
        return
    for seed in range(*options.seeds):
        yield f"seed {seed}", scripts.generate(seed, options.letters, options.lines, options.pools, options.kind)


if __name__ == "__main__":
    sys.exit(main())
