#!/usr/bin/env python3
"""Runs programs on all boards of a folder, and reports where they do not agree.

usage: python3 bench/agree.py FOLDER PLAIN [OURS]

NAME.in is given to each program; NAME.plain and NAME.ours, beside it, are what they print. PLAIN checks both reports: that the run is permitted, shows the verdict at
its end and not before, and names whom it may, and that the verdict, or the refusal, is PLAIN's own. What PLAIN says is also compared with NAME.want, where there is one.
The exit status is 1 where there is a disagreement.
"""

import collections
import os
import re
import subprocess
import sys

SECONDS = 60
AT_ONCE = 400


def report(program, board, name):
    """Keeps what the program prints; says what is wrong with the way it ends."""
    with open(board, "rb") as source, open(name, "wb") as out:
        try:
            status = subprocess.run([program], stdin=source, stdout=out, stderr=subprocess.DEVNULL, timeout=SECONDS).returncode
        except subprocess.TimeoutExpired:
            return ["%s: no end after %d seconds" % (name, SECONDS)]
    return ["%s: the program ends with status %d" % (name, status)] if status != 0 else []


def checked(plain, pairs):
    """What the check says against reports."""
    wrong = []
    for start in range(0, len(pairs), AT_ONCE):
        given = [path for pair in pairs[start:start + AT_ONCE] for path in pair]
        said = subprocess.run([plain, "--check"] + given, stdout=subprocess.PIPE).stdout.decode("utf-8", "replace").splitlines()
        if len(said) != len(given) // 2:
            sys.exit("the check did not come to its end")
        wrong += [line for line in said if not line.endswith(": stands")]
    return wrong


def first_line(path):
    with open(path, "rb") as lines:
        return lines.readline().decode("latin-1").rstrip("\n")


def wanted(board, name):
    want = board[:-3] + ".want"
    if not os.path.exists(want):
        return []
    want, said = first_line(want), first_line(name)
    return [] if (said + " ").startswith(want + " ") else ["%s: '%s', and the board was made for '%s'" % (name, said, want)]


def main():
    folder, programs = sys.argv[1], dict(zip(("plain", "ours"), sys.argv[2:]))
    boards = sorted(os.path.join(place, name) for place, _, names in os.walk(folder) for name in names if name.endswith(".in"))
    wrong, pairs, said = [], [], collections.Counter()
    for board in boards:
        for which, program in programs.items():
            name = board[:-2] + which
            wrong += report(program, board, name)
            pairs.append((board, name))
        name = board[:-2] + "plain"
        wrong += wanted(board, name)
        said[re.sub(r" line .*| \d+$" if first_line(name).startswith("refused") else r" \d+$", "", first_line(name))] += 1
    wrong += checked(programs["plain"], pairs)
    for line in wrong:
        print(line)
    for what, many in sorted(said.items(), key=lambda entry: (entry[0].split(" ")[0], len(entry[0]), entry[0])):
        print("%6d %s" % (many, what))
    print("%d boards, %d disagreements" % (len(boards), len(wrong)))
    sys.exit(1 if wrong else 0)


if __name__ == "__main__":
    main()
