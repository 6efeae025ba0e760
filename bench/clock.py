#!/usr/bin/env python3
"""Prints what programs take for the boards of a folder, one line for each board.

usage: python3 bench/clock.py FOLDER ROUNDS PLAIN [OURS]

Each number is the processor time (of the program and of the system for it) of one run in microseconds: the mean of many runs in each of so many rounds, in which the
programs take turns. What a program that does nothing takes is measured in the same rounds, and is taken off. A machine that has other work to do disturbs processor
time less than the time of day, but it does: look at the rounds' spread, the last column, which says by how much the means of ours differ, in percent of the least.
"""

import os
import sys

KINDS = [("small", 60), ("fullest", 15), ("backward", 15), ("aar", 15)]
NOTHING = "/bin/true"


def once(program, board):
    """The microseconds of one run."""
    actions = [(os.POSIX_SPAWN_OPEN, 0, board, os.O_RDONLY, 0), (os.POSIX_SPAWN_OPEN, 1, os.devnull, os.O_WRONLY, 0)]
    child = os.posix_spawn(program, [program], os.environ, file_actions=actions)
    _, status, usage = os.wait4(child, 0)
    if status != 0:
        sys.exit("%s < %s ends with status %d" % (program, board, status))
    return (usage.ru_utime + usage.ru_stime) * 1e6


def means(programs, board, rounds, many):
    """For each program the means of the rounds."""
    found = [[] for _ in programs]
    for _ in range(rounds):
        sums = [0] * len(programs)
        for _ in range(many):
            for k, program in enumerate(programs):
                sums[k] += once(program, board)
        for k, total in enumerate(sums):
            found[k].append(total / many)
    return found


def mean(numbers):
    return sum(numbers) / len(numbers)


def ratio(ours, plain):
    return "%.2f" % (ours / plain) if plain >= 20 and ours > 0 else "-"


def main():
    folder, rounds, programs = sys.argv[1], int(sys.argv[2]), [NOTHING] + sys.argv[3:]
    row = "%-40s" + " %10s" * len(programs) + " %8s %8s"
    print(row % ("microseconds of one run", "(start)", *["plain", "ours"][:len(programs) - 1], "ratio", "spread"))
    for kind, many in KINDS:
        totals = [0] * len(programs)
        for name in sorted(os.listdir(os.path.join(folder, kind))):
            if not name.endswith(".in"):
                continue
            start, *found = means(programs, os.path.join(folder, kind, name), rounds, many)
            each = [mean(start)] + [mean(numbers) - mean(start) for numbers in found]
            totals = [total + number for total, number in zip(totals, each)]
            spread = "%.0f %%" % (100 * (max(found[-1]) / min(found[-1]) - 1))
            print(row % (kind + "/" + name[:-3], *["%.0f" % number for number in each], ratio(each[-1], each[1]) if len(each) > 2 else "-", spread), flush=True)
        print(row % (kind + ", all together", *["%.0f" % total for total in totals], ratio(totals[-1], totals[1]) if len(totals) > 2 else "-", ""), flush=True)


if __name__ == "__main__":
    main()
