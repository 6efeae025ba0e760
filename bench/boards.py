#!/usr/bin/env python3
"""Writes boards with questions into a folder, for the programs that answer them.

usage: python3 bench/boards.py FOLDER [--random N] [--seed S]

FOLDER gets one folder for each kind of board:
  small     the worked boards, a company, a small firmware shop
  fullest   100 rows, 32 rules, 16 requirements, 64 roles, edges, 31 or 32 users in the question
  backward  rules in an order that makes the closing take one rule, or one link of a chain, in each pass
  aar       boards from which roles are removed, up to the longest run of removals
  edges     texts at the edges of every measure
  random    N boards with random edges, rules, trusted users, conditions, requirements and questions
  faults    N boards with a fault planted, of each number and in each kind of line
  mutated   N boards with some bytes changed
NAME.in is what a program reads: the question, and the text of the board. NAME.want, where it is known from how the board was made, is the refusal, or the first
line of the report up to the length of a run.
"""

import argparse
import os
import random

USERS, ROLES, PERMISSIONS = 65536, 64, 32
ROWS, ASSIGN_RULES, REVOKE_RULES, TRUSTED_USERS, REQUIREMENTS = 100, 32, 16, 32, 16
CONDITION_OPERANDS, QUESTION_OPERANDS, LEVELS = 16, 32, 8
LONGEST, LONGEST_QUESTION = 65536, 1024


def r(roles):
    return " ".join("r%d" % role for role in roles)


def braces(users):
    return "{" + ",".join("u%d" % user for user in users) + "}"


def text(regime, lines):
    return "RBD 1\nregime %s\n" % regime + "".join(line + "\n" for line in lines)


class Folder:
    """Where boards are written."""

    def __init__(self, root):
        self.root = root
        self.count = 0

    def put(self, name, question, board, want=None):
        path = os.path.join(self.root, name)
        os.makedirs(os.path.dirname(path), exist_ok=True)
        data = question + "\n" + board if isinstance(question, str) else question + b"\n" + board
        with open(path + ".in", "wb") as out:
            out.write(data.encode("latin-1") if isinstance(data, str) else data)
        if want is not None:
            with open(path + ".want", "w", encoding="ascii") as out:
                out.write(want + "\n")
        self.count += 1


# Small boards

B1 = ["ua u1 r1", "ua u2 r2", "ua u3 r3", "assign r2 : r1 : r5", "assign r3 : r5 : r4"]
B2 = B1 + ["revoke r2 : r1 r5", "revoke r3 : r4"]

# r0 employee, r1 engineer, r2 full time, r3 part time, r4 project lead, r5 manager, r6 human resources; p0 access, p1 edit, p2 view; u1 Alice, u2 Bob, u3 Carol
COMPANY = ["ua u1 r1 r3", "ua u2 r5", "ua u3 r6", "pa p0 r0", "pa p1 r1", "pa p2 r6", "rh r1 r0", "rh r2 r0", "rh r3 r0", "rh r4 r1", "rh r5 r2",
           "assign r5 : r1&r2 : r4", "assign r6 : true : r2 r3"]
COMPANY_AAR = COMPANY + ["revoke r5 : r4 r1", "revoke r6 : r2 r3"]

# r0 officer, r1 release lead, r2 security lead, r3 build lead, r4 signing lead, r5 shipping lead, r6 builder, r7 build contractor, r8 signer, r9 shipper,
# r10 auditor, r11 guest; p0 build, p1 sign, p2 ship, p3 read the logs
SHOP = ["ua u100 r0", "ua u101 r1", "ua u102 r2", "ua u103 r3", "ua u104 r4", "ua u105 r5", "ua u110 r6", "ua u111 r6", "ua u112 r7", "ua u120 r8", "ua u130 r9",
        "ua u140 r10", "ua u150 r11",
        "pa p0 r6 r7", "pa p1 r8", "pa p2 r9", "pa p3 r10",
        "rh r0 r1 r2", "rh r1 r3 r4 r5", "rh r2 r11", "rh r3 r6 r7 r10", "rh r4 r8 r10", "rh r5 r9 r11",
        "trust u100", "trust u102",
        "assign r3 : r11 : r6 r7", "assign r4 : r6&r10 : r8", "assign r5 : r8|r6&r10 : r9", "assign r2 : true : r11", "assign r3 : r6|r7 : r10",
        "assign r1 : r8&r9 : r3 r4 r5",
        "always {u100,u101,u102,u103,u104,u105}|r11|r6|r7|r8|r9|r10 >= {}", "never r2 >= {u112}", "always {u100,u102} >= r2"]


def small(folder):
    def put(name, question, lines, want, regime="aatu"):
        folder.put("small/" + name, question, text(regime, lines), want)

    put("b1", "possible r4 >= {u1}", B1, "possible yes")
    put("b1-actor-trusted", "possible r4 >= {u1}", B1 + ["trust u2"], "possible no")
    put("b1-user-trusted", "possible r4 >= {u1}", B1 + ["trust u1"], "possible yes")
    put("b1-nobody-else", "necessary {u1} >= r4", B1, "necessary yes")
    put("b1-a-hire", "necessary {u1,u2,u3} >= r4", B1 + ["assign r2 : true : r1"], "necessary no")
    put("b1-kept", "necessary r1 >= {u1}", B1, "necessary yes")
    put("b2-removed", "necessary r1 >= {u1}", B2, "necessary no 1", "aar")
    put("b1-senior", "possible r4 >= {u4}", B1 + ["rh r6 r1", "ua u4 r6"], "possible yes")
    for kind in ("possible", "necessary"):
        put("b1-nothing-" + kind, kind + " {} >= {}", B1, kind + (" yes 0" if kind == "possible" else " yes"))
        put("b2-nothing-" + kind, kind + " {} >= {}", B2, kind + (" yes 0" if kind == "possible" else " yes"), "aar")
    put("b1-required", "necessary {u1} >= r4", B1 + ["always {u1} >= r4"], "necessary yes")
    put("b1-not-required", "necessary {u1} >= r4", B1 + ["always {u1} >= r4", "assign r2 : true : r1"], "refused 18 line 0")
    put("b2-no-actor", "possible r4 >= {u1}", [line for line in B2 if line != "ua u2 r2"], "refused 16 line 0", "aar")
    put("company-carol-trusted", "possible r4 >= {u1}", COMPANY + ["trust u3"], "possible no")
    put("company", "possible r4 >= {u1}", COMPANY, "possible yes")
    put("company-not-still", "possible r4 >= p0", COMPANY_AAR, "refused 6 line 1", "aar")
    put("company-edit", "necessary p1 >= {u1}", COMPANY_AAR, "necessary no", "aar")
    put("company-full-time", "necessary r2&p0 >= {u2}", COMPANY_AAR, "necessary yes", "aar")
    put("shop-guest-signs", "possible p1&p2 >= {u150}", SHOP, "possible yes")
    put("shop-contractor-signs", "possible p1&p2 >= {u112,u150}", SHOP, "possible no")
    put("shop-guest-leads", "possible r1 >= {u150}", SHOP, "possible no")
    put("shop-sign-known", "necessary {u101,u104,u120} >= p1", SHOP, "necessary no")
    put("shop-lead-known", "necessary {u100,u101} >= r1", SHOP, "necessary yes")
    folder.put("small/new-board", "possible r0 >= {u0}", text("aatu", []), "possible no")
    folder.put("small/no-board", "possible r0 >= {u0}", "", "refused 2 line 1")
    folder.put("small/no-question", "", text("aatu", []), "refused 3 line 1")


# Boards that fill every measure

NAMED = [2000 + 7 * k for k in range(31)]
SEATED = [1000 + 3 * k for k in range(ROWS)]


def deep(role_at, operands):
    """A condition of 16 operands that is met by whoever is a member of the first."""
    tail = ["r%d" % role_at(k) for k in range(1, operands)]
    half = len(tail) // 2
    return "r%d|(%s)&(%s)" % (role_at(0), "|".join(tail[:half]), "&".join(tail[half:]))


def unreached(count):
    """Requirements that stand since nobody can ever have role 63, and that take a whole closing each."""
    lines = []
    for k in range(count):
        users = [SEATED[(7 * k + j) % ROWS] for j in range(15)] + [3000 + 16 * k + j for j in range(15)]
        if k % 2 == 0:
            lines.append("never r63|r63&r%d >= %s" % (k, braces(users[:29])))
        else:
            lines.append("always %s >= r63" % braces(users + [4000 + k]))
    return lines


def links(many):
    """Rule k gives roles 2k + 1 and 2k + 2 to members of role 2k, the first to everybody; with many targets, also all that its users have already."""
    for k in range(31):
        low = list(range(2 * k + 1)) if many or k == 0 else []
        condition = deep(lambda j, k=k: 62 + j % 2 if j else 2 * k, CONDITION_OPERANDS) if k else "true"
        yield "assign r%d : %s : %s" % (2 * k, condition, r(low + [2 * k + 1, 2 * k + 2]))
    yield "assign r62 : r62 : " + r(range(63))


def fullest(folder):
    rows = ["ua u%d r0" % user for user in SEATED]
    edges = ["rh r%d %s" % (2 * k + 1, r(range(0, 2 * k + 1, 2))) for k in range(32)]
    given = ["pa p%d %s" % (k, r([2 * k, 2 * k + 1])) for k in range(PERMISSIONS)]
    trusted = ["trust " + " ".join("u%d" % user for user in SEATED[10:42])]
    wide = ["assign r0 : %s : %s" % (deep(lambda j, k=k: 32 + j if j else k, CONDITION_OPERANDS) if k else "true", r(range(63))) for k in range(ASSIGN_RULES)]
    still = braces(NAMED)
    for name, rules in (("chain", list(links(False))), ("many", list(links(True))), ("wide", wide)):
        for required in (0, REQUIREMENTS):
            board = text("aatu", rows + edges + given + trusted + rules + unreached(required))
            start = "fullest/" + name + ("-required" if required else "")
            folder.put(start + "-possible-yes", "possible r62 >= " + still, board, "possible yes")
            folder.put(start + "-possible-no", "possible r63 >= " + still, board, "possible no")
            folder.put(start + "-necessary-yes", "necessary %s >= r63" % still, board, "necessary yes")
            folder.put(start + "-still", "possible %s >= {u65535}" % still, board, "possible no")


# Boards whose rules stand in the wrong order

def backward(folder):
    rows = ["ua u%d r0" % user for user in SEATED]
    still = braces(NAMED)
    first = "assign r0 : true : r0"
    links = ["assign r0 : r%d : r%d" % (k, k + 1) for k in range(31)]
    actors = ["assign r%d : true : r%d" % (k, k + 1) for k in range(31)]
    many = ["assign r%d : r%d : %s" % (2 * k, 2 * k, r(range(2 * k + 1, 2 * k + 3))) for k in range(31)]
    for name, rules, last in (("links", links, 31), ("actors", actors, 31), ("many", many, 62)):
        rules = [first] + rules
        for order, lines in (("forward", rules), ("backward", rules[::-1])):
            folder.put("backward/%s-%s-yes" % (name, order), "possible r%d >= %s" % (last, still), text("aatu", rows + lines), "possible yes")
            folder.put("backward/%s-%s-no" % (name, order), "possible r63 >= " + still, text("aatu", rows + lines), "possible no")
    # Eight stages of users; each stage can begin when one of the stage before has come through the whole chain of sixteen links.
    chain = ["assign r60 : r%d : r%d" % (k, k + 1) for k in range(16)]
    starts = ["assign r%d : r%d : r0" % (30 + k, 20 + k) for k in range(8)]
    ends = ["assign r60 : r16&r%d : r%d" % (20 + k, 31 + k) for k in range(8)]
    staged = ["ua u%d r%d" % (user, 20 + 7 - k % 8) for k, user in enumerate(SEATED)] + ["ua u%d r30 r60" % SEATED[99]]
    for order, lines in (("forward", starts + chain + ends), ("backward", ends[::-1] + chain[::-1] + starts[::-1])):
        folder.put("backward/staged-%s-yes" % order, "possible r16|%s >= %s" % (braces(NAMED[:15]), braces(SEATED[:15])), text("aatu", staged + lines), "possible yes")
        folder.put("backward/staged-%s-no" % order, "possible r63|%s >= %s" % (braces(NAMED[:15]), braces(SEATED[:15])), text("aatu", staged + lines), "possible no")


# Boards under aar

def aar(folder):
    low = list(range(1, 64))
    rows = ["ua u%d %s" % (user, r(([0] if user == SEATED[0] else []) + low)) for user in SEATED]
    assign = ["assign r0 : r%d : %s" % (1 + k, r(low[2 * k:2 * k + 2])) for k in range(31)]
    revoke = ["revoke r0 : " + r(low[4 * k:4 * k + 4]) for k in range(REVOKE_RULES)]
    anybody = "|".join("r%d" % role for role in low[:30])
    lines = rows + assign + revoke
    folder.put("aar/all-removed", "possible {} >= r1|r2|r62|r63", text("aar", lines), "possible yes 6300")
    folder.put("aar/many-operands", "possible {} >= %s" % anybody, text("aar", lines), "possible yes")
    folder.put("aar/one-removed", "necessary %s >= {u%d}" % ("&".join("r%d" % role for role in low[:31]), SEATED[99]), text("aar", lines), "necessary no")
    folder.put("aar/kept", "necessary r0 >= {u%d}" % SEATED[0], text("aar", lines), "necessary yes")
    folder.put("aar/added", "possible r62 >= %s" % braces(NAMED), text("aar", ["ua u%d r0" % user for user in SEATED] + ["assign r0 : %s : r%d" % ("r%d" % k if k > 1 else "true", k + 1) for k in range(1, 32)]
                                                                      + ["assign r0 : r32 : " + r(range(1, 64))] + revoke), "possible yes")
    required = ["always {u%d} >= r0" % SEATED[0]] + ["never r0&r%d >= {u%d}" % (k, SEATED[1 + k]) for k in range(1, REQUIREMENTS)]
    folder.put("aar/required", "possible {} >= r1|r2|r62|r63", text("aar", lines + required), "possible yes 6300")


# Texts at the edges of every measure

def nested(inner, levels):
    return "(" * levels + inner + ")" * levels


def lengthened(length):
    """A board whose text has just so many bytes."""
    head = len(text("aatu", []))
    for short in range(14):
        if (length - head - 13 * short) % 14 == 0:
            long = (length - head - 13 * short) // 14
            lines = ["ua u%d r%d" % (10000 + k % 100, 10 + k // 100) for k in range(long)] + ["ua u%d r0" % (10000 + k) for k in range(short)]
            return text("aatu", lines)
    raise ValueError(length)


def edges(folder):
    def put(name, question, lines, want, regime="aatu"):
        folder.put("edges/" + name, question, text(regime, lines), want)

    still = "possible {} >= {}"
    yes = "possible yes 0"
    for over in (0, 1):
        sure = lambda number, line, over=over: "refused %d line %d" % (number, line) if over else yes
        folder.put("edges/text-length-%d" % over, still, lengthened(LONGEST + over), sure(1, 0))
        put("rows-%d" % over, still, ["ua u%d r1" % (600 * k) for k in range(ROWS + over)], sure(13, 103))
        put("rows-again-%d" % over, still, ["ua u%d r1" % (600 * k) for k in range(ROWS)] + ["ua u%d r2 r3" % (599 * over)], sure(13, 103))
        put("trusted-%d" % over, still, ["trust u%d" % k for k in range(TRUSTED_USERS + over)], sure(13, 35))
        put("trusted-line-%d" % over, still, ["trust " + " ".join("u%d" % k for k in range(TRUSTED_USERS + over))], sure(13, 3))
        put("trusted-lines-%d" % over, still, ["trust u9", "trust " + " ".join("u%d" % (100 + k) for k in range(TRUSTED_USERS - 1 + over))], sure(13, 4))
        put("assign-rules-%d" % over, still, ["assign r1 : true : r%d" % k for k in range(ASSIGN_RULES + over)], sure(13, 35))
        put("revoke-rules-%d" % over, still, ["ua u1 r0"] + ["revoke r0 : r%d" % (1 + k) for k in range(REVOKE_RULES + over)], sure(13, 20), "aar")
        put("requirements-%d" % over, still, ["%s >= {u%d}" % ("always {u%d}" % k if k % 2 else "never {}", k) for k in range(REQUIREMENTS + over)], sure(13, 19))
        put("condition-operands-%d" % over, still, ["assign r1 : %s : r2" % "|".join(["r1"] * (CONDITION_OPERANDS + over))], sure(5, 3))
        put("condition-levels-%d" % over, still, ["assign r1 : %s : r2" % nested("r1", LEVELS + over)], sure(5, 3))
        put("requirement-levels-%d" % over, still, ["never %s >= {u1}" % nested("{}", LEVELS + over)], sure(5, 3))
        put("brace-levels-%d" % over, still, ["never {u1} >= %s" % nested("{u1,u2}", LEVELS - 1 + over)], sure(5, 3))
        put("single-brace-levels-%d" % over, still, ["always {u1} >= %s" % nested("{u1}", LEVELS + over)], sure(5, 3))
        many = "&".join(["{}"] * (QUESTION_OPERANDS - 1 + over))
        put("requirement-operands-%d" % over, still, ["never %s >= {u1}" % many], sure(5, 3))
        put("question-operands-%d" % over, "possible {u1} >= %s" % many, [], sure(5, 1))
        put("question-braces-%d" % over, "possible %s >= {}" % braces(range(QUESTION_OPERANDS - 1 + over)), [], sure(5, 1))
        put("question-levels-%d" % over, "possible {} >= %s" % nested("{}", LEVELS + over), [], sure(5, 1))
        put("user-range-%d" % over, still, ["ua u%d r1" % (USERS - 1 + over)], sure(4, 3))
        put("role-range-%d" % over, still, ["ua u1 r%d" % (ROLES - 1 + over)], sure(4, 3))
        put("permission-range-%d" % over, still, ["pa p%d r1" % (PERMISSIONS - 1 + over)], sure(4, 3))
    put("question-length-0", "possible " + "(" * (LONGEST_QUESTION - 9), [], "refused 3 line 1")
    put("question-length-1", "possible " + "(" * (LONGEST_QUESTION - 8), [], "refused 1 line 0")
    put("question-length-and-text", "possible " + "(" * (LONGEST_QUESTION - 8), ["ua"], "refused 3 line 3")
    put("same-user-many-operands", "possible r1 >= %s" % braces([5] * 31), [], "possible no")
    put("all-roles-of-a-user", "necessary %s >= {u5}" % "&".join("r%d" % k for k in range(31)), ["ua u5 " + r(range(64))], "necessary yes")
    put("parentheses-open", still, ["never %s >= {u1}" % ("(" * 60000)], "refused 3 line 3")
    put("parentheses-deep", still, ["never %s >= {u1}" % nested("{}", 30000)], "refused 5 line 3")
    put("parentheses-deep-and-blank", still, ["never %s >= {u1} " % nested("{}", 30000)], "refused 3 line 3")
    put("parentheses-deep-in-condition", still, ["assign r1 : %s : r1" % nested("r1", 30000)], "refused 5 line 3")
    put("operands-long", still, ["never {} >= %s" % "|".join(["r1"] * 20000)], "refused 5 line 3")
    put("operands-long-and-sign", still, ["never {} >= %s&" % "&".join(["r1"] * 20000)], "refused 3 line 3")
    put("roles-long", still, ["ua u1 " + r([1] * 20000)], "refused 10 line 3")
    put("trusted-twice-far-behind", still, ["trust " + " ".join("u%d" % k for k in list(range(60)) + [59])], "refused 10 line 3")
    put("trusted-already-far-behind", still, ["trust u900", "trust " + " ".join("u%d" % k for k in list(range(60)) + [900])], "refused 10 line 4")
    put("trusted-already-just-behind", still, ["trust u900", "trust " + " ".join("u%d" % k for k in list(range(32)) + [900])], "refused 10 line 4")
    put("circle-of-all", still, ["rh r%d r%d" % (k, (k + 1) % 64) for k in range(64)], "refused 14 line 66")
    put("chain-of-all", "possible r63 >= {u1}", ["rh r%d r%d" % (k, k + 1) for k in range(63)] + ["ua u1 r0"], yes)
    put("circle-in-one-line", still, ["rh r1 r2", "rh r3 r1", "rh r2 r4 r3"], "refused 14 line 5")
    put("row-and-twice", still, ["ua u%d r1" % k for k in range(ROWS)] + ["ua u500 r1 r1"], "refused 10 line 103")
    put("same-tree", still, ["assign r1 : r1|r2|r3 : r4 r5", "assign r1 : ((r1|r2)|(r3)) : r5 r4"], "refused 10 line 4")
    rules = ["assign r1 : true : r%d" % k for k in range(ASSIGN_RULES)]
    put("rule-again-and-full", still, rules + [rules[9]], "refused 10 line 35")
    removals = ["ua u1 r0"] + ["revoke r0 : r%d" % (1 + k) for k in range(REVOKE_RULES)]
    put("removal-again-and-full", still, removals + [removals[9]], "refused 10 line 20", "aar")
    requirements = ["always {u%d} >= {}" % k for k in range(REQUIREMENTS)]
    put("requirement-again-and-full", still, requirements + [requirements[9]], "refused 10 line 19")
    put("trusted-again-and-full", still, ["trust u%d" % k for k in range(TRUSTED_USERS)] + ["trust u40 u31"], "refused 10 line 35")
    put("trusted-twice-and-full", still, ["trust u%d" % k for k in range(TRUSTED_USERS)] + ["trust u40 u40"], "refused 10 line 35")
    put("other-tree", still, ["assign r1 : r1|r2|r3 : r4 r5", "assign r1 : r1|(r2|r3) : r5 r4"], yes)
    put("same-braces", still, ["always {u1,u2} >= {}", "always (({u1}|{u2})) >= {}"], "refused 10 line 4")
    put("other-kind", still, ["always {} >= {}", "never {} >= {u1}"], yes)
    put("other-admin", still, ["assign r1 : true : r4", "assign r2 : true : r4"], yes)
    put("other-targets", still, ["assign r1 : true : r4", "assign r1 : true : r4 r5"], yes)
    folder.put("edges/version-2", still, "RBD 2\nregime aatu\n", "refused 2 line 1")


# Random sets, boards and questions

def expression(rng, operands, levels, atom, users=None):
    """A set of so many operands whose parentheses nest no deeper; `users` are those who may stand in braces with others."""
    terms = split(rng, operands)
    return "|".join(term(rng, count, levels, atom, users) for count in terms)


def term(rng, operands, levels, atom, users):
    if levels == 0:
        return "&".join(atom() for _ in range(operands))
    return "&".join(factor(rng, count, levels, atom, users) for count in split(rng, operands))


def factor(rng, operands, levels, atom, users):
    if operands == 1:
        return atom() if rng.random() < 0.85 else "(" + expression(rng, 1, levels - 1, atom, users) + ")"
    if users and rng.random() < 0.5:
        return braces(rng.choice(users) for _ in range(operands))
    return "(" + expression(rng, operands, levels - 1, atom, users) + ")"


def split(rng, count):
    parts = []
    while count > 0:
        part = rng.randint(1, count)
        parts.append(part)
        count -= part
    rng.shuffle(parts)
    return parts


class Random:
    """A random board: what stands in it, line by line."""

    def __init__(self, rng, regime=None, sure=False):
        self.rng = rng
        self.sure = sure
        self.regime = regime or rng.choice(["aatu", "aatu", "aar"])
        middle = rng.random() < 0.25
        self.users = rng.sample([0, 1, 2, 3, 4, 5, 9, 10, 99, 1000, 60000, 65534, 65535], rng.randint(2, 6))
        if middle:
            self.users += rng.sample(range(2000, 2100), rng.randint(4, 30))
        self.roles = rng.sample(range(ROLES), rng.randint(3, 20 if middle else 7))
        self.permissions = rng.sample(range(PERMISSIONS), 3)
        self.named = self.users + rng.sample([6, 7, 8, 20000, 65533], 2)
        self.admins = self.roles if self.regime == "aatu" else self.roles[:max(1, len(self.roles) // 3)]
        self.targets = self.roles[len(self.admins):] if self.regime == "aar" else self.roles
        self.rows, self.edges, self.given, self.trusted, self.rules, self.revokes, self.requirements = {}, {}, {}, [], [], [], []
        self.fill(rng.randint(0, 20 if middle else 9))

    def fill(self, rules):
        rng = self.rng
        for user in self.users:
            roles = [role for role in self.roles if rng.random() < 0.25]
            if roles:
                self.rows[user] = roles
        if self.regime == "aar":
            for role in self.admins:
                roles = self.rows.setdefault(rng.choice(self.users), [])
                if role not in roles:
                    roles.append(role)
        order = rng.sample(self.roles, len(self.roles))
        for k, senior in enumerate(order):
            juniors = [role for role in order[k + 1:] if rng.random() < 0.15]
            if juniors:
                self.edges[senior] = juniors
        for permission in self.permissions:
            if rng.random() < 0.8:
                self.given[permission] = rng.sample(self.roles, rng.randint(1, 2))
        if self.regime == "aatu":
            often = rng.choice([0, 0.2, 0.5])
            self.trusted = [user for user in self.named if rng.random() < often][:TRUSTED_USERS]
        seen = set()
        seated = [role for roles in self.rows.values() for role in roles if role in self.admins] or self.admins
        for _ in range(rules):
            admin, targets = rng.choice(seated if rng.random() < 0.6 else self.admins), rng.sample(self.targets, rng.randint(1, min(3, len(self.targets))))
            if (admin, frozenset(targets)) not in seen:
                seen.add((admin, frozenset(targets)))
                self.rules.append((admin, self.condition(), targets))
        if self.regime == "aar":
            self.revoking()
        self.require()

    def revoking(self):
        rng = self.rng
        due = sorted({role for rule in self.rules for role in rule[2]})
        due += [role for role in self.targets if role not in due and rng.random() < 0.3]
        rng.shuffle(due)
        while due:
            cut = rng.randint(1, len(due)) if len(self.revokes) < REVOKE_RULES - 1 else len(due)
            self.revokes.append((rng.choice(self.admins), due[:cut]))
            due = due[cut:]

    def require(self):
        rng = self.rng
        if self.sure:
            for k in range(rng.choice([0, 0, 1, 3])):
                self.requirements.append("never {} >= {u%d}" % k if rng.random() < 0.5 else "always r%d >= {}" % k)
        elif rng.random() < 0.25:
            for _ in range(rng.randint(1, 3)):
                always = rng.random() < 0.5
                self.requirements.append("always " + self.comparison("necessary") if always else "never " + self.comparison("possible"))

    def size(self, most):
        return self.rng.choice([1, 1, 1, 2, 2, 3, self.rng.randint(1, 6), self.rng.randint(1, most)])

    def condition(self):
        if self.rng.random() < 0.2:
            return "true"
        if self.rng.random() < 0.6:
            return "r%d" % self.rng.choice(self.roles)
        return expression(self.rng, self.size(CONDITION_OPERANDS), self.rng.choice([0, 1, 2, LEVELS]), lambda: "r%d" % self.rng.choice(self.roles))

    def static(self, operands, levels):
        rng = self.rng
        return expression(rng, operands, levels, lambda: "{}" if rng.random() < 0.1 else "{u%d}" % rng.choice(self.named), self.named)

    def dynamic(self, operands, levels):
        rng = self.rng

        def atom():
            which = rng.random()
            if which < 0.65:
                return "r%d" % rng.choice(self.roles)
            if which < 0.85:
                return "p%d" % rng.choice(self.permissions)
            return "{}" if which < 0.87 else "{u%d}" % rng.choice(self.named)
        return expression(rng, operands, levels, atom, self.named if rng.random() < 0.3 else None)

    def comparison(self, kind):
        if self.rng.random() < 0.6:
            return self.pointed(kind)
        rng = self.rng
        first = self.size(QUESTION_OPERANDS - 1)
        second = min(self.size(QUESTION_OPERANDS - 1), QUESTION_OPERANDS - first)
        levels = rng.choice([0, 1, 2, LEVELS])
        if rng.random() < 0.5:
            return self.dynamic(first, levels) + " >= " + self.static(second, levels)
        return self.static(first, levels) + " >= " + self.dynamic(second, levels)

    def pointed(self, kind):
        """Something that the present state hardly answers: it speaks of roles that rules speak of, and of users who lack them, or have them where they can be lost."""
        rng = self.rng
        role = rng.choice([role for _, _, targets in self.rules for role in targets] or self.roles)
        having = [user for user, roles in self.rows.items() if role in roles] or self.named
        lacking = [user for user in self.named if user not in having] or self.named
        roles = rng.choice(["r%d" % role, "r%d" % role, "r%d" % role, "r%d%sr%d" % (role, rng.choice("|&"), rng.choice(self.roles))])
        losing = self.regime == "aar" and rng.random() < 0.5
        if kind == "possible":
            if losing:
                return self.all_but(having) + " >= " + roles
            return roles + " >= " + braces(rng.choice(lacking) for _ in range(rng.randint(1, 3)))
        if losing:
            return roles + " >= " + braces([rng.choice(having)])
        return self.all_but(lacking if rng.random() < 0.5 else []) + " >= " + roles

    def all_but(self, some):
        out = self.rng.choice(some) if some else None
        return braces([user for user in self.named if user != out][:QUESTION_OPERANDS - 2])

    def question(self):
        kind = self.rng.choice(["possible", "necessary"])
        return kind + " " + self.comparison(kind)

    def lines(self):
        """The lines in a random order, with some lists cut into several lines; rules keep no order."""
        lines = []
        for word, letter, table in (("ua", "u", self.rows), ("pa", "p", self.given), ("rh", "r", self.edges)):
            for key, roles in table.items():
                for part in self.cut(roles):
                    lines.append("%s %s%d %s" % (word, letter, key, r(part)))
        for part in self.cut(self.trusted):
            lines.append("trust " + " ".join("u%d" % user for user in part))
        lines += ["assign r%d : %s : %s" % (admin, condition, r(targets)) for admin, condition, targets in self.rules]
        lines += ["revoke r%d : %s" % (admin, r(targets)) for admin, targets in self.revokes]
        lines += self.requirements
        self.rng.shuffle(lines)
        return lines

    def cut(self, entries):
        entries = list(entries)
        while entries:
            many = len(entries) if self.rng.random() < 0.7 else self.rng.randint(1, len(entries))
            yield entries[:many]
            entries = entries[many:]


def rand(folder, many, seed):
    for k in range(many):
        board = Random(random.Random("board %d %d" % (seed, k)))
        folder.put("random/%05d" % k, board.question(), text(board.regime, board.lines()))


# Faults that are planted

ANY = ["aatu", "aar"]
# Lines that are at fault wherever they stand, each number with the regimes in which it is the smallest.
LINES = {
    3: [(ANY, line) for line in (
        "", " ", "ua", "ua u1", "ua u1 ", "ua  u1 r1", " ua u1 r1", "ua u1 r1 ", "ua u1 r1  r2", "ua u1 r01", "ua u01 r1", "ua u1 r1\r", "ua u1\tr1", "ua r1 r1", "ua u1 u1", "ua u1 r",
        "ua u1 r100000", "ua u000000 r1", "ua u1 r-1", "ua u1 r+1", "ua u1 r1r2", "UA u1 r1", "ua U1 r1", "ua u1 r1,r2", "uaa u1 r1", "u", "pa p1", "pa r1 r1", "pa u1 r1", "pa p1 p1", "pa p00 r1",
        "rh r1", "rh u1 r1", "rh r1 u1", "rh r1 : r2", "regime aatu", "RBD 1", "day 17", "trust", "trust r1", "trust u1,u2", "trust {u1}", "assign r2 : r1", "assign r2 : r1 :", "assign r2 : r1 : ",
        "assign r2 r1 : r5", "assign r2: r1 : r5", "assign r2 : r1 : r5 :", "assign r2 : r1 r5", "assign r2 : : r5", "assign r2 :  : r5", "assign r2 : (true) : r5", "assign r2 : True : r5",
        "assign r2 : true|r1 : r5", "assign r2 : p1 : r5", "assign r2 : {} : r5", "assign r2 : {u1} : r5", "assign r2 : r1|{u1} : r5", "assign r2 : (r1 : r5", "assign r2 : r1) : r5",
        "assign r2 : () : r5", "assign r2 : r1||r2 : r5", "assign r2 : r1|&r2 : r5", "assign r2 : |r1 : r5", "assign r2 : r1& : r5", "assign r2 : r1 | r2 : r5", "assign r2 : (r1)(r2) : r5",
        "assign r2 : r1(r2) : r5", "assign r2 : (r1)r2 : r5", "assign r2 : r1r2 : r5", "assign u2 : r1 : r5", "assign r2 : r1 : u5", "revoke r2", "revoke r2 :", "revoke r2 r5", "revoke r2 : r1 : r5",
        "revoke r2 : u5", "always", "always {} {}", "always {} >=", "always >= {}", "always {} > {}", "always {} => {}", "always {}>={}", "always {} >= {} {}", "always {} >= {}}", "always {{}} >= {}",
        "always {u1 >= {}", "always {u1,} >= {}", "always {,u1} >= {}", "always {u1,,u2} >= {}", "always {u1;u2} >= {}", "always {u1, u2} >= {}", "always {r1} >= {}", "always {u1}{u2} >= {}",
        "always ({u1} >= {})", "always u1 >= {}", "always true >= {}", "always {} >= true", "never", "never {} >= {u1", "never {u1}& >= {}", "possible {} >= {}", "+ua u1 r1", "ua u1 r1 # more", "\x00", "\xff")],
    4: [(ANY, line) for line in (
        "ua u65536 r1", "ua u99999 r1", "ua u1 r64", "ua u1 r99999", "ua u1 r1 r1 r64", "pa p32 r1", "pa p99999 r1", "pa p1 r64", "pa p31 r1 r65 r1", "rh r64 r1", "rh r1 r64", "rh r1 r1 r64",
        "trust u65536", "trust u1 u1 u70000", "assign r64 : true : r1", "assign r1 : r64 : r1", "assign r1 : true : r64", "assign r1 : " + nested("r64", 9) + " : r1",
        "assign r1 : " + "|".join(["r1"] * 17) + " : r64", "revoke r64 : r1", "revoke r1 : r1 r64", "always r64 >= {}", "always {} >= p32", "always {u65536} >= {}", "never {u1,u65536} >= {u1}",
        "never r64 >= r1", "never " + nested("r1", 9) + " >= r64", "always " + "|".join(["r64"] * 40) + " >= r1")],
    5: [(ANY, line) for line in (
        "assign r1 : " + "|".join(["r1"] * 17) + " : r2", "assign r1 : " + nested("r1", 9) + " : r2 r2", "assign r1 : r1&" + nested("(r1|r2)&r3", 8) + " : r2",
        "always " + nested("r1", 9) + " >= r1", "always " + braces(range(33)) + " >= {}", "never " + "&".join(["r1"] * 16) + " >= " + "|".join(["{u1}"] * 17), "never {} >= " + nested("{u1,u2}", 8),
        "never {u1}|(" + nested("{}", 8) + ") >= {}", "always " + "|".join(["r1"] * 17) + " >= " + "|".join(["p1"] * 17))],
    6: [(ANY, line) for line in (
        "always r1 >= r1", "always r1 >= p1", "never p1|{u1} >= {u1}&r1", "never ({u1,u2}|r0) >= ((p31))", "always {u1}|r1 >= {u1}|r1")],
    8: [(["aar"], line) for line in ("trust u1", "trust u1 u1", "trust " + " ".join("u%d" % k for k in range(40)))]
       + [(["aatu"], line) for line in ("revoke r2 : r5", "revoke r2 : r5 r5", "revoke r2 : r2")],
    10: [(ANY, line) for line in (
        "ua u50000 r1 r1", "ua u50000 r1 r2 r3 r1", "pa p30 r1 r1", "rh r1 r1 r1", "rh r1 r2 r3 r2", "assign r1 : true : r1 r1", "assign r1 : true : r2 r1 r2")]
        + [(["aatu"], "trust u1 u2 u1"), (["aar"], "revoke r1 : r1 r1")],
    14: [(ANY, line) for line in ("rh r1 r1", "rh r1 r2 r1")],
}
FIRST = ["", "RBD", "RBD ", "RBD 1 ", "RBD  1", " RBD 1", "RBD 01", "RBD 2", "RBD 0", "RBD 10", "RBD 65535", "RBD 65536", "rbd 1", "RBD1", "RBD 1\r", "RBD\t1", "regime aatu", "RBD one"]
SECOND = ["", "regime", "regime ", "regime aa", "regime aatu ", "regime  aar", " regime aar", "regime aarr", "Regime aar", "regime AAR", "regime aar aatu", "regime aar\r", "aar", "ua u1 r1", "day 17"]
QUESTIONS = {
    3: ["", "possible", "necessary", "possible {}", "possible {} >=", "possible >= {}", "possible {} >= {} ", " possible {} >= {}", "possible  {} >= {}", "possible {}>={}", "possible {} > {}", "always {} >= {}",
        "Possible {} >= {}", "possible {} >= {}\r", "possible r1 >= u1", "possible (r1 >= {u1})", "possible true >= {}", "possible {} >= {u1,}", "possible {} >= ((((((((((r77", "possible r01 >= {}",
        "possible r1 >= {u100000}", "necessary {u1 >= {}", "necessary {} >= {} {}", "possible p1|| >= {}", "possible r64 >= r1 >= {}", "\x00", "possible {}\n>= {}"],
    4: ["possible r64 >= {}", "possible r64 >= r1", "necessary {u65536} >= {}", "necessary {} >= p32", "possible " + nested("r64", 9) + " >= r1", "possible " + braces(range(40)) + " >= r99999"],
    5: ["possible " + nested("r1", 9) + " >= {}", "possible " + nested("r1", 9) + " >= r1", "necessary " + braces(range(33)) + " >= {}", "necessary {} >= " + nested("{u1,u2}", 8)],
    6: ["possible r1 >= r1", "necessary p1 >= r1", "possible r1|{u1} >= {u1}&p0"],
}


class Planter:
    """One board with one fault."""

    def __init__(self, rng, regime=None):
        self.rng = rng
        self.board = Random(rng, regime, sure=True)
        self.lines = self.board.lines()

    def at(self, line, place):
        """The line goes in at the place; what follows may be at fault too, since the first faulty line decides."""
        after = self.lines[place:]
        if self.rng.random() < 0.3:
            after.append(self.rng.choice(["", "ua u1 r64", "trust", "ua u1 r1 r1", "never r1 >= p1"]))
        self.lines = self.lines[:place] + [line] + after
        return 3 + place

    def anywhere(self, line):
        return self.at(line, self.rng.randint(0, len(self.lines)))

    def last(self, line):
        return self.at(line, len(self.lines))

    def after(self, needed):
        """A place somewhere behind the lines that are needed before."""
        first = max((k for k, line in enumerate(self.lines) if line in needed), default=-1) + 1
        return self.rng.randint(first, len(self.lines))

    def text(self):
        return text(self.board.regime, self.lines)


def there_already(plant):
    """A line that names what an earlier one named."""
    rng = plant.rng
    choices = [line for line in plant.lines if line.split(" ")[0] in ("ua", "pa", "rh", "assign", "revoke", "trust", "always", "never")]
    if not choices:
        return None
    line = rng.choice(choices)
    fields = line.split(" ")
    again = line
    if fields[0] in ("ua", "pa", "rh"):
        more = ["r%d" % role for role in range(ROLES) if "r%d" % role not in fields[2:]]
        entries = [rng.choice(fields[2:])] + (rng.sample(more, 2) if rng.random() < 0.5 else [])
        rng.shuffle(entries)
        again = " ".join(fields[:2] + entries)
    elif fields[0] == "trust":
        entries = [rng.choice(fields[1:])] + (["u30001", "u30002"] if rng.random() < 0.5 else [])
        rng.shuffle(entries)
        again = " ".join(fields[:1] + entries)
    elif fields[0] in ("assign", "revoke"):
        last = len(fields) - 1 - fields[::-1].index(":")
        entries = fields[last + 1:]
        rng.shuffle(entries)
        if fields[0] == "assign" and fields[3] != "true" and "((((" not in fields[3] and rng.random() < 0.5:
            fields[3] = "(" + fields[3] + ")" if deepest(fields[3]) < LEVELS else fields[3]
        again = " ".join(fields[:last + 1] + entries)
    return "refused 10 line %d" % plant.at(again, plant.after([line]))


def deepest(words):
    depth = most = 0
    for letter in words:
        depth += (letter == "(") - (letter == ")")
        most = max(most, depth)
    return most


def full(plant):
    """A table without a free place, and one line more."""
    rng, board = plant.rng, plant.board
    kinds = ["rows", "assign", "requirements", "trust" if board.regime == "aatu" else "revoke"]
    kind = rng.choice(kinds)
    if kind == "rows":
        free = [user for user in range(40000, 40200)]
        add = ["ua u%d r%d" % (user, rng.choice(board.roles)) for user in free[:ROWS - len(board.rows)]]
        more = "ua u50000 %s" % r(rng.sample(board.roles, 2))
    elif kind == "assign":
        add = ["assign r%d : r1&r%d : r%d" % (board.admins[0], k, board.targets[0]) for k in range(20, 20 + ASSIGN_RULES - len(board.rules))]
        add = [line.replace("r1&r", "(((r1)))&r") for line in add]
        more = "assign r%d : r1&r2&r3 : r%d" % (board.admins[0], board.targets[0])
    elif kind == "requirements":
        add = ["never {} >= {u%d}" % (100 + k) for k in range(REQUIREMENTS - len(board.requirements))]
        more = rng.choice(["never {} >= {}", "always {} >= {}", "always {} >= {u1,u2}"])
    elif kind == "trust":
        left = TRUSTED_USERS - len(board.trusted)
        add = ["trust " + " ".join("u%d" % (40000 + k) for k in range(left))] if left else []
        more = rng.choice(["trust u50000", "trust u50000 u50001", "trust " + " ".join("u%d" % (50000 + k) for k in range(50))])
    else:
        have = {frozenset(targets) for _, targets in board.revokes}
        pairs = [(a, b) for a in board.targets for b in board.targets if a < b and frozenset((a, b)) not in have]
        add = ["revoke r%d : r%d r%d" % (board.admins[0], a, b) for a, b in pairs[:REVOKE_RULES - len(board.revokes)]]
        if len(add) < REVOKE_RULES - len(board.revokes):
            return None
        more = "revoke r%d : r%d r%d r%d" % (board.admins[0], *rng.sample([role for role in range(ROLES) if role not in board.roles], 3))
    plant.lines += add
    return "refused 13 line %d" % plant.last(more)


def circle(plant):
    """An edge up from where a chain of edges leads."""
    rng, board = plant.rng, plant.board
    if not board.edges:
        return None
    senior = rng.choice(list(board.edges))
    path = [senior]
    while path[-1] in board.edges and (len(path) < 2 or rng.random() < 0.8):
        path.append(rng.choice(board.edges[path[-1]]))
    needed = [line for line in plant.lines if line.startswith("rh ")]
    others = [role for role in range(ROLES) if role not in board.roles]
    entries = [senior] + rng.sample(others, rng.randint(0, 2))
    rng.shuffle(entries)
    return "refused 14 line %d" % plant.at("rh r%d %s" % (path[-1], r(entries)), plant.after(needed))


def as_a_whole(plant, number):
    """What is tested after the last line; with some later numbers planted too."""
    rng, board = plant.rng, plant.board
    if not board.rows:
        return None
    free = [role for role in range(ROLES) if role not in board.roles]
    lower, upper, other = rng.sample(free, 3)
    seated = rng.choice(list(board.rows))
    admin = board.admins[0]
    revoke = len(board.revokes) < REVOKE_RULES
    faults = {
        15: [["ua u%d r%d" % (seated, lower), "revoke r%d : r%d" % (lower, lower)], ["revoke r%d : r%d" % (admin, admin)], ["assign r%d : true : r%d" % (admin, admin), "revoke r%d : r%d" % (admin, other)],
             ["assign r%d : r1 : r%d" % (admin, lower), "revoke r%d : r%d" % (lower, upper)]],
        16: [["assign r%d : true : r%d" % (lower, upper), "revoke r%d : r%d" % (admin, upper)], ["revoke r%d : r%d" % (lower, upper)], ["rh r%d r%d" % (other, lower), "ua u%d r%d" % (seated, other), "revoke r%d : r%d" % (lower, upper)]],
        17: [["assign r%d : true : r%d" % (admin, lower)], ["assign r%d : r1 : r%d r%d" % (admin, lower, upper), "revoke r%d : r%d" % (admin, lower)],
             ["rh r%d r%d" % (upper, lower), "assign r%d : true : r%d" % (admin, lower), "revoke r%d : r%d" % (admin, upper)]],
        18: [["never {} >= {}"], ["always {} >= {u1}"], ["always {} >= r%d" % board.rows[seated][0]], ["never r%d >= {u%d}" % (board.rows[seated][0], seated)], ["never {u1} >= r%d" % lower],
             ["always r%d >= {u1,u2}" % lower]],
    }
    if number < 18 and not revoke:
        return None
    plant.lines += rng.choice(faults[number])
    if number < 18 and rng.random() < 0.3:
        plant.lines.append("never {} >= {}")
    if number == 15 and rng.random() < 0.3:
        plant.lines.append("assign r%d : true : r%d" % (other, upper))
    rng.shuffle(plant.lines)
    return "refused %d line 0" % number


def planted(rng, number):
    """A board with a fault of this number; none, where this one does not take it."""
    plant = Planter(rng, "aar" if number in (15, 16, 17) else None)
    question = plant.board.question() if rng.random() < 0.7 else rng.choice(["", "possible r1 >= r1", "possible r64 >= {}"])
    if number in (3, 4, 5, 6) and rng.random() < 0.25:
        return rng.choice(QUESTIONS[number]).split("\n")[0], plant.text(), "refused %d line 1" % number
    if number == 1:
        tail = "ua u1\n" * 12000
        return question, plant.text() + tail[:LONGEST + rng.choice([1, 2, 300, 9000]) - len(plant.text())], "refused 1 line 0"
    if number == 2:
        body = plant.text()[len("RBD 1\n"):]
        return (question, "RBD 1", "refused 2 line 1") if rng.random() < 0.1 else (question, rng.choice(FIRST) + "\n" + body, "refused 2 line 1")
    if number == 3 and rng.random() < 0.25:
        body = "".join(line + "\n" for line in plant.lines)
        cut = rng.randint(0, 3)
        if cut == 0:
            return question, "RBD 1\n" + rng.choice(SECOND) + "\n" + body, "refused 3 line 2"
        if cut == 1:
            return question, "RBD 1\n" + rng.choice(["", "regime aar", "regime"]), "refused 3 line 2"
        plant.lines += ["ua u50000 r1"]
        return question, plant.text()[:-1], "refused 3 line %d" % (2 + len(plant.lines))
    if number in LINES and (number not in (10, 14) or rng.random() < 0.3):
        fits = [line for regimes, line in LINES[number] if plant.board.regime in regimes]
        if number == 14 and any(senior in plant.board.edges for senior in (1, 2)):
            return None
        want = "refused %d line %d" % (number, plant.anywhere(rng.choice(fits)))
        return question, plant.text(), want
    if number == 10:
        want = there_already(plant)
    elif number == 13:
        want = full(plant)
    elif number == 14:
        want = circle(plant)
    else:
        want = as_a_whole(plant, number)
    return want and (question, plant.text(), want)


def faults(folder, many, seed):
    numbers = [1, 2, 3, 4, 5, 6, 8, 10, 13, 14, 15, 16, 17, 18]
    # each line that is at fault once, on a board that has nothing else
    for number, lines in LINES.items():
        for k, (regimes, line) in enumerate(lines):
            for regime in regimes:
                folder.put("faults/line-%02d-%03d-%s" % (number, k, regime), "possible {} >= {}", text(regime, [line]), "refused %d line 3" % number)
    for number, questions in QUESTIONS.items():
        for k, question in enumerate(questions):
            folder.put("faults/question-%02d-%03d" % (number, k), question.split("\n")[0], text("aatu", []), "refused %d line 1" % number)
    for k, first in enumerate(FIRST):
        folder.put("faults/first-%03d" % k, "possible {} >= {}", first + "\nregime aatu\n", "refused 2 line 1")
    for k, second in enumerate(SECOND):
        folder.put("faults/second-%03d" % k, "possible {} >= {}", "RBD 1\n" + second + "\n", "refused 3 line 2")
    done = tries = 0
    while done < many:
        rng = random.Random("fault %d %d" % (seed, tries))
        number = numbers[tries % len(numbers)]
        tries += 1
        found = planted(rng, number)
        if found:
            question, board, want = found
            folder.put("faults/%05d-%02d" % (done, number), question, board, want)
            done += 1


# Boards with some bytes changed

def mutated(folder, many, seed):
    letters = b"uprtadnbewy0123456789 \n:|&(){},>=+-"
    for k in range(many):
        rng = random.Random("mutated %d %d" % (seed, k))
        board = Random(rng, sure=rng.random() < 0.5)
        data = bytearray((board.question() + "\n" + text(board.regime, board.lines())).encode("latin-1"))
        start = data.index(10) + 1 + len("RBD 1\nregime a") if rng.random() < 0.8 else 0
        for _ in range(rng.choice([1, 1, 1, 2, 3])):
            at = rng.randint(min(start, len(data) - 1), len(data) - 1)
            way = rng.randint(0, 4)
            if way == 0:
                del data[at]
            elif way == 1:
                data.insert(at, rng.choice(letters))
            elif way == 2:
                data[at] = rng.choice(letters)
            elif way == 3:
                digit = [place for place in range(start, len(data)) if chr(data[place]).isdigit()] or [at]
                data[rng.choice(digit)] = rng.choice(b"0123456789")
            else:
                lines = bytes(data).split(b"\n")
                pick = rng.randint(3, len(lines) - 1) if len(lines) > 4 else len(lines) - 1
                lines.insert(rng.randint(min(3, len(lines) - 1), len(lines) - 1), lines[pick])
                data = bytearray(b"\n".join(lines))
        question, _, body = bytes(data).partition(b"\n")
        folder.put("mutated/%05d" % k, question, body)


def main():
    arguments = argparse.ArgumentParser(description="Writes boards with questions into a folder.")
    arguments.add_argument("folder")
    arguments.add_argument("--random", type=int, default=1000, metavar="N", help="how many random boards, faults and mutated boards (1000)")
    arguments.add_argument("--seed", type=int, default=1, metavar="S")
    given = arguments.parse_args()
    folder = Folder(given.folder)
    for write in (small, fullest, backward, aar, edges):
        write(folder)
    for write in (rand, faults, mutated):
        write(folder, given.random, given.seed)
    print("%d boards in %s" % (folder.count, given.folder))


if __name__ == "__main__":
    main()
