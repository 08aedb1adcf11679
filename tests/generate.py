#!/usr/bin/env python3
"""Prints the lines that the program and the model are compared on.

The first part is written by hand: each refusal of each call, and both sides of each limit. A line of it that is given with
its answer is compared with the model at once. The second part is random, from a fixed seed: small schemes and tables, and
steps on them, valid and not. The third part is random too: questions on small tables, before and after steps.
"""

import itertools
import random
import sys

import model

HUGE = 2 ** 64 - 1

# Of the random parts.
SEED = 1
ROUNDS = 90
QUESTION_SEED = 2
QUESTION_ROUNDS = 22


class Script:
    """The lines so far, and the model's state behind them."""

    def __init__(self):
        self.lines = []
        self.session = model.Session()

    def note(self, text):
        self.lines.append("")
        self.lines.append("# " + text)

    def ask(self, line, expected=None):
        self.lines.append(line)
        found = model.answer(self.session, line)
        if expected is not None and found != str(expected):
            sys.exit("%s: the rules say %s, the model %s" % (line, expected, found))
        return found

    def asks(self, lines, expected=None):
        for line in lines:
            self.ask(line, expected)


# --- pieces that many parts use --------------------------------------------------------------------------------------


def new_book(script, rights, subject_types, object_types):
    script.ask("book", "ok")
    for name, count in (("right", rights), ("subject-type", subject_types), ("object-type", object_types)):
        for k in range(count):
            script.ask(name, k)


def new_table(script, subjects, objects, holds=()):
    script.ask("table", "ok")
    for k, kind in enumerate(subjects):
        script.ask("subject %d" % kind, k)
    for k, kind in enumerate(objects):
        script.ask("object %d" % kind, k)
    for hold in holds:
        script.ask("hold %d %d %d" % hold, "ok")
    script.ask("start", "ok")


def listed(numbers):
    return "".join(" %d" % number for number in numbers)


def transform(u, o, need, gives):
    return "transform %d %d :%s :%s" % (u, o, listed(need), listed(gives))


def grant(u, v, o, need, gives):
    return "grant %d %d %d :%s :%s" % (u, v, o, listed(need), listed(gives))


def creation(u, o, gets):
    return "creation %d %d :%s" % (u, o, listed(gets))


# --- written by hand: what cannot be read ----------------------------------------------------------------------------


EVERY_CALL = [
    "right", "subject-type", "object-type", "owner 0", "creation 0 0 : 0", "transform 0 0 : 0 : 0",
    "grant 0 0 0 : 0 : 0", "fix", "subject 0", "object 0", "hold 0 0 0", "start", "create 0 0", "add 0 0 0",
    "give 0 0 0 0", "revoke 0 0 0 0", "cell 0 0", "dump", "can 0 0 0", "can-new 0 0 0", "can 0 0 0 2049",
]

STEPS = ["create 0 0", "add 0 0 0", "give 0 1 0 0", "revoke 0 1 0 0", "can 0 0 3", "can-new 0 0 3", "can 9 9 9 0"]


def missing_parts(script):
    script.note("nothing is there yet: no draft, no book, no table")
    script.asks(EVERY_CALL, "unreadable")
    script.note("a table, and still no book: steps have no rules, cells can be read")
    new_table(script, [0, 0], [0], [(0, 0, 3)])
    script.asks(STEPS, "unreadable")
    script.ask("cell 0 0", "{3}")
    script.note("the draft of the table is used up")
    script.asks(["subject 0", "object 0", "hold 0 0 0", "start"], "unreadable")
    script.note("a draft of a book is no book")
    script.ask("book", "ok")
    script.asks(STEPS, "unreadable")
    script.ask("fix", "ok")
    script.asks(["right", "owner 0", "creation 0 0 :", "transform 0 0 : 0 :", "fix"], "unreadable")
    script.note("the book without a declaration permits nothing")
    script.asks(["create 0 0", "add 0 0 3", "give 0 1 0 3"], "refused 21")
    script.ask("revoke 0 0 0 3", "refused 22")
    script.ask("can 0 0 3", "can 0")
    script.asks(["can 1 0 3", "can 0 0 2", "can-new 0 0 3"], "never")


def bad_words(script):
    script.note("no such call, or not so many numbers")
    script.asks(["nothing", "Right", "rights", "book 0", " book", "\tbook", " ", "-> ok", "{", "book -> ok"],
                "unreadable")
    script.note("with a draft of each kind")
    script.ask("book", "ok")
    script.ask("table", "ok")
    script.asks([
        "right 0", "subject-type 0", "object-type 0", "fix 1", "table 1", "start 1", "dump 1", "owner", "owner 0 1",
        "subject", "subject 0 0", "object", "object 0 0", "hold 0 0", "hold 0 0 0 0", "create 0", "create 0 0 0",
        "add 0 0", "add 0 0 0 0", "give 0 1 0", "give 0 1 0 0 0", "revoke 0 1 0", "revoke 0 1 0 0 0", "cell 0",
        "cell 0 0 0", "add 0 0 0 0 0 0",
    ], "unreadable")
    script.note("lists without their colons, or with one too many")
    script.asks([
        "creation 0 0", "creation 0 0 0", "creation 0 : 0", "creation 0 0 0 : 0", "creation 0 0 : 0 : 0", "creation",
        "transform 0 0 : 0", "transform 0 0", "transform 0 : 0 : 0", "transform 0 0 0 : 0 : 0",
        "transform 0 0 : 0 : 0 : 0", "transform", "grant 0 0 0 : 0", "grant 0 0 0", "grant 0 0 : 0 : 0",
        "grant 0 0 0 0 : 0 : 0", "grant 0 0 0 : 0 : 0 : 0", "grant", "owner : 0", "creation 0 0 : x",
        "transform 0 0 : x : 0", "transform 0 0 : 0 : x", "grant 0 0 x : 0 : 0",
    ], "unreadable")


def bad_numbers(script):
    script.note("no numbers: signs, letters, other digits, one past the largest")
    script.ask("table", "ok")
    for word in ("x", "-1", "-0", "+", "1.0", "0x1", "1e3", "1_0", "\u0661", "18446744073709551616", "9" * 40, "9" * 5000):
        script.ask("subject " + word, "unreadable")
    script.note("numbers with a plus or zeros in front, and with more blanks")
    script.ask("subject +1", 0)
    script.ask("subject 0015", 1)
    script.ask("subject " + "0" * 30 + "2", 2)
    script.ask("subject  3", 3)
    script.ask("subject \t3 ", 4)
    script.ask("subject 3\u00a0", 5)
    script.ask("object\t3", "unreadable")
    script.ask("object 3\r", 0)
    script.ask("start ", "ok")
    script.ask("cell 0 0 ", "{}")


def bad_flags(script):
    script.note("settings that cannot be read")
    good = ["1", "0", "1", "2", "3", "0", "counted"]
    script.ask("flags " + " ".join(good), "ok")
    for place, words in (
        (0, ("x", "-1", "-", "18446744073709551616", "1,2")),
        (1, ("16", "x", "0,", ",0", "0,,1", "0,16", "--", "18446744073709551616")),
        (2, ("16", "x", "15,16")),
        (3, ("16", "x", "+")),
        (4, ("16", "x", "3;4")),
        (5, ("2", "x", "00", "-", "true")),
        (6, ("Counted", "31", "-", "limited")),
    ):
        for word in words:
            script.ask("flags " + " ".join(good[:place] + [word] + good[place + 1:]), "unreadable")
    script.ask("flags", "unreadable")
    script.ask("flags " + " ".join(good[:6]), "unreadable")
    script.ask("flags " + " ".join(good + ["0"]), "unreadable")
    script.note("what is not read is not refused either")
    script.ask("flags 0 16 - - - 0 counted", "unreadable")
    script.ask("flags 31 - - - - 2 counted", "unreadable")
    script.ask("flags  1\t0,0,00 +1  2 3 0 counted ", "ok")


# --- written by hand: declarations -----------------------------------------------------------------------------------


def declaration_limits(script):
    script.note("32 rights, 16 types of each kind, and no more")
    new_book(script, 32, 16, 16)
    for _ in range(2):
        script.asks(["right", "subject-type", "object-type"], "refused 20")
    script.note("owner: 10, then 8")
    script.ask("owner 32", "refused 10")
    script.ask("owner %d" % HUGE, "refused 10")
    script.ask("owner 31", "ok")
    script.ask("owner 31", "refused 8")
    script.ask("owner 0", "refused 8")
    script.ask("owner 32", "refused 10")
    script.note("creations: 10, then 8")
    script.ask(creation(15, 15, [31]), "ok")
    script.ask(creation(15, 15, [31]), "refused 8")
    script.ask(creation(15, 15, []), "refused 8")
    script.ask(creation(15, 15, [32]), "refused 10")
    script.ask(creation(16, 15, [31]), "refused 10")
    script.ask(creation(15, 16, [31]), "refused 10")
    script.ask(creation(HUGE, 0, []), "refused 10")
    script.ask(creation(0, HUGE, []), "refused 10")
    script.ask(creation(0, 0, [HUGE]), "refused 10")
    script.ask(creation(0, 0, [5, 5]), "refused 8")
    script.ask(creation(0, 0, [5, 6, 7, 5]), "refused 8")
    script.ask(creation(0, 0, [5, 5, 32]), "refused 10")
    script.ask(creation(0, 16, [5, 5]), "refused 10")
    script.ask(creation(15, 15, [5, 5]), "refused 8")
    script.ask(creation(0, 0, []), "ok")
    script.ask(creation(0, 0, []), "refused 8")
    script.ask(creation(0, 1, range(32)), "ok")
    script.ask(creation(1, 0, reversed(range(32))), "ok")
    script.ask(creation(2, 0, list(range(32)) + [0]), "refused 8")


def undeclared_numbers(script):
    script.note("a fresh draft has no right and no type")
    script.ask("book", "ok")
    script.asks(["owner 0", "creation 0 0 :", "transform 0 0 : 0 : 0", "grant 0 0 0 : 0 : 0"], "refused 10")
    script.asks(["transform 0 0 : :", "grant 0 0 0 : :"], "refused 10")
    script.note("one of each kind: number 0 is there, number 1 is not, until it is declared")
    new_book(script, 1, 1, 1)
    for line in ("owner 1", "creation 1 0 :", "creation 0 1 :", "creation 0 0 : 1", "creation 0 0 : 0 1"):
        script.ask(line, "refused 10")
    for line in (transform(1, 0, [0], []), transform(0, 1, [0], []), transform(0, 0, [1], []),
                 transform(0, 0, [0], [1]), grant(1, 0, 0, [0], []), grant(0, 1, 0, [0], []),
                 grant(0, 0, 1, [0], []), grant(0, 0, 0, [1], []), grant(0, 0, 0, [0], [1])):
        script.ask(line, "refused 10")
    script.asks(["right", "subject-type", "object-type"], 1)
    for line in ("owner 1", "creation 1 0 :", "creation 0 1 :", "creation 0 0 : 1",
                 transform(1, 0, [0], []), transform(0, 1, [0], []), transform(0, 0, [1], []),
                 transform(0, 0, [0], [1]), grant(1, 0, 0, [0], []), grant(0, 1, 0, [0], []),
                 grant(0, 0, 1, [0], []), grant(0, 0, 0, [1], []), grant(0, 0, 0, [0], [1])):
        script.ask(line, "ok")


def row_faults(script, room):
    """Each fault of a row, and each two faults: the answers with room for a row, and without."""
    last = "ok" if room else "refused 20"
    script.ask(transform(0, 0, [0], [1]), last)
    script.ask(grant(0, 0, 0, [0], [1]), last)
    script.ask(transform(0, 0, [0], []), last)
    script.ask(grant(0, 0, 0, [0, 1, 2], []), last)
    for u, v, o in ((3, 0, 0), (0, 3, 0), (0, 0, 3), (HUGE, 0, 0), (0, HUGE, 0), (0, 0, HUGE)):
        for need, gives in (([0], [1]), ([0, 0], [1]), ([0], [1, 1]), ([], [1]), ([], []), ([0, 0], [])):
            script.ask(grant(u, v, o, need, gives), "refused 10")
            if v == 0:
                script.ask(transform(u, o, need, gives), "refused 10")
    for need, gives, number in (
        ([4], [1], 10), ([0], [4], 10), ([HUGE], [1], 10), ([0], [HUGE], 10), ([0, 0, 4], [1], 10), ([0, 0], [4], 10),
        ([4], [1, 1], 10), ([], [4], 10), ([], [1, 1, 4], 10), ([0, 0], [1], 8), ([0, 1, 0], [1], 8), ([0], [1, 1], 8),
        ([0], [1, 2, 1], 8), ([], [1, 1], 8), ([0, 0], [1, 1], 8), ([], [1], 9), ([], [], 9),
    ):
        script.ask(transform(0, 0, need, gives), "refused %d" % number)
        script.ask(grant(0, 0, 0, need, gives), "refused %d" % number)


def row_limits(script):
    script.note("rows: 10, then 8, then 9")
    new_book(script, 4, 3, 3)
    row_faults(script, True)
    script.note("256 rows of both kinds together, the same row again and again")
    for k in range(126):
        script.ask(transform(k % 3, 0, [k % 4], [1]), "ok")
        script.ask(grant(0, k % 3, 1, [2], [k % 4]), "ok")
    script.note("no 257th row of either kind, and the other faults come before that")
    row_faults(script, False)
    script.note("the other declarations do not count as rows")
    script.ask("right", 4)
    script.ask("owner 4", "ok")
    script.ask(creation(0, 0, [4]), "ok")
    script.ask("fix", "ok")
    new_table(script, [0, 1, 2], [1], [(0, 0, 2)])
    script.asks(["give 0 1 0 0", "give 0 2 0 3", "give 0 1 0 2"], "added 1")
    script.ask("give 0 1 0 4", "refused 21")
    script.note("256 transform rows, then 256 grant rows; the last row counts")
    for name, more in (("transform", transform(0, 0, [0], [2])), ("grant", grant(0, 0, 0, [0], [2]))):
        new_book(script, 3, 1, 1)
        for _ in range(255):
            script.ask(transform(0, 0, [1], []) if name == "transform" else grant(0, 0, 0, [1], []), "ok")
        script.ask(more, "ok")
        script.asks([more, transform(0, 0, [0], [1]), grant(0, 0, 0, [0], [1])], "refused 20")
        script.ask("fix", "ok")
        new_table(script, [0, 0], [0], [(0, 0, 0)])
        script.ask("add 0 0 2", "added 1" if name == "transform" else "refused 21")
        script.ask("give 0 1 0 2", "refused 21" if name == "transform" else "added 1")
        script.ask("add 0 0 1", "refused 21")
        script.ask("give 0 1 0 1", "refused 21")


def all_creations(script):
    script.note("a creation for each pair of types")
    new_book(script, 32, 16, 16)
    for u, o in itertools.product(range(16), range(16)):
        script.ask(creation(u, o, [(u + o) % 32, 31 - u] if u + o != 31 - u else [31 - u]), "ok")
    script.asks([creation(0, 0, []), creation(15, 15, [1])], "refused 8")
    script.ask(transform(0, 0, [0], [1]), "ok")
    script.ask("fix", "ok")
    new_table(script, [0, 7, 15], [])
    script.ask("create 0 0", "made 0")
    script.ask("create 1 15", "made 1")
    script.ask("create 2 15", "made 2")
    script.ask("dump", "0/0{0 31} 1/1{22 24} 2/2{16 30}")


def refused_changes_nothing(script):
    script.note("refused declarations leave no trace in the book")
    new_book(script, 3, 2, 2)
    script.ask("owner 3", "refused 10")
    script.ask(creation(0, 0, [0, 0]), "refused 8")
    script.ask(creation(0, 0, [3]), "refused 10")
    script.ask(transform(0, 0, [0], [1, 1]), "refused 8")
    script.ask(transform(0, 0, [], [1]), "refused 9")
    script.ask(transform(0, 2, [0], [1]), "refused 10")
    script.ask(grant(0, 1, 0, [0, 0], [1]), "refused 8")
    script.ask(grant(0, 1, 0, [], [1]), "refused 9")
    script.ask("fix", "ok")
    new_table(script, [0, 1], [0], [(0, 0, 0), (0, 0, 1)])
    script.asks(["create 0 0", "add 0 0 1", "give 0 1 0 1"], "refused 21")
    script.ask("revoke 0 0 0 0", "refused 22")
    script.ask("dump", "0/0{0 1}")


# --- written by hand: tables -----------------------------------------------------------------------------------------


def table_limits(script):
    script.note("64 subjects and 64 objects, types 0 to 15; 10 comes before 20")
    script.ask("table", "ok")
    for name in ("subject", "object"):
        script.asks(["%s 16" % name, "%s %d" % (name, HUGE)], "refused 10")
        for k in range(64):
            script.ask("%s %d" % (name, k % 16), k)
        script.asks(["%s 0" % name, "%s 15" % name], "refused 20")
        script.asks(["%s 16" % name, "%s %d" % (name, HUGE)], "refused 10")
    script.ask("hold 63 63 31", "ok")
    script.ask("hold 63 63 31", "ok")
    script.ask("hold 0 0 0", "ok")
    for place in itertools.product((0, 64, HUGE), (0, 64, HUGE), (0, 32, HUGE)):
        if place != (0, 0, 0):
            script.ask("hold %d %d %d" % place, "refused 10")
    script.ask("start", "ok")
    script.ask("cell 63 63", "{31}")
    script.ask("cell 0 0", "{0}")
    script.ask("cell 0 63", "{}")
    script.ask("dump", "0/0{0} 63/63{31}")
    for place in ((64, 0), (0, 64), (64, 64), (HUGE, 0), (0, HUGE), (HUGE, HUGE)):
        script.ask("cell %d %d" % place, "refused 10")
    script.note("an empty table, and tables without subjects or objects")
    script.ask("table", "ok")
    script.ask("hold 0 0 0", "refused 10")
    script.ask("start", "ok")
    script.ask("dump", "nothing")
    script.ask("cell 0 0", "refused 10")
    new_table(script, [1], [])
    script.ask("cell 0 0", "refused 10")
    new_table(script, [], [1])
    script.ask("cell 0 0", "refused 10")
    script.note("all rights in a cell, in any order of holding")
    order = list(range(32))
    random.Random(5).shuffle(order)
    new_table(script, [0, 0], [0, 0], [(1, 0, right) for right in order])
    script.ask("cell 1 0", "{" + " ".join(str(k) for k in range(32)) + "}")
    script.asks(["cell 0 0", "cell 0 1", "cell 1 1"], "{}")


def drafts_and_current(script):
    script.note("a draft does not touch the current table, a refused flag book does not touch the current book")
    new_table(script, [0], [0], [(0, 0, 7)])
    script.asks(["table"], "ok")
    script.ask("subject 5", 0)
    script.ask("cell 0 0", "{7}")
    script.ask("start", "ok")
    script.ask("cell 0 0", "refused 10")
    script.ask("flags 1 - - 5 2 0 counted", "ok")
    script.ask("flags 0 - - - - 0 counted", "refused 10")
    script.ask("book", "ok")
    script.ask("create 0 2", "made 0")
    script.ask("cell 0 0", "{1}")
    script.ask("right", 0)
    script.ask("fix", "ok")
    script.ask("create 0 2", "refused 21")
    script.note("a new draft of a book forgets the old draft")
    new_book(script, 2, 1, 1)
    script.ask("book", "ok")
    script.ask("right", 0)
    script.ask("owner 1", "refused 10")
    script.ask("fix", "ok")


# --- written by hand: steps under a row book -------------------------------------------------------------------------


def step_book(script):
    """Two subject types, two object types; right 0 marks an owner."""
    new_book(script, 5, 2, 2)
    script.ask("owner 0", "ok")
    script.ask(creation(0, 0, [0, 1]), "ok")
    script.ask(creation(1, 1, []), "ok")
    script.ask(transform(0, 0, [1], [2]), "ok")
    script.ask(transform(0, 0, [1, 2], [3]), "ok")
    script.ask(transform(0, 1, [1], [4]), "ok")
    script.ask(transform(1, 0, [2], []), "ok")
    script.ask(grant(0, 1, 0, [1], [1, 2]), "ok")
    script.ask(grant(0, 1, 0, [2, 3], [3]), "ok")
    script.ask(grant(0, 0, 0, [1], [4]), "ok")
    script.ask(grant(1, 0, 0, [2], [0]), "ok")
    script.ask("fix", "ok")


def steps_by_hand(script):
    script.note("create: 10, then 21; the creator's cell is the creation, the others are empty")
    step_book(script)
    new_table(script, [0, 1, 0], [])
    script.asks(["create 3 0", "create %d 0" % HUGE, "create 0 16", "create 0 %d" % HUGE, "create 3 16",
                 "create 1 16"], "refused 10")
    script.asks(["create 0 1", "create 1 0", "create 0 15", "create 1 2"], "refused 21")
    script.ask("create 0 0", "made 0")
    script.ask("dump", "0/0{0 1}")
    script.asks(["cell 1 0", "cell 2 0"], "{}")
    script.ask("create 1 1", "made 1")
    script.ask("cell 1 1", "{}")
    script.ask("create 2 0", "made 2")
    script.ask("dump", "0/0{0 1} 2/2{0 1}")
    script.note("add: 10, then 21; the whole need of one row has to be held, and rows join")
    script.asks(["add 3 0 0", "add 0 3 0", "add 0 0 32", "add %d 0 0" % HUGE, "add 0 %d 0" % HUGE,
                 "add 0 0 %d" % HUGE, "add 3 3 32"], "refused 10")
    script.asks(["add 0 0 3", "add 0 0 4", "add 0 0 0", "add 0 0 1", "add 0 0 31", "add 1 0 2", "add 2 0 2",
                 "add 0 1 4", "add 0 2 2"], "refused 21")
    script.ask("add 0 0 2", "added 1")
    script.ask("add 0 0 2", "added 0")
    script.ask("cell 0 0", "{0 1 2}")
    script.ask("add 0 0 3", "added 1")
    script.ask("cell 0 0", "{0 1 2 3}")
    script.note("give: 10, then 11, then 21")
    script.asks(["give 3 1 0 1", "give 0 3 0 1", "give 0 1 3 1", "give 0 1 0 32", "give 3 3 0 1", "give 0 0 3 1",
                 "give 0 0 0 32", "give %d %d 0 1" % (HUGE, HUGE), "give 0 %d 0 1" % HUGE, "give 0 1 %d 1" % HUGE,
                 "give 0 1 0 %d" % HUGE], "refused 10")
    script.asks(["give 0 0 0 4", "give 0 0 0 31", "give 1 1 0 0", "give 1 1 1 1"], "refused 11")
    script.asks(["give 0 1 0 0", "give 0 1 0 4", "give 0 2 0 1", "give 0 1 1 1", "give 0 1 2 1", "give 1 0 0 0",
                 "give 2 1 0 1"], "refused 21")
    script.ask("give 0 1 0 1", "added 1")
    script.ask("give 0 1 0 1", "added 0")
    script.ask("give 0 1 0 3", "added 1")
    script.ask("give 0 2 0 4", "added 1")
    script.ask("dump", "0/0{0 1 2 3} 1/0{1 3} 2/0{4} 2/2{0 1}")
    script.note("a receiver that holds enough gives on, and one type's row is not another's")
    script.ask("give 1 2 0 0", "refused 21")
    script.ask("give 0 1 0 2", "added 1")
    script.ask("give 1 2 0 0", "added 1")
    script.ask("give 1 0 0 0", "added 0")
    script.ask("add 1 0 3", "refused 21")


def revokes_by_hand(script):
    script.note("revoke: 10, then 22, then 23")
    step_book(script)
    new_table(script, [0, 1, 0], [0, 1], [(0, 0, 0), (1, 0, 1), (1, 0, 31), (2, 0, 5), (0, 1, 3)])
    script.asks(["revoke 3 1 0 1", "revoke 0 3 0 1", "revoke 0 1 2 1", "revoke 0 1 0 32", "revoke 3 3 2 32",
                 "revoke 1 1 0 32", "revoke %d 1 0 1" % HUGE, "revoke 0 %d 0 1" % HUGE, "revoke 0 1 %d 1" % HUGE,
                 "revoke 0 1 0 %d" % HUGE], "refused 10")
    script.asks(["revoke 1 0 0 0", "revoke 1 2 0 6", "revoke 1 1 0 1", "revoke 2 1 0 1", "revoke 0 0 1 3",
                 "revoke 0 0 1 4"], "refused 22")
    script.asks(["revoke 0 1 0 0", "revoke 0 2 0 1", "revoke 0 0 0 1"], "refused 23")
    script.ask("revoke 0 1 0 31", "taken")
    script.ask("revoke 0 1 0 31", "refused 23")
    script.ask("revoke 0 2 0 5", "taken")
    script.ask("dump", "0/0{0} 0/1{3} 1/0{1}")
    script.note("an owner may take from itself, the mark too, and then owns no more")
    script.ask("revoke 0 0 0 0", "taken")
    script.ask("revoke 0 0 0 0", "refused 22")
    script.ask("revoke 0 1 0 1", "refused 22")
    script.ask("dump", "0/1{3} 1/0{1}")
    script.note("without an owner mark nobody takes anything")
    new_book(script, 2, 1, 1)
    script.ask("fix", "ok")
    new_table(script, [0], [0], [(0, 0, 0), (0, 0, 1)])
    script.asks(["revoke 0 0 0 0", "revoke 0 0 0 5"], "refused 22")
    script.asks(["revoke 0 0 1 0", "revoke 0 1 0 0", "revoke 0 0 0 32"], "refused 10")
    script.note("the mark may be right 31, and a table may use types and rights that the book does not declare")
    new_book(script, 32, 1, 1)
    script.ask("owner 31", "ok")
    script.ask("fix", "ok")
    new_table(script, [9, 15], [12], [(0, 0, 31), (1, 0, 17)])
    script.ask("revoke 0 1 0 17", "taken")
    script.ask("create 0 12", "refused 21")
    script.ask("add 0 0 17", "refused 21")
    script.ask("give 0 1 0 17", "refused 21")


def full_table(script):
    script.note("create: 21 comes before 20, and 10 before both")
    for book in ("rows", "flags"):
        if book == "rows":
            step_book(script)
        else:
            script.ask("flags 2 0 1 0 0 0 unlimited", "ok")
        new_table(script, [0, 1], [0] * 62)
        script.ask("create 0 0", "made 62")
        script.ask("create 1 0", "refused 21")
        script.ask("create 0 0", "made 63")
        script.asks(["create 0 0", "create 0 0"], "refused 20")
        script.asks(["create 1 0", "create 0 1"], "refused 21")
        script.asks(["create 2 0", "create 0 16"], "refused 10")
        script.ask("dump", "0/62{0 1} 0/63{0 1}" if book == "rows" else "0/62{31} 0/63{31}")
    step_book(script)
    script.note("the 64 objects all by create")
    new_table(script, [0, 1], [])
    for k in range(64):
        script.ask("create %d %d" % (k % 2, k % 2), "made %d" % k)
    script.asks(["create 0 0", "create 1 1"], "refused 20")
    script.ask("add 0 62 2", "added 1")
    script.ask("give 0 1 62 2", "added 1")
    script.note("a table that was built full takes no object")
    new_table(script, [0] * 64, [0] * 64)
    script.ask("create 63 0", "refused 20")
    script.ask("create 63 1", "refused 21")
    script.ask("create 64 0", "refused 10")


def last_types_and_rights(script):
    script.note("the last right and the last types in each place of a rule")
    new_book(script, 32, 16, 16)
    script.ask("owner 31", "ok")
    script.ask(creation(15, 15, [0, 31]), "ok")
    script.ask(transform(15, 15, [31], [30]), "ok")
    script.ask(transform(15, 15, range(31), [31]), "ok")
    script.ask(grant(15, 14, 15, [31, 30], range(32)), "ok")
    script.ask("fix", "ok")
    new_table(script, [15, 14], [])
    script.ask("create 0 15", "made 0")
    script.ask("cell 0 0", "{0 31}")
    script.ask("give 0 1 0 0", "refused 21")
    script.ask("add 0 0 31", "refused 21")
    script.ask("add 0 0 30", "added 1")
    for right in range(32):
        script.ask("give 0 1 0 %d" % right, "added 1")
    script.ask("give 0 1 0 32", "refused 10")
    script.ask("cell 1 0", "{" + " ".join(str(k) for k in range(32)) + "}")
    for right in range(0, 32, 3):
        script.ask("revoke 1 0 0 %d" % right, "taken" if right in (0, 30) else "refused 23")
        script.ask("revoke 0 1 0 %d" % right, "taken")
    script.ask("cell 0 0", "{31}")


# --- written by hand: the copy-flag book -----------------------------------------------------------------------------


def flag_counts(script):
    script.note("1 to 30 counted flags")
    for n, expected in ((0, "refused 10"), (1, "ok"), (2, "ok"), (29, "ok"), (30, "ok"), (31, "refused 10"),
                        (32, "refused 10"), (HUGE, "refused 10")):
        for fresh in ("counted", "unlimited"):
            script.ask("flags %d 0 1 2 3 0 %s" % (n, fresh), expected)
            script.ask("flags %d - - - - 1 %s" % (n, fresh), expected)


def flag_gifts(script):
    for n in (1, 2, 15, 29, 30):
        script.note("%d flags: what each right lets its holder give, one holder at a time" % n)
        script.ask("flags %d 0,1 0,1 0 0 0 counted" % n, "ok")
        for flag in sorted({0, 1, 2, n - 1, n, n + 1, 30, 31}):
            new_table(script, [0, 1], [0], [(0, 0, flag)])
            if flag == 31:
                gives = set(range(n + 1)) | {31}
            else:
                gives = set(range(flag)) if 1 <= flag <= n else set()
            for right in sorted({0, 1, 2, flag - 1, flag, flag + 1, n - 1, n, n + 1, 30, 31} - {-1}):
                expected = "refused 10" if right > 31 else "added 1" if right in gives else "refused 21"
                script.ask("give 0 1 0 %d" % right, expected)
            script.ask("dump")
    script.note("flags join")
    script.ask("flags 9 0 0 0 0 0 counted", "ok")
    new_table(script, [0, 0, 0], [0], [(0, 0, 2), (0, 0, 5), (0, 0, 10), (1, 0, 31), (1, 0, 3)])
    script.ask("give 0 2 0 4", "added 1")
    script.ask("give 0 2 0 5", "refused 21")
    script.ask("give 0 2 0 9", "refused 21")
    script.ask("give 1 2 0 9", "added 1")
    script.ask("give 1 2 0 31", "added 1")
    script.ask("give 1 2 0 10", "refused 21")
    script.ask("give 0 0 0 0", "refused 11")
    script.ask("revoke 1 2 0 31", "refused 22")


def flag_types(script):
    script.note("only a giver gives, only to a receiver, only for what is served; 15 is a type like another")
    script.ask("flags 3 0,15 1,15 2,15 4,15 0 counted", "ok")
    kinds = [0, 1, 2, 15, 15]
    new_table(script, kinds, [4, 5, 15], [(s, o, 3) for s in range(5) for o in range(3)])
    for s, d, o in itertools.product(range(5), range(5), range(3)):
        may = kinds[s] in (0, 15) and kinds[d] in (1, 15) and o != 1
        script.ask("give %d %d %d 2" % (s, d, o), "refused 11" if s == d else None if may else "refused 21")
    script.ask("dump")
    script.note("only a creator creates, only what is served, and gets the chosen flag")
    for n, fresh in ((1, "counted"), (3, "counted"), (30, "counted"), (1, "unlimited"), (30, "unlimited")):
        script.ask("flags %d - - 2,15 4,15 0 %s" % (n, fresh), "ok")
        new_table(script, kinds, [])
        made = 0
        for s, kind in itertools.product(range(5), (0, 4, 5, 15, 16, HUGE)):
            if kind > 15:
                script.ask("create %d %d" % (s, kind), "refused 10")
            elif kinds[s] in (2, 15) and kind in (4, 15):
                script.ask("create %d %d" % (s, kind), "made %d" % made)
                made += 1
            else:
                script.ask("create %d %d" % (s, kind), "refused 21")
        script.ask("dump")


def flag_strength(script):
    script.note("strong: whoever holds a flag, of any type, may add the access for what is served; else nobody")
    for strong, n in ((1, 1), (1, 4), (1, 30), (0, 4)):
        script.ask("flags %d 0 1 2 4,15 %d counted" % (n, strong), "ok")
        for flag in sorted({0, 1, n, n + 1, 30, 31}):
            new_table(script, [0, 9, 15], [4, 3, 15], [(s, o, flag) for s in range(3) for o in range(3)])
            may = strong and (1 <= flag <= n or flag == 31)
            for s, o in ((0, 0), (1, 0), (2, 2), (1, 1)):
                if may and o != 1:
                    script.ask("add %d %d 0" % (s, o), "added 1")
                    script.ask("add %d %d 0" % (s, o), "added 0")
                else:
                    script.ask("add %d %d 0" % (s, o), "refused 21")
            script.ask("add 0 0 1", "refused 21")
            script.ask("add 0 0 31", "refused 21")
            script.ask("add 0 0 32", "refused 10")
            script.ask("cell 0 0")
    new_table(script, [0], [4])
    script.ask("flags 4 0 1 2 4 1 counted", "ok")
    script.ask("add 0 0 0", "refused 21")
    script.note("no owner, whatever is held")
    new_table(script, [0, 1], [4], [(0, 0, right) for right in range(32)])
    script.ask("revoke 0 0 0 0", "refused 22")
    script.ask("revoke 0 1 0 0", "refused 22")


def one_table_two_books(script):
    script.note("the table stays when the book changes")
    script.ask("flags 2 0 1 0 0 1 counted", "ok")
    new_table(script, [0, 1], [])
    script.ask("create 0 0", "made 0")
    script.ask("give 0 1 0 1", "added 1")
    step_book(script)
    script.ask("dump", "0/0{2} 1/0{1}")
    script.ask("create 0 0", "made 1")
    script.ask("give 0 1 1 2", "added 1")
    script.ask("revoke 0 1 1 2", "taken")
    script.ask("flags 30 0,1 0,1 0 0 1 unlimited", "ok")
    script.ask("revoke 0 0 1 0", "refused 22")
    script.ask("create 0 0", "made 2")
    script.ask("give 0 1 2 31", "added 1")
    script.ask("give 1 0 2 30", "added 1")
    script.ask("add 1 2 0", "added 1")
    script.ask("dump", "0/0{2} 0/1{0 1} 0/2{30 31} 1/0{1} 1/2{0 31}")


# --- written by hand: questions --------------------------------------------------------------------------------------


def can(*steps):
    return " : ".join(("can %d" % len(steps),) + steps)


def walk(script, question):
    """Takes the steps that the question shows, and asks it again."""
    found = script.ask(question)
    steps = found.split(" : ")[1:]
    for step in steps:
        script.ask(step, None if step.startswith("create") else "added 1")
    if steps and question.startswith("can "):
        script.ask(question, "can 0")


def review_book(script):
    """Rights own 0, seen 1, ok 2, print 3; types author 0, checker 1; object type paper 0."""
    new_book(script, 4, 2, 1)
    script.ask("owner 0", "ok")
    script.ask(creation(0, 0, [0]), "ok")
    script.ask(grant(0, 1, 0, [0], [1]), "ok")
    script.ask(grant(1, 0, 0, [1], [2]), "ok")
    script.ask(transform(0, 0, [0, 2], [3]), "ok")
    script.ask("fix", "ok")


def questions_by_hand(script):
    script.note("a paper's review: an author prints a paper of its own once a checker has seen it")
    review_book(script)
    new_table(script, [0, 1, 0], [0], [(0, 0, 0)])
    script.ask("can 0 0 0", can())
    script.ask("can 0 0 3", can("give 0 1 0 1", "give 1 0 0 2", "add 0 0 3"))
    script.ask("can 2 0 3", "never")
    script.ask("can 2 0 2", can("give 0 1 0 1", "give 1 0 0 2", "add 0 0 3", "give 1 2 0 2"))
    script.ask("can-new 2 0 3", can("create 2 0", "give 2 1 1 1", "give 1 0 1 2", "give 1 2 1 2", "add 2 1 3"))
    script.note("the first creator whose column reaches the holding, and no earlier one")
    script.ask("can-new 0 0 0", can("create 0 0"))
    script.ask("can-new 2 0 0", can("create 2 0"))
    script.ask("can-new 1 0 1", can("create 0 0", "give 0 1 1 1"))
    script.ask("can-new 1 0 2", "never")
    script.ask("can-new 0 1 0", "never")
    script.ask("dump", "0/0{0}")
    script.note("the shown run, taken step by step")
    walk(script, "can 0 0 3")
    walk(script, "can-new 2 0 3")
    script.ask("can 2 1 3", can())
    script.ask("dump")


def question_faults(script):
    script.note("questions: 10, then 24")
    review_book(script)
    new_table(script, [0, 1, 0], [0], [(0, 0, 0)])
    for places in ("", " 2049", " 2050", " 4096", " 2048", " 1", " 0"):
        short = places in (" 2048", " 1", " 0")
        for numbers in ("3 0 0", "%d 0 0" % HUGE, "0 1 0", "0 %d 0" % HUGE, "0 0 32", "0 0 %d" % HUGE, "3 1 32"):
            script.ask("can %s%s" % (numbers, places), "refused 10")
        for numbers in ("3 0 0", "%d 0 0" % HUGE, "0 16 0", "0 %d 0" % HUGE, "0 0 32", "0 0 %d" % HUGE, "3 16 32"):
            script.ask("can-new %s%s" % (numbers, places), "refused 10")
        script.ask("can 0 0 0" + places, "refused 24" if short else "can 0")
        script.ask("can 2 0 31" + places, "refused 24" if short else "never")
        script.ask("can 0 0 3" + places, "refused 24" if short else None)
        script.ask("can-new 0 0 0" + places, "refused 24" if short else "can 1 : create 0 0")
        script.ask("can-new 0 15 31" + places, "refused 24" if short else "never")
        script.ask("can-new 2 0 3" + places, "refused 24" if short else None)
    script.note("questions that cannot be read")
    script.asks(["can", "can 0", "can 0 0", "can 0 0 0 2049 0", "can 0 0 x", "can 0 0 0 x", "can 0 0 0 4097",
                 "can 0 0 0 %d" % HUGE, "can 9 9 9 4097", "can-new", "can-new 0 0", "can-new 0 0 0 2049 0",
                 "can-new 0 0 0 4097", "can-new 0 0 -1", "can_new 0 0 0", "cannew 0 0 0"], "unreadable")
    script.ask("dump", "0/0{0}")
    script.note("tables without subjects or objects")
    new_table(script, [], [0])
    script.asks(["can 0 0 0", "can-new 0 0 0"], "refused 10")
    new_table(script, [0], [])
    script.ask("can 0 0 0", "refused 10")
    script.ask("can-new 0 0 0", can("create 0 0"))


def run_order(script):
    script.note("receivers by number, for each its transforms before the grants, by giver, then the lowest right")
    new_book(script, 8, 2, 1)
    script.ask(transform(0, 0, [0], [2, 1]), "ok")
    script.ask(transform(1, 0, [7], [6]), "ok")
    script.ask(grant(0, 0, 0, [0], [5, 4]), "ok")
    script.ask(grant(0, 1, 0, [4], [7, 3]), "ok")
    script.ask(grant(1, 0, 0, [3], [3]), "ok")
    script.ask("fix", "ok")
    new_table(script, [0, 1, 0], [0], [(0, 0, 0), (2, 0, 0)])
    script.ask("can 2 0 3", can(
        "add 0 0 1", "add 0 0 2", "give 2 0 0 4", "give 2 0 0 5", "give 0 1 0 3", "give 1 0 0 3", "give 0 1 0 7",
        "add 1 0 6", "add 2 0 1", "add 2 0 2", "give 0 2 0 4", "give 0 2 0 5", "give 1 2 0 3"))
    script.ask("can 2 0 1", can(
        "add 0 0 1", "add 0 0 2", "give 2 0 0 4", "give 2 0 0 5", "give 0 1 0 3", "give 1 0 0 3", "give 0 1 0 7",
        "add 1 0 6", "add 2 0 1"))
    script.asks(["can 2 0 7", "can 0 0 7", "can 0 0 31"], "never")
    script.note("nobody gives to itself: one subject alone, and then two")
    new_table(script, [0], [0], [(0, 0, 0)])
    script.ask("can 0 0 4", "never")
    script.ask("can 0 0 2", can("add 0 0 1", "add 0 0 2"))
    new_table(script, [0, 0], [0], [(0, 0, 0)])
    script.ask("can 0 0 4", "never")
    script.ask("can 1 0 4", can("add 0 0 1", "add 0 0 2", "give 0 1 0 4"))
    script.note("a creator is passed over without a creation, and where its column does not reach the holding")
    new_book(script, 4, 3, 2)
    script.ask(creation(1, 1, [1]), "ok")
    script.ask(creation(2, 1, [2, 0]), "ok")
    script.ask(creation(2, 0, []), "ok")
    script.ask(grant(2, 0, 1, [2], [3]), "ok")
    script.ask(grant(1, 2, 1, [1], [1]), "ok")
    script.ask("fix", "ok")
    new_table(script, [0, 1, 2, 2], [0, 0, 0])
    script.ask("can-new 0 1 3", can("create 2 1", "give 2 0 3 3"))
    script.ask("can-new 3 1 0", can("create 3 1"))
    script.ask("can-new 3 1 1", can("create 1 1", "give 1 2 3 1", "give 1 3 3 1"))
    script.asks(["can-new 0 1 1", "can-new 2 0 0", "can-new 0 0 3"], "never")
    script.note("the other columns do not matter, nor what they hold")
    new_table(script, [0, 1, 2], [1, 1], [(2, 0, 2), (0, 1, 3)])
    script.ask("can 0 0 3", can("give 2 0 0 3"))
    script.ask("can 0 1 3", can())
    script.ask("can 0 1 2", "never")
    script.note("a right that was taken can come again, and the mark is not what a run needs")
    review_book(script)
    new_table(script, [0, 1], [0], [(0, 0, 0), (1, 0, 1)])
    script.ask("revoke 0 1 0 1", "taken")
    script.ask("can 1 0 1", can("give 0 1 0 1"))
    script.ask("revoke 0 0 0 0", "taken")
    script.asks(["can 1 0 1", "can 0 0 0"], "never")
    script.ask("can-new 0 0 3", can("create 0 0", "give 0 1 1 1", "give 1 0 1 2", "add 0 1 3"))


def full_questions(script):
    script.note("63 objects: a new one can come; 64: never, and the objects of the table are asked about as before")
    review_book(script)
    new_table(script, [0, 1], [0] * 63, [(0, 62, 0)])
    script.ask("can-new 0 0 2", can("create 0 0", "give 0 1 63 1", "give 1 0 63 2"))
    script.ask("create 0 0", "made 63")
    script.asks(["can-new 0 0 2", "can-new 0 0 0", "can-new 0 15 0", "can-new 1 0 31"], "never")
    script.asks(["can-new 2 0 0", "can-new 0 16 0", "can-new 0 0 32", "can-new 2 0 0 0"], "refused 10")
    script.ask("can-new 0 0 0 2048", "refused 24")
    script.ask("can 0 63 2", can("give 0 1 63 1", "give 1 0 63 2"))
    script.ask("can 0 62 2", can("give 0 1 62 1", "give 1 0 62 2"))
    script.ask("can 0 61 2", "never")
    script.note("the same with a copy-flag book")
    script.ask("flags 2 0 1 0 0 0 unlimited", "ok")
    script.ask("can-new 0 0 31", "never")
    new_table(script, [0, 1], [0] * 63)
    script.ask("can-new 1 0 31", can("create 0 0", "give 0 1 63 0", "give 0 1 63 1", "give 0 1 63 2", "give 0 1 63 31"))


def flag_questions(script):
    script.note("copy flags: a counted flag runs out, the unlimited one does not")
    script.ask("flags 3 0 0 0 0 0 counted", "ok")
    new_table(script, [0, 0, 0], [0], [(2, 0, 2)])
    script.ask("can 0 0 1", can("give 2 0 0 0", "give 2 0 0 1"))
    script.ask("can 1 0 0", can("give 2 0 0 0", "give 2 0 0 1", "give 0 1 0 0"))
    script.asks(["can 0 0 2", "can 2 0 3", "can 0 0 31"], "never")
    script.ask("can 2 0 0", can("give 2 0 0 0", "give 2 0 0 1", "give 0 1 0 0", "give 2 1 0 1", "give 0 2 0 0"))
    script.ask("can-new 1 0 3", can("create 1 0"))
    script.ask("can-new 1 0 31", "never")
    walk(script, "can 2 0 0")
    walk(script, "can-new 1 0 0")
    script.ask("dump")
    settings = list(itertools.product((1, 2), (0, 1), ("counted", "unlimited"))) + [(30, 1, "unlimited")]
    for n, strong, fresh in settings:
        script.note("%d flags, %s, fresh %s" % (n, "strong" if strong else "weak", fresh))
        script.ask("flags %d 0,1 1,2 0,3 0 %d %s" % (n, strong, fresh), "ok")
        new_table(script, [0, 1, 2, 3], [0, 1], [(0, 0, n), (3, 0, 1), (0, 1, n)])
        for s, right in itertools.product(range(4), sorted({0, 1, n, 31})):
            script.ask("can-new %d 0 %d" % (s, right))
            script.ask("can %d 0 %d" % (s, right))
        script.asks(["can 0 1 0", "can-new 0 1 %d" % n], "never")


def long_runs(script):
    script.note("64 subjects: each adds the rights one by one, and the last right of the last subject comes last")
    new_book(script, 32, 1, 1)
    script.ask(creation(0, 0, [0]), "ok")
    for right in range(31):
        script.ask(transform(0, 0, [right], [right + 1]), "ok")
    script.ask(grant(0, 0, 0, [0], [0]), "ok")
    script.ask("fix", "ok")
    new_table(script, [0] * 64, [0], [(0, 0, 0)])
    steps = ["add 0 0 %d" % right for right in range(1, 32)]
    for s in range(1, 64):
        steps += ["give 0 %d 0 0" % s] + ["add %d 0 %d" % (s, right) for right in range(1, 32)]
    assert len(steps) == 2047
    script.ask("can 63 0 31", can(*steps))
    script.ask("can 63 0 31 2048", "refused 24")
    script.ask("can 1 0 0", can(*steps[:32]))
    script.note("never, after all other rights are in the cells")
    new_table(script, [0] * 63 + [1], [0], [(0, 0, 0)])
    script.ask("can 63 0 31", "never")
    script.note("64 subjects that only give: the creator is the last one, and the run has as many steps as one can have")
    new_book(script, 32, 2, 1)
    script.ask(creation(1, 0, [31]), "ok")
    for right in range(32):
        for u, v in ((0, 0), (0, 1), (1, 0)):
            script.ask(grant(u, v, 0, [right], [(right + 1) % 32]), "ok")
    script.ask("fix", "ok")
    new_table(script, [0] * 63 + [1], [])
    found = script.ask("can-new 63 0 30")
    assert found.startswith("can 2048 : create 63 0 : give 63 0 0 0 : give 0 1 0 1 : give 1 0 0 2 : ")
    assert found.endswith(" : give 0 63 0 30")
    script.ask("can-new 63 0 30 2048", "refused 24")


BY_HAND = [
    missing_parts, bad_words, bad_numbers, bad_flags, declaration_limits, undeclared_numbers, row_limits, all_creations,
    refused_changes_nothing, table_limits, drafts_and_current, steps_by_hand, revokes_by_hand, full_table,
    last_types_and_rights, flag_counts, flag_gifts, flag_types, flag_strength, one_table_two_books, questions_by_hand,
    question_faults, run_order, full_questions, flag_questions, long_runs,
]


# --- random ----------------------------------------------------------------------------------------------------------


class Dice:
    """Random numbers from a fixed seed, now and then one that is out of range."""

    def __init__(self, seed):
        self.random = random.Random(seed)

    def chance(self, part):
        return self.random.random() < part

    def below(self, count):
        if count == 0 or self.chance(0.03):
            return self.random.choice([count, count + 1, 15, 16, 31, 32, 63, 64, 2 ** 32, HUGE])
        return self.random.randrange(count)

    def some(self, count, most):
        numbers = self.random.sample(range(count), min(count, self.random.randint(0, most)))
        if self.chance(0.04):
            numbers.append(self.below(count))
        return numbers

    def types(self):
        chosen = [kind for kind in range(4) if self.chance(0.6)]
        if self.chance(0.1):
            chosen.append(15)
        self.random.shuffle(chosen)
        return ",".join(str(kind) for kind in chosen) or "-"


def random_rows(script, dice):
    script.ask("book")
    rights = dice.random.choice([1, 2, 3, 4, 5, 6, 8, 32])
    subject_types = dice.random.choice([1, 1, 2, 2, 3])
    object_types = dice.random.choice([1, 1, 2, 2, 3])
    names = ["right"] * rights + ["subject-type"] * subject_types + ["object-type"] * object_types
    dice.random.shuffle(names)
    script.asks(names)
    few = min(rights, 6)
    if dice.chance(0.8):
        script.ask("owner %d" % dice.below(few))
    for _ in range(dice.random.randint(0, 4)):
        script.ask(creation(dice.below(subject_types), dice.below(object_types), dice.some(few, 3)))
    for _ in range(dice.random.randint(2, 14)):
        u, v, o = dice.below(subject_types), dice.below(subject_types), dice.below(object_types)
        need, gives = dice.some(few, 3), dice.some(few, 3)
        need = need or ([dice.below(few)] if dice.chance(0.8) else [])
        script.ask(transform(u, o, need, gives) if dice.chance(0.45) else grant(u, v, o, need, gives))
    script.ask("fix")
    return few, subject_types, object_types


def random_flags(script, dice):
    n = dice.random.choice([1, 2, 3, 3, 4, 5, 30, 30, 0, 31])
    sets = " ".join(dice.types() for _ in range(4))
    script.ask("flags %d %s %d %s" % (n, sets, dice.random.randint(0, 1), dice.random.choice(["counted", "unlimited"])))
    return 32, 4, 4


def random_table(script, dice, rights, subject_types, object_types):
    script.ask("table")
    for _ in range(dice.random.choice([1, 2, 3, 3, 4, 4])):
        script.ask("subject %d" % dice.below(subject_types))
    for _ in range(dice.random.choice([0, 1, 2, 2, 3])):
        script.ask("object %d" % dice.below(object_types))
    building = script.session.building
    for _ in range(dice.random.randint(1, 9)):
        right = dice.random.choice([0, 1, 2, 3, 30, 31]) if rights == 32 else dice.below(rights)
        script.ask("hold %d %d %d" % (dice.below(len(building.subjects)), dice.below(len(building.objects)), right))
    script.ask("start")


def permitted_steps(session):
    """The steps that the model would accept."""
    book, table = session.book, session.table
    subjects, objects = range(len(table.subjects)), range(len(table.objects))
    if len(objects) < 6:
        for s, kind in itertools.product(subjects, range(16)):
            if book.creation(table.subjects[s], kind) is not None:
                yield "create %d %d" % (s, kind)
    for s, o in itertools.product(subjects, objects):
        for right in sorted(book.may_add(table.subjects[s], table.objects[o], table.held(s, o))):
            yield "add %d %d %d" % (s, o, right)
        for d in subjects:
            if d != s:
                types = table.subjects[s], table.subjects[d], table.objects[o]
                for right in sorted(book.may_give(*types, table.held(s, o))):
                    yield "give %d %d %d %d" % (s, d, o, right)
            if book.owner() in table.held(s, o):
                for right in sorted(table.held(d, o)):
                    yield "revoke %d %d %d %d" % (s, d, o, right)


def any_step(dice, session, rights, object_types):
    subjects, objects = len(session.table.subjects), len(session.table.objects)
    s, d, o = dice.below(subjects), dice.below(subjects), dice.below(objects)
    right = dice.random.choice([0, 1, 2, 3, 4, 30, 31]) if rights == 32 else dice.below(rights)
    return dice.random.choice([
        "create %d %d" % (s, dice.below(object_types)), "add %d %d %d" % (s, o, right),
        "give %d %d %d %d" % (s, d, o, right), "give %d %d %d %d" % (s, d, o, right),
        "revoke %d %d %d %d" % (s, d, o, right),
    ])


def near_miss(dice, line):
    """A step with one of its numbers changed."""
    name, *numbers = line.split()
    place = dice.random.randrange(len(numbers))
    numbers[place] = str(dice.random.choice([0, 1, 2, 3, 4, 5, 30, 31, 32]))
    return " ".join([name] + numbers)


def touched_cell(line):
    name, *numbers = line.split()
    if name in ("give", "revoke"):
        return "cell %s %s" % (numbers[1], numbers[2])
    if name == "add":
        return "cell %s %s" % (numbers[0], numbers[1])
    return "dump"


def random_steps(script, dice, rights, object_types):
    for _ in range(dice.random.randint(10, 40)):
        may = list(permitted_steps(script.session))
        if may and dice.chance(0.7):
            line = dice.random.choice(may)
            line = near_miss(dice, line) if dice.chance(0.4) else line
        else:
            line = any_step(dice, script.session, rights, object_types)
        script.ask(line)
        if dice.chance(0.3):
            script.ask(touched_cell(line))
        elif dice.chance(0.1):
            script.ask("dump")
    script.ask("dump")


def random_part(script, seed, rounds):
    dice = Dice(seed)
    for k in range(rounds):
        script.note("random scheme %d" % k)
        kind = random_rows if dice.chance(0.65) else random_flags
        rights, subject_types, object_types = kind(script, dice)
        for _ in range(dice.random.randint(1, 2)):
            random_table(script, dice, rights, subject_types, object_types)
            random_steps(script, dice, rights, object_types)


def question_rows(script, dice):
    """A book of few types and many rows that need little, so that runs are long."""
    rights, subject_types, object_types = dice.random.choice([(3, 1, 1), (4, 2, 1), (4, 2, 1), (5, 2, 2), (6, 3, 1)])
    new_book(script, rights, subject_types, object_types)
    if dice.chance(0.7):
        script.ask("owner %d" % dice.random.randrange(rights), "ok")
    for u, o in itertools.product(range(subject_types), range(object_types)):
        if dice.chance(0.6):
            script.ask(creation(u, o, dice.random.sample(range(rights), dice.random.choice([0, 1, 1, 2]))), "ok")
    for _ in range(dice.random.randint(rights, 2 * rights + 2)):
        u, v = dice.random.randrange(subject_types), dice.random.randrange(subject_types)
        o = dice.random.randrange(object_types)
        need = dice.random.sample(range(rights), dice.random.choice([1, 1, 1, 2, 2]))
        gives = dice.random.sample(range(rights), dice.random.choice([1, 1, 1, 2]))
        script.ask(transform(u, o, need, gives) if dice.chance(0.35) else grant(u, v, o, need, gives), "ok")
    script.ask("fix", "ok")
    return rights, subject_types, object_types


def question_table(script, dice, rights, subject_types, object_types):
    subjects = [dice.random.randrange(subject_types) for _ in range(dice.random.choice([2, 3, 3, 4, 5, 6]))]
    objects = [dice.random.randrange(object_types) for _ in range(dice.random.choice([1, 1, 2]))]
    holds = {(dice.random.randrange(len(subjects)), dice.random.randrange(len(objects)), dice.random.randrange(rights))
             for _ in range(dice.random.choice([1, 2, 2, 3]))}
    new_table(script, subjects, objects, sorted(holds))


def any_question(dice, session, rights, object_types):
    subjects, objects = len(session.table.subjects), len(session.table.objects)
    right = dice.random.choice([0, 0, 1, 2, 3, 4, 30, 31]) if rights == 32 else dice.below(rights)
    if dice.chance(0.6):
        line = "can %d %d %d" % (dice.below(subjects), dice.below(objects), right)
    else:
        line = "can-new %d %d %d" % (dice.below(subjects), dice.below(object_types), right)
    if dice.chance(0.05):
        line += " %d" % dice.random.choice([0, 2047, 2048, 2049, 2050, 4096, 4097])
    return line


def reachable_question(dice, session):
    """A question whose answer is a run that is not empty, or None."""
    book, table = session.book, session.table
    subjects = range(len(table.subjects))
    questions = []
    for o, kind in enumerate(table.objects):
        column = model.Column(table.subjects, kind, {s: table.held(s, o) for s in subjects})
        new = model.gathered_in(book, column) - column.holdings()
        questions += ["can %d %d %d" % (s, o, right) for s, right in new]
    for creator, kind in itertools.product(subjects, range(16)):
        gets = book.creation(table.subjects[creator], kind)
        if gets is not None and len(table.objects) < model.OBJECTS:
            column = model.Column(table.subjects, kind, {creator: gets})
            new = model.gathered_in(book, column) - column.holdings()
            questions += ["can-new %d %d %d" % (s, kind, right) for s, right in new]
    return dice.random.choice(sorted(questions)) if questions else None


def random_questions(script, dice, rights, object_types):
    for _ in range(dice.random.randint(6, 12)):
        line = reachable_question(dice, script.session) if dice.chance(0.4) else None
        line = line or any_question(dice, script.session, rights, object_types)
        if dice.chance(0.1) and len(script.session.table.objects) < 60:
            walk(script, line)
        else:
            script.ask(line)


def few_steps(script, dice):
    for _ in range(dice.random.randint(1, 5)):
        may = list(permitted_steps(script.session))
        if may:
            script.ask(dice.random.choice(may))


def question_part(script, seed, rounds):
    dice = Dice(seed)
    for k in range(rounds):
        script.note("random questions %d" % k)
        dense = dice.chance(0.65)
        kind = question_rows if dense else random_rows if dice.chance(0.5) else random_flags
        rights, subject_types, object_types = kind(script, dice)
        for _ in range(dice.random.randint(2, 3)):
            (question_table if dense else random_table)(script, dice, rights, subject_types, object_types)
            for _ in range(dice.random.randint(1, 3)):
                random_questions(script, dice, rights, object_types)
                few_steps(script, dice)
            script.ask("dump")
            random_questions(script, dice, rights, object_types)


def main():
    script = Script()
    script.lines.append("# Written by tests/generate.py.")
    for part in BY_HAND:
        part(script)
    random_part(script, SEED, ROUNDS)
    question_part(script, QUESTION_SEED, QUESTION_ROUNDS)
    sys.stdout.buffer.write("".join(line + "\n" for line in script.lines).encode("utf-8"))


if __name__ == "__main__":
    main()
