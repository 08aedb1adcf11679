#!/usr/bin/env python3
"""Test inputs for programs that judge scheme texts, framed on stdout.

Use:  generate_texts.py [SEED [COUNT [PARTS]]]      default: 1 2400 abc
      generate_texts.py --expected                  the verdicts of part a

Each text is written as its length in decimal, a line end, and its bytes.
The same arguments give the same bytes.

    part a   hand-made texts for both sides of every limit and rule
    part b   every byte value at every place of two short lines
    part c   COUNT random texts

Each text of part a has its verdict beside it, found by hand from the rules:
"good", or the number and the line of its fault.  `--expected` prints them as
`scheme` or `fault NUMBER LINE LAYER`, one line for each text.
"""

import random
import sys

PAPER_REVIEW = [
    "(right own)",
    "(right seen)",
    "(right ok)",
    "(right print)",
    "(subject-type author)",
    "(subject-type checker)",
    "(object-type paper)",
    "(owner own)",
    "(create author paper (own))",
    "(grant author checker paper (own) (seen))",
    "(grant checker author paper (seen) (ok))",
    "(itrans author paper (own ok) (print))",
]


def lines(*some):
    """A text of these lines."""
    return "".join(line + "\n" for line in some)


def numbered(form, count, first=0):
    """Lines with a number each: numbered("(right r%d)", 3)."""
    return [form % i for i in range(first, first + count)]


# --------------------------------------------------------------- part a ----

# Five declarations; a line behind them is line 6.
BASE = ["(right a)", "(right b)", "(subject-type u)", "(subject-type v)",
        "(object-type o)"]

W24 = "abcdefghijklmnopqrstu-*9"
W25 = W24 + "z"


class Cases:
    """Collects pairs of a verdict and a text."""

    def __init__(self):
        self.found = []

    def text(self, verdict, text):
        self.found.append((verdict, text))

    def whole(self, verdict, *some):
        self.text(verdict, lines(*some))

    def after(self, verdict, *some):
        """Lines behind BASE."""
        self.text(verdict, lines(*BASE, *some))


def word_cases(c):
    # Nothing, and line ends.
    c.text("good", "")
    c.text("3 1", "\n")
    c.text("3 1", "\n\n")
    c.text("3 2", "(note)\n\n")
    c.text("3 2", "(note)\n\n(note)\n")
    c.text("3 1", "(note)")
    c.text("3 2", "(note)\n(note)")
    c.text("3 2", "(note)\n(")
    c.text("3 1", " ")
    c.text("3 1", "a")
    c.text("2 1", "A")
    c.text("2 1", "\0")
    c.text("2 1", "(note)\r\n")
    c.text("2 1", "\r\n")
    c.text("2 1", "(note\r)\n")
    c.text("2 1", "(note\ta)\n")
    c.text("2 1", "(Note)\n")
    c.text("2 1", "(note \xe9)\n")
    c.text("2 1", "(note \xc3\xa9)\n")
    c.text("2 1", "\xef\xbb\xbf(note)\n")
    c.text("2 1", "(note)\0\n")
    c.text("2 2", "(note)\n\0")
    c.text("2 1", "(note a_b)\n")
    c.text("2 1", "(note a.b)\n")
    c.text("2 1", "(note a,b)\n")
    c.text("2 1", "; a remark\n")

    # Spaces.
    for verdict, line in [
            ("3 1", "(note  a)"), ("3 1", "(note a  b)"), ("3 1", "( note)"),
            ("3 1", "(note )"), ("3 1", "(note a )"), ("3 1", "(note ( a))"),
            ("3 1", "(note (a ))"), ("3 1", "(note ( ))"), ("3 1", "( )"),
            ("3 1", "(note (a) )"), ("3 1", " (note)"), ("3 1", "(note) "),
            ("3 1", "(note(a))"), ("3 1", "(note a(b))"), ("3 1", "(note (a)b)"),
            ("3 1", "(note (a)(b))"), ("3 1", "(note ()())"), ("3 1", "((a)b)"),
            ("good", "(note (a) (b))"), ("good", "(note () ())"),
            ("good", "(note (() ()) a (b) c)"), ("good", "(note ((a)) ((b) c))")]:
        c.whole(verdict, line)

    # Brackets.
    for verdict, line in [
            ("3 1", ")"), ("3 1", "("), ("3 1", "(note"), ("3 1", "(note "),
            ("3 1", "(note ("), ("3 1", "(note (a"), ("3 1", "(note (a)"),
            ("3 1", "(note))"), ("3 1", "(note)("), ("3 1", "(note)(note)"),
            ("3 1", "(note) (note)"), ("3 1", "(note)a"), ("2 1", "(note)A"),
            ("3 1", "note"), ("3 1", "note)"), ("3 1", "a (note)")]:
        c.whole(verdict, line)

    # Length of a word: 24 and 25 bytes, as head, name, item, in a list.
    c.whole("good", "(note %s)" % W24)
    c.whole("5 1", "(note %s)" % W25)
    c.whole("5 1", "(note %s)" % (W24 * 4))
    c.whole("good", "(note %s %s (%s))" % (W24, W24, W24))
    c.whole("5 1", "(note %s %s (%s))" % (W24, W24, W25))
    c.whole("6 1", "(%s)" % W24)
    c.whole("5 1", "(%s)" % W25)
    c.whole("good", "(right %s)" % W24, "(owner %s)" % W24)
    c.whole("5 2", "(right %s)" % W24, "(right %s)" % W25)
    c.whole("good", "(right %s)" % W24, "(right %s)" % W24[:-1])
    c.whole("good", "(right %s)" % ("-" * 24), "(right %s)" % ("*" * 24))
    c.whole("5 1", "(right %s)" % ("-" * 25))
    c.whole("5 1", "(right %s)" % ("*" * 25))
    c.whole("5 1", "(right %s)" % ("0" * 25))
    c.text("5 1", "(note " + W25)
    c.text("3 1", "(note " + W24)
    c.whole("2 1", "(note %sA)" % W24)
    c.whole("5 1", "(note %sA)" % W25)
    c.whole("3 1", "(note %s(a))" % W24)
    c.whole("3 1", "(note %s  a)" % W24)
    c.whole("3 1", "(note (%s)%s)" % (W24, W24))

    # Depth: the form is depth 1, so seven more lists may be open.
    for depth in range(2, 12):
        inner = depth - 1
        verdict = "good" if depth <= 8 else "4 1"
        c.whole(verdict, "(note " + "(" * inner + ")" * inner + ")")
        c.whole(verdict, "(note " + "(" * inner + "a" + ")" * inner + ")")
        c.whole(verdict, "(note " + "(a " * inner + "b" + ")" * inner + ")")
        c.whole("6 1" if depth <= 8 else "4 1", "(" * depth + ")" * depth)
    deep = "(note " + "(" * 7                   # eight lists are open
    for verdict, rest in [
            ("4 1", "("), ("4 1", "a("), ("4 1", "a ("),
            ("4 1", "a" * 24 + "("), ("5 1", "a" * 25 + "("), ("2 1", "A("),
            ("3 1", " ("), ("3 1", "a  ("), ("3 1", ") \n"),
            ("good", ") ()" + ")" * 7 + "\n"), ("4 1", ") (("),
            ("3 1", ")("), ("3 1", ")()"), ("3 1", ") a("), ("3 1", ")a"),
            ("good", "a b c" + ")" * 8 + "\n"), ("3 1", "a" + ")" * 9),
            ("3 1", ""), ("3 1", "a"), ("3 1", "\n")]:
        c.text(verdict, deep + rest)
    c.whole("4 1", "((((((((a(")
    c.whole("4 1", "(((((((((")
    c.whole("3 1", "(((((((a(")
    # Closed lists no longer count.
    c.whole("good", "(note " + " ".join(["(((((((a)))))))"] * 5) + ")")
    c.whole("good", "(note " + " ".join(["()"] * 40) + ")")

    # A text that ends in every place of its last line.
    for text in [lines("(note (a b) () c)"),
                 lines("(right a)", "(subject-type u)", "(object-type o)",
                       "(itrans u o (a) ())")]:
        for end in range(len(text) + 1):
            start = text[:end]
            ended = start == "" or start.endswith("\n")
            c.text("good" if ended else "3 %d" % (start.count("\n") + 1), start)

    # The whole line is judged as bytes before its form and its meaning are,
    # and the line before the next one.
    c.whole("3 1", "(nonsense a")
    c.whole("3 1", "(nonsense) ")
    c.whole("2 1", "(nonsense A)")
    c.whole("2 1", "(nonsense)A")
    c.text("3 1", "(nonsense)")
    c.text("3 1", "(owner a)")
    c.whole("5 1", "(owner a %s)" % W25)
    c.whole("4 1", "(owner a " + "(" * 9)
    c.whole("7 1", "(owner a)", "(A)")
    c.whole("6 1", "(owner a b)", "")
    c.whole("2 2", "(note)", "(A)", "(owner a)")
    c.whole("6 3", "(note)", "(right a)", "(right)", "(right")
    c.text("7 1", "(owner a)\n(")


def form_cases(c):
    # Heads.
    for line in ["()", "(())", "((note))", "((right) a)", "((right a))", "(() note)",
                 "(a)", "(nonsense)", "(nonsense a)", "(rights a)", "(righ a)",
                 "(-)", "(*)", "(note-)", "(notes)", "(not)", "(0)",
                 "(subject u)", "(object o)", "(subjecttype u)", "(type u)",
                 "(a note)", "(a (note))", "(trans u o (a) (b))",
                 "(itran u o (a) (b))", "(grants u v o (a) (b))"]:
        c.after("6 6", line)
    for line in ["(note)", "(note note)", "(note ())", "(note right a)",
                 "(note (right a))", "(note owner zz (owner zz))",
                 "(note (note) ((note)) * - 0)",
                 "(note " + "(" * 7 + "a b) ()" + ")" * 5 + " x)" + ")"]:
        c.after("good", line)

    # Each form: an item missing, one too many, a list for a word, a word for
    # a list, a list in a list.
    for good in [["right", "c"], ["subject-type", "w"], ["object-type", "p"],
                 ["owner", "a"], ["create", "u", "o", "(a)"],
                 ["itrans", "u", "o", "(a)", "(b)"],
                 ["grant", "u", "v", "o", "(a)", "(b)"]]:

        def put(verdict, items):
            c.after(verdict, "(" + " ".join(items) + ")")

        put("good", good)
        put("6 6", good[:1])
        for i in range(1, len(good)):
            put("6 6", good[:i] + good[i + 1:])
            put("6 6", good[:i] + [good[i]] + good[i:])
            for other in (["()", "(a)", "(u)"] if good[i][0] != "("
                          else ["a", "u", "o", "(())", "((a))", "(a (b))",
                                "((b) a)", "(a ())"]):
                put("6 6", good[:i] + [other] + good[i + 1:])
            if good[i][0] == "(" and i >= len(good) - 1:
                put("good", good[:i] + ["()"] + good[i + 1:])
        for extra in ["a", "u", "zz", "()", "(a)"]:
            put("6 6", good + [extra])
        put("6 6", ["(" + good[0] + ")"] + good[1:])
    # Form before meaning.
    c.after("6 6", "(owner zz zz)")
    c.after("6 6", "(create zz o (a) ())")
    c.after("6 6", "(create zz zz (zz (zz)))")
    c.after("6 6", "(itrans u o () ((a)))")
    c.after("6 6", "(right a a)")
    c.after("6 6", "(right (a))")


def name_cases(c):
    # Each used name, in each place, undeclared or of another kind.
    wrong = {"right": ["zz", "u", "v", "o", "right", "aa", "-", "*"],
             "subject": ["zz", "a", "o", "uu", "subject-type"],
             "object": ["zz", "a", "u", "v", "oo", "object-type"]}
    places = [
        ("(owner %s)", "right"),
        ("(create %s o (a))", "subject"), ("(create u %s (a))", "object"),
        ("(create u o (%s))", "right"), ("(create u o (%s a b))", "right"),
        ("(create u o (a %s b))", "right"), ("(create u o (a b %s))", "right"),
        ("(itrans %s o (a) (b))", "subject"), ("(itrans u %s (a) (b))", "object"),
        ("(itrans u o (%s) (b))", "right"), ("(itrans u o (a) (%s))", "right"),
        ("(itrans u o (%s a) (b))", "right"), ("(itrans u o (a %s) (b))", "right"),
        ("(itrans u o (a) (%s b))", "right"), ("(itrans u o (a) (b %s))", "right"),
        ("(grant %s v o (a) (b))", "subject"), ("(grant u %s o (a) (b))", "subject"),
        ("(grant u v %s (a) (b))", "object"),
        ("(grant u v o (%s) (b))", "right"), ("(grant u v o (a) (%s))", "right"),
        ("(grant u v o (%s a) (b))", "right"), ("(grant u v o (a %s) (b))", "right"),
        ("(grant u v o (a) (%s b))", "right"), ("(grant u v o (a) (b %s))", "right"),
    ]
    for form, kind in places:
        for name in wrong[kind]:
            c.after("7 6", form % name)
    # Declared only in a later line; declared just before.
    c.whole("7 1", "(owner a)", "(right a)")
    c.whole("good", "(right a)", "(owner a)")
    c.after("7 6", "(create w o ())", "(subject-type w)")
    c.after("good", "(subject-type w)", "(create w o ())")
    c.after("7 6", "(create u p ())", "(object-type p)")
    c.after("good", "(object-type p)", "(create u p ())")
    c.after("7 6", "(itrans u o (a) (c))", "(right c)")
    c.after("good", "(right c)", "(itrans u o (a) (c))")
    c.after("7 6", "(grant u v o (a c) (b))", "(right c)")
    c.after("good", "(right c)", "(grant u v o (a c) (b))")
    c.after("7 6", "(grant u w o (a) (b))", "(subject-type w)")
    # A note declares nothing.
    c.after("7 7", "(note right c)", "(owner c)")
    c.after("7 7", "(note (right c))", "(owner c)")
    # No declarations at all.
    c.whole("7 1", "(create u o ())")
    c.whole("7 1", "(itrans u o () ())")
    c.whole("7 1", "(grant u u o () ())")
    # Before the layers below.
    c.after("7 7", "(owner a)", "(owner zz)")
    c.after("7 7", "(create u o (a))", "(create u o (zz))")
    c.after("7 6", "(create u o (a a zz))")
    c.after("7 6", "(create u o (zz zz))")
    c.after("7 6", "(itrans u o (a a) (zz))")
    c.after("7 6", "(itrans u o () (zz))")
    c.after("7 6", "(itrans zz o () ())")
    c.after("7 6", "(grant u v zz () ())")
    c.after("7 6", "(grant u v o () (zz))")


def repeat_cases(c):
    # Taken names; rights have names of their own.
    c.after("8 6", "(right a)")
    c.after("8 6", "(right b)")
    c.after("8 6", "(subject-type u)")
    c.after("8 6", "(subject-type v)")
    c.after("8 6", "(subject-type o)")
    c.after("8 6", "(object-type o)")
    c.after("8 6", "(object-type u)")
    c.after("8 6", "(object-type v)")
    c.after("good", "(right u)", "(right o)", "(subject-type a)", "(object-type b)",
            "(owner u)", "(create a b (a b u o))", "(itrans a b (o) (u))",
            "(grant a u b (a o) (b u))")
    c.after("8 10", "(right u)", "(right o)", "(subject-type a)", "(object-type b)",
            "(object-type a)")
    c.whole("good", "(right right)", "(subject-type note)", "(object-type owner)",
            "(owner right)", "(create note owner (right))",
            "(itrans note owner (right) (right))")
    c.whole("good", "(right -)", "(right *)", "(right 0)", "(owner -)")
    # The owner.
    c.after("good", "(owner a)")
    c.after("8 7", "(owner a)", "(owner a)")
    c.after("8 7", "(owner a)", "(owner b)")
    c.after("8 9", "(owner b)", "(note)", "(right c)", "(owner c)")
    # Creations.
    c.after("good", "(create u o (a))", "(create v o (a))")
    c.after("8 7", "(create u o (a))", "(create u o (a))")
    c.after("8 7", "(create u o (a))", "(create u o (b))")
    c.after("8 7", "(create u o (a))", "(create u o ())")
    c.after("8 7", "(create u o ())", "(create u o ())")
    c.after("8 7", "(create u o ())", "(create u o (a))")
    c.after("8 9", "(create u o ())", "(create v o ())", "(note)", "(create u o (a b))")
    c.after("good", "(object-type p)", "(create u o ())", "(create u p ())",
            "(create v o (b a))", "(create v p (b))")
    # A right twice in one list, and once in each of two.
    for twice in ["a a", "a b a", "b a a", "a a b", "b b", "a a a"]:
        c.after("8 6", "(create u o (%s))" % twice)
        c.after("8 6", "(itrans u o (%s) (b))" % twice)
        c.after("8 6", "(itrans u o (b) (%s))" % twice)
        c.after("8 6", "(grant u v o (%s) ())" % twice)
        c.after("8 6", "(grant u v o (b) (%s))" % twice)
    c.after("good", "(itrans u o (a b) (a b))", "(grant u v o (b a) (b a))")
    # The same row twice is no fault.
    c.after("good", "(itrans u o (a) (b))", "(itrans u o (a) (b))",
            "(grant u u o (a) (b))", "(grant u u o (a) (b))")
    # The empty need, and 8 before 9.
    c.after("9 6", "(itrans u o () (a))")
    c.after("9 6", "(itrans u o () ())")
    c.after("9 6", "(grant u v o () (a))")
    c.after("9 6", "(grant u v o () ())")
    c.after("9 8", "(itrans u o (a) ())", "(note)", "(grant v v o () (b))")
    c.after("good", "(itrans u o (a) ())", "(grant u v o (a) ())", "(create u o ())")
    c.after("8 6", "(itrans u o () (a a))")
    c.after("8 6", "(grant u v o () (b a b))")


def room_cases(c):
    # Rights: 32.
    rights = numbered("(right r%d)", 32)
    c.whole("good", *rights)
    c.whole("good", *rights[:31])
    c.whole("20 33", *rights, "(right r32)")
    c.whole("8 33", *rights, "(right r0)")
    c.whole("8 33", *rights, "(right r31)")
    c.whole("20 34", *rights, "(note)", "(right x)", "(right y)")
    c.whole("20 34", *rights, "(owner r31)", "(right x)")
    c.whole("6 33", *rights, "(right r32 x)")
    c.whole("20 33", *rights, "(right u)", "(subject-type u)")
    full = rights + ["(subject-type u)", "(object-type o)", "(owner r31)"]
    every = " ".join("r%d" % i for i in range(32))
    backwards = " ".join("r%d" % i for i in reversed(range(32)))
    c.whole("good", *full, "(create u o (%s))" % every,
            "(itrans u o (r31) (r0))", "(itrans u o (r30 r31) (r1))",
            "(itrans u o (r0 r31) (r2))", "(itrans u o (%s) (r3))" % backwards,
            "(grant u u o (r0) (%s))" % backwards)
    c.whole("8 36", *full, "(create u o (%s r0))" % every)
    c.whole("8 36", *full, "(itrans u o (%s r31) ())" % every)

    # Subject types: 16, object types: 16, beside each other.
    subjects = numbered("(subject-type s%d)", 16)
    objects = numbered("(object-type t%d)", 16)
    for own, other, kind, mark in [(subjects, objects, "subject", "s"),
                                   (objects, subjects, "object", "t")]:
        c.whole("good", *own)
        c.whole("20 17", *own, "(%s-type x)" % kind)
        c.whole("8 17", *own, "(%s-type %s0)" % (kind, mark))
        c.whole("8 17", *own, "(%s-type %s15)" % (kind, mark))
        c.whole("good", *own, *other)
        c.whole("20 33", *own, *other, "(%s-type x)" % kind)
        c.whole("8 33", *own, *other, "(subject-type t0)")
        c.whole("8 33", *own, *other, "(object-type s15)")
        c.whole("20 18", *own, "(right x)", "(%s-type x)" % kind)
        c.whole("8 18", *own, *other[:1], "(%s-type %s0)"
                % (kind, "t" if mark == "s" else "s"))
        c.whole("good", *own, "(right x)", *other[:1], "(note)")
    c.whole("20 65", *rights, *subjects, *objects, "(right x)")
    c.whole("good", *rights, *subjects, *objects,
            "(create s15 t15 (r31))", "(create s0 t15 ())", "(create s15 t0 (r3 r2))",
            "(itrans s15 t15 (r31) (r30))", "(itrans s0 t15 (r30 r31) (r0))",
            "(grant s15 s15 t15 (r31) (r0 r31))", "(grant s0 s15 t0 (r0) (r1))",
            "(grant s15 s0 t0 (r0) (r2))")

    # Rows: 256, itrans and grant together.  BASE has five lines, so the
    # 257th row stands in line 262.
    itrans, grant = "(itrans u o (a) (b))", "(grant u v o (b) (a))"
    mixed = [grant if i % 3 == 0 else itrans for i in range(256)]
    c.after("good", *mixed)
    c.after("good", *[itrans] * 256)
    c.after("good", *[grant] * 256)
    c.after("20 262", *mixed, itrans)
    c.after("20 262", *mixed, grant)
    c.after("20 262", *[itrans] * 256, grant)
    c.after("20 262", *[grant] * 256, itrans)
    c.after("20 262", *[itrans] * 256, itrans)
    c.after("20 262", *[grant] * 256, grant)
    # Creations, the owner, declarations and notes do not count.
    c.after("good", *mixed, "(create u o (a))", "(create v o ())", "(owner a)",
            "(right c)", "(subject-type w)", "(object-type p)", "(note)")
    c.after("good", "(create u o (a))", "(create v o ())", "(owner a)", "(note)", *mixed)
    c.after("20 265", *mixed, "(create u o (a))", "(owner a)", "(note)", grant)
    # What comes before 20.
    c.after("9 262", *mixed, "(itrans u o () (b))")
    c.after("9 262", *mixed, "(grant u v o () (b))")
    c.after("8 262", *mixed, "(itrans u o (a a) (b))")
    c.after("8 262", *mixed, "(grant u v o () (b b))")
    c.after("7 262", *mixed, "(itrans u o (zz) (b))")
    c.after("6 262", *mixed, "(itrans u o (a))")
    # Every pair of types with a creation, given in another order.
    pairs = [(i * 5 % 16, i * 7 % 16) for i in range(16)]
    c.whole("good", "(right a)", *subjects, *objects,
            *["(create s%d t%d (a))" % (i, j) for i, _ in pairs for _, j in pairs])


def scheme_cases(c):
    # The paper review, and small changes of it.
    c.whole("good", *PAPER_REVIEW)
    c.whole("good", "(note paper review)", *PAPER_REVIEW, "(note end)")
    # Without one line: the line where its name is missed first.
    without = ["7 7", "7 9", "7 10", "7 11", "7 8", "7 9", "7 8",
               "good", "good", "good", "good", "good"]
    twice = ["8 2", "8 3", "8 4", "8 5", "8 6", "8 7", "8 8", "8 9", "8 10",
             "good", "good", "good"]
    for i, line in enumerate(PAPER_REVIEW):
        c.whole(without[i], *PAPER_REVIEW[:i], *PAPER_REVIEW[i + 1:])
        c.whole(twice[i], *PAPER_REVIEW[:i + 1], *PAPER_REVIEW[i:])
        c.whole("2 %d" % (i + 1), *PAPER_REVIEW[:i], line + "\r", *PAPER_REVIEW[i + 1:])
        c.whole("3 %d" % (i + 1), *PAPER_REVIEW[:i], "", *PAPER_REVIEW[i:])
        c.whole("6 %d" % (i + 1), *PAPER_REVIEW[:i], "()", *PAPER_REVIEW[i:])
    c.whole("7 1", *reversed(PAPER_REVIEW))

    # Books: unions, needs of several rights, numbers against list order.
    c.after("good", "(itrans u o (a) (a))", "(itrans u o (b) (b))")
    c.after("good", "(itrans u o (b a) (b a))", "(itrans v o (b) (a))")
    c.after("good", "(grant u v o (a) (b))", "(grant v u o (b) (a))",
            "(grant u u o (a b) (b a))", "(grant u v o (b) (a))")
    c.whole("good", "(right a)", "(subject-type u)", "(object-type o)",
            "(itrans u o (a) (a))", "(grant u u o (a) (a))")
    c.whole("good", "(right c)", "(right a)", "(right b)", "(right d)",
            "(subject-type v)", "(subject-type u)", "(object-type p)", "(object-type o)",
            "(create u o (d b a c))", "(create v o (b))", "(create u p ())",
            "(itrans u o (c) (d b))", "(itrans u o (a b) (c))", "(itrans u o (c b) (a))",
            "(itrans v p (d c b a) (d))", "(itrans u p (d) ())",
            "(grant u v o (d) (b a))", "(grant u v o (d b) (c))", "(grant v v p (a) (a))",
            "(owner b)")
    # A kind that is missing.
    c.whole("good", "(right a)", "(owner a)")
    c.whole("good", "(subject-type u)")
    c.whole("good", "(object-type o)")
    c.whole("good", "(subject-type u)", "(object-type o)", "(create u o ())")
    c.whole("9 3", "(subject-type u)", "(object-type o)", "(itrans u o () ())")
    c.whole("good", *["(note)"] * 300)
    c.whole("6 301", *["(note)"] * 300, "(not)")


def part_a():
    cases = Cases()
    for add in (word_cases, form_cases, name_cases, repeat_cases, room_cases,
                scheme_cases):
        add(cases)
    return [(verdict, text.encode("latin-1")) for verdict, text in cases.found]


# --------------------------------------------------------------- part b ----

def part_b():
    """Every byte value in the place of each byte, and before each byte (and
    behind the last one)."""
    for line in (b"(right a-1)\n", b"(note (a) b)\n"):
        for i in range(len(line) + 1):
            for value in range(256):
                byte = bytes([value])
                if i < len(line):
                    yield line[:i] + byte + line[i + 1:]
                yield line[:i] + byte + line[i:]


# --------------------------------------------------------------- part c ----

RIGHT_POOL = ["a", "b", "c", "d-1", "own", "u", "*", "right", W24]
TYPE_POOL = ["u", "v", "w", "p", "o-*", "a", "note", W24[1:]]


def some(rng, pool, most):
    """A list of different names, in any order."""
    return rng.sample(pool, rng.randint(0, min(most, len(pool))))


def random_scheme(rng, length, wild):
    """About `length` lines.  With the chance `wild` a line takes its names
    from the whole pools, so that it may be faulty; else it is a good line."""
    rights, subjects, objects = [], [], []
    pairs, owner = set(), False
    out = []
    for number in range(length):
        free = rng.random() < wild
        r = RIGHT_POOL if free else rights
        u = TYPE_POOL if free else subjects
        o = TYPE_POOL if free else objects
        # Declarations come early, most of the time.
        heads = ["right", "subject-type", "object-type"]
        if number > length // 3 or rng.random() < 0.2:
            heads = heads[:] + ["owner", "create", "itrans", "grant"] * 3 + ["note"]
        head = rng.choice(heads)

        def listed(least):
            names = some(rng, r, 3)
            if free and names and rng.random() < 0.15:
                names.append(rng.choice(names))
            if len(names) < least and not free and r:
                names = [rng.choice(r)]
            return "(" + " ".join(names) + ")"

        if head == "right":
            name = rng.choice(RIGHT_POOL)
            if free or name not in rights:
                out.append("(right %s)" % name)
                rights.append(name)
        elif head == "subject-type" or head == "object-type":
            name = rng.choice(TYPE_POOL)
            if free or name not in subjects + objects:
                out.append("(%s %s)" % (head, name))
                (subjects if head == "subject-type" else objects).append(name)
        elif head == "owner":
            if r and (free or not owner):
                out.append("(owner %s)" % rng.choice(r))
                owner = True
        elif head == "note":
            out.append(rng.choice(["(note)", "(note a (b ()) c)", "(note (owner zz))"]))
        elif u and o:
            first, last = rng.choice(u), rng.choice(o)
            if head == "create":
                if free or (first, last) not in pairs:
                    out.append("(create %s %s %s)" % (first, last, listed(0)))
                    pairs.add((first, last))
            elif r:
                types = [first] + ([rng.choice(u)] if head == "grant" else []) + [last]
                out.append("(%s %s %s %s)" % (head, " ".join(types), listed(1), listed(0)))
    return lines(*out)


def crowded_scheme(rng):
    """Near the limits of a kind: sometimes just full, sometimes over."""
    kind = rng.choice(["right", "subject-type", "object-type"])
    most = 32 if kind == "right" else 16
    names = ["%s%d" % (rng.choice("xyz"), i) for i in range(40)]
    out = ["(%s %s)" % (kind, name) for name in names[:most + rng.choice([-1, 0, 0, 1, 2])]]
    for _ in range(rng.randint(0, 3)):
        line = rng.choice(["(note)", "(right q)", "(subject-type q)", "(object-type p)",
                           "(%s %s)" % (kind, rng.choice(names)), "(owner q)"])
        out.insert(rng.randint(0, len(out)), line)
    return lines(*out)


def long_scheme(rng):
    """Near the limit of the rows."""
    out = ["(right a)", "(right b)", "(right c)", "(subject-type u)", "(subject-type v)",
           "(object-type o)", "(owner b)"]
    lists = ["(a)", "(b)", "(c)", "(a b)", "(c b)", "(a c)", "(b c a)"]
    for _ in range(256 + rng.choice([-1, 0, 0, 1, 1, 2])):
        out.append(rng.choice(["(itrans %s o %s %s)", "(grant v %s o %s %s)"])
                   % (rng.choice("uv"), rng.choice(lists), rng.choice(lists + ["()"])))
    if rng.random() < 0.3:
        out.append(rng.choice(["(itrans u o () (a))", "(grant u v o (a a) ())",
                               "(grant u v p (a) ())", "(create u o (c))", "(right d)"]))
    return lines(*out)


def spoilt_line(rng):
    """A line that tends to have a certain fault behind BASE."""
    return rng.choice([
        # 3, 4, 5, 2
        "(note a", "(note  a)", "(note) ", "", "(note (a)b)",
        "(note " + "(" * rng.randint(6, 9) + "a" + ")" * 9,
        "(note " + "(" * rng.randint(6, 9) + "a(",
        "(note " + "(a " * 8, "(" * 9,
        "(note %s)" % ("a" * rng.randint(23, 26)), "(right %s)" % W25,
        "(note (b %s" % W25, "(%s a)" % ("right" * 5),
        "(note A)", "(note)\r", "(right a.b)", "\t(note)",
        # 6
        "(right)", "()", "(owner a b)", "(create u o a)", "(itrans u o (a))",
        "(grant u o (a) (b))", "(create u (o) (a))", "(itrans u o (a (b)) ())",
        # 7
        "(owner u)", "(create u v ())", "(itrans o o (a) ())", "(grant u v o (a) (q))",
        # 8
        "(right b)", "(object-type u)", "(create u o (a b a))", "(itrans u o () (b b))",
        # 9
        "(itrans u o () (a))", "(grant v v o () ())", "(itrans v o () (b a))",
        "(grant u v o () (b))",
    ])


def spoilt_scheme(rng):
    out = BASE + ["(owner a)", "(create v o (a b))", "(itrans u o (a) (b))",
                  "(grant u v o (a b) (a))", "(note (x) y)"]
    out.insert(rng.randint(5, len(out)), spoilt_line(rng))
    return lines(*out)


def mutated(rng, text):
    """The text with one to three small changes."""
    alphabet = "()() \nab-*01uo" + "A\t\r\x00\x80\xff_"
    for _ in range(rng.choice([1, 1, 1, 2, 3])):
        at = rng.randint(0, len(text))
        rows = text.split("\n")[:-1]
        row = rng.randrange(len(rows)) if rows else 0
        change = rng.randrange(8)
        if change == 0:
            text = text[:at] + rng.choice(alphabet) + text[at:]
        elif change == 1:
            text = text[:at] + rng.choice(alphabet) + text[at + 1:]
        elif change == 2:
            text = text[:at] + text[at + 1:]
        elif change == 3:
            text = text[:at]
        elif not rows:
            text += "(note)\n"
        elif change == 4:
            text = lines(*rows[:row], *rows[row + 1:])
        elif change == 5:
            other = rng.randint(0, len(rows))
            text = lines(*rows[:other], rows[row], *rows[other:])
        elif change == 6:
            other = rng.randrange(len(rows))
            rows[row], rows[other] = rows[other], rows[row]
            text = lines(*rows)
        else:
            # Two words of the text change places.
            spots = [i for i, line in enumerate(rows) if " " in line]
            if spots:
                one, two = rng.choice(spots), rng.choice(spots)
                left, right = rows[one].split(" "), rows[two].split(" ")
                i, j = rng.randrange(len(left)), rng.randrange(len(right))
                left[i] = right[j]
                rows[one] = " ".join(left)
                text = lines(*rows)
    return text


def random_bytes(rng):
    """Bytes over the structural alphabet, without any sense."""
    alphabet = rng.choice(["()", "() a", "(() \na)", "(()) \nnote", "(a) \n\rA"])
    return "".join(rng.choice(alphabet) for _ in range(rng.randint(0, 24)))


def random_walk(rng):
    """Notes whose bytes mostly go on well, now and then at random: reaches
    deep lists and long words.  The first item is mostly `note`."""
    wrong = rng.choice([0, 0, 0.01, 0.05])
    open_bias = rng.choice([1, 3, 8])
    word_bias = rng.choice([1, 5, 30])
    out = rng.choice(["(note", "(note", "(note", "("])
    depth, run = 1, len(out) - 1
    for _ in range(rng.randint(3, 60)):
        last = out[-1]
        if rng.random() < wrong:
            out += rng.choice("()() \na0-*" + "A\r")
            break
        if depth == 0:
            break
        can = []
        if last in "( ":
            can += ["a"] * word_bias
        elif last != ")":
            can += ["a"] * (word_bias if run < rng.choice([24, 24, 24, 25]) else 0)
        if last in "( ":
            can += ["("] * (open_bias if depth < rng.choice([8, 8, 8, 9]) else 0)
        if last != " ":
            can += [")"]
            if last != "(":
                can += [" "] * 3
        if not can:
            can = ["a"]
        byte = rng.choice(can)
        if byte == "a":
            run = run + 1 if last not in "() " else 1
            byte = rng.choice("ab0z9-*")
        elif byte == "(":
            depth += 1
        elif byte == ")":
            depth -= 1
        out += byte
    if rng.random() < 0.8 and out[-1] != " ":
        out += ")" * depth + "\n"
    return out


def part_c(seed, count):
    rng = random.Random(seed)
    for i in range(count):
        if i % 200 == 199:
            text = long_scheme(rng)
        else:
            pick = rng.randrange(20)
            if pick < 6:
                text = random_scheme(rng, rng.randint(1, 24), rng.choice([0, 0, 0.03]))
            elif pick < 9:
                text = random_scheme(rng, rng.randint(6, 24), rng.choice([0.1, 0.3]))
            elif pick < 12:
                base = (lines(*PAPER_REVIEW) if rng.random() < 0.4
                        else random_scheme(rng, rng.randint(6, 20), 0))
                text = mutated(rng, base)
            elif pick < 15:
                text = spoilt_scheme(rng)
            elif pick < 16:
                text = crowded_scheme(rng)
            elif pick < 18:
                text = random_walk(rng)
            else:
                text = random_bytes(rng)
        yield text.encode("latin-1")


# ----------------------------------------------------------------- main ----

def print_expected():
    for verdict, _ in part_a():
        if verdict == "good":
            print("scheme")
        else:
            number, line = verdict.split()
            layer = ("words" if int(number) <= 5 else
                     "forms" if int(number) == 6 else "meaning")
            print("fault", number, line, layer)


def main():
    if sys.argv[1:] == ["--expected"]:
        print_expected()
        return
    seed = int(sys.argv[1]) if len(sys.argv) > 1 else 1
    count = int(sys.argv[2]) if len(sys.argv) > 2 else 2400
    parts = sys.argv[3] if len(sys.argv) > 3 else "abc"
    texts = []
    if "a" in parts:
        texts += [text for _, text in part_a()]
    if "b" in parts:
        texts += list(part_b())
    if "c" in parts:
        texts += list(part_c(seed, count))
    out = sys.stdout.buffer
    for text in texts:
        out.write(b"%d\n" % len(text))
        out.write(text)


if __name__ == "__main__":
    main()
