#!/usr/bin/env python3
"""A plain model of the scheme texts: judges each text and prints its book.

Use:  model_texts.py [FILE]      (without FILE: standard input)

The input is a sequence of texts, each as its length in decimal, a line end,
and that many bytes.  For each text either one line `fault NUMBER LINE LAYER`
is printed, or the scheme that the text declares.

A line passes these layers, one function each; the first fault decides:

    read_line       2 to 5   the bytes of a line make one bracketed list
    check_shape     6        the list is one of the eight forms
    check_names     7        each used name is declared in an earlier line
    check_repeats   8        nothing is declared or listed twice
    check_need      9        a row has something in its need
    check_room      20       there is room for one more
    enter                    the line becomes part of the scheme
"""

import sys

TEXT_LIMIT = 4194304
DEPTH_LIMIT = 8
WORD_LIMIT = 24
RIGHT_LIMIT = 32
SUBJECT_LIMIT = 16
OBJECT_LIMIT = 16
ROW_LIMIT = 256


class Fault(Exception):
    def __init__(self, number):
        super().__init__(number)
        self.number = number


def layer_of(number):
    if number <= 5:
        return "words"
    if number == 6:
        return "forms"
    return "meaning"


# ---------------------------------------------------------------- words ----

# The classes of bytes.  START and DONE are no bytes: they are the places
# before the form and behind its last bracket.
WORD, OPEN, CLOSE, SPACE, END, BAD, START, DONE = range(8)

CLASS = [BAD] * 256
for _byte in b"abcdefghijklmnopqrstuvwxyz0123456789-*":
    CLASS[_byte] = WORD
CLASS[ord("(")] = OPEN
CLASS[ord(")")] = CLOSE
CLASS[ord(" ")] = SPACE
CLASS[10] = END

# What may stand next to what (the limits of depth and length apart).
MAY_FOLLOW = {
    START: {OPEN},
    OPEN: {WORD, OPEN, CLOSE},
    WORD: {WORD, SPACE, CLOSE},
    SPACE: {WORD, OPEN},
    CLOSE: {SPACE, CLOSE},
    DONE: {END},
}


def read_line(text, at):
    """Read the line that begins at `at`.

    Gives the form and the place behind the line end.  A list is a Python
    list of its items, a word is a str.
    """
    outermost = []          # its only item will be the form
    lists = [outermost]     # `outermost`, then the lists that are open here
    word_start = at
    before = START
    while at < len(text):
        kind = CLASS[text[at]]
        if kind == BAD:
            raise Fault(2)
        if kind == OPEN and len(lists) - 1 == DEPTH_LIMIT:
            raise Fault(4)
        if kind == WORD and before == WORD and at - word_start == WORD_LIMIT:
            raise Fault(5)
        if kind not in MAY_FOLLOW[before]:
            raise Fault(3)
        # The byte may stand here.
        if kind == WORD and before != WORD:
            word_start = at
        if kind != WORD and before == WORD:
            lists[-1].append(text[word_start:at].decode("ascii"))
        at += 1
        if kind == END:
            return outermost[0], at
        if kind == OPEN:
            new = []
            lists[-1].append(new)
            lists.append(new)
        elif kind == CLOSE:
            lists.pop()
            if len(lists) == 1:
                kind = DONE
        before = kind
    raise Fault(3)          # the text ends inside a line


# ---------------------------------------------------------------- forms ----

# The kinds of items behind the head of a form.
NEW, RIGHT, SUBJECT, OBJECT, RIGHTS = "new", "right", "subject", "object", "rights"

SHAPES = {
    "right": [NEW],
    "subject-type": [NEW],
    "object-type": [NEW],
    "owner": [RIGHT],
    "create": [SUBJECT, OBJECT, RIGHTS],
    "itrans": [SUBJECT, OBJECT, RIGHTS, RIGHTS],
    "grant": [SUBJECT, SUBJECT, OBJECT, RIGHTS, RIGHTS],
}


def is_word(item):
    return isinstance(item, str)


def check_shape(form):
    """6: the form is none of the known ones.  Notes do not come here."""
    if not form or not is_word(form[0]) or form[0] not in SHAPES:
        raise Fault(6)
    shape, items = SHAPES[form[0]], form[1:]
    if len(items) != len(shape):
        raise Fault(6)
    for kind, item in zip(shape, items):
        if kind == RIGHTS:
            if is_word(item) or not all(is_word(inner) for inner in item):
                raise Fault(6)
        elif not is_word(item):
            raise Fault(6)


# -------------------------------------------------------------- meaning ----

class Scheme:
    """What the lines so far declare.  Everything is kept by name; the number
    of an entry is its place in the list of its kind."""

    def __init__(self):
        self.rights = []
        self.subjects = []
        self.objects = []
        self.owner = None
        self.creations = {}     # (u, o) -> set of rights
        self.itrans = {}        # (u, o) -> list of (need, gives)
        self.grants = {}        # (u, v, o) -> list of (need, gives)
        self.row_count = 0      # itrans and grant rows together


def check_names(scheme, head, items):
    """7: a used name is not declared as an entry of its kind."""
    declared = {RIGHT: scheme.rights, SUBJECT: scheme.subjects, OBJECT: scheme.objects}
    for kind, item in zip(SHAPES[head], items):
        if kind == NEW:
            continue
        if kind == RIGHTS:
            if any(name not in scheme.rights for name in item):
                raise Fault(7)
        elif item not in declared[kind]:
            raise Fault(7)


def check_repeats(scheme, head, items):
    """8: a name is taken, or something comes a second time."""
    if head == "right" and items[0] in scheme.rights:
        raise Fault(8)
    if head in ("subject-type", "object-type"):
        # Types share one set of names.
        if items[0] in scheme.subjects or items[0] in scheme.objects:
            raise Fault(8)
    if head == "owner" and scheme.owner is not None:
        raise Fault(8)
    if head == "create" and (items[0], items[1]) in scheme.creations:
        raise Fault(8)
    for item in items:
        if not is_word(item) and len(set(item)) != len(item):
            raise Fault(8)


def check_need(head, items):
    """9: the need of a row is empty."""
    if head in ("itrans", "grant") and items[-2] == []:
        raise Fault(9)


def check_room(scheme, head):
    """20: the kind of this line is full."""
    full = {
        "right": len(scheme.rights) >= RIGHT_LIMIT,
        "subject-type": len(scheme.subjects) >= SUBJECT_LIMIT,
        "object-type": len(scheme.objects) >= OBJECT_LIMIT,
        "itrans": scheme.row_count >= ROW_LIMIT,
        "grant": scheme.row_count >= ROW_LIMIT,
    }
    if full.get(head, False):
        raise Fault(20)


def enter(scheme, head, items):
    """Make a faultless line part of the scheme."""
    if head == "right":
        scheme.rights.append(items[0])
    elif head == "subject-type":
        scheme.subjects.append(items[0])
    elif head == "object-type":
        scheme.objects.append(items[0])
    elif head == "owner":
        scheme.owner = items[0]
    elif head == "create":
        scheme.creations[items[0], items[1]] = set(items[2])
    else:
        rows = scheme.itrans if head == "itrans" else scheme.grants
        types, need, gives = tuple(items[:-2]), set(items[-2]), set(items[-1])
        rows.setdefault(types, []).append((need, gives))
        scheme.row_count += 1


# ------------------------------------------------------------ whole text ----

def judge(text):
    """Give (number, line, None) of the first fault, or (None, None, scheme)."""
    if len(text) > TEXT_LIMIT:
        return 1, 0, None
    scheme = Scheme()
    at, line = 0, 1
    while at < len(text):
        try:
            form, at = read_line(text, at)
            if form[:1] != ["note"]:
                check_shape(form)
                head, items = form[0], form[1:]
                check_names(scheme, head, items)
                check_repeats(scheme, head, items)
                check_need(head, items)
                check_room(scheme, head)
                enter(scheme, head, items)
        except Fault as fault:
            return fault.number, line, None
        line += 1
    return None, None, scheme


# ---------------------------------------------------------------- output ----

def probes(scheme):
    """The sets H for which the book is printed."""
    rights = scheme.rights
    found = [[]]
    found += [[right] for right in rights]
    found += [list(pair) for pair in zip(rights, rights[1:])]
    found += [list(rights)]
    return found


def given(rows, held):
    """The union of the gives of all rows whose need lies within `held`."""
    union = set()
    for need, gives in rows:
        if need <= set(held):
            union |= gives
    return union


def book(scheme):
    """The lines that are printed for a good text."""

    def entry(words, names):
        # The rights in `names` stand by number, whatever order they came in.
        return " ".join(words + [":"] + [r for r in scheme.rights if r in names])

    def held_name(held):
        return ",".join(held) or "-"

    yield "scheme"
    yield " ".join(["rights"] + scheme.rights)
    yield " ".join(["subject-types"] + scheme.subjects)
    yield " ".join(["object-types"] + scheme.objects)
    yield "owner " + (scheme.owner or "-")
    for u in scheme.subjects:
        for o in scheme.objects:
            if (u, o) in scheme.creations:
                yield entry(["create", u, o], scheme.creations[u, o])
    for u in scheme.subjects:
        for o in scheme.objects:
            rows = scheme.itrans.get((u, o), [])
            for held in probes(scheme) if rows else []:
                names = given(rows, held)
                if names:
                    yield entry(["add", u, o, held_name(held)], names)
    for u in scheme.subjects:
        for v in scheme.subjects:
            for o in scheme.objects:
                rows = scheme.grants.get((u, v, o), [])
                for held in probes(scheme) if rows else []:
                    names = given(rows, held)
                    if names:
                        yield entry(["give", u, v, o, held_name(held)], names)
    yield "end"


def framed_texts(data):
    """Take the input apart into its texts."""
    at = 0
    while at < len(data):
        end = data.find(b"\n", at)
        digits = data[at:end] if end >= 0 else b""
        if not digits.isdigit():
            sys.exit("model_texts: no length at byte %d of the input" % at)
        start = end + 1
        at = start + int(digits)
        if at > len(data):
            sys.exit("model_texts: the input ends inside a text")
        yield data[start:at]


def main():
    if len(sys.argv) > 1:
        with open(sys.argv[1], "rb") as source:
            data = source.read()
    else:
        data = sys.stdin.buffer.read()
    for text in framed_texts(data):
        number, line, scheme = judge(text)
        if number is not None:
            print("fault %d %d %s" % (number, line, layer_of(number)))
        else:
            for out in book(scheme):
                print(out)


if __name__ == "__main__":
    main()
