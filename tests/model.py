#!/usr/bin/env python3
"""What the program `replay` should print for the lines on standard input.

Written from the rules alone, with sets and dicts. It shares no code with the program, and the header of
crates/replay/src/main.rt has the language of the lines. The rules:

A draft of a row book has rights, subject types and object types, each kind numbered from 0. A declaration is refused with
the first of: 10, a number that is not declared; 8, an owner or a creation pair that is declared already, or a right that
stands twice in a list; 9, a row with an empty need; 20, one more than the limit. A refused declaration changes nothing.

A step is refused with the first of: 10, a number that names nothing; 11, a gift to oneself; 21, not permitted by the book;
20, no room for an object; 22, no owner; 23, not held.

A question asks whether a subject can ever hold a right: `can` for an object of the table, `can-new` for some object of a
type that is not in the table when the question is put. It is put with a run list of so many places, and is refused with the
first of: 10, a number that names nothing; 24, fewer than 2,049 places. It never alters the table.

An answer `can` shows a run, and the rules fix which. For `can` it stays in the object's column. At each point it takes the
first step that the book permits and that adds a right to the receiver's cell: receivers by number, for each one its
transforms before the grants to it, grants by the giver's number, then the lowest right. It stops as soon as the holding
stands; if there is no step before that, the answer is never. For `can-new` the answer is never while 64 objects stand. Else
the creators are tried by number, each with the column that its create would make, and the run is the create of the first
one whose column reaches the holding, and then the steps of that column.

Three checks of these answers stand beside the rule, and know nothing of its order: a shown run is walked by the steps of a
table; what can be held in a column is gathered as a set that grows until nothing is new; and where a column has few states,
all of them are visited, those behind a revoke too.
"""

import re
import sys

RIGHTS = 32
SUBJECT_TYPES = 16
OBJECT_TYPES = 16
ROWS = 256
SUBJECTS = 64
OBJECTS = 64
RUN_PLACES = SUBJECTS * RIGHTS + 1
MOST_PLACES = 4096
LARGEST_NUMBER = 2 ** 64 - 1

BLANKS = re.compile("[\t-\r \x85\xa0\u1680\u2000-\u200a\u2028\u2029\u202f\u205f\u3000]+")


class Refused(Exception):
    def __init__(self, number):
        super().__init__(number)
        self.number = number


class Unreadable(Exception):
    pass


def refuse_if(fault, number):
    if fault:
        raise Refused(number)


def readable(test):
    if not test:
        raise Unreadable


# --- the two books ---------------------------------------------------------------------------------------------------


class RowBook:
    """Rows as they were declared, and the questions that a table asks of them."""

    def __init__(self):
        self.rights = 0
        self.subject_types = 0
        self.object_types = 0
        self.mark = None
        self.creations = {}
        self.transforms = []
        self.grants = []

    def declare_right(self):
        refuse_if(self.rights == RIGHTS, 20)
        self.rights += 1
        return self.rights - 1

    def declare_subject_type(self):
        refuse_if(self.subject_types == SUBJECT_TYPES, 20)
        self.subject_types += 1
        return self.subject_types - 1

    def declare_object_type(self):
        refuse_if(self.object_types == OBJECT_TYPES, 20)
        self.object_types += 1
        return self.object_types - 1

    def refuse_undeclared(self, subject_types, object_type, lists):
        refuse_if(any(u >= self.subject_types for u in subject_types), 10)
        refuse_if(object_type >= self.object_types, 10)
        refuse_if(any(right >= self.rights for rights in lists for right in rights), 10)

    def refuse_twice(self, lists):
        refuse_if(any(len(set(rights)) < len(rights) for rights in lists), 8)

    def declare_owner(self, right):
        refuse_if(right >= self.rights, 10)
        refuse_if(self.mark is not None, 8)
        self.mark = right

    def declare_creation(self, u, o, gets):
        self.refuse_undeclared([u], o, [gets])
        refuse_if((u, o) in self.creations, 8)
        self.refuse_twice([gets])
        self.creations[u, o] = frozenset(gets)

    def refuse_row(self, subject_types, o, need, gives):
        self.refuse_undeclared(subject_types, o, [need, gives])
        self.refuse_twice([need, gives])
        refuse_if(not need, 9)
        refuse_if(len(self.transforms) + len(self.grants) == ROWS, 20)

    def declare_transform(self, u, o, need, gives):
        self.refuse_row([u], o, need, gives)
        self.transforms.append(((u, o), set(need), set(gives)))

    def declare_grant(self, u, v, o, need, gives):
        self.refuse_row([u, v], o, need, gives)
        self.grants.append(((u, v, o), set(need), set(gives)))

    @staticmethod
    def gathered(rows, types, held):
        return {right for kind, need, gives in rows if kind == types and need <= held for right in gives}

    def may_add(self, u, o, held):
        return self.gathered(self.transforms, (u, o), held)

    def may_give(self, u, v, o, held):
        return self.gathered(self.grants, (u, v, o), held)

    def creation(self, u, o):
        return self.creations.get((u, o))

    def owner(self):
        return self.mark


class FlagBook:
    """Right 0 is the access, 1 to n are counted flags, and 31 is the unlimited flag."""

    def __init__(self, n, givers, receivers, creators, served, strong, fresh):
        refuse_if(not 1 <= n <= 30, 10)
        self.n = n
        self.givers = givers
        self.receivers = receivers
        self.creators = creators
        self.served = served
        self.strong = strong
        self.fresh = {31} if fresh == "unlimited" else {n}

    def flags(self, held):
        return {k for k in held if 1 <= k <= self.n or k == 31}

    def gives(self, flag):
        if flag == 31:
            return {0, 31} | set(range(1, self.n + 1))
        return {0} | set(range(1, flag))

    def may_add(self, u, o, held):
        if self.strong and o in self.served and self.flags(held):
            return {0}
        return set()

    def may_give(self, u, v, o, held):
        if u in self.givers and v in self.receivers and o in self.served:
            return set().union(*[self.gives(flag) for flag in self.flags(held)])
        return set()

    def creation(self, u, o):
        if u in self.creators and o in self.served:
            return self.fresh
        return None

    def owner(self):
        return None


# --- the table -------------------------------------------------------------------------------------------------------


class Table:
    def __init__(self):
        self.subjects = []
        self.objects = []
        self.cells = {}

    def held(self, s, o):
        return self.cells.get((s, o), set())

    def refuse_absent(self, subjects, o, right):
        refuse_if(any(s >= len(self.subjects) for s in subjects), 10)
        refuse_if(o >= len(self.objects), 10)
        refuse_if(right >= RIGHTS, 10)

    def build_subject(self, u):
        refuse_if(u >= SUBJECT_TYPES, 10)
        refuse_if(len(self.subjects) == SUBJECTS, 20)
        self.subjects.append(u)
        return len(self.subjects) - 1

    def build_object(self, o):
        refuse_if(o >= OBJECT_TYPES, 10)
        refuse_if(len(self.objects) == OBJECTS, 20)
        self.objects.append(o)
        return len(self.objects) - 1

    def hold(self, s, o, right):
        self.refuse_absent([s], o, right)
        self.cells[s, o] = self.held(s, o) | {right}

    def create(self, book, s, t):
        refuse_if(s >= len(self.subjects), 10)
        refuse_if(t >= OBJECT_TYPES, 10)
        gets = book.creation(self.subjects[s], t)
        refuse_if(gets is None, 21)
        refuse_if(len(self.objects) == OBJECTS, 20)
        self.objects.append(t)
        number = len(self.objects) - 1
        self.cells[s, number] = set(gets)
        return "made %d" % number

    def join(self, s, o, right):
        new = right not in self.held(s, o)
        self.cells[s, o] = self.held(s, o) | {right}
        return "added 1" if new else "added 0"

    def transform(self, book, s, o, right):
        self.refuse_absent([s], o, right)
        refuse_if(right not in book.may_add(self.subjects[s], self.objects[o], self.held(s, o)), 21)
        return self.join(s, o, right)

    def grant(self, book, s, d, o, right):
        self.refuse_absent([s, d], o, right)
        refuse_if(s == d, 11)
        may = book.may_give(self.subjects[s], self.subjects[d], self.objects[o], self.held(s, o))
        refuse_if(right not in may, 21)
        return self.join(d, o, right)

    def revoke(self, book, s, d, o, right):
        self.refuse_absent([s, d], o, right)
        mark = book.owner()
        refuse_if(mark is None or mark not in self.held(s, o), 22)
        refuse_if(right not in self.held(d, o), 23)
        self.cells[d, o] = self.held(d, o) - {right}
        return "taken"

    def can(self, book, s, o, right, places):
        self.refuse_absent([s], o, right)
        refuse_if(places < RUN_PLACES, 24)
        column = Column(self.subjects, self.objects[o], {d: self.held(d, o) for d in range(len(self.subjects))})
        run = run_in(book, column, o, s, right)
        check_answer(book, [column], s, right, run)
        if run is not None:
            self.check_run(book, run, s, o, right)
        return told(run)

    def can_new(self, book, s, t, right, places):
        refuse_if(s >= len(self.subjects), 10)
        refuse_if(t >= OBJECT_TYPES, 10)
        refuse_if(right >= RIGHTS, 10)
        refuse_if(places < RUN_PLACES, 24)
        if len(self.objects) == OBJECTS:
            return told(None)
        columns = []
        found = None
        for creator, u in enumerate(self.subjects):
            gets = book.creation(u, t)
            if gets is None:
                continue
            columns.append(Column(self.subjects, t, {creator: gets}))
            run = run_in(book, columns[-1], len(self.objects), s, right)
            if run is not None:
                found = ["create %d %d" % (creator, t)] + run
                self.check_run(book, found, s, len(self.objects), right)
                break
        check_answer(book, columns, s, right, found)
        return told(found)

    def check_run(self, book, run, s, o, right):
        """Each step of the run is permitted and does something, and the holding stands at its end and no sooner."""
        assert len(run) < RUN_PLACES
        walked = Table()
        walked.subjects, walked.objects, walked.cells = self.subjects, list(self.objects), dict(self.cells)
        for step in run:
            assert right not in walked.held(s, o)
            name, *given = step.split()
            done = STEPS[name][1](walked, book, *map(int, given))
            assert done == ("made %d" % o if name == "create" else "added 1")
        assert right in walked.held(s, o)

    def cell(self, s, o):
        refuse_if(s >= len(self.subjects) or o >= len(self.objects), 10)
        return shown(self.held(s, o))

    def dump(self):
        cells = ["%d/%d%s" % (s, o, shown(held)) for (s, o), held in sorted(self.cells.items()) if held]
        return " ".join(cells) if cells else "nothing"


# --- the questions ---------------------------------------------------------------------------------------------------


class Column:
    """The cells of one object: for each subject what it holds."""

    def __init__(self, types, kind, cells):
        self.types = types
        self.kind = kind
        self.cells = [set(cells.get(s, ())) for s in range(len(types))]

    def holdings(self):
        return frozenset((s, right) for s, held in enumerate(self.cells) for right in held)


def first_step(may_add, may_give, column):
    """The giver, which is None for a transform, the receiver and the right of the first step that adds a right."""
    for receiver, held in enumerate(column.cells):
        if len(held) == RIGHTS:
            continue
        new = may_add(receiver) - held
        if new:
            return None, receiver, min(new)
        for giver in range(len(column.types)):
            if giver != receiver:
                new = may_give(giver, receiver) - held
                if new:
                    return giver, receiver, min(new)
    return None


def run_in(book, start, number, s, right):
    """The steps of the run in a column, as lines name them, or None."""
    column = Column(start.types, start.kind, dict(enumerate(start.cells)))
    known = {}

    def remembered(ask, *given):
        key = (ask.__name__,) + given[:-1] + (frozenset(given[-1]),)
        if key not in known:
            known[key] = ask(*given)
        return known[key]

    def may_add(receiver):
        return remembered(book.may_add, column.types[receiver], column.kind, column.cells[receiver])

    def may_give(giver, receiver):
        types = column.types[giver], column.types[receiver], column.kind
        return remembered(book.may_give, *types, column.cells[giver])

    run = []
    while right not in column.cells[s]:
        step = first_step(may_add, may_give, column)
        if step is None:
            return None
        giver, receiver, added = step
        column.cells[receiver].add(added)
        if giver is None:
            run.append("add %d %d %d" % (receiver, number, added))
        else:
            run.append("give %d %d %d %d" % (giver, receiver, number, added))
    return run


def told(run):
    return "never" if run is None else " : ".join(["can %d" % len(run)] + run)


# --- the questions, answered in two other ways -----------------------------------------------------------------------


FEW_SUBJECTS = 8
FEW_STATES = 300


def gathered_in(book, column):
    """All holdings that can come, joined at once each time, until nothing is new."""
    types, kind = column.types, column.kind
    holdings = column.holdings()
    while True:
        cells = [{right for d, right in holdings if d == s} for s in range(len(types))]
        more = set(holdings)
        for s, u in enumerate(types):
            more.update((s, right) for right in book.may_add(u, kind, cells[s]))
            for d, v in enumerate(types):
                if d != s:
                    more.update((d, right) for right in book.may_give(u, v, kind, cells[s]))
        if more == holdings:
            return holdings
        holdings = more


def next_states(book, column, state):
    """The states of the column after one step of any kind."""
    types, kind = column.types, column.kind
    for s, u in enumerate(types):
        held = {right for d, right in state if d == s}
        for right in book.may_add(u, kind, held):
            yield state | {(s, right)}
        for d, v in enumerate(types):
            if d != s:
                for right in book.may_give(u, v, kind, held):
                    yield state | {(d, right)}
        if book.owner() in held:
            for holding in state:
                yield state - {holding}


def visited(book, column):
    """All states that the column can come to, or None where they are many."""
    seen = {column.holdings()}
    waiting = list(seen)
    while waiting:
        for state in next_states(book, column, waiting.pop(0)):
            if state not in seen:
                seen.add(state)
                waiting.append(state)
        if len(seen) > FEW_STATES:
            return None
    return seen


COUNTS = {"gathered": 0, "visited": 0, "longest": 0}


def check_answer(book, columns, s, right, run):
    """The answer agrees with what the columns of these cells can come to. A run may begin in any of them."""
    COUNTS["longest"] = max(COUNTS["longest"], 0 if run is None else len(run))
    if columns and len(columns[0].types) > FEW_SUBJECTS:
        return
    COUNTS["gathered"] += 1
    assert any((s, right) in gathered_in(book, column) for column in columns) == (run is not None)
    states = [visited(book, column) for column in columns]
    if None not in states:
        COUNTS["visited"] += 1
        assert any((s, right) in state for seen in states for state in seen) == (run is not None)


def shown(rights):
    return "{" + " ".join(str(right) for right in sorted(rights)) + "}"


# --- the lines -------------------------------------------------------------------------------------------------------


def words(text):
    return [word for word in BLANKS.split(text) if word]


def number(word):
    readable(re.fullmatch(r"\+?[0-9]+", word))
    digits = word.lstrip("+").lstrip("0") or "0"
    readable(len(digits) <= 20 and int(digits) <= LARGEST_NUMBER)
    return int(digits)


def numbers(text):
    return [number(word) for word in words(text)]


def types(word):
    if word == "-":
        return set()
    chosen = {number(part) for part in word.split(",")}
    readable(all(kind < 16 for kind in chosen))
    return chosen


def lists(text, count):
    """The numbers before the first colon, and the lists behind each of so many colons."""
    parts = text.split(":", count)
    readable(len(parts) == count + 1)
    return [numbers(part) for part in parts]


DECLARATIONS = {
    "right": (0, RowBook.declare_right),
    "subject-type": (0, RowBook.declare_subject_type),
    "object-type": (0, RowBook.declare_object_type),
    "owner": (1, RowBook.declare_owner),
}

ROW_DECLARATIONS = {
    "creation": (2, 1, RowBook.declare_creation),
    "transform": (2, 2, RowBook.declare_transform),
    "grant": (3, 2, RowBook.declare_grant),
}

BUILDING = {
    "subject": (1, Table.build_subject),
    "object": (1, Table.build_object),
    "hold": (3, Table.hold),
}

STEPS = {
    "create": (2, Table.create),
    "add": (3, Table.transform),
    "give": (4, Table.grant),
    "revoke": (4, Table.revoke),
}

QUESTIONS = {
    "can": Table.can,
    "can-new": Table.can_new,
}

LOOKS = {
    "cell": (2, Table.cell),
    "dump": (0, Table.dump),
}


class Session:
    def __init__(self):
        self.draft = None
        self.book = None
        self.building = None
        self.table = None

    def call(self, line):
        name, _, rest = line.partition(" ")
        if name == "flags":
            return self.flags(words(rest))
        if name in ROW_DECLARATIONS:
            return self.row(rest, *ROW_DECLARATIONS[name])
        given = numbers(rest)
        if name in ("book", "fix", "table", "start"):
            readable(not given)
            return getattr(self, "do_" + name)()
        if name in QUESTIONS:
            return self.question(QUESTIONS[name], given)
        for calls, target in ((DECLARATIONS, [self.draft]), (BUILDING, [self.building]),
                              (STEPS, [self.table, self.book]), (LOOKS, [self.table])):
            if name in calls:
                count, call = calls[name]
                readable(len(given) == count and None not in target)
                return call(*target, *given)
        raise Unreadable

    def row(self, rest, type_count, list_count, call):
        kinds, *rows = lists(rest, list_count)
        readable(len(kinds) == type_count and self.draft is not None)
        return call(self.draft, *kinds, *rows)

    def question(self, call, given):
        readable(len(given) in (3, 4) and None not in (self.table, self.book))
        *asked, places = given if len(given) == 4 else given + [RUN_PLACES]
        readable(places <= MOST_PLACES)
        return call(self.table, self.book, *asked, places)

    def flags(self, given):
        readable(len(given) == 7)
        n, *sets, strong, fresh = given
        n = number(n)
        sets = [types(word) for word in sets]
        readable(strong in ("0", "1") and fresh in ("counted", "unlimited"))
        self.book = FlagBook(n, *sets, strong == "1", fresh)

    def do_book(self):
        self.draft = RowBook()

    def do_fix(self):
        readable(self.draft is not None)
        self.book, self.draft = self.draft, None

    def do_table(self):
        self.building = Table()

    def do_start(self):
        readable(self.building is not None)
        self.table, self.building = self.building, None


def answer(session, line):
    try:
        result = session.call(line)
    except Refused as refused:
        return "refused %d" % refused.number
    except Unreadable:
        return "unreadable"
    return "ok" if result is None else str(result)


def main():
    text = sys.stdin.buffer.read()
    lines = text.split(b"\n")
    if lines[-1] == b"":
        lines.pop()
    session = Session()
    printed = []
    for line in lines:
        line = line.decode("utf-8", errors="replace")
        if line == "" or line.startswith("#"):
            printed.append(line)
        else:
            printed.append("%s -> %s" % (line, answer(session, line)))
    sys.stdout.buffer.write("".join(line + "\n" for line in printed).encode("utf-8"))


if __name__ == "__main__":
    main()
