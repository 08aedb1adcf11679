#!/usr/bin/env python3
"""Lists the places of src/ that docs/DESIGN-PASS.md counts.

    tools/places.py            how many places each point has, crate by crate
    tools/places.py POINT      the places of one point, one a line

Run it at the top of the repository. It goes by text alone: what it lists is read by a person.
"""
import collections
import pathlib
import re
import sys

FILES = sorted(pathlib.Path("crates").glob("*/src/**/*.rt"))


def lines(pattern, skip=None):
    """Each line that has the pattern, but for comments and for lines that have the other one."""
    for file in FILES:
        for number, line in enumerate(file.read_text().splitlines(), 1):
            code = line.split("//")[0]
            if re.search(pattern, code) and not (skip and re.search(skip, code)):
                yield file, number, line.strip()


def functions():
    """Each function: its file, line, name, head and body."""
    for file in FILES:
        text = re.sub(r"//[^\n]*", "", file.read_text())
        for found in re.finditer(r"^( *)(?:pub(?:\([a-z]+\))? )?(?:final )?fn (\w+)", text, re.M):
            indent = found.group(1)
            opening = re.compile(rf"^{indent}\{{(\}})?$|[^\n]*\{{$", re.M)
            start = None
            for line in opening.finditer(text, found.start()):
                if line.group().strip() in ("{", "{}") or line.start() == found.start():
                    start = line
                    break
            if not start:
                continue
            end = re.compile(rf"^{indent}\}}$", re.M).search(text, start.end())
            body = "" if start.group().endswith("{}") or not end else text[start.end():end.start()]
            head = text[found.start():start.start()] if start.start() > found.start() else start.group()
            yield file, text.count("\n", 0, found.start()) + 1, found.group(2), head, body


def shape(body):
    """The body with each name as the number of its first use."""
    names = {}
    words = re.findall(r"\w+|[^\w\s]", body)
    return tuple(str(names.setdefault(w, len(names))) if re.match(r"[A-Za-z_]", w) else w for w in words)


def results():
    """Point 1: enums; matches that only turn an Option or a Result; flags."""
    yield from lines(r"^ *(pub(\([a-z]+\))? )?enum ")
    yield from lines(r"^\s*(None|Err\(_\)|Err\([a-z]+\)|Some\([a-z_]+\)|Ok\([a-z_()]+\)) => ")
    yield from lines(r"let mut [a-z_]+ = (true|false);|if [a-z_]+ \{ 1 \} else \{ 0 \}")


def twins():
    """Point 2: functions with bodies of one shape, eight words or more."""
    groups = collections.defaultdict(list)
    for file, number, name, _, body in functions():
        if len(shape(body)) >= 8:
            groups[shape(body)].append((file, number, name))
    for group in groups.values():
        if len(group) > 1:
            yield from group


def loops():
    """Point 3: loops, but for those that take each item of a collection."""
    yield from lines(r"^\s*('[a-z]+: )?(while |loop \{)")
    yield from lines(r"^\s*('[a-z]+: )?for .* in .*(\.\.|enumerate)")


def by_hand():
    """Point 4: comparisons of numbers of values, tests of a shape, numeric casts, printing functions."""
    yield from lines(r"\.number\(\) [=<>]|fn same_|matches!")
    yield from lines(r" as (u8|u16|u32|u64|usize|char)\b")
    yield from lines(r"fn (show|print)_|fn (to|from|into)_|fn [a-z_]*_from\(")


def together():
    """Point 5: clauses that stand in three or more functions of a file, functions of specs/ through which the clauses
    of three or more functions of a crate see a value, and four leading parameters that three or more functions share."""
    clauses = collections.defaultdict(list)
    groups = collections.defaultdict(list)
    views = collections.defaultdict(dict)
    for file, number, name, head, _ in functions():
        for clause in re.findall(r"(?:requires|ensures)[^{\n]*(\{.*\})", head):
            clauses[(file, clause)].append((file, number, f"{name}: {clause}"))
            for view in re.findall(r"\b(\w+_of|\w+_in) [(a-z]", clause):
                views[(file.parts[1], view)][(file, number)] = f"{name}: {view}"
        params = re.findall(r"(\w+): ", head.split("requires")[0].split("ensures")[0].split("(", 1)[-1])
        groups[(file, tuple(params[:4]))].append((file, number, f"{name}({', '.join(params)})"))
    for clause, found in clauses.items():
        if len(found) > 2:
            yield from found
    for found in views.values():
        if len(found) > 2:
            yield from ((file, number, text) for (file, number), text in found.items())
    for (_, params), found in groups.items():
        if len(found) > 2 and len(params) == 4:
            yield from found


def buffers():
    """Point 6: arrays of a fixed length, boxes, and slices that are written through."""
    yield from lines(r"\[[^\]\[]+; [A-Z_]+\]|Box<|Box::|&mut \[")


def switches():
    """Point 7: functions of type fn, and matches whose arms only call."""
    yield from lines(r"\bfn\(|dyn |fn dispatch")


def answers():
    """Point 8: answers to goals, and lemmas, in proofs/."""
    for file in sorted(pathlib.Path("crates").glob("*/proofs/**/*.antt")):
        for number, line in enumerate(file.read_text().splitlines(), 1):
            if re.match(r"(pub )?[a-z]\S* : ", line):
                yield file, number, line.split(" : ")[0]


POINTS = [results, twins, loops, by_hand, together, buffers, switches, answers]


def main():
    if len(sys.argv) > 1:
        for file, number, text in POINTS[int(sys.argv[1]) - 1]():
            print(f"{file}:{number}: {text}")
        return
    for point, places in enumerate(POINTS, 1):
        found = collections.Counter(place[0].parts[1] for place in places())
        each = ", ".join(f"{crate} {count}" for crate, count in sorted(found.items()))
        print(f"{point}. {sum(found.values())}: {each}")


main()
