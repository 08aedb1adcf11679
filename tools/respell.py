#!/usr/bin/env python3
"""Respells the repository's own definitions and lemmas: words in snake case, types in camel case.

usage: python3 tools/respell.py [--list]     at the top of the repository; --list only prints old and new names

A name is the repository's own where a line of a file of specs/ or proofs/ declares it, as a definition, a lemma, a field of a
record or a constructor. A declaration by the type of a goal (`goal.x`, `need.x`, `given.x`) has a name that Rattle gives, which stays.
In a file that imports a name from elsewhere that name stays too. Of a .rt file only clauses, ghost items and ghost imports are
turned; comments, strings and code stay. Of a comment in a .antt file an English word stays (ENGLISH). Of a page of docs/ and of
README.md only a name that stands alone between backquotes is turned.
"""
import os
import re
import sys

NAME = r"[A-Za-z_][\w']*(?:-[\w']+)+"
TOKEN = re.compile(r"(?<![\w'-])" + NAME + r"(?![\w'-])")
WORD = re.compile(r'"[^"\n]*"|' + TOKEN.pattern)
HEAD = re.compile(r"^\s*(?:(?:pub|abbrev|unfoldable|opaque) )*(?:(?:record|data) )?(" + NAME + r")(?: [({].*)? :(.*)")
USE = re.compile(r"^use ([\w.+·-]+)\.\{([^}]*)\}", re.M)
GIVEN = re.compile(r"^\s*(?:goal|need|given)\.")
# parameters, and names under which a file imports others: no line declares them at its start
OTHERS = ("New-list", "is-taken", "after-names", "after-length", "before-i", "in-it", "object-in", "join-in", "receiver-of")
# names that comments use as words of the language
ENGLISH = re.compile(r"(?m)^( *-- .*)\bwell-formed\b")
KIND = re.compile(r"(?:^|→| )Type 0\s*(?:where)?$")


def files(*suffixes):
    for folder, inner, names in os.walk("crates"):
        inner[:] = sorted(f for f in inner if f != "out")
        for name in sorted(names):
            if name.endswith(suffixes):
                yield os.path.join(folder, name)


def read(path):
    with open(path, encoding="utf-8") as f:
        return f.read()


def own_crates():
    return [c for c in os.listdir("crates") if os.path.isdir(os.path.join("crates", c, "src"))]


def declared():
    """The own names with a hyphen, each with whether it is a type."""
    found = {}
    for path in files(".antt"):
        for head in filter(None, map(HEAD.match, read(path).splitlines())):
            if not GIVEN.match(head[2]):
                found[head[1]] = found.get(head[1], False) or KIND.search(head[0].rstrip()) is not None
    return found


def turned(name, kind):
    if kind:
        return "".join(part[:1].upper() + part[1:] for part in name.split("-"))
    word = re.sub(r"(?<=[a-z])(?=[A-Z])", "_", name.replace("-", "_"))
    return word.lower() if name[0].isupper() else name.replace("-", "_")


def brought(text, crates):
    """Names that a file imports from outside the repository."""
    names = set()
    for path, items in USE.findall(text):
        parts = path.split(".")
        if parts[0] == "Rattle" and parts[1] in crates and parts[-1] not in ("Goals", "Given"):
            continue
        for item in items.split(","):
            names.add(item.split(" as ")[-1].strip())
    return names


def clauses(text):
    """The spans of a .rt file that hold terms of proofs, in order and apart."""
    spans = [m.span() for m in re.finditer(r"(?m)^\s*(?:pub )?ghost use [^;]*;", text)]
    spans += [m.span() for m in re.finditer(r"(?m)^\s*#!?\[tactic[^\n]*\]$", text)]
    for m in re.finditer(r"(?m)^\s*(?:pub )?(?:requires|ensures|ghost(?! use))\b[^{\n]*\{", text):
        deep, at = 1, m.end()
        while deep:
            deep += (text[at] == "{") - (text[at] == "}")
            at += 1
        spans.append((m.end(), at))
    return sorted(spans)


def main():
    crates = own_crates()
    names = {name: turned(name, kind) for name, kind in declared().items()}
    names |= {name: turned(name, False) for name in OTHERS}
    back = {}
    for old, new in names.items():
        back.setdefault(new, []).append(old)
    for new, olds in back.items():
        if len(olds) > 1:
            print("falls together:", new, olds)
    if "--list" in sys.argv:
        for old in sorted(names):
            print(old, names[old])
        return

    def turn(text, skip):
        return WORD.sub(lambda m: names[m[0]] if m[0] in names and m[0] not in skip else m[0], text)

    for path in files(".antt"):
        text = read(path)
        skip = brought(text, crates)
        own = {m[1] for m in map(HEAD.match, text.splitlines()) if m}
        for name in sorted(skip & own):
            print("declared and brought in:", path, name)
        plain = re.sub(r"--.*", "", text)
        there = set(re.findall(r"(?<![\w'-])[A-Za-z_][\w']*(?![\w'-])", plain))
        for old in sorted(set(TOKEN.findall(plain)) & set(names)):
            if old not in skip and names[old] in there:
                print("stands already:", path, names[old])
        for old in sorted(set(TOKEN.findall(plain)) & set(names) & skip):
            print("left:", path, old)
        new = turn(ENGLISH.sub(r"\1well formed", text), skip).replace("well formed", "well-formed")
        if new != text:
            with open(path, "w", encoding="utf-8") as f:
                f.write(new)
    for path in files(".rt"):
        text = read(path)
        out, at = [], 0
        for start, end in clauses(text):
            out += [text[at:start], turn(text[start:end], set())]
            at = end
        new = "".join(out) + text[at:]
        if new != text:
            with open(path, "w", encoding="utf-8") as f:
                f.write(new)
    pages = ["README.md"] + [os.path.join("docs", f) for f in sorted(os.listdir("docs")) if f.endswith(".md")]
    for path in pages:
        text = read(path)
        new = re.sub(r"`" + NAME + r"`", lambda m: turn(m[0], set()), text)
        if new != text:
            with open(path, "w", encoding="utf-8") as f:
                f.write(new)


if __name__ == "__main__":
    main()
