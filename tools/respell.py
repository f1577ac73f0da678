#!/usr/bin/env python3
"""Brings the repository's own definitions, lemmas and fields to the spelling of today's Rattle.

usage: python3 tools/respell.py [--list]      at the top of the repository, once, after port.py

Words are in snake case, types and modules in upper camel case; a dash stays where it joins a fact and a name. A lemma that would fall
together with its definition gets `_lem`. Functions of src/, exported names, strings, inputs and outputs keep their names, and so do
constructors, which stand for Rust's variants. --list prints the table and the names that fall together, and writes nothing.
"""

import os
import re
import subprocess
import sys

W = r"[^\s(){}.;,@\"«»\[\]\\:`|]+"
TOKEN = re.compile(r"--[^\n]*|//[^\n]*|\"(?:[^\"\\\n]|\\.)*\"|«[^»]*»|" + W + r"|[.]")
MODS = r"(?:(?:abbrev|unfoldable|pub|package)\s+)*"
SIGNATURE = re.compile(r"^\s*" + MODS + "(" + W + r"(?: " + W + r")*) :(?:\s|$)")
HEAD = re.compile(r"^\s*" + MODS + r"(record|data)\s+(?:pub\s+)?(" + W + ")")
LET = re.compile(r"\blet (" + W + ") [:=]")
# local names of a proof that walks the code, which follow Rattle's own
MADE = re.compile(r": tie\.")
FACT = re.compile(r"^[A-Z]")


def files(root, ends):
    for folder, dirs, names in os.walk(os.path.join(root, "crates")):
        dirs[:] = sorted(d for d in dirs if d not in ("out", ".git"))
        for n in sorted(names):
            if n.endswith(ends):
                yield os.path.join(folder, n)


def read(path):
    with open(path, encoding="utf-8") as it:
        return it.read()


def snake(part):
    if FACT.match(part):
        return part
    return re.sub(r"(?<=[a-z0-9])([A-Z])", lambda m: "_" + m.group(1).lower(), part)


def declared(text, walk):
    """The names that a file declares: (name, whether a field)."""
    inside = False
    for line in text.split("\n"):
        m = HEAD.match(line)
        if m:
            inside = m.group(1)
            yield m.group(2), False
            continue
        if re.match(r"^\S", line):
            inside = False
        m = SIGNATURE.match(line)
        if m and not (walk and MADE.search(line)):
            for n in m.group(1).split():
                if n not in ("use", "module", "where", "let", "in", "unfolding"):
                    yield n, inside == "record"
        for n in LET.findall(line):
            yield n, False


def table(root):
    names, fields = set(), set()
    for path in files(root, ".antt"):
        walk = path.endswith("Proof.antt") or path.endswith("Answers.antt")
        for n, field in declared(read(path), walk):
            (fields if field else names).add(n)

    def today(n):
        parts = [snake(p) for p in n.split("-")]
        if "" in parts:
            return n
        out = parts[0]
        for a, b in zip(parts, parts[1:]):
            joins = FACT.match(a) or FACT.match(b)
            out += ("-" if joins else "_") + b
        return out

    turn = {n: today(n) for n in names if today(n) != n}
    # a definition keeps the name; a lemma of its name, with a dash or already respelled, gives way
    taken = {v for k, v in turn.items() if "-" not in k}
    for n in names:
        if ("-" in n and turn.get(n) in taken) or (n in taken and n not in turn):
            turn[n] = today(n) + "_lem"
    turn_fields = {n: today(n).replace("-", "_") for n in fields if today(n).replace("-", "_") != n}
    return turn, turn_fields


def respell(text, turn, turn_fields, aliases):
    """The text with its names turned: a name after a dot is a field, or a name behind an alias of a module of this repository."""
    out, last, at, before = [], 0, 0, ""
    for m in TOKEN.finditer(text):
        t = m.group()
        if t.startswith("--") or t.startswith("//"):
            new = re.sub("`([^`]*)`", lambda q: "`" + respell(q.group(1), turn, turn_fields, aliases) + "`", t) if "`" in t else t
        elif t[0] in "\"«":
            new = t
        elif text[m.start() - 1 : m.start()] == "." and m.start() and text[m.start() - 2 : m.start() - 1] not in ("", " "):
            owner = re.search("(" + W + r")\.$", text[: m.start()])
            owner = owner.group(1) if owner else ""
            if owner in aliases:
                new = turn.get(t, t)
            else:
                new = turn_fields.get(t, t)
        else:
            new = turn.get(t, turn_fields.get(t, t))
        out.append(text[last : m.start()] + new)
        last = m.end()
    return "".join(out) + text[last:]


def aliases_of(text):
    """Names under which a file cites modules of this repository's proofs and specs, but not those that Rattle makes."""
    out = set()
    for m in re.finditer(r"use Rattle\.(\S+)\.(" + W + r")(?: as (" + W + r"))?\s*;?$", text, re.M):
        if m.group(2) not in ("Tie", "Goals", "Given", "Statement", "Met"):
            out.add(m.group(3) or m.group(2))
    return out


def clashes(root, turn, turn_fields):
    for path in files(root, (".antt", ".rt")):
        text = read(path)
        tokens = {m.group() for m in TOKEN.finditer(text)}
        here = {}
        for t in tokens:
            new = turn.get(t, turn_fields.get(t, t))
            here.setdefault(new, set()).add(t)
        for new, olds in here.items():
            if len(olds) > 1:
                yield path, new, sorted(olds)


def main(argv):
    root = subprocess.run(["git", "rev-parse", "--show-toplevel"], capture_output=True, text=True, check=True).stdout.strip()
    turn, turn_fields = table(root)
    if "--list" in argv:
        for o, n in sorted(turn.items()):
            print(o, n)
        for o, n in sorted(turn_fields.items()):
            print("." + o, n)
        for path, new, olds in clashes(root, turn, turn_fields):
            print("together:", os.path.relpath(path, root), new, olds)
        return
    n = 0
    for path in files(root, (".antt", ".rt")):
        text = read(path)
        aliases = aliases_of(text)
        if path.endswith(".rt"):
            # clauses and ghost items alone: the code's own names stay
            new = respell_source(text, turn, turn_fields, aliases)
        else:
            new = respell(text, turn, turn_fields, aliases)
        if new != text:
            with open(path, "w", encoding="utf-8") as it:
                it.write(new)
            n += 1
    print(f"respell: {len(turn)} names, {len(turn_fields)} fields, {n} files")


CLAUSE = re.compile(r"(?:requires|ensures)(?: \w+)? \{|^ghost use [^;]*;", re.M)


def respell_source(text, turn, turn_fields, aliases):
    out, last = [], 0
    for m in CLAUSE.finditer(text):
        if m.start() < last:
            continue
        end = m.end()
        if not m.group().startswith("ghost"):
            depth = 1
            while depth:
                depth += {"{": 1, "}": -1}.get(text[end], 0)
                end += 1
        out.append(text[last : m.start()] + respell(text[m.start() : end], turn, turn_fields, aliases))
        last = end
    return "".join(out) + text[last:]


if __name__ == "__main__":
    main(sys.argv[1:])
