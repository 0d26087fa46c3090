#!/usr/bin/env python3
"""Gives the repository's own definitions and lemmas today's spelling: words in snake case, types and modules in camel case.

usage: tools/respell.py [--dry]      at the top of the repository, once, after the kit's own script for older repositories

A name that specs/ or a lemma file of proofs/ defines loses its capitals inside and its dashes: `blockCount` becomes `block_count`, `lies-apart`
becomes `lies_apart`, `NO-OPERATION` becomes `NO_OPERATION`. Types keep their form. Uses follow: in the proof files, in the clauses and imports of the
sources, in the must-fail edits, and in the pages where the name stands in backquotes. Functions of src/, strings, inputs and outputs keep theirs.
With --dry it prints the new names, and those that fall together.
"""

import copy
import os
import re
import subprocess
import sys

LEFT, RIGHT = r"(?<![\w'′-])", r"(?![\w'′-])"
# Laws that would get their function's name end in `_lem`. These were brought to snake case before, by the kit's script.
LAWS = ("map_of", "record_of", "unit_left", "went_on", "passed_on")
# The kit's script gave these today's spelling in crates/, and not in the pages.
TURNED = """afterCall allBelow answerOf blockAt blocksFrom callAt callOf carriedOf codeAt endOf firstOf firstOr formatOf headOf kindOf lastAt leftAt
leftOf mapPlace markOf moveOf nameOf numberIn numberOf oneOf pieceAt placeIn placeOf readLog resultAt resultBy resultOf roomAt rowIn rowOf runOf
stateOf tableAt testedOf unitOf upTo valueOf writtenBy readOnly""".split()
# Here a field of that name is meant, and stays.
FIELDS_OF = ("crates/model/proofs/Reached.antt",)


def files(ending):
    listed = subprocess.run(["git", "ls-files", "-z"], capture_output=True, text=True, check=True).stdout
    return [f for f in listed.split("\0") if f.endswith(ending) and os.path.isfile(f) and f != "docs/PORT.md"]


def read(path):
    with open(path, encoding="utf-8") as f:
        return f.read()


def is_definition_file(path):
    return re.match(r"crates/[^/]+/(specs/.*|proofs/[^/]+)\.antt$", path) is not None


def defined():
    """The names that definition and lemma files define: top-level ones, those in modules with parameters, and fields of records."""
    tops, fields = set(), set()
    for path in files(".antt"):
        if not is_definition_file(path):
            continue
        record = False
        for line in read(path).splitlines():
            if re.match(r"(pub )?(record|data) ", line):
                record = True
            elif line and not line.startswith(" "):
                record = False
            m = re.match(r"(\s*)(?:(?:abbrev|unfoldable|pub) )*([^\s:(){}.,;]+) :( |$)", line)
            if m and m.group(2) not in ("use", "mod", "let", "in"):
                if record:
                    fields.add(m.group(2))
                else:
                    tops.add(m.group(2))
    return tops, fields


def respelled(name):
    if name in LAWS:
        return name + "_lem"
    if re.match(r"[A-Z][a-z]", name) or not re.search(r"[A-Za-z]", name) or "◌" in name:
        return name
    new = name.replace("-", "_").replace("′", "'")
    if not re.fullmatch(r"[A-Z0-9_]+", new):
        new = re.sub(r"(?<=[a-z0-9])([A-Z])", lambda m: "_" + m.group(1).lower(), new)
        new = new[0].lower() + new[1:]
    return new


def pattern(names):
    return re.compile(LEFT + "(" + "|".join(re.escape(n) for n in sorted(names, key=len, reverse=True)) + ")" + RIGHT)


class Turn:
    def __init__(self):
        tops, fields = defined()
        functions = {respelled(n) for n in tops | fields if re.match(r"[a-z][A-Za-z0-9]*$", n)} | {n for n in tops if "_" in n and n not in LAWS}
        self.names = {n: respelled(n) for n in tops | fields if respelled(n) != n}
        for n, new in self.names.items():
            if "-" in n and new in functions:
                self.names[n] = new + "_lem"
        self.names |= {n: respelled(n) for n in TURNED if n not in tops | fields}
        self.fields = {n for n in fields if n in self.names}
        self.all = tops | fields
        self.every = pattern(self.names)
        self.small = pattern([n for n in self.names if not re.fullmatch(r"[A-Z0-9-]+", n)])

    def put(self, m):
        # Behind a dot only a record's field is meant, or a name of a module: those that the kit makes have other names.
        before = m.string[m.start() - 1 : m.start()]
        if before == "." and m.group(1) not in self.fields and not re.search(r"[A-Z][\w]*\.$", m.string[: m.start()]):
            return m.group(1)
        return self.names[m.group(1)]

    def code(self, text):
        return self.every.sub(self.put, text)

    def words(self, text):
        return self.small.sub(self.put, text)

    def antt(self, text):
        out = []
        for line in text.split("\n"):
            code, mark, comment = line.partition("--") if re.match(r"\s*--", line) or "  -- " in line else (line, "", "")
            out.append(self.code(code) + mark + self.words(comment))
        return "\n".join(out)

    def source(self, text):
        """A .rt file: its imports of definitions and its clauses; in comments what stands in backquotes. It names no law."""
        self = copy.copy(self)
        self.names = {n: new for n, new in self.names.items() if n not in LAWS} | {n: n for n in LAWS}
        text = re.sub(r"ghost use [^;]*;", lambda m: self.code(m.group(0)), text)
        out, depth = [], 0
        for line in text.split("\n"):
            if re.match(r"\s*//", line):
                out.append(self.quoted(line))
                continue
            if depth or re.match(r"\s*(requires|ensures|ghost)\b.*\{", line):
                line = self.code(line)
                depth += line.count("{") - line.count("}")
            out.append(line)
        return "\n".join(out)

    def quoted(self, text):
        return re.sub(r"`[^`\n]+`", lambda m: self.words(m.group(0)), text)

    def edit(self, text):
        out, spec = [], False
        for line in text.split("\n"):
            if line.startswith("file:"):
                spec = line.endswith(".antt")
            if line.startswith("law:") or (spec and re.match(r"old:|new:", line)):
                line = self.code(line)
            elif line.startswith("#"):
                line = self.quoted(line)
            out.append(line)
        return "\n".join(out)


def main(argv):
    turn = Turn()
    if "--dry" in argv:
        taken = {}
        for old, new in sorted(turn.names.items()):
            if new in turn.all or new in taken:
                print(f"falls together: {old} and {taken.get(new, new)} would be {new}")
            taken[new] = old
        there = pattern(set(turn.names.values()))
        for path in files(".antt"):
            for found in sorted(set(there.findall(read(path)))):
                print(f"stands there: {found} in {path}")
        print(len(turn.names), "names")
        return
    for path in files(""):
        if path.endswith(".antt"):
            turned = turn.antt
        elif path.endswith(".rt"):
            turned = turn.source
        elif path.endswith(".edit"):
            turned = turn.edit
        elif path.endswith(".md"):
            turned = turn.quoted
        else:
            continue
        old = read(path)
        new = turned(old.replace("went_on", "went-on")).replace("went-on", "went_on") if path in FIELDS_OF else turned(old)
        if new != old:
            with open(path, "w", encoding="utf-8") as f:
                f.write(new)


main(sys.argv[1:])
