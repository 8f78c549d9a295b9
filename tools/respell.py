#!/usr/bin/env python3
"""Brings this repository's own definitions, lemmas, fields and local names to one spelling: words in snake case, types in
camel case. Names that Rattle makes (goals and what they hold), names of its library, functions of src/, strings and prose keep
their spelling; in a comment only a name in backquotes turns.

usage: python3 tools/respell.py [--check] [FOLDER]     FOLDER is the repository's top, by default this one

--check writes nothing and prints the table of names and those that fall together. A second run changes nothing.
"""

import collections
import os
import re
import sys

WORD = re.compile(r'[^\s(){}.;,@"«»\[\]|`]+')
QUIET = re.compile(r'"(?:[^"\\\n]|\\.)*"|(?<![^\s(){}.;,@"«»])--[^\n]*')
QUIET_RT = re.compile(r'"(?:[^"\\\n]|\\.)*"|//[^\n]*')
SPAN = re.compile(r"`[^`\n]+`")
IMPORT = re.compile(r"use\s+(Rattle\.(\w+)[\w.+']*)(?:\.\{([^}]*)\}| as (\S+))", re.S)
# a name that would fall together with a function of src/ in a file that has both
OTHER = {
    "arrive-by": "arriving_by",
    "event-in": "event_among",
    "getD-last": "get_or_last",
    "getD-same": "get_or_same",
    "has-ticket": "ticket_listed",
    "in-limits": "within_limits",
    "in-range": "within_range",
    "kept-count": "count_kept",
    "leads-on": "leading_on",
    "may-follow": "may_stand_after",
    "next-ticket": "ticket_after",
    "of-first-trip": "hops_of_first_trip",
    "scan-refusal": "refusal_of_scan",
    "network-fault": "fault_of_network",
    "on-foot": "came_on_foot",
    "origin-label": "label_at_origin",
    "outruns-at": "outrunning_at",
    "overtakes-by": "overtaking_by",
    "paths-fault": "fault_of_paths",
    "pick-one": "picking_one",
    "question-fault": "fault_of_question",
    "ride-label": "label_by_ride",
    "room-fault": "fault_of_room",
    "stop-at": "stop_numbered",
    "stops-fault": "fault_of_stops",
    "walk-label": "label_by_walk",
    "with-bit": "bit_set_in",
    "zone-bit": "bit_of_zone",
    "zone-set": "set_of_zone",
}


def snake(name):
    if name in OTHER:
        return OTHER[name]
    if name[0].isupper():
        return "".join(p[:1].upper() + p[1:] for p in name.split("-"))
    return name.replace("-", "_")


def is_dashed(word):
    return re.fullmatch(r"[^\W\d_][\w'∞]*(-[\w'∞]+)+", word) is not None


def files(root):
    for folder, dirs, names in os.walk(os.path.join(root, "crates")):
        dirs[:] = sorted(d for d in dirs if d != "out")
        for n in sorted(names):
            if n.endswith((".antt", ".rt")):
                yield os.path.join(folder, n)


def parts(path, text):
    """(is quiet, text) in turn: comments and strings are quiet."""
    at = 0
    for m in (QUIET_RT if path.endswith(".rt") else QUIET).finditer(text):
        yield False, text[at : m.start()]
        yield True, m[0]
        at = m.end()
    yield False, text[at:]


def code(path, text):
    return "".join(" " if quiet else t for quiet, t in parts(path, text))


def is_lemma_file(root, path):
    inner = os.path.relpath(path, os.path.join(root, "crates")).split(os.sep)
    return path.endswith(".antt") and len(inner) == 3


def collect(root, own):
    texts = {p: open(p, encoding="utf-8").read() for p in files(root)}
    library, names, local, made = set(), set(), set(), set()
    for p, t in texts.items():
        c = code(p, t)
        for m in IMPORT.finditer(c):
            if m[2] not in own and m[3]:
                library |= {w.split(" as ")[0].strip() for w in m[3].split(",")}
        if is_lemma_file(root, p):
            names |= {w for w in WORD.findall(c) if is_dashed(w)}
        elif p.endswith(".rt"):
            for m in re.finditer(r"ghost use ([^;]*);", c):
                names |= {w for w in WORD.findall(m[1]) if is_dashed(w)}
        else:
            for m in re.finditer(r"(?:let|λ|\|)((?:\s+[^\s:=.(){}]+)+)\s*(?:[:=.]|↦)", c):
                local |= {w for w in m[1].split() if is_dashed(w)}
            for m in re.finditer(r"(?m)^(?:pub )?([^\s(]+) :(?! goal\.| given\.)", c):
                local |= {m[1]} if is_dashed(m[1]) else set()
            made |= set(re.findall(r"(?m)^(?:abbrev )?(?:pub )?([^\s:]+) : (?:goal|given)\.", c))
            made |= {w for w in re.findall(r"(?<![\w.])[cgl]\.([^\s(){}.;,]+)", c) if is_dashed(w)}
    return texts, {n: snake(n) for n in (names | local - made) - library}, library, made


def fields(root, texts, table):
    """Names that may stand behind a dot: fields of records of this repository."""
    found = set()
    for p, t in texts.items():
        if not is_lemma_file(root, p):
            continue
        inside = False
        for line in code(p, t).split("\n"):
            if re.match(r"\s*(pub )?record ", line):
                inside = True
            elif inside and re.match(r"  ", line):
                m = re.match(r"\s+(?:pub )?(\S+) :", line)
                if m and m[1] in table:
                    found.add(m[1])
            elif line.strip():
                inside = False
    return found


def turn(text, table, at_dot):
    def one(m):
        w = m[0]
        if w not in table:
            return w
        if m.start() and text[m.start() - 1] == "." and m.start() > 1 and not text[m.start() - 2].isspace() and w not in at_dot:
            return w
        return table[w]

    return WORD.sub(one, text)


def respell(path, text, table, at_dot):
    out = []
    for quiet, t in parts(path, text):
        if not quiet:
            out.append(turn(t, table, at_dot))
        elif t.startswith(("--", "//")):
            out.append(SPAN.sub(lambda m: turn(m[0], table, at_dot), t))
        else:
            out.append(t)
    return "".join(out)


def together(root, texts, table):
    """Names that would meet another one in some file."""
    said = collections.defaultdict(set)
    for p, t in texts.items():
        words = set(WORD.findall(code(p, t)))
        for w in words:
            if w in table and table[w] in words:
                said[(w, table[w])].add(os.path.relpath(p, root))
    new = collections.defaultdict(set)
    for a, b in table.items():
        new[b].add(a)
    return said, {b: a for b, a in new.items() if len(a) > 1}


def main(argv):
    check = "--check" in argv
    argv = [a for a in argv if a != "--check"]
    root = os.path.abspath(argv[0] if argv else os.path.join(os.path.dirname(__file__), ".."))
    own = set(os.listdir(os.path.join(root, "crates")))
    texts, table, library, made = collect(root, own)
    at_dot = fields(root, texts, table)
    said, twice = together(root, texts, table)
    if check:
        for a in sorted(table):
            print(a, table[a], "field" if a in at_dot else "")
        print("also made by Rattle, or of its library:", sorted(w for w in library | made if is_dashed(w)))
        for (a, b), where in sorted(said.items()):
            print("together:", a, b, *sorted(where))
        for b, a in sorted(twice.items()):
            print("twice:", b, *sorted(a))
        return 0
    for p, t in texts.items():
        new = respell(p, t, table, at_dot)
        if new != t:
            with open(p, "w", encoding="utf-8") as f:
                f.write(new)
    return 0


if __name__ == "__main__":
    raise SystemExit(main(sys.argv[1:]))
