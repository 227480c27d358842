#!/usr/bin/env python3
"""Spells this repository's own definitions and lemmas as today's Rattle does: words in snake case, types and modules in camel case.

usage: python3 tools/respell.py            in the repository, once, after the kit's port.py
       python3 tools/respell.py --table    prints the table of names alone

A name is taken from the declarations of specs/ and of proofs/*.antt; names of functions' own proof files stay, since those files name goals.
A dash stays where it joins two names (a definition's and another's), and else becomes an underscore.
Turned: code and comments of .antt, clauses, ghost items and comments of .rt, the lines of must-fail edits, and code spans of docs/*.md and README.md.
Words of src/, exported names, strings, inputs and outputs stay. A name that would meet another of the repository's is told, and stays.
"""

import glob
import os
import re
import sys

WORD = re.compile(r'[^\s(){}.;,@"«»`]+')
DECLARED = re.compile(
    r"\s*((?:(?:abbrev|unfoldable|record|data|pub|ruleset)\s+)*)([^\s:(){},.;]+)\s*(?:\{[^}]*\}\s*|\([^)]*\)\s*)*:(?!=)"
)
LIBRARY = set(
    """length take drop append map set sets get_or cond eqb ltb leb suc zero add sub mul div mod min max reverse concat sum
    IsTrue not and or true false All Contains""".split()
)
# Names that would be those of a field or a variable of src/.
BY_HAND = {
    "invitationLeast": "least_invitation",
    "invitationGreatest": "greatest_invitation",
    "joiningGreatest": "greatest_joining",
    "joiningLeast": "least_joining",
    "noneSet": "nothing_set",
    "noneRuns": "nothing_runs",
    # The label of a record is spelled so.
    "noChannel": "no_channel_entry",
}
# Lemmas that have the name which a definition gets: a lemma that would have its function's name ends in _lem.
LEMMAS = """half_count one_more first_alone no_number out_of_range too_long not_written call_from no_call read_as both_true step_by
    none_runs term_runs runs_on same_bool""".split()

# The labels of this repository's records.
LABELS = set()


def files(*patterns):
    return sorted(f for p in patterns for f in glob.glob(p, recursive=True))


def snake(part):
    return re.sub(r"(?<=[a-z0-9])(?=[A-Z])", "_", part).lower() if re.match("[a-z]", part) else part


def declared():
    """Each name of specs/ and of proofs/*.antt, and whether it is a definition."""
    names = {}
    for f in files("crates/*/specs/**/*.antt", "crates/*/proofs/*.antt"):
        for line in open(f, encoding="utf-8"):
            m = DECLARED.match(line)
            if m and re.match(r"[A-Za-z]", m.group(2)):
                if line.startswith(" "):
                    LABELS.add(m.group(2))
                definition = bool(re.search("abbrev|unfoldable|record|data", m.group(1))) or "/specs/" in f
                names[m.group(2)] = names.get(m.group(2), False) or definition
    return names


def joined(parts, names):
    out = parts[0]
    for left, right in zip(parts, parts[1:]):
        held = re.match("[A-Z]", left) or (left in names and right in names)
        out += ("-" if held else "_") + right
    return out


def table():
    names = declared()
    nouns = {snake(n) for n, definition in names.items() if definition and "-" not in n} | LIBRARY
    new = {n: n + "_lem" for n in LEMMAS}
    for n in names:
        if n in BY_HAND:
            new[n] = BY_HAND[n]
        elif re.match("[a-z]", n) and n not in new:
            to = joined([snake(p) for p in n.split("-")], nouns)
            if to != n:
                new[n] = to
    taken = (set(names) - set(new)) | {to for n, to in new.items() if names.get(n)}
    for n, to in sorted(new.items()):
        if not names.get(n) and to in taken:
            new[n] = to = to + "_lem"
            if to in taken:
                sys.exit(f"{n} would meet {to}")
        taken.add(to)
    twice = {to for to in new.values() if list(new.values()).count(to) > 1}
    if twice:
        sys.exit(f"these names fall together: {sorted(twice)}")
    return new


def turned(text, new, goals=False):
    def one(m):
        word = m.group(0)
        # Behind a dot stands a module, a label of a record, or in a function's proof file a name that Rattle made.
        if text[m.start() - 1 : m.start()] == "." and (word in LEMMAS or goals and "-" in word and word not in LABELS):
            return word
        return new.get(word, word)

    return WORD.sub(one, text)


def outside(text, new, goals=False):
    """Turns all but quoted text."""
    parts = re.split(r'("(?:[^"\\\n]|\\.)*")', text)
    return "".join(p if i % 2 else turned(p, new, goals) for i, p in enumerate(parts))


def rust(text, new):
    """Turns the clauses, the ghost items and the comments of a .rt file: a name with a capital inside is never Rust's; others turn in ghost lines alone."""
    inner = {n: to for n, to in new.items() if re.search("[a-z0-9][A-Z]", n)}
    out, depth = [], 0
    for line in text.split("\n"):
        starts = re.match(r"\s*(ghost|requires|ensures)\b", line) or depth > 0
        if starts:
            code = re.sub(r'"(?:[^"\\]|\\.)*"', "", line)
            depth = max(0, depth + code.count("{") - code.count("}"))
        out.append(outside(line, new if starts else inner))
    return "\n".join(out)


def edit(text, new):
    out, kind = [], "antt"
    for line in text.split("\n"):
        if line.startswith("file:"):
            kind = line.rsplit(".", 1)[-1].strip()
        body = re.match(r"(old:|new:)(.*)$", line)
        if body:
            line = body.group(1) + (rust(body.group(2), new) if kind == "rt" else outside(body.group(2), new))
        elif line.startswith("# fact:"):
            line = turned(line, new)
        out.append(line)
    return "\n".join(out)


def spans(text, new):
    return re.sub(r"`[^`\n]+`", lambda m: "`" + turned(m.group(0)[1:-1], new) + "`", text)


def main():
    new = table()
    if "--table" in sys.argv:
        print("\n".join(f"{n}\t{to}" for n, to in sorted(new.items())))
        return
    for pattern, turn in (
        ("crates/*/specs/**/*.antt", lambda t: outside(t, new)),
        ("crates/*/proofs/*.antt", lambda t: outside(t, new)),
        ("crates/*/proofs/*/**/*.antt", lambda t: outside(t, new, True)),
        ("crates/*/src/**/*.rt", lambda t: rust(t, new)),
        ("crates/*/must-fail/*.edit", lambda t: edit(t, new)),
        ("docs/*.md", lambda t: spans(t, new)),
        ("README.md", lambda t: spans(t, new)),
        ("tools/*.md", lambda t: spans(t, new)),
    ):
        for f in files(pattern):
            with open(f, encoding="utf-8") as it:
                old = it.read()
            text = turn(old)
            if text != old:
                with open(f, "w", encoding="utf-8") as it:
                    it.write(text)


if __name__ == "__main__":
    os.chdir(os.path.join(os.path.dirname(os.path.realpath(__file__)), ".."))
    main()
