#!/usr/bin/env python3
"""Turns the proof frames of older Rattle (proofs/F/Proof.antt with `tie.close (tie.spec ..)`) into Invariants.antt and Answers.antt.

usage: python3 tools/turn_proofs.py CRATE [FUNCTION..]     in the repository; each crate below CRATE is proved

It asks `rt check --generated DIR --old-names` for each goal's old and new name. An answer that only says `search rules` goes; where the frame opens definitions for all its answers
each return keeps that line. In the new form every step is a field of `c`: the way back over `.before` goes, and a step gets its new name.
A Proof.antt that it can't read stays, and is told. What it writes need not check: `rt check` decides.
"""

import json
import os
import re
import shutil
import subprocess
import sys

ROOT = os.path.dirname(os.path.dirname(os.path.realpath(__file__)))
ID = r"[^\s(){}\[\].;,:@\"«»→∷λ]+"
RESERVED = "data record deriving module where use mod pub package open as unfoldable abbrev axiom unfold unfolding ruleset mutual infix infixl infixr elim let in do".split()


def generated(crate):
    to = f"/tmp/turn-proofs-{os.getpid()}"
    shutil.rmtree(to, ignore_errors=True)
    said = subprocess.run(["rt", "check", "--generated", to, "--old-names"], cwd=f"{ROOT}/crates/{crate}", capture_output=True, text=True)
    try:
        with open(f"{to}/names.json", encoding="utf-8") as f:
            return json.load(f)
    except OSError:
        sys.exit(said.stdout[-3000:] + said.stderr[-3000:])
    finally:
        shutil.rmtree(to, ignore_errors=True)


class Cant(Exception):
    pass


def clause_names(crate):
    """The names of the `ensures` of each function, by the function's last name."""
    out = {}
    for folder, _, files in os.walk(f"{ROOT}/crates/{crate}/src"):
        for f in files:
            with open(f"{folder}/{f}", encoding="utf-8") as it:
                for part in re.split(r"(?m)^\s*(?:pub(?:\([^)]*\))? )?(?:unsafe |extern \"C\" )*fn ", it.read())[1:]:
                    names = re.findall(r"(?m)^\s*ensures (\w+) \{", part)
                    if len(names) > 1:
                        out[re.match(r"\w+", part).group(0)] = names
    return out


EVERY = {}


def all_clauses():
    """The names of the `ensures` of each function of this repository, by its path."""
    if not EVERY:
        for crate in os.listdir(f"{ROOT}/crates"):
            for folder, _, files in os.walk(f"{ROOT}/crates/{crate}/src"):
                for f in files:
                    inner = os.path.relpath(f"{folder}/{f}", f"{ROOT}/crates/{crate}/src")[: -len(".rt")].replace("/mod", "").split("/")
                    path = [crate] + [i for i in inner if i not in ("lib", "main")]
                    with open(f"{folder}/{f}", encoding="utf-8") as it:
                        for part in re.split(r"(?m)^\s*(?:pub(?:\([^)]*\))? )?(?:unsafe |extern \"C\" )*fn ", it.read())[1:]:
                            names = re.findall(r"(?m)^\s*ensures (\w+) \{", part)
                            if len(names) > 1:
                                EVERY["::".join(path + [re.match(r"\w+", part).group(0)])] = names
        EVERY[""] = []
    return EVERY


def split_clauses(body, names):
    """The answers of clauses, from one of their product."""
    text, lets = body.strip(), ""
    while True:
        m = re.match(r"let\s", text)
        if not m:
            break
        depth, at = 0, 0
        while True:
            w = re.compile(r"\blet\b|\bin\b").search(text, at)
            if not w:
                return None
            depth += 1 if w.group(0) == "let" else -1
            at = w.end()
            if not depth:
                break
        lets += text[:at] + "\n    "
        text = text[at:].strip()
    if text.startswith("("):
        depth, parts, start = 0, [], 1
        for i, ch in enumerate(text):
            depth += ch in "([{"
            depth -= ch in ")]}"
            if depth == 1 and ch == ",":
                parts.append(text[start:i].strip())
                start = i + 1
            if depth == 0:
                if text[i + 1 :].strip():
                    parts = []
                else:
                    parts.append(text[start:i].strip())
                break
        parts = [p for p in parts if p]
        if len(parts) == len(names):
            return [lets + p for p in parts]
    if re.match(r"(rw|simp|search|omega|elim|cc|grind)\b", text):
        return None
    return [lets + f"({text}).{i}" for i in range(len(names))]


def arguments(text):
    """The arguments of a call as they stand: names, and texts in parentheses."""
    out, at = [], 0
    while at < len(text):
        if text[at].isspace():
            at += 1
        elif text.startswith("--", at):
            at = text.index("\n", at)
        elif text[at] == "(":
            depth, start = 0, at
            while True:
                depth += text[at] in "([{"
                depth -= text[at] in ")]}"
                at += 1
                if not depth:
                    break
            out.append(text[start:at])
        else:
            m = re.match(r"[^\s()]+", text[at:])
            out.append(m.group(0))
            at += m.end()
    return out


def blocks(text):
    """The declarations of a file, each with its comment."""
    out, lines, pending = [], [], []
    for line in text.split("\n"):
        if line.startswith("--") or not line.strip():
            pending.append(line)
        elif line[0].isspace() or line[0] in ")]}" or (lines and line.split()[0].rstrip(":") == name_of(lines[0])) or line.startswith("unfolding"):
            lines += [l for l in pending if l.strip()] if line[0].isspace() else []
            pending = []
            lines.append(line)
        else:
            if lines:
                out.append("\n".join(lines))
            comment = []
            for l in pending:
                comment = comment + [l] if l.strip() else comment
            lines, pending = [line], []
            notes.append((line, comment))
    if lines:
        out.append("\n".join(lines))
    return out


notes = []


def name_of(line):
    words = [w for w in line.split() if w not in ("pub", "abbrev", "unfoldable")]
    return words[0].rstrip(":") if words else ""


class Frame:
    def __init__(self, crate, path, names, text):
        self.clauses = clause_names(crate).get(path.split("/")[-1])
        self.crate, self.path, self.names, self.text = crate, path, names, text
        self.places = names["places"]
        self.index = {p[0]: i for i, p in enumerate(self.places)}
        self.arms = names["arms"]
        self.helpers = {}
        self.read()

    def read(self):
        notes.clear()
        self.uses = [b for b in re.findall(r"(?m)^use .*$", self.text)]
        body = re.sub(r"(?m)^use .*\n", "", self.text)
        self.head = re.match(r"(?:--.*\n)*", self.text).group(0)
        body = body[len(re.match(r"(?:--.*\n)*", body).group(0)) :]
        self.blocks = blocks(body)
        self.notes = {name_of(l): c for l, c in notes}
        self.decl = {}
        for b in self.blocks:
            self.decl[name_of(b)] = b
        spec = next((b for b in self.blocks if "tie.close" in b and "tie.spec" in b), None)
        self.cycle = False
        if not spec and self.path.split("/")[-1].startswith("+"):
            spec = next((b for b in self.blocks if "lts.spec" in b), None)
            self.cycle = bool(spec)
        if not spec:
            raise Cant("no tie.close (tie.spec ..)")
        self.spec_name = name_of(spec)
        opened = re.search(r"(?m)^unfolding (.*)$", spec)
        self.opened = opened.group(1).split() if opened else []
        head = "lts.spec" if self.cycle else "tie.spec"
        inside = spec[spec.index(head) + len(head) :].rstrip()
        depth = 0
        for i, ch in enumerate(inside):
            depth += ch in "([{"
            depth -= ch in ")]}"
            if depth < 0:
                inside = inside[:i]
                break
        args = arguments(inside)
        if self.cycle:
            args = args[3:]
        loops, needs = self.names["loops"], self.names["needs"]
        extra = len(args) - len(needs)
        if extra < 0 or (loops and extra not in (len(loops), 2 * len(loops))) or (not loops and extra):
            raise Cant(f"{len(args)} arguments for {len(loops)} loops and {len(needs)} goals")
        self.loop_args, self.need_args = args[:extra], args[extra:]

    # -- one declaration taken apart

    def part(self, arg):
        """Of an argument of tie.spec: the parameters, the body, what it opens, its comment, the name that it had."""
        m = re.match(r"\(λ ([^.]*)\.\s*(.*)\)$", arg, re.S)
        if m:
            return m.group(1).split(), m.group(2), self.opened, [], None
        if arg.startswith("("):
            raise Cant("an argument that is no λ: " + arg[:60])
        if arg not in self.decl:
            raise Cant("no declaration of " + arg)
        b = self.decl[arg]
        lines = b.split("\n")
        at = 1
        while at < len(lines) and not re.match(re.escape(arg) + r"\b", lines[at]) and not lines[at].startswith("unfolding"):
            at += 1
        opened = []
        if at < len(lines) and lines[at].startswith("unfolding"):
            opened = lines[at].split()[1:]
            at += 1
        if at >= len(lines):
            # abbrev on one line
            raise Cant("no body of " + arg)
        m = re.match(re.escape(arg) + r"((?:\s+(?!=)" + ID + r")*?)\s+=\s+(.*)$", "\n".join(lines[at:]), re.S)
        if not m:
            raise Cant("the body of " + arg)
        return m.group(1).split(), m.group(2), opened, self.notes.get(arg, []), arg

    # -- translation of a body

    def up(self, place, how):
        for _ in range(how):
            parent = self.places[place][1]
            if parent is None:
                return None
            place = self.index[parent]
        return place

    def nearest(self, place, first):
        """The place on the way to the goal that has the step, nearest to where the frame looked: a struct that is copied adds steps."""
        plain = lambda s: s.replace("-", "").replace("_", "").lower()
        way, at = [], self.asked
        while at is not None:
            way.append(at)
            parent = self.places[at][1]
            at = self.index[parent] if parent is not None else None
        way.reverse()
        depth = way.index(place) if place in way else 0
        fit = [i for i, p in enumerate(way) if p != 0 and plain(self.places[p][2][0]) == plain(first)]
        return way[min(fit, key=lambda i: abs(i - depth))] if fit else place

    def step(self, place, fields):
        """A field of a place: its text behind `c`, in the new names."""
        first, rest = fields[0], fields[1:]
        if first not in ("args", "pre", "requires", "ranges", "lifetimes", "well_formed"):
            plain = lambda s: s.replace("-", "").replace("_", "").lower()
            if plain(self.places[place][2][0] if self.places[place][2] else "") not in (plain(first), plain(first[:-4])):
                place = self.nearest(place, first)
        mine = self.places[place]
        old, new = mine[2] if mine[2] else ("", "")
        plain = lambda s: s.replace("-", "").replace("_", "").lower()
        # The binding of an arm.
        if first.endswith("_lem") and plain(old) == plain(first[:-4]):
            first = first[:-4]
        for arm in [self.arms[place]] + [a for i, a in enumerate(self.arms) if a and self.above(place, i)]:
            if not arm or plain(old) != plain(first):
                continue
            for label, step, way in arm[2]:
                if plain(step) == plain(first) and way and rest[: len(way)] == way:
                    return ".".join(["", arm[0], label] + rest[len(way) :])
        if plain(first) == plain(old):
            names = all_clauses().get(mine[3]) if mine[3] else None
            if names and rest == ["ensures"]:
                self.tuple = "(" + ", ".join(f"c.{new}.ensures.{n}" for n in names) + ")"
                return None
            if names and rest[:1] == ["ensures"] and len(rest) > 1 and rest[1].isdigit():
                rest = ["ensures", names[int(rest[1])]] + rest[2:]
            return ".".join(["", new] + rest)
        if place == 0 and first == "pre":
            return ".".join(["", "requires"] + rest)
        return ".".join(["", first] + rest)

    def above(self, place, other):
        """Whether the place stands on the way to the other."""
        while other is not None:
            if other == place:
                return True
            parent = self.places[other][1]
            other = self.index[parent] if parent is not None else None
        return False

    def translate(self, text, env):
        """Turns what the text says of places; env has the place of each name for one."""
        env = dict(env)
        out, at = [], 0
        token = re.compile(r"\blet\s+(" + ID + r")\s*=\s*|(?P<open>\((?=" + ID + r"\s))|(?<![\w.'«-])(" + ID + r")((?:\.(?:«[^»]*»|[\w'-]+))*)")
        while at < len(text):
            m = token.search(text, at)
            if not m:
                out.append(text[at:])
                break
            out.append(text[at : m.start()])
            if m.group(1):
                got = self.place_expression(text, m.end(), env)
                if got:
                    place, end = got
                    close = re.match(r"\s*in\b\s*", text[end:])
                    if close:
                        env[m.group(1)] = place
                        at = end + close.end()
                        continue
                env.pop(m.group(1), None)
                out.append(m.group(0))
                at = m.end()
                continue
            if m.group("open"):
                got = self.place_expression(text, m.start(), env)
                if not got:
                    out.append("(")
                    at = m.end()
                    continue
            got = self.chain(text, m.start(), env)
            if got:
                said, end = got
                if re.fullmatch(r"[\w.'«»-]+", said) and out and out[-1].endswith("(") and text[end : end + 1] == ")":
                    out[-1] = out[-1][:-1]
                    end += 1
                out.append(said)
                at = end
            else:
                out.append(m.group(0))
                at = m.end()
        # The test of a negation says now that what is negated is false, or true.
        said = re.sub(r"(c\.if-[\w-]+)\.taken\b", r"\1.true", "".join(out))
        said = re.sub(r"(c\.if-[\w-]+)\.left\b", r"\1.false", said)
        calls = {p[2][1] for p in self.places if p[2] and p[3]} | {p[2][1].split("-")[0] for p in self.places if p[2] and p[3]}
        return re.sub(
            r"not-(?:true|false) _ (c\.if-not-([\w-]+)\.(?:true|false))", lambda m: m.group(1) if m.group(2) in calls else m.group(0), said
        )

    def place_expression(self, text, at, env):
        """A place that stands at the text's place: NAME.before.., HELPER PLACE, or either in parentheses. Gives the place, and where it ends."""
        m = re.match(r"\(", text[at:])
        if m:
            got = self.place_expression(text, at + 1, env)
            if not got:
                return None
            place, end = got
            if text[end : end + 1] != ")":
                return None
            return self.more_before(place, text, end + 1)
        m = re.match(ID, text[at:])
        if not m:
            return None
        name = m.group(0)
        if name in self.helpers:
            space = re.match(r"\s+", text[at + m.end() :])
            if not space:
                return None
            got = self.place_expression(text, at + m.end() + space.end(), env)
            if not got:
                return None
            _, end = got
            return self.more_before(self.helpers[name], text, end)
        if name in env:
            return self.more_before(env[name], text, at + m.end())
        return None

    def more_before(self, place, text, at):
        while re.match(r"\.before(?![\w'-])", text[at:]):
            above = self.up(place, 1)
            place = place if above is None else above
            at += len(".before")
        if re.match(r"\.[\w«]", text[at:]):
            return None if False else (place, at)
        return place, at

    def chain(self, text, at, env):
        m = re.match(ID, text[at:])
        if m and m.group(0) in self.lemmas:
            space = re.match(r"\s+", text[at + m.end() :])
            got = space and self.place_expression(text, at + m.end() + space.end(), env)
            if got:
                self.needed(m.group(0))
                return m.group(0), got[1]
        if m and m.group(0) in self.values:
            space = re.match(r"\s+", text[at + m.end() :])
            got = space and self.place_expression(text, at + m.end() + space.end(), env)
            if got:
                param, place, body = self.values[m.group(0)]
                said = self.translate(body, {param: place}).strip()
                return (said if re.fullmatch(r"c[\w.'«»-]*", said) else f"({said})"), got[1]
        got = self.place_expression(text, at, env)
        if not got:
            return None
        place, end = got
        m = re.match(r"(?:\.(?:«[^»]*»|[\w'-]+))+", text[end:])
        if not m:
            return "c", end
        fields = [f for f in re.findall(r"«[^»]*»|[\w'-]+", m.group(0))]
        said = self.step(place, fields)
        return self.tuple if said is None else "c" + said, end + m.end()

    def needed(self, name):
        """A lemma of the file that speaks of a place: it becomes a `let` of each answer that uses it, since in the new form each goal has a record of its own."""
        if name in self.lets:
            return
        param, place, said, body, opened = self.lemmas[name]
        said, body = self.translate(said, {param: place}), self.translate(body, {param: place})
        self.lets[name] = f"let {name} : {said.strip()} =\n    {body.strip()} in"
        self.let_opened += [o for o in opened if o not in self.let_opened]

    def find_lemmas(self):
        self.lemmas, self.values = {}, {}
        for name, b in list(self.decl.items()):
            m = re.match(r"(?:abbrev )?(?:pub )?" + re.escape(name) + r" : tie\.([\w-]+) → (?!tie\.)[^\n]*\n" + re.escape(name) + r" (\w+) =\s+(.*)$", b, re.S)
            if m and not m.group(1).startswith(("Need", "invariant", "decreases")):
                self.values[name] = (m.group(2), self.place_named(m.group(1)), m.group(3))
        for name, b in list(self.decl.items()):
            m = re.match(r"(?:abbrev )?(?:pub )?" + re.escape(name) + r" : \((\w+) : tie\.([\w-]+)\) → (.*?)\n(?:unfolding ([^\n]*)\n)?" + re.escape(name) + r" (\w+) =\s+(.*)$", b, re.S)
            if m:
                self.lemmas[name] = (m.group(1), self.place_named(m.group(2)), m.group(3), m.group(6), (m.group(4) or "").split())
                if m.group(5) != m.group(1):
                    raise Cant("the parameter of " + name)

    # -- the two files

    def find_helpers(self):
        for name, b in list(self.decl.items()):
            m = re.match(r"(?:abbrev )?(?:pub )?" + re.escape(name) + r" : tie\.([\w-]+) → tie\.([\w-]+)\s*$", b.split("\n")[0])
            if m:
                self.helpers[name] = self.place_named(m.group(2))

    def place_named(self, word):
        plain = lambda s: s.replace("-", "").replace("_", "").lower()
        for i, p in enumerate(self.places):
            if p[0] == word:
                return i
        for i, p in enumerate(self.places):
            if plain(p[0]) == plain(word):
                return i
        raise Cant("no place " + word)

    def write(self):
        self.find_helpers()
        self.find_lemmas()
        folder = f"{ROOT}/crates/{self.crate}/proofs/{self.path}"
        dotted = self.path.replace("/", ".")
        used = {self.spec_name} | set(self.helpers) | set(self.lemmas) | set(self.values)
        answers, invariants = [], []
        loops = self.names["loops"]
        measured = len(self.loop_args) == 2 * len(loops)
        for i, arg in enumerate(self.loop_args):
            loop = loops[i % len(loops)] if not measured else loops[i // 2] if self.pairs() else loops[i % len(loops)]
            is_invariant = (i % 2 == 0) if self.pairs() else i < len(loops)
            params, body, opened, note, name = self.part(arg)
            used.add(name)
            word = "invariant" if is_invariant else "decreases"
            invariants.append(self.loop(word, loop, params, body, note))
        kept = []
        for (old, new), arg, asked in zip(self.names["needs"], self.need_args, self.names["asked_at"]):
            params, body, opened, note, name = self.part(arg)
            used.add(name)
            if re.fullmatch(r"\s*search rules\s*", body) and not (opened and new.startswith("returns")):
                continue
            place = self.index[asked[0]]
            env = {params[0]: place} if params else {}
            self.lets, self.let_opened, self.asked = {}, [], place
            said = self.translate(body, env)
            if self.lets:
                said = "\n    ".join(self.lets.values()) + "\n    " + said.strip()
                opened = opened + [o for o in self.let_opened if o not in opened]
            parts = new.startswith("returns") and self.clauses and split_clauses(said, self.clauses)
            if parts:
                kept += [(f"{new}-clause-{n}", opened, p, note if i == 0 else []) for i, (n, p) in enumerate(zip(self.clauses, parts))]
                continue
            kept.append((new, opened, said, note))
        # What else the file declares, and the answers use.
        for name, b in self.decl.items():
            if name not in used:
                answers.append("\n".join(self.notes.get(name, [])[-3:] + [self.helper(b)]))
        for new, opened, said, note in kept:
            lines = list(note[-3:]) + [f"pub {new} : goal.{new}"]
            if opened:
                lines.append("unfolding " + " ".join(opened))
            new = f"{new} t" if self.cycle else new
            lines.append(f"{new} c = {said}" if "\n" not in said else f"{new} c =\n    {said.strip()}")
            answers.append("\n".join(lines))
        uses = [u for u in self.uses if not re.search(r"\.(Statement|Tie)\b", u)]
        if self.cycle:
            uses = [u for u in uses if not re.search(r"borrow\.Fn\.|\.(Reads|Kinds|Lts-\w+|\{statement\}|Tie\.\{close\}) ?(as|$)|\.\{statement\}", u)]
            answers = [a for a in answers if not re.search(r"(?m)^(abbrev |pub )*(μ|at-t|below)\b", a)]
            function = self.path.split("/")[-1][1:]
            way = re.search(r"(?m)^μ κs a = a((?:\.1)*)\.0", self.text)
            measured = next(v for k, v in self.names["params"].items() if k.split("::")[-1] == function)[way.group(1).count("1")]
            invariants.append(f"abbrev pub decreases-{function} : goal.decreases-{function}\ndecreases-{function} l = l.{measured}")
        made = []
        if invariants:
            text = self.head + "\n".join(uses) + f"\nuse Rattle.{self.crate}.proofs.{dotted}.Given as goal\n\n" + "\n\n".join(invariants) + "\n"
            made.append(("Invariants.antt", text))
        if answers:
            text = self.head + "\n".join(uses) + f"\nuse Rattle.{self.crate}.proofs.{dotted}.Goals as goal\n\n" + "\n\n".join(answers) + "\n"
            made.append(("Answers.antt", text))
        os.remove(f"{folder}/Proof.antt")
        for name, text in made:
            with open(f"{folder}/{name}", "w", encoding="utf-8") as f:
                f.write(text)
        return [n for n, _ in made]

    def helper(self, b):
        """A lemma of the file whose argument is a place: in the new form it takes the record of that place under its new name."""

        def one(m):
            i = self.place_named(m.group(1))
            return "goal." + self.names["places_by_name"][i] if i < len(self.names["places_by_name"]) else "goal." + self.places[i][0]

        m = re.search(r"\((\w+) : tie\.([\w-]+)\)", b)
        self.asked = self.place_named(m.group(2)) if m else 0
        env = {m.group(1): self.place_named(m.group(2))} if m else {}
        out = self.translate(b, env) if env else b
        return re.sub(r"tie\.((?:Start|Then|Else|After|In|At)[\w-]*)", one, out)

    def pairs(self):
        """Whether invariants and measures stand by turns."""
        return len(self.loop_args) == 2 * len(self.names["loops"]) and len(self.loop_args) > 2 and "decreases" in self.loop_args[1]

    def loop(self, word, loop, params, body, note):
        (old, new), variables = loop
        changed = self.names["changed"][self.names["loops"].index(loop)] if self.names["changed"] else [False] * len(variables)
        names = []
        for v, c in zip(variables, changed):
            names.append(f"l.initial.{v}" if c else f"l.{v}")
        names += [f"l.{v}" for v, c in zip(variables, changed) if c]
        if len(params) != len(names):
            raise Cant(f"the loop {old} has {len(params)} parameters, not {len(names)}")
        for p, n in zip(params, names):
            body = re.sub(r"(?<![\w.'«-])" + re.escape(p) + r"(?![\w'₀₁₂-])", n, body)
        lines = list(note[-3:]) + [f"abbrev pub {word}-{new} : goal.{word}-{new}"]
        lines.append(f"{word}-{new} l = {body}" if "\n" not in body else f"{word}-{new} l =\n    {body.strip()}")
        return "\n".join(lines)


def main():
    crate, only = sys.argv[1], sys.argv[2:]
    names = generated(crate)
    top = f"{ROOT}/crates/{crate}/proofs"
    for folder, _, files in sorted(os.walk(top)):
        if "Proof.antt" not in files:
            continue
        path = os.path.relpath(folder, top)
        if only and path not in only and path.split("/")[-1] not in only:
            continue
        key = f"Rattle-{crate}-proofs." + path.replace("/", ".") + ".Lts"
        if path.split("/")[-1].startswith("+"):
            key += "-" + path.split("/")[-1][1:]
        with open(f"{folder}/Proof.antt", encoding="utf-8") as f:
            text = f.read()
        try:
            if key not in names:
                raise Cant("names.json says nothing of it")
            made = Frame(crate, path, names[key], text).write()
            print(f"{path}: {', '.join(made) or 'no file'}")
            if not made:
                os.rmdir(folder)
        except Cant as e:
            print(f"left: {path}: {e}")


if __name__ == "__main__":
    main()
