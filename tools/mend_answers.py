#!/usr/bin/env python3
"""Mends what `rt check` refuses in answers that tools/turn_proofs.py wrote, as far as that goes by rule, and checks again.

usage: python3 tools/mend_answers.py CRATE [ROUNDS]

Rules: a projection that the value no longer has goes; a label of the old form gets the one that the message offers alone; an answer that is refused otherwise is set aside (to
/tmp/aside/CRATE/..), so that the check tries the goal by itself. What is left is printed.
"""

import os
import re
import subprocess
import sys

ROOT = os.path.dirname(os.path.dirname(os.path.realpath(__file__)))
ERROR = re.compile(r"^\./(proofs/\S+/(?:Answers|Invariants)\.antt):(\d+):(\d+): error: (.*(?:\n  .*)*)", re.M)


def check(crate):
    said = subprocess.run(["timeout", "900", "rt", "check"], cwd=f"{ROOT}/crates/{crate}", capture_output=True, text=True)
    return said.stdout + said.stderr


def declaration(lines, number):
    """The first and last line of the declaration that has the line."""
    start = number - 1
    while start > 0 and not re.match(r"(pub|abbrev) ", lines[start]):
        start -= 1
    end = number
    while end < len(lines) and not re.match(r"(pub|abbrev) |--", lines[end]):
        end += 1
    return start, end


def one(crate, path, number, column, why):
    file = f"{ROOT}/crates/{crate}/{path}"
    with open(file, encoding="utf-8") as f:
        text = f.read()
    lines = text.split("\n")
    if number > len(lines):
        return None
    line = lines[number - 1]
    m = re.search(r"`\.(\w+)` projects from a `×` type or a record, but this has type", why)
    if m:
        at = [i for i in (column - 1, column - 2, column) if line[i : i + 1 + len(m.group(1))] == "." + m.group(1)]
        if at:
            lines[number - 1] = line[: at[0]] + line[at[0] + 1 + len(m.group(1)) :]
            open(file, "w", encoding="utf-8").write("\n".join(lines))
            return "dropped ." + m.group(1)
    m = re.search(r"has type `[^`]*\(?mathlib\.Core\.Bool\.not [^`]*` *$|has type `\S*◌≡◌ \(mathlib\.Core\.Bool\.not .*` *$", why, re.M)
    if m:
        for i in range(max(0, column - 3), column + 3):
            n = re.match(r"\((c\.if-not-[\w-]+\.(true|false))\)|(c\.if-not-[\w-]+\.(true|false))", line[i:])
            if n and line[i - 8 : i] != "not-true" and (i == 0 or not re.match(r"[\w.]", line[i - 1])):
                fact = n.group(1) or n.group(3)
                if line[i - 1] == "(" and n.group(3) and line[i + len(fact)] == ")":
                    new = f"not-{fact.split('.')[-1]} _ {fact}"
                else:
                    new = f"(not-{fact.split('.')[-1]} _ {fact})"
                lines[number - 1] = line[:i] + new + line[i + len(n.group(0)) :]
                open(file, "w", encoding="utf-8").write("\n".join(lines))
                return "not-" + fact
    if re.search(r"the two types first differ where one has `\(mathlib\.Core\.Bool\.not [^`]*`\s+\(expected\)", why):
        start, end = declaration(lines, number)
        for at in range(number - 1, end):
            n = re.search(r"(?<!ap not )c\.if-not-[\w-]+\.(?:true|false)", lines[at])
            if n:
                lines[at] = lines[at][: n.start()] + f"(ap not {n.group(0)})" + lines[at][n.end() :]
                break
        if n:
            uses = [i for i, l in enumerate(lines) if l.startswith("use ")]
            lines[uses[0] : uses[0]] = ["use mathlib.Core.Bool.{not}", "use mathlib.Core.Path.{ap}"]
            open(file, "w", encoding="utf-8").write("\n".join(lines))
            return "ap not"
    m = re.search(r"has no field `([\w-]+)`.*write `(\.[^`]+)` in place of `(\.[^`]+)`", why, re.S)
    if m:
        for i in range(max(0, column - 2 - len(m.group(3))), column + 2):
            if line.startswith(m.group(3), i) and not re.match(r"[\w-]", line[i + len(m.group(3)) :]):
                lines[number - 1] = line[:i] + m.group(2) + line[i + len(m.group(3)) :]
                open(file, "w", encoding="utf-8").write("\n".join(lines))
                return f"{m.group(3)} -> {m.group(2)}"
    m = re.search(r"has no field `([\w-]+)`\n  the fields that can be named here are `([\w-]+)`$", why)
    if m:
        for i in range(max(0, column - 12 - len(m.group(1))), column + 2):
            if re.match(r"\." + re.escape(m.group(1)) + r"(?![\w-])", line[i:]):
                lines[number - 1] = line[:i] + "." + m.group(2) + line[i + 1 + len(m.group(1)) :]
                open(file, "w", encoding="utf-8").write("\n".join(lines))
                return f".{m.group(1)} -> .{m.group(2)}"
    m = re.search(r"has no field `(\d+)`\s+(?:— )?(?:the )?fields that can be named here are (.*)$", why, re.S)
    if m:
        names = re.findall(r"`([\w-]+)`", m.group(2))
        if int(m.group(1)) < len(names):
            for i in range(max(0, column - 4), column + 2):
                if re.match(r"\." + m.group(1) + r"(?![\w-])", line[i:]):
                    lines[number - 1] = line[:i] + "." + names[int(m.group(1))] + line[i + 1 + len(m.group(1)) :]
                    open(file, "w", encoding="utf-8").write("\n".join(lines))
                    return f".{m.group(1)} -> .{names[int(m.group(1))]}"
    return None


def set_aside(crate, path, number):
    file = f"{ROOT}/crates/{crate}/{path}"
    lines = open(file, encoding="utf-8").read().split("\n")
    start, end = declaration(lines, number)
    name = re.match(r"(?:pub |abbrev )*(\S+)", lines[start]).group(1) if start < len(lines) else ""
    if "goal." not in lines[start] or "Invariants" in path:
        return None
    aside = f"/tmp/aside/{crate}/{path}"
    os.makedirs(os.path.dirname(aside), exist_ok=True)
    if not os.path.exists(aside + ".whole"):
        with open(aside + ".whole", "w", encoding="utf-8") as f:
            f.write("\n".join(lines))
    with open(aside, "a", encoding="utf-8") as f:
        f.write("\n".join(lines[start:end]) + "\n")
    lines[start:end] = []
    open(file, "w", encoding="utf-8").write("\n".join(lines))
    if "goal." not in "\n".join(l for l in lines if not l.startswith("use")):
        os.remove(file)
    return "aside: " + name


def main():
    crate = sys.argv[1]
    for _ in range(int(sys.argv[2]) if len(sys.argv) > 2 else 4):
        said = check(crate)
        if [v for v in re.findall(r"(?m)^logic=(\S+)|^(rt: the library)", said)][-1:] == [("proved", "")]:
            print(f"{crate}: proved")
            return
        changed, later, seen = False, [], set()
        for path, line, column, why in sorted(ERROR.findall(said), key=lambda e: (e[0], -int(e[1]))):
            key = (path, declaration(open(f"{ROOT}/crates/{crate}/{path}", encoding="utf-8").read().split("\n"), int(line))[0]) if os.path.exists(f"{ROOT}/crates/{crate}/{path}") else None
            if key is None or "was not checked" in why or "was rejected" in why:
                continue
            if key in seen:
                continue
            seen.add(key)
            did = one(crate, path, int(line), int(column), why)
            if did:
                changed = True
                print(f"  {path}:{line}: {did}")
            else:
                later.append((path, int(line), why))
        for path, line, why in sorted(later, reverse=True):
            did = set_aside(crate, path, line)
            changed = changed or bool(did)
            print(f"  {path}:{line}: {did or 'left'}: {why[:160]}")
        if not changed:
            break
    else:
        said = check(crate)
    for l in said.split("\n"):
        if re.match(r"(fn|struct|enum|impl) .*: (not proved|no proof|could not)", l) or (re.search(r": error: ", l)):
            print(l[:400])
    print(f"{crate}: " + (re.search(r"(?m)^logic=not\S+", said) or re.search(r"(?s).{0,300}$", said)).group(0))


if __name__ == "__main__":
    main()
