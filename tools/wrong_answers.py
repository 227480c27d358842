"""Reads the wrong answers of crates/*/must-fail, and what the prover says of them. tests/wrong-answers, tools/try-edit and tools/must-fail-page share it.

A file crates/CRATE/must-fail/CHECK.edit is one check of the crate, in which several functions may be wrong at once; none of them may call another. Each wrong answer
of it has five comment lines above its replacements:

    # answer: NAME          how docs/PROMISES.md cites it, as CRATE/NAME
    # function: PATH        the function that answers wrongly, as crate::module::function; or `law crate/proofs/File: name`, where a definition is changed
    # fact: GOAL            the fact that fails, as the prover names it: a goal of the function that comes from its contract (returns, returns-then-x, returns-clause-value ..,
                            or loop-x-init, loop-x-preserved, which keep a loop's equation), or `law` where a law fails. Another goal is taken only with a reason behind `; since`
    # input: WORDS          what a radio or a user can bring on which the answer differs
    # says: WORDS           the wrong answer in one sentence
    file: src/lib.rt
    old: ..
    new: ..

`rt ci` tries each check and tells one line of what the prover said. Here it is read whole, so each check is made once more, over the work that a check of the crate as it
stands keeps; what the prover said is kept by a sum of all that it rests on, and not asked again while that stays the same."""
import hashlib
import os
import re
import shutil
import time
from concurrent.futures import ThreadPoolExecutor
from pathlib import Path

import kit

FIELDS = ["answer", "function", "fact", "input", "says"]
# Goals that the equations of a contract make, also those that a loop hands on from turn to turn.
EQUATION = re.compile(r"^(returns(-\S+)?|loop\S*-(init|preserved)(-\S+)?)$")
# Words of an error that tells of a name which the code no longer makes, and of nothing that is false.
NAMES = re.compile(r"has no (field )?`|is not a field|is not in scope|can be named from here|not found|unknown name|no declaration|exports no")
# What the prover said is kept for so many days after it was last read.
KEPT_DAYS = 21


class Answer:
    """One wrong answer: its five lines, and the replacements that make it."""

    def __init__(self, crate, check, fields, replacements):
        self.crate, self.check, self.replacements = crate, check, replacements
        self.name, self.function, self.fact, self.input, self.says = (fields.get(field, "") for field in FIELDS)
        self.label = "%s/%s" % (crate, self.name)

    def named_fact(self):
        return self.fact.split(";")[0].strip()

    def reason(self):
        """Why another goal than one of the contract's is taken, or nothing."""
        behind = re.search(r"; since (.+)", self.fact)
        return behind.group(1) if behind else ""


def read_check(path):
    """The wrong answers of one .edit file in their order, and what is wrong with its form."""
    crate, check = path.parent.parent.name, path.stem
    answers, faults, fields, replacements, file, old = [], [], {}, [], None, None

    def close():
        if fields or replacements:
            answer = Answer(crate, check, fields, replacements)
            for field in FIELDS:
                if not fields.get(field):
                    faults.append("%s/must-fail/%s.edit: a wrong answer%s has no line '# %s: ..'" % (crate, check, " " + answer.name if answer.name else "", field))
            if not replacements:
                faults.append("%s/must-fail/%s.edit: %s replaces nothing" % (crate, check, answer.name))
            answers.append(answer)

    for line in path.read_text().splitlines():
        field = re.match(r"^# (%s): (.*)$" % "|".join(FIELDS), line)
        if field:
            if field.group(1) == "answer":
                close()
                fields, replacements = {}, []
            if field.group(1) in fields:
                faults.append("%s/must-fail/%s.edit: two lines '# %s: ..' of one answer" % (crate, check, field.group(1)))
            fields[field.group(1)] = field.group(2).strip()
        elif line.startswith("file: "):
            file = line[6:]
        elif line.startswith("old: "):
            old = line[5:]
        elif line.startswith("new:"):
            replacements.append((file, old, line[5:] if line.startswith("new: ") else line[4:]))
    close()
    return answers, faults


def read_all(root, crates=None):
    """Every wrong answer of the tree, crate by crate in the order of crates.txt, and the faults of form."""
    answers, faults = [], []
    for crate in kit.crates(root):
        if crates and crate not in crates:
            continue
        for path in sorted((root / "crates" / crate / "must-fail").glob("*.edit")):
            found, wrong = read_check(path)
            answers += found
            faults += wrong
    seen = {}
    for answer in answers:
        if seen.setdefault(answer.label, answer) is not answer:
            faults.append("%s stands twice, in %s.edit and in %s.edit" % (answer.label, seen[answer.label].check, answer.check))
    return answers, faults


# ---- a check made


def edited(crate, answers, where):
    """A copy of a crate's text with the replacements of all these answers; why that can't be had, or nothing."""
    kit.copied(crate, where)
    for answer in answers:
        for file, old, new in answer.replacements:
            path = where / file
            text = path.read_text() if path.is_file() else ""
            if text.count(old) != 1:
                return "%s: its old text stands %d times in %s once those before it in its check are made: %s" % (answer.label, text.count(old), file, old)
            path.write_text(text.replace(old, new))
    return ""


class Checks:
    """The checks of a tree: what the prover says of each, asked once, and kept from run to run unless `anew`."""

    def __init__(self, root, anew=False):
        self.root, self.anew, self.known = root, anew, kit.crates(root)
        self.store = Path(os.environ.get("XDG_CACHE_HOME") or Path.home() / ".cache") / "heidezirkel" / "said"
        self.asked = self.found = 0

    def all(self, answers):
        """(crate, check) -> what was said, for the checks of these answers. A crate that isn't proved is told of in the place of what was said."""
        checks = {}
        for answer in answers:
            checks.setdefault(answer.crate, {}).setdefault(answer.check, []).append(answer)
        said, left = {}, {}
        for crate in checks:
            total = kit.sum_of(self.known, crate)
            for check in checks[crate]:
                text = self.kept(self.key(crate, check, total))
                if text is None:
                    left.setdefault(crate, []).append(check)
                else:
                    self.found += 1
                    said[crate, check] = text
        if left:
            failed = kit.prove(self.root, self.known, None if len(left) > 1 else list(left))
            if failed:
                return {**said, **{(crate, check): "not tried: the crates are not all proved: %s" % failed[-600:] for crate in left for check in left[crate]}}
            with ThreadPoolExecutor(kit.at_once()) as pool:
                # those with the most checks first: the last ones then have others beside them
                for found in pool.map(lambda crate: self.tried(crate, left[crate], checks[crate]), sorted(left, key=lambda crate: -len(left[crate]))):
                    said.update(found)
        return said

    def tried(self, crate, names, answers):
        """What the prover says of these checks of one crate."""
        total, said = kit.sum_of(self.known, crate), {}
        with kit.scratch() as folder:
            room = Path(folder)
            own = self.known[crate].folder / "out" / "incremental"
            seed = kit.seed(self.known, crate, room) if len(names) > 1 or own.is_dir() else None
            for name in names:
                text, over = room / "edited", room / "over"
                fault = edited(self.known[crate], answers[name], text)
                if fault:
                    said[crate, name] = "not tried: " + fault
                else:
                    if seed:
                        kit.linked(seed, over)
                    self.asked += 1
                    told, status = kit.check(self.known, crate, text, over if seed else None)
                    said[crate, name] = told
                    if status in (0, 1) and re.search(r"^logic=", told, re.M):
                        self.keep(self.key(crate, name, total), told)
                for place in (text, over):
                    shutil.rmtree(place, ignore_errors=True)
        return said

    def key(self, crate, check, total):
        edit = self.known[crate].folder / "must-fail" / (check + ".edit")
        return hashlib.sha256(total.encode() + edit.read_bytes()).hexdigest()

    def kept(self, key):
        path = self.store / key
        if self.anew or not path.is_file():
            return None
        try:
            os.utime(path)
            return path.read_text()
        except OSError:
            return None

    def keep(self, key, text):
        """Where the store can't be written, nothing is kept, and the next run asks again."""
        try:
            self.store.mkdir(parents=True, exist_ok=True)
            for path in self.store.iterdir():
                if path.stat().st_mtime < time.time() - KEPT_DAYS * 86400:
                    path.unlink()
            part = self.store / ("%s.%d" % (key, os.getpid()))
            part.write_text(text)
            part.replace(self.store / key)
        except OSError:
            pass


# ---- what the prover said


class Said:
    """What the prover said of one check: of each function its verdict and the goals that stay open in it, and the errors of proof files."""

    def __init__(self, text):
        self.text, self.functions, self.open, self.errors = text, {}, {}, []
        noted = []
        for line in text.splitlines():
            goal = re.match(r"^note: \S+:\d+:\d+: it is not proved that .*\(`([^`\s]+)`\)", line)
            told = re.match(r"^fn (\S+): (.*)$", line)
            error = re.match(r"^(?:\S*?/)?((?:proofs|specs)/\S+?\.antt):(\d+):(\d+): error: (.*)$", line)
            if goal:
                noted.append(goal.group(1))
            elif told:
                # the notes on a function stand right above its verdict
                self.functions[told.group(1)] = told.group(2)
                self.open[told.group(1)] = [] if told.group(2) == "proved" else noted
                noted = []
            elif error:
                self.errors.append((error.group(1), int(error.group(2)), int(error.group(3)), error.group(4)))

    def errors_of(self, file):
        """The errors of a file that are its own, and not only because another declaration of it was refused."""
        return [(line, column, words) for name, line, column, words in self.errors if name == file and not re.search(r"was not admitted|which was rejected", words)]

    def unread(self):
        """Why the prover judged nothing, or nothing where it did."""
        if self.text.startswith("not tried: "):
            return self.text
        if self.functions or self.errors:
            return ""
        return "it did not reach the prover: %s" % "; ".join(self.text.splitlines()[:6])


def proof_folders(function):
    """crate::module::name as the folder of its proof, and as that of a function of a cycle of calls, whose folder is the cycle's."""
    parts = function.split("::")[1:]
    return ["/".join(parts), "/".join(parts[:-1] + ["+" + parts[-1]])]


def failed_facts(root, answer, said):
    """(facts that failed, a sentence that says why the answer does not count, or nothing)."""
    if said.unread():
        return [], said.unread()
    if answer.function.startswith("law "):
        return failed_laws(root, answer, said)
    verdict = said.functions.get(answer.function)
    if verdict is None:
        return [], "the prover tells of no function %s" % answer.function
    if verdict == "proved":
        return [], "%s is still proved" % answer.function
    own = re.search(r"(did not prove|leaves) (`[^;]*)", verdict)
    goals = re.findall(r"`([^`]+)`", own.group(2)) if own else []
    callees = re.search(r"it calls (.*), which (is|are) not proved", verdict)
    if callees and goals:
        return [], "%s fails at %s, and calls %s, which is refused too: an answer for another check" % (answer.function, ", ".join(goals), callees.group(1))
    if callees:
        return [], "%s is refused only because it calls %s" % (answer.function, callees.group(1))
    if verdict.startswith("no proof"):
        return goals, "" if goals else "the prover names no goal: %s" % verdict[:200]
    return failed_in_files(root, answer, said)


def failed_in_files(root, answer, said):
    """The goals whose answers in the function's own files no longer hold, with those that nothing answers."""
    crate, facts = root / "crates" / answer.crate, []
    for folder in proof_folders(answer.function):
        for name in ("Invariants", "Answers", "Proof"):
            file = "proofs/%s/%s.antt" % (folder, name)
            if not (crate / file).is_file():
                continue
            proof = Proof(crate / file)
            for line, column, words in said.errors_of(file):
                if NAMES.search(words):
                    return facts, "a name, not a fact: %s:%d: %s" % (file, line, words[:160])
                facts += proof.goals_at(line) or (["walk"] if name == "Proof" else ["%s:%d" % (file, line)])
    facts += said.open.get(answer.function, [])
    return list(dict.fromkeys(facts)), "" if facts else "its files have no error of their own, and the prover names no goal"


class Proof:
    """A file of a function's proof: which goals each of its declarations answers."""

    def __init__(self, path):
        self.lines = path.read_text().splitlines()
        self.declared = declarations(self.lines)

    def goal_of(self, name):
        """The goal that a declaration answers, or nothing: its type names it, as `goal.returns` or, where the proof walks the code, `tie.Need-returns`."""
        first, last = self.declared[name]
        found = re.search(r"(?:^|\s):\s+(?:goal\.|tie\.Need-)([^\s=]+)", "\n".join(self.lines[first - 1 : last]))
        return found.group(1) if found else None

    def text(self, name):
        first, last = self.declared[name]
        return "\n".join(re.sub(r"(^|\s)--(\s.*)?$", "", line) for line in self.lines[first - 1 : last])

    def cites(self, other, name):
        return re.search(r"(?<![\w·+«.-])%s(?![\w·»'-])" % re.escape(name), self.text(other)) is not None

    def goals_of(self, name, seen=()):
        """The goals that a declaration answers by itself, or that are answered by what cites it."""
        own = self.goal_of(name)
        if own:
            return [own]
        found = []
        for other in self.declared:
            if other != name and other not in seen and self.cites(other, name):
                found += self.goals_of(other, (*seen, name))
        return list(dict.fromkeys(found))

    def goals_at(self, line):
        for name, (first, last) in self.declared.items():
            if first <= line <= last:
                return self.goals_of(name)
        return []


def declarations(lines):
    """name -> (first line, last line), from 1, of the declarations that begin at the margin."""
    found, current = {}, None
    for number, line in enumerate(lines, 1):
        text = re.sub(r"(^|\s)--(\s.*)?$", "", line)
        if not text.strip():
            continue
        if not text[0].isspace() and text[0] not in ")}]":
            head = re.sub(r"^((abbrev|unfoldable|opaque|pub|data|record) )+", "", text).split()[0]
            if head in ("use", "module", "unfolding"):
                if head == "use":
                    current = None
                continue
            if head not in found:
                found[head] = [number, number]
            current = head
        if current:
            found[current][1] = number
    return found


def failed_laws(root, answer, said):
    place, _, name = answer.function[len("law ") :].partition(": ")
    file = place.split("/", 1)[1] + ".antt"
    path = root / "crates" / answer.crate / file
    if not path.is_file():
        return [], "there is no file %s" % path
    failed = laws_failed(path, said, file)
    return ["law"] if name in failed else [], "" if name in failed else "%s does not fail there; what fails: %s" % (
        answer.function, ", ".join(failed) or "; ".join("%s:%d" % error[:2] for error in said.errors[:3]))


def laws_failed(path, said, file):
    """The declarations of a file, also inside sections, in which there is an error."""
    lines, found = path.read_text().splitlines(), []
    for line, _, words in said.errors_of(file):
        named = re.match(r"^`([^`]+)`", words)
        found.append(named.group(1) if named else "line %d: %s" % (line, lines[line - 1].strip()))
    return list(dict.fromkeys(found))


def judge(root, answer, said):
    """(whether the answer is refused as it says, what failed or what is missing)."""
    facts, missing = failed_facts(root, answer, said)
    if missing:
        return False, missing
    wanted = answer.named_fact()
    told = ", ".join(facts)
    if wanted not in facts:
        return False, "says that %s fails; what fails is %s" % (wanted, told)
    if wanted != "law" and not EQUATION.match(wanted) and not answer.reason():
        return False, "%s is no equation of the contract, and no reason is given ('; since ..')" % wanted
    return True, told
