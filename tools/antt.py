"""Reads the .antt and .rt files of this repository as far as the tools need it: words, `use` lines, declarations, terms. It is no checker: the prover is.

A file's declarations are found by their layout, which `rt fmt` gives: a declaration starts where its section's other lines start, and what is
indented deeper belongs to it.
"""
import re
from pathlib import Path

ROOT = Path(__file__).resolve().parent.parent
PROGRAMS = """saying filing fields forms message_command step_command record_command judge_command settings_command message_words settings_words log_words replay
ignored_words judge_words probe script record_words capture_words drawing timeline near_words heidezirkel recordings pictures""".split()

KEYWORDS = {"abbrev", "unfoldable", "pub", "data", "record", "module", "where", "let", "in", "use", "as", "unfolding", "λ", "→", ":", "=", "Type", "_"}
WORD = re.compile(r"«[^»]*»|\"[^\"]*\"|[(){}⟨⟩;,⌜⌝]|λ|[^\s(){}⟨⟩;,⌜⌝«»\"λ]+")


def crates():
    """The crates in the order of crates.txt, each with its floor, which a line `# == ..` above it names."""
    floor, found = "", []
    for line in (ROOT / "crates.txt").read_text().splitlines():
        if line.startswith("# == "):
            floor = line[5:].strip()
        elif line.startswith("#"):
            continue
        elif ":" in line:
            found.append((line.split(":")[0].split()[0], floor))
    return found


def without_comment(line):
    """A line of antt without its comment, which begins with two hyphens."""
    at = re.search(r"(^|\s)--(\s|$)", line)
    return line[: at.start()] if at else line


def words(text):
    """The words of some antt: a bracket or a separator is a word, and `λ x.` leaves `x` and `.`."""
    found = []
    for line in text.splitlines():
        for word in WORD.findall(without_comment(line)):
            if len(word) > 1 and word.endswith(".") and word != "..":
                found += [word[:-1], "."]
            else:
                found.append(word)
    return found


class Declaration:
    """A definition or a theorem: its name, its lines (from 0), its statement and all of it as words, the sections that it stands in."""

    def __init__(self, file, name, kind, first, sections):
        self.file, self.name, self.kind, self.first, self.last, self.sections = file, name, kind, first, first, sections
        self.members = []

    def __repr__(self):
        return "%s: %s" % (self.file.label, self.name)

    def lines(self):
        return self.file.lines[self.first : self.last + 1]

    def statement(self):
        """The lines up to the first clause."""
        found = []
        for line in self.lines():
            if found and not self.indented(line):
                break
            found.append(line)
        return "\n".join(found)

    def whole(self):
        """All lines but those that tell the prover what to unfold."""
        return "\n".join(line for line in self.lines() if not line.strip().startswith("unfolding "))

    def indented(self, line):
        start = len(self.file.lines[self.first]) - len(self.file.lines[self.first].lstrip())
        return not line.strip() or len(line) - len(line.lstrip()) > start


class Section:
    """`module _ (parameters) where`."""

    def __init__(self, line, indent, text):
        self.line, self.indent, self.text = line, indent, text


class File:
    """An .antt file: what it uses and what it declares."""

    def __init__(self, path):
        self.path = path
        self.label = str(path.relative_to(ROOT / "crates"))[: -len(".antt")]
        self.lines = path.read_text().splitlines()
        self.imports, self.aliases, self.declarations, self.uses = {}, {}, [], set()
        self.read_uses()
        self.read_declarations()
        self.names = {}
        for declaration in self.declarations:
            for name in [declaration.name] + declaration.members:
                for part in parts_of(name):
                    self.names.setdefault(part, []).append(declaration)

    def read_uses(self):
        text = "\n".join(without_comment(line) for line in self.lines)
        for found in re.finditer(r"^ *(?:pub )?use ([^\s{]+?)(?:\.\{([^}]*)\}| as (\S+)|)$", text, re.M):
            module, names, alias = found.groups()
            for line in range(text[: found.start()].count("\n"), text[: found.end()].count("\n") + 1):
                self.uses.add(line)
            if names is None:
                self.aliases[alias or module.split(".")[-1]] = module
                continue
            for name in filter(None, (part.strip() for part in names.replace("\n", " ").split(","))):
                theirs, _, ours = name.partition(" as ")
                for part in parts_of(ours or theirs):
                    self.imports[part] = (module, theirs.strip())

    def read_declarations(self):
        head = re.compile(r"^( *)((?:(?:abbrev|unfoldable|pub|data|record) )*)([^\s(){};,]+)(?= *[:({]| *$)")
        sections, current = [], None
        for number, line in enumerate(self.lines):
            text = without_comment(line)
            if not text.strip() or number in self.uses:
                continue
            indent = len(text) - len(text.lstrip())
            while sections and indent <= sections[-1].indent:
                sections.pop()
            if text.lstrip().startswith("module "):
                sections.append(Section(number, indent, text[indent:]))
                current = None
                continue
            base = sections[-1].indent + 2 if sections else 0
            if indent > base:
                if sections and current is None:
                    sections[-1].text += " " + text.strip()  # the section's head goes on
                elif current:
                    current.last = number
                    if current.kind in ("data", "record"):
                        member = re.match(r"^ *(?:pub )?([^\s(){};,]+) *:", text)
                        if member and current.kind == "data":
                            current.members.append(member.group(1))
                continue
            found = head.match(text)
            name = found.group(3) if found else text.split()[0]
            marks = found.group(2).split() if found else []
            declares = found and (":" in words(text)[len(marks) + 1 :] or "data" in marks or "record" in marks or self.goes_on(number))
            if declares and not (current and name == current.name):
                kind = "data" if "data" in marks else "record" if "record" in marks else "definition" if {"abbrev", "unfoldable"} & set(marks) else "theorem"
                current = Declaration(self, name, kind, number, list(sections))
                self.declarations.append(current)
            elif current:
                current.last = number

    def goes_on(self, number):
        """Whether the line ends before its colon: `name` alone, with the type on the next line."""
        following = self.lines[number + 1] if number + 1 < len(self.lines) else ""
        return following.strip().startswith(":")

    def declared(self, name):
        return self.names.get(name, [])


def parts_of(name):
    """A name, and for an operator such as `◌++◌` the words by which it is used."""
    return [name] + ([part for part in name.split("◌") if part] if "◌" in name else [])


def module_file(module):
    """The .antt file of a module of this repository, or nothing for the kit's modules and for the types of the code."""
    crate = crate_of(module)
    if not crate:
        return None
    path = ROOT / "crates" / crate / ("/".join(module.split(".")[2:]) + ".antt")
    return path if path.is_file() else None


def crate_of(module):
    """The crate of this repository in which a module stands, or nothing for the kit's."""
    found = re.match(r"^Rattle\.(\w+)\.", module)
    return found.group(1) if found and (ROOT / "crates" / found.group(1)).is_dir() else None


def full_name(module, name):
    """A name with its module. The kit passes its names on from module to module, so these stand for themselves."""
    return module + "." + name if crate_of(module) else name


# ---- the code


def public_functions():
    """Every public function of the library crates: its name as crate::module::Type::name, and its head with its clauses."""
    found = {}
    for path in sorted((ROOT / "crates").glob("*/src/*.rt")):
        crate = path.parts[-3]
        if crate in PROGRAMS:
            continue
        module = "" if path.stem == "lib" else path.stem + "::"
        lines, of = path.read_text().splitlines(), ""
        for number, line in enumerate(lines):
            if line.startswith("impl "):
                of = line.split()[1] + "::"
            elif line.startswith("}"):
                of = ""
            name = re.match(r" *pub (?:extern \"C\" )?fn (\w+)", line)
            if name:
                head = []
                for following in lines[number:]:
                    if following.strip() == "{":
                        break
                    head.append(following.split("//")[0])
                found["%s::%s%s%s" % (crate, module, of, name.group(1))] = (path, "\n".join(head))
    return found


def ghost_uses(path):
    """What the clauses of a file of code may name: word to module and name."""
    found = {}
    for module, names in re.findall(r"^ghost use ([^\s{]+)\.\{([^}]*)\};", path.read_text(), re.M):
        for name in filter(None, (part.strip() for part in names.replace("\n", " ").split(","))):
            theirs, _, ours = name.partition(" as ")
            for part in parts_of(ours or theirs):
                found[part] = (module, theirs.strip())
    return found


def clauses(head, kind):
    """What stands between the braces of each clause of a kind, which may have a name."""
    found = []
    for start in re.finditer(r"\b%s(?: \w+)? \{" % kind, head):
        depth, at = 1, start.end()
        while depth:
            depth += {"{": 1, "}": -1}.get(head[at], 0)
            at += 1
        found.append(head[start.end() : at - 1].strip())
    return found


# ---- terms

INFIX = [["→"], ["×", "⊎"], ["≡", "≤", "<", "=="], ["∷", "++"], ["&&", "||"], ["+", "-"], ["*", "/", "%"]]


def parse(found):
    """A term of a list of words: a word, or a tuple ('apply', f, x..), ('of', field, term), ('infix', operator, left, right) or ('group', words..)."""
    term, rest = parse_infix(list(found), 0)
    if rest:
        raise ValueError("left over: " + " ".join(rest))
    return term


def parse_infix(rest, level):
    if level == len(INFIX):
        return parse_spine(rest)
    left, rest = parse_infix(rest, level + 1)
    if rest and rest[0] in INFIX[level]:
        operator = rest[0]
        right, rest = parse_infix(rest[1:], level)
        return ("infix", operator, left, right), rest
    return left, rest


OPERATORS = {operator for level in INFIX for operator in level}


def parse_spine(rest):
    """An application; a field is that of the word or the bracket right before it."""
    spine = []
    while rest and rest[0] not in OPERATORS and rest[0] not in (")", "}", ",", ";", ":"):
        word = rest[0]
        if word in ("(", "{"):
            inner, rest = parse_group(rest)
            spine.append(inner)
        elif word == "record" and rest[1] == "{":
            inner, rest = parse_group(rest[1:])
            spine.append(("group", "record") + inner[1:])
        elif word.startswith(".") and len(word) > 1 and spine:
            spine[-1] = fields_of(spine[-1], word)
            rest = rest[1:]
        elif re.match(r"[a-z_][\w'-]*\.", word):
            name, dot, fields = word.partition(".")
            spine.append(fields_of(name, dot + fields))
            rest = rest[1:]
        else:
            spine.append(word)
            rest = rest[1:]
    if not spine:
        raise ValueError("a term is missing before: " + " ".join(rest[:5]))
    return applied(spine), rest


def fields_of(term, fields):
    """`x.f.g`: the field g of the field f of x."""
    for field in fields[1:].split("."):
        term = ("of", field, term)
    return term


def parse_group(rest):
    """What stands in brackets: a term, or where it is more than one term its words."""
    depth, at = 0, 0
    while True:
        depth += 1 if rest[at] in ("(", "{") else -1 if rest[at] in (")", "}") else 0
        at += 1
        if depth == 0:
            break
    inner = rest[1 : at - 1]
    try:
        return parse(inner), rest[at:]
    except ValueError:
        return ("group",) + tuple(inner), rest[at:]


def applied(spine):
    if len(spine) == 1:
        return spine[0]
    if isinstance(spine[0], tuple) and spine[0][0] == "apply":
        return spine[0] + tuple(spine[1:])
    return ("apply",) + tuple(spine)


def split_all(term, operator):
    """The parts of a term that an operator joins."""
    if isinstance(term, tuple) and term[0] == "infix" and term[1] == operator:
        return split_all(term[2], operator) + split_all(term[3], operator)
    return [term]


def changed(term, change):
    """The term with each word and each part changed, from the inside out."""
    if isinstance(term, tuple):
        if term[0] == "apply":
            return change(applied([changed(part, change) for part in term[1:]]))
        if term[0] == "of":
            return change(("of", term[1], changed(term[2], change)))
        if term[0] == "infix":
            return change(("infix", term[1], changed(term[2], change), changed(term[3], change)))
        return change(("group",) + tuple(changed(part, change) for part in term[1:]))
    return change(term)


def leaves(term):
    """Every word of a term."""
    if isinstance(term, tuple):
        start = {"apply": 1, "of": 2, "infix": 2, "group": 1}[term[0]]
        return [leaf for part in term[start:] for leaf in leaves(part)]
    return [term]


def shown(term):
    """A term as text, for people."""
    if not isinstance(term, tuple):
        return term
    if term[0] == "apply":
        return " ".join("(%s)" % shown(part) if isinstance(part, tuple) else part for part in term[1:])
    if term[0] == "of":
        plain = not isinstance(term[2], tuple) or term[2][0] == "of"
        return "%s.%s" % (shown(term[2]) if plain else "(%s)" % shown(term[2]), term[1])
    if term[0] == "infix":
        return "%s %s %s" % (shown(term[2]), term[1], shown(term[3]))
    return "(%s)" % " ".join(shown(part) for part in term[1:])
