"""What the scripts share about the Rattle kit: where it is, the crates of crates.txt, the libraries that a crate stands on, and a check of a crate's text.

The prover is asked without `rt` where a script needs all that it says of a text that is not the tree's; its words are those that `rt` gives it."""
import functools
import hashlib
import os
import re
import shutil
import subprocess
import tempfile
from pathlib import Path

PARTS = ("src", "specs", "proofs")


@functools.lru_cache(maxsize=None)
def home():
    """The kit's folder: RATTLE_HOME, or else where `rt` stands."""
    if os.environ.get("RATTLE_HOME"):
        return Path(os.environ["RATTLE_HOME"])
    found = shutil.which("rt")
    if not found:
        raise SystemExit("no rt on PATH, and RATTLE_HOME is not set")
    return Path(found).resolve().parent.parent


def at_once():
    """How many checks run side by side: RT_JOBS, or else one for each processor, as far as there is memory, of which one takes up to 2.5 GB."""
    if os.environ.get("RT_JOBS", "").isdigit():
        return max(1, int(os.environ["RT_JOBS"]))
    free = re.search(r"MemAvailable:\s+(\d+)", Path("/proc/meminfo").read_text())
    return max(1, min(len(os.sched_getaffinity(0)), int(free.group(1)) // 2_500_000 if free else 1))


class Crate:
    """A line of crates.txt: the crate's kind, the crates of the tree that it names, and the kit's."""

    def __init__(self, root, name, kind, named, ours):
        self.root, self.name, self.is_static = root, name, "staticlib" in kind
        self.folder = root / "crates" / name
        self.deps = [other for other in named if other in ours]
        self.of_kit = ["std"] + [other for other in named if other not in ours]
        self.is_program = (self.folder / "src" / "main.rt").is_file()

    def rlib(self):
        return self.folder / "out" / "rlib" / (self.name + ".rlib")


def crates(root):
    """The crates of crates.txt by name, in its order."""
    lines = []
    for line in (root / "crates.txt").read_text().splitlines():
        head, colon, names = line.partition("#")[0].partition(":")
        if colon and head.strip():
            lines.append((head.split()[0], head.split()[1:], names.split()))
    ours = {name for name, _, _ in lines}
    return {name: Crate(root, name, kind, names, ours) for name, kind, names in lines}


def below(known, name):
    """All crates of the tree that a crate stands on, each behind those that it stands on."""
    found = []
    for other in known[name].deps:
        found += [one for one in below(known, other) + [other] if one not in found]
    return found


def words(known, name):
    """The prover's words for a crate, whose root file is looked for in the folder where it runs."""
    crate, kit = known[name], home()
    found = ["--crate-name", name, "src/main.rt" if crate.is_program else "src/lib.rt"]
    for other in crate.of_kit:
        found += ["--extern", "%s=%s" % (other, kit / "rlibs" / (other + ".rlib"))]
    found += ["-L", "dependency=%s" % (kit / "rlibs")]
    for other in crate.deps:
        found += ["--extern", "%s=%s" % (other, known[other].rlib())]
    for other in below(known, name):
        found += ["-L", "dependency=%s" % known[other].rlib().parent]
    found += ["--antt-project", str(kit / "rattle" / "logic" / "antt-project.json"), "--logic-built", str(kit / "logic_built"), "--jobs", "1"]
    return found + (["--crate-type", "staticlib"] if crate.is_static else [])


# ---- libraries


def left_by_ci(known, names):
    """Whether the libraries of these crates are all such as `rt ci` leaves them. HEIDEZIRKEL_PROVED says that it has just passed over this tree, as .ci/run does: then nothing
    need be proved again. What other commands built has a stamp; the two kinds don't go together."""
    built = [known[name] for name in names if not known[name].is_program and not known[name].is_static]
    return bool(os.environ.get("HEIDEZIRKEL_PROVED")) and all(it.rlib().is_dir() and not (it.rlib().parent / "stamp").exists() for it in built)


def prove(root, known, names=None):
    """Has `rt` prove these crates and what they stand on, or all; what it said where that fails, or nothing. What is proved already takes seconds."""
    asked = list(names or known)
    if left_by_ci(known, {other for name in asked for other in below(known, name)}):
        return ""
    for folder in [root / "crates" / name for name in names] if names else [root]:
        ended = subprocess.run(["rt", "all", "check", "--jobs", str(at_once())], cwd=folder, stdin=subprocess.DEVNULL, stdout=subprocess.PIPE, stderr=subprocess.STDOUT, text=True, errors="replace")
        if ended.returncode:
            return ended.stdout
    return ""


# ---- a check


def linked(folder, to):
    """Copies kept work. What was proved is linked where it can be: a check replaces such a file, and changes none."""

    def copy(one, other):
        try:
            if one.endswith(".oantt"):
                return os.link(one, other)
        except OSError:
            pass
        return shutil.copy2(one, other)

    shutil.copytree(folder, to, copy_function=copy)


def check(known, name, text, kept=None):
    """What the prover says of a folder with a crate's text, over kept work or from nothing, and its status."""
    over = ["--incremental", str(kept)] if kept else []
    ended = subprocess.run([str(home() / "bin" / "rattle"), "check", *words(known, name), *over],
                           cwd=text, stdin=subprocess.DEVNULL, stdout=subprocess.PIPE, stderr=subprocess.STDOUT, text=True, errors="replace")
    return ended.stdout, ended.returncode


def copied(crate, to):
    """A copy of a crate's text."""
    to.mkdir(parents=True, exist_ok=True)
    for part in PARTS:
        if (crate.folder / part).is_dir():
            shutil.copytree(crate.folder / part, to / part)
    return to


def seed(known, name, room):
    """Kept work of the crate as it stands, for checks of texts that differ little; nothing where the crate is not proved."""
    text, to, own = copied(known[name], room / "text"), room / "seed", known[name].folder / "out" / "incremental"
    if own.is_dir():
        linked(own, to)
    else:
        to.mkdir()
    status = check(known, name, text, to)[1]
    shutil.rmtree(text)
    return None if status else to


def sum_of(known, name):
    """A sum of all that a verdict on a crate rests on: the kit, its line of crates.txt, its text, and the same of each crate that it stands on."""
    total = hashlib.sha256()
    for file in ("KIT-ID", "WHAT"):
        total.update((home() / file).read_bytes())
    for one in below(known, name) + [name]:
        crate = known[one]
        total.update(repr((one, crate.is_static, crate.deps, crate.of_kit)).encode())
        for part in PARTS:
            for path in sorted((crate.folder / part).rglob("*")):
                if path.is_file():
                    total.update(repr((str(path.relative_to(crate.folder)), path.read_bytes())).encode())
    return total.hexdigest()


def scratch():
    """A folder that goes when the script is through with it."""
    return tempfile.TemporaryDirectory(prefix="heidezirkel-")


# ---- the library for C


def archive(root, name):
    """Proves and builds a static library as crates/NAME/out/libNAME.a; the status. What it stands on is proved first where it is not."""
    known = crates(root)
    folder = known[name].folder
    if left_by_ci(known, below(known, name)):
        (folder / "out").mkdir(exist_ok=True)
        ended = subprocess.run([str(home() / "bin" / "rattle"), "build", *words(known, name), "--toolchain", str(home() / "toolchain"), "--backend", "llvm", "-o", "out/lib%s.a" % name],
                               cwd=folder, stdin=subprocess.DEVNULL)
        if not ended.returncode:
            return 0
    ended = subprocess.run(["rt", "all", "check", "--jobs", str(at_once())], cwd=folder, stdin=subprocess.DEVNULL)
    return ended.returncode or subprocess.run(["rt", "lib"], cwd=folder, stdin=subprocess.DEVNULL).returncode
