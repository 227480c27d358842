#!/usr/bin/env python3
"""Gives the crate `log` the name `log_entry`, since the kit has a library `log` today. May be run again: what bears the new name stays.

usage: python3 tools/rename_log.py     in the repository

It moves crates/log, and writes the name anew where it is a crate's: in crates.txt, in paths `log::` of src/ and of the edits, and in paths `Rattle.log.` of specs/ and proofs/.
Local names, strings, the folders docs/, second/ and include/ stay as they are.
"""

import os
import re
import subprocess

ROOT = os.path.dirname(os.path.dirname(os.path.realpath(__file__)))


def main():
    if os.path.isdir(f"{ROOT}/crates/log/src"):
        subprocess.run(["git", "mv", "crates/log", "crates/log_entry"], cwd=ROOT, check=True)
    files = subprocess.run(["git", "ls-files", "crates", "crates.txt"], cwd=ROOT, capture_output=True, text=True, check=True).stdout.split("\n")
    changed = 0
    for name in files:
        path = f"{ROOT}/{name}"
        if not os.path.isfile(path):
            continue
        if name == "crates.txt":
            rule = lambda t: "\n".join(l if l.startswith("#") else re.sub(r"(?<![\w])log(?![\w])", "log_entry", l) for l in t.split("\n"))
        elif name.endswith((".rt", ".edit")):
            rule = lambda t: re.sub(r"(?<![\w:.])log::", "log_entry::", re.sub(r"(?<![\w.-])Rattle\.log\.", "Rattle.log_entry.", t))
        elif name.endswith(".antt"):
            rule = lambda t: re.sub(r"`log::", "`log_entry::", re.sub(r"(?<![\w.-])Rattle\.log\.", "Rattle.log_entry.", t))
        else:
            continue
        with open(path, encoding="utf-8") as f:
            old = f.read()
        new = rule(old)
        if new != old:
            changed += 1
            with open(path, "w", encoding="utf-8") as f:
                f.write(new)
    print(f"{changed} files changed")


if __name__ == "__main__":
    main()
