"""Checks of a crate whose files have other texts, made in the way in which the toolchain itself tries a must-fail edit."""

import hashlib
import importlib.machinery
import importlib.util
import re
import shutil
import sys
from pathlib import Path

from trials.programs import TOP

# A goal of a function that has an answer or a proof in a file. The name of a function that calls itself begins with a plus
# there.
ANSWERED = re.compile(r"\./proofs/(\S+)/\w+\.antt:\d+:\d+: error: `([^`]+)`: (.*)")
# Errors in what depends on a goal that isn't proved, or in a file that names what an edit took away: they say nothing about a
# contract.
NO_REFUSAL = re.compile(r"was rejected, w|has no field|is not in scope|has no `|was not admitted")
# A goal without an answer, which the prover's search didn't prove. The line of its function comes after those of its goals.
SEARCHED = re.compile(r"note: src/\S+:\d+:\d+: .*\(`([^`]+)`\)")
FUNCTION = re.compile(r"fn \w+::(\S+): ")


def load_kit():
    """The toolchain's command `rt`, as a module."""
    command = shutil.which("rt") or sys.exit("the toolchain's command rt isn't on the path: 0 passed, 1 failed")
    loader = importlib.machinery.SourceFileLoader("rattle_rt", str(Path(command).resolve()))
    spec = importlib.util.spec_from_loader(loader.name, loader)
    kit = importlib.util.module_from_spec(spec)
    sys.dont_write_bytecode = True
    loader.exec_module(kit)
    # The libraries below are read as `rt ci` leaves them.
    kit.rtlib.Crate.cuts_libraries = True
    return kit


class Prover:
    """Checks one crate. Its libraries are those that `rt ci` made in the folder `tree`."""

    def __init__(self, tree, crate):
        self.kit = load_kit()
        self.here, self.there = (self.kit.rtlib.Crate(f"{top}/crates/{crate}", str(top), {}) for top in (TOP, tree))

    def complaint(self):
        """Why nothing can be tried over that folder; None if edits can be tried."""
        lacking = [library.name for library in self.there.below() if not Path(library.rlib).is_dir()]
        if lacking:
            return f"not all of its libraries are proved there: {', '.join(lacking)}"
        return None if self.here.stamp() == self.there.stamp() else "the crate, or a library of it, has another text there"

    def mark(self, files):
        """A sum of all that the crate and its libraries are made of, and of these files."""
        return hashlib.sha256(repr([self.here.stamp(), *(file.read_text() for file in files)]).encode()).hexdigest()

    def check(self, texts, functions, proved):
        """Checks the functions with these names, and those that they call, in a crate whose files have these texts. The folder `proved` has
        what earlier checks of the crate proved, which isn't checked again, and gets what this one proves. Returns the goals that weren't
        proved, by the names of their functions, and what the prover wrote."""
        only = [word for function in sorted(functions) for word in ("--only", function)]
        ran = self.kit.checked(self.there, texts, ["--jobs", "1", *only], proved)
        found = goals_in(ran.stdout)
        goals = {it: [goal for path in found if f"::{path}".endswith(f"::{it}") for goal in found[path]] for it in functions}
        return {function: found for function, found in goals.items() if found}, ran.stdout


def goals_in(said):
    """The goals that a check didn't prove, by the paths of their functions below the crate."""
    goals, searched = {}, []
    for line in said.splitlines():
        if found := ANSWERED.match(line):
            if not NO_REFUSAL.search(found[3]):
                goals.setdefault(found[1].replace("/+", "/").replace("/", "::"), []).append(found[2])
        elif found := SEARCHED.match(line):
            searched.append(found[1])
        elif found := FUNCTION.match(line):
            goals.setdefault(found[1], []).extend(searched)
            searched = []
    return goals
