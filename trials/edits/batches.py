"""The must-fail edits of a crate, tried together.

A function is proved from its own body and from the contracts of what it calls, never from the bodies of those. So edits of different
functions can be tried in one check: an edit is refused if a goal of its own function isn't proved. A separate
check for each edit would read the same libraries each time.
"""

import time
from tempfile import TemporaryDirectory

from trials.edits.edit import read_edit
from trials.edits.prover import Prover
from trials.programs import crates_of


class Batches:
    """The edits of one crate, tried over the libraries in the folder `tree`, and what was refused. No check begins once the clock
    (`time.monotonic`, which all processes share) has passed `until`; the edits that this leaves out are counted."""

    def __init__(self, folder, tree, until):
        self.name, self.folder, self.tree, self.prover, self.until = folder.name, folder, tree, None, until
        # The crates of the repository that this one is made of.
        self.libraries = crates_of(self.name) - {self.name}
        self.texts = {str(file.relative_to(folder)): file.read_text() for file in (folder / "src").rglob("*.rt")}
        self.files = sorted((folder / "must-fail").glob("*.edit"))
        self.lines = []
        self.refused = self.failed = self.checks = self.left_out = 0

    def size(self):
        return sum(map(len, self.texts.values()))

    def try_all(self):
        """Tries every edit, unless all were refused before and nothing that they depend on has changed. Returns itself, since a
        process of its own does this."""
        self.prover = Prover(self.tree, self.name)
        kept, mark = self.folder / "out" / "edits", self.prover.mark(self.files)
        if complaint := self.prover.complaint():
            self.fail("", f"isn't tried over {self.tree}: {complaint}")
        elif kept.is_file() and kept.read_text() == mark:
            self.refused = len(self.files)
            self.lines.append(f"{self.name}: all were refused before, and nothing that they stand on has changed")
        else:
            self.try_batches(self.read_edits())
            if not self.failed and not self.left_out:
                kept.parent.mkdir(exist_ok=True)
                kept.write_text(mark)
        self.prover = None
        return self

    def read_edits(self):
        edits = []
        for file in self.files:
            try:
                edits.append(read_edit(file, self.texts))
            except (ValueError, KeyError) as fault:
                self.fail(file.stem, f"can't be tried: {fault}")
        return edits

    def try_batches(self, left):
        """Tries one edit of each function in the first check, another one in the second, and so on. What a check proves of the functions
        that aren't edited is kept for the checks after it."""
        with TemporaryDirectory(prefix="edits-") as proved:
            while left:
                if time.monotonic() > self.until:
                    self.leave_out(len(left))
                    break
                batch = {edit.function: edit for edit in reversed(left)}.values()
                left = [edit for edit in left if edit not in batch]
                for edit in self.try_together(batch, proved):
                    if len(batch) == 1 or self.try_together([edit], proved):
                        self.fail(edit.name, f"isn't refused: `{edit.function}` has no goal that isn't proved; see the lines above")

    def try_together(self, edits, proved):
        """Tries edits of different functions in one check, and returns those whose functions have no goal that was refused."""
        texts = dict(self.texts)
        applied = [edit for edit in edits if edit.apply(texts)]
        goals, said = self.prover.check(texts, {edit.function for edit in applied}, proved)
        self.checks += 1
        refused = [edit for edit in applied if edit.function in goals]
        self.refused += len(refused)
        for edit in refused:
            self.lines.append(f"{self.name}/{edit.name}: refused by {edit.function}: {', '.join(dict.fromkeys(goals[edit.function]))}")
        passed = [edit for edit in edits if edit not in refused]
        if passed and len(edits) == 1:
            self.lines += said.splitlines()[-12:]
        return passed

    def leave_out(self, count):
        self.left_out += count
        self.lines.append(f"{self.name}: {count} edits are left out, since the time for edits is over")

    def fail(self, edit, why):
        self.failed += 1
        self.lines.append(f"FAILED: {self.name}/{edit} {why}")
