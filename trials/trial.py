"""What the parts of one trial share."""

import contextlib
import os
import random
import tempfile
from pathlib import Path

from trials.bucket_host import Host
from trials.processes import start
from trials.tally import Tally


def seeded_dice():
    """The random choices of a trial. Their seed is that of the environment, if one is named there, and is printed."""
    seed = int(os.environ.get("SEED") or random.SystemRandom().randrange(1 << 32))
    print(f"seed {seed}", flush=True)
    return random.Random(seed)


class Trial:
    """The programs that are tried, a folder, the random choices, and what held and what didn't."""

    def __init__(self, oramdisk, oramd, folder, dice):
        self.oramdisk, self.oramd, self.folder, self.dice = str(oramdisk), str(oramd), Path(folder), dice
        self.tally = Tally()

    def check(self, what, holds, seen=""):
        self.tally.check(what, holds, seen)

    def ends(self, what, process, status, line):
        self.tally.ends(what, process, status, line)

    def try_part(self, part, *arguments):
        self.tally.try_part(part, self, *arguments)

    def skip(self, why=None):
        self.tally.skip(why)

    def host(self, name):
        """A host with a folder of this name."""
        return Host(self.oramdisk, self.folder / name)

    def start(self, *words, folder=None):
        """Starts oramdisk with these words."""
        return start([self.oramdisk, *words], folder or self.folder)

    def start_under(self, under, *words, folder=None):
        """Starts oramdisk with these words, under a program that watches it."""
        return start([*under, self.oramdisk, *words], folder or self.folder)

    def report(self):
        return self.tally.report()


@contextlib.contextmanager
def new_trial(prefix, oramdisk, oramd=None):
    """A trial in a new folder whose name begins with this prefix, and which is removed at the end."""
    dice = seeded_dice()
    with tempfile.TemporaryDirectory(prefix=prefix) as folder:
        yield Trial(oramdisk, oramd, folder, dice)
