"""The proofs that `rt ci` makes meanwhile: which crates are proved, and how many checks of edits the machine has room for beside them."""

import os
import re
from pathlib import Path

# What `rt ci` writes of a crate that is proved, now or by an earlier run.
PROVED = re.compile(r"rt: (\w+) (?:proved$|is kept: )")
# What a proof and a check of edits may take of the memory, in KiB.
OF_A_PROOF, OF_A_CHECK = 3_500_000, 3_000_000


class Proofs:
    """What a run of `rt ci` has proved so far, by the lines that it writes into a pipe. Without a pipe the run has ended."""

    def __init__(self, pipe=None):
        self.pipe, self.ended, self.proved, self.begun = pipe, pipe is None, set(), ""
        if pipe is not None:
            os.set_blocking(pipe, False)

    def read(self):
        """Reads the lines that have come. No thread does this, since a process that has one can't be forked safely."""
        try:
            while not self.ended:
                came = os.read(self.pipe, 1 << 16)
                self.ended = not came
                *lines, self.begun = (self.begun + came.decode(errors="replace")).split("\n")
                self.proved.update(found[1] for line in lines if (found := PROVED.match(line)))
        except BlockingIOError:
            pass

    def hold(self, crates):
        """Whether all of these crates are proved, or nothing more will be."""
        return self.ended or self.proved.issuperset(crates)

    def room_for_checks(self):
        """How many checks of edits may run at a time: each takes a processor that no proof needs, and memory. After the proofs
        at least one runs."""
        processors = len(os.sched_getaffinity(0))
        if self.ended:
            return max(1, min(processors, kib("MemTotal") * 9 // 10 // OF_A_CHECK))
        return min(processors, (kib("MemTotal") * 95 // 100 - processors * OF_A_PROOF) // OF_A_CHECK)


def kib(line):
    """What this line of /proc/meminfo says, in KiB."""
    return int(Path("/proc/meminfo").read_text().split(f"{line}:")[1].split()[0])
