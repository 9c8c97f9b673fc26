"""What held and what didn't, in numbers."""

import os
import traceback

from trials.processes import end_all_since, end_of, number_begun


class Tally:
    """Counts what held and what didn't, and what couldn't be tried here."""

    def __init__(self):
        self.passed = self.failed = self.skipped = 0

    def check(self, what, holds, seen=""):
        """Counts whether something holds. If it doesn't, prints what it is and what was seen in its place."""
        if holds:
            self.passed += 1
        else:
            self.failed += 1
            print(f"FAILED: {what}{f': {seen}' if seen != '' else ''}", flush=True)

    def skip(self, why=None):
        """Counts a part that can't be tried here, and prints why if that is given."""
        self.skipped += 1
        if why:
            print(why, flush=True)

    def try_part(self, part, *arguments, what=None):
        """Makes a part of a trial. An exception ends that part alone, with the processes that it began, and counts as failed: the other
        parts are still tried."""
        before = number_begun()
        try:
            part(*arguments)
        except Exception:
            self.failed += 1
            print(f"FAILED: {what or part.__name__} was ended by an exception:\n{traceback.format_exc()}", end="", flush=True)
            end_all_since(before)

    def ends(self, what, process, status, line=""):
        """Checks that a process ends with this status, with this line on standard error, and with nothing on standard output."""
        end = end_of(process)
        self.check(what, (end.status, end.out, end.err.decode(errors="replace")) == (status, b"", f"{line}\n" if line else ""), end)

    def report(self):
        """Prints the last lines of a trial, and returns the status that its script ends with. What was skipped counts as failed if CI is set,
        since nobody sees it there."""
        print(f"{self.skipped} skipped")
        if os.environ.get("CI"):
            self.failed += self.skipped
        print(f"{self.passed} passed, {self.failed} failed")
        return 1 if self.failed else 0
