"""The row programs: each reads rows of calls to the libraries, and writes each row with what the call answered."""

import subprocess

from trials import unproved
from trials.programs import folder_of

# The seconds that a program has for all of its rows.
LONGEST_RUN = 300


def row_programs():
    """The programs of `unproved` that have rows."""
    return [name for name in unproved.programs() if rows_of(name).exists()]


def rows_of(name):
    """The file of a program's rows. It is what the program has to write, too."""
    return folder_of(name) / "rows"


def try_library_rows(tally, name, program):
    """Each row is answered as it says."""
    rows = rows_of(name).read_bytes()
    ran = subprocess.run([program], input=rows, stdout=subprocess.PIPE, timeout=LONGEST_RUN)
    wanted, wrote = rows.decode().split("\n"), ran.stdout.decode(errors="replace").split("\n")
    tally.check(f"{name} ends with status 0, and writes as many lines as it read", (ran.returncode, len(wrote)) == (0, len(wanted)), (ran.returncode, len(wrote)))
    for row, line in zip(wanted, wrote):
        if row and not row.startswith("#"):
            tally.check(f"{name}: {row}", line == row, line)
