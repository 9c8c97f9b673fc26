"""The programs that are tried, and where they are.

    python3 -m trials.programs NAME ..             whether these programs are proved and built, and newer than what they are made of
    python3 -m trials.programs --unproved NAME     builds this program without proofs if such a one isn't up to date, and prints its file
"""

import fcntl
import subprocess
import sys
from pathlib import Path

from trials import unproved

# The folder of the repository.
TOP = Path(__file__).resolve().parent.parent


def crates_of(name):
    """The crates of the repository that a program is made of."""
    lines = [line.split("#")[0].split(":") for each in unproved.LISTS for line in each.read_text().splitlines() if ":" in line]
    below = {line[0].split()[0]: line[1].split() for line in lines}
    found, left = set(), [name]
    while left:
        crate = left.pop()
        if crate in below and crate not in found:
            found.add(crate)
            left += below[crate]
    return found


def folder_of(crate):
    """The folder of a crate, which is one of two."""
    proved = TOP / "crates" / crate
    return proved if proved.exists() else unproved.UNPROVED / crate


def unproved_file(name):
    """Where a program is that is built without proofs."""
    return folder_of(name) / "out" / ("unproved" if folder_of(name).parent == unproved.PROVED else "") / name


def up_to_date(name, program=None):
    """The file of a built program, by default of the one that the trials take; None if it isn't there, or isn't newer than all that it is
    made of."""
    program = program or folder_of(name) / "out" / name
    if not program.exists():
        return None
    files = [file for crate in crates_of(name) for part in ("src", "specs", "proofs") for file in (folder_of(crate) / part).glob("**/*")]
    return None if any(file.stat().st_mtime > program.stat().st_mtime for file in files) else program


def built(name):
    """The file of a program. If it isn't newer than all that it is made of, it is built first: proved, but for those of `unproved`."""
    program = up_to_date(name)
    if program is None:
        if name in unproved.programs():
            return built_unproved(name)
        prove(name)
        program = up_to_date(name)
        if program is None:
            raise SystemExit(f"{name} was not built: 0 passed, 1 failed")
    return program


def built_unproved(name):
    """The file of a program that is built without proofs. If it isn't up to date, it is built first, unless another process does so
    meanwhile."""
    program = unproved_file(name)
    program.parent.mkdir(parents=True, exist_ok=True)
    with (program.parent / "lock").open("w") as lock:
        fcntl.flock(lock, fcntl.LOCK_EX)
        if up_to_date(name, program) is None:
            unproved.build(name, program)
    if up_to_date(name, program) is None:
        raise SystemExit(f"{name} was not built: 0 passed, 1 failed")
    return program


def prove(name):
    """Proves and builds a program. It is run once, on words that do no harm, since that is how rt builds it."""
    print(f"{name} is proved and built first", file=sys.stderr, flush=True)
    words = {"oramd": ["loop", "00000000"], "oramdisk": ["host", "none.toml"]}.get(name, [])
    crate = TOP / "crates" / name
    ran = subprocess.run(["rt", "run", "--", *words], cwd=crate, stdin=subprocess.DEVNULL, stdout=subprocess.PIPE, stderr=subprocess.STDOUT)
    sys.stderr.buffer.write(ran.stdout)
    # If only the times of its files are new, rt leaves a program as it is.
    if b"rt: nothing has changed since the last proved build" in ran.stdout:
        (crate / "out" / name).touch()


def given_or_built(usage, *names):
    """The files of these programs: those that the command line of the script gives, or those of the repository if it gives none."""
    given = sys.argv[1:]
    if {"-h", "--help"} & set(given):
        print(usage.strip())
        sys.exit()
    if given and len(given) != len(names):
        sys.exit(usage)
    return [Path(word).resolve() for word in given] or [built(name) for name in names]


if __name__ == "__main__":
    if sys.argv[1:2] == ["--unproved"] and len(sys.argv) == 3:
        print(built_unproved(sys.argv[2]))
        sys.exit()
    sys.exit(any(up_to_date(name) is None for name in sys.argv[1:]))
