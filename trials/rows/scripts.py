"""oramsim: its scripts, streams that fail, and a person who types a script."""

import os
import resource
import signal
import subprocess
from pathlib import Path

from trials.connections import read_pipe
from trials.processes import LONGEST_WAIT, begin
from trials.rows.blocks import blocks_of

SCRIPT = b"device 8 16 4 8 100\nread 1 5 6 3\nanswer\n"
PRINTED = [b"ready 1\n", b"accepted 0\nfetch 0 6\n", b"store 0 6\n"]
# The status if the input can't be read, or the output can't be written.
STREAM_FAULT = 4


def run(oramsim, **how):
    return subprocess.run([oramsim], timeout=LONGEST_WAIT, **how)


def script_of(lines):
    """The bytes that the lines of a block spell."""
    if lines == ["(nothing)"]:
        return b""
    text = "".join(f"{'' if line == '(empty)' else line}\n" for line in lines)
    return (text[:-2] if text.endswith("\\\n") else text).encode()


def try_scripts(tally, oramsim):
    """Each script ends with its status, and prints what its block says."""
    for number, lines in enumerate(blocks_of("oramsim.rows"), 1):
        at = next(i for i, line in enumerate(lines) if line.startswith("=> "))
        wanted = (int(lines[at][3:]), "".join(f"{line}\n" for line in lines[at + 1 :]))
        ran = run(oramsim, input=script_of(lines[:at]), capture_output=True)
        seen = (ran.returncode, ran.stdout.decode(errors="replace"))
        tally.check(f"block {number} of rows/oramsim.rows, {lines[:2]}", seen == wanted, seen)


def limited(size):
    """What a process does first so that it can write this number of bytes to a file, and gets an error if it writes more."""

    def limit():
        signal.signal(signal.SIGXFSZ, signal.SIG_IGN)
        resource.setrlimit(resource.RLIMIT_FSIZE, (size, size))

    return limit


def try_failing_streams(tally, oramsim, folder):
    """The status is 4 if the input can't be read, or if the output can't be written; a beginning of the output is there."""
    directory = os.open(folder, os.O_RDONLY)
    ran = run(oramsim, stdin=directory, capture_output=True)
    os.close(directory)
    tally.check("input that can't be read", (ran.returncode, ran.stdout) == (STREAM_FAULT, b""), ran)
    printed = b"".join(PRINTED)
    for size in range(len(printed) + 1):
        path = Path(folder) / "printed"
        with path.open("wb") as out:
            ran = run(oramsim, input=SCRIPT, stdout=out, preexec_fn=limited(size))
        seen = (ran.returncode, path.read_bytes())
        tally.check(f"output of {size} bytes at most", seen == (0 if size == len(printed) else STREAM_FAULT, printed[:size]), seen)


def try_typing(tally, oramsim):
    """Each line is answered before the next is typed. Lines that come together are answered by one write."""
    process = begin([oramsim], stdin=subprocess.PIPE, stdout=subprocess.PIPE, bufsize=0)
    for line, printed in zip(SCRIPT.splitlines(keepends=True), PRINTED):
        # A line in two pieces is answered once its end is there.
        process.stdin.write(line[:3])
        process.stdin.write(line[3:])
        tally.check(f"what {line} prints", read_pipe(process.stdout, len(printed)) == printed)
    process.stdin.close()
    tally.check("a typed session's end", (process.stdout.read(), process.wait(LONGEST_WAIT)) == (b"", 0))
    process.stdout.close()
    # A pipe of packets gives what one write wrote.
    near, far = os.pipe2(os.O_DIRECT)
    run(oramsim, input=SCRIPT, stdout=far)
    os.close(far)
    tally.check("lines that come together are answered by one write", os.read(near, 4096) == b"".join(PRINTED))
    os.close(near)
