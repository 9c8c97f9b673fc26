"""Processes that a trial starts, and how they end."""

import atexit
import os
import signal
import subprocess

# The seconds that a trial waits for a connection, a reply or the end of a process.
LONGEST_WAIT = 60
# The processes that were begun, in order.
BEGUN = []


class Ended:
    """How a process ended."""

    def __init__(self, status, out, err):
        self.status, self.out, self.err = status, out, err

    def __str__(self):
        return f"status {self.status}, standard output {self.out!r}, standard error {self.err!r}"


def begin(words, **how):
    """Starts a process. It and those that it starts are a group of their own, which ends with the trial at the latest."""
    BEGUN.append(subprocess.Popen(words, start_new_session=True, **how))
    return BEGUN[-1]


def number_begun():
    """How many processes were begun so far."""
    return len(BEGUN)


@atexit.register
def end_all_since(number=0):
    """Kills the processes that still run, of all that were begun after the first `number` ones."""
    for process in BEGUN[number:]:
        if process.poll() is None:
            os.killpg(process.pid, signal.SIGKILL)
            process.wait()


def start(words, folder, **more):
    """Starts a program in a folder, without input, and with pipes for what it writes."""
    pipes = {"stdin": subprocess.DEVNULL, "stdout": subprocess.PIPE, "stderr": subprocess.PIPE}
    return begin(words, cwd=folder, **{**pipes, **more})


def end_of(process):
    """Waits for the end of a process, and returns how it ended."""
    try:
        out, err = process.communicate(timeout=LONGEST_WAIT)
    except subprocess.TimeoutExpired:
        process.kill()
        out, err = process.communicate()
        return Ended("none: it was killed after a minute", out, err)
    return Ended(process.returncode, out, err)
