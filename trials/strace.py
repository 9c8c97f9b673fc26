"""The system calls of a process, as strace sees and disturbs them."""

import dataclasses
import functools
import re
import shutil
import signal
import subprocess
import tempfile
from pathlib import Path

from trials.processes import end_of, start


@functools.cache
def is_usable():
    """Whether strace is here, and the system lets it trace."""
    return shutil.which("strace") is not None and subprocess.run(["strace", "-o", "/dev/null", "true"], capture_output=True).returncode == 0


def killing_before(calls, when):
    """The words that start a program under strace, which kills it right before one of these calls: the one with this
    number."""
    return ["strace", "-f", "-o", "/dev/null", "-e", f"trace={calls}", "-e", f"inject={calls}:signal=SIGKILL:when={when}"]


def denying(file):
    """The words that start a program under strace, which makes each attempt to open this file fail for lack of
    permission."""
    return ["strace", "-f", "-o", "/dev/null", "-P", file, "-e", "trace=openat", "-e", "inject=openat:error=EACCES"]


def failing(call, error, when):
    """The words that start a program under strace, which makes this call fail once with an error of the system: the call with this
    number."""
    return ["strace", "-f", "-o", "/dev/null", "-e", f"trace={call}", "-e", f"inject={call}:error={error}:when={when}"]


def failing_on(file, calls, error, when):
    """The words that start a program under strace, which makes one of these calls fail once with an error of the system: the call with
    this number among those that are about this file."""
    names = ["-P", file.name, "-P", str(file)]
    return ["strace", "-f", "-o", "/dev/null", *names, "-e", f"trace={calls}", "-e", f"inject={calls}:error={error}:when={when}"]


def failing_on_each(file, error, whens):
    """The words that start a program under strace, which makes calls fail with an error of the system: for each name of a call, the calls with
    these numbers (as strace writes them, such as 2 or 2..4) among those that are about this file."""
    names = ["-P", file.name, "-P", str(file)]
    injects = [word for call, when in whens.items() for word in ("-e", f"inject={call}:error={error}:when={when}")]
    return ["strace", "-f", "-o", "/dev/null", *names, "-e", f"trace={','.join(whens)}", *injects]


def giving_random(known):
    """The words that start a program under strace, which gives it these bytes in place of random ones. The first call for random bytes is
    the C library's own."""
    return ["strace", "-f", "-o", "/dev/null", "-e", "trace=getrandom", "-e", f"inject=getrandom:poke_exit=@arg1={known.hex()}:when=2"]


def noting(calls, file):
    """The words that start a program under strace, which writes these calls to a file, with the names of the files that they are about."""
    return ["strace", "-f", "-y", "-o", file, "-e", f"trace={calls}"]


def noting_bytes(calls, file):
    """The words that start a program under strace, which writes these calls to a file, with all their bytes and the names of the files
    that they are about."""
    return ["strace", "-f", "-y", "-xx", "-s", str(1 << 20), "-o", file, "-e", f"trace={calls}"]


def noting_bytes_and_failing(calls, file, call, when):
    """The words that start a program under strace as `noting_bytes` does, and make this call fail once with an error of the disk: the call
    with this number."""
    return [*noting_bytes(calls, file), "-e", f"inject={call}:error=EIO:when={when}"]


@dataclasses.dataclass
class Call:
    """A call that was done: a write, with its file, place and bytes; a sync of a file or folder; a new file, a file with a new name, or one
    that was removed; or something that was sent. Or a sync that was made to fail."""

    name: str
    file: Path
    data: bytes = b""
    place: int = 0
    new_name: Path = None

    def is_write(self):
        return self.name == "pwrite64"

    def is_sync(self):
        return self.name in ("fsync", "fdatasync")

    def is_failed_sync(self):
        return self.name == "failed sync"

    def is_send(self):
        return self.name == "sendto"


# The calls that change files or names, sync them, or send something.
CHANGES_AND_SENDS = "pwrite64,ftruncate,fallocate,fsync,fdatasync,sendto,openat,rename,renameat,renameat2,unlink,unlinkat"


def changes_and_sends(text):
    """The calls of a process that succeeded and changed something, by the lines that strace writes if it notes bytes. Fails on a call of
    another kind."""
    found = []
    for line in text.splitlines():
        call, _, result = line.partition(" ")[2].strip().rpartition(" = ")
        if not re.match(r"\w+\(", call) or (result.startswith("-1") and " EIO " not in result):
            continue
        line = f"{call.rstrip()} = {result}"
        if wrote := re.fullmatch(r'pwrite64\(\d+<(.*)>, "(.*)", \d+, (\d+)\) += (\d+)', line):
            data = from_hex(wrote[2])[: int(wrote[4])]
            found.append(Call("pwrite64", path_in(wrote[1]), data, int(wrote[3])))
        elif synced := re.fullmatch(r"(fsync|fdatasync)\(\d+<(.*)>\) += 0", line):
            found.append(Call(synced[1], path_in(synced[2])))
        elif failed := re.fullmatch(r"f(?:data)?sync\(\d+<(.*)>\) += -1 EIO .*", line):
            found.append(Call("failed sync", path_in(failed[1])))
        elif line.startswith("sendto("):
            found.append(Call("sendto", None))
        elif renamed := re.fullmatch(r'rename\w*\((?:AT_FDCWD<.*>, )?"(.*)", (?:AT_FDCWD<.*>, )?"([^"]*)".*\) += 0', line):
            found.append(Call("rename", path_in(renamed[1]), new_name=path_in(renamed[2])))
        elif removed := re.fullmatch(r'unlink\w*\((?:AT_FDCWD<.*>, )?"(.*)".*\) += 0', line):
            found.append(Call("unlink", path_in(removed[1])))
        elif opened := re.fullmatch(r'openat\(AT_FDCWD<.*>, "(.*)", ([A-Z_|]+).*\) += \d+<.*>', line):
            if "O_CREAT" in opened[2]:
                found.append(Call("create", path_in(opened[1])))
        else:
            raise ValueError(f"a call of another kind: {line[:80]}")
    return found


def path_in(text):
    """The path that strace shows in hexadecimal digits."""
    return Path(from_hex(text).decode())


def from_hex(text):
    """The bytes that strace shows as \\x41\\x42."""
    return bytes.fromhex(text.replace("\\x", ""))


def trace_renames_and_syncs(folder, *words):
    """Runs a program to its end. Returns how it ended, and its renames, links and syncs that were done, in order: each as the call with the new
    name or the file. Returns None for both if strace can't be used."""
    end, calls = trace_steps(folder, *words)
    return end, calls and [(step, file) for step, file in calls if step not in ("write", "send")]


def trace_steps(folder, *words):
    """Runs a program to its end. Returns how it ended, and its steps in order. Returns None for both if strace can't be used."""
    with tempfile.NamedTemporaryFile() as found:
        if not is_usable():
            return None, None
        tracer = ["strace", "-f", "-y", "-o", found.name, "-e", f"trace={STEPS}"]
        end = end_of(start([*tracer, *words], folder))
        return end, steps_in(Path(found.name).read_text())


# Writes to places, syncs, new names, and what is sent.
STEPS = "pwrite64,fsync,fdatasync,rename,renameat,renameat2,link,linkat,sendto"
STEP = re.compile(r'(pwrite)64\(\d+<([^>]*)>.* = \d+|(sync)\(\d+<([^>]*)>\) += 0|(rename|link)\w*\(.*"([^"\n]*)"[^"\n]*\) += 0|(send)to\(')


def steps_in(text):
    """The steps in the lines that strace has written: each as what it does, with the file or its new name. Those that are sent have no file."""
    steps = []
    for wrote, written, synced, file, named, name, sent in STEP.findall(text):
        steps.append(("write" if wrote else synced or named or sent, written or file or name))
    return steps


def steps_while(process, ask):
    """The steps of a process while `ask` asks something of it; None if they can't be seen here."""
    text = trace_while(process, ask, STEPS)
    return text and steps_in(text)


def count_syncs(process, ask):
    """How many syncs a process makes while `ask` asks something of it; None if they can't be counted here."""
    text = trace_while(process, ask, "fsync,fdatasync")
    return None if text is None else len(re.findall(r"f(?:data)?sync\(", text))


def trace_while(process, ask, calls):
    """The lines that strace writes about these calls of a process while `ask` asks something of it; None if it can't be used here."""
    with tempfile.NamedTemporaryFile() as found:
        words = ["strace", "-f", "-y", "-e", f"trace={calls}", "-o", found.name, "-p", str(process.pid)]
        tracer = subprocess.Popen(words, stderr=subprocess.PIPE)
        if b"attached" not in tracer.stderr.readline():
            tracer.wait()
            return None
        ask()
        tracer.send_signal(signal.SIGINT)
        tracer.communicate()
        return Path(found.name).read_text()
