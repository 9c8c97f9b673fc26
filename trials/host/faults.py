"""The faults of a host: words and settings, a file and a port that others have, and the folder that `new` makes."""

from trials import strace
from trials.bucket_host import Host, HostClient
from trials.bucket_messages import DONE, SHAPE_TAKEN, refused
from trials.connections import connect
from trials.host.files import A_SHAPE, check_refused, try_other_files, try_presence, write_settings
from trials.host.kills import kill_children
from trials.processes import end_of
from trials.statuses import BAD_FILE, BAD_WORDS, EXISTS, FILE_HELD, LISTENER_TAKEN


def try_faults(trial):
    """Each fault of a host has a line and a status."""
    folder = trial.folder / "faults"
    folder.mkdir()
    try_words_and_settings(trial, folder)
    try_other_files(trial, folder)
    try_presence(trial, folder)
    try_taken(trial, folder)
    try_elsewhere(trial, folder)
    try_accepting(trial, folder)
    try_new(trial)


def try_words_and_settings(trial, folder):
    """Words and settings that can't be read, or name a folder that isn't there."""
    end = end_of(trial.start("host"))
    holds = end.err.startswith(b"oramdisk: the following required arguments were not provided:\n  <SETTINGS>\n")
    trial.check("bad words", (end.status, end.out) == (BAD_WORDS, b"") and holds, end)
    line = "oramdisk: none.toml: no such file or folder: see that its name is right"
    trial.ends("no settings", trial.start("host", "none.toml", folder=folder), BAD_FILE, line)
    write_settings(folder, "", "127.0.0.1:7001")
    bad = "oramdisk: host.toml, line 2: file has to be the name of a file in quotation marks"
    trial.ends("bad settings", trial.start("host", "host.toml", folder=folder), BAD_WORDS, bad)
    write_settings(folder, "none/buckets")
    nowhere = "can't open, read or write none/buckets: see that it is there and may be written, and that its disk has room"
    trial.ends("a file in no folder", trial.start("host", "--new", "host.toml", folder=folder), BAD_FILE, f"oramdisk: {nowhere}")


def try_taken(trial, folder):
    """A second host has neither the file of the first nor its port."""
    host = Host(trial.oramdisk, folder / "first").start()
    client = host.client()
    trial.check("the first host answers", client.ask(A_SHAPE) == DONE)
    client.close()
    write_settings(folder, "first/buckets")
    held = "oramdisk: first/buckets is held by another process: end that one first"
    check_refused(trial, "a file that is held", host.path(), lambda: trial.start("host", "host.toml", folder=folder), FILE_HELD, held)
    write_settings(folder, "second", f"127.0.0.1:{host.port}")
    taken = f"oramdisk: can't listen at 127.0.0.1:{host.port}: see that no other program listens there, that it is a place of this machine, and that you may use it"
    trial.ends("a port that is taken", trial.start("host", "--new", "host.toml", folder=folder), LISTENER_TAKEN, taken)
    trial.check("and no file is made", not (folder / "second").exists())
    client = host.client()
    trial.check("the first host goes on", client.ask(A_SHAPE) == refused(SHAPE_TAKEN))
    client.close()
    host.stop()


def try_elsewhere(trial, folder):
    """The file's name is relative to the folder of the settings, wherever the host is started."""
    home = folder / "home"
    home.mkdir()
    port = write_settings(home, "its_buckets")
    process = trial.start("host", "--new", "home/host.toml", folder=folder)
    client = HostClient(connect(port, process))
    trial.check("a host that is started elsewhere", client.ask(A_SHAPE) == DONE)
    client.close()
    process.terminate()
    end_of(process)
    trial.check("its file", (home / "its_buckets").exists() and not (folder / "its_buckets").exists())


# The errors of the system for which only one connection isn't accepted.
ERRORS_OF_ONE = ("ECONNABORTED", "ECONNRESET", "EHOSTUNREACH", "ENETUNREACH", "ENETDOWN", "ETIMEDOUT")


def try_accepting(trial, folder):
    """An error that concerns one connection keeps the host from accepting that one alone; after any other, the host ends."""
    if not strace.is_usable():
        trial.skip()
        return
    host = Host(trial.oramdisk, folder / "accepting").start()
    host.client().close()
    host.stop()
    for error in ERRORS_OF_ONE:
        host.start(strace.failing("accept4", error, 1))
        client = host.client()
        trial.check(f"a connection after {error}", client.ask(b"") is not None)
        client.close()
        kill_children(host.process)
        host.wait()
    host.start(strace.failing("accept4", "EMFILE", 1))
    client = host.client()
    trial.check("no connection after EMFILE", client.ask(b"") is None)
    client.close()
    host.wait()
    end = (host.process.returncode, host.lines()[-1])
    trial.check("the host ends then", end == (LISTENER_TAKEN, "oramdisk: can't accept connections: start it again"), end)


MADE = """\
oramdisk: made mydisk for a disk of 1 GiB: disk.toml with its key, which stays here, and host.toml for the rented machine
oramdisk: its host will store up to about 2.2 GB of it
oramdisk: the client keeps records of 16.9 MB itself
Next, once host.toml is at the rented machine, and a tunnel leads there (ssh -N -o StreamLocalBindUnlink=yes -L mydisk/buckets.sock:/home/you/buckets.sock you@rented):
  there:  oramdisk host --new host.toml
  here:   oramdisk format mydisk/disk.toml
  here:   oramdisk serve mydisk/disk.toml
Clients of NBD then connect to nbd+unix:///?socket=mydisk/disk.sock
"""


def try_new(trial):
    """A folder is made once, for its owner alone, and has the settings of a host."""
    made = end_of(trial.start("new", "mydisk", "--size", "1GiB"))
    trial.check("a new folder", (made.status, made.out, made.err.decode()) == (0, b"", MADE), made)
    folder = trial.folder / "mydisk"
    file = folder / "host.toml"
    trial.check("its mode", (folder.stat().st_mode & 0o777, file.stat().st_mode & 0o777) == (0o700, 0o600))
    text = file.read_text()
    values = [line for line in text.splitlines() if not line.startswith("#")]
    trial.check("its settings", values == ['listen = "unix:buckets.sock"', 'file = "buckets"'], text)
    line = "oramdisk: mydisk is there already, and is left as it is: name another folder"
    check_refused(trial, "the same folder again", file, lambda: trial.start("new", "mydisk", "--size", "1GiB"), EXISTS, line)
    trial.check("nothing else is in it", sorted(found.name for found in folder.iterdir()) == ["disk.toml", "host.toml"])
    no_file = "oramdisk: none/mydisk: no such file or folder: see that its name is right"
    trial.ends("a folder in no folder", trial.start("new", "none/mydisk", "--size", "1GiB"), BAD_FILE, no_file)
