"""A host that listens at a Unix socket."""

import os
import signal
import stat

from trials import strace
from trials.bucket_host import HostClient
from trials.bucket_messages import DONE, SHAPE_TAKEN, refused
from trials.connections import connect
from trials.host.files import A_SHAPE, write_settings
from trials.processes import end_of
from trials.statuses import LISTENER_TAKEN, NO_BUCKETS


def try_host_socket(trial):
    """The socket is its owner's alone, and its name is relative to the folder of the settings. A host takes the place of one that was
    killed, and not that of one that lives, nor of another file."""
    folder, home = trial.folder / "host-socket", trial.folder / "host-socket/home"
    home.mkdir(parents=True)
    write_settings(home, "buckets", "unix:buckets.sock")
    place = home / "buckets.sock"
    process = trial.start("host", "--new", "home/host.toml", folder=folder)
    check_answer(trial, "a host at a socket", place, process, DONE)
    mode = place.stat().st_mode
    trial.check("a socket of its owner alone", stat.S_ISSOCK(mode) and stat.S_IMODE(mode) == 0o600, oct(mode))
    trial.check("nothing else is left", sorted(found.name for found in home.iterdir()) == ["buckets", "buckets-log", "buckets.sock", "host.toml"])
    write_settings(folder, "other", "unix:home/buckets.sock")
    line = "oramdisk: can't listen at home/buckets.sock: see that no other program listens there, that it is a place of this machine, and that you may use it"
    trial.ends("a socket that is taken", trial.start("host", "--new", "host.toml", folder=folder), LISTENER_TAKEN, line)
    trial.check("and no file is made", not (folder / "other").exists())
    check_answer(trial, "the first host goes on", place, process, refused(SHAPE_TAKEN))
    process.send_signal(signal.SIGKILL)
    end = end_of(process)
    listening = "oramdisk: listening at unix:home/buckets.sock, with the buckets in home/buckets"
    trial.check("its lines", listening in end.err.decode().splitlines() and b" a local client from " in end.err, end)
    trial.check("a killed host leaves its socket", place.is_socket())
    process = trial.start("host", "home/host.toml", folder=folder)
    check_answer(trial, "a host in its place", place, process, refused(SHAPE_TAKEN))
    process.terminate()
    end_of(process)
    try_file_in_place(trial, folder, home, place)
    try_ended(trial, folder)
    try_modes(trial, folder)


def check_answer(trial, what, place, process, wanted):
    client = HostClient(connect(place, process))
    trial.check(what, client.ask(A_SHAPE) == wanted)
    client.close()


def try_file_in_place(trial, folder, home, place):
    """A file that is no socket stays."""
    place.unlink()
    place.write_text("a file")
    line = "oramdisk: can't listen at home/buckets.sock: see that no other program listens there, that it is a place of this machine, and that you may use it"
    trial.ends("a file in place of a socket", trial.start("host", "home/host.toml", folder=folder), LISTENER_TAKEN, line)
    trial.check("the file stays", place.read_text() == "a file")


def try_ended(trial, folder):
    """A host that can't serve its file takes its socket away when it ends."""
    (folder / "text").write_text("no buckets")
    write_settings(folder, "text", "unix:ended.sock")
    line = "oramdisk: text isn't a file of buckets, and is left as it is: name another file"
    trial.ends("a host of no buckets", trial.start("host", "host.toml", folder=folder), NO_BUCKETS, line)
    trial.check("its socket is gone", not (folder / "ended.sock").exists())


def try_modes(trial, folder):
    """At no moment can anybody else connect, even if new files are everybody's: the socket is made in a folder that only its owner can open,
    and has its mode when it gets its name."""
    if not strace.is_usable():
        trial.skip()
        return
    other = folder / "modes"
    other.mkdir()
    write_settings(other, "buckets", "unix:buckets.sock")
    calls = other / "calls"
    words = ["sh", "-c", 'umask 0; exec "$@"', "sh", *strace.noting("mkdir,mkdirat,bind,chmod,fchmodat,rename,renameat,renameat2,listen", str(calls))]
    process = trial.start_under(words, "host", "--new", "host.toml", folder=other)
    check_answer(trial, "a host with an open umask", other / "buckets.sock", process, DONE)
    os.killpg(process.pid, signal.SIGKILL)
    end_of(process)
    text = calls.read_text()
    order = [text.find(part) for part in ('"buckets.sock~", 0700', 'sun_path="buckets.sock~/s"', '"buckets.sock~/s", 0600', '"buckets.sock~/s", "buckets.sock"')]
    trial.check("made in a closed folder, given its mode, and then its name", -1 not in order and order == sorted(order), text[-600:])
