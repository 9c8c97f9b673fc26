"""Files that a host refuses and leaves as they are, and those that it makes and moves."""

import shutil
import signal
import sqlite3

from trials.bucket_file import BucketFile, log_of
from trials.bucket_host import Host, check_answers
from trials.bucket_messages import DONE, SHAPE_TAKEN, Model, refused, shape, store
from trials.host.kills import format_tree
from trials.ports import free_port
from trials.settings import toml_of
from trials.statuses import DAMAGED, EXISTS, NO_BUCKETS, NO_FILE, OTHER_VERSION, WRONG_LOG

NO_HOST = "is damaged, and is left as it is: name another file, and format anew"
A_SHAPE = shape(0, 1, 8)


def write_settings(folder, file, listen=None):
    """Writes host.toml into a folder, with a new port unless an address is given. Returns the new port."""
    port = None if listen else free_port()
    (folder / "host.toml").write_text(toml_of({"listen": listen or f"127.0.0.1:{port}", "file": file}))
    return port


def check_refused(trial, what, file, start, status, line):
    """The program, once it is started, ends with this status and line, and the file has the bytes that it had before."""
    before = file.read_bytes()
    trial.ends(what, start(), status, line)
    trial.check(f"{what}: the file is as it was", file.read_bytes() == before)


def used_host(trial, folder):
    """A host that was killed, whose file `whole` has some records, the last of them in its log. Returns it with its model."""
    host, model = Host(trial.oramdisk, folder, "whole").start(), Model()
    format_tree(trial, host, model, 3, 400)
    client = host.client()
    check_answers(trial, "STOREs", client, model, [store(0, leaf, [trial.dice.randbytes(400)] * 4) for leaf in range(8)])
    host.stop(signal.SIGKILL)
    client.close()
    return host, model


def try_other_files(trial, folder):
    """Files that are no host's, or not whole, are refused and left as they are."""
    text, older, first, newer, damaged, twice = make_other_files(trial, folder)
    no_file = f"oramdisk: {text.name} isn't a file of buckets, and is left as it is: name another file"
    older_is = "a file of an older version, and is left as it is: serve it with that version, or name another file, and format anew"
    for file, status, line in (
        (text, NO_BUCKETS, no_file),
        (older, OTHER_VERSION, f"oramdisk: {older.name} is {older_is}"),
        (first, OTHER_VERSION, f"oramdisk: earlier is {older_is}"),
        (newer, OTHER_VERSION, "oramdisk: newer is a file of buckets of a newer version, and is left as it is: serve it with that version"),
        (damaged, DAMAGED, f"oramdisk: damaged {NO_HOST}"),
        (twice, DAMAGED, f"oramdisk: twice {NO_HOST}"),
    ):
        write_settings(folder, file.name)
        check_refused(trial, f"a file of others, {file.name}", file, lambda: trial.start("host", "host.toml", folder=folder), status, line)


def make_other_files(trial, folder):
    """Random bytes, a SQLite file, files of the first and of a newer version, one whose first tree is damaged, and one that has a tree twice."""
    text, older = folder / "text", folder / "older.sqlite"
    text.write_bytes(trial.dice.randbytes(5000))
    with sqlite3.connect(older) as base:
        base.execute("CREATE TABLE shape (tree INTEGER PRIMARY KEY, depth INTEGER, record_len INTEGER)")
    base.close()
    host, _ = used_host(trial, folder)
    BucketFile(host.path()).replay()
    whole = host.path().read_bytes()
    first, newer, damaged, twice = (folder / name for name in ("earlier", "newer", "damaged", "twice"))
    first.write_bytes(whole[:8] + b"\1" + whole[9:])
    newer.write_bytes(whole[:8] + b"\4" + whole[9:])
    damaged.write_bytes(whole[:4097] + b"\x19" + whole[4098:])
    # A second tree where the first one is.
    twice.write_bytes(whole[:4112] + whole[4096:4112] + whole[4128:])
    for file in (first, newer, damaged, twice):
        shutil.copyfile(log_of(host.path()), log_of(file))
    return text, older, first, newer, damaged, twice


# Where the front of a file says how long the file is, in how many bytes.
LENGTH_AT, LENGTH_FIELD_LEN = 64, 16


def try_cut_short(trial):
    """A file that was cut short is refused, however little is gone. A file whose front says no length opens, as those of earlier versions do."""
    folder = trial.folder / "cut-short"
    folder.mkdir()
    host, model = used_host(trial, folder)
    whole, log = host.path().read_bytes(), log_of(host.path()).read_bytes()
    said = int.from_bytes(whole[LENGTH_AT : LENGTH_AT + 8], "little")
    trial.check("the front says how long the file was", said == len(whole), (said, len(whole)))
    write_settings(folder, "short")
    short = folder / "short"
    log_of(short).write_bytes(log)
    start, line = lambda: trial.start("host", "host.toml", folder=folder), "oramdisk: short is shorter than it was, and is left as it is: put the whole file back"
    for length in (said - 1, said // 2, 8192, LENGTH_AT + LENGTH_FIELD_LEN):
        short.write_bytes(whole[:length])
        check_refused(trial, f"a file that was cut to {length} bytes", short, start, DAMAGED, line)
        trial.check("its log is as it was", log_of(short).read_bytes() == log)
    for what, field in (("no length", bytes(LENGTH_FIELD_LEN)), ("a torn length", whole[LENGTH_AT : LENGTH_AT + 8] + bytes(8))):
        older = Host(trial.oramdisk, folder / what.replace(" ", "-"), "older")
        older.path().write_bytes(whole[:LENGTH_AT] + field + whole[LENGTH_AT + LENGTH_FIELD_LEN :])
        log_of(older.path()).write_bytes(log)
        client = older.start().client()
        check_answers(trial, f"a file whose front says {what}", client, model, model.all_fetches())
        client.close()
        older.stop()
        trial.check(f"{what}: it says it then", older.path().read_bytes()[LENGTH_AT : LENGTH_AT + 8] == whole[LENGTH_AT : LENGTH_AT + 8])


def try_logs(trial):
    """A file and its log belong together: what was stored last may be only in the log."""
    folder = trial.folder / "logs"
    folder.mkdir()
    host, model = used_host(trial, folder)
    file, log = host.path(), log_of(host.path())
    trial.check("both are their owner's alone", [it.stat().st_mode & 0o777 for it in (file, log)] == [0o600] * 2)
    write_settings(folder, file.name)
    whole, kept = file.read_bytes(), log.read_bytes()
    try_wrong_logs(trial, folder, file, log)
    try_log_alone(trial, folder, file, log)
    # Both are moved by copying them, and what is only in the log comes along.
    moved = Host(trial.oramdisk, trial.folder / "moved", "whole")
    moved.path().write_bytes(whole)
    log_of(moved.path()).write_bytes(kept)
    client = moved.start().client()
    check_answers(trial, "a file and its log at another place", client, model, model.all_fetches())
    client.close()
    moved.stop()


def try_wrong_logs(trial, folder, file, log):
    """The log is missing, is another file's, and is damaged. At the end it is as before."""
    other = Host(trial.oramdisk, folder / "other", "whole").start()
    other.client().close()
    other.stop()
    kept = log.read_bytes()
    log.unlink()
    log_is = "oramdisk: the log of whole, the file beside it with -log after its name,"
    put_back = "put back the one that it was served with last"
    start = lambda: trial.start("host", "host.toml", folder=folder)
    check_refused(trial, "a file without its log", file, start, WRONG_LOG, f"{log_is} isn't there: {put_back}")
    shutil.copyfile(log_of(other.path()), log)
    check_refused(trial, "a file with another's log", file, start, WRONG_LOG, f"{log_is} is another file's: {put_back}")
    log.write_bytes(kept[:4097] + b"\xff" * 12 + kept[4109:])
    leave = "is damaged, and both are left as they are: put back copies of both that belong together, or name another file, and format anew"
    check_refused(trial, "a damaged log", file, start, DAMAGED, f"{log_is} {leave}")
    log.write_bytes(kept)


def try_log_alone(trial, folder, file, log):
    """The file is missing, and only its log is there: no new file is made."""
    file.unlink()
    alone = "oramdisk: there is no file whole, but a log is there, the file beside it with -log after its name: put the file back that the log belongs to, or take the log away"
    start = lambda: trial.start("host", "--new", "host.toml", folder=folder)
    check_refused(trial, "a log without its file", log, start, WRONG_LOG, alone)


def try_presence(trial, folder):
    """A file is made if that is asked for, and never otherwise."""
    file = folder / "wanted"
    write_settings(folder, file.name)
    line = f"oramdisk: there is no file {file.name}: see that the settings are those of the right host, or say oramdisk host --new to make it"
    trial.ends("a file that is missing", trial.start("host", "host.toml", folder=folder), NO_FILE, line)
    trial.check("and none is made", not file.exists())
    host = Host(trial.oramdisk, folder, file.name).start()
    client = host.client()
    trial.check("a new file", client.ask(A_SHAPE) == DONE)
    client.close()
    host.stop()
    made = f"oramdisk: made {file.name}"
    trial.check("there is a line for it", host.lines().count(made) == 1, host.lines())
    listening = f"oramdisk: listening at 127.0.0.1:{host.port}, with the buckets in {file.name}"
    trial.check("and where it is served", host.lines()[-3:-1] == [made, listening] or host.lines()[-2:] == [made, listening], host.lines())
    line = f"oramdisk: {file.name} is there already, and is left as it is: leave --new out to serve it"
    check_refused(trial, "a new file where one is", file, lambda: trial.start("host", "--new", "host.toml", folder=folder), EXISTS, line)
    host.start()
    trial.check("started again", host.client().ask(A_SHAPE) == refused(SHAPE_TAKEN))
    host.stop()
    trial.check("there is no other line", host.lines().count(made) == 1, host.lines())
