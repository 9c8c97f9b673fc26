"""A host's file beside a log of another moment, or beside a log that was cut off: it is refused, and nothing is changed."""

import shutil
import signal
import time

from trials.bucket_file import BucketFile, log_of
from trials.bucket_host import Host, check_answers
from trials.bucket_messages import Model
from trials.host.kills import format_tree, random_store
from trials.host.rot import DEPTH, RECORD_LEN
from trials.statuses import DAMAGED, WRONG_LOG

# A host empties its log after a silence of five seconds.
SILENCE = 6.5

LOG_IS = "oramdisk: the log of buckets, the file beside it with -log after its name,"
OLDER_LOG = f"{LOG_IS} is older than the file, and both are left as they are: put back the log that it was served with last"
OLDER_FILE = "oramdisk: buckets is older than its log, the file beside it with -log after its name, and both are left as they are: put back the file that was served last"
CUT = f"{LOG_IS} is damaged, and both are left as they are: put back copies of both that belong together, or name another file, and format anew"


def both_of(host):
    """What a host's file and its log hold now."""
    return host.path().read_bytes(), log_of(host.path()).read_bytes()


def store_some(trial, host, model, count=4):
    """Stores random paths. Returns the connection."""
    client = host.client()
    check_answers(trial, "STOREs between two copies", client, model, [random_store(trial.dice, DEPTH, RECORD_LEN) for _ in range(count)])
    return client


def moments(trial, host, model):
    """Copies of the two files, in their order: of a host that has ended, that was killed, that was idle, and that was between two connections."""
    format_tree(trial, host, model, DEPTH, RECORD_LEN)
    host.stop()
    yield "after an end", both_of(host)
    client = store_some(trial, host.start(), model)
    host.stop(signal.SIGKILL)
    client.close()
    yield "after a kill", both_of(host)
    client = store_some(trial, host.start(), model)
    time.sleep(SILENCE)
    yield "after a silence", both_of(host)
    check_answers(trial, "STOREs after a silence", client, model, [random_store(trial.dice, DEPTH, RECORD_LEN)])
    client.close()
    host.client().close()
    yield "after a connection", both_of(host)
    client = store_some(trial, host, model)
    host.stop(signal.SIGKILL)
    client.close()
    yield "after another kill", both_of(host)


def check_not_served(trial, what, files, status, line):
    """A host that is given these two files ends with this status and line, and leaves them as they are."""
    host = Host(trial.oramdisk, trial.folder / "other-moment")
    for file, held in zip((host.path(), log_of(host.path())), files):
        file.write_bytes(held)
    seen = len(host.lines()) if (host.folder / "log").exists() else 0
    host.start()
    client = host.client()
    client.close()
    host.wait()
    lines = host.lines()[seen:]
    trial.check(what, (host.process.returncode, lines) == (status, [line]), (host.process.returncode, lines))
    trial.check(f"{what}: the files stay", both_of(host) == files)


def try_other_moments(trial):
    """A file and a log of two different moments are told, whichever of them is older. Those of one moment hold what was acknowledged."""
    host, model = trial.host("moments").start(), Model()
    copies = list(moments(trial, host, model))
    for number, (earlier, (file, log)) in enumerate(copies):
        for later, (newer_file, newer_log) in copies[number + 1 :]:
            check_not_served(trial, f"the log {earlier} beside the file {later}", (newer_file, log), WRONG_LOG, OLDER_LOG)
            check_not_served(trial, f"the file {earlier} beside the log {later}", (file, newer_log), WRONG_LOG, OLDER_FILE)
    try_cut_logs(trial, copies[-1][1])
    client = host.start().client()
    check_answers(trial, "the two that belong together", client, model, model.all_fetches())
    client.close()
    host.stop()


def try_cut_logs(trial, files):
    """A log that ends where one of its entries does, or before its first one, is damaged."""
    file, log = files
    host = Host(trial.oramdisk, trial.folder / "whole-log")
    host.path().write_bytes(file)
    log_of(host.path()).write_bytes(log)
    entries, end = BucketFile(host.path()).entries()
    trial.check("entries in the log that is cut", len(entries) > 3, len(entries))
    for at in [BucketFile.LOG_START - 1, *(at for at, _ in entries), end]:
        check_not_served(trial, f"a log cut at {at}", (file, log[:at]), DAMAGED, CUT)
        filled = log[:at] + bytes(len(log) - at)
        check_not_served(trial, f"a log of zeros from {at} on", (file, filled), DAMAGED, CUT)
