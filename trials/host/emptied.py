"""When a host empties its log."""

import signal
import time

from trials.bucket_file import BucketFile
from trials.bucket_host import check_answers
from trials.bucket_messages import Model
from trials.host.kills import format_tree, random_store
from trials.processes import LONGEST_WAIT


def comes_to_be_empty(host):
    """Waits until the log has no entries. Returns whether that came to be."""
    until = time.monotonic() + LONGEST_WAIT
    while BucketFile(host.path()).entries()[0]:
        if time.monotonic() > until:
            return False
        time.sleep(0.1)
    return True


def try_emptied_log(trial, depth=3, record_len=500):
    """The log is empty after a connection that stored something, after a while without a message, and after a start; and nothing is lost
    by that."""
    host, model = trial.host("emptied").start(), Model()
    format_tree(trial, host, model, depth, record_len)
    client = host.client()
    for what in ("quiet", "quiet again"):
        check_answers(trial, f"STOREs before it is {what}", client, model, [random_store(trial.dice, depth, record_len) for _ in range(3)])
        trial.check(f"{what}: STOREs are in the log at first", BucketFile(host.path()).entries()[0])
        trial.check(f"{what}: the log is emptied", comes_to_be_empty(host))
        check_answers(trial, f"{what}: the same connection goes on", client, model, model.all_fetches())
    check_answers(trial, "STOREs before the end", client, model, [random_store(trial.dice, depth, record_len)])
    client.close()
    trial.check("the log is empty after a connection", not BucketFile(host.path()).entries()[0])
    client = host.client()
    check_answers(trial, "STOREs before a kill", client, model, [random_store(trial.dice, depth, record_len)])
    host.stop(signal.SIGKILL)
    client.close()
    trial.check("the log isn't empty after a kill", BucketFile(host.path()).entries()[0])
    client = host.start().client()
    check_answers(trial, "what is there after a kill", client, model, model.all_fetches())
    client.close()
    trial.check("the log is empty after the start that found entries in it", not BucketFile(host.path()).entries()[0])
    host.stop()
