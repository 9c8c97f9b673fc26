"""A host whose disk gives errors."""

import os
import signal

from trials import strace
from trials.bucket_host import Host, check_answers
from trials.bucket_messages import DONE, Model
from trials.host.kills import format_tree, random_store

# A host syncs its file and its log when it opens them, and the next sync is that of its first STORE.
SYNCS_AT_OPENING = 2

# Errors of the system for which a sync may fail, and what the host's line says of them.
ERRORS = {"EIO": "Input/output error (os error 5)", "ENOSPC": "No space left on device (os error 28)"}


def try_disk_errors(trial, depth=3, record_len=400):
    """If a sync fails, the STORE that it is for has no answer: the connection ends, and the host's line says which error the system gave.
    The host opens its file again, and goes on with what was there."""
    if not strace.is_usable():
        trial.skip()
        return
    host, model = Host(trial.oramdisk, trial.folder / "disk-errors").start(), Model()
    format_tree(trial, host, model, depth, record_len)
    host.stop()
    for error, text in ERRORS.items():
        try_failing_sync(trial, host, model, error, text, random_store(trial.dice, depth, record_len))


def try_failing_sync(trial, host, model, error, text, body):
    """The first sync of a STORE fails with an error of the system."""
    host.start(under=strace.failing("fdatasync", error, SYNCS_AT_OPENING + 1))
    client = host.client()
    answer = client.ask(body)
    trial.check("a STORE whose sync fails has no answer", answer is None, answer and answer.hex())
    client.close()
    line = host.connection_line(client.port)
    trial.check("the line of that connection", line and line[3] == f", the disk failed: {text}", line)
    client = host.client()
    check_answers(trial, "what is there after an error", client, model, model.all_fetches())
    trial.check("the STORE once more", client.ask(body) == model.answer(body) == DONE)
    check_answers(trial, "what is there then", client, model, model.all_fetches())
    client.close()
    # strace and the host are one group.
    os.killpg(host.process.pid, signal.SIGKILL)
    host.wait()


def try_lost_file(trial, depth=3, record_len=400):
    """If a host's disk fails, and its file can't be opened again for a while, the host waits for it, says so once, and then goes on with what
    was there."""
    if not strace.is_usable():
        trial.skip()
        return
    host, model = Host(trial.oramdisk, trial.folder / "lost-file").start(), Model()
    format_tree(trial, host, model, depth, record_len)
    host.stop()
    # The file is synced twice when it is opened, and once more when the log is emptied, which is at the end of a connection.
    host.start(strace.failing_on_each(host.path().resolve(), "EIO", {"fdatasync": "3", "openat": "2..3"}))
    client = host.client()
    check_answers(trial, "a STORE before the file is lost", client, model, [random_store(trial.dice, depth, record_len)])
    client.close()
    client = host.client()
    check_answers(trial, "what is there once the file is back", client, model, model.all_fetches())
    client.close()
    waiting, listening = f"oramdisk: waiting for {host.file}", f"oramdisk: listening at 127.0.0.1:{host.port}, with the buckets in {host.file}"
    said = [line for line in host.lines() if line in (waiting, listening)]
    trial.check("the host says once that it waits, and then that it goes on", said[-3:] == [listening, waiting, listening], host.lines())
    os.killpg(host.process.pid, signal.SIGKILL)
    host.wait()
