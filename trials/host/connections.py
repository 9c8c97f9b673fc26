"""Connections that break off, that are silent, and that give way to newer ones."""

import socket
import struct

from trials.bucket_host import check_answers
from trials.bucket_messages import Model, fetch
from trials.connections import LONGEST_BODY, frame_of, reset_on_close
from trials.host.kills import format_tree
from trials.processes import LONGEST_WAIT

ONE = fetch(0, 1)
FRAME = frame_of(ONE)


def send_and_break_off(host, sent):
    """Sends bytes that are no whole frames, and reads to the end. Returns the port that they came from."""
    client = host.client()
    client.stream.sendall(sent)
    try:
        client.stream.shutdown(socket.SHUT_WR)
        while client.stream.recv(1 << 16):
            pass
    except OSError:
        pass  # the host ended first, and left bytes unread
    client.close()
    return client.port


def try_broken(trial):
    """Connections that break off harm nobody but themselves, and each has its line."""
    host, model = trial.host("broken").start(), Model()
    format_tree(trial, host, model, 1, 4)
    cases = [
        (FRAME[:3], 0, ", a frame was cut short"),
        (FRAME + FRAME[:-1], 1, ", a frame was cut short"),
        (FRAME + struct.pack(">I", LONGEST_BODY + 1), 1, ", a frame was too long"),
        (b"\xff" + trial.dice.randbytes(50), 0, ", a frame was too long"),
        (b"", 0, ""),
        (FRAME * 3, 3, ""),
    ]
    for sent, messages, end in cases:
        port = send_and_break_off(host, sent)
        client = host.client()
        check_answers(trial, f"after {sent[:8].hex()}..", client, model, [ONE])
        client.close()
        line = host.connection_line(port)
        trial.check(f"its line, {sent[:8].hex()}..", line == (messages, 10 * messages, 13 * messages, end), line)
    client = host.client()
    reset_on_close(client.stream)
    client.stream.sendall(FRAME[:5])
    client.stream.close()
    client = host.client()
    check_answers(trial, "after a connection that was reset", client, model, [ONE])
    client.close()
    host.stop()


def is_ended_by_host(client):
    """Waits until the host has ended a connection. Returns whether it has."""
    try:
        return client.stream.recv(1) == b""
    except ConnectionResetError:
        return True
    except OSError:
        return False


def try_newest(trial):
    """A connection on which nothing comes gives way to a newer one, whether it is between two messages or within one."""
    host, model = trial.host("newest").start(), Model()
    format_tree(trial, host, model, 1, 4)
    for what, sent, messages in (("idle", b"", 1), ("within a message", FRAME[:7], 1)):
        older = host.client()
        check_answers(trial, f"a connection that is {what}", older, model, [ONE])
        older.stream.sendall(sent)
        newer = host.client()
        check_answers(trial, f"a newer one than that which is {what}", newer, model, [ONE] * 3)
        trial.check(f"{what}: the older one is ended", is_ended_by_host(older))
        newer.close()
        line = host.connection_line(older.port)
        trial.check(f"{what}: its line", line and (line[0], line[3]) == (messages, ", a newer connection took its place"), line)
    host.stop()


class Silent:
    """A connection that is silent in the middle of a message. The host is to end it after a minute, while other trials go on."""

    def __init__(self, trial):
        self.host = trial.host("silent").start()
        self.client = self.host.client()
        self.client.stream.settimeout(2 * LONGEST_WAIT)
        self.client.stream.sendall(struct.pack(">I", 100) + b"\x02")

    def check(self, trial):
        trial.check("a silent connection is ended", is_ended_by_host(self.client))
        line = self.host.connection_line(self.client.port)
        trial.check("a silent connection: its line", line and line[3] == ", it was silent for a minute", line)
        self.host.stop()
