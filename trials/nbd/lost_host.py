"""A host that is out of reach: a connection that is cut, and a host that doesn't answer until the reconnect timeout."""

import socket
import threading
import time

from trials.bucket_messages import FETCH_LEVELS, fetch, is_a
from trials.connections import connect, frame_of, read_frame, write_frame
from trials.disk import Disk
from trials.disk_array import DiskArray, ask_at_random, check_and_end, check_disk, lose_write, make_requests
from trials.kept_files import STATE
from trials.processes import end_of
from trials.nbd.tampering import STAMP_TREE
from trials.nbd_client import READ
from trials.statuses import OUT_OF_REACH

# The seconds by which the program may end later than its reconnect timeout.
GRACE = 12


def unreachable(address):
    """The line by which a program reports that its host is out of reach."""
    return f"oramdisk: can't reach the host at {address}: see that it runs there, and no other program, and that the way to it is open, and start again"


def try_cut(trial):
    """A connection to the host that is cut is opened again, and only the log shows it."""
    disk = Disk(trial, "cut", table=16, reconnect_timeout=60, sync=False).formatted()
    array = DiskArray()
    client = disk.serve().client()
    trial.check("cut: it is served", client is not None, disk.lines()[-2:])
    for number in range(10):
        disk.relay.cut(answer=trial.dice.random() < 0.5, at=trial.dice.randrange(1, 12))
        for _ in range(6):
            trial.check(f"cut {number}: a reply", ask_at_random(trial, client, array))
    check_disk(trial, "cut: what it holds", client, array)
    client.close()
    lines = disk.lines()
    trial.check("cut: its log", any("is out of reach" in line for line in lines) and any("answers again" in line for line in lines), lines)
    disk.stop()
    disk.host.stop()


def try_out_of_reach(trial):
    """After the reconnect timeout the service ends, with everything kept."""
    disk = Disk(trial, "away", reconnect_timeout=1).formatted()
    array = DiskArray()
    client = disk.serve().client()
    make_requests(trial, client, array, 5)
    disk.host.stop()
    lose_write(trial, "away: no reply", client, array)
    status = disk.wait()
    trial.check("away: how it ends", (status, disk.lines()[-1]) == (OUT_OF_REACH, unreachable(disk.host_address())), (status, disk.lines()[-1]))
    trial.check("away: what waits", disk.status().get("waiting") in ("0", "1"), disk.status())
    disk.start_host()
    check_and_end(trial, "away: what it holds once the host is back", disk, array)


class DeafHost(threading.Thread):
    """Takes connections, and what they bring, and never answers (`silent`); breaks each of them off (`breaks`); or takes none, so that the
    system drops what would open one (`drops`)."""

    def __init__(self, kind):
        super().__init__(daemon=True)
        self.listener = socket.create_server(("127.0.0.1", 0), backlog=0)
        self.port, self.kind, self.held = self.listener.getsockname()[1], kind, []
        self.address, self.connections = f"127.0.0.1:{self.port}", 0
        # One or two connections fill the listener's queue.
        for _ in range(4 if kind == "drops" else 0):
            stream = socket.socket()
            stream.setblocking(False)
            stream.connect_ex(("127.0.0.1", self.port))
            self.held.append(stream)
        self.start()

    def run(self):
        while self.kind != "drops":
            try:
                stream, _ = self.listener.accept()
            except OSError:
                return
            self.connections += 1
            if self.kind == "breaks":
                stream.close()
            else:
                self.held.append(stream)

    def end(self):
        self.listener.close()
        for stream in self.held:
            stream.close()


def check_that_it_gives_up(trial, disk, command, deaf, timeout, texts):
    """A command whose host doesn't answer ends after the reconnect timeout, and not much later, with its line. The texts name the two
    checks."""
    disk.set(host=deaf.address, reconnect_timeout=timeout)
    begun = time.monotonic()
    end = end_of(disk.start(command))
    took = time.monotonic() - begun
    seen = (end.status, end.err.decode().splitlines()[-1:])
    trial.check(texts[0], seen == (OUT_OF_REACH, [unreachable(deaf.address)]), end)
    trial.check(texts[1], timeout <= took < timeout + GRACE, took)


def try_reconnect_timeout(trial):
    """Whatever keeps a host from answering, the service waits until the reconnect timeout, and not much longer."""
    disk = Disk(trial, "deaf", table=16).formatted()
    disk.host.stop()
    kept = disk.kept.text()
    for kind in ("silent", "breaks", "drops"):
        what, deaf = f"a host that is {kind}", DeafHost(kind)
        for timeout in (1, 4):
            texts = (f"{what}: its end, timeout {timeout}", f"{what}: its time, timeout {timeout}")
            check_that_it_gives_up(trial, disk, "serve", deaf, timeout, texts)
        trial.check(f"{what}: it was tried more often than a message is sent otherwise", kind != "breaks" or deaf.connections > 8, deaf.connections)
        deaf.end()
    trial.check("and the state is as it was", disk.kept.text() == kept)


def try_unanswered_formatting(trial):
    """A formatting waits for a host that doesn't answer until the reconnect timeout, and not much longer. The state stays, and the next formatting goes on with it."""
    disk = Disk(trial, "unanswered", table=16)
    for kind, timeout in (("silent", 1), ("silent", 3), ("drops", 2)):
        what, deaf = f"formatting at a host that is {kind}, timeout {timeout}", DeafHost(kind)
        check_that_it_gives_up(trial, disk, "format", deaf, timeout, (f"{what}: its end", f"{what}: its time"))
        trial.check(f"{what}: the state", disk.kept.left() == STATE, disk.kept.left())
        deaf.end()


class DrippingHost(threading.Thread):
    """Leads to a host, and passes on what both say, but for the answers to some messages: of these it gives one byte every half second, so
    that it is never silent for long."""

    PAUSE = 0.5

    def __init__(self, host, is_dripped):
        super().__init__(daemon=True)
        self.is_dripped = is_dripped
        self.listener = socket.create_server(("127.0.0.1", 0))
        self.address, self.host, self.given, self.ended = f"127.0.0.1:{self.listener.getsockname()[1]}", host, 0, threading.Event()
        self.start()

    def run(self):
        while not self.ended.is_set():
            near, _ = self.listener.accept()
            far = connect(self.host.port, self.host.process)
            while (body := read_frame(near)) is not None and write_frame(far, body):
                answer = read_frame(far)
                if self.is_dripped(body):
                    self.drip(near, frame_of(answer))
                    break
                write_frame(near, answer)
            near.close()
            far.close()

    def drip(self, stream, whole):
        """Gives one byte after the other, until the other end is gone."""
        for byte in whole:
            try:
                stream.sendall(bytes([byte]))
            except OSError:
                return
            self.given += 1
            self.ended.wait(self.PAUSE)


def try_dripping(trial):
    """A host that goes on giving a byte now and then doesn't hold a batch for longer than the reconnect timeout, or 20 seconds if that is
    more: neither with its stamps, nor with the records of a path."""
    for what, is_dripped in (("stamps", lambda body: body == fetch(STAMP_TREE, 0)), ("records", lambda body: is_a(FETCH_LEVELS, body))):
        disk = Disk(trial, f"dripping-{what}", table=16).formatted()
        host = DrippingHost(disk.host, is_dripped)
        disk.set(host=host.address, reconnect_timeout=2)
        begun = time.monotonic()
        client = disk.serve().client()
        trial.check(f"a host that gives its {what} now and then: it is asked for them", (client is None) == (what == "stamps"))
        if client is not None:
            trial.check(f"a host that gives its {what} now and then: no reply", client.ask(READ, 0, 1) is None)
            client.stream.close()
        seen = disk.wait(), disk.lines()[-1:]
        host.ended.set()
        trial.check(f"a host that gives its {what} now and then: its end", seen == (OUT_OF_REACH, [unreachable(host.address)]), seen)
        took = time.monotonic() - begun
        trial.check(f"a host that gives its {what} now and then: its time", took < 2 * (20 + GRACE), took)
        trial.check(f"a host that gives its {what} now and then: it gave some", host.given > 2, host.given)
        disk.host.stop()
