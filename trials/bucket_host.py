"""`oramdisk host`, and connections to it."""

import re
import signal
import socket
import subprocess
from pathlib import Path

from trials.connections import FrameClient, connect
from trials.ports import free_port
from trials.processes import LONGEST_WAIT, begin
from trials.settings import toml_of

TIME = r"\d{4}-\d\d-\d\dT\d\d:\d\d:\d\dZ"
LINE = re.compile(rf"oramdisk: 127\.0\.0\.1:(\d+) from ({TIME}) until ({TIME}), (\d+) messages?, (\d+) bytes in, (\d+) bytes out(.*)")


class HostClient(FrameClient):
    """A connection to a host."""

    def __init__(self, stream):
        super().__init__(stream)
        name = stream and stream.getsockname()
        # Over a Unix socket it has no port.
        self.port = name[1] if isinstance(name, tuple) else None

    def close(self):
        """Ends the connection, and waits until the host has ended it too, and so has synced what was put."""
        if self.stream is None:
            return
        try:
            self.stream.shutdown(socket.SHUT_WR)
            self.stream.recv(1)
        except OSError:
            pass
        self.stream.close()


class Host:
    """A host of one file, in a folder of its own; whoever uses it starts and stops it."""

    def __init__(self, oramdisk, folder, file="buckets"):
        self.oramdisk, self.folder, self.file = oramdisk, Path(folder), file
        self.folder.mkdir(exist_ok=True)
        self.process = None

    def start(self, under=()):
        """Starts it, with a new file if there is none, and under a program that watches it if one is named."""
        self.port = free_port()
        (self.folder / "host.toml").write_text(toml_of({"listen": f"127.0.0.1:{self.port}", "file": self.file}))
        self.log = open(self.folder / "log", "ab")
        new = [] if self.path().exists() else ["--new"]
        words = [*under, self.oramdisk, "host", *new, "host.toml"]
        self.process = begin(words, cwd=self.folder, stdin=subprocess.DEVNULL, stdout=subprocess.DEVNULL, stderr=self.log)
        return self

    def stop(self, how=signal.SIGTERM):
        """Ends it by a signal."""
        self.process.send_signal(how)
        self.wait()

    def wait(self):
        """Waits until it has ended."""
        self.process.wait(LONGEST_WAIT)
        self.log.close()

    def client(self):
        return HostClient(connect(self.port, self.process))

    def lines(self):
        """The lines that it has printed, over all its processes."""
        return (self.folder / "log").read_text().splitlines()

    def connection_line(self, port):
        """What the line of the connection from this port says: messages, bytes in, bytes out, and how the connection ended. The
        line is there by the time the next connection is answered."""
        client = self.client()
        client.ask(b"")
        client.close()
        found = [line for line in map(LINE.fullmatch, self.lines()) if line and int(line[1]) == port]
        return found and (*map(int, found[-1].groups()[3:6]), found[-1][7])

    def path(self):
        """Its file of buckets."""
        return self.folder / self.file


def check_answers(trial, what, client, model, bodies):
    """Each message is answered as the model answers it."""
    wrong = []
    for body in bodies:
        answer, wanted = client.ask(body), model.answer(body)
        if answer != wanted:
            wrong.append((body[:12].hex(), answer and answer[:8].hex(), wanted[:8].hex()))
    trial.check(what, not wrong, wrong[:3])
