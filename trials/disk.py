"""A disk, whose folder `oramdisk new` made, with its host."""

import json
import re
import signal
import subprocess
import time
import tomllib
from contextlib import suppress

from trials.bucket_file import BucketFile, log_of
from trials.bucket_host import Host
from trials.connections import connect
from trials.formats.sizes import Sizes
from trials.kept_files import KeptFiles
from trials.nbd_client import NbdClient
from trials.ports import free_port
from trials.processes import LONGEST_WAIT, begin, end_of
from trials.relay import Relay
from trials.settings import put_values
from trials.statuses import DISK_FAILED

# The blocks of a disk have this number of bytes.
BLOCK = 4096
# How often a client comes that is turned away.
MOST_TURNS = 100
# The bytes of a disk that is made with --size 256kB: 63 blocks.
SMALL = 63 * BLOCK


def counted(count, name):
    """A number of things, as `status` prints it."""
    return f"{count} {name}" if count == 1 else f"{count} {name}s"


class Disk:
    """A disk with its host behind a relay; whoever uses it starts and stops both."""

    def __init__(self, trial, name, size="256kB", **values):
        self.trial, self.name = trial, name
        self.folder = trial.folder / name
        made = end_of(trial.start("new", name, "--size", size))
        says = f"oramdisk: made {name} for a disk of ".encode()
        trial.check(f"{name}: new", (made.status, made.out) == (0, b"") and made.err.startswith(says), made)
        self.host = Host(trial.oramdisk, self.folder)
        self.relay = Relay()
        self.set(host=self.host_address(), **values)
        self.process = None
        self.state_file, self.settings_file = self.folder / "disk.state", self.folder / "disk.toml"
        self.kept = KeptFiles(self.state_file)

    def set(self, **values):
        """Puts values into disk.toml."""
        put_values(self.folder / "disk.toml", values)

    def settings(self):
        """The values in its settings."""
        return tomllib.loads(self.settings_file.read_text())

    def sizes(self):
        """Its sizes, with the defaults of what its settings leave out."""
        said = self.settings()
        block, slots = said.get("block", BLOCK), said.get("slots", 4)
        blocks = said["size"] // block
        leaf_load = said.get("leaf_load", 5 if slots > 3 else 1)
        return Sizes(blocks, block, slots, leaf_load, said.get("table", blocks), said.get("sealer") != "plain")

    def near_levels(self):
        """How many levels of tree 0 the client keeps itself."""
        sizes = self.sizes()
        return sizes.near_levels(self.settings().get("near", sizes.default_near()))

    def host_address(self):
        """The address by which it reaches its host: that of the relay."""
        return f"127.0.0.1:{self.relay.port}"

    def start_host(self):
        self.host.start()
        self.relay.lead_to(self.host.process, self.host.port)

    def start(self, command, *flags):
        """Starts a command of oramdisk for this disk."""
        return self.trial.start(command, *flags, f"{self.name}/disk.toml")

    def format(self):
        return self.start("format")

    def formatted(self):
        """Starts the host and formats the disk, which reports its progress. Returns the disk."""
        self.start_host()
        end = end_of(self.format())
        self.trial.check(f"{self.name}: format", (end.status, end.out) == (0, b""), end)
        self.check_progress(end.err.decode().splitlines())
        return self

    def check_progress(self, lines):
        """A formatting that hashes the records of the disk has reported its progress in these lines."""
        begun = re.compile(r"oramdisk: formatting: about \S+ \S+ of empty records are hashed here, and none of them is sent")
        form = re.compile(r"oramdisk: formatting: \d+ % \(\d+ of \d+ records\)(, \d+ s left)?")
        holds = lines and begun.fullmatch(lines[0]) and all(map(form.fullmatch, lines[1:])) and " 100 % " in lines[-1]
        self.trial.check(f"{self.name}: its progress", holds, lines)

    def introduced_again(self, what):
        """Formats the disk once more, which has its state already and was never used: it is introduced to its host, and nothing is hashed."""
        end = end_of(self.format())
        self.trial.check(what, (end.status, end.out, end.err) == (0, b"", b""), end)

    def take_state_away(self):
        """Removes the files of its state."""
        for file in self.kept.read():
            file.unlink()

    def name_new_host_file(self, name):
        """Removes its state, and goes on with a new file of its host."""
        self.take_state_away()
        self.host.stop()
        self.host.file = name
        self.start_host()

    def serve(self, under=(), socket_name=None):
        """Serves it at a new port or at a Unix socket in its folder, and under a program that watches the process if one is named."""
        self.port, self.socket = None, socket_name and self.folder / socket_name
        if socket_name is None:
            self.port = free_port()
        self.set(listen=f"unix:{socket_name}" if socket_name else f"127.0.0.1:{self.port}")
        self.log = open(self.folder / "serve.log", "ab")
        words = [*under, self.trial.oramdisk, "serve", "disk.toml"]
        how = {"stdin": subprocess.DEVNULL, "stdout": subprocess.DEVNULL, "stderr": self.log}
        self.process = begin(words, cwd=self.folder, **how)
        return self

    def stop(self, how=signal.SIGTERM):
        """Ends the process that serves it by a signal."""
        self.process.send_signal(how)
        self.wait()

    def wait(self):
        """Waits until the process that serves it has ended, and returns its status."""
        status = self.process.wait(LONGEST_WAIT)
        self.log.close()
        return status

    def end(self, client):
        """Ends a connection to it, the process that serves it, and its host."""
        client.close()
        self.stop()
        self.host.stop()

    def lines(self):
        """The lines that the processes that served it have printed."""
        return (self.folder / "serve.log").read_text().splitlines()

    def wait_for_lines(self, text, count):
        """Waits until the processes that served it have printed so many lines with this text. Returns these lines."""
        begun = time.monotonic()
        while len(found := [line for line in self.lines() if text in line]) < count and time.monotonic() < begun + LONGEST_WAIT:
            time.sleep(0.02)
        return found

    def connect(self):
        """A connection to it, before its handshake."""
        stream = connect(self.socket or self.port, self.process)
        return stream and NbdClient(stream)

    def client(self):
        """A connection to it, after its handshake. A process that doesn't know yet that the client before is gone turns this one away, so
        it comes again some times."""
        for _ in range(MOST_TURNS):
            nbd = self.connect()
            if nbd is None:
                return None
            if nbd.greet() and nbd.choose() is not None:
                return nbd
            nbd.stream.close()
            # This ends at once if the process has ended.
            with suppress(subprocess.TimeoutExpired):
                self.process.wait(0.02)
        return None

    def status(self):
        """What `status` prints, by the words before the colons. It ends as a disk that is sound, or as one that has failed."""
        end = end_of(self.start("status"))
        said = dict(line.split(": ", 1) for line in end.out.decode().splitlines())
        wanted = (0, 0) if said.get("state") == "it is sound" else (DISK_FAILED, 1)
        self.trial.check(f"{self.name}: status", (end.status, end.err.count(b"\n")) == wanted, end)
        self.check_json(said, wanted[0])
        return said

    def check_json(self, said, wanted):
        """What `status --json` prints tells the same as the lines of `status`, and it ends in the same way."""
        end = end_of(self.start("status", "--json"))
        told = json.loads(end.out)
        lines = {
            "used": "by another process" if told["used"] else "by nobody",
            "size": f"{told['size']} bytes, {counted(told['blocks'], 'block')} of {told['block']}",
            "trees": str(told["trees"]),
            "stash": counted(told["stash"], "block"),
            "near": counted(told["near"], "byte"),
            "accesses": f"{told['accesses']} made, {told['accesses_left']} left",
            "waiting": str(told["waiting"]),
            "state": told["failure"] or "it is sound",
        }
        same = (lines, told["failed"]) == (said, told["failure"] is not None)
        self.trial.check(f"{self.name}: status in JSON", end.status == wanted and same, (end, said))

    def address(self):
        """The address by which programs of others reach it."""
        return f"nbd+unix:///disk?socket={self.socket}" if self.socket else f"nbd://127.0.0.1:{self.port}"

    def host_files(self):
        """The bytes of the files in which its host keeps its buckets."""
        return {file: file.read_bytes() for file in self.folder.glob(f"{self.host.file}*")}

    def settled_files(self):
        """What counts in the files of its host once it has settled. Behind the shut gate at its beginning a log has nothing that counts, and a
        start copies no more of it."""
        return {file: whole[: BucketFile.LOG_START + 1] if file == log_of(file.parent / self.host.file) else whole for file, whole in self.host_files().items()}

    def settle_host(self):
        """Waits until its host has emptied its log after the last connection, since it answers the next one only then. From then on its
        files stay as they are in what counts (`settled_files`), also over a start."""
        client = self.host.client()
        client.ask(b"")
        client.close()

    def put_host_files(self, before):
        """Puts other files in place of those in which its host keeps its buckets."""
        for file in self.host_files():
            file.unlink()
        for file, whole in before.items():
            file.write_bytes(whole)
