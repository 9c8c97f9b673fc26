"""What is measured: disks of oramdisk, and files behind nbdkit."""

import os
import random
import re
import shutil
import socket
import subprocess
import sys

from trials.connections import connect
from trials.disk import BLOCK
from trials.measuring.figures import Figures, TimedClient
from trials.measuring.line import Line
from trials.nbd_client import WRITE
from trials.processes import begin

# How many bytes of a disk are written before it is measured, at most, and how many at once. A formatting sends nothing, so before that its host has
# no records.
FILLED, PIECE = 64 << 20, 1 << 18
LUKS = ["--object", "secret,id=word,data=measured"]


def any_port():
    with socket.create_server(("127.0.0.1", 0)) as listener:
        return listener.getsockname()[1]


def connect_or_exit(place, process):
    """A connection to a process that is about to listen; reads from it may take any time."""
    stream = connect(place, process)
    if stream is None:
        sys.exit(f"measure: {process.args[0]} ended with status {process.returncode}")
    stream.settimeout(None)
    return stream


class MeasuredDisk:
    """A disk of this program in a folder of its own, formatted and filled."""

    def __init__(self, oramdisk, folder, size, is_one_tree, syncs=True):
        self.oramdisk, self.folder, self.syncs = oramdisk, folder, syncs
        subprocess.run([oramdisk, "new", folder, "--size", size], check=True, stderr=subprocess.DEVNULL)
        text = (folder / "disk.toml").read_text()
        self.size, self.key = re.search(r"^size = (\d+)", text, re.M)[1], re.search(r'^key = "(\w+)"', text, re.M)[1]
        self.table = int(self.size) // BLOCK if is_one_tree else 1024
        self.port = any_port()
        (folder / "host.toml").write_text(f'listen = "127.0.0.1:{self.port}"\nfile = "buckets"\n')
        self.host = self.start("host", "--new", "host.toml")
        connect_or_exit(self.port, self.host).close()
        self.set_host(self.port)
        subprocess.run([oramdisk, "format", "disk.toml"], cwd=folder, check=True, stderr=subprocess.DEVNULL)
        self.fill()

    def fill(self):
        """Writes random bytes everywhere, or to as many pieces at random places as are to be written at most. `filled` then says how much was."""
        serve = self.start("serve", "disk.toml")
        client = TimedClient(connect_or_exit(self.folder / "disk.sock", serve))
        places, is_whole = range(0, client.size, PIECE), client.size <= FILLED
        for offset in places if is_whole else random.sample(places, FILLED // PIECE):
            length = min(PIECE, client.size - offset)
            if client.ask(WRITE, offset, length, os.urandom(length)) != (0, b""):
                sys.exit("measure: a write failed")
        client.close()
        serve.terminate()
        serve.wait()
        self.filled = "all of it was written" if is_whole else f"{FILLED >> 20} MiB of it, at random places, were written"

    def set_host(self, port):
        """Writes all of its settings anew, so that programs of several versions are measured with the same ones."""
        kept = f'state = "disk.state"\nsync = {"true" if self.syncs else "false"}\n'
        values = f'block = {BLOCK}\nslots = 4\ntable = {self.table}\nsealer = "chacha"\n{kept}reconnect_timeout = 600\n'
        reached = f'host = "127.0.0.1:{port}"\nlisten = "unix:disk.sock"\n'
        (self.folder / "disk.toml").write_text(f'size = {self.size}\nkey = "{self.key}"\n{reached}{values}')

    def start(self, *words):
        # It ends with the script at the latest, also if something can't be measured.
        return begin([self.oramdisk, *words], cwd=self.folder, stderr=subprocess.DEVNULL)

    def measure(self, way, count):
        """What requests take over a line to its host."""
        line = Line(self.port, way)
        self.set_host(line.port)
        serve = self.start("serve", "disk.toml")
        try:
            client = TimedClient(connect_or_exit(self.folder / "disk.sock", serve))
            figures = Figures(client, count, line, (serve, self.host))
            client.close()
        finally:
            serve.terminate()
            serve.wait()
            line.close()
        return figures

    def end(self):
        self.host.terminate()
        self.host.wait()
        shutil.rmtree(self.folder)


def measure_disks(options, top, is_one_tree, ways):
    """Rows of the figures of each program's disk, one program right after the other over each line, and how much of each disk was written before
    that."""
    disks = {}
    try:
        for name, oramdisk in options.programs.items():
            folder = top / f"{'one' if is_one_tree else 'two'}{name}"
            disks[name] = MeasuredDisk(oramdisk, folder, options.size, is_one_tree, not options.no_sync)
        rows = [(way, {name: disk.measure(way, options.requests) for name, disk in disks.items()}) for way in ways]
        return rows, next(iter(disks.values())).filled
    finally:
        for disk in disks.values():
            disk.end()


def measure_file(folder, way, count, is_luks):
    """What the same requests of a file behind nbdkit take over such a line: of a plain file, or of one that qemu encrypts on
    the client's side."""
    name, opened = folder / "plain", folder / "luks.sock"
    opened.unlink(missing_ok=True)
    name.write_bytes(bytes(1 << 26))
    if is_luks:
        subprocess.run(["qemu-img", "create", "-q", *LUKS, "-f", "luks", "-o", "key-secret=word,iter-time=10", name, "64M"], check=True)
    port = any_port()
    started = [subprocess.Popen(["nbdkit", "-f", "-i", "127.0.0.1", "-p", str(port), "file", str(name)], stderr=subprocess.DEVNULL)]
    connect_or_exit(port, started[0]).close()
    line = Line(port, way)
    try:
        if is_luks:
            image = f"driver=luks,key-secret=word,file.driver=nbd,file.host=127.0.0.1,file.port={line.port}"
            started.append(subprocess.Popen(["qemu-nbd", "-t", *LUKS, "--image-opts", image, "-k", opened], stderr=subprocess.DEVNULL))
        stream = connect_or_exit(opened, started[1]) if is_luks else socket.create_connection(("127.0.0.1", line.port))
        client = TimedClient(stream)
        figures = Figures(client, count)
        client.close()
    finally:
        for process in reversed(started):
            process.terminate()
            process.wait()
        line.close()
    return figures
