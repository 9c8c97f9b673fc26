"""The two machines of the page, which are folders of this one."""

import os
import signal
import subprocess
import sys
import time
from pathlib import Path

# The seconds that a command of the page may take.
LONGEST_COMMAND = 900
DISK_SOCKET, TUNNEL_SOCKET, HOST_SOCKET = "mydisk/disk.sock", "mydisk/buckets.sock", "buckets.sock"

SCP = """#!/bin/sh
# The words before the last one are copied to the rented machine.
while [ $# -gt 1 ]; do cp -L "$1" "$RENTED/"; shift; done
"""

SSH = f"""#!{sys.executable}
# Its end of the tunnel is a socket of its owner alone. The other end is in the home folder of the rented machine.
import os, socket, sys, threading

words = sys.argv[1:]
near_path, far_path = words[words.index("-L") + 1].split(":")
far_path = os.path.join(os.environ["RENTED"], os.path.relpath(far_path, "/home/you"))
if "StreamLocalBindUnlink=yes" in words and os.path.exists(near_path):
    os.unlink(near_path)
os.umask(0o177)


def pass_on(source, target):
    while part := source.recv(1 << 16):
        target.sendall(part)
    target.shutdown(socket.SHUT_WR)


with socket.socket(socket.AF_UNIX) as listener:
    listener.bind(near_path)
    listener.listen()
    while True:
        near, far = listener.accept()[0], socket.socket(socket.AF_UNIX)
        far.connect(far_path)
        for pair in ((near, far), (far, near)):
            threading.Thread(target=pass_on, args=pair, daemon=True).start()
"""


class Machines:
    """Yours and the rented one: folders, with what was started there."""

    def __init__(self, folder, program):
        self.folder, self.program = Path(folder), program
        yours, rented = self.folder / "yours", self.folder / "rented"
        self.started, self.places = [], {"host": rented / HOST_SOCKET, "serve": yours / DISK_SOCKET, "ssh": yours / TUNNEL_SOCKET}
        for part in ("yours", "rented", "bin", "yours/.local/bin"):
            (self.folder / part).mkdir(exist_ok=True, parents=True)
        for name, text in (("scp", SCP), ("ssh", SSH)):
            (self.folder / "bin" / name).write_text(text)
            (self.folder / "bin" / name).chmod(0o755)
        (self.folder / "yours/.local/bin/oramdisk").symlink_to(program)

    def environment(self, machine):
        home = self.folder / machine
        path = f"{home}/.local/bin:{self.folder}/bin:{os.environ['PATH']}"
        return {**os.environ, "HOME": str(home), "RENTED": str(self.folder / "rented"), "PATH": path}

    def start(self, machine, command):
        """Starts a command, in a group of its own."""
        log = open(self.folder / "log", "ab")
        how = {"stdin": subprocess.DEVNULL, "stdout": log, "stderr": log, "start_new_session": True}
        return subprocess.Popen(["sh", "-c", command], cwd=self.folder / machine, env=self.environment(machine), **how)

    def run(self, machine, command):
        """Runs a command to its end, or until what it starts listens. Returns whether that went well."""
        if not command.endswith("&"):
            process = self.start(machine, command)
            try:
                return process.wait(LONGEST_COMMAND) == 0
            except subprocess.TimeoutExpired:
                self.end(process)
                return False
        process = self.start(machine, f"exec {command[:-1]}")
        self.started.append((command, process))
        place = next(place for word, place in self.places.items() if word in command.split())
        return wait_until_listened_at(place, process)

    def end(self, process):
        os.killpg(process.pid, signal.SIGKILL)
        process.wait()

    def kill(self, words):
        """Kills what was started by a command that has one of these words."""
        for command, process in [pair for pair in self.started if set(words) & set(pair[0].split())]:
            self.end(process)
            self.started.remove((command, process))

    def end_all(self):
        for _, process in self.started:
            self.end(process)
        self.started.clear()

    def said(self):
        """What was printed last on both machines."""
        return (self.folder / "log").read_text(errors="replace")[-2000:]


def is_listened_at(place, process):
    """Whether a process listens at a Unix socket, without connecting there: a host and a disk take one connection at a time. `oramdisk`
    makes a socket in a folder beside its place, and the system tells the name that it had there."""
    rows = [row.split() for row in Path("/proc/self/net/unix").read_text().splitlines()[1:]]
    try:
        folder = Path(os.readlink(f"/proc/{process.pid}/cwd"))
    except OSError:
        return False
    listening = {folder / row[7] for row in rows if row[3] == "00010000" and row[7:]}
    return place.is_socket() and not listening.isdisjoint({place, Path(f"{place}~/s")})


def wait_until_listened_at(place, process):
    """Waits until a process listens at a Unix socket. Returns whether it came to that."""
    for _ in range(600):
        if is_listened_at(place, process):
            return True
        if process.poll() is not None:
            return False
        time.sleep(0.1)
    return False
