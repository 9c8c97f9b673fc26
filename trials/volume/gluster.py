"""A volume of GlusterFS, all of whose bricks are on this machine."""

import os
import re
import shutil
import signal
import socket
import subprocess
import sys
import time
from pathlib import Path

from trials.processes import LONGEST_WAIT

WANTED = ["glusterd", "gluster", "glusterfs", "umount", "unshare", "bash"]
VOLUME = "trial"
# The port that its daemon listens at; its bricks know no other.
DAEMON_PORT = 24007
# The most seconds that a volume may take to start, to heal or to come back.
LONGEST = 180


def until(holds, seconds=LONGEST):
    """Waits until something holds, and returns whether it came to that."""
    end = time.monotonic() + seconds
    while not holds():
        if time.monotonic() > end:
            return False
        time.sleep(0.2)
    return True


def is_taken(port):
    """Whether somebody listens at a port."""
    with socket.socket() as probe:
        return probe.connect_ex(("127.0.0.1", port)) == 0


class Volume:
    """A volume of three bricks with its daemon, mounted; whoever uses it ends it."""

    def __init__(self, folder):
        self.folder, self.mount, self.other = Path(folder), Path(folder) / "mount", Path(folder) / "other-mount"
        for name in ("mount", "other-mount", *self.bricks()):
            (self.folder / name).mkdir()
        self.daemon = subprocess.Popen(["glusterd", "-N"], stdin=subprocess.DEVNULL, stdout=subprocess.DEVNULL, stderr=subprocess.DEVNULL)

    @staticmethod
    def bricks():
        return [f"brick-{number}" for number in range(3)]

    def say(self, *words):
        """Asks the daemon to do something. Returns whether it did, and what it wrote."""
        words = ["gluster", "--mode=script", *words]
        end = subprocess.run(words, stdin=subprocess.DEVNULL, capture_output=True, text=True, timeout=LONGEST)
        return end.returncode == 0, end.stdout + end.stderr

    def begin(self):
        """Makes the volume, begins it and mounts it. Returns what went wrong, if anything did."""
        if not until(lambda: self.say("pool", "list")[0], 30):
            return "the daemon doesn't answer"
        name = socket.gethostname()
        bricks = [f"{name}:{self.folder / brick}" for brick in self.bricks()]
        # A brick that is gone is noticed soon.
        for words in (("create", VOLUME, "replica", "3", *bricks, "force"), ("set", VOLUME, "network.ping-timeout", "5"), ("start", VOLUME)):
            done, printed = self.say("volume", *words)
            if not done:
                return printed
        for mount in (self.mount, self.other):
            words = ["glusterfs", "--volfile-server=localhost", f"--volfile-id={VOLUME}", str(mount)]
            subprocess.run(words, stdin=subprocess.DEVNULL, check=False)
            if not until(lambda mount=mount: os.path.ismount(mount), 30):
                return f"{mount} isn't mounted"
        return ""

    def pids(self):
        """The processes of the bricks, None for those that don't run."""
        _, printed = self.say("volume", "status", VOLUME)
        printed = re.sub(r"\n(?=\S*\s+\S+\s+\S+\s+[YN]\s)", " ", printed)
        found = []
        for brick in self.bricks():
            row = re.search(rf"{brick}\s+\S+\s+\S+\s+([YN])\s+(\S+)", printed)
            found.append(int(row[2]) if row and row[1] == "Y" else None)
        return found

    def kill(self, number):
        """Kills a brick."""
        os.kill(self.pids()[number], signal.SIGKILL)

    def revive(self):
        """Starts the bricks that don't run, and waits until each brick has everything."""
        self.say("volume", "start", VOLUME, "force")
        return until(lambda: None not in self.pids()) and until(self.is_healed)

    def is_healed(self):
        done, printed = self.say("volume", "heal", VOLUME, "info")
        counts = re.findall(r"Number of entries: (\S+)", printed)
        return done and counts == ["0"] * 3

    def end(self):
        for mount in (self.mount, self.other):
            subprocess.run(["umount", "-l", str(mount)], capture_output=True, check=False)
        self.say("volume", "stop", VOLUME, "force")
        self.daemon.terminate()
        self.daemon.wait(LONGEST_WAIT)


def run_apart():
    """Runs this script once more, with processes and mounts of its own: so the daemon's files are nobody else's, and everything
    ends with the script.
    Returns its status; None if that can't be done here."""
    if os.geteuid() != 0 or not os.path.exists("/dev/fuse") or None in map(shutil.which, WANTED) or is_taken(DAEMON_PORT):
        return None
    folders = " && ".join(f"mount -t tmpfs tmpfs {folder}" for folder in ("/run", "/var/lib/glusterd", "/var/log/glusterfs"))
    # The shell also waits for processes whose parents have ended.
    text = f'{folders} && {{ "$@" & wait $!; }}'
    words = ["unshare", "--mount", "--pid", "--fork", "--mount-proc", "--kill-child", "bash", "-c", text, "bash", sys.executable, *sys.argv]
    if subprocess.run([*words[:6], "true"], capture_output=True, check=False).returncode != 0:
        return None
    return subprocess.run(words, env={**os.environ, "TRIAL_APART": "yes"}, check=False).returncode
