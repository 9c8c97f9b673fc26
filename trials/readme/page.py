"""The README's quick start, and the disk that it makes."""

import os
import re

from trials.connections import open_connection
from trials.nbd_client import READ, WRITE, NbdClient
from trials.programs import TOP
from trials.readme.machines import DISK_SOCKET, HOST_SOCKET, LONGEST_COMMAND, TUNNEL_SOCKET


class Page:
    """The commands of the README, each with its machine."""

    def __init__(self, tally):
        text = (TOP / "README.md").read_text()
        self.quick_start, self.start_again = quick_start(text), start_again(text)
        seen = (self.quick_start, self.start_again)
        tally.check("the page has a quick start", len(self.quick_start) >= 6 and len(self.start_again) == 2, seen)


def quick_start(text):
    """The commands of the page's quick start, each with its machine."""
    section = text.split("\n## Quick start\n")[1].split("\n## ")[0]
    lines = re.findall(r"^    (yours|rented)\$ +(.*?)(?: +#.*)?$", section, flags=re.MULTILINE)
    return [(machine, command.strip()) for machine, command in lines]


def start_again(text):
    """The commands by which a disk is started again, as the page's row gives them."""
    row = re.search(r"^\| Start \|(.*)\|$", text, flags=re.MULTILINE)[1]
    commands = re.findall(r"`((?:\./)?oramdisk [^`]*)`", row)
    return [("rented" if " host " in command else "yours", f"{command} &") for command in commands]


def resized(command):
    """A command with the disk's size of this trial, if it has one of its own."""
    return re.sub(r"--size \S+", f"--size {os.environ['SIZE']}", command) if os.environ.get("SIZE") else command


def run_page(tally, machines, commands):
    """Runs the page's commands in their order. Returns those that are left out, since they need root."""
    left_out = []
    for machine, command in commands:
        if command.startswith("sudo ") and not os.environ.get("SUDO"):
            left_out.append(command)
            continue
        went_well = machines.run(machine, resized(command))
        tally.check(f"{machine}$ {command}", went_well, "" if went_well else machines.said())
        if not went_well:
            break
    return left_out


def open_disk(path):
    """A connection to the disk at a Unix socket, after its handshake."""
    client = NbdClient(open_connection(path))
    client.stream.settimeout(LONGEST_COMMAND)
    client.greet()
    client.choose()
    return client


def use_disk(tally, machines, again):
    """What is written is there, also after both sides were killed and started again by the page's words. All sockets are their owners' alone."""
    data = os.urandom(3 * 4096)
    sockets = [machines.folder / machine / name for machine, name in (("yours", DISK_SOCKET), ("yours", TUNNEL_SOCKET), ("rented", HOST_SOCKET))]
    modes = [oct(path.stat().st_mode & 0o777) for path in sockets]
    tally.check("sockets of their owners alone", modes == ["0o600"] * 3, modes)
    place = machines.folder / "yours" / DISK_SOCKET
    client = open_disk(place)
    tally.check("a write", client.ask(WRITE, 4096, len(data), data) == (0, b""))
    tally.check("a read", client.ask(READ, 4096, len(data)) == (0, data))
    client.close()
    machines.kill({"host", "serve"})
    for machine, command in again:
        tally.check(f"{machine}$ {command}", machines.run(machine, command), machines.said())
    client = open_disk(place)
    tally.check("a read after both were killed", client.ask(READ, 4096, len(data)) == (0, data))
    client.close()
