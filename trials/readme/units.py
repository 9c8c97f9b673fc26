"""The units of contrib/systemd."""

import os
import re
import shutil
import subprocess
from pathlib import Path

from trials.nbd_client import READ, WRITE
from trials.programs import TOP
from trials.readme.machines import LONGEST_COMMAND
from trials.readme.page import open_disk


def try_units(tally, machines):
    """systemd judges the text of the units, and their lines start a host and a disk. Returns what is left out."""
    folder = machines.folder / "units"
    folder.mkdir()
    units = units_for(folder, machines.program)
    left_out = verify_units(tally, folder, units)
    use_units(tally, machines, folder, units)
    return left_out


def units_for(folder, program):
    """The units for a folder of the trial's own, in place of those of the system, by their names. Programs that aren't on this machine are
    replaced by one that does nothing."""
    units = {}
    for file in sorted((TOP / "contrib/systemd").iterdir()):
        text = file.read_text().replace("/usr/local/bin/oramdisk", str(program)).replace("/var/lib/oramdisk", str(folder))
        text = text.replace("User=oramdisk\n", "").replace("/etc/oramdisk/tunnel.env", str(folder / "tunnel.env"))
        for used in set(re.findall(r"^Exec\w+=(\S+)", text, flags=re.MULTILINE)):
            if not Path(used).exists():
                text = text.replace(f"={used} ", "=/bin/true ")
        units[file.name] = text
    return units


def verify_units(tally, folder, units):
    """systemd finds nothing wrong with the units. Returns what is left out."""
    if shutil.which("systemd-analyze") is None:
        return ["systemd-analyze verify"]
    (folder / "tunnel.env").write_text("REMOTE=you@rented\n")
    (folder / "units").mkdir()
    for name, text in units.items():
        (folder / "units" / name).write_text(text)
    words = ["systemd-analyze", "verify", "--man=no", *(str(folder / "units" / name) for name in units)]
    end = subprocess.run(words, capture_output=True, text=True, env={**os.environ, "SYSTEMD_UNIT_PATH": f"{folder}/units:"}, timeout=LONGEST_COMMAND)
    tally.check("systemd-analyze verify", (end.returncode, end.stderr) == (0, ""), (end.returncode, end.stderr[-800:]))
    return []


def use_units(tally, machines, folder, units):
    """The units' lines start a host and a disk, whose folder and file are made as the page of the units says. A link stands for the tunnel."""
    line = {name: re.search(r"^ExecStart=(.*)$", text, flags=re.MULTILINE)[1] for name, text in units.items() if "ExecStart=" in text}
    host, serve = line["oramdisk-host.service"], line["oramdisk-serve.service"]
    disk_socket = folder / "mydisk/disk.sock"
    machines.places.update(host=folder / "buckets.sock", serve=disk_socket)
    made = f"cd {folder} && {machines.program} new mydisk --size 1MiB && cp mydisk/host.toml . && ln -s ../buckets.sock mydisk/"
    tally.check("a folder for the units", machines.run("yours", made), machines.said())
    for command in (host.replace(" host ", " host --new ") + " &", f"{machines.program} format {folder}/mydisk/disk.toml"):
        tally.check(command, machines.run("yours", command), machines.said())
    machines.kill({"host"})
    for command in (f"{host} &", f"{serve} &"):
        tally.check(command, machines.run("yours", command), machines.said())
    client = open_disk(disk_socket)
    tally.check("a write to the units' disk", client.ask(WRITE, 4096, 4, b"unit") == (0, b""))
    tally.check("a read from it", client.ask(READ, 4096, 4) == (0, b"unit"))
    client.close()
