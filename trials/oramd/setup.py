"""A device with its host and its proxies, as processes of oramd."""

import resource
from pathlib import Path

from trials.oramd.device import TAPE_KEY, DeviceArray, open_session
from trials.ports import free_port
from trials.processes import start
from trials.relay import Relay
from trials.settings import toml_of

# The statuses with which the program ends, as docs/oramd.md lists them.
BAD_WORDS, NO_MEMORY, BAD_FILE, BAD_CONTENT, HOST_FAULT = 2, 3, 4, 5, 6


class Oramd:
    """The program, with a folder for its files."""

    def __init__(self, program, folder):
        self.program, self.folder, self.count = program, Path(folder), 0

    def write_settings(self, values):
        """Writes a new settings file, and returns its name."""
        self.count += 1
        path = self.folder / f"{self.count}.toml"
        path.write_text(toml_of(values))
        return str(path)

    def start(self, *words, memory=None):
        """Starts the program with these words, and with no more memory than this number of bytes."""
        limit = (lambda: resource.setrlimit(resource.RLIMIT_AS, (memory, memory))) if memory else None
        return start([self.program, *words], self.folder, preexec_fn=limit)

    def start_role(self, role, values, memory=None):
        """Starts the program in this role, with these settings."""
        return self.start(role, self.write_settings(values), memory=memory)


class Setup:
    """A device, its host behind a relay, and the files of both."""

    def __init__(self, tally, oramd, device, dice):
        self.tally, self.oramd, self.device, self.dice = tally, oramd, device, dice
        self.tag = device.name.replace(" ", "-").replace(",", "")
        self.relay = Relay()
        self.array = DeviceArray(device, dice)

    def state_name(self):
        return f"{self.tag}.state"

    def state_file(self):
        return self.oramd.folder / self.state_name()

    def image(self):
        """The file in which its host saves its buckets."""
        return self.oramd.folder / f"{self.tag}.image"

    def start_host(self, connections):
        """Starts the host, which ends after this number of connections."""
        port = free_port()
        self.host = self.oramd.start_role("host", {"listen": f"127.0.0.1:{port}", "connections": connections, "image": self.image().name})
        self.relay.lead_to(self.host, port)

    def format_settings(self, state):
        address = {"host": f"127.0.0.1:{self.relay.port}", "state": state}
        return {**address, **self.device.sealer(), **self.device.sizes()}

    def format(self, state=None):
        """Starts a formatting, which makes its state in this file."""
        return self.oramd.start_role("format", self.format_settings(state or self.state_name()))

    def start_proxy(self, connections, memory=None, tape_key=TAPE_KEY):
        """Starts a proxy, which ends after this number of connections."""
        self.port = free_port()
        address = {"listen": f"127.0.0.1:{self.port}", "connections": connections, "host": f"127.0.0.1:{self.relay.port}"}
        settings = {**address, "state": self.state_name(), **self.device.sealer(), "tape_key": tape_key}
        return self.oramd.start_role("proxy", settings, memory)

    def session(self, proxy):
        """A connection to the proxy that was started last."""
        return open_session(self.port, proxy)
