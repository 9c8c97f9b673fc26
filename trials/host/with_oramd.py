"""oramd over a host of oramdisk."""

import re
import signal

from trials.oramd.device import DEVICES
from trials.oramd.life import cut_off, format_once, serve
from trials.oramd.setup import Oramd, Setup


class SetupOverOramdisk(Setup):
    """A device of oramd, whose host is oramdisk's."""

    def __init__(self, trial, oramd, device):
        super().__init__(trial.tally, oramd, device, trial.dice)
        self.bucket_host = trial.host(self.tag)

    def start_host(self, _connections=0):
        self.bucket_host.start()
        self.relay.lead_to(self.bucket_host.process, self.bucket_host.port)


def try_oramd(trial):
    """A formatting and proxies of oramd work against the host, which is ended and started again in between."""
    oramd = Oramd(trial.oramd, trial.folder)
    for device in [DEVICES[1], DEVICES[2]]:
        setup = SetupOverOramdisk(trial, oramd, device)
        host = setup.bucket_host
        setup.start_host()
        format_once(setup)
        # Once the next connection is answered, the formatting's has ended, and what it put is on the disk.
        host.connection_line(0)
        for how in (signal.SIGTERM, signal.SIGKILL):
            host.stop(how)
            setup.start_host()
            serve(setup, 2, 40)
        cut_off(setup, 3, 40)
        host.stop()
        served = [line for line in host.lines() if re.search(r" [1-9][0-9]* messages?, .* bytes out$", line)]
        trial.check(f"{device.name}: a line for each connection with messages", len(served) >= 5, host.lines())
