"""The order in which a state is synced and renamed."""

from trials import strace
from trials.oramd.device import Device
from trials.oramd.setup import Setup


def try_syncs(tally, oramd, dice):
    """A file is replaced so that a loss of power leaves the old one or the new one: the new one is synced, renamed, and its folder synced."""
    setup = Setup(tally, oramd, Device("synced", 8, 16, 4, 8, "plain"), dice)
    setup.start_host(1)
    settings = oramd.write_settings(setup.format_settings("synced.state"))
    end, calls = strace.trace_renames_and_syncs(oramd.folder, oramd.program, "format", settings)
    if calls is None:
        setup.host.kill()
        setup.host.wait()
        tally.skip("strace is not here, or may not trace")
        return
    folder = oramd.folder.resolve()
    tally.check("a traced formatting", (end.status, end.err) == (0, b""), end)
    wanted = [("sync", f"{folder}/synced.state.new"), ("rename", "synced.state"), ("sync", f"{folder}")]
    tally.check("a state is synced, renamed, and its folder synced", calls[-3:] == wanted, calls)
    tally.ends("the traced formatting's host", setup.host, 0)
