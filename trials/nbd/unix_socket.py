"""A disk that is served at a Unix socket."""

import shutil
import signal
import stat

from trials.disk import SMALL, Disk
from trials.disk_array import DiskArray, ask_at_random, check_disk, make_requests
from trials.nbd.other_clients import compare_images, run_to_end
from trials.nbd_client import READ
from trials.processes import end_of
from trials.statuses import LISTENER_TAKEN


def try_unix_socket(trial):
    """A disk is served at a Unix socket, which is its owner's alone. One that a killed process left is replaced, and nothing else is."""
    disk = Disk(trial, "local", table=16, reconnect_timeout=1).formatted()
    array = DiskArray()
    client = disk.serve(socket_name="disk.sock").client()
    make_requests(trial, client, array, 10)
    mode = disk.socket.stat().st_mode
    trial.check("a socket of its owner alone", stat.S_ISSOCK(mode) and stat.S_IMODE(mode) == 0o600, oct(mode))
    other = disk.connect()
    trial.check("a second client is turned away", other.take(1) is None)
    other.stream.close()
    client.close()
    # From then on the next client isn't turned away.
    lines = disk.wait_for_lines("a local client from ", 1)
    trial.check("lines of local clients", len(lines) == 1, lines)
    use_other_clients(trial, disk, array)
    disk.stop(signal.SIGKILL)
    trial.check("a killed process leaves its socket", disk.socket.is_socket())
    client = disk.serve(socket_name="disk.sock").client()
    check_disk(trial, "by the socket of a killed process", client, array)
    try_taken_socket(trial, disk)
    ask_at_random(trial, client, array)
    client.close()
    # If the program ends by itself, it removes its socket.
    disk.host.stop()
    client = disk.client()
    trial.check("no reply without a host", client.ask(READ, 0, 512) is None)
    disk.wait()
    trial.check("its socket goes with it", not disk.socket.exists())


def use_other_clients(trial, disk, array):
    """What clients that others wrote make of the socket."""
    if not (shutil.which("nbdinfo") and shutil.which("nbdcopy")):
        trial.skip()
        return
    printed = run_to_end(trial, "nbdinfo by the socket", "nbdinfo", disk.address())
    trial.check("the export's size by the socket", f"export-size: {SMALL}" in printed, printed)
    copy = disk.folder / "copy"
    run_to_end(trial, "nbdcopy by the socket", "nbdcopy", disk.address(), str(copy))
    trial.check("the copy by the socket", array.wrong(copy.read_bytes()) == [])
    # As the README says it, from the disk's folder.
    run_to_end(trial, "nbdinfo by the page's address", "nbdinfo", "nbd+unix:///?socket=disk.sock", folder=disk.folder)
    if shutil.which("qemu-img"):
        compare_images(trial, "qemu-img by the socket", copy, disk)
    else:
        trial.skip()


def try_taken_socket(trial, disk):
    """Another disk can't be served where somebody listens, nor in place of another file."""
    other = Disk(trial, "other-local", size="16kB", table=16).formatted()
    file = other.folder / "file.sock"
    file.write_text("a file")
    for place in (str(disk.socket), str(file)):
        other.set(listen=f"unix:{place}")
        line = f"oramdisk: can't listen at {place}: see that no other program listens there"
        end = end_of(other.start("serve"))
        trial.check("a socket that is taken", end.status == LISTENER_TAKEN and end.err.decode().startswith(line), end)
    trial.check("a file stays", file.read_text() == "a file")
    other.host.stop()
