"""The faults of oramd: each has a line and a status."""

import struct

from trials.oramd.device import TAPE_KEY, Device
from trials.oramd.setup import BAD_CONTENT, BAD_FILE, BAD_WORDS, HOST_FAULT, NO_MEMORY, Setup
from trials.ports import free_port
from trials.processes import end_of


def image_of(trees, record_len):
    """An image of this number of trees, each with one record."""
    parts = [b"ORAMHOST", struct.pack(">II", 1, trees)]
    for tree in range(trees):
        parts += [struct.pack(">BBIII", tree, 0, record_len, 1, 0), bytes(record_len)]
    return b"".join(parts)


def try_faults(tally, oramd, dice):
    """Each fault line is provoked once; and `loop` answers."""
    listen = {"listen": f"127.0.0.1:{free_port()}", "connections": 1}
    nobody = {"host": f"127.0.0.1:{free_port()}"}
    try_words_and_settings(tally, oramd, listen, nobody)
    try_bad_files(tally, oramd, listen, nobody)
    try_refused_format(tally, oramd, dice)
    row = ["000000051100000005", "000000151200000005" + "ff" * 16, "000000051100000005"]
    loop = end_of(oramd.start("loop", "".join(row)))
    wanted = "0000001190" + "00" * 16 + "0000000191" + "0000001190" + "ff" * 16
    tally.check("loop", (loop.status, loop.out.decode().strip(), loop.err) == (0, wanted, b""), loop)


def try_words_and_settings(tally, oramd, listen, nobody):
    """Words and settings that can't be read, or name what isn't there."""
    sizes = {"seal": "plain", "blocks": 8, "block_bytes": 16, "slots": 4, "top": 8, "lifetime": 100}
    no_state = {**listen, **nobody, "seal": "plain", "tape_key": TAPE_KEY, "state": "none.state"}
    new = {**nobody, **sizes, "state": "new.state"}
    end = end_of(oramd.start("serve", "x"))
    tally.check("a bad command line", end.status == BAD_WORDS and end.err.startswith(b"oramd: bad command line\n"), end)
    tally.ends("bad hex", oramd.start("loop", "0g"), BAD_WORDS, "oramd: bad hex")
    tally.ends("bad settings", oramd.start_role("host", {**listen, "image": ""}), BAD_WORDS, "oramd: bad settings")
    tally.ends("no such settings", oramd.start("host", "none.toml"), BAD_FILE, "oramd: file none.toml")
    tally.ends("no such state file", oramd.start_role("proxy", no_state), BAD_FILE, "oramd: file none.state")
    tally.check("and no lock is left of it", not (oramd.folder / "none.state.lock").exists())
    tally.ends("nobody listens", oramd.start_role("format", new), BAD_FILE, "oramd: socket")
    tally.ends("a shape that can't be", oramd.start_role("format", {**new, "blocks": 0}), BAD_CONTENT, "oramd: shape 1")


def try_bad_files(tally, oramd, listen, nobody):
    """A state and images that aren't whole, or too large."""
    state = bytearray((oramd.folder / "one-tree-plain.state").read_bytes())
    state[-1] ^= 1
    (oramd.folder / "bad.state").write_bytes(state)
    proxy = {**listen, **nobody, "seal": "plain", "tape_key": TAPE_KEY, "state": "bad.state"}
    tally.ends("a state file with another digest", oramd.start_role("proxy", proxy), BAD_CONTENT, "oramd: state 4")
    (oramd.folder / "bad.image").write_bytes(image_of(3, 100)[:-1])
    tally.ends("an image cut short", oramd.start_role("host", {**listen, "image": "bad.image"}), BAD_CONTENT, "oramd: image 3")
    (oramd.folder / "large.image").write_bytes(image_of(256, 1000000))
    host = oramd.start_role("host", {**listen, "image": "large.image"}, memory=128 << 20)
    tally.ends("no memory", host, NO_MEMORY, "oramd: out of memory")


def try_refused_format(tally, oramd, dice):
    """A host that has the trees of one device refuses another."""
    setup = Setup(tally, oramd, Device("refused", 8, 16, 4, 8, "plain"), dice)
    setup.start_host(2)
    tally.ends("the first formatting", setup.format("first.state"), 0)
    tally.ends("a formatting that the host refuses", setup.format("second.state"), HOST_FAULT, "oramd: host refused")
    tally.check("no state file is left by it", not (oramd.folder / "second.state").exists())
    tally.ends("its host's end", setup.host, 0)
