"""The life of a device, from its formatting to its failure."""

import socket
import struct

from trials.connections import LONGEST_BODY, read_frame
from trials.oramd.device import DEVICE_FAILED, NO_REQUEST, NO_SUCH_BLOCK, READ, REFUSED, WRITE, WRONG_LENGTH
from trials.oramd.device import body_of, make_requests, read_all
from trials.oramd.setup import BAD_FILE, HOST_FAULT, Setup

CUTS, SESSIONS = 12, 3


def try_device(tally, oramd, device, dice):
    """A device is formatted, served over several connections, cut off from its host at random messages, and at last has a record changed."""
    setup = Setup(tally, oramd, device, dice)
    # The formatting, four proxies that end well, each cut and the proxy after the last one.
    setup.start_host(1 + 4 + CUTS + 1)
    format_once(setup)
    serve(setup, SESSIONS, 60)
    start_twice(setup)
    serve(setup, 1, 60)
    misbehave(setup)
    cut_off(setup, CUTS, 80)
    tally.ends(f"{device.name}: the host's end", setup.host, 0)
    change_record(setup)


def format_once(setup):
    """The device is formatted, once: its state file is not written over."""
    tally, name = setup.tally, setup.device.name
    tally.ends(f"{name}: format", setup.format(), 0)
    mode = setup.state_file().stat().st_mode & 0o777
    tally.check(f"{name}: the state is its owner's", mode == 0o600, oct(mode))
    before = setup.relay.connections
    tally.ends(f"{name}: format again", setup.format(), BAD_FILE, f"oramd: file {setup.state_name()}")
    tally.check(f"{name}: nothing is sent then", setup.relay.connections == before)


def serve(setup, sessions, count):
    """A proxy serves this number of sessions, each with this number of requests, and ends."""
    tally, name = setup.tally, setup.device.name
    proxy = setup.start_proxy(sessions)
    for number in range(sessions):
        session = setup.session(proxy)
        is_answered = make_requests(tally, f"{name}: session {number}", session, setup.array, count)
        tally.check(f"{name}: session {number} is answered to its end", is_answered)
        session.close()
    tally.ends(f"{name}: the proxy's end", proxy, 0)


def start_twice(setup):
    """A second proxy on one state ends at once with a line, sends nothing, and harms neither the first one nor the state."""
    tally, name = setup.tally, setup.device.name
    proxy = setup.start_proxy(1)
    first = setup.session(proxy)
    tally.check(f"{name}: the first of two proxies answers", make_requests(tally, name, first, setup.array, 5))
    before = setup.relay.connections
    tally.ends(f"{name}: a second proxy", setup.start_proxy(1), BAD_FILE, f"oramd: file {setup.state_name()}")
    tally.check(f"{name}: it sends nothing", setup.relay.connections == before)
    tally.check(f"{name}: and the first one goes on", make_requests(tally, name, first, setup.array, 20))
    first.close()
    tally.ends(f"{name}: the first one's end", proxy, 0)


def misbehave(setup):
    """Clients that break off, that send what is no frame, or that ask for what can't be had harm nobody but themselves."""
    tally, name, device = setup.tally, setup.device.name, setup.device
    proxy = setup.start_proxy(4)
    for what, sent in (("half a frame", struct.pack(">IB", 5, READ)), ("a frame too long", struct.pack(">I", LONGEST_BODY + 1))):
        session = setup.session(proxy)
        session.stream.sendall(sent)
        session.stream.shutdown(socket.SHUT_WR)
        tally.check(f"{name}: {what} has no reply", read_frame(session.stream) is None)
        session.close()
    session = setup.session(proxy)
    refused = {
        b"": NO_REQUEST,
        b"\x10": NO_REQUEST,
        body_of(READ, 0, b"x"): NO_REQUEST,
        body_of(READ, device.blocks): NO_SUCH_BLOCK,
        body_of(WRITE, 0, bytes(device.block_bytes - 1)): WRONG_LENGTH,
    }
    for body, code in refused.items():
        reply = session.ask(body)
        tally.check(f"{name}: {body[:8].hex()} is refused", reply == bytes([REFUSED, code]), reply)
    tally.check(f"{name}: and the session goes on", make_requests(tally, name, session, setup.array, 5))
    session.close()
    session = setup.session(proxy)
    read_all(tally, f"{name}: after those", session, setup.array)
    session.close()
    tally.ends(f"{name}: the proxy after those", proxy, 0)


def cut_off(setup, rounds, count):
    """The connection to the host is cut at a random message: the proxy stalls, and a new one goes on."""
    tally, name = setup.tally, setup.device.name
    for number in range(rounds):
        setup.relay.cut(setup.dice.randrange(count), setup.dice.random() < 0.5)
        proxy = setup.start_proxy(1)
        session = setup.session(proxy)
        while make_requests(tally, f"{name}: until cut {number}", session, setup.array, 1):
            pass
        session.close()
        tally.ends(f"{name}: cut {number}", proxy, HOST_FAULT, "oramd: stalled")
    proxy = setup.start_proxy(1)
    session = setup.session(proxy)
    read_all(tally, f"{name}: after the cuts", session, setup.array)
    session.close()
    tally.ends(f"{name}: the proxy after the cuts", proxy, 0)


def flip_a_bit(path, dice):
    """Flips one bit of a record of tree 0 in an image."""
    image = bytearray(path.read_bytes())
    record_len, count = struct.unpack(">II", image[18:26])
    at = 26 + dice.randrange(count) * (4 + record_len) + 4 + dice.randrange(record_len)
    image[at] ^= 1 << dice.randrange(8)
    path.write_bytes(image)


def change_record(setup):
    """One bit of a record is changed at the host: the device fails, and says so."""
    tally, name = setup.tally, setup.device.name
    flip_a_bit(setup.image(), setup.dice)
    setup.start_host(1)
    proxy = setup.start_proxy(1)
    session = setup.session(proxy)
    failed = bytes([REFUSED, DEVICE_FAILED])
    for _ in range(100000):
        request = setup.array.draw_request()
        reply = session.ask(body_of(*request)) or b""
        holds = reply == failed or setup.array.is_answer(*request, reply)
        tally.check(f"{name}: a reply before the failure", holds, reply.hex())
        if reply == failed or not holds:
            break
    tally.check(f"{name}: a changed record fails the device", reply == failed, reply.hex())
    tally.check(f"{name}: and it stays failed", session.ask(body_of(READ, 0)) == failed)
    session.close()
    tally.ends(f"{name}: the proxy of a failed device", proxy, HOST_FAULT, "oramd: failed")
    tally.ends(f"{name}: its host", setup.host, 0)
