"""Proxies that end for lack of memory, and the memory that a proxy holds."""

import re
from pathlib import Path

from trials.oramd.device import READ, Device, body_of, make_requests, read_all
from trials.oramd.setup import NO_MEMORY, Setup
from trials.processes import end_of


def try_short_proxies(tally, oramd, dice, halvings=12, steps=48):
    """A proxy that ends for lack of memory has saved its state: the next one goes on from it. The limit is halved towards the
    least at which ten requests are answered, and falls in small steps from there."""
    setup = Setup(tally, oramd, Device("short of memory", 600, 64, 4, 40, "plain"), dice)
    setup.start_host(1000)
    tally.ends("short of memory: format", setup.format(), 0)
    limit, step, short = 64 << 20, 32 << 20, 0
    for _ in range(halvings):
        has_ended_well = try_short_proxy(tally, setup, limit) == 0
        limit, step = limit - (step if has_ended_well else -step), step // 2
    for _ in range(steps):
        limit -= 16 << 10
        short += try_short_proxy(tally, setup, limit) == NO_MEMORY
    setup.host.kill()
    end_of(setup.host)
    tally.check("some proxies were short of memory", 0 < short, short)


def try_short_proxy(tally, setup, limit):
    """A proxy with so little memory, and then one without a limit. Returns the status of the first."""
    proxy = setup.start_proxy(1, memory=limit)
    session = setup.session(proxy)
    has_begun = session.ask(body_of(READ, 0)) is not None
    make_requests(tally, f"a limit of {limit} bytes", session, setup.array, 10)
    session.close()
    end = end_of(proxy)
    holds = (end.status, end.err) in ((0, b""), (NO_MEMORY, b"oramd: out of memory\n"))
    # With less memory than the system needs to start a program, the proxy isn't started.
    tally.check(f"a limit of {limit} bytes: its end", holds or not has_begun and end.status in (127, -9, -11, -6), end)
    next_one = setup.start_proxy(1)
    session = setup.session(next_one)
    read_all(tally, f"after a limit of {limit} bytes", session, setup.array)
    session.close()
    tally.ends(f"after a limit of {limit} bytes: its end", next_one, 0)
    return end.status


def try_many_sessions(tally, oramd, dice, sessions=12, requests=100):
    """What a proxy holds for saving its state doesn't grow from session to session."""
    setup = Setup(tally, oramd, Device("many sessions", 16, 4096, 4, 16, "plain"), dice)
    setup.start_host(2)
    tally.ends("many sessions: format", setup.format(), 0)
    proxy, sizes = setup.start_proxy(sessions), []
    for number in range(sessions):
        session = setup.session(proxy)
        make_requests(tally, f"session {number}", session, setup.array, 1)
        sizes.append(size_of(proxy))
        make_requests(tally, f"session {number}", session, setup.array, requests)
        session.close()
    tally.ends("many sessions: the proxy's end", proxy, 0)
    tally.ends("many sessions: the host's end", setup.host, 0)
    # The largest of the first four sessions is as large as any: what the proxy has given back when it is looked at differs from
    # session to session. Room for the requests of the other eight would be 7 MB.
    tally.check("many sessions: the proxy's memory", max(sizes[4:]) < max(sizes[:4]) + 3_000_000, sizes)


def size_of(process):
    """The bytes of memory that a process has reserved."""
    status = Path(f"/proc/{process.pid}/status").read_text()
    return 1024 * int(re.search(r"^VmSize:\s+(\d+) kB$", status, re.MULTILINE)[1])
