"""Ports for the processes of a trial."""

import collections
import os
import random
import socket

# The ports of this trial, as `20000-31999`. Trials that run beside one another have none in common.
FIRST_PORT, LAST_PORT = map(int, os.environ.get("PORTS", "20000-31999").split("-"))
# Those that were given last, the newest last. They are at most half of all, so there is always another one.
GIVEN_PORTS = collections.deque(maxlen=(LAST_PORT - FIRST_PORT + 1) // 2)


def free_port():
    """A port that nobody listens at, and that this trial wasn't given lately. It is below the ports that the system gives to connections:
    one of those could be taken by a connection before somebody listens there."""
    while True:
        port = random.SystemRandom().randint(FIRST_PORT, LAST_PORT)
        if port in GIVEN_PORTS:
            continue
        with socket.socket() as probe:
            try:
                probe.bind(("127.0.0.1", port))
            except OSError:
                continue
        GIVEN_PORTS.append(port)
        return port
