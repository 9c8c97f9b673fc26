"""What the two keys decide: what the host can read, and which paths it hears of."""

from trials.bucket_messages import FETCH, is_a
from trials.oramd.device import READ, TAPE_KEY, WRITE, Device, body_of
from trials.oramd.setup import Setup


def ask_new_device(tally, oramd, dice, name, seal, tape_key, ask):
    """A new device is formatted and asked by one session. Returns its host's image, and the FETCHes that the host heard of the session."""
    setup = Setup(tally, oramd, Device(name, 64, 64, 4, 16, seal), dice)
    setup.start_host(2)
    tally.ends(f"{name}: format", setup.format(), 0)
    fetched = []
    setup.relay.instead = lambda body: fetched.append(body) if is_a(FETCH, body) else None
    proxy = setup.start_proxy(1, tape_key=tape_key)
    session = setup.session(proxy)
    ask(session)
    session.close()
    tally.ends(f"{name}: the proxy's end", proxy, 0)
    tally.ends(f"{name}: the host's end", setup.host, 0)
    return setup.image().read_bytes(), fetched


def try_keys(tally, oramd, dice):
    """Data is found in the host's image only if the device isn't sealed. The tape's key decides which paths are fetched."""
    written = dice.randbytes(64)
    for seal in ("chacha", "plain"):
        write = lambda session: [session.ask(body_of(WRITE, block, written)) for block in range(20)]
        image, _ = ask_new_device(tally, oramd, dice, f"sealed by {seal}", seal, TAPE_KEY, write)
        tally.check(f"{seal}: what the host sees", (written in image) == (seal == "plain"))
    read = lambda session: [session.ask(body_of(READ, block)) for block in range(40)]
    keys = [TAPE_KEY, TAPE_KEY, dice.randbytes(32).hex()]
    fetched = [ask_new_device(tally, oramd, dice, f"tape {number}", "plain", key, read)[1] for number, key in enumerate(keys)]
    tally.check("one key of the tape: the same paths", fetched[0] == fetched[1] and len(fetched[0]) > 40, len(fetched[0]))
    tally.check("another key of the tape: other paths", fetched[2] != fetched[0])
