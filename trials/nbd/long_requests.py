"""A request that takes many rounds."""

from trials.disk import BLOCK, Disk
from trials.nbd_client import READ, ZEROES, Request

# All of the disk, which takes half a minute or more.
SIZE = 16 << 20
BLOCKS = SIZE // BLOCK


def try_long_request(trial):
    """While a request of thousands of blocks is carried out, another client is turned away. Once its own client has left, it is given
    up, and the next client is served."""
    disk = Disk(trial, "long", size=f"{SIZE}", sync=False, table=BLOCKS).formatted()
    client = disk.serve().client()
    trial.check("long: a reply before", client.ask(READ, 0, BLOCK) == (0, bytes(BLOCK)))
    client.say(Request(ZEROES, 0, SIZE))
    other = disk.connect()
    trial.check("long: another client is turned away", other.take(1) is None)
    trial.check("long: its line", any("turned away" in line for line in disk.lines()))
    # It leaves without a word, as one that is killed.
    client.stream.close()
    following = disk.client()
    trial.check("long: the next client is served", following is not None and following.ask(READ, 0, BLOCK) == (0, bytes(BLOCK)))
    disk.end(following)
    made = int(disk.status()["accesses"].split()[0])
    trial.check("long: the rest was given up", made < BLOCKS, made)
