"""Clients that send what no honest client sends."""


from trials.connections import reset_on_close
from trials.disk import Disk
from trials.disk_array import DiskArray, check_disk
from trials.nbd_client import EINVAL, ENOSPC, GO, INFO, LIST, READ, STARTTLS, WRITE, head_of, option_of

# A length, of an option or of a request, that no honest client sends.
HUGE = 0xFFFFFFFF


def send_noise(_trial, nbd, dice):
    nbd.give(dice.randbytes(dice.randrange(1, 5000)))


def answer_greeting_wrongly(_trial, nbd, dice):
    nbd.greet(dice.choice([4, 7, 1 << 31]))
    nbd.give(dice.randbytes(100))


def send_many_options(_trial, nbd, dice):
    nbd.greet()
    for _ in range(1100):
        if not nbd.option(dice.choice([LIST, STARTTLS, 99, INFO]), b"" if dice.random() < 0.5 else dice.randbytes(6)):
            break


def send_huge_option(_trial, nbd, _dice):
    nbd.greet()
    nbd.give(option_of(GO, bytes(1000), HUGE))


def send_huge_write(_trial, nbd, _dice):
    nbd.greet()
    nbd.choose()
    nbd.give(head_of(1, WRITE, 0, HUGE) + bytes(10000))


def send_part_of_a_head(_trial, nbd, dice):
    nbd.greet()
    nbd.choose()
    nbd.give(head_of(1, WRITE, 0, 4096)[: dice.randrange(28)])


def choose_another_export(_trial, nbd, _dice):
    nbd.greet()
    nbd.choose(b"another")


def ask_for_what_is_not_there(trial, nbd, _dice):
    nbd.greet()
    nbd.choose()
    for kind, offset, length, error in (
        (READ, 1 << 62, 1, EINVAL),
        (WRITE, (1 << 64) - 1, 1, ENOSPC),
        (77, 0, 0, EINVAL),
        (READ, 0, 1 << 31, EINVAL),
    ):
        reply = nbd.ask(kind, offset, length, b"x" if kind == WRITE else b"")
        trial.check("a refusal", reply is not None and reply[0] == error, reply)


KINDS = [
    send_noise,
    answer_greeting_wrongly,
    send_many_options,
    send_huge_option,
    send_huge_write,
    send_part_of_a_head,
    choose_another_export,
    ask_for_what_is_not_there,
]


def be_hostile(trial, nbd):
    """A client of a random kind sends what no honest client sends, and leaves."""
    KINDS[trial.dice.randrange(len(KINDS))](trial, nbd, trial.dice)
    if trial.dice.random() < 0.5:
        reset_on_close(nbd.stream)
    nbd.stream.close()


def try_hostile(trial, rounds=60):
    """Hostile clients are refused, and harm nobody but themselves."""
    disk = Disk(trial, "hostile", sync=False).formatted()
    array = DiskArray()
    disk.serve()
    for number in range(rounds):
        nbd = disk.connect()
        if nbd is None:
            trial.check(f"hostile {number}: it listens", False, disk.lines()[-2:])
            break
        be_hostile(trial, nbd)
    client = disk.client()
    check_disk(trial, "hostile: what it holds", client, array)
    client.close()
    trial.check("hostile: it goes on", disk.process.poll() is None)
    disk.stop()
    trial.check("hostile: its status", disk.status().get("state") == "it is sound")
    disk.host.stop()
