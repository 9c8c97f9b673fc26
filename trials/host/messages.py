"""Random messages, honest and hostile."""

import signal

from trials.bucket_host import check_answers
from trials.bucket_messages import DiskModel, fetch, fetch_levels, put, records, shape, store, store_levels


def random_body(dice, model):
    """A message that is mostly honest."""
    trees = list(model.shapes) or [0]
    tree = dice.choice(trees) if dice.random() < 0.95 else dice.randrange(256)
    depth, record_len = model.shapes.get(tree, (2, 8))
    kind = dice.random()
    near = lambda count: dice.randrange(count + 1) if dice.random() < 0.05 else dice.randrange(count)
    length = record_len + dice.choice([-1, 1]) if dice.random() < 0.05 else record_len
    if kind < 0.1:
        return shape(dice.randrange(6), dice.choice([0, 1, 2, 3, 25]), dice.choice([0, 1, 8, 33, 1 << 20]))
    if kind < 0.4:
        return put(tree, near((2 << depth) - 1), dice.randbytes(max(length, 0)))
    if kind < 0.55:
        return fetch(tree, near(1 << depth))
    if kind < 0.65:
        last = near(depth + 1)
        return fetch_levels(tree, near(last + 1), last, near(1 << depth))
    if kind < 0.7:
        return records(tree, near((2 << depth) - 1), dice.randrange(1 << depth) + 1)
    if kind < 0.83:
        return store(tree, near(1 << depth), [dice.randbytes(max(length, 0)) for _ in range(depth + 1)])
    if kind < 0.95:
        first = near(depth + 1)
        return store_levels(tree, first, near(1 << depth), [dice.randbytes(max(length, 0)) for _ in range(first, depth + 1)])
    return dice.randbytes(dice.choice([0, 1, 2, 5, 6, 7, 8, 40]))


def try_random(trial, rounds=4, count=250):
    """Honest and hostile messages are answered as the model answers them, over connections and processes."""
    host, model = trial.host("random").start(), DiskModel()
    for number in range(rounds):
        client = host.client()
        # Each is drawn once the one before it was answered, since it depends on the shapes that there are.
        check_answers(trial, f"random messages {number}", client, model, (random_body(trial.dice, model) for _ in range(count)))
        client.close()
        host.stop(trial.dice.choice([signal.SIGTERM, signal.SIGKILL]))
        host.start()
    client = host.client()
    check_answers(trial, "every path after the random messages", client, model, model.all_fetches())
    check_answers(trial, "the levels of every path after the random messages", client, model, model.all_levels())
    check_answers(trial, "every record after the random messages", client, model, model.all_records(5))
    client.close()
    host.stop()
