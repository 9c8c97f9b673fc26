"""All allocations of a program, refused in turn."""

from trials.memory.verdicts import WENT_ON, WRONG, judge

# The most allocations of a block that are refused in one trial.
MOST = 250


def try_program(tally, dice, refuser, pool, name, program, rows, printed):
    """Refuses the allocations of each block of a program's rows, or of oramsim's script, which prints `printed`."""
    if name == "oramsim":
        sweep(tally, dice, refuser, pool, name, program, [(rows, printed)])
        try_reopen(tally, refuser, program)
    else:
        # A row program prints each row with its answer, which the text of the row has too.
        sweep(tally, dice, refuser, pool, name, program, [(block, block) for block in standing_alone(refuser, program, rows)])


def standing_alone(refuser, program, rows):
    """The blocks of the rows, each after those that it needs. What a block has to write is its own text."""
    groups = []
    for block in rows.rstrip(b"\n").split(b"\n\n"):
        if groups and refuser.count(program, block + b"\n")[0] != (0, block + b"\n"):
            groups[-1] += b"\n\n" + block
        else:
            groups.append(block)
    return [group + b"\n" for group in groups]


def spread(dice, count):
    """The numbers of the allocations that are refused: all of them, or MOST of them if there are more. Those are spread evenly, from the first
    one on, or from a random one on if there are dice."""
    if count <= MOST:
        return range(1, count + 1)
    first = dice.randrange(count // MOST) if dice else 0
    return [1 + first + at * count // MOST for at in range(MOST)]


def sweep(tally, dice, refuser, pool, name, program, blocks):
    """Refuses the allocations of each block. With memory the block prints the text that is given beside it."""
    runs, made, whole, others = 0, 0, 0, 0
    for block, printed in blocks:
        wanted, count = refuser.count(program, block)
        tally.check(f"{name}, {block[:60]}, with memory", wanted == (0, printed), str(wanted)[-300:])
        ends = pool.map(lambda number: (number, refuser.run(program, block, number)), spread(dice, count))
        for number, ended in ends:
            verdict = judge(name, ended, wanted)
            tally.check(f"{name}, {block[:60]}, allocation {number} of {count}", verdict != WRONG, str(ended)[-300:])
            runs, others = runs + 1, others + (verdict == WENT_ON)
        made += count
        whole += count <= MOST
    tally.check(f"{name}: allocations are refused", runs > 0, made)
    print(f"{name}: {runs} of {made} allocations refused, each one in {whole} of {len(blocks)} blocks; {others} runs went on", flush=True)


def try_reopen(tally, refuser, program):
    """`reopen` writes the core to its file and reads it back, which no clause of a contract can say. So it takes memory for a
    file and for a core, while `lost` takes none."""
    begun = b"device 64 16 4 16 100\nread 0 5 1 2 3 4\n"
    counts = [refuser.count(program, begun + line)[1] for line in (b"lost\n", b"reopen\n")]
    tally.check("a script's reopen takes memory for a file and a core", counts[1] - counts[0] > 10, counts)
