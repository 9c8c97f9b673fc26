"""The figures as tables in Markdown."""

from trials.measuring.figures import SIXTEEN, spoken


def print_table(name, rows):
    """Prints a table with a row for each line, which has each program's figures over that line."""
    heads = [f"{program}4 KiB | 4 KiB a second, {SIXTEEN} in flight | 64 KiB" for program in (f"{one}: " if one else "" for one in rows[0][1])]
    print(f"\n{name}\n\n| Round trip | {' | '.join(heads)} |\n|---|{'---|---|---|' * len(heads)}")
    for way, figures in rows:
        print(f"| {way.label} | {' | '.join(one.cells() for one in figures.values())} |", flush=True)


def print_notes(rows):
    """Says what a request carried and cost over the first line."""
    for name, figures in rows[0][1].items():
        what = f"{name}: a 4 KiB request" if name else "A 4 KiB request"
        carries = f"carries {figures.carried / 1000:.0f} kB over the line both ways together, in {figures.messages:.1f} messages and their answers"
        takes = f"takes {spoken(figures.busy[0])} of the client's processor and {spoken(figures.busy[1])} of the host's"
        writes = f"writes {figures.written[0] / 1000:.0f} kB to the client's files and {figures.written[1] / 1000:.0f} kB to the host's"
        together = f"{figures.written_together[0] / 1000:.0f} kB and {figures.written_together[1] / 1000:.0f} kB"
        print(f"\n{what} {carries}, and {takes}. It {writes}; with {SIXTEEN} in flight it is {together} for each.")
        print(f"The client's process had at most {figures.memory[0] / 1e6:.0f} MB of memory, and the host's {figures.memory[1] / 1e6:.0f} MB.")
