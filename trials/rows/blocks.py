"""The files of the folder `rows`."""

from trials.programs import TOP


def blocks_of(file):
    """The blocks of a file of rows: the lines of each, without comments, if any are left."""
    for block in (TOP / "rows" / file).read_text().split("\n\n"):
        lines = [line for line in block.split("\n") if line and not line.startswith("#")]
        if lines:
            yield lines
