"""oramd and oramdisk: their command lines and settings."""

import re
import subprocess

from trials.processes import LONGEST_WAIT
from trials.rows.blocks import blocks_of


def changed(text, words):
    """A text of settings with, or without, what the words say."""
    verb, key, *_ = words.split(" ")
    kept = [line for line in text.split("\n") if line and not line.startswith(f"{key} =")]
    more = [words[5:].replace("\\n", "\n")] if verb == "with" else []
    return "\n".join(kept + more) + "\n"


def run_row(programs, folder, texts, row):
    """How the command line of a row ends: its status, and the first line of standard error, or of standard output if nothing is there."""
    command, _, change = re.match(r"(.*?)( (?=with |without )|$)(.*)", row).groups()
    program, *words = command.split(" ")
    name = words[-1] if words else ""
    if name in texts:
        (folder / name).write_text(changed(texts[name], change) if change else texts[name])
    ran = subprocess.run([programs[program], *words], cwd=folder, stdin=subprocess.DEVNULL, capture_output=True, timeout=LONGEST_WAIT)
    return ran.returncode, (ran.stderr or ran.stdout).decode(errors="replace").split("\n")[0]


def try_command_lines(tally, programs, folder, file):
    """Each row of a file ends with its status and its line."""
    texts = {}
    for lines in blocks_of(file):
        if lines[0].endswith(":"):
            texts[lines[0][:-1]] = "".join(f"{line.strip()}\n" for line in lines[1:])
            continue
        for line in lines:
            row, wanted = line.split(" => ")
            status, first_line = wanted.split(" ", 1)
            seen = run_row(programs, folder, texts, row)
            holds = seen[0] == int(status) and (seen[1] == first_line or seen[1].startswith(f"{first_line}: "))
            tally.check(f"a row of rows/{file}, {row}", holds, seen)
