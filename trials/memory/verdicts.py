"""Whether a program may write this without memory."""

import re

NO_MEMORY = b"out of memory\n"
OUT_OF_MEMORY = 3
RIGHT, WENT_ON, WRONG = "right", "went on", "wrong"
# The answers that may differ without memory, since their calls go on: they refuse or repeat what there was no memory for.
GO_ON = {
    "rows_disk": re.compile(rb"(introduce|link) .*"),
    "rows_sessions": re.compile(rb"(session|far_session) .*"),
    "rows_rounds": re.compile(
        rb"lives .* (ends|faults|answers|lies) .* => .*"
        rb"|ends_everywhere .* => .* lost 0 torn 0 other 0"
        rb"|faults => \d+"
        rb"|order => \d+"
        rb"|stores => kept \d+ held \d+"
        rb"|storm .* replies (?P<count>\d+) right (?P=count)"
    ),
    "rows_store": re.compile(rb"life .*"),
}
MESSAGES_SENT = re.compile(rb"(fetches|stores) \d+")
# In a block whose host lies about some messages, or whose link fails at some, these are told by their numbers. A message that is sent once more
# for want of memory moves the numbers: so another one is lied about or fails, or none. Each command has its honest reply all the same, or fails.
MOVED = re.compile(rb"host (lies|faults) .*")
ROUND = re.compile(rb"round (?P<commands>.*) => (?P<replies>.*) kept 1 fetches \d+ stores \d+")
GO_ON_ROW = re.compile(rb"go_on => ((done|failed|01\*16|02\*16) )*kept \d+ fetches \d+ stores \d+")
COMMAND = re.compile(rb"write (?P<written>\d) \S+|read (?P<read>\d)")


def judge(name, ended, wanted):
    """Judges a run by its status and what it wrote, compared with the run with memory. It is RIGHT if it wrote the same, or a
    beginning of that and then that memory ran out; it WENT_ON if calls that may go on without memory did so; otherwise it is
    WRONG."""
    (status, text), (good, whole) = ended, wanted
    if (status, text) == (good, whole):
        return RIGHT
    front = text[: -len(NO_MEMORY)] if text.endswith(NO_MEMORY) else None
    if status == OUT_OF_MEMORY and front is not None and whole.startswith(front):
        return RIGHT
    went_on = script_went_on(text, whole) if name == "oramsim" else rows_went_on(name, text, whole)
    return WENT_ON if status == good and went_on else WRONG


def script_went_on(text, whole):
    """The host of a script has memory of its own: without it the message stalls, and the script goes on from there."""
    at = next((i for i, (a, b) in enumerate(zip(text, whole)) if a != b), min(len(text), len(whole)))
    line = text.rfind(b"\n", 0, at) + 1
    return text[line:].startswith(b"stalled\n")


def rows_went_on(name, text, whole):
    """Each row is as with memory, except those of calls that go on without it."""
    lines, wanted = text.split(b"\n"), whole.split(b"\n")
    moved = name == "rows_rounds" and any(map(MOVED.match, wanted))
    return len(lines) == len(wanted) and all(may_differ(name, line, good) or (moved and has_honest_replies(line)) for line, good in zip(lines, wanted))


def has_honest_replies(line):
    """Whether each command of a round has the reply that an honest host leads to, or failed. Block n has n in each byte, once it is written."""
    if GO_ON_ROW.fullmatch(line):
        return True
    if not (found := ROUND.fullmatch(line)):
        return False
    commands, replies = list(COMMAND.finditer(found["commands"])), found["replies"].split()
    honest = [b"done" if command["written"] else b"0%s*16" % command["read"] for command in commands]
    return len(replies) == len(honest) and all(reply in (b"failed", good) for reply, good in zip(replies, honest))


def may_differ(name, line, good):
    """Whether a row may be this without memory, if it is `good` with memory."""
    if line == good or (name in GO_ON and GO_ON[name].fullmatch(line)):
        return True
    return name == "rows_rounds" and MESSAGES_SENT.sub(rb"\1 N", line) == MESSAGES_SENT.sub(rb"\1 N", good)
