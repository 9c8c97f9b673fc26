"""A host, one of whose calls on its files fails once: while it opens them, stores, or reads."""

import collections
import copy
import re
import shutil
import signal
import tempfile
from pathlib import Path

from trials import strace
from trials.bucket_file import BucketFile, log_of
from trials.bucket_host import Host
from trials.bucket_messages import NO_ROOM, refused
from trials.host.kills import kill_children, random_store
from trials.host.rot import DEPTH, RECORD_LEN, killed_host

CALLS = ("pwrite64", "pread64", "fsync", "fdatasync")
ERRORS = ("EIO", "ENOSPC")


class Asked:
    """A host that is asked under strace, and a model of what it has."""

    def __init__(self, trial, source, model, under):
        self.trial, self.model = trial, copy.deepcopy(model)
        self.host = Host(trial.oramdisk, trial.folder / "failing")
        for file in (source.path(), log_of(source.path())):
            shutil.copyfile(file, self.host.folder / file.name)
        self.host.start(under)
        self.client = self.host.client()
        self.unanswered, self.is_traced = 0, True

    def ask_all(self, stores=6):
        """Stores random paths. Returns whether each one was done, or had no answer and was done or not, as the host says then. One that
        found no room is asked for again, and has to be done then."""
        for _ in range(stores):
            body, then = random_store(self.trial.dice, DEPTH, RECORD_LEN), copy.deepcopy(self.model)
            wanted, answer = then.answer(body), self.client.ask(body)
            if answer == refused(NO_ROOM):
                answer = self.client.ask(body)
            if answer == wanted:
                self.model = then
            elif answer is not None or not self.is_found(then):
                return False
        return True

    def read_all(self):
        """Fetches all paths. Returns whether each of them is as the model has it, or had no answer and is so when it is asked for again."""
        for body in self.model.all_fetches():
            wanted, answer = self.model.answer(body), self.client.ask(body)
            if answer is None and not self.is_found(self.model):
                return False
            if answer not in (wanted, None):
                return False
        return True

    def is_found(self, then):
        """After a STORE without an answer: whether the host has what it had, or that and the STORE, whole."""
        self.unanswered += 1
        found = self.answers_again()
        if found[0] is None:
            # A host that can't open its files ends; it listens a moment before that.
            self.host.wait()
            self.host.start()
            self.is_traced = False
            found = self.answers_again()
        self.model = next((model for model in (self.model, then) if found == answers_of(model)), None)
        return self.model is not None

    def end(self):
        """Kills the host, and waits until it has let go of its files."""
        if self.is_traced:
            # strace ends once the host has ended.
            kill_children(self.host.process)
            self.host.wait()
        else:
            self.host.stop(signal.SIGKILL)

    def answers_again(self):
        """The answers to all FETCHes over a new connection."""
        self.client.close()
        self.client = self.host.client()
        return [self.client.ask(body) for body in self.model.all_fetches()]

    def is_kept(self):
        """Whether a new process has the same."""
        self.end()
        self.host.start()
        found = self.answers_again()
        self.client.close()
        self.host.stop()
        return found == answers_of(self.model)


def answers_of(model):
    """The answers to all FETCHes."""
    return [model.answer(body) for body in model.all_fetches()]


def calls_of_life(trial, source, model):
    """How often a host makes each call while it opens its files and answers the STOREs, and how often before its first answer; and which of
    its writes are into the front of a file."""
    with tempfile.NamedTemporaryFile() as found:
        asked = Asked(trial, source, model, strace.noting(",".join([*CALLS, "sendto"]), found.name))
        trial.check("a host without failures", asked.ask_all() and asked.read_all() and asked.is_kept() and not asked.unanswered)
        text = Path(found.name).read_text()
    names = re.findall(r"^\d+ +(\w+)\(", text, re.MULTILINE)
    places = re.findall(r"^\d+ +pwrite64\(\d+<(.*)>, .*, (\d+)\) += ", text, re.MULTILINE)
    fronts = [number for number, (file, at) in enumerate(places, 1) if int(at) < BucketFile.LOG_START and not file.endswith(".unfinished")]
    return collections.Counter(names), collections.Counter(names[: names.index("sendto")]), fronts


def try_failing_calls(trial, of_each=6):
    """Whichever call fails: no STORE is answered that isn't there, and none is there in part. The host goes on, or ends and can be
    started again."""
    if not strace.is_usable():
        trial.skip()
        return
    source, model = killed_host(trial, "before-failing")
    in_all, at_first, fronts = calls_of_life(trial, source, model)
    trial.check("writes into the fronts", len(fronts) > 2, fronts)
    unanswered, tried = 0, 0
    for call in CALLS:
        # Half of them while it opens its files or before its first answer, and half of them after that, where there are any.
        first, rest = range(1, at_first[call] + 1), range(at_first[call] + 1, in_all[call] + 1)
        whens = [trial.dice.choice(part) for part in (first, rest) if part for _ in range(of_each)]
        # A front that isn't written shows only once the files are opened again.
        whens += fronts if call == "pwrite64" else []
        for error, when in ((error, when) for error in ERRORS for when in whens):
            asked = Asked(trial, source, model, strace.failing(call, error, when))
            holds = asked.ask_all() and asked.read_all() and asked.is_kept()
            trial.check(f"{call} {when} fails with {error}", holds, asked.host.lines()[-2:])
            unanswered, tried = unanswered + asked.unanswered, tried + 1
    trial.check("requests without an answer", unanswered > tried // 2, (unanswered, tried))
    print(f"{tried} calls failed, and {unanswered} requests had no answer", flush=True)
    try_no_room(trial, source, model, at_first["pwrite64"] + 1)


def try_no_room(trial, source, model, when):
    """The first write of a host's second STORE fails. If there is no room for it in the log, the log begins again, and the STORE is done. After
    another error it has no answer."""
    for error, is_done in (("ENOSPC", True), ("EDQUOT", True), ("EIO", False)):
        asked = Asked(trial, source, model, strace.failing("pwrite64", error, when))
        trial.check(f"a STORE before one whose write fails with {error}", asked.ask_all(1) and not asked.unanswered)
        holds = asked.ask_all(1) and asked.unanswered == (0 if is_done else 1)
        trial.check(f"a STORE whose write fails with {error}", holds and asked.read_all(), asked.host.lines()[-2:])
        asked.end()
