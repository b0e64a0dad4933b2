"""Asks `ask` of a crate, and says what comes of what it answers."""
import collections
import itertools
import resource
import subprocess

from judging import asking, crate, worlds

# How many seconds of the processor the program has; a question that takes as long is given up on.
SECONDS = 4

PAIRS, STATED = "pairs of impls", "clauses that traits state"
# What comes of a pair of impls, or of what a trait states.
BY_HEADER, BY_BOUND, BY_SIZED, HOLDS = "apart by their headers", "apart by a bound", "apart by Sized", "hold"
# What is open, and why; and what `ask` says otherwise than rustc.
UNSPELLED, ELSEWHERE = "open: not spelled", "open: of another crate"
AMBIGUOUS, DEPTH, LATE, WRONG = "open: ambiguous", "open: depth", "open: late or not asked", "wrong"
OPEN = "maybe: ambiguous"
# Whose limit it is.
WHOSE = {BY_SIZED: "by a rule of rustc alone", **dict.fromkeys((UNSPELLED, ELSEWHERE), "by the reader")}
WHOSE |= dict.fromkeys((AMBIGUOUS, DEPTH, LATE, WRONG), "by ask")

# What is judged: its place, what is said of it, and what comes of it.
Judged = collections.namedtuple("Judged", "place what comes")


class Asker:
    """Asks of one crate: groups of questions, each answered by as many lines."""

    def __init__(self, program, it):
        self.program, self.crate = program, it

    def ask(self, rules, groups, count=len):
        """Gives the answers to each group, or nothing where they come too late."""
        begin = [*crate.declarations(self.crate), worlds.param_names(self.crate), *rules, ""]
        text, found = "\n".join(begin), []
        while len(found) < len(groups):
            some = self.fitting(groups[len(found) :], asking.MOST_BYTES - len(text))
            found += self.answered(text, some, count) or [None]
        return found

    def fitting(self, groups, room):
        """Gives as many of the first groups as have room in a text."""
        ends = itertools.accumulate(sum(len(it) + 2 for it in group) for group in groups)
        many = sum(1 for _ in itertools.takewhile(lambda end: end <= room, ends))
        return groups[: max(many, 1)]

    def answered(self, text, groups, count):
        """Gives the answers to those of the first groups that are answered in time."""
        asked = text + "".join(f"{it};\n" for group in groups for it in group)
        limit = lambda: resource.setrlimit(resource.RLIMIT_CPU, (SECONDS, SECONDS))
        ran = subprocess.run([self.program, "-"], input=asked, capture_output=True, text=True, preexec_fn=limit)
        lines = iter(ran.stdout.splitlines())
        found = [list(itertools.islice(lines, count(it))) for it in groups]
        found = [some for some, group in zip(found, groups) if len(some) == count(group)]
        if ran.returncode > 0 or ran.returncode == 0 and len(found) < len(groups):
            raise asking.Wrong(f"{self.program} has status {ran.returncode}: {ran.stderr.strip()[:300]}")
        return found


def open_because(answers, whole):
    """Says what comes of a goal that no answer settles: with what is spelled, with all impls, and with any beside."""
    spelled, own, _ = answers
    if not whole:
        return UNSPELLED
    if own == "no":
        return ELSEWHERE
    if "no" in answers or own == "yes":
        return UNSPELLED
    left = {OPEN: AMBIGUOUS, "maybe: depth": DEPTH}
    return left.get(spelled, LATE)
