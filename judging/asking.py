"""Asks `ask`: many questions in a file, and the answers of each."""
import collections
import re
import subprocess

from judging.terms import ask_prelude

# A file may be of 1 MiB.
MOST_BYTES = 900_000
SECONDS = 120
# What stands for the answers of a text that took too long, where each has few questions.
LATE = "late"

# What an answer says: `ok`, `err` and its error, `meets` or another first word; constraints of regions, and bindings.
Answer = collections.namedtuple("Answer", "text said regions bound")


class Wrong(Exception):
    """The program did not answer."""


def run(program, text):
    """Gives the lines that the program prints, or nothing where it takes too long."""
    try:
        ran = subprocess.run([program, "-"], input=text, capture_output=True, text=True, timeout=SECONDS)
    except subprocess.TimeoutExpired:
        return None
    if ran.returncode != 0:
        raise Wrong(f"{program} has status {ran.returncode}: {ran.stderr.strip()[:500]}")
    return ran.stdout.splitlines()


def batches(questions, most):
    """Cuts a row of questions into files, of so many questions at most if that is said."""
    batch, length = [], 0
    for it in questions:
        if length + len(it) > MOST_BYTES or len(batch) == most:
            yield batch
            batch, length = [], 0
        batch.append(it)
        length += len(it) + 3
    yield batch


def ask_all(program, questions, most=None):
    """Gives the answer of each question."""
    answers = []
    for batch in batches(questions, most):
        printed = run(program, ask_prelude() + "".join(f"{it};\n" for it in batch))
        if printed is None and most:
            printed = [LATE] * len(batch)
        if printed is None or len(printed) != len(batch):
            raise Wrong(f"{program} answers {len(printed or [])} of {len(batch)} questions")
        answers += map(read, printed)
    return answers


def split_list(text):
    """Splits a list at its commas that stand in no brackets."""
    found, depth, begin = [], 0, 0
    for at, sign in enumerate(text):
        arrow = sign == ">" and text[at - 1 : at] == "-"
        depth += (sign in "([{<") - (sign in ")]}>" and not arrow)
        if sign == "," and depth == 0:
            found.append(text[begin:at].strip())
            begin = at + 1
    return [*found, text[begin:].strip()] if text.strip() else []


def told(text):
    """Gives the verdict of an answer, without what it names beside."""
    verdict = re.match(r"(yes|no)(?= by |: |; |$)", text)
    return verdict[1] if verdict else text.split("; ")[0]


def bindings(text):
    """Gives what an answer says that variables are bound to."""
    bound = re.search(r"; bound=\[(.*)\]", text)
    return dict(it.split("=", 1) for it in split_list(bound[1])) if bound else {}


def read(text):
    """Reads an answer: its constraints where it is `ok` or `meets`, and its bindings where it is `ok`."""
    said = re.match("[a-z ]*", text)[0].strip()
    regions = re.search(r"; regions=\[([^\]]*)\]", text) if said in ("ok", "meets") else None
    bound = re.search(r"; bound=\[(.*)\]$", text) if said == "ok" else None
    constraints = [constraint(it) for it in regions[1].split(", ")] if regions else []
    bindings = [it.split("=", 1) for it in split_list(bound[1])] if bound else []
    return Answer(text, said, [it for pair in constraints for it in pair], dict(bindings))


def constraint(text):
    """Gives what a constraint asks to outlive what: once, or each the other."""
    if " == " in text:
        one, other = text.split(" == ")
        return [(one, other), (other, one)]
    return [tuple(text.split(": "))]
