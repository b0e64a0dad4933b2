"""Asks rustc: many items in a file, one a line, and what it says of each."""
import collections
import concurrent.futures
import json
import os
import subprocess
import tempfile

from judging.terms import RUST_PRELUDE

LINES = 400
# The code of an error at which rustc breaks off.
OVERFLOW = "E0275"
SECONDS = 60

# What rustc says of a line: the codes of its errors, the names of its lints, and the texts of both; `late` where it was
# given up on.
Said = collections.namedtuple("Said", "errors lints texts late")


class Wrong(Exception):
    """What stands before all programs was not compiled."""


NOTHING = Said((), (), (), False)


def version():
    return subprocess.run(["rustc", "--version"], capture_output=True, text=True, check=True).stdout.strip()


def compile_all(lines, flags=()):
    """Gives what rustc says of each line, with these flags."""
    cut = [lines[at : at + LINES] for at in range(0, len(lines), LINES)]
    with concurrent.futures.ThreadPoolExecutor(min(4, os.cpu_count())) as pool:
        return [it for said in pool.map(lambda some: compile_some(some, flags), cut) for it in said]


def compile_some(lines, flags):
    """Compiles lines in one file; where that takes too long, or rustc breaks off, as at an overflow, by halves."""
    with tempfile.TemporaryDirectory() as room:
        with open(f"{room}/judged.rs", "w", encoding="utf-8") as it:
            it.write(RUST_PRELUDE + "".join(f"{line}\n" for line in lines))
        words = ["rustc", "--edition=2021", "--crate-type=lib", "--emit=metadata", "--error-format=json"]
        words += ["--force-warn=coherence-leak-check", *flags]
        try:
            ran = subprocess.run(
                [*words, "-o", f"{room}/judged.rmeta", f"{room}/judged.rs"],
                capture_output=True,
                text=True,
                timeout=SECONDS,
                env={**os.environ, "RUSTC_BOOTSTRAP": "1"} if flags else None,
            )
        except subprocess.TimeoutExpired:
            ran = None
    said = by_lines(ran.stderr, len(lines)) if ran is not None and ran.returncode in (0, 1) else None
    if said and (len(lines) == 1 or not any(OVERFLOW in it.errors for it in said)):
        return said
    if len(lines) == 1:
        return [NOTHING._replace(late=True)]
    half = len(lines) // 2
    return compile_some(lines[:half], flags) + compile_some(lines[half:], flags)


def by_lines(said, count):
    first = RUST_PRELUDE.count("\n") + 1
    errors, lints, texts = ([[] for _ in range(count)] for _ in range(3))
    for text in said.splitlines():
        told = json.loads(text)
        lines = {it["line_start"] for it in told["spans"] if it["is_primary"]}
        code = told["code"]["code"] if told["code"] else ""
        for at in lines:
            # An overflow may be told of no line; the file is halved then, until one line is left.
            at = max(at, first) if code == OVERFLOW else at
            if at < first:
                raise Wrong(f"rustc does not take what stands before all programs: {told['rendered']}")
            (errors if told["level"] == "error" else lints)[at - first].append(code)
            texts[at - first].append(told["rendered"])
    return [Said(tuple(a), tuple(b), tuple(c), False) for a, b, c in zip(errors, lints, texts)]
