"""Judges what `ask` says of crates that nobody here wrote: rustc has accepted each, so no two impls of one trait have a
type in common, and of each impl what its trait states holds where its own bounds do."""
import collections
import sys
import time

from judging import crate
from judging.answering import BY_SIZED, PAIRS, STATED, WHOSE, WRONG, Asker
from judging.crate import OWN, is_whole
from judging.meeting import judge_pairs
from judging.stated import judge_stated


def counts(seen):
    return ", ".join(f"{many:,} {why}" for why, many in sorted(seen.items(), key=lambda it: (-it[1], it[0]))) or "none"


def show(what, found):
    """Gives figures, and shows what is open or wrong."""
    print(f"  {len(found):,} {what}: {counts(collections.Counter(it.comes for it in found))}")
    for it in sorted(found, key=lambda it: it.comes):
        if it.comes in WHOSE and it.comes != BY_SIZED:
            print(f"    {it.place}: {it.what}; {it.comes}, {WHOSE[it.comes]}")


def judged(file, program):
    """Judges a crate, shows what is open and what is wrong, and gives how much was of each sort."""
    began, it = time.time(), crate.Crate(file)
    asker = Asker(program, it)
    pairs, goals = judge_pairs(it, asker), judge_stated(it, asker)
    own = [impl for impl in it.impls if impl.origin == OWN]
    whole = [impl for impl in own if impl.of and is_whole(impl.lacks)]
    print(f"{it.of.name} {it.of.version}: {len(own)} impls, of which {len(whole)} are spelled")
    show(PAIRS, pairs)
    show(STATED, goals)
    print(f"judge: {time.time() - began:.0f} seconds", file=sys.stderr, flush=True)
    return collections.Counter([(PAIRS, one.comes) for one in pairs] + [(STATED, one.comes) for one in goals])


def judge(files, program):
    """Judges crates, and gives how much is wrong."""
    seen = sum((judged(it, program) for it in files), collections.Counter())
    for kind in (PAIRS, STATED):
        some = {why: many for (of, why), many in seen.items() if of == kind}
        print(f"{kind} of {len(files)} crates: {sum(some.values()):,}; {counts(some)}", flush=True)
    return sum(many for (_, why), many in seen.items() if why == WRONG)
