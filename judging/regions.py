"""Rules of the compiler's own on constraints of regions: of its check of bodies what `solve` doesn't say, and its check of
overlapping impls.

A constraint is a pair: the first outlives the second. Regions are those of the function (`'a`, `'static`),
variables (`'?0`) and placeholders (`'!1.0`).
"""
import collections
import re

from judging.terms import REGIONS, STATIC, free_regions, leaves, places


def is_variable(name):
    return name.startswith("'?")


def placeholder_universe(name):
    found = re.match(r"'!(\d+)", name)
    return int(found[1]) if found else None


def reached(constraints):
    """Gives, of each region, all that it has to outlive."""
    below = collections.defaultdict(set)
    for longer, shorter in constraints:
        below[longer].add(shorter)
        below[shorter].update(())
    found = {}
    for one in below:
        seen, left = set(), [one]
        while left:
            for it in below[left.pop()] - seen:
                seen.add(it)
                left.append(it)
        found[one] = seen - {one}
    return found


def known(facts):
    """Gives a test whether one region outlives another one by facts."""
    below = reached(facts)

    def holds(longer, shorter):
        if longer == shorter:
            return True
        all_below = {longer} | below.get(longer, set())
        return shorter in all_below or STATIC in all_below

    return holds


def universe_of(name, universes):
    placed = placeholder_universe(name)
    return placed if placed is not None else universes.get(name, 0)


def outlives_earlier(constraints, universes):
    """Says whether a placeholder has to outlive a variable of an earlier universe: no region is known to lie below all."""
    return any(
        is_variable(it) and universe_of(it, universes) < placeholder_universe(one)
        for one, all_below in reached(constraints).items()
        if placeholder_universe(one) is not None
        for it in all_below
    )


def leak_check(constraints, universes):
    """Says whether no placeholder has to outlive another one, or what an earlier universe names."""
    for one, all_below in reached(constraints).items():
        placed = placeholder_universe(one)
        if placed is None:
            continue
        for it in all_below:
            if placeholder_universe(it) is not None or universe_of(it, universes) < placed:
                return False
    return True


def implied(term):
    """Gives the facts that follow from a type's being well formed: what stands behind a reference outlives it."""
    found = []
    for place in places(term, ()):
        if place.term.form == "ref":
            outlived, inner = place.term.parts
            free = free_regions(inner)
            if outlived.data not in place.scope and not set(free) & set(place.scope):
                found += [(it, outlived.data) for it in (*free, *leaves(inner, "param"))]
    return found


def solves(facts, implied):
    """Asks whether what was recorded of regions can hold, by facts and implied bounds, and by facts alone."""
    more = [it for it in implied if it[0].startswith("'")]
    return [f"then solve{spell_facts(it)}" for it in ([*facts, *more], facts)]


def some_facts(maker):
    """Makes facts: pairs of regions of which the first is said to outlive the second."""
    return tuple(dict.fromkeys(tuple(maker.rng.sample(REGIONS, 2)) for _ in range(maker.rng.choice((0, 2, 3, 4)))))


def spell_facts(facts):
    return f" where {', '.join(f'{one}: {other}' for one, other in facts)}" if facts else ""


def fewer(facts):
    return [facts[:at] + facts[at + 1 :] for at in range(len(facts))]
