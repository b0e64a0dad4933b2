"""Pairs of types of which the one is given where the other is wanted, in a body."""
from judging import kinds, regions
from judging.opening import CO, probed, probes, universes_of
from judging.terms import CONSTS, PARAMS, REGIONS, is_valid_type, item, spell

GENERICS = ", ".join([*REGIONS, *PARAMS, *(f"const {it}: usize" for it in CONSTS)])
WRAPPERS = ("Co", "Contra", "Inv")
# A mismatch; the check of regions has no code.
REFUSALS = ("E0308", "")

name = "relation"


def make(maker):
    """A pair, the wrapper that keeps coercions away, and which regions are said to outlive which."""
    left = maker.valid_type(3, False)
    more = maker.rng.choice(WRAPPERS), regions.some_facts(maker)
    return kinds.Case(left, maker.changed(left, False), more)


def is_valid(case):
    return all(is_valid_type(it, REGIONS, False) for it in (case.left, case.right))


def spelled(case, rust):
    return [spell(item(case.more[0], it), rust) for it in (case.left, case.right)]


def questions(case):
    left, right = spelled(case, False)
    solves = regions.solves(case.more[1], regions.implied(case.left) + regions.implied(case.right))
    return [f"{left} <: {right}", *solves, *probes(universes(case))]


def universes(case):
    wrapper, _ = case.more
    return universes_of(item(wrapper, case.left), item(wrapper, case.right), CO)


def line(case, number):
    left, right = spelled(case, True)
    return f"fn f{number}<{GENERICS}>(it: {left}) -> {right}{regions.spell_facts(case.more[1])} {{ it }}"


def expected(case, answers):
    return kinds.body(answers[0], answers[1:3], lambda: probed(universes(case), answers))


def observed(case, said):
    return kinds.observed(said, REFUSALS)


def agrees(expected, seen):
    return expected == seen


def smaller(case):
    wrapper, facts = case.more
    for it in regions.fewer(facts):
        yield case._replace(more=(wrapper, it))
    if wrapper != "Co":
        yield case._replace(more=("Co", facts))
