"""Pairs of impls of one trait: does a type have both?"""
from judging import headers, kinds, regions
from judging.opening import INV, probed, probes, universes_of
from judging.terms import PARAMS

OVERLAP, LINT, APART = "overlapping", "overlapping but for the leak check", "apart"
# What is said of impls whose headers meet, if a bound of theirs may hold: rustc looks for impls then.
IF_BOUND = "overlapping if bounds hold"

name = "overlap"


def make(maker):
    left = headers.make(maker)
    right = headers.changed(maker, left)
    left = headers.changed(maker, left, 0)
    if maker.chance(5):
        left = headers.aliased(maker, left)
    if maker.chance(8):
        right = headers.aliased(maker, right)
    return kinds.Case(left, right, None)


def is_valid(case):
    return headers.is_header(case.left) and headers.is_header(case.right)


def varied(case):
    left = headers.varied(case.left, 0)
    return left, headers.varied(case.right, len(PARAMS), headers.regions_made(left))


def sized(case):
    return headers.sized_variables(case.left, 0) + headers.sized_variables(case.right, len(PARAMS))


def has_bounds(case):
    return headers.has_alias(case.left) or headers.has_alias(case.right)


def questions(case):
    """Asks the impls as they are; and, over variables of the same numbers, what those and their universes are."""
    trait = headers.TRAITS_OF[len(case.left.parts)]
    left, right = (headers.impl_of(it, headers.of_trait(trait, it, False)) for it in (case.left, case.right))
    asked = f"overlap {left}, {right}"
    if has_bounds(case):
        return [asked]
    left, right = map(headers.args, varied(case))
    return [asked, f"args {left} == {right}", *headers.asks_sized(sized(case)), *probes(universes(case))]


def universes(case):
    return universes_of(*varied(case), INV, headers.regions_made(*varied(case)))


def line(case, number):
    trait = f"P{number}"
    impls = [f"impl{headers.generics(it)} {headers.of_trait(trait, it)} {{}}" for it in (case.left, case.right)]
    return " ".join([headers.trait_of(trait, case.left), *impls])


def expected(case, answers):
    answer, more = answers[0], answers[1:]
    if answer.said != "meets":
        apart = answer.said in ("apart", "apart by form")
        return kinds.Expected(APART if apart else f"no answer: {answer.text}", ())
    if has_bounds(case):
        return kinds.Expected(IF_BOUND, (kinds.BOUND,))
    if headers.meets_unsized(more):
        return kinds.Expected(APART, (kinds.SIZED,))
    check = lambda it: regions.leak_check(answer.regions, it)
    passes = kinds.decided(check, answer, lambda: probed(universes(case), more))
    return kinds.Expected(OVERLAP, ()) if passes else kinds.Expected(LINT, (kinds.LEAK,))


def observed(case, said):
    other = sorted(set(said.errors) - {"E0119"})
    if other:
        return f"refused by {' '.join(other)}"
    return OVERLAP if said.errors else LINT if "coherence_leak_check" in said.lints else APART


def agrees(expected, seen):
    return expected == seen or expected == IF_BOUND and seen in (OVERLAP, LINT, APART)


def smaller(case):
    return iter(())
