"""A type and the one impl of a trait: does the type implement it?"""
from judging import headers, kinds, regions
from judging.opening import INV, probed, probes, universes_of
from judging.relation import GENERICS
from judging.terms import spell

# A bound that no impl meets; a type that is more general than the other; the check of regions has no other code.
REFUSALS = ("E0277", "E0308", "")

name = "impls"


def make(maker):
    """A type over a function's parameters, the header of an impl, and which regions are said to outlive which."""
    right = headers.changed(maker, headers.make(maker), 0)
    left = headers.instantiated(maker, right)
    return kinds.Case(headers.changed_only(maker, left), right, regions.some_facts(maker))


def is_valid(case):
    return headers.is_header(case.left) and headers.is_header(case.right)


def questions(case):
    varied = headers.varied(case.right, 0)
    sized = headers.sized_variables(case.right, 0)
    asked = f"args {headers.args(case.left)} == {headers.args(varied)}"
    solves = regions.solves(case.more, regions.implied(case.left))
    return [asked, *solves, *headers.asks_sized(sized), *probes(universes(case))]


def universes(case):
    right = headers.varied(case.right, 0)
    return universes_of(case.left, right, INV, headers.regions_made(right))


def line(case, number):
    trait = f"P{number}"
    impl = f"impl{headers.generics(case.right)} {headers.of_trait(trait, case.right)} {{}}"
    given = [f"_: &Co<{spell(it, True)}>" for it in case.left.parts]
    more = case.left.parts[1:]
    need = f"fn need<S: ?Sized + {trait}<X>, X: ?Sized>() {{}}" if more else f"fn need<S: ?Sized + {trait}>() {{}}"
    asked = ", ".join(spell(it, True) for it in case.left.parts)
    body = f"{{ {need} need::<{asked}>() }}"
    signature = f"fn f{number}<{GENERICS}>({', '.join(given)}){regions.spell_facts(case.more)}"
    return " ".join([headers.trait_of(trait, case.right), impl, signature, body])


def expected(case, answers):
    related, *solved = answers[:3]
    if related.said == "ok" and headers.meets_unsized([related, *answers[3:]]):
        return kinds.Expected(kinds.REFUSED, (kinds.SIZED,))
    return kinds.body(related, solved, lambda: probed(universes(case), answers))


def observed(case, said):
    return kinds.observed(said, REFUSALS)


def agrees(expected, seen):
    return expected == seen


def smaller(case):
    return (case._replace(more=it) for it in regions.fewer(case.more))
