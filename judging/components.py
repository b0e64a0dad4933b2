"""A type and a region: does the type outlive it, by what is said to outlive what?"""
from judging import kinds, regions
from judging.relation import GENERICS
from judging.terms import PARAMS, REGIONS, STATIC, UNIT, Term, is_valid_type, item, plain, region, spell

# The parameter may not live long enough; the check of regions has no code.
REFUSALS = ("E0309", "E0310", "E0311", "")

name = "components"


def make(maker):
    """A type, the region that it has to outlive, and of some types which regions these outlive."""
    facts = tuple((assumed(maker), maker.rng.choice((*REGIONS, STATIC))) for _ in range(maker.rng.choice((1, 2, 3))))
    wanted = region(maker.rng.choice((*REGIONS, STATIC)))
    return kinds.Case(maker.valid_type(maker.rng.choice((1, 2, 2, 3)), False), wanted, facts)


def assumed(maker):
    """Makes what outlives a region: a type that is well formed whatever outlives what."""
    one, param = region(maker.rng.choice(REGIONS)), Term("param", maker.rng.choice(PARAMS), ())
    low = Term("ref", False, (one, plain("u8")))
    function = Term("fn", (("'x",), False, "", False), (Term("ref", False, (region("'x"), plain("u8"))), param, UNIT))
    found = (one, one, one, param, param, param, item("Co", param), item("LifeSink", one), function)
    return maker.rng.choice((*found, Term("tuple", None, (param, low)), Term("slice", None, (low,))))


def is_valid(case):
    return is_valid_type(case.left, REGIONS, False) and case.right.form == "region"


def questions(case):
    facts = [f"{spell(it, False)}: {longer}" for it, longer in case.more]
    return [f"components {spell(case.left, False)}", *([f"assumptions {', '.join(facts)}"] if facts else [])]


def line(case, number):
    facts = [(spell(it, True), shorter) for it, shorter in case.more]
    left = spell(case.left, True)
    body = f"{{ fn need<'r, X: 'r + ?Sized>() {{}} need::<{case.right.data}, {left}>() }}"
    return f"fn f{number}<{GENERICS}>(_: &Co<{left}>){regions.spell_facts(facts)} {body}"


def expected(case, answers):
    found = answers[0].text
    components = [] if found == "none" else found.split(", ")
    if any(it not in (*REGIONS, *PARAMS, STATIC) for it in components):
        return kinds.Expected(f"no answer: {found}", ())
    facts = [tuple(it.split(": ")) for answer in answers[1:] for it in answer.text.split(" | ")]
    wanted = case.right.data

    def holds(facts):
        longer = regions.known(facts)
        return all(longer(it, wanted) for it in components)

    verdict = holds([*facts, *regions.implied(case.left)])
    by = (kinds.IMPLIED,) if verdict != holds(facts) else ()
    return kinds.Expected(kinds.ACCEPTED if verdict else kinds.REFUSED, by)


def observed(case, said):
    return kinds.observed(said, REFUSALS)


def agrees(expected, seen):
    return expected == seen


def smaller(case):
    return (case._replace(more=it) for it in regions.fewer(case.more))
