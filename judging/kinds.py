"""What a kind of pairs is: what is asked of `ask`, what of rustc, and what each has to say where the other says it."""
import collections

from judging import regions

# A pair of types, and what else the kind asks with it.
Case = collections.namedtuple("Case", "left right more")
# What rustc should say by the answers of `ask`, and by which rules of rustc alone it says so.
Expected = collections.namedtuple("Expected", "verdict by")

ACCEPTED, REFUSED = "accepted", "refused"
# What rustc adds and `ask` has not.
IMPLIED, SIZED, LEAST, LEAK, BOUND = "implied bounds", "Sized", "no least region", "a lint", "bounds"
# What a quick test tells apart.
TEST = "the quick test"
# Why rustc says nothing of a pair, which is counted and not judged.
LATE, OVERFLOW = "late", "overflow"


def decided(check, answer, universes):
    """Decides a check that says yes the sooner the later universes are: mostly it says the same whatever they are."""
    variables = [it for pair in answer.regions for it in pair if regions.is_variable(it)]
    least, most = check({}), check(dict.fromkeys(variables, 10**6))
    return least if least == most else check(universes())


def body(answer, solved, universes):
    """Says what rustc's check of a body makes of an answer, by what `solve` says with implied bounds, and without."""
    if answer.said != "ok":
        return Expected(REFUSED if answer.said == "err" else f"no answer: {answer.text}", ())
    holds, alone = (it.said == "met" for it in solved)
    by = [IMPLIED] if alone != holds else []
    if holds and not decided(lambda it: not regions.outlives_earlier(answer.regions, it), answer, universes):
        return Expected(REFUSED, (*by, LEAST))
    return Expected(ACCEPTED if holds else REFUSED, tuple(by))


def given_up(said):
    """Says why a pair is not judged: rustc gave up on a goal, was stopped, or broke off."""
    return LATE if said.late else OVERFLOW if "E0275" in said.errors else None


def observed(said, refusals):
    """Says what rustc said of a body: refused by one of these errors, or by one that is not of the pair."""
    other = sorted(set(said.errors) - set(refusals))
    if other:
        return f"refused by {' '.join(other)}"
    return REFUSED if said.errors else ACCEPTED
