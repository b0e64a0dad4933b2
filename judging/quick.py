"""Pairs of types that a quick test tells apart: no program may have both."""
from judging import impls, kinds, overlap, relation
from judging.headers import args

# What the test is told of the parameters on each side, by the kind of programs that has such types.
RIGID, INFER = "rigid", "infer"
KINDS = {"relation": (relation, RIGID, RIGID), "overlap": (overlap, INFER, INFER), "impls": (impls, RIGID, INFER)}
TOLD_APART, NOT_TOLD = "told apart", "not told apart"
# What no two types come to that were told apart.
MET = (kinds.ACCEPTED, overlap.OVERLAP, overlap.LINT)

name = "quick"


def make(maker):
    which = maker.rng.choice(list(KINDS))
    made = KINDS[which][0].make(maker)
    return made._replace(more=(which, made.more))


def inner(case):
    which, more = case.more
    return KINDS[which][0], case._replace(more=more)


def is_valid(case):
    kind, case = inner(case)
    return kind.is_valid(case)


def questions(case):
    kind, left, right = KINDS[case.more[0]]
    if kind is relation:
        one, other = relation.spelled(inner(case)[1], False)
        return [f"may unify[{left}, {right}] {one}, {other}"]
    return [f"args may unify[{left}, {right}] {args(case.left)}, {args(case.right)}"]


def line(case, number):
    kind, case = inner(case)
    return kind.line(case, number)


def expected(case, answers):
    if answers[0].text == "false":
        return kinds.Expected(TOLD_APART, (kinds.TEST,))
    return kinds.Expected(NOT_TOLD if answers[0].text == "true" else f"no answer: {answers[0].text}", ())


def observed(case, said):
    kind, case = inner(case)
    return kind.observed(case, said)


def agrees(expected, seen):
    return expected == NOT_TOLD or expected == TOLD_APART and seen not in MET


def smaller(case):
    kind, case = inner(case)
    return (it._replace(more=(kind.name, it.more)) for it in kind.smaller(case))
