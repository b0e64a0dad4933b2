"""A type and an entry of a table of methods: if the table drops it, no method of it alone is the type's."""
from judging import headers, kinds
from judging.relation import GENERICS
from judging.terms import Term, spell

FOUND, DROPPED = "found", "dropped"
# What is refused though an impl fits, but for its regions.
OTHERWISE = "refused for regions"
# No impl fits; and what refuses a call for its regions alone, some of it without a code.
REFUSAL, BY_REGIONS = "E0277", ("E0308", "E0309", "E0310", "E0521", "")
# The entry that is judged.
ENTRY = "judged"

name = "methods"


def make(maker):
    """A type over a function's parameters, the type of an entry, and those of entries before it and behind it."""
    right = one_type(headers.changed(maker, one_type(headers.make(maker))))
    near = headers.changed_only(maker, headers.instantiated(maker, right))
    left = one_type(headers.make(maker)) if maker.chance(3) else near
    others = [headers.changed(maker, one_type(headers.make(maker))) for _ in range(maker.rng.choice((0, 1, 3)))]
    cut = maker.rng.randrange(len(others) + 1)
    return kinds.Case(left, right, (tuple(others[:cut]), tuple(others[cut:])))


def one_type(header):
    return Term("list", None, header.parts[:1])


def is_valid(case):
    return all(map(headers.is_header, (case.left, case.right, *case.more[0], *case.more[1])))


def questions(case):
    before, behind = case.more
    names = [f"e{at}" for at in range(len(before) + len(behind))]
    names.insert(len(before), ENTRY)
    entries = zip((*before, case.right, *behind), names)
    told = [f"{headers.impl_of(it, spell(it.parts[0], False))} => {entry}" for it, entry in entries]
    return [f"methods {{ {', '.join(told)} }} of {spell(case.left.parts[0], False)}"]


def line(case, number):
    trait = f"P{number}"
    impl = f"impl{headers.generics(case.right)} {headers.of_trait(trait, case.right)} {{}}"
    body = f"fn f{number}<{GENERICS}>(it: &{spell(case.left.parts[0], True)}) {{ {trait}::m(it) }}"
    return f"trait {trait} {{ fn m(&self) {{}} }} {impl} {body}"


def expected(case, answers):
    found = answers[0].text.split(", ")
    if answers[0].text != "none" and not set(found) <= {ENTRY, *(f"e{at}" for at in range(9))}:
        return kinds.Expected(f"no answer: {answers[0].text}", ())
    return kinds.Expected(FOUND if ENTRY in found else DROPPED, ())


def observed(case, said):
    seen = kinds.observed(said, (REFUSAL, *BY_REGIONS))
    return OTHERWISE if seen == kinds.REFUSED and REFUSAL not in said.errors else seen


def agrees(expected, seen):
    return seen == kinds.REFUSED or expected == FOUND and seen in (kinds.ACCEPTED, OTHERWISE)


def smaller(case):
    before, behind = case.more
    for at in range(len(before)):
        yield case._replace(more=(before[:at] + before[at + 1 :], behind))
    for at in range(len(behind)):
        yield case._replace(more=(before, behind[:at] + behind[at + 1 :]))
