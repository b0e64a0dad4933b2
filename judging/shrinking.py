"""Makes a pair smaller for as long as what differs on it does."""
from judging.comparing import outcomes
from judging.terms import STATIC, UNIT, binds, free_regions, places, plain, put, region, size, spell

# How many smaller pairs are tried at once, and how often.
AT_ONCE, ROUNDS = 300, 40


def smallest(kind, outcome, program):
    """Gives the outcome of a pair of which no smaller one differs alike."""
    for _ in range(ROUNDS):
        tried = sorted(set(smaller(kind, outcome.case)), key=weight)
        for at in range(0, len(tried), AT_ONCE):
            alike = [it for it in outcomes(kind, tried[at : at + AT_ONCE], program) if is_alike(it, outcome)]
            if alike:
                outcome = alike[0]
                break
        else:
            return outcome
    return outcome


def is_alike(one, other):
    return not one.agrees and (one.expected.verdict, one.seen) == (other.expected.verdict, other.seen)


def weight(case):
    """Says how large a pair is; of two as large the one that names fewer regions comes first, then the shorter one."""
    named = {*free_regions(case.left), *free_regions(case.right)} - {STATIC}
    length = sum(len(spell(it, True)) for it in (case.left, case.right)) + len(repr(case.more))
    return size(case.left) + size(case.right), len(named), length, repr(case)


def smaller(kind, case):
    """Gives pairs with a part left out or made plainer, on both sides at once or on one."""
    left, right = dict(variants(case.left)), dict(variants(case.right))
    found = list(kind.smaller(case))
    found += [case._replace(left=new, right=right[how]) for how, new in left.items() if how in right]
    found += [case._replace(left=new) for new in left.values()]
    found += [case._replace(right=new) for new in right.values()]
    return (it for it in found if weight(it) < weight(case) and kind.is_valid(it))


def variants(term):
    """Gives the terms with one place made smaller: each by the place and how it was made so."""
    for place in places(term, (), False):
        for way, new in plainer(place.term).items():
            made = put(term, place.path, new)
            if made != term:
                yield (place.path, way), made


def plainer(term):
    """Gives what may stand for a part, by how it comes of it: two alike parts are made smaller alike."""
    if term.form in ("const", "list"):
        return {}
    if term.form == "region":
        return {name: region(name) for name in (STATIC, "'a", "'b")}
    found = {"byte": plain("u8"), "unit": UNIT}
    found |= {("part", at): it for at, it in enumerate(term.parts) if it.form not in ("region", "const")}
    names = binds(term)
    for at in range(len(names)):
        found["name", at] = term._replace(data=(names[:at] + names[at + 1 :], *term.data[1:]))
    if term.form in ("tuple", "fn"):
        for at in range(len(term.parts) - (term.form == "fn")):
            found["dropped", at] = term._replace(parts=term.parts[:at] + term.parts[at + 1 :])
    if term.form == "fn":
        found["output"] = term._replace(parts=(*term.parts[:-1], UNIT))
        found["header"] = term._replace(data=(names, False, "", False))
    if term.form == "dyn" and term.data[1]:
        found["autos"] = term._replace(data=(*term.data[:3], ()))
    return found
