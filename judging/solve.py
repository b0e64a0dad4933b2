"""A goal, impls with bounds, and the bounds of a function: does the goal follow? Both of rustc's solvers say."""
import re

from judging import asking, kinds
from judging.terms import UNIT

YES, NO, AMBIGUOUS, DEEP = "yes", "no", "ambiguous", "depth"
CODES = {"E0277": NO, "E0283": AMBIGUOUS, "E0282": AMBIGUOUS, "E0284": AMBIGUOUS, "E0275": DEEP}
# What rustc does beside: what the function has hides all impls; each type is to be known in the end.
HIDES, KNOWN = "the environment first", "types known"
# What is said behind a verdict where an impl may be refused by itself.
OR_DEEP = ", or an impl overflows"
# Where several impls are for a goal with a variable, rustc says so, also where one of them is too deep to be told of.
SEVERAL, OR_AMBIGUOUS = "several impls", ", or several impls are for it"
# What is said where it is ambiguous what the function has and what impls give: rustc takes the former, at each goal.
IF_FIRST = "ambiguous, unless the environment comes first"
# The old solver tells a goal both of which one bound fails and another one does not end; and an overflow where it was
# looking for what to say of a bound that fails.
BOTH, UNSATISFIED = "no and depth", "unsatisfied trait bound"
# A case has a text of its own, of two questions; it is judged by the old solver and by the next one.
AT_ONCE, FLAGS = 2, ((), ("-Znext-solver=globally",))

# A type: its name over its parts; an impl's parameter and the goal's variable are numbers.
PLAIN, UNARY, BINARY = ("u8", "bool", "char"), ("Row", "Cup"), "Pair"
TRAITS, PARAM, VAR = ("A", "B", "Fits", "Fits"), ("T",), 100
NAMES = "XYZ"

name = "solve"


def a_type(rng, depth, leaves):
    if depth == 0 or rng.random() < 0.4:
        return rng.choice(leaves)
    if rng.random() < 0.7:
        return (rng.choice(UNARY), a_type(rng, depth - 1, leaves))
    return (BINARY, a_type(rng, depth - 1, leaves), a_type(rng, depth - 1, leaves))


def a_claim(rng, depth, leaves):
    """A trait, the type that implements it, and what the trait is over."""
    trait = rng.choice(TRAITS)
    over = (a_type(rng, 1, leaves),) if trait == "Fits" else ()
    return (trait, a_type(rng, depth, leaves), *over)


def an_impl(rng, plain):
    """A header, and bounds of the parameters that stand in its type; seldom one of a type that is no smaller."""
    head = a_claim(rng, 2, [*plain, 0, 1])
    used = sorted(variables(head[1:2]))
    asks = []
    for ty in used:
        for trait in sorted(set(TRAITS)):
            if rng.random() < 0.35:
                own = ("Row", ty) if rng.random() < 0.08 else ty
                over = (a_type(rng, 1, [*plain, *used]),) if trait == "Fits" else ()
                asks.append((trait, own, *over))
    return head, tuple(asks)


def make(maker):
    rng, plain = maker.rng, [(it,) for it in PLAIN]
    impls = []
    for _ in range(rng.randint(3, 8)):
        head, asks = an_impl(rng, plain)
        if all(unify(shifted(head), it[0], {}) is None for it in impls):
            impls.append((head, asks))
    has = [(trait, PARAM, *((rng.choice(plain),) if trait == "Fits" else ())) for trait in rng.choices(TRAITS, k=rng.randint(0, 2))]
    goal = a_claim(rng, 2, [*plain, PARAM])
    if rng.random() < 0.75:
        values = {it: a_type(rng, rng.choice((0, 0, 1, 2)), [*plain, PARAM]) for it in (0, 1)}
        goal = put(rng.choice(impls)[0], values)
    if goal[0] == "Fits" and rng.random() < 0.6:
        goal = (*goal[:2], rng.choice([VAR, ("Row", VAR)]))
    return kinds.Case(UNIT, UNIT, (tuple(impls), tuple(dict.fromkeys(has)), goal))


def is_valid(case):
    return case.left == case.right == UNIT


def variables(its):
    found = set()
    for it in its:
        found |= {it} if isinstance(it, int) else variables(part for part in it[1:])
    return found


def put(it, values):
    if isinstance(it, (int, str)):
        return values.get(it, it)
    return (it[0], *(put(part, values) for part in it[1:]))


def shifted(it):
    return put(it, {0: 50, 1: 51})


def known(it, bound):
    while isinstance(it, int) and it in bound:
        it = bound[it]
    return it


def stands_in(var, it, bound):
    it = known(it, bound)
    return it == var if isinstance(it, int) else any(stands_in(var, part, bound) for part in it[1:])


def unify(one, other, bound):
    """Gives the bindings after, or None."""
    one, other = known(one, bound), known(other, bound)
    if one == other:
        return bound
    for left, right in ((one, other), (other, one)):
        if isinstance(left, int):
            return None if stands_in(left, right, bound) else {**bound, left: right}
    if one[0] != other[0] or len(one) != len(other):
        return None
    for left, right in zip(one[1:], other[1:]):
        bound = unify(left, right, bound)
        if bound is None:
            return None
    return bound


def spell(it, var):
    if isinstance(it, int):
        return var if it == VAR else NAMES[it]
    return f"{it[0]}<{', '.join(spell(part, var) for part in it[1:])}>" if it[1:] else it[0]


def trait_text(claim, var):
    return claim[0] + (f"<{spell(claim[2], var)}>" if claim[2:] else "")


def bound_text(claim, var="_"):
    return f"{spell(claim[1], var)}: {trait_text(claim, var)}"


def impl_text(impl):
    head, asks = impl
    params = ", ".join(NAMES[it] for it in sorted(variables(head[1:])))
    where = f" where {', '.join(map(bound_text, asks))}" if asks else ""
    return f"impl<{params}> {trait_text(head, '_')} for {spell(head[1], '_')}{where}"


def questions(case):
    """Asks by what the function has alone, and then with the impls."""
    impls, has, goal = case.more
    begun = ["struct Row<=X>", "struct Cup<=X>", "struct Pair<=X, =Y>", "trait A", "trait B", "trait Fits<X>"]
    begun += [f"assume {', '.join(map(bound_text, has))}"] if has else ["assume"]
    asked = f"prove {bound_text(goal, '?0')}"
    return ["; ".join([*begun, asked]), "; ".join([*map(impl_text, impls), asked])]


def line(case, number):
    impls, has, goal = case.more
    items = ["pub struct Row<X>(X); pub struct Cup<X>(X); pub struct Pair<X, Y>(X, Y);"]
    items += ["trait A {} trait B {} trait Fits<X> {}", *(f"{impl_text(it)} {{}}" for it in impls)]
    items.append("fn a<S: A>() {} fn b<S: B>() {} fn fits<S: Fits<X>, X>() {}")
    where = f" where {', '.join(map(bound_text, has))}" if has else ""
    asked = ", ".join(spell(it, "_") for it in goal[1:])
    return f"mod m{number} {{ {' '.join(items)} fn f<T>(){where} {{ {goal[0].lower()}::<{asked}>() }} }}"


def told(answer):
    said = asking.told(answer.text)
    return {"maybe: ambiguous": AMBIGUOUS, "maybe: depth": DEEP, "budget": DEEP}.get(said, said)


def is_open(text, bound, seen=()):
    """Says whether a variable that is bound to nothing stands in a type."""
    return any(it in seen or it not in bound or is_open(bound[it], bound, (*seen, it)) for it in re.findall(r"\?\d+", text))


def overflows(impls):
    """Says whether impls for all types lead from a trait to itself at a larger type: rustc refuses such an impl, whatever
    is asked."""
    blanket = [(head[0], head[1], asks) for head, asks in impls if isinstance(head[1], int)]
    leads = {(it, ask[0], ask[1] != ty) for it, ty, asks in blanket for ask in asks if ask[1] in (ty, ("Row", ty))}
    while more := {(it, to, up or on) for it, by, up in leads for of, to, on in leads if by == of} - leads:
        leads |= more
    return any(it == to and up for it, to, up in leads)


def are_several(case):
    """Says whether several impls are for the goal, in which a variable stands."""
    impls, _, goal = case.more
    return VAR in variables(goal[1:]) and sum(unify(shifted(it[0]), goal, {}) is not None for it in impls) > 1


def expected(case, answers):
    alone, verdict = map(told, answers)
    by = ()
    if asking.LATE in (alone, verdict):
        return kinds.Expected(asking.LATE, (asking.LATE,))
    if verdict == AMBIGUOUS and alone == YES:
        verdict, by, answers = YES, (HIDES,), answers[:1]
    elif verdict == AMBIGUOUS and case.more[1]:
        return kinds.Expected(IF_FIRST, (HIDES,))
    bound = asking.bindings(answers[-1].text)
    if verdict == YES and VAR in variables(case.more[2][1:]) and is_open("?0", bound):
        verdict, by = AMBIGUOUS, (*by, KNOWN)
    if verdict == DEEP and are_several(case):
        return kinds.Expected(verdict + OR_AMBIGUOUS, (*by, SEVERAL))
    if verdict in (YES, NO, AMBIGUOUS) and overflows(case.more[0]):
        return kinds.Expected(verdict + OR_DEEP, (*by, kinds.OVERFLOW))
    return kinds.Expected(verdict, by)


def given_up(said):
    return kinds.LATE if said.late else None


def observed(case, said):
    codes = sorted({CODES.get(it, it or "an error without a code") for it in said.errors})
    if codes == [DEEP, NO] or codes == [DEEP] and any(UNSATISFIED in it for it in said.texts):
        return BOTH
    return YES if not codes else codes[0] if len(codes) == 1 else f"refused by {' '.join(codes)}"


def agrees(expected, seen):
    if expected.endswith(OR_DEEP):
        return seen in (DEEP, BOTH) or agrees(expected.removesuffix(OR_DEEP), seen)
    if expected.endswith(OR_AMBIGUOUS):
        return seen == AMBIGUOUS or agrees(expected.removesuffix(OR_AMBIGUOUS), seen)
    allowed = {BOTH: (NO, DEEP)}.get(seen, (seen,))
    return expected in (*allowed, asking.LATE) or expected == IF_FIRST and seen in (YES, NO, AMBIGUOUS)


def smaller(case):
    impls, has, goal = case.more
    for at, (head, asks) in enumerate(impls):
        yield case._replace(more=((*impls[:at], *impls[at + 1 :]), has, goal))
        for ask in range(len(asks)):
            fewer = (head, (*asks[:ask], *asks[ask + 1 :]))
            yield case._replace(more=((*impls[:at], fewer, *impls[at + 1 :]), has, goal))
    for at in range(len(has)):
        yield case._replace(more=(impls, (*has[:at], *has[at + 1 :]), goal))
