"""Judges what traits state: of each impl it has to hold where the impl's own bounds do."""
from judging import worlds
from judging.answering import ELSEWHERE, HOLDS, LATE, UNSPELLED, WRONG, Judged, open_because
from judging.asking import told
from judging.crate import OWN, is_whole, names_in
from judging.environments import Environment, goal_in, stated_of
from judging.turns import DECLARED, Bound

# How deep goals are looked into, and how deep by more impls; how many aliases may stand in one.
DEPTH, MORE_DEPTH, ROUNDS = 8, 3, 4


def stated(it):
    """Gives what has to hold of each impl: the impl, and a clause that its trait states."""
    for impl in it.impls:
        if impl.origin == OWN and impl.of:
            _, supers, states = stated_of(it.traits, f"{impl.of}: {impl.trait}")
            for clause in supers + states:
                yield impl, clause


def judge_stated(it, asker):
    """Asks by what is spelled; what doesn't hold so, by more impls, if all is spelled that the impl itself asks for."""
    goals = list(stated(it))
    known = known_of(it, asker, {id(impl): impl for impl, _ in goals}.values())
    environments = [known[id(impl)] for impl, _ in goals]
    asked = [(has.text(), goal_in(has, impl, clause)) for has, (impl, clause) in zip(environments, goals)]
    said = prove(asker, worlds.spelled(it), asked, DEPTH)
    again = [at for at, (impl, _) in enumerate(goals) if said[at] != "yes" and is_spelled(impl)]
    more = dict(zip(again, said_by_more(it, asker, [asked[at] for at in again])))
    found = []
    for at, (impl, goal) in enumerate(goals):
        comes = HOLDS if said[at] == "yes" else UNSPELLED
        if at in more:
            is_open = environments[at].implies_more() or environments[at].open_in(impl) & names_in(asked[at][1][-1])
            comes = refused(is_open) if more[at][1] == "no" else open_because((said[at], *more[at]), True)
        found.append(Judged(impl.place, f"{said[at]}: {goal}, as {impl.name} states", comes))
    return found


def said_by_more(it, asker, asked):
    """Gives what is said of goals by all impls, and by any beside. Where that is no, the first isn't asked."""
    perhaps = prove(asker, worlds.perhaps(it), asked, MORE_DEPTH)
    left = [at for at, said in enumerate(perhaps) if said != "no"]
    own = dict(zip(left, prove(asker, worlds.all_own(it), [asked[at] for at in left], MORE_DEPTH)))
    return [(own.get(at), said) for at, said in enumerate(perhaps)]


def refused(is_open):
    """Says what comes of a goal to which the answer is no, whatever other crates have."""
    return ELSEWHERE if is_open else WRONG


def is_spelled(impl):
    return is_whole(impl.lacks) and not impl.unsaid


def known_of(it, asker, impls):
    """Gives what is known where the bounds of each impl hold: what an alias comes to by impls is asked first."""
    values, left, known = {id(impl): {} for impl in impls}, list(impls), {}
    for number in range(ROUNDS):
        for impl in left:
            known[id(impl)] = Environment(it, impl, values[id(impl)])
        left = [impl for impl in left if known[id(impl)].unknown and number < ROUNDS - 1]
        groups = []
        for impl in left:
            environment = known[id(impl)]
            (_, alias), *_ = environment.unknown
            groups.append([environment.text(), f"prove {alias} == ?0 at {DEPTH}"])
        for impl, some in zip(left, asker.ask([DECLARED, *worlds.spelled(it)], groups, behind)):
            (name, _), *_ = known[id(impl)].unknown
            bound = Bound([("?", 1)])
            bound.note(some[0] if some else "")
            term = bound.terms.get("?0", "?")
            values[id(impl)][name] = name if "?" in term else term
    return known


def behind(group):
    """Says how many answers a group has that assumes something first."""
    return len(group) - 1


def prove(asker, rules, asked, depth):
    """Gives what is said of goals where something is assumed: of the last of each list, or the first that isn't so."""
    # A goal has as many variables as there are goals before it.
    bounds, said = [Bound([("?", len(goals))]) for _, goals in asked], ["yes"] * len(asked)
    for turn in range(ROUNDS):
        now = [at for at, (_, goals) in enumerate(asked) if turn < len(goals) and said[at] == "yes"]
        goals = [bounds[at].put(asked[at][1][turn]) for at in now]
        groups = [[asked[at][0], f"prove {goal} at {depth}"] for at, goal in zip(now, goals)]
        for at, some in zip(now, asker.ask([DECLARED, *rules], groups, behind)):
            said[at] = told(some[0]) if some else LATE
            bounds[at].note(some[0] if some else "")
    return said
