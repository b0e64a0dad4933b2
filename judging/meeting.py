"""Judges pairs of impls of one trait: no type has both, by their headers or by what they ask for."""
import collections
import copy
import itertools

from judging import headers, worlds
from judging.answering import AMBIGUOUS, BY_BOUND, BY_HEADER, BY_SIZED, DEPTH, ELSEWHERE, LATE, OPEN, UNSPELLED, WRONG
from judging.answering import Judged, open_because
from judging.asking import split_list, told
from judging.crate import OTHER, OWN, head, is_blanket, is_whole, subject, types_of
from judging.environments import arguments
from judging.library import library, put
from judging.turns import ALL, DECLARED, Bound

# How deep goals are looked into, in which variables stand; how often more is asked once something was bound.
BOUNDS_AT, ROUNDS = 4, 4

# Two impls whose headers meet: what was said of them; a question that makes them one, what both ask for, the variables
# that are sized, and what variables come to.
Met = collections.namedtuple("Met", "pair said asked asks sized bound")


def pairs_of(it):
    """Gives the pairs of impls of one trait: of the crate's own, and of these with those of all types."""
    groups = collections.defaultdict(list)
    for impl in it.impls:
        if impl.of and (impl.origin == OWN or impl.origin == OTHER and is_blanket(impl)):
            groups[impl.name].append(impl)
    for some in groups.values():
        for one, other in itertools.combinations(some, 2):
            if OWN in (one.origin, other.origin):
                yield one, other


def keyed(it, impl):
    """Gives the types by whose keys a table finds an impl: what it is of, and what its trait is over."""
    sorts = [sort for sort, _ in it.traits[impl.name].params]
    return [impl.of, *(arg for sort, arg in zip(sorts, arguments(impl.trait)) if sort == "type")]


def keys_of(it, asker, impls):
    """Gives the keys by which a table finds impls, of each as many as there are types, where one may be nothing."""
    types = {id(impl): keyed(it, impl) for impl in impls}
    some = list(dict.fromkeys(of for its in types.values() for of in its))
    answers = asker.ask([], [[f"key {of}"] for of in some])
    keys = {of: answer[0] for of, answer in zip(some, answers) if answer and answer[0] != "none"}
    return {impl: [keys.get(of) for of in its] for impl, its in types.items()}


def are_of_two_keys(keys, pair):
    """Says whether a table has two impls at two keys, of what they are of or of what their trait is over."""
    left, right = (keys[id(impl)] for impl in pair)
    return any(one and other and one != other for one, other in zip(left, right))


def closed_names(it, pairs):
    """Gives a name to the header of each impl that has no parameter, over types alone."""
    prefix = "header"
    while any(name.startswith(prefix) for name in (*it.types, *it.traits, *it.of.sorts)):
        prefix += "_"
    some = {id(impl): impl for pair in pairs for impl in pair if not impl.params}.values()
    closed = [impl for impl in some if all(sort == "type" for sort, _ in it.traits[impl.name].params)]
    names = {id(impl): f"{prefix}{at}" for at, impl in enumerate(closed)}
    return names, [f"let {names[id(impl)]} = ({', '.join(types_of(impl))},);" for impl in closed]


def asked_of(names, pair):
    """Asks whether the headers of two impls meet: where no parameter stands in them, whether they are one."""
    if all(id(impl) in names for impl in pair):
        return " == ".join(names[id(impl)] for impl in pair)
    return f"overlap {', '.join(map(head, pair))}"


def judge_pairs(it, asker):
    """Asks of each pair that stands at one key whether it overlaps, as rustc does."""
    pairs, found, met = list(pairs_of(it)), [], []
    keys, left = keys_of(it, asker, {id(impl): impl for pair in pairs for impl in pair}.values()), []
    for pair in pairs:
        if are_of_two_keys(keys, pair):
            found.append(Judged(pair[0].place, f"apart by key, of {pair[1].place}", BY_HEADER))
        else:
            left.append(pair)
    names, lets = closed_names(it, left)
    answers = asker.ask(lets, [[asked_of(names, pair)] for pair in left])
    for pair, answer in zip(left, answers):
        said = told(answer[0]) if answer else LATE
        if said.startswith(("meets", "ok")):
            met.append(opened(pair, said))
        else:
            comes = BY_HEADER if said.startswith(("apart", "err")) else LATE
            found.append(Judged(pair[0].place, f"{said}, of {pair[1].place}", comes))
    return found + judge_met(it, asker, met)


def opened(pair, said):
    """Opens two impls with variables, those of the second behind those of the first."""
    bound, opened = Bound(), []
    for impl in pair:
        values = {}
        for sort, name in impl.params:
            sign = {"type": "?", "lifetime": "'?", "const": "?c"}[sort]
            values[name] = f"{sign}{bound.next[sign]}"
            bound.next[sign] += 1
        opened.append((impl, values))
    lists = [[put(arg, its) for arg in (impl.of, *arguments(impl.trait))] for impl, its in opened]
    asks = [put(ask, its) for impl, its in opened for ask in impl.asks]
    sized = [
        its[name] for impl, its in opened for sort, name in impl.params if sort == "type" and name not in impl.unsized
    ]
    left, right = (f"[{', '.join(it)}]" for it in lists)
    return Met(pair, said, f"args {left} == {right}", list(dict.fromkeys(asks)), sized, bound)


def judge_met(it, asker, met):
    """Asks of impls whose headers meet whether a bound tells them apart: by what is spelled, by all impls, and by any
    beside."""
    asked = [[one.asked, *then_all(one.bound)] for one in met]
    for one, some in zip(met, asker.ask([DECLARED], asked)):
        for answer in some or []:
            one.bound.note(answer)
        one.bound.note_all(variables(one.bound))
    said = said_of_all(it, asker, met)
    found = []
    for one, goals in zip(met, said):
        pair, text, _, _, sized, bound = one
        is_sized = not any(is_unsized(it, bound.terms.get(var, "")) for var in sized)
        whole = all(is_whole(impl.lacks) for impl in pair)
        whole = whole and not any(may_be_unsized(bound.terms.get(var, "")) for var in sized)
        comes = met_because(goals, whole)
        if not is_sized and comes != BY_BOUND:
            comes = BY_SIZED
        found.append(Judged(pair[0].place, f"{text}, of {pair[1].place}: {head(pair[0])}, {head(pair[1])}", comes))
    return found


def said_of_all(it, asker, met):
    """Gives what is said of each bound of impls that meet: by what is spelled, by all impls, and by any beside. Where one
    doesn't hold by the last, the others aren't asked."""
    perhaps = said_of(asker, worlds.perhaps(it), met)
    left = [at for at, said in enumerate(perhaps) if "no" not in said.values()]
    rest = [met[at] for at in left]
    spelled, own = (dict(zip(left, said_of(asker, rules(it), rest))) for rules in (worlds.spelled, worlds.all_own))
    by = [(spelled.get(at, {}), own.get(at, {}), said) for at, said in enumerate(perhaps)]
    return [[tuple(one.get(ask, OPEN) for one in said) for ask in it.asks] for it, said in zip(met, by)]


def variables(bound):
    return [f"?{number}" for number in range(bound.next["?"])]


def then_all(bound):
    """Has one variable stand for all: so it is seen which were made one."""
    some = variables(bound)
    return [f"then {ALL} == ({', '.join(some)},)"] if some else []


def said_of(asker, rules, met):
    """Gives what is said of each bound of impls that meet: of all at once, and again where one has bound a variable.
    Of one of a variable nothing is asked, since an impl may always be its."""
    bounds, said, left = [copy.deepcopy(it.bound) for it in met], [{} for _ in met], range(len(met))
    for _ in range(ROUNDS):
        asked = []
        for at in left:
            goals = [(ask, bounds[at].put(ask)) for ask in met[at].asks if said[at].get(ask) != "yes"]
            asked.append([(ask, goal) for ask, goal in goals if not subject(goal).startswith("?")])
        groups = [[f"prove {goal} at {BOUNDS_AT}" for _, goal in some] for some in asked]
        again = []
        for at, some, answers in zip(left, asked, asker.ask([DECLARED, *rules], groups)):
            if note(bounds[at], said[at], some, answers):
                again.append(at)
        left = again
    return said


def note(bound, said, asked, answers):
    """Notes what was said of bounds that no answer changes: says whether more may be said of the others."""
    for (ask, goal), answer in zip(asked, answers or [LATE] * len(asked)):
        if bound.put(goal) != goal:
            continue
        said[ask] = told(answer)
        if said[ask] == "no":
            return False
        if said[ask] == "yes":
            bound.note(answer)
    return any(bound.put(goal) != goal for _, goal in asked)


def is_unsized(it, text):
    return headers.is_unsized(text) or text in {it.named.get(name, name) for name in library().unsized}


def may_be_unsized(text):
    """Says whether a type has an unsized one as an argument: no description says whether it holds that itself."""
    of, _, args = text.partition("<")
    return of.isidentifier() and any(headers.is_unsized(it) for it in split_list(args[:-1]))


def met_because(goals, whole):
    """Says what comes of impls whose headers meet, by what is said of each bound."""
    if any(it[2] == "no" for it in goals):
        return BY_BOUND
    if not whole:
        return UNSPELLED
    left = [open_because(it, True) for it in goals if it[0] != "yes"]
    return next((why for why in (ELSEWHERE, UNSPELLED, LATE, DEPTH, AMBIGUOUS) if why in left), WRONG)
