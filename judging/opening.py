"""Finds out in which universe each variable for a region is that opening binders has made: no answer prints that.

It goes through two types as relating does, as far as that counts: which binders are opened in which order, and which
types variables stand for. Nothing is recorded of regions. Whether a variable is in universe 0 is asked of `ask`, too.
"""
from judging.asking import split_list
from judging.terms import ITEMS, PROBE, binds, free_regions, mapped, region

CO, CONTRA, INV = 1, -1, 0


class Unrelated(Exception):
    """The types do not relate, so that no binder is opened from here on."""


class Opening:
    """What there is while two types are related."""

    def __init__(self, variables):
        self.universe, self.bound = 0, {}
        # The universe of each variable for a region, by its number.
        self.universes = [0] * variables

    def fresh(self, universe):
        self.universes.append(universe)
        return f"'?{len(self.universes) - 1}"

    def resolve(self, term):
        while term.form == "var" and term.data in self.bound:
            term = self.bound[term.data]
        return term

    def relate(self, left, right, variance):
        left, right = self.resolve(left), self.resolve(right)
        if left == right or left.form in ("region", "const"):
            return
        if left.form == "var" or right.form == "var":
            self.bind(left, right)
        elif left.form != right.form or len(left.parts) != len(right.parts):
            raise Unrelated
        elif left.form == "fn":
            pairs = list(zip(left.parts, right.parts))
            turns = [-variance] * (len(pairs) - 1) + [variance]
            self.binders(binds(left), left.parts, binds(right), right.parts, turns, variance)
        elif left.form == "dyn":
            self.objects(left, right, variance)
        else:
            for mine, theirs, own in zip(left.parts, right.parts, variances(left)):
                self.relate(mine, theirs, variance * own)

    def objects(self, left, right, variance):
        """Relates trait objects: the type that a trait declares comes before the arguments, in a bound of its own."""
        mine, theirs = left.parts[:-1], right.parts[:-1]
        bounds = [(mine[:-1], theirs[:-1]), (mine[-1:] + mine[:-1], theirs[-1:] + theirs[:-1])]
        for one, other in bounds if left.data[2] else [(mine, theirs)]:
            self.binders(binds(left), one, binds(right), other, [INV] * len(one), variance)

    def binders(self, names, parts, other_names, other_parts, turns, variance):
        if (names, parts) == (other_names, other_parts):
            return
        used = [any(it in free_regions(part) for it in some for part in where)
                for some, where in ((names, parts), (other_names, other_parts))]
        rounds = ([CO] if variance != CONTRA else []) + ([CONTRA] if variance != CO else [])
        for turn in rounds if any(used) else [None]:
            mine, theirs = parts, other_parts
            if turn == CO:
                theirs, mine = self.opened(other_names, theirs, used[1]), self.varied(names, mine)
            if turn == CONTRA:
                mine, theirs = self.opened(names, mine, used[0]), self.varied(other_names, theirs)
            for one, other, part in zip(mine, theirs, turns):
                self.relate(one, other, part)

    def opened(self, names, parts, is_used):
        """Puts placeholders of a new universe for what a binder binds."""
        if not is_used:
            return parts
        self.universe += 1
        return put_all(parts, {it: f"'!{self.universe}.{at}" for at, it in enumerate(names)})

    def varied(self, names, parts):
        return put_all(parts, {it: self.fresh(self.universe) for it in names})

    def bind(self, left, right):
        """Binds a variable to a term, and of two variables the one of the larger number to the other."""
        if left.form == right.form:
            left, right = sorted((left, right), key=lambda it: int(it.data[1:]))
            self.bound[right.data] = left
            return
        variable, term = (left, right) if left.form == "var" else (right, left)
        if self.stands_in(variable, term):
            raise Unrelated
        self.bound[variable.data] = self.generalised(term, (), {})
        self.relate(self.bound[variable.data], term, INV)

    def stands_in(self, variable, term):
        term = self.resolve(term)
        return term == variable or any(self.stands_in(variable, it) for it in term.parts)

    def generalised(self, term, scope, met):
        """Gives a term with new variables for the regions that universe 0 can't name."""
        term = self.resolve(term)
        if term.form == "region":
            return term if term.data in scope or self.is_lowest(term.data) else region(self.fresh(0))
        if term not in met:
            inner = scope + binds(term)
            met[term] = term._replace(parts=tuple(self.generalised(it, inner, met) for it in term.parts))
        return met[term]

    def is_lowest(self, name):
        return not name.startswith("'!") and (not name.startswith("'?") or self.universes[int(name[2:])] == 0)


def put_all(parts, names):
    change = lambda leaf: region(names.get(leaf.data, leaf.data)) if leaf.form == "region" else leaf
    return tuple(mapped(it, change) for it in parts)


def variances(term):
    """Gives the variances of the parts of a form without a binder."""
    if term.form == "item":
        return [{"+": CO, "-": CONTRA}.get(it[0], INV) for it in ITEMS[term.data]]
    if term.form == "ref":
        return [CO, INV if term.data else CO]
    if term.form == "ptr":
        return [INV if term.data else CO]
    return [CO] * len(term.parts)


def universes_of(left, right, variance, variables=0):
    """Gives the universe of each variable for a region once two types were related: the first are the types' own."""
    opening = Opening(variables)
    try:
        opening.relate(left, right, variance)
    except Unrelated:
        return {}
    return {f"'?{number}": universe for number, universe in enumerate(opening.universes)}


def probes(universes):
    """Asks which variables universe 0 can name: a variable of it is bound to all, and gets others for the rest."""
    return [f"then {PROBE} == ({', '.join(f'&{it} u8' for it in universes)},)"] if universes else []


def probed(universes, answers):
    """Gives the universes once they were asked about by the last question, if there was one to ask."""
    if PROBE not in answers[-1].bound:
        return universes
    asked = zip(universes.items(), split_list(answers[-1].bound[PROBE][1:-1]))
    return {it: 0 if part == f"&{it} u8" else max(universe, 1) for (it, universe), part in asked}
