"""What is known where bounds hold: they, what traits state beside, and a name for each type that a trait declares."""
import re

from judging.aliases import Aliases, comes_to, cut, erased, name_for, spelled
from judging.asking import split_list
from judging.crate import ELSEWHERE, SIZED, names_first
from judging.library import WORD, put

# How many aliases may stand in one: of `T`, of its types, and of theirs.
MOST = 3


def arguments(trait):
    """Gives the arguments of a trait."""
    return split_list(trait.partition("<")[2][:-1])


def stated_of(traits, clause):
    """Gives the trait of a clause, and what it states of what has it: of that itself, and of the traits' types."""
    of, trait = cut(clause, ": ")
    known = traits.get(names_first(trait)) if trait else None
    if known is None:
        return None, [], []
    values = {"Self": of, **dict(zip([name for _, name in known.params], arguments(trait)))}
    return known, [put(it, values) for it in known.supers], [put(it, values) for it in known.states]


class Environment:
    """Bounds of a crate, with all that they imply: each alias of a parameter is a parameter of its own, if no bound
    says to what it comes."""

    def __init__(self, crate, impl, values):
        """Takes the bounds of an impl, and what some of the parameters come to that stand for aliases. The others that
        may come to something by impls are left out, with what is asked of them: they are `unknown`, with their aliases.
        """
        self.crate, self.clauses, self.made, self.depths = crate, [], set(), {}
        self.values, self.unknown = values, self.unknown_of(impl, values)
        unknown = {name for name, _ in self.unknown}
        some = {name for sort, name in impl.params if sort == "type" and values.get(name, name) == name}
        self.sized = some - unknown - impl.unsized
        self.aliases = Aliases(self.parameter)
        bounds = self.bounds_of(impl)
        for it in bounds:
            self.aliases.note(it)
        for it in bounds:
            self.add(it)

    def unknown_of(self, impl, values):
        """Gives the parameters that stand for aliases of types which are no parameters, if nothing is known of them."""
        params, found = {name for _, name in impl.params} - {name for name, _ in impl.made}, []
        for name, alias in impl.made:
            if put(alias[0], values) in params:
                params.add(name)
            elif name not in values:
                found.append((name, put(spelled(*alias), values)))
        return found

    def bounds_of(self, impl):
        """Gives an impl's bounds, without those of what is unknown, and those that say only what an alias came to."""
        left = {name for name, _ in self.unknown}
        bounds = [put(it, self.values) for it in impl.asks if not left & set(WORD.findall(it))]
        made = [(put(spelled(*alias), self.values), self.values.get(name)) for name, alias in impl.made]
        own = {f"{alias} == {term}" for alias, term in made if term is not None}
        return [it for it in bounds if it not in own or comes_to(it)[1] in self.values]

    def parameter(self, of, trait, item):
        taken = {*self.made, *self.crate.of.taken, *re.findall(r"\w+", " ".join(self.clauses))}
        name = self.crate.of.free_name("type", name_for(of, item, taken))
        self.made.add(name)
        self.depths[name] = self.depths.get(of, 0) + 1
        return name

    def add(self, clause):
        clause = self.aliases.clause(clause)
        said = comes_to(clause)
        if said:
            self.equate(self.aliases.put(said[0]), said[1])
        elif clause not in self.clauses:
            self.clauses.append(clause)
            self.add_stated(clause)

    def equate(self, name, term):
        """Has one of the parameters that stand for aliases stand for what it is."""
        if name in self.made and name != term:
            self.clauses = list(dict.fromkeys(put(it, {name: term}) for it in self.clauses))
            known = [(put(alias, {name: term}), put(it, {name: term})) for alias, it in self.aliases.said()]
            self.aliases = Aliases(self.parameter, known)

    def add_stated(self, clause):
        """Adds what a clause implies; of the types of its trait only where it is of a parameter."""
        of, trait = cut(clause, ": ")
        known, supers, states = stated_of(self.crate.traits, clause)
        if known is None:
            return
        items = self.crate.of.declared.get(known.name, ())
        is_param = re.fullmatch(r"\w+", of) and of not in self.crate.types
        if self.depths.get(of, 0) < MOST and (is_param or any(self.aliases.has((of, trait, it)) for it in items)):
            for it in states:
                self.aliases.note(it)
            for item in items:
                self.aliases.term((of, trait, item))
            supers = supers + states
        for it in supers:
            self.add(it)

    def open_in(self, impl):
        """Gives the parameters of an impl that stand for aliases of which neither its bounds nor impls say anything."""
        said = {erased(it) for it in self.clauses}
        left = [(name, [put(it, self.values) for it in alias]) for name, alias in impl.made]
        left = [(name, erased(f"{of}: {trait}")) for name, (of, trait, _) in left if self.values.get(name) == name]
        return {name for name, clause in left if clause not in said}

    def text(self):
        """Gives the statement that assumes all of it."""
        said = [*self.clauses, *(f"{alias} == {term}" for alias, term in self.aliases.said())]
        said += [f"{it}: {SIZED}" for it in sorted(self.sized | self.made) if SIZED in self.crate.traits]
        return f"assume {', '.join(dict.fromkeys(said))}" if said else "assume"

    def implies_more(self):
        """Says whether a bound is by a trait of another crate, of which it isn't described what that states."""
        traits = {names_first(cut(it, ": ")[1]) for it in self.clauses}
        return any(it not in self.crate.traits or self.crate.traits[it].place == ELSEWHERE for it in traits)


def goal_in(environment, impl, clause):
    """Gives goals: to what each alias of a clause comes of which nothing is known, and last the clause itself."""
    asked = []

    def variable(*alias):
        asked.append(f"{spelled(*alias)} == ?{len(asked)}")
        return f"?{len(asked) - 1}"

    own = {spelled(impl.of, impl.trait, item): put(ty, environment.values) for item, ty in impl.gives}
    aliases = Aliases(variable, [*own.items(), *environment.aliases.said()])
    last = aliases.clause(put(clause, environment.values))
    return [*asked, last]
