"""Makes statements of a crate that rustdoc describes: its types, its traits, and its impls."""
import collections
import re

from judging import described, forms, library
from judging.aliases import Aliases, begins, comes_to, cut, name_for, spelled
from judging.asking import split_list
from judging.bounds import Bounds
from judging.described import Described, Scope, Unspelled
from judging.library import WORD, param_text, put

# A trait: its place, parameters as (sort, name), its super-predicates, what it states of the types that traits declare,
# and why it states more than that.
Trait = collections.namedtuple("Trait", "place name params supers states lacks auto local")
ELSEWHERE = "another crate"
# The trait of what is sized, which all types have by their forms.
SIZED = "Sized"
# An impl: its place, where it comes from, its parameters, its trait with arguments and the type; what it asks for, why
# there is more, and which parameters may be unsized; what the types of its trait are, by their names, or why one is not
# spelled. Where the head is not spelled `of` is nothing. For each type that a trait declares stands a parameter; `made`
# has these, each with what it stands for, and asks for that.
Impl = collections.namedtuple("Impl", "place origin params name trait of asks lacks unsized gives unsaid made")
# Of whom an impl is: of the crate, of the compiler's for auto traits, of another crate.
OWN, AUTO, OTHER = "own", "auto", "other"


def generic(params):
    return f"<{', '.join(param_text(*it[:2]) for it in params)}>" if params else ""


def head(impl):
    return f"impl{generic(impl.params)} {impl.trait} for {impl.of}"


def impl_text(impl):
    gives = f" {{ {', '.join(' = '.join(it) for it in impl.gives)} }}" if impl.gives else ""
    return head(impl) + gives + (f" where {', '.join(impl.asks)}" if impl.asks else "")


def names_in(text):
    return {it for it in WORD.findall(text) if not it.startswith("'")}


class Crate:
    """A crate: its types by their names, with the sorts of parameters, its traits, and impls."""

    def __init__(self, file):
        self.of = Described(file)
        # What is seen of other crates' items counts from the start, and so does what traits state: all is read thrice.
        for _ in range(3):
            self.traits, self.impls, self.headless, self.told_of = {}, [], [], set()
            self.of.sorts.clear()
            self.declare_types()
            for id, item in sorted(self.of.index.items(), key=lambda it: int(it[0])):
                kind, it = next(iter(item["inner"].items()))
                if kind == "trait":
                    self.add_trait(id, item, it)
                elif kind == "impl" and it["trait"]:
                    self.add_impl(item, it)
            self.of.stated = {name: (it.params, it.supers) for name, it in self.traits.items()}
        self.impls = list({it[1:] if it.origin == OTHER else it: it for it in self.impls}.values())
        self.named = self.of.library_names()
        self.ids = {name: id for id, name in self.of.names.items()}
        self.impls += [self.renamed(it) for it in library.library().impls]
        self.ask_sizes()
        self.reach()
        self.unknown_sizes = []
        if SIZED in self.traits:
            self.add_sizes()

    def declare_types(self):
        """Finds which types each trait declares, as far as traits are known, and what those of the library state."""
        here, known = self.of.library_names(), library.library()
        self.of.declared = {here.get(it, it): list(some) for it, some in known.declared.items()}
        for id, item in self.of.index.items():
            if "trait" in item["inner"]:
                name = self.of.name_of(id, item["name"])
                self.of.declared[name] = [it["name"] for it in self.types_of(item) if not is_generic(it)]
        for name, params in known.traits.items():
            stated = [put(it, here) for it in known.supers[name]]
            self.of.stated.setdefault(here.get(name, name), ([it[:2] for it in params], stated))

    def types_of(self, item):
        """Gives the types that a trait declares or an impl gives."""
        found = [self.of.index.get(str(it)) for it in next(iter(item["inner"].values()))["items"]]
        return [it for it in found if it and "assoc_type" in it["inner"]]

    def add_trait(self, id, item, it):
        name = self.of.name_of(id, item["name"])
        scope = Scope(self.of, it["generics"]["params"], "Self")
        own = f"{name}<{', '.join(it for _, it in scope.params)}>" if scope.params else name
        scope.said.append(f"Self: {own}")
        bounds, of_types = Bounds(scope), Bounds(scope)
        bounds.add_supers(it)
        for ty in self.types_of(item):
            if is_generic(ty):
                bounds.lacks.append(described.GENERIC)
            else:
                of_types.add(spelled("Self", own, ty["name"]), ty["inner"]["assoc_type"]["bounds"])
        count = len(it["generics"]["params"])
        params, more = scope.params[:count], {it: "'static" for _, it in scope.params[count:]}
        # A region that a binder binds is any: one stands for all.
        supers = [put(it, more) for it in bounds.clauses if is_plain(it)]
        states = [put(it, more) for it in [*(it for it in bounds.clauses if not is_plain(it)), *of_types.clauses]]
        lacks, local = bounds.lacks + of_types.lacks, item["crate_id"] == self.of.crate
        self.traits[name] = Trait(self.of.place(item), name, params, supers, states, lacks, it["is_auto"], local)

    def add_impl(self, item, it):
        """Adds an impl; one of another crate for all types of a bound stands as often as there are types."""
        local = item["crate_id"] == self.of.crate
        blanket = it["blanket_impl"]
        if blanket and (local or self.of.is_local(it["trait"]["id"]) or self.of.is_known(it["trait"]["id"])):
            return
        self.told_of.add((self.of.name_of(it["trait"]["id"], it["trait"]["path"]), head_id(it)))
        if it["is_synthetic"] and it["is_negative"]:
            return
        origin = AUTO if it["is_synthetic"] else OTHER if blanket or not local else OWN
        name = self.of.name_of(it["trait"]["id"], it["trait"]["path"])
        scope = Scope(self.of, it["generics"]["params"])
        bounds = Bounds(scope)
        try:
            if it["is_negative"]:
                raise Unspelled(described.NEGATIVE)
            scope.me = scope.ty(blanket or it["for"])
            of, trait = scope.me, scope.trait(it["trait"], scope.me)
        except Unspelled as why:
            of, trait = None, str(why)
            self.note_headless(name, scope, it)
        scope.said.append(f"{of}: {trait}")
        bounds.add_generics(it["generics"])
        if described.UNKNOWN in bounds.lacks:
            # What was said of one bound may say what another one leaves out.
            bounds = Bounds(scope)
            bounds.add_generics(it["generics"])
        gives, unsaid = self.given(scope, name, item)
        place, lacks, unsized = self.of.place(item), tuple(bounds.lacks), frozenset(bounds.unsized)
        params, asks = scope.params, bounds.clauses
        made = Impl(place, origin, params, name, trait, of, asks, lacks, unsized, gives, unsaid, ())
        self.impls.append(self.with_params(made))

    def note_headless(self, name, scope, it):
        """Notes an impl whose head isn't spelled: of its type and its trait that which is, and else nothing."""
        if not it["is_negative"]:
            parts = []
            for spell in (lambda: scope.ty(it["for"]), lambda: scope.trait(it["trait"], "X")):
                try:
                    parts.append(spell())
                except Unspelled:
                    parts.append(None)
            self.headless.append((name, *parts, scope.params))

    def given(self, scope, name, item):
        """Gives what an impl says that its trait's types are, and why some aren't spelled."""
        gives, unsaid = [], []
        for it in self.types_of(item):
            try:
                if is_generic(it):
                    raise Unspelled(described.GENERIC)
                if it["name"] not in self.of.declared.setdefault(name, []):
                    self.of.declared[name].append(it["name"])
                gives.append((it["name"], scope.ty(it["inner"]["assoc_type"]["type"])))
            except Unspelled as why:
                unsaid.append((it["name"], str(why)))
        return gives, tuple(unsaid)

    def with_params(self, impl):
        """Puts a parameter for each type that a trait declares, and asks that it is that type."""
        params, made, gives = list(impl.params), {}, dict(impl.gives)

        def name(*alias):
            of, trait, item = alias
            if (of, trait) == own and item in gives:
                return aliases.put(gives[item])
            params.append(("type", self.of.free_name("type", name_for(of, item, [it for _, it in params]))))
            made[params[-1][1]] = alias
            return params[-1][1]

        own, aliases = None, Aliases(name)
        for ask in impl.asks:
            aliases.note(ask)
        of, trait = (aliases.put(it) if impl.of else it for it in (impl.of, impl.trait))
        own = (of, trait)
        asks = [aliases.clause(it) for it in impl.asks]
        gives = {item: aliases.put(ty) for item, ty in gives.items()}
        said = [f"{spelled(*alias)} == {name}" for name, alias in made.items()]
        unknown = {it for _, it in params} - names_in(f"{trait} {of}")
        asks, gives = tuple(in_order(dict.fromkeys([*asks, *said]), unknown)), tuple(gives.items())
        return impl._replace(params=tuple(params), of=of, trait=trait, asks=asks, gives=gives, made=tuple(made.items()))

    def renamed(self, it):
        """Gives an impl of the library as this crate names what is in it."""
        values = {name: self.of.free_name(sort, name) for sort, name in it.params}
        values = {**self.named, **values}
        params = tuple((sort, values[name]) for sort, name in it.params)
        asks, gives = [put(ask, values) for ask in it.asks], [(item, put(ty, values)) for item, ty in it.gives]
        of, trait = put(it.of, values), put(it.trait, values)
        made = Impl("the library", OTHER, params, names_first(trait), trait, of, asks, (), frozenset(), gives, (), ())
        return self.with_params(made)

    def reach(self):
        """Finds which traits and types are spoken of, and leaves out the impls of all others."""
        self.types, used, text = {}, set(), []
        own = [it for it in self.impls if it.origin == OWN]
        for it in own:
            text += [it.name, *it.asks, *([it.trait, it.of] if it.of else []), *(ty for _, ty in it.gives)]
        for it in self.traits.values():
            if it.local:
                text += [it.name, *it.supers, *it.states]
        self.library_traits()
        while new := set().union(*map(names_in, text)) - used:
            used |= new
            told = [self.traits[it] for it in new if it in self.traits]
            text = [clause for it in told for clause in (*it.supers, *it.states)]
            text += [self.traits[it].name for it in new if it in self.traits]
            for it in self.impls:
                if it.of and it.origin == OTHER and it.name in used:
                    if it.name in new and is_blanket(it):
                        text += [it.trait, *it.asks, *(ty for _, ty in it.gives)]
                    elif self.speaks_of(it._replace(gives=()), used):
                        text += [ty for _, ty in it.gives]
        self.find_types(used)
        self.traits = {name: it for name, it in self.traits.items() if name in used or it.local}
        known = {*self.types, *self.traits, *(used & described.PLAIN)}
        self.impls = [it for it in self.impls if it.origin == OWN or it.name in used and self.speaks_of(it, known)]

    def ask_sizes(self):
        """Has impls ask that a parameter is sized where another of the trait has an unsized type in its place."""
        unsized = {self.named.get(it, it) for it in library.library().unsized}
        places = {
            (it.name, at)
            for it in self.impls
            for at, of in enumerate(types_of(it))
            if forms.is_unsized_form(of) or of in unsized
        }
        for at, it in enumerate(self.impls):
            params = {name for sort, name in it.params if sort == "type"} - it.unsized - {name for name, _ in it.made}
            some = [of for place, of in enumerate(types_of(it)) if of in params and (it.name, place) in places]
            if it.origin == OWN and some:
                asks = dict.fromkeys([*(f"{of}: {SIZED}" for of in some), *it.asks])
                self.impls[at] = it._replace(asks=tuple(asks))

    def add_sizes(self):
        """Adds an impl of `Sized` for each form of types that is sized, and apart those that may be."""
        for of, params, types, is_more in forms.sized_forms(self):
            made = Impl("by its form", OTHER, tuple(params), SIZED, SIZED, of, (), (), frozenset(), (), (), ())
            if types is not None:
                self.impls.append(made._replace(asks=tuple(f"{it}: {SIZED}" for it in types)))
            if is_more:
                self.unknown_sizes.append(made)

    def speaks_of(self, impl, known):
        params = {name for _, name in impl.params}
        said = names_in(" ".join([impl.trait, impl.of or "", *impl.asks, *(ty for _, ty in impl.gives)]))
        said -= params | KEYWORDS
        return all(it in known or it.isdigit() for it in said)

    def library_traits(self):
        """Adds the traits of the library, and those of other crates with as many parameters as were seen."""
        known = library.library()
        for name, params in known.traits.items():
            here = self.named.get(name, name)
            free = {it: self.of.free_name(sort, it) for sort, it, _ in params}
            params, here_named = [(sort, free[it]) for sort, it, _ in params], {**self.named, **free}
            supers, states = ([put(it, here_named) for it in some[name]] for some in (known.supers, known.stated))
            auto = name in known.autos
            self.traits.setdefault(here, Trait("the library", here, params, supers, states, [], auto, False))
        for id, name in self.of.names.items():
            if self.of.kind_of(id) == "trait" and name not in self.traits:
                params = self.params_of(id)
                self.traits[name] = Trait(ELSEWHERE, name, params, [], [], [], False, False)

    def find_types(self, used):
        """Finds the crate's own types and those that are spoken of, with their parameters."""
        known = library.library().types
        here = {self.named.get(name, name): params for name, params in known.items()}
        own = {name for name, id in self.ids.items() if id in self.of.index and self.of.is_local(id)}
        for name in sorted(used | own):
            id = self.ids.get(name)
            if name in here:
                self.types[name] = [(sort, self.of.free_name(sort, it)) for sort, it, _ in here[name]]
            elif id and self.of.kind_of(id) not in ("trait", "type_alias"):
                self.types[name] = self.params_of(id)

    def params_of(self, id):
        """Gives the parameters of an item: as many as were seen, where another crate has it."""
        params = self.of.params_of(id)
        if params is None:
            params = [(sort, numbered(sort, at), "") for at, sort in enumerate(self.of.sorts_of(id))]
        return [(sort, self.of.free_name(sort, name)) for sort, name, _ in params]

    def is_local_type(self, name):
        return name in self.ids and self.of.is_local(self.ids[name])


# Words of the language that stand in types.
KEYWORDS = {"mut", "const", "dyn", "fn", "for", "unsafe", "extern", "C", "system", "where", "Self", "as"}


def numbered(sort, at, names=("'x", "X", "N")):
    """Gives a parameter of a sort a name."""
    return f"{dict(zip(('lifetime', 'type', 'const'), names))[sort]}{at}"


def names_first(text):
    return re.match(r"\w+", text)[0]


def types_of(impl):
    """Gives the type that an impl is of, and what its trait is over."""
    return [impl.of, *split_list(impl.trait.partition("<")[2][:-1])] if impl.of else []


def is_blanket(impl):
    return impl.of in [name for _, name in impl.params]


def is_whole(lacks):
    """Says whether what isn't spelled is only what answers leave open of all: regions, and what is sized."""
    return not set(lacks) - {described.OUTLIVES, described.BINDER, described.SIZED}


def head_id(it):
    """Gives the item of the type that an impl is of, if it has one."""
    return it["for"].get("resolved_path", {}).get("id")


def is_generic(ty):
    """Says whether a type that a trait declares has parameters of its own."""
    return bool(ty["inner"]["assoc_type"]["generics"]["params"])


def is_plain(clause):
    """Says whether a clause has no alias but the one of which it says to what it comes."""
    of, term = comes_to(clause) or ("", clause)
    return not any(begins(term, at) for at in range(len(term))) and of.count(" as ") < 2


def in_order(asks, unknown):
    """Gives what is asked for in such an order that parameters are known before something is asked of them: an alias
    makes them known, and so does a trait's bound, if nothing else does."""
    found, left, unknown = [], list(asks), set(unknown)
    while left:
        ready = (it for of in (given_of, subject) for it in left if not names_in(of(it)) & unknown)
        found.append(next(ready, left[0]))
        left.remove(found[-1])
        unknown -= names_in(found[-1])
    return found


def given_of(clause):
    """Gives the part of a clause that has to be known: all of it, but what an alias comes to."""
    return (comes_to(clause) or (clause,))[0]


def subject(clause):
    """Gives what a clause is of: a type that has a trait, or whose type it speaks of."""
    said = comes_to(clause)
    return cut(said[0][1:], " as ")[0] if said else cut(clause, ": ")[0]


def declarations(crate):
    """Gives the statements that say which types and traits there are, and what traits state."""
    lines = [f"struct {name}{generic(params)};" for name, params in crate.types.items()]
    for it in crate.traits.values():
        lines.append(f"{'auto ' if it.auto else ''}trait {it.name}{generic(it.params)};")
        lines += [f"type {it.name}::{item};" for item in crate.of.declared.get(it.name, ())]
    return lines + [f"super {it.name}: {', '.join(it.supers)};" for it in crate.traits.values() if it.supers]


def traits_stated(trait):
    """Gives the traits of which a trait states that something has them."""
    bounds = [it for it in (*trait.supers, *trait.states) if not comes_to(it)]
    return {names_first(cut(it, ": ")[1]) for it in bounds}
