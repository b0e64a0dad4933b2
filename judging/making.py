"""Random terms, and terms with a few places changed."""
from judging.terms import (
    AUTOS,
    CONSTS,
    ITEMS,
    NEVER,
    PARAMS,
    REGIONS,
    STATIC,
    TRAITS,
    UNIT,
    Term,
    binds,
    free_regions,
    is_bound_part,
    is_sized,
    is_valid_type,
    mapped,
    places,
    plain,
    put,
    region,
)

PLAIN = ("bool", "char", "u8", "u8", "u16", "i32", "i64", "usize", "f32", "f64")
LETTERS = "xyz"
# How often a form is chosen where a type is made, and where a part is as deep as it may be.
FORMS = {
    "plain": 3, "param": 3, "tuple": 3, "array": 2, "slice": 2, "ref": 8, "ptr": 2, "fn": 9, "dyn": 4, "item": 6,
}
LOW_FORMS = {"plain": 3, "param": 2, "low ref": 4, "low item": 2}
# How often a place is changed in a way, where there is one for it.
WAYS = {"region_changed": 10, "binder_changed": 6, "opened": 4, "form_changed": 2}


class Maker:
    """Makes terms by a source of chance, over some regions and parameters."""

    def __init__(self, rng, regions=REGIONS, params=PARAMS, consts=CONSTS):
        self.rng, self.regions, self.params, self.consts = rng, regions, params, consts

    def chance(self, one_in):
        return self.rng.randrange(one_in) == 0

    def region(self, scope):
        inner = [it for it in scope if it not in self.regions]
        if inner and not self.chance(3):
            return region(self.rng.choice(inner))
        return region(STATIC if self.chance(6) or not self.regions else self.rng.choice(self.regions))

    def const(self):
        if self.consts and self.chance(3):
            return Term("const", self.rng.choice(self.consts), ())
        return Term("const", self.rng.choice("123"), ())

    def valid_type(self, depth, sized=True):
        """Makes a type that Rust takes where the regions alone are known."""
        while True:
            made = self.type(depth, self.regions, sized)
            if is_valid_type(made, self.regions, sized):
                return made

    def type(self, depth, scope, sized=True):
        forms = FORMS if depth > 0 else LOW_FORMS
        form = self.rng.choices(list(forms), forms.values())[0]
        made = getattr(self, f"a_{form.replace(' ', '_')}")(depth - 1, scope, sized)
        return made if is_sized(made) or not sized else self.type(depth, scope, sized)

    def a_plain(self, _depth, _scope, sized):
        return plain("str" if not sized and self.chance(3) else self.rng.choice(PLAIN))

    def a_param(self, depth, scope, sized):
        if not self.params:
            return self.a_plain(depth, scope, sized)
        return Term("param", self.rng.choice(self.params), ())

    def a_tuple(self, depth, scope, _sized):
        return Term("tuple", None, tuple(self.type(depth, scope) for _ in range(self.rng.choice((0, 1, 2, 2, 3)))))

    def a_array(self, depth, scope, _sized):
        return Term("array", None, (self.type(depth, scope), self.const()))

    def a_slice(self, depth, scope, _sized):
        return Term("slice", None, (self.type(depth, scope),))

    def a_ref(self, depth, scope, _sized):
        return Term("ref", self.chance(3), (self.region(scope), self.type(depth, scope, False)))

    def a_low_ref(self, _depth, scope, _sized):
        return Term("ref", self.chance(4), (self.region(scope), plain("u8")))

    def a_low_item(self, _depth, scope, _sized):
        return Term("item", self.rng.choice(("Life", "LifeSink", "LifeCell")), (self.region(scope),))

    def a_ptr(self, depth, scope, _sized):
        return Term("ptr", self.chance(2), (self.type(depth, scope, False),))

    def a_item(self, depth, scope, _sized):
        name = self.rng.choice(list(ITEMS))
        return Term("item", name, tuple(self.argument(it, name, depth, scope) for it in ITEMS[name]))

    def argument(self, param, name, depth, scope):
        if "'" in param:
            return self.region(scope)
        if param.startswith("const"):
            return Term("const", self.rng.choice(("1u8", "2u8")), ()) if name == "Num" else self.const()
        return self.type(depth, scope, False)

    def binder(self, scope):
        """Gives the list of a binder: names that stand in no scope around it."""
        left = [f"'{letter}{'' if level == 0 else level}" for level in range(4) for letter in LETTERS]
        left = [it for it in left if it not in scope]
        return tuple(left[: self.rng.choice((0, 1, 1, 1, 2, 2))])

    def a_fn(self, depth, scope, _sized):
        names = self.binder(scope)
        inputs = [self.type(depth, scope + names) for _ in range(self.rng.choice((0, 1, 1, 2, 2, 3)))]
        used = tuple(it for it in names if any(it in free_regions(part) for part in inputs))
        output = UNIT if self.chance(3) else NEVER if self.chance(8) else self.type(depth, scope + used)
        unsafe = self.chance(8)
        abi = self.rng.choice(("C", "system")) if self.chance(5) else ""
        return Term("fn", (names, unsafe, abi, abi == "C" and bool(inputs) and self.chance(3)), (*inputs, output))

    def a_dyn(self, depth, scope, _sized):
        autos = tuple(it for it in AUTOS if self.chance(4))
        outlived = self.region(scope)
        if autos and self.chance(4):
            return Term("dyn", ((), None, None, autos), (outlived,))
        trait = self.rng.choice(list(TRAITS))
        params, declared = TRAITS[trait]
        names = self.binder(scope) if params else ()
        args = [self.argument(it, trait, depth, scope + names) for it in params]
        used = tuple(it for it in names if any(it in free_regions(part) for part in args))
        if declared:
            args.append(self.type(depth, scope + used, False))
        return Term("dyn", (names, trait, declared, autos), (*args, outlived))

    def changed(self, term, sized=True, times=None):
        """Gives a term with a few places changed, that Rust takes too."""
        for _ in range(self.rng.choice((0, 1, 1, 1, 1, 2, 2)) if times is None else times):
            for _ in range(20):
                new = self.changed_once(term, sized)
                if new is not None and new != term and is_valid_type(new, self.regions, sized):
                    term = new
                    break
        return term

    def changed_once(self, term, sized):
        """Changes one place: binders and regions more often than all else, which mostly tells types apart."""
        found = list(places(term, self.regions, sized))
        ways = {
            self.region_changed: [it for it in found if it.term.form == "region"],
            self.binder_changed: [it for it in found if binds(it.term)],
            self.opened: [it for it in found if it.term.form == "fn"],
            self.form_changed: found,
        }
        ways = {way: some for way, some in ways.items() if some}
        way = self.rng.choices(list(ways), [WAYS[it.__name__] for it in ways])[0]
        place = self.rng.choice(ways[way])
        new = way(place)
        return None if new is None else put(term, place.path, new)

    def region_changed(self, place):
        return self.region(place.scope)

    def binder_changed(self, place):
        """Changes a binder: puts another region for what it binds, or its names into another order, or one more."""
        term, names = place.term, binds(place.term)
        one = self.rng.choice(names)
        which = self.rng.randrange(6)
        if which == 0:
            return with_binder(term, tuple(self.rng.sample(names, len(names))))
        if which == 1:
            return with_binder(term, names + self.fresh(place))
        if which == 2 and len(names) > 1:
            return exchanged(term, *self.rng.sample(names, 2), self.rng)
        to = self.rng.choice([it for it in (*names, *place.scope, STATIC) if it != one])
        return with_binder(renamed_in(term, one, to), tuple(it for it in names if it != one))

    def fresh(self, place):
        taken = {*place.scope, *binds(place.term)}
        taken |= {name for it in places(place.term, place.scope) for name in binds(it.term)}
        left = [f"'{letter}{level}" for level in range(5, 9) for letter in LETTERS]
        return tuple(it for it in left if it not in taken)[:1]

    def opened(self, place):
        """Has a function pointer bind a region that stood free in it."""
        free = free_regions(place.term)
        new = self.fresh(place)
        if not free or not new:
            return place.term
        one = self.rng.choice(free)
        return with_binder(renamed_in(place.term, one, new[0]), binds(place.term) + new)

    def form_changed(self, place):
        """Changes what a form says, drops or adds a part, or puts another term."""
        term = place.term
        which = self.rng.randrange(3)
        if term.form == "region":
            return self.region(place.scope)
        if term.form == "const":
            return None if term.data.endswith("u8") else self.const()
        if which == 0 and term.form in ("ref", "ptr"):
            return term._replace(data=not term.data)
        if which == 0 and term.form == "tuple" and term.parts:
            return term._replace(parts=term.parts[:-1])
        if which == 0 and term.form == "fn":
            return self.header_changed(term)
        if which == 0 and term.form == "dyn":
            return self.bounds_changed(term)
        if which == 1 and term.parts:
            inner = [it for it in places(term, place.scope) if it.path and it.term.form not in ("region", "const")]
            return self.rng.choice(inner).term if inner else None
        return self.type(self.rng.choice((0, 0, 1)), place.scope, place.sized)

    def header_changed(self, term):
        names, unsafe, abi, variadic = term.data
        which = self.rng.randrange(4)
        if which == 0:
            return term._replace(data=(names, not unsafe, abi, variadic))
        if which == 1:
            abi = self.rng.choice(("", "C", "system"))
        if which == 2:
            abi, variadic = "C", not variadic and len(term.parts) > 1
        if which == 3 and len(term.parts) > 1:
            term = term._replace(parts=term.parts[1:])
        return term._replace(data=(names, unsafe, abi, variadic and abi == "C" and len(term.parts) > 1))

    def bounds_changed(self, term):
        names, trait, declared, autos = term.data
        one = self.rng.choice(AUTOS)
        autos = tuple(it for it in AUTOS if (it in autos) != (it == one))
        if trait is None and not autos:
            return None
        return term._replace(data=(names, trait, declared, autos))


def with_binder(term, names):
    return term._replace(data=(names, *term.data[1:]))


def renamed_in(term, one, to):
    """Puts a region for another one in the parts that a term's binder is around."""
    change = renaming({one: to})
    return term._replace(
        parts=tuple(mapped(it, change) if is_bound_part(term, at) else it for at, it in enumerate(term.parts))
    )


def exchanged(term, one, other, rng):
    """Exchanges two regions in one part of a term."""
    at = rng.choice([it for it in range(len(term.parts)) if is_bound_part(term, it)])
    return put(term, (at,), mapped(term.parts[at], renaming({one: other, other: one})))


def renaming(names):
    return lambda leaf: region(names.get(leaf.data, leaf.data)) if leaf.form == "region" else leaf
