"""The headers of impls: the types that an impl is of, over parameters of its own, which may stand for any type."""
from judging.asking import split_list
from judging.terms import (
    ALL,
    CONSTS,
    PARAMS,
    REGIONS,
    STATIC,
    Term,
    free_regions,
    is_valid_type,
    leaves,
    mapped,
    places,
    put,
    spell,
)

# The parameters that are `?Sized` where they may be.
UNSIZED = ("U", "V")
# The traits of headers in a text of questions, by how many types a header has.
TRAITS_OF = {1: "Alone", 2: "Over"}


def make(maker):
    """Makes the types of a header: what implements, and often what the trait is over."""
    return Term("list", None, tuple(maker.valid_type(3, False) for _ in range(maker.rng.choice((1, 1, 2)))))


def changed(maker, header, times=None):
    """Changes a few places, and puts parameters for types or types for parameters."""
    made = []
    for it in header.parts:
        it = maker.changed(it, False, times)
        for _ in range(maker.rng.choice((0, 0, 1, 1, 2))):
            it = exchanged(maker, it)
        made.append(it)
    return Term("list", None, tuple(made))


def changed_only(maker, header):
    return header._replace(parts=tuple(maker.changed(it, False) for it in header.parts))


def instantiated(maker, header):
    """Puts a type for each parameter, a region for each region, and a constant for each constant."""
    left = {}

    def change(leaf):
        if leaf.form not in ("param", "region", "const") or leaf.data not in (*PARAMS, *REGIONS, *CONSTS):
            return leaf
        if leaf not in left:
            made = maker.valid_type(1, True) if leaf.form == "param" else maker.const()
            left[leaf] = maker.region(()) if leaf.form == "region" else made
        return left[leaf]

    made = mapped(header, change)
    return made if is_header(made) else header


def exchanged(maker, term):
    found = [it for it in places(term, maker.regions, False) if it.term.form not in ("region", "const")]
    params = [it for it in found if it.term.form == "param"]
    if params and maker.chance(2):
        place = maker.rng.choice(params)
        new = maker.valid_type(1, place.sized)
    else:
        place = maker.rng.choice(found)
        new = Term("param", maker.rng.choice(PARAMS), ())
    new = put(term, place.path, new)
    return new if is_valid_type(new, REGIONS, False) else term


def aliased(maker, header):
    """Puts what a parameter declares, as a trait's type, at a place; the parameter stands elsewhere too."""
    params = leaves(header, "param")
    if not params:
        return header
    part = maker.rng.randrange(len(header.parts))
    places_of = [it for it in places(header.parts[part], REGIONS, False) if it.term.form not in ("region", "const")]
    new = put(header, (part, *maker.rng.choice(places_of).path), Term("alias", maker.rng.choice(params), ()))
    return new if is_header(new) else header


def has_alias(header):
    return bool(leaves(header, "alias"))


def may_be_unsized(header):
    """Gives the parameters that are declared `?Sized`: where they stand, no type has to be sized."""
    wants = {it.term.data for it in places(header, REGIONS, False) if it.term.form == "param" and it.sized}
    return [it for it in UNSIZED if it not in wants]


def named(header):
    """Gives the regions, the parameters and the constants that a header uses, in the order of its list."""
    regions = sorted(it for it in free_regions(header) if it != STATIC)
    consts = sorted(it for it in leaves(header, "const") if it in CONSTS)
    return regions, sorted(leaves(header, "param")), consts


def generics(header):
    """Declares what a header uses, as an impl does."""
    regions, params, consts = named(header)
    unsized, bound = may_be_unsized(header), leaves(header, "alias")
    bounds = [[name for name, has in (("?Sized", unsized), ("Source", bound)) if it in has] for it in params]
    params = [f"{it}: {' + '.join(some)}" if some else it for it, some in zip(params, bounds)]
    return f"<{', '.join([*regions, *params, *(f'const {it}: usize' for it in consts)])}>"


def impl_of(header, what):
    """Writes an impl's head as a text of questions has it."""
    regions, params, consts = named(header)
    names = [*regions, *params, *(f"const {it}" for it in consts)]
    return f"impl<{', '.join(names)}> {what}" if names else f"impl {what}"


def of_trait(trait, header, rust=True):
    """Writes which trait is implemented for what."""
    self_type, *args = (spell(it, rust) for it in header.parts)
    return f"{trait}<{args[0]}> for {self_type}" if args else f"{trait} for {self_type}"


def trait_of(trait, header):
    return f"trait {trait}<X: ?Sized> {{}}" if len(header.parts) > 1 else f"trait {trait} {{}}"


def varied(header, after, after_regions=0):
    """Puts variables for the parameters of a header, those behind so many of each sort; of regions for those it uses."""
    names = {it: f"?{after + at}" for at, it in enumerate(PARAMS)}
    names |= {it: f"?c{after + at}" for at, it in enumerate(CONSTS)}
    names |= {it: f"'?{after_regions + at}" for at, it in enumerate(named(header)[0])}

    def change(leaf):
        if leaf.data not in names or leaf.form not in ("param", "const", "region"):
            return leaf
        return leaf._replace(form="var" if leaf.form == "param" else leaf.form, data=names[leaf.data])

    return mapped(header, change)


def regions_made(*headers):
    """Gives how many variables for regions there are before types are related: all up to the last that is named."""
    found = [int(it[2:]) for header in headers for it in free_regions(header) if it.startswith("'?")]
    return max(found, default=-1) + 1


def args(header):
    return f"[{', '.join(spell(it, False) for it in header.parts)}]"


def sized_variables(header, after):
    """Gives the variables for types of which a header says that they are sized."""
    unsized = may_be_unsized(header)
    return [f"?{after + PARAMS.index(it)}" for it in leaves(header, "param") if it not in unsized]


def is_unsized(text):
    """Says whether a type that was printed is a slice, text or a trait object."""
    return text == "str" or text.startswith("dyn ") or text.startswith("[") and is_slice(text)


def is_slice(text):
    depth = 0
    for sign in text:
        depth += (sign == "[") - (sign == "]")
        if sign == ";" and depth == 1:
            return False
    return True


def is_header(header):
    bound = set(leaves(header, "alias")) <= set(leaves(header, "param"))
    return header.form == "list" and bound and all(is_valid_type(it, REGIONS, False) for it in header.parts)


def asks_sized(variables):
    """Asks what some variables have come to stand for: another one is bound to all of them."""
    return [f"then {ALL} == ({', '.join(variables)},)"] if variables else []


def meets_unsized(answers):
    """Says whether a parameter that is sized would have to stand for a type that is not."""
    return any(map(is_unsized, split_list(answers[1].bound.get(ALL, "()")[1:-1]))) if answers[1:] else False
