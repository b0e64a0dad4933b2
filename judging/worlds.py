"""Rules for what a crate leaves open: what isn't spelled, and what other crates may have."""
from judging.aliases import closing, comes_to, cut
from judging.crate import ELSEWHERE, SIZED, generic, impl_text, is_whole, names_first, numbered
from judging.forms import foreign_forms
from judging.library import form_head, library


def param_names(crate):
    """Declares the names of all parameters."""
    names = [f"const {name}" if sort == "const" else name for name, sort in crate.of.sorts.items()]
    return f"param {', '.join(names)};" if names else ""


def spelled(crate):
    """Gives the impls that are spelled: what follows by them does follow, but for regions and `Sized`."""
    return [f"{impl_text(it)};" for it in crate.impls if it.of and is_whole(it.lacks)]


def all_own(crate):
    """Gives beside the others as far as they are spelled, and all types for what isn't: an impl's head, or a type of
    its trait."""
    rules = [f"{impl_text(widened(crate, it))};" for it in crate.impls if it.of]
    rules += [f"{impl_text(it)};" for it in crate.unknown_sizes]
    return rules + headless(crate) + autos(crate)


def is_open(crate, impl):
    """Says whether it isn't spelled what a type of an impl's trait is."""
    return any(item in types_of(crate, impl.name) for item, _ in impl.unsaid)


def widened(crate, impl):
    """Gives an impl with any types for those that aren't spelled."""
    free = [(item, f"Z{at}") for at, (item, _) in enumerate(impl.unsaid) if item in types_of(crate, impl.name)]
    params = (*impl.params, *(("type", name) for _, name in free))
    return impl._replace(params=params, gives=(*impl.gives, *free))


def headless(crate):
    """Gives an impl for each whose head isn't spelled: of all types, or over all."""
    found = []
    for name, of, trait, params in crate.headless:
        if name in crate.traits:
            own = [*params, *([] if of else [("type", "X")])]
            found.append(rule(crate, crate.traits[name], of or "X", own, trait))
    return found


def autos(crate):
    """Gives an impl of each auto trait for each type of the crate of which the description doesn't say whether it has it."""
    found = []
    for trait in crate.traits.values():
        for name, params in crate.types.items() if trait.auto else ():
            if crate.is_local_type(name) and (trait.name, int(crate.ids[name])) not in crate.told_of:
                args = f"<{', '.join(it for _, it in params)}>" if params else ""
                found.append(rule(crate, trait, name + args, params))
    return found


def types_of(crate, trait):
    return crate.of.declared.get(trait, ())


# The traits of types that are of other crates, and of those in which there is none of the crate's own.
HEAD, WHOLE = "type_of_others", "types_of_others"


def rule(crate, trait, of, params, over=None, marker=None):
    """Gives an impl of a trait for a type, whatever its types are, and whatever it is over, if that has a trait."""
    own = [(sort, numbered(sort, at, ("'y", "Y", "M"))) for at, (sort, _) in enumerate([] if over else trait.params)]
    args = f"<{', '.join(name for _, name in own)}>" if own else ""
    gives = [(item, f"Z{at}") for at, item in enumerate(types_of(crate, trait.name))]
    given = f" {{ {', '.join(' = '.join(it) for it in gives)} }}" if gives else ""
    params = [*params, *own, *(("type", name) for _, name in gives)]
    asks = where(own, marker) if marker else ""
    return f"impl{generic(params)} {over or trait.name + args} for {of}{given}{asks};"


def where(params, marker):
    """Asks a trait of all types among parameters."""
    asks = [f"{name}: {marker}" for sort, name in params if sort == "type"]
    return f" where {', '.join(asks)}" if asks else ""


def perhaps(crate):
    """Gives beside an impl of each other crate's trait for each form of types that isn't the crate's own.

    Where the text of the library has no such trait, it may be of all types, and so parameters have it too. A trait
    object has the traits that it names.
    """
    forms = foreign_forms(crate)
    of_params = [name for name, sort in crate.of.sorts.items() if sort == "type"]
    rules = [f"trait {HEAD};", f"trait {WHOLE};", *all_own(crate)]
    rules += [f"impl {marker} for {it};" for it in of_params for marker in (HEAD, WHOLE)]
    for of, params in forms:
        start = f"impl{generic(params)}"
        rules += [f"{start} {HEAD} for {of};", f"{start} {WHOLE} for {of}{where(params, WHOLE)};"]
    asked = asked_traits(crate)
    for it in crate.traits.values():
        if it.name in asked and it.name != SIZED:
            rules += [rule(crate, it, *form) for form in perhaps_for(crate, it, forms)]
            if not it.local and it.place == ELSEWHERE:
                rules += [rule(crate, it, of, []) for of in of_params]
    return list(dict.fromkeys(rules))


def of_form(of, params):
    """Says that a form of types is none of the crate's own."""
    return f"impl{generic(params)} {HEAD} for {of}"


def for_others(crate, trait):
    """Gives an impl of a trait for all types that are none of the crate's own, whatever its types are."""
    return rule(crate, trait, "X", [("type", "X")]).removesuffix(";") + f" where X: {HEAD}"


def perhaps_for(crate, trait, forms):
    """Gives the forms of types that may have a trait, and what is to be so of what that is over."""
    known = {crate.named.get(it, it): it for it in library().traits}.get(trait.name)
    types = {crate.named.get(it, it): it for it in library().types}
    for of, params in forms:
        pair = (known, types.get(form_head(of), form_head(of)))
        is_never = pair in library().never or known in library().fundamental and "fn(" not in of
        if of.startswith("(dyn ") or not trait.local and not is_never:
            marker = HEAD if known in library().reflexive else None
            yield of, params, None, WHOLE if pair in library().outside else marker


def asked_traits(crate):
    """Gives the traits that a bound is by, or that another one states."""
    bounds = [ask for it in crate.impls for ask in it.asks]
    bounds += [ask for it in crate.traits.values() for ask in (*it.supers, *it.states)]
    return {names_first(trait_of(it)) for it in bounds}


def trait_of(clause):
    """Gives the trait of which a clause speaks, with its arguments."""
    said = comes_to(clause)
    if not said:
        return cut(clause, ": ")[1]
    return cut(said[0][1 : closing(said[0], 0)], " as ")[1]
