"""Forms of types: those that are not a crate's own, and which of all are sized."""
from judging import headers
from judging.bounds import Bounds
from judging.described import Scope
from judging.library import WORD, library

# The parameters of forms, as `described.form_of` names them.
FORM_PARAMS = [("lifetime", "'x0"), ("const", "N1"), *(("type", f"X{at}") for at in range(32))]
# The types of the library that are sized whatever they are over.
ALWAYS = {"Box", "Rc", "Arc", "Cow", "PhantomData"}


def over(name, params):
    """Spells an item over its parameters."""
    return name + (f"<{', '.join(it for _, it in params)}>" if params else "")


def foreign_forms(crate):
    """Gives the forms of types that are not the crate's own, with their parameters."""
    items = [(over(name, params), params) for name, params in crate.types.items() if not crate.is_local_type(name)]
    return items + plain_forms(crate)


def plain_forms(crate):
    """Gives the forms of types that are no items, with their parameters."""
    found = []
    for text, params in crate.of.forms.items():
        words = set(WORD.findall(text))
        own = [it for it in [*params, *FORM_PARAMS] if it[1] in words]
        found.append((text, list(dict.fromkeys(own))))
    return found


def sized_forms(crate):
    """Gives for each form of types what is known of its size: how it is written, its parameters, which of these have to
    be sized for it to be, if that is known, and whether it may be sized without."""
    found = [(of, params, [], False) for of, params in plain_forms(crate) if not is_unsized_form(of)]
    here, unsized = {crate.named.get(it, it): it for it in library().types}, unsized_items(crate)
    for name, params in crate.types.items():
        id, of = crate.ids.get(name), over(name, params)
        types = [it for sort, it in params if sort == "type"]
        if id in unsized or here.get(name) in library().unsized:
            continue
        if id and crate.is_local_type(name):
            some = unsized_params(crate, crate.of.index[id])
            types = [it for at, (_, it) in enumerate(params) if at in some]
            found.append((of, params, types, bool(types)))
        elif name not in here:
            found.append((of, params, None, True))
        elif here[name] in ALWAYS:
            found.append((of, params, [], False))
        else:
            found.append((of, params, types, bool(types)))
    return found


def is_unsized_form(of):
    return headers.is_unsized(of.removeprefix("("))


def unsized_params(crate, item):
    """Gives the places of the parameters of an item that may be unsized."""
    generics = next(iter(item["inner"].values()))["generics"]
    scope = Scope(crate.of, generics["params"])
    count, bounds = len(scope.params), Bounds(scope)
    bounds.add_generics(generics)
    return {at for at, (_, name) in enumerate(scope.params[:count]) if name in bounds.unsized}


def unsized_items(crate):
    """Gives the items whose last field is unsized, each by its number."""
    found, before = set(), None
    while before != len(found):
        before = len(found)
        found |= {id for id, item in crate.of.index.items() if has_unsized(crate, item, found)}
    return found


def has_unsized(crate, item, found):
    """Says whether the last field of a struct is unsized, where these are known to be."""
    kind = item["inner"].get("struct", {}).get("kind", {})
    if not isinstance(kind, dict):
        return False
    fields = kind.get("plain", {}).get("fields", kind.get("tuple"))
    field = crate.of.index.get(str(fields[-1])) if fields else None
    ty = field["inner"]["struct_field"] if field else {}
    if ty.get("primitive") == "str" or "slice" in ty or "dyn_trait" in ty:
        return True
    return str(ty.get("resolved_path", {}).get("id")) in found
