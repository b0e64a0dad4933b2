"""Terms that both a text of questions and a Rust program can spell.

A term has a form, what the form says besides its parts, and its parts: types, regions (`region`) and constants
(`const`) alike. Of a function pointer and a trait object the first thing said is the binder's list of names.
"""
import collections

Term = collections.namedtuple("Term", "form data parts")
# A part of a term by its path, with the lifetimes that may be named there, and whether it has to be `Sized`.
Place = collections.namedtuple("Place", "path term scope sized")

UNIT = Term("tuple", None, ())
NEVER = Term("plain", "!", ())

# The items of both preludes: of each parameter its variance and its sort.
ITEMS = {
    "Co": ["+T"],
    "Contra": ["-T"],
    "Inv": ["T"],
    "Flow": ["-A", "+B"],
    "Life": ["+'a"],
    "LifeSink": ["-'a"],
    "LifeCell": ["'a"],
    "Mixed": ["+'a", "-'b", "-T", "U", "const N"],
    "Grid": ["const N"],
    "Num": ["const B"],
}
# The traits of trait objects: their parameters, and the type that they declare.
TRAITS = {
    "Show": ([], None),
    "Into1": (["T"], None),
    "Near": (["'a", "T"], None),
    "Source": ([], "Out"),
    "Make": (["T"], "Made"),
}
AUTOS = ("Send", "Sync")

RUST_PRELUDE = """
#![allow(warnings)]
pub struct Co<T: ?Sized>(*const T);
pub struct Contra<T: ?Sized>(fn(*const T));
pub struct Inv<T: ?Sized>(*mut T);
pub struct Flow<A: ?Sized, B: ?Sized>(fn(*const A) -> *const B);
pub struct Life<'a>(&'a ());
pub struct LifeSink<'a>(fn(&'a ()));
pub struct LifeCell<'a>(*mut &'a ());
pub struct Mixed<'a, 'b, T: ?Sized, U: ?Sized, const N: usize>(fn(&'b ()) -> &'a (), fn(*const T), *mut U);
pub struct Grid<const N: usize>;
pub struct Num<const B: u8>;
pub trait Show {}
pub trait Into1<T: ?Sized> {}
pub trait Near<'a, T: ?Sized> {}
pub trait Source { type Out: ?Sized; }
pub trait Make<T: ?Sized> { type Made: ?Sized; }
""".lstrip()


def ask_prelude():
    """Gives the same items, for a text of questions, and the parameters of all pairs."""
    lines = [f"struct {name}<{', '.join(params)}>;" for name, params in ITEMS.items()]
    for name, (params, declared) in TRAITS.items():
        lines.append(f"trait {name}<{', '.join(params)}>;" if params else f"trait {name};")
        if declared:
            lines.append(f"type {name}::{declared};")
    lines += [f"auto trait {name};" for name in AUTOS]
    lines.append(f"param {', '.join([*REGIONS, *PARAMS, *(f'const {it}' for it in CONSTS)])};")
    lines += ["trait Alone;", "trait Over<X>;"]
    return "\n".join([*lines, f"variables {PROBE};", ""])


REGIONS = ("'a", "'b", "'c")
PARAMS = ("T", "U", "V")
CONSTS = ("N", "M")
# Variables for types beside those that stand for the parameters of two headers, which each question has in universe 0.
ALL, PROBE = f"?{2 * len(PARAMS)}", f"?{2 * len(PARAMS) + 1}"
STATIC = "'static"


def region(name):
    return Term("region", name, ())


def plain(name):
    return Term("plain", name, ())


def item(name, *parts):
    return Term("item", name, parts)


def binds(term):
    """Gives the names that a term's binder gives."""
    return term.data[0] if term.form in ("fn", "dyn") else ()


def is_bound_part(term, at):
    """Says whether the binder of a term is around its part at this place: the region of a trait object is outside."""
    return term.form == "fn" or term.form == "dyn" and at != len(term.parts) - 1


def is_sized(term):
    return term.form not in ("slice", "dyn", "alias") and term.data != "str"


def places(term, scope, sized=True, path=()):
    """Gives each part of a term, and the term, in the order of a visit."""
    yield Place(path, term, scope, sized)
    for at, part in enumerate(term.parts):
        inner = scope + binds(term) if is_bound_part(term, at) else scope
        wants = term.form in ("tuple", "array", "slice", "fn")
        yield from places(part, inner, wants, (*path, at))


def put(term, path, new):
    """Gives a term with another one at a place."""
    if not path:
        return new
    parts = list(term.parts)
    parts[path[0]] = put(parts[path[0]], path[1:], new)
    return term._replace(parts=tuple(parts))


def mapped(term, change):
    """Gives a term with each leaf changed."""
    if not term.parts:
        return change(term)
    return term._replace(parts=tuple(mapped(it, change) for it in term.parts))


def leaves(term, form):
    """Gives the names of the leaves of a form, each once, in the order of a visit."""
    if term.form == form:
        return [term.data]
    return list(dict.fromkeys(name for part in term.parts for name in leaves(part, form)))


def free_regions(term, bound=()):
    """Gives the regions that stand in a term and that no binder in it binds, each once."""
    if term.form == "region":
        return [] if term.data in bound else [term.data]
    found = {}
    for at, part in enumerate(term.parts):
        inner = bound + binds(term) if is_bound_part(term, at) else bound
        found.update(dict.fromkeys(free_regions(part, inner)))
    return list(found)


def size(term):
    return 1 + len(binds(term)) + sum(map(size, term.parts))


def is_valid_type(term, scope, sized=True):
    """Says whether Rust takes a type: names are known and not given twice, and outputs use what inputs do."""
    return term != NEVER and all(is_valid_place(it) for it in places(term, scope, sized))


def is_valid_place(place):
    term, names = place.term, binds(place.term)
    if term.form == "region":
        return term.data in place.scope or term.data == STATIC
    if len(set(names)) != len(names) or set(names) & set(place.scope):
        return False
    if place.sized and not is_sized(term):
        return False
    if term.form != "fn" and NEVER in term.parts:
        return False
    given = inputs_of(term)
    if given is None:
        return True
    inputs, output = given
    if NEVER in inputs:
        return False
    used = {name for it in inputs for name in free_regions(it)}
    return all(name in used for name in free_regions(output) if name in names)


def inputs_of(term):
    """Gives what may name what a binder binds first, and what may name only that: an output, a declared type."""
    if term.form == "fn":
        return term.parts[:-1], term.parts[-1]
    if term.form == "dyn" and term.data[2]:
        return term.parts[:-2], term.parts[-2]
    return None


def spell(term, rust):
    """Writes a term as Rust has it, or as a text of questions has it."""
    parts = [spell(it, rust) for it in term.parts]
    if term.form in ("plain", "param", "var", "region", "const"):
        return term.data
    if term.form == "alias":
        return f"<{term.data} as Source>::Out"
    if term.form == "tuple":
        return f"({parts[0]},)" if len(parts) == 1 else f"({', '.join(parts)})"
    if term.form == "array":
        return f"[{parts[0]}; {parts[1]}]"
    if term.form == "slice":
        return f"[{parts[0]}]"
    if term.form == "ref":
        return f"&{parts[0]} {'mut ' if term.data else ''}{parts[1]}"
    if term.form == "ptr":
        return f"*{'mut' if term.data else 'const'} {parts[0]}"
    if term.form == "fn":
        return spell_fn(term, parts, rust)
    if term.form == "dyn":
        return spell_dyn(term, parts)
    return f"{term.data}<{', '.join(parts)}>" if parts else term.data


def spell_binder(names):
    return f"for<{', '.join(names)}> " if names else ""


def spell_fn(term, parts, rust):
    names, unsafe, abi, variadic = term.data
    header = f"{spell_binder(names)}{'unsafe ' if unsafe else ''}" + (f'extern "{abi}" ' if abi else "")
    more = ["..." if rust else ".."] if variadic else []
    output = "" if term.parts[-1] == UNIT else f" -> {parts[-1]}"
    return f"{header}fn({', '.join(parts[:-1] + more)}){output}"


def spell_dyn(term, parts):
    names, trait, declared, autos = term.data
    *args, outlived = parts
    if declared:
        args[-1] = f"{declared} = {args[-1]}"
    first = [f"{spell_binder(names)}{trait}" + (f"<{', '.join(args)}>" if args else "")] if trait else []
    return f"(dyn {' + '.join([*first, *autos, outlived])})"
