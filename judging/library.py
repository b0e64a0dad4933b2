"""Reads what is known of the standard library: a text of statements, in a shorter form than that of questions."""
import collections
import functools
import os
import re

from judging.aliases import cut
from judging.asking import split_list

FILE = os.path.join(os.path.dirname(os.path.realpath(__file__)), "library.txt")
# A word, which isn't the name of a type that a trait declares.
WORD = re.compile(r"(?<!::)'?\b\w+")
ITEM = re.compile(r"(?:(auto|unsized) )?(struct|trait) (\w+)(?:<(.*)>)?")
# The end of a statement, which the length of an array isn't.
END = re.compile(r";(?![^\[\]]*\])")

# Parameters as (sort, name, default), by the name of a type or a trait; the types that a trait declares; what a trait
# states of what implements it, and of these types; impls.
PARTS = "types unsized traits autos declared supers stated impls never outside aliases fundamental reflexive"
Library = collections.namedtuple("Library", PARTS)
# What an impl has: parameters as (sort, name); its trait with arguments, the type, and bounds, each as text; what the
# types of its trait are, by their names.
Impl = collections.namedtuple("Impl", "params trait of asks gives")


def sort_of(text):
    """Gives the sort and the name of a parameter, as it is written in a list."""
    if text.startswith("'"):
        return "lifetime", text
    return ("const", text[6:]) if text.startswith("const ") else ("type", text)


def param_text(sort, name):
    return f"const {name}" if sort == "const" else name


def params_of(text):
    """Reads a list of parameters, which may have defaults."""
    cut = [it.partition(" = ") for it in split_list(text or "")]
    return [(*sort_of(name), default) for name, _, default in cut]


def put(text, values):
    """Puts other texts for words."""
    return WORD.sub(lambda it: values.get(it[0], it[0]), text)


def split_impl(text):
    """Cuts the text of an impl: its parameters, traits and types, what its trait's types are, and bounds."""
    params, end = [], 5
    if text.startswith("impl<"):
        end = text.index("> ") + 2
        params = [sort_of(it) for it in split_list(text[5 : end - 2])]
    heads, _, asks = text[end:].partition(" where ")
    traits, _, types = heads.partition(" for ")
    types, _, gives = types.partition(" { ")
    gives = [tuple(it.split(" = ")) for it in split_list(gives.removesuffix(" }"))]
    return params, split_list(traits), split_list(types), gives, split_list(asks)


def impls_of(text):
    """Gives the impls that a statement says: one of each trait for each type."""
    params, traits, types, gives, asks = split_impl(text)
    for trait in traits:
        for of in types:
            said = []
            for bound in asks:
                who, what = cut(bound, ": ")
                said.append(f"{who}: {put(trait, {'Self': who})}" if what == "it" else bound)
            used = set(WORD.findall(" ".join([of, trait, *said, *(it for _, it in gives)])))
            given = tuple((item, put(ty, {"Self": of})) for item, ty in gives)
            yield Impl([it for it in params if it[1] in used], put(trait, {"Self": of}), of, said, given)


def form_head(text):
    """Gives what is the same of all types of a form: a name, or signs."""
    if text.startswith("&"):
        return "&mut" if " mut " in text else "&"
    if text[0] in "[(":
        return text[0] + re.sub(r"[^;,]", "", text)
    return text.partition("<")[0]


@functools.lru_cache(maxsize=None)
def library():
    """Gives the library, read once."""
    lists = [collections.defaultdict(list) for _ in range(3)]
    found = Library({}, set(), {}, set(), *lists, [], set(), set(), {}, set(), set())
    with open(FILE, encoding="utf-8") as it:
        lines = [line for line in it.read().splitlines() if not line.startswith("//")]
    for text in END.split(" ".join(" ".join(lines).split())):
        text = text.strip()
        kind, _, rest = text.partition(" ")
        if text.startswith("impl"):
            found.impls.extend(impls_of(text))
        elif kind in ("never", "outside"):
            traits, _, types = rest.partition(" for ")
            pairs = ((trait, form_head(of)) for trait in split_list(traits) for of in split_list(types))
            getattr(found, kind).update(pairs)
        elif kind == "super":
            trait, _, stated = rest.partition(": ")
            found.supers[trait].extend(split_list(stated))
        elif kind in ("fundamental", "reflexive"):
            getattr(found, kind).update(split_list(rest))
        elif kind == "alias":
            found.aliases.update([rest.split(" = ")])
        elif kind == "type":
            item, _, stated = rest.partition(": ")
            trait, _, item = item.partition("::")
            found.declared[trait].append(item)
            found.stated[trait].extend(split_list(stated))
        elif kind:
            kind, of, name, params = ITEM.fullmatch(text).groups()
            (found.traits if of == "trait" else found.types)[name] = params_of(params)
            if kind:
                (found.autos if kind == "auto" else found.unsized).add(name)
    return found
