"""Reads a crate as rustdoc describes it in JSON: names, types and bounds, as a text of questions spells them."""
import contextlib
import json
import os
import re

from judging.aliases import cut, spelled
from judging.asking import split_list
from judging.library import library, put

# Why something is not spelled.
DECLARED = "a type that a trait declares"
GENERIC = "arguments of a type that a trait declares"
BINDER = "a bound under a binder"
SIZED = "a bound by Sized"
OUTLIVES = "a bound by a lifetime"
OF_ALIAS = "a bound of a type that a trait declares"
NEGATIVE = "a negative impl"
CONST = "a constant"
ALIAS = "an alias of another crate"
UNKNOWN = "parameters that are not described"
FORM = "a form of types"

# The format of descriptions that is read.
FORMAT = 57

PLAIN = set("bool char str i8 i16 i32 i64 i128 isize u8 u16 u32 u64 u128 usize f16 f32 f64 f128".split())
# The words of the language that could be a name.
WORDS = set(
    "after args as assume assumptions at auto binding budget closure components const coroutine count dyn elaborate"
    " error escapes expr extern fn fold for goals impl implied in infer infers inherent is key let limit may methods"
    " mode mut null of one opaque open overlap param prove pulls regions repeat rigid self sized skip solve solver stop"
    " struct super supertraits then trait type unify unsafe variables visit walk where with witness".split()
)
ABIS = {"Rust": "", "C": 'extern "C" ', "System": 'extern "system" '}
KINDS = ("struct", "enum", "union", "trait", "type_alias")


class Unspelled(Exception):
    """What the language has no words for, or this reader no knowledge of; its text says why."""


def angled(args):
    """Gives what stands in the angle brackets of a path: arguments and constraints."""
    return args["angle_bracketed"] if args and "angle_bracketed" in args else {"args": [], "constraints": []}


class Described:
    """A description: its items and paths, and the name of each."""

    def __init__(self, file):
        with open(file, encoding="utf-8") as it:
            self.doc = json.load(it)
        if not isinstance(self.doc, dict) or self.doc.get("format_version") != FORMAT:
            raise ValueError(f"{file} is no description of a crate in the format {FORMAT}")
        self.index, self.paths = self.doc["index"], self.doc["paths"]
        root = self.index[str(self.doc["root"])]
        self.name, self.crate = root["name"], root["crate_id"]
        self.version = self.doc["crate_version"] or ""
        self.top = os.path.dirname(os.path.dirname(root["span"]["filename"])) if root["span"] else ""
        # The parameters of other crates' items, as many as were seen of each; the sort of each name of a parameter.
        self.seen, self.sorts, self.names, self.taken = {}, {}, {}, set()
        # Types as they begin that are no items, each with the parameters of what it stood in.
        self.forms = {}
        # Of traits: which types each declares, its parameters, and what it states of what implements it.
        self.declared, self.stated = {}, {}
        self.local_names()

    def local_names(self):
        found = {}
        for id, it in sorted(self.paths.items(), key=lambda it: int(it[0])):
            if it["crate_id"] == self.crate and it["kind"] in KINDS:
                found.setdefault(it["path"][-1], []).append((id, it["path"]))
        for name, some in found.items():
            for id, path in some:
                self.give_name(id, name if len(some) == 1 and name not in WORDS else "_".join(path[1:]))

    def give_name(self, id, name):
        """Gives an item a name that no other has: of those in bodies several may have one path."""
        tries = (f"{name}_{number}" if number else name for number in range(len(self.names) + 2))
        self.names[id] = next(it for it in tries if it not in self.taken)
        self.taken.add(self.names[id])
        return self.names[id]

    def kind_of(self, id):
        it = self.index.get(str(id))
        return next(iter(it["inner"])) if it else self.paths.get(str(id), {}).get("kind")

    def is_local(self, id):
        it = self.index.get(str(id)) or self.paths.get(str(id))
        return it is not None and it["crate_id"] == self.crate

    def is_known(self, id):
        """Says whether the text of the standard library has an item, which no other here hides."""
        it = self.paths.get(str(id))
        if not it or self.is_local(id) or it["path"][0] not in ("core", "alloc", "std"):
            return False
        items = library().traits if it["kind"] == "trait" else library().types
        return it["path"][-1] in items

    def name_of(self, id, path):
        """Gives the name of an item: the last one where that is clear, else all of its path."""
        id = str(id)
        if id not in self.names:
            parts = self.paths[id]["path"] if id in self.paths else path.replace("$crate", "").strip(":").split("::")
            short = parts[-1]
            clear = self.is_known(id) and short not in self.taken
            return self.give_name(id, short if clear else "_".join(parts))
        return self.names[id]

    def library_names(self):
        """Gives how the items of the library are named here, where that isn't by their last names."""
        known = [id for id in self.names if self.is_known(id)]
        local = {name for id, name in self.names.items() if self.is_local(id)}
        hidden = {it: f"std_{it}" for it in (*library().types, *library().traits) if it in local}
        return {**hidden, **{self.paths[id]["path"][-1]: self.names[id] for id in known}}

    def place(self, item):
        """Says where an item stands in the source of its crate."""
        span = item["span"]
        if not span:
            return "another crate"
        return f"{span['filename'].removeprefix(self.top).lstrip('/')}:{span['begin'][0]}"

    def free_name(self, sort, name):
        """Gives a name for a parameter, which names no item and no parameter of another sort."""
        items = (self.taken, WORDS, library().types, library().traits)
        while any(name in some for some in items) or self.sorts.setdefault(name, sort) != sort:
            name += "_"
        return name

    def declarer(self, of, trait, item):
        """Gives the trait that declares a type: one that a type has, or one that this states."""
        return self.above(of, trait, lambda it: item in self.declared.get(it, ())) or self.note_declared(trait, item)

    def note_declared(self, trait, item):
        """Takes a type for one of a trait's own; of other crates' traits none is described."""
        self.declared.setdefault(cut(trait, "<")[0], []).append(item)
        return trait

    def above(self, of, trait, is_it, seen=frozenset()):
        """Gives the trait of which that is so: one that a type has, or one that this states; or nothing."""
        name = re.match(r"\w+", trait)[0]
        if is_it(name):
            return trait
        params, stated = self.stated.get(name, ((), ()))
        values = dict(zip([it for _, it in params], split_list(trait[len(name) + 1 : -1])), Self=of)
        supers = [cut(put(it, values), ": ") for it in stated if name not in seen]
        found = (self.above(of, what, is_it, seen | {name}) for who, what in supers if who == of and what)
        return next((it for it in found if it), None)

    def params_of(self, id):
        """Gives an item's parameters as (sort, name, default), or nothing where they are not described."""
        item = self.index.get(str(id))
        if item:
            inner = next(iter(item["inner"].values()))
            return [described_param(it) for it in inner["generics"]["params"]]
        if self.is_known(id):
            kind, name = self.paths[str(id)]["kind"], self.paths[str(id)]["path"][-1]
            return (library().traits if kind == "trait" else library().types)[name]
        return None

    def sorts_of(self, id):
        """Gives the sorts of an item's parameters, as far as they are known."""
        params = self.params_of(id)
        return self.seen.get(str(id), []) if params is None else [it[0] for it in params]


def described_param(it):
    kind = next(iter(it["kind"]))
    if it["kind"].get("type", {}).get("is_synthetic"):
        raise Unspelled(FORM)
    return kind, it["name"], it["kind"][kind].get("default") or ""


def form_of(kind, it, text):
    """Gives how types of a form are written; of function pointers and trait objects, one that was seen."""
    mut = kind in ("raw_pointer", "borrowed_ref") and it["is_mutable"]
    if kind == "tuple":
        return "(X0,)" if len(it) == 1 else f"({', '.join(f'X{at}' for at in range(len(it)))})"
    return {
        "slice": "[X0]",
        "array": "[X0; N1]",
        "raw_pointer": "*mut X0" if mut else "*const X0",
        "borrowed_ref": "&'x0 mut X1" if mut else "&'x0 X1",
    }.get(kind, text)


class Scope:
    """The parameters of an item, under which types are spelled: as the source names them, as far as that is free."""

    def __init__(self, described, params, me=None):
        self.of, self.names, self.params, self.me, self.made = described, {}, [], me, None
        # The bounds that are known of what is in it.
        self.said = []
        for it in params:
            self.declare(next(iter(it["kind"])), it["name"])

    def declare(self, sort, name, source=None):
        """Declares a parameter, which the source names so, or otherwise."""
        free = self.of.free_name(sort, name)
        self.names[source or name] = free
        self.params.append((sort, free))

    def region(self, name):
        if name == "'static" or name in self.names:
            return self.names.get(name, name)
        if name not in (None, "'_"):
            raise Unspelled(BINDER)
        if self.made is not None:
            self.made.append(f"'of{len(self.made)}")
            return self.made[-1]
        fresh = f"'some{len(self.params)}"
        self.declare("lifetime", fresh)
        return fresh

    def const(self, given, ty="usize"):
        text = (given if isinstance(given, str) else given["expr"]).strip("{} ")
        if text in self.names:
            return self.names[text]
        number = re.fullmatch(r"(\d+)(?:_?([ui]\w+))?", text)
        if not number or ty not in PLAIN - {"bool", "char", "str", "f32", "f64"}:
            raise Unspelled(CONST)
        return number[1] if ty == "usize" else number[1] + ty

    def ty(self, it, outer="'static"):
        """Spells a type; a trait object that stands right behind a reference has its region."""
        kind, x = next(iter(it.items()))
        spell = getattr(self, f"spell_{kind}", None)
        if spell is None:
            raise Unspelled(FORM)
        text = spell(x, outer) if kind == "dyn_trait" else spell(x)
        form = form_of(kind, x, text)
        if kind not in ("generic", "resolved_path", "qualified_path") and " as " not in form:
            self.of.forms[form] = self.params
        return text

    def spell_primitive(self, name):
        if name not in PLAIN and name != "never":
            raise Unspelled(FORM)
        return "!" if name == "never" else name

    def spell_generic(self, name):
        if name == "Self" and self.me:
            return self.me
        if name not in self.names:
            raise Unspelled(BINDER)
        return self.names[name]

    def spell_tuple(self, parts):
        parts = [self.ty(it) for it in parts]
        return f"({parts[0]},)" if len(parts) == 1 else f"({', '.join(parts)})"

    def spell_slice(self, part):
        return f"[{self.ty(part)}]"

    def spell_array(self, it):
        return f"[{self.ty(it['type'])}; {self.const(it['len'])}]"

    def spell_raw_pointer(self, it):
        return f"*{'mut' if it['is_mutable'] else 'const'} {self.ty(it['type'])}"

    def spell_borrowed_ref(self, it):
        region = self.region(it["lifetime"])
        return f"&{region} {'mut ' if it['is_mutable'] else ''}{self.ty(it['type'], region)}"

    def spell_resolved_path(self, it):
        item = self.of.index.get(str(it["id"]))
        if item and "type_alias" in item["inner"]:
            return self.aliased(it, item["inner"]["type_alias"])
        if self.of.kind_of(it["id"]) == "type_alias":
            known = library().aliases.get(it["path"].split("::")[-1])
            if known is None or self.of.paths[str(it["id"])]["path"][0] not in ("core", "std"):
                raise Unspelled(ALIAS)
            return known
        args = self.args(it)
        name = self.of.name_of(it["id"], it["path"])
        return f"{name}<{', '.join(args)}>" if args else name

    def aliased(self, it, alias):
        """Spells what an alias of the crate's own stands for."""
        args = self.args(it)
        inner = Scope(self.of, [], self.me)
        inner.params, inner.said = self.params, self.said
        inner.names = dict(zip([p["name"] for p in alias["generics"]["params"]], args))
        return inner.ty(alias["type"])

    def spell_qualified_path(self, it):
        if not it["trait"]:
            raise Unspelled(FORM)
        if angled(it["args"])["args"]:
            raise Unspelled(GENERIC)
        of = self.ty(it["self_type"])
        return self.alias(of, self.trait_said(it["trait"], of), it["name"])

    def trait_said(self, it, of):
        """Spells the trait of an alias; if its arguments are left out, as a bound has it."""
        name = self.of.name_of(it["id"], it["path"])
        said = [] if it["args"] else [cut(one, ": ") for one in self.said]
        traits = [what for who, what in said if who == of and what]
        found = (self.of.above(of, trait, lambda one: one == name) for trait in traits)
        return next((trait for trait in found if trait), None) or self.trait(it, of)

    def alias(self, of, trait, item):
        """Spells a type that a trait declares."""
        return spelled(of, self.of.declarer(of, trait, item), item)

    def spell_function_pointer(self, it):
        header, sig = it["header"], it["sig"]
        abi = header["abi"] if isinstance(header["abi"], str) else next(iter(header["abi"]))
        if abi not in ABIS or self.made is not None:
            raise Unspelled(FORM)
        with self.binding(it["generic_params"]) as names:
            inputs = [self.ty(ty) for _, ty in sig["inputs"]]
            count = len(names)
            output = self.ty(sig["output"]) if sig["output"] else "()"
        if len(names) > count:
            # What is left out in an output is what is left out in the one input.
            if count != 1:
                raise Unspelled(FORM)
            output = re.sub(r"'of\d+", names[0], output)
        binder = f"for<{', '.join(names[:count])}> " if count else ""
        unsafe = "unsafe " if header["is_unsafe"] else ""
        dots = [".."] if sig["is_c_variadic"] else []
        back = "" if output == "()" else f" -> {output}"
        return f"({binder}{unsafe}{ABIS[abi]}fn({', '.join(inputs + dots)}){back})"

    @contextlib.contextmanager
    def binding(self, params):
        """Gives the regions that a binder binds: those that it names, and in time those that are left out."""
        if any("lifetime" not in it["kind"] for it in params):
            raise Unspelled(BINDER)
        outside, self.made = self.names, [f"'of{at}" for at in range(len(params))]
        self.names = {**outside, **dict(zip([it["name"] for it in params], self.made))}
        try:
            yield self.made
        finally:
            self.names, self.made = outside, None

    @contextlib.contextmanager
    def freeing(self, params):
        """Has parameters for the regions that a bound's binder names."""
        if any("lifetime" not in it["kind"] for it in params):
            raise Unspelled(BINDER)
        outside = self.names
        self.names = dict(outside)
        for it in params:
            self.declare("lifetime", f"'some{len(self.params)}", it["name"])
        yield
        self.names = outside

    def spell_dyn_trait(self, it, outer):
        named = [self.spell_object(bound) for bound in it["traits"]]
        named.sort(key=lambda it: it in library().autos)
        if any(it not in library().autos for it in named[1:]):
            raise Unspelled(FORM)
        return f"(dyn {' + '.join([*named, self.region(it['lifetime']) if it['lifetime'] else outer])})"

    def spell_object(self, bound):
        """Spells what a trait object implements."""
        if self.made is not None:
            raise Unspelled(FORM)
        with self.binding(bound["generic_params"]) as names:
            trait = self.trait(bound["trait"], None)
            said = [(item, self.ty(ty)) for item, ty in self.constraints(bound["trait"], types_only=True)]
        binder = f"for<{', '.join(names)}> " if names else ""
        if not said:
            return binder + trait
        declarers = [(self.of.declarer("Self", trait, item), item, ty) for item, ty in said]
        if any("Self" in it for it, _, _ in declarers):
            raise Unspelled(FORM)
        return " + ".join([binder + trait, *(f"{binder}{it}::{item} == {ty}" for it, item, ty in declarers)])

    def constraints(self, it, types_only=False):
        """Gives what a trait's arguments say of its types, as rustdoc has it: a type, or bounds."""
        args = it["args"] or {}
        if "parenthesized" in args:
            return [("Output", args["parenthesized"]["output"] or {"tuple": []})]
        found = []
        for said in angled(args)["constraints"]:
            binding = said["binding"]
            if angled(said["args"])["args"]:
                raise Unspelled(GENERIC)
            ty = binding["equality"].get("type") if "equality" in binding else None
            if ty is None and (types_only or "equality" in binding):
                raise Unspelled(CONST if "equality" in binding else FORM)
            found.append((said["name"], ty or binding["constraint"]))
        return found

    def trait(self, it, me):
        """Spells a trait with its arguments; `me` is what implements it."""
        args = self.args(it, me)
        name = self.of.name_of(it["id"], it["path"])
        return f"{name}<{', '.join(args)}>" if args else name

    def args(self, it, me=None):
        """Spells the arguments of an item, with those that are left out."""
        if "parenthesized" in (it["args"] or {}):
            return [self.ty({"tuple": it["args"]["parenthesized"]["inputs"]})]
        params, given = self.of.params_of(it["id"]), []
        shown = list(params) if params is not None else None
        some = angled(it["args"])["args"]
        if shown and not any("lifetime" in a for a in some if isinstance(a, dict)):
            some = [{"lifetime": "'_"} for p in shown if p[0] == "lifetime"] + some
        for at, arg in enumerate(some):
            given.append(self.arg(arg, self.const_type(it["id"], at)))
        sorts = [it[0] for it in given]
        if shown is None:
            return self.as_seen(it, given, sorts)
        for sort, _, default in shown[len(given) :]:
            values = {p[1]: g[1] for p, g in zip(shown, given)}
            given.append((sort, self.default(default, values, me)))
        if [it[0] for it in given] != [it[0] for it in shown]:
            raise Unspelled(UNKNOWN)
        return [it[1] for it in given]

    def const_type(self, id, at):
        item = self.of.index.get(str(id))
        params = next(iter(item["inner"].values()))["generics"]["params"] if item else []
        kind = params[at]["kind"].get("const") if at < len(params) else None
        return kind["type"].get("primitive", "") if kind else "usize"

    def arg(self, it, const_type):
        kind = it if isinstance(it, str) else next(iter(it))
        if kind == "lifetime":
            return "lifetime", self.region(it["lifetime"])
        if kind == "const":
            return "const", self.const(it["const"], const_type)
        if kind != "type":
            raise Unspelled(FORM)
        return "type", self.ty(it["type"])

    def as_seen(self, it, given, sorts):
        """Takes the most that is seen of an item of another crate as all that it has."""
        most = self.of.seen.setdefault(str(it["id"]), [])
        if len(sorts) > len(most):
            most[:] = sorts
        if most[:1] == ["lifetime"] and "lifetime" not in sorts:
            given = [("lifetime", self.region(None)) for sort in most if sort == "lifetime"] + given
        if [it[0] for it in given] != most:
            raise Unspelled(UNKNOWN)
        return [it[1] for it in given]

    def default(self, default, values, me):
        if not default:
            raise Unspelled(UNKNOWN)
        if isinstance(default, str):
            if default == "Self" and me is None:
                raise Unspelled(UNKNOWN)
            return me if default == "Self" else self.of.library_names().get(default, default)
        inner = Scope(self.of, [], me)
        inner.params, inner.names = self.params, values
        return inner.ty(default)
