"""Prints a crate as statements, with a comment for what is left out, and impls that there may be for what is open."""
import collections

from judging import described, worlds
from judging.crate import OTHER, SIZED, declarations, impl_text, is_whole, traits_stated
from judging.forms import foreign_forms
from judging.worlds import HEAD


class Printer:
    """Lines of a text, and how often something is left out, by reasons. Each impl has its number beside it, by which
    answers name it, and its place."""

    def __init__(self):
        self.lines, self.missing, self.number = [], collections.Counter(), 0

    def left_out(self, what, lacks, place):
        self.missing.update(dict.fromkeys(lacks, 1))
        return f"{what}: {' and '.join(dict.fromkeys(lacks))}, {place}"

    def say(self, text, beside):
        self.number += 1
        self.lines.append(f"{text}; // {self.number}{beside}")


def is_implied(crate, trait):
    """Says whether what a trait states of its types may be said: what follows would have no end where one of their
    traits leads to this one again."""
    reached, left = set(), {trait.name}
    while left:
        some = [crate.traits[it] for it in left if it in crate.traits]
        left = {name for it in some for name in traits_stated(it)} - reached
        reached |= left
    return trait.states and not reached & {trait.name}


def print_traits(crate, printer):
    for it in crate.traits.values():
        if is_implied(crate, it):
            printer.lines.append(f"implied {it.name}: {', '.join([*it.supers, *it.states])};")
        elif it.states:
            said = f"{it.name} states {', '.join(it.states)}"
            printer.lines.append("// " + printer.left_out(said, [described.OF_ALIAS], it.place))
        if it.lacks:
            printer.lines.append("// " + printer.left_out(f"super {it.name}", it.lacks, it.place))


def print_impl(crate, it, printer):
    """Prints an impl; where not all that it asks for or gives is spelled, one that there may be has what is."""
    lacks = [*it.lacks, *(why for _, why in it.unsaid)]
    if not it.of:
        printer.lines.append("// " + printer.left_out(f"impl {it.name}", [it.trait], it.place))
        return
    beside = printer.left_out("; beside", lacks, it.place) if lacks else f", {it.place}"
    if is_whole(it.lacks):
        printer.say(impl_text(it), beside)
    if not is_whole(it.lacks) or worlds.is_open(crate, it):
        printer.say(f"open {impl_text(worlds.widened(crate, it))}", beside if not is_whole(it.lacks) else f", {it.place}")


def print_open(crate, printer):
    """Prints impls that there may be: of what isn't spelled, and of other crates' traits for types that are no own."""
    for it in crate.unknown_sizes:
        printer.say(f"open {impl_text(it)}", f", {it.place}")
    for it in [*worlds.headless(crate), *worlds.autos(crate)]:
        printer.say(f"open {it.removesuffix(';')}", ", not described")
    asked = worlds.asked_traits(crate)
    traits = [it for it in crate.traits.values() if it.name in asked and not it.local and it.name != SIZED]
    if traits:
        printer.lines.append(f"trait {HEAD};")
        for of, params in foreign_forms(crate):
            printer.say(worlds.of_form(of, params), ", of another crate")
        for it in traits:
            printer.say(f"open {worlds.for_others(crate, it)}", ", of another crate")


def text(crate):
    """Gives the text of a crate's statements."""
    printer = Printer()
    printer.lines += declarations(crate)
    print_traits(crate, printer)
    for it in sorted(crate.impls, key=lambda it: it.origin == OTHER):
        print_impl(crate, it, printer)
    print_open(crate, printer)
    missing = printer.missing
    left = "".join(f"; {many} {why}" for why, many in missing.most_common())
    last = f"// Not spelled: {sum(missing.values())}{left}"
    return "\n".join([f"// {crate.of.name} {crate.of.version}", "solver old;", *printer.lines, last, ""])
