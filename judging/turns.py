"""Asks goals one after the other, each with what those before bind put into it: so each is asked by itself."""
import collections
import re

from judging.asking import bindings, split_list

VARIABLE = re.compile(r"('\?|\?c?)(\d+)")
# How many variables questions may name; those that an impl makes come behind.
NAMED = 48
ALL = f"?{NAMED - 1}"
DECLARED = f"variables ?{NAMED - 1}, '?{NAMED - 1}, ?c{NAMED - 1};"


class Bound:
    """What is known of variables, of which the first few of each sort stand in questions."""

    def __init__(self, counts=()):
        self.terms, self.next = {}, collections.Counter(dict(counts))

    def put(self, text):
        """Puts what variables are bound to."""
        return VARIABLE.sub(lambda it: self.terms.get(it[0], it[0]), text)

    def note(self, answer):
        """Notes what an answer binds, by new names for the variables that the impls made."""
        made, found = {}, bindings(answer)
        # What is bound may have what is bound in it.
        for _ in found:
            found = {name: VARIABLE.sub(lambda it: found.get(it[0], it[0]), term) for name, term in found.items()}

        def named(it):
            sort, number = it[1], int(it[2])
            if number < NAMED:
                return it[0]
            if it[0] not in made:
                made[it[0]] = f"{sort}{self.next[sort]}"
                self.next[sort] += 1
            return made[it[0]]

        for name, term in found.items():
            if int(VARIABLE.fullmatch(name)[2]) < NAMED:
                self.terms.setdefault(name, VARIABLE.sub(named, term))
        for _ in self.terms:
            self.terms = {name: self.put(term) for name, term in self.terms.items()}

    def note_all(self, names):
        """Notes what variables come to of which one stands for all."""
        found = split_list(self.terms.pop(ALL, "()")[1:-1].rstrip(","))
        if len(found) == len(names):
            self.terms |= {name: term for name, term in zip(names, found) if name != term}
