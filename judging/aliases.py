"""The types that traits declare, as `<T as Tr>::A` in a text: each is named by a parameter, or by what it comes to."""
import re

# The name of a type behind the brackets of an alias.
NAME = re.compile(r"::(\w+)")
REGION = re.compile(r"'\??\w+")


def closing(text, at):
    """Gives where the bracket ends that begins at a place."""
    depth = 0
    for end in range(at, len(text)):
        depth += (text[end] in "([{<") - (text[end] in ")]}" or text[end] == ">" and text[end - 1] != "-")
        if depth == 0:
            return end
    raise ValueError(f"no end of a bracket: {text}")


def begins(text, at):
    """Says whether an alias begins at a place: a list of arguments stands behind a word."""
    return text[at] == "<" and not re.match(r"\w", text[at - 1 : at])


def cut(text, sign):
    """Cuts a text at a sign that stands in no brackets; behind it there is nothing where there is no such sign."""
    at = 0
    while at < len(text):
        if text.startswith(sign, at):
            return text[:at], text[at + len(sign) :]
        at = closing(text, at) + 1 if text[at] in "([{<" else at + 1
    return text, ""


def spelled(of, trait, item):
    return f"<{of} as {trait}>::{item}"


def comes_to(clause):
    """Gives the alias of a clause and what it comes to, or nothing where the clause is another one."""
    alias, term = cut(clause, " == ")
    return (alias, term) if term else None


def erased(text):
    """Gives a text without its regions."""
    return REGION.sub("'_", text)


class Aliases:
    """What aliases come to. `name(of, trait, item)` gives a term for one that isn't known yet, but for regions."""

    def __init__(self, name, known=()):
        self.name, self.known = name, {}
        for alias, term in dict(known).items():
            self.say(alias, term)

    def read(self, text, at):
        """Reads an alias: gives where it ends and how it is spelled by names."""
        end = closing(text, at)
        item = NAME.match(text, end + 1)
        of, trait = (self.put(it) for it in cut(text[at + 1 : end], " as "))
        return item.end(), (of, trait, item[1])

    def put(self, text):
        """Puts a term for each alias."""
        found, at = [], 0
        while at < len(text):
            if not begins(text, at):
                found.append(text[at])
                at += 1
                continue
            at, alias = self.read(text, at)
            found.append(self.term(alias))
        return "".join(found)

    def term(self, alias):
        text = spelled(*alias)
        if erased(text) not in self.known:
            self.say(text, self.name(*alias))
        return self.known[erased(text)][1]

    def has(self, alias):
        return erased(spelled(*alias)) in self.known

    def say(self, alias, term):
        self.known.setdefault(erased(alias), (alias, term))

    def said(self):
        """Gives each alias that is known, and to what it comes."""
        return list(self.known.values())

    def note(self, clause):
        """Notes what a clause says of an alias, if it does."""
        said = comes_to(clause)
        if said:
            _, alias = self.read(said[0], 0)
            self.say(spelled(*alias), self.put(said[1]))

    def clause(self, text):
        """Puts a term for each alias of a clause, but for the one of which the clause says to what it comes."""
        said = comes_to(text)
        if not said:
            return self.put(text)
        _, alias = self.read(said[0], 0)
        return f"{spelled(*alias)} == {self.put(said[1])}"


def name_for(of, item, taken):
    """Gives a name for a parameter that stands for an alias."""
    name = f"{of}_{item}" if re.fullmatch(r"\w+", of) else item
    number = 1
    while name in taken:
        number += 1
        name = f"{name.rstrip('0123456789')}{number}"
    return name
