"""Reads the bounds of an item as rustdoc describes them."""
from judging import described
from judging.described import Unspelled, angled


class Bounds:
    """What an item asks for: clauses as text, why others are not spelled, and which parameters may be unsized."""

    def __init__(self, scope):
        self.scope, self.clauses, self.lacks, self.unsized = scope, [], [], set()

    def add(self, of, bounds):
        """Adds what bounds say of a type, which is spelled."""
        for it in bounds:
            if "trait_bound" in it:
                self.add_trait(of, it["trait_bound"])
            elif "outlives" in it:
                self.lacks.append(described.OUTLIVES)

    def add_trait(self, of, bound):
        path, modifier = bound["trait"], bound["modifier"]
        if modifier == "maybe":
            self.unsized.add(of)
            return
        try:
            if modifier != "none":
                raise Unspelled(described.CONST)
            if path["path"].split("::")[-1] in ("MetaSized", "PointeeSized"):
                raise Unspelled(described.SIZED)
            with self.freeing(bound["generic_params"]):
                before = len(self.scope.params)
                trait = self.scope.trait(path, of)
                self.say(f"{of}: {trait}")
                for item, said in self.scope.constraints(path):
                    self.add_constraint(self.scope.alias(of, trait, item), said)
                if "parenthesized" in (path["args"] or {}) and len(self.scope.params) > before:
                    self.lacks.append(described.BINDER)
        except Unspelled as why:
            self.lacks.append(str(why))

    def add_constraint(self, alias, said):
        """Adds what is said of a type that a trait declares: bounds, or to what it comes."""
        if isinstance(said, list):
            self.add(alias, said)
        else:
            self.say(f"{alias} == {self.scope.ty(said)}")

    def say(self, clause):
        if clause not in self.clauses:
            self.clauses.append(clause)
            self.scope.said.append(clause)

    def freeing(self, params):
        """Has regions that a binder binds stand for any: what is asked of each of them is asked of one."""
        if params:
            self.lacks.append(described.BINDER)
        return self.scope.freeing(params)

    def add_generics(self, generics):
        """Adds the bounds of an item's parameters, and its where-clauses."""
        for it in generics["params"]:
            kind = it["kind"]
            if "type" in kind:
                self.add(self.scope.names[it["name"]], kind["type"]["bounds"])
            elif kind.get("lifetime", {}).get("outlives"):
                self.lacks.append(described.OUTLIVES)
        for it in generics["where_predicates"]:
            self.add_predicate(it)

    def add_predicate(self, it):
        kind, said = next(iter(it.items()))
        if kind == "lifetime_predicate":
            self.lacks.append(described.OUTLIVES)
            return
        try:
            if kind == "eq_predicate":
                self.say(f"{self.scope.ty(said['lhs'])} == {self.scope.ty(said['rhs']['type'])}")
            else:
                with self.freeing(said["generic_params"]):
                    self.add(self.scope.ty(said["type"]), said["bounds"])
        except Unspelled as why:
            self.lacks.append(str(why))

    def add_supers(self, trait):
        """Adds what a trait states of what implements it."""
        self.add("Self", trait["bounds"])
        for it in trait["generics"]["where_predicates"]:
            if it.get("bound_predicate", {}).get("type") == {"generic": "Self"}:
                self.add_predicate(it)
