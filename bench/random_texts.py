"""Whole random specifications: given sets, a free type, abbreviations, and schemas that stand on one another."""
import random

from random_terms import KINDS, NATURAL, NUMBERS, Expressions, Scope, has_numbers, sets_of

NAMES = ["x", "y", "z", "n", "s", "t", "f", "g", "r", "p"]
ABBREVIATIONS = ["limit", "some", "table", "x", "s", "v"]
STROKES = ["'", "?", "!"]


class Schema:
    """A schema's name, and of each component how many values it has at most."""

    def __init__(self, name, components):
        self.name, self.components = name, components

    def size(self):
        size = 1
        for members in self.components.values():
            size *= members
        return size


def joined(one, other):
    """The components of both: those of both have the values that both allow."""
    return {**one, **{name: min(size, one.get(name, size)) for name, size in other.items()}}


def decorated(components, stroke):
    return {name + stroke: size for name, size in components.items()}


class Specification:
    """The text of the seed, its schemas, and the one to be shown."""

    def __init__(self, seed):
        self.source = random.Random(seed)
        self.terms = Expressions(self.source)
        self.room = self.source.choice([60, 400, 2500, 5000])
        self.depth = self.source.choice([1, 2, 2, 3])
        self.kinds = {name: self.source.choice(KINDS) for name in self.source.sample(NAMES, self.source.randrange(2, 7))}
        self.globals = dict.fromkeys(self.terms.constructors, "C")
        self.lines = [r"\begin{zed}", r"[A, B] \\", rf"C ::= {' | '.join(self.terms.constructors)} \\", r"\end{zed}"]
        for name in self.source.sample(ABBREVIATIONS, self.source.randrange(3)):
            self.abbreviation(name)
        self.schemas = []
        for number in range(self.source.randrange(1, 5)):
            self.schemas.append(self.schema(f"S{number + 1}"))
        self.shown = self.source.choice([self.schemas[-1], self.schemas[-1], *self.schemas])

    def paragraph(self, text):
        self.lines += [r"\begin{zed}", text, r"\end{zed}"]

    def abbreviation(self, name):
        kind = self.source.choice(KINDS)
        self.paragraph(f"{name} == {self.terms.value(kind, Scope(self.globals), 1)}")
        self.globals[name] = kind

    def kind(self, name):
        return self.kinds[name.rstrip("'?!")]

    def scope(self, components):
        return Scope({**self.globals, **{name: self.kind(name) for name in components}})

    # ---- schemas

    def schema(self, name):
        if self.schemas and self.source.random() < 0.35:
            found = self.calculus(name)
            if found is not None:
                return found
        return self.box(name)

    def reference(self):
        """A reference to a schema, and its components."""
        schema = self.source.choice(self.schemas)
        sort = self.source.randrange(8)
        if sort < 3:
            return rf"\Delta {schema.name}", joined(schema.components, decorated(schema.components, "'"))
        if sort == 3:
            return rf"\Xi {schema.name}", joined(schema.components, decorated(schema.components, "'"))
        if sort == 4:
            stroke = self.source.choice(STROKES)
            return schema.name + stroke, decorated(schema.components, stroke)
        return schema.name, dict(schema.components)

    def calculus(self, name):
        """A conjunction or a disjunction of references; None where it is too large, or mostly where it is not finite."""
        text, components = self.reference()
        for _ in range(self.source.choice([1, 1, 2])):
            other, others = self.reference()
            if self.source.random() < 0.7:
                text, components = rf"({text} \lor {other})", self.disjoined(components, others)
            else:
                text, components = rf"({text} \land {other})", joined(components, others)
            if components is None:
                return None
        if Schema(name, components).size() > self.room:
            return None
        self.paragraph(rf"{name} \defs {text}")
        return Schema(name, components)

    def disjoined(self, one, other):
        components = {}
        for name in [*one, *(it for it in other if it not in one)]:
            if name in one and name in other:
                components[name] = one[name] + other[name]
            elif has_numbers(self.kind(name)) and (self.terms.naturals or self.source.random() < 0.95):
                return None
            else:
                components[name] = self.terms.members(self.kind(name))
        return components

    def box(self, name):
        declarations, components = [], {}
        for _ in range(self.source.choice([0, 1, 1, 1, 2]) if self.schemas else 0):
            text, included = self.reference()
            if Schema(name, joined(components, included)).size() <= self.room:
                declarations.append(text)
                components = joined(components, included)
        for _ in range(self.source.randrange(0 if components else 1, 4)):
            text, declared = self.declaration(self.room // max(1, Schema(name, components).size()))
            declarations.append(text)
            components = joined(components, declared)
        scope = self.scope(components)
        predicates = [self.conjunct(scope) for _ in range(self.source.choice([0, 1, 1, 2, 3] if self.schemas else [0, 0, 1, 1, 2]))]
        predicates += [self.terms.equation(scope, it, self.depth) for it in components if self.source.random() < (0.5 if it.endswith("'") else 0.1)]
        self.source.shuffle(predicates)
        self.lines += [rf"\begin{{schema}}{{{name}}}", *(it + r" \\" for it in declarations)]
        self.lines += ([r"\where"] if predicates else []) + [it + r" \\" for it in predicates] + [r"\end{schema}"]
        return Schema(name, components)

    def declaration(self, room):
        """One or two components in a declared set."""
        names = [name + self.source.choice(["", "", "", "?", "'"]) for name in self.source.sample(sorted(self.kinds), 1)]
        names += [it for it in [name.rstrip("'?!") + "!" for name in names] if self.source.random() < 0.1]
        room = int(max(1, room) ** (1 / len(names)))
        room = min(room, self.source.choice([4, 16, 64, 64, 512]))
        text, size = self.terms.declared(self.kind(names[0]), room, Scope(self.globals))
        return f"{', '.join(names)} : {text}", dict.fromkeys(names, size)

    def conjunct(self, scope):
        sort = self.source.randrange(10)
        if sort < 2:
            return self.terms.quantifier(scope, self.depth)
        if sort == 2:
            return self.terms.key(scope) or "true"
        if sort < 7:
            sign = self.source.choice([r"\land", r"\lor", r"\lor", r"\lor", r"\implies", r"\implies"])
            return f"{self.terms.predicate(scope, self.depth)} {sign} {self.terms.predicate(scope, self.depth)}"
        return self.terms.predicate(scope, self.depth)

    # ---- what is asked

    def text(self):
        return self.written(rf"(0 \upto {NUMBERS})")

    def text_with_numbers(self):
        """The same where the naturals are those of --numbers; None where there are none."""
        return self.written(r"\nat") if NATURAL in "\n".join(self.lines) else None

    def written(self, naturals):
        return "\n".join(self.lines).replace(NATURAL, naturals) + "\n"

    def words(self):
        return [self.shown.name, *(f"{name}={size}" for name, size in self.terms.sizes.items())]


def declared_alone(kind):
    """Whether values of the kind can be written in a text."""
    return kind in ("Z", "C") if not isinstance(kind, tuple) else all(map(declared_alone, kind[1:]))
