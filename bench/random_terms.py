"""Random specifications, well typed and small, for bench/random.

A kind is "Z" (numbers), the name of a given set or of a free type, ("P", KIND) of sets or ("X", KIND, KIND..) of tuples. A
name of a component has one kind in a whole text; a bound variable may have the name of anything in scope, with another kind.
"""
import math

NUMBERS = 2  # what --numbers says
NATURAL = "<natural numbers>"
WIDE = ["4611686018427387904 * {n}", "9223372036854775806 + {n}", "9223372036854775807 * {n}", "-9223372036854775807 - {n}",
        r"\# (\power (1 \upto 17)) + {n}", r"\# (0 \upto 65535 + {n})"]
UNDEFINED = [r"{n} \div 0", r"{n} \div {m}", r"{n} \mod {m}", r"\{0 \mapsto 1, 0 \mapsto 2, 1 \mapsto 2\} {n}", r"\{1 \mapsto {m}\} {n}"]
CROSS = r" \cross "
Z, A, B, C = "Z", "A", "B", "C"


def power(number, exponent):
    """As many as there are; where these are past a million, a number past a million."""
    return number ** min(exponent, 20 if number > 1 else 1)


def sets_of(kind):
    return ("P", kind)


def relations(source, target):
    return ("P", ("X", source, target))


KINDS = [Z, Z, Z, A, A, C, sets_of(Z), sets_of(Z), sets_of(A), sets_of(A), sets_of(C), relations(Z, Z), relations(A, Z), relations(A, A),
         relations(Z, A), relations(A, C), relations(A, B), B, ("X", A, Z), ("X", Z, Z), ("X", A, C, Z), sets_of(sets_of(A)), relations(A, sets_of(Z))]
BASES = [Z, A, C, sets_of(Z), sets_of(A), ("X", Z, Z), relations(Z, Z), relations(A, Z), relations(A, A)]


def has_numbers(kind):
    return kind == Z or isinstance(kind, tuple) and any(map(has_numbers, kind[1:]))


def is_relation(kind):
    return kind[0] == "P" and kind[1][0] == "X" and len(kind[1]) == 3


def carrier(kind):
    """A set of all values of a kind, as it is written."""
    if kind[0] == "P":
        return rf"\power {carrier(kind[1])}"
    if kind[0] == "X":
        return f"({CROSS.join(map(carrier, kind[1:]))})"
    return r"\num" if kind == Z else kind


def closed(text):
    """The text as an operand."""
    alone = text.replace("'", "").replace("?", "").replace("!", "").isalnum()
    return text if alone or text == NATURAL else f"({text})"


class Scope:
    """The kinds of the names that are in scope."""

    def __init__(self, kinds):
        self.kinds = kinds

    def named(self, kind):
        return [name for name, its in self.kinds.items() if its == kind]

    def sets(self, source=None, target=None):
        """The kinds of the named sets; of the named relations between these, where one of them is said."""
        kinds = [kind for kind in self.kinds.values() if kind[0] == "P"]
        if source is None and target is None:
            return kinds
        return [it for it in kinds if is_relation(it) and source in (None, it[1][1]) and target in (None, it[1][2])]

    def within(self, kinds):
        return Scope({**self.kinds, **kinds})


class Expressions:
    """Random expressions and predicates; `wide` and `undefined` say how often a number leaves the bounds or has no value."""

    def __init__(self, source):
        self.source = source
        self.wide = source.choice([0, 0.05, 0.2, 0.4])
        self.undefined = source.choice([0, 0.05, 0.2])
        self.naturals = source.random() < 0.15
        self.sizes = {A: source.choice([0, 1, 2, 2, 2, 2, 3, 3]), B: source.choice([0, 1, 1, 2, 2, 2])}
        self.constructors = ["red", "green", "blue"][: source.randrange(1, 4)]

    def chance(self, share):
        return self.source.random() < share

    def one_of(self, *choices):
        return self.source.choice(choices)

    # ---- declared sets: each with how many members it has at most

    def members(self, kind):
        """How many values of a kind there are."""
        if kind[0] == "P":
            return power(2, self.members(kind[1]))
        if kind[0] == "X":
            return math.prod(map(self.members, kind[1:]))
        return {**self.sizes, C: len(self.constructors), Z: 1000}[kind]

    def declared(self, kind, room, scope=None):
        """A closed set of at most `room` members of a kind."""
        for _ in range(12):
            text, size = self.closed_set(kind, scope)
            if size <= room and (size > 0 or self.chance(0.15)):
                return text, size
        return rf"\{{{self.least(kind)}\}}", 1

    def least(self, kind):
        """A closed value of a kind, defined where it can be."""
        if kind == Z:
            return "0"
        if kind[0] == "P":
            return rf"\emptyset[{carrier(kind[1])}]"
        if kind[0] == "X":
            return f"({', '.join(map(self.least, kind[1:]))})"
        return rf"(\{{ i : \{{0\}}; v : {kind} @ i \mapsto v \}}) 0"

    def closed_set(self, kind, scope):
        if self.chance(0.02):
            return self.odd_set(kind), 0
        if scope is not None and self.chance(0.2) and scope.named(sets_of(kind)):
            return self.one_of(*scope.named(sets_of(kind))), 4
        if kind == Z:
            return self.interval()
        if kind[0] == "P":
            return self.closed_sets(kind[1], scope)
        if kind[0] == "X":
            parts = [self.closed_set(it, scope) for it in kind[1:]]
            return CROSS.join(closed(text) for text, _ in parts), math.prod(size for _, size in parts)
        return kind, self.members(kind)

    def interval(self):
        if self.naturals and self.chance(0.5):
            return NATURAL, NUMBERS + 1
        first, last = self.source.randrange(-1, 2), self.source.randrange(4) if self.chance(0.9) else self.source.randrange(4, 50)
        if self.chance(0.2):
            return self.one_of(rf"\{{ i : 0 \upto {last} | i \mod 2 = 0 \}}", rf"\{{{first}, {last}, 2\}}"), 4
        return rf"{first} \upto {last}" if first >= 0 else rf"(-1) \upto {last}", last - first + 1

    def closed_sets(self, kind, scope):
        """A set of sets of a kind."""
        if is_relation(sets_of(kind)) and self.chance(0.9):
            (left, m), (right, n) = self.closed_set(kind[1], scope), self.closed_set(kind[2], scope)
            partial, total = power(n + 1, m), power(n, m)
            arrow, size = self.one_of((r"\rel", power(2, m * n)), (r"\pfun", partial), (r"\pfun", partial), (r"\fun", total),
                                      (r"\pinj", partial), (r"\inj", total))
            text = f"{closed(left)} {arrow} {closed(right)}"
            if kind[1] == Z and self.chance(0.2):
                text = rf"\{{ q : {text} | \dom q = 1 \upto \# q \}}"
            return text, size
        base, n = self.closed_set(kind, scope)
        sign = self.one_of(r"\power", r"\power", r"\finset")
        text = f"{sign} {closed(base)}"
        return (rf"\{{ q : {text} | \# q < 2 \}}" if self.chance(0.15) else text), power(2, n)

    def odd_set(self, kind):
        """A set of a kind that is empty, undefined, or out of bounds."""
        choices = [rf"\emptyset[{carrier(kind)}]"] * 2
        if kind == Z:
            choices += [r"3 \upto 2", r"1 \upto 1 \div 0"] + [r"1 \upto 65537", r"0 \upto 9223372036854775807 + 1"] * (self.wide > 0)
        if kind == sets_of(Z) and self.wide:
            choices += [r"\power (1 \upto 17)"]
        return self.one_of(*choices)

    # ---- expressions

    def value(self, kind, scope, depth):
        names = scope.named(kind)
        if names and self.chance(0.85 if depth <= 0 else 0.5):
            return self.one_of(*names)
        if depth > 0 and self.chance(0.1):
            return self.application(kind, scope, depth - 1)
        if kind == Z:
            return self.number(scope, depth)
        if kind[0] == "P":
            return self.set(kind[1], scope, depth)
        if kind[0] == "X":
            parts = [self.value(it, scope, depth - 1) for it in kind[1:]]
            return rf"{closed(parts[0])} \mapsto {closed(parts[1])}" if len(parts) == 2 and self.chance(0.5) else f"({', '.join(parts)})"
        return self.one_of(*names) if names else self.least(kind)

    def operand(self, kind, scope, depth):
        return closed(self.value(kind, scope, depth))

    def application(self, kind, scope, depth):
        """A function applied to an argument, in its domain or not."""
        functions = scope.sets(target=kind)
        function = self.one_of(*functions) if functions else relations(self.one_of(Z, A), kind)
        if not functions and self.chance(0.7):
            return self.value(kind, scope, depth)
        return f"{self.operand(function, scope, depth)} {self.operand(function[1][1], scope, depth)}"

    def number(self, scope, depth):
        if depth <= 0:
            return str(self.source.randrange(4))
        left, right = self.operand(Z, scope, depth - 1), self.operand(Z, scope, depth - 1)
        if self.chance(self.wide):
            return self.one_of(*WIDE).format(n=left)
        if self.chance(self.undefined):
            return self.one_of(*UNDEFINED).replace("{n}", left).replace("{m}", right)
        sort = self.source.randrange(8)
        if sort < 2:
            return str(self.source.randrange(4))
        if sort < 4:
            return rf"\# {self.operand(self.one_of(*scope.sets(), sets_of(A)), scope, depth - 1)}"
        return f"-{left}" if sort == 4 else f"{left} {self.one_of('+', '+', '-', '*')} {right}"

    def set(self, kind, scope, depth):
        """A set of members of a kind."""
        if depth <= 0:
            return self.small_set(kind, scope)
        choices = [self.small_set, self.small_set, self.joined, self.joined, self.comprehension, self.through]
        if kind == Z:
            choices.append(lambda kind, scope, depth=depth: rf"{self.operand(Z, scope, depth - 1)} \upto {self.operand(Z, scope, depth - 1)}")
        if kind[0] == "P":
            choices.append(lambda kind, scope: rf"\power {closed(self.value(kind, scope, 0))}")
        if kind[0] == "X":
            choices += [self.product] + [self.of_relations] * 3 * is_relation(sets_of(kind))
        chosen = self.one_of(*choices)
        return chosen(kind, scope) if chosen == self.small_set or kind[0] == "P" and chosen is choices[-1] else chosen(kind, scope, depth - 1)

    def small_set(self, kind, scope):
        if kind in (A, B, C) and self.chance(0.3):
            return kind
        if not self.has_values(kind, scope) and self.chance(0.9):
            return carrier(kind) if not has_numbers(kind) and self.members(kind) < 20 and self.chance(0.7) else self.odd_set(kind)
        if self.chance(0.2):
            return rf"\emptyset[{carrier(kind)}]"
        return r"\{" + ", ".join(self.value(kind, scope, 0) for _ in range(self.one_of(1, 1, 2))) + r"\}"

    def has_values(self, kind, scope):
        """Whether a value can be written without one of a set that may be empty."""
        if isinstance(kind, tuple):
            return kind[0] == "P" or all(self.has_values(it, scope) for it in kind[1:])
        return kind in (Z, C) or scope.named(kind) != []

    def joined(self, kind, scope, depth):
        sign = self.one_of(r"\cup", r"\cup", r"\cap", r"\setminus")
        return f"{self.operand(sets_of(kind), scope, depth)} {sign} {self.operand(sets_of(kind), scope, depth)}"

    def through(self, kind, scope, depth):
        """A domain, a range or an image."""
        onto = scope.sets(target=kind)
        of = scope.sets(source=kind)
        if of and self.chance(0.5):
            return rf"\dom {self.operand(self.one_of(*of), scope, depth)}"
        if not onto and self.chance(0.7):
            return self.value(sets_of(kind), scope, depth)
        found = self.one_of(*onto) if onto else relations(self.one_of(Z, A), kind)
        relation = self.operand(found, scope, depth)
        return self.one_of(rf"\ran {relation}", rf"{relation} \limg {self.value(sets_of(found[1][1]), scope, depth)} \rimg")

    def product(self, kind, scope, depth):
        return CROSS.join(self.operand(sets_of(it), scope, depth) for it in kind[1:])

    def of_relations(self, kind, scope, depth):
        """A relation made of relations."""
        _, source, target = kind
        relation = self.operand(sets_of(kind), scope, depth)
        other, first, second = self.one_of(Z, A), self.one_of(r"\dres", r"\ndres"), self.one_of(r"\rres", r"\nrres")
        return self.one_of(
            lambda: rf"{relation} \oplus {self.operand(sets_of(kind), scope, depth)}",
            lambda: rf"{relation} \oplus \{{{self.operand(source, scope, depth)} \mapsto {self.operand(target, scope, depth)}\}}",
            lambda: f"{self.operand(sets_of(source), scope, depth)} {first} {relation}",
            lambda: f"{relation} {second} {self.operand(sets_of(target), scope, depth)}",
            lambda: rf"{self.operand(relations(target, source), scope, depth)} \inv",
            lambda: rf"{self.operand(relations(source, other), scope, depth)} \comp {self.operand(relations(other, target), scope, depth)}",
        )()

    def comprehension(self, kind, scope, depth):
        if self.chance(0.5):
            name = self.bound(scope)
            inner = scope.within({name: kind})
            return rf"\{{ {name} : {self.range(kind, scope, depth)} | {self.predicate(inner, depth)} \}}"
        declarations, inner = self.declarations(scope, depth)
        constraint = f" | {self.predicate(inner, depth)}" if self.chance(0.5) else ""
        return rf"\{{ {declarations}{constraint} @ {self.value(kind, inner, depth)} \}}"

    # ---- binders

    def bound(self, scope):
        """A name of a bound variable: often one that is in scope."""
        return self.one_of(*scope.kinds) if scope.kinds and self.chance(0.4) else self.one_of("i", "j", "k", "v", "w")

    def range(self, kind, scope, depth):
        if self.chance(0.1):
            return self.odd_set(kind)
        if depth <= 0 or self.chance(0.4):
            return self.declared(kind, 16 if depth > 0 else 4, scope)[0]
        return self.value(sets_of(kind), scope, min(depth, 1))

    def declarations(self, scope, depth):
        """One to three variables; the ranges see what is in scope around them."""
        declared, parts = {}, []
        for _ in range(self.one_of(1, 1, 1, 2)):
            names = {self.bound(scope) for _ in range(self.one_of(1, 1, 1, 2))}
            names = sorted(names - set(declared))
            if names:
                kind = self.one_of(*BASES)
                declared |= dict.fromkeys(names, kind)
                parts.append(f"{', '.join(names)} : {self.range(kind, scope, depth)}")
        return "; ".join(parts), scope.within(declared)

    def quantifier(self, scope, depth):
        sign = self.one_of(r"\exists", r"\exists", r"\forall", r"\forall", r"\exists_1")
        declarations, inner = self.declarations(scope, depth)
        bound = [name for name in inner.kinds if inner.kinds[name] is not scope.kinds.get(name)]
        equation, body = None, self.predicate(inner, depth)
        if bound and self.chance(0.4):
            equation = self.equation(inner, self.one_of(*bound), depth)
        constraint = self.predicate(inner, depth) if self.chance(0.3) else None
        if equation and self.chance(0.5):
            constraint, equation = equation, None
        bar = "" if constraint is None else f" | {constraint}"
        return f"{sign} {declarations}{bar} @ {body}" if equation is None else rf"{sign} {declarations}{bar} @ {equation} \land ({body})"

    # ---- predicates

    def equation(self, scope, name, depth):
        """The name is one value: what is on the other side mostly does not name it."""
        others = Scope({it: kind for it, kind in scope.kinds.items() if it != name or self.chance(0.1)})
        other = self.value(scope.kinds[name], others, depth)
        return self.one_of(f"{name} = {closed(other)}", f"{closed(other)} = {name}")

    def key(self, scope):
        """An equation of what is made of one name: its domain, its size, its value at a place."""
        names = [name for name, kind in scope.kinds.items() if kind[0] == "P"]
        if not names:
            return None
        name = self.one_of(*names)
        kind = scope.kinds[name][1]
        other = self.operand(sets_of(kind), scope, 0)
        keys = [(rf"\# {name}", Z)] + [(rf"{name} \cup {other}", sets_of(kind))] * (other != name)
        if is_relation(sets_of(kind)):
            keys += [(rf"\dom {name}", sets_of(kind[1])), (rf"\ran {name}", sets_of(kind[2])), (f"{name} {self.operand(kind[1], scope, 0)}", kind[2]),
                     (rf"{name} \limg {self.value(sets_of(kind[1]), scope, 0)} \rimg", sets_of(kind[2]))] * 2
        left, kind = self.one_of(*keys)
        right = self.value(kind, Scope({it: its for it, its in scope.kinds.items() if it != name}), 1)
        return self.one_of(f"{left} = {closed(right)}", f"{closed(right)} = {left}")

    def predicate(self, scope, depth):
        if depth > 0 and self.chance(0.55):
            return self.compound(scope, depth - 1)
        return self.relation(scope, depth)

    def compound(self, scope, depth):
        sort = self.source.randrange(8)
        if sort < 3:
            return f"({self.quantifier(scope, depth)})"
        if sort == 3:
            return rf"\lnot ({self.predicate(scope, depth)})"
        sign = self.one_of(r"\land", r"\land", r"\lor", r"\lor", r"\implies", r"\iff")
        return f"({self.predicate(scope, depth)} {sign} {self.predicate(scope, depth)})"

    def relation(self, scope, depth):
        sort = self.source.randrange(8)
        names = [it for it in scope.kinds if it not in self.constructors] or list(scope.kinds)
        if sort == 0:
            return self.equation(scope, self.one_of(*names), depth)
        if sort == 1:
            return self.key(scope) or self.one_of("true", "false")
        if self.chance(self.wide):
            number = self.one_of(*(scope.named(Z) or [rf"(\# {it})" for it in scope.kinds if scope.kinds[it][0] == "P"] or ["2"]))
            return f"{self.operand(Z, scope, 0)} < {self.one_of(*WIDE).format(n=number)}"
        kind = scope.kinds[self.one_of(*names)] if self.chance(0.9) else Z
        if sort < 4:
            left, right = self.operand(kind, scope, depth), self.operand(sets_of(kind), scope, depth)
            if kind == Z and not self.naturals and self.chance(0.2):
                right = self.one_of(r"\nat", r"\num", r"\nat_1")
            sign = self.one_of(r"\in", r"\in", r"\notin")
            return f"{left} {sign} {right}"
        if kind == Z:
            sign = lambda: self.one_of("=", r"\neq", "<", r"\leq", ">", r"\geq")
            chain = f" {sign()} {self.operand(Z, scope, 0)}" if self.chance(0.15) else ""
            return f"{self.operand(Z, scope, depth)} {sign()} {self.operand(Z, scope, depth)}{chain}"
        signs = ["=", r"\neq"] + ([r"\subseteq", r"\subseteq", r"\subset"] if kind[0] == "P" else [])
        left, right = self.operand(kind, scope, depth), self.operand(kind, scope, depth)
        return f"{left} {self.one_of(*signs)} {right if right != left else self.operand(kind, scope, depth)}"
