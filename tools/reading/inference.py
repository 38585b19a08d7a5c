"""What holds of the patterns of a whole file: that none calls itself, the kinds of variables, and that each is bound."""
from . import expressions
from .grammar import Term
from .metamodels import KINDS
from .queries import Reason
from .tokens import Token

OBJECT = "object"


def said_kind(kind):
    return "an object" if kind == OBJECT else f"of the kind {kind}"


class Use:
    """Which kind a variable gets, and where it gets it."""

    def __init__(self):
        self.kinds = {}

    def add(self, kind, at):
        """Whether it got a kind that it hadn't."""
        if kind in self.kinds:
            return False
        self.kinds[kind] = at
        return True


class Body:
    """A body of a pattern with the uses of its variables."""

    def __init__(self, pattern, constraints):
        self.pattern, self.constraints = pattern, constraints
        self.params = [name.text for name, _ in pattern.params]
        self.exprs = {}
        for made in constraints:
            if made.form in ("check", "eval"):
                self.exprs[id(made)] = expressions.parse(made.inner)
        self.uses = {}
        counts = self.counts()
        loose = [
            t.name
            for made in constraints
            if made.form in ("neg", "aggregate")
            for t in made.call.args
            if isinstance(t, Term)
        ]
        # A variable that stands once, in a call that binds nothing, is read as `_`.
        self.any = {name for name in loose if name is not None and counts[name] == 1 and name not in self.params}

    def occurrences(self):
        """Each place where a variable stands: its name and the place."""
        for made in self.constraints:
            for term in [*made.terms, *(a for a in (made.call.args if made.call else []) if isinstance(a, Term))]:
                if term.name is not None:
                    yield term.name, term.at
            if id(made) in self.exprs:
                for slot in self.exprs[id(made)].slots():
                    yield slot.slot, slot.token.at

    def counts(self):
        found = {}
        for name, _ in self.occurrences():
            found[name] = found.get(name, 0) + 1
        return found

    def use(self, name):
        return self.uses.setdefault(name, Use())


def type_kind(meta, token):
    if token.text in meta.classes:
        return OBJECT
    return token.text if token.text in KINDS or token.text in meta.enums else None


class Program:
    """The bodies of a file's patterns, with all kinds found."""

    def __init__(self, meta, file):
        self.meta, self.file = meta, file
        self.by_name = {}
        for place, pattern in enumerate(file.patterns):
            self.by_name.setdefault(pattern.name, place)
        self.bodies = [[Body(p, body) for body in p.bodies] for p in file.patterns]
        while any([self.spread(body) for bodies in self.bodies for body in bodies]):
            pass

    def param_kinds(self, name, column):
        """The kinds that a parameter of a pattern gets in any of its bodies."""
        place = self.by_name[name.text]
        param = self.file.patterns[place].params[column][0].text
        return {kind for body in self.bodies[place] for kind in body.use(param).kinds}

    def positions(self, made, body):
        """The terms of a constraint, each with the kinds of its position from elsewhere."""
        if made.form == "type":
            yield made.terms[0], {type_kind(self.meta, made.type)}
        elif made.form == "path":
            yield made.terms[0], {OBJECT}
            at = made.type.text
            for token in made.path[:-1]:
                at = self.meta.features(at)[token.text].target
            feature = self.meta.features(at)[made.path[-1].text]
            yield made.terms[1], {OBJECT if feature.is_reference else feature.kind}
        elif made.form == "equal":
            left, right = made.terms
            yield left, self.term_kinds(right, body)
            yield right, self.term_kinds(left, body)
        elif made.form == "eval":
            yield made.terms[0], self.expr_kinds(made, body)
        elif made.form == "aggregate":
            yield made.terms[0], {"int"}
        if made.call is not None:
            for column, arg in enumerate(made.call.args):
                if isinstance(arg, Term):
                    yield arg, self.param_kinds(made.call.name, column)

    def term_kinds(self, term, body):
        if term.is_constant:
            return {term.kind}
        return set(body.use(term.name).kinds) if term.name is not None else set()

    def expr_kinds(self, made, body):
        return body.exprs[id(made)].kinds(lambda slot: body.use(slot.slot).kinds)

    def spread(self, body):
        """Whether a variable of the body got a kind."""
        changed = False
        for name, kind in body.pattern.params:
            if kind is not None:
                changed |= body.use(name.text).add(type_kind(self.meta, kind), kind.at)
        for made in body.constraints:
            for term, kinds in self.positions(made, body):
                if term.name is not None and term.name not in body.any:
                    for kind in sorted(kinds):
                        changed |= body.use(term.name).add(kind, term.at)
        return changed

    # ---- faults

    def recursive(self):
        calls = [
            {self.by_name[c.call.name.text]: c.call.name for body in p.bodies for c in body if c.call is not None}
            for p in self.file.patterns
        ]
        for place, pattern in enumerate(self.file.patterns):
            came, waiting = {}, [place]
            while waiting:
                at = waiting.pop(0)
                for called in calls[at]:
                    if called == place:
                        path = [at]
                        while path[-1] != place:
                            path.append(came[path[-1]])
                        names = [self.file.patterns[i].name for i in [*reversed(path), place]]
                        token = calls[place][self.by_name[names[1]]]
                        yield Reason(
                            token.at,
                            f'the pattern "{pattern.name}" calls itself: {" calls ".join(names)}',
                            "no pattern may, directly or through others",
                            name="Recursive",
                            pattern=place,
                        )
                        waiting = []
                        break
                    if called not in came:
                        came[called] = at
                        waiting.append(called)

    def clashes(self, source):
        for place, bodies in enumerate(self.bodies):
            for body in bodies:
                yield from self.clashes_of(source, place, body)
            pattern = self.file.patterns[place]
            for name, _ in pattern.params:
                found = [next(iter(body.use(name.text).kinds.items())) for body in bodies if body.use(name.text).kinds]
                for kind, at in found[1:]:
                    if kind != found[0][0]:
                        said = f'the parameter "{name.text}" of "{pattern.name}" is {said_kind(kind)} here, and {said_kind(found[0][0])} in another body (line {source.line(found[0][1])})'
                        yield Reason(
                            at, said, "a parameter has one kind in all bodies", name="KindClash", pattern=place
                        )

    def clashes_of(self, source, place, body):
        name = body.pattern.name

        def clash(at, said, mend=""):
            return Reason(at, said, mend, name="KindClash", pattern=place)

        for variable, use in body.uses.items():
            if len(use.kinds) > 1:
                (first, at), (second, other) = list(use.kinds.items())[:2]
                yield clash(
                    max(at, other),
                    f'the variable "{variable}" of "{name}" is {said_kind(second if other >= at else first)} here, and {said_kind(first if other >= at else second)} on line {source.line(min(at, other))}',
                    "take two names",
                )
        for made in body.constraints:
            for term, kinds in self.positions(made, body):
                if term.is_constant and any(kind != term.kind for kind in kinds):
                    yield clash(
                        term.at,
                        f"a constant of the kind {term.kind} stands where a value {said_kind(sorted(kinds - {term.kind})[0])} has to stand",
                    )
            if made.form == "differ":
                left, right = (self.term_kinds(term, body) for term in made.terms)
                if any(a != b for a in left for b in right):
                    yield clash(
                        made.token.at,
                        f"`!=` compares a value {said_kind(sorted(left)[0])} with one {said_kind(sorted(right)[0])}",
                    )
            if made.form == "aggregate":
                column = next((i for i, arg in enumerate(made.call.args) if isinstance(arg, Token)), None)
                kinds = self.param_kinds(made.call.name, column) if column is not None else set()
                if any(kind != "int" for kind in kinds):
                    yield clash(
                        made.call.args[column].at,
                        f'`#` marks the parameter {column + 1} of "{made.call.name.text}", which is {said_kind(sorted(kinds - {"int"})[0])}',
                        "sums and the like are of whole numbers",
                    )
            if id(made) in body.exprs:
                yield from self.expression_clashes(made, body, clash)

    def expression_clashes(self, made, body, clash):
        expr = body.exprs[id(made)]
        slots = expr.slots()
        if not all(body.use(slot.slot).kinds for slot in slots):
            return
        objects = [slot for slot in slots if OBJECT in body.use(slot.slot).kinds]
        kinds = self.expr_kinds(made, body)
        if objects:
            yield clash(
                objects[0].token.at,
                f'the variable "{objects[0].slot}" is an object, and stands in an expression',
                "take an attribute's value: Class.attribute(x, v)",
            )
        elif not kinds:
            yield clash(
                made.token.at,
                f"the expression of `{made.token.text}` has operands of kinds that don't fit",
                "arithmetic and < take whole numbers, && || and ! booleans, == and != two of one kind",
            )
        elif made.form == "check" and "boolean" not in kinds:
            yield clash(
                made.token.at,
                f"the expression of `check` is {said_kind(sorted(kinds)[0])}",
                "it has to be true or false: compare it with something",
            )

    def unbound(self, source):
        for place, bodies in enumerate(self.bodies):
            for body in bodies:
                bound = self.bound(body)
                for variable, at in [(n.text, n.at) for n, _ in body.pattern.params] + list(body.occurrences()):
                    if variable not in bound and variable not in body.any:
                        where = (
                            ""
                            if len(bodies) == 1
                            else f" of the body that begins on line {source.line(body.constraints[0].token.at) if body.constraints else source.line(body.pattern.token.at)}"
                        )
                        said = f'no constraint{where} gives the variable "{variable}" of "{body.pattern.name}" a value'
                        yield Reason(at, said, self.how_bound(body, variable), name="Unbound", pattern=place)
                        break

    def how_bound(self, body, variable):
        forms = {
            made.form
            for made in body.constraints
            for term in [*made.terms, *(a for a in (made.call.args if made.call else []) if isinstance(a, Term))]
            if term.name == variable
        }
        if not forms and any(slot.slot == variable for expr in body.exprs.values() for slot in expr.slots()):
            return "it stands in an expression alone, which only asks: give it by a class, a feature, find or =="
        if forms and forms <= {"neg", "aggregate"}:
            return "calls of neg find and of aggregates only ask: give it by a class, a feature, find or =="
        if not forms:
            return "it stands in no constraint: use it in one, or take it away"
        return "a class, a feature or find gives values, and == does where the other side has one"

    def bound(self, body):
        found = set()
        for name, kind in body.pattern.params:
            if kind is not None and type_kind(self.meta, kind) == OBJECT:
                found.add(name.text)
        for made in body.constraints:
            names = {term.name for term in made.terms if term.name is not None}
            if made.form == "type" and type_kind(self.meta, made.type) == OBJECT or made.form == "path":
                found |= names
            if made.form == "find":
                found |= {a.name for a in made.call.args if isinstance(a, Term) and a.name is not None}
        while True:
            before = len(found)
            for made in body.constraints:
                if made.form == "equal":
                    left, right = made.terms
                    for one, other in ((left, right), (right, left)):
                        if one.name is not None and (other.is_constant or other.name in found):
                            found.add(one.name)
                elif made.form == "eval" and made.terms[0].name is not None:
                    if all(slot.slot in found for slot in body.exprs[id(made)].slots()):
                        found.add(made.terms[0].name)
                elif made.form == "aggregate" and made.terms[0].name is not None:
                    args = [a.name for a in made.call.args if isinstance(a, Term) and a.name is not None]
                    if all(name in found or name in body.any for name in args):
                        found.add(made.terms[0].name)
            if len(found) == before:
                return found
