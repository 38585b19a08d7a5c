"""What a query file that has its grammar may not have, and what of it isn't read yet."""
from .grammar import Term
from .metamodels import KINDS
from .source import listed, perhaps
from .tokens import Token


class Reason:
    """Why a file isn't read: whether it is a mistake in the whole language, where it stands, and what to tell."""

    def __init__(self, at, said, mend, is_mistake=True, name=None, pattern=None):
        self.at, self.said, self.mend, self.is_mistake = at, said, mend, is_mistake
        self.name, self.pattern = name, pattern


def unbuilt(at, form, mend="take it away"):
    return Reason(at, f"{form} isn't read by this version of the program", mend, is_mistake=False)


def later_forms(file):
    """The forms of the whole language that aren't read yet."""
    if file.package:
        yield unbuilt(file.package.at, "a package")
    for word, _ in file.imports:
        yield unbuilt(word.at, "an import")
    for pattern in file.patterns:
        for token in pattern.annotations:
            yield unbuilt(token.at, "an annotation")
        for _, kind in pattern.params:
            if kind is not None and kind.text in KINDS:
                yield unbuilt(
                    kind.at,
                    f"the kind `{kind.text}` as a type",
                    "take the type away: where the variable is an attribute's value, its kind is known",
                )
        if len(pattern.bodies) > 1:
            yield unbuilt(pattern.token.at, f'a pattern with several bodies (`or`), as "{pattern.name}"')
        for made in (c for body in pattern.bodies for c in body):
            if made.form == "type" and made.type.text in KINDS:
                yield unbuilt(made.type.at, f"the kind `{made.type.text}` as a type")
            elif made.form == "path" and len(made.path) > 1:
                yield unbuilt(
                    made.type.at,
                    "a path of several features",
                    f"write a constraint for each, with a variable between: {made.type.text}.{made.path[0].text}(x, m); ..",
                )
            elif made.form not in ("type", "path"):
                words = {
                    "find": "a call of a pattern (`find`)",
                    "neg": "a negation (`neg find`)",
                    "check": "`check`",
                    "eval": "`eval`",
                }
                shown = words.get(made.form) or (
                    f"an aggregate (`{made.aggregate.text}`)" if made.aggregate else "a comparison by `==` or `!=`"
                )
                yield unbuilt(made.token.at, shown)
            for term in made.terms:
                if term.is_constant and made.form in ("type", "path"):
                    yield unbuilt(term.at, "a constant")


def duplicates(source, file):
    seen = {}
    for place, pattern in enumerate(file.patterns):
        if pattern.name in seen:
            line = source.line(seen[pattern.name].at)
            yield Reason(
                pattern.token.at,
                f'the name "{pattern.name}" is taken: a pattern of line {line} has it',
                "rename one of the two",
                name="DuplicatePattern",
                pattern=place,
            )
        seen.setdefault(pattern.name, pattern.token)
        own = {}
        for name, _ in pattern.params:
            if name.text in own:
                yield Reason(
                    name.at,
                    f'the pattern "{pattern.name}" has two parameters "{name.text}"',
                    "rename one of the two",
                    name="DuplicatePattern",
                    pattern=place,
                )
            own[name.text] = name


def literal_reason(meta, enum, literal, place):
    if enum.text not in meta.enums:
        return Reason(
            enum.at,
            f'there is no enum "{enum.text}"',
            perhaps(
                enum.text,
                meta.enums,
                f"the metamodel has {listed(meta.enums)}" if meta.enums else "the metamodel has none",
            ),
            name="UnknownName",
            pattern=place,
        )
    had = meta.literals(enum.text)
    if literal.text not in had:
        return Reason(
            literal.at,
            f'the enum "{enum.text}" has no literal "{literal.text}"',
            perhaps(literal.text, had, f"it has {listed(had)}"),
            name="UnknownName",
            pattern=place,
        )
    return None


def no_class(meta, token, place, what):
    said = f'there is no class "{token.text}"'
    mend = perhaps(token.text, meta.classes, f"the metamodel has {listed(meta.classes)}")
    if token.text in KINDS or token.text in meta.enums:
        said = f'"{token.text}" is {"a kind" if token.text in KINDS else "an enum"} and no class'
        mend = (
            "a path begins with the class that has the feature"
            if what == "path"
            else "take the type away: of an attribute's value the kind is known"
        )
    return Reason(token.at, said, mend, name="UnknownName", pattern=place)


def path_reason(meta, made, place):
    """What is unknown in a path, if anything is."""
    at_class = made.type.text
    if at_class not in meta.classes:
        return no_class(meta, made.type, place, "path")
    for i, token in enumerate(made.path):
        had = meta.features(at_class)
        feature = had.get(token.text)
        if feature is None:
            mend = perhaps(token.text, had, f"it has {listed(had)}" if had else "it has no features")
            lower = [n for n in meta.below(at_class) if token.text in meta.features(n)]
            if lower:
                mend = f"{listed(lower)} below it has one: write {lower[0]}.{token.text}(..)"
            return Reason(
                token.at,
                f'the class "{at_class}" has no feature "{token.text}"',
                mend,
                name="UnknownName",
                pattern=place,
            )
        if i + 1 < len(made.path):
            if not feature.is_reference:
                return Reason(
                    token.at,
                    f'"{token.text}" of "{at_class}" is an attribute, and a path goes on behind references alone',
                    "",
                    name="UnknownName",
                    pattern=place,
                )
            at_class = feature.target
    return None


def names(meta, file, whole):
    """Names that aren't there. With `whole` a type may be a kind or an enum."""
    known = {p.name for p in file.patterns}
    for place, pattern in enumerate(file.patterns):
        types = [kind for _, kind in pattern.params if kind is not None]
        constraints = [c for body in pattern.bodies for c in body]
        types += [c.type for c in constraints if c.form == "type"]
        for token in types:
            is_kind = token.text in KINDS or token.text in meta.enums
            if (
                token.text not in meta.classes
                and token.text != "java"
                and not (is_kind and (whole or token.text in KINDS))
            ):
                yield no_class(meta, token, place, "type")
        for made in constraints:
            reason = path_reason(meta, made, place) if made.form == "path" else None
            if reason:
                yield reason
            if made.call is not None and made.call.name.text not in known:
                mend = perhaps(made.call.name.text, known, f"the file has {listed(sorted(known))}")
                yield Reason(
                    made.call.name.at,
                    f'there is no pattern "{made.call.name.text}"',
                    mend,
                    name="UnknownName",
                    pattern=place,
                )
            args = [a for a in (made.call.args if made.call else []) if isinstance(a, Term)]
            literals = [term.literal for term in [*made.terms, *args] if term.literal]
            literals += [
                (a, c) for a, b, c in zip(made.inner, made.inner[1:], made.inner[2:]) if b.is_("::") and a.is_id
            ]
            for enum, literal in literals:
                reason = literal_reason(meta, enum, literal, place)
                if reason:
                    yield reason


def arities(source, file):
    by_name = {}
    for pattern in file.patterns:
        by_name.setdefault(pattern.name, pattern)
    for place, pattern in enumerate(file.patterns):
        for made in (c for body in pattern.bodies for c in body if c.call is not None):
            called, marks = by_name.get(made.call.name.text), [a for a in made.call.args if isinstance(a, Token)]
            if called is not None and len(called.params) != len(made.call.args):
                said = f'"{called.name}" has {counted(len(called.params), "parameter")} (line {source.line(called.token.at)}), and is given {len(made.call.args)} here'
                yield Reason(
                    made.call.name.at, said, "give one for each; `_` for any", name="WrongArity", pattern=place
                )
            elif made.form == "aggregate" and len(marks) != 1:
                yield Reason(
                    made.call.name.at,
                    f"an aggregate has one `#`, and here stand {len(marks)}",
                    "mark the parameter whose values are taken",
                    name="WrongArity",
                    pattern=place,
                )
            elif made.form != "aggregate" and marks:
                yield Reason(
                    marks[0].at,
                    "`#` stands in the calls of aggregates alone",
                    "write `_` for any value",
                    name="WrongArity",
                    pattern=place,
                )


def counted(count, what):
    return f"{count} {what}{'' if count == 1 else 's'}"


def limits(file):
    if len(file.patterns) > 512:
        yield Reason(
            file.patterns[512].token.at,
            "this is the 513th pattern, and there may be 512",
            "split the file",
            name="TooMany",
            pattern=512,
        )
    for place, pattern in enumerate(file.patterns):
        at, counts = pattern.token.at, [(len(pattern.params), 16, "parameter"), (len(pattern.bodies), 32, "bodie")]
        declared = sum(kind is not None for _, kind in pattern.params)
        for body in pattern.bodies:
            counts.append((declared + sum(max(1, len(c.path)) for c in body), 128, "constraint"))
            counts.append((len(variables(pattern, body)), 64, "variable"))
        for count, most, what in counts:
            if count > most:
                said = f'the pattern "{pattern.name}" has {count} {what}s, and may have {most}'
                yield Reason(
                    at,
                    said,
                    "declared types are constraints too, and each `_` is a variable"
                    if what in ("constraint", "variable")
                    else "",
                    name="TooMany",
                    pattern=place,
                )
                break


def variables(pattern, body):
    """The variables of a body: parameters, names, each `_` outside of calls that ask for nothing, each middle of a path."""
    found = [name.text for name, _ in pattern.params]
    for made in body:
        blanks = made.form not in ("neg", "aggregate")
        args = [a for a in (made.call.args if made.call else []) if isinstance(a, Term)]
        for term in [*made.terms, *args]:
            if term.name is not None and term.name not in found:
                found.append(term.name)
            if term.is_blank and (blanks or term in made.terms):
                found.append(None)
        found += [None] * max(0, len(made.path) - 1)
    return found


def narrow_kinds(source, meta, file):
    """Variables of a narrow file that have two kinds, and parameters that stand nowhere."""
    for place, pattern in enumerate(file.patterns):
        found = {}
        for name, kind in pattern.params:
            if kind is not None and kind.text != "java":
                is_kind = kind.text in KINDS or kind.text in meta.enums
                yield from used(
                    source,
                    found,
                    pattern,
                    name.text,
                    name.at,
                    f"of the kind {kind.text}" if is_kind else "an object",
                    place,
                )
        for made in (c for body in pattern.bodies for c in body):
            if made.form == "type" and made.terms[0].name:
                yield from used(source, found, pattern, made.terms[0].name, made.terms[0].at, "an object", place)
            elif made.form == "path" and len(made.path) == 1:
                feature = (
                    meta.features(made.type.text).get(made.path[0].text) if made.type.text in meta.classes else None
                )
                for term, kind in zip(
                    made.terms,
                    ("an object", feature and ("an object" if feature.is_reference else f"of the kind {feature.kind}")),
                ):
                    if term.name and kind:
                        yield from used(source, found, pattern, term.name, term.at, kind, place)
        for body in pattern.bodies:
            for name, kind in pattern.params:
                if kind is None and name.text not in standing(body):
                    where = (
                        "constraint"
                        if len(pattern.bodies) == 1
                        else f"constraint of the body that begins on line {source.line(body[0].token.at) if body else source.line(pattern.token.at)}"
                    )
                    yield Reason(
                        name.at,
                        f'the parameter "{name.text}" of "{pattern.name}" stands in no {where}',
                        "use it in one, or take it away",
                        name="Unbound",
                        pattern=place,
                    )


def standing(body):
    """The names that stand in the constraints of a body."""
    found = set()
    for made in body:
        args = [a for a in (made.call.args if made.call else []) if isinstance(a, Term)]
        found |= {term.name for term in [*made.terms, *args]} | {token.text for token in made.inner if token.is_id}
    return found


def used(source, found, pattern, name, at, kind, place):
    """A variable is used as a kind: a reason where it was used as another one."""
    if name not in found:
        found[name] = kind, at
    elif found[name][0] != kind:
        said = f'the variable "{name}" of "{pattern.name}" is {kind} here, and {found[name][0]} on line {source.line(found[name][1])}'
        yield Reason(at, said, "take two names", name="KindClash", pattern=place)


def reasons(meta, source, file):
    """Why a file that has its grammar isn't read by this version: mistakes first, each in file order."""
    mistakes = [
        *duplicates(source, file),
        *names(meta, file, False),
        *arities(source, file),
        *narrow_kinds(source, meta, file),
        *limits(file),
    ]
    mistakes.sort(key=lambda reason: reason.at)
    return mistakes, sorted(later_forms(file), key=lambda reason: reason.at)
