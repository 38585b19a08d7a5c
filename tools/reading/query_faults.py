"""The faults of query files, as the program tells them."""
from . import expressions, grammar, inference, queries
from .source import Fault, not_text


def explained(meta, source, name, place):
    """The fault that the program tells of a file, as this reading sees it; none where it sees none there."""
    if source.bad_byte is not None:
        return not_text(source, "NotText", 0)
    try:
        file = grammar.parse(source)
    except Fault as fault:
        # The program may read too little to tell a fault of the grammar by its name.
        return (
            Fault(name, place, fault.at, fault.said, fault.mend)
            if name == "NotBuilt" and fault.name == "Syntax"
            else fault
        )
    if name == "NotBuilt":
        mistakes, forms = queries.reasons(meta, source, file)
        for reason in [*mistakes, *forms]:
            return Fault(name, place, reason.at, reason.said, reason.mend)
        return None
    return whole_language(meta, source, file, name, place)


def whole_language(meta, source, file, name, place):
    """A fault of the whole language, by its name and its place."""
    if name == "UnknownImport" and place < len(file.imports):
        token = file.imports[place][1]
        return Fault(
            name,
            place,
            token.at,
            f'the metamodel\'s uri is "{meta.uri}", and not {token.text}',
            'import that one, or change the metamodel\'s "uri"',
        )
    if name == "Unsupported":
        return next((f for f in unsupported(source, file) if f.place == place), None)
    # What follows asks for names that are there.
    every = [
        *queries.duplicates(source, file),
        *queries.names(meta, file, True),
        *queries.arities(source, file),
        *queries.limits(file),
    ]
    if not every:
        program = inference.Program(meta, file)
        every = [*program.recursive(), *program.clashes(source), *program.unbound(source)]
    for reason in every:
        if reason.name == name and reason.pattern == place:
            return Fault(name, place, reason.at, reason.said, reason.mend)
    return None


def unsupported(source, file):
    """Forms that are refused for good, in file order."""
    found = []
    for pattern in file.patterns:
        found += [(kind, kind, "a java type") for _, kind in pattern.params if kind is not None and kind.is_("java")]
        for made in (c for body in pattern.bodies for c in body):
            if made.call is not None and made.call.closure:
                found.append((made.call.closure, made.call.closure, f"the closure `{made.call.closure.text}`"))
            if made.aggregate is not None and made.aggregate.is_("count", "avg"):
                found.append((made.aggregate, made.aggregate, f"`{made.aggregate.text} find`"))
            if made.type is not None and made.type.is_("java"):
                found.append((made.type, made.type, "a java type"))
            if made.form in ("check", "eval"):
                try:
                    expressions.parse(made.inner)
                except expressions.NoExpression as why:
                    shown = (
                        f"{why.token.said()} at this place of `{made.token.text}(..)`"
                        if why.token
                        else f"this unfinished expression in `{made.token.text}(..)`"
                    )
                    # It is told with the line of the check or the eval, and stands where it is no expression.
                    found.append((made.token, why.token or made.token, shown))
    for token, at, what in sorted(found, key=lambda item: item[0].at):
        yield Fault(
            "Unsupported",
            source.line(token.at),
            at.at,
            f"{what} isn't a part of the language here",
            "docs/QUERIES.md has what is",
        )
