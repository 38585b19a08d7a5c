"""Shapes of JSON: the keys of each object, and what stands under them.

A shape is a function that takes a node and its path and yields each misfit in it; a misfit is where it ranks
among others, where it stands, and what to tell of it.
"""
from .source import IDENTIFIER, OBJECT_NAME, Fault, listed, nearest, why_no_name
from .strict_json import said_of


def misfit(node, path, said, mend="", rank=None):
    return (node.at if rank is None else rank, node.at, f"{path}{said}", mend)


def text(node, path):
    if node.kind != "string":
        mend = "put it in double quotes" if node.kind in ("number", "boolean") else ""
        yield misfit(node, path, f" is {said_of(node)}, and has to be a text", mend)


def boolean(node, path):
    if node.kind != "boolean":
        mend = "take the quotes away" if node.kind == "string" and node.value in ("true", "false") else ""
        yield misfit(node, path, f" is {said_of(node)}, and has to be true or false", mend)


def whole(node, path):
    if node.kind == "number" and (node.value is None or node.value < 0):
        yield misfit(
            node, path, f" is {said_of(node)}, and has to be a whole number from 0 on, without a point or an exponent"
        )
    elif node.kind != "number":
        mend = "take the quotes away" if node.kind == "string" and node.value.isdigit() else ""
        yield misfit(node, path, f" is {said_of(node)}, and has to be a whole number", mend)


def named(allowed):
    def shape(node, path):
        if node.kind != "string":
            yield misfit(node, path, f" is {said_of(node)}, and has to be a name")
            return
        why = why_no_name(node.value, allowed)
        if why:
            yield misfit(node, path, f" is {said_of(node)}, which is no name", why)

    return shape


identifier, object_name = named(IDENTIFIER), named(OBJECT_NAME)


def the_format(node, path):
    if node.kind != "number" or node.value != 1:
        yield misfit(
            node, path, f" is {said_of(node)}, and has to be the number 1", "this program reads format 1 alone"
        )


def list_of(shape, what, least=0):
    def of_list(node, path):
        if node.kind != "array":
            mend = (
                f"write [ ] around it, also where it has one {what}"
                if node.kind in ("string", "object", "number")
                else ""
            )
            if node.kind == "null":
                mend = "leave the key out, or write [ ] for an empty list"
            yield misfit(node, path, f" is {said_of(node)}, and has to be a list", mend)
            return
        if len(node.value) < least:
            yield misfit(node, path, f" is empty, and has to have at least one {what}")
        for i, item in enumerate(node.value):
            yield from shape(item, f"{path}[{i}]")

    return of_list


def object_of(what, shapes, required, elsewhere=()):
    """An object with these keys and no others; `elsewhere` says of some keys where they belong."""
    where = dict(elsewhere)

    def of_object(node, path):
        here = path.removesuffix(".")
        if node.kind != "object":
            yield misfit(node, here or "the document", f" is {said_of(node)}, and has to be {what}, an object in {{ }}")
            return
        inside = f"{here}." if here else ""
        for key, held in node.value.items():
            at = node.keys[key]
            if key in shapes:
                yield from shapes[key](held, f"{inside}{key}")
                continue
            said = f'the key "{key}" is none of {what}, which has {listed(shapes, 9)}'
            found = nearest(key, shapes)
            if found in node.value:
                found = None
            mend = f'perhaps "{found}" is meant' if found else where.get(key, "take it away")
            yield (at, at, f"{inside}{key}: {said}" if inside else said, mend)
        for key in required:
            if key not in node.value:
                yield misfit(
                    node,
                    here,
                    f"{': ' if here else ''}{what} has no key \"{key}\", which it has to have",
                    "",
                    rank=node.end,
                )

    return of_object


def entries_of(shape, what, how):
    """An object whose keys are free."""

    def of_entries(node, path):
        if node.kind != "object":
            yield misfit(node, path, f" is {said_of(node)}, and has to be an object in {{ }}", how)
            return
        for key, held in node.value.items():
            yield from shape(held, f"{path}.{key}")

    return of_entries


def first_misfit(node, shape, more=()):
    """The fault of a document that hasn't its shape: its first misfit in the file, if it has any."""
    found = min([*shape(node, ""), *more], default=None)
    if found:
        _, at, said, mend = found
        raise Fault("BadShape", 0, at, said, mend)
