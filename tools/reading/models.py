"""Model documents: their shape, the changes that they stand for, and the model that these make."""
from . import shapes
from .metamodels import KINDS
from .source import Fault, listed, nearest, one_of, perhaps
from .strict_json import parse, said_of

MOST_NUMBER = 1_048_576
UNKNOWN_FEATURE, WRONG_KIND = "UnknownFeature", "WrongKind"


def entry(node, path):
    if node.kind in ("array", "object"):
        mend = 'links to objects stand in "links"' if node.kind == "array" else ""
        yield shapes.misfit(
            node,
            path,
            f" is {said_of(node)}, and an attribute's value is null, true, false, a whole number or a text",
            mend,
        )
    elif node.kind == "number" and (node.value is None or node.value >= 2**63):
        yield shapes.misfit(
            node,
            path,
            f" is {said_of(node)}",
            "an attribute takes whole numbers of 64 bits with a sign, without a point or an exponent",
        )


OBJECT = shapes.object_of(
    "an object",
    {
        "name": shapes.object_name,
        "class": shapes.text,
        "number": shapes.whole,
        "attributes": shapes.entries_of(entry, "attributes", 'write {"pages":5}'),
        "links": shapes.entries_of(shapes.list_of(shapes.object_name, "target"), "links", 'write {"books":["x"]}'),
    },
    ("name", "class"),
    {
        **dict.fromkeys(("type", "kind"), 'the name of an object\'s class is its "class"'),
        "id": 'an object\'s number is its "number"',
        "references": 'an object has "links"; the references are the metamodel\'s',
        **dict.fromkeys(("values", "slots"), 'values stand in "attributes", targets in "links"'),
    },
)
DOCUMENT = shapes.object_of(
    "a model document",
    {"format": shapes.the_format, "next": shapes.whole, "objects": shapes.list_of(OBJECT, "object")},
    ("format", "objects"),
    {
        **dict.fromkeys(
            ("classes", "enums", "uri"), "this looks like a metamodel: its file comes first, the model's second"
        ),
        "name": "a model has no name",
    },
)


class Object:
    def __init__(self, node, number):
        self.node, self.number = node, number
        self.name, self.at = node.value["name"].value, node.value["name"].at
        self.class_name, self.class_at = node.value["class"].value, node.value["class"].at

    def entries(self, key):
        """The entries of its attributes or links in rising order of key: each key, where it stands, and its node."""
        node = self.node.value.get(key)
        return [(name, node.keys[name], node.value[name]) for name in sorted(node.value)] if node else []


def numbered(document):
    """The objects with their numbers, which have to rise; misfits of numbers among what is found."""
    found, misfits, above = [], [], 0
    objects = document.value.get("objects") if document.kind == "object" else None
    if objects is None or objects.kind != "array":
        return [], []
    for i, node in enumerate(objects.value):
        own = node.value.get("number") if node.kind == "object" else None
        if own is not None and (own.kind != "number" or own.value is None or own.value < 0):
            return found, misfits
        number = above if own is None else own.value
        at = node if own is None else own
        if number < above:
            misfits.append(
                shapes.misfit(
                    at,
                    f"objects[{i}].number",
                    f" is {number}, and the numbers of objects rise: the one before has {above - 1}",
                    "leave the number out, and it is one above the one before",
                )
            )
        if number > MOST_NUMBER - 1 and not misfits:
            misfits.append(
                shapes.misfit(at, f"objects[{i}]", f" has the number {number}, and the greatest is {MOST_NUMBER - 1}")
            )
        above = number + 1
        found.append((node, number))
    following = document.value.get("next")
    if (
        following is not None
        and following.kind == "number"
        and following.value is not None
        and following.value >= 0
        and not misfits
    ):
        if following.value < above:
            misfits.append(
                shapes.misfit(
                    following,
                    "next",
                    f" is {following.value}, and has to be above the numbers of all objects, so at least {above}",
                    "leave it out",
                )
            )
        elif following.value > MOST_NUMBER:
            misfits.append(shapes.misfit(following, "next", f" is {following.value}, and is at most {MOST_NUMBER}"))
    return found, misfits


class Change:
    """A change of a document's list: what it does, to which object, and where it stands."""

    __slots__ = ("kind", "object", "key", "at", "value", "target")

    def __init__(self, kind, made, key, at, value=None, target=None):
        self.kind, self.object, self.key, self.at, self.value, self.target = kind, made, key, at, value, target


def changes_of(objects):
    """The changes in their order: all objects, then all attributes, then all links."""
    for made in objects:
        yield Change("create", made, None, made.at)
    for made in objects:
        for key, at, node in made.entries("attributes"):
            yield Change("set", made, key, at, value=node)
    for made in objects:
        for key, at, node in made.entries("links"):
            for target in node.value:
                yield Change("link", made, key, target.at, value=at, target=target.value)


class Model:
    """The objects by name, and the links, each with the change that made it last and the one that took it away."""

    def __init__(self, meta, source):
        self.meta, self.source = meta, source
        self.objects, self.order = {}, []
        # By a reference and its source, and by a reference and its target: the other ends.
        self.targets, self.sources = {}, {}
        # The container of an object with the reference that holds it, and how many each holds.
        self.container, self.holds = {}, {}
        self.values = {}
        # Which change displaced a link that stood.
        self.displaced = {}

    def load(self, document):
        found, _ = numbered(document)
        self.objects_listed = [Object(node, number) for node, number in found]
        for at, change in enumerate(changes_of(self.objects_listed)):
            why = getattr(self, change.kind)(change)
            if why:
                name, where, said, mend = why
                raise Fault(name, at, where, said, mend)
        return self

    # ---- objects

    def create(self, change):
        made = change.object
        said = self.meta.classes.get(made.class_name)
        if said is None:
            concrete = [c.name for c in self.meta.class_list if not c.abstract]
            mend = perhaps(made.class_name, self.meta.classes, f"objects can be of {listed(concrete)}")
            if made.class_name in self.meta.enums:
                mend = "it is an enum, and objects are of classes"
            return (
                "UnknownClass",
                made.class_at,
                f'the class "{made.class_name}" of the object "{made.name}" isn\'t in the metamodel',
                mend,
            )
        if said.abstract:
            below = [n for n in self.meta.below(made.class_name) if not self.meta.classes[n].abstract]
            mend = (
                f"take {one_of(below)}"
                if below
                else 'no class below it is there: declare one, or take the key "abstract" away in the metamodel'
            )
            return (
                "AbstractClass",
                made.class_at,
                f'the class "{made.class_name}" of the object "{made.name}" is abstract, so no object is of it alone',
                mend,
            )
        if made.name in self.objects:
            line = self.source.line(self.objects[made.name].at)
            return (
                "NameTaken",
                made.at,
                f'the name "{made.name}" is taken: an object of line {line} has it already',
                "rename one of the two; the names of objects of all classes differ",
            )
        if made.name.startswith("_") and made.name != f"_{made.number}":
            return (
                "ReservedName",
                made.at,
                f'the name "{made.name}" begins with `_`, and such a name is `_` and the object\'s number, which is {made.number}',
                f'rename it, or write "_{made.number}"',
            )
        self.objects[made.name] = made
        self.order.append(made)
        return None

    # ---- attributes

    def unknown_feature(self, made, key, at, part):
        had = self.meta.features(made.class_name)
        mend = perhaps(key, had, f"it has {listed(had)}" if had else "it has no features")
        lower = [n for n in self.meta.below(made.class_name) if key in self.meta.features(n)]
        others = [c.name for c in self.meta.class_list if key in self.meta.features(c.name)]
        if lower:
            mend = f"{listed(lower)} below it has one: is the object of that class?"
        elif others and nearest(key, had) is None:
            mend = f"{listed(others)} has one; {mend}"
        return (
            UNKNOWN_FEATURE,
            at,
            f'the class "{made.class_name}" of the object "{made.name}" has no feature "{key}"',
            mend,
        )

    def set(self, change):
        made, key, node = change.object, change.key, change.value
        feature = self.meta.features(made.class_name).get(key)
        if feature is None:
            return self.unknown_feature(made, key, change.at, "attributes")
        if feature.is_reference:
            return (
                WRONG_KIND,
                change.at,
                f'"{key}" of the object "{made.name}" is a reference, and stands among its attributes',
                f'write "links":{{"{key}":[..]}}',
            )
        if node.kind == "null":
            self.values.pop((made.name, key), None)
            return None
        wanted = {"int": "number", "boolean": "boolean"}.get(feature.kind, "string")
        if node.kind != wanted:
            words = {"int": "a whole number", "boolean": "true or false", "string": "a text"}
            needs = words.get(feature.kind) or f'the name of a literal of "{feature.kind}" as a text'
            mend = "change the one or the other"
            if node.kind == "string" and wanted != "string":
                mend = "take the quotes away" if fits_unquoted(node.value, wanted) else mend
            elif wanted == "string":
                literals = self.meta.literals(feature.kind) if feature.kind not in KINDS else []
                mend = f"it has {listed(literals)}" if literals else "put it in double quotes"
            elif wanted == "boolean" and node.kind == "number" and node.value in (0, 1):
                mend = f"write {'true' if node.value else 'false'}"
            return (
                WRONG_KIND,
                node.at,
                f'the attribute "{key}" of the object "{made.name}" is of the kind {feature.kind} and takes {needs}, and here stands {said_of(node)}',
                mend,
            )
        if feature.kind not in KINDS and node.value not in self.meta.literals(feature.kind):
            literals = self.meta.literals(feature.kind)
            bare = node.value.rpartition("::")[2].rpartition(".")[2]
            mend = (
                f'write "{bare}" alone'
                if bare in literals
                else perhaps(node.value, literals, f"it has {listed(literals)}")
            )
            return (
                "WrongValue",
                node.at,
                f'the enum "{feature.kind}" has no literal "{node.value}", which the object "{made.name}" gives to "{key}"',
                mend,
            )
        self.values[made.name, key] = node.value
        return None

    # ---- links

    def link(self, change):
        made, key, target = change.object, change.key, change.target
        if target not in self.objects:
            mend = perhaps(target, self.objects)
            if mend:
                mend += f" (line {self.source.line(self.objects[nearest(target, self.objects)].at)})"
            elif target in self.meta.classes:
                mend = "it is a class: a target is the name of an object"
            return (
                "UnknownObject",
                change.at,
                f'the object "{made.name}" names "{target}" as a target of its link "{key}", and no object of this document has that name',
                mend or "add the object, or take the target away",
            )
        feature = self.meta.features(made.class_name).get(key)
        if feature is None:
            return self.unknown_feature(made, key, change.value, "links")
        if not feature.is_reference:
            return (
                WRONG_KIND,
                change.value,
                f'"{key}" of the object "{made.name}" is an attribute, and stands among its links',
                f'write "attributes":{{"{key}":..}}',
            )
        other = self.objects[target]
        if not self.meta.is_a(other.class_name, feature.target):
            said = f'the link "{key}" of the object "{made.name}" leads to objects of the class "{feature.target}", and "{target}" (line {self.source.line(other.at)}) is of "{other.class_name}"'
            fitting = [n for n in self.objects if self.meta.is_a(self.objects[n].class_name, feature.target)]
            return (
                "WrongTarget",
                change.at,
                said,
                perhaps(target, fitting, "name another object, or change the target's class or the metamodel"),
            )
        return self.join(change, feature, made.name, target)

    def join(self, change, feature, name, target):
        if target in self.targets.get((feature.key, name), ()):
            return None
        back = self.meta.opposite(feature)
        if back is not None and back.containment:
            name, target, feature, back = target, name, back, feature
        if feature.containment:
            path = self.chain(name, target)
            if path:
                said = f'by the link "{change.key}" of the object "{change.object.name}" to "{change.target}" the object "{target}" would contain itself'
                inner = " in ".join(f'"{n}"' for n in path)
                said += "" if len(path) == 1 else f": {inner} already"
                return "ContainmentCycle", change.at, said, "take one of these containments away"
        self.make_way(change, feature, back, name, target)
        self.put(feature, name, target)
        if back is not None:
            self.put(back, target, name)
        if feature.containment:
            self.container[target] = (name, feature)
            self.holds[name] = self.holds.get(name, 0) + 1
        return None

    def chain(self, name, target):
        """The containers from an object up to another one, where it is in that one."""
        if name == target:
            return [name]
        if not self.holds.get(target):
            return None
        path = [name]
        while path[-1] in self.container:
            path.append(self.container[path[-1]][0])
            if path[-1] == target:
                return path
        return None

    def make_way(self, change, feature, back, name, target):
        """Drops what the link displaces."""
        old = []
        if not feature.many:
            old += [(feature, name, t) for t in self.targets.get((feature.key, name), ())]
        if back is not None and not back.many:
            old += [(feature, s, target) for s in self.sources.get((feature.key, target), ())]
        if feature.containment and target in self.container:
            holder, by = self.container[target]
            old.append((by, holder, target))
        for by, holder, held in old:
            self.drop(change, by, holder, held)

    def put(self, feature, name, target):
        self.targets.setdefault((feature.key, name), {})[target] = True
        self.sources.setdefault((feature.key, target), {})[name] = True
        self.displaced.pop((feature.key, name, target), None)

    def drop(self, change, feature, name, target):
        """A link goes, with its opposite."""
        back = self.meta.opposite(feature)
        for by, source, end in ((feature, name, target), (back, target, name)):
            if by is None or end not in self.targets.get((by.key, source), ()):
                continue
            del self.targets[by.key, source][end]
            del self.sources[by.key, end][source]
            self.displaced[by.key, source, end] = change
            if by.containment and self.container.get(end, (None,))[0] == source:
                del self.container[end]
                self.holds[source] -= 1


def fits_unquoted(text, wanted):
    return text in ("true", "false") if wanted == "boolean" else text.removeprefix("-").isdigit()


def read_document(source):
    """The document of a file; a Fault where it has none, or another shape."""
    document = parse(source)
    shapes.first_misfit(document, DOCUMENT, numbered(document)[1])
    return document


def read(meta, source):
    """The model of a file; a Fault where it has one."""
    return Model(meta, source).load(read_document(source))
