"""Metamodel documents: their shape, their faults, and what classes and features they have."""
from . import shapes
from .source import Fault, listed, perhaps
from .strict_json import parse

KINDS = ("int", "boolean", "string")
# What other languages call the three kinds.
OTHER_KINDS = {
    **dict.fromkeys(("integer", "long", "short", "number", "eint", "elong", "i64", "int64", "int32", "nat"), "int"),
    **dict.fromkeys(("bool", "eboolean", "truth"), "boolean"),
    **dict.fromkeys(("str", "text", "estring", "char", "varchar"), "string"),
}
FLOATS = ("float", "double", "real", "decimal", "efloat", "edouble")
MOST_CLASSES, MOST_ENUMS, MOST_LITERALS, MOST_FEATURES = 1024, 1024, 1024, 4096

ENUM = shapes.object_of(
    "an enum",
    {"name": shapes.identifier, "literals": shapes.list_of(shapes.identifier, "literal", least=1)},
    ("name", "literals"),
)
ATTRIBUTE = shapes.object_of(
    "an attribute",
    {"name": shapes.identifier, "kind": shapes.text},
    ("name", "kind"),
    {
        "type": 'an attribute\'s type is its "kind"',
        "target": 'what has a "target" is a reference, and stands under "references"',
        "default": "defaults are fixed: 0, false, an enum's first literal, and no text",
        "many": "an attribute has one value at most",
    },
)
REFERENCE = shapes.object_of(
    "a reference",
    {
        "name": shapes.identifier,
        "target": shapes.text,
        "many": shapes.boolean,
        "containment": shapes.boolean,
        "opposite": shapes.identifier,
    },
    ("name", "target"),
    {
        "type": 'the class that a reference leads to is its "target"',
        "kind": 'what has a "kind" is an attribute, and stands under "attributes"',
        "multiple": 'a reference to any number of objects is "many"',
    },
)
CLASS = shapes.object_of(
    "a class",
    {
        "name": shapes.identifier,
        "abstract": shapes.boolean,
        "supers": shapes.list_of(shapes.identifier, "name"),
        "attributes": shapes.list_of(ATTRIBUTE, "attribute"),
        "references": shapes.list_of(REFERENCE, "reference"),
    },
    ("name",),
    {
        **dict.fromkeys(
            ("super", "extends", "supertypes", "superTypes", "eSuperTypes"), 'supertypes stand in the list "supers"'
        ),
        **dict.fromkeys(("features", "properties", "fields"), 'features stand in "attributes" and "references"'),
        "links": 'a class has "references"; the links are the model\'s',
    },
)
DOCUMENT = shapes.object_of(
    "a metamodel document",
    {
        "format": shapes.the_format,
        "uri": shapes.text,
        "enums": shapes.list_of(ENUM, "enum"),
        "classes": shapes.list_of(CLASS, "class"),
    },
    ("format", "classes"),
    {
        **dict.fromkeys(
            ("objects", "next"), "this looks like a model: the metamodel's file comes first, the model's second"
        ),
        "name": 'a metamodel has no name; the text that queries import is its "uri"',
    },
)


def held(node, key, otherwise):
    return node.value[key].value if key in node.value else otherwise


class Feature:
    """An attribute or a reference: its name, its class, and the node that declares it."""

    def __init__(self, owner, node, is_reference):
        self.owner, self.node, self.is_reference = owner, node, is_reference
        self.name, self.at = node.value["name"].value, node.value["name"].at
        self.kind = None if is_reference else node.value["kind"].value
        self.target = node.value["target"].value if is_reference else None
        self.many, self.containment = held(node, "many", False), held(node, "containment", False)
        self.opposite = held(node, "opposite", None)

    @property
    def key(self):
        return self.owner, self.name


class Class:
    def __init__(self, node):
        self.node, self.name, self.at = node, node.value["name"].value, node.value["name"].at
        self.abstract = held(node, "abstract", False)
        self.supers = [(n.value, n.at) for n in held(node, "supers", [])]
        attributes = [Feature(self.name, n, False) for n in held(node, "attributes", [])]
        self.features = attributes + [Feature(self.name, n, True) for n in held(node, "references", [])]


class Enum:
    def __init__(self, node):
        self.name, self.at = node.value["name"].value, node.value["name"].at
        self.literals = [(n.value, n.at) for n in node.value["literals"].value]


class Metamodel:
    """What a document declares. Of two things with one name the first is found by it."""

    def __init__(self, document):
        self.uri = held(document, "uri", "")
        self.enum_list = [Enum(n) for n in held(document, "enums", [])]
        self.class_list = [Class(n) for n in document.value["classes"].value]
        self.enums, self.classes = {}, {}
        for found, items in ((self.enums, self.enum_list), (self.classes, self.class_list)):
            for item in items:
                found.setdefault(item.name, item)
        self._features, self._above = {}, {}

    def above(self, name):
        """A class and all above it, each once, what is nearer before what is above that."""
        if name not in self._above:
            found, waiting = [], [name]
            while waiting:
                next_name = waiting.pop(0)
                if next_name in self.classes and next_name not in found:
                    found.append(next_name)
                    waiting += [s for s, _ in self.classes[next_name].supers]
            self._above[name] = found
        return self._above[name]

    def is_a(self, name, other):
        return other in self.above(name)

    def below(self, name):
        """The other classes that are of this one."""
        return [c.name for c in self.class_list if c.name != name and self.is_a(c.name, name)]

    def features(self, name):
        """The features that a class has, by their names."""
        if name not in self._features:
            found = {}
            for owner in self.above(name):
                for feature in self.classes[owner].features:
                    found.setdefault(feature.name, feature)
            self._features[name] = found
        return self._features[name]

    def opposite(self, feature):
        """The reference that answers one, if it has an opposite."""
        if not feature.opposite or feature.target not in self.classes:
            return None
        there = self.classes[feature.target].features
        return next((f for f in there if f.is_reference and f.name == feature.opposite), None)

    def literals(self, kind):
        return [name for name, _ in self.enums[kind].literals]


def read(source):
    """The metamodel of a file; a Fault where it has one."""
    document = parse(source)
    shapes.first_misfit(document, DOCUMENT)
    meta = Metamodel(document)
    for fault in (duplicate, unknown_type, super_cycle, bad_opposite, bad_containment, clash, too_many):
        fault(meta, source)
    return meta


def places(meta):
    """The classes with their places behind the enums."""
    return enumerate(meta.class_list, len(meta.enum_list))


def duplicate(meta, source):
    seen = {}
    for place, item in enumerate([*meta.enum_list, *meta.class_list]):
        what = "the enum" if isinstance(item, Enum) else "the class"
        if item.name in KINDS:
            raise Fault(
                "DuplicateName", place, item.at, f'{what} "{item.name}" has the name of a kind', "give it another name"
            )
        if item.name in seen:
            line = source.line(seen[item.name])
            raise Fault(
                "DuplicateName",
                place,
                item.at,
                f'the name "{item.name}" is taken: it stands on line {line} already',
                "rename one of the two; enums and classes share their names",
            )
        seen[item.name] = item.at
        inner = item.literals if isinstance(item, Enum) else [(f.name, f.at) for f in item.features]
        first = {}
        for name, at in inner:
            if name in first:
                part = "literal" if isinstance(item, Enum) else "feature"
                raise Fault(
                    "DuplicateName",
                    place,
                    at,
                    f'{what} "{item.name}" has two {part}s "{name}": the other one is on line {source.line(first[name])}',
                    "rename one of the two"
                    if part == "literal"
                    else "rename one of the two; attributes and references share their names",
                )
            first[name] = at


def unknown_type(meta, source):
    for place, item in places(meta):
        for name, at in item.supers:
            if name not in meta.classes:
                mend = (
                    f'"{name}" is an enum, and none has subclasses'
                    if name in meta.enums
                    else perhaps(name, meta.classes, "declare it, or take it away")
                )
                raise Fault(
                    "UnknownType", place, at, f'the supertype "{name}" of the class "{item.name}" is no class', mend
                )
        for feature in item.features:
            if not feature.is_reference and feature.kind not in KINDS and feature.kind not in meta.enums:
                at = feature.node.value["kind"].at
                raise Fault(
                    "UnknownType",
                    place,
                    at,
                    f'the kind "{feature.kind}" of the attribute "{feature.name}" of "{item.name}" is none of int, boolean and string, and no enum',
                    of_kind(meta, feature.kind),
                )
        for feature in item.features:
            if feature.is_reference and feature.target not in meta.classes:
                at = feature.node.value["target"].at
                mend = perhaps(feature.target, meta.classes, "declare it, or take the reference away")
                if feature.target in meta.enums or feature.target in KINDS:
                    mend = f'make it an attribute of the kind "{feature.target}"'
                raise Fault(
                    "UnknownType",
                    place,
                    at,
                    f'the target "{feature.target}" of the reference "{feature.name}" of "{item.name}" is no class',
                    mend,
                )


def of_kind(meta, name):
    folded = name.casefold()
    if folded in FLOATS:
        return "there are no numbers with a point: take int"
    if folded in OTHER_KINDS:
        return f'write "{OTHER_KINDS[folded]}"'
    if name in meta.classes:
        return f'"{name}" is a class: make it a reference with this target'
    return perhaps(name, [*KINDS, *meta.enums], "take one of these, or declare the enum")


def ring(meta, name):
    """A path of supertypes from a class back to it, if there is one."""
    came, waiting = {}, [name]
    while waiting:
        at = waiting.pop(0)
        for above, _ in meta.classes[at].supers:
            if above == name:
                path = [at]
                while path[-1] != name:
                    path.append(came[path[-1]])
                return [*reversed(path), name]
            if above not in came and above in meta.classes:
                came[above] = at
                waiting.append(above)
    return None


def super_cycle(meta, source):
    for place, item in places(meta):
        path = ring(meta, item.name) if item.supers else None
        if path:
            at = next(at for name, at in item.supers if name == path[1])
            lines = sorted({source.line(meta.classes[name].at) for name in path})
            said = f'the class "{item.name}" is above itself: {" under ".join(path)}'
            raise Fault(
                "SuperCycle",
                place,
                at,
                said,
                f"take one of these supertypes away ({'line' if len(lines) == 1 else 'lines'} {', '.join(map(str, lines))})",
            )


def why_no_opposite(meta, item, feature):
    """Why the opposite that a reference names doesn't answer it, and where to look besides; none where it does."""
    target = meta.classes[feature.target]
    back = meta.opposite(feature)
    if back is None:
        has = meta.features(feature.target).get(feature.opposite)
        if has is not None and has.owner != feature.target:
            return (
                f'"{feature.target}" has "{feature.opposite}" from the class "{has.owner}", and doesn\'t declare it itself',
                "declare it there, or lead the reference to that class",
            )
        if has is not None:
            return f'"{feature.opposite}" of "{feature.target}" is an attribute', "an opposite is a reference"
        references = [f.name for f in target.features if f.is_reference]
        owners = [
            c.name for c in meta.class_list for f in c.features if f.name == feature.opposite and f.target == item.name
        ]
        if owners:
            return (
                f'the class "{feature.target}" declares no reference "{feature.opposite}"',
                f'"{owners[0]}" declares one that leads here: is that the target?',
            )
        return f'the class "{feature.target}" declares no reference "{feature.opposite}"', perhaps(
            feature.opposite, references, f"it declares {listed(references)}" if references else "declare it there"
        )
    if back.owner == item.name and back.name == feature.name:
        return "it names itself", "an opposite is another reference"
    if back.target != item.name:
        return (
            f'"{back.name}" of "{back.owner}" leads to "{back.target}", and not to "{item.name}"',
            f'"target":"{item.name}" there, or declare this one in "{back.target}"',
        )
    if back.opposite is None:
        return f'"{back.name}" of "{back.owner}" names no opposite', f'write "opposite":"{feature.name}" there too'
    if back.opposite != feature.name:
        return (
            f'"{back.name}" of "{back.owner}" names "{back.opposite}" as its opposite, and not "{feature.name}"',
            "each of the two has to name the other one",
        )
    return None


def bad_opposite(meta, source):
    for place, item in places(meta):
        for feature in item.features:
            if not feature.is_reference or feature.opposite is None:
                continue
            why = why_no_opposite(meta, item, feature)
            if why:
                back = meta.opposite(feature)
                there = f" (line {source.line(back.at)})" if back is not None else ""
                at = feature.node.value["opposite"].at
                said = f'the reference "{feature.name}" of "{item.name}" names "{feature.opposite}" as its opposite, but {why[0]}{there}'
                raise Fault("BadOpposite", place, at, said, why[1])


def bad_containment(meta, source):
    for place, item in places(meta):
        for feature in item.features:
            back = meta.opposite(feature) if feature.is_reference and feature.containment else None
            if back is not None and (back.containment or back.many):
                what = "a containment too" if back.containment else "many"
                said = f'the opposite "{back.name}" of "{back.owner}" (line {source.line(back.at)}) of the containment "{feature.name}" of "{item.name}" is {what}'
                mend = f'take "{"containment" if back.containment else "many"}" away there: an object is in one container at most'
                raise Fault("BadContainment", place, feature.at, said, mend)


def clash(meta, source):
    for place, item in places(meta):
        first = {}
        for owner in meta.above(item.name):
            for feature in meta.classes[owner].features:
                other = first.setdefault(feature.name, feature)
                if other is not feature:
                    lines = f'"{other.owner}" (line {source.line(other.at)}) and "{feature.owner}" (line {source.line(feature.at)})'
                    said = f'the class "{item.name}" has two features "{feature.name}": those of {lines}'
                    raise Fault(
                        "FeatureClash",
                        place,
                        item.at,
                        said,
                        "rename one of the two, or declare it once in a class above both",
                    )


def too_many(meta, source):
    most_literals = next((e for e in meta.enum_list if len(e.literals) > MOST_LITERALS), None)
    features = sum(len(c.features) for c in meta.class_list)
    counts = [
        (len(meta.class_list), MOST_CLASSES, "classes", lambda: meta.class_list[MOST_CLASSES].at),
        (len(meta.enum_list), MOST_ENUMS, "enums", lambda: meta.enum_list[MOST_ENUMS].at),
        (
            len(most_literals.literals) if most_literals else 0,
            MOST_LITERALS,
            f'literals of the enum "{most_literals.name}"' if most_literals else "",
            lambda: most_literals.literals[MOST_LITERALS][1],
        ),
        (
            features,
            MOST_FEATURES,
            "attributes and references",
            lambda: [f.at for c in meta.class_list for f in c.features][MOST_FEATURES],
        ),
    ]
    for count, most, what, at in counts:
        if count > most:
            raise Fault(
                "TooMany",
                count,
                at(),
                f"{count} {what}, of which there may be {most}; here is the first past these",
                "split the metamodel",
            )
