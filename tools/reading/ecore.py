"""Metamodels of Ecore, and the documents that they become."""
import json
import re

from .source import IDENTIFIER, why_no_name
from .xml_file import Notes, Unreadable, read_xml, written

ECORE = "http://www.eclipse.org/emf/2002/Ecore"
INTEGERS = (
    "EInt",
    "EIntegerObject",
    "ELong",
    "ELongObject",
    "EShort",
    "EShortObject",
    "EByte",
    "EByteObject",
    "EBigInteger",
)
BOOLEANS = ("EBoolean", "EBooleanObject")
# Of a data type of its own: the kind of the Java values that it stands for.
INSTANCES = {
    **dict.fromkeys(
        ("int", "long", "short", "byte", *(f"java.lang.{n}" for n in ("Integer", "Long", "Short", "Byte"))), "int"
    ),
    **dict.fromkeys(("boolean", "java.lang.Boolean"), "boolean"),
    "java.lang.String": "string",
}
DEFAULTS = {"int": "0", "boolean": "false", "string": None}


class Classifier:
    def __init__(self, element, package, path):
        self.element, self.package, self.path = element, package, path
        self.ecore_name, self.sort = element.get("name", ""), (element.type or ("", "EClass"))[1]
        self.name = self.ecore_name
        # Of a class: its supertypes, its features by their Ecore names; of an enum: its literals.
        self.supers, self.features, self.literals = [], {}, []

    def said(self):
        return f"{self.package.get('name', '')}.{self.ecore_name}"


class Feature:
    """An attribute or a reference that is taken over."""

    def __init__(self, owner, element, is_reference):
        self.owner, self.element, self.is_reference = owner, element, is_reference
        self.ecore_name = self.name = element.get("name", "")
        self.kind, self.enum, self.target, self.opposite = None, None, None, None
        self.many = is_reference and element.get("upperBound", "1") != "1"
        self.containment = is_reference and element.is_true("containment")
        self.default = element.get("defaultValueLiteral")


class Metamodel:
    def __init__(self, name):
        self.notes, self.root = Notes(name), read_xml(name)
        self.packages = (
            [self.root] if self.root.name == "EPackage" else [e for e in self.root.children if e.name == "EPackage"]
        )
        if not self.packages or self.packages[0].space != ECORE:
            raise Unreadable(f"{name}:{self.root.line}: the root is no ecore:EPackage")
        self.classifiers, self.by_element, self.uris = [], {}, {}
        for place, package in enumerate(self.packages):
            self.collect(package, [place])
        self.rename()
        for found in self.classifiers:
            if found.sort == "EEnum":
                self.read_enum(found)
        for found in self.classifiers:
            if found.sort == "EClass":
                self.read_class(found)
        for found in self.classifiers:
            for feature in found.features.values():
                self.pair(feature)
        self.count_ordered()

    def collect(self, package, path):
        self.uris[package.get("nsURI", "")] = package
        for element in package.children:
            if element.name == "eClassifiers":
                made = Classifier(element, package, [*path, element.get("name")])
                self.classifiers.append(made)
                self.by_element[id(element)] = made
            elif element.name == "eSubpackages":
                self.collect(element, [*path, element.get("name")])
            elif element.name == "eAnnotations":
                self.notes.tell(element, f"an annotation of the package {package.get('name')} is left out")

    def rename(self):
        """Names that fit, and differ over all packages."""
        kept = [c for c in self.classifiers if c.sort in ("EClass", "EEnum")]
        count = {}
        for found in kept:
            count[found.ecore_name] = count.get(found.ecore_name, 0) + 1
        for found in kept:
            if count[found.ecore_name] > 1:
                found.name = f"{found.package.get('name', '')}_{found.ecore_name}"
                self.notes.tell(
                    found.element,
                    f"{found.said()} is called {found.name}, since another package has a {found.ecore_name} too",
                )
        taken = set()
        for found in kept:
            found.name = self.fitting(found.element, found.said(), found.name, taken)
            taken.add(found.name)

    def fitting(self, element, said, name, taken):
        """A name that is an identifier and isn't taken."""
        made = name
        if why_no_name(made, IDENTIFIER) or made in ("int", "boolean", "string"):
            made = re.sub(r"[^A-Za-z0-9_]", "_", made)[:60]
            made = made if re.match(r"[A-Za-z_]", made) else f"_{made}"
            made += "_" if made in ("int", "boolean", "string") else ""
        while made in taken:
            made += "_"
        if made != name:
            self.notes.tell(element, f"{said} is called {made}: {name!r} is no name, or is taken")
        return made

    # ---- what a reference of Ecore leads to

    def find(self, said):
        """The element that a reference leads to; none where that is in another file."""
        word = said.rsplit(" ", 1)[-1]
        file, mark, path = word.partition("#")
        if file or not mark:
            return None
        parts = path.strip("/").split("/") if path.strip("/") else []
        at = self.packages[0]
        if path.startswith("/") and not path.startswith("//"):
            place = parts.pop(0) if parts else "0"
            if not place.isdigit() or int(place) >= len(self.packages):
                return None
            at = self.packages[int(place)]
        for part in parts:
            if part.startswith("@"):
                name, _, place = part[1:].partition(".")
                found = [e for e in at.children if e.name == name]
                at = (
                    found[int(place or 0)]
                    if place.isdigit() and int(place) < len(found) or not place and found
                    else None
                )
            else:
                at = next((e for e in at.children if e.get("name") == part), None)
            if at is None:
                return None
        return at

    def classifier(self, said):
        element = self.find(said)
        return self.by_element.get(id(element)) if element is not None else None

    # ---- enums and classes

    def read_enum(self, found):
        taken = set()
        for element in found.element.children:
            if element.name != "eLiterals":
                self.notes.tell(element, f"an annotation of {found.said()} is left out")
                continue
            name = self.fitting(
                element, f"the literal {element.get('name')} of {found.said()}", element.get("name", ""), taken
            )
            taken.add(name)
            # A model in XMI has the literal's own text, which is its name where it has none.
            found.literals.append((name, element.get("literal", element.get("name"))))
            if element.get("value", str(len(found.literals) - 1)) != str(len(found.literals) - 1):
                self.notes.tell(
                    element,
                    f"the literal {name} of {found.said()} has the value {element.get('value')}: literals are ordered as they stand, and have no values",
                )
        if not found.literals:
            self.notes.tell(found.element, f"the enum {found.said()} has no literal, and is left out")

    def read_class(self, found):
        for said in (found.element.get("eSuperTypes") or "").split():
            if said.startswith("ecore:"):
                continue
            above = self.classifier(said)
            if above is None or above.sort != "EClass":
                self.notes.tell(
                    found.element, f"the supertype {said} of {found.said()} isn't in this file, and is left out"
                )
            else:
                found.supers.append(above)
        if found.element.is_true("interface") and not found.element.is_true("abstract"):
            self.notes.tell(found.element, f"the interface {found.said()} becomes an abstract class")
        for element in found.element.children:
            said = f"{found.said()}.{element.get('name')}"
            if element.name != "eStructuralFeatures":
                what = {"eOperations": "the operation", "eTypeParameters": "the type parameter"}.get(element.name)
                self.notes.tell(
                    element, f"{what} {said} is left out" if what else f"{element.name} of {found.said()} is left out"
                )
                continue
            feature = self.read_feature(found, element, said)
            if feature is not None:
                names = {f.name for f in found.features.values()}
                feature.name = self.fitting(element, said, feature.name, names)
                found.features[feature.ecore_name] = feature

    def read_feature(self, found, element, said):
        is_reference = (element.type or ("", ""))[1] == "EReference"
        for word in ("derived", "volatile"):
            if element.is_true(word):
                self.notes.tell(element, f"the {word} feature {said} is left out")
                return None
        made = Feature(found, element, is_reference)
        for inner in element.children:
            self.notes.tell(inner, f"{inner.name} of {said} is left out")
        if element.get("lowerBound", "0") != "0":
            self.notes.tell(
                element,
                f"the lower bound {element.get('lowerBound')} of {said} is left out: a feature may have no value",
            )
        return self.read_reference(made, said) if is_reference else self.read_attribute(made, said)

    def read_reference(self, made, said):
        element, made.target = made.element, self.classifier(made.element.get("eType", ""))
        if made.target is None or made.target.sort != "EClass":
            self.notes.tell(
                element,
                f"the reference {said} leads out of the file ({element.get('eType', 'a generic type')}), and is left out",
            )
            return None
        if element.get("upperBound", "1") not in ("1", "-1", "-2"):
            self.notes.tell(element, f"the upper bound {element.get('upperBound')} of {said} becomes many")
        return made

    def read_attribute(self, made, said):
        element = made.element
        if element.get("upperBound", "1") != "1":
            self.notes.tell(element, f"the attribute {said} has many values, and is left out: an attribute has one")
            return None
        kind, inner = element.get("eType", ""), self.classifier(element.get("eType", ""))
        name = kind.rpartition("//")[2]
        if inner is not None and inner.sort == "EEnum" and inner.literals:
            made.enum = inner
        elif inner is None and ECORE in kind and name in INTEGERS:
            made.kind = "int"
            if name == "EBigInteger":
                self.notes.tell(element, f"the attribute {said} has whole numbers of 64 bits alone")
        elif inner is None and ECORE in kind and name in BOOLEANS:
            made.kind = "boolean"
        elif inner is not None and inner.element.get("instanceClassName") in INSTANCES:
            made.kind = INSTANCES[inner.element.get("instanceClassName")]
        else:
            made.kind = "string"
            if inner is not None or ECORE not in kind or name != "EString":
                self.notes.tell(element, f"the data type {name or 'of a generic type'} of {said} is taken for string")
        if made.enum is not None and made.default is not None:
            made.default = next(
                (own for own, text in made.enum.literals if text == made.default or own == made.default), None
            )
        own = made.enum.literals[0][0] if made.enum is not None else DEFAULTS[made.kind]
        if made.default is not None and made.default != own:
            shown = made.default if made.kind != "string" else json.dumps(made.default)
            self.notes.tell(element, f"the default {shown} of {said} is left out: models have the value written")
        if element.is_true("iD"):
            self.notes.tell(element, f"that {said} is an ID isn't kept: objects have names")
        return made

    def pair(self, feature):
        """Opposites that answer each other as they have to; others are left out."""
        said = feature.element.get("eOpposite")
        if not said:
            return
        back = self.find(said)
        other = next((f for c in self.classifiers for f in c.features.values() if f.element is back), None)
        if other is None:
            why = "isn't there"
        elif self.find(other.element.get("eOpposite", "")) is not feature.element:
            why = "doesn't name it"
        elif other.owner is not feature.target or other.target is not feature.owner:
            why = "is of another class than its target, or leads to another class"
        else:
            feature.opposite = other
            return
        self.notes.tell(
            feature.element,
            f"the opposite {said} of {feature.owner.said()}.{feature.ecore_name} {why}, and is left out",
        )

    def count_ordered(self):
        many = [
            f for c in self.classifiers for f in c.features.values() if f.many and f.element.get("ordered") != "false"
        ]
        if many:
            self.notes.tell(
                self.packages[0],
                f"{len(many)} many-valued reference{'s are' if len(many) > 1 else ' is'} ordered in Ecore: here the targets of a reference are a set",
            )

    # ---- the document

    def features_of(self, found):
        """The features of a class with those above it, by their Ecore names."""
        had = {}
        for above in found.supers:
            had.update(self.features_of(above))
        had.update(found.features)
        return had

    def is_a(self, found, other):
        return found is other or any(self.is_a(above, other) for above in found.supers)

    def document(self):
        enums = [
            {"name": c.name, "literals": [name for name, _ in c.literals]}
            for c in self.classifiers
            if c.sort == "EEnum" and c.literals
        ]
        classes = [class_document(c) for c in self.classifiers if c.sort == "EClass"]
        for found in self.classifiers:
            if found.sort not in ("EClass", "EEnum"):
                self.notes.tell(found.element, f"the data type {found.said()} is none of its own")
        head = {"format": 1, "uri": self.packages[0].get("nsURI", "")}
        return written(head, [("enums", enums), ("classes", classes)] if enums else [("classes", classes)])


def class_document(found):
    made = {"name": found.name}
    if found.element.is_true("abstract") or found.element.is_true("interface"):
        made["abstract"] = True
    if found.supers:
        made["supers"] = [above.name for above in found.supers]
    attributes = [
        {"name": f.name, "kind": f.enum.name if f.enum is not None else f.kind}
        for f in found.features.values()
        if not f.is_reference
    ]
    if attributes:
        made["attributes"] = attributes
    references = []
    for feature in found.features.values():
        if feature.is_reference:
            said = {"name": feature.name, "target": feature.target.name}
            said.update({word: True for word in ("many", "containment") if getattr(feature, word)})
            if feature.opposite is not None:
                said["opposite"] = feature.opposite.name
            references.append(said)
    if references:
        made["references"] = references
    return made
