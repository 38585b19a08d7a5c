"""Models of Ecore in XMI, and the documents that they become."""
import re

from .source import OBJECT_NAME, why_no_name
from .xml_file import XMI, XSI, Notes, Unreadable, read_xml, written


class Object:
    def __init__(self, element, found):
        self.element, self.found, self.name = element, found, None
        self.attributes, self.links = {}, {}


def written_value(element, key):
    """The text of an attribute, which may be an element of its own."""
    inner = next((child.text for child in element.children if child.name == key), None)
    return element.get(key) or inner


class Model:
    def __init__(self, meta, name):
        self.meta, self.file, self.notes, root = meta, name, Notes(name), read_xml(name)
        self.objects, self.by_element, self.by_id, self.names = [], {}, {}, set()
        self.roots = [e for e in root.children] if root.space in XMI and root.name == "XMI" else [root]
        for element in self.roots:
            found = self.class_named(element.space, element.name)
            if found is None:
                raise Unreadable(
                    f"{name}:{element.line}: the element {element.name} is no object of a class of the metamodel"
                )
            self.collect(element, found)
        for made in self.objects:
            self.name(made)
        for made in self.objects:
            self.read_values(made)
            self.read_links(made)

    def class_named(self, uri, name):
        package = self.meta.uris.get(uri)
        return next(
            (c for c in self.meta.classifiers if c.sort == "EClass" and c.ecore_name == name and c.package is package),
            None,
        )

    # ---- objects

    def collect(self, element, found):
        """An object, and all that it contains."""
        made = Object(element, found)
        self.objects.append(made)
        self.by_element[id(element)] = made
        for space in XMI:
            if (space, "id") in element.attributes:
                self.by_id[element.attributes[(space, "id")]] = made
        had = self.meta.features_of(found)
        for feature in had.values():
            if not feature.is_reference and feature.element.is_true("iD") and element.get(feature.ecore_name):
                self.by_id[element.get(feature.ecore_name)] = made
        for child in element.children:
            feature = had.get(child.name)
            if feature is None or not feature.containment:
                continue
            if child.get("href") is not None:
                self.notes.tell(
                    child, f"{feature.ecore_name} leads out of the file ({child.get('href')}), and is left out"
                )
                continue
            inner = self.class_named(*child.type) if child.type else feature.target
            if inner is None or inner.element.is_true("abstract"):
                raise Unreadable(
                    f"{self.file}:{child.line}: the class of this {child.name} isn't in the metamodel, or is abstract"
                )
            self.collect(child, inner)

    def name(self, made):
        """An object's name: its ID, or its attribute `name`, or one of its class and a number."""
        had = self.meta.features_of(made.found)
        ids = [f.ecore_name for f in had.values() if not f.is_reference and f.element.is_true("iD")]
        said = [text for text in (written_value(made.element, key) for key in [*ids, "name"] if key in had) if text]
        for text in said:
            if not why_no_name(text, OBJECT_NAME) and text not in self.names and not text.startswith("_"):
                made.name = text
                break
        else:
            base = (made.found.name[:1].lower() + made.found.name[1:])[:56].lstrip("_") or "object"
            number = 0
            while f"{base}{number}" in self.names:
                number += 1
            made.name = f"{base}{number}"
            if said:
                self.notes.tell(
                    made.element, f"the object {said[0]!r} is called {made.name}: that is no object's name, or is taken"
                )
        self.names.add(made.name)

    # ---- values

    def read_values(self, made):
        had = self.meta.features_of(made.found)
        given = {key: (value, made.element) for (space, key), value in made.element.attributes.items() if not space}
        for child in made.element.children:
            if child.name in had and not had[child.name].is_reference:
                is_nil = child.attributes.get((XSI, "nil")) == "true"
                given[child.name] = (None if is_nil else child.text, child)
            elif child.name not in had:
                self.notes.tell(child, f"{child.name} of {made.name} is left out with what it holds, as the feature is")
        for key, (value, element) in given.items():
            feature = had.get(key)
            if feature is None:
                self.notes.tell(element, f"the value of {key} of {made.name} is left out, as the feature is")
            elif not feature.is_reference and value is not None:
                self.set(made, feature, value, element)
        for feature in had.values():
            # What isn't written has Ecore's default, which may be another than ours.
            if not feature.is_reference and feature.ecore_name not in given and feature.default is not None:
                self.set(made, feature, feature.default, made.element)

    def set(self, made, feature, value, element):
        if feature.enum is not None:
            found = next((name for name, text in feature.enum.literals if value in (text, name)), None)
        elif feature.kind == "int":
            found = int(value) if re.fullmatch(r"[+-]?[0-9]{1,19}", value) and abs(int(value)) < 2**63 else None
        elif feature.kind == "boolean":
            found = {"true": True, "1": True, "false": False, "0": False}.get(value)
        else:
            found = value
        if found is None:
            self.notes.tell(
                element,
                f"the value {value!r} of {feature.ecore_name} of {made.name} is left out: it is none of the kind",
            )
        else:
            made.attributes[feature.name] = found

    # ---- links

    def read_links(self, made):
        for feature in self.meta.features_of(made.found).values():
            if not feature.is_reference:
                continue
            targets = []
            for said in (made.element.get(feature.ecore_name) or "").split():
                targets.append(self.target(made, feature, said, made.element))
            for child in made.element.children:
                if child.name == feature.ecore_name and id(child) in self.by_element:
                    targets.append(self.by_element[id(child)])
                elif child.name == feature.ecore_name and child.get("href") is not None and not feature.containment:
                    targets.append(self.target(made, feature, child.get("href"), child))
            names = [target.name for target in targets if target is not None]
            if names:
                made.links[feature.name] = names

    def target(self, made, feature, said, element):
        """The object that a reference leads to; none where that isn't in the file."""
        found = self.find(said)
        if found is None:
            # The name of a class may stand before a path, as ecore:EClass does.
            if re.fullmatch(r"[A-Za-z_][\w.-]*:[A-Za-z_][\w.-]*", said):
                return None
            self.notes.tell(
                element,
                f"{feature.ecore_name} of {made.name} leads out of the file, or to what is left out ({said}), and is left out",
            )
        elif not self.meta.is_a(found.found, feature.target):
            self.notes.tell(
                element,
                f"{feature.ecore_name} of {made.name} leads to {found.name}, which is none of its class, and is left out",
            )
            return None
        return found

    def find(self, said):
        file, mark, path = said.partition("#")
        if mark and file:
            return None
        path = path if mark else said
        if not path.startswith("/"):
            return self.by_id.get(path)
        parts = path.split("/")[1:]
        place = parts.pop(0)
        place = int(place) if place.isdigit() else 0 if not place else None
        if place is None or place >= len(self.roots):
            return None
        at = self.roots[place]
        for part in (p for p in parts if p):
            found = re.fullmatch(r"@([^.\[\]]+)(?:\.([0-9]+))?", part)
            # Without `@` it is a name, as in metamodels.
            children = [e for e in at.children if (e.name == found[1] if found else e.get("name") == part)]
            number = int(found[2] or 0) if found else 0
            if number >= len(children):
                return None
            at = children[number]
        return self.by_element.get(id(at))

    def document(self):
        objects = []
        for made in self.objects:
            said = {"name": made.name, "class": made.found.name}
            said.update(
                {key: value for key, value in (("attributes", made.attributes), ("links", made.links)) if value}
            )
            objects.append(said)
        return written({"format": 1}, [("objects", objects)])
