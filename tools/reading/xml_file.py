"""XML files, with the line of each element, and the list of what they say that has no counterpart."""
import json
import sys
import xml.parsers.expat

XSI = "http://www.w3.org/2001/XMLSchema-instance"
XMI = ("http://www.omg.org/XMI", "http://schema.omg.org/spec/XMI/2.1")


class Unreadable(Exception):
    """A file that isn't what it has to be."""


class Element:
    """An element: its namespace and name, its attributes by namespace and name, and where it begins."""

    def __init__(self, name, attributes, line, prefixes):
        self.space, _, self.name = name.rpartition(" ")
        self.attributes = {tuple(key.rpartition(" ")[::2]): value for key, value in attributes.items()}
        self.line, self.prefixes, self.children, self.text = line, prefixes, [], ""

    def get(self, name, otherwise=None):
        return self.attributes.get(("", name), otherwise)

    def is_true(self, name):
        return self.get(name) == "true"

    @property
    def type(self):
        """The namespace and the name of its xsi:type, if it has one."""
        said = self.attributes.get((XSI, "type")) or next(
            (self.attributes[(space, "type")] for space in XMI if (space, "type") in self.attributes), None
        )
        if said is None:
            return None
        prefix, _, name = said.rpartition(":")
        return self.prefixes.get(prefix, ""), name


def read_xml(name):
    """The root element of a file."""
    parser = xml.parsers.expat.ParserCreate(namespace_separator=" ")
    root, stack, prefixes = [], [], {}

    def start(tag, attributes):
        made = Element(tag, attributes, parser.CurrentLineNumber, dict(prefixes))
        (stack[-1].children if stack else root).append(made)
        stack.append(made)

    def text(data):
        if stack:
            stack[-1].text += data

    def declare(prefix, uri):
        prefixes[prefix or ""] = uri or ""

    parser.StartElementHandler, parser.CharacterDataHandler = start, text
    parser.EndElementHandler = lambda tag: stack.pop()
    parser.StartNamespaceDeclHandler = declare
    with open(name, "rb") as file:
        try:
            parser.ParseFile(file)
        except xml.parsers.expat.ExpatError as error:
            raise Unreadable(f"{name}:{error.lineno}: no XML: {xml.parsers.expat.ErrorString(error.code)}") from None
    return root[0]


class Notes:
    """What has no counterpart, to be listed."""

    def __init__(self, file):
        self.file, self.lines = file, []

    def tell(self, element, said):
        self.lines.append((element.line, f"{self.file}:{element.line}: {said}"))

    def list(self):
        for _, said in sorted(self.lines, key=lambda line: line[0]):
            print(said, file=sys.stderr)


def written(head, lists):
    """A document with each item of its lists on a line of its own."""
    parts = [f"{json.dumps(key)}:{json.dumps(value)}" for key, value in head.items()]
    for key, items in lists:
        lines = ",\n".join(f" {json.dumps(item, separators=(',', ':'), ensure_ascii=False)}" for item in items)
        parts.append(f"{json.dumps(key)}:[" + (f"\n{lines}]" if items else "]"))
    return "{" + ",".join(parts[: -len(lists)]) + "".join(f",\n{part}" for part in parts[-len(lists) :]) + "}"
