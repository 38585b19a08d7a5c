"""JSON, read as strictly as the program does, with the place of each value and each key."""
import re

from .source import Fault, sign

DEEPEST = 127
SPACE = re.compile(r"[ \t\n\r]*")
PLAIN = re.compile(r'[^"\\\x00-\x1f]*')
WHOLE = re.compile(r'([^"\\\x00-\x1f]*)"')
NUMBER = re.compile(r"-?(?:0|[1-9][0-9]*)(?:\.[0-9]+)?(?:[eE][+-]?[0-9]+)?")
WORD = re.compile(r"[A-Za-z_$][A-Za-z0-9_$]*")
SHORT = {'"': '"', "\\": "\\", "/": "/", "b": "\b", "f": "\f", "n": "\n", "r": "\r", "t": "\t"}
WORDS = {"true": ("boolean", True), "false": ("boolean", False), "null": ("null", None)}
# What other notations write in place of these words.
OTHER_WORDS = {
    "True": "true",
    "False": "false",
    "TRUE": "true",
    "FALSE": "false",
    "None": "null",
    "NULL": "null",
    "nil": "null",
    "undefined": "null",
}


class Node:
    """A value: its kind, and where it begins and ends.

    The value of an object is a map from keys to nodes, that of an array a list of nodes. A number that isn't
    a whole one in 64 bits, with a sign or without, has no value. `keys` has where each key stands, and
    `lost` the members whose key comes again later.
    """

    __slots__ = ("kind", "value", "at", "end", "keys", "lost")

    def __init__(self, kind, value, at, end, keys=None, lost=()):
        self.kind, self.value, self.at, self.end, self.keys, self.lost = kind, value, at, end, keys, lost


def said_of(node):
    """A value as it is named to the user."""
    if node.kind == "null":
        return "null"
    if node.kind == "boolean":
        return "true" if node.value else "false"
    if node.kind == "number":
        return "a number that isn't whole, or is beyond 64 bits" if node.value is None else f"the number {node.value}"
    if node.kind == "string":
        return f'the text "{node.value}"' if len(node.value) <= 40 and node.value.isprintable() else "a text"
    return "a list" if node.kind == "array" else "an object"


class Parser:
    def __init__(self, source):
        self.source, self.text, self.at = source, source.text, 0
        # Where each array and object that is open began.
        self.open = []

    def fail(self, at, said, mend=""):
        raise Fault("NotJson", 0, at, said, mend)

    def skip(self):
        """The character behind spaces and line ends, and nothing at the end of the file."""
        mark = self.text[self.at : self.at + 1]
        if mark > " ":
            return mark
        self.at = SPACE.match(self.text, self.at).end()
        if self.at >= len(self.text):
            if self.source.bad_byte is not None:
                self.fail(self.at, f"the byte {self.source.bad_byte:02x} here is no UTF-8", "save the file in UTF-8")
            return ""
        return self.text[self.at]

    def document(self):
        if self.text.startswith("\ufeff"):
            self.fail(0, "the file begins with a byte order mark", "save it as UTF-8 without one")
        if not self.skip():
            self.fail(
                self.at,
                "the file is empty" if not self.text else "the file has nothing but spaces",
                "a document is an object in { }",
            )
        found = self.value()
        if self.skip():
            self.fail(
                self.at,
                f"the document has ended before this {self.met()}",
                "take away what stands here, or the bracket before it that closes too much",
            )
        return found

    def met(self):
        """What stands here, in words."""
        if self.at >= len(self.text):
            return "the end of the file"
        return sign(self.text[self.at])

    def cut_off(self, wanted):
        """The file ends, or something else stands here."""
        if self.at >= len(self.text):
            if not self.open:
                self.fail(self.at, f"the file ends where {wanted} has to stand")
            bracket = self.text[self.open[-1]]
            line, column = self.source.place(self.open[-1])
            self.fail(
                self.at,
                f"the file ends, and the `{bracket}` of line {line}, column {column} isn't closed",
                "close it, or look for a bracket that is missing further up",
            )
        for mark in ("//", "/*", "#"):
            if self.text.startswith(mark, self.at):
                self.fail(self.at, f"a comment begins here (`{mark}`), and JSON has none", "take it away")

    def value(self):
        mark = self.skip()
        begin = self.at
        if mark == "{":
            return self.object(begin)
        if mark == "[":
            return self.array(begin)
        if mark == '"':
            return Node("string", self.string(), begin, self.at)
        if mark and (mark in "-0123456789"):
            return self.number(begin)
        self.cut_off("a value")
        word = WORD.match(self.text, begin)
        if word and word.group() in WORDS:
            kind, held = WORDS[word.group()]
            self.at = word.end()
            return Node(kind, held, begin, self.at)
        if mark == "'":
            self.fail(begin, "a text stands in double quotes, and not in `'`")
        if mark in "]},":
            if mark == "," or self.text[:begin].rstrip(" \t\n\r").endswith(","):
                comma = begin if mark == "," else self.text.rindex(",", 0, begin)
                self.fail(comma, "a comma stands here, and no value follows it", "take the comma away")
            self.fail(begin, f"a value is missing before this `{mark}`")
        if mark == "+":
            self.fail(begin, "a number has no `+` before it", "take the sign away")
        if mark == ".":
            self.fail(
                begin,
                "a number has a digit before its point",
                "write 0 before the point (the program takes whole numbers alone)",
            )
        if word and word.group() in OTHER_WORDS:
            self.fail(begin, f"`{word.group()}` is no word of JSON", f"write {OTHER_WORDS[word.group()]}")
        if word and word.group() in ("NaN", "Infinity"):
            self.fail(begin, f"`{word.group()}` is no number of JSON")
        if word:
            self.fail(begin, f"`{word.group()}` is no value", "put a text in double quotes")
        self.fail(begin, f"no value begins with {self.met()}")

    def number(self, begin):
        found = NUMBER.match(self.text, begin)
        after = self.text[found.end() : found.end() + 1] if found else ""
        if not found:
            self.at = begin + 1
            self.fail(begin, f"behind `-` a digit has to stand, and not {self.met()}")
        text = found.group()
        if text.lstrip("-") == "0" and after in DIGIT:
            self.fail(
                begin,
                "a number has no zero before its other digits",
                "take the zero away, or put the number in quotes if it is a text",
            )
        if after == ".":
            self.fail(begin, "behind the point of a number a digit has to stand")
        if after in ("e", "E"):
            self.fail(begin, "behind the `e` of a number a digit has to stand")
        self.at = found.end()
        if after and (after.isalnum() or after == "_"):
            self.fail(begin, f"the number {text} is directly followed by {sign(after)}", "put a text in double quotes")
        held = None
        if not set(text) & set(".eE"):
            # Longer texts are beyond 64 bits, and Python reads no more than a few thousand digits.
            whole = int(text) if len(text) <= 30 else None
            if text != "-0" and whole is not None and -(2**63) <= whole < 2**64:
                held = whole
        if held is None and float(text) in (float("inf"), float("-inf")):
            self.fail(begin, f"the number {text[:20]}{'..' if len(text) > 20 else ''} is too large for any reader")
        return Node("number", held, begin, self.at)

    def string(self):
        begin, parts = self.at, []
        self.at += 1
        plain = WHOLE.match(self.text, self.at)
        if plain:
            self.at = plain.end()
            return plain.group(1)
        while True:
            plain = PLAIN.match(self.text, self.at)
            parts.append(plain.group())
            self.at = plain.end()
            mark = self.text[self.at : self.at + 1]
            if mark == '"':
                self.at += 1
                return "".join(parts)
            if mark == "\\":
                parts.append(self.escape())
            elif not mark:
                if self.source.bad_byte is not None:
                    self.fail(
                        self.at, f"the byte {self.source.bad_byte:02x} here is no UTF-8", "save the file in UTF-8"
                    )
                self.fail(begin, "the text that begins here is never closed", 'close it by a `"`')
            elif mark in "\n\r":
                self.fail(
                    begin,
                    "the text that begins here isn't closed on its line",
                    r'close it by a `"`; a line end inside a text is written \n',
                )
            else:
                self.fail(
                    self.at,
                    f"{sign(mark)} stands inside a text as it is",
                    r"write \t for a tab, and \u and four hexadecimal digits for others",
                )

    def escape(self):
        begin = self.at
        letter = self.text[begin + 1 : begin + 2]
        if letter in SHORT and letter:
            self.at += 2
            return SHORT[letter]
        if letter != "u":
            self.fail(begin, f"`\\{letter}` is no escape of JSON", r"write \\ for a backslash")
        first = self.unit(begin)
        if 0xDC00 <= first < 0xE000:
            self.fail(begin, "this half of a surrogate pair has no first half before it", "write the character itself")
        if not 0xD800 <= first < 0xDC00:
            return chr(first)
        if self.text[self.at : self.at + 2] != "\\u":
            self.fail(begin, "this half of a surrogate pair has no second half behind it", "write the character itself")
        second = self.unit(self.at)
        if not 0xDC00 <= second < 0xE000:
            self.fail(begin, "this half of a surrogate pair has no second half behind it", "write the character itself")
        return chr(0x10000 + ((first - 0xD800) << 10) + (second - 0xDC00))

    def unit(self, begin):
        digits = self.text[begin + 2 : begin + 6]
        if len(digits) < 4 or not all(c in "0123456789abcdefABCDEF" for c in digits):
            self.fail(begin, r"behind \u four hexadecimal digits have to stand")
        self.at = begin + 6
        return int(digits, 16)

    def enter(self, begin):
        if len(self.open) == DEEPEST:
            self.fail(begin, f"arrays and objects are nested more than {DEEPEST} deep here")
        self.open.append(begin)
        self.at += 1

    def array(self, begin):
        self.enter(begin)
        items = []
        if self.skip() != "]":
            items.append(self.value())
            while not self.goes_on("]"):
                items.append(self.value())
        self.open.pop()
        self.at += 1
        return Node("array", items, begin, self.at)

    def object(self, begin):
        self.enter(begin)
        members, keys, lost = {}, {}, []
        mark = self.skip()
        while mark != "}":
            at = self.at
            if mark != '"':
                self.no_key(mark)
            key = self.string()
            if self.skip() != ":":
                self.cut_off("a `:`")
                self.fail(self.at, f'behind the key "{key}" a `:` has to stand, and not {self.met()}')
            self.at += 1
            held = self.value()
            if key in members:
                lost.append((key, keys[key], members[key]))
            members[key], keys[key] = held, at
            if self.goes_on("}"):
                break
            mark = self.skip()
            if mark == "}":
                comma = self.text.rindex(",", 0, self.at)
                self.fail(comma, "a comma stands here, and no key follows it", "take the comma away")
        self.open.pop()
        self.at += 1
        return Node("object", members, begin, self.at, keys, lost)

    def no_key(self, mark):
        self.cut_off("a key")
        if mark == "'":
            self.fail(self.at, "a key stands in double quotes, and not in `'`")
        word = WORD.match(self.text, self.at)
        if word:
            self.fail(self.at, f"the key {word.group()} isn't quoted", f'write "{word.group()}"')
        self.fail(self.at, f"a key in double quotes has to stand here, and not {self.met()}")

    def goes_on(self, close):
        """Whether the bracket closes here; else a comma stands here, and something more is behind it."""
        ended = self.at
        mark = self.skip()
        if mark == close:
            return True
        if mark == ",":
            self.at += 1
            return False
        self.cut_off(f"a comma or `{close}`")
        bracket = self.text[self.open[-1]]
        if mark in "]}":
            line, column = self.source.place(self.open[-1])
            self.fail(
                self.at,
                f"`{mark}` doesn't close the `{bracket}` of line {line}, column {column}",
                f"write `{close}` here, or close before it what is still open",
            )
        if mark == ":":
            self.fail(
                self.at,
                "a `:` stands behind a value, where a comma has to stand",
                "keys stand in { }, and not in [ ]" if close == "]" else "",
            )
        self.fail(
            ended, f"a comma is missing here, before {self.met()} of line {self.source.line(self.at)}", "put it in"
        )


DIGIT = tuple("0123456789")


def parse(source):
    """The value that a file spells; a Fault where it spells none."""
    return Parser(source).document()
