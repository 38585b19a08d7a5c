"""A file's text, and where something stands in it."""
import bisect
import unicodedata


class Fault(Exception):
    """Why a file is refused: the fault's name and place as the program tells them, and what to tell the user.

    `at` is where it stands in the text, `said` what is wrong there, and `mend` what to do about it.
    """

    def __init__(self, name, place, at, said, mend=""):
        super().__init__(f"{name} {place}")
        self.name, self.place, self.at, self.said, self.mend = name, place, at, said, mend


class Source:
    """The bytes of a file under the name that the user gave it, and its text where it is UTF-8."""

    def __init__(self, name, data):
        self.name, self.data, self.bad_byte = name, data, None
        try:
            self.text = data.decode("utf-8")
        except UnicodeDecodeError as error:
            self.bad_byte = data[error.start]
            # What stands before the first byte that is no text; its end is where that byte stands.
            self.text = data[: error.start].decode("utf-8")
        self._starts = None

    @classmethod
    def of_file(cls, name):
        with open(name, "rb") as file:
            return cls(name, file.read())

    @property
    def starts(self):
        """Where the lines begin."""
        if self._starts is None:
            self._starts = [0]
            at = self.text.find("\n")
            while at >= 0:
                self._starts.append(at + 1)
                at = self.text.find("\n", at + 1)
        return self._starts

    def place(self, at):
        """The line and the column of a place in the text, both from 1; columns count characters."""
        line = bisect.bisect_right(self.starts, at)
        return line, at - self.starts[line - 1] + 1

    def line(self, at):
        return self.place(at)[0]

    def where(self, at):
        line, column = self.place(at)
        return f"{self.name}:{line}:{column}"

    def lines(self):
        """The lines without their ends; there is none behind the last line feed."""
        *found, last = self.text.split("\n")
        ended = [line[:-1] if line.endswith("\r") else line for line in found]
        return ended + [last] if last else ended

    def quoted(self, at, width=100):
        """The line of a place, so far as it can be shown."""
        line, column = self.place(at)
        end = self.text.find("\n", at)
        text = self.text[self.starts[line - 1] : len(self.text) if end < 0 else end].rstrip("\r")
        if len(text) > width:
            begin = min(max(0, column - 1 - width // 2), len(text) - width)
            text = (
                ("" if begin == 0 else "..")
                + text[begin : begin + width]
                + ("" if begin + width == len(text) else "..")
            )
        return "".join(c if shows(c) or c == "\t" else "\N{REPLACEMENT CHARACTER}" for c in text)


def shows(character):
    return unicodedata.category(character)[0] != "C"


def sign(character):
    """A character as it is named to the user."""
    if character == " ":
        return "a space"
    if character == "\t":
        return "a tab"
    if character == "\n":
        return "the line's end"
    if character == "\r":
        return "a carriage return"
    if not shows(character):
        return f"the sign U+{ord(character):04X}"
    if character == "`":
        return "a backquote"
    return f"`{character}`"


def not_text(source, name, place):
    """The fault of a file that isn't UTF-8."""
    return Fault(
        name, place, len(source.text), f"the byte {source.bad_byte:02x} here is no UTF-8", "save the file in UTF-8"
    )


# ---- names


def distance(a, b, most):
    """How many letters must be put in, taken out, changed or swapped to make one name of the other; past `most`, more."""
    if abs(len(a) - len(b)) > most:
        return most + 1
    before, last = None, list(range(len(b) + 1))
    for i, x in enumerate(a, 1):
        row = [i]
        for j, y in enumerate(b, 1):
            row.append(min(last[j] + 1, row[j - 1] + 1, last[j - 1] + (x != y)))
            if before and i > 1 and j > 1 and x == b[j - 2] and a[i - 2] == y:
                row[j] = min(row[j], before[j - 2] + 1)
        if min(row) > most:
            return most + 1
        before, last = last, row
    return last[-1]


def nearest(name, names):
    """The name among some that is most like this one, if one is like it."""
    # Of one letter no other is like it, but for its case.
    most = 0 if len(name) < 2 else max(1, len(name) // 3)
    best, least, folded = None, most + 1, name.casefold()
    # A name that is like it has one of these parts, since an edit changes two at most. Among many names that is told sooner.
    count = min(2 * most + 1, len(name))
    parts = [name[len(name) * i // count : len(name) * (i + 1) // count] for i in range(count)] if count > 2 else [""]
    for other in names:
        if other == name:
            continue
        if other.casefold() == folded:
            return other
        if any(part in other for part in parts):
            far = distance(name, other, least - 1)
            if far < least:
                best, least = other, far
    return best


def listed(names, most=6):
    """Some names as a list to be read."""
    names = list(names)
    shown = [f'"{name}"' for name in names[:most]]
    if len(names) > most:
        return ", ".join(shown) + f" and {len(names) - most} more"
    return ", ".join(shown[:-1]) + " and " + shown[-1] if len(shown) > 1 else "".join(shown)


def one_of(names):
    return f"one of {listed(names)}" if len(names) > 1 else listed(names)


def perhaps(name, names, otherwise=""):
    """What a misspelled name may have meant."""
    found = nearest(name, names)
    if found is not None:
        return f'perhaps "{found}" is meant'
    return otherwise


FIRST = frozenset("abcdefghijklmnopqrstuvwxyzABCDEFGHIJKLMNOPQRSTUVWXYZ_")
DIGITS = frozenset("0123456789")
IDENTIFIER = FIRST | DIGITS
OBJECT_NAME = IDENTIFIER | frozenset("-.")


def why_no_name(text, allowed, most=64):
    """Why a text is no name made of these characters, and none where it is one."""
    signs = "letters, digits, `_`, `-` and `.`" if "-" in allowed else "letters, digits and `_`"
    if not text:
        return "a name has at least one letter"
    if text[0] not in FIRST:
        return f"a name begins with a letter of ASCII or `_`, and not with {sign(text[0])}"
    for character in text:
        if character not in allowed:
            shown = sign(character).removeprefix("a ").removeprefix("the ")
            return f"a name has {signs} of ASCII, and no {shown}"
    if most and len(text) > most:
        return f"a name has at most {most} bytes, and this one {len(text)}"
    return None
