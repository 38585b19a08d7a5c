"""Scripts: the commands of their lines, and why a line is none."""
import re

from .source import IDENTIFIER, OBJECT_NAME, Fault, listed, not_text, perhaps, sign, why_no_name

GREATEST = 2**63 - 1
MOST_COMMANDS = 100_000
POLICIES = ("fixed", "inverted", "oldest", "turns")
UNBUILT = ("fire", "swap", "activations", "group")
CLIENT, NAME = ("client", "a client's name"), ("object", "an object's name")
CHANGES = {
    "create": (NAME, ("identifier", "a class")),
    "delete": (NAME,),
    "set": (NAME, ("identifier", "an attribute"), ("value", "a value")),
    "unset": (NAME, ("identifier", "an attribute")),
    "link": (NAME, ("identifier", "a reference"), NAME),
    "unlink": (NAME, ("identifier", "a reference"), NAME),
    "move": (("object", "the child's name"), ("object", "the parent's name"), ("identifier", "a reference")),
}
COMMANDS = {
    "begin": (CLIENT,),
    "commit": (CLIENT,),
    "abort": (CLIENT,),
    "change": (CLIENT, ("change", "a change")),
    "fire": (("identifier", "an agenda"), ("number", "a number", MOST_COMMANDS)),
    "swap": (("identifier", "an agenda"), ("policy", "a policy")),
    "matches": (("identifier", "a pattern"),),
    "activations": (("identifier", "an agenda"),),
    "group": (("identifier", "a pattern"), ("number", "a column", 15), ("rest", "a value's text")),
    "dump": (),
}
STRING = re.compile(r'"(?:[^"\\\n]|\\["\\nt])*"')


class Refused(Exception):
    """Why a line is no command: where in it, and what to tell."""

    def __init__(self, column, said, mend=""):
        super().__init__(said)
        self.column, self.said, self.mend = column, said, mend


def form_of(word, parts):
    """How a command is written, in capitals."""
    shown = {"a client's name": "CLIENT", "an object's name": "NAME", "a change": "..", "a value's text": "TEXT"}
    return " ".join([word, *(shown.get(part[1]) or part[1].split()[-1].upper() for part in parts)])


def command_of(line):
    """The word of a line's command; Refused where it is none."""
    if line == "dump":
        return "dump"
    if line.startswith("\ufeff"):
        raise Refused(0, "the file begins with a byte order mark", "save it as UTF-8 without one")
    if line[:1] in " \t":
        what = sign(line[0])
        stripped = line.lstrip(" \t")
        mend = "begin a remark with `//` at the line's first column" if stripped.startswith("//") else "take it away"
        raise Refused(0, f"the line begins with {what}", mend)
    if line.startswith(("#", "--", "/*")):
        raise Refused(0, f"{sign(line[0])} begins no command", "a remark begins with `//`")
    word = line.split(" ", 1)[0]
    if word not in COMMANDS:
        if "\t" in word:
            raise Refused(line.index("\t"), "a tab stands here", "one space stands between two words")
        if "\r" in word:
            raise Refused(
                line.index("\r"),
                "a carriage return stands here without a line feed behind it",
                "end lines by a line feed",
            )
        mend = perhaps(word, COMMANDS)
        if not mend and word in CHANGES:
            mend = f"a change is written `change CLIENT {form_of(word, CHANGES[word])}`"
        raise Refused(0, f"no command is called {quoted(word)}", mend or f"there are {listed(COMMANDS, 20)}")
    parts(word, COMMANDS[word], line, len(word), form_of(word, COMMANDS[word]))
    return word


def quoted(word):
    return f"`{word}`" if "`" not in word else word


def parts(word, wanted, line, at, form):
    """Reads the parts of a command from a place of its line on, each behind one space."""
    for i, part in enumerate(wanted):
        if at >= len(line):
            raise Refused(at, f"{part[1]} has to follow here", f"it is written `{form}`")
        if line[at] != " ":
            raise Refused(at, f"{sign(line[at])} stands where a space has to stand", f"it is written `{form}`")
        at += 1
        if at >= len(line):
            raise Refused(
                at - 1, f"the line ends with a space, where {part[1]} has to follow", f"it is written `{form}`"
            )
        is_last = i + 1 == len(wanted)
        if part[0] == "rest":
            return
        if line[at] == " ":
            raise Refused(at, "two spaces stand here", "one space stands between two words")
        if part[0] == "change":
            change(line, at, form)
            return
        if part[0] == "value":
            value(line, at)
            return
        end = line.find(" ", at)
        end = len(line) if end < 0 else end
        piece(part, line[at:end], at)
        at = end
        if is_last and at < len(line):
            if not line[at:].strip(" "):
                raise Refused(at, "the line ends with a space", "take it away")
            rest = line[at + 1 :]
            mend = "a remark has a line of its own" if rest.lstrip().startswith("//") else f"it is written `{form}`"
            raise Refused(
                at + 1,
                f"{quoted(rest.split(' ')[0]) if rest.split(' ')[0] else 'a second space'} is more than `{word}` takes",
                mend,
            )
    if not wanted and at < len(line):
        if not line[at:].strip(" "):
            raise Refused(at, "the line ends with a space", "take it away")
        remark = line[at:].lstrip().startswith("//")
        raise Refused(
            at, f"nothing may follow `{word}`", "a remark has a line of its own" if remark else "take it away"
        )


def piece(part, text, at):
    """One word of a command."""
    sort, what = part[:2]
    tab = text.find("\t")
    if tab >= 0:
        raise Refused(at + tab, "a tab stands here", "one space stands between two words")
    carriage = text.find("\r")
    if carriage >= 0:
        raise Refused(
            at + carriage, "a carriage return stands here without a line feed behind it", "end lines by a line feed"
        )
    if sort in ("client", "object", "identifier"):
        limit = 0 if sort == "identifier" else 64
        why = why_no_name(text, IDENTIFIER if sort == "identifier" else OBJECT_NAME, limit)
        if why:
            mend = "it stands without quotes" if text.startswith('"') else why
            raise Refused(at, f"{quoted(text)} is not {what}", mend)
    elif sort == "number":
        if not text.isascii() or not text.isdigit() or len(text.lstrip("0")) > 6 or int(text) > part[2]:
            raise Refused(at, f"{quoted(text)} is not {what}", f"it has digits alone, and is at most {part[2]}")
    elif sort == "policy" and text not in POLICIES:
        raise Refused(at, f"{quoted(text)} is not {what}", perhaps(text, POLICIES, f"there are {listed(POLICIES)}"))


def change(line, at, form):
    word = line[at:].split(" ", 1)[0]
    if word not in CHANGES:
        raise Refused(
            at, f"no change is called {quoted(word)}", perhaps(word, CHANGES) or f"there are {listed(CHANGES, 9)}"
        )
    parts(word, CHANGES[word], line, at + len(word), f"change CLIENT {form_of(word, CHANGES[word])}")


def value(line, at):
    """A value, to the line's end."""
    text = line[at:]
    if text in ("true", "false"):
        return
    digits = text.removeprefix("-")
    if digits.isascii() and digits.isdigit():
        if len(digits.lstrip("0")) > 19 or int(digits[-25:]) > GREATEST:
            raise Refused(at, f"a number is from -{GREATEST} to {GREATEST}")
        return
    if STRING.fullmatch(text):
        return
    if text.startswith('"'):
        inner = STRING.match(text)
        if inner:
            raise Refused(
                at + inner.end(),
                "something follows the string, which has to end the line",
                r"write \" for a quote inside it" if '"' in text[inner.end() :] else "take it away",
            )
        bad = re.search(r'^"(?:[^"\\]|\\["\\nt])*(\\[^"\\nt])', text)
        if bad:
            raise Refused(at + bad.start(1), f"`{bad.group(1)}` is no escape", r"there are \", \\, \n and \t")
        raise Refused(at, "the string that begins here isn't closed on its line", 'close it by a `"`')
    if text.endswith(" ") and not text.strip(" ").count(" "):
        raise Refused(at + len(text.rstrip(" ")), "the line ends with a space", "take it away")
    mend = "a value is true, false, a whole number, or a string in double quotes, which a literal of an enum is too"
    if digits.replace(".", "", 1).isdigit():
        mend = "there are no numbers with a point"
    elif text.startswith("'"):
        mend = "a string stands in double quotes"
    elif text.casefold() in ("true", "false"):
        mend = f"write {text.casefold()}"
    elif text in ("null", "none", "None"):
        mend = "`change CLIENT unset NAME ATTRIBUTE` gives the default back"
    elif "::" in text and why_no_name(text.rpartition("::")[2], IDENTIFIER) is None:
        mend = f'a literal of an enum stands by its name alone, in double quotes: "{text.rpartition("::")[2]}"'
    elif why_no_name(text, IDENTIFIER) is None:
        mend = f'a text or a literal of an enum stands in double quotes: "{text}"'
    raise Refused(at, f"{quoted(text)} is no value", mend)


def is_skipped(line):
    return not line.strip(" \t") or line.startswith("//")


def explained(source, name, place):
    """The fault that the program tells of a script, as this reading sees it; none where it sees none there."""
    if source.bad_byte is not None:
        return not_text(source, "NotText", 1)
    count, beyond, unbuilt = 0, None, None
    for number, line in enumerate(source.lines(), 1):
        if is_skipped(line):
            continue
        count += 1
        try:
            word = command_of(line)
        except Refused as why:
            return Fault("Syntax", number, source.starts[number - 1] + why.column, why.said, why.mend)
        if count == MOST_COMMANDS + 1:
            beyond = Fault(
                "TooMany",
                number,
                source.starts[number - 1],
                f"this is the command {count}, and a script has at most {MOST_COMMANDS}",
                "split it, with a `dump` at the end of the first part: what it writes is the next one's model",
            )
        if word in UNBUILT and unbuilt is None:
            unbuilt = Fault(
                "NotBuilt",
                count,
                source.starts[number - 1],
                f"`{word}` isn't made by this version of the program; this is the command {count}",
                "take the command away",
            )
    return beyond or unbuilt
