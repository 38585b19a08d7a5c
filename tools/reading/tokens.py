"""The tokens of query files and of rules."""
import re

from .source import Fault, sign

KEYWORDS = "package import pattern private or find neg check eval sum min max avg count java true false".split()
MARKS = sorted("( ) { } [ ] , ; : :: . # @ = == != < <= > >= + - * / % ! & && | || ?".split(), key=len, reverse=True)
GREATEST = 2**63 - 1
BETWEEN = re.compile(r"(?:[ \t\n]|\r\n|//[^\n]*|/\*.*?\*/)*", re.S)
WORD = re.compile(r"[A-Za-z_][A-Za-z0-9_]*")
NUMBER = re.compile(r"[0-9]+")
STRING = re.compile(r'"(?:[^"\\\n]|\\["\\nt])*"')
MARK = re.compile("|".join(re.escape(mark) for mark in MARKS))


class Token:
    """Its sort (word, blank, number, string, mark, or end behind the last), its text, and where it stands."""

    __slots__ = ("sort", "text", "at", "end")

    def __init__(self, sort, text, at, end):
        self.sort, self.text, self.at, self.end = sort, text, at, end

    def is_(self, *texts):
        return self.sort in ("word", "mark") and self.text in texts

    @property
    def is_id(self):
        return self.sort == "word" and self.text not in KEYWORDS

    def said(self):
        return "the end of the file" if self.sort == "end" else f"`{self.text}`"


def tokens(source):
    """The tokens of a text; the fault BadToken at the first text that is none."""
    text, at, found = source.text, 0, []

    def bad(where, said, mend=""):
        raise Fault("BadToken", source.line(where), where, said, mend)

    while True:
        at = BETWEEN.match(text, at).end()
        if at == len(text):
            return found
        letter = text[at]
        if text.startswith("/*", at):
            bad(at, "the comment that begins here is never closed", "close it by `*/`")
        word = WORD.match(text, at)
        if word:
            sort = "blank" if word.group() == "_" else "word"
            found.append(Token(sort, word.group(), at, word.end()))
            at = word.end()
            continue
        number = NUMBER.match(text, at)
        if number:
            if WORD.match(text, number.end()):
                bad(
                    at,
                    f"a number is directly followed by {sign(text[number.end()])}",
                    "a name begins with a letter; put a space or a mark between the two",
                )
            if len(number.group().lstrip("0")) > 19 or int(number.group()[-25:]) > GREATEST:
                bad(at, f"a number is at most {GREATEST}")
            found.append(Token("number", number.group(), at, number.end()))
            at = number.end()
            continue
        if letter == '"':
            string = STRING.match(text, at)
            if not string:
                end = text.find("\n", at)
                line = text[at : len(text) if end < 0 else end]
                escape = re.search(r'^"(?:[^"\\]|\\["\\nt])*(\\[^"\\nt])', line)
                if escape:
                    bad(
                        at,
                        f"the string that begins here has the escape `{escape.group(1)}`, which is none",
                        r"there are \", \\, \n and \t",
                    )
                bad(at, "the string that begins here isn't closed on its line", 'close it by a `"`')
            found.append(Token("string", string.group(), at, string.end()))
            at = string.end()
            continue
        mark = MARK.match(text, at)
        if mark:
            found.append(Token("mark", mark.group(), at, mark.end()))
            at = mark.end()
            continue
        if letter == "\ufeff" and at == 0:
            bad(at, "the file begins with a byte order mark", "save it as UTF-8 without one")
        if letter == "'":
            bad(at, "`'` begins no token", "a string stands in double quotes")
        if letter == "\r":
            bad(at, "a carriage return stands here without a line feed behind it", "end lines by a line feed")
        mend = (
            "names have letters of ASCII alone"
            if letter.isalpha()
            else "outside strings and comments there is no such sign"
        )
        bad(at, f"{sign(letter)} begins no token", mend)
