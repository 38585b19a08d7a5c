"""The grammar of query files: that of the whole language, of which the program reads a part so far."""
from .source import Fault, perhaps
from .tokens import Token, tokens

AGGREGATES = ("sum", "min", "max", "avg", "count")
CLOSING = {"(": ")", "{": "}", "[": "]"}


# ---- trees


class Term:
    """A variable (its name), `_` (no name), or a constant with its kind."""

    def __init__(self, token, name=None, kind=None, literal=None):
        self.at, self.name, self.kind, self.literal = token.at, name, kind, literal

    @property
    def is_blank(self):
        return self.name is None and self.kind is None

    @property
    def is_constant(self):
        return self.kind is not None


class Constraint:
    """One of: type, path, find, neg, check, equal, differ, eval, aggregate."""

    def __init__(self, form, token):
        self.form, self.token = form, token
        self.type, self.path, self.terms, self.call, self.aggregate = None, [], [], None, None
        # Tokens in brackets behind check or eval.
        self.inner = []


class Call:
    def __init__(self, name, closure):
        self.name, self.closure, self.args = name, closure, []


class Pattern:
    def __init__(self, name, token, is_private):
        self.name, self.token, self.is_private = name, token, is_private
        # Parameters: a token and the type's, if it has one; a java type is the token `java`.
        self.params, self.bodies, self.annotations = [], [], []


class File:
    def __init__(self):
        self.package, self.imports, self.patterns = None, [], []


# ---- grammar


class Parser:
    """Reads a file, and refuses the first token that no file goes on with."""

    def __init__(self, source, found):
        self.source, self.found, self.place = source, found, 0
        self.end = Token("end", "", len(source.text), len(source.text))

    @property
    def here(self):
        return self.found[self.place] if self.place < len(self.found) else self.end

    def fail(self, said, mend=""):
        token = self.here
        if token.sort == "end":
            # The fault stands at the last line, and what is missing behind the last token.
            at = self.found[-1].end - 1 if self.found else 0
            lines = len(self.source.lines()) or 1
            raise Fault("Syntax", lines, at, f"the file ends here, where {said} has to stand", mend)
        raise Fault(
            "Syntax", self.source.line(token.at), token.at, f"{token.said()} stands where {said} has to stand", mend
        )

    def take(self):
        token = self.here
        self.place += 1
        return token

    def mark(self, text, mend=""):
        if not self.here.is_(text):
            self.fail(f"`{text}`", mend)
        return self.take()

    def id(self, what):
        if not self.here.is_id:
            mend = f"`{self.here.text}` is a keyword: take another name" if self.here.sort == "word" else ""
            self.fail(what, mend)
        return self.take()

    def file(self):
        made = File()
        if self.here.is_("package"):
            made.package = self.take()
            self.qname("a package's name")
            if self.here.is_(";"):
                self.take()
        while self.here.is_("import"):
            word = self.take()
            if self.here.sort != "string":
                self.fail("the metamodel's uri in double quotes")
            made.imports.append((word, self.take()))
            if self.here.is_(";"):
                self.take()
        while self.here.sort != "end":
            made.patterns.append(self.pattern())
        return made

    def qname(self, what):
        self.id(what)
        while self.here.is_("."):
            self.take()
            self.id(what)

    def pattern(self):
        annotations = []
        while self.here.is_("@"):
            annotations.append(self.take())
            self.id("the annotation's name")
            if self.here.is_("("):
                self.balanced()
        is_private = self.here.is_("private")
        if is_private:
            self.take()
        if not self.here.is_("pattern"):
            mend = ""
            if self.here.is_(";"):
                mend = "no `;` stands behind a body: take it away"
            elif self.here.is_("import", "package"):
                mend = "package and imports stand before the first pattern, in this order"
            elif self.here.sort == "word":
                mend = perhaps(
                    self.here.text, ["pattern", "private", "import", "package", "or"], "a pattern begins with this word"
                )
            self.fail("`pattern`", mend)
        self.take()
        name = self.id("the pattern's name")
        made = Pattern(name.text, name, is_private)
        made.annotations = annotations
        self.mark("(")
        made.params = self.listed(self.param)
        self.mark(
            ")",
            "a type stands behind the name, as `s: Segment`, and parameters are separated by commas"
            if self.here.is_id
            else "",
        )
        made.bodies.append(self.body())
        while self.here.is_("or"):
            self.take()
            made.bodies.append(self.body())
        return made

    def listed(self, item):
        """What stands in parentheses, separated by commas, up to what closes them."""
        items = []
        if not self.here.is_(")"):
            items.append(item())
            while self.here.is_(","):
                self.take()
                items.append(item())
        return items

    def param(self):
        name = self.id("a parameter's name")
        if not self.here.is_(":"):
            return name, None
        self.take()
        return name, self.type("a type")

    def type(self, what):
        if self.here.is_("java"):
            word = self.take()
            self.qname("a java type's name")
            return word
        return self.id(what)

    def body(self):
        self.mark("{")
        made = []
        while not self.here.is_("}"):
            made.append(self.constraint())
            self.semicolon()
        self.take()
        return made

    def semicolon(self):
        if self.here.is_(";"):
            self.take()
            return
        # It is told with the line of the token before which it is missing, and has to stand behind the one before.
        before, token = self.found[self.place - 1], self.here
        if token.sort == "end":
            raise Fault(
                "Syntax",
                len(self.source.lines()),
                before.end,
                "a `;` is missing here, before the end of the file",
                "each constraint ends with one",
            )
        line = self.source.line(token.at)
        raise Fault(
            "Syntax",
            line,
            before.end,
            f"a `;` is missing here, before {token.said()} of line {line}",
            "each constraint ends with one",
        )

    def constraint(self):
        token = self.here
        if token.is_("neg", "find"):
            made = Constraint("neg" if token.is_("neg") else "find", token)
            if token.is_("neg"):
                self.take()
                if not self.here.is_("find"):
                    self.fail("`find`", "a negation is `neg find p(..)`")
            self.take()
            made.call = self.call()
            return made
        if token.is_("check"):
            made = Constraint("check", self.take())
            made.inner = self.balanced()
            return made
        if token.is_("java"):
            made = Constraint("type", token)
            made.type = self.type("a type")
            self.one_term(made)
            return made
        if token.is_id:
            after = self.found[self.place + 1] if self.place + 1 < len(self.found) else self.end
            if after.is_("("):
                made = Constraint("type", token)
                made.type = self.take()
                self.one_term(made)
                return made
            if after.is_("."):
                return self.path(Constraint("path", token))
            if not after.is_("::", "==", "!="):
                self.take()
                mend = "a constraint is Class(x), Class.feature(x, y), find p(..), neg find p(..), check(..), or two values with == or != between them"
                if self.here.is_("="):
                    mend = "values are compared by `==`"
                elif self.here.is_("<", ">", "<=", ">=", "+", "-", "*", "/", "%"):
                    mend = "an expression stands in check(..), or in eval(..) behind `==`"
                self.fail("`(`, `.`, `==` or `!=`", mend)
        if not (token.is_id or token.sort in ("blank", "number", "string") or token.is_("-", "true", "false")):
            mend = "no `;` stands alone" if token.is_(";") else ""
            if token.sort == "word":
                mend = f"`{token.text}` is a keyword"
            self.fail("a constraint or `}`", mend)
        left = self.term()
        if not self.here.is_("==", "!="):
            self.fail("`==` or `!=`", "values are compared by `==`" if self.here.is_("=") else "")
        if self.take().text == "!=":
            made = Constraint("differ", token)
            made.terms = [left, self.term()]
            return made
        return self.right(left, token)

    def right(self, left, token):
        if self.here.is_("eval"):
            made = Constraint("eval", self.take())
            made.inner = self.balanced()
            made.terms = [left]
            return made
        if self.here.is_(*AGGREGATES):
            made = Constraint("aggregate", self.here)
            made.aggregate = self.take()
            if not self.here.is_("find"):
                self.fail("`find`", "an aggregate is `sum find p(.., #n)`")
            self.take()
            made.call = self.call()
            made.terms = [left]
            return made
        made = Constraint("equal", token)
        made.terms = [left, self.term()]
        return made

    def one_term(self, made):
        self.mark("(")
        made.terms = [self.term()]
        self.mark(
            ")", "a type has one value: Class(x); a feature has two: Class.feature(x, y)" if self.here.is_(",") else ""
        )

    def path(self, made):
        made.type = self.take()
        while self.here.is_("."):
            self.take()
            if self.here.sort != "word":
                self.fail("a feature's name")
            made.path.append(self.take())
        self.mark("(", "behind the feature its two values stand: Class.feature(x, y)")
        made.terms = [self.term()]
        self.mark(",", "a feature has two values: Class.feature(x, y)")
        made.terms.append(self.term())
        self.mark(")")
        return made

    def term(self):
        token = self.here
        if token.sort == "blank":
            return Term(self.take())
        if token.sort == "number":
            return Term(self.take(), kind="int")
        if token.is_("-"):
            self.take()
            if self.here.sort != "number":
                self.fail("a number", "an expression stands in check(..) or eval(..)")
            self.take()
            return Term(token, kind="int")
        if token.sort == "string":
            return Term(self.take(), kind="string")
        if token.is_("true", "false"):
            return Term(self.take(), kind="boolean")
        name = self.id("a variable, `_` or a constant")
        if not self.here.is_("::"):
            return Term(name, name=name.text)
        self.take()
        if self.here.sort != "word":
            self.fail("a literal's name")
        literal = self.take()
        return Term(name, kind=name.text, literal=(name, literal))

    def call(self):
        name = self.id("a pattern's name")
        made = Call(name, None)
        if self.here.is_("+", "*"):
            made.closure = self.take()
        self.mark("(")
        made.args = self.listed(self.arg)
        self.mark(")")
        return made

    def arg(self):
        if not self.here.is_("#"):
            return self.term()
        token = self.take()
        if self.here.is_id:
            self.take()
        return token

    def balanced(self):
        """What stands between an opening bracket, which has to stand here, and the one that closes it."""
        first = self.mark("(")
        opened, begin = [first], self.place
        while opened:
            token = self.here
            if token.sort == "end":
                line, column = self.source.place(opened[-1].at)
                self.fail(f"the `{CLOSING[opened[-1].text]}` of the bracket of line {line}, column {column}")
            if token.is_("(", "{", "["):
                opened.append(token)
            elif token.is_(")", "}", "]"):
                if token.text != CLOSING[opened[-1].text]:
                    line, column = self.source.place(opened[-1].at)
                    self.fail(f"the `{CLOSING[opened[-1].text]}` of the bracket of line {line}, column {column}")
                opened.pop()
            self.take()
        return self.found[begin : self.place - 1]


def parse(source):
    """The tree of a file; a Fault NotText, BadToken or Syntax where it has none."""
    found = tokens(source)
    return Parser(source, found).file()
