"""Rules files: their lines, and the faults of the language of rules. The program reads no rules yet."""
from . import expressions, inference, queries
from .inference import OBJECT, said_kind
from .source import Fault, Source, listed, not_text, perhaps
from .tokens import tokens

POLICIES = ("fixed", "inverted", "oldest", "turns")
STATES = ("created", "updated", "deleted")
MOST_AGENDAS, MOST_RULES, MOST_STATEMENTS = 8, 256, 64
FORMS = {
    "agenda": "agenda NAME POLICY",
    "rule": "rule NAME on AGENDA for PATTERN priority NUMBER",
    "job": "job created, job updated or job deleted",
    "create": "create NAME : CLASS",
    "set": "set OBJECT.ATTRIBUTE = EXPRESSION",
    "unset": "unset OBJECT.ATTRIBUTE",
    "link": "link OBJECT.REFERENCE OBJECT",
    "unlink": "unlink OBJECT.REFERENCE OBJECT",
    "move": "move OBJECT to OBJECT.REFERENCE",
    "delete": "delete OBJECT",
    "end": "end",
}
STATEMENTS = ("create", "set", "unset", "link", "unlink", "move", "delete")


class Line:
    """A line of rules: its number, its first word, and what stands in it, each name with its token."""

    def __init__(self, number, start, word):
        self.number, self.start, self.word = number, start, word
        self.name, self.agenda, self.pattern, self.policy, self.state, self.class_name = (None,) * 6
        # Objects, each with its feature where it has one; and the expression.
        self.objects, self.expr = [], None


class Reader:
    """The tokens of a line, taken one by one."""

    def __init__(self, source, number, text):
        self.source, self.number, self.start, self.place = source, number, source.starts[number - 1], 0
        try:
            self.tokens = tokens(Source(source.name, text.encode()))
        except Fault as fault:
            raise Fault("Syntax", number, self.start + fault.at, fault.said, fault.mend) from None
        self.line = len(text)

    def fail(self, said, mend=""):
        token = self.tokens[self.place] if self.place < len(self.tokens) else None
        at = token.at if token else self.tokens[-1].end if self.tokens else 0
        met = token.said() if token else "the line's end"
        raise Fault("Syntax", self.number, self.start + at, f"{met} stands where {said} has to stand", mend)

    def here_is(self, *texts):
        return self.place < len(self.tokens) and self.tokens[self.place].is_(*texts)

    def take(self):
        self.place += 1
        return self.tokens[self.place - 1]

    def word(self, texts, form):
        if not self.here_is(*texts):
            token = self.tokens[self.place] if self.place < len(self.tokens) else None
            mend = perhaps(token.text, texts) if token and token.sort == "word" else ""
            self.fail(" or ".join(f"`{t}`" for t in texts), mend or f"it is written `{form}`")
        return self.take()

    def id(self, what, form):
        if self.place >= len(self.tokens) or not self.tokens[self.place].is_id:
            token = self.tokens[self.place] if self.place < len(self.tokens) else None
            self.fail(
                what, f"`{token.text}` is a keyword" if token and token.sort == "word" else f"it is written `{form}`"
            )
        return self.take()

    def feature(self, form):
        """An object's name, a dot and a feature, which may be named as a keyword."""
        made = self.id("an object", form)
        self.word((".",), form)
        if self.place >= len(self.tokens) or self.tokens[self.place].sort != "word":
            self.fail("a feature's name", f"it is written `{form}`")
        return made, self.take()

    def end(self, form):
        if self.place < len(self.tokens):
            self.fail("the line's end", f"it is written `{form}`")


def line_of(source, number, text):
    """A line of rules; the fault Syntax where it is none."""
    reader = Reader(source, number, text)
    first = reader.tokens[0] if reader.tokens else None
    if first is None:
        raise Fault(
            "Syntax",
            number,
            reader.start + len(text) - len(text.lstrip()),
            "this line has no word",
            "begin a remark with `//` at the line's first column",
        )
    if not first.is_(*FORMS):
        reader.fail(
            "the first word of a line of rules",
            perhaps(first.text, FORMS) if first.sort == "word" else f"there are {listed(FORMS, 11)}",
        )
    reader.take()
    made, form = Line(number, reader.start, first.text), FORMS[first.text]
    if first.text == "agenda":
        made.name = reader.id("the agenda's name", form)
        made.policy = reader.word(POLICIES, form)
    elif first.text == "rule":
        read_rule(reader, made, form)
    elif first.text == "job":
        made.state = reader.word(STATES, form)
    elif first.text == "create":
        made.name = reader.id("the new object's name", form)
        reader.word((":",), form)
        made.class_name = reader.id("its class", form)
    elif first.text in ("set", "unset", "link", "unlink"):
        made.objects.append(reader.feature(form))
        if first.text == "set":
            reader.word(("=",), form)
            read_expression(reader, made)
            return made
        if first.text != "unset":
            made.objects.append((reader.id("the target", form), None))
    elif first.text == "move":
        made.objects.append((reader.id("the child", form), None))
        reader.word(("to",), form)
        made.objects.append(reader.feature(form))
    elif first.text == "delete":
        made.objects.append((reader.id("the object", form), None))
    reader.end(form)
    return made


def read_rule(reader, made, form):
    made.name = reader.id("the rule's name", form)
    reader.word(("on",), form)
    made.agenda = reader.id("an agenda's name", form)
    reader.word(("for",), form)
    made.pattern = reader.id("a pattern's name", form)
    reader.word(("priority",), form)
    if reader.here_is("-"):
        reader.take()
    if reader.place >= len(reader.tokens) or reader.tokens[reader.place].sort != "number":
        reader.fail("a number", f"it is written `{form}`")
    reader.take()
    flags = []
    while reader.here_is("update", "delete"):
        if reader.tokens[reader.place].text in flags:
            reader.fail("the line's end", "each flag stands once at most")
        flags.append(reader.take().text)
    reader.end(f"{form}, and then update, delete, or both")


def read_expression(reader, made):
    tokens = reader.tokens[reader.place :]
    try:
        made.expr = expressions.parse(tokens, with_attributes=True)
    except expressions.NoExpression as why:
        at = why.token.at if why.token else reader.tokens[-1].end
        shown = why.token.said() if why.token else "the line's end"
        raise Fault(
            "Syntax",
            reader.number,
            reader.start + at,
            f"{shown} stands where an expression goes on",
            'docs/QUERIES.md, "Expressions"',
        ) from None


def lines_of(source):
    """The lines of a file in their places; the fault Syntax at the first that is none, or stands in a wrong place."""
    found, rule, jobs, statements = [], None, 0, 0

    def fail(line, said, mend):
        raise Fault("Syntax", line.number, line.start, said, mend)

    texts = source.lines()
    for number, text in enumerate(texts, 1):
        if not text.strip(" \t") or text.startswith("//"):
            continue
        line = line_of(source, number, text)
        if line.word in ("agenda", "rule"):
            if rule is not None:
                fail(
                    line,
                    f'the rule "{rule.name.text}" of line {rule.number} isn\'t ended before this line',
                    "write `end` behind its last job"
                    if jobs and statements
                    else "a rule has a job, a job has a statement, and then comes `end`",
                )
            if line.word == "rule":
                rule, jobs, statements = line, 0, 0
        elif rule is None:
            fail(
                line,
                f"`{line.word}` stands in no rule",
                "jobs and statements stand behind a line `rule ..`, and before its `end`",
            )
        elif line.word == "job":
            if jobs and not statements:
                fail(line, "the job before has no statement", "take it away, or give it one")
            jobs, statements = jobs + 1, 0
        elif line.word == "end":
            if not jobs:
                fail(
                    line,
                    f'the rule "{rule.name.text}" of line {rule.number} has no job',
                    "write `job created` and what it does before `end`",
                )
            if not statements:
                fail(line, "the last job has no statement", "take it away, or give it one")
            rule = None
        else:
            if not jobs:
                fail(
                    line,
                    f"`{line.word}` stands in no job",
                    "write `job created`, `job updated` or `job deleted` before it",
                )
            statements += 1
        found.append(line)
    if rule is not None:
        at = source.starts[len(texts) - 1] if texts else 0
        raise Fault(
            "Syntax",
            len(texts) or 1,
            at,
            f'the file ends, and the rule "{rule.name.text}" of line {rule.number} isn\'t ended',
            "write `end` behind its last job",
        )
    return found


class Scope:
    """What a line can name: the parameters of its rule's pattern with their kinds, and the objects of the job so far."""

    def __init__(self, params):
        self.params, self.made = params, []

    def has(self, name):
        return name in self.params or name in self.made


class Judge:
    """The faults of lines that are in their places."""

    def __init__(self, meta, program, source, lines):
        self.meta, self.program, self.source, self.lines = meta, program, source, lines
        self.shown = {p.name: place for place, p in enumerate(program.file.patterns) if not p.is_private}
        self.attributes, self.references = {}, {}
        for item in meta.class_list:
            for feature in item.features:
                held = self.references if feature.is_reference else self.attributes
                held.setdefault(feature.name, set()).add(feature.kind if not feature.is_reference else OBJECT)

    def fault(self, name, line, token, said, mend=""):
        return Fault(name, line.number, line.start + token.at, said, mend)

    def params_of(self, line):
        """The parameters of a rule's pattern, each with its kind."""
        if line.pattern.text not in self.shown:
            return {}
        place = self.shown[line.pattern.text]
        pattern = self.program.file.patterns[place]
        return {
            name.text: next(iter(self.program.param_kinds(pattern.token, i)), None)
            for i, (name, _) in enumerate(pattern.params)
        }

    def scopes(self):
        """Each line with what it can name."""
        scope = Scope({})
        for line in self.lines:
            if line.word == "rule":
                scope = Scope(self.params_of(line))
            elif line.word == "job":
                scope = Scope(scope.params)
            yield line, scope
            if line.word == "create":
                scope.made.append(line.name.text)

    def unknown_patterns(self):
        for line in self.lines:
            if line.word == "rule" and line.pattern.text not in self.shown:
                private = any(p.name == line.pattern.text for p in self.program.file.patterns)
                mend = (
                    "it is private: take that word away there"
                    if private
                    else perhaps(line.pattern.text, self.shown, f"there are {listed(self.shown)}")
                )
                yield self.fault(
                    "UnknownPattern",
                    line,
                    line.pattern,
                    f'no pattern that isn\'t private is called "{line.pattern.text}"',
                    mend,
                )

    def unknown_names(self):
        agendas = []
        for line, scope in self.scopes():
            if line.word == "agenda":
                agendas.append(line.name.text)
            elif line.word == "rule" and line.agenda.text not in agendas:
                yield self.fault(
                    "UnknownName",
                    line,
                    line.agenda,
                    f'no line before declares an agenda "{line.agenda.text}"',
                    perhaps(line.agenda.text, agendas, f"write `agenda {line.agenda.text} fixed` before the rule"),
                )
            elif line.word == "create" and line.class_name.text not in self.meta.classes:
                yield self.fault(
                    "UnknownName",
                    line,
                    line.class_name,
                    f'there is no class "{line.class_name.text}"',
                    perhaps(line.class_name.text, self.meta.classes),
                )
            for token, feature in line.objects:
                if not scope.has(token.text):
                    yield self.no_variable(line, scope, token)
                held = self.attributes if line.word in ("set", "unset") else self.references
                if feature is not None and feature.text not in held:
                    what = "attribute" if held is self.attributes else "reference"
                    yield self.fault(
                        "UnknownName",
                        line,
                        feature,
                        f'no class has {"an" if what == "attribute" else "a"} {what} "{feature.text}"',
                        perhaps(feature.text, held),
                    )
            if line.expr is not None:
                yield from self.unknown_in(line, scope)

    def no_variable(self, line, scope, token):
        names = [*scope.params, *scope.made]
        return self.fault(
            "UnknownName",
            line,
            token,
            f'there is no variable "{token.text}" here',
            perhaps(token.text, names, f"there are {listed(names)}" if names else "the pattern has no parameter"),
        )

    def unknown_in(self, line, scope):
        for slot in line.expr.slots():
            if slot.slot not in scope.params:
                mend = (
                    "what a job creates has no values before the step"
                    if slot.slot in scope.made
                    else perhaps(slot.slot, scope.params)
                )
                yield self.fault("UnknownName", line, slot.token, f'the pattern has no parameter "{slot.slot}"', mend)
            elif slot.attribute is not None and slot.attribute.text not in self.attributes:
                yield self.fault(
                    "UnknownName",
                    line,
                    slot.attribute,
                    f'no class has an attribute "{slot.attribute.text}"',
                    perhaps(slot.attribute.text, self.attributes),
                )
        for found in line.expr.literals():
            enum, literal = found.literal
            reason = queries.literal_reason(self.meta, enum, literal, 0)
            if reason:
                yield Fault("UnknownName", line.number, line.start + reason.at, reason.said, reason.mend)

    def clashes(self):
        for line, scope in self.scopes():
            for token, _ in line.objects:
                kind = scope.params.get(token.text)
                if token.text not in scope.made and kind is not None and kind != OBJECT:
                    yield self.fault(
                        "KindClash",
                        line,
                        token,
                        f'"{token.text}" is a value {said_kind(kind)}, and stands for an object',
                        "take the parameter that is the object",
                    )
            if line.expr is not None:
                yield from self.clashes_in(line, scope)

    def clashes_in(self, line, scope):
        def kinds(slot):
            kind = scope.params.get(slot.slot)
            if slot.attribute is None:
                return {kind} - {None}
            return self.attributes.get(slot.attribute.text, set())

        for slot in line.expr.slots():
            kind = scope.params.get(slot.slot)
            if slot.attribute is None and kind == OBJECT:
                yield self.fault(
                    "KindClash",
                    line,
                    slot.token,
                    f'"{slot.slot}" is an object, and an expression is of values',
                    f"take an attribute of it: {slot.slot}.ATTRIBUTE",
                )
            elif slot.attribute is not None and kind != OBJECT:
                yield self.fault("KindClash", line, slot.token, f'"{slot.slot}" is no object, and has no attributes')
            elif slot.attribute is not None and len(kinds(slot)) > 1:
                yield self.fault(
                    "KindClash",
                    line,
                    slot.attribute,
                    f'classes declare "{slot.attribute.text}" with different kinds ({", ".join(sorted(kinds(slot)))})',
                    "read another one, or rename it in one class",
                )
        if not line.expr.kinds(kinds):
            yield self.fault(
                "KindClash",
                line,
                line.expr.token,
                "the operands of this expression are of kinds that don't fit",
                "arithmetic and < take whole numbers, && || and ! booleans, == and != two of one kind",
            )

    def duplicates(self):
        agendas, rules, states = {}, {}, {}
        for line, scope in self.scopes():
            if line.word == "rule":
                states = {}
            seen = {"agenda": agendas, "rule": rules, "job": states}.get(line.word)
            if seen is not None:
                token = line.name or line.state
                if token.text in seen:
                    what = (
                        f'a job for "{token.text}"'
                        if line.word == "job"
                        else f'{"an" if line.word == "agenda" else "a"} {line.word} "{token.text}"'
                    )
                    yield self.fault(
                        "Duplicate",
                        line,
                        token,
                        f"{what} stands on line {seen[token.text]} already",
                        "take one of the two away" if line.word == "job" else "rename one of the two",
                    )
                seen.setdefault(token.text, line.number)
            if line.word == "create" and scope.has(line.name.text):
                yield self.fault(
                    "Duplicate",
                    line,
                    line.name,
                    f'"{line.name.text}" is {"a parameter" if line.name.text in scope.params else "created before"}',
                    "take another name",
                )

    def too_many(self):
        counts = {"agenda": 0, "rule": 0, "statement": 0}
        for line in self.lines:
            if line.word == "job":
                counts["statement"] = 0
            word = "statement" if line.word in STATEMENTS else line.word
            if word in counts:
                counts[word] += 1
                most = {"agenda": MOST_AGENDAS, "rule": MOST_RULES, "statement": MOST_STATEMENTS}[word]
                if counts[word] > most:
                    where = " of its job" if word == "statement" else ""
                    yield Fault(
                        "TooMany",
                        line.number,
                        line.start,
                        f"this is the {word} {counts[word]}{where}, and there may be {most}",
                        "",
                    )


def explained(meta, file, source):
    """The first fault of a file of rules, over the patterns of a query file without a fault; none where it has none."""
    if source.bad_byte is not None:
        return not_text(source, "NotText", 1)
    try:
        lines = lines_of(source)
    except Fault as fault:
        return fault
    judge = Judge(meta, inference.Program(meta, file), source, lines)
    for faults in (judge.unknown_patterns, judge.unknown_names, judge.clashes, judge.duplicates, judge.too_many):
        found = min(faults(), key=lambda fault: (fault.place, fault.at), default=None)
        if found is not None:
            return found
    return None
