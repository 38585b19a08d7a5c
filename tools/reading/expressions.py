"""Expressions of check(..) and eval(..): their trees, and which kinds they can have."""
DEEPEST = 64
LEVELS = (("||",), ("&&",), ("==", "!=", "<", "<=", ">", ">="), ("+", "-"), ("*", "/", "%"))


class NoExpression(Exception):
    """The tokens are no expression; at this one that shows, or at the end."""

    def __init__(self, token):
        super().__init__()
        self.token = token


class Expression:
    """An operator with its operands, a constant with its kind, or a slot with its name and, in rules, its attribute."""

    def __init__(self, token, operator=None, operands=(), kind=None, literal=None, slot=None, attribute=None):
        self.token, self.operator, self.operands = token, operator, operands
        self.kind, self.literal, self.slot, self.attribute = kind, literal, slot, attribute

    def slots(self):
        """The slots in it, each as often as it stands there."""
        if self.slot is not None:
            return [self]
        return [slot for operand in self.operands for slot in operand.slots()]

    def literals(self):
        return [self] if self.literal else [found for operand in self.operands for found in operand.literals()]

    def kinds(self, of_slot):
        """The kinds that it can have, where each slot has one of the kinds that are told of it."""
        if self.slot is not None:
            return set(of_slot(self))
        if self.kind is not None:
            return {self.kind}
        inner = [operand.kinds(of_slot) for operand in self.operands]
        if self.operator in ("&&", "||", "!"):
            return {"boolean"} if all("boolean" in kinds for kinds in inner) else set()
        if self.operator in ("==", "!="):
            return {"boolean"} if inner[0] & inner[1] else set()
        if not all("int" in kinds for kinds in inner):
            return set()
        return {"boolean"} if self.operator in ("<", "<=", ">", ">=") else {"int"}


class Parser:
    def __init__(self, tokens, with_attributes):
        self.tokens, self.place, self.with_attributes, self.depth = tokens, 0, with_attributes, 0

    def here_is(self, *texts):
        return self.place < len(self.tokens) and self.tokens[self.place].is_(*texts)

    def take(self):
        if self.place >= len(self.tokens):
            raise NoExpression(None)
        self.place += 1
        return self.tokens[self.place - 1]

    def level(self, n):
        if n == len(LEVELS):
            return self.unary()
        left = self.level(n + 1)
        while self.here_is(*LEVELS[n]):
            token = self.take()
            left = Expression(token, token.text, (left, self.level(n + 1)))
            # Comparisons don't chain.
            if n == 2:
                break
        return left

    def unary(self):
        opened = 0
        signs = []
        while self.here_is("-", "!"):
            signs.append(self.take())
            opened += 1
            self.enter(signs[-1])
        made = self.primary()
        for token in reversed(signs):
            made = Expression(token, token.text, (made,))
        self.depth -= opened
        return made

    def enter(self, token):
        self.depth += 1
        if self.depth > DEEPEST:
            raise NoExpression(token)

    def primary(self):
        token = self.take()
        if token.is_("("):
            self.enter(token)
            made = self.level(0)
            if not self.here_is(")"):
                raise NoExpression(self.tokens[self.place] if self.place < len(self.tokens) else None)
            self.take()
            self.depth -= 1
            return made
        if token.sort == "number":
            return Expression(token, kind="int")
        if token.sort == "string":
            return Expression(token, kind="string")
        if token.is_("true", "false"):
            return Expression(token, kind="boolean")
        if not token.is_id:
            raise NoExpression(token)
        if self.here_is("::"):
            self.take()
            literal = self.take()
            if literal.sort != "word":
                raise NoExpression(literal)
            return Expression(token, kind=token.text, literal=(token, literal))
        if self.with_attributes and self.here_is("."):
            self.take()
            attribute = self.take()
            if attribute.sort != "word":
                raise NoExpression(attribute)
            return Expression(token, slot=token.text, attribute=attribute)
        return Expression(token, slot=token.text)


def parse(tokens, with_attributes=False):
    """The expression that tokens are; NoExpression where they are none."""
    parser = Parser(tokens, with_attributes)
    made = parser.level(0)
    if parser.place < len(tokens):
        raise NoExpression(tokens[parser.place])
    return made
