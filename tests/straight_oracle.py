"""What a unit of the straight `int` form means, by ISO C99: an evaluator of its own, which shares nothing with c2rs.

The form: at most one `int putchar(int);`, then objects `int x;` and `int x = N;`, then `int main(void) { .. }` whose
body is a list of `e;` with a last `return e;`. An expression is an integer constant of type `int`, an object,
`(e)`, `-e`, `e + e`, `e - e`, `e * e`, `x = e`, or `putchar(e)`. Read, but outside the form: several declarators in a
declaration, and `-N` as an initialiser. The characteristics of the implementation are those of GCC on x86-64: `int`
has 32 bits, `unsigned char` has 8.
"""

import re
from dataclasses import dataclass, field

LEAST, GREATEST = -(2**31), 2**31 - 1


# ---- trees; the line of each is that of its first token


@dataclass(frozen=True)
class Number:
    value: int
    line: int


@dataclass(frozen=True)
class Load:
    name: str
    line: int


@dataclass(frozen=True)
class Negate:
    on: object
    line: int


@dataclass(frozen=True)
class Binary:
    left: object
    operator: str
    right: object
    line: int


@dataclass(frozen=True)
class Assign:
    name: str
    value: object
    line: int


@dataclass(frozen=True)
class PutChar:
    argument: object
    line: int


@dataclass(frozen=True)
class Unit:
    """The objects with their initial values (0 where there is no initialiser, 6.7.8p10), and the full expressions of
    the body in order, the last of which is that of `return`."""

    objects: dict
    expressions: list


class NotOfTheForm(Exception):
    """The text is no unit of the form."""


# ---- reading a text (6.4, 6.5, 6.7, 6.9)

TOKEN = re.compile(
    r"(?P<blank>[ \t\v\f\r\n]+|/\*.*?\*/|//[^\n]*|#[^\n]*)|(?P<word>[A-Za-z_]\w*)|(?P<number>\d\w*)"
    r"|(?P<mark>--|\+\+|->|[-+*=]=|[-+*=(){},;])",
    re.DOTALL | re.ASCII,
)


def tokens_of(text):
    """The tokens of a text with their lines, each the longest (6.4p4), so that the reader refuses `--` and `-=`.
    Comments (6.4.9) and lines that begin with `#` are blanks."""
    tokens, at, line = [], 0, 1
    while at < len(text):
        found = TOKEN.match(text, at)
        if found is None:
            raise NotOfTheForm(f"line {line}: no token")
        if found.lastgroup != "blank":
            tokens.append((found.group(), line))
        line += found.group().count("\n")
        at = found.end()
    return tokens


def value_of(text):
    """The value of an integer constant without suffix: hexadecimal, octal (as 0 is) or decimal (6.4.4.1)."""
    if re.fullmatch(r"0[xX][0-9A-Fa-f]+", text):
        return int(text, 16)
    if re.fullmatch(r"0[0-7]*", text):
        return int(text, 8)
    return int(text) if re.fullmatch(r"[1-9][0-9]*", text) else None


@dataclass
class Reader:
    """Reads the tokens of a unit by recursive descent."""

    tokens: list
    at: int = 0
    objects: dict = field(default_factory=dict)
    has_putchar: bool = False

    def peek(self, ahead=0):
        place = self.at + ahead
        return self.tokens[place][0] if place < len(self.tokens) else ""

    def line(self):
        return self.tokens[self.at][1] if self.at < len(self.tokens) else 0

    def take(self, *wanted):
        for text in wanted:
            if self.peek() != text:
                raise NotOfTheForm(f"line {self.line()}: {text} is wanted, and {self.peek()!r} is there")
            self.at += 1

    def word(self):
        text = self.peek()
        if not re.fullmatch(r"[A-Za-z_]\w*", text) or text in ("int", "void", "return", "main", "putchar"):
            raise NotOfTheForm(f"line {self.line()}: no name")
        self.at += 1
        return text

    def number(self):
        text, line = self.peek(), self.line()
        value = value_of(text)
        if value is None or value > GREATEST:
            raise NotOfTheForm(f"line {line}: no constant of type int")
        self.at += 1
        return Number(value, line)

    def unit(self):
        if self.peek(1) == "putchar":
            self.take("int", "putchar", "(", "int", ")", ";")
            self.has_putchar = True
        while self.peek(1) != "main":
            self.declaration()
        self.take("int", "main", "(", "void", ")", "{")
        expressions = self.body()
        self.take("}")
        if self.at != len(self.tokens):
            raise NotOfTheForm(f"line {self.line()}: more than a unit")
        return Unit(self.objects, expressions)

    def declaration(self):
        self.take("int")
        self.declarator()
        while self.peek() == ",":
            self.take(",")
            self.declarator()
        self.take(";")

    def declarator(self):
        name = self.word()
        if name in self.objects:
            raise NotOfTheForm(f"{name} is declared twice")
        self.objects[name] = self.initialiser() if self.peek() == "=" else 0

    def initialiser(self):
        self.take("=")
        sign = -1 if self.peek() == "-" else 1
        if sign < 0:
            self.take("-")
        return sign * self.number().value

    def body(self):
        expressions = []
        while self.peek() != "return":
            expressions.append(self.expression())
            self.take(";")
        self.take("return")
        expressions.append(self.expression())
        self.take(";")
        return expressions

    def expression(self):
        """An assignment expression (6.5.16), which groups to the right."""
        line = self.line()
        if self.peek(1) != "=":
            return self.additive()
        name = self.object_name()
        self.take("=")
        return Assign(name, self.expression(), line)

    def object_name(self):
        name = self.word()
        if name not in self.objects:
            raise NotOfTheForm(f"{name} isn't declared")
        return name

    def additive(self):
        return self.grouped(("+", "-"), self.multiplicative)

    def multiplicative(self):
        return self.grouped(("*",), self.unary)

    def grouped(self, operators, operand):
        """Binary operators of one level, which group to the left (6.5.5, 6.5.6)."""
        line = self.line()
        left = operand()
        while self.peek() in operators:
            operator = self.peek()
            self.take(operator)
            left = Binary(left, operator, operand(), line)
        return left

    def unary(self):
        line = self.line()
        if self.peek() != "-":
            return self.primary()
        self.take("-")
        return Negate(self.unary(), line)

    def primary(self):
        line = self.line()
        if self.peek() == "(":
            return self.in_parentheses()
        if self.peek() == "putchar" and self.has_putchar:
            self.take("putchar")
            return PutChar(self.in_parentheses(), line)
        if self.peek()[:1].isdigit():
            return self.number()
        return Load(self.object_name(), line)

    def in_parentheses(self):
        self.take("(")
        inner = self.expression()
        self.take(")")
        return inner


def unit_of(text):
    """The unit that a text spells; NotOfTheForm where it spells none."""
    return Reader(tokens_of(text)).unit()


# ---- what is sequenced before what (6.5p2, Annex C)


@dataclass(frozen=True)
class Access:
    """A read or a write of an object. Its path goes from the root of the full expression to the access: each step is
    the form of a node and which part of that node the access belongs to."""

    name: str
    is_write: bool
    path: tuple


def first_difference(one, other):
    """How many steps two paths have in common."""
    shared = 0
    while shared < min(len(one), len(other)) and one[shared] == other[shared]:
        shared += 1
    return shared


def are_sequenced(one, other):
    """Whether one of two accesses of a full expression stands before the other in every order.

    The operands of a binary operator aren't sequenced (6.5p3). In `x = e` the reads in `e` come before the write of
    `x`, which needs their values (6.5.16p2, p4: the update follows no other access but those that compute the value);
    a write in `e` does so only where a call stands above it in `e`: there is a sequence point between its arguments
    and the call (6.5.2.2p10), and the value of `e` needs the call."""
    shared = first_difference(one.path, other.path)
    form, _ = one.path[shared]
    if form == "binary":
        return False
    inner = other if one.path[shared] == ("assign", "store") else one
    return not inner.is_write or any(form == "call" for form, _ in inner.path[shared:])


def is_conflict(one, other):
    """Between two sequence points an object is modified at most once, and it is read only to determine the value to
    be stored (6.5p2)."""
    return one.name == other.name and (one.is_write or other.is_write) and not are_sequenced(one, other)


# ---- evaluation


class Undefined(Exception):
    """A step is undefined: U1 a conflict (6.5p2), U2 overflow (6.5p5), at the line of its node's first token."""

    def __init__(self, rule, line):
        super().__init__(rule, line)
        self.rule = rule
        self.line = line


@dataclass(frozen=True)
class Answer:
    """What a run shows: the bytes written so far, and the exit status (of 0 to 255) or the rule and the line of the
    undefined step. `is_ordered` says that another order of the operands can write other bytes."""

    written: bytes
    status: int | None = None
    rule: str | None = None
    line: int | None = None
    is_ordered: bool = False

    def __str__(self):
        ending = f"ended {self.status}" if self.rule is None else f"undefined at line {self.line}: {self.rule}"
        return f"{self.written!r}, {ending}"


@dataclass
class Evaluator:
    """A run of a unit, in which the operands of each binary operator go from the left, or from the right."""

    objects: dict
    from_left: bool = True
    written: bytearray = field(default_factory=bytearray)
    accesses: list = field(default_factory=list)
    is_ordered: bool = False

    def full_expression(self, expression):
        """The value of a full expression; its end is a sequence point (6.8p4)."""
        self.accesses.clear()
        return self.value(expression, ())

    def value(self, expression, path):
        match expression:
            case Number(value):
                return value
            case Load(name):
                self.accesses.append(Access(name, False, path))
                return self.objects[name]
            case Negate(on, line):
                return in_range(-self.value(on, path + (("negate", "operand"),)), line)
            case PutChar(argument):
                return self.put(self.value(argument, path + (("call", "argument"),)))
            case Assign(name, value, line):
                return self.store(name, self.value(value, path + (("assign", "value"),)), path, line)
            case Binary():
                return self.binary(expression, path)

    def put(self, value):
        """`putchar` writes its argument converted to `unsigned char`, and gives the character written (7.19.7.3p2,
        p3, 7.19.7.9)."""
        self.written.append(value & 255)
        return value & 255

    def store(self, name, value, path, line):
        self.accesses.append(Access(name, True, path + (("assign", "store"),)))
        self.look_for_conflict(path, line)
        self.objects[name] = value
        return value

    def binary(self, expression, path):
        left, right = self.operands(expression, path)
        self.look_for_conflict(path, expression.line)
        results = {"+": left + right, "-": left - right, "*": left * right}
        return in_range(results[expression.operator], expression.line)

    def operands(self, expression, path):
        parts = [(expression.left, "left"), (expression.right, "right")]
        values, start = {}, len(self.written)
        for operand, side in parts if self.from_left else reversed(parts):
            middle = len(self.written)
            values[side] = self.value(operand, path + (("binary", side),))
        self.note_order(bytes(self.written[start:middle]), bytes(self.written[middle:]))
        return values["left"], values["right"]

    def note_order(self, first, second):
        """The calls of two operands may be made in any order (6.5p3): one sees which, where both write and not all
        bytes are the same."""
        self.is_ordered |= bool(first and second and len(set(first + second)) > 1)

    def look_for_conflict(self, path, line):
        """Two accesses conflict whose paths part at the node with this path."""
        depth = len(path)
        inside = [one for one in self.accesses if one.path[:depth] == path]
        for number, one in enumerate(inside):
            for other in inside[:number]:
                if one.path[depth] != other.path[depth] and is_conflict(other, one):
                    raise Undefined("U1", line)


def in_range(value, line):
    """A result that its type can't represent is undefined (6.5p5)."""
    if not LEAST <= value <= GREATEST:
        raise Undefined("U2", line)
    return value


def answer_of(unit, from_left=True):
    """What the run of a unit shows. The status is that of `exit` with the value that `main` gives (5.1.2.2.3), of
    which the system keeps the low eight bits."""
    run = Evaluator(dict(unit.objects), from_left)
    status = 0
    try:
        for expression in unit.expressions:
            status = run.full_expression(expression) & 255
    except Undefined as fault:
        return Answer(bytes(run.written), None, fault.rule, fault.line, run.is_ordered)
    return Answer(bytes(run.written), status, is_ordered=run.is_ordered)
