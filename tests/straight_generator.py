"""Random texts of units of the straight `int` form (its description stands in straight_oracle.py)."""

from dataclasses import dataclass
from random import Random

from straight_oracle import answer_of, unit_of

NAMES = ["x", "y", "z", "n", "b", "t", "t_0", "x1", "Total", "a_b", "mIxEd9", "val", "ret", "lit", "current"]
LARGE = [2147483647, 2147483646, 1073741824, 1073741823, 65536, 46341, 46340, 65535, 32768, 1000003]
COMMENTS = ["", " x = 1; ", "**", "/", " * / ", " it's \"open ", " // ", " return 0; } ", " é ", "\n\n", " int\n putchar "]
LINE_COMMENTS = ["", " /* ", " x = 2;", " */", " 'a", " é"]
BLANKS = [" ", "  ", "\t", "\n", "\n    ", "\n\n", "\r\n", "\v", "\f"]

# how tightly an expression binds (6.5): an operand that binds less stands in parentheses
ASSIGNMENT, ADDITIVE, MULTIPLICATIVE, UNARY, PRIMARY = range(5)


@dataclass(frozen=True)
class Piece:
    """The tokens of an expression, and how tightly it binds."""

    level: int
    tokens: tuple


@dataclass(frozen=True)
class Manner:
    """How expressions are drawn: whether operands avoid conflicts, how often a constant is large, and the weights of
    the forms."""

    avoids_conflicts: bool
    share_of_large: float
    weights: dict


WEIGHTS = {"add": 3, "subtract": 3, "multiply": 2, "negate": 1, "assign": 2, "call": 2, "leaf": 2}
CAREFUL = Manner(True, 0.03, WEIGHTS)
FREE = Manner(False, 0.03, WEIGHTS)
CONFLICTING = Manner(False, 0.02, WEIGHTS | {"assign": 4, "call": 1})
LARGE_VALUES = Manner(True, 0.4, WEIGHTS | {"multiply": 4})


@dataclass
class Drawer:
    """Draws the expressions of a unit."""

    random: Random
    manner: Manner
    has_putchar: bool

    def expression(self, depth, readable, writable):
        """An expression of at most this depth, which reads and writes these objects alone."""
        form = self.form(depth, writable)
        match form:
            case "leaf":
                return self.leaf(readable)
            case "negate":
                return Piece(UNARY, ("-", *self.operand(UNARY, self.expression(depth - 1, readable, writable))))
            case "call":
                return self.call(depth, readable, writable)
            case "assign":
                return self.assignment(depth, readable, writable)
            case _:
                return self.binary(form, depth, readable, writable)

    def form(self, depth, writable):
        if depth == 0:
            return "leaf"
        weights = dict(self.manner.weights)
        weights["assign"] *= bool(writable)
        weights["call"] *= self.has_putchar
        return self.random.choices(list(weights), list(weights.values()))[0]

    def leaf(self, readable):
        if readable and self.random.random() < 0.5:
            return Piece(PRIMARY, (self.random.choice(readable),))
        return Piece(PRIMARY, (str(self.constant()),))

    def constant(self):
        if self.random.random() < self.manner.share_of_large:
            return self.random.choice(LARGE)
        return self.random.choice([self.random.randint(0, 9), self.random.randint(0, 130), self.random.randint(0, 1000)])

    def call(self, depth, readable, writable):
        return Piece(PRIMARY, ("putchar", "(", *self.argument(depth, readable, writable).tokens, ")"))

    def argument(self, depth, readable, writable):
        """What is written: mostly a byte that can be printed, at times as a multiple of 256 and that byte."""
        byte = self.random.choice([10, *range(32, 127)])
        draw = self.random.random()
        if draw < 0.45:
            return Piece(PRIMARY, (str(byte + 256 * self.random.choice([0, 0, 0, 1, 3, 70000])),))
        if draw < 0.6:
            return Piece(UNARY, ("-", str(256 - byte)))
        inner = self.expression(depth - 1, readable, writable)
        if draw < 0.85:
            return Piece(ADDITIVE, (*self.operand(MULTIPLICATIVE, inner), "*", "256", "+", str(byte)))
        return inner

    def assignment(self, depth, readable, writable):
        target = self.random.choice(writable)
        rest = [name for name in writable if name != target] if self.manner.avoids_conflicts else writable
        return Piece(ASSIGNMENT, (target, "=", *self.operand(ASSIGNMENT, self.expression(depth - 1, readable, rest))))

    def binary(self, form, depth, readable, writable):
        operator, level = {"add": ("+", ADDITIVE), "subtract": ("-", ADDITIVE), "multiply": ("*", MULTIPLICATIVE)}[form]
        ours, theirs = self.shared_out(readable, writable)
        left = self.operand(level, self.expression(depth - 1, *ours))
        right = self.operand(level + 1, self.expression(depth - 1, *theirs))
        return Piece(level, (*left, operator, *right))

    def shared_out(self, readable, writable):
        """What each of two operands may read and write: with care, neither what the other may write."""
        if not self.manner.avoids_conflicts:
            return (readable, writable), (readable, writable)
        owners = {name: self.random.choice(["left", "right", "none"]) for name in writable}

        def part(own, other):
            return (
                [name for name in readable if owners.get(name) != other],
                [name for name in writable if owners[name] == own],
            )

        return part("left", "right"), part("right", "left")

    def operand(self, level, piece):
        """The tokens of an operand, in parentheses where it binds less than is wanted, and at times elsewhere."""
        if piece.level < level or self.random.random() < 0.08:
            return ("(", *piece.tokens, ")")
        return piece.tokens


# ---- units


def drawn_lines(random, manner, is_wide):
    """The lines of tokens of a unit. A wide one may leave the form: several declarators, `-N` as an initialiser."""
    has_putchar = random.random() < 0.85
    names = random.sample(NAMES, random.randint(0, 6))
    drawer = Drawer(random, manner, has_putchar)
    lines = [("int", "putchar", "(", "int", ")", ";")] if has_putchar else []
    lines += declarations(random, drawer, names, is_wide)
    lines.append(("int", "main", "(", "void", ")", "{"))
    for _ in range(random.randint(1, 12) - 1):
        lines.append((*statement(random, drawer, names), ";"))
    lines.append(("return", *statement(random, drawer, names), ";"))
    return lines + [("}",)]


def statement(random, drawer, names):
    """The tokens of a full expression; most store or write something."""
    depth = random.randint(0, 6)
    if names and random.random() < 0.5:
        return drawer.assignment(max(depth, 1), names, names).tokens
    if drawer.has_putchar and random.random() < 0.4:
        return drawer.call(max(depth, 1), names, names).tokens
    return drawer.expression(depth, names, names).tokens


def declarations(random, drawer, names, is_wide):
    lines, rest = [], list(names)
    while rest:
        count = random.randint(1, len(rest)) if is_wide else 1
        tokens = ["int"]
        for name in rest[:count]:
            tokens += [name, *initialiser(random, drawer, is_wide), ","]
        lines.append((*tokens[:-1], ";"))
        rest = rest[count:]
    return lines


def initialiser(random, drawer, is_wide):
    if random.random() < 0.35:
        return []
    sign = ["-"] if is_wide and random.random() < 0.3 else []
    return ["=", *sign, str(drawer.constant())]


# ---- layouts


def needs_blank(first, second):
    """Whether two tokens side by side would be read as others (6.4p4)."""
    are_words = (first[-1].isalnum() or first[-1] == "_") and (second[0].isalnum() or second[0] == "_")
    return are_words or (first == "-" and second == "-")


def plain_text(lines):
    """A line of text for each line of tokens, with a blank between two tokens."""
    return "".join(" ".join(line) + "\n" for line in lines)


def tight_text(lines):
    """The whole unit on one line, with blanks only where they are needed."""
    tokens = [token for line in lines for token in line]
    return "".join(
        token + (" " if needs_blank(token, following) else "") for token, following in zip(tokens, [*tokens[1:], ";"])
    )


def odd_text(random, lines):
    """Blanks of all kinds, comments and linemarkers between any two tokens."""
    tokens = [token for line in lines for token in line]
    pieces = [separator(random, True)]
    for token, following in zip(tokens, [*tokens[1:], ";"]):
        pieces += [token, separator(random, not needs_blank(token, following))]
    return "".join(pieces)


def separator(random, may_be_empty):
    draw = random.random()
    if draw < 0.3 and may_be_empty:
        return ""
    if draw < 0.85:
        return random.choice(BLANKS[:3] if draw < 0.7 else BLANKS)
    if draw < 0.93:
        return "/*" + random.choice(COMMENTS) + "*/"
    if draw < 0.98:
        return "//" + random.choice(LINE_COMMENTS) + "\n"
    return f'\n# {random.randint(1, 99)} "unit.c" {random.randint(1, 2)}\n'


def text_of(random, lines):
    draw = random.random()
    if draw < 0.5:
        return plain_text(lines)
    return odd_text(random, lines) if draw < 0.85 else tight_text(lines)


# ---- shares of outcomes

# what a unit shall come to, how it is drawn, and its share
WANTED = [(None, CAREFUL, 60), (None, FREE, 24), ("U1", CONFLICTING, 8), ("U2", LARGE_VALUES, 8)]


def random_unit(random, is_wide=False):
    """The text of a random unit. Some 16 in 100 come to an undefined step: texts are drawn until one comes to what
    was chosen beforehand."""
    wanted, manner, _ = random.choices(WANTED, [share for *_, share in WANTED])[0]
    while True:
        text = text_of(random, drawn_lines(random, manner, is_wide))
        if answer_of(unit_of(text)).rule == wanted:
            return text


def random_units(seed, count, is_wide=False):
    """Random units by name. Each has a seed of its own, so that it doesn't depend on their count."""
    return {f"unit_{number:03}": random_unit(Random(f"{seed}/{number}"), is_wide) for number in range(count)}
