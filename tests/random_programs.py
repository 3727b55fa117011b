"""Random programs of the profile, for what compares runs of them.

    program(seed)       the text of one

A program calls `out` with values along its way, which writes them, and at its end writes what all its static objects hold, the sizes of its
records, and where their members stand. Functions that stand in expressions change nothing but what is their own, and no other expression
has two parts of which one changes what the other reads, so the order of evaluation plays no part. Constants are small where both operands
may be, so that gcc folds nothing that overflows; large values stand in static objects. Most operands are kept small, so most programs
end; the others come to an overflow, a shift or a division that isn't defined. Each statement has a line of its own.
"""

import sys

sys.dont_write_bytecode = True

from dataclasses import dataclass

from random_texts import Choices

INTEGERS = (
    "_Bool", "char", "signed char", "unsigned char", "short", "unsigned short", "int", "unsigned", "long", "unsigned long", "long long",
    "unsigned long long", "enum low", "enum high",
)
FIELDS = {
    "int": 32, "unsigned": 32, "signed": 32, "_Bool": 1, "unsigned char": 8, "short": 16, "char": 8, "enum high": 32, "unsigned short": 16,
}
LARGE = ("127", "128", "-129", "255", "32767", "-32768", "65535", "2147483647", "-2147483647 - 1", "2147483648u", "4294967295",
         "9223372036854775807", "0x8000000000000000", "18446744073709551615u", "0x7fff0000", "'\\377'", "~0ul")
OPENED = """int printf(const char *, ...);
void *memcpy(void *, const void *, unsigned long);
void *memset(void *, int, unsigned long);
static void out(long value) { printf("%ld\\n", value); }
union views { unsigned long whole; int halves[2]; unsigned short quarters[4]; signed char bytes[8]; };"""


@dataclass(frozen=True)
class Scalar:
    """An integer type."""

    name: str

    def declared(self, what):
        return f"{self.name} {what}"


@dataclass(frozen=True)
class Field:
    """The type of a bit-field; without a member's name it is padding."""

    name: str
    width: int

    def declared(self, what):
        return f"{self.name} {what} : {self.width}"


@dataclass(frozen=True)
class Array:
    element: object
    length: int

    def declared(self, what):
        return self.element.declared(f"{what}[{self.length}]")


@dataclass(frozen=True)
class Record:
    """A structure, or the union of views. A member without a name is padding."""

    head: str
    members: tuple

    def declared(self, what):
        return f"{self.head} {what}"

    def named(self):
        return [member for member in self.members if member[0]]


@dataclass(frozen=True)
class Elements:
    """A pointer to the first of so many elements."""

    element: object
    length: int

    def declared(self, what):
        return self.element.declared(f"*{what}")


VIEWS = Record("union views", (
    ("whole", Scalar("unsigned long")),
    ("halves", Array(Scalar("int"), 2)),
    ("quarters", Array(Scalar("unsigned short"), 4)),
    ("bytes", Array(Scalar("signed char"), 8)),
))


@dataclass(frozen=True)
class Place:
    """What an lvalue names."""

    text: str
    type: object


@dataclass(frozen=True)
class Function:
    """A function that changes nothing but what is its own."""

    name: str
    params: tuple
    result: object


@dataclass(frozen=True)
class Around:
    """What a statement may read and write, and whether it may leave a loop."""

    reads: tuple
    writes: tuple
    loops: bool = False

    def knowing(self, places):
        return Around(self.reads + tuple(places), self.writes + tuple(places), self.loops)

    def within(self, loops):
        return Around(self.reads, self.writes, loops)


def parts(place):
    """The places of the scalars in a place."""
    match place.type:
        case Scalar() | Field():
            yield place
        case Array(element, length) | Elements(element, length):
            for index in range(length):
                yield from parts(Place(f"{place.text}[{index}]", element))
        case Record():
            for name, type in place.type.named():
                yield from parts(Place(f"{place.text}.{name}", type))


class Writer(Choices):
    """The text of a program, as it grows."""

    def __init__(self, seed):
        super().__init__(seed)
        self.lines = []
        self.indent = 0
        self.records = [VIEWS]
        self.functions = []
        self.output = "out"

    # ---- text

    def line(self, text):
        self.lines.append("    " * self.indent + text)

    def opened(self, text):
        self.line(f"{text} {{" if text else "{")
        self.indent += 1

    def closed(self, text=""):
        self.indent -= 1
        self.line("}" + text)

    # ---- types

    def scalar(self):
        return Scalar(self.random.choice(INTEGERS))

    def field(self):
        name = self.random.choice(list(FIELDS))
        return Field(name, self.random.randint(1, FIELDS[name]))

    def member_type(self):
        return self.one_of(
            (5, self.scalar), (4, self.field), (2, lambda: Array(self.scalar(), self.random.randint(1, 4))),
            (1, lambda: self.random.choice(self.records)),
        )()

    def record(self, tag):
        members = [("whole", self.scalar())]
        for number in range(self.random.randint(1, 5)):
            if self.likely(0.1):
                members.append(("", Field("int", self.random.choice((0, 3, 7)))))
            members.append((f"m{number}", self.member_type()))
        self.random.shuffle(members)
        one = Record(f"struct {tag}", tuple(members))
        self.line(f"{one.head} {{ {' '.join(type.declared(name) + ';' for name, type in members)} }};")
        self.records.append(one)

    def object_type(self):
        return self.one_of(
            (6, self.scalar), (3, lambda: Array(self.scalar(), self.random.randint(1, 5))), (4, lambda: self.random.choice(self.records)),
            (1, lambda: Array(Array(self.scalar(), 2), self.random.randint(1, 3))),
            (2, lambda: Array(self.random.choice(self.records), self.random.randint(1, 3))),
        )()

    # ---- values

    def small(self):
        value = self.random.choice((self.random.randint(0, 9), self.random.randint(0, 300)))
        suffix = self.random.choice(("", "", "", "u", "l", "ul", "LL", "uLL"))
        return self.one_of(
            (6, f"{value}{suffix}"), (2, f"{value:#x}{suffix}"), (1, f"0{value:o}{suffix}"),
            (1, self.random.choice(("'a'", "'\\n'", "'\\0'", "LOW1", "LOW2", "HIGH1", "HIGH2", "sizeof(int)"))),
        )

    def large(self):
        return self.random.choice(LARGE) if self.likely(0.4) else self.small()

    def initial(self, type, value):
        """An initialiser of an object; a part that it leaves out is zero."""
        match type:
            case Scalar() | Field():
                return value()
            case Array(Scalar("char"), length) if length > 3 and self.likely(0.5):
                return '"abc"'
            case Array(element, length):
                count = self.random.randint(1, length)
                first = f"[{length - count}] = " if self.likely(0.3) else ""
                return f"{{ {first}{', '.join(self.initial(element, value) for _ in range(count))} }}"
        members = type.named()
        if type is VIEWS:
            return f"{{ {value()} }}"
        if self.likely(0.5):
            return f"{{ {', '.join(self.initial(part, value) for _, part in members[:self.random.randint(1, len(members))])} }}"
        chosen = self.random.sample(members, self.random.randint(1, len(members)))
        return f"{{ {', '.join(f'.{name} = {self.initial(part, value)}' for name, part in chosen)} }}"

    def scalar_of(self, places):
        """The place of a scalar in one of these."""
        return self.random.choice(list(parts(self.random.choice(places))))

    def operand(self, around):
        return self.one_of((20, self.small()), (1, '"text"[2]'), (50, self.scalar_of(around.reads).text))

    def value(self, around, depth=3):
        """An expression of integer type."""
        if depth <= 0 or self.likely(0.15):
            return self.operand(around)
        part = lambda: self.value(around, depth - 1)
        form = self.one_of(
            (16, lambda: f"({part()} {self.random.choice('+-')} {part()})"),
            (6, lambda: f"(({part()} & {self.random.choice((7, 63, 1023))}) * ({part()} & {self.random.choice((7, 15, 63))}))"),
            (6, lambda: f"({part()} {self.random.choice('/%')} (({part()}) | 1))"),
            (0.2, lambda: f"({part()} {self.random.choice('/%')} {part()})"),
            (6, lambda: f"({part()} {self.random.choice('&|^')} {part()})"),
            (5, lambda: f"((unsigned{self.random.choice(('', ' long', ' char'))})({part()}) {self.random.choice(('<<', '>>'))} ({part()} & 7))"),
            (3, lambda: f"({part()} >> ({part()} & 7))"),
            (0.5, lambda: f"({part()} << ({part()} & 31))"),
            (10, lambda: f"({part()} {self.random.choice(('<', '>', '<=', '>=', '==', '!='))} {part()})"),
            (6, lambda: f"({part()} {self.random.choice(('&&', '||'))} {part()})"),
            (6, lambda: f"({part()} ? {part()} : {part()})"),
            (8, lambda: f"{self.random.choice('-~!+')}({part()})"),
            (12, lambda: f"({self.scalar().name})({part()})"),
            (3, lambda: f"({part()}, {part()})"),
            (4, lambda: self.call(around, depth)),
            (2, lambda: self.literal(around)),
        )
        return form()

    def literal(self, around):
        """A member of a compound literal."""
        type = self.random.choice(self.records)
        return self.scalar_of([Place(f"(({type.head}){self.initial(type, lambda: self.operand(around))})", type)]).text

    def argument(self, type, around, depth):
        match type:
            case Scalar():
                return self.value(around, depth - 2)
            case Elements():
                return "&numbers[1]"
        same = [place.text for place in around.reads if place.type == type]
        return self.random.choice(same) if same else f"({type.head}){self.initial(type, lambda: self.operand(around))}"

    def called(self, function, around, depth):
        return f"{function.name}({', '.join(self.argument(type, around, depth) for type in function.params)})"

    def call(self, around, depth):
        # (an array of what a function gives is no lvalue's)
        fit = [one for one in self.functions if isinstance(one.result, Scalar) or self.members_given(one)]
        if not fit:
            return self.operand(around)
        function = self.random.choice(fit)
        text = self.called(function, around, depth)
        if isinstance(function.result, Scalar):
            return self.one_of((3, text), (1, f"(*{function.name}){text[len(function.name):]}"))
        return f"{text}.{self.random.choice(self.members_given(function))}"

    def members_given(self, function):
        return [name for name, type in function.result.named() if isinstance(type, (Scalar, Field))]

    # ---- statements

    def statement(self, around, depth):
        simple = ((8, self.assign), (2, self.step), (4, self.write), (3, self.copy), (3, self.leave))
        nested = ((4, self.branch), (5, self.loop), (3, self.choose), (2, self.jump_back), (2, self.jump_over), (2, self.block), (3, self.point))
        self.one_of(*simple, *(nested if depth > 0 else ()))(around, depth)

    def statements(self, around, depth):
        for _ in range(self.random.randint(1, 3)):
            self.statement(around, depth)

    def inner(self, around, depth):
        """The statements of a block, behind its objects."""
        for _ in range(self.random.randint(0, 2)):
            around = around.knowing([self.local(around)])
        self.statements(around, depth - 1)

    def local(self, around):
        type, name = self.object_type(), self.new("v")
        if self.output == "out" and self.likely(0.1):
            self.line(f"static {type.declared(name)} = {self.initial(type, self.small)};")
        else:
            self.line(f"{type.declared(name)} = {self.initial(type, lambda: self.value(around, 2))};")
        return Place(name, type)

    def assign(self, around, depth):
        place = self.scalar_of(around.writes).text
        operator = self.one_of((6, "="), (1, "+="), (1, "-="), (1, "&="), (1, "|="), (1, "^="))
        if self.likely(0.1):
            self.line(f"{place} {self.random.choice(('/=', '%='))} ({self.value(around, 1)} | 1);")
        elif self.likely(0.1):
            self.line(f"{place} >>= ({self.value(around, 1)} & 7);")
        else:
            self.line(f"{place} {operator} {self.value(around)};")

    def step(self, around, depth):
        place = self.scalar_of(around.writes).text
        self.line(self.random.choice((f"{place}++;", f"{place}--;", f"++{place};", f"--{place};", f"{self.output}({place}++);", f"{self.output}(--{place});")))

    def write(self, around, depth):
        self.line(f"{self.output}({self.value(around)});")

    def copy(self, around, depth):
        """A record is stored as a whole."""
        records = [place for place in around.writes if isinstance(place.type, Record)]
        if not records:
            return self.write(around, depth)
        to = self.random.choice(records)
        given = [self.called(one, around, 2) for one in self.functions if one.result == to.type]
        given += [place.text for place in around.reads if place.type == to.type]
        value = self.random.choice(given)
        if value == to.text or self.likely(0.8) or "(" in value:
            self.line(f"{to.text} = {value};")
        else:
            self.line(f"memcpy(&{to.text}, &{value}, sizeof {value});")

    def leave(self, around, depth):
        if around.loops:
            self.line(f"if ({self.value(around, 2)}) {self.random.choice(('break', 'continue'))};")
        else:
            self.line(f"if ({self.value(around, 2)}) {self.output}({self.small()});")

    def branch(self, around, depth):
        self.opened(f"if ({self.value(around, 2)})")
        self.inner(around, depth)
        if self.likely(0.5):
            self.closed(" else {")
            self.indent += 1
            self.inner(around, depth)
        self.closed()

    def loop(self, around, depth):
        turn, most = self.new("i"), self.random.randint(1, 5)
        within = Around(around.reads + (Place(turn, Scalar("int")),), around.writes, True)
        form = self.random.randint(0, 2)
        if form == 0:
            self.opened(f"for (int {turn} = 0; {turn} < {most}; {turn}++)")
            self.inner(within, depth)
            return self.closed()
        self.opened("")
        self.line(f"int {turn} = {most if form == 1 else 0};")
        self.opened(f"while ({turn}-- > 0)" if form == 1 else "do")
        self.inner(within, depth)
        self.closed("" if form == 1 else f" while (++{turn} < {most});")
        self.closed()

    def choose(self, around, depth):
        self.opened(f"switch ({self.value(around, 2)} & 3)")
        for case in self.random.sample(range(4), self.random.randint(1, 4)):
            self.line(f"case {case}:")
            self.statements(around.within(False), depth - 1)
            if self.likely(0.7):
                self.line("break;")
        if self.likely(0.6):
            self.line("default:")
            self.statements(around.within(False), depth - 1)
        self.closed()

    def jump_back(self, around, depth):
        label, turn = self.new("l"), self.new("i")
        self.opened("")
        self.line(f"int {turn} = 0;")
        self.line(f"{label}:;")
        self.inner(around.within(False), depth)
        self.line(f"if (++{turn} < {self.random.randint(1, 3)}) goto {label};")
        self.closed()

    def jump_over(self, around, depth):
        label = self.new("l")
        self.line(f"if ({self.value(around, 2)}) goto {label};")
        self.statements(around, depth - 1)
        self.line(f"{label}:;")

    def block(self, around, depth):
        self.opened("")
        self.inner(around, depth)
        self.closed()

    def point(self, around, depth):
        """A block with a pointer into an array."""
        arrays = [place for place in around.writes if isinstance(place.type, Array)]
        if not arrays:
            return self.block(around, depth)
        array, name = self.random.choice(arrays), self.new("p")
        start = self.random.randrange(array.type.length)
        type = Elements(array.type.element, array.type.length - start)
        self.opened("")
        self.line(f"{self.pointer(type.element, name)} = {array.text} + {start};")
        self.inner(around.knowing([Place(name, type)]), depth)
        for shown in (f"{name} - {array.text}", f"++{name} == {array.text} + {start + 1}", f"{name} > {array.text}", f"!{name}"):
            self.line(f"{self.output}({shown});")
        self.closed()

    def pointer(self, element, name):
        return element.declared(f"(*{name})") if isinstance(element, Array) else element.declared(f"*{name}")

    # ---- functions and objects

    def function(self, number):
        """A function that changes nothing but its own objects, and calls those before it."""
        params = [Place(f"a{at}", self.param_type()) for at in range(self.random.randint(0, 3))]
        result = self.random.choice(self.records[1:]) if self.likely(0.3) else self.scalar()
        shown = ", ".join(f"const int *{one.text}" if isinstance(one.type, Elements) else one.type.declared(one.text) for one in params)
        one = Function(f"f{number}", tuple(place.type for place in params), result)
        self.opened(f"static {result.declared(one.name)}({shown or 'void'})")
        self.output = "(void)"
        own = [place for place in params if not isinstance(place.type, Elements)]
        around = Around(tuple(params) + self.constants, tuple(own))
        for _ in range(self.random.randint(1, 3)):
            around = around.knowing([self.local(around)])
        self.statements(around, 2)
        self.give(result, around)
        self.output = "out"
        self.closed()
        self.functions.append(one)

    def param_type(self):
        return self.one_of((6, self.scalar), (2, lambda: self.random.choice(self.records)), (1, lambda: Elements(Scalar("int"), 2)))()

    def give(self, result, around):
        if isinstance(result, Scalar):
            return self.line(f"return {self.value(around, 2)};")
        same = [place.text for place in around.reads if place.type == result]
        self.line(f"return {self.random.choice(same) if same else f'({result.head}){self.initial(result, lambda: self.operand(around))}'};")

    def procedure(self, around):
        """A function that writes static objects."""
        name = self.new("h")
        number = Place("n", Scalar("int"))
        self.opened(f"static void {name}(int n)")
        self.inner(around.knowing([number]), 3)
        self.closed()
        return name

    def static(self, name):
        type = self.object_type()
        initial = f" = {self.initial(type, self.large)}" if self.likely(0.8) else ""
        self.line(f"{self.random.choice(('', 'static '))}{type.declared(name)}{initial};")
        return Place(name, type)

    def program(self):
        random = self.random
        self.lines += OPENED.splitlines()
        self.line(f"enum low {{ LOW0 = -{random.randint(1, 5)}, LOW1, LOW2 = {random.randint(3, 900)} }};")
        self.line(f"enum high {{ HIGH0, HIGH1 = {random.randint(1, 9)}, HIGH2 }};")
        for number in range(random.randint(1, 4)):
            self.record(f"r{number}")
        self.line(f"static const int numbers[3] = {{ [1] = {self.small()}, {self.small()} }};")
        self.constants = (Place("numbers", Array(Scalar("int"), 3)),)
        statics = [self.static(f"g{number}") for number in range(random.randint(3, 7))]
        for number in range(random.randint(1, 4)):
            self.function(number)
        around = Around(tuple(statics) + self.constants, tuple(statics))
        procedures = [self.procedure(around) for _ in range(random.randint(0, 2))]
        self.opened("int main(void)")
        for _ in range(random.randint(3, 7)):
            self.block(around, 3)
            if procedures:
                self.line(f"{self.one_of((3, random.choice(procedures)), (1, f'(*&{random.choice(procedures)})'))}({self.value(around, 2)});")
        self.closing(statics)
        self.closed()
        return "\n".join(self.lines) + "\n"

    def closing(self, statics):
        """What all static objects hold is written, and how records are laid out."""
        for one in self.records:
            self.line(f"out(sizeof({one.head}));")
        for place in statics:
            if isinstance(place.type, Record):
                for name, type in place.type.named():
                    if not isinstance(type, Field):
                        self.line(f"out((char *)&{place.text}.{name} - (char *)&{place.text});")
            for part in parts(place):
                self.line(f"out({part.text});")
        self.line("return 0;")


def program(seed):
    return Writer(seed).program()
