"""Units of the straight `int` form with their answers, worked out by hand from ISO C99."""

from straight_oracle import Answer, NotOfTheForm, answer_of, unit_of

HEAD = "int putchar(int); int x = 60; int y; int z = 7; int main(void) { "


def ended(status, written=b""):
    return written, status, None, None


def undefined(rule, line=1, written=b""):
    return written, None, rule, line


# the body of `main` behind HEAD, the answer, and why
ROWS = [
    # values and statuses
    ("return 42;", ended(42), "a constant"),
    ("return 0x2A;", ended(42), "2 * 16 + 10 (6.4.4.1)"),
    ("return 052;", ended(42), "5 * 8 + 2 (6.4.4.1)"),
    ("return 256;", ended(0), "the low eight bits of 256"),
    ("return -1;", ended(255), "the low eight bits of -1"),
    ("return x - 125;", ended(191), "-65 modulo 256"),
    ("return y;", ended(0), "an object without initialiser begins as 0 (6.7.8p10)"),
    ("return 10 - 4 - 3;", ended(3), "`-` groups to the left (6.5.6)"),
    ("return 2 + 3 * 4;", ended(14), "`*` binds more than `+` (6.5.5)"),
    ("return -2 * z + 20;", ended(6), "unary `-` binds more than `*` (6.5.3)"),
    ("return - - -z + 8;", ended(1), "minus thrice"),
    ("y = x = 5; return y * 10 + x;", ended(55), "`=` groups to the right, and its value is the one stored (6.5.16)"),
    ("x = x + 1; x = x + 1; return x;", ended(62), "the end of a full expression is a sequence point (6.8p4)"),
    ("return (y = 3) + (x = 4) * z;", ended(31), "two assignments to two objects"),
    # events
    ("return putchar(65) - 65;", ended(0, b"A"), "the character written is given back (7.19.7.3p3)"),
    ("return putchar(321) - 65;", ended(0, b"A"), "321 = 256 + 65 as `unsigned char` is 65"),
    ("return putchar(-191);", ended(65, b"A"), "-191 + 256 = 65"),
    ("return putchar(-1) - 255;", ended(0, b"\xff"), "-1 as `unsigned char` is 255"),
    ("x = x + putchar(x + 5); return x - 125;", ended(0, b"A"), "the read of `x` computes the value to be stored"),
    ("return putchar(putchar(72) + 1);", ended(73, b"HI"), "the inner call gives the argument of the outer"),
    ("putchar(65); putchar(66); return putchar(10);", ended(10, b"AB\n"), "statements in order"),
    ("return putchar(65) + putchar(66);", ended(131, b"AB"), "the left call first, where one goes from the left"),
    # conflicts (6.5p2)
    ("return x + (x = 1);", undefined("U1"), "a read beside a write"),
    ("return (x = 1) - x;", undefined("U1"), "a write beside a read"),
    ("return (x = 1) * (x = 1);", undefined("U1"), "two writes, also of one value"),
    ("x = (x = 1); return x;", undefined("U1"), "modified twice between two sequence points"),
    ("x = 2 + (x = 1); return x;", undefined("U1"), "the same below an operator"),
    ("x = y = x; return x;", ended(60), "the read of `x` computes both values to be stored"),
    ("y = (x = 3) + z; return y;", ended(10), "writes of two objects"),
    ("return x * x + x;", ended(76), "3660 = 14 * 256 + 76: reads don't conflict"),
    ("x = putchar(x = 65); return x;", ended(65, b"A"), "a sequence point before the call (6.5.2.2p10)"),
    ("x = 1 + -putchar(x = 65); return x + 65;", ended(1, b"A"), "the same, and the value needs the call"),
    ("return putchar(x = 65) + x;", undefined("U1", 1, b"A"), "nothing between the argument and the other operand"),
    ("return (x = 65) + putchar(x);", undefined("U1", 1, b"A"), "an argument is read beside a write"),
    ("return putchar(x = 65) + putchar(x);", undefined("U1", 1, b"AA"), "the arguments of two calls"),
    ("return putchar(x + (x = 65));", undefined("U1"), "before the call"),
    ("putchar(65);\nputchar(66) +\n(y = 2) - y;\nreturn 0;", undefined("U1", 2, b"AB"), "at the first token of the node"),
    ("x = putchar(x = 65) + (x = 3); return x;", undefined("U1", 1, b"A"), "the two writes in the operands"),
    ("x = putchar(y = 65) + (y = 3); return x;", undefined("U1", 1, b"A"), "two writes of one object beside another's"),
    # overflow (6.5p5)
    ("return 2147483647 + 1;", undefined("U2"), "one above the greatest"),
    ("return -2147483647 - 1;", ended(0), "the least"),
    ("return -2147483647 - 2;", undefined("U2"), "one below the least"),
    ("x = -2147483647 - 1;\nreturn -x;", undefined("U2", 2), "minus the least"),
    ("x = -2147483647 - 1; return x * -1;", undefined("U2"), "the least times -1"),
    ("return 65536 * 32768;", undefined("U2"), "2 to the power 31"),
    ("return 65536 * -32768;", ended(0), "the least, -2 to the power 31"),
    ("return 46340 * 46340;", ended(16), "2147395600 is in range, and 240 below a multiple of 256"),
    ("return 46341 * 46341;", undefined("U2"), "2147488281"),
    ("putchar(72); x = putchar(73) + 2147483647; return 0;", undefined("U2", 1, b"HI"), "after the call of its operand"),
    ("return (2147483647 + 1) * putchar(65);", undefined("U2"), "the left operand, before the call of the right"),
    ("return putchar(65) * (2147483647 + 1);", undefined("U2", 1, b"A"), "the call goes before the right operand"),
    ("return 1 +\n(2 -\n(2147483647 *\n2));", undefined("U2", 3), "the line of the innermost node"),
    ("return 0 * (2147483647 + 1);", undefined("U2"), "also where the value isn't needed"),
    ("(x = 2147483647) + x; return 0;", undefined("U1"), "the conflict of the operands before the operator"),
]

# texts that are no units of the form
REFUSED = [
    "int main(void) { return 2147483648; }",
    "int main(void) { return 0x80000000; }",
    "int main(void) { return 09; }",
    "int x; int main(void) { return --x; }",
    "int x; int main(void) { x -= 1; return x; }",
    "int main(void) { return +1; }",
    "int main(void) { return y; }",
    "int x; int x; int main(void) { return 0; }",
    "int main(void) { return putchar(65); }",
    "int main(void) { 1; }",
    "int x; int main(void) { (x) = 1; return x; }",
]


def is_answer(answer: Answer, wanted):
    return (answer.written, answer.status, answer.rule, answer.line) == wanted


def is_refused(text):
    try:
        unit_of(text)
    except NotOfTheForm:
        return True
    return False


def differing_rows():
    """The rows whose answer is another, as lines of text."""
    lines = []
    for body, wanted, reason in ROWS:
        answer = answer_of(unit_of(HEAD + body + " }"))
        if not is_answer(answer, wanted):
            lines.append(f"{body} ({reason}): {answer}, and by hand {wanted}")
    return lines + [f"{text}: isn't refused" for text in REFUSED if not is_refused(text)]
