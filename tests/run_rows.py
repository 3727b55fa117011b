#!/usr/bin/env python3
"""The rows of the group `runs` of crates/rows, with the answers that they must have.

run_rows.py FOLDER writes FOLDER/stdin and FOLDER/stdout. No answer comes from the program itself:
- the worked runs of crates/cx_mean/proofs/Example*.antt say what their definitions compute to, here under C text of the same programs;
- rows of stores with a limit add up the sizes of objects (ISO C99, 6.2.4, 6.5.3.4); rows of hosts and of bounds follow from the number
  of the call or the step;
- rows of orders come from `ordered`, a few lines that take the ready operands of one expression in turn;
- random programs are compiled and run by gcc: the bytes that they write are the calls, and the status is theirs.
"""

import os
import random
import subprocess
import sys
import tempfile

ROWS = []


def comment(text):
    ROWS.append(('# ' + text, '# ' + text))


def row(expected, text, steps=1000, store='list', order='leftmost', host='', word='run'):
    setting = f'{word} {steps} {store} {order}' + (f' {host}' if host else '')
    ROWS.append((f'{setting} | {text}', expected))


def ends(status, text, **more):
    row(f'ended {status}', text, **more)


def breaks(rule, text, line=1, unit=0, **more):
    row(f'{rule} on line {line} of unit {unit}', text, **more)


def calls(outcome, made, answers=None):
    """An outcome with calls, given as (name, argument words, answer)."""
    trail = [str(answer) for _, _, answer in made] if answers is None else [str(a) for a in answers]
    taking = (', taking ' + ' '.join(trail)) if trail else ''
    return outcome + taking + ''.join(
        ' | ' + ' '.join([name] + args) + f' = {answer}' for name, args, answer in made)


def put(byte, answer=0):
    return ('putchar', [str(byte)], answer)


LIBRARY = ('int putchar(int); int getchar(void); int puts(const char *); int printf(const char *, ...); '
           'void *malloc(unsigned long); void *calloc(unsigned long, unsigned long); void free(void *); '
           'void *memcpy(void *, const void *, unsigned long); void *memmove(void *, const void *, unsigned long); '
           'void *memset(void *, int, unsigned long); void exit(int); void abort(void); ')


def gives(statics, value):
    return f'{LIBRARY}{statics} int main(void) {{ return {value}; }}'


def own(objects, list_):
    return f'{LIBRARY}int main(void) {{ {objects} {list_} }}'


# ---- steps

comment('Steps: a program ends at its last one, and goes on before it.')
row('steps used in 3 steps', 'int main(void) { return 42; }', steps=3, word='count')
row('ended 42 in 4 steps', 'int main(void) { return 42; }', steps=4, word='count')
row('ended 42 in 4 steps', 'int main(void) { return 42; }', steps=5, word='count')
row('steps used in 2 steps', 'int main(void) { }', steps=2, word='count')
row('ended 0 in 3 steps', 'int main(void) { }', steps=3, word='count')
row('ended 0 in 3 steps', 'int main(void) { }', steps=4, word='count')
row('steps used in 4 steps', 'int main(void) { ; ; }', steps=4, word='count')
row('ended 0 in 5 steps', 'int main(void) { ; ; }', steps=5, word='count')
row('steps used in 0 steps', 'int main(void) { }', steps=0, word='count')
LETTER = 'int putchar(int); int x1 = 60; int main(void) { x1 = x1 + putchar(x1 + 5); return x1 - 125; }'
row('steps used in 8 steps', LETTER, steps=8, host='65', word='count')
row('steps used in 9 steps, taking 65 | putchar 65 = 65', LETTER, steps=9, host='65', word='count')
row('steps used in 15 steps, taking 65 | putchar 65 = 65', LETTER, steps=15, host='65', word='count')
row('ended 0 in 16 steps, taking 65 | putchar 65 = 65', LETTER, steps=16, host='65', word='count')
row('ended 0 in 16 steps, taking 65 | putchar 65 = 65', LETTER, steps=17, host='65', word='count')
row('ended -65 in 16 steps, taking 0 | putchar 65 = 0', LETTER, steps=16, word='count')
row(calls('ended 1', [put(1, 4294967297)]), 'int putchar(int); int main(void) { return putchar(1); }', host='4294967297')
STATICS = 'int x1; int x2 = 5; int main(void) { return x1 + x2; }'
row('steps used in 9 steps', STATICS, steps=9, word='count')
row('ended 5 in 10 steps', STATICS, steps=10, word='count')
row('ended 5 in 10 steps', STATICS, steps=11, word='count')
PARAMS = 'int f(int a, int b) { return a - b; } int main(void) { return f(3, 4); }'
row('steps used in 12 steps', PARAMS, steps=12, word='count')
row('ended -1 in 13 steps', PARAMS, steps=13, word='count')
row('ended -1 in 13 steps', PARAMS, steps=14, word='count')
row(calls('steps used', [put(97), put(97)]), 'int putchar(int); int main(void) { for (;;) putchar(97); }', steps=10)
row('steps used in 500 steps', 'int main(void) { for (;;) ; }', steps=500, word='count')


def around(before, expected, text, **more):
    """A bound one step short of what a run comes to behind so many steps, at it, and one past it."""
    for steps in before, before + 1, before + 2:
        row(f'steps used in {before} steps' if steps == before else expected, text, steps=steps, word='count', **more)


comment('Bounds around what stops a run behind the call of `main`, its body, and a statement or a first object: an undefined step is counted, a call '
        'that gets no answer and an object that finds no place aren\'t.')
ASKS = 'int putchar(int); int main(void) { return putchar(1); }'
around(3, 'U3 on line 1 of unit 0 in 4 steps', 'int main(void) { return 1 / 0; }')
around(3, 'U2 on line 2 of unit 0 in 4 steps', 'int main(void) { return$n2147483647 + 1; }')
around(3, 'refused putchar in 3 steps', ASKS, host='without putchar')
around(3, 'host failed in 3 steps', ASKS, host='/0')
around(3, 'store full 4 3 in 3 steps', 'int main(void) { int a, b; return 0; }', store='region:7:9')
around(0, 'store full 100 64 in 0 steps', 'char big[100]; int main(void) { return 0; }', store='region:64:9')

# ---- orders

comment('Orders: the number of the order modulo the number of ready operands, where there are two or more.')
TWO = 'int putchar(int); int main(void) { return putchar(1) + putchar(2); }'
for order, made in [('leftmost', [1, 2]), ('1', [2, 1]), ('6', [1, 2]), ('7', [2, 1]), ('0', [1, 2]), ('4294967295', [2, 1])]:
    row(calls('ended 0', [put(byte) for byte in made]), TWO, order=order)
NESTED = 'int putchar(int); int main(void) { return putchar(putchar(1) + 1) + putchar(2); }'
row(calls('ended 4', [put(1, 4), put(5), put(2)]).replace('ended 4', 'ended 0'), NESTED, host='4')
row(calls('ended 0', [put(1, 4), put(2), put(5)]), NESTED, host='4', order='0,1')
KEPT = 'int putchar(int); int main(void) { putchar(9); return putchar(1) + putchar(2); }'
row(calls('ended 0', [put(9), put(2), put(1)]), KEPT, order='1')
THREE = 'int putchar(int); int f(int a, int b, int c) { return 7; } int main(void) { return f(putchar(1), putchar(2), putchar(3)); }'
row(calls('ended 7', [put(3), put(2), put(1)]), THREE, order='2,1')
READS = 'int x1 = 1; int f(void) { x1 = 5; return 10; } int main(void) { return x1 + f(); }'
ends(11, READS)
ends(15, READS, order='1')
BETWEEN = 'int x1 = 1, x2; int f(void) { x1 = 100; return 1; } int main(void) { x2 = (x1 += 10) + f(); return x1; }'
ends(100, BETWEEN)
ends(11, BETWEEN, order='0,1')
ends(11, BETWEEN, order='0,0,0,1')
ends(110, BETWEEN, order='1')


class Node:
    """A call of putchar, or a store or a sum that needs its operands."""

    def __init__(self, kind, operands, byte=0, name=None):
        self.kind, self.operands, self.byte, self.name, self.done = kind, operands, byte, name, False


def ready(node, found):
    """The nodes that can take a step, in post-order."""
    for operand in node.operands:
        if not operand.done:
            ready(operand, found)
    if not node.done and all(operand.done for operand in node.operands):
        found.append(node)
    return found


def ordered(order):
    """The calls of `(a = putchar(1)) + putchar(2) + (b = putchar(3))` under an order."""
    calls_made = []
    first = Node('store', [Node('call', [], 1)])
    second = Node('call', [], 2)
    third = Node('store', [Node('call', [], 3)])
    root = Node('sum', [Node('sum', [first, second]), third])
    left = list(order)
    while not root.done:
        nodes = ready(root, [])
        pick = 0
        if len(nodes) > 1 and left:
            pick = left.pop(0) % len(nodes)
        node = nodes[pick]
        if node.kind == 'call':
            calls_made.append(node.byte)
        node.done = True
    return calls_made


FIVE = 'int putchar(int); int a, b; int main(void) { return (a = putchar(1)) + putchar(2) + (b = putchar(3)); }'
chosen = random.Random(1999)
for _ in range(20):
    order = [chosen.randrange(6) for _ in range(chosen.randrange(1, 7))]
    made = ordered(order)
    given = [10, 20, 30]
    row(calls('ended 60', [put(byte, answer) for byte, answer in zip(made, given)]), FIVE, order=','.join(map(str, order)), host='10 20 30')

# ---- undefined steps

comment('U1: conflicts (6.5p2).')
S = 'int x1 = 1, x2; int x3[2];'
for value in ['x1 = x1++ + 1', 'x1 + (x1 = 1)', '(x1 = 1) + x1', '(x2 + x1) + (x1 = 1)', '(x1 + x2) + (x1 = 1)', '((x2 = 1) + (x1 = 1)) + x1',
              '(x1 = 1) + (x1 = 2)', 'x1++ + x1++', 'x1 = (x1 = 1)', 'x1 += x1++', '(x1 += (x2 = 1)) + x2', '(x1++, 5) + x1',
              'x1 + (1 && (x1 = 1))', 'x1 + ((x1 = 1) && 1)', 'x1 + ((x1 = 0) || 1)', 'x1 + ((x1 = 1) ? 2 : 3)', 'x1 + (1 ? (x1 = 2) : 3)',
              '*&x1 + (x1 = 2)', 'x3[0] + (x3[0] = 1)', 'x3[x3[0] = 0]']:
    breaks('U1', gives(S, value))
row(calls('U1 on line 1 of unit 0', [put(1)]), gives(S, 'putchar(x1 = 1) + x1'))
for status, value in [(0, 'x3[x3[1] = 0]'), (1, 'x3[0] + (x3[1] = 1)'), (2, 'x1 + x1'), (2, 'x1 = x1 + 1'), (6, '(x1 = 3, x1 + x1)')]:
    ends(status, gives(S, value))
row(calls('ended 0', [put(9)]), gives(S, 'x1 = putchar(x1 = 9)'))

comment('U2: overflow (6.5p5).')
for value in ['2147483647 + 1', '(-2147483647 - 1) - 1', '65536 * 32768', '-(-2147483647 - 1)', '(x2 = 2147483647, x2++)', '(x2 = -2147483647 - 1, --x2)',
              '(x2 = 2147483647, x2 += 1)', '(int)(9223372036854775807L + 1L)']:
    breaks('U2', gives(S, value))

comment('U3: division (6.5.5p5).')
for value in ['1 / 0', '1 % 0', '(-2147483647 - 1) / -1', '(-2147483647 - 1) % -1', '(int)(1u / 0u)', 'x1 /= 0']:
    breaks('U3', gives(S, value))

comment('U4: shifts (6.5.7p3, p4).')
for value in ['1 << 32', '1 << -1', '-1 << 1', '1 << 31', '1 >> 32', '1 >> -1', '(int)(1L << 63)', '(int)(1u << 32)', 'x1 <<= 40']:
    breaks('U4', gives(S, value))

comment('U5: dead objects (6.2.4p2).')


def after_block(value):
    return f'{LIBRARY}int x1 = 1; int *x4; int main(void) {{ {{ int x5; x4 = &x5; }} return {value}; }}'


for value in ['*x4', '*x4 = 1', '*(x4 + 0)', '(int)(x4 - x4)', 'x4 == x4', 'x4 != (int *)0', 'x4 < x4', '!x4', 'x4 && 1', 'x4 ? 1 : 2', '(int)(_Bool)x4',
              '((void)(void *)x4, 1)', '((void)(int *)(char *)x4, 1)', '*(int *)(void *)x4', '(x4++, 1)']:
    breaks('U5', after_block(value))
for status, value in [(3, '(x4 = x4, 3)'), (4, '((void)x4, 4)'), (5, '(&*x4, 5)')]:
    ends(status, after_block(value))
breaks('U5', f'{LIBRARY}int *x4; int main(void) {{ {{ int x5; x4 = &x5; }} if (x4) ; }}')

comment('U6: outside an object (6.5.3.2p4).')
for value in ['*(int *)0', '*(int *)0 = 1', '*(&x1 + 1)', '*(&x1 + 1) = 1', '(*(int *)0)++', '(int)*(long *)&x1']:
    breaks('U6', gives(S, value))

comment('U7: unset bits (6.2.4p5).')
for value in ['x1', 'x1++', '(*(char *)&x1 = 1, x1)']:
    breaks('U7', own('int x1; int x2[2];', f'return {value};'))

comment('U8: a `_Bool` byte (6.2.6.1p5).')
breaks('U8', gives('_Bool x6;', '(*(char *)&x6 = 2, x6)'))
ends(1, gives('_Bool x6;', '(*(char *)&x6 = 1, x6)'))

comment('U9: bytes of a pointer (6.2.6.1p5).')
P = 'int x1 = 1; int *x7 = &x1;'
for value in ['(int)*(long *)&x7', '*(char *)&x7', '(*(char *)&x7 = 0, *x7)']:
    breaks('U9', gives(P, value))
ends(1, gives(P, '*x7'))

comment('U10: misaligned (6.3.2.3p7).')
A = 'int x3[2]; char x8[8];'
for value in ['*(int *)((char *)x3 + 1)', '*(int *)x8']:
    breaks('U10', gives(A, value))
ends(0, gives(A, '*(short *)((char *)x3 + 2)'))

comment('U11: pointer arithmetic (6.5.6p8, p9).')
Q = 'int x1 = 1; int x3[2]; int *x7 = &x1;'
for value in ['(int)((x3 + 3) - x3)', '(int)((x3 - 1) - x3)', '(int *)0 + 0 == (int *)0', '0 + (int *)0 == (int *)0', '(int *)0 - 1 == (int *)0',
              '(int)(x3 - &x1)', '(int)((int *)0 - (int *)0)', '(int)(x3 - (int *)0)', '(int)((int *)((char *)x3 + 2) - x3)', '(x7 += 2) == (int *)0']:
    breaks('U11', gives(Q, value))

comment('U12: comparisons (6.5.8p5, 6.5.9p6).')
for value in ['x3 < &x1', '&x1 > x3', '(int *)0 <= (int *)0', 'x3 >= (int *)0', '(int *)0 < x3', 'x3 + 2 == &x1', '&x1 != x3 + 2', 'x3 + 2 == &x1 + 1']:
    breaks('U12', gives(Q, value))

comment('U13: calls by name, through a type without parameter list (6.5.2.2p6).')
breaks('U13', 'int f(); int main(void) { return f(); } int f(int x9) { return 0; }')

comment('U14: missing values (6.9.1p12).')
MAY = 'int f(int x9) { if (x9) return 7; } '
for list_ in ['return f(0) + 1;', 'return f(0);', 'f(f(0));', 'int x8 = f(0);', 'int x8; x8 = f(0);', 'if (f(0)) ;', 'return 1 && f(0);', 'return (char)f(0);']:
    breaks('U14', f'{MAY}int main(void) {{ {list_} }}')
ends(3, f'{MAY}int main(void) {{ f(0); return ((void)f(0), 3); }}')
ends(8, f'{MAY}int main(void) {{ return f(1) + 1; }}')
breaks('U14', 'int f(int x9) { } int g(int x8);$nint main(void) { g(f(0)); }$n$nint g(int x8) {$n return 1; }', line=2)

comment('U15: what is freed (7.20.3.2p2).')


def frees(list_):
    return f'{LIBRARY}int x1; int x3[2]; void *x9; int main(void) {{ x9 = malloc(8); {list_} }}'


for list_ in ['free(&x1);', 'free((char *)x9 + 1);', 'free(x9); free(x9);', 'free(x3);']:
    row('U15 on line 1 of unit 0, taking 1', frees(list_))
row('ended 0, taking 1', frees('free(x9); free((void *)0);'))
row('U5 on line 1 of unit 0, taking 1', frees('free(x9); return *(char *)x9;'))

comment('U16: bytes that overlap (6.5.16.1p3, 7.21.2.1p2).')


def copies(which, target, source, count):
    return f'{LIBRARY}char x8[8]; int main(void) {{ {which}(x8 + {target}, x8 + {source}, {count}); }}'


breaks('U16', copies('memcpy', 1, 0, 2))
breaks('U16', copies('memcpy', 1, 1, 1))
ends(0, copies('memcpy', 2, 0, 2))
ends(0, copies('memmove', 1, 0, 2))
ends(0, copies('memcpy', 1, 1, 0))
breaks('U6', copies('memmove', 1, 0, 8))
PAIR = 'struct s { int x; int y; }; '


def at(byte):
    return f'(*(struct s *)((char *)x1 + {byte}))'


def pairs(objects, list_):
    return f'{PAIR}{objects} int main(void) {{ {list_} }}'


breaks('U16', pairs('struct s x1[2];', f'{at(4)} = {at(0)};'))
ends(0, pairs('struct s x1[2];', f'{at(4)} = {at(4)}; {at(8)} = {at(0)};'))
breaks('U16', pairs('struct s x1[2];', f'{at(4)} = 1 ? {at(0)} : {at(8)};'))
ends(0, f'{PAIR}struct s x1[2], x2; struct s f(void) {{ return {at(0)}; }} int main(void) {{ {at(4)} = f(); {at(4)} = x2 = {at(0)}; }}')
TRIPLE = f'{PAIR}struct t {{ struct s a, b, c; }} o;'
breaks('U16', f'{TRIPLE} int main(void) {{ *(struct s *)((char *)&o + 12) = (1 ? o : o).b; }}')
ends(0, f'{TRIPLE} int main(void) {{ *(struct s *)((char *)&o + 16) = (1 ? o : o).b; }}')

comment('Lines and units of undefined steps.')
breaks('U3', 'int x;$nint main(void)$n{$n    x = 1 /$n        x;$n}', line=4)
breaks('U7', 'int main(void)$n{$n    int x;$n    return$n        x;$n}', line=5)
breaks('U5', 'int *p;$nint f(void) { return *p; }$uextern int *p;$nint f(void);$nvoid g(void) { int x; p = &x; }$nint main(void) { g();$nreturn f(); }', line=2, unit=0)
breaks('U14', 'int f(void) { }$u$n$nint f(void);$nint main(void) {$n    return 1 + f();$n}', line=5, unit=1)
breaks('U2', 'static int x = 2147483647;$nint up(void) {$n return ++x; }$uint up(void); int x; int main(void) { return up() + x; }', line=3, unit=0)

# ---- operators

comment('Operators (6.5).')
for status, value in [(42, '7 * 6'), (3, '7 / 2'), (-3, '-7 / 2'), (-1, '-7 % 2'), (1, '7 % -2'), (2147483647, '2147483646 + 1'), (-3, '5 - 8'),
                      (16, '1 << 4'), (1073741824, '1 << 30'), (4, '17 >> 2'), (-5, '-17 >> 2'), (-1, '-1 >> 31'),
                      (8, '12 & 10'), (6, '12 ^ 10'), (14, '12 | 10'), (8, '-8 & 12'), (-5, '-8 | 3'), (-5, '-8 ^ 3'),
                      (5, '+5'), (-5, '-5'), (-6, '~5'), (0, '!5'), (1, '!0'),
                      (1, '0u - 1u == 4294967295u'), (1, '4294967295u + 1u == 0u'), (1, '4294967295u * 2u == 4294967294u'), (1, '3u << 31 == 2147483648u'),
                      (1, '-1u == 4294967295u'), (1, '(unsigned)-1 + 1u == 0'), (1, '4294967296L * 1073741824L == 4611686018427387904L'),
                      (1, '4294967296UL * 4294967297UL == 4294967296UL'), (1, '0UL - 1UL == 18446744073709551615UL'),
                      (-56, '(char)200'), (255, '(unsigned char)-1'), (1, '(_Bool)5'), (0, '(_Bool)0'), (-25536, '(short)40000'), (65535, '(unsigned short)-1'),
                      (1, '(long)-1 == -1L'), (1, '(long)4294967295u == 4294967295L'), (5, '(int)4294967301L'), (-128, '(signed char)128'),
                      (1, '2 && 3'), (0, '0 && 1 / 0'), (0, '1 && 0'), (1, '0 || 5'), (1, '2 || 1 / 0'), (0, '0 || 0'), (4, '1 ? 4 : 1 / 0'), (5, '0 ? 1 / 0 : 5')]:
    ends(status, gives('', value))
FIVES = 'int x1[5] = { 10, 20, 30, 40, 50 }; int x2;'
for status, value in [(30, '*(x1 + 2)'), (50, '*(3 + (x1 + 1))'), (50, '*((x1 + 5) - 1)'), (10, '*((x1 + 4) + -4)'), (2, '(int)((x1 + 3) - (x1 + 1))'),
                      (-2, '(int)((x1 + 1) - (x1 + 3))'), (5, '(int)((x1 + 5) - x1)'), (1, 'x1 + 1 < x1 + 3'), (0, 'x1 + 3 < x1 + 3'), (1, 'x1 + 5 > x1 + 4'),
                      (0, 'x1 == (int *)0'), (1, 'x1 + 5 != (int *)0'), (0, 'x1 == &x2'), (1, '&x2 != x1 + 4'), (20, '*(int *)(void *)(x1 + 1)'), (40, '*(char *)(x1 + 3)'),
                      (1, '(int)(&*(x1 + 5) - (x1 + 4))'), (30, '*&*(x1 + 2)'), (7, '(x2 = 6, x2 + 1)'), (2, '(++x2 && ++x2, x2)'), (2, '(x2++ || x2++, x2)'),
                      (8, '(++x2 ? x2 = 8 : 0, x2)'), (5, 'x2 = (x2++, 5)')]:
    ends(status, gives(FIVES, value))
for status, value in [(9, 'x2 = 9'), (42, 'x2 *= 7'), (1, 'x2 /= 4'), (2, 'x2 %= 4'), (10, 'x2 += 4'), (2, 'x2 -= 4'), (96, 'x2 <<= 4'), (3, 'x2 >>= 1'), (2, 'x2 &= 3'),
                      (5, 'x2 ^= 3'), (7, 'x2 |= 1'), (6, 'x2++'), (6, 'x2--'), (7, '++x2'), (5, '--x2'), (7, '(x2++, x2)'), (5, '(x2--, x2)'), (10, '(x2 += 4, x2)')]:
    ends(status, gives('int x2 = 6;', value))
for status, value in [(-128, '(x3++, x3)'), (127, 'x3++'), (-128, '++x3'), (71, 'x3 += 200'), (1, '(x4++, x4)'), (1, '++x4'), (4, 'x5 += 10')]:
    ends(status, gives('char x3 = 127; _Bool x4; unsigned char x5 = 250;', value))
for status, value in [(20, '*x6++'), (30, '*++x6'), (10, '*--x6'), (40, '*(x6 += 2)'), (10, '*(x6 -= 1)'), (10, '(x6--, *x6)')]:
    ends(status, gives('int x1[5] = { 10, 20, 30, 40, 50 }; int *x6 = x1 + 1;', value))

# ---- statements

comment('Statements (6.8): x1 collects digits.')


def statics(list_):
    return f'int x1, x2; int *x3; int main(void) {{ {list_} }}'


def digit(number):
    return f'x1 = x1 * 10 + {number};'


D1, D2, D3, D4, D5, D6, D7 = (digit(number) for number in range(1, 8))
ends(145, statics(f'if (1) {D1} if (0) {D2} if (0) {D3} else {D4} if (5) {D5} else {D6} return x1;'))
for status, chosen_case in [(12, 1), (2, 2), (34, 9), (4, 7)]:
    ends(status, statics(f'switch ({chosen_case}) {{ case 1: {D1} case 2: {D2} break; default: {D3} case 7: {D4} }} return x1;'))
ends(0, statics(f'switch (5) case 1: {D1} return x1;'))
ends(0, statics(f'switch (5) {{ case 1: switch (6) {{ case 5: {D1} default: {D2} }} case 4: {D3} }} return x1;'))
ends(7, statics(f'switch (2) case 1: case 2: {D7} return x1;'))
ends(212, statics(f'switch (2) do {{ case 1: {D1} case 2: {D2} }} while (x2++ < 1); return x1;'))
ends(11, statics(f'while (x2++ < 3) {{ switch (x2) {{ case 1: break; case 2: continue; {D5} }} {D1} }} return x1;'))
ends(111, statics(f'while (x2 < 3) {{ {D1} x2++; }} return x1;'))
ends(0, statics(f'while (0) {D1} return x1;'))
ends(1, statics(f'do {D1} while (0); return x1;'))
ends(11, statics(f'do {D1} while (x2++ < 1); return x1;'))
ends(111, statics(f'for (x2 = 0; x2 < 3; x2++) {D1} return x1;'))
ends(11, statics(f'for (; x2 < 3; x2++) {{ if (x2 == 1) continue; {D1} }} return x1;'))
ends(11, statics(f'for (;;) {{ if (x2++ == 2) break; {D1} }} return x1;'))
ends(11, statics(f'while (x2++ < 3) {{ if (x2 == 2) continue; {D1} }} return x1;'))
ends(111, statics(f'do {{ {D1} continue; {D2} }} while (x2++ < 2); return x1;'))
ends(11, statics(f'while (x2++ < 2) {{ for (;;) break; {D1} }} return x1;'))
ends(6, statics('while (1) { switch (1) default: return 6; }'))
NINE = 'int putchar(int); int main(void) { int n = 0; if (n) goto b; a: putchar(97); b: putchar(98); n = n + 1; if (n < 3) goto a; return n; }'
row(calls('ended 3', [put(97), put(98)] * 3), NINE)
ends(4, 'int main(void) { int n = 0; goto in; { int y; again: n = n + y; goto out; in: y = 4; goto again; } out: return n; }')
breaks('U7', 'int main(void) { goto in; { int x4 = 3; in: return x4; } }')
breaks('U7', 'int x2; int main(void) { a: ; int x4; if (x2) return x4; x4 = 5; x2 = 1; goto a; }')
ends(5, 'int x2; int main(void) { int x4 = 5; a: if (x2) return x4; x2 = 1; goto a; }')
breaks('U5', 'int *x3; int main(void) { while (1) { int x4 = 1; x3 = &x4; { goto out; } } out: return *x3; }')
ends(212, statics(f'goto a; while (x2 < 2) {{ {D1} a: {D2} x2++; }} return x1;'))
ends(2, statics(f'goto a; if (1) {D1} else a: {D2} return x1;'))
ends(1, statics(f'goto a; if (0) a: {D1} else {D2} return x1;'))
ends(22, statics(f'goto a; for (x2 = 7; x2 < 2; x2++) a: {D2} return x1;'))
ends(212, statics(f'goto a; do {{ {D1} a: {D2} }} while (x2++ < 1); return x1;'))
ends(2, statics(f'goto a; switch (1) {{ case 1: {D1} a: {D2} break; {D3} }} return x1;'))
ends(3, 'int x1; int main(void) { switch (1) { int x4; case 1: x4 = 3; x1 = x4; } return x1; }')
breaks('U5', 'int x1; int *x3; int main(void) { while (x1++ < 2) { int x4; if (x3) return 8; x3 = &x4; x4 = 1; } }')
breaks('U7', 'int x1; int main(void) { do { int x4; if (x1) return x4; x4 = 3; x1 = 1; } while (1); }')
for jump in ['continue', 'break']:
    breaks('U5', f'int x1; int *x3; int main(void) {{ while (x1++ < 1) {{ int x4; x3 = &x4; {jump}; }} if (x3) ; }}')
ends(6, 'int *x3; int main(void) { { int x4 = 6; x3 = &x4; return *x3; } }')
ends(3, 'int x1; int main(void) { for (int x4 = 0; x4 < 3; x4++) x1 = x1 + x4; return x1; }')
breaks('U5', 'int *x3; int main(void) { for (int x4 = 0; x4 < 1; x4++) x3 = &x4; if (x3) ; }')
breaks('U5', 'int *x3; int main(void) { if (1) x3 = &(int){ 3 }; if (x3) ; }')
ends(1, 'int main(void) { int x4 = (x4 = 1); return x4; }')

# ---- calls

comment('Calls (6.5.2.2, 6.9.1).')
SUM = 'int f(int n) { return n ? n + f(n - 1) : 0; } int main(void) { return f(6); }'
ends(21, SUM)
breaks('U5', 'int *f(int x1) { return &x1; } int main(void) { return *f(3); }')
breaks('U5', 'int *f(void) { int x1 = 3; return &x1; } int main(void) { return *f(); }')
ends(5, 'int x1; void f(void) { x1 = 2; return; x1 = 9; } void g(void) { x1 = x1 + 3; } int main(void) { f(); g(); return x1; }')
ends(7, 'int x1; int main(void) { if (x1++ == 0) return main() + 7; }')
ends(15, 'int x1 = 1; int f(void) { x1 = 5; return 10; } int main(void) { x1 = f() + x1; return x1; }')
row(calls('ended 5', [('printf', ['"%s$n"', '65', '"x"'], 5)]), LIBRARY + 'int main(void) { return printf("%s\\n", 65, "x"); }', host='5')
breaks('U6', LIBRARY + 'char x1[2] = { 97, 98 }; int main(void) { printf(x1); }')
breaks('U7', LIBRARY + 'int main(void) { char x7[2]; printf(x7); }')
breaks('U6', LIBRARY + 'int main(void) { printf((char *)0); }')
breaks('U9', LIBRARY + 'void *x1 = &x1; int main(void) { printf((char *)&x1); }')
row(calls('ended 0', [('getchar', [], 104), put(104), ('getchar', [], 105), put(105), ('getchar', [], -1)]),
    LIBRARY + 'int main(void) { int x1; while ((x1 = getchar()) != -1) putchar(x1); return 0; }', host='104 0 105 0 -1')

comment('Functions whose meaning is known (7.20, 7.21).')


def after(given, value):
    return f'{LIBRARY}char *x1; int main(void) {{ x1 = {given}; if (x1 == (char *)0) return 99; return {value}; }}'


for expected, given, value in [
        ('ended 5', 'malloc(4)', '(x1[3] = 5, x1[3])'), ('U7 on line 1 of unit 0', 'malloc(4)', 'x1[0]'), ('U6 on line 1 of unit 0', 'malloc(4)', 'x1[4]'),
        ('ended 0', 'calloc(2, 3)', 'x1[5]'), ('ended 2', 'malloc(4)', '(memset(x1, 258, 2), x1[1])'),
        ('ended 514', 'malloc(4)', '(memset(x1, 258, 2), *(short *)x1)'), ('U7 on line 1 of unit 0', 'malloc(4)', '(memset(x1, 258, 2), x1[2])'),
        ('ended 7', 'malloc(4)', '*(char *)memset(x1, 7, 1)'), ('U6 on line 1 of unit 0', 'malloc(4)', '(memset(x1, 0, 5), 1)'),
        ('U6 on line 1 of unit 0', 'malloc(4)', '(memset((char *)0, 0, 0), 1)'), ('U5 on line 1 of unit 0', 'malloc(4)', '(free(x1), memset(x1, 0, 0), 1)'),
        ('ended 6', 'calloc(4, 1)', '(x1[0] = 6, memcpy(x1 + 2, x1, 2), x1[2])'), ('U6 on line 1 of unit 0', 'calloc(4, 1)', '(memcpy((char *)0, x1, 2), 1)'),
        ('ended 1', 'calloc(4, 1)', '(memcpy((char *)0, (char *)0, 0), 1)'),
        ('ended 7', 'calloc(4, 1)', '(x1[0] = 6, x1[1] = 7, memmove(x1 + 1, x1, 2), x1[2])'), ('ended 1', 'malloc(4)', '(memcpy(x1 + 2, x1, 2), 1)')]:
    row(f'{expected}, taking 1', after(given, value))
row(calls('ended 7', [('getchar', [], 7)]), LIBRARY + 'char *x1; int main(void) { x1 = malloc(16777217); if (x1 != (char *)0) return 98; return getchar(); }', host='7')
ends(99, after('calloc(4294967296, 4294967296)', '1'))
ends(5, LIBRARY + 'void f(void) { exit(5); } int main(void) { f(); putchar(1); return 1; }')
ends(134, LIBRARY + 'int main(void) { abort(); putchar(1); }')
DUFF = (LIBRARY + 'char a[] = "0123456789"; int main(void) { char *p = a; int n = 3, c = 10; switch (c % 4) { case 0: do { putchar(*p++); '
        'case 3: putchar(*p++); case 2: putchar(*p++); case 1: putchar(*p++); } while (--n > 0); } return 0; }')
row(calls('ended 0', [put(byte) for byte in b'0123456789']), DUFF)

# ---- records

comment('Structures, unions and bit-fields (6.5.2.3, 6.7.2.1).')
ends(34, pairs('', 'struct s x1, x2; x1.x = 3; x1.y = 4; x2 = x1; x1.x = 9; return x2.x * 10 + x2.y;'))
breaks('U7', pairs('', 'struct s x1, x2; x1.x = 3; x2 = x1; return x2.y;'))
ends(6, pairs('struct s x1, x2 = { 5, 6 };', 'return (x1 = x2).y;'))
ends(5, pairs('struct s x1, x2 = { 5, 6 };', 'return (0 ? x1 : x2).x;'))
breaks('U7', pairs('', 'struct s x1; return (1 ? x1 : x1).x;'))
THIRTY = PAIR + 'struct s f(int a) { struct s r; r.x = a; return r; } int main(void) { struct s q = f(7), t; t = q; return t.%s; }'
ends(7, THIRTY % 'x')
breaks('U7', THIRTY % 'y')
ends(65, PAIR + 'int g(struct s x1) { x1.x = 0; return x1.y; } struct s x2 = { 5, 60 }; int main(void) { return g(x2) + x2.x; }')
breaks('U14', PAIR + 'struct s f(void) { } int main(void) { return f().x; }')
breaks('U14', PAIR + 'struct s x2; struct s f(void) { } int main(void) { x2 = f(); }')
ends(8, pairs('struct s x1 = { 0, 8 }; struct s *p = &x1;', 'return p->y;'))
breaks('U6', pairs('struct s *p;', 'return p->y;'))
breaks('U6', pairs('struct s *p;', '&p->y;'))
breaks('U5', pairs('struct s *p;', '{ struct s x4; p = &x4; } &p->y;'))
breaks('U11', pairs('struct s x1;', '&(&x1 + 1)->y;'))
ends(0, pairs('struct s x1;', '&(&x1 + 1)->x;'))
breaks('U10', pairs('struct s x1[2], x2;', f'x2 = {at(2)};'))
breaks('U6', pairs('struct s x1[2], x2;', f'{at(12)} = x2;'))
comment('A member of a structure or union at a place where it may not stand (6.3.2.3p7), whatever the member.')
MEMBERS = ('struct r { int x; long y; }; struct c { char a, b; }; union u { char a; int i; }; struct o { char a; union u in; }; '
           'struct f { int x; unsigned a : 3; }; ')


def members(objects, list_):
    return f'{LIBRARY}{MEMBERS}{objects} int main(void) {{ {list_} return 0; }}'


def placed(tag, byte, list_):
    return members('long v[4]; char b[32];', f'{tag} *p = ({tag} *)((char *)v + {byte}); {list_}')


for tag, byte, list_ in [('struct r', 4, 'p->x = 3;'), ('struct r', 4, 'return p->x;'), ('struct r', 4, '&p->y;'), ('struct r', 12, '(*p).x++;'),
                         ('struct o', 2, 'return p->a;'), ('struct f', 2, 'p->a = 1;'), ('struct o', 2, 'return p->in.i;'), ('struct o', 1, '&p->in.a;'),
                         ('union u', 6, 'return p->i;'), ('union u', 5, 'return p->a;')]:
    breaks('U10', placed(tag, byte, list_))
for tag, byte, list_ in [('struct r', 8, 'p->x = 0; p->x++;'), ('struct r', 16, '&p->y;'), ('struct o', 4, 'p->a = 0;'), ('struct f', 4, 'p->a = 1;'),
                         ('struct c', 3, 'p->b = 1; p->a = 2;'), ('struct o', 4, 'p->in.i = 1; p->in.a = 2;'), ('union u', 12, 'p->a = 1;')]:
    ends(0, placed(tag, byte, list_))
breaks('U10', members('char b[32];', 'struct r *p = (struct r *)b; return p->x;'))
ends(0, members('char b[32];', 'struct c *p = (struct c *)(b + 5); p->b = 1;'))
CALLOC = 'struct r *p = (struct r *)((char *)calloc(2, 16) + %d); p->x++;'
row(calls('ended 0', [], [1]), members('', CALLOC % 16))
row(calls('U10 on line 1 of unit 0', [], [1]), members('', CALLOC % 12))
breaks('U6', members('', 'struct r *p = 0; &p->x;'))
breaks('U11', placed('struct r', 28, '&p->y;'))
breaks('U5', members('struct r *p;', '{ char c[16]; p = (struct r *)c; } &p->x;'))
ends(0, members('struct r s;', 'return (1 ? s : s).x;'))
breaks('U1', pairs('struct s x1, x2;', 'return (x2 = x1).x + (x2.y = 1);'))
breaks('U1', pairs('struct s x1, x2;', 'return (x1 = x2).x + (x2.x = 1);'))
ends(3, pairs('struct s x2;', 'return (x2.x = 1) + (x2.y = 2);'))
FIELDS = 'struct s { unsigned a : 3; unsigned b : 5; int c : 3; _Bool d : 1; }; '


def fields(objects, list_):
    return f'{LIBRARY}{FIELDS}{objects} int main(void) {{ {list_} }}'


row('ended 11, taking 1', fields('', 'struct s *p = malloc(sizeof *p); if (!p) return 99; p->a = 9; p->b = 1; return p->a * 10 + p->b;'))
ends(-295, fields('struct s x1;', 'return (int)(x1.a = 13) + 100 * (x1.c = 5);'))
ends(1, fields('struct s x1;', 'x1.d = 6; return x1.d;'))
ends(9, fields('struct s x1 = { 7, 9 };', 'x1.a++; return x1.a * 100 + x1.b;'))
ends(43, fields('struct s x1 = { 3 };', 'return (x1.a += 9) * 10 + (x1.c -= 5);'))
breaks('U7', fields('', 'struct s x1; x1.a = 1; return x1.b;'))
ends(1, fields('', 'struct s x1; x1.a = 1; return x1.a;'))
ends(3, fields('struct s x1;', 'return (int)(x1.a = 1) + (int)(x1.b = 2);'))
breaks('U1', fields('struct s x1;', 'return (int)(x1.a = 1) + (int)x1.a;'))
ends(21, fields('struct s x1, x2 = { 0, 21 };', 'return (x1 = x2).b;'))
MIXED = 'union u { int *p; struct { unsigned a : 3; } s; } x1; int x2; '
breaks('U9', MIXED + 'int main(void) { x1.p = &x2; x1.s.a = 1; }')
breaks('U9', MIXED + 'int main(void) { x1.p = &x2; return x1.s.a; }')
ends(16, 'union u { int *p; struct { unsigned a : 3; } s; }; int y = 5, i, r; int main(void) { for (i = 0; i < 2; i++) { union u x; x.s.a = 3; r += x.s.a; x.p = &y; r += *x.p; } return r; }')
ends(12, 'union u { int i; char c[4]; } x1, x2; int main(void) { x1.i = 258; return (x2 = x1, x2.c[1] * 10 + x2.c[0]); }')

comment('Initialisers and compound literals (6.7.8, 6.5.2.5).')
ends(4, pairs('', 'struct s x1 = { .y = 4 }; return x1.x * 10 + x1.y;'))
breaks('U7', pairs('', 'struct s x1 = { 1, x1.y };'))
ends(1, pairs('', 'struct s x1 = { 1, x1.x }; return x1.y;'))
ends(5, fields('', 'struct s x1 = { 5 }; return x1.a + x1.b;'))
breaks('U7', fields('', 'struct s x1 = { x1.b, 1 };'))
ends(1, pairs('int x3;', 'a: ; struct s x1 = { .y = x3++ }; if (x3 < 2) { x1.x = 7; goto a; } return x1.x * 10 + x1.y;'))
ends(6, pairs('struct s x2 = { 5, 6 };', 'struct s x1 = x2; return x1.y;'))
ends(2, pairs('', 'return (struct s){ 1, 2 }.y;'))
ends(0, pairs('', 'return (struct s){ 1 }.y;'))
ends(3, pairs('', 'return (&(struct s){ 3 })->x;'))
ends(5, pairs('int x2;', 'return (struct s){ x2 = 4, x2 + 1 }.y;'))
row(calls('ended 0', [put(1), put(2)]), LIBRARY + PAIR + 'int main(void) { return (struct s){ putchar(1), putchar(2) }.y; }', order='1,1,1')
ends(6, pairs('int x3, x4;', 'for (; x3 < 3; x3++) x4 += ++(struct s){ x3 }.x; return x4;'))
LIVES = 'struct s { int x; int y; }; struct s o, *p = &o; int i'
breaks('U1', LIVES + ', r; int main(void) { struct s *q; a: r = (q = &(struct s){ 1, 2 })->y + p->x; p = q; if (i++ < 1) goto a; return r; }')
breaks('U1', LIVES + '; int main(void) { struct s *q; a: q = &(struct s){ p->x = 3 }; p = q; if (i++ < 1) goto a; return 0; }')
ends(2, LIVES + ', r; int main(void) { struct s *q; a: r = (q = &(struct s){ 1, 2 })->y + p->x; p = q; if (i++ < 0) goto a; return r; }')

# ---- units

comment('Several units: what has external linkage and one name is one thing (6.2.2p2).')
ends(7, 'int x = 7;$uextern int x; int main(void) { return x; }')
ends(7, 'extern int x; int main(void) { return x; }$uint x = 7;')
ends(5, 'int x; int get(void) { return x; }$uextern int x; int get(void); int main(void) { x = 5; return get(); }')
ends(12, 'static int x = 1; int a(void) { return x; }$ustatic int x = 2; int a(void); int main(void) { return a() * 10 + x; }')
ends(34, 'static int f(void) { return 3; } int a(void) { return f(); }$uint a(void); static int f(void) { return 4; } int main(void) { return a() * 10 + f(); }')
ends(9, 'struct s { int x; int y; }; int sum(struct s *p) { return p->x + p->y; }$ustruct t { char c; }; struct s { int x; int y; }; int sum(struct s *); struct s o = { 4, 5 }; int main(void) { return sum(&o); }')
ends(3, 'enum { A, B }; int b = B;$uint three(int); enum e { C = 2 }; extern int b; int main(void) { enum e v = C; return three(v + b); }$uint three(int n) { return n; }')
row(calls('ended 0', [put(97), put(98)]), 'int putchar(int); void a(void) { putchar(97); }$uint putchar(int); void a(void); int main(void) { a(); putchar(98); return 0; }')
ends(66, 'char t[] = "AB"; char *end(void) { return t + 1; }$uchar *end(void); int main(void) { return *end(); }')
ends(6, 'int f(int n) { static int calls; calls += n; return calls; }$uint f(int); int main(void) { f(1); f(2); return f(3); }')
row('L1 on line 1 of unit 1', 'int x = 1;$uint x = 2; int main(void) { return x; }')
row('L3 on line 0 of unit 0', 'int x = 1;$uint y;')
row('K1 on line 2 of unit 1', 'int x;$uint main(void) {$nreturn y; }')

# ---- stores with a limit

comment('A store with a limit: each object that it refuses, and each allocation (6.2.4, 7.20.3).')
SIZES = 'char a[10]; int b; int main(void) { long c = 1; { char d[3]; } return f(2); } int f(char e) { short g; return 0; }'.replace('int main', 'int f(char); int main')
OBJECTS = [10, 4, 8, 3, 1, 2]
LIVE = [10, 14, 22, 25, 23, 25]
for index, (size, live) in enumerate(zip(OBJECTS, LIVE)):
    before = live - size
    limit = live - 1
    if all(earlier <= limit for earlier in LIVE[:index]):
        row(f'store full {size} {limit - before}', SIZES, store=f'region:{limit}:99')
row('ended 0', SIZES, store='region:25:99')
for blocks, size, live in [(0, 10, 0), (1, 4, 10), (2, 8, 14), (3, 3, 22)]:
    row(f'store full {size} {99 - live}', SIZES, store=f'region:99:{blocks}')
row('ended 0', SIZES, store='region:99:5')
row('store full 100 64', 'char big[100]; int main(void) { return 0; }', store='region:64:9')
row('store full 4 3', 'int main(void) { int a, b; return 0; }', store='region:7:9')
ALLOCATIONS = LIBRARY + 'char *x1; int main(void) { x1 = malloc(4); x1 = malloc(8); if (x1 == (char *)0) return 99; return putchar(1); }'
row('ended 7, taking 1 1 7 | putchar 1 = 7', ALLOCATIONS, host='7')
row('ended 99, taking 1 0', ALLOCATIONS, store='region:16:9', host='7')
row('ended 99, taking 1 0', ALLOCATIONS, store='region:64:2', host='7')
row('ended 7, taking 1 1 7 | putchar 1 = 7', ALLOCATIONS, store='region:20:3', host='7')
MANY = LIBRARY + 'int main(void) { int n; char *p; for (n = 0; n < 6; n++) { p = malloc(n + 1); if (!p) return n; } return 100; }'
for limit in range(12, 34):
    left, trail, status = limit - 12, [], 100
    for number in range(6):
        if left < number + 1:
            trail.append('0')
            status = number
            break
        left -= number + 1
        trail.append('1')
    row(f'ended {status}, taking ' + ' '.join(trail), MANY, store=f'region:{limit}:99')
FREED = LIBRARY + 'int main(void) { int n; char *p; for (n = 0; n < 6; n++) { p = malloc(n + 1); if (!p) return n; free(p); } return 100; }'
row('ended 4, taking 1 1 1 1 0', FREED, store='region:16:99')
row('ended 100, taking 1 1 1 1 1 1', FREED, store='region:18:99')

# ---- hosts

comment('A host that fails at a call, and one that does not take a function.')
SPEAKS = LIBRARY + 'int main(void) { putchar(65); puts("b"); printf("%d", 3); getchar(); putchar(66); return 9; }'
ALL = [('putchar', ['65'], 1), ('puts', ['"b"'], 2), ('printf', ['"%d"', '3'], 3), ('getchar', [], 4), ('putchar', ['66'], 5)]
row(calls('ended 9', ALL), SPEAKS, host='1 2 3 4 5')
for number in range(5):
    row(calls('host failed', ALL[:number]), SPEAKS, host=f'1 2 3 4 5/{number}')
row(calls('ended 9', ALL), SPEAKS, host='1 2 3 4 5/5')
for number, name in enumerate(['putchar', 'puts', 'printf', 'getchar']):
    row(calls(f'refused {name}', ALL[:number]), SPEAKS, host=f'without {name} 1 2 3 4 5')
row(calls('ended 9', ALL), SPEAKS, host='without abort 1 2 3 4 5')

# ---- calls through pointers

comment('Calls through pointers (6.5.2.2): U13 for null, another type, or another number of arguments.')
F = 'int f(int x9) { return 0; } char g(void) { return 5; } '
breaks('U13', F + 'int main(void) { return ((int (*)(void))0)(); }')
breaks('U13', F + 'int main(void) { int (*p)() = f; return p(); }')
breaks('U13', F + 'int main(void) { return ((int (*)(void))g)(); }')
ends(5, F + 'int main(void) { return (*g)(); }')
ends(5, F + 'int main(void) { return ((char (*)())g)(); }')
ends(90, 'int f(int n) { return n * 10; } int (*x3)(int) = f; int main(void) { return x3(4) + (*x3)(5); }')
BOTH = 'struct s { int x; }; int g(struct s *); struct s x1 = { 6 }; int (*p)(struct s *) = %s; int main(void) { return p(&x1); }$ustruct s { %s; }; int g(struct s *x2) { return 1; }'
ends(1, BOTH % ('g', 'int x'))
for status, value in [(1, 'f == f'), (0, 'f == (int (*)(int))0'), (1, '(int (*)(void))f != (int (*)(void))g'), (0, '!f'), (1, '(_Bool)f')]:
    ends(status, F + f'int main(void) {{ return {value}; }}')

# ---- random programs, by gcc

comment('Random programs, whose bytes and status gcc gives.')


class Program:
    """A program of `unsigned` numbers with loops, arrays and functions, that stays defined."""

    def __init__(self, seed):
        self.random = random.Random(seed)
        self.depth = 0

    def pick(self, *choices):
        return self.random.choice(choices)

    def value(self, depth):
        if depth == 0:
            return self.pick('a', 'b', 'c', 't[a % 8u]', 'o.x', 'o.f', f'{self.random.randrange(1000)}u', '(unsigned)(signed char)b', '(unsigned)s')
        left, right = self.value(depth - 1), self.value(depth - 1)
        return self.pick(
            f'({left} + {right})', f'({left} - {right})', f'({left} * {right})', f'({left} / ({right} % 7u + 1u))', f'({left} % ({right} % 9u + 1u))',
            f'({left} & {right})', f'({left} | {right})', f'({left} ^ {right})', f'(~{left})', f'({left} << ({right} % 32u))', f'({left} >> ({right} % 32u))',
            f'({left} < {right} ? {left} : {right})', f'({left} == {right} || {left} > {right})', f'({left} && {right})', f'(!{left})',
            f'(unsigned)(unsigned char)({left})', f'(unsigned)(short)({left})', f'({left}, {right})', f'mix({left}, {right})')

    def statement(self, depth):
        value = self.value(self.random.randrange(1, 3))
        simple = [f'a = {value};', f'b += {value};', f'c ^= {value};', f't[b % 8u] = {value};', f'o.x -= {value};', f'o.f = {value};', 'a++;', '--b;',
                  f's = (int)({value} % 1000u);', f'putchar((int)({value} % 94u + 33u));', f'p = &t[c % 8u]; *p = {value};', 'u = o; o.x = u.x + 1u;']
        if depth == 0:
            return self.pick(*simple)
        inner = ' '.join(self.statement(depth - 1) for _ in range(self.random.randrange(1, 4)))
        name = f'i{self.depth}'
        self.depth += 1
        return self.pick(
            *simple, f'if ({value}) {{ {inner} }}', f'if ({value}) {{ {inner} }} else {self.pick(*simple)}',
            f'{{ unsigned {name}; for ({name} = 0; {name} < {self.random.randrange(1, 5)}u; {name}++) {{ {inner} }} }}',
            f'{{ unsigned {name} = {self.random.randrange(1, 5)}u; while ({name}-- > 0u) {{ if ({value}) continue; {inner} }} }}',
            f'{{ unsigned {name} = 0; do {{ {inner} if ({value}) break; }} while (++{name} < 3u); }}',
            f'switch ({value} % 4u) {{ case 0: {self.pick(*simple)} case 1: {self.pick(*simple)} break; default: {inner} }}')

    def text(self):
        list_ = ' '.join(self.statement(2) for _ in range(6))
        return ('int putchar(int); struct pair { unsigned x; unsigned f : 7; }; unsigned a = 1, b = 2, c = 3; unsigned t[8] = { 9, 8, 7 }; int s = -5; '
                'unsigned *p; struct pair o = { 4, 5 }, u; unsigned mix(unsigned l, unsigned r) { unsigned m = l * 31u + r; return m % 3u ? m : r; } '
                f'int main(void) {{ {list_} putchar((int)(a % 94u + 33u)); putchar((int)(b % 94u + 33u)); putchar((int)((c ^ o.x ^ o.f ^ t[3]) % 94u + 33u)); '
                'return (int)((a ^ b ^ c) % 200u); }')


def by_gcc(folder, text):
    """The bytes that a program writes and its status; None where gcc warns of it or it runs long."""
    source, program = os.path.join(folder, 'p.c'), os.path.join(folder, 'p')
    with open(source, 'w') as file:
        file.write(text)
    subprocess.run(['gcc', '-std=c99', '-w', '-O0', '-fsanitize=undefined', '-fno-sanitize-recover', '-o', program, source], check=True)
    run = subprocess.run([program], stdout=subprocess.PIPE, stderr=subprocess.PIPE, timeout=10)
    if run.stderr or run.returncode < 0 or len(run.stdout) > 60:
        return None
    return run.stdout, run.returncode




def random_rows(count):
    with tempfile.TemporaryDirectory() as folder:
        seed = found = 0
        while found < count:
            seed += 1
            text = Program(seed).text()
            seen = by_gcc(folder, text) if len(text) < 2500 else None
            if seen is None:
                continue
            found += 1
            row(calls(f'ended {seen[1]}', [put(byte) for byte in seen[0]]), text, steps=100000)


random_rows(50)

# ---- declarations behind an initialiser

comment('Declarations behind an initialiser say more than it does: the object keeps the type that it gave.')
ends(3, 'enum e { A }; unsigned x = 3; extern enum e x; int main(void) { return x; }')
ends(1, 'void f(void) { extern int (*p)(int); } int (*p)() = 0; int main(void) { return p == 0; }')
ends(5, 'int h(int a) { return a + 1; } void f(void) { extern int (*p)(int); } int (*p)() = h; int main(void) { extern int (*p)(int); return p(4); }')
ends(3, 'enum e { A }; unsigned x = 3; extern enum e x; int main(void) { return x; }$uextern unsigned x; int g(void) { return x; }')


def main():
    folder = sys.argv[1]
    with open(os.path.join(folder, 'stdin'), 'w') as file:
        file.writelines(line + '\n' for line, _ in ROWS)
    with open(os.path.join(folder, 'stdout'), 'w') as file:
        file.writelines(answer + '\n' for _, answer in ROWS)


main()
