#!/usr/bin/env python3
"""Cases of constant expressions and of overloads, with what is wanted, worked out from the rules of the language alone.

Each case is a line of four fields with tabs between: its kind, its title, what goes in, what is wanted.
- fold: a GLSL expression. Wanted: 'known TYPE w w ..' with the words of the leaves as eight hexadecimal digits, 'free' where only what
  the language leaves open stands against it, or 'not constant'. The variables: `const int seven = 7;`, `const ivec3 three = ivec3(1, 2, 3);`,
  `const int row[3] = int[](4, 5, 6);`, `const int open = 1 / 0;` (locals), `int x;`, `int f(int n)`, and the globals
  `const uint nine = 9u;`, `int y;`.
- choose: candidates, each a list of parameters, with '; ' between, and then '<-' and the types of the arguments. Wanted: the place from 0,
  'no match' or 'ambiguous'.

`folds.py cases` prints the same as lines that `gsl_folds` reads (`docs/CASES.md`), each expression typed and in postfix form, and
`folds.py wanted` what is to be printed of them.
"""
import itertools
import re
import sys
M = 1 << 32

def w(n):
    return n % M

def s(n):
    n %= M
    return n - M if n >= M // 2 else n

INT = [0, 1, 2, -1, 7, -7, 31, 32, 33, -2 ** 31, 2 ** 31 - 1]
UINT = [0, 1, 2, 7, 31, 32, 0x80000000, 0xffffffff]
out = []

def lit(t, n):
    if t == 'bool':
        return 'true' if n else 'false'
    return '0x%08x' % w(n) + ('u' if t == 'uint' else '')

def vt(t, n):
    return t if n == 1 else {'int': 'ivec', 'uint': 'uvec', 'bool': 'bvec'}[t] + str(n)

def val(t, xs):
    return lit(t, xs[0]) if len(xs) == 1 else vt(t, len(xs)) + '(' + ', '.join((lit(t, x) for x in xs)) + ')'

def fold(title, e, t=None, ws=None, free=False):
    want = 'free' if free else 'not constant' if t is None else 'known ' + t + ''.join((' %08x' % w(x) for x in ws))
    out.append(('fold', title, e, want))

OPEN = object()

def num(t, x):
    return s(x) if t == 'int' else w(x)

def tdiv(a, b):
    q = abs(a) // abs(b)
    return -q if (a < 0) != (b < 0) else q

def op2(op, t, a, b):
    """One component; b of a shift is a word whatever its type."""
    x, y = (num(t, a), num(t, b))
    if op in '+-*':
        return w({'+': x + y, '-': x - y, '*': x * y}[op])
    if op in '/%':
        if y == 0 or (t == 'int' and x == -2 ** 31 and (y == -1)):
            return OPEN
        # Python's % has the sign of the divisor
        return w(tdiv(x, y)) if op == '/' else w(x % y)
    if op in ('<<', '>>'):
        if w(b) >= 32:
            return OPEN
        return w(x << w(b)) if op == '<<' else w(x >> w(b))
    if op in '&|^':
        return {'&': w(a) & w(b), '|': w(a) | w(b), '^': w(a) ^ w(b)}[op]
    return int({'<': x < y, '<=': x <= y, '>': x > y, '>=': x >= y}[op])

def several(title, e, t, ws):
    if any((x is OPEN for x in ws)):
        fold(title, e, free=True)
    else:
        fold(title, e, t, ws)

# operators on scalars, each on each type, on edges
for t, edges in (('int', INT), ('uint', UINT)):
    for op in ['+', '-', '*', '/', '%', '&', '|', '^', '<', '<=', '>', '>=']:
        for a, b in itertools.product(edges, edges):
            several(f'{t} {op}', f'{lit(t, a)} {op} {lit(t, b)}', 'bool' if op[0] in '<>' else t, [op2(op, t, a, b)])
    for op in ['<<', '>>']:
        for u, amounts in (('int', [0, 1, 31, 32, -1]), ('uint', [0, 1, 31, 32, 0xffffffff])):
            for a, b in itertools.product(edges, amounts):
                several(f'{t} {op} {u}', f'{lit(t, a)} {op} {lit(u, b)}', t, [op2(op, t, a, b)])
    for a in edges:
        fold(f'-{t}', f'-{lit(t, a)}', t, [-a])
        fold(f'~{t}', f'~{lit(t, a)}', t, [~a])
    for a, b in itertools.product(edges[:5], edges[:5]):
        fold(f'{t} ==', f'{lit(t, a)} == {lit(t, b)}', 'bool', [a == b])
        fold(f'{t} !=', f'{lit(t, a)} != {lit(t, b)}', 'bool', [a != b])

# an int converts where the other is a uint
for a, b in itertools.product([-1, 0, 5], [0, 1, 0xffffffff]):
    several('int and uint', f"{lit('int', a)} / {lit('uint', b)}", 'uint', [op2('/', 'uint', a, b)])
    fold('int < uint', f"{lit('int', a)} < {lit('uint', b)}", 'bool', [op2('<', 'uint', a, b)])

# vectors, with an edge in one component; a scalar serves each
for n in (2, 3, 4):
    for t, edge in (('int', [0, -1, -2 ** 31, 31, 32]), ('uint', [0, 1, 0xffffffff, 31, 32])):
        for op in ['+', '-', '*', '/', '%', '&', '|', '^', '<<', '>>']:
            for e, at in itertools.product(edge, range(n)):
                a = [-2 ** 31 if t == 'int' and k == 1 else 9 + k for k in range(n)]
                b = [3] * n
                b[at] = e
                several(f'{vt(t, n)} {op}', f'{val(t, a)} {op} {val(t, b)}', vt(t, n), [op2(op, t, x, y) for x, y in zip(a, b)])
            for e in edge:
                several(f'{vt(t, n)} {op} {t}', f'{val(t, a)} {op} {lit(t, e)}', vt(t, n), [op2(op, t, x, e) for x in a])
                if op not in ('<<', '>>'):
                    several(f'{t} {op} {vt(t, n)}', f'{lit(t, e)} {op} {val(t, b)}', vt(t, n), [op2(op, t, e, x) for x in b])
        fold(f'-{vt(t, n)}', f'-{val(t, a)}', vt(t, n), [-x for x in a])
        fold(f'{vt(t, n)} ==', f'{val(t, a)} == {val(t, a)}', 'bool', [1])
        fold(f'{vt(t, n)} !=', f'{val(t, a)} != {val(t, b)}', 'bool', [1])

# logic, with and without a skip
for a, b in itertools.product((0, 1), (0, 1)):
    A, B = (lit('bool', a), lit('bool', b))
    fold('&&', f'{A} && {B}', 'bool', [a & b])
    fold('||', f'{A} || {B}', 'bool', [a | b])
    fold('^^', f'{A} ^^ {B}', 'bool', [a ^ b])
    fold('bool ==', f'{A} == {B}', 'bool', [a == b])
    fold('!', f'!{A}', 'bool', [1 - a])

ways = ['1 / 0', '1 % 0', '0x80000000 / 0xffffffff', '1 << 32', '1 >> -1', 'bitfieldExtract(1, 30, 5)', 'bitfieldInsert(1, 2, -1, 3)']

for way in ways:
    fold('left open', way, free=True)
    fold('skipped by &&', f'false && {way} == 0', 'bool', [0])
    fold('not skipped by &&', f'true && {way} == 0', free=True)
    fold('skipped by ||', f'true || {way} == 0', 'bool', [1])
    fold('not skipped by ||', f'false || {way} == 0', free=True)
    fold('skipped by ?:', f'true ? 3 : {way}', 'int', [3])
    fold('skipped by ?:', f'false ? {way} : 4', 'int', [4])
    fold('chosen by ?:', f'false ? 3 : {way}', free=True)
    fold('first of &&', f'{way} == 0 && false', free=True)
    fold('not skipped by ^^', f'true ^^ {way} == 0', free=True)

# variables
fold('a variable that is known', 'seven', 'int', [7])
fold('a part of one', 'three.y + row[2]', 'int', [8])
fold('a variable that is left open', 'open', free=True)
fold('one that is skipped counts', 'false && open == 0', free=True)
fold('a variable that is not constant', 'x')
fold('one that is skipped counts', 'true || x == 0')
fold('not constant, and left open', 'x + 1 / 0')
fold('not constant, and left open', 'open + x')
fold('a global that is known', 'nine + 1u', 'uint', [10])
fold('a global and a local', 'nine + seven', 'uint', [16])
fold('a global that is not constant', 'y')

for e in ['f(1)', 'x = 1', 'x += 1', 'x++', '--x', '(1, 2)', 'f(1) + 1', 'ivec2(1, f(2))']:
    fold('no form of a constant', e)

# lengths: the operand is not evaluated
for e, n in [('three.length()', 3), ('row.length()', 3), ('ivec2(x, f(1)).length()', 2), ('ivec4(1 / 0).length()', 4), ('int[](x, x, x, x, x).length()', 5)]:
    fold('.length()', e, 'int', [n])

# indexes, swizzles
for k in range(3):
    fold('an index', f'row[{k}]', 'int', [4 + k])
    fold('an index', f'three[{k}u]', 'int', [1 + k])

for names in ('xyzw', 'rgba', 'stpq'):
    for count in (1, 2, 3, 4):
        for ps in itertools.product(range(3), repeat=count):
            fold('a swizzle', 'three.' + ''.join((names[p] for p in ps)), vt('int', count), [1 + p for p in ps])
fold('a swizzle of a scalar', 'seven.xxx', 'ivec3', [7, 7, 7])

# constructors: each scalar type from each, filling, and components in a row
edges = {'int': INT, 'uint': UINT, 'bool': [0, 1]}

def conv(t, x):
    return int(w(x) != 0) if t == 'bool' else w(x)

for t in edges:
    for u in edges:
        for a in edges[u]:
            fold(f'{t}({u})', f'{t}({lit(u, a)})', t, [conv(t, a)])
        for n in (2, 3, 4):
            for a in edges[u][:4]:
                fold(f'{vt(t, n)}({u})', f'{vt(t, n)}({lit(u, a)})', vt(t, n), [conv(t, a)] * n)
            xs = [edges[u][k % len(edges[u])] for k in range(4)]
            fold(f'{vt(t, n)} in a row', f"{vt(t, n)}({', '.join((lit(u, x) for x in xs[:n]))})", vt(t, n), [conv(t, x) for x in xs[:n]])
            fold(f'{vt(t, n)} of a longer vector', f'{vt(t, n)}({val(u, xs)})', vt(t, n), [conv(t, x) for x in xs[:n]])
        fold(f'{t} of a vector', f'{t}({val(u, xs)})', t, [conv(t, xs[0])])
        fold('parts in a row', f'{vt(t, 4)}({lit(u, xs[0])}, {val(u, xs[1:])})', vt(t, 4), [conv(t, x) for x in xs])
fold('an array', 'int[2](8, 9)[1]', 'int', [9])
fold('arrays are equal', 'int[](1, 2) == int[](1, 2)', 'bool', [1])
fold('arrays differ', 'int[](1, 2) != int[](1, 3)', 'bool', [1])

# built-in functions

def bits(x):
    return [w(x) >> k & 1 for k in range(32)]

def msb(t, x):
    b = bits(x)
    sign = b[31] if t == 'int' else 0
    return max([k for k in range(32) if b[k] != sign], default=-1)
one = {'abs': lambda t, a: w(abs(s(a))), 'sign': lambda t, a: (s(a) > 0) - (s(a) < 0), 'bitCount': lambda t, a: sum(bits(a)), 'findLSB': lambda t, a: min([k for k in range(32) if bits(a)[k]], default=-1), 'findMSB': msb, 'bitfieldReverse': lambda t, a: sum((b << 31 - k for k, b in enumerate(bits(a))))}

for name, g in one.items():
    for t, es in (('int', INT), ('uint', UINT)):
        if name in ('abs', 'sign') and t == 'uint':
            continue
        r = t if name in ('abs', 'sign', 'bitfieldReverse') else 'int'
        for a in es:
            fold(name, f'{name}({lit(t, a)})', r, [g(t, a)])
        for n in (2, 3, 4):
            fold(name, f'{name}({val(t, es[:n])})', vt(r, n), [g(t, a) for a in es[:n]])

for t, es in (('int', [0, 1, -1, 5, -2 ** 31, 2 ** 31 - 1]), ('uint', [0, 1, 5, 0x80000000, 0xffffffff])):
    lo, hi = (lambda a, b: min(num(t, a), num(t, b)), lambda a, b: max(num(t, a), num(t, b)))
    for a, b in itertools.product(es, es):
        fold('min', f'min({lit(t, a)}, {lit(t, b)})', t, [lo(a, b)])
        fold('max', f'max({lit(t, a)}, {lit(t, b)})', t, [hi(a, b)])
        for name, f in (('lessThan', lambda x, y: x < y), ('lessThanEqual', lambda x, y: x <= y), ('greaterThan', lambda x, y: x > y), ('greaterThanEqual', lambda x, y: x >= y), ('equal', lambda x, y: x == y), ('notEqual', lambda x, y: x != y)):
            fold(name, f'{name}({val(t, [a, b])}, {val(t, [b, b])})', 'bvec2', [f(num(t, a), num(t, b)), f(num(t, b), num(t, b))])
        for c in es:
            fold('clamp', f'clamp({lit(t, a)}, {lit(t, b)}, {lit(t, c)})', t, [lo(hi(a, b), c)])
    for n in (2, 3, 4):
        fold('min of a vector and a scalar', f'min({val(t, es[:n])}, {lit(t, es[1])})', vt(t, n), [lo(x, es[1]) for x in es[:n]])
        fold('clamp of a vector and scalars', f'clamp({val(t, es[:n])}, {lit(t, es[0])}, {lit(t, es[1])})', vt(t, n), [lo(hi(x, es[0]), es[1]) for x in es[:n]])
    for a, o, b in itertools.product(es, [0, 1, 31, 32, -1], [0, 1, 5, 31, 32, 33, -1]):
        open_ = o < 0 or b < 0 or o + b > 32
        field = 0 if open_ else w(a) >> o & (1 << b) - 1
        if not open_ and t == 'int' and b and field >> b - 1:
            field -= 1 << b
        e = f"bitfieldExtract({lit(t, a)}, {lit('int', o)}, {lit('int', b)})"
        fold('bitfieldExtract', e, free=True) if open_ else fold('bitfieldExtract', e, t, [field])
        mask = 0 if open_ else (1 << b) - 1 << o
        e = f"bitfieldInsert({lit(t, a)}, {lit(t, es[-1])}, {lit('int', o)}, {lit('int', b)})"
        fold('bitfieldInsert', e, free=True) if open_ else fold('bitfieldInsert', e, t, [w(a) & ~mask | w(es[-1]) << o & mask])

for n in (2, 3, 4):
    for xs in itertools.product((0, 1), repeat=n):
        v = val('bool', xs)
        fold('any', f'any({v})', 'bool', [any(xs)])
        fold('all', f'all({v})', 'bool', [all(xs)])
        fold('not', f'not({v})', vt('bool', n), [1 - x for x in xs])
        fold('mix', f"mix({val('int', range(n))}, {val('int', range(10, 10 + n))}, {v})", vt('int', n), [10 + k if x else k for k, x in enumerate(xs)])

for a in (0, 1):
    fold('mix of scalars', f"mix(3u, 4u, {lit('bool', a)})", 'uint', [4 if a else 3])
fold('a vector left open in one component', 'ivec3(8, 9, 10) / ivec3(2, 0, 5)', free=True)

# overloads

def converts(a, b):
    base = lambda t: {'i': 'int', 'u': 'uint', 'b': 'bool'}[t[0]]
    size = lambda t: t[-1] if t[-1].isdigit() else '1'
    return size(a) == size(b) and base(a) == 'int' and (base(b) == 'uint')

def fit(p, a):
    way, t = p
    if t == a:
        return 2
    return 1 if way == 'in' and converts(a, t) or (way == 'out' and converts(t, a)) else 0

def choose(title, cands, args):
    fits = [[fit(p, a) for p, a in zip(c, args)] if len(c) == len(args) else [0] for c in cands]
    ok = [k for k, f in enumerate(fits) if all(f)]
    beats = lambda i, j: all((x >= y for x, y in zip(fits[i], fits[j]))) and any((x > y for x, y in zip(fits[i], fits[j])))
    best = [i for i in ok if all((i == j or beats(i, j) for j in ok))]
    want = str(best[0]) if best else 'ambiguous' if ok else 'no match'
    out.append(('choose', title, '; '.join((', '.join((w_ + ' ' + t for w_, t in c)) for c in cands)) + ' <- ' + ', '.join(args), want))
ins = lambda *ts: [('in', t) for t in ts]

for a, b in itertools.product(('int', 'uint', 'bool', 'ivec2', 'uvec2'), repeat=2):
    choose('two of two', [ins('int', 'uint'), ins('uint', 'int')], [a, b])
    choose('three of two', [ins('uint', 'uint'), ins('int', 'uint'), ins('uint', 'int')], [a, b])
    choose('vectors', [ins('uvec2', 'uint'), ins('ivec2', 'uint')], [a, b])
    choose('counts', [ins('uint'), ins('uint', 'uint'), []], [a, b])

for way, t, a in itertools.product(('in', 'out', 'inout'), ('int', 'uint', 'uvec3'), ('int', 'uint', 'ivec3', 'uvec3', 'bool')):
    choose('one way', [[(way, t)]], [a])
    choose('by way', [[(way, t)], [('in', 'uint')]], [a])

for c in itertools.permutations([ins('uint', 'uint', 'int'), ins('uint', 'int', 'uint'), ins('int', 'uint', 'uint'), ins('int', 'int', 'int')], 3):
    choose('three arguments', list(c), ['int', 'int', 'int'])
choose('no candidate', [], ['int'])
choose('the same twice', [ins('int'), ins('int')], ['int'])


# ---- the same as typed expressions in postfix form

TOKEN = re.compile(r'\s*(0x[0-9a-f]+u?|\d+u?|\w+|<<|>>|<=|>=|==|!=|&&|\|\||\^\^|\+\+|--|\+=|[-+*/%&|^~!<>=?:().,\[\]])')
LEVELS = [['||'], ['^^'], ['&&'], ['|'], ['^'], ['&'], ['==', '!='], ['<', '<=', '>', '>='], ['<<', '>>'], ['+', '-'], ['*', '/', '%']]
NAMES = {'seven': ('local@0', 'int'), 'three': ('local@1', 'ivec3'), 'row': ('local@2', 'int[3]'), 'open': ('local@3', 'int'), 'x': ('local@4', 'int'),
         'nine': ('global@0', 'uint'), 'y': ('global@1', 'int')}
GIVEN = ['local const@7:int', 'local const@1:int const@2:int const@3:int build@3:ivec3',
         'local const@4:int const@5:int const@6:int build@3:int[3]', 'local const@1:int const@0:int /:int', 'local param@0:int',
         'global const@9:uint', 'global param@0:int']
TYPES = {vt(t, n) for t in ('int', 'uint', 'bool') for n in (1, 2, 3, 4)}

def base(t):
    return {'i': 'int', 'u': 'uint', 'b': 'bool'}[t[0]]

def size(t):
    return int(t[-1]) if t[-1].isdigit() else 1

def as_base(e, b):
    """An expression, converted from int to uint where that is wanted; an expression is its words and its type."""
    if b == 'uint' and base(e[1]) == 'int':
        t = vt('uint', size(e[1]))
        return (e[0] + ['convert:' + t], t)
    return e

class Reader:
    def __init__(self, text):
        self.words = TOKEN.findall(text)
        assert ''.join(self.words) == re.sub(r'\s', '', text), text

    def next_is(self, word):
        if self.words and self.words[0] == word:
            self.words.pop(0)
            return True
        return False

    def want(self, word):
        assert self.next_is(word), (word, self.words)

    def args(self, close):
        found = []
        while not self.next_is(close):
            found.append(self.assigned())
            self.next_is(',')
        return found

    def assigned(self):
        left = self.chosen()
        for op in ('=', '+='):
            if self.next_is(op):
                right = as_base(self.assigned(), base(left[1]))
                return (left[0] + right[0] + [f'{op}:{left[1]}'], left[1])
        return left

    def chosen(self):
        test = self.level(0)
        if not self.next_is('?'):
            return test
        first = self.assigned()
        self.want(':')
        other = self.assigned()
        assert first[1] == other[1]
        return (test[0] + first[0] + other[0] + ['choose:' + first[1]], first[1])

    def level(self, k):
        if k == len(LEVELS):
            return self.unary()
        left = self.level(k + 1)
        while self.words and self.words[0] in LEVELS[k]:
            op = self.words.pop(0)
            left = joined(op, left, self.level(k + 1))
        return left

    def unary(self):
        for op, name in (('-', 'negate'), ('~', '~'), ('!', '!'), ('++', '++a'), ('--', '--a')):
            if self.next_is(op):
                e = self.unary()
                return (e[0] + [f'{name}:{e[1]}'], e[1])
        e = self.primary()
        while True:
            if self.next_is('['):
                at = self.assigned()
                self.want(']')
                t = e[1].split('[')[0] if '[' in e[1] else base(e[1])
                e = (e[0] + at[0] + ['index:' + t], t)
            elif self.next_is('.'):
                name = self.words.pop(0)
                if name == 'length':
                    self.want('(')
                    self.want(')')
                    e = (e[0] + ['length:int'], 'int')
                else:
                    at = [max(names.find(c) for names in ('xyzw', 'rgba', 'stpq')) for c in name]
                    t = vt(base(e[1]), len(at))
                    e = (e[0] + ['swizzle@' + ''.join(map(str, at)) + ':' + t], t)
            elif self.next_is('++'):
                e = (e[0] + ['a++:' + e[1]], e[1])
            else:
                return e

    def primary(self):
        word = self.words.pop(0)
        if word == '(':
            found = self.args(')')
            if len(found) == 1:
                return found[0]
            return (sum((e[0] for e in found), []) + [f'comma@{len(found)}:{found[-1][1]}'], found[-1][1])
        if word in ('true', 'false'):
            return ([f'const@{int(word == "true"):x}:bool'], 'bool')
        if word[0].isdigit():
            t = 'uint' if word[-1] == 'u' else 'int'
            return ([f'const@{int(word.rstrip("u"), 0):x}:{t}'], t)
        if word in NAMES:
            name, t = NAMES[word]
            return ([f'{name}:{t}'], t)
        array = self.next_is('[')
        if array and not self.next_is(']'):
            self.words.pop(0)
            self.want(']')
        self.want('(')
        found = self.args(')')
        if word in TYPES:
            name, t = 'build', word + (f'[{len(found)}]' if array else '')
        elif word == 'f':
            name, t = 'call', 'int'
        else:
            name, t = word, called(word, found)
        return (sum((e[0] for e in found), []) + [f'{name}@{len(found)}:{t}'], t)

def joined(op, a, b):
    if op in ('&&', '||', '^^'):
        return (a[0] + b[0] + [op + ':bool'], 'bool')
    if op in ('<<', '>>'):
        return (a[0] + b[0] + [f'{op}:{a[1]}'], a[1])
    if '[' not in a[1] and base(a[1]) != base(b[1]):
        a, b = as_base(a, 'uint'), as_base(b, 'uint')
    t = 'bool' if op in ('==', '!=', '<', '<=', '>', '>=') else vt(base(a[1]), max(size(a[1]), size(b[1])))
    return (a[0] + b[0] + [f'{op}:{t}'], t)

def called(name, args):
    first = args[0][1]
    if name in ('any', 'all'):
        return 'bool'
    if name in ('bitCount', 'findLSB', 'findMSB'):
        return vt('int', size(first))
    if name in ('lessThan', 'lessThanEqual', 'greaterThan', 'greaterThanEqual', 'equal', 'notEqual', 'not'):
        return vt('bool', size(first))
    return first

def line(kind, text, want):
    """The line of a case."""
    if kind == 'choose':
        left, right = text.split('<-')
        parts = ['none' if not part.strip() else ' '.join(p.strip().replace(' ', ':') for p in part.split(',')) for part in left.split(';')]
        several = want != 'no match' or left.strip()
        return 'choose ' + (' ; '.join(parts) + ' ' if several else '') + '<- ' + right.replace(',', ' ').strip().replace('  ', ' ')
    reader = Reader(text)
    e = reader.assigned()
    assert not reader.words, (text, reader.words)
    assert not want.startswith('known') or want.split()[1] == e[1], (text, want, e[1])
    return 'fold ' + ' '.join(e[0])

def answer(want):
    return 'known ' + ' '.join(want.split()[2:]) if want.startswith('known') else want

mode = sys.argv[1] if len(sys.argv) > 1 else ''
if mode == 'cases':
    print('# Constant expressions and calls, by tests/folds.py.')
    print('\n'.join(GIVEN))
    last = None
    for kind, title, text, want in out:
        if title != last:
            print('# ' + title)
            last = title
        print(line(kind, text, want))
elif mode == 'wanted':
    for kind, title, text, want in out:
        print(answer(want))
else:
    for case in out:
        print('\t'.join(case))
