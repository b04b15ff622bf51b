#!/usr/bin/env python3
"""Holds the parser against javac's: random sources in the profile, and such with a token dropped, doubled, swapped or replaced.

  compare.py --bin PATH [--count N] [--seed N] [--depth N]   PATH is the built program jr_outline; javac and java are on the path

Each source goes to both. javac's tree is printed by Outlines.java, ours from the rows of the tree, both as one outline. Reported are sources that
one takes and the other refuses, and those whose outlines differ. A source that javac takes and whose tree has a form that the profile leaves
out has to be refused by ours. Not reported are sources that javac's parser refuses for a rule that is no grammar (SETTLED), or takes although the
grammar has no such tree (UNGRAMMATICAL; docs/DECISIONS.md).
The exit status is 1 where anything is reported.
"""
import argparse
import os
import random
import re
import subprocess
import sys
import tempfile

# ---- random sources, as lists of tokens

WORDS = ('abstract assert boolean break byte case catch char class const continue default do double else enum extends final finally float for goto if '
         'implements import instanceof int interface long native new package private protected public return short static strictfp super switch '
         'synchronized this throw throws transient try void volatile while true false null').split()
MARKS = ('( ) { } [ ] ; , . = < > ! ~ ? : == <= >= != && || ++ -- + - * / & | ^ % << >> >>> += -= *= /= &= |= ^= %= <<= >>= >>>=').split()
NAMES = 'a b c f g x y z A B C T'.split()
PRIMITIVES = 'boolean byte short char int long'.split()
BINARY = '|| && | ^ & == != < > <= >= << >> >>> + - * / %'.split()
ASSIGN = '= += -= *= /= %= &= ^= |= <<= >>= >>>='.split()


class Maker:
    def __init__(self, rng, depth):
        self.rng, self.most = rng, depth

    def pick(self, *choices):
        return self.rng.choice(choices)

    def chance(self, share=0.5):
        return self.rng.random() < share

    def some(self, make, most=3, least=0):
        return [make() for _ in range(self.rng.randint(least, most))]

    def joined(self, parts, mark=','):
        out = []
        for i, part in enumerate(parts):
            out += ([mark] if i else []) + part
        return out

    def ident(self):
        return [self.rng.choice(NAMES)]

    def name(self):
        return self.joined(self.some(self.ident, 3, 1), '.')

    def base(self):
        return [self.rng.choice(PRIMITIVES)] if self.chance() else self.name()

    def dims(self, most=2):
        return ['[', ']'] * (self.rng.randint(1, most) if self.chance(0.3) else 0)

    def type(self):
        return self.base() + self.dims()

    # -- expressions

    def literal(self):
        return [self.pick('0', '1', '7', '07', '0x1F', '12L', "'c'", "'\\n'", '"s"', '""', 'true', 'false', 'null')]

    def args(self, d):
        return ['('] + self.joined(self.some(lambda: self.expr(d), 2)) + [')']

    def primary(self, d):
        if d <= 0:
            return self.pick(self.literal, self.name, lambda: ['this'])()
        return self.pick(
            self.literal, self.name, self.name, lambda: ['this'], lambda: self.name() + ['.', 'this'],
            lambda: ['('] + self.expr(d - 1) + [')'],
            lambda: self.ident() + self.args(d - 1), lambda: self.name() + ['.'] + self.ident() + self.args(d - 1),
            lambda: ['super', '.'] + self.ident(), lambda: ['super', '.'] + self.ident() + self.args(d - 1),
            lambda: ['new'] + self.name() + self.args(d - 1), lambda: self.array(d - 1),
            lambda: self.primary(d - 1) + ['.'] + self.ident(), lambda: self.primary(d - 1) + ['.'] + self.ident() + self.args(d - 1),
            lambda: self.name() + ['['] + self.expr(d - 1) + [']'], lambda: self.primary(d - 1) + ['['] + self.expr(d - 1) + [']'])()

    def array(self, d):
        if self.chance():
            sizes = [t for e in self.some(lambda: ['['] + self.expr(d) + [']'], 2, 1) for t in e]
            return ['new'] + self.base() + sizes + self.dims(1)
        return ['new'] + self.base() + ['[', ']'] + self.dims(1) + self.list(d)

    def list(self, d):
        items = self.joined(self.some(lambda: self.init(d - 1), 3))
        return ['{'] + items + ([','] if self.chance(0.2) else []) + ['}']

    def init(self, d):
        return self.list(d) if d > 0 and self.chance(0.2) else self.expr(d)

    def unary(self, d):
        if d <= 0 or self.chance(0.6):
            return self.primary(d) + (['++'] if self.chance(0.1) else ['--'] if self.chance(0.05) else [])
        return self.pick(
            lambda: [self.pick('+', '-', '~', '!')] + self.unary(d - 1), lambda: [self.pick('++', '--')] + self.unary(d - 1),
            lambda: ['(', self.rng.choice(PRIMITIVES)] + self.dims() + [')'] + self.unary(d - 1),
            lambda: ['('] + self.name() + self.dims() + [')'] + self.unary(d - 1))()

    def expr(self, d):
        if d <= 0 or self.chance(0.35):
            return self.unary(d)
        return self.pick(
            lambda: self.unary(d - 1) + [self.rng.choice(BINARY)] + self.expr(d - 1), lambda: self.expr(d - 1) + [self.rng.choice(BINARY)] + self.unary(d - 1),
            lambda: self.expr(d - 1) + [self.rng.choice(BINARY)] + self.unary(d - 1) + [self.rng.choice(BINARY)] + self.unary(d - 1),
            lambda: self.unary(d - 1) + ['instanceof'] + self.type(), lambda: self.unary(d - 1) + ['?'] + self.expr(d - 1) + [':'] + self.expr(d - 1),
            lambda: self.place(d - 1) + [self.rng.choice(ASSIGN)] + self.expr(d - 1))()

    def place(self, d):
        if d <= 0 or self.chance():
            return self.name()
        return self.pick(lambda: self.primary(d) + ['.'] + self.ident(), lambda: self.name() + ['['] + self.expr(d - 1) + [']'], lambda: ['super', '.'] + self.ident())()

    def effect(self, d):
        return self.pick(
            lambda: self.place(d) + [self.rng.choice(ASSIGN)] + self.expr(d), lambda: [self.pick('++', '--')] + self.place(d),
            lambda: self.place(d) + [self.pick('++', '--')], lambda: self.ident() + self.args(d), lambda: self.name() + ['.'] + self.ident() + self.args(d),
            lambda: self.primary(d) + ['.'] + self.ident() + self.args(d), lambda: ['new'] + self.name() + self.args(d))()

    # -- statements

    def declarator(self, d):
        return self.ident() + self.dims(1) + (['='] + self.init(d) if self.chance() else [])

    def variables(self, d):
        return (['final'] if self.chance(0.15) else []) + self.type() + self.joined(self.some(lambda: self.declarator(d), 3, 1))

    def param(self):
        return (['final'] if self.chance(0.2) else []) + self.type() + self.ident() + self.dims(1)

    def block(self, d):
        return ['{'] + [t for s in self.some(lambda: self.block_stmt(d - 1), 3) for t in s] + ['}']

    def block_stmt(self, d):
        return self.variables(d) + [';'] if self.chance(0.3) else self.stmt(d)

    def stmt(self, d):
        if d <= 0:
            return self.pick(lambda: [';'], lambda: self.effect(0) + [';'], lambda: ['return', ';'], lambda: ['break', ';'], lambda: ['{', '}'])()
        e = d - 1
        return self.pick(
            lambda: [';'], lambda: self.block(d), lambda: self.effect(e) + [';'], lambda: self.effect(e) + [';'],
            lambda: ['do'] + self.stmt(e) + ['while', '('] + self.expr(e) + [')', ';'], lambda: ['while', '('] + self.expr(e) + [')'] + self.stmt(e),
            lambda: ['if', '('] + self.expr(e) + [')'] + self.stmt(e), lambda: ['if', '('] + self.expr(e) + [')'] + self.stmt(e) + ['else'] + self.stmt(e),
            lambda: self.loop(e), lambda: self.choice(e), lambda: self.attempt(e), lambda: self.ident() + [':'] + self.stmt(e),
            lambda: [self.pick('break', 'continue')] + (self.ident() if self.chance() else []) + [';'],
            lambda: ['return'] + (self.expr(e) if self.chance(0.7) else []) + [';'], lambda: ['throw'] + self.expr(e) + [';'])()

    def loop(self, d):
        first = self.variables(d) if self.chance(0.4) else self.joined(self.some(lambda: self.effect(d), 2))
        update = self.joined(self.some(lambda: self.effect(d), 2))
        return ['for', '('] + first + [';'] + (self.expr(d) if self.chance(0.7) else []) + [';'] + update + [')'] + self.stmt(d)

    def choice(self, d):
        out = ['switch', '('] + self.expr(d) + [')', '{']
        for _ in range(self.rng.randint(0, 3)):
            out += ['default', ':'] if self.chance(0.25) else ['case'] + self.expr(d - 1) + [':']
            out += [t for s in self.some(lambda: self.block_stmt(d - 1), 2) for t in s]
        return out + ['}']

    def attempt(self, d):
        out = ['try'] + self.block(d)
        catches = self.rng.randint(0, 2)
        for _ in range(catches):
            out += ['catch', '('] + self.param() + [')'] + self.block(d)
        return out + (['finally'] + self.block(d) if not catches or self.chance(0.3) else [])

    # -- declarations

    def modifiers(self, words, most=2):
        return self.rng.sample(words, self.rng.randint(0, most))

    def params(self):
        return ['('] + self.joined(self.some(self.param, 3)) + [')']

    def thrown(self):
        return ['throws'] + self.joined(self.some(self.name, 2, 1)) if self.chance(0.2) else []

    def member(self, d, around):
        words = ['public', 'protected', 'private', 'static', 'final', 'abstract', 'native']
        field = lambda: self.modifiers(words) + self.type() + self.joined(self.some(lambda: self.declarator(d), 2, 1)) + [';']
        method = lambda: (self.modifiers(words) + (['void'] if self.chance(0.4) else self.type()) + self.ident() + self.params() + self.thrown()
                          + ([';'] if self.chance(0.2) else self.block(d)))
        return self.pick(field, method, method, lambda: self.constructor(d, around), lambda: (['static'] if self.chance() else []) + self.block(d),
                         lambda: self.type_decl(d - 1) if d > 0 else field(), lambda: [';'])()

    def constructor(self, d, around):
        call = [self.pick('this', 'super')] + self.args(d - 1) + [';'] if self.chance(0.4) else []
        return self.modifiers(['public', 'protected', 'private'], 1) + [around] + self.params() + self.thrown() + ['{'] + call + self.block(d)[1:]

    def type_decl(self, d):
        name = self.pick('A', 'B', 'C')
        mods = self.modifiers(['public', 'abstract', 'final', 'static'])
        if self.chance(0.25):
            faces = ['extends'] + self.joined(self.some(self.name, 2, 1)) if self.chance(0.3) else []
            body = [t for m in self.some(lambda: self.interface_member(d - 1), 3) for t in m]
            return mods + ['interface', name] + faces + ['{'] + body + ['}']
        above = ['extends'] + self.name() if self.chance(0.3) else []
        faces = ['implements'] + self.joined(self.some(self.name, 2, 1)) if self.chance(0.3) else []
        body = [t for m in self.some(lambda: self.member(d - 1, name), 4) for t in m]
        return mods + ['class', name] + above + faces + ['{'] + body + ['}']

    def interface_member(self, d):
        return self.pick(lambda: self.type() + self.ident() + self.params() + self.thrown() + [';'], lambda: ['void'] + self.ident() + self.params() + [';'],
                         lambda: self.type() + self.ident() + ['='] + self.expr(d) + [';'], lambda: [';'])()

    def import_decl(self):
        return self.pick(lambda: ['import'] + self.ident() + ['.'] + self.name() + [';'], lambda: ['import'] + self.name() + ['.', '*', ';'],
                         lambda: ['import', 'static'] + self.name() + ['.'] + self.ident() + [';'])()

    def unit(self):
        out = ['package'] + self.name() + [';'] if self.chance(0.3) else []
        out += [t for i in self.some(self.import_decl, 2) for t in i]
        return out + [t for c in self.some(lambda: self.type_decl(self.most), 2) for t in c]


def mutated(rng, tokens):
    tokens = list(tokens)
    if not tokens:
        return [rng.choice(WORDS + MARKS)]
    for _ in range(rng.randint(1, 2)):
        i = rng.randrange(len(tokens))
        how = rng.randrange(5)
        if how == 0:
            del tokens[i]
        elif how == 1:
            tokens.insert(i, tokens[i])
        elif how == 2:
            j = rng.randrange(len(tokens))
            tokens[i], tokens[j] = tokens[j], tokens[i]
        elif how == 3:
            tokens[i] = rng.choice(WORDS + MARKS + NAMES)
        else:
            tokens.insert(i, rng.choice(WORDS + MARKS + NAMES))
        if not tokens:
            break
    return tokens


# ---- our outline, from rows: each is (label, fields, name, parent)

def parse_debug(text):
    """Reads what Rust's Debug prints of a label: NAME, NAME { field: value, .. } or NAME(value)."""
    tokens = re.findall(r'[A-Za-z_][A-Za-z_0-9]*|-?\d+|[{}()\[\],:]', text)
    value, rest = debug_value(tokens, 0)
    assert rest == len(tokens), text
    return value


def debug_value(tokens, at):
    head = tokens[at]
    at += 1
    if head == '[':
        items = []
        while tokens[at] != ']':
            item, at = debug_value(tokens, at)
            items.append(item)
            at += tokens[at] == ','
        return items, at + 1
    if re.match(r'-?\d', head):
        return int(head), at
    if at < len(tokens) and tokens[at] == '{':
        fields, at = {}, at + 1
        while tokens[at] != '}':
            name = tokens[at]
            fields[name], at = debug_value(tokens, at + 2)
            at += tokens[at] == ','
        return (head, fields), at + 1
    if at < len(tokens) and tokens[at] == '(':
        inner, at = debug_value(tokens, at + 1)
        assert tokens[at] == ')'
        return (head, inner), at + 1
    return (head, None), at


SYMBOLS = dict(Plus='+', Minus='-', Star='*', Slash='/', Percent='%', ShiftLeft='<<', ShiftRight='>>', ShiftRightUnsigned='>>>', Less='<', Greater='>', LessEqual='<=',
               GreaterEqual='>=', Equal='==', NotEqual='!=', And='&', Caret='^', Or='|', AndAnd='&&', OrOr='||', Assign='=', PlusAssign='+=', MinusAssign='-=',
               StarAssign='*=', SlashAssign='/=', PercentAssign='%=', AndAssign='&=', CaretAssign='^=', OrAssign='|=', ShiftLeftAssign='<<=', ShiftRightAssign='>>=',
               ShiftRightUnsignedAssign='>>>=', Tilde='~', Not='!', Increment='++', Decrement='--', PlusPlus='++', MinusMinus='--')


class Rows:
    def __init__(self, lines):
        self.rows, self.kids = [], []
        for n, line in enumerate(lines):
            parent, name, label = line.split(' ', 2)
            self.rows.append((parse_debug(label), '' if name == '-' else name, int(parent)))
            self.kids.append([])
            if n:
                self.kids[int(parent)].append(n)

    def head(self, n):
        return self.rows[n][0][0]

    def field(self, n, name):
        return self.rows[n][0][1][name]

    def name(self, n):
        return self.rows[n][1]

    def symbol(self, n):
        return SYMBOLS[self.field(n, 'op')[0]]

    def dotted(self, n):
        left = self.kids[n]
        return (self.dotted(left[0]) + '.' if left else '') + self.name(n)

    def modifiers(self, n):
        all = self.field(n, 'modifiers')[1]
        return '[' + ' '.join(sorted(k[3:] for k, v in all.items() if v[0] == 'true')) + ']'

    def base(self, primitive, kids):
        return primitive[1][0].lower() if primitive[0] == 'Some' else self.dotted(kids[0])

    def type(self, n, more=0):
        return self.base(self.field(n, 'primitive'), self.kids[n]) + '[]' * (self.field(n, 'dims') + more)

    def outline(self):
        units = self.kids[0]
        assert len(units) == 1
        parts = [self.top(n) for n in self.kids[units[0]]]
        return '(unit' + ''.join(' ' + p for p in parts if p) + ')'

    def top(self, n):
        head = self.head(n)
        if head == 'Package':
            return '(package ' + self.dotted(self.kids[n][0]) + ')'
        if head == 'Import':
            kind = self.field(n, 'kind')[0]
            name = self.dotted(self.kids[n][0])
            return {'Single': '(import single %s)', 'OnDemand': '(import demand %s)', 'StaticSingle': '(import static %s.' + self.name(n) + ')'}[kind] % name
        return self.type_decl(n)

    def type_decl(self, n):
        head = self.head(n)
        if head == 'EmptyDecl':
            return ''
        above = [self.dotted(k) for k in self.kids[n] if self.head(k) == 'Name' and self.field(k, 'place')[0] == 'Superclass']
        faces = [self.dotted(k) for k in self.kids[n] if self.head(k) == 'Name' and self.field(k, 'place')[0] == 'Superinterface']
        body = [m for k in self.kids[self.kids[n][-1]] for m in self.member(k)]
        return ('(%s %s %s (extends%s) (faces%s)%s)' % (head.lower(), self.modifiers(n), self.name(n), ''.join(' ' + a for a in above), ''.join(' ' + f for f in faces),
                                                       ''.join(' ' + m for m in body)))

    def member(self, n):
        head = self.head(n)
        kids = self.kids[n]
        if head == 'Fields':
            return [self.variable('field', self.modifiers(k), kids[0], k) for k in kids[1:]]
        if head in ('Class', 'Interface', 'EmptyDecl'):
            inner = self.type_decl(n)
            return [inner] if inner else []
        if head == 'Initializer':
            return ['(' + ('static-init ' if self.field(n, 'is_static')[0] == 'true' else 'init ') + self.stmt(kids[0])[0] + ')']
        if head == 'DefaultConstructor':
            return []
        return [self.method(n, head, kids)]

    def method(self, n, head, kids):
        kids = [k for k in kids if self.head(k) != 'ImplicitCall']
        gives = ''
        if head == 'Method':
            if self.field(n, 'is_void')[0] == 'true':
                gives = ' void'
            else:
                gives, kids = ' ' + self.type(kids[0]), kids[1:]
        params = [self.param(k) for k in kids if self.head(k) == 'Parameter']
        thrown = [self.dotted(k) for k in kids if self.head(k) == 'Name']
        body = [self.stmt(k)[0] for k in kids if self.head(k) == 'Block']
        return ('(%s %s%s %s (params%s) (throws%s)%s)' % (head.lower(), self.modifiers(n), gives, self.name(n), ''.join(' ' + p for p in params),
                                                         ''.join(' ' + t for t in thrown), ''.join(' ' + b for b in body)))

    def final(self, n):
        return '[final]' if self.field(n, 'is_final')[0] == 'true' else '[]'

    def param(self, n):
        return '(param %s %s %s)' % (self.final(n), self.type(self.kids[n][0], self.field(n, 'dims')), self.name(n))

    def variable(self, head, mods, ty, n):
        init = ''.join(' ' + self.init(k) for k in self.kids[n])
        return '(%s %s %s %s%s)' % (head, mods, self.type(ty, self.field(n, 'dims')), self.name(n), init)

    def init(self, n):
        if self.head(n) == 'Value':
            return self.expr(self.kids[n][0])
        return '(list' + ''.join(' ' + self.init(k) for k in self.kids[n]) + ')'

    def node(self, head, kids):
        return '(' + head + ''.join(' ' + k for k in kids) + ')'

    def part(self, n):
        """A statement that stands as a part, or an expression."""
        return self.stmt(n)[0] if self.head(n) in STATEMENTS else self.expr(n)

    def stmt(self, n):
        """The statements that a row is: more than one where it declares several variables."""
        head, kids = self.head(n), self.kids[n]
        if head in ('Locals', 'ForLocals'):
            return [self.variable('local', self.final(k), kids[0], k) for k in kids[1:]]
        if head == 'Block':
            return [self.node('block', [s for k in kids for s in self.stmt(k)])]
        if head == 'Nest':
            return self.stmt(kids[0])
        if head == 'ConstructorCall':
            return [self.node('call-' + self.field(n, 'which')[0].lower(), [self.expr(k) for k in kids])]
        if head == 'Labeled':
            return [self.node('label ' + self.name(n), [self.part(k) for k in kids])]
        if head in ('Break', 'Continue'):
            return ['(' + head.lower() + (' ' + self.name(n) if self.name(n) else '') + ')']
        if head == 'For':
            return [self.loop(n, kids)]
        if head == 'Switch':
            inner = [s for g in kids[1:] for k in self.kids[g] for s in self.in_group(k)]
            return [self.node('switch', [self.expr(kids[0])] + inner)]
        if head == 'Try':
            return [self.attempt(n, kids)]
        return [self.node(head.lower(), [self.part(k) for k in kids])]

    def in_group(self, n):
        if self.head(n) == 'Case':
            return [self.node('case', [self.expr(self.kids[n][0])])]
        return ['(default)'] if self.head(n) == 'Default' else self.stmt(n)

    def loop(self, n, kids):
        first, test = [], []
        if self.field(n, 'has_first')[0] == 'true':
            k, kids = kids[0], kids[1:]
            first = self.stmt(k) if self.head(k) == 'ForLocals' else [self.expr(e) for e in self.kids[k]]
        if self.field(n, 'has_condition')[0] == 'true':
            test, kids = [self.expr(kids[0])], kids[1:]
        update = [self.expr(k) for k in kids[:-1]]
        return self.node('for', [self.node('first', first), self.node('test', test), self.node('update', update), self.part(kids[-1])])

    def attempt(self, n, kids):
        parts = []
        for i, k in enumerate(kids):
            if self.head(k) == 'Catch':
                inner = self.kids[k]
                parts.append(self.node('catch', [self.param(inner[0]), self.stmt(inner[1])[0]]))
            elif i and i == len(kids) - 1 and self.field(n, 'has_finally')[0] == 'true':
                parts.append(self.node('finally', self.stmt(k)))
            else:
                parts += self.stmt(k)
        return self.node('try', parts)

    def expr(self, n):
        head, kids = self.head(n), self.kids[n]
        many = lambda: [self.expr(k) for k in kids]
        if head == 'Name':
            return '(name ' + self.dotted(n) + ')'
        if head == 'Literal':
            return self.literal(self.field(n, 'kind'))
        if head in ('Binary', 'Unary', 'Assign'):
            return self.node(head.lower() + ' ' + self.symbol(n), many())
        if head in ('PreStep', 'PostStep'):
            return self.node(head[:-4].lower() + ' ' + self.symbol(n), many())
        if head == 'Conditional':
            return self.node('cond', many())
        if head == 'Cast':
            return self.node('cast ' + self.type(kids[0]), [self.expr(kids[1])])
        if head == 'IsA':
            return self.node('is-a ' + self.type(kids[1]), [self.expr(kids[0])])
        if head == 'This':
            return '(this' + ''.join(' ' + self.dotted(k) for k in kids) + ')'
        if head == 'Select':
            return self.node('select ' + self.name(n), many())
        if head == 'SuperSelect':
            return '(super-select ' + self.name(n) + ')'
        if head == 'Call':
            on = self.field(n, 'receiver')[0]
            if on in ('Expression', 'Name'):
                return self.node('call %s (on %s)' % (self.name(n), self.expr(kids[0])), [self.expr(k) for k in kids[1:]])
            return self.node('call %s (on%s)' % (self.name(n), ' super' if on == 'Super' else ''), many())
        if head == 'New':
            return self.node('new ' + self.dotted(kids[0]), [self.expr(k) for k in kids[1:]])
        if head == 'NewArray':
            base = self.base(self.field(n, 'primitive'), kids)
            rest = kids if self.field(n, 'primitive')[0] == 'Some' else kids[1:]
            return self.node('new-array %s %d' % (base, self.field(n, 'more')), [self.init(k) if self.head(k) == 'List' else self.expr(k) for k in rest])
        return self.node(head.lower(), many())

    def literal(self, kind):
        head, value = kind
        if head == 'Word':
            word = value[0].lower()
            return '(literal null)' if word == 'null' else '(literal boolean %s)' % word
        if head == 'Int':
            return '(literal int %d)' % value
        if head == 'Long':
            return '(literal long %d)' % value
        if head == 'Char':
            return '(literal char %d)' % value
        units = value[1] if isinstance(value, tuple) else value
        units = units.get('units', units) if isinstance(units, dict) else units
        return '(literal string' + ''.join(' %d' % u for u in units) + ')'


STATEMENTS = {'Block', 'Nest', 'Locals', 'Skip', 'Do', 'While', 'If', 'Eval', 'For', 'Switch', 'Labeled', 'Break', 'Continue', 'Return', 'Throw', 'Try', 'ConstructorCall'}


# ---- both parsers

# A repeated modifier is the first rule of the language here, and an import by a single identifier the ninth: the grammar of JLS 18 has both.
SETTLED = ('fault repeated modifier', 'fault invalid method declaration; return type required')
# trees that javac's parser makes although the grammar has none: an assignment to what is no variable, an operand that binds too loosely, a sign or a step behind
# a cast to an array of objects, a component of an array where it is made, a modifier of a local other than final
UNGRAMMATICAL = re.compile(r'\(assign \S+ \((?!name |select |super-select |index )|\(binary (?:[*/%+-]|<<|>>|>>>) \(is-a '
                           r'|\(cast (?!(?:boolean|byte|short|char|int|long)\b)\S*\[\] \((?:unary [+-] |pre )|\(index \(new-array |\(local \[(?!final\]|\])')


def run(command, sources):
    data = b''.join(s.encode() + b'\0' for s in sources)
    return subprocess.run(command, input=data, stdout=subprocess.PIPE, check=True).stdout.decode().split('\n')


def ours(binary, sources):
    """One answer a source: `fault ..`, or the outline."""
    answers, lines = [], []
    for line in run([binary], sources):
        if line == '.':
            answers.append(lines[0] if lines and lines[0].startswith('fault') else Rows(lines).outline())
            lines = []
        else:
            lines.append(line)
    return answers


def theirs(folder, sources):
    return run(['java', '-cp', folder, 'Outlines'], sources)[:len(sources)]


# javac reads type arguments behind the name of a type, which the profile leaves out, and wants a dot in an import
UNLIKE_JAVAC = re.compile(r'instanceof \w+(?: \. \w+)*(?: \[ \])* <(?!<)|import \w+ ;')
# javac's parser makes one literal of a minus and a decimal number, before what stands behind it, and one of strings that are joined
NEGATED = re.compile(r'\(unary - \(literal (int|long) (\d+)\)\)')
JOINED = re.compile(r'- \d\w* (?:\+\+|--|\.|\[)|" \+ "')


def calls_elsewhere(source, mine):
    # whether the fault is at a call of a constructor: javac's parser takes such calls in any body
    at = int(mine.split()[-1]) if mine.startswith('fault at token') else 0
    return source.split(' ')[max(0, at - 1):at + 1] in (['this', '('], ['super', '('])


def report(source, mine, other):
    if mine.startswith('fault') and (other.startswith('fault') or other.startswith('left out')):
        return None
    if mine.startswith('fault'):
        if UNGRAMMATICAL.search(other) or calls_elsewhere(source, mine):
            return None
        return 'refused here, taken by javac: ' + mine
    if other.startswith(SETTLED) or other.startswith('fault') and UNLIKE_JAVAC.search(source):
        return None
    if other.startswith('fault') or other.startswith('left out'):
        return 'taken here, refused by javac: ' + other
    return None if mine == other or JOINED.search(source) else 'outlines differ'


def main():
    parser = argparse.ArgumentParser(description=__doc__, formatter_class=argparse.RawDescriptionHelpFormatter)
    parser.add_argument('--bin', required=True)
    parser.add_argument('--count', type=int, default=2000)
    parser.add_argument('--seed', type=int, default=1)
    parser.add_argument('--depth', type=int, default=4)
    parser.add_argument('--show', type=int, default=20)
    args = parser.parse_args()
    rng = random.Random(args.seed)
    sources = []
    while len(sources) < args.count:
        tokens = Maker(rng, args.depth).unit()
        if len(tokens) > 1500:
            continue
        sources.append(' '.join(tokens))
        sources.append(' '.join(mutated(rng, tokens)))
    with tempfile.TemporaryDirectory() as folder:
        here = os.path.dirname(os.path.abspath(__file__))
        subprocess.run(['javac', '-d', folder, os.path.join(here, 'Outlines.java')], check=True)
        other = theirs(folder, sources)
    mine, other = ([NEGATED.sub(r'(literal \1 -\2)', m) for m in all] for all in (ours(args.bin, sources), other))
    assert len(mine) == len(other) == len(sources), (len(mine), len(other), len(sources))
    taken = sum(not m.startswith('fault') for m in mine)
    found = [(s, m, o, why) for s, m, o in zip(sources, mine, other) for why in [report(s, m, o)] if why]
    for source, m, o, why in found[:args.show]:
        at = max(0, next((i for i, (a, b) in enumerate(zip(m, o)) if a != b), 0) - 200) if why == 'outlines differ' else 0
        print(why, '\n  ', source, '\n   ours ', m[at:at + 600], '\n   javac', o[at:at + 600])
    print('%d sources, %d taken by ours, %d disagreements' % (len(sources), taken, len(found)))
    return 1 if found else 0


if __name__ == '__main__':
    sys.exit(main())
