"""Random programs that break rules on members and names."""
import random


class Gen:
    def __init__(self, seed):
        self.r = random.Random(seed)
        self.types = []      # (package, dotted name inside the package, is_interface)
        self.wild = self.r.random()

    def chance(self, p): return self.r.random() < p
    def pick(self, xs): return self.r.choice(xs)

    def ref(self, pkg, face=None):
        """A name for a type that stands earlier, or one of java.lang."""
        if self.types and self.chance(0.8):
            ts = [t for t in self.types if face is None or t[2] == face or self.chance(0.1)]
            if ts:
                p, n, _ = self.pick(ts[-6:] if self.chance(0.7) else ts)
                if p and (p != pkg or self.chance(0.1)): return p + '.' + n
                return n
        return 'Object'

    def ty(self, pkg):
        x = self.r.random()
        if x < 0.4: return self.pick(['int', 'int', 'long', 'boolean'])
        if x < 0.6: return self.pick(['Object', 'String', 'Object[]', 'int[]'])
        return self.ref(pkg) + ('[]' if self.chance(0.1) else '')

    def mods(self, choices):
        out = []
        for word, p in choices:
            if self.chance(p): out.append(word)
        return ' '.join(out) + (' ' if out else '')

    def access(self):
        if self.chance(0.02): return 'public protected '
        if self.chance(0.01): return 'public private '
        return self.pick(['public ', 'public ', 'protected ', 'private ', '', '', 'public '])

    def params(self, pkg):
        k = self.pick([0, 0, 0, 1, 1, 2])
        names = [self.pick('abc') for _ in range(k)]
        return ', '.join('%s %s' % (self.pick(['int', 'int', 'Object', self.ty(pkg)]), n) for n in names)

    def throws(self, pkg):
        if self.chance(0.25): return ' throws ' + ', '.join(self.pick(['Exception', 'RuntimeException', 'Throwable', 'Error', 'NullPointerException', 'IllegalStateException']) for _ in range(self.pick([1, 1, 2])))
        return ''

    def stmts(self, depth, pkg):
        out = ''
        for _ in range(self.pick([0, 1, 1, 2, 3])):
            k = self.r.random()
            x = self.pick('abcd')
            if k < 0.3: out += 'int %s = 1; ' % x
            elif k < 0.35: out += 'int %s = 1, %s = 2; ' % (x, self.pick('abcd'))
            elif depth > 3: out += '; '
            elif k < 0.45: out += '{ %s} ' % self.stmts(depth + 1, pkg)
            elif k < 0.55: out += '%s: %s' % (self.pick(['l', 'm']), self.pick(['{ %s} ' % self.stmts(depth + 1, pkg), 'l: ; ', 'm: { l: ; } ']))
            elif k < 0.65: out += 'for (int %s = 0; ; ) { %s} ' % (x, self.stmts(depth + 1, pkg))
            elif k < 0.75: out += 'try { %s} catch (Exception %s) { %s} ' % (self.stmts(depth + 1, pkg), x, self.stmts(depth + 1, pkg))
            elif k < 0.85: out += 'switch (1) { case 1: int %s = 1; case 2: %s; default: %s; } ' % (x, self.stmts(depth + 1, pkg), self.stmts(depth + 1, pkg))
            elif k < 0.9: out += 'new %s(); ' % self.ref(pkg)
            elif k < 0.95: out += 'new %s().f(); ' % self.ref(pkg)
            else: out += 'Object o%s = new %s().%s; ' % (x, self.ref(pkg), self.pick('xyz'))
        return out

    def method(self, pkg, owner, face):
        name = self.pick(['f', 'f', 'g', 'h', 'toString', 'equals'] if self.chance(0.3) else ['f', 'f', 'g'])
        if face:
            m = self.mods([('public', 0.3), ('abstract', 0.3)] + ([('static', 0.03), ('final', 0.03), ('private', 0.02)] if self.wild < 0.3 else []))
            body = ';' if not self.chance(0.04) else ' { }'
        else:
            abstract = self.chance(0.25)
            native = not abstract and self.chance(0.05)
            m = self.access() + self.mods([('static', 0.2 if not abstract else 0.02), ('final', 0.08)]) + ('abstract ' if abstract else '') + ('native ' if native else '')
            body = ';' if (abstract or native) != self.chance(0.03) else ' { %s}' % self.stmts(0, pkg)
        result = self.pick(['void', 'void', 'void', 'int', self.ty(pkg), self.ty(pkg)])
        return '%s%s %s(%s)%s%s ' % (m, result, name, self.params(pkg), self.throws(pkg), body)

    def member(self, pkg, owner, face, depth):
        k = self.r.random()
        if k < 0.6: return self.method(pkg, owner, face)
        if k < 0.8:
            m = (self.mods([('public', 0.3), ('static', 0.3), ('final', 0.3)]) if face else self.access() + self.mods([('static', 0.4), ('final', 0.2)]))
            init = self.pick([' = 1', ' = 1', '', ' = f()'])
            return '%s%s %s%s; ' % (m, self.pick(['int', 'int', self.ty(pkg)]), self.pick('xyz'), init)
        if k < 0.88 and depth < 3: return self.type(pkg, depth + 1, owner)
        if k < 0.95:
            return '%s%s(%s)%s { %s} ' % (self.access(), owner.split('.')[-1] if not self.chance(0.05) else 'Q', self.params(pkg), self.throws(pkg), self.stmts(0, pkg))
        return self.pick(['static { %s} ', '{ %s} ']) % self.stmts(0, pkg)

    def type(self, pkg, depth=0, over=None, public=False):
        face = self.chance(0.3)
        simple = self.pick('ABCDEFGH') + (self.pick(['', '', '1', '2']) if depth == 0 else '')
        if depth == 0 and public: simple = public
        name = (over + '.' if over else '') + simple
        m = ''
        if depth: m = self.access() + self.mods([('static', 0.4)])
        elif public: m = 'public '
        if not face: m += self.mods([('abstract', 0.45)]) or self.mods([('final', 0.1)])
        head = m + ('interface ' if face else 'class ') + simple
        if face:
            fs = [self.ref(pkg, True) for _ in range(self.pick([0, 0, 1, 1, 2, 2, 3]))]
            fs = [f for f in fs if f != 'Object' or self.chance(0.05)]
            if fs: head += ' extends ' + ', '.join(fs)
        else:
            if self.chance(0.65): head += ' extends ' + self.ref(pkg, False)
            fs = [self.ref(pkg, True) for _ in range(self.pick([0, 0, 0, 1, 1, 2]))]
            fs = [f for f in fs if f != 'Object' or self.chance(0.05)]
            if fs: head += ' implements ' + ', '.join(fs)
        body = ''.join(self.member(pkg, name, face, depth) for _ in range(self.pick([0, 1, 2, 3, 4, 5])))
        self.types.append((pkg, name, face))
        return '%s { %s} ' % (head, body)

    def imports(self, pkg):
        out = ''
        for _ in range(self.pick([0, 0, 0, 1, 2, 3])):
            ts = [t for t in self.types]
            if not ts: break
            p, n, _f = self.pick(ts)
            if not p:
                if self.chance(0.2): out += 'import %s; ' % n
                continue
            k = self.r.random()
            if k < 0.6: out += 'import %s.%s; ' % (p, n)
            elif k < 0.9: out += 'import static %s.%s.%s; ' % (p, n, self.pick(list('xyzfgABCD')))
            else: out += 'import %s.*; ' % p
        return out

    def program(self):
        units = []
        pkgs = self.pick([[''], ['', 'p'], ['p', 'q'], ['p', 'q', 'p'], ['p', 'q', 'p.q'], ['', '', 'p.A', 'p']])
        k = 0
        for pkg in pkgs:
            k += 1
            text = 'package %s; ' % pkg if pkg else ''
            text += self.imports(pkg)
            public = 'P%d' % k
            types = []
            for j in range(self.pick([1, 2, 3, 4, 5])):
                types.append(self.type(pkg, 0, None, public if j == 0 and self.chance(0.7) else False))
            units.append((('%s/' % pkg.replace('.', '/') if pkg else '') + public + '.java', text + '\n'.join(types)))
        return units


def programs(count, seed):
    return [Gen(seed * 100003 + k).program() for k in range(count)]


if __name__ == '__main__':
    for p in programs(3, 1):
        for path, text in p: print('---', path); print(text)
        print('=====')
