"""Small random programs that print, nearly all of int, so that most of them compile however their names bind. Names are few, so that they shadow,
hide, override, overload and obscure each other. change.py renames and moves in them."""

PACKAGES = ['', 'p', 'q', 'a', 'p.q']
TYPES = ['A', 'B', 'C', 'D', 'E']
FIELDS = ['a', 'b', 'c', 'd', 'A', 'p']
METHODS = ['m', 'n', 'a', 'f', 'A']
LABELS = ['l', 'a', 'b']
PARAMETERS = [[], ['int'], ['int'], ['long'], ['Object'], ['String'], ['int', 'long'], ['long', 'int']]


class Type:
    def __init__(self, package, name, outer, is_face, is_static):
        self.package, self.name, self.outer, self.is_face, self.is_static = package, name, outer, is_face, is_static
        self.sup, self.faces, self.fields, self.methods, self.inner, self.public = None, [], [], [], [], False

    def path(self):
        return (self.outer.path() if self.outer else []) + [self.name]

    def whole(self):
        return '.'.join(([self.package] if self.package else []) + self.path())

    def above(self):
        out = [self]
        for t in ([self.sup] if self.sup else []) + self.faces:
            out += [u for u in t.above() if u not in out]
        return out

    def around(self):
        return [self] + (self.outer.around() if self.outer else [])

    def top(self):
        return self.outer.top() if self.outer else self


class Small:
    def __init__(self, rng):
        self.rng, self.types, self.here, self.static, self.locals, self.steps = rng, [], None, False, [], 0

    def chance(self, share):
        return self.rng.random() < share

    def pick(self, *choices):
        return self.rng.choice(choices)

    # -- plans

    def plan(self, package, outer, taken, depth):
        free = [n for n in TYPES if n not in taken]
        t = Type(package, self.rng.choice(free), outer, self.chance(0.2), self.chance(0.5))
        taken.add(t.name)
        if t.is_face or not outer or outer.is_face:
            t.is_static = True
        if t.is_face and outer and not outer.is_static:
            t.is_face = False
        if t.is_static and outer and not outer.is_static:
            t.is_static = False
        sees = [o for o in self.types if o not in t.around() and (o.public or o.package == package) and (o.package or not package)]
        classes = [o for o in sees if not o.is_face and o.is_static]
        faces = [o for o in sees if o.is_face]
        if not t.is_face and classes and self.chance(0.7):
            t.sup = self.rng.choice(classes)
        if faces and self.chance(0.5):
            t.faces = [self.rng.choice(faces)]
        t.public = self.chance(0.7) if outer else False
        self.types.append(t)
        if depth:
            inside = set(t.path())
            t.inner = [self.plan(package, t, inside, depth - 1) for _ in range(self.pick(0, 0, 1, 1, 2))]
        for name in self.rng.sample(FIELDS, self.pick(1, 1, 2, 3)):
            static = t.is_face or t.is_static and self.chance(0.4)
            t.fields.append((name, static, t.is_face or self.chance(0.3), self.pick('public ', 'public ', 'protected ', '', 'private ')))
        for _ in range(self.pick(1, 2, 2, 3)):
            above = [m for o in t.above()[1:] for m in o.methods if m[3] != 'private ']
            if above and self.chance(0.5):
                name, parameters, static, access = self.rng.choice(above)
                m = (name, parameters, static and not t.is_face, 'public ')
            else:
                m = (self.rng.choice(METHODS), self.rng.choice(PARAMETERS), not t.is_face and t.is_static and self.chance(0.3), 'public ' if t.is_face else self.pick('public ', 'public ', 'protected ', '', 'private '))
            if all((m[0], m[1]) != (o[0], o[1]) for o in t.methods):
                t.methods.append(m)
        return t

    # -- expressions

    def type_name(self, t):
        path = t.path()
        options = [t.whole(), t.whole()]
        if t.package == self.here.package or self.chance(0.3):
            options += ['.'.join(path)] * 3
        if t.outer in self.here.around() or t in self.here.around():
            options += [path[-1]] * 3
        return self.rng.choice(options)

    def seen(self, member, t):
        return member[3] != 'private ' and (member[3] == 'public ' or t.package == self.here.package or self.here in [self.here] and t in self.here.above()) or t.top() is self.here.top()

    def int_of(self, d):
        how = self.rng.random()
        if how < 0.08:
            return str(self.rng.randint(1, 9))
        if how < 0.35:
            names = [n for n, t in self.locals if t in ('int', 'long')]
            if names:
                return self.rng.choice(names)
        if how < 0.72:
            return self.field(d)
        if d > 0:
            return self.call(d - 1)
        return self.field(0)

    def instance_round(self):
        """The types whose object can be named here."""
        if self.static:
            return []
        out = [self.here]
        while not out[-1].is_static and out[-1].outer:
            out.append(out[-1].outer)
        return out

    def field(self, d):
        objects = self.instance_round()
        how = self.rng.random()
        choices = []
        for over in self.here.around():
            for t in over.above():
                for f in t.fields:
                    if self.seen(f, t) and (f[1] or over in objects):
                        choices.append((f[0], f, t, over))
        if choices and how < 0.55:
            return self.rng.choice(choices)[0]
        if choices and how < 0.75:
            name, f, t, over = self.rng.choice(choices)
            if f[1]:
                return self.type_name(self.pick(t, t, over)) + '.' + name
            if over is self.here:
                if t is not over and t is over.sup and self.chance(0.5):
                    return 'super.' + name
                return self.pick('this.' + name, '((' + self.type_name(t) + ') this).' + name, self.type_name(over) + '.this.' + name)
            return self.type_name(over) + '.this.' + name
        t = self.rng.choice(self.types)
        fields = [f for u in t.above() for f in u.fields if self.seen(f, u)]
        if fields:
            f = self.rng.choice(fields)
            if f[1]:
                return self.type_name(t) + '.' + f[0]
            made = self.made(t)
            if made:
                return made + '.' + f[0]
        return str(self.rng.randint(1, 9))

    def made(self, t):
        if t.is_face:
            return None
        if not t.is_static and (not self.instance_round() or t.outer not in self.here.around()):
            return None
        return 'new ' + self.type_name(t) + '()'

    def argument(self, ty, d):
        if ty == 'String':
            return self.pick('"s"', '"s" + ' + self.int_of(0))
        if ty == 'Object':
            return self.pick('"o"', 'null', 'this' if not self.static else '"t"')
        if ty == 'long':
            return self.pick(self.int_of(d), self.int_of(d), '2L')
        return self.int_of(d)

    def call(self, d):
        objects = self.instance_round()
        choices = []
        for over in self.here.around():
            for t in over.above():
                for m in t.methods:
                    if self.seen(m, t) and (m[2] or over in objects):
                        choices.append(('', m, t, over))
        if choices and self.chance(0.7):
            before, m, t, over = self.rng.choice(choices)
            how = self.rng.random()
            if how > 0.6 and m[2]:
                before = self.type_name(t) + '.'
            elif how > 0.6 and over is self.here:
                before = 'super.' if t is over.sup and self.chance(0.5) else 'this.'
            elif how > 0.6:
                before = self.type_name(over) + '.this.'
        else:
            t = self.rng.choice(self.types)
            methods = [m for u in t.above() for m in u.methods if self.seen(m, u)]
            if not methods:
                return str(self.rng.randint(1, 9))
            m = self.rng.choice(methods)
            before = self.type_name(t) if m[2] else self.made(t)
            if not before:
                return str(self.rng.randint(1, 9))
            before += '.'
        return before + m[0] + '(' + ', '.join(self.argument(ty, d) for ty in m[1]) + ')'

    def expr(self, d):
        text = self.int_of(d)
        while self.chance(0.4):
            text += self.pick(' + ', ' - ', ' * ') + self.int_of(d)
        return text

    # -- statements

    def go(self):
        self.steps += 1
        return 'z.Z.go(%d);' % self.steps

    def block(self, d, most, pad):
        kept = list(self.locals)
        out = []
        for _ in range(self.rng.randint(1, most)):
            out += self.statement(d, pad)
        self.locals = kept
        return out

    def free_name(self):
        taken = [n for n, _ in self.locals]
        return self.rng.choice([n for n in FIELDS + ['x', 'y'] if n not in taken])

    def statement(self, d, pad):
        how = self.rng.random()
        if how < 0.25:
            name = self.free_name()
            line = pad + 'long ' + name + ' = ' + self.expr(1) + ';'
            self.locals.append((name, 'long'))
            return [line]
        if how < 0.6 or d <= 0:
            return [pad + 'System.out.println("' + self.pick('u', 'v') + '" + (' + self.expr(2) + '));']
        kept = list(self.locals)
        how = self.rng.randrange(6)
        if how == 0:
            name = self.free_name()
            self.locals.append((name, 'int'))
            out = [pad + 'for (int ' + name + ' = 0; ' + name + ' < 2; ' + name + '++) {', pad + '  ' + self.go()] + self.block(d - 1, 2, pad + '  ') + [pad + '}']
        elif how == 1:
            label = self.rng.choice([l for l in LABELS if (l, 'label') not in self.locals] or ['z'])
            self.locals.append((label, 'label'))
            out = [pad + label + ': do {', pad + '  ' + self.go()] + self.block(d - 1, 2, pad + '  ') + [pad + '  if (' + self.expr(0) + ' > 3) break ' + label + ';', pad + '} while (' + self.expr(0) + ' > 900);']
        elif how == 2:
            consts = [f[0] for t in self.here.above() for f in t.fields if f[2] and f[1]]
            case = self.rng.choice(consts) if consts else '1'
            out = [pad + 'switch ((int) (' + self.expr(0) + ')) {', pad + '  case ' + case + ': ' + self.statement(0, '')[0]]
            self.locals = list(kept)
            out += [pad + '  default: System.out.println("d" + ' + self.int_of(0) + ');', pad + '}']
        elif how == 3:
            out = [pad + 'if (' + self.expr(1) + ' > 5) {'] + self.block(d - 1, 2, pad + '  ') + [pad + '}']
        elif how == 4:
            name = self.free_name()
            out = [pad + 'try {'] + self.block(d - 1, 2, pad + '  ') + [pad + '} catch (ArithmeticException ' + name + ') { }']
        else:
            out = [pad + '{'] + self.block(d - 1, 2, pad + '  ') + [pad + '}']
        self.locals = kept
        return out

    # -- members

    def members(self, t, pad):
        self.here = t
        out = []
        for n, (name, static, final, access) in enumerate(t.fields):
            value = str(10 * len(out) + self.rng.randint(1, 9) + 100 * self.types.index(t))
            self.static, self.locals = static, []
            if t.is_face or final:
                words = '' if t.is_face else access + ('static ' if static else '') + 'final '
            else:
                words = access + ('static ' if static else '')
            out.append(pad + words + 'int ' + name + ' = ' + value + ';')
        for name, parameters, static, access in t.methods:
            names = [n if ty in ('int', 'long') else ty[0].lower() for n, ty in zip(self.rng.sample(FIELDS + ['x', 'y'], len(parameters)), parameters)]
            self.static, self.locals = static, list(zip(names, parameters))
            head = 'int ' + name + '(' + ', '.join(ty + ' ' + n for n, ty in zip(names, parameters)) + ')'
            if t.is_face:
                out.append(pad + head + ';')
                continue
            out += [pad + access + ('static ' if static else '') + head + ' {', pad + '  ' + self.go()]
            out += self.block(1, 2, pad + '  ') + [pad + '  return (int) (' + self.expr(1) + ');', pad + '}']
        if not t.is_face:
            have = [(m[0], m[1]) for m in t.methods]
            for o in t.above():
                for m in o.methods if o.is_face else []:
                    if (m[0], m[1]) not in have:
                        have.append((m[0], m[1]))
                        names = ['x%d' % k for k in range(len(m[1]))]
                        out.append(pad + 'public int ' + m[0] + '(' + ', '.join(ty + ' ' + n for n, ty in zip(names, m[1])) + ') { return %d; }' % self.rng.randint(1, 99))
            if self.chance(0.3):
                self.static, self.locals = False, []
                out += [pad + 'public ' + t.name + '() {', pad + '  ' + self.go()] + self.block(0, 1, pad + '  ') + [pad + '}']
        for inner in t.inner:
            out += self.type_text(inner, pad)
            self.here = t
        if not t.outer and not t.is_face:
            self.static, self.locals = True, []
            out.append(pad + 'public static void run() {')
            for other in self.later.get(t, []):
                out.append(pad + '  ' + other.whole() + '.run();')
            for _ in range(4):
                out.append(pad + '  ' + self.statement(0, '')[0] if self.chance(0.3) else pad + '  System.out.println("w" + ' + self.call(1) + ');')
            out.append(pad + '}')
        return out

    def type_text(self, t, pad):
        words = 'public ' if t.public or t.outer and self.chance(0.3) else ''
        if t.outer and t.is_static and not t.is_face and not t.outer.is_face:
            words += 'static '
        self.here = t.outer or t
        head = words + ('interface ' if t.is_face else 'class ') + t.name
        if t.sup:
            head += ' extends ' + self.type_name(t.sup)
        if t.faces:
            head += (' extends ' if t.is_face else ' implements ') + self.type_name(t.faces[0])
        return [pad + head + ' {'] + self.members(t, pad + '  ') + [pad + '}']

    def program(self):
        packages = self.rng.sample(PACKAGES, self.pick(1, 2, 2, 3))
        taken = {p: set() for p in packages}
        units, self.later, runs = [], {}, []
        for _ in range(self.pick(1, 2, 2, 3)):
            package = self.rng.choice(packages)
            if len(taken[package]) > 3:
                continue
            tops = []
            for n in range(self.pick(1, 1, 2)):
                if len(taken[package]) < 5:
                    t = self.plan(package, None, taken[package], self.pick(0, 1, 1))
                    t.public = n == 0
                    tops.append(t)
            units.append((package, tops))
            classes = [t for t in tops if not t.is_face]
            if tops[0].is_face:
                continue
            self.later[tops[0]] = [t for t in classes if t is not tops[0]]
            runs.append('    ' + tops[0].whole() + '.run();')
        files = []
        for package, tops in units:
            lines = ['package ' + package + ';', ''] if package else []
            for _ in range(self.pick(0, 1, 2)):
                t = self.rng.choice(self.types)
                statics = [f[0] for f in t.fields if f[1] and f[3] == 'public ']
                if t.package and t.top().public and (t.public or not t.outer):
                    lines.append(self.pick('import ' + t.whole() + ';', 'import ' + t.package + '.*;', 'import static ' + t.whole() + '.' + self.rng.choice(statics) + ';' if statics else 'import ' + t.package + '.*;'))
            lines = list(dict.fromkeys(lines))
            for t in tops:
                lines += self.type_text(t, '')
            files.append((package.replace('.', '/') + ('/' if package else '') + tops[0].name + '.java', '\n'.join(lines) + '\n'))
        files.append(('z/Z.java', 'package z;\npublic class Z {\n  static int steps;\n  public static void go(int n) {\n    System.out.println("g" + n);\n    if (++steps > 200) throw new RuntimeException("stop");\n  }\n}\n'))
        files.append(('Main.java', 'public class Main {\n  public static void main(String[] words) {\n' + '\n'.join(runs) + '\n  }\n}\n'))
        return sorted(files)


if __name__ == '__main__':
    import random
    import sys
    for path, text in Small(random.Random(int(sys.argv[1]))).program():
        print('---', path)
        print(text, end='')
