#!/usr/bin/env python3
"""Writes random methods for flow.py: flow_random.py SEED COUNT FOLDER

FOLDER gets Base.java of cases/flow and classes R0.java, R1.java, .. with some forty methods each, COUNT in all, of loops, labels, switches and `try` with expressions of all kinds below; each compiles. A step of a local (`iinc`) is a statement
or the last update of a `for` alone, since in bytecode the load beside it may be its own or another.
"""
import os
import random
import re
import shutil
import subprocess
import sys

HERE = os.path.dirname(os.path.abspath(__file__))
CAUGHT = ['ArithmeticException', 'RuntimeException', 'Error']


class Method:
    def __init__(self, rng, name):
        self.rng, self.lines, self.names, self.jumps, self.count = rng, [], ['a'], [], 0
        self.put(1, 'int %s(int a, Base o, int[] b) {' % name)
        if self.block(2, 4):
            self.put(2, 'return a;')
        self.put(1, '}')

    def put(self, depth, text):
        self.lines.append('    ' * depth + text)

    def fresh(self):
        self.count += 1
        return 'x%d' % self.count

    # ---- expressions

    def number(self, room):
        name = self.rng.choice(self.names)
        if room <= 0:
            return self.rng.choice([name, name, '2', 'o.v', 'h()', 'count'])
        one, other = (lambda: self.number(room - 1)), (lambda: self.number(room - 2))
        kind = self.rng.randrange(17)
        if kind < 5:
            return ['g(%s)' % one(), 'o.m(%s, %s, %s)' % (other(), other(), other()), 'b[%s]' % one(), 'o.self(%s).v' % one(), 'new Base(%s).v' % one()][kind]
        if kind < 9:
            return ['(%s = %s)' % (name, one()), '(%s *= %s)' % (name, one()), '(b[%s] %s %s)' % (other(), self.rng.choice(['=', '+=', '/=']), one()), '(o.next.v %s %s)' % (self.rng.choice(['=', '-=']), one())][kind - 5]
        if kind < 13:
            return ['(o.wide++ < 2 ? %s : 2)' % name, '--b[%s]' % one(), 'o.v--', '((Base) o.self(%s)).next.v' % one()][kind - 9]
        return ['(%s ? %s : %s)' % (self.condition(room - 1), other(), one()), '(%s / %s)' % (one(), other()), '(%s - %s)' % (one(), one()), '(new int[] { %s, %s })[%s]' % (other(), one(), other())][kind - 13]

    def condition(self, room):
        one = lambda: self.condition(room - 1)
        kind = self.rng.randrange(8) if room > 0 else self.rng.randrange(3)
        if kind < 3:
            return ['p(%s)' % self.number(room - 1), 'q(%s)' % self.text(room - 1), '%s < %s' % (self.number(room - 1), self.number(room - 1))][kind]
        return ['(%s && %s)' % (one(), one()), '(%s || %s)' % (one(), one()), '!(%s)' % one(), '(%s ? %s : %s)' % (one(), one(), one()), '(p(%s) | %s)' % (self.number(0), one())][kind - 3]

    def text(self, room):
        if room <= 0:
            return self.rng.choice(['o.name', 't(o)', '"k"'])
        return self.rng.choice([lambda: '(%s + %s)' % (self.text(room - 1), self.text(room - 1)), lambda: '(%s + o)' % self.text(room - 1), lambda: '(o.next + %s)' % self.text(room - 1),
                                lambda: '(%s + %s)' % (self.text(room - 1), self.number(room - 1)), lambda: '(o.name += %s)' % self.text(room - 1), lambda: 't(%s)' % self.text(room - 1)])()

    # ---- statements; each says whether it can complete normally (JLS 14.21)

    def block(self, depth, room):
        names, completes = len(self.names), True
        for _ in range(self.rng.randint(1, 3)):
            completes = self.statement(depth, room - 1)
            if not completes:
                break
        del self.names[names:]
        return completes

    def statement(self, depth, room):
        simple = [self.simple] * 4 + [self.declaration, self.jump, self.jump]
        return self.rng.choice(simple if room <= 0 else simple + [self.if_, self.while_, self.do, self.for_, self.switch, self.labeled] + [self.try_] * 4)(depth, room)

    def simple(self, depth, room):
        name = self.rng.choice(self.names)
        self.put(depth, self.rng.choice([lambda: '%s = %s;' % (name, self.number(2)), lambda: 'run(%s);' % self.number(2), lambda: 'o.v = %s;' % self.number(2), lambda: '%s++;' % name,
                                         lambda: 'b[%s] = %s;' % (self.number(1), self.number(2)), lambda: 't(%s);' % self.text(2), lambda: '%s = %s ? 1 : %s;' % (name, self.condition(2), self.number(1))])())
        return True

    def declaration(self, depth, room):
        name = self.fresh()
        self.put(depth, 'int %s = %s;' % (name, self.number(2)))
        self.names.append(name)
        self.put(depth, 'run(%s);' % name)
        return True

    def jump(self, depth, room):
        labels = [label for label, _ in self.jumps if label]
        loops = [label for label, is_loop in self.jumps if label and is_loop]
        found = ['return %s;' % self.number(1), 'throw new Error();'] + ['break;'] * 2 * any(not label or is_loop for label, is_loop in self.jumps)
        found += ['continue;'] * any(is_loop for _, is_loop in self.jumps) + ['break %s;' % label for label in labels] + ['continue %s;' % label for label in loops]
        text = self.rng.choice(found)
        if self.rng.random() < 0.7:
            self.put(depth, 'if (%s) {' % self.condition(1))
            self.put(depth + 1, text)
            self.put(depth, '}')
            return True
        self.put(depth, text)
        return False

    def if_(self, depth, room):
        self.put(depth, 'if (%s) {' % self.condition(2))
        completes = self.block(depth + 1, room)
        if self.rng.random() < 0.5:
            self.put(depth, '} else {')
            completes = self.block(depth + 1, room) or completes
        else:
            completes = True
        self.put(depth, '}')
        return completes

    def loop(self, depth, room, head, tail='}'):
        self.put(depth, head)
        self.jumps.append((None, True))
        completes = self.block(depth + 1, room)
        self.jumps.pop()
        self.put(depth, tail)
        return completes

    def while_(self, depth, room):
        self.loop(depth, room, 'while (%s) {' % self.condition(2))
        return True

    def do(self, depth, room):
        # A body that cannot complete makes what follows doubtful: javac says so, and the method is left out.
        self.loop(depth, room, 'do {', '} while (%s);' % self.condition(2))
        return True

    def for_(self, depth, room):
        name = self.fresh()
        self.names.append(name)
        self.loop(depth, room, 'for (int %s = %s; %s; run(%s), %s++) {' % (name, self.number(1), self.condition(1), self.number(1), name))
        self.names.pop()
        return True

    def switch(self, depth, room):
        self.put(depth, 'switch (%s) {' % self.number(2))
        self.jumps.append((None, False))
        completes, default = True, self.rng.randrange(5)
        for k in range(self.rng.randint(1, 3)):
            self.put(depth + 1, 'default:' if k == default else 'case %d:' % k)
            self.put(depth + 2, 'run(%d);' % k)
            completes = self.block(depth + 2, room)
        self.jumps.pop()
        self.put(depth, '}')
        return completes or default > 2

    def labeled(self, depth, room):
        label = 'l%d' % self.count
        self.count += 1
        if self.rng.random() < 0.5:
            self.jumps.append((label, True))
            self.loop(depth, room, '%s: while (%s) {' % (label, self.condition(1)))
            self.jumps.pop()
            return True
        self.put(depth, label + ': {')
        self.jumps.append((label, False))
        completes = self.block(depth + 1, room)
        self.jumps.pop()
        self.put(depth, '}')
        return completes

    def try_(self, depth, room):
        caught = [name for name in CAUGHT if self.rng.random() < 0.4]
        has_finally = not caught or self.rng.random() < 0.7
        self.put(depth, 'try {')
        completes = self.block(depth + 1, room)
        for name in caught:
            self.put(depth, '} catch (%s e) {' % name if depth < 4 else '} catch (%s e%d) {' % (name, depth))
            self.put(depth + 1, 'q(e%s);' % ('' if depth < 4 else depth))
            completes = self.block(depth + 1, room) or completes
        if has_finally:
            self.put(depth, '} finally {')
            completes = self.block(depth + 1, room) and completes
        self.put(depth, '}')
        return completes


def compiled(folder, name, methods):
    """The methods that javac takes."""
    while methods:
        starts, lines = [], ['class %s extends Base {' % name, '    %s() {' % name, '        super(1, null);', '    }']
        for method in methods:
            starts.append(len(lines) + 1)
            lines += method.lines
        with open('%s/%s.java' % (folder, name), 'w') as file:
            file.write('\n'.join(lines + ['}', '']))
        words = ['javac', '-nowarn', '-Xlint:-options', '-Xmaxerrs', '9999', '--release', '7', '-d', folder + '/out', folder + '/Base.java', '%s/%s.java' % (folder, name)]
        said = subprocess.run(words, stderr=subprocess.PIPE).stderr.decode()
        wrong = {max(k for k, start in enumerate(starts) if start <= int(line)) for line in re.findall(name + r'\.java:(\d+): error', said)}
        if not wrong:
            break
        methods = [method for k, method in enumerate(methods) if k not in wrong]
    return len(methods)


def main():
    seed, count, folder = int(sys.argv[1]), int(sys.argv[2]), sys.argv[3]
    os.makedirs(folder + '/out', exist_ok=True)
    shutil.copy(HERE + '/cases/flow/Base.java', folder)
    rng, left, k = random.Random(seed), count, 0
    while left > 0:
        left -= compiled(folder, 'R%d' % k, [Method(rng, 'f%d' % j) for j in range(min(60, left + 20))])
        k += 1
    shutil.rmtree(folder + '/out')


if __name__ == '__main__':
    main()
