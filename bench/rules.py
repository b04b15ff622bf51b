#!/usr/bin/env python3
"""Times `check` on shapes that are hard for one rule each: the time is to grow with the size and no faster (n log n).

  rules.py --bin PATH [--most N] [--runs N] [--only WORD]

PATH is the program `refactor`, built. Each shape is one program that compiles, made in sizes that double, up to N thousandths of its most (1000). Each row says the shape, the size, the bytes, the quickest of N (3) checks
without what an empty folder takes, its microseconds for each of the size, and its ratio to the time of half the size: about 2 where the time grows with the size, 4 where it grows with its square.
"""
import argparse
import os
import subprocess
import sys
import tempfile
import time

sys.path.insert(0, os.path.dirname(os.path.abspath(__file__)))
from generated import OURS


def lines(all_of):
    return '\n'.join(all_of)


def in_class(body, head='class A'):
    return {'A': head + ' {\n' + body + '\n}\n'}


def in_method(body, head='int f(boolean c)'):
    return in_class(f'  {head} {{\n{body}\n  }}')


def chain(size, member, first='', head='class'):
    up = {'class': 'extends', 'interface': 'extends'}[head]
    return {'C0': lines([f'{head} C0 {{ {first or member(0)} }}'] + [f'{head} C{n} {up} C{n - 1} {{ {member(n)} }}' for n in range(1, size)])}


def exceptions(size, up=lambda n: 'Exception'):
    return lines(f'class E{n} extends {up(n)} {{ }}' for n in range(size))


def above(n):
    return f'E{n - 1}' if n else 'Exception'


def below_interfaces(size):
    return {'A': lines(f'interface I{n} {{ int f{n}(); }}' for n in range(size)) + f'\nabstract class A implements {", ".join(f"I{n}" for n in range(size))} {{ }}\n'}


def layers(size):
    each = 4
    first = [f'interface L0x{k} {{ int f(); }}' for k in range(each)]
    rest = [f'interface L{n}x{k} extends {", ".join(f"L{n - 1}x{j}" for j in range(each))} {{ }}' for n in range(1, size // each) for k in range(each)]
    return {'L': lines(first + rest)}


def implementing(size):
    return {'A': 'interface I {\n' + lines(f'  int f{n}(int a);' for n in range(size)) + '\n}\nclass A implements I {\n' + lines(f'  public int f{n}(int a) {{ return a; }}' for n in range(size)) + '\n}\n'}


def siblings(size):
    return {'A': 'class A { public int f() { return 0; } }\n' + lines(f'class B{n} extends A {{ public int f() {{ return {n}; }} }}' for n in range(size))}


def imports(size, form, used):
    texts = {f'p/T{n}': f'package p; public class T{n} {{ public static int s{n} = {n}; }}' for n in range(min(size, 4000))}
    texts['q/A'] = 'package q;\n' + lines(form(n) for n in range(size)) + '\nclass A {\n' + lines(f'  {used(n)}' for n in range(size)) + '\n}\n'
    return texts


def on_demand(size):
    texts = {f'p{n}/T{n}': f'package p{n}; public class T{n} {{ }}' for n in range(size)}
    texts['q/A'] = 'package q;\n' + lines(f'import p{n}.*;' for n in range(size)) + '\nclass A {\n' + lines(f'  T{n} t{n};' for n in range(size)) + '\n}\n'
    return texts


def handlers(size):
    body = lines(f'    try {{ if (c) throw new E{n}(); }} catch (E{n} e) {{ }}' for n in range(size))
    return {'E': exceptions(size), **in_method(body + '\n    return 0;')}


def one_try(size, up):
    body = '    try {\n' + lines(f'      if (c) throw new E{n}();' for n in range(size)) + '\n    }\n' + lines(f'    catch (E{n} e) {{ }}' for n in reversed(range(size)))
    return {'E': exceptions(size, up), **in_method(body + '\n    return 0;')}


TYPES = [kind + '[]' * dims for dims in range(6) for kind in ('int', 'long', 'short', 'char')]

# each shape, how it is made, and its most
SHAPES = [
    ('classes in a chain that override one method', lambda n: chain(n, lambda k: f'public int f() {{ return {k}; }}'), 8000),
    ('the same without access modifiers', lambda n: chain(n, lambda k: f'int f() {{ return {k}; }}'), 8000),
    ('the same with narrower and narrower results', lambda n: chain(n, lambda k: f'public C{k} f() {{ return this; }}'), 8000),
    ('interfaces in a chain that override one method', lambda n: chain(n, lambda k: 'int f();', head='interface'), 8000),
    ('classes in a chain that hide a static method', lambda n: chain(n, lambda k: f'public static int f() {{ return {k}; }}'), 8000),
    ('classes in a chain with a method each', lambda n: chain(n, lambda k: f'public int f{k}() {{ return {k}; }}'), 8000),
    ('classes below one that override its method', siblings, 8000),
    ('a class below interfaces', below_interfaces, 2000),
    ('interfaces in layers of four', layers, 1600),
    ('a class that implements the methods of an interface', implementing, 8000),
    ('overloads of one class', lambda n: in_class(lines(f'  int m({TYPES[k % 24]} a, {TYPES[k // 24 % 24]} b, {TYPES[k // 576 % 24]} c) {{ return {k}; }}' for k in range(n))), 8000),
    ('constructors of one class', lambda n: in_class(lines(f'  A({TYPES[k % 24]} a, {TYPES[k // 24 % 24]} b, {TYPES[k // 576 % 24]} c) {{ }}' for k in range(n))), 8000),
    ('member classes of one class', lambda n: in_class(lines(f'  class B{k} {{ int a; }}' for k in range(n))), 16000),
    ('final fields without initializer', lambda n: in_class(lines(f'  final int x{k};' for k in range(n)) + '\n  A() {\n' + lines(f'    x{k} = {k};' for k in range(n)) + '\n  }'), 8000),
    ('locals that are assigned in two branches', lambda n: in_method(lines(f'    int x{k}; if (c) x{k} = 1; else x{k} = 2; x0 = x{k};' for k in range(n)) + '\n    return x0;'), 8000),
    ('locals, each of which is read', lambda n: in_method('    int x0 = 1;\n' + lines(f'    int x{k} = x{k - 1};' for k in range(1, n)) + '\n    return x0;'), 16000),
    ('loops that are left by a label', lambda n: in_method(lines(f'    l{k}: while (c) {{ if (c) break l{k}; }}' for k in range(n)) + '\n    return 0;'), 8000),
    ('returns in try with finally', lambda n: in_method(lines('    try { if (c) return 1; } finally { c = !c; }' for k in range(n)) + '\n    return 0;'), 8000),
    ('cases of one switch', lambda n: in_method('    switch (3) {\n' + lines(f'      case {k}: if (c) break;' for k in range(n)) + '\n    }\n    return 0;'), 16000),
    ('try statements with a handler each', handlers, 8000),
    ('handlers of one try', lambda n: one_try(n, lambda k: 'Exception'), 2000),
    ('handlers of one try, each for a class above the last', lambda n: one_try(n, above), 2000),
    ('classes in the throws of one method', lambda n: {'E': exceptions(n), **in_class(f'  void f() throws {", ".join(f"E{k}" for k in range(n))} {{ }}\n  void g() throws Exception {{ f(); }}')}, 4000),
    ('single-type imports', lambda n: imports(n, lambda k: f'import p.T{k};', lambda k: f'T{k} t{k};'), 3900),
    ('static imports', lambda n: imports(n, lambda k: f'import static p.T{k}.s{k};', lambda k: f'int t{k} = s{k};'), 3900),
    ('imports on demand', on_demand, 1000),
    ('items of one array', lambda n: in_class('  int[] a = {' + ', '.join(str(k) for k in range(n)) + '};'), 64000),
    ('statements of one method', lambda n: in_method(lines('    c = !c;' for k in range(n)) + '\n    return 0;'), 32000),
    ('calls of one method', lambda n: in_class('  int f(int a) { return a; }\n  void g() {\n' + lines(f'    f({k});' for k in range(n)) + '\n  }'), 16000),
    ('constants, each of the next', lambda n: in_class(lines(f'  static final int X{k} = {"1" if k == n - 1 else f"A.X{k + 1} + 1"};' for k in range(n))), 16000),
]


def write(folder, texts):
    for name, text in texts.items():
        path = os.path.join(folder, name + '.java')
        os.makedirs(os.path.dirname(path), exist_ok=True)
        with open(path, 'w') as file:
            file.write(text)
    return sum(map(len, texts.values()))


def seconds(binary, folder, runs):
    best = None
    for _ in range(runs):
        start = time.monotonic()
        done = subprocess.run([binary, folder, 'check'], capture_output=True, text=True, env=OURS)
        took = time.monotonic() - start
        if done.returncode != 0:
            sys.exit(f'not accepted: {done.stdout[:300]}')
        best = took if best is None else min(best, took)
    return best


def main():
    parser = argparse.ArgumentParser(description=__doc__, formatter_class=argparse.RawDescriptionHelpFormatter)
    parser.add_argument('--bin', required=True)
    parser.add_argument('--most', type=int, default=1000)
    parser.add_argument('--runs', type=int, default=3)
    parser.add_argument('--only', default='')
    args = parser.parse_args()
    with tempfile.TemporaryDirectory() as folder:
        idle = seconds(args.bin, folder, args.runs)
    for shape, texts, most in SHAPES:
        if args.only not in shape:
            continue
        before = None
        for size in (most // 8, most // 4, most // 2, most):
            size = max(4, size * args.most // 1000)
            with tempfile.TemporaryDirectory() as folder:
                length = write(folder, texts(size))
                took = max(seconds(args.bin, folder, args.runs) - idle, 1e-6)
            ratio = f', {took / before:.1f} times that of half' if before else ''
            print(f'{shape}: {size}, {length} bytes, {took * 1000:.1f} ms, {took * 1_000_000 / size:.1f} us each{ratio}', flush=True)
            before = took


if __name__ == '__main__':
    main()
