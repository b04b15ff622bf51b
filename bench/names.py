#!/usr/bin/env python3
"""Times what binding does on shapes that are hard for it: the time is to grow with the size and no faster (n log n), and time and memory a row to stay the same.

  names.py [--bin PATH] [--rate PATH] [--most N] [--runs N] [--check]

PATH of --rate is the program of names.txt, built; without it `tools/unproved.py` builds one, with tests in place of the proofs. Each shape is made in sizes that double, and each row says the size, the
rows of the program, the quickest binding, its nanoseconds a row, its ratio to that of half the size, and the most memory of the whole program a row. With --check it times `check` of the program --bin
likewise, which reads, binds and tests the rules. The shapes: generated files; classes in one chain, each of which reads a field of the first; the same in the wrong order; classes of one package; one
class with methods of one name; a block of locals, each of which reads the one before; constants, each of which is that of the next and one more.
"""
import argparse
import os
import subprocess
import sys
import tempfile

sys.path.insert(0, os.path.dirname(os.path.abspath(__file__)))
from generated import write_files


def put(folder, name, text):
    with open(os.path.join(folder, name + '.java'), 'w', encoding='utf-8') as file:
        file.write(text)


def generated(folder, size):
    write_files(folder, size // 4)


def chain(folder, size, order=1):
    classes = ['class C0 { int a; }'] + [f'class C{n} extends C{n - 1} {{ int f{n}() {{ return a; }} }}' for n in range(1, size)]
    put(folder, 'C0', '\n'.join(classes[::order]))


def wrong_order(folder, size):
    chain(folder, size, -1)


def package(folder, size):
    for n in range(min(size, 4000)):
        put(folder, f'C{n}', f'package p; class C{n} {{ C{(n + 1) % size} next; }}')


def in_package(folder, size):
    os.mkdir(os.path.join(folder, 'p'))
    package(os.path.join(folder, 'p'), size)


TYPES = [kind + '[]' * dims for dims in range(6) for kind in ('int', 'long', 'short', 'char')]


def one_name(folder, size):
    """Methods that differ by the types of three parameters."""
    put(folder, 'A', 'class A {\n' + '\n'.join(f'  int m({TYPES[n % 24]} a, {TYPES[n // 24 % 24]} b, {TYPES[n // 576 % 24]} c) {{ return {n}; }}' for n in range(size)) + '\n  int g() { return m(1, 2, 3); }\n}')


def locals_in_block(folder, size):
    put(folder, 'A', 'class A { int f() {\n  int x0 = 1;\n' + '\n'.join(f'  int x{n} = x{n - 1};' for n in range(1, size)) + f'\n  return x{size - 1};\n}} }}')


def constants(folder, size):
    put(folder, 'A', 'class A {\n' + '\n'.join(f'  static final int X{n} = {"1" if n == size - 1 else f"A.X{n + 1} + 1"};' for n in range(size)) + '\n}')


# what each is, how it is made, and how large it gets, in thousandths of the most
SHAPES = [('generated files, by four', generated, 4000), ('classes in one chain', chain, 1000), ('the same, the last first', wrong_order, 1000), ('classes of one package', in_package, 1000),
          ('methods of one name', one_name, 2500), ('locals of one block', locals_in_block, 2500), ('constants in one chain', constants, 1000)]


def packed(folder, times):
    """The files as the program of names.txt reads them."""
    found = []
    for at, _, names in os.walk(folder):
        for name in names:
            with open(os.path.join(at, name), 'rb') as file:
                found.append((os.path.relpath(os.path.join(at, name), folder), file.read()))
    return b''.join([b'%d\n%d\n' % (times, len(found))] + [b'%s\n%d\n%s' % (path.encode(), len(text), text) for path, text in sorted(found)])


def run(words, data):
    """What is printed, the processor time and the most memory in kilobytes."""
    with tempfile.TemporaryFile() as given:
        given.write(data)
        given.seek(0)
        process = subprocess.Popen(words, stdin=given, stdout=subprocess.PIPE, stderr=subprocess.DEVNULL)
        said = process.stdout.read().decode(errors='replace').strip()
        _, _, used = os.wait4(process.pid, 0)
    return said, used.ru_utime + used.ru_stime, used.ru_maxrss


def bound(program, folder, runs):
    """The rows, the seconds of the quickest binding and the most kilobytes."""
    said, _, memory = run([program], packed(folder, runs))
    rows, nanos = map(int, said.split()[:2])
    return rows, nanos / 1e9, memory


def checked(program, folder, runs):
    best, most, said = float('inf'), 0, ''
    for _ in range(runs):
        said, took, memory = run([program, folder, 'check'], b'')
        best, most = min(best, took), max(most, memory)
    return said, best, most


def try_size(args, make, size):
    """What stands behind the size, and the time."""
    with tempfile.TemporaryDirectory() as folder:
        make(folder, size)
        if args.check:
            said, took, memory = checked(args.bin, folder, args.runs)
            return f'{took:8.3f} s  {memory / 1024:6.0f} MB  {said[:40]}', took
        rows, took, memory = bound(args.rate, folder, args.runs)
        return f'{rows:7} rows  {took:7.3f} s  {took * 1e9 / rows:6.0f} ns a row  {memory * 1024 / rows:6.0f} bytes a row', took


def main():
    parser = argparse.ArgumentParser(description=__doc__, formatter_class=argparse.RawDescriptionHelpFormatter)
    top = os.path.dirname(os.path.dirname(os.path.abspath(__file__)))
    parser.add_argument('--bin', default=os.path.join(top, 'crates/refactor/out/refactor'))
    parser.add_argument('--rate')
    parser.add_argument('--most', type=int, default=4000)
    parser.add_argument('--runs', type=int, default=3)
    parser.add_argument('--check', action='store_true')
    args = parser.parse_args()
    with tempfile.TemporaryDirectory() as built:
        if not args.rate and not args.check:
            args.rate = os.path.join(built, 'rate')
            subprocess.run([sys.executable, os.path.join(top, 'tools/unproved.py'), os.path.join(top, 'bench/names.txt'), args.rate, '-O', '2'], check=True)
        for what, make, share in SHAPES:
            before = None
            for size in (args.most * share // 1000 // k for k in (8, 4, 2, 1)):
                line, took = try_size(args, make, size)
                ratio = '' if before is None else f'{took / before:.2f} times half'
                print(f'{what:26} {size:6} {line}  {ratio}', flush=True)
                before = took


if __name__ == '__main__':
    main()
