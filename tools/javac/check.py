#!/usr/bin/env python3
"""Holds `check` against javac: random small classes, most of which break a rule.

  check.py --bin PATH [--count N] [--seed N]     PATH is the built program refactor; java is on the path

Every source has the form that `check` serves, so `ok` is to come exactly where javac compiles it. Differences are shown, and the exit status
is 1 where there is one.
"""
import argparse
import os
import random
import subprocess
import sys
import tempfile

HERE = os.path.dirname(os.path.abspath(__file__))
NAMES = ['a', 'b', 'c', 'wait', 'hashCode', 'f']
LITERALS = ['0', '1', '0x7f', '017', '2147483647', '0xffffffff', '2147483648', '1L']


def some(rng, make, most):
    return [make() for _ in range(rng.randrange(most + 1))]


def operand(rng, names):
    if rng.random() < 0.25:
        return rng.choice(LITERALS) if rng.random() < 0.2 else '1'
    return rng.choice(names) if names and rng.random() < 0.85 else rng.choice(NAMES)


def expression(rng, names):
    return ' + '.join(operand(rng, names) for _ in range(rng.randrange(1, 4)))


def method(rng):
    params = rng.sample(NAMES, rng.randrange(3)) if rng.random() < 0.9 else [rng.choice(NAMES) for _ in range(2)]
    names, body = list(params), []
    for _ in range(rng.randrange(4)):
        if rng.random() < 0.06:
            body.append(f'return {expression(rng, names)};')
            continue
        free = [n for n in NAMES if n not in names]
        x = rng.choice(free) if free and rng.random() < 0.9 else rng.choice(NAMES)
        body.append(f'int {x} = {expression(rng, names)};')
        names.append(x)
    if rng.random() < 0.93:
        body.append(f'return {expression(rng, names)};')
    return f'static int {rng.choice(NAMES + ["g", "h", "A"])}({", ".join("int " + p for p in params)}) {{ {" ".join(body)} }}'


def source(rng):
    name = rng.choice(['A', 'Object', 'String', 'java'])
    if rng.random() < 0.1:
        members = some(rng, lambda: f'int {rng.choice(NAMES)};', 3)
    else:
        members = some(rng, lambda: method(rng), 3)
    return f'class {name} {{ {" ".join(members)} }}\n'


def main():
    parser = argparse.ArgumentParser()
    parser.add_argument('--bin', required=True)
    parser.add_argument('--count', type=int, default=1000)
    parser.add_argument('--seed', type=int, default=1)
    args = parser.parse_args()
    rng = random.Random(args.seed)
    sources = [source(rng) for _ in range(args.count)]
    with tempfile.TemporaryDirectory() as top:
        folders = []
        for number, text in enumerate(sources):
            folder = os.path.join(top, str(number))
            os.mkdir(folder)
            with open(os.path.join(folder, 'A.java'), 'w') as file:
                file.write(text)
            folders.append(folder)
        names = os.path.join(top, 'folders')
        with open(names, 'w') as file:
            file.write('\n'.join(folders) + '\n')
        theirs = subprocess.run(['java', os.path.join(HERE, 'Compiles.java'), names], capture_output=True, text=True, check=True).stdout.split()
        ours = [subprocess.run([os.path.abspath(args.bin), folder, 'check'], capture_output=True, text=True).stdout == 'ok, files: 1\n' for folder in folders]
    different = [(text, mine) for text, mine, its in zip(sources, ours, theirs, strict=True) if mine != (its == 'true')]
    for text, mine in different[:10]:
        print(f'check says {"ok" if mine else "not ok"}: {text}', end='')
    print(f'{args.count} sources, {sum(ours)} compile, {len(different)} differ')
    return 1 if different else 0


if __name__ == '__main__':
    sys.exit(main())
