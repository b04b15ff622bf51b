#!/usr/bin/env python3
"""Times the lexer and the parser on ASCII texts by a program of its own (lex.txt), which lexes a text many times, parses its tokens where they are a unit, and drops all of it each time.

    bench/lex.py [--bin PATH] [--instructions]

PATH is that program, built; without it `tools/unproved.py` builds one, with tests in place of the proofs. Each line says the rate in
megabytes a second, of the quickest time; a file may have 1 MiB. With --instructions it also says the instructions that a byte takes, counted by valgrind, which
are the same beside other work.
"""
import argparse
import os
import re
import subprocess
import sys
import tempfile

HERE = os.path.dirname(os.path.abspath(__file__))
sys.path.insert(0, HERE)
from generated import OURS
# A method of a class that is a unit by itself.
METHODS = (b'int f(int a, long b) { if (a < 12) { return g(a + 1, b * 2)[a].c; } else { x = (int) b; } for (int i = 0; i < 9; i++) { y[i] += a; } }\n')


def lexed(command, text, times):
    # as the script `refactor` runs the program
    return subprocess.run(command, input=b'%d\n' % times + text, capture_output=True, check=True, env=OURS)


def instructions(binary, text):
    def all_of(times):
        done = lexed(['valgrind', '--tool=callgrind', '--callgrind-out-file=/dev/null', binary], text, times)
        return int(re.search(rb'Collected : (\d+)', done.stderr).group(1))
    return (all_of(3) - all_of(1)) / 2 / len(text)


def main():
    parser = argparse.ArgumentParser(description=__doc__, formatter_class=argparse.RawDescriptionHelpFormatter)
    parser.add_argument('--bin')
    parser.add_argument('--instructions', action='store_true')
    args = parser.parse_args()
    with open(os.path.join(HERE, '..', 'examples', 'shop', 'shop', 'Cart.java'), 'rb') as file:
        cart = file.read()
    texts = [('source', cart, 65_000), ('source', cart, 1_000_000), ('source', cart, 4_000_000), ('class', METHODS, 65_000), ('class', METHODS, 1_000_000), ('words', b'identifier ', 65_000), ('literals', b'"a literal of some length",\n', 65_000),
             ('comments', b'/* a comment of some length */\n', 65_000)]
    with tempfile.TemporaryDirectory() as folder:
        binary = args.bin or os.path.join(folder, 'lex')
        if not args.bin:
            subprocess.run([sys.executable, os.path.join(HERE, '..', 'tools', 'unproved.py'), os.path.join(HERE, 'lex.txt'), binary, '-O', '2'], check=True)
        for name, piece, size in texts:
            text = piece * (size // len(piece))
            if name == 'class':
                text = b'class A {\n' + text + b'}\n'
            length, tokens, nanos, parsed = map(int, lexed([binary], text, 20_000_000 // len(text)).stdout.split())
            line = f'{name}: {length} bytes, {tokens} tokens, {length * 1000 / nanos:.1f} MB/s'
            if name == 'class':
                line += f', parsed at {length * 1000 / parsed:.1f} MB/s'
            if args.instructions and size < 1_000_000:
                line += f', {instructions(binary, text):.1f} instructions a byte'
            print(line, flush=True)


main()
