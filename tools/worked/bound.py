#!/usr/bin/env python3
"""Binds the worked programs (programs.txt) by the code, and compares each table with what is written there.

  bound.py [--bin PATH]

PATH is the program of bound.txt, built; without it `tools/unproved.py` builds one, with tests in place of the proofs. Programs on cycles are to have one, and all others none. Differences are shown, and the
exit status is 1 where there is one.
"""
import argparse
import os
import re
import subprocess
import sys
import tempfile

HERE = os.path.dirname(os.path.abspath(__file__))
sys.path.insert(0, HERE)
import rows as worked


def sources(program, marked):
    """The texts of the units: with the marks, from which the rows are read as programs.txt counts them, or without."""
    if marked:
        return program.sources()
    return ['package java.lang; ' + program.lang] + [re.sub(r'/\*(\d+)\*/', ' ', text) for _, text in program.units]


def answers(binary, programs):
    data = b''.join(b''.join(text.encode() + b'\0' for text in sources(program, marked)) + b'\1' for program in programs for marked in (True, False))
    said = subprocess.run([binary], input=data, stdout=subprocess.PIPE, check=True).stdout.decode()
    blocks = [block.split('\n') for block in said.split('\n.\n')]
    return [(blocks[2 * k], blocks[2 * k + 1]) for k in range(len(programs))]


def rows_of(block):
    found = []
    for line in block:
        if line.startswith('R '):
            _, parent, name, label = line.split(' ', 3)
            found.append((int(parent), '' if name == '-' else name, worked.parse_debug(label)))
    return worked.Rows([found])


def differences(program, wants_cycle, marked, plain):
    """What the code says otherwise."""
    cycle = next((line for line in plain if line.startswith('C ')), None)
    if wants_cycle or cycle:
        return [] if wants_cycle and cycle else ['a cycle' if cycle else 'no cycle']
    rows = rows_of(marked)
    wanted = dict(worked.table_of(program, rows)[1])
    found = {int(at): target for _, at, target in (line.split(' ', 2) for line in plain if line.startswith('T '))}
    return ['row %d %s: %s, and not %s' % (at, rows.name[at], found.get(at, 'Unbound'), wanted.get(at, 'Unbound')) for at in sorted({*found, *wanted}) if found.get(at, 'Unbound') != wanted.get(at, 'Unbound')]


def main():
    parser = argparse.ArgumentParser(description=__doc__, formatter_class=argparse.RawDescriptionHelpFormatter)
    parser.add_argument('--bin')
    args = parser.parse_args()
    groups = worked.read_programs(os.path.join(HERE, 'programs.txt'))
    programs = [(program, group[0] == worked.CYCLES) for group in groups for program in group[2]]
    with tempfile.TemporaryDirectory() as folder:
        binary = args.bin or os.path.join(folder, 'bound')
        if not args.bin:
            subprocess.run([sys.executable, os.path.join(HERE, '..', 'unproved.py'), os.path.join(HERE, 'bound.txt'), binary], check=True)
        wrong = 0
        for (program, wants_cycle), (marked, plain) in zip(programs, answers(binary, [program for program, _ in programs])):
            for line in differences(program, wants_cycle, marked, plain):
                wrong += 1
                print(program.number, program.name, line)
    print('%d programs, %d differences' % (len(programs), wrong))
    return 1 if wrong else 0


if __name__ == '__main__':
    sys.exit(main())
