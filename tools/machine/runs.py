#!/usr/bin/env python3
"""Runs the program on each case, from its Java text, and compares what it prints with what the machine is to print.

    tools/machine/runs.py PROGRAM [NAME ..]

PROGRAM is the built `refactor`. What a case is to print stands in `cases/NAME.machine`, or else in `cases/NAME.out`. A case that the profile does
not have is `not compiling`, and counted apart.
"""
import argparse
import os
import re
import shutil
import subprocess
import sys
import tempfile

from outputs import CASES, names

STEPS = 1_000_000


def wanted(name):
    """What a case is to print, with the last line as `run` writes it."""
    path = os.path.join(CASES, name)
    with open(path + ('.machine' if os.path.exists(path + '.machine') else '.out')) as file:
        text = file.read()
    head, end = text.rsplit('== ', 1)
    end = re.sub(r'\(.*\)$', '', end.strip()).replace('initialization failed', 'init failed').replace('$', '.')
    return head + ('\n' if head and not head.endswith('\n') else '') + f'-- {end}\n'


def printed(program, name):
    with tempfile.TemporaryDirectory() as folder:
        os.mkdir(os.path.join(folder, 'cases'))
        shutil.copy(os.path.join(CASES, name + '.java'), os.path.join(folder, 'cases'))
        return subprocess.run([program, folder, 'run', 'cases.' + name, str(STEPS)], capture_output=True, text=True, check=False).stdout


def main():
    parser = argparse.ArgumentParser()
    parser.add_argument('program')
    parser.add_argument('names', nargs='*')
    given = parser.parse_args()
    same = differ = outside = 0
    for name in given.names or names():
        text = printed(os.path.abspath(given.program), name)
        if text == wanted(name):
            same += 1
        elif text.startswith('not compiling'):
            outside += 1
            print(f'{name}: {text.strip()}')
        else:
            differ += 1
            print(f'{name} prints\n{text}and is to print\n{wanted(name)}')
    print(f'{same} as wanted, {differ} differ, {outside} outside the profile')
    sys.exit(1 if differ else 0)


if __name__ == '__main__':
    main()
