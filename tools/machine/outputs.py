#!/usr/bin/env python3
"""Runs `java` on each case and compares what it prints with the kept output.

    tools/machine/outputs.py [--write]

`cases/NAME.out` is what `java` prints, with a last line on how the run ended. `cases/NAME.machine` stands where the reference
machine is to end or to order differently; the case's comment says why. With `--write` the outputs are kept anew.
"""
import argparse
import os
import re
import subprocess
import sys
import tempfile

HERE = os.path.dirname(os.path.abspath(__file__))
CASES = os.path.join(HERE, 'cases')


def names():
    return sorted(file[:-len('.java')] for file in os.listdir(CASES) if file.endswith('.java'))


def ending(errors):
    """How a run ended, by what it printed on standard error."""
    if not errors:
        return '== ended'
    thrown = re.match(r'Exception in thread "main" ([\w.$]+)', errors).group(1)
    if thrown != 'java.lang.ExceptionInInitializerError':
        return f'== uncaught {thrown}'
    return '== initialization failed ' + re.search(r'at ([\w.$]+)\.<clinit>', errors).group(1)


def printed(classes, name):
    run = subprocess.run(['java', '-cp', classes, f'cases.{name}'], capture_output=True, text=True, check=False)
    return run.stdout + ending(run.stderr) + '\n'


def compiled(folder):
    files = [os.path.join(CASES, f'{name}.java') for name in names()]
    subprocess.run(['javac', '-nowarn', '-Xlint:none', '-d', folder] + files, check=True)


def main():
    parser = argparse.ArgumentParser()
    parser.add_argument('--write', action='store_true')
    write = parser.parse_args().write
    differ = 0
    with tempfile.TemporaryDirectory() as folder:
        compiled(folder)
        for name in names():
            out = os.path.join(CASES, f'{name}.out')
            now = printed(folder, name)
            if write:
                with open(out, 'w') as file:
                    file.write(now)
            elif open(out).read() != now:
                differ += 1
                print(f'{name} differs')
    print(f'{len(names())} cases, {differ} differ')
    sys.exit(1 if differ else 0)


if __name__ == '__main__':
    main()
