#!/usr/bin/env python3
"""Holds `check` on definite assignment against the marks of cases/assign.txt, and the marks against javac.

  assign.py [--bin PATH]      PATH is the built program refactor; javac is on the path

In that file `== NAME TITLE` begins a program, and a number in a comment stands before each token at which that rule is broken. The answer of
`check` is to be the first mark. javac, which names each variable once, is to name an error in each program with marks, and in no other, but for those
whose title says that javac differs, and why. Differences are shown, and the exit status is 1 where there is one.
"""
import argparse
import os
import re
import subprocess
import sys
import tempfile

HERE = os.path.dirname(os.path.abspath(__file__))


def programs(text):
    for part in re.split(r'(?m)^== ', text)[1:]:
        head, body = part.split('\n', 1)
        name, _, title = head.partition(' ')
        yield name, title, body.strip() + '\n'


def marks(body):
    return [(int(mark.group(1)), mark.end()) for mark in re.finditer(r'/\*(\d+)\*/', body)]


def wanted(name, body):
    for rule, at in marks(body)[:1]:
        return f'not compiling: rule {rule} {name}.java:{at}\n'
    return 'ok, files: 1\n'


def refused(folders):
    """The programs for which javac names an error, each in a folder of its own."""
    files = [os.path.join(folder, name + '.java') for name, folder in folders]
    with tempfile.TemporaryDirectory() as out:
        said = subprocess.run(['javac', '-proc:none', '-Xlint:none', '-Xmaxerrs', '1000', '-XDshould-stop.ifError=FLOW', '-d', out] + files,
                              stdout=subprocess.PIPE, stderr=subprocess.STDOUT, text=True).stdout
    return {os.path.basename(path) for path in re.findall(r'(?m)^(\S+)\.java:\d+: error: ', said)}


def main():
    parser = argparse.ArgumentParser()
    parser.add_argument('--bin')
    args = parser.parse_args()
    with open(os.path.join(HERE, 'cases', 'assign.txt')) as file:
        every = list(programs(file.read()))
    different = 0
    with tempfile.TemporaryDirectory() as top:
        folders = []
        for name, _, body in every:
            folder = os.path.join(top, name)
            os.mkdir(folder)
            with open(os.path.join(folder, name + '.java'), 'w') as file:
                file.write(body)
            folders.append((name, folder))
        theirs = refused(folders)
        for (name, folder), (_, title, body) in zip(folders, every):
            if (name in theirs) != bool(marks(body)) and 'javac differs' not in title:
                different += 1
                print(f'{name} {title}: javac', 'refuses it' if name in theirs else 'compiles it')
            if args.bin:
                ours = subprocess.run([os.path.abspath(args.bin), folder, 'check'], capture_output=True, text=True).stdout
                if ours != wanted(name, body):
                    different += 1
                    print(f'{name} {title}: wanted {wanted(name, body)!r}, found {ours!r}')
    print(f'programs: {len(every)}, different: {different}')
    sys.exit(1 if different else 0)


main()
