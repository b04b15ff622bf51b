#!/usr/bin/env python3
"""Holds the binding against javac: each identifier of random programs is to have the declaration that the compiler gives.

  names.py --many MANY --classes DIR [--count N] [--seed S] [--steps N] [--seconds T] [--cases FILE]

MANY is the program of many.txt, DIR is as for change.py. First come the programs of FILE (cases/names.txt), then random ones, which are made by small.py and taken where javac compiles them. With --steps each is also run, for at
most so many steps, and is to print what java prints. Programs that the check does not accept are counted by what it says, and shown. Differences are shown, and the exit status is 1 where there is one.
"""
import argparse
import collections
import os
import random
import re
import sys
import time

import change
import many
import runs
import small


def said_by_javac(block):
    """By unit and offset, whether a constructor is called there: kind and declaration."""
    found = {}
    for line in block:
        if line.startswith('R '):
            _, unit, at, kind, _, name, target = line.split(' ', 6)
            found[int(unit), int(at), kind == 'ctor'] = (kind, name, target)
    return found


def as_javac(declared):
    """A declaration of ours in the form of javac's."""
    if declared == 'Package':
        return 'pkg'
    if declared == 'ArrayLength' or declared.startswith('ext:'):
        return 'ext'
    if declared.startswith('dflt '):
        _, unit, at = declared.split(' ')
        return 'dflt/d/%s/%s' % (unit, at)
    return declared


def plain(target):
    return 'pkg' if target.startswith('pkg:') else 'ext' if target.startswith(('ext:', 'dflt/ext:')) else target


def outer_name(declared, target):
    """Whether a declaration of the prelude has the name of javac's."""
    ours, theirs = declared.partition(':')[2], target.rpartition('.')[2].partition('(')[0]
    return declared == 'ArrayLength' or ours == '-' or '(' in target and '.' in target.partition('(')[2] or ours == theirs or ours == ''


def compare(files, block, answer, counts):
    """The differences between what javac says of names and what we say."""
    javac, wrong, seen = said_by_javac(block), [], set()
    for unit, at, kind, name, declared in answer.names:
        if kind in ('implicit', 'constructor'):
            continue
        key = (unit, at, kind in ('new', 'call'))
        seen.add(key)
        said = javac.get(key)
        if said is None or said[2] == '-':
            counts['names of which javac says nothing'] += 1
            continue
        counts['names: ' + said[0]] += 1
        if as_javac(declared) != plain(said[2]) or as_javac(declared) == 'ext' and not outer_name(declared, said[2]):
            wrong.append((unit, at, name, declared, said[2]))
    for (unit, at, is_call), (kind, name, target) in javac.items():
        if (unit, at, is_call) not in seen and target != '-' and not (kind == 'ctor' and not files[unit][1].startswith(name, at)):
            if kind == 'pkg' and files[unit][1].rfind('package', 0, at) > files[unit][1].rfind(';', 0, at):
                continue
            wrong.append((unit, at, name, 'nothing', target))
    return wrong


def same_run(answer, output):
    text, end = runs.split(runs.printed_by_run(answer.run))
    state, printed = output
    if end == '-- running' or state in ('late', 'StackOverflowError'):
        return 'not to its end'
    if printed and not printed.endswith('\n'):
        printed += '\n'
    return 'same, ' + re.sub(' .*', '', end[3:]) if text == printed else 'DIFFERS'


class Trial:
    def __init__(self, args):
        self.args, self.counts, self.wrong = args, collections.Counter(), 0

    def show(self, what, files):
        print('##### ' + what + '\n' + ''.join('--- %s\n%s' % (p, t) for p, t in files), flush=True)

    def judge(self, files, block, answer):
        if answer.fault:
            self.counts['not accepted: ' + re.sub(r'\d+', '_', answer.fault)] += 1
            self.show('not accepted: ' + answer.fault, files)
            return
        self.counts['programs'] += 1
        found = compare(files, block, answer, self.counts)
        for unit, at, name, ours, theirs in found:
            self.counts['DIFFER'] += 1
            print('##### %s:%d %s: ours %s, javac %s' % (files[unit][0], at, name, ours, theirs))
        if found:
            self.wrong += 1
            self.show('program', files)
        output = change.Facts(files, block).output if self.args.steps else None
        if output:
            what = same_run(answer, output) if answer.run is not None else 'no run'
            self.counts['run: ' + what] += 1
            if what == 'DIFFERS':
                self.wrong += 1
                self.show('java %s\n%s## run\n%s' % (output[0], output[1], answer.run), files)

    def batch(self, found):
        for (files, block), answer in zip(found, many.answers(self.args.many, [f for f, _ in found], self.args.steps)):
            self.judge(files, block, answer)


# The marks of programs of the file: what is refused, and by whom.
MARKS = {'': '', '~': ' that are refused by a choice', '!': ' that both refuse'}


def cases(path):
    """The programs of the file: name, mark, files."""
    with open(path) as file:
        parts = re.split(r'^==== ', file.read(), flags=re.M)[1:]
    for part in parts:
        head, _, rest = part.partition('\n')
        texts = re.split(r'^--- (\S+)\n', rest, flags=re.M)[1:]
        mark = head[0] if head[0] in MARKS else ''
        yield head.removeprefix(mark).strip(), mark, sorted(zip(texts[::2], texts[1::2]))


def try_cases(trial, javac, path):
    """Those of the file, each as its mark says."""
    for name, mark, files in cases(path):
        block = javac.ask(files, 'names')
        answer = many.answers(trial.args.many, [files], 0)[0]
        errors = [line for line in block if line.startswith('E ')]
        if bool(errors) != (mark == '!') or bool(answer.fault) != bool(mark):
            trial.wrong += 1
            trial.show('case %s: ours %s, javac %s' % (name, answer.fault or 'ok', errors or 'ok'), files)
        elif not mark:
            trial.judge(files, block, answer)
        trial.counts['cases' + MARKS[mark]] += 1


def programs(args, javac, counts):
    """Random programs that javac compiles, each with what it says."""
    how = 'run' if args.steps else 'names'
    number = 0
    while number < args.count:
        files = small.Small(random.Random(args.seed * 1000003 + counts['tried'])).program()
        counts['tried'] += 1
        block = javac.ask(files, how)
        if not any(line.startswith('E ') for line in block):
            number += 1
            yield files, block


def main():
    parser = argparse.ArgumentParser(description=__doc__, formatter_class=argparse.RawDescriptionHelpFormatter)
    parser.add_argument('--many', required=True)
    parser.add_argument('--classes', required=True)
    parser.add_argument('--count', type=int, default=200)
    parser.add_argument('--seed', type=int, default=1)
    parser.add_argument('--steps', type=int, default=0)
    parser.add_argument('--seconds', type=float, default=1e9)
    parser.add_argument('--cases', default=os.path.join(os.path.dirname(os.path.abspath(__file__)), 'cases', 'names.txt'))
    args = parser.parse_args()
    javac, trial, found, end = change.Javac(args.classes), Trial(args), [], time.time() + args.seconds
    try_cases(trial, javac, args.cases)
    for one in programs(args, javac, trial.counts):
        found.append(one)
        if len(found) == 100:
            trial.batch(found)
            found = []
        if time.time() > end:
            break
    trial.batch(found)
    javac.close()
    for what, count in sorted(trial.counts.items()):
        print('%7d  %s' % (count, what))
    return 1 if trial.wrong else 0


if __name__ == '__main__':
    sys.exit(main())
