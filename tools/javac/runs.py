"""Holds `run` against java, on random programs.

  runs.py --bin REFACTOR --classes DIR [--count N] [--seed S] [--steps N] [--seconds T]

DIR is as for change.py. Each program prints, ends or throws; `run` is to print the same and to end alike. Identity hashes are left out of both texts. Programs
that the check does not accept are shown; they and those that the steps do not suffice for are counted apart. Differences are shown, and the exit status is 1 where there is one.
"""
import argparse
import collections
import random
import re
import sys
import time

import change


def split(text):
    """What was printed, and the last line of `run`."""
    head, _, end = text.rstrip('\n').rpartition('\n')
    return head + '\n' if head else '', end


def printed_by_run(text):
    return re.sub(r'[\w.$]+@[0-9a-f]+', '@', text)


def main():
    parser = argparse.ArgumentParser(description=__doc__, formatter_class=argparse.RawDescriptionHelpFormatter)
    parser.add_argument('--bin', required=True)
    parser.add_argument('--classes', required=True)
    parser.add_argument('--count', type=int, default=50)
    parser.add_argument('--seed', type=int, default=1)
    parser.add_argument('--steps', type=int, default=1000000)
    parser.add_argument('--seconds', type=float, default=1e9)
    args = parser.parse_args()
    args.others, args.moves, args.found, args.kept = [], 0.3, '/dev/stdout', '/dev/null'
    trials, wrong, counts, end_time = change.Trials(args), 0, collections.Counter(), time.time() + args.seconds
    for n in range(args.count):
        if time.time() > end_time:
            break
        facts = change.make(trials.javac, random.Random(args.seed * 100003 + n), collections.Counter())
        if not facts or not facts.output:
            counts['none'] += 1
            continue
        trials.fill(facts.files)
        said, status, _, _ = trials.refactor('run', 'Main', str(args.steps))
        if status:
            counts[said.split(':')[0].strip()] += 1
            print(f'##### program {n}: {said}' + ''.join(f'--- {p}\n{t}' for p, t in facts.files))
            continue
        text, end = split(printed_by_run(said))
        if end == '-- running':
            counts[end] += 1
            continue
        state, output = facts.output
        if output and not output.endswith('\n'):
            output += '\n'
        if text == output:
            counts[f'same: {state} / {re.sub(" .*", "", end[3:])}'] += 1
        else:
            counts['DIFFERS'] += 1
            wrong += 1
            print(f'##### program {n}: java {state}\n{output}##### run {end}\n{text}' + ''.join(f'--- {p}\n{t}' for p, t in facts.files))
    for key, count in sorted(counts.items()):
        print(f'{count:6} {key}')
    trials.javac.close()
    sys.exit(1 if wrong else 0)


if __name__ == '__main__':
    main()
