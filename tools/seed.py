#!/usr/bin/env python3
"""Proves crates as `rt ci NAME..` does, those first that others wait for; what passes is kept for the gate.

    seed.py [--first CRATE,..] [--but CRATE,..] [--memory MB] [CRATE..]

The crates are those named with all below them, or all; without those of --but and those above them, which are about to change. First come those of --first and what stands below them. It runs in a clone of its
own, beside other work, and tries no must-fail edits. `rt` starts as many checks as the memory holds that it thinks they may take; --memory (2200) is what each is thought to take at most, since most take less.
Nothing of what is proved depends on it: the proofs are kept under the sums of all that they read.
"""
import argparse
import os
import sys

sys.path.insert(0, os.path.dirname(os.path.realpath(__file__)))
from lay import TOP, load_rt

# more than the longest chain of crates has lines
AHEAD = 1_000_000


def users():
    """What each crate of the repository names."""
    found = {}
    with open(f'{TOP}/crates.txt', encoding='utf-8') as file:
        for line in file:
            name, _, rest = line.partition('#')[0].partition(':')
            if name.strip():
                found[name.split()[0]] = rest.split()
    return {name: [it for it in rest if it in found] for name, rest in found.items()}


def below(named, names):
    """These crates and those that they stand on."""
    found, left = set(), list(names)
    while left:
        name = left.pop()
        if name not in found:
            found.add(name)
            left += named[name]
    return found


def main():
    parser = argparse.ArgumentParser(description=__doc__, formatter_class=argparse.RawDescriptionHelpFormatter)
    parser.add_argument('--first', default='')
    parser.add_argument('--but', default='')
    parser.add_argument('--memory', type=int, default=2200)
    parser.add_argument('crates', nargs='*')
    args = parser.parse_args()
    os.chdir(TOP)
    named, rt = users(), load_rt()
    listed = lambda words: [it for it in words.split(',') if it]
    changing = set(listed(args.but))
    names = [it for it in named if not below(named, [it]) & changing and (not args.crates or it in args.crates)]
    first = below(named, listed(args.first))
    need, lanes = rt.need, rt.in_lanes
    rt.need = lambda crate: min(need(crate), args.memory * 1_000_000)
    rt.edits_of = lambda crate: ([], [])
    rt.in_lanes = lambda tasks: lanes({key: (waits, lines + AHEAD * (key[0] in first and key[1] == 'proof'), needs, call) for key, (waits, lines, needs, call) in tasks.items()})
    rt.main(['ci', *names])


if __name__ == '__main__':
    main()
