"""Holds the reports `refs` and `subtypes` against javac on random programs.

  reports.py --bin REFACTOR --classes DIR [--count N] [--seed S] [--each K]

DIR is as for change.py. Of each program K declarations are asked for; differences are shown, and the exit status is 1 where there is one.
"""
import argparse
import collections
import random
import shutil
import sys

import change


def places(facts, pairs):
    return [f'{facts.files[unit][0]}:{at}' for unit, at in sorted(set(pairs))]


def references(facts, decl):
    """Where the declaration is referred to; the name of a constructor refers to its class."""
    target = 'd/%d/%d' % decl[:2]
    found = [(r[0], r[1]) for r in facts.refs if r[5] == target and r[2] != 'ctor']
    found += [d[:2] for d in facts.decls if d[2] == 'CONSTRUCTOR' and change.owner(facts, d) == decl]
    return places(facts, found)


def subtypes(facts, block, decl):
    target = 'd/%d/%d' % decl[:2]
    lows = [line.split(' ')[1] for line in block if line.startswith('S ') and line.split(' ')[2] == target]
    return places(facts, [tuple(map(int, low.split('/')[1:])) for low in lows])


def main():
    parser = argparse.ArgumentParser(description=__doc__, formatter_class=argparse.RawDescriptionHelpFormatter)
    parser.add_argument('--bin', required=True)
    parser.add_argument('--classes', required=True)
    parser.add_argument('--count', type=int, default=20)
    parser.add_argument('--seed', type=int, default=1)
    parser.add_argument('--each', type=int, default=8)
    args = parser.parse_args()
    args.others, args.moves, args.found, args.kept = [], 0, '/dev/stdout', '/dev/null'
    trials, wrong, counts = change.Trials(args), 0, collections.Counter()
    for n in range(args.count):
        rng = random.Random(args.seed * 100003 + n)
        facts = change.make(trials.javac, rng, collections.Counter())
        if facts is None:
            continue
        block = trials.javac.ask(facts.files)
        trials.fill(facts.files)
        decls = [d for d in facts.decls if d[2] != 'CONSTRUCTOR']
        for decl in rng.sample(decls, min(args.each, len(decls))):
            asked = [('refs', references(facts, decl))]
            if decl[2] in ('CLASS', 'INTERFACE'):
                asked.append(('subtypes', subtypes(facts, block, decl)))
            for word, wanted in asked:
                said, status, err, _ = trials.refactor(word, facts.files[decl[0]][0], str(decl[1]))
                counts[f'{word}, status {status}'] += 1
                if said != ''.join(p + '\n' for p in wanted) + f'-- {len(wanted)}\n' or err:
                    wrong += 1
                    print(f'##### {word} {facts.files[decl[0]][0]} {decl[1]}: {said!r} {err[:300]}\nwanted {wanted}')
                    print(''.join(f'--- {p}\n{t}' for p, t in facts.files))
    trials.javac.close()
    shutil.rmtree(trials.folder)
    for what, count in sorted(counts.items()):
        print('%6d  %s' % (count, what))
    print(f'{wrong} differ')
    return 1 if wrong else 0


if __name__ == '__main__':
    sys.exit(main())
