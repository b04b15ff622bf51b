"""Holds batches against the same requests one after the other, on random programs.

  batches.py --bin REFACTOR --classes DIR [--count N] [--seed S] [--length K]

DIR is as for change.py. A batch is to leave what its requests leave one after the other, and where one of them is refused, the files as found and the same
line with its number. Differences are shown, and the exit status is 1 where there is one.
"""
import argparse
import collections
import json
import random
import shutil
import subprocess
import sys

import change


def as_json(words):
    request = {'do': words[0], 'file': words[1], 'at': int(words[2])}
    request['name' if words[0] == 'rename' else 'package'] = words[3]
    return request


def one_by_one(trials, rng, facts, length):
    """Requests, each chosen for what the one before has left; the answer that is to come, and the files."""
    before, requests = dict(facts.files), []
    trials.fill(facts.files)
    for number in range(1, length + 1):
        words, _ = trials.request(rng, facts)
        requests.append(as_json(words))
        said, status, _, _ = trials.refactor(*words)
        if status == 3 and number == 1:
            return None
        if status:
            return requests, f'request {number}: {said}', before
        files = sorted(change.read_folder(trials.folder).items())
        facts = change.Facts(files, trials.javac.ask(files))
    left = dict(facts.files)
    changed = sum(left.get(p) != before.get(p) for p in set(left) | set(before))
    return requests, f'done, files changed: {changed}\n', left


def main():
    parser = argparse.ArgumentParser(description=__doc__, formatter_class=argparse.RawDescriptionHelpFormatter)
    parser.add_argument('--bin', required=True)
    parser.add_argument('--classes', required=True)
    parser.add_argument('--count', type=int, default=50)
    parser.add_argument('--seed', type=int, default=1)
    parser.add_argument('--length', type=int, default=3)
    args = parser.parse_args()
    args.others, args.moves, args.found, args.kept = [], 0.3, '/dev/stdout', '/dev/null'
    trials, wrong, counts = change.Trials(args), 0, collections.Counter()
    for n in range(args.count):
        rng = random.Random(args.seed * 100003 + n)
        facts = change.make(trials.javac, rng, collections.Counter())
        wanted = facts and one_by_one(trials, rng, facts, args.length)
        if not wanted:
            continue
        requests, line, left = wanted
        trials.fill(facts.files)
        said = subprocess.run([args.bin, trials.folder, 'batch'], input=json.dumps(requests).encode(), stdout=subprocess.PIPE).stdout.decode()
        counts['done' if line.startswith('done') else 'refused'] += 1
        if said != line or change.read_folder(trials.folder) != left:
            wrong += 1
            print(f'##### {json.dumps(requests)}\n{said!r}, wanted {line!r}')
            print(''.join(f'--- {p}\n{t}' for p, t in facts.files))
    trials.javac.close()
    shutil.rmtree(trials.folder)
    for what, count in sorted(counts.items()):
        print('%6d  %s' % (count, what))
    print(f'{wrong} differ')
    return 1 if wrong else 0


if __name__ == '__main__':
    sys.exit(main())
