"""Every request on programs that are written by hand, judged by javac and java.

  every.py --bin REFACTOR --classes DIR [--programs FILE] [--only NAME,..] [--kinds KIND,..] [--found FILE] [--refused FILE]

FILE (cases/every.txt) has programs, each begun by a line `==== NAME`, with its files each begun by a line `--- PATH`. DIR is as for change.py. A program that javac compiles is
checked and run, and then each request is made in it: each declaration renamed to each name of the program and to a fresh one, each type moved to each
package, each declaration deleted, each member type lifted, each method pulled up, each local inlined, each run of statements extracted, the first run of each
block extracted under the name of each method (`named`), each package renamed.
An answer `done` is right where the changed program compiles, prints the same and, for a rename or a move, each name refers to what it referred to; an undo
gives back the bytes. Which of several abstract methods of one signature a call finds javac chooses by the names of their types, so a rename that changes that alone
is shown as a difference and is none. A program that javac refuses has to be refused by `check`. Refusals are written to the file of --refused, for a reader.
"""
import argparse
import os
import re
import shutil
import sys

import change


def programs(path):
    with open(path, newline='') as f:
        text = f.read()
    for part in re.split(r'^==== ', text, flags=re.M)[1:]:
        head, _, rest = part.partition('\n')
        files = re.split(r'^--- (\S+)\n', rest, flags=re.M)[1:]
        yield head.strip(), sorted(zip(files[::2], files[1::2]))


def runs_of(text):
    """Spans that may be runs of statements: from a token behind `{`, `}`, `;`, `:` or `)` to a `;` or `}` whose brackets match."""
    tokens = [(m.start(), m.end(), m.group()) for m in change.TOKEN.finditer(text) if not m.group().isspace() and not m.group().startswith(('//', '/*'))]
    for n in range(1, len(tokens)):
        if tokens[n - 1][2] not in ('{', '}', ';', ':', ')', 'else', 'do') or tokens[n][2] in ('}', 'case', 'default', ')', 'else', 'catch', 'finally'):
            continue
        depth = 0
        for start, end, word in tokens[n:]:
            depth += word in ('{', '(', '[')
            depth -= word in ('}', ')', ']')
            if depth < 0:
                break
            if depth == 0 and word in (';', '}'):
                yield tokens[n][0], end


def first_runs(text):
    """The first run of each block."""
    blocks = set()
    for start, end in runs_of(text):
        block = text.rfind('{', 0, start)
        if block not in blocks:
            blocks.add(block)
            yield start, end


class Every(change.Trials):
    def __init__(self, args):
        super().__init__(args)
        self.refused = open(args.refused, 'w') if args.refused else None
        self.name = ''

    def found(self, what, files, words, line, detail=''):
        super().found(what + ' in ' + self.name, files, words, line, detail)

    def one(self, old, words, what):
        self.fill(old.files)
        line, status, err, took = self.refactor(*words)
        self.counts[words[0] + ' ' + re.sub(r'[\w/.$]+\.java:\d+|prelude', 'P', line.strip())] += 1
        left = change.read_folder(self.folder)
        before = dict(old.files)
        if err.strip() or status not in (0, 2, 3, 4, 5, 6, 9, 13) or line.startswith('differs') or took > 5:
            self.found('answer', old.files, words, line, 'status %d %.1f s %s' % (status, took, err[:400]))
            return
        if status:
            if left != before:
                self.found('refused but files changed', old.files, words, line)
            if what[0] == 'rename':
                self.refused_rename(old, what, words, line)
            elif self.refused and status != 2:
                at = int(words[2]) if len(words) > 2 and words[2].isdigit() else 0
                spot = dict(old.files).get(words[1], '')[at:at + 40].split('\n')[0]
                if words[0] == 'extract':
                    spot = dict(old.files)[words[1]][int(words[2]):int(words[3])].replace('\n', ' ')
                shown = re.sub(r'([\w/.]+\.java):(\d+)', lambda m: m.group() + '[' + dict(old.files).get(m.group(1), '')[int(m.group(2)):int(m.group(2)) + 12].split('\n')[0] + ']', line.strip())
                print('%s: %s `%s` -> %s' % (self.name, ' '.join(words), spot, shown), file=self.refused)
            return
        changed = len([p for p in set(left) | set(before) if left.get(p) != before.get(p)])
        if line.strip() != 'done, files changed: %d' % changed:
            self.found('count', old.files, words, line, 'changed %d' % changed)
        if changed:
            undone = self.refactor('undo')
            if change.read_folder(self.folder) != before:
                self.found('undo', old.files, words, undone[0])
        new_files = sorted(left.items())
        new = change.Facts(new_files, self.javac.ask(new_files, 'run'))
        empty = {m.group(1) for m in map(change.EMPTY.search, new.errors) if m}
        if empty:
            new_files = change.without_imports(new_files, empty)
            new = change.Facts(new_files, self.javac.ask(new_files, 'run'))
        if new.errors:
            self.found('does not compile', old.files, words, line, ' '.join(new.errors[:2]) + '\n' + change.diff(before, left))
            return
        if what[0] == 'rename':
            self.done_rename(old, new, what, words, line, before, left)
        elif what[0] == 'move':
            self.done_move(old, new, what, words, line, before, left)
        if old.output != new.output and 'late' not in (old.output[0], new.output[0]):
            self.found('prints otherwise', old.files, words, line, '%s / %s\n' % (old.output, new.output) + change.diff(before, left))

    def requests(self, old, kinds):
        files = old.files
        packages = sorted({change.package_of(t) for _, t in files})
        pool = sorted({n for _, t in files for _, n in change.identifiers(t)} - {'println', 'main', 'Main'})
        if 'rename' in kinds:
            for decl in old.decls:
                if decl[3] in ('main', 'Main') or decl[2] == 'CONSTRUCTOR':
                    continue
                target = 'd/%d/%d' % decl[:2]
                for name in pool + ['fresh']:
                    if name != decl[3]:
                        yield ['rename', files[decl[0]][0], str(decl[1]), name], ('rename', target, decl, name)
        for top, unit in old.tops if 'move' in kinds else []:
            if top == 'Main':
                continue
            decl = next(d for d in old.decls if d[4] == top)
            for package in sorted(set([p or '-' for p in packages] + ['fresh', '-'] + [n for n in pool if len(n) < 3])):
                yield ['move', files[unit][0], str(decl[1]), package], ('move', top, unit, package, decl)
        for decl in old.decls:
            if decl[4] == 'Main' and decl[3] in ('main', 'Main'):
                continue
            at = [files[decl[0]][0], str(decl[1])]
            if 'inline' in kinds and decl[2] == 'LOCAL_VARIABLE':
                yield ['inline'] + at, ('inline',)
            if 'pullup' in kinds and decl[2] == 'METHOD':
                yield ['pullup'] + at, ('pullup',)
            if 'lift' in kinds and decl[2] in ('CLASS', 'INTERFACE'):
                yield ['lift'] + at, ('lift',)
            if 'delete' in kinds:
                yield ['delete'] + at, ('delete',)
        for path, text in files if 'extract' in kinds else []:
            for start, end in runs_of(text):
                yield ['extract', path, str(start), str(end), 'fresh'], ('extract',)
        methods = sorted({d[3] for d in old.decls if d[2] == 'METHOD'} | {'toString', 'equals', 'hashCode'})
        for path, text in files if 'named' in kinds else []:
            for start, end in first_runs(text):
                for name in methods:
                    yield ['extract', path, str(start), str(end), name], ('extract',)
        for package in packages if 'repackage' in kinds else []:
            for other in sorted(set([p for p in packages if p] + ['fresh'] + [n for n in pool if len(n) < 3])):
                if package and other != package:
                    yield ['repackage', package, other], ('repackage',)

    def program(self, files, kinds):
        old = change.Facts(files, self.javac.ask(files, 'run'))
        self.fill(files)
        said = self.refactor('check')
        if old.errors:
            print('%s: javac: %s / check: %s' % (self.name, old.errors[0], said[0].strip()))
            return
        if said[1]:
            print('%s: compiles / check: %s' % (self.name, said[0].strip()))
            return
        if old.output and 'run' in kinds:
            text = self.refactor('run', 'Main', '1000000')[0]
            head, _, end = text.rstrip('\n').rpartition('\n')
            head += '\n' if head else ''
            printed = old.output[1] + ('\n' if old.output[1] and not old.output[1].endswith('\n') else '')
            if re.sub(r'[\w.$]+@[0-9a-f]+', '@', head) != printed:
                self.found('run', files, ['run'], text, str(old.output))
        for words, what in self.requests(old, kinds):
            self.one(old, words, what)


def main():
    parser = argparse.ArgumentParser(description=__doc__, formatter_class=argparse.RawDescriptionHelpFormatter)
    parser.add_argument('--bin', required=True)
    parser.add_argument('--classes', required=True)
    parser.add_argument('--programs', default=os.path.join(os.path.dirname(os.path.abspath(__file__)), 'cases', 'every.txt'))
    parser.add_argument('--only', type=lambda words: words.split(','))
    parser.add_argument('--kinds', type=lambda words: words.split(','), default='run,rename,move,inline,pullup,lift,delete,extract,named,repackage'.split(','))
    parser.add_argument('--found', default='/dev/stdout')
    parser.add_argument('--refused')
    args = parser.parse_args()
    args.kept, args.others, args.moves = '/dev/null', [], 0
    every = Every(args)
    for name, files in programs(args.programs):
        if args.only is None or name in args.only:
            every.name = name
            every.program(files, args.kinds)
    every.javac.close()
    shutil.rmtree(every.folder)
    for what, count in sorted(every.counts.items()):
        print('%6d  %s' % (count, what))
    return 1 if every.bugs else 0


if __name__ == '__main__':
    sys.exit(main())
