"""Renames and moves of random programs, and other requests, judged by javac and java.

  change.py --bin REFACTOR --classes DIR --count N --seed S [--requests K] [--found FILE] [--kept FILE] [--moves SHARE] [--others KIND,..]

DIR holds Bindings.class, compiled with --add-exports jdk.compiler/com.sun.tools.javac.{tree,code}=ALL-UNNAMED. Each program is made by
small.py with a Main that prints, is taken where javac compiles it, and gets K random requests.
An answer `done` is right where the changed program compiles, each name refers to what it referred to, no name but references is touched, and the program
prints the same. A refusal is wrong where the names of the declaration can be replaced, and nothing else, with the same result. Each trial is a line of --kept.
With --others the requests are of these kinds (extract, inline, pullup, delete, lift, repackage); an answer `done` is right where the changed program
compiles and prints the same.
An import on demand of a package that has no units any more is no error here, as it is none for `refactor`; javac is asked again without it.
"""
import argparse
import base64
import collections
import json
import os
import random
import re
import resource
import shutil
import subprocess
import sys
import tempfile
import time

sys.path.insert(0, os.path.dirname(os.path.abspath(__file__)))
import small

WORDS = set('abstract assert boolean break byte case catch char class const continue default do double else enum extends final finally float for goto if implements '
            'import instanceof int interface long native new package private protected public return short static strictfp super switch synchronized this throw '
            'throws transient try void volatile while true false null'.split())
TOKEN = re.compile(r'"(?:\\.|[^"\\])*"|\'(?:\\.|[^\'\\])*\'|//[^\n]*|/\*.*?\*/|[A-Za-z_$][\w$]*|\d\w*|\s+|.', re.S)


def identifiers(text):
    return [(m.start(), m.group()) for m in TOKEN.finditer(text) if re.match(r'[A-Za-z_$]', m.group()) and m.group() not in WORDS]


# ---- javac

class Javac:
    def __init__(self, classes):
        self.command = ['java', '-Xss8m', '-Xmx700m', '-XX:+UseSerialGC', '-XX:TieredStopAtLevel=1',
                        '--add-exports', 'jdk.compiler/com.sun.tools.javac.tree=ALL-UNNAMED', '--add-exports', 'jdk.compiler/com.sun.tools.javac.code=ALL-UNNAMED',
                        '-cp', classes, 'Bindings']
        self.asked = 0
        self.process = None

    def ask(self, files, how=''):
        """files: list of (path, text); how: `run`, or `names` for names alone. The lines of Bindings."""
        self.asked += 1
        if self.process is None or self.asked % 3000 == 0:
            self.close()
            self.process = subprocess.Popen(self.command, stdin=subprocess.PIPE, stdout=subprocess.PIPE, stderr=subprocess.DEVNULL)
        out = [('%d%s\n' % (len(files), ' ' + how if how else '')).encode()]
        for path, text in files:
            data = text.encode()
            out.append(('%s\n%d\n' % (path, len(data))).encode() + data)
        self.process.stdin.write(b''.join(out))
        self.process.stdin.flush()
        block = []
        while True:
            line = self.process.stdout.readline().decode()
            if not line:
                raise SystemExit('javac ended')
            if line == '.\n':
                return block
            block.append(line.rstrip('\n'))

    def close(self):
        if self.process:
            self.process.stdin.close()
            self.process.wait()
            self.process = None


class Facts:
    """What javac says of a program."""

    def __init__(self, files, block):
        self.files = files
        self.errors = [l for l in block if l.startswith('E ')]
        self.decls, self.tops, self.refs, self.pairs, self.output = [], [], [], [], None
        self.unit_of_top = []
        top, self.by_top = None, collections.OrderedDict()
        for l in block:
            w = l.split(' ')
            if w[0] == 'U':
                top = ('unit', files[int(w[1])][0])
                self.by_top[top] = []
            elif w[0] == 'T':
                package = package_of(files[int(w[1])][1])
                top = (package + '.' if package else '') + w[2]
                self.by_top[top] = []
                self.tops.append((top, int(w[1])))
            elif w[0] == 'D':
                d = (int(w[1]), int(w[2]), w[3], w[4], top)
                self.decls.append(d)
            elif w[0] == 'R':
                r = (int(w[1]), int(w[2]), w[3], w[4], w[5], ' '.join(w[6:]))
                self.refs.append(r)
                self.by_top[top].append(r)
            elif w[0] == 'F':
                self.pairs.append((w[1], w[2]))
            elif w[0] == 'O':
                printed = base64.b64decode(w[2]).decode(errors='replace')
                self.output = (w[1], re.sub(r'[\w.$]+@[0-9a-f]+', '@', printed))
        count = collections.Counter()
        self.identity = {}
        for unit, at, kind, name, top in self.decls:
            self.identity['d/%d/%d' % (unit, at)] = (top, count[top])
            count[top] += 1

    def who(self, target, names):
        """The identity of a target: what does not change in a rename or move."""
        if target.startswith('dflt/'):
            return ('dflt',) + self.who(target[5:], names)
        if target in self.identity:
            top, n = self.identity[target]
            return (names.get(top, top), n)
        return (target,)

    def family(self, target):
        group, grew = {target}, True
        while grew:
            grew = False
            for a, b in self.pairs:
                if (a in group) != (b in group):
                    group |= {a, b}
                    grew = True
        return group


def package_of(text):
    m = re.match(r'(?:\s|/\*.*?\*/|//[^\n]*\n|;)*package\s+([\w.\s]+?)\s*;', text, re.S)
    return re.sub(r'\s', '', m.group(1)) if m else ''


def is_wanted(ref):
    """References that must be in the changed program too; qualifiers come and go."""
    return ref[2] != 'pkg' and ref[3] != 'q'


def is_extra(ref):
    return ref[2] == 'type' and ref[3] in ('this', 'cast')


def kept(old, new):
    """Whether new is old with some extra references put in; each is a list of (identity, is extra)."""
    reach = {0}
    for who, extra in new:
        after = {i + 1 for i in reach if i < len(old) and old[i] == who}
        if extra:
            after |= reach
        reach = after
        if not reach:
            return False
    return len(old) in reach


def compare(old, new, names, skipped):
    """A difference of bindings, or None. names: old names of top-level types to new ones."""
    for top, refs in old.by_top.items():
        if isinstance(top, tuple):
            other = ('unit', skipped.get(top[1], top[1]))
            if other[1] is None:
                continue
        else:
            other = names.get(top, top)
        if other not in new.by_top:
            return 'no %s' % (other,)
        a = [old.who(r[5], names) for r in refs if is_wanted(r)]
        b = [(new.who(r[5], {}), is_extra(r)) for r in new.by_top[other] if is_wanted(r)]
        if not kept(a, b):
            n = next((i for i, (x, y) in enumerate(zip(a, [w for w, _ in b])) if x != y), min(len(a), len(b)))
            return 'bindings of %s differ: %s / %s' % (top, a[n:n + 2], b[n:n + 2])
    return None


# ---- requests

def replaced(files, places, name):
    out = []
    for n, (path, text) in enumerate(files):
        for at, length in sorted(places.get(n, ()), reverse=True):
            text = text[:at] + name + text[at + length:]
        out.append((path, text))
    return out


def random_run(rng, text):
    """The offsets of some whole statements of a block, by lines: each statement of these programs has lines of its own."""
    lines, at, spots = text.split('\n'), 0, []
    for n, line in enumerate(lines):
        spots.append((n, at, line))
        at += len(line) + 1
    starts = [s for s in spots if re.match(r'    +\S', s[2]) and not re.match(r'\s+(}|case|default)', s[2])]
    if not starts:
        return None
    n, first, line = rng.choice(starts)
    depth, ends = 0, []
    for m, at, line in spots[n:n + 12]:
        for c in re.sub(r'"[^"]*"', '', line):
            depth += (c == '{') - (c == '}')
            if depth < 0:
                break
        if depth < 0:
            break
        if depth == 0:
            ends.append(at + len(line))
    return (first + len(lines[n]) - len(lines[n].lstrip()), rng.choice(ends)) if ends else None


def naive_rename(old, target, name):
    """The program in which the names of the declaration are replaced and nothing else, or None."""
    decl = next((d for d in old.decls if 'd/%d/%d' % d[:2] == target), None)
    if decl is None:
        return None
    if decl[2] == 'CONSTRUCTOR':
        return None
    group = old.family(target) if decl[2] == 'METHOD' else {target}
    if any(not g.startswith('d/') for g in group):
        return None
    places = collections.defaultdict(set)
    is_type = decl[2] in ('CLASS', 'INTERFACE')
    for g in group:
        _, unit, at = g.split('/')
        places[int(unit)].add((int(at), len(decl[3])))
    for r in old.refs:
        if r[5] in group and r[4] == decl[3]:
            places[r[0]].add((r[1], len(decl[3])))
    if is_type:
        n = old.decls.index(decl)
        for d in old.decls[n + 1:]:
            if d[2] == 'CONSTRUCTOR' and d[3] == decl[3] and d[0] == decl[0] and owner(old, d) == decl:
                places[d[0]].add((d[1], len(decl[3])))
    out = replaced(old.files, places, name)
    if is_type and decl[4].split('.')[-1] == decl[3] and is_top(old, decl):
        out = [(renamed_path(p, decl[3], name) if n == decl[0] else p, t) for n, (p, t) in enumerate(out)]
    return out


def is_top(old, decl):
    return old.identity['d/%d/%d' % decl[:2]][1] == 0


def owner(old, ctor):
    """The class of a constructor: the last class of that name before it is enough, since names of nested classes differ."""
    best = None
    for d in old.decls:
        if d[0] == ctor[0] and d[2] in ('CLASS', 'INTERFACE') and d[3] == ctor[3] and d[1] < ctor[1] and d[4] == ctor[4]:
            best = d
    return best


def renamed_path(path, old, new):
    folder, base = os.path.split(path)
    return os.path.join(folder, new + '.java') if base == old + '.java' else path


EMPTY = re.compile(r'^E \S+ \S+ package ([\w.]+) does not exist')


def without_imports(files, packages):
    """The files with blanks for imports on demand of these packages."""
    def blank(m):
        return ' ' * len(m.group()) if re.sub(r'\s', '', m.group(1)) in packages else m.group()
    return [(p, re.sub(r'\bimport\s+([\w.\s]+?)\.\s*\*\s*;', blank, t)) for p, t in files]


def read_folder(folder):
    out = {}
    for top, _, names in os.walk(folder):
        for n in names:
            p = os.path.join(top, n)
            r = os.path.relpath(p, folder)
            if r.endswith('.java'):
                with open(p, 'rb') as f:
                    out[r] = f.read().decode('utf-8', 'surrogateescape')
    return out


class Trials:
    def __init__(self, args):
        self.args, self.javac = args, Javac(args.classes)
        self.counts, self.bugs = collections.Counter(), 0
        self.folder = tempfile.mkdtemp(prefix='change')

    def fill(self, files):
        shutil.rmtree(self.folder)
        os.mkdir(self.folder)
        for path, text in files:
            p = os.path.join(self.folder, path)
            os.makedirs(os.path.dirname(p), exist_ok=True)
            with open(p, 'wb') as f:
                f.write(text.encode())

    def refactor(self, *words):
        start = resource.getrusage(resource.RUSAGE_CHILDREN).ru_utime
        r = subprocess.run([self.args.bin, self.folder] + list(words), stdout=subprocess.PIPE, stderr=subprocess.PIPE, timeout=300)
        return r.stdout.decode(errors='replace'), r.returncode, r.stderr.decode(errors='replace'), resource.getrusage(resource.RUSAGE_CHILDREN).ru_utime - start

    def found(self, what, files, words, line, detail=''):
        self.bugs += 1
        self.counts['BUG ' + what] += 1
        with open(self.args.found, 'a') as f:
            f.write('##### %s: %s\n$ %s\n%s%s\n' % (what, detail, ' '.join(words), line, ''.join('--- %s\n%s' % (p, t) for p, t in files)))

    def keep(self, files, words, line, note):
        with open(self.args.kept, 'a') as f:
            f.write(json.dumps({'files': files, 'words': words, 'line': line, 'note': note}) + '\n')

    def other_request(self, rng, old):
        """A request of another kind, or None."""
        files, kind = old.files, rng.choice(self.args.others)
        if kind == 'repackage':
            packages = sorted({package_of(t) for _, t in files} - {''})
            new = rng.choice(packages + ['fresh', 'n.m', 'p', 'a.b', 'p.q.r', 'A'])
            return (['repackage', rng.choice(packages), new], (kind,)) if packages else None
        if kind == 'extract':
            unit = rng.choice([n for n, (p, _) in enumerate(files) if p not in ('Main.java', 'z/Z.java')])
            run = random_run(rng, files[unit][1])
            name = rng.choice(['fresh', rng.choice(small.METHODS), rng.choice(small.FIELDS)])
            return (['extract', files[unit][0], str(run[0]), str(run[1]), name], (kind,)) if run else None
        wanted = {'inline': ('LOCAL_VARIABLE',), 'pullup': ('METHOD',), 'lift': ('CLASS', 'INTERFACE'), 'delete': ('METHOD', 'FIELD', 'CLASS', 'INTERFACE')}[kind]
        decls = [d for d in old.decls if d[2] in wanted and d[4] not in ('Main', 'z.Z') and (kind != 'lift' or not is_top(old, d))]
        if not decls:
            return None
        decl = rng.choice(decls)
        return [kind, files[decl[0]][0], str(decl[1])], (kind,)

    def request(self, rng, old):
        files = old.files
        if self.args.others:
            return self.other_request(rng, old)
        if rng.random() < self.args.moves:
            tops = [t for t in old.tops if t[0] not in ('Main', 'z.Z')]
            if tops:
                top, unit = rng.choice(tops)
                decl = next(d for d in old.decls if d[4] == top)
                package = rng.choice(['p', 'q', 'a', 'p.q', 'fresh', 'n.m', '-', 'z', 'A'])
                return ['move', files[unit][0], str(decl[1]), package], ('move', top, unit, package, decl)
        pool = sorted({n for _, t in files for _, n in identifiers(t)} - {'System', 'out', 'println', 'String', 'main'})
        spots = [(n, at, name) for n, (p, t) in enumerate(files) for at, name in identifiers(t) if name not in ('main', 'Main', 'System', 'out', 'println')]
        name = rng.choice(['fresh1', 'Fresh', rng.choice(pool), rng.choice(pool), rng.choice(pool), rng.choice(pool), rng.choice(small.FIELDS + small.TYPES + small.METHODS)])
        refs = {(r[0], r[1]): r[5] for r in old.refs if r[2] != 'ctor'}
        here = {(d[0], d[1]): 'd/%d/%d' % d[:2] for d in old.decls}
        spot = rng.choice(spots)
        target = here.get(spot[:2]) or refs.get(spot[:2]) or '-'
        decl = next((d for d in old.decls if 'd/%d/%d' % d[:2] == target), None)
        if decl and decl[2] == 'CONSTRUCTOR':
            decl = owner(old, decl)
            target = 'd/%d/%d' % decl[:2]
        return ['rename', files[spot[0]][0], str(spot[1]), name], ('rename', target, decl, name)

    def trial(self, rng, old):
        asked = self.request(rng, old)
        if asked is None:
            return
        words, what = asked
        self.fill(old.files)
        try:
            line, status, err, took = self.refactor(*words)
        except subprocess.TimeoutExpired:
            self.found('over 300 s', old.files, words, '')
            return
        self.counts[words[0] + ' ' + re.sub(r'[\w/.]+\.java:\d+|prelude', 'P', line.strip())] += 1
        self.keep(old.files, words, line, '')
        if err.strip() or status not in (0, 2, 3, 4, 5, 6, 9, 13) or line.startswith('differs'):
            self.found('answer', old.files, words, line, 'status %d %s' % (status, err[:400]))
            return
        if took > 10:
            self.found('slow', old.files, words, line, '%.1f s' % took)
        left = read_folder(self.folder)
        before = dict(old.files)
        if status == 3:
            self.counts['program: not accepted'] += 1
            return False
        if status != 0:
            if left != before:
                self.found('refused but files changed', old.files, words, line)
            if what[0] == 'rename':
                self.refused_rename(old, what, words, line)
            return
        changed = len([p for p in set(left) | set(before) if left.get(p) != before.get(p)])
        if line.strip() != 'done, files changed: %d' % changed:
            self.found('count', old.files, words, line, 'changed %d' % changed)
        new_files = sorted(left.items())
        new = Facts(new_files, self.javac.ask(new_files, 'run'))
        empty = {m.group(1) for m in map(EMPTY.search, new.errors) if m}
        if empty:
            self.counts['done with an import on demand of a package without units'] += 1
            new_files = without_imports(new_files, empty)
            new = Facts(new_files, self.javac.ask(new_files, 'run'))
        if new.errors:
            self.found('does not compile', old.files, words, line, ' '.join(new.errors[:2]) + '\n' + diff(before, left))
            return
        if what[0] == 'rename':
            self.done_rename(old, new, what, words, line, before, left)
        elif what[0] == 'move':
            self.done_move(old, new, what, words, line, before, left)
        if old.output != new.output and 'late' not in (old.output[0], new.output[0]) and 'StackOverflowError' not in (old.output[0], new.output[0]):
            self.found('prints otherwise', old.files, words, line, '%s / %s\n' % (old.output[0], new.output[0]) + diff(before, left))

    def same(self, old, files, names, skipped):
        """Whether the files are a program with the same bindings."""
        new = Facts(files, self.javac.ask(files))
        return (new.errors or [None])[0] or compare(old, new, names, skipped)

    def names_of_rename(self, old, decl, name):
        if decl and decl[2] in ('CLASS', 'INTERFACE') and is_top(old, decl):
            top = decl[4]
            new = top[:len(top) - len(decl[3])] + name
            path = old.files[decl[0]][0]
            return {top: new}, {path: renamed_path(path, decl[3], name)}
        return {}, {}

    def done_rename(self, old, new, what, words, line, before, left):
        _, target, decl, name = what
        if decl is None:
            self.found('done without a declaration', old.files, words, line)
            return
        names, paths = self.names_of_rename(old, decl, name)
        why = compare(old, new, names, paths)
        if why:
            self.found('binding', old.files, words, line, why + '\n' + diff(before, left))
            return
        naive = naive_rename(old, target, name)
        if naive is None or sorted(naive) == sorted(left.items()):
            self.counts['done as the plain replacement'] += 1
            return
        self.counts['done with other spellings'] += 1
        if not self.same(old, naive, names, paths):
            self.found('respelled without need', old.files, words, line, diff(dict(naive), left))
        elif name.lower().startswith('fresh') and not any('import static' in t for _, t in old.files):
            self.found('fresh name but respelled', old.files, words, line, diff(dict(naive), left))
        else:
            self.keep(old.files, words, line, 'respelled\n' + diff(before, left))

    def refused_rename(self, old, what, words, line):
        _, target, decl, name = what
        if decl is None:
            self.counts['refused, not a declaration of the program'] += 1
            return
        naive = naive_rename(old, target, name)
        names, paths = self.names_of_rename(old, decl, name)
        if naive is None:
            self.counts['refused, plain replacement reaches the prelude'] += 1
            return
        why = self.same(old, naive, names, paths)
        self.counts['refused, plain replacement ' + ('fails' if why else 'is right')] += 1
        if not why:
            self.found('refused without need', old.files, words, line)
        else:
            self.keep(old.files, words, line, 'refused, plain replacement: ' + why)

    def names_of_move(self, old, what):
        _, top, unit, package, decl = what
        name = decl[3]
        new = ('' if package == '-' else package + '.') + name
        path = ('' if package == '-' else package.replace('.', '/') + '/') + name + '.java'
        alone = sum(u == unit for _, u in old.tops) == 1
        return {top: new}, {old.files[unit][0]: path} if alone else {}, path

    def done_move(self, old, new, what, words, line, before, left):
        names, paths, path = self.names_of_move(old, what)
        if left == before and package_of(old.files[what[2]][1]) == what[3].replace('-', ''):
            self.counts['moved to the package where it is'] += 1
            return
        if path not in left:
            self.found('move without its file', old.files, words, line)
            return
        why = compare(old, new, names, paths)
        if why:
            self.found('binding', old.files, words, line, why + '\n' + diff(before, left))
        else:
            self.keep(old.files, words, line, 'moved\n' + diff(before, left))


def diff(before, left):
    import difflib
    out = []
    for p in sorted(set(before) | set(left)):
        if before.get(p) != left.get(p):
            out += list(difflib.unified_diff(before.get(p, '').splitlines(), left.get(p, '').splitlines(), 'a/' + p, 'b/' + p, lineterm='', n=0))
    return '\n'.join(out) + '\n'


def make(javac, rng, counts):
    """A random program that javac compiles."""
    for _ in range(200):
        files = small.Small(rng).program()
        counts['program: tried'] += 1
        if sum(len(t) for _, t in files) > 4500:
            continue
        block = javac.ask(files, 'run')
        if not any(l.startswith('E ') for l in block):
            return Facts(files, block)
        for l in block[:1]:
            counts['program: javac says ' + re.sub(r"\b[\w.]*[A-Za-z]\w*\([^)]*\)|\d+", '_', l[:60])] += 0
    return None


def main():
    parser = argparse.ArgumentParser(description=__doc__, formatter_class=argparse.RawDescriptionHelpFormatter)
    parser.add_argument('--bin', required=True)
    parser.add_argument('--classes', required=True)
    parser.add_argument('--count', type=int, default=20)
    parser.add_argument('--seed', type=int, default=1)
    parser.add_argument('--requests', type=int, default=8)
    parser.add_argument('--moves', type=float, default=0.25)
    parser.add_argument('--others', type=lambda words: words.split(','), default=[])
    parser.add_argument('--seconds', type=float, default=1e9)
    parser.add_argument('--found', default='/dev/stdout')
    parser.add_argument('--kept', default='/dev/null')
    args = parser.parse_args()
    trials = Trials(args)
    end = time.time() + args.seconds
    for n in range(args.count):
        rng = random.Random(args.seed * 100003 + n)
        old = make(trials.javac, rng, trials.counts)
        if old is None:
            continue
        trials.counts['program: ends by ' + old.output[0]] += 1
        for _ in range(args.requests):
            if time.time() > end:
                break
            if trials.trial(rng, old) is False:
                break
            print('.', end='', flush=True)
        if time.time() > end:
            break
    trials.javac.close()
    shutil.rmtree(trials.folder)
    for what, count in sorted(trials.counts.items()):
        print('%6d  %s' % (count, what))
    return 1 if trials.bugs else 0


if __name__ == '__main__':
    sys.exit(main())
