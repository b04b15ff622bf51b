"""Random programs: the rules that the oracle finds broken beside the errors of javac, by name and rule. Usage: withjavac.py KEPT SKIP COUNT SEED."""
import re, subprocess, sys
argv = sys.argv[:]
import against as B
O = B.O
CODES = {'duplicate.class': 2, 'clash.with.pkg.of.same.name': 2, 'label.already.in.use': 7, 'already.defined.single.import': 8, 'already.defined.this.unit': 8,
         'already.defined.static.single.import': 47, 'report.access': 10, 'not.def.public.cant.access': 10, 'not.def.access.class.intf.cant.access': 10, 'cant.inherit.from.final': 13,
         'import.requires.canonical': 9, 'intf.expected.here': 13, 'no.intf.expected.here': 13, 'repeated.interface': 13, 'encl.class.required': 13, 'does.not.override.abstract': 14,
         'override.incompatible.ret': 15, 'types.incompatible': 15, 'types.incompatible.diff.ret': 15, 'override.weaker.access': 16, 'override.static': 17,
         'override.meth': 18, 'override.meth.doesnt.throw': 19, 'missing.meth.body.or.decl.abstract': 20, 'abstract.meth.cant.have.body': 20,
         'intf.abstract.meth.cant.have.body': 20, 'native.meth.cant.have.body': 20, 'invalid.meth.decl.ret.type.req': 20, 'initializer.not.allowed': 20, '= expected': 20,
         'icls.cant.have.static.decl': 21, 'static.declaration.not.allowed.in.inner.classes': 21}


def rule_of(code, msg):
    code = code.replace('compiler.err.', '')
    if code == 'already.defined':
        if msg.startswith('variable'): return 3 if re.search(r'already defined in (class|interface)', msg) else 6
        if msg.startswith('method'): return 4
        if msg.startswith('constructor'): return 5
        return 2
    if code == 'override.meth': return 18 if 'final' in msg else 17
    return CODES.get(code)


if __name__ == '__main__':
    skip, count, seed = int(argv[2]), int(argv[3]), int(argv[4])
    progs = B.G.programs(count, seed)
    bs = B.blocks(open(argv[1]).read())[skip:skip + count]
    jin = '\1'.join(''.join(path + '\2' + t + '\0' for path, t in p) for p in progs)
    kept = argv[1] + '.javac'
    import os
    if not os.path.exists(kept): open(kept, 'w').write(subprocess.run(['java', '-cp', '/tmp/h2j', 'Diags'], input=jin.encode(), stdout=subprocess.PIPE).stdout.decode())
    javac = B.blocks(open(kept).read())
    other, mineonly, theironly = {}, {}, {}
    for k, b in enumerate(bs):
        if b and b[0] == 'no rows': continue
        rr, table, types, variables, faults, tops, unbound, cycle = O.read_block(b)
        if cycle is not None: continue
        mine = {}
        for n, r in faults + [(n, 2) for n in tops]: mine.setdefault((rr.name[n] or '-', r), 0); mine[(rr.name[n] or '-', r)] += 1
        theirs = {}
        for e in javac[k]:
            if not e.startswith('E '): continue
            _, path, pos, code, msg = e.split(' ', 4)
            src = dict(progs[k]).get(path, '')
            r = rule_of(code, msg)
            if r is None: other[code] = other.get(code, 0) + 1; continue
            at = src[int(pos):] if pos.isdigit() else ''
            w = re.match(r'(?:(?:public|protected|private|abstract|static|final) )*(?:class|interface) (\w+)', at) or re.match(r'import (?:static )?[\w.]*?(\w+);', at) or re.match(r'\.?(\w+)', at)
            theirs.setdefault((w[1] if w else '-', r), []).append(msg)
        a = {x for x in mine} - {x for x in theirs}
        c = {x for x in theirs} - {x for x in mine}
        if a or c:
            for x in a: mineonly[x[1]] = mineonly.get(x[1], 0) + 1
            for x in c: theironly[x[1]] = theironly.get(x[1], 0) + 1
            print(k, 'ours alone', sorted(a), '| javac alone', [(x, theirs[x][0][:110]) for x in sorted(c)])
    print('ours alone by rule', dict(sorted(mineonly.items())), 'javac alone', dict(sorted(theironly.items())))
    print('codes without a rule', other)
