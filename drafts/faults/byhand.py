"""Tries the programs of hand.py: what they break by the trial program, by the oracle, as written there, and the errors of javac beside it."""
import os, subprocess, sys
argv = sys.argv[:]
import against as B
import hand as H
O = B.O
progs = [p for _, p, _ in H.PROGRAMS]
more = B.G.programs(int(argv[2]), int(argv[3])) if len(argv) > 3 else []
text = B.run(progs + more, argv[1] if len(argv) > 1 else None, lang=B.SMALL, io='package java.io; public class PrintStream { }')
jin = '\1'.join(''.join(path + '\2' + t + '\0' for path, t in p) for p in progs)
javac = B.blocks(subprocess.run(['java', '-cp', '/tmp/h2j', 'Diags'], input=jin.encode(), stdout=subprocess.PIPE).stdout.decode())
bad = 0
for k, b in enumerate(B.blocks(text)[:len(progs)]):
    title, units, want = H.PROGRAMS[k]
    if b and b[0] == 'no rows': print(title, 'NO ROWS', units); bad += 1; continue
    rr, table, types, variables, faults, tops, unbound, cycle = O.read_block(b)
    if cycle is not None: print(title, 'CYCLE', units); bad += 1; continue
    got = ', '.join(['%s %s' % (rr.name[n] or '-', r) for n, r in sorted([(n, 'D') for n in tops] + faults, key=lambda f: (f[0], str(f[1]).zfill(3)))])
    owant, otops = O.Oracle(rr, table, types, variables).broken()
    same = set(faults) == owant and set(tops) == otops
    ok = got == want and same
    bad += not ok
    print(('ok  ' if ok else 'BAD '), title, '|', got, '' if ok else '| want ' + want + ' | oracle %s %s' % (sorted(owant ^ set(faults)), same))
    if unbound: print('     unbound', unbound)
    errs = []
    for e in javac[k]:
        if e.startswith('E '):
            _, path, pos, code, msg = e.split(' ', 4)
            src = dict(units).get(path, '')
            errs.append('%s @%s' % (code.replace('compiler.err.', ''), src[int(pos):int(pos) + 8] if pos.isdigit() else pos))
    for e in errs: print('       ', e)
print('bad', bad)
if more: B.compare(more, '\n'.join('\n'.join(b + ['.']) for b in B.blocks(text)[len(progs):]) + '\n')
