"""Compares what the trial program prints of programs with the oracle. Usage: against.py COUNT SEED [kept output]."""
import os, subprocess, sys
HERE = os.path.dirname(os.path.abspath(__file__))
argv = sys.argv[:]
sys.argv = sys.argv[:1]
sys.path.insert(0, HERE); sys.path.insert(0, os.path.join(HERE, '..', 'names'))
import oracle as O
import prelude as P
import gen as G


def blocks(text):
    out, cur = [], []
    for line in text.split('\n'):
        if line == '.': out.append(cur); cur = []
        else: cur.append(line)
    return out


def input_of(progs, lang=None, io=None):
    return b''.join(b''.join(t.encode() + b'\0' for t in [lang or P.lang(), io or P.io()] + [t for _, t in p]) + b'\1' for p in progs)


def run(progs, kept=None, **kw):
    if kept and os.path.exists(kept): return open(kept).read()
    r = subprocess.run(['rt', 'try', '--seconds', '1800', '--steps', '4000000000'], cwd=os.path.join(HERE, '..', '..', 'crates', 'jr_fault_scratch'), input=input_of(progs, **kw), stdout=subprocess.PIPE, stderr=subprocess.STDOUT).stdout.decode()
    if kept: open(kept, 'w').write(r)
    return r


SMALL = 'package java.lang; public class Object { public Object() { } public boolean equals(Object o) { return true; } public String toString() { return ""; } } public final class String { } public class Throwable { } public class Exception extends Throwable { } public class Error extends Throwable { } public class RuntimeException extends Exception { } public class NullPointerException extends RuntimeException { } public class IllegalStateException extends RuntimeException { }'


def compare(progs, text):
    bs = blocks(text)
    if len(bs) != len(progs): print(len(bs), len(progs), text[-1500:])
    bad, seen, rules, cyc, norows, unb = 0, 0, {}, 0, 0, 0
    for k, b in enumerate(bs):
        if b and b[0] == 'no rows': norows += 1; continue
        rr, table, types, variables, faults, tops, unbound, cycle = O.read_block(b)
        if cycle is not None: cyc += 1; continue
        if unbound: unb += 1
        want, wtops = O.Oracle(rr, table, types, variables).broken()
        got = set(faults)
        seen += 1
        for f in want: rules[f[1]] = rules.get(f[1], 0) + 1
        if len(got) != len(faults): print(k, 'twice', [f for f in faults if faults.count(f) > 1]); bad += 1
        if sorted(n for n, _ in faults if True) != [n for n, _ in faults]: pass
        for n, r in sorted(want - got): print(k, 'missing', n, r, rr.name[n], rr.head(n)); bad += 1
        for n, r in sorted(got - want): print(k, 'surplus', n, r, rr.name[n], rr.head(n)); bad += 1
        if set(tops) != wtops: print(k, 'tops', tops, wtops); bad += 1
        rules['D'] = rules.get('D', 0) + len(wtops)
    print('programs', seen, 'cycles', cyc, 'no rows', norows, 'with unbound', unb, 'rules', dict(sorted(rules.items(), key=str)), 'bad', bad)


if __name__ == '__main__':
    progs = G.programs(int(argv[1]), int(argv[2]))
    text = run(progs, argv[3] if len(argv) > 3 else None, lang=SMALL, io='package java.io; public class PrintStream { }')
    compare(progs, text)
