"""states.py SEED COUNT: holds the definitions of flow (class S of model.py) and the code of flow-code.patch, read by hand, together on random bodies:
the same acts, places and hops, and the same points and steps. It ends with the count of bodies that differ."""
import random, sys
sys.argv, argv = sys.argv[:1], sys.argv
import model
from model import S, LOOPS, graph
class D:
    def __init__(s, rows, body):
        s.r = rows; s.S = S(rows); s.body = body; s.acts = []; s.firsts = []; s.lasts = []; s.behinds = []
        S_ = s.S; end = S_.end(body)
        for at in range(body, end):
            s.firsts.append(len(s.acts))
            if at < len(rows): s.row(at)
        s.firsts.append(len(s.acts))
        for at in range(body, end): s.lasts.append(s.last_sibling(at, at + 1, S_.end(at), S_.end(at) - at))
        for at in range(body, end): s.behinds.append(s.count(S_.par(at)))
        for at in range(body, end):
            first = s.first(at) or 0; count = s.count(at)
            for turn in range(count):
                number = count - turn - 1; a = s.acts[first + number]
                if a[0] == 'part' and a[1] >= body and S_.par(a[1]) == at and a[1] - body < len(s.behinds): s.behinds[a[1] - body] = number + 1
        s.numbers = {}; s.lists = []; s.snum = {}; s.states = []; s.hs = []
    # ---- acts
    def push(s, *a): s.acts.append(a)
    def siblings(s, frm, stop, room):
        part = frm
        for _ in range(room):
            if part >= stop: return
            s.push('part', part); part = s.S.end(part)
    def parts(s, at): e = s.S.end(at); s.siblings(at + 1, e, e - at)
    def behind_(s, at, *a): s.parts(at); s.push(*a)
    def only(s, at, flag):
        e = s.S.end(at); part = at + 1
        for _ in range(e - at):
            if part >= e: return
            if (s.S.kind(part) == 'Parameter') == flag: s.push('part', part)
            part = s.S.end(part)
    def guarded(s, a, b): s.push('part', a); s.push('quit'); s.push('part', b)
    def conditional(s, at):
        t = at + 1; y = s.S.end(t); s.push('part', t); s.push('fork', 4); s.push('part', y); s.push('go', 5); s.push('part', s.S.end(y))
    def last_sibling(s, at, frm, stop, room):
        last, part = at, frm
        for _ in range(room):
            if part >= stop: return last
            last = part; part = s.S.end(part)
        return last
    def only_written(s, at):
        over = s.S.par(at); return s.S.kind(over) == 'Assign' and s.S.at(over, 'op') == '=' and over < at and at - over == 1
    def operand(s, at):
        here = at + 1
        for _ in range(len(s.r)):
            if s.S.kind(here) != 'Paren': return here
            here += 1
        return here
    def innermost(s, at, kinds):
        here = at
        for _ in range(at):
            over = s.S.par(here)
            if s.S.kind(over) in kinds: return over
            if over == here: return None
            here = over
        return None
    def name(s, at):
        s.parts(at)
        if s.only_written(at): return
        d = s.S.local(at)
        if d is not None: s.push('use', at, d)
        elif s.S.at(at, 'field'): s.push('event', at)
    def written(s, at, defining, d): s.push('define', defining, d) if d is not None else s.push('event', at)
    def row(s, at):
        S_ = s.S; K = S_.kind(at); end = S_.end
        if K in ('Method', 'Constructor'): s.only(at, True); s.only(at, False)
        elif K == 'Field': s.behind_(at, 'event', at)
        elif K == 'Parameter':
            if S_.kind(S_.par(at)) == 'Catch': s.push('node', at)
            s.push('define', at, at)
        elif K == 'Local':
            if at + 1 < end(at): s.behind_(at, 'define', at, at)
        elif K == 'Skip': s.push('node', at)
        elif K in ('Eval', 'Locals'): s.behind_(at, 'node', at)
        elif K == 'Case': pass
        elif K == 'Try': s.push('part', at + 1)
        elif K == 'If':
            t = at + 1; y = end(t)
            if end(y) < end(at): s.conditional(at)
            else: s.guarded(t, y)
        elif K == 'While': s.guarded(at + 1, end(at + 1)); s.push('go', 0)
        elif K == 'Do': s.push('part', at + 1); s.push('part', end(at + 1)); s.push('fork', 0)
        elif K == 'For':
            hf, hc = S_.at(at, 'first'), S_.at(at, 'cond'); cond = end(at + 1) if hf else at + 1; up = end(cond) if hc else cond
            body = s.last_sibling(at, at + 1, end(at), end(at) - at)
            if hf: s.push('part', at + 1)
            if hc: s.push('part', cond); s.push('quit')
            s.push('part', body); s.siblings(up, body, end(at) - at); s.push('go', 1 if hf else 0)
        elif K == 'Switch':
            value = at + 1; groups = end(value); e = end(at); room = e - at; s.push('part', value); d = False; g = groups
            for _ in range(room):
                if g >= e: break
                k = g + 1
                for _ in range(end(g) - g):
                    if k >= end(g): break
                    if S_.kind(k) == 'Default': d = True
                    k = end(k)
                g = end(g)
            s.push('choose', d); s.siblings(groups, e, room)
        elif K == 'Break':
            t = S_.at(at, 'target') if S_.at(at, 'labelled') else s.innermost(at, LOOPS + ('Switch',))
            s.behind_(at, 'jump', ('break', t) if t is not None else ('return',))
        elif K == 'Continue':
            if S_.at(at, 'labelled'):
                t = S_.at(at, 'target'); t = t + 1 if t is not None and S_.kind(t + 1) in LOOPS else None
            else: t = s.innermost(at, LOOPS)
            s.behind_(at, 'jump', ('continue', t) if t is not None else ('return',))
        elif K == 'Return': s.behind_(at, 'jump', ('return',))
        elif K == 'Throw': s.behind_(at, 'jump', ('throw',))
        elif K in ('Name', 'Select', 'SuperSelect'): s.name(at)
        elif K == 'Index':
            s.parts(at)
            if not s.only_written(at): s.push('event', at)
        elif K == 'Assign':
            s.parts(at)
            if S_.at(at, 'makes'): s.push('event', at)
            p = s.operand(at); s.written(at, p, S_.local(p))
        elif K in ('PreStep', 'PostStep'): s.parts(at); s.written(at, at, S_.local(s.operand(at)))
        elif K == 'Conditional': s.conditional(at)
        elif K == 'Binary':
            l = at + 1; r = end(l)
            if S_.at(at, 'op') in ('&&', '||'): s.guarded(l, r); return
            s.push('part', l)
            if S_.at(at, 'shows'): s.push('event', at)
            s.push('part', r)
            if S_.at(at, 'makes'): s.push('event', at)
        elif K == 'Not': s.behind_(at, 'node', at)
        elif K == 'Cast':
            s.parts(at)
            if S_.at(at, 'narrows'): s.push('event', at)
        elif K in ('Call', 'New', 'ConstructorCall'): s.behind_(at, 'event', at)
        elif K == 'NewArray':
            if S_.at(at, 'lengths'): s.behind_(at, 'event', at)
            else: s.parts(at)
        elif K == 'List':
            s.push('event', at)
            part = at + 1
            for _ in range(end(at) - at):
                if part >= end(at): break
                s.push('part', part); s.push('event', part); part = end(part)
        elif K == 'ImplicitCall': s.push('event', at)
        elif K == 'TypeUse': pass
        else: s.parts(at)
    # ---- the table
    def item(s, all, at): return None if at < s.body or at - s.body >= len(all) else all[at - s.body]
    def first(s, at): return s.item(s.firsts, at)
    def count(s, at):
        a, b = s.first(at), s.first(at + 1); return b - a if a is not None and b is not None else 0
    def act(s, at, i):
        a, b = s.first(at), s.first(at + 1)
        return None if a is None or b is None or i >= b - a else s.acts[a + i]
    # ---- ways
    def with_(s, outer, c):
        if (c, outer) in s.numbers: return s.numbers[(c, outer)]
        s.lists.append((c, outer)); s.numbers[(c, outer)] = len(s.lists); return len(s.lists)
    def ending(s, x):
        row, m, l = x
        return (row, ('left', ('normal',)), l) if row == s.body and m[0] == 'left' and m[1][0] != 'throw' else x
    def go_finally(s, out, of, c, l):
        row, fin, last = of
        out.append((s.ending((last, ('at', 0), s.with_(l, c)) if fin else (row, ('left', c), l)), False))
    def turn(s, at):
        K = s.S.kind(at)
        if K == 'Do': return 1
        if K == 'For': start = 1 if s.S.at(at, 'first') else 0; return start + 3 if s.S.at(at, 'cond') else start + 1
        return 0
    def ways(s, x):
        row, m, l = x; out = []
        if m[0] == 'at':
            i = m[1]; a = s.act(row, i); nx = ((row, ('at', i + 1), l), False); nm = ((row, ('left', ('normal',)), l), False)
            if a is None: return [nm]
            k = a[0]
            if k == 'part': return [((a[1], ('at', 0), l), False)]
            if k == 'event': return [nx, ((row, ('left', ('throw',)), l), True)]
            if k in ('node', 'define', 'use'): return [nx]
            if k == 'quit': return [nx, nm]
            if k == 'fork': return [nx, ((row, ('at', a[1]), l), False)]
            if k == 'choose': return [((row, ('at', j), l), False) for j in range(i + 1, s.count(row))] + ([] if a[1] else [nm])
            if k == 'go': return [((row, ('at', a[1]), l), False)]
            return [((row, ('left', a[1]), l), a[1][0] == 'throw')]
        c = m[1]
        if row == s.body: return []
        part, over = row, s.S.par(row)
        if over >= len(s.r): return []
        if s.S.kind(over) == 'Try':
            last = s.item(s.lasts, over); of = (over, s.S.at(over, 'fin'), last if last is not None else over)
            if part == over + 1:
                if c[0] == 'throw':
                    k = over + 1
                    for _ in range(s.S.end(over) - over):
                        if k >= s.S.end(over): break
                        if s.S.kind(k) == 'Catch': out.append(((k, ('at', 0), l), False))
                        k = s.S.end(k)
                s.go_finally(out, of, c, l); return out
            if of[1] and part == of[2]:
                if l == 0: return []
                w, outer = s.lists[l - 1]
                return [(s.ending((over, ('left', w if c[0] == 'normal' else c), outer)), False)]
            s.go_finally(out, of, c, l); return out
        if c[0] == 'normal': b = s.item(s.behinds, part); to = (over, ('at', b or 0), l)
        elif c[0] == 'break' and c[1] == over: to = (over, ('left', ('normal',)), l)
        elif c[0] == 'continue' and c[1] == over: to = (over, ('at', s.turn(over)), l)
        else: to = (over, ('left', c), l)
        return [(s.ending(to), False)]
    def point(s, x):
        row, m, _ = x; b = row == s.body
        if m[0] == 'left': return (row, ('thrown',) if m[1][0] == 'throw' else ('exit',)) if b else None
        if m[1] == 0 and b: return (row, ('entry',))
        a = s.act(row, m[1])
        if a is None or a[0] in ('part', 'go'): return None
        if a[0] in ('event', 'node'): return (a[1], ('node',))
        if a[0] == 'define': return (a[1], ('def', a[2]))
        if a[0] == 'use': return (a[1], ('use', a[2]))
        return (row, ('node',))
    def number(s, x):
        if x not in s.snum: s.snum[x] = len(s.states); s.states.append(x)
        return s.snum[x]
    def explore(s):
        s.number((s.body, ('at', 0), 0)); n = 0
        while n < len(s.states): s.hs.append([(s.number(y), t) for y, t in s.ways(s.states[n])]); n += 1
    def pending(s, l):
        out = []
        while l: c, l = s.lists[l - 1]; out.append(c)
        return tuple(out)
    def seen(s, x): return (x[0], x[1], s.pending(x[2]))
    # ---- the graph
    def steps(s):
        pts = [s.point(x) for x in s.states]; n = len(s.states)
        ends = [s.hs[i][0][0] if pts[i] is None and len(s.hs[i]) == 1 else i for i in range(n)]
        for _ in range(32):
            changed = False
            for i in range(n):
                nx = ends[ends[i]]; changed |= nx != ends[i]; ends[i] = nx
            if not changed: break
        out = set()
        for i in range(n):
            if pts[i] is None: continue
            for t in (False, True):
                open_ = [ends[j] for j, u in s.hs[i] if u == t]; met = set()
                while open_:
                    j = open_.pop()
                    if j in met: continue
                    met.add(j)
                    if pts[j] is not None: out.add((i, j, t))
                    else: open_ += [ends[k] for k, _ in s.hs[j]]
        return out
def differ(rows, body):
    d = D(rows, body); S_ = d.S
    for n in range(body, S_.end(body)):
        if [d.act(n, i) for i in range(d.count(n))] != [tuple(a) for a in S_.acts(n)]: return 'acts of %d %s' % (n, S_.kind(n))
    d.explore()
    start = (body, ('at', 0), ()); seen = model.explore(start, lambda x: S_.hops(body, x))
    mine = {d.seen(x): [(d.seen(d.states[j]), t) for j, t in d.hs[i]] for i, x in enumerate(d.states)}
    if len(mine) != len(d.states): return 'two states of one place'
    if set(mine) != set(seen): return 'places'
    for x in seen:
        if mine[x] != seen[x]: return 'hops of %r' % (x,)
    for i, x in enumerate(d.states):
        if d.point(x) != S_.point(body, d.seen(x)): return 'point of %r' % (x,)
    ids = {d.seen(x): i for i, x in enumerate(d.states)}
    points, steps = graph(start, lambda x: S_.hops(body, x), lambda x: S_.point(body, x), lambda x: ids[x])
    if steps != d.steps(): return 'steps'
    exits = [x for x in d.states if x[0] == body and x[1][0] == 'left']
    if any(x[2] for x in exits) or len(exits) > 2: return 'exits'
    return unfit(d, rows, body)
def unfit(d, rows, body):
    """What `HasParts` and the invariants of the search want: parts stand right below, control stays in the body, and as many completions wait as blocks of `finally` stand round the row."""
    S_ = d.S
    for n in range(body, S_.end(body)):
        if any(a[0] == 'part' and not (S_.par(a[1]) == n < a[1] < S_.end(n)) for a in S_.acts(n)): return 'parts of %d' % n
        if S_.kind(n) == 'Try' and S_.at(n, 'fin') and (S_.kids(n)[-1] <= n + 1 or S_.kind(S_.kids(n)[-1]) == 'Catch'): return 'blocks of %d' % n
    for x in d.states:
        n, depth = x[0], 0
        if not body <= n < S_.end(body) or x[2] > len(d.lists) or (x[1][0] == 'at' and x[1][1] > len(S_.acts(n))): return 'place %r' % (x,)
        while n != body:
            q = S_.par(n); depth += S_.kind(q) == 'Try' and S_.at(q, 'fin') and S_.kids(q)[-1] == n; n = q
        if depth != len(d.pending(x[2])): return 'depth of %r' % (x,)
    return None
if __name__ == '__main__':
    seed0, count = int(argv[1]), int(argv[2]); bad = states = points = tried = 0
    for seed in range(seed0, seed0 + count):
        g = model.G(random.Random(seed)); t = model.N('Program', [model.N('Unit', [model.N('Class', [model.N('Body', [g.body()])])])])
        rows = model.rows_of(t); model.resolve(rows)
        if len(rows) > 600: continue
        tried += 1; what = differ(rows, 4)
        if what: bad += 1; print('DIFF', seed, len(rows), what)
        if bad > 3: break
    print('bodies', tried, 'bad', bad)
