"""The rules on members and names by their definitions, word for word and slow, over rows and a table as the trial program prints them."""
import os, re, sys
HERE = os.path.dirname(os.path.abspath(__file__))
sys.path.insert(0, os.path.join(HERE, '..', '..', 'tools', 'worked'))
sys.path.insert(0, os.path.join(HERE, '..', '..', 'tools', 'javac'))
import rows as R
from functools import lru_cache

NONE = {k: False for k in ('is_public', 'is_protected', 'is_private', 'is_abstract', 'is_static', 'is_final', 'is_native')}
ROLE = {'Class': 'Type', 'Interface': 'Type', 'Field': 'Field', 'Method': 'Method', 'Constructor': 'Constructor', 'DefaultConstructor': 'Constructor',
        'Parameter': 'Parameter', 'Local': 'Local', 'Labeled': 'Label'}


def truth(v): return v[0] == 'true'


class Oracle:
    def __init__(self, rr, table, types, variables):
        self.rr, self.t, self.types_of, self.constants = rr, table, types, variables
        self.n = len(rr.parent)
        n = self.n
        self.head = [rr.head(i) for i in range(n)] + ['Skip'] * 4
        self.par = list(rr.parent) + [n, n + 1, n + 2, n + 3]
        self.nm = list(rr.name) + [''] * 4
        self.endd = list(rr.end) + [n + 1, n + 2, n + 3, n + 4]
        self.role = [ROLE.get(h) for h in self.head]
        self.types = [c for c in range(n) if self.role[c] == 'Type']
        self.methods = [c for c in range(n) if self.role[c] == 'Method']
        self.kidlist = {}
        for k in range(1, n):
            self.kidlist.setdefault(self.par[k], []).append(k)
        self.mods = [self._written(i) for i in range(n)] + [NONE] * 4
        self.cache = {}
        self.overs = None

    def field(self, i, f): return self.rr.field(i, f) if i < self.n else ('false', None)

    def _written(self, i):
        if self.head[i] in ('Class', 'Interface', 'Fields', 'Field', 'Method', 'Constructor'):
            m = self.rr.field(i, 'modifiers')[1]
            return {k: truth(m[k]) for k in NONE}
        return NONE

    def kids(self, n): return self.kidlist.get(n, [])
    def is_class(self, c): return self.head[c] == 'Class'
    def is_interface(self, c): return self.head[c] == 'Interface'
    def is_type(self, c): return self.role[c] == 'Type'
    def is_prelude(self, x, c): return self.is_type(c) and self.par[c] == 1 and self.nm[c] == x
    def is_object(self, c): return self.is_prelude('Object', c)

    def is_body_of(self, c, b): return self.is_type(c) and self.head[b] == 'Body' and self.par[b] == c
    def holder(self, d): return self.par[self.par[d]] if self.role[d] == 'Field' else self.par[d]
    def is_declared_in(self, c, d): return self.role[d] in ('Type', 'Field', 'Method') and self.is_body_of(c, self.holder(d))
    def declaring_type(self, d):
        c = self.par[self.holder(d)]
        return c if self.is_declared_in(c, d) else None
    def constructed_class(self, k):
        c = self.par[self.par[k]]
        return c if self.role[k] == 'Constructor' and self.is_body_of(c, self.par[k]) else None
    def is_top_level(self, c): return self.is_type(c) and self.head[self.par[c]] == 'Unit'

    def access_of(self, d): return self.mods[self.par[self.par[d]]] if self.head[d] == 'DefaultConstructor' else self.mods[d]
    def is_in_interface(self, d):
        c = self.declaring_type(d)
        return c is not None and self.is_interface(c)
    def is_default_in_interface(self, d):
        c = self.constructed_class(d)
        return self.head[d] == 'DefaultConstructor' and c is not None and self.is_in_interface(c)
    def is_public(self, d): return self.access_of(d)['is_public'] or self.is_in_interface(d) or self.is_default_in_interface(d)
    def is_protected(self, d): return self.access_of(d)['is_protected']
    def is_private(self, d): return self.access_of(d)['is_private']
    def is_static(self, d): return self.mods[d]['is_static'] or (self.role[d] in ('Field', 'Type') and self.is_in_interface(d)) or self.is_interface(d)
    def is_final(self, d):
        w = truth(self.field(d, 'is_final')) if self.head[d] in ('Local', 'Parameter') else self.mods[d]['is_final']
        return w or (self.role[d] == 'Field' and self.is_in_interface(d))
    def is_abstract(self, d): return self.mods[d]['is_abstract'] or (self.role[d] == 'Method' and self.is_in_interface(d)) or self.is_interface(d)
    def is_inner(self, c): return self.is_class(c) and self.declaring_type(c) is not None and not self.is_static(c)

    # ---- packages
    def spelled(self, n):
        k = max(self.endd[n] - (n + 1), 0)
        return [self.nm[i] for i in range(n + k, n - 1, -1)]
    def package_of(self, u): return self.spelled(u + 2) if self.head[u + 1] == 'Package' else []
    def units_of(self, o): return [u for u in range(self.n) if self.head[u] == 'Unit' and u <= o < self.endd[u]]
    def is_same_package(self, m, n):
        key = ('sp', m, n)
        if key not in self.cache:
            self.cache[key] = any(self.package_of(u) == self.package_of(v) for u in self.units_of(m) for v in self.units_of(n))
        return self.cache[key]

    # ---- types
    def declared(self, n): return self.t.get(n)
    def referred_type(self, n):
        d = self.t.get(n)
        return d if d is not None and d < self.n and self.is_type(d) else None
    def named_type(self, n): return self.referred_type(n + 1) if self.par[n + 1] == n else None
    def type_at(self, n):
        if self.head[n] != 'TypeUse': return None
        dims = int(self.field(n, 'dims')[0]) if not isinstance(self.field(n, 'dims'), int) else self.field(n, 'dims')
        prim = self.field(n, 'primitive')
        if prim[0] == 'Some':
            x = prim[1]
            while isinstance(x, (list, tuple)): x = x[0]
            return (x, dims)
        c = self.named_type(n)
        return None if c is None else (c, dims)
    def dims(self, d):
        x = self.field(d, 'dims')
        return int(x if isinstance(x, (int, str)) else x[0])
    def type_of_declared(self, d):
        h = self.head[d]
        if h in ('Field', 'Local'): a = self.type_at(self.par[d] + 1)
        elif h == 'Parameter': a = self.type_at(d + 1)
        elif h == 'Method':
            return ('Void', 0) if truth(self.field(d, 'is_void')) else self.type_at(d + 1)
        else: return None
        return None if a is None else (a[0], a[1] + self.dims(d))
    def parameters(self, m):
        key = ('par', m)
        if key not in self.cache:
            out = []
            for k in self.kids(m):
                if self.role[k] == 'Parameter':
                    a = self.type_of_declared(k)
                    if a is None: out = None; break
                    out.append(a)
            self.cache[key] = out
        return self.cache[key]
    def are_same_types(self, a, b): return a is not None and b is not None and a == b
    def is_same_signature(self, m, k): return self.nm[m] == self.nm[k] and self.are_same_types(self.parameters(m), self.parameters(k))
    def are_same_methods(self, m, k): return self.role[m] == 'Method' and self.role[k] == 'Method' and self.is_same_signature(m, k)

    # ---- supertypes
    def place(self, n): return self.field(n, 'place')[0] if self.head[n] == 'Name' else None
    def names_superclass(self, c, n): return self.place(n) == 'Superclass' and self.par[n] == c
    def names_superinterface(self, c, n): return self.place(n) == 'Superinterface' and self.par[n] == c
    def implied(self, c):
        if self.is_class(c) and not any(self.names_superclass(c, n) for n in self.kids(c)) and not self.is_object(c):
            return [s for s in self.types if self.is_object(s)]
        return []
    def supers(self, c):
        return self.implied(c) + [self.t[n] for n in self.kids(c) if (self.names_superclass(c, n) or self.names_superinterface(c, n)) and n in self.t]
    def superclasses(self, c): return self.implied(c) + [self.t[n] for n in self.kids(c) if self.names_superclass(c, n) and n in self.t]
    def above(self, c):
        key = ('up', c)
        if key not in self.cache:
            seen, work = set(), [c]
            while work:
                x = work.pop()
                if not self.is_type(x): continue
                nxt = self.supers(x) + ([o for o in self.types if self.is_object(o)] if self.is_interface(x) else [])
                for y in nxt:
                    if y not in seen: seen.add(y); work.append(y)
            self.cache[key] = seen
        return self.cache[key]
    def is_above(self, c, s): return s in self.above(c)
    def is_at_or_above(self, c, s): return c == s or self.is_above(c, s)
    @staticmethod
    def is_reference(a): return a[1] > 0 or isinstance(a[0], int)
    def is_subtype(self, a, b):
        (e, m), (f, n) = a, b
        while m > 0 and n > 0:
            if e == f and m == n: return True
            if not (self.is_reference((e, m - 1)) and self.is_reference((f, n - 1))): return False
            m, n = m - 1, n - 1
        if m == 0 and n == 0:
            return e == f or (isinstance(e, int) and isinstance(f, int) and self.is_above(e, f)) or (e, f) in WIDENS
        if m == 0: return False
        return isinstance(f, int) and self.is_object(f)
    def is_result_fit(self, m, k):
        a, b = self.type_of_declared(m), self.type_of_declared(k)
        if a is None or b is None: return False
        return a == b or (self.is_reference(a) and self.is_reference(b) and self.is_subtype(a, b))

    # ---- members
    def replaces(self, e, d):
        if self.role[e] != self.role[d]: return False
        if self.role[e] in ('Field', 'Type'): return self.nm[e] == self.nm[d]
        return self.are_same_methods(e, d)
    def declared_by(self, c):
        key = ('db', c)
        if key not in self.cache: self.cache[key] = [d for d in range(self.n) if self.is_declared_in(c, d)]
        return self.cache[key]
    def is_left(self, c, d): return not any(self.replaces(e, d) for e in self.declared_by(c))
    def can_inherit(self, c, d): return not self.is_private(d) and (self.is_public(d) or self.is_protected(d) or self.is_same_package(c, d))
    def passes(self, s, d): return not self.is_interface(s) or self.is_in_interface(d)
    def is_object_method(self, d):
        c = self.declaring_type(d)
        return self.role[d] == 'Method' and c is not None and self.is_object(c) and self.is_public(d) and not self.is_static(d)
    def is_left_above(self, c, d): return all(self.is_left(s, d) for s in self.types if self.is_interface(s) and self.is_at_or_above(c, s))
    def holders(self, d):
        key = ('ho', d)
        if key not in self.cache:
            s = {c for c in self.types if self.is_declared_in(c, d) or (self.is_interface(c) and self.is_object_method(d) and self.is_left_above(c, d))}
            while True:
                new = {c for c in self.types if c not in s and any(x in s and self.passes(x, d) for x in self.supers(c)) and self.can_inherit(c, d) and self.is_left(c, d)}
                if not new: break
                s |= new
            self.cache[key] = s
        return self.cache[key]
    def is_member(self, c, d): return self.role[d] in ('Type', 'Field', 'Method') and c in self.holders(d)
    def member_methods(self, c): return [d for d in self.methods if self.is_member(c, d)]

    # ---- overriding
    def is_declared_below(self, m, k):
        a, b = self.declaring_type(m), self.declaring_type(k)
        return a is not None and b is not None and self.is_above(a, b)
    def is_above_method(self, m, k):
        return (self.are_same_methods(m, k) and not self.is_static(m) and not self.is_private(k) and (not self.is_in_interface(m) or self.is_public(k))
                and self.is_declared_below(m, k))
    def is_reachable(self, m, k): return self.is_public(k) or self.is_protected(k) or self.is_same_package(m, k)
    def overriding(self):
        if self.overs is None:
            byname = {}
            for m in self.methods: byname.setdefault(self.nm[m], []).append(m)
            up = {(m, k) for ms in byname.values() for m in ms for k in ms if self.is_above_method(m, k)}
            s = {(m, k) for m, k in up if self.is_reachable(m, k)}
            while True:
                new = {(m, k) for m, k in up if (m, k) not in s and any((m, j) in s and (j, k) in s for j in byname[self.nm[m]])}
                if not new: break
                s |= new
            self.overs = s
        return self.overs
    def implements(self, c, f, m):
        i = self.declaring_type(m)
        return self.are_same_methods(f, m) and i is not None and self.is_interface(i) and self.is_above(c, i) and self.is_public(f) and self.is_member(c, f)
    def serves(self, c, m, f): return f == m or (f, m) in self.overriding() or self.implements(c, f, m)
    def is_found(self, c, m):
        """What a call finds; one, since there is one superclass."""
        if self.is_private(m) or self.is_static(m): return {m}
        out, b, seen = set(), c, set()
        while True:
            if not self.is_type(b): return {m}
            if b in seen: return out
            seen.add(b)
            own = [f for f in self.declared_by(b) if self.serves(c, m, f)]
            if own: return {min(own)}
            up = self.superclasses(b)
            if not up: return {m}
            b = up[0]

    # ---- rules on members
    def redefines(self, m, k): return (m, k) in self.overriding() or self.is_hiding(m, k)
    def is_hiding(self, m, k):
        if not self.is_static(m) or not self.are_same_methods(m, k): return False
        c, s = self.declaring_type(m), self.declaring_type(k)
        return c is not None and s is not None and self.is_above(c, s) and self.can_inherit(c, k)
    def accesses(self, d):
        pu, pt, pr = self.is_public(d), self.is_protected(d), self.is_private(d)
        return [l for l, h in ((0, pr), (1, not pu and not pt and not pr), (2, pt), (3, pu)) if h]
    def is_narrower(self, m, k): return any(a < b for a in self.accesses(m) for b in self.accesses(k))
    def thrown(self, m): return [n for n in self.kids(m) if self.place(n) == 'Other']
    def is_below(self, x, c): return any(self.is_prelude(x, s) and self.is_at_or_above(c, s) for s in self.types)
    def is_checked(self, c): return self.is_below('Throwable', c) and not self.is_below('Error', c) and not self.is_below('RuntimeException', c)
    def allows(self, k, c): return any(n in self.t and self.is_at_or_above(c, self.t[n]) for n in self.thrown(k))
    def declares_more(self, m, k): return any(n in self.t and self.is_checked(self.t[n]) and not self.allows(k, self.t[n]) for n in self.thrown(m))

    def type_rules(self, c):
        out = set()
        if not self.is_type(c): return out
        al = self.member_methods(c)
        def implemented(m): return any(self.are_same_methods(k, m) and self.is_public(k) and not self.is_static(k) and not self.is_abstract(k) for k in al)
        if self.is_class(c) and not self.is_abstract(c):
            if any(self.is_abstract(m) and not implemented(m) for m in al): out.add(14)
            for m in self.methods:
                s = self.declaring_type(m)
                if self.is_abstract(m) and s is not None and self.is_above(c, s) and self.is_class(s) and any(self.is_abstract(f) for f in self.is_found(c, m)): out.add(14)
        def both(m, k): return self.are_same_methods(m, k) and not self.is_declared_in(c, m) and not self.is_declared_in(c, k)
        def disagrees(m): return any(both(m, k) and not self.is_result_fit(m, k) for k in al)
        if any(not self.is_abstract(m) and disagrees(m) for m in al): out.add(15)
        for m in al:
            if all(not self.are_same_methods(k, m) or (self.is_abstract(k) and disagrees(k)) for k in al): out.add(15)
        for m in al:
            for k in al:
                if not both(m, k): continue
                if not self.is_abstract(m) and self.is_narrower(m, k): out.add(16)
                if self.is_static(m) and not self.is_static(k): out.add(17)
                if not self.is_abstract(m) and self.declares_more(m, k): out.add(19)
        return out

    def method_rules(self, m):
        out = set()
        if self.role[m] != 'Method': return out
        hid = [k for k in self.methods if self.is_hiding(m, k)]
        ov = [k for k in self.methods if (m, k) in self.overriding()]
        for k in hid + ov:
            if not self.is_result_fit(m, k): out.add(15)
            if self.is_narrower(m, k): out.add(16)
            if self.mods[k]['is_final']: out.add(18)
            if self.declares_more(m, k): out.add(19)
        if any(not self.is_static(k) for k in hid) or any(self.is_static(k) for k in ov): out.add(17)
        return out

    def body_type(self, k):
        c = self.par[self.par[k]]
        return c if self.is_body_of(c, self.par[k]) else None
    def stands_wrong(self, n):
        if self.role[n] == 'Method':
            hb, ab = truth(self.field(n, 'has_body')), self.is_abstract(n) or self.mods[n]['is_native']
            if (ab and hb) or (not ab and not hb): return True
            c = self.declaring_type(n)
            if self.is_abstract(n) and c is not None and self.is_class(c) and not self.is_abstract(c): return True
        c = self.constructed_class(n)
        if self.head[n] == 'Constructor' and c is not None and self.nm[n] != self.nm[c]: return True
        if c is not None and self.is_interface(c): return True
        b = self.body_type(n)
        if self.head[n] == 'Initializer' and b is not None and self.is_interface(b): return True
        return self.role[n] == 'Field' and self.is_in_interface(n) and self.par[n + 1] != n
    def is_static_there(self, n):
        c = self.declaring_type(n)
        if c is not None and self.is_inner(c) and self.is_static(n) and n not in self.constants: return True
        b = self.body_type(n)
        return self.head[n] == 'Initializer' and truth(self.field(n, 'is_static')) and b is not None and self.is_inner(b)

    # ---- rules on names
    def is_second(self, kind, e):
        if self.role[e] != kind: return False
        for d in range(e):
            if self.role[d] != kind: continue
            if kind == 'Constructor':
                c = self.constructed_class(d)
                if c is not None and self.constructed_class(e) == c and self.are_same_types(self.parameters(d), self.parameters(e)): return True
            else:
                c = self.declaring_type(d)
                if c is not None and self.is_declared_in(c, e) and (self.is_same_signature(d, e) if kind == 'Method' else self.nm[d] == self.nm[e]): return True
        return False
    def is_inside_its_name(self, d):
        if not self.is_type(d): return False
        c = self.declaring_type(d)
        while c is not None:
            if self.nm[c] == self.nm[d]: return True
            c = self.declaring_type(c)
        return False
    def top_clash(self, e):
        if not self.is_top_level(e): return False
        if any(self.is_top_level(d) and self.nm[d] == self.nm[e] and self.is_same_package(d, e) for d in range(e)): return True
        for u in self.units_of(e):
            if self.package_of(u) and any(self.head[v] == 'Unit' and self.package_of(v) == self.package_of(u) + [self.nm[e]] for v in range(self.n)): return True
        return False
    def block_end(self, b): return self.endd[self.par[b]] if self.head[b] == 'Group' else self.endd[b]
    def in_local(self, d, o): return self.role[d] == 'Local' and d < o < self.block_end(self.par[self.par[d]])
    def in_parameter(self, d, o): return self.role[d] == 'Parameter' and any(self.head[b] == 'Block' and b <= o < self.endd[b] for b in self.kids(self.par[d]))
    def is_second_local(self, e):
        if self.role[e] not in ('Local', 'Parameter'): return False
        for d in range(self.n):
            if self.nm[d] != self.nm[e]: continue
            if self.in_local(d, e) or self.in_parameter(d, e): return True
            if self.role[d] == 'Parameter' and self.role[e] == 'Parameter' and self.par[d] == self.par[e] and d < e: return True
        return False
    def is_second_label(self, e):
        return self.role[e] == 'Label' and any(self.role[d] == 'Label' and d < e < self.endd[d] and self.nm[d] == self.nm[e] for d in range(self.n))
    def kind(self, i): return self.field(i, 'kind')[0] if self.head[i] == 'Import' else None
    def imported_type(self, i): return self.referred_type(i + 1)
    def is_clash(self, d, e): return self.nm[d] == self.nm[e] and d != e
    def is_declared_top(self, u, e): return self.is_top_level(e) and self.par[e] == u
    def import_clash(self, j):
        if self.kind(j) != 'Single': return False
        d, u = self.imported_type(j), self.par[j]
        if d is None: return False
        for i in range(j):
            if self.kind(i) == 'Single' and self.par[i] == u and self.imported_type(i) is not None and self.is_clash(self.imported_type(i), d): return True
        return any(self.is_declared_top(u, e) and self.is_clash(d, e) for e in self.types)
    def canonical(self, d):
        out = []
        if self.is_top_level(d):
            for u in self.units_of(d):
                if self.package_of(u): out.append(self.package_of(u) + [self.nm[d]])
        c = self.declaring_type(d) if self.is_type(d) else None
        if c is not None: out += [p + [self.nm[d]] for p in self.canonical(c)]
        return out
    def not_canonical(self, i):
        if self.head[i] != 'Import': return False
        d = self.imported_type(i)
        return d is not None and self.spelled(i + 1) not in self.canonical(d)
    def can_import(self, u, d): return not self.is_private(d) and (self.is_public(d) or self.is_same_package(u, d))
    def is_imported_by(self, u, i, d):
        if self.kind(i) != 'StaticSingle' or self.par[i] != u or self.nm[d] != self.nm[i]: return False
        c = self.imported_type(i)
        return self.is_static(d) and self.can_import(u, d) and c is not None and self.is_member(c, d)
    def static_fault(self, i):
        if self.kind(i) != 'StaticSingle': return False
        u = self.par[i]
        got = [d for d in range(self.n) if self.is_imported_by(u, i, d)]
        if not got: return True
        for d in got:
            if not self.is_type(d): continue
            for e in self.types:
                if not self.is_clash(d, e): continue
                if self.is_declared_top(u, e): return True
                for j in range(self.n):
                    if j == i or self.par[j] != u: continue
                    if self.kind(j) == 'Single' and self.imported_type(j) == e: return True
                    if self.is_imported_by(u, j, e): return True
        return False

    # ---- access
    def sought(self, o):
        h = self.head[o]
        if h == 'Name':
            k = self.field(o, 'kind')[0]
            if k == 'Package': return 'Nothing'
            return 'Qualified' if truth(self.field(o, 'is_qualified')) else 'Simple'
        if h == 'Call': return {'Absent': 'Method', 'Expression': 'MethodOf', 'Name': 'MethodOf', 'Super': 'SuperMethod'}[self.field(o, 'receiver')[0]]
        return {'Select': 'FieldOf', 'SuperSelect': 'SuperField', 'New': 'Creation', 'ConstructorCall': 'CC', 'ImplicitCall': 'CCSuper', 'Constructor': 'OwnClass'}.get(h,
                'Label' if h in ('Break', 'Continue') and truth(self.field(o, 'has_label')) else 'Nothing')
    def is_super_call(self, o): return self.head[o] == 'ImplicitCall' or (self.head[o] == 'ConstructorCall' and self.field(o, 'which')[0] == 'Super')
    def is_in_body(self, c, o): return any(self.is_body_of(c, b) and b < o < self.endd[b] for b in self.kids(c))
    def tops(self, o): return [k for k in self.types if self.is_top_level(k) and k <= o < self.endd[k]]
    def through(self, s, d, rec):
        if rec is None or self.is_static(d) or self.is_type(d): return True
        return rec[1] == 0 and isinstance(rec[0], int) and self.is_at_or_above(rec[0], s)
    def is_accessible(self, d, o, rec):
        if self.role[d] in ('Local', 'Parameter', 'Label') or self.is_public(d): return True
        if self.is_private(d):
            if set(self.tops(d)) & set(self.tops(o)): return True
        elif self.is_same_package(d, o): return True
        if self.is_protected(d):
            h = self.declaring_type(d)
            if h is not None and any(self.is_in_body(s, o) and self.is_at_or_above(s, h) and self.through(s, d, rec) for s in self.types): return True
            if self.role[d] == 'Constructor' and self.is_super_call(o): return True
        return False
    def receivers(self, o):
        out = []
        if self.par[o + 1] == o:
            a = self.types_of.get(o + 1)
            if a is not None:
                if a[1] > 0: out += [(c, 0) for c in self.types if self.is_object(c)]
                elif isinstance(a[0], int): out.append(a)
        if self.named_type(o) is not None: out.append(None)
        return out
    def not_accessible(self, o):
        s = self.sought(o)
        if s == 'Nothing': return False
        if self.head[o] == 'ImplicitCall' and self.is_object(self.par[self.par[self.par[o]]]): return False
        behind = s in ('Qualified', 'FieldOf', 'MethodOf')
        d = self.t.get(o)
        if d is not None:
            rec = (self.receivers(o) if behind else []) or [None]
            if any(not self.is_accessible(d, o, r) for r in rec): return True
        if behind and self.par[o + 1] == o:
            a = self.types_of.get(o + 1)
            if a is not None and isinstance(a[0], int) and not self.is_accessible(a[0], o, None): return True
        return False

    def wrong_supertype(self, n):
        p, d = self.place(n), self.t.get(n)
        if d is None: return False
        if p == 'Superclass': return self.is_final(d) or self.is_interface(d) or self.is_inner(d)
        if p == 'Superinterface':
            return self.is_class(d) or any(self.place(m) == 'Superinterface' and self.par[m] == self.par[n] and self.t.get(m) == d for m in range(n))
        return False

    def broken(self):
        """Pairs of a row and a rule, and the rows of top-level types that break rule 2 outside bodies."""
        out = set()
        tops = {n for n in range(self.n) if self.top_clash(n)}
        for n in range(self.n):
            for r in self.type_rules(n) | self.method_rules(n): out.add((n, r))
            if self.is_second('Type', n) or self.is_inside_its_name(n): out.add((n, 2))
            for kind, r in (('Field', 3), ('Method', 4), ('Constructor', 5)):
                if self.is_second(kind, n): out.add((n, r))
            if self.is_second_local(n): out.add((n, 6))
            if self.is_second_label(n): out.add((n, 7))
            if n > 0 and self.import_clash(n - 1): out.add((n, 8))
            if n > 0 and self.not_canonical(n - 1): out.add((n, 9))
            if self.not_accessible(n): out.add((n, 10))
            if self.wrong_supertype(n): out.add((n, 13))
            if self.stands_wrong(n): out.add((n, 20))
            if self.is_static_there(n): out.add((n, 21))
            if self.static_fault(n): out.add((n, 47))
        return out, tops


WIDENS = {('Byte', 'Short'), ('Byte', 'Int'), ('Byte', 'Long'), ('Short', 'Int'), ('Short', 'Long'), ('Char', 'Int'), ('Char', 'Long'), ('Int', 'Long')}


WORDS = ['is_public', 'is_protected', 'is_private', 'is_abstract', 'is_static', 'is_final', 'is_native']
MORE = {'Class': ['is_member'], 'Interface': ['is_member'], 'Fields': [], 'Field': ['dims'], 'Method': ['is_void', 'has_body'], 'Constructor': []}


def label_of(text):
    """A label as it is printed: one with modifiers has their bits."""
    parts = text.split(':')
    if parts[0] in MORE and ' ' not in parts[0] and len(parts) == 2 + len(MORE[parts[0]]):
        b = int(parts[1])
        fields = {'modifiers': ('Modifiers', {w: ('true' if b >> k & 1 else 'false', None) for k, w in enumerate(WORDS)})}
        for k, f in enumerate(MORE[parts[0]]): fields[f] = (parts[2 + k], None)
        return (parts[0], fields)
    return R.parse_debug(text)


def read_block(lines):
    """What the trial program printed of one program."""
    rs, table, types, variables, faults, tops, unbound, cyc = [], {}, {}, set(), [], [], [], None
    for line in lines:
        p = line.split(' ')
        if p[0] == 'R':
            _, parent, name, label = line.split(' ', 3)
            rs.append((int(parent), '' if name == '-' else name, label_of(label)))
        elif p[0] == 'T': table[int(p[1])] = int(p[2])
        elif p[0] == 'Y':
            m = re.match(r'Y (\d+) (\w+)(?:\((\d+)\))? (\d+)', line)
            types[int(m[1])] = (int(m[3]) if m[3] else m[2], int(m[4]))
        elif p[0] == 'V': variables.add(int(p[1]))
        elif p[0] == 'F': faults.append((int(p[1]), int(p[2])))
        elif p[0] == 'D': tops.append(int(p[1]))
        elif p[0] == 'U': unbound.append((int(p[1]), p[2]))
        elif p[0] == 'C': cyc = int(p[1])
    rr = R.Rows([rs]) if rs else None
    return rr, table, types, variables, faults, tops, unbound, cyc
