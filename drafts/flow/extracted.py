"""The three mends of extract (lost values, returns) and of inline (throwing initializers), as the definitions of Kept.antt say them (over states) and as the code of
jr_kept does (over points). `extracted.py` prints the programs; `extracted.py SEED COUNT` holds both together on random bodies."""
import random, sys
from model import *
def clone(n):
    m=N(n.kind,[clone(k) for k in n.kids],n.name,**{k:x for k,x in n.a.items() if k not in('local','target')}); m.o=n
    for a in('v','lab'):
        if hasattr(n,a): setattr(m,a,getattr(n,a))
    return m
def walk(n):
    yield n
    for k in n.kids: yield from walk(k)
def flow_plain(rows,body):
    s=S(rows); return s,(body,('at',0),()),lambda x:s.hops(body,x),lambda x:s.point(body,x)
def flow_joined(rows,body,call,method):
    s=S(rows)
    def hops(x):
        if x[0]=='out':
            a=x[1]; p=s.point(body,a)
            if p and p[0]==call: return [(('in',(method,('at',0),()),a),False)]
            return [(('out',b),t) for b,t in s.hops(body,a)]
        _,a,c=x
        if a[1][0]=='left' and a[0]==method:
            thr=a[1][1][0]=='throw'; return [(('out',b),t) for b,t in s.hops(body,c) if t==thr]
        return [(('in',b,c),t) for b,t in s.hops(method,a)]
    return s,('out',(body,('at',0),())),hops,lambda x: s.point(body,x[1]) if x[0]=='out' else s.point(method,x[1])
def beyond(seen,a,stops):
    met=set(); open=[y for y,_ in seen[a]]
    while open:
        y=open.pop()
        if y in met: continue
        met.add(y)
        if not stops(y): open+=[z for z,_ in seen[y]]
    return met
def def_uses(f):
    s,start,hops,point=f; seen=explore(start,hops); out=set()
    for a in seen:
        p=point(a)
        if p and p[1][0]=='def':
            for b in beyond(seen,a,lambda y:(point(y) or (0,0))[1]==p[1]):
                q=point(b)
                if q and q[1]==('use',p[1][1]): out.add((p[1][1],p[0],q[0]))
    return out
# ---- extract, as jr_extract does: the run is the children i to j of a block of the method m
def extracted(tree,m,block,i,j):
    rows=rows_of(tree); resolve(rows); old=rows; run=block.kids[i:j]; lo,hi=run[0].row,old[run[-1].row]['end']
    holds=lambda k: lo<=k<hi
    fl=def_uses(flow_plain(old,m.row)); node={r['node'].row:r['node'] for r in old}
    entering=sorted({d for d,a,b in fl if not holds(d) and not holds(a) and holds(b)})
    leaving=sorted({d for d,a,b in fl if holds(a) and not holds(b)})
    named=sorted({x.v.row for r in run for x in walk(r) if hasattr(x,'v') and not holds(x.v.row)})
    fresh=[d for d in named if d not in entering]; result=leaving[0] if leaving else None
    marks={}
    def mark(n):
        c=clone(n); return c
    new=clone(tree); of={x.o:x for x in walk(new)}
    inner={}                                    # what each old local is inside the method
    ps=[]
    for d in entering: p=N('Parameter',[N('TypeUse')]); p.o=node[d]; inner[node[d]]=p; ps.append(p)
    decls=[]
    for d in fresh: l=N('Local'); l.o=node[d]; inner[node[d]]=l; decls.append(N('Locals',[N('TypeUse'),l]))
    body=of[block]; moved=body.kids[i:j]
    for r in moved:
        for x in walk(r):
            if x.kind in('Local','Parameter'): inner[x.o]=x
    outer={d:x for d,x in of.items() if x.kind in('Local','Parameter') and not any(x is y for r in moved for y in walk(r))}
    rets=[]
    if result is not None: n=N('Name'); n.v=inner[node[result]]; rets=[N('Return',[n])]
    args=[]
    for d in entering: n=N('Name'); n.v=outer[node[d]]; args.append(n)
    call=N('Call',args); st=N('Eval',[call])
    if result is not None:
        if holds(result): l=N('Local',[N('Value',[call])]); l.o=node[result]; outer[node[result]]=l; st=N('Locals',[N('TypeUse'),l])
        else: n=N('Name'); n.v=outer[node[result]]; st=N('Eval',[N('Assign',[n,call],op='=')])
    body.kids[i:j]=[st]
    meth=N('Method',[N('TypeUse')]+ps+[N('Block',decls+moved+rets)],name='m')
    of[m] and next(x for x in walk(new) if any(k is of[m] for k in x.kids)).kids.append(meth)
    inside=set(map(id,walk(meth)))
    for x in walk(new):
        if hasattr(x,'o') and hasattr(x,'v'): x.v=(inner if id(x) in inside else outer).get(x.v,outer.get(x.v))
        if hasattr(x,'lab'): x.lab=of[x.lab]
    q=rows_of(new); resolve(q)
    origin={r['node'].row:r['node'].o.row for r in q if hasattr(r['node'],'o')}
    return old,q,m.row,of[m].row,call.row,meth.row,origin
def handing(q,method): return {k for k in S(q).kids(method) if S(q).kind(k)=='Parameter'}
# ---- by the definitions
def lost_defined(q,body,call,method,origin):
    s,start,hops,point=flow_joined(q,body,call,method); seen=explore(start,hops); out=set(); own=handing(q,method)
    _,_,mh,mp=flow_plain(q,method); mine=explore((method,('at',0),()),mh)
    locals=[k for k in origin if s.kind(k) in('Local','Parameter')]
    for x in seen:
        if x[0]!='in': continue
        p=point(x)
        if not p or p[1][0]!='def' or p[0] in own: continue
        inner=p[1][1]
        if inner not in origin: continue
        for last in beyond(mine,x[1],lambda y:(mp(y) or (0,0))[1]==('def',inner)):
            if not(last[0]==method and last[1][0]=='left'): continue
            for outer in locals:
                if outer==inner or origin[outer]!=origin[inner]: continue
                for to in beyond(seen,('in',last,x[2]),lambda y:(point(y) or (0,0))[1]==('def',outer)):
                    u=point(to)
                    if u and u[1]==('use',outer): out.add((p[0],u[0]))
    return out
def held_defined(p,q,old,method,origin):
    s,start,hops,point=flow_plain(p,old); seen=explore(start,hops); out=set()
    rows={origin[k] for k in range(method+1,S(q).end(method)) if k in origin and s.kind(origin[k])=='Return'}
    for a in seen:
        x=point(a)
        if x and x[0] in rows and x[1]==('node',):
            if a[2]!=(): out.add(x[0])
            for b in beyond(seen,a,lambda y:point(y) is not None):
                if point(b) is not None and point(b)!=(old,('exit',)): out.add(x[0])
    return out
# ---- by the code
def graph_of(f,key):
    s,start,hops,point=f; ks,steps=graph(start,hops,point,key); return ks,steps
def lost_coded(q,body,call,method,origin):
    f=flow_joined(q,body,call,method); s,start,hops,point=f; ident=lambda x:x
    ks,steps=graph(start,hops,point,ident); inside=lambda x: method<=point(x)[0]<s.end(method)
    is_exit=lambda x: point(x)[1][0] in('exit','thrown') and point(x)[0]==method
    def named(x):
        k=point(x)[1]; return (k[0],origin[k[1]]) if k[0] in('def','use') and k[1] in origin else ('node',)
    kind={}
    for x in ks:
        k=named(x); kind[(1,x)]=k if k[0]=='def' and inside(x) else ('node',); kind[(2,x)]=('node',) if inside(x) else k
    ways={}
    def add(a,b): ways.setdefault(a,[]).append(b)
    for a,b,t in steps:
        if is_exit(a): add((1,a),(2,b))
        elif inside(a): add((1,a),(1,b))
        add((2,a),(2,b))
    out=set(); own=handing(q,method)
    for x in ks:
        k=kind[(1,x)]
        if k[0]!='def' or point(x)[0] in own: continue
        met=set(); open=list(ways.get((1,x),[]))
        while open:
            y=open.pop()
            if y in met: continue
            met.add(y)
            if kind[y]==('use',k[1]): out.add((point(x)[0],point(y[1])[0]))
            if kind[y]!=k: open+=ways.get(y,[])
    return out
def held_coded(p,q,old,method,origin):
    s,start,hops,point=flow_plain(p,old); ks,steps=graph(start,hops,point,lambda x:x); out=set()
    moved={origin[k] for k in range(method,S(q).end(method)) if k in origin and s.kind(origin[k])=='Return'}
    def in_finally(n):
        while n>old:
            o=s.par(n)
            if s.kind(o)=='Try' and s.at(o,'fin') and s.end(n)==s.end(o): return True
            n=o
        return False
    for a,b,t in steps:
        x=point(a)
        if x[0] in moved and x[1]==('node',) and (point(b)[1]!=('exit',) or in_finally(x[0])): out.add(x[0])
    return out
# ---- inline
def changed_between(f,d,local_ok):
    s,start,hops,point=f; seen=explore(start,hops); stop=lambda y:(point(y) or (0,0))[1]==('def',d); out=set()
    for a in seen:
        if not stop(a): continue
        for b in beyond(seen,a,stop):
            x=point(b)
            if x and x[1][0]=='def' and x[1][1]!=d and local_ok(x[1][1]):
                if any((point(c) or (0,0))[1]==('use',d) for c in beyond(seen,b,stop)): out.add(x[0])
    return out
def throwing_defined(p,body,d):
    f=flow_plain(p,body); s,start,hops,point=f; seen=explore(start,hops)
    event=any(t for a in seen if (point(a) or (0,(0,)))[1]==('node',) and d<point(a)[0]<s.end(d) for _,t in seen[a])
    return changed_between(f,d,lambda x:True) if event else set()
def throwing_coded(p,body,d):
    f=flow_plain(p,body); s,start,hops,point=f; ks,steps=graph(start,hops,point,lambda x:x)
    if not any(t and d<point(a)[0]<s.end(d) for a,b,t in steps): return set()
    ways={}; back={}
    for a,b,t in steps: ways.setdefault(a,[]).append(b); back.setdefault(b,[]).append(a)
    barred={x for x in ks if point(x)[1]==('def',d)}
    def spread(ways,start):
        met=set(); open=[y for x in start for y in ways.get(x,[])]
        while open:
            y=open.pop()
            if y in met or y in barred: continue
            met.add(y); open+=ways.get(y,[])
        return met
    behind=spread(ways,barred); before=spread(back,[x for x in ks if point(x)[1]==('use',d)])
    return {point(x)[0] for x in behind&before if point(x)[1][0]=='def'}
# ---- programs
def prog(m): return N('Program',[N('Unit',[N('Class',[N('Body',[m])],name='A')])])
def meth(b,ps=()): return N('Method',list(ps)+[b],name='f',void=True)
def blk(*s): return N('Block',list(s))
def use(l): n=N('Name'); n.v=l; return n
def call(*a): return N('Call',list(a))
def ev(e): return N('Eval',[e])
def asg(l,e): return N('Assign',[use(l),e],op='=')
def lit(): return N('Literal')
def local(e=None): return N('Local',[N('Value',[e])] if e else [])
def dec(l): return N('Locals',[N('TypeUse'),l])
def try_(b,*c,fin=None): return N('Try',[b]+list(c)+([fin] if fin else []),fin=fin is not None)
def catch(b): return N('Catch',[N('Parameter',[N('TypeUse',[N('Name')])]),b])
def ret(): return N('Return')
def show(name,m,block,i,j,wanted):
    p,q,old,new,c,mm,origin=extracted(prog(m),m,block,i,j)
    a,b=lost_defined(q,new,c,mm,origin),lost_coded(q,new,c,mm,origin); x,y=held_defined(p,q,old,mm,origin),held_coded(p,q,old,mm,origin)
    print(name,'lost',sorted((origin.get(k),origin.get(l)) for k,l in a),'held',sorted(x),'agree',a==b and x==y,'as wanted',(bool(a),bool(x))==wanted)
def programs():
    a=local(lit()); b=blk(N('Do',[N('Nest',[blk(ev(call(use(a))),ev(asg(a,lit())))]),call()]))
    show('1 carried round a loop',meth(blk(dec(a),N('While',[call(),N('Nest',[b])]))),b,0,1,(True,False))
    a=local(lit()); b=blk(ev(call()),ev(asg(a,lit())),ev(call()),ev(call()))
    show('2 lost by a throw',meth(blk(dec(a),try_(b,catch(blk(ev(call(use(a)))))))),b,1,3,(True,False))
    k=N('Parameter',[N('TypeUse')]); b=blk(N('If',[use(k),ret()]),ev(call()))
    show('3 return under finally',meth(blk(try_(b,fin=blk(ev(call()))),ev(call())),[k]),b,0,2,(False,True))
    b=blk(ret())
    show('3b return in finally',meth(blk(try_(blk(ev(call())),fin=b))),b,0,1,(False,True))
    k=N('Parameter',[N('TypeUse')]); t=try_(blk(N('If',[use(k),ret()]),ev(call())),fin=blk(ev(call()))); b=blk(t,ev(call()))
    show('3c return through finally of the run',meth(b,[k]),b,0,1,(False,True))
    a=local(lit()); b=blk(dec(a),ev(asg(a,call(use(a)))),ev(call(use(a))),ev(call(use(a))))
    show('plain: a result',meth(b),b,1,3,(False,False))
    a=local(lit()); b=blk(ev(call()),ev(asg(a,lit()))); o=blk(dec(a),N('While',[call(),N('Nest',[blk(try_(b,catch(blk(ev(call(use(a)))))))])]))
    show('plain: a throw before each value',meth(o),b,0,2,(False,False))
    k=N('Parameter',[N('TypeUse')]); b=blk(ev(call()),N('If',[use(k),ret()]),ev(call()))
    show('plain: a return at the end',meth(b,[k]),b,1,3,(False,False))
    for name,init,wanted in (('4 an event that throws',lambda:call(),True),('plain: an initializer that throws not',lit,False)):
        x=local(lit()); t=local(init()); b=blk(ev(call()),dec(t),ev(call(asg(x,lit()),use(t))))
        m=meth(blk(dec(x),try_(b,catch(blk(ev(call(use(x)))))))); p=rows_of(prog(m)); resolve(p)
        r,y=throwing_defined(p,m.row,t.row),throwing_coded(p,m.row,t.row); print(name,sorted(r),'agree',r==y,'as wanted',bool(r)==wanted)
def blocks(n):
    if n.kind=='Block' and n.kids: yield n
    for k in n.kids: yield from blocks(k)
def whole_run(run):
    # each local that is declared in the run is named in it alone; jumps stay in it
    return not any(x.kind in('Break','Continue') for r in run for x in walk(r))
def randoms(seed0,count):
    n=lost=held=thrown=bad=inl=skipped=0
    for seed in range(seed0,seed0+count):
        rng=random.Random(seed); m=G(rng).body(); t=prog(m); rows=rows_of(t)
        if len(rows)>160: continue
        resolve(rows)
        for l in [x for x in walk(m) if x.kind=='Local' and x.kids][:2]:
            a,b=throwing_defined(rows,m.row,l.row),throwing_coded(rows,m.row,l.row); inl+=1; thrown+=bool(a)
            if a!=b: bad+=1; print('DIFF inline',seed,a^b)
        bs=list(blocks(m))
        if not bs: continue
        b=rng.choice(bs); i=rng.randrange(len(b.kids)); j=rng.randint(i+1,len(b.kids))
        if not whole_run(b.kids[i:j]): continue
        try: p,q,old,new,c,mm,origin=extracted(t,m,b,i,j)
        except (KeyError,AttributeError): skipped+=1; continue
        a,z=lost_defined(q,new,c,mm,origin),lost_coded(q,new,c,mm,origin); x,y=held_defined(p,q,old,mm,origin),held_coded(p,q,old,mm,origin)
        n+=1; lost+=bool(a); held+=bool(x)
        if a!=z or x!=y: bad+=1; print('DIFF',seed,a^z,x^y)
    print('extracts',n,'with lost values',lost,'with held returns',held,'inlines',inl,'throwing',thrown,'left out',skipped,'bad',bad)
if __name__=='__main__':
    if len(sys.argv)>2: randoms(int(sys.argv[1]),int(sys.argv[2]))
    else: programs()
