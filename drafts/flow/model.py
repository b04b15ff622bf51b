# Rows from trees; the flow by the definitions (S) and by the code of jr_flow (C); random programs.
import random, sys
class N:
    def __init__(s,kind,kids=(),name='',**a): s.kind=kind; s.kids=list(kids); s.name=name; s.a=a
def rows_of(tree):
    rows=[]
    def put(n,par,prev):
        me=len(rows); r=dict(kind=n.kind,name=n.name,parent=par,prev=prev,a=n.a,node=n); rows.append(r)
        before=me
        for k in n.kids: before=put(k,me,before)
        r['end']=len(rows); n.row=me
        return me
    put(tree,0,0); return rows
LOOPS=('While','Do','For')
# ---------------------------------------------------------------- S: definitions
class S:
    def __init__(s,rows): s.r=rows; s.memo={}
    def end(s,n): return s.r[n]['end'] if n<len(s.r) else n+1
    def par(s,n): return s.r[n]['parent'] if n<len(s.r) else n
    def kind(s,n): return s.r[n]['kind'] if n<len(s.r) else 'Skip'
    def at(s,n,k,d=None): return s.r[n]['a'].get(k,d) if n<len(s.r) else d
    def siblings(s,k,stop):
        out=[]
        while k<stop: out.append(k); k=s.end(k)
        return out
    def kids(s,n): return s.siblings(n+1,s.end(n))
    def parts(s,n): return [('part',k) for k in s.kids(n)]
    def only_written(s,n):
        q=s.par(n); return s.kind(q)=='Assign' and s.at(q,'op')=='=' and n==q+1
    def operand(s,n):
        k=n+1
        while s.kind(k)=='Paren': k+=1
        return k
    def local(s,n): return s.at(n,'local')
    def ev(s,t,n): return [('event',n)] if t else []
    def written(s,n,k,d): return [('define',k,d)] if d is not None else [('event',n)]
    def around(s,n,kinds):
        for _ in range(n):
            if s.kind(s.par(n)) in kinds: return s.par(n)
            n=s.par(n)
        return None
    def acts(s,n):
        if n not in s.memo: s.memo[n]=s.acts_(n)
        return s.memo[n]
    def acts_(s,n):
        K=s.kind(n); P=s.parts(n); f=n+1; g=s.end(n+1) if n+1<len(s.r) else n+2; h=s.end(g) if g<len(s.r) else g+1; e=s.end(n)
        if K in('Method','Constructor'):
            ks=s.kids(n); return [('part',k) for k in ks if s.kind(k)=='Parameter']+[('part',k) for k in ks if s.kind(k)!='Parameter']
        if K=='Field': return P+[('event',n)]
        if K=='Parameter': return ([('node',n)] if s.kind(s.par(n))=='Catch' else [])+[('define',n,n)]
        if K=='Local': return P+[('define',n,n)] if n+1<e else []
        if K=='Skip': return [('node',n)]
        if K in('Eval','Locals'): return P+[('node',n)]
        if K=='If': return [('part',f),('fork',4),('part',g),('go',5),('part',h)] if h<e else [('part',f),('quit',),('part',g)]
        if K=='While': return [('part',f),('quit',),('part',g),('go',0)]
        if K=='Do': return [('part',f),('part',g),('fork',0)]
        if K=='For':
            hf,hc=s.at(n,'first'),s.at(n,'cond'); c=g if hf else f; last=s.kids(n)[-1]; u=s.end(c) if hc else c
            return ([('part',f)] if hf else [])+([('part',c),('quit',)] if hc else [])+[('part',last)]+[('part',k) for k in s.siblings(u,last)]+[('go',1 if hf else 0)]
        if K=='Switch':
            gs=s.siblings(g,e); d=any(any(s.kind(k)=='Default' for k in s.kids(x)) for x in gs)
            return [('part',f),('choose',d)]+[('part',k) for k in gs]
        if K=='Case': return []
        if K=='Break':
            t=s.at(n,'target') if s.at(n,'labelled') else s.around(n,LOOPS+('Switch',)); return P+[('jump',('break',t) if t is not None else ('return',))]
        if K=='Continue':
            if s.at(n,'labelled'):
                t=s.at(n,'target'); t=t+1 if t is not None and s.kind(t+1) in LOOPS else None
            else: t=s.around(n,LOOPS)
            return P+[('jump',('continue',t) if t is not None else ('return',))]
        if K=='Return': return P+[('jump',('return',))]
        if K=='Throw': return P+[('jump',('throw',))]
        if K=='Try': return [('part',f)]
        if K in('ConstructorCall','Call','New'): return P+[('event',n)]
        if K=='ImplicitCall': return [('event',n)]
        if K=='NewArray': return P+([('event',n)] if s.at(n,'lengths') else [])
        if K=='List':
            out=[('event',n)]
            for k in s.kids(n): out+=[('part',k),('event',k)]
            return out
        if K in('Name','Select','SuperSelect'):
            if s.only_written(n): return P
            d=s.local(n); return P+([('use',n,d)] if d is not None else s.ev(s.at(n,'field'),n))
        if K=='Index': return P+([] if s.only_written(n) else [('event',n)])
        if K=='Assign': return P+s.ev(s.at(n,'makes'),n)+s.written(n,s.operand(n),s.local(s.operand(n)))
        if K in('PreStep','PostStep'): return P+s.written(n,n,s.local(s.operand(n)))
        if K=='Conditional': return [('part',f),('fork',4),('part',g),('go',5),('part',h)]
        if K=='Binary':
            if s.at(n,'op') in('&&','||'): return [('part',f),('quit',),('part',g)]
            return [('part',f)]+s.ev(s.at(n,'shows'),n)+[('part',g)]+s.ev(s.at(n,'makes'),n)
        if K=='Not': return P+[('node',n)]
        if K=='Cast': return P+s.ev(s.at(n,'narrows'),n)
        if K=='TypeUse': return []
        return P
    def turn(s,n):
        K=s.kind(n)
        if K=='Do': return 1
        if K=='For': return (1 if s.at(n,'first') else 0)+(3 if s.at(n,'cond') else 1)
        return 0
    def behind(s,n,k):
        for i,a in enumerate(s.acts(n)):
            if a[0]=='part' and a[1]==k: return i+1
        return len(s.acts(n))
    def left(s,n,c,w): return (n,('left',c),w)
    def A(s,n,i,w): return (n,('at',i),w)
    def hops(s,body,st):
        n,mo,w=st
        if mo[0]=='at':
            i=mo[1]; all=s.acts(n); L=s.left; A=s.A; nm=('normal',)
            if i>=len(all): return [(L(n,nm,w),False)]
            a=all[i]; k=a[0]
            if k=='part': return [(A(a[1],0,w),False)]
            if k=='event': return [(A(n,i+1,w),False),(L(n,('throw',),w),True)]
            if k in('node','define','use'): return [(A(n,i+1,w),False)]
            if k=='quit': return [(A(n,i+1,w),False),(L(n,nm,w),False)]
            if k=='fork': return [(A(n,i+1,w),False),(A(n,a[1],w),False)]
            if k=='choose': return [(A(n,j,w),False) for j in range(i+1,len(all))]+([] if a[1] else [(L(n,nm,w),False)])
            if k=='go': return [(A(n,a[1],w),False)]
            if k=='jump': return [(L(n,a[1],w),a[1][0]=='throw')]
        c=mo[1]
        if n==body: return []
        return [(s.ending(body,x),False) for x in s.leave(s.par(n),n,c,w)]
    def ending(s,body,x):
        n,mo,w=x
        return (n,('left',('normal',)),w) if n==body and mo[0]=='left' and mo[1][0]!='throw' else x
    def leave(s,q,k,c,w):
        L=s.left
        if s.kind(q)=='Try':
            fin=s.at(q,'fin'); last=s.kids(q)[-1]
            def into(): return s.A(last,0,(c,)+w) if fin else L(q,c,w)
            if k==q+1:
                return ([s.A(x,0,w) for x in s.kids(q) if s.kind(x)=='Catch'] if c[0]=='throw' else [])+[into()]
            if fin and k==last:
                if not w: return []
                return [L(q,w[0],w[1:])] if c[0]=='normal' else [L(q,c,w[1:])]
            return [into()]
        if c[0]=='normal': return [s.A(q,s.behind(q,k),w)]
        if c[0]=='break' and c[1]==q: return [L(q,('normal',),w)]
        if c[0]=='continue' and c[1]==q: return [s.A(q,s.turn(q),w)]
        return [L(q,c,w)]
    def point(s,body,st):
        n,mo,w=st
        if mo[0]=='left': return None if n!=body else (n,('thrown',) if mo[1][0]=='throw' else ('exit',))
        if n==body and mo[1]==0: return (n,('entry',))
        all=s.acts(n)
        if mo[1]>=len(all): return None
        a=all[mo[1]]
        if a[0] in('event','node'): return (a[1],('node',))
        if a[0]=='define': return (a[1],('def',a[2]))
        if a[0]=='use': return (a[1],('use',a[2]))
        if a[0] in('quit','fork','choose','jump'): return (n,('node',))
        return None
    def key(s,body,st):
        p=s.point(body,st)
        if p is None: return None
        if st[1][0]=='left': return (p,st[2],0)
        same=sorted({(-n,i) for n in range(body,s.end(body)) for i,a in enumerate(s.acts(n)) if s.point(body,(n,('at',i),()))==p})
        return (p,st[2],same.index((-st[0],st[1][1])))
def explore(start,hops):
    seen={start:None}; order=[start]
    for x in order:
        seen[x]=hops(x)
        for y,_ in seen[x]:
            if y not in seen: seen[y]=None; order.append(y)
    return seen
def graph(start,hops,point,key):
    seen=explore(start,hops); steps=set()
    for a in seen:
        if point(a) is None: continue
        for thr in(False,True):
            open=[y for y,t in seen[a] if t==thr]; met=set()
            while open:
                y=open.pop()
                if y in met: continue
                met.add(y)
                if point(y) is not None: steps.add((key(a),key(y),thr))
                else: open+= [z for z,_ in seen[y]]
    ps=[a for a in seen if point(a) is not None]; ks={key(a) for a in ps}
    assert len(ks)==len(ps),'two places of one key'
    return ks,steps
# ---------------------------------------------------------------- C: the code of jr_flow
class C:
    def __init__(s,rows,body):
        s.r=rows; s.S=S(rows); s.ins=[]; s.goals=[]; s.mean=[]; s.scopes=[('body',None)]; s.scope=0; s.targets={}; s.body=body
        for m,act in((('return',),'Exit'),(('throw',),'Thrown'),(None,'Entry')):
            g=s.goal(0,m); s.place(g); s.ins.append((body,0,(act,)))
        s.row(body); s.act(body,('Go',0))
    def goal(s,scope,mean): s.goals.append([None,scope]); s.mean.append(mean); return len(s.goals)-1
    def place(s,g): s.goals[g][0]=len(s.ins)
    def act(s,n,a): s.ins.append((n,s.scope,a))
    def parts(s,n):
        for k in s.S.kids(n): s.row(k)
    def behind(s,n,a): s.parts(n); s.act(n,a)
    def guarded(s,at,a,b):
        g=s.goal(s.scope,None); s.row(a); s.act(at,('Branch',g)); s.row(b); s.place(g)
    def two(s,at):
        S_=s.S; t=at+1; y=S_.end(t); o=s.goal(s.scope,None); b=s.goal(s.scope,None)
        s.row(t); s.act(at,('Branch',o)); s.row(y); s.act(at,('Go',b)); s.place(o); s.row(S_.end(y)); s.place(b)
    def write(s,at,defining):
        d=s.S.local(s.S.operand(at)); s.act(defining,('Def',d)) if d is not None else s.act(at,('Event',))
    def innermost(s,at,brk):
        over=s.S.par(at)
        for _ in range(at):
            if s.S.kind(over) in LOOPS or (brk and s.S.kind(over)=='Switch'): return over
            if over==0: return None
            over=s.S.par(over)
        return None
    def row(s,n):
        S_=s.S; K=S_.kind(n); end=S_.end
        if K in('Method','Constructor'):
            for p in(True,False):
                for k in S_.kids(n):
                    if (S_.kind(k)=='Parameter')==p: s.row(k)
        elif K=='Field': s.behind(n,('Event',))
        elif K=='Parameter':
            if S_.kind(S_.par(n))=='Catch': s.act(n,('Node',))
            s.act(n,('Def',n))
        elif K=='Skip': s.act(n,('Node',))
        elif K in('Eval','Locals'): s.behind(n,('Node',))
        elif K=='Local':
            if n+1<end(n): s.behind(n,('Def',n))
        elif K=='If':
            t=n+1; y=end(t)
            if end(y)<end(n): s.two(n)
            else: s.guarded(n,t,y)
        elif K=='While':
            b=s.goal(s.scope,('break',n)); a=s.goal(s.scope,('continue',n)); s.targets[n]=(b,a)
            s.place(a); s.row(n+1); s.act(n,('Branch',b)); s.row(end(n+1)); s.act(n,('Go',a)); s.place(b)
        elif K=='Do':
            b=s.goal(s.scope,('break',n)); a=s.goal(s.scope,('continue',n)); s.targets[n]=(b,a); st=s.goal(s.scope,None)
            s.place(st); s.row(n+1); s.place(a); s.row(end(n+1)); s.act(n,('Branch',st)); s.place(b)
        elif K=='For':
            b=s.goal(s.scope,('break',n)); a=s.goal(s.scope,('continue',n)); s.targets[n]=(b,a); st=s.goal(s.scope,None)
            part=n+1
            if S_.at(n,'first'): s.row(part); part=end(part)
            s.place(st)
            if S_.at(n,'cond'): s.row(part); s.act(n,('Branch',b)); part=end(part)
            body=S_.kids(n)[-1]; s.row(body); s.place(a); u=part
            while u<body: s.row(u); u=end(u)
            s.act(n,('Go',st)); s.place(b)
        elif K=='Switch':
            b=s.goal(s.scope,('break',n)); s.targets[n]=(b,None); gs=[]; d=False; g=end(n+1)
            while g<end(n):
                gs.append((g,s.goal(s.scope,None)))
                for k in S_.kids(g):
                    if S_.kind(k)=='Default': d=True; break
                    if S_.kind(k)!='Case': break
                g=end(g)
            s.row(n+1); s.act(n,('Choice',[x for _,x in gs]+([] if d else [b])))
            for g,x in gs: s.place(x); s.row(g)
            s.place(b)
        elif K=='Case' or K=='TypeUse': pass
        elif K=='Labeled':
            b=s.goal(s.scope,('break',n)); s.targets[n]=(b,None); s.parts(n); s.place(b)
        elif K=='Break':
            t=S_.at(n,'target') if S_.at(n,'labelled') else s.innermost(n,True)
            g=s.targets.get(t,(None,None))[0] if t is not None else None
            s.behind(n,('Jump',0 if g is None else g))
        elif K=='Continue':
            t=S_.at(n,'target') if S_.at(n,'labelled') else s.innermost(n,False)
            if S_.at(n,'labelled') and t is not None: t=t+1
            g=s.targets.get(t,(None,None))[1] if t is not None else None
            s.behind(n,('Jump',0 if g is None else g))
        elif K=='Return': s.behind(n,('Jump',0))
        elif K=='Throw': s.behind(n,('Jump',1))
        elif K=='Try': s.tri(n)
        elif K in('ConstructorCall','Call','New'): s.behind(n,('Event',))
        elif K=='ImplicitCall': s.act(n,('Event',))
        elif K=='NewArray': s.behind(n,('Event',)) if S_.at(n,'lengths') else s.parts(n)
        elif K=='List':
            s.act(n,('Event',))
            for k in S_.kids(n): s.row(k); s.act(k,('Event',))
        elif K in('Name','Select','SuperSelect'):
            s.parts(n)
            if S_.only_written(n): return
            d=S_.local(n)
            if d is not None: s.act(n,('Use',d))
            elif S_.at(n,'field'): s.act(n,('Event',))
        elif K=='Index':
            s.parts(n)
            if not S_.only_written(n): s.act(n,('Event',))
        elif K=='Assign':
            s.parts(n)
            if S_.at(n,'makes'): s.act(n,('Event',))
            s.write(n,S_.operand(n))
        elif K in('PreStep','PostStep'): s.parts(n); s.write(n,n)
        elif K=='Conditional': s.two(n)
        elif K=='Binary':
            l=n+1; r=end(l)
            if S_.at(n,'op') in('&&','||'): s.guarded(n,l,r); return
            s.row(l)
            if S_.at(n,'shows'): s.act(n,('Event',))
            s.row(r)
            if S_.at(n,'makes'): s.act(n,('Event',))
        elif K=='Not': s.behind(n,('Node',))
        elif K=='Cast':
            s.parts(n)
            if S_.at(n,'narrows'): s.act(n,('Event',))
        else: s.parts(n)
    def tri(s,n):
        S_=s.S; outer=s.scope; fin=S_.at(n,'fin'); behind=s.goal(outer,('normal',)); last=s.goal(outer,None) if fin else None
        ks=S_.kids(n); cs=[k for k in ks if S_.kind(k)=='Catch']; cg=[s.goal(outer,None) for _ in cs]
        s.scopes.append(('guarded',outer,cg,last)); s.scope=len(s.scopes)-1
        s.row(n+1); s.act(n,('Go',behind))
        s.scopes.append(('guarded',outer,[],last)); s.scope=len(s.scopes)-1
        for k,g in zip(cs,cg): s.place(g); s.row(k); s.act(n,('Go',behind))
        if fin:
            s.scopes.append(('finally',outer)); s.scope=len(s.scopes)-1
            s.place(last); s.row(ks[-1]); s.act(n,('Resume',))
        s.scope=outer; s.place(behind)
    def leave(s,scope,w,goal,thr):
        out=[]; tgt=s.goals[goal][1]
        while True:
            if scope==tgt: out.append(((s.goals[goal][0],w),thr)); return out
            b=s.scopes[scope]
            if b[0]=='body': return out
            if b[0]=='finally': w=w[1:]
            else:
                if goal==1: out+=[((s.goals[g][0],w),thr) for g in b[2]]
                if b[3] is not None: out.append(((s.goals[b[3]][0],(goal,)+w),thr)); return out
            scope=b[1]
    def hops(s,st):
        at,w=st; n,scope,a=s.ins[at]; nx=((at+1,w),False); k=a[0]
        if k in('Exit','Thrown'): return []
        if k=='Event': return [nx]+s.leave(scope,w,1,True)
        if k=='Branch': return [nx]+s.leave(scope,w,a[1],False)
        if k=='Choice': return [h for g in a[1] for h in s.leave(scope,w,g,False)]
        if k=='Jump': return s.leave(scope,w,a[1],a[1]==1)
        if k=='Go': return s.leave(scope,w,a[1],False)
        if k=='Resume': return s.leave(scope,w,w[0] if w else 0,False)
        return [nx]
    def point(s,st):
        n,_,a=s.ins[st[0]]; k=a[0]
        if k in('Go','Resume'): return None
        return (n,{'Entry':('entry',),'Exit':('exit',),'Thrown':('thrown',)}.get(k) or (('def',a[1]) if k=='Def' else ('use',a[1]) if k=='Use' else ('node',)))
    def key(s,st):
        p=s.point(st)
        if p is None: return None
        same=[i for i in range(len(s.ins)) if s.point((i,()))==p]
        return (p,tuple(s.mean[g] for g in st[1]),same.index(st[0]))
# ---------------------------------------------------------------- random programs
class G:
    def __init__(s,rng): s.g=rng; s.depth=0
    def body(s):
        s.locals=[]; s.labels=[]; s.loops=0
        m=N('Method',[N('TypeUse')],name='f'); ps=[]
        for i in range(s.g.randint(0,2)): ps.append(N('Parameter',[N('TypeUse')]))
        m.kids+=ps; s.vars=list(ps); m.kids.append(s.block(4)); return m
    def block(s,d): return N('Block',[s.stmt(d-1) for _ in range(s.g.randint(0,3 if d>1 else 1))])
    def nest(s,d): return N('Nest',[s.block(d)])
    def init(s,d):
        if s.g.random()<.2: return N('List',[s.init(d-1) if d>0 else N('Value',[s.expr(0)]) for _ in range(s.g.randint(0,2))])
        return N('Value',[s.expr(d)])
    def local(s,d):
        l=N('Local',[s.init(d)] if s.g.random()<.7 else []); s.vars.append(l); return l
    def stmt(s,d):
        r=s.g.random; c=s.g.choice
        if d<=0: k=c(['Skip','Eval','Eval','Eval','Eval','Eval','Eval','Break','Continue','Return','Throw','Locals'])
        else: k=c(['Skip','Eval','Eval','Eval','Eval','Eval','Locals','Locals','Try','If','If','While','For','Do','Switch','Nest','If','If','While','Do','For','Switch','Labeled','Break','Continue','Return','Throw','Try','Try','Try','Nest'])
        e=lambda:s.expr(2)
        if k=='Skip': return N('Skip')
        if k=='Eval': return N('Eval',[e()])
        if k=='Locals': return N('Locals',[N('TypeUse')]+[s.local(1) for _ in range(s.g.randint(1,2))])
        if k=='If': return N('If',[e(),s.stmt(d-1)]+([s.stmt(d-1)] if r()<.5 else []))
        if k=='While': return N('While',[e(),s.stmt(d-1)])
        if k=='Do': return N('Do',[s.stmt(d-1),e()])
        if k=='For':
            f,q=r()<.5,r()<.6; kids=[]
            if f: kids.append(N('ForLocals',[N('TypeUse'),s.local(1)]) if r()<.5 else N('ForExprs',[e() for _ in range(s.g.randint(1,2))]))
            if q: kids.append(e())
            for _ in range(s.g.randint(0,2)): kids.append(e())
            kids.append(s.stmt(d-1)); return N('For',kids,first=f,cond=q)
        if k=='Switch':
            gs=[]
            for _ in range(s.g.randint(0,3)): gs.append(N('Group',[N('Default') if r()<.2 else N('Case',[N('Literal')]) for _ in range(s.g.randint(1,2))]+[s.stmt(d-1) for _ in range(s.g.randint(0,2))]))
            return N('Switch',[e()]+gs)
        if k=='Labeled':
            l=N('Labeled'); s.labels.append(l); l.kids=[s.stmt(d-1)]; s.labels.pop(); return l
        if k in('Break','Continue'):
            n=N(k,labelled=False)
            if s.labels and r()<.5: n.a['labelled']=True; n.lab=c(s.labels)
            elif r()<.05: n.a['labelled']=True
            return n
        if k=='Return': return N('Return',[e()] if r()<.5 else [])
        if k=='Throw': return N('Throw',[e()])
        if k=='Try':
            cs=[N('Catch',[N('Parameter',[N('TypeUse',[N('Name')])]),s.block(d-1)]) for _ in range(s.g.randint(0,2))]; fin=r()<.6
            return N('Try',[s.block(d-1)]+cs+([s.block(d-1)] if fin else []),fin=fin)
        return s.nest(d)
    def name(s):
        n=N('Name')
        if s.vars and s.g.random()<.7: n.v=s.g.choice(s.vars)
        elif s.g.random()<.7: n.a['field']=True
        if s.g.random()<.2: n.kids=[s.name()]
        return n
    def place(s,d):
        r=s.g.random()
        if r<.6: return s.name()
        if r<.8: return N('Index',[s.name(),s.expr(d-1)])
        if r<.9: return N('Paren',[s.place(d-1)])
        n=N('Select',[s.expr(d-1)]); n.a['field']=True; return n
    def expr(s,d):
        c=s.g.choice; b=lambda:s.g.random()<.5
        if d<=0: return c([lambda:N('Literal'),s.name,s.name])()
        k=c(['Assign','Step','Cond','Bin','And','Not','Cast','Call','New','Arr','Paren','Name','Index','Select','IsA'])
        if k=='Assign': return N('Assign',[s.place(d),s.expr(d-1)],op=c(['=','=','+=','/=']),makes=b())
        if k=='Step': return N(c(['PreStep','PostStep']),[s.place(d)])
        if k=='Cond': return N('Conditional',[s.expr(d-1) for _ in range(3)])
        if k=='Bin': return N('Binary',[s.expr(d-1),s.expr(d-1)],op='+',shows=b(),makes=b())
        if k=='And': return N('Binary',[s.expr(d-1),s.expr(d-1)],op=c(['&&','||']))
        if k=='Not': return N('Not',[s.expr(d-1)])
        if k=='Cast': return N('Cast',[N('TypeUse',[N('Name')]),s.expr(d-1)],narrows=b())
        if k=='Call': return N('Call',[s.expr(d-1) for _ in range(s.g.randint(0,2))])
        if k=='New': return N('New',[N('Name')]+[s.expr(d-1) for _ in range(s.g.randint(0,2))])
        if k=='Arr':
            if b(): return N('NewArray',[s.expr(d-1)],lengths=1)
            return N('NewArray',[N('List',[s.init(d-1) for _ in range(s.g.randint(0,2))])],lengths=0)
        if k=='Paren': return N('Paren',[s.expr(d-1)])
        if k=='Index': return N('Index',[s.expr(d-1),s.expr(d-1)])
        if k=='Select': return N('Select',[s.expr(d-1)],field=b())
        if k=='IsA': return N('IsA',[s.expr(d-1),N('TypeUse')])
        return s.name()
def resolve(rows):
    for n,r in enumerate(rows):
        x=r['node']
        if hasattr(x,'v'): r['a']['local']=x.v.row
        if hasattr(x,'lab'): r['a']['target']=x.lab.row
def compare(rows,body):
    s=S(rows); c=C(rows,body)
    gs=graph((body,('at',0),()),lambda x:s.hops(body,x),lambda x:s.point(body,x),lambda x:s.key(body,x))
    gc=graph((2,()),c.hops,c.point,c.key)
    return gs,gc
if __name__=='__main__':
    seed0=int(sys.argv[1]); count=int(sys.argv[2]); bad=0; pts=0; fin=0; mx=0
    for seed in range(seed0,seed0+count):
        g=G(random.Random(seed)); t=N('Program',[N('Unit',[N('Class',[N('Body',[g.body()])])])])
        rows=rows_of(t); resolve(rows)
        if len(rows)>400: continue
        body=4
        gs,gc=compare(rows,body); pts+=len(gs[0]); mx=max(mx,len(gs[0]))
        if gs!=gc:
            bad+=1; print('DIFF',seed,len(rows)); print(sorted(map(str,gs[0]^gc[0]))[:6]); print(sorted(map(str,gs[1]^gc[1]))[:6])
            if bad>3: break
    print('programs',count,'points',pts,'most',mx,'bad',bad)
