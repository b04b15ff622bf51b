from worked import *
import copy
def flow_joined(rows,body,call,method):
    s=S(rows)
    def hops(x):
        if x[0]=='out':
            a=x[1]; p=s.point(body,a)
            if p and p[0]==call: return [(('in',(method,('at',0),()),a),False)]
            return [(('out',b),t) for b,t in s.hops(body,a)]
        _,a,c=x
        if a[1][0]=='left' and a[0]==method:
            thr=a[1][1][0]=='throw'; return [(('out',b),t) for b,t in s.hops(body,c) if t==thr]
        return [(('in',b,c),t) for b,t in s.hops(method,a)]
    point=lambda x: s.point(body,x[1]) if x[0]=='out' else s.point(method,x[1])
    return s,('out',(body,('at',0),())),hops,point
def flow_plain(rows,body):
    s=S(rows); return s,(body,('at',0),()),lambda x:s.hops(body,x),lambda x:s.point(body,x)
def edges_of(flow,body,name):
    s,start,hops,point=flow; seen=explore(start,hops)
    def node(st):
        p=point(st)
        if p is None: return None
        k=p[1][0]
        if k=='entry': return 'entry' if p[0]==body else None
        if k in('exit','thrown'): return 'exit' if p[0]==body else None
        return name(p[0]) if k=='node' else None
    def ends(a,stops):
        met=[]; open=[y for y,_ in seen[a]]
        while open:
            y=open.pop()
            if y in met: continue
            met.append(y)
            if not stops(y): open+=[z for z,_ in seen[y]]
        return met
    ce=set(); du=set()
    for a in seen:
        x=node(a)
        if x is not None:
            for b in ends(a,lambda y:node(y) is not None):
                y=node(b)
                if y is not None and not (x==y and point(b)[0]<point(a)[0]<s.end(point(b)[0])): ce.add((x,y))
        p=point(a)
        if p and p[1][0]=='def':
            d=p[1][1]
            for b in ends(a,lambda y:(point(y) or (0,('',)))[1]==('def',d)):
                q=point(b)
                if q and q[1]==('use',d): du.add((p[0],q[0]))
    return ce,du,len(seen)
CH=[]
def of(n,o): n.o=o; return n
def change(name,java,old,new,dropped=None,call=None,method=None):
    r=rows_of(old); t=bind(r); q=rows_of(new); 
    u=bind_scoped(q)
    for x in r+q:
        pass
    origin={}
    for i,x in enumerate(q):
        o=getattr(x['node'],'o',None)
        if o is not None: origin[i]=o.row
    s=S(r); dr=dropped.row if dropped else None
    oldn=lambda n: None if n==dr else whole(s,n)
    newn=lambda n: oldn(origin[n]) if n in origin else None
    e1=edges_of(flow_plain(r,4),4,oldn)
    nb=4
    e2=edges_of(flow_joined(q,nb,call.row,method.row) if call else flow_plain(q,nb),nb,newn)
    print(name,e1[0]==e2[0],e1[2],e2[2]); print(' lost',sorted(e1[0]-e2[0],key=str),'new',sorted(e2[0]-e1[0],key=str)); print(' uses',sorted(e1[1]),sorted((a,b,origin.get(a),origin.get(b)) for a,b in e2[1]))
    CH.append((name,java,r,t,q,u,dr,origin,e1[0],e2[0],call.row if call else None,method.row if method else None))
def bind_scoped(rows):
    # names of locals and parameters are looked for in the method that holds them
    t={}; meth={n:r for n,r in enumerate(rows) if r['kind']=='Method'}
    for n,r in enumerate(rows):
        a=r['a']
        if 'ref' in a:
            m=max(k for k in meth if k<=n)
            for d in range(m,meth[m]['end']):
                if rows[d]['kind'] in('Local','Parameter') and rows[d]['name']==a['ref']: t[n]=(d,None); a['local']=d; break
        if 'mref' in a: t[n]=(next(k for k in meth if rows[k]['name']==a['mref']),2)
    return t
v=var
g=lambda: method('g',[param('k')],blk(ret(L(0))))
h=lambda: method('h',[],blk(),void=True)
def clone(n):
    m=N(n.kind,[clone(k) for k in n.kids],n.name,**{k:x for k,x in n.a.items() if k not in('local','target','field','makes')}); m.o=n; return m
# inline: int b = g(a); return b;  ->  return g(a);
def inlining(name,java,between):
    m=method('f',[param('a')],blk(N('Locals',[T(),N('Local',[N('Value',[call('g',v('a'))])],name='b')]),*between,ret(v('b')))); old=prog(m,g(),h())
    new=clone(old); b=new.kids[0].kids[0].kids[0].kids[0].kids[-1]; ob=m.kids[-1]
    dropped=ob.kids[0]; b.kids=b.kids[1:]; b.kids[-1].kids=[clone(dropped.kids[1].kids[0].kids[0])]
    change(name,java,old,new,dropped)
inlining('inlines_before_a_return','int f(int a) { int b = g(a); return b; } becomes int f(int a) { return g(a); }',[])
inlining('inlines_past_a_call','int f(int a) { int b = g(a); h(); return b; } becomes int f(int a) { h(); return g(a); }',[ev(call('h'))])
# extract: try { a = g(a); h(); } finally { h(); } return a;  ->  try { a = m(a); } finally { h(); } return a;
def extracting(name,java,with_return):
    run=[ev(asg('a',call('g',v('a')))),ev(call('h'))]+([ret(v('a'))] if with_return else [])
    m=method('f',[param('a')],blk(try_(blk(*run),fin=blk(ev(call('h')))),ret(v('a')))); old=prog(m,g(),h())
    new=clone(old); body=new.kids[0].kids[0].kids[0]; f=body.kids[0]; t=f.kids[-1].kids[0]
    copies=t.kids[0].kids; c=call('m',v('a')); t.kids[0].kids=[ev(asg('a',c))]
    p=of(param('a'),m.kids[1]); mm=method('m',[p],blk(*copies,ret(v('a')))); body.kids.insert(1,mm)
    change(name,java,old,new,None,c,mm)
extracting('extracts_from_a_try','int f(int a) { try { a = g(a); h(); } finally { h(); } return a; } becomes int f(int a) { try { a = m(a); } finally { h(); } return a; } and int m(int a) { a = g(a); h(); return a; }',False)
extracting('extracts_a_return','int f(int a) { try { a = g(a); h(); return a; } finally { h(); } return a; } becomes int f(int a) { try { a = m(a); } finally { h(); } return a; } and int m(int a) { a = g(a); h(); return a; return a; }',True)
def side(name,rows,t,indent='    '):
    rs=['r %d %d %d %s %s'%(x['parent'],x['end'],x['prev'],lab(x['node']),'(codes "%s")'%x['name'] if x['name'] else '[]') for x in rows]
    ts=['(%d, Declared %d %s)'%(n,d,'None' if l is None else '(Some %d)'%l) for n,(d,l) in sorted(t.items())]
    return wrap(rs,indent+'  '),' ∷ '.join(ts)+' ∷ []'
def opt(x): return 'None' if x is None else 'Some %d'%x
def el(es): return wrap(['(%s, %s)'%(node_text(a),node_text(b)) for a,b in sorted(es,key=lambda e:(order(e[0]),order(e[1])))],'    ')
def emit_changes(f):
    head=open('/tmp/work/h6/crates/jr_flow_defs/specs/Worked.antt').read()
    out=["""-- Small changes, and the edges of control before and after them.
use Rattle.std.specs.Prelude.{ℕ, true, false, List, [], ◌∷◌, Option, Some, None, codes, pos}
use Rattle.jr_base.specs.declared.text.Text.{Text}
use Rattle.jr_base.specs.declared.kind.Kind.TheVariants as token
use Rattle.jr_base.specs.declared.kind.Symbol.TheVariants as y
use Rattle.jr_tree.specs.declared.tree.Primitive.TheVariants as primitive
use Rattle.jr_tree.specs.declared.label.Label.{Label}
use Rattle.jr_tree.specs.declared.label.Label.TheVariants as is
use Rattle.jr_tree.specs.declared.label.NameKind.TheVariants as kind
use Rattle.jr_tree.specs.declared.label.NamePlace.TheVariants as place
use Rattle.jr_tree.specs.declared.label.ReceiverKind.TheVariants as on
use Rattle.jr_tree.specs.Rows.{Rows}
use Rattle.jr_defs.specs.declared.referent.Referent.{Referent}
use Rattle.jr_defs.specs.declared.referent.Referent.TheVariants.{Declared}
use Rattle.jr_flow_defs.specs.Meaning.{Meaning, meaning_of}
use Rattle.jr_flow_defs.specs.States.{State}
use Rattle.jr_flow_defs.specs.Paths.{Flow}
use Rattle.jr_flow_defs.specs.Edges.{FlowNode, Naming, body_flow, ControlEdge}
use Rattle.jr_flow_defs.specs.Kept.{Origin, old_name, new_name, Within, joined_flow}
use Rattle.jr_flow_defs.specs.Worked.{told, r, bare}

-- a program with a body, and what its names refer to
pub record Side : Type 0 where
  pub rows : Rows
  pub targets : List (ℕ × Referent)
  pub body : ℕ

-- a program before and after a change, the statement that is dropped, and the old row of each copy
pub record Changed : Type 0 where
  pub old : Side
  pub new : Side
  pub dropped : Option ℕ
  pub origins : List (ℕ × ℕ)

abbrev pub meaning : Side → Meaning
meaning s = meaning_of s.rows (told s.targets)

abbrev pub flow : Side → Flow State
flow s = body_flow s.rows (meaning s) s.body

abbrev pub origin_in : List (ℕ × ℕ) → Origin
origin_in [] n = None
origin_in (one ∷ more) n = if nat_eq one.0 n then Some one.1 else origin_in more n

abbrev pub names_before : Changed → Naming
names_before c = old_name c.old.rows c.dropped

abbrev pub names_after : Changed → Naming
names_after c = new_name c.old.rows c.dropped (origin_in c.origins)

-- the new body with the new method in place of its call
abbrev pub joined : Changed → ℕ → ℕ → Flow Within
joined c call method = joined_flow c.new.rows (meaning c.new) c.new.body call method

-- the edges of control before and after
abbrev pub Before : Changed → FlowNode → FlowNode → Type 0
Before c = ControlEdge c.old.rows (flow c.old) c.old.body (names_before c)

abbrev pub Inlined : Changed → FlowNode → FlowNode → Type 0
Inlined c = ControlEdge c.new.rows (flow c.new) c.new.body (names_after c)

abbrev pub Extracted : Changed → ℕ → ℕ → FlowNode → FlowNode → Type 0
Extracted c call method = ControlEdge c.new.rows (joined c call method) c.new.body (names_after c)
""".replace("◌∷◌, Option, Some, None, codes, pos}","◌∷◌, if◌then◌else◌, Option, Some, None, nat_eq, codes, pos}")]
    for name,java,r,t,q,u,dr,origin,e1,e2,c,m in CH:
        a,b=side(name,r,t); x,y=side(name,q,u)
        out.append('-- %s\nabbrev pub %s : Changed\n%s = record {\n  old = record {\n    rows =\n%s;\n    targets = %s;\n    body = 4;\n  };\n  new = record {\n    rows =\n%s;\n    targets = %s;\n    body = 4;\n  };\n  dropped = %s;\n  origins =\n%s;\n}\n'%(java,name,name,a,b,x,y,opt(dr),wrap(['(%d, %d)'%p for p in sorted(origin.items())],'    ')))
        print(name,'call',c,'method',m)
    open(f,'w').write('\n'.join(out))
if __name__=='__main__':
    emit_changes('/tmp/work/h6/crates/jr_flow_defs/specs/WorkedChanges.antt')
