# Worked programs: Java trees -> rows, targets, expected edges by the model; writes specs/Worked.antt
import sys
from model import *
def lab(n):
    a=n.a; k=n.kind
    b=lambda x:'true' if x else 'false'
    t={'Method':'(is.Method bare %s true)'%b(a.get('void')),'Parameter':'(is.Parameter false 0)','Local':'(is.Local false 0)','Name':'(is.Name kind.%s place.%s %s)'%(a.get('nk','Variable'),a.get('np','Expression'),b(a.get('nq'))),
     'TypeUse':'(is.TypeUse %s %d)'%('(Some primitive.Int)' if not n.kids else 'None',a.get('dims',0)),'Class':'(is.Class bare false)','For':'(is.For %s %s)'%(b(a.get('first')),b(a.get('cond'))),
     'Break':'(is.Break %s)'%b(a.get('labelled')),'Continue':'(is.Continue %s)'%b(a.get('labelled')),'Try':'(is.Try %s)'%b(a.get('fin')),'Call':'(is.Call on.Absent)',
     'Assign':'(is.Assign y.%s)'%{'=':'Assign','+=':'PlusAssign'}.get(a.get('op'),'Assign'),'Binary':'(is.Binary y.%s)'%{'<':'Less','==':'Equal','+':'Plus','/':'Slash','&&':'AndAnd','||':'OrOr','>':'Greater'}.get(a.get('op'),'Plus'),
     'PostStep':'(is.PostStep y.PlusPlus)','Literal':'(is.Literal (token.Int (pos %s)))'%a.get('v',0) if a.get('v')!='true' else '(is.Literal (token.Word word.True))','Field':'(is.Field bare 0)','Fields':'(is.Fields bare)','Not':'(is.Unary y.Not)'}
    return t.get(k,'is.'+k)
def L(v): return N('Literal',v=v)
class P:
    def __init__(s): s.env=[{}]; s.fields={}; s.methods={}; s.labels={}
def T(): return N('TypeUse')
def param(x,ty=None): return N('Parameter',[ty or T()],name=x)
def var(x): return N('Name',name=x,ref=x)
def call(m,*as_): return N('Call',list(as_),name=m,mref=m)
def ev(e): return N('Eval',[e])
def asg(x,e,op='='): return N('Assign',[var(x) if isinstance(x,str) else x,e],op=op)
def bin(op,a,b): return N('Binary',[a,b],op=op)
def blk(*s): return N('Block',list(s))
def nest(*s): return N('Nest',[blk(*s)])
def local(x,e=None): return N('Locals',[T(),N('Local',[N('Value',[e])] if e else [],name=x)])
def ret(e=None): return N('Return',[e] if e else [])
def brk(l=None): return N('Break',name=l or '',labelled=l is not None,lref=l)
def cont(l=None): return N('Continue',name=l or '',labelled=l is not None,lref=l)
def inc(x): return N('PostStep',[var(x)])
def method(x,ps,b,void=False): return N('Method',([] if void else [T()])+ps+[b],name=x,void=void)
def exc(): return N('TypeUse',[N('Name',name='E',nk='Type',np='Other',tref='E')])
def catch(x,b): return N('Catch',[param(x,exc()),b])
def try_(b,*rest,fin=None): return N('Try',[b]+list(rest)+([fin] if fin else []),fin=fin is not None)
def prog(m,*others): return N('Program',[N('Unit',[N('Class',[N('Body',[m]+list(others))],name='A')])])
TARGETS=[]
def bind(rows):
    t={}
    decl={}
    for n,r in enumerate(rows):
        if r['kind'] in('Local','Parameter','Field','Method','Labeled') and (r['kind'],r['name']) not in decl: decl[(r['kind'],r['name'])]=n
    for n,r in enumerate(rows):
        a=r['a']; 
        if 'ref' in a:
            for k in('Local','Parameter','Field'):
                if (k,a['ref']) in decl:
                    d=decl[(k,a['ref'])]; t[n]=(d,3 if k=='Field' else None)
                    # row of Class is 2
                    if k=='Field': a['field']=True; t[n]=(d,2)
                    else: a['local']=d
                    break
        if a.get('cref'): t[n]=(2,None)
        if a.get('len'): t[n]=('len',None); a['field']=True
        if 'mref' in a: t[n]=(decl[('Method',a['mref'])],2)
        if a.get('lref'): t[n]=(decl[('Labeled',a['lref'])],None); a['target']=decl[('Labeled',a['lref'])]
        if r['kind']=='Binary' and a['op'] in('/',): a['makes']=True
    return t
def whole(s,n):
    while s.kind(n)=='Name' and s.at(n,'np')=='Qualifier': n=s.par(n)
    return n
def edges(rows,body):
    s=S(rows); seen=explore((body,('at',0),()),lambda x:s.hops(body,x)); 
    def node(st):
        p=s.point(body,st)
        if p is None: return None
        k=p[1][0]
        if k=='entry': return 'entry'
        if k in('exit','thrown'): return 'exit'
        return whole(s,p[0]) if k=='node' else None
    def ends(a,stops):
        met=[]; open=[y for y,_ in seen[a]]
        while open:
            y=open.pop()
            if y in met: continue
            met.append(y)
            if not stops(y): open+=[z for z,_ in seen[y]]
        return met
    ce=set(); du=set()
    for a in seen:
        x=node(a)
        if x is not None:
            for b in ends(a,lambda y:node(y) is not None):
                y=node(b)
                if y is not None and not (x==y and s.point(body,b)[0]<s.point(body,a)[0]<s.end(s.point(body,b)[0])): ce.add((x,y))
        p=s.point(body,a)
        if p and p[1][0]=='def':
            d=p[1][1]
            for b in ends(a,lambda y:s.point(body,y)==None and False or (s.point(body,y) or (0,('',)))[1]==('def',d)):
                q=s.point(body,b)
                if q and q[1]==('use',d): du.add((p[0],q[0]))
    return ce,du,len(seen)
PROGS=[]
def add(name,java,m,*others):
    t=prog(m,*others); rows=rows_of(t); tt=bind(rows); body=4
    for n,r in enumerate(rows):
        if r['kind']=='Call': r['a']['recv']='Absent'
    ce,du,k=edges(rows,body); gs,gc=compare(rows,body); assert gs==gc,name
    PROGS.append((name,java,rows,tt,body,ce,du,k))
def wrap(items,indent,width=150):
    lines=[]; cur=indent
    for i in items:
        if len(cur)+len(i)+3>width: lines.append(cur.rstrip()); cur=indent
        cur+=i+' ∷ '
    lines.append(cur.rstrip()); return '\n'.join(lines)+' []'
def node_text(x): return 'entry' if x=='entry' else 'exit' if x=='exit' else 'acting %d'%x
def order(x): return -1 if x=='entry' else 10**6 if x=='exit' else x
def emit(f):
    out=['''-- Small programs with the edges of control and from definitions to uses of one of their bodies. Rows are written as label and identifier, with the row round them, the
-- row where they end, and the row before.
use Rattle.std.specs.Prelude.{ℕ, Bool, true, false, ◌&&◌, if◌then◌else◌, List, [], ◌∷◌, Option, Some, None, nat_eq, codes, pos}
use Rattle.std.specs.List.{list_all}
use Rattle.jr_base.specs.declared.text.Text.{Text}
use Rattle.jr_base.specs.declared.kind.Kind.TheVariants as token
use Rattle.jr_base.specs.declared.kind.Symbol.TheVariants as y
use Rattle.jr_tree.specs.declared.tree.Primitive.TheVariants as primitive
use Rattle.jr_tree.specs.declared.label.Label.{Label}
use Rattle.jr_tree.specs.declared.label.Label.TheVariants as is
use Rattle.jr_tree.specs.declared.label.Modifiers.{Modifiers}
use Rattle.jr_tree.specs.declared.label.NameKind.TheVariants as kind
use Rattle.jr_tree.specs.declared.label.NamePlace.TheVariants as place
use Rattle.jr_tree.specs.declared.label.ReceiverKind.TheVariants as on
use Rattle.jr_tree.specs.declared.row.Row.{Row}
use Rattle.jr_tree.specs.Decls.{modifiers_of}
use Rattle.jr_tree.specs.Rows.{Rows}
use Rattle.jr_defs.specs.declared.referent.Referent.{Referent}
use Rattle.jr_defs.specs.declared.referent.Referent.TheVariants.{Unbound, Declared}
use Rattle.jr_defs.specs.Referents.{Table}
use Rattle.jr_plain.specs.Search.{among}
use Rattle.jr_plain.specs.Same.{same_pair}
use Rattle.jr_flow_defs.specs.Meaning.{Meaning, meaning_of}
use Rattle.jr_flow_defs.specs.States.{State}
use Rattle.jr_flow_defs.specs.Paths.{Flow}
use Rattle.jr_flow_defs.specs.Edges.{FlowNode, entry, exit, acting, Naming, body_flow, ControlEdge, DefUse}
use Rattle.jr_flow_defs.specs.Kept.{old_name}

-- a program, what its names refer to, the row of a body, and its edges
pub record Worked : Type 0 where
  pub rows : Rows
  pub targets : List (ℕ × Referent)
  pub body : ℕ
  pub edges : List (FlowNode × FlowNode)
  pub uses : List (ℕ × ℕ)

abbrev pub told : List (ℕ × Referent) → Table
told [] n = Unbound
told (one ∷ more) n = if nat_eq one.0 n then one.1 else told more n

abbrev pub flow_of : Worked → Flow State
flow_of w = body_flow w.rows (meaning_of w.rows (told w.targets)) w.body

abbrev pub naming_of : Worked → Naming
naming_of w = old_name w.rows None

abbrev r : ℕ → ℕ → ℕ → Label → Text → Row
r over stop before l x = record { label = l; name = x; parent = over; end = stop; previous = before }

abbrev bare : Modifiers
bare = modifiers_of []
''']
    for name,java,rows,tt,body,ce,du,k in PROGS:
        rs=['r %d %d %d %s %s'%(x['parent'],x['end'],x['prev'],lab(x['node']),'(codes "%s")'%x['name'] if x['name'] else '[]') for x in rows]
        ts=['(%d, ArrayLength)'%n if d=='len' else '(%d, Declared %d %s)'%(n,d,'None' if l is None else '(Some %d)'%l) for n,(d,l) in sorted(tt.items())]
        es=['(%s, %s)'%(node_text(a),node_text(b)) for a,b in sorted(ce,key=lambda e:(order(e[0]),order(e[1])))]
        us=['(%d, %d)'%u for u in sorted(du)]
        out.append('-- %s\nabbrev pub %s : Worked\n%s = record {\n  rows =\n%s;\n  targets = %s;\n  body = %d;\n  edges =\n%s;\n  uses = %s;\n}\n'%(java,name,name,wrap(rs,'      '),(' ∷ '.join(ts)+' ∷ []') if ts else '[]',body,wrap(es,'      '),' ∷ '.join(us)+' ∷ []' if us else '[]'))
    open(f,'w').write('\n'.join(out))
