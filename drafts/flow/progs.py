from worked import *
g=lambda: method('g',[param('k')],blk(ret(L(0))))
h=lambda: method('h',[],blk(),void=True)
v=var
add('an_if_with_else','int f(int a) { int r; if (a < 1) r = a; else r = g(a); return r; }',
  method('f',[param('a')],blk(local('r'),N('If',[bin('<',v('a'),L(1)),ev(asg('r',v('a'))),ev(asg('r',call('g',v('a'))))]),ret(v('r')))),g())
add('a_while_with_break','int f(int a, int b) { while (a < 9) { if (a == b) break; a++; } return a; }',
  method('f',[param('a'),param('b')],blk(N('While',[bin('<',v('a'),L(9)),nest(N('If',[bin('==',v('a'),v('b')),brk()]),ev(inc('a')))]),ret(v('a')))))
add('a_return_through_finally','int f(int a) { try { return g(a); } finally { a = 0; h(); } }',
  method('f',[param('a')],blk(try_(blk(ret(call('g',v('a')))),fin=blk(ev(asg('a',L(0))),ev(call('h')))))),g(),h())
add('a_call_that_throws','int f(int a) { try { a = g(a); } catch (E e) { a = 2; } return a; }',
  method('f',[param('a')],blk(try_(blk(ev(asg('a',call('g',v('a'))))),catch('e',blk(ev(asg('a',L(2)))))),ret(v('a')))),g())
add('a_finally_that_breaks','void f(int a) { while (a < 9) try { h(); return; } finally { break; } }',
  method('f',[param('a')],blk(N('While',[bin('<',v('a'),L(9)),try_(blk(ev(call('h')),ret()),fin=blk(brk()))])),void=True),h())
add('a_for_with_continue','void f(int n) { for (int i = 0; i < n; i = g(i)) { if (i == 3) continue; h(); } }',
  method('f',[param('n')],blk(N('For',[N('ForLocals',[T(),N('Local',[N('Value',[L(0)])],name='i')]),bin('<',v('i'),v('n')),asg('i',call('g',v('i'))),nest(N('If',[bin('==',v('i'),L(3)),cont()]),ev(call('h')))],first=True,cond=True)),void=True),g(),h())
add('a_do_with_continue','void f(int k) { do { if (k == 3) continue; h(); } while (g(k) < 9); }',
  method('f',[param('k')],blk(N('Do',[nest(N('If',[bin('==',v('k'),L(3)),cont()]),ev(call('h'))),bin('<',call('g',v('k')),L(9))])),void=True),g(),h())
add('a_switch_with_a_labeled_break','void f(int k) { x: do { switch (k) { case 1: h(); case 2: k = 3; break; default: break x; } } while (k < 9); }',
  method('f',[param('k')],blk(N('Labeled',[N('Do',[nest(N('Switch',[v('k'),N('Group',[N('Case',[L(1)]),ev(call('h'))]),N('Group',[N('Case',[L(2)]),ev(asg('k',L(3))),brk()]),N('Group',[N('Default'),brk('x')])])),bin('<',v('k'),L(9))])],name='x')),void=True),h())
add('a_test_of_two_conditions','int f(int a, int b) { return a > 0 && b / a == 2 ? a : (b = a); }',
  method('f',[param('a'),param('b')],blk(ret(N('Conditional',[bin('&&',bin('>',v('a'),L(0)),bin('==',bin('/',v('b'),v('a')),L(2))),v('a'),N('Paren',[asg('b',v('a'))])])))))
add('a_finally_for_each_completion','int f(int a) { try { if (a < 1) return a; a = g(a); } finally { h(); } return a; }',
  method('f',[param('a')],blk(try_(blk(N('If',[bin('<',v('a'),L(1)),ret(v('a'))]),ev(asg('a',call('g',v('a'))))),fin=blk(ev(call('h')))),ret(v('a')))),g(),h())
def nm(x,q=None,**a):
    n=N('Name',[q] if q else [],name=x,nq=q is not None,**a); n.a.setdefault('nk','Variable'); n.a.setdefault('np','Expression'); return n
def ql(x,q=None): return nm(x,q,nk='Ambiguous',np='Qualifier',ref=x)
def fields(ty,x): return N('Fields',[ty,N('Field',name=x)])
TA=lambda: N('TypeUse',[N('Name',name='A',nk='Type',np='Other',cref=True)])
TI=lambda: N('TypeUse',dims=1)
add('a_longer_name','A p; int n; int f(A o) { return o.p.n; }',
  method('f',[param('o',TA())],blk(ret(nm('n',ql('p',ql('o')),ref='n')))),fields(TA(),'p'),fields(T(),'n'))
add('elements_of_an_array','void f(int[] x, int i) { x[i] += g(i); x[i] = x.length; }',
  method('f',[param('x',TI()),param('i')],blk(ev(asg(N('Index',[v('x'),v('i')]),call('g',v('i')),'+=')),ev(asg(N('Index',[v('x'),v('i')]),nm('length',ql('x'),len=True)))),void=True),g())
if __name__=='__main__':
    for name,java,rows,tt,body,ce,du,k in PROGS:
        print('==',name,k); print(java)
        for n,r in enumerate(rows):
            if body<=n<rows[body]['end']: print('  ',n,r['kind'],r['name'],'->',tt.get(n))
        print(sorted(ce,key=str)); print(sorted(du))
    if len(sys.argv)>1: emit(sys.argv[1])
