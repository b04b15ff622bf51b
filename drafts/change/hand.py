"""Runs the tries of a list: hand.py REFACTOR LIST. `ok` is as expected, `BAD` is not, and what `?` shows is to be looked at."""
import tempfile,resource,os,sys,subprocess,shutil,time,re
BIN=sys.argv[1]; D=os.path.join(tempfile.mkdtemp(),'d')
TOK=re.compile(rb'"(?:\\.|[^"\\])*"|\'(?:\\.|[^\'\\])*\'|//[^\n\r]*|/\*.*?\*/|[A-Za-z_$\x80-\xff][\w$\x80-\xff]*|\d\w*|\s+|.',re.S)
def at(text,name,k):
    n=0
    for m in TOK.finditer(text):
        if m.group()==name:
            n+=1
            if n==k: return m.start()
    raise Exception('no %r#%d'%(name,k))
n=0
def t(title,files,words,line=None,after=None,stdin=None):
    """words: 'rename p/C.java y#1 x'; after: {path: text or None} parts that changed (all other equal)"""
    global n; n+=1
    files={p:(x.encode() if isinstance(x,str) else x) for p,x in files.items()}
    shutil.rmtree(D,ignore_errors=True); os.makedirs(D)
    for p,x in files.items():
        q=os.path.join(D,p); os.makedirs(os.path.dirname(q),exist_ok=True); open(q,'wb').write(x)
    ws=words if isinstance(words,list) else words.split(' ')
    ws=list(ws)
    if ws[0] in('rename','move','inline','pullup') and len(ws)>2 and re.match(r'.+#\d+$',ws[2]):
        nm,k=ws[2].rsplit('#',1); ws[2]=str(at(files[ws[1]],nm.encode(),int(k)))
    def sub(m):
        return m.group(1)+':'+str(at(files[m.group(1)],m.group(2).encode(),int(m.group(3))))
    if line: line=re.sub(r'([\w/]+\.java):([\w$]+)#(\d+)',sub,line)
    c0=resource.getrusage(resource.RUSAGE_CHILDREN); s=time.time()
    try: r=subprocess.run(['nice','-n','5',BIN,D]+ws,input=stdin.encode() if stdin else b'',stdout=subprocess.PIPE,stderr=subprocess.PIPE,timeout=400)
    except subprocess.TimeoutExpired: print('TIMEOUT',title,ws); return
    took=time.time()-s; c1=resource.getrusage(resource.RUSAGE_CHILDREN); took=c1.ru_utime-c0.ru_utime+c1.ru_stime-c0.ru_stime
    got=r.stdout.decode(errors='replace').strip()
    left={}
    for top,_,names in os.walk(D):
        for nm in names:
            p=os.path.join(top,nm); q=os.path.relpath(p,D)
            if not q.startswith('.refactor'): left[q]=open(p,'rb').read()
    want=dict(files)
    for p,x in (after or {}).items():
        if x is None: want.pop(p,None)
        else: want[p]=x.encode() if isinstance(x,str) else x
    bad=[]
    if line is not None and got!=line: bad.append('line: got %r want %r'%(got[:300],line))
    if after is not None and left!=want or (after is None and r.returncode!=0 and left!=files):
        for p in sorted(set(left)|set(want)):
            if left.get(p)!=want.get(p): bad.append('file %s:\n   got  %r\n   want %r'%(p,(left.get(p) or b'none')[:400],(want.get(p) or b'none')[:400]))
    if r.stderr.strip(): bad.append('stderr '+r.stderr.decode(errors='replace')[:600])
    if took>10: bad.append('took %.1f s'%took)
    wsx=[w[:60] for w in ws]
    if bad:
        print('BAD  %s: %s status %d\n  '%(title,' '.join(wsx),r.returncode)+'\n  '.join(bad))
        for p,x in files.items():
            if len(x)<600: print('    --- %s\n    %r'%(p,x))
    elif line is None and after is None:
        print('?    %s: %s -> %s (status %d, %.1f s)'%(title,' '.join(wsx),got[:200],r.returncode,took))
        for p in sorted(set(left)|set(files)):
            if left.get(p)!=files.get(p): print('      %s: %r'%(p,(left.get(p) or b'none')[:500]))
    else: print('ok   %s -> %s (%.1f s cpu)'%(title,got[:120],took))
    sys.stdout.flush()
exec(open(sys.argv[2]).read())
print(n,'tries')
