import subprocess,sys,os,re,collections,tempfile
sys.path.insert(0,'/tmp/g1')
from prelude import LANG,IO
KEYS={'undef.label':34,'not.loop.label':34,'break.outside.switch.loop':34,'cont.outside.loop':34,
 'unreachable.stmt':36,'missing.ret.stmt':37,'initializer.must.be.able.to.complete.normally':37,
 'unreported.exception.need.to.catch.or.throw':41,'unreported.exception.default.constructor':41,
 'except.never.thrown.in.try':42,'except.already.caught':43}
NUM={'Jump':34,'Unreachable':36,'Completion':37,'UncaughtException':41,'UnthrownCatch':42,'CoveredCatch':43}
progs=[]
for f in [a for a in sys.argv[1:] if a!='-r']: progs+=[p.strip() for p in re.split(r'^---.*$',open(f).read(),flags=re.M) if p.strip()]
units=[f'package p{i}; '+p for i,p in enumerate(progs)]
want=[collections.Counter() for _ in units]; other=[[] for _ in units]
def javac(which):
    d=tempfile.mkdtemp(dir='/tmp/g1')
    for i in which:
        os.mkdir(f'{d}/p{i}'); open(f'{d}/p{i}/A{i}.java','w').write(units[i])
    J=subprocess.run(['javac','-nowarn','-XDrawDiagnostics','-XDshould-stop.ifError=FLOW','-Xmaxerrs','10000','-d',d]+[f'{d}/p{i}/A{i}.java' for i in which],stdout=subprocess.PIPE,stderr=subprocess.STDOUT).stdout.decode()
    subprocess.run(['rm','-r',d])
    for line in J.split('\n'):
        m=re.match(r'A(\d+)\.java:(\d+):(\d+): compiler\.err\.([a-z.]+)',line)
        if m:
            k=m.group(4).rstrip('.'); i=int(m.group(1))
            if k in KEYS: want[i][KEYS[k]]+=1
            else: other[i].append(line)
javac(range(len(units)))
early=[i for i in range(len(units)) if want[i] or other[i]]
javac([i for i in range(len(units)) if i not in early])
data=b''.join(s.encode()+b'\0' for s in [LANG,IO]+units)+b'\1'
open('/tmp/g1/in','wb').write(data)
import shutil
reuse='-r' in sys.argv
out=open('/tmp/g1/out').read() if reuse else subprocess.run(['rt','try'],cwd='/work/g1/crates/jr_flow_scratch',input=data,stdout=subprocess.PIPE,stderr=subprocess.STDOUT).stdout.decode()
open('/tmp/g1/out','w').write(out)
lines=[l.strip('| ') for l in out.split('\n')]
us=[int(l.split()[1]) for l in lines if re.match(r'U [1-9]\d*$',l)]
if len(us)!=len(units)+2: print(len(us),len(units)); print(out[-3000:]); sys.exit(1)
got=[collections.Counter() for _ in units]; show=[[] for _ in units]
for l in lines:
    if l.startswith('F '):
        _,u,r,k,lab=l.split(' ',4); i=us.index(int(u))-2; got[i][NUM[k]]+=1; show[i].append((k,int(r)-int(u),lab))
bad=0
for i,p in enumerate(progs):
    if want[i][34]: got[i]=collections.Counter({34:got[i][34]})
    ok = got[i]==+want[i] and not other[i]
    if not ok: bad+=1
    print(('ok ' if ok else 'BAD'),i,dict(want[i]),dict(got[i]),other[i] if not ok else '',show[i])
    if not ok: print('   ',p)
print('bad',bad,'of',len(progs))
