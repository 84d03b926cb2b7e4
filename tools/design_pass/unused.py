import os,re,sys
from collections import defaultdict
root=sys.argv[1]
files={}
for d,dirs,fs in os.walk(root+'/crates'):
    if d.endswith('/out'): dirs[:]=[]; continue
    for f in fs:
        if f.endswith('.antt') or f.endswith('.rt'):
            p=os.path.join(d,f); files[p]=open(p).read()
tok=lambda t: set(re.findall(r"[^\s(){}.,;:λ\[\]`]+",t))
decl=defaultdict(list); roots=set()
def strip_use(t): return '\n'.join(l for l in t.split('\n') if not re.match(r'^ *(pub |ghost )?use ',l) and not l.strip().startswith('--'))
for p,t in files.items():
    m=re.match(r'.*/crates/([^/]+)/proofs/([^/]+)\.antt$',p)
    if m and m.group(2)!='Lib':
        body=strip_use(t)
        parts=re.split(r"(?m)^(?= {0,4}(?:(?:pub|abbrev|unfoldable|data|record) )*[^\s:(){}|]+(?: \([^\n]*?\))* :(?: |$))",body)
        for q in parts:
            mm=re.match(r" *(?:(?:pub|abbrev|unfoldable|data|record) )*([^\s:(){}]+)",q)
            if mm and ' :' in q.split('\n')[0]: decl[mm.group(1)].append((m.group(1)+'/'+m.group(2),tok(q)))
            else: roots|=tok(q)
    else:
        roots|=tok(strip_use(t)) if p.endswith('.antt') else tok(t)
reach=set(); stack=[n for n in decl if n in roots]
while stack:
    n=stack.pop()
    if n in reach: continue
    reach.add(n)
    for f,tk in decl[n]:
        for k in tk:
            if k in decl and k not in reach: stack.append(k)
for n in sorted(decl):
    if n not in reach:
        for f,_ in decl[n]: print(f,n)
