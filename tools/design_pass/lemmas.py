# Lists the lemmas of proofs/ that are gone: lemmas.py OLD NEW, two checkouts of this repository.
import os,re,sys
from collections import defaultdict
base,new=sys.argv[1],sys.argv[2]
def decls(root):
    out={}
    for d,dirs,fs in os.walk(root+'/crates'):
        if '/out' in d: 
            dirs[:]=[]; continue
        m=re.match(r'.*/crates/([^/]+)/proofs(/.*)?$',d)
        if not m: continue
        for f in fs:
            if not f.endswith('.antt') or f=='Lib.antt': continue
            p=os.path.join(d,f); t=open(p).read()
            names=[]
            for mm in re.finditer(r"^( *)(?:unfoldable |abbrev )?(?:pub )?(?:record |data )?(?:unfoldable |abbrev )?([^\s:(){}]+)(?: \([^\n]*)? :(?: |$)",t,re.M):
                n=mm.group(2)
                if n in ('use','module','data','record','where'): continue
                if len(mm.group(1))>2: continue
                names.append(n)
            out[(m.group(1),(m.group(2) or '/')[1:]+('/' if m.group(2) else '')+f)]=(names,t)
    return out
B=decls(base); N=decls(new)
newnames=defaultdict(set)
for (c,f),(ns,t) in N.items(): newnames[c]|=set(ns)
gone=defaultdict(list)
tok=lambda t: set(re.findall(r"[^\s(){}.,;:λ\[\]`]+",t))
# users: answers files and lemma files by token
toks={k:tok(t) for k,(ns,t) in B.items()}
def users(c,name,seen):
    res=set()
    for (c2,f2),tk in toks.items():
        if name in tk:
            if '/' in f2:   # proofs/FUNCTION/Answers
                res.add((c2,f2.rsplit('/',1)[0]))
    return res
# owner map for transitive use inside lemma files: decl bodies
bodies={}
for (c,f),(ns,t) in B.items():
    if '/' in f: continue
    parts=re.split(r"(?m)^ {0,2}(?=(?:pub |abbrev |unfoldable )*[^\s:(){}]+ :(?: |$))",t)
    for p in parts:
        m=re.match(r"(?:pub |abbrev |unfoldable )*([^\s:(){}]+) :",p)
        if m: bodies.setdefault((c,m.group(1)),tok(p))
def trans(c,name):
    seen={name}; stack=[name]; res=set()
    while stack:
        n=stack.pop(); res|=users(c,n,seen)
        for (c2,m),tk in bodies.items():
            if n in tk and m not in seen: seen.add(m); stack.append(m)
    return res
lines=[]
for (c,f),(ns,t) in sorted(B.items()):
    if f.endswith('Invariants.antt') or f.endswith('Answers.antt'): continue
    g=[n for n in ns if n not in newnames[c]]
    if not g: continue
    us=set()
    for n in g: us|=trans(c,n)
    us=sorted({(('' if a==c else a+' ')+b.replace('/','::')) for a,b in us if a==c or True})
    own=[u for u in us if ' ' not in u]
    lines.append((c,f,g,own or us))
for c,f,g,u in lines:
    print('| `%s/%s` | %s | %s |'%(c,f,', '.join('`%s`'%x for x in g), ', '.join('`%s`'%x for x in u[:8]) or '-'))
