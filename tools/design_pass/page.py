# Makes docs/DESIGN-PASS.md of head.md, gone.md and what changed: page.py OLD NEW, two checkouts of this repository,
# OLD at the commit of the page's first line. Works with the kit's /opt/rattle/port/contracts.py.
import json,re,subprocess
import os,sys
was,now=sys.argv[1],sys.argv[2]
here=os.path.dirname(os.path.abspath(__file__))
d=json.loads(subprocess.run(['python3','/opt/rattle/port/contracts.py',was,now,'--json'],capture_output=True,text=True).stdout)
head=open(here+'/head.md').read()
out=[head.rstrip('\n'),'']
def esc(s): return s.replace('|','\\|').replace('\n',' ')
def text(x): return x if isinstance(x,str) else ' '.join(x)
out.append('## What changed in promises, old and new\n')
out.append('Made by comparing the text of the repository at the commit of the first line with the text now. Functions whose clauses and signatures are word for word the same are left out. What is told of private functions is in the second list.\n')
def is_pub(entry,root):
    m=re.match(r'(\S+) (src/\S+) (.*)$',entry)
    if not m: return False
    c,f,n=m.groups(); name=n.split()[-1]
    try: s=open('%s/crates/%s/%s'%(root,c,f)).read()
    except Exception: return False
    return re.search(r'pub fn %s\b'%re.escape(name),s) is not None or ' for ' in n or n.split()[0] in ('ReadStore','WriteStore')
pub=[];priv=[]
for e,o,n in d['signatures changed']:
    (pub if is_pub(e,was) or is_pub(e,now) else priv).append(('signature',e,[o],[n]))
for e,ro,eo,rn,en in d['contracts changed']:
    f=lambda k,cs: ['%s %s{ %s }'%(k,(c[0]+' ') if c[0] else '',c[1]) for c in cs]
    old=f('requires',ro)+f('ensures',eo); new=f('requires',rn)+f('ensures',en)
    o2=[x for x in old if x not in new]; n2=[x for x in new if x not in old]
    (pub if is_pub(e,was) or is_pub(e,now) else priv).append(('clauses',e,o2,n2))
def show(lst):
    out.append('```text')
    for k,e,o,n in lst:
        out.append('%s: %s'%(e,k))
        for x in o: out.append('    - '+x)
        for x in n: out.append('    + '+x)
    out.append('```\n')
out.append('### Public signatures and clauses\n'); show(pub)
out.append('### Private ones\n'); show(priv)
out.append('### Ghost fields, traits\' ghost members, constants\n')
g=d['ghost items and constants']
lst=[]
for x in g['changed']:
    lst.append(x)
out.append('```text')
for x in g['changed']:
    out.append(' '.join(x[:-2])); out.append('    - '+text(x[-2])); out.append('    + '+text(x[-1]))
out.append('```\n')
out.append('### Definitions\n')
g=d['definitions']
out.append('```text')
for x in g['changed']:
    out.append(' '.join(x[:-2])); out.append('    - '+text(x[-2])); out.append('    + '+text(x[-1]))
out.append('```\n')
out.append(open(here+'/gone.md').read().rstrip('\n'))
out.append(subprocess.run(['python3',here+'/lemmas.py',was,now],capture_output=True,text=True).stdout.rstrip('\n'))
open(now+'/docs/DESIGN-PASS.md','w').write('\n'.join(out)+'\n')
