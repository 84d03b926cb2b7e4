#!/usr/bin/env python3
# prune.py CRATEDIR: drops the answers that the check finds alone (one pass), keeps the rest.
import os,re,subprocess,sys
crate=sys.argv[1].rstrip('/')
os.chdir(crate)
files=[]
for d,_,fs in os.walk('proofs'):
    if 'Answers.antt' in fs: files.append(os.path.join(d,'Answers.antt'))
def blocks(text):
    # header lines (use .., comments before first decl stay with decl)
    lines=text.split('\n'); out=[]; cur=[]; pend=[]
    head=[]; i=0
    started=False
    name=None
    for l in lines:
        m=re.match(r"^(?:abbrev |unfoldable )?(?:pub )?([^\s:()]+) :",l)
        if re.match(r'^(pub )?use ',l) and not started:
            head.append(l); continue
        if l.startswith('-- ') or l=='' :
            pend.append(l); continue
        if m and not l.startswith(' '):
            started=True
            nm=m.group(1)
            out.append([nm,pend+[l]]); pend=[]
        else:
            if not started: head+=pend+[l]; pend=[]
            else: out[-1][1]+=pend+[l]; pend=[]
    if out: out[-1][1]+=pend
    return head,out
def check():
    p=subprocess.run(['rt','check'],capture_output=True,text=True)
    return p.stdout+p.stderr
saved={}
for f in files:
    saved[f]=open(f).read()
base=check()
if 'logic=proved' not in base: print('not proved at start'); sys.exit(1)
isans=lambda b: re.search(r': goal\.[^\s]+$',[l for l in b[1] if ' : ' in l][0].rstrip()) is not None
cand=[f for f in files if not re.search(r'^(module|data|record)\b',saved[f],re.M)]
for f in cand: os.rename(f,f+'.off')
log=check()
open('/tmp/prune-%s.log'%os.path.basename(os.getcwd()),'w').write(log)
restored=0; dropped=[]
for f in cand:
    d=f[:-len('/Answers.antt')]
    # goals that are named as unproved for that file
    names=set()
    for m in re.finditer(r'expected answers in \./%s/Answers\.antt; `search` did not prove (.*)'%re.escape(d),log):
        names|=set(re.findall(r'`([^`]+)`',m.group(1)))
    os.rename(f+'.off',f)
    head,bl=blocks(saved[f])
    ans=[b[0] for b in bl if isans(b)]
    if not names:
        # proved alone, or depends on something unproved: decide later
        os.rename(f,f+'.off'); continue
    keep=[]
    for b in bl:
        if isans(b):
            base_n=b[0]
            if any(n==base_n or n.startswith(base_n+'-clause-') or base_n.startswith(n+'-clause-') for n in names): keep.append(b)
            else: dropped.append(f+' '+b[0])
        else: keep.append(b)
    # drop unused helpers
    while True:
        t='\n'.join('\n'.join(b[1]) for b in keep)
        un=[b for b in keep if not isans(b) and len(re.findall(r'(?<![\w-])%s(?![\w-])'%re.escape(b[0]),t))<=sum(1 for l in b[1] if re.search(r'(?<![\w-])%s(?![\w-])'%re.escape(b[0]),l))]
        if not un: break
        keep=[b for b in keep if b not in un]
    if len(keep)!=len(bl):
        open(f,'w').write('\n'.join(head)+'\n\n'+'\n'.join('\n'.join(b[1]) for b in keep).strip('\n')+'\n')
log=check()
if 'logic=proved' not in log:
    # files that are off and named now come back, files that were cut and fail come back whole
    for rnd in range(4):
        bad=set(re.findall(r'expected answers in \./(\S+)/Answers\.antt',log))|set(re.findall(r'^\./(\S+)/Answers\.antt:\d+',log,re.M))
        if not bad: break
        ch=False
        for f in cand:
            d=f[:-len('/Answers.antt')]
            if d in bad:
                if os.path.exists(f+'.off'): os.remove(f+'.off')
                open(f,'w').write(saved[f]); ch=True
        log=check()
        if 'logic=proved' in log or not ch: break
if 'logic=proved' in log:
    for f in cand:
        if os.path.exists(f+'.off'):
            os.remove(f+'.off'); dropped.append(f+' (whole)')
    print('PROVED'); 
    for f in cand:
        if os.path.exists(f) and open(f).read()==saved[f]: dropped=[x for x in dropped if not x.startswith(f+' ')]
    print('\n'.join(dropped)); 
else:
    for f in cand:
        if os.path.exists(f+'.off'): os.remove(f+'.off')
        open(f,'w').write(saved[f])
    print('RESTORED ALL; see log'); open('/tmp/prune-%s.log2'%os.path.basename(os.getcwd()),'w').write(log)
