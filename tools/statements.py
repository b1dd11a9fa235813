#!/usr/bin/env python3
"""Statements of lemmas in proofs/*.antt (and module headers) at COMMIT and now: changed, gone, new."""
import re, subprocess, sys, collections
root, commit = sys.argv[1], sys.argv[2]
def git(*a): return subprocess.run(['git','-C',root,*a],capture_output=True,text=True).stdout
def files(rev):
    if rev: names=git('ls-tree','-r','--name-only',rev).split('\n')
    else: names=git('ls-files').split('\n')
    return [n for n in names if re.match(r'crates/[^/]+/proofs/[^/]+\.antt$',n)]
def text(rev,n):
    return git('show',f'{rev}:{n}') if rev else open(f'{root}/{n}').read()
def statements(rev):
    out=collections.defaultdict(list)
    for n in files(rev):
        crate=n.split('/')[1]
        lines=text(rev,n).split('\n')
        i=0
        while i<len(lines):
            l=re.sub(r'\s*--.*','',lines[i])
            m=re.match(r'(\s*)(?:abbrev |unfoldable )?(pub )?([^\s:()]+) : (.*)',l)
            if m and m.group(3) not in ('let','use','module') and ' = ' not in l.split(' : ')[0]:
                ind=len(m.group(1)); name=m.group(3); body=[m.group(4)]
                i+=1
                while i<len(lines):
                    k=lines[i]
                    if not k.strip() or len(k)-len(k.lstrip())<=ind or k.strip().startswith('unfolding'): break
                    body.append(re.sub(r'\s*--.*','',k).strip()); i+=1
                # only a declaration if the next line defines it
                nxt=[x for x in lines[i:i+3] if x.strip()]
                if nxt and (nxt[0].strip().startswith('unfolding') or nxt[0].strip().split()[0]==name):
                    out[(crate,name)].append(((m.group(2) or '').strip(),re.sub(r'\s+',' ',' '.join(body))))
            else: i+=1
    return out
a=statements(commit); b=statements(None)
ch=[];gone=[];new=[]
for k in sorted(set(a)|set(b)):
    if k not in b: gone.append(k)
    elif k not in a: new.append(k)
    elif sorted(a[k])!=sorted(b[k]): ch.append(k)
print(f'statements {sum(map(len,a.values()))} -> {sum(map(len,b.values()))}: changed {len(ch)}, gone {len(gone)}, new {len(new)}')
for k in ch:
    print(f'- `{k[0]}` `{k[1]}`')
    for _,t in a[k]: print('  - old `'+t+'`')
    for _,t in b[k]: print('  - new `'+t+'`')
print('gone:',', '.join(f'{c} {n}' for c,n in gone))
print('new:',', '.join(f'{c} {n}' for c,n in new))
