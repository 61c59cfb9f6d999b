#!/usr/bin/env python3
# will.py CLONE: writes the digests of the clone's crates into WILL
import sys,re,os,hashlib
top=os.path.abspath(sys.argv[1]); CACHE=os.environ['RLIBS']
deps={}
for l in open(top+'/crates.txt'):
    m=re.match(r'(\w+):(.*)',l)
    if m: deps[m.group(1)]=m.group(2).split()
memo={}
def digest(c):
    if c in memo: return memo[c]
    h=hashlib.sha256(); base=f'{top}/crates/{c}'
    for s in ('src','specs','proofs'):
        for dp,dn,fn in sorted(os.walk(f'{base}/{s}')):
            dn.sort()
            for f in sorted(fn):
                p=os.path.join(dp,f); h.update(os.path.relpath(p,base).encode()+b'\0'); h.update(open(p,'rb').read()+b'\1')
    for d in deps[c]: h.update((d+':'+(digest(d) if d in deps else 'kit')).encode()+b'\2')
    memo[c]=h.hexdigest()[:24]; return memo[c]
open(CACHE+'/WILL','w').write('\n'.join(digest(c) for c in deps)+'\n')
