#!/usr/bin/env python3
# seed_rlibs.py CLONE..: link the proved rlibs of clones into the shared cache, by content
import sys,os,re,hashlib,time
CACHE=os.environ['RLIBS']
def run(top):
    deps={}
    for l in open(top+'/crates.txt'):
        m=re.match(r'(\w+):(.*)',l)
        if m: deps[m.group(1)]=m.group(2).split()
    memo={}
    def digest(c):
        if c in memo: return memo[c]
        h=hashlib.sha256(); base=f'{top}/crates/{c}'
        for s in ('src','specs','proofs'):
            for dp,dn,fn in sorted(os.walk(f'{base}/{s}')):
                dn.sort()
                for f in sorted(fn):
                    p=os.path.join(dp,f); h.update(os.path.relpath(p,base).encode()+b'\0'); h.update(open(p,'rb').read()+b'\1')
        for d in deps[c]: h.update((d+':'+(digest(d) if d in deps else 'kit')).encode()+b'\2')
        memo[c]=h.hexdigest()[:24]; return memo[c]
    for c in deps:
        r=f'{top}/crates/{c}/out/rlib/{c}.rlib'
        if os.path.isdir(r) and os.path.exists(r+'/format'):
            p=f'{CACHE}/{digest(c)}'; os.makedirs(p,exist_ok=True)
            if not os.path.lexists(f'{p}/{c}.rlib'):
                os.symlink(r,f'{p}/{c}.rlib'); print(time.strftime('%H:%M'),'linked',c,flush=True)
while True:
    for t in map(os.path.abspath,sys.argv[1:]):
        try: run(t)
        except Exception as e: print(t,e,flush=True)
    if os.environ.get('ONCE'): break
    time.sleep(20)
