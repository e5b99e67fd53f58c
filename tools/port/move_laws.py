#!/usr/bin/env python3
"""Moves the laws of each crate from specs/Laws to proofs/Laws, and what cites them: an edit of a definition is then tried against them
(rt reads an edit as bad where a law in specs/ rests on what it makes false). Once, after respell.py.

usage: python3 tools/port/move_laws.py FOLDER
"""
import os,re,subprocess,sys
root=sys.argv[1]
os.chdir(root)
n=0
for c in sorted(os.listdir('crates')):
  d=f'crates/{c}'
  if os.path.isdir(f'{d}/specs/Laws'):
    os.makedirs(f'{d}/proofs',exist_ok=True)
    os.rename(f'{d}/specs/Laws',f'{d}/proofs/Laws')
    os.rename(f'{d}/specs/Laws.antt',f'{d}/proofs/Laws.antt')
    lib=f'{d}/specs/Lib.antt'
    t=open(lib).read().replace('pub mod Laws\n','')
    if t.strip(): open(lib,'w').write(t)
    else: os.remove(lib)
    assert not os.path.exists(f'{d}/proofs/Lib.antt')
    open(f'{d}/proofs/Lib.antt','w').write('pub mod Laws\n')
    n+=1
pat=re.compile(r"Rattle\.(\w+)\.specs\.Laws\b")
for dp,ds,fs in os.walk('crates'):
  ds[:]=[x for x in ds if x!='out']
  for f in fs:
    if f.endswith(('.antt','.rt','.edit')):
      p=os.path.join(dp,f); t=o=open(p).read()
      t=pat.sub(r"Rattle.\1.proofs.Laws",t)
      if f.endswith('.edit'): t=re.sub(r"(?m)^file: specs/Laws/",'file: proofs/Laws/',t)
      else: t=t.replace('`Laws/','`proofs/Laws/')
      if t!=o: open(p,'w').write(t)
print(n)
