#!/usr/bin/env python3
"""Compares the signatures of all laws and definitions of two trees that have the same spelling, and prints each that differs.

usage: python3 tools/port/laws.py OLD NEW     OLD: LANDED after port.py, respell.py, move_laws.py and rename_when.py
"""
import os,re,glob,sys
A,B=sys.argv[1:3]
def sigs(p):
  t=open(p).read()
  t='\n'.join(l.split('--')[0].rstrip() for l in t.split('\n'))
  lines=t.split('\n'); out={}; i=0; stack=[]
  while i<len(lines):
    l=lines[i]
    m=re.match(r"^(\s*)((?:pub |abbrev |unfoldable |private )*)([^\s(){}\[\],.;:λ→=]+)\s*((?:\{[^}]*\}\s*|\([^)]*\)\s*)*):(?!:)(.*)$",l)
    if m and m[3] not in('where','let','in'):
      ind=len(m[1]); s=l.strip(); j=i+1
      while j<len(lines) and lines[j].strip() and (len(lines[j])-len(lines[j].lstrip()))>ind and not re.match(r"\s*(unfolding|where)\b",lines[j]): s+=' '+lines[j].strip(); j+=1
      out.setdefault(m[3],[]).append(re.sub(r'\s+',' ',s)); i=j; continue
    m=re.match(r"^(\s*)(pub )?(record|data|module) (.*)$",l)
    if m: out.setdefault('#'+m[3],[]).append(re.sub(r'\s+',' ',l.strip()))
    i+=1
  return out
tot=0
for top in ('proofs/Laws','specs'):
  for p in sorted(glob.glob(f'{A}/crates/*/{top}/**/*.antt',recursive=True)):
    q=B+p[len(A):]
    if not os.path.exists(q): print('missing',q); continue
    a,b=sigs(p),sigs(q)
    for n in a:
      tot+=len(a[n])
      if a[n]!=b.get(n):
        print(p[len(A)+8:],n); 
        for x,y in zip(a[n],b.get(n,[])):
          if x!=y: print('   -',x[:200]); print('   +',y[:200])
        if len(a[n])!=len(b.get(n,[])): print('   count',len(a[n]),len(b.get(n,[])))
    for n in b:
      if n not in a: print(p[len(A)+8:],'new',n)
print(tot)
