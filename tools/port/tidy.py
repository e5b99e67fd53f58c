#!/usr/bin/env python3
"""Drops imports of .antt files that their text does not name.

usage: python3 tools/port/tidy.py FOLDER CRATE..
"""
import re,os,sys
root=sys.argv[1]; crates=sys.argv[2:]
def tokens_used(body,name):
  if '◌' in name:
    parts=[x for x in name.split('◌') if x]
    if name in body: return True
    if name=='◌>>=◌' or name=='◌>>◌': return bool(re.search(r"\bdo\b",body)) or any(p in body for p in parts)
    for p in parts:
      if p=='-':
        if not re.search(r"(?<=\s)-(?=\s)",body): return False
      elif p=='+':
        if not re.search(r"(?<=\s)\+(?=\s)",body): return False
      elif p in('*','/','<','%','^','|','&'):
        if not re.search(r"(?<=\s)"+re.escape(p)+r"(?=\s)",body): return False
      elif p not in body: return False
    return True
  if name=='[]': return '[]' in body
  return bool(re.search(r"(?<![\w'₀-₉-])"+re.escape(name)+r"(?![\w'₀-₉-])",body))
def tidy(t):
  lines=t.split('\n')
  body='\n'.join(l.split('--')[0] if not re.search(r'"[^"]*--',l) else l for l in lines if not re.match(r"\s*(pub |unfoldable )?use ",l))
  out=[]
  for l in lines:
    m=re.match(r"^(\s*)use ([^{\s]+)\.\{([^}]*)\}\s*$",l)
    if m:
      names=[x.strip() for x in m[3].split(',')]
      keep=[n for n in names if tokens_used(body,(n.split(' as ')[-1]).strip())]
      if not keep: continue
      if keep!=names: l=f"{m[1]}use {m[2]}.{{{', '.join(keep)}}}"
      out.append(l); continue
    m=re.match(r"^(\s*)use (\S+) as (\S+)\s*$",l)
    if m and not re.search(r"(?<![\w'-])"+re.escape(m[3])+r"(?![\w'-])",body): continue
    out.append(l)
  return '\n'.join(out)
n=0
for c in crates:
  for top in ('specs','proofs'):
    for d,ds,fs in os.walk(f'{root}/crates/{c}/{top}'):
      for f in fs:
        if not f.endswith('.antt') or f=='Proof.antt': continue
        p=os.path.join(d,f); t=open(p).read(); u=tidy(t)
        if u!=t: open(p,'w').write(u); n+=1
print(n,'files')
