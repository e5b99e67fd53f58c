#!/usr/bin/env python3
"""Turns proofs/F/Proof.antt of the older kit (a goal after the other, `c.before.before.if1.taken`) to Answers.antt and Invariants.antt (`c.if-a-b.true`).

usage: python3 tools/port/answers.py NAMES.json COMMIT CRATE [F ..]     from the Proof.antt files of COMMIT, for crates without programs
       python3 tools/port/answers.py NAMES.json COMMIT CRATE +CYCLE PREFIX=F ..   of a cycle of calls, with the old file's prefix of each function

NAMES.json is what `rt check --generated DIR --old-names` writes of a crate that holds all libraries as modules (tools/port/merge.py makes it):
of each function, its goals and steps by old and new names. An answer that said only `search rules` is dropped, since the check finds it.
What the script could not turn it prints; a few answers were then mended by hand (docs/PORT.md).
"""
import re,os,sys,json
ROOT='.'
NAMES,COMMIT=sys.argv[1:3]
J=json.load(open(NAMES))
def norm(n): 
  n=n.replace('_','-').replace("'","")
  return n
ID=r"[^\s(){}\[\],.;:λ→×⊎∙≡∷=]+"
def blocks(t):
  """top-level items: lists of lines"""
  out=[];cur=[]
  for line in t.split('\n'):
    if line and not line[0].isspace() and not (cur and cur_name(cur) and line.split()[0:1]==[cur_name(cur)]) :
      if cur: out.append(cur)
      cur=[line]
    else: cur.append(line)
  if cur: out.append(cur)
  return out
def cur_name(cur):
  m=re.match(r"(?:pub |abbrev |unfoldable )*(\S+)\s*(?:\{[^}]*\}\s*)*:",cur[0])
  if m: return m[1]
  return None
ALIAS={'IsPlace-in':'place-in','type_size':'size-of','Code-in':'code-in','flow_Next':'flow-next','end_of_lem':'end-of','start_of_lem':'start-of','Put-refused':'put-refused'}
class Place:
  pass
def convert(crate,rel,data_for,text,fnname):
  data=data_for
  places={p[0]:(p,data['arms'][i]) for i,p in enumerate(data['places'])}
  uses=[];items=[]
  comment=[]
  bl=blocks(text)
  notes=[]
  used_settled=[]
  # merge 'unfolding' lines etc: items
  i=0
  spec_args=None
  parsed=[]
  for b in bl:
    if b[0].startswith('use '): uses.append(b[0]); continue
    if b[0].startswith('--'): comment.append('\n'.join(b)); continue
    parsed.append(b)
  # join: signature block followed by clause blocks of the same name are already together
  sigs={}
  order=[]
  for b in parsed:
    n=cur_name(b)
    txt='\n'.join(b).rstrip()
    if n is None:
      # e.g. 'unfolding x' line split: append to previous
      if order: sigs[order[-1]]+='\n'+txt
      continue
    sigs[n]=txt; order.append(n)
  main=[n for n in order if re.search(r"tie\.close|Tie\.close|\bclose\b",sigs[n]) and n.endswith(('-spec','_spec'))]
  if not main: return None,['no tie.close']
  mt=sigs[main[0]]
  m=re.search(r"\(\s*tie\.spec(.*)\)\s*$",mt,re.S)
  if not m: 
    m=re.search(r"tie\.close\s+tie\.spec\s*$",mt)
    if m: args=[]
    else: return None,['no tie.spec: '+mt[-200:]]
  else:
    args=split_args(m[1])
  needs=data['needs']
  inv=[];ans=[]
  byname={}
  for q,(old,new) in enumerate(needs): byname.setdefault(norm(old),q)
  for a in args:
    if a not in sigs: notes.append('inline arg '+a[:100]); continue
    h=sigs[a].split('\n')[0]
    if re.search(r"\.(invariant|decreases)-",h) and 'Need-' not in h: inv.append(a); continue
    sm=re.search(r"Need-([^\s]+)",h)
    if not sm: notes.append('no Need in '+h[:100]); continue
    o=norm(sm[1]); q=None
    for cand in (o,re.sub(r'^overflow-','',o),re.sub(r'-is(?=-requires|$)','',o)):
      if cand in byname: q=byname[cand]; break
    if q is None:
      tb=sigs[a].split('\n',1)[1].strip()
      if not tb.endswith('= search rules'): notes.append('settled? '+o+' '+tb[:120])
      used_settled.append(a); continue
    ans.append((q,a))
  got={q for q,_ in ans}
  used=set(main)|set(used_settled)
  # ---- invariants
  linv=[]
  for n in inv:
    if n not in sigs: notes.append('inv inline '+n); continue
    used.add(n)
    t=sigs[n]
    sm=re.match(r"(?:pub |abbrev |unfoldable )*\S+\s*:\s*(?:tie|"+ID+r")\.(invariant|decreases)-(\S+)",t)
    if not sm: notes.append('inv sig '+t[:100]); continue
    kind,loop=sm[1],sm[2]
    li=None
    for q,l in enumerate(data['loops']):
      if norm(l[0][0])==norm(loop): li=q
    if li is None: notes.append('no loop '+loop); continue
    new=data['loops'][li][0][1]; vars_=data['loops'][li][1]; ch=data['changed'][li]
    body=t.split('\n',1)[1] if '\n' in t else ''
    bm=re.match(r"\s*(?:unfolding[^\n]*\n)*"+re.escape(n)+r"\s+(.*?)\s*=(?!=)(.*)$",body,re.S)
    if not bm: notes.append('inv body '+t[:200]); continue
    params=bm[1].split(); bd=bm[2]
    changed=[v for v,c in zip(vars_,ch) if c]
    if len(params)!=len(vars_)+len(changed): notes.append(f'inv params {params} {vars_} {changed}'); continue
    sub={}
    for idx,p in enumerate(params):
      if idx<len(vars_):
        v=vars_[idx]; sub[p]= f'l.initial.{v}' if ch[idx] else f'l.{v}'
      else: sub[p]='l.'+changed[idx-len(vars_)]
    sub.pop('_',None)
    bd=re.sub(r"(?<![\w.'-])("+'|'.join(re.escape(p) for p in sorted(sub,key=len,reverse=True))+r")(?![\w'₀-₉-])",lambda m:sub[m[1]],bd) if sub else bd
    linv.append((f"{kind}-{new}",bd))
  # ---- answers
  def resolve(expr,env):
    """expr: VAR(.seg)*  -> new text or None"""
    segs=expr.split('.')
    if segs[0] not in env: return None
    if isinstance(env[segs[0]],tuple):
      base=env[segs[0]][1]
      if len(segs)==1: return ('text',env[segs[0]][2])
      segs=base.split('.')+segs[1:]
      expr='.'.join(segs)
      if isinstance(env.get(segs[0]),tuple): return resolve(expr,env)
    pl=env[segs[0]]; s=segs[1:]
    while s and s[0]=='before':
      if pl is None or places[pl][0][1] is None:
        s=s[1:]; continue
      pl=places[pl][0][1]; s=s[1:]
    if not s: return ('place',pl)
    st=s[0]; rest=s[1:]
    if st in('args','requires','ranges','type-inv','type_inv'):
      return ('text','.'.join(['c']+s))
    chain=[];q=goal_place[0]
    while q is not None: chain.append(q); q=places[q][0][1]
    at=chain.index(pl) if pl in chain else 0
    names_={norm(st)}
    if st.endswith('_is'): names_.add(norm(st[:-3]))
    if st in ALIAS: names_.add(ALIAS[st])
    names_|={x.lower() for x in names_}
    best=None
    for i2,x in enumerate(chain):
      p,arm=places[x]
      if arm:
        cand=[(len(path),nf) for nf,os_,path in arm[2] if norm(os_) in names_ and rest[:len(path)]==path]
        if cand:
          L,nf=max(cand,key=lambda y:(y[0], not y[1].endswith('-own')))
          tx=['c',arm[0]]+([] if nf.endswith('-own') and rest[:1]!=['rest'] else [nf])+rest[L:]
          if best is None or abs(i2-at)<best[0]: best=(abs(i2-at),'.'.join(tx))
      if p[1] is not None and norm(p[2][0]) in names_:
        tx='.'.join(['c',p[2][1]]+rest)
        if best is None or abs(i2-at)<best[0]: best=(abs(i2-at),tx)
    if best:
      tx=best[1]
      am=re.match(r"(c\.[^.]+)\.auto((?:\.1)*)\.0(.*)$",tx)
      if am:
        callee=None
        for x in chain:
          p,arm=places[x]
          if p[2][1]==am[1][2:] and p[3]: callee=p[3]
        k=am[2].count('1')
        if callee:
          sl=slices(callee)
          if sl and k<len(sl): tx=f"{am[1]}.auto.{sl[k]}{am[3]}"
          else: return ('bad',f'auto {callee} {sl} {k}')
        else: return ('bad','auto of no call '+tx)
      tx=tx.replace('.type-inv','.type_inv')
      return ('text',tx)
    p,arm=places[pl]
    return ('bad',f'step {st} at {p[0]} has {p[2]} {arm}')
  goal_place=[None]
  def body_of(n,place):
    goal_place[0]=place
    t=sigs[n]
    body=t.split('\n',1)[1]
    head=re.match(r"((?:\s*unfolding[^\n]*\n)*)\s*"+re.escape(n)+r"((?:\s+"+ID+r")*)\s*=(?!=)(.*)$",body,re.S)
    if not head: notes.append('body? '+t[:150]); return None
    unf,ps,bd=head[1],head[2].split(),head[3]
    env={ps[0]:place} if ps else {}
    return unf,ps,translate(bd,env,n)
  PATH=re.compile(r"(?<![\w.'-])([A-Za-z_][\w'-]*(?:\.[A-Za-z0-9_][\w'-]*)*)")
  def translate(bd,env,n):
    env=dict(env)
    # lets of places
    out='';pos=0
    # handle lets in order by scanning
    letre=re.compile(r"let\s+([\w'-]+)\s*=\s*([A-Za-z_][\w.'-]*)\s+in\b\s*")
    while True:
      m=letre.search(bd,pos)
      if not m: break
      seg=bd[pos:m.start()]
      out+=sub_paths(seg,env,n)
      r=resolve(m[2],env)
      if r and r[0]=='place':
        env[m[1]]=r[1]
        # drop the let
      elif r and r[0]=='text' and (r[1].count('.')==1 or r[1].endswith('-own')) and not r[1].startswith('c.args'):
        full=m[2]; 
        h=full.split('.')[0]
        if isinstance(env.get(h),tuple): full=env[h][1]+full[len(h):]
        # the place that the head stands for now, by a private name
        h=full.split('.')[0]; priv='__'+h+str(len(env))
        env[priv]=env[h]
        env[m[1]]=('alias',priv+full[len(h):],r[1])
      else:
        env.pop(m[1],None)
        out+=sub_paths(bd[m.start():m.end()],env,n,skip=m[1])
      pos=m.end()
    out+=sub_paths(bd[pos:],env,n)
    return out
  def sub_paths(seg,env,n,skip=None):
    def f(m):
      if m[1]==skip: return m[0]
      r=resolve(m[1],env)
      if r is None: return m[0]
      if r[0]=='text': return r[1]
      if r[0]=='place':
        if m[1]=='c' : notes.append(f'{n}: c whole'); return 'c'
        notes.append(f'{n}: whole {m[1]}'); return m[0]
      notes.append(f'{n}: {m[1]}: {r[1]}'); return m[0]
    return PATH.sub(f,seg)
  outa=[]
  for q,a in ans:
    (old,new)=needs[q]; (po,pn)=data['asked_at'][q]
    used.add(a)
    r=body_of(a,po)
    if not r: continue
    unf,ps,bd=r
    if bd.strip()=='search rules': continue
    if len(ps)>1: pass
    outa.append((new,unf,ps,bd))
  helpers=[sigs[n] for n in order if n not in used]
  mod=rel.replace('/','.')
  base=f"Rattle.{crate}.proofs.{mod}"
  keep=[u for u in uses if not re.search(r"\.(Statement\.\{statement\}|Tie as tie|\{statement\})$",u) and not re.search(r"\.Reads as|\.Kinds as",u)]
  A=''
  if outa or helpers:
    A='\n'.join(comment+keep+[f"use {base}.Goals as goal"])+'\n'
    for h in helpers: A+='\n'+h+'\n'
    for new,unf,ps,bd in outa:
      A+=f"\npub {new} : goal.{new}\n{unf}{new} {ps[0] if ps else 'c'} ={bd.rstrip()}\n"
  I=''
  if linv:
    I='\n'.join(keep+[f"use {base}.Given as goal"])+'\n'
    for n,bd in linv: I+=f"\nabbrev pub {n} : goal.{n}\n{n} l ={bd.rstrip()}\n"
  return (A,I),notes
SLICES=None
def slices(callee):
  global SLICES
  if SLICES is None:
    SLICES={}
    for c in os.listdir(ROOT+'/crates'):
      p=f'{ROOT}/crates/{c}/src/lib.rt'
      if not os.path.exists(p): p=f'{ROOT}/crates/{c}/src/main.rt'
      s=open(p).read()
      for m in re.finditer(r"fn (\w+)(?:<[^>]*>)?\(",s):
        i=m.end();d=1
        while d:
          d+=s[i]=='('; d-=s[i]==')'; i+=1
        SLICES[(c,m[1])]=[x[1] for x in re.finditer(r"(\w+): ",s[m.end():i])]
  parts=callee.replace('merged::','').split('::')
  return SLICES.get((parts[0],parts[-1]))
def split_args(s):
  out=[];i=0;s=s.strip()
  while i<len(s):
    if s[i].isspace(): i+=1; continue
    b=i
    if s[i]=='(':
      d=0
      while True:
        d+=s[i]=='('; d-=s[i]==')'; i+=1
        if d==0: break
    else:
      while i<len(s) and not s[i].isspace(): i+=1
    out.append(s[b:i])
  return out
def data_of(crate,rel):
  mod=rel.replace('/','.')
  return J.get(f"Rattle-merged-proofs.{crate}.{mod}.Lts")
def regen(crate,only=()):
  import subprocess
  pre=f'crates/{crate}/proofs/'
  fs=subprocess.run(['git','ls-tree','-r','--name-only',COMMIT,pre],cwd=ROOT,capture_output=True,text=True).stdout.split()
  for f in fs:
    if not f.endswith('/Proof.antt'): continue
    rel=f[len(pre):-len('/Proof.antt')]
    if only and rel not in only: continue
    if '+' in rel: continue
    data=data_of(crate,rel)
    if data is None: print('no data',f); continue
    text=subprocess.run(['git','show',COMMIT+':'+f],cwd=ROOT,capture_output=True,text=True).stdout
    r,notes=convert(crate,rel,data,text,rel)
    for x in notes:
      if not x.startswith('settled?'): print(f'{crate} {rel}: {x}'[:300])
    if not r: continue
    A,I=r
    A=re.sub(r"not[_-](?:true|false) _ (c\.(?:if|loop)-[\w-]*not-[\w-]+\.(?:true|false))",r"\1",A)
    d=ROOT+'/'+pre+rel
    os.makedirs(d,exist_ok=True)
    for n,x in(('Answers',A),('Invariants',I)):
      p=f'{d}/{n}.antt'
      if x:
        old=open(p).read() if os.path.exists(p) else ''
        if old!=x: open(p,'w').write(x); print('wrote',p[len(ROOT):])
      elif os.path.exists(p): os.remove(p); print('removed',p)
    if not A and not I and os.path.isdir(d) and not os.listdir(d): os.rmdir(d)
def cyc(crate,cycle,prefixes,multi):
  """prefixes: {old prefix: function}"""
  path=f'crates/{crate}/proofs/{cycle}/Proof.antt'
  text=subprocess.run(['git','show',COMMIT+':'+path],cwd=ROOT,capture_output=True,text=True).stdout
  bl=blocks(text)
  A=[];I=[];uses=[b[0] for b in bl if b[0].startswith('use ')]
  helpers=[]
  for b in bl:
    if b[0].startswith(('use ','--')): continue
    n=cur_name(b); txt='\n'.join(b).rstrip()
    if n is None: print('??',txt[:100]); continue
    # which function
    m=re.search(r"([\w-]+)-lts\.(Need-|invariant-|decreases-)([^\s]+)",txt)
    if not m: 
      helpers.append(txt); continue
    f=prefixes[m[1]]
    data=J[f'Rattle-merged-proofs.{crate}.{cycle}.Lts-{f}']
    # fake a one-answer file for convert
    if m[2]!='Need-':
      loop=m[3]; li=None
      for q,l in enumerate(data['loops']):
        if norm(l[0][0])==norm(loop): li=q
      new=data['loops'][li][0][1]; vars_=data['loops'][li][1]; ch=data['changed'][li]
      body=txt.split('\n',1)[1]
      bm=re.match(r"\s*"+re.escape(n)+r"\s+(.*?)\s*=(?!=)(.*)$",body,re.S)
      params=bm[1].split(); bd=bm[2]
      changed=[v for v,c in zip(vars_,ch) if c]
      if len(params)!=len(vars_)+len(changed): print('params',f,loop,params,vars_,changed)
      sub={}
      for idx,p in enumerate(params):
        if idx<len(vars_): sub[p]= f'l.initial.{vars_[idx]}' if ch[idx] else f'l.{vars_[idx]}'
        else: sub[p]='l.'+changed[idx-len(vars_)]
      sub.pop('_',None)
      bd=re.sub(r"(?<![\w.'-])("+'|'.join(re.escape(p) for p in sorted(sub,key=len,reverse=True))+r")(?![\w'₀-₉-])",lambda m:sub[m[1]],bd)
      k='invariant' if m[2].startswith('inv') else 'decreases'
      nm=f"{k}-{f+'-' if multi else ''}{new}"
      I.append(f"abbrev pub {nm} : goal.{nm}\n{nm} l ={bd.rstrip()}\n")
      continue
    # answers: use convert() on a synthetic Proof
    o=norm(m[3]); q=None
    byname={norm(x[0]):i for i,x in enumerate(data['needs'])}
    for cand in (o,re.sub(r'^overflow-','',o),re.sub(r'-is(?=-requires|$)','',o)):
      if cand in byname: q=byname[cand]; break
    if q is None:
      print('settled' if txt.endswith('= search rules') else 'SETTLED?',f,m[3]); continue
    lines=txt.split('\n')
    k=[i for i,l in enumerate(lines) if re.match(re.escape(n)+r"\s",l) and i>0]
    body='\n'.join(lines[k[0]:])
    hm=re.match(re.escape(n)+r"\s+(\S+)\s+(\S+)((?:\s+κs)?)\s*=(?!=)(.*)$",body,re.S)
    if not hm: print('body?',body[:150]); continue
    syn=f"x : tie.Need-{data['needs'][q][0]}\nx {hm[2]} ={hm[4]}\n\npub z-spec : S\nz-spec = tie.close\n    (tie.spec\n    x)\n"
    r,notes=convert(crate,cycle,data,syn,f)
    for x in notes: print(f,m[3],x[:200])
    if not r: continue
    am=re.search(r"pub (\S+) : goal\.\S+\n((?:unfolding.*\n)?)\S+ \S+ =(.*)$",r[0],re.S)
    if not am: continue
    nm=(f+'-' if multi else '')+am[1]
    A.append(f"pub {nm} : goal.{nm}\n{am[2]}{nm} t c ={am[3].rstrip()}\n")
  keep=[u for u in uses if not re.search(r"\.(Reads|Kinds) as|Lts|\.\{statement\}|Tie\.|borrow\.Fn\.",u)]
  base=f"Rattle.{crate}.proofs.{cycle}"
  d=f'{ROOT}/crates/{crate}/proofs/{cycle}'
  open(d+'/Answers.antt','w').write('\n'.join(keep+[f"use {base}.Goals as goal"])+'\n\n'+'\n'.join(A))
  open(d+'/Invariants.antt','w').write('\n'.join(keep+[f"use {base}.Given as goal"])+'\n\n'+'\n'.join(I))
  if os.path.exists(d+'/Proof.antt'): os.remove(d+'/Proof.antt')
  print('helpers:',[h[:90] for h in helpers])


if __name__=='__main__':
  crate,rest=sys.argv[3],sys.argv[4:]
  if rest and rest[0].startswith('+'):
    prefixes=dict(x.split('=') for x in rest[1:])
    cyc(crate,rest[0],prefixes,len(prefixes)>1)
  else: regen(crate,set(rest))
