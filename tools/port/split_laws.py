#!/usr/bin/env python3
"""Cuts law files that edits change in two, so that no declaration that rests on the changed one stands in the same file (rt reads such an edit
as bad otherwise). Once, after move_laws.py and tidy.py.

usage: python3 tools/port/split_laws.py FOLDER
"""
import re,os,sys
R=sys.argv[1]+'/crates/'
def rd(p): return open(R+p).read()
def wr(p,t): open(R+p,'w').write(t)
def uses(t): return [l for l in t.split('\n') if re.match(r"use ",l)]
def header(t):
  i=t.index('\nuse '); return t[:i]
def cut(t,a,b=None):
  i=t.index(a); j=t.index(b,i) if b else len(t)
  return t[:i],t[i:j],t[j:]
def mod(crate,new,after):
  p=f'{crate}/proofs/Laws.antt'; t=rd(p)
  assert f'pub mod {after}\n' in t
  wr(p,t.replace(f'pub mod {after}\n',f'pub mod {after}\npub mod {new}\n'))
def moved(crate,old,new,names):
  """imports of names from crate's Laws.old come from Laws.new"""
  pat=re.compile(r"^( *)use Rattle\."+crate+r"\.proofs\.Laws\."+old+r"\.\{([^}]*)\}$",re.M)
  for dp,ds,fs in os.walk(R):
    ds[:]=[d for d in ds if d!='out']
    for f in fs:
      if not f.endswith('.antt'): continue
      p=os.path.join(dp,f); t=o=open(p).read()
      if p.endswith(f'{crate}/proofs/Laws/{new}.antt'): continue
      def sub(m):
        ns=[x.strip() for x in m[2].split(',')]
        a=[x for x in ns if x.split(' as ')[0] not in names]; b=[x for x in ns if x.split(' as ')[0] in names]
        out=[]
        if a: out.append(f"{m[1]}use Rattle.{crate}.proofs.Laws.{old}.{{{', '.join(a)}}}")
        if b: out.append(f"{m[1]}use Rattle.{crate}.proofs.Laws.{new}.{{{', '.join(b)}}}")
        return '\n'.join(out)
      t=pat.sub(sub,t)
      for n in names: t=re.sub(r"Rattle\."+crate+r"\.proofs\.Laws\."+old+r"\."+n+r"(?![\w'-])",f"Rattle.{crate}.proofs.Laws.{new}.{n}",t)
      if t!=o: open(p,'w').write(t)
def editfile(e,old,new):
  t=rd(e); assert f'file: proofs/Laws/{old}.antt' in t,e
  wr(e,t.replace(f'file: proofs/Laws/{old}.antt',f'file: proofs/Laws/{new}.antt'))
# A
p='laws_monad/proofs/Laws/Answers.antt'; t=rd(p)
a,b,_=cut(t,"-- a list, from its first element on\n")
wr('laws_monad/proofs/Laws/Each.antt',"-- A list of steps, from its first on. Assumes nothing.\n"+'\n'.join(uses(t))+"\nuse Rattle.laws_monad.proofs.Laws.Answers.{then_ok, then_goes, then_refused}\n\n"+b)
wr(p,a.rstrip()+'\n'); mod('laws_monad','Each','Answers'); moved('laws_monad','Answers','Each',['each_refused','each_goes','each_ok','each_ends'])
# B
p='def_faithful/proofs/Laws/Steps.antt'; t=rd(p)
for n in ('step_means','early_errors_means','define_lvalue_means'): t=t.replace(f'\n  {n} :',f'\n  pub {n} :',1)
a,b,_=cut(t,"  run_means :")
wr('def_faithful/proofs/Laws/Runs.antt',"-- The text does the same over faithful tables as over plain ones: the instruction and the call. Assumes nothing.\n"+'\n'.join(uses(t))+"\nuse Rattle.def_faithful.proofs.Laws.Steps.{Fine, step_means, early_errors_means, define_lvalue_means}\n\nmodule _ {n : ℕ} {T : Tables} {F : Faithful n T} where\n"+b)
a=a.replace("one effect, the step, the instruction, the call. Assumes","one effect, the step, the parts of an instruction. Assumes",1)
wr(p,a.rstrip()+'\n'); mod('def_faithful','Runs','Steps'); moved('def_faithful','Steps','Runs',['run_means','signature_means','call_means'])
# C
p='lent_world/proofs/Laws/LentLawful.antt'; t=rd(p)
a,b,_=cut(t,"-- ---- the lent tables are lawful\n")
names=[m[1] for m in re.finditer(r"^(?:(?:abbrev|unfoldable) )?(?:pub )?(?:record )?(?:abbrev pub )?([a-zA-Z_]\w*) ?[:({]",b,re.M)]
names=[n for n in re.findall(r"^(?:unfoldable |abbrev )*pub (?:record |abbrev )?(\w+)",b,re.M)]
print('C',names)
wr('lent_world/proofs/Laws/LentIsolation.antt',"-- The lent tables are lawful, so demand 3 holds of the definition over lent lists. Assumes nothing.\n"+'\n'.join(uses(t))+"\nuse Rattle.lent_world.proofs.Laws.LentLawful.{KeptFrom, kept_start, effect_kept, diagnostic_kept, read_kept, key_kept, link_kept}\n\n"+b)
a=a.replace("-- The lent tables are lawful, so demand 3 holds of the definition over lent lists; and what no instruction writes stays. Assumes nothing.","-- What no instruction writes of the lent tables stays. Assumes nothing.",1)
wr(p,a.rstrip()+'\n'); mod('lent_world','LentIsolation','LentLawful'); moved('lent_world','LentLawful','LentIsolation',names)
# D
p='lent_world/proofs/Laws/LentFaithful.antt'; t=rd(p)
a,b,c=cut(t,"-- ---- the output list\n","-- ---- all of them\n")
wr('lent_world/proofs/Laws/Held.antt',"-- The words of an output list hold a list of effects. Assumes nothing.\n"+'\n'.join(uses(t))+"\n\n"+b.replace("-- ---- the output list\n\n",""))
u=uses(t)[-1]
a=a.replace(u,u+"\nuse Rattle.lent_world.proofs.Laws.Held.{Holds, none_held, append_length, one_held}",1)
wr(p,a+c); mod('lent_world','Held','ContextFaithful'); 
for e in ('nothing_said_behind_the_last','one_word_before_said_zero'): editfile(f'lent_world/must-fail/{e}.edit','LentFaithful','Held')
moved('lent_world','LentFaithful','Held',['Holds','none_held','append_length','one_held'])
# E
p='laws_room/proofs/Laws/LentShort.antt'; t=rd(p)
a,b,_=cut(t,"  -- ---- so the lent tables are padded\n")
L=['count_alike','instances_alike','found_alike','number_alike','effect_pads','key_pads','link_pads','read_pads','diagnostic_pads']
for n in L: a=re.sub(rf"\n  {n} :",rf"\n  pub {n} :",a,count=1)
for n in L: b=re.sub(rf"(?<![\w.])(?<!  pub ){n}(?![\w'])",f"({n} room n)",b)
b=re.sub(r"(?<![\w.])Short(?![\w'])","Short room n",b)
b=b.replace("interned_count = (count_alike room n)","interned_count = count_alike room n")
b=re.sub(r"= \((\w+ room n)\);",r"= \1;",b)
wr('laws_room/proofs/Laws/Padded.antt',"-- The lent tables are padded: a context with records for what the candidates need is as good as a longer one. Assumes nothing.\n"+'\n'.join(uses(t))+"\nuse Rattle.laws_room.proofs.Laws.LentShort.{words_for, pad_means, Short, "+', '.join(L)+"}\n\nmodule _ (room n : ℕ) where\n"+b)
wr(p,a.rstrip()+'\n'); mod('laws_room','Padded','LentShort'); moved('laws_room','LentShort','Padded',['lent_padded','lent_short','words_today'])
# F
p='laws_counts/proofs/Laws/Steps.antt'; t=rd(p)
k="module _ {T : Tables} (found : Finding T) (𝓜 : Measure T) where\n"
a,b,_=cut(t,k)
for n in ('act_grows','intern_known','total_same','identifiers_length'): a=re.sub(rf"\n(  )?{n} :",lambda m:f"\n{m[1] or ''}pub {n} :",a,count=1)
wr('laws_counts/proofs/Laws/Runs.antt',"-- What an instruction lists and walks at the most, by its candidates' keys. Assumes nothing.\n"+'\n'.join(uses(t))+"\nuse Rattle.laws_counts.proofs.Laws.Steps.{weight, freezes, Measure, cost, Finding, act_grows, intern_known, total_same, identifiers_length, started, mutated, lists, walks_of}\n\n"+b)
wr(p,a.rstrip()+'\n'); mod('laws_counts','Runs','Steps'); moved('laws_counts','Steps','Runs',['step_grows','run_grows','signature_grows'])
# G
p='laws_counts/proofs/Laws/Counts.antt'; t=rd(p)
a,b,c=cut(t,"-- what holds of both holds of a choice\n","-- ---- the effects listed, of any tables\n")
for n in ('choice','weight_most','candidates_most','walks_most'): b=re.sub(rf"^{n} :",f"pub {n} :",b,count=1,flags=re.M)
wr('laws_counts/proofs/Laws/Most.antt',"-- What the candidates of an instruction list and walk at the most. Assumes nothing.\n"+'\n'.join(uses(t))+"\n\n"+b.rstrip()+'\n')
i=c.index("  -- the entries made so far, and those that the Freeze under way"); j=c.index("  -- one walk makes 4,096 entries at the most\n")
en=c[i:j]
en1=en[:en.index('  -- "the walk of one Freeze would make')]; en2=en[len(en1):]
en1=en1.replace("  abbrev room :","  abbrev pub room :"); en2=en2.replace("  entry_room :","  pub entry_room :")
wr('laws_counts/proofs/Laws/Entries.antt',"-- The entries of a walk: what an entry adds to those made it takes from those that may still be made. Assumes nothing.\n"+'\n'.join(uses(t))+"\n\nmodule _ {T : Tables} where\n"+en1.rstrip()+"\n\nmodule _ {T : Tables} (one_more_is : (n : ℕ) → T.one_more n ≤ suc n) where\n"+en2.rstrip()+'\n')
c=c[:i]+c[j:]
c=c.replace("{μ = room}","{μ = room {T = T}}").replace("reason v entry_room)","reason v (entry_room one_more_is))")
assert "(entry_room one_more_is)" in c
u=uses(a)[-1]
a=a.replace(u,u+"\nuse Rattle.laws_counts.proofs.Laws.Most.{choice, candidates_most, walks_most}\nuse Rattle.laws_counts.proofs.Laws.Entries.{room, entry_room}",1)
wr(p,a+c); mod('laws_counts','Most','Runs'); mod('laws_counts','Entries','Most')
editfile('laws_counts/must-fail/sixteen_for_each_candidate.edit','Counts','Most'); editfile('laws_counts/must-fail/fewer_entries_than_a_walk_makes.edit','Counts','Entries')
# H
p='laws_suffices/proofs/Laws/Suffices.antt'; t=rd(p)
a,b,_=cut(t,'-- "The output list has 1,120 records (32 + 64 × 17, so it suffices)": of a call that no class refuses nothing is lost\n')
wr('laws_suffices/proofs/Laws/Whole.antt',"-- Of a call that no class refuses nothing is lost. Assumes nothing.\n"+'\n'.join(uses(t))+"\nuse Rattle.laws_suffices.proofs.Laws.Suffices.{accepted_fits}\n\n"+b)
wr(p,a.rstrip()+'\n'); mod('laws_suffices','Whole','Suffices'); moved('laws_suffices','Suffices','Whole',['call_lossless','nothing_lost'])
editfile('laws_suffices/must-fail/one_record_too_few.edit','Suffices','Whole')
# I
p='laws_image_accepted/proofs/Laws/Lengths.antt'; t=rd(p)
a,b,_=cut(t,"    -- so their words say how many candidates there are\n")
b='\n'.join(l[2:] if l.startswith('  ') else l for l in b.split('\n'))
for n in ('lent_sets','lent_context','lent_candidates','context_length'): b=re.sub(rf"(?<![\w.]){n}(?![\w'])",f"({n} im)",b)
for n in ('candidates_length','sets_length','sets_identifiers'): b=re.sub(rf"(?<![\w.]){n}(?![\w'])",f"({n} im ok)",b)
b=re.sub(r"(?<![\w.])candidates_count \(",r"candidates_count (",b)
wr('laws_image_accepted/proofs/Laws/Counted.antt',"-- The words of an accepted image's call say how many candidates there are, and no list has the wrong length. Assumes nothing.\n"+'\n'.join(uses(t))+"\nuse Rattle.laws_image_accepted.proofs.Laws.Lengths.{lent_sets, lent_context, lent_candidates, context_length, sets_length, sets_identifiers, candidates_length}\n\nmodule _ (im : Image) (ok : refusal_of_words im ≡ 0) where\n"+b)
wr(p,a.rstrip()+'\n'); mod('laws_image_accepted','Counted','Lengths'); moved('laws_image_accepted','Lengths','Counted',['candidates_count','lengths_right'])
# J
p='laws_image_accepted/proofs/Laws/Accepted.antt'; t=rd(p)
m=re.search(r"module _ \(im : Image\).*\n",t)
a=t[:m.start()]; body=t[m.end():]
i=body.index("  -- an accepted image makes an accepted call:")
h,tail=body[:i],body[i:]
for n in ('functions_count','context_none','instruction_none'): h=re.sub(rf"^  {n} :",f"  pub {n} :",h,count=1,flags=re.M)
wr('laws_image_accepted/proofs/Laws/Classes.antt',"-- The context and the instruction of an accepted image's call earn no class. Assumes nothing.\n"+'\n'.join(uses(t))+"\n\n"+m[0]+h.rstrip()+'\n')
tail=tail.replace("context_none instruction_none","(context_none im small ok) (instruction_none im small ok)")
u=uses(a)[-1]
a=a.replace(u,u+"\nuse Rattle.laws_image_accepted.proofs.Laws.Classes.{context_none, instruction_none}",1)
wr(p,a+m[0]+tail); mod('laws_image_accepted','Classes','Instruction')
