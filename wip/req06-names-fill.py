#!/usr/bin/env python3
"""Proof files of `table`, `references` and `schema` that are not in the patch yet, from the needs that `rt goals CRATE` lists.

    rt goals CRATE; names-fill.py CRATE     run in the repository

Answers have `c @thing` for the path to a thing; they are to be written out as paths afterwards.
"""
import glob,os,re,sys
CR=sys.argv[1]
def needs(folder):
    found=glob.glob(f'target/goals/{CR}/*proofs/proofs/{folder}/Lts.antt')
    names=[]
    for x,y in re.findall(r'\((\S+) : Need-(\S+?)\)',open(found[0]).read() if found else ''):
        if x==y and x not in names: names.append(x)
    return names
def write(folder,head,uses,fills,inv=None):
    ns=needs(folder)
    if not ns: print("no needs for",folder); return
    for k in fills:
        if k not in ns: print("unused fill",folder,k)
    mod=folder.replace('/','.')
    name=folder.split('/')[-1].replace('_','-')
    loop=' Inv-loop μ-loop' if inv else ''
    out=head+uses+f'use borrow.Author.Needs.{{needs}}\nuse Rattle·{CR}·proofs.proofs.{mod}.Statement.{{statement}}\nuse Rattle·{CR}·proofs.proofs.{mod}.Tie as tie\n\n'
    if inv: out+=inv
    for n in ns:
        args='c κs' if re.search(r'-requires(-\d+)?$',n) else 'c'
        f=fills.get(n,'search needs')
        out+=f'{n} : tie.Need-{n}{loop}\n{n} {args} ='+(f if f.startswith('\n') else ' '+f)+'\n\n'
    out+=f'pub {name}-spec : {{M : Type 1}} → statement M\n{name}-spec =\n    tie.close\n    (tie.spec\n'+''.join(f'    {x}\n' for x in (['Inv-loop','μ-loop'] if inv else [])+ns)[:-1]+')\n'
    p=f'crates/{CR}/proofs/{folder}/Proof.antt'
    os.makedirs(os.path.dirname(p),exist_ok=True)
    open(p,'w').write(out); print("wrote",p,ns)

TABLE=r'''a="""use mathlib.Core.Path.{sym}
use lib.Seq.{length-take-le}
"""
fills={f'slice-aggregate-keeps-rules{x}':"sym (length-take-le _ _ (search needs))" for x in ('','-2','-3')}
fills['keeps-rules-requires']="\n    (\n      search needs,\n      c @pre .0,\n      record { numbers-past = search needs; hashes-past = search needs; linked = search needs; few-links = search needs },\n      search needs,\n      search needs,\n    )"
for f,t in (('few_keep_rules','lends words for a small table'),('all_keep_rules','lends words for any table')):
    write('sound/'+f,f"-- `{f}` meets its contract: it {t}.\n",a,fills)
L="(c @if1 .left) (c @if2 .left) (c @if3 .left)"
write('sound/is_sound',"-- `is_sound` meets its contract.\n-- A law for each return: the lengths, the shape, then the rules.\n",
"""use native.Mathlib.Omega.{arith}
use Rattle·rows.proofs.Walks.{denied, granted}
use Rattle·table·proofs.proofs.SoundLaws.{not-whole-rows, too-many-rows, too-long-schema, not-shaped, sound-is}
""",{
'returns':"not-whole-rows _ _ (c @if1 .taken)",
'returns-2':"too-many-rows _ _ (c @if1 .left) (c @if2 .taken)",
'returns-3':"too-long-schema _ _ (c @if1 .left) (c @if2 .left) (c @if3 .taken)",
'returns-4':f"not-shaped _ _ {L} (denied (c @is-shaped .ensures) (c @if4 .taken))",
'few-keep-rules-requires':"(omega arith, omega arith)",
'all-keep-rules-requires':"(omega arith, omega arith)",
'returns-5':f"sound-is _ _ {L} (granted (c @is-shaped .ensures) (c @if4 .left)) (c @few-keep-rules .ensures)",
'returns-6':f"sound-is _ _ {L} (granted (c @is-shaped .ensures) (c @if4 .left)) (c @all-keep-rules .ensures)",
})
'''

REFERENCES=r'''write('index/is_type',"-- `index::is_type` says whether a row is a type: by its kind, and an inline struct is none.\n","""use borrow.Author.Tests.{not-true, not-false}
use Rattle·references·proofs.proofs.IndexLaws.{no-type, type-if}
""",{'returns':"let a = c @args in no-type (a .rows .now) (a .r) (c @word .ensures) (c @fits2 .ensures) (not-true _ (c @if1 .taken))",
'returns-2':"let a = c @args in type-if (a .rows .now) (a .r) (c @word .ensures) (c @fits2 .ensures) (not-false _ (c @if1 .left)) (c @is-unnamed .ensures)"})
write('index/index_row',"-- `index::index_row` adds a row to an index if it is a type.\n","""use Rattle·references·proofs.proofs.IndexLaws.{row-entered, row-left}
""",{'returns':"row-entered (c @args .r) (c @is-type .ensures) (c @if1 .taken) (c @word-for .ensures) (c @pre .0) (c @add .ensures)",
'returns-2':"row-left (c @args .r) (c @is-type .ensures) (c @if1 .left)"})
write('index/index_types',"-- `index::index_types` adds the types to an index, from the last to the first.\n-- Those from the loop's row on are in it.\n","""use mathlib.Core.Path.{_≡_, refl}
use native.Mathlib.Omega.{arith}
use lib.ListN.{length}
use Rattle·references·proofs.proofs.IndexLaws.{IndexFrom, index-start, index-on, index-end}
""",{'loop-holds':"(refl, index-start _ _ _ (c @pre .2))",
'index-row-requires':"let b = c @loop in let p = c @pre in (omega (arith, b .inv .0, b .inv .1 .high, p .0), omega (arith, b .inv .0, p .1))",
'loop-again':"(search needs, index-on (c @loop .inv .1) (c @loop-test .taken) (c @index-row .ensures))",
'returns':"index-end (c @loop .inv .1) (c @loop-test .left) (omega (arith, c @loop .inv .0, c @pre .0))"},
inv="""abbrev Inv-loop : tie.InvT-loop
Inv-loop rows hashes heads₀ links₀ r₀ heads links r = (length links ≡ length links₀) × IndexFrom rows hashes heads links r

abbrev μ-loop : tie.MeasureT-loop
μ-loop rows hashes heads₀ links₀ r₀ heads links r = r

""")
write('discriminators/is_named',"-- `discriminators::is_named` says whether a row has a name: a row of another hash has another.\n","""use mathlib.Core.Path.{ap, _∙_}
use Rattle·rules.specs.Names.{sameName}
use Rattle·references·proofs.proofs.DiscriminatorLaws.{other-name}
""",{'returns':"other-name (c @pre) _ (c @word-for .ensures) (c @if1 .taken)",
'returns-2':"c @same-bytes .ensures ∙ ap (sameName (c @args .name .now)) (c @name-of .ensures)"})
write('resolve',"-- `references::resolve` puts what every word names, and then the discriminators.\n","""use mathlib.Core.Path.{ap, _∙_}
use native.Mathlib.Omega.{arith}
use Rattle·rules.specs.Rows.{nameOf}
use Rattle·rows.proofs.HashLaws.{hashes-same}
use Rattle·references·proofs.proofs.FindLaws.{heads-name}
use Rattle·references·proofs.proofs.SlotLaws.{heads-rows}
use Rattle·references·proofs.proofs.Resolution.{resolves}
""",{'resolve-rows-requires':"(search needs, record { hashes = c @args .hashes .now; hashed = c @pre .3; index = c @index-types .ensures })",
'put-discriminators-requires':"\n    let a = c @args in\n    hashes-same (a .s .now) (a .rows .now) _ (λ r. ap (λ t. nameOf (a .s .now) t r) (c @resolve-rows .ensures .0) ∙ heads-name (heads-rows (a .s .now) (a .rows .now) _) r (a .s .now)) (c @pre .3)",
'returns':"resolves (omega arith) (c @resolve-rows .ensures .0) (c @resolve-rows .ensures .1) (c @put-discriminators .ensures)"})
'''

SCHEMA=r'''def W(folder,head,uses,fills,inv=None,unf=()):
    write(folder,head,uses,fills,inv)
    if unf:
        p=f'crates/{CR}/proofs/{folder}/Proof.antt'; s=open(p).read()
        for n,u in unf:
            s=s.replace(f"{n} : tie.Need-{n}\n",f"{n} : tie.Need-{n}\nunfolding {u}\n")
        open(p,'w').write(s)
W('stages/number_rows',"-- `stages::number_rows` numbers the rows by bytes, or by ranks.\n","",{
'returns':"(c @number-by-bytes .ensures .numbered (c @if1 .taken), c @number-by-bytes .ensures .hashed _)",
'number-by-ranks-requires':"(record { numbers-past = search needs; hashes-past = search needs; linked = search needs; few-links = search needs }, search needs)",
'returns-2':"(c @number-by-ranks .ensures .numbered, c @number-by-ranks .ensures .hashed)"})
W('stages/judge_rows',"-- `stages::judge_rows` meets its contract: the resolved rows are the table, and have the numbers of the raw ones.\n","""use native.Mathlib.Omega.{arith}
use Rattle·schema·proofs.proofs.TextLaws.{is-table, refers, still-numbered}
""",{
'number-rows-requires':"(c @pre .2, c @pre .4)",
'resolve-requires':"(omega arith, omega arith, omega arith, c @number-rows .ensures .1)",
'judge-names-requires':"\n    let w = c @pre .0 in\n    let r = c @resolve .ensures in\n    (omega (arith, w .few, w .short, r .same-length), c @pre .1, is-table w r, refers w r, still-numbered w r (c @number-rows .ensures .0), search needs, search needs)"})
a="""use mathlib.Core.Path.{sym}
use lib.Seq.{length-take-le}
use native.Mathlib.Omega.{arith}
"""
fills={f'slice-aggregate-judge-rows{x}':"sym (length-take-le _ _ (search needs))" for x in ('','-2','-3','-4')}
fills['judge-rows-requires']="\n    (\n      c @pre .0,\n      c @pre .1,\n      record { numbers-past = search needs; hashes-past = search needs; linked = search needs; few-links = search needs },\n      search needs,\n      search needs,\n    )"
W('compile/judge_few',"-- `compile::judge_few` lends words for rows that are not too many.\n",a,fills)
W('compile/judge_many',"-- `compile::judge_many` lends words for as many rows as a schema can have.\n",a,fills)
W('compile/judge_table',"-- `compile::judge_table` meets its contract: by how many rows there are.\n","",{})
S="let p = c @pre in let S = c @args .schema .now in "
good="(granted (c @good-names .ensures) (c @if1 .left))"
dist="(granted (c @distinct-names .ensures) (c @if2 .left))"
W('stages/judge_names',"-- `stages::judge_names` meets its contract: good, distinct and known names in turn, then the rest.\n","""use mathlib.Core.Path.{refl}
use Rattle·rules.specs.Serving.Answers.{rank}
use Rattle·rules.specs.Rules.{goodNames, distinctNames}
use Rattle·rules.specs.declared.SchemaRefusal.the-variants.{BadName, RepeatedName}
use borrow.Author.Tests.{not-true, not-false}
use Rattle·rows.proofs.Walks.{denied, granted}
use Rattle·schema·proofs.proofs.StageLaws.{broken, kept, unknown, all-known}
""",{
'returns':"\n    let p = c @pre in\n    let S = c @args .schema .now in\n    broken (p .2) BadName (goodNames S) refl refl (p .1) (denied (c @good-names .ensures) (c @if1 .taken))",
'distinct-names-requires':"(c @pre .0, c @pre .4, search needs)",
'returns-2':f"\n    let p = c @pre in\n    let S = c @args .schema .now in\n    kept (p .2) BadName (goodNames S) refl refl {good}\n    (broken (p .2) RepeatedName (distinctNames S) refl refl (p .1) (denied (c @distinct-names .ensures) (c @if2 .taken)))",
'returns-3':f"\n    let p = c @pre in\n    let S = c @args .schema .now in\n    kept (p .2) BadName (goodNames S) refl refl {good}\n    (kept (p .2) RepeatedName (distinctNames S) refl refl {dist} (unknown (p .2) (p .3) (p .1) (not-true _ (c @if3 .taken))))",
'judge-definitions-requires':f"\n    let p = c @pre in\n    (p .0, p .1, p .2, record {{ whole = p .2 .whole; numbered = p .4; distinct = {dist[1:-1]} }}, search needs, search needs)",
'returns-4':f"\n    let p = c @pre in\n    let S = c @args .schema .now in\n    kept (p .2) BadName (goodNames S) refl refl {good}\n    (kept (p .2) RepeatedName (distinctNames S) refl refl {dist} (all-known (p .2) (p .3) (not-false _ (c @if3 .left)) (c @judge-definitions .ensures)))",
},unf=[('returns-2','rank'),('returns-3','rank'),('returns-4','rank')])
req="(c @pre .0, c @pre .3, search needs, search needs)"
def g(i): return f"(granted (c @every-row-fits{'' if i==1 else i} .ensures) (c @if{i} .left))"
def d(i): return f"(denied (c @every-row-fits{'' if i==1 else i} .ensures) (c @if{i} .taken))"
R=['BadChain','BadUnion','BadAlternate','BadReturn']; G=['goodChains','goodUnions','goodAlternates','goodReturns']
def chain(k):
    out=""
    for i in range(k-1): out+=f"(kept t {R[i]} ({G[i]} S) refl refl {g(i+1)} "
    if k<=4: out+=f"(broken t {R[k-1]} ({G[k-1]} S) refl refl (c @pre .1) {d(k)})"
    else: out+="(c @judge-room .ensures)"
    out+=")"*(k-1)
    return "\n    let S = c @args .schema .now in\n    let t = c @pre .2 in\n    "+out[1:-1]
f={f'every-row-fits-requires{x}':req for x in ('','-2','-3','-4')}
for k in range(1,6): f['returns' if k==1 else f'returns-{k}']=chain(k)
W('stages/judge_definitions',"-- `stages::judge_definitions` meets its contract: chains, unions, alternates and returns in turn, then the rest.\n","""use mathlib.Core.Path.{refl}
use Rattle·rules.specs.Serving.Answers.{rank}
use Rattle·rules.specs.Rules.{goodChains, goodUnions, goodAlternates, goodReturns}
use Rattle·rules.specs.declared.SchemaRefusal.the-variants.{BadChain, BadUnion, BadAlternate, BadReturn}
use Rattle·rows.proofs.Walks.{denied, granted}
use Rattle·schema·proofs.proofs.StageLaws.{broken, kept}
""",f,unf=[(f'returns-{k}','rank') for k in range(2,6)])
'''

exec({'table':TABLE,'references':REFERENCES,'schema':SCHEMA}[CR])
