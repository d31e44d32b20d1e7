# Prints each clause that stands in the contracts of three or more functions, with how many, and the
# crates: a fact that may belong into a type. Run at the top of the repository.
import re,sys,collections,glob
tot=collections.defaultdict(set)
for f in sorted(glob.glob('crates/*/src/**/*.rt',recursive=True)):
    fn=None
    for line in open(f):
        m=re.match(r'\s*(?:pub )?(?:const )?fn (\w+)',line)
        if m: fn=m.group(1)
        m=re.match(r'\s*(requires|ensures)\s*(\w+)?\s*\{ (.*) \}\s*$',line)
        if m and fn:
            tot[(m.group(1),m.group(3))].add(f.split('/')[1]+'::'+fn)
rows=[(len(v),k,v) for k,v in tot.items() if len(v)>=3]
rows.sort(key=lambda r:-r[0])
for n,k,v in rows: print(n,k[0],k[1],'|',' '.join(sorted({x.split('::')[0] for x in v})))
