#!/usr/bin/env python3
# sister.py NAME STRUCT:ELEM[:PAST].. -- F ..
# For each F (a function of crates/NAME that the borrow checker doesn't cover since it, or its body, refers to STRUCT; +F where it calls itself) writes a sister of
# the crate from its own source, lets the tool make the walk of it, has port.py carry the walk over, and where there is no proof file yet writes the one
# that the tool offers, with a hole for each need. In the sister ELEM (u64x67 is [u64; 67], of STRUCT's size) stands for STRUCT in every signature and in F's body,
# each other function's body is a constant, and each clause says 0 ≤ 0. The crates that NAME lists are hollowed out in the same way, and have only the functions
# that F's body names. F! as in port.py.
import re,sys,os,subprocess,shutil
here=os.path.dirname(os.path.dirname(os.path.abspath(__file__)))
name=sys.argv[1]; cut=sys.argv.index('--'); specs=sys.argv[2:cut]; fns=sys.argv[cut+1:]
elems={}
for a in specs:
    st,el=a.split(':')[:2]; w,n=re.match(r"u(\d+)x(\d+)",el).groups(); elems[st.replace('%','').split('@')[0]]=(w,n)
INTS={'u8','u16','u32','u64','usize','i8','i16','i32','i64','isize','f32','f64'}
def close(s,i):
    # the place behind the bracket that closes the one at i
    d=0;j=i
    while j<len(s):
        if s.startswith('//',j): j=s.find('\n',j); continue
        if s[j]=='"': j=s.index('"',j+1)
        elif s[j] in '({[': d+=1
        elif s[j] in ')}]':
            d-=1
            if d==0: return j+1
        j+=1
def swap(t):
    for st,(w,n) in elems.items(): t=re.sub(rf"(?<![\w:])((\w+::)*){st}\b(?!\s*(\{{|::))",f"[u{w}; {n}]",t)
    return t
def functions(s):
    # (start, head, params, result, clauses, body start, end)
    for m in re.finditer(r"(?m)^[ ]*((pub )?(extern \"C\" )?fn (\w+)(<[^>]*>)?)\(",s):
        p=m.end()-1; e=close(s,p); b=e; cl=[]; r=re.match(r"\s*->\s*",s[b:]); res=''
        if r:
            b+=r.end(); j=b
            while True:
                if s[j] in '[(': j=close(s,j)
                elif s[j]=='{' or re.match(r"\s(requires|ensures|ghost|where)\b",s[j:]): break
                else: j+=1
            res=s[b:j].strip(); b=j
        while True:
            r=re.match(r"\s*(?://[^\n]*\s*)*(requires|ensures)\s*([\w-]*)\s*\{",s[b:])
            if not r: break
            o=b+r.end()-1; x=close(s,o); bind=re.match(r"\{\s*λ\s*(\S+)\.",s[o:]); cl.append((r[1],r[2],bind[1] if bind else None)); b=x
        o=s.index('{',b); yield m.start(),m[1],s[p+1:e-1],res,cl,o,close(s,o),m[4]
def types(s,crate):
    ty={}
    for m in re.finditer(r"(?m)^\s*(?:pub )?struct (\w+)\s*(\{|\()",s):
        i=m.end()-1; ins=re.sub(r"//[^\n]*","",s[i+1:close(s,i)-1])
        parts=[q.strip() for q in split(ins) if q.strip()]
        ty[m[1]]=('{',[re.match(r"(?:pub )?(\w+)\s*:\s*(.*)",q,re.S).groups() for q in parts]) if m[2]=='{' else ('(',[re.sub(r"^pub ","",q) for q in parts])
    for m in re.finditer(r"(?m)^\s*(?:pub )?enum (\w+)\s*\{",s):
        i=m.end()-1; ins=re.sub(r"//[^\n]*","",s[i+1:close(s,i)-1]); v=split(ins)[0].strip()
        q=re.match(r"(\w+)\s*(\(.*\))?",v,re.S); ty[m[1]]=('e',q[1],split(q[2][1:-1]) if q[2] else [])
    return {k:(crate,)+q for k,q in ty.items()}
def split(t):
    o=[''];d=0
    for c in t:
        d+=(c in '([{<')-(c in ')]}>')
        if c==',' and d==0: o.append('')
        else: o[-1]+=c
    return o
def const(t,ty,crate):
    t=t.strip()
    if t=='' or t=='()': return ''
    if t in INTS: return ('0.0' if t[0]=='f' else '0')
    if t=='bool': return 'false'
    m=re.match(r"\[(.*);\s*([^;\]]+)\]$",t,re.S)
    if m: 
        c=const(m[1],ty,crate); return f"[{c+(m[1].strip() if m[1].strip() in INTS else '')}; {m[2]}]"
    k=t.split('::')[-1]
    if k not in ty: raise SystemExit(f"sister.py: no constant of the type {t}")
    # a field's type may be another crate's
    of,*q=ty[k]; t=f"{of}::{k}" if '::' not in t and of!=crate else t
    if q[0]=='{': return f"{t} {{ "+', '.join(f"{f}: {const(x,ty,crate)}" for f,x in q[1])+" }"
    if q[0]=='(': return f"{t}("+', '.join(const(x,ty,crate) for x in q[1])+")"
    return f"{t}::{q[1]}"+("("+', '.join(const(x,ty,crate) for x in q[2])+")" if q[2] else '')
def hollow(s,keep,ty,crate,said=None):
    # `said`, for another crate: the words of F's body
    o='';at=0
    for start,head,params,res,cl,b,e,f in functions(s):
        if said is not None and f not in said:
            o+=s[at:start]; at=e; continue
        ind=re.match(r" *",s[start:])[0]; imp=re.findall(r"(?m)^impl (\w+)",s[:start]); me=imp[-1] if imp and ind else ''
        body=s[b:e]; self=re.match(r"\s*(&(?:'\w+ )?(?:mut )?)?(mut )?self\b",params)
        if self and me in elems:
            params=f"{self[2] or ''}s: {self[1] or ''}{me}"+params[self.end():]; body=re.sub(r"\bself\b","s",body)
        res2=swap(res); q=f if not me else f"{me}.{f}"
        if q in keep: body=swap(body)
        else:
            r=re.match(r"&.*",res2)
            if r: raise SystemExit(f"sister.py: {f} hands a reference back: write its sister by hand") if f in keep else SystemExit(f"sister.py: no constant of the type {res2}")
            body="{\n"+ind+"    "+const(res2,ty,crate)+"\n"+ind+"}" if res2 else "{\n"+ind+"}"
        o+=s[at:start]+ind+head+"("+swap(params)+")"+(" -> "+res2 if res else '')+''.join(f"\n{ind}    {k} {n+' ' if n else ''}{{ {'λ '+bd+'. ' if bd else ''}⌜ 0 ≤ 0 ⌝ }}" for k,n,bd in cl)+"\n"+ind+body; at=e
    o+=s[at:]
    o=re.sub(r"(?m)^(pub )?ghost use [^;]*;\n","",o)
    o=re.sub(r"(?m)^impl \w+ \{\s*(//[^\n]*\s*)*\}","",o)
    return "ghost use Prim.Native.Nat.{_≤_};\n"+o
lines=dict((l.split(':')[0].strip(),l.split(':')[1].split()) for l in open(f"{here}/crates.txt") if ':' in l.split('#')[0])
def deps(n,seen):
    for d in lines.get(n,[]):
        if d in lines and d not in seen: deps(d,seen); seen.append(d)
    return seen
ds=deps(name,[])
src={c:{f:open(f"{here}/crates/{c}/src/{f}").read() for f in os.listdir(f"{here}/crates/{c}/src") if f.endswith('.rt')} for c in ds+[name]}
ty={}
for c in src:
    for t in src[c].values(): ty.update(types(t,c))
for a in fns:
    keep=a.strip('+!').split('+'); w=f"{here}/target/sister/{name}.{a.strip('!')}"; shutil.rmtree(w,ignore_errors=True)
    said=set(re.findall(r"\w+",' '.join(t[b:e] for t in src[name].values() for *_,b,e,f in functions(t) if f in [k.split('.')[-1] for k in keep])))
    for c in ds+[name]:
        os.makedirs(f"{w}/crates/{c}/src")
        for f,t in src[c].items(): open(f"{w}/crates/{c}/src/{f}",'w').write(hollow(t,keep if c==name else [],ty,c,None if c==name else said))
    open(f"{w}/crates.txt",'w').write(''.join(f"{c}: {' '.join(d for d in lines[c])}\n" for c in ds+[name]))
    run=lambda *x: subprocess.run(['rt','dev',name,*x],cwd=w,capture_output=True,text=True)
    if ds: subprocess.run(['rt','check',*ds],cwd=w,capture_output=True)
    p=run('--generated',f"{w}/gen"); q=run(); log=p.stdout+p.stderr+q.stdout+q.stderr; open(f"{w}/log",'w').write(log)
    for l in log.split('\n'):
        # the sister's own facts needn't hold: only its form must be covered
        if 'does not cover' in l and any(f"::{k.split('.')[-1]}:" in l for k in keep) or re.search(r"\berror\b(?!: `[^`]*`: `search`)",l) and 'does not cover' not in l: print(l[:400])
    out=f"{here}/crates/{name}/proofs"; subprocess.run([sys.executable,f"{here}/tools/port.py",f"{w}/gen",name,out,*specs,'--',a],check=True)
    d=a.strip('!').replace('.','/')
    m=re.search(rf"(?m)^help: write \S*/proofs/{re.escape(d)}/Proof\.antt with these lines.*\n((?:    .*\n|\s*\n)*)",q.stdout+q.stderr)
    if m and not os.path.exists(f"{out}/{d}/Proof.antt"):
        t=re.sub(r"(?m)^    ","",m[1]).rstrip()+'\n'; root=f"Rattle·{name}·proofs.proofs"
        camel=lambda f: ''.join(x.capitalize() for x in re.split(r"[_.]",f))
        t=re.sub(rf"use {re.escape(root)}\.([\w.]+)\.(Reads|Kinds) as",lambda k: f"use {root}.{camel(k[1])}{k[2]} as" if os.path.exists(f"{out}/{camel(k[1])}{k[2]}.antt") else k[0],t)
        t=re.sub(r"use Rattle·([^·.\s]+)\.proofs\.([\w.]+)\.(Reads|Kinds) as",lambda k: f"use Rattle·{k[1]}.proofs.{camel(k[2])}{k[3]} as" if os.path.exists(f"{here}/crates/{k[1]}/proofs/{camel(k[2])}{k[3]}.antt") else k[0],t)
        t=re.sub(rf"use {re.escape(root)}\.({re.escape(a.strip('!'))})\.(Lts[\w-]*|Tie)\b",rf"use {root}.\1.Proof.\2",t)
        # without a loop, each need is tried by search first
        if 'Inv-' not in t: t=re.sub(r"(?m)^(\S+( \S+)? c( κs)?) = \?$",r"\1 = search needs",t)
        if 'borrow.Author.Needs' not in t: t='use borrow.Author.Needs.{needs}\n'+t
        mods=sorted(f[:-5] for f in os.listdir(f"{out}/{d}/Proof"))
        open(f"{out}/{d}/Proof.antt",'w').write(f"-- `{name}::{a.strip('!+')}` meets its contract, over the derivation that is carried over from a sister by tools/sister.py. Assumes nothing.\n"+''.join(f"mod {x}\n" for x in mods)+t); print(f"{out}/{d}/Proof.antt")
    elif not os.path.exists(f"{out}/{d}/Proof.antt"):
        # the tool proved the sister's own: the needs are those of its Tie
        f=a.strip('!'); root=f"Rattle·{name}·proofs.proofs"; t=open(f"{out}/{d}/Proof/Tie.antt").read(); needs=re.findall(r"\(answer : Need-([^\s)]+)\)",re.search(r"pub spec : (.*)",t)[1])
        open(f"{out}/{d}/Proof.antt",'w').write(f"-- `{name}::{f.replace('.','::')}` meets its contract, over the derivation that is carried over from a sister by tools/sister.py. Assumes nothing.\nmod Lts\nmod Tie\nuse borrow.Author.Needs.{{needs}}\nuse {root}.{f}.Statement.{{statement}}\nuse {root}.{f}.Proof.Tie as tie\n\n"
            +''.join(f"{n} : tie.Need-{n}\n{n} c{' κs' if 'requires' in n else ''} = search needs\n\n" for n in needs)+f"pub {f.split('.')[-1].replace('_','-')}-spec : {{M : Type 1}} → statement M\n{f.split('.')[-1].replace('_','-')}-spec = tie.close (tie.spec {' '.join(needs)})\n"); print(f"{out}/{d}/Proof.antt")
