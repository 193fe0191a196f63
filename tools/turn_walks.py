#!/usr/bin/env python3
# conv.py ROOT NAMESDIR CRATE [FN..]: turns proofs/F/Proof.antt (tie.spec form) into Invariants.antt and Answers.antt
import os,re,sys,json,glob
root,namesdir,crate=sys.argv[1:4]
only=sys.argv[4:]
base=f"{root}/crates/{crate}"
N=json.load(open(f"{namesdir}/{crate}/names.json"))
IDENT=r"[^\W\d][\w'₀-₉<>≢≡-]*"
TOK=re.compile(r"(?:[^\W\d]|[𝓤κμ])(?:[\w'₀-₉<>-]*[\w'₀-₉<>])?|[0-9]+|\s+|.",re.S)
def canon(s):
    s=s.replace('-','_').lower()
    return s[9:] if s.startswith('overflow_') else s
# &mut params of every fn of the repository
FN={}
for f in glob.glob(f"{root}/crates/*/src/*.rt"):
    t=open(f).read(); c=f.split('/crates/')[1].split('/')[0]
    for m in re.finditer(r"\bfn (\w+)\s*(?:<[^>]*>)?\(([^)]*)\)",t):
        ps=[]
        for p in m[2].split(','):
            p=p.strip()
            if ':' in p:
                n,ty=p.split(':',1); n=n.strip().removeprefix('mut ').strip()
                ps.append((n,ty.strip().startswith('&mut') or '&mut' in ty))
        FN.setdefault((c,m[1]),ps)
def mutparams(callee):
    parts=callee.split('::')
    ps=FN.get((parts[0],parts[-1]))
    return [n for n,m in ps] if ps else None
class Fn: pass
def info(key):
    v=N[key]; o=Fn(); o.v=v
    o.need={}
    for a,b in v['needs']: o.need[canon(a)]=b
    o.settled=[canon(x) for x in v['settled']]
    o.place={}; o.step={}; o.oldplace={canon(p[0]):p[0] for p in v['places']}
    o.calls=any(p[3] for p in v['places'])
    for i,(p,par,(so,sn),callee,ren) in enumerate(v['places']):
        o.place[canon(p)]=v['places_by_name'][i]
        if so:
            d=o.step.setdefault(canon(so),[])
            d.append((sn,callee,dict(map(tuple,ren)),v['clauses'][i],p,v['arms'][i]))
    o.parent={canon(p[0]):(canon(p[1]) if p[1] else None) for p in v['places']}
    o.askedat={}
    for (a,b),(x,y) in zip(v['needs'],v['asked_at']): o.askedat[canon(a)]=canon(x)
    o.loops=[(lo,ln,vs,v['changed'][i]) for i,((lo,ln),vs) in enumerate(v['loops'])]
    o.loopnames={canon(lo):(ln,i) for i,(lo,ln,_,_) in enumerate(o.loops)}
    o.pre=(v['pre'] or {}).get('fields')
    o.armat={canon(p[0]):v['arms'][i] for i,p in enumerate(v['places']) if v['arms'][i]}
    o.wrapped={canon(p[0]) for i,p in enumerate(v['places']) if v['typed'][i] or v['arms'][i]}
    o.asked=v['asked']
    return o
def chunks(t):
    """top-level chunks: list of (kind, text)"""
    out=[];cur=[]
    for l in t.split('\n'):
        out.append(l)
    return out
def parse(t):
    lines=t.rstrip('\n').split('\n')
    items=[];cur=None;com=[]
    for l in lines:
        if l.startswith('--'):
            if cur: items.append(cur); cur=None
            com.append(l); continue
        if re.match(r"(pub )?(use|mod|pub mod) ",l) or re.match(r"(use|mod) ",l):
            if cur: items.append(cur); cur=None
            items.append({'k':'use','t':l,'c':com}); com=[]; continue
        if l.strip()=='' :
            if cur: cur['b'].append('')
            continue
        if l[0]!=' ' and l[0]!=')' :
            m=re.match(r"((?:pub |abbrev |unfoldable )*)("+IDENT+r")\s*:(?!=)(.*)",l)
            mm=re.match(r"((?:pub |abbrev )*)("+IDENT+r")\s*$",l)
            if re.match(r"(pub |private )?(module|record|data|instance|open)\b",l):
                if cur: items.append(cur)
                cur={'k':'raw','n':'','pre':'','sig':[],'b':[l],'c':com,'insig':False}; com=[]; continue
            if m and not (cur and l.split()[0]==cur['n'] and not m):
                if cur: items.append(cur)
                cur={'k':'def','n':m[2],'pre':m[1],'sig':[m[3]],'b':[],'c':com,'insig':True}; com=[]; continue
            if mm and not l.startswith('unfolding'):
                if cur: items.append(cur)
                cur={'k':'def','n':mm[2],'pre':mm[1],'sig':[''],'b':[],'c':com,'insig':True}; com=[]; continue
            if cur is None:
                cur={'k':'raw','n':'','pre':'','sig':[],'b':[],'c':com,'insig':False}; com=[]
            cur['insig']=False
            cur['b'].append(l); continue
        if cur is None:
            cur={'k':'raw','n':'','pre':'','sig':[],'b':[],'c':com,'insig':False}; com=[]
        if cur['insig']: cur['sig'].append(l)
        else: cur['b'].append(l)
    if cur: items.append(cur)
    return items
def toks(s): return TOK.findall(s)
class Conv:
    def __init__(s,o,helpers,answers,flags):
        s.cur=None; s.proj={}; s.o=o; s.helpers=helpers; s.answers=answers; s.flags=flags
    def rec(s,names,path,i,unit):
        """consume nested pair path at i; return (name or None, new i)"""
        n=len(names); k=0; j=i
        while j<len(path) and path[j]=='1' and (k<n-1):
            k+=1; j+=1
        if unit and j<len(path) and path[j]=='1' and k==n-1: return None,i
        if not unit and k==n-1: return names[k],j
        if j<len(path) and path[j]=='0': return names[k],j+1
        return None,i
    def chain(s,pl):
        out=[]
        while pl: out.append(pl); pl=s.o.parent.get(pl)
        return out
    def path(s,base,kind,fields,view):
        """convert a path; returns (text, kind)"""
        out=base; i=0
        if isinstance(kind,tuple) and kind[0]=='place':
            _,b,nb,vw=kind
            out=b
            while i<len(fields) and fields[i]=='before': nb+=1; i+=1
            if i==len(fields):
                return out+('.before' if vw else '')+'.before'*nb,('place',b,nb,vw)
            f=fields[i]; cf=canon(f)
            if f in('args','ranges','lifetimes','type_inv','utf8'):
                return out+''.join('.'+x for x in fields[i:]),None
            if f in('requires','pre'):
                i+=1; out+='.requires'
                if s.o.pre:
                    return s.cont(out,('rec',s.o.pre,False),fields,i)
                return out+''.join('.'+x for x in fields[i:]),None
            if cf in s.o.step:
                st=s.o.step[cf]; i+=1
                names={x[0] for x in st}
                if s.cur:
                    ch=s.chain(s.cur)
                    st2=[x for x in st if canon(x[4]) in ch]
                    if st2: st=st2
                    elif len(names)>1: s.flags.append(f"step {f} has names {names}")
                    # arms: where the deepest place on the way merges this step
                    for pl in ch:
                        arm=s.o.armat.get(pl)
                        if arm:
                            best=None
                            for nf,os_,pth in arm[2]:
                                if canon(os_)==cf and fields[i:i+len(pth)]==pth and (best is None or len(pth)>len(best[1])): best=(nf,pth)
                            if best:
                                nf,pth=best
                                i+=len(pth)
                                out+='.'+arm[0]+'.'+nf
                                if pth==[]: return s.cont(out,('step',st),fields,i)
                                if nf.endswith('ensures'):
                                    cl=[x[3] for x in st if x[3]]
                                    if cl and len(cl[0]['fields'])>1: return s.cont(out,('rec',cl[0]['fields'],False),fields,i)
                                return out+''.join('.'+x for x in fields[i:]),None
                elif len(names)>1: s.flags.append(f"step {f} has names {names}")
                sn=st[0][0]
                out+='.'+sn
                return s.cont(out,('step',st),fields,i)
            s.flags.append(f"unknown step {f} in {base}.{'.'.join(fields)}")
            return out+''.join('.'+x for x in fields[i:]),None
        return s.cont(out,kind,fields,0)
    def cont(s,out,kind,fields,i):
        while i<len(fields):
            if isinstance(kind,tuple) and kind[0]=='rec':
                nm,j=s.rec(kind[1],fields,i,kind[2])
                if nm is None:
                    s.flags.append(f"partial record path {out}.{'.'.join(fields[i:])} of {kind[1]}")
                    return out+''.join('.'+x for x in fields[i:]),None
                out+='.'+nm; i=j; kind=None; continue
            if isinstance(kind,tuple) and kind[0]=='step':
                st=kind[1]; f=fields[i]
                sn,callee,ren,clauses,pl,arm=st[0]
                isloop=canon('loop')[:4]==pl[3:7] if pl.startswith('At-') else False
                if f in('inv',) : f='invariant'
                if f=='taken':
                    f='true' if pl.startswith(('Then','In-','After-')) else 'false'
                if f=='left' and not callee and not pl.startswith('At-loop'): f='false'
                if f in('true','false') :
                    for x in st:
                        if f in x[2]: f=x[2][f]; break
                elif f in ren: f=ren[f]
                if f=='kept' and callee: f='auto'
                out+='.'+f; i+=1; kind=None
                if f=='ensures' and callee:
                    cl=[x[3] for x in st if x[3]]
                    if cl and len(cl[0]['fields'])>1: kind=('rec',cl[0]['fields'],False)
                elif f in('new','auto') and callee:
                    mp=mutparams(callee)
                    if mp: kind=('rec',mp,True)
                continue
            return out+''.join('.'+{'inv':'invariant','pre':'requires'}.get(x,x) for x in fields[i:]),None
        return out,kind
    def text(s,t,env,views):
        """convert an expression text; env: var->kind; views: set of view variables"""
        ts=toks(t); out=[]; i=0; env=dict(env)
        stack=[]  # positions in out of '('
        pend=[]   # let bindings pending: (name, start index in out, depth)
        lastkind=None
        def fields_at(i):
            fs=[];j=i
            while j+1<len(ts) and ts[j]=='.' and re.match(r"[\w]",ts[j+1]) :
                fs.append(ts[j+1]); j+=2
            return fs,j
        kinds={}
        def place(i):
            """a place expression at token i: (kind, j) with no fields consumed but .before"""
            if i>=len(ts): return None
            x=ts[i]
            if x=='(':
                j=i+1
                while j<len(ts) and ts[j].isspace(): j+=1
                r=place(j)
                if not r: return None
                k,j=r
                while j<len(ts) and ts[j].isspace(): j+=1
                if j<len(ts) and ts[j]==')': return befores(k,j+1)
                return None
            if not re.match(r"[^\W\d]",x): return None
            if i>0 and ts[i-1]=='.': return None
            if x in env and isinstance(env[x],tuple) and env[x][0]=='place': return befores(env[x],i+1)
            if x in s.proj and x not in env:
                j=i+1
                if j>=len(ts) or not ts[j].isspace(): return None
                while j<len(ts) and ts[j].isspace(): j+=1
                if j<len(ts) and ts[j]=='(' or (j<len(ts) and ts[j] in env):
                    r=place(j)
                    if r:
                        k,j=r
                        return ('place',k[1],k[2]+s.proj[x],k[3]),j
            return None
        def befores(k,j):
            n=k[2]
            while j+1<len(ts) and ts[j]=='.' and ts[j+1]=='before': n+=1; j+=2
            return ('place',k[1],n,k[3]),j
        while i<len(ts):
            x=ts[i]
            r=place(i)
            if r:
                k,j=r
                fs,j2=fields_at(j)
                t_,k2=s.path('',k,fs,False)
                out.append(t_); kinds[t_]=k2; i=j2
                continue
            if x=='(':
                stack.append(len(out)); out.append(x); i+=1; continue
            if x==')':
                st=stack.pop() if stack else None
                inner=''.join(out[st+1:]).strip() if st is not None else ''
                out.append(x); i+=1
                fs,j=fields_at(i)
                h=re.match(IDENT,inner)
                if st is not None and re.fullmatch(r"[\w'.<>₀-₉-]+",inner) and inner in kinds and fs:
                    txt=''.join(out[st:]); k0=kinds[inner]
                    r,k=s.path(txt,k0,fs,False)
                    del out[st:]; out.append(r); i=j
                continue
            if re.match(r"[^\W\d]|[κμ]",x):
                if x=='let':
                    # let name [: type] = expr in
                    j=i+1; out.append(x)
                    while j<len(ts) and ts[j].isspace(): out.append(ts[j]); j+=1
                    if j<len(ts) and re.match(r"[^\W\d]",ts[j]):
                        name=ts[j]; out.append(name); j+=1
                        k=j
                        while k<len(ts) and ts[k].isspace(): k+=1
                        if k<len(ts) and ts[k]=='=':
                            out+=ts[j:k+1]; pend.append((name,len(out),len(stack)))
                            env.pop(name,None)
                            i=k+1; continue
                        # typed let: pop kind
                        env.pop(name,None)
                        i=j; pend.append((None,len(out),len(stack))); continue
                    i=j; continue
                if x=='in':
                    if pend and pend[-1][2]==len(stack):
                        name,st,_=pend.pop()
                        if name:
                            e=''.join(out[st:]).strip()
                            k=kinds.get(e)
                            h=re.match(IDENT,e)
                            if isinstance(k,tuple) and k[0]=='place' and re.fullmatch(r"[\w'.-]+",e):
                                env[name]=k
                                # drop the let: back to before `let`
                                cut=''.join(out)
                                st2=st
                                while out and out[st2-1]!='let': st2-=1
                                del out[st2-1:]
                                i+=1
                                # eat following whitespace
                                if i<len(ts) and ts[i].isspace(): i+=1
                                continue
                            if k: env[name]=k
                    out.append(x); i+=1; continue
                fs,j=fields_at(i+1)
                prev=''.join(out[-1:])
                if x in env and not (out and out[-1]=='.'):
                    r,k=s.path(x,env[x],fs,x in views)
                    out.append(r); kinds[r]=k; i=j; continue
                if x=='tie' and fs:
                    f=fs[0]
                    cp=canon(f)
                    if cp in s.o.place: out.append('tie.'+s.o.oldplace[cp])
                    else:
                        out.append('tie.'+f); s.flags.append('place '+f)
                    i=i+3
                    continue
                if not fs and canon(x).startswith('invariant_loop') and canon(x)[10:] in s.o.loopnames:
                    out.append('goal.the-invariant-'+s.o.loopnames[canon(x)[10:]][0]); i+=1; continue
                if not fs and canon(x).startswith('decreases_loop') and canon(x)[10:] in s.o.loopnames:
                    out.append('goal.the-decreases-'+s.o.loopnames[canon(x)[10:]][0]); i+=1; continue
                if x in s.answers and not (out and out[-1]=='.'):
                    out.append(s.answers[x]); i+=1; continue
                out.append(x); i+=1
                if fs:
                    out.append(''.join('.'+{'inv':'invariant','pre':'requires'}.get(f,f) for f in fs)); i=j
                continue
            out.append(x); i+=1
        return ''.join(out)
def sigargs(sig):
    """positional args of a signature: list of (name or None, type text)"""
    s=sig.strip(); args=[]; i=0
    depth=0; cur=''
    parts=[];j=0
    while j<len(s):
        ch=s[j]
        if ch in '({': depth+=1
        if ch in ')}': depth-=1
        if depth==0 and ch=='→': parts.append(cur); cur=''
        else: cur+=ch
        j+=1
    parts.append(cur)
    for p in parts[:-1]:
        p=p.strip()
        m=re.match(r"^((?:\([^()]*(?:\([^()]*\)[^()]*)*\)\s*|\{[^{}]*\}\s*)+)$",p,re.S)
        if m and re.match(r"\(\s*"+IDENT+r"(\s+"+IDENT+r")*\s*:",p):
            for b in re.finditer(r"\(((?:[^()]|\([^()]*\))*)\)|\{[^{}]*\}",p):
                if not b[1]: continue
                if ':' in b[1]:
                    ns,ty=b[1].split(':',1)
                    for n in ns.split(): args.append((n,ty.strip()))
        else: args.append((None,p))
    return args,parts[-1].strip()
def filter_uses(uses,text,extra=()):
    out=[]
    words=set(re.findall(r"[^\W\d](?:[\w'₀-₉<>≢≡∙-]*)",text))|set(re.findall(r"[^\s\w(){},;.]+",text))|set(text.split())
    tk=set(toks(text))
    def used(n):
        nm=n.split(' as ')[-1].strip()
        if '◌' in nm:
            return all(p in text for p in nm.split('◌') if p)
        return re.search(r"(?<![\w'-])"+re.escape(nm)+r"(?![\w'₀-₉-])",text) is not None
    for u in uses:
        m=re.match(r"use (.*)\.\{(.*)\}\s*$",u)
        if not m: 
            m2=re.match(r"use (\S+?)(?:\.([\w]+))?(?: as (\w+))?\s*$",u)
            out.append(u); continue
        ns=[n for n in m[2].split(', ') if used(n)]
        if ns: out.append(f"use {m[1]}.{{{', '.join(ns)}}}")
    return out
def tuple_parts(e):
    e=e.strip()
    if not (e.startswith('(') and e.endswith(')')): return None
    d=0
    for i,ch in enumerate(e):
        if ch in '([{': d+=1
        if ch in ')]}': d-=1
        if d==0 and i<len(e)-1: return None
    inner=e[1:-1]; parts=[];cur='';d=0
    for ch in inner:
        if ch in '([{': d+=1
        if ch in ')]}': d-=1
        if ch==',' and d==0: parts.append(cur); cur=''
        else: cur+=ch
    if cur.strip(): parts.append(cur)
    return [p.strip() for p in parts] if len(parts)>1 else None
def to_record(body,fields,flags):
    # split lets from the tail
    ts=toks(body); d=0; last=0; pos=0; ins=0
    for x in ts:
        if x in '([{': d+=1
        if x in ')]}': d-=1
        pos+=len(x)
        if x=='in' and d==0: last=pos
    head,tail=body[:last],body[last:]
    parts=[];e=tail.strip()
    for k in range(len(fields)-1):
        p=tuple_parts(e)
        if not p: break
        if k<len(fields)-1 and len(p)>=2:
            parts.append(p[0]); e='('+', '.join(p[1:])+')' if len(p)>2 else p[1]
    parts.append(e)
    if len(parts)!=len(fields):
        flags.append(f"answer wants a record of {fields}"); return body
    if not head.strip():
        return ' record {\n'+''.join(f'  {f} = {p};\n' for f,p in zip(fields,parts))+'}'
    return head+' record {\n'+''.join(f'      {f} = {p};\n' for f,p in zip(fields,parts))+'    }'
def convert(key,folder):
    o=info(key)
    p=f"{base}/proofs/{folder}/Proof.antt"
    t=open(p).read()
    flags=[]
    fnmod='.'.join(folder.split('/'))
    items=parse(t)
    head=[]
    if items and items[0]['c']: pass
    uses=[it['t'] for it in items if it['k']=='use' and not re.search(r"\.Statement\.\{|\.Tie as |^mod ",it['t'])]
    headc=[]
    for it in items:
        if it['k']=='use': headc=it['c']; break
    defs=[it for it in items if it['k']=='def']
    for it in items:
        if it['k']=='raw': flags.append('raw: '+'|'.join(it['b'])[:120])
    defs=[it for it in items if it['k'] in('def','raw')]
    helpers={};answers={}
    for it in defs:
        if it['k']=='raw': continue
        sig=' '.join(it['sig'])
        args,res=sigargs(sig)
        it['args']=args;it['res']=res
        m=re.match(r"\s*tie\.Need-(\S+)",sig)
        if m:
            it['need']=m[1]
            c=canon(m[1])
            if c in o.need: it['goal']=o.need[c]; answers[it['n']]=o.need[c]
            else:
                it['goal']=None
                flags.append(f"need {m[1]} has no goal ({'settled' if c in o.settled else 'unknown'})")
        elif re.match(r"\s*tie\.",res): helpers[it['n']]='place'
    C=Conv(o,helpers,answers,flags)
    inv=[];ans=[]
    for it in defs:
        if it['k']!='def' or 'need' in it: continue
        bl='\n'.join(l for l in it['b'] if not l.startswith('unfolding')).strip()
        mm=re.fullmatch(re.escape(it['n'])+r"\s+("+IDENT+r")\s*=\s*(.*)",bl,re.S)
        if re.match(r"\s*tie\.",it['res']) and len(it['args'])==1 and mm:
            ts=C.text(mm[2],{mm[1]:('place','X',0,False)},set()).strip()
            if re.fullmatch(r"X(\.before)*",ts): C.proj[it['n']]=ts.count('.before'); it['proj']=True
    for it in defs:
        if it['k']=='raw':
            body='\n'.join(it['b']).rstrip('\n')
            env={n:('place',n,0,False) for g in re.findall(r'\(((?:[^\W\d][\w]*\s*)+):\s*tie\.',body) for n in g.split()}
            m=re.search(r':\s*tie\.([\w-]+)',body); C.cur=canon(m[1]) if m else None
            ans.append(('\n'.join(it['c'])+'\n' if it['c'] else '')+C.text(body,env,set()))
            continue
        if it.get('proj'): continue
        sig='\n'.join(it['sig'])
        sg=sig.strip()
        b=it['b'][:]
        while b and b[-1]=='': b.pop()
        m=re.match(r"tie\.(invariant|decreases)-(loop\w*)\s*$",sg)
        if m:
            ln,idx=o.loopnames.get(canon(m[2]),(None,None))
            if ln is None: flags.append('loop '+m[2]); continue
            lo,_,vs,ch=o.loops[idx]
            unf=[l for l in b if l.startswith('unfolding')]
            body='\n'.join(l for l in b if not l.startswith('unfolding'))
            mm=re.match(re.escape(it['n'])+r"((?:\s+"+IDENT+r"|\s+_)*)\s*=(.*)",body,re.S)
            if not mm: flags.append('inv form '+it['n']); continue
            ps=mm[1].split(); rest=mm[2]
            sub={}
            n=len(vs); chv=[v for v,c in zip(vs,ch) if c]
            if len(ps)==n+len(chv):
                for q,v,c in zip(ps[:n],vs,ch):
                    sub[q]='l.initial.'+v if c else 'l.'+v
                for q,v in zip(ps[n:],chv): sub[q]='l.'+v
            else:
                flags.append(f"inv {it['n']}: params {ps} vs vars {vs} changed {ch}")
                for q in ps:
                    sub[q]='l.initial.'+q[:-1] if q.endswith('₀') else 'l.'+q
            binders=set(re.findall(r"\(((?:"+IDENT+r"\s*)+):",rest))
            bs=set(x for g in binders for x in g.split())|set(x for g in re.findall(r"λ ([^.]*)\.",rest) for x in g.replace('(',' ').replace(')',' ').split())
            for q in bs & set(sub): flags.append(f"inv {it['n']}: binder {q}"); sub.pop(q)
            tt=toks(rest);o2=[]
            for i,x in enumerate(tt):
                if x in sub and not (i>0 and tt[i-1]=='.'): o2.append(sub[x])
                else: o2.append(x)
            nm=f"{m[1]}-{ln}"
            inv.append(('\n'.join(it['c'])+'\n' if it['c'] else '')+f"abbrev pub {nm} : goal.{nm}\n"+''.join(u+'\n' for u in unf)+f"{nm} l ={''.join(o2)}")
            continue
        if re.search(r"\bstatement\b",sg): continue
        unf=[l for l in b if l.startswith('unfolding')]
        bl=[l for l in b if not l.startswith('unfolding')]
        if 'need' in it:
            if not it['goal']: continue
            g=it['goal']
            body='\n'.join(bl)
            mm=re.match(re.escape(it['n'])+r"((?:\s+"+IDENT+r"|\s+_|\s+κs)*)\s*=(.*)",body,re.S)
            if not mm: flags.append('answer form '+it['n']); continue
            ps=mm[1].split()
            cv=ps[0] if ps else 'c'
            C.cur=o.askedat.get(canon(it['need']))
            rest=C.text(mm[2],{cv:('place',cv,0,C.cur in o.wrapped)},{cv})
            if len(ps)>1 and re.search(r"(?<![\w.])"+re.escape(ps[1])+r"(?![\w])",rest): flags.append(f"{it['n']} uses {ps[1]}")
            if it['need'] in o.asked or canon(it['need']) in {canon(k) for k in o.asked}:
                fs=next(v for k,v in o.asked.items() if canon(k)==canon(it['need']))
                if len(fs)>1: rest=to_record(rest,fs,flags)
            if not unf and re.fullmatch(r"\s*(search rules|omega arith)\s*",rest): continue
            if not unf and re.fullmatch(r"\s*\(\s*(search rules|omega arith|refl)(,\s*(search rules|omega arith|refl))*\s*,?\s*\)\s*",rest): continue
            ans.append(('\n'.join(it['c'])+'\n' if it['c'] else '')+f"pub {g} : goal.{g}\n"+''.join(u+'\n' for u in unf)+f"{g} {cv} ={rest}")
        else:
            # helper
            env={n:('place',n,0,False) for n,ty in it['args'] if n and ty.startswith('tie.')}
            pts=[re.match(r'tie\.([\w-]+)',ty)[1] for n,ty in it['args'] if ty.startswith('tie.')]
            C.cur=canon(pts[0]) if pts else None
            sig2=C.text(sig,env,set())
            body='\n'.join(bl)
            out=[]
            # clauses: split on lines starting with the name
            cl=re.split(r"(?m)^(?="+re.escape(it['n'])+r"\b)",body)
            for c in cl:
                if not c.strip(): continue
                mm=re.match(re.escape(it['n'])+r"((?:\s+[^=\n]*?)?)\s*=(?!=)(.*)",c,re.S)
                if not mm: flags.append('helper form '+it['n']); out.append(c); continue
                ps=mm[1].split(); e2={}
                for q,(n,ty) in zip(ps,it['args']):
                    if ty.startswith('tie.'): e2[q]=('place',q,0,False)
                out.append(it['n']+mm[1]+' ='+C.text(mm[2],e2,set()))
            ans.append(('\n'.join(it['c'])+'\n' if it['c'] else '')+f"{it['pre']}{it['n']} :{sig2}\n"+''.join(u+'\n' for u in unf)+'\n'.join(out).rstrip('\n'))
    modbase=f"Rattle.{crate}.proofs.{fnmod}"
    hc='\n'.join(headc)+'\n' if headc else ''
    if inv:
        text='\n\n'.join(inv)+'\n'
        u=filter_uses(uses,text)
        open(f"{base}/proofs/{folder}/Invariants.antt",'w').write(hc+'\n'.join(u)+('\n' if u else '')+f"use {modbase}.Given as goal\n\n"+text)
    if ans:
        text='\n\n'.join(ans)+'\n'
        defs_={}
        def plc(m):
            a=' '.join(m[2].split())
            defs_[m[1]]=f"abbrev {m[1]} : Type 0\n{m[1]} = lts.{m[1]}{' tie.the-claims' if o.calls else ''} reads.Pre reads.Post{' '+a if a else ''}\n"
            return m[1]
        text=re.sub(r"\btie\.([\w-]+)((?:\s+goal\.the-(?:invariant|decreases)-[\w-]+)*)",plc,text)
        if defs_: text='\n'.join(defs_.values())+'\n'+text
        u=filter_uses(uses,text)
        if defs_: u+=[f"use {modbase}.Lts as lts",f"use {modbase}.Reads as reads"]
        tie=f"use {modbase}.Tie as tie\n" if re.search(r"\btie\.",text) else ''
        open(f"{base}/proofs/{folder}/Answers.antt",'w').write(hc+'\n'.join(u)+('\n' if u else '')+tie+f"use {modbase}.Goals as goal\n\n"+text)
    os.remove(p)
    import shutil
    shutil.rmtree(f"{base}/proofs/{folder}/Proof",ignore_errors=True)
    if not os.listdir(f"{base}/proofs/{folder}"): os.rmdir(f"{base}/proofs/{folder}")
    if flags:
        print(f"## {crate} {folder}")
        for f in flags: print('   ',f)
for key in N:
    if not key.startswith('Rattle-'): continue
    m=re.match(r"Rattle-\w+-proofs\.(.*)\.Lts(?:-(.*))?$",key)
    if not m: print('key',key); continue
    folder=m[1].replace('.','/')
    if not os.path.exists(f"{base}/proofs/{folder}/Proof.antt"): continue
    if only and folder not in only: continue
    convert(key,folder)
