"""A reading of HCL in Python, after the tables of `grammar`, with no proof. `tools/limits/make.py` takes its answers, so they are no check of those tables."""
# ---------- lexis
def at(s,p): return s[p] if p < len(s) else 256
def is_space(b): return b in (32,9)
def is_digit(b): return 48<=b<=57
def is_letter(b): return 65<=b<=90 or 97<=b<=122
def is_start(b): return is_letter(b) or b==95
def is_rest(b): return is_start(b) or is_digit(b) or b==45
def is_hex(b): return is_digit(b) or 65<=b<=70 or 97<=b<=102
def foreign(b): return 128<=b<=255
def line_ending(s,p):
    if at(s,p)==10: return 1
    if at(s,p)==13 and at(s,p+1)==10: return 2
    return 0
def item(s,p,lines):
    """width, 0 none, -1 unclosed"""
    b=at(s,p)
    if is_space(b): return 1
    if b==47 and at(s,p+1)==42:
        i=s.find(b'*/',p+2)
        return -1 if i<0 else i+2-p
    if lines:
        w=line_ending(s,p)
        if w: return w
        if b==35 or (b==47 and at(s,p+1)==47):
            i=p
            while i<len(s):
                w=line_ending(s,i)
                if w: return i+w-p
                i+=1
            return len(s)-p
    return 0
def gap(s,p,lines):
    """(at, open)"""
    while True:
        w=item(s,p,lines)
        if w==0: return (p,False)
        if w<0: return (p,True)
        p+=w
def line_comment(s,p):
    b=at(s,p)
    return b==35 or (b==47 and at(s,p+1)==47)
def terminator(s,p):
    """end, or 0 none, -1 cut"""
    if at(s,p)==44: return p+1
    w=line_ending(s,p)
    if w: return p+w
    if line_comment(s,p):
        i=p
        while i<len(s):
            w=line_ending(s,i)
            if w: return i+w
            i+=1
        return -1
    return 0
def word_end(s,p):
    if not is_start(at(s,p)): return p
    while is_rest(at(s,p)): p+=1
    return p
def word_is(s,p,w):
    e=word_end(s,p)
    return s[p:e]==w
def for_ahead(s,p):
    return s[p:p+3]==b'for' and at(s,p+3) in (32,9,13,10,35,47)
def digits(s,p):
    while is_digit(at(s,p)): p+=1
    return p
def number_end(s,p):
    if not is_digit(at(s,p)): return p
    p=digits(s,p)
    if at(s,p)==46 and is_digit(at(s,p+1)): p=digits(s,p+1)
    if at(s,p) in (101,69):
        q=p+1
        if at(s,q) in (43,45): q+=1
        if is_digit(at(s,q)): p=digits(s,q)
    return p
def index_end(s,p):
    if at(s,p)==48: return p+1
    return digits(s,p)
OPS={'*':(24,7),'/':(25,7),'%':(26,7),'+':(27,6),'-':(28,6),'>':(29,5),'>=':(30,5),'<':(31,5),'<=':(32,5),'==':(33,4),'!=':(34,4),'&&':(35,3),'||':(36,2)}
def binop(s,p):
    """kind,width"""
    b=at(s,p); c=at(s,p+1)
    two=bytes([b,c]) if b<256 and c<256 else b''
    if two in (b'>=',b'<=',b'==',b'!=',b'&&',b'||'): return OPS[two.decode()][0],2
    if b==47: return (0,0) if c in (47,42) else (25,1)
    if b<128 and chr(b) in '*%+-<>': return OPS[chr(b)][0],1
    return 0,0
def utf8enc(n): return chr(n).encode('utf8')
# unit: (width, bytes, escaped) or ('close'|'interp'|'directive'|'escape'|'end')
def unit(s,p,quoted):
    b=at(s,p)
    if b==256: return 'end'
    if b in (36,37):
        if at(s,p+1)==b and at(s,p+2)==123: return (3,bytes([b,123]),True)
        if at(s,p+1)==123: return 'interp' if b==36 else 'directive'
        return (1,bytes([b]),False)
    if quoted:
        if b==34: return 'close'
        if b==92:
            c=at(s,p+1)
            m={110:10,114:13,116:9,92:92,34:34}
            if c in m: return (2,bytes([m[c]]),True)
            n=4 if c==117 else 8 if c==85 else 0
            if n==0: return 'escape'
            v=0
            for i in range(n):
                h=at(s,p+2+i)
                if not is_hex(h): return 'escape'
                v=v*16+int(chr(h),16)
            if v>0x10ffff or 0xd800<=v<=0xdfff: return 'escape'
            return (2+n,utf8enc(v),True)
    return (1,bytes([b]),False)
def opener(s,p):
    """(flag, ds, de, text) or None with place"""
    q=p+2; f=0
    if at(s,q)==45: f=1;q+=1
    e=word_end(s,q)
    if e==q: return None,q
    w=line_ending(s,e)
    if w==0: return None,e
    return (f,q,e,e+w),0
def closing(s,p,d):
    """at line start p: ('close',end) ('foreign',place) None"""
    q=p
    while is_space(at(s,q)): q+=1
    if s[q:q+len(d)]!=d: return None
    e=q+len(d)
    if is_rest(at(s,e)): return None
    if foreign(at(s,e)): return ('foreign',e)
    return ('close',e)
def delim(s,h):
    o,_=opener(s,h)
    return s[o[1]:o[2]]
def run(s,p,rnd):
    """end, why, escaped, text. rnd: 'q' or heredoc start number"""
    esc=False; out=b''
    d=None if rnd=='q' else delim(s,rnd)
    while True:
        if d is not None and at(s,p-1)==10:
            c=closing(s,p,d)
            if c: return (p,c,esc,out)
        u=unit(s,p,rnd=='q')
        if isinstance(u,str): return (p,u,esc,out)
        esc=esc or u[2]; out+=u[1]; p+=u[0]
# ---------- engine
class Halt(Exception):
    def __init__(z,k,p): z.k=k; z.p=p
DEEP,UNEXP,FOREIGN,ESC,UNCL,DUP,DIR,IDX=8,4,3,5,6,7,9,10
class N:  # tree node
    __slots__=('kind','flag','start','end','kids','rnd')
    def __init__(z,k,f,s,e,ks): z.kind=k;z.flag=f;z.start=s;z.end=e;z.kids=ks
def rest_of(k): return k
class Att:
    __slots__=('left','lines','want','keys')
    def __init__(z,left,lines,want,keys=()): z.left=left;z.lines=lines;z.want=want;z.keys=keys
def unexpected(s,p): return (FOREIGN if foreign(at(s,p)) else UNEXP, p)
# tightness
def tight(k):
    if k==21: return 1
    if 24<=k<=36: return {24:7,25:7,26:7,27:6,28:6,29:5,30:5,31:5,32:5,33:4,34:4,35:3,36:2}[k]
    if k==37: return 8
    return 9
CAP=9
def here(s,b,p): return gap(s,p,b.lines)
def op_at(s,b,p):
    if b.want!='expr': return None
    q,o=here(s,b,p)
    if o: return None
    k,w=binop(s,q)
    if k: return k
    c=at(s,q)
    if c==63: return 21
    if c==91 or (c==46 and at(s,q+1)!=46): return 37
    return None
def pick(s,b,p):
    c=at(s,p)
    w=b.want
    if w=='name': return 17
    if w=='item': return 13
    if w=='cond': return 20
    if w=='part':
        q,o=gap(s,p+1,True)
        x=256 if o else at(s,q)
        if c==46: return 40 if x==42 else 39 if is_digit(x) else 38
        if c==91: return 41 if x==42 else 42
        return None
    if w!='expr':
        # text: ('q') or heredoc start
        return 10 if (c==36 and at(s,p+1)==123) else 9
    if is_digit(c): return 4
    if is_start(c):
        e=word_end(s,p)
        q,o=here(s,b,e)
        if not o and (at(s,q)==40 or (at(s,q)==58 and at(s,q+1)==58)): return 16
        t=s[p:e]
        return {b'null':1,b'true':2,b'false':3}.get(t,5)
    if c==45:
        q,o=gap(s,p+1,False)
        return 4 if not o and is_digit(at(s,q)) else 22
    if c==33: return 23 if at(s,p+1)!=61 else None
    if c==40: return 15
    if c in (91,123):
        q,o=gap(s,p+1,True)
        f=not o and for_ahead(s,q)
        if c==91: return 18 if f else 11
        return 19 if f else 12
    if c==34:
        return 7 if run(s,p+1,'q')[1]=='interp' else 6
    if c==60 and at(s,p+1)==60: return 8
    return None
# moves: each returns ('go',q) or ('no',kind,place)
def trivia(s,p,lines):
    q,o=gap(s,p,lines)
    return ('no',UNCL,q) if o else ('go',q)
def then(s,r,f): return f(r[1]) if r[0]=='go' else r
def no(s,p): return ('no',)+unexpected(s,p)
def byte(s,p,c): return ('go',p+1) if at(s,p)==c else no(s,p)
def opener_byte(s,b,p,c,w=1):
    if s[p:p+w]!=c: return no(s,p)
    return ('no',DEEP,p) if b.left==0 else ('go',p+w)
def token(s,p,t): return ('go',p+len(t)) if s[p:p+len(t)]==t else no(s,p)
def key_at(s,a):
    """comparable token: (sort, text, end) or None"""
    if is_start(at(s,a)):
        e=word_end(s,a); return ('w',s[a:e],e)
    if at(s,a)==34:
        e,why,esc,t=run(s,a+1,'q')
        if why=='close': return ('s',t,e+1)
    return None
def lone(s,a):
    """the key of an item that starts at a is one comparable token"""
    k=key_at(s,a)
    if not k: return None
    q,o=gap(s,k[2],False)
    if o: return None
    c,d=at(s,q),at(s,q+1)
    if (c==61 and d!=61) or (c==58 and d!=58) : return k[:2]
    return None
def dup(s,b,sig,p):
    k=key_at(s,sig)
    if not k or k[2]!=p: return False
    return any(lone(s,a)==k[:2] for a in b.keys)
def keyed(s,b,sig,p):
    r=trivia(s,p,False)
    if r[0]=='no': return r
    if dup(s,b,sig,p): return ('no',DUP,sig)
    return r
def go(s,b,m,sig,p):
    n=m[0]
    if n=='byte': return byte(s,p,m[1])
    if n=='any': return trivia(s,p,True)
    if n=='line': return trivia(s,p,False)
    if n=='here': return trivia(s,p,b.lines)
    if n=='open': return opener_byte(s,b,p,m[1],len(m[1]))
    if n=='anyTok': return then(s,trivia(s,p,True),lambda q: token(s,q,m[1]))
    if n=='anyWord':
        return then(s,trivia(s,p,True),lambda q: ('go',q+len(m[1])) if word_is(s,q,m[1]) else no(s,q))
    if n=='atWord': # to the word, not over it
        return then(s,trivia(s,p,True),lambda q: ('go',q) if word_is(s,q,m[1]) else no(s,q))
    if n=='word':
        if word_is(s,p,m[1]): return ('go',p+len(m[1]))
        return no(s,p)
    if n=='for':
        return then(s,trivia(s,p,True),lambda q: ('go',q+3) if for_ahead(s,q) else no(s,q))
    if n=='ident':
        e=word_end(s,p); return ('go',e) if e!=p else no(s,p)
    if n=='minus':  # '-' line, before a number
        if at(s,p)!=45: return no(s,p)
        return trivia(s,p+1,False)
    if n=='number':
        e=number_end(s,p); return ('go',e) if e!=p else no(s,p)
    if n=='index':
        e=index_end(s,p)
        if e==p: return no(s,p)
        return ('no',IDX,p) if int(s[p:e])>18446744073709551615 else ('go',e)
    if n=='op': # here op
        return then(s,trivia(s,p,b.lines),lambda q: ('go',q+len(m[1])) if binop(s,q)[0]==OPS[m[1].decode()][0] else no(s,q))
    if n=='ask': # here '?'+1
        return then(s,trivia(s,p,b.lines),lambda q: opener_byte(s,b,q,b'?',1))
    if n=='hereTok':
        return then(s,trivia(s,p,b.lines),lambda q: token(s,q,m[1]))
    if n=='callOpen':
        return then(s,trivia(s,p,b.lines),lambda q: opener_byte(s,b,q,b'(',1))
    if n=='partAhead':
        return then(s,trivia(s,p,b.lines),lambda q: ('go',q) if at(s,q)==91 or (at(s,q)==46 and at(s,q+1)!=46) else no(s,q))
    if n=='sep': # any ',' any, and not the closer nor (calls) more
        r=then(s,trivia(s,p,True),lambda q: token(s,q,b','))
        r=then(s,r,lambda q: trivia(s,q,True))
        return then(s,r,lambda q: no(s,q) if at(s,q)==m[1] else ('go',q))
    if n=='closeComma': # any [ ',' any ] closer
        r=trivia(s,p,True)
        if r[0]=='go' and at(s,r[1])==44:
            r=trivia(s,r[1]+1,True)
        return then(s,r,lambda q: byte(s,q,m[1]))
    if n=='itemSep': # line terminator any, not '}'
        r=trivia(s,p,False)
        if r[0]=='no': return r
        t=terminator(s,r[1])
        if t==0: return no(s,r[1])
        if t<0: return ('no',UNEXP,len(s))
        r=trivia(s,t,True)
        return then(s,r,lambda q: no(s,q) if at(s,q)==125 else ('go',q))
    if n=='itemsClose':
        r=trivia(s,p,False)
        if r[0]=='no': return r
        if at(s,r[1])==125: return ('go',r[1]+1)
        t=terminator(s,r[1])
        if t==0: return no(s,r[1])
        if t<0: return ('no',UNEXP,len(s))
        r=trivia(s,t,True)
        return then(s,r,lambda q: byte(s,q,125))
    if n=='keyEq':
        return then(s,keyed(s,b,sig,p),lambda q: ('go',q+1) if at(s,q)==61 and at(s,q+1) not in (61,62) else no(s,q))
    if n=='keyColon':
        return then(s,keyed(s,b,sig,p),lambda q: byte(s,q,58))
    if n=='arrow': return then(s,trivia(s,p,True),lambda q: token(s,q,b'=>'))
    if n=='not':
        if at(s,p)==33 and at(s,p+1)!=61: return ('no',DEEP,p) if b.left==0 else ('go',p+1)
        return no(s,p)
    # text
    if n in('plain','escaped'):
        e,why,esc,t=run(s,p,m[1] if m[1]!='b' else b.want)
        if n=='plain': return ('no',0,0) if esc else ('go',e)
        return ('go',e)
    if n=='run': # piece: nonempty
        e,why,esc,t=run(s,p,b.want)
        if e==p: return no(s,p)
        if m[1]==0 and esc: return ('no',0,0)
        return ('go',e)
    if n in ('closeQuote',):
        e,why,esc,t=run(s,p,'q')
        if why=='close' and e==p: return ('go',p+1)
        if why=='escape': return ('no',ESC,e)
        if why=='directive': return ('no',DIR,e)
        if why=='end': return ('no',UNCL,sig)
        return no(s,p)
    if n=='more':
        rnd='q' if m[1]=='q' else sig
        e,why,esc,t=run(s,p,rnd)
        return ('go',p) if e!=p or why=='interp' else ('no',0,0)
    if n=='delim':
        e=word_end(s,p)
        if e==p: return no(s,p)
        w=line_ending(s,e)
        return ('go',e+w) if w else no(s,e)
    if n=='closeHere':
        e,why,esc,t=run(s,p,sig)
        if isinstance(why,tuple):
            return ('go',why[1]) if why[0]=='close' else ('no',FOREIGN,why[1])
        if why=='directive': return ('no',DIR,e)
        if why=='end': return ('no',UNCL,sig)
        return no(s,p)
    raise Exception(n)
# layouts: ('move',m,l) ('kid',c,l) ('fork',m,l,l2) ('rep',m,c,l) ('fin',f)
def M(m,l): return ('move',m,l)
def K(c,l): return ('kid',c,l)
def F(m,l,r): return ('fork',m,l,r)
def R(m,c,l): return ('rep',m,c,l)
def fin(f=0): return ('fin',f)
any_=('any',);line=('line',);here_=('here',)
def tok(t): return ('anyTok',t)
def listOf(openm,closer,cls):
    return M(openm,F(tok(closer),fin(),M(any_,K(cls,R(('sep',closer[0]),cls,M(('closeComma',closer[0]),fin()))))))
def forHead(tail):
    t=M(('anyWord',b'in'),M(any_,K('lineExpr',M(tok(b':'),M(any_,tail)))))
    return M(('for',),M(any_,K('name',F(tok(b','),M(any_,K('name',t)),t))))
def condThen(closer,f): return F(('atWord',b'if'),K('cond',M(tok(closer),fin(f))),M(tok(closer),fin(f)))
def heredocBody(f): return M(('delim',),R(('more','h'),'text',M(('closeHere',),fin(f))))
LAY={
 1:M(('word',b'null'),fin()),2:M(('word',b'true'),fin()),3:M(('word',b'false'),fin()),
 4:F(('minus',),M(('number',),fin(1)),M(('number',),fin())),
 5:M(('ident',),fin()),17:M(('ident',),fin()),
 6:M(('byte',34),F(('plain','q'),M(('closeQuote',),fin()),M(('escaped','q'),M(('closeQuote',),fin(1))))),
 7:M(('byte',34),R(('more','q'),'text',M(('closeQuote',),fin()))),
 8:M(('byte',60),M(('byte',60),F(('byte',45),heredocBody(1),heredocBody(0)))),
 9:F(('run',0),fin(0),M(('run',1),fin(1))),
 10:M(('open',b'${'),F(('byte',126),
      M(any_,K('inside',F(tok(b'~'),M(('byte',125),fin(3)),M(tok(b'}'),fin(1))))),
      M(any_,K('inside',F(tok(b'~'),M(('byte',125),fin(2)),M(tok(b'}'),fin(0))))))),
 11:listOf(('open',b'['),b']','inside'),
 12:M(('open',b'{'),F(tok(b'}'),fin(),M(any_,K('item',R(('itemSep',),'item',M(('itemsClose',),fin())))))),
 13:K('key',F(('keyEq',),M(line,K('value',fin())),M(('keyColon',),M(line,K('value',fin(1)))))),
 15:M(('open',b'('),M(any_,K('inside',M(tok(b')'),fin())))),
 16:K('name',R(('hereColons',),'name',M(('callOpen',),F(tok(b')'),fin(),M(any_,K('inside',R(('sep',41),'inside',F(tok(b'...'),M(tok(b')'),fin(1)),M(('closeComma',41),fin()))))))))),
 18:M(('open',b'['),forHead(K('inside',condThen(b']',0)))),
 19:M(('open',b'{'),forHead(K('lineExpr',M(('arrow',),M(any_,K('lineExpr',F(tok(b'...'),condThen(b'}',1),condThen(b'}',0)))))))),
 20:M(('word',b'if'),M(any_,K('condExpr',fin()))),
 21:M(('ask',),M(here_,K('branch',M(('hereTok',b':'),M(here_,K('branch',fin())))))),
 22:M(('open',b'-'),M(line,K('term',fin()))),
 23:M(('not',),M(line,K('term',fin()))),
 37:M(('partAhead',),K('part',R(('partAhead',),'part',fin()))),
 38:M(('byte',46),M(any_,M(('ident',),fin()))),
 39:M(('byte',46),M(any_,M(('index',),fin()))),
 40:M(('byte',46),M(tok(b'*'),fin())),
 41:M(('open',b'['),M(tok(b'*'),M(tok(b']'),fin()))),
 42:M(('open',b'['),M(any_,K('inside',M(tok(b']'),fin())))),
}
for o,(k,l) in OPS.items(): LAY[k]=M(('op',o.encode()),M(here_,K(('right',l),fin())))
def down(s,b,c,sig,ks):
    if c in('inside',): return Att(b.left-1,True,'expr')
    if c=='condExpr': return Att(b.left,True,'expr')
    if c=='lineExpr': return Att(b.left-1,False,'expr')
    if c in('key','value'): return Att(b.left,False,'expr')
    if c=='term' or c=='branch': return Att(b.left-1,b.lines,'expr')
    if isinstance(c,tuple): return Att(b.left,b.lines,'expr')
    if c=='item': return Att(b.left-1,False,'item',[k.start for k in ks])
    if c=='name': return Att(b.left,b.lines,'name')
    if c=='part': return Att(b.left,b.lines,'part')
    if c=='cond': return Att(b.left-1,True,'cond')
    if c=='text': return Att(b.left,b.lines,'q' if at(s,sig)==34 else sig)
def bound(c):
    if isinstance(c,tuple): return c[1]
    if c=='term': return 7
    if c in('item','name','part','cond','text'): return 8
    return 0
def style(c): return 1 if c=='key' else 0
def produce(s,b,sig,ks,k,l,p):
    ks=list(ks)
    while True:
        t=l[0]
        if t=='fin': return (k,l[1],p,ks)
        if t=='move':
            r=go(s,b,l[1],sig,p)
            if r[0]=='no': raise Halt(r[1],r[2])
            p=r[1]; l=l[2]
        elif t=='fork':
            r=go(s,b,l[1],sig,p)
            if r[0]=='no': l=l[3]
            else: p=r[1]; l=l[2]
        elif t=='kid':
            x=read(s,down(s,b,l[1],sig,ks),bound(l[1]),p)
            if style(l[1]) and x.kind==5: x.kind=14
            ks.append(x); p=x.end; l=l[2]
        elif t=='rep':
            r=go(s,b,l[1],sig,p)
            if r[0]=='no': l=l[3]
            else:
                x=read(s,down(s,b,l[2],sig,ks),bound(l[2]),r[1])
                ks.append(x); p=x.end
def read(s,b,j,p):
    k=pick(s,b,p)
    if k is None or tight(k)<=j: raise Halt(*unexpected(s,p))
    k,f,e,ks=produce(s,b,p,[],k,LAY[k],p)
    t=N(k,f,p,e,ks)
    while True:
        k=op_at(s,b,t.end)
        if k is None or tight(k)<=j: return t
        k,f,e,ks=produce(s,b,t.start,[t],k,LAY[k],t.end)
        t=N(k,f,t.start,e,ks)
_go=go
def go(s,b,m,sig,p):
    if m[0]=='hereColons':
        r=then(s,trivia(s,p,b.lines),lambda q: token(s,q,b'::'))
        return then(s,r,lambda q: trivia(s,q,b.lines))
    return _go(s,b,m,sig,p)
def first_bad(s):
    try: s.decode('utf8'); return None
    except UnicodeDecodeError as e: return e.start
def answer(s):
    if len(s)>65535: return (1,0),None,b''
    u=first_bad(s)
    if u is not None: return (2,u),None,b''
    try:
        t=read(s,Att(64,False,'expr'),0,0)
        if t.end!=len(s):
            q,o=gap(s,t.end,False)
            if o: raise Halt(UNCL,q)
            raise Halt(*unexpected(s,q))
    except Halt as h:
        return (h.k,h.p),None,b''
    rows=[];text=bytearray()
    def flat(t,rnd):
        n0=len(rows)
        for x in t.kids: flat(x,'q' if t.kind==7 else t.start if t.kind==8 else None)
        ts=tl=0
        if t.kind==6:
            if t.flag: tx=run(s,t.start+1,'q')[3]; ts=len(text);tl=len(tx);text.extend(tx)
            else: ts=t.start+1; tl=t.end-t.start-2
        if t.kind==9:
            if t.flag: tx=run(s,t.start,rnd)[3]; ts=len(text);tl=len(tx);text.extend(tx)
            else: ts=t.start; tl=t.end-t.start
        rows.append((t.kind,t.flag,t.start,t.end,len(rows)-n0+1,ts,tl))
    flat(t,None)
    return (0,len(s)),rows,bytes(text)
