#!/usr/bin/env python3
"""Turns numbers of clauses and of lent parameters in Answers.antt into their names: c.requires.0 becomes c.requires.f_len,
c.cut.new.1.0 becomes c.cut.new.buffer, and a tuple that answers several clauses becomes a record. Ran once, for the port."""
import glob, os, re, sys
os.chdir(os.path.dirname(os.path.dirname(os.path.abspath(__file__))))
FN = {}
for f in glob.glob("crates/*/src/**/*.rt", recursive=True):
    s = open(f).read()
    for m in re.finditer(r"\bfn (\w+)(?:<[^>]*>)?\(([^)]*)\)([^{;\n]*)((?:\n\s+(?:requires|ensures|ghost)\*?[^\n]*)*)", s):
        name, params, cl = m.group(1), m.group(2), m.group(4)
        ps = [p.split(":")[0].strip().removeprefix("mut ") for p in params.split(",") if p.strip()]
        muts = [p.split(":")[0].strip() for p in params.split(",") if "&mut" in p or "&'a mut" in p]
        ps = ["self" if p.endswith("self") else p for p in ps]
        req = re.findall(r"\n\s+requires ?(\w*) ?\{", cl)
        ens = re.findall(r"\n\s+ensures ?(\w*) ?\{", cl)
        FN.setdefault(name, []).append((f, ps, muts, req, ens))

def callee(step, crate=None):
    """the function whose call the step is"""
    best = None
    for n in FN:
        if (step == n or step.startswith(n + "-")) and (best is None or len(n) > len(best)):
            best = n
    if not best: return None
    own = [x for x in FN[best] if x[0].startswith(f"crates/{crate}/")]
    return (own or FN[best])[0]

def named(names, idx):
    """the name of the clause at a path of numbers, and what is left of the path"""
    k = len(names)
    parts = idx
    if k < 2 or not parts: return None
    if k == 2:
        i = int(parts[0])
        return (names[i], parts[1:]) if i < 2 else None
    # flat, or pairs to the right
    if parts[0] == "1" and len(parts) > 1 and k > 2:
        i, rest = 0, list(parts)
        while rest and rest[0] == "1" and i < k - 1:
            rest = rest[1:]; i += 1
        if i < k - 1:
            if not rest or rest[0] != "0": return None
            return names[i], rest[1:]
        return names[i], rest
    i = int(parts[0])
    return (names[i], parts[1:]) if i < k else None

def tops(t):
    out, d, cur = [], 0, ""
    for ch in t:
        if ch in "([{": d += 1
        if ch in ")]}": d -= 1
        if ch == "," and d == 0: out.append(cur); cur = ""
        else: cur += ch
    if cur.strip(): out.append(cur)
    return out

def tail(body):
    """where the tuple at the end of a body begins, or None"""
    b = body.rstrip()
    if not b.endswith(")"): return None
    d = 0
    for i in range(len(b) - 1, -1, -1):
        if b[i] == ")": d += 1
        if b[i] == "(":
            d -= 1
            if d == 0:
                pre = b[:i].rstrip()
                if pre == "" or re.search(r"(\bin|=)$", pre): return i, len(b)
                return None
    return None

def flatten(t, k):
    xs = tops(t)
    while len(xs) < k and xs and xs[-1].strip().startswith("(") and xs[-1].strip().endswith(")"):
        inner = tops(xs[-1].strip()[1:-1])
        if len(inner) < 2: break
        xs = xs[:-1] + inner
    return xs if len(xs) == k else None

n = 0
for f in sorted(glob.glob("crates/*/proofs/**/Answers.antt", recursive=True)):
    fn = os.path.basename(os.path.dirname(f))
    crate = f.split("/")[1]
    mine = [x for x in FN.get(fn, []) if x[0].startswith(f"crates/{crate}/")]
    own = mine[0] if len(mine) == 1 else None
    s = old = open(f).read()
    if own:
        def r(m):
            g = named(own[3], m.group(1).strip(".").split("."))
            return "c.requires." + ".".join([g[0]] + g[1]) if g and g[0] else m.group(0)
        s = re.sub(r"\bc\.requires((?:\.\d+)+)(?![\w.])", r, s)
        s = re.sub(r"\bc\.requires((?:\.\d+)+)(?=\.[a-z])", r, s)
    def e(m):
        c = callee(m.group(1), crate)
        if not c: return m.group(0)
        g = named(c[4], m.group(2).strip(".").split("."))
        return f"c.{m.group(1)}.ensures." + ".".join([g[0]] + g[1]) if g and g[0] else m.group(0)
    s = re.sub(r"\bc\.([\w-]+)\.ensures((?:\.\d+)+)(?![\w])", e, s)
    def nw(m):
        c = callee(m.group(1), crate)
        if not c: return m.group(0)
        i = m.group(4).count("1")
        p = c[1][i] if i < len(c[1]) else None
        if p not in c[2] and len(c[2]) == 1: p = c[2][0]
        return f"c.{m.group(1)}.{m.group(3)}.{p}" if p else m.group(0)
    s = re.sub(r"\bc\.([\w-]+)()\.(new|auto)((?:\.[01])+)(?![\w])", nw, s)
    # answers that are tuples over clauses
    blocks = re.split(r"(?=^pub )", s, flags=re.M)
    for i, b in enumerate(blocks):
        m = re.match(r"pub (\S+) : goal\.\1\n(?:unfolding[^\n]*\n)?\1 c =", b)
        if not m: continue
        goal = m.group(1)
        names = None
        if goal.startswith("returns") and own: names = own[4]
        else:
            q = re.match(r"(.*?)-requires", goal)
            if q:
                c = callee(q.group(1), crate); names = c[3] if c else None
        if not names or len(names) < 2 or not all(names): continue
        t = tail(b[m.end():])
        if not t: continue
        body = b[m.end():]
        xs = flatten(body[t[0] + 1:t[1] - 1], len(names))
        if not xs: continue
        rec = "record { " + "; ".join(f"{a} = {x.strip()}" for a, x in zip(names, xs)) + " }"
        blocks[i] = b[:m.end()] + body[:t[0]] + rec + "\n" + body[t[1]:].lstrip("\n") + ("\n" if not b.endswith("\n\n") else "\n")
    s = "".join(blocks)
    if s != old:
        open(f, "w").write(s); n += 1
print("clauses:", n, "files")

# A parameter that the older kit named by its place: args.t1 is the first one.
for f in sorted(glob.glob("crates/*/proofs/**/Answers.antt", recursive=True)):
    fn, crate = os.path.basename(os.path.dirname(f)), f.split("/")[1]
    mine = [x for x in FN.get(fn, []) if x[0].startswith(f"crates/{crate}/")]
    if len(mine) != 1: continue
    ps = mine[0][1]
    s = old = open(f).read()
    s = re.sub(r"\b(a|args)\.t(\d+)\b", lambda m: f"{m.group(1)}.{ps[int(m.group(2)) - 1]}" if int(m.group(2)) <= len(ps) else m.group(0), s)
    if s != old: open(f, "w").write(s)
