#!/usr/bin/env python3
"""Turns Proof.antt files of the older kit into Invariants.antt and Answers.antt.

usage: answers.py NAMES.json crates/NAME [FUNCTION ..]
NAMES.json is what `rattle check --generated DIR --old-names` writes. A proof that walks the code by hand (no tie.close) is left as it is.
Prints for each file what it could not place. It ran once, for the port (docs/PORT.md)."""
import json, os, re, sys

ID = r"[A-Za-zκ_][\w'₀-₉-]*"
PATH = re.compile(r"(?<![\w.'₀-₉-])(" + ID + r")((?:\.[\w'₀-₉-]+)*)")

def norm(s):
    return re.sub(r"-(\d+)$", r"\1", s.replace("_", "-"))

class Names:
    def __init__(self, d):
        self.needs = d["needs"]
        self.at = d["asked_at"]
        self.places = {p[0]: p for p in d["places"]}
        self.order = [p[0] for p in d["places"]]
        self.loops = d["loops"]
        self.changed = d["changed"]
    def parent(self, p):
        return self.places[p][1] if p in self.places else None
    def up(self, p, k):
        while k and p:
            p = self.parent(p); k -= 1
        return p
    def steps(self, p):
        while p:
            yield self.places[p][2]
            p = self.parent(p)
    def step(self, start, q, name):
        """the new name of the old step `name`, seen from the place `start`, k steps up at q"""
        for n in (name, re.sub(r"-?\d+$", "", name)):
            for s in ([self.places[q][2]] if q in self.places else []) + list(self.steps(start)) + [self.places[p][2] for p in self.order]:
                if s[0] and norm(s[0]) == norm(n):
                    return s[1]
        return None
    def need(self, name):
        n = norm(re.sub(r"^Need-", "", name))
        tries = [n, re.sub(r"^overflow-", "", n), re.sub(r"^nonzero-", "", n), re.sub(r"^slice-bounds-", "part-", n)]
        for i, (old, new) in enumerate(self.needs):
            if norm(old) in tries:
                return i
        return None
    def loop(self, name):
        for i, ((old, new), vs) in enumerate(self.loops):
            if norm(old) == norm(name):
                return i
        return None

class Decl:
    def __init__(self, name, comment):
        self.name, self.comment, self.head, self.sig, self.unfold, self.eqs = name, comment, "", "", "", []

def parse(text):
    uses, decls, comment, cur = [], [], [], None
    lines = text.split("\n")
    i = 0
    head = []
    while i < len(lines):
        l = lines[i]
        j = i + 1
        while j < len(lines) and (lines[j].startswith(" ") or (lines[j].strip() == "" and j + 1 < len(lines) and lines[j + 1].startswith(" "))):
            j += 1
        block = "\n".join(lines[i:j])
        if l.startswith("--"):
            if not uses and not decls:
                head.append(l)
            else:
                comment.append(l)
        elif l.startswith("use "):
            uses.append(block)
        elif l.strip() == "":
            pass
        else:
            m = re.match(r"((?:abbrev |unfoldable |pub |data |record )*)(\S+)\s*:\s", block)
            if l.startswith("unfolding"):
                cur.unfold = block
            elif m and not (cur and re.match(re.escape(cur.name) + r"\s.*=", l.split(":")[0]) and "=" in l.split(" : ")[0]):
                cur = Decl(m.group(2), comment); comment = []
                cur.head = m.group(1); cur.sig = block[m.end():]
                decls.append(cur)
            else:
                cur.eqs.append(block)
        i = j
    return head, uses, decls

def split_args(s):
    out, depth, cur = [], 0, ""
    for ch in s:
        if ch in "([{": depth += 1
        if ch in ")]}": depth -= 1
        if ch.isspace() and depth == 0:
            if cur: out.append(cur)
            cur = ""
        else:
            cur += ch
    if cur: out.append(cur)
    return out

class Turn:
    def __init__(self, names, decls):
        self.n = names
        self.lost = []
        self.helpers = {}
        self.decls = decls

    def body(self, text, place, env=None):
        """rewrites paths in `text`, where c stands for the old record of `place`"""
        env = dict(env or {"c": place})
        out, pos = "", 0
        let = re.compile(r"let\s+(" + ID + r")\s+=\s+(" + ID + r")((?:\.before)*)\s+in\b[ \t]*\n?[ \t]*")
        while True:
            m = let.search(text, pos)
            # aliases of places go
            while m and m.group(2) not in env:
                m = let.search(text, m.end(2))
            if not m:
                out += self.paths(text[pos:], env, place)
                break
            out += self.paths(text[pos:m.start()], env, place)
            env[m.group(1)] = self.n.up(env[m.group(2)], m.group(3).count(".before"))
            pos = m.end()
        return out

    def paths(self, text, env, start):
        def one(m):
            root, rest = m.group(1), m.group(2)
            if root not in env:
                return m.group(0)
            parts = rest.split(".")[1:]
            k = 0
            while k < len(parts) and parts[k] == "before":
                k += 1
            q = self.n.up(env[root], k)
            parts = parts[k:]
            if not parts:
                # a variable that a λ binds is no place
                return m.group(1) if re.search(r"λ[^.]*$", text[:m.start()]) or re.search(r"λ[^.]*\b" + re.escape(m.group(1)) + r"\b[^.]*\.", text[:m.start()]) else "c"
            s = parts[0]
            if s in ("args", "requires", "ranges", "lifetimes"):
                return "c." + ".".join(parts)
            new = self.n.step(env[root], q, s)
            if new is None:
                self.lost.append(s)
                new = s
            if s.startswith("loop") and len(parts) > 1 and parts[1] == "auto":
                i = self.n.loop(s)
                if i is not None and "kept" in self.n.loops[i][1]:
                    parts[1] = "kept"
            return "c." + ".".join([new] + parts[1:])
        return PATH.sub(one, text)

    def inline(self, text, place):
        """helpers over a place become lets before the answer"""
        pre, done = "", set()
        for h in self.helpers:
            pat = re.compile(r"\(" + re.escape(h) + r"\s+c\)(?=\.)|(?<![\w.'-])" + re.escape(h) + r"\s+(c)(?![\w'.-])")
            if pat.search(text):
                def sub(m):
                    return h
                text = pat.sub(sub, text)
                sig, args, body = self.helpers[h]
                # a helper's own helpers
                b = self.body(body, place); t = self.body(sig, place)
                sub_pre, b = self.inline(b, place)
                if args:
                    b = "λ " + " ".join(args) + ". " + b
                pre += sub_pre + f"let {h} : {t.strip()} = {b.strip()} in\n    "
        return pre, text

def main():
    names = json.load(open(sys.argv[1]))
    crate = sys.argv[2].rstrip("/")
    only = sys.argv[3:]
    cn = os.path.basename(crate)
    for key, d in sorted(names.items()):
        m = re.match(r"Rattle-" + cn + r"-proofs\.(.*)\.Lts$", key)
        if not m: continue
        path = m.group(1)
        if only and path not in only: continue
        folder = os.path.join(crate, "proofs", *path.split("."))
        pf = os.path.join(folder, "Proof.antt")
        if not os.path.exists(pf): continue
        text = open(pf).read()
        if "tie.close" not in text:
            print(f"{cn} {path}: walks by hand, left"); continue
        n = Names(d)
        head, uses, decls = parse(text)
        t = Turn(n, decls)
        spec = [x for x in decls if any("tie.close" in e for e in x.eqs)][0]
        inv, ans, helpers, said = [], [], [], []
        # helpers over a place
        for x in decls:
            m2 = re.match(r"\((\w+) : tie\.([\w₀-₉-]+)((?:\s+(?:invariant|decreases)-[\w-]+)*)\)\s*", x.sig.replace("\n", " "))
            if x is not spec and m2 and len(x.eqs) == 1 and not x.unfold:
                sig = x.sig.replace("\n", " ")[m2.end():]
                sig = re.sub(r"^→\s*", "", sig)
                lhs, body = x.eqs[0].split("=", 1)
                args = split_args(lhs)[1:]
                pl = [p for p in n.order if norm(p) == norm(m2.group(2))]
                if not pl:
                    said.append("place " + m2.group(2)); continue
                x.var, x.arg = m2.group(1), args[0]
                t.helpers[x.name] = (sig, args[1:], body)
                x.place = pl[0]
        hp = {h: [x.place for x in decls if x.name == h][0] for h in t.helpers}
        # fix: bodies of helpers are read from their own place
        for h, (sig, args, body) in list(t.helpers.items()):
            x = [x for x in decls if x.name == h][0]
            t.helpers[h] = (t.body(sig, hp[h], {x.var: hp[h]}), args, t.body(body, hp[h], {x.arg: hp[h]}))
        raw_body = t.body
        t.body_orig = raw_body
        def inline(text, place, t=t):
            pre, found = "", True
            for h in reversed(list(t.helpers)):
                pat = re.compile(r"\(" + re.escape(h) + r"\s+c\)|(?<![\w.'-])" + re.escape(h) + r"\s+c(?![\w'.-])")
                sig, args, body = t.helpers[h]
                if pat.search(text) or pat.search(pre):
                    text = pat.sub(h, text); pre = pat.sub(h, pre)
                    b = body.strip()
                    if args: b = "λ " + " ".join(args) + ". " + b
                    pre = f"let {h} : {sig.strip()} = {b} in\n    " + pre
            return pre + (text.lstrip() if pre else text)
        for x in decls:
            if x is spec or x.name in t.helpers: continue
            m2 = re.match(r"tie\.(invariant|decreases)-([\w₀-₉-]+)\s*$", x.sig.strip())
            if m2:
                i = n.loop(m2.group(2))
                if i is None:
                    said.append("loop " + m2.group(2)); continue
                (old, new), vs = n.loops[i]
                ch = n.changed[i] if i < len(n.changed) else []
                if m2.group(1) == "decreases" and any(nw == "overflow_step-" + new[5:] for _, nw in n.needs): continue
                lhs, body = x.eqs[0].split("=", 1)
                ps = split_args(lhs)[1:]
                pos = [(v, c) for v, c in zip(vs, ch)]
                want = ["l.initial." + v if c else "l." + v for v, c in pos] + ["l." + v for v, c in pos if c]
                table = {}
                if len(ps) == len(want):
                    table = dict(zip(ps, want))
                else:
                    for p in ps:
                        base = p.rstrip("₀")
                        if base in vs: table[p] = ("l.initial." if p != base else "l.") + base
                        else: said.append(f"{x.name} param {p}")
                table.pop("_", None)
                body = PATH.sub(lambda m: table.get(m.group(1), m.group(1)) + m.group(2), body)
                name = m2.group(1) + "-" + new
                inv.append((x.comment, f"abbrev pub {name} : goal.{name}\n" + (x.unfold + "\n" if x.unfold else "") + f"{name} l ={body}"))
                continue
            m2 = re.match(r"tie\.(Need-[\w₀-₉-]+)", x.sig.strip())
            if m2:
                i = n.need(m2.group(1))
                if len(x.eqs) == 1 and re.match(r"^\S+( c)?( κs)?\s*=\s*search rules\s*$", x.eqs[0]): continue
                if i is None:
                    said.append("need " + m2.group(1))
                    ans.append((x.comment, "-- TODO " + m2.group(1) + "\n" + "\n".join("-- " + l for e in x.eqs for l in e.split("\n")))); continue
                old, new = n.needs[i]
                place = n.at[i][0]
                eqs = []
                for e in x.eqs:
                    lhs, body = e.split("=", 1)
                    if re.match(r"^\S+( c)?( κs)?\s*$", lhs):
                        b = inline(t.body(body, place), place)
                        if "λ" in lhs: pass
                        eqs.append(f"{new} c ={b if b.startswith((' ', chr(10))) else chr(10) + '    ' + b.strip()}")
                    else:
                        said.append("shape " + x.name); eqs.append("-- TODO shape " + e)
                ans.append((x.comment, f"pub {new} : goal.{new}\n" + (x.unfold + "\n" if x.unfold else "") + "\n".join(eqs)))
                continue
            if "tie." in x.sig or any("tie." in e for e in x.eqs):
                said.append("helper " + x.name)
            blk = x.head + x.name + " : " + x.sig + "\n" + (x.unfold + "\n" if x.unfold else "") + "\n".join(x.eqs)
            helpers.append((x, blk))
        mod = f"Rattle.{cn}.proofs.{path}"
        invtext = "\n".join(b for _, b in inv)
        ihelp = []
        more = True
        while more:
            more = False
            for x, blk in helpers:
                if x not in ihelp and re.search(r"(?<![\w.'-])" + re.escape(x.name) + r"(?![\w'-])", invtext + "\n".join(b for y, b in helpers if y in ihelp)):
                    ihelp.append(x); more = True
        def imports(body, extra):
            got = []
            for u in uses:
                if re.search(r"\.(Statement|Tie)\b", u) and mod in u: continue
                m = re.match(r"use (\S+?)\.\{(.*)\}$", u.replace("\n", " "))
                if m:
                    items = [z.strip() for z in m.group(2).split(",")]
                    keep = []
                    for z in items:
                        nm = z.split(" as ")[-1]
                        core = [p for p in nm.split("◌") if p]
                        if all((re.search(r"(?<![\w.'₀-₉-])" + re.escape(p) + r"(?![\w'₀-₉-])", body) if re.match(r"\w", p) else p in body) for p in core):
                            keep.append(z)
                    if keep: got.append(f"use {m.group(1)}.{{{', '.join(keep)}}}")
                else:
                    got.append(u)
            return "\n".join(got + extra)
        files = {}
        if inv:
            parts = [("\n".join(x.comment) + "\n" if x.comment else "") + ("pub " if "pub" not in x.head else "") + b if not x.head.startswith("abbrev") else ("\n".join(x.comment) + "\n" if x.comment else "") + b.replace("abbrev ", "abbrev pub ", 1) if "pub" not in x.head else b for x, b in helpers if x in ihelp]
            parts += [("\n".join(c) + "\n" if c else "") + b for c, b in inv]
            body = "\n\n".join(parts)
            files["Invariants.antt"] = "\n".join(head) + ("\n" if head else "") + imports(body, [f"use {mod}.Given as goal"]) + "\n\n" + body.rstrip() + "\n"
        parts = [("\n".join(x.comment) + "\n" if x.comment else "") + b for x, b in helpers if x not in ihelp]
        parts += [("\n".join(c) + "\n" if c else "") + b for c, b in ans]
        if parts:
            body = "\n\n".join(parts)
            extra = []
            shared = [x.name for x in ihelp if re.search(r"(?<![\w.'-])" + re.escape(x.name) + r"(?![\w'-])", body)]
            if shared: extra.append(f"use {mod}.Invariants.{{{', '.join(shared)}}}")
            files["Answers.antt"] = ("\n".join(head) + "\n" if head and not inv else "") + imports(body, extra + [f"use {mod}.Goals as goal"]) + "\n\n" + body.rstrip() + "\n"
        os.remove(pf)
        for f, b in files.items():
            b = re.sub(r"[ \t]+\n", "\n", b)
            open(os.path.join(folder, f), "w").write(b)
        if not files:
            try: os.rmdir(folder)
            except OSError: pass
        lost = sorted(set(t.lost))
        if said or lost:
            print(f"{cn} {path}: {'; '.join(said)} {'lost ' + ' '.join(lost) if lost else ''}")
main()
