#!/usr/bin/env python3
"""Counts the places in crates/*/src/*.rt that today's Rattle has another form for, point by point: places.py [--list] [COMMIT].

Each point is one or more patterns over the lines of the sources (of the checkout, or of COMMIT), so that it counts the same way before and
after. It counts candidates: which of them stay, and why, docs/DESIGN-PASS.md says."""
import re, subprocess, sys

LIST = '--list' in sys.argv
COMMIT = next((a for a in sys.argv[1:] if not a.startswith('-')), None)

def git(*args):
    return subprocess.run(['git', *args], capture_output=True, text=True, check=True).stdout

def sources():
    if COMMIT:
        names = [n for n in git('ls-tree', '-r', '--name-only', COMMIT, 'crates').split() if re.fullmatch(r'crates/\w+/src/.*\.rt', n)]
        return {n: git('show', f'{COMMIT}:{n}') for n in names}
    names = [n for n in git('ls-files', '-co', '--exclude-standard', 'crates').split() if re.fullmatch(r'crates/\w+/src/.*\.rt', n)]
    return {n: open(n, encoding='utf8').read() for n in sorted(names)}

FILES = sources()

def lines(pattern, but=None):
    for name, text in FILES.items():
        for i, line in enumerate(text.splitlines(), 1):
            code = line.split('//')[0]
            if re.search(pattern, code) and not (but and re.search(but, code)):
                yield f'{name}:{i}: {line.strip()}'

def functions():
    """Every function: where it stands, its parameters and its clauses."""
    head = re.compile(r'^ *(?:pub(?:\(crate\))? )?(?:extern "C" )?fn (\w+)[^\n(]*\(([^{]*?)\)(?: -> [^\n{]*)?((?:\n +(?:requires|ensures)[^\n]*)*)', re.M)
    for name, text in FILES.items():
        for m in head.finditer(text):
            yield f'{name}:{text.count(chr(10), 0, m.start()) + 1}', m.group(1), re.findall(r'(\w+): ([^,]+)', m.group(2)), m.group(3)

def travelling():
    """Groups of three parameters (name and type) that stand together in three or more functions: each function is a place."""
    from itertools import combinations
    groups = {}
    for at, fn, params, clauses in functions():
        for g in combinations(sorted(set((n, t.strip()) for n, t in params)), 3):
            groups.setdefault(g, set()).add(f'{at}: fn {fn}')
    return sorted({p for g, ps in groups.items() if len(ps) >= 3 for p in ps})

def repeated():
    """A `requires` whose text, but for the names of parameters, stands in three or more functions: each clause is a place."""
    seen = {}
    for at, fn, params, clauses in functions():
        for c in re.findall(r'requires[^{]*\{(.*)\}', clauses):
            for fact in re.split(r'\) × \(| × ', c.strip().strip('()')):
                key = re.sub(r'\b(' + '|'.join(re.escape(n) for n, _ in params) + r')\b', '_', fact.strip()) if params else fact
                seen.setdefault(key.strip('() '), []).append(f'{at}: fn {fn}: {fact.strip()}')
    return [p for k, ps in sorted(seen.items()) if len(ps) >= 3 for p in ps]

def loops():
    """Loops that count an index by hand: a `for` over a range whose body indexes by it, and a `while` that steps a number."""
    for name, text in FILES.items():
        rows = text.splitlines()
        for i, row in enumerate(rows):
            m = re.match(r'( *)for (\w+) in .*\.\.', row)
            w = re.match(r'( *)while (?!let)', row)
            if m or w:
                pad = (m or w).group(1)
                body = []
                for later in rows[i + 1:]:
                    if later == pad + '}': break
                    body.append(later)
                if w or re.search(r'\[[^\]]*\b' + m.group(2) + r'\b[^\]]*\]', '\n'.join(body)):
                    yield f'{name}:{i + 1}: {row.strip()}'

def twins():
    """Functions of the same shape as another: their bodies are the same but for names and numbers, in the order in which these come.
    Bodies of one statement are passed over."""
    shapes = {}
    for name, text in FILES.items():
        for m in re.finditer(r'^( *)(?:pub(?:\(crate\))? )?(?:extern "C" )?fn (\w+)[^;]*?^\1\{\n(.*?)^\1\}', text, re.M | re.S):
            body = re.sub(r'//[^\n]*', '', m.group(3))
            if body.count('\n') < 4: continue
            names = {}
            shape = re.sub(r'\b(?!(?:let|mut|for|in|while|if|else|return|loop|match|self|as|true|false|Some|None|Ok|Err)\b)[A-Za-z_]\w*|\b\d\w*', lambda w: names.setdefault(w.group(0), f'#{len(names)}'), body)
            shapes.setdefault(' '.join(shape.split()), []).append(f'{name}:{text.count(chr(10), 0, m.start()) + 1}: fn {m.group(2)}')
    return sorted(p for ps in shapes.values() if len(ps) > 1 for p in ps)

POINTS = [
    ('1a', 'own enums of the shape of Option or Result (a variant that refuses, fails or is blank)', lambda: lines(r'^ +(Refused|Failed)\(|^ +Blank,')),
    ('1b', 'a flag or a number of a refusal with values beside it (struct fields)', lambda: lines(r'^ +(pub )?(ok|found|fits|rising|remove): bool,|^ +(pub )?(number|refused): u64,')),
    ('1c', 'numbers for refusals and kinds (constants, and their uses)', lambda: lines(r'questions::[A-Z][A-Z_0-9]+\b|^pub const [A-Z_]+: u64 = [0-9]+;')),
    ('1d', 'a refusal asked for by its number', lambda: lines(r'\b(asked|number|refused|unknown|other_number)(\.\w+)? (!=|==) 0')),
    ('2', 'functions of the same shape as another, but for names and numbers', twins),
    ('3', 'loops that count an index by hand', loops),
    ('4', 'equality, order, copying or conversion written by hand', lambda: lines(r'\bfn (same|same_\w+|is_blank|is_given|is_account|is_unused|below|at_most|kind_number|kind_word|yes_number|number_of|way_number|pick|choose|least|higher|lower|copy_in|copy|set_all|put_words|left_of|count_given|points_of|unfinished)\b')),
    ('5a', 'functions with three parameters that travel together through three or more', travelling),
    ('5b', 'a `requires` that stands in three or more contracts', repeated),
    ('6', 'a slice with its length in a clause, or a count of its places in use beside it', lambda: lines(r'requires.*length \w+\.(now|old) ≡ (\w+|\d+)|requires.*count ≤ length')),
    ('7', 'a switch on which step to run', lambda: lines(r'match (cursor|step|moved)\b|if (t|task)\.remove\b')),
]

for key, what, find in POINTS:
    found = list(find())
    print(f'{key:3} {len(found):5}  {what}')
    if LIST:
        for f in found: print('      ', f)
