"""What changed in public: signatures with their clauses, types, definitions of specs/ and statements of proofs/, old and
new side by side. python3 changed.py OLD NEW (two checkouts); the page goes to standard output."""
import os, re, sys
OLD, NEW = sys.argv[1], sys.argv[2]

def read(p):
    with open(p, encoding='utf-8') as f: return f.read()

def strip_comments(s, mark):
    return "\n".join(l for l in s.splitlines() if not l.strip().startswith(mark))

def rust_items(s):
    s = strip_comments(s, '//')
    out = {}
    impl = ''
    lines = s.splitlines()
    i = 0
    while i < len(lines):
        l = lines[i]
        m = re.match(r'impl(<[^>]*>)? (.*) \{', l)
        if m and not l.startswith(' '):
            impl = m.group(2)
        if l.startswith('}'): impl = ''
        m = re.match(r'\s*pub (const |unsafe |extern "C" )*(fn|struct|enum|trait|const) (\w+)', l)
        n = re.match(r'\s*fn (\w+)', l)
        if m or (n and impl and ' for ' in impl):
            kind, name = (m.group(2), m.group(3)) if m else ('fn', n.group(1))
            text = []
            if kind == 'const':
                while i < len(lines):
                    text.append(lines[i].strip())
                    if lines[i].rstrip().endswith(';'): break
                    i += 1
                text = [t if len(t) < 200 else t[:80] + ' ..' for t in text[:1]]
            elif kind in ('struct', 'enum', 'trait'):
                base = re.match(r'\s*', l).group(0)
                while i < len(lines):
                    text.append(lines[i][len(base):])
                    if lines[i].rstrip().endswith(';') or lines[i].startswith(base + '}'): break
                    i += 1
            else:
                base = re.match(r'\s*', l).group(0)
                while i < len(lines):
                    t = lines[i]
                    if t.rstrip() == base + '{' or t.rstrip().endswith(' {') and not re.search(r'(requires|ensures)\b', t) and t.startswith(base) and (t.count('(') <= t.count(')')) and i > 0 and re.search(r'\)( -> .*)? \{$', t):
                        if t.rstrip() != base + '{': text.append(t[len(base):].rstrip()[:-2])
                        break
                    text.append(t[len(base):])
                    i += 1
            key = (impl + '::' if impl else '') + name
            out[key] = "\n".join(x for x in text if x.strip())
        i += 1
    return out

def antt_items(s, only_pub):
    s = strip_comments(s, '--')
    out = {}
    blocks = []
    cur = []
    for l in s.splitlines():
        if re.match(r'\s*((unfoldable|abbrev) )?pub (record |data )?\S', l) or re.match(r'\s*((unfoldable|abbrev) )\S+ :', l) or re.match(r'^(use|module|ruleset)\b', l) or re.match(r'^\s{0,2}[a-z]\S* : ', l):
            if cur: blocks.append(cur)
            cur = [l]
        elif cur:
            cur.append(l)
    if cur: blocks.append(cur)
    for b in blocks:
        m = re.match(r'\s*(?:(?:unfoldable|abbrev) )?pub (?:record |data )?(\S+)', b[0])
        if not m: continue
        text = "\n".join(x.rstrip() for x in b if x.strip())
        if only_pub:  # a statement alone
            name = m.group(1)
            st = []
            for x in b:
                if st and (re.match(r'\s*unfolding\b', x) or re.match(r'\s*' + re.escape(name) + r'\b', x)): break
                st.append(x.rstrip())
            text = "\n".join(x for x in st if x.strip())
        out[m.group(1)] = text
    return out

def norm(t): return re.sub(r'\s+', ' ', t).strip().replace(',)', ')').replace(', )', ')').replace('( ', '(').replace(' )', ')')

def gather(root, crate, what):
    res = {}
    base = os.path.join(root, 'crates', crate, what)
    for d, _, fs in os.walk(base):
        for f in sorted(fs):
            p = os.path.join(d, f)
            if what == 'src' and f.endswith('.rt'):
                for k, v in rust_items(read(p)).items(): res[k] = v
            elif what == 'specs' and f.endswith('.antt') and f != 'Lib.antt':
                for k, v in antt_items(read(p), False).items(): res[f[:-5] + '.' + k] = v
            elif what == 'proofs' and f.endswith('.antt') and f not in ('Lib.antt', 'Answers.antt', 'Invariants.antt'):
                for k, v in antt_items(read(p), True).items(): res[f[:-5] + '.' + k] = v
    return res

def short(d):
    r = {}
    for k, v in d.items(): r.setdefault(k.split('.')[-1], []).append((k, v))
    return r

title = {'src': 'signatures, clauses and types', 'specs': 'definitions', 'proofs': 'statements'}
crates = sorted(set(os.listdir(os.path.join(OLD, 'crates'))) | set(os.listdir(os.path.join(NEW, 'crates'))))
counts = {}
for crate in crates:
    part = []
    for what in ('src', 'specs', 'proofs'):
        o, n = gather(OLD, crate, what), gather(NEW, crate, what)
        moved = {}
        if what != 'src':
            so, sn = short(o), short(n)
            for k in list(o):
                if k not in n:
                    c = sn.get(k.split('.')[-1])
                    if c and len(c) == 1 and c[0][0] not in o: moved[k] = c[0][0]
        rows = []
        for k in sorted(set(o) | set(n)):
            if k in moved.values() and k not in o: continue
            a = o.get(k); b = n.get(k) if k in n else n.get(moved.get(k))
            if a is not None and b is not None and norm(a) == norm(b): continue
            rows.append((k, a, b))
            kind = 'changed' if a is not None and b is not None else ('gone' if a is not None else 'new')
            counts[(what, kind)] = counts.get((what, kind), 0) + 1
        if rows:
            part.append(f"### `{crate}`: {title[what]}\n\n```diff")
            for k, a, b in rows:
                if a is not None: part += ['-' + x for x in a.splitlines()]
                if b is not None: part += ['+' + x for x in b.splitlines()]
                part.append('')
            part[-1] = "```\n"
    rows = []
    for side, root in ((0, OLD), (1, NEW)):
        d = os.path.join(root, 'crates', crate, 'must-fail')
        for f in sorted(os.listdir(d)) if os.path.isdir(d) else []:
            rows.append((f, side, read(os.path.join(d, f)).splitlines()))
    both = {}
    for f, side, t in rows: both.setdefault(f, {})[side] = t
    both = {f: t for f, t in both.items() if t.get(0) != t.get(1)}
    if both:
        part.append(f"### `{crate}`: must-fail edits\n\n```diff")
        for f in sorted(both):
            part.append(' ' + f)
            part += ['-' + x for x in both[f].get(0, [])] + ['+' + x for x in both[f].get(1, [])] + ['']
            counts[('edits', 'changed' if 0 in both[f] and 1 in both[f] else 'new')] = counts.get(('edits', 'changed' if 0 in both[f] and 1 in both[f] else 'new'), 0) + 1
        part[-1] = "```\n"
    if part: print("\n".join(part))
for k in sorted(counts): print(f"<!-- {k[0]} {k[1]}: {counts[k]} -->")
