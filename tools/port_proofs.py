#!/usr/bin/env python3
"""port_proofs.py CRATE_DIR NAMES.JSON [FN..]: turns each proofs/F/Proof.antt of a crate (an answer for each need of `Tie`) into Invariants.antt and Answers.antt.

NAMES.JSON is what `rt check --generated DIR --old-names` writes in the crate: the old name of each goal and step, beside today's. Run once in the port, from the lowest crate up."""
import json, os, re, sys, difflib
crate_dir, names_path = sys.argv[1], sys.argv[2]
only = set(sys.argv[3:])
crate = os.path.basename(os.path.abspath(crate_dir))
data = json.load(open(names_path))
alike = lambda s: re.sub(r"[-_·]", "", s).lower()
W = r"[^\s(){}.;,@\"\[\]\\]+"

def chunks(text):
    """top-level chunks: list of (head lines) each chunk begins at a non-indented, non-blank line; comments attach to the next."""
    out, cur = [], []
    for line in text.split("\n"):
        if line and not line[0].isspace() and line[0] not in ")}]" and cur:
            out.append(cur); cur = []
        cur.append(line)
    if cur: out.append(cur)
    return out

class Fn:
    def __init__(self, of):
        self.of = of
        self.places = of["places"]
        self.idx = {}
        for k, p in enumerate(self.places):
            self.idx.setdefault(p[0], k)
        self.problems = []

    def turn(self, place, fields, where):
        """a path c.f1.f2.. from an old place -> new path fields"""
        fs = list(fields)
        k = self.idx.get(place)
        if k is None:
            self.problems.append(f"no place {place} at {where}"); return None
        while fs and fs[0] == "before":
            parent = self.places[k][1]
            if parent is None:
                while fs and fs[0] == "before": fs.pop(0)
                break
            k = self.idx[parent]
            fs.pop(0)
        if not fs:
            return ["@" + self.of["places_by_name"][k]]
        p = self.places[k]
        old, new = p[2]
        f = fs[0]
        if f in ("args", "requires", "ranges", "well_formed", "lifetimes"):
            if f == "args" and len(fs) > 1: fs[1] = fs[1].replace("-", "_")
            return fs
        if f.endswith("_lem"): f = f[:-4]; fs[0] = f
        if alike(f) == alike(old) or (old.startswith("match") and f.startswith("match")):
            arms = self.of["arms"][k] if k < len(self.of["arms"]) else None
            if arms and len(fs) > 1:
                arm, depth, entries = arms
                best = None
                for nf, os_, path in entries:
                    if alike(os_) == alike(f) and path and fs[1:1+len(path)] == path:
                        best = (nf, len(path)) if best is None or len(path) > best[1] else best
                if best:
                    return [arm, best[0]] + fs[1+best[1]:]
            if fs[1:2] == ["rest"] or new.startswith("in_default") and fs[1:] and fs[1].startswith("keys"):
                return [new, new + "-own"] + fs[1:]
            return [new] + fs[1:]
        # the field of another place on the way: today's borrow checker has fewer places
        kk = self.idx[place]
        while kk is not None:
            q = self.places[kk]
            if q[1] is None: break
            if alike(q[2][0]) == alike(f):
                arms = self.of["arms"][kk]
                if arms and len(fs) > 1:
                    for nf, os_, path in arms[2]:
                        if alike(os_) == alike(f) and path and fs[1:1+len(path)] == path:
                            return [arms[0], nf] + fs[1+len(path):]
                return [q[2][1]] + fs[1:]
            kk = self.idx.get(q[1])
        # arms recorded at deeper places: search all arms along the chain
        self.problems.append(f"field {f} is not at place {p[0]} (old {old}) at {where}: {'.'.join(fields)}")
        return None

PATH = re.compile(r"(?<![\w.'-])c((?:\." + W + r")+)")

LET = re.compile(r"\blet (" + W + r") = ((?:" + W + r")(?:\." + W + r")+) in\s*")

def spread(term):
    """A let that binds a path from c is written out: today's paths are short."""
    names = {}
    at = 0
    while True:
        m = LET.search(term, at)
        if not m: break
        root, _, rest = m.group(2).partition(".")
        if root in names: path = names[root] + "." + rest
        elif root == "c": path = m.group(2)
        else:
            at = m.end(); continue
        names[m.group(1)] = path
        term = term[:m.start()] + term[m.end():]
        name = re.compile(r"(?<![\w.'«-])" + re.escape(m.group(1)) + r"(?![\w'-])")
        def put(k):
            after = term[k.end():]
            return k.group(0) if re.match(r"\s*[=:]\s", after) else path
        term = term[:m.start()] + name.sub(lambda k: path, term[m.start():])
    return term

def turn_term(fn, term, place, where):
    term = spread(term)
    def sub(m):
        fields = m.group(1)[1:].split(".")
        new = fn.turn(place, fields, where)
        if new is None:
            return "c." + "?".join([""]) + ".".join(fields)
        if new and new[0].startswith("@"):
            fn.problems.append(f"whole place {new[0]} at {where}")
            return "c" + "".join("." + x for x in new[1:])
        text = "c" + "".join("." + x for x in new)
        # what the last arm of a match knows of the variants before it
        if len(new) == 3 and new[1].endswith("-own") and new[2].startswith("keys"):
            return f"(opened {text})"
        return text
    return PATH.sub(sub, term)

def convert(path):
    rel = os.path.relpath(os.path.dirname(path), os.path.join(crate_dir, "proofs"))
    mod = rel.replace("/", ".")
    key = None
    for k in data:
        if k.endswith("." + mod + ".Lts") and k == f"Rattle-{crate}-proofs.{mod}.Lts":
            key = k
    text = open(path, encoding="utf-8").read()
    if key is None or "Tie as tie" not in text:
        return rel, ["no Lts or by hand"]
    of = data[key]
    fn = Fn(of)
    head, decls, comments = [], [], []
    for ch in chunks(text):
        first = ch[0]
        if first.startswith("use "):
            head.append("\n".join(ch).rstrip())
        else:
            decls.append("\n".join(ch).rstrip())
    # merge signature & clause by name
    sigs, order = {}, []
    pend = []
    for d in decls:
        if d.startswith("--"):
            pend.append(d); continue
        m = re.match(r"(?:abbrev\s+)?(?:pub\s+)?(?:abbrev\s+)?(\S+)\s", d)
        if not m:
            if not d.strip(): continue
            pend.append("-- " + d); fn.problems.append("unread: " + d[:80]); continue
        name = m.group(1)
        if name in ("module", "record", "data", "open", "unfolding"):
            if name == "unfolding" and order:
                sigs[order[-1]].append(d); continue
            name = name + str(len(order))
        if name not in sigs:
            sigs[name] = pend[:]; order.append(name); pend = []
        sigs[name].append(d)
    spec = [n for n in order if re.search(r"tie\.spec", "\n".join(sigs[n]))]
    if not spec: return rel, ["no tie.spec"]
    body = "\n".join(sigs[spec[0]])
    args = re.search(r"tie\.spec\s*(.*)", body, re.S).group(1)
    args = re.sub(r"[()]", " ", args).split()
    loops = of["loops"]
    n = len(loops)
    inv_names, need_names = [], []
    for a in args:
        t = "\n".join(sigs.get(a, []))
        if re.search(r"tie\.(invariant|decreases|InvT|MeasureT)", t): inv_names.append(a)
        else: need_names.append(a)
    needs = of["needs"]
    pair = {}
    if len(need_names) == len(needs):
        for a, (o, nw), at in zip(need_names, needs, of["asked_at"]): pair[a] = (nw, at[0])
    else:
        fn.problems.append(f"{len(need_names)} needs in the file, {len(needs)} now: {[x[0] for x in needs]} / {need_names}")
        olds = [alike(o) for o, _ in needs]
        mine = [alike(a) for a in need_names]
        mine = [re.sub(r"^loopholds", "loopinit", re.sub("^loopless", "loopsmaller", re.sub("^loopagain", "looppreserved", x))) for x in mine]
        mine = [re.sub(r"^loop(\d+)holds", r"loop\1init", x) for x in mine]
        sm = difflib.SequenceMatcher(a=mine, b=olds, autojunk=False)
        for blk in sm.get_matching_blocks():
            for d in range(blk.size):
                pair[need_names[blk.a + d]] = (needs[blk.b + d][1], of["asked_at"][blk.b + d][0])
    # invariants
    inv_out = []
    for i, a in enumerate(inv_names):
        t = "\n".join(sigs[a])
        isinv = bool(re.search(r"tie\.(invariant|InvT)", t))
        which = [x for x in inv_names[:i+1] if bool(re.search(r"tie\.(invariant|InvT)", "\n".join(sigs[x]))) == isinv]
        li = len(which) - 1
        if li >= n:
            fn.problems.append(f"loop {li} is gone"); continue
        loopname = loops[li][0][1]; vars_ = loops[li][1]
        d = [x for x in sigs[a] if not x.startswith("--") and "tie." not in x.split("\n")[0]]
        notes = [x for x in sigs[a] if x.startswith("--")]
        if not d:
            fn.problems.append(f"no clause of {a}"); continue
        clause = d[-1]
        m = re.match(re.escape(a) + r"\s+(.*?)\s*=\s*(.*)", clause, re.S)
        if not m:
            fn.problems.append(f"clause of {a}: {clause[:80]}"); continue
        params, term = m.group(1).split(), m.group(2)
        sub = {}
        cnt = {}
        for p in params:
            base = p.rstrip("₀")
            if p.endswith("₀"): sub[p] = f"l.initial.{base}"
        for p in params:
            if not p.endswith("₀") and p != "_": sub[p] = f"l.{p}"
        # names in the file against today's variables
        for p in list(sub):
            base = p.rstrip("₀").strip("«»")
            if base not in vars_ and base not in [alike(v) for v in vars_]:
                near = [v for v in vars_ if alike(v) == alike(base)]
                if near: sub[p] = sub[p].replace(base, near[0])
                else: fn.problems.append(f"{a}: no variable {p} among {vars_}")
        tok = re.compile(r"(?<![\w.'₀-])(" + "|".join(sorted(map(re.escape, sub), key=len, reverse=True)) + r")(?![\w'₀-])") if sub else None
        if tok: term = tok.sub(lambda m_: m_.group(0) if re.match(r"\s*[=:]\s", term[m_.end():]) else sub[m_.group(1)], term)
        kind = "invariant" if isinv else "decreases"
        inv_out.append("\n".join(notes + [f"abbrev pub {kind}-{loopname} : goal.{kind}-{loopname}", f"{kind}-{loopname} l = {term}"]))
    ans_out, helpers = [], []
    for name in order:
        t = "\n".join(sigs[name])
        if name in inv_names or name == spec[0]: continue
        if name not in pair:
            if name in need_names:
                fn.problems.append(f"need {name} has no place today")
                helpers.append("\n".join("-- " + x for x in t.split("\n")))
                continue
            helpers.append(t)
            if "tie." in t or " c" in t: fn.problems.append(f"helper {name}")
            continue
        new, place = pair[name]
        clause = None; rest = []
        for x in sigs[name]:
            if x.startswith("--"): rest.append(x)
            elif re.match(re.escape(name) + r"\s+:", x): continue
            elif x.startswith("unfolding"): rest.append(("u", x))
            else: clause = x if clause is None else clause + "\n" + x
        m = re.match(re.escape(name) + r"\s+(.*?)\s*=\s*(.*)", clause or "", re.S)
        if not m:
            fn.problems.append(f"clause of {name}"); continue
        params, term = m.group(1).split(), m.group(2)
        term = re.sub(r"\s+$", "", term)
        if term in ("search rules", "search needs"): continue
        params = [p for p in params if p not in ("κs",)]
        if "κs" in term: fn.problems.append(f"κs in {name}")
        term = turn_term(fn, term, place, name)
        notes = [x for x in rest if isinstance(x, str)]
        unf = [x[1] for x in rest if not isinstance(x, str)]
        ans_out.append("\n".join(notes + [f"pub {new} : goal.{new}"] + unf + [f"{new} {' '.join(params)} = {term}"]))
    folder = os.path.dirname(path)
    uses = [u for u in head if not re.search(r"(Statement\.\{statement\}|\.Tie as tie|\.Reads as \S+|\.Lts as \S+)$", u)]
    def write(name, kind, outs, extra=[]):
        if not outs: return
        used = "\n".join(outs + extra)
        mine = []
        for u in uses:
            m = re.match(r"use (\S+?)\.\{(.*)\}$", u, re.S)
            if m:
                items = [x.strip() for x in m.group(2).split(",")]
                keep = []
                for it in items:
                    nm = it.split(" as ")[-1].strip()
                    parts = [w for w in nm.split("◌") if w]
                    if all(re.search(r"(?<![\w'-])" + re.escape(w) + r"(?![\w'-])" if re.match(r"[\w]", w) else re.escape(w), used) for w in parts): keep.append(it)
                if keep: mine.append(f"use {m.group(1)}.{{{', '.join(keep)}}}")
            else: mine.append(u)
        if "(opened c." in used: mine.append("use borrow.Enum.Refused.{opened}")
        with open(os.path.join(folder, name), "w", encoding="utf-8") as f:
            f.write("\n".join(mine + [f"use Rattle.{crate}.proofs.{mod}.{kind} as goal"]) + "\n\n" + "\n\n".join(extra + outs) + "\n")
    write("Invariants.antt", "Given", inv_out)
    write("Answers.antt", "Goals", ans_out, helpers)
    os.remove(path)
    return rel, fn.problems

done = 0
for folder, dirs, files in os.walk(os.path.join(crate_dir, "proofs")):
    if "Proof.antt" in files:
        p = os.path.join(folder, "Proof.antt")
        rel = os.path.relpath(folder, os.path.join(crate_dir, "proofs"))
        if only and rel not in only: continue
        rel, problems = convert(p)
        done += 1
        for x in problems: print(f"{rel}: {x}")
print(done, "files")
