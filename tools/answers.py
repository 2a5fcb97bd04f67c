#!/usr/bin/env python3
"""Turns proofs/F/Proof.antt of a crate, an older walk of the goals, into Invariants.antt and Answers.antt.

usage: rt check --generated DIR --old-names     in the crate's folder: writes DIR/names.json, the older and today's name of each goal
       python3 tools/answers.py crates/NAME DIR/names.json [FUNCTION..]

The state of a goal is flat today: each step before it is a field of `c`. So the chains of `.before` go, the helpers of an older proof over such states become
lets of the answers that use them, and answers that were just `search rules` are left to the check. What could not be read is printed with `!`, and is to be
written by hand. Proof.antt goes: git has it.
"""
import json, re, sys
from pathlib import Path

IDENT = r"[^\s(){}\[\].,;:=`\"|]+"
TOK = re.compile(r"--[^\n]*|\s+|\.(?=[^\s.])|[(){}\[\],;]|:=|[^\s(){}\[\].,;]+|\.", re.U)


def norm(n):
    n = n.replace("_", "-")
    n = re.sub(r"^overflow-(?=(add|sub|mul|cast|shl|shr|step)-)", "", n)
    n = re.sub(r"-lem$", "", n)
    return n


def tokens(s):
    out, i = [], 0
    for m in TOK.finditer(s):
        out.append(m[0])
    assert "".join(out) == s, s[:200]
    return out


class Sink:
    def __init__(self):
        self.flags = []


def ws(t):
    return t.isspace() or t.startswith("--")


def atom_end(ts, i):
    """the end of the projection chain that begins at token i (an identifier): index after it, and the fields"""
    j, fields = i + 1, []
    while j + 1 < len(ts) and ts[j] == "." and not ws(ts[j + 1]) and re.match(r"[^\s(){}\[\],;.]", ts[j + 1]):
        fields.append(ts[j + 1])
        j += 2
    return j, fields


class Fn:
    def __init__(self, js, sink, module):
        self.js, self.sink, self.module = js, sink, module
        self.steps = {}
        for old, parent, (o, n), callee, _ in js["places"]:
            if o and o != "match":
                self.steps.setdefault(norm(o), n)
        self.callee = {}
        for old, parent, (o, n), callee, _ in js["places"]:
            if callee:
                self.callee[norm(o)] = callee
        self.arms = {}
        for arm in js["arms"]:
            if not arm:
                continue
            for new, o, path in arm[2]:
                if new.endswith("-own"):
                    continue
                self.arms.setdefault(norm(o), []).append((path, [arm[0], new]))
        self.argmap = {}
        for o, n in js["args"]:
            a, b = o.split(" ") if " " in o else (o, None)
            x, y = n.split(" ") if " " in n else (n, None)
            self.argmap[(a.strip("."), (b or "").strip("."))] = (x.strip("."), (y or "").strip("."))
        self.needs = {norm(o): n for o, n in js["needs"]}
        self.places = {norm(p[0]): n for p, n in zip(js["places"], js["places_by_name"])}
        self.params = js.get("params", {})

    def fields(self, fs):
        """the new fields of a flat path c.fs"""
        fs = [f for f in fs]
        while fs and fs[0] == "before":
            fs = fs[1:]
        if not fs:
            return fs
        ren = {"inv": "invariant", "taken": "true", "left": "false", "pre": "requires", "post": "ensures"}
        fs = [fs[0]] + [ren.get(f, f) for f in fs[1:]]
        if fs[0] == "pre":
            fs[0] = "requires"
        key = norm(fs[0])
        if key in self.arms:
            for path, new in sorted(self.arms[key], key=lambda pn: -len(pn[0])):
                if fs[1 : 1 + len(path)] == path:
                    return new + fs[1 + len(path):]
        if len(fs) > 1 and (fs[0], fs[1]) in self.argmap:
            return list(self.argmap[(fs[0], fs[1])]) + fs[2:]
        if fs[0] in ("args", "requires", "ranges", "lifetimes", "type_inv", "utf8"):
            return fs
        for (a, b), (x, y) in self.argmap.items():
            if not b and a == fs[0]:
                return [x] + fs[1:]
        if key in self.steps:
            new = [self.steps[key]] + fs[1:]
            if len(new) > 2 and new[1] == "new" and new[2] in ("0", "1"):
                k = 2
                while k < len(new) and new[k] == "1":
                    k += 1
                ps = self.params.get(self.callee.get(key, ""), None)
                if ps and k < len(new) and new[k] == "0" and k - 2 < len(ps):
                    return new[:2] + [ps[k - 2]] + new[k + 1:]
                self.sink.flags.append(f"new by place: {fs}")
            return new
        self.sink.flags.append(f"step unknown: {'.'.join(fs)}")
        return fs


def strip_parens(ts):
    """( c ) to c, for the flat state c"""
    out = ts[:]
    changed = True
    while changed:
        changed = False
        for i, t in enumerate(out):
            if t == "(":
                j = i + 1
                while j < len(out) and ws(out[j]):
                    j += 1
                if j < len(out) and out[j] == "\x01":
                    k = j + 1
                    while k < len(out) and ws(out[k]):
                        k += 1
                    if k < len(out) and out[k] == ")":
                        # not an argument list of a tuple
                        out[i : k + 1] = ["\x01"]
                        changed = True
                        break
    return out


def flatten(text, statevars, statehelpers, helpers, used):
    """State expressions to the mark \\x01; helpers applied to a state lose it. Lets that bind a state go."""
    ts = tokens(text)
    statevars = set(statevars)
    again = True
    while again:
        again = False
        # variables and .before
        out, i = [], 0
        while i < len(ts):
            t = ts[i]
            if t in statevars and not (out and out[-1] == "."):
                out.append("\x01")
                again = True
                i += 1
                continue
            if t == "\x01" and i + 2 < len(ts) and ts[i + 1] == "." and ts[i + 2] == "before":
                out.append("\x01")
                i += 3
                again = True
                # go on eating
                ts = out + ts[i:]
                i = len(out) - 1
                out = ts[:i]
                continue
            out.append(t)
            i += 1
        ts = strip_parens(out)
        # state helpers
        i = 0
        while i < len(ts):
            if ts[i] in statehelpers and not (i and ts[i - 1] == "."):
                j = i + 1
                while j < len(ts) and ws(ts[j]):
                    j += 1
                if j < len(ts) and ts[j] == "\x01":
                    # the argument is the mark, maybe with .before (eaten above); a projection beyond belongs to the argument
                    ts[i : j + 1] = ["\x01"]
                    again = True
                    continue
            if ts[i] in helpers and not (i and ts[i - 1] == "."):
                j = i + 1
                while j < len(ts) and ws(ts[j]):
                    j += 1
                if j < len(ts) and ts[j] == "\x01" and not (j + 1 < len(ts) and ts[j + 1] == "."):
                    used.add(ts[i])
                    ts[i : j + 1] = ["\x02" + ts[i]]
                    again = True
                    continue
            i += 1
        ts = strip_parens(ts)
        # lets of states:  let k [: T] = \x01 in
        s = "".join(ts)
        m = re.search(r"let\s+([^\s(){}.,;:=]+)(?:\s*:[^=]*?)?\s*=\s*\x01\s*in\s*", s)
        if m:
            statevars.add(m[1])
            s = s[: m.start()] + s[m.end():]
            ts = tokens(s)
            again = True
    return "".join(ts)


def paths(text, fn, var):
    ts = tokens(text)
    out, i = [], 0
    while i < len(ts):
        t = ts[i]
        if t == "\x01":
            j, fs = atom_end(ts, i)
            fs = fn.fields(fs)
            out.append(".".join([var] + fs))
            i = j
            continue
        if t.startswith("\x02"):
            out.append(t[1:])
            i += 1
            continue
        out.append(t)
        i += 1
    return "".join(out)


def field_words(s):
    """what let-bound steps still say in the older words"""
    s = re.sub(r"\.inv(?=[\s.)\],;}]|$)", ".invariant", s)
    s = re.sub(r"\.taken(?=[\s.)\],;}]|$)", ".true", s)
    s = re.sub(r"\.pre(?=[\s.)\],;}]|$)", ".requires", s)
    s = re.sub(r"\(not-(?:true|false) _ (c\.[^\s()]+\.(?:true|false))\)", r"\1", s)
    s = re.sub(r"not-(?:true|false) _ (c\.[^\s()]+\.(?:true|false))", r"\1", s)
    return s


def tidy_parens(s):
    # ( name ) of one identifier
    return re.sub(r"\((\x02?[^\s(){}\[\].,;:=]+)\)(?!\.)", r"\1", s)


def decls(text):
    """comments + blocks of a file; a block is lines up to the next unindented signature"""
    lines = text.split("\n")
    blocks, cur = [], []
    for l in lines:
        if l.strip() == "" and cur:
            blocks.append("\n".join(cur))
            cur = []
        elif l.strip():
            cur.append(l)
    if cur:
        blocks.append("\n".join(cur))
    # join indented continuation blocks to the one before
    out = []
    for b in blocks:
        first = next((l for l in b.split("\n") if not l.startswith("--")), "")
        if out and first.startswith(" "):
            out[-1] += "\n\n" + b
        else:
            out.append(b)
    return out


def split_decl(block):
    """comment, modifiers, name, type, unfolding, clauses"""
    lines = block.split("\n")
    com = []
    while lines and lines[0].startswith("--"):
        com.append(lines.pop(0))
    body = "\n".join(lines)
    m = re.match(r"((?:(?:pub|abbrev|unfoldable)\s+)*)([^\s:(){}]+)((?:\s*\{[^}]*\})?)\s+:\s+", body)
    if not m:
        return com, None
    mods, name = m[1], m[2]
    rest = body[m.end():]
    # type: until a line that begins (unindented) with 'unfolding' or name
    ls = rest.split("\n")
    ty = [ls[0]]
    k = 1
    while k < len(ls) and (ls[k].startswith(" ") or ls[k] == ""):
        ty.append(ls[k])
        k += 1
    unf = ""
    if k < len(ls) and ls[k].startswith("unfolding"):
        unf = ls[k]
        k += 1
    clauses = "\n".join(ls[k:])
    return com, (mods, name, "\n".join(ty), unf, clauses)


def clause(name, clauses):
    """params and body of the only clause, or None"""
    parts = re.split(r"^(?=" + re.escape(name) + r"(?:\s|$))", clauses, flags=re.M)
    parts = [p for p in parts if p.strip()]
    if len(parts) != 1:
        return None
    m = re.match(re.escape(name) + r"((?:\s+[^\s=]+)*)\s+=(?=\s)", parts[0])
    if not m:
        return None
    return m[1].split(), parts[0][m.end():]


def sub_params(body, mapping, sink):
    ts = tokens(body)
    out, i = [], 0
    shadow = []  # (name, depth)
    depth = 0
    for i, t in enumerate(ts):
        if t in "([{" and len(t) == 1:
            depth += 1
        if t in ")]}" and len(t) == 1:
            depth -= 1
            shadow = [(n, d) for n, d in shadow if d <= depth]
        if t == "λ" or t == "let":
            k = i + 1
            while k < len(ts) and ts[k] not in (".", "=") :
                if ts[k] in mapping:
                    shadow.append((ts[k], depth))
                    sink.flags.append(f"shadowed: {ts[k]}")
                k += 1
        if t == "(" and i + 1 < len(ts):
            k = i + 1
            names = []
            while k < len(ts) and (ws(ts[k]) or re.fullmatch(r"[^\s(){}\[\].,;:]+", ts[k])) and ts[k] != ":":
                if not ws(ts[k]):
                    names.append(ts[k])
                k += 1
            if k < len(ts) and ts[k] == ":" and names:
                for n in names:
                    if n in mapping:
                        shadow.append((n, depth - 1))
                        sink.flags.append(f"shadowed: {n}")
        if t in mapping and not (out and out[-1] == ".") and t not in [n for n, d in shadow]:
            out.append(mapping[t])
        else:
            out.append(t)
    return "".join(out)


def uses(text):
    """use lines as (path, [names] or alias)"""
    return re.findall(r"^use ([^\s{]+?)(?:\.\{([^}]*)\}| as (\S+))?\s*$", text, re.M)


def print_uses(us, body):
    toks = set(re.split(r"[\s(){}\[\].,;]+", body))
    out = []
    for path, group, alias in us:
        if group:
            names = []
            for n in [x.strip() for x in group.split(",")]:
                shown = n.split(" as ")[-1].strip()
                core = shown.strip("◌")
                if shown in toks or core in toks or any(core and c in body for c in [core] if "◌" in shown):
                    names.append(n)
            if names:
                out.append(f"use {path}.{{{', '.join(names)}}}")
        elif alias:
            if re.search(r"(?<![^\s(){}\[\],;])" + re.escape(alias) + r"\.", body):
                out.append(f"use {path} as {alias}")
        else:
            last = path.split(".")[-1]
            if re.search(r"(?<![^\s(){}\[\],;])" + re.escape(last) + r"\.", body):
                out.append(f"use {path}")
    return out


def convert(folder, crate, fpath, js):
    src = (folder / "Proof.antt").read_text()
    sink = Sink()
    fn = Fn(js, sink, fpath)
    us = [u for u in uses(src) if not u[0].endswith(".Statement") and not u[0].endswith(".Tie")]
    head, body = [], []
    for l in src.split("\n"):
        if not body and l.startswith("--"):
            head.append(l)
        elif l.startswith("use "):
            body.append("")
        else:
            body.append(l)
    # a use over several lines
    if re.search(r"^use [^\n]*\{[^}\n]*$", src, re.M):
        sink.flags.append("a use over several lines")
    blocks = decls("\n".join(body))
    invs, answers, plain, statehelpers, helpers, order = [], [], [], {}, {}, []
    local_abbrevs = []
    for b in blocks:
        com, d = split_decl(b)
        if d is None:
            if b.strip() and not all(l.startswith("--") for l in b.split("\n")):
                sink.flags.append("block not read: " + b.strip().split("\n")[0][:100])
                plain.append((com, b, None))
            continue
        mods, name, ty, unf, cl = d
        if name.endswith("_spec") and "statement" in ty:
            continue
        m = re.match(r"tie\.(invariant|decreases)-(\S+)", ty)
        if m:
            invs.append((com, m[1], m[2], unf, clause(name, cl), name))
            continue
        m = re.match(r"tie\.Need-(\S+)", ty)
        if m:
            answers.append((com, name, m[1], unf, clause(name, cl), cl))
            continue
        if re.fullmatch(r"Type 0", ty.strip()) and re.search(r"=\s*tie\.", cl):
            statehelpers_type = name
            helpers.setdefault("\x03types", set()).add(name)
            continue
        order.append((com, mods, name, ty, unf, cl, b))
    types = helpers.pop("\x03types", set())
    tyre = r"(?:tie\.[^\s()]+(?:\s+[^\s()→]+)*|" + "|".join([re.escape(t) for t in types] or ["\x04"]) + ")"
    data = {}
    for com, mods, name, ty, unf, cl, b in order:
        if re.match(r"\(?[^():]*:?\s*" + tyre, ty) or re.match(tyre + r"\s*→", ty):
            m = re.match(r"\((\S+) : " + tyre + r"\s*\)\s*(?:→\s*)?", ty) or re.match(r"()" + tyre + r"\s*→\s*", ty)
            if not m:
                sink.flags.append(f"helper not read: {name}")
                plain.append((com, b, None))
                continue
            rest = ty[m.end():]
            c = clause(name, cl)
            if c is None or not c[0]:
                sink.flags.append(f"helper with clauses: {name}")
                plain.append((com, b, None))
                continue
            var = m[1] or c[0][0]
            if re.fullmatch(tyre + r"\s*", rest):
                statehelpers[name] = True
                continue
            data[name] = (com, mods, rest, unf, c, var)
        else:
            plain.append((com, b, name))
            if mods and "abbrev" in mods:
                local_abbrevs.append(name)
    # ---- invariants
    inv_text, inv_named = [], {}
    loops = {norm(l[0][0]): l for l in js["loops"]}
    for com, kind, loop, unf, c, oldname in invs:
        key = norm(loop)
        if key not in loops or c is None:
            sink.flags.append(f"loop unknown: {loop}")
            continue
        (o, n), vs = loops[key][0], loops[key][1]
        ch = js["changed"][[norm(l[0][0]) for l in js["loops"]].index(key)]
        params, expr = c
        want = [v + ("\x05" if k else "") for v, k in zip(vs, ch)] + [v for v, k in zip(vs, ch) if k]
        mapping = {}
        if len(params) in (len(want), len(want) + 1):
            for p, w in zip(params, want):
                mapping[p] = "l.initial." + w[:-1] if w.endswith("\x05") else "l." + w
        else:
            sink.flags.append(f"invariant {loop}: {params} for {want}")
            for p in params:
                base = p.rstrip("₀")
                mapping[p] = ("l.initial." if p.endswith("₀") else "l.") + base
        new = sub_params(expr, mapping, sink)
        inv_text.append("\n".join(com + [f"abbrev pub {kind}-{n} : goal.{kind}-{n}"] + ([unf] if unf else []) + [f"{kind}-{n} l ={new}"]))
        inv_named[oldname] = f"{kind}-{n}"
    # ---- answers
    def lets(used_names):
        """the lets for the helpers used, with those that they use"""
        need, todo = [], list(used_names)
        while todo:
            n = todo.pop()
            if n in need:
                continue
            need.append(n)
            todo += list(flat[n][3])
        return [n for n in data if n in need]

    flat = {}
    for name, (com, mods, rest, unf, (ps, expr), var) in data.items():
        used = set()
        ty2 = flatten(rest, {var}, statehelpers, data, used)
        ex2 = flatten(expr, {ps[0]}, statehelpers, data, used)
        flat[name] = (ty2, ps[1:], ex2, used, com, unf)

    ans_text, gone = [], []
    for com, name, need, unf, c, raw in answers:
        new = fn.needs.get(norm(need))
        if new is None:
            sink.flags.append(f"goal unknown: {need}")
            new = need
        if c is None:
            sink.flags.append(f"answer not read: {name}")
            ans_text.append("\n".join(com + [f"-- TODO {new}"] + ["-- " + l for l in raw.split("\n")]))
            continue
        ps, expr = c
        if expr.strip() == "search rules" and not unf:
            gone.append(new)
            continue
        used = set()
        ex = flatten(expr, {ps[0]} if ps else set(), statehelpers, data, used)
        pre = ""
        unfs = [unf] if unf else []
        for h in lets(used):
            ty2, more, ex2, _, hcom, hunf = flat[h]
            if hunf:
                unfs.append(hunf)
            t = " ".join(paths(tidy_parens(ty2), fn, "c").split())
            e = " ".join(paths(tidy_parens(ex2), fn, "c").split())
            lam = "".join(f"λ {p}. " for p in more)
            pre += f"\n    let {h} : {t} = {lam}{e} in"
        e = paths(tidy_parens(ex), fn, "c")
        if pre and not e.startswith("\n"):
            e = "\n    " + e.strip()
        unfset = []
        for u in unfs:
            for w in u.split()[1:]:
                if w not in unfset:
                    unfset.append(w)
        e = field_words(e)
        pre = field_words(pre)
        extra = " ".join(p for p in ps[1:] if p != "κs")
        if re.search(r"(?<![^\s(){}\[\],;.])κs(?![^\s(){}\[\],;.])", e):
            sink.flags.append(f"{new}: names κs")
        ans_text.append("\n".join(com + [f"pub {new} : goal.{new}"] + (["unfolding " + " ".join(unfset)] if unfset else []) + [f"{new} c{(' ' + extra) if extra else ''} ={pre}{e}"]))
    plain_text = ["\n".join(b.split("\n")) for com, b, name in plain]
    mod = f"Rattle.{crate}.proofs.{fpath}"
    # plain declarations that invariants name go to the invariants' file
    itext = "\n\n".join(inv_text)
    moved = []
    for com, b, name in plain:
        if name and re.search(r"(?<![^\s(){}\[\],;.])" + re.escape(name) + r"(?![^\s(){}\[\],;.])", itext):
            moved.append((b, name))
    again = True
    while again:
        again = False
        for com, b, name in plain:
            if name and name not in [n for _, n in moved] and any(re.search(r"(?<![^\s(){}\[\],;.])" + re.escape(name) + r"(?![^\s(){}\[\],;.])", mb) for mb, _ in moved):
                moved.append((b, name))
                again = True
    mnames = [n for _, n in moved]
    moved = [(b, n) for _, b, n in plain if n in mnames]
    rest_plain = [b for _, b, n in plain if n not in mnames]
    wrote = []
    if inv_text:
        mb = []
        for b, n in moved:
            ls = b.split("\n")
            k = next(i for i, l in enumerate(ls) if not l.startswith("--"))
            if not re.match(r"((abbrev|unfoldable)\s+)*pub", ls[k]):
                ls[k] = re.sub(r"^((?:abbrev |unfoldable )?)", r"\1pub ", ls[k])
            mb.append("\n".join(ls))
        full = "\n\n".join(mb + inv_text)
        out = head + print_uses(us, full) + [f"use {mod}.Given as goal", "", full, ""]
        (folder / "Invariants.antt").write_text("\n".join(out))
        wrote.append("Invariants")
    if ans_text or rest_plain:
        full = "\n\n".join(rest_plain + ans_text)
        own = []
        toks = set(re.split(r"[\s(){}\[\].,;]+", full))
        got = [n for n in mnames if n in toks]
        if got:
            own.append(f"use {mod}.Invariants.{{{', '.join(got)}}}")
        if ans_text:
            out = ([] if inv_text else head) + print_uses(us, full) + own + [f"use {mod}.Goals as goal", "", full, ""]
            (folder / "Answers.antt").write_text("\n".join(out))
            wrote.append("Answers")
    (folder / "Proof.antt").unlink()
    print(f"{fpath}: {' '.join(wrote) or 'nothing'}; {len(ans_text)} answers, {len(gone)} left to the check" + "".join(f"\n    ! {f}" for f in sink.flags))


def main():
    cdir = Path(sys.argv[1]).resolve()
    names = json.load(open(sys.argv[2]))
    only = sys.argv[3:]
    crate = cdir.name
    for p in sorted(cdir.glob("proofs/**/Proof.antt")):
        fpath = ".".join(p.parent.relative_to(cdir / "proofs").parts)
        if only and fpath not in only:
            continue
        key = f"Rattle-{crate}-proofs.{fpath}.Lts"
        if key not in names:
            print(f"{fpath}: no names ({key})")
            continue
        try:
            convert(p.parent, crate, fpath, names[key])
        except Exception as e:
            import traceback
            print(f"{fpath}: FAILED {e!r}")
            traceback.print_exc(limit=3)


main()
