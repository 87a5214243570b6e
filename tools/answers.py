#!/usr/bin/env python3
"""Turns a crate's Proof.antt files, which walk the code by hand, into Invariants.antt and Answers.antt.

usage: tools/answers.py CRATE NAMES    at the top; NAMES is the names.json of `rt check --generated DIR --old-names` in the crate

A definition of an old need becomes the answer to the goal of its place in `tie.spec`; what the search proves is left out. A path
`c.before.before.if1.true` becomes `c.if-a-b.true`, a place passed to a lemma `(goal.at.GOAL c).PLACE`. What it cannot turn it prints.
"""
import json
import os
import re
import sys

ID = r"[^\s(){}\[\];,@\"«».]+"
ARG = r"(?!=)[^\s(){}\[\];,@\"«».]+"
CHAIN = re.compile(rf"(?<![^\s(){{}}\[\];,@])({ID})((?:\.{ID})*)")
SIMPLE = {"search rules", "omega arith"}
KEEP_STEPS = {"args", "requires", "pre", "ranges", "lifetimes", "type_inv", "type-inv", "fits", "utf8"}


def norm(s):
    return s.replace("_", "-")


def clauses(crate):
    """For each function name of the repository, the names of its requires and ensures clauses, in order."""
    found = {}
    for c in os.listdir("crates"):
        for folder, dirs, names in os.walk(os.path.join("crates", c, "src")):
            for n in names:
                if not n.endswith(".rt"):
                    continue
                text = open(os.path.join(folder, n), encoding="utf-8").read()
                for m in re.finditer(r"^\s*(?:#\[.*\]\s*)?(?:pub(?:\([^)]*\))? )?(?:extern \"C\" )?fn (\w+)", text, re.M):
                    end = re.search(r"^\s*\{\s*$|\{\s*\n", text[m.end():], re.M)
                    head = text[m.end():]
                    stop = re.search(r"^\{$", head, re.M)
                    head = head[: stop.start()] if stop else head[:2000]
                    req = re.findall(r"^\s*requires ?(\w*) \{", head, re.M)
                    ens = re.findall(r"^\s*ensures ?(\w*) \{", head, re.M)
                    params = re.findall(r"(\w+):", head.split(")")[0] if ")" in head else "")
                    mod = n[:-3]
                    found[(c, mod, m.group(1))] = (req, ens)
                    found.setdefault(("", "", m.group(1)), (req, ens))
    return found


def nested(path, names):
    """`.1.1.0.x` at clauses a, b, c, d: `.c.x`; the path is a list of parts."""
    if len(names) < 2:
        return path
    i = 0
    while i < len(names) - 1 and path and path[0] == "1":
        path = path[1:]
        i += 1
    if i < len(names) - 1:
        if not path or path[0] != "0":
            return None
        path = path[1:]
    return [names[i]] + path


class Function:
    def __init__(self, key, info, folder, crate, contracts):
        self.info, self.folder, self.crate, self.contracts = info, folder, crate, contracts
        self.said = []
        self.name = os.path.basename(folder)
        places = info["places"]
        new = info["places_by_name"]
        self.parent, self.step, self.new, self.callee = {}, {}, {}, {}
        for p, n in zip(places, new):
            self.parent[norm(p[0])] = norm(p[1]) if p[1] else None
            self.step[norm(p[0])] = p[2]
            self.new[norm(p[0])] = n
            self.callee[norm(p[0])] = p[3]
        self.index = {norm(p[0]): i for i, p in enumerate(places)}
        self.places_used = set()
        mod = os.path.basename(os.path.dirname(folder))
        self.own = contracts.get((crate, mod, self.name)) or contracts.get(("", "", self.name)) or ([], [])

    # ---- paths

    def plain(self, q):
        """The nearest place that older kits had too."""
        while q is not None and self.step.get(q) and re.match(r"way-told\d*$", norm(self.step[q][0])):
            q = self.parent.get(q)
        return q

    def up(self, q):
        return self.plain(self.parent.get(self.plain(q)))

    def field(self, place, comps):
        """The parts behind a place's step."""
        old = norm(comps[0])
        if comps[0] in KEEP_STEPS or old in ("fits-ranges",):
            first = {"pre": "requires", "type-inv": "type_inv", "fits": "ranges"}.get(comps[0], comps[0])
            rest = list(comps[1:])
            if first == "requires":
                turned = nested(rest, self.own[0])
                if turned is None:
                    self.said.append(f"requires path {comps}")
                else:
                    rest = turned
            return [first] + rest
        q = place
        while q is not None:
            if self.step.get(q) and norm(self.step[q][0]) == old:
                break
            q = self.parent.get(q)
        if q is None:
            # the older chain had a place more or less: the nearest step of that name on the way from the root
            c, last = self.top, None
            while c is not None and c != place:
                if self.step.get(c) and norm(self.step[c][0]) == old:
                    last = c
                c = self.parent.get(c)
            q = last
        if q is None:
            self.said.append(f"no step {comps[0]} at {place}")
            return list(comps)
        if re.match(r"(shared-)?slice-known\d*$", old) and comps[1:2] == ["given"]:
            typed = self.info["typed"][self.index[place]]
            var = next((v for v, st in typed if norm(st) == norm(self.step[q][0])), None)
            var = var or next((v for pl in range(len(self.info["typed"])) for v, st in self.info["typed"][pl] if norm(st) == norm(self.step[q][0])), None)
            if var:
                return ["type_inv", var] + list(comps[2:])
            self.said.append(f"no variable of {comps[0]}")
        new = self.step[q][1]
        rest = ["type_inv" if x == "type-inv" else x for x in comps[1:]]
        if rest[:1] == ["inv"]:
            rest[0] = "invariant"
        if rest[:1] == ["taken"] and (old.startswith("if") or old.endswith("test")):
            rest[0] = "true"
        if rest[:1] == ["left"] and (old.startswith("if") or old.endswith("test")):
            rest[0] = "false"
        if rest[:1] == ["ok"]:
            rest[0] = "type_inv"
        if rest[:1] == ["new"] and rest[1:2] and rest[1] in ("0", "1"):
            rest[0] = "last"
        if rest[:1] == ["last"]:
            k = 0
            rest = rest[1:]
            while rest and rest[0] == "1":
                k += 1
                rest = rest[1:]
            if rest and rest[0] == "0":
                rest = rest[1:]
            params = self.info["params"].get(self.callee.get(q) or "", [])
            if k < len(params):
                rest = ["new", params[k]] + rest
            else:
                self.said.append(f"last of {comps[0]}: {k} of {params}")
        if rest[:1] == ["ensures"]:
            callee = (self.callee.get(q) or "").split("::")
            got = self.contracts.get(tuple(callee[-3:])) if len(callee) == 3 else None
            got = got or (self.contracts.get((self.crate, callee[-2], callee[-1])) if len(callee) > 1 else None) or self.contracts.get(("", "", callee[-1]))
            if got and len(got[1]) > 1:
                turned = nested(rest[1:], got[1])
                if turned is None:
                    self.said.append(f"ensures path {comps}")
                else:
                    rest = ["ensures"] + turned
        return [new] + rest

    def place_of(self, root, rootplace, kind, q):
        """The term for the record of place q, from a root that is a goal's argument or a place's record."""
        if q == rootplace or q == self.plain(rootplace) and False:
            return root
        if q is None:
            self.said.append(f"a place before the start of {root}")
            return root
        self.places_used.add(q)
        return f"(goal.at.{kind} {root}).{self.new[q]}"

    def walk(self, root, place, kind, comps):
        self.top = place
        q = self.plain(place)
        i = 0
        while i < len(comps) and comps[i] == "before":
            q = self.up(q) or q
            i += 1
        rest = comps[i:]
        if not rest:
            return self.place_of(root, place, kind, q), q
        return root + "." + ".".join(self.field(q, rest)), None

    def turn(self, text, env):
        """Respells the paths of the variables in env: name -> (root, place, kind)."""
        out, at = "", 0
        text = text
        pos = 0
        result = []
        i = 0
        while True:
            m = CHAIN.search(text, i)
            if not m:
                result.append(text[i:])
                break
            head = m.group(1)
            comps = [x for x in m.group(2).split(".") if x]
            result.append(text[i:m.start()])
            if head in env:
                root, place, kind = env[head]
                before = text[m.start() - 1] if m.start() else " "
                w = self.walk(root, place, kind, comps)
                new = w[0] if isinstance(w, tuple) else w
                result.append(new)
            else:
                result.append(m.group(0))
            i = m.end()
            # (helper x).chain
        text = "".join(result)
        return text

    def lets(self, text, env):
        """Drops `let q = PLACE in`, and binds q to what it stands for."""
        env = dict(env)
        while True:
            m = None
            for m in re.finditer(rf"\blet ({ID}) = ({ID})((?:\.before)*)((?:\.(?:requires|pre))?) in[ \n]*", text):
                if m.group(4) and (len(self.own[0]) < 2 or m.group(2) not in env):
                    continue
                if m.group(2) in env and m.group(1) not in env:
                    break
                if m.group(2) in env and m.group(1) in env:
                    break
            else:
                m = None
            if not m:
                return text, env
            root, place, kind = env[m.group(2)]
            q = place
            q = self.plain(q)
            for _ in range(m.group(3).count(".before")):
                q = self.up(q) or q
            if m.group(4):
                # the clauses have names: each path is written out
                v = m.group(1)
                body = text[m.end():]
                body = re.sub(rf"(?<![^\s(){{}},]){re.escape(v)}((?:\.{ID})+)", lambda x: m.group(2) + m.group(3) + ".requires" + x.group(1), body)
                text = text[: m.start()] + body
                env.pop(m.group(1), None)
                continue
            # a name for the place, as walked from the same root
            env[m.group(1)] = ("@" + m.group(1), q, None)
            self.alias[m.group(1)] = (root, place, kind, q)
            bare = len(re.findall(rf"(?<![^\s(){{}},]){re.escape(m.group(1))}(?![^\s(){{}},])", text[m.end():]))
            if bare > 1:
                r, p, k, c = self.resolve(m.group(1))
                asked = {self.expected.get(h) for h in re.findall(rf"({ID}) {re.escape(m.group(1))}(?![^\s(){{}},])", text[m.end():])} - {None}
                if len(asked) == 1:
                    c = asked.pop()
                    self.alias[m.group(1)] = (r, p, k, c)
                    env[m.group(1)] = ("@" + m.group(1), c, None)
                term = self.place_of(r, p, k, c)
                self.kept[m.group(1)] = True
                text = text[: m.start()] + f"\2let {m.group(1)} \3= {term} in\2 " + text[m.end():]
            else:
                text = text[: m.start()] + text[m.end():]

    def resolve(self, name):
        root, place, kind, q = self.alias[name]
        while root.startswith("@"):
            root, place, kind, _ = self.alias[root[1:]]
        return root, place, kind, q

    def body(self, text, env):
        # an answer that another cites has its goal's name
        text = re.sub(rf"(?<![^\s(){{}},]){ID}(?![^\s(){{}},])", lambda m: self.renamed.get(m.group(0), m.group(0)), text)
        self.alias, self.kept = {}, {}
        env = dict(env)
        for m in re.finditer(rf"\blet ({ID}) = ({ID}) (?:{ID}|\([^()]*\))+(?:\.{ID})* in\b", text):
            if m.group(2) in self.helpers and m.group(1) not in env:
                p = self.helpers[m.group(2)]
                env[m.group(1)] = (m.group(1), p, self.new[p])
        text, env = self.lets(text, env)
        final = {}
        for v, (root, place, kind) in env.items():
            if root.startswith("@"):
                r, p, k, q = self.resolve(root[1:])
                final[v] = ("ALIAS", (r, p, k, q), None)
            else:
                final[v] = (root, place, kind)
        # aliases: walk from q with the root r
        plain = {v: e for v, e in final.items() if e[0] != "ALIAS"}
        aliases = {v: e[1] for v, e in final.items() if e[0] == "ALIAS"}
        self_walk = self.walk

        def sub(m):
            head = m.group(1)
            if head not in aliases:
                return m.group(0)
            r, p, k, q = aliases[head]
            comps = [x for x in m.group(2).split(".") if x]
            c = q
            i = 0
            while i < len(comps) and comps[i] == "before":
                c = self.up(c) or c
                i += 1
            rest = comps[i:]
            self.top = p
            if not rest:
                return "\0" + (head if head in self.kept and c == q else self.place_of(r, p, k, c)) + "\0"
            return "\0" + r + "." + ".".join(self.field(c, rest)) + "\0"

        # a let that is kept is written as it is to be
        pieces = text.split("\2")
        for i in range(0, len(pieces), 2):
            pieces[i] = CHAIN.sub(sub, pieces[i])
        for i in range(1, len(pieces), 2):
            pieces[i] = "\0" + pieces[i].replace("\3", "") + "\0"
        parts = "".join(pieces).split("\0")
        for i in range(0, len(parts), 2):
            parts[i] = self.turn(parts[i], plain)
        joined = "".join(parts)
        roots = {r: (p, k) for r, p, k in plain.values()}
        for h, e in self.expected.items():
            def fit(m, h=h, e=e):
                k, r = m.group(1), m.group(2)
                p = next((p for rr, (p, kk) in roots.items() if rr == r), None)
                self.places_used.add(e)
                return f"{h} (goal.at.{k} {r}).{self.new[e]}"
            joined = re.sub(rf"(?<![^\s(){{}},]){re.escape(h)} \(goal\.at\.({ID}) ({ID})\)\.{ID}(?!\.)", fit, joined)
            for r, (p, k) in roots.items():
                if p != e and self.plain(p) != e or p != e:
                    def fit2(m, h=h, e=e, k=k, r=r):
                        self.places_used.add(e)
                        return f"{h} (goal.at.{k} {r}).{self.new[e]}"
                    joined = re.sub(rf"(?<![^\s(){{}},]){re.escape(h)} {re.escape(r)}(?![^\s(){{}},])", fit2, joined)
        joined = self.behind(joined)
        joined = re.sub(rf"\(to_z w64 ((?:{ID}(?:\.{ID})*|\([^()]*(?:\([^()]*\))?[^()]*\)(?:\.{ID})*)\.loop-[\w'-]*\.\w+)\)", r"\1", joined)
        joined = re.sub(rf"(?<![\w(])to_z w64 ({ID}(?:\.{ID})*\.loop-[\w'-]*\.\w+)", r"\1", joined)
        return joined

    def behind(self, text):
        """The paths behind an application, (helper x).path, of a lemma that gives a place."""
        for helper, place in self.helpers.items():
            at = 0
            while True:
                i = text.find("(" + helper + " ", at)
                if i < 0:
                    break
                depth, j = 0, i
                while j < len(text):
                    depth += text[j] == "("
                    depth -= text[j] == ")"
                    j += 1
                    if depth == 0:
                        break
                m = re.match(rf"((?:\.{ID})+)", text[j:])
                at = i + 1
                if m:
                    comps = [x for x in m.group(1).split(".") if x]
                    w = self.walk(text[i:j], place, self.new[place], comps)
                    new = w[0] if isinstance(w, tuple) else w
                    text = text[:i] + new + text[j + m.end():]
                    at = i + (new.index(text[i:j]) if text[i:j] in new else 0) + 1
        return text

    # ---- the file

    def run(self):
        path = os.path.join(self.folder, "Proof.antt")
        text = open(path, encoding="utf-8").read()
        lines = text.split("\n")
        # blocks: a signature at column 0 with what follows, or a module section
        uses = [l for l in lines if l.startswith("use ")]
        head = []
        for l in lines:
            if l.startswith("--"):
                head.append(l)
            else:
                break
        rest = [l for l in lines[len(head):] if not l.startswith("use ")]
        blocks, cur = [], []
        for l in rest:
            if l and not l[0].isspace() and cur and any(x.strip() for x in cur):
                m = re.match(rf"(?:abbrev |unfoldable |pub )*({ID})", l)
                first = next(x for x in cur if x.strip() and not x.startswith("--")) if any(x.strip() and not x.startswith("--") for x in cur) else None
                if first is not None and not l.startswith("unfolding"):
                    fm = re.match(rf"(?:abbrev |unfoldable |pub )*({ID})", first)
                    same = m and fm and m.group(1) == fm.group(1) and not re.match(rf"(?:abbrev |unfoldable |pub )*{re.escape(fm.group(1))} : ", l)
                    if not same:
                        # comments before a definition belong to it
                        blocks.append(cur)
                        cur = []
            cur.append(l)
        if cur:
            blocks.append(cur)
        # comment lines at the end of a block belong to the next
        for i in range(len(blocks) - 1):
            tail = []
            while blocks[i] and (blocks[i][-1].startswith("--") or not blocks[i][-1].strip()):
                tail.insert(0, blocks[i].pop())
            blocks[i + 1] = tail + blocks[i + 1]
        needs = self.info["needs"]
        asked = self.info["asked_at"]
        spec = None
        for b in blocks:
            t = "\n".join(b)
            if "tie.spec" in t:
                spec = t
        args = self.spec_args(spec) if spec else []
        loops = self.info["loops"]
        args_needs = args[2 * len(loops):]
        by_name, inline = {}, []
        if len(args_needs) != len(needs):
            self.said.append(f"{len(args_needs)} answers and {len(needs)} needs")
            by_old = {norm(o): i for i, (o, n) in enumerate(needs)}
        else:
            for i, a in enumerate(args_needs):
                if re.fullmatch(ID, a):
                    by_name.setdefault(a, []).append(i)
                else:
                    inline.append((i, a))
        self.renamed = {old: needs[idx[0]][1] for old, idx in by_name.items() if old != needs[idx[0]][1]}
        self.helpers = {}
        # helpers that give a place
        for b in blocks:
            for l in b:
                m = re.match(rf"\s*(?:abbrev |pub )*({ID}) : (.*→ )?tie\.({ID})(?: invariant-loop decreases-loop)?$", l)
                if m and norm(m.group(3)) in self.new:
                    self.helpers[m.group(1)] = norm(m.group(3))
        # the place that a lemma's first argument has
        self.expected = {}
        for b in blocks:
            section = None
            for l in b:
                m = re.match(rf"\s*module _ \({ID} : tie\.({ID})", l)
                if m:
                    section = norm(m.group(1))
                    continue
                m = re.match(rf"(\s*)(?:abbrev |pub )*({ID}) : (.*)$", l)
                if m:
                    q = re.match(rf"(?:\({ID} : )?tie\.({ID})", m.group(3))
                    if section and m.group(1):
                        self.expected[m.group(2)] = section
                    elif q and not q.group(1).startswith("Need-") and " → " in l and norm(q.group(1)) in self.new:
                        self.expected[m.group(2)] = norm(q.group(1))
        self.expected = {h: e for h, e in self.expected.items() if e in self.new}
        out, invs = [], []
        self.local = set()
        for b in blocks:
            t = "\n".join(b)
            first = next((x for x in b if x.strip() and not x.startswith("--")), "")
            m = re.match(rf"(?:abbrev |pub )*({ID}) : ", first)
            name = m.group(1) if m else None
            if name and re.match(r"(invariant|decreases)-", name) and "tie." in first:
                invs.append(self.invariant(name, b))
                continue
            if "tie.spec" in t or "tie.close" in t:
                continue
            if name and re.search(r": tie\.Need-", first):
                idx = by_name.get(name, [])
                if not idx:
                    nm = norm(re.search(rf"tie\.Need-({ID})", first).group(1))
                    got = [i for i, (o, n) in enumerate(needs) if norm(o) == nm]
                    # older kits wrote overflow-add for add
                    got = got or [i for i, (o, n) in enumerate(needs) if norm("overflow-" + o) == nm]
                    idx = got
                if not idx:
                    self.said.append(f"no goal for {name}")
                    out.append("\n".join("-- LEFT " + x for x in b if x.strip()))
                    continue
                for i in idx[:1]:
                    out.append(self.answer(i, b, name))
                for i in idx[1:]:
                    out.append(f"pub {needs[i][1]} : goal.{needs[i][1]}\n{needs[i][1]} c = {needs[idx[0]][1]} c")
                continue
            out.append(self.helper(b))
        for i, a in inline:
            m = re.fullmatch(rf"\(λ ({ID})(?: κs)?\. (.*)\)", a, re.S)
            if not m:
                m2 = re.fullmatch(rf"\(({ID}) (.*)\)", a, re.S)
                self.said.append(f"answer {needs[i][1]} is {a[:80]}")
                continue
            if m.group(2).strip() in SIMPLE:
                continue
            n = needs[i][1]
            place = norm(asked[i][0])
            body = self.body(m.group(2), {m.group(1): (m.group(1), place, n)})
            out.append(f"pub {n} : goal.{n}\n{n} {m.group(1)} = {self.tupled(i, body)}")
        base = f"Rattle.{self.crate}.proofs." + ".".join(os.path.relpath(self.folder, os.path.join("crates", self.crate, "proofs")).split(os.sep))
        moved, moved_names = [], []
        for _ in range(3):
            for o in list(out):
                first = next((x for x in o.split("\n") if x.strip() and not x.startswith("--")), "")
                m = re.match(rf"(?:abbrev |pub |unfoldable )*({ID}) : ", first)
                if m and not first.startswith("pub ") and "goal." not in o and any(re.search(rf"(?<![\w'.-]){re.escape(m.group(1))}(?![\w'-])", v) for v in invs + moved):
                    out.remove(o)
                    o = o.replace("abbrev " + m.group(1), "abbrev pub " + m.group(1), 1) if first.startswith("abbrev ") else o.replace(first, "pub " + first, 1)
                    moved.insert(0, o.strip("\n"))
                    moved_names.insert(0, m.group(1))
                elif m is None and re.match(r"(pub )?record ", first):
                    n = re.match(rf"(?:pub )?record ({ID})", first).group(1)
                    if any(re.search(rf"(?<![\w'.-]){re.escape(n)}(?![\w'-])", v) for v in invs + moved):
                        out.remove(o)
                        moved.insert(0, (o if first.startswith("pub ") else o.replace(first, "pub " + first, 1)).strip("\n"))
                        moved_names.insert(0, n)
        invs = moved + invs
        kept = [u for u in uses if ".Statement.{" not in u and not u.endswith(".Tie as tie")]
        base = f"Rattle.{self.crate}.proofs." + ".".join(os.path.relpath(self.folder, os.path.join("crates", self.crate, "proofs")).split(os.sep))
        if invs:
            with open(os.path.join(self.folder, "Invariants.antt"), "w", encoding="utf-8") as f:
                f.write("\n".join(head + kept + [f"use {base}.Given as goal", ""]) + "\n" + "\n\n".join(invs) + "\n")
        out = [o.strip("\n") for o in out if o.strip()]
        if out:
            named = sorted({self.new[p] for p in self.places_used if any(re.search(rf"(?<![\w.-]){re.escape(self.new[p])}(?![\w-])", o) for o in out)})
            lines = head + kept + [f"use {base}.Goals as goal"]
            cited = [n for n in moved_names if any(re.search(rf"(?<![\w'.-]){re.escape(n)}(?![\w'-])", o) for o in out)]
            if cited:
                lines.append(f"use {base}.Invariants.{{{', '.join(cited)}}}")
            if named:
                lines.append(f"use {base}.Goals.{{{', '.join(named)}}}")
            with open(os.path.join(self.folder, "Answers.antt"), "w", encoding="utf-8") as f:
                f.write("\n".join(lines + [""]) + "\n" + "\n\n".join(out) + "\n")
        os.remove(path)
        for s in self.said:
            print(f"{self.folder}: {s}")

    def spec_args(self, text):
        t = text[text.index("tie.spec") + len("tie.spec"):]
        args, depth, cur = [], 0, ""
        for ch in t:
            if ch in "([{":
                depth += 1
            if ch in ")]}":
                depth -= 1
                if depth < 0:
                    break
            if ch.isspace() and depth == 0:
                if cur:
                    args.append(cur)
                cur = ""
            else:
                cur += ch
        if cur:
            args.append(cur)
        return args

    def invariant(self, name, b):
        kind = name.split("-")[0]
        label = name[len(kind) + 1:]
        loops, changed = self.info["loops"], self.info["changed"]
        k = next((i for i, l in enumerate(loops) if norm(l[0][0]) == norm(label)), 0)
        (old, new), names = loops[k]
        t = "\n".join(b)
        comments = [x for x in b if x.startswith("--")]
        m = re.search(rf"^{re.escape(name)} (.*?) =(?:[ \n])(.*)$", t, re.S | re.M)
        if not m:
            self.said.append(f"{name} has another form")
            return t
        binders = m.group(1).split()
        flags = changed[k]
        target = [("l.initial." if f else "l.") + v for v, f in zip(names, flags)] + ["l." + v for v, f in zip(names, flags) if f]
        if len(target) != len(binders):
            self.said.append(f"{name}: {len(binders)} names for {len(target)} variables")
        subst = dict(zip(binders, target))
        body = m.group(2).rstrip()
        out, depth, shadows = "", 0, []
        pos = 0
        for tok in re.finditer(rf"λ ([^.]*)\.|[()\[\]]|{ID}|\.|\s+|.", body):
            s = tok.group(0)
            if tok.group(1) is not None:
                bound = re.findall(ID, re.sub(r":[^)]*", "", tok.group(1)))
                shadows.append((depth, set(bound)))
                out += s
                continue
            if s in "([":
                depth += 1
            elif s in ")]":
                depth -= 1
                shadows = [x for x in shadows if x[0] <= depth]
            elif s in subst and not (out and out[-1] == ".") and not any(s in x[1] for x in shadows):
                s = subst[s]
            out += s
        out = re.sub(r"\(to_z w64 (l\.(?:initial\.)?\w+)\)", r"\1", out)
        out = re.sub(r"to_z w64 (l\.(?:initial\.)?\w+)", r"\1", out)
        new_name = f"{kind}-{new}"
        return "\n".join(comments + [f"abbrev pub {new_name} : goal.{new_name}", f"{new_name} l ={' ' if not out.startswith(chr(10)) else ''}{out}"])

    def answer(self, i, b, name):
        old, new = self.info["needs"][i]
        place = norm(self.info["asked_at"][i][0])
        t = "\n".join(b)
        comments = [x for x in b if x.startswith("--")]
        unf = [x for x in b if x.startswith("unfolding")]
        m = re.search(rf"^{re.escape(name)}((?: {ARG})*) =(?:[ \n]+)(.*)$", t, re.S | re.M)
        if not m:
            self.said.append(f"{name} has another form")
            return t
        args = m.group(1).split()
        var = args[0] if args else "c"
        body = self.body(m.group(2), {var: (var, place, new)} if var != "_" else {})
        body = self.tupled(i, body)
        sep = "\n    " if "\n" in m.group(2).strip() or len(body) > 100 else " "
        more = "".join(" " + a for a in args[1:] if a != "κs")
        return "\n".join(comments + [f"pub {new} : goal.{new}"] + unf + [f"{new} {var}{more} ={sep}{body.strip()}"])

    def tupled(self, i, body):
        """An answer of several clauses is a record of them."""
        new = self.info["needs"][i][1]
        names = []
        old = self.info["needs"][i][0]
        if "requires" in new:
            # the callee: the place after this call
            place = norm(self.info["asked_at"][i][0])
            stem = re.sub(r"-requires.*", "", old)
            for q, p in self.parent.items():
                c = self.callee.get(q)
                if c and p == place and norm(c.split("::")[-1]) == norm(stem):
                    parts = c.split("::")
                    got = (self.contracts.get(tuple(parts[-3:])) if len(parts) == 3 else None) or self.contracts.get((self.crate, parts[-2], parts[-1])) or self.contracts.get(("", "", parts[-1]))
                    names = got[0] if got else []
                    break
            else:
                got = self.contracts.get(("", "", stem)) or self.contracts.get(("", "", stem.replace("-", "_")))
                names = got[0] if got else []
        elif new.startswith("returns"):
            names = self.own[1]
        if len(names) < 2:
            return body
        t = body.rstrip()
        if not t.endswith(")"):
            self.said.append(f"{new} wants clauses {names}")
            return body
        depth, j = 0, len(t) - 1
        while j >= 0:
            if t[j] == ")":
                depth += 1
            elif t[j] == "(":
                depth -= 1
                if depth == 0:
                    break
            j -= 1
        parts = self.commas(t[j + 1: -1])
        flat = []
        rest = parts
        n = len(names)
        while len(flat) < n - 1:
            if len(rest) == 1:
                inner = rest[0].strip()
                if inner.startswith("(") and inner.endswith(")"):
                    rest = self.commas(inner[1:-1])
                    continue
                break
            flat.append(rest[0])
            rest = rest[1:]
        if len(rest) == 1:
            flat.append(rest[0])
        elif rest:
            flat.append("(" + ",".join(rest) + ")")
        if len(flat) != n:
            self.said.append(f"{new} wants clauses {names}")
            return body
        return t[:j] + "record { " + "; ".join(f"{a} = {x.strip()}" for a, x in zip(names, flat)) + " }"

    def commas(self, t):
        parts, depth, cur = [], 0, ""
        for ch in t:
            if ch in "([{":
                depth += 1
            if ch in ")]}":
                depth -= 1
            if ch == "," and depth == 0:
                parts.append(cur)
                cur = ""
            else:
                cur += ch
        if cur.strip():
            parts.append(cur)
        return parts

    def helper(self, b):
        """A lemma over places: each argument of a place's type is a root of its own."""
        t = "\n".join(b)
        env = {}
        out = []

        def typed(m):
            p = norm(m.group(1))
            if p not in self.new:
                self.said.append(f"no place {m.group(1)}")
                return m.group(0)
            self.places_used.add(p)
            return self.new[p]

        # names with a place's type: binders, and first arguments of lemmas
        for m in re.finditer(rf"\(({ID}) : tie\.({ID})(?: invariant-loop decreases-loop)?\)", t):
            p = norm(m.group(2))
            if p in self.new:
                env[m.group(1)] = (m.group(1), p, self.new[p])
        lines = t.split("\n")
        sigs = {}
        for l in lines:
            m = re.match(rf"(\s*)(?:abbrev |pub )*({ID}) : (.*)$", l)
            if m:
                kinds = []
                for part in m.group(3).split(" → "):
                    q = re.match(rf"(?:\(({ID}) : )?tie\.({ID})", part)
                    kinds.append(norm(q.group(2)) if q and norm(q.group(2)) in self.new else None)
                sigs[m.group(2)] = kinds
        # helpers inside a module that give a place, cited bare
        for h, p in self.helpers.items():
            if h in sigs and sigs[h] and len(sigs[h]) == 1:
                env.setdefault(h, (h, p, self.new[p]))
        chunks, cur = [], []
        for l in lines:
            m = re.match(rf"(\s*)(?!abbrev |pub )({ID})( | =)", l)
            if m and m.group(2) in sigs and cur:
                chunks.append("\n".join(cur))
                cur = []
            elif re.match(r"\s*module _", l) and cur:
                chunks.append("\n".join(cur))
                cur = []
            cur.append(l)
        if cur:
            chunks.append("\n".join(cur))
        chunks = [re.sub(rf"tie\.({ID})(?: invariant-loop decreases-loop)?", typed, ch) for ch in chunks]
        for ch in chunks:
            m = re.match(rf"\s*({ID})((?: {ARG})*) =(\s)", ch)
            local = dict(env)
            if m and m.group(1) in sigs:
                for a, kd in zip(m.group(2).split(), sigs[m.group(1)]):
                    if kd:
                        local[a] = (a, kd, self.new[kd])
                i = m.end(2) + 2
                out.append(ch[:i] + self.body(ch[i:], local))
            else:
                # statements over a section's place
                out.append(self.body(ch, local) if env else ch)
        return "\n".join(out)


def main(argv):
    crate, names = argv
    info = json.load(open(names, encoding="utf-8"))
    contracts = clauses(crate)
    base = os.path.join("crates", crate, "proofs")
    for folder, dirs, files in os.walk(base):
        dirs[:] = [d for d in dirs if d != "out"]
        if "Proof.antt" in files:
            path = ".".join(os.path.relpath(folder, base).split(os.sep))
            key = f"Rattle-{crate}-proofs.{path}.Lts"
            if key not in info:
                print(f"{folder}: not in {names}")
                continue
            Function(key, info[key], folder, crate, contracts).run()


if __name__ == "__main__":
    main(sys.argv[1:])
