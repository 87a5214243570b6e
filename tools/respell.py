#!/usr/bin/env python3
"""Respells this repository's own definitions and lemmas as today's Rattle spells them. Run once, at the top, after port.py.

usage: tools/respell.py [--table FILE] [PATH..]

Without PATH the crates are respelled and the table of names is written to FILE (default docs/port-names.tsv). With PATH each
file named is respelled by the table in FILE, in code spans and plain text alike.

Words are in snake case: nodeCount is node_count. In a lemma's name a dash joins two names that its statement cites, and plain
words are joined by _: below-fails is below_fails, length-forwardAt is length-forward_at. A name that would meet another is
left and printed. Names of Rust's own (functions, fields, constants, exports), generated names and quoted text stay.
"""
import os
import re
import sys

TOKEN = re.compile(r"[^\s(){}\[\];,@\"«».]+")
CAMEL = re.compile(r"^[a-z][A-Za-z0-9_'ℤℕ]*$")
DEF = re.compile(r"^\s*(?:(?:abbrev|unfoldable|pub|infixl|infixr) )*([^\s(){};,:λ\"]+) : ")
# read and found to meet nothing in the same file
FREE = {"addAt", "byRow", "cellsAt", "edgesFew", "getD", "labelAt", "labelsAt", "leZ", "ltZ"}
# lemmas that port.py gave the name that a definition is to have
MOVED = {"cells_at": "cells_at_lem", "edges_few": "edges_few_lem", "labels_at": "labels_at_lem"}
# a lemma of these files that port.py gave the name of a definition elsewhere
BESIDE = {"crates/messages/proofs/EdgeLaws.antt": ("line_at", "line_at_lem"), "crates/messages/proofs/edge_message/move_cells/Proof.antt": ("line_at", "line_at_lem")}
QUOTED = re.compile(r'"(?:[^"\\\n]|\\.)*"')


def files():
    for folder, dirs, names in os.walk("crates"):
        dirs[:] = sorted(d for d in dirs if d not in ("out", "target"))
        for name in sorted(names):
            if name.endswith((".antt", ".rt")):
                yield os.path.join(folder, name)


def snake(part):
    part = part.replace("getD", "get_or").replace("ltZ", "lt_z").replace("leZ", "le_z")
    part = re.sub(r"(?<=[a-z0-9])([A-Z])", lambda m: "_" + m.group(1).lower(), part)
    return re.sub(r"(?<=[a-z0-9])([ℤℕ])", r"_\1", part)


def signature(lines, at):
    """The text of a signature: its own line and the deeper ones below it."""
    depth = len(lines[at]) - len(lines[at].lstrip())
    text = [lines[at]]
    for line in lines[at + 1:]:
        if not line.strip() or len(line) - len(line.lstrip()) <= depth:
            break
        text.append(line)
    return " ".join(text)


def joined(name, words):
    parts = name.split("-")
    out = parts[0]
    for a, b in zip(parts, parts[1:]):
        out += ("-" if a in words and b in words else "_") + b
    return out


def table():
    tokens, lemmas, camel, hidden = set(), {}, set(), {}
    for path in files():
        with open(path, encoding="utf-8") as f:
            text = f.read()
        code = re.sub(r"--[^\n]*|//[^\n]*", "", QUOTED.sub('""', text))
        found = set(TOKEN.findall(code))
        if path.endswith(".antt"):
            tokens |= {m.group(0) for m in TOKEN.finditer(code) if not (m.start() and code[m.start() - 1] == ".")}
        else:
            cited = {snake(t) for g in re.findall(r"ghost use [^;]*;", code) for t in TOKEN.findall(g)}
            for name in set(re.findall(r"(\w+): ", code)) & cited:
                hidden[name] = path
        for t in found:
            for part in t.split("-"):
                if CAMEL.match(part) and re.search(r"[a-z0-9][A-Zℤ]", part) and not part.startswith("κ"):
                    camel.add(part)
        if path.endswith(".antt"):
            lines = code.split("\n")
            for i, line in enumerate(lines):
                m = DEF.match(line)
                if m and "-" in m.group(1) and " : tie." not in line and m.group(1)[0].isalpha():
                    lemmas.setdefault(m.group(1), set()).update(TOKEN.findall(signature(lines, i)[line.index(m.group(1)) + len(m.group(1)):]))
    words = {p: snake(p) for p in sorted(camel) if snake(p) != p}
    rows, left = dict(MOVED), []
    for old, new in words.items():
        if old in FREE:
            continue
        if new in tokens or new in hidden or list(words.values()).count(new) > 1:
            left.append((old, new + (" (a parameter in " + hidden[new] + ")" if new in hidden else "")))
    for old, cited in sorted(lemmas.items()):
        new = "-".join(words.get(p, p) for p in joined(old, cited).split("-"))
        new = re.sub(r"[A-Za-z][A-Za-z0-9']*[A-Z][A-Za-z0-9']*", lambda m: words.get(m.group(0), m.group(0)), new)
        if new != old and (new in tokens or new in rows.values() or new in words.values()):
            left.append((old, new + ", and is " + new + "_lem"))
            new += "_lem"
        if new != old:
            rows[old] = new
    return words, rows, left


def respell(text, words, rows, antt):
    # quoted text stays
    pieces, at = [], 0
    for q in QUOTED.finditer(text):
        pieces.append((text[at:q.start()], False))
        pieces.append((q.group(0), True))
        at = q.end()
    pieces.append((text[at:], False))
    result = ""
    for piece, quoted in pieces:
        if quoted:
            result += piece
            continue

        def turn(m, piece=piece):
            word = m.group(0)
            if antt and word in rows and not (m.start() and piece[m.start() - 1] == "."):
                return rows[word]
            return "-".join(words.get(p, p) for p in word.split("-")) if antt else re.sub(r"[A-Za-z][\w'ℤℕ]*", lambda n: words.get(n.group(0), n.group(0)), word)

        result += TOKEN.sub(turn, piece)
    return result


def main(argv):
    name = "docs/port-names.tsv"
    if "--table" in argv:
        at = argv.index("--table")
        name = argv[at + 1]
        del argv[at:at + 2]
    if argv:
        words, rows = {}, {}
        with open(name, encoding="utf-8") as f:
            for line in f:
                old, new = line.rstrip("\n").split("\t")
                (rows if "-" in old or old in MOVED else words)[old] = new
        paths = argv
    else:
        words, rows, left = table()
        for old, new in left:
            print(f"left: {old} would be {new}")
        os.makedirs(os.path.dirname(name) or ".", exist_ok=True)
        with open(name, "w", encoding="utf-8") as f:
            for old, new in list(words.items()) + list(rows.items()):
                f.write(f"{old}\t{new}\n")
        paths = list(files())
    for path in paths:
        with open(path, encoding="utf-8") as f:
            text = f.read()
        new = respell(text, words, rows, path.endswith((".antt", ".md")))
        if path in BESIDE and not argv:
            new = re.sub(r"(?<![\w'.-])" + BESIDE[path][0] + r"(?![\w'-])", BESIDE[path][1], new)
        if new != text:
            with open(path, "w", encoding="utf-8") as f:
                f.write(new)


if __name__ == "__main__":
    main(sys.argv[1:])
