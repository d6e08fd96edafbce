#!/usr/bin/env python3
"""Brings the repository's own definitions and lemmas to the library's spelling: words in snake case.

    tools/respell.py [ROOT]

A name that a file of specs/ or proofs/ declares becomes snake case: a dash is an underscore, and a capital inside a word that begins
small is an underscore and a small letter. Types and modules keep their capitals. What a library declares, what Rattle makes (goals,
places, steps) and what src/ declares keeps its spelling. It lists names that would fall together in one file, and then changes nothing.
"""
import collections
import glob
import os
import re
import sys

MODIFIERS = {"abbrev", "unfoldable", "pub", "data", "record", "opaque", "private", "let", "field", "infix", "infixl", "infixr"}
TOKEN = re.compile(r"""[^\s(){}.,;:"`⟨⟩]+""")
MADE = re.compile(r"^(Need|After|Then|Else|In|At|Start|Join)-|^(invariant|decreases)-|-requires(-\d+)?$|-spec$")


def snake(name):
    name = name.replace("-", "_")
    if re.match(r"^_?[a-z]", name):
        name = re.sub(r"([a-z0-9])([A-Z])", lambda m: m.group(1) + "_" + m.group(2).lower(), name)
    return name


def wants(name):
    return bool(re.search(r"[\w'₀-₉]-[\w]", name) or re.match(r"^[a-z][a-z0-9_]*[A-Z]", name)) and snake(name) != name


def declared(path):
    """The names that a file declares, but for the answers of goals and what closes them."""
    names = set()
    for line in open(path, encoding="utf-8"):
        code = line.split("--")[0] if line.lstrip().startswith("--") else line
        m = re.match(r"\s*((?:[^\s:(){}=,.;]+\s+)+):(?:\s|$)", code)
        if m:
            words = [w for w in m.group(1).split() if w not in MODIFIERS]
            rest = code[m.end():].strip()
            if not re.match(r"(tie|goal)\.", rest) and "statement" not in rest:
                names.update(words)
        m = re.match(r"\s*(?:\w+\s+)*(?:record|data)\s+(\S+)", code)
        if m:
            names.add(m.group(1))
        for m in re.finditer(r"\blet\s+([^\s:(){}=,.;]+)\s*[:=]", code):
            names.add(m.group(1))
        for m in re.finditer(r"[({]((?:[^\s:(){}=,.;]+\s+)+):\s", code):
            names.update(m.group(1).split())
        for m in re.finditer(r"λ\s*((?:[^\s:(){}=,.;]+\s*)+)\.", code):
            names.update(m.group(1).split())
    return names


def imported(path, own):
    """The names that a file takes from a library."""
    names = set()
    for m in re.finditer(r"^(?:ghost )?use ([^\s{]+?)\.?\{([^}]*)\}", open(path, encoding="utf-8").read(), re.M):
        home = m.group(1).split(".")
        if not (home[0] == "Rattle" and len(home) > 1 and home[1] in own) or home[-1] in ("Statement", "Tie"):
            names.update(w.split(" as ")[0].strip() for w in m.group(2).split(","))
    return names


def callable(name, files):
    """Whether some file has the name beside the one that it would become."""
    return any({name, snake(name)} <= set(TOKEN.findall(open(p, encoding="utf-8").read())) for p in files)


def change(text, table, only=None):
    return TOKEN.sub(lambda m: table.get(m.group(0), m.group(0)) if only is None or only(m.group(0)) else m.group(0), text)


def in_ticks(text, table):
    return re.sub(r"`([^`\n]*)`", lambda m: "`" + change(m.group(1), table) + "`", text)


def antt(text, table):
    out = []
    for line in text.split("\n"):
        cut = line.find("--") if re.match(r"\s*--", line) else -1
        if cut < 0:
            m = re.search(r"\s--\s", line)
            cut = m.start() if m else -1
        if cut < 0:
            out.append(change(line, table))
        else:
            out.append(change(line[:cut], table) + prose(line[cut:], table))
    return "\n".join(out)


def prose(text, table):
    return in_ticks(change(text, table, lambda w: "-" not in w), table)


def rattle(text, table):
    """Only what is ghost: imports and clauses. A string keeps its words."""
    out = []
    for line in text.split("\n"):
        if re.match(r"\s*//", line):
            out.append(prose(line, table))
        elif '"' in line:
            out.append(line)
        else:
            out.append(change(line, table))
    return "\n".join(out)


def main(root):
    crates = {os.path.basename(os.path.dirname(p)) for p in glob.glob(f"{root}/crates/*/src")}
    files = sorted(p for p in glob.glob(f"{root}/crates/*/specs/**/*.antt", recursive=True) + glob.glob(f"{root}/crates/*/proofs/**/*.antt", recursive=True))
    specs, local, taken = set(), {}, set()
    for p in files:
        names = {n for n in declared(p) if wants(n) and not MADE.search(n)}
        taken |= imported(p, crates)
        if "/specs/" in p or "/proofs/" in p and os.path.dirname(p).endswith("/proofs"):
            specs |= names
        else:
            local[p] = names
    specs -= taken
    bad = []
    changes = {}
    tables = {}
    # a lemma that would have its function's name gets `_lem`
    stand = set().union(*(declared(p) for p in files if "/specs/" in p)) - taken
    functions = {snake(n) for n in specs if "-" not in n}
    plain = {n for n in stand if not wants(n)}
    everywhere = {n: snake(n) + ("_lem" if "-" in n and (snake(n) in functions or snake(n) in plain and callable(n, files)) else "") for n in specs}
    everywhere.update({n: n + "_lem" for n in plain if n in functions})
    heard = collections.defaultdict(set)
    for n, s in everywhere.items():
        heard[s].add(n)
    for s, ns in sorted(heard.items()):
        if len(ns) > 1:
            bad.append(f"{' and '.join(sorted(ns))} would both be {s}")
    for p in files:
        table = dict(everywhere)
        table.update({n: snake(n) for n in local.get(p, ()) if n not in taken})
        text = open(p, encoding="utf-8").read()
        code = "\n".join(l for l in text.split("\n") if not re.match(r"\s*--", l))
        words = {m.group(0) for m in TOKEN.finditer(code) if code[m.start() - 1] != "."}
        for w in words:
            if w in table and table[w] in words and table[w] not in table:
                bad.append(f"{os.path.relpath(p, root)}: {w} would be {table[w]}, which stands there too")
        changes[p] = antt(text, table)
    for p in sorted(glob.glob(f"{root}/crates/*/src/**/*.rt", recursive=True)):
        changes[p] = rattle(open(p, encoding="utf-8").read(), everywhere)
    for p in sorted(glob.glob(f"{root}/crates/*/must-fail/*.edit")):
        changes[p] = "\n".join(change(l, everywhere) if re.match(r"(old|new): ", l) else l for l in open(p, encoding="utf-8").read().split("\n"))
    for p in sorted(glob.glob(f"{root}/*.md") + glob.glob(f"{root}/docs/*.md")):
        if not os.path.basename(p).startswith("PORT"):
            changes[p] = in_ticks(open(p, encoding="utf-8").read(), everywhere)
    if bad:
        print("\n".join(bad))
        return 1
    done = 0
    for p, text in changes.items():
        if text != open(p, encoding="utf-8").read():
            open(p, "w", encoding="utf-8").write(text)
            done += 1
    print(f"{len(everywhere)} names of specs/, {sum(len(v) for v in local.values())} of single proofs, in {done} files")
    return 0


if __name__ == "__main__":
    sys.exit(main(sys.argv[1] if len(sys.argv) > 1 else "."))
