#!/usr/bin/env python3
"""Respells the names of this repository's own definitions and lemmas: `price-of` becomes `price_of`, `Total-order` becomes `TotalOrder`.

usage: python3 tools/snake_names.py [ROOT]      (ROOT has crates/; run once, after the kit's own script)

Renamed are names that a file of specs/ or proofs/ declares (definitions, fields, constructors, lemmas, bound names), wherever they stand.
Names that the checker makes (of goals, calls and loops) and names that a file imports from the kit keep their spelling.
It stops, with nothing written, where two names would fall together in one file.
"""

import os
import re
import sys

TOKEN = re.compile(r"(?<![\w'·«-])[A-Za-z_][\w']*(?:-[\w']+)+(?![\w'·-])")
IDENT = r"[A-Za-z_][\w']*(?:-[\w']+)*"
MADE = re.compile(r"^(returns|loop|if|in|then|else|decreases|invariant|overflow|offset|index|residual|from-residual)-|-(requires|preserved|test|init)$")


def respelled(name):
    if name[0].isupper():
        return "".join(part[:1].upper() + part[1:] for part in name.split("-"))
    return name.replace("-", "_")


def files(root):
    for folder, dirs, names in os.walk(os.path.join(root, "crates")):
        dirs[:] = sorted(d for d in dirs if d != "out")
        for f in sorted(names):
            if f.endswith((".rt", ".antt", ".edit")):
                yield os.path.join(folder, f)


def is_function_proof(path):
    """Is this a proof of one function (answers, invariants), whose names are mostly made by the checker?"""
    return "/proofs/" in path and path.endswith(".antt") and "/" in path.split("/proofs/")[1]


def code(line, path):
    mark = "//" if path.endswith(".rt") else "--"
    return line.split(mark)[0] if path.endswith((".rt", ".antt")) else line


def declared(text, path):
    """The names that a file declares."""
    goals = set(re.findall(r"(?:goal|given)\.(" + IDENT + ")", text))
    out = set()
    for line in text.split("\n"):
        line = code(line, path)
        m = re.match(r"\s*(?:(?:abbrev|opaque|unfoldable|pub|instance)\s+)*(?:(?:record|data|module)\s+)?(" + IDENT + r")(?=\s|$)", line)
        if m and re.match(r".*?(?:\s:(?:\s|$)|\swhere)", line):
            head = line[: re.search(r"\s:(?:\s|$)|\swhere", line).start()]
            if re.search(r"\b(record|data)\s+$", head[: m.start(1)]) or " " not in head[m.end(1) :].strip():
                if not line.lstrip().startswith(("use ", "pub use ", "let ", "ghost ")):
                    out.add(m[1])
        for group in re.findall(r"[({]([^(){}:]+?) :\s", line) + re.findall(r"λ ([^.()]+)\.", line):
            out.update(w for w in group.split() if re.fullmatch(IDENT, w))
        out.update(re.findall(r"\blet (" + IDENT + r")(?= )", line))
    return {n for n in out if "-" in n and n not in goals}


def named_words(text):
    """The names that a file takes by use, from anywhere, as it calls them."""
    out = set()
    for m in re.finditer(r"\buse [\w.]+\.\{([^}]*)\}", text):
        out.update(part.split(" as ")[-1].strip() for part in m[1].split(","))
    return out


def declared_words(text, path):
    """The names without a hyphen that a file of specs or proofs declares at the left margin."""
    if not path.endswith(".antt"):
        return set()
    return set(re.findall(r"(?m)^(?:(?:abbrev|opaque|unfoldable|pub|record|data) )*([A-Za-z_][\w']*)(?= :|\s)", text))


def imported(text):
    """The names that a file takes from outside the repository's crates."""
    out = set()
    for m in re.finditer(r"\buse ([\w.]+)\.\{([^}]*)\}", text):
        if re.match(r"Rattle\.(?!std\b)", m[1]) and m[1].split(".")[1] in OWN:
            continue
        for part in m[2].split(","):
            out.update(part.split(" as ")[0].split())
    return out


def main(argv):
    global OWN
    root = argv[0] if argv else "."
    OWN = set(os.listdir(os.path.join(root, "crates")))
    paths = list(files(root))
    texts = {p: open(p, encoding="utf-8").read() for p in paths}
    everywhere, local = set(), {}
    aliases = {p: set(re.findall(r" as (" + IDENT + ")", texts[p])) for p in paths if not p.endswith(".edit")}
    for p in paths:
        if p.endswith(".antt"):
            names = declared(texts[p], p)
            if is_function_proof(p):
                local[p] = {n for n in names if not MADE.search(n)}
            else:
                everywhere |= names
    changes, bad = {}, []
    for p in paths:
        kept = imported(texts[p])
        goals = set(re.findall(r"(?:goal|given)\.(" + IDENT + ")", texts[p]))
        names = ((everywhere | local.get(p, set())) - kept | {n for n in aliases.get(p, set()) if "-" in n}) - (goals if is_function_proof(p) else set())
        proof = is_function_proof(p)

        def turn(m, names=names, proof=proof, text=texts[p]):
            name = m[0]
            if name not in names:
                return name
            # in a function's proof `c.name` is a call that the checker named
            if proof and re.search(r"\bc\.$", text[max(0, m.start() - 2) : m.start()]):
                return name
            return respelled(name)

        lines, new = texts[p].split("\n"), []
        mark = "//" if p.endswith(".rt") else "--" if p.endswith(".antt") else None
        whole = TOKEN.sub(turn, texts[p])
        # comments keep their words
        if mark:
            for old, now in zip(lines, whole.split("\n")):
                if mark in old:
                    i = old.index(mark)
                    j = now.index(mark)
                    now = now[:j] + old[i:]
                new.append(now)
            whole = "\n".join(new)
        if whole != texts[p]:
            before = set(re.findall(IDENT, "\n".join(code(l, p) for l in lines)))
            # a word of a contract may have the name of a function or a field, but not of another word
            words = declared_words(texts[p], p) | named_words(texts[p])
            for n in sorted(names):
                if n in before and respelled(n) in words:
                    bad.append(f"{p}: {n} and {respelled(n)}")
            changes[p] = whole
    if bad:
        print("\n".join(bad))
        return 1
    for p, t in changes.items():
        with open(p, "w", encoding="utf-8") as f:
            f.write(t)
    print(f"{len(changes)} files respelled")
    return 0


if __name__ == "__main__":
    raise SystemExit(main(sys.argv[1:]))
