#!/usr/bin/env python3
"""Brings the names of goals and steps in a crate's function proofs to the checker's spelling: `returns-in-err-ms` becomes `returns-in_err-ms`.

usage: python3 tools/goal_names.py CRATE..      (at the top; `rt check --generated` says the names that are made today)

A name in proofs/F/ that the checker does not make today is replaced by the one that it makes and that differs in dashes alone.
"""

import json
import os
import re
import subprocess
import sys
import tempfile

TOKEN = re.compile(r"(?<![\w'·«-])[A-Za-z_][\w']*(?:-[\w']+)*(?![\w'·])")


def strings(it, out):
    if isinstance(it, str):
        out.add(it)
    elif isinstance(it, list):
        for x in it:
            strings(x, out)
    elif isinstance(it, dict):
        for k, x in it.items():
            out.add(k)
            strings(x, out)
    return out


def plain(name):
    return name.replace("_", "-").lower()


def turn(root, crate):
    base = os.path.join(root, "crates", crate)
    with tempfile.TemporaryDirectory() as d:
        subprocess.run(["rt", "check", "--generated", d, "--old-names"], cwd=base, capture_output=True)
        made = json.load(open(os.path.join(d, "names.json")))
    n = 0
    for folder, dirs, files in os.walk(os.path.join(base, "proofs")):
        rel = os.path.relpath(folder, os.path.join(base, "proofs"))
        known = made.get(f"Rattle-{crate}-proofs.{rel.replace(os.sep, '.')}.Lts")
        if rel == "." or known is None:
            if rel != "." and any(f.endswith(".antt") for f in files):
                print(f"{crate}: the checker makes no names for {rel}")
            continue
        names = strings(known, set())
        names |= {f"{w}-{x}" for x in names for w in ("invariant", "decreases") if x.startswith("loop")}
        names |= {f"{x}-{w}" for x in set(names) for w in ("preserved", "init", "test", "smaller") if x.startswith("loop")}
        names |= {"type_inv", "field-0", "field-1"}
        by = {}
        for x in sorted(names):
            by.setdefault(plain(x), set()).add(x)
        for f in files:
            if not f.endswith(".antt"):
                continue
            path = os.path.join(folder, f)
            text = open(path, encoding="utf-8").read()

            def name(m):
                t = m[0]
                if "-" not in t or t in names or "use " in text[text.rfind("\n", 0, m.start()) + 1 : m.start()]:
                    return t
                to = {x for x in by.get(plain(t), ()) if x[:1].isupper() == t[:1].isupper()}
                return to.pop() if len(to) == 1 else t

            new = TOKEN.sub(name, text)
            if new != text:
                n += 1
                open(path, "w", encoding="utf-8").write(new)
    print(f"{crate}: {n} files")


if __name__ == "__main__":
    for c in sys.argv[1:]:
        turn(".", c)
