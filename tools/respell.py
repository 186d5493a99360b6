#!/usr/bin/env python3
# SPDX-License-Identifier: MPL-2.0
"""Brings the names of definitions and lemmas to the Rattle kit's spelling: words in snake case (badType becomes bad_type), parts of a lemma's
name joined by a dash, types, records and facts in upper camel case. Run once, after the kit's own script, over a checkout as that left it.

usage: tools/respell.py            rewrites the files
       tools/respell.py --list     prints 'old new' for each name, and the names that fall together
"""
import glob
import os
import re
import sys

DECLARED = re.compile(r"^ *(?:pub )?(?:(?:unfoldable|abbrev|data|record|ruleset) )?(?:pub )?([^\s:(){},=.;]+)(?: [^:]*)? :(?: |$)")
TOKEN = re.compile(r"[^\s(){}\[\],.;:`\"'|<>/=*+!&?#@$%^~\\→λ≡≤×∷⌜⌝]+(?:-[^\s(){}\[\],.;:`\"'|<>/=*+!&?#@$%^~\\→λ≡≤×∷⌜⌝]+)*")

# The labels that the kit's script gave to clauses on a '&mut': working_after and others are names of definitions too.
LABEL = re.compile(r"(ensures ?\.?)([a-z]+)_after\b( \{)?")


def spelled(name):
    """The name with each part that begins small in snake case."""
    parts = []
    for part in name.split("-"):
        if part[:1].islower():
            part = re.sub(r"([a-z0-9])([A-Z])", lambda m: m.group(1) + "_" + m.group(2).lower(), part)
        parts.append(part)
    return "-".join(parts)


def antt_files():
    return sorted(glob.glob("crates/*/specs/**/*.antt", recursive=True) + glob.glob("crates/*/proofs/**/*.antt", recursive=True))


def read(path):
    with open(path, encoding="utf-8", newline="") as f:
        return f.read()


def all_files():
    more = glob.glob("crates/*/src/**/*.rt", recursive=True) + glob.glob("crates/*/must-fail/*.edit") + glob.glob("crates/*/edits/*.edit")
    more += ["README.md", "CONTRIBUTING.md"] + glob.glob("docs/**/*.md", recursive=True) + glob.glob("include/*.h")
    for top in ("tests", "tools", "host", "benchmark", "samples"):
        more += [p for p in glob.glob(top + "/**/*", recursive=True) if os.path.isfile(p)]
    skip = {"docs/02-change-requests.md", "tools/respell.py"}
    return sorted(p for p in set(antt_files() + more) if p not in skip and "/target/" not in p)


def main():
    names = {}
    for path in antt_files():
        for line in read(path).split("\n"):
            m = DECLARED.match(line)
            if m and not line.lstrip().startswith(("--", "use ", "let ", "in ")):
                names.setdefault(m.group(1), path)
    turned = {n: spelled(n) for n in names if spelled(n) != n}
    tokens = {}
    for path in all_files():
        if path.endswith((".antt", ".rt")):
            for t in TOKEN.findall(read(path)):
                tokens.setdefault(t, set()).add(path)
    if "--list" in sys.argv:
        for old, new in sorted(turned.items()):
            print(old, new, "FALLS TOGETHER in " + " ".join(sorted(tokens[new])[:6]) if new in tokens else "")
        return
    for path in all_files():
        try:
            text = read(path)
        except UnicodeDecodeError:
            continue
        made = text
        if path.endswith((".rt", ".antt", ".edit")):
            made = LABEL.sub(r"\1new_\2\3", made)
        made = TOKEN.sub(lambda m: turned.get(m.group(0), m.group(0)), made)
        if made != text:
            with open(path, "w", encoding="utf-8", newline="") as f:
                f.write(made)


main()
