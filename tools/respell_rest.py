#!/usr/bin/env python3
"""The names in camel case that tools/respell.py left, since they are declared inside a module block or by `as`: opTurn -> op_turn.
Three lemmas that would fall together with a definition get _lem: named_step, run_end and left_by. Run once, at the top, after
respell.py and rename_log.py. In crates/, the edits and the pages that name them."""

import glob
import re

CAMEL = r"(?<![\w'])[a-z][a-z0-9]*(?:[A-Z][a-z0-9]*)+(?![\w'])"
LEMMAS = {"named_step": "crates/*/proofs/**/*.antt", "run_end": "crates/claims/proofs/*.antt", "left_by": "crates/told/proofs/Left.antt"}


def snake(word):
    return "_".join(p.lower() for p in re.findall(r"[a-z][a-z0-9]*|[A-Z][a-z0-9]*", word))


def over(files, turn):
    for f in files:
        with open(f, encoding="utf-8") as it:
            text = it.read()
        new = turn(text)
        if new != text:
            with open(f, "w", encoding="utf-8") as it:
                it.write(new)


def main():
    antt = [f for k in ("specs", "proofs") for f in glob.glob(f"crates/*/{k}/**/*.antt", recursive=True)]
    rt = glob.glob("crates/*/src/**/*.rt", recursive=True)
    edits = glob.glob("crates/*/must-fail/*.edit")
    pages = ["README.md"] + glob.glob("docs/**/*.md", recursive=True)
    names = set()
    for f in antt + rt:
        with open(f, encoding="utf-8") as it:
            names |= set(re.findall(CAMEL, re.sub(r"(--|//)[^\n]*", "", it.read())))
    for name, where in LEMMAS.items():
        over(glob.glob(where, recursive=True), lambda t: re.sub(rf"(?<![\w'-]){name}(?![\w'-])", name + "_lem", t))
    over(antt + rt + edits + pages, lambda t: re.sub(CAMEL, lambda m: snake(m[0]) if m[0] in names else m[0], t))


main()
