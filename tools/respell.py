#!/usr/bin/env python3
"""Brings this repository's own definitions and lemmas to the spelling of today's Rattle, after the kit's port.py has run.

usage: python3 tools/respell.py        at the top, once, with everything committed

 1. A definition, lemma, field or constructor in camel case is in snake case: headerOk -> header_ok, rankSum-most -> rank_sum-most.
    Three lemmas that would fall together with a definition get _lem: held_in, none_left and held_to.
 2. The module specs.inner is specs.Inner.
 3. In a Proof.antt the names that Rattle makes keep the spelling of the source: c.check-held -> c.check_held, held-sets-spec -> held_sets_spec,
    tie.Need-overflow-add-i -> tie.Need-overflow_add-i.
 4. Each crate's root has #![tactic(auto)].
 5. The structs and enums, all of numbers, arrays of them and one another, derive Clone and Copy: they were copied before without a word.

Contracts, definitions and what they say stay as they were. Functions of src/, strings, inputs and outputs keep their names.
"""

import glob
import os
import re
import subprocess

LEMMAS = {  # a lemma whose name a definition gets: the files in which it is the lemma
    "held_in": ["crates/told/proofs/OrderLocks.antt"],
    "none_left": ["crates/told/proofs/EveryOrder.antt"],
    "held_to": ["crates/section/proofs/Left.antt", "crates/section/proofs/Filled.antt"],
}
CAMEL = re.compile(r"[a-z][a-z0-9]*(?:[A-Z][a-z0-9]*)+$")
NAME = r"[^\s(){}\[\],;.:=λ∷×→⊎∙]+"
OWN = "type-inv|well-formed|view-is|loan-name|yielded-by|len-below|loop-test"


def antt(kinds=("specs", "proofs")):
    return sorted(f for k in kinds for f in glob.glob(f"crates/*/{k}/**/*.antt", recursive=True))


def rt():
    return sorted(glob.glob("crates/*/src/**/*.rt", recursive=True))


def read(path):
    with open(path, encoding="utf-8") as f:
        return f.read()


def write(path, text):
    if text != read(path):
        with open(path, "w", encoding="utf-8") as f:
            f.write(text)


def snake(word):
    return "_".join(p.lower() for p in re.findall(r"[a-z][a-z0-9]*|[A-Z][a-z0-9]*", word))


def respelled(name):
    return "".join(snake(s) if CAMEL.match(s) else s for s in re.split("(-)", name))


def declared():
    """Names declared in the files, by their new spelling where that differs."""
    out = {}
    for f in antt():
        for line in read(f).split("\n"):
            if line.startswith("--"):
                continue
            m = re.match(r"(?:(?:abbrev|unfoldable|pub|data|record)\s+)*(" + NAME + ")", line)
            if m and not line[:1].isspace() and respelled(m[1]) != m[1]:
                out[m[1]] = respelled(m[1])
            m = re.match(r"  (?:pub )?(" + NAME + ") :", line)
            if m and respelled(m[1]) != m[1]:
                out[m[1]] = respelled(m[1])
    return out


def lemmas():
    for name, files in LEMMAS.items():
        for f in files:
            write(f, re.sub(r"(?<![\w'-])" + name + r"(?![\w'-])", name + "_lem", read(f)))


def words(names):
    each = re.compile(r"(?<![\w'-])(" + "|".join(sorted(map(re.escape, names), key=len, reverse=True)) + r")(?![\w'-])")
    for f in antt() + rt() + sorted(glob.glob("crates/*/must-fail/*.edit")):
        write(f, each.sub(lambda m: names[m[1]], read(f)))


def inner():
    for f in antt() + rt() + sorted(glob.glob("crates/*/must-fail/*.edit")):
        t = re.sub(r"\bspecs\.inner\b", "specs.Inner", read(f))
        t = re.sub(r"\bspecs/inner\b", "specs/Inner", t)
        if re.search(r"crates/\w+/specs/Lib\.antt$", f):
            t = re.sub(r"(?m)^(pub )?mod inner$", r"\1mod Inner", t)
        write(f, t)
    for f in sorted(glob.glob("crates/*/specs/inner.antt")) + sorted(glob.glob("crates/*/specs/inner")):
        subprocess.run(["git", "mv", f, f.replace("specs/inner", "specs/Inner")], check=True)


def source_names():
    out = set()
    for f in rt():
        out |= {w for w in re.findall(r"\b[a-z][a-z0-9]*(?:_[a-z0-9]+)+\b", read(f))}
    return {w.replace("_", "-"): w for w in out}


def proofs():
    made = source_names()
    each = re.compile(r"(?<![\w'])(" + "|".join(sorted(map(re.escape, made), key=len, reverse=True)) + r")(?![\w'])")
    own = re.compile(r"(?<![\w'])(" + OWN + r")(?![\w'])")
    for f in antt(("proofs",)):
        if not f.endswith("/Proof.antt"):
            continue
        fn = f.split("/")[-2]
        t = read(f)

        def field(m):
            kept = []
            s = own.sub(lambda k: kept.append(k[1]) or f"\0{len(kept) - 1}\0", m[0])
            s = re.sub(r"(?<=-)(overflow|nonzero)-", r"\1_", s)
            s = re.sub(r"^(\.)(overflow|nonzero)-", r"\1\2_", s)
            s = each.sub(lambda k: made[k[1]], s)
            return re.sub("\0(\\d+)\0", lambda k: kept[int(k[1])], s)

        t = re.sub(r"(?<=[\w)])\.(?:Need-)?[A-Za-z][\w'-]*-[\w'-]+", field, t)
        t = re.sub(r"(?<![\w'-])" + fn.replace("_", "-") + r"-spec(?![\w'-])", fn + "_spec", t)
        write(f, t)


def roots():
    for f in sorted(glob.glob("crates/*/src/lib.rt") + glob.glob("crates/*/src/main.rt")):
        t = read(f)
        if "#![tactic(auto)]" not in t:
            m = re.match(r"(?:(?://[^\n]*)?\n)*", t)
            write(f, t[: m.end()].rstrip("\n") + ("\n" if m.end() else "") + "#![tactic(auto)]\n" + t[m.end():])


def derives():
    for f in rt():
        write(f, read(f).replace("#[derive(Drop)]\n", "#[derive(Clone, Copy)]\n"))


def main():
    lemmas()
    words(declared())
    inner()
    proofs()
    roots()
    derives()


if __name__ == "__main__":
    os.chdir(subprocess.run(["git", "rev-parse", "--show-toplevel"], capture_output=True, text=True, check=True).stdout.strip())
    main()
