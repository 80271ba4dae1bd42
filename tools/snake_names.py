#!/usr/bin/env python3
"""Respells the repository's own ghost names: words of specs/ in snake case, and in proofs/ a dash only between two names.

usage: python3 tools/snake_names.py [--dry]      at the top of the repository

A definition or record field of specs/ has each dash turned to an underscore. A lemma of proofs/ keeps a dash that joins
two words that stand on their own (names of specs/ or of the library), as in length-directory, and has an underscore for
every other one. Names that the toolchain makes, as loop-i-preserved, are no definitions of ours and stay.
"""
import glob
import os
import re
import sys

NAME = r"[A-Za-z_][\w']*(?:-[\w']+)+"
TOKEN = re.compile(r"(?<![\w'\-])[A-Za-z_][\w']*(?:-[\w']+)*(?![\w'\-])")
DEFINED = re.compile(r"^( *)(abbrev |unfoldable )?(?:pub )?(" + NAME + r")\s*:(?!:)", re.M)
WORDS = set("""length take drop get_or map sum sum_by append reverse fold concat insert set all any min max pow mul add sub
div mod mod_ cond le lt eq ltb leb nat_le nat_lt nat_eq suc zero cons nil true false some none ok err bits""".split())
# where the plain respelling falls together with another name of a file, or says too little
BY_HAND = {"grid-outcome": "outcome_of_grid", "low-and-mark": "low_with_mark", "cell-of": "cell_of_joined", "getD-weave": "get_or-weave", "sum-marks-append": "sum-marks-append"}


def read(p):
    with open(p, encoding="utf-8") as f:
        return f.read()


def main():
    dry = "--dry" in sys.argv
    files = sorted(p for p in glob.glob("crates/**/*", recursive=True) if p.endswith((".rt", ".antt")) and "/out/" not in p)
    specs, lemmas = set(), set()
    for p in files:
        if not p.endswith(".antt"):
            continue
        top = p.split("/")
        for indent, mark, n in DEFINED.findall(read(p)):
            if top[2] == "specs" and (mark or indent):
                specs.add(n)
            elif top[2] == "specs":
                lemmas.add(n)
            elif len(top) == 4 or os.path.basename(p) in ("Answers.antt", "Choices.antt", "Invariants.antt", "Proof.antt"):
                lemmas.add(n)
    lemmas -= specs
    # goals and invariants that the toolchain names
    made = re.compile(r"^(?:returns|loop|invariant|decreases|overflow|bounds|slice_bounds|nonzero|ghost|prove|in|then|else|if|offset_bounds)[-_]|-requires|-init$|-preserved$|-smaller$")
    answers = set()
    for p in files:
        if os.path.basename(p) in ("Answers.antt", "Choices.antt", "Invariants.antt"):
            t = read(p)
            for m in re.finditer(r"^(?:abbrev )?pub (" + NAME + r")\s*:\s*(?:goal|need|given)\b", t, re.M):
                answers.add(m.group(1))
    lemmas -= answers
    snake = {n: n.replace("-", "_") for n in specs}
    known = {v for v in snake.values()} | WORDS
    for p in files:
        if p.split("/")[2] == "specs":
            known |= set(re.findall(r"^ *(?:abbrev |unfoldable )(?:pub )?([a-z][\w']*)\s*:", read(p), re.M))
    turned = dict(snake)
    for n in lemmas:
        parts = n.replace("getD", "get_or").split("-")
        out, i = [], 0
        while i < len(parts):
            j = len(parts)
            while j > i + 1 and "_".join(parts[i:j]) not in known:
                j -= 1
            out.append("_".join(parts[i:j]))
            i = j
        new = out[0]
        for left, right in zip(out, out[1:]):
            new += ("-" if left in known and right in known else "_") + right
        if new != n:
            turned[n] = new
    turned.update(BY_HAND)
    # names that would fall together
    for p in files:
        t = read(p)
        tokens = set(TOKEN.findall(t))
        used = [n for n in tokens if n in turned]
        for n in used:
            if turned[n] != n and turned[n] in tokens or sum(turned[m] == turned[n] for m in used) > 1:
                print(f"together: {p}: {n} -> {turned[n]}")
    if dry:
        for n in sorted(turned):
            print(n, turned[n])
        return
    for p in files:
        t = read(p)
        new = TOKEN.sub(lambda m: turned.get(m.group(0), m.group(0)), t)
        if new != t:
            with open(p, "w", encoding="utf-8") as f:
                f.write(new)
    print(f"{len(turned)} names")


main()
