#!/usr/bin/env python3
"""Respells the repository's own definitions and lemmas: words in snake case, facts and types in camel case.

usage: python3 tools/respell.py     at the top of the repository, once, after the toolchain's own script

A name in camel case becomes snake case. A dash stays where a lemma's name joins names of definitions, and is a `_` in
fields and where it joins plain words; a fact's name loses its dashes. What is imported under the plain word `All` keeps
its own name. Names that the check makes of the source (the goals of proofs/F/) stay.
It stops, with nothing written, where a new name stands already or two names fall together.
"""

import collections
import glob
import os
import re
import sys

WORD = "[A-Za-z0-9_'\u2080-\u2089\u2115\u2124-]"
DEFINED = re.compile(r"^ *(?:(?:abbrev|unfoldable|ruleset) +)?(?:pub +)?(?:(?:record|data|abbrev) +)?(?:pub +)?([^\s(){}:,;.]+)(?: \([^:\n]*:[^)\n]*\)| \{[^:\n]*:[^}\n]*\})* : ", re.M)
TYPED = re.compile(r"^ *(?:pub +)?(?:record|data) +([^\s(){}:,;.]+)", re.M)

# Names whose plain respelling says something else, or stands already.
CHOSEN = {
    "allPass": "pass_all", "anItem": "as_item", "any-key": "any_key_lem", "firstFault": "first_fault_of",
    "inClass": "inside_class", "is-key": "is_key_lem", "is-mark": "is_mark_lem", "is-run": "is_run_lem",
    "itemsAt": "items_from", "keptIn": "kept_by", "layRule": "rule_laid", "letterPrice": "price_of_letter",
    "lettersPrice": "price_of_letters", "motif-names": "motif_names_lem", "or-none": "or_none_lem",
    "read-from": "read_from_lem", "readJob": "job_read", "rowLarge": "is_row_large", "ruleAt": "rule_numbered",
    "rule-names": "rule_names_lem", "someLarge": "is_some_large", "takeBoxes": "with_boxes_taken",
    "takeLine": "with_line_taken", "takeMark": "with_mark_taken", "takeMotif": "with_motif_taken",
    "takeRule": "with_rule_taken", "ladder-page": "ladder_page_read",
}

# Plain words that are names of definitions too.
PLAIN = {"in", "out", "so", "is", "at", "on", "not", "with", "of", "to", "by", "the", "all", "from", "again"}

# Goals that the check names after the source, and fields of its own.
MADE = re.compile(r"^(returns|loop|invariant|invariant_of|decreases|overflow|overflow_\w+|bounds|offset|offset_bounds|slice_bounds|nonzero_\w+|on|unreachable|measure|prove)-|-requires\b|^(unreachable)$")

# Names of the library that a lemma's name may join.
LIBRARY = {"append", "map", "length", "take", "drop", "push", "pop", "replicate", "set", "sum", "get_or", "cons", "concat"}


def files():
    for kind in ("specs", "proofs"):
        yield from sorted(glob.glob(f"crates/*/{kind}/**/*.antt", recursive=True))


def is_goal_file(path):
    return "/proofs/" in path and path.split("/proofs/")[1].count("/") > 0


def snake(word):
    if word == word.upper():
        return word
    word = word.replace("countZ", "count_z").replace("getD", "get_or")
    return re.sub(r"(?<=[a-z0-9])([A-Z])", lambda m: "_" + m.group(1).lower(), word)


def fields():
    """The dashed names of fields and constructors, which the lines under `record` or `data` declare."""
    found = set()
    for path in files():
        inside = False
        with open(path, encoding="utf-8") as f:
            for line in f:
                if re.match(r"^ *(pub )?(record|data) ", line):
                    inside = True
                    continue
                m = re.match(r"^ +(?:pub )?([^\s(){}:,;.]+)(?: \([^:]*:[^)]*\))* : ", line)
                if inside and m and "-" in m.group(1):
                    found.add(m.group(1))
                inside = inside and line.startswith(" ")
    return found


def respelled(name, known, members):
    if name in CHOSEN:
        return CHOSEN[name]
    if name[0].isupper():
        parts = name.split("-")
        return parts[0] + "".join(p[:1].upper() + p[1:] for p in parts[1:])
    parts = name.split("-")
    joins = name not in members and all((p in known or p in LIBRARY) and p not in PLAIN for p in parts)
    return ("-" if joins else "_").join(snake(p) for p in parts)


def renames():
    found = collections.defaultdict(set)
    for path in files():
        with open(path, encoding="utf-8") as f:
            text = f.read()
        for m in list(DEFINED.finditer(text)) + list(TYPED.finditer(text)):
            found[m.group(1)].add(path)
    plain = {n for n in found if "-" not in n}
    members = fields()
    chosen = {}
    for name, where in found.items():
        if "-" in name and all(is_goal_file(p) for p in where) and MADE.search(name):
            continue
        new = respelled(name, plain, members)
        if new != name:
            chosen[name] = new
    return chosen


def by_its_name(text):
    """The library's test of every item by recursion under its own name: `All` means the library's own in every clause."""
    if "AllByRecursion as All}" not in text and "AllByRecursion as All," not in text:
        return text
    text = text.replace("AllByRecursion as All", "AllByRecursion")
    return re.sub(r"(?<![\w'.-])All(?![\w'-])", "AllByRecursion", text)


def turned(text, chosen, code):
    text = by_its_name(text)
    if not chosen:
        return text
    names = sorted(chosen, key=len, reverse=True)
    pattern = re.compile(r"(?<!" + WORD + r")(" + "|".join(re.escape(n) for n in names) + r")(?!" + WORD + r")")

    def line(l):
        if code and l.lstrip().startswith("//"):
            return re.sub(pattern, lambda m: m.group(1) if "-" in m.group(1) else chosen[m.group(1)], l)
        return re.sub(pattern, lambda m: chosen[m.group(1)], l)

    return "".join(line(l) for l in text.splitlines(keepends=True))


def main():
    if not os.path.isdir("crates"):
        sys.exit("respell: run it at the top of the repository")
    chosen = renames()
    others = sorted(glob.glob("crates/*/src/**/*.rt", recursive=True)) + sorted(glob.glob("crates/*/must-fail/*.edit"))
    texts = {p: open(p, encoding="utf-8").read() for p in list(files()) + others}
    every = collections.Counter(re.findall(WORD + "+", "\n".join(t for p, t in texts.items() if p.endswith(".antt"))))
    bad = [f"{n} -> {w}: stands already" for n, w in chosen.items() if every[w]]
    together = collections.defaultdict(list)
    for n, w in chosen.items():
        together[w].append(n)
    bad += [f"{', '.join(ns)} -> {w}" for w, ns in together.items() if len(ns) > 1]
    if "--list" in sys.argv:
        print("\n".join(f"{n} {w}" for n, w in sorted(chosen.items())))
    if bad:
        sys.exit("respell: nothing was written\n" + "\n".join(sorted(bad)))
    if "--list" in sys.argv:
        return
    count = 0
    for path, text in texts.items():
        new = turned(text, chosen, path.endswith(".rt"))
        if new != text:
            count += 1
            with open(path, "w", encoding="utf-8") as f:
                f.write(new)
    print(f"respell: {len(chosen)} names, {count} files")


main()
