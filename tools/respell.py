#!/usr/bin/env python3
"""Spells the repository's own definitions and lemmas as the library's are: words in snake case, types and modules in camel case.

usage: python3 tools/respell.py [--list]      at the top of the repository, once, on what port.py left

A definition `headerBytes` becomes `header_bytes`, a lemma `number-of-bytes` becomes `number_of_bytes`, and `bytesOf-length`, a definition
and what is said of it, `bytes_of-length`. Functions of src/, exported names, strings, must-fail edits' names, inputs and outputs keep theirs.
"""
import collections
import glob
import os
import re
import sys

IDENT = r"[A-Za-z_][\w'\-]*"
TOKEN = re.compile(r"(?<![\w'\-])" + IDENT)
RULESET = re.compile(r"\s*(?:pub\s+)?ruleset\s+(" + IDENT + r")\s*=")
# Fields that stand beside what they are named after.
FIELDS = set("kept-size queued-originators queued-lengths queued-payloads held-originators held-lengths held-payloads past-originators past-lengths past-payloads".split())
# Lemmas that have the name which a definition gets, by the crates (or the file) that cite them.
LEMMAS = {
    "entry_in": ["history/", "sequencer/", "sequencer_calls/", "inspection/"],
    "length_before": ["plan/"],
    "counts_of": ["reset/proofs/Able.antt"],
    "fresh_kept": ["reset/"],
    "laid_by": ["sequencer/proofs/View.antt"],
    "no_member": ["simulator/"],
    "not_opened": ["terminal_opening/"],
    "take_past": ["longest/"],
}


# The library has `if .. then .. else` for another definition than the repository's own, which reads `when .. then .. else`.
CHOICES = re.compile(r"(?<![\w'\-.])if_(append|both|either|elim|eq|eq_of|false|false_of|first|le|lt|ne|ne_of|nle|nlt|other|same|true|true_of|was)(?![\w'\-])")


def chosen(line):
    line = line.replace("if◌then◌else◌", "when◌then◌else◌")
    return CHOICES.sub(r"when_\1", re.sub(r"(?<![\w'\-.◌])if(?= )", "when", line))


def snake(name):
    parts = []
    for part in name.split("-"):
        if part[:1].islower():
            part = re.sub(r"(?<=[a-z0-9₀-₉'])([A-Z])", lambda m: "_" + m.group(1).lower(), part)
            part = re.sub(r"([A-Z])", lambda m: m.group(1).lower(), part)
        parts.append(part)
    joint = "-" if any(a != b for a, b in zip(parts, name.split("-"))) or any(p[:1].isupper() for p in parts) else "_"
    return joint.join(parts)


def antt(top):
    files = glob.glob(top + "/crates/*/specs/**/*.antt", recursive=True) + glob.glob(top + "/crates/*/proofs/**/*.antt", recursive=True)
    return sorted(f for f in files if "/out/" not in f)


def walked(path):
    """A file of the proof of one function."""
    return bool(re.search(r"/proofs/.+/(Proof|Answers|Invariants)\.antt$", path))


def names(top):
    found = collections.defaultdict(set)
    for path in antt(top):
        with open(path) as f:
            for line in f:
                if line.lstrip().startswith("--") or "tie." in line or "statement M" in line:
                    continue
                m = RULESET.match(line) or re.match(r"\s*(?:(?:abbrev|unfoldable|pub|instance)\s+)*(" + IDENT + r")\s*:\s", line + " ")
                if m:
                    found[m.group(1)].add(path)
                elif not walked(path):
                    # constructors and fields on one line, as `| a : T`
                    m = re.match(r"\s*\|\s*(" + IDENT + r")\s*:", line)
                    if m:
                        found[m.group(1)].add(path)
    return found


def main():
    top = os.getcwd()
    defined = names(top)
    edits = {os.path.basename(p)[:-5] for p in glob.glob(top + "/crates/*/must-fail/*.edit")}
    every = set()
    for path in antt(top):
        with open(path) as f:
            every |= set(TOKEN.findall(f.read()))
    table = {}
    for name in sorted(defined):
        new = snake(name)
        if not name.startswith("_") and new != name:
            table[name] = new
    definitions = {b for a, b in table.items() if "-" not in a}
    for name, new in table.items():
        if "-" in name and name not in FIELDS and (new in definitions or new in every):
            table[name] = new + "_lem"
    back = collections.defaultdict(set)
    for a, b in table.items():
        back[b].add(a)
    if "--list" in sys.argv:
        for b, olds in sorted(back.items()):
            if len(olds) > 1 or b in every:
                print("falls together:", b, "<-", " ".join(sorted(olds)), "(is there)" if b in every else "", *sorted({p[len(top) + 8:] for o in olds for p in defined[o]})[:3])
        for a in sorted(table):
            if re.search(r"^(loop|if|in|returns|overflow|bounds|slice_bounds|then|else|match)-|-(requires|init|preserved|smaller|test|clause|result)$", a):
                print("like a made name:", a, table[a])
            if a in edits:
                print("like an edit:", a)
        print(len(table), "names")
        return
    camel = {a: b for a, b in table.items() if "-" not in a}
    turned = 0

    def turn(text, words):
        return TOKEN.sub(lambda m: words.get(m.group(0), m.group(0)), text)

    def line_of(line, path):
        for word, where in LEMMAS.items():
            if path.endswith(".antt") and "/proofs/" in path and any("/crates/" + w in path for w in where):
                line = re.sub(r"(?<![\w'\-.])" + word + r"(?![\w'\-])(?!\.)", word + "_lem", line)
        if path.endswith(".antt"):
            code, dash, said = line.partition("-- ") if not line.lstrip().startswith("--") else ("", "", line)
            return chosen(turn(code, table)) + dash + turn(said, camel)
        if path.endswith(".rt"):
            if line.lstrip().startswith("//"):
                return turn(line, camel)
            if re.match(r"\s*(ghost|requires|ensures)\b", line) or "≡" in line:
                line = turn(line, table)
                return chosen(line) if re.match(r"\s*ghost\b", line) or re.search(r"\bif\b.* then .* else ", line) else line
            return line
        return line

    for path in antt(top) + sorted(glob.glob(top + "/crates/*/src/**/*.rt", recursive=True)):
        with open(path) as f:
            old = f.read()
        new = "\n".join(line_of(l, path) for l in old.split("\n"))
        if new != old:
            turned += 1
            with open(path, "w") as f:
                f.write(new)
    for path in sorted(glob.glob(top + "/crates/*/must-fail/*.edit")):
        with open(path) as f:
            old = f.read()
        words = table if ".antt" in old.split("\n", 1)[0] else camel
        lines = [turn(l, words) if re.match(r"(old|new):", l) else l for l in old.split("\n")]
        new = "\n".join(chosen(l) if l[:4] in ("old:", "new:") and (words is table or re.search(r"\bif\b.* then ", l)) else l for l in lines)
        if new != old:
            turned += 1
            with open(path, "w") as f:
                f.write(new)
    ticked = re.compile(r"`[^`\n]*`")
    for path in [top + "/README.md"] + sorted(glob.glob(top + "/docs/**/*.md", recursive=True)):
        with open(path) as f:
            old = f.read()
        words = {a: b for a, b in table.items() if a not in edits}
        new = ticked.sub(lambda m: turn(m.group(0), words), old)
        if new != old:
            turned += 1
            with open(path, "w") as f:
                f.write(new)
    print(len(table), "names,", turned, "files")


main()
