#!/usr/bin/env python3
"""Counts, in src/, the places that read like an older language, by the points of docs/DESIGN-PASS.md.

    tools/forms.py [COMMIT] [--list POINT]

counts them in the checkout or at a commit; with --list it prints each place of a point as FILE:LINE.
"""
import collections
import re
import subprocess
import sys


def files(commit):
    """Each source file of crates/, with its text."""
    if commit:
        names = subprocess.run(["git", "ls-tree", "-r", "--name-only", commit, "crates"], capture_output=True, text=True, check=True)
        for name in names.stdout.split("\n"):
            if re.fullmatch(r"crates/\w+/src/\w+\.rt", name):
                yield name, subprocess.run(["git", "show", f"{commit}:{name}"], capture_output=True, text=True, check=True).stdout
    else:
        names = subprocess.run(["git", "ls-files", "crates"], capture_output=True, text=True, check=True)
        for name in names.stdout.split("\n"):
            if re.fullmatch(r"crates/\w+/src/\w+\.rt", name):
                try:
                    yield name, open(name, encoding="utf-8").read()
                except FileNotFoundError:
                    pass


class Function:
    def __init__(self, name, line, comment, head, clauses, body):
        self.name, self.line, self.comment, self.head, self.clauses, self.body = name, line, comment, head, clauses, body

    def parameters(self):
        inner = self.head[self.head.find("(") + 1:]
        depth, parts, part = 0, [], ""
        for c in inner:
            if c in "([<":
                depth += 1
            if c in ")]>":
                if c == ")" and depth == 0:
                    break
                depth -= 1
            if c == "," and depth == 0:
                parts.append(part)
                part = ""
            else:
                part += c
        parts.append(part)
        return [p.strip() for p in parts if p.strip()]


def functions(text):
    lines = text.split("\n")
    comment = []
    for k, line in enumerate(lines):
        if line.lstrip().startswith("//"):
            comment.append(line.strip())
            continue
        m = re.match(r"(\s*)(?:pub )?(?:extern \"C\" )?(?:const )?fn (\w+)", line)
        if m:
            end = next((j for j in range(k, len(lines)) if lines[j] == m.group(1) + "}" or (j == k and line.endswith("}"))), k)
            whole = lines[k:end + 1]
            head, clauses, body, state = [], [], [], "head"
            for j, l in enumerate(whole):
                if state != "body" and re.match(r"\s*(requires|ensures)\b", l):
                    state = "clauses"
                if state == "clauses" and l == m.group(1) + "{":
                    state = "body"
                if state == "head":
                    head.append(l)
                    if l.endswith("{"):
                        state = "body"
                elif state == "clauses":
                    clauses.append(l)
                else:
                    body.append(l)
            yield Function(m.group(2), k + 1, " ".join(comment), "\n".join(head), clauses, body)
        if not line.lstrip().startswith("#["):
            comment = []


def enums(text):
    for m in re.finditer(r"^(?:pub )?enum (\w+)(?:<[^>]*>)? \{\n(.*?)^\}", text, re.M | re.S):
        variants, depth = [], 0
        for l in m.group(2).split("\n"):
            if depth == 0 and re.match(r"    \w", l):
                variants.append(l.strip().rstrip(","))
            depth += l.count("{") + l.count("(") - l.count("}") - l.count(")")
        yield m.group(1), text[:m.start()].count("\n") + 1, variants


def shape(lines):
    """A body without its names and numbers."""
    words = re.findall(r"[A-Za-z_]\w*|\d[\w]*|[^\s\w]", "\n".join(l for l in lines if not l.lstrip().startswith("//")))
    kept = {"if", "else", "match", "while", "for", "in", "return", "let", "mut", "as", "true", "false", "loop", "break"}
    return tuple(w if w in kept or not re.match(r"\w", w) else ("0" if w[0].isdigit() else "x") for w in words)


def places(commit):
    found = collections.defaultdict(list)
    all_functions = []
    for name, text in files(commit):
        for enum, line, variants in enums(text):
            with_value = [v for v in variants if "(" in v or "{" in v]
            if any(re.match(r"Refused?\(Refusal\)", v) for v in variants) or (len(variants) == 2 and len(with_value) == 1):
                found["1 enums like Option or Result"].append(f"{name}:{line} {enum}")
        for m in re.finditer(r"(?:^ *(?:pub )?const \w+: u8 = \d+;\n\n?){2,}", text, re.M):
            found["1 numbers for kinds"].append(f"{name}:{text[:m.start()].count(chr(10)) + 1}")
        for f in functions(text):
            all_functions.append((name, f))
            code = [l for l in f.body if not l.lstrip().startswith("//")]
            if re.search(r"\b0( if|:| for) (there is )?(none|no)\b", f.comment):
                found["1 sentinels"].append(f"{name}:{f.line} {f.name}")
            for i, l in enumerate(f.body):
                if re.match(r"\s*('\w+: )?(while|loop)\b", l):
                    found["3 loops by hand"].append(f"{name}:{f.line} {f.name}")
                if re.search(r"\.0 (==|!=|<|<=|>|>=) |(==|!=|<|<=|>|>=) [\w.]+\.0\b", l) and not l.lstrip().startswith("//"):
                    found["4 comparisons of numbers taken out of their types"].append(f"{name}:{f.line} {f.name}")
            if re.fullmatch(r"(larger|smaller|later|earlier|reach|one_more|kept|same|equal)\w*", f.name):
                found["4 order and arithmetic of the library by hand"].append(f"{name}:{f.line} {f.name}")
            p = f.parameters()
            if len(p) > 10:
                found["5 functions of more than ten parameters"].append(f"{name}:{f.line} {f.name} ({len(p)})")
            arrays = [q for q in p if re.search(r"&(mut )?\[", q)]
            if len(arrays) >= 4:
                found["6 functions lent four arrays or more"].append(f"{name}:{f.line} {f.name} ({len(arrays)})")
            if "halving" in f.comment:
                found["6 sorted lists searched by hand"].append(f"{name}:{f.line} {f.name}")
            if any(re.match(r"\s*match (call|part|action|command|event|step)\b", l) for l in code):
                found["7 switches on a step"].append(f"{name}:{f.line} {f.name}")
            if any(len(l) > 300 for l in f.clauses):
                found["5 clauses of more than 300 characters"].append(f"{name}:{f.line} {f.name}")
    shapes = collections.defaultdict(list)
    for name, f in all_functions:
        s = shape(f.body)
        if len(s) >= 25:
            shapes[s].append(f"{name}:{f.line} {f.name}")
    for s, twins in shapes.items():
        if len(twins) > 1:
            for t in twins:
                found["2 functions whose bodies differ in names and numbers alone"].append(t)
    return found


def main():
    arguments = sys.argv[1:]
    point = None
    if "--list" in arguments:
        k = arguments.index("--list")
        point = arguments[k + 1]
        del arguments[k:k + 2]
    found = places(arguments[0] if arguments else None)
    for key in sorted(found):
        if point is None:
            print(f"{len(found[key]):5}  {key}")
        elif key.startswith(point):
            print(f"-- {key}")
            print("\n".join(found[key]))


if __name__ == "__main__":
    main()
