#!/usr/bin/env python3
"""Counts the places of docs/DESIGN-PASS.md in a tree's crates/*/src, by lines and then by functions: python3 tools/count_forms.py [TOP]"""
import glob
import os
import re
import sys

top = sys.argv[1] if len(sys.argv) > 1 else os.path.dirname(os.path.dirname(os.path.abspath(__file__)))
files = sorted(glob.glob(os.path.join(top, "crates", "*", "src", "**", "*.rt"), recursive=True))
text = {}
for path in files:
    lines = [line for line in open(path).read().split("\n") if not line.lstrip().startswith("//")]
    text[path] = "\n".join(lines)


def found(pattern):
    return sum(len(re.findall(pattern, body, re.M)) for body in text.values())


def crate(path):
    return os.path.relpath(path, os.path.join(top, "crates")).split(os.sep)[0]


functions = {}
for path, body in text.items():
    for name in re.findall(r"^\s*(?:pub )?(?:extern \"C\" )?fn (\w+)", body, re.M):
        functions.setdefault(crate(path), set()).add(name)
twins = []
for name in sorted(functions):
    for other in (name.replace("_residue", "_float"), name.replace("residue", "float"), name + "_float"):
        if other != name and other in functions:
            twins += [(name, f) for f in sorted(functions[name] & functions[other])]
            break

codes = r"\b(?:which|kind|routine|slice|change|calls|transform|number|right): (?:usize|u32|u64)\b"
print("1  answers of an enum of our own           ", found(r"-> Answer\b"))
print("1  numbers for kinds, calls and refusals   ", found(codes))
print("1  flags and numbers that stand for none   ", found(r"\b(?:added|sine): bool\b") + found(r"usize::MAX\b"))
print("2  functions that stand twice, by pairs    ", len(set(twins)))
print("3  loops that count an index by hand       ", found(r"\bwhile \w+ <=? "))
print("3  loops over an index of one slice        ", found(r"for \w+ in 0\.\.\w+\.len\(\)"))
print("4  conversions and printing by functions   ", found(r"fn (?:number|answer_number|byte|text|size|answers|of|name|place|value|calls|slice)\b"))
print("5  facts `below p` in contracts            ", found(r"\(\w+ < p\)|\{ \w+ < p \}"))
print("5  cosines and sines side by side          ", found(r"cosines: &(?:mut )?\[f64\],\s*sines:"))
print("6  arrays with a length beside             ", found(r"= \[[\w.():]+; (?:\d+|[A-Z_]{2,})\];"))
print("7  matches on which step to run            ", found(r"match (?:which|plan|kind|routine|number|calls|length|at|change)\b"))
print("8  proof files of functions                ", len(glob.glob(os.path.join(top, "crates", "*", "proofs", "**", "Answers.antt"), recursive=True)) + len(glob.glob(os.path.join(top, "crates", "*", "proofs", "**", "Invariants.antt"), recursive=True)))
print("8  lines of src, of proofs                 ", sum(len(b.split("\n")) for b in text.values()), sum(len(open(p).read().split("\n")) for p in glob.glob(os.path.join(top, "crates", "*", "proofs", "**", "*.antt"), recursive=True)))


# The second way: by the functions themselves. Each is cut out of its file with its signature and its body, and looked at as a whole.
def functions_of(body):
    for head in re.finditer(r"\bfn (\w+)", body):
        opened = body.find("(", head.end())
        depth, at = 0, opened
        while at < len(body):
            depth += {"(": 1, ")": -1}.get(body[at], 0)
            at += 1
            if depth == 0:
                break
        parameters = body[opened + 1 : at - 1]
        begin = re.compile(r"\n *\{\n|\) (?:-> [^{}\n;]+ )?\{|;\n").search(body, at - 1)
        if begin is None or begin.group().startswith(";"):
            continue
        result = re.match(r"\s*->\s*([^\n{]+)", body[at:])
        start = body.index("{", begin.start())
        depth, end = 0, start
        while end < len(body):
            depth += {"{": 1, "}": -1}.get(body[end], 0)
            end += 1
            if depth == 0:
                break
        yield head.group(1), parameters, result.group(1).strip() if result else "", body[start:end]


def arms_of(code):
    for found_match in re.finditer(r"\bmatch ([^{]+) \{", code):
        depth, end = 0, found_match.end() - 1
        while end < len(code):
            depth += {"{": 1, "}": -1}.get(code[end], 0)
            end += 1
            if depth == 0:
                break
        yield found_match.group(1), re.findall(r"=> \{?\s*([\w:]+)\(", code[found_match.end() : end]), code[found_match.end() : end].count("=>")


own = set()
for body in text.values():
    for name, cases in re.findall(r"enum (\w+)(?:<[^>]*>)? \{([^}]*)\}", body):
        variants = [case for case in re.split(r",\s*\n", cases.strip()) if case.strip()]
        if len(variants) == 2 and len([case for case in variants if "(" in case]) == 1:
            own.add(name)
every = [(crate(path), *function) for path, body in text.items() for function in functions_of(body)]
names = {}
for where, name, parameters, result, code in every:
    names.setdefault(name, []).append((where, re.findall(r"(\w+):", parameters)))
pairs = 0
for name, places in names.items():
    for i, (where, called) in enumerate(places):
        for other, called_there in places[i + 1 :]:
            alike = where != other and set(called) ^ set(called_there) <= {"cosines", "sines", "table"}
            pairs += alike and len({w.replace("_residue", "").replace("_float", "") for w in (where, other)}) == 1
choices = sum(
    len(set(called)) > 1 and len(called) == arms and not re.search(r"[.(&*]", chosen) and arms > 1
    for *_, code in every
    for chosen, called, arms in arms_of(code)
)
print()
print("By the functions themselves")
print("1  functions that answer an enum of ours in the shape of Option or Result", sum(result in own for *_, result, _ in every))
print("2  functions of one name in a crate of residues and its crate of floats  ", pairs)
print("3  `while` in a function                                                 ", sum(len(re.findall(r"\bwhile\b", code)) for *_, code in every))
print("3  `for` over a range of places that are stored to or read one by one    ", sum(len(re.findall(rf"\[[^\]]*\b{index}\b[^\]]*\]", code)) > 0 for *_, code in every for index in re.findall(r"for (\w+) in [^{]*\.\.", code)))
print("7  matches on a parameter whose arms call several functions              ", choices)
