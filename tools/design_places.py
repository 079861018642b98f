#!/usr/bin/env python3
"""Lists the places of the eight points of docs/DESIGN-PASS.md in crates/*/src, and for point 8 in crates/*/proofs.

    tools/design_places.py [COMMIT]     of a commit, or of the files as they stand

It goes by text, so it lists what is to be read: which of these are places, the page says.
"""
import re
import subprocess
import sys
from collections import defaultdict
from difflib import SequenceMatcher
from itertools import combinations
from pathlib import Path

TOP = Path(__file__).resolve().parent.parent

PATTERNS = {
    "1 enums, flags, numbers that tell a kind": r"(^| )enum [A-Z]|-> bool|: bool,|let mut [a-z_]+ = (true|false)"
    r"|(layer|number): u8|-> u32$|\(u8, u8, u64\)|-> usize \{$",
    "3 counted loops and indexing in a loop": r"^ *(for .* in .*(\.\.|enumerate)|while |loop |'[a-z]+: loop )"
    r"|\[[0-9]* \* ?[a-z]+ \+ |\((0|1)\.\.[^)]*\)",
    "4 conversion and printing by hand": r"fn (print_[a-z_]+|[a-z]+_reason|reason_of|told|pair|book_of|side_of|rule_of"
    r"|prices_at|next_[a-z]+|numbers|amounts|settled|part|refusal)\b",
    "6 buffers, lengths beside": r"\[[^\[\]]*; (MOST_PARTIES|MAX_PARTIES|6[45]|24)\]|\b(count|len): usize",
    "7 which step to run": r"match (task|section|self|command|name|book)\b|: fn\(|dyn ",
}


def files(commit, *below):
    if commit:
        names = subprocess.run(
            ["git", "ls-tree", "-r", "--name-only", commit, "crates/"], cwd=TOP, capture_output=True, text=True, check=True
        ).stdout.split()
    else:
        names = [str(p.relative_to(TOP)) for p in TOP.glob("crates/*/*/**/*") if p.is_file()]
    for name in sorted(names):
        parts = name.split("/")
        if len(parts) > 3 and parts[2] in below and name.endswith((".rt", ".antt")):
            yield name, read(commit, name)


def read(commit, name):
    if commit:
        return subprocess.run(["git", "show", f"{commit}:{name}"], cwd=TOP, capture_output=True, text=True, check=True).stdout
    return (TOP / name).read_text()


def functions(text):
    """Name, head (parameters and clauses) and body of each function with a body, on lines of their own."""
    for m in re.finditer(r"^( *)(?:pub(?:\(crate\))? )?(?:extern \"C\" )?fn (\w+)", text, re.M):
        end = re.compile(rf"^{m[1]}\}}$", re.M).search(text, m.end())
        whole = text[m.start() : end.end() if end else len(text)]
        brace = re.search(rf"^{m[1]}\{{$|(?<=[ )>])\{{$", whole, re.M)
        if brace and ";\n" not in whole[: brace.start()]:
            yield m[2], whole[: brace.start()], whole[brace.end() :]


def shape(body):
    body = re.sub(r"//.*", "", body)
    tokens = re.findall(r"[A-Za-z_]\w*(?=\()|[A-Za-z_]\w*|\d[\d_]*|\S", body)
    keep = {"match", "if", "else", "for", "in", "let", "mut", "return", "loop", "while", "Ok", "Err", "Some", "None"}
    keep |= set(re.findall(r"([A-Za-z_]\w*!?)\(", body))
    return [t if t in keep or not (t[0].isalnum() or t[0] == "_") else "N" if t[0].isdigit() else "I" for t in tokens]


def twins(source):
    found = []
    all_functions = [(p, n, shape(b)) for p, t in source for n, _, b in functions(t) if f"#[test]\nfn {n}(" not in t]
    for (p, n, a), (q, m, b) in combinations(all_functions, 2):
        if min(len(a), len(b)) >= 12 and abs(len(a) - len(b)) <= 6:
            ratio = SequenceMatcher(None, a, b, autojunk=False).ratio()
            if ratio >= 0.93:
                found.append(f"{p}: {n}  ~  {q}: {m}  ({ratio:.2f}, {len(a)} tokens)")
    constants = defaultdict(list)
    for p, t in source:
        for m in re.finditer(r"const (\w+): \w+ = ([\d_]+);", t):
            constants[m[2]].append(f"{p}: {m[1]}")
    found += [f"constant {v}: " + ", ".join(w) for v, w in constants.items() if len(w) > 1 and "_tests" not in w[0]]
    return found


def repeated(source):
    clauses, groups = defaultdict(set), defaultdict(set)
    for p, t in source:
        crate = p.split("/")[1]
        for name, head, _ in functions(t):
            for m in re.finditer(r"^ *requires (?:\w+ )?\{ (.*) \}$", head, re.M):
                clauses[crate, m[1]].add(f"{p}: {name}")
            signature = head.split("requires")[0].split("ensures")[0]
            names = sorted(set(re.findall(r"(\w+): &?(?:mut )?[\w\[(<]", signature)))
            for pair in combinations(names, 2):
                groups[crate, ", ".join(pair)].add(name)
    found = [f"{c}: requires {{ {f} }} in {len(w)} functions" for (c, f), w in clauses.items() if len(w) >= 3]
    return found + [f"{c}: parameters {g} in {len(w)} functions" for (c, g), w in groups.items() if len(w) >= 4]


def proofs(source):
    rows = []
    for p, t in source:
        answers = len(re.findall(r"^pub [\w\-]+ :", t, re.M))
        lines = len([x for x in t.splitlines() if x.strip() and not x.lstrip().startswith(("--", "use "))])
        rows.append(f"{p}: {answers} declarations, {lines} lines")
    return rows


def main():
    commit = sys.argv[1] if len(sys.argv) > 1 else None
    source = list(files(commit, "src"))
    listed = {"2 twins": twins(source), "5 facts and parameters that repeat": repeated(source)}
    for point, pattern in PATTERNS.items():
        listed[point] = [
            f"{p}:{i}: {line.strip()}" for p, t in source for i, line in enumerate(t.splitlines(), 1) if re.search(pattern, line)
        ]
    listed["8 proofs"] = proofs([(p, t) for p, t in files(commit, "proofs") if p.endswith(".antt")])
    for point in sorted(listed):
        print(f"== {point}: {len(listed[point])}")
        for row in listed[point]:
            print("   " + row.replace("crates/", "", 2).replace("/src/", "/", 2))


if __name__ == "__main__":
    main()
