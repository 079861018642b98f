#!/usr/bin/env python3
"""Respells the repository's own definitions and lemmas in snake case, once, after the kit's port.py.

usage: python3 tools/respell.py        at the top of a repository that port.py has just turned

Definitions and lemmas of specs/*.antt and proofs/*.antt, and their record fields, get words in snake case: `keptOf` becomes
`kept_of`, `each-listed` becomes `each_listed`. A dash before an operator stays, as in `first-++`. A lemma that would have a
definition's name ends with `_lem`. Types, facts and modules stay in camel case, and a module's short name in camel case
gives way to its own name. In .rt files only clauses, ghost items and their imports are
touched; functions, fields, strings and comments of the code keep their names. It prints each name that it turned, and the
names that would fall together with another, which it leaves for the eye.
"""

import glob
import re

HEAD = re.compile(r"\s*(?:(?:abbrev|unfoldable|pub|data|record|axiom)\s+)*([^\s:()→.,{}]+)\s+(?:\([^:]*:.*\)\s*)*:\s")
WORD = r"[^\s(){}\[\].,;:λ→←×|«»\"`]+"
TOKEN = re.compile(WORD)
ALIAS = re.compile(r"\.(\w+) as ([a-z]+[A-Z]\w*)(?=;|$)", re.M)
LIBRARY = {"getD": "get_or"}
CLAUSE = re.compile(r"^\s*(requires|ensures|ghost)\b")


def respelt(name):
    for old, new in LIBRARY.items():
        name = re.sub(rf"\b{old}\b", new, name)
    name = re.sub(r"(?<=[a-z0-9])([A-Z])", lambda m: "_" + m.group(1).lower(), name)
    return re.sub(r"-(?=[\w])", "_", name)


def definitions():
    """The old name of each definition and lemma of the repository that is to be respelt, with its new one."""
    found, every = {}, set()
    for path in sorted(glob.glob("crates/*/specs/*.antt") + glob.glob("crates/*/proofs/*.antt")):
        for line in open(path, encoding="utf-8"):
            if line.lstrip().startswith(("--", "let ", "use ", "pub use ", "module ")):
                continue
            head = HEAD.match(line)
            if not head or re.match(r"[A-Z]", head.group(1)):
                continue
            name = head.group(1)
            every.add(name)
            if respelt(name) != name:
                found[name] = respelt(name)
    # a lemma that would have its definition's name gets `_lem`
    for name in found:
        if "-" in name and (found[name] in every or any(other != name and found[other] == found[name] for other in found)):
            found[name] += "_lem"
    return found


def aliases(paths):
    """A short name of a module in camel case gives way to the module's own name."""
    found = {}
    for path in paths:
        for module, name in ALIAS.findall(open(path, encoding="utf-8").read()):
            found[name] = module
    return found


def turned(text, names, seen):
    def one(m):
        word = m.group(0)
        before = text[m.start() - 1] if m.start() else " "
        generated = before == "." and m.start() > 1 and re.search(r"(?:\b[clwg]|goal|given)[\w'-]*(?:\.[\w'-]+)*\.$", text[: m.start()])
        if word not in names or generated:
            return word
        seen.add(word)
        return names[word]

    return TOKEN.sub(one, text)


def turn_antt(text, names, seen):
    lines = []
    for line in text.split("\n"):
        code, dashes, comment = line.partition("-- ") if not line.startswith("--") else ("", line, "")
        lines.append(turned(code, names, seen) + dashes + comment)
    return "\n".join(lines)


def turn_rt(text, names, seen):
    """Only what lies in `ghost use` lines and in the braces of clauses and ghost items."""
    lines, depth = [], 0
    for line in text.split("\n"):
        code = line.split("//")[0]
        if depth > 0 or CLAUSE.match(code):
            line = turned(line, names, seen) if "//" not in line else line
            if not code.lstrip().startswith("ghost use"):
                depth += code.count("{") - code.count("}")
                depth = max(depth, 0)
        lines.append(line)
    return "\n".join(lines)


def main():
    antt = sorted(glob.glob("crates/*/specs/**/*.antt", recursive=True) + glob.glob("crates/*/proofs/**/*.antt", recursive=True))
    code = sorted(glob.glob("crates/*/src/**/*.rt", recursive=True))
    names = definitions() | aliases(antt + code)
    turns = {}
    for path in antt + code:
        text = open(path, encoding="utf-8").read()
        seen = set()
        new = turn_antt(text, names, seen) if path.endswith(".antt") else turn_rt(text, names, seen)
        new = re.sub(r"\.(\w+) as \1(?=;|$)", r".\1", new, flags=re.M)
        words = set(TOKEN.findall(text if path.endswith(".antt") else "\n".join(l for l in text.split("\n") if "{" in l)))
        for word in sorted(seen):
            if names[word] in words:
                print(f"together: {path}: {word} and {names[word]}")
        if new != text:
            turns[path] = new
    for path, new in turns.items():
        with open(path, "w", encoding="utf-8") as out:
            out.write(new)
    new_names = sorted(names.values())
    for name in sorted({n for n in new_names if new_names.count(n) > 1}):
        print(f"together: {name}: {', '.join(sorted(old for old in names if names[old] == name))}")
    for old in sorted(names):
        print(f"{old} -> {names[old]}")
    print(f"{len(names)} names, {len(turns)} files")


if __name__ == "__main__":
    main()
