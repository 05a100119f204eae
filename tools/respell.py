#!/usr/bin/env python3
"""Brings this repository's own definitions, fields, lemmas and variables to the spelling of today's Rattle: snake case.

usage: python3 tools/respell.py [ROOT]     once, at the top, right after port.py and before any edit by hand

Renamed is each name with a dash that a file of specs/ or proofs/ declares: definitions, fields, lemmas, parameters, variables.
Left alone are names that Rattle makes (goals and steps in a function's own folder), names that a file takes from the library,
and a lemma's name in which the dash joins two functions, as `map-append`.
A new name that would fall together with another name of the same file ends the run, before anything is written.
"""

import os
import re
import sys

# a dash that joins two functions stays
JOINED = {
    "length-alter": "length-alter",
    "length-alter-at": "length-alter_at",
    "map-append": "map-append",
    "map-alter": "map-alter",
    "map-replicate": "map-replicate",
    "alter-alter": "alter-alter",
    "insts-append": "insts_in-append",
    "holds-append": "holds-append",
    "head-append": "head_or-append",
    "last-append": "last_or-append",
}
NAME = r"[A-Za-z\u0370-\u03ff\u22a5][\w\u0370-\u03ff']*"
DASHED = re.compile(rf"(?<![\w'\u0370-\u03ff-])({NAME}(?:-[\w\u0370-\u03ff']+)+)(?![\w'-])")
# a declaration at a line's head: a definition, a field, a lemma
DECLARED = re.compile(rf"^\s*(?:(?:abbrev|unfoldable|pub|let)\s+)*({NAME}(?:-[\w\u0370-\u03ff']+)+)\s*:(?!\s*goal\.)")
# binders: (a-b c : T), {a-b : T}, λ a-b., let a-b =, M.{c as a-b}
BINDER = re.compile(r"[({]([^(){}:=]*?)\s:\s")
LAMBDA = re.compile(r"λ ([^.]*?)\. ")
LET = re.compile(rf"\blet ({NAME}(?:-[\w\u0370-\u03ff']+)+)\s*[:=]")
AS = re.compile(rf"\bas ({NAME}(?:-[\w\u0370-\u03ff']+)+)\b")
LIBRARY = re.compile(r"^\s*(?:ghost )?(?:pub )?use (?!Rattle\.(?:%s)\.)[^{]*\{([^}]*)\}")


def files(root):
    for folder, dirs, names in os.walk(os.path.join(root, "crates")):
        dirs[:] = sorted(d for d in dirs if d != "out")
        for f in sorted(names):
            if f.endswith((".antt", ".rt")):
                yield os.path.join(folder, f)


def in_function(path):
    """Is it a file of one function's proof, where a name with a dash may be Rattle's?"""
    return os.path.basename(path) in ("Answers.antt", "Invariants.antt", "Choices.antt", "Proof.antt")


def code(line, path):
    return line.split("--")[0] if path.endswith(".antt") else line


def own_names(texts):
    found = set()
    for path, text in texts.items():
        if path.endswith(".rt"):
            continue
        for line in text.split("\n"):
            line = code(line, path)
            m = DECLARED.match(line)
            if m:
                found.add(m.group(1))
            for m in BINDER.finditer(line):
                found.update(w for w in m.group(1).split() if DASHED.fullmatch(w))
            for m in LAMBDA.finditer(line):
                found.update(w for w in re.split(r"[\s(),]+", m.group(1)) if DASHED.fullmatch(w))
            for pattern in (LET, AS):
                found.update(m.group(1) for m in pattern.finditer(line))
    return found


def goals_of(texts):
    """Names that a function's own file answers: Rattle's."""
    found = set()
    for path, text in texts.items():
        if in_function(path):
            for line in text.split("\n"):
                m = re.match(rf"^\s*(?:(?:abbrev|pub)\s+)*({NAME}(?:-[\w\u0370-\u03ff']+)+)\s*:\s*goal\.", line)
                if m:
                    found.add(m.group(1))
    return found


def spelled(name):
    return JOINED.get(name, name.replace("-", "_"))


def main(root):
    texts = {p: open(p, encoding="utf-8").read() for p in files(root)}
    crates = "|".join(sorted(os.listdir(os.path.join(root, "crates"))))
    library = re.compile(LIBRARY.pattern % crates)
    own = {n: spelled(n) for n in sorted(own_names(texts) - goals_of(texts))}
    trouble, changed = [], {}
    for path, text in texts.items():
        kept = set()
        for line in text.split("\n"):
            m = library.match(line)
            if m:
                kept.update(w.split(" as ")[0].strip() for w in m.group(1).split(",") if " as " not in w)
        here = {m.group(1) for line in text.split("\n") for m in DASHED.finditer(code(line, path))} & set(own) - kept
        words = set(re.findall(rf"(?<![\w'.-]){NAME}(?:-[\w\u0370-\u03ff']+)*", text))
        new = {}
        for n in here:
            if own[n] in new.values():
                trouble.append(f"{path}: {n} and another name become {own[n]}")
            new[n] = own[n]
            if own[n] != n and own[n] in words and path.endswith(".antt"):
                trouble.append(f"look: {path}: {own[n]} stands there already beside {n}")
        out = []
        for line in text.split("\n"):
            body, dash, comment = line.partition("--") if path.endswith(".antt") else (line, "", "")
            # what follows `c.` or `l.`, and goals, are Rattle's words in a function's own file
            def turn(m):
                n = m.group(1)
                if n not in new:
                    return n
                before = line[: m.start()]
                if in_function(path) and re.search(r"(?:\bgoal\.|\b[cl]\.(?:[\w'-]+\.)*)$", before):
                    return n if not re.search(r"\.(?:ensures|requires|result|new\.\w+|old|now|args\.[\w.]+)(?:\.[\w'-]+)*\.$", before) else new[n]
                return new[n]
            out.append(DASHED.sub(turn, body) + dash + comment)
        new_text = "\n".join(out)
        if new_text != text:
            changed[path] = new_text
    for t in trouble:
        print(t)
    if any(not t.startswith("look:") for t in trouble):
        return 1
    for path, text in changed.items():
        with open(path, "w", encoding="utf-8") as f:
            f.write(text)
    print(f"respell: {len(own)} names, {len(changed)} files")
    return 0


if __name__ == "__main__":
    raise SystemExit(main(sys.argv[1] if len(sys.argv) > 1 else "."))
