#!/usr/bin/env python3
"""Brings the definitions and lemmas of crates/ to one spelling: words in snake case, types and modules as they are.

usage: tools/respell.py      at the top of the repository, once, right after the kit's port.py

isGoodLine and good-line become is_good_line and good_line. Where both stood, the lemma (the one with dashes) ends in _lem. Functions of src/, strings and
the names that the check makes for a function's proof keep their spelling.
"""
import collections
import glob
import re

SIGNATURE = re.compile(r"^\s*(?:(?:pattern|unfoldable|abbrev|axiom|pub)\s+)*([^\s:(){}.,;λ\"]+(?:\s+[^\s:(){}.,;\"]+)*?)\s*(?:\{[^}]*\}\s*)?:\s")
TYPE = re.compile(r"^\s*(?:pub\s+)?(?:data|record)\s+(\S+)")
TOKEN = re.compile(r"\"(?:[^\"\\]|\\.)*\"|«[^»]*»|[^\s(){}.,;«»\"\[\]`:]+|.", re.S)
ANSWERS = re.compile(r"/proofs/.+/(Proof|Answers|Invariants)\.antt$")


def snake(name):
    name = name.replace("′", "'")
    if name[0].isupper():
        return name
    name = re.sub(r"(?<=[a-z0-9])([A-Z])", lambda m: "_" + m.group(1).lower(), name)
    return name.replace("-", "_")


def declared():
    names = set()
    for path in sorted(glob.glob("crates/*/specs/**/*.antt", recursive=True) + glob.glob("crates/*/proofs/**/*.antt", recursive=True)):
        own = bool(ANSWERS.search(path))
        for line in open(path, encoding="utf-8"):
            if line.lstrip().startswith("--"):
                continue
            m = TYPE.match(line) or SIGNATURE.match(line)
            if m:
                # the dashes in the files of a function's proof are the check's
                names.update(n for n in m.group(1).split() if not own or "-" not in n)
    return names


def respelling(names):
    """What each name becomes. A definition has the plain name; a lemma that would share it ends in _lem."""
    wanted = collections.defaultdict(list)
    for name in sorted(names):
        wanted[snake(name)].append(name)
    to = {}
    for new, olds in wanted.items():
        camel = [n for n in olds if re.search(r"[a-z0-9][A-Z]", n)]
        keeps = camel[0] if camel else new if new in olds else olds[0]
        for old in olds:
            end = "" if old == keeps else "_lem"
            if old != new + end:
                to[old] = new + end
    return to


functions = {
    f
    for path in glob.glob("crates/*/src/**/*.rt", recursive=True)
    for f in re.findall(r"\bfn\s+(\w+)", open(path, encoding="utf-8").read())
}
MADE = ("ensures", "requires", "result", "new", "last", "given", "before", "args")


def in_antt(text, to, of_function):
    out = []
    for line in text.splitlines(keepends=True):
        code, dash, comment = line, "", ""
        m = re.search(r"(^|\s)--\s", line)
        if m:
            code, dash, comment = line[: m.start()], m.group(0), line[m.end() :]
        out.append(tokens(code, to, of_function) + dash + in_prose(comment, to))
    return "".join(out)


def tokens(code, to, of_function):
    parts = TOKEN.findall(code)
    for i, word in enumerate(parts):
        if word not in to:
            continue
        before = "".join(parts[max(0, i - 2) : i])
        # what the check makes of a function: a goal behind `tie`, a folder of proofs
        if of_function and before in ("tie.", "goal."):
            continue
        if of_function and before.endswith(".") and i + 2 < len(parts) and parts[i + 1] == "." and parts[i + 2] in MADE and word.replace("-", "_") in functions:
            continue
        if "_" in word and (before == "proofs." or (i + 2 < len(parts) and parts[i + 1] == "." and parts[i + 2] in ("Statement", "Tie", "Code", "Goals", "Given"))):
            continue
        parts[i] = to[word]
    return "".join(parts)


def in_prose(text, to):
    """A comment: a name in backquotes, or one that no English word is."""
    text = re.sub(r"`([^`:]*)`", lambda m: "`" + "".join(w if "_" in w else to.get(w, w) for w in TOKEN.findall(m.group(1))) + "`", text)
    return "".join(to.get(w, w) if re.search(r"[a-z][A-Z]", w) else w for w in TOKEN.findall(text))


def in_rt(text, to):
    out, clause, depth = [], False, 0
    for line in text.splitlines(keepends=True):
        if depth == 0:
            clause = bool(re.match(r"\s*(ghost|requires|ensures|decreases)\b|.*\bensures \{", line))
        if clause and "//" not in line:
            out.append(tokens(line, to, False))
            depth = max(0, depth + line.count("{") - line.count("}")) if not line.rstrip().endswith(") {") else 0
        elif line.lstrip().startswith("//"):
            out.append(in_prose(line, to))
        else:
            out.append(line)
    return "".join(out)


def main():
    to = respelling(declared())
    for path in sorted(glob.glob("crates/*/specs/**/*.antt", recursive=True) + glob.glob("crates/*/proofs/**/*.antt", recursive=True) + glob.glob("crates/*/src/**/*.rt", recursive=True)):
        text = open(path, encoding="utf-8").read()
        new = in_rt(text, to) if path.endswith(".rt") else in_antt(text, to, bool(ANSWERS.search(path)))
        if new != text:
            open(path, "w", encoding="utf-8").write(new)
    for old, new in sorted(to.items()):
        print(old, new)


if __name__ == "__main__":
    main()
