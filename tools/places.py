#!/usr/bin/env python3
"""Lists the places in crates/*/src that could be written in a newer form of the language, by point: tools/places.py [-l] [POINT].

1 own enums of the shape of Option or Result, flags beside values, numbers that stand for none     5 parameters that travel together
2 functions and structs of one shape (names, numbers and texts aside)                              6 a buffer with its position, parallel rows
3 loops that count by hand                                                                        7 a switch on a number or on what to do
4 conversions, comparisons and copies written by hand                                             8 answers and lemma files in proofs/
-l lists each place; without it a count for each point is printed. It goes by text: what it finds is looked at, not believed.
"""
import collections
import glob
import re
import sys

TOKEN = re.compile(r'b?"(?:\\.|[^"\\])*"|b?\'(?:\\.|[^\'\\])\'|[A-Za-z_]\w*|\d[\w.]*|\S')
WORDS = set("as break const continue else enum fn for if impl in let loop match mut pub return struct while u8 u16 u64 usize i64 bool Some None Ok Err true false self Self".split())
TOGETHER = [("len", "high", "low"), ("pre", "post"), ("source", "event", "target"), ("source", "target"), ("sizes", "place"), ("name_at", "name_len"), ("ats", "lens"), ("first", "next"), ("n", "h", "l"), ("earlier", "later")]
BY_HAND = "narrow wide byte_word position short least at_most_eight lower is_digit is_small is_capital is_letter is_name_byte digit digit_value byte_at same_word same_name swap_bytes low_zero_bytes magnitude numbers pack_two append_four pack_four write_bytes put_row fill less_one".split()


def sources():
    for path in sorted(glob.glob("crates/*/src/**/*.rt", recursive=True)):
        with open(path, encoding="utf-8") as f:
            yield path, f.read().split("\n")


def items(lines, kinds):
    """Items of these kinds, each from its first line to the line that closes it, with its indentation."""
    for i, line in enumerate(lines):
        m = re.match(r"( *)(pub )?(unsafe )?(extern \"C\" )?(const )?(" + kinds + r") (\w+)", line)
        if m and not line.rstrip().endswith(";"):
            for j in range(i, len(lines)):
                if lines[j].startswith(m.group(1) + "}"):
                    yield i, m.group(7), lines[i : j + 1]
                    break


def code(text):
    """Without comments and clauses."""
    kept = []
    for line in text:
        line = re.sub(r"(^|\s)//.*", "", line)
        if not re.match(r"\s*(requires|ensures|ghost)\b", line):
            kept.append(line)
    return "\n".join(kept)


def shape(text):
    seen, out = {}, []
    for t in TOKEN.findall(code(text)):
        if t[0].isdigit():
            t = "0"
        elif t[0] in "\"'" or t[:2] in ('b"', "b'"):
            t = '""'
        elif re.match(r"[A-Za-z_]", t) and t not in WORDS:
            t = "x%d" % seen.setdefault(t, len(seen))
        out.append(t)
    return " ".join(out)


def point1(path, lines):
    for i, name, text in items(lines, "enum"):
        variants = re.findall(r"^ {4}(\w+)(.*)$", code(text), re.M)
        if len(variants) <= 3 and any(v[1].startswith(",") or v[0] == "Refused" for v in variants) or len(variants) == 2:
            yield i, "enum " + name
    for i, name, text in items(lines, "struct"):
        if re.search(r": (bool|Verdict),", code(text)):
            yield i, "flag in " + name
    for i, line in enumerate(lines):
        if re.match(r"\s*//.*(if there is none|: none[.,;]|: it is not there|or NO_STATE|where there is none|0 where the)", line):
            yield i, line.strip()[:90]


def point3(path, lines):
    for i, line in enumerate(lines):
        m = re.match(r"( *)('\w+: )?(while\b.*|loop) \{$", line)
        if m:
            body = []
            for below in lines[i + 1 :]:
                if below.startswith(m.group(1) + "}"):
                    break
                body.append(below)
            if any(re.match(r"\s*\w+ [+-]= 1;$", b) for b in body):
                yield i, line.strip()


def point4(path, lines):
    for i, name, text in items(lines, "fn"):
        if name in BY_HAND:
            yield i, "fn " + name
    for i, line in enumerate(lines):
        line = re.sub(r"//.*", "", line)
        if re.search(r"\bas (u8|u16|u32|u64|usize|i64)\b", line):
            yield i, line.strip()[:90]


def signature(text):
    return re.match(r"[^{]*?\((.*?)\)\s*(->|requires|ensures|\{|$)", " ".join(text[:40]), re.S)


def point5(path, lines):
    for i, name, text in items(lines, "fn"):
        m = signature(text)
        names = re.findall(r"(\w+):", m.group(1)) if m else []
        groups = [g for g in TOGETHER if all(x in names for x in g)]
        rows = len(re.findall(r"^ *let mut \w+ = \[", code(text), re.M))
        if rows > 4:
            yield i, "fn %s: %d rows made in turn" % (name, rows)
        if groups:
            yield i, "fn %s: %d parameters, %s" % (name, len(names), "; ".join(" ".join(g) for g in groups))


def point6(path, lines):
    for i, name, text in items(lines, "fn"):
        m = signature(text)
        if m and re.search(r"(out|row): &mut \[u8\]", m.group(1)) and re.search(r"\bat: usize", m.group(1)):
            yield i, "fn " + name + ": buffer and position"
    for i, name, text in items(lines, "struct"):
        rows = re.findall(r"(\w+): \[\w+; (\w+)\]", code(text))
        if max(collections.Counter(n for _, n in rows).values(), default=0) > 1:
            yield i, "struct " + name + ": parallel rows"


def point7(path, lines):
    for i, line in enumerate(lines):
        if re.match(r"\s*(let \w+ = )?match (asked|refusal|reply|service)\b", line):
            yield i, line.strip()
    for i, name, text in items(lines, "fn"):
        if code(text).count("return Service::") > 2:
            yield i, "fn " + name + ": a chain of tests"


def by_file(point):
    return [(path, i + 1, what) for path, lines in sources() for i, what in point(path, lines)]


def twins():
    shapes = collections.defaultdict(list)
    for path, lines in sources():
        for i, name, text in items(lines, "fn|struct|enum"):
            s = shape(text)
            if len(s.split()) >= 24:
                shapes[s].append((path, i + 1, name))
    return [p for group in shapes.values() if len(group) > 1 for p in group]


def answers():
    found = []
    for path in sorted(glob.glob("crates/*/proofs/**/Answers.antt", recursive=True)):
        with open(path, encoding="utf-8") as f:
            n = len(re.findall(r"^pub [^ ]+ :", f.read(), re.M))
        found.append((path, n, "answers"))
    return found


def main():
    listed = "-l" in sys.argv
    asked = [a for a in sys.argv[1:] if a.isdigit()]
    points = {"1": lambda: by_file(point1), "2": twins, "3": lambda: by_file(point3), "4": lambda: by_file(point4), "5": lambda: by_file(point5), "6": lambda: by_file(point6), "7": lambda: by_file(point7)}
    for p, find in points.items():
        if not asked or p in asked:
            found = find()
            print("%s: %d places" % (p, len(found)))
            for place in found if listed else []:
                print("   %s:%d %s" % place)
    if not asked or "8" in asked:
        found = answers()
        print("8: %d answers in %d files" % (sum(n for _, n, _ in found), len(found)))


if __name__ == "__main__":
    main()
