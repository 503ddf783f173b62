#!/usr/bin/env python3
"""Counts the places in src/ that might be written in a newer form, point by point.

    tools/count-places.py [TREE] [--list POINT]

A place is a line, a function or a struct that one of the patterns below finds; the patterns are wide, so
that a place may turn out to be right as it stands. docs/DESIGN-PASS.md says what became of each.
"""
import collections
import difflib
import glob
import os
import re
import sys

args = [a for a in sys.argv[1:] if not a.startswith("--")]
listed = args.pop() if "--list" in sys.argv else None
tree = args[0] if args else "."

files = sorted(glob.glob(os.path.join(tree, "crates/*/src/**/*.rt"), recursive=True))
texts = {os.path.relpath(f, tree): open(f, encoding="utf-8").read() for f in files}


def without_notes(text):
    """The text without comments and ghost lines, each line kept in its place."""
    text = re.sub(r"^\s*ghost use .*$", "", text, flags=re.M)
    return re.sub(r"//.*$", "", text, flags=re.M)


code = {f: without_notes(t) for f, t in texts.items()}


def lines(pattern):
    """Each line that the pattern finds."""
    for f, text in code.items():
        for n, line in enumerate(text.split("\n"), 1):
            if re.search(pattern, line):
                yield f, n, line.strip()


def passages(pattern):
    """Each passage that the pattern finds, of several lines perhaps."""
    for f, text in code.items():
        for m in re.finditer(pattern, text):
            yield f, text[: m.start()].count("\n") + 1, re.sub(r"\s+", " ", m.group(0))


def blocks(head):
    """Each item that begins with the pattern, with its braces: file, line, head, body."""
    for f, text in code.items():
        for m in re.finditer(head, text, re.M):
            start = text.find("{\n", m.end() - 1)
            if start < 0:
                continue
            depth, at = 0, start
            while at < len(text):
                depth += {"{": 1, "}": -1}.get(text[at], 0)
                at += 1
                if depth == 0:
                    break
            yield f, text[: m.start()].count("\n") + 1, m.group(0).strip(), text[start + 1 : at - 1]


def functions():
    """Each function with a body: file, line, name, signature and clauses, body."""
    for f, text in code.items():
        for m in re.finditer(r"^( *)(?:pub(?:\([a-z]+\))? )?(?:extern \"C\" )?fn (\w+)", text, re.M):
            indent = m.group(1)
            body = re.compile(r"^%s\{\n(.*?)^%s\}$" % (indent, indent), re.M | re.S).search(text, m.end())
            same_line = re.compile(r"[^\n]*(?:\n%s    [^\n]*)*?\n?%s?[^\n;{]*\{\n(.*?)^%s\}$" % (indent, indent, indent), re.M | re.S)
            following = re.compile(r"^ *(?:pub(?:\([a-z]+\))? )?fn \w+", re.M).search(text, m.end())
            if not body or (following and following.start() < body.start()):
                body = same_line.match(text, m.end())
            if body:
                yield f, text[: m.start()].count("\n") + 1, m.group(2), text[m.start() : body.start(1)], body.group(1)


WORDS = set("let mut match if else for in return Some None Ok Err self true false while loop as".split())


def shape(body):
    """A body with every name, number and string made alike."""
    body = re.sub(r'b?"[^"]*"', "S", body)
    body = re.sub(r"\b[A-Za-z_]\w*\b", lambda m: m.group(0) if m.group(0) in WORDS else "n", body)
    return re.sub(r"\s+", " ", re.sub(r"\b\d[\d_]*\b", "0", body)).strip()


def point_1():
    yield from lines(r"-> Result<bool\b|-> Option<Result<bool\b")
    for f, n, head, body in blocks(r"^(?:pub(?:\(crate\))? )?struct \w+[^;{]*"):
        if re.search(r": bool,", body) and not re.fullmatch(r"(?:\s*(?:pub )?\w+: bool,)*\s*", body):
            yield f, n, head
    for f, n, head, body in blocks(r"^(?:pub(?:\(crate\))? )?enum \w+[^;{]*"):
        variants = re.findall(r"^    (\w+)(\(|,| \{)", body, re.M)
        if len(variants) == 2 and sorted(v[1] == "," for v in variants) == [False, True]:
            yield f, n, head
    for f, n, name, head, body in functions():
        if "-> bool" in head and "&mut" in head:
            yield f, n, name
        if re.fullmatch(r"\s*0\s*", body) and "-> u8" in head:
            yield f, n, name
    yield from lines(r"fn (from_number|number|refusal|status)\b|\b(state|status): u64|struct \w+\(pub u64\)|fn row_status")
    yield from passages(r"else \{\s*return (None|Err\()|Some\((\w+)\) => Some\(|None => None,|Ok\((\w+)\) => Ok\(\3\)|Err\(_?\w*\) => (Err\(|return|None)")


def point_2():
    shapes = collections.defaultdict(list)
    for f, n, name, head, body in functions():
        if body.count("\n") >= 3:
            shapes[shape(body)].append((f, n, name))
    for group in shapes.values():
        if len(group) > 1:
            yield from group
    named = collections.defaultdict(list)
    for f, n, name, head, body in functions():
        if body.count("\n") >= 3 and name not in ("fmt", "from", "new", "main", "answer"):
            named[name].append((f, n, name, shape(body)))
    for group in named.values():
        for i, (f, n, name, body) in enumerate(group):
            others = [o for j, o in enumerate(group) if j != i]
            if any(difflib.SequenceMatcher(None, body, o[3]).ratio() > 0.8 for o in others):
                yield f, n, name
    types = collections.defaultdict(list)
    for f, n, head, body in blocks(r"^(?:pub(?:\(crate\))? )?(?:struct|enum) \w+[^;{(]*"):
        types[re.sub(r"\s+", " ", re.sub(r"ghost .*", "", body))].append((f, n, head))
    for f, n, line in lines(r"^pub struct \w+(\(u64\))?;$"):
        if "Decree" not in line:
            types[re.sub(r"struct \w+", "struct n", line)].append((f, n, line))
    for group in types.values():
        if len(group) > 1:
            yield from group


def point_3():
    yield from lines(r"for \w+ in 0\.\.|\.enumerate\(\)|\bwhile\b|\bloop \{|\w+ \+= 1;")


def point_4():
    yield from lines(
        r"fn (is_same\w*|are_same\w*|is_alike|\w+_name|\w+_word|name|number|from_number|refusal|status|form|from_plan|of_base|of_words"
        r"|work_named|board_named|account_form|bill_figures|answer_of|numbers|widened|kind_numbers|byte|byte_alone|below_zero|from_zero"
        r"|sheet_of|sheet_from|name_at|layer_of|state_of|print_call|print_numbers|with_sheet)\b"
    )
    yield from lines(r"^\s*let (\w+) = self\.\1;$")


def point_5():
    facts = collections.defaultdict(list)
    pairs = collections.defaultdict(list)
    for f, n, name, head, body in functions():
        crate = f.split("/")[1]
        for clause in set(re.findall(r"(?:requires|ensures)(?: \w+)? \{ (.*) \}", head)):
            for part in clause.split(" × "):
                if re.search(r"[≤<]", part) and "result" not in part:
                    facts[crate, re.sub(r"\.(now|old|new)\b", "", part.strip("() "))].append((f, n, name + ": " + part))
        params = re.findall(r"(\w+): ([^,()]+?)(?=,|\)|\n)", head.split(" ensures")[0].split(" requires")[0])
        for i, a in enumerate(params):
            for b in params[i + 1 :]:
                pairs[crate, a, b].append((f, n, name))
    for group in list(facts.values()) + list(pairs.values()):
        if len(group) > 2:
            yield group[0][0], group[0][1], ", ".join(g[2] for g in group)


def point_6():
    for f, n, head, body in blocks(r"^(?:pub(?:\(crate\))? )?struct \w+[^;{]*"):
        arrays = re.findall(r": (?:\[\w+; (\w+)\]|Vec<\w+>),", body)
        if arrays and (len(arrays) > 1 or re.search(r": (usize|u64),", body)):
            yield f, n, head
    yield from lines(r"\[2 \* \w+( \+ \w+)?\]|\w+\[\w+ \+ \d+\]")
    yield from passages(r"for [^\n]* in [^\n]*\{\s*if [^\n]*\{\s*return ")


def point_7():
    for f, n, head, body in blocks(r"^ *(?:let [^=\n]*= |return )?match [^\n]*\{$"):
        arms = re.findall(r"=> (?:Some\(|Ok\()?((?:[a-z]\w*(?:::<\w+>)?[.:]*)+)\(", body)
        if len(arms) >= 2:
            yield f, n, head + " " + ", ".join(arms)


def point_8():
    return (
        (os.path.relpath(f, tree), 1, "answers")
        for f in sorted(glob.glob(os.path.join(tree, "crates/*/proofs/**/Answers.antt"), recursive=True))
    )


points = [point_1, point_2, point_3, point_4, point_5, point_6, point_7, point_8]
for number, point in enumerate(points, 1):
    found = sorted(set(point()))
    tests = sum("tests/" in f for f, _, _ in found)
    print(f"point {number}: {len(found)} places, {tests} of them in tests")
    if listed == str(number):
        for f, n, what in found:
            print(f"  {f}:{n}  {what}")
