#!/usr/bin/env python3
"""Counts the places of the design pass in crates/*/src: python3 tools/places.py [-l] [POINT..]

-l prints each place. The points are those of docs/DESIGN-PASS.md. It goes by the text of the sources, comments and clauses left out.
"""
import re
import sys
from collections import defaultdict
from pathlib import Path

KEYWORDS = set("""as bool break const continue crate else enum false fn for if impl in let loop match mod mut pub return self Self struct trait true
type u8 u16 u32 u64 usize use where while Some None Ok Err Option Result""".split())


def plain(text):
    """The source without comments, ghost lines and clauses."""
    text = re.sub(r"//[^\n]*", "", text)
    out, i = [], 0
    for m in re.finditer(r"\b(?:requires|ensures)\b[^\{\n]*\{|\bghost [^\n]*", text):
        if m.start() < i:
            continue
        out.append(text[i:m.start()])
        i = m.end()
        if m.group().endswith("{"):
            depth = 1
            while depth:
                depth += {"{": 1, "}": -1}.get(text[i], 0)
                i += 1
    return "".join(out) + text[i:]


def block(text, at):
    """What stands between the brace that opens at or after a place and its end."""
    i = text.index("{", at) + 1
    start, depth = i, 1
    while depth:
        depth += {"{": 1, "}": -1}.get(text[i], 0)
        i += 1
    return text[start : i - 1]


SOURCES = {str(p): p.read_text() for p in sorted(Path("crates").glob("*/src/**/*.rt"))}
PLAIN = {p: plain(s) for p, s in SOURCES.items()}
FUNCTION = re.compile(r"\bfn (\w+)(?:[^;{\[]|\[[^\]]*\])*\{")


def functions():
    for path, text in PLAIN.items():
        for m in FUNCTION.finditer(text):
            yield path, m.group(1), m.group(0), block(text, m.start())


def types(kind):
    for path, text in PLAIN.items():
        for m in re.finditer(r"\b%s (\w+)[^;{(]*\{" % kind, text):
            yield path, m.group(1), block(text, m.start())


def lines(pattern, texts=PLAIN):
    for path, text in texts.items():
        for line in text.splitlines():
            if re.search(pattern, line):
                yield path, line.strip()


def point_1():
    for path, name, body in types("enum"):
        parts = [p for p in re.split(r",(?![^({]*[)}])", re.sub(r"\s+", " ", body)) if p.strip()]
        with_value = sum(1 for p in parts if re.search(r"[({]", p))
        if len(parts) == 2 and with_value >= 1:
            yield path, f"enum {name}: two cases, one with a value"
    for path, name, body in types("struct"):
        flags = re.findall(r"(\w+): bool", body)
        if flags and body.count(":") > 1:
            yield path, f"struct {name}: a flag ({flags[0]}) with values beside it"
        for field in re.findall(r"\b(refusal|fault|op): u8", body):
            yield path, f"struct {name}: {field} is a number"
    for path, name, head, body in functions():
        if re.search(r"refus|fault|kind|nothing", name) and re.search(r"-> u8\b", head):
            yield path, f"fn {name} answers a number"
        elif re.search(r"-> u8\b", head) and re.search(r"return \d+;|\brefusal\b", body) and re.search(r"register|raise|open_reader|count_one", name):
            yield path, f"fn {name} answers a number"
    yield from lines(r"const (NO_\w+|PAST)\b|\b6553[67] \{|return 6553[67];|\b(Wrong)\(u8\)")


def point_2():
    shapes = defaultdict(list)
    for path, name, head, body in functions():
        seen = {}
        shape = []
        for token in re.findall(r"[A-Za-z_]\w*|b?\"[^\"]*\"|b?'[^']*'|\d\w*|\S", body):
            if re.match(r"[A-Za-z_]", token) and token not in KEYWORDS and '"' not in token and "'" not in token:
                token = seen.setdefault(token, f"v{len(seen)}")
            elif re.match(r"\d|b?[\"']", token):
                token = "N"
            shape.append(token)
        if len(shape) >= 12:
            shapes[" ".join(shape)].append((path, name))
    for same in shapes.values():
        if len(same) > 1:
            for path, name in same:
                yield path, f"fn {name}, as {', '.join(n for p, n in same if (p, n) != (path, name))[:90]}"


def point_3():
    for path, name, head, body in functions():
        for m in re.finditer(r"\b(while [^{]*|loop )\{", body):
            inner = block(body, m.start())
            if re.search(r"\b\w+ [+-]= 1;", inner):
                yield path, f"fn {name}: {m.group(1).strip()}"


def point_4():
    for path, name, head, body in functions():
        arms = re.findall(r"=> (true|false)\b", body)
        if len(arms) >= 2:
            yield path, f"fn {name}: a match with {len(arms)} arms true or false"
        if name in ("index", "wide", "narrow", "high_byte", "low_byte", "role_byte", "both", "either", "agree", "implies", "same", "comes_before"):
            yield path, f"fn {name}"


def point_5():
    pairs = (("out", "at"), ("after", "live"), ("order", "live"), ("threads", "live_threads"))
    for path, name, head, body in functions():
        names = re.findall(r"(\w+): ", head)
        for a, b in pairs:
            if a in names and b in names:
                yield path, f"fn {name}: {a} and {b}"
    facts = defaultdict(list)
    for path, text in SOURCES.items():
        for m in re.finditer(r"\brequires\b[^\{\n]*\{([^}]*)\}", text):
            for fact in m.group(1).split("×"):
                facts[re.sub(r"[\s()]+", " ", fact).strip()].append(path)
    for fact, where in facts.items():
        if len(where) >= 3:
            yield where[0], f"requires {fact}: {len(where)} times"


def point_6():
    for path, name, body in types("struct"):
        if re.search(r"\[[^\]]*;", body) and re.search(r"\b(count|live\w*|total|filled): ", body):
            yield path, f"struct {name}: an array with a count beside it"
    for path, name, head, body in functions():
        arrays = re.findall(r"(\w+): &?(?:'a )?(?:mut )?\[\w+; (\w+)\]", head)
        if len(arrays) > 1 and not re.search(r"self", head):
            yield path, f"fn {name}: arrays side by side ({', '.join(a for a, _ in arrays)})"


def point_7():
    for path, name, head, body in functions():
        if len(re.findall(r"\.op == \d|if same\(|Until::", body)) > 2 or re.search(r"match (until|place: u8)", body):
            yield path, f"fn {name}: a switch on what to do"


def point_8():
    for path in sorted(Path("crates").glob("*/**/*.antt")) + sorted(Path("crates").glob("*/src/**/*.rt")):
        if "/out/" in str(path):
            continue
        for number, line in enumerate(path.read_text().splitlines(), 1):
            if len(line) > 140 and not re.match(r"\s*(ghost )?use ", line):
                yield str(path), f"line {number}: {len(line)} characters"
    for path in sorted(Path("crates").glob("*/proofs/**/Answers.antt")):
        yield str(path), "answers"


POINTS = {"1": point_1, "2": point_2, "3": point_3, "4": point_4, "5": point_5, "6": point_6, "7": point_7, "8": point_8}
wanted = [a for a in sys.argv[1:] if a in POINTS] or list(POINTS)
for point in wanted:
    places = list(POINTS[point]())
    print(f"point {point}: {len(places)} places")
    if "-l" in sys.argv:
        for path, what in places:
            print(f"  {path}: {what}")
