#!/usr/bin/env python3
"""Places in src/ of the points of docs/DESIGN-PASS.md: tools/places.py [POINT..] [--at TREE]

TREE is another checkout of this repository (its crates/ are read). Prints `file:line what` for each place, and a count for each point.
What a command finds is only where to look: the page says which of them are places, and what was left.
"""
import glob
import os
import re
import sys


def sources(tree):
    for path in sorted(glob.glob(os.path.join(tree, "crates/*/src/*.rt"))):
        with open(path, encoding="utf-8") as f:
            yield os.path.relpath(path, tree), f.read()


def lines(tree, pattern, keep=lambda text: True):
    wanted = re.compile(pattern)
    for path, text in sources(tree):
        for number, line in enumerate(text.split("\n"), 1):
            code = line.split("//")[0]
            if wanted.search(code) and not code.lstrip().startswith(("ghost use", "use ", "requires", "ensures")):
                if keep(code):
                    yield f"{path}:{number}", line.strip()


def functions(tree):
    """(place, name, parameters, clauses, body) of each function with a body."""
    head = re.compile(r"^( *)(?:pub )?(?:const )?(?:extern \"C\" )?fn (\w+)", re.M)
    for path, text in sources(tree):
        for found in head.finditer(text):
            indent, name = found.group(1), found.group(2)
            end = re.compile(r"^" + indent + r"\}", re.M).search(text, found.end())
            whole = text[found.start() : end.end() if end else len(text)]
            brace = re.search(r"\{\n", whole[whole.find(")") :])
            opened = re.search(r"^" + indent + r"\{\n", whole, re.M)
            cut = opened.start() if opened else (whole.find(")") + brace.start() if brace else len(whole))
            start = whole.index("(")
            depth = 0
            close = start
            for close in range(start, len(whole)):
                depth += {"(": 1, ")": -1}.get(whole[close], 0)
                if depth == 0:
                    break
            parameters = [p.strip() for p in re.split(r",(?![^<\[(]*[>\])])", whole[start + 1 : close]) if p.strip()]
            clauses = re.findall(r"^ *(requires|ensures)[^{]*\{ (.*) \}$", whole[:cut], re.M)
            number = text.count("\n", 0, found.start()) + 1
            yield f"{path}:{number}", name, parameters, clauses, whole[cut:]


def shape(body):
    body = re.sub(r"//.*", "", body)
    body = re.sub(r"\bb?\"[^\"]*\"", "S", body)
    body = re.sub(r"\b\d[\d_.xA-Fa-f]*\b", "N", body)
    names = {}

    def word(m):
        w = m.group(0)
        if w in KEYWORDS:
            return w
        return names.setdefault(w, f"w{len(names)}")

    return re.sub(r"\s+", " ", re.sub(r"[A-Za-z_]\w*", word, body)).strip()


KEYWORDS = {"if", "else", "match", "let", "mut", "for", "in", "while", "loop", "return", "break", "as", "true", "false", "N", "S"}


def point_1(tree):
    yield from lines(tree, r"^\s*(pub )?enum \w+")
    yield from lines(tree, r"\b(kind|refusal|class|service|mark|id|going|alike|simultaneous|found)\b: *(u8|u16|u32|u64|bool)\b")
    yield from lines(tree, r"refusals::[A-Z_]+\b|\b(kind|service|id) == \d")


def point_2(tree):
    by_shape = {}
    for place, name, _, _, body in functions(tree):
        if body.count("\n") > 1:
            by_shape.setdefault(shape(body), []).append((place, name))
    for group in by_shape.values():
        if len(group) > 1:
            for place, name in group:
                yield place, f"{name}: as {', '.join(n for p, n in group if p != place)}"


def point_3(tree):
    yield from lines(tree, r"^\s*(while\b|(let \w+ = )?loop \{|for \w+ in .*\.\.)")


def point_4(tree):
    named = re.compile(r"^(same_\w+|\w+_agree|\w+_of|\w+_fields|\w+_shown|\w+_word|operation|wet_source|service_class|put_(decimal|accepted|refused|verdict)|say_\w+|name_of|mode_of)$")
    for place, name, parameters, _, body in functions(tree):
        if named.match(name):
            yield place, f"{name}({', '.join(parameters)})"


def point_5(tree):
    facts, runs = {}, {}
    for place, name, parameters, clauses, _ in functions(tree):
        for kind, clause in clauses:
            if kind == "requires":
                for fact in re.split(r" × ", clause.replace("(", " ").replace(")", " ")):
                    fact = re.sub(r"\b(ledger|task|answer|battery|lent|x|card)\.", "", re.sub(r"\s+", " ", fact).strip())
                    fact = re.sub(r"\.(now|old|new|entry)\b", "", fact)
                    if fact:
                        facts.setdefault(fact, {})[place] = name
        for i in range(len(parameters)):
            for j in range(i + 2, len(parameters) + 1):
                runs.setdefault(", ".join(parameters[i:j]), {})[place] = name
    for fact, where in sorted(facts.items(), key=lambda f: -len(f[1])):
        if len(where) > 2:
            yield f"{len(where)} contracts", fact
    seen = []
    for run, where in sorted(runs.items(), key=lambda r: (-len(r[0]), -len(r[1]))):
        if len(where) > 2 and not any(run in longer and set(where) <= places for longer, places in seen):
            seen.append((run, set(where)))
            yield f"{len(where)} functions", f"({run})"


def point_6(tree):
    yield from lines(tree, r"(: |= )\&?(mut )?\[?(\w+; \d+\]|0u8; \d+)|\[u8; \d+\]|\bn: usize\b.*\[f64; 64\]|\[f64; 64\].*\bn: usize\b")


def point_7(tree):
    for path, text in sources(tree):
        for found in re.finditer(r"^( *)(?:let \w+ = |return )?match [^{]*\{\n(.*?)^\1\}", text, re.M | re.S):
            arms = re.findall(r"=> (?:\{\s*)?([^\n]*)", found.group(2))
            calls = [a for a in arms if re.match(r"[a-z_]\w*(::\w+)*\(", a)]
            if len(calls) > 2 and len(calls) * 2 > len(arms):
                yield f"{path}:{text.count(chr(10), 0, found.start()) + 1}", f"{len(calls)} of {len(arms)} arms call"


def point_8(tree):
    for path in sorted(glob.glob(os.path.join(tree, "crates/*/proofs/**/*.antt"), recursive=True)):
        if os.path.basename(path) in ("Answers.antt", "Invariants.antt"):
            yield os.path.relpath(path, tree), ""


POINTS = {"1": point_1, "2": point_2, "3": point_3, "4": point_4, "5": point_5, "6": point_6, "7": point_7, "8": point_8}


def main():
    arguments = sys.argv[1:]
    tree = "."
    if "--at" in arguments:
        i = arguments.index("--at")
        tree = arguments[i + 1]
        del arguments[i : i + 2]
    for point in arguments or sorted(POINTS):
        places = list(POINTS[point](tree))
        if arguments:
            for place, what in places:
                print(place, what)
        print(f"point {point}: {len(places)}")


if __name__ == "__main__":
    main()
