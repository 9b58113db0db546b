#!/usr/bin/env python3
"""Brings this repository's own definitions and lemmas to snake case, as today's Rattle spells names.

usage: tools/respell.py        at the top of the repository, once, after the kit's port.py

Types, facts and modules keep their capitals, functions of src/ their names. A lemma that would get the name of a definition ends in
`_lem`. The texts of must-fail edits and names in backticks of documents and comments are respelled alike. Each crate's root file gets the
line `#![tactic(auto)]`. It proves nothing.
"""

import collections
import glob
import os
import re
import sys

W = r"[^\s(){}.;,@\"«»\[\]\\:]+"
SIGNATURE = re.compile(r"\s*((?:pub |abbrev |unfoldable )*)((?:" + W + r" )*" + W + r") :(?: |$)")
RULESET = re.compile(r"\s*(?:pub )?ruleset (" + W + r")")
TOKEN = re.compile(r"--[^\n]*|" + W)
# the names as they are spelled afterwards
KNOWN = set()


def read(path):
    with open(path, encoding="utf-8") as f:
        return f.read()


def snake(name):
    name = name.replace("′", "'")
    if re.match(r"[A-Z]", name) or not re.search(r"\w", name):
        return name
    parts = re.split(r"([^\w'-]+)", name)
    out = []
    for part in parts:
        if re.match(r"[A-Z]", part):
            out.append(part)
            continue
        part = part.replace("-", "_")
        out.append(re.sub(r"(?<=[a-z0-9])([A-Z]+)", lambda m: "_" + m[1].lower(), part))
    return "".join(out)


def declared(paths):
    """Names by whether a file of specs/ declares them, and whether one of proofs/ does; and the fields and constructors of specs/."""
    specs, proofs, parts = set(), set(), set()
    for path in paths:
        into = specs if "/specs/" in path else proofs
        for line in read(path).split("\n"):
            line = re.sub(r"--.*", "", line)
            m = SIGNATURE.match(line)
            if m and ": goal." not in line and not line.strip().startswith(("let ", "λ", "in ")):
                into.update(m[2].split())
                if into is specs and line[0] == " ":
                    parts.update(m[2].split())
            m = RULESET.match(line)
            if m:
                into.add(m[1])
    return specs, proofs, parts


def names(paths):
    specs, proofs, parts = declared(paths)
    fits = lambda it: not re.match(r"[A-Z(]", it) and it not in ("=", "data", "record")
    specs, proofs = set(filter(fits, specs)), set(filter(fits, proofs))
    taken = collections.defaultdict(set)
    for name in specs | proofs:
        taken[snake(name)].add(name)
    new = {}
    for to, olds in taken.items():
        # A definition has the name: in camel case before, or the only one of specs/.
        first = sorted(olds, key=lambda it: (it not in specs, not re.search(r"[a-z][A-Z]", it), ("-" in it) == (it in specs), it))[0]
        for it in olds:
            new[it] = to if it == first or it in parts else to + "_lem"
    KNOWN.update(new.values())
    return {it: to for it, to in new.items() if it != to}


def respell(text, new):
    def one(m):
        word = m[0]
        if word.startswith("--"):
            return quoted(word, new)
        to = new.get(word)
        if to is None:
            return word
        at = m.start()
        # Behind a dot stands a field or a generated name, but for a name of a module.
        if at and text[at - 1] == "." and to.endswith("_lem"):
            return word
        return to

    return TOKEN.sub(one, text)


def in_text(word, new):
    """A name in a comment or a document: a function of the source may have the name of a lemma there, so only a dash or a capital tells."""
    if not re.search(r"-|[a-z0-9][A-Z]", word):
        return word
    if word in new:
        return new[word]
    # The kit's script has turned some names of the crates already.
    low = snake(word)
    if "-" in word and low in new:
        return new[low]
    return low if low in KNOWN else word


def quoted(text, new):
    """Names in backticks, and names in camel case anywhere."""
    text = re.sub(r"`([^`\n]*)`", lambda m: "`" + TOKEN.sub(lambda w: in_text(w[0], new), m[1]) + "`", text)
    return re.sub(r"\b[a-z]+\w*[A-Z]\w*\b", lambda m: in_text(m[0], new), text)


CLAUSE = re.compile(r"^(\s*)(ghost use\b|requires\b|ensures\b|ghost\b|invariant\b)")


def in_clause(word, new):
    """A clause cites definitions, and no lemma."""
    to = new.get(word, word)
    return word if to.endswith("_lem") else to


def source(text, new):
    out, inside = [], 0
    for line in text.split("\n"):
        code, slash, comment = line.partition("//")
        if CLAUSE.match(line) or inside > 0:
            code = TOKEN.sub(lambda m: in_clause(m[0], new), code)
            inside += code.count("{") - code.count("}")
            inside = max(inside, 0)
        out.append(code + slash + (quoted(comment, new) if slash else ""))
    return "\n".join(out)


def in_edit(word, new):
    to = in_clause(word, new)
    return to if to != word else in_text(word, new) if re.search(r"[a-z0-9][A-Z]", word) else word


def write(path, text):
    if text != read(path):
        with open(path, "w", encoding="utf-8") as f:
            f.write(text)
        return 1
    return 0


def ask_for_tactics(path):
    lines = read(path).split("\n")
    if "#![tactic(auto)]" in lines:
        return 0
    at = next(i for i, line in enumerate(lines) if not line.startswith("//"))
    lines[at:at] = ["#![tactic(auto)]"] + ([""] if lines[at] else [])
    return write(path, "\n".join(lines))


def main():
    if len(sys.argv) != 1 or not os.path.isfile("crates.txt"):
        sys.exit(__doc__.split("\n\n")[1])
    antt = [p for p in sorted(glob.glob("crates/*/specs/**/*.antt", recursive=True) + glob.glob("crates/*/proofs/**/*.antt", recursive=True))]
    new = names(antt)
    aliases = {}
    count = 0
    for path in antt:
        count += write(path, respell(read(path), new))
    for path in sorted(glob.glob("crates/*/src/**/*.rt", recursive=True)):
        text = read(path)
        alias = {it: snake(it) for it in re.findall(r"\bas ([a-z]\w*[A-Z]\w*)", text)}
        aliases.update(alias)
        count += write(path, source(text, {**new, **alias}))
    for path in sorted(glob.glob("crates/*/src/lib.rt") + glob.glob("crates/*/src/main.rt")):
        count += ask_for_tactics(path)
    everything = {**new, **aliases}
    for path in sorted(glob.glob("crates/*/must-fail/*.edit")):
        lines = []
        for line in read(path).split("\n"):
            if re.match(r"(old|new): ", line):
                line = TOKEN.sub(lambda m: m[0] if m[0].startswith("--") else in_edit(m[0], everything), line)
            else:
                line = quoted(line, everything)
            lines.append(line)
        count += write(path, "\n".join(lines))
    for path in sorted(glob.glob("*.md") + glob.glob("docs/**/*.md", recursive=True) + glob.glob("rust/**/*.rs", recursive=True) + glob.glob("rust/**/*.md", recursive=True) + glob.glob("include/*.h") + glob.glob("tests/**/*.c", recursive=True) + glob.glob("tools/*.sh")):
        if "/target/" in path:
            continue
        text = read(path)
        to = re.sub(r"`([^`\n]*)`", lambda m: "`" + TOKEN.sub(lambda w: in_text(w[0], new), m[1]) + "`", text)
        count += write(path, to)
    print(f"respelled: {len(new)} names, {count} files")
    for it in sorted(it for it in new if new[it].endswith("_lem")):
        print(f"  {it} -> {new[it]}")


main()
