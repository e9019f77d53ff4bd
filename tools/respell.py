#!/usr/bin/env python3
"""Brings this repository's own names to snake case, once, after the kit's port.py has turned the tree.

usage: python3 tools/respell.py        at the top of the repository

A name is the repository's own if a file of specs/, or a lemma file of proofs/, has it with a dash and it is imported from no
library. It is respelled in specs/, proofs/, the ghost text of src/ and the edits of must-fail/. Names that a check makes (in
proofs/F/) and names of a library keep their dashes. The edits of definitions also get the tight projections and the library's
words that port.py gives the text they stand in.
"""

import glob
import re
import sys

PART = r"[A-Za-zℕℤ0-9_'₀-₉]+"
DASHED = re.compile(rf"(?<![\w'-]){PART}(?:-{PART})+(?![\w'-])")
USE = re.compile(r"\s*(?:pub |ghost )*use ([^\s{]+?)\.?\{([^}]*)\}")
COMMENT = {".antt": re.compile(r"(?:^|(?<=\s))--(?:\s.*|$)"), ".rt": re.compile(r"//.*")}
STRING = re.compile(r'"(?:[^"\\]|\\.)*"')
# the words of the older library in the edits of definitions
WORDS = {"wrapped": "int_wrap", "quotZ": "int_div", "remZ": "int_rem"}


def ending(path):
    return path[path.rindex("."):]


def read(path):
    with open(path, encoding="utf-8") as f:
        return f.read()


def split(path, line):
    """The code of a line and its comment."""
    m = COMMENT[ending(path)].search(STRING.sub(lambda s: " " * len(s[0]), line))
    return (line, "") if m is None else (line[: m.start()], line[m.start():])


def crates():
    return sorted(c.split("/")[1] for c in glob.glob("crates/*/src"))


def lemma_files():
    return sorted(glob.glob("crates/*/specs/*.antt") + glob.glob("crates/*/proofs/*.antt"))


def sources():
    return sorted(glob.glob("crates/**/*.antt", recursive=True) + glob.glob("crates/**/*.rt", recursive=True))


def of_libraries():
    ours = re.compile(r"Rattle\.(?:" + "|".join(crates()) + r")\.")
    names = set()
    for path in sources():
        for line in read(path).splitlines():
            m = USE.match(line)
            if m and not ours.match(m[1]):
                names |= {n.strip().split(" as ")[0] for n in m[2].split(",")}
    return names


def own_names():
    names = set()
    for path in lemma_files():
        for line in read(path).splitlines():
            names |= set(DASHED.findall(split(path, line)[0]))
    return names - of_libraries()


def words(path):
    return set(re.findall(r"[\w'₀-₉]+", read(path)))


def falls_together(own):
    """Names of antt that would become one."""
    there = set().union(*(words(p) for p in lemma_files()))
    snake = {}
    for n in own:
        snake.setdefault(n.replace("-", "_"), []).append(n)
    return sorted(f"{s}: {v}" for s, v in snake.items() if len(v) > 1 or s in there)


def respelled(text, own):
    return DASHED.sub(lambda m: m[0].replace("-", "_") if m[0] in own else m[0], text)


def quoted(text, own):
    return re.sub(r"`[^`\n]+`", lambda m: respelled(m[0], own), text)


def turn_source(path, text, own):
    out = []
    for line in text.split("\n"):
        code, comment = split(path, line)
        out.append(respelled(code, own) + quoted(comment, own))
    return "\n".join(out)


def turn_edit(text, own):
    """An edit of a definition: all its names, projections written tight, and the library's words. An edit of src/ has none of these."""
    if not re.search(r"^file: (?:specs|proofs)/", text, re.M):
        return respelled(text, own)
    own = own | set(DASHED.findall(text))
    out = []
    for line in text.split("\n"):
        if line.startswith(("old: ", "new: ")):
            line = respelled(line, own)
            line = re.sub(r"\((\w+(?: \.\w+)+)\)", lambda m: m[1].replace(" .", "."), line)
            line = re.sub(r"(?<=\w) \.(?=\w)", ".", line)
            line = re.sub(r"\b(?:" + "|".join(WORDS) + r")\b", lambda m: WORDS[m[0]], line)
        out.append(line)
    return "\n".join(out)


def main():
    own = own_names()
    for pair in falls_together(own):
        print("falls together: " + pair)
    changed = 0
    for path in sources() + sorted(glob.glob("crates/*/must-fail/*.edit")):
        old = read(path)
        if path.endswith(".edit"):
            new = turn_edit(old, own)
        else:
            new = turn_source(path, old, own)
        if new != old:
            changed += 1
            with open(path, "w", encoding="utf-8") as f:
                f.write(new)
    print(f"{len(own)} names respelled in {changed} files")
    return 0


if __name__ == "__main__":
    sys.exit(main())
