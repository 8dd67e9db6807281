#!/usr/bin/env python3
"""Respells the repository's own names of definitions, lemmas and variables as today's Rattle writes them.

usage: python3 tools/respell.py          once, at the top of the repository, after the kit's port.py

A dash within a name of our own becomes an underscore. A fact, which is spelled as a type, gets camel case:
Fresh-once becomes FreshOnce. The names are taken from where they are bound: specs/, the lemma files right in
proofs/, and the clauses of src/. Left as they are: names that a file imports from the library (length-append),
names that Rattle makes in the proof of one function (returns-in_ok), strings, and comments, but for facts and
for what stands in backticks there. In README.md and docs/ it turns what stands in backticks.
"""

import glob
import re

# What a name cannot have in it.
EDGE = r"\s(){}\[\].,;"
TOKEN = re.compile(r"[^%s]+" % EDGE)
# A string, or a comment to the end of its line.
QUIET_ANTT = re.compile(r'"(?:\\.|[^"\\])*"|(?:(?<=\s)|^)--(?=\s|$)[^\n]*', re.M)
QUIET_RT = re.compile(r'b?"(?:\\.|[^"\\])*"|//[^\n]*')
LIBRARY = re.compile(r"^use (?:Rattle\.std|Rattle\.core|borrow|lib|mathlib|Prim)\b[^\n{]*\{([^}]*)\}", re.M)
QUOTED = re.compile(r"`([^`\s]+)`")
# Facts whose old names do not begin with a capital.
FACTS = {"access-fits": "AccessFits", "page-fits": "PageFits"}
# A name of the older library inside one of our own.
OLDER = {"getD-empty": "get_or_empty"}


def quiet(path):
    return QUIET_RT if path.endswith(".rt") else QUIET_ANTT


def loud(text, path):
    """The text without its strings and comments."""
    return quiet(path).sub(lambda m: " " * len(m.group()), text)


def dashed(word):
    return "-" in word and re.search(r"\w-\w", word) and not re.match(r"^[\d-]", word)


def respelled(name):
    if name in FACTS:
        return FACTS[name]
    if name in OLDER:
        return OLDER[name]
    if name[0].isupper():
        return "".join(part[0].upper() + part[1:] for part in name.split("-"))
    return name.replace("-", "_")


def main():
    paths = [p for p in sorted(glob.glob("crates/*/**/*", recursive=True)) if p.endswith((".rt", ".antt")) and not re.match(r"crates/[^/]+/out/", p)]
    texts = {p: open(p, encoding="utf-8").read() for p in paths}
    library, own = set(), set()
    for p, t in texts.items():
        for m in LIBRARY.finditer(loud(t, p)):
            library |= set(re.split(r"[,\s]+", m.group(1)))
    for p, t in texts.items():
        if not re.search(r"/proofs/[^/]+/", p):
            own |= {w for w in TOKEN.findall(loud(t, p)) if dashed(w)}
    table = {w: respelled(w) for w in own - library}
    # Two names of one file that fall together would change what it says.
    for p, t in texts.items():
        words = set(TOKEN.findall(loud(t, p)))
        for w in sorted(words & set(table)):
            if table[w] in words:
                print(f"falls together: {p}: {w} and {table[w]}")

    def turn(text):
        return TOKEN.sub(lambda m: table.get(m.group(), m.group()), text)

    def turn_quoted(text):
        return QUOTED.sub(lambda m: "`" + table.get(m.group(1), m.group(1)) + "`", text)

    def turn_comment(text):
        facts = TOKEN.sub(lambda m: table.get(m.group(), m.group()) if m.group()[0].isupper() else m.group(), text)
        return turn_quoted(facts)

    for p, t in texts.items():
        out, at = [], 0
        for m in quiet(p).finditer(t):
            said = m.group()
            out.append(turn(t[at : m.start()]))
            out.append(said if said.lstrip("b").startswith('"') else turn_comment(said))
            at = m.end()
        out.append(turn(t[at:]))
        new = "".join(out)
        if new != t:
            with open(p, "w", encoding="utf-8") as f:
                f.write(new)
    for p in sorted(glob.glob("docs/*.md")) + ["README.md"]:
        with open(p, encoding="utf-8") as f:
            t = f.read()
        with open(p, "w", encoding="utf-8") as f:
            f.write(turn_quoted(t))
    print(f"{len(table)} names")


if __name__ == "__main__":
    main()
