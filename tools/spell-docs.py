#!/usr/bin/env python3
"""Brings the names in the documents' backticks to today's spelling, once, after port.py and tools/spell.py.

usage: python3 tools/spell-docs.py FILE.md ..        at the top of the repository

A name that some source or document tool of the repository still has stays. One that none has becomes its spelling of
today, where the definitions, lemmas and goals of crates/ have that: in snake case, or as APART of tools/spell.py and
OTHERS below say. What it leaves is printed, for a hand.
"""

import os
import re
import sys

sys.path.insert(0, os.path.dirname(os.path.realpath(__file__)))
import spell

# Words of the kit that have other names today.
OTHERS = {
    "getD": "get_or",
    "setL": "slice_set",
}
WORD = re.compile(r"[A-Za-z_][\w'·-]*")


def words_of_sources():
    found = set()
    for path in spell.files(".antt", ".rt"):
        found |= set(re.findall(r"[A-Za-z_][\w'-]*", re.sub(r"(?m)(?:--|//).*", "", spell.read(path))))
    for folder, dirs, names in os.walk("."):
        dirs[:] = [d for d in dirs if d not in ("out", "target", ".git", "crates", "docs")]
        for name in names:
            if name.endswith((".rs", ".c", ".h", ".sh", ".txt", ".toml")) or "." not in name:
                try:
                    found |= set(re.findall(r"[A-Za-z_][\w'-]*", spell.read(os.path.join(folder, name))))
                except (UnicodeDecodeError, OSError):
                    pass
    return found


def today(word, known):
    if word in known or re.fullmatch(r"[A-Z]\w*", word):
        return word
    for new in (spell.APART.get(word), OTHERS.get(word), "_".join(spell.snake(p) for p in word.split("-"))):
        if new in known:
            return new
    return None


def main():
    known = words_of_sources()
    left = set()
    for path in sys.argv[1:]:
        text = spell.read(path)

        def span(m):
            def one(w):
                new = today(w.group(0), known)
                if new is None:
                    left.add((path, w.group(0)))
                    return w.group(0)
                return new

            return WORD.sub(one, m.group(0))

        new = re.sub(r"`[^`\n]+`", span, text)
        if new != text:
            with open(path, "w", encoding="utf-8") as f:
                f.write(new)
    for path, word in sorted(left):
        if "-" in word or re.search(r"[a-z][A-Z]", word):
            print(f"left: {path}: {word}")


if __name__ == "__main__":
    main()
