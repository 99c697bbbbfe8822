#!/usr/bin/env python3
"""Lists the places of docs/DESIGN-PASS.md's points in crates/*/src, and counts them.

    tools/places.py [POINT..] [--at COMMIT]

A point is 1 to 8, or a letter of point 1 (1a to 1d) or 5 (5a, 5b); all if none is named. With --at the files are those of that
commit, otherwise those of the checkout. A place is `file:line: text`, and the last line of a point is `point N: COUNT`.
"""
import collections
import glob
import re
import subprocess
import sys


def files(commit, suffix, folder):
    """Path and text of each file with this ending in that folder of a crate."""
    pattern = re.compile(r"crates/[a-z0-9_]+/" + folder + r"/.*\." + suffix + "$")
    if commit:
        names = subprocess.run(["git", "ls-tree", "-r", "--name-only", commit, "crates"], capture_output=True, text=True, check=True)
        for name in sorted(n for n in names.stdout.split("\n") if pattern.match(n)):
            yield name, subprocess.run(["git", "show", f"{commit}:{name}"], capture_output=True, text=True, check=True).stdout
    else:
        for name in sorted(n for n in glob.glob("crates/**/*." + suffix, recursive=True) if pattern.match(n)):
            yield name, open(name, encoding="utf-8").read()


FUNCTION = re.compile(r"^ *(?:pub(?:\(crate\))? )?(?:extern \"C\" )?fn (\w+)(<[^>]*>)?\(", re.M)


def functions(text):
    """Name, line, head (with its clauses) and body of each function."""
    starts = [m for m in FUNCTION.finditer(text)]
    for m in starts:
        body = re.compile(r"^ *\{$|\) (?:-> [^\n;]+ )?\{$", re.M).search(text, m.start())
        if not body:
            continue
        depth, at = 0, body.end() - 1
        while at < len(text):
            depth += {"{": 1, "}": -1}.get(text[at], 0)
            at += 1
            if depth == 0:
                break
        yield m.group(1), text.count("\n", 0, m.start()) + 1, text[m.start():body.end() - 1], text[body.end():at - 1]


def by_line(pattern):
    """The lines that the pattern fits."""
    def places(sources):
        for name, text in sources:
            for n, line in enumerate(text.split("\n"), 1):
                if re.search(pattern, line):
                    yield f"{name}:{n}: {line.strip()}"
    return places


def twins(sources):
    """Functions whose bodies are the same once names, types and numbers are wiped, of more than one line."""
    alike = collections.defaultdict(list)
    for name, text in sources:
        for fn, line, head, body in functions(text):
            wiped = re.sub(r"\b[a-zA-Z_]\w*\b|\b[0-9_]+\b", "x", re.sub(r"//[^\n]*", "", body))
            wiped = re.sub(r"\s+", "", wiped)
            if len(wiped) > 12:
                alike[wiped].append(f"{name}:{line}: {fn}")
    for group in alike.values():
        if len(group) > 1:
            yield " = ".join(group)


def facts(head):
    """The facts of the `requires` clauses, one for each side of a ×."""
    for m in re.finditer(r"requires(?: \w+)? \{([^}]*(?:\{[^}]*\}[^}]*)*)\}\n", head):
        for fact in re.split(r" × ", m.group(1)):
            yield re.sub(r"\s+", " ", re.sub(r"\.(old|now|new)\b", "", fact)).strip().strip("()").strip()


def repeated(sources):
    """A fact that three or more functions of a crate ask for."""
    seen = collections.defaultdict(list)
    for name, text in sources:
        for fn, line, head, body in functions(text):
            for fact in set(facts(head)):
                seen[name.split("/")[1], fact].append(f"{name}:{line}")
    for (crate, fact), at in sorted(seen.items()):
        if len(at) > 2:
            yield f"{crate}: {fact}: {len(at)} functions: {' '.join(at)}"


def parameters(head):
    """What stands between the parentheses of a function's parameters."""
    start = FUNCTION.search(head).end()
    depth, at = 1, start
    while depth and at < len(head):
        depth += {"(": 1, ")": -1}.get(head[at], 0)
        at += 1
    return head[start:at - 1]


def together(sources):
    """Two parameters that three or more functions of a crate take side by side."""
    seen = collections.defaultdict(list)
    for name, text in sources:
        for fn, line, head, body in functions(text):
            taken = re.findall(r"(\w+): ((?:&'?\w* ?)?(?:mut )?(?:\[[^\]]*\]|\w+))", parameters(head))
            for a, b in zip(taken, taken[1:]):
                seen[name.split("/")[1], a[0], b[0]].append(f"{name}:{line}")
    for (crate, a, b), at in sorted(seen.items()):
        if len(at) > 2:
            yield f"{crate}: {a}, {b}: {len(at)} functions: {' '.join(at)}"


POINTS = {
    "1a": by_line(r"^\s*(pub(\(crate\))? )?enum "),
    "1b": by_line(r"^\s+(pub(\(crate\))? )?(check|answer|verdict|outcome|judged|outcome): "),
    "1c": by_line(r"^\s*// .*(if there is none|if all are|fails at none|if none|0 where none|where there is none)"),
    "1d": by_line(r"^\s*\S+ => \d+,$|^\s*(\d+|_) => [A-Z]|^const (SENT|KIND_|LEAF|TOP)\b.*u8|^(pub )?const (SENT|PENDING|NONE|LEAF|TOP|INDIRECT_KIND): u8"),
    "2": twins,
    "3": by_line(r"^\s*('\w+: )?while "),
    "4": by_line(r"fn (\w*_word|u\d+_(at|bytes)|equal|still|least|both|copy|clear|join|joined|pair|quad|tell|number|bytes32|put|store|wide|read_handle|padded|read_whole|write_count)\b"),
    "5a": repeated,
    "5b": together,
    "6": by_line(r"fn \w+\(.*(&mut \[u8\], (at|from): usize|&\[u8\], n: usize|n: usize, .*&mut \[)|^\s*let mut \w+ = \[0u?\w*; \w+\];"),
    "7": by_line(r"^\s*match (s|e|c|g|w|l|o|answer|verdict|outcome) \{|dyn |fn\("),
}


def main():
    args = sys.argv[1:]
    commit = None
    if "--at" in args:
        at = args.index("--at")
        commit = args[at + 1]
        del args[at:at + 2]
    sources = list(files(commit, "rt", "src"))
    for point, places in POINTS.items():
        if args and point not in args and point[0] not in args:
            continue
        found = list(places(sources))
        print("\n".join(found))
        print(f"point {point}: {len(found)}\n")
    if not args or "8" in args:
        answers = [(n, t) for n, t in files(commit, "antt", "proofs") if n.endswith("/Answers.antt") and n.count("/") > 3]
        print(f"point 8: {len(answers)} files of answers, {sum(len(re.findall('^pub ', t, re.M)) for _, t in answers)} answers, "
              f"{sum(t.count(chr(10)) for _, t in answers)} lines")


main()
