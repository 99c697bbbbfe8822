#!/usr/bin/env python3
"""Brings this repository's own definitions and lemmas to today's spelling, once, right after port.py.

usage: python3 tools/spell.py [--dry]        at the top of the repository

port.py turns the library's names and some of the repository's. This turns the others: functions, lemmas and fields that
the specs/ and proofs/ of a crate define go from camel case and dashes to snake case, as `recordAt` to `record_at` and
`every-next` to `every_next`, and so do the names that a file gives to what it imports. Types, modules, what the code of
src/ names, exported C names, strings, inputs and outputs stay; the goals' names in proofs/F/ are Rattle's own, and
stay. Names that would fall together are printed, and then nothing is written. The edits of definitions and proofs in
must-fail/ turn with the rest.
"""

import os
import re
import sys

WORD = r"[^\s(){}.;,@\"«»:`\[\]]+"
HEAD = re.compile(rf"^(\s*)(?:(?:abbrev|unfoldable|pub|record|data) )*({WORD})((?: [^\s:()]+)*) :(?:\s|$)")
# Where two names would fall together, the lemma, the field or the constructor beside the definition gets this one;
# and getD is get_or today.
APART = {
    "and-then": "and_then_means",
    "answer_at": "answer_at_is",
    "at-or-before": "at_or_before_stands",
    "block-length": "length_of_block",
    "block_in": "block_in_is",
    "counts-left": "counts_left_is",
    "counts_of": "accepted_counts",
    "cut-run": "cut_run_holds",
    "entries-of": "entries_of_is",
    "forked-run": "forked_run_holds",
    "getD-behind": "get_or_behind",
    "getD-values": "get_or_values",
    "goes_on": "goes_on_to",
    "held-own": "held_own_is",
    "is-at-or-before": "is_at_or_before_means",
    "is-before": "is_before_means",
    "is-hash": "is_hash_means",
    "is-ordered": "is_ordered_means",
    "is_found": "is_found_means",
    "large-examples": "large_examples_hold",
    "large-formed": "large_formed_holds",
    "last-count": "last_count_is",
    "listed-at": "listed_at_is",
    "next-count": "next_count_is",
    "of_two": "of_two_digits",
    "own-formed": "own_formed_is",
    "part_length": "length_of_part",
    "rest-zero": "rest_is_zero",
    "sends-again": "sends_it_again",
    "store-after": "store_after_is",
    "strictly-before": "strictly_before_stands",
    "to_block": "to_block_stage",
    "two-users": "two_users_hold",
    "unused-zero": "unused_is_zero",
    "well-formed": "well_formed_means",
    "well-placed": "well_placed_means",
    "zero-exactly": "zero_exactly_when",
}


def crates():
    return sorted(c for c in os.listdir("crates") if os.path.isdir(os.path.join("crates", c, "src")))


def files(*endings):
    for folder, dirs, names in os.walk("crates"):
        dirs[:] = sorted(d for d in dirs if d != "out")
        for name in sorted(names):
            if name.endswith(endings):
                yield os.path.join(folder, name)


def read(path):
    with open(path, encoding="utf-8") as f:
        return f.read()


def of_function(path):
    """Whether a proof file is a function's own, in proofs/F/: its names are those of goals."""
    parts = path.split("/")
    return parts[2] == "proofs" and len(parts) > 4


def snake(part):
    """camelCase to camel_case; a type's name at the head of a part stays."""
    if part[:1].isupper():
        return part
    return re.sub(r"(?<=[a-z0-9])([A-Z])", lambda m: "_" + m.group(1).lower(), part)


def declared():
    """The names that specs/ and proofs/ define: at the top level of a file or a module, and the fields of records."""
    top, fields = {}, {}
    for path in files(".antt"):
        if of_function(path):
            continue
        record = None
        for line in read(path).splitlines():
            if re.match(r"^\s*(?:pub )?(?:record|data) ", line):
                record = len(line) - len(line.lstrip())
            m = HEAD.match(line)
            if not m:
                continue
            inside = record is not None and len(m.group(1)) > record
            if not inside and not re.match(r"^\s*(?:pub )?(?:record|data) ", line):
                record = None
            (fields if inside else top).setdefault(m.group(2), set()).add(path)
    return top, fields


def renamings():
    top, fields = declared()
    to = {}
    for name in sorted(set(top) | set(fields)):
        new = "_".join(snake(part) for part in name.split("-"))
        if new != name and re.match(r"[a-z]", name):
            to[name] = new
    to |= APART
    return to, (set(top) | set(fields)) - set(APART)


def kit_imports(text, own):
    """The names that a file takes from the kit's own modules."""
    taken = set()
    for m in re.finditer(r"^\s*(?:ghost |pub )?use ([^{;\n]*)(?:\{([^}]*)\})?", text, re.M):
        path = m.group(1)
        if any(path.startswith(f"Rattle.{c}.") for c in own):
            continue
        taken |= {w.strip() for w in (m.group(2) or "").split(",")} | set(re.split(r"[.\s]+", path))
    return taken


# Names that a file gives to what it imports. This one would be that of a field beside it.
ALIASES = {"makeStore": "store_make"}


def aliases(text):
    """The camel case names that a file gives by `as`, each with its name of today."""
    return {n: ALIASES.get(n, snake(n)) for n in re.findall(r"\bas ([a-z]+[A-Z]\w*)", text)}


GHOST = re.compile(r"ghost use [^;]*;|(?:requires|ensures)\s*(?:\w+\s*)?\{|//[^\n]*")


def clauses(text):
    """The parts of a source file that are antt, or a comment: where they begin and end."""
    at = 0
    while True:
        m = GHOST.search(text, at)
        if not m:
            return
        end = m.end()
        if text[end - 1] == "{":
            depth = 1
            while depth:
                depth += {"{": 1, "}": -1}.get(text[end], 0)
                end += 1
        yield m.start(), end
        at = end


def main():
    dry = "--dry" in sys.argv
    to, defined = renamings()
    images = {}
    for name, new in to.items():
        images.setdefault(new, []).append(name)
    together = [f"{' and '.join(names)} would both be {new}" for new, names in images.items() if len(names) > 1]
    together += [f"{names[0]} would be {new}, which is defined" for new, names in images.items() if new in defined]
    own = crates()
    written = {}
    for path in files(".antt", ".rt", ".edit"):
        text = read(path)
        kit = kit_imports(text, own)
        table = {n: new for n, new in to.items() if n not in kit} | aliases(text)
        word = re.compile(rf"(?<![^\s(){{}}.;,@\"«»:`\[\]]){WORD}")
        if of_function(path):
            local = {m.group(2) for m in map(HEAD.match, text.splitlines()) if m}
            table = {n: new for n, new in table.items() if n not in local}
        for name, new in table.items():
            if new in kit and re.search(rf"(?<![\w-]){re.escape(name)}(?![\w-])", text):
                together.append(f"{path}: {name} would be {new}, which it takes from the kit")

        def turn(part):
            def one(m):
                w = m.group(0)
                return table.get(w, w)

            return word.sub(one, part)

        if path.endswith(".rt"):
            out, at = [], 0
            for start, end in clauses(text):
                out += [text[at:start], turn(text[start:end])]
                at = end
            new_text = "".join(out) + text[at:]
            for w in set(re.findall(r"(?:fn|let|let mut|const) (\w+)|(\w+): ", new_text)):
                for v in w:
                    if v and v in images and re.search(rf"ghost use [^;]*\b{v}\b", new_text):
                        print(f"look: {path}: the code and the clauses both name {v}")
        elif path.endswith(".edit"):
            # An edit of the code turns by hand where it has to; of a definition or a proof, as that file does.
            new_text, source = [], False
            for line in text.splitlines(keepends=True):
                if line.startswith("file:"):
                    source = line.rstrip().endswith(".rt")
                new_text.append(line if source else turn(line))
            new_text = "".join(new_text)
        else:
            new_text = turn(text)
        if new_text != text:
            written[path] = new_text
    if together:
        print("\n".join(sorted(set(together))))
        return 1
    if dry:
        print("\n".join(f"{a}\t{b}" for a, b in sorted(to.items())))
        return 0
    for path, text in written.items():
        with open(path, "w", encoding="utf-8") as f:
            f.write(text)
    print(f"spell: {len(to)} names, {len(written)} files")
    return 0


if __name__ == "__main__":
    raise SystemExit(main())
