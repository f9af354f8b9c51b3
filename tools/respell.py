#!/usr/bin/env python3
"""Spells this repository's own definitions, laws and fields as today's Rattle does: words in snake case, `isNeg` as `is_neg` and
`from-to` as `from_to`. It ran once, right behind the kit's port.py; `--check` writes nothing and lists the names that would meet.

usage: tools/respell.py [--check] [FOLDER]

A name is turned where it stands as a whole word: in code and in comments' code spans of .antt files, in clauses and `ghost use` lines of .rt
files, in the lines of must-fail edits, and in code spans of the pages. Strings, Rust's own names and the names that Rattle makes of a
function's steps stay as they are.
"""
import collections
import os
import re
import sys

WORD = r"(?<![\w'\-])[A-Za-z_][\w'\-ℤℕ]*"
DECLARED = re.compile(
    r"(?m)(?:^|[{;] )\s*(?:(?:abbrev|unfoldable|pub|data|open)\s+)*((?:[A-Za-z_][\w'\-ℤℕ]*\s+)+?)(?:\{[^{}\n]*\}\s+)*:(?=\s)(?!\s*(?:tie|goal)\.)"
)
BOUND = re.compile(r"[({]((?:[a-z][\w'\-]*\s+)+):(?=\s)")
ALIAS = re.compile(r"[\w'\-.] as ([a-z][\w'\-]*)")
LOCAL = re.compile(r"(?:\blet|\bin|λ|^|;|\()\s*([a-z][\w'\-]*)\s*(?::[^=;\n]*)?=(?=\s)", re.M)
# A name that would meet another in a file gets one that the style allows instead.
INSTEAD = {
    # a lemma that would have its function's name: where it stands and is cited ("" for everywhere)
    "is_digit": ("is_digit_lem", ("field/",)),
    "held_by": ("held_by_lem", ("form/proofs/Said.antt",)),
    "all_shown": ("all_shown_lem", ("historian/proofs/",)),
    "goes_on": ("goes_on_lem", ("text/proofs/Streams.antt",)),
    "read_back": ("read_back_lem", ("field/proofs/",)),
    "record_of": ("record_of_lem", ("filed/proofs/Exact.antt",)),
    "by-source": ("by_source_lem", ("source/", "rescaling/")),
    "excursion-cases": ("excursion_cases_lem", ("",)),
    "line-length": ("line_length_lem", ("",)),
    "block-length": ("block_length_lem", ("",)),
    "parsed-node": ("parsed_node_lem", ("",)),
    "in-float": ("in_float_lem", ("dividing/",)),
    "is-input": ("is_input_lem", ("extracts/",)),
    # a fact begins with a capital
    "wide": ("IsWide", ("sensing/proofs/Fit.antt",)),
    "is-lower": ("is_lower_lem", ("hex/",)),
    "by-room": ("by_room_lem", ("looking/", "promises/")),
    "with-total": ("with_total_lem", ("measured/",)),
    "not-above": ("not_above_lem", ("platinum/", "sensing/")),
    "rises-at": ("rises_at_lem", ("",)),
    "bench-meter": ("bench_meter_lem", ("",)),
    "cfg-bytes": ("cfg_bytes_lem", ("",)),
    "by-verdict": ("by_verdict_lem", ("",)),
    # a field that would hide the meter that it speaks of
    "not-started": ("not_started_is", ("promises/",)),
}
# Words that only look like names of ours: values of worked cases, and a word of the kit's.
LEAVE = {"aFf", "n5TA", "tA", "xD4", "xC1", "xEE"}


def snake(word):
    word = re.sub(r"([a-z])([A-Z]{2,})", lambda m: m[1] + m[2][0] + m[2][1:].lower(), word)
    word = re.sub(r"([a-z0-9])([A-Z])", lambda m: m[1] + "_" + m[2].lower(), word)
    return word.replace("-", "_")


def odd(word):
    """A name in another spelling than today's: a small first letter, and a capital or a dash behind it."""
    return word not in LEAVE and word[0].islower() and bool(re.search(r"[a-z0-9][A-Z]|-", word))


def files(root):
    for folder, dirs, names in os.walk(root):
        dirs[:] = sorted(d for d in dirs if d not in (".git", "out", "target", "tools", "model"))
        for name in sorted(names):
            if name.endswith((".antt", ".rt", ".edit", ".md")):
                yield os.path.join(folder, name)


def read(path):
    with open(path, encoding="utf-8") as f:
        return f.read()


def code(text):
    return re.sub(r"--[^\n]*", "", text)


def declared(texts):
    """The names to turn: what our .antt files declare, bind or name."""
    names = set()
    for path, text in texts.items():
        if path.endswith(".antt"):
            text = code(text)
            for m in DECLARED.finditer(text):
                names.update(m[1].split())
            for m in BOUND.finditer(text):
                names.update(m[1].split())
            for local in (LOCAL, ALIAS):
                names.update(m[1] for m in local.finditer(text))
    return {n for n in names if odd(n)}


def of_kit(path):
    """Names that files of ours take from a library."""
    taken = set()
    for m in re.finditer(r"(?m)^use (\S+?)\.\{([^}]*)\}", read(path)):
        first = m[1].split(".")
        if first[0] != "Rattle" or first[1] == "std":
            taken.update(w.strip() for w in m[2].split(","))
    return taken


class Turner:
    def __init__(self, names):
        self.names = names
        self.old = {}

    def new(self, word, path):
        new, where = INSTEAD.get(word, ("", ()))
        if any(w in path for w in where):
            return new
        return snake(word) if word in self.names else word

    def words(self, text, path, keep=frozenset()):
        def put(m):
            return m[0] if m[0] in keep else self.new(m[0], path)

        return re.sub(WORD, put, text)

    def spans(self, text, path):
        text = re.sub(r"`[^`\n]*`", lambda m: self.words(m[0], path), text)
        # a word in camel case is a definition's wherever it stands
        return re.sub(WORD, lambda m: self.new(m[0], path) if re.search(r"[a-z][A-Z]", m[0]) else m[0], text)

    def antt(self, text, path, keep):
        out = []
        for line in text.split("\n"):
            at = re.search(r"(^|\s)--", line)
            cut = at.start() if at else len(line)
            out.append(self.words(line[:cut], path, keep) + self.spans(line[cut:], path))
        return "\n".join(out)

    def rt(self, text, path):
        parts = re.split(r"(\"(?:\\.|[^\"\\])*\"|//[^\n]*)", text)
        for k, part in enumerate(parts):
            if k % 2 == 0:
                parts[k] = self.words(part, path)
            elif part.startswith("//"):
                parts[k] = self.spans(part, path)
        return "".join(parts)

    def edit(self, text, path):
        out, antt = [], True
        for line in text.split("\n"):
            m = re.match(r"(file|old|new): ?", line)
            if not m:
                out.append(self.spans(line, path))
                continue
            if m[1] == "file":
                antt = line.rstrip().endswith(".antt")
                out.append(line)
                continue
            rest = line[m.end():]
            out.append(m[0] + (self.antt(rest, path, frozenset()) if antt else self.rt(rest, path)))
        return "\n".join(out)


def main():
    words = [w for w in sys.argv[1:] if w != "--check"]
    check = "--check" in sys.argv[1:]
    root = words[0] if words else os.path.join(os.path.dirname(os.path.realpath(__file__)), "..")
    texts = {p: read(p) for p in files(root)}
    names = declared(texts)
    turner = Turner(names)
    changed = 0
    for path, text in texts.items():
        if path.endswith(".antt"):
            keep = of_kit(path)
            new = turner.antt(text, path, keep)
            if check:
                meets(path, text, turner, keep)
        elif path.endswith(".rt"):
            new = turner.rt(text, path)
        elif path.endswith(".edit"):
            new = turner.edit(text, path)
        else:
            new = turner.spans(text, path)
        if new != text:
            changed += 1
            if not check:
                with open(path, "w", encoding="utf-8") as f:
                    f.write(new)
    print(f"respell: {len(names)} names, {changed} files")


def meets(path, text, turner, keep):
    """Two names of a file that become one, where neither stands behind a dot."""
    bare = collections.defaultdict(set)
    for m in re.finditer(r"(?<![\w'\-.])[A-Za-z_][\w'\-ℤℕ]*", code(text)):
        word = m[0]
        bare[word if word in keep else turner.new(word, path)].add(word)
    for new, olds in bare.items():
        if len(olds) > 1:
            print(f"meet: {path}: {' '.join(sorted(olds))}")


main()
