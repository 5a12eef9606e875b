#!/usr/bin/env python3
"""Brings the repository's own definitions and lemmas to the spelling of today's Rattle: snake case, with a dash between two names alone.

usage: python3 tools/respell.py        at the top of the repository, once, right after the kit's own script

A name is turned as a whole word, in code, comments' code spans, must-fail edits and pages alike. Functions of src/, exported names and strings stay.
It prints each pair of names that would fall together in a file, and then writes nothing.
"""
import collections
import glob
import re
import sys

WORD = re.compile(r'[^\s(){}.;,@"«»`]+')
QUIET = re.compile(r'"(?:[^"\\\n]|\\.)*"|(?<![^\s(){}.;,@"«»])--[^\n]*|\{-.*?-\}', re.S)
COMMENT = re.compile(r"//[^\n]*")
STRING = re.compile(r'b?"(?:[^"\\\n]|\\.)*"')
DECLARED = re.compile(r"^\s*(?:(?:abbrev|unfoldable|pub|ruleset)\s+)*([^\s:(){}]+)(?: \{[^{}\n]*\})* :", re.M)
ABBREV = re.compile(r"^\s*(?:(?:abbrev|unfoldable|pub)\s+)+([^\s:(){}]+)(?: \{[^{}\n]*\})* :", re.M)
PROOF = re.compile(r"/proofs/(?:[^/]+/)+(Proof|Answers|Invariants)\.antt$")
# Names of the library that a lemma's name may join.
LIBRARY = set(
    "length get_or take drop set sets map append flat_map replicate part sum member times upto from reverse "
    "min max suc pred ltb leb eqb take drop".split()
)


def files(kinds):
    return sorted(f for k in kinds for f in glob.glob(f"crates/**/*.{k}", recursive=True) if "/out/" not in f)


def is_camel(part):
    return re.match(r"[a-z][A-Za-z0-9_'₀-₉]*?[a-z0-9][A-Z]", part)


def snake(part):
    if not is_camel(part):
        return part
    return re.sub(r"(?<=[a-z0-9])[A-Z]", lambda m: "_" + m[0].lower(), part)[:1] + re.sub(
        r"(?<=[a-z0-9])[A-Z]", lambda m: "_" + m[0].lower(), part
    )[1:]


def respelled(name, names):
    parts = [snake("get_or" if p == "getD" else "flat_map" if p == "flatMap" else p) for p in name.split("-")]
    made = parts[0]
    for left, right in zip(parts, parts[1:]):
        made += ("-" if left in names and right in names else "_") + right
    return made


# The kit's script gave these lemmas the name that a definition of theirs now has: file by file, they get '_lem'.
MET = {
    "inside_on": "accepted_theory/proofs/recorded/Listed accepted_theory/proofs/recorded/Passing",
    "no_steps": "byte_path/proofs/PathFound byte_path/proofs/show_path_of_list_bytes/Proof path_theory/proofs/Agree",
    "firsts_at": "convex/proofs/FromOrder",
    "fed_by": "distances/proofs/Reaching path_theory/proofs/levels/Bounds path_theory/proofs/levels/Levels path_theory/proofs/levels/Neighbours",
    "start_is": "lines_theory/proofs/Written line_tables/proofs/Finishing tables/proofs/Placed asking/proofs/Prepares opening/proofs/Opening opening/proofs/Using convex/proofs/FromOrder",
    "line_taken": "line_tables/proofs/Leaves line_tables/proofs/frontier/take_line/Proof",
    "lists_at": "line_tables/proofs/nodes/take_node/Proof",
    "in_start": "neighbours/proofs/Reading back_path/proofs/writing/sources_start/Proof",
    "parts_from": "text/proofs/Lines text/proofs/Lists text/proofs/Split",
}
MET = {(f"crates/{f}.antt", n): n + "_lem" for n, fs in MET.items() for f in fs.split()}


def main():
    # The kit's script calls a clause as a definition that the clause itself cites.
    for f in files(["rt"]):
        text = open(f).read()
        if "ensures area_after {" in text:
            open(f, "w").write(text.replace("ensures area_after {", "ensures cleared {"))
    declared, lemmas, names = set(), set(), set(LIBRARY)
    for f in files(["antt"]):
        text = QUIET.sub(" ", open(f).read())
        found = set(DECLARED.findall(text))
        declared |= found
        if not PROOF.search(f):
            lemmas |= {n for n in found if "-" in n and n != "not-true"}
            if "/specs/" in f:
                names |= {snake(n) for n in ABBREV.findall(text) if "-" not in n}
    table = {}
    for f in files(["antt", "rt"]):
        text = open(f).read()
        text = QUIET.sub(" ", text) if f.endswith("antt") else STRING.sub(" ", COMMENT.sub(" ", text))
        for w in WORD.findall(text):
            if any(is_camel(p) for p in w.split("-")) or w in lemmas:
                new = respelled(w, names) if w in lemmas else "-".join(snake("get_or" if p == "getD" else p) for p in w.split("-"))
                if new != w:
                    table[w] = new
    # A lemma that would have a definition's name gets '_lem'.
    taken = {table.get(n, n) for n in declared if n not in lemmas}
    for n in lemmas:
        if table.get(n, n) in taken:
            table[n] = table.get(n, n) + "_lem"
    clashes = []
    for f in files(["antt", "rt"]):
        text = open(f).read()
        text = QUIET.sub(" ", text) if f.endswith("antt") else STRING.sub(" ", COMMENT.sub(" ", text))
        words = set(re.findall(r'(?<![^\s(){};,@"«»`])[^\s(){}.;,@"«»`]+(?!\.\w+\.)', text))
        if f.endswith("rt"):
            words = set(WORD.findall(" ".join(re.findall(r"(?:requires|ensures)\*? (?:\w+ )?\{[^\n]*", text)))) | set(re.findall(r"(\w+): ", text))
        by_new = collections.defaultdict(set)
        for w in words:
            by_new[MET.get((f, w), table.get(w, w))].add(w)
        clashes += [(f, new, sorted(olds)) for new, olds in by_new.items() if len(olds) > 1]
    for f, new, olds in clashes:
        print(f"{f}: {new}: {' '.join(olds)}")
    print(len(table), "names,", len(clashes), "clashes")
    if "--table" in sys.argv:
        for old, new in sorted(table.items()):
            print(old, new)
    if clashes:
        raise SystemExit(1)
    camel = {w for w in table if any(is_camel(p) for p in w.split("-"))}
    for f in sorted(set(files(["antt", "rt", "edit"]) + glob.glob("*.md") + glob.glob("docs/*.md") + glob.glob("d*/*.md"))):
        text = open(f).read()
        in_proof = PROOF.search(f)
        prose = f.endswith("md")

        def word(m):
            w = m[0]
            if (f, w) in MET:
                return MET[f, w]
            if w in camel:
                return table[w]
            # In a function's proof what stands behind a dot is a label that the check makes; in prose a dash may be a dash.
            if w in table and not (in_proof and text[m.start() - 1 : m.start()] == "."):
                return table[w]
            return w

        if f.endswith("antt"):
            new, at = "", 0
            for q in list(QUIET.finditer(text)) + [None]:
                end = q.start() if q else len(text)
                new += re.sub(WORD, lambda m: word(Shift(m, at)), text[at:end])
                if q:
                    spans = q[0] if q[0].startswith('"') else re.sub(r"[\w'-]+", lambda m: table[m[0]] if m[0] in camel else m[0], q[0])
                    new += spans
                    at = q.end()
        elif f.endswith("rt"):
            new, at = "", 0
            for q in list(re.finditer(r"//[^\n]*|b?\"(?:[^\"\\\n]|\\.)*\"", text)) + [None]:
                end = q.start() if q else len(text)
                new += re.sub(WORD, lambda m: word(Shift(m, at)), text[at:end])
                if q:
                    new += re.sub(r"[\w'-]+", lambda m: table[m[0]] if m[0] in camel else m[0], q[0]) if q[0].startswith("//") else q[0]
                    at = q.end()
        else:
            new = re.sub(r"(?<![\w/.-])[\w'-]+(?![\w(/-])", lambda m: table[m[0]] if m[0] in camel or (m[0] in table and text[m.start() - 1 : m.start()] == "`") else m[0], text)
        if new != text:
            open(f, "w").write(new)


class Shift:
    """A match in a piece of the text, by its place in the whole."""

    def __init__(self, match, at):
        self.match, self.at = match, at

    def __getitem__(self, k):
        return self.match[k]

    def start(self):
        return self.match.start() + self.at


if __name__ == "__main__":
    main()
