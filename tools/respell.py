#!/usr/bin/env python3
"""Brings the names of this repository's definitions and lemmas to today's spelling: snake case, a dash only between two names.

usage: python3 tools/respell.py [--check]      at the top of the repository, once, behind port.py

Own names are those that the files of specs/ and the lemma files of proofs/ use and no file imports from outside. They are turned in those
files, in the proofs, in clauses and ghost lines of the sources, and in code spans of the pages. Functions of src/ keep their names.
With --check it writes nothing. It prints the names that fall together.
"""

import glob
import os
import re
import sys

WORD = re.compile(r"[^\s(){}\[\];,.@\"«»|:\\`]+")
# names that a dash may join, besides this repository's own definitions
STD = set("length get_or take drop set map append replicate filter reverse sum add mul sub suc zero cond and or not mem max min true false".split())
# the names of the library under their older spelling, as parts of own names
PARTS = {"getD": "get_or", "isIn": "is_in", "upTo": "up_to", "toEnd": "to_end"}
# own names that would otherwise fall together
FIXED = {
    "noRoom": "no_room_code",
    "tooLarge": "too_large_code",
    "singularEdges": "singular_edge_count",
    "singularVertices": "singular_vertex_count",
    "labels_at": "labels_at_lem",
    "on_edge": "on_edge_lem",
    "run_length": "run_length_lem",
    "key-at": "key_at_lem",
    "use-in": "use_in_lem",
    "new-list": "new_list_lem",
    "new-map": "new_map_lem",
    "has-face": "has_face_lem",
}


def snake(part):
    part = PARTS.get(part, part)
    if part[:1].isupper():
        return part
    part = re.sub(r"([a-z0-9])([A-Z])", lambda m: m[1] + "_" + m[2].lower(), part)
    return part


def odd(word):
    """Whether the spelling of the word is an older one: camel case behind a small letter, or a dash between words."""
    if not re.match(r"^[A-Za-z_][\w'′-]*$", word) or word.endswith("-"):
        return False
    return bool(re.match(r"^[a-z]\w*?[a-z0-9][A-Z]", word)) or "-" in word or "′" in word or (word[:1].islower() and bool(re.search(r"[a-z0-9][A-Z]", word)))


def turned(word, names):
    if word in FIXED:
        return FIXED[word]
    parts = [snake(p) for p in word.replace("′", "'").split("-")]
    if len(parts) == 1:
        return parts[0]
    # a dash stays where it joins two names: the whole is names joined by dashes
    def split(at):
        if at == len(parts):
            return []
        for to in range(len(parts), at, -1):
            name = "_".join(parts[at:to])
            if name in names and not (at == 0 and to == len(parts)):
                rest = split(to)
                if rest is not None:
                    return [name] + rest
        return None

    joined = split(0)
    return "-".join(joined) if joined else "_".join(parts)


def lemma_files():
    for p in sorted(glob.glob("crates/*/specs/**/*.antt", recursive=True) + glob.glob("crates/*/proofs/**/*.antt", recursive=True)):
        made = os.path.basename(p) in ("Proof.antt", "Answers.antt", "Invariants.antt") and p.count("/") > 3
        if not made and "/out/" not in p:
            yield p


def uncommented(text):
    return "\n".join(re.sub(r"--(?=\s|-|$).*", "", l) for l in text.split("\n"))


USE = re.compile(r"^(?:ghost )?(?:pub )?use\s+([^\s{;]+?)(?:\.\{([^}]*)\}|\s+as\s+(\S+?))?;?$", re.M)


def outside(text, crate_names):
    """The names that a file imports from libraries of the toolchain."""
    found = set()
    for m in USE.finditer(text):
        top = m[1].split(".")
        own = top[0] == "Rattle" and len(top) > 1 and top[1] in crate_names
        made = own and ("declared" in top)
        if not own or made:
            for it in (m[2] or "").split(","):
                it = it.strip()
                if it:
                    found.add(it.split(" as ")[0].strip())
    return found


def align(old, new):
    """A row of a comment's table keeps its column."""
    if not old.startswith("--   ") or old == new:
        return new
    m = re.match(r"^(--   .*?\S)( {2,})(\S.*)$", old)
    n = re.match(r"^(--   .*?\S)( {2,})(\S.*)$", new)
    if not m or not n:
        return new
    column = len(m[1]) + len(m[2])
    return n[1] + " " * max(2, column - len(n[1])) + n[3]


def main(argv):
    check = "--check" in argv
    crate_names = set(os.listdir("crates"))
    texts = {p: open(p, encoding="utf-8").read() for p in lemma_files()}
    foreign, words, declared, inner = set(), set(), {}, set()
    for p, t in texts.items():
        u = uncommented(t)
        foreign |= outside(u, crate_names)
        for w in WORD.findall("\n".join(l for l in u.split("\n") if not re.match(r"^\s*(pub )?mod ", l))):
            words.add(w)
        for m in re.finditer(r"^\s*(?:(?:unfoldable|abbrev|pub|record|data) )*([^\s(){}\[\];,.:]+)(?: \{[^}]*\})*\s*(?:\([^=\n]*\)\s*)*:(?!=)", u, re.M):
            declared.setdefault(m[1], p)
            if m[0].lstrip("\n")[:1].isspace() and "/specs/" in p and not re.search(r"\b(abbrev|unfoldable)\b", m[0]):
                inner.add(m[1])  # a field or a constructor
    specs_of = {n for n, p in declared.items() if "-" not in n}
    specs = {snake(n) for n, p in declared.items() if "/specs/" in p and "-" not in n and n not in inner}
    names = ({n for n in specs if n[:1].islower()} | STD) - {"count", "counts"}
    # a lemma makes room for a definition only where the definition is not turned yet
    for w, definition in (("labels_at", "labelsAt"), ("on_edge", "onEdge"), ("run_length", "runLength")):
        if definition not in words:
            FIXED.pop(w, None)
    older = sorted(w for w in words if (odd(w) or w in FIXED) and w not in foreign)
    new = {w: turned(w, set() if w in inner else names) for w in older}
    # a lemma that would have its definition's name
    for w in older:
        if "-" in w and w not in FIXED and w in declared and any(v != w and v in specs_of and turned(v, names) == new[w] for v in older + [new[w]]):
            new[w] += "_lem"
    new = {w: n for w, n in new.items() if w != n}
    # names that fall together
    by = {}
    for w in words:
        by.setdefault(new.get(w, w), set()).add(w)
    for n, ws in sorted(by.items()):
        if len(ws) > 1:
            print("together:", n, "<-", ", ".join(f"{w} ({declared.get(w, 'local')})" for w in sorted(ws)))
    for w in sorted(foreign & set(declared)):
        if odd(w):
            print("outside and own:", w, declared[w])
    if check:
        for w, n in sorted(new.items()):
            print(f"{w} -> {n}")
    swap = lambda t: WORD.sub(lambda m: new.get(m[0], m[0]), t)
    changed = 0

    def write(p, t, t2):
        nonlocal changed
        if t != t2:
            changed += 1
            if not check:
                with open(p, "w", encoding="utf-8") as f:
                    f.write(t2)

    for p in sorted(glob.glob("crates/*/specs/**/*.antt", recursive=True) + glob.glob("crates/*/proofs/**/*.antt", recursive=True)):
        t = open(p, encoding="utf-8").read()
        write(p, t, "\n".join(align(l, swap(l)) for l in t.split("\n")))
    # the sources: ghost lines and clauses
    for p in sorted(glob.glob("crates/*/src/**/*.rt", recursive=True)):
        t = open(p, encoding="utf-8").read()
        lines, inside = [], 0
        for l in t.split("\n"):
            if l.startswith("ghost use") or re.match(r"^\s*(requires|ensures|ghost)\b", l) or inside > 0:
                inside += l.count("{") - l.count("}")
                params = l
                l = swap(l)
            lines.append(l)
        write(p, t, "\n".join(lines))
    # edits of definitions and of clauses
    for p in sorted(glob.glob("crates/*/must-fail/*.edit")):
        t = open(p, encoding="utf-8").read()
        if re.search(r"^file: (specs|proofs)/", t, re.M):
            write(p, t, "\n".join(swap(l) if re.match(r"^(old|new): ", l) else l for l in t.split("\n")))
    # code spans of the pages
    for p in ["README.md"] + sorted(glob.glob("docs/*.md")) + sorted(glob.glob("tests/*.md")):
        t = open(p, encoding="utf-8").read()
        write(p, t, re.sub(r"`[^`\n]+`", lambda m: swap(m[0]), t))
    print(f"{len(new)} names, {changed} files")


if __name__ == "__main__":
    raise SystemExit(main(sys.argv[1:]))
