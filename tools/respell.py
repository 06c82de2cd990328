#!/usr/bin/env python3
"""Respells the repository's own definitions and lemmas: words in snake case, a prime as an apostrophe.

Run once, at the top, after the port's script. It reads the names that specs/ and proofs/ define, and writes them anew wherever a .antt file,
a .rt file outside its strings, a must-fail edit or a page's code has them. Names of functions of src/, of types and of modules stay.
"""
import os
import re
import sys

TOP = os.path.dirname(os.path.dirname(os.path.abspath(__file__)))
TOKEN = re.compile(r"[^\s(){}\[\];,.@\"`λ]+")
DEFINED = re.compile(r"^(?:abbrev |unfoldable )?(?:pub )?([^\s:(){}]+)\s*:\s")
INNER = re.compile(r"^\s+(?:abbrev |unfoldable )?(?:pub )?([^\s:(){}]+)\s*:\s")
IMPORT = re.compile(r"^\s*(?:ghost )?(?:pub )?use ((?:Rattle\.)?[^\s.·]+)[^{]*\{([^}]*)\}")
OURS = re.compile(r"^Rattle[.·]")


def files(*ends):
    for top in ("crates", "docs", "oracle", "acpica", "bench", "host", "tests"):
        for folder, inner, names in os.walk(os.path.join(TOP, top)):
            inner[:] = sorted(d for d in inner if d not in ("out", "target"))
            for name in sorted(names):
                if name.endswith(ends):
                    yield os.path.join(folder, name)


def snake(name):
    name = re.sub(r"(?<=[a-z0-9])([A-Z])", lambda m: "_" + m.group(1).lower(), name)
    return name.replace("′", "'").replace("-", "_")


def is_walk(path):
    """A proof that goes through the code by hand: its own names are the kit's goals."""
    return path.endswith("/Proof.antt")


def own_names():
    """Each name and how it is spelled from now on. Where two of one file would fall together, the lemma gets `_lem`."""
    found = set()
    for path in files(".antt"):
        if is_walk(path):
            continue
        with open(path, encoding="utf-8") as text:
            for line in text:
                if line.startswith(("use ", "--")):
                    continue
                m = DEFINED.match(line) or INNER.match(line)
                if m:
                    found.update(m.group(1).split(" "))
    # a name that begins with a capital is a type's, and an operator has no letters
    found = {n for n in found if re.match(r"[a-zσμ]", n) and not re.search(r"[◌≡→]", n)}
    groups = {}
    for name in found:
        groups.setdefault(snake(name), []).append(name)
    words = [set(TOKEN.findall(open(path, encoding="utf-8").read())) for path in files(".antt") if not is_walk(path)]
    names = {}
    for new, olds in sorted(groups.items()):
        olds.sort(key=lambda n: (not re.search("[a-z][A-Z]", n), "-" in n))
        for i, old in enumerate(olds):
            met = any(old in w and first in w for w in words for first in olds[:i])
            names[old] = new + "_lem" if met else new
            if met:
                print("a lemma beside", new, "is now", names[old], "from", old)
    return {old: new for old, new in names.items() if old != new}, set(names.values())


def borrowed(text):
    """What a file takes from elsewhere under its own name."""
    taken = set()
    for line in text.split("\n"):
        m = IMPORT.match(line)
        if m and not (OURS.match(m.group(1)) and not m.group(1).startswith("Rattle.std")):
            taken.update(w.strip() for w in m.group(2).split(","))
    return taken


def respell(text, names, walk=False, known=()):
    """`known`: what a page or an edit may still call by a spelling that the port's script has changed."""
    own = {}
    if walk:
        own = {m.group(1) for m in map(DEFINED.match, text.split("\n")) if m}
    keep = borrowed(text)

    def word(m):
        w = m.group(0)
        if w in keep or w in own:
            return w
        if walk and text[: m.start()].endswith("."):
            before = text[max(0, m.start() - 60) : m.start()]
            # a field of the kit's record of facts, or a goal
            if re.search(r"[\w₀-₉'-]\.$", before) and not re.search(r"\b[A-Z][\w]*\.$", before):
                return w
        if w not in names and known and re.match(r"[a-z]", w) and snake(w) in known:
            return snake(w)
        return names.get(w, w)

    return TOKEN.sub(word, text)


def in_code(text, names):
    """A .rt file: strings stay."""
    parts = re.split(r'(b?"(?:[^"\\\n]|\\.)*")', text)
    return "".join(p if i % 2 else respell(p, names) for i, p in enumerate(parts))


def in_page(text, names, known):
    return re.sub(r"`[^`\n]+`", lambda m: respell(m.group(0), names, known=known), text)


def in_edit(text, names, known):
    """The comments of an edit, too: they say what it turns."""
    return respell(text, names, known=known)


def main():
    if any(path.endswith("/Invariants.antt") for path in files(".antt")):
        print("respell: it was run already: the proofs of functions have the toolchain's names now, which it does not know")
        return 1
    names, known = own_names()
    changed = 0
    for path in files(".antt", ".rt", ".edit", ".md"):
        with open(path, encoding="utf-8") as text:
            old = text.read()
        if path.endswith(".rt"):
            text = in_code(old, names)
        elif path.endswith(".md"):
            text = in_page(old, names, known)
        elif path.endswith(".edit"):
            text = in_edit(old, names, known)
        else:
            text = respell(old, names, is_walk(path))
        if text != old:
            changed += 1
            with open(path, "w", encoding="utf-8") as out:
                out.write(text)
    print(f"respell: {len(names)} names, {changed} files")
    return 0


if __name__ == "__main__":
    sys.exit(main())
