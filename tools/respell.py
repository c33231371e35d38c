#!/usr/bin/env python3
"""Respells the repository's own definitions and lemmas as today's Rattle spells names: snake case, types in camel case.

usage: respell.py            at the top of the repository, once, behind port.py
It renames each name that a file of specs/ or a lemma file of proofs/ declares at its head, wherever that name stands in
.antt, .rt and .edit files and in the pages; a file that imports a library's name of the same spelling keeps it there.
In comments and pages a word of the railway (PLAIN) is a name only between backquotes.
"""
import glob, os, re, sys, collections

WORD = re.compile(r"[A-Za-z_][A-Za-z0-9_'′]*(?:-[A-Za-z0-9_'′]+)+")
HEAD = re.compile(r"^ {0,4}((?:(?:abbrev|unfoldable|opaque|private|pub|record|data|ruleset)\s+)*)((?:[^\s(){}:.,;=]+\s+)*[^\s(){}:.,;=]+)\s*(?=[:({])")
TAKEN = {"flat-map": "flat_map_lem"}  # lemmas that would have the name of the library's function
PLAIN = {"in-link", "out-link"}
COMMENTS = {".antt": r"(?:^|(?<=\s))--(?=\s|$)", ".rt": r"//", ".edit": r"^(?!file: |old: |new: )", ".md": r"^"}
OWN_FILES = ("Proof.antt", "Answers.antt", "Invariants.antt")


def read(p):
    with open(p, encoding="utf-8") as f:
        return f.read()


def listed():
    return sorted(d for d in os.listdir("crates") if os.path.isdir(f"crates/{d}/src"))


def files():
    for c in listed():
        for p in sorted(glob.glob(f"crates/{c}/**/*", recursive=True)):
            if "/out/" not in p and os.path.isfile(p) and p.endswith((".antt", ".rt", ".edit")):
                yield p


def camel(n):
    return "".join(w[:1].upper() + w[1:] for w in n.split("-"))


def renaming():
    to, fields = {}, {}
    for p in files():
        if not p.endswith(".antt") or (os.path.basename(p) in OWN_FILES and "/proofs/" in p):
            continue
        inside = False
        for l in read(p).splitlines():
            m = HEAD.match(l)
            if m and m[2].split()[0] not in ("use", "unfolding", "mod", "--", "infix", "syntax", "let", "in", "section", "λ"):
                inside = "record" in m[1] or "data" in m[1]
                for n in m[2].split()[:1] if inside else m[2].split():
                    if "-" in n or "′" in n:
                        to[n] = (camel(n) if n[0].isupper() else n.replace("-", "_")).replace("′", "'")
            elif inside and (m := re.match(r"^\s+(?:pub\s+)?([a-z][^\s(){}:.,;]*-[^\s(){}:.,;]*)\s*:", l)):
                to[m[1]] = m[1].replace("-", "_")  # a record's field, a constructor
    back = collections.defaultdict(set)
    for a, b in to.items():
        back[b].add(a)
    for b, a in back.items():
        if len(a) > 1:
            sys.exit(f"respell: {sorted(a)} fall together as {b}")
    to.update((a, b) for a, b in TAKEN.items() if a in to)
    return to


def foreign(text, own):
    """Names that the file imports from a library."""
    out = set()
    for m in re.finditer(r"^(?:pub |ghost )?use ([\w.·+'-]+?)\.\{([^}]*)\}", text, re.M):
        if not (m[1].startswith("Rattle.") and m[1].split(".")[1] in own):
            out |= {w.strip().split(" as ")[0] for w in m[2].split(",")}
    return out


def respelled(text, ending, name):
    """The text with its names replaced by name(..), but for the PLAIN words of its comments."""
    out = []
    for line in text.split("\n"):
        m = re.search(COMMENTS[ending], line)
        code, comment = (line[:m.start()], line[m.start():]) if m else (line, "")
        parts = comment.split("`")
        parts[::2] = [WORD.sub(lambda w: w[0] if w[0] in PLAIN else name(w[0]), part) for part in parts[::2]]
        parts[1::2] = [WORD.sub(lambda w: name(w[0]), part) for part in parts[1::2]]
        out.append(WORD.sub(lambda w: name(w[0]), code) + "`".join(parts))
    return "\n".join(out)


def main():
    own, to = set(listed()), renaming()
    existing = set()
    for p in files():
        existing |= set(re.findall(r"[A-Za-z_][A-Za-z0-9_']*", read(p)))
    for a, b in sorted(to.items()):
        if b in existing:
            print(f"look: {a} -> {b}, a word that stands already")
    n = 0
    for p in list(files()) + ["README.md"] + sorted(glob.glob("docs/**/*.md", recursive=True)):
        old = read(p)
        keep = foreign(old, own)
        new = respelled(old, os.path.splitext(p)[1], lambda n: n if n in keep else to.get(n, n))
        for a, b in to.items():
            if "◌" in a:
                new = new.replace(a, b)
        new = new.replace("′", "'") if p.endswith((".antt", ".rt", ".edit")) else new
        if new != old:
            n += 1
            with open(p, "w", encoding="utf-8") as f:
                f.write(new)
    print(f"respell: {len(to)} names in {n} files")


main()
