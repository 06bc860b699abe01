#!/usr/bin/env python3
"""Brings this repository's own definitions and lemmas to the spelling of today's Rattle: words in snake case, types in camel case, an
apostrophe for a prime. Usage, at the top: python3 tools/snake_names.py (renames), or with --list (prints the names, old and new).

A name is renamed where it is the repository's own: declared or bound in a file of specs/ or of proofs/ (not in the folder of a
function's proof, whose goals are named by the checker), and, in the file at hand, not imported from a library. Functions, types and
fields of src/ keep their names. The script stops, and writes nothing, if two names would fall together in a file.
"""
import glob
import os
import re
import sys

WORD = re.compile(r"(?<![\w\-'′·◌])[^\W\d][\w']*(?:[-′][\w']*)*")
PARTED = re.compile(r"[-′]|[a-z][A-Z]")


def tokens(text):
    """The identifiers of an antt text with their places, comments and quoted texts aside."""
    at = 0
    while at < len(text):
        if text.startswith("--", at) and (at == 0 or text[at - 1] in " \n"):
            at = text.find("\n", at)
            if at < 0:
                return
            continue
        m = WORD.match(text, at)
        if m and (at == 0 or not re.match(r"[\w\-'′◌]", text[at - 1])):
            yield m.start(), m.end(), m.group(0)
            at = m.end()
        else:
            at += 1


def crates(top):
    return sorted(os.path.basename(d) for d in glob.glob(os.path.join(top, "crates", "*")) if os.path.isdir(d))


def imports(text, own):
    """The names that a file takes from elsewhere: (from libraries, from this repository)."""
    library, ours = set(), set()
    for m in re.finditer(r"(?m)^\s*(?:pub |ghost )?use ([^\s{;]+)(?:\{([^}]*)\})?", text):
        path, names = m.group(1), m.group(2)
        parts = path.rstrip(".").split(".")
        mine = len(parts) > 1 and parts[0] == "Rattle" and parts[1] in own and "declared" not in parts
        made = mine and parts[-1] in ("Goals", "Given", "Tie", "Statement", "Lts")
        got = set(re.findall(r"[^\s,{}]+", names)) if names is not None else {parts[-1]}
        (ours if mine and not made else library).update(got)
    return library, ours


def said(f, text):
    """What a file says with names of antt: without the paths of its imports; of a source only imports and clauses."""
    if f.endswith(".rt"):
        text = "\n".join(l for l in text.split("\n") if re.match(r"\s*(ghost use|requires|ensures)\b", l))
    return re.sub(r"(?m)^(\s*(?:pub |ghost )?use )[^\s{;]+", r"\1", text)


def is_type(kind, signature):
    return kind in ("data", "record") or bool(re.search(r"(?:^|→|:)\s*Type(?:\s+\S+)?\s*$", signature))


def declared(text):
    """Names that a file declares or binds, each with whether it is a type."""
    found = {}
    lines = text.split("\n")
    for i, line in enumerate(lines):
        line = re.sub(r"\s*-- .*$", "", line)
        m = re.match(r"\s*(?:(?:pub|unfoldable|abbrev|module) )*(data|record)\s+([^\s(:]+)", line)
        if m and "{" not in line.split("record")[-1][:3]:
            found[m.group(2)] = True
            continue
        m = re.match(r"\s*((?:pub |unfoldable |abbrev )*)([^\s():]+) : (.*)$", line)
        if m and m.group(2) not in ("let", "in"):
            signature = m.group(3)
            for more in lines[i + 1 :]:
                if not re.match(r"\s+→|\s+\(", more):
                    break
                signature += " " + more.strip()
            found[m.group(2)] = found.get(m.group(2), False) or is_type("", signature)
        for name in re.findall(r"(?:let|in|;)\s+([^\s():]+) (?::|=)", line):
            found.setdefault(name, False)
        for group in re.findall(r"[({]([^(){}:]+) :", line):
            for name in group.split():
                found.setdefault(name, False)
        for group in re.findall(r"λ \(?([^.()]+)\)?\.", line):
            for name in re.split(r"[\s,]+", group):
                found.setdefault(name, False)
        m = re.match(r"\s*(?!use |pub use |module |unfolding )(?:let )?([^\s].*?) =(?: |$)", line)
        if m:
            for _, _, name in tokens(m.group(1)):
                found.setdefault(name, False)
    return {n: t for n, t in found.items() if WORD.fullmatch(n)}


def respelled(name, typed):
    name = name.replace("′", "'")
    if typed:
        return "".join(part[:1].upper() + part[1:] for part in re.split(r"-", name))
    words = []
    for part in name.split("-"):
        words.append(re.sub(r"(?<=[a-z])([A-Z])", lambda m: "_" + m.group(1).lower(), part))
    return "_".join(words)


def main(argv):
    top = os.path.dirname(os.path.dirname(os.path.abspath(__file__)))
    own = crates(top)
    theory = sorted(glob.glob(os.path.join(top, "crates", "*", "specs", "*.antt")) + glob.glob(os.path.join(top, "crates", "*", "proofs", "*.antt")))
    functions = sorted(glob.glob(os.path.join(top, "crates", "*", "proofs", "*", "**", "*.antt"), recursive=True))
    sources = sorted(glob.glob(os.path.join(top, "crates", "*", "src", "**", "*.rt"), recursive=True))
    edits = sorted(glob.glob(os.path.join(top, "crates", "*", "must-fail", "*.edit")))
    text = {f: open(f, encoding="utf-8").read() for f in theory + functions + sources + edits}

    names = {}
    for f in theory:
        library, _ = imports(text[f], own)
        for name, typed in declared(text[f]).items():
            if name not in library:
                names[name] = names.get(name, False) or typed
    new = {n: respelled(n, t) for n, t in names.items() if PARTED.search(n) or (t and not n[0].isupper() and n[0].isascii() and len(n) > 1)}
    # a camel-case type keeps its name
    new = {n: m for n, m in new.items() if n != m}

    # in a file of specs/ or proofs/, all of our names; elsewhere those that it imports from specs/ or proofs/
    def ours_in(f):
        library, imported = imports(text[f], own)
        if f in theory:
            return {n: m for n, m in new.items() if n not in library}
        return {n: m for n, m in new.items() if n in imported}

    bad = []
    out = {}
    for f in theory + functions + sources + edits:
        if f in edits:
            source = re.search(r"(?m)^file: (\S+)", text[f])
            about = os.path.normpath(os.path.join(os.path.dirname(f), "..", source.group(1))) if source else None
            turned = ours_in(about) if about in text else {}
            if about in text and about.endswith(".rt"):
                turned = new
        else:
            turned = ours_in(f)
        if f not in edits:
            words = {w for _, _, w in tokens(said(f, text[f]))}
            made = {}
            for n in words & set(turned):
                made.setdefault(turned[n], set()).add(n)
            for m, olds in made.items():
                if len(olds) > 1 or (m in words and m not in turned):
                    bad.append(f"{os.path.relpath(f, top)}: {', '.join(sorted(olds))} would fall together with {m}")
        parts, at = [], 0
        for i, j, w in tokens(text[f]):
            if w in turned:
                parts += [text[f][at:i], turned[w]]
                at = j
        out[f] = "".join(parts) + text[f][at:]

    if "--list" in argv:
        for n in sorted(new):
            print(n, new[n], "type" if names[n] else "")
        print("\n".join(bad))
        return 0
    if bad:
        print("\n".join(bad))
        print("nothing was written")
        return 1
    changed = 0
    for f, t in out.items():
        if t != text[f]:
            with open(f, "w", encoding="utf-8") as o:
                o.write(t)
            changed += 1
    print(f"{len(new)} names, {changed} files")
    return 0


if __name__ == "__main__":
    raise SystemExit(main(sys.argv[1:]))
