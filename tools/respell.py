#!/usr/bin/env python3
"""Brings the repository's own definitions and lemmas to snake case: `putByte` and `had-room` are `put_byte` and `had_room`.

usage: tools/respell.py          once, at the top, after port.py
       tools/respell.py list     the names and what they become; writes nothing

A name is the repository's own where a file of specs/ or proofs/ has its signature. Types, modules, names of the library,
goals that Rattle makes, functions of src/ and strings stay. Two names that would fall together in one file are told, and
nothing is written.
"""
import os
import re
import sys

TOKEN = r"[^\s(){}\[\];,.⌜⌝\"]+"
SIGNATURE = re.compile(r"^( *)((?:(?:abbrev|unfoldable|opaque|pub|unfolding) )*)((?:" + TOKEN + r" )*?" + TOKEN + r")\s+:(?:\s|$)")
IMPORT = re.compile(r"^\s*(?:pub )?(?:ghost )?(?:pub )?use (?:ghost )?([\w.·∷◌◦'′]+?)(?:\.\{(.*?)\})?(?: as (\S+?))?;?\s*$")
# What a snake-case name is already something else's where both are read: a lemma on a definition of its name is its law,
# and the silent outcomes are told apart from the refusals that the demand names alike.
GIVEN = {name: respelling + "_quiet" for name, respelling in (
    ("readIgnored", "read_ignored"), ("frameBroken", "frame_broken"), ("frameCheck", "frame_check"), ("wrongLength", "wrong_length"),
    ("badFunction", "bad_function"), ("noRoom", "no_room"), ("badSetup", "bad_setup"))} | {"readBack": "read_turned"}
LAWS = set("""bit-and bit-or bit-paper byte-paper case-j case-l changes-back data-back data-bytes data-left done-paper error-set function-paper hex-back
    hex-paper kind-back left-paper many-accepted most-length most-read or-broken or-refused proto-back proto-paper put-at range-told read-accepted read-by
    read-done-left size-paper start-of stored-many stored-whole tab-of tag-length verdict-back verdict-paper word-at word-paper write-back write-by""".split())


def texts():
    for folder, dirs, files in os.walk("crates"):
        dirs[:] = sorted(d for d in dirs if d not in ("out", "must-fail", "data"))
        for name in sorted(files):
            if name.endswith((".antt", ".rt")):
                yield os.path.join(folder, name)


def respelt(name):
    """In snake case, or as it is where it is a type, an operator or snake case already."""
    first = name.lstrip("¬◌")
    if not first or not (first[0].islower() or first[0].isdigit()) or first.startswith("λ"):
        return name
    if "◌" in name:
        return name
    if name in GIVEN:
        return GIVEN[name]
    to = re.sub(r"(?<=[a-z0-9])-(?=\S)", "_", name)
    to = re.sub(r"(?<=\S)-(?=\S)", "_", to)
    to = re.sub(r"(?<=[a-z0-9])([A-Z]+)", lambda m: "_" + m[1].lower(), to)
    return to + "_law" if name in LAWS else to


def own(path, text):
    """The names whose signatures stand in this file: definitions, lemmas, fields, constructors; of a function's proof the helpers alone."""
    proof = path.endswith("/Proof.antt")
    lines = text.split("\n")
    for at, line in enumerate(lines):
        if line.lstrip().startswith("--") or line.startswith("use "):
            continue
        it = SIGNATURE.match(line)
        if not it or (len(it[1]) > 4 and "pub " not in it[2]):
            continue
        said = line[it.end():].strip() or (lines[at + 1].strip() if at + 1 < len(lines) else "")
        words = it[3].split(" ")
        if any(w in ("let", "in", "module", "record", "data", "→", "×", "=", "where", "mod", "use", "λ") for w in words):
            continue
        if proof and re.search(r"^(\{.*?\} → )?(tie\.|statement\b)", said):
            continue
        if proof and len(it[1]) > 2:
            continue
        yield from words


def imports(text, mine):
    """Names that the file takes from the library, and those that it takes from the repository."""
    theirs, ours = set(), set()
    for line in text.split("\n"):
        it = IMPORT.match(line)
        if not it:
            continue
        crate = re.match(r"Rattle\.(\w+)\.", it[1] + ".")
        to = ours if crate and crate[1] in mine else theirs
        for name in (it[2] or "").split(","):
            name = name.strip()
            if " as " in name:
                name = name.split(" as ")[1]
            if name:
                to.add(name)
    return theirs, ours


def main(argv):
    mine = {c for c in os.listdir("crates")}
    files = {p: open(p, encoding="utf-8").read() for p in texts()}
    shared, local = {}, {}
    for path, text in files.items():
        if not path.endswith(".antt"):
            continue
        for name in own(path, text):
            to = respelt(name)
            if to != name:
                if path.endswith("/Proof.antt"):
                    local.setdefault(path, {})[name] = to
                else:
                    shared.setdefault(name, (to, path))
    if argv == ["list"]:
        for name, (to, path) in sorted(shared.items()):
            print(name, to, path)
        for path in local:
            for name, to in sorted(local[path].items()):
                print("   ", name, to, path)
        return 0
    bad, out = 0, {}
    for path, text in files.items():
        theirs, ours = imports(text, mine)
        here = local.get(path, {})
        tokens = set(re.findall(TOKEN, text))
        defined = set(own(path, text)) if path.endswith(".antt") else set()
        turn = {}
        for token in tokens:
            if token in here:
                turn[token] = here[token]
            elif token in shared and token not in theirs and not (path.endswith("/Proof.antt") and token not in ours):
                turn[token] = shared[token][0]
        back = {}
        for token, to in turn.items():
            back.setdefault(to, []).append(token)
        for to, both in back.items():
            if len(both) > 1:
                print(f"fall together: {path}: {' and '.join(sorted(both))}")
                bad += 1
        for token, to in turn.items():
            if to in tokens and (to in theirs or to in ours or to in defined):
                print(f"fall together: {path}: {token} and {to}")
                bad += 1
        lines = []
        for line in text.split("\n"):
            parts = re.split(r'("[^"]*")', line) if path.endswith(".rt") else [line]
            parts = [p if p.startswith('"') else re.sub(r"(?<![\w'])" + TOKEN, lambda m: turn.get(m[0], m[0]), p) for p in parts]
            lines.append("".join(parts))
        new = "\n".join(lines)
        if new != text:
            out[path] = new
    if bad:
        print(f"{bad} places where names fall together: nothing is written")
        return 1
    for path, new in out.items():
        with open(path, "w", encoding="utf-8") as f:
            f.write(new)
    print(f"{len(shared)} names, {sum(map(len, local.values()))} of single proofs, {len(out)} files")
    return 0


if __name__ == "__main__":
    raise SystemExit(main(sys.argv[1:]))
