#!/usr/bin/env python3
"""Turns the proofs that walk the code, proofs/F/Proof.antt, to Invariants.antt and Answers.antt, for the goals that the check leaves open.

usage: tools/answers.py CRATE [F ..]          at the top; every function of CRATE, or these (as below proofs/)
       tools/answers.py --dry CRATE F         prints both files whole, with every goal that the old proof answered

The old proofs are read from the commit in docs/PORT.md's second line. What is turned is a beginning: rt check decides.
"""
import json
import os
import re
import subprocess
import sys

from old_proofs import NAME, Function, parts


def run(words, where="."):
    return subprocess.run(words, cwd=where, stdout=subprocess.PIPE, stderr=subprocess.STDOUT, text=True, errors="replace").stdout


def begun():
    return open("docs/PORT.md").read().split("\n")[1].strip()


def names_of(helper):
    """What a helper declares: a lemma, or those of a module without a name."""
    lines = [l for l in helper.split("\n") if not l.lstrip().startswith("--")]
    if lines and lines[0].startswith("module "):
        return [m[1] for l in lines[1:] if (m := re.match(r"  (?:abbrev |unfoldable |pub )*(" + NAME + r") :", l))]
    m = re.match(r"(?:abbrev |unfoldable |pub |data |record )*(" + NAME + ")", lines[0]) if lines else None
    return [m[1]] if m else []


def path_of(crate, f):
    return f"Rattle.{crate}.proofs.{f.replace('/', '.')}"


def used(names, texts):
    text = "\n".join(texts)
    return [n for n in names if re.search(r"(?<![\w.'-])" + re.escape(n) + r"(?![\w'-])", text)]


def imports(uses, texts):
    """Those of the imports whose names the texts have."""
    out = []
    text = "\n".join(texts)
    for u in uses:
        m = re.match(r"use (\S+?)\.\{(.*)\}$", u)
        if not m:
            out.append(u)
            continue
        keep = []
        for n in m[2].split(", "):
            word = n.split(" as ")[-1]
            marks = [w for w in word.split("◌") if w]
            if all(w in text for w in marks):
                keep.append(n)
        if keep:
            out.append(f"use {m[1]}.{{{', '.join(keep)}}}")
    return out


def needed(helpers, texts, above=()):
    """The helpers that the texts cite, or that such helpers cite, but for those that stand above."""
    need, texts = [], list(texts)
    grew = True
    while grew:
        grew = False
        for h in helpers:
            if h not in need and set(names_of(h)) - set(above) and used(names_of(h), texts):
                need.append(h)
                texts.append(h)
                grew = True
    return [h for h in helpers if h in need]


def write_invariants(crate, f, head, uses, helpers, invariants):
    body = "\n\n".join(invariants)
    need = needed(helpers, [body])
    need = [re.sub(r"^((?:abbrev |unfoldable )?)(?!pub |abbrev |unfoldable |module |--)", r"\1pub ", h) for h in need]
    text = "\n".join(head + imports(uses, need + [body]) + [f"use {path_of(crate, f)}.Given as goal", "", "\n\n".join(need + [body]), ""])
    with open(f"crates/{crate}/proofs/{f}/Invariants.antt", "w") as out:
        out.write(text)
    return [n for h in need for n in names_of(h)]


def write_answers(crate, f, head, uses, helpers, answers, above):
    body = "\n\n".join(answers)
    need = needed(helpers, [body], above)
    texts = [body] + need
    more = [f"use {path_of(crate, f)}.Invariants.{{{', '.join(used(above, texts))}}}"] if used(above, texts) else []
    text = "\n".join(head + imports(uses, texts) + more + [f"use {path_of(crate, f)}.Goals as goal", "", "\n\n".join(need + [body]), ""])
    with open(f"crates/{crate}/proofs/{f}/Answers.antt", "w") as out:
        out.write(text)


def main(argv):
    dry = argv[:1] == ["--dry"]
    argv = argv[dry:]
    crate, *only = argv
    commit = begun()
    where = f"crates/{crate}"
    kept = f"/tmp/names-{crate}-{os.getpid()}"
    said = run(["rt", "check", "--generated", kept, "--old-names"], where)
    if not os.path.exists(f"{kept}/names.json"):
        print(said[-3000:])
        return 1
    names = json.load(open(f"{kept}/names.json"))
    files = [l for l in run(["git", "ls-tree", "-r", "--name-only", commit, f"{where}/proofs"]).split("\n") if l.endswith("/Proof.antt")]
    work = {}
    for p in files:
        f = p[len(where) + 8: -len("/Proof.antt")]
        if only and f not in only:
            continue
        text = run(["git", "show", f"{commit}:{p}"])
        try:
            fn = Function(names, crate, f)
        except KeyError as e:
            print(f"no names for {f}: {e}")
            continue
        work[f] = parts(fn, text)
    if dry:
        for f, (head, uses, helpers, invariants, turned) in work.items():
            print("\n\n".join(invariants + helpers + list(turned.values())))
        return 0
    above = {}
    for f, (head, uses, helpers, invariants, turned) in work.items():
        old = f"{where}/proofs/{f}/Proof.antt"
        if os.path.exists(old):
            os.remove(old)
        answers = f"{where}/proofs/{f}/Answers.antt"
        if os.path.exists(answers):
            os.remove(answers)
        os.makedirs(f"{where}/proofs/{f}", exist_ok=True)
        above[f] = write_invariants(crate, f, head, uses, helpers, invariants) if invariants else []
    said = run(["rt", "check"], where)
    open(f"/tmp/answers-{crate}-1.txt", "w").write(said)
    left = 0
    for m in re.finditer(r"(?m)^fn (\S+?): no proof: .*?Answers\.antt; `search` did not prove (.*?)(?:; it calls .*)?$|^fn (\S+?): no proof: (.*)$", said):
        if m[3]:
            print(f"{m[3]}: {m[4][:200]}")
            continue
        f = re.search(r"proofs/(.*?)/Answers\.antt", m[0])[1]
        if f not in work:
            continue
        head, uses, helpers, invariants, turned = work[f]
        goals = re.findall(r"`([^`]+)`", m[2])
        answers = []
        for g in goals:
            if g in turned:
                answers.append(turned[g])
            else:
                whole = re.sub(r"-clause-\w+$", "", g)
                if whole in turned and turned[whole] not in answers:
                    answers.append(turned[whole])
                elif whole not in turned:
                    answers.append(f"pub {g} : goal.{g}\n{g} c = ?")
                    left += 1
        if any(a.endswith(" c = ?") for a in answers):
            answers += ["\n".join("-- " + l for l in t.split("\n")) for g, t in turned.items() if g.startswith("?")]
        write_answers(crate, f, head, uses, helpers, answers, above[f])
    said = run(["rt", "check"], where)
    open(f"/tmp/answers-{crate}-2.txt", "w").write(said)
    print("\n".join(l for l in said.split("\n") if re.match(r"fn .*(not proved|no proof)|logic=|\S+\.antt:\d+:\d+: error", l)))
    print(f"{left} goals with a hole; what was said: /tmp/answers-{crate}-1.txt, -2.txt")
    return 0


if __name__ == "__main__":
    raise SystemExit(main(sys.argv[1:]))
