"""For tools/answers.py: a proof of an older Rattle that walks the code, and what stands for its names today, by the map that
`rt check --generated DIR --old-names` writes."""
import re

NAME = r"[^\s(){}\[\];,.:=]+"


def plain(name):
    name = name.replace("-", "_")
    return name[9:] if name.startswith("overflow_") else name


def declarations(text):
    """Head comment, imports, and the declarations as (name, text)."""
    head, uses, out, now = [], [], [], []
    for line in text.split("\n"):
        if line.startswith("use "):
            uses.append(line)
        elif not uses and not out and not now and line.startswith("--"):
            head.append(line)
        elif not line.strip():
            if now:
                out.append("\n".join(now))
            now = []
        elif line.startswith(" ") and not now and out:
            now = [out.pop(), "", line]
        else:
            now.append(line)
    if now:
        out.append("\n".join(now))
    return head, uses, out


class Function:
    def __init__(self, names, crate, f):
        self.f = f
        key = f"Rattle-{crate}-proofs.{f.replace('/', '.')}.Lts"
        found = [k for k in names if k == key] or [k for k in names if k.replace("+", "") == key]
        if not found:
            raise KeyError(key)
        self.it = names[found[0]]
        self.places = self.it["places"]
        self.index = {p[0]: i for i, p in enumerate(self.places)}
        self.at = {}
        self.new = {}
        for (old, new), (place, _) in zip(self.it["needs"], self.it["asked_at"]):
            self.at[plain(old)] = place
            self.new[plain(old)] = new

    def chain(self, place):
        while place is not None:
            i = self.index[place]
            yield i
            place = self.places[i][1]

    def up(self, place):
        return self.places[self.index[place]][1] or place

    def resolve(self, place, step, fields):
        """The new path of STEP.FIELDS as seen from a place."""
        steps = plain(step)
        if not any(plain(self.places[i][2][0]) == steps for i in self.chain(place)):
            place = self.origin  # the older kit had more steps on the way up
        where = None
        for i in self.chain(place):
            if plain(self.places[i][2][0]) == steps:
                where = i
                break
        best = None
        for i in self.chain(place):
            arm = self.it["arms"][i]
            if not arm:
                continue
            for field, old, path in arm[2]:
                if plain(old) == steps and fields[: len(path)] == path and not field.endswith("-own"):
                    if best is None or len(path) > len(best[1]):
                        best = (arm[0] + "." + field, path)
            
        if best:
            return [best[0]] + fields[len(best[1]):]
        for i in self.chain(place):
            arm = self.it["arms"][i]
            for field, old, path in arm[2] if arm else []:
                if plain(old) == steps and field.endswith("-own") and fields[: len(path)] == path:
                    return [arm[0] + "." + field] + fields[len(path):]
        pre = (self.it["pre"] or {}).get("fields", [])
        if steps == "requires" and pre and fields:
            if len(pre) == 1:
                return [step, pre[0]] + fields
            k = 0
            while k < len(pre) - 1 and k < len(fields) and fields[k] == "1":
                k += 1
            return [step, pre[k]] + fields[k + (k < len(pre) - 1):]
        if steps in ("args", "ranges") and fields:
            return [step, fields[0].replace("-", "_")] + fields[1:]
        if where is None:
            return [step] + fields
        new = self.places[where][2][1]
        fn = self.places[where][3]
        fields = list(fields)
        if len(fields) > 1 and fields[0] in ("new", "auto") and fields[1] in ("0", "1") and fn in self.it["params"]:
            k, at = 0, 1
            while at < len(fields) and fields[at] == "1":
                k, at = k + 1, at + 1
            names = self.it["params"][fn]
            if at < len(fields) and fields[at] == "0" and k < len(names):
                fields[1:at + 1] = [names[k]]
        clauses = self.it["clauses"][where]
        if clauses and fields and fields[0] == "ensures" and len(clauses["fields"]) > 0:
            named, at = clauses["fields"], 0
            rest = fields[1:]
            while len(named) - at > 1 and rest and rest[0] == "1":
                rest.pop(0)
                at += 1
            if len(named) - at == 1:
                fields = ["ensures", named[at]] + rest
            elif rest and rest[0] == "0":
                fields = ["ensures", named[at]] + rest[1:]
        return [new] + fields

    def turn(self, place, body):
        """The body of an answer at a place."""
        self.origin = place
        bound = {"c": (place, None, [])}
        out, pos = [], 0
        pattern = re.compile(r"let (" + NAME + r") = (" + NAME + r"(?:\.[\w'-]+)*) in|(?<![\w.'-])(" + NAME + r")((?:\.[\w'-]+)+)")
        for m in pattern.finditer(body):
            out.append(body[pos:m.start()])
            pos = m.end()
            if m[1]:
                word, *fields = m[2].split(".")
                if word not in bound:
                    out.append(m[0])
                    continue
                to, text = self.walk(bound[word], fields)
                bound[m[1]] = to
                if to[1] is None:
                    out.append(f"let {m[1]} = c in")
                else:
                    out.append(f"let {m[1]} = {text} in")
            else:
                if m[3] not in bound:
                    out.append(m[0])
                    continue
                to, text = self.walk(bound[m[3]], m[4][1:].split("."))
                base = bound[m[3]]
                if base[1] is not None and to[1] is not None:
                    kept = self.walk(base, [])[1]
                    if text.startswith(kept + "."):
                        text = m[3] + text[len(kept):]
                out.append(text)
        out.append(body[pos:])
        return re.sub(r"\(not-(?:true|false) _ (c\.if-not-[\w.-]+)\)", r"\1", "".join(out))

    def walk(self, base, fields):
        place, step, got = base
        fields = list(fields)
        if step is None:
            while fields and fields[0] == "before":
                place = self.up(place)
                fields.pop(0)
            if not fields:
                return (place, None, []), "c"
            step, got = fields[0], []
            fields = fields[1:]
        got = got + fields
        return (place, step, got), "c." + ".".join(self.resolve(place, step, got))


def invariant(fn, text):
    """An old invariant or measure of a loop, over a record of the loop's variables."""
    m = re.match(r"(?:abbrev |unfoldable )?(" + NAME + r") : tie\.(invariant|decreases)-(\S+)\n((?:unfolding.*\n)?)\1((?: " + NAME + r")*) =\s*((?:.|\n)*)", text)
    if not m:
        return None
    kind, loop, unfolding, args, body = m[2], m[3], m[4], m[5].split(), m[6]
    for ((old, new), names), changed in zip(fn.it["loops"], fn.it["changed"]):
        if plain(old) != plain(loop):
            continue
        turned = {}
        first, later = args[: len(names)], args[len(names):]
        for a, name, ch in zip(first, names, changed):
            turned[a] = f"l.initial.{name}" if ch else f"l.{name}"
        for a, name in zip(later, [n for n, ch in zip(names, changed) if ch]):
            turned[a] = f"l.{name}"
        body = re.sub(r"(\{" + NAME + r" =)|(?<![\w.'-])" + NAME, lambda t: t[0] if t[1] else turned.get(t[0], t[0]), body)
        return f"abbrev pub {kind}-{new} : goal.{kind}-{new}\n{unfolding}{kind}-{new} l = {body}"
    return None


def goal_of(text):
    m = re.match(r"(" + NAME + r") : (?:\{[^}]*\} → )?tie\.Need-(\S+)([^\n]*)\n", text)
    return m and (m[1], m[2])


def parts(fn, text):
    head, uses, decls = declarations(text)
    uses = [u for u in uses if not re.search(r"\.(Statement|Tie)\b", u)]
    invariants, answers, helpers = [], {}, []
    names = {}
    for d in decls:
        it = invariant(fn, d)
        if it:
            invariants.append(it)
            continue
        if re.match(r"(?:abbrev )?" + NAME + r" : tie\.(invariant|decreases)-", d):
            invariants.append("-- TODO\n" + d)
            continue
        g = goal_of(d)
        if g:
            names[g[0]] = g[1]
            answers[g[1]] = (g[0], d)
            continue
        if re.match(r"pub \S+[-_]spec : ", d):
            continue
        helpers.append(d)
    turned = {}
    for old, (name, d) in answers.items():
        new = fn.new.get(plain(old))
        if not new:
            turned["?" + old] = "-- no such goal today\n" + d
            continue
        lines = d.split("\n")[1:]
        body = "\n".join(lines)
        m = re.match(r"((?:unfolding[^\n]*\n)*)" + re.escape(name) + r"((?: " + NAME + r")*) =", body)
        if not m:
            turned[new] = "-- TODO\n" + d
            continue
        rest = fn.turn(fn.at[plain(old)], body[m.end():])
        given = m[2] if re.search(r"(?<![\w.'-])κs", rest) else m[2].replace(" κs", "")
        turned[new] = f"pub {new} : goal.{new}\n{m[1]}{new}{given} ={rest}"
    return head, uses, helpers, invariants, turned
