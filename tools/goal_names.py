#!/usr/bin/env python3
"""Names goals, steps, places and clauses in proofs by hand as today's Rattle does.

    rt names NAMES; python3 tools/goal_names.py NAMES [CRATE..]

For each crates/CRATE/proofs/F/Proof.antt: the old and the new names of F's goals (`tie.Need-..`), places (`tie.After-..`), steps
(`c.before.if1`) and loops stand in names.json; results of calls whose `ensures` has several clauses are cited by the clause's name.
Run once, after port.py and tools/spelling.py; what it leaves is mended by hand.
"""
import glob
import json
import re
import sys

CHAR = r"[^\s(){}\[\],;.@\"«»`:]"


def norm(name):
    return name.replace("_", "-").lower()


def goal_key(name):
    name = re.sub(r"^(overflow|nonzero|bounds|offset-bounds)-", "", norm(name))
    return name


def turn(text, of, path):
    needs = {norm(a): b for a, b in of["needs"]}
    places = {norm(p[0]): n for p, n in zip(of["places"], of["places_by_name"])}
    steps = {norm(p[2][0]): p[2][1] for p in of["places"] if p[2][0]}
    clauses = {p[2][1]: c["fields"] for p, c in zip(of["places"], of["clauses"]) if c and c["fields"]}
    loops = {norm(a): b for (a, b), _ in of["loops"]}
    arms_of = {norm(p[0]): a for p, a in zip(of["places"], of["arms"]) if a}
    body = text

    def need(m):
        k = goal_key(m[1])
        if k not in needs and k + "-1" in needs:
            k += "-1"
        if k.startswith("slice-bounds-"):
            return "tie.Need-slice_bounds-" + k[13:]
        if k not in needs:
            print(f"{path}: no goal {m[1]}: {sorted(needs)}", file=sys.stderr)
            return m[0]
        return "tie.Need-" + needs[k]

    body = re.sub(r"tie\.Need-(" + CHAR + "+)", need, body)

    final = {}
    for p, n, a in zip(of["places"], of["places_by_name"], of["arms"]):
        if a:
            final[norm(p[0])] = n
            while norm(p[1] or "") in final and a[0] == arms_of.get(norm(p[1]), [None])[0]:
                final[norm(p[1])] = n
                p = next(q for q in of["places"] if q[0] == p[1])

    def place(m):
        k = norm(m[1])
        if k in places:
            return "tie." + final.get(k, places[k])
        for word in ("invariant-", "decreases-"):
            if k.startswith(word) and k[len(word):] in loops:
                return "tie." + word + loops[k[len(word):]]
        return m[0]

    body = follow(body, of, path)
    body = re.sub(r"tie\.((?:After|Then|Else|At|In|invariant|decreases|Untold|Start)" + CHAR + "*)", place, body)

    body = re.sub(r"(\.loop-[^.\s()]*)\.inv\b", r"\1.invariant", body)
    body = re.sub(r"(\.(?:if|loop)-[^.\s()]*)\.left\b", r"\1.false", body)
    body = re.sub(r"(\.(?:if|loop)-[^.\s()]*)\.taken\b", r"\1.true", body)
    for old, new in of["args"]:
        if old.startswith(".args ."):
            body = re.sub(r"\." + re.escape(old[7:]) + r"(?![\w'-])", "." + new[7:], body)
    name = path.split("/")[-2]
    body = re.sub(r"(?<![\w-])" + re.escape(norm(name)) + r"-spec(?![\w-])", name + "_spec", body)
    body = re.sub(r"(?<![\w-])" + re.escape(name) + r"-spec(?![\w-])", name + "_spec", body)
    return body


class Places:
    """The places of a function's walk: what each is reached from, and the fields of their records, in old and new names."""

    def __init__(self, of):
        self.at = {}
        for p, n, a, c in zip(of["places"], of["places_by_name"], of["arms"], of["clauses"]):
            told = (c["fields"] if c else None, of["params"].get(p[3]))
            self.at[norm(p[0])] = (norm(p[1]) if p[1] else None, norm(p[2][0]), p[2][1], a, told, n)
        self.asked = {norm(a[0]): norm(b[0]) for a, b in zip(of["needs"], of["asked_at"])}
        self.new_asked = {a[1]: norm(b[0]) for a, b in zip(of["needs"], of["asked_at"])}
        self.steps = {v[1]: v for v in self.at.values() if v[1]}
        self.needs = [b[0] for b in of["asked_at"]]
        self.loops = len(of["loops"])
        # Own functions whose result is a place.
        self.helpers = {}
        # The place that an own function takes first.
        self.takes = {}
        self.old_names = {k: k for k in self.at}


def follow(body, of, path):
    """Paths through the places, `c.before.before.if1.true`, in new names; two places that are one now are one step."""
    all_at = Places(of)
    blocks = re.split(r"(?m)(?<=\n)(?=\n\S)", body)
    return "".join(block(b, all_at, path) for b in blocks)


def block(text, places, path):
    head = re.search(r"(?m)^(?:abbrev |pub |unfoldable )*(" + CHAR + r"+) : ((?:.|\n)*?)(?=^\S)", text)
    if not head:
        return text
    name, typ = head[1], head[2]
    env, named = {}, {}
    lhs = re.search(r"(?m)^" + re.escape(name) + r"((?: [^=\n]*)?) =", text[head.end() - 1 :])
    given = re.findall(r"\{[^}]*\}|[^\s]+", lhs[1]) if lhs else []
    given = [g for g in given if not g.startswith("{")]
    need = re.match(r"tie\.Need-(\S+)", typ.strip())
    if need:
        if given and need[1] in places.new_asked:
            env[given[0]] = ("place", places.new_asked[need[1]], given[0], places.new_asked[need[1]])
    else:
        n = 0
        for part in top_arrows(typ):
            part = part.strip()
            while part.startswith("{"):
                part = part[part.index("}") + 1 :].strip()
            for m in re.finditer(r"\(([^:()]+) : ((?:[^()]|\([^()]*\))*)\)", part) if part.startswith("(") and re.match(r"\([^:()]+ : ", part) else [None]:
                names, t = (m[1].split(), m[2]) if m else ([None], part)
                for x in names:
                    k = re.match(r"tie\.(\S+)", t.strip())
                    if k and n < len(given) and norm(k[1]) in places.old_names:
                        env[given[n]] = ("place", norm(k[1]), given[n], norm(k[1]))
                    if k and x and norm(k[1]) in places.old_names:
                        named[x] = ("place", norm(k[1]), x, norm(k[1]))
                    n += 1
        result = re.match(r"tie\.(\S+)", top_arrows(typ)[-1].strip())
        if result and norm(result[1]) in places.old_names:
            places.helpers[name] = norm(result[1])
            straight = re.search(r"(?m)^" + re.escape(name) + r" (\S+) = (\S+?)((?:\.before)*)$", text)
            if straight and straight[1] == straight[2] and straight[1] in env:
                here, there = env[straight[1]][1], norm(result[1])
                if there in above(here, places):
                    way = "".join("." + x for x in befores(here, there, places))
                    return text[: straight.start(3)] + way + text[straight.end(3) :]
        if given and given[0] in env:
            places.takes[name] = env[given[0]][1]
    body_at = head.end() - 1
    if "tie.spec" in text:
        return text[:body_at] + spec_of(text[body_at:], places, f"{path}: {name}")
    if named:
        at = head.start(2)
        return text[:at] + paths(text[at:body_at], named, places, f"{path}: {name}") + paths(text[body_at:], env, places, f"{path}: {name}")
    return text[:body_at] + paths(text[body_at:], env, places, f"{path}: {name}")


def spec_of(text, places, where):
    """The last part of a proof, each `(λ c. ..)` in which answers the goal of its place in the row."""
    at = text.index("tie.spec") + len("tie.spec")
    out, n = text[:at], -2 * places.loops
    while at < len(text):
        gap = re.match(r"\s+", text[at:])
        if gap:
            out += gap[0]
            at += gap.end()
        if at >= len(text) or text[at] == ")":
            break
        end = closing(text, at) + 1 if text[at] == "(" else at + re.match(r"[^\s()]+", text[at:]).end()
        word = text[at:end]
        bound = re.match(r"\(λ (\S+?)(?: [^.]*)?\. ", word)
        if bound and 0 <= n < len(places.needs) and word.split(". ", 1)[1] != "search rules)":
            p = norm(places.needs[n])
            word = paths(word, {bound[1]: ("place", p, bound[1], p)}, places, where)
        out += word
        at = end
        n += 1
    return out + text[at:]


def closing(text, at):
    depth = 0
    for i in range(at, len(text)):
        depth += text[i] in "([{"
        depth -= text[i] in ")]}"
        if depth == 0:
            return i
    return len(text)


def top_arrows(typ):
    out, depth, last = [], 0, 0
    for i, ch in enumerate(typ):
        depth += ch in "([{"
        depth -= ch in ")]}"
        if ch == "→" and depth == 0:
            out.append(typ[last:i])
            last = i + 1
    return out + [typ[last:]]


def above(place, places):
    out = []
    while place:
        out.append(place)
        place = places.at[place][0]
    return out


def befores(here, there, places):
    """The fields that lead from a place up to one above it: two places of an arm are one now."""
    out = []
    while here != there:
        arm = places.at[here][3]
        if not (arm and arm[1] > 1):
            out.append("before")
        here = places.at[here][0]
    return out


def walk(var, of, fields, places, where):
    """What a path leads to, and the path in new names. Of a place: ("place", place, root variable, root's place)."""
    kind = of
    out = [var]
    i = 0
    if kind[0] == "place":
        here = kind[1]
        while i < len(fields) and norm(fields[i]) == "before":
            here = places.at[here][0] or here
            i += 1
        if i == len(fields):
            return ("place", here, kind[2], kind[3]), out + befores(kind[1], here, places)
        f = norm(fields[i])
        chain = above(kind[3], places)
        if f in ("args", "requires", "pre", "ranges"):
            target = chain[-1]
        else:
            those = [p for p in chain if places.at[p][1] == f]
            # The step that is meant is the nearest to where the older walk had it.
            target = min(those, key=lambda p: abs(chain.index(p) - chain.index(here))) if those else None
        if target is None:
            if f not in ("type-inv", "well-formed"):
                print(f"{where}: no step {f} above {kind[1]}", file=sys.stderr)
            return None, out + befores(kind[1], here, places) + fields[i:]
        if chain.index(target) >= chain.index(kind[1]):
            out += befores(kind[1], target, places)
        else:
            out = [kind[2]] + befores(kind[3], target, places)
        _, old, new, arm, clauses, _ = places.at[target]
        if f in ("args", "requires", "pre", "ranges"):
            return None, out + ["requires" if f == "pre" else fields[i]] + fields[i + 1 :]
        if arm:
            rest = [norm(x) for x in fields[i + 1 :]]
            for fresh, step, below in arm[2]:
                if norm(step) == old and rest[: len(below)] == below:
                    return None, out + [arm[0], fresh] + fields[i + 1 + len(below) :]
            print(f"{where}: {'.'.join(fields)} in the arm {arm}", file=sys.stderr)
            return None, out + fields[i:]
        out.append(new)
        kind = ("step", clauses)
        i += 1
    while i < len(fields):
        f = fields[i]
        if kind[0] == "step" and f == "ensures":
            kind = ("ensures", kind[1])
        elif kind[0] == "step" and f in ("new", "last", "auto", "kept") and kind[1] and kind[1][1]:
            ones = 0
            while i + 1 + ones < len(fields) and fields[i + 1 + ones] == "1":
                ones += 1
            if fields[i + 1 + ones : i + 2 + ones] == ["0"] and ones < len(kind[1][1]):
                out += ["new" if f == "last" else "auto" if f == "kept" else f, kind[1][1][ones]]
                return None, out + fields[i + 2 + ones :]
            kind = (None,)
        else:
            kind = (None,)
        out.append(f)
        i += 1
    return (kind if kind[0] else None), out


def paths(text, env, places, where):
    word = re.compile(r"(--[^\n]*)|(let\s+(" + CHAR + r"+)\s*=\s*)?(?<![\w.)'₀-₉-])(" + CHAR + r"+)((?:\." + CHAR + r"+)*)(\s+in\b)?|(\((" + CHAR + r"+) [^()=]*\)|\))((?:\." + CHAR + r"+)+)")

    def one(m):
        if m[1]:
            return m[0]
        if m[7]:
            fields = m[9][1:].split(".")
            if m[8] in places.helpers:
                at = places.helpers[m[8]]
                inner = m[7]
                return ".".join(walk(inner, ("place", at, inner, at), fields, places, where)[1])
            if m[8]:
                return m[7] + m[9] if not places.steps.get(norm(fields[0])) else m[7] + "." + ".".join(fields)
            known = places.steps.get(norm(fields[0]))
            if known and not known[3]:
                at = next(k for k, v in places.at.items() if v is known)
                _, found = walk("", ("place", at, "", at), fields, places, where)
                fields = found[1:]
            return m[7] + "." + ".".join(fields)
        if m[3] and m[4] in places.helpers and not m[5]:
            env[m[3]] = ("place", places.helpers[m[4]], m[3], places.helpers[m[4]])
            return m[0]
        start = env.get(m[4])
        fields = m[5][1:].split(".") if m[5] else []
        kind, new = walk(m[4], start, fields, places, where) if start else (None, [m[4]] + fields)
        if not start and fields and fields[0] == "before":
            print(f"{where}: {m[0]}", file=sys.stderr)
        if m[3]:
            if m[6] and start:
                if kind:
                    env[m[3]] = kind
                else:
                    env.pop(m[3], None)
            elif m[3] in env:
                env.pop(m[3], None)
        return (m[2] or "") + ".".join(new) + (m[6] or "")

    def given(m):
        """A place that is handed to an own function is the one that the function takes."""
        var = env.get(m[3])
        if not var or m[2] not in places.takes:
            return m[0]
        wanted = places.takes[m[2]]
        _, here = var[0], var[1]
        if wanted in above(var[1], places):
            return m[1] + m[2] + " " + m[3] + "".join("." + x for x in befores(var[1], wanted, places))
        if wanted in above(var[3], places):
            return m[1] + m[2] + " " + var[2] + "".join("." + x for x in befores(var[3], wanted, places))
        return m[0]

    turned = word.sub(one, text)
    return re.sub(r"(?<![\w.'-])()(" + CHAR + r"+) (" + CHAR + r"+)((?:\.before)*)(?![\w.'-])", given, turned)


def main():
    names, only = sys.argv[1], sys.argv[2:]
    for path in sorted(glob.glob("crates/*/proofs/**/Proof.antt", recursive=True)):
        crate = path.split("/")[1]
        if only and crate not in only:
            continue
        listed = json.load(open(f"{names}/crates/{crate}/names.json"))
        key = f"Rattle-{crate}-proofs." + ".".join(path.split("/")[3:-1]) + ".Lts"
        if key not in listed:
            print(f"{path}: not listed", file=sys.stderr)
            continue
        text = open(path).read()
        new = turn(text, listed[key], path)
        if new != text:
            open(path, "w").write(new)


if __name__ == "__main__":
    main()
