#!/usr/bin/env python3
"""Brings the repository's own names in specs, proofs and contracts to the kit's spelling.

usage: python3 tools/respell.py [--dry | --force]      at the top of the repository, after the kit's port.py
       --dry writes nothing; --force writes also where names fall together

Types are in upper camel case (At-sight becomes AtSight); definitions, lemmas, constructors, fields and variables are in
snake case (places-all becomes places_all, nodeAt becomes node_at). The names of goals and of their steps, and those of the
kit's libraries, stay. Names that would fall together are printed, and then nothing is written.
"""
import collections
import glob
import re
import sys

LETTER = "A-Za-z_Α-ωµ"
TOKEN = rf"[{LETTER}][\w'′]*(?:-[\w'′]+)*(?:-(?:\+\+|∷|\+|\*))?"
# names that would fall together with another one, or with a function of the same crate
OTHER = {
    "choicesOf": "history_choices",
    "first-size": "first_size_is",
    "getD-le-total": "get_or_le_total",
    "number-of": "number_of_bytes",
    "plan-of": "told_plan",
    "plans-stand": "plans_stand_lem",
    "same-player": "is_same_player",
    "samePublic": "same_public_card",
    "sameSight": "same_stored_sight",
    "seenAt": "sight_at",
    "sheets-stand": "sheets_stand_lem",
    "sight-count": "count_of_sights",
    "sight-of": "sight_number",
    "turnedPlace": "turned_place_as",
    "wonBy": "won_by_as",
}
OTHER_IN = {("answers", "plan-of"): "plan_is"}
# names that are bound where this script does not look
MORE = {"Tree-laid", "blank-entry", "keptAs", "purseOf", "readAs", "once-only", "ours-some", "turned-away", "worst-of", "with-public"}


# a module or a private function has the name, and no file that imports the definition speaks of it
SETTLED = {"FloorHolds", "HouseHolds", "OneWordMore", "OneWorst", "TableHolds", "TurnBack", "WordsFall", "open_chair", "play_plan", "won_by"}


def code(line, rust):
    """The line without its comment and, in Rust, without its strings."""
    if rust:
        return re.sub(r'"(?:[^"\\]|\\.)*"', '""', line.split("//")[0])
    return re.sub(r"(^|(?<=\s))--(?=\s|$).*", "", line)


def odd(t):
    return "-" in t or "′" in t or bool(re.match(r"[a-z]\w*[A-Z]", t)) or (t[0].isupper() and "_" in t and t.upper() != t)


def spelled(t, crate=""):
    other = OTHER_IN.get((crate, t)) or OTHER.get(t)
    if other:
        return other
    t = t.replace("′", "'")
    tail = re.search(r"-(?:\+\+|∷|\+|\*)$", t)
    tail = tail.group(0) if tail else ""
    body = t[: len(t) - len(tail)]
    if body[0].isupper():
        return "".join(w[:1].upper() + w[1:] for w in re.split(r"[-_]", body)) + tail
    body = re.sub(r"(?<=[a-z0-9])([A-Z])", lambda m: "_" + m.group(1).lower(), body)
    return body.replace("-", "_") + tail


def of_goals(path):
    return bool(re.match(r"crates/\w+/proofs/[^/]+/", path))


def kits(line):
    """Whether an import is from the kit or from what a check writes."""
    m = re.match(r"\s*(?:pub |ghost )*use ([\w.'+]+)", line)
    return bool(m) and (not m.group(1).startswith("Rattle.") or bool(re.match(r"Rattle\.(?:std|core|alloc)\b", m.group(1))) or bool(re.search(r"\.(?:Goals|Given)$", m.group(1).rstrip("."))))


def defined(paths):
    """The names that are defined or bound in specs and lemma files."""
    out = collections.defaultdict(set)
    for p in paths:
        if of_goals(p):
            continue
        for line in open(p):
            s = code(line, False)
            if re.match(r"\s*(?:pub )?use ", s):
                continue
            names = []
            m = re.match(rf"\s*(?:(?:abbrev|unfoldable|pub|record|data|module) )*({TOKEN}(?:\s+{TOKEN})*)\s*(?:[({{].*)?\s*:", s)
            if m:
                names += m.group(1).split()
            names += re.findall(rf"(?:let|record|data) ({TOKEN})", s)
            for g in re.findall(rf"[({{]((?:{TOKEN}\s+)*{TOKEN})\s*:", s) + re.findall(rf"λ ((?:{TOKEN}\s+)*{TOKEN})\.", s):
                names += g.split()
            for t in names:
                out[t].add(p)
    return out


def turned(text, names, path):
    rust = path.endswith(".rt")
    crate = path.split("/")[1] if "/" in path else ""
    goals = of_goals(path)
    out = []
    clause = False
    for line in text.splitlines(keepends=True):
        if path.endswith((".antt", ".rt")) and kits(line):
            out.append(line)
            continue

        def put(m):
            t = m.group(0)
            before = line[: m.start()]
            if t not in names:
                return t
            if goals and re.search(r"(?<![\w'])(?:c|w|l|goal)\.$", before):
                return t
            return spelled(t, crate)

        if path.endswith(".md") or (code(line, rust) != line.rstrip("\n") and not code(line, rust).strip()):
            # prose: names in backticks alone
            out.append(re.sub(r"`[^`]*`", lambda b: re.sub(TOKEN, lambda m: spelled(m.group(0)) if m.group(0) in names else m.group(0), b.group(0)), line))
            continue
        if rust and not re.match(r"\s*(?:ghost use|requires|ensures|ghost |decreases|invariant)", line) and not clause:
            out.append(line)
            continue
        if rust:
            clause = line.count("{") > line.count("}") if not clause else line.count("{") >= line.count("}")
        head = code(line, rust)
        if head and line.startswith(head):
            out.append(re.sub(TOKEN, put, head) + line[len(head):])
        else:
            out.append(re.sub(TOKEN, put, line))
    return "".join(out)


def main(argv):
    if set(argv) - {"--dry", "--force"}:
        print(__doc__)
        return 2
    antt = sorted(p for p in glob.glob("crates/*/specs/**/*.antt", recursive=True) + glob.glob("crates/*/proofs/**/*.antt", recursive=True))
    rust = sorted(glob.glob("crates/*/src/**/*.rt", recursive=True))
    where = defined(antt)
    names = {t for t in where if odd(t)} | MORE
    used = collections.defaultdict(set)
    for p in antt + rust:
        for line in open(p):
            for t in re.findall(TOKEN, code(line, p.endswith(".rt"))):
                used[t].add(p.split("/")[1])
    became = collections.defaultdict(set)
    for t in names:
        became[spelled(t)].add(t)
    bad = 0
    for new, olds in sorted(became.items()):
        old = sorted(olds)
        if len(old) > 1:
            print("fall together:", old, "->", new)
            bad += 1
        if new in used and new not in names:
            both = set().union(*(used[o] for o in old)) & used[new]
            print("there already:", old, "->", new, sorted(both) if both else "in other crates")
            bad += bool(both) and new not in SETTLED
    if "--dry" in argv or (bad and "--force" not in argv):
        print(len(names), "names,", bad, "to settle; nothing written")
        return 1
    changed = 0
    for p in antt + rust + sorted(glob.glob("*.md") + glob.glob("docs/*.md")):
        text = open(p).read()
        new = turned(text, names, p)
        if new != text:
            open(p, "w").write(new)
            changed += 1
    print(len(names), "names respelled in", changed, "files")
    return 0


if __name__ == "__main__":
    raise SystemExit(main(sys.argv[1:]))
