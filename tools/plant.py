#!/usr/bin/env python3
"""Plants bugs in the code of a crate and asks the checker about each.

    tools/plant.py CRATE [--list] [--part I/N] [--only NUMBER] [--log FOLDER]

The bugs: a comparison turned, a constant moved by one, an operator exchanged, a field or variant exchanged for the next
one of its type, a write or a call dropped, two arguments of one type exchanged, two neighbours of an array or of a
struct exchanged, a condition negated, true for false, None for Some, a range that takes in its end or leaves it out.
They are planted in each .rt file of the crate. Contracts (those of closures too), types, comments and tests are left
as they are.

A function's proof rests on its own body and on the contracts of what it calls, and `rt check` reports each function by
itself. So a run has one bug in each function. A closure counts as a part of the function that it stands in, functions
that call each other count as one, and a bug in a constant of the crate has a run of its own. The runs are made in a
copy of this repository, which has to be checked (rt check in the crate's folder first).

A bug is refused where its own function has an error in its proof or a need that is not proved; that the function calls
or stands on what is not proved does not count. The other bugs of the run are tried again without those: together, and
where the crate is then not proved as a whole, each alone. A bug survives where the whole crate is proved with it. It is
no program where the compiler turns it away: the compiler's line says which bug that was, and the run is made again
without it. It has no answer where the check takes over half an hour or cannot tell.

--list prints the bugs and tries none; --part takes each N-th one; --log keeps what the checker wrote. At the end there
is a line for each survivor, and `CRATE: N planted, M refused, K survived, P no program`.
"""

import argparse
import collections
import itertools
import pathlib
import re
import shutil
import subprocess
import sys
import tempfile

HERE = pathlib.Path(__file__).resolve().parent.parent

COMPARE = {
    "<": ["<=", ">", ">="], "<=": ["<", ">=", ">"], ">": [">=", "<", "<="], ">=": [">", "<=", "<"],
    "==": ["!="], "!=": ["=="],
}
OPERATOR = {
    "+": ["-"], "-": ["+"], "*": ["+"], "/": ["*"], "%": ["/"], "&&": ["||"], "||": ["&&"], "+=": ["-="], "-=": ["+="],
}
METHOD = {
    "saturating_add": "saturating_sub", "saturating_sub": "saturating_add", "saturating_mul": "saturating_add",
    "min": "max", "max": "min",
}
WORD = {"true": "false", "false": "true"}

# A bug stands in the lines first to last of a file; `unit` is its function, or those that call each other with it.
Bug = collections.namedtuple("Bug", "number unit function file first last old new")
Body = collections.namedtuple("Body", "unit function file first last")


def sources(crate):
    """The text of each .rt file of a crate, by its path below the crate's src."""
    folder = HERE / "crates" / crate / "src"
    return {str(path.relative_to(folder)): path.read_text() for path in sorted(folder.rglob("*.rt"))}


def cycles(crate):
    """The folders of proofs of functions that call each other, each by its name without the `+`, as names with `::`."""
    proofs = HERE / "crates" / crate / "proofs"
    found = {}
    for folder in proofs.rglob("+*"):
        *above, name = folder.relative_to(proofs).parts
        found["::".join([*above, name[1:]])] = "::".join([*above, name])
    return found


def owner_of(own, head):
    """How the check names an impl or a trait, by the impl's own parameters and the rest of its first line."""
    own = {part.split(":")[0].removeprefix("const ") for part in parts(own or "")}
    trait, _, kind = head.rpartition(" for ")
    # the words of the type, then the trait without its path and with the words of its arguments
    words = re.findall(r"'?[^\W_]+", kind.split(": ")[0] + " " + re.sub(r"^[\w:]*::", "", trait))
    return "".join(word[0].upper() + word[1:] for word in words if word[0] != "'" and word not in own)


def cycle_of(lines, number):
    """The cycle that is named among the attributes of the function that begins in this line, if there is one."""
    above = itertools.takewhile(lambda line: re.match(r" *(#\[|//)", line), reversed(lines[:number]))
    return next((found[1] for line in above if (found := re.match(r" *#\[cycle\((\w+)\)\]$", line))), None)


def body_of(lines, number):
    """For a function that begins in this line and has code: the first line of its body and the line that closes it."""
    indent = re.match(" *", lines[number])[0]
    for at in range(number, len(lines)):
        if re.match(rf"{indent}(\).*|.*\bfn .*)?\{{$", lines[at]):
            return at + 1, next(i for i in range(at, len(lines)) if lines[i].startswith(indent + "}"))
        if not lines[at] or lines[at].endswith("{}"):
            return None
    return None


def bodies(crate):
    """The functions of a crate that have code, each with the first line of its body and the line after its last."""
    units = cycles(crate)
    for file, text in sources(crate).items():
        lines = text.split("#[cfg(test)]")[0].splitlines()
        module = re.sub(r"^(lib|main)::$", "", file.removesuffix(".rt").replace("/", "::") + "::")
        owner = ""
        for number, line in enumerate(lines):
            if found := re.match(r"(?:pub )?(?:impl|trait)\b(?:<((?:->|[^<>]|<[^<>]*>)*)>)? (.*) \{$", line):
                owner = module + owner_of(found[1], found[2]) + "::"
            if found := re.match(r"( *)(?:pub(?:\(\w+\))? )?(?:const )?fn (\w+)", line):
                above = owner if found[1] else module
                cycle, place = cycle_of(lines, number), body_of(lines, number)
                # functions that call each other name their cycle; one that calls itself has a folder of its own name
                unit = f"{module}+{cycle}" if cycle else above + found[2]
                if place:
                    yield Body(units.get(above + (cycle or found[2]), unit), above + found[2], file, *place)


def code(lines, body):
    """The numbers of the lines of a body that are code, and no comment, clause of a closure or ghost line."""
    depth = 0
    for number in range(body.first, body.last):
        line = lines[number]
        if depth or re.match(r" *(requires|ensures|ghost)\b", line):
            depth += sum((sign in "([{") - (sign in ")]}") for sign in line)
        elif not re.match(r" *(//|$)", line):
            yield number


def neighbours(own, others):
    """For each field and variant the next ones of the same type in the same declaration; of others what is public."""
    after = collections.defaultdict(set)
    for text, public in [*((text, "(?:pub )?") for text in own), *((text, "pub ") for text in others)]:
        for kind, inside in re.findall(rf"^{public}(struct|enum) [^\n;]*\{{\n(.*?)^\}}", text, re.M | re.S):
            form = rf"^ +{public}(\w+): (.*),$" if kind == "struct" else r"^ +(\w+)(.*),$"
            same = collections.defaultdict(list)
            for name, its_type in re.findall(form, inside, re.M):
                same[its_type].append(name)
            for row in same.values():
                for one, next_one in zip(row, row[1:] + row[:1]):
                    after[one] |= {next_one} - {one}
    return after


def signatures(texts):
    """For each name of a function the types of its parameters, without self: for each function that has this name."""
    found = collections.defaultdict(list)
    form = r"^ *(?:pub(?:\(\w+\))? )?(?:const )?fn (\w+)(?:<(?:->|[^<>]|<[^<>]*>)*>)?\((.*?)\) *(?:->|$|\{|;)"
    for text in texts:
        for name, inside in re.findall(form, text, re.M | re.S):
            found[name].append([part.split(": ", 1)[1] for part in parts(inside) if ": " in part])
    return found


def parts(inside):
    """The parts of a list, split at the commas that stand in no bracket."""
    found, depth = [""], 0
    for sign in inside:
        depth += (sign in "([{") - (sign in ")]}")
        if sign == "," and depth == 0:
            found.append("")
        else:
            found[-1] += sign
    return [part.strip() for part in found if part.strip()]


def signs(line):
    """The line with one comparison, operator, constant or word exchanged, for each."""
    for found in re.finditer(r"(?<= )(<=|>=|==|!=|<|>|\+=|-=|\+|-|\*|/|%|&&|\|\|)(?= )", line):
        for other in COMPARE.get(found[1], []) + OPERATOR.get(found[1], []):
            yield found, other
    for found in re.finditer(r"(?:(?<![\w.])|(?<=\.\.))(0x[\da-f_]+|\d[\d_]*)(?=(?:u\d+|usize)?(?!\w))", line):
        value = int(found[0].replace("_", ""), 0)
        for other in {value + 1, max(0, value - 1)} - {value}:
            yield found, str(other)
    for found in re.finditer(r"\b(true|false)\b", line):
        yield found, WORD[found[1]]
    for found in re.finditer(r"(?<=\.)(\w+)(?=\()", line):
        if found[1] in METHOD:
            yield found, METHOD[found[1]]
    for found in re.finditer(r"(?<=[\w\]])\.\.(=?)(?=\w)", line):
        yield found, ".." if found[1] else "..="
    for found in re.finditer(r"\bSome\([\w.*]+\)(?! =)", line):
        yield found, "None"
    for found in re.finditer(r"\b(if|while) (?!let )([^{]*(?:&&|\|\||!|\()[^{]*|[\w.]+)(?= \{)", line):
        yield found, f"{found[1]} !({found[2]})"


def names(line, after):
    """The line with one field or variant exchanged for the next one, or two fields of a struct exchanged."""
    arrow = line.find("=>") if re.match(r" *(\||\(?\w+(::\w+|\(.*\))?).* =>", line) else -1
    for found in re.finditer(r"(?<=[\w)\]]\.)([a-z_]+)\b(?!\()|(?<=\w::)([A-Z]\w*)", line):
        if found.start() > arrow:
            for other in sorted(after[found[0]]):
                yield found, other
    for found in re.finditer(r"(?<=[{,] )(?=(\w+), (\w+)(?:,| \}))", line):
        one, two = found[1], found[2]
        in_struct = line.rfind("{", 0, found.start()) > line.rfind("[", 0, found.start())
        if in_struct and (two in after[one] or one in after[two]):
            yield re.compile(f"{one}, {two}").match(line, found.start()), f"{one}: {two}, {two}: {one}"


def enclosed(text):
    """The text up to the bracket that closes, if it closes in this line."""
    depth = 1
    for at, sign in enumerate(text):
        depth += (sign in "([{") - (sign in ")]}")
        if depth == 0:
            return text[:at]
    return None


def swaps(line, types):
    """The line with two arguments of one type, or two neighbours in an array, exchanged."""
    for found in re.finditer(r"\b(\w+)(?:::<[^>]*>)?\(|\[", line):
        inside = enclosed(line[found.end():])
        args = parts(inside or "")
        rows = [row for row in types.get(found[1], []) if len(row) == len(args)]
        if not found[1]:
            rows = [["" if re.fullmatch(r"\*?[a-z]\w*", arg) else at for at, arg in enumerate(args)]]
        if ", ".join(args) != inside:
            continue
        for i, j in itertools.combinations(range(len(args)), 2):
            same = any(row[i] == row[j] for row in rows)
            if same and args[i] != args[j] and (found[1] or j == i + 1):
                other = args[:i] + [args[j]] + args[i + 1: j] + [args[i]] + args[j + 1:]
                yield re.compile(re.escape(inside)).match(line, found.end()), ", ".join(other)


def two_lines(lines, number, after):
    """This line and the next with what they hold exchanged, if they are arguments or fields of a struct."""
    pair = lines[number: number + 2]
    indent = re.match(" *", pair[0])[0]
    opens = next((text for text in reversed(lines[:number]) if text and not text.startswith(indent)), "")
    if not opens.endswith("{"):
        # the compiler says where the types of two arguments differ
        plain = all(re.match(r" {8,}[&*]?[\w.]+( as \w+)?,$", text) for text in pair)
        return f"{pair[1]}\n{pair[0]}" if plain else None
    one, two = (re.match(rf"{indent}(\w+)(?:: (.+))?,$", text) for text in pair)
    if one and two and (two[1] in after[one[1]] or one[1] in after[two[1]]):
        return f"{indent}{one[1]}: {two[2] or two[1]},\n{indent}{two[1]}: {one[2] or one[1]},"
    return None


def dropped(lines, number):
    """The last line of the statement that begins in this line, if it is a write or a call."""
    line = lines[number]
    if "=>" in line or not re.match(r" *(let _ = )?[\w.:]+(\[.*?\])?( = | \+= | -= |\()", line):
        return None
    indent = re.match(" *", line)[0]
    for last in range(number, len(lines)):
        if last > number and not lines[last].startswith(indent):
            return None
        if lines[last].endswith(";") and re.match(rf"{indent}\S", lines[last]):
            return last
    return None


def exchanged(lines, number, after, types):
    """What may stand in place of the lines from this number on: the last line replaced, and the new text."""
    line = lines[number]
    for found, other in [*signs(line), *names(line, after), *swaps(line, types)]:
        yield number, line[: found.start()] + other + line[found.end():]
    pair = two_lines(lines, number, after)
    if pair is not None:
        yield number + 1, pair
    last = dropped(lines, number)
    if last is not None:
        yield last, re.match(" *", line)[0] + "{}"


def bugs(crate):
    """The bugs of a crate, in the order of its files and lines."""
    stands_on = re.search(rf"^{crate}:(.*)", (HERE / "crates.txt").read_text(), re.M)[1].split()
    own, others = sources(crate), [text for name in stands_on for text in sources(name).values()]
    after, types = neighbours(own.values(), others), signatures([*others, *own.values()])
    places = list(bodies(crate))
    for file, text in own.items():
        consts = [i for i, line in enumerate(text.splitlines()) if re.match(r"(pub )?const \w+:", line)]
        places += [Body(f"const {file} {i}", "const", file, i, i + 1) for i in consts]
    count = 0
    for body in sorted(places, key=lambda place: (place.file, place.first)):
        lines, seen = own[body.file].splitlines(), set()
        for number in code(lines, body):
            for last, new in exchanged(lines, number, after, types):
                old = "\n".join(lines[number: last + 1])
                if new != old and (number, new) not in seen:
                    seen.add((number, new))
                    yield Bug(count, body.unit, body.function, body.file, number, last, old, new)
                    count += 1


def named(bug):
    old, new = (" ".join(line.strip() for line in text.split("\n")) for text in (bug.old, bug.new))
    return f"{bug.number} {bug.function} at {bug.file}:{bug.first + 1}: {old} -> {new}"


class Trials:
    """Runs of the checker in a copy of the repository."""

    def __init__(self, crate, below, log):
        self.crate, self.log, self.runs = crate, log, 0
        self.good = sources(crate)
        self.bodies = list(bodies(crate))
        self.root = pathlib.Path(below) / "copy"
        shutil.copytree(HERE, self.root, symlinks=True, ignore=shutil.ignore_patterns("bench", "must-fail", ".git"))

    def run(self, batch):
        """What the checker writes with these bugs in place."""
        for file, text in self.good.items():
            lines = text.splitlines()
            for bug in batch:
                if bug.file == file:
                    new = bug.new.split("\n")
                    lines[bug.first: bug.last + 1] = new + [""] * (bug.last + 1 - bug.first - len(new))
            (self.root / "crates" / self.crate / "src" / file).write_text("\n".join(lines) + "\n")
        settings = {"cwd": self.root / "crates" / self.crate, "capture_output": True, "text": True}
        try:
            done = subprocess.run(["rt", "check"], timeout=1800, **settings)
        except subprocess.TimeoutExpired:
            return ""
        out = done.stdout + done.stderr
        self.runs += 1
        if self.log:
            pathlib.Path(self.log, f"{self.crate}-{self.runs}").write_text("\n".join(map(named, batch)) + "\n\n" + out)
        return out

    def units_of(self, name):
        """The units of a function, by its name in the report; a closure belongs to the function that it stands in."""
        name = re.sub(r"(^|::)fn::(.*?)::\w+(\+.*)?$", r"\1\2", name)
        return {body.unit for body in self.bodies if name in (body.function, body.unit)}

    def troubled(self, out):
        """The units with an error in their own proof or a need of their own that is not proved."""
        folders = re.findall(r"^\./proofs/(\S+)/\w+\.antt:\d+:\d+: error", out, re.M)
        # a function that is not proved since it stands on another's proof has no trouble of its own
        own = rf"^fn {self.crate}::(\S+): (?:not proved$|no proof: expected answers)"
        names = {folder.replace("/", "::") for folder in folders} | set(re.findall(own, out, re.M))
        return set().union(*map(self.units_of, names))

    def unit_at(self, file, line):
        """The unit of the function whose head or body has this line: the first of the file whose body ends after it."""
        return next((body.unit for body in self.bodies if body.file == file and line <= body.last + 1), None)

    def blamed(self, out):
        """The units of the functions in which the compiler has an error."""
        return {self.unit_at(file, int(line)) for file, line in re.findall(r"\bsrc/(\S+\.rt):(\d+):\d+: error", out)}

    def verdict(self, out):
        """The last verdict, if the checker came to this crate: those on the crates below it stand before."""
        said = re.findall(r"^logic=(proved|not-proved)", out, re.M)
        return said[-1] if said and f"\nfn {self.crate}::" in out else None

    def alone(self, bug):
        out = self.run([bug])
        if answer := {"proved": "survived", "not-proved": "refused"}.get(self.verdict(out)):
            return answer
        return "no program" if self.blamed(out) else "no answer"

    def judge(self, batch):
        """The answer for each bug of a batch, as pairs."""
        if len(batch) <= 1:
            return [(bug, self.alone(bug)) for bug in batch]
        out = self.run(batch)
        if self.verdict(out) == "proved":
            return [(bug, "survived") for bug in batch]
        if self.verdict(out) is None:
            blamed = self.blamed(out)
            bad = [bug for bug in batch if bug.unit in blamed]
            rest = [bug for bug in batch if bug.unit not in blamed]
            if not bad:
                half = len(batch) // 2
                return self.judge(batch[:half]) + self.judge(batch[half:])
            return [(bug, "no program") for bug in bad] + self.judge(rest)
        troubled = self.troubled(out)
        rest = [bug for bug in batch if bug.unit not in troubled]
        answers = [(bug, "refused") for bug in batch if bug.unit in troubled]
        if len(rest) < len(batch):
            return answers + self.judge(rest)
        return [(bug, self.alone(bug)) for bug in batch]


def batches(chosen):
    """The bugs in batches with one bug of each unit; a bug in a constant is alone."""
    waiting = collections.defaultdict(list)
    for bug in chosen:
        waiting[bug.unit].append(bug)
    for unit in [unit for unit in waiting if unit.startswith("const ")]:
        yield from ([bug] for bug in waiting.pop(unit))
    while waiting:
        yield [several.pop(0) for several in waiting.values()]
        waiting = {unit: several for unit, several in waiting.items() if several}


def main():
    parser = argparse.ArgumentParser(description=__doc__, formatter_class=argparse.RawDescriptionHelpFormatter)
    parser.add_argument("crate")
    parser.add_argument("--list", action="store_true")
    parser.add_argument("--part", default="1/1")
    parser.add_argument("--only", type=int)
    parser.add_argument("--log")
    args = parser.parse_args()
    first, step = map(int, args.part.split("/"))
    chosen = [bug for bug in list(bugs(args.crate))[first - 1:: step] if args.only in (None, bug.number)]
    if args.list:
        print("\n".join(map(named, chosen)))
        return 0
    count, survivors = collections.Counter(), []
    with tempfile.TemporaryDirectory() as below:
        trials = Trials(args.crate, below, args.log)
        if trials.verdict(trials.run([])) != "proved":
            sys.exit(f"{args.crate} is not proved as it is")
        for batch in batches(chosen):
            for bug, answer in trials.judge(batch):
                count[answer] += 1
                survivors += [bug] if answer == "survived" else []
                print(f"{answer}: {named(bug)}", flush=True)
    for bug in survivors:
        print(f"survivor: {named(bug)}")
    kinds = ["refused", "survived", "no program"] + ["no answer"] * (count["no answer"] > 0)
    print(f"{args.crate}: {len(chosen)} planted, " + ", ".join(f"{count[kind]} {kind}" for kind in kinds))
    return 0


if __name__ == "__main__":
    sys.exit(main())
