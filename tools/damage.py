#!/usr/bin/env python3
"""Runs a program on damaged files beside the plain one, and compares what they print.

    tools/damage.py KIND PROGRAM DATA [-n 10000] [--seed 1]

KIND is `reckon`, `play` or `propose`. PROGRAM is the program under test, with arguments if need be (`propose house 3`);
the file's name is put for {} or at the end. DATA is a directory of good files: its directory KIND if it has one, else
its directory `reckon`, and there the files *.in if there are any. The plain program is bench/target/release/KIND_plain
(cd bench && cargo build --release); that of `propose` is reckon_plain, which has to take the plan that is proposed, or
to refuse the rule sheet or m as `propose` does.

File number I depends on the seed, on I and on the good files alone; `--only I` makes and runs this one again.
A file fails where what is printed differs, or where the program under test is ended by a signal, takes too long or
gives a status other than 0. Failing files are kept; the last line is `N passed, M failed`.
"""

import argparse
import collections
import concurrent.futures
import pathlib
import random
import shlex
import subprocess
import sys
import tempfile

HERE = pathlib.Path(__file__).resolve().parent.parent
CHUNK = 250
EDGES = [0, 1, 2, 3, 4, 9, 10, 13, 14, 127, 128, 254, 255]


# --- damage: each of these takes a generator, the bytes and all good files, and gives other bytes ---

def cut_end(rng, data, good):
    return data[: rng.randint(0, len(data))]


def cut_late(rng, data, good):
    return data[: max(0, len(data) - rng.randint(1, 9))]


def cut_middle(rng, data, good):
    at = rng.randint(0, len(data))
    return data[:at] + data[at + rng.randint(1, 12):]


def flip_bits(rng, data, good):
    data = bytearray(data)
    for _ in range(rng.randint(1, 4)):
        if data:
            data[rng.randrange(len(data))] ^= 1 << rng.randrange(8)
    return bytes(data)


def set_byte(rng, data, good):
    data = bytearray(data)
    if data:
        data[rng.randrange(len(data))] = rng.choice(EDGES + [rng.randrange(256)])
    return bytes(data)


def set_sheet(rng, data, good):
    """A byte of the rule sheet or of m."""
    data = bytearray(data)
    if data:
        data[rng.randrange(min(13, len(data)))] = rng.choice(EDGES + [rng.randrange(256)])
    return bytes(data)


def set_tail(rng, data, good):
    """A byte near the end, where the hands or the second plan are."""
    data = bytearray(data)
    if data:
        at = len(data) - 1 - rng.randrange(min(len(data), 120))
        data[at] = rng.choice(EDGES + [rng.randrange(256)])
    return bytes(data)


def join(rng, data, good):
    return data + rng.choice(good)


def join_parts(rng, data, good):
    other = rng.choice(good)
    return data[: rng.randint(0, len(data))] + other[rng.randint(0, len(other)):]


def join_noise(rng, data, good):
    return data + rng.randbytes(rng.randint(1, 40))


def repeat(rng, data, good):
    at = rng.randint(0, len(data))
    return data[:at] + data[max(0, at - rng.randint(1, 40)):]


def sights(data):
    """Runs of two or three numbers after m that sum to m, as places in the file: most of them are sights of a plan."""
    m = int.from_bytes(data[9:13], "little")
    run, total = [], 0
    for at in range(13, len(data) - 3, 4):
        run.append(at)
        total += int.from_bytes(data[at:at + 4], "little")
        if total == m and len(run) > 1:
            yield run
        if total >= m and len(run) > 1 or len(run) == 3:
            run, total = [], 0


def move_weights(rng, data, good):
    """Shares some sights out anew: the file is often still a good one."""
    data = bytearray(data)
    often = rng.choice([0.05, 0.5, 1])
    for run in list(sights(data)):
        if rng.random() < often:
            left = int.from_bytes(data[9:13], "little")
            for at in run:
                weight = left if at == run[-1] else rng.choice([0, left, rng.randint(0, left)])
                data[at:at + 4] = weight.to_bytes(4, "little")
                left -= weight
    return bytes(data)


DAMAGE = [cut_end, cut_late, cut_middle, flip_bits, set_byte, set_sheet, set_tail, set_tail, join, join_parts,
          join_noise, repeat, move_weights, move_weights, move_weights]


def damaged(seed, number, good):
    rng = random.Random(f"{seed}:{number}")
    data = rng.choice(good)
    for _ in range(rng.choice([1, 1, 1, 2, 3])):
        data = rng.choice(DAMAGE)(rng, data, good)
    return data


# --- running ---

def plain_answers(plain, paths):
    """What the plain program prints for each file; None where it fails."""
    paths = [str(path) for path in paths]
    # a name given twice makes sure that the form for many files is printed
    done = subprocess.run([plain, paths[0], *paths], capture_output=True)
    if done.returncode != 0:
        if len(paths) == 1:
            return [None]
        return [plain_answers(plain, [path])[0] for path in paths]
    lines = done.stdout.decode().splitlines()[1:]
    assert len(lines) == len(paths), "the plain program left files out"
    answers = []
    for path, line in zip(paths, lines):
        assert line.startswith(path + ": "), line
        answers.append(line[len(path) + 2:].replace("\\n", "\n"))
    return answers


def run(program, path, seconds):
    """What the program under test prints, and what went wrong with it, if anything."""
    words = [word.replace("{}", str(path)) for word in program]
    if words == program:
        words.append(str(path))
    try:
        done = subprocess.run(words, stdin=subprocess.DEVNULL, capture_output=True, timeout=seconds, close_fds=False)
    except subprocess.TimeoutExpired:
        return "", f"no answer in {seconds} seconds"
    wrong = None
    if done.returncode < 0:
        wrong = f"ended by signal {-done.returncode}"
    elif done.returncode > 0:
        wrong = f"status {done.returncode}"
    return done.stdout.decode(errors="replace"), wrong


def run_propose(program, path, seconds, plain):
    """As `run`, for `propose`: `taken` where the plain program takes the plan, or the refusal, which ends with status 1."""
    try:
        done = subprocess.run([*program, str(path)], stdin=subprocess.DEVNULL, capture_output=True, timeout=seconds)
    except subprocess.TimeoutExpired:
        return "", f"no answer in {seconds} seconds"
    if done.returncode == 0:
        whole = path.with_suffix(".whole")
        whole.write_bytes(path.read_bytes()[:13] + done.stdout)
        answer = plain_answers(plain, [whole])[0]
        whole.unlink()
        # the plain program has memory for 4,096 places only
        taken = answer and (answer.startswith("places") or answer == "refused 13 at 0\n")
        return ("taken\n", None) if taken else ("", f"the plan is not taken: {answer}")
    refusals = [line for line in done.stderr.decode(errors="replace").splitlines() if line.startswith("refused ")]
    if done.returncode == 1 and len(refusals) == 1:
        return refusals[0] + "\n", None
    return "", f"status {done.returncode} and no refusal"


def wanted_of_propose(plain, paths):
    """What is wanted of `propose`: the refusal of the rule sheet or of m, or a plan that is taken."""
    answers = []
    for path in paths:
        short = path.with_suffix(".short")
        short.write_bytes(path.read_bytes()[:13])
        answer = plain_answers(plain, [short])[0]
        short.unlink()
        large = answer == "refused 13 at 0\n"
        answers.append(None if large else "taken\n" if answer.startswith("refused 7") else answer)
    return answers


def files_of(root, kind):
    root = pathlib.Path(root)
    for name in (kind, "reckon"):
        if (root / name).is_dir():
            root = root / name
            break
    files = sorted(path for path in root.iterdir() if path.is_file())
    chosen = [path for path in files if path.suffix == ".in"]
    return chosen or [path for path in files if path.suffix not in (".out", ".md", ".txt")]


def headings(answer):
    """The kinds of an answer's lines, for the summary."""
    for line in answer.splitlines():
        words = line.split()
        yield " ".join(words[:2]) if words[0] == "refused" else words[0]


def shorter(text):
    text = text.replace("\n", "\\n")
    return text if len(text) < 160 else text[:160] + "..."


def main():
    parser = argparse.ArgumentParser(description=__doc__, formatter_class=argparse.RawDescriptionHelpFormatter)
    parser.add_argument("kind", choices=["reckon", "play", "propose"])
    parser.add_argument("program")
    parser.add_argument("data")
    parser.add_argument("-n", type=int, default=10_000, help="how many damaged files")
    parser.add_argument("--seed", default="1")
    parser.add_argument("--only", type=int, metavar="I", help="this damaged file alone")
    parser.add_argument("--plain", help="the plain program")
    parser.add_argument("--jobs", type=int, default=2, help="how many programs run at a time")
    parser.add_argument("--seconds", type=float, default=20, help="how long a program may take")
    parser.add_argument("--keep", help="a directory for the files that fail")
    args = parser.parse_args()

    proposes = args.kind == "propose"
    plain = args.plain or str(HERE / "bench/target/release" / ("reckon_plain" if proposes else f"{args.kind}_plain"))
    program = shlex.split(args.program)
    paths = files_of(args.data, args.kind)
    if not paths:
        sys.exit(f"no files in {args.data}")
    # damage begins with files that are answered, if there are any
    answers = plain_answers(plain, paths)
    answered = [path for path, answer in zip(paths, answers) if answer and not answer.startswith("refused")]
    good = [path.read_bytes() for path in answered or paths]

    numbers = [args.only] if args.only is not None else range(args.n)
    passed = failed = 0
    kinds = collections.Counter()
    keep = pathlib.Path(args.keep) if args.keep else None
    with tempfile.TemporaryDirectory() as room, concurrent.futures.ThreadPoolExecutor(args.jobs) as pool:
        for start in range(0, len(numbers), CHUNK):
            chunk = numbers[start:start + CHUNK]
            names = [pathlib.Path(room) / f"{number:06}.in" for number in chunk]
            for number, name in zip(chunk, names):
                name.write_bytes(damaged(args.seed, number, good))
            if proposes:
                wanted = wanted_of_propose(plain, names)
                seen = list(pool.map(lambda name: run_propose(program, name, args.seconds, plain), names))
                # a tree that is too large for the plain program: what `propose` says of it stands
                wanted = [text if want is None else want for want, (text, _) in zip(wanted, seen)]
            else:
                wanted = plain_answers(plain, names)
                seen = pool.map(lambda name: run(program, name, args.seconds), names)
            for name, want, (text, wrong) in zip(names, wanted, seen):
                if want is None:
                    want, wrong = "", "the plain program fails"
                kinds.update(headings(want))
                if wrong is None and text == want:
                    passed += 1
                else:
                    failed += 1
                    if keep is None:
                        keep = pathlib.Path(tempfile.mkdtemp(prefix=f"damage-{args.kind}-"))
                    keep.mkdir(parents=True, exist_ok=True)
                    (keep / name.name).write_bytes(name.read_bytes())
                    if failed <= 20:
                        print(f"{keep / name.name}: {wrong or 'another answer'}")
                        print(f"  plain:  {shorter(want)}")
                        print(f"  tested: {shorter(text)}")
                name.unlink()
    order = sorted(kinds.items(), key=lambda item: (len(item[0].split()), len(item[0]), item[0]))
    print(f"{args.kind}, seed {args.seed}, lines: " + ", ".join(f"{kind}: {count}" for kind, count in order))
    print(f"{passed} passed, {failed} failed")
    sys.exit(1 if failed else 0)


main()
