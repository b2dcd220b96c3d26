#!/usr/bin/env python3
"""The shared vectors as cases for answers.c, and its answers held to them.

    vectors.py cases OUT [TEXT ..]            writes the cases; of each TEXT, a file, both machines are asked as well
    vectors.py compare ANSWERS [SAME]         exit status 1 where an answer is not the vector's, or not that of the other file
"""
import os
import re
import sys

sys.dont_write_bytecode = True
sys.path.insert(0, os.path.join(os.path.dirname(os.path.abspath(__file__)), "../../tools"))
import vectors

WORK, CELLS, TEXT, UNDEFINED = 16384, 2048, 32768, -1
ENOUGH = 10000  # the vectors' budget where they name none
LONG = 100000  # of the texts that are asked beside them
LINES = 6  # of an answer: verdict, cells, owners, names, the run's reply, store
OUTCOMES = ("normal", "exception", "spent", "stuck")


def script(v):
    return bytes.fromhex(v["hex"]) if "hex" in v else v["text"].encode()


def case(mark, budget, text, store=None, work=WORK, names=CELLS):
    cells = UNDEFINED if store is None else len(store)
    head = f"{mark} {budget} {work} {names} {cells} {len(text)}\n".encode()
    return head + text + b"".join(b"%d %d\n" % tuple(c) for c in store or [])


def of_vectors():
    """Each case with what is to be held to it: the vector's name, its script, verdict, what is printed, and the store after."""
    for file, v in vectors.of_level():
        text, name = script(v), f"{file} {v['n']}"
        told = lambda printed, after=None: (name, text, v["verdict"], printed, after)
        budgets = {int(k[4:]): v[k] for k in v if re.fullmatch(r"run_\d+", k)}
        for budget, printed in {**budgets, ENOUGH: v.get("run")}.items():
            yield case(0, budget, text), told(printed)
        yield case(1, ENOUGH, text), told(v.get("mark"))
        for mark, key in ((0, "run_store"), (1, "mark_store")):
            if key in v:
                yield case(mark, v["budget"], text, v["store"]), told(v[key], None if mark else v.get("store_after"))


def of_lengths():
    """Lists of other lengths than a script needs: what the header says of each is in what the machines must agree on."""
    text = b"(var a integer)\n(var b boolean)\n(main (:= a 1))\n"
    for mark in (0, 1):
        for work in (0, 1, WORK - 1, WORK + 8):
            yield case(mark, ENOUGH, text, work=work)
        for names in (0, 1, 2, CELLS + 8):
            yield case(mark, ENOUGH, text, names=names)
        for cells in (0, 1, 3, CELLS + 8):
            yield case(mark, ENOUGH, text, [(0, 0)] * cells)
        for size in (0, 1, TEXT - 1, TEXT, TEXT + 1):
            yield case(mark, ENOUGH, (b"(main" + b" " * TEXT)[:size])


def printed_of(lines, text):
    """What `runscript` prints."""
    reply, store = [int(n) for n in lines[4].split()], [int(n) for n in lines[5].split()]
    refusal, outcome, line, _, exception, statement, steps, _ = reply
    if refusal:
        return f"refused {refusal} {line}\n"
    told = [OUTCOMES[outcome], *([exception, statement] if outcome == 1 else []), steps]
    said = " ".join(str(n) for n in told) + "\n"
    for i, at in enumerate(int(n) for n in lines[3].split()[:-1]):
        name = re.match(rb"[^ ()\n]*", text[at:]).group(0).decode().lower()
        said += f"{i + 1} {name} {store[2 * i] if store[2 * i + 1] else '-'}\n"
    return said


def faults(lines, held):
    """What of an answer is not the vector's."""
    name, text, verdict, printed, after = held
    replies = [[int(n) for n in lines[i].split()] for i in (0, 1, 2, 4)]
    if [replies[0][0], replies[0][2]] != list(verdict) or replies[0][0] != replies[1][0] or replies[0][2] != replies[1][2]:
        yield f"{name}: verdict {replies[0]}, not {verdict}"
    if not all(r[-1] for r in replies) or not int(lines[3].split()[-1]):
        yield f"{name}: the working list or the names are not left as the header says"
    got = printed_of(lines, text)
    if printed is not None and got != printed:
        yield f"{name}: printed\n{got}--- and should have\n{printed}"
    if printed is None and not got.startswith("refused "):
        yield f"{name}: should be refused, and printed\n{got}"
    if after is not None:
        store = [int(n) for n in lines[5].split()]
        if store[: 2 * len(after)] != [n for cell in after for n in cell]:
            yield f"{name}: another store was left"


def write_cases(out, texts):
    with open(out, "wb") as f:
        for words, _ in of_vectors():
            f.write(words)
        for words in of_lengths():
            f.write(words)
        for path in texts:
            with open(path, "rb") as t:
                text = t.read()
            f.write(case(0, LONG, text) + case(1, ENOUGH, text))


def answers(path):
    with open(path, encoding="ascii") as f:
        lines = f.read().split("\n")
    return [lines[i:i + LINES] for i in range(0, len(lines) - 1, LINES)]


def compare(path, other=None):
    got, held = answers(path), [h for _, h in of_vectors()]
    bad = [fault for lines, h in zip(got, held) for fault in faults(lines, h)]
    if other:
        same = answers(other)
        bad += [f"case {i}: not the answer of {other}\n{mine}\n{theirs}" for i, (mine, theirs) in enumerate(zip(got, same)) if mine != theirs]
        bad += [f"{len(got)} answers, and {len(same)} in {other}"] if len(got) != len(same) else []
    bad += [f"only {len(got)} answers"] if len(got) < len(held) else []
    print("\n".join(bad[:5] + [f"{len(held)} asked of the vectors, {len(got) - len(held)} beside them, {len(bad)} differ"]))
    return 1 if bad else 0


def main():
    if len(sys.argv) > 2 and sys.argv[1] == "cases":
        write_cases(sys.argv[2], sys.argv[3:])
    elif len(sys.argv) in (3, 4) and sys.argv[1] == "compare":
        sys.exit(compare(*sys.argv[2:]))
    else:
        sys.exit(__doc__)


main()
