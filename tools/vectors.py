"""The shared scripts with their answers at a level of the language: document 01 with the requests 1 to LEVEL of document 02."""
import json
import os

FOLDER = os.path.join(os.path.dirname(os.path.abspath(__file__)), "..", "..", "shared", "vectors")
LANDED = 3  # the requests that have landed


def rows(path):
    with open(path, encoding="utf8") as f:
        return [json.loads(line) for line in f]


def of_level(level=LANDED):
    """The level's own rows, then document 01's whose answers no level up to this one gives anew, then the deep ones."""
    file = lambda k: os.path.join(FOLDER, "level-%02d.jsonl" % k)
    anew = {v["base"] for k in range(1, level + 1) for v in rows(file(k)) if "base" in v}
    own = rows(file(level)) if level else []
    base = [v for v in rows(os.path.join(FOLDER, "vectors.jsonl")) if v["n"] not in anew]
    return [("level-%02d" % level, v) for v in own] + [("vectors", v) for v in base] + [("deep", v) for v in rows(os.path.join(FOLDER, "deep.jsonl"))]
