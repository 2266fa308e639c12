#!/usr/bin/env python3
"""Brings the repository's own definitions, lemmas, fields and variables of specs/ and proofs/ to today's spelling, where they are cited too.

usage: python3 tools/respell.py [--list]   (at the top, once, after port.py)

A name that is bound there in lower case (a definition, a field, a constructor, a let, an argument, a name after `as`) becomes snake case:
`fixedBytes` is `fixed_bytes`, and `key-bytes` is `key_bytes`. Names that Rattle makes (answers, measures and invariants, whose type is cited
from `goal` or `given`) are not ours and stay, as do the library's. Strings, comments and Rust's own names stay. `--list` prints the names.
"""
import re
import sys
from pathlib import Path

# Names that would fall together.
ONES = {
    "place-back": "place_back_lem",  # beside placeBack
    "line-of": "line_of_lem",  # beside line_of
    "nameStart": "name_start_byte",  # beside the field name-start
}
# A function of one crate in upper camel case.
ELSEWHERE = {"xml": {"In": "is_in"}}
NAME = r"[^\s(){}\[\],;.:=|\"λ]+"
BINDERS = [
    re.compile(r"^\s*(?:pub |abbrev |unfoldable )*(" + NAME + r") : (?P<type>.*)$"),
    re.compile(r"\blet (" + NAME + r") (?:: |= )"),
    re.compile(r"\bas (" + NAME + r")\s*[,}]"),
]
WORDS = [re.compile(r"^\s*([^=:\"]+) = "), re.compile(r"λ ([^.\"]+)\.")]
TOKEN = re.compile(r"\"(?:[^\"\\]|\\.)*\"|--.*|//.*|" + NAME)
GHOST = re.compile(r"^\s*(?:ghost|requires|ensures) .*$", re.MULTILINE)
MADE = re.compile(r"^(?:in|if|loop|then|else|returns|from-residual|overflow|decreases|invariant|After|In)-")


def files(suffix):
    for crate in sorted(Path("crates").iterdir()):
        for folder in ("specs", "proofs") if suffix == ".antt" else ("src",):
            yield from sorted((crate / folder).rglob("*" + suffix))


def snake(name):
    if name in ONES:
        return ONES[name]
    return re.sub(r"(?<=[a-z0-9])(?=[A-Z])", "_", name).lower().replace("-", "_")


def ours(name):
    return name[0].islower() and ("-" in name or re.search(r"[a-z][A-Z]", name)) and not MADE.match(name)


def bound():
    """The names to respell, and those that stand as they are."""
    old, made, kept = set(), set(), set()
    for path in files(".antt"):
        for line in path.read_text().split("\n"):
            line = re.sub(r"--.*", "", line)
            for binder in BINDERS:
                for m in binder.finditer(line):
                    of_goal = "type" in binder.groupindex and re.match(r"(goal|given|need)\.", m["type"])
                    (made if of_goal else old if ours(m[1]) else kept).add(m[1])
            for pattern in WORDS:
                for m in pattern.finditer(line):
                    for word in re.findall(NAME, m[1]):
                        (old if ours(word) else kept).add(word)
    return old - made, kept


def turn(text, table):
    return TOKEN.sub(lambda m: table.get(m[0], m[0]), text)


def main():
    old, kept = bound()
    table = {name: snake(name) for name in sorted(old)}
    if "--list" in sys.argv:
        for name, new in table.items():
            print(name, new)
    for name, new in table.items():
        others = [n for n, w in table.items() if w == new and n != name]
        if others or new in kept:
            print(f"falls together: {name} -> {new} {others} {'kept' if new in kept else ''}", file=sys.stderr)
    if "--list" in sys.argv:
        return
    for path in files(".antt"):
        text = path.read_text()
        path.write_text(turn(text, table | ELSEWHERE.get(path.parts[1], {})))
    for path in files(".rt"):
        text = path.read_text()
        path.write_text(GHOST.sub(lambda m: turn(m[0], table | ELSEWHERE.get(path.parts[1], {})), text))


if __name__ == "__main__":
    main()
