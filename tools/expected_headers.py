#!/usr/bin/env python3
"""Writes what `cphd headers FILE...` must print, by a reader of its own.

usage: expected_headers.py FILE...   (to standard output)

It shares no code with the library: lines are matched by a regular expression, blocks are compared as numbers.
The gate compares the program's output with the file that this script wrote, crates/cphd/stdout.
"""
import os
import re
import sys

FILE_TYPE = b"CPHD/1.1.0\n"
LINE = re.compile(rb"([A-Z0-9_]+) := ([\x20-\x7e]+)\n")
LIMIT = 4096
KEYS = ["XML_BLOCK_SIZE", "XML_BLOCK_BYTE_OFFSET", "SUPPORT_BLOCK_SIZE", "SUPPORT_BLOCK_BYTE_OFFSET", "PVP_BLOCK_SIZE", "PVP_BLOCK_BYTE_OFFSET",
        "SIGNAL_BLOCK_SIZE", "SIGNAL_BLOCK_BYTE_OFFSET", "CLASSIFICATION", "RELEASE_INFO"]
SENTENCES = {
    10: "the file does not begin with CPHD/1.1.0 and a line feed",
    11: "the header line at the place is malformed, the 33rd, or not finished in the first 4,096 bytes",
    12: "the key of the header line at the place stood before",
    13: "the header lacks the key whose code is the place",
    14: "the value of the key whose code is the place is not 1 to 18 digits",
    15: "a block starts too early (2, 4, 6 or 8), the signal block does not end with the file (7), or the closing bytes of the XML block are missing (1)",
}


class Refused(Exception):
    pass


def lines_of(data):
    """The header's lines as (place, key, value), and where the header ends."""
    head = data[:LIMIT]
    if not head.startswith(FILE_TYPE):
        raise Refused(10, 0)
    at, lines = len(FILE_TYPE), []
    while head[at:at + 2] != b"\x0c\n":
        m = LINE.match(head, at)
        if not m or len(lines) == 32:
            raise Refused(11, at)
        lines.append((at, m.group(1).decode(), m.group(2).decode()))
        at = m.end()
    return lines, at + 2


def header_of(data):
    lines, end = lines_of(data)
    seen = {}
    for place, key, value in lines:
        if key in seen:
            raise Refused(12, place)
        seen[key] = value
    support = any(k in seen for k in KEYS[2:4])
    for code, key in enumerate(KEYS, 1):
        if key not in seen and (code not in (3, 4) or support):
            raise Refused(13, code)
    numbers = {}
    for code, key in enumerate(KEYS[:8], 1):
        if key in seen:
            if not re.fullmatch(r"[0-9]{1,18}", seen[key]):
                raise Refused(14, code)
            numbers[code] = int(seen[key])
    blocks, before = [], end
    for name, code in (("xml", 1), ("support", 3), ("pvp", 5), ("signal", 7)):
        if code not in numbers:
            continue
        size, place = numbers[code], numbers[code + 1]
        if place < before:
            raise Refused(15, code + 1)
        blocks.append((name, place, size))
        before = place + size + (2 if name == "xml" else 0)
    if before != len(data):
        raise Refused(15, 7)
    xml_end = numbers[1] + numbers[2]
    if data[xml_end:xml_end + 2] != b"\x0c\n":
        raise Refused(15, 1)
    return lines, end, blocks, seen


def report(name, data):
    out = [name]
    try:
        lines, end, blocks, seen = header_of(data)
    except Refused as r:
        number, place = r.args
        return out + [f"  refused {number} {place}: {SENTENCES[number]}"], False
    out.append("  accepted")
    out += [f"  key {key} := {value}" for _, key, value in lines]
    out.append(f"  header 0 {end}")
    at = end
    names = [b[0] for b in blocks]
    for name, place, size in blocks:
        if name == "pvp" and "support" not in names:
            out.append("  support none")
        if place > at:
            out.append(f"  gap {at} {place - at}")
        out.append(f"  {name} {place} {size}")
        at = place + size
        if name == "xml":
            out.append(f"  end {at} 2")
            at += 2
    out.append(f"  classification {seen['CLASSIFICATION']}")
    out.append(f"  release {seen['RELEASE_INFO']}")
    return out, True


def survey(files, report):
    """Prints the report of each file, and how many were accepted."""
    accepted = 0
    for f in files:
        with open(f, "rb") as file:
            text, good = report(os.path.basename(f), file.read())
        print("\n".join(text))
        accepted += good
    print(f"{len(files)} files, {accepted} accepted, {len(files) - accepted} refused")


if __name__ == "__main__":
    survey(sys.argv[1:], report)
