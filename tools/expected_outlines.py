#!/usr/bin/env python3
"""Writes what the program `outlines FILE...` must print, by a reader of its own.

usage: expected_outlines.py FILE...   (to standard output)

It shares no code with the library: one regular expression cuts the XML block into tokens, and a stack holds the elements that
are open. The gate compares the program's output with the file that this script wrote, crates/outlines/stdout.
"""
import re
import sys
from itertools import groupby

from expected_headers import SENTENCES, Refused, header_of, survey

SENTENCES = SENTENCES | {21: "the XML block breaks the grammar"}
DEEPEST = 16
DECLARATION = re.compile(rb"<\?xml.*?\?>", re.DOTALL)
NAME = rb"[A-Za-z_][A-Za-z0-9_.-]*"
SPACE = rb"[ \t\n\r]"
ATTRIBUTE = SPACE + rb"+[A-Za-z_][A-Za-z0-9_.:-]*" + SPACE + rb"*=" + SPACE + rb"*(?:\"[^\"<]*\"|'[^'<]*')"
TOKEN = re.compile(
    rb"(?P<blank>" + SPACE + rb"+)"
    rb"|(?P<comment><!--(?:(?!--).)*-->)"
    rb"|(?P<text>[!-%'-;=-~\x80-\xff]+|&(?:lt|gt|amp|quot|apos);)"
    rb"|</(?P<close>" + NAME + rb")" + SPACE + rb"*>"
    rb"|<(?P<open>" + NAME + rb")(?:" + ATTRIBUTE + rb")*" + SPACE + rb"*(?P<empty>/?)>",
    re.DOTALL)


def tree_of(text):
    """The root as (name, children), each child a pair of the same kind."""
    declaration = DECLARATION.match(text)
    at = declaration.end() if declaration else 0
    outside = ("", [])
    stack = [outside]
    while at < len(text):
        token = TOKEN.match(text, at)
        if not token:
            raise Refused(21, 0)
        at = token.end()
        if token["open"]:
            element = (token["open"].decode(), [])
            stack[-1][1].append(element)
            stack.append(element)
            if len(stack) - 1 > DEEPEST or len(outside[1]) > 1:
                raise Refused(21, 0)
        if token["text"] and len(stack) == 1:
            raise Refused(21, 0)
        if token["close"] or token["empty"]:
            name, _ = stack.pop()
            if token["close"] and token["close"].decode() != name:
                raise Refused(21, 0)
    if len(stack) != 1 or len(outside[1]) != 1:
        raise Refused(21, 0)
    return outside[1][0]


def lines_of(element, depth):
    """The element's line without its number, and the lines below it."""
    name, children = element
    below = []
    for (line, inner), same in groupby(lines_of(child, depth + 1) for child in children):
        count = len(list(same))
        below += [line + (f" x{count}" if count > 1 else ""), *inner]
    return "  " * depth + name, below


def report(name, data):
    try:
        blocks = {block: (place, size) for block, place, size in header_of(data)[2]}
        place, size = blocks["xml"]
        line, below = lines_of(tree_of(data[place:place + size]), 1)
    except Refused as r:
        number, place = r.args
        return [name, f"  refused {number} {place}: {SENTENCES[number]}"], False
    return [name, line, *below], True


if __name__ == "__main__":
    survey(sys.argv[1:], report)
