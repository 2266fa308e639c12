#!/usr/bin/env python3
"""Writes what `cphd demo` must print (crates/demo/stdout): the built-in product is built here anew and read by expected_headers.py."""
from expected_headers import report

HEADER = b"""CPHD/1.1.0
XML_BLOCK_SIZE := 64
XML_BLOCK_BYTE_OFFSET := 512
SUPPORT_BLOCK_SIZE := 16
SUPPORT_BLOCK_BYTE_OFFSET := 584
PVP_BLOCK_SIZE := 432
PVP_BLOCK_BYTE_OFFSET := 600
SIGNAL_BLOCK_SIZE := 24
SIGNAL_BLOCK_BYTE_OFFSET := 1040
CLASSIFICATION := UNCLASSIFIED
RELEASE_INFO := UNRESTRICTED
PRODUCER := built in
\x0c
"""
SIZE, DAMAGED = 1064, 26
product = (HEADER.ljust(512, b"\0") + b"<CPHD></CPHD>".ljust(64) + b"\x0c\n").ljust(SIZE, b"\0")
damaged = product[:DAMAGED] + b"-" + product[DAMAGED + 1:]

out = [f"1. A product of {SIZE} bytes lies in memory as a fixed file. Its header:"]
out += report("built-in", product)[0]
out += ["2. Two buffers of 300 and 800 bytes are joined as one shelf and restocked with it.",
        "  restock under stamp 7: done",
        "  restock under stamp 7: refused 1 7: the stamp given is not above the shelf's stamp, which is the place",
        "  a byte at the joint: done",
        f"  a byte at the end: refused 3 {SIZE}: the bytes asked for reach past the end; the place is the length"]
out += report("joined", product)[0]
out += [f"3. One byte of it is damaged, at {DAMAGED}:"]
out += report("damaged", damaged)[0]
print("\n".join(out))
