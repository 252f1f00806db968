"""Words and cases for the programs of this folder: the encodings of document 01, and the batch form of docs/TESTING.md."""

import struct
from pathlib import Path

ROOT = Path(__file__).resolve().parent.parent


def vx(code, d, a, b):
    return 4 << 26 | d << 21 | a << 16 | b << 11 | code


def va(code, d, a, b, c):
    return vx(c << 6 | code, d, a, b)


def indexed(code, d, a, b):
    return 31 << 26 | d << 21 | a << 16 | b << 11 | code << 1


def addi(d, a, n):
    return 14 << 26 | d << 21 | a << 16 | n & 0xFFFF


def case(code, allowance, base, memory, vectors, general):
    """From place 0, with NJ, SAT and CR6 off."""
    head = struct.pack(">5I", len(code), len(memory), base, 0, allowance)
    return head + struct.pack(f">{len(code)}I", *code) + memory + vectors + bytes(16) + struct.pack(">32I", *general) + bytes(4)
