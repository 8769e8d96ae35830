"""Numbers of a job: 64 bits each, held as whole numbers so that every pattern survives."""

import re
import struct

DECIMAL = re.compile(r"[+-]?([0-9]+\.?[0-9]*|\.[0-9]+)([eE][+-]?[0-9]+)?")
HEXADECIMAL = re.compile(r"[+-]?0[xX]([0-9a-fA-F]+\.?[0-9a-fA-F]*|\.[0-9a-fA-F]+)[pP][+-]?[0-9]+")
PATTERN = re.compile(r"[0-9a-fA-F]{16}")


def to_bits(value):
    return struct.unpack("<Q", struct.pack("<d", value))[0]


def to_value(bits):
    return struct.unpack("<d", struct.pack("<Q", bits))[0]


def parse(word):
    """The bits a word stands for; ValueError says what was expected instead."""
    if word[:1] == "=" and PATTERN.fullmatch(word[1:]):
        return int(word[1:], 16)
    if PATTERN.fullmatch(word):
        raise ValueError(f"={word} for these bits (or {word}. for the decimal number)")
    if word in ("inf", "-inf"):
        return to_bits(float(word))
    if not DECIMAL.fullmatch(word) and not HEXADECIMAL.fullmatch(word):
        raise ValueError("a number: decimal, hexadecimal such as 0x1.8p1, inf, or = and 16 hexadecimal digits")
    try:
        value = float(word) if DECIMAL.fullmatch(word) else float.fromhex(word)
    except OverflowError:
        value = float("inf")
    if abs(value) == float("inf"):
        raise ValueError("a number within the range of f64 (infinity is written inf)")
    return to_bits(value)


def show(bits):
    """A short word that parses to the same bits."""
    word = f"={bits:016X}" if to_value(bits) != to_value(bits) else repr(to_value(bits))
    return word[:-2] if word.endswith(".0") and len(word) < 17 else word
