#!/usr/bin/env python3
"""What `prolly` has to print for the script on standard input, worked out independently of it."""
import hashlib
import sys


def fnv(data):
    h = 0xCBF29CE484222325
    for byte in data:
        h = (h ^ byte) * 0x00000100000001B3 % 2**64
    return f"{h:016x}" + "0" * 48


DIGESTS = {"sha256": lambda data: hashlib.sha256(data).hexdigest(), "fnv": fnv}


class Wrong(Exception):
    pass


def byte_string(word):
    if word == "-":
        return b""
    raw = word.encode()
    if len(raw) % 2:
        raise Wrong("a byte string has two hexadecimal digits for each byte, but here their number is odd")
    for place, digit in enumerate(raw, 1):
        if digit not in b"0123456789abcdef":
            raise Wrong(f"character {place} of the byte string is not a lowercase hexadecimal digit")
    return bytes.fromhex(word)


def answer(line):
    """What a line prints, or None where it is passed over."""
    try:
        text = line.decode("utf-8")
    except UnicodeDecodeError:
        raise Wrong("the line is not text") from None
    if not text.strip(" ") or text.startswith("#"):
        return None
    words = text.split(" ")
    if "" in words:
        raise Wrong("words are separated by single blanks")
    call, *arguments = words
    if call != "digest":
        raise Wrong(f"there is no call {call}")
    if len(arguments) != 2:
        raise Wrong(f"digest takes a digest and a byte string, but {len(arguments)} words follow it")
    name, digits = arguments
    if name not in DIGESTS:
        raise Wrong(f"there is no digest {name}, only sha256 and fnv")
    return "ok " + DIGESTS[name](byte_string(digits))


def main():
    lines = sys.stdin.buffer.read().split(b"\n")
    if lines[-1] == b"":
        lines.pop()
    for line in lines:
        try:
            printed = answer(line)
        except Wrong as wrong:
            printed = f"error: {wrong}"
        if printed is not None:
            sys.stdout.buffer.write(printed.encode() + b"\n")


main()
