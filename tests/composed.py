"""What the compose program makes of a script, read a second time: records out, and the message for the first bad line."""

import re

LETTERS = "IMECTDLUPSONWR"
NAMED, WITH_BYTES, WITH_VALUE = "IMECTDLU", "IMPS", "EC"
LONGEST_LINE, INSTALL_BYTES, MOST_BYTES = 200, 12, 20


class Bad(Exception):
    """Why a line is no record."""


def first_word(rest):
    """The next word, up to a space, a tab or a comment, and what follows it."""
    return re.match(r"[ \t]*([^ \t#]*)(.*)", rest, re.S).groups()


def quoted(rest, room):
    """The bytes of a text behind its opening quote, and what follows the closing one."""
    text, quote, rest = rest.partition('"')
    if len(text) > room:
        raise Bad("too many bytes")
    if not quote:
        raise Bad("unclosed quote")
    if rest and rest[0] not in " \t#":
        raise Bad("missing space")
    return text.encode("latin-1"), rest


def hexadecimal(rest, room):
    word, rest = first_word(rest)
    if not re.fullmatch("[0-9a-fA-F]{2}", word):
        raise Bad("bad byte")
    if not room:
        raise Bad("too many bytes")
    return bytes.fromhex(word), rest


def argument_bytes(rest, limit):
    out = b""
    while first_word(rest)[0]:
        rest = rest.lstrip(" \t")
        room = limit - len(out)
        more, rest = quoted(rest[1:], room) if rest[0] == '"' else hexadecimal(rest, room)
        out += more
    return out


def number(word, low, high, missing):
    if not word:
        raise Bad(missing)
    sign = low < 0 and word[0] == "-"
    value = 0
    for digit in word[sign:] or "x":
        if digit not in "0123456789":
            raise Bad("bad number")
        value = value * 10 + int(digit)
        if value > 65535:
            raise Bad("number too large")
    value = -value if sign else value
    if not low <= value <= high:
        raise Bad("number too large")
    return value


def arguments(letter, rest):
    if letter in WITH_BYTES:
        args = argument_bytes(rest, INSTALL_BYTES if letter == "I" else MOST_BYTES)
        return args.ljust(INSTALL_BYTES, b"\0") if letter == "I" else args
    args = b""
    if letter in WITH_VALUE:
        word, rest = first_word(rest)
        args = (number(word, -32768, 32767, "missing number") % 65536).to_bytes(2, "big")
    if first_word(rest)[0]:
        raise Bad("unexpected argument")
    return args


def record_of(line):
    """The 24 bytes of a line's record, or none for a line with no word."""
    if len(line) > LONGEST_LINE:
        raise Bad("line too long")
    letter, rest = first_word(line[:-1] if line.endswith("\r") else line)
    if not letter:
        return b""
    if letter not in tuple(LETTERS):
        raise Bad("unknown letter")
    applet = 0
    if letter in NAMED:
        word, rest = first_word(rest)
        applet = number(word, 0, 255, "missing applet")
    args = arguments(letter, rest)
    if letter == "M" and not args:
        raise Bad("missing help byte")
    if letter == "M" and args[0] > 1:
        raise Bad("help byte not 00 or 01")
    return (bytes([ord(letter), applet, len(args)]) + args).ljust(24, b"\0")


def composed(script):
    """The records of a script's lines up to the first bad one, and the message about that line."""
    out = b""
    lines = script.decode("latin-1").split("\n")
    for place, line in enumerate(lines if lines[-1] else lines[:-1], 1):
        try:
            out += record_of(line)
        except Bad as cause:
            return out, f"compose: line {place}: {cause}\n".encode()
    return out, b""
