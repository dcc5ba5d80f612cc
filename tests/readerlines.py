"""The readers program: lines `name: letter bytes` in, what document 01 makes of the bytes out."""

from coding import (CALL_CONTROL, EVENT_DOWNLOAD, MENU_SELECTION, TIMER_EXPIRATION, TIMER_MANAGEMENT, Refused, content,
                    find, open_outer, read_command, read_envelope)
from model import CALL_CONTROL_EVENT, EVENT_OF_CODE, Card

EVENT_NAMES = {1: "profile download", 7: "menu selection", 8: "menu selection help request", 9: "call control",
               11: "timer expiration", 12: "MT call", 13: "call connected", 14: "call disconnected",
               15: "location status", 16: "user activity", 17: "idle screen", 18: "card reader status",
               20: "language selection", 21: "browser termination", 25: "access technology (single)",
               26: "display parameters", 28: "network search mode", 29: "browsing status",
               123: "proactive handler available", -1: "unrecognized envelope"}
ISSUER, RESERVED = range(-128, -64), range(-32768, -128)
NO_EVENT = 0
SUBJECT_NAMES = {EVENT_DOWNLOAD: "download", TIMER_EXPIRATION: "expiry"}


def shown(data, part):
    return data[part.start:part.start + part.length].hex() or "-"


def said_of(arrival):
    if arrival.tag == MENU_SELECTION:
        return f"{'help' if arrival.help else 'menu'} {arrival.subject:02x}"
    if arrival.tag in SUBJECT_NAMES:
        return f"{SUBJECT_NAMES[arrival.tag]} {arrival.subject:02x}"
    return "call" if arrival.tag == CALL_CONTROL else "unrecognized"


def envelope(data):
    try:
        said = f"{said_of(read_envelope(data))}, taken"
    except Refused:
        said = "malformed, refused"
    return f"{said}, content {shown(data, content(data))}"


def command(data):
    try:
        kind, timer = read_command(data)
    except Refused:
        return "malformed"
    return f"timer {timer:02x}" if kind == TIMER_MANAGEMENT else f"type {kind:02x}"


def outer(data):
    try:
        tag, start = open_outer(data)
    except Refused:
        return "malformed"
    return f"tag {tag:02x}, value at {start:04x}"


def search(data):
    tag, occurrence, run = int.from_bytes(data[:2], "big"), int.from_bytes(data[2:4], "big"), data[4:]
    part = find(run, tag, occurrence)
    place = f"at {part.start:04x} length {part.length:04x}" if part.yes else "nothing"
    return f"{'yes' if part.yes else 'no'} {shown(run, part)}, {place}"


def kind_of(value):
    if value in EVENT_NAMES:
        return EVENT_NAMES[value]
    return "issuer" if value in ISSUER else "reserved" if value in RESERVED else "unsupported"


def event(value):
    """What the value is, and what set event says of it where nobody owns call control."""
    card = Card()
    card.install(1, 1, 0, 0, 0, [])
    refusal = card.set_event(1, value).refusal
    return f"{kind_of(value)}, refusal {refusal:02x}{', one owner' if value == CALL_CONTROL_EVENT else ''}"


ANSWERS = {"e": envelope, "c": command, "o": outer, "f": search,
           "v": lambda data: event(int.from_bytes(data, "big", signed=True)),
           "d": lambda data: event(EVENT_OF_CODE.get(data[0], NO_EVENT))}


def reader_line(line):
    """What the readers program prints for a line."""
    name, _, asked = line.partition(": ")
    return f"{name}: {ANSWERS[asked[0]](bytes.fromhex(asked[1:]))}"
