"""Bytes of documents 01 and 02: elements, envelopes and commands read, system commands written."""

from enum import IntEnum
from typing import NamedTuple


class Refusal(IntEnum):
    NONE = 0
    MALFORMED = 1
    NO_APPLET = 2
    NUMBER_IN_USE = 3
    BAD_INSTALL = 4
    TOO_MANY_ENTRIES = 5
    IDENTIFIER_TWICE = 6
    EVENT_NOT_SUPPORTED = 7
    EVENT_NOT_BY_CALL = 8
    CALL_CONTROL_OWNED = 9
    ENTRIES_ALL_MADE = 10
    NOT_ITS_ROW = 11
    BAD_TEXT = 12
    TIMER_LIMIT = 13
    NO_TIMER_FREE = 14
    NOT_ITS_TIMER = 15
    OUTSTANDING = 16
    SYSTEM_TYPE = 17
    BUFFER_TOO_SMALL = 18
    NONE_OUTSTANDING = 19
    BAD_DURATION = 20
    NO_ROUND = 21
    ROUND_OPEN = 22


class Refused(Exception):
    """Leaves a call before anything is changed."""

    def __init__(self, number):
        super().__init__(number)
        self.number = number


def refuse_if(holds, number):
    if holds:
        raise Refused(number)


class Marks(NamedTuple):
    """Which handlers are available to those called."""
    proactive: bool = False
    envelope: bool = False
    response: bool = False


class Answer(NamedTuple):
    """What a public call gives back; a refusal leaves all but its number as here."""
    refusal: int = Refusal.NONE
    number: int = 0
    yes: bool = False
    called: int = 0
    marks: Marks = Marks()
    data: bytes = b""
    items: tuple = ()


class Part(NamedTuple):
    """A part of the caller's bytes; `yes` tells an empty part from none."""
    yes: bool = False
    start: int = 0
    length: int = 0


TITLE_LIMIT, ROW_LIMIT, TEXT_LIMIT = 20, 12, 15
PROACTIVE_COMMAND = 0xD0
MENU_SELECTION, CALL_CONTROL, EVENT_DOWNLOAD, TIMER_EXPIRATION = 0xD3, 0xD4, 0xD6, 0xD7
COMMAND_DETAILS, DEVICE_IDENTITIES, DURATION, ALPHA_IDENTIFIER, ITEM = 0x01, 0x02, 0x04, 0x05, 0x0F
ITEM_IDENTIFIER, HELP_REQUEST, EVENT_LIST, TIMER_IDENTIFIER = 0x10, 0x15, 0x19, 0x24
COMPREHENSION = 0x80
SUBJECT_TAG = {MENU_SELECTION: ITEM_IDENTIFIER, EVENT_DOWNLOAD: EVENT_LIST, TIMER_EXPIRATION: TIMER_IDENTIFIER}
SET_UP_MENU, SET_UP_EVENT_LIST, POLL_INTERVAL, POLLING_OFF, TIMER_MANAGEMENT = 0x25, 0x05, 0x03, 0x04, 0x27
IN_MINUTES, IN_SECONDS = 0x00, 0x01
THREE_BYTES, LAST_TAG = 0x7F, 0x7FFF
SOME_HELP = 0x80
CARD_TO_TERMINAL = bytes([0x81, 0x82])


def read_length(data, at):
    """A length and the place behind it."""
    first, second = (*data[at:at + 2], None, None)[:2]
    if first is not None and first <= 0x7F:
        return first, at + 1
    refuse_if(first != 0x81 or second is None or second < 0x80, Refusal.MALFORMED)
    return second, at + 2


def read_tag(run, at):
    """The number of a tag in either form, without its flag, and the place behind it."""
    refuse_if(run[at] in (0x00, 0x80, 0xFF), Refusal.MALFORMED)
    if run[at] != THREE_BYTES:
        return run[at] & ~COMPREHENSION, at + 1
    return int.from_bytes(run[at + 1:at + 3], "big") & LAST_TAG, at + 3


def elements(run):
    """Tag number, start and length of each element, until the end or malformed bytes."""
    at = 0
    while at < len(run):
        tag, behind = read_tag(run, at)
        length, start = read_length(run, behind)
        at = start + length
        refuse_if(at > len(run), Refusal.MALFORMED)
        yield tag, start, length


def find(run, tag, occurrence):
    """The value of the element with this tag number, counted from 1."""
    if not 1 <= tag <= LAST_TAG:
        return Part()
    seen = 0
    try:
        for found, start, length in elements(run):
            seen += found == tag
            if found == tag and seen == occurrence:
                return Part(True, start, length)
    except Refused:
        pass
    return Part()


def open_outer(data):
    """Outer tag and where the value starts, of bytes sound down to their elements."""
    length, start = read_length(data, 1)
    refuse_if(start + length != len(data), Refusal.MALFORMED)
    for _ in elements(data[start:]):
        pass
    return data[0], start


def needed(run, tag, length):
    """The value of the first element with this tag, which must be there and have this length."""
    part = find(run, tag, 1)
    refuse_if(not part.yes or part.length != length, Refusal.MALFORMED)
    return run[part.start:part.start + length]


class Arrival(NamedTuple):
    """An envelope as read: the row, event code or timer it names, and whether help is asked for."""
    tag: int
    start: int
    subject: int = 0
    help: bool = False


def read_envelope(data):
    tag, start = open_outer(data)
    run = data[start:]
    if tag in SUBJECT_TAG or tag == CALL_CONTROL:
        needed(run, DEVICE_IDENTITIES, 2)
    subject = needed(run, SUBJECT_TAG[tag], 1)[0] if tag in SUBJECT_TAG else 0
    asked = find(run, HELP_REQUEST, 1)
    refuse_if(tag == MENU_SELECTION and asked.length != 0, Refusal.MALFORMED)
    return Arrival(tag, start, subject, asked.yes)


def content(data):
    """The handler's content: the part of a sound envelope after its length."""
    try:
        start = read_envelope(data).start
    except Refused:
        return Part()
    return Part(True, start, len(data) - start)


def read_command(data):
    """Type of a command given to send, and its timer if it is timer management."""
    tag, start = open_outer(data)
    refuse_if(tag != PROACTIVE_COMMAND, Refusal.MALFORMED)
    run = data[start:]
    kind = needed(run, COMMAND_DETAILS, 3)[1]
    return kind, needed(run, TIMER_IDENTIFIER, 1)[0] if kind == TIMER_MANAGEMENT else 0


def with_length(tag, value):
    head = [tag, len(value)] if len(value) <= 0x7F else [tag, 0x81, len(value)]
    return bytes(head) + value


def element(tag, value):
    return with_length(tag | COMPREHENSION, value)


def system_command(kind, qualifier, rest):
    details = element(COMMAND_DETAILS, bytes([1, kind, qualifier]))
    return with_length(PROACTIVE_COMMAND, details + element(DEVICE_IDENTITIES, CARD_TO_TERMINAL) + rest)


def write_menu(title, items, some_help):
    """SET UP MENU of a title and of items (identifier, text)."""
    shown = [element(ITEM, bytes([identifier]) + text) for identifier, text in items] or [element(ITEM, b"")]
    qualifier = SOME_HELP if some_help else 0
    return system_command(SET_UP_MENU, qualifier, element(ALPHA_IDENTIFIER, title) + b"".join(shown))


def write_events(codes):
    return system_command(SET_UP_EVENT_LIST, 0, element(EVENT_LIST, bytes(sorted(codes))))


def duration_of(seconds):
    """Unit and count: seconds up to 255, else minutes rounded down."""
    return (IN_SECONDS, seconds) if seconds <= 0xFF else (IN_MINUTES, seconds // 60)


def write_interval(seconds):
    return system_command(POLL_INTERVAL, 0, element(DURATION, bytes(duration_of(seconds))))


def write_polling_off():
    return system_command(POLLING_OFF, 0, b"")


def could_be_menu(title, items, some_help):
    identifiers = [identifier for identifier, _ in items]
    return (len(title) <= TITLE_LIMIT and len(items) <= ROW_LIMIT
            and 0 not in identifiers and len(set(identifiers)) == len(identifiers)
            and all(1 <= len(text) <= TEXT_LIMIT for _, text in items)
            and (bool(items) or not some_help))


def read_menu(data):
    """Title (data), help (yes) and items of exactly the bytes that write_menu gives for some menu."""
    try:
        _, start = open_outer(data)
    except Refused as refused:
        return Answer(refused.number)
    run = data[start:]
    parts = [(tag, run[at:at + length]) for tag, at, length in elements(run)]
    values = dict(parts)
    title, details = values.get(ALPHA_IDENTIFIER, b""), values.get(COMMAND_DETAILS, b"")
    items = tuple((value[0], value[1:]) for tag, value in parts if tag == ITEM and value)
    some_help = details[2:] == bytes([SOME_HELP])
    if not could_be_menu(title, items, some_help) or write_menu(title, items, some_help) != data:
        return Answer(Refusal.MALFORMED)
    return Answer(yes=some_help, data=title, items=items)
