"""Random bytes of interesting kinds: envelopes, commands, runs of elements and menus, sound or damaged."""

from coding import (CALL_CONTROL, COMMAND_DETAILS, COMPREHENSION, DEVICE_IDENTITIES, EVENT_DOWNLOAD, HELP_REQUEST,
                    LAST_TAG, MENU_SELECTION, POLLING_OFF, POLL_INTERVAL, PROACTIVE_COMMAND, ROW_LIMIT, SET_UP_EVENT_LIST,
                    SET_UP_MENU, SUBJECT_TAG, THREE_BYTES, TIMER_EXPIRATION, TIMER_IDENTIFIER, TIMER_MANAGEMENT,
                    with_length, write_events, write_menu)

DISPLAY_TEXT = 0x21
TITLES = [b"Pick list", b"Crate label", b"Chairs", b"A"]
LONG_VALUES = [0x7E, 0x7F, 0x80, 0x81, 0xC0]
LAST_IN_ONE_BYTE = 0x7E
OTHER_BITS = [0x0080, 0x0100, 0x4000, 0x7F00]
TRACKING_AREA = 0x7D    # Wireshark reads its value, whatever the length, and finds it malformed
OTHER_TAGS = [tag for tag in range(LAST_IN_ONE_BYTE + 1) if tag != TRACKING_AREA]


def one_in(rng, many):
    return rng.randrange(many) == 0


def text(rng, limit):
    """Mostly a text within the limit, equal texts often, lengths at the limit's edges often."""
    length = rng.choice([limit, limit, limit, 1, rng.randint(0, 15), limit + 1 if one_in(rng, 5) else limit])
    if one_in(rng, 3):
        return rng.randbytes(length)
    return (rng.choice(TITLES) * 8)[:length]


def flagged(rng, tag):
    return tag | rng.choice([0, COMPREHENSION])


def in_three_bytes(rng, tag, value):
    return bytes([THREE_BYTES, flagged(rng, tag >> 8)]) + with_length(tag & 0xFF, value)


def tagged(rng, tag, value):
    """An element by this tag number, in one of the forms that have it."""
    if not 1 <= tag <= LAST_IN_ONE_BYTE or one_in(rng, 4):
        return in_three_bytes(rng, tag, value)
    return with_length(flagged(rng, tag), value)


def odd_element(rng, tag):
    """An element beside the needed ones: the same tag again, one that is like it in its last byte, help or any other."""
    odd = rng.choice([tag, tag | rng.choice(OTHER_BITS), HELP_REQUEST, rng.choice(OTHER_TAGS)])
    return tagged(rng, odd, rng.randbytes(rng.choice([0, 1, 1, 2, 3])))


def vary(rng, parts, tag):
    """Adds, drops, repeats, shortens or reorders elements; what comes out may still be sound."""
    parts = list(parts)
    for _ in range(rng.choice([1, 1, 2])):
        change = rng.randrange(6)
        if change <= 2:
            parts.insert(rng.randint(0, len(parts)), odd_element(rng, tag))
        elif change == 3 and parts:
            parts.pop(rng.randrange(len(parts)))
        elif change == 4 and parts:
            parts[rng.randrange(len(parts))] = tagged(rng, tag, rng.randbytes(rng.choice([0, 2])))
        else:
            rng.shuffle(parts)
    return parts


def lengthen(rng, parts):
    """Puts in one element around the place where a length takes two bytes."""
    value = rng.randbytes(rng.choice(LONG_VALUES))
    return parts + [tagged(rng, 0x0D, value)]


def damage(rng, data):
    """Breaks bytes in one place."""
    at = rng.randrange(len(data) + 1)
    return rng.choice([
        data[:at],
        data + rng.choice([b"\x00", b"\x80", b"\xFF", rng.randbytes(1)]),
        data[:1] + b"\x81" + data[1:],
        data[:1] + bytes([0x81, 0x7F]) + data[2:],
        data[:1] + bytes([rng.choice([0x80, 0x82, 0xFF])]) + data[2:],
        data[:at] + rng.choice([b"\x00", b"\x80", b"\xFF", b"\x7F", rng.randbytes(1)]) + data[at + 1:],
        data[:at] + b"\x81" + data[at:],
        rng.randbytes(at),
    ])


def wrapped(rng, outer, parts, tag, long_ones):
    """The elements under their outer tag: as they are, varied, lengthened or damaged."""
    if one_in(rng, 4):
        parts = vary(rng, parts, tag)
    if long_ones and one_in(rng, 6):
        parts = lengthen(rng, parts)
    value = b"".join(parts)
    data = with_length(outer, value) if len(value) <= 0xFF else bytes([outer, 0x82, 1, 0]) + value
    return damage(rng, data) if one_in(rng, 8) else data


def devices(rng):
    return tagged(rng, DEVICE_IDENTITIES, bytes([0x82, 0x81]))


def envelope(rng, subjects, long_ones=False):
    """An envelope; `subjects` gives for each outer tag the rows, codes or timers worth naming."""
    outer = rng.choice([MENU_SELECTION] * 4 + [TIMER_EXPIRATION] * 2 + [EVENT_DOWNLOAD] * 2
                       + [CALL_CONTROL, 0xC1, rng.randrange(256)])
    tag = SUBJECT_TAG.get(outer, DEVICE_IDENTITIES)
    parts = [devices(rng)]
    if outer in SUBJECT_TAG:
        subject = rng.randrange(256) if one_in(rng, 10) else rng.choice(subjects[outer] or [1])
        parts.append(tagged(rng, tag, bytes([subject])))
    if outer == MENU_SELECTION and one_in(rng, 3):
        parts.append(tagged(rng, HELP_REQUEST, b""))
    if outer not in SUBJECT_TAG and one_in(rng, 3):
        parts = parts[1:]
    return wrapped(rng, outer, parts, tag, long_ones)


def command(rng, timers):
    """A command for send; `timers` are those worth naming."""
    kind = rng.choice([DISPLAY_TEXT] * 3 + [TIMER_MANAGEMENT] * 4 + [rng.randrange(256), SET_UP_MENU,
                      SET_UP_EVENT_LIST, POLL_INTERVAL, POLLING_OFF])
    outer = rng.randrange(256) if one_in(rng, 12) else PROACTIVE_COMMAND
    parts = [tagged(rng, COMMAND_DETAILS, bytes([1, kind, 0])), devices(rng)]
    if kind == TIMER_MANAGEMENT:
        timer = rng.randrange(256) if one_in(rng, 8) else rng.choice(timers or [1])
        parts.append(tagged(rng, TIMER_IDENTIFIER, bytes([timer])))
    return wrapped(rng, outer, parts, rng.choice([COMMAND_DETAILS, TIMER_IDENTIFIER]), True)


def search(rng):
    """Inputs of find: a run, a tag number and an occurrence."""
    tags = [rng.randint(1, rng.choice([LAST_IN_ONE_BYTE, LAST_TAG])) for _ in range(2)]
    parts = [tagged(rng, rng.choice(tags), rng.randbytes(rng.randrange(4))) for _ in range(rng.randrange(7))]
    if one_in(rng, 3):
        parts = vary(rng, parts, tags[0])
    if one_in(rng, 5):
        parts = lengthen(rng, parts) + parts
    run = b"".join(parts)
    run = damage(rng, run) if one_in(rng, 4) else run
    others = [0, tags[0] ^ COMPREHENSION, tags[0] ^ 0x8000, tags[0] ^ rng.choice(OTHER_BITS), rng.randrange(256), rng.randrange(0x10000)]
    tag = rng.choice(others) if one_in(rng, 6) else tags[0]
    return run, tag, rng.choice([0, 1, 1, 1, 1, 2, 2, 3])


def menu(rng):
    """Bytes for the menu reader: menus at and over the edges, other commands, damaged ones."""
    count = rng.choice([0, 1, 2, 3, ROW_LIMIT, ROW_LIMIT])
    identifiers = rng.sample(range(1, 256), count)
    items = [(identifier, rng.randbytes(rng.choice([1, 2, 15]))) for identifier in identifiers]
    title = rng.randbytes(rng.choice([0, 1, 20]))
    some_help = one_in(rng, 2) and bool(items)
    fault = rng.randrange(16)
    if fault == 0:
        items = items + [rng.choice(items + [(0, b"A"), (7, b""), (7, bytes(16)), (7, b"A")])]
    elif fault == 1:
        title, some_help = rng.randbytes(rng.choice([20, 21])), True
    elif fault == 2:
        return write_events(rng.sample(range(16), rng.randrange(16)))
    data = write_menu(title, items, some_help)
    return damage(rng, data) if one_in(rng, 3) else data
