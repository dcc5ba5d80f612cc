"""Seeded vectors for the readers program: envelopes, commands, runs and values, sound ones and damaged ones."""

import random

import draws
from coding import (ALPHA_IDENTIFIER, COMPREHENSION, EVENT_DOWNLOAD, LAST_TAG, MENU_SELECTION, THREE_BYTES, TIMER_EXPIRATION,
                    Refused, elements, open_outer, read_tag, with_length)
from draws import OTHER_BITS, flagged, in_three_bytes, one_in, tagged
from model import EVENT_OF_CODE

SUBJECTS = {MENU_SELECTION: [1, 2, 127, 128, 255], TIMER_EXPIRATION: [0, 1, 8, 9],
            EVENT_DOWNLOAD: [*EVENT_OF_CODE, 0x09, 0x0A, 0x0D, 0x10]}
BARRED_TAGS = [0x00, 0x80, 0xFF]
EDGES = [0x7E, 0x7F, 0x80, 0x81, 0xFE, 0xFF, 0x100]
LONGEST_VALUE = 0xFF
MOST_BYTES = 512
VALUE_EDGES = [-32768, -32767, -130, -129, -128, -127, -66, -65, -64, -63, -2, -1, 0, 1, 32766, 32767]


def taken_apart(data):
    """Outer tag and elements of sound bytes."""
    outer, start = open_outer(data)
    run, at, parts = data[start:], 0, []
    for _, place, length in elements(run):
        parts.append(run[at:place + length])
        at = place + length
    return outer, parts


def other_form(rng, size):
    """A length in a form that is not its own."""
    return bytes(rng.choice([[0x81, size], [0x82, 0, size], [0x80]] if size <= 0x7F else [[size], [0x82, 0, size], [0x80, size]]))


def put_together(rng, outer, parts):
    value = b"".join(parts)
    if len(value) > LONGEST_VALUE:
        return bytes([outer, 0x82, 1, 0]) + value
    return bytes([outer]) + other_form(rng, len(value)) + value if one_in(rng, 10) else with_length(outer, value)


def some_value(rng):
    return rng.randbytes(rng.choice([0, 1, 1, 2, 3]))


def tag_of(rng, parts):
    """The number of a tag that stands there, or another."""
    return read_tag(rng.choice(parts), 0)[0] if parts else rng.randint(1, LAST_TAG)


def first_of_other_length(rng, parts):
    """A tag that stands there stands before it too, with some other value."""
    return [tagged(rng, tag_of(rng, parts), some_value(rng))] + parts


def repeated(rng, parts):
    at = rng.randint(0, len(parts))
    return parts[:at] + [tagged(rng, tag_of(rng, parts), some_value(rng))] + parts[at:]


def turned(part):
    at = 1 if part[0] == THREE_BYTES else 0
    return part[:at] + bytes([part[at] ^ COMPREHENSION]) + part[at + 1:]


def flag_turned(rng, parts):
    return [turned(part) if one_in(rng, 2) else part for part in parts]


def barred(rng, parts):
    at = rng.randint(0, len(parts))
    return parts[:at] + [with_length(rng.choice(BARRED_TAGS), some_value(rng))] + parts[at:]


def three_bytes(rng, parts):
    """A tag of three bytes before, between or behind the others, sometimes cut short."""
    at = rng.randint(0, len(parts))
    whole = in_three_bytes(rng, tag_of(rng, parts) | rng.choice([0, *OTHER_BITS]), some_value(rng))
    return parts[:at] + [whole[:rng.randint(1, 4)] if one_in(rng, 4) else whole] + parts[at:]


def other_length_form(rng, parts):
    at, value = rng.randint(0, len(parts)), rng.choice([some_value(rng), rng.randbytes(0x7F), rng.randbytes(0x80)])
    return parts[:at] + [tagged(rng, tag_of(rng, parts), b"")[:-1] + other_form(rng, len(value)) + value] + parts[at:]


def filled_up(rng, parts):
    """As many bytes as a length can just say in one form, with one element that makes them so many."""
    left = rng.choice(EDGES) - sum(map(len, parts)) - 2
    left -= left > 0x7F
    filler = with_length(flagged(rng, ALPHA_IDENTIFIER), rng.randbytes(max(0, min(left, LONGEST_VALUE))))
    at = rng.randint(0, len(parts))
    return parts[:at] + [filler] + parts[at:]


def longest(rng, parts):
    at = rng.randint(0, len(parts))
    return parts[:at] + [tagged(rng, tag_of(rng, parts), rng.randbytes(LONGEST_VALUE))] + parts[at:]


CHANGES = [first_of_other_length, repeated, flag_turned, barred, three_bytes, other_length_form, filled_up]


def altered(rng, data):
    """The same bytes with their elements changed, where they are sound; else with bytes changed once more."""
    try:
        outer, parts = taken_apart(data)
    except Refused:
        return draws.damage(rng, data)
    return put_together(rng, outer, rng.choice(CHANGES)(rng, parts))


def whole_envelope(rng):
    return draws.envelope(rng, SUBJECTS, long_ones=True)


def whole_command(rng):
    return draws.command(rng, SUBJECTS[TIMER_EXPIRATION])


def either(rng):
    return rng.choice([whole_envelope, whole_command])(rng)


def maybe_altered(draw):
    def drawn(rng):
        data = draw(rng)
        return altered(rng, data) if one_in(rng, 2) else data
    return drawn


def searched(rng):
    """A tag number and an occurrence, two bytes each, and a run: as `draws` has it, or what an envelope holds."""
    run, tag, occurrence = draws.search(rng)
    if one_in(rng, 2):
        try:
            parts = taken_apart(whole_envelope(rng))[1]
        except Refused:
            parts = []
        tag = tag_of(rng, parts)
        parts = rng.choice([*CHANGES, longest])(rng, parts)
        run = b"".join(parts)
    tag = tag | rng.choice([0x8000, *OTHER_BITS]) if one_in(rng, 20) else tag
    occurrence = rng.choice([0, 255, 256, 257, 65535]) if one_in(rng, 15) else occurrence
    return tag.to_bytes(2, "big") + occurrence.to_bytes(2, "big") + run


def value(rng):
    number = rng.choice([rng.choice(VALUE_EDGES), rng.randint(-140, 140), rng.randint(-32768, 32767)])
    return number.to_bytes(2, "big", signed=True)


DRAWN = {"e": maybe_altered(whole_envelope), "c": maybe_altered(whole_command), "o": maybe_altered(either),
         "f": searched, "v": value, "d": lambda rng: rng.randbytes(1)}
WEIGHTS = {"e": 40, "c": 20, "o": 10, "f": 20, "v": 8, "d": 2}


def line(name, letter, data):
    return f"{name}: {letter} {data.hex(' ').upper()}".rstrip()


def vectors(seed, count):
    """So many lines, named by their number."""
    rng = random.Random(seed)
    letters = rng.choices(list(WEIGHTS), list(WEIGHTS.values()), k=count)
    return [line(number, letter, DRAWN[letter](rng)[:MOST_BYTES]) for number, letter in enumerate(letters, 1)]
