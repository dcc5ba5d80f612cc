"""The doors of the C library over the model: what a door is asked, and the bytes that C must see."""

import struct

from model import CALL_CONTROL_EVENT
from rounds import CHOICE, EVENT, EXPIRY, HELP, NOTHING, STATUS

CALLS = ["install", "delete", "lock", "unlock", "set_event", "clear_event", "ask_event", "request_poll", "new_entry", "change_entry",
         "enable_entry", "disable_entry", "allocate", "release", "profile", "envelope", "status", "settled", "next", "send", "system_command", "response"]
OF_NO_APPLET = {"profile", "envelope", "status", "settled", "next", "system_command", "response"}
NUMBERED = {"change_entry", "enable_entry", "disable_entry", "release"}
VALUED = {"set_event", "clear_event", "ask_event", "request_poll"}
DOORS = {"allocate": "allocate_timer", "release": "release_timer"}
ARRIVAL_KINDS = [NOTHING, EVENT, CHOICE, HELP, EXPIRY, STATUS]
EVENT_PLACES = [1, 7, 8, 9, 11, 12, 13, 14, 15, 16, 17, 18, 20, 21, 25, 26, 28, 29, -1, 123]


def request(door, data=b"", lent=b"", applet=0, number=0, help=0, null=0, value=0, tag=0, occurrence=0):
    """The bytes of door.c's struct request, with what is given and lent."""
    head = struct.pack("<24s4BhHIIQ", door.encode(), applet, number, help, null, value, tag, len(data), len(lent), occurrence)
    return head + data + lent


def arguments(name, inputs):
    """The door of a call on a card, and what the door is asked of the call's inputs, but for the buffer that it lends."""
    asked, inputs = {}, list(inputs)
    if name not in OF_NO_APPLET:
        asked["applet"] = inputs.pop(0)
    if name in NUMBERED:
        asked["number"] = inputs.pop(0)
    if name in ("new_entry", "change_entry"):
        asked["help"] = inputs.pop(0)
    if name in VALUED:
        asked["value"] = inputs.pop(0)
    if name == "install":
        *limits, pairs = inputs
        asked["data"] = bytes([*limits, *(value for pair in pairs for value in pair)])
    elif inputs and name != "system_command":
        asked["data"] = inputs.pop(0)
    return DOORS.get(name, name), asked


def padded(values, most, size):
    return b"".join(values).ljust(most * size, b"\0") + bytes([len(values)])


def text(value, most):
    return value.ljust(most, b"\0") + bytes([len(value)])


def answer_bytes(answer):
    return bytes([answer.refusal, answer.number, answer.yes, answer.called, *answer.marks])


def number_set(numbers):
    """A set of applets as a byte: bit n - 1 is applet n's."""
    return sum(1 << number - 1 for number in numbers)


def grant_bytes(applet):
    if applet is None:
        return bytes(12)
    pairs = b"".join(bytes(pair) for pair in applet.pairs).ljust(8, b"\0")
    return bytes([applet.priority, applet.timer_limit, applet.text_limit, len(applet.pairs)]) + pairs


def roll_bytes(applets):
    """How many are there, in order of installation and of call, what each was installed with, by number, and who is there."""
    called = sorted(applets, key=lambda number: (applets[number].priority, -applets[number].installed))
    grants = b"".join(grant_bytes(applets.get(number)) for number in range(1, 9))
    return bytes([len(applets)]) + bytes(applets).ljust(8, b"\0") + bytes(called).ljust(8, b"\0") + grants + bytes([number_set(applets)])


def registered_bytes(applets):
    return bytes(number_set(number for number, applet in applets.items() if event in applet.events and event != CALL_CONTROL_EVENT)
                 for event in EVENT_PLACES)


def round_bytes(turn):
    """Whether one is open, what arrived by its kind and number, and who waits; zeros where none is."""
    if turn is None:
        return bytes(4)
    kind, subject = turn.arrived
    number = EVENT_PLACES.index(subject) if kind == EVENT else subject
    return bytes([True, ARRIVAL_KINDS.index(kind), number, number_set(turn.waiting())])


def card_bytes(card):
    """The 472 bytes of this card: poll requests, sets and tables by number, timers, the roll, the rows, the terminal's side, the round."""
    applets = card.applets
    selectable = number_set(number for number, applet in applets.items() if not applet.locked)
    made = bytes(sum(row.owner == number for row in card.rows) for number in range(1, 9))
    control = [number for number, applet in applets.items() if CALL_CONTROL_EVENT in applet.events] or [0]
    polls = struct.pack("<8H", *(applets[number].poll if number in applets else 0 for number in range(1, 9)))
    rows = padded([bytes([row.identifier, row.owner, row.help, row.enabled]) + text(row.text, 15) for row in card.rows], 12, 20)
    due = bytes([card.menu_due, card.events_due, card.interval_due, card.off_due])
    desk = due + bytes([card.session, card.outstanding, len(card.title)]) + card.title.ljust(20, b"\0") + card.terminal_profile
    return (polls + bytes([selectable]) + registered_bytes(applets) + bytes(control) + made + bytes(card.owners) + roll_bytes(applets)
            + rows + desk + round_bytes(card.round))


def menu_bytes(answer):
    items = padded([bytes([identifier]) + text(value, 15) for identifier, value in answer.items], 12, 17)
    return bytes([answer.refusal]) + text(answer.data, 20) + bytes([answer.yes]) + items


def spot_bytes(part):
    return struct.pack("<QQB", part.start, part.length, part.yes)
