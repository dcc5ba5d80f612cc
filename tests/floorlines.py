"""The floor program of documents 01 and 02: records of 24 bytes in, one line for each out."""

from model import Card

RECORD, ARGUMENTS = 24, 20
NO_CALL = "- -"
COUNTS = {"I": [12], "M": range(1, ARGUMENTS + 1), "E": [2], "C": [2],
          "P": range(ARGUMENTS + 1), "S": range(ARGUMENTS + 1), **{letter: [0] for letter in "ONWRTDLU"}}
NAMES_NO_APPLET = "PSONWR"


def call_install(card, applet, arguments):
    priority, timers, entries, text = arguments[:4]
    pairs = list(zip(arguments[4::2], arguments[5::2]))
    return card.install(applet, priority, timers, entries, text, pairs)


def call_system_command(card, _applet, _arguments):
    buffer = bytearray(256)
    answer = card.system_command(buffer)
    return answer._replace(data=bytes(buffer[:answer.number]))


def event_value(arguments):
    return int.from_bytes(arguments, "big", signed=True)


CALLS = {
    "I": call_install,
    "M": lambda card, applet, arguments: card.new_entry(applet, arguments[0], arguments[1:]),
    "E": lambda card, applet, arguments: card.set_event(applet, event_value(arguments)),
    "C": lambda card, applet, arguments: card.clear_event(applet, event_value(arguments)),
    "P": lambda card, applet, arguments: card.profile(arguments),
    "S": lambda card, applet, arguments: card.envelope(arguments),
    "O": lambda card, applet, arguments: card.settled(),
    "N": lambda card, applet, arguments: card.next(),
    "W": call_system_command,
    "R": lambda card, applet, arguments: card.response(),
    "T": lambda card, applet, arguments: card.allocate(applet),
    "D": lambda card, applet, arguments: card.delete(applet),
    "L": lambda card, applet, arguments: card.lock(applet),
    "U": lambda card, applet, arguments: card.unlock(applet),
}
PRINTED = {"M": lambda answer: [answer.number] if answer.number else [],
           "T": lambda answer: [answer.number] if answer.number else [],
           "N": lambda answer: [answer.called] if answer.called else [],
           "W": lambda answer: answer.data}


def well_filled(letter, record):
    applet, count = record[1:3]
    return (count in COUNTS[letter] and not any(record[3 + count:])
            and not (letter in NAMES_NO_APPLET and applet)
            and not (letter == "M" and record[3] > 1))


def outcome(card, record):
    """A line without its record number; the card takes the call if there is one."""
    letter = chr(record[0])
    if letter not in COUNTS:
        return f"? {NO_CALL}"
    if len(record) < RECORD or not well_filled(letter, record):
        return f"{letter} {NO_CALL}"
    answer = CALLS[letter](card, record[1], record[3:3 + record[2]])
    printed = bytes(PRINTED[letter](answer)) if letter in PRINTED else b""
    return f"{letter} {answer.refusal:d} {printed.hex().upper() or '-'}"


def floor_lines(data):
    """What the floor program prints for these bytes, as one text."""
    card = Card()
    records = (data[at:at + RECORD] for at in range(0, len(data), RECORD))
    return "".join(f"{number} {outcome(card, record)}\n" for number, record in enumerate(records, 1))
