"""Seeded random calls that suit the card as it stands: as floor records, and as data for all public calls."""

import random

import draws
import model
from coding import EVENT_DOWNLOAD, MENU_SELECTION, TIMER_EXPIRATION
from detours import detours
from draws import one_in
from floorlines import ARGUMENTS, COUNTS, RECORD, outcome
from model import (APPLET_NUMBERS, ENTRY_LIMIT, EVENT_OF_CODE, EVENTS_BY_CALL, EVENTS_NOT_BY_CALL,
                   FREE, PROACTIVE_HANDLER_EVENT, ROW_LIMIT, TIMER_NUMBERS, Card)

LETTER_OF = {"install": "I", "new_entry": "M", "set_event": "E", "clear_event": "C", "profile": "P",
             "envelope": "S", "settled": "O", "next": "N", "system_command": "W", "response": "R", "allocate": "T",
             "delete": "D", "lock": "L", "unlock": "U"}
WEIGHTS = {"install": 8, "new_entry": 10, "set_event": 10, "clear_event": 3, "profile": 2, "envelope": 14,
           "settled": 5, "next": 16, "system_command": 8, "response": 8, "allocate": 6, "delete": 1, "lock": 4, "unlock": 5}
BESIDE_FLOOR = {"ask_event": 4, "request_poll": 8, "status": 4, "change_entry": 8, "enable_entry": 5, "disable_entry": 5,
                "release": 4, "send": 6, "find": 6, "content": 3, "read_menu": 5, "bank_allocate": 4, "bank_release": 3}
ARRIVALS = ("profile", "envelope", "status", "settled")
ON_NO_CARD = ("find", "content", "read_menu", "bank_allocate", "bank_release")
THEMES = [{},
          {"new_entry": 40, "install": 15, "system_command": 15, "response": 12},
          {"new_entry": 40, "install": 20, "system_command": 20, "delete": 0, "lock": 1, "disable_entry": 1},
          {"allocate": 40, "envelope": 30, "install": 12},
          {"set_event": 30, "settled": 25, "lock": 15, "unlock": 20, "delete": 2},
          {"lock": 15, "unlock": 15, "system_command": 30, "response": 30, "profile": 6, "request_poll": 30, "status": 15},
          {"delete": 8, "install": 30, "new_entry": 20, "envelope": 20}]
POSITIONS = [0, 0, 1, 1, 2, 3, 4, 6, 12, 13, 20, 255]
PRIORITIES = [5, 5, 5, 1, 2, 200, 255]
SECONDS = [1, 60, 254, 255, 255, 256, 299, 300, 310, 15299, 15300, 15300]


class Draw:
    """Draws calls and follows them on a card of the model."""

    def __init__(self, seed, weights, title=b""):
        self.rng, self.card = random.Random(seed), Card(title)
        theme = self.rng.choice(THEMES)
        self.names, self.weights = list(weights), [theme.get(name, weight) for name, weight in weights.items()]
        self.start, self.detour = ["install"] * self.rng.randint(3, 8), []

    def call(self):
        """A call as (name, inputs)."""
        if not self.detour and self.waiting() and one_in(self.rng, 6):
            self.detour = self.draw_detour(self.rng.choice(self.waiting()))
        if self.detour:
            return self.detour.pop(0)
        name = self.start.pop() if self.start else self.rng.choices(self.names, self.weights)[0]
        name = self.suited(name)
        return name, getattr(self, name)()

    def waiting(self):
        return sorted(self.card.round.waiting()) if self.card.round else []

    def draw_detour(self, number):
        """One of those that can be gone by the calls drawn here, up to some call of it."""
        ways = [way for way in detours(self.card, number) if all(name in self.names for name, _ in way)]
        way = self.rng.choice(ways)
        return way[:self.rng.choice([1, len(way), len(way)])]

    def suited(self, name):
        if one_in(self.rng, 8):
            return name
        if name == "next" and not self.card.round:
            name = self.rng.choice(["envelope", "settled"])
        if name in ("system_command", "settled", "send") and self.card.outstanding:
            return "response"
        if name == "response" and not self.card.outstanding:
            return "system_command"
        if self.card.round and (name == "settled" or name in ARRIVALS and one_in(self.rng, 2)):
            return "next"
        full = {"install": len(self.card.applets) == len(APPLET_NUMBERS),
                "new_entry": not self.with_entries_left(), "allocate": not self.with_timers_left()}
        return self.rng.choice(["envelope", "envelope", "set_event", "unlock"]) if full.get(name) else name

    def with_entries_left(self):
        owners = [row.owner for row in self.card.rows]
        return [number for number, applet in self.card.applets.items() if owners.count(number) < len(applet.pairs)]

    def with_timers_left(self):
        owners = self.card.owners
        return [number for number, applet in self.card.applets.items()
                if owners.count(number) < applet.timer_limit and FREE in owners]

    def number(self, wanted):
        """Mostly one of those wanted."""
        wanted = sorted(wanted) or list(APPLET_NUMBERS)
        return self.rng.choice([0, 9, 255, self.rng.randint(1, 8)]) if one_in(self.rng, 20) else self.rng.choice(wanted)

    def applet(self):
        return (self.number(self.card.applets),)

    delete = lock = unlock = applet

    def allocate(self):
        return (self.number(self.with_timers_left() or self.card.applets),)

    def nothing(self):
        return ()

    status = settled = next = response = nothing

    def install(self):
        rng, applets = self.rng, self.card.applets
        asked = {identifier for applet in applets.values() for _, identifier in applet.pairs}
        unasked = [identifier for identifier in range(1, 128) if identifier not in asked]
        room = ROW_LIMIT - sum(len(applet.pairs) for applet in applets.values())
        odd = [1, 127, rng.randrange(256), *sorted(asked)]
        wanted = [rng.choice([0, rng.choice(odd) if one_in(rng, 8) else identifier])
                  for identifier in rng.sample(unasked, ENTRY_LIMIT)]
        pairs = tuple((rng.choice(POSITIONS), identifier) for identifier in wanted)
        priority = rng.choice([0, rng.randrange(256)]) if one_in(rng, 20) else rng.choice(PRIORITIES)
        timers = rng.choice([9, 255]) if one_in(rng, 25) else rng.choice([0, 1, 2, 3, 8])
        entries = rng.randint(0, 5) if one_in(rng, 15) else rng.randint(min(1, room), min(room, ENTRY_LIMIT))
        text = rng.choice([0, 16]) if one_in(rng, 20) else rng.choice([15, 15, 15, 9, 6])
        number = self.number(set(APPLET_NUMBERS) - set(applets))
        return number, priority, timers, entries, text, pairs

    def text_for(self, number):
        applet = self.card.applets.get(number)
        return draws.text(self.rng, applet.text_limit if applet else 6)

    def new_entry(self):
        number = self.number(self.with_entries_left() or self.card.applets)
        return number, self.rng.randrange(2), self.text_for(number)

    def row(self):
        if not self.card.rows or one_in(self.rng, 12):
            return self.number(self.card.applets), self.rng.randrange(256)
        row = self.rng.choice(self.card.rows)
        return row.owner, row.identifier

    enable_entry = disable_entry = row

    def change_entry(self):
        number, identifier = self.row()
        same = [row.text for row in self.card.rows if row.identifier == identifier and one_in(self.rng, 3)]
        return number, identifier, self.rng.randrange(2), same[0] if same else self.text_for(number)

    def event(self):
        rng = self.rng
        odd = rng.choice([0, 2, 10, 19, 22, 27, 30, -2, -64, -65, -128, -129, 32767, -32768,
                          rng.randint(-32768, 32767), *EVENTS_NOT_BY_CALL])
        frequent = rng.choice([1, 9, 12, 29, -1])
        supported = rng.choice([PROACTIVE_HANDLER_EVENT, frequent, rng.choice(sorted(EVENTS_BY_CALL))])
        return self.number(self.card.applets), odd if one_in(rng, 10) else supported

    set_event = clear_event = ask_event = event

    def request_poll(self):
        """Half of them by those who have a request, mostly to end it, so that few have one and the interval changes."""
        rng, applets = self.rng, self.card.applets
        polled = [number for number, applet in applets.items() if applet.poll]
        if one_in(rng, 12):
            return self.number(applets), rng.choice([-32768, -2, 15301, 32767, rng.randint(-32768, 32767)])
        if polled and one_in(rng, 2):
            return self.number(polled), rng.choice([0, 0, -1, rng.choice(SECONDS)])
        return self.number(applets), rng.choice(SECONDS)

    def profile(self):
        return (self.rng.randbytes(self.rng.choice([0, 1, 1, 2, 20])),)

    def subjects(self):
        return {MENU_SELECTION: [row.identifier for row in self.card.rows],
                TIMER_EXPIRATION: [timer for timer in TIMER_NUMBERS if self.card.owners[timer - 1]],
                EVENT_DOWNLOAD: [*sorted(self.card.shown_events()), self.rng.choice(list(EVENT_OF_CODE))]}

    def envelope(self):
        return (draws.envelope(self.rng, self.subjects()),)

    def system_command(self):
        return (b"\xEE" * (self.rng.choice([0, 255]) if one_in(self.rng, 10) else self.rng.choice([256, 300])),)

    def owned_timer(self):
        owned = [(owner, timer) for timer, owner in zip(TIMER_NUMBERS, self.card.owners) if owner]
        if not owned or one_in(self.rng, 6):
            return self.number(self.card.applets), self.rng.choice([0, 9, 255, self.rng.randint(1, 8)])
        return self.rng.choice(owned)

    release = owned_timer

    def send(self):
        number, timer = self.owned_timer()
        return number, draws.command(self.rng, [timer])

    def find(self):
        return draws.search(self.rng)

    def content(self):
        return (draws.envelope(self.rng, self.subjects(), long_ones=True),)

    def read_menu(self):
        return (draws.menu(self.rng),)

    def bank(self):
        rng = self.rng
        kinds = rng.choice([[0, 1, 2], [1, 2, 3, 8], list(range(9)), [0, 1, 9, 255], [1]])
        return tuple(rng.choice(kinds) for _ in TIMER_NUMBERS), rng.choice([1, 1, 2, self.number([8])])

    def bank_allocate(self):
        return (*self.bank(), self.rng.choice([0, 1, 2, 3, 7, 8, 9, 255]))

    def bank_release(self):
        return (*self.bank(), self.rng.choice([0, 9, 255, *TIMER_NUMBERS]))


class LongDraw(Draw):
    """Draws with envelopes and profiles longer than a floor record holds."""

    envelope = Draw.content

    def profile(self):
        return (self.rng.randbytes(self.rng.choice([0, 1, 31, 32, 33, 300])),)


def perform(card, name, inputs):
    """The model's answer, and the lent buffer or bank as the call leaves it (None if nothing is lent)."""
    if name == "system_command":
        lent = bytearray(inputs[0])
        return card.system_command(lent), bytes(lent)
    if name in ("bank_allocate", "bank_release"):
        lent = list(inputs[0])
        return getattr(model, name)(lent, *inputs[1:]), tuple(lent)
    return getattr(model if name in ON_NO_CARD else card, name)(*inputs), None


def call_sequence(seed, count):
    """A title, and calls on the fresh card it gives, each as (name, inputs)."""
    rng = random.Random(seed)
    title = rng.randbytes(rng.choice([0, 1, 20, 20, 21]))
    draw, calls = LongDraw(seed, {**WEIGHTS, **BESIDE_FLOOR}, title), []
    for _ in range(count):
        calls.append(draw.call())
        perform(draw.card, *calls[-1])
    return title, calls


def record(letter, applet=0, arguments=b""):
    return bytes([ord(letter), applet, len(arguments)]) + arguments.ljust(ARGUMENTS, b"\0") + b"\0"


def record_of(name, inputs):
    """The floor record that makes this call; bytes behind the twentieth are cut off."""
    letter, arguments = LETTER_OF[name], b""
    if name == "install":
        arguments = bytes([*inputs[1:5], *(value for pair in inputs[5] for value in pair)])
    elif name == "new_entry":
        arguments = bytes([inputs[1]]) + inputs[2]
    elif name in ("set_event", "clear_event"):
        arguments = inputs[1].to_bytes(2, "big", signed=True)
    elif name in ("profile", "envelope"):
        return record(letter, 0, inputs[0][:ARGUMENTS])
    return record(letter, inputs[0] if inputs and name != "system_command" else 0, arguments)


def misfilled(rng, whole):
    """A record with one of its 24 bytes put wrong; a few come out sound."""
    place = rng.choice([0, 1, 2, 2, 3, RECORD - 2, RECORD - 1, rng.randrange(RECORD)])
    letters = [ord(letter) for letter in COUNTS]
    value = {0: rng.choice([*letters, 0, ord("i"), ord("?"), 255]),
             2: rng.choice([whole[2] ^ 1, 0, 1, 20, 21, 255])}.get(place, rng.choice([1, 2, rng.randrange(256)]))
    return whole[:place] + bytes([value]) + whole[place + 1:]


def floor_stream(seed, count):
    """Bytes of `count` floor records, the last one short in every third stream."""
    draw, records = Draw(seed, WEIGHTS), []
    for _ in range(count):
        whole = record_of(*draw.call())
        whole = misfilled(draw.rng, whole) if one_in(draw.rng, 25) else whole
        outcome(draw.card, whole)
        records.append(whole)
    short = draw.rng.randint(1, RECORD - 1) - RECORD if one_in(draw.rng, 3) else None
    return b"".join(records)[:short]
