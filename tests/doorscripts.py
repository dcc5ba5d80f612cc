"""Scripts of calls for the doors of the C library: requests for the driver, and the bytes that must come back by the model."""

import random
from itertools import product

import doors
import draws
import model
from callcases import CALL_CASES, read_calls, said
from detours import WAYS, detours, registered_again
from draws import one_in
from model import BY_SETTLED, Card
from rounds import CHOICE, EVENT, EXPIRY, HELP, STATUS, Arrived
from streams import call_sequence

CALLS = 200
ENVELOPES = {Arrived(EVENT, -1): "C100", Arrived(EVENT, 17): "D60782028281990105", Arrived(EVENT, 9): "D40482028281",
             Arrived(CHOICE, 128): "D30782028281900180", Arrived(HELP, 128): "D309820282819001809500", Arrived(EXPIRY, 1): "D70782028281A40101"}
OPENINGS = [*((arrived, ("envelope", (bytes.fromhex(sent),))) for arrived, sent in ENVELOPES.items()),
            (Arrived(EVENT, 1), ("profile", (b"\xFF",))), (Arrived(STATUS), ("status", ())), (BY_SETTLED, ("settled", ()))]
FOR_ALL = {Arrived(EVENT, -1), Arrived(EVENT, 17), Arrived(EVENT, 1), Arrived(STATUS), BY_SETTLED}
DURATIONS = [-32768, *range(-3, 3), *range(254, 258), *range(299, 312), *range(15299, 15303), 32767]


class Script:
    """Requests for the driver, and for each one a name and the bytes that must come back."""

    def __init__(self, seed):
        self.rng, self.requests, self.wanted, self.refusals, self.faults = random.Random(seed), [], [], set(), []

    def ask(self, door, gives, lent=b"", left=None, **asked):
        self.requests.append(doors.request(door, lent=lent, null=self.rng.randrange(2), **asked))
        after = b"\1" + gives + doors.card_bytes(self.card) + (lent if left is None else left)
        self.wanted.append((f"{door} {asked}", after))

    def fresh(self, title):
        self.card = Card(title)
        self.refusals.add(int(self.card.made.refusal))
        self.ask("fresh", bytes([self.card.made.refusal]), data=title)

    def call(self, name, *inputs):
        """A call on the card; the system command's one input is the buffer that is lent."""
        lent = inputs[0] if name == "system_command" else b""
        left = bytearray(lent)
        answer = getattr(self.card, name)(*([left] if name == "system_command" else inputs))
        self.refusals.add(int(answer.refusal))
        door, asked = doors.arguments(name, inputs)
        self.ask(door, doors.answer_bytes(answer), lent=lent, left=bytes(left), **asked)
        return answer

    def find(self, run, tag, occurrence):
        self.ask("find", doors.spot_bytes(model.find(run, tag, occurrence)), data=run, tag=tag, occurrence=occurrence)

    def content(self, data):
        self.ask("content", doors.spot_bytes(model.content(data)), data=data)

    def read_menu(self, data):
        self.ask("read_menu", doors.menu_bytes(model.read_menu(data)), data=data)

    def bank(self, door, step, owners, applet, number):
        left = list(owners)
        answer = step(left, applet, number)
        self.ask(door, doors.answer_bytes(answer) + bytes(left), data=bytes(owners), applet=applet, number=number)

    def bank_allocate(self, *inputs):
        self.bank("bank_allocate", model.bank_allocate, *inputs)

    def bank_release(self, *inputs):
        self.bank("bank_release", model.bank_release, *inputs)

    def make(self, name, inputs):
        if name not in doors.CALLS:
            return getattr(self, name)(*inputs)
        if name == "system_command":
            inputs = [self.rng.randbytes(len(inputs[0]))]
        self.call(name, *inputs)

    def hand_out(self):
        """A system command, a STATUS while it is outstanding, and the response."""
        for name, inputs in [("system_command", (bytes(256),)), ("status", ()), ("response", ())]:
            self.make(name, inputs)

    def turns(self):
        """The round to its end, and one next more."""
        while self.card.round:
            self.call("next")
        self.call("next")

    def inputs_of(self, name, applet, data):
        """Inputs for a call, with this applet and these bytes where it takes such."""
        rng = self.rng
        number, help, value = rng.randrange(256), rng.randrange(2), rng.choice([rng.randrange(-32768, 32768), rng.randrange(-140, 140)])
        return {"install": (applet, *rng.choices([0, 1, 2, 4, 8, 9, 15, 16, 255], k=4), [tuple(rng.choices([0, 1, 127, 128, 255], k=2)) for _ in range(4)]),
                "new_entry": (applet, help, data), "change_entry": (applet, number, help, data), "enable_entry": (applet, number),
                "disable_entry": (applet, number), "release": (applet, number), "send": (applet, data), "profile": (data,), "envelope": (data,),
                "set_event": (applet, value), "clear_event": (applet, value), "ask_event": (applet, value), "request_poll": (applet, value),
                "status": (), "settled": (), "next": (), "response": (), "system_command": (data,)}.get(name, (applet,))

    def stray(self):
        """Any call with any inputs, but no accepted delete, which would empty the card; or a search far outside what can be found."""
        rng = self.rng
        data = rng.choice([b"", rng.randbytes(rng.choice([1, 2, 3, 12, 13, 40, 256])), draws.envelope(rng, {0xD3: [128], 0xD6: [], 0xD7: []}),
                           draws.command(rng, [1]), draws.text(rng, 15)])
        if one_in(rng, 6):
            return self.find(data, rng.choice([0x1FF, 0x7F00, 0x8000, 0xFFFF, 0x100 | rng.randrange(256)]), rng.choice([1, 2**32, 2**64 - 1]))
        name = rng.choice(doors.CALLS)
        applet = rng.choice([0, 9, 255] if name == "delete" else [0, 1, 2, 9, 255])
        self.call(name, *self.inputs_of(name, applet, data))


def sequence(seed):
    """Calls that suit the card as it stands, with stray ones between."""
    script = Script(seed)
    title, calls = call_sequence(seed, CALLS)
    script.fresh(title)
    for name, inputs in calls:
        script.make(name, inputs)
        if one_in(script.rng, 4):
            script.stray()
    return script


TAGS = [0x0000, 0x0001, 0x0010, 0x007E, 0x007F, 0x0080, 0x0090, 0x00FF, 0x0100, 0x0110, 0x7F10, 0x7FFE, 0x7FFF]


def tags():
    """Each of some tag numbers, and what its flag would make of it, sought in runs that have them all, in either form and in both."""
    script = Script(7)
    script.fresh(b"")
    for _ in range(8):
        run = b"".join(draws.tagged(script.rng, tag, bytes([at])) for at, tag in enumerate(script.rng.sample(TAGS * 2, 2 * len(TAGS))))
        for tag in TAGS:
            for occurrence in range(4):
                script.find(run, tag, occurrence)
                script.find(run, tag | 0x8000, occurrence)
    return script


def edges():
    """Each call of each applet number, each row and timer number, each length of a text, of bytes and of a lent buffer around the bounds."""
    script = Script(0)
    script.fresh(b"Packing")
    for name, inputs in call_sequence(7, 40)[1]:
        script.make(name, inputs)
    script.make("install", (8, 5, 1, 1, 15, [(0, 0)] * 4))
    for number in range(256):
        for name in doors.CALLS:
            if name != "delete" or number > 8:
                script.call(name, *script.inputs_of(name, number, b"Pick list"))
        for name in ("enable_entry", "disable_entry", "release"):
            script.call(name, 1, number)
        script.call("change_entry", 1, number, number % 2, b"Crate label")
    for length in [*range(18), 31, 32, 33, 127, 128, 255, 256, 257, 4096]:
        data = script.rng.randbytes(length)
        for name in ("new_entry", "change_entry", "profile", "envelope", "send"):
            script.call(name, *script.inputs_of(name, 1, data))
        script.content(data)
        script.find(data, 2, 1)
        script.read_menu(data)
    for size in (0, 1, 255, 256, 257, 4096):
        script.call("system_command", script.rng.randbytes(size))
        script.call("response")
    for length in (0, 1, 19, 20, 21, 255, 4096):
        script.fresh(script.rng.randbytes(length))
    return script


def events():
    """Each event value around the named ones: set, asked, asked of another applet, cleared, asked."""
    script = Script(1)
    script.fresh(b"")
    for applet in (1, 2):
        script.make("install", (applet, 5, 0, 0, 0, [(0, 0)] * 4))
    for value in [*range(-130, 131), 32767, -32768]:
        for name, applet in [("set_event", 1), ("ask_event", 1), ("ask_event", 2), ("clear_event", 1), ("ask_event", 1)]:
            script.make(name, (applet, value))
    return script


def durations():
    """Each duration around the bounds, requested and handed out; a session that begins with it; none again, handed out or taken away by a profile."""
    script = Script(3)
    script.fresh(b"")
    script.make("install", (1, 5, 0, 0, 0, [(0, 0)] * 4))
    script.make("status", ())
    for duration in DURATIONS:
        for further_profile in (False, True):
            script.make("request_poll", (1, duration))
            script.hand_out()
            script.make("profile", (b"\xFF",))
            script.hand_out()
            script.make("request_poll", (1, 0))
            if further_profile:
                script.make("profile", (b"\xFF",))
            script.hand_out()
    for duration in (300, 310, 0, 310, -1):
        script.make("request_poll", (1, duration))
        if duration > 0:
            script.hand_out()
    return script


def polls():
    """Each way in which three applets, with a row and an event each, may request one of two intervals or none: each one locked, unlocked and
    deleted in a session, all that is due handed out in between, or left standing for a further profile."""
    script = Script(4)
    for handed_out, *requests in product((0, 4), *[(0, 20, 300)] * 3):
        script.fresh(b"")
        for applet, seconds in enumerate(requests, 1):
            script.make("install", (applet, applet % 2 + 1, 0, 1, 15, [(0, 0)] * 4))
            script.make("new_entry", (applet, 0, b"Tracker"))
            script.make("set_event", (applet, 12 + applet))
            script.make("request_poll", (applet, seconds))
        script.make("status", ())
        script.make("profile", (b"\xFF",))
        for name, applet in product(("lock", "unlock", "delete"), (1, 2, 3)):
            for _ in range(handed_out):
                script.hand_out()
            script.make(name, (applet,))
        script.make("profile", (b"\xFF",))
        script.hand_out()
    return script


def arrivals():
    """On a full card, a round to its end by each item, with help and without, each download code, each timer, each outer tag."""
    script = Script(2)
    script.fresh(b"")
    for applet in range(1, 9):
        script.make("install", (applet, applet % 3 + 1, 1, 4 if applet <= 3 else 0, 15, [(0, 0)] * 4))
        script.make("allocate", (applet,))
        for value in sorted(model.EVENTS_BY_CALL):
            script.make("set_event", (applet, value))
    for applet in (1, 2, 3) * 4:
        script.make("new_entry", (applet, script.rng.randrange(2), b"Pick list"))
    script.make("lock", (3,))
    for byte in range(256):
        for outer, tag in [(0xD3, 0x10), (0xD6, 0x19), (0xD7, 0x24), (byte, 0x10)]:
            value = bytes([0x82, 2, 0x82, 0x81, tag, 1, byte])
            script.make("envelope", (bytes([outer, len(value)]) + value,))
            script.turns()
        script.make("envelope", (bytes([0xD3, 9, 0x82, 2, 0x82, 0x81, 0x90, 1, byte, 0x95, 0]),))
        script.turns()
    return script


def go_round(script, arrived, opening, number, locked, turns_before):
    """A card of three applets registered for what is to arrive, as far as more than one can be, one of them perhaps locked; the second has a
    one-shot too. The arrival, and so many turns."""
    script.fresh(b"")
    for applet in (1, 2, 3):
        script.make("install", (applet, 5, 1, 1, 15, [(0, 0)] * 4))
        script.make(*registered_again(arrived, applet)[0])
    script.make("set_event", (2, 123))
    if locked:
        script.make("lock", (number,))
    script.make(*opening)
    for _ in range(turns_before):
        script.call("next")


def rounds():
    """Each kind of arrival; each way for one that waits, or has had its turn, gone to its end or left behind its first call; then the turns
    to the end, and those of settled."""
    script = Script(5)
    for (arrived, opening), locked, turns_before, way, length in product(OPENINGS, (False, True), (0, 1), range(WAYS), (1, None)):
        for number in (1, 2, 3) if arrived in FOR_ALL else (1,):
            go_round(script, arrived, opening, number, locked, turns_before)
            for name, inputs in detours(script.card, number)[way][:length] if script.card.round else ():
                script.make(name, inputs)
            script.turns()
            script.make("settled", ())
            script.turns()
    return script


def cases():
    """The cases whose answers are written by hand."""
    script = Script(6)
    for case, steps in CALL_CASES.items():
        script.fresh(b"")
        for name, inputs, wanted in read_calls(steps):
            answer = said(script.call(name, *inputs))
            if answer != wanted:
                script.faults.append((f"{case}: {name} {inputs}", f"wanted {wanted}, the model says {answer}"))
    return script
