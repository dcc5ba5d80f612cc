"""The card of documents 01 and 02: each public call changes the card or is refused, and gives one Answer."""

from dataclasses import dataclass, field
from functools import wraps
from typing import NamedTuple

from bank import (APPLET_NUMBERS, FREE, TIMER_LIMIT, TIMER_NUMBERS, bank_allocate, bank_release, give_timer_back,
                  owns_timer, take_timer)
from coding import (CALL_CONTROL, EVENT_DOWNLOAD, MENU_SELECTION, POLLING_OFF, POLL_INTERVAL, ROW_LIMIT,
                    SET_UP_EVENT_LIST, SET_UP_MENU, TEXT_LIMIT, TIMER_EXPIRATION, TIMER_MANAGEMENT, TITLE_LIMIT,
                    Answer, Marks, Refusal, Refused, content, find, read_command, read_envelope, read_menu,
                    refuse_if, write_events, write_interval, write_menu, write_polling_off)
from rounds import CHOICE, EVENT, EXPIRY, HELP, NOTHING, STATUS, Arrived, Round, registered_for, turns

__all__ = ["Answer", "Card", "Marks", "Refusal", "bank_allocate", "bank_release", "content", "find", "read_menu"]

ENTRY_LIMIT, IDENTIFIER_LIMIT = 4, 127
GIVEN_IDENTIFIERS = range(128, 256)
PROFILE_KEPT, BUFFER_NEEDED = 32, 256
CARDS_CHOICE, NO_POLLING, LONGEST_INTERVAL = -1, 0, 15300

PROFILE_DOWNLOAD_EVENT, CALL_CONTROL_EVENT = 1, 9
PROACTIVE_HANDLER_EVENT, UNRECOGNIZED_EVENT = 123, -1
EVENTS_NOT_BY_CALL = {7: "menu selection", 8: "menu selection help request", 11: "timer expiration"}
EVENT_OF_CODE = {0x00: 12, 0x01: 13, 0x02: 14, 0x03: 15, 0x04: 16, 0x05: 17, 0x06: 18, 0x07: 20, 0x08: 21,
                 0x0B: 25, 0x0C: 26, 0x0E: 28, 0x0F: 29}
EVENTS_BY_CALL = {PROFILE_DOWNLOAD_EVENT, CALL_CONTROL_EVENT, PROACTIVE_HANDLER_EVENT, UNRECOGNIZED_EVENT,
                  *EVENT_OF_CODE.values()}
SYSTEM_TYPES = {SET_UP_MENU, SET_UP_EVENT_LIST, POLL_INTERVAL, POLLING_OFF}
BY_SETTLED = Arrived(EVENT, PROACTIVE_HANDLER_EVENT)


@dataclass
class Applet:
    priority: int
    timer_limit: int
    text_limit: int
    pairs: list
    installed: int
    locked: bool = False
    poll: int = NO_POLLING
    events: set = field(default_factory=set)


class Row(NamedTuple):
    identifier: int
    owner: int
    text: bytes
    help: bool
    enabled: bool = True


def arrived_by(envelope):
    """What comes with an envelope; a download code that is not supported triggers nobody."""
    if envelope.tag == MENU_SELECTION:
        return Arrived(HELP if envelope.help else CHOICE, envelope.subject)
    if envelope.tag == TIMER_EXPIRATION:
        return Arrived(EXPIRY, envelope.subject)
    if envelope.tag == EVENT_DOWNLOAD:
        event = EVENT_OF_CODE.get(envelope.subject)
        return Arrived(EVENT, event) if event else Arrived(NOTHING)
    return Arrived(EVENT, CALL_CONTROL_EVENT if envelope.tag == CALL_CONTROL else UNRECOGNIZED_EVENT)


def public(step):
    """A call on the card; in a session an accepted one that changes a shown list or the poll interval marks it due."""
    @wraps(step)
    def call(card, *inputs):
        menu, events, interval = card.shown_menu(), card.shown_events(), card.interval()
        try:
            answer = step(card, *inputs) or Answer()
        except Refused as refused:
            return Answer(refused.number)
        if card.session:
            card.menu_due |= card.shown_menu() != menu
            card.events_due |= card.shown_events() != events
            if card.interval() != interval:
                card.interval_due, card.off_due = card.interval() != NO_POLLING, card.interval() == NO_POLLING
        return answer
    return call


class Card:
    def __init__(self, title=b""):
        """A fresh card; `made` is the answer to the making."""
        fits = len(title) <= TITLE_LIMIT
        self.made = Answer(Refusal.NONE if fits else Refusal.BAD_TEXT)
        self.title = bytes(title) if fits else b""
        self.applets, self.rows, self.owners = {}, [], [FREE] * len(TIMER_NUMBERS)
        self.installs, self.round = 0, None
        self.terminal_profile = bytes(PROFILE_KEPT)
        self.session = self.outstanding = False
        self.menu_due = self.events_due = self.interval_due = self.off_due = False

    def shown_menu(self):
        return [row for row in self.rows if row.enabled and not self.applets[row.owner].locked]

    def shown_events(self):
        heard = set().union(*(applet.events for applet in self.applets.values() if not applet.locked))
        return {code for code, event in EVENT_OF_CODE.items() if event in heard}

    def interval(self):
        """The system's poll interval in seconds: the smallest that a selectable applet requests, or none."""
        requests = [applet.poll for applet in self.applets.values() if not applet.locked and applet.poll != NO_POLLING]
        return min(requests, default=NO_POLLING)

    def present(self, number):
        refuse_if(number not in self.applets, Refusal.NO_APPLET)
        return self.applets[number]

    @public
    def install(self, number, priority, timers, entries, text, pairs):
        pairs = [tuple(pair) for pair in pairs[:entries]]
        asked = [identifier for _, identifier in pairs if identifier]
        asked_before = {identifier for applet in self.applets.values() for _, identifier in applet.pairs}
        too_large = timers > TIMER_LIMIT or entries > ENTRY_LIMIT or text > TEXT_LIMIT
        all_entries = entries + sum(len(applet.pairs) for applet in self.applets.values())
        refuse_if(number not in APPLET_NUMBERS, Refusal.NO_APPLET)
        refuse_if(number in self.applets, Refusal.NUMBER_IN_USE)
        refuse_if(priority == 0 or too_large or any(i > IDENTIFIER_LIMIT for i in asked), Refusal.BAD_INSTALL)
        refuse_if(all_entries > ROW_LIMIT, Refusal.TOO_MANY_ENTRIES)
        refuse_if(len(set(asked)) < len(asked) or asked_before & set(asked), Refusal.IDENTIFIER_TWICE)
        self.installs += 1
        self.applets[number] = Applet(priority, timers, text, pairs, self.installs)

    @public
    def delete(self, number):
        self.present(number)
        del self.applets[number]
        self.rows = [row for row in self.rows if row.owner != number]
        self.owners = [FREE if owner == number else owner for owner in self.owners]
        if self.round:
            self.round.registered.discard(number)

    @public
    def lock(self, number):
        self.present(number).locked = True

    @public
    def unlock(self, number):
        self.present(number).locked = False

    def applet_for_event(self, number, event):
        applet = self.present(number)
        refuse_if(event not in EVENTS_BY_CALL and event not in EVENTS_NOT_BY_CALL, Refusal.EVENT_NOT_SUPPORTED)
        refuse_if(event in EVENTS_NOT_BY_CALL, Refusal.EVENT_NOT_BY_CALL)
        return applet

    @public
    def set_event(self, number, event):
        applet = self.applet_for_event(number, event)
        others = [other for other in self.applets.values() if other is not applet]
        refuse_if(event == CALL_CONTROL_EVENT and any(event in other.events for other in others),
                  Refusal.CALL_CONTROL_OWNED)
        applet.events.add(event)

    @public
    def clear_event(self, number, event):
        self.applet_for_event(number, event).events.discard(event)

    @public
    def ask_event(self, number, event):
        return Answer(yes=event in self.applet_for_event(number, event).events)

    @public
    def request_poll(self, number, duration):
        applet = self.present(number)
        refuse_if(not CARDS_CHOICE <= duration <= LONGEST_INTERVAL, Refusal.BAD_DURATION)
        applet.poll = NO_POLLING if duration == CARDS_CHOICE else duration

    @public
    def new_entry(self, number, help_mark, text):
        applet = self.present(number)
        made = sum(row.owner == number for row in self.rows)
        refuse_if(made >= len(applet.pairs), Refusal.ENTRIES_ALL_MADE)
        refuse_if(not 1 <= len(text) <= applet.text_limit, Refusal.BAD_TEXT)
        position, identifier = applet.pairs[made]
        if identifier == 0:
            in_use = {row.identifier for row in self.rows}
            identifier = min(given for given in GIVEN_IDENTIFIERS if given not in in_use)
        place = position - 1 if 1 <= position <= len(self.rows) else len(self.rows)
        self.rows.insert(place, Row(identifier, number, bytes(text), bool(help_mark)))
        return Answer(number=identifier)

    def place_of_row(self, number, identifier):
        self.present(number)
        places = [place for place, row in enumerate(self.rows) if (row.owner, row.identifier) == (number, identifier)]
        refuse_if(not places, Refusal.NOT_ITS_ROW)
        return places[0]

    @public
    def change_entry(self, number, identifier, help_mark, text):
        place = self.place_of_row(number, identifier)
        refuse_if(not 1 <= len(text) <= self.applets[number].text_limit, Refusal.BAD_TEXT)
        self.rows[place] = self.rows[place]._replace(text=bytes(text), help=bool(help_mark))

    @public
    def enable_entry(self, number, identifier):
        place = self.place_of_row(number, identifier)
        self.rows[place] = self.rows[place]._replace(enabled=True)

    @public
    def disable_entry(self, number, identifier):
        place = self.place_of_row(number, identifier)
        self.rows[place] = self.rows[place]._replace(enabled=False)

    @public
    def allocate(self, number):
        return take_timer(self.owners, number, self.present(number).timer_limit)

    @public
    def release(self, number, timer):
        self.present(number)
        return give_timer_back(self.owners, number, timer)

    @public
    def profile(self, data):
        refuse_if(not data, Refusal.MALFORMED)
        self.terminal_profile = bytes(data[:PROFILE_KEPT]).ljust(PROFILE_KEPT, b"\0")
        self.session, self.outstanding = True, False
        self.menu_due, self.events_due = bool(self.shown_menu()), bool(self.shown_events())
        self.interval_due, self.off_due = self.interval() != NO_POLLING, False
        return self.opened(Arrived(EVENT, PROFILE_DOWNLOAD_EVENT), Marks(proactive=True))

    def opened(self, arrived, marks):
        """The answer to an arrival, whose round takes the place of any other."""
        self.round = Round(arrived, registered_for(self, arrived))
        return Answer(marks=marks)

    @public
    def envelope(self, data):
        envelope = read_envelope(data)
        response = envelope.tag not in (MENU_SELECTION, EVENT_DOWNLOAD, TIMER_EXPIRATION)
        return self.opened(arrived_by(envelope), Marks(not self.outstanding, True, response))

    @public
    def status(self):
        return self.opened(Arrived(STATUS), Marks(proactive=not self.outstanding))

    @public
    def settled(self):
        refuse_if(self.outstanding, Refusal.OUTSTANDING)
        refuse_if(self.round, Refusal.ROUND_OPEN)
        return self.opened(BY_SETTLED, Marks(proactive=True))

    @public
    def next(self):
        refuse_if(not self.round, Refusal.NO_ROUND)
        left = turns(self)
        if not left:
            self.round = None
            return Answer()
        self.round.called.add(left[0])
        if self.round.arrived == BY_SETTLED:
            self.applets[left[0]].events.remove(PROACTIVE_HANDLER_EVENT)
        return Answer(called=left[0])

    @public
    def send(self, number, data):
        kind, timer = read_command(data)
        self.present(number)
        refuse_if(kind == TIMER_MANAGEMENT and not owns_timer(self.owners, number, timer), Refusal.NOT_ITS_TIMER)
        refuse_if(self.outstanding, Refusal.OUTSTANDING)
        refuse_if(kind in SYSTEM_TYPES, Refusal.SYSTEM_TYPE)
        self.outstanding = True

    @public
    def system_command(self, buffer):
        """Writes at the front of the bytearray lent; the number is the length written."""
        refuse_if(self.outstanding, Refusal.OUTSTANDING)
        refuse_if(len(buffer) < BUFFER_NEEDED, Refusal.BUFFER_TOO_SMALL)
        command = self.next_command()
        self.outstanding = bool(command)
        buffer[:len(command)] = command
        return Answer(number=len(command))

    def next_command(self):
        if self.menu_due:
            self.menu_due = False
            rows = self.shown_menu()
            return write_menu(self.title, [(row.identifier, row.text) for row in rows], any(row.help for row in rows))
        if self.events_due:
            self.events_due = False
            return write_events(self.shown_events())
        if self.interval_due:
            self.interval_due = False
            return write_interval(self.interval())
        if self.off_due:
            self.off_due = False
            return write_polling_off()
        return b""

    @public
    def response(self):
        refuse_if(not self.outstanding, Refusal.NONE_OUTSTANDING)
        self.outstanding = False
