"""The rounds of document 02: an arrival opens one, and each next names one of those that were registered on arrival."""

from dataclasses import dataclass, field
from typing import NamedTuple

from bank import owns_timer

NOTHING, EVENT, CHOICE, HELP, EXPIRY, STATUS = "nothing", "event", "choice", "help", "expiry", "status"


class Arrived(NamedTuple):
    """What came, and the event's value, the row's identifier or the timer that it names."""
    kind: str
    subject: int = 0


@dataclass
class Round:
    """What opened it, who was registered on arrival and has not been deleted since, and who has been called in it."""
    arrived: Arrived
    registered: set
    called: set = field(default_factory=set)

    def waiting(self):
        return self.registered - self.called


def registered_for(card, arrived):
    """Who is registered for it now, locked or not: by an event, a poll request, a timer, or a row with its marks."""
    kind, subject = arrived
    if kind == EVENT:
        return {number for number, applet in card.applets.items() if subject in applet.events}
    if kind == STATUS:
        return {number for number, applet in card.applets.items() if applet.poll}
    if kind == EXPIRY:
        return {number for number in card.applets if owns_timer(card.owners, number, subject)}
    rows = [row for row in card.rows if row.identifier == subject and row.enabled]
    return {row.owner for row in rows if kind == CHOICE or kind == HELP and row.help}


def turns(card):
    """Those left in the card's round: still registered and selectable, smaller priority number first, of equal ones the later installed."""
    left = card.round.waiting() & registered_for(card, card.round.arrived)
    selectable = [(applet.priority, -applet.installed, number) for number, applet in card.applets.items()
                  if number in left and not applet.locked]
    return [number for _, _, number in sorted(selectable)]
