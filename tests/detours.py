"""What may happen, between two turns of a round, to an applet that waits for its own: ways of calls, each to be gone to its end or left before."""

from rounds import EVENT, EXPIRY, HELP, STATUS

PAIRS, WAYS = 4, 6
NEXT = ("next", ())


def lost_and_regained(arrived, number):
    """The call that ends what registers the applet for what arrived, and the one that makes it so again."""
    kind, subject = arrived
    if kind == EVENT:
        return [("clear_event", (number, subject)), ("set_event", (number, subject))]
    if kind == STATUS:
        return [("request_poll", (number, 0)), ("request_poll", (number, 60))]
    if kind == EXPIRY:
        return [("release", (number, subject)), ("allocate", (number,))]
    if kind == HELP:
        return [("change_entry", (number, subject, 0, b"A")), ("change_entry", (number, subject, 1, b"A"))]
    return [("disable_entry", (number, subject)), ("enable_entry", (number, subject))]


def installed_again(card, number):
    """A delete, and an install as before."""
    applet = card.applets[number]
    pairs = [*applet.pairs, *[(0, 0)] * PAIRS][:PAIRS]
    terms = (applet.priority, applet.timer_limit, len(applet.pairs), applet.text_limit, pairs)
    return [("delete", (number,)), ("install", (number, *terms))]


def registered_again(arrived, number):
    """What registers an applet that was installed again; its rows are made in the order of its pairs."""
    if arrived.kind in (EVENT, STATUS, EXPIRY):
        return [lost_and_regained(arrived, number)[1]]
    return [("new_entry", (number, 1, b"A"))] * PAIRS


def detours(card, number):
    """The six ways for an applet while the card's round is open; in two of them next is called in between."""
    arrived, lock, unlock = card.round.arrived, ("lock", (number,)), ("unlock", (number,))
    lost, regained = lost_and_regained(arrived, number)
    return [[unlock], [lock, unlock], [lock, NEXT, unlock], [lost, regained], [lost, NEXT, regained],
            installed_again(card, number) + registered_again(arrived, number)]
