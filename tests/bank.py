"""The timers of document 01: a bank of eight owners, on the card or standing alone."""

from functools import wraps

from coding import Answer, Refusal, Refused, refuse_if

APPLET_NUMBERS = TIMER_NUMBERS = range(1, 9)
TIMER_LIMIT = 8
FREE = 0


def take_timer(owners, applet, limit):
    refuse_if(owners.count(applet) >= min(limit, TIMER_LIMIT), Refusal.TIMER_LIMIT)
    free = [timer for timer in TIMER_NUMBERS if owners[timer - 1] not in APPLET_NUMBERS]
    refuse_if(not free, Refusal.NO_TIMER_FREE)
    owners[free[0] - 1] = applet
    return Answer(number=free[0])


def give_timer_back(owners, applet, timer):
    refuse_if(not owns_timer(owners, applet, timer), Refusal.NOT_ITS_TIMER)
    owners[timer - 1] = FREE
    return Answer()


def owns_timer(owners, applet, timer):
    return timer in TIMER_NUMBERS and owners[timer - 1] == applet


def on_bank(step):
    """A timer call on a bank of eight owners lent by the caller."""
    @wraps(step)
    def call(owners, applet, last):
        try:
            refuse_if(applet not in APPLET_NUMBERS, Refusal.NO_APPLET)
            return step(owners, applet, last)
        except Refused as refused:
            return Answer(refused.number)
    return call


bank_allocate = on_bank(take_timer)
bank_release = on_bank(give_timer_back)
