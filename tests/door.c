/* Makes calls through the doors of the library. A request on standard input is a struct request, then the bytes given, then the buffer lent; what
   comes back on standard output is whether nothing else was touched, then what the door gave, the card, and the buffer as it was left. */
#include <stdio.h>
#include <string.h>
#include "toolkit.h"

enum { MOST = 4096, GUARD = 64, PAINT = 0xC3 };

struct request {
    char door[24];                      /* its name behind toolkit_ */
    uint8_t applet, number, help, null; /* number: a row, a timer or a limit; null: what has length 0 is a null pointer */
    int16_t value;                      /* an event or a duration */
    uint16_t tag;
    uint32_t length, lent;
    uint64_t occurrence;
};

/* The card, the bytes given and the buffer lent, each between guards; the card stands two bytes past a multiple of eight. */
static _Alignas(8) struct { uint8_t before[GUARD + 2]; struct toolkit_card card; uint8_t behind[GUARD]; } held;
static uint8_t given[GUARD + MOST + GUARD], kept[GUARD + MOST + GUARD], lent[GUARD + MOST + GUARD];

static bool painted(const uint8_t *bytes, size_t length)
{
    for (size_t i = 0; i < length; i++)
        if (bytes[i] != PAINT)
            return false;
    return true;
}

static bool intact(const struct request *r)
{
    return painted(held.before, sizeof held.before) && painted(held.behind, sizeof held.behind) && painted(lent, GUARD)
        && painted(lent + GUARD + r->lent, sizeof lent - GUARD - r->lent) && memcmp(given, kept, sizeof given) == 0;
}

static void put(const void *bytes, size_t length)
{
    fwrite(bytes, 1, length, stdout);
}

static bool is(const struct request *r, const char *door)
{
    return strcmp(r->door, door) == 0;
}

static struct toolkit_answer call(const struct request *r, struct toolkit_card *card, const uint8_t *bytes, uint8_t *buffer)
{
    struct toolkit_request request;
    if (is(r, "install")) {
        memcpy(&request, bytes, sizeof request);
        return toolkit_install(card, r->applet, request);
    }
    if (is(r, "delete")) return toolkit_delete(card, r->applet);
    if (is(r, "lock")) return toolkit_lock(card, r->applet);
    if (is(r, "unlock")) return toolkit_unlock(card, r->applet);
    if (is(r, "set_event")) return toolkit_set_event(card, r->applet, r->value);
    if (is(r, "clear_event")) return toolkit_clear_event(card, r->applet, r->value);
    if (is(r, "ask_event")) return toolkit_ask_event(card, r->applet, r->value);
    if (is(r, "request_poll")) return toolkit_request_poll(card, r->applet, r->value);
    if (is(r, "new_entry")) return toolkit_new_entry(card, r->applet, r->help != 0, bytes, r->length);
    if (is(r, "change_entry")) return toolkit_change_entry(card, r->applet, r->number, r->help != 0, bytes, r->length);
    if (is(r, "enable_entry")) return toolkit_enable_entry(card, r->applet, r->number);
    if (is(r, "disable_entry")) return toolkit_disable_entry(card, r->applet, r->number);
    if (is(r, "allocate_timer")) return toolkit_allocate_timer(card, r->applet);
    if (is(r, "release_timer")) return toolkit_release_timer(card, r->applet, r->number);
    if (is(r, "profile")) return toolkit_profile(card, bytes, r->length);
    if (is(r, "envelope")) return toolkit_envelope(card, bytes, r->length);
    if (is(r, "status")) return toolkit_status(card);
    if (is(r, "settled")) return toolkit_settled(card);
    if (is(r, "next")) return toolkit_next(card);
    if (is(r, "send")) return toolkit_send(card, r->applet, bytes, r->length);
    if (is(r, "system_command")) return toolkit_system_command(card, buffer, r->lent);
    return toolkit_response(card);
}

static void put_spot(bool whole, struct toolkit_spot spot)
{
    put(&whole, 1);
    put(&spot.start, 8);
    put(&spot.len, 8);
    put(&spot.there, 1);
}

static void put_answer(bool whole, struct toolkit_answer answer)
{
    put(&whole, 1);
    put(&answer, sizeof answer);
}

/* A call is made before its result is put, so that what it touched is known by then. */
static void answer_request(const struct request *r)
{
    const uint8_t *bytes = r->null && r->length == 0 ? NULL : given + GUARD;
    uint8_t *buffer = r->null && r->lent == 0 ? NULL : lent + GUARD;
    struct toolkit_bank bank;
    bool whole;

    if (is(r, "fresh")) {
        struct toolkit_made made = toolkit_fresh(bytes, r->length);
        whole = intact(r);
        held.card = made.card;
        put(&whole, 1);
        put(&made.refusal, 1);
    } else if (is(r, "find")) {
        struct toolkit_spot spot = toolkit_find(bytes, r->length, r->tag, r->occurrence);
        put_spot(intact(r), spot);
    } else if (is(r, "content")) {
        struct toolkit_spot spot = toolkit_content(bytes, r->length);
        put_spot(intact(r), spot);
    } else if (is(r, "read_menu")) {
        struct toolkit_menu menu = toolkit_read_menu(bytes, r->length);
        whole = intact(r);
        put(&whole, 1);
        put(&menu, sizeof menu);
    } else if (is(r, "bank_allocate") || is(r, "bank_release")) {
        memcpy(&bank, bytes, sizeof bank);
        struct toolkit_answer answer = is(r, "bank_allocate") ? toolkit_bank_allocate(&bank, r->applet, r->number)
                                                              : toolkit_bank_release(&bank, r->applet, r->number);
        put_answer(intact(r), answer);
        put(&bank, sizeof bank);
    } else {
        struct toolkit_answer answer = call(r, &held.card, bytes, buffer);
        put_answer(intact(r), answer);
    }
    put(&held.card, sizeof held.card);
    put(lent + GUARD, r->lent);
}

int main(void)
{
    struct request r;
    while (fread(&r, sizeof r, 1, stdin) == 1) {
        if (r.length > MOST || r.lent > MOST)
            return 2;
        memset(held.before, PAINT, sizeof held.before);
        memset(held.behind, PAINT, sizeof held.behind);
        memset(given, PAINT, sizeof given);
        memset(lent, PAINT, sizeof lent);
        if (fread(given + GUARD, 1, r.length, stdin) != r.length || fread(lent + GUARD, 1, r.lent, stdin) != r.lent)
            return 2;
        memcpy(kept, given, sizeof given);
        answer_request(&r);
    }
    return 0;
}
