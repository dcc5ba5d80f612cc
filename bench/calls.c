/* Time and peak stack of each call, through the doors of the library and in the plain C of baseline/, on cards filled by the same calls. Prints
   a line a call: name, nanoseconds here and there, bytes of stack here and there; last, the sizes of the cards. */
#include <stdio.h>
#include <string.h>
#include <time.h>
#include "baseline/toolkit.h"
#include "toolkit.h"

enum { CARDS = 32, ROUNDS = 3000, DEPTH = 32768 };

struct both {
    struct toolkit_card ours;
    struct card plain;
};

static const struct toolkit_request request = {5, 1, 4, 15, {{0, 0}, {1, 0}, {2, 0}, {0, 0}}};
static const struct toolkit_request no_entries = {5, 1, 0, 15, {{0, 0}}};
static const uint8_t text[] = "Crate label 123", title[] = "Packing station No 7", profile[32] = {0xFF, 0xFF};
static const int16_t events[] = {1, 9, 12, 13, 14, 15, 16, 17, 18, 20, 21, 25, 26, 28, 29, 123, -1};
static const uint8_t selection[] = {0xD3, 9, 0x82, 2, 0x82, 0x81, 0x90, 1, 139, 0x95, 0};
static const uint8_t long_tags[] = {0xD3, 15, 0x7F, 0x80, 0x02, 2, 0x82, 0x81, 0x7F, 0x80, 0x10, 1, 139, 0x7F, 0x80, 0x15, 0};
static const uint8_t download[] = {0xD6, 7, 0x82, 2, 0x82, 0x81, 0x99, 1, 5};
static const uint8_t expiry[] = {0xD7, 7, 0x82, 2, 0x82, 0x81, 0xA4, 1, 8};
static const uint8_t unrecognized[] = {0xC1, 4, 0x82, 2, 0x82, 0x81};
static const uint8_t command[] = {0xD0, 12, 0x81, 3, 1, 0x27, 0, 0x82, 2, 0x81, 0x82, 0xA4, 1, 8};
static struct toolkit_bank bank = {{1, 2, 3, 4, 5, 6, 7, 0}};
static uint8_t plain_bank[TIMERS] = {1, 2, 3, 4, 5, 6, 7, 0}, buffer[TOOLKIT_BUFFER], menu[TOOLKIT_BUFFER], menu_length, number, marks;
static struct part part;
static struct menu read;
static bool yes;
struct both spare;

static uint8_t fresh_ours(struct both *b)
{
    struct toolkit_made made = toolkit_fresh(title, TITLE);
    b->ours = made.card;
    return made.refusal;
}

static uint8_t send_ours(struct both *b)
{
    return toolkit_send(&b->ours, 8, command, sizeof command).refusal;
}

static uint8_t send_plain(struct both *b)
{
    return card_send(&b->plain, 8, command, sizeof command);
}

static void respond(struct both *b)
{
    toolkit_response(&b->ours);
    card_response(&b->plain);
}

static void hand_out(struct both *b)
{
    toolkit_system_command(&b->ours, buffer, sizeof buffer);
    card_system_command(&b->plain, buffer, sizeof buffer, &number);
    respond(b);
}

static void set_all(struct both *b, uint8_t applet)
{
    for (size_t i = 0; i < sizeof events / sizeof *events; i++) {
        toolkit_set_event(&b->ours, applet, events[i]);
        card_set_event(&b->plain, applet, events[i]);
    }
}

/* Eight applets with a timer, all events and a poll interval each, the last one's the shortest, twelve rows of the longest text, a session;
   the menu, the events and the interval are due, and all eight wait for their turns in the profile's round. */
static void fill(struct both *b)
{
    fresh_ours(b);
    card_fresh(&b->plain, title, TITLE);
    for (uint8_t applet = 1; applet <= APPLETS; applet++) {
        const struct toolkit_request *asked = applet <= 3 ? &request : &no_entries;
        struct terms terms;
        memcpy(&terms, asked, sizeof terms);
        toolkit_install(&b->ours, applet, *asked);
        card_install(&b->plain, applet, &terms);
        toolkit_allocate_timer(&b->ours, applet);
        card_allocate(&b->plain, applet, &number);
        set_all(b, applet);
        toolkit_request_poll(&b->ours, applet, (int16_t)(900 - 60 * applet));
        card_request_poll(&b->plain, applet, (int16_t)(900 - 60 * applet));
    }
    for (uint8_t row = 0; row < ROWS; row++) {
        toolkit_new_entry(&b->ours, row / 4 + 1, true, text, TEXT);
        card_new_entry(&b->plain, row / 4 + 1, text, TEXT, true, &number);
    }
    toolkit_profile(&b->ours, profile, sizeof profile);
    card_profile(&b->plain, profile, sizeof profile, &marks);
}

/* What is done to a filled card before a call. */
static void nothing(struct both *b)
{
    (void)b;
}

static void without_3(struct both *b)
{
    toolkit_delete(&b->ours, 3);
    card_delete(&b->plain, 3);
}

static void locked_3(struct both *b)
{
    toolkit_lock(&b->ours, 3);
    card_lock(&b->plain, 3);
}

/* Applet 3 again, with three of its rows. */
static void one_row_short(struct both *b)
{
    struct terms terms;
    memcpy(&terms, &request, sizeof terms);
    without_3(b);
    toolkit_install(&b->ours, 3, request);
    card_install(&b->plain, 3, &terms);
    for (int row = 0; row < 3; row++) {
        toolkit_new_entry(&b->ours, 3, true, text, TEXT);
        card_new_entry(&b->plain, 3, text, TEXT, true, &number);
    }
}

static void timer_8_free(struct both *b)
{
    toolkit_release_timer(&b->ours, 8, 8);
    card_release(&b->plain, 8, 8);
}

static void lists_handed_out(struct both *b)
{
    hand_out(b);
    hand_out(b);
}

static void outstanding(struct both *b)
{
    send_ours(b);
    send_plain(b);
}

static void turns(struct both *b, int count)
{
    for (int i = 0; i < count; i++) {
        toolkit_next(&b->ours);
        card_next(&b->plain, &number);
    }
}

#define TURNS(name, count) static void name(struct both *b) { turns(b, count); }
TURNS(one_waits, APPLETS - 1)
TURNS(nobody_waits, APPLETS)
TURNS(round_over, APPLETS + 1)

static void help_asked(struct both *b)
{
    toolkit_envelope(&b->ours, selection, sizeof selection);
    card_envelope(&b->plain, selection, sizeof selection, &marks);
}

#define CALLS(CALL)                                                                                                                     \
    CALL(copy_of_card, nothing, (spare.ours = b->ours, 0), (spare.plain = b->plain, 0))                                                 \
    CALL(fresh, nothing, fresh_ours(b), card_fresh(&b->plain, title, TITLE))                                                            \
    CALL(install, without_3, toolkit_install(&b->ours, 3, request).refusal, card_install(&b->plain, 3, (const void *)&request))         \
    CALL(delete, nothing, toolkit_delete(&b->ours, 2).refusal, card_delete(&b->plain, 2))                                               \
    CALL(lock, nothing, toolkit_lock(&b->ours, 3).refusal, card_lock(&b->plain, 3))                                                     \
    CALL(unlock, locked_3, toolkit_unlock(&b->ours, 3).refusal, card_unlock(&b->plain, 3))                                              \
    CALL(set_event, nothing, toolkit_set_event(&b->ours, 8, 29).refusal, card_set_event(&b->plain, 8, 29))                              \
    CALL(clear_event, nothing, toolkit_clear_event(&b->ours, 8, 29).refusal, card_clear_event(&b->plain, 8, 29))                        \
    CALL(ask_event, nothing, toolkit_ask_event(&b->ours, 8, 29).refusal, card_ask_event(&b->plain, 8, 29, &yes))                        \
    CALL(request_poll, nothing, toolkit_request_poll(&b->ours, 8, 310).refusal, card_request_poll(&b->plain, 8, 310))                   \
    CALL(new_entry, one_row_short, toolkit_new_entry(&b->ours, 3, true, text, TEXT).refusal,                                            \
         card_new_entry(&b->plain, 3, text, TEXT, true, &number))                                                                       \
    CALL(change_entry, nothing, toolkit_change_entry(&b->ours, 3, 139, false, text, 14).refusal,                                        \
         card_change_entry(&b->plain, 3, 139, text, 14, false))                                                                         \
    CALL(enable_entry, nothing, toolkit_enable_entry(&b->ours, 3, 139).refusal, card_enable_entry(&b->plain, 3, 139))                   \
    CALL(disable_entry, nothing, toolkit_disable_entry(&b->ours, 3, 139).refusal, card_disable_entry(&b->plain, 3, 139))                \
    CALL(allocate_timer, timer_8_free, toolkit_allocate_timer(&b->ours, 8).refusal, card_allocate(&b->plain, 8, &number))               \
    CALL(release_timer, nothing, toolkit_release_timer(&b->ours, 8, 8).refusal, card_release(&b->plain, 8, 8))                          \
    CALL(profile, nothing, toolkit_profile(&b->ours, profile, 32).refusal, card_profile(&b->plain, profile, 32, &marks))                \
    CALL(envelope_help, nothing, toolkit_envelope(&b->ours, selection, sizeof selection).refusal,                                       \
         card_envelope(&b->plain, selection, sizeof selection, &marks))                                                                 \
    CALL(envelope_long_tags, nothing, toolkit_envelope(&b->ours, long_tags, sizeof long_tags).refusal,                                  \
         card_envelope(&b->plain, long_tags, sizeof long_tags, &marks))                                                                 \
    CALL(envelope_event, nothing, toolkit_envelope(&b->ours, download, sizeof download).refusal,                                        \
         card_envelope(&b->plain, download, sizeof download, &marks))                                                                   \
    CALL(envelope_timer, nothing, toolkit_envelope(&b->ours, expiry, sizeof expiry).refusal,                                            \
         card_envelope(&b->plain, expiry, sizeof expiry, &marks))                                                                       \
    CALL(envelope_other, nothing, toolkit_envelope(&b->ours, unrecognized, sizeof unrecognized).refusal,                                \
         card_envelope(&b->plain, unrecognized, sizeof unrecognized, &marks))                                                           \
    CALL(status, nothing, toolkit_status(&b->ours).refusal, card_status(&b->plain, &marks))                                             \
    CALL(settled, round_over, toolkit_settled(&b->ours).refusal, card_settled(&b->plain, &marks))                                       \
    CALL(next_event, one_waits, toolkit_next(&b->ours).refusal, card_next(&b->plain, &number))                                          \
    CALL(next_help, help_asked, toolkit_next(&b->ours).refusal, card_next(&b->plain, &number))                                          \
    CALL(next_nobody, nobody_waits, toolkit_next(&b->ours).refusal, card_next(&b->plain, &number))                                      \
    CALL(send, nothing, send_ours(b), send_plain(b))                                                                                    \
    CALL(command_menu, nothing, toolkit_system_command(&b->ours, buffer, sizeof buffer).refusal,                                        \
         card_system_command(&b->plain, buffer, sizeof buffer, &number))                                                                \
    CALL(command_events, hand_out, toolkit_system_command(&b->ours, buffer, sizeof buffer).refusal,                                     \
         card_system_command(&b->plain, buffer, sizeof buffer, &number))                                                                \
    CALL(command_interval, lists_handed_out, toolkit_system_command(&b->ours, buffer, sizeof buffer).refusal,                           \
         card_system_command(&b->plain, buffer, sizeof buffer, &number))                                                                \
    CALL(response, outstanding, toolkit_response(&b->ours).refusal, card_response(&b->plain))                                           \
    CALL(find_element, nothing, !toolkit_find(menu + 3, menu_length - 3u, 0x0F, 12).there,                                              \
         !find_element(menu + 3, menu_length - 3u, 0x0F, 12, &part))                                                                    \
    CALL(handler_content, nothing, toolkit_content(selection, sizeof selection).len != 9,                                               \
         handler_content(selection, sizeof selection).length != 9)                                                                      \
    CALL(menu_reader, nothing, toolkit_read_menu(menu, menu_length).refusal, read_menu(menu, menu_length, &read))                       \
    CALL(bank_both_calls, nothing, toolkit_bank_allocate(&bank, 8, 8).refusal + toolkit_bank_release(&bank, 8, 8).refusal,              \
         bank_allocate(plain_bank, 8, 8, &number) + bank_release(plain_bank, 8, 8, 8))

#define DEFINE(name, before, here, there)                                                            \
    __attribute__((noinline)) static uint8_t ours_##name(struct both *b) { (void)b; return (uint8_t)(here); }   \
    __attribute__((noinline)) static uint8_t plain_##name(struct both *b) { (void)b; return (uint8_t)(there); }
#define LIST(name, before, here, there) {#name, before, {ours_##name, plain_##name}},

CALLS(DEFINE)

static const struct {
    const char *name;
    void (*before)(struct both *);
    uint8_t (*side[2])(struct both *);
} calls[] = {CALLS(LIST)};

static struct both cards[CARDS], filled;

static double seconds(void)
{
    struct timespec t;
    clock_gettime(CLOCK_MONOTONIC, &t);
    return (double)t.tv_sec + 1e-9 * (double)t.tv_nsec;
}

/* The time of one round of calls, each on a card of its own. */
static double round_of(uint8_t (*call)(struct both *), const struct both *start)
{
    for (int i = 0; i < CARDS; i++)
        cards[i] = *start;
    double began = seconds();
    for (int i = 0; i < CARDS; i++)
        call(&cards[i]);
    return seconds() - began;
}

/* The bytes below this function's frame that a call writes to, of a painted stretch. */
__attribute__((noinline)) static size_t stack_of(uint8_t (*call)(struct both *), const struct both *start)
{
    size_t most = 0;
    for (int paint = 0; paint < 4; paint++) {
        const uint8_t colour = paint % 2 ? 0x5A : 0xA5;
        uint8_t *top;
        volatile uint8_t *p;
        cards[0] = *start;
        __asm__ volatile("mov %%rsp, %0" : "=r"(top));
        for (p = top - DEPTH; p != top; p++)
            *p = colour;
        call(&cards[0]);
        for (p = top - DEPTH; p != top && *p == colour; p++) {}
        if (paint >= 2 && (size_t)(top - p) > most)
            most = (size_t)(top - p);
    }
    return most;
}

int main(void)
{
    fill(&filled);
    cards[0] = filled;
    menu_length = toolkit_system_command(&cards[0].ours, menu, sizeof menu).number;
    for (size_t i = 0; i < sizeof calls / sizeof *calls; i++) {
        struct both start = filled;
        double best[2] = {1, 1};
        size_t stack[2];
        calls[i].before(&start);
        for (int side = 0; side < 2; side++) {
            cards[0] = start;
            if (calls[i].side[side](&cards[0]) != 0) {
                printf("%s is refused\n", calls[i].name);
                return 1;
            }
            stack[side] = stack_of(calls[i].side[side], &start);
        }
        for (int round = 0; round < ROUNDS; round++)
            for (int side = 0; side < 2; side++) {
                double took = round_of(calls[i].side[side], &start);
                if (took < best[side])
                    best[side] = took;
            }
        printf("%s %.2f %.2f %zu %zu\n", calls[i].name, best[0] / CARDS * 1e9, best[1] / CARDS * 1e9, stack[0], stack[1]);
    }
    printf("card %zu %zu\n", sizeof(struct toolkit_card), sizeof(struct card));
    return 0;
}
