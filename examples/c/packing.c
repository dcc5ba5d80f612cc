/* Two packing stations that want a menu entry of the same title, and two trackers that STATUS wakes, as a card operating system would serve them. */
#include <stdio.h>
#include "toolkit.h"

static void print_hex(const char *label, const uint8_t *bytes, size_t length)
{
    printf("%s", label);
    for (size_t i = 0; i < length; i++)
        printf(" %02X", bytes[i]);
    printf("\n");
}

/* The refusal, or what an accepted call answers. */
static void print_answer(const char *call, struct toolkit_answer answer)
{
    if (answer.refusal != TOOLKIT_ACCEPTED) {
        printf("%-22s refused, %u\n", call, answer.refusal);
        return;
    }
    printf("%-22s accepted", call);
    if (answer.number != 0)
        printf(", number %u", answer.number);
    printf("\n");
}

static void run_round(struct toolkit_card *card)
{
    uint8_t applet;
    while ((applet = toolkit_next(card).called) != 0)
        printf("  calls applet %u\n", applet);
}

/* What follows an arrival: the turns of its round, and when everyone has returned those of the ones that wait for the proactive handler. */
static void serve(struct toolkit_card *card)
{
    run_round(card);
    toolkit_settled(card);
    run_round(card);
}

static struct toolkit_answer choose(struct toolkit_card *card, uint8_t identifier)
{
    const uint8_t menu_selection[] = {0xD3, 0x07, 0x82, 0x02, 0x01, 0x81, 0x90, 0x01, identifier};
    return toolkit_envelope(card, menu_selection, sizeof menu_selection);
}

/* Applets 3 and 4 are to be woken by the terminal's STATUS, which comes every five minutes from the response on. The later installed comes
   first, and locks the other, which has not had its turn and does not get it. */
static void track(struct toolkit_card *card)
{
    const struct toolkit_request tracker = {.priority = 5};
    struct toolkit_answer answer;
    uint8_t buffer[TOOLKIT_BUFFER];

    print_answer("install applet 3", toolkit_install(card, 3, tracker));
    print_answer("install applet 4", toolkit_install(card, 4, tracker));
    print_answer("polling for applet 3", toolkit_request_poll(card, 3, 600));
    print_answer("polling for applet 4", toolkit_request_poll(card, 4, 300));
    answer = toolkit_system_command(card, buffer, sizeof buffer);
    print_answer("system command", answer);
    print_hex("poll interval", buffer, answer.number);
    print_answer("response", toolkit_response(card));
    print_answer("STATUS", toolkit_status(card));
    printf("  calls applet %u\n", toolkit_next(card).called);
    print_answer("  which locks applet 3", toolkit_lock(card, 3));
    serve(card);
    print_answer("a next too many", toolkit_next(card));
}

int main(void)
{
    const struct toolkit_request station = {.priority = 5, .timers = 1, .entries = 1, .text = 15, .pairs = {{0, 0}}};
    const uint8_t profile[] = {0xFF}, timer_expired[] = {0xD7, 0x07, 0x82, 0x02, 0x82, 0x81, 0xA4, 0x01, 0x01};
    struct toolkit_card card = toolkit_fresh("Packing", 7).card;
    struct toolkit_answer answer;
    uint8_t buffer[TOOLKIT_BUFFER];

    print_answer("install applet 1", toolkit_install(&card, 1, station));
    print_answer("install applet 2", toolkit_install(&card, 2, station));
    print_answer("entry of applet 1", toolkit_new_entry(&card, 1, false, "Pick list", 9));
    print_answer("entry of applet 2", toolkit_new_entry(&card, 2, false, "Pick list", 9));
    print_answer("a second of applet 2", toolkit_new_entry(&card, 2, false, "Crate label", 11));

    print_answer("profile", toolkit_profile(&card, profile, sizeof profile));
    serve(&card);
    answer = toolkit_system_command(&card, buffer, sizeof buffer);
    print_answer("system command", answer);
    print_hex("menu", buffer, answer.number);
    print_answer("one more meanwhile", toolkit_system_command(&card, buffer, sizeof buffer));
    print_answer("response", toolkit_response(&card));

    for (uint8_t i = 0; i < card.rows.count; i++) {
        const struct toolkit_row *row = &card.rows.at[i];
        printf("row %u: %.*s\n", row->identifier, row->len, (const char *)row->text);
        print_answer("  is chosen", choose(&card, row->identifier));
        serve(&card);
    }

    print_answer("timer for applet 2", toolkit_allocate_timer(&card, 2));
    print_answer("it expires", toolkit_envelope(&card, timer_expired, sizeof timer_expired));
    serve(&card);
    print_answer("released by applet 1", toolkit_release_timer(&card, 1, 1));
    print_answer("released by applet 2", toolkit_release_timer(&card, 2, 1));

    track(&card);
    return 0;
}
